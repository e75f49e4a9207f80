// Says whether the task set on standard input may be placed on a tile, as examples/placement.c does.
//
// Exit status: 0 it may be placed, 1 it may not, 2 there is no set to judge.
//
// Build, from the root of the repository, after `tools/build placement_c`:
//
//   g++ -Wall -Wextra -Iinclude examples/placement.cpp target/staticlib/libplacement.a -o target/placement++
#include <iostream>
#include <iterator>
#include <string>

#include "tilecheck.h"

static int tell(uint32_t answer)
{
    switch (answer) {
    case TILECHECK_MEETS:
        std::cout << "may be placed\n";
        return 0;
    case TILECHECK_MISSES:
    case TILECHECK_TOO_FAR:
        std::cout << "not to be placed\n";
        return 1;
    default:
        std::cout << "no set to judge: refusal " << answer << "\n";
        return 2;
    }
}

int main()
{
    const std::string text{std::istreambuf_iterator<char>(std::cin), {}};
    return tell(tile_check(reinterpret_cast<const uint8_t *>(text.data()), text.size()));
}
