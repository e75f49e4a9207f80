/* The header's prototype beside the test's own: the compiler refuses them if they differ. It is
 * compiled as C and as C++. */
#include "tilecheck.h"

#ifdef __cplusplus
extern "C"
#endif
uint32_t tile_check(const uint8_t *text, size_t length);
