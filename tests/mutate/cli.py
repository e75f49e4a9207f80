"""The command: reads the words, makes the variants, has them tried and reports."""
import argparse
import collections
import os
import random
import sys
import threading

from kinds import Names, variants
from ledger import Ledger, allowed
from run import Bench, Trial, heed_stops, try_all
from selftest import selftest
from tree import Crates, files_below, tree_hash

HELP = """Makes small wrong variants of the definitions in crates/*/specs, one at a time in a copy of the tree, checks
the crate and then the crates above it until one refuses, and prints the variants that none refuses.

A WHAT is a spec file (crates/NAME/specs/X.antt) or a crate's name; none means every spec file. It can be stopped
and goes on: target/mutants/results.tsv keeps each result, for as long as no file of the crates changes.
tests/mutants.allowed lists the survivors that may survive, with the reason. The copies stand in a temporary folder
(below TMPDIR, with 1 to 2 GB for each job) and go at the end."""
STATUS = 'Exit status: 0 none survived that is not allowed; 1 some did, or the checker gave up on some; 2 wrong use, or the tree itself is not proved.'


def words(argv):
    p = argparse.ArgumentParser(prog='tests/mutants', description=HELP, epilog=STATUS, formatter_class=argparse.RawDescriptionHelpFormatter)
    p.add_argument('what', nargs='*', metavar='WHAT', help='a spec file or a crate')
    p.add_argument('--list', action='store_true', help='print the variants and check nothing')
    p.add_argument('--known', action='store_true', help='print the figures of what is known and check nothing')
    p.add_argument('--jobs', type=int, default=os.cpu_count() or 1, help='how many at a time (default: the processors)')
    p.add_argument('--up-to', metavar='CRATES', default='', help='try only these crates and those below them (names joined by commas)')
    p.add_argument('--only', metavar='NAMES', default='', help='only the definitions of these names (joined by commas)')
    p.add_argument('--kinds', default='', help='only slips of these kinds (joined by commas), as --list names them')
    p.add_argument('--sample', type=int, metavar='N', help='only N of the variants, drawn at random')
    p.add_argument('--seed', type=int, default=1, help='the seed of the draw (default: 1)')
    p.add_argument('--again', choices=['passed', 'refused', 'ill-formed', 'unclear'], help='only variants that were passed, refused or ill-formed when last tried, whatever the crates were then; a refusal is tried anew')
    p.add_argument('--keep', action='store_true', help='count the results of an earlier state of the crates')
    p.add_argument('--selftest', action='store_true', help='try the maker of variants on a few lines of its own')
    return p.parse_args(argv)


def spec_files(root, crates, what):
    """The files asked for, as (crate, path); a word that is neither a spec file nor a crate is wrong use."""
    found = []
    for w in what or sorted(crates.deps):
        if w in crates.deps:
            paths = files_below(os.path.join(root, 'crates', w, 'specs'))
            found += [(w, os.path.relpath(p, root)) for p in paths if p.endswith('.antt')]
            continue
        path = os.path.relpath(os.path.abspath(w), root)
        cells = path.split(os.sep)
        if cells[0] != 'crates' or 'specs' not in cells or cells[1] not in crates.deps or not os.path.isfile(os.path.join(root, path)):
            return None, w
        found.append((cells[1], path))
    return found, ''


def names_of(root, crates, crate):
    """The names that a crate's definitions may cite; its own win over another crate's of the same name."""
    names = Names()
    for c in [c for c in crates.deps if c != crate] + [crate]:
        for path in files_below(os.path.join(root, 'crates', c, 'specs')):
            names.take(read(path))
    return names


def read(path):
    with open(path, encoding='utf-8') as f:
        return f.read()


def all_trials(root, crates, files):
    known = {c: names_of(root, crates, c) for c in {c for c, _ in files}}
    for crate, file in files:
        source = read(os.path.join(root, file))
        for v in variants(source, known[crate]):
            yield Trial(crate, file, source, v)


def chosen(trials, args, ledger):
    if args.only:
        trials = [t for t in trials if t.variant.name in args.only.split(',')]
    if args.kinds:
        trials = [t for t in trials if t.variant.kind in args.kinds.split(',')]
    if args.again:
        trials = [t for t in trials if t.key in ledger.past and ledger.past[t.key].word == args.again]
    if args.sample is not None and args.sample < len(trials):
        picked = set(random.Random(args.seed).sample(range(len(trials)), args.sample))
        trials = [t for i, t in enumerate(trials) if i in picked]
    return trials


class Report:
    """A line for each variant as it is tried, and the figures at the end."""

    def __init__(self, may, total):
        self.may, self.total, self.results, self.lock = may, total, [], threading.Lock()

    def add(self, trial, outcome, quiet=False):
        with self.lock:
            self.results.append((trial, outcome))
            if not quiet:
                print(f'[{len(self.results)}/{self.total}] {trial.title()}: {self.said(trial, outcome)}', flush=True)

    def said(self, trial, outcome):
        if outcome.word == 'passed':
            return 'survived, as it may' if self.reason(trial) else 'SURVIVED'
        return f'{outcome.word} by {outcome.crates[-1]} ({outcome.where})'

    def reason(self, trial):
        return self.may.get((trial.file, trial.variant.label()))

    def of(self, word):
        return [(t, o) for t, o in self.results if o.word == word]

    def end(self, upto):
        """The figures and the survivors; the exit status."""
        by_crate = collections.Counter(o.crates[-1] for _, o in self.of('refused'))
        passed = sorted(self.of('passed'), key=lambda r: (r[0].file, r[0].variant.start))
        floating = [t for t, _ in passed if not self.reason(t)]
        print(f'\n{len(self.results)} tried of {self.total}: {len(self.of("ill-formed"))} ill-formed, '
              f'{len(self.of("refused"))} refused, {len(passed)} survived{upto}, {len(self.of("unclear"))} unclear')
        print('refused by: ' + (', '.join(f'{c} {n}' for c, n in by_crate.most_common()) or 'none'))
        self.table('by file', lambda t: t.file)
        self.table('by kind', lambda t: t.variant.kind)
        for t, o in self.of('unclear'):
            print(f'unclear: {t.title()}: {o.crates[-1]}, {o.where}')
        for t, _ in passed:
            if self.reason(t):
                print(f'survived, as it may: {t.title()}\n    {self.reason(t)}')
        for t in floating:
            print(f'SURVIVED: {t.title()}\n    {t.changed_line()}')
        return 1 if floating or self.of('unclear') else 0

    def table(self, title, of):
        """How the variants fared, by their file or by their kind."""
        rows = collections.defaultdict(collections.Counter)
        for t, o in self.results:
            rows[of(t)][o.word] += 1
        print(f'{title}: tried, ill-formed, refused, survived')
        for name, n in sorted(rows.items()):
            print(f'  {name}: {sum(n.values())}, {n["ill-formed"]}, {n["refused"]}, {n["passed"]}')


def wanted_crates(crates, upto):
    if not upto:
        return list(crates.deps)
    return [c for name in upto.split(',') for c in crates.below(name)]


def wrong(message):
    print('tests/mutants: ' + message, file=sys.stderr)
    return 2


def main(root, argv):
    args = words(argv)
    if args.selftest:
        return selftest()
    crates = Crates(root)
    files, odd = spec_files(root, crates, args.what)
    if files is None:
        return wrong(f'{odd} is neither a spec file nor a crate (--help says more)')
    if args.jobs < 1 or any(n not in crates.deps for n in args.up_to.split(',') if args.up_to):
        return wrong('--jobs is 1 or more, and --up-to names crates')
    os.makedirs(os.path.join(root, 'target', 'mutants'), exist_ok=True)
    ledger = Ledger(os.path.join(root, 'target', 'mutants', 'results.tsv'), tree_hash(root), args.keep)
    trials = chosen(list(all_trials(root, crates, files)), args, ledger)
    if args.list:
        for t in trials:
            print(t.title())
        print(f'{len(trials)} variants')
        return 0
    return try_and_report(root, crates, trials, args, ledger)


def try_and_report(root, crates, trials, args, ledger):
    wanted = wanted_crates(crates, args.up_to)
    report = Report(allowed(os.path.join(root, 'tests', 'mutants.allowed')), len(trials))
    left = []
    for t in trials:
        reached = [t.crate] + [c for c in crates.above(t.crate) if c in wanted]
        known = ledger.find(t.key, reached)
        if known and args.again in (None, 'passed'):
            report.add(t, known, quiet=True)
        else:
            left.append(t)

    def done(trial, outcome):
        ledger.write(trial.key, outcome, trial.file, trial.variant.label())
        report.add(trial, outcome)

    ended = 0
    if left and not args.known:
        print(f'{len(report.results)} known, {len(left)} to try; the tree itself first', flush=True)
        bench = Bench(root, crates, set(wanted) | {c for t in left for c in crates.below(t.crate)})
        ended = try_left(bench, left, args.jobs, done)
    if ended == 2:
        return ended
    status = report.end(f' (of the crates up to {args.up_to})' if args.up_to else '')
    return ended or status


def try_left(bench, left, jobs, done):
    """0, or the status of a run that did not come to its end."""
    heed_stops()
    try:
        if not bench.lock():
            return wrong('another run is under way here')
        fault = bench.prepare()
        if fault:
            return wrong('the tree itself is not proved:\n' + fault[-2000:])
        return 0 if try_all(bench, left, jobs, done) else 130
    except KeyboardInterrupt:
        return 130
    finally:
        bench.clear()
