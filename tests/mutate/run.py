"""Tries variants in copies of the tree, several at a time, and says what became of each."""
import fcntl
import os
import queue
import signal
import tempfile
import threading

from ledger import Outcome, key_of
from tree import Copy, Runs, remove

SECONDS = 600  # a check that takes longer has no verdict


class Trial:
    """A variant of a file of a crate."""

    def __init__(self, crate, file, source, variant):
        self.crate, self.file, self.source, self.variant = crate, file, source, variant
        self.changed = variant.applied(source)
        self.key = key_of(file, source, self.changed)

    def title(self):
        return f'{self.file}:{self.variant.line} {self.variant.label()}'

    def changed_line(self):
        """The line in which the variant stands, as it reads with it."""
        lines = self.variant.replaced(self.source).splitlines()
        return lines[min(self.variant.line, len(lines)) - 1].strip()


class Bench:
    """A base copy that is proved, and a copy for each worker. They stand outside the tree, where rt wants no second crates."""

    def __init__(self, root, crates, wanted):
        self.root, self.crates, self.wanted = root, crates, wanted
        self.runs = Runs()
        self.folder = tempfile.mkdtemp(prefix='mutants-')
        self.base = Copy(root, os.path.join(self.folder, 'base'), self.runs)

    def clear(self):
        remove(self.folder)

    def lock(self):
        """False if another run has the copies; held until the process ends."""
        self.held = open(os.path.join(self.root, 'target', 'mutants', 'lock'), 'w', encoding='utf-8')
        try:
            fcntl.flock(self.held, fcntl.LOCK_EX | fcntl.LOCK_NB)
        except OSError:
            return False
        return True

    def prepare(self):
        """Proves the tree as it stands; what goes wrong in it is returned as text."""
        self.base.take(self.root)
        for c in [c for c in self.crates.deps if c in self.wanted]:
            status, said = self.base.check(c, None)
            if status != 0:
                return said
        self.crates.weigh(self.base)
        return ''

    def worker(self, number):
        copy = Copy(self.root, os.path.join(self.folder, f'work-{number}'), self.runs)
        copy.take(self.base.folder)
        return copy

    def attempt(self, copy, trial):
        """One variant, from the crate itself upwards, and the copy as it was again."""
        touched = []
        with open(copy.path(trial.file), 'w', encoding='utf-8') as f:
            f.write(trial.changed)
        try:
            return self.climb(copy, trial, touched)
        finally:
            with open(copy.path(trial.file), 'w', encoding='utf-8') as f:
                f.write(trial.source)
            copy.restore(self.base, touched)

    def climb(self, copy, trial, touched):
        for c in self.crates.order(trial.crate, trial.variant.name, self.wanted):
            touched.append(c)
            status, said = copy.check(c, SECONDS)
            if status not in (0, 1):
                return Outcome('unclear', [c], 'out of time' if status is None else 'the checker could not tell')
            if status == 1:
                return self.refusal(copy, c, said)
        return Outcome('passed', list(touched))

    def refusal(self, copy, crate, said):
        """An error in a definition's file shows only that the variant is no definition; definitions have no proofs."""
        errors = copy.errors(crate, said)
        in_specs = [e for e in errors if '/specs/' in e]
        if in_specs:
            return Outcome('ill-formed', [crate], in_specs[0])
        return Outcome('refused', [crate], errors[0] if errors else 'no place named')


def heed_stops():
    """A stop is an exception from now on, so that the copies go; a shell starts what runs behind with it ignored."""
    signal.signal(signal.SIGTERM, signal.default_int_handler)
    signal.signal(signal.SIGINT, signal.default_int_handler)


def try_all(bench, trials, jobs, done):
    """Hands the trials to the workers; done(trial, outcome) is called for each. False if it was stopped."""
    todo = queue.SimpleQueue()
    for t in trials:
        todo.put(t)
    threads = [threading.Thread(target=work, args=(bench, i, todo, done)) for i in range(min(jobs, len(trials)))]
    for t in threads:
        t.start()
    try:
        for t in threads:
            while t.is_alive():
                t.join(1)
    except KeyboardInterrupt:
        bench.runs.stop()
        for t in threads:
            t.join()
        return False
    return True


def work(bench, number, todo, done):
    try:
        copy = bench.worker(number)
        while True:
            try:
                trial = todo.get_nowait()
            except queue.Empty:
                return
            outcome = bench.attempt(copy, trial)
            # a check that was ended by a stop says nothing
            if not bench.runs.stopped:
                done(trial, outcome)
    except KeyboardInterrupt:
        pass
