"""What is known of each variant: the results of earlier runs, and the survivors that may survive."""
import hashlib
import os
import threading


class Outcome:
    """refused or ill-formed by a crate, or passed by all the crates named; unclear where the checker gave up."""

    def __init__(self, word, crates, where=''):
        self.word, self.crates, self.where = word, crates, where


class Ledger:
    """target/mutants/results.tsv: tree, key, outcome, crates, where, file and label, a line a variant."""

    def __init__(self, path, tree, keep):
        self.path, self.tree, self.lock = path, tree, threading.Lock()
        self.past, self.known = {}, {}  # of whatever state of the crates; and of the state that counts
        if os.path.exists(path):
            with open(path, encoding='utf-8') as f:
                for line in f:
                    self.load(line.rstrip('\n').split('\t'), keep)

    def load(self, cells, keep):
        if len(cells) != 7:
            return  # a line that a stop cut short
        self.past[cells[1]] = Outcome(cells[2], cells[3].split(), cells[4])
        if keep or cells[0] == self.tree:
            self.known[cells[1]] = self.past[cells[1]]

    def find(self, key, wanted):
        """A refusal counts for good; a pass counts if all the crates now wanted were tried."""
        known = self.known.get(key)
        if known and (known.word != 'passed' or set(wanted) <= set(known.crates)) and known.word != 'unclear':
            return known
        return None

    def write(self, key, outcome, file, label):
        with self.lock:
            self.known[key] = outcome
            with open(self.path, 'a', encoding='utf-8') as f:
                f.write('\t'.join([self.tree, key, outcome.word, ' '.join(outcome.crates), outcome.where, file, label]) + '\n')


def key_of(file, source, changed):
    h = hashlib.sha256()
    for part in (file, source, changed):
        h.update(part.encode() + b'\0')
    return h.hexdigest()[:16]


def allowed(path):
    """The survivors that may: blocks of 'file:', 'variant:' and 'why:' lines. None may without a reason."""
    found, file, variant = {}, '', ''
    if not os.path.exists(path):
        return found
    with open(path, encoding='utf-8') as f:
        for line in f:
            word, _, rest = line.rstrip('\n').partition(': ')
            if word == 'file':
                file = rest
            elif word == 'variant':
                variant = rest
            elif word == 'why' and rest.strip():
                found[file, variant] = rest
    return found
