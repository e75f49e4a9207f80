"""The repository's crates: which depend on which, and copies of the tree in which one definition is wrong."""
import hashlib
import os
import re
import shutil
import signal
import subprocess
import threading
import time

ERROR = re.compile(r'^(?:note: )?(\S+?):\d+:\d+: (?:error|it is not proved)', re.M)


class Crates:
    """What crates.txt says, and what a check of each costs."""

    def __init__(self, root):
        self.root, self.deps, self.cost = root, {}, {}
        with open(os.path.join(root, 'crates.txt'), encoding='utf-8') as f:
            for line in f:
                name, colon, deps = line.split('#')[0].partition(':')
                if colon:
                    self.deps[name.split()[0]] = deps.split()  # `staticlib` may follow the name
        for name, deps in self.deps.items():
            self.deps[name] = [d for d in deps if d in self.deps]

    def below(self, name):
        """A crate and all that it depends on, each after what it depends on."""
        found = []
        for d in self.deps[name]:
            found += [c for c in self.below(d) if c not in found]
        return found + [name]

    def above(self, name):
        return [c for c in self.deps if c != name and name in self.below(c)]

    def weigh(self, copy):
        """A check's cost goes by what it keeps: some 5 seconds, and about a second for each 2 MB."""
        for c in self.deps:
            self.cost[c] = 5 + folder_size(copy.path('crates', c, 'out', 'incremental')) / 2e6

    def order(self, crate, name, wanted):
        """The crates to try for a changed definition. First those whose files cite its name, the cheapest first."""
        done, left = [crate], [c for c in self.above(crate) if c in wanted]
        citing = {c for c in left if self.cites(c, name)}
        while left:
            news = {c: [d for d in self.below(c) if d in left] for c in left}
            best = min(left, key=lambda c: (c not in citing, sum(self.cost[d] for d in news[c]), c))
            done += news[best]
            left = [c for c in left if c not in done]
        return done

    def cites(self, crate, name):
        word = re.compile(r'(?<!\w)' + re.escape(name.strip('◌')) + r'(?!\w)')
        return any(word.search(text) for text in self.texts(crate))

    def texts(self, crate):
        for path in sources_below(os.path.join(self.root, 'crates', crate)):
            if path.endswith(('.rt', '.antt')):
                with open(path, encoding='utf-8') as f:
                    yield f.read()


def files_below(folder):
    return sorted(os.path.join(d, f) for d, _, fs in os.walk(folder) for f in fs)


def sources_below(folder):
    """The files that are the crates' own: not those that rt made of them."""
    return [p for p in files_below(folder) if '/out/' not in p[len(folder):]]


def folder_size(folder):
    return sum(os.path.getsize(f) for f in files_below(folder))


def tree_hash(root):
    """Of everything that a proof hangs on."""
    h = hashlib.sha256()
    for path in [os.path.join(root, 'crates.txt')] + sources_below(os.path.join(root, 'crates')):
        if '/must-fail/' not in path:
            with open(path, 'rb') as f:
                h.update(path[len(root):].encode() + b'\0' + f.read() + b'\0')
    return h.hexdigest()[:16]


def remove(folder):
    """A folder goes even where a check that was stopped still writes: what rt started ends a moment after rt."""
    for _ in range(50):
        shutil.rmtree(folder, ignore_errors=True)
        if not os.path.exists(folder):
            return
        time.sleep(0.1)


def copy_over(source, goal):
    """A file or a folder as it stands at source, whatever stood at goal."""
    if os.path.isdir(goal):
        remove(goal)
    elif os.path.exists(goal):
        os.remove(goal)
    if os.path.isdir(source):
        shutil.copytree(source, goal)
    elif os.path.exists(source):
        os.makedirs(os.path.dirname(goal), exist_ok=True)
        shutil.copy2(source, goal)


class Runs:
    """The processes under way, so that a stop ends them and nothing else."""

    def __init__(self):
        self.lock, self.live, self.stopped = threading.Lock(), set(), False

    def run(self, words, folder, seconds):
        """A command in a folder: its status (None: out of time) and what it printed."""
        with self.lock:
            if self.stopped:
                raise KeyboardInterrupt
            p = subprocess.Popen(words, cwd=folder, stdin=subprocess.DEVNULL, stdout=subprocess.PIPE,
                                 stderr=subprocess.STDOUT, start_new_session=True)
            self.live.add(p)
        try:
            said = p.communicate(timeout=seconds)[0].decode('utf-8', 'replace')
            return p.returncode, said
        except subprocess.TimeoutExpired:
            end(p)
            return None, p.communicate()[0].decode('utf-8', 'replace')
        except KeyboardInterrupt:
            end(p)
            raise
        finally:
            self.live.discard(p)

    def stop(self):
        with self.lock:
            self.stopped = True
            for p in list(self.live):
                end(p)


def end(process):
    try:
        os.killpg(process.pid, signal.SIGKILL)
    except ProcessLookupError:
        pass


class Copy:
    """A copy of the crates with what was built of them. The tree itself is never written to."""

    def __init__(self, root, folder, runs):
        self.root, self.folder, self.runs = root, folder, runs

    def path(self, *parts):
        return os.path.join(self.folder, *parts)

    def take(self, source):
        """Everything from another place, with what rt keeps in each crate's out/: the tree, or the base copy."""
        for part in ('crates', 'crates.txt'):
            copy_over(os.path.join(source, part), self.path(part))

    def restore(self, base, crates):
        """What was built of some crates, as the base has it."""
        for c in crates:
            copy_over(base.path('crates', c, 'out'), self.path('crates', c, 'out'))

    def check(self, crate, seconds):
        return self.runs.run(['rt', 'check', '--jobs', '1'], self.path('crates', crate), seconds)

    def errors(self, crate, said):
        """The files of the copy in which errors stand, in order; a check names them from its crate's folder."""
        return [os.path.relpath(self.path('crates', crate, m.group(1)), self.folder) for m in ERROR.finditer(said)]
