"""The small wrong variants of a definition: each is one replacement in the source, with the kind of slip that it is."""
import re

from syntax import definitions, argument_types, parts, shape, signature_types, type_text

OTHER_WORD = {
    'leb': [('comparison', 'ltb')],
    'ltb': [('comparison', 'leb')],
    'eqb': [('comparison', 'leb')],
    '≤': [('comparison', '<')],
    '<': [('comparison', '≤')],
    '&&': [('and-or', '||')],
    '||': [('and-or', '&&')],
    'min': [('min-max', 'max')],
    'max': [('min-max', 'min')],
    'true': [('truth', 'false')],
    'false': [('truth', 'true')],
}
# where such a word comes from, and its name there: a file may not import it yet
PRELUDE = 'Rattle.std.specs.Prelude'
HOME = {w: w for w in ('leb', 'ltb', 'min', 'max', 'true', 'false')} | {w: f'◌{w}◌' for w in ('≤', '<', '&&', '||')}
# the argument types of what the libraries give; where both orders mean the same, the types are told apart
LIBRARY = {
    'leb': ['ℕ', 'ℕ'], 'ltb': ['ℕ', 'ℕ'], 'eqb': ['a', 'b'], 'min': ['a', 'b'], 'max': ['a', 'b'],
    'get_or': ['List', 'ℕ', 'ℕ'], 'drop': ['ℕ', 'List'], 'take': ['ℕ', 'List'], 'Memᴰ': ['a', 'List'],
}
# operators whose two sides mean the same in either order have no swap
ONE_WAY = ('-', '/', '%', '<', '≤', '++')


class Names:
    """What the spec files declare: the argument types of each name, and the fields of each record."""

    def __init__(self):
        self.types, self.fields = dict(LIBRARY), {}

    def take(self, source):
        for d in definitions(source):
            self.types[d.name] = signature_types(d, source)
            if d.kind == 'data':
                self.types.update((n.text, argument_types(row, source)) for n, row in d.fields)
            if d.kind == 'record':
                self.fields[d.name] = [(n.text, type_text(row, source)) for n, row in d.fields]
        return self


class Variant:
    """One replacement: source[start:end] becomes new, in the definition of that name."""

    def __init__(self, source, name, kind, start, end, new):
        self.name, self.kind, self.start, self.end, self.new = name, kind, start, end, new
        self.old = source[start:end]
        self.line = source.count('\n', 0, start + 1) + 1  # a dropped field starts at the end of the line before
        self.nth = 1

    def replaced(self, source):
        return source[:self.start] + self.new + source[self.end:]

    def applied(self, source):
        """The whole file as it is tried: with the replacement, and with the new word in scope."""
        text = self.replaced(source)
        return importing(text, HOME[self.new]) if self.new in HOME else text

    def label(self):
        """The same as long as the definition stands as it is, whatever its place in the file."""
        old, new = (' '.join(t.split()) or 'nothing' for t in (self.old, self.new))
        return f'{self.name}, {self.kind}: {old} → {new}' + (f' ({self.nth})' if self.nth > 1 else '')


def importing(text, name):
    """A source that imports a name of the Prelude."""
    line = re.search(r'^use ' + re.escape(PRELUDE) + r'\.\{(.*)\}$', text, re.M)
    if not line:
        first = re.search(r'^use ', text, re.M)
        at = first.start() if first else 0
        return text[:at] + f'use {PRELUDE}.{{{name}}}\n' + text[at:]
    if name in line.group(1).split(', '):
        return text
    return text[:line.end(1)] + ', ' + name + text[line.end(1):]


class Maker:
    """Collects the variants of one source."""

    def __init__(self, source, names):
        self.source, self.names, self.name = source, names, ''
        self.made, self.seen = [], {source}

    def add(self, kind, start, end, new):
        v = Variant(self.source, self.name, kind, start, end, new)
        text = v.applied(self.source)
        if text not in self.seen:
            self.seen.add(text)
            self.made.append(v)

    def text(self, node):
        return self.source[node.start:node.end]

    def swap(self, kind, a, b):
        """Two pieces in each other's place, and all between them as it was."""
        if self.text(a) != self.text(b):
            self.add(kind, a.start, b.end, self.text(b) + self.source[a.end:b.start] + self.text(a))

    def drop(self, kind, row, i):
        """One of several parts, with the operator beside it."""
        if i + 1 < len(row):
            self.add(kind, row[i].start, row[i + 1].start, '')
        else:
            self.add(kind, row[i - 1].end, row[i].end, '')

    # -- one definition

    def definition(self, d):
        self.name = d.name
        types = self.names.types.get(d.name, [])
        for left, right in d.clauses:
            self.expression(right)
            self.swapped_names(left, right, types)
        self.other_results([right for _, right in d.clauses])
        for i, (name, row) in enumerate(d.fields):
            self.expression(shape(row))
            if d.kind == 'record':
                self.dropped_field(d, i)

    def other_results(self, results):
        """Each result replaced by the nearest other one after it, and by the nearest before it."""
        for i, result in enumerate(results):
            after = results[i + 1:] + results[:i]
            others = [r for r in after if self.text(r) != self.text(result)]
            for other in {self.text(r): r for r in others[:1] + others[-1:]}.values():
                self.add('result', result.start, result.end, self.text(other))

    def dropped_field(self, d, i):
        """The whole of a field, from its line's start to its end."""
        name, row = d.fields[i]
        start = self.source.rindex('\n', 0, name.start)
        self.add('field dropped', start, row[-1].end, '')

    def swapped_names(self, left, right, types):
        """Two names of one type, each in the place of the other throughout a result."""
        if not left or left[0].text != self.name:
            return
        typed = [(n, t) for n, t in zip(left[1:], types) if n.kind == 'word']
        for i, (a, t) in enumerate(typed):
            for b, u in typed[i + 1:]:
                if t == u:
                    self.exchange(right, a.text, b.text)

    def exchange(self, right, a, b):
        at = [w for w in leaves(right) if w.text in (a, b)]
        if not at:
            return
        out, done = '', right.start
        for w in at:
            out += self.source[done:w.start] + (b if w.text == a else a)
            done = w.end
        self.add('names swapped', right.start, right.end, out + self.source[done:right.end])

    # -- one expression

    def expression(self, node):
        if node.kind == 'word':
            return self.word(node)
        if node.kind == 'group' and node.text == '{':
            return None  # an argument left to be found; a record's braces are seen from the call
        if node.kind == 'call':
            self.call(node)
        if node.kind == 'if':
            self.swap('branches swapped', node.kids[1], node.kids[2])
        if node.kind == 'operator':
            self.operator(node)
        if node.kind == 'structure':
            self.structure(node)
        for kid in node.kids:
            self.expression(kid)
        return None

    def word(self, w):
        if w.text.isdigit():
            self.add('number', w.start, w.end, str(int(w.text) + 1))
            if int(w.text) > 0:
                self.add('number', w.start, w.end, str(int(w.text) - 1))
        for kind, new in OTHER_WORD.get(w.text, []):
            self.add(kind, w.start, w.end, new)
        if w.text.startswith('"') and len(w.text) > 2:
            self.add('letter', w.start, w.end, '"' + other_letter(w.text[1]) + w.text[2:])
            self.add('letter', w.start, w.end, w.text[:-2] + '"')
        if w.text.startswith('.'):
            self.other_field(w)

    def other_field(self, w):
        """A field's name replaced by its neighbours of the same type."""
        for fields in self.names.fields.values():
            own = [t for f, t in fields if f == w.text[1:]]
            same = [f for f, t in fields if own and t == own[0]]
            if len(same) > 1:
                i = same.index(w.text[1:])
                for other in dict.fromkeys((same[(i + 1) % len(same)], same[i - 1])):
                    self.add('field swapped', w.start, w.end, '.' + other)

    def call(self, node):
        head, rest = node.kids[0], node.kids[1:]
        if head.text == 'record' and rest:
            return self.record(rest[0])
        if head.text == 'Type':
            node.kids = []  # its level is no number of a definition
        if head.text in ('suc', 'not') and rest:
            self.add(head.text + ' lost', head.start, rest[0].start, '')
        if head.text == 'elim':
            return None  # its words are a syntax, and its arms are seen as clauses are
        args = [n for n in rest if n.text != '{']
        types = self.names.types.get(head.text)
        for i in range(len(args) - 1):
            if types is None or (i + 1 < len(types) and types[i] == types[i + 1]):
                self.swap('arguments swapped', args[i], args[i + 1])
        return None

    def record(self, group):
        """The values of neighbouring fields of one type, swapped."""
        inner = group.kids[0]
        fields = inner.kids if inner.ops and inner.ops[0].text == ';' else [inner]
        fields = [f for f in fields if f.kind == 'structure' and f.ops[0].text == '=']
        types = {n: t for fs in self.names.fields.values() for n, t in fs}
        for a, b in zip(fields, fields[1:]):
            if types.get(self.text(a.kids[0])) == types.get(self.text(b.kids[0])):
                self.swap('values swapped', a.kids[1], b.kids[1])
        for f in fields:
            self.expression(f.kids[1])

    def operator(self, node):
        for op in node.ops:
            self.word(op)
        op, kids = node.ops[0].text, node.kids
        if op in ('&&', '||', '×', '→'):
            self.dropped_conditions(op, kids)
        if op in ('+', '-', '++'):
            self.dropped_terms(node)
        if op == '∷':
            self.elements(kids)
        if len(kids) == 2 and op in ONE_WAY:
            self.swap('sides swapped', kids[0], kids[1])

    def dropped_conditions(self, op, kids):
        """A part of a conjunction, or a hypothesis; a binder stays, since the rest names what it binds."""
        last = len(kids) - 1 if op == '→' else len(kids)
        for i in range(last):
            if not is_binder(kids[i]):
                self.drop('hypothesis dropped' if op == '→' else 'condition dropped', kids, i)

    def dropped_terms(self, node):
        """A term of a sum or a difference. A literal 1 is left out: the number one down says the same."""
        for i, kid in enumerate(node.kids):
            if self.text(kid) != '1' and (i > 0 or node.ops[0].text != '-'):
                self.drop('term dropped', node.kids, i)

    def elements(self, kids):
        """Elements of a list, the last kid being its tail: one dropped, two neighbours swapped."""
        for i in range(len(kids) - 1):
            self.drop('element dropped', kids, i)
        for a, b in zip(kids[:-1], kids[1:-1]):
            self.swap('elements swapped', a, b)

    def structure(self, node):
        """The arms of a case analysis have results, as clauses have; a pair's parts may stand in the wrong order."""
        if node.ops[0].text == '|':
            arms = [k for k in node.kids if k.kind == 'structure' and k.ops[0].text == '↦']
            self.other_results([a.kids[1] for a in arms])
            node.kids = [a.kids[1] for a in arms]
        if node.ops[0].text in ('=', ':'):
            node.kids = node.kids[1:]  # names that are bound here
        if node.ops[0].text == ',':
            for a, b in zip(node.kids, node.kids[1:]):
                self.swap('elements swapped', a, b)


def is_binder(node):
    """One or more groups (x : T), and nothing else."""
    kids = node.kids if node.kind == 'call' else [node]
    return all(k.kind == 'group' and k.kids and k.kids[0].kind == 'structure' and k.kids[0].ops[0].text == ':' for k in kids)


def leaves(node):
    if node.kind == 'word':
        yield node
    for kid in node.kids:
        yield from leaves(kid)


def other_letter(c):
    return 'a' if c == 'z' else chr(ord(c) + 1)


def variants(source, names):
    """All variants of a source, in its order."""
    maker = Maker(source, names)
    for d in definitions(source):
        maker.definition(d)
    made = sorted(maker.made, key=lambda v: (v.start, v.end))
    counts = {}
    for v in made:
        plain = v.label()
        v.nth = counts[plain] = counts.get(plain, 0) + 1
    return made
