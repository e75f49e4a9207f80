"""A light reading of .antt: words, brackets, definitions, and the shape of an expression.

It knows just enough to change one place of a definition. What it gets wrong the checker refuses as ill-formed.
"""
import re

WORD = re.compile(r'--[^\n]*|"[^"\n]*"|[^\s(){}\[\];,"]*\[\]|[(){}\[\];,]|[^\s(){}\[\];,"]+')
CLOSING = {'(': ')', '{': '}', '[': ']'}
# what parts an expression, the loosest first; words that parts of a syntax have, then operators
STRUCTURE = [[';'], ['|'], [','], ['↦'], ['in'], ['='], [':']]
OPERATORS = [['→'], ['↔'], ['×'], ['when', 'with'], ['≡'], ['||'], ['&&'], ['≤', '<'], ['∷'], ['++'], ['+', '-'], ['*', '/', '%'], ['^']]
# an item that starts with one of these has no definition of its own
LEFT_ALONE = ('use', 'infix', 'infixl', 'infixr')


class Node:
    """A piece of the source from start to end: a word, a group in brackets, or a compound of kids."""

    def __init__(self, kind, start, end, kids=(), text='', ops=()):
        self.kind, self.start, self.end = kind, start, end
        self.kids, self.text, self.ops = list(kids), text, list(ops)

    def of(self, source):
        return source[self.start:self.end]


class Definition:
    """A name with its clauses (each a left and a right side), or a record or a type with its parts."""

    def __init__(self, kind, name, start):
        self.kind, self.name, self.start = kind, name, start
        self.signature, self.clauses, self.fields = [], [], []


def words(source):
    """The words of a source without its comments, each a Node."""
    found = (m for m in WORD.finditer(source) if not m.group().startswith('--'))
    return [w for m in found for w in pieces(m.group(), m.start())]


def pieces(text, start):
    """The words x, .f and .g of x.f.g; what a type or a module gives, as Pair.left, is one word, as is the x. of a λ."""
    if text.startswith('"') or text.endswith('.') or not (text[0] == '.' or text[0].islower()):
        return [Node('word', start, start + len(text), text=text)]
    found = re.finditer(r'^[^.]+|\.[^.]+', text)
    return [Node('word', start + m.start(), start + m.end(), text=m.group()) for m in found]


def nested(flat):
    """Words with each pair of brackets made one Node, whose kids stand between them."""
    levels = [[]]
    opened = []
    for w in flat:
        if w.text in CLOSING:
            opened.append(w)
            levels.append([])
        elif w.text in CLOSING.values() and opened:
            first = opened.pop()
            inner = levels.pop()
            levels[-1].append(Node('group', first.start, w.end, inner, first.text))
        else:
            levels[-1].append(w)
    return levels[0]


def parts(row, seps):
    """A row of nodes split at the words seps, and those words."""
    split, ops = [[]], []
    for n in row:
        if n.kind == 'word' and n.text in seps:
            ops.append(n)
            split.append([])
        else:
            split[-1].append(n)
    return split, ops


def compound(kind, row, kids, ops=()):
    return Node(kind, row[0].start, row[-1].end, kids, ops=ops)


def shape(row):
    """The expression that a row of nodes is."""
    if not row:
        return Node('empty', 0, 0)
    for seps in STRUCTURE:
        split, ops = parts(row, seps)
        if ops:
            return compound('structure', row, [shape(p) for p in split], ops)
    if row[0].text == 'λ':
        return shape_lambda(row)
    if row[0].text == 'if':
        split, ops = parts(row[1:], ['then', 'else'])
        if len(split) == 3:
            return compound('if', row, [shape(p) for p in split], ops)
    for seps in OPERATORS:
        split, ops = parts(row, seps)
        if ops:
            return compound('operator', row, [shape(p) for p in split], ops)
    return compound('call', row, shape_atoms(row))


def shape_lambda(row):
    """The body of λ x y. body; its names end at the first word with a dot at its end."""
    for i, n in enumerate(row):
        if n.text.endswith('.'):
            return compound('lambda', row, [shape(row[i + 1:])])
    return compound('call', row, row)


def shape_atoms(row):
    """The parts of a call: words and groups, each with the fields that are asked of it."""
    found = []
    for n in row:
        if found and n.text.startswith('.'):
            found[-1] = Node('fields', found[-1].start, n.end, [found[-1], n])
        else:
            found.append(shape_atom(n))
    return found


def shape_atom(node):
    if node.kind == 'group':
        return Node('group', node.start, node.end, [shape(node.kids)], node.text)
    return node


def items(source):
    """The top-level pieces of a source: each starts in the first column and goes on over indented lines."""
    flat = words(source)
    starts = [i for i, w in enumerate(flat) if w.start == 0 or source[w.start - 1] == '\n']
    for a, b in zip(starts, starts[1:] + [len(flat)]):
        yield flat[a:b]


def definitions(source):
    """The definitions of a source, in order."""
    found = []
    for item in items(source):
        plain = [w for w in item if w.text not in ('pub', 'abbrev', 'unfoldable')]
        head = plain[0].text
        if head in LEFT_ALONE or head == 'mod':
            continue
        if head in ('record', 'data'):
            found.append(declared(source, head, plain))
        elif item[0].text in ('pub', 'abbrev', 'unfoldable'):
            found.append(Definition('function', head, item[0].start))
            found[-1].signature = nested(plain[1:])
        elif found:
            add_clause(found[-1], item)
    return found


def add_clause(definition, item):
    """A clause: what stands before the first = outside of brackets, and what after it."""
    row = nested(item)
    for i, n in enumerate(row):
        if n.kind == 'word' and n.text == '=':
            definition.clauses.append((row[:i], shape(row[i + 1:])))
            return


def declared(source, head, plain):
    """A record or a data type: its parameters, and each indented NAME : TYPE."""
    d = Definition(head, plain[1].text, plain[0].start)
    where = next((i for i, w in enumerate(plain) if w.text == 'where'), len(plain))
    d.signature = nested(plain[2:where])
    row = nested(plain[where + 1:])
    begins = [i for i, n in enumerate(row) if i + 1 < len(row) and row[i + 1].text == ':' and row[i + 1].kind == 'word']
    for a, b in zip(begins, begins[1:] + [len(row)]):
        d.fields.append((row[a], row[a + 2:b]))
    return d


def type_text(row, source):
    """A type as plain text, without the brackets around all of it."""
    if len(row) == 1 and row[0].kind == 'group':
        row = row[0].kids
    return ' '.join(source[row[0].start:row[-1].end].split()) if row else ''


def bound(group, source):
    """The names and the type of a binder (a b : T); none where a group is no binder."""
    split, ops = parts(group.kids, [':'])
    if not ops or any(n.kind != 'word' for n in split[0]):
        return [], ''
    return [n.text for n in split[0]], type_text(split[1], source)


def argument_types(row, source):
    """The types of the arguments that a signature asks for, in order; those in braces are left out."""
    split, _ = parts(row, ['→'])
    types = []
    for p in split[:-1]:
        names = [b for n in p if n.kind == 'group' and n.text == '(' for b in [bound(n, source)] if b[0]]
        if names:
            types += [t for ns, t in names for _ in ns]
        elif not (len(p) == 1 and p[0].text == '{'):
            types.append(type_text(p, source))
    return types


def signature_types(definition, source):
    """The argument types of a function, or of a record by its parameters."""
    row = definition.signature
    if definition.kind == 'function':
        colon = next((i for i, n in enumerate(row) if n.text == ':' and n.kind == 'word'), None)
        return argument_types(row[colon + 1:], source) if colon is not None else []
    found = [bound(n, source) for n in row if n.kind == 'group' and n.text == '(']
    return [t for ns, t in found for _ in ns]
