#!/usr/bin/env python3
"""Spells the repository's own definitions and lemmas as the language does now: words in snake case.

usage: python3 tools/port_names.py      once, at the top, after the kit's own script for older repositories

port_names.tsv beside this file has a row for each name: old, a tab, new. Whole words turn, all in one pass: in .antt files the code, in .rt files
the clauses and the 'ghost use' items, in .md files what stands between backquotes, in must-fail edits the same as in the file that they change.
In comments only names with an inner capital turn, since words with a dash may be plain English. Functions, exported names and texts stay.
"""

import os
import re

HERE = os.path.dirname(os.path.realpath(__file__))
WORD = re.compile(r'[^\s(){}.;,@"«»]+')
ANTT = re.compile(r'"(?:[^"\\\n]|\\.)*"|(?<![^\s(){}.;,@"«»])--[^\n]*|' + WORD.pattern)
GHOST_USE = re.compile(r"ghost use [^;]*;")
CLAUSE = re.compile(r"\b(?:requires|ensures|ghost)\*? *\w* *\{")
SPAN = re.compile(r"`[^`\n]+`")

# What an edit's lines have of the older spelling beside names.
OPERATOR = re.compile(r"(?<![\w◌])_((?:[^\w\s,{}()]+)|(?:_))_(?=[,}\s])")
CLAUSE_WITH = re.compile(r"\{ λ (\w+)\. ⌜ (.*) ⌝ \}")
CLAUSE_PLAIN = re.compile(r"\{ ⌜ (.*) ⌝ \}")
FIELD_IN_BRACKETS = re.compile(r"\((\w+) \.(\w+)\)")
FIELD_OF_TASK = re.compile(r"\btask_at ts ([\w.]+) \.(\w+)")
FIELD = re.compile(r"(?<=\w) \.(?=\w)")


def names():
    with open(os.path.join(HERE, "port_names.tsv"), encoding="utf-8") as f:
        return dict(line.rstrip("\n").split("\t") for line in f)


TABLE = names()


def word(w):
    return TABLE.get(w, w)


def words(text):
    return WORD.sub(lambda m: word(m[0]), text)


def inner_capital(text):
    return re.sub(r"[A-Za-z_]+", lambda m: word(m[0]) if re.search("[a-z][A-Z]", m[0]) else m[0], text)


def antt(text):
    def turn(m):
        t = m[0]
        if t[0] == '"':
            return t
        return inner_capital(t) if t.startswith("--") else word(t)

    return ANTT.sub(turn, text)


def block_end(text, start):
    """The place after the brace that closes the one before start."""
    depth, i = 1, start
    while depth and i < len(text):
        depth += {"{": 1, "}": -1}.get(text[i], 0)
        i += 1
    return i


def rt(text):
    text = GHOST_USE.sub(lambda m: words(m[0]), text)
    out, at = [], 0
    for m in CLAUSE.finditer(text):
        if m.start() < at:
            continue
        end = block_end(text, m.end())
        out += [text[at : m.end()], words(text[m.end() : end])]
        at = end
    text = "".join(out) + text[at:]
    return re.sub(r"//[^\n]*", lambda m: inner_capital(m[0]), text)


def md(text):
    return SPAN.sub(lambda m: "`" + words(m[0][1:-1]) + "`", text)


def with_result(m):
    return "{ " + re.sub(rf"(?<![\w'-]){m[1]}(?![\w'-])", "result", m[2]) + " }"


def edit_line(text, of_rt):
    if not of_rt:
        return fields(antt(operators(text)))
    text = CLAUSE_WITH.sub(with_result, text)
    text = CLAUSE_PLAIN.sub(r"{ \1 }", text)
    if text.lstrip().startswith("ghost use"):
        text = operators(text).replace("Prim.Native.Nat", "Rattle.std.specs.Prelude")
    return rt(text)


def operators(text):
    return OPERATOR.sub(r"◌\1◌", text)


def fields(text):
    """A field stands right behind its value."""
    text = FIELD_IN_BRACKETS.sub(r"\1.\2", text)
    text = FIELD_OF_TASK.sub(r"(task_at ts \1).\2", text)
    return FIELD.sub(".", text).replace("List·Memᴰ", "Memᴰ")


def edit(text):
    out, of_rt = [], False
    for line in text.split("\n"):
        if line.startswith("file:"):
            of_rt = line.strip().endswith(".rt")
        m = re.match(r"(old: |new: )(.*)", line)
        out.append(m[1] + edit_line(m[2], of_rt) if m else line)
    return "\n".join(out)


KINDS = {".antt": antt, ".rt": rt, ".md": md, ".edit": edit}


def main():
    top = os.path.dirname(HERE)
    for folder, dirs, files in os.walk(top):
        dirs[:] = sorted(d for d in dirs if d not in ("out", ".git", "target"))
        for name in sorted(files):
            turn = KINDS.get(os.path.splitext(name)[1])
            if turn:
                path = os.path.join(folder, name)
                with open(path, encoding="utf-8") as f:
                    old = f.read()
                new = turn(old)
                if new != old:
                    with open(path, "w", encoding="utf-8") as f:
                        f.write(new)


if __name__ == "__main__":
    main()
