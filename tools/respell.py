#!/usr/bin/env python3
"""Spells the repository's own definitions and lemmas as the language's own library does.

usage: python3 tools/respell.py [--list]      at the top of the repository, once, after the language's own scripts

A definition, a field and a constructor get snake case, a type gets camel case, and in a lemma a dash stays only
between a definition and a word of the library's, as in roles-snoc. Names that the checker makes (goals and the facts of a
step) are not the repository's, and stay. --list prints the names, old and new, and writes nothing.
"""

import os
import re
import sys

NAME = r"[^\s(){}\[\],;:.«»\"`λ]+"
TOKEN = re.compile(r"[^\s(){}\[\],;:.«»\"`]+")
SIGNATURE = re.compile(r"^\s*(?:abbrev\s+|unfoldable\s+)?(?:pub\s+)?(" + NAME + r")\s+:\s")
RECORD = re.compile(r"^\s*(?:pub\s+)?(?:record|data)\s+(" + NAME + r")[\s:({]")
# words of std that lemmas of the repository name beside its own
WORDS = {"append", "snoc", "length"}


def files(endings):
    for top in ("crates",):
        for folder, dirs, names in os.walk(top):
            dirs[:] = sorted(d for d in dirs if d != "out")
            for name in sorted(names):
                if name.endswith(endings):
                    yield os.path.join(folder, name)


def of_a_function(path):
    """Whether a file holds goals that the checker names."""
    return os.path.basename(path) in ("Answers.antt", "Invariants.antt", "Proof.antt", "Choices.antt")


def read(path):
    with open(path, encoding="utf-8") as f:
        return f.read()


def defined():
    """The names of the repository: definitions of specs/ with fields and constructors, types, and lemmas."""
    words, types, lemmas = set(), set(), set()
    for path in files((".antt",)):
        lines = read(path).split("\n")
        for line in lines:
            if line.lstrip().startswith(("--", "use ", "pub use ")):
                continue
            record = RECORD.match(line)
            if record:
                types.add(record.group(1))
                continue
            signature = SIGNATURE.match(line)
            if not signature:
                continue
            name = signature.group(1)
            if of_a_function(path) and re.search(r":\s+goal\.|:\s+\w+\.(?:Goals|Given)\.", line):
                continue
            if name[0].isupper():
                types.add(name)
            elif "/proofs/" in path and not line.startswith((" ", "abbrev")):
                lemmas.add(name)
            else:
                words.add(name)
    return words, types, lemmas - words


def camel(name):
    return "".join(part[:1].upper() + part[1:] for part in name.split("-"))


def snake(name):
    return name.replace("-", "_")


def joined(name, words):
    """A lemma's name: a dash only between a definition and a word of the library's."""
    first, _, rest = name.partition("-")
    front, _, last = name.rpartition("-")
    if first in WORDS and snake(rest) in words:
        return first + "-" + snake(rest)
    if last in WORDS and snake(front) in words:
        return snake(front) + "-" + last
    return snake(name)


def names():
    words, types, lemmas = defined()
    known = {snake(word) for word in words}
    table = {}
    for name in sorted(words | types | lemmas):
        if "-" not in name.strip("-"):
            continue
        if name in types:
            new = camel(name)
        elif name in words:
            new = snake(name)
        else:
            new = joined(name, known)
        if new != name:
            table[name] = new
    return table, words | types | lemmas


def respelled(line, table):
    return TOKEN.sub(lambda m: table.get(m.group(0), m.group(0)), line)


def respell_antt(text, table):
    out = []
    for line in text.split("\n"):
        code, mark, remark = line.partition("--")
        if line.lstrip().startswith("--"):
            out.append(re.sub(r"`[^`]*`", lambda m: respelled(m.group(0), table), line))
        elif mark and re.search(r"(^|\s)--\s", line):
            at = re.search(r"(^|\s)--\s", line).start()
            out.append(respelled(line[:at], table) + line[at:])
        else:
            out.append(respelled(line, table))
    return "\n".join(out)


def respell_rt(text, table):
    """Rust names have no dash, so that only clauses and ghost items change; remarks and strings stay."""
    out = []
    for line in text.split("\n"):
        if line.lstrip().startswith("//") or '"' in line:
            out.append(line)
        else:
            out.append(respelled(line, table))
    return "\n".join(out)


def respell_edit(text, table):
    if not re.search(r"^file: .*\.antt$", text, re.M):
        return text
    return "\n".join(respelled(line, table) if line.startswith(("old:", "new:")) else line for line in text.split("\n"))


def main():
    table, every = names()
    new = {}
    for old, to in sorted(table.items()):
        new.setdefault(to, []).append(old)
    for to, olds in sorted(new.items()):
        if len(olds) > 1 or to in every:
            print(f"falls together: {', '.join(olds)} -> {to}{' (is there)' if to in every else ''}", file=sys.stderr)
    if "--list" in sys.argv[1:]:
        for old, to in sorted(table.items()):
            print(f"{old} {to}")
        return
    for path in files((".antt", ".rt", ".edit")):
        text = read(path)
        turn = respell_antt if path.endswith(".antt") else respell_rt if path.endswith(".rt") else respell_edit
        to = turn(text, table)
        if to != text:
            with open(path, "w", encoding="utf-8") as f:
                f.write(to)


main()
