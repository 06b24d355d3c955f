#!/usr/bin/env python3
"""Spells the repository's own definitions and lemmas as today's Rattle spells names: words in snake case.

usage: python3 tools/respell.py [FOLDER]      run once, after port.py, at the top of the repository or of FOLDER

respell.tsv beside it has a row for each name: old, new and, where the row is for some files alone, the beginning of their path.
What turns: the text of .antt files, without their comments' plain words; the clauses and 'ghost use' lines of .rt files, and code spans of comments.
Behind a dot a name of a function's own proof (c.put-null) stays, but for fields and names of modules.
A lemma that would have its definition's name ends in _lem.
"""
import os
import re
import sys

HERE = os.path.dirname(os.path.abspath(__file__))
WORD = re.compile(r"[^\s(){}.;,@\"«»`]+")
CAMEL = re.compile(r"[a-z][A-Za-z0-9]*[A-Z][A-Za-z0-9]*")


def rows():
    with open(os.path.join(HERE, "respell.tsv"), encoding="utf-8") as f:
        return [line.rstrip("\n").split("\t") for line in f if line.strip() and not line.startswith("#")]


def table_of(path, all_rows):
    return {r[0]: r[1] for r in all_rows if len(r) < 3 or path.startswith(r[2])}


def turn(text, table, proof):
    """The text with each whole word of the table turned. In a function's proof, a name behind a dot that would end in _lem is one of Rattle's and stays."""

    def one(m):
        new = table.get(m[0])
        if new is None:
            return m[0]
        if proof and new.endswith("_lem") and text[m.start() - 1 : m.start()] == ".":
            head = re.search(r"[^\s(){};,]*$", text[: m.start()])[0]
            if re.match(r"(c\d*|w\d*|p\d*|q|s|tie|goal)\.", head):
                return m[0]
        return new

    return WORD.sub(one, text)


def in_antt(text, table, proof):
    out = []
    for line in text.split("\n"):
        code, sign, comment = line.partition("--") if line.lstrip().startswith("--") else (line, "", "")
        comment = CAMEL.sub(lambda m: table.get(m[0], m[0]), comment)
        comment = re.sub(r"`[^`\n]*`", lambda m: turn(m[0], table, False), comment)
        out.append(turn(code, table, proof) + sign + comment)
    return "\n".join(out)


def in_rt(text, table):
    # A name of Rust is in snake case already, so each word in camel case is a clause's; a name with a dash stands in code spans alone.
    camel = {old: new for old, new in table.items() if "-" not in old}
    out = []
    for line in text.split("\n"):
        if '"' in line and not re.match(r"\s*(//|ghost|requires|ensures)", line):
            out.append(line)
            continue
        line = CAMEL.sub(lambda m: camel.get(m[0], m[0]), line)
        out.append(re.sub(r"(?<=theorem )[a-z-]+|`[^`\n]*`", lambda m: turn(m[0], table, False), line))
    return "\n".join(out)


def main():
    top = os.path.abspath(sys.argv[1] if len(sys.argv) > 1 else ".")
    all_rows = rows()
    for folder, folders, files in os.walk(os.path.join(top, "crates")):
        folders[:] = sorted(f for f in folders if f != "out")
        for name in sorted(files):
            path = os.path.join(folder, name)
            inside = os.path.relpath(path, top)
            if not name.endswith((".antt", ".rt")):
                continue
            with open(path, encoding="utf-8") as f:
                text = f.read()
            table = table_of(inside, all_rows)
            proof = len(inside.split(os.sep)) > 4 and "/proofs/" in inside
            new = in_antt(text, table, proof) if name.endswith(".antt") else in_rt(text, table)
            if new != text:
                with open(path, "w", encoding="utf-8") as f:
                    f.write(new)


if __name__ == "__main__":
    main()
