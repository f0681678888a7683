#!/usr/bin/env python3
"""Gives the definitions and lemmas of crates/ the spelling of Rattle's own library.

usage: tools/respell.py [--clashes]      at the top of the repository

tools/respell.tsv has a line for each name: the old and the new one. In .antt files a name is turned wherever it stands in code, but for what
follows "c.", which Rattle names, and in the first column of the lists that head a file; in .rt files in code; in both, and in the pages, wherever
it stands between backticks. Strings stay.
--clashes changes nothing: it lists the files in which two names would become one.
"""

import os
import re
import sys

TOP = os.path.dirname(os.path.dirname(os.path.realpath(__file__)))
TABLE = os.path.join(TOP, "tools", "respell.tsv")
TOKEN = re.compile(r"(?<!\bc\.)(?<![^\s(){}\[\];,.\"`«»:])[^\s(){}\[\];,.\"`«»:]+")
TICKS = re.compile(r"`[^`\n]+`")
HEAD = re.compile(r"^(--   )(\S.*?)(\s{2,}(?=\S)|$)")


def table():
    with open(TABLE, encoding="utf-8") as f:
        return dict(line.rstrip("\n").split("\t") for line in f if line.strip())


def turned(names, text):
    return TOKEN.sub(lambda m: names.get(m.group(), m.group()), text)


def in_ticks(names, text):
    return TICKS.sub(lambda m: turned(names, m.group()), text)


def comment(names, text):
    def first_column(m):
        new = turned(names, m.group(2))
        return m.group(1) + new + (m.group(3) and m.group(3) + " " * (len(m.group(2)) - len(new)))
    return in_ticks(names, HEAD.sub(first_column, text))


def antt(names, line):
    if line.lstrip().startswith("--"):
        return comment(names, line)
    parts = line.split(" -- ", 1)
    code = re.sub(r"\"[^\"]*\"|[^\"]+", lambda m: m.group() if m.group().startswith('"') else turned(names, m.group()), parts[0])
    return code + "".join(" -- " + in_ticks(names, p) for p in parts[1:])


def rattle(names, line):
    at = line.find("//")
    code, rest = (line, "") if at < 0 else (line[:at], line[at:])
    code = re.sub(r"\"[^\"]*\"|[^\"]+", lambda m: m.group() if m.group().startswith('"') else turned(names, m.group()), code)
    return code + in_ticks(names, rest)


KINDS = {".antt": antt, ".rt": rattle, ".edit": rattle, ".md": in_ticks}


def files():
    for folder, dirs, names in os.walk(TOP):
        dirs[:] = sorted(d for d in dirs if d not in ("out", ".git", "unfinished", "tools", "target"))
        for name in sorted(names):
            if os.path.splitext(name)[1] in KINDS:
                yield os.path.join(folder, name)


def clashes(names, path, text):
    code = "\n".join(line for line in text.split("\n") if not line.lstrip().startswith(("--", "//")))
    seen = {}
    for word in set(TOKEN.findall(code)):
        seen.setdefault(names.get(word, word), set()).add(word)
    for new, words in sorted(seen.items()):
        if len(words) > 1:
            print(f"{os.path.relpath(path, TOP)}: {', '.join(sorted(words))}")


def main():
    names = table()
    for path in files():
        with open(path, encoding="utf-8") as f:
            text = f.read()
        if "--clashes" in sys.argv:
            if not path.endswith(".md"):
                clashes(names, path, text)
            continue
        turn = KINDS[os.path.splitext(path)[1]]
        new = "\n".join(turn(names, line) for line in text.split("\n"))
        if new != text:
            with open(path, "w", encoding="utf-8") as f:
                f.write(new)


main()
