#!/usr/bin/env python3
"""Spells the repository's own definitions and lemmas in snake case, by respell.tsv beside this file.

usage: respell.py [FOLDER]     the repository's top, if not the folder that tools/ lies in

A row has the old name, the new one and, for a name that a function or a field has too, the file below crates/ that declares it:
such a row turns only there and where a `use` line brings the name from that file's module, and never behind a dot.
In specs/ and proofs/ all code turns, in src/ and must-fail/ all text; in a comment a name turns if it has a capital or stands
between backticks, and in README.md and docs/ if it stands between backticks. A second run changes nothing.
"""

import os
import re
import sys

HERE = os.path.dirname(os.path.abspath(__file__))
WORD = re.compile(r"[^\s(){}.;,@\"«»|\[\]`:]+")
COMMENT = re.compile(r"--[^\n]*|//[^\n]*")
SPAN = re.compile(r"`[^`\n]*`")


def table():
    everywhere, scoped = {}, []
    with open(os.path.join(HERE, "respell.tsv"), encoding="utf-8") as f:
        for line in f:
            row = line.rstrip("\n").split("\t")
            if len(row) == 2:
                everywhere[row[0]] = row[1]
            else:
                scoped.append(row)
    return everywhere, scoped


def module(path):
    """The module of a file CRATE/specs/A/B.antt, as Rattle.CRATE.specs.A.B."""
    return "Rattle." + path[: -len(".antt")].replace("/", ".")


def local_names(path, text, scoped):
    """The scoped rows that hold in this file: those that it declares, and those that it brings in."""
    names = {}
    for old, new, home in scoped:
        brought = re.search(rf"use {re.escape(module(home))}\.\{{([^}}]*)\}}", text)
        turned = new in WORD.findall(text)
        if not turned and (path == home or brought and old in re.split(r"[\s,]+", brought[1])):
            names[old] = new
    return names


def turn_words(text, everywhere, local):
    def word(m):
        if m[0] in everywhere:
            return everywhere[m[0]]
        behind = text[m.start() - 1] if m.start() else ""
        return local[m[0]] if m[0] in local and behind != "." else m[0]

    return WORD.sub(word, text)


def turn_prose(text, everywhere, capitals):
    text = SPAN.sub(lambda m: turn_words(m[0], everywhere, {}), text)
    if not capitals:
        return text
    return re.sub(r"\b[a-z]\w*[A-Z]\w*\b", lambda m: everywhere.get(m[0], m[0]), text)


def turn_code(text, everywhere, local):
    done, at = [], 0
    for m in COMMENT.finditer(text):
        done += [turn_words(text[at : m.start()], everywhere, local), turn_prose(m[0], everywhere, True)]
        at = m.end()
    return "".join(done) + turn_words(text[at:], everywhere, local)


def main():
    top = sys.argv[1] if len(sys.argv) > 1 else os.path.dirname(HERE)
    everywhere, scoped = table()
    for folder, dirs, files in os.walk(top):
        dirs[:] = sorted(d for d in dirs if d not in ("out", "target", "tools", ".git"))
        for name in sorted(files):
            if not name.endswith((".antt", ".rt", ".edit", ".md")):
                continue
            path = os.path.join(folder, name)
            with open(path, encoding="utf-8") as f:
                text = f.read()
            if name.endswith(".md"):
                turned = turn_prose(text, everywhere, False)
            else:
                local = local_names(os.path.relpath(path, os.path.join(top, "crates")), text, scoped)
                turned = turn_code(text, everywhere, local)
            if turned != text:
                with open(path, "w", encoding="utf-8") as f:
                    f.write(turned)


if __name__ == "__main__":
    main()
