#!/usr/bin/env python3
"""Respells the definitions and lemmas of this repository: words in snake case, a dash only between two names.

usage: python3 tools/respell.py [FOLDER]

It goes over crates/ of FOLDER (here, if none is named), after /opt/rattle/port/port.py has turned the files, and writes
each name of tools/respell.txt ('old new', one a line) anew: in .antt files, and in the ghost parts of .rt files and of
must-fail edits. Names of functions, fields and types of src/, strings, inputs and outputs keep their spelling. A line
'FILE old new' holds for that file, or for the files of that folder, alone.
"""

import os
import re
import sys

HERE = os.path.dirname(os.path.realpath(__file__))
TOKEN = re.compile(r"(?<![\w'\-◌])([A-Za-z_][\w'\-]*)")
STRING = re.compile(r'b?"(?:\\.|[^"\\\n])*"')


def tables():
    everywhere, local = {}, []
    with open(os.path.join(HERE, "respell.txt"), encoding="utf-8") as f:
        for line in f:
            words = line.split()
            if len(words) == 2:
                everywhere[words[0]] = words[1]
            elif len(words) == 3:
                local.append(tuple(words))
    return everywhere, local


def turn_plain(text, names):
    def new(m):
        name = m.group(1)
        to = names.get(name)
        if to is None:
            return name
        # what follows a dot is a field, or a name that the check makes: those have dashes of their own
        if "-" in name and m.start() > 0 and text[m.start() - 1] == ".":
            return name
        return to

    return TOKEN.sub(new, text)


def turn(text, names, comment):
    """Text with its names turned, but not within strings; in a comment only within backticks."""
    out = []
    for line in text.split("\n"):
        cut = len(line)
        for m in re.finditer(r"(?:^|(?<=\s))" + comment, line):
            if line[: m.start()].count('"') % 2 == 0:
                cut = m.start()
                break
        code, said = line[:cut], line[cut:]
        parts, at = [], 0
        for m in STRING.finditer(code):
            parts += [turn_plain(code[at : m.start()], names), m.group(0)]
            at = m.end()
        parts.append(turn_plain(code[at:], names))
        said = re.sub(r"`[^`]*`", lambda m: turn_plain(m.group(0), names), said)
        out.append("".join(parts) + said)
    return "\n".join(out)


def main(root):
    everywhere, local = tables()
    count = 0
    for folder, dirs, files in os.walk(os.path.join(root, "crates")):
        dirs[:] = sorted(d for d in dirs if d != "out")
        for f in sorted(files):
            if not f.endswith((".antt", ".rt", ".edit")):
                continue
            path = os.path.join(folder, f)
            with open(path, encoding="utf-8") as it:
                text = it.read()
            inside = os.path.relpath(path, os.path.join(root, "crates"))
            here = {old: new for where, old, new in local if inside == where or (where.endswith("/") and inside.startswith(where))}
            new = text
            if here and f.endswith(".antt"):
                new = turn(new, here, "--")
            new = turn(new, everywhere, "--" if f.endswith(".antt") else "//")
            if new != text:
                with open(path, "w", encoding="utf-8") as it:
                    it.write(new)
                count += 1
    print(f"respell: {count} files")


if __name__ == "__main__":
    main(sys.argv[1] if len(sys.argv) > 1 else ".")
