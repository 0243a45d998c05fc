#!/usr/bin/env python3
"""keep.py COPY: keeps a copy of the vector whose events come on standard input (docs/use/commands.md), and the place of its
last whole step: the file COPY has the place and then the records, one a line. It goes on from the one that is there. The
file is replaced as a whole, so a kill leaves the copy of one step or of the next. A line counts once it has its end: one
that a kill has cut may look like another.
"""
import os
import sys

COPY = sys.argv[1]
vector = open(COPY).read().split()[1:] if os.path.exists(COPY) else []
for line in sys.stdin:
    if not line.endswith("\n"):
        break
    kind, *words = line.split()
    if kind == "+":
        vector.append(words[0])
    elif kind == "=":
        vector[int(words[0])] = words[1]
    elif kind == "<":
        del vector[int(words[0]):]
    elif kind == ".":
        with open(COPY + ".new", "w") as file:
            file.write("\n".join([words[0], *vector]) + "\n")
        os.replace(COPY + ".new", COPY)
    else:
        sys.exit(f"no event: {line}")
