#!/usr/bin/env python3
"""Spells the repository's own definitions and lemmas in snake case.

usage: python3 tools/snake_names.py          at the top of the repository, once, after port.py

A word with a capital inside that begins with a small letter is a name of a definition, a field or a variable of antt:
source names of Rattle are in snake case, and types, facts and modules begin with a capital. Strings keep their words.
Lemmas whose names would fall together with a definition get their dash back.
"""

import os
import re
import sys

KEPT = {"glTF", "squareRoot"}
# lemmas of this repository that port.py spells as the definitions that they are about are spelled here
LEMMAS = {"by_tests": "by-tests", "group_at": "group-at", "put_as": "put-as", "node_at": "node-at", "rows_in": "rows-in"}
WORD = re.compile(r"\"(?:[^\"\\\n]|\\.)*\"|[^\W\d][\w'\u2080-\u2089]*")
BARE = re.compile(r"(?<![\w.'\u00ab-])(" + "|".join(LEMMAS) + r")(?![\w'-]|\.[a-z])")


def spelled(word):
    if word[0] == '"' or word in KEPT or not word[0].islower():
        return word
    return re.sub(r"(?<=[a-z0-9'\u2080-\u2089])[A-Z]", lambda m: "_" + m.group().lower(), word)


def turned(path, text):
    if path.endswith(".antt"):
        text = BARE.sub(lambda m: LEMMAS[m.group()], text)
    return WORD.sub(lambda m: spelled(m.group()), text)


def main():
    if not os.path.isdir("crates"):
        sys.exit("run it at the top of the repository")
    for folder, folders, files in os.walk("crates"):
        folders[:] = [d for d in folders if d != "out"]
        for name in files:
            if name.endswith((".rt", ".antt", ".edit")):
                path = os.path.join(folder, name)
                with open(path, encoding="utf-8") as f:
                    text = f.read()
                new = turned(path, text)
                if new != text:
                    with open(path, "w", encoding="utf-8") as f:
                        f.write(new)


main()
