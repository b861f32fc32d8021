#!/usr/bin/env python3
"""Gives a crate another name, in its folder, in crates.txt and in the paths of every .rt, .antt and .edit file.

usage: python3 tools/rename_crate.py OLD NEW     at the top of the repository
"""

import os
import re
import sys


def rewrite(path, pairs):
    with open(path, encoding="utf-8") as f:
        old = f.read()
    new = old
    for pattern, text in pairs:
        new = re.sub(pattern, text, new)
    if new != old:
        with open(path, "w", encoding="utf-8") as f:
            f.write(new)


def main(old, new):
    if os.path.isdir(f"crates/{old}"):
        os.rename(f"crates/{old}", f"crates/{new}")
    rewrite("crates.txt", [(rf"(?<![\w]){old}(?![\w])", new)])
    for folder, dirs, files in os.walk("crates"):
        dirs[:] = [d for d in dirs if d != "out"]
        for name in files:
            if name.endswith((".rt", ".antt", ".edit")):
                rewrite(os.path.join(folder, name), [(rf"Rattle\.{old}\.", f"Rattle.{new}."), (rf"\buse {old}::", f"use {new}::")])


if __name__ == "__main__":
    main(sys.argv[1], sys.argv[2])
