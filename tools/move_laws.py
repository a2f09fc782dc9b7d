#!/usr/bin/env python3
"""Moves files of laws from specs/ to proofs/, so that an edit of a definition is refused by a proof and not unreadable: statements stay as they are.

usage: python3 tools/move_laws.py CRATE.MODULE..     at the top of the repository
"""

import glob
import os
import re
import sys


def read(path):
    with open(path, encoding="utf-8") as f:
        return f.read()


def write(path, text):
    os.makedirs(os.path.dirname(path), exist_ok=True)
    with open(path, "w", encoding="utf-8") as f:
        f.write(text)


def main(argv):
    moved = [tuple(it.split(".", 1)) for it in argv]
    files = [p for p in glob.glob("crates/**/*", recursive=True) if p.endswith((".antt", ".rt")) and "/out/" not in p]
    for crate, module in moved:
        old, new = (f"crates/{crate}/{part}/{module.replace('.', '/')}.antt" for part in ("specs", "proofs"))
        write(new, read(old))
        os.remove(old)
        files = [new if p == old else p for p in files]
        line = f"pub mod {module.split('.')[-1]}\n"
        lib = f"crates/{crate}/specs/Lib.antt"
        write(lib, re.sub(r"(?m)^" + line, "", read(lib)))
        lib = f"crates/{crate}/proofs/Lib.antt"
        write(lib, (read(lib) if os.path.exists(lib) else "") + line)
    paths = [(re.compile(rf"\bRattle\.{c}\.specs\.{re.escape(m)}(?![\w'])"), f"Rattle.{c}.proofs.{m}") for c, m in moved]
    for p in files:
        text = new = read(p)
        for how, it in paths:
            new = how.sub(it, new)
        if new != text:
            write(p, new)
    for p in glob.glob("crates/*/must-fail/*.edit") + glob.glob("tests/edits/*/*.edit"):
        crate = p.split("/")[1 if p.startswith("crates") else 2]
        text = new = read(p)
        for c, m in moved:
            if c == crate:
                new = new.replace(f"file: specs/{m.replace('.', '/')}.antt\n", f"file: proofs/{m.replace('.', '/')}.antt\n")
        if new != text:
            write(p, new)
    # A heading of Lib.antt with nothing below it goes.
    for p in glob.glob("crates/*/specs/Lib.antt"):
        text = read(p)
        new = re.sub(r"(?m)^--[^\n]*\n(?=--|\Z)", "", text)
        if new != text:
            write(p, new)
    return 0


raise SystemExit(main(sys.argv[1:]))
