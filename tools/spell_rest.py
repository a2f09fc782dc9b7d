#!/usr/bin/env python3
"""Spells the names that tools/spell.py does not see, those of declarations of several names at once; and puts back the library's names that it took.

usage: python3 tools/spell_rest.py     at the top of the repository, once, after tools/spell.py
"""

import glob
import re

WORDS = "xAxis yAxis zAxis ofLeaf ofLower ofUpper ofRoot ofBackground isTarget isRead rootEnd answerWith levelIn rowX rowY rowZ".split()
TABLE = {w: re.sub("[A-Z]", lambda m: "_" + m[0].lower(), w) for w in WORDS}
NAME = re.compile(r'"(?:[^"\\]|\\.)*"|(?<![\w\'-])(?:' + "|".join(WORDS) + r")(?![\w'-])")
# Names of the library, reached by the module's name.
BACK = [("native.Mathlib.Nat.mul_add_lem", "native.Mathlib.Nat.mul-add"), ("NatL.add_zero", "NatL.add-zero")]


def main():
    for p in sorted(glob.glob("crates/**/*", recursive=True)):
        if p.endswith((".antt", ".rt")) and "/out/" not in p:
            with open(p, encoding="utf-8") as f:
                text = f.read()
            new = NAME.sub(lambda m: TABLE.get(m[0], m[0]), text)
            for old, it in BACK:
                new = new.replace(old, it)
            if new != text:
                with open(p, "w", encoding="utf-8") as f:
                    f.write(new)
    return 0


raise SystemExit(main())
