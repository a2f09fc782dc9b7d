#!/usr/bin/env python3
"""Spells the repository's own definitions and lemmas as today's library spells its own: words in snake case, types and modules in camel case.

usage: python3 tools/spell.py [--list]     at the top of the repository, once, after the kit's port.py

A name is the repository's own if a file of specs/ or a lemma file of proofs/ declares it: a definition, a lemma, a field, a constructor, or what a
`where` or a `let` names. Names that a library exports stay in the files that import them from it. Functions of src/, exported names and strings stay.
Two names of one file that would fall together are listed, and nothing is written.
"""

import collections
import glob
import os
import re
import sys

NAME = r'[^\s(){}.;,@"«»]+'
TOKEN = re.compile(rf'--.*|"(?:[^"\\]|\\.)*"|{NAME}')
RUST = re.compile(r'//.*|"(?:[^"\\]|\\.)*"|[A-Za-z_\'][\w\'′-]*')
DECLARED = re.compile(rf"(?m)^ *(?:(?:pub|abbrev|unfoldable|private) )*({NAME}) :(?= |$)")
BOUND = re.compile(rf"\blet ({NAME}) (?::|=)(?= )")
HEAD = re.compile(rf"(?m)^ *(?:pub )?(?:record|data|module) ({NAME})")
USE = re.compile(r"(?m)^\s*(?:ghost )?use ([^\s;{]+?)\.?(?:\{([^}]*)\})?(?: as (\S+?))?;?$")

# Names of Rust's fields and parameters that a clause writes as a field's name alone, so that no word is hidden.
FIELDS = {"name_length", "t_min", "t_max"}


def spelled(name):
    """Snake case, but for a type or module and for what follows its name."""
    name = name.replace("′", "'")
    if re.match(r"[A-Z]", name):
        return name
    words = re.sub(r"(?<=[a-z0-9])[A-Z](?=[a-z0-9])", lambda m: "_" + m[0].lower(), name)
    words = re.sub(r"(?<=[a-z0-9])([A-Z])(?![a-z0-9])", lambda m: "_" + m[0].lower(), words)
    return re.sub(r"(?<=[\w'])-(?=[\w'])", "_", words)


def own(path):
    return path.startswith("Rattle.") and os.path.isdir("crates/" + path.split(".")[1])


def imported(text):
    """The names that a file gets from a library, and not from a crate of the repository."""
    found = set()
    for path, names, alias in USE.findall(text):
        if not own(path):
            for it in names.split(",") if names else [path.split(".")[-1]]:
                found.update(it.split())
            found.add(alias)
    return found - {"", "as"}


def apart(declared):
    """The new spelling of each name. Of names that would fall together, a definition in camel case has the plain one, and a lemma gets `_lem`."""
    groups = collections.defaultdict(list)
    for name in declared:
        groups[spelled(name)].append(name)
    table = {}
    for new, names in groups.items():
        names.sort(key=lambda n: (0 if n != new and "-" not in n else 1 if n == new else 2, n))
        if len(names) > 2:
            raise SystemExit(f"three names are one: {names}")
        for name, it in zip(names, (new, new + "_lem")):
            table[name] = it
    return {old: new for old, new in table.items() if old != new}


def read(path):
    with open(path, encoding="utf-8") as f:
        return f.read()


def files():
    every = sorted(p for p in glob.glob("crates/**/*", recursive=True) if "/out/" not in p)
    specs = [p for p in every if p.endswith(".antt") and "/specs/" in p]
    proofs = [p for p in every if p.endswith(".antt") and "/proofs/" in p]
    of_functions = [p for p in proofs if os.path.basename(p) in ("Proof.antt", "Answers.antt", "Invariants.antt") and p.count("/") > 3]
    lemmas = [p for p in proofs if p not in of_functions]
    return specs + lemmas, of_functions, [p for p in every if p.endswith(".rt")]


def main(argv):
    lemmas, of_functions, sources = files()
    declared = set()
    for p in lemmas:
        text = re.sub(r"--.*", "", read(p))
        for how in (DECLARED, BOUND, HEAD):
            declared.update(how.findall(text))
    # The other names of clauses' own: `use .. as`.
    for p in sources + lemmas + of_functions:
        declared.update(re.findall(rf"{NAME} as ({NAME})", read(p)))
    table = apart(declared)
    if argv == ["--list"]:
        for old, new in sorted(table.items()):
            print(f"{old}\t{new}")
        return 0
    clashes, written = [], {}
    for p in lemmas + of_functions + sources:
        text = read(p)
        rust = p.endswith(".rt")
        lent = imported(text)
        clauses = RUST if rust else TOKEN
        names = set()

        def turn(m):
            it = m[0]
            if it.startswith(('"', "//", "--")):
                if it.startswith('"'):
                    return it
                return re.sub(rf"(?<![\w'′-])[\w'′-]*[\w'′](?![\w'′-])", lambda w: table[w[0]] if w[0] in table and re.search("[A-Z]", w[0]) else w[0], it)
            if it in lent and not text[: m.start()].endswith("."):
                return it
            behind_dot = text[: m.start()].endswith(".")
            if not behind_dot:
                names.add(it)
            if rust and not re.search("[A-Z]", it):
                return it
            return table.get(it, it)

        written[p] = clauses.sub(turn, text)
        by = collections.defaultdict(set)
        for n in names:
            by[n if n in lent else table.get(n, n)].add(n)
        hidden = lambda new: not rust or new not in FIELDS and re.search(rf"(?:\blet (?:mut )?|[(,]\s*(?:mut )?)(?<!\w){re.escape(new)}(?!\w)\s*[:=](?!:)", text)
        clashes += [(p, new, olds) for new, olds in by.items() if len(olds) > 1 and hidden(new)]
    for p, new, olds in clashes:
        print(f"falls together in {p}: {' '.join(sorted(olds))} -> {new}")
    if clashes:
        print(f"{len(clashes)} clashes; nothing was written")
        return 1
    changed = 0
    for p, text in written.items():
        if text != read(p):
            with open(p, "w", encoding="utf-8") as f:
                f.write(text)
            changed += 1
    # Rattle makes a module `specs.contracts` of its own.
    os.rename("crates/claim/specs/Contracts.antt", "crates/claim/specs/Promises.antt")
    for p in written:
        p = p.replace("claim/specs/Contracts", "claim/specs/Promises")
        text = read(p)
        new = text.replace("Rattle.claim.specs.Contracts.", "Rattle.claim.specs.Promises.")
        if p == "crates/claim/specs/Lib.antt":
            new = text.replace("pub mod Contracts\n", "pub mod Promises\n")
        if new != text:
            with open(p, "w", encoding="utf-8") as f:
                f.write(new)
    print(f"{len(table)} names, {changed} files")
    return 0


if __name__ == "__main__":
    raise SystemExit(main(sys.argv[1:]))
