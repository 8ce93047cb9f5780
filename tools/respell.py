#!/usr/bin/env python3
"""Spells the repository's own definitions and lemmas as today's Rattle does: in snake case, types and modules in camel case.

usage: python3 tools/respell.py      once, at the top, after the kit's port/port.py and before any edit by hand
       python3 tools/respell.py --list   writes nothing: prints each old name and its new one, and the names that would fall together

A definition, lemma, field or constructor in lower camel case gets underscores, and so does a dash, but before a fact, which keeps its
capital. A lemma that would then have a definition's name ends in _lem. Names of src/ and of the kit stay.
It rewrites .antt files, the ghost lines, clauses and comments of .rt files, and .edit files. It proves nothing.
"""
import os
import re
import sys

# A name of antt: letters, digits, `_`, a prime, and dashes between; subscripts too.
NAME = re.compile(r"(?<![\w'₀-₉·-])[A-Za-z_][\w'₀-₉]*(?:-[\w'₀-₉*]+)*")
GOAL = re.compile(r"(returns|same-length|slice-write|add|sub|mul)(-\w+)*|[\w-]+-requires(-\d+)?")
SNAKE = re.compile(r"[a-z0-9_]+")
DECLARED = re.compile(
    r"^(\s*)(?:(?:pub|abbrev|unfoldable|private)\s+)*([A-Za-z_][\w'₀-₉-]*)((?:\s+[A-Za-z_][\w'₀-₉-]*)*)\s+:(?:\s|$)"
)
KIT_HEADS = (
    *("Rattle.std", "mathlib", "lib", "native", "borrow", "Prim", "denote", "logic", "specs.contracts", "antt", "store", "prog", "types"),
)


def files(root):
    for folder, dirs, names in os.walk(os.path.join(root, "crates")):
        dirs[:] = sorted(d for d in dirs if d != "out")
        for n in sorted(names):
            if n.endswith((".antt", ".rt", ".edit")):
                yield os.path.join(folder, n)


def read(path):
    with open(path, encoding="utf-8") as f:
        return f.read()


def goals(path):
    """A proof's own file: its names at the margin are those of goals, which Rattle makes."""
    return os.path.basename(path) in ("Proof.antt", "Answers.antt", "Invariants.antt")


def goals_of(text):
    """The names of goals in a proof's own file: those that its last definition hands on, and its own."""
    declared_as = re.finditer(r"(?m)^(?:pub |abbrev |unfoldable )*([\w'-]+) : (?:tie\.|goal\.|\{M : )", text)
    return set(NAME.findall(text[text.find("tie.close"):])) | {m.group(1) for m in declared_as}


def declared(root):
    """Every name that a file of specs/ or a lemma file declares, and the functions among them."""
    names, functions = {}, set()
    for path in files(root):
        if not path.endswith(".antt"):
            continue
        text = read(path)
        asked = goals_of(text)
        for line in text.split("\n"):
            if line.lstrip().startswith("--"):
                continue
            m = DECLARED.match(line)
            if not m:
                continue
            if goals(path) and (m.group(2) in asked or GOAL.fullmatch(m.group(2))):
                continue
            for name in [m.group(2)] + m.group(3).split():
                if name in ("pub", "abbrev", "unfoldable", "private", "record", "data", "module", "use"):
                    continue
                names.setdefault(name, set()).add(os.path.relpath(path, root))
            if re.match(r"^\s*(?:pub\s+)?(?:abbrev|unfoldable)\b", line):
                functions.add(m.group(2))
    return names, functions


def snake(word):
    return re.sub(r"(?<=[a-z0-9'])([A-Z])", lambda m: "_" + m.group(1).lower(), word)


def spelled(name):
    """The name as it is spelled today."""
    parts = name.split("-")
    new = []
    for p in parts:
        new.append(p if p[:1].isupper() else snake(p))
    out = new[0]
    for before, after in zip(new, new[1:]):
        fact = after[:1].isupper() or before[:1].isupper()
        out += ("-" if fact else "_") + after
    return out


def imported(root):
    """Names that files bring in from the kit."""
    kit = {}
    for path in files(root):
        for m in re.finditer(r"(?m)^\s*(?:pub )?(?:ghost )?use ([\w.'·]+)\.\{([^}]*)\}", read(path)):
            if m.group(1).startswith(KIT_HEADS):
                for n in m.group(2).split(","):
                    n = n.strip().split(" as ")[0].split(".")[-1]
                    kit.setdefault(n, set()).add(os.path.relpath(path, root))
    return kit


def table(root):
    names, functions = declared(root)
    kit = imported(root)
    new = {}
    for name in names:
        to = spelled(name)
        if to != name and name not in kit:
            new[name] = to
    together = {}
    for name in names:
        together.setdefault(new.get(name, name), set()).add(name)
    for to, olds in list(together.items()):
        lemmas = [o for o in olds if o not in functions]
        if len(olds) == 2 and len(lemmas) == 1:
            new[lemmas[0]] = to + "_lem"  # a lemma that would have its function's name
            together[to] = olds - set(lemmas)
    for old, to in new.items():
        if to in kit:
            together.setdefault(to, set()).add(to + " (the kit's)")
    return new, {to: olds for to, olds in together.items() if len(olds) > 1}, kit, names


def respell(path, text, new):
    def word(m):
        return new.get(m.group(0), m.group(0))

    if path.endswith(".antt"):
        if goals(path):
            # goals keep their names: the line that declares one, the line that answers it, and the list that ends the file
            own = goals_of(text)
            return NAME.sub(lambda m: m.group(0) if m.group(0) in own else word(m), text)
        return NAME.sub(word, text)
    if path.endswith(".edit"):
        return NAME.sub(word, text)
    # .rt: a name of code is in snake case already, and stays
    return NAME.sub(lambda m: m.group(0) if SNAKE.fullmatch(m.group(0)) else word(m), text)


def rename_core(root):
    """The kit has a library named core, so the crate of that name becomes checks; port.py took some of its paths for std's."""
    old, to = os.path.join(root, "crates", "core"), os.path.join(root, "crates", "checks")
    if not os.path.isdir(old):
        return
    os.rename(old, to)
    own = r"(?:Readings|declared\.Reading|Outcomes|Stages|check|check_partitions|number_in)\b"
    for path in files(root):
        text = read(path)
        new = re.sub(r"\bRattle\.core\.specs\.Prelude\b", "Rattle.std.specs.Prelude", text)
        new = re.sub(r"\bRattle\.core\.(specs|proofs)\b", r"Rattle.checks.\1", new)
        new = re.sub(r"\bRattle\.std\.(specs|proofs)\.(?=" + own + ")", r"Rattle.checks.\1.", new)
        if path.endswith(".rt"):
            new = re.sub(r"\buse core::", "use checks::", new)
        new = new.replace("`core::", "`checks::").replace("crates/core/", "crates/checks/")
        if new != text:
            with open(path, "w", encoding="utf-8") as f:
                f.write(new)
    with open(os.path.join(root, "crates.txt"), encoding="utf-8") as f:
        lines = f.read()
    with open(os.path.join(root, "crates.txt"), "w", encoding="utf-8") as f:
        f.write(re.sub(r"\bcore\b", "checks", lines))


# Fields that would have a definition's name, by their crate: each has a name of its own.
FIELDS = {
    "pdi_spec": {"in_image_lem": "inside_image", "first_broken_lem": "broken_first"},
    "promises": {"hash_entry_lem": "hash_entries", "host_rows_lem": "host_leaves_rows"},
}


def rename_fields(root):
    for path in files(root):
        new = FIELDS.get(os.path.relpath(path, root).split(os.sep)[1])
        if new and path.endswith(".antt"):
            text = read(path)
            to = NAME.sub(lambda m: new.get(m.group(0), m.group(0)), text)
            if to != text:
                with open(path, "w", encoding="utf-8") as f:
                    f.write(to)


def main(argv):
    root = os.getcwd()
    if argv != ["--list"]:
        rename_core(root)
    new, together, kit, names = table(root)
    if argv == ["--list"]:
        for old in sorted(new):
            print(f"{old}\t{new[old]}")
        for to, olds in sorted(together.items()):
            print(f"together: {to}: {', '.join(sorted(olds))}")
        return 0
    n = 0
    for path in files(root):
        text = read(path)
        to = respell(path, text, new)
        if to != text:
            with open(path, "w", encoding="utf-8") as f:
                f.write(to)
            n += 1
    rename_fields(root)
    print(f"respell: {len(new)} names, {n} files")
    return 0


if __name__ == "__main__":
    raise SystemExit(main(sys.argv[1:]))
