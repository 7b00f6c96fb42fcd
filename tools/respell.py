#!/usr/bin/env python3
"""Bring the repository's own definitions and lemmas to the spelling of the newer Rattle.

Run once, at the top, on what /opt/rattle/port/port.py made of the older repository:

    python3 tools/respell.py          # respells
    python3 tools/respell.py --list   # only prints old and new names

What is declared in specs/ and proofs/ (definitions, lemmas, fields, constructors, the
helpers of answer files), and a name that it is brought in under: where words are joined
by hyphens it gets underscores, a type's name camel case, and a prime is an apostrophe.
Functions of src/, strings, inputs and outputs keep their names, and so do the names that
Rattle makes of goals (`pub X : goal.X`, `c.X`).
"""
import collections
import glob
import re
import sys

TOKEN = re.compile(r"[A-Za-z0-9_'′₀-₉ⁿ¹²³κλ-]+")
HEAD = re.compile(r"^(\s*)((?:(?:abbrev|unfoldable|pub|private|record|data)\s+)*)([^\s(){}:,.;=→λ\[\]∷]+)\s+(?=[:({])")


def spec_files():
    return sorted(glob.glob("crates/*/specs/**/*.antt", recursive=True))


def proof_files():
    return sorted(glob.glob("crates/*/proofs/**/*.antt", recursive=True))


def sources():
    return sorted(glob.glob("crates/*/src/**/*.rt", recursive=True))


def is_made(line):
    """Whether a line declares the answer to a goal, whose name Rattle makes."""
    return re.search(r":\s*(goal|need|given|choice)\.\S+\s*$", line) is not None


def is_ours(name):
    if name[:1].isupper() and "_" in name:
        return True
    return ("-" in name or "′" in name) and re.search(r"[A-Za-z]", name) is not None


def respelled(name):
    name = name.replace("′", "'")
    if name[0].isupper():
        return "".join(part[:1].upper() + part[1:] for part in re.split("[-_]", name))
    return name.replace("-", "_")


def declared():
    names = collections.defaultdict(set)
    for path in spec_files() + proof_files():
        for line in open(path, encoding="utf-8"):
            for alias in re.findall(r" as ([^\s,{}]+)", line if line.startswith("use ") else ""):
                if is_ours(alias):
                    names[alias].add(path)
            if line.lstrip().startswith(("--", "use ", "mod ", "pub mod ")) or is_made(line):
                continue
            m = HEAD.match(line)
            if m and is_ours(m.group(3)):
                names[m.group(3)].add(path)
    for path in sources():
        for line in open(path, encoding="utf-8"):
            if line.startswith("ghost use "):
                for alias in re.findall(r" as ([^\s,{}]+)", line):
                    if is_ours(alias):
                        names[alias].add(path)
    return names


def crates():
    return {path.split("/")[1] for path in glob.glob("crates/*/")}


def kept_here(text):
    """What a file brings in from libraries, of the kit's names: these keep their spelling."""
    ours = crates()
    kept = set()
    for path, items in re.findall(r"(?m)^(?:ghost )?(?:pub )?use ([A-Za-z0-9_.·]+)\.\{([^}]*)\}", text):
        if not (path.startswith("Rattle.") and path.split(".")[1] in ours):
            for item in items.split(","):
                word = item.strip().split(" as ")[0].strip()
                kept.add(word)
    return kept


def here(text, names):
    kept = kept_here(text)
    return {old: new for old, new in names.items() if old not in kept}


def respell_text(text, names):
    names = here(text, names)

    def one(m):
        return names.get(m.group(0), m.group(0))

    return TOKEN.sub(one, text)


def respell_proof(text, names):
    """Of an answer's file: the names that Rattle makes stay (`goal.X`, `c.X`, and X itself)."""
    names = here(text, names)
    made = set(re.findall(r"(?:goal|need|given)\.([^\s]+)", text))
    out = []
    for line in text.split("\n"):
        def one(m):
            token = m.group(0)
            before = line[: m.start()]
            if re.search(r"\b(goal|need|given)\.$", before):
                return token
            if token in made and (before == "" or before.endswith("pub ") or before.strip() in ("abbrev", "abbrev pub")):
                return token
            if token in made and before.endswith("."):
                return token
            return names.get(token, token)

        out.append(TOKEN.sub(one, line))
    return "\n".join(out)


def respell_source(text, names):
    """Of a .rt file: all but strings."""
    out = []
    for part in re.split(r'("(?:[^"\\\n]|\\.)*")', text):
        out.append(part if part.startswith('"') else respell_text(part, names))
    return "".join(out)


def main():
    names = {old: respelled(old) for old in declared()}
    taken = collections.defaultdict(list)
    for old, new in names.items():
        taken[new].append(old)
    everything = {}
    for path in spec_files() + proof_files() + sources():
        everything[path] = open(path, encoding="utf-8").read()
    words = collections.defaultdict(set)
    for path, text in everything.items():
        for m in TOKEN.finditer(text):
            words[m.group(0)].add(path)
    for new, olds in sorted(taken.items()):
        both = words.get(new, set())
        if len(olds) > 1 or both:
            print(f"falls together: {olds} -> {new}, which stands in {sorted(both)[:6]}")
    if "--list" in sys.argv:
        for old, new in sorted(names.items()):
            print(old, new)
        return
    for path, text in everything.items():
        if path.endswith(".rt"):
            new = respell_source(text, names)
        elif path.rsplit("/", 1)[1] in ("Answers.antt", "Invariants.antt", "Proof.antt"):
            new = respell_proof(text, names)
        else:
            new = respell_text(text, names)
        if new != text:
            open(path, "w", encoding="utf-8").write(new)


main()
