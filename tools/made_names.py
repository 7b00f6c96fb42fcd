#!/usr/bin/env python3
"""Bring the names that Rattle makes, of goals and of what is known at them, to their newer form in answers and invariants.

    python3 tools/made_names.py        # every crate

A name from the source keeps its spelling in them now: what was `lay-zeros`, of a call of
`lay_zeros`, is `lay_zeros`; `in-default` is `in_default`.
"""
import glob
import os
import re

TOKEN = re.compile(r"[A-Za-z0-9_'₀-₉+-]+")
WORDS = {"in-default": "in_default", "in-ok": "in_ok", "in-err": "in_err"}


def source_of(path):
    """The .rt files of a proof's crate."""
    return glob.glob(path.split("/proofs/")[0] + "/src/**/*.rt", recursive=True)


def made(path):
    """Old spellings of the names with underscores in a crate's source, the longest first."""
    names = set()
    for f in source_of(path):
        text = open(f, encoding="utf-8").read()
        names |= set(re.findall(r"[A-Za-z][A-Za-z0-9]*(?:_[A-Za-z0-9]+)+", text))
    pairs = {n.replace("_", "-"): n for n in names} | WORDS
    return sorted(pairs.items(), key=lambda p: -len(p[0]))


def turned(token, pairs):
    for old, new in pairs:
        token = re.sub(rf"(?<![A-Za-z0-9_]){re.escape(old)}(?![A-Za-z0-9_])", new, token)
    return token


def turn(path):
    text = open(path, encoding="utf-8").read()
    pairs = made(path)
    own = set(re.findall(r"(?:goal|given)\.([^\s]+)", text))
    brought = {w.strip() for items in re.findall(r"(?m)^use \S+\.(?:Goals|Given)\.\{([^}]*)\}", text) for w in items.split(",")}
    out = []
    for line in text.split("\n"):
        goals = re.match(r"use \S+\.(Goals|Given)\.\{", line)

        def one(m):
            before = line[: m.start()]
            if before.endswith(".") or m.group(0) in own or goals or m.group(0) in brought:
                return turned(m.group(0), pairs)
            return m.group(0)

        out.append(line if re.match(r"(pub )?use ", line) and not goals else TOKEN.sub(one, line))
    new = "\n".join(out)
    if new != text:
        open(path, "w", encoding="utf-8").write(new)


for path in sorted(glob.glob("crates/*/proofs/**/*.antt", recursive=True)):
    if os.path.basename(path) in ("Answers.antt", "Invariants.antt"):
        turn(path)
