#!/usr/bin/env python3
"""Gives the repository's own definitions and lemmas today's spelling, once, after /opt/rattle/port/port.py.

usage: python3 tools/respell.py      at the top of the repository

Words of specs/ and proofs/ that are spelled likeThis or like-this become like_this. Types, modules, functions of src/, strings, inputs and outputs keep
their names. A lemma that would get the name of a function or of a definition gets `_lem` behind it. In proof files a step of the code has the source's
own spelling again: `c.cut-law` is `c.cut_law` where src/ has that name. It prints each name that it gave, and proves nothing."""
import collections
import os
import re

# lemmas whose plain name a function of src/ or a definition has
LEMMAS = {
    "cut-law": "cut_law_lem",
    "filter-laws": "filter_laws_lem",
    "four-corners": "four_corners_lem",
    "lateral-law": "lateral_law_lem",
    "mean-page": "mean_page_lem",
    "median-law": "median_law_lem",
    "region-law": "region_law_lem",
    "spread-law": "spread_law_lem",
    "step-law": "step_law_lem",
    "sum-law": "sum_law_lem",
    "two-step-law": "two_step_law_lem",
    "window-law": "window_law_lem",
}
DEFINED = re.compile(r"^\s*(?:abbrev |unfoldable |pub )*([^\s(){}\[\].,;:λ→\"-][^\s(){}\[\].,;:λ→\"]*) : ")
BOUND = re.compile(r"(?:[({]|\blet )([^\s(){}\[\].,;:λ→\"-][^\s(){}\[\].,;:λ→\"]*) [:=] ")
GOAL = re.compile(r"(?m)^(?:abbrev |pub )*([^\s(){}\[\].,;:λ→\"-][^\s(){}\[\].,;:λ→\"]*) : goal\.")
IMPORT = re.compile(r"use (?!Rattle\.(?:CRATES)\.)[^{;]*\{([^}]*)\}")
FIELD = re.compile(r"^  (?:pub )?([^\s(){}\[\].,;:λ→\"-][^\s(){}\[\].,;:λ→\"]*) : ")
TOKEN = re.compile(r"[^\s(){}\[\].,;:λ\"`]+")
RUST = re.compile(r"\b[a-z][a-z0-9]*(?:_[a-z0-9]+)+\b")


def files(*endings):
    for folder, folders, names in os.walk("crates"):
        folders[:] = sorted(f for f in folders if f not in ("out", "must-fail"))
        for name in sorted(names):
            if name.endswith(endings):
                yield os.path.join(folder, name)


def read(path):
    with open(path, encoding="utf-8") as f:
        return f.read()


def snake(name):
    return re.sub(r"(?<=[a-z0-9])([A-Z])", lambda m: "_" + m.group(1).lower(), name).replace("-", "_")


def old_spelling(name):
    return "-" in name or (name[0].islower() and snake(name) != name)


def defined():
    """The names to respell, and which of them are fields of records."""
    names, fields, theirs = set(), set(), set()
    others = re.compile(IMPORT.pattern.replace("CRATES", "|".join(sorted(os.listdir("crates")))))
    for path in files(".antt"):
        in_record = False
        text = read(path)
        for m in others.finditer(text):
            theirs.update(re.split(r"[\s,]+", m.group(1)))
        for line in text.split("\n"):
            if re.match(r"(pub )?record ", line):
                in_record = True
            elif line and not line.startswith("  ") and not line.startswith("--"):
                in_record = False
            m = DEFINED.match(line)
            if m and ": goal." not in line and old_spelling(m.group(1)):
                names.add(m.group(1))
                if in_record and FIELD.match(line):
                    fields.add(m.group(1))
            names.update(n for n in BOUND.findall(line) if old_spelling(n) and not n.startswith("goal"))
    for n in sorted(names & theirs):
        print(n, "is a name of the library too, and stays")
    return names - theirs, fields


def source_names():
    found = set()
    for path in files(".rt"):
        found.update(RUST.findall(read(path)))
    return sorted(found, key=len, reverse=True)


def step(token, sources):
    """The name of a step with the source's spelling."""
    for name in sources:
        token = re.sub(r"(?<![^-])%s(?![^-])" % re.escape(name.replace("_", "-")), name, token)
    return token


def main():
    names, fields = defined()
    to = {n: LEMMAS.get(n, snake(n)) for n in names}
    together = collections.Counter(to.values())
    for n in sorted(to):
        print(n, "->", to[n], "FALLS TOGETHER" if together[to[n]] > 1 else "")
    sources = source_names()

    def turn(text, proofs):
        goals = set(GOAL.findall(text)) if proofs else set()

        def one(m):
            t = m.group(0)
            if t in goals:
                return step(t, sources)
            behind_dot = m.start() > 0 and text[m.start() - 1] == "."
            if behind_dot and t not in fields:
                return step(t, sources) if proofs and "-" in t else t
            return to.get(t, t)

        return TOKEN.sub(one, text)

    for path in files(".antt", ".rt"):
        text = read(path)
        new = turn(text, "/proofs/" in path)
        if new != text:
            with open(path, "w", encoding="utf-8") as f:
                f.write(new)
    pages = ["README.md"] + [os.path.join("docs", n) for n in sorted(os.listdir("docs")) if n != "PORT.md"]
    for path in pages:
        text = read(path)
        new = re.sub(r"`[^`\n]+`", lambda m: turn(m.group(0), False), text)
        if new != text:
            with open(path, "w", encoding="utf-8") as f:
                f.write(new)


if __name__ == "__main__":
    main()
