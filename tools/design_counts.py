#!/usr/bin/env python3
"""Counts, in the sources of all crates, the places that a design pass looks at.

    python3 tools/design_counts.py [--list] [FOLDER]

prints one line for each kind of place, and with --list each place with its file and line.
Comments are left out. What the counts mean, and which places stay, says docs/DESIGN-PASS.md.
"""
import collections
import glob
import os
import re
import sys

listing = "--list" in sys.argv
rest = [a for a in sys.argv[1:] if a != "--list"]
top = rest[0] if rest else "."


def sources():
    for path in sorted(glob.glob(os.path.join(top, "crates/*/src/**/*.rt"), recursive=True)):
        text = re.sub(r"//[^\n]*", "", open(path, encoding="utf-8").read())
        yield os.path.relpath(path, top), text


def line_of(text, at):
    return text.count("\n", 0, at) + 1


def functions(path, text):
    """Each function: (line, name, parameters, clauses, body)."""
    for m in re.finditer(r"\bfn (\w+)", text):
        depth, i = 0, m.end()
        if text[i : i + 1] == "<":  # past the type parameters
            while i < len(text):
                depth += {"<": 1, ">": -1}.get(text[i], 0) if text[i - 1 : i + 1] != "->" else 0
                i += 1
                if depth == 0:
                    break
        while i < len(text) and text[i] != "(":
            i += 1
        start = i
        while i < len(text):
            depth += {"(": 1, ")": -1}.get(text[i], 0)
            i += 1
            if depth == 0:
                break
        params = text[start + 1 : i - 1]
        j = i
        clauses = []
        while True:
            k = re.compile(r"\s*(?:->\s*[^{;]*?)?\s*(?:where[^{]*?)?(requires|ensures|ghost)\b[^{]*\{").match(text, j)
            if not k:
                break
            depth, p = 1, k.end()
            while depth:
                depth += {"{": 1, "}": -1}.get(text[p], 0)
                p += 1
            clauses.append(text[k.end() : p - 1].strip())
            j = p
        k = text.find("{", j)
        semi = text.find(";", j)
        body = ""
        if k >= 0 and (semi < 0 or k < semi):
            depth, p = 1, k + 1
            while depth and p < len(text):
                depth += {"{": 1, "}": -1}.get(text[p], 0)
                p += 1
            body = text[k + 1 : p - 1]
        yield line_of(text, m.start()), m.group(1), params, clauses, body


found = collections.OrderedDict()


def note(kind, place):
    found.setdefault(kind, []).append(place)


for kind in (
    "1 enums",
    "1 fields that are a flag",
    "1 numbers as refusals",
    "2 groups of functions of one shape",
    "2 structs of one shape",
    "3 loops over numbers",
    "3 loops that count beside",
    "3 loops with a way out",
    "3 while loops",
    "4 casts by as",
    "4 Display and conversions by hand",
    "5 functions with width and height",
    "5 functions with bytes and a place",
    "5 functions with a table and a stride",
    "5 functions with random and score",
    "5 facts in three contracts or more",
    "6 structs with an array",
    "7 matches on variants that hold nothing",
    "7 traits",
):
    found[kind] = []

shapes = collections.defaultdict(list)
structs = collections.defaultdict(list)
facts = collections.defaultdict(set)
bare = set()
all_text = list(sources())
for path, text in all_text:
    for m in re.finditer(r"\benum (\w+)[^{]*\{(.*?)\n\}", text, re.S):
        note("1 enums", f"{path}:{line_of(text, m.start())} {m.group(1)}")
        if not re.search(r"[({]", m.group(2)):
            bare.add(m.group(1))
for path, text in all_text:
    for m in re.finditer(r"^\s*(?:pub(?:\(crate\))? )?(\w+): bool,", text, re.M):
        if not re.search(r"\bfn [^{]*$", text[: m.start()].rsplit("}", 1)[-1]):
            note("1 fields that are a flag", f"{path}:{line_of(text, m.start(1))} {m.group(1)}")
    for m in re.finditer(r"Result<[^<>]*, (u8|u16|u32|u64|usize|bool)>", text):
        note("1 numbers as refusals", f"{path}:{line_of(text, m.start())} {m.group(0)}")
    for m in re.finditer(r"\bstruct (\w+)[^{;]*\{(.*?)\n\}", text, re.S):
        shape = re.sub(r"\bu(8|16|32|64|128|size)\b|\b\d+\b", "N", re.sub(r"\s+", " ", m.group(2)))
        structs[shape].append(f"{path}:{line_of(text, m.start())} {m.group(1)}")
        if re.search(r"\[[^\]]*;[^\]]*\]", m.group(2)):
            note("6 structs with an array", f"{path}:{line_of(text, m.start())} {m.group(1)}")
    for m in re.finditer(r"\bas (u8|u16|u32|u64|u128|usize|i8|i16|i32|i64|i128|isize)\b", text):
        note("4 casts by as", f"{path}:{line_of(text, m.start())}")
    for m in re.finditer(r"impl[^{\n]*\b(PartialEq|Eq|PartialOrd|Ord|Clone|Copy|Default|Display|Debug|From<[^{\n]*>|TryFrom<[^{\n]*>) for (\w+)|pub (?:\(crate\) )?fn (report|offsets|number|into_\w+|to_\w+)\(self", text):
        note("4 Display and conversions by hand", f"{path}:{line_of(text, m.start())} {m.group(0).strip()}")
    for m in re.finditer(r"\btrait (\w+)", text):
        note("7 traits", f"{path}:{line_of(text, m.start())} {m.group(1)}")
    for m in re.finditer(r"\bwhile\b", text):
        note("3 while loops", f"{path}:{line_of(text, m.start())}")
    for m in re.finditer(r"\bfor ([^\n{]*) in ([^{\n]*)\{", text):
        if m.group(1).startswith(("fmt", "&")) or " for " in m.group(0)[4:]:
            continue
        if ".." in m.group(2) and "(" not in m.group(2).split("..")[0]:
            note("3 loops over numbers", f"{path}:{line_of(text, m.start())} {m.group(0).strip()}")
        if "enumerate" in m.group(2):
            note("3 loops that count beside", f"{path}:{line_of(text, m.start())} {m.group(0).strip()}")
    for line, name, params, clauses, body in functions(path, text):
        place = f"{path}:{line} {name}"
        names = re.findall(r"(\w+):", params)
        if {"width", "height"} <= set(names):
            note("5 functions with width and height", place)
        if "bytes" in names and ({"at", "from", "first"} & set(names)):
            note("5 functions with bytes and a place", place)
        if {"table", "stride"} <= set(names):
            note("5 functions with a table and a stride", place)
        if {"random", "score"} <= set(names):
            note("5 functions with random and score", place)
        for m in re.finditer(r"\bfor [^\n]* in [^\n]*\{", body):
            depth, p = 1, m.end()
            while depth and p < len(body):
                depth += {"{": 1, "}": -1}.get(body[p], 0)
                p += 1
            inner = body[m.end() : p]
            if re.search(r"\breturn\b", inner) and "for " not in inner:
                note("3 loops with a way out", place)
            if re.search(r"\b(\w+) = \1\.wrapping_add\(1\)", inner) and "for " not in inner:
                note("3 loops that count beside", place)
        for clause in clauses:
            for fact in re.split(r"×", clause.replace("(", " ( ").replace(")", " ) ")):
                fact = re.sub(r"\s+", " ", fact).strip(" ()")
                if len(fact) > 3 and not fact.startswith("result ≡"):
                    facts[fact].add(place)
        tokens = re.findall(r"[A-Za-z_]\w*|\d[\w]*|\S", body)
        if len(tokens) >= 24:
            seen = {}
            shape = []
            for t in tokens:
                if re.match(r"[A-Za-z_]\w*$|\d", t) and t not in ("for", "in", "if", "else", "match", "let", "mut", "return", "self", "while"):
                    t = "n"
                shape.append(t)
            shapes[" ".join(shape)].append(place)
        for m in re.finditer(r"\bmatch ([\w.]+) \{(.*)", body, re.S):
            arms = re.findall(r"\b(\w+)::(\w+)\b(?!\s*[({:])", m.group(2))
            if arms and arms[0][0] in bare:
                note("7 matches on variants that hold nothing", f"{place} match {m.group(1)}")
for shape, places in shapes.items():
    if len(places) > 1:
        note("2 groups of functions of one shape", " = ".join(places))
for shape, places in structs.items():
    if len(places) > 1:
        note("2 structs of one shape", " = ".join(places))
for fact, places in sorted(facts.items()):
    if len(places) >= 3:
        note("5 facts in three contracts or more", f"{len(places)} times: {fact}")
for kind, places in found.items():
    print(f"{len(places):4}  {kind}")
    if listing:
        for p in places:
            print("        " + p)
answers = glob.glob(os.path.join(top, "crates/*/proofs/**/Answers.antt"), recursive=True)
lemmas = [p for p in glob.glob(os.path.join(top, "crates/*/proofs/*.antt")) if not p.endswith("Lib.antt")]
lines = sum(len(open(p, encoding="utf-8").read().splitlines()) for p in answers)
more = sum(len(open(p, encoding="utf-8").read().splitlines()) for p in lemmas)
print(f"{len(answers):4}  8 files of answers, {lines} lines")
print(f"{len(lemmas):4}  8 files of lemmas, {more} lines")
