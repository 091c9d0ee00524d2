#!/usr/bin/env python3
"""Lists the places in crates/*/src that the pages on the design count, a section for each point.

    python3 tools/places.py [FOLDER]     at the top of a checkout, or of the one named; a total ends each section
"""
import collections
import pathlib
import re
import sys

top = pathlib.Path(sys.argv[1] if len(sys.argv) > 1 else ".")
files = sorted(top.glob("crates/*/src/*.rt"))
lines = [(f.relative_to(top / "crates"), n, l.rstrip("\n")) for f in files for n, l in enumerate(open(f), 1)]


def section(point, words, places):
    print(f"== {point}: {words}")
    for place in places:
        print("  " + place)
    print(f"  {len(places)} places\n")


def matching(pattern):
    return [f"{f}:{n}: {l.strip()}" for f, n, l in lines
            if re.search(pattern, l) and not l.strip().startswith(("//", "ghost use", "ensures", "requires"))]


class Function:
    """A function's head, clauses and body, as they stand in the text."""

    def __init__(self, file, number, text):
        self.place = f"{file}:{number}"
        self.file = file
        head, _, self.body = text.partition("\n{") if "\n{" in text else text.partition("\n    {")
        self.clauses = [re.sub(r"\s+", " ", c).strip() for c in re.findall(r"(?:requires|ensures\*?)\s*\w*\s*\{((?:[^{}]|\{[^{}]*\})*)\}", head)]
        shape = re.search(r"fn (\w+)(?:<[^(]*>)?\((.*?)\)(?: ->|\s*\n|\s*$)", head, re.S)
        self.name = shape.group(1) if shape else "?"
        inside = re.sub(r"<[^<>]*>", "", re.sub(r"<[^<>]*>", "", shape.group(2))) if shape else ""
        self.parameters = [re.sub(r"\s+", " ", p).replace("mut ", "").strip() for p in inside.split(",") if ":" in p]


def functions():
    found = []
    for f in files:
        text = open(f).read()
        for m in re.finditer(r"(?m)^( *)(?:pub(?:\([a-z]+\))? )?fn \w+", text):
            end = re.search(r"(?m)^%s\}" % m.group(1), text[m.start():])
            stop = re.search(r"(?m)^%s\{|\{\}?$|;$" % m.group(1), text[m.start():])
            # a method of a trait may have no body
            if end is None or stop is None or stop.group(0) == ";":
                continue
            body = text[m.start(): m.start() + end.end()]
            found.append(Function(f.relative_to(top / "crates"), text.count("\n", 0, m.start()) + 1, body))
    return found


fns = functions()

# 1
section("1a", "enums of the repository's own (which of them have the shape of Option or Result is judged by reading)", matching(r"^\s*(pub(\([a-z]+\))? )?enum "))
section("1b", "results that hold a flag or another result; flags among fields", matching(r"Result<bool|Result<Result|^\s*(pub(\([a-z]+\))? )?\w+: bool,"))
section("1c", "numbers for kinds and refusals, and a number for none", matching(r"fn number\(self|\bas u8\b|kind: u8|= 4_294_967_295;|fn of\("))


# 2: functions that are alike once names of values and numbers are taken out
def bare(fn):
    text = re.sub(r"//.*", "", fn.body)
    return re.sub(r"\s+", " ", re.sub(r"\b[A-Za-z_][A-Za-z_0-9]*\b|b?'[^']*'|\b[0-9_]+\b", "x", text)).strip()


alike = collections.defaultdict(list)
for fn in fns:
    if len(bare(fn)) > 24:
        alike[bare(fn)].append(fn)
section("2", "groups of functions of one shape", [" ~ ".join(f"{g.place} {g.name}" for g in group) for group in alike.values() if len(group) > 1])

# 3
section("3", "loops that count: `while` with a condition, `for` over numbers that are used, `enumerate`, a count kept by hand", matching(r"^\s*while (?!let\b)|^\s*for (?!_\b)\w+ in (?!&)[^{]*\.\.|\.enumerate\(\)|^\s*\w+ [+-]= 1;"))

# 4
section("4", "equality, order, copying, conversion and printing by hand", matching(r"fn (of|same|before|sooner|copy)\b|fn number\((self\)|\w+: Fault)|fn \w+_line\(heap|impl(<.*>)? Text for|fn write_\w+\(.*writer: |fn (write|show|tell)\w*(<W|\(rt: )|\bas u(8|32|64)\b"))

# 5
held = collections.defaultdict(set)
for fn in fns:
    for clause in fn.clauses:
        held[re.sub(r"\.(old|new|now|entry|exit)\b", "", clause)].add(f"{fn.file.parts[0]} {fn.place}")
section("5a", "clauses, whichever moment they speak of, in the contracts of three or more functions of a crate", [f"{len(w)}x {c}: {', '.join(sorted(x.split(' ')[1] for x in w))}"
        for c, w in held.items() if len(w) > 2 and len({x.split(" ")[0] for x in w}) == 1])
groups = collections.defaultdict(list)
for fn in fns:
    ps = fn.parameters
    for i in range(len(ps)):
        for j in range(i + 2, len(ps) + 1):
            groups[(fn.file.parts[0], tuple(ps[i:j]))].append(fn)
most = {k: v for k, v in groups.items() if len(v) > 2}
longest = [(k, v) for k, v in most.items() if not any(k != o and k[0] == o[0] and len(o[1]) > len(k[1]) and any(o[1][i:i + len(k[1])] == k[1] for i in range(len(o[1]))) and len(w) >= len(v) for o, w in most.items())]
section("5b", "parameters that stand together in three or more functions of a crate", [f"{len(v)}x {', '.join(k[1])}: {', '.join(g.place + ' ' + g.name for g in v)}" for k, v in longest])

# 6
tables = []
for f in files:
    text = open(f).read()
    for m in re.finditer(r"(?m)^(?:pub(?:\([a-z]+\))? )?(struct|enum) (\w+)[^{;]*\{(.*?)^\}", text, re.S):
        body = re.sub(r"//.*|ghost .*", "", m.group(3))
        held = re.findall(r": (&'a (?:mut )?\[|\[\w+;|Vec<)", body)
        numbers = re.findall(r": usize|: u\d+", body)
        parts = re.findall(r"\((?:usize(?:, )?)+\)|^        \w+: usize", body, re.M)
        if (held and numbers) or len(held) > 1 or (m.group(1) == "enum" and parts):
            tables.append(f"{f.relative_to(top / 'crates')}:{text.count(chr(10), 0, m.start()) + 1}: {m.group(1)} {m.group(2)}")
section("6", "types that hold a buffer beside a number, several buffers, or parts by their numbers", tables)

# 7
section("7", "switches on which step to run, tables of cases, functions handed over", matching(r"match (case|heading|direction|self\.direction)\b|\bfn\(|Fn(Mut|Once)?\(|\bdyn\b"))

# 8
for name, pattern in (("answers of functions", "crates/*/proofs/**/Answers.antt"), ("invariants of loops", "crates/*/proofs/**/Invariants.antt"), ("files of lemmas", "crates/*/proofs/*.antt")):
    counted = [sum(1 for _ in open(f)) for f in top.glob(pattern)]
    print(f"== 8: {name}: {len(counted)} files, {sum(counted)} lines\n")
