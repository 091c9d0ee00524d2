#!/usr/bin/env python3
"""Brings the repository's own names in specs/ and proofs/ to today's spelling: words in snake case, types and facts in camel case.

usage: python3 tools/respell.py        at the top of a checkout that port.py has just turned

A dash stays where it joins two names (a lemma on one function applied to another) or a fact and a name.
Names of src/, names that Rattle makes, names of the kit's libraries, strings and comments in prose keep their spelling.
Prints each name that it turns, and first the places where two may fall together.
"""
import collections
import os
import re
import sys

TOKEN = re.compile(r"[^\W\d][\w'₀-₉′-]*", re.UNICODE)
DECLARED = re.compile(r"^(\s*)((?:abbrev |unfoldable |pub )*)((?:[^\W\d][\w'₀-₉′-]* )+)(:|→)\s(.*)$")
NAMED = re.compile(r"^(\s*)(?:abbrev |unfoldable |pub )*(record|data)\s+([^\W\d][\w'₀-₉′-]*)")
USED = re.compile(r"^(?:ghost )?(?:pub )?use\s+([\w.+'◌·-]+)\.\{(.*)\}", re.M)
ANSWERS = ("Answers.antt", "Invariants.antt", "Proof.antt")


def files(root, ends):
    for folder, dirs, names in os.walk(root):
        dirs[:] = sorted(d for d in dirs if d not in ("out", ".git"))
        for name in sorted(names):
            if name.endswith(ends):
                yield os.path.join(folder, name)


def read(path):
    with open(path, encoding="utf-8") as f:
        return f.read()


def snake(word):
    word = re.sub(r"(?<=[a-z0-9₀-₉])([A-Z])", lambda m: "_" + m.group(1), word)
    word = re.sub(r"(?<=[A-Z])([A-Z])(?=[a-z])", lambda m: "_" + m.group(1), word)
    return word


def lower(word):
    return "_".join(p.lower() for p in snake(word).split("_"))


def camel(name):
    return "".join(p[:1].upper() + p[1:] for p in re.split(r"[-_]", name))


def declarations(root):
    """name -> the kinds in which it is declared: 'type', 'def' (in specs/), 'inner' (a field, a constructor, a local), 'lemma', 'answer'."""
    found = collections.defaultdict(set)
    for path in files(root, ".antt"):
        specs = "/specs/" in path
        answers = os.path.basename(path) in ANSWERS
        for line in read(path).split("\n"):
            if line.lstrip().startswith("--"):
                continue
            m = NAMED.match(line)
            if m:
                found[m.group(3)].add("type")
                continue
            m = DECLARED.match(line)
            if not m or m.group(4) != ":":
                continue
            for name in m.group(3).split():
                if name in ("use", "mod", "where", "module", "let", "in"):
                    continue
                if answers and "pub" in m.group(2):
                    found[name].add("answer")
                elif m.group(1):
                    found[name].add("inner")
                elif re.search(r"(^|→ )Type 0$", m.group(5).strip()):
                    found[name].add("type")
                else:
                    found[name].add("def" if specs else "lemma")
    return found


def library(root):
    """The names that the repository takes from the kit."""
    taken = set()
    for path in files(root, (".antt", ".rt")):
        for m in USED.finditer(read(path)):
            if re.match(r"Rattle\.(std|core)\b|native\b|borrow\b|denote\b|mir\b|lib\b|Prim\b|mathlib\b|specs\b|logic\b", m.group(1)):
                for name in m.group(2).split(","):
                    taken.add(name.split(" as ")[0].strip())
    return taken


def spelled(name, kinds, known):
    plain = name.replace("′", "'")
    if "type" in kinds and re.match(r"[A-Z]", plain):
        return camel(plain) if re.search(r"[-_]", plain) else plain
    if re.match(r"[A-Z]", plain):
        head, dash, rest = plain.partition("-")
        return head + dash + "_".join(lower(p) for p in rest.split("-")) if dash else plain
    parts = plain.split("-")
    if "def" in kinds or "inner" in kinds or len(parts) == 1:
        return "_".join(lower(p) if not re.fullmatch(r"[A-Z][\w']*", p) else p.lower() for p in parts)
    joint = "-" if all(p in known for p in parts) else "_"
    return joint.join(lower(p) for p in parts)


def plan(root):
    found, taken = declarations(root), library(root)
    known = {n for n, kinds in found.items() if kinds & {"def"}} | {"length", "append", "take", "drop", "map", "set", "get_or", "replicate", "reverse"}
    turned = {}
    for name, kinds in sorted(found.items()):
        if "answer" in kinds or name in taken:
            continue
        new = spelled(name, kinds, known)
        if new != name:
            turned[name] = new
    return found, taken, turned


# Names that would fall together with another: the definition or the field has the plain name, the lemma on it gets `_lem`.
CHOSEN = {
    "at-node": "at_node_lem",
    "port-of": "port_of_lem",
    "is-kind": "is_kind_lem",
    "faults-of": "faults_of_lem",
    "node_at": "node_at_lem",
    "name-fault": "name_fault_lem",
    "by-data": "by_data_lem",
    "by-iter": "by_iter_lem",
    "type-room": "types_room",
    "byNumber": "fault_by_number",
}
# The same, in one crate alone.
CHOSEN_IN = {
    "syntax": {"inForce": "name_in_force"},
    "token_machine": {f"at-{n}": f"at_{n}_lem" for n in ("number", "successor", "multiplexer", "iterator", "counter", "transfer")},
}


def settle(found, taken, turned):
    """Where two names fall together, the lemma gets `_lem`."""
    turned.update(CHOSEN)
    used = collections.defaultdict(list)
    for name in found:
        used[turned.get(name, name)].append(name)
    for new, names in sorted(used.items()):
        for name in names:
            if found[name] == {"lemma"} and name in turned and (new in taken or any("def" in found[n] for n in names if n != name)):
                turned[name] = new + "_lem"


def table(path, turned):
    """What is turned in one file."""
    m = re.search(r"crates/(\w+)/", path)
    return turned | CHOSEN_IN[m.group(1)] if m and m.group(1) in CHOSEN_IN else turned


def together(root, turned):
    """Files in which two names would fall together."""
    for path in files(root, (".antt", ".rt")):
        names = collections.defaultdict(set)
        here = table(path, turned)
        for name in TOKEN.findall(re.sub(r'"(?:[^"\\]|\\.)*"|--.*|//.*', "", read(path))):
            names[here.get(name, name)].add(name)
        for new, olds in sorted(names.items()):
            if len(olds) > 1:
                yield path, new, sorted(olds)


def turn_antt(text, turned):
    out = []
    for line in text.split("\n"):
        code, dashes, note = line, "", ""
        at = re.search(r"(^|\s)--(\s|$)", line)
        if at:
            code, note = line[: at.start()], line[at.start():]
        pieces = re.split(r'("(?:[^"\\]|\\.)*")', code)
        code = "".join(p if i % 2 else TOKEN.sub(lambda m: turned.get(m.group(0), m.group(0)), p) for i, p in enumerate(pieces))
        note = TOKEN.sub(lambda m: turned.get(m.group(0), m.group(0)) if "-" not in m.group(0) else m.group(0), note)
        out.append(code + note)
    return "\n".join(out)


GHOST = re.compile(r"^\s*(pub )?ghost |^\s*(requires|ensures)\b")


def turn_rt(text, turned):
    """Only what is antt: imports, ghost members, clauses, up to the line where they end."""
    out, deep, own = [], 0, ""
    for line in text.split("\n"):
        if deep > 0 or GHOST.match(line):
            bare = re.sub(r'"(?:[^"\\]|\\.)*"', "", line)
            deep += bare.count("{") - bare.count("}")
            line = turn_antt(line, turned)
        out.append(line)
    return "\n".join(out)


def turn_page(text, turned):
    """In a page, what stands between back quotes."""
    return re.sub(r"`[^`\n]+`", lambda q: TOKEN.sub(lambda m: turned.get(m.group(0), m.group(0)), q.group(0)), text)


def main():
    root = os.path.join(os.getcwd(), "crates")
    found, taken, turned = plan(root)
    settle(found, taken, turned)
    clashes = list(together(root, turned))
    for path, new, olds in clashes:
        print(f"falls together: {os.path.relpath(path)}: {new}: {', '.join(olds)}", file=sys.stderr)
    if "--list" in sys.argv:
        for name, new in sorted(turned.items()):
            print(f"{name}\t{new}\t{','.join(sorted(found[name]))}")
        return
    for path in list(files(root, (".antt", ".rt"))):
        old = read(path)
        new = (turn_antt if path.endswith(".antt") else turn_rt)(old, table(path, turned))
        if new != old:
            with open(path, "w", encoding="utf-8") as f:
                f.write(new)
    for path in [os.path.join(os.getcwd(), "README.md")] + list(files(os.path.join(os.getcwd(), "docs"), ".md")):
        old = read(path)
        new = turn_page(old, turned)
        if new != old:
            with open(path, "w", encoding="utf-8") as f:
                f.write(new)
    for name, new in sorted(turned.items()):
        print(f"{name} -> {new}")


main()
