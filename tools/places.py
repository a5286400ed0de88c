#!/usr/bin/env python3
"""Counts the places of the design pass (docs/DESIGN-PASS.md) in crates/*/src and crates/*/proofs, point by point.

    python3 tools/places.py            the counts, of the files as they stand
    python3 tools/places.py POINT      each place of a point (1 to 8)
"""
import collections
import glob
import re
import sys

SOURCES = sorted(glob.glob("crates/*/src/*.rt"))
PROOFS = sorted(glob.glob("crates/*/proofs/*/*.antt") + glob.glob("crates/*/proofs/*/*/*.antt"))
KINDS = r"IN_(DECLARATIONS|ACTION|GOAL)|ADD|LINEAR|QUOTIENT|RESIDUE|EQUAL|AT_LEAST|AT_MOST|NONE"
WRAPPERS = r"wide|wide16|wider|word|mark|narrow|low|lesser|magnitude|signed|sum|plus|product|difference|negated|mode_after|plus_\w+|held_in"
GROUPS = ["marks numbers", "values modes", "n m", "out at", "plan steps", "parts constants", "lower upper", "times count",
          "file places", "first sums weights", "task has_task"]


def lines(pattern):
    found = []
    for path in SOURCES:
        for number, line in enumerate(open(path), 1):
            if re.search(pattern, line) and not line.lstrip().startswith("//"):
                found.append(f"{path}:{number}: {line.strip()}")
    return found


def functions():
    for path in SOURCES:
        text = open(path).read()
        for m in re.finditer(r"^[ ]*(?:pub(?:\(crate\))? )?(?:extern \"C\" )?fn (\w+)", text, re.M):
            i = text.index("(", m.end())
            depth, j = 0, i
            while True:
                depth += {"(": 1, ")": -1}.get(text[j], 0)
                j += 1
                if depth == 0:
                    break
            params, part, depth = [], "", 0
            for c in text[i + 1:j - 1] + ",":
                depth += {"(": 1, "[": 1, "<": 1, ")": -1, "]": -1, ">": -1}.get(c, 0)
                if c == "," and depth == 0:
                    if part.strip():
                        params.append(part.strip())
                    part = ""
                else:
                    part += c
            end = text.find("\n" + " " * (len(m[0]) - len(m[0].lstrip())) + "}", j)
            yield path, text.count("\n", 0, m.start()) + 1, m[1], params, text[j:end]


def twins():
    """Functions whose bodies are one another's but for names, types and numbers."""
    forms = collections.defaultdict(list)
    for path, number, name, params, rest in functions():
        body = rest[rest.find("\n{"):] if "\n{" in rest else rest[rest.find("{"):]
        seen = {}
        tokens = re.findall(r"\w+|[^\w\s]", body)
        if len(tokens) < 4:
            continue
        form = " ".join(seen.setdefault(t, f"x{len(seen)}") if re.match(r"\w", t) else t for t in tokens)
        forms[len(params), form].append(f"{path}:{number}: {name}")
    return [" = ".join(group) for group in forms.values() if len(group) > 1]


def grouped():
    found = []
    for path, number, name, params, _ in functions():
        names = [p.split(":")[0].strip() for p in params]
        for group in GROUPS:
            if all(g in names for g in group.split()):
                found.append(f"{path}:{number}: {name}: {group}")
    return found


def long_lists():
    return [f"{path}:{number}: {name}: {len(params)} parameters" for path, number, name, params, _ in functions() if len(params) >= 8]


def clauses():
    """Facts that stand in the requires of three or more functions."""
    facts = collections.Counter()
    for path in SOURCES:
        for m in re.finditer(r"requires\b[^{]*\{(.*?)\}\s*\n\s*(?:requires|ensures|\{)", open(path).read(), re.S):
            for fact in m[1].split("×"):
                facts[" ".join(fact.split()).strip(" ()")] += 1
    return [f"{n} {fact}" for fact, n in facts.most_common() if n >= 3]


def counted_loops():
    found = []
    for path in SOURCES:
        text = open(path).read()
        for m in re.finditer(r"^( *)(?:while\b([^{]*)|loop) \{\n(.*?)^\1\}", text, re.M | re.S):
            names = set(re.findall(r"\b[a-z]\w*\b", m[2] or ""))
            if any(re.search(rf"\b{n} [+-]= (\d+|STAGE);", m[3]) for n in names):
                found.append(f"{path}:{text.count(chr(10), 0, m.start()) + 1}: while{m[2]}")
    return found


def fields():
    """Structs with an array and its count, and constants that are places in a row of numbers."""
    found = []
    for path in SOURCES:
        text = open(path).read()
        for m in re.finditer(r"struct (\w+)[^{;]*\{(.*?)\n\}", text, re.S):
            if re.search(r"\b(count|\w+_count|added|len): \w+", m[2]) and "[" in m[2]:
                found.append(f"{path}:{text.count(chr(10), 0, m.start()) + 1}: struct {m[1]}")
    return found + lines(r"^pub const [A-Z_]+: usize = \d+;")


def trivial():
    found = []
    for path in PROOFS:
        for m in re.finditer(r"^[\w-]+ c =\s+(search \([^\n]*\)|search rules|omega arith|omega \(arith\))$", open(path).read(), re.M):
            found.append(f"{path}: {m[0]}")
    return found


def long_chains():
    return [f"{path}:{n}: {line.strip()[:120]}" for path in PROOFS for n, line in enumerate(open(path), 1) if ".before.before.before" in line]


POINTS = {
    1: [("enums", lambda: lines(r"^\s*(pub )?enum ")),
        ("struct fields and parameters that are flags", lambda: lines(r"^\s*(pub )?\w+: bool,")),
        ("refusals by number", lambda: lines(r"(Refused|Rejected|Stopped|Ended|refuse|stopped)\((p, )?\d+|(Refused|Rejected|Stopped|Ended)\((u8|number|refusal)|refuse\(number|return 1[0-3];|number: (&mut )?u8")),
        ("kinds by number", lambda: lines(rf"^\s*(pub )?const ({KINDS}): u\d+|relation: u\d+|kind: u16"))],
    2: [("groups of functions alike but for names, types and numbers", twins)],
    3: [("loops that are no for", lambda: lines(r"^\s*(while|loop)\b")), ("of them counted by hand", counted_loops)],
    4: [("functions that wrap a conversion, a minimum or a sum", lambda: lines(rf"fn ({WRAPPERS})\(")),
        ("Drop where Clone and Copy could be", lambda: lines(r"#\[derive\(Drop\)\]"))],
    5: [("parameters that travel together", grouped), ("functions with eight parameters or more", long_lists),
        ("facts required in three or more contracts", clauses)],
    6: [("arrays with a count beside, and places in rows", fields)],
    7: [("switches on a step", lambda: lines(r"match entry|if effects? \{|effects?: bool|priced: bool|falls: bool|restricted: bool"))],
    8: [("answers that the search finds", trivial), ("paths of three steps back and more", long_chains)],
}

if __name__ == "__main__":
    if len(sys.argv) > 1:
        for title, places in POINTS[int(sys.argv[1])]:
            print(f"{title}:")
            print("\n".join("  " + place for place in places()))
    else:
        for point, parts in POINTS.items():
            print(f"{point}. " + "; ".join(f"{title}: {len(places())}" for title, places in parts))
