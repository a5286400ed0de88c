#!/usr/bin/env python3
"""Brings the repository's own definitions, lemmas and fields to today's spelling. Run once, right behind the kit's port.py, at the top:

    python3 tools/respell.py LANDED

LANDED is the commit that port.py began from; it is read for the names that port.py itself turned.

A name that begins with a small letter is in snake case, part by part between its dashes: `numbersBytes` is `numbers_bytes`, `flatMap-nil` is
`flat_map-nil`. A type or a fact keeps its capital. A lemma that would then have the name of a definition ends in `_lem`; a definition that would
have the name of a crate ends in `_of`. Functions, types and fields of src/ keep their names, and so do strings, inputs and outputs.
Turned are the .antt and .rt files of crates/, the must-fail edits, and what the pages of the repository name in backquotes.
"""
import collections
import glob
import os
import re
import subprocess
import sys

TOKEN = re.compile(r"[A-Za-z_ℕℤα-ωₐ-ₜ][A-Za-z0-9_'′α-ωℕℤ₀-₉\-≢≡≤<]*")
HUMP = re.compile(r"[a-z0-9][A-Z]")
DEFINED = re.compile(r"^[ \t]*(?:(?:pub|abbrev|unfoldable|data|record)[ \t]+)*([^\s:(){}]+)(?:[ \t][^:\n]*)?[ \t]:", re.M)

# definitions that would have the name of a crate
OF_A_CRATE = {"planBytes": "plan_bytes_of", "restrictedStep": "restricted_step_of", "sourceStep": "source_step_of",
              "listingProgram": "listing_program_of", "fileParts": "file_parts_of"}
# lemmas named after a word of the library that has another name today
OF_A_WORD = {"getD-each": "get_or-each", "getD-terms": "get_or-terms", "get_d_tabulate": "get_or-tabulate"}
# lemmas that would have the name of a definition
LEMMAS = ["goes_on", "rows_are", "in_four", "at_rest", "not_opened", "dead_end", "row_is", "row_number", "source_ok", "walk_is", "start_is",
          "whole_is", "term_fits", "number_is", "turn_is", "kept_of", "lower_in"]


def snake(part):
    if part and part[0].islower() and HUMP.search(part):
        return re.sub(r"([a-z0-9])([A-Z])", r"\1_\2", part).lower()
    return part


def turned(name):
    if name in OF_A_CRATE:
        return OF_A_CRATE[name]
    if name in OF_A_WORD:
        return OF_A_WORD[name]
    if name in LEMMAS:
        return name + "_lem"
    return "-".join(snake(p) for p in name.split("-"))


def plain(name):
    return re.sub("[-_'′]", "", name.replace("getD", "get_d")).lower()


def sources():
    return sorted(f for f in glob.glob("crates/*/**/*", recursive=True) if f.endswith((".antt", ".rt")) and "/out/" not in f)


def read(path):
    with open(path, encoding="utf-8") as it:
        return it.read()


def write(path, text):
    with open(path, "w", encoding="utf-8") as it:
        it.write(text)


def own_crates():
    return {line.split(":")[0].split()[0] for line in read("crates.txt").split("\n") if ":" in line and not line.startswith("#")}


def imported(texts):
    """what files import from libraries that are not the repository's"""
    own, names = own_crates(), set()
    for text in texts:
        for module, words in re.findall(r"use ([^\s{]+)\.\{([^}]*)\}", text):
            parts = module.split(".")
            if not (parts[0] == "Rattle" and len(parts) > 1 and parts[1] in own):
                names |= {w.strip() for w in words.split(",")}
    return names


def by_port(landed):
    """the names that port.py turned itself: each definition of LANDED beside the one that stands in its place"""
    pairs = collections.defaultdict(set)
    for path in sources():
        if not path.endswith(".antt"):
            continue
        was = subprocess.run(["git", "show", f"{landed}:{path}"], stdout=subprocess.PIPE, stderr=subprocess.DEVNULL)
        if was.returncode:
            continue
        old, new = DEFINED.findall(was.stdout.decode()), DEFINED.findall(read(path))
        if len(old) == len(new):
            for x, y in zip(old, new):
                if x != y and TOKEN.fullmatch(x) and plain(x) == plain(y):
                    pairs[x].add(y)
    return {x: ys.pop() for x, ys in pairs.items() if len(ys) == 1}


def main():
    ported = by_port(sys.argv[1])
    texts = {path: read(path) for path in sources()}
    keep = imported(texts.values())
    words = {w for text in texts.values() for w in TOKEN.findall(text)}
    of_source = {w for path, text in texts.items() if path.endswith(".rt") for w in re.findall(r"\bfn (\w+)", text)}
    to = {w: turned(w) for w in words if turned(w) != w and w not in keep}
    for old, new in sorted(to.items()):
        # it may have the name of a function of src/, as a definition of what a function answers does; any other word would be another's
        if new in words and new not in LEMMAS and new not in of_source:
            print(f"look: {old} -> {new}, which stands already")
    respell = lambda text: TOKEN.sub(lambda m: to.get(m.group(0), m.group(0)), text)
    for path, text in texts.items():
        if respell(text) != text:
            write(path, respell(text))
    # what was written against LANDED: edits, and names in backquotes
    both = {**to, **{x: to.get(y, y) for x, y in ported.items()}}
    over = lambda text: TOKEN.sub(lambda m: both.get(m.group(0), m.group(0)), text)
    for path in sorted(glob.glob("crates/*/must-fail/*.edit")):
        text = read(path)
        lines = [over(line) if line.startswith(("old:", "new:")) else line for line in text.split("\n")]
        if "\n".join(lines) != text:
            write(path, "\n".join(lines))
    for path in ["README.md", "CONTRIBUTING.md", *sorted(glob.glob("docs/*.md"))]:
        text = read(path)
        new = re.sub(r"`[^`\n]+`", lambda m: over(m.group(0)), text)
        if new != text:
            write(path, new)
    print(f"respelled: {len(to)} names here, {len(ported)} by port.py")


if __name__ == "__main__":
    main()
