#!/usr/bin/env python3
"""Brings the names of this repository's own definitions and lemmas to one spelling.

usage: python3 tools/respell.py     at the top of the repository, once, behind the toolchain's own port script

Facts and types are spelled in upper camel case (`ComesAfter`), all else in snake case (`plain_text`); a dash joins a
lemma's function and its argument alone (`length-written`). Only names that specs/ and proofs/ declare are turned:
goals, steps and the library's names keep theirs. Names that would fall together stop the script before it writes.
"""

import glob
import re
import sys

# lemmas named after their left side, the outer call first
JOINED = {"length-written", "take-written", "drop-written", "ended-append", "length-lane"}
# facts that were spelled as functions
FACTS = {"counted": "Counted", "filled": "Filled"}
# names that would fall together with a function of src/, and names of which a part had another spelling
OTHERS = {
    "last-stamp": "last_stamp_of",
    "read-page": "read_page_gives",
    "read-entry": "read_entry_gives",
    "write-jobs": "write_jobs_gives",
    "write-page": "write_page_gives",
    "ends-in-time": "ends_in_time_lem",
    "writes-by-bits": "writes_by_bits_lem",
    "readOn-ge": "read_on_ge",
    "orElse-ok": "or_else_ok",
}
NAME = r"[^\s(){}\[\],;.:λ«»]+"
WORD = re.compile(r"(?<![^\s(){}\[\],;.:«»])" + NAME)
DECLARED = re.compile(r"^ *(?:(?:unfoldable|abbrev|pub|data|record)\s+)*(" + NAME + r")(?: [^\n:=]*(?:\([^\n]*)?)? ?: ", re.M)
SHARED = re.compile(r"^ *(?:(?:unfoldable|abbrev|pub|data|record)\s+)*(" + NAME + r") : ", re.M)


def read(path):
    with open(path, encoding="utf-8") as f:
        return f.read()


def is_answer(path):
    return path.endswith(("/Answers.antt", "/Invariants.antt", "/Proof.antt"))


def spelled(name):
    if name in OTHERS:
        return OTHERS[name]
    if name[0].isupper():
        return "".join(part[:1].upper() + part[1:] for part in name.split("-"))
    return name.replace("-", "_")


def table(paths):
    names = set()
    for path in paths:
        if is_answer(path) or not path.endswith(".antt"):
            continue
        for found in (DECLARED, SHARED):
            names.update(m[1] for m in found.finditer(read(path)))
    return {n: spelled(n) for n in names if "-" in n and "◌" not in n and not n.startswith("-") and n not in JOINED}


def facts_here(path, text):
    """The facts of FACTS that a file may name: those of its own crate's Ends, or what it imports from there."""
    if path == "crates/text/specs/Ends.antt" or path == "crates/text/src/ends.rt":
        return set(FACTS)
    m = re.search(r"Rattle\.text\.specs\.Ends\.\{([^}]*)\}", text)
    return set(FACTS) & {it.strip() for it in m[1].split(",")} if m else set()


def turned(path, text, names):
    facts = facts_here(path, text)
    lines = []
    for line in text.split("\n"):
        code, dash, note = (line, "", "") if path.endswith(".rt") else line.partition("--")
        if path.endswith(".rt") and line.lstrip().startswith("//"):
            lines.append(line)
            continue
        one = lambda m: names.get(m[0]) or (FACTS[m[0]] if m[0] in facts else m[0])
        if path.endswith(".rt") and not re.search(r"ghost|requires|ensures|\{ record|^\s+\w+ = |[;}] \}", line):
            one = lambda m: names.get(m[0], m[0])
        lines.append(WORD.sub(one, code) + dash + note)
    return "\n".join(lines)


def main():
    paths = sorted(p for kind in ("rt", "antt") for p in glob.glob(f"crates/**/*.{kind}", recursive=True) if "/out/" not in p)
    names = table(paths)
    clashes = []
    for path in paths:
        words = set(WORD.findall(read(path)))
        clashes += [f"{path}: {n} and {names[n]}" for n in sorted(words) if n in names and names[n] in words]
    back = {}
    for n, new in names.items():
        back.setdefault(new, []).append(n)
    clashes += [f"{' and '.join(sorted(ns))} become {new}" for new, ns in sorted(back.items()) if len(ns) > 1]
    if clashes:
        print("\n".join(clashes))
        sys.exit("respell: these names would fall together; nothing was changed")
    count = 0
    for path in paths:
        text = read(path)
        new = turned(path, text, names)
        if new != text:
            count += 1
            with open(path, "w", encoding="utf-8") as f:
                f.write(new)
    print(f"respell: {len(names) + len(FACTS)} names, {count} files")


main()
