#!/usr/bin/env python3
"""Lists the places in src/ that an older way of writing may have left, by the kinds that docs/DESIGN-PASS.md tells.

usage: python3 tools/places.py [COMMIT]     at the top of the repository; without a commit, as the files stand

A place is a line, or a group of functions. The script only finds candidates: whether one is a place, is said on the page.
"""

import collections
import glob
import re
import subprocess
import sys

LINES = {
    "1": [
        ("a number as an error or as an answer",
         r"Result<[^<>]*, *(u8|u16|u32|u64|usize|bool)>|-> \(u32, usize, usize\)|usize::MAX \{|> 0 \{|\(99, 0, 0\)"),
        ("a match that an adapter of Option or Result is",
         r"Ok\(([a-z]+)\) => Ok\(\1\)|(Ok|Err)\(n\) => n\b|None => (None|Err\(|[0-9]+,)|Some\(_\) => Err\(|Some\(operation\) => Ok\("),
        ("a fault put together by hand", r"Err\(Fault \{|refusal: Refusal::"),
    ],
    "3": [("a loop by condition, or a count by hand", r"^\s*while |^\s*[a-z_.]+ [+-]= 1;|for [a-z_]+ in 0\.\.n\b")],
    "4": [("a conversion, a copy, an order or a text by hand",
           r"fn (number|layer|word|to_word|from_word|is_word|from_numbers|capital|small|put_number|read_number|try_from|from|fmt)\b|== b'0' \{|[<>]=? b'|[0-9]+ <= [a-z.]+ &&")],
    "6": [("an array of a fixed length, or a length or place beside a buffer", r"\[[^]\[]*; *[0-9]+\]|\bat: usize,")],
    "7": [("a match that chooses a function, or a step", r"^\s*match (operation|walk|h\.job|page\.header\.job|self\.\w+) \{")],
}


def sources(commit):
    if commit is None:
        return {f: open(f).read() for f in sorted(glob.glob("crates/*/src/*.rt"))}
    names = subprocess.run(["git", "ls-tree", "-r", "--name-only", commit, "crates"],
                           capture_output=True, text=True, check=True).stdout.split()
    return {f: subprocess.run(["git", "show", f"{commit}:{f}"], capture_output=True, text=True, check=True).stdout
            for f in names if re.fullmatch(r"crates/\w+/src/\w+\.rt", f)}


def functions(text):
    """Each function with a body: its name, its parameters and its body."""
    for m in re.finditer(r"^( *)(?:pub(?:\(crate\))? )?(?:final )?fn (\w+)", text, re.M):
        rest = text[m.start():]
        end = re.search(r"^" + m.group(1) + r"\}$", rest, re.M)
        open_ = re.search(r"^" + m.group(1) + r"\{$|\) (?:-> [^{;]*)?\{$", rest, re.M)
        if not end or not open_ or open_.end() > end.start():
            continue
        head = re.sub(r"//.*", "", rest[:open_.end()])
        body = re.sub(r"//.*", "", rest[open_.end():end.start()])
        sig = head[head.index("fn "):]
        depth, params, start = 0, "", sig.index("(", sig.index(m.group(2)) + len(m.group(2)))
        for c in sig[start:]:
            depth += c == "("
            if depth:
                params += c
            depth -= c == ")"
            if not depth:
                break
        yield m.group(2), params[1:-1], body


def shape(body):
    """A body without the types, the words and the numbers in it."""
    body = re.sub(r'b?"[^"]*"', "W", re.sub(r"b'[^']*'", "W", body))
    body = re.sub(r"\b[A-Z]\w*(::[A-Z]\w*)*", "T", body)
    body = re.sub(r"\b[0-9][0-9_]*\b", "0", body)
    return re.sub(r"\s+", " ", body).strip()


def twins(texts):
    groups = collections.defaultdict(list)
    for f, text in texts.items():
        for name, _, body in functions(text):
            s = shape(body)
            if len(s) > 12:
                groups[s].append(f"{f}: {name}")
    return [g for g in groups.values() if len(g) > 1]


def travelling(texts):
    """Pairs of parameters, by name and type, in three functions or more of a crate."""
    seen = collections.defaultdict(list)
    for f, text in texts.items():
        crate = f.split("/")[1]
        for name, params, _ in functions(text):
            ps = [re.sub(r"\s+", " ", p).strip() for p in re.split(r",(?![^<\[(]*[>\])])", params)]
            ps = sorted(p for p in ps if ":" in p and "S" not in p.split(":")[1].split())
            for i, a in enumerate(ps):
                for b in ps[i + 1:]:
                    seen[crate, a, b].append(name)
    return [(k, v) for k, v in sorted(seen.items()) if len(v) > 2]


def required(texts):
    """Facts in the `requires` of three functions or more."""
    seen = collections.Counter()
    for text in texts.values():
        for m in re.finditer(r"^\s*requires(?: \w+)? \{ (.*) \}$", text, re.M):
            for fact in m.group(1).split(" × "):
                seen[fact.strip("() ")] += 1
    return [(k, n) for k, n in sorted(seen.items()) if n > 2]


def main():
    texts = sources(sys.argv[1] if len(sys.argv) > 1 else None)
    for kind in "1234567":
        total = 0
        for what, pattern in LINES.get(kind, []):
            hits = [(f, i, line.strip()) for f, text in texts.items() for i, line in enumerate(text.split("\n"), 1)
                    if re.search(pattern, re.sub(r"//.*", "", line))]
            total += len(hits)
            print(f"{kind}. {what}: {len(hits)}")
            for f, i, line in hits:
                print(f"    {f}:{i}: {line}")
        if kind == "2":
            groups = twins(texts)
            print(f"2. functions of one shape: {len(groups)} groups, {sum(map(len, groups))} functions")
            for g in groups:
                print("    " + "; ".join(g))
        if kind == "5":
            facts, pairs = required(texts), travelling(texts)
            print(f"5. facts in three `requires` or more: {len(facts)}, in {sum(n for _, n in facts)} clauses")
            for fact, n in facts:
                print(f"    {n} times: {fact}")
            print(f"5. pairs of parameters in three functions or more: {len(pairs)}")
            for (crate, a, b), names in pairs:
                print(f"    {crate}: {a}, {b}: {', '.join(names)}")


main()
