#!/usr/bin/env python3
"""Lists the places in crates/*/src that a pass over the design looks at.

    python3 tools/places.py [COMMIT]      of a commit, else of the work tree

Each point is a pattern, and a place a line that it meets; points 2 and 5 compare functions. What is listed is to be
read: a match on an enum is listed like one on a number."""
import re
import subprocess
import sys
from collections import Counter, defaultdict
from itertools import combinations


def git(*args):
    return subprocess.run(["git", *args], capture_output=True, text=True, check=True).stdout


def sources(commit):
    """The text of each file, by its path."""
    if commit:
        names = git("ls-tree", "-r", "--name-only", commit, "crates").split("\n")
        names = [n for n in names if re.fullmatch(r"crates/\w+/src/\w+\.rt", n)]
        return {n: git("show", f"{commit}:{n}") for n in names}
    names = git("ls-files", "crates/*/src/*.rt").split()
    return {n: open(n).read() for n in names}


PATTERNS = {
    "1 kinds as numbers or names, own enums, flags beside values": [
        r"\benum\b",
        r"\bmatch (kind|name|number|question|words)\b",
        r"\((bool, |\w+, bool\))",
        r"expected\.is_empty\(\)",
    ],
    "3 loops that may count by hand": [
        r"^\s*for \w+ in [^{]*\.\.",
        r"^\s*while\b",
        r"^\s*loop\b",
        r"\w+ \+= (1|\w*size|step|K::SIZE|n|n \* size|round[^;]*);",
    ],
    "4 equality, order, copying, conversion and printing by hand": [
        r"^impl\b.*\b(PartialEq|Eq|PartialOrd|Ord|Clone|Copy|Debug|Display|From|TryFrom|FromStr|Default)\b.* for ",
        r"\bfn (eq|cmp|clone|name|named|told|refused|digit|kind|kind_of|refusal|same_\w+|is_answer|read_bytes|add_row|add_refusal)\b",
    ],
    "6 buffers, parallel arrays, lists searched by hand": [
        r"\bVec<",
        r"\[\w+; ?\w+\]",
        r"\bbinary_search",
    ],
    "7 switches on a step, tables of functions": [
        r"\bmatch \(?(step|question|name|self\.\w+|case\.step|words|\*words)",
        r"\bfn\(",
        r"\bdyn\b",
    ],
}

FN = re.compile(r"^( *)(?:pub(?:\(crate\))? )?fn (\w+)(.*?)\{\n(.*?)^\1\}", re.M | re.S)


def functions(text):
    for m in FN.finditer(text):
        head = m.group(3)
        cut = re.search(r"^\s*(requires|ensures)\b", head, re.M)
        yield m.group(2), head[: cut.start()] if cut else head, head[cut.start() :] if cut else "", m.group(4)


def shape(body):
    """The body with its names and numbers made alike."""
    body = re.sub(r"//.*", "", body)
    return re.sub(r"\s+", " ", re.sub(r"\b[\w:]+\b", "x", body)).strip()


def main():
    commit = sys.argv[1] if len(sys.argv) > 1 else None
    texts = sources(commit)
    for point, patterns in PATTERNS.items():
        found = [
            (name, i, line.strip())
            for name, text in sorted(texts.items())
            for i, line in enumerate(text.split("\n"), 1)
            if not line.strip().startswith("//") and any(re.search(p, line) for p in patterns)
        ]
        print(f"## {point}: {len(found)}")
        for name, i, line in found:
            print(f"  {name}:{i}: {line}")
    twins, facts, groups = defaultdict(list), defaultdict(set), defaultdict(set)
    for name, text in sorted(texts.items()):
        crate = name.split("/")[1]
        for fn, sig, clauses, body in functions(text):
            where = f"{crate}::{name.split('/')[-1][:-3]}::{fn}"
            if len(shape(body)) >= 24:
                twins[shape(body)].append(where)
            for fact in set(re.findall(r"\b([A-Z]\w+(?=[ )])|is_text)", clauses)):
                facts[(crate, fact)].add(where)
            names = sorted(set(re.findall(r"\b([a-z]\w*): ", sig.split("(", 1)[-1])) - {"self"})
            for trio in combinations(names, 3):
                groups[(crate, trio)].add(where)
    twins = [v for v in twins.values() if len(v) > 1]
    print(f"## 2 functions with bodies of one shape: {sum(map(len, twins))} in {len(twins)} groups")
    for v in twins:
        print("  " + " ~ ".join(v))
    known = {"Checked", "Fault", "Self", "ByteChunk", "Some", "None", "Ok", "Err", "SIZE", "MAX_ACC"}
    often = {k: v for k, v in facts.items() if len(v) >= 3 and k[1] not in known}
    print(f"## 5 facts in the contracts of three or more functions: {len(often)}")
    for (crate, fact), v in sorted(often.items()):
        print(f"  {crate} {fact}: {len(v)}: " + ", ".join(sorted(x.split("::", 1)[1] for x in v)))
    merged = defaultdict(set)
    for (crate, trio), v in groups.items():
        if len(v) >= 3:
            merged[(crate, tuple(sorted(v)))] |= set(trio)
    print(f"## 5 groups of parameters that travel together through three or more functions: {len(merged)}")
    for (crate, v), names in sorted(merged.items()):
        print(f"  {crate} {', '.join(sorted(names))}: {len(v)}: " + ", ".join(x.split("::", 1)[1] for x in v))
    proofs = git("ls-tree", "-r", "--name-only", commit or "HEAD", "crates").split("\n")
    proofs = [n for n in proofs if re.fullmatch(r"crates/\w+/proofs/.*\.antt", n)]
    lines = Counter()
    for n in proofs:
        lines[n.split("/")[1]] += git("show", f"{commit or 'HEAD'}:{n}").count("\n")
    answers = [n for n in proofs if n.endswith("/Answers.antt")]
    print(f"## 8 proofs: {len(proofs)} files, {len(answers)} of them answers, {sum(lines.values())} lines")
    print("  " + ", ".join(f"{c} {n}" for c, n in sorted(lines.items())))


main()
