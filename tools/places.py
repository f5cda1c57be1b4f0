#!/usr/bin/env python3
"""Counts the places that docs/DESIGN-PASS.md speaks of, in the code of one commit.

    python3 tools/places.py COMMIT           how many places each search finds
    python3 tools/places.py COMMIT --list    with file and line

Each search finds candidates, which were then read one by one: a hit is not yet a place.
"""
import difflib
import re
import subprocess
import sys

SEARCHES = [
    ("1a an Option or Result taken apart by a match", r"^\s*(None|Err\(.*\)) => "),
    ("1b an Option or Result handed on by hand", r"let (Some|Ok|Err)\(.*else \{$|^\s*if let (Some|Ok|Err)\("),
    ("1c an Option made by hand", r"^\s*Some\(.*\)$|else \{ None|return None;"),
    ("1d flags, marks and numbers for kinds", r"let mut \w+ = (true|false);|const ABSENT|Result<\w+, (u8|u32|usize)>|^\s*pub children: u8|, 0xFFFF"),
    ("3a loops over a number", r"^\s*for .* in .*\.\."),
    ("3b loops that count by hand", r"^\s*while |^\s*loop|\+= 1;|\+ 1;"),
    ("3c loops over items", r"^\s*for .* in (?!.*\.\.)"),
    ("4a comparing, copying or converting by hand", r"fn (same|is|eq|cmp|exact|number|place|blank)\b|\.0 == |GuardSet\(0\)| as u64"),
    ("4b derives of copying alone", r"#\[derive\(Clone, Copy\)\]"),
    ("4c printing by hand", r"fn print_\w+|push_str\("),
    ("5a methods and functions that only show a fact", r"fn (lawful|fit|exact|narrow|plain)\(|\.(lawful|fit|narrow|plain)\(\)|::exact\(\)"),
    ("6a a length beside a buffer", r"^\s*(pub )?(len|count|size|patterns): usize"),
    ("6b arrays of fixed length", r"\[[\w<>]+; *\w+\]"),
    ("7 boxed closures, dyn values, function pointers, closures", r"Box<|\bdyn |: fn\(|\bFn(Mut|Once)?\(|\|\w*\| |\|&\w+\| |\|\(.*\)\| "),
]


def git(*args):
    return subprocess.run(["git", *args], capture_output=True, text=True, check=True).stdout


def sources(commit):
    names = git("ls-tree", "-r", "--name-only", commit, "crates").split("\n")
    for name in names:
        if re.fullmatch(r"crates/\w+/src/.*\.rt", name):
            yield name, git("show", f"{commit}:{name}").split("\n")


def code(line):
    """The line without its comment, and nothing of a line of proofs alone."""
    return "" if line.startswith("ghost use") else line.split("//")[0].rstrip()


def functions(lines):
    """The functions of a file: name, line, and the code of the body, without clauses."""
    name, start, body, inside = None, 0, [], False
    for i, line in enumerate(lines, 1):
        head = re.match(r"(\s*)(pub(\(\w+\))? )?fn (\w+)", line)
        if head:
            name, start, body, inside = head.group(4), i, [], False
            indent = head.group(1)
        if name is None or re.match(r"\s*(requires|ensures)\b", line):
            continue
        if inside and line.rstrip() == indent + "}":
            yield name, start, body
            name = None
            continue
        if inside:
            body.append(code(line).strip())
        if line.rstrip().endswith("{") and (line.startswith(indent + "{") or line.rstrip().endswith(") {") or re.search(r"-> .* \{$", line)):
            inside = True


def clauses(files):
    """Clauses that stand in three functions or more, with their number."""
    seen = {}
    for _, lines in files:
        for line in lines:
            clause = re.match(r"\s*(requires|ensures)( \w+)? (\{.*\})", line)
            if clause:
                seen[clause.group(3)] = seen.get(clause.group(3), 0) + 1
    return sorted(((n, c) for c, n in seen.items() if n > 2), reverse=True)


def twins(files):
    """Pairs of functions whose bodies of two lines or more are nearly the same."""
    everything = [(path, n, i, " ".join(b)) for path, lines in files for n, i, b in functions(lines) if len(b) > 1]
    tokens = [re.findall(r"\w+|\S", t) for *_, t in everything]
    for a in range(len(everything)):
        for b in range(a):
            x, y = tokens[a], tokens[b]
            if "test" in everything[a][0] or min(len(x), len(y)) < 12 or max(len(x), len(y)) > 1.4 * min(len(x), len(y)):
                continue
            match = difflib.SequenceMatcher(None, x, y, autojunk=False)
            if match.real_quick_ratio() > 0.72 and match.ratio() > 0.72:
                yield everything[b][:3], everything[a][:3]


def main():
    commit, listed = sys.argv[1], "--list" in sys.argv
    files = list(sources(commit))
    for title, pattern in SEARCHES:
        hits = [(p, i, code(s).strip()) for p, ls in files for i, s in enumerate(ls, 1) if re.search(pattern, code(s))]
        print(f"{len(hits):4}  {title}")
        for path, i, text in hits if listed else []:
            print(f"        {path}:{i}: {text}")
    found = list(twins(files))
    print(f"{len(found):4}  2 pairs of functions with nearly the same body")
    for a, b in found if listed else []:
        print(f"        {a[0]}:{a[2]} {a[1]}  ~  {b[0]}:{b[2]} {b[1]}")
    repeated = clauses(files)
    print(f"{len(repeated):4}  5b clauses that stand in three functions or more, {sum(n for n, _ in repeated)} times in all")
    for n, clause in repeated if listed else []:
        print(f"        {n} x {clause}")
    proofs = [p for p in git("ls-tree", "-r", "--name-only", commit, "crates").split("\n") if re.fullmatch(r"crates/\w+/proofs/.*\.antt", p)]
    lines = sum(len(git("show", f"{commit}:{p}").splitlines()) for p in proofs)
    answers = sum(p.endswith("Answers.antt") for p in proofs)
    print(f"{lines:4}  8 lines of proofs, in {len(proofs)} files, {answers} of which are answers")


main()
