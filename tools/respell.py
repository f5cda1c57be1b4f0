#!/usr/bin/env python3
"""Respells the repository's own definitions and lemmas: words in snake case, types and modules in camel case.

Run once, at the top, after port.py of the toolchain. A name that a file of specs/ or proofs/ defines and that has a dash is respelled
where its own file or a file that imports it names it. Names that the toolchain makes (goals, steps, fields of `c`) and names
of the library keep their dashes, and so does everything in src/ outside clauses.
"""
import re
import sys
from pathlib import Path

WORD = r"[^\s(){}\[\];,.@\"'`:λ∷]"
NAME = re.compile(rf"{WORD}(?:{WORD}|')*")
DEFINES = re.compile(rf"^(\s*)(?:(?:pub|abbrev|unfoldable|data|record)\s+)*({WORD}(?:{WORD}|')*)\s(?:\(.*\)\s|\{{.*\}}\s)?:\s?")
IMPORT = re.compile(r"^\s*(?:pub\s+|ghost\s+)?use\s+(.*)$")


def spelled(name):
    if name[0].isupper():
        return "".join(p[:1].upper() + p[1:] for p in name.split("-"))
    return name.replace("-", "_")


def own(path):
    return re.match(r"Rattle\.(\w+)\.(specs|proofs)\.", path) and not path.startswith("Rattle.std.")


def goals(text):
    return set(re.findall(rf":\s*(?:goal|need)\.({WORD}+)", text))


def defined(text):
    """Names with a dash that the file defines, but for answers to goals."""
    answers = goals(text)
    found = {}
    for line in text.split("\n"):
        m = DEFINES.match(line)
        if m and "-" in m.group(2)[1:-1] and re.match(r"[A-Za-z]", m.group(2)) and m.group(2) not in answers:
            found[m.group(2)] = bool(m.group(1))
    return found


def imports(text):
    """Pairs of a path and the names taken from it."""
    taken = []
    for line in text.split("\n"):
        m = IMPORT.match(line)
        if not m:
            continue
        path, _, names = m.group(1).rstrip(";").partition("{")
        taken.append((path.rstrip("."), [n.strip().split(" as ")[0] for n in names.rstrip("}").split(",") if n.strip()]))
    return taken


def main():
    top = Path(".")
    files = sorted(p for c in (top / "crates").iterdir() for p in c.rglob("*") if p.suffix in (".antt", ".rt") and "out" not in p.parts)
    texts = {p: p.read_text() for p in files}
    module = {}
    fields = set()
    for p, t in texts.items():
        if p.suffix != ".antt":
            continue
        parts = p.with_suffix("").parts
        path = ".".join(("Rattle", parts[1]) + parts[2:])
        module[path] = defined(t)
        fields |= {n for n, deep in module[path].items() if deep}
    for p, t in texts.items():
        here = {}
        if p.suffix == ".antt":
            parts = p.with_suffix("").parts
            here.update(module[".".join(("Rattle", parts[1]) + parts[2:])])
        library = set()
        for path, names in imports(t):
            for n in names:
                if own(path) and n in module.get(path, {}):
                    here[n] = False
                elif own(path) and any(n in m for k, m in module.items() if path.startswith(k + ".")):
                    here[n] = False
                elif "-" in n[1:-1]:
                    library.add(n)
        answers = goals(t)
        both = {n for n in here if n in library or n in answers}
        if both:
            print(f"{p}: left as it is, since the library or a goal has the name too: {sorted(both)}")
        table = {n: spelled(n) for n in here if n not in both}

        def turn(line):
            if p.suffix == ".rt" and line.lstrip().startswith("//") or line.lstrip().startswith("--"):
                return line

            def word(m):
                n = m.group(0)
                before = line[m.start() - 1] if m.start() else " "
                if before == ".":
                    tail = line[: m.start() - 1].split()[-1:] or [""]
                    if n in fields and not tail[0].startswith(("goal", "need")):
                        return spelled(n)
                    return n
                return table.get(n, spelled(n) if n in fields and n not in answers and n not in library else n)

            return NAME.sub(word, line)

        if p.suffix == ".rt":
            lines = t.split("\n")
            new = "\n".join(turn(l) if "-" in l and re.search(r"ghost|ensures|requires|λ|≡|→|\bsee\b", l) else l for l in lines)
        else:
            new = "\n".join(turn(l) for l in t.split("\n"))
        if new != t:
            p.write_text(new)
    old = sorted({n for m in module.values() for n in m})
    new = {}
    for n in old:
        new.setdefault(spelled(n), []).append(n)
    plain = set()
    for p, t in texts.items():
        if p.suffix == ".antt":
            for line in t.split("\n"):
                m = DEFINES.match(line)
                if m:
                    plain.add(m.group(2))
    for n, olds in sorted(new.items()):
        if len(olds) > 1 or n in plain:
            print(f"look: {n} is the new name of {olds}" + (", and stood already" if n in plain else ""))


if __name__ == "__main__":
    sys.exit(main())
