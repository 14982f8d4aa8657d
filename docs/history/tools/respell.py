#!/usr/bin/env python3
"""Spells the repository's own definitions and lemmas anew: words in snake case, types in upper camel case.

usage: tools/respell.py [--check]      at the top of the repository, once, after port.py

What turns: each name with a dash that a file of specs/ or proofs/ declares (definitions, records and their fields, lemmas), and each local name of
antt that has one. A name that begins with a capital is a type: its parts are joined in upper camel case. In any other name the dashes become underscores.
What stays: names of Rust code, names that a file imports from the kit, and the names that Rattle makes of the code (goals, and steps behind `c.`).
Files: .antt below crates/, and .rt there outside comments and strings. --check writes nothing and lists names that would fall together.
"""
import glob
import re
import sys

WORD = re.compile(r'[^\s(){}\[\].;,:=@"«»λ×→]+')
HEAD = re.compile(r"^\s*(?:(?:abbrev|pub|unfoldable|pattern|axiom)\s+)*(?:(?:record|data)\s+)?([^\s:(){}\[\],;=]+)(.*)$")
USE = re.compile(r"^\s*(?:pub\s+)?use\s+(Rattle\.(\w+)\.\S*?|[\w.]+)\.\{([^}]*)\}", re.M)
GOAL = re.compile(r":\s*goal\.")
MADE = re.compile(r"\.(?:Goals|Given|Lts)\b")


def turned(name):
    if name[0].isupper():
        return "".join(part[:1].upper() + part[1:] for part in name.split("-"))
    return name.replace("-", "_")


def is_dashed(word):
    return re.fullmatch(r"[A-Za-z][\w'₁₂₃ℕ]*(?:-[\w'₁₂₃ℕ]+)+", word) is not None


def pieces(text, rust):
    """The text cut into code and what stays (comments, strings)."""
    quiet = r'//[^\n]*|/\*.*?\*/|"(?:[^"\\]|\\.)*"' if rust else r'--[^\n]*|"(?:[^"\\\n]|\\.)*"'
    at = 0
    for m in re.finditer(quiet, text, re.S):
        yield True, text[at : m.start()]
        yield False, m.group()
        at = m.end()
    yield True, text[at:]


def main(argv):
    check = "--check" in argv
    antt = sorted(p for p in glob.glob("crates/**/*.antt", recursive=True) if "/out/" not in p)
    rust = sorted(p for p in glob.glob("crates/**/*.rt", recursive=True) if "/out/" not in p)
    own = {re.match(r"crates/(\w+)/", p).group(1) for p in antt + rust}
    texts = {p: open(p, encoding="utf-8").read() for p in antt + rust}

    declared, goals = set(), set()
    for p in antt:
        for line in "".join(t for code, t in pieces(texts[p], False) if code).split("\n"):
            m = HEAD.match(line)
            if not m or not re.match(r"(?:\s*[({].*)?\s*:", m.group(2)):
                continue
            (goals if GOAL.search(line) else declared).add(m.group(1))
    declared = {n for n in declared if is_dashed(n)} - goals

    seen = {}
    local = {}
    new = {}
    for p, text in texts.items():
        is_rust = p.endswith(".rt")
        kits = set()
        for m in USE.finditer(text.replace("ghost use", "use")):
            if m.group(2) not in own or MADE.search(m.group(1)):
                for it in m.group(3).split(","):
                    kits |= set(it.split())
        mine = {n for n in goals} | kits
        out = []
        for code, part in pieces(text, is_rust):
            if not code:
                out.append(part)
                continue

            def swap(m):
                w = m.group()
                before = part[m.start() - 1 : m.start()]
                if not is_dashed(w):
                    return w
                if part[max(0, m.start() - 5) : m.start()] == "goal.":
                    return w
                if w in declared and w not in kits:
                    return turned(w)
                if before == "." or is_rust or w in mine:
                    return w
                local.setdefault(w, set()).add(p)
                return turned(w)

            out.append(WORD.sub(swap, part))
        new[p] = "".join(out)
        for w in WORD.findall("".join(t for code, t in pieces(text, is_rust) if code)):
            seen.setdefault(w, set()).add(p)

    for n in sorted(declared):
        if turned(n) in seen:
            print(f"look: {n} becomes {turned(n)}, which stands in {', '.join(sorted(seen[turned(n)])[:4])}")
    back = {}
    for n in declared:
        back.setdefault(turned(n), set()).add(n)
    for n, olds in sorted(back.items()):
        if len(olds) > 1:
            print(f"look: {sorted(olds)} fall together")
    for n in sorted(local):
        print(f"local: {n} in {len(local[n])} files")
    if check:
        return 0
    for p, text in new.items():
        if text != texts[p]:
            with open(p, "w", encoding="utf-8") as f:
                f.write(text)
    print(f"{len(declared)} names turned")
    return 0


if __name__ == "__main__":
    raise SystemExit(main(sys.argv[1:]))
