#!/usr/bin/env python3
"""Brings this repository's own definitions and lemmas to the spelling of today's Rattle: words in snake case, types in
upper camel case. A name is one of ours where a file below specs/ or proofs/ declares it (a definition, a lemma, a record
field, a constructor); a variable is turned in the file that binds it. Goals, which Rattle names, and names of other
libraries stay as they are.

usage: tools/snake_case_names.py [--list]      at the top of the repository; --list only prints the names
"""

import glob
import re
import sys

TOKEN = re.compile(r"[^\s(){}\[\],;.«»\"]+")
SIGNATURE = re.compile(r"^\s*(?:(?:pub|abbrev|unfoldable|data|record|\|) +)*([^\s(){}\[\],;.:|]+)(?: +[({].*)? +: (.*)$")
CONTAINER = re.compile(r"^\s*(?:pub )?(?:data|record) ([^\s(){}]+)")
BINDERS = [re.compile(p) for p in (r"[({]((?:[^\s(){}\[\],;.:]+ )+): ", r"\u03bb ((?:[^\s(){}.]+ ?)+)\.", r"\blet ([^\s(){}.:=]+) ", r"\bas ([^\s(){}.:=,}]+)", r"\blet \(([^(){}=]+)\) =")]
CLAUSE = re.compile(r"^\s*(?:pub )?(?:ghost|requires|ensures)")


def antt_files():
    found = glob.glob("crates/*/specs/**/*.antt", recursive=True) + glob.glob("crates/*/proofs/**/*.antt", recursive=True)
    return sorted(p for p in found if "/out/" not in p)


def without_comment(line):
    at = re.search(r"(^|\s)--(\s|$)", line)
    return (line, "") if at is None else (line[: at.start(2) - 2], line[at.start(2) - 2 :])


def declared(path):
    with open(path, encoding="utf-8") as f:
        for line in f:
            code, _ = without_comment(line.rstrip("\n"))
            if code.lstrip().startswith(("use ", "let ", "λ", "unfolding ", "open ", "in ")):
                continue
            for pattern in (CONTAINER, SIGNATURE):
                m = pattern.match(code)
                if m and not (pattern is SIGNATURE and re.match(r"(goal|need)\b", m.group(2))):
                    yield m.group(1)


def turned(name):
    if name[0].isupper():
        return "".join(part[:1].upper() + part[1:] for part in name.split("-"))
    return name.replace("-", "_")


def mapping():
    names, plain = set(), set()
    for path in antt_files():
        for name in declared(path):
            (names if "-" in name.strip("-") and not name.startswith(("-", "invariant-", "decreases-", "ghost-")) else plain).add(name)
    names = {n for n in names if re.fullmatch(r"[A-Za-z0-9_'-]+", n)}
    to = {n: turned(n) for n in names}
    together = {}
    for n, t in to.items():
        together.setdefault(t, []).append(n)
    clashes = [f"{' and '.join(sorted(ns))} would be {t}" for t, ns in together.items() if len(ns) > 1]
    clashes += [f"{n} would be {t}, which is there" for n, t in to.items() if t in plain]
    return to, sorted(clashes)


def bound(path):
    """The names of variables that a file binds, to their new spelling."""
    names = set()
    with open(path, encoding="utf-8") as f:
        for line in f:
            code, _ = without_comment(line)
            for pattern in BINDERS:
                for m in pattern.finditer(code):
                    names.update(m.group(1).replace(",", " ").split())
    return {n: turned(n) for n in names if re.fullmatch(r"[a-z][A-Za-z0-9_']*(?:-[A-Za-z0-9_']+)+", n)}


def rewrite(path, to, wanted=lambda line: True):
    with open(path, encoding="utf-8") as f:
        lines = f.read().split("\n")
    out = []
    for line in lines:
        code, comment = without_comment(line) if path.endswith(".antt") else (line, "")
        if wanted(line):
            code = TOKEN.sub(lambda m: to.get(m.group(0), m.group(0)), code)
        out.append(code + comment)
    if out != lines:
        with open(path, "w", encoding="utf-8") as f:
            f.write("\n".join(out))


def main():
    to, clashes = mapping()
    if clashes:
        print("\n".join(clashes), file=sys.stderr)
        return 1
    if "--list" in sys.argv[1:]:
        print("\n".join(f"{n} {t}" for n, t in sorted(to.items())))
        return 0
    for path in antt_files():
        rewrite(path, bound(path) | to)
    for path in sorted(glob.glob("crates/*/src/**/*.rt", recursive=True)):
        rewrite(path, to, lambda line: CLAUSE.match(line) is not None)
    print(f"{len(to)} names")
    return 0


if __name__ == "__main__":
    sys.exit(main())
