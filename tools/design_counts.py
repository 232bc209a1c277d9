#!/usr/bin/env python3
"""Counts the places in crates/*/src that docs/DESIGN-PASS.md speaks of, and lists them.

usage: tools/design_counts.py [--list] [TOP]   (TOP: the top of a checkout; this one by default)

Every count is of text: what it finds is read by a person, and docs/DESIGN-PASS.md says what became of it.
"""
import difflib
import itertools
import pathlib
import re
import sys

listing = "--list" in sys.argv
rest = [word for word in sys.argv[1:] if not word.startswith("--")]
top = pathlib.Path(rest[0] if rest else pathlib.Path(__file__).resolve().parent.parent)
sources = sorted(top.glob("crates/*/src/**/*.rt"))


def report(what, places):
    print(f"{len(places):4}  {what}")
    if listing:
        for place in places:
            print(f"        {place}")


def lines(pattern):
    """The source lines that match, but for comments and ghost lines."""
    found = []
    for path in sources:
        for number, line in enumerate(path.read_text().split("\n"), 1):
            bare = line.strip()
            if bare.startswith(("//", "ghost", "ensures", "requires")):
                continue
            if re.search(pattern, line):
                found.append(f"{path.relative_to(top)}:{number}: {bare}")
    return found


HEAD = re.compile(r"^( *)(?:#\[[^\n]*\]\n\1)*(?:pub(?:\([a-z]+\))? )?(?:unsafe )?(?:extern \"C\" )?fn (\w+)", re.M)


def functions():
    """Each function that has a body: its path, name, indentation, head (clauses too) and body."""
    for path in sources:
        text = path.read_text()
        for match in HEAD.finditer(text):
            depth, at, body = 0, match.end(), None
            while at < len(text):
                if text.startswith(("requires", "ensures"), at) and depth == 0:
                    at = text.index("{", at) + 1
                    inner = 1
                    while inner:
                        inner += {"{": 1, "}": -1}.get(text[at], 0)
                        at += 1
                    continue
                if text[at] == ";" and depth == 0:
                    break
                if text[at] in "([":
                    depth += 1
                elif text[at] in ")]":
                    depth -= 1
                elif text[at] == "{" and depth == 0:
                    end, inner = at + 1, 1
                    while inner:
                        inner += {"{": 1, "}": -1}.get(text[end], 0)
                        end += 1
                    body = text[at:end]
                    break
                at += 1
            if body is not None:
                yield path.relative_to(top), match.group(2), text[match.start():at], body


every = list(functions())

print("1  own Option or Result, a flag beside a value, numbers for kinds and refusals")
report("functions whose answer is why not, as an Option<Reason>", lines(r"-> Option<Reason>"))
report("refusals written out as a struct", [p for p in lines(r"\bFault \{( reason|$)") if not re.search(r"struct|impl|let Fault|fn ", p)])
report("functions that only make one refusal", lines(r"fn \w+\(.*\) -> Fault\b"))
report("fields that are flags", lines(r"^\s+(pub )?\w+: bool,"))
report("functions that answer a number that is a code", [
    f"{path}: {name}" for path, name, head, body in every
    if re.search(r"-> u(8|32)\b", head) and (name in ("fit", "number", "rank", "as_number", "packed", "outcome") or name.endswith(("_check", "_probe_write", "_probe_read")))])
report("functions that answer a theorem's number", [f"{path}: {name}" for path, name, head, body in every if name.endswith(("_stand", "_stands")) and "-> u8" in head])

print("2  twins")


def tokens(body):
    words = re.findall(r"\w+|[^\w\s]", re.sub(r"//[^\n]*", "", body))
    return ["#" if w.isdigit() else w for w in words]


def shape(words):
    """The words with each name replaced by its first place, so that names do not matter."""
    seen = {}
    return [seen.setdefault(w, f"v{len(seen)}") if re.match(r"[A-Za-z_]", w) and w not in
            ("fn", "let", "mut", "match", "if", "else", "for", "in", "return", "self", "Ok", "Err", "Some", "None", "as", "ref") else w for w in words]


twins = []
shaped = [(path, name, shape(tokens(body))) for path, name, head, body in every]
shaped = [s for s in shaped if len(s[2]) >= 28]
for (p, n, a), (q, m, b) in itertools.combinations(shaped, 2):
    if abs(len(a) - len(b)) * 5 <= max(len(a), len(b)) and difflib.SequenceMatcher(None, a, b, False).ratio() >= 0.9:
        twins.append(f"{p}: {n}  ~  {q}: {m}")
report("pairs of bodies of 28 tokens or more that are alike but for names and numbers, nine tenths or more", twins)

print("3  loops that count")
report("loops over a range of numbers", lines(r"\bfor .* in .*\.\."))
report("  of these, an index: the body reads or writes a slice at it", [
    f"{path}: {name} {v}" for path, name, head, body in every for v in re.findall(r"for (\w+) in [^{]*\.\.", body)
    if re.search(rf"\[[^\]]*\b{v}\b[^\]]*\]", body) or re.search(rf"\.(flag|get)\({v}\)", body)])
report("loops over `enumerate` that index a slice by the number", [
    f"{path}: {name} {v}" for path, name, head, body in every for v in re.findall(r"for \((\w+), [^{]*enumerate", body)
    if re.search(rf"\w\[(0\.\.)?{v}\]", body) or re.search(rf"\.get\({v}\)", body)])
report("while and loop", lines(r"\b(while|loop)\b"))

print("4  equality, order, copying, conversion, printing by hand")
report("functions that turn a value into a text", lines(r"fn \w+\(.*\) -> &'static str"))
report("functions that turn a value into a number or back", [
    f"{path}: {name}" for path, name, head, body in every if name in ("number", "rank", "of_code", "decode", "from_word", "to_word", "truth_word")])
report("functions that compare", [f"{path}: {name}" for path, name, head, body in every if name in ("same", "within", "native", "eq", "cmp")])

print("5  facts in three contracts or more, parameters that travel together")


def conjuncts(head):
    for clause in re.findall(r"requires \w* ?\{ (.*?) \}\n", head + "\n"):
        for part in re.split(r" × ", clause):
            yield part.replace("(", "").replace(")", "").strip()


facts = {}
for path, name, head, body in every:
    for fact in set(conjuncts(head)):
        plain = re.sub(r"\.(old|now|new)\b", "", fact)
        facts.setdefault((str(path).split("/")[1], plain), []).append(name)
report("facts required by three functions or more of a crate", [
    f"{crate}: {fact}   ({len(names)}: {', '.join(names)})" for (crate, fact), names in sorted(facts.items()) if len(names) >= 3])

groups = {}
for path, name, head, body in every:
    inside = re.search(r"fn \w+(?:<[^(]*>)?\((.*?)\)\s*(?:->|requires|ensures|$|where|\n)", head, re.S)
    if not inside:
        continue
    params = sorted(set(re.findall(r"(\w+): ", inside.group(1))) - {"heap", "rt", "f", "self"})
    for group in itertools.combinations(params, 3):
        groups.setdefault((str(path).split("/")[1], group), []).append(name)
report("three parameters that three functions or more of a crate have together", [
    f"{crate}: {', '.join(group)}   ({len(names)}: {', '.join(names)})" for (crate, group), names in sorted(groups.items()) if len(names) >= 3])

print("6  buffers with a length, parallel arrays")
report("arrays of a fixed length", lines(r"\[[^\[\]]*; \d+\]"))
report("fields that count what stands beside them", lines(r"^\s+(pub )?\w+_count: usize,"))

print("7  a switch on which step to run, tables of functions")
report("matches whose arms call one function at two types", [
    f"{path}: {name}" for path, name, head, body in every
    if any(len(set(re.findall(rf"\b{f}::<(\w+)>", body))) > 1 for f in set(re.findall(r"\b(\w+)::<\w+>", body)))])
report("function pointers", lines(r"\bfn\("))

print("8  proofs")
answers = sorted(top.glob("crates/*/proofs/**/Answers.antt"))
invariants = sorted(top.glob("crates/*/proofs/**/Invariants.antt"))
lemmas = [p for p in sorted(top.glob("crates/*/proofs/*.antt"))]
for what, files in (("files of answers", answers), ("files of invariants", invariants), ("files of lemmas", lemmas)):
    print(f"{len(files):4}  {what}, {sum(len(p.read_text().splitlines()) for p in files)} lines")
print(f"{sum(len(p.read_text().splitlines()) for p in sources):4}  lines of src/")
