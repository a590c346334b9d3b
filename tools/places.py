#!/usr/bin/env python3
"""Lists the places in src/ that read like the older language, point by point: `tools/places.py [FOLDER]`.

A line is a place that a pattern found; docs/DESIGN-PASS.md says which of them stay and why. FOLDER is a checkout (this one if left out).
"""
import collections
import difflib
import itertools
import pathlib
import re
import sys

root = pathlib.Path(sys.argv[1] if len(sys.argv) > 1 else pathlib.Path(__file__).resolve().parent.parent)
files = sorted(p for p in (root / "crates").glob("*/src/**/*.rt"))
texts = {str(p.relative_to(root / "crates")): p.read_text() for p in files}
found = collections.defaultdict(list)


def lines(point, what, pattern, skip=None):
    for name, text in texts.items():
        if "/tests.rt" in name:
            continue
        for n, line in enumerate(text.splitlines(), 1):
            if re.search(pattern, line) and not (skip and re.search(skip, line)) and not line.lstrip().startswith("//"):
                found[point].append((what, f"{name}:{n}", line.strip()))


def spread(point, what, *patterns):
    for name, text in texts.items():
        if "/tests.rt" not in name:
            for pattern in patterns:
                for m in re.finditer(pattern, text, re.M):
                    found[point].append((what, f"{name}:{text[:m.start()].count(chr(10)) + 1}", " ".join(m.group(0).split())))


def crate(name):
    return name.split("/")[0]


# 1: enums of the shape of Option or Result, flags beside values, numbers for kinds and refusals
lines(1, "variant that says nothing or failure", r"^    (Nothing|Quiet|Done|Stuck|Fault|Wrong|Refused|CutShort)\b( \{.*|\(.*\))?,?$")
lines(1, "flag in a struct", r"^    (pub(\(crate\))? )?\w+: bool,")
lines(1, "number for a kind or a refusal", r"^\s+(pub(\(crate\))? )?(Refused|Holds|number|kind|version)\b.*: (u8|u16)\b")

# 2: functions of one shape, that is, alike but for names and numbers, and structs of one shape (an array and how many are in use)
KEPT = {"fn", "let", "mut", "for", "in", "if", "else", "match", "while", "return", "self", "Some", "None", "Ok", "Err", "as", "pub", "ref", "true", "false"}


def shape(body):
    tokens = re.findall(r"[A-Za-z_]\w*|\d+|[^\s\w]", re.sub(r"//.*|b?\"[^\"]*\"", "", body))
    return tuple(t if t in KEPT or not re.match(r"\w", t) else "x" for t in tokens)


shapes = []
for name, text in texts.items():
    if "/tests.rt" in name:
        continue
    for m in re.finditer(r"^( *)(?:pub(?:\(crate\))? )?(?:extern \"C\" )?fn (\w+)(.*?)^\1\}", text, re.M | re.S):
        at = re.search(r"^ *\{\n|\{\n(?!.*^ *\{\n)", m.group(3), re.M | re.S)
        body = m.group(3)[at.end():] if at else ""
        if len(shape(body)) >= 18:
            shapes.append((shape(body), f"{name}:{text[:m.start()].count(chr(10)) + 1}", m.group(2)))
for (a, at, one), (b, there, other) in itertools.combinations(shapes, 2):
    if min(len(a), len(b)) / max(len(a), len(b)) > 0.85 and difflib.SequenceMatcher(None, a, b, False).ratio() >= 0.9:
        found[2].append(("functions of one shape", f"{at} {there}", f"{one}, {other}"))
for name, text in texts.items():
    for m in re.finditer(r"^(?:pub(?:\(crate\))? )?struct (\w+)[^{;]*\{(.*?)^\}", text, re.M | re.S):
        if re.search(r": (?:\[|&'a mut \[)", m.group(2)) and re.search(r"\b(len|count): usize", m.group(2)):
            found[2].append(("structs of one shape", f"{name}:{text[:m.start()].count(chr(10)) + 1}", m.group(1)))

# 3: loops over numbers, and loops that move a number or a rest by hand
lines(3, "loop over numbers", r"\bfor \w+ in .*\.\.")
lines(3, "loop by a condition", r"^\s*while\b")
spread(3, "loop that a chain could be", r"^ *for [^{]*\{\n(?: .*\n){1,4}? *return (?:true|false|Some\(.*\));\n *\}\n *\}\n *(?:true|false|None)\n")

# 4: equality, conversion and printing by hand
lines(4, "answer of a match by hand", r"=> (true|false),$")
lines(4, "what a method of Option or Result does", r"(None => (None|Err|return Err|false|Ok\(|Joint::Outer|Lamp::Red)|Ok\(\(\)\) => Ok\(\(\)\)|Err\(_\) =>|if let Err\()")
spread(4, "what a method of Option or Result does", r"^ *let (?:Some|Ok)\(.*\) = [^;{]*else \{\n *return (?:Err|None|Ok)", r"^ *if let Some\(\w+\) = [^{]*\{\n *return Some\(\w+\);")
lines(4, "copying or equality by hand", r"^impl.* (Clone|PartialEq|Eq|Ord|PartialOrd|Default) for ")
lines(4, "text made by hand", r"fn \w+\(.*-> (Result<String, AllocError>|&'static str)")
lines(4, "text made by hand", r"^\) -> Result<String, AllocError>")

# 5: facts that three or more contracts ask or promise, and parameters that travel together
facts = collections.defaultdict(list)
for name, text in texts.items():
    for m in re.finditer(r"^\s+requires(?: \w+)? \{ (.*) \}$", text, re.M):
        for part in m.group(1).split(" × "):
            facts[crate(name), part.strip("() ").replace(".old", ".now")].append(f"{name}:{text[:m.start()].count(chr(10)) + 2}")
    for m in re.finditer(r"^\s+ensures memory \{ (.*) \}$", text, re.M):
        facts[crate(name), "ensures memory"].append(f"{name}:{text[:m.start()].count(chr(10)) + 2}")
for (where, fact), at in sorted(facts.items()):
    if len(at) >= 3:
        found[5].append(("fact of three contracts or more", " ".join(at), fact))
groups = collections.defaultdict(set)
for name, text in texts.items():
    if "/tests.rt" in name:
        continue
    for m in re.finditer(r"fn (\w+)(?:<[^(]*>)?\(([^)]*(?:\([^)]*\)[^)]*)*)\)", text):
        params = []
        for part in re.split(r",(?![^<\[(]*[>\])])", m.group(2)):
            part = " ".join(part.split())
            if ":" in part and "self" not in part and not part.startswith("heap"):
                params.append(re.sub(r"&mut |&'a |&", "", part))
        for k in (2, 3):
            for pair in itertools.combinations(sorted(params), k):
                groups[crate(name), pair].add(f"{name}:{m.group(1)}")
for (where, pair), at in sorted(groups.items()):
    bigger = any(w == where and set(pair) < set(p) and a == at for (w, p), a in groups.items())
    if len(at) >= 3 and not bigger:
        found[5].append(("parameters that travel together", f"{where}: " + " ".join(sorted(a.split(':')[1] for a in at)), ", ".join(pair)))

# 6: arrays in structs, how many of them are in use, and reads of a place by a test of its number
lines(6, "array or lent slice in a struct", r"^    (pub(\(crate\))? )?\w+: (\[|&'a mut \[)")
lines(6, "length beside it", r"^    (pub(\(crate\))? )?(len|count|first): usize,")
lines(6, "number tested by hand before a place is read", r"if (at|block|train|next|end|number)( as usize)? (<|>=) ", r"piece")

# 7: a switch on which step to run
lines(7, "switch on which step to run", r"match (guard|check|rule|act|part|command|wish) \{")

# 8: proof files and their lines
proofs = [p for p in (root / "crates").glob("*/proofs/**/*.antt")]
answers = [p for p in proofs if p.name in ("Answers.antt", "Invariants.antt")]
found[8].append(("answers and invariants of functions", "", f"{len(answers)} files, {sum(len(p.read_text().splitlines()) for p in answers)} lines"))
found[8].append(("lemmas", "", f"{len(proofs) - len(answers)} files, {sum(len(p.read_text().splitlines()) for p in proofs if p not in answers)} lines"))

for point in range(1, 9):
    print(f"== {point}: {len(found[point])}")
    for what, at, text in found[point]:
        print(f"{what} | {at} | {text}")
