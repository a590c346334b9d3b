#!/usr/bin/env python3
"""Respells this repository's own names: types and relations in upper camel case, all other definitions and lemmas in snake case.

usage: respell.py [REPO]      (default: this folder; once, right after the toolchain's own port script)

A name is the repository's own where a file of specs/ or proofs/ declares it: a definition, a record or a data type, a field, a constructor, a lemma.
In the files that answer a function's goals, names that the toolchain makes from the source take the source's spelling: a call of `first_break` is `first_break`
and not `first-break`. A name that is a tactic's today gets another. Code, strings, comments, inputs and outputs stay. Names that fall together are listed, and nothing is written.
"""
import os
import re
import sys

ROOT = os.path.abspath(sys.argv[1] if len(sys.argv) > 1 else ".")
WORD = r"[^\s:(){}\[\]=;,.·∷λ`|\"⌜⌝↦→×]+"
NAME = re.compile(WORD)
SIGNATURE = re.compile(r"^(\s*)((?:(?:abbrev|unfoldable|pub|data|record|ruleset) )*)(" + WORD + r")(?= |:|$)(.*)$")
# Words that are tactics today, and no names.
TAKEN = {"ground": "as_ground"}
MADE = [("in-default", "in_default"), ("In-default", "In_default"), ("in-ok", "in_ok"), ("in-err", "in_err"), ("In-ok", "In_ok"), ("In-err", "In_err"),
        ("invariant-of", "invariant_of"), ("well-formed", "well_formed"), ("type-inv", "type_inv"),
        ("from-residual", "from_residual"), ("into-iter", "into_iter"), ("deref-mut", "deref_mut"), ("index-mut", "index_mut")]


def files(kinds):
    for crate in sorted(os.listdir(os.path.join(ROOT, "crates"))):
        for folder, dirs, names in os.walk(os.path.join(ROOT, "crates", crate)):
            dirs[:] = sorted(d for d in dirs if d != "out")
            for f in sorted(names):
                if f.endswith(kinds):
                    yield crate, os.path.join(folder, f)


def read(p):
    with open(p, encoding="utf-8") as f:
        return f.read()


def answers(p):
    """Does the file answer the goals of a function?"""
    return os.path.basename(p) in ("Answers.antt", "Invariants.antt", "Proof.antt") and "/proofs/" in p


def camel(name):
    return "".join(w[:1].upper() + w[1:] for w in re.split(r"[-_]", name) if w)


def code(line):
    """The line without its comment."""
    at = line.find("--")
    return line if at < 0 or (at > 0 and line[at - 1] not in " \t") else line[:at]


def declared():
    """Each own name with a hyphen, its new spelling, and where it stands."""
    new, where = dict(TAKEN), {w: set() for w in TAKEN}
    for crate, p in files(".antt"):
        lines = read(p).split("\n")
        for i, raw in enumerate(lines):
            line = code(raw)
            if line.lstrip().startswith("use "):
                for name in re.findall(r" as (" + WORD + ")", line):
                    if "-" in name:
                        new[name] = camel(name) if name[0].isupper() else name.replace("-", "_")
                        where.setdefault(name, set()).add((crate, p))
            m = SIGNATURE.match(line)
            if not m or line.lstrip().startswith(("use ", "unfolding ", "mod ", "pub mod ")):
                continue
            marks, name, rest = m.group(2), m.group(3), m.group(4)
            is_type = "record " in marks or "data " in marks
            if not is_type and not re.match(r"\s*:(?!:)", rest) and not re.match(r"\s*\{", rest):
                continue
            if "-" not in name:
                continue
            if answers(p) and re.search(r": *goal\.", rest):
                continue
            if m.group(1) and not is_type and not re.match(r"\s*:", rest):
                continue
            into_type = is_type or re.search(r"(→|:) *Type( 0)? *$", rest)
            to = camel(name) if into_type or name[0].isupper() else name.replace("-", "_")
            if new.get(name, to) != to:
                print(f"two spellings: {name}: {new[name]}, {to}")
            new[name] = to
            where.setdefault(name, set()).add((crate, p))
    return new, where


def source_names(crate):
    """The names with an underscore in a crate's code."""
    found = set()
    for c, p in files(".rt"):
        found |= set(re.findall(r"\b[A-Za-z]\w*_\w+\b", read(p)))
    return found


def respell_made(token, names):
    for a, b in MADE:
        token = re.sub(r"(?<![A-Za-z0-9_])" + a + r"(?![A-Za-z0-9_])", b, token)
    for n in names:
        dashed = n.replace("_", "-")
        if dashed in token:
            token = re.sub(r"(?<![A-Za-z0-9_])" + re.escape(dashed) + r"(?![A-Za-z0-9_])", n, token)
    return token


def turned(line, new, names, is_answer):
    body = code(line)
    tail = line[len(body):]

    def one(m):
        t = m.group(0)
        if t in new:
            return new[t]
        if is_answer and "-" in t:
            return respell_made(t, names)
        return t

    return NAME.sub(one, body) + tail


def clauses(text, new):
    """The clauses, ghost items and ghost imports of a source file, respelled."""
    out, depth, inside = [], 0, False
    for line in text.split("\n"):
        start = re.match(r"\s*(pub )?(ghost|requires|ensures)\b", line)
        if start and not inside:
            inside, depth = True, 0
        if inside:
            comment = line.find("//")
            body, tail = (line, "") if comment < 0 else (line[:comment], line[comment:])
            body = NAME.sub(lambda m: new.get(m.group(0), m.group(0)), body)
            out.append(body + tail)
            depth += body.count("{") - body.count("}")
            if depth <= 0:
                inside = False
        else:
            out.append(line)
    return "\n".join(out)


def main():
    new, where = declared()
    bad = False
    taken = {}
    for crate, p in files(".antt"):
        for m in re.finditer(r"(?m)^\s*(?:(?:abbrev|unfoldable|pub|data|record) )*(" + WORD + r") :", read(p)):
            taken.setdefault(m.group(1), set()).add(p)
    back = {}
    for a, b in new.items():
        if b in back:
            print(f"fall together: {a} and {back[b]} are {b}")
            bad = True
        back[b] = a
        if b in taken:
            both = {p for _, p in where[a]} & taken[b]
            same = {c for c, _ in where[a]} & {p.split('/crates/')[1].split('/')[0] for p in taken[b]}
            print(f"{'fall together in one file' if both else 'taken'}: {a} is {b}, which stands in {sorted(os.path.relpath(p, ROOT) for p in taken[b])[:3]}; same crate: {sorted(same)}")
            bad = bad or bool(both)
    imported = {}
    for crate, p in files((".antt", ".rt")):
        for m in re.finditer(r"(?m)^(?:ghost |pub )*use (Rattle\.std\.[^{;\n]*)\.\{([^}]*)\}", read(p)):
            for n in m.group(2).split(","):
                n = n.strip().split(" as ")[-1].strip()
                imported.setdefault(n, set()).add(os.path.relpath(p, ROOT))
    for a, b in new.items():
        if b in imported:
            print(f"std has it: {a} is {b}, imported in {sorted(imported[b])[:4]}")
    if "--dry" in sys.argv:
        print(len(new), "names")
        return 0
    if bad:
        return 1
    for crate, p in files(".antt"):
        names = sorted(source_names_all, key=len, reverse=True)
        text = read(p)
        to = "\n".join(turned(l, new, names, answers(p)) for l in text.split("\n"))
        if to != text:
            open(p, "w", encoding="utf-8").write(to)
    for crate, p in files(".rt"):
        text = read(p)
        to = clauses(text, new)
        if to != text:
            open(p, "w", encoding="utf-8").write(to)
    print(len(new), "names respelled")
    return 0


if __name__ == "__main__":
    source_names_all = source_names(None)
    sys.exit(main())
