#!/usr/bin/env python3
"""Brings the names of this repository's own definitions and lemmas to Rattle's spelling.

usage: tools/respell.py [--list]     at the top of the repository, once, after the toolchain's own script

Types and facts become upper camel case (Laid-reads: LaidReads), definitions, fields and constructors snake case
(bytes-for: bytes_for). In a lemma a dash stays where it joins two names, and is else an underscore. Names that
Rattle makes (goals, steps of a proof), names from src/ and names of libraries stay. --list prints and writes nothing.
"""
import os
import re
import sys

# characters of a name; a dot, a bracket and the like end it
NAME = r"[^\s(){}.,;:@λ\"]+"
# names of the logic and of the library, between which a lemma's dash stays
WORDS = set(
    "add sub mul div mod pow suc zero lt le eq ne nil cons length append take drop get_or getD map cond true false and or not "
    "push replicate reverse sum shr shl min max eqb leb ltb refl sym some none ok err".split()
)

def files(root):
    for folder, dirs, names in os.walk(os.path.join(root, "crates")):
        dirs[:] = sorted(d for d in dirs if d not in ("out", "must-fail", "data"))
        for n in sorted(names):
            if n.endswith((".antt", ".rt")):
                yield os.path.join(folder, n)


def read(path):
    with open(path, encoding="utf-8") as f:
        return f.read()


DECLARED = re.compile(r"(?m)^( *)(abbrev |unfoldable )?(pub )?(record |data )?(" + NAME + r")((?: [({][^\n]*?[)}])*) : (.*)$")


def declared(root):
    """The names that specs/ and proofs/ declare: what each is."""
    found = {}
    for path in files(root):
        if not path.endswith(".antt"):
            continue
        answers = os.path.basename(path) in ("Answers.antt", "Invariants.antt", "Choices.antt")
        text = read(path)
        inside = None
        for line in text.split("\n"):
            head = re.match(r"^( *)(?:pub )?(?:record|data) ", line)
            if head:
                inside = len(head.group(1))
            elif line.strip() and len(line) - len(line.lstrip()) <= (inside if inside is not None else -1):
                inside = None
            m = DECLARED.match(line)
            if not m:
                continue
            indent, mark, _pub, kind, name, _args, of = m.groups()
            if name.startswith("--") or name in ("let", "λ"):
                continue
            if re.match(r"(goal|need|needs)\.", of):
                continue
            if answers and len(indent) > 0:
                continue
            part = inside is not None and not kind
            depth = len(indent)
            if not part and depth > 2:
                continue
            if kind or mark or part or "/specs/" in path:
                what = "definition"
            else:
                what = "lemma"
            if found.get(name) != "definition":
                found[name] = what
    return found


def camel(name):
    parts = re.split(r"[-_]", name)
    return "".join(p[:1].upper() + p[1:] for p in parts)


def lemma(name, known):
    parts = name.split("-")
    # join words that together are a name
    joined = []
    i = 0
    while i < len(parts):
        for n in range(len(parts) - i, 0, -1):
            word = "_".join(parts[i : i + n])
            if n == 1 or word in known:
                joined.append(word)
                i += n
                break
    out = joined[0]
    for a, b in zip(joined, joined[1:]):
        out += ("-" if a in known and b in known else "_") + b
    return out


def mapping(root):
    names = declared(root)
    turned = {}
    known = set(WORDS)
    for n, what in names.items():
        if what == "definition":
            known.add(n.replace("-", "_"))
    for n, what in sorted(names.items()):
        if re.match(r"[A-Z][A-Za-z]*[-_]", n):
            new = camel(n)
        elif "-" not in n and "getD" not in n:
            continue
        elif what == "definition":
            new = n.replace("-", "_")
        else:
            new = lemma(n.replace("getD", "get_or"), known)
        if new != n:
            turned[n] = new
    return turned


def respelled(text, turned, path):
    """The text with each name of `turned` replaced where it stands whole, comments left out; no Rust name has a dash."""
    def whole(line):
        return re.sub(NAME, lambda m: turned.get(m.group(0), m.group(0)), line)

    comment = "//" if path.endswith(".rt") else "--"
    return "\n".join(l if l.lstrip().startswith(comment) else whole(l) for l in text.split("\n"))


def main(argv):
    root = "."
    turned = mapping(root)
    if "--list" in argv:
        for n, new in turned.items():
            print(n, new)
        return 0
    count = 0
    for path in files(root):
        text = read(path)
        new = respelled(text, turned, path)
        if new != text:
            with open(path, "w", encoding="utf-8") as f:
                f.write(new)
            count += 1
    print(f"{len(turned)} names turned, in {count} files")
    return 0


if __name__ == "__main__":
    raise SystemExit(main(sys.argv[1:]))
