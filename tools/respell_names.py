#!/usr/bin/env python3
"""Brings the repository's own names in specs/ and proofs/ to the spelling that Rattle's library has today.

    respell_names.py        at the top of the repository, once, right after the kit's own porting script

- A type or a fact is in upper camel case: `Same-reach` -> `SameReach`. A definition whose value is a fact is one too.
- A function, a field, a constructor is in snake case: `place-all` -> `place_all`.
- In a lemma's name a dash stays between the names of two definitions (`length-place_all`); plain words are joined by `_`.
Names of src/ stay as they are, and so do texts in quotation marks. Where a new name would be the name of something else
already, the script stops, unless RESOLVED has another for it. Prints each old name with its new one.
"""
import pathlib
import re
import sys

NAME = r"[^\W\d][\w'-]*(?:\+\+)?"
ANSWERS = {"Answers.antt", "Invariants.antt", "Proof.antt"}

# Two names that would fall together with another one, and what is taken in their place.
RESOLVED = {
    # the record of one use; `steps-never-fail`, the law, is StepsNeverFail
    "Steps-never-fail": "StepsNeverFailAt",
    # of an output line; LineAt is of a script's line
    "Line-at": "WritesLineAt",
    # a bit of std's bit_or
    "bit-or": "bit-bit_or",
}


def files(*endings):
    return [p for p in sorted(pathlib.Path("crates").rglob("*")) if p.suffix in endings and "out" not in p.parts]


def declared(path):
    """The names that a file declares, as (kind, name): type, fact, function, field (or constructor), lemma."""
    lines, around = path.read_text().split("\n"), []
    for i, line in enumerate(lines):
        if not line.strip() or line.lstrip().startswith("--"):
            continue
        depth = len(line) - len(line.lstrip())
        around = [a for a in around if a[0] < depth]
        fields = bool(around) and re.match(r"(?:pub )?(record|data)\b", around[-1][1]) is not None
        around.append((depth, line.lstrip()))
        for m in re.finditer(rf" as ({NAME})", line if line.startswith("use ") else ""):
            yield ("type" if m[1][0].isupper() else "function"), m[1]
        if m := re.match(rf" *(?:abbrev|unfoldable)\s+(?:pub\s+)?({NAME})\s*(:|$)", line):
            name, signature = m[1], line
            for more in lines[i + 1:]:
                if len(more) - len(more.lstrip()) <= depth:
                    break
                signature += " " + more.strip()
            yield ("fact" if name[0].isupper() or re.search(r"(:|→) Type 0$", signature) else "function"), name
        elif m := re.match(rf" *(?:pub )?(?:record|data) ({NAME})", line):
            yield "type", m[1]
        elif m := re.match(rf" *(?:pub )?({NAME})\s*:( |$)", line):
            yield ("field" if fields else "type" if m[1][0].isupper() and "-" in m[1] and "Type 0" in line else "lemma"), m[1]


def snake(name):
    return name.replace("-", "_")


def camel(name):
    return "".join(w[:1].upper() + w[1:] for w in name.split("-"))


def lemma(name, known):
    """A lemma's name: the longest names of definitions stay whole, and a dash stays between two of them."""
    words, parts = name.split("-"), []
    while words:
        for n in range(len(words), 0, -1):
            part = "_".join(words[:n])
            if part in known or n == 1:
                parts.append(part)
                words = words[n:]
                break
    out = parts[0]
    for a, b in zip(parts, parts[1:]):
        out += ("-" if a in known and b in known else "_") + b
    return out


def main():
    kinds, known, tokens = {}, set(), set()
    for p in files(".antt"):
        text = p.read_text()
        for row in re.findall(r"^use Rattle\.std\.[\w.]*\.\{([^}]*)\}", text, re.M):
            known |= {w for w in re.split(r"[,\s]+", row) if re.fullmatch(r"[a-z]\w*", w)}
        if p.name in ANSWERS and "proofs" in p.parts:
            continue
        tokens |= set(re.findall(NAME, text))
        for kind, name in declared(p):
            kinds.setdefault(name, set()).add(kind)
    known |= {"++"} | {snake(n) for n, k in kinds.items() if "function" in k}
    turn = {}
    for name, kind in sorted(kinds.items()):
        if name in RESOLVED:
            new = RESOLVED[name]
        elif kind & {"type", "fact"}:
            new = camel(name)
        elif kind & {"function", "field"}:
            new = snake(name)
        else:
            new = lemma(name, known)
        if new != name:
            turn[name] = new
    bad = 0
    for name, new in turn.items():
        if new in tokens or list(turn.values()).count(new) > 1:
            print(f"falls together: {name} -> {new}", file=sys.stderr)
            bad += 1
    if bad:
        return 1
    find = re.compile(r"\"[^\"\n]*\"|(?<![\w'-])(" + "|".join(sorted(map(re.escape, turn), key=len, reverse=True)) + r")(?![\w'+-])")
    for p in files(".antt", ".rt", ".edit"):
        old = p.read_text()
        new = find.sub(lambda m: turn[m[1]] if m[1] else m[0], old)
        if new != old:
            p.write_text(new)
    for name, new in turn.items():
        print(f"{name} -> {new}")
    return 0


sys.exit(main())
