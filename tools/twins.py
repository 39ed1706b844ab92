#!/usr/bin/env python3
"""Lists functions of crates/*/src that are the same but for names, types and constants.

usage: twins.py [FOLDER]      FOLDER holds crates/ (default: the one above this script)

Two functions are twins if their bodies are equal once every name is replaced by the order in which it first comes,
every number and text by one sign, and clauses and comments are left out. Bodies of fewer than MOST_SHORT signs are
passed over, as are tests and what a derive would write.
"""
import os
import re
import sys

MOST_SHORT = 18
KEPT = set("if else match for in while loop let mut return fn self Self Some None Ok Err true false as break continue & *".split())
SIGN = re.compile(r"b?\"[^\"]*\"|b?'[^']'|[A-Za-z_][A-Za-z_0-9]*|[0-9][0-9_a-z]*|[^\sA-Za-z_0-9]")


def functions(text):
    text = re.sub(r"//.*", "", text)
    for m in re.finditer(r"\bfn\s+([a-z_0-9]+)", text):
        at = m.end()
        # the body is the first brace that no clause opens
        depth = 0
        clause = False
        i = at
        while i < len(text):
            c = text[i]
            word = re.match(r"(requires|ensures)\b[^{]*", text[i:])
            if depth == 0 and word:
                i += word.end()
                clause = True
                continue
            if c == ";" and depth == 0:
                break
            if c == "{":
                start = i
                level = 0
                while i < len(text):
                    if text[i] == "{":
                        level += 1
                    elif text[i] == "}":
                        level -= 1
                        if level == 0:
                            break
                    i += 1
                if not clause:
                    yield m.group(1), text[start : i + 1]
                    break
                clause = False
            i += 1


def normal(body):
    names = {}
    out = []
    for sign in SIGN.findall(body):
        if re.match(r"[0-9]|b?[\"']", sign):
            out.append("#")
        elif re.match(r"[A-Za-z_]", sign) and sign not in KEPT:
            out.append("n%d" % names.setdefault(sign, len(names)))
        else:
            out.append(sign)
    return out


def main():
    top = sys.argv[1] if len(sys.argv) > 1 else os.path.join(os.path.dirname(os.path.abspath(__file__)), "..")
    groups = {}
    crates = os.path.join(top, "crates")
    for crate in sorted(os.listdir(crates)):
        folder = os.path.join(crates, crate, "src")
        if crate.endswith("_tests") or not os.path.isdir(folder):
            continue
        for file in sorted(os.listdir(folder)):
            if file.endswith(".rt"):
                with open(os.path.join(folder, file)) as f:
                    for name, body in functions(f.read()):
                        key = normal(body)
                        if len(key) >= MOST_SHORT:
                            groups.setdefault(" ".join(key), []).append("%s/%s %s" % (crate, file, name))
    count = 0
    for group in groups.values():
        if len(group) > 1:
            count += len(group)
            print(", ".join(group))
    print("functions that have a twin: %d" % count)


main()
