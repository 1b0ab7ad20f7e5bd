#!/usr/bin/env python3
"""Groups the functions of crates/*/src whose bodies are equal but for types, constants and numbers.

    python3 tools/twins.py [FOLDER]      a checkout; this one by default

Bodies of fewer than 12 characters are left out. Names of types and constants and all numbers are taken as equal, comments,
white space and the clauses of contracts are not looked at.
"""
import pathlib
import re
import sys
from collections import defaultdict


def functions(text):
    """Yields the name and the body of each function with a body."""
    text = re.sub(r"//[^\n]*", "", text)
    for found in re.finditer(r"\bfn (\w+)", text):
        depth, at = 0, found.end()
        # The body is the first brace that opens a line of its own or ends a signature, behind the clauses.
        signature = re.compile(r"\n\s*\{\n|\) (?:-> [^\n{;]*)?\{\n|;\n|\{\}\n")
        start = signature.search(text, at)
        if not start or start.group().strip() in (";", "{}"):
            continue
        at = text.index("{", start.start())
        for end in range(at, len(text)):
            depth += {"{": 1, "}": -1}.get(text[end], 0)
            if depth == 0:
                yield found.group(1), text[at + 1 : end]
                break


def shape(body):
    body = re.sub(r"\b(?:[iu](?:8|16|32|64|size)|[A-Z]\w*)\b", "T", body)
    body = re.sub(r"\b0x[0-9A-Fa-f_]+\b|\b\d[\d_]*\b", "N", body)
    return re.sub(r"\s+", "", body)


def main():
    top = pathlib.Path(sys.argv[1] if len(sys.argv) > 1 else ".")
    groups = defaultdict(list)
    for path in sorted(top.glob("crates/*/src/*.rt")):
        for name, body in functions(path.read_text()):
            form = shape(body)
            if len(form) >= 12:
                groups[form].append(f"{path.relative_to(top)}: {name}")
    twins = [members for members in groups.values() if len(members) > 1]
    for members in sorted(twins):
        print("\n".join(members), end="\n\n")
    print(f"{len(twins)} groups, {sum(map(len, twins))} functions")


main()
