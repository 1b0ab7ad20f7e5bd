#!/usr/bin/env python3
"""Compares the statements of definitions and lemmas of two checkouts: tools/statements.py OLD NEW

Read are the files of specs/ and the lemma files of proofs/, whichever of the two a statement lies in. Of a record or an
abbreviation the whole text counts, of any other definition its signature, of a nameless module its parameters. Visibility,
comments and line breaks do not count, nor do words of the library in SAME.
"""
import glob
import re
import sys

START = re.compile(r"^(\s*)((?:pub |abbrev |unfoldable |data |record )*)([^\s(){}.;,:λ]+)((?: [({].*?[)}])*) :(\s.*|$)")
MODULE = re.compile(r"^\s*module _ (.*) where$")
# one word of the library under two names
SAME = [("slice_index_or", "get_or"), ("AllByRecursion", "All"), ("ContainsAt", "Has")]


def plain(text):
    text = re.sub(r"\b(pub|abbrev|unfoldable) ", "", text)
    for word, other in SAME:
        text = text.replace(word, other)
    return re.sub(r"\s+", " ", text).strip()


def indent(line):
    return len(line) - len(line.lstrip())


def statement(lines, match):
    """The text that begins in the first line: on to the definition's own clauses, or with them where they count too."""
    marks, name, at = match.group(2), match.group(3), len(match.group(1))
    body = [lines[0]]
    for line in lines[1:]:
        clause = indent(line) == at and re.match(r"^\s*" + re.escape(name) + r"(\s|$)", line)
        if not line.strip() or (clause and "abbrev" not in marks and "record" not in marks):
            break
        if not clause and indent(line) <= at and "record" not in marks and "data" not in marks:
            break
        body.append(line)
    return plain(" ".join(line for line in body if not line.lstrip().startswith("--")))


def statements(root):
    found = {}
    for path in sorted(glob.glob(root + "/crates/*/specs/**/*.antt", recursive=True) + glob.glob(root + "/crates/*/proofs/*.antt")):
        crate = path.split("/crates/")[1].split("/")[0]
        lines = open(path).read().split("\n")
        for i, line in enumerate(lines):
            module, match = MODULE.match(line), START.match(line)
            if module:
                found.setdefault((crate, "module"), []).append(plain(module.group(1)))
            elif match and not line.lstrip().startswith(("--", "let ", "use ", "in ")):
                found.setdefault((crate, match.group(3)), []).append(statement(lines[i:], match))
    return found


def main():
    old, new = statements(sys.argv[1]), statements(sys.argv[2])
    without = 0
    for (crate, name), texts in sorted(old.items()):
        for text in texts:
            if text not in new.get((crate, name), []):
                without += 1
                print(f"{crate} {name}\n  - {text}")
                for other in new.get((crate, name), ["gone"]):
                    print(f"  + {other}")
    print(f"{sum(len(texts) for key, texts in old.items() if key[1] != 'module')} statements, {without} without an equal")


main()
