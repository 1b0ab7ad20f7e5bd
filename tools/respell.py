#!/usr/bin/env python3
"""Respells this repository's own definitions and lemmas: words in snake case, facts and records in camel case.

Run once, at the top, after the toolchain's port.py. Names that the toolchain makes (goals, steps of a proof) and names of
its library keep their spelling. Prints each pair, and names that would fall together.
"""
import glob
import re
import sys

NAME = r"[^\s(){}.;,:λ\[\]«»]+"
MARKS = r"(?:pub |abbrev |unfoldable |data |record )*"
GOAL = re.compile(r"^pub (" + NAME + r") : goal\.", re.M)
DEFINED = re.compile(r"^\s*" + MARKS + r"(" + NAME + r")(?: [{(].*?[)}])* :(?:\s|$)", re.M)
BOUND = re.compile(r"\blet (" + NAME + r")(?= [:=])")
TOKEN = re.compile(r"[A-Za-z][A-Za-z0-9_'′\-]*[A-Za-z0-9_'′]|[A-Za-z]")
FOREIGN = re.compile(r"^\s*(?:ghost )?use ((?:Rattle\.std|mathlib|native|Prim|lib|borrow|mir|denote)\b[^{;\n]*)\.\{([^}]*)\}", re.M)
# pieces of older library names inside ours
PIECES = [("natAbs", "unsigned_abs"), ("getD", "get_or"), ("ltZ", "int_lt"), ("toBits", "to_bits")]


def antt():
    return sorted(glob.glob("crates/*/specs/**/*.antt", recursive=True) + glob.glob("crates/*/proofs/**/*.antt", recursive=True))


def texts():
    return antt() + sorted(glob.glob("crates/*/src/**/*.rt", recursive=True)) + sorted(glob.glob("crates/*/must-fail/*.edit"))


def new(name):
    for old, now in PIECES:
        name = re.sub(r"(?<![A-Za-z])" + old + r"(?![a-z])", now, name)
    name = name.replace("′", "'")
    if name[0].isupper() and "-" in name:
        first, *rest = name.split("-")
        return first + "".join(word[0].upper() + word[1:] for word in rest)
    return name.replace("-", "_")


def own_names():
    names = set()
    for path in antt():
        text = open(path).read()
        goals = set(GOAL.findall(text)) | set(re.findall(r"(?:invariant|decreases)-" + NAME, text))
        names |= (set(DEFINED.findall(text)) | set(BOUND.findall(text))) - goals
    return {name for name in names if re.fullmatch(TOKEN.pattern, name)}


def main():
    pairs = {name: new(name) for name in own_names()}
    pairs = {name: now for name, now in pairs.items() if name != now}
    used = {}
    for path in texts():
        text = open(path).read()
        for token in TOKEN.findall(text):
            used.setdefault(token, set()).add(path)
    for name, now in sorted(pairs.items()):
        print(f"{name} {now}")
        if now in used:
            print(f"look: {now} stands in {len(used[now])} files: {' '.join(sorted(used[now])[:4])}")
    for now in sorted(set(pairs.values())):
        olds = [name for name in pairs if pairs[name] == now]
        if len(olds) > 1:
            print(f"look: {now} is made of {olds}")
    if "--list" in sys.argv:
        return
    for path in texts():
        text = open(path).read()
        foreign = {name.strip() for _, names in FOREIGN.findall(text) for name in names.split(",")}
        clash = foreign & set(pairs)
        if clash:
            print(f"look: {path} keeps the library's {sorted(clash)}")

        def respell(match):
            name = match.group(0)
            return pairs[name] if name in pairs and name not in clash else name

        if path.endswith(".rt"):
            lines = [line if line.lstrip().startswith("//") else TOKEN.sub(respell, line) for line in text.split("\n")]
            turned = "\n".join(lines)
        else:
            lines = [re.sub(r"--.*", lambda m: m.group(0), line) if line.lstrip().startswith("--") else TOKEN.sub(respell, line) for line in text.split("\n")]
            turned = "\n".join(lines)
        if turned != text:
            open(path, "w").write(turned)
    for path in ["README.md"] + sorted(glob.glob("docs/*.md")):
        text = open(path).read()
        turned = re.sub(r"`[^`\n]*`", lambda m: TOKEN.sub(lambda t: pairs.get(t.group(0), t.group(0)), m.group(0)), text)
        if turned != text:
            open(path, "w").write(turned)


main()
