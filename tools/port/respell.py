#!/usr/bin/env python3
"""Spells the repository's own definitions and lemmas as today's Rattle does: words in snake case, modules in camel case.

Run once at the top, right after the kit's port.py. names.tsv beside this file has each name, old and new. A name with a capital in it is turned wherever it
stands. One with a dash is turned only in a file that declares it or imports it from a crate of this repository, since goals that Rattle names have dashes
too. The folders specs/steps become specs/Steps. Pages are turned where they name what is in the crates; docs/CHANGES.md is history and stays.
"""

import os
import re
import subprocess
import sys

HERE = os.path.dirname(os.path.realpath(__file__))
NAME = r"[^\s(){}.;,@\"«»`/\[\]]+"
TOKEN = re.compile(NAME)
DECLARED = re.compile(r"^ *(?:pub |abbrev |unfoldable |data |record )*([^\s(){}.;,@\"«»:]+)(?: \{[^{}\n]*\})* :", re.M)
USED = re.compile(r"\buse Rattle\.([\w+']+(?:\.[\w+']+)*)(?:\.\{([^}]*)\})?(?: as (\S+))?")
# The kit's script gave this lemma the name that the definition beside it gets here.
APART = {"crates/cutting/proofs/Carried.antt": {"own_bits": "own_are_bits"}}
CLAUSE = re.compile(r"\b(?:ghost|requires|ensures)\b|^\s*//")


def crates():
    with open("crates.txt", encoding="utf-8") as f:
        return [line.split(":")[0].split()[0] for line in f if ":" in line and not line.startswith("#")]


def table():
    with open(os.path.join(HERE, "names.tsv"), encoding="utf-8") as f:
        return dict(line.rstrip("\n").split("\t") for line in f)


def files(root, endings):
    for folder, dirs, names in os.walk(root):
        dirs[:] = sorted(d for d in dirs if d not in ("out", ".git", "must-fail"))
        for name in sorted(names):
            if name.endswith(endings):
                yield os.path.join(folder, name)


def read(path):
    with open(path, encoding="utf-8") as f:
        return f.read()


def write(path, text):
    with open(path, "w", encoding="utf-8") as f:
        f.write(text)


def own(text, own_crates):
    """What the file declares or imports from a crate of this repository."""
    found = set(DECLARED.findall(text))
    for path, items, _ in USED.findall(text):
        if path.split(".")[0] in own_crates:
            found |= {item.split(" as ")[0].strip() for item in items.split(",")}
            found.add(path.split(".")[-1])
    return found


def turn(text, names):
    return TOKEN.sub(lambda m: names.get(m.group(0), m.group(0)), text)


def turn_antt(text, names, own_crates):
    mine = own(text, own_crates)
    here = {a: b for a, b in names.items() if "-" not in a or a in mine}
    text = turn(text, here)
    text = re.sub(r"\.specs\.steps\b", ".specs.Steps", text)
    return re.sub(r"(?m)^(pub mod|mod) steps$", r"\1 Steps", text)


def turn_source(text, names):
    """Clauses and comments alone: the code of a program has no such names."""
    camel = {a: b for a, b in names.items() if "-" not in a}
    lines, depth = [], 0
    for line in text.split("\n"):
        if depth > 0 or CLAUSE.search(line):
            if not line.lstrip().startswith("//"):
                depth = max(0, depth + line.count("{") - line.count("}"))
                if line.rstrip().endswith("{") and not CLAUSE.search(line):
                    depth = 0
            line = turn(line, camel)
            line = line.replace(".specs.steps.", ".specs.Steps.")
        lines.append(line)
    return "\n".join(lines)


def turn_page(text, names, whole):
    camel = {a: b for a, b in names.items() if "-" not in a}
    if whole:
        return turn(text, names)
    text = turn(text, camel)
    return re.sub(r"`[^`\n]+`", lambda m: turn(m.group(0), names), text)


def turn_edit(text, names):
    camel = {a: b for a, b in names.items() if "-" not in a}
    return turn(text, camel).replace("specs/steps/", "specs/Steps/").replace(".specs.steps.", ".specs.Steps.")


def main():
    os.chdir(subprocess.run(["git", "rev-parse", "--show-toplevel"], capture_output=True, text=True, check=True).stdout.strip())
    names, own_crates = table(), set(crates())
    for crate in sorted(own_crates):
        root = os.path.join("crates", crate)
        steps = os.path.join(root, "specs", "steps")
        if os.path.isdir(steps):
            os.rename(steps, os.path.join(root, "specs", "Steps"))
            os.rename(steps + ".antt", os.path.join(root, "specs", "Steps.antt"))
        for path in files(root, (".antt",)):
            text = turn(read(path), APART.get(path, {}))
            write(path, turn_antt(text, names, own_crates))
        for path in files(root, (".rt",)):
            write(path, turn_source(read(path), names))
        edits = os.path.join(root, "must-fail")
        for name in sorted(os.listdir(edits)) if os.path.isdir(edits) else []:
            if name.endswith(".edit"):
                write(os.path.join(edits, name), turn_edit(read(os.path.join(edits, name)), names))
    for path in ["README.md", *files("docs", (".md",))]:
        if os.path.basename(path) not in ("CHANGES.md", "PORT.md"):
            write(path, turn_page(read(path), names, os.path.basename(path) == "COVERAGE.md"))
    return 0


if __name__ == "__main__":
    sys.exit(main())
