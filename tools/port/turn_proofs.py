#!/usr/bin/env python3
"""Turns a crate's old proofs, proofs/F/Proof.antt, into today's Invariants.antt and Answers.antt.

usage: turn_proofs.py CRATE.. at the top of the repository. For each crate it asks the kit for the old and the new name of each goal and of each place in the
code (rt check --generated DIR --old-names), and then turns each proof: a loop's invariant and measure into functions of `l`, each need into an answer under its
new name. An answer that only asks for the search is left out, since the check asks for it anyway. A file whose goals it cannot tell stays as it is.
"""

import json
import os
import re
import subprocess
import sys
import tempfile

TOKEN = r"[^\s(){}.;,@\"«»\[\]]+"
HEAD = re.compile(r"^(?:pub )?(?:abbrev )?(?:pub )?([^\s(){}:;,.]+) :(?= |$)")


def plain(name):
    return name.lower().replace("-", "_")


def blocks(text):
    """The file as its leading comment, its use lines, and its declarations, each with the comment above it."""
    lines = text.split("\n")
    head, uses, found, note = [], [], [], []
    i = 0
    while i < len(lines) and lines[i].startswith("--"):
        head.append(lines[i])
        i += 1
    current = None
    for line in lines[i:]:
        if line.startswith("use ") and current is None:
            uses.append(line)
        elif line.startswith("--"):
            note.append(line)
            current = None
        elif line.startswith("module "):
            current = ["module", note, [line]]
            note = []
            found.append(current)
        elif HEAD.match(line):
            current = [HEAD.match(line).group(1), note, [line]]
            note = []
            found.append(current)
        elif current is not None:
            current[2].append(line)
    return head, uses, [(n, c, "\n".join(b).rstrip()) for n, c, b in found]


def without_modules(text):
    """A module over a place of the code, as declarations that each take the place."""
    while True:
        m = re.search(r"(?m)^module _ \((c : tie\.[^()]*)\) where\n((?:(?:  .*)?\n)+)", text)
        if not m:
            return text
        place = m.group(1)
        inside = "\n".join(line[2:] if line.startswith("  ") else line for line in m.group(2).split("\n"))
        names = re.findall(r"(?m)^(?:abbrev |pub )*([^\s(){}:;,.]+) :(?= )", inside)
        out = []
        for line in inside.split("\n"):
            head = re.match(r"^((?:abbrev |pub )*([^\s(){}:;,.]+) :) (.*)$", line)
            name = head.group(2) if head else None
            start = re.match(r"^(\S+)((?: \S+)*?) =(?= |$)(.*)$", line)
            lead, rest = "", line
            if head:
                lead, rest = f"{head.group(1)} ({place}) → ", head.group(3)
            elif start and start.group(1) in names:
                lead, rest = f"{start.group(1)} c{start.group(2)} =", start.group(3)
            if line.startswith("unfolding "):
                out.append(line)
                continue
            for n in names:
                rest = re.sub(r"(?<![^\s(){};,\[\]])" + re.escape(n) + r"(?![^\s(){}.;,\[\]])", f"({n} c)", rest)
            out.append(lead + rest)
        text = text[: m.start()] + "\n".join(out) + "\n" + text[m.end() :]


def arguments(lines, name):
    """A definition's arguments and its right side, from the line that defines it."""
    text = "\n".join(lines)
    m = re.search(r"(?m)^" + re.escape(name) + r"((?: [^=:\n]+?)?) =(?=[ \n])", text)
    if not m:
        return None, None, None
    return m.group(1).split(), text[m.end() :], text[: m.start()]


def turn_loop(kind, new, names, variables, changed, block, old):
    lines = block.split("\n")
    args, right, _ = arguments(lines, old)
    if args is None:
        return None
    wanted = [("l.initial." if c else "l.") + v for v, c in zip(variables, changed)] + ["l." + v for v, c in zip(variables, changed) if c]
    if len(args) != len(wanted):
        return None
    for a, w in zip(args, wanted):
        if a != "_":
            right = re.sub(r"(?<![^\s(){};,\[\]])" + re.escape(a) + r"(?![^\s(){}.;,\[\]])", "\0" + w, right)
    right = right.replace("\0", "")
    unfolding = re.findall(r"(?m)^unfolding .*$", block)
    return f"abbrev pub {kind}-{new} : goal.{kind}-{new}\n" + "".join(u + "\n" for u in unfolding) + f"{kind}-{new} l =" + right


class Names:
    def __init__(self, table):
        self.needs = {}
        for old, new in table["needs"]:
            self.needs.setdefault(plain(old), new)
        self.order = [new for _, new in table["needs"]]
        self.steps, self.fields, self.raw = {}, {}, {}
        for place in table["places"]:
            old, new = place[2]
            # A lent variable that came back is no step that a proof names.
            if old:
                self.raw.setdefault(plain(old), new)
            if old and ("known" in old or not re.fullmatch(re.escape(old) + r"-\d+", new)):
                self.steps.setdefault(plain(old), new)
            for a, b in place[4]:
                if not re.search(r"-\d+$", b):
                    self.fields.setdefault((plain(old), a), b)
        self.places = {}
        for place, new in zip(table["places"], table["places_by_name"]):
            self.places.setdefault(plain(place[0]), new)
        self.callee = {new: callee for _, _, (_, new), callee, _ in table["places"] if callee}
        self.params_of = table["params"]


def turn_paths(text, names):
    """Each chain of fields: the steps by their new names, a test's raw fact, and the new value of a lent argument by the argument's name."""

    # A step that has a name of its own.
    named = {}
    for alias, chain in re.findall(r"let (\w+) = \w+((?:\.[^\s(){}.;,@\"«»\[\]]+)+) in", text):
        last = plain(chain.split(".")[-1])
        if last in names.steps:
            named[alias] = last

    def one(match):
        root, chain = match.group(1), match.group(2).split(".")[1:]
        out, step = [], named.get(root)
        k = 0
        while k < len(chain):
            f = chain[k]
            # A fact that every function has takes this name before a call does.
            m = re.fullmatch(r"well_formed(\d*)", plain(f))
            if m and "well_formed" not in names.steps and k + 1 < len(chain) and chain[k + 1] in ("ensures", "result", "new", "auto"):
                f = f"well_formed{int(m.group(1) or 1) + 1}"
            # The kit's script took some steps for words of its library.
            if plain(f) not in names.steps and f.endswith("_lem") and plain(f[:-4]) in names.steps:
                f = f[:-4]
            if (k == 0 or chain[k - 1] == "before") and plain(f) in names.steps and f not in ("before", "args", "requires"):
                out.append(names.steps[plain(f)])
                step = plain(f)
            elif k + 1 < len(chain) and chain[k + 1] == "given" and plain(f) in names.raw:
                out.append(names.raw[plain(f)])
            elif step is not None and step.startswith("if") and f in ("taken", "left"):
                f = "true" if f == "taken" else "false"
                out.append(names.fields.get((step, f), f))
            elif f == "pre" and all(x == "before" for x in out):
                out.append("requires")
            elif step is not None and (step, f) in names.fields:
                out.append(names.fields[(step, f)])
            elif f in ("new", "auto") and step is not None and names.steps[step] in names.callee:
                params = names.params_of.get(names.callee[names.steps[step]])
                n, j = 0, k + 1
                while j < len(chain) and chain[j] == "1":
                    n += 1
                    j += 1
                if params and j < len(chain) and chain[j] == "0" and n < len(params):
                    out += [f, params[n]]
                    k = j
                else:
                    out.append(f)
            else:
                out.append(f)
            k += 1
        return root + "".join("." + o for o in out)

    return re.sub(r"(" + TOKEN + r"|\))((?:\.[^\s(){}.;,@\"«»\[\]]+)+)", one, text)


PLACED = re.compile(r"^(?:\(\w+ : tie\.[^()]*\)|tie\.\S+(?: invariant-\S+ decreases-\S+)*)(?:\s*→)?\s*")


class Helper:
    """A lemma or a value that is typed by a place of the code. What is known at a place is known under the same name at each later one, so where it is used
    a value is written out, and a lemma stands as a `let`."""

    def __init__(self, name, note, block, names):
        lines = block.split("\n")
        args, right, before = arguments(lines, name)
        self.name, self.note = name, note
        self.unfolding = [w for u in re.findall(r"(?m)^unfolding (.*)$", before) for w in u.split()]
        kind = re.sub(r"(?m)^unfolding .*$", "", before)
        kind = kind.split(" :", 1)[1].strip()
        bound = re.match(r"\((\w+) : tie\.", kind)
        if bound and bound.group(1) != "c":
            kind = re.sub(r"(?<![^\s(){};,\[\]])" + bound.group(1) + r"(?![^\s(){}.;,\[\]])", "c", kind)
        self.abbrev = block.startswith("abbrev")
        self.place_only = re.fullmatch(r"(?:tie\.\S+.*|\(\w+ : tie\.[^()]*\)) → tie\.\S+[^→]*", kind, re.S) is not None
        self.kind = flat(turn_paths(PLACED.sub("", kind, count=1).strip(), names))
        self.arg, self.rest = args[0], args[1:]
        # A `let` has no implicit arguments.
        self.hidden = 0
        while self.kind.startswith("{"):
            group, self.kind = self.kind[1:].split("}", 1)
            self.kind = f"({group})" + self.kind
            self.kind = re.sub(r"\)\s*\{", ") {", self.kind, count=1)
            mine = group.split(" :")[0].split()
            self.rest[self.hidden : self.hidden] = mine
            self.hidden += len(mine)
            done, _, left = self.kind.partition(") {")
            if not left:
                break
            inner, self.kind = ("{" + left).split("}", 1)
            more = inner[1:]
            names_more = more.split(" :")[0].split()
            self.rest[self.hidden : self.hidden] = names_more
            self.hidden += len(names_more)
            self.kind = done + f") ({more})" + self.kind
        self.right = right.strip("\n")
        if self.arg != "c":
            self.right = re.sub(r"(?<![^\s(){};,\[\]])" + re.escape(self.arg) + r"(?![^\s(){}.;,\[\]])", "c", self.right)

    def let(self):
        body = self.right.strip()
        if self.unfolding:
            body = "unfold " + " ".join(self.unfolding) + " in (" + body + ")"
        if self.rest:
            body = "λ " + " ".join(self.rest) + ". " + body
        return f"let {self.name} : {self.kind} = {body} in"


def flat(text):
    """What is known at a place has each earlier step by its name too."""
    return re.sub(r"(?<![^\s(){};,\[\]])c(?:\.before)+\.(?!before\b)", "c.", text)


def turn_body(text, names, helpers):
    """A right side, with the place that it stands at as the only one; and the lemmas that it uses, in the order in which they are told."""
    text = turn_paths(text, names)
    # A place that has a name of its own is that of `c`.
    starts = [h.name for h in helpers.values() if h.place_only]
    while True:
        before = text
        for start in starts:
            text = re.sub(r"\(" + start + r" (\w+)((?:\.before)*)\)", r"\1\2", text)
            text = re.sub(r"(?<![^\s(){};,\[\]])" + start + r" (c)((?:\.before)*)(?![\w.])", r"\1\2", text)
        m = re.search(r"let (\w+) = c(?:\.before)* in ?\(?\s*", text)
        if m:
            whole, alias = m.group(0), m.group(1)
            rest = text[m.end() :]
            if whole.rstrip().endswith("("):
                rest = "(" + rest
            text = text[: m.start()] + re.sub(r"(?<![^\s(){};,\[\]])" + alias + r"(?![^\s(){}.;,\[\]])", "c", rest)
        text = re.sub(r"\(c((?:\.before)*)\)(?=\.)", r"c\1", text)
        if text == before:
            break
    text = flat(text)
    used = []
    for name, h in helpers.items():
        if h.place_only:
            continue
        call = re.compile(r"(?<![^\s(){};,\[\]])" + re.escape(name) + r" (?:c(?:\.before)*|\(c(?:\.before)*\))(?![\w.])")
        if call.search(text):
            used.append(name)
            if h.abbrev and not h.rest:
                inner, more = turn_body(h.right, names, {k: v for k, v in helpers.items() if k != name})
                used = [u for u in used if u != name] + [u for u in more if u not in used]
                value = inner.strip()
                text = re.sub(r"\(" + call.pattern + r"\)", lambda m: "(" + value + ")", text)
                text = call.sub(lambda m: value if re.fullmatch(r"[^\s]+", value) else "(" + value + ")", text)
            else:
                called = name + " _" * h.hidden
                text = re.sub(r"\(" + call.pattern + r"\)", name if not h.hidden else f"({called})", text)
                text = call.sub(called, text)
    return text, used


def with_lets(text, names, helpers):
    text, used = turn_body(text, names, helpers)
    lets, seen = [], []

    def need(name):
        if name in seen:
            return
        seen.append(name)
        h = helpers[name]
        others = {k: v for k, v in helpers.items() if k != name}
        body, more = turn_body(h.right, names, others)
        kind, kinds = turn_body(h.kind, names, others)
        for m in more + kinds:
            need(m)
        done = Helper.__new__(Helper)
        done.__dict__.update(h.__dict__, right=body, kind=kind)
        lets.append(done.let())

    for name in used:
        need(name)
    if not lets:
        return text
    body = text if text.startswith("\n") else "\n    " + text.strip()
    return "\n    " + "\n    ".join(lets) + body


def goal_of(names, kind):
    """A need's new name; the kit's first script put before some the kind of the goal, as overflow or nonzero."""
    kind = plain(kind)
    short = re.sub(r"^(overflow|nonzero)_", "", kind)
    # And it took a function whose name ends as a loop's goals did for a loop.
    whole = re.sub(r"_init\b", "_holds", re.sub(r"_smaller\b", "_less", re.sub(r"_preserved\b", "_again", kind)))
    for name in (kind, short, whole):
        if name in names.needs:
            return names.needs[name]
    return next((new for new in names.order if plain(new) == kind), None)


def turn(path, module, table):
    with open(path, encoding="utf-8") as f:
        text = f.read()
    names = Names(table)
    head, uses, found = blocks(without_modules(text))
    uses = [u for u in uses if ".Statement." not in u and not u.endswith(".Tie as tie")]
    invariants, answers, loops, placed, own = [], [], [], {}, []
    order = {new: k for k, new in enumerate(names.order)}
    by_new = {}
    table_loops = {}
    for k, ((old, new), variables) in enumerate(table["loops"]):
        table_loops[plain(old)] = (new, variables, table["changed"][k])
    for name, note, block in found:
        typed = block.split("\n", 1)[0]
        if "statement" in typed and name.endswith("spec") or "tie.close" in block:
            continue
        m = re.search(r" : tie\.(invariant|decreases)-(\S+)", typed)
        if m and plain(m.group(2)) in table_loops:
            new, variables, changed = table_loops[plain(m.group(2))]
            loops.append(m.group(2))
            turned = turn_loop(m.group(1), new, names, variables, changed, block, name)
            if turned is None:
                return f"{path}: the arguments of {name} are not told"
            invariants.append((note, turned))
            continue
        m = re.search(r" : tie\.Need-(\S+)", typed)
        if m:
            new = goal_of(names, m.group(1))
            if new is None:
                return f"{path}: no goal is told for {m.group(1)}"
            args, right, before = arguments(block.split("\n"), name)
            if args is None:
                return f"{path}: {name} has no single equation"
            unfolds = re.findall(r"(?m)^unfolding .*$", before)
            if " ".join(right.split()) == "search rules" and not unfolds:
                continue
            by_new[new] = (note, new, unfolds, right, len(answers), args[0])
            answers.append(("need", new))
            continue
        if " : tie." in typed or re.search(r" : \(\w+ : tie\.", typed) or re.search(r"(?m)^ +\S+ : tie\.", typed):
            placed[name] = Helper(name, note, block, names)
        else:
            own.append((note, name, block))
    out = []
    texts = "\n".join(b for _, b in invariants)
    shared = [n for _, n, b in own if re.search(r"(?<![^\s(){};,\[\]])" + re.escape(n) + r"(?![^\s(){}.;,\[\]])", texts)]
    for note, name, block in own:
        if name in shared:
            block = re.sub(r"^(?:abbrev )?(?=" + re.escape(name) + " :)", "abbrev pub ", block)
            invariants.insert(shared.index(name), (note, block))
        else:
            out.append("\n".join(note + [block]))
    for kind, what in answers:
        if kind == "need":
            note, new, unfolding, right, _, arg = by_new[what]
            if arg != "c":
                return f"{path}: the first argument of {new} is {arg}"
            right = with_lets(right, names, placed)
            out.append("\n".join(note + [f"pub {new} : goal.{new}"] + unfolding + [f"{new} {arg} ={right}"]))
    folder = os.path.dirname(path)
    comment = [h for h in head]
    first = re.sub(r"^-- `[^`]*` meets its contract\.?:? ?", "-- ", comment[0]) if comment else ""
    comment = ([first] if first.strip() != "--" and first else []) + comment[1:]
    os.remove(path)
    if invariants:
        with open(os.path.join(folder, "Invariants.antt"), "w", encoding="utf-8") as f:
            f.write("\n".join(comment + uses + [f"use {module}.Given as goal", ""]) + "\n" + "\n\n".join("\n".join(n + [b]) for n, b in invariants) + "\n")
    needs = [o for k, o in answers if k == "need"]
    if needs:
        with open(os.path.join(folder, "Answers.antt"), "w", encoding="utf-8") as f:
            kept = [f"use {module}.Invariants.{{{', '.join(shared)}}}"] if shared else []
            f.write("\n".join(([] if invariants else comment) + uses + kept + [f"use {module}.Goals as goal", ""]) + "\n" + "\n\n".join(out) + "\n")
    if not os.listdir(folder):
        os.removedirs(folder)
    return None


def main(crates):
    top = subprocess.run(["git", "rev-parse", "--show-toplevel"], capture_output=True, text=True, check=True).stdout.strip()
    for crate in crates:
        root = os.path.join(top, "crates", crate)
        with tempfile.TemporaryDirectory() as made:
            r = subprocess.run(["rt", "check", "--generated", made, "--old-names"], cwd=root, capture_output=True, text=True)
            try:
                with open(os.path.join(made, "names.json"), encoding="utf-8") as f:
                    tables = json.load(f)
            except OSError:
                print(f"{crate}: rt gives no names: {r.stdout[-300:]}{r.stderr[-600:]}")
                continue
        for key, table in sorted(tables.items()):
            if not key.endswith(".Lts"):
                continue
            module = key[: -len(".Lts")].replace("Rattle-", "Rattle.", 1).replace(f"-{'proofs'}", ".proofs", 1)
            inside = module.split(".proofs.", 1)[1].split(".")
            path = os.path.join(root, "proofs", *inside, "Proof.antt")
            if os.path.exists(path):
                try:
                    said = turn(path, module, table)
                except Exception as e:  # noqa: BLE001, a file that is not told stays
                    said = f"{path}: {type(e).__name__} {e}"
                if said:
                    print(said)
    return 0


if __name__ == "__main__":
    sys.exit(main(sys.argv[1:]))
