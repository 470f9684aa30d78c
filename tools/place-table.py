#!/usr/bin/env python3
"""Turns the lines of design-pass.sh into the table of docs/DESIGN-PASS.md:
    tools/design-pass.sh OLD | tools/place-table.py                          the places, with an empty last column
    tools/design-pass.sh OLD | tools/place-table.py --now FILE [--summary | --more]
FILE has the lines of design-pass.sh for the tree as it is.
With --now the last column says of each row whether it is found no more, is kept with the reason that a comment of the place gives, or is still to do;
--summary prints the rows' counts instead, and --more the rows of FILE that OLD hasn't. A place is found again by point, crate and name, the type before
a method's name left out; one that has another name counts as changed, and stands among the rows of --more. A row is a function, type, constant or loop
with all that was found there; in points 2 and 5 also a group or a fact, in point 8 a crate."""

import collections
import re
import sys


def short(file):
    return re.sub(r"^crates/[^/]+/src/", "", file)


def last(name):
    return name.split("::")[-1]


class Rows:
    def __init__(self, lines):
        self.single = collections.OrderedDict()  # (point, crate, file, name, nth) -> [line, findings, reason]
        self.groups = collections.OrderedDict()  # (point, word, number, size, text) -> members
        self.proofs = collections.OrderedDict()
        nth = collections.Counter()
        for line in lines:
            m = re.match(r"(\d) (\S+) (\S+?):(\d+) (\S+) \| (.*?)(?: \| kept: (.*))?$", line.rstrip("\n"))
            if not m:
                continue
            point, crate, file, at, name, what, kept = m.groups()
            if point == "8":
                self.proof(crate, file, what)
                continue
            member = (crate, short(file), at, name, kept or "")
            if point == "2":
                g = re.match(r"(functions|types) group (\d+)", what)
                self.groups.setdefault((point, g[1], int(g[2]), "", ""), []).append(member)
                continue
            if point == "5" and (g := re.match(r"(group|fact) (\d+) (?:of (\d+ parameters) )?in (\d+) functions[:,] (.*)$", what)):
                self.groups.setdefault((point, g[1], int(g[2]), g[3] or "", g[5]), []).append(member)
                continue
            base = name.split("(")[0]
            inside = name[len(base) :].strip("()")
            n = 0
            if point == "3":
                n = nth[crate, file, name]
                nth[crate, file, name] += 1
            row = self.single.setdefault((point, crate, short(file), base, n), [at, [], ""])
            row[1].append((inside + ": " if inside else "") + what)
            row[2] = kept or row[2]

    def proof(self, crate, file, what):
        kinds = self.proofs.setdefault(crate, collections.Counter())
        if what.startswith("an answer written"):
            kinds["answers"] += 1
            kinds["file", file] = 1
        elif what.startswith("a helper"):
            kinds["helpers"] += 1
        elif what.startswith("a file"):
            kinds["lemmas"] += int(re.search(r", (\d+) of", what)[1])
            kinds["lemma files"] += 1
        elif what.startswith("the same"):
            kinds["same"] += 1
        else:
            kinds["words"] += 1

    def proof_text(self, crate):
        k = self.proofs.get(crate)
        if k is None:
            return "no answer or lemma file is left"
        n = sum(1 for x in k if isinstance(x, tuple))
        told = [f"{k['answers']} answers in {n} files"]
        if k["helpers"]:
            told.append(f"{k['helpers']} helper lemmas among them")
        if k["lemma files"]:
            told.append(f"{k['lemmas']} lemmas in {k['lemma files']} files")
        if k["same"]:
            told.append(f"{k['same']} lemmas with the statement of another")
        if k["words"]:
            told.append(f"{k['words']} answers that stand word for word in three or more places")
        return "; ".join(told)


def row_text(key, at, what):
    point, crate, file, name, _ = key
    merged = collections.OrderedDict()
    for w in what:
        n = re.match(r"(\w+): (a parameter that holds .*)$", w)
        merged.setdefault(n[2] if n else w, []).append(n[1] if n else "")
    told = "; ".join(", ".join(x for x in v if x) + (": " if any(v) else "") + k for k, v in merged.items())
    return f"`{name}` ({file}:{at}): {told.replace('|', '/')}"


def group_text(key, members):
    point, word, number, size, text = key
    if point == "2":
        names = ", ".join(f"`{m[3]}` ({m[0]} {m[1]}:{m[2]})" for m in members)
        return f"twin {word}, group {number}: {names}"
    names = ", ".join(f"`{m[3]}` ({m[0]})" for m in members)
    if word == "group":
        return f"group {number}, {size} in {len(members)} functions: `{text}` of {names}"
    kind, fact = text.split(": ", 1)
    return f"fact {number}, {kind} of {len(members)} functions: `{fact.replace('|', '/')}` of {names}"


def single_now(key, new):
    """The same place by point, crate and name, wherever its file; for a loop by its number in the function."""
    for other, row in new.single.items():
        if (other[0], other[1], last(other[3]), other[4]) == (key[0], key[1], last(key[3]), key[4]):
            return ("kept", row[2]) if row[2] else ("to do", f"still found ({other[2]}:{row[0]})")
    return ("changed", "")


def group_now(key, members, new):
    names = {(m[0], last(m[3])) for m in members}
    left, reasons = [], []
    for other, found in new.groups.items():
        if other[:2] != key[:2]:
            continue
        if key[0] == "5" and key[1] == "fact" and other[4] != key[4]:
            continue
        if key[0] == "5" and key[1] == "group" and len(set(key[4].split(", ")) & set(other[4].split(", "))) < 3:
            continue
        mine = [m for m in found if (m[0], last(m[3])) in names]
        if len(mine) >= (2 if key[0] == "2" else 3):
            left += mine
            reasons += [m[4] for m in mine if m[4]]
    if not left:
        return ("changed", "")
    if all(m[4] for m in left):
        return ("kept", "; ".join(dict.fromkeys(reasons)))
    return ("to do", "still " + ", ".join(dict.fromkeys(f"`{m[3]}` ({m[0]} {m[1]}:{m[2]})" for m in left)))


def main(argv):
    old = Rows(sys.stdin)
    new = None
    if "--now" in argv:
        with open(argv[argv.index("--now") + 1], encoding="utf-8") as f:
            new = Rows(f)
    if "--more" in argv and new:
        old, new = new, old
        old.single = {k: v for k, v in old.single.items() if single_now(k, new)[0] == "changed"}
        old.groups = {k: v for k, v in old.groups.items() if group_now(k, v, new)[0] == "changed"}
        old.proofs = {}
    more = "--more" in argv
    counts = collections.defaultdict(collections.Counter)

    def line(point, crates, text, now):
        state, told = now
        counts[point]["found"] += 1
        counts[point][state] += 1
        if "--summary" not in argv:
            last = {"": "", "changed": "changed", "kept": "kept: " + told, "to do": "to do: " + told, "proofs": told}[state]
            print(f"| {point} | {crates} | {text} | {last.replace('|', '/')} |".replace("|  |", "| |"))

    if "--summary" not in argv:
        print("| point | crate | place | now |")
        print("|---|---|---|---|")
    for p in "1234567":
        for key, (at, what, kept) in old.single.items():
            if key[0] == p:
                now = (("kept", kept) if kept else ("to do", "new")) if more else single_now(key, new) if new else ("", "")
                line(p, f"`{key[1]}`", row_text(key, at, what), now)
        for key, members in old.groups.items():
            if key[0] == p:
                crates = ", ".join(f"`{c}`" for c in dict.fromkeys(m[0] for m in members))
                reasons = "; ".join(dict.fromkeys(m[4] for m in members))
                now = (("kept", reasons) if all(m[4] for m in members) else ("to do", "new")) if more else group_now(key, members, new) if new else ("", "")
                line(p, crates, group_text(key, members), now)
    for crate in old.proofs:
        line("8", f"`{crate}`", old.proof_text(crate), ("proofs", new.proof_text(crate)) if new else ("", ""))
    if "--summary" in argv:
        print("| point | found | changed | kept with a reason | still to do |")
        print("|---|---|---|---|---|")
        for p in "12345678":
            c = counts[p]
            print(f"| {p} | {c['found']} | {c['changed']} | {c['kept']} | {c['to do']} |")
    return 0


if __name__ == "__main__":
    sys.exit(main(sys.argv[1:]))
