#!/usr/bin/env python3
"""Long signatures and what repeats in them: long-signatures.py [TREE] [--most 12] [--times 3] [--lines]
Prints the functions with more than 12 parameters; the groups of three or more parameters (the same names and types) that stand in three or more
functions; and the facts, that is the parts of a requires or ensures clause between its ×, that stand in three or more functions. The groups are
taken greedily: the one that covers most parameters first, then again over what it leaves. --lines: a line for each function of a group or fact."""

import os
import re
import sys

sys.dont_write_bytecode = True
sys.path.insert(0, os.path.dirname(os.path.abspath(__file__)))
from sources import conjuncts, read_all  # noqa: E402


def parameters(f):
    """Name and type of each, self left out; a lent list counts the same as & and as &mut only where it is written so."""
    return [re.sub(r"^mut ", "", p) for p in f.params if not re.fullmatch(r"(&\s*(mut\s+)?)?(mut )?self", p)]


def long_ones(functions, most):
    return [f for f in functions if len(f.params) > most]


def groups(functions, times, least=3):
    left = {id(f): frozenset(parameters(f)) for f in functions}
    by = {id(f): f for f in functions}
    out = []
    while True:
        sets = {s for s in left.values() if len(s) >= least}
        closed = set(sets)
        fresh = set(sets)
        while fresh:
            made = set()
            for a in fresh:
                for b in sets:
                    c = a & b
                    if len(c) >= least and c not in closed:
                        made.add(c)
            closed |= made
            fresh = made
        best, worth, who = None, 0, []
        for c in sorted(closed, key=sorted):
            fs = [k for k, s in left.items() if c <= s]
            if len(fs) >= times and (len(c) - 1) * len(fs) > worth:
                best, worth, who = c, (len(c) - 1) * len(fs), fs
        if best is None:
            return out
        order = [p for p in parameters(by[who[0]]) if p in best]
        out.append((order, [by[k] for k in who]))
        for k in who:
            left[k] = left[k] - best


def facts(functions, times, kinds=("requires", "ensures")):
    found = {}
    for f in functions:
        for kind, _, text in f.clauses:
            if kind in kinds:
                for c in conjuncts(text):
                    if "result ≡" in c or c.startswith("result"):
                        continue
                    at = found.setdefault((kind, c), [])
                    if f not in at:
                        at.append(f)
    return sorted(((k, c, fs) for (k, c), fs in found.items() if len(fs) >= times), key=lambda r: (-len(r[2]), r[0], r[1]))


def main(argv):
    number = lambda flag, d: int(argv[argv.index(flag) + 1]) if flag in argv else d  # noqa: E731
    most, times = number("--most", 12), number("--times", 3)
    names = [a for i, a in enumerate(argv) if not a.startswith("--") and (i == 0 or argv[i - 1] not in ("--most", "--times"))]
    root = os.path.abspath(names[0] if names else os.path.join(os.path.dirname(os.path.abspath(__file__)), ".."))
    functions = read_all(root)[0]
    found = long_ones(functions, most)
    print(f"{len(found)} functions with more than {most} parameters")
    for f in found:
        print(f"  {f.crate} {f.file}:{f.line} {f.name} ({len(f.params)})")
    sets = groups(functions, times)
    print(f"{len(sets)} groups of three or more parameters in {times} or more functions")
    for n, (c, fs) in enumerate(sets, 1):
        print(f"  group {n}: {len(c)} parameters in {len(fs)} functions: {', '.join(c)}")
        for f in fs if "--lines" in argv else []:
            print(f"    {f.crate} {f.file}:{f.line} {f.name}")
    told = facts(functions, times)
    print(f"{len(told)} facts in the contracts of {times} or more functions")
    for n, (k, c, fs) in enumerate(told, 1):
        print(f"  fact {n}: in {len(fs)} functions, {k}: {c}")
        for f in fs if "--lines" in argv else []:
            print(f"    {f.crate} {f.file}:{f.line} {f.name}")
    return 0


if __name__ == "__main__":
    sys.exit(main(sys.argv[1:]))
