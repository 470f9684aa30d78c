#!/usr/bin/env python3
"""Functions and types that differ only in a type, a size, a constant or a name: twins.py [TREE] [--groups] [--like 0.85]
A function is reduced to its signature and body (no clauses, no comments): number types become T, numbers N, its own name F, and one-letter names x.
Two are twins where both the whole and the body are alike by difflib's ratio over tokens (0.85 or more), and have at least 30 tokens (the body 12);
shorter ones are where all is the same, one-letter names told apart by their order.
Two types are twins where their fields or variants have the same shape. Prints a pair a line, or with --groups the groups."""

import difflib
import os
import re
import sys

sys.dont_write_bytecode = True
sys.path.insert(0, os.path.dirname(os.path.abspath(__file__)))
from sources import read_all  # noqa: E402

NUMBER = {"u8", "u16", "u32", "u64", "u128", "usize", "i8", "i16", "i32", "i64", "i128", "isize", "f32", "f64"}


def tokens(text, own, apart=None):
    """With apart, a table, one-letter names are told apart by the order in which they come."""
    got = []
    for w in re.findall(r"[A-Za-z_][A-Za-z0-9_]*|\d[\w.]*|->|=>|::|==|!=|<=|>=|&&|\|\||<<|>>|\S", text):
        if w in NUMBER:
            got.append("T")
        elif re.match(r"\d", w) or w in ("true", "false"):
            got.append("N")
        elif w == own:
            got.append("F")
        elif re.fullmatch(r"[A-Za-z_]", w):
            got.append("x" if apart is None else "x" + str(apart.setdefault(w, len(apart))))
        else:
            got.append(w)
    return got


def alike(a, b, least):
    m = difflib.SequenceMatcher(None, a, b, autojunk=False)
    if m.real_quick_ratio() < least or m.quick_ratio() < least:
        return 0.0
    return m.ratio()


def function_pairs(functions, least):
    rows, short = [], {}
    for f in functions:
        body = tokens(f.body, f.short)
        sign = tokens(",".join(f.params) + f.result, f.short)
        if len(body) >= 12 and len(body) + len(sign) >= 30:
            rows.append((f, sign + body, body))
        elif len(body) >= 5:
            short.setdefault(" ".join(tokens(",".join(f.params) + f.result + f.body, f.short, {})), []).append(f)
    for same in short.values():
        for i, f in enumerate(same):
            for g in same[i + 1 :]:
                yield f, g, 1.0
    for i, (f, whole, body) in enumerate(rows):
        for g, whole2, body2 in rows[i + 1 :]:
            r = alike(body, body2, least)
            if r >= least:
                r2 = alike(whole, whole2, least)
                if r2 >= least:
                    yield f, g, min(r, r2)


def shape(y):
    if y.word == "enum":
        return "enum " + " ".join(sorted("value" if "(" in v or "{" in v else "bare" for v in y.fields))
    if all(":" not in v for v in y.fields):
        return "struct (" + ", ".join(re.sub(r"\bpub\b", "", v).strip() for v in y.fields) + ")"
    return "struct " + ", ".join(re.sub(r"\bpub\b", "", v).strip() for v in y.fields)


def type_pairs(types):
    for i, y in enumerate(types):
        for z in types[i + 1 :]:
            if y.word != z.word or y.word == "trait" or not y.fields:
                continue
            a, b = shape(y), shape(z)
            if a == b and not (y.word == "enum" and len(y.fields) > 2):
                yield y, z, 1.0
            elif y.word == "struct" and y.name == z.name and y.crate != z.crate:
                yield y, z, difflib.SequenceMatcher(None, a, b).ratio()


def pairs(root, least=0.85):
    functions, types, _, _ = read_all(root)
    return list(function_pairs(functions, least)), list(type_pairs(types))


def groups(found):
    parent, item = {}, {}

    def top(k):
        while parent[k] != k:
            k = parent[k]
        return k

    for a, b, _ in found:
        for x in (a, b):
            k = (x.file, x.line, x.name)
            parent.setdefault(k, k)
            item[k] = x
        parent[top((a.file, a.line, a.name))] = top((b.file, b.line, b.name))
    out = {}
    for k in sorted(item):
        out.setdefault(top(k), []).append(item[k])
    return sorted(out.values(), key=lambda g: (g[0].file, g[0].line))


def main(argv):
    least = float(argv[argv.index("--like") + 1]) if "--like" in argv else 0.85
    names = [a for i, a in enumerate(argv) if not a.startswith("--") and (i == 0 or argv[i - 1] != "--like")]
    root = os.path.abspath(names[0] if names else os.path.join(os.path.dirname(os.path.abspath(__file__)), ".."))
    for kind, found in zip(("functions", "types"), pairs(root, least)):
        if "--groups" in argv:
            for n, g in enumerate(groups(found), 1):
                print(f"{kind} group {n}: " + ", ".join(f"{x.crate} {x.name} ({x.file.split('/src/')[1]}:{x.line})" for x in g))
        else:
            for a, b, r in found:
                print(f"{kind} {a.crate} {a.file}:{a.line} {a.name} = {b.crate} {b.file}:{b.line} {b.name} {100 * r:.0f} %")
    return 0


if __name__ == "__main__":
    sys.exit(main(sys.argv[1:]))
