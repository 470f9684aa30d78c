#!/usr/bin/env python3
"""Counts the places of docs/DESIGN-PASS.md a second way, by plain searches: plain-searches.py [TREE..]
Prints a row for each search with a column for each checkout (else one, for the repository of this script): the searches of points 1 to 7 in
crates/*/src/**/*.rt, those of point 8 in the files Answers.antt of crates/*/proofs. It knows nothing of design-pass.sh, nor of the language."""

import glob
import os
import re
import sys

NUMBER = r"(?:u8|u16|u32|u64|usize)"
KINDS = r"\b(?:kind|stop|lead|chosen|answer|table|join_type)"
BYTES = r"(?:256|65536|16777216|4294967296)"
UNCLAUSED = r"^(?!.*(?:requires|ensures|ghost)).*"
SLICE = r"&(?:'\w+ )?(?:mut )?\["
LENT = r"(?:e?(?:left|right|predicate|source|kind)|p(?:set|left|right|lead|kind|rows|cost)|mset|mplan)"
PLACE = r"([\w.() ]+?)"

# point, what is told of the search, the expression, what is counted: "lines" that match (a use line or a comment is none), or "hits" in them
SEARCHES = [
    ("1", "`enum`", r"\benum ", "lines"),
    ("1", "fields and parameters called kind, stop, lead, chosen, answer, table or join_type that are numbers", KINDS + ": " + NUMBER + r"\b", "hits"),
    ("1", "lines with NONE, PLANS_FULL, MEMO_FULL or VISITS_SPENT", r"\b(?:NONE|PLANS_FULL|MEMO_FULL|VISITS_SPENT)\b", "lines"),
    ("2", "functions whose names end in a width or an element's name", r"\bfn \w+(?:32|64|_longs|_words|_numbers)\b", "lines"),
    ("3", "`while`", r"\bwhile\b", "lines"),
    ("3", "`+= 1;`, `-= 1;`", r"[+-]= 1;", "lines"),
    ("4", "`if a < b { a } else { b }`", r"\bif " + PLACE + r" [<>] " + PLACE + r" \{\s*" + PLACE + r"\s*\} else \{\s*" + PLACE + r"\s*\}", "the same two"),
    ("4", "bytes multiplied together, `fn wide`, `print_number`", UNCLAUSED + rf"(?:\b{BYTES} ?\*|\* ?{BYTES}\b|\bfn wide\b|\bprint_number\b)", "lines"),
    ("5", "`Placed`, `Held` or `Places` in a clause", r"(?:requires|ensures|ghost \w+:).*\b(?:Placed|Held|Places)\b", "lines"),
    ("5", "one of the fourteen lent lists as a parameter or field of its own", r"\b" + LENT + ": " + SLICE, "hits"),
    ("6", "`≤ length ..` in a clause", r"≤ length\b", "hits"),
    ("6", "first, count, numbers or sets as a slice", r"\b(?:first|count|numbers|sets): " + SLICE, "hits"),
    ("7", "`fn(`, `dyn`", r"\bfn\(|\bdyn\b", "lines"),
    ("8", "answers by hand", r": goal\.", "answers"),
    ("8", "lines in `Answers.antt`", r"", "answer lines"),
]


def texts(root, pattern):
    for path in sorted(glob.glob(os.path.join(root, "crates", "*", pattern), recursive=True)):
        with open(path, encoding="utf-8") as f:
            yield f.read()


def count(root, search, how):
    if how.startswith("answer"):
        lines = [l for t in texts(root, "proofs/**/Answers.antt") for l in t.splitlines()]
        return sum(bool(re.search(search, l)) for l in lines)
    sources = list(texts(root, "src/**/*.rt"))
    if how == "the same two":
        return sum({m[1], m[2]} == {m[3], m[4]} for t in sources for m in re.finditer(search, t))
    lines = [l for t in sources for l in t.splitlines() if not re.match(r"\s*(?:use |pub use |//)", l)]
    hits = [len(re.findall(search, l)) for l in lines]
    return sum(hits) if how == "hits" else sum(bool(n) for n in hits)


def main(argv):
    trees = argv or [os.path.join(os.path.dirname(os.path.abspath(__file__)), "..")]
    for point, told, search, how in SEARCHES:
        print(f"| {point} | {told} | " + " | ".join(str(count(t, search, how)) for t in trees) + " |")
    return 0


if __name__ == "__main__":
    sys.exit(main(sys.argv[1:]))
