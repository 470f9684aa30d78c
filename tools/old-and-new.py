#!/usr/bin/env python3
"""What changed since a commit, old and new side by side: old-and-new.py COMMIT [TREE]
Prints the last section of docs/DESIGN-PASS.md: a table of how many public functions, types, impls of traits, public constants, definitions and
theorems are the same, changed, moved, gone or new, and then for each crate those that are not the same. COMMIT may be a folder too; TREE is the
checkout that is compared with it, else the repository of this script. It reads text alone (sources.py) and proves nothing.

What is compared, by crate and name and with whitespace made equal:
- a public function (methods of traits and their impls among them) by its signature and clauses, a public type by its derives, its fields and its
  ghost fields, a public constant by its type and value, an impl of a trait by its head;
- a definition by its whole text, a theorem by its type, each with the parameters of the modules around it. Of the declarations in .antt files, answers
  left out, a record, a data type, an abbrev, an unfoldable, and what gives a type or data is a definition; all else is a theorem.
One that moved has the same statement in another file, or under another name."""

import collections
import difflib
import io
import os
import re
import subprocess
import sys
import tarfile
import tempfile

sys.dont_write_bytecode = True
HERE = os.path.dirname(os.path.abspath(__file__))
sys.path.insert(0, HERE)
from sources import antt_files, crates_of, flat, is_answers, read_all, read_antt, split_top  # noqa: E402

KINDS = ("Public functions", "Types with their ghost fields", "Impls of traits", "Public constants", "Definitions", "Theorems")
STATES = ("the same", "changed", "moved", "gone", "new")
WIDTH = 150
# results that make a declaration without the word abbrev a definition
DATA = re.compile(r"(?:Type \d+|ℕ|ℤ|Bool|Float|String|(?:List|Option) .*)$")

Item = collections.namedtuple("Item", "kind crate file name lines bare")
Item.__doc__ = """A thing that is compared: lines is its statement as it is printed, a list of lines to be wrapped; bare is the statement without its
name (and for a type without its derives), by which it is found under another name."""
Pair = collections.namedtuple("Pair", "state old new")


# ---- reading a tree


def is_definition(d):
    if d.kind or {"abbrev", "unfoldable"} & set(d.words):
        return True
    typed = re.sub(r"^.*?(?<!\S):(?=\s|$)", "", " ".join(d.rows[: d.typed]), count=1)
    result = split_top(flat(typed), "→")[-1]
    return bool(DATA.match(result)) and not re.search(r"[≡≤<⊥]", result)


def unpublished(text):
    """Without `pub` and `private`: what a module shows is no part of what it says."""
    return re.sub(r"(?<!\S)(?:pub|private) ", "", text)


def declared(root):
    for crate in crates_of(root):
        for path in antt_files(root, crate):
            if is_answers(path):
                continue
            for d in read_antt(root, crate, path):
                definition = is_definition(d)
                text = unpublished(d.text if definition else d.statement)
                bare = re.sub(r"(?<!\S)" + re.escape(d.name) + r"(?!\S)", "_", text)
                yield Item(KINDS[4] if definition else KINDS[5], crate, d.file, d.name, [text], bare)


def items(root):
    functions, types, constants, impls = read_all(root)
    for f in functions:
        if f.pub:
            lines = [f.sign] + [f"{kind}{' ' + name if name else ''} {{ {text} }}" for kind, name, text in f.clauses]
            yield Item(KINDS[0], f.crate, f.file, f.name, lines, "")
    for y in types:
        if y.pub:
            yield Item(KINDS[1], y.crate, y.file, y.name, [y.text], re.sub(r"^#\[derive\([^)]*\)\] ", "", y.text))
    for crate, file, _, head in impls:
        if " for " in head:
            yield Item(KINDS[2], crate, file, head, [head], "")
    for crate, file, _, name, ty, value, public, _ in constants:
        if public:
            yield Item(KINDS[3], crate, file, name, [f"{name}: {ty} = {value}"], "")
    yield from declared(root)


# ---- comparing two trees


def matched(old, new, state, same):
    """Pairs of which same holds, each item in one pair, in the order of old; what is in a pair leaves both lists."""
    pairs = []
    for a in list(old):
        b = next((b for b in new if same(a, b)), None)
        if b is not None:
            old.remove(a)
            new.remove(b)
            pairs.append(Pair(state, a, b))
    return pairs


def alike(x, y):
    return difflib.SequenceMatcher(None, " ".join(x.lines).split(), " ".join(y.lines).split(), autojunk=False).ratio(), x.file == y.file


def compare(old, new):
    """All pairs of one kind, from what binds most to what binds least: statement and file, statement, name; then other crates and other names."""
    groups = collections.defaultdict(lambda: ([], []))
    for side, those in enumerate((old, new)):
        for x in those:
            groups[x.crate, x.name][side].append(x)
    pairs, gone, fresh = [], [], []
    for a, b in groups.values():
        pairs += matched(a, b, "the same", lambda x, y: x.lines == y.lines and x.file == y.file)
        pairs += matched(a, b, "moved", lambda x, y: x.lines == y.lines)
        while a and b:  # a name may stand in several files: the two that are most alike belong together
            x, y = max(((x, y) for x in a for y in b), key=lambda p: alike(*p))
            pairs += matched([x], [y], "changed", lambda x, y: True)
            a.remove(x)
            b.remove(y)
        gone += a
        fresh += b
    pairs += matched(gone, fresh, "moved", lambda x, y: x.name == y.name and x.lines == y.lines)
    pairs += matched(gone, fresh, "moved", lambda x, y: x.bare and x.bare == y.bare and x.crate == y.crate)
    return pairs + [Pair("gone", x, None) for x in gone] + [Pair("new", None, x) for x in fresh]


def pairs_of(old_root, new_root):
    """For each kind its pairs, by crate and name of the old item, or of the new one where there is no old: first, where that name stood before."""
    old, new = list(items(old_root)), list(items(new_root))
    out = {}
    for kind in KINDS:
        before = [x for x in old if x.kind == kind]
        names = {(x.crate, x.name) for x in before}
        found = compare(before, [x for x in new if x.kind == kind])
        key = lambda x: (x.crate, (x.crate, x.name) not in names, x.name)  # noqa: E731
        out[kind] = sorted(found, key=lambda p: key(p.old or p.new))
    return out


# ---- printing


def wrapped(text, first, after):
    """Lines of at most WIDTH signs, broken at blanks."""
    told, rest = [], first + text
    while len(rest) > WIDTH and (at := rest.rfind(" ", len(after) + 1, WIDTH)) > 0:
        told.append(rest[:at])
        rest = after + rest[at + 1 :]
    return told + [rest]


def block(x):
    """The statement in a text block: its first line, and under it the clauses of a function."""
    told = ["```text"] + wrapped(x.lines[0], "", "    ")
    for clause in x.lines[1:]:
        told += wrapped(clause, "    ", "        ")
    return told + ["```", ""]


def derives(x):
    m = re.match(r"#\[derive\(([^)]*)\)\] ", x.lines[0])
    return m[1] if m else "nothing"


def changed(p):
    a, b = p.old, p.new
    place = f"`{a.name}` ({a.file}" + (f", now {b.file})" if a.file != b.file else ")")
    if a.kind == KINDS[1] and a.bare == b.bare:
        return [f"{place}: derives {derives(b)}, where it derived {derives(a)}.", ""]
    return [f"{place} changed:", ""] + block(a) + block(b)


def listed(rows):
    """A line for each head, with the names that stand under it, in their order."""
    heads = collections.OrderedDict()
    for head, name in rows:
        heads.setdefault(head, []).append(name)
    return [f"- {head}: {', '.join(names)}" for head, names in heads.items()] + [""]


def section(kind, pairs):
    by = {state: [p for p in pairs if p.state == state] for state in STATES}
    told = [line for p in by["changed"] for line in changed(p)]
    for p in by["gone"]:
        told += [f"`{p.old.name}` ({p.old.file}) is gone:", ""] + block(p.old)
    if by["moved"]:
        name = lambda p: f"`{p.old.name}`" + (f" (now `{p.new.name}`)" if p.old.name != p.new.name else "")  # noqa: E731
        told += ["Moved, with the same statement:", ""]
        told += listed((f"from {p.old.file} to {p.new.file}" if p.old.file != p.new.file else f"in {p.old.file}", name(p)) for p in by["moved"])
    if by["new"]:
        told += ["New:", ""]
        if kind in (KINDS[2], KINDS[5]):
            told += listed((p.new.file, f"`{p.new.name}`") for p in by["new"])
        else:
            told += [line for p in by["new"] for line in [f"`{p.new.name}` ({p.new.file}):", ""] + block(p.new)]
    return told


def table(all_pairs):
    told = ["| what | before | the same | changed | moved | gone | new |", "|---|---|---|---|---|---|---|"]
    for kind in KINDS:
        n = collections.Counter(p.state for p in all_pairs[kind])
        told.append(f"| {kind} | {sum(n.values()) - n['new']} | " + " | ".join(str(n[s]) for s in STATES) + " |")
    return told + [""]


def page(all_pairs):
    told = ["## What changed, old and new side by side", ""] + table(all_pairs)
    told += [
        "Statements are compared by crate and name, with whitespace made equal; a theorem by its type with the parameters of the modules around it, a",
        "definition by its whole text. One that moved has the same statement in another file, or under another name.",
        "",
    ]
    crate_of = lambda p: (p.old or p.new).crate  # noqa: E731
    differing = {crate_of(p) for pairs in all_pairs.values() for p in pairs if p.state != "the same"}
    for crate in sorted(differing):
        told += [f"### `{crate}`", ""]
        for kind in KINDS:
            lines = section(kind, [p for p in all_pairs[kind] if crate_of(p) == crate])
            told += [f"#### {kind}", ""] + lines if lines else []
    return "\n".join(told).rstrip("\n")


def tree_at(commit, folder):
    """crates/ as it stood at the commit, in the folder."""
    packed = subprocess.run(["git", "-C", os.path.join(HERE, ".."), "archive", commit, "crates"], capture_output=True)
    if packed.returncode:
        sys.exit(f"old-and-new.py: no commit {commit} here: {packed.stderr.decode().strip()}")
    with tarfile.open(fileobj=io.BytesIO(packed.stdout)) as t:
        t.extractall(folder, filter="data")
    return folder


def main(argv):
    if not argv:
        sys.exit(__doc__)
    new = os.path.abspath(argv[1] if len(argv) > 1 else os.path.join(HERE, ".."))
    with tempfile.TemporaryDirectory() as folder:
        old = argv[0] if os.path.isdir(argv[0]) else tree_at(argv[0], folder)
        print(page(pairs_of(os.path.abspath(old), new)))
    return 0


if __name__ == "__main__":
    sys.exit(main(sys.argv[1:]))
