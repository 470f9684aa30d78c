#!/usr/bin/env python3
"""The places of docs/DESIGN-PASS.md, a line each: places.py TREE POINT, with POINT from 1 to 8.
    POINT crate file:line name | what was found there | kept: the reason, where a comment of the place gives one so
By text alone, so a line says where to look and not that the place is wrong."""

import os
import re
import sys

sys.dont_write_bytecode = True
sys.path.insert(0, os.path.dirname(os.path.abspath(__file__)))
from sources import antt_files, blank, closing, conjuncts, crates_of, files, flat, is_answers, read_all, read_antt, split_top, text_of  # noqa: E402

NUMBER = r"(?:u8|u16|u32|u64|usize)"
# names under which the sources hold a kind, a type, a stop, an answer's number, a table's number or a number that may be none
KINDS = ("kind", "item_kind", "join_type", "stop", "lead", "chosen", "answer", "table", "lead_kind")


def say(point, x, what, name=None, line=None):
    kept = f" | kept: {x.kept}" if x.kept else ""
    print(f"{point} {x.crate} {x.file}:{line or x.line} {name or x.name} | {what}{kept}")


def say_constant(point, c, what):
    print(f"{point} {c[0]} {c[1]}:{c[2]} {c[3]} | {what}" + (f" | kept: {c[7]}" if c[7] else ""))


def arms(body, start):
    """The arms of the match whose bracket opens at start: pattern and value."""
    inside = body[start + 1 : closing(body, start) - 1]
    out = []
    for a in split_top(inside, ","):
        # an arm with a block may stand before the next one without a comma
        m = re.match(r"(.*?)=>(.*)$", a, re.S)
        if m:
            out.append((flat(m[1]), flat(m[2])))
    return out


def matches(f):
    for m in re.finditer(r"\bmatch\s+([^{]+?)\s*\{", f.body):
        yield m[1].strip(), arms(f.body, m.end() - 1)


def whiles(f):
    for m in re.finditer(r"\bwhile\b", f.body):
        i = m.end()
        while i < len(f.body) and f.body[i] != "{":
            i = closing(f.body, i) if f.body[i] in "([" else i + 1
        line = f.body_line + f.body.count("\n", 0, m.start())
        yield line, flat(f.body[m.end() : i]), f.body[i : closing(f.body, i)]


def indexed_fors(f):
    """The `for`s over a range of numbers whose number is the whole index of a list in their body."""
    for m in re.finditer(r"\bfor (\w+) in ([^{;]*\.\.[^{;]*?)\s*\{", f.body):
        inside = f.body[m.end() - 1 : closing(f.body, m.end() - 1)]
        if re.search(r"\w\[" + m[1] + r"(?: as usize)?\]|\bat\([\w.]+, " + m[1] + r", ", inside):
            yield f.body_line + f.body.count("\n", 0, m.start()), m[1], flat(m[2])


# ---- 1: enums of the shape of Option or Result, flags beside values, numbers for kinds and refusals


def point1(functions, types, consts, impls, root):
    whole = " ".join(f.sign for f in functions) + " ".join(y.text for y in types)
    for crate in crates_of(root):
        for p in files(root, crate, "src", ".rt"):
            whole += " ".join(re.findall(r"\btype \w+(?:<[^>]*>)? = [^;]+;", blank(text_of(p))))
    for y in types:
        if y.word != "enum":
            continue
        errors = re.search(r"Result<(?:[^<>]|<[^<>]*>)*,\s*(?:\w+::)*" + y.name + r"\s*>", whole)
        valued = [v for v in y.fields if "(" in v or "{" in v]
        if errors or not valued:
            continue
        if len(y.fields) == 2:
            say(1, y, "enum of the shape of " + ("Option" if len(valued) == 1 else "Result") + ": " + ", ".join(y.fields), y.name)
        elif len(valued) == 1:
            say(1, y, "enum of a value or one of several refusals: " + ", ".join(y.fields), y.name)
        else:
            say(1, y, "enum of several values, one with none: " + ", ".join(y.fields), y.name)
    bodies = [f.body for f in functions]
    for c in consts:
        name, ty, value = c[3:6]
        short = name.split("::")[-1]
        used = re.compile(r"[\w)]\s*(?:==|!=)\s*(?:\w+::)*" + short + r"\b|\b(?:\w+::)*" + short + r"\s*(?:=>|==|!=)|=>\s*(?:\w+::)*" + short + r"\b")
        if re.fullmatch(NUMBER, ty) and any(used.search(b) for b in bodies):
            say_constant(1, c, f"a number for a kind, a refusal or none: {ty} = {value}")
    for y in types:
        if y.word != "struct":
            continue
        plain = [f for f in y.fields if not f.startswith("ghost")]
        for f in plain:
            m = re.match(r"(?:pub\s+)?(\w+)\s*:\s*(\w+)$", f)
            if m and m[1] in KINDS and re.fullmatch(NUMBER, m[2]):
                say(1, y, f"a field that holds a kind, a stop or none as {m[2]}", f"{y.name}.{m[1]}")
            if m and m[2] == "bool" and len(plain) > 1:
                say(1, y, "a flag beside values", f"{y.name}.{m[1]}")
    for f in functions:
        for p in f.params:
            m = re.match(r"(?:mut\s+)?(\w+)\s*:\s*(" + NUMBER + r")$", p)
            if not m:
                continue
            told = len(m[1]) == 1 and re.search(r"(?:^|[.;:,] |\b)" + m[1] + r": [^.;]*\b(?:none|types?|kind)\b", f.comment)
            said = len(m[1]) == 1 and re.search(r"\btypes? " + m[1] + r"\b|\btypes " + r"\w, " + m[1] + r"\b|\btypes? numbers\b", f.comment)
            known = m[1] in ("t", "a", "b") and any(re.search(r"\b(?:assoc|l_asscom|r_asscom|asked|Says|Widened\w*|with_record|sides_for|by_inner|by_other)\b.*\b" + m[1] + r"\b", c[2]) for c in f.clauses) and m[2] == "u32"
            kinds = "kind" in f.short and len(m[1]) == 1 and m[2] == "u32"
            if m[1] == "table" and "entries" in f.comment:
                continue
            if m[1] in KINDS or told or said or known or kinds:
                say(1, f, f"a parameter that holds a kind, a type, a stop or none as {m[2]}", f"{f.name}({m[1]})")
        alone = r"|\bk" if "kind" in f.short else ""
        if re.search(r"(?:\b\w*kind\w*(?:\([^()]*\))?|\bstop|\btable|\bjoin_type" + alone + r")\s*(?:==|!=|<|>)\s*\d|\d\s*<\s*\w*kind\b", f.body):
            say(1, f, "compares a kind or a stop with a literal number")
        for on, got in matches(f):
            if got and re.search(r"kind|table|type|stop", on) and sum(bool(re.match(r"\d", p)) for p, _ in got) >= 1:
                say(1, f, f"a match of numbers that are kinds: match {on}")
        if re.search(r"(?:^|[;,.] )(?:0|64|no bytes|none) (?:where|past|for)\b|, and (?:0|64) (?:past|for)\b", f.comment + " "):
            say(1, f, "a number (or no bytes) that stands for none, by its comment")


# ---- 2: twins.py


def point2(functions, types, consts, impls, root):
    import twins

    for kind, found in zip(("functions", "types"), twins.pairs(root)):
        for n, g in enumerate(twins.groups(found), 1):
            for x in g:
                others = ", ".join(f"{y.crate} {y.name}" for y in g if y is not x)
                say(2, x, f"{kind} group {n}, with {others}")


# ---- 3: loops that count by hand


def point3(functions, types, consts, impls, root):
    for f in functions:
        for line, test, body in whiles(f):
            steps = re.findall(r"\b(\w+)\s*(\+=|-=)\s*(\w+)\s*;|\b(\w+)\s*=\s*\4\s*([+-])\s*(\w+)\s*;", body)
            for a, _, by, b, _, by2 in steps:
                v, by = a or b, by or by2
                if re.search(r"\b" + v + r"\b", test) and re.fullmatch(r"\d+", by):
                    say(3, f, f"while {test}: steps {v} by {by}", line=line)
                    break
            else:
                for a, _, by, b, _, by2 in steps:
                    v, by = a or b, by or by2
                    if re.fullmatch(r"\d+", by) and re.search(r"\[[^\]]*\b" + v + r"\b", body):
                        say(3, f, f"while {test}: steps the index {v} by {by}", line=line)
                        break
        for line, v, over in indexed_fors(f):
            say(3, f, f"for {v} in {over}: {v} is an index", line=line)


# ---- 4: equality, order, copying, conversion and printing by hand


def point4(functions, types, consts, impls, root):
    for f in functions:
        body = flat(f.body)
        for on, got in matches(f):
            to = [v for _, v in got if re.fullmatch(r"\d+|(?:\w+::)*[A-Z][A-Z_]+|\w+\.0|\w+\.number\(\)", v)]
            if " for " in f.of:
                continue
            if len(got) >= 2 and len(to) == len(got):
                say(4, f, "an enum turned to a number by match")
            elif len(got) >= 2 and all(re.match(r"[\d_|. ]+$", p) for p, _ in got) and all(re.match(r"(?:\w+::)+[A-Z]\w*$", v) for _, v in got):
                say(4, f, "a number turned to an enum by match")
            elif len(got) == 2 and all(re.match(r"(?:\w+::)+[A-Z]\w*\(\w+\)$", p) for p, _ in got) and all(re.match(r"(?:\w+::)+[A-Z]\w*\(", v) or "(" in v for _, v in got) and any(re.match(r"(?:\w+::)+[A-Z]\w*\(", v) for _, v in got):
                say(4, f, "one enum's refusal turned to another's by match")
        if re.fullmatch(r"\{ \w+ as \w+ \}", body):
            say(4, f, "a conversion by a function of its own: " + body)
        if re.search(r"\b(?:256|65536|16777216|4294967296)\s*\*|\*\s*(?:256|65536|16777216|4294967296)\b|/\s*4294967296\b", body) and not re.search(r"\[0; ", body):
            say(4, f, "bytes or halves put together by hand")
        m = re.search(r"if (?:\(?([\w.]+)(?: as \w+)?\)?) [<>] (?:\(?([\w.:]+)(?: as \w+)?\)?) \{ ([\w.:]+)(?: as \w+)? \} else \{ ([\w.:]+)(?: as \w+)? \}", body)
        if m and {m[1], m[2]} == {m[3], m[4]}:
            say(4, f, "the lesser or greater of two by hand")
        elif re.search(r"if (?:\(?([\w.]+)(?: as \w+)?\)?) [<>] (\w+) \{ \2 = \(?\1", body):
            say(4, f, "the lesser or greater of two by hand")
        if len(re.findall(r"\bprint_number\(", body)) + len(re.findall(r"\.(?:print|write_all)\(", body)) >= 3:
            say(4, f, "printing part by part")
        copied = re.findall(r"\b(\w+): self\.\1\b", body)
        if len(set(copied)) >= 2:
            say(4, f, "copies fields one by one: " + ", ".join(sorted(set(copied))))
        if len(re.findall(r"if [^{]*!=[^{]*\{ return false; \}", body)) >= 3:
            say(4, f, "equality field by field")


# ---- 5: long-signatures.py


def load(name):
    import importlib.util

    spec = importlib.util.spec_from_file_location(name.replace("-", "_"), os.path.join(os.path.dirname(os.path.abspath(__file__)), name + ".py"))
    m = importlib.util.module_from_spec(spec)
    spec.loader.exec_module(m)
    return m


def point5(functions, types, consts, impls, root):
    long = load("long-signatures")
    for f in long.long_ones(functions, 12):
        say(5, f, f"{len(f.params)} parameters")
    for n, (c, fs) in enumerate(long.groups(functions, 3), 1):
        for f in fs:
            say(5, f, f"group {n} of {len(c)} parameters in {len(fs)} functions: " + ", ".join(p.split(":")[0] for p in c))
    for n, (k, c, fs) in enumerate(long.facts(functions, 3), 1):
        for f in fs:
            say(5, f, f"fact {n} in {len(fs)} functions, {k}: {c}")


# ---- 6: buffers with a length beside them, parallel arrays, sections of one array


def point6(functions, types, consts, impls, root):
    for f in functions:
        slices = [re.match(r"(?:mut )?(\w+)\s*:\s*&\s*(?:'\w+\s+)?(?:mut\s+)?\[", p) for p in f.params]
        slices = [m[1] for m in slices if m]
        counts = [re.match(r"(?:mut )?(\w+)\s*:\s*(?:usize|u32|u64)$", p) for p in f.params]
        counts = [m[1] for m in counts if m]
        beside = {}
        for kind, _, text in f.clauses:
            for n in counts:
                for c in conjuncts(text) if kind == "requires" else []:
                    for s in slices:
                        if re.search(r"(?<![\w.])" + n + r" ≤ length \(?" + s + r"\.(?:now|old)", c):
                            beside.setdefault(n, []).append(s)
                    # a fact such as Held n left.now right.now, where the number stands straight before the lists
                    for m in re.finditer(r"(?<![\w.])(?:\(" + n + r" \+ \d+\)|" + n + r")(?: \w+)?\)?(?: \(\w+)? ((?:\w+\.(?:now|old) ?)+)", c):
                        if re.match(r"[A-Z(]", c):
                            beside.setdefault(n, []).extend(w.split(".")[0] for w in m[1].split() if w.split(".")[0] in slices)
                for s in slices:
                    if re.search(r"\btake " + n + " " + s + r"\.(?:now|old)", text):
                        beside.setdefault(n, []).append(s)
        for n, ss in beside.items():
            ss = list(dict.fromkeys(ss))
            if not ss:
                continue
            say(6, f, f"{n} says how many places of {', '.join(ss)} count", f"{f.name}({n})")
        lists = [p for p in f.params if re.search(r":\s*&\s*(?:'\w+\s+)?(?:mut\s+)?\[(?!u8\])", p)]
        if len(lists) >= 2:
            say(6, f, f"{len(lists)} parallel lists: " + ", ".join(p.split(":")[0].replace("mut ", "") for p in lists))
        arrays = re.findall(r"let mut (\w+) = \[[^;\]]+;\s*(\w+)\]", f.body)
        sizes = {}
        for a, n in arrays:
            sizes.setdefault(n, []).append(a)
        for n, names in sizes.items():
            if len(names) >= 2:
                say(6, f, f"{len(names)} parallel arrays of {n} places: " + ", ".join(names))
        if re.search(r"\[(?:\w+::)*[A-Z][A-Z_]+ \+ \w+\]|\[(?:(?:\w+::)*[A-Z][A-Z_]+|\d+)\.\.(?:\w+::)*[A-Z][A-Z_]+\]", f.body):
            say(6, f, "reads or writes a section of one list by a constant")
    for y in types:
        if y.word != "struct":
            continue
        lists = [v for v in y.fields if re.search(r":\s*(?:&[^\[]*)?\[", v) and not v.startswith("ghost")]
        counts = [v for v in y.fields if re.search(r"\b(?:count|len|length|n|used)\s*:\s*(?:usize|u32)\b", v)]
        if lists and counts:
            say(6, y, "an array with a count beside it: " + ", ".join(v.replace("pub ", "") for v in lists + counts), y.name)
        elif len(lists) >= 2:
            say(6, y, f"{len(lists)} parallel lists in one type: " + ", ".join(re.sub(r"^pub ", "", v).split(":")[0] for v in lists), y.name)
    for c in consts:
        name, ty, value = c[3:6]
        if re.search(r"\[" + r"(?:\w+::)*" + name.split("::")[-1] + r" \+ |\[" + r"(?:\w+::)*" + name.split("::")[-1] + r"\.\.|\.\.(?:\w+::)*" + name.split("::")[-1] + r"\]", " ".join(f.body for f in functions)):
            say_constant(6, c, f"where a section of one list begins: {value}")


# ---- 7: a switch on which step to run, tables of functions


def point7(functions, types, consts, impls, root):
    for f in functions:
        for on, got in matches(f):
            calls = [v for p, v in got if re.match(r"[\d_]", p) and re.search(r"\b[a-z]\w*\(", v)]
            if len(calls) >= 2 and any(re.match(r"\d", p) for p, _ in got):
                say(7, f, f"a switch on a number whose arms call: match {on}")
        if len(re.findall(r"else if \w+ == \d+", f.body)) >= 2:
            say(7, f, "a chain of tests of one number")
        if re.search(r"\bfn\(|\bdyn\b", f.sign):
            say(7, f, "takes a function pointer or a dyn value")
    for c in consts:
        ty = c[4]
        if "fn(" in ty or re.match(r"\[\[", ty):
            say_constant(7, c, f"a table by number: {ty}")


# ---- 8: proofs


def point8(functions, types, consts, impls, root):
    lemmas, same = {}, {}
    for crate in crates_of(root):
        for p in antt_files(root, crate):
            rel = os.path.relpath(p, root)
            base = os.path.basename(p)
            decls = read_antt(root, crate, p)
            goals = [d for d in decls if re.search(r": goal\.", d.statement)]
            if "/proofs/" in p and base == "Answers.antt":
                for d in goals:
                    print(f"8 {crate} {rel}:{d.line} {d.name} | an answer written by hand")
                for d in decls:
                    if d not in goals:
                        print(f"8 {crate} {rel}:{d.line} {d.name} | a helper lemma in a file of answers")
                for d in goals:
                    body = flat(" ".join(d.rows[d.typed :]))
                    body = re.sub(r"^(?:unfolding .*? )?" + re.escape(d.name), "", body)
                    same.setdefault(body, []).append((crate, rel, d))
            elif base == "Invariants.antt" and "/proofs/" in p:
                pass
            elif "/proofs/" in p and base != "Lib.antt":
                theorems = [d for d in decls if not d.kind and not {"abbrev", "unfoldable"} & set(d.words)]
                print(f"8 {crate} {rel}:1 {base[:-5]} | a file of lemmas, {len(theorems)} of them")
                for d in theorems:
                    lemmas.setdefault(flat(re.sub(r"^(?:.*?\bpub )?" + re.escape(d.name) + r" :", "", d.statement)), []).append((crate, rel, d))
            elif "/specs/" in p:
                for d in decls:
                    if not d.kind and not {"abbrev", "unfoldable"} & set(d.words):
                        lemmas.setdefault(flat(re.sub(r"^(?:.*?\bpub )?" + re.escape(d.name) + r" :", "", d.statement)), []).append((crate, rel, d))
    for statement, at in lemmas.items():
        if len(at) >= 2 and len(statement) > 12:
            for crate, rel, d in at:
                others = ", ".join(f"{c} {e.name}" for c, _, e in at if e is not d)
                print(f"8 {crate} {rel}:{d.line} {d.name} | the same statement as {others}")
    for body, at in same.items():
        if len(at) >= 3 and len(body) > 40:
            for crate, rel, d in at:
                print(f"8 {crate} {rel}:{d.line} {d.name} | an answer word for word in {len(at)} places: {body[:80]}")


def main(argv):
    root, point = os.path.abspath(argv[0]), argv[1]
    globals()["point" + point](*read_all(root), root)
    return 0


if __name__ == "__main__":
    sys.exit(main(sys.argv[1:]))
