"""Reads the repository's sources by text alone: functions, types and constants of .rt files, declarations of .antt files. The counting scripts
beside it use it; it proves nothing and changes nothing."""

import os
import re

WORD = r"[A-Za-z_][A-Za-z0-9_]*"
SKIPPED = ("out", "target", ".git")


def text_of(path):
    with open(path, encoding="utf-8") as f:
        return f.read()


def flat(s):
    """One line, one blank between words."""
    return re.sub(r"\s+", " ", s).strip()


def blank(t):
    """The text with comments and strings blanked, of the same length."""
    out, i, n = list(t), 0, len(t)
    while i < n:
        j = i
        if t.startswith("//", i):
            j = t.find("\n", i)
            j = n if j < 0 else j
        elif t.startswith("/*", i):
            j = t.find("*/", i)
            j = n if j < 0 else j + 2
        elif t[i] == '"':
            j = i + 1
            while j < n and t[j] != '"':
                j += 2 if t[j] == "\\" else 1
            j += 1
        elif m := re.compile(r"'(?:\\.[^']*|[^'\\\n])'").match(t, i):
            j = m.end()
        for k in range(i, min(j, n)):
            if out[k] != "\n":
                out[k] = " "
        i = max(j, i + 1)
    return "".join(out)


def closing(t, i):
    """Behind the bracket that closes the one at i."""
    pairs = {"(": ")", "[": "]", "{": "}"}
    a, b, deep = t[i], pairs[t[i]], 0
    for k in range(i, len(t)):
        deep += (t[k] == a) - (t[k] == b)
        if not deep:
            return k + 1
    return len(t)


def split_top(s, by):
    """The parts of s between the separators that stand in no bracket."""
    parts, deep, at, i = [], 0, 0, 0
    while i < len(s):
        c = s[i]
        if c in "([{" or (c == "<" and by == ","):
            deep += 1
        elif c in ")]}" or (c == ">" and by == "," and s[i - 1] not in "-="):
            deep -= 1
        elif deep == 0 and s.startswith(by, i):
            parts.append(s[at:i])
            at = i + len(by)
            i = at
            continue
        i += 1
    parts.append(s[at:])
    return [p.strip() for p in parts if p.strip()]


class Function:
    """crate, file (under the tree), line, name (with its type or trait before it), pub, sign, params, result, clauses, body, comment."""


class Type:
    """crate, file, line, word (struct, enum or trait), name, pub, head, derives, fields or variants, text, comment."""


def comment_above(lines, i):
    """The comment lines straight above line i (from 0), over attributes."""
    got = []
    i -= 1
    while i >= 0 and lines[i].strip().startswith(("//", "#[")):
        if lines[i].strip().startswith("//"):
            got.insert(0, lines[i].strip()[2:].strip())
        i -= 1
    return " ".join(got)


def kept_in(text):
    """The reasons that lines with `kept:` give: each from there to the end of its comment."""
    got = []
    for m in re.finditer(r"//[^\n]*?\bkept:\s*([^\n]*(?:\n\s*//[^\n]*)*)", text):
        got.append(flat(re.sub(r"\n\s*//", " ", m[1])))
    return "; ".join(got)


def above(lines, i):
    """The comment and attribute lines straight above line i, as they stand."""
    k = i
    while k > 0 and lines[k - 1].strip().startswith(("//", "#[")):
        k -= 1
    return "\n".join(lines[k:i]) + "\n"


def head_end(t, i):
    """From behind a function's parameters: where its result and its clauses stand, and where its body begins."""
    first = None
    clauses, n = [], len(t)
    while i < n:
        if m := re.compile(r"\b(requires|ensures)\b\s*(" + WORD + r")?\s*\*?\s*\{").match(t, i):
            first = m.start() if first is None else first
            j = closing(t, m.end() - 1)
            clauses.append((m[1], m[2] or "", m.end(), j - 1))
            i = j
        elif t[i] in "([":
            i = closing(t, i)
        elif t[i] in "{;":
            return first if first is not None else i, clauses, i
        else:
            i += 1
    return n, clauses, n


def read_rt(root, crate, path):
    raw = text_of(path)
    t = blank(raw)
    lines = raw.split("\n")
    rel = os.path.relpath(path, root)
    functions, types, consts, impls = [], [], [], []
    around = []
    for m in re.finditer(r"\b(impl|trait|mod|fn|struct|enum|const)\b", t):
        while around and m.start() >= around[-1][0]:
            around.pop()
        start = t.rfind("\n", 0, m.start()) + 1
        line = t.count("\n", 0, m.start())
        before = t[start : m.start()]
        public = bool(re.search(r"\bpub\b", before))
        owner = next((a[1] for a in reversed(around) if a[1]), "")
        if m[1] == "fn":
            w = re.compile(r"\s+(" + WORD + r")").match(t, m.end())
            if not w:
                continue
            i = w.end()
            if i < len(t) and t[i] == "<":
                deep, k = 0, i
                while k < len(t):
                    deep += (t[k] == "<") - (t[k] == ">" and t[k - 1] != "-")
                    k += 1
                    if not deep:
                        break
                i = k
            i = t.find("(", i)
            if i < 0 or t[w.end() : i].count("\n") > 3:
                continue
            j = closing(t, i)
            first, clauses, b = head_end(t, j)
            f = Function()
            f.crate, f.file, f.line, f.comment = crate, rel, line + 1, comment_above(lines, line)
            f.short = w[1]
            f.name = (owner + "::" if owner else "") + w[1]
            f.pub = public or any(a[2] == "trait" or (a[2] == "impl" and " for " in a[3]) for a in around[-1:])
            f.params = [flat(p) for p in split_top(t[i + 1 : j - 1], ",")]
            f.result = flat(t[j:first])
            f.sign = flat(raw[start : first].strip())
            f.clauses = [(k, n, flat(raw[x:y])) for k, n, x, y in clauses]
            f.body = t[b : closing(t, b)] if t[b : b + 1] == "{" else ""
            f.body_line = t.count("\n", 0, b) + 1
            f.of = around[-1][3] if around and around[-1][2] == "impl" else ""
            f.kept = kept_in(above(lines, line) + raw[start : b + len(f.body)])
            f.lines = t.count("\n", m.start(), b + len(f.body)) + 1
            functions.append(f)
        elif m[1] == "const":
            w = re.compile(r"\s+(" + WORD + r")\s*:\s*([^=;]+?)\s*=\s*([^;]+);").match(t, m.end())
            if w and not any(a[2] == "fn" for a in around):
                name = (owner + "::" if owner else "") + w[1]
                value = flat(raw[w.start(3) : w.end(3)])
                consts.append((crate, rel, line + 1, name, flat(w[2]), value, public, kept_in(above(lines, line) + lines[line])))
        elif m[1] == "mod":
            w = re.compile(r"\s+(" + WORD + r")\s*\{").match(t, m.end())
            if w:
                around.append((closing(t, w.end() - 1), "", "mod", ""))
        else:
            if m[1] == "impl" and before.strip() not in ("", "unsafe"):
                continue
            j = m.end()
            while j < len(t) and t[j] not in "{;":
                j = closing(t, j) if t[j] == "(" else j + 1
            head = flat(t[m.end() : j])
            end = closing(t, j) if t[j : j + 1] == "{" else j + 1
            if m[1] == "impl":
                name = re.sub(r"^<[^>]*>\s*", "", head)
                short = re.sub(r"\s+where\b.*$", "", name)
                around.append((end, re.sub(r"<.*?>", "", short.split(" for ")[-1]).strip(), "impl", head))
                impls.append((crate, rel, line + 1, "impl" + ("" if head.startswith("<") else " ") + head))
                continue
            w = re.match(WORD, head)
            if not w:
                continue
            y = Type()
            y.crate, y.file, y.line, y.word, y.name, y.pub, y.head = crate, rel, line + 1, m[1], w[0], public, head
            y.comment = comment_above(lines, line)
            y.kept = kept_in(above(lines, line) + raw[start:end])
            y.derives = []
            k = line - 1
            while k >= 0 and lines[k].strip().startswith(("#[", "//")):
                y.derives += re.findall(r"derive\(([^)]*)\)", lines[k])
                k -= 1
            y.derives = [d.strip() for g in y.derives for d in g.split(",") if d.strip()]
            inside = t[j + 1 : end - 1] if t[j : j + 1] == "{" else (t[m.end() : j])
            rawin = raw[j + 1 : end - 1] if t[j : j + 1] == "{" else raw[m.end() : j]
            if m[1] == "struct" and t[j : j + 1] != "{" and "(" in inside:
                q = inside.find("(")
                rawin = inside[q + 1 : closing(inside, q) - 1]
            y.fields = [flat(p) for p in split_top(re.sub(r"//[^\n]*", "", rawin), ",")] if m[1] != "trait" else []
            code = re.sub(r"//[^\n]*", "", raw[start:end])
            y.text = ("#[derive(" + ", ".join(y.derives) + ")] " if y.derives else "") + flat(code)
            types.append(y)
            if m[1] == "trait":
                around.append((end, w[0], "trait", head))
    return functions, types, consts, impls


def crates_of(root):
    top = os.path.join(root, "crates")
    return sorted(c for c in os.listdir(top) if os.path.isdir(os.path.join(top, c)))


def files(root, crate, folder, ending):
    base = os.path.join(root, "crates", crate, folder)
    for at, dirs, names in os.walk(base):
        dirs[:] = sorted(d for d in dirs if d not in SKIPPED)
        for n in sorted(names):
            if n.endswith(ending):
                yield os.path.join(at, n)


def read_all(root):
    functions, types, consts, impls = [], [], [], []
    for crate in crates_of(root):
        for p in files(root, crate, "src", ".rt"):
            f, y, c, i = read_rt(root, crate, p)
            functions += f
            types += y
            consts += c
            impls += i
    return functions, types, consts, impls


def conjuncts(text):
    """The parts of a clause between its top-level ×, each without the brackets around the whole of it."""
    got = []
    for p in split_top(text, "×"):
        p = flat(p)
        while p.startswith("(") and closing(p, 0) == len(p):
            p = p[1:-1].strip()
            if "×" in p:
                got += conjuncts(p)
                p = ""
        if p:
            got.append(p)
    return got


class Declared:
    """A declaration of a .antt file: crate, file, line, name, words (pub, abbrev, ..), statement (with the parameters of the modules around it),
    text (with its clauses), local (parameters of the modules around)."""


NAME = r"[^\s:(){},.=|λ]+"
DECLARES = re.compile(
    r"((?:(?:abbrev|opaque|unfoldable|pub|instance|private|irreducible)\s+)*)(?:(record|data)\s+)?"
    r"(" + NAME + r"(?:\s+" + NAME + r")*)((?:\s*[({][^=]*?[)}])*)\s*:(?=\s|$)"
)
NOT_NAMES = {"use", "mod", "open", "module", "infixl", "infixr", "infix", "prefix", "let", "where", "unfolding", "in", "import", "export", "mutual"}


def read_antt(root, crate, path):
    raw = text_of(path)
    lines = [re.sub(r"(^|\s)--(\s.*|-.*)?$", "", l) for l in raw.split("\n")]
    rel = os.path.relpath(path, root)
    out, modules, item = [], [], None

    def close():
        nonlocal item
        if item is not None:
            item.text = flat(" ".join(item.rows))
            if item.kind:
                item.statement = item.text
            else:
                item.statement = flat(" ".join(item.rows[: item.typed]))
            item.statement = flat(" ".join(m[1] for m in modules) + " " + item.statement) if modules else item.statement
            item.text = flat(" ".join(m[1] for m in modules) + " " + item.text) if modules else item.text
            out.append(item)
            item = None

    i = 0
    while i < len(lines):
        l = lines[i]
        if not l.strip():
            i += 1
            continue
        deep = len(l) - len(l.lstrip())
        if item is not None and deep > item.deep:
            if not item.kind and not item.bodied:
                if item.rows[-1].endswith("where"):
                    item.bodied = True
                else:
                    item.typed = len(item.rows) + 1
            item.rows.append(l.strip())
            i += 1
            continue
        word = l.split()[0]
        if item is not None and deep == item.deep and word == "unfolding":
            item.bodied = True
            item.rows.append(l.strip())
            i += 1
            continue
        s = l.strip()
        if i + 1 < len(lines) and re.match(r"\s+:(\s|$)", lines[i + 1]) and "=" not in s:
            s += " :"
        m = None if word in NOT_NAMES else DECLARES.match(s)
        if m and not m[2] and m[4].strip():
            m = None
        if m and any(n in NOT_NAMES for n in m[3].split()):
            m = None
        if m and item is not None and deep == item.deep and re.search(r"(?<![:≡])=(\s|$)", s[: m.end()]):
            m = None
        if m and (not item or deep <= item.deep):
            close()
            while modules and deep <= modules[-1][0]:
                modules.pop()
            item = Declared()
            item.crate, item.file, item.line, item.deep = crate, rel, i + 1, deep
            item.words = m[1].split()
            item.kind = m[2] or ""
            names = m[3].split()
            item.names = names
            item.name = names[0]
            item.rows = [l.strip()]
            item.typed = 1
            item.bodied = False
            i += 1
            continue
        if word == "module":
            close()
            while modules and deep <= modules[-1][0]:
                modules.pop()
            head = l.strip()
            while not head.rstrip().endswith("where") and i + 1 < len(lines):
                i += 1
                head += " " + lines[i].strip()
            inner = re.sub(r"^module\s+\S+\s*", "", head)
            inner = re.sub(r"\s*where$", "", inner)
            modules.append((deep, flat(inner)))
            i += 1
            continue
        if word in NOT_NAMES or (word == "pub" and len(s.split()) > 1 and s.split()[1] in NOT_NAMES):
            close()
            while modules and deep <= modules[-1][0]:
                modules.pop()
            # an import or module line and what hangs on it
            i += 1
            while i < len(lines) and lines[i].strip() and len(lines[i]) - len(lines[i].lstrip()) > deep:
                i += 1
            continue
        if item is not None:
            item.bodied = True
            item.rows.append(l.strip())
        i += 1
    close()
    return out


def antt_files(root, crate):
    for folder in ("specs", "proofs"):
        yield from files(root, crate, folder, ".antt")


def is_answers(path):
    return "/proofs/" in path and os.path.basename(path) in ("Answers.antt", "Invariants.antt")
