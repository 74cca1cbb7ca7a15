#!/usr/bin/env python3
"""Lists the places in crates/*/src that docs/DESIGN-PASS.md counts, point by point.

python3 tools/places.py            counts, a line for each point and kind
python3 tools/places.py --list     each place with its file and line
python3 tools/places.py --list CRATE ..   the same for some crates
"""
import difflib
import pathlib
import re
import sys

ROOT = pathlib.Path(__file__).resolve().parent.parent
SHARED_FACTS = 3  # so many contracts make a repeated fact
TWIN = 0.88  # how alike two functions of one shape are


def sources(names):
    for path in sorted((ROOT / "crates").glob("*/src/**/*.rt")):
        if not names or path.relative_to(ROOT / "crates").parts[0] in names:
            yield path


def functions(text):
    """Each function: its name, line, head (signature and clauses) and body."""
    for m in re.finditer(r"^( *)((?:pub(?:\([a-z]+\))? )?(?:final )?fn (\w+))", text, re.M):
        indent = m.group(1)
        rest = text[m.start():]
        one = re.match(r"[^\n]*;\n", rest)
        body = re.search(r"\n" + indent + r"\{\n(.*?)\n" + indent + r"\}", rest, re.S)
        plain = re.match(r"[^\n]*\{\n(.*?)\n" + indent + r"\}", rest, re.S)
        nxt = re.search(r"\n" + indent + r"(?:pub(?:\([a-z]+\))? )?fn ", rest[1:])
        limit = nxt.start() + 1 if nxt else len(rest)
        found = None
        for b in (plain, body):
            if b and b.end() <= limit + 5 and (found is None or b.start(1) < found.start(1)):
                found = b
        if one and not found:
            continue
        if not found:
            continue
        head = rest[:found.start(1)]
        yield m.group(3), text[:m.start()].count("\n") + 1, head, found.group(1)


def shape(body):
    """A body with its names of values and its constants made alike."""
    body = re.sub(r"//[^\n]*", "", body)
    body = re.sub(r'b?"[^"]*"|b?\'[^\']*\'', "S", body)
    return re.findall(r"\w+|[^\w\s]", re.sub(r"\b\d\w*\b", "N", body))


def places(names):
    out = {}

    def add(kind, path, line, what):
        out.setdefault(kind, []).append((path.relative_to(ROOT), line, what))

    clauses, parameters, bodies = {}, {}, []
    for path in sources(names):
        text = path.read_text()
        lines = text.split("\n")
        for m in re.finditer(r"enum (\w+)[^{]*\{(.*?)\}", text, re.S):
            if not m.group(2).strip() or re.search(r"^\s*(No|None|Nothing|Absent)\w*,", m.group(2), re.M):
                add("1 enum shaped like Option, Result or Infallible", path, text[:m.start()].count("\n") + 1, m.group(1))
        for i, line in enumerate(lines, 1):
            if re.search(r"#\[derive\(Clone, Copy\)\]", line):
                add("4 type without derived equality", path, i, lines[i].strip())
            if re.search(r"\bas u\d+ [=!]= |\.number\(\) [=!]= ", line):
                add("4 equality by numbers", path, i, line.strip())
            if re.search(r"\bfor _?\w* in [^{]*\.\.|\bwhile (?!let)[^{]*[<>]|^\s*('\w+: )?while (?!let)", line):
                add("3 loop that counts by hand", path, i, line.strip())
            if re.search(r"\b(from|at|place|next) = \w+\.end;", line):
                add("3 cursor moved by hand", path, i, line.strip())
            if re.search(r"^\s*(pub(\([a-z]+\))? )?(count|len|depth|heads)\w*: u", line):
                add("6 length beside a buffer", path, i, line.strip())
        for name, line, head, body in functions(text):
            signature = head.split("\n    ensures")[0]
            result = re.search(r"-> ([^\n{]*?)\s*(?:\n|\{|$)", head)
            result = result.group(1) if result else ""
            if result == "bool" and "&mut" in head.split("ensures")[0]:
                add("1 bool for a refusal", path, line, name)
            if result == "u8" and body.strip().split("\n")[-1].strip() == "0":
                add("1 number without a meaning", path, line, name)
            if re.fullmatch(r"(number|of_number|\w+_number|\w+_class|class_of|node_of|word_of|binder_at|\w+_words|keyword_of|marked|own_refusal)", name) and "match" in body:
                add("4 conversion or printing by hand", path, line, name)
            if re.match(r"same_", name):
                add("4 equality by hand", path, line, name)
            for c in re.findall(r"(?:requires|ensures)[^{]*\{ (.*?) \}$", head, re.M):
                clauses.setdefault((path.relative_to(ROOT).parts[1], c), []).append((path, line, name))
            sig = re.sub(r"\s+", " ", head.split("ensures")[0].split("requires")[0])
            ps = re.findall(r"(\w+): ([^,()]*(?:\([^)]*\))?[^,()]*)[,)]", sig[sig.find("("):])
            keys = sorted({f"{p}: {t.strip()}" for p, t in ps})
            for i, a in enumerate(keys):
                for b in keys[i + 1:]:
                    parameters.setdefault((path.relative_to(ROOT).parts[1], a, b), []).append((path, line, name))
            tokens = shape(body)
            if len(tokens) >= 12 and "#[test]" not in head:
                bodies.append((path, line, name, tokens))
    for (crate, c), where in clauses.items():
        if len({w[2] for w in where}) >= SHARED_FACTS and "result" not in c and ".new" not in c:
            for p, l, n in where:
                add("5 fact in three or more contracts", p, l, f"{n}: {c}")
    for (crate, a, b), where in parameters.items():
        if len({w[2] for w in where}) >= SHARED_FACTS:
            add("5 parameters that travel together", where[0][0], where[0][1], f"{a}, {b}: " + ", ".join(w[2] for w in where))
    for i, (p, l, n, t) in enumerate(bodies):
        for q, k, o, u in bodies[i + 1:]:
            if min(len(t), len(u)) / max(len(t), len(u)) < TWIN:
                continue
            s = difflib.SequenceMatcher(None, t, u, autojunk=False)
            if s.real_quick_ratio() >= TWIN and s.quick_ratio() >= TWIN and s.ratio() >= TWIN:
                add("2 functions of one shape", p, l, f"{n} ~ {q.relative_to(ROOT)}:{k} {o}")
    return out


def main():
    args = sys.argv[1:]
    listed = "--list" in args
    found = places([a for a in args if not a.startswith("--")])
    for kind in sorted(found):
        print(f"{len(found[kind]):4}  {kind}")
        if listed:
            for path, line, what in found[kind]:
                print(f"        {path}:{line}: {what}")


main()
