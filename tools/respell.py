#!/usr/bin/env python3
"""Brings the names of this repository's own definitions and lemmas to snake case, once, after the port's scripts.

usage: python3 tools/respell.py [--report] [ROOT]

Respelled are the names that an .antt file of this repository declares (definitions, lemmas, helpers, constructors,
fields of records), where they stand in .antt files, in clauses and ghost items of .rt files, and in must-fail edits. A
dash or a capital inside a name becomes an underscore; the name of a type loses its dashes. Names of std, of src/, and
those that Rattle makes (goals, answers, invariants) keep their spelling.

--report writes nothing, and lists the new names that would fall together with another name of the same file.
"""

import collections
import glob
import os
import re
import sys

ARGS = [a for a in sys.argv[1:] if not a.startswith("--")]
ROOT = ARGS[0] if ARGS else "."
NAME = r"[A-Za-zα-ωΑ-Ω][\w'′₀-₉-]*"
ANTT = re.compile(r"--[^\n]*|\"(?:\\.|[^\"\\\n])*\"|«[^»\n]*»|" + NAME)
RUST = re.compile(r"//[^\n]*|\"(?:\\.|[^\"\\\n])*\"|'(?:\\.|[^'\\\n])'|«[^»\n]*»|" + NAME)
SIGNATURE = re.compile(r"^(\s*)(?:(?:abbrev|unfoldable|pub|pattern) )*(" + NAME + r")((?: " + NAME + r")*) :(?:\s|$)(.*)$")
TYPE = re.compile(r"^(\s*)(?:(?:abbrev|unfoldable|pub|pattern) )*(record|data) (" + NAME + r")")
USE = re.compile(r"use (?P<module>[\w.·'-]+?)\.\{(?P<names>[^}]*)\}")

# An old name whose plain respelling is another name already gets the ending _lem, as a lemma of its function's name does.
KEPT_APART = {
    "line_reply": "line_reply_lem",
    "goes_on": "goes_on_lem",
    "put-store": "store_after_put",
    "remove-store": "store_after_remove",
    "unit-of": "unit_of_entry",
    "unit-at": "unit_held_at",
    "order-of": "order_of_places",
}


def snake(name):
    if name in KEPT_APART:
        return KEPT_APART[name]
    if name[0].isupper():
        first, *rest = name.split("-")
        return first + "".join(p[:1].upper() + p[1:] for p in rest)
    cut = re.sub(r"(?<=[a-z0-9'])(?=[A-Z])", "_", name.replace("-", "_"))
    return "_".join(p[:1].lower() + p[1:] for p in cut.split("_"))


def files(*patterns):
    for p in patterns:
        for f in sorted(glob.glob(os.path.join(ROOT, p), recursive=True)):
            if "/out/" not in f:
                yield f


def read(path):
    with open(path, encoding="utf-8") as f:
        return f.read()


def module_of(path):
    """crates/NAME/specs/A.antt is Rattle.NAME.specs.A"""
    parts = os.path.relpath(path, ROOT).split(os.sep)
    return "Rattle." + ".".join(parts[1:])[: -len(".antt")]


def declared(text):
    """The names that a file declares, and the fields of its records."""
    names, fields = set(), set()
    record = None
    for line in text.split("\n"):
        t = TYPE.match(line)
        if t:
            names.add(t[3])
            record = len(t[1]) if t[2] == "record" else None
            continue
        if line.strip() and record is not None and len(line) - len(line.lstrip()) <= record:
            record = None
        s = SIGNATURE.match(line)
        if not s or "goal." in s[4] or "given." in s[4]:
            continue
        found = [s[2]] + s[3].split()
        (fields if record is not None else names).update(found)
    return names, fields


def main():
    antt = list(files("crates/*/specs/**/*.antt", "crates/*/proofs/**/*.antt"))
    rust = list(files("crates/*/src/**/*.rt"))
    edits = list(files("crates/*/must-fail/*.edit"))
    own, fields, modules = {}, set(), {}
    for f in antt:
        own[f], more = declared(read(f))
        fields |= more
        modules[module_of(f)] = own[f] | more

    def known_in(f, text):
        known = set(own.get(f, ())) | fields
        for m in USE.finditer(text):
            module = m["module"]
            there = modules.get(module)
            for item in re.sub(r"\s+", " ", m["names"]).split(","):
                words = item.split()
                if not words:
                    continue
                if there is not None:
                    known.update(w for w in words if w in there)
                if len(words) == 3 and words[1] == "as":
                    known.add(words[2])
        # what std and Rattle's own modules give keeps its name, also where a field has the same
        for m in USE.finditer(text):
            if modules.get(m["module"]) is None:
                for item in m["names"].split(","):
                    words = item.split()
                    if len(words) == 1:
                        known.discard(words[0])
        return known

    # a lemma that would get a name in use beside it gets the ending of a lemma
    definitions = set()
    for f in antt:
        definitions.update(m[1] for m in re.finditer(r"^\s*(?:abbrev|unfoldable) (?:pub )?(" + NAME + r")(?: |$)", read(f), re.M))
    for f in antt + rust:
        text = read(f)
        bare = re.sub(r"use [\w.·'-]+", "use", text)
        tokens = ANTT if f.endswith(".antt") else RUST
        words = {m[0] for m in tokens.finditer(bare) if m[0][0] not in "-\"/'«"}
        known = known_in(f, text)
        for w in sorted(words & known):
            if "-" in w and not w[0].isupper() and w not in definitions:
                plain = snake(w)
                if plain in words or any(snake(o) == plain for o in words & known if o != w):
                    KEPT_APART[w] = plain if plain.endswith("_lem") else plain + "_lem"

    def respell(text, known, tokens):
        def swap(m):
            w = m[0]
            if w[0] in "-\"/'«" or w not in known:
                return w
            at = m.start()
            if text[max(0, at - 5) : at].endswith(("goal.", "given.")):
                return w
            return snake(w)

        return tokens.sub(swap, text)

    together = []
    result = {}
    for f in antt + rust:
        text = read(f)
        known = known_in(f, text)
        tokens = ANTT if f.endswith(".antt") else RUST
        words = {m[0] for m in tokens.finditer(text)}
        new = collections.defaultdict(set)
        for w in words & known:
            new[snake(w)].add(w)
        for n, olds in sorted(new.items()):
            if len(olds) > 1 or (n in words and n not in olds):
                together.append((os.path.relpath(f, ROOT), n, *sorted(olds), "also there" if n in words and n not in olds else ""))
        result[f] = respell(text, known, tokens)
    for f in edits:
        crate = os.path.dirname(os.path.dirname(f))
        target, out = None, []
        for line in read(f).split("\n"):
            if line.startswith("file: "):
                target = os.path.join(crate, line[len("file: ") :].strip())
            elif target and os.path.exists(target) and line[:5] in ("old: ", "new: "):
                known = known_in(target, read(target))
                line = line[:5] + respell(line[5:], known, ANTT if target.endswith(".antt") else RUST)
            out.append(line)
        result[f] = "\n".join(out)

    for t in together:
        print("together:", *t)
    if "--report" in sys.argv:
        return
    n = 0
    for f, text in result.items():
        if text != read(f):
            with open(f, "w", encoding="utf-8") as out:
                out.write(text)
            n += 1
    print("respelled:", n, "files")


if __name__ == "__main__":
    main()
