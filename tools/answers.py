#!/usr/bin/env python3
"""Finds the answers in crates/NAME/proofs/**/Answers.antt that the check finds alone.

python3 tools/answers.py NAME             lists the answers that may go
python3 tools/answers.py NAME --write     removes them, and what only they cited in their files
python3 tools/answers.py NAME words/front ..   the same for the answers below proofs/words/front alone
python3 tools/answers.py NAME --time      also tells how long a whole check takes before and after
python3 tools/answers.py NAME --unused    lists only the lemmas of proofs/ that nothing cites

It works on a copy of the crate and those below it, outside the repository: it removes all the answers, checks, puts back
those of the goals that are open, and repeats until the check passes; then the same with --margin.
"""
import pathlib
import re
import resource
import shutil
import subprocess
import sys
import tempfile
import time

ROOT = pathlib.Path(__file__).resolve().parent.parent
SIGNATURE = re.compile(r"(?:abbrev |unfoldable )?(pub )?(?:abbrev |unfoldable )?(\S+) :(?: |$)")
GOAL = re.compile(r"pub \S+ : goal\.")
IMPORT = re.compile(r"use (\S+?)(?:\.\{(.*)\}| as (\S+))$")
BREAKS = re.compile(r"[\s(){};,.`]+")


class Answers:
    """A file of answers: its imports, and its blocks (a signature with its lines) by name."""

    def __init__(self, path):
        self.path = path
        self.imports, self.blocks, self.goals = [], {}, set()
        self.before = path.read_text()
        name, waiting = None, []
        for line in self.before.split("\n"):
            head = SIGNATURE.match(line)
            if line.startswith(("mutual", "module ", "data ", "record ")):
                raise SystemExit(f"{path}: no answers and lemmas alone: {line}")
            if line.startswith("use "):
                self.imports.append(line)
            elif line.startswith("--"):
                name = None
                waiting.append(line)
            elif head:
                name = head.group(2)
                self.blocks[name] = waiting + [line]
                waiting = []
                if GOAL.match(line):
                    self.goals.add(name)
            elif name:
                self.blocks[name].append(line)
            elif line:
                raise SystemExit(f"{path}: cannot read the line: {line}")

    def words(self, name):
        return set(BREAKS.split(" ".join(line for line in self.blocks[name] if not line.startswith("--"))))

    def cited(self, names):
        """These blocks, and those that they cite."""
        found, new = set(), set(names)
        while new:
            found |= new
            new = {w for n in new for w in self.words(n)} & set(self.blocks) - found
        return found

    def answers_to(self, goal):
        """The answers that prove this goal, whole or by clauses."""
        same = {n for n in self.goals if n == goal or goal.startswith(n + "-clause-")}
        return same or {n for n in self.goals if n.startswith(goal + "-clause-")}

    def text(self, names, tidy):
        """The file with these blocks; tidy leaves out the imports that they do not need."""
        imports = self.imports
        if tidy:
            words = {w for n in names for w in self.words(n)}
            imports = [kept for kept in (needed(line, words) for line in imports) if kept]
        blocks = ["\n".join(self.blocks[n]).rstrip("\n") for n in self.blocks if n in names]
        return "\n\n".join(["\n".join(imports)] + blocks) + "\n"


def needed(line, words):
    """This import with the names that the words cite, or nothing."""
    module, names, alias = IMPORT.match(line).groups()
    if alias:
        return line if alias in words else ""
    kept = [n for n in names.split(", ") if all(part in words for part in n.split(" as ")[-1].split("◌") if part)]
    return f"use {module}.{{{', '.join(kept)}}}" if kept else ""


def below(name):
    """The lines of crates.txt for the crate and those that it builds on, by name."""
    lines = [line for line in (ROOT / "crates.txt").read_text().split("\n") if ":" in line.split("#")[0]]
    lines = {line.split(":")[0].split()[0]: line for line in lines}
    if name not in lines:
        raise SystemExit(f"answers: crates.txt has no crate {name}")
    names = [name] + [n for n in lines[name].split(":")[1].split() if n in lines]
    return {n: lines[n] for n in names}


def copied(name, top):
    """A copy of the crate and those below it, with the work that their checks kept."""
    (top / "crates.txt").write_text("\n".join(below(name).values()) + "\n")
    for crate in below(name):
        shutil.copytree(ROOT / "crates" / crate, top / "crates" / crate)
    return top / "crates" / name


def check(folder, *flags):
    """Whether the check passes; the open goals, as pairs of a function and a goal; its output."""
    run = subprocess.run(["rt", "check", *flags], cwd=folder, capture_output=True, text=True)
    out = run.stdout + run.stderr
    crate, goals = folder.name, set()
    for line in out.split("\n"):
        told = re.match(rf"fn {crate}::(\S+): (?!proved)(.*)", line)
        where = re.match(r"note: `(\S+)` of \S*?proofs/(\S+)/Answers\.antt", line)
        if where:
            goals.add((where.group(2), where.group(1)))
        elif told:
            at = re.search(r"proofs/(\S+)/Answers\.antt", told.group(2))
            function = at.group(1) if at else told.group(1).replace("::", "/")
            goals |= {(function, goal) for goal in re.findall(r"`(\S+)`", told.group(2)) + [""]}
    return run.returncode == 0, goals, out


def settle(folder, files, kept, flags):
    """Puts answers back until the check passes; returns the goals that stay open under these flags and had no answer."""
    while True:
        passes, goals, out = check(folder, *flags)
        if passes:
            return set()
        goals = {(f, goal) for f, goal in goals if f in files}
        new = {f: set() for f, goal in goals}
        for f, goal in goals:
            new[f] |= files[f].cited(files[f].answers_to(goal)) - kept[f]
        if not any(new.values()) and flags:
            return goals
        if not any(new.values()):  # no answer by those names: all of the functions'
            new = {f: set(files[f].blocks) - kept[f] for f in new}
        if not any(new.values()):
            print(out)
            raise SystemExit("answers: the check fails, and no answer helps")
        for f, names in new.items():
            kept[f] |= names
            write(files[f], folder, f, kept[f], False)
        count = sum(len(names & files[f].goals) for f, names in new.items())
        print(f"answers: {' '.join(['check', *flags])}: {count} put back", flush=True)


def write(file, folder, function, names, tidy):
    path = folder / "proofs" / function / "Answers.antt"
    if names & file.goals:
        path.write_text(file.text(names, tidy))
    else:
        path.unlink(missing_ok=True)


def whole_time(folder):
    """Seconds of processor time for a check of this crate from nothing: a text that is new to rt begins with this folder's work alone."""
    shutil.rmtree(folder / "out" / "incremental", ignore_errors=True)
    (folder / "out" / "incremental").mkdir(parents=True)
    root = folder / "src" / "lib.rt"
    root.write_text(f"{root.read_text()}\n// {time.time_ns()}\n")
    start = resource.getrusage(resource.RUSAGE_CHILDREN)
    check(folder)
    end = resource.getrusage(resource.RUSAGE_CHILDREN)
    return round(end.ru_utime + end.ru_stime - start.ru_utime - start.ru_stime)


def unused(name):
    """Lemmas of proofs/ that nothing cites; a name that stands twice counts as cited."""
    count = {}
    for place in ("proofs/**/*.antt", "specs/**/*.antt", "src/**/*.rt"):
        for path in (ROOT / "crates").glob("*/" + place):
            for word in BREAKS.split(re.sub(r"(?m)^use .*$|--.*$", "", path.read_text())):
                count[word] = count.get(word, 0) + 1
    for path in sorted((ROOT / "crates" / name / "proofs").rglob("*.antt")):
        lines = path.read_text().split("\n")
        for i, line in enumerate(lines):
            indent = line[:len(line) - len(line.lstrip())]
            head = SIGNATURE.match(line.lstrip())
            if not head or GOAL.match(line) or path.name == "Invariants.antt" or set(head.group(2)) & set("(){}"):
                continue
            own, word = 1, head.group(2)
            for later in filter(str.strip, lines[i + 1:]):
                if not later.startswith(indent + " ") and later.strip().split(" ")[0] not in (word, "unfolding", ")", "}"):
                    break
                own += BREAKS.split(later).count(word)
            if count.get(word, 0) <= own:
                print(f"{path.relative_to(ROOT)}:{i + 1}: {word}")


def main(args):
    options = {a for a in args if a.startswith("--")}
    names = [a for a in args if not a.startswith("--")]
    if not names or options - {"--write", "--time", "--unused"}:
        raise SystemExit(__doc__)
    name, only = names[0], names[1:]
    if "--unused" in options:
        return unused(name)
    with tempfile.TemporaryDirectory(prefix="answers-") as room:
        tried(name, only, options, copied(name, pathlib.Path(room)))


def tried(name, only, options, folder):
    """Finds the answers that may go in the copy of the crate, and removes them here if that is asked for."""
    proofs = folder / "proofs"
    files = {str(p.parent.relative_to(proofs)): Answers(p) for p in sorted(proofs.rglob("Answers.antt"))}
    if only:
        files = {f: a for f, a in files.items() if any(f == o or f.startswith(o + "/") for o in only)}
    passes, _, out = check(folder)
    if not passes:
        print(out)
        raise SystemExit("answers: the check fails with all answers")
    before = whole_time(folder) if "--time" in options else None
    kept = {f: set() for f in files}
    for f in files:
        write(files[f], folder, f, kept[f], False)
    settle(folder, files, kept, [])
    frail = settle(folder, files, kept, ["--margin"])
    for f, file in files.items():
        kept[f] = file.cited(kept[f] & file.goals)
        write(file, folder, f, kept[f], True)
    passes, _, out = check(folder)
    if not passes:
        print(out)
        raise SystemExit("answers: the check fails without the imports and lemmas that seem unneeded")
    gone = {f: [n for n in file.blocks if n in file.goals - kept[f]] for f, file in files.items()}
    for f, goals in gone.items():
        for goal in goals:
            print(f"{f}: {goal}")
        here = ROOT / "crates" / name
        if goals and "--write" in options and (here / "proofs" / f / "Answers.antt").read_text() == files[f].before:
            write(files[f], here, f, kept[f], True)
    print(f"answers: {sum(map(len, gone.values()))} of {sum(len(a.goals) for a in files.values())} may go")
    for f, goal in sorted(frail):
        print(f"answers: open under --margin, and it had no answer: {f}: {goal}")
    if before is not None:
        print(f"answers: a whole check took {before} s before, and takes {whole_time(folder)} s")


if __name__ == "__main__":
    main(sys.argv[1:])
