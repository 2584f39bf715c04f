#!/usr/bin/env python3
"""Spells the definitions, fields and lemmas of this repository as the language now does: words in snake case.

usage: respell.py FOLDER..

A name is respelled if a file of specs/ or proofs/ below the folders declares it: camel case and dashes become underscores
(`ruleIn` is `rule_in`, `case-a` is `case_a`). Types and modules, which begin with a capital, stay. So do the names that the toolchain makes
in the proof of a function (proofs/F/Proof.antt), and names that a file imports from a library. Functions of src/, strings and comments' prose stay;
a name in a comment between backquotes, or in camel case, follows.
"""
import os
import re
import sys

# Names that would fall together with another of the repository: spelled by hand.
BY_HAND = {"first-of": "of_first", "second-of": "of_second"}
# A name of antt: letters, digits, dashes between them, primes, subscripts, middle dots.
NAME = re.compile(r"[A-Za-z_][\w'₀-₉·]*(?:-[\w'₀-₉·]+)*")
DECLARED = re.compile(
    r"^(?P<indent> *)(?:(?:abbrev|unfoldable|pub|mutual|instance|private) )*(?P<names>[A-Za-z_◌][^\s:(){}=]*(?: [A-Za-z_][^\s:(){}=]*)*)(?: \{[^{}\n]*\})* : "
)
BOUND = re.compile(r"\blet ([A-Za-z_][\w'₀-₉-]*) (?::|=)")
USE = re.compile(r"^\s*(?:ghost )?(?:pub )?use ([^\s;{]+)(?:\{([^}]*)\})?", re.M)


def spelled(name):
    if not name[0].islower():
        return name
    words = re.sub(r"(?<=[a-z0-9'])[A-Z]", lambda m: "_" + m[0].lower(), name)
    return words.replace("-", "_")


def files(folders):
    for top in folders:
        for folder, dirs, names in os.walk(top):
            dirs[:] = sorted(d for d in dirs if d not in ("out", ".git", "target", "must-fail", "data"))
            for n in sorted(names):
                if n.endswith((".antt", ".rt")):
                    yield os.path.join(folder, n)


def is_walk(path):
    return os.path.basename(path) in ("Proof.antt", "Answers.antt", "Invariants.antt")


def declared(text):
    found = set()
    for line in text.split("\n"):
        if line.lstrip().startswith(("--", "use ", "open ", "module ")):
            continue
        m = DECLARED.match(line)
        if m:
            found |= {n for n in m["names"].split() if NAME.fullmatch(n)}
        found |= set(BOUND.findall(line))
    return found


def imported(text, crates):
    """The names that a file takes from a library."""
    found = set()
    for path, names in USE.findall(text):
        steps = path.split(".")
        if steps[0] == "Rattle" and len(steps) > 1 and steps[1] in crates:
            continue
        for it in names.split(","):
            it = it.strip()
            if it:
                found.add(it.split(" as ")[-1].strip())
                found.add(it.split(" as ")[0].strip())
    return found


def cut(text, mark):
    """Text in parts: (is_comment, part)."""
    at = 0
    for m in re.finditer(rf"(?m)(?<!\S){mark}.*$", text):
        yield False, text[at : m.start()]
        yield True, m[0]
        at = m.end()
    yield False, text[at:]


def main():
    folders = sys.argv[1:]
    if not folders:
        print(__doc__)
        raise SystemExit(2)
    texts = {p: open(p, encoding="utf-8").read() for p in files(folders)}
    crates = {n for f in folders for n in os.listdir(f)} | {os.path.basename(os.path.abspath(f)) for f in folders}
    own, made = set(), {}
    for p, t in texts.items():
        if p.endswith(".antt") and is_walk(p):
            made[p] = {n for line in t.split("\n") if not line.startswith(" ") for n in declared(line)}
        elif p.endswith(".antt"):
            own |= declared(t)
    renamed = {n: BY_HAND.get(n, spelled(n)) for n in own if spelled(n) != n}
    # A lemma whose name would be that of a definition is called its law.
    defined = {s for n, s in renamed.items() if "-" not in n} | own
    renamed = {n: s + "_law" if "-" in n and s in defined else s for n, s in renamed.items()}
    library = {p: imported(t, crates) for p, t in texts.items()}
    taken = set().union(*library.values())
    for n in sorted(set(renamed) & taken):
        print(f"look: {n} is declared here and imported from a library in some file: it stays there")
    by_new = {}
    for n, s in renamed.items():
        by_new.setdefault(s, set()).add(n)
    for s, ns in sorted(by_new.items()):
        if len(ns) > 1 or s in own:
            print(f"look: {sorted(ns)} become {s}" + (", which stands already" if s in own else ""))
        clash = [p for p, it in library.items() if s in it and any(re.search(rf"(?<![\w'-]){re.escape(n)}(?![\w'-])", texts[p]) for n in ns)]
        if clash:
            print(f"look: {sorted(ns)} become {s}, which a library has in {clash[:3]}")
    for p, t in texts.items():
        stays = made.get(p, set()) | library[p]

        def turn(m, stays=stays, is_proof=is_walk(p)):
            n = m[0]
            if n not in renamed or n in stays:
                return n
            return renamed[n]

        parts = []
        for is_comment, part in cut(t, "//" if p.endswith(".rt") else "--"):
            if is_comment:
                part = re.sub(r"`[^`]*`", lambda m: NAME.sub(turn, m[0]), part)
                part = NAME.sub(lambda m: turn(m) if re.search(r"[a-z0-9][A-Z]", m[0]) and "-" not in m[0] else m[0], part)
            else:
                part = NAME.sub(turn, part)
            parts.append(part)
        new = "".join(parts)
        if new != t:
            open(p, "w", encoding="utf-8").write(new)
    print(f"respelled: {len(renamed)} names")


main()
