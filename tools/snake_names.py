#!/usr/bin/env python3
"""Brings the repository's own names in specs/ and proofs/ to snake case: a definition, lemma, field, constructor or
variable `one-two` becomes `one_two`, and `one_two_lem` where a function has that name. Names of the library, and the
names that the check makes (goals and steps), stay as they are.

    tools/snake_names.py          lists what it would rename
    tools/snake_names.py --write  renames
"""
import pathlib
import re
import sys

TOP = pathlib.Path(__file__).resolve().parent.parent
WORD = r"[^\W\d](?:[\w'ℕℤ]|-(?=[\wℕℤ]))*"
NAME = re.compile(WORD)
CHAIN = re.compile(rf"{WORD}(?:\.(?:{WORD}|\d+))*")
# Names of functions elsewhere that no lemma or definition stands beside.
PLAIN = {"in-range", "cut-off-one", "open-link"}


def is_answer(path):
    return path.name in ("Answers.antt", "Invariants.antt", "Proof.antt")


def strip(text):
    return re.sub(r"--.*", "", text)


def declared(text):
    """The names that a file declares itself."""
    names = set()
    for line in strip(text).splitlines():
        m = re.match(r"^\s*(?:abbrev |unfoldable |pub |axiom )*([^\s:(){}]+)\s*:(?!:)", line)
        if m and "goal." not in line:
            names.add(m.group(1))
        for group in re.findall(r"[({]([^(){}:]*?) :(?!:)", line):
            names.update(group.split())
        for binder in re.findall(r"λ ([^.]*)\.", line):
            names.update(NAME.findall(binder))
        for bound in re.findall(r"\blet ([^\s:=]+)\s*[:=]", line):
            names.add(bound)
    return {n for n in names if "-" in n and NAME.fullmatch(n)}


def foreign(text):
    """The names that a file has from the library or from the check."""
    names = set()
    plain = strip(text)
    for head, items in re.findall(r"use ([\w.'◌-]+?)\.?\{([^{}]*)\}", plain):
        crate = re.match(r"Rattle\.(\w+)", head)
        own = crate and (TOP / "crates" / crate.group(1)).is_dir()
        if not own or re.search(r"\.proofs\..*(Goals|Given)$", head):
            names.update(NAME.findall(items))
    names.update(re.findall(rf"\bgoal\.({WORD})", plain))
    return names


def main():
    files = sorted(TOP.glob("crates/*/specs/**/*.antt")) + sorted(TOP.glob("crates/*/proofs/**/*.antt"))
    sources = sorted(TOP.glob("crates/*/src/**/*.rt"))
    texts = {p: p.read_text() for p in files + sources}
    own = {}
    for p in files:
        for n in declared(texts[p]):
            own.setdefault(n, []).append(p)
    library = set().union(*(foreign(texts[p]) for p in files + sources))
    for p in files:
        if not is_answer(p):
            for n in NAME.findall(strip(texts[p])):
                if "-" in n and n not in library and n not in own:
                    own[n] = [p]
    functions = set()
    for p in sources:
        functions.update(re.findall(r"\bfn (\w+)", texts[p]))
    every = set()
    for p in files + sources:
        every.update(NAME.findall(texts[p]))
    rename = {}
    for n in own:
        new = n.replace("-", "_")
        if re.fullmatch("[A-Z][a-z]+(-[a-z]+)+", n):
            new = re.sub("-(.)", lambda m: m.group(1).upper(), n)
        rename[n] = new + "_lem" if new in functions and n not in PLAIN else new
    if "--write" not in sys.argv:
        print(len(rename), "names")
        show = lambda n: (n, rename[n], [str(p.relative_to(TOP)) for p in own[n]][:3])
        print("beside a function:", [show(n) for n in rename if rename[n].endswith("_lem")])
        print("would meet a name that is there:", [show(n) for n in rename if rename[n] in every])
        print("own and not:", [show(n) for n in rename if n in library])
        return
    for p in files + sources:
        there = foreign(texts[p])

        def turned(m):
            parts = m.group(0).split(".")
            made = is_answer(p) and parts[0] in ("c", "w", "goal", "l", "p", "g")
            out = []
            for k, n in enumerate(parts):
                keep = n not in rename or n in there or (made and k == 1)
                out.append(n if keep else rename[n])
            return ".".join(out)

        comment = "//" if p.suffix == ".rt" else "--"
        lines = []
        for line in texts[p].split("\n"):
            code, mark, rest = line.partition(comment)
            if not (p.suffix == ".rt" and '"' in code):
                code = CHAIN.sub(turned, code)
            lines.append(code + mark + rest)
        new = "\n".join(lines)
        if new != texts[p]:
            p.write_text(new)


main()
