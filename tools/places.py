#!/usr/bin/env python3
"""Counts the places of each point of docs/DESIGN-PASS.md.

    python3 tools/places.py [FOLDER]        counts, and the places themselves

FOLDER is a checkout of this repository (by default the current one). Places are
found by their look in src/ alone, so some that are found are fine as they are:
the page says which, and why.
"""
import collections
import glob
import os
import re
import sys

KEYWORDS = set(
    "as break const continue else enum false fn for if impl in let loop match mut "
    "pub ref return self Self struct trait true type use where while Ok Err Some None".split()
)


def sources(folder):
    for path in sorted(glob.glob(os.path.join(folder, "crates/*/src/**/*.rt"), recursive=True)):
        with open(path, encoding="utf-8") as file:
            yield os.path.relpath(path, folder), file.read()


def plain(text):
    """The text without comments and without clauses, at the same line numbers."""
    text = re.sub(r"//.*", "", text)
    return re.sub(r"^[ \t]*(requires|ensures|ghost)\b.*$", "", text, flags=re.M)


def line_of(text, at):
    return text.count("\n", 0, at) + 1


def matches(files, pattern, flags=re.M):
    for path, text in files:
        code = plain(text)
        for m in re.finditer(pattern, code, flags):
            yield "%s:%d: %s" % (path, line_of(code, m.end()), " ".join(m.group(0).split()))


def functions(files):
    """(path, line, name, parameters, result, body) of each function with a body."""
    for path, text in files:
        code = plain(text)
        for m in re.finditer(r"\bfn\s+([a-z_0-9]+)(<[^({]*>)?\(([^)]*)\)\s*(->[^{;]*)?\{", code):
            depth, at = 1, m.end()
            while depth and at < len(code):
                depth += {"{": 1, "}": -1}.get(code[at], 0)
                at += 1
            yield path, line_of(code, m.start()), m.group(1), m.group(3), (m.group(4) or "").strip(), code[m.end():at - 1]


def shape(body):
    """The body with each name, number and text replaced by one sign."""
    out = []
    for word in re.findall(r"[A-Za-z_]\w*|\d[\w]*|b?'[^']*'|b?\"[^\"]*\"|\S", body):
        if word in KEYWORDS:
            out.append(word)
        elif re.match(r"[A-Za-z_]", word) and not re.match(r"b['\"]", word):
            out.append("x")
        elif re.match(r"\d|b?['\"]", word):
            out.append("0")
        else:
            out.append(word)
    # A path or a chain of fields counts as one name.
    return re.sub(r"x(( :: | \. )x)+", "x", " ".join(out))


def twins(files):
    groups = collections.defaultdict(list)
    for path, line, name, _, _, body in functions(files):
        form = shape(body)
        if len(form.split()) >= 6:
            groups[form].append("%s:%d %s" % (path, line, name))
    for members in groups.values():
        if len(members) > 1:
            yield ", ".join(members)


def clauses(files):
    """Facts that three or more `requires` state, crate by crate."""
    count = collections.Counter()
    for path, text in files:
        for m in re.finditer(r"^\s*requires (?:[a-z_]+ )?\{(.*)\}\s*$", text, re.M):
            count[path.split("/")[1], m.group(1).strip()] += 1
    for (crate, fact), n in sorted(count.items(), key=lambda item: -item[1]):
        if n >= 3:
            yield "%s: %d times { %s }" % (crate, n, fact)


def together(files):
    """Pairs of parameters, with their types, that three or more functions of a crate take."""
    pairs = collections.defaultdict(set)
    for path, line, name, parameters, _, _ in functions(files):
        parts = [" ".join(p.split()) for p in re.split(r",(?![^<(\[]*[>)\]])", parameters) if p.strip()]
        parts = [p for p in parts if not re.match(r"(&('a )?)?(mut )?self$", p)]
        for i, one in enumerate(parts):
            for other in parts[i + 1:]:
                pairs[path.split("/")[1], one, other].add("%s:%d" % (name, line))
    for (crate, one, other), names in sorted(pairs.items(), key=lambda item: -len(item[1])):
        if len(names) >= 3:
            yield "%s: %d functions take (%s, %s)" % (crate, len(names), one, other)


def changing_tests(files):
    """Functions that change something and say by a bool whether they could."""
    for path, line, name, parameters, result, _ in functions(files):
        if result.startswith("-> bool") and "&mut" in parameters:
            yield "%s:%d: fn %s" % (path, line, name)


def report(title, places):
    places = list(places)
    print("%s: %d" % (title, len(places)))
    for place in places:
        print("    " + place)
    return len(places)


def main():
    folder = sys.argv[1] if len(sys.argv) > 1 else "."
    files = list(sources(folder))
    report("1a enums", matches(files, r"^\s*(?:pub(?:\(crate\))? )?enum \w+"))
    report("1b numbers of refusals, in pairs", matches(files, r"-> \(u8, [^)]*\)|\b(?:number|refusal): u8,\s*place: Option<u64>"))
    report("1c changes that say by a bool whether they were made", changing_tests(files))
    report("1d results that mean nothing", matches(files, r"fn \w+\(\) -> u8\b"))
    report("2 groups of functions of one shape", twins(files))
    report("3 loops by an index or by hand", matches(files, r"^\s*(?:for \S+ in [^{\n]*\.\.[^{\n]*\{|while [^{\n]*\{|loop \{)"))
    report("4a conversions and orders by hand", matches(files, r"^impl[^{\n]*\b(?:From|TryFrom|PartialEq|Eq|PartialOrd|Ord|Clone|Copy|Default)(?:<[^{\n]*>)? for [^{\n]*|fn is_below\b[^{\n;]*"))
    report("4b printing by hand", matches(files, r"fn (?:put_\w+|write_\w+|show_refusal|digit|hex_digit|\w+_line)\b"))
    report("5a facts required by three or more functions", clauses(files))
    report("5b parameters that three or more functions take together", together(files))
    report("6 arrays of a fixed size in types and parameters", matches(files, r"\b\w+: &?(?:mut )?\[+[^\]\n;=]+; ?[0-9_]+\](?:; ?[0-9_]+\])?|-> \[[^\]\n]+; ?[0-9_]+\]"))
    report("7 tables of functions, switches on a text", matches(files, r"\bfn\(|\bdyn \w+|\bBox<|strip_prefix\(|^\s*\"[^\"]*\" =>"))
    for name in ("specs", "proofs"):
        lines = files_ = 0
        for path in glob.glob(os.path.join(folder, "crates/*/%s/**/*.antt" % name), recursive=True):
            if "/out/" not in path:
                files_ += 1
                with open(path, encoding="utf-8") as file:
                    lines += len(file.readlines())
        print("8 %s: %d lines in %d files" % (name, lines, files_))


main()
