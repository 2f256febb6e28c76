#!/usr/bin/env python3
"""Brings the names of this repository's definitions and lemmas to snake case, once, after the port's own script.

  tools/respell.py [--list] [DIR]

A name that is written with dashes or in camel case becomes snake case in each .antt file, clause and must-fail edit below
DIR/crates. Types, modules, names of the library, and names that the toolchain makes for a function's proof stay. Where a
lemma would get a definition's name, `_lem` follows. --list prints what would become what."""
import collections
import pathlib
import re
import sys

TOKEN = re.compile(r"[^\s(){}\[\],;.λ\"`⌜⌝]+")
OLD = re.compile(r"^(?:[A-Za-z][A-Za-z0-9_'₀₁₂₃]*-[A-Za-z0-9'₀₁₂₃_-]+|[a-z][a-z0-9_]*[A-Z][A-Za-z0-9_'₀₁₂₃]*)$")
IMPORT = re.compile(r"(?m)^(?:pub |ghost )*use ([^\s{;]+)\.\{([^}]*)\}")
# Names that differ in case alone, or that would fall together.
BY_HAND = {
    "after_check": "after_check_lem", "some_IsFirst": "some_first", "data-and-P": "data_and_p_lost", "data-and-Q": "data_and_q_lost", "data-and-p": "data_and_p_lem", "data-and-q": "data_and_q_lem",
}


def snake(name):
    return re.sub(r"(?<=[a-z0-9_])([A-Z])", lambda m: "_" + m[1].lower(), name).replace("-", "_").lower()


def files(root, *endings):
    return sorted(p for p in (root / "crates").rglob("*") if p.suffix in endings and "out" not in p.parts)


def is_answers(path):
    return "proofs" in path.parts and path.parts[path.parts.index("proofs") + 1:][:-1] != ()


def mapping(root):
    crates = {p.name for p in (root / "crates").iterdir()}
    library, own, seen, fields = set(), set(), set(), set()
    for path in files(root, ".antt"):
        text = path.read_text()
        for module, items in IMPORT.findall(text):
            made = re.match(r"Rattle\.(\w+)\.", module)
            if not made or made[1] not in crates:
                library |= {i.split(" as ")[0].strip() for i in items.split(",")}
        body = re.sub(r"(?m)^(?:pub |ghost )*use .*", "", re.sub(r"--.*", "", text))
        names = [(m[0], m.start() and body[m.start() - 1] == ".") for m in TOKEN.finditer(body)]
        plain = {n for n, dotted in names if not dotted}
        seen |= plain
        if is_answers(path):
            own |= {n for n in re.findall(r"(?m)^\s*(?:pub |abbrev |unfoldable )*(\S+) : (?!tie\.)", body) if OLD.match(n) and not re.match(r"Inv-|μ-", n)}
        else:
            own |= {n for n in plain if OLD.match(n)}
            for record in re.findall(r"(?m)^\s*(?:pub )?record [^\n]*where\n((?:[ \t]+[^\n]*\n|\n)*)", body):
                fields |= {n for n in re.findall(r"(?m)^\s+(?:pub )?(\S+) :", record) if OLD.match(n)}
    own -= library
    new = dict(BY_HAND)
    taken = collections.defaultdict(set)
    for n in (seen | library) - own:
        taken[n].add(n)
    for n in sorted(own, key=lambda n: ("-" in n, n)):
        if n in new:
            continue
        to = snake(n)
        if taken[to] and "-" in n:
            to += "_lem"
        taken[to].add(n)
        new[n] = to
    return {n: new[n] for n in own | set(BY_HAND)}, fields, {t: v for t, v in taken.items() if len(v) > 1}


def turn(text, names, fields):
    out, last = [], 0
    # In a comment only a name between back quotes is one.
    comments = [m.span() for m in re.finditer(r"(?m)(?:--|//) .*$|^# .*$", text)]
    for m in TOKEN.finditer(text):
        word = m[0]
        before = text[m.start() - 1] if m.start() else ""
        if any(a <= m.start() < b for a, b in comments) and before != "`":
            continue
        of_module = re.search(r"(?:^|[^\w.])[A-Z]\w*\.$", text[max(0, m.start() - 40):m.start()])
        if word in names and (word in fields or of_module if before == "." else True):
            out += [text[last:m.start()], names[word]]
            last = m.end()
    return "".join(out) + text[last:]


def main(words):
    root = pathlib.Path(next((w for w in words if w != "--list"), "."))
    names, fields, clashes = mapping(root)
    if "--list" in words:
        for n in sorted(names):
            print(n, names[n])
        for t, v in sorted(clashes.items()):
            print("clash:", t, sorted(v))
        return
    for path in files(root, ".antt", ".rt", ".edit"):
        text = path.read_text()
        new = turn(text, names, fields)
        if new != text:
            path.write_text(new)
    print(len(names), "names")


main(sys.argv[1:])
