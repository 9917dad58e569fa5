#!/usr/bin/env python3
"""Respells this repository's own definitions and lemmas: words in snake case, facts in camel case, a prime as an apostrophe.

usage: tools/respell.py          in the repository, once, after the kit's port.py

It is kept for whoever compares what landed before the port with what stands now: run both on that older text. Where docs/PORT.md is there
it has run, and refuses.

It goes by whole names in .antt files, in .rt files outside strings, in must-fail edits and in the pages. A name of two words, as
`mayWrite`, becomes `may_write`; a definition whose value is a type, as `handed`, becomes `Handed`. Functions of src/, exported names,
strings, inputs and outputs have no such names and stay. A lemma that would then have its word's name gets `_lem`. It stops, and writes
nothing, where two names would fall together in a file of specs/ or proofs/; a word may have the name of the function that computes it.
"""

import collections
import pathlib
import re
import subprocess
import sys

NAME = re.compile(r"(?<![\w'])[a-z][a-z0-9]*(?:[A-Z][a-z0-9]*)+(?:'*)(?![\w'])")
FACTS = {"laidOrNot": "LaidOrNot"}
# lemmas that have the name that a word gets, by their crates
LEMMAS = {("bus", "leading_length"), ("day_tally", "in_one"), ("ledger", "whole_in"), ("steps", "on_value")}


def snake(name):
    return re.sub(r"(?<=[a-z0-9])([A-Z]+)", lambda m: "_" + m[1].lower(), name)


def turned(name):
    return FACTS.get(name, snake(name))


def split(text):
    """The text of a .rt file in parts: code and comments at even places, strings and characters at odd ones."""
    return re.split(r"""(b?"(?:\\.|[^"\\])*"|b?'(?:\\.|[^'\\\n])')""", text)


def turn(text, names):
    return NAME.sub(lambda m: names.get(m[0], m[0]), text)


def lemmas(path, text):
    """The text of a file of proofs/ with `_lem` after the lemmas of LEMMAS."""
    for crate, name in LEMMAS:
        if path.parts[-3:-1] == (crate, "proofs"):
            text = re.sub(rf"(?<![\w'.-]){name}(?![\w'-])", name + "_lem", text)
    return text


def handed(path, text):
    """The text of a file of onegrish_reading with its fact `handed` as `Handed`: elsewhere the name is a value's."""
    if "onegrish_reading" in path.parts and path.suffix in (".rt", ".antt") and path.name != "Proof.antt":
        text = re.sub(r"(?<=\{ )handed(?= )|(?<=, )handed(?=\})|^(abbrev pub )?handed(?= )", lambda m: m[0].replace("handed", "Handed"), text, flags=re.M)
    return text


def files(top, *patterns):
    for pattern in patterns:
        for path in sorted(top.glob(pattern)):
            if "out" not in path.parts:
                yield path


def main():
    if sys.argv[1:]:
        asked = sys.argv[1:] in (["-h"], ["--help"])
        print(__doc__ if asked else f"respell: takes no words, and got '{' '.join(sys.argv[1:])}'", file=sys.stdout if asked else sys.stderr)
        return 0 if asked else 2
    top = pathlib.Path(subprocess.run(["git", "rev-parse", "--show-toplevel"], check=True, capture_output=True, text=True).stdout.strip())
    if (top / "docs/PORT.md").exists():
        print("respell: the names are respelled already (docs/PORT.md)", file=sys.stderr)
        return 2
    proofs = list(files(top, "crates/*/specs/**/*.antt", "crates/*/proofs/**/*.antt"))
    sources = list(files(top, "crates/*/src/**/*.rt"))
    edits = list(files(top, "crates/*/must-fail/*.edit"))
    pages = list(files(top, "*.md", "docs/**/*.md", "second/README.md"))
    names = {}
    for path in proofs:
        for name in NAME.findall(path.read_text()):
            if name != "getD":  # a word of an older library
                names[name] = turned(name)
    fall = collections.defaultdict(list)
    for path in proofs:
        if path.name == "Proof.antt":  # its paths name functions of src/
            continue
        text = lemmas(path, path.read_text())
        words = set(re.findall(r"(?<![\w'])[A-Za-z][\w']*", text))
        for name in sorted(words & names.keys()):
            if names[name] in words:
                fall[name].append(str(path.relative_to(top)))
    back = collections.Counter(names.values())
    for name, to in sorted(names.items()):
        if back[to] > 1:
            fall[name].append("another name becomes " + to)
    for name, where in sorted(fall.items()):
        print(f"respell: {name} and {names[name]} fall together: {', '.join(where)}")
    if fall:
        return 1
    changed = 0
    for path in proofs + sources + edits + pages:
        old = path.read_text()
        if path.suffix == ".rt":
            parts = split(old)
            parts[::2] = [turn(p, names) for p in parts[::2]]
            new = "".join(parts)
        else:
            new = turn(lemmas(path, old), names)
        new = handed(path, new)
        if new != old:
            path.write_text(new)
            changed += 1
    print(f"respell: {len(names)} names, {changed} files")
    return 0


if __name__ == "__main__":
    raise SystemExit(main())
