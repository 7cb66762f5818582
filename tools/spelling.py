#!/usr/bin/env python3
"""Brings the names of this repository's own definitions and lemmas to today's spelling: types and facts in camel case, all else
in snake case. Run once, at the top, after the kit's script has turned the spelling of its own words.

A name counts as the repository's own where a line of specs/ or proofs/ declares it. Functions of src/, strings and comments of
code stay. It prints each name that would fall together with another one of the same file."""
import os
import re
import sys

TOKEN = r"[^\s(){}\[\];,.\"`]+"
DECLARED = re.compile(
    r"\s*(?P<marks>(?:(?:pub|abbrev|unfoldable|record|data|let)\s+)*)(?P<name>" + TOKEN + r")(?:\s+\([^)]*\)|\s+\{[^}]*\})*\s+:(?:\s|$)"
)
# Lemmas whose plain new spelling is the name of a trait's member, or of a function of std's.
OTHERWISE = {
    "back-again": "back_again_lem",
    "either-order": "either_order_lem",
    "bit-and": "bit_of_and",
    "bit-xor": "bit_of_xor",
}
# What the kit's script has turned already in the place that declares it.
TURNED = {"crates/hands/proofs/Orders.antt": {"either_order": "either_order_lem"}}
IN_FUNCTION = ("Answers.antt", "Invariants.antt", "Proof.antt", "Choices.antt")


def files(*endings):
    for folder, dirs, names in os.walk("crates"):
        dirs[:] = sorted(d for d in dirs if d != "out")
        for name in sorted(names):
            if name.endswith(endings):
                yield os.path.join(folder, name)


def read(path):
    with open(path, encoding="utf-8") as f:
        return f.read()


def turned(name):
    if name in OTHERWISE:
        return OTHERWISE[name]
    parts = name.split("-")
    if name[0].isupper():
        return "".join(p[0].upper() + p[1:] for p in parts)
    return "_".join(parts)


def in_function(path):
    """Is it the proof of one function? It has the names that the check gives to goals and steps."""
    return "/proofs/" in path and os.path.basename(path) in IN_FUNCTION


def foreign_names():
    """What the files import from std, the kit's libraries and its logic."""
    own = {f"Rattle.{crate}." for crate in os.listdir("crates")}
    names = set()
    for path in files(".antt"):
        for line in read(path).split("\n"):
            if line.startswith("use ") and not any(line.startswith("use " + o) for o in own):
                names |= set(re.findall(TOKEN, line))
    return names


def bound_names(text):
    """Names with dashes that a file of definitions or lemmas binds or gives by `as`."""
    found = set()
    for free, piece in pieces(text, "--"):
        if free:
            found |= {w for w in re.findall(TOKEN, piece) if re.fullmatch(r"[A-Za-z][A-Za-z0-9_']*(-[A-Za-z0-9_']+)+", w)}
    return found


def own_names():
    names, of_std = set(), set()
    for path in files(".antt"):
        for line in read(path).split("\n"):
            if line.startswith("use Rattle.std"):
                of_std |= set(re.findall(TOKEN, line))
            m = DECLARED.match(line)
            if not m or "-" not in m["name"] or line.strip().startswith("--"):
                continue
            # a goal that the check names is public in a function's own file
            if in_function(path) and "pub" in m["marks"]:
                continue
            if all(re.fullmatch(r"[A-Za-z0-9_']+", p) for p in m["name"].split("-")):
                names.add(m["name"])
    return (names | set(OTHERWISE)) - of_std


def rewrite(text, names, comment):
    out = []
    for free, piece in pieces(text, comment):
        out.append(re.sub(TOKEN, lambda m: turned(m.group(0)) if m.group(0) in names else m.group(0), piece) if free else piece)
    return "".join(out)


def pieces(text, comment):
    """The text in pieces: (may be turned?, piece). Strings and comments stay."""
    for line in text.splitlines(keepends=True):
        at = line.find(comment + " ")
        if line.strip().startswith(comment):
            yield False, line
            continue
        head, tail = (line, "") if at < 0 else (line[:at], line[at:])
        for m in re.finditer(r'"(?:[^"\\]|\\.)*"|[^"]+|"', head):
            yield not m.group(0).startswith('"'), m.group(0)
        if tail:
            yield False, tail


def main():
    names, foreign = own_names(), foreign_names()
    spelt = {turned(n): n for n in names}
    if len(spelt) != len(names):
        sys.exit("two names fall together")
    for path in files(".antt", ".rt", ".edit"):
        text = read(path)
        comment = "--" if path.endswith(".antt") else "//"
        here = names
        if path.endswith(".antt") and not in_function(path):
            here = names | (bound_names(text) - foreign)
        before = set(re.findall(TOKEN, text))
        for old in sorted(here & before):
            if turned(old) in before:
                print(f"{path}: {old} falls together with {turned(old)}")
        after = rewrite(text, here, comment)
        for old, new in TURNED.get(path, {}).items():
            after = re.sub(r"\b%s\b(?=[^.{]*( :| h))" % old, new, after)
        if after != text:
            with open(path, "w", encoding="utf-8") as f:
                f.write(after)
    print(f"{len(names)} names")


main()
