#!/usr/bin/env python3
"""Brings the repository's own definitions and lemmas to today's spelling, run after the toolchain's port.py.

Words are in snake case, types and modules in camel case: `grammarLayout` becomes `grammar_layout`, `on-found-none` becomes
`on_found_none`. Renamed is what specs/ and proofs/ declare: definitions, lemmas, constructors and fields. What stands in src/ keeps its
name, and so do the answers of a Proof.antt, which are named after goals.

    python3 tools/respell.py          renames, and prints what it did
    python3 tools/respell.py --list   prints the names alone
"""
import collections
import glob
import re
import sys

OWN = "entities|feed|finite|laws|layout|lexeme|limits|records|rules|stream|theorems|typing|walk"
WORD = re.compile(r"[^\s(){}\[\].,;:@«»λ\"`|]+")
# A constructor of rules and a definition of layout, which no file cites together.
BOTH = ["yes-no", "yesNo"]
# Names that get a word more, since another thing has the plain one.
APART = {
    "asks-class": "asks_a_class",
    "asks-nonterminal": "asks_a_nonterminal",
    "asks-repetition": "asks_a_repetition",
    "oneMore": "one_more_production",
}
# Lemmas that would come to the name of a definition: that of port.py's spelling, or of this one's.
LEMMAS = "end-at has-type type-named byte-of text-of kind-of place-of plain-of sites-of typed-of visit-at bit-and bit-or below_at first_byte no_plain plain_end".split()


def antt_files():
    return sorted(glob.glob("crates/*/specs/**/*.antt", recursive=True) + glob.glob("crates/*/proofs/**/*.antt", recursive=True))


def snake_of(name):
    return re.sub(r"(?<=[a-z0-9])([A-Z])", lambda m: "_" + m.group(1).lower(), name).replace("-", "_")


def snake(name):
    if name in APART:
        return APART[name]
    return snake_of(name) + "_lem" * (name in LEMMAS)


def wanted(name):
    """A name of a function, lemma, constructor or field that isn't in snake case."""
    return re.fullmatch(r"[a-z][A-Za-z0-9'_-]*", name) and snake(name) != name


def declared(path):
    """The names that a file declares at its margin or as a constructor, and those that it declares as a field: pairs of name and kind."""
    inside = None
    text = open(path).read()
    goals = set(re.findall(r"^(?:abbrev )?(?:pub )?(\S+) : [^\n]*(?:\btie\.|\bstatement\b)", text, re.M)) if path.endswith("/Proof.antt") else set()
    for line in text.split("\n"):
        if line and not line.startswith((" ", "\t", "--", "use ", "pub use ", "open ", "mod ", "pub mod ", "unfolding ", "ruleset ", "pub ruleset ", ")", "}", "]")):
            head = re.match(r"((?:unfoldable |abbrev |pub |opaque )*)(data |record |module |mutual$)?(\S*)", line)
            inside = head.group(2) and head.group(2).strip()
            if not inside and head.group(3) not in goals:
                yield head.group(3), "definition"
        elif inside in ("data", "record"):
            member = re.match(r"\s+(?:pub )?([^:=]+?) :", line)
            for name in member.group(1).split() if member else ():
                yield name, "definition" if inside == "data" else "field"
        elif inside in ("module", "mutual"):
            member = re.match(r" +(?:unfoldable |abbrev |pub )*([^\s(){}]+) (?:\{[^}]*\} |\([^)]*\) )*:", line)
            if member and member.group(1) not in ("unfolding", "--", "let"):
                yield member.group(1), "definition"


def respelled(line, path, to):
    """A line with the names of `to`; in a comment only those between backquotes are names, the rest is prose."""
    mark = {"antt": "--", "rt": "//", "edit": "#"}[path.rsplit(".", 1)[1]]
    start = re.match(r"\s*" + mark, line) if mark == "#" else re.search(r"(?:^|\s)" + mark + r"(?=\s|$)", line)
    code, prose = (line[: start.start()], line[start.start() :]) if start else (line, "")

    def name(m):
        word = m.group(0)
        if word == "well-formed" and "/entities/" not in path:
            return "well_formed"  # a field; the lemma of that name is of crate entities
        if path.endswith("/Proof.antt") and m.string[m.start() - 1 : m.start()] == "." and word in to:
            return snake_of(word)  # a step of the code, or a field
        return to.get(word, word)

    return WORD.sub(name, code) + re.sub(r"`[^`]*`", lambda m: WORD.sub(name, m.group(0)), prose)


def main():
    kinds = collections.defaultdict(set)
    for path in antt_files():
        for name, kind in declared(path):
            kinds[name].add(kind)
    all_to = to = {name: snake(name) for name in kinds if wanted(name)}
    together = collections.defaultdict(set)
    for old, new in to.items():
        together[new].add(old)
    # a lemma that would have its definition's name
    for new, olds in together.items():
        if len(olds) > 1:
            for old in olds:
                if "-" in old and "definition" in kinds[old] and old not in BOTH and old not in APART:
                    to[old] = new + "_lem"
    files = antt_files() + sorted(glob.glob("crates/*/src/**/*.rt", recursive=True)) + sorted(glob.glob("crates/*/must-fail/*.edit"))
    used = collections.Counter()
    where = collections.defaultdict(set)
    for path in files:
        for word in set(WORD.findall(open(path).read())):
            used[word] += 1
            where[word].add(path)
    for new, olds in sorted((new, [old for old in to if to[old] == new]) for new in set(to.values())):
        if len(olds) > 1:
            print("together:", new, sorted(olds))
        if new in used and new not in to and (new in kinds or not any(path.endswith(".rt") for path in where[new])):
            print("in use:", new, [(old, sorted(kinds[old])) for old in olds], sorted(kinds.get(new, ())), sorted(where[new])[:4], len(where[new]))
    if "--list" in sys.argv:
        return
    for path in files:
        text = open(path).read()
        # names of the toolchain's library that this file imports
        theirs = set(WORD.findall(" ".join(re.findall(r"^(?:ghost |pub )?use (?!Rattle\.(?:%s)\.)[^{\n]*\{([^}]*)\}" % OWN, text, re.M))))
        to = {old: new for old, new in all_to.items() if old not in theirs}
        new = "\n".join(respelled(line, path, to) for line in text.split("\n"))
        if new != text:
            open(path, "w").write(new)
    print(len(to), "names respelled")


main()
