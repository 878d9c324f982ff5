#!/usr/bin/env python3
"""Brings this repository's own names to the kit's spelling of today.

Run once, at the top of the checkout, right after the kit's port.py:

    python3 tools/respell_names.py [--dry]

A definition, a lemma or a field takes underscores: `same-owner` becomes `same_owner`, `sameKind` becomes `same_kind`. A fact or a record takes
inner capitals: `Names-in-order` becomes `NamesInOrder`. Only names that specs/, proofs/ or a trait of this repository declares turn, and only as
whole words: what the check generates (answers, invariants, measures and the labels of a proof's steps) and what the library declares stays.
In comments only words in back ticks turn. Names of Rust functions, strings, inputs and outputs stay.

It prints where two names fall together (TOGETHER), and where a new name was a word of the repository already (MET).
"""
import collections
import glob
import re
import sys

# a character of a name, and a whole name
LETTER = r"[^\s(){}\[\].,;:⌜⌝«»`'\"]"
WORD = re.compile(rf"(?<!{LETTER})({LETTER}+)")
DECLARATION = re.compile(rf"^(\s*)((?:abbrev |unfoldable |pub |record |data )*)({LETTER}+) ?([^:]*):( |$)")
GENERATED = re.compile(r"^(returns|loop|invariant|overflow|decreases|bounds)-")
DASHED = re.compile(r"[a-zA-Z0-9]-[a-zA-Z0-9]")
INNER_CAPITAL = re.compile(r"^[a-z]+[A-Z]")
KEYWORDS = {"use", "mod", "where", "in", "let", "elim", "open", "pub", "module", "unfolding", "data", "record", "abbrev", "unfoldable", "λ", "|"}


def read(path):
    with open(path) as file:
        return file.read()


def sources():
    """The proof-language files and the Rust files of every crate."""
    antt = glob.glob("crates/*/specs/**/*.antt", recursive=True) + glob.glob("crates/*/proofs/**/*.antt", recursive=True)
    return sorted(antt), sorted(glob.glob("crates/*/src/**/*.rt", recursive=True))


def declared_names(antt, rust):
    """Every name to turn, and those among them that are fields of a record or members of a trait."""
    names, fields = set(), set()
    for path in antt:
        in_record = False
        for line in read(path).split("\n"):
            if line.startswith("--"):
                continue
            if line and not line[0].isspace():
                in_record = "record " in line
            if re.match(r"^(pub )?use ", line):
                # a name that an import gives, as in `PlainBlock as plain-block`
                names.update(m.group(1) for m in re.finditer(rf" as ({LETTER}*{DASHED.pattern}{LETTER}*)", line))
                continue
            found = DECLARATION.match(line)
            if not found or re.search(r":\s*goal\.", line):
                continue
            name = found.group(3)
            if name in KEYWORDS or GENERATED.match(name):
                continue
            if not DASHED.search(name) and ("-" in name or not INNER_CAPITAL.match(name)):
                continue
            names.add(name)
            if in_record and found.group(1):
                fields.add(name)
    for path in rust:
        for found in re.finditer(rf"^\s*(?:pub )?ghost ({LETTER}*-{LETTER}+):", read(path), re.M):
            names.add(found.group(1))
            fields.add(found.group(1))
    return names, fields


def respelled(name):
    if name[0].isupper():
        return "".join(part[0].upper() + part[1:] for part in name.split("-"))
    if "-" not in name:
        name = re.sub(r"([a-z])([A-Z])", lambda m: m.group(1) + "_" + m.group(2).lower(), name)
    return name.replace("-", "_")


def turned(text, new, fields):
    """The text with each whole word of `new` replaced. Behind a dot only a field turns, or what a path of a crate leads to."""

    def word(found):
        name = found.group(1)
        before = text[: found.start()]
        if name not in new:
            return name
        if before.endswith(".") and name not in fields and not re.search(r"Rattle(\.\w+)+\.$", before):
            return name
        return new[name]

    return WORD.sub(word, text)


def turned_file(path, new, fields):
    lines = []
    for line in read(path).split("\n"):
        if path.endswith(".rt"):
            at = line.find("//")
        else:
            comment = re.search(r"(^|\s)-- ", line)
            at = comment.start() if comment else -1
        code, comment = (line, "") if at < 0 else (line[:at], line[at:])
        if not (path.endswith(".rt") and '"' in code):
            code = turned(code, new, fields)
        comment = re.sub(r"`[^`]*`", lambda m: turned(m.group(0), new, fields), comment)
        lines.append(code + comment)
    return "\n".join(lines)


def report_clashes(new, paths):
    words = collections.defaultdict(set)
    for path in paths:
        for found in WORD.finditer(read(path)):
            words[found.group(1)].add(path)
    olds = collections.defaultdict(list)
    for old, name in sorted(new.items()):
        olds[name].append(old)
    for name, old in olds.items():
        if len(old) > 1:
            print("TOGETHER", name, old)
        if name in words:
            print("MET", old, "->", name, "already in", sorted(words[name]))


def main():
    dry = "--dry" in sys.argv
    antt, rust = sources()
    names, fields = declared_names(antt, rust)
    new = {name: respelled(name) for name in names}
    report_clashes(new, antt + rust)
    files = 0
    for path in antt + rust:
        text = turned_file(path, new, fields)
        if text != read(path):
            files += 1
            if not dry:
                with open(path, "w") as file:
                    file.write(text)
    print(len(new), "names,", files, "files")


main()
