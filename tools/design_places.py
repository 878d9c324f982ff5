#!/usr/bin/env python3
"""Lists the places that docs/DESIGN-PASS.md counts: older forms of code in crates/*/src.

    python3 tools/design_places.py [FOLDER]      FOLDER has crates/ (the folder above this one, if left out)

A line is a place to look at, by its text alone; the page says what became of each.
"""
import collections
import glob
import os
import re
import sys

ROOT = sys.argv[1] if len(sys.argv) > 1 else os.path.join(os.path.dirname(os.path.abspath(__file__)), "..")


def sources():
    for path in sorted(glob.glob(os.path.join(ROOT, "crates/*/src/*.rt"))):
        with open(path, encoding="utf-8") as file:
            yield os.path.relpath(path, os.path.join(ROOT, "crates")), file.read().split("\n")


SOURCES = list(sources())


def matching(pattern):
    found = re.compile(pattern)
    for name, lines in SOURCES:
        for at, line in enumerate(lines, 1):
            code = line.split("//")[0]
            if found.search(code):
                yield f"{name}:{at}", code.strip()


def blocks(opening):
    """Each item that starts with `opening`, with the lines between its braces."""
    for name, lines in SOURCES:
        for at, line in enumerate(lines):
            head = re.match(opening, line.strip())
            if not head:
                continue
            indent = len(line) - len(line.lstrip())
            body, began = [], "{" in line and not line.rstrip().endswith("}")
            for later in lines[at + 1 :]:
                code = later.split("//")[0].rstrip()
                if not began:
                    began = code.strip() == "{"
                    continue
                if code.startswith(" " * indent + "}"):
                    break
                if code.strip():
                    body.append(code.strip())
            yield f"{name}:{at + 1}", head.group(1), body


def own_options():
    """Enums of one case with a value and one without, or of two with one value each."""
    for place, name, body in blocks(r"(?:pub(?:\(crate\))? )?enum (\w+)"):
        cases = [case for case in body if re.match(r"[A-Z]\w*[(,{]", case)]
        if len(cases) == 2 and any("(" in case for case in cases):
            yield place, f"enum {name}: {' '.join(cases)}"


def twins():
    """Functions whose bodies are alike but for names and numbers, and structs with the same field names."""
    alike = collections.defaultdict(list)
    for place, name, body in blocks(r"(?:pub(?:\(crate\))? )?(?:final )?fn (\w+)"):
        shape = re.sub(r'b?"[^"]*"|\b[A-Za-z_]\w*\b|\b\d+\w*\b', "_", " ".join(body))
        if len(shape) >= 24 and len(body) > 1 or len(shape) >= 40:
            alike[shape].append((place, f"fn {name}"))
    for places in alike.values():
        if len(places) > 1:
            yield from places
    fields = collections.defaultdict(list)
    for place, name, body in blocks(r"(?:pub(?:\(crate\))? )?struct (\w+)"):
        names = tuple(sorted(re.findall(r"^(?:pub(?:\(crate\))? )?(\w+):", "\n".join(body), re.M)))
        if len(names) > 1:
            fields[names].append((place, f"struct {name}"))
    for places in fields.values():
        if len(places) > 1:
            yield from places


def repeated_facts():
    """Facts of one crate's contracts that stand in three clauses or more, whatever the moment they speak of."""
    facts = collections.defaultdict(list)
    for name, lines in SOURCES:
        for at, line in enumerate(lines, 1):
            clause = re.match(r"\s*(?:requires|ensures)(?: \w+)? \{ (.*) \}$", line)
            if clause:
                fact = re.sub(r"\.(old|new|now|entry)\b", "", clause.group(1))
                facts[name.split("/")[0], fact].append((f"{name}:{at}", clause.group(1)))
    for places in facts.values():
        if len(places) > 2:
            yield from places


def travelling():
    """Parameters (name and type) that stand together in the signatures of three functions or more of one crate."""
    together = collections.defaultdict(list)
    for name, lines in SOURCES:
        text = "\n".join(lines)
        for head in re.finditer(r"\bfn (\w+)(?:<[^(]*>)?\(([^)]*)\)", text):
            at = text[: head.start()].count("\n") + 1
            given = [one.strip() for one in head.group(2).replace("\n", " ").split(", ")]
            given = [one.strip(", ") for one in given if ":" in one]
            for i, one in enumerate(given):
                for other in given[i + 1 :]:
                    together[name.split("/")[0], one, other].append((f"{name}:{at}", f"fn {head.group(1)}: {one}, {other}"))
    for places in together.values():
        if len(places) > 2:
            yield from places


POINTS = [
    ("1 own Option or Result", own_options),
    ("1 numbers for kinds or refusals", lambda: matching(r"-> (?:Result<)?\(?u8\b")),
    (
        "1 a match that only wraps again",
        lambda: matching(
            r"Some\(\w+\) => Some\(|Ok\(\w+\) => (?:Ok|Some)\(|None => (?:None|\{\})|Ok\(\(\)\) => \{\}"
            r"|Ok\((?:\w+)\) => \w+,|Err\(_\) =>|let Ok\(\w+\) = |Some\((\w+)\) => \w+\.push\(\1\)"
        ),
    ),
    ("2 twins", twins),
    ("3 loops", lambda: matching(r"^\s*(?:for|while|loop)\b")),
    ("4 equality, order, conversion by hand", lambda: matching(r"^impl.* (?:PartialEq|Eq|PartialOrd|Ord|Clone|From<.*>|TryFrom<.*>|fmt::Display) for ")),
    ("4 casts", lambda: matching(r"\bas (?:u8|u16|u32|u64|usize)\b")),
    ("4 kinds told apart or named by hand", lambda: matching(r"-> &'static str|=> (?:true|false),|^\s*\(\w+::\w+(?:\(\w\))?, \w+::\w+(?:\(\w\))?\) =>|unequal =>")),
    ("5 facts in three contracts", repeated_facts),
    ("5 parameters that travel together", travelling),
    ("6 arrays, and lengths or places beside them", lambda: matching(r"\[\w+; ?\w+\]|\b(?:len|depth|limit|came|taken|body|opener|place): usize,|Container\(usize\)")),
    ("6 searches by hand", lambda: matching(r"\bmid\b|\.len\(\) - 1\b|\[\w+(?:\.\w+)* - 1\]|\[i\]|\bplace\]")),
    ("7 functions as values", lambda: matching(r"\bdyn |\bfn\(|\bFn(?:Mut|Once)?\(")),
]

for title, places in POINTS:
    found = list(places())
    print(f"== {title}: {len(found)}")
    for place, text in found:
        print(f"  {place}: {text}")
