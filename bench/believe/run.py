#!/usr/bin/env python3
"""Follows the clauses of the top call down through the definitions, and compares docs/BELIEVE.md with what it meets."""

import argparse
import re
import sys
from pathlib import Path

TOP = Path(__file__).resolve().parents[2]
CALL = TOP / "crates/rail_cli/src/run.rt"
PAGE = TOP / "docs/BELIEVE.md"
PROMISES = ["simulated", "found", "checked", "found_none", "tightest", "no_time", "checked_in_time", "tried_by_line"]
NAME = re.compile(r"[A-Za-z_][\w']*(?:-[A-Za-z][\w']*)*")
USE = re.compile(r"^\s*(?:ghost )?(?:pub )?use Rattle\.([\w.\-]+?)(?:\.\{([^}]*)\})?(?: as (\w+))?;?\s*$", re.M)
DEFINES = re.compile(r"^\s*(?:(?:abbrev|unfoldable) )?(?:pub )?(?:(?:abbrev|unfoldable|record|data) )?([A-Za-z_][\w'\-]*)")
BEGINS = re.compile(r"^\s*(abbrev|unfoldable|pub record|record|pub data|data) ")
OPENS = re.compile(r"\s*(pub )?data ")
CASE = re.compile(r"\s+(?:pub )?([A-Za-z_][\w\-]*)\s*:")
CLAUSE = re.compile(r"ensures (\w+) \{(.*?)\}\s*(?=\n\s*(?:ensures|//|\n|$)|\Z)", re.S)
QUALIFIED = re.compile(r"\b([A-Za-z_]\w*)\.([A-Za-z_][\w'\-]*)")
# in the prose of the page: a file with its lines, and how many definitions of how many lines a promise rests on
FILE_LINES = re.compile(r"`([\w/.\-]+\.(?:rt|antt))`\s+\(([\d,]+)(?:\s+lines)?[;)]")
RESTS = re.compile(r"\b([MPINLUCT])\s+(?:rests\s+)?on\s+(\d+)(?:\s+definitions,\s+which\s+are|)\s+\(?([\d,]+)")
LETTERS = {"simulated": "M", "found": "P", "checked": "I", "found_none": "N", "tightest": "L", "no_time": "U", "checked_in_time": "C",
           "tried_by_line": "T"}


def uses(text):
    """What each name that a file takes from elsewhere is: the words of a path, and a name there or None."""
    taken = {}
    for path, names, alias in USE.findall(text):
        words = path.split(".")
        if not names:
            taken[alias or words[-1]] = (words, None)
        for name in filter(None, (part.strip() for part in names.split(","))):
            there, _, here = name.partition(" as ")
            taken[here or there] = (words, there)
    return taken


class Definitions:
    """A file of definitions: its lines, the text of each definition, and which one each case of a type belongs to."""

    known = {}

    def __init__(self, path):
        text = path.read_text()
        self.lines = text.count("\n")
        self.uses = uses(text)
        self.texts = {}
        self.cases = {}
        name = None
        for line in text.split("\n"):
            if line.startswith("module ") or line.lstrip().startswith("--"):
                continue
            if BEGINS.match(line):
                name = DEFINES.match(line).group(1)
                self.texts[name] = []
            elif name and OPENS.match(self.texts[name][0]) and CASE.match(line):
                self.cases[CASE.match(line).group(1)] = name
            if name:
                self.texts[name].append(line)

    @classmethod
    def of(cls, path):
        if path not in cls.known:
            cls.known[path] = cls(path)
        return cls.known[path]


def meant(words, name):
    """The file and the definition that a name of a path means; None for types of the code and for the libraries."""
    path = TOP / "crates" / words[0] / "specs" / ("/".join(words[2:]) + ".antt")
    if words[1:3] == ["specs", "declared"] or name is None or not path.exists():
        return None
    there = Definitions.of(path)
    name = there.cases.get(name, name)
    if name in there.texts:
        return path, name
    return meant(*there.uses[name]) if name in there.uses else None


def met_in(path, name):
    """The definitions that a definition names."""
    here = Definitions.of(path)
    text = "\n".join(here.texts[name])
    for word in set(NAME.findall(text)):
        word = here.cases.get(word, word)
        if word in here.texts:
            yield path, word
        elif word in here.uses:
            yield meant(*here.uses[word])
    for alias, word in QUALIFIED.findall(text):
        if here.uses.get(alias, (None, ""))[1] is None:
            yield meant(here.uses[alias][0], word)


def reached(call, taken):
    """All definitions below the text of a clause."""
    found = set()
    left = [meant(*taken[word]) for word in set(NAME.findall(call)) if word in taken]
    while left:
        one = left.pop()
        if one and one not in found:
            found.add(one)
            left.extend(met_in(*one))
    return found


def number(text):
    return int(text.replace(",", ""))


def wrong_files(page):
    """What the page's prose says otherwise of how many lines a file has. A name without a folder is in that of the name before."""
    folder = ""
    for name, lines in FILE_LINES.findall(page):
        path = TOP / "crates" / (name if "/" in name else f"{folder}/{name}")
        folder = path.parent.relative_to(TOP / "crates")
        if not path.exists() or path.read_text().count("\n") != number(lines):
            yield f"{folder / path.name}: has not {lines} lines, as the prose says"


def main():
    parser = argparse.ArgumentParser(description=__doc__)
    parser.add_argument("--names", action="store_true", help="also print the definitions that no promise rests on")
    names = parser.parse_args().names
    text = CALL.read_text()
    head = text[text.index("pub fn run_words") :]
    below = {clause: reached(call, uses(text)) for clause, call in CLAUSE.findall(head[: head.index("\n{")])}
    page = PAGE.read_text()
    told = {row[0]: int(row[1]) for row in re.findall(r"^\| `([^`]+\.antt)` \| (\d+) \|", page, re.M)}
    rests = {letter: (int(many), number(lines)) for letter, many, lines in RESTS.findall(page)}
    faults = [f"{clause}: no such clause" for clause in PROMISES if clause not in below]
    faults += wrong_files(page)
    for path in sorted({path for found in below.values() for path, _ in found}):
        short = str(path.relative_to(TOP / "crates"))
        lines = Definitions.of(path).lines
        clauses = [clause for clause, found in below.items() if any(path == there for there, _ in found)]
        promised = [clause for clause in PROMISES if clause in clauses]
        print(f"{short:36} {lines:4}  {' '.join(promised or ['(' + clauses[0] + ')'])}")
        if names and promised:
            needed = {name for clause in promised for there, name in below[clause] if there == path}
            rest = [name for name in Definitions.of(path).texts if name not in needed]
            print(f"    not needed: {', '.join(rest) or 'none'}")
        if promised and short not in told:
            faults.append(f"{short}: is not on the page")
    for short, lines in told.items():
        path = TOP / "crates" / short
        if not path.exists() or Definitions.of(path).lines != lines:
            faults.append(f"{short}: has not {lines} lines")
    for clause in PROMISES:
        count = sum(1 for _ in below[clause])
        size = sum(len(list(filter(str.strip, Definitions.of(path).texts[name]))) for path, name in below[clause])
        print(f"{clause}: {count} definitions of {size} lines in {len({path for path, _ in below[clause]})} files")
        if rests.get(LETTERS[clause]) != (count, size):
            faults.append(f"{clause}: the prose does not say that it rests on {count} definitions of {size} lines")
    print("\n".join(faults) or "the page is as the definitions are")
    return 1 if faults else 0


if __name__ == "__main__":
    sys.exit(main())
