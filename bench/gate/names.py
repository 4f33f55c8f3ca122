#!/usr/bin/env python3
"""Says which entries of crates.txt nothing names: libraries that stand behind a crate there, and of which no source, no definition
and no proof of the crate says the name. Prints a line for each, and ends with status 1 where there is one."""
import os
import re
import sys

TOP = os.path.dirname(os.path.dirname(os.path.dirname(os.path.abspath(__file__))))
PARTS = ("src", "specs", "proofs")


def text_of(crate):
    """All that the crate's files say but comments, which may speak of any library."""
    texts = []
    for part in PARTS:
        for at, _, names in os.walk(f"{TOP}/crates/{crate}/{part}"):
            for name in names:
                with open(f"{at}/{name}", encoding="utf-8") as file:
                    comment = r"//[^\n]*" if name.endswith(".rt") else r"(?m)(^|\s)--[^\n]*"
                    texts.append(re.sub(comment, "", file.read()))
    return "\n".join(texts)


def main():
    entries = lacking = 0
    for row in open(f"{TOP}/crates.txt", encoding="utf-8"):
        name, _, libraries = row.partition("#")[0].strip().partition(":")
        text = text_of(name) if name else ""
        for library in libraries.split():
            entries += 1
            if not re.search(rf"(?<![\w.]){library}(?=\s*(::|\.|;|\}}| as ))|\.{library}\b", text):
                lacking += 1
                print(f"{name}: {library}: nothing names it")
    print(f"{entries} entries, {lacking} that nothing names")
    return 1 if lacking else 0


if __name__ == "__main__":
    sys.exit(main())
