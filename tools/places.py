#!/usr/bin/env python3
"""Counts the places of docs/DESIGN-PASS.md in the sources: places.py [--list] [FOLDER]"""

import pathlib
import re
import sys

# a point's name, and what a line of src/ looks like that is one of its places
POINTS = [
    ("1 own enum", r"^\s*(pub(\(crate\))? )?enum \w+"),
    ("1 flag beside a value", r"^\s*pub verdict: Verdict"),
    ("1 number for a kind", r"^\s*(pub )?(fn .*)?\b(format|direction|msgtype|op|wanted|pool): (u8|u32|usize)\b"),
    ("1 number for none", r"// .*\b0 (where|for none|behind)\b"),
    ("3 while", r"^\s*while "),
    ("3 loop", r"^\s*loop "),
    ("3 for over a count", r"^\s*for \w+ in .*\.\."),
    ("3 for over values", r"^\s*for \w+ in (?!.*\.\.)"),
    ("4 derive of Clone, Copy alone", r"#\[derive\(Clone, Copy\)\]"),
    ("4 conversion or equality by hand", r"fn (number_|encode_|tell_|name_|widen|equal\b|load_|store_|claim)"),
    ("4 printing by hand", r"fn (write_(word|number|fault|verdict|refusal|line|messages)|form_digit)\b"),
    ("6 array with its length", r"^\s*pub (bytes|tail): \[u8"),
    ("6 fields or locals by direction", r"^\s*pub (carry|receiver)[01]: "),
    ("7 function or closure as a parameter", r"\b(Fn|FnMut|FnOnce)\(|\bdyn\b"),
]

# a fact of a requires, and the spaces and names that do not count
FACT = re.compile(r"requires(?: \w+)? \{(.*)\}\s*$")


def sources(top):
    return sorted(pathlib.Path(top).glob("crates/*/src/*.rt"))


def facts(top):
    """The facts that stand in the requires of three functions or more."""
    count = {}
    for path in sources(top):
        for line in path.read_text().split("\n"):
            found = FACT.search(line)
            for fact in found.group(1).split("×") if found else []:
                fact = fact.strip().strip("()").strip()
                count[fact] = count.get(fact, 0) + 1
    return {fact: n for fact, n in count.items() if n >= 3}


def main():
    named = [a for a in sys.argv[1:] if a != "--list"]
    top = named[0] if named else "."
    for name, pattern in POINTS:
        lines = []
        for path in sources(top):
            for number, line in enumerate(path.read_text().split("\n"), 1):
                if re.search(pattern, line):
                    lines.append(f"{path.relative_to(top)}:{number}: {line.strip()}")
        print(f"{len(lines):4} {name}")
        if "--list" in sys.argv:
            print("".join(f"       {line}\n" for line in lines), end="")
    for fact, n in sorted(facts(top).items(), key=lambda item: (-item[1], item[0])):
        print(f"{n:4} 5 fact: {fact}")
    proofs = list(pathlib.Path(top).glob("crates/*/proofs/**/Answers.antt"))
    print(f"{len(proofs):4} 8 answer files, {sum(len(p.read_text().splitlines()) for p in proofs)} lines")


main()
