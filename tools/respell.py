#!/usr/bin/env python3
"""Brings the definitions and lemmas of the crates to snake case, once, after port.py: hyphens and inner capitals become underscores.

usage: python3 tools/respell.py [--list]      at the top of the repository; --list prints the names and writes nothing

Types, modules and constructors keep their capitals. Code, strings, exported names and the files of a function's own proof keep their
names, but for the definitions and lemmas that they cite. Names that would fall together are given others by OTHERS.
"""

import glob
import re
import sys

# Names whose plain respelling would fall together with another name.
OTHERS = {
    "begin-by": "begin_cases",
    "belongs-by": "belongs_law",
    "configuration-of": "configuration_numbers",
    "crdt-checks": "crdt_checks_law",
    "crdt-gives": "crdt_gives_law",
    "crdt-grant": "crdt_grant_place",
    "cursor-next": "cursor_step",
    "equal-below": "equal_below_law",
    "first-fault": "first_fault_splits",
    "granule-checks": "granule_checks_law",
    "group-after": "group_after_step",
    "group-checks": "group_checks_law",
    "group-next": "group_next_law",
    "idle-from": "idle_from_law",
    "in-granule": "in_granule_part",
    "is-message": "is_message_law",
    "is-misc": "is_misc_case",
    "link-status": "link_status_place",
    "never-early": "never_early_fill",
    "no-counts": "no_counts_held",
    "no-grant": "no_grant_law",
    "not-all": "not_all_held",
    "on-cell": "on_cell_held",
    "pays-data": "pays_data_case",
    "pays-push": "pays_push_case",
    "pays-req": "pays_req_case",
    "read-room": "read_room_law",
    "reader-ok": "reader_ok_valid",
    "report-by": "report_by_cases",
    "shared-dat": "shared_dat_case",
    "shared-req": "shared_req_case",
    "starts-checks": "starts_checks_law",
    "starts-in": "starts_in_law",
    "starts-pay": "starts_pay_law",
    "under-way": "under_way_law",
    "valid-carry": "valid_carry_held",
    "writer-ok": "writer_ok_valid",
    "all-below": "all_below_law",
    "one-of": "one_of_chargeable",
    "read-on": "read_on_steps",
    "run-by": "run_by_cases",
    "put-mid": "put_mid_is_put",
    "ended_by": "ended_by_law",
    "fits_below": "fits_below_law",
    "group_at": "group_at_law",
    "tail_of": "tail_of_law",
}

NAME = r"[^\s(){}\[\],;.:λ→«»\"]+"
WORDS = r"(?:abbrev|pub|opaque|unfoldable|private)\s+"
SIGNATURE = re.compile(rf"^\s*(?:{WORDS})*({NAME})(?:\s+\{{[^}}]*\}})*\s+:(?:\s|$)")
SEVERAL = re.compile(rf"^\s*(?:{WORDS})*((?:{NAME}\s+)+{NAME})\s+:(?:\s|$)")
LOCAL_LINE = re.compile(r"^\s*let\s")
USE = re.compile(r"^\s*(?:pub |ghost )*use\s+([^\s{]+?)\.\{([^{}]*)\}", re.M)


def read(path):
    with open(path, encoding="utf-8") as f:
        return f.read()


def laws():
    """The files of definitions and laws: specs/ and proofs/, but not the folders of functions."""
    return sorted(glob.glob("crates/*/specs/*.antt") + glob.glob("crates/*/proofs/*.antt"))


def code():
    return sorted(glob.glob("crates/*/src/*.rt"))


def proofs():
    return sorted(set(glob.glob("crates/*/proofs/**/*.antt", recursive=True)) - set(laws()))


def edits():
    return sorted(glob.glob("crates/*/must-fail/*.edit"))


def snake(name):
    word = re.sub(r"(?<=[a-z0-9'])(?=[A-Z])|(?<=[A-Z])(?=[A-Z][a-z])", "_", name)
    return word.replace("-", "_").lower()


def is_old(name):
    if not re.search(r"[A-Za-z]", name) or not re.match(r"[A-Za-z]", name):
        return False
    if name[0].isupper() and "-" not in name:
        return False
    return "-" in name or bool(re.search(r"[A-Z]", name))


def defined():
    """Each name of a definition, lemma, field or constructor, with the files that define it."""
    found = {}
    for path in laws():
        for line in read(path).split("\n"):
            if LOCAL_LINE.match(line) or line.lstrip().startswith(("--", "(", "→", "use ")):
                continue
            m = SIGNATURE.match(line)
            if m:
                found.setdefault(m[1], set()).add(path)
    return found


def table():
    names = {n for n in defined() if is_old(n) or n in OTHERS}
    return {n: OTHERS.get(n, snake(n)) for n in names}


def imported(text):
    """What a file takes from the libraries, by name."""
    took = set()
    for module, items in USE.findall(text):
        crate = re.match(r"Rattle\.(\w+)", module)
        if crate and crate[1] not in ("std", "core", "bytes"):
            continue
        for it in items.split(","):
            took.add(it.strip().split(" ")[0])
    return took


TOKEN = re.compile(rf"\"(?:[^\"\\\n]|\\.)*\"|«[^»\n]*»|(?:[^\s(){{}}\[\],;.:«»\"`⌜⌝×→λ]|\.(?=\d))+")


def respell(text, names, is_code):
    taken = imported(text)

    def one(m):
        word = m[0]
        if word[0] in "\"«" or word in taken or word not in names:
            return word
        return names[word]

    lines = []
    for line in text.split("\n"):
        body, mark, rest = line, "", ""
        at = line.find("//") if is_code else line.find("--")
        if at >= 0 and (is_code or line[:at].strip() == "" or line[at - 1] == " "):
            body, mark, rest = line[:at], line[at : at + 2], line[at + 2 :]
        if is_code and mark:
            # comments: only inner capitals, since a hyphen may be English
            rest = re.sub(r"[a-z]+[A-Z]\w*", lambda m: names.get(m[0], m[0]), rest)
        elif mark:
            rest = re.sub(r"[a-z]+[A-Z]\w*", lambda m: names.get(m[0], m[0]), rest)
        lines.append(TOKEN.sub(one, body) + mark + rest)
    return "\n".join(lines)


LIBRARY = {"getD": "get_or", "max-le": "max_le"}


def respell_edit(text, names):
    """The lines of an edit, which port.py leaves: its spellings too."""
    stands = set(names.values()) | set(defined())

    def one(m):
        word = m[0]
        if word in LIBRARY:
            return LIBRARY[word]
        return snake(word) if is_old(word) and word not in names and snake(word) in stands else word

    def line(rest):
        rest = re.sub(r"\(([\w'.]+) \.([\w-]+)\)", r"\1.\2", rest)
        rest = re.sub(r"(?<=\S) \.(?=[a-z0-9])", ".", rest)
        rest = re.sub(r"Rattle·(\w+)(?:·specs)?\.specs\.(?:specs\.)?", r"Rattle.\1.specs.", rest)
        rest = re.sub(r"(?<![^\s{,(])_([^\sA-Za-z0-9_]+)_(?![^\s},)])", r"◌\1◌", rest)
        return TOKEN.sub(one, rest)

    out, is_code = [], False
    for given in text.split("\n"):
        if given.startswith("file: "):
            is_code = given.endswith(".rt")
        m = re.match(r"(old: |new: )(.*)", given)
        if m and not is_code or m and re.search("requires|ensures|ghost", given):
            out.append(m[1] + respell(line(m[2]), names, False))
        else:
            out.append(given)
    return "\n".join(out)


def main():
    names = table()
    by_new = {}
    for old, new in names.items():
        by_new.setdefault(new, set()).add(old)
    plain = set(defined()) - set(names)
    libs = {}
    for path in laws() + proofs() + code():
        for it in imported(read(path)):
            libs.setdefault(it, []).append(path)
    if "--list" in sys.argv:
        print(len(names), "names")
        for new, olds in sorted(by_new.items()):
            if len(olds) > 1:
                print("together:", new, sorted(olds))
            if new in plain:
                print("already:", new, sorted(olds), sorted(defined()[new]), [sorted(defined()[o]) for o in olds])
            if new in libs:
                print("library:", new, sorted(olds), len(libs[new]))
        for old in names:
            if old in libs:
                print("old is of the library too:", old, libs[old][:3], sorted(defined()[old])[:3])
        return
    for path in laws() + proofs() + code() + edits():
        text = read(path)
        new = respell_edit(text, names) if path.endswith(".edit") else respell(text, names, path.endswith(".rt"))
        if new != text:
            with open(path, "w", encoding="utf-8") as f:
                f.write(new)


main()
