#!/usr/bin/env python3
"""Writes docs/definitions.md, the index of all definitions, from the comments above them in crates/*/specs, the line
counts in the reading lists of docs/claims.md, and what each crate stands on in the tables of docs/map.md.

    tools/definitions.py            writes the three files
    tools/definitions.py --check    writes nothing; says which file is not up to date, with exit status 1
"""

import os
import re
import sys

TOP = os.path.dirname(os.path.dirname(os.path.abspath(__file__)))
INDEX = os.path.join(TOP, "docs", "definitions.md")
CLAIMS = os.path.join(TOP, "docs", "claims.md")
MAP = os.path.join(TOP, "docs", "map.md")
CRATES = os.path.join(TOP, "crates.txt")

HEAD = """# Definitions

This page is written by `tools/definitions.py` from the comments in the crates; edit those, not this page.

It lists every definition that contracts cite, crate by crate in the order of `docs/map.md`, and file by file in the
order in which each crate lists them. The words are those that stand above the definition in its file; definitions that
share one comment stand together. A definition's source is named where it is public: POST 2019 is Ramsdell et al.,
Orchestrating Layered Attestations; NFM 2021 is Petz and Alexander; RFC 2104 and FIPS 198-1 define HMAC; FIPS 180-4
defines SHA-256. All other definitions are this project's own. Contracts also see the enums and structs that the code
declares, as they are declared.
"""

# What holds definitions that are indented, and the first line of a definition, with its name.
BLOCK = re.compile(r"^mutual$|^module _ .*where$")
DEFINITION = re.compile(r"^(?:abbrev |unfoldable |opaque )?pub (?:data |record )?([^\s:(){},]+)\s*(?:\{.*\}\s*|\(.*\)\s*)*:(?=\s|$)")
COMMENT = re.compile(r"^--\s?(.*)$")


def read(path):
    with open(path, encoding="utf-8") as file:
        return file.read()


def stands_on():
    """What each crate stands on, by crates.txt."""
    rows = re.findall(r"(?m)^([a-z][a-z0-9_]*)\b[^:#\n]*:([^#\n]*)", read(CRATES))
    return {name: uses.split() for name, uses in rows}


def mapped(text):
    """The map, with what each crate stands on as it is."""
    below = stands_on()

    def row(match):
        uses = ", ".join(f"`{it}`" for it in below[match[1]]) or "none"
        return f"| `{match[1]}` | {uses} |"

    names = "|".join(below)
    return re.sub(rf"(?m)^\| `({names})` \| (?:none|`[^|]*`) \|", row, text)


def crates():
    """The crates in the order of docs/map.md, then those that it does not name, in the order of crates.txt."""
    listed = list(stands_on())
    rows = re.findall(r"(?m)^\| (`[^|]*`) \|", read(MAP))
    named = [name for row in rows for name in re.findall(r"`([a-z0-9_]+)`", row)]
    return [name for name in dict.fromkeys(named) if name in listed] + [name for name in listed if name not in named]


def spec_files(crate):
    """The names of a crate's files of definitions, in the order of its list of modules."""
    modules = os.path.join(TOP, "crates", crate, "specs", "Lib.antt")
    return re.findall(r"(?m)^pub mod (\w+)", read(modules)) if os.path.exists(modules) else []


def spec_path(crate, name):
    return os.path.join(TOP, "crates", crate, "specs", name + ".antt")


def entries(text):
    """The words at the head of a file, and its definitions: a list of (names, words)."""
    head, found, words, at_head, is_inside = [], [], [], True, False
    for line in text.split("\n"):
        is_inside = bool(BLOCK.match(line)) or is_inside and (not line or line.startswith(" "))
        if is_inside and line.startswith("  "):
            line = line[2:]
        comment, definition = COMMENT.match(line), DEFINITION.match(line)
        if comment and at_head:
            head.append(comment[1])
            continue
        at_head = False
        if comment:
            words.append(comment[1])
        elif definition:
            if words or not found:
                found.append(([definition[1]], " ".join(words)))
            else:
                found[-1][0].append(definition[1])
            words = []
        elif line and not line.startswith(" ") or not line:
            words = []
    return " ".join(head), found


def section(crate):
    lines = []
    for name in spec_files(crate):
        head, found = entries(read(spec_path(crate, name)))
        if not found:
            continue
        lines += ["", f"**`specs/{name}.antt`** {head}".rstrip(), ""]
        for names, words in found:
            shown = ", ".join(f"`{it}`" for it in names)
            lines.append(f"- {shown}: {words}" if words else f"- {shown}")
    return ["", f"## `{crate}`"] + lines if lines else []


def index():
    return HEAD + "\n".join(line for crate in crates() for line in section(crate)) + "\n"


def counted(claims):
    """The page on claims, with the line counts of its reading lists as they are."""
    total = [0, 0]

    def files_of(row, sums):
        names = re.findall(r"`([a-z0-9_]+)`", row[1])

        def with_count(match):
            paths = [spec_path(crate, match[1]) for crate in names if os.path.exists(spec_path(crate, match[1]))]
            if len(paths) != 1:
                sys.exit(f"docs/claims.md: {match[1]} is a file of {len(paths)} of the crates {', '.join(names)}")
            lines = read(paths[0]).count("\n")
            sums[0] += 1
            sums[1] += lines
            return f"`{match[1]}` {lines}"

        return f"| {row[1]} | " + re.sub(r"`(\w+)` \d+", with_count, row[2]) + " |" + row[3]

    def of_list(match):
        total[:] = [0, 0]
        rows = re.sub(r"(?m)^\| (`[^|]*`) \| ([^|]*) \|(.*)$", lambda row: files_of(row, total), match[2])
        return f"{match[1]}{rows}{match[3]}{total[0]} files, {total[1]:,} lines{match[4]}"

    # A reading list is a table between these two marks, with its sum behind it.
    return re.sub(r"(?s)(<!-- reading list -->)(.*?)(<!-- in all: -->)[^<]*(<!-- end -->)", of_list, claims)


def main(words):
    wanted = {INDEX: index(), CLAIMS: counted(read(CLAIMS)), MAP: mapped(read(MAP))}
    stale = [path for path, text in wanted.items() if not os.path.exists(path) or read(path) != text]
    if words == ["--check"]:
        for path in stale:
            print(f"{os.path.relpath(path, TOP)} is not up to date: run tools/definitions.py")
        return 1 if stale else 0
    if words:
        sys.exit(__doc__)
    for path in stale:
        with open(path, "w", encoding="utf-8") as file:
            file.write(wanted[path])
    return 0


if __name__ == "__main__":
    sys.exit(main(sys.argv[1:]))
