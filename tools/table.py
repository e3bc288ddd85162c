#!/usr/bin/env python3
"""Looks whether each name in the tables under "Where a rule stands" of docs/ARCHITECTURE.md is where its row says.

    tools/table.py

Prints each name that is not, with the line of its row; the status is 1 where there is one. Names stand in backquotes:
  definition   PAGE.name           a definition of crates/rules/specs/PAGE.antt or crates/laws/specs/PAGE.antt
  code         crate::name, crate::Owner::name            an item, method, variant or constant in that crate's src
  theorem      crate/PAGE.name     a definition of that crate's specs; crate::name, as code; or a clause of the row's code
  tests        file::name          a test in crates/dce_tests/src/file.rt; crate::file::name elsewhere
               file#name           a case of crates/cases/data/file.cases; shake#name of crates/shake/stdin
               crate/name          the edit crates/CRATE/must-fail/name.edit
"""
import re
import sys
from functools import cache
from pathlib import Path

CRATES = Path(__file__).resolve().parent.parent / "crates"
PAGE = CRATES.parent / "docs" / "ARCHITECTURE.md"
# the forms of names, by column
ITEM = r"\w+(?:::\w+){1,2}"
FORMS = {1: r"\w+\.\w+", 2: ITEM, 3: rf"\w+/\w+\.\w+|{ITEM}|\w+", 4: rf"[\w-]+#[\w-]+|\w+/[\w-]+|{ITEM}"}


@cache
def text(pattern):
    return "\n".join(p.read_text() for p in sorted(CRATES.glob(pattern)))


def defined(crates, page, name):
    head = rf"^(?:abbrev |unfoldable |pub |record |data )*{name} (?!=)|^  (?:pub )?{name} : "
    return any(re.search(head, text(f"{c}/specs/{page}.antt"), re.M) for c in crates)


def item(crate, *path):
    source = text(f"{crate}/src/**/*.rt")
    head = rf"\b(?:fn|struct|enum|trait|const|type) {path[-1]}\b|^    {path[-1]}(?:\(.*\)| = \d+)?,$"
    owner = rf"\b(?:struct|enum|trait|impl)\b.*\b{path[0]}\b"
    return re.search(head, source, re.M) and (len(path) == 1 or re.search(owner, source))


def there(column, name, cells):
    if not re.fullmatch(FORMS.get(column, ""), name):
        return False
    if column == 1:
        return defined(("rules", "laws"), *name.split("."))
    if column == 4 and "#" in name:
        file, case = name.split("#")
        return f"\ncase {case}\n" in "\n" + text("shake/stdin" if file == "shake" else f"cases/data/{file}.cases")
    if column == 4 and "::" in name:
        *crate, file, test = name.split("::")
        return f"#[test]\nfn {test}(" in text(f"{crate[0] if crate else 'dce_tests'}/src/{file}.rt")
    if column == 4:
        return (CRATES / name.replace("/", "/must-fail/")).with_suffix(".edit").is_file()
    if "/" in name:
        crate, page, word = re.split(r"[/.]", name)
        return defined((crate,), page, word)
    if column == 3 and "::" not in name:
        return any(re.search(rf"\b(?:ensures|ghost) {name}\b", text(f"{c}/src/*.rt")) for c in re.findall(r"`(\w+)::", cells[2]))
    return item(*name.split("::"))


def main():
    lines = PAGE.read_text().split("\n")
    start = lines.index("## Where a rule stands") + 1
    end = next(i for i, line in enumerate(lines) if i > start and line.startswith("## "))
    rows = [(n, line.strip("| ").split(" | ")) for n, line in enumerate(lines[:end], 1) if n > start and re.match(r"\| (?!rule \|)", line)]
    names = [(n, cells, column, name) for n, cells in rows for column in range(1, len(cells)) for name in re.findall(r"`([^`]+)`", cells[column])]
    faults = [(n, name) for n, cells, column, name in names if not there(column, name, cells)]
    for n, name in faults:
        print(f"table: docs/ARCHITECTURE.md:{n}: {name} is not there", file=sys.stderr)
    print(f"table: {len(names)} names in {len(rows)} rows, {len(faults)} not there")
    return 1 if faults or not names else 0


if __name__ == "__main__":
    sys.exit(main())
