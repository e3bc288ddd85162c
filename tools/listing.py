#!/usr/bin/env python3
"""Writes the generated lists of docs/DESIGN-PASS.md anew: what differs between the sources at a commit and now.

    tools/listing.py [COMMIT]

COMMIT is the one in the page's first line, where none is given. The comparison is the toolchain's own script,
/opt/rattle/port/contracts.py. What is written by hand on the page stays: under each heading below, the lines
before the one that says `<!-- listed -->`."""
import json
import os
import re
import subprocess
import sys
import tempfile

SCRIPT = "/opt/rattle/port/contracts.py"
ROOT = os.path.dirname(os.path.dirname(os.path.abspath(__file__)))
PAGE = os.path.join(ROOT, "docs", "DESIGN-PASS.md")
MARK = "<!-- listed -->"


def compared(commit):
    with tempfile.TemporaryDirectory() as folder:
        subprocess.run(["git", "clone", "-q", ROOT, folder], check=True)
        subprocess.run(["git", "-C", folder, "checkout", "-q", commit], check=True)
        done = subprocess.run(["python3", SCRIPT, folder, ROOT, "--json"], capture_output=True, text=True)
    return json.loads(done.stdout)


def row(cells):
    return "| " + " | ".join("`" + c.replace("|", "\\|") + "`" for c in cells) + " |"


def table(head, rows):
    lines = ["| " + " | ".join(head) + " |", "|" + "---|" * len(head)]
    return lines + [row(r) for r in rows]


def block(title, old, new):
    lines = ["`" + title + "`", "", "```"]
    lines += ["- " + line for line in old if line not in new]
    lines += ["+ " + line for line in new if line not in old]
    return lines + ["```", ""]


def clauses(kind, listed):
    return [f"{kind} {name + ' ' if name else ''}{{ {text} }}" for name, text in listed]


def gone(listed):
    return ["Gone: " + ", ".join("`" + " ".join(g) + "`" for g in listed) + ".", ""] if listed else []


def sections(d):
    lines = []
    for name, old_requires, old_ensures, new_requires, new_ensures in d["contracts changed"]:
        old = clauses("requires", old_requires) + clauses("ensures", old_ensures)
        new = clauses("requires", new_requires) + clauses("ensures", new_ensures)
        lines += block(name, old, new)
    ghosts = gone(d["ghost items and constants"]["gone"])
    for *name, old, new in d["ghost items and constants"]["changed"]:
        ghosts += block(" ".join(name), old, new)
    definitions = gone(d["definitions"]["gone"])
    for *name, old, new in d["definitions"]["changed"]:
        definitions += block(" ".join(name), old, new)
    edits = [(f"{c} {n}", old, new) for c, n, old, new in d["edits and outputs"]["changed"]]
    return {
        "Signatures": table(["function", "old", "new"], d["signatures changed"]) + [""],
        "Clauses": lines,
        "Ghost members, fields and constants": ghosts,
        "Definitions": definitions,
        "Tests and must-fail edits": table(["edit", "old", "new"], edits) + [""],
    }


def main():
    with open(PAGE) as f:
        page = f.read()
    commit = sys.argv[1] if len(sys.argv) > 1 else re.search(r"\b[0-9a-f]{40}\b", page).group(0)
    d = compared(commit)
    parts = re.split(r"(?m)^(### .*)$", page)
    for title, lines in sections(d).items():
        i = parts.index("### " + title)
        kept = parts[i + 1].split(MARK)[0].rstrip()
        parts[i + 1] = (kept + "\n\n" if kept else "\n\n") + MARK + "\n\n" + "\n".join(lines)
    with open(PAGE, "w") as f:
        f.write("".join(parts).rstrip() + "\n")
    for title in ("sizes", "functions", "functions not found again", "more requires", "fewer ensures", "no longer pub"):
        print(title, json.dumps(d[title], ensure_ascii=False, indent=1))


if __name__ == "__main__":
    main()
