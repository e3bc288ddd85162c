#!/usr/bin/env python3
"""Plants the bugs of tools/plants/CRATE.plants, one at a time, in a copy of each crate, and says what the prover makes of them.

    python3 tools/plants.py CRATE..        prints rows of the table in docs/TRUST.md: crate, bug, caught by
    python3 tools/plants.py --log CRATE..  prints beside each row the first line of what the prover said

A plant is a block of lines that begins with 'bug: ' and the bug in words, and goes on as a must-fail edit: 'file: ', and then
pairs of 'old: ' and 'new: ', each one line. The repository is copied as it stands, the edits of its crates are taken out of the
copy, and `rt must-fail` tries the plants in their place. A plant of a program that the prover lets through is tried once more, by
a run: the program must not print what is stored for it, or end otherwise. The status is 1 where nothing caught one, or it could
not be tried.
"""
import re
import shutil
import subprocess
import sys
import tempfile
from pathlib import Path

ROOT = Path(__file__).resolve().parent.parent
PLANTS = ROOT / "tools" / "plants"


def plants_of(crate):
    """The crate's plants: each one's bug in words, and its text as an edit."""
    blocks = re.split(r"(?m)^bug: ", (PLANTS / f"{crate}.plants").read_text())[1:]
    return [tuple(block.split("\n", 1)) for block in blocks]


def copied(to):
    """Copies what git lists here, with no edit of any crate."""
    listed = subprocess.run(["git", "ls-files", "-co", "--exclude-standard"], cwd=ROOT, capture_output=True, text=True, check=True)
    for name in listed.stdout.splitlines():
        if "/must-fail/" in name or not (ROOT / name).is_file():
            continue
        (to / name).parent.mkdir(parents=True, exist_ok=True)
        shutil.copy2(ROOT / name, to / name)


def run_with(folder, edit):
    """What a run of the folder's program says of the plant: as `rt must-fail`, 'refused' where it does other than is stored."""
    lines = edit.split("\n")
    file, olds, news = ([line[len(word) :] for line in lines if line.startswith(word)] for word in ("file: ", "old: ", "new: "))
    source = folder / file[0]
    found = source.read_text()
    planted = found
    for old, new in zip(olds, news):
        planted = planted.replace(old, new)
    source.write_text(planted)
    handed = [word for path in sorted(folder.glob("data/*")) for word in ("--data", f"{path.name}={path}")]
    arguments, given, stored, status = (folder / name for name in ("args", "stdin", "stdout", "status"))
    words = arguments.read_text().split() if arguments.is_file() else []
    # the compiled run alone: one step is none for the interpreter
    ran = subprocess.run(
        ["rt", "try", "--steps", "1", "--seconds", "300", *handed, "--", *words],
        cwd=folder, input=given.read_bytes() if given.is_file() else b"", capture_output=True,
    )
    source.write_text(found)
    end = re.search(r"(?m)^run=.*", ran.stderr.decode())
    if not end or re.match(r"run=(none|no-answer)", end[0]):
        return f"no run of it: {end[0] if end else ran.stderr.decode()[-200:]}"
    printed = ran.stdout == (stored.read_bytes() if stored.is_file() else b"")
    ended = f"run=ended status={status.read_text().strip() if status.is_file() else 0} " in end[0] + " "
    return f"NOT REFUSED, and not by a run: {end[0]}" if printed and ended else f"refused by a run: {end[0]}"


def tried(crates, plants):
    """What `rt must-fail` says of each plant, by its crate and number, or a run where it lets a program's plant through."""
    with tempfile.TemporaryDirectory(prefix="plants-") as folder:
        room = Path(folder)
        copied(room)
        for crate in crates:
            edits = room / "crates" / crate / "must-fail"
            edits.mkdir()
            for number, (_, edit) in enumerate(plants[crate]):
                (edits / f"{number}.edit").write_text(edit)
        ran = subprocess.run(["rt", "must-fail", *crates], cwd=room, capture_output=True, text=True)
        found = re.findall(r"(?m)^rt: must-fail (\w+)/(\d+)\.edit: (.*(?:\n(?!rt: ).*)*)", ran.stdout + ran.stderr)
        said = {(crate, int(number)): text.strip() for crate, number, text in found}
        for (crate, number), text in said.items():
            program = room / "crates" / crate
            if text.startswith("NOT REFUSED") and (program / "src" / "main.rt").is_file():
                said[crate, number] = run_with(program, plants[crate][number][1])
    return said


def function_at(path, line):
    """The function that the line of the file stands in, or that an attribute there stands above."""
    lines = path.read_text().split("\n")
    while lines[line - 1].lstrip().startswith("#["):
        line += 1
    above = lines[:line]
    names = [found[1] for text in above for found in [re.search(r"\bfn (\w+)", text)] if found]
    return names[-1] if names else path.name


# by the prover's words, or by the name of the goal that a proof file answers
OWED = [
    (r"what the function ensures|^returns", "its ensures"),
    (r"what the impl .* ensures|lawful|law", "the law of its trait"),
    (r"invariant_of", "what a value that it makes keeps"),
    (r"measure|decreas|\bends\b|smaller", "that it ends"),
    (r"invariant|^loop", "the invariant of its loop"),
    (r"requires", "what a function that it calls asks"),
    (r"control never comes here", "a line that is never reached"),
    (r"overflow|arithmetic|subtract", "arithmetic in range"),
    (r"index|range|bounds", "an index in range"),
]


# what `rt must-fail` says of a refusal that shows nothing of the contract
NAMES_ALONE = "only because a proof file names what the edit took away"


def owed(text):
    return next((words for test, words in OWED if re.search(test, text)), "what it owes")


def caught_by(crate, text):
    """What caught a refused plant, in words: the function, and what is owed there."""
    if not text.startswith("refused"):
        return "**NOTHING**" if text.startswith("NOT REFUSED") else f"**not tried** ({text[:80]})"
    if text.startswith("refused by a run"):
        return "the output of its run" if "run=ended status=0" in text else "the error that its run ends with"
    if NAMES_ALONE in text:
        return "**only the names in a proof**"
    at = re.search(r"(src/[\w/]+\.rt):(\d+):\d+: (.*)", text)
    if at:
        return f"`{function_at(ROOT / 'crates' / crate / at[1], int(at[2]))}`: {owed(at[3])}"
    answer = re.search(r"proofs/[\w/+]*?(\+?\w+)/\w+\.antt:\d+:\d+: (?:error: )?`([\w-]+)`", text)
    if answer and answer[1].startswith("+"):
        # the proof of functions that call one another: the goal begins with the name of the one
        function, _, goal = answer[2].partition("-")
        return f"`{function}`: {owed(goal)}"
    if answer:
        return f"`{answer[1]}`: {owed(answer[2])}"
    proof = re.search(r"(proofs/[\w/+]+)[^:]*:\d+:\d+: (.*)", text)
    return f"a proof ({proof[1]})" if proof else "the prover"


def main():
    log = "--log" in sys.argv
    crates = [name for name in sys.argv[1:] if name != "--log"]
    plants = {crate: plants_of(crate) for crate in crates}
    said = tried(crates, plants)
    missed = 0
    for crate in crates:
        for number, (bug, _) in enumerate(plants[crate]):
            text = said.get((crate, number), "no word of it")
            missed += not text.startswith("refused") or NAMES_ALONE in text
            print(f"| `{crate}` | {bug} | {caught_by(crate, text)} |")
            if log:
                print(f"    {text}")
    sys.exit(1 if missed else 0)


main()
