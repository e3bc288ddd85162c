#!/usr/bin/env python3
"""Spells the repository's own definitions and lemmas as today's Rattle spells its own: words in snake case, types in upper camel case.

usage: python3 tools/respell.py [--dry]     at the top of the repository, once, after the kit's port.py

A name is respelled where a file of specs/ or proofs/ declares it: a definition, a lemma, a constructor, a field, a variable that a `let` types.
Its first letter decides: `Holds-more` becomes `HoldsMore`, `kind-word` and `headAt` become `kind_word` and `head_at`.
A dash beside an operator stays, as in `among-++`. What stays altogether: goals (their names are made from the code),
names that a file imports from a library (in that file), strings, and everything in src/ that is not a clause or an import of one.
Where a name would fall together with another, OTHERS says what it is called instead; what may need a look is told.
"""

import os
import re
import sys

NAME = r"[^\s(){}.;,@\"«»\[\]]+"
TOKEN = re.compile(r"(?<![^\s(){}.;,@\"«»\[\]!])" + NAME)
DECLARED = re.compile(
    r"^(?P<pad> *)(?:\| )?(?P<mods>(?:(?:abbrev|unfoldable|pub|mutual|ruleset|data|record|let|in|private) +)*)"
    r"(?P<name>" + NAME + r")(?P<params>(?: *(?:\{[^{}]*\}|\([^()]*(?:\([^()]*\)[^()]*)*\)))*) *(?::|=)(?= |$)",
    re.M,
)
LET = re.compile(r"\blet (" + NAME + r") (?:: [^\n]*)?=")
PARAMETER = re.compile(r"[({](" + NAME + r"(?: " + NAME + r")*) : ")
PLAIN_ANSWER = re.compile(r"/proofs/.+/(Answers|Choices|Invariants|Proof)\.antt$")
OPERATOR = re.compile(r"[^\w'\-]")
IMPORT = re.compile(r"^(?:ghost |pub )?use (Rattle\.\S+?|borrow\.\S+?)\.\{([^}]*)\}", re.M)


# A name that would fall together with another, and what it is called instead.
OTHERS = {
    "Edge-row": "RowOfEdge",
    "Name-row": "RowOfName",
    "name-of": "name_of_id",
}
# A crate that bears the name of one of the kit's libraries.
CRATES = {"check": "checker", "check_tests": "checker_tests"}


def files(root):
    for folder, dirs, names in os.walk(os.path.join(root, "crates")):
        dirs[:] = sorted(d for d in dirs if d != "out")
        for n in sorted(names):
            if n.endswith((".antt", ".rt", ".edit")):
                yield os.path.join(folder, n)


def read(path):
    with open(path, encoding="utf-8") as f:
        return f.read()


def respelled(name):
    """The name as it is to be spelled."""
    if name in OTHERS:
        return OTHERS[name]
    parts = name.split("-")
    if name[0].isascii() and name[0].isupper():
        if any(OPERATOR.search(p) for p in parts):
            return name
        return "".join(p[:1].upper() + p[1:] for p in parts)
    out = parts[0]
    for before, part in zip(parts, parts[1:]):
        dash = not before or not part or OPERATOR.search(before[-1:]) or OPERATOR.search(part[:1])
        out += ("-" if dash else "_") + part
    return re.sub(r"(?<=[a-z0-9])[A-Z]", lambda m: "_" + m[0].lower(), out)


def rename_crates():
    """Gives each crate that bears a name of the kit's libraries its other name, in its folder, in crates.txt and wherever it is named."""
    for old, new in CRATES.items():
        if os.path.isdir(f"crates/{old}"):
            os.rename(f"crates/{old}", f"crates/{new}")
    for p in list(files(".")) + ["crates.txt"]:
        text = read(p)
        out = text
        for old, new in CRATES.items():
            out = re.sub(rf"\bRattle\.{old}\.", f"Rattle.{new}.", out)
            if p.endswith((".rt", ".edit")):
                out = re.sub(rf"(?m)((?:^|[^\w:.])use ){old}(?=::|;)", rf"\g<1>{new}", out)
                out = re.sub(rf"(?<![\w:.]){old}::(?=[a-z_]\w*\(|[A-Z])", f"{new}::", out)
            if p == "crates.txt":
                out = re.sub(rf"(?m)(?<![\w#]){old}(?=[:\s]|$)", new, out) if not out.startswith("#!") else out
        if p == "crates.txt":
            lines = []
            for line, was in zip(out.split("\n"), text.split("\n")):
                lines.append(was if was.startswith("#") else line)
            out = "\n".join(lines)
        if out != text:
            with open(p, "w", encoding="utf-8") as f:
                f.write(out)


def without_comments(text):
    return re.sub(r"--[^\n]*", "", text)


def declared(paths):
    found = {}
    for p in paths:
        if not p.endswith(".antt"):
            continue
        text = without_comments(read(p))
        goals = bool(PLAIN_ANSWER.search(p))
        for m in DECLARED.finditer(text):
            name = m["name"]
            if goals and re.match(r"\s*(goal|need|choice|choices)\.", text[m.end():]):
                continue
            found.setdefault(name, set()).add(p)
        for m in LET.finditer(text):
            found.setdefault(m[1], set()).add(p)
        for m in PARAMETER.finditer(text):
            for name in m[1].split():
                found.setdefault(name, set()).add(p)
    return found


def of_libraries(text, ours):
    """The names that the text imports from a library."""
    names = set()
    for m in IMPORT.finditer(text):
        if m[1].split(".")[0] == "Rattle" and m[1].split(".")[1] in ours:
            continue
        for item in m[2].split(","):
            names.update(item.replace(" as ", " ").split())
    return names


def ghost_spans(text):
    """Where a .rt file speaks of definitions: imports, clauses, ghost members and comments."""
    spans = []
    for m in re.finditer(r"\b(?:ghost|requires|ensures|invariant|decreases|also_owns|also_shares)\b", text):
        i = text.find("{", m.start())
        j = text.find(";", m.start())
        if text.startswith("ghost use", m.start()):
            spans.append((m.start(), j if j > 0 else len(text)))
            continue
        if i < 0:
            continue
        depth, k = 0, i
        while k < len(text):
            depth += {"{": 1, "}": -1}.get(text[k], 0)
            k += 1
            if depth == 0:
                break
        spans.append((m.start(), k))
    for m in re.finditer(r"`[^`\n]*`", text):
        spans.append(m.span())
    return spans


def main():
    dry = "--dry" in sys.argv
    if not dry:
        rename_crates()
    paths = list(files("."))
    ours = set(os.listdir("crates"))
    found = declared(paths)
    table = {n: respelled(n) for n in found}
    table = {n: t for n, t in table.items() if n != t}
    # the words between the places of an operator's arguments
    for n, t in list(table.items()):
        if "◌" in n:
            table.update((a, b) for a, b in zip(n.split("◌"), t.split("◌")) if a != b)
    # names that fall together
    tokens = {}
    for p in paths:
        text = read(p)
        body = without_comments(text) if p.endswith(".antt") else text
        for m in TOKEN.finditer(body):
            tokens.setdefault(m[0], set()).add(p)
    meets = {}
    for n, t in table.items():
        meets.setdefault(t, []).append(n)
    for t, ns in sorted(meets.items()):
        if len(ns) > 1:
            print("look: fall together", ns, "->", t)
        elif t in tokens and t in found:
            both = sorted(x for x in tokens[t] if any(x in tokens.get(n, ()) for n in ns))
            print("look: in use", ns[0], "->", t, "declared in", sorted(found[t])[:3], "both in", both[:4])
        elif t in tokens:
            both = sorted(x for x in tokens[t] if any(x in tokens.get(n, ()) for n in ns))
            if both:
                print("look: as a token", ns[0], "->", t, both[:4])
    changed = 0
    for p in paths:
        text = read(p)
        kept = of_libraries(text, ours)
        hit = sorted(n for n in table if n in kept and n in tokens and p in tokens[n])
        if hit:
            print("left: of a library", p, hit)

        def turn(m):
            w = m[0]
            if w in table and w not in kept:
                return table[w]
            return w

        if p.endswith(".rt"):
            spans = ghost_spans(text)
            out, at = [], 0
            merged = []
            for s, e in sorted(spans):
                if merged and s < merged[-1][1]:
                    merged[-1][1] = max(e, merged[-1][1])
                else:
                    merged.append([s, e])
            for s, e in merged:
                out.append(text[at:s])
                out.append(TOKEN.sub(turn, text[s:e]))
                at = e
            out.append(text[at:])
            new = "".join(out)
        elif p.endswith(".edit"):
            new = TOKEN.sub(turn, text)
        else:
            lines = []
            for line in text.split("\n"):
                code, dash, comment = line.partition("--") if line.lstrip().startswith("--") else (line, "", "")
                if dash:
                    head = re.match(r"(   +)(\S.*?)(   .*|$)", comment)
                    if head:
                        comment = head[1] + TOKEN.sub(turn, head[2]) + head[3]
                    comment = re.sub(r"`([^`]*)`", lambda m: "`" + TOKEN.sub(turn, m[1]) + "`", comment)
                    lines.append(code + dash + comment)
                else:
                    lines.append(TOKEN.sub(turn, line))
            new = "\n".join(lines)
        if new != text:
            changed += 1
            if not dry:
                with open(p, "w", encoding="utf-8") as f:
                    f.write(new)
    print(f"respell: {len(table)} names, {changed} files")
    if dry:
        for n in sorted(table):
            print("name:", n, "->", table[n])


main()
