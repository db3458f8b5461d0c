#!/usr/bin/env python3
"""Spells this repository's own definitions and lemmas as today's Rattle does, once, after port.py.

usage: python3 tools/respell.py [FOLDER [LIKE]]      FOLDER is a checkout, this one if none is given; names that stand
in LIKE too, a checkout that port.py has turned and this script has not, get the spelling that they get there

Words go to snake case (aNumber, a-number: a_number), types and modules to camel case (Sheet-figures: SheetFigures), ′ to '.
A name counts as one of the repository's own if a file of specs/ or proofs/ declares it, or if it is a ghost member;
names that Rattle makes (goals and the steps behind c., w., l., g.) stay, and so do functions, strings, inputs and outputs.
The turning itself is snake.py's, of the kit's port/notes; must-fail/*.edit gets the same table.
A name whose new spelling stands already, as a function or another name, is shown on a line 'clash:'. A definition among these
has a new name in CHOSEN, and a lemma gets '_lem' behind its name.
"""

import os
import re
import subprocess
import sys
import tempfile

NOTES = "/opt/rattle/port/notes/2026-11-18-names-are-in-snake-case"
NAME = r'[^\s(){}.;,@"«»]+'
DECLARED = re.compile(r"(?m)^ *(?:\w+ )*?(" + NAME + r")(?: \{[^{}\n]*\})* :(?=\s)([^\n]*)")
TYPE = re.compile(r"\b(?:data|record) (" + NAME + r")")
MEMBER = re.compile(r"\bghost (\w+):")
ITEM = re.compile(r"\b(?:const|static|fn|mod) (\w+)")
CHOSEN = {
    "afterMinus": "behind_minus",
    "allPrintable": "printable_bytes",
    "allZero": "only_zeros",
    "answerLine": "line_of_answer",
    "beforeZero": "up_to_zero",
    "canHold": "can_keep",
    "goesOn": "plan_on",
    "hasZero": "zero_in",
    "isPrintable": "printable_byte",
    "oneMore": "one_up",
    "sameText": "equal_text",
    "wellBegun": "begun_well",
}
MADE = re.compile(r"proofs/(.*/)?(Answers|Invariants)\.antt$")


def spelled(name):
    name = name.replace("′", "'")
    if name[0].isupper():
        return re.sub(r"[-_](\w)", lambda m: m[1].upper(), name)
    words = re.sub(r"(?<=[a-z0-9])[A-Z]", lambda m: "_" + m[0].lower(), name)
    return words.replace("-", "_")


def texts(root):
    for folder, dirs, files in os.walk(os.path.join(root, "crates")):
        dirs[:] = sorted(d for d in dirs if d not in ("out", "data"))
        for f in sorted(files):
            if f.endswith((".antt", ".rt", ".edit")):
                p = os.path.join(folder, f)
                with open(p, encoding="utf-8") as g:
                    yield p, g.read()


def own_names(all_texts):
    own, rust = set(), set()
    for p, t in all_texts:
        if p.endswith(".antt"):
            t = re.sub(r"--[^\n]*", "", t)
            for name, of in DECLARED.findall(t):
                if not (MADE.search(p) and re.match(r" *(goal|need)\.", of)):
                    own.add(name)
            own.update(TYPE.findall(t))
        elif p.endswith(".rt"):
            own.update(MEMBER.findall(t))
            rust.update(ITEM.findall(t))
    return {n for n in own if re.fullmatch(r"[A-Za-z][\w'′-]*", n)}, rust


def table_of(root):
    all_texts = list(texts(root))
    own, rust = own_names(all_texts)
    table = {n: spelled(n) for n in own if spelled(n) != n}
    words = [set(re.findall(NAME, t)) for _, t in all_texts]
    for old in sorted(table):
        new = table[old]
        rivals = [o for o in table if o != old and table[o] == new]
        if new in own or new in rust or rivals or any(old in w and new in w for w in words):
            table[old] = CHOSEN.get(old, new + "_lem")
            print(f"clash: {old} -> {table[old]}: {new} stands already ({', '.join(rivals) or 'as it is'})")
    return table, all_texts


def main():
    root = sys.argv[1] if len(sys.argv) > 1 else "."
    table, all_texts = table_of(root)
    if len(sys.argv) > 2:
        table.update(table_of(sys.argv[2])[0])
    with tempfile.TemporaryDirectory() as d:
        rows = os.path.join(d, "table.tsv")
        with open(rows, "w", encoding="utf-8") as f:
            f.writelines(f"{old}\t{new}\n" for old, new in sorted(table.items()))
        made = [p for p, _ in all_texts if MADE.search(p)]
        rest = [p for p, _ in all_texts if not MADE.search(p) and not p.endswith(".edit")]
        turn = [sys.executable, os.path.join(NOTES, "snake.py"), "--table", rows]
        for paths, more in ((made, ["--skip-behind", "goal,c,w,l,g"]), (rest, [])):
            subprocess.run([*turn, *more, *paths], check=True, stdout=subprocess.DEVNULL)
    edits(root, table)


def edits(root, table):
    """An edit's lines are text of specs/ or src/, so they take whole words of the table."""
    for p, t in texts(root):
        if p.endswith(".edit"):
            new = re.sub(r"[A-Za-z][\w'′-]*", lambda m: table.get(m[0], m[0]), t)
            if new != t:
                with open(p, "w", encoding="utf-8") as f:
                    f.write(new)


if __name__ == "__main__":
    main()
