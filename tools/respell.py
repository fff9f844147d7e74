#!/usr/bin/env python3
"""Brings the repository's own definitions and lemmas to today's spelling, once, directly after the toolchain's port.py.

tools/respell.py [--look]

A word is in snake case: `bigEndian` becomes `big_endian` and `put-no-room` becomes `put_no_room`, as port.py did for the words that a
library had too. Types, modules, goals' names, what a library exports, functions of src/, strings, inputs and outputs keep theirs. The
crate `hex` becomes `hex_text`, since the toolchain has a library of that name. With --look nothing is written: only what falls together
is printed. Exit status: 0, or 1 where two words fall together.
"""
import collections
import glob
import os
import re
import subprocess
import sys

GOALS = ("Proof.antt", "Answers.antt", "Invariants.antt")
WORD = re.compile(r"[^\s(){}\[\].,;:=@\"`λ]+")
MARKS = r"(?:abbrev |unfoldable |pub |record |data )*"
CRATE = ("hex", "hex_text")
# Lemmas that port.py gave a name which a definition gets now.
LAWS = {"text": "range_at", "text_fields": "no_text", "outer_header_creation_image": "flags-of"}


def snake(word):
    word = re.sub(r"([a-z0-9])([A-Z])", r"\1_\2", word)
    return word.replace("-", "_").lower()


def is_old(word):
    """Whether a word begins small and has a capital or a hyphen between letters."""
    return bool(re.match(r"[a-z]", word) and re.search(r"[a-z0-9][A-Z]|[a-zA-Z0-9₀-₉]-[a-zA-Z0-9]", word))


def read(path):
    with open(path, encoding="utf-8") as file:
        return file.read()


def uncommented(text):
    return re.sub(r"(?m)(^|\s)--(\s.*)?$", "", text)


def declared(text):
    """The words that a file of definitions or lemmas declares, and the fields and cases of its records and data types."""
    words, fields, inside = set(), set(), False
    for line in uncommented(text).split("\n"):
        if re.match(r"(pub )?(record|data) ", line):
            inside = True
        elif line and not line.startswith(" "):
            inside = False
        found = re.match(r" *" + MARKS + r"(\S+)(?: (?:\{[^}]*\}|\([^)]*\)))* :", line)
        if found and is_old(found.group(1)):
            (fields if inside and line.startswith("  ") else words).add(found.group(1))
    return words, fields


def imported(text, crates):
    """What a file takes from a library, by its word."""
    words = set()
    for path, names in re.findall(r"(?m)^(?:ghost )?use ([^\s{;]+)\.\{([^}]*)\}", text):
        parts = path.split(".")
        if not (parts[0] == "Rattle" and parts[1] in crates):
            words |= {name.strip().split(" as ")[0] for name in names.split(",")}
    return words


def renamed(text, names, fields, kept, code):
    def one(found):
        word = found.group(0)
        if word in kept or word not in names:
            return word
        # behind a dot stands a field, or a word of a module
        if text[found.start() - 1 : found.start()] == "." and "-" in word and word not in fields:
            return word
        return names[word]

    if not code:
        lines = []
        for line in text.split("\n"):
            at = re.search(r"(?:^|\s)--(?:\s|$)", line)
            cut = at.start() if at else len(line)
            part = line[:cut]
            text = part
            lines.append(WORD.sub(one, part) + re.sub(r"(?<![\w-])[a-z0-9]+[A-Z]\w*", lambda w: names.get(w.group(0), w.group(0)), line[cut:]))
        return "\n".join(lines)
    return "\n".join(line if re.search(r'"[^"]*[a-z][A-Z]', line) else WORD.sub(one, line) for line in text.split("\n"))


def main(look):
    os.chdir(subprocess.run(["git", "rev-parse", "--show-toplevel"], capture_output=True, text=True).stdout.strip())
    crates = set(os.listdir("crates"))
    proofs = [p for p in glob.glob("crates/*/specs/**/*.antt", recursive=True) + glob.glob("crates/*/proofs/**/*.antt", recursive=True)]
    own = [p for p in proofs if not p.endswith(GOALS)]
    words, fields = set(), set()
    for path in own:
        more, cases = declared(read(path))
        words |= more
        fields |= cases
    names = {word: snake(word) for word in words | fields}
    # of two words that fall together, the lemma says that it is one
    capitals = {new for old, new in names.items() if re.search("[A-Z]", old)}
    names = {old: new + "_law" if "-" in old and new in capitals else new for old, new in names.items()}
    bad = 0
    back = collections.defaultdict(set)
    for old, new in names.items():
        back[new].add(old)
    for new, olds in sorted(back.items()):
        if len(olds) > 1:
            print(f"fall together: {' '.join(sorted(olds))} as {new}")
            bad = 1
    code = glob.glob("crates/*/src/**/*.rt", recursive=True)
    edits = glob.glob("crates/*/must-fail/*.edit") + glob.glob("crates/*/more-must-fail/*.edit")
    for path in sorted(proofs + code + edits):
        text = read(path)
        kept = imported(text, crates)
        bare = text if path.endswith(".rt") else uncommented(text)
        there = set(WORD.findall(bare))
        for word in sorted(there & set(names)):
            if word not in kept and names[word] in there:
                # the word that it becomes stands there already
                places = [line.strip()[:110] for line in bare.split("\n") if re.search(rf"(?<![\w'-]){re.escape(names[word])}(?![\w'-])", line)]
                print(f"look: {path}: {word} becomes {names[word]}, which stands there {len(places)} times: {places[0]}")
        if not look:
            with open(path, "w", encoding="utf-8") as file:
                law = LAWS.get(path.split("/")[1]) if os.path.isdir(f"crates/{CRATE[0]}") else None
                mine = {**names, law: snake(law) + "_law"} if law else names
                file.write(renamed(text, mine, fields, kept, not path.endswith(".antt")))
    if not look and os.path.isdir(f"crates/{CRATE[0]}"):
        rename_crate(proofs + code + edits)
    print(f"{len(names)} words")
    return bad


def rename_crate(paths):
    old, new = CRATE
    for path in paths:
        text = read(path)
        fresh = re.sub(rf"\bRattle\.{old}\.", f"Rattle.{new}.", text)
        if path.endswith((".rt", ".edit")):
            fresh = re.sub(rf"(?<![\w.\"]){old}::", f"{new}::", fresh)
            fresh = re.sub(rf"(?m)^use {old};", f"use {new};", fresh)
        if fresh != text:
            with open(path, "w", encoding="utf-8") as file:
                file.write(fresh)
    lines = [re.sub(rf"(?<![\w]){old}(?![\w])", new, line) if not line.startswith("#") else line for line in read("crates.txt").split("\n")]
    with open("crates.txt", "w", encoding="utf-8") as file:
        file.write("\n".join(lines))
    os.rename(f"crates/{old}", f"crates/{new}")


if __name__ == "__main__":
    raise SystemExit(main("--look" in sys.argv[1:]))
