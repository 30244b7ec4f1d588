#!/usr/bin/env python3
"""Gives the repository's own definitions and lemmas today's spelling: words in snake case; in a lemma's name a dash only between two names.

usage: tools/respell.py      at the top of the repository, once, after port.py

It goes by whole words, in .rt and .antt files below crates/. tools/respell.tsv has each old name and its new one. Names of functions, of
files and of what Rattle makes stay. A lemma whose name fell together with a definition's ends in _lem.
"""
import glob
import os
import re

HERE = os.path.dirname(os.path.realpath(__file__))
WORD = re.compile(r"(?<![A-Za-z0-9_'₀-₉-])([A-Za-z0-9_'₀-₉][A-Za-z0-9_'₀-₉-]*)")

# Lemmas that port.py had already given a definition's new name, by the files that speak of them.
LEMMAS = {
    "count_by": ["packer/proofs/Pieces"],
    "turn_by": ["feeding/specs/Feed", "feeding/proofs/Feeds", "feeding/proofs/feed/feed/Proof"],
    "goes_on": ["capture_account/proofs/Short", "cutter/proofs/Steps", "packer/proofs/Rejoins"],
    "joined_by": ["delivery/specs/Packet"],
    "open_by": ["broadcast/proofs/Labels"],
    "units_of": ["broadcast/proofs/Demand3"],
}


def respelled(text, table, lemmas):
    def one(found):
        word = found.group(1)
        if word in lemmas and (found.start() == 0 or text[found.start() - 1] != "."):
            return word + "_lem"
        if word.endswith("-spec"):
            return word[:-5].replace("-", "_") + "_spec"
        return table.get(word, word)

    return WORD.sub(one, text)


def main():
    with open(os.path.join(HERE, "respell.tsv"), encoding="utf-8") as rows:
        table = dict(row.rstrip("\n").split("\t") for row in rows)
    for path in sorted(glob.glob("crates/**/*.rt", recursive=True) + glob.glob("crates/**/*.antt", recursive=True)):
        stem = re.sub(r"__\w+$", "", path[len("crates/") :].rsplit(".", 1)[0])
        lemmas = {name for name, files in LEMMAS.items() if stem in files}
        with open(path, encoding="utf-8") as file:
            text = file.read()
        new = respelled(text, table, lemmas)
        if new != text:
            with open(path, "w", encoding="utf-8") as file:
                file.write(new)


if __name__ == "__main__":
    main()
