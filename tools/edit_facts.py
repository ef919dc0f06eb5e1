#!/usr/bin/env python3
"""Writes the place and the fact that are refused first into the first line of each must-fail edit, by what `rt ci` or `rt must-fail` printed of it.
Run at the top of the repository: tools/edit_facts.py [--dry] LOG..

The claim and what is refused stay, and a second place and fact where the first ones stay. It lists the edits whose place it changed, to be
read again; and those that it leaves as they are: still proved, bad, not tried, refused only for a missing name or at a place that is not told."""
import importlib.machinery
import importlib.util
import re
import sys
from pathlib import Path

HERE = Path(__file__).resolve().parent
LOADER = importlib.machinery.SourceFileLoader("edit_words", str(HERE.parent / ".ci/edit-words"))
WORDS = importlib.util.module_from_spec(importlib.util.spec_from_loader("edit_words", LOADER))
sys.dont_write_bytecode = True
LOADER.exec_module(WORDS)


def words_of(first):
    """Claim, places and facts, and what is refused, of a first line."""
    words = WORDS.named(first)
    return words and (WORDS.FIRST.fullmatch(first)["claim"], *words)


def main(words):
    dry, logs = "--dry" in words, [it for it in words if it != "--dry"]
    written = same = left = 0
    for (name, label), said in sorted(WORDS.said_in(logs).items()):
        edit = Path("crates") / name / "must-fail" / f"{label}.edit"
        if not edit.is_file():
            continue
        first, rest = edit.read_text().split("\n", 1)
        old, why, told = words_of(first), None, None
        if not said.startswith(WORDS.REFUSED):
            why = said[:200]
        elif said.startswith(WORDS.REFUSED + WORDS.TAKEN_AWAY):
            why = f"only a missing name: {said[len(WORDS.REFUSED + WORDS.TAKEN_AWAY) :][-160:]}"
        elif old is None:
            why = f"its first line has another form: {first}"
        else:
            told = WORDS.refused_first(edit.parent.parent, said[len(WORDS.REFUSED) :].removeprefix(": "))
            why = None if told and told[1] else f"no place or fact is told: {said[:200]}"
        if why:
            left += 1
            print(f"LEFT {name}/{label}: {why}")
            continue
        claim, pairs, what = old
        place, fact, whole = told
        if place != pairs[0][0]:
            print(f"ANOTHER PLACE {name}/{label}: {pairs[0][0]} is now {place}, {fact}: {claim}")
        if not whole:
            print(f"CUT OFF {name}/{label}: {fact}")
        more = f"and {', '.join(pairs[1])}, " if len(pairs) == 2 and pairs[0] == [place, fact] else ""
        line = f"# {claim} Refused: {place}, {fact}, {more}{what}."
        if re.sub(r"\s+", " ", line) == first:
            same += 1
        else:
            written += 1
            if not dry:
                edit.write_text(f"{line}\n{rest}")
    print(f"{written} first lines written, {same} were so, {left} left")


if __name__ == "__main__":
    main(sys.argv[1:])
