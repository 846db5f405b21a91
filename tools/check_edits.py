#!/usr/bin/env python3
"""Checks the must-fail edits in a second, before the gate tries them: every old text stands exactly once in its file and ends no
comment early; and after the gate, that each was refused because a fact fails.

    tools/check_edits.py                  the texts
    tools/check_edits.py --refused FILE   what `.ci/run`, `rt ci` or `rt must-fail` of all crates printed, kept in FILE

An edit that is refused only because a proof file names what it took away, or by a limit of the prover, shows nothing. What is
wrong is told a line each, and the exit status is 1.
"""
import re
import sys
from pathlib import Path

ROOT = Path(__file__).resolve().parent.parent


def edits():
    """Every edit, with the folder of its crate."""
    return [(edit, edit.parent.parent) for edit in sorted(ROOT.glob("crates/*/must-fail/*.edit"))]


def faults(edit, crate):
    """What is wrong with an edit's texts, as rt would read them."""
    texts, file, old, pairs = {}, None, "", 0
    for line in edit.read_text().splitlines():
        if line.startswith("file: "):
            file = crate / line[6:]
        elif line.startswith("old: "):
            old = line[5:]
        elif line.startswith("new:"):
            pairs += 1
            if file is None or not file.is_file():
                yield "no file of the crate is named"
                return
            text = texts.get(file) or file.read_text()
            if not old or text.count(old) != 1:
                yield f"the old text stands {text.count(old) if old else 0} times in {file.relative_to(ROOT)}: {old}"
                return
            if "//" in old and not text.split(old)[1].startswith("\n"):
                yield f"the old text ends within a comment of {file.relative_to(ROOT)}, of which a part would stay: {old}"
            texts[file] = text.replace(old, line[4:].removeprefix(" "))
            if texts[file] == text:
                yield f"nothing changes in {file.relative_to(ROOT)}: {old}"
    if pairs == 0:
        yield "it has no old and new text"


# What rt says of a refusal that shows nothing, and of an edit that is not refused.
UNFIT = {
    "refused, as it must be (only because a proof file": "refused only because a proof file names what it took away",
    "refused, as it must be (only by a limit": "refused only by a limit of the prover",
    "NOT REFUSED": "not refused",
    "BAD EDIT": "it cannot be applied, or it did not reach the prover",
    "NOT TRIED": "the gate could not try it",
}


def said_of(lines):
    """What the gate said of each edit, by its crate and name."""
    found = (re.search(r"\bmust-fail (\S+)/(\S+)\.edit: (.*)", line) for line in lines)
    return {(it[1], it[2]): it[3] for it in found if it}


def unfit(said, edit, crate):
    """Why the gate's word on an edit shows nothing of its crate's contracts."""
    text = said.get((crate.name, edit.stem))
    if text is None:
        yield "the gate has not tried it"
    yield from [what for begin, what in UNFIT.items() if text and text.startswith(begin)]


def main(words):
    if words and (len(words) != 2 or words[0] != "--refused"):
        print(__doc__, file=sys.stderr)
        return 2
    if words:
        said = said_of(Path(words[1]).read_text(errors="replace").splitlines())
    found = [
        f"{edit.relative_to(ROOT)}: {what}"
        for edit, crate in edits()
        for what in (unfit(said, edit, crate) if words else faults(edit, crate))
    ]
    print("\n".join(found + [f"{len(edits())} edits, {len(found)} at fault"]))
    return 1 if found else 0


sys.exit(main(sys.argv[1:]))
