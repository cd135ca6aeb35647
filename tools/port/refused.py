#!/usr/bin/env python3
"""What refuses each must-fail edit, as rows for docs/PORT.md: tools/port/refused.py LOG...

A LOG is what `rt ci` or `rt must-fail` printed; of two that tell of one edit the later counts.
An edit that none tells of is named on standard error, and the script ends with 1."""

import re
import sys
from pathlib import Path

TOP = Path(__file__).resolve().parents[2]
SAID = re.compile(r"rt: must-fail (\w+/\w+)\.edit: refused, as it must be: (?:note: )?(?:\./)?(\S+?):(\d+):\d+: (.*)")
FUNCTION = re.compile(r"\s*(?:pub(?:\(crate\))? )?(?:extern \"C\" )?fn (\w+)")


def function_at(crate, path, line):
    """The function that the line of a source file stands in, or that begins there."""
    text = (TOP / "crates" / crate / path).read_text().split("\n")
    at = line - 1
    while text[at].lstrip().startswith("#["):
        at += 1
    for row in text[at::-1]:
        if found := FUNCTION.match(row):
            return found.group(1)
    return ""


def where(crate, path, line, words):
    """The file, and the goal or lemma that the check's own words name."""
    # rt cuts a long line, in the middle of a name too.
    if named := re.match(r"error: `([^`]+)(`|$)", words):
        return f"{path} `{named.group(1)}`" if named.group(2) else f"{path} `{named.group(1)}..`"
    goal = re.findall(r"\(`([^`]+)`\)", words)
    return f"{path} `{function_at(crate, path, line)}`" + (f", `{goal[-1]}`" if goal else "")


def main():
    rows = {}
    for log in sys.argv[1:]:
        for edit, path, line, words in SAID.findall(Path(log).read_text()):
            rows[edit] = where(edit.split("/")[0], path, int(line), words)
    edits = [f"{p.parts[-3]}/{p.stem}" for p in sorted(TOP.glob("crates/*/must-fail/*.edit"))]
    untold = [edit for edit in edits if edit not in rows]
    for edit in edits:
        if edit in rows:
            print(f"| {edit} | {rows[edit]} |")
    for edit in untold:
        print(f"refused.py: no log tells of {edit}", file=sys.stderr)
    return 1 if untold else 0


if __name__ == "__main__":
    sys.exit(main())
