#!/usr/bin/env python3
"""Says which must-fail edits of this repository no longer apply.

usage: python3 tools/edits_apply.py     at the top of the repository; it writes nothing and takes a second

An edit (crates/NAME/must-fail/X.edit) has a line 'file: PATH' and pairs of lines 'old: TEXT' and 'new: TEXT', read as rt
reads them. Reported is one without a pair, one whose file is not there, one with an 'old:' that does not stand exactly once
in the file as the earlier pairs left it, and one with an 'old:' that its 'new:' repeats. Ends with a count line; the exit
status is 1 where an edit is reported. Whether the check refuses an edit that applies, `rt must-fail` says.
"""

import glob
import os
import sys


def fault(edit):
    """What keeps the edit from applying, or None."""
    crate = os.path.dirname(os.path.dirname(edit))
    path, old, pairs, texts = None, None, 0, {}
    with open(edit, encoding="utf-8") as f:
        lines = f.read().split("\n")
    for line in lines:
        if line.startswith("file: "):
            path = line[len("file: ") :].strip()
        elif line.startswith("old: "):
            old = line[len("old: ") :]
        elif line.startswith("new:"):
            new = line[len("new:") :].removeprefix(" ")
            if not path or not old:
                return "a 'new:' before any 'file:' or 'old:'"
            if path not in texts:
                if not os.path.isfile(os.path.join(crate, path)):
                    return f"no file {path}"
                with open(os.path.join(crate, path), encoding="utf-8") as f:
                    texts[path] = f.read()
            found = texts[path].count(old)
            if found != 1:
                return f"stands {found} times in {path}: {old.strip()}"
            if old == new:
                return f"'old:' and 'new:' are the same: {old.strip()}"
            texts[path] = texts[path].replace(old, new)
            old, pairs = None, pairs + 1
    if old is not None:
        return "an 'old:' without its 'new:'"
    return None if pairs else "no pair of 'old:' and 'new:'"


def main():
    edits = sorted(glob.glob("crates/*/must-fail/*.edit"))
    if not edits:
        sys.exit("no must-fail edits here: run it at the top of the repository")
    faults = [(edit, why) for edit in edits if (why := fault(edit))]
    for edit, why in faults:
        print(f"{edit}: {why}")
    print(f"edits: {len(edits)}, not applying: {len(faults)}")
    sys.exit(bool(faults))


main()
