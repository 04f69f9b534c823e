#!/usr/bin/env python3
"""Wrong bodies that the contracts of a crate must refuse, beside those of its folder must-fail, which each gate tries.

    python3 tests/edits.py [PROGRAM]      whether each edit can be applied: its old texts stand once in their files
    python3 tests/edits.py --try NAME..   the edits of these crates are tried by the prover, as those of must-fail are

Try those of a crate if its contracts or bodies have changed.
PROGRAM is ignored.
"""

import pathlib
import shutil
import subprocess
import sys

TOP = pathlib.Path(__file__).resolve().parent.parent
EDITS = TOP / "tests" / "edits"


def edits_of(name="*"):
    """The edits of the crate, or of all, in order."""
    return sorted(EDITS.glob(f"{name}/*.edit"))


def fault_of(edit):
    """Why the edit can't be applied; None if it can."""
    texts, path, old = {}, None, None
    for line in edit.read_text().splitlines():
        key, _, text = line.partition(": ")
        if key == "file":
            path = TOP / "crates" / edit.parent.name / text
            if not path.is_file():
                return f"there is no {text}"
        elif key == "old":
            old = text
        elif key == "new" and path and old:
            before = texts.get(path) or path.read_text()
            if before.count(old) != 1:
                return f"{path.name} has {before.count(old)} times: {old}"
            if old == text:
                return f"it changes nothing: {old}"
            texts[path] = before.replace(old, text)
        elif line:
            return f"a line is none of an edit: {line}"
    return None if texts else "it changes nothing"


def hold_edits():
    """Holds all edits to their crates; returns the exit status."""
    faults = {edit: fault_of(edit) for edit in edits_of()}
    failed = {edit: fault for edit, fault in faults.items() if fault}
    for edit, fault in failed.items():
        print(f"FAILED: {edit.relative_to(TOP)}: {fault}")
    print(f"{len(faults) - len(failed)} passed, {len(failed)} failed")
    return 1 if failed else 0


def try_edits(names):
    """Lets the prover try the edits of the crates, in their folders must-fail; returns the exit status."""
    edits = [it for name in names for it in edits_of(name)]
    places = [TOP / "crates" / it.parent.name / "must-fail" / it.name for it in edits]
    if not all(edits_of(name) for name in names) or not names or any(it.exists() for it in places):
        print("no crate is named, or one without edits here, or an edit is in must-fail too", file=sys.stderr)
        return 64
    added = []
    try:
        for edit, place in zip(edits, places):
            place.parent.mkdir(exist_ok=True)
            shutil.copy(edit, place)
            added.append(place)
        return subprocess.run(["rt", "must-fail", *names], cwd=TOP, check=False).returncode
    finally:
        for place in added:
            place.unlink(missing_ok=True)
            if not any(place.parent.iterdir()):
                place.parent.rmdir()


def main():
    words = sys.argv[1:]
    if words[:1] == ["--try"]:
        return try_edits([*dict.fromkeys(words[1:])])
    return hold_edits()


if __name__ == "__main__":
    sys.exit(main())
