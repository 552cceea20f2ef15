#!/usr/bin/env python3
"""Tries the edits crates/NAME/compile-fail/*.edit: the compiler must refuse each, with the error that its line `error:`
names. Such an edit breaks a rule of the language and no contract, so it never reaches the prover, and the gate cannot
count it. Otherwise it is written as a must-fail edit is. Run at the top of the repository; it works on a copy.
"""

import pathlib
import shutil
import subprocess
import sys
import tempfile


def parts(path):
    """The error, the file and the pairs of old and new text that an edit names."""
    error, file, pairs = "", "", []
    for line in path.read_text(encoding="utf-8").splitlines():
        word, _, text = line.partition(": ")
        if word == "error":
            error = text.strip()
        elif word == "file":
            file = text.strip()
        elif word == "old":
            pairs.append([text, ""])
        elif word == "new":
            pairs[-1][1] = text
    return error, file, pairs


def refused(path, top):
    """Whether the edited crate, in the copy `top`, is refused with the error."""
    error, file, pairs = parts(path)
    crate = top / path.parent.parent
    source = crate / file
    kept = source.read_text(encoding="utf-8")
    text = kept
    for old, new in pairs:
        if text.count(old) != 1:
            print(f"{path}: its text stands {text.count(old)} times")
            return False
        text = text.replace(old, new)
    source.write_text(text, encoding="utf-8")
    said = subprocess.run(["rt", "check"], cwd=crate, capture_output=True, text=True)
    source.write_text(kept, encoding="utf-8")
    found = [line for line in (said.stdout + said.stderr).splitlines() if f"error[{error}]" in line]
    print(f"{path}: " + (f"refused: {found[0]}" if found else "NOT REFUSED"))
    return bool(found) and said.returncode != 0


def main():
    edits = sorted(pathlib.Path("crates").glob("*/compile-fail/*.edit"))
    with tempfile.TemporaryDirectory() as folder:
        top = pathlib.Path(folder)
        shutil.copytree("crates", top / "crates", ignore=shutil.ignore_patterns("out"))
        shutil.copy("crates.txt", top)
        answers = [refused(path, top) for path in edits]
    print(f"{sum(answers)} refused, {len(answers) - sum(answers)} not")
    sys.exit(0 if all(answers) else 1)


main()
