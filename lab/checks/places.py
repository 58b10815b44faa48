"""Counts how many places a change touches: the hunks of the diff between two commits, as `git diff` makes them with its three lines of
context, by where they are. Where AFTER is left out it is the working tree as it is."""

import re
import signal
import subprocess
import sys

from checks import usage
from machine.gateway import HOME

# Whose paths these are, the first that fits.
PARTS = [
    ("tests", r"crates/\w+_tests/|crates/\w+/src/(.*/)?tests?(/|\.rt$)"),
    ("src", r"crates/\w+/src/"),
    ("specs", r"crates/\w+/specs/"),
    ("proofs", r"crates/\w+/proofs/"),
    ("must-fail", r"crates/\w+/must-fail/"),
    ("docs", r"docs/|README\.md$"),
    ("lab", r"lab/"),
    ("other", r""),
]

# Those whose places are counted together.
COUNTED = ["src", "specs", "proofs", "tests", "docs", "lab"]


class File:
    """What a change does to one file."""

    def __init__(self, path):
        self.path = path
        self.part = next(name for name, pattern in PARTS if re.match(pattern, path))
        self.hunks = self.added = self.removed = 0


def changed(before, after=None):
    """The files that changed, in the order of the diff. A file that moved is its new one."""
    command = ["git", "-C", HOME, "-c", "core.quotePath=false", "diff", "--find-renames", "--unified=3", before, *([after] if after else []), "--"]
    done = subprocess.run(command, capture_output=True, check=False)
    if done.returncode != 0:
        raise RuntimeError(done.stderr.decode(errors="replace").splitlines()[0])
    files, left = [], 0
    for line in done.stdout.decode(errors="replace").split("\n"):
        if left and line[:1] in (" ", "+", "-"):
            left -= 2 if line[0] == " " else 1
            files[-1].added += line[0] == "+"
            files[-1].removed += line[0] == "-"
        elif line.startswith("diff --git "):
            files.append(File(line.rsplit(" b/", 1)[1]))
        elif found := re.match(r"@@ -\d+(?:,(\d+))? \+\d+(?:,(\d+))? @@", line):
            files[-1].hunks += 1
            left = sum(int(count) if count else 1 for count in found.groups())
        elif line.startswith("Binary files "):
            files[-1].hunks += 1
    return files


def show(files):
    """A line for each part, one for those that are counted together, and one for each file."""
    names = [name for name, _ in PARTS]
    lines = [(name, [name]) for name in names if name in COUNTED] + [("together", COUNTED)] + [(name, [name]) for name in names if name not in COUNTED]
    print("part       places  files  lines added  removed")
    for name, parts in lines:
        chosen = [file for file in files if file.part in parts]
        places, added, removed = (sum(getattr(file, what) for file in chosen) for what in ("hunks", "added", "removed"))
        print(f"{name:10} {places:6} {len(chosen):6} {added:12} {removed:8}")
    print("\nplaces  file")
    for file in sorted(files, key=lambda file: (names.index(file.part), file.path)):
        print(f"{file.hunks:6}  {file.path}")


if __name__ == "__main__":
    came = usage.heed("places", __doc__, "BEFORE", "AFTER", needed=1)
    # Who reads no more, as head, ends it in silence.
    signal.signal(signal.SIGPIPE, signal.SIG_DFL)
    try:
        show(changed(*came))
    except RuntimeError as error:
        sys.exit(f"places: {error}")
