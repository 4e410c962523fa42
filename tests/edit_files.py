"""The must-fail edits, read as rt reads them: used by the test scripts."""
import glob
import os

ROOT = os.path.dirname(os.path.dirname(os.path.abspath(__file__)))
GATE = ("crates", "*", "must-fail", "*.edit")
FURTHER = ("tests", "edits", "*", "*.edit")


def found(top, *pattern):
    """The edits of a folder, with the crate and the label of each."""
    for path in sorted(glob.glob(os.path.join(top, *pattern))):
        parts = path.split(os.sep)
        crate = parts[-3] if parts[-2] == "must-fail" else parts[-2]
        yield crate, parts[-1][: -len(".edit")], path


def replacements(path):
    """Each replacement: the file, the old text and the new one; a file's name holds until the next."""
    name = old = None
    with open(path) as file:
        for line in file.read().splitlines():
            if line.startswith("file: "):
                name = line[len("file: ") :]
            elif line.startswith("old: "):
                old = line[len("old: ") :]
            elif line.startswith("new:"):
                yield name, old, line[len("new:") :].removeprefix(" ")
                old = None
