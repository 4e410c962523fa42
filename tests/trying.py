"""How a command is tried: what it printed, said and ended with, held against what is wanted; used by the tests of the commands."""
import os
import shutil
import subprocess
import tempfile

from running import ROOT

BANKCHECK = os.path.join(ROOT, "bankcheck")
BANKWRITE = os.path.join(ROOT, "bankwrite")
PLAINCHECK = os.path.join(ROOT, "plaincheck")
SELECTOR = os.path.join(ROOT, "selector")
RECORDS = os.path.join(ROOT, "crates", "bankwrite", "data", "records.txt")  # of the example bank
WRITE = os.path.join(ROOT, "examples", "write")
CASES = os.path.join(ROOT, "tests", "cases")
GOLDEN = os.path.join(ROOT, "tests", "golden")


def content(*path):
    with open(os.path.join(*path), "rb") as file:
        return file.read()


def run(command, cwd=ROOT, redirect="", **settings):
    """Runs a command, its input and outputs redirected by a piece of shell if one is given; settings are environment variables."""
    if redirect:
        command = ["sh", "-c", '"$@" ' + redirect, "sh", *command]
    return subprocess.run(command, cwd=cwd, capture_output=True, stdin=subprocess.DEVNULL, timeout=120, env={**os.environ, **settings})


def wrong(ran, status, printed, said=None, by="bankcheck: "):
    """None if a run ended with this status and output and said one line with these words, or nothing at all; else what is wrong."""
    lines = ran.stderr.decode(errors="replace").splitlines()
    if ran.returncode != status:
        return f"ended with {ran.returncode}, wanted {status}; said {lines[:3]}"
    if ran.stdout != printed:
        return f"printed {ran.stdout[:200]!r}, wanted {printed[:200]!r}"
    if said is None:
        return f"said {lines[:3]}" if lines else None
    if len(lines) == 1 and lines[0].startswith(by) and said in lines[0]:
        return None
    return f"said {lines[:3]}, wanted one line with {said!r}"


class Tally:
    """Counts the tests of a script; one that cannot be tried here is told and counted neither way."""

    def __init__(self):
        self.passed = self.failed = 0

    def note(self, name, why):
        if why is None:
            self.passed += 1
        else:
            self.failed += 1
            print(f"{name}: {why}")

    def skip(self, name, why):
        print(f"{name}: not tried, {why}")

    def finish(self):
        print(f"{self.passed} passed, {self.failed} failed")
        return 0 if self.passed and not self.failed else 1


def clear(room):
    """Removes a folder, whatever a test has forbidden in it."""
    for folder, _, _ in os.walk(room):
        os.chmod(folder, 0o755)
    shutil.rmtree(room, ignore_errors=True)


def tried(tests):
    """Runs each test with the tally and a temporary folder of its own that every user may enter; gives the exit status."""
    tally = Tally()
    for test in tests:
        room = tempfile.mkdtemp(prefix="trying-")
        os.chmod(room, 0o755)
        try:
            test(tally, room)
        except Exception as error:
            tally.note(test.__name__, f"the test broke off: {error!r}")
        finally:
            clear(room)
    return tally.finish()


def bank_in(*path):
    """A folder with the images of the example bank, of which rules fail."""
    folder = os.path.join(*path)
    os.makedirs(folder)
    for name in ("nodes.blk", "rules.blk"):
        shutil.copyfile(os.path.join(ROOT, "examples", "bank", name), os.path.join(folder, name))
    return folder


def records_in(*path):
    """A folder with the records of the example bank, typed."""
    folder = os.path.join(*path)
    os.makedirs(folder)
    shutil.copyfile(RECORDS, os.path.join(folder, "records.txt"))
    return folder


def put(data, *path):
    """A file of these bytes."""
    with open(os.path.join(*path), "wb") as file:
        file.write(data)


def typed_in(*path):
    """A folder with a path that is typed, and the dictionary of the example bank."""
    folder = os.path.join(*path)
    os.makedirs(folder)
    put(b"bank/mixer", folder, "text")
    shutil.copy(os.path.join(ROOT, "examples", "bank", "dictionary"), folder)
    return folder


def script(text, *path):
    """An executable file."""
    place = os.path.join(*path)
    os.makedirs(os.path.dirname(place), exist_ok=True)
    with open(place, "w") as file:
        file.write(text)
    os.chmod(place, 0o755)
    return place


def ordinary():
    """The words before a command that make an ordinary user run it, nothing if this user is one, None if there is no way."""
    if os.geteuid() != 0:
        return []
    if shutil.which("setpriv"):
        return ["setpriv", "--reuid=65534", "--regid=65534", "--clear-groups"]
    return ["runuser", "-u", "nobody", "--"] if shutil.which("runuser") else None
