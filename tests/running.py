"""How programs are built and run over cases and files of many of them, and how the crates are copied: used by the test scripts."""
import glob
import hashlib
import os
import re
import shutil
import struct
import subprocess
import tempfile
from typing import NamedTuple

ROOT = os.path.dirname(os.path.dirname(os.path.abspath(__file__)))
IMAGES = ("nodes.blk", "rules.blk")
MOST = (20481, 5121)  # bytes of an image in a pair: one more than the largest good one
HEADER = struct.Struct("<IIHHHHHH")  # of a pair: lengths of the images, days, rule numbers, room of the lists, 0


def tree_hash():
    """The hash of the tree that is checked out; where git cannot tell it, one over the files of crates/."""
    told = subprocess.run(["git", "rev-parse", "HEAD^{tree}"], cwd=ROOT, capture_output=True, text=True) if shutil.which("git") else None
    if told and told.returncode == 0:
        return told.stdout.strip()
    total = hashlib.sha256()
    for path in sorted(glob.glob(os.path.join(ROOT, "crates", "**"), recursive=True)):
        if os.path.isfile(path):
            with open(path, "rb") as file:
                total.update(os.path.relpath(path, ROOT).encode() + b"\0" + hashlib.sha256(file.read()).digest())
    return total.hexdigest()


def program_of(crate):
    """Where rt ci, and rt run in the crate's folder, leave a program."""
    return os.path.join(ROOT, "crates", crate, "out", crate)


def command(crate):
    """The words that run a proved program, which must have been built."""
    return [program_of(crate)]


def scratch(room, names=None):
    """A copy of the crates, or of those named, for a repository of its own: without what rt made of them, and without their must-fail edits."""
    for crate in sorted(names or os.listdir(os.path.join(ROOT, "crates"))):
        for part in os.listdir(os.path.join(ROOT, "crates", crate)):
            source, to = os.path.join(ROOT, "crates", crate, part), os.path.join(room, "crates", crate, part)
            if os.path.isdir(source) and part not in ("out", "must-fail"):
                shutil.copytree(source, to)
            elif os.path.isfile(source):
                os.makedirs(os.path.dirname(to), exist_ok=True)
                shutil.copyfile(source, to)
    for name in ("crates.txt", "HANDLES"):
        if os.path.exists(os.path.join(ROOT, name)):
            shutil.copyfile(os.path.join(ROOT, name), os.path.join(room, name))


def graph():
    """Each crate with the crates of the repository that its line of crates.txt names."""
    with open(os.path.join(ROOT, "crates.txt")) as file:
        lines = [line.partition("#")[0].strip() for line in file]
    return {name.split()[0]: below.split() for name, _, below in (line.partition(":") for line in lines if line)}


def below(known, crate):
    """The crate and every crate of the repository that it reaches."""
    found, left = set(), [crate]
    while left:
        name = left.pop()
        if name in known and name not in found:
            found.add(name)
            left += known[name]
    return found


def said(words, top):
    """How a command of the kit ends in a folder, and what it says there."""
    ran = subprocess.run(["rt", *words], cwd=top, stdin=subprocess.DEVNULL, stdout=subprocess.PIPE, stderr=subprocess.STDOUT, text=True, errors="replace")
    return ran.returncode, ran.stdout


def sections(text):
    """What rt ci says of each proof that it did in this run, by crate: the lines behind `== NAME`, up to its word on the crate."""
    parts = re.finditer(r"(?ms)^== ([a-z0-9_]+)\n(.*?)^rt: \1 (?:proved|NOT PROVED)$", text)
    return {part.group(1): part.group(2) for part in parts}


def in_rust(folder, name, *source):
    """A program in Rust, built in the folder from its main file."""
    program = os.path.join(folder, name)
    subprocess.run(["rustc", "-O", "-o", program, os.path.join(ROOT, *source)], check=True)
    return program


def second(folder):
    """The second program, built in the folder."""
    return in_rust(folder, "second", "second", "main.rs")


def third(folder):
    """The third one, by plain cc; a warning counts as a failure."""
    program = os.path.join(folder, "third")
    sources = sorted(glob.glob(os.path.join(ROOT, "bench", "*.c")))
    subprocess.run(["cc", "-O2", "-Wall", "-Wextra", "-Werror", "-o", program] + sources, check=True)
    return program


def printed(run, folder, extra={}):
    """What the program prints in a copy of the folder that holds the two images, and the extra files, alone."""
    room = tempfile.mkdtemp(prefix="run-")
    for name in IMAGES:
        source = os.path.join(folder, name)
        if os.path.isdir(source):
            os.mkdir(os.path.join(room, name))
        elif os.path.exists(source):
            shutil.copyfile(source, os.path.join(room, name))
    for name, content in extra.items():
        with open(os.path.join(room, name), "wb") as file:
            file.write(content)
    output = subprocess.run(run, cwd=room, capture_output=True, text=True).stdout
    shutil.rmtree(room)
    return output


def packed(images, days, rules, room):
    """A pair as a file of many pairs has it (README.md), of images cut to the most that a pair can have: a longer one is refused as well."""
    nodes, table = (image[:most] for image, most in zip(images, MOST))
    return HEADER.pack(len(nodes), len(table), *days, *rules, room, 0) + nodes + table


class Pair(NamedTuple):
    """A pair of a file of many pairs: the node image and the rule image, and what its header asks about them."""

    nodes: bytes
    table: bytes
    days: tuple
    rules: tuple
    room: int


def pairs_of(data):
    """The pairs of a file."""
    at, pairs = 0, []
    while at + HEADER.size <= len(data):
        nodes, table, *asked, room, _ = HEADER.unpack_from(data, at)
        at += HEADER.size
        pairs.append(Pair(data[at : at + nodes], data[at + nodes : at + nodes + table], tuple(asked[:2]), tuple(asked[2:]), room))
        at += nodes + table
    return pairs


def rule_record(table, rule):
    """The bytes of a rule in an accepted rule image."""
    at = rule // 10 * 512 + 8 + rule % 10 * 50
    return table[at : at + 50]


def sequenced(table, rule):
    """Whether a rule of an accepted rule image is asked of days."""
    return rule_record(table, rule)[1] == 0


def by_word(word, text):
    """What was printed for each pair, or case, of a file: its number, a line feed, its lines."""
    return ("\n" + text).split(f"\n{word} ")[1:]


def nodes_refused(report):
    """The words in which a report refuses the node image; None if they are of the rules, or it refuses nothing."""
    words = report[0].split(" ")
    return report[0] if words[0] == "refused" and int(words[1]) < 20 else None


def verdict_line(report, rule):
    """The line of the verdict on a rule, by the lines of a report: as it refuses the images, else by the rule's own line, 11 where there is no such rule."""
    if report[0].startswith("refused"):
        return f"verdict {rule} {report[0]}"
    return f"verdict {report[rule + 1]}" if rule + 1 < len(report) else f"verdict {rule} refused 11 0"


def plain_line(report, table, rule):
    """The same by the plain engine, which judges sequenced rules alone: 11 also where a rule is not sequenced."""
    line = verdict_line(report, rule)
    return line if "refused" in line or sequenced(table, rule) else f"verdict {rule} refused 11 0"


def by_engine(text):
    """What `pairs` prints for each pair of pairs.blk, and what, by the plain engine, for each of plain.blk."""
    quick, *plain = ("\n" + text).split("\nplain ")
    return by_word("pair", quick), plain


def again(report):
    """The line on a node image written again: refused as the report refuses it, else the same."""
    return "again " + (nodes_refused(report) or "same")


def over_cases(tops, files, check):
    """Runs check(folder) on each case that has the files; it gives None or what is wrong. A folder without one counts as failed.

    Prints the count; 0 if all passed.
    """
    passed = failed = 0
    for top in tops:
        cases = [case for case in sorted(os.listdir(top)) if all(os.path.isfile(os.path.join(top, case, name)) for name in files)]
        told = [(case, check(os.path.join(top, case))) for case in cases] or [(top, "no case")]
        wrong = [f"{case}: {why}" for case, why in told if why is not None]
        passed, failed = passed + len(told) - len(wrong), failed + len(wrong)
        print("".join(line + "\n" for line in wrong), end="")
    print(f"{passed} passed, {failed} failed")
    return 0 if failed == 0 and passed > 0 else 1


def alarms(text):
    """What `pairs` tells of a pair without its lines on false alarms, and these lines: rules for which more places were looked into than needed."""
    lines = text.split("\n")
    return "\n".join(line for line in lines if not line.startswith("alarm ")), [line for line in lines if line.startswith("alarm ")]
