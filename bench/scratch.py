"""A program in Rattle that is kept as a text and is no crate, built in a scratch copy of the checkout: used by the scripts that measure."""
import os
import shutil
import sys

HERE = os.path.dirname(os.path.abspath(__file__))
sys.path.insert(0, os.path.join(os.path.dirname(HERE), "tests"))
import running  # noqa: E402


class NotBuilt(Exception):
    """Why there is no program."""


def build(room, name, needs):
    """The program of bench/NAME.txt, which names these crates, in a copy of the checkout. rt takes what it proved of the others on this machine."""
    running.scratch(room)
    with open(os.path.join(room, "crates.txt"), "a") as file:
        file.write(f"{name}: {needs}\n")
    source = os.path.join(room, "crates", name, "src")
    os.makedirs(source)
    shutil.copy(os.path.join(HERE, f"{name}.txt"), os.path.join(source, "main.rt"))
    _, told = running.said(["run"], os.path.dirname(source))
    program = os.path.join(room, "crates", name, "out", name)
    if not os.path.exists(program):
        raise NotBuilt(f"bench/{name}.txt could not be built:\n" + told[-2000:])
    return program
