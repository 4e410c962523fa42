#!/usr/bin/env python3
"""Spells the repository's own definitions and lemmas as today's Rattle does: words in snake case, facts and types in camel case.

usage: python3 tools/spell.py        once, at the top, right after port.py

A function in camel case gets underscores (isPeriod: is_period). A lemma with dashes gets underscores too, but for the one behind the name
of a definition that it begins with (month-on-start, of monthOn: month_on-start). Names of src/, files and strings stay. A name that a
library declares as well, or whose new form some file already has for something else, is listed with 'look:' and stays as it is; but a
lemma that would have a definition's name gets _lem behind it.
"""
import collections
import glob
import re
import sys

DECLARED = re.compile(
    r"^( *)(?:(?:pub|abbrev|unfoldable) )*(?:(?:data|record) )?([^\s(){}:]+)(?: \([^()]*(?:\([^()]*\)[^()]*)*\)| \{[^{}]*\})* :(?= )"
)
WORD = re.compile(r"[^\s(){}.;,@\"«»\[\]\\`|!&]+")
COMMENT = re.compile(r"--|//")
IMPORT = re.compile(r"^\s*(?:pub |ghost )*use ([^\s{;]+)\.\{([^}]*)\}")
# A local name that a definition's new name would meet, by file.
LOCAL = {f"crates/rules/proofs/{name}.antt": (r"\bin_order\b", "orderly") for name in ("Answers", "Decoding")}
KEYWORDS = {"use", "module", "where", "let", "in", "pub", "abbrev", "unfoldable", "open"}


def snake(name):
    name = re.sub(r"([a-z0-9])([A-Z])", r"\1_\2", name)
    return re.sub(r"([A-Z])([A-Z][a-z])", r"\1_\2", name).lower()


def files(*patterns):
    return sorted(path for pattern in patterns for path in glob.glob(pattern, recursive=True) if "/out/" not in path)


def read(path):
    with open(path, encoding="utf-8") as file:
        return file.read()


def declared(paths):
    """Each name that the files declare, with whether it is ever a part of a record, a datatype or a section."""
    found = collections.defaultdict(bool)
    for path in paths:
        for line in read(path).splitlines():
            match = DECLARED.match(line)
            if match and match.group(2) not in KEYWORDS and not match.group(2).startswith("--"):
                found[match.group(2)] |= bool(match.group(1))
    return found


def fields(paths):
    """The names of the fields and constructors of records and datatypes: what is indented below one."""
    found = set()
    for path in paths:
        inside = False
        for line in read(path).splitlines():
            if re.match(r" *(?:(?:pub|abbrev|unfoldable) )*(?:record|data) ", line):
                inside, depth = True, len(line) - len(line.lstrip())
                continue
            if inside and line.strip() and len(line) - len(line.lstrip()) <= depth:
                inside = False
            match = DECLARED.match(line) if inside else None
            if match:
                found.add(match.group(2))
    return found


def taken(paths):
    """The names that some file imports from a library, not from a crate of this repository."""
    own = {path.split("/")[1] for path in files("crates/*/")} | {path.split("/")[1] for path in files("crates/*/src")}
    found = set()
    for path in paths:
        for line in read(path).splitlines():
            match = IMPORT.match(line)
            if match and not (match.group(1).startswith("Rattle.") and match.group(1).split(".")[1] in own):
                found |= {word.strip().split(" as ")[-1].strip() for word in match.group(2).split(",")}
    return found


def table():
    """The old and the new spelling of each name."""
    specs = files("crates/*/specs/**/*.antt")
    lemmas = [path for path in files("crates/*/proofs/**/*.antt") if path.count("/") == 3 or not path.endswith(("/Proof.antt", "/Answers.antt", "/Invariants.antt"))]
    names, parts = declared(specs + lemmas), fields(specs + lemmas)
    words = {snake(name).replace("_", "-"): snake(name) for name in declared(specs) if name[0].islower() and "-" not in name}
    new = {}
    for name in names:
        if name[0].islower() and re.search("[A-Z]", name) and "-" not in name:
            new[name] = snake(name)
        elif "-" in name and name[0].isupper():
            new[name] = "".join(part[:1].upper() + part[1:] for part in name.split("-"))
        elif "-" in name:
            new[name] = lemma(name, {} if name in parts else words)
    defined = set(words.values()) | set(words)
    for name in [name for name in new if "-" in name and name not in parts and new[name] in defined]:
        new[name] += "_lem"
    return {old: spelled for old, spelled in new.items() if old != spelled}, taken(specs + lemmas)


def lemma(name, words):
    """A lemma's name, or a field's where no words are given."""
    pieces = [snake(piece) for piece in name.split("-")]
    for count in range(len(pieces) - 1, 0, -1):
        head = "-".join(pieces[:count]).replace("_", "-")
        if head in words:
            return words[head] + "-" + "_".join(pieces[count:])
    return "_".join(pieces)


def clashes(new, library, texts):
    """Names that would fall together with another."""
    here = collections.Counter(new.values())
    seen = collections.defaultdict(set)
    for path, text in texts.items():
        if path.endswith(".antt") and not path.endswith("/Proof.antt"):
            for line in text.splitlines():
                for word in WORD.findall(COMMENT.split(line)[0] if line.lstrip().startswith(("--", "//")) else line):
                    seen[word].add(path)
    for old, spelled in sorted(new.items()):
        if old in library:
            yield old, "a library has it too"
        elif here[spelled] > 1 and "-" in old:
            yield old, f"several become {spelled}"
        elif seen[spelled] & seen[old]:
            yield old, f"{spelled} stands beside it in {sorted(seen[spelled] & seen[old])[0]}"
        elif spelled in library:
            yield old, f"a library has {spelled}"


def spelled(text, new, marked):
    """The text in the new spelling; where only marked words count, those in backticks."""
    if marked:
        return re.sub(r"`[^`\n]*`", lambda it: WORD.sub(lambda word: new.get(word.group(), word.group()), it.group()), text)
    out = []
    for line in text.split("\n"):
        if line.lstrip().startswith(("--", "//")):
            out.append(WORD.sub(lambda word: new.get(word.group(), word.group()) if "-" not in word.group() else word.group(), spelled(line, new, True)))
        else:
            cut = re.split(r'("(?:[^"\\]|\\.)*")', line)
            out.append("".join(piece if k % 2 else WORD.sub(lambda word: new.get(word.group(), word.group()), piece) for k, piece in enumerate(cut)))
    return "\n".join(out)


def main():
    sources = files("crates/**/*.antt", "crates/**/*.rt")
    pages = files("README.md", "docs/**/*.md", "tests/README.md", "bench/README.md")
    texts = {path: read(path) for path in sources + pages}
    for path, (old, name) in LOCAL.items():
        texts[path] = re.sub(old, name, texts[path])
    new, library = table()
    for old, why in list(clashes(new, library, {path: texts[path] for path in sources})):
        print(f"look: {old} stays: {why}")
        del new[old]
    changed = 0
    for path, text in texts.items():
        turned = spelled(text, new, path in pages)
        if turned != text:
            changed += 1
            with open(path, "w", encoding="utf-8") as file:
                file.write(turned)
    print(f"spell: {len(new)} names, {changed} files")
    return 0


if __name__ == "__main__":
    sys.exit(main())
