"""Texts and dictionaries for the reader of selectors: the cases of folders, all short ones, edges, many lines, random ones; used by `selectors`."""
import os
import re
import string
import struct
from collections import namedtuple
from itertools import islice, product

from records import content

STEPS, STAR, MOST = 8, 65535, 65534  # steps of a path, the star's number, the largest of a dictionary
FIRST = (string.ascii_letters + "_").encode()
LATER = FIRST + string.digits.encode() + b"-"
PROFILE = re.compile(rb"(?:\*|[A-Za-z_][A-Za-z0-9_-]*)(?:/(?:\*|[A-Za-z_][A-Za-z0-9_-]*)){0,7}")
LARGE = 4096  # bytes from which on a dictionary is large

# A case: its name, the text, the dictionary, and the answer, None where no one tells.
Case = namedtuple("Case", "name text dictionary answer")


def packed(case):
    """A case as a file of many cases has it (README.md)."""
    return struct.pack("<II", len(case.text), len(case.dictionary)) + case.text + case.dictionary


def given(top):
    """The cases of a folder; without one, a case that no answer fits."""
    names = [name for name in sorted(os.listdir(top)) if os.path.exists(os.path.join(top, name, "text"))]
    for name in names:
        folder = os.path.join(top, name)
        yield Case(name, content(folder, "text"), content(folder, "dictionary"), content(folder, "expect.txt").decode().strip())
    if not names:
        yield Case(top, b"", b"", "no case")


def written(entries):
    """The dictionary of names and numbers."""
    return b"".join(b"%s %d\n" % entry for entry in entries)


def numbered(names):
    """Names with numbers, some of which are shared."""
    return [(name, (7919 * k) % 997 + 1) for k, name in enumerate(names)]


def selected(steps, entries):
    """The answer for at most eight steps with a sound dictionary: a path, or 28 with the place where the first missing name starts."""
    numbers, place, path = dict(entries), 0, []
    for step in steps:
        if step != b"*" and step not in numbers:
            return f"refused 28 {place}"
        path.append(STAR if step == b"*" else numbers[step])
        place += len(step) + 1
    return "path " + " ".join(map(str, path + [0] * (STEPS - len(path)))) + f" length {len(path)}"


def sound(name, steps, entries):
    """A case of at most eight steps with a sound dictionary."""
    return Case(name, b"/".join(steps), written(entries), selected(steps, entries))


def short_texts():
    """Every text of up to five bytes of a small alphabet. 27 by its own words: those texts of one byte more that are in the profile are written
    down, which are enough to tell whether one begins with some bytes, and the first byte is taken up to which none does."""
    alphabet = [bytes([byte]) for byte in b"a_-7*/\xc8"]
    upto = [[b"".join(bytes_) for bytes_ in product(alphabet, repeat=size)] for size in range(7)]
    profile = {text for texts in upto for text in texts if PROFILE.fullmatch(text)}
    fronts = {text[:size] for text in profile for size in range(7)}
    entries = [(b"a", 5), (b"_", MOST), (b"a-", 1), (b"a7", 10), (b"aa", 5), (b"_a_", 65533)]
    for text in (text for texts in upto[:6] for text in texts):
        if text in profile:
            answer = selected(text.split(b"/"), entries)
        else:
            answer = f"refused 27 {next((k for k in range(len(text)) if text[: k + 1] not in fronts), len(text))}"
        yield Case(f"text {text}", text, written(entries), answer)


def step_counts():
    """One to ten steps, star or name at each end and between: after eight a slash is the bad byte, whatever follows it."""
    entries = numbered([b"one", b"t", b"three-3"])
    for count, first, last, between in product((1, 2, 7, 8, 9, 10), (b"*", b"one"), (b"*", b"three-3"), (b"*", b"t")):
        steps = [first, *[between] * (count - 2), last][-count:]
        ninth = len(b"/".join(steps[:STEPS]))
        answer = selected(steps, entries) if count <= STEPS else f"refused 27 {ninth}"
        yield Case(f"{count} steps, {first} to {last}", b"/".join(steps), written(entries), answer)


def after_steps():
    """What can follow no step: a second slash, an end after a slash, and a slash after eight steps; and what follows no name and no star."""
    entries = numbered([b"one", b"t"])
    for count, last, more in product((1, 7, 8), (b"*", b"t"), (b"/", b"//", b"/-", b"/\n", *(bytes([byte]) for byte in b" \n|.*\0\x80\xff[`{@:^"))):
        front = b"/".join([b"one"] * (count - 1) + [last])
        place = len(front) + (count < STEPS and more.startswith(b"/"))
        yield Case(f"{count} steps to {last}, then {more}", front + more, written(entries), f"refused 27 {place}")


def byte_in_text(one):
    """A byte where a step begins, and within a name, and after a star: where it is bad, its own place is told, and the text's length where the text
    has merely ended after it."""
    for front in (b"", b"b/", b"*/", b"b", b"*", b"b/b", b"_-"):
        text = front + one
        entries = numbered(sorted({*text.split(b"/")} - {b"*", b""}))
        if PROFILE.fullmatch(text):
            yield sound(f"byte {one} after {front}", text.split(b"/"), entries)
        else:
            ended = one == b"/" and front[-1:] not in (b"", b"/")
            yield Case(f"byte {one} after {front}", text, b"", f"refused 27 {len(front) + ended}")


def byte_in_line(one):
    """A byte in a dictionary's second line: as its name's first or last, as its number's, in place of its space and of its line feed."""
    for line, good in (
        (one + b" 5\n", one in FIRST and one != b"b"),
        (b"c" + one + b" 5\n", one in LATER),
        (b"c" + one + b"5\n", one == b" "),
        (b"c " + one + b"\n", one in b"123456789"),
        (b"c 1" + one + b"\n", one in b"0123456789"),
        (b"c 1" + one, one == b"\n"),
    ):
        bad = 2 if line == b"c 1\n\n" else 1  # where the line is whole and another is empty
        yield Case(f"byte {one} in {line}", b"b", b"b 8\n" + line, "path 8 0 0 0 0 0 0 0 length 1" if good else f"refused 31 {bad}")


def every_byte():
    for one in (bytes([byte]) for byte in range(256)):
        yield from byte_in_text(one)
        yield from byte_in_line(one)


def short_dictionaries():
    """Every dictionary of up to five bytes of a small alphabet, with the text `a`."""
    for size in range(6):
        for letters in product((b"a", b"b", b" ", b"1", b"0", b"\n"), repeat=size):
            dictionary = b"".join(letters)
            yield Case(f"dictionary {dictionary}", b"a", dictionary, None)


SOUND_NUMBERS = "1 2 9 10 11 99 100 999 1000 9999 10000 65530 65533 65534".split()
BAD_NUMBERS = """0 00 01 09 010 065534 000001 65535 65536 65537 65540 66000 70000 99999 100000 655340 655341 131071 131073 4294967295 4294967296
    4294967297 4295032830 18446744073709551615 18446744073709551616 18446744073709551617 +1 -1 +0 -0 - + 1. 1.0 1e3 0x1 1_0 1,0 a 1a""".split()
BAD_NUMBERS += ["", " ", " 1", "1 ", "1 1", "\t1", "1\t", "1\r", "1\0", "1" * 100, "9" * 39, "0" * 70 + "1", "65534" + "0" * 60]


def number_edges():
    """Numbers at the edges, as the only line, between others, as the last one, and without the line feed."""
    for digits in SOUND_NUMBERS + BAD_NUMBERS:
        good = digits in SOUND_NUMBERS
        line = b"n " + digits.encode()
        answer = f"path {digits} 0 0 0 0 0 0 0 length 1"
        for before, after in product((b"", b"a 1\n", b"a 1\nb 65534\n"), (b"", b"c 3\n", b"c 3\nd 3\n")):
            at = before.count(b"\n")
            whole = Case(f"number {digits!r} in line {at}", b"n", before + line + b"\n" + after, answer if good else f"refused 31 {at}")
            yield whole
            if not after:
                yield whole._replace(name=whole.name + ", no line feed", dictionary=before + line, answer=f"refused 31 {at}")


def line_forms():
    """Lines of other forms than a name, one space, a number and a line feed, alone and among others."""
    bad = (b"", b" ", b"a", b"a ", b" 1", b"1", b"a1", b"a  1", b"a\t1", b" a 1", b"a 1 ", b"a 1\r", b"\xefa 1", b"a\xc8 1", b"a b 1", b"a/b 1", b"* 5")
    bad += (b"-a 1", b"7 1", b"7a 1", b". 1", b"a. 1", b"a 1\0", b"\0", b"a=1", b"a:1", b"a 1;", b"# a", b"a 1 # x", b"a 1 b 2")
    for line in bad:
        for before, after in product((b"", b"x 1\n", b"x 1\ny 2\nz 3\n"), (b"", b"w 4\n", b"\n", b"x 1\n")):
            at = before.count(b"\n")
            yield Case(f"line {line} at {at}", b"x", before + line + b"\n" + after, f"refused 31 {at}")
            yield Case(f"line {line} at {at}, stars", b"*/*", before + line + b"\n" + after, f"refused 31 {at}")
            yield Case(f"line {line} at {at}, text bad", b"x/", before + line + b"\n" + after, "refused 27 2")
    yield Case("no dictionary, a star", b"*", b"", "path 65535 0 0 0 0 0 0 0 length 1")
    yield Case("no dictionary, a name", b"*/a", b"", "refused 28 2")
    yield Case("no dictionary, no text", b"", b"", "refused 27 0")
    yield Case("no text", b"", b"a 1\n", "refused 27 0")


def beginnings():
    """Names that are beginnings of each other, and such that differ in a letter's case or in one byte, some of them missing."""
    tower = [b"a" * size for size in range(1, 41)]
    likes = b"mixer Mixer MIXER mixe mixer- mixer_ mixer-1 mixer-10 mixer1 _mixer ixer mixre miexr nixer".split()
    for names in (tower, tower[::-1], likes, likes[::-1]):
        entries = numbered(names)
        yield sound("beginnings, all there", names[:8], entries)
        for k, name in enumerate(names):
            others = names[:k] + names[k + 1 :]
            yield sound(f"beginnings, {name} alone", [name], entries)
            yield sound(f"beginnings, {name} missing", [others[0], b"*", name, others[-1]], numbered(others))
            yield sound(f"beginnings, {name} the only one", [name], [(name, MOST)])
            again = written(entries) + b"%s 3\n" % name
            yield Case(f"beginnings, {name} again", names[0], again, f"refused 31 {len(names)}")


def repeats():
    """Names that stand twice or three times in few lines: the first line whose name stood in an earlier one is bad, whatever is in later ones."""
    for count in (2, 3, 4):
        for names in product((b"a", b"b", b"ab", b"A"), repeat=count):
            entries = [(name, k + 1) for k, name in enumerate(names)]
            twice = [k for k, name in enumerate(names) if name in names[:k]]
            answer = f"refused 31 {twice[0]}" if twice else selected([b"a"], entries)
            yield Case(f"names {names}", b"a", written(entries), answer)
            if twice:
                yield Case(f"names {names}, then no line feed", b"*", written(entries) + b"c 1", answer)


def long_names():
    """Names up to 20,000 bytes, that differ in the first byte, in the last, or in length alone."""
    for size in (31, 32, 33, 63, 64, 65, 255, 256, 257, 1000, 4090, 4095, 4096, 4097, 20000):
        body = (b"bcdefghijklmnopqrstuvwxyz-0123456789_" * (size // 37 + 1))[: size - 2]
        here, first, last, shorter = b"a" + body + b"z", b"e" + body + b"z", b"a" + body + b"y", b"a" + body
        entries = numbered([here, first, shorter])
        yield sound(f"name of {size} bytes", [here], entries)
        yield sound(f"name of {size} bytes missing", [b"*", last], entries)
        yield sound(f"name of {size} bytes, one byte less", [shorter, here], entries[:2])
        for again in (here, first, shorter):
            yield Case(f"name of {size} bytes again", b"*", written(entries) + again + b" 4\n", "refused 31 3")
        yield Case(f"name of {size} bytes, then a bad byte", here + b".", b"", f"refused 27 {size}")
        yield Case(f"name of {size} bytes, a bad byte in the dictionary", b"*", here + b". 4\n", "refused 31 0")


def word(draw, least=1, most=12):
    """A random name."""
    size = draw.randint(least, most)
    return bytes([draw.choice(FIRST), *(draw.choice(LATER) for _ in range(size - 1))])


def words(draw, count, least=1, most=12):
    """So many random names, no two alike."""
    found = {}
    while len(found) < count:
        found[word(draw, least, most)] = None
    return list(found)


def exactly(draw, size):
    """Entries of a sound dictionary of exactly so many bytes."""
    names, left = [], size
    while left > 60:
        name = b"n%d-" % len(names) + word(draw, 1, 20)
        names.append(name)
        left -= len(name) + 3
    entries = [(name, draw.randint(1, 9)) for name in names]
    return entries + [(b"z" * (left - 3), 9)]


def one_sum(parts):
    """Names made of two parts that come to one sum where each byte is added to a multiple of the sum before it, and so do the names."""
    return lambda count: [b"".join(name) for name in islice(product(parts, repeat=13), count)]


def many_lines(draw):
    """Dictionaries of many lines, by the order and the likeness of their names; and some of about LARGE bytes."""
    kinds = {
        "in order": lambda count: [b"mixer-%05d" % k for k in range(count)],
        "backwards": lambda count: [b"mixer-%05d" % k for k in range(count)][::-1],
        "at random": lambda count: words(draw, count, 3, 30),
        "by the end": lambda count: [b"a%s" % bytes(97 + k // 26**place % 26 for place in range(4)) for k in range(count)],
        "of one sum by 33": one_sum((b"ab", b"bA")),
        "of one sum by 31": one_sum((b"Aa", b"BB")),
    }
    for kind, make in kinds.items():
        for count in (200, 2000, 2001, 8000) if kind in ("in order", "at random") else (200, 2000):
            yield from in_many(draw, f"{count} lines {kind}", make(count))
    for size in range(LARGE - 3, LARGE + 4):
        entries = exactly(draw, size)
        yield from in_many(draw, f"{size} bytes", [name for name, _ in entries], [number for _, number in entries])


def in_many(draw, title, names, numbers=None):
    """Cases with a dictionary of these names: sound, with a name missing, with one or more twice, near and far apart, with a bad line."""
    entries = list(zip(names, numbers or [draw.randint(1, MOST) for _ in names]))
    count, whole, some = len(entries), written(entries), draw.sample(names, 6)
    yield sound(f"{title}, found", [names[0], names[-1], names[count // 2], *some[:5]], entries)
    yield sound(f"{title}, stars", [b"*"] * 3, entries)
    yield sound(f"{title}, not found", [some[0], b"*", some[1] + b"-", some[2]], entries)
    for gone in (0, count // 2, count - 1):
        yield sound(f"{title}, line {gone} missing", [some[0], names[gone]], [entry for entry in entries if entry[0] != names[gone]])
    for k, j in ((0, count - 1), (0, 1), (count - 2, count - 1), (count // 3, 2 * count // 3), sorted(draw.sample(range(count), 2))):
        again = entries[:j] + [(names[k], 5)] + entries[j + 1 :]
        yield Case(f"{title}, {k} again at {j}", names[k], written(again), f"refused 31 {j}")
        bad = written(again[: j - 1]) + b"?\n" + written(again[j:])
        yield Case(f"{title}, a bad line ahead of {j}", b"*", bad, f"refused 31 {j - 1}")
        bad = written(again[: j + 1]) + b"?\n" + written(again[j + 1 :])
        yield Case(f"{title}, a bad line after {j}", b"*", bad, f"refused 31 {j}")
    for _ in range(3):
        first, second, third, last = sorted(draw.sample(range(count), 4))
        for here, there in ((first, second), (second, first), (first, first)):
            twice = list(entries)
            twice[third], twice[last] = (names[here], 5), (names[there], 6)
            yield Case(f"{title}, {here} again at {third} and {there} at {last}", b"*", written(twice), f"refused 31 {third}")
    yield Case(f"{title}, no line feed", b"*", whole[:-1], f"refused 31 {count - 1}")
    yield Case(f"{title}, an empty line", b"*", whole + b"\n", f"refused 31 {count}")
    yield Case(f"{title}, the text bad", names[0] + b"/", whole[:-1], f"refused 27 {len(names[0]) + 1}")


def fixed(draw):
    """All cases that are in every run; of these only those of many lines are drawn in part."""
    for part in (short_texts, step_counts, after_steps, every_byte, short_dictionaries, number_edges, line_forms, beginnings, repeats, long_names):
        yield from part()
    yield from many_lines(draw)


def touched(draw, whole):
    """The bytes with one changed, inserted or removed, mostly to one that is found in texts or dictionaries."""
    byte = bytes([draw.choice(b"/*-_ \n0169azAZ.") if draw.random() < 0.8 else draw.randrange(256)])
    k = draw.randrange(len(whole) + 1)
    way = draw.randrange(3)
    if way == 0 or not whole:
        return whole[:k] + byte + whole[k:]
    k = min(k, len(whole) - 1)
    return whole[:k] + (byte if way == 1 else b"") + whole[k + 1 :]


def drawn(draw, name):
    """A random case: a sound pair, one with a name missing or standing twice, whose answers are known; and, more often, one of these with one byte
    of the text or of the dictionary changed, inserted or removed."""
    count = draw.choice((200, 700, 2000)) if draw.random() < 0.04 else draw.randint(1, 12)
    names = words(draw, count, 1, draw.choice((2, 5, 12, 30)) if count < 50 else 20)
    entries = [(name, draw.choice((1, 2, 9, 10, MOST, draw.randint(1, MOST)))) for name in names]
    steps = [b"*" if draw.random() < 0.25 else draw.choice(names) for _ in range(draw.randint(1, STEPS))]
    way = draw.random()
    if way < 0.1:
        entries = [entry for entry in entries if entry[0] != steps[-1]]
    case = sound(name, steps, entries)
    if 0.1 <= way < 0.2:
        k, j = draw.randrange(count), draw.randint(0, count)
        twice = entries[:j] + [(names[k], draw.randint(1, MOST))] + entries[j:]
        case = case._replace(dictionary=written(twice), answer=f"refused 31 {max(k + 1, j)}")
    if draw.random() < 0.4:
        return case
    if draw.random() < 0.5:
        return case._replace(text=touched(draw, case.text), answer=None)
    return case._replace(dictionary=touched(draw, case.dictionary), answer=None)


WAYS = (
    "path",
    "path of stars alone",
    "path of eight steps",
    "path by an empty dictionary",
    "path by a large dictionary",
    "27 for no text",
    "27 after a last slash, at the length",
    "27 at the slash of a ninth step",
    "27 at a byte where a step begins",
    "27 at a second slash",
    "27 within a name",
    "27 after a star",
    "27 above 127",
    "27 with a bad dictionary",
    "28 at 0",
    "28 at a later place",
    "28 by an empty dictionary",
    "28 by a large dictionary",
    "28 for the beginning of a name",
    "28 for more than a name",
    "31 for a missing line feed",
    "31 for a repeated name",
    "31 for a leading zero",
    "31 for 0",
    "31 above the largest number",
    "31 for a sign",
    "31 for no number",
    "31 for a second space",
    "31 for an empty line",
    "31 for no space",
    "31 for a bad name",
    "31 for what is after a number",
    "31 with stars alone",
    "31 with a missing name",
    "31 in a large dictionary",
    "31 for a repeated name in a large dictionary",
)


def line_way(lines, k):
    """Why line k is bad, by its first fault; lines are those of the dictionary, split at line feeds."""
    line = lines[k]
    name, space, digits = line.partition(b" ")
    if k == len(lines) - 1:
        return "31 for a missing line feed"
    if not line:
        return "31 for an empty line"
    if not name or name[0] not in FIRST or any(byte not in LATER for byte in name):
        return "31 for a bad name"
    if not space:
        return "31 for no space"
    if not digits:
        return "31 for no number"
    if digits[:1] in (b"+", b"-", b" "):
        return "31 for a second space" if digits[:1] == b" " else "31 for a sign"
    if not digits.isdigit():
        return "31 for what is after a number" if digits[:1].isdigit() else "31 for no number"
    if digits[:1] == b"0":
        return "31 for 0" if digits == b"0" else "31 for a leading zero"
    if len(digits) > 5 or int(digits) > MOST:
        return "31 above the largest number"
    return "31 for a repeated name" if any(other.startswith(name + b" ") for other in lines[:k]) else "31 for no reason"


def text_ways(text, place):
    """Those of WAYS that fit a text refused with 27 at this place."""
    if place == len(text):
        return ["27 after a last slash, at the length" if text else "27 for no text"]
    front, byte = text[:place], text[place : place + 1]
    ways = ["27 above 127"] if byte[0] > 127 else []
    if front.count(b"/") == STEPS - 1 and byte == b"/" and not front.endswith(b"/"):
        return ways + ["27 at the slash of a ninth step"]
    if not front or front.endswith(b"/"):
        return ways + ["27 at a second slash" if byte == b"/" and front else "27 at a byte where a step begins"]
    return ways + ["27 after a star" if front.endswith(b"*") else "27 within a name"]


def missing_ways(text, dictionary, place):
    """Those of WAYS that fit a name refused with 28 at this place."""
    name = text[place:].split(b"/")[0]
    names = [line.split(b" ")[0] for line in dictionary.split(b"\n")[:-1]]
    ways = ["28 at a later place" if place else "28 at 0"]
    ways += ["28 by an empty dictionary"] if not names else []
    ways += ["28 by a large dictionary"] if len(dictionary) > LARGE else []
    ways += ["28 for the beginning of a name"] if any(other.startswith(name) for other in names) else []
    return ways + (["28 for more than a name"] if any(name.startswith(other) for other in names) else [])


def path_ways(text, dictionary):
    """Those of WAYS that fit a text with a path."""
    ways = ["path"]
    ways += ["path of stars alone"] if not set(text) - set(b"*/") else []
    ways += ["path of eight steps"] if text.count(b"/") == STEPS - 1 else []
    ways += ["path by an empty dictionary"] if not dictionary else []
    return ways + (["path by a large dictionary"] if len(dictionary) > LARGE and set(text) - set(b"*/") else [])


def dictionary_ways(text, dictionary, k):
    """Those of WAYS that fit a dictionary refused with 31 at line k."""
    lines = dictionary.split(b"\n")
    why = line_way(lines, k)
    ways = [why]
    if not set(text) - set(b"*/"):
        ways.append("31 with stars alone")
    elif {*text.split(b"/")} - {b"*"} - {line.split(b" ")[0] for line in lines}:
        ways.append("31 with a missing name")
    if len(dictionary) > LARGE:
        ways += ["31 in a large dictionary"] + (["31 for a repeated name in a large dictionary"] if why == "31 for a repeated name" else [])
    return ways


def ways(case, answer):
    """Those of WAYS that fit a case with this answer."""
    what, *numbers = answer.split(" ")
    if what == "path":
        return path_ways(case.text, case.dictionary)
    number, place = map(int, numbers)
    if number == 27:
        return text_ways(case.text, place) + (["27 with a bad dictionary"] if case.dictionary and not case.dictionary.endswith(b"\n") else [])
    if number == 28:
        return missing_ways(case.text, case.dictionary, place)
    return dictionary_ways(case.text, case.dictionary, place)
