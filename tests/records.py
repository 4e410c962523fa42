"""Records for the writer: the cases of folders, sound records with known images, such with one field at an edge, namesakes; used by `writes`."""
import os
import struct
from collections import namedtuple

LIMIT, EACH, BLOCK = 1000, 25, 512
COUNTS = (0, 1, 24, 25, 26, 50, 51, 999, 1000, 1001)
KIND, VKIND, NAME, PARENT, BEGIN, END, VALUE, ITEM = range(8)
WIDTHS = "BBHHHHiI"  # of these columns
IS_ITEM, IS_VERSION = 1, 2
NIL = 3  # value kind, of value 0

# A case: its name, the count, the bytes of the lent image, the columns, and the answer and the bytes written; None where no one tells.
Case = namedtuple("Case", "name count room columns answer image")


def bytes_for(count):
    """How many bytes an image of so many records has."""
    return -(-count // EACH) * BLOCK


def columns_of(records):
    return [[record[field] for record in records] for field in range(8)]


def packed(case):
    """A case as a file of many cases has it (README.md)."""
    head = struct.pack("<10I", case.count, case.room, *map(len, case.columns))
    return head + b"".join(struct.pack(f"<{len(column)}{width}", *column) for column, width in zip(case.columns, WIDTHS))


def decoded(image):
    """The records of an accepted node image."""
    found = []
    for start in range(0, len(image), BLOCK):
        for k in range(struct.unpack_from("<H", image, start + 4)[0]):
            found.append(struct.unpack_from("<" + WIDTHS, image, start + 8 + 20 * k))
    return found


def block(b, records):
    """Block b, of these records."""
    body = struct.pack("<IHBB", b, len(records), 1, 0) + b"".join(struct.pack(f"<{WIDTHS}H", *record, 0) for record in records)
    check = 5381
    for byte in body.ljust(508, b"\0"):
        check = (check * 33 + byte) % 2**32
    return body.ljust(508, b"\0") + struct.pack("<I", check)


def image_of(records):
    return b"".join(block(b // EACH, records[b : b + EACH]) for b in range(0, len(records), EACH))


def content(*path):
    with open(os.path.join(*path), "rb") as file:
        return file.read()


def given(top):
    """The cases of a folder; without one, a case that no answer fits."""
    names = [name for name in sorted(os.listdir(top)) if os.path.exists(os.path.join(top, name, "records.txt"))]
    for name in names:
        folder = os.path.join(top, name)
        count, *lines = content(folder, "records.txt").decode().splitlines()
        answer = content(folder, "expect.txt").decode().strip()
        image = content(folder, "image.blk") if answer.startswith("written") else b""
        columns = columns_of([tuple(map(int, line.split())) for line in lines if line])
        yield Case(name, int(count), int(content(folder, "room.txt")), columns, answer, image)
    if not names:
        yield Case(top, 0, 0, columns_of([]), "no case", b"")


def root_version(records):
    """The first version of the root, or None."""
    return next((i for i, record in enumerate(records) if record[KIND] == IS_VERSION and record[PARENT] == 0), None)


def grown(draw, records, count):
    """Sound records made so many: a front of them, or more items, each with a version, below a version of the root."""
    records = list(records[:count])
    taken = {record[ITEM] for record in records}
    home = root_version(records)
    while len(records) < count:
        number = draw.choice([n for n in (draw.randrange(1, 2**32) for _ in range(9)) if n not in taken])
        taken.add(number)
        kind, value = draw.choice(((1, draw.randrange(-(2**31), 2**31)),) * 7 + ((NIL, 0),))
        version = (IS_VERSION, kind, 0, len(records), records[home][BEGIN], records[home][END], value, 0)
        records += [(IS_ITEM, 0, draw.randrange(1, 65535), home, 0, 0, 0, number), version][: count - len(records)]
    return records


def sound(name, records, room):
    """A case of sound records, of too many or none, or of a front without a version of the root: its answer is known."""
    size = bytes_for(len(records))
    if not 1 <= len(records) <= LIMIT:
        answer = "refused 1 0"
    elif root_version(records) is None:
        answer = "refused 10 0"
    else:
        answer = "refused 12 0" if room < size else f"written {size}"
    image = image_of(records) if answer.startswith("written") else b""
    return Case(name, len(records), room, columns_of(records), answer, image)


def rooms(size):
    """None, one less, exact, one more, a block more."""
    return sorted({0, max(size - 1, 0), size, size + 1, size + BLOCK})


def short(case, field, less):
    """The case with one column so much shorter: 12, after a wrong count and ahead of all else."""
    columns = list(case.columns)
    columns[field] = columns[field][: case.count - less]
    answer = "refused 12 0" if 1 <= case.count <= LIMIT else "refused 1 0"
    return case._replace(name=f"{case.name}, column {field} short", columns=columns, answer=answer, image=b"")


def longer(draw, case):
    """The case with entries past the count, which no one is to read."""
    columns = [column + [draw.randrange(256) for _ in range(draw.choice((0, 1, 24)))] for column in case.columns]
    return case._replace(name=f"{case.name}, columns longer", columns=columns)


def chain(items):
    """Items one below the other, each with a version on the same days."""
    found = []
    for k in range(items):
        found += [(IS_ITEM, 0, k + 1, 2 * k - 1 if k else 65535, 0, 0, 0, k + 1), (IS_VERSION, 1, 0, 2 * k, 100, 200, -k, 0)]
    return found


def put(records, i, field, value):
    """The records with one field of record i changed."""
    record = list(records[i])
    record[field] = value
    return records[:i] + [tuple(record)] + records[i + 1 :]


def faults():
    """Records with one fault of each number, with the answer that they must have; and eight items in a chain, and a nil, which are sound."""
    yield sound("a chain of eight", chain(8), BLOCK)
    yield sound("a nil", put(chain(3), 1, VKIND, NIL), BLOCK)
    for answer, records in (
        ("refused 5 1", put(chain(3), 1, KIND, 3)),
        ("refused 5 3", put(chain(3), 3, VKIND, NIL)),
        ("refused 6 2", put(chain(3), 2, PARENT, 2)),
        ("refused 7 3", put(chain(3), 3, END, 201)),
        ("refused 8 16", chain(9)),
        ("refused 9 4", put(chain(3), 4, ITEM, 2)),
        ("refused 10 0", chain(3) + [(IS_VERSION, 0, 0, 0, 201, 300, 0, 0)]),
    ):
        yield Case(f"to be {answer}", len(records), BLOCK, columns_of(records), answer, b"")


def fixed(draw, sounds):
    """A fault of each number; each count at an edge in each room, with each column short, and with longer columns; and the largest count of nothing."""
    yield from faults()
    for count in COUNTS:
        records = grown(draw, draw.choice(sounds), count)
        for room in rooms(bytes_for(count)):
            yield sound(f"{count} records, room {room}", records, room)
        exact = sound(f"{count} records", records, bytes_for(count))
        yield from (short(exact, field, 1) for field in range(8) if count)
        yield longer(draw, exact)
    yield Case("no columns", 2**32 - 1, 0, columns_of([]), "refused 1 0", b"")


def edges(draw, records, i, field):
    """Values at an edge for a field of record i, and what other records have there."""
    begin, end, other = records[i][BEGIN], records[i][END], draw.choice(records)
    days = (0, begin - 1, begin + 1, end - 1, end, end + 1, 36524, 36525, 36526, 65535, other[BEGIN], other[END])
    parents = [k for k in range(i) if records[k][KIND] != records[i][KIND]] or [0]
    values = {
        KIND: (0, 1, 2, 3, 255),
        VKIND: (0, 1, 2, NIL, 4, 255),
        NAME: (0, 1, 65534, 65535, other[NAME]),
        PARENT: (0, i - 1, i, i + 1, 65535, parents[-1], draw.choice(parents), draw.randrange(len(records))),
        BEGIN: days,
        END: days,
        VALUE: (0, 1, -1, 2**31 - 1, -(2**31), other[VALUE]),
        ITEM: (0, 1, 2**32 - 1, other[ITEM]),
    }
    return [value for value in values[field] if value >= 0 or field == VALUE]


def changed(draw, case, records):
    """The case with one field of one record at an edge, so that no one tells its answer; the first records more often than others."""
    i = draw.randrange(min(3, len(records)) if draw.random() < 0.2 else len(records))
    field = draw.randrange(8)
    columns = columns_of(put(records, i, field, draw.choice(edges(draw, records, i, field))))
    return case._replace(name=f"{case.name}, field {field} of {i} changed", columns=columns, answer=None, image=None)


def namesakes(draw, name):
    """Items of one number and name, each with a version of ten days of its own, in any order of these days: sound, or such that two share a day,
    one has another name, or both. The lowest item that clashes with a lower one is known."""
    count = draw.choice((2, 3, 10, 40, 499))
    records, places = [(IS_ITEM, 0, 1, 65535, 0, 0, 0, 1), (IS_VERSION, 0, 0, 0, 0, 10 * count, 0, 0)], []
    for k in draw.sample(range(count), count):
        records += [(IS_ITEM, 0, 2, 1, 0, 0, 0, 7), (IS_VERSION, 1, 0, len(records), 10 * k, 10 * k + 10, k, 0)]
    if draw.random() < 0.4:
        end = 10 * draw.randrange(1, count)
        sooner, later = (next(v for v in range(3, len(records)) if records[v][field] == end) for field in (END, BEGIN))
        records = put(records, sooner, END, end + 1)
        places.append(records[max(sooner, later)][PARENT])
    if draw.random() < 0.4:
        renamed = draw.randrange(2, len(records), 2)
        records = put(records, renamed, NAME, 3)
        places.append(max(renamed, 4))  # the first has none below it: then the second clashes with it
    case = sound(name, records, bytes_for(len(records)))
    return case._replace(answer=f"refused 9 {min(places)}", image=b"") if places else case


def drawn(draw, name, sounds):
    """A random case: sound records or, more often, such with a field changed; some with a short column, or with longer ones; and namesakes."""
    if draw.random() < 0.05:
        return namesakes(draw, name)
    records = draw.choice(sounds)
    if draw.random() < 0.1:
        records = grown(draw, records, draw.choice(COUNTS))
    size = bytes_for(len(records))
    case = sound(name, records, draw.choice([size] + rooms(size)))
    if records and draw.random() < 0.7:
        case = changed(draw, case, records)
    way = draw.random()
    if records and way < 0.1:
        return short(case, draw.randrange(8), draw.choice((1, case.count)))
    return longer(draw, case) if way < 0.2 else case
