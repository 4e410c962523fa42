"""Nils among the values that rules read, by the records of a pair: alone or beside a value, compared, counted or passed over; used by `compare`."""
import struct
from bisect import bisect_left, bisect_right
from collections import defaultdict, namedtuple
from itertools import combinations

from months import MONTHS
from records import BEGIN, END, IS_ITEM, IS_VERSION, ITEM, KIND, NAME, PARENT, VALUE, VKIND, decoded

NUMBER, NIL = 1, 3
COMPARED = {1: "key", 2: "unique", 3: "reference"}
CARDINALITY, DATATYPE = 4, 5
PLACES = ("on a day", "in a window")
REFERRED = ("the only value of a referred version", "beside a value of a referred version")
DISTINCT = ("left out of a distinct count", "two left out of a distinct count of one item number")
BETWEEN = "between the two numbers of a step"
BAD = "refused with 5 for its value"
WAYS = (
    *(f"{how} for a {kind} {place}" for kind in COMPARED.values() for place in PLACES for how in ("alone", "beside a value")),
    *(f"two for a unique {place}" for place in PLACES),
    *REFERRED,
    *(f"wanted and held {place}" for place in PLACES),
    *(f"counted {place}" for place in PLACES),
    *DISTINCT,
    *(f"passed over by a datatype {place}" for place in PLACES),
    BETWEEN,
    BAD,
)
ANY_NAME = 65535
Rule = namedtuple("Rule", "kind windowed path distinct field referred begin end length unit slide")


def rule_of(record):
    kind, mode, *names, used, distinct, field, referred, begin, end, length, unit, slide = struct.unpack_from("<BB8HBBHH8xHHHBxH", record)
    return Rule(kind, mode, names[:used], distinct, field, referred, begin, end, length, unit, slide)


def table_of(image):
    """The rules of an accepted rule image."""
    counts = [struct.unpack_from("<H", image, start + 4)[0] for start in range(0, len(image), 512)]
    return [rule_of(image[512 * b + 8 + 50 * k :]) for b, count in enumerate(counts) for k in range(count)]


def windows(rule):
    """Where the windows of a rule start, and how long they are: in days, or in months."""
    if rule.unit == 2:
        return range(MONTHS.index(rule.begin), bisect_left(MONTHS, rule.end), rule.slide), rule.length
    whole = rule.end - rule.begin
    return range(rule.begin, rule.end, rule.slide or whole), rule.length or whole


def window_meeting(rule, versions):
    """First day and day after the last of the first window that meets all these versions; None if there is none."""
    begin, end = max(version[BEGIN] for version in versions), min(version[END] for version in versions)
    starts, length = windows(rule)
    past = bisect_right(MONTHS, begin) if rule.unit == 2 else begin + 1
    k = bisect_left(starts, past - length)
    if begin >= rule.end or k == len(starts):
        return None
    first, last = (MONTHS[at] if rule.unit == 2 else at for at in (starts[k], starts[k] + length))
    return (first, min(last, rule.end)) if first < end else None


def days_left(version, others, begin, end):
    """The stretches of a version's days within [begin, end) on which none of the others is present."""
    left, at = [], max(version[BEGIN], begin)
    for other in sorted(others, key=lambda other: other[BEGIN]):
        left.append((at, min(other[BEGIN], version[END], end)))
        at = max(at, other[END])
    return [(a, b) for a, b in [*left, (at, min(version[END], end))] if a < b]


def shared(a, b):
    return max(a[0], b[0]) < min(a[1], b[1])


class Bank:
    """The records of an accepted node image: the names on the way to each version, and the valued versions in the items of a name under it."""

    def __init__(self, records):
        self.records, self.names = records, []
        self.fields, self.nils = defaultdict(list), defaultdict(list)
        for k, record in enumerate(records):
            above = self.names[record[PARENT]] if k else ()
            self.names.append(above + (record[NAME],) if record[KIND] == IS_ITEM else above)
            if record[KIND] == IS_VERSION and record[VKIND]:
                self.add(k, record)

    def add(self, k, record):
        item = self.records[record[PARENT]]
        for field, owner in ((0, k), (item[NAME], item[PARENT])):
            self.fields[owner, field].append(record)
            if record[VKIND] == NIL:
                self.nils[field].append((owner, record))

    def selected(self, rule, version):
        """Whether a rule selects the version; the parent of the root is none."""
        names = self.names[version] if version < len(self.names) else ()
        return len(names) == len(rule.path) and all(step in (name, ANY_NAME) for name, step in zip(names, rule.path))

    def read(self, rule):
        """The selected version and the nil, of each nil that is a field version of the rule."""
        return [(owner, nil) for owner, nil in self.nils[rule.field] if self.selected(rule, owner)]

    def beside(self, rule, owner, nil):
        """The other values of the selected version, on whatever days."""
        return [other for other in self.fields[owner, rule.field] if other is not nil]

    def number(self, version):
        return self.records[self.records[version][PARENT]][ITEM]

    def group(self, rule, number):
        """The field versions with a number or a text under all selected versions of an item number."""
        owners = (owner for owner, field in list(self.fields) if field == rule.field and self.selected(rule, owner) and self.number(owner) == number)
        return [other for owner in owners for other in self.fields[owner, rule.field] if other[VKIND] != NIL]


def on_days(bank, rule, owner, nil, period):
    """Of a nil on days of a period: the stretches on which it is alone, and whether it is beside another value on some day."""
    beside = [other for other in bank.beside(rule, owner, nil) if days_left(other, [], max(nil[BEGIN], period.begin), min(nil[END], period.end))]
    return days_left(nil, beside, period.begin, period.end), bool(beside)


def compared_on_days(bank, rule, nils):
    found, alone = set(), []
    kind = COMPARED[rule.kind]
    for owner, nil in nils:
        stretches, beside = on_days(bank, rule, owner, nil, rule)
        alone += [(owner, stretch) for stretch in stretches]
        found.update([f"beside a value for a {kind} on a day"] if beside else [])
    found.update([f"alone for a {kind} on a day"] if alone else [])
    if rule.kind == 2 and any(one[0] != other[0] and shared(one[1], other[1]) for one, other in combinations(alone, 2)):
        found.add("two for a unique on a day")
    return found


def compared_in_windows(bank, rule, nils):
    found = set()
    kind = COMPARED[rule.kind]
    for owner, nil in nils:
        beside = bank.beside(rule, owner, nil)
        begin, end = window_meeting(rule, [nil])
        if not any(other[BEGIN] < end and begin < other[END] for other in beside):
            found.add(f"alone for a {kind} in a window")
        if any(window_meeting(rule, [nil, other]) for other in beside):
            found.add(f"beside a value for a {kind} in a window")
    if rule.kind == 2 and any(bank.number(a) != bank.number(b) and window_meeting(rule, [nil, other]) for (a, nil), (b, other) in combinations(nils, 2)):
        found.add("two for a unique in a window")
    return found


def referred(bank, rule, to, nils):
    """A reference, by the rule that it refers to, of which only path and field count."""
    held = [(owner, nil) for owner, nil in bank.read(to) if met(rule, nil)]
    found = {f"wanted and held {PLACES[rule.windowed]}" for _, nil in nils if any(nil is other for _, other in held)}
    for owner, nil in [] if rule.windowed else held:
        alone, beside = on_days(bank, to, owner, nil, rule)
        found.update(way for way, fits in zip(REFERRED, (alone, beside)) if fits)
    return found


def counted(bank, rule, nils):
    if not rule.distinct:
        return {f"counted {PLACES[rule.windowed]}"}
    two = any(bank.number(a) == bank.number(b) and window_meeting(rule, [nil, other]) for (a, nil), (b, other) in combinations(nils, 2))
    return set(DISTINCT[: 1 + two])


def between(bank, rule, owner, nil):
    """Whether a nil lies between two numbers that make a step: those next to it, with nothing else between them, in one window."""
    group = bank.group(rule, bank.number(owner))
    before, after = [other for other in group if other[END] <= nil[BEGIN]], [other for other in group if nil[END] <= other[BEGIN]]
    if not before or not after:
        return False
    p, q = max(before, key=lambda other: other[END]), min(after, key=lambda other: other[BEGIN])
    parted = any(p[END] <= other[BEGIN] and other[END] <= q[BEGIN] for other in group)
    return p[VKIND] == q[VKIND] == NUMBER and not parted and window_meeting(rule, [p, q]) is not None


def met(rule, nil):
    """Whether a nil is there on some day of a sequenced rule, or in some window of another."""
    if rule.windowed:
        return window_meeting(rule, [nil]) is not None
    return nil[BEGIN] < rule.end and rule.begin < nil[END]


def ways_of(bank, rules, rule):
    """Those of WAYS that fit a rule."""
    nils = [(owner, nil) for owner, nil in bank.read(rule) if met(rule, nil)]
    found = referred(bank, rule, rules[rule.referred], nils) if rule.kind == 3 else set()
    if not nils:
        return found
    if rule.kind in COMPARED:
        return found | (compared_in_windows if rule.windowed else compared_on_days)(bank, rule, nils)
    if rule.kind == CARDINALITY:
        return counted(bank, rule, nils)
    found.add(f"passed over by a datatype {PLACES[rule.windowed]}")
    return found | ({BETWEEN} if rule.windowed and any(between(bank, rule, owner, nil) for owner, nil in nils) else set())


def ways(nodes, table):
    """Those of WAYS that fit some rule of a pair that is accepted."""
    bank = Bank(decoded(nodes))
    if not bank.nils:
        return set()
    rules = table_of(table)
    return {way for rule in rules for way in ways_of(bank, rules, rule)}


def refused_ways(nodes, record):
    """Those of WAYS that fit a node image whose blocks are sound and of which this record is refused with 5."""
    found = decoded(nodes)[record]
    return {BAD} if found[KIND] == IS_VERSION and found[VKIND] == NIL and found[VALUE] else set()
