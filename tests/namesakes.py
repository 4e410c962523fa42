"""Items of one number, by the records of a node image: whether their versions come in the order of their days, and what clashes; used by `compare`."""
from bisect import bisect_left, insort
from collections import defaultdict
from itertools import pairwise

from records import BEGIN, END, IS_ITEM, ITEM, KIND, NAME, PARENT, decoded

ACCEPTED = ("accepted with days in record order", "accepted with days out of record order")
BY_NAME = "refused by a name"
BY_DAY = ("refused by a shared day in record order", "refused by a shared day out of record order")
BOTH = ("refused by a name below a shared day", "refused by a shared day below a name")
WAYS = (*ACCEPTED, BY_NAME, *BY_DAY, *BOTH)


def grouped(records):
    """Of each number that several items have: the items, each with the periods of its versions, and whether all these come in the order of their days."""
    items, begins = defaultdict(dict), defaultdict(list)
    for k, record in enumerate(records):
        if record[KIND] == IS_ITEM:
            items[record[ITEM]][k] = []
        else:
            number = records[record[PARENT]][ITEM]
            items[number][record[PARENT]].append((record[BEGIN], record[END]))
            begins[number].append(record[BEGIN])
    return [(items[number], all(a <= b for a, b in pairwise(begins[number]))) for number in items if len(items[number]) > 1]


def first_name(records, items, none):
    """The lowest of the items that has another name than a lower one."""
    lowest = next(iter(items))
    return next((k for k in items if records[k][NAME] != records[lowest][NAME]), none)


def first_day(items, none):
    """The lowest of the items that shares a day with a lower one; up to there all periods lie apart."""
    taken = []
    for k, periods in items.items():
        for begin, end in periods:
            at = bisect_left(taken, (end,))
            if at and begin < taken[at - 1][1]:
                return k
        for period in periods:
            insort(taken, period)
    return none


def ways(nodes, accepted):
    """Those of WAYS that fit a node image that is accepted, or refused with 9."""
    records = decoded(nodes)
    groups, none = grouped(records), len(records)
    if not groups:
        return []
    if accepted:
        return [ACCEPTED[not all(ordered for _, ordered in groups)]]
    name = min(first_name(records, items, none) for items, _ in groups)
    day, ordered = min((first_day(items, none), ordered) for items, ordered in groups)
    found = [BY_NAME if name <= day else BY_DAY[not ordered]]
    return found + ([BOTH[day < name]] if name != day and none not in (name, day) else [])
