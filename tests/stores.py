#!/usr/bin/env python3
"""Stores on both sides of each form rule of document 01 and requests Q-1 and Q-3.

    stores.py      makes them all, checks them and counts them by rule

stores() yields (name, bytes, broken rule or None); sweep() more of them.  Each is a store in form
that calls have made, or one that differs from it in one field entry, or in
the few that a consistent change takes.  Most changes carry by hand the rule
they are meant to break (None: still in form); it must be what
columns.broken_rule finds.  The rest are marked COMPUTED.  Some stay in form
and stand on both sides of each condition of the conflict table, which calls
cannot always bring about: a balance below a withdrawal that is held, a part
that is held as found in and alone beside one that asks and finds it out.  And
some have the steps on a register in every order, each held in turn by each
transaction above it: by the view one of them is the last write, whatever was
answered last.
"""

import collections
import hashlib
import itertools
import random

import columns
import reading
from columns import KIND, LIST, OBJECTS, OPENING, ORDER, PARENT_LOWER, PARENT_PLAIN, RESULT, STATE, TRANSACTIONS, UNANSWERED, UNUSED, WORK

COMPUTED = "computed"

# ------------------------------------------------------------- stores in form


def opened(*objects):
    """A store opened on objects given as `A 10`."""
    store = reading.Store()
    code, _, _ = store.open([(text[0], int(text[2:])) for text in objects])
    assert code == 0
    return store


def play(store, text):
    """Makes the calls in a text, a slash between them; returns the codes."""
    codes = []
    for line in text.split("/"):
        letter, *numbers = line.split()
        codes.append(reading.call(store, letter, *map(int, numbers))[0])
    return codes


def only_opened():
    return opened("A 10", "R 7")


def half_done_job():
    """One job: its first step committed, its second under way; another job waits for it."""
    store = opened("A 100", "R 5", "A 0")
    play(store, "N 0 / N 1 / U 2 0 2 30 / G 3 / C 3 / U 2 1 5 9 / G 4 / C 4 / C 2")
    play(store, "N 1 / U 5 0 3 120 / G 6 / N 5 / U 7 1 4 0 / G 8 / C 8 / U 5 2 1 0 / U 5 2 3 1 / G 10 / C 10")
    codes = play(store, "N 0 / U 11 0 1 0 / G 12 / U 0 0 3 200 / G 13 / N 0")
    assert codes == [0, 0, 13, 0, 13, 0]
    return store


def lists_everywhere():
    """Accesses on their own lists, on a parent's, a grandparent's and the root's, for three objects."""
    store = opened("A 50", "R 0", "A 1000")
    play(store, "N 0 / N 1 / N 0 / N 3")
    for parent in (0, 1, 2, 3, 4):
        for work in ("0 2 7", "2 3 5", "0 3 2000", "1 4 0"):
            play(store, f"U {parent} {work}")
    accesses = range(5, 25)
    for t in (23, 7, 24, 5, 8, 6, 12, 10, 16, 9, 20, 13, 17, 14, 21, 18, 22, 11, 15, 19):
        play(store, f"G {t}")
    for t in accesses:
        if t % 3 != 0:
            play(store, f"C {t}")
    play(store, "G 7 / G 11 / C 15 / C 2 / C 12 / C 9")
    return store


def aborted_parts():
    """Aborted work below, beside and above open and committed work: answered accesses on no list."""
    store = opened("A 20", "R 1000000000")
    play(store, "N 0 / N 1 / U 2 0 2 5 / G 3 / C 3 / U 2 1 5 0 / G 4 / C 4 / C 2 / U 1 0 1 0 / G 5 / U 1 0 3 9 / N 1 / U 7 1 4 0 / G 8 / B 1")
    play(store, "N 0 / U 9 0 3 20 / G 10 / C 10 / U 9 0 3 1 / G 11 / B 11 / U 9 1 4 0 / G 12")
    play(store, "N 9 / U 13 0 2 1 / G 14 / B 14 / B 13 / U 9 1 5 3 / B 15")
    return store


def waiting():
    """Responses that wait: for accesses, for an open parent's committed ones, on accounts and registers."""
    store = opened("A 10", "R 7", "R 8")
    play(store, "N 0 / U 1 0 2 5 / G 2 / C 2 / U 1 1 5 3 / G 3 / C 3 / N 0 / U 4 2 4 0 / G 5")
    codes = play(store, "U 4 0 1 0 / U 4 0 3 11 / U 4 1 4 0 / U 4 1 5 1 / U 1 2 5 2 / U 0 0 1 0 / G 6 / G 7 / G 8 / G 9 / G 10 / G 11")
    assert codes[6:] == [13] * 6
    return store


def at_the_limits():
    """Openings, arguments and values at the ends of their ranges."""
    store = opened("A 0", "A 1000000000", "R 0", "R 1000000000")
    works = ["0 1 0", "0 3 1", "0 3 1000000", "0 2 1", "0 2 1000000", "1 1 0", "1 2 1000000", "1 3 1000000"]
    works += ["2 4 0", "2 5 1000000000", "2 4 0", "3 5 0", "3 4 0"]
    for work in works:
        play(store, f"U 0 {work}")
        t = len(store.transactions) - 1
        play(store, f"G {t} / C {t}")
    for work in works:
        play(store, f"U 0 {work}")
    return store


def counters():
    """Adjustments up, down and by 0 and counts: on their own lists, a job's and the root's, aborted, and waiting."""
    store = opened("K -20", "K 1000", "A 5", "R 5")
    play(store, "N 0 / U 1 0 6 -3 / G 2 / C 2 / U 1 0 6 0 / G 3 / U 1 0 7 0 / G 4 / C 4")
    play(store, "N 0 / U 5 1 7 0 / G 6 / C 6 / U 5 1 6 0 / G 7 / U 5 1 6 8 / G 8 / B 8")
    codes = play(store, "U 0 0 6 7 / G 9 / U 0 0 7 0 / G 10 / U 0 0 6 0 / G 11 / U 0 1 6 -1 / G 12 / U 0 1 7 0 / G 13 / C 13")
    assert codes == [0, 13, 0, 13, 0, 0, 0, 13, 0, 0, 0]
    return store


def counters_at_the_limits():
    """Openings and adjustments at the ends of their ranges, and counts beyond the openings'."""
    store = opened("K -1000000000", "K 0", "K 1000000000")
    works = ["0 6 -1000000", "0 7 0", "1 6 -1", "1 7 0", "1 6 1000000", "1 7 0", "2 6 1000000", "2 6 0", "2 7 0"]
    for work in works:
        play(store, f"U 0 {work}")
        t = len(store.transactions) - 1
        play(store, f"G {t} / C {t}")
    for work in works:
        play(store, f"U 0 {work}")
    return store


def bins():
    """Parts put, taken and looked for, with either answer: on their own lists, a job's and the root's, aborted, and waiting."""
    store = opened("S 5", "S 4294967290", "A 5", "K 5")
    play(store, "N 0 / U 1 0 9 0 / G 2 / C 2 / U 1 0 8 2 / G 3 / C 3 / U 1 0 10 0 / G 4 / C 4 / U 1 0 8 1 / G 5 / U 1 0 9 3 / G 6")
    play(store, "N 0 / U 7 1 10 0 / G 8 / C 8 / U 7 1 10 1 / G 9 / U 7 1 8 2 / G 10 / B 10 / U 7 1 9 0 / G 11 / U 0 1 9 31 / G 12 / C 12")
    codes = play(store, "U 0 0 10 0 / G 13 / U 0 0 8 1 / G 14 / U 0 0 9 3 / G 15 / U 0 1 8 0 / G 16 / U 0 1 9 1 / G 17 / U 0 1 10 31 / G 18 / C 18")
    assert codes == [0, 13, 0, 13, 0, 0, 0, 13, 0, 13, 0, 0, 0]
    return store


def bins_at_the_limits():
    """Openings, part numbers and what a look finds at the ends of their ranges."""
    store = opened("S 0", "S 4294967295", "S 2147483648")
    works = ["0 10 0", "0 10 31", "0 9 0", "0 8 31", "1 10 31", "1 8 0", "1 9 31", "1 10 31", "2 9 31", "2 8 0", "2 10 0"]
    for work in works:
        play(store, f"U 0 {work}")
        t = len(store.transactions) - 1
        play(store, f"G {t} / C {t}")
    for work in works:
        play(store, f"U 0 {work}")
    return store


def held_and_asking():
    """A balance, a withdrawal, a read and a write, each held on an object of its own; every step of its kind asks beside it."""
    store = opened("A 10", "A 10", "R 7", "R 7")
    play(store, "U 0 0 1 0 / G 1 / U 0 1 3 4 / G 2 / U 0 2 4 0 / G 3 / U 0 3 5 5 / G 4 / N 0")
    for object, works in enumerate((("1 0", "2 3", "3 8", "3 12"),) * 2 + (("4 0", "5 3"),) * 2):
        for work in works:
            play(store, f"U 5 {object} {work}")
    return store


def parts_held_and_asking():
    """Each answer that a bin gives, held on a bin of its own, which has a part of these two and lacks the other; all of them ask beside it."""
    parts = ((0, 31), (31, 0), (5, 6), (6, 5), (16, 15), (30, 1))  # in, out
    store = opened(*(f"S {2**part_in}" for part_in, _ in parts))
    for object, ((part_in, part_out), held) in enumerate(zip(parts, ("8 out", "8 in", "9 in", "9 out", "10 in", "10 out"))):
        work = held.replace("in", str(part_in)).replace("out", str(part_out))
        play(store, f"U 0 {object} {work} / G {object + 1}")
    play(store, "N 0")
    for object, part in ((object, part) for object, both in enumerate(parts) for part in both):
        play(store, f"U 7 {object} 8 {part} / U 7 {object} 9 {part} / U 7 {object} 10 {part}")
    return store


def written_and_asking():
    """Three writes of a register, and one of another, held by a job within a job; that job, the one above it and the root ask."""
    store = opened("R 7", "R 8")
    play(store, "N 0 / N 1")
    for t, work in enumerate(("0 5 5", "0 5 6", "0 5 9", "1 5 4"), start=3):
        play(store, f"U 2 {work} / G {t} / C {t}")
    play(store, "U 2 0 4 0 / U 1 0 4 0 / U 0 0 4 0 / U 1 0 5 6 / U 0 0 5 5 / U 2 1 4 0")
    return store


def many_objects():
    """64 objects with work on each, under a job for every eight."""
    works = {"A": "2 3", "R": "5 4", "K": "6 -3", "S": "8 30"}
    sizes = {"A": 15_000_000, "R": 15_000_000, "K": -15_000_000, "S": 60_000_000}
    kinds = ["ARKS"[o % 4] for o in range(64)]
    store = opened(*(f"{kind} {o * sizes[kind]}" for o, kind in enumerate(kinds)))
    for job in range(8):
        play(store, "N 0")
    for o in range(63):  # none on the last
        job, access = o // 8 + 1, o + 9
        play(store, f"U {job} {o} {works[kinds[o]]}")
        if o % 5:
            play(store, f"G {access}")
        if o % 3:
            play(store, f"C {access}")
    play(store, "B 3 / N 0 / C 5 / C 2")
    return store


def deep_chain():
    """1,000 plain transactions each under the last, 24 accesses at the bottom, committed 400 up."""
    store = opened("A 500", "R 1")
    for parent in range(1_000):
        play(store, f"N {parent}")
    for access in range(1_001, 1_021):
        play(store, f"U 1000 0 2 {access} / G {access} / C {access}")
    for t in range(1_000, 600, -1):
        play(store, f"C {t}")
    play(store, "U 600 1 5 8 / G 1021 / C 1021 / U 600 0 3 5 / G 1022 / U 300 0 1 0 / G 1023 / U 0 1 4 0")
    return store


def full_of_listed():
    """1,024 deposits, each on a list: every other on its own, the rest on the root's."""
    store = opened("A 1000000000")
    for t in range(1, 1_025):
        play(store, f"U 0 0 2 1000000 / G {t}")
        if t % 2:
            play(store, f"C {t}")
    assert len(store.transactions) == 1_025
    return store


def full_of_adjustments():
    """The lowest count there can be but for the last number, which has not asked for it yet."""
    store = opened("K -1000000000")
    for t in range(1, 1_024):
        play(store, f"U 0 0 6 -1000000 / G {t} / C {t}")
    play(store, "U 0 0 7 0")
    return store


def full_and_mixed():
    """1,024 transactions of all sorts, from a seed."""
    chance = random.Random(1_024)
    store = opened("A 900", "R 3", "A 0", "R 9", "K -30", "S 5")
    works = ((0, 1), (0, 2), (0, 2), (2, 2), (0, 3), (2, 3), (1, 4), (3, 4), (1, 5), (3, 5), (4, 6), (4, 6), (4, 7), (5, 8), (5, 9), (5, 10))
    while len(store.transactions) <= 1_024:
        last = len(store.transactions) - 1
        near = chance.randint(max(0, last - 40), last) if chance.random() < 0.9 else 0
        object, operation = chance.choice(works)
        argument = 0 if operation in (1, 4, 7) else chance.randint(0, 3) if object == 5 else chance.randint(-50 if operation == 6 else 1, 50)
        call = chance.choice((f"N {near}", f"U {near} {object} {operation} {argument}", f"G {near}", f"G {near}", f"C {near}", f"C {near}"))
        play(store, call if chance.random() < 0.98 else f"B {near}")
    return store


STARTS = {
    "nothing": reading.Store,
    "opened": only_opened,
    "job": half_done_job,
    "lists": lists_everywhere,
    "aborted": aborted_parts,
    "waiting": waiting,
    "limits": at_the_limits,
    "counters": counters,
    "counter limits": counters_at_the_limits,
    "bins": bins,
    "bin limits": bins_at_the_limits,
    "asking": held_and_asking,
    "parts": parts_held_and_asking,
    "written": written_and_asking,
    "objects": many_objects,
    "deep": deep_chain,
    "listed": full_of_listed,
    "adjusted": full_of_adjustments,
    "mixed": full_and_mixed,
}


def starts():
    """(name, columns) of the stores in form that calls made, the lists mixed in `order`."""
    for seed, (name, make) in enumerate(STARTS.items()):
        yield name, columns.columns_of(make(), columns.interleaved(random.Random(seed)))


# ------------------------------------------------------------ picking of rows


def some(chance, rows, most=3):
    """The first, the last and some between."""
    rows = list(rows)
    if len(rows) <= most or most == 1:
        return rows[:most]
    return [rows[0], rows[-1]] + chance.sample(rows[1:-1], most - 2)


def one_of_each(rows, key):
    """A row for each key there is."""
    return list({key(t): t for t in reversed(rows)}.values())


def work_classes(c):
    """An access for each operation and outcome, with argument 0 and with another."""
    return one_of_each(columns.accesses(c), lambda t: (c.operation[t], c.outcome[t], c.argument[t] == 0))


def on_lists(c):
    return [t for t in columns.accesses(c) if c.place[t] != 0]


def asking(c):
    """Open accesses that are not answered, the first few."""
    return [t for t in columns.unanswered(c) if c.state[t] == 0][:36]


def path(c, t):
    """t and those above it, up to the root."""
    found = [t]
    while t != 0:
        t = c.parent[t]
        found.append(t)
    return found


def at_or_beneath(c, t):
    """t and those below it; one pass will do, a parent's number is lower."""
    found = {t}
    for u in columns.transactions(c):
        if c.parent[u] in found:
            found.add(u)
    return found


# ------------------------------------------------- changes around each rule
#
# Each yields (label, expected rule or None, [(field, index, value), ...]);
# index is None where the field is one number.

LARGE_COUNTS = (2**8, 2**16, 2**32, 2**63, 2**64 - 1)
EXTREMES = (-(2**63), -(2**32), -(2**31), 2**31, 2**32, 2**63 - 1)

OPERATIONS_OF = {"A": (1, 2, 3), "R": (4, 5), "K": (6, 7), "S": (8, 9, 10)}
FIT_WITH_ZERO = {"A": (1,), "R": (4, 5), "K": (6, 7), "S": (8, 9, 10)}
UNKNOWN_KINDS = "BJLQTakrs"
GOOD_OPENINGS = {  # from the lowest to the highest
    "A": (0, 1, 999_999_999, 1_000_000_000),
    "R": (0, 1, 999_999_999, 1_000_000_000),
    "K": (-1_000_000_000, -1, 0, 1_000_000_000),
    "S": (0, 1, 1_000_000_001, 2**31, 4_294_967_295),
}
BAD_OPENINGS = {"A": (-1, 1_000_000_001), "R": (-1, 1_000_000_001), "K": (-1_000_000_001, 1_000_000_001), "S": (-1, 4_294_967_296)}
OUTCOMES_OF = {1: (3,), 2: (2,), 3: (1, 2), 4: (3,), 5: (2,), 6: (2,), 7: (3,), 8: (1, 2), 9: (1, 2), 10: (3,)}
GOOD_ARGUMENTS = {
    1: (0,),
    2: (1, 1_000_000),
    3: (1, 1_000_000),
    4: (0,),
    5: (0, 1_000_000_000),
    6: (-1_000_000, -1, 0, 1_000_000),
    7: (0,),
    8: (0, 1, 31),
    9: (0, 1, 31),
    10: (0, 1, 31),
}
BAD_ARGUMENTS = {
    1: (-1, 1),
    2: (-1, 0, 1_000_001, 2**32 + 1),
    3: (-1, 0, 1_000_001, 2**32 + 1),
    4: (-1, 1),
    5: (-1, 1_000_000_001, 2**32 + 1),
    6: (-1_000_001, 1_000_001, 2**32 + 1, -(2**32) - 1),
    7: (-1, 1),
    8: (-1, 32, 256, 2**32 + 1),
    9: (-1, 32, 256, 2**32 + 1),
    10: (-1, 32, 256, 2**32 + 1),
}
GOOD_VALUES = {
    1: (0, 2_024_000_000),
    2: (0,),
    3: (0,),
    4: (0, 1_000_000_000),
    5: (0,),
    6: (0,),
    7: (-2_024_000_000, -1, 0, 2_024_000_000),
    8: (0,),
    9: (0,),
    10: (0, 1),
}
BAD_VALUES = {
    1: (-1, 2_024_000_001),
    2: (-1, 1),
    3: (-1, 1),
    4: (-1, 1_000_000_001, 2_024_000_000),
    5: (-1, 1),
    6: (-1, 1),
    7: (-2_024_000_001, 2_024_000_001),
    8: (-1, 1),
    9: (-1, 1),
    10: (-1, 2, 3),
}


def around_objects(c, chance):
    for many in (65, *LARGE_COUNTS, chance.choice(LARGE_COUNTS[:4]) + c.objects):
        yield f"objects {many}", OBJECTS, [("objects", None, many)]
    if c.objects < 64:
        new = c.objects
        yield "one object more, no kind", KIND, [("objects", None, new + 1)]
        yield "64 objects, no kinds", KIND, [("objects", None, 64)]
        yield "one object more", None, [("objects", None, new + 1), ("kind", new, ord("R")), ("opening", new, 5)]
        yield "64 objects", None, [("objects", None, 64)] + [("kind", o, ord("A")) for o in range(new, 64)]
    if c.objects > 0:
        used = any(c.object[t] == c.objects - 1 for t in columns.accesses(c))
        yield "one object less", WORK if used else UNUSED, [("objects", None, c.objects - 1)]
        yield "no objects", WORK if columns.accesses(c) else UNUSED, [("objects", None, 0)]


def around_transactions(c, chance):
    for many in (1_025, 1_026, *LARGE_COUNTS[1:], chance.choice(LARGE_COUNTS[1:4]) + c.count):
        yield f"count {many}", TRANSACTIONS, [("count", None, many)]
    if c.count < 1_024:
        yield "one transaction more", None, [("count", None, c.count + 1)]
        yield "1,024 transactions", None, [("count", None, 1_024)]
    if c.count > 0:
        last_row = [getattr(c, name)[c.count] for name in columns.PER_TRANSACTION]
        rule = ORDER if c.place[c.count] else UNUSED if any(last_row) else None
        yield "one transaction less", rule, [("count", None, c.count - 1)]
        yield "no transactions", ORDER if c.listed else UNUSED, [("count", None, 0)]


def around_kind(c, chance):
    for o in some(chance, range(c.objects), 2):
        for letter in (0, *chance.sample((1, 64, *map(ord, UNKNOWN_KINDS), *(ord(kind) + 128 for kind in OPERATIONS_OF), 255), 4)):
            yield f"kind of {o} is {letter}", KIND, [("kind", o, letter)]
        used = any(c.object[t] == o for t in columns.accesses(c))
        for other in [kind for kind in OPERATIONS_OF if kind != chr(c.kind[o])]:
            lowest, *_, highest = GOOD_OPENINGS[other]
            beyond = not lowest <= c.opening[o] <= highest
            yield f"kind of {o} is {other}", OPENING if beyond else WORK if used else None, [("kind", o, ord(other))]
    if c.objects < 64:
        more = ("objects", None, c.objects + 1)
        for letter, openings in GOOD_OPENINGS.items():
            for opening in (openings[0], openings[-1]):
                yield f"one more object, {letter} {opening}", None, [more, ("kind", c.objects, ord(letter)), ("opening", c.objects, opening)]
        for letter in UNKNOWN_KINDS:
            yield f"one more object, {letter}", KIND, [more, ("kind", c.objects, ord(letter))]


def around_opening(c, chance):
    for o in some(chance, range(c.objects), 2):
        kind = chr(c.kind[o])
        for good in GOOD_OPENINGS[kind]:
            yield f"opening of {o} is {good}", None, [("opening", o, good)]
        extremes = [extreme for extreme in EXTREMES if extreme not in GOOD_OPENINGS[kind]]
        for bad in (*BAD_OPENINGS[kind], *chance.sample(extremes, 3)):
            yield f"opening of {o} is {bad}", OPENING, [("opening", o, bad)]


def around_parent(c, chance):
    bits = columns.at_or_above(c)
    for t in some(chance, columns.transactions(c), 4):
        for bad in {t, t + 1, c.count + 1, chance.choice((1_024, 1_025, 2**15, 2**16 - 1, 2**15 + c.parent[t]))}:
            yield f"parent of {t} is {bad}", PARENT_LOWER, [("parent", t, bad)]
        lower_accesses = [u for u in columns.accesses(c) if u < t]
        for bad in some(chance, lower_accesses, 2):
            yield f"parent of {t} is access {bad}", PARENT_PLAIN, [("parent", t, bad)]
        lower_plains = [0] + [u for u in columns.plains(c) if u < t]
        below = at_or_beneath(c, t)
        holders_above = {c.holder[u] for u in on_lists(c) if u in below} - below
        for plain in some(chance, lower_plains):
            kept = all(bits[plain] >> holder & 1 for holder in holders_above)
            yield f"parent of {t} is {plain}", None if kept else LIST, [("parent", t, plain)]


def after_operation(c, t, new):
    """By hand: what an access's new operation breaks, when it alone changes."""
    old, outcome = c.operation[t], c.outcome[t]
    if new == old:
        return None
    if new == 0:  # now a plain transaction, with an access's entries
        if c.place[t]:
            return ORDER
        return UNUSED if c.object[t] or c.argument[t] or outcome or c.value[t] else None
    if new not in OPERATIONS_OF[chr(c.kind[c.object[t]])]:
        return WORK
    if (old, new) == (2, 3):
        return None
    if (old, new) == (3, 2):
        return RESULT if outcome == 1 else None
    if (old, new) in ((4, 5), (7, 6)) or (old, new) in ((5, 4), (6, 7)) and c.argument[t] == 0:
        return RESULT if outcome else None
    if 8 <= old:
        return RESULT if outcome and 10 in (old, new) else None
    return WORK  # balance has argument 0, its neighbours never; a write or an adjustment other than 0 is no read or count


def around_work(c, chance):
    for t in some(chance, work_classes(c), 6):
        for bad in {c.objects, 64, 128 + c.object[t], 255}:
            yield f"object of {t} is {bad}", WORK, [("object", t, bad)]
        for o in some(chance, range(c.objects)):
            fits = c.kind[o] == c.kind[c.object[t]]
            yield f"object of {t} is {o}", None if fits else WORK, [("object", t, o)]
        for new in (*range(12), chance.choice((12, 128 + c.operation[t], 255))):
            yield f"operation of {t} is {new}", after_operation(c, t, new), [("operation", t, new)]
        for good in GOOD_ARGUMENTS[c.operation[t]]:
            yield f"argument of {t} is {good}", None, [("argument", t, good)]
        for bad in (*BAD_ARGUMENTS[c.operation[t]], chance.choice(EXTREMES)):
            yield f"argument of {t} is {bad}", WORK, [("argument", t, bad)]


def around_state(c, chance):
    for t in some(chance, columns.transactions(c), 4):
        for good in (0, 1, 2):
            yield f"state of {t} is {good}", None, [("state", t, good)]
        for bad in (3, *chance.sample((4, 127, 128, 255), 2)):
            yield f"state of {t} is {bad}", STATE, [("state", t, bad)]


def around_result(c, chance):
    for t in some(chance, work_classes(c), 7):
        operation = c.operation[t]
        for outcome in (1, 2, 3, 4, chance.choice((5, 127, 255, 128 + OUTCOMES_OF[operation][0]))):
            rule = None if outcome in OUTCOMES_OF[operation] else RESULT
            yield f"outcome of {t} is {outcome}", rule, [("outcome", t, outcome)]
        if c.outcome[t]:
            for good in GOOD_VALUES[operation]:
                yield f"value of {t} is {good}", None, [("value", t, good)]
            for bad in (*BAD_VALUES[operation], chance.choice(EXTREMES)):
                yield f"value of {t} is {bad}", RESULT, [("value", t, bad)]


def around_unanswered(c, chance):
    for t in one_of_each(columns.accesses(c), lambda t: (c.operation[t], c.outcome[t] == 0, c.place[t] == 0)):
        if c.outcome[t]:
            bare = c.value[t] == 0 and c.place[t] == 0
            yield f"answered {t} no longer", None if bare else UNANSWERED, [("outcome", t, 0)]
            continue
        for value in (1, -1, chance.choice(EXTREMES)):
            yield f"value {value} of unanswered {t}", UNANSWERED, [("value", t, value)]
        for place in {1, c.listed + 1, chance.choice((c.listed or 1, 1_024, 1_025, 2**16 - 1))}:
            yield f"place {place} of unanswered {t}", UNANSWERED, [("place", t, place)]
        for holder in path(c, t)[:2]:
            if holder:
                yield f"holder {holder} of unanswered {t}", UNUSED, [("holder", t, holder)]
        yield f"unanswered {t} put on its list", UNANSWERED, put_on_list(c, t, t)
        yield f"unanswered {t} put on the root's list", UNANSWERED, put_on_list(c, t, 0)
        yield f"unanswered {t} in the order only", ORDER, [("listed", None, c.listed + 1), ("order", c.listed, t)]


def put_on_list(c, t, holder):
    """The change that puts an access, so far on no list, at the end of a list."""
    return [("listed", None, c.listed + 1), ("order", c.listed, t), ("place", t, c.listed + 1), ("holder", t, holder)]


def number_of(c, t):
    """Where the number stands by which an answered access is judged, and its lowest and highest."""
    if c.operation[t] in reading.WHOLE:
        return "value", columns.RESULTS[c.operation[t]][columns.VALUE]
    return "argument", reading.OPERATIONS[chr(c.kind[c.object[t]])][c.operation[t]]


def around_number(c, chance):
    """Held beside one that asks, the number just below the asking one's, equal to it and just above: in form, and judged by the conflict table."""
    store = columns.store_of(c)
    asked = {t: reading.answered(store.transactions[t], store.result_of(t)) for t in asking(c)}
    classes = {t: reading.class_of(store.transactions[t], store.transactions[t].result) for t in on_lists(c)}
    beside = [(t, held) for t in asked for held in on_lists(c) if c.object[held] == c.object[t] and c.holder[held] not in path(c, t)]
    for t, held in one_of_each(beside, lambda pair: (asked[pair[0]].answer_class, classes[pair[1]])):
        field, limits = number_of(c, held)
        for number in range(asked[t].number - 1, asked[t].number + 2):
            if reading.within(number, limits):
                yield f"{field} of {held} is {number}, as {t} asks", None, [(field, held, number)]


def around_list(c, chance):
    def where(t):
        return c.holder[t] == t, c.holder[t] == c.parent[t], c.holder[t] == 0

    for t in one_of_each(on_lists(c), where) + some(chance, on_lists(c), 2):
        above = path(c, t)
        for good in some(chance, above, 5):
            yield f"holder of {t} is {good}, at or above it", None, [("holder", t, good)]
        siblings = [u for u in columns.transactions(c) if c.parent[u] == c.parent[t] and u != t]
        elsewhere = [u for u in columns.transactions(c) if u not in above]
        numbers = {t + 1, t - 1, c.count, c.count + 1, *chance.sample((1_024, 1_025, 2**15 + c.holder[t], 2**16 - 1, 2**8 + c.holder[t]), 2)}
        for bad in sorted((set(some(chance, siblings, 2)) | set(some(chance, elsewhere, 2)) | numbers) - set(above)):
            yield f"holder of {t} is {bad}, not at or above it", LIST, [("holder", t, bad)]
    for t in some(chance, (t for t in columns.answered(c) if c.place[t] == 0), 4):
        for holder in {t, c.parent[t], c.count, 1_025} - {0}:
            yield f"holder {holder} of {t} on no list", UNUSED, [("holder", t, holder)]
        yield f"answered {t} put on its list", None, put_on_list(c, t, t)
        yield f"answered {t} put on its parent's list", None, put_on_list(c, t, c.parent[t])


def in_new_order(order):
    """The change that writes the listed accesses in this order."""
    return [("order", at, t) for at, t in enumerate(order)] + [("place", t, at) for at, t in enumerate(order, start=1)]


def around_view(c, chance):
    """Three writes of a register within two jobs, each held by one of these or by the root, in every order, what is listed besides after them; or
    two and a read, its result not what is there: in form, and judged by what the view has last."""
    steps = [t for t in on_lists(c) if (c.object[t], c.operation[t]) == (0, reading.WRITE) and len(path(c, t)) == 4]
    others = [t for t in on_lists(c) if t not in steps]
    if len(steps) != 3:
        return
    for holders in itertools.product(path(c, steps[0])[1:], repeat=3):
        held = [("holder", t, holder) for t, holder in zip(steps, holders)]
        for order in itertools.permutations(steps):
            for read in (None, *steps):
                seen = [("operation", read, reading.READ), ("argument", read, 0), ("outcome", read, columns.VALUE), ("value", read, 1)] if read else []
                yield f"{order}, {steps} held by {holders}, {read} a read", None, held + in_new_order([*order, *others]) + seen


def around_order(c, chance):
    for many in {c.listed + 1, max(c.listed - 1, 0), 0, 1_024, 1_025, 2**63, chance.choice(LARGE_COUNTS) - 1, 2**16 + c.listed} - {c.listed}:
        yield f"listed {many}", ORDER, [("listed", None, many)]
    if c.listed == 0:
        return
    order = c.order[:c.listed]
    others = [t for t in columns.transactions(c) if c.place[t] == 0]
    for t in some(chance, on_lists(c), 2):
        other_places = [c.place[u] for u in some(chance, on_lists(c), 2)]
        far = chance.choice((1_024, 1_025, 2**15 + c.place[t], 2**16 - 1))
        for place in {0, *other_places, c.place[t] - 1, c.place[t] + 1, c.listed + 1, far} - {c.place[t]}:
            yield f"place of {t} is {place}", ORDER, [("place", t, place)]
    for at in some(chance, range(c.listed), 2):
        far = chance.choice((1_025, 2**15 + c.order[at], 2**16 - 1))
        for t in {0, *some(chance, order, 2), *some(chance, others, 2), c.count + 1, far} - {c.order[at]}:
            yield f"order at {at} is {t}", ORDER, [("order", at, t)]
    last = order[-1]
    one_less, no_place, no_entry, no_holder = ("listed", None, c.listed - 1), ("place", last, 0), ("order", c.listed - 1, 0), ("holder", last, 0)
    yield "last taken off its list", None, [one_less, no_place, no_entry, no_holder]
    yield "last taken off, its holder left", UNUSED if c.holder[last] else None, [one_less, no_place, no_entry]
    yield "last taken off, its order entry left", UNUSED, [one_less, no_place, no_holder]
    yield "order reversed", None, in_new_order(order[::-1])
    if c.listed > 1:
        first = order[0]
        yield "first two swapped", None, in_new_order([order[1], order[0], *order[2:]])
        yield "first two swapped in the order only", ORDER, [("order", 0, order[1]), ("order", 1, order[0])]
        yield "first two swapped in their places only", ORDER, [("place", first, 2), ("place", order[1], 1)]
        yield "a gap at the first", ORDER, [("listed", None, c.listed - 1), ("order", 0, 0), ("place", first, 0), ("holder", first, 0)]
    if c.listed < 1_024:
        yield "first in the order twice", ORDER, [("listed", None, c.listed + 1), ("order", c.listed, order[0])]


LARGEST = {"B": 2**8 - 1, "H": 2**16 - 1, "q": 2**63 - 1}


def around_unused(c, chance):
    for field in columns.PER_TRANSACTION:
        _, letter = columns.FIELDS[field]
        past = some(chance, range(c.count + 1, columns.ROWS), 2)
        for value, row in zip((1, LARGEST[letter], 2), [0, *past]):
            yield f"{field} of unused {row} is {value}", UNUSED, [(field, row, value)]
    for o in some(chance, range(c.objects, 64)):
        yield f"kind of unused {o}", UNUSED, [("kind", o, ord("A"))]
        yield f"opening of unused {o}", UNUSED, [("opening", o, chance.choice((1, -1)))]
    for at in some(chance, range(c.listed, 1_024)):
        for t in {1, c.count or 1_025}:
            yield f"order at unused {at} is {t}", UNUSED, [("order", at, t)]
    parents = {c.parent[t] for t in columns.transactions(c)}
    childless = [t for t in columns.plains(c) if t not in parents]
    for t in sorted({*some(chance, columns.plains(c), 2), *some(chance, childless, 1)}):
        for field, value in (("object", 1), ("argument", 1), ("argument", -1), ("outcome", 2), ("value", -1), ("holder", t), ("place", 1)):
            yield f"{field} of plain {t} is {value}", UNUSED, [(field, t, value)]
        for operation in (*range(1, 12), 255):
            # On object 0, with argument 0 and no answer.
            fits = c.objects > 0 and operation in FIT_WITH_ZERO[chr(c.kind[0])]
            rule = PARENT_PLAIN if t in parents else None if fits else WORK
            yield f"operation of plain {t} is {operation}", rule, [("operation", t, operation)]


def any_change(c, chance):
    """Changes of one entry by chance, mostly of one that is used, to a value that may mean something."""
    for _ in range(25):
        field = chance.choice(list(columns.FIELDS))
        entries, letter = columns.FIELDS[field]
        used = {"kind": c.objects, "opening": c.objects, "order": c.listed, **dict.fromkeys(columns.PER_TRANSACTION, c.count + 1)}.get(field, 1)
        index = None if field in columns.NUMBERS else min(entries - 1, chance.randrange(used + 1))
        value = chance.choice((chance.randrange(4), chance.randrange(c.count + 2), chance.randrange(c.listed + 2), chance.randrange(256)))
        if letter == "B":
            value %= 256
        if letter == "q":
            value *= chance.choice((1, -1))
        yield f"{field} at {index} is {value}", COMPUTED, [(field, index, value)]


def every_unused(c):
    """Each unused entry of each column, one at a time."""
    spots = [(field, o) for field in columns.PER_OBJECT for o in range(c.objects, 64)]
    spots += [("order", at) for at in range(c.listed, 1_024)]
    spots += [(field, row) for row in (0, *range(c.count + 1, columns.ROWS)) for field in columns.PER_TRANSACTION]
    for field, index in spots:
        yield f"{field} of unused {index}", UNUSED, [(field, index, 1)]


# Of equal stores only the first is kept, and those of "number" and "view" are asked the most.
AROUND = {
    "number": around_number,
    "view": around_view,
    "objects": around_objects,
    "transactions": around_transactions,
    "kind": around_kind,
    "opening": around_opening,
    "parent": around_parent,
    "work": around_work,
    "state": around_state,
    "result": around_result,
    "list": around_list,
    "unanswered": around_unanswered,
    "order": around_order,
    "unused": around_unused,
    "any": any_change,
}

# ------------------------------------------------------------------ all of them


def changed(c, changes):
    other = c.copy()
    for field, index, value in changes:
        if index is None:
            setattr(other, field, value)
        else:
            getattr(other, field)[index] = value
    return other


def with_verdict(name, c, expected):
    found = columns.broken_rule(c)
    assert expected in (COMPUTED, found), f"{name}: expected {expected}, found {found}"
    return name, columns.to_bytes(c), found


def all_changes():
    """(name, columns, expected rule) of each start and each change of it."""
    for start, c in starts():
        yield f"{start} | start | as made", c, None
        for group, around in AROUND.items():
            for label, expected, changes in around(c, random.Random(f"{start} {group}")):
                yield f"{start} | {group} | {label}", changed(c, changes), expected


def stores():
    """Yields (name, bytes, broken rule or None), always the same and none twice."""
    seen = set()
    for change in all_changes():
        name, data, rule = with_verdict(*change)
        digest = hashlib.sha256(data).digest()
        if digest not in seen:
            seen.add(digest)
            yield name, data, rule


def sweep():
    """Yields as stores() does, some 10,000: every unused entry of a store that was only opened."""
    c = columns.columns_of(only_opened())
    for label, expected, changes in every_unused(c):
        yield with_verdict(f"opened | sweep | {label}", changed(c, changes), expected)


def main():
    broken, in_form = collections.Counter(), collections.Counter()
    for name, data, rule in stores():
        group = name.split(" | ")[1]
        (broken if rule else in_form)[rule or group] += 1
        c = columns.from_bytes(data)
        assert columns.to_bytes(c) == data
        if rule is None:
            store = columns.store_of(c)
            assert columns.same_lists(c, store) and columns.same_lists(columns.columns_of(store), store), name
    for rule in columns.RULES:
        print(f"{broken[rule]:5} break: {rule}")
    for group, many in in_form.items():
        print(f"{many:5} in form, around: {group}")
    print(f"{broken.total() + in_form.total():5} in all, {broken.total()} broken, {in_form.total()} in form")


if __name__ == "__main__":
    main()
