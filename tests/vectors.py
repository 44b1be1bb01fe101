#!/usr/bin/env python3
"""Makes the run files of crates/suite/data that are too long to write by hand, the same ones each time.

usage: vectors.py FOLDER
"""
import os
import sys

from reading import ADJUST, BALANCE, COUNT, DEPOSIT, LOOK, PUT, READ, TAKE, WHOLE, WITHDRAW, WRITE, Store, call


def file_of(objects, calls):
    lines = [len(objects), *objects, len(calls), *calls]
    return "".join("%s\n" % line for line in lines)


def case_13():
    """The last number, one more, and what comes before the refusal that none is left."""
    calls = ["N 0"] * 1023 + ["U 0 0 2 5", "N 0", "U 0 0 2 5", "U 0 2 2 5", "U 0 0 4 0", "N 1024", "N 1025", "C 1", "N 1", "N 0"]
    return file_of(["A 10", "R 7"], calls)


def calls_of_root(count):
    return file_of(["A 10"], ["G 0"] * count)


def file_of_length(length):
    """As many calls as there can be, in exactly so many bytes, a little less than 16 for each. All name a parent that is missing."""
    calls = ["U 1000000 0 1 0"] * 4096
    for i in range(len(file_of(["A 10"], calls)) - length):
        calls[i] = "U 100000 0 1 0"
    made = file_of(["A 10"], calls)
    assert len(made) == length
    return made


def wrong_at_line(made, number):
    """The same length with a small letter in place of a line's first byte."""
    lines = made.split("\n")
    lines[number - 1] = "u" + lines[number - 1][1:]
    return "\n".join(lines)


def steps_to_root(first, last, operation, argument):
    """Accesses `first` to `last` under the root, each answered and committed."""
    calls = []
    for t in range(first, last + 1):
        calls += ["U 0 0 %d %d" % (operation, argument), "G %d" % t, "C %d" % t]
    return calls


def largest_balance():
    """The largest opening and as many deposits of the largest size as leave a number for a balance."""
    return file_of(["A 1000000000"], steps_to_root(1, 1023, DEPOSIT, 1000000) + ["U 0 0 %d 0" % BALANCE, "G 1024"])


def furthest_count(sign):
    """The opening and as many adjustments furthest to one side as leave a number for a count; then what is refused for lack of numbers."""
    calls = steps_to_root(1, 1023, ADJUST, sign * 1000000) + ["U 0 0 %d 0" % COUNT, "G 1024", "C 1024"]
    calls += ["U 0 0 %d %d" % (ADJUST, argument) for argument in (-1000000, 1000000, -1000001, 1000001)]
    return file_of(["K %d" % (sign * 1000000000)], calls)


def to_the_bound(sign):
    """The furthest opening and 1,024 adjustments furthest to the same side: the count's bound is reached, and no number is left to count."""
    calls = steps_to_root(1, 1024, ADJUST, sign * 1000000) + ["U 0 0 %d 0" % COUNT]
    return file_of(["K %d" % (sign * 1000000000)], calls)


def count_and_back():
    """From the lowest opening down by half the numbers there are and back again, a count at either end."""
    calls = steps_to_root(1, 511, ADJUST, -1000000) + steps_to_root(512, 512, COUNT, 0)
    return file_of(["K -1000000000"], calls + steps_to_root(513, 1023, ADJUST, 1000000) + steps_to_root(1024, 1024, COUNT, 0))


def every_two_parts():
    """32 bins, empty and full in turn, and all the numbers there are: in each bin one part is put or taken, and the 31 others are looked for meanwhile."""
    objects, calls, t = [], [], 0
    for part in range(32):
        objects.append(("S 0", "S 4294967295")[part % 2])
        steps = [((PUT, TAKE)[part % 2], part)] + [(LOOK, other) for other in range(32) if other != part]
        for operation, argument in steps:
            t += 1
            calls += ["U 0 %d %d %d" % (part, operation, argument), "G %d" % t]
    return file_of(objects, calls)


def in_and_out():
    """A part put and taken in turn, by as many steps as leave a number for a look."""
    calls = []
    for t in range(1, 1024):
        calls += steps_to_root(t, t, (TAKE, PUT)[t % 2], 31)
    return file_of(["S 0"], calls + ["U 0 0 %d 31" % LOOK, "G 1024"])


def rewritten():
    """A register that one job writes again and again, by 1,017 steps, each another value; its last is read. A job within writes over it twice, and a
    read there waits for the second write, and reads the first when the second is dropped; when that job is dropped, the last of the 1,017 is read
    again."""
    calls = ["N 0"]
    for t in range(2, 1019):
        calls += ["U 1 0 %d %d" % (WRITE, t * 7919 % 1019), "G %d" % t, "C %d" % t]
    calls += ["U 1 0 %d 0" % READ, "G 1019", "C 1019", "N 1", "U 1020 0 %d 2001" % WRITE, "G 1021", "C 1021", "U 1020 0 %d 2002" % WRITE, "G 1022"]
    calls += ["U 1020 0 %d 0" % READ, "G 1023", "B 1022", "G 1023", "B 1020", "U 1 0 %d 0" % READ, "G 1024", "C 1024", "C 1"]
    return file_of(["R 7"], calls)


def chain(first, last, top):
    """Plain transactions `first` to `last`, each under the one before, the first under `top`."""
    return ["N %d" % top] + ["N %d" % t for t in range(first, last)]


def deep_commits():
    """A deposit at the bottom goes up one level at a time; a balance beside the chain is asked at every level."""
    calls = ["U 0 0 %d 0" % BALANCE] + chain(2, 1023, 0) + ["U 1023 0 %d 5" % DEPOSIT, "G 1024", "G 1", "C 2"]
    for t in range(1024, 1, -1):
        calls += ["C %d" % t, "G 1"]
    return file_of(["A 10", "R 7"], calls)


def deep_full():
    """1,023 nested, an access at the bottom, and everything committed."""
    calls = chain(1, 1023, 0) + ["U 1023 1 %d 3" % WRITE, "N 1023", "G 1024", "C 1"]
    return file_of(["A 10", "R 7"], calls + ["C %d" % t for t in range(1024, 0, -1)] + ["C 1", "G 1024"])


def deep_work():
    """511 levels, a deposit of 1 at each; a balance at the bottom sees them all."""
    calls, parent, t = [], 0, 0
    for _ in range(511):
        calls += ["N %d" % parent, "U %d 0 %d 1" % (t + 1, DEPOSIT), "G %d" % (t + 2), "C %d" % (t + 2)]
        parent, t = t + 1, t + 2
    return file_of(["A 10"], calls + ["U %d 0 %d 0" % (parent, BALANCE), "G %d" % (t + 1), "U 0 0 %d 0" % BALANCE, "G %d" % (t + 2)])


def deep_bin():
    """495 levels, a step at each: all 32 parts put, one after the other, all taken, and so on; the bottom looks for them all, and the root for the
    first and the last."""
    calls, parent, t = [], 0, 0
    for level in range(495):
        operation = (PUT, TAKE)[level // 32 % 2]
        calls += ["N %d" % parent, "U %d 0 %d %d" % (t + 1, operation, level % 32), "G %d" % (t + 2), "C %d" % (t + 2)]
        parent, t = t + 1, t + 2
    for looking, part in [(parent, part) for part in range(32)] + [(0, 0), (0, 31)]:
        t += 1
        calls += ["U %d 0 %d %d" % (looking, LOOK, part), "G %d" % t]
    return file_of(["S 0"], calls)


def deep_register():
    """A chain of 1,010. One register is written at the top, one by the outermost job, one by nobody, and the innermost reads all three; it writes
    over the first, and reads that; then a read by the job above it waits, until the innermost is dropped. At the end the job within the outermost one
    reads what that wrote, and at the top a read of it waits."""
    calls = ["U 0 0 %d 5" % WRITE, "G 1", "C 1"] + chain(2, 1011, 0) + ["U 2 1 %d 6" % WRITE, "G 1012", "C 1012"]
    steps = [(1011, 0, READ, 0), (1011, 1, READ, 0), (1011, 2, READ, 0), (1011, 0, WRITE, 4), (1011, 0, READ, 0), (1010, 0, READ, 0)]
    for t, step in enumerate(steps, start=1013):
        calls += ["U %d %d %d %d" % step, "G %d" % t, "C %d" % t]
    return file_of(["R 7", "R 8", "R 9"], calls + ["B 1011", "G 1018", "U 3 1 %d 0" % READ, "G 1019", "U 0 1 %d 0" % READ, "G 1020"])


def deep_abort():
    """A chain with work at its bottom is cut in the middle: what is beneath can do nothing more, what is above goes on."""
    calls = chain(1, 1022, 0) + ["U 1022 0 %d 5" % DEPOSIT, "G 1023", "C 1023", "U 0 0 %d 0" % BALANCE, "G 1024", "B 512", "G 1024"]
    for t in range(1023, 0, -1):
        calls += ["C %d" % t]
    return file_of(["A 10"], calls)


def many_objects():
    """64 objects, accounts and registers in turn. Three jobs touch each of them, in another order than the numbers'; two are aborted, since
    they and the first wait for each other, and the first commits."""
    objects = ["AR"[o % 2] + " %d" % (100 + o) for o in range(64)]
    works = [(WITHDRAW, WRITE), (DEPOSIT, READ), (BALANCE, WRITE)]
    calls = ["N 0", "N 0", "N 0"]
    for i in range(192):
        o, job = i * 29 % 64, i // 64
        operation = works[job][o % 2]
        calls.append("U %d %d %d %d" % (job + 1, o, operation, 0 if operation in (BALANCE, READ) else 40 + o + job))
    for last in ("B 2", "B 3", "N 0"):
        calls += ["G %d" % (4 + i * 35 % 192) for i in range(192)]
        calls += ["C %d" % (4 + i * 47 % 192) for i in range(192)]
        calls += ["C 1", last]
    calls += ["U 196 %d %d 0" % (o, (BALANCE, READ)[o % 2]) for o in range(64)]
    calls += ["G %d" % t for t in range(197, 261)]
    return file_of(objects, calls)


class Chance:
    """Numbers that look random: a linear congruence, the same on every machine."""

    def __init__(self, seed):
        self.state = seed

    def below(self, n):
        self.state = (self.state * 6364136223846793005 + 1442695040888963407) % 2**64
        return (self.state >> 33) % n

    def of(self, choices):
        return choices[self.below(len(choices))]


WORKS = {"A": [BALANCE, DEPOSIT, WITHDRAW, WITHDRAW], "R": [READ, WRITE], "K": [ADJUST, ADJUST, COUNT], "S": [PUT, TAKE, LOOK]}
UNSIGNED = [0, 1, 5, 1000000, 1000001, 4294967295]
SIGNED = UNSIGNED + [-1, -5, -1000000, -1000001, -4294967295]
PARTS = [0, 1, 31, 32, 33, 4294967295, -1, -4294967295]


def mixed(seed, objects, reach, operations=7, arguments=UNSIGNED, amounts=20):
    """4,096 calls. Most are sensible where they stand, on one of the latest `reach` transactions, with one of so many amounts; some are
    anything at all, of so many operations and of these arguments."""
    chance, calls = Chance(seed), []
    store = Store()
    store.open([(text[0], int(text[2:])) for text in objects])

    def sensible():
        latest = range(max(1, len(store.transactions) - reach), len(store.transactions))
        alive = [t for t in latest if not store.finished(t) and not store.aborted_above(t)]
        plain = [t for t in alive if not store.transactions[t].is_access()]
        asked = [t for t in alive if store.transactions[t].is_access() and store.transactions[t].result is None]
        answered = [t for t in alive if store.transactions[t].result is not None]
        way = chance.below(40)
        if way < 14 and asked:
            return ("G", chance.of(asked))
        if way < 22 and answered:
            return ("C", chance.of(answered))
        if way < 26 and plain:
            return ("C", chance.of(plain))
        if way < 28 and alive:
            return ("B", chance.of(alive))
        if way < 29 and answered:
            return ("G", chance.of(answered))
        if way < 32:
            return ("N", chance.of(plain + [0]))
        o = chance.below(len(objects))
        operation = chance.of(WORKS[objects[o][0]])
        if operation in WHOLE:
            argument = 0
        elif operation == ADJUST:
            argument = chance.below(7) - 3
        elif operation in (PUT, TAKE, LOOK):
            argument = chance.of((0, 5, 31))
        else:
            argument = 1 + chance.below(amounts)
        return ("U", chance.of(plain + [0]), o, operation, argument)

    def anything():
        t = chance.below(len(store.transactions) + 3)
        if chance.below(3) == 0:
            return ("U", t, chance.below(len(objects) + 2), chance.below(operations), chance.of(arguments))
        return (chance.of("NGCB"), t)

    while len(calls) < 4096:
        fields = anything() if chance.below(8) == 0 else sensible()
        calls.append(" ".join(str(field) for field in fields))
        call(store, *fields)
    return file_of(objects, calls)


FILES = {
    "case-13": case_13(),
    "edge-4096-calls": calls_of_root(4096),
    "edge-4097-calls": calls_of_root(4097),
    "edge-65536-bytes": file_of_length(65536),
    "edge-65536-bytes-wrong-line": wrong_at_line(file_of_length(65536), 4099),
    "edge-65537-bytes": file_of_length(65537),
    "edge-65537-bytes-wrong-line": wrong_at_line(file_of_length(65537), 4),
    "edge-20000-digits": file_of(["A 10"], ["N 0", "N " + "1" * 20000]),
    "edge-largest-balance": largest_balance(),
    "edge-largest-count": furthest_count(1),
    "edge-least-count": furthest_count(-1),
    "edge-count-and-back": count_and_back(),
    "edge-bound-above": to_the_bound(1),
    "edge-bound-below": to_the_bound(-1),
    "edge-bin-every-two-parts": every_two_parts(),
    "edge-bin-in-and-out": in_and_out(),
    "edge-register-rewritten": rewritten(),
    "deep-commits": deep_commits(),
    "deep-full": deep_full(),
    "deep-work": deep_work(),
    "deep-bin": deep_bin(),
    "deep-register": deep_register(),
    "deep-abort": deep_abort(),
    "many-objects": many_objects(),
    "mixed-two-objects": mixed(1, ["A 10", "R 7"], 12),
    "mixed-eight-objects": mixed(9, ["A 10", "R 7", "A 0", "R 0", "A 1000000000", "R 1000000000", "A 30", "A 5"], 30),
    "mixed-counters": mixed(3, ["K -5", "A 10", "K 1000000000", "R 7", "K -1000000000"], 20, 9, SIGNED),
    "mixed-equal-numbers": mixed(12, ["R 1", "A 2", "R 2", "A 0", "R 3"], 16, amounts=3),
    "mixed-bins": mixed(10, ["S 2147483648", "A 10", "S 33", "R 7", "S 4294967295", "K -5"], 14, 12, PARTS),
}


def main():
    if len(sys.argv) != 2:
        sys.exit(__doc__)
    for name, text in FILES.items():
        with open(os.path.join(sys.argv[1], name), "w", newline="") as file:
            file.write(text)


if __name__ == "__main__":
    main()
