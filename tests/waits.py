"""Counts the responses that must wait, by the table of requests Q-2 and Q-3 and by two coarser ones.

    waits.py FILES SEED      from the project's folder; tests/waits calls it

Each load of bench/loads.py, and each random run file, is run once under each table.
"""

import collections
import multiprocessing
import sys

import generate
import loads
import reading

MUST_WAIT = 13
LOOKS = {"balance", "read", "count", "look 0", "look 1"}


def without_conditions(rows):
    """A table in which what conflicts for some numbers conflicts for all."""
    return {
        kind: {row: tuple("conflict" if entry.startswith("if") else entry for entry in entries) for row, entries in of_kind.items()}
        for kind, of_kind in rows.items()
    }


def locks(kind, one, other):
    """Plain locks: shared for one that looks, exclusive for any other, whatever it answers."""
    return not {one.answer_class, other.answer_class} <= LOOKS


TABLES = {
    "requests Q-2 and Q-3": reading.conflicts,
    "by class alone": reading.by_rows(without_conditions(reading.ROWS)),
    "read/write locks": locks,
}
HEAD = ["Run files", "Responses asked", *(f"Waits, {table}" for table in TABLES)]


def counted(data):
    """The responses that a run file asks for, and how many must wait under each table."""
    try:
        objects, calls = reading.read_run_file(data)
    except reading.BadFile:
        return collections.Counter()
    counts = collections.Counter()
    for table, conflicts in TABLES.items():
        _, *answers = reading.run(objects, calls, conflicts)
        counts[table] = sum(code == MUST_WAIT for code, _, _ in answers)
    counts["asked"] = sum(letter == "G" for (letter, *_), _ in zip(calls, answers))
    return counts


def counted_load(kind):
    text, _ = loads.load(kind, loads.SIZES[-1])
    return counted(text.encode("ascii"))


def counted_random(number):
    return counted(generate.run_file(number))


def line(label, counts):
    return f"| {label} | {counts['asked']:,} | {' | '.join(f'{counts[table]:,}' for table in TABLES)} |"


def main(files, seed):
    print(f"| {' | '.join(HEAD)} |\n|---|{'--:|' * (len(HEAD) - 1)}")
    with multiprocessing.Pool() as pool:
        for kind, counts in zip(loads.LOADS, pool.imap(counted_load, loads.LOADS)):
            print(line(f"load `{kind}`, {loads.SIZES[-1]:,} transactions", counts))
        numbers = range(seed * files, seed * files + files)
        total = sum(pool.imap(counted_random, numbers, 20), collections.Counter())
    print(line(f"{files:,} random", total))


if __name__ == "__main__":
    main(*map(int, sys.argv[1:]))
