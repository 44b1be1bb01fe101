"""Holds the proved programs against the second reading of document 01 and requests Q-1, Q-2 and Q-3.

    compare.py FILES SEED      from the project's folder; tests/compare calls it

Run files go through the program `suite`, byte by byte as reading.py prints.
Stores go as bytes through the program `probe`, each with calls on it.  One out
of form is refused with 15, whatever the call; one in form is answered as
reading.py answers, and what is handed back keeps the same lists, in form.  A
refused call hands back the bytes that came.

Stops at the first difference, and keeps it below target/.
"""

import collections
import itertools
import multiprocessing
import pathlib
import random
import struct
import subprocess
import sys
import tempfile
import time

import columns
import damage
import generate
import reading
import stores

KEPT = pathlib.Path("target")


class Difference(Exception):
    """Its arguments: a text, and what to keep, by the ending of its file's name."""

    def keep(self):
        text, kept = self.args
        lines = [f"tests/compare: a difference: {text}"]
        for ending, data in kept.items():
            path = KEPT / f"difference.{ending}"
            path.write_bytes(data)
            lines.append(f"  {path}")
        return "\n".join(lines)


def built(program, *words, data=b""):
    """What a program of crates/ writes; run as the scripts run it, on any processor."""
    run = ["sh", "-c", '. bin/kit.sh; run_built "$@"', "sh", program, *words]
    return subprocess.run(run, input=data, stdout=subprocess.PIPE, check=False).stdout


def batches(of, size):
    """The entries of an iterable, so many at a time."""
    entries = iter(of)
    while batch := list(itertools.islice(entries, size)):
        yield batch


# ------------------------------------------------------------------ run files

FILES_AT_ONCE = 100


def run_file(number):
    """The run file of a number; every third is the one before it, damaged."""
    if number % 3 == 2:
        return damage.damaged(generate.run_file(number - 1), number)
    return generate.run_file(number)


def compare_file(path, expected):
    came = built("suite", path).removeprefix(f"{path}\n".encode())
    if came != expected:
        raise Difference("a run file", {"run": pathlib.Path(path).read_bytes(), "expected": expected, "came": came})


def compare_files(numbers):
    """Compares a batch; counts the files, and the answers by their code."""
    with tempfile.TemporaryDirectory() as room:
        expected = {}
        for number in numbers:
            data, path = run_file(number), f"{room}/{number}"
            pathlib.Path(path).write_bytes(data)
            expected[path] = reading.printed(data).encode()
        whole = b"".join(path.encode() + b"\n" + text for path, text in expected.items())
        came = built("suite", *expected)
        if came != whole:
            for path, text in expected.items():
                compare_file(path, text)
            raise Difference(f"run files {numbers[0]} to {numbers[-1]} together, and none of them alone", {"expected": whole, "came": came})
    codes = collections.Counter(int(line.split(b" ", 1)[0]) for text in expected.values() for line in text.splitlines())
    return collections.Counter(files=len(numbers), damaged=sum(number % 3 == 2 for number in numbers)), codes


# --------------------------------------------------------------------- stores

STORES_AT_ONCE = 25
CALL = struct.Struct("<cIIIq")
ANSWER = struct.Struct("<IIq")
REPLY = ANSWER.size + columns.SIZE
OUT_OF_FORM = (15, 0, 0)


def record(store, call):
    """A store and a call as the program reads them; an access's argument may be of any sign."""
    letter, *numbers = call
    t, object, operation, argument = (*numbers, 0, 0, 0)[:4]
    return store + CALL.pack(letter.encode(), t, object, operation, argument)


def some_work(c, chance):
    """Object, operation and argument of an access: mostly such as fit."""
    object = chance.randrange(min(c.objects, 64) or 1)
    operations = reading.OPERATIONS.get(columns.kind_of(c, object), reading.OPERATIONS["A"])
    operation = chance.choice(list(operations))
    lowest, highest = operations[operation]
    argument = chance.choice((lowest, (lowest + highest) // 2, highest))  # the middle of an adjustment is 0
    if chance.random() < 0.3:
        object = chance.choice((object, c.objects, c.objects + 1, 64, 256 + object, 2**32 - 1)) % 2**32
        operation = chance.choice((operation, chance.randrange(12), 256 + operation, 2**32 - 1))
        argument = chance.choice((argument, argument - 1, argument + 1, -(2**63), 2**63 - 1))
    return object, operation, argument


def likely(c):
    """For each call, the transactions on which it is likely to be accepted."""
    rows = range(1, min(c.count, columns.MOST_TRANSACTIONS) + 1)
    opens = [t for t in rows if c.state[t] == 0]
    above_opens = {c.parent[t] for t in opens}
    plains = [0] + [t for t in opens if c.operation[t] == 0]
    unanswered = [t for t in opens if c.operation[t] != 0 and c.outcome[t] == 0]
    ready = [t for t in opens if t not in above_opens and (c.operation[t] == 0 or c.outcome[t] != 0)]
    return {"N": plains, "U": plains, "G": unanswered, "C": ready, "B": opens}


def some_calls(c, chance, many):
    """So many calls: first one of each letter that is likely to be accepted, in any order, then any."""
    targets = likely(c)
    first = [letter for letter in targets if targets[letter]]
    chance.shuffle(first)
    rows = range(min(c.count, columns.MOST_TRANSACTIONS) + 1)
    beside = (0, c.count, c.count + 1, columns.ROWS, 2**16 + c.count, 2**32 - 1)
    for turn in range(many):
        letter = first[turn] if turn < len(first) else chance.choice("NUGCB")
        others = chance.choice((targets[letter] or rows, rows, beside))
        t = chance.choice(targets[letter] if turn < len(first) else others) % 2**32
        yield (letter, t, *some_work(c, chance)) if letter == "U" else (letter, t)


def calls_on(name, c, rule):
    """Few on one out of form, since all are refused; some of each letter on one in form, and more where calls have made it.
    Where calls have made it, where held numbers stand around those that are asked, and where the steps of a view stand in every order:
    who asks, asks."""
    group = name.split(" | ")[1]
    asks = [("G", t) for t in stores.asking(c)] if group in ("start", "number", "view") else []
    many = {"start": 40, "number": 0, "view": 0, "sweep": 1}.get(group, 2 if rule else 8)
    return asks + list(some_calls(c, random.Random(name), many))


def judged(data, rule, call, reply):
    """The answer that is expected, and what is wrong with the reply, or None."""
    store = None if rule else columns.store_of(columns.from_bytes(data))
    expected = OUT_OF_FORM if rule else reading.call(store, *call)
    return expected, wrong_with(reply, data, expected, store)


def wrong_with(reply, data, expected, store):
    """What is wrong with a reply to a call on the store of these bytes, if the answer and the store after it are to be these."""
    if len(reply) != REPLY:
        return "no reply"
    answer, after = ANSWER.unpack_from(reply), reply[ANSWER.size:]
    if answer != expected:
        return f"expected {expected}, came {answer}"
    if expected[0] != 0:
        return None if after == data else "a refused call changed the store"
    back = columns.from_bytes(after)
    broken = columns.broken_rule(back)
    if broken:
        return f"the store handed back breaks a form rule: {broken}"
    return None if columns.same_lists(back, store) else "the store handed back does not hold what it should"


def compare_stores(batch):
    """Compares a batch; counts the stores, and the answers by their code."""
    asked = [(name, data, rule, call) for name, data, rule in batch for call in calls_on(name, columns.from_bytes(data), rule)]
    came = built("probe", data=b"".join(record(data, call) for _, data, _, call in asked))
    codes = collections.Counter()
    for place, (name, data, rule, call) in enumerate(asked):
        reply = came[place * REPLY:(place + 1) * REPLY]
        expected, wrong = judged(data, rule, call, reply)
        if wrong:
            answer = "{} {} {}\n".format(*expected).encode()
            text = f"store '{name}' ({rule or 'in form'}), call {call}: {wrong}"
            raise Difference(text, {"record": record(data, call), "expected": answer, "came": reply})
        codes[expected[0]] += 1
    rules = collections.Counter(rule for _, _, rule in batch if rule)
    return collections.Counter(stores=len(batch), broken=rules.total(), calls=len(asked), **rules), codes


# ----------------------------------------------------------------------- both


class Progress:
    """On a terminal a line that is written anew; else a line every half minute."""

    def __init__(self):
        self.rewrites = sys.stderr.isatty()
        self.last = time.monotonic()

    def show(self, counts):
        text = f"tests/compare: {counts['files']:,} run files, {counts['stores']:,} stores"
        if self.rewrites:
            sys.stderr.write(f"\r{text}")
        elif time.monotonic() - self.last > 30:
            self.last = time.monotonic()
            sys.stderr.write(f"{text}\n")
        sys.stderr.flush()

    def end(self):
        if self.rewrites:
            sys.stderr.write("\r\033[K")


def compare(task):
    compare_batch, batch = task
    try:
        return compare_batch(batch)
    except Difference as difference:
        return difference


def tasks(files, seed):
    numbers = range(seed * 3_000_000, seed * 3_000_000 + files)
    for batch in batches(itertools.chain(stores.stores(), stores.sweep()), STORES_AT_ONCE):
        yield compare_stores, batch
    for batch in batches(numbers, FILES_AT_ONCE):
        yield compare_files, batch


def report(counts, codes):
    rules = sum(1 for rule in columns.RULES if counts[rule])
    print(
        f"tests/compare: {counts['files']:,} run files ({counts['damaged']:,} damaged) and {counts['calls']:,} calls on {counts['stores']:,} stores "
        f"({counts['broken']:,} out of form, by {rules} of {len(columns.RULES)} rules), no difference"
    )
    print("answers by code:", ", ".join(f"{code}: {many:,}" for code, many in sorted(codes.items())))


def main(files, seed):
    counts, codes, progress = collections.Counter(), collections.Counter(), Progress()
    with multiprocessing.Pool() as pool:
        for result in pool.imap(compare, tasks(files, seed)):
            if isinstance(result, Difference):
                progress.end()
                sys.exit(result.keep())
            counts.update(result[0])
            codes.update(result[1])
            progress.show(counts)
    progress.end()
    report(counts, codes)


if __name__ == "__main__":
    main(*map(int, sys.argv[1:]))
