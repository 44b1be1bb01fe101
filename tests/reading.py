#!/usr/bin/env python3
"""An independent reading of document 01 and requests Q-1, Q-2 and Q-3: the lock store and its runner.

    reading.py < FILE      prints what the runner prints on FILE
    reading.py FILE ...    prints, for each file, its base name and then that

It is written from these alone and as literally as they allow:
a list of work is a Python list, a view is those lists joined from the root
down, refusals are tried in the document's order, a table stands as a table.

Imported, it runs nothing.  printed(data) is the whole program from bytes to
text; read_run_file, run and Store are its parts.  run and Store take another
table than the requests' where one is handed to them.
"""

import collections
import os
import re
import sys

# ---------------------------------------------------------------- the run file

LONGEST_FILE = 65_536
MOST_OBJECTS = 64
MOST_CALLS = 4_096
LARGEST_NUMBER = 4_294_967_295


class BadFile(Exception):
    """The file breaks the form; `line` is the L of `16 L 0`."""

    def __init__(self, line):
        super().__init__(f"bad file, line {line}")
        self.line = line


def number(field):
    """The number that a field spells, or None if it spells none."""
    # Ten digits at most, so that int() never meets a field of thousands.
    if not re.fullmatch(rb"0|[1-9][0-9]{0,9}", field):
        return None
    value = int(field)
    return value if value <= LARGEST_NUMBER else None


def signed(field):
    """The number that an opening or an argument spells, a minus allowed but never before 0; or None."""
    if not field.startswith(b"-"):
        return number(field)
    size = number(field[1:])
    return -size if size else None


# Letter -> what reads each of the fields that follow it.
OBJECT_LETTERS = {b"A": (signed,), b"R": (signed,), b"K": (signed,), b"S": (signed,)}
CALL_LETTERS = {
    b"N": (number,),
    b"U": (number, number, number, signed),
    b"G": (number,),
    b"C": (number,),
    b"B": (number,),
}


def count_line(line, limit):
    """The count on a line, or None if the line is wrong."""
    value = number(line)
    return value if value is not None and value <= limit else None


def letter_line(line, letters):
    """(letter, number, ...) from a line, or None if the line is wrong."""
    letter, *fields = line.split(b" ")
    readers = letters.get(letter)
    if readers is None or len(readers) != len(fields):
        return None
    numbers = [read(field) for read, field in zip(readers, fields)]
    return None if None in numbers else (letter.decode("ascii"), *numbers)


def read_run_file(data):
    """(objects, calls) of a run file; raises BadFile."""
    if len(data) > LONGEST_FILE:
        raise BadFile(0)
    *lines, rest = data.split(b"\n")  # rest: the bytes after the last LF
    taken = 0

    def take(reader, what):
        nonlocal taken
        taken += 1
        if taken > len(lines):  # missing, or not ended by LF
            raise BadFile(taken)
        value = reader(lines[taken - 1], what)
        if value is None:
            raise BadFile(taken)
        return value

    object_count = take(count_line, MOST_OBJECTS)
    objects = [take(letter_line, OBJECT_LETTERS) for _ in range(object_count)]
    call_count = take(count_line, MOST_CALLS)
    calls = [take(letter_line, CALL_LETTERS) for _ in range(call_count)]
    if taken < len(lines) or rest:
        raise BadFile(taken + 1)
    return objects, calls


# --------------------------------------------------------- objects and numbers

BALANCE, DEPOSIT, WITHDRAW, READ, WRITE, ADJUST, COUNT, PUT, TAKE, LOOK = range(1, 11)
WHOLE = (BALANCE, READ, COUNT)  # these answer the whole state

# Kind -> lowest and highest opening.
OPENINGS = {
    "A": (0, 1_000_000_000),
    "R": (0, 1_000_000_000),
    "K": (-1_000_000_000, 1_000_000_000),
    "S": (0, 4_294_967_295),
}

PARTS = (0, 31)  # lowest and highest

# Kind -> operation -> lowest and highest argument.
OPERATIONS = {
    "A": {BALANCE: (0, 0), DEPOSIT: (1, 1_000_000), WITHDRAW: (1, 1_000_000)},
    "R": {READ: (0, 0), WRITE: (0, 1_000_000_000)},
    "K": {ADJUST: (-1_000_000, 1_000_000), COUNT: (0, 0)},
    "S": {PUT: PARTS, TAKE: PARTS, LOOK: PARTS},
}

# A result is the a, b of an answered response.
OK = (1, 0)
FAIL = (0, 0)


def value_of(state):
    return (2, state)


def within(value, limits):
    lowest, highest = limits
    return lowest <= value <= highest


def is_in(state, part):
    """Whether a bin of this state has this part, which its binary digits say."""
    return state // 2**part % 2 == 1


def serial(state, operation, argument):
    """The serial object: (result, state after)."""
    if operation in WHOLE:
        return value_of(state), state
    if operation in (DEPOSIT, ADJUST):
        return OK, state + argument
    if operation == WITHDRAW:
        return (OK, state - argument) if state >= argument else (FAIL, state)
    if operation == WRITE:
        return OK, argument
    if operation == PUT:
        return (FAIL, state) if is_in(state, argument) else (OK, state + 2**argument)
    if operation == TAKE:
        return (OK, state - 2**argument) if is_in(state, argument) else (FAIL, state)
    if operation == LOOK:
        return value_of(1 if is_in(state, argument) else 0), state
    raise ValueError(operation)


# ---------------------------------------------------------- the conflict table

# Operation and a of its result -> class of answer; an adjustment by 0 is a class of its own, and so is each answer of a look.
CLASSES = {
    (BALANCE, 2): "balance",
    (DEPOSIT, 1): "deposit",
    (WITHDRAW, 1): "withdraw OK",
    (WITHDRAW, 0): "withdraw FAIL",
    (READ, 2): "read",
    (WRITE, 1): "write",
    (ADJUST, 1): "adjust",
    (COUNT, 2): "count",
    (PUT, 1): "put OK",
    (PUT, 0): "put FAIL",
    (TAKE, 1): "take OK",
    (TAKE, 0): "take FAIL",
}

COLUMNS = {
    "A": ("balance", "deposit", "withdraw OK", "withdraw FAIL"),
    "R": ("read", "write"),
    "K": ("adjust", "adjust by 0", "count"),
    "S": ("put OK", "take FAIL", "look 0", "take OK", "put FAIL", "look 1"),
}

# "if" entries: conflict if the row's number stands so to the column's.
ROWS = {
    "A": {
        "balance":       ("pass",     "conflict", "if >=",    "pass"),
        "deposit":       ("conflict", "pass",     "pass",     "conflict"),
        "withdraw OK":   ("if <=",    "pass",     "conflict", "pass"),
        "withdraw FAIL": ("pass",     "conflict", "pass",     "pass"),
    },
    "R": {
        "read":  ("pass",  "if !="),
        "write": ("if !=", "if !="),
    },
    "K": {
        "adjust":      ("pass",     "pass", "conflict"),
        "adjust by 0": ("pass",     "pass", "pass"),
        "count":       ("conflict", "pass", "pass"),
    },
    # The first three need the part out, the others need it in; the first of each changes that.
    "S": {
        "put OK":    ("if ==", "if ==", "if ==", "pass",  "pass",  "pass"),
        "take FAIL": ("if ==", "pass",  "pass",  "pass",  "pass",  "pass"),
        "look 0":    ("if ==", "pass",  "pass",  "pass",  "pass",  "pass"),
        "take OK":   ("pass",  "pass",  "pass",  "if ==", "if ==", "if =="),
        "put FAIL":  ("pass",  "pass",  "pass",  "if ==", "pass",  "pass"),
        "look 1":    ("pass",  "pass",  "pass",  "if ==", "pass",  "pass"),
    },
}

ENTRIES = {
    "pass": lambda row, column: False,
    "conflict": lambda row, column: True,
    "if ==": lambda row, column: row == column,
    "if !=": lambda row, column: row != column,
    "if >=": lambda row, column: row >= column,
    "if <=": lambda row, column: row <= column,
}

# What a table judges; the number is the value of a balance, a read or a count, and the argument of anything else, a look's part too.
Answered = collections.namedtuple("Answered", "answer_class number")


def class_of(access, result):
    """The class of this access's answer, if the result is this."""
    a, b = result
    if (access.operation, access.argument) == (ADJUST, 0):
        return "adjust by 0"
    if access.operation == LOOK:
        return f"look {b}"
    return CLASSES[access.operation, a]


def answered(access, result):
    """This access with its answer, if the result is this."""
    _, b = result
    return Answered(class_of(access, result), b if access.operation in WHOLE else access.argument)


def by_rows(rows):
    """What tells by the rows of a table whether two answers on an object of a kind conflict."""

    def conflicts(kind, one, other):
        entry = rows[kind][one.answer_class][COLUMNS[kind].index(other.answer_class)]
        return ENTRIES[entry](one.number, other.number)

    return conflicts


conflicts = by_rows(ROWS)


# ------------------------------------------------------------------- the store

ROOT = 0
MOST_TRANSACTIONS = 1_024


class Transaction:
    """One of the tree; an access if it has an object."""

    def __init__(self, parent, work, object_count):
        self.parent = parent
        self.object, self.operation, self.argument = work or (None, None, None)
        self.state = "open"  # then "committed" or "aborted"
        self.result = None  # of an answered access
        self.lists = [[] for _ in range(object_count)]  # per object: accesses

    def is_access(self):
        return self.object is not None


class Store:
    """The store.  Each call changes it in place and returns (code, a, b).

    Code 15 has no place here: only the calls below make a store, and none of
    them breaks a form rule.
    """

    def __init__(self, conflicts=conflicts):
        self.conflicts = conflicts
        self.objects = []  # (kind, opening)
        self.transactions = [Transaction(None, None, 0)]  # by number; the root

    # The tree.

    def exists(self, t):
        return t < len(self.transactions)

    def path(self, t):
        """The transactions at or above t, from t up to the root."""
        path = []
        while t is not None:
            path.append(t)
            t = self.transactions[t].parent
        return path

    def finished(self, t):
        return self.transactions[t].state != "open"

    def aborted_above(self, t):
        return any(self.transactions[u].state == "aborted" for u in self.path(t)[1:])

    def open_children(self, t):
        return [
            child
            for child, transaction in enumerate(self.transactions)
            if transaction.parent == t and transaction.state == "open"
        ]

    def at_or_beneath(self, t):
        """t and all beneath it; one pass will do, a parent's number is lower."""
        found = {t}
        for child, transaction in enumerate(self.transactions):
            if transaction.parent in found:
                found.add(child)
        return found

    # Views and waiting.

    def view(self, t, object):
        """The answered accesses that t sees on an object, in order."""
        view = []
        for u in reversed(self.path(t)):
            view = view + self.transactions[u].lists[object]
        return view

    def result_of(self, t):
        """The result that access t would get now."""
        access = self.transactions[t]
        _, state = self.objects[access.object]
        for seen in self.view(t, access.object):
            done = self.transactions[seen]
            _, state = serial(state, done.operation, done.argument)
        result, _ = serial(state, access.operation, access.argument)
        return result

    def waits_for(self, t, result):
        """(access, holder) of all that conflict with access t and this result."""
        asking = self.transactions[t]
        kind, _ = self.objects[asking.object]
        asked = answered(asking, result)
        at_or_above = set(self.path(t))
        found = []
        for holder, transaction in enumerate(self.transactions):
            if holder in at_or_above:
                continue
            for held in transaction.lists[asking.object]:
                done = self.transactions[held]
                if self.conflicts(kind, answered(done, done.result), asked):
                    found.append((held, holder))
        return found

    # The calls.

    def open(self, objects):
        """Opens this store anew on a list of (kind, opening)."""
        self.__init__(self.conflicts)
        if not 1 <= len(objects) <= MOST_OBJECTS:
            return 14, 0, 0
        for kind, opening in objects:
            if kind not in OPENINGS or not within(opening, OPENINGS[kind]):
                return 14, 0, 0
        self.objects = list(objects)
        self.transactions = [Transaction(None, None, len(objects))]
        return 0, len(objects), 0

    def create(self, parent, work=None):
        """Creates a plain transaction or, from (object, operation, argument),
        an access."""
        if not self.exists(parent):
            return 1, 0, 0
        if self.transactions[parent].is_access():
            return 3, 0, 0
        if self.finished(parent):
            return 4, 0, 0
        if self.aborted_above(parent):
            return 5, 0, 0
        if work is not None:
            object, operation, argument = work
            if not object < len(self.objects):
                return 6, 0, 0
            kind, _ = self.objects[object]
            arguments = OPERATIONS[kind].get(operation)
            if arguments is None or not within(argument, arguments):
                return 7, 0, 0
        new = len(self.transactions)
        if new > MOST_TRANSACTIONS:
            return 8, 0, 0
        self.transactions.append(Transaction(parent, work, len(self.objects)))
        return 0, new, 0

    def respond(self, t):
        if not self.exists(t):
            return 1, 0, 0
        if t == ROOT:
            return 2, 0, 0
        access = self.transactions[t]
        if not access.is_access():
            return 9, 0, 0
        if self.finished(t):
            return 4, 0, 0
        if self.aborted_above(t):
            return 5, 0, 0
        if access.result is not None:
            return 10, 0, 0
        result = self.result_of(t)
        found = self.waits_for(t, result)
        if found:
            held, holder = min(found)
            return 13, holder, held
        access.result = result
        access.lists[access.object].append(t)
        return 0, *result

    def commit(self, t):
        if not self.exists(t):
            return 1, 0, 0
        if t == ROOT:
            return 2, 0, 0
        transaction = self.transactions[t]
        if self.finished(t):
            return 4, 0, 0
        if self.aborted_above(t):
            return 5, 0, 0
        if not transaction.is_access():
            children = self.open_children(t)
            if children:
                return 11, min(children), 0
        elif transaction.result is None:
            return 12, 0, 0
        transaction.state = "committed"
        parent = self.transactions[transaction.parent]
        for object in range(len(self.objects)):
            parent.lists[object].extend(transaction.lists[object])
            transaction.lists[object].clear()
        return 0, t, 0

    def abort(self, t):
        if not self.exists(t):
            return 1, 0, 0
        if t == ROOT:
            return 2, 0, 0
        if self.finished(t):
            return 4, 0, 0
        if self.aborted_above(t):
            return 5, 0, 0
        self.transactions[t].state = "aborted"
        for u in self.at_or_beneath(t):
            for work in self.transactions[u].lists:
                work.clear()
        return 0, t, 0


# ------------------------------------------------------------------ the runner


def call(store, letter, *numbers):
    """Makes one call of a run file on the store."""
    if letter == "N":
        return store.create(*numbers)
    if letter == "U":
        parent, *work = numbers
        return store.create(parent, work)
    if letter == "G":
        return store.respond(*numbers)
    if letter == "C":
        return store.commit(*numbers)
    if letter == "B":
        return store.abort(*numbers)
    raise ValueError(letter)


def run(objects, calls, conflicts=conflicts):
    """The answers to the opening and then, unless it is refused, to each call."""
    store = Store(conflicts)
    answers = [store.open(objects)]
    if answers[0][0] == 0:
        answers += [call(store, *fields) for fields in calls]
    return answers


def printed(data: bytes) -> str:
    """What the runner prints on a file of these bytes."""
    try:
        objects, calls = read_run_file(data)
    except BadFile as bad:
        return f"16 {bad.line} 0\n"
    return "".join(f"{code} {a} {b}\n" for code, a, b in run(objects, calls))


def main(files):
    if not files:
        sys.stdout.write(printed(sys.stdin.buffer.read()))
    for file in files:
        with open(file, "rb") as handle:
            sys.stdout.write(os.path.basename(file) + "\n" + printed(handle.read()))


if __name__ == "__main__":
    main(sys.argv[1:])
