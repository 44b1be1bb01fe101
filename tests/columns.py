"""A store as flat columns and as bytes, and the form rules of document 01 and requests Q-1 and Q-3.

from_bytes and to_bytes turn 29,298 bytes into Columns and back.  broken_rule
names the first form rule that columns break, each rule being one small
function, in the document's order.  A rule may lean on those before it.
store_of and columns_of go between columns in form and a reading.Store;
same_lists compares the two in everything the document speaks of.
"""

import struct

import reading

# ------------------------------------------------------------------- the bytes

MOST_OBJECTS = 64
MOST_TRANSACTIONS = 1_024
ROWS = MOST_TRANSACTIONS + 1  # row 0 is the root's

# Field -> how many entries and struct's letter for one; in the order of the bytes.
FIELDS = {
    "objects": (1, "Q"),
    "kind": (MOST_OBJECTS, "B"),
    "opening": (MOST_OBJECTS, "q"),
    "count": (1, "Q"),
    "parent": (ROWS, "H"),
    "state": (ROWS, "B"),
    "object": (ROWS, "B"),
    "operation": (ROWS, "B"),
    "argument": (ROWS, "q"),
    "outcome": (ROWS, "B"),
    "value": (ROWS, "q"),
    "listed": (1, "Q"),
    "order": (MOST_TRANSACTIONS, "H"),
    "holder": (ROWS, "H"),
    "place": (ROWS, "H"),
}
NUMBERS = ("objects", "count", "listed")  # the fields that are no columns
PER_OBJECT = ("kind", "opening")
PER_TRANSACTION = tuple(name for name, (entries, _) in FIELDS.items() if entries == ROWS)

SHAPES = {name: struct.Struct(f"<{entries}{letter}") for name, (entries, letter) in FIELDS.items()}
SIZE = sum(shape.size for shape in SHAPES.values())
assert SIZE == 29_298


class Columns:
    """The fields of a store: three ints, the rest lists.  New: no objects, no transactions."""

    def __init__(self):
        for name, (entries, _) in FIELDS.items():
            setattr(self, name, 0 if name in NUMBERS else [0] * entries)

    def copy(self):
        other = Columns()
        for name in FIELDS:
            value = getattr(self, name)
            setattr(other, name, value if name in NUMBERS else list(value))
        return other

    def __eq__(self, other):
        return vars(self) == vars(other)


def from_bytes(data):
    """The columns that 29,298 bytes spell."""
    if len(data) != SIZE:
        raise ValueError(f"{len(data)} bytes, not {SIZE}")
    columns, at = Columns(), 0
    for name, shape in SHAPES.items():
        entries = shape.unpack_from(data, at)
        setattr(columns, name, entries[0] if name in NUMBERS else list(entries))
        at += shape.size
    return columns


def to_bytes(columns):
    """The 29,298 bytes of columns."""
    parts = []
    for name, shape in SHAPES.items():
        value = getattr(columns, name)
        parts.append(shape.pack(value) if name in NUMBERS else shape.pack(*value))
    return b"".join(parts)


# -------------------------------------------------------------- what rows mean

LARGEST_BALANCE = 2_024_000_000
LARGEST_REGISTER = 1_000_000_000
LARGEST_COUNT = 2_024_000_000  # and as far below 0
STATES = {0: "open", 1: "committed", 2: "aborted"}
FAIL, OK, VALUE = 1, 2, 3  # outcomes: the answer's a plus 1

# Operation -> outcome -> lowest and highest value.
RESULTS = {
    reading.BALANCE: {VALUE: (0, LARGEST_BALANCE)},
    reading.DEPOSIT: {OK: (0, 0)},
    reading.WITHDRAW: {OK: (0, 0), FAIL: (0, 0)},
    reading.READ: {VALUE: (0, LARGEST_REGISTER)},
    reading.WRITE: {OK: (0, 0)},
    reading.ADJUST: {OK: (0, 0)},
    reading.COUNT: {VALUE: (-LARGEST_COUNT, LARGEST_COUNT)},
    reading.PUT: {OK: (0, 0), FAIL: (0, 0)},
    reading.TAKE: {OK: (0, 0), FAIL: (0, 0)},
    reading.LOOK: {VALUE: (0, 1)},
}


def transactions(c):
    return range(1, c.count + 1)


def is_access(c, t):
    """Whether t is an access; the root is none, whatever stands in row 0."""
    return t != reading.ROOT and c.operation[t] != 0


def plains(c):
    return [t for t in transactions(c) if not is_access(c, t)]


def accesses(c):
    return [t for t in transactions(c) if is_access(c, t)]


def answered(c):
    return [t for t in accesses(c) if c.outcome[t] != 0]


def unanswered(c):
    return [t for t in accesses(c) if c.outcome[t] == 0]


def kind_of(c, object):
    return chr(c.kind[object])


def at_or_above(c):
    """Per transaction, those at or above it, as the bits of a number."""
    bits = [1]
    for t in transactions(c):
        bits.append(bits[c.parent[t]] | 1 << t)
    return bits


# -------------------------------------------------------------- the form rules


def objects_in_limit(c):
    return 0 <= c.objects <= MOST_OBJECTS


def transactions_in_limit(c):
    return 0 <= c.count <= MOST_TRANSACTIONS


def kinds_known(c):
    return all(kind_of(c, o) in reading.OPENINGS for o in range(c.objects))


def openings_in_range(c):
    return all(reading.within(c.opening[o], reading.OPENINGS[kind_of(c, o)]) for o in range(c.objects))


def parents_lower(c):
    return all(c.parent[t] < t for t in transactions(c))


def parents_plain(c):
    return all(not is_access(c, c.parent[t]) for t in transactions(c))


def fits(c, t):
    if not c.object[t] < c.objects:
        return False
    arguments = reading.OPERATIONS[kind_of(c, c.object[t])].get(c.operation[t])
    return arguments is not None and reading.within(c.argument[t], arguments)


def accesses_fit(c):
    return all(fits(c, t) for t in accesses(c))


def states_known(c):
    return all(c.state[t] in STATES for t in transactions(c))


def result_allowed(c, t):
    values = RESULTS[c.operation[t]].get(c.outcome[t])
    return values is not None and reading.within(c.value[t], values)


def results_allowed(c):
    return all(result_allowed(c, t) for t in answered(c))


def lists_at_or_above(c):
    bits = at_or_above(c)
    return all(c.place[t] == 0 or bits[t] >> c.holder[t] & 1 for t in answered(c))


def unanswered_bare(c):
    return all(c.value[t] == 0 and c.place[t] == 0 for t in unanswered(c))


def one_order(c):
    """The places of the listed accesses are 1, 2, 3 up to how many are listed, and `order` says the same."""
    on_lists = [t for t in accesses(c) if c.place[t] != 0]
    places = sorted(c.place[t] for t in on_lists)
    return c.listed == len(on_lists) and places == list(range(1, c.listed + 1)) and all(c.order[c.place[t] - 1] == t for t in on_lists)


def unused_zero(c):
    past_objects = [entry for name in PER_OBJECT for entry in getattr(c, name)[c.objects:]]
    root = [getattr(c, name)[0] for name in PER_TRANSACTION]
    past_transactions = [entry for name in PER_TRANSACTION for entry in getattr(c, name)[c.count + 1:]]
    of_plains = [column[t] for column in (c.object, c.argument, c.outcome, c.value, c.holder, c.place) for t in plains(c)]
    off_lists = [c.holder[t] for t in accesses(c) if c.place[t] == 0]
    past_listed = c.order[c.listed:]
    return not any(map(any, (past_objects, root, past_transactions, of_plains, off_lists, past_listed)))


OBJECTS = "0 to 64 objects"
TRANSACTIONS = "0 to 1,024 transactions"
KIND = "each object's kind known"
OPENING = "each object's opening in range"
PARENT_LOWER = "each parent's number lower than the child's"
PARENT_PLAIN = "a parent never an access"
WORK = "object, operation and argument of an access fit"
STATE = "each transaction open, committed or aborted"
RESULT = "an answered access has a result of a shape its operation allows"
LIST = "an answered access is on the list of a transaction at or above it, or on none"
UNANSWERED = "an unanswered access has no result and is on no list"
ORDER = "what is kept of a list's order gives exactly one order"
UNUSED = "unused entries and fields are zero"

RULES = {
    OBJECTS: objects_in_limit,
    TRANSACTIONS: transactions_in_limit,
    KIND: kinds_known,
    OPENING: openings_in_range,
    PARENT_LOWER: parents_lower,
    PARENT_PLAIN: parents_plain,
    WORK: accesses_fit,
    STATE: states_known,
    RESULT: results_allowed,
    LIST: lists_at_or_above,
    UNANSWERED: unanswered_bare,
    ORDER: one_order,
    UNUSED: unused_zero,
}


def broken_rule(columns):
    """The name of the first form rule that the store breaks, or None."""
    for name, holds in RULES.items():
        if not holds(columns):
            return name
    return None


# ------------------------------------------------------- between the two forms


def store_of(columns):
    """The reading.Store that columns in form keep."""
    c, store = columns, reading.Store()
    store.objects = [(kind_of(c, o), c.opening[o]) for o in range(c.objects)]
    store.transactions = [reading.Transaction(None, None, c.objects)]
    for t in transactions(c):
        work = (c.object[t], c.operation[t], c.argument[t]) if is_access(c, t) else None
        transaction = reading.Transaction(c.parent[t], work, c.objects)
        transaction.state = STATES[c.state[t]]
        if c.outcome[t] != 0:
            transaction.result = (c.outcome[t] - 1, c.value[t])
        store.transactions.append(transaction)
    for t in c.order[:c.listed]:
        store.transactions[c.holder[t]].lists[c.object[t]].append(t)
    return store


def one_after_another(lists):
    """All lists together: a holder's after those of the holders before it."""
    return [entry for entries in lists for entry in entries]


def interleaved(random):
    """A way to put all lists together that mixes them, each keeping its own order."""

    def mixed(lists):
        turns = [index for index, entries in enumerate(lists) for _ in entries]
        random.shuffle(turns)
        rest = [iter(entries) for entries in lists]
        return [next(rest[index]) for index in turns]

    return mixed


def columns_of(store, together=one_after_another):
    """Columns that keep a store.  The document leaves open how lists stand together in `order`: `together` chooses."""
    c, numbers = Columns(), {name: number for number, name in STATES.items()}
    c.objects, c.count = len(store.objects), len(store.transactions) - 1
    for o, (kind, opening) in enumerate(store.objects):
        c.kind[o], c.opening[o] = ord(kind), opening
    for t in transactions(c):
        transaction = store.transactions[t]
        c.parent[t], c.state[t] = transaction.parent, numbers[transaction.state]
        if transaction.is_access():
            c.object[t], c.operation[t], c.argument[t] = transaction.object, transaction.operation, transaction.argument
        if transaction.result is not None:
            a, b = transaction.result
            c.outcome[t], c.value[t] = a + 1, b
    holders = {t: holder for holder, transaction in enumerate(store.transactions) for entries in transaction.lists for t in entries}
    order = together([entries for transaction in store.transactions for entries in transaction.lists])
    c.listed = len(order)
    for place, t in enumerate(order, start=1):
        c.order[place - 1], c.place[t], c.holder[t] = t, place, holders[t]
    return c


def contents(store):
    """Everything the document speaks of in a reading.Store, to be compared; empty lists left out."""
    rows = [
        (
            transaction.parent,
            transaction.state,
            (transaction.object, transaction.operation, transaction.argument),
            transaction.result,
            [(o, entries) for o, entries in enumerate(transaction.lists) if entries],
        )
        for transaction in store.transactions
    ]
    return [tuple(object) for object in store.objects], rows


def same_lists(columns, store):
    """Whether columns are in form and keep this store: objects, transactions, states, results and each list in order."""
    return broken_rule(columns) is None and contents(store_of(columns)) == contents(store)
