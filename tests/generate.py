#!/usr/bin/env python3
"""Random run files that mean something.

    generate.py SEED      prints one file

run_file(seed) makes a file of one of the SHAPES; shape_of(seed) names it.
While a file is made, a reading.Store takes each call, so that most calls are
accepted ones and those that are refused are refused for a chosen reason.
"""

import random
import sys

import damage
import reading

LONGEST_FILE = reading.LONGEST_FILE
LARGEST = reading.LARGEST_NUMBER


class Enough(Exception):
    """The file has as many calls or bytes as it may have; `maker` has it."""

    def __init__(self, maker):
        super().__init__()
        self.maker = maker


class Maker:
    """A file being made: its lines, the store they lead to, and what is open in it with nothing aborted above."""

    def __init__(self, chance, objects, most_calls=4_096):
        self.chance, self.objects, self.most_calls = chance, objects, most_calls
        self.store = reading.Store()
        self.store.open(objects)
        self.lines = []
        self.bytes_left = LONGEST_FILE - len(written(objects, [])) - len("4096")
        self.plains, self.unanswered, self.answered = [], [], []
        self.orphans = []  # open, but with an aborted one above
        self.open_children = {0: 0}  # plain transaction -> how many

    def count(self):
        return len(self.store.transactions) - 1

    def call(self, letter, *numbers):
        """Writes a call and makes it; returns its answer."""
        line = " ".join(map(str, (letter, *numbers)))
        self.bytes_left -= len(line) + 1
        if len(self.lines) == self.most_calls or self.bytes_left < 0:
            raise Enough(self)
        self.lines.append(line)
        answer = reading.call(self.store, letter, *numbers)
        if answer[0] == 0:
            self.note(letter, numbers[0], answer[1])
        return answer

    def note(self, letter, t, new):
        """Keeps the account of what is open; for a creation t is the parent."""
        if letter in "NU":
            self.open_children[t] += 1
            if letter == "N":
                self.open_children[new] = 0
            (self.plains if letter == "N" else self.unanswered).append(new)
        elif letter == "G":
            self.unanswered.remove(t)
            self.answered.append(t)
        else:
            self.open_children[self.store.transactions[t].parent] -= 1
            gone = {t} if letter == "C" else self.store.at_or_beneath(t)
            for pool in (self.plains, self.unanswered, self.answered):
                self.orphans += [u for u in pool if u in gone and u != t]
                pool[:] = [u for u in pool if u not in gone]

    # Calls that are likely to be accepted; each returns the answer's code, a creation the number.

    def plain(self, parent):
        return self.call("N", parent)[1]

    def access(self, parent, object, operation=None, argument=None):
        if operation is None:
            operation, argument = self.work(object)
        return self.call("U", parent, object, operation, argument)[1]

    def respond(self, t):
        return self.call("G", t)[0]

    def commit(self, t):
        return self.call("C", t)[0]

    def abort(self, t):
        return self.call("B", t)[0]

    def finish(self, t):
        """Commits t, or aborts it if it was not responded to."""
        if self.commit(t) == 12:
            self.abort(t)

    def work(self, object):
        """An operation and argument that fit the object."""
        return WORK[self.objects[object][0]](self.chance)

    def object(self):
        return self.chance.randrange(len(self.objects))

    def parent(self):
        return self.chance.choice([0, *self.plains[-6:], *self.plains[:2]])

    def childless(self):
        """The open plain transactions without an open child, of the last few."""
        return [t for t in self.plains[-40:] if self.open_children[t] == 0]

    def any(self, test, tries=15):
        """A transaction that passes the test, or None if it was not met."""
        for _ in range(tries if self.count() else 0):
            t = self.chance.randint(1, self.count())
            if test(self.store.transactions[t]):
                return t
        return None


def written(objects, lines):
    """A run file's bytes."""
    text = [str(len(objects)), *(f"{kind} {opening}" for kind, opening in objects), str(len(lines)), *lines]
    return ("\n".join(text) + "\n").encode("ascii")


# -------------------------------------------------------------- work that fits


def account_work(chance):
    operation = chance.choices((1, 2, 3), (2, 4, 4))[0]
    amount = chance.choice((1, 5, chance.randint(1, 20), chance.randint(1, 300), chance.randint(1, 1_000_000), 1_000_000))
    return operation, 0 if operation == 1 else amount


def register_work(chance):
    operation = chance.choice((4, 5))
    value = chance.choice((0, 10, chance.randint(0, 2), chance.randint(0, 99), chance.randint(0, 10**9), 10**9))
    return operation, 0 if operation == 4 else value


def counter_work(chance):
    operation = chance.choices((6, 7), (3, 2))[0]
    size = chance.choice((0, 0, 1, 3, chance.randint(1, 300), chance.randint(1, 1_000_000), 1_000_000))
    return operation, 0 if operation == 7 else either_sign(chance, size)


def bin_work(chance):
    return chance.choice((8, 9, 10)), chance.choice((0, 0, 1, 31, chance.randint(0, 31)))


def either_sign(chance, size):
    return chance.choice((size, -size))


WORK = {"A": account_work, "R": register_work, "K": counter_work, "S": bin_work}
LOOK = {"A": 1, "R": 4, "K": 7, "S": 10}  # the operation that answers what is there, a bin's for part 0

# --------------------------------------------------- calls likely to be refused


def missing(m):
    count = m.count()
    return m.chance.choice((count + 1, count + 2, 1_024 if count < 1_024 else 1_025, 1_025, 65_536, 65_536 + count, 2**31, LARGEST))


def some_call(m, t):
    """A call of any letter on t, an access mostly with work that fits."""
    letter = m.chance.choice("NUGCB")
    if letter != "U":
        return letter, t
    object = m.object()
    return letter, t, object, *m.work(object)


def creation(m, parent):
    object = m.object()
    return m.chance.choice((("N", parent), ("U", parent, object, *m.work(object))))


def no_such_transaction(m):
    return some_call(m, missing(m))


def the_root(m):
    return m.chance.choice("GCB"), 0


def under_access(m):
    t = m.any(lambda row: row.is_access())
    return t and creation(m, t)


def already_finished(m):
    t = m.any(lambda row: row.state != "open")
    return t and some_call(m, t)


def beneath_aborted(m):
    return m.orphans and some_call(m, m.chance.choice(m.orphans))


def no_such_object(m):
    objects = len(m.objects)
    object = m.chance.choice((objects, objects + 1, 64, 255, 256, 65_536, 2**31, LARGEST))
    return "U", m.parent(), max(object, objects), m.chance.randrange(12), m.chance.randrange(-2, 3)


# Kind -> an operation of its own and an argument beyond the range.
BEYOND = {
    "A": [(1, -1), (1, 1), (1, LARGEST), (2, -1), (2, 0), (2, 1_000_001), (2, -LARGEST), (3, -1), (3, 0), (3, 1_000_001), (3, LARGEST)],
    "R": [(4, -1), (4, 1), (4, -LARGEST), (5, -1), (5, -1_000_000_000), (5, 1_000_000_001), (5, LARGEST), (5, -LARGEST)],
    "K": [(6, -1_000_001), (6, 1_000_001), (6, -LARGEST), (6, LARGEST), (6, 2**31), (6, -(2**31)), (7, -1), (7, 1), (7, -LARGEST)],
    "S": [(8, -1), (8, 32), (8, LARGEST), (9, -1), (9, 32), (9, 33), (9, -LARGEST), (10, -1), (10, 32), (10, 256), (10, 2**31), (10, -(2**31))],
}
# Kind -> an operation and argument that fit it.
FITTING = {"A": [(1, 0), (2, 3), (3, 3)], "R": [(4, 0), (5, 3)], "K": [(6, 0), (6, 3), (6, -3), (7, 0)], "S": [(8, 0), (9, 3), (10, 0), (10, 31)]}
UNKNOWN = [(0, 0), (11, 0), (11, -1), (255, 1), (256 + 1, 0), (65_536 + 4, 0), (LARGEST, 0), (LARGEST, -LARGEST)]


def unfit_work(m):
    object = m.object()
    kind = m.objects[object][0]
    other_kind = [work for other in FITTING if other != kind for work in FITTING[other]]
    return "U", m.parent(), object, *m.chance.choice(m.chance.choice((BEYOND[kind], other_kind, UNKNOWN)))


def respond_to_plain(m):
    t = m.any(lambda row: not row.is_access())
    return t and ("G", t)


def respond_again(m):
    return m.answered and ("G", m.chance.choice(m.answered))


def commit_above_open(m):
    above = [t for t in m.plains[-40:] if m.open_children[t]]
    return above and ("C", m.chance.choice(above))


def commit_unanswered(m):
    return m.unanswered and ("C", m.chance.choice(m.unanswered))


def several_reasons(m):
    """A call with every number drawn from right and wrong ones alike."""
    chance = m.chance
    t = chance.choice((0, missing(m), chance.randint(0, m.count()), chance.randint(0, m.count())))
    letter = chance.choice("NUUUGCB")
    if letter != "U":
        return letter, t
    arguments = (0, 1, -1, 32, 1_000_001, -1_000_001, LARGEST, -LARGEST)
    return letter, t, chance.choice((0, len(m.objects), LARGEST)), chance.randrange(12), chance.choice(arguments)


REFUSALS = [
    no_such_transaction, the_root, under_access, already_finished, beneath_aborted, no_such_object, unfit_work,
    respond_to_plain, respond_again, commit_above_open, commit_unanswered, several_reasons,
]


def refusal(m):
    """Makes a call that is likely to be refused, if the store has one to offer."""
    call = m.chance.choice(REFUSALS)(m)
    if call:
        m.call(*call)


# ------------------------------------------------------------------- the shapes


def some_object(chance, kinds):
    """An object of one of the kinds, with an opening of any size, a counter's of either sign, a bin's of any parts."""
    kind = chance.choice(kinds)
    if kind == "S":
        return kind, chance.choice((0, LARGEST, 2**chance.randrange(32), LARGEST - 2**chance.randrange(32), chance.randint(0, LARGEST)))
    size = chance.choice((0, 10, chance.randint(0, 50), chance.randint(0, 1_000), chance.randint(0, 10**9), 10**9))
    return kind, either_sign(chance, size) if kind == "K" else size


def some_objects(chance, most=4):
    return [some_object(chance, "AAARRKKKSSS") for _ in range(chance.randint(1, most))]


def usual_size(chance):
    return chance.choice((chance.randint(20, 60), chance.randint(20, 120), chance.randint(40, 200)))


def one_action(m, weights):
    """Makes one call: what sort, by the weights of begin, access, respond, commit, abort, refusal."""
    chance = m.chance
    action = chance.choices(("begin", "access", "respond", "commit", "abort", "refusal"), weights)[0]
    if action == "begin":
        m.plain(m.parent())
    elif action == "access":
        m.access(m.parent(), m.object())
    elif action == "respond" and m.unanswered:
        m.respond(chance.choice(m.unanswered[-12:]))
    elif action == "commit" and (m.answered or m.plains):
        m.commit(chance.choice(m.answered[-12:] + m.childless() or m.plains))
    elif action == "abort" and m.plains:
        m.abort(chance.choice(m.plains + m.answered[-3:] + m.unanswered[-2:]))
    else:
        refusal(m)


def by_weights(*weights):
    """The shape of a file whose calls come one by one by the weights."""

    def shape(chance):
        m = Maker(chance, some_objects(chance), usual_size(chance))
        while True:
            one_action(m, weights)

    return shape


def client(m):
    """One client at the counter: jobs of steps of accesses, each access asked for until it is let through or given up."""
    chance = m.chance
    while True:
        job = m.plain(0)
        yield
        for _ in range(chance.randint(1, 3)):
            step = m.plain(job) if chance.random() < 0.7 else job
            yield
            for _ in range(chance.randint(1, 3)):
                access = m.access(chance.choice((step, step, job)), m.object())
                yield
                if chance.random() < 0.06:
                    break  # gives the job up with its work under way
                tries = chance.randint(1, 5)
                while m.respond(access) == 13 and tries > 0:
                    tries -= 1
                    yield
                yield
                m.finish(access)
                yield
            if step != job:
                (m.commit if chance.random() < 0.85 else m.abort)(step)
                yield
        if chance.random() < 0.15 or m.commit(job) == 11:
            m.abort(job)
        yield


def depot(chance):
    """Several clients, a call at a time by chance."""
    m = Maker(chance, some_objects(chance), usual_size(chance))
    clients = [client(m) for _ in range(chance.randint(2, 5))]
    while True:
        next(chance.choice(clients))
        if chance.random() < 0.08:
            refusal(m)


def waits(chance):
    """Work on one or two objects by a few jobs; those who wait ask again after each commit or abort."""
    m = Maker(chance, some_objects(chance, 2), usual_size(chance))
    while True:
        if len(m.plains) < 4:
            m.plain(m.parent())
        m.access(m.parent(), m.object())
        for t in m.unanswered[-5:]:
            m.respond(t)
        for _ in range(chance.randint(0, 2)):
            finishing = m.answered + m.childless()
            if finishing:
                m.call("C" if chance.random() < 0.8 else "B", chance.choice(finishing))
                for t in m.unanswered[-4:]:
                    m.respond(t)
        if chance.random() < 0.1:
            refusal(m)


def failing_withdrawals(chance):
    """Poor accounts: withdrawals near the balance, deposits not yet committed."""
    m = Maker(chance, [("A", chance.randint(0, 12)) for _ in range(chance.randint(1, 2))], usual_size(chance))
    while True:
        if chance.random() < 0.3:
            m.plain(m.parent())
        operation = chance.choice((2, 3, 3, 3, 1))
        t = m.access(m.parent(), m.object(), operation, 0 if operation == 1 else chance.randint(1, 15))
        m.respond(t)
        if t in m.answered and chance.random() < 0.5:
            m.commit(t)
        if chance.random() < 0.3:
            one_action(m, (0, 0, 3, 6, 2, 2))


def put_and_drawn(chance):
    """Poor accounts: a job draws what it has put in, and looks, its numbers in any order; then others look or draw beside it."""
    m = Maker(chance, [("A", chance.randint(0, 6)) for _ in range(chance.randint(1, 2))], usual_size(chance))
    while True:
        job, object = m.plain(m.parent()), m.object()
        operations = chance.sample((1, 2, 3), 3)
        steps = {operation: m.access(job, object, operation, 0 if operation == 1 else chance.randint(1, 9)) for operation in operations}
        for operation in (2, 3, 1):
            if m.respond(steps[operation]) == 0 and chance.random() < 0.8:
                m.commit(steps[operation])
        for _ in range(2):
            operation = chance.choice((1, 3))
            m.respond(m.access(m.parent(), object, operation, 0 if operation == 1 else chance.randint(1, 9)))
        for _ in range(2):
            one_action(m, (0, 0, 3, 6, 2, 1))


def small_jobs(chance, kind, openings, work):
    """One or two objects of a kind, their openings in a range, and work on them by a few jobs; `work` says an operation and its argument."""
    m = Maker(chance, [(kind, chance.randint(*openings)) for _ in range(chance.randint(1, 2))], usual_size(chance))
    while True:
        if chance.random() < 0.3:
            m.plain(m.parent())
        t = m.access(m.parent(), m.object(), *work())
        m.respond(t)
        if t in m.answered and chance.random() < 0.5:
            m.commit(t)
        if chance.random() < 0.5:
            one_action(m, (0, 0, 3, 6, 2, 1))


def recounts(chance):
    """Counters: small adjustments, many by 0, beside counts."""

    def work():
        operation = chance.choice((6, 6, 7))
        return operation, 0 if operation == 7 else chance.choice((0, 0, 3, -3, chance.randint(-9, 9)))

    small_jobs(chance, "K", (-9, 9), work)


def rescans(chance):
    """Registers: writes of few values, many of what is there or of what another has put, beside reads."""
    small_jobs(chance, "R", (0, 2), lambda: chance.choice(((4, 0), (5, chance.randint(0, 2)))))


def rewrites(chance):
    """A register that jobs one within the other write and read again and again, the innermost mostly; it commits or is dropped now and then."""
    m = Maker(chance, [("R", chance.randint(0, 9)), *some_objects(chance, 1)], usual_size(chance))
    chain = [0]
    while True:
        way = chance.random()
        if way < 0.15:
            chain.append(m.plain(chain[-1]))
        elif way < 0.25 and len(chain) > 1:
            (m.commit if chance.random() < 0.6 else m.abort)(chain.pop())
        elif way < 0.3:
            refusal(m)
        else:
            parent = chain[-1] if chance.random() < 0.8 else chance.choice(chain)
            work = chance.choice(((4, 0), (5, chance.randint(0, 9)))) if chance.random() < 0.9 else ()
            t = m.access(parent, 0 if work else m.object(), *work)
            m.respond(t)
            (m.finish if chance.random() < 0.9 else m.abort)(t)


def bins(chance):
    """Bins: put, take and look, of few parts."""
    small_jobs(chance, "S", (0, LARGEST), lambda: (chance.choice((8, 9, 10)), chance.choice((0, 1, 31))))


def in_and_out(chance):
    """Bins: a job puts, takes and looks for a part, its numbers in any order; then others do so beside it, for that part or another."""
    m = Maker(chance, [("S", chance.randint(0, LARGEST)) for _ in range(chance.randint(1, 2))], usual_size(chance))
    while True:
        job, object, part = m.plain(m.parent()), m.object(), chance.choice((0, 1, 31))
        steps = [m.access(job, object, operation, part) for operation in chance.sample((8, 9, 10), 3)]
        for t in chance.sample(steps, 3):
            if m.respond(t) == 0 and chance.random() < 0.8:
                m.commit(t)
        for _ in range(2):
            m.respond(m.access(m.parent(), object, chance.choice((8, 9, 10)), chance.choice((part, part, 0, 31))))
        for _ in range(2):
            one_action(m, (0, 0, 3, 6, 2, 1))


def deep(chance):
    """A chain; work at its bottom is committed up while another asks for the same."""
    m = Maker(chance, some_objects(chance, 2))
    depth = chance.choices((chance.randint(10, 40), chance.randint(40, 150), chance.randint(300, 1_000)), (10, 8, 3))[0]
    chain = [0]
    for _ in range(depth):
        chain.append(m.plain(chain[-1]))
        if chance.random() < 0.02 + 2 / depth:
            m.respond(m.access(chain[-1], m.object()))
    object = m.object()
    access = m.access(chain[-1], object)
    m.respond(access)
    m.commit(access)
    outside = m.access(chance.choice((0, m.plain(0))), object)
    stop = chance.choice((0, 0, depth // 2))
    for t in reversed(chain[stop + 1:]):
        if m.open_children[t]:
            for child in [u for u in m.answered + m.unanswered if m.store.transactions[u].parent == t]:
                m.finish(child)
        m.commit(t)
        if chance.random() < 0.2 and outside in m.unanswered:
            m.respond(outside)
        if chance.random() < 0.05:
            refusal(m)
    if stop:
        m.abort(chain[chance.randint(1, stop)])
    m.respond(outside)
    for _ in range(5):
        refusal(m)
    return m


def wide(chance):
    """One parent of many children, finished in any order, the parent asking to commit all the while."""
    m = Maker(chance, some_objects(chance, 2))
    parent = m.plain(0)
    wanted = chance.choice((15, 30, 60, 100))
    for _ in range(wanted):
        if chance.random() < 0.6:
            m.access(parent, m.object())
        else:
            m.plain(parent)
    children = list(range(parent + 1, parent + wanted + 1))
    chance.shuffle(children)
    for t in children:
        if t in m.unanswered:
            m.respond(t)
        (m.commit if chance.random() < 0.9 else m.abort)(t)
        if chance.random() < 0.15:
            m.commit(parent)
        if chance.random() < 0.05:
            refusal(m)
    for t in list(m.unanswered):
        m.respond(t)
        m.finish(t)
    m.commit(parent)
    for object in range(len(m.objects)):
        m.respond(m.access(0, object, LOOK[m.objects[object][0]], 0))
    return m


def full(chance):
    """All 1,024 numbers given, then work in the full store; most are plain transactions, quickly made."""
    m = Maker(chance, some_objects(chance))
    shape = chance.choice(("flat", "tree", "jobs"))
    while m.count() < 1_024:
        if shape == "flat":
            parent = 0
        elif shape == "tree":
            parent = chance.choice((0, *m.plains[-3:]))
        else:
            parent = m.plains[-1] if m.plains and chance.random() < 0.2 else 0
        if m.count() < 1_000 or chance.random() < 0.4:
            m.plain(parent)
        else:
            m.access(parent, m.object())
        if chance.random() < 0.02:
            one_action(m, (0, 0, 4, 4, 1, 4))
    for _ in range(chance.randint(20, 60)):
        if chance.random() < 0.4:
            m.call(*chance.choice((creation(m, m.parent()), no_such_object(m), unfit_work(m), several_reasons(m))))
        one_action(m, (1, 1, 4, 4, 1, 3))
    return m


def full_of(kind, operation, sign):
    """The shape of a file with the largest balance or count there can be, or the lowest, but for the last number, which asks for it."""

    def shape(chance):
        m = Maker(chance, [(kind, sign * 10**9)])
        for t in range(1, 1_024):
            m.access(0, 0, operation, sign * 1_000_000)
            m.respond(t)
            m.commit(t)
        m.respond(m.access(0, 0, LOOK[kind], 0))
        refusal(m)
        m.plain(0)
        return m

    return shape


def long(chance):
    """As many calls or, by some that are long to write, as many bytes as a file may have."""
    m = Maker(chance, some_objects(chance, 8))
    wordy = chance.choice((0, 0.35))
    while True:
        one_action(m, (4, 6, 12, 8, 1, 6) if m.count() < 1_024 else (1, 1, 20, 20, 1, 30))
        if chance.random() < wordy:
            m.call("U", chance.choice((LARGEST, m.parent())), LARGEST, LARGEST, chance.choice((LARGEST, -LARGEST)))


def many_objects(chance):
    """Up to 64 objects, each with work."""
    count = chance.choice((64, 64, 63, chance.randint(8, 62)))
    m = Maker(chance, [some_object(chance, "ARKS") for _ in range(count)], chance.randint(60, 250))
    while True:
        one_action(m, (2, 5, 6, 4, 0.4, 0.5))


def refused_opening(chance):
    """An opening that answers 14; calls may follow, which are not made."""
    objects = some_objects(chance, chance.choice((1, 3, 64)))
    at = chance.randrange(len(objects))
    kind, beyond = objects[at][0], chance.choice((1_000_000_001, 1_000_000_002, 2_024_000_000, 2**31 - 1, 2**31, LARGEST))
    below = chance.choice((-beyond, -1, -10**9)) if kind != "K" else -beyond
    objects[at] = kind, chance.choice((beyond, below)) if kind != "S" else below
    if chance.random() < 0.2:
        objects = []
    lines = [chance.choice(("N 0", "U 0 0 1 0", "G 1", "C 1", "B 0")) for _ in range(chance.choice((0, 1, 5, 30)))]
    return written(objects, lines)


def no_calls(chance):
    return written(some_objects(chance, chance.choice((1, 5, 64))), [])


def bad_file(chance):
    """A small good file, damaged until it is bad."""
    good = file_of(by_weights(3, 4, 5, 4, 0.5, 1), chance)
    for seed in range(chance.randrange(10**9), 10**10):
        bad = damage.damaged(good, seed)
        if reading.printed(bad).startswith("16 "):
            return bad


# Shape -> what makes it and its share.
SHAPES = {
    "depot": (depot, 18),
    "mixed": (by_weights(3, 4, 5, 4, 0.5, 2), 10),
    "aborts": (by_weights(4, 4, 5, 4, 2.5, 2), 11),
    "waits": (waits, 10),
    "refusals": (by_weights(3, 4, 4, 3, 0.7, 12), 10),
    "failing withdrawals": (failing_withdrawals, 7),
    "put and drawn": (put_and_drawn, 5),
    "recounts": (recounts, 7),
    "rescans": (rescans, 7),
    "rewrites": (rewrites, 5),
    "bins": (bins, 7),
    "in and out": (in_and_out, 5),
    "deep": (deep, 4),
    "wide": (wide, 4),
    "full": (full, 8),
    "full of deposits": (full_of("A", 2, 1), 0.2),
    "full of adjustments up": (full_of("K", 6, 1), 0.1),
    "full of adjustments down": (full_of("K", 6, -1), 0.1),
    "long": (long, 1.2),
    "many objects": (many_objects, 4),
    "refused opening": (refused_opening, 8),
    "no calls": (no_calls, 2),
    "bad file": (bad_file, 8),
}


def file_of(shape, chance):
    """The file a shape makes: as bytes, or in a Maker, handed back or stopped when it had enough."""
    try:
        made = shape(chance)
    except Enough as enough:
        made = enough.maker
    return made if isinstance(made, bytes) else written(made.objects, made.lines)


def chosen(seed):
    chance = random.Random(seed)
    name = chance.choices(list(SHAPES), [share for _, share in SHAPES.values()])[0]
    return name, chance


def shape_of(seed):
    return chosen(seed)[0]


def run_file(seed):
    """The run file of a seed."""
    name, chance = chosen(seed)
    return file_of(SHAPES[name][0], chance)


def main():
    sys.stdout.buffer.write(run_file(int(sys.argv[1])))


if __name__ == "__main__":
    main()
