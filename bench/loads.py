"""The loads: run files of 10, 100 and 1,000 transactions, within document 01's 4,096 calls and 65,536 bytes."""
SIZES = (10, 100, 1000)
ACCOUNT, REGISTER, COUNTER = "A 1000", "R 7", "K -7"
DATED_CARD, NEW_CARD = "R 20261115", "R 0"
FULL_BIN, EMPTY_BIN = "S 4294967295", "S 0"
BALANCE, DEPOSIT_5, DEPOSIT_7, WITHDRAW_3, READ = "1 0", "2 5", "2 7", "3 3", "4 0"
UP_3, DOWN_3, COUNT = "6 3", "6 -3", "7 0"
SAME_DATE, OTHER_DATE, WRITE = "5 20261115", "5 20271115", "5 {}".format
PUT, TAKE, LOOK = "8 {}".format, "9 {}".format, "10 {}".format


class Calls:
    def __init__(self):
        self.lines, self.count = [], 0

    def create(self, *words):
        """N and the parent; or U, parent, object and what is asked. Returns the new number."""
        self.count += 1
        self.lines.append(" ".join(map(str, words)))
        return self.count

    def each(self, letter, numbers):
        self.lines += [f"{letter} {t}" for t in numbers]

    def step(self, parent, thing, asked):
        t = self.create("U", parent, thing, asked)
        self.lines += [f"G {t}", f"C {t}"]


def job(calls, size):
    for _ in range(size // 4):
        parent = calls.create("N", 0)
        for asked in (BALANCE, DEPOSIT_5, WITHDRAW_3):
            calls.step(parent, parent % 8, asked)
        calls.each("C", [parent])
    return [ACCOUNT] * 8


def at_once(calls, size, asked, waiting):
    """Jobs of four steps, all open at once; `asked` says a job's steps, and `waiting` what must then wait for the first ones."""
    jobs, turns = [], [[], [], [], []]
    for j in range(size // 5):
        jobs.append(calls.create("N", 0))
        for turn, step in zip(turns, asked(j)):
            turn.append(calls.create("U", jobs[-1], *step))
    for turn in turns:
        calls.each("G", turn)
    for j in range(min(20, len(jobs))):
        calls.each("G", [calls.create("U", 0, j % 8, waiting)])
    for turn in (*turns, jobs):
        calls.each("C", turn)


def all_open(calls, size):
    at_once(calls, size, lambda j: ((j % 8, DEPOSIT_5), ((j + 3) % 8, DEPOSIT_7), (8 + j % 8, READ), (8 + (j + 1) % 8, READ)), BALANCE)
    return [ACCOUNT] * 8 + [REGISTER] * 8


def recounted(calls, size):
    at_once(calls, size, lambda j: ((j % 8, UP_3), ((j + 3) % 8, DOWN_3), ((j + 5) % 8, UP_3), ((j + 6) % 8, DOWN_3)), COUNT)
    return [COUNTER] * 8


def rescanned(calls, size):
    at_once(calls, size, lambda j: ((j % 8, SAME_DATE), (8 + j % 8, SAME_DATE), ((j + 3) % 8, READ), (8 + (j + 5) % 8, SAME_DATE)), OTHER_DATE)
    return [DATED_CARD] * 8 + [NEW_CARD] * 8


def binned(calls, size):
    """Of the jobs at a bin each has a part of its own to put or take, and all ask for part 31, which stays as it is; part 0 is the first to go."""
    at_once(calls, size, lambda j: ((j % 8, TAKE(j // 8)), ((j + 3) % 8, LOOK(31)), (8 + j % 8, PUT(j // 8)), (8 + (j + 5) % 8, TAKE(31))), LOOK(0))
    return [FULL_BIN] * 8 + [EMPTY_BIN] * 8


def rewritten(calls, size):
    """No two writes put the same value; every fifth step is a read."""
    parent = calls.create("N", 0)
    for turn in range(1, size):
        calls.step(parent, 0, WRITE(turn * 1000) if turn % 5 else READ)
    calls.each("C", [parent])
    return [REGISTER]


def chained(calls, depth, steps):
    chain = [calls.create("N", above) for above in range(depth)]
    for _ in range(steps):
        calls.step(chain[-1], 0, DEPOSIT_5)
    calls.each("C", reversed(chain))
    return [ACCOUNT]


# What a load is, and the function that adds its calls and returns the objects that they are about.
LOADS = {
    "job": ("jobs one after the other, each of three steps", job),
    "open": ("all open at once, with waits", all_open),
    "recount": ("all open at once, adjusting counters, with waits", recounted),
    "rescan": ("all open at once, putting the same dates, with waits", rescanned),
    "bins": ("all open at once, at parts of bins, with waits", binned),
    "rewrite": ("one job, writing one register again and again", rewritten),
    "deep": ("one chain, 5 deposits at its end", lambda calls, size: chained(calls, size - 5, 5)),
    "late": ("a chain of half, deposits of half at its end", lambda calls, size: chained(calls, size // 2, size // 2)),
}


def load(kind, size):
    """A run file, and how many calls it has."""
    calls = Calls()
    objects = LOADS[kind][1](calls, size)
    text = "\n".join([str(len(objects)), *objects, str(len(calls.lines)), *calls.lines, ""])
    return text, len(calls.lines)
