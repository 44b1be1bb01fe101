#!/usr/bin/env python3
"""Damage to run files.

    damage.py SEED < FILE      prints the file, damaged

damaged(data, seed) makes one or a few changes to a file: in its bytes, its
lines, its kinds, its numbers, their signs or its length.  What comes out may still be a good file.
"""

import random
import re
import sys

LONGEST = 65_536
STRAY_BYTES = [bytes([byte]) for byte in b"019 \n\r\t\0\x0b-+._AKSNu\x7f\x80\xa0\xb2\xff"]
LIMIT_NUMBERS = [b"0", b"1", b"31", b"32", b"63", b"64", b"65", b"1024", b"1025", b"4096", b"4097", b"65536", b"1000000", b"1000001", b"1000000000", b"1000000001"]
LARGE_NUMBERS = [b"2147483648", b"4294967295", b"4294967296", b"4294967297", b"9999999999", b"10000000000"]
LARGE_NUMBERS += [b"18446744073709551616", b"9" * 40, b"0" * 12]


def at_random(data, chance):
    return chance.randrange(len(data) + 1)


# Bytes.


def byte_changed(data, chance):
    at = at_random(data, chance)
    return data[:at] + chance.choice(STRAY_BYTES) + data[at + 1:]


def byte_of_any_value(data, chance):
    at = at_random(data, chance)
    return data[:at] + bytes([chance.randrange(256)]) + data[at + 1:]


def byte_dropped(data, chance):
    at = at_random(data, chance)
    return data[:at] + data[at + 1:]


def byte_doubled(data, chance):
    at = at_random(data, chance)
    return data[:at] + data[at:at + 1] + data[at:]


def byte_inserted(data, chance):
    at = at_random(data, chance)
    return data[:at] + chance.choice(STRAY_BYTES) + data[at:]


def space_or_end_changed(data, chance):
    """Puts other bytes where a space or a line's end stands."""
    spots = [match.start() for match in re.finditer(rb"[ \n]", data)]
    if not spots:
        return data
    at = chance.choice(spots)
    return data[:at] + chance.choice([b"  ", b" \n", b"\r\n", b"\n\n", b"\n ", b"\t", b"\r", b"\0", b"", b" ", b"\n"]) + data[at + 1:]


def letter_changed(data, chance):
    spots = [match.start() for match in re.finditer(rb"[A-Z]", data)]
    if not spots:
        return data
    at = chance.choice(spots)
    letter = data[at:at + 1]
    return data[:at] + chance.choice([letter.lower(), b"A", b"R", b"K", b"S", b"N", b"U", b"G", b"C", b"B", b"X", b"", letter * 2]) + data[at + 1:]


# Lines.


def in_lines(change):
    """A change of the file's lines, each with its end, as a change of the file."""

    def of_file(data, chance):
        lines = re.findall(rb"[^\n]*\n|[^\n]+", data)
        return b"".join(change(lines, chance)) if lines else data

    of_file.__name__ = change.__name__
    return of_file


@in_lines
def line_dropped(lines, chance):
    at = chance.randrange(len(lines))
    return lines[:at] + lines[at + 1:]


@in_lines
def line_doubled(lines, chance):
    at = chance.randrange(len(lines))
    return lines[:at + 1] + lines[at:]


@in_lines
def lines_swapped(lines, chance):
    one, other = chance.randrange(len(lines)), chance.randrange(len(lines))
    lines[one], lines[other] = lines[other], lines[one]
    return lines


@in_lines
def empty_line(lines, chance):
    at = chance.randrange(len(lines) + 1)
    return lines[:at] + [b"\n"] + lines[at:]


# Numbers.


def number_changed(data, chance, new=None):
    """Writes `new` of its digits, or a number of note, where a number stands."""
    numbers = list(re.finditer(rb"[0-9]+", data))
    if not numbers:
        return data
    match = chance.choice(numbers)
    digits = new(match.group()) if new else chance.choice(chance.choice([LIMIT_NUMBERS, LARGE_NUMBERS]))
    return data[:match.start()] + digits + data[match.end():]


def leading_zero(data, chance):
    return number_changed(data, chance, lambda digits: b"0" + digits)


# What a number is -> the lines that have one, the number in brackets.
PLACES = {
    "count": rb"^(-?[0-9]+)$",
    "opening": rb"^[ARKS] (-?[0-9]+)$",
    "parent": rb"^[NU] (-?[0-9]+)\b",
    "object": rb"^U \S+ (-?[0-9]+)\b",
    "operation": rb"^U \S+ \S+ (-?[0-9]+)\b",
    "argument": rb"^U \S+ \S+ \S+ (-?[0-9]+)$",
    "transaction": rb"^[GCB] (-?[0-9]+)$",
}

# Digits -> what to write in place of them and of the minus that may stand before.
SIGNS = [
    lambda digits: digits,
    lambda digits: b"-" + digits,
    lambda digits: b"--" + digits,
    lambda digits: b"+" + digits,
    lambda digits: b"-0" + digits,
    lambda digits: b"- " + digits,
    lambda digits: digits + b"-",
    lambda digits: b"-",
    lambda digits: b"-0",
    lambda digits: b"-1000001",
    lambda digits: b"-1000000001",
    lambda digits: b"-4294967295",
    lambda digits: b"-4294967296",
]


def sign_changed(data, chance):
    """Puts, removes or doubles a minus, or puts a wrong one; at each kind of place as often as at any other."""
    places = [found for place in PLACES.values() if (found := list(re.finditer(place, data, re.MULTILINE)))]
    if not places:
        return data
    match = chance.choice(chance.choice(places))
    return data[:match.start(1)] + chance.choice(SIGNS)(match.group(1).removeprefix(b"-")) + data[match.end(1):]


def kind_changed(data, chance):
    """Makes an object one of another kind, or of none."""
    return changed_at(rb"^([ARKS]) ", [b"A", b"R", b"K", b"S", b"S", b"T", b"s"], data, chance)


def operation_changed(data, chance):
    """Puts another operation into an access, mostly one that some kind has."""
    return changed_at(PLACES["operation"], [b"%d" % operation for operation in range(12)], data, chance)


def changed_at(place, choices, data, chance):
    """Writes one of the choices at a place, if there is one."""
    found = list(re.finditer(place, data, re.MULTILINE))
    if not found:
        return data
    match = chance.choice(found)
    return data[:match.start(1)] + chance.choice(choices) + data[match.end(1):]


def number_of_another(data, chance):
    """Makes one opening or argument equal to another, or one less or more."""
    found = [match for place in ("opening", "argument") for match in re.finditer(PLACES[place], data, re.MULTILINE)]
    if not found:
        return data
    one, other = chance.choice(found), chance.choice(found)
    if len(other.group(1)) > 10:
        return data
    return data[:one.start(1)] + b"%d" % (int(other.group(1)) + chance.choice([-1, 0, 0, 1])) + data[one.end(1):]


def count_off_by_one(data, chance):
    """Changes one of the two counts: a line that is a number alone."""
    counts = list(re.finditer(rb"^[0-9]{1,5}$", data, re.MULTILINE))
    if not counts:
        return data
    match = chance.choice(counts[:2])
    new = max(0, int(match.group()) + chance.choice([-1, 1]))
    return data[:match.start()] + b"%d" % new + data[match.end():]


@in_lines
def objects_at_limit(lines, chance):
    """As many objects as there may be, or one more, the count saying so."""
    return up_to(lines, 0, 64 + chance.randrange(2), b"A 1\n")


@in_lines
def calls_at_limit(lines, chance):
    """As many calls as there may be, or one more, the count saying so."""
    objects = lines[0].strip()
    at = int(objects) + 1 if re.fullmatch(rb"[0-9]{1,5}", objects) else 0
    return up_to(lines, at, 4_096 + chance.randrange(2), b"N 0\n")


def up_to(lines, at, many, line):
    """Lines added behind a count so that they are so many; unchanged if there is no such count."""
    count = lines[at].strip() if at < len(lines) else b""
    if not re.fullmatch(rb"[0-9]{1,5}", count) or int(count) > many:
        return lines
    after = at + 1 + int(count)
    return lines[:at] + [b"%d\n" % many] + lines[at + 1:after] + [line] * (many - int(count)) + lines[after:]


# Length.


def truncated(data, chance):
    return data[:at_random(data, chance)]


def last_newline_missing(data, chance):
    return data[:-1]


def something_after(data, chance):
    return data + chance.choice([b"\n", b" ", b"\0", b"0", b"N 0\n", b"N 0", b"\x1a", b"\r\n", b"0\n"])


def padded(data, chance):
    """To just the largest length, or one more, by bytes that no file may have."""
    return data + chance.choice([b"\n", b" ", b"0", b"\0"]) * (LONGEST + chance.randrange(2) - len(data))


def call_of_length(length):
    """A call line of so many bytes, 4 to 46."""
    if length < 10:
        return b"N " + b"1" * (length - 3) + b"\n"
    digits = length - 6
    fields = [digits // 4 + (index < digits % 4) for index in range(4)]
    return b"U " + b" ".join(b"4" * field if field < 10 else b"4294967295" for field in fields) + b"\n"


def filled(data, chance):
    """To just the largest length, or one less or more, by more calls: good if it was good and neither bytes nor calls are too many."""
    counts = list(re.finditer(rb"^[0-9]{1,5}$", data, re.MULTILINE))
    size = LONGEST + chance.choice([-1, 0, 0, 1])
    if len(counts) < 2 or size - len(data) < 100:
        return data
    count = counts[1]
    calls = int(count.group())
    for more in range(1, 4_097):
        head = data[:count.start()] + b"%d" % (calls + more) + data[count.end():]
        need = size - len(head)
        if 4 * more <= need <= 46 * more:
            break
    else:
        return data
    lines = []
    for left in range(more - 1, -1, -1):
        length = min(46, need - 4 * left)
        lines.append(call_of_length(length))
        need -= length
    return head + b"".join(lines)


CHANGES = [
    byte_changed, byte_of_any_value, byte_dropped, byte_doubled, byte_inserted, space_or_end_changed, letter_changed,
    line_dropped, line_doubled, lines_swapped, empty_line,
    number_changed, leading_zero, sign_changed, kind_changed, operation_changed, number_of_another, count_off_by_one, objects_at_limit, calls_at_limit,
    truncated, last_newline_missing, something_after, padded, filled,
]


def damaged(data, seed):
    """The file with one to three changes that the seed chooses."""
    chance = random.Random(f"damage {seed}")
    for _ in range(chance.choice([1, 1, 1, 2, 3])):
        data = chance.choice(CHANGES)(data, chance)
    return data


def main():
    sys.stdout.buffer.write(damaged(sys.stdin.buffer.read(), int(sys.argv[1])))


if __name__ == "__main__":
    main()
