#!/usr/bin/env python3
"""Writes the rows of crates/sets_test and what document 01 says of each: `tests/sets.py` in the repository's root.

A row is one set, offered to Job A, to Job A with a second bucket and to Job A with drain 0. The set matches a job where its header is the job's, every pin is none or a choice
of a unit that the job has, and its three totals are those of its pins; any other set is refused with 6. With drain 0
every call but the replay refuses the job before it looks at the set, with 17 (document 02, E8). Of a set that matches, the answers are worked out from the table "Where each refusal is checked" and from the plan that is
replayed: entries 0 and the mark, 2 0, 1 1 of Job A, in which unit 1 has choice 0 and unit 2 choice 1.
"""
import struct

NINE = [2, 1, 4, 3, 2, 0, 0, 3, 2]
# no second bucket, and one of size 1 that drains 2
HEADER = NINE + [0, 0, 0, 0]
TWO = NINE + [1, 1, 2, 0]
IDLE = NINE[:4] + [0] + HEADER[5:]
RATES = [0, 2, 4]
UNITS = [[(4, 10), (2, 30)], [(5, 12), (2, 40)]]
NO_PIN = 65535


def u16(*numbers):
    return struct.pack("<%dH" % len(numbers), *numbers)


def job(header):
    head = u16(26, 8, *header[:9], *header[10:]) if header[9] else u16(20, 1, *header[:9])
    out = head + u16(2 + 2 * len(RATES), 2, *RATES)
    for unit in UNITS:
        out += u16(2 + 6 * len(unit), 3)
        for size, distortion in unit:
            out += struct.pack("<HI", size, distortion)
    return out


def totals(unit, pin):
    if unit == 0 or pin == NO_PIN:
        return (0, 0, 0)
    size, distortion = UNITS[unit - 1][pin]
    return (1, size, distortion)


def matches(job, header, unit, pin, sums):
    if header != job:
        return False
    if unit != 0 and pin != NO_PIN and not (unit <= len(UNITS) and pin < len(UNITS[unit - 1])):
        return False
    return sums == totals(unit, pin)


def answers(job, header, unit, pin, sums):
    """The check, a pin of unit 2 at 0, a lift of unit 1, the replay, planning."""
    if job[4] == 0:
        return (17, 17, 17, 0 if matches(job, header, unit, pin, sums) else 6, 17)
    if not matches(job, header, unit, pin, sums):
        return (6, 6, 6, 6, 6)
    pinned = unit if pin != NO_PIN else 0
    # a violated pin is an answer of the replay, not a refusal
    return (0, 9 if pinned == 2 else 0, 0 if pinned == 1 else 10, 0, 0 if plans(job, pinned, pin) else 13)


def plans(job, pinned, pin):
    """Whether some plan violates nothing, by trying all of them."""
    d, capacity = job[1], job[2]
    buckets = [(job[3], job[4])] + ([(job[10], job[11])] if job[9] else [])
    choices = [[None]] * d + [range(len(u)) for u in UNITS]

    def step(t, level, fills):
        if t == len(choices):
            return True
        for choice in choices[t]:
            if pinned and t - d + 1 == pinned and choice != pin:
                continue
            taken = 0 if choice is None else UNITS[t - d][choice][0]
            for rate in RATES:
                peak = level + rate
                after = [max(fill + rate - drain, 0) for fill, (_, drain) in zip(fills, buckets)]
                over = any(fill > size for fill, (size, _) in zip(after, buckets))
                if taken <= peak <= capacity and not over and step(t + 1, peak - taken, after):
                    return True
        return False

    return step(0, job[5], [job[6]] + ([job[12]] if job[9] else []))


def rows():
    good = (1, 0, totals(1, 0))
    yield HEADER, 0, NO_PIN, (0, 0, 0)
    for unit in (1, 2):
        for pin in (0, 1):
            yield HEADER, unit, pin, totals(unit, pin)
    # one field of the header
    for field in range(9):
        changed = list(HEADER)
        changed[field] += 1
        yield (changed,) + good
    # a second bucket: that of the other job, each of its numbers by one, one that never fills, the first one again, one of zeros
    for second in ([1, 2, 0], [2, 2, 0], [1, 1, 0], [1, 2, 1], [63, 4095, 0], [3, 2, 0], [0, 0, 0]):
        yield (NINE + [1] + second,) + good
    for unit in (1, 2):
        for pin in (0, 1):
            yield TWO, unit, pin, totals(unit, pin)
    yield TWO, 0, NO_PIN, (0, 0, 0)
    # a pin that no unit has, with the totals of no pin and of one, and a pin behind the job's units; 255 was no pin once,
    # and 256 is 0 in its lower byte
    for pin in (2, 30, 31, 254, 255, 256, 999, 1000, 65280, 65534):
        for sums in ((0, 0, 0), (1, 4, 10)):
            yield HEADER, 1, pin, sums
    for unit in (3, 512):
        for pin, sums in ((0, (0, 0, 0)), (0, (1, 4, 10)), (255, (0, 0, 0))):
            yield HEADER, unit, pin, sums
    # no pin, which is written out
    yield HEADER, 2, NO_PIN, (0, 0, 0)
    yield HEADER, 512, NO_PIN, (0, 0, 0)
    # each total by one, either way, and the totals of the other choice and the other unit
    for at in range(3):
        for by in (1, -1):
            sums = list(totals(1, 0))
            sums[at] += by
            yield HEADER, 1, 0, tuple(sums)
    yield HEADER, 1, 0, totals(1, 1)
    yield HEADER, 1, 0, totals(2, 0)
    yield HEADER, 0, NO_PIN, totals(1, 0)
    yield HEADER, 1, 0, (0, 0, 0)
    # sets of a job with drain 0: without a pin, with one, with a total that is not its own, and with another drain
    yield IDLE, 0, NO_PIN, (0, 0, 0)
    yield (IDLE,) + good
    yield IDLE, 1, 0, (1, 4, 11)
    yield NINE[:4] + [1] + HEADER[5:], 0, NO_PIN, (0, 0, 0)


with open("crates/sets_test/stdin", "wb") as data, open("crates/sets_test/stdout", "w") as lines:
    data.write(job(HEADER) + job(TWO) + job(IDLE))
    for number, (header, unit, pin, sums) in enumerate(rows(), 1):
        data.write(u16(*header, unit, pin, *sums))
        told = [n for own in (HEADER, TWO, IDLE) for n in answers(own, header, unit, pin, sums)]
        lines.write("set %d %s\n" % (number, " ".join(map(str, told))))
