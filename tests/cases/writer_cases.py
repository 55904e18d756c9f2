#!/usr/bin/env python3
"""Writes crates/writer_cases/stdin and stdout: frame texts whose records are written again, and what comes of it.

usage: tests/cases/writer_cases.py

Each case of stdin is a line 'LENGTH NAME', a frame text, a line feed, and a line with the letter of a change (crates/writer_cases/src/changes.rt). Each case has five
lines of stdout, one for each slice: 'NAME LENGTH: ANSWER, SLICE' (crates/writer_cases/src/main.rt). The texts are the accepted ones of tests/cases/reader_cases.py and
some more, read as stored ones; what the records are refused with, and the text of changed records, is written here by hand from documents 01 and 02. What is in a slice then follows by its rule:
the records' refusal, then 13 where the slice is shorter than the text, then the text at its front and the rest kept.
"""
import os
import random
import sys

sys.dont_write_bytecode = True
import reader_cases
from reader_cases import MINUS_ZERO, ONE, TRIANGLE, branch, bus, head, small, supply, switch, text

ROOT = os.path.join(os.path.dirname(os.path.abspath(__file__)), '..', '..', 'crates', 'writer_cases')
CHANGES = {
    '': '-', 'iterations-1001': 'A', 'buses-257': 'B', 'branches-513': 'C', 'switches-65535': 'D', 'base-no-number': 'E', 'bus-1-again': 'F',
    'load-out-of-range': 'G', 'load-no-number': 'H', 'end-not-listed': 'I', 'r-below-zero': 'J', 'r-no-number-and-end-not-listed': 'K', 'switch-10-again': 'L',
    'second-switch-on-a-branch': 'M', 'position-3-of-3': 'N', 'eleventh-tie': 'O', 'third-bus-and-first-branch': 'P', 'refused-if-listed': 'Q',
    'fewer-listed': 'R', 'more-listed': 'S', 'ends-of-ranges': 'T', 'supply-3': 'U', 'has-a-supply': 'V', 'has-no-supply': 'W', 'third-switch-on-a-branch': 'X', 'one-more-of-each': 'Y', 'one-more-branch': 'Z',
}
ROOM_BEHIND = 80
ROOM_FOR_CASES = 278528
cases = []


def lines_of(name, read, answer):
    """What is printed for a text. The answer is the text of its records as they are changed, or their refusal."""
    for room in (0, len(read) - 1, len(read), len(read) + 1, len(read) + ROOM_BEHIND):
        refusal = answer if isinstance(answer, tuple) else (13, 0) if room < len(answer) else None
        if refusal:
            yield '%s %d: refused %d %d, kept\n' % (name, room, *refusal)
        else:
            slice_then = answer.decode() + '.' * (room - len(answer))
            yield '%s %d: %d written, %s\n' % (name, room, len(answer), 'as read' if answer == read else '[%s]' % slice_then)


def case(name, read, answer, change=''):
    """Read and answer are lists of lines, or texts; the answer may be a refusal."""
    read, answer = (text(what) if isinstance(what, list) else what for what in (read, answer))
    cases.append((name, b'%d %s\n%s\n%s\n' % (len(read), name.encode(), read, CHANGES[change].encode()), ''.join(lines_of(name, read, answer))))


def changed(read, answer, change, name=None):
    case('changed-' + (name or change), read, answer, change)


def read_and_written():
    """Every accepted text of reader_cases: ids 0 and 65,535, nothing listed, the ends of every range, minus zero, subnormal numbers, the largest texts, the supply's
    line."""
    for name, data, verdict in reader_cases.cases:
        if verdict == reader_cases.OK:
            case(name, data, data)


def largest_rows():
    """256 buses, 512 branches, 512 switches and the supply, each field with many values: 27,436 bytes. The branches at the first 255 positions drawn are a tree; of the
    others every second is out of service, and the rest have normally open switches."""
    draw = random.Random(17)
    ids = [257 * i for i in range(256)]
    draw.shuffle(ids)
    positions = list(range(512))
    draw.shuffle(positions)
    tree, others = set(positions[:255]), positions[255:]
    joined = iter(range(1, 256))
    dead = set(others[::2])
    rows = [head(256, 512, 512, 0x412E848000000000, 1, 999)]
    # the exponents keep a load within 2 to the power of 19 and r below 2 to the power of 9
    rows += [bus(number, draw.getrandbits(1) << 63 | draw.randrange(0x412) << 52 | draw.getrandbits(52)) for number in ids]
    for k in range(512):
        ends = draw.sample(ids, 2)
        if k in tree:
            i = next(joined)
            ends = draw.sample([ids[i], ids[draw.randrange(i)]], 2)
        rows.append(branch(*ends, draw.randrange(0x408) << 52 | draw.getrandbits(52), k not in dead))
    draw.shuffle(positions)
    for i, k in enumerate(positions):
        flags = draw.randrange(2) << 1 | (k not in tree and (k not in dead or draw.randrange(2)))
        rows.append(switch(65535 - 128 * i, k, flags))
    rows.append(supply(draw.choice(ids)))
    assert len(text(rows)) == 27436
    return rows


def largest():
    case('largest-of-many-values', largest_rows(), largest_rows())


def refused_records():
    """Faults that the records get once they are read: a text with one would not be. The place is the line on which the record would stand."""
    faults = [
        ('iterations-1001', 3, 1), ('buses-257', 4, 1), ('branches-513', 4, 1), ('switches-65535', 4, 1), ('base-no-number', 5, 1), ('bus-1-again', 7, 3),
        ('load-out-of-range', 5, 4), ('load-no-number', 5, 4), ('end-not-listed', 6, 6), ('r-below-zero', 5, 6), ('r-no-number-and-end-not-listed', 5, 6),
        ('switch-10-again', 7, 9), ('third-switch-on-a-branch', 8, 10), ('position-3-of-3', 6, 9), ('third-bus-and-first-branch', 7, 4),
    ]
    for change, number, place in faults:
        changed(TRIANGLE, (number, place), change)
    # 11 branches side by side; the first ten switches are ties, and the eleventh, on line 25, becomes one
    beside = [bus(1), bus(2)] + [branch(1, 2)] * 11 + [switch(1 + i, i, 3) for i in range(10)]
    for method in range(3):
        first = head(2, 11, 11, ONE, method)
        tied = [first] + beside + [switch(11, 10, 3)]
        changed([first] + beside + [switch(11, 10, 2)], (9, 25) if method == 2 else tied, 'eleventh-tie', 'eleventh-tie-method-%d' % method)


def unlisted_records():
    """Records behind the counts are no records: they are not written and decide nothing."""
    for name, rows in [('triangle', TRIANGLE), ('small', small()), ('nothing-listed', [head(0, 0, 0, ONE, 2, 0)])]:
        changed(rows, rows, 'refused-if-listed', name + '-refused-if-listed')
    kept = [bus(1), bus(2, ONE)], [branch(1, 2), branch(2, 1, ONE, 0)], [switch(10, 1, 1)]
    last = [bus(3)], [branch(3, 1)], [switch(11, 0)]
    rows = [line for of_kind in zip(kept, last) for part in of_kind for line in part]
    changed([head(3, 3, 2)] + rows, [head(2, 2, 1)] + kept[0] + kept[1] + kept[2], 'fewer-listed')
    # a branch ends at the bus that is no longer listed
    changed(TRIANGLE, (6, 5), 'fewer-listed', 'fewer-listed-of-the-triangle')


def other_records():
    """Accepted records that are not those of the text. What reading leaves behind the counts is zeros."""
    more = TRIANGLE[1:4] + [bus(0)] + TRIANGLE[4:] + [switch(0, 0, 0)]
    changed(TRIANGLE, [head(4, 3, 3)] + more, 'more-listed')
    # the branch of zeros is one from bus 0 to itself
    changed(TRIANGLE, (17, 9), 'one-more-of-each')
    # without a bus 0 its ends are not listed
    changed(TRIANGLE, (6, 8), 'one-more-branch')
    rows = list(TRIANGLE)
    rows[0], rows[1] = head(3, 3, 2, 0x3F50624DD2F1A9FC, 0, 1000), bus(1, MINUS_ZERO)
    rows[4], rows[7] = branch(3, 1, 1, 0), switch(65535, 0, 0)
    changed(TRIANGLE, rows, 'ends-of-ranges')
    changed(TRIANGLE, TRIANGLE[:8] + [switch(11, 1, 3)], 'second-switch-on-a-branch')


def own_loops():
    """Stored texts are read with their branches from a bus to itself; written they are not, whatever the slice. In service or not, with a switch or without."""
    own = branch(2, 2, 0x3FD0000000000000)
    for k in range(4):
        case('own-loop-at-position-%d' % k, [head(3, 4, 2)] + TRIANGLE[1:4 + k] + [own] + TRIANGLE[4 + k:7] + [switch(10, k, 2), switch(11, (k + 1) % 4, 3)], (17, 5 + k))
    case('own-loop-out-of-service', [head(1, 1, 0), bus(1), branch(1, 1, ONE, 0)], (17, 3))
    case('own-loop-open', [head(1, 1, 1), bus(1), branch(1, 1), switch(5, 0, 3)], (17, 3))
    case('own-loop-with-two-switches', [head(2, 2, 2), bus(1), bus(2), branch(1, 2), branch(1, 1), switch(5, 1, 3), switch(6, 1, 0)], (17, 5))
    case('own-loops-only', [head(3, 3, 0)] + TRIANGLE[1:4] + [own] * 3, (17, 5))
    # what is left without it is radial, so that the stored text passes
    case('own-loop-supply', [head(3, 4, 2)] + TRIANGLE[1:4] + [own] + TRIANGLE[4:7] + [switch(10, 2, 2), switch(11, 3, 3), supply(1)], (17, 5))
    looped = small(first=bus(1), branch=branch(2, 2))
    changed(looped, (3, 1), 'iterations-1001', 'own-loop-and-iterations-1001')
    changed(looped, (17, 4), 'refused-if-listed', 'own-loop-and-refused-if-listed')
    # branch 1 gets an end that is not listed, behind the own loop and on it
    for k, fault in [(0, (17, 5)), (1, (6, 6)), (2, (6, 6))]:
        rows = TRIANGLE[:4] + [own if j == k else line for j, line in enumerate(TRIANGLE[4:7])] + TRIANGLE[7:]
        changed(rows, fault, 'end-not-listed', 'own-loop-at-%d-and-end-not-listed' % k)
    changed(TRIANGLE[:6] + [own] + TRIANGLE[7:], (17, 7), 'switch-10-again', 'own-loop-and-switch-10-again')


def supplies():
    """The line is written last where there is a supply. Where there is none its number decides nothing, be it 0 or another."""
    fed = {number: TRIANGLE + [supply(number)] for number in (1, 3)}
    looped = TRIANGLE[:8] + [switch(11, 2, 2)]
    changed(TRIANGLE, TRIANGLE, 'supply-3', 'number-3-without-a-supply')
    changed(looped, looped, 'supply-3', 'number-3-without-a-supply-on-a-loop')
    changed(fed[1], fed[3], 'supply-3')
    changed(fed[1], TRIANGLE, 'has-no-supply', 'number-1-without-a-supply')
    changed(TRIANGLE, TRIANGLE, 'has-no-supply')
    with_0 = [head(2, 1, 0), bus(0), bus(7), branch(7, 0)]
    changed(with_0, with_0 + [supply(0)], 'has-a-supply', 'supply-0')
    # the same faults by records: no bus 0 or 3 is listed; the base is not radial; both
    changed(TRIANGLE, (14, 10), 'has-a-supply', 'supply-0-not-listed')
    changed(with_0 + [supply(7)], (14, 5), 'supply-3', 'supply-3-not-listed')
    changed([head(0, 0, 0)], (14, 2), 'has-a-supply', 'supply-0-of-no-buses')
    changed(looped, (14, 10), 'has-a-supply', 'supply-0-not-listed-on-a-loop')
    parallel = [head(2, 2, 0), bus(0), bus(7), branch(7, 0), branch(0, 7)]
    changed(parallel, (15, 6), 'has-a-supply', 'supply-0-on-a-loop')
    changed(fed[1], (15, 10), 'ends-of-ranges', 'supply-on-a-branch-out-of-service')
    changed(fed[1], (15, 12), 'more-listed', 'supply-beside-a-bus-apart')
    changed(fed[1], (17, 9), 'one-more-of-each', 'supply-and-one-more-of-each')
    # a fault of an earlier record comes first
    changed(fed[1], (7, 9), 'switch-10-again', 'supply-and-switch-10-again')
    changed(fed[1], (3, 1), 'iterations-1001', 'supply-and-iterations-1001')
    changed(fed[1], (8, 10), 'third-switch-on-a-branch', 'supply-and-third-switch-on-a-branch')
    # branch 1 gets the tie, and branch 2 is live without one
    changed(fed[1], TRIANGLE[:8] + [switch(11, 1, 3), supply(1)], 'second-switch-on-a-branch', 'supply-and-second-switch-on-a-branch')
    changed(fed[3], (6, 5), 'fewer-listed', 'supply-no-longer-listed-nor-a-branch-end')
    changed(fed[3], fed[3], 'refused-if-listed', 'supply-and-refused-if-listed')
    tied = [head(2, 11, 11, ONE, 1), bus(1), bus(2)] + [branch(1, 2)] * 11 + [switch(1 + i, i, 3) for i in range(10)] + [switch(11, 10, 2), supply(2)]
    changed(tied, (15, 26), 'eleventh-tie', 'supply-and-eleventh-tie')
    changed([head(2, 11, 11, ONE, 2)] + tied[1:], (9, 25), 'eleventh-tie', 'supply-and-eleventh-tie-method-2')


def main():
    for make in (read_and_written, largest, refused_records, unlisted_records, other_records, own_loops, supplies):
        make()
    names = [name for name, _, _ in cases]
    assert len(names) == len(set(names)), 'a name stands twice'
    os.makedirs(ROOT, exist_ok=True)
    with open(os.path.join(ROOT, 'stdin'), 'wb') as out:
        out.write(b''.join(question for _, question, _ in cases))
        assert out.tell() <= ROOM_FOR_CASES, 'the program has no room for the cases'
    with open(os.path.join(ROOT, 'stdout'), 'w') as out:
        out.write(''.join(printed for _, _, printed in cases))
    print('%d cases' % len(cases))


# tests/cases/repair_cases.py takes the largest text from here
if __name__ == '__main__':
    main()
