#!/usr/bin/env python3
"""Writes crates/reader_cases/stdin and stdout: frame texts and the verdict that documents 01 and 02 give each.

usage: tests/cases/reader_cases.py

Each case of stdin is a line 'LENGTH NAME', the text, and a line feed. Each line of stdout is 'NAME accepted' or
'NAME NUMBER PLACE'. Every verdict is written here by hand from documents 01 and 02, but for texts with two faults, where it is
the rule: the first faulty line decides, inside a line the lower number.
"""
import itertools
import os

ROOT = os.path.join(os.path.dirname(os.path.abspath(__file__)), '..', '..', 'crates', 'reader_cases')
OK = 'accepted'
ONE, ZERO, MINUS_ZERO = 0x3FF0000000000000, 0, 0x8000000000000000
INFINITY, MINUS_INFINITY = 0x7FF0000000000000, 0xFFF0000000000000
NANS = [0x7FF8000000000000, 0x7FF0000000000001, 0xFFF8000000000000, 0xFFF0000000000001, 0xFFFFFFFFFFFFFFFF]
ROOM_FOR_CASES = 622592
cases = []


def head(buses, branches, switches, base=ONE, method=0, iterations=100):
    return '01%04X%04X%04X%016X%02X%04X' % (buses, branches, switches, base, method, iterations)


def bus(number, pd=ZERO):
    return '02%04X%016X' % (number, pd)


def branch(from_bus, to_bus, r=ONE, status=1):
    return '03%04X%04X%016X%02X' % (from_bus, to_bus, r, status)


def switch(number, position, flags=2):
    return '04%04X%04X%02X' % (number, position, flags)


def supply(number):
    return '05%04X' % number


def text(lines):
    return ''.join(line + '\n' for line in lines).encode('latin-1')


def case(name, what, verdict):
    data = what if isinstance(what, bytes) else text(what)
    cases.append((name, data, verdict if isinstance(verdict, str) else '%d %d' % verdict))


def small(**change):
    """Two buses, one branch, one switch; lines 1, 2, 3, 4, 5."""
    lines = dict(head=head(2, 1, 1), first=bus(1), second=bus(2), branch=branch(1, 2), switch=switch(10, 0))
    lines.update(change)
    return list(lines.values())


TRIANGLE = [head(3, 3, 2), bus(1), bus(2, ONE), bus(3, 0x4000000000000000), branch(1, 2, 0x3FD0000000000000),
            branch(2, 3, 0x3FDC000000000000), branch(1, 3, 0x3FC8000000000000), switch(10, 1, 2), switch(11, 2, 3)]


def many(buses, branches, switches, method=0, iterations=100, ties=0):
    """A chain of buses, then branches 1-2 again; a switch a branch, the last ones normally open."""
    rows = [head(buses, branches, switches, ONE, method, iterations)]
    rows += [bus(65535 - i) for i in range(buses)]
    rows += [branch(65535 - min(i, max(buses - 2, 0)), 65535 - min(i + 1, max(buses - 1, 0))) for i in range(branches)]
    rows += [switch(i, i, 2 | (1 if i >= switches - ties else 0)) for i in range(switches)]
    return rows


def examples():
    case('triangle', TRIANGLE, OK)
    case('row-1-0G', b'0G', (1, 1))
    case('row-2-empty-text', b'', (2, 1))
    case('row-3-status-02', small(branch=branch(1, 2, ONE, 2)), (3, 4))
    case('row-3-method-03', small(head=head(2, 1, 1, ONE, 3)), (3, 1))
    case('row-3-method-FF', small(head=head(2, 1, 1, ONE, 255)), (3, 1))
    case('row-3-status-FF', small(branch=branch(1, 2, ONE, 255)), (3, 4))
    case('row-3-flags-04', small(switch=switch(10, 0, 4)), (3, 5))
    case('row-3-flags-80', small(switch=switch(10, 0, 0x80)), (3, 5))
    case('row-4-0101-buses', small(head=head(0x101, 1, 1)), (4, 1))
    case('row-5-pd-infinite', small(second=bus(2, INFINITY)), (5, 3))
    case('row-6-end-0009', small(branch=branch(1, 9)), (6, 4))
    case('row-6-from-0009', small(branch=branch(9, 1)), (6, 4))
    # a branch out of service is judged as any other
    case('row-6-end-0009-out-of-service', [head(1, 1, 0), bus(1), branch(1, 9, ZERO, 0)], (6, 3))
    case('row-6-from-0009-out-of-service', [head(1, 1, 0), bus(1), branch(9, 1, ZERO, 0)], (6, 3))
    case('row-5-r-infinite-out-of-service', [head(1, 1, 0), bus(1), branch(1, 1, INFINITY, 0)], (5, 3))
    case('row-6-position-1-of-1', small(switch=switch(10, 1)), (6, 5))
    case('row-7-bus-0001-again', small(second=bus(1)), (7, 3))
    two = [head(2, 2, 2), bus(1), bus(2), branch(1, 2), branch(1, 2)]
    case('row-7-switch-again', two + [switch(10, 0), switch(10, 1)], (7, 7))
    case('same-id-as-bus-and-switch', small(switch=switch(1, 0)), OK)
    case('two-switches-on-0000', two + [switch(10, 0), switch(11, 0)], OK)
    case('row-8-three-switches-on-0000', [head(2, 2, 3)] + two[1:] + [switch(10, 0), switch(11, 0), switch(12, 0)], (8, 8))
    case('status-00-passes', small(branch=branch(1, 2, ONE, 0)), OK)
    for flags in range(4):
        case('flags-%02X-pass' % flags, small(switch=switch(10, 0, flags)), OK)


def own_loops():
    """Document 02: equal ends, in service or not, are 17 at the branch line, behind 6."""
    case('row-17-own-loop', small(branch=branch(1, 1)), (17, 4))
    case('row-17-own-loop-out-of-service', small(branch=branch(2, 2, ONE, 0)), (17, 4))
    case('row-17-own-loop-open', small(branch=branch(2, 2), switch=switch(10, 0, 3)), (17, 4))
    case('row-17-one-bus', [head(1, 1, 0), bus(1), branch(1, 1)], (17, 3))
    for number in (0, 65535):
        case('row-17-bus-%d' % number, [head(2, 2, 0), bus(65535), bus(0), branch(0, 65535), branch(number, number)], (17, 5))
    for name, line, fault in [('unlisted', branch(9, 9), 6), ('unlisted-out-of-service', branch(9, 9, ONE, 0), 6), ('id-of-a-switch', branch(10, 10), 6),
                              ('r-infinite', branch(1, 1, INFINITY), 5), ('unlisted-r-no-number', branch(9, 9, NANS[0]), 5), ('status-02', branch(1, 1, ONE, 2), 3),
                              ('minus-zero', branch(1, 1, MINUS_ZERO), 17), ('r-1000', branch(1, 1, 0x408F400000000000, 0), 17)]:
        case('own-loop-' + name, small(branch=line), (fault, 4))
    # the triangle with an own loop at each position, and two of them
    own = branch(2, 2, 0x3FD0000000000000)
    for k in range(4):
        rows = [head(3, 4, 2)] + TRIANGLE[1:4 + k] + [own] + TRIANGLE[4 + k:7] + [switch(10, 0, 2), switch(11, 3, 3)]
        case('own-loop-at-position-%d' % k, rows, (17, 5 + k))
        case('own-loop-at-position-%d-supply' % k, rows + [supply(1)], (17, 5 + k))
    case('two-own-loops', [head(3, 5, 0)] + TRIANGLE[1:5] + [own, own] + TRIANGLE[5:7], (17, 6))
    case('only-own-loops', [head(3, 3, 0)] + TRIANGLE[1:4] + [own] * 3, (17, 5))
    # a fault before it, a fault behind it, and none behind it is looked at
    case('own-loop-behind-a-bus-again', [head(2, 1, 0), bus(1), bus(1), branch(1, 1)], (7, 3))
    case('own-loop-behind-an-unlisted-end', [head(2, 2, 0), bus(1), bus(2), branch(1, 9), branch(1, 1)], (6, 4))
    case('own-loop-before-an-unlisted-end', [head(2, 2, 0), bus(1), bus(2), branch(1, 1), branch(1, 9)], (17, 4))
    case('own-loop-before-flags-04', small(branch=branch(1, 1), switch=switch(10, 0, 4)), (17, 4))
    case('own-loop-and-a-line-missing', small(branch=branch(1, 1))[:4], (17, 4))
    case('own-loop-and-a-line-too-many', small(branch=branch(1, 1)) + ['00'], (17, 4))
    case('own-loop-unended', text(small(branch=branch(1, 1))[:4])[:-1], (1, 4))
    case('own-loop-supply-not-listed', small(branch=branch(1, 1)) + [supply(9)], (17, 4))
    case('parallels-pass', [head(2, 3, 0), bus(1), bus(2), branch(1, 2), branch(1, 2), branch(2, 1)], OK)
    case('last-of-512-branches-an-own-loop', many(2, 512, 0)[:-1] + [branch(65534, 65534)], (17, 515))


def rows_of_switches(branches, positions, method=0, ids=None, flags=None):
    """Two buses, parallel branches, and switches on these positions; the first stands on line 4 + branches."""
    ids, flags = ids or range(10, 10 + len(positions)), flags or [2] * len(positions)
    rows = [head(2, branches, len(positions), ONE, method), bus(1), bus(2)] + [branch(1, 2)] * branches
    return rows + [switch(*fields) for fields in zip(ids, positions, flags)]


def two_on_a_branch():
    """Two switches on a branch pass; the third, and any further one, is 8."""
    for name, first, second in [('sections', 2, 2), ('ties', 3, 3), ('tie-and-section', 3, 2), ('section-and-tie', 2, 3), ('locked-ties', 1, 1), ('locked-and-operable', 0, 2)]:
        case('two-' + name, rows_of_switches(1, [0, 0], flags=[first, second]), OK)
        case('two-%s-and-a-third' % name, rows_of_switches(1, [0, 0, 0], flags=[first, second, 2]), (8, 7))
    for name, line, two, three in [('out-of-service', branch(1, 2, ONE, 0), OK, (8, 7)), ('own-loop', branch(1, 1), (17, 4), (17, 4))]:
        rows = [head(2, 1, 2), bus(1), bus(2), line, switch(1, 0), switch(2, 0)]
        case('two-on-an-%s-branch' % name, rows, two)
        case('third-on-an-%s-branch' % name, [head(2, 1, 3)] + rows[1:] + [switch(3, 0)], three)
    # document 02's triangle with two switches on each of two branches
    two_each = TRIANGLE[1:7] + [switch(12, 2, 3), switch(10, 1, 2), switch(11, 2, 3), switch(13, 1, 0)]
    for method in range(3):
        case('triangle-two-each-method-%d' % method, [head(3, 3, 4, ONE, method)] + two_each, OK)
        case('triangle-two-each-and-a-fifth-method-%d' % method, [head(3, 3, 5, ONE, method)] + two_each + [switch(14, 2)], (8, 12))
    case('triangle-two-each-and-one', [head(3, 3, 5)] + two_each + [switch(14, 0)], OK)
    for name, positions, place in [('by-turns', [0, 1, 0, 1, 0], 10), ('by-turns-of-the-other', [0, 1, 0, 1, 1], 10), ('then-a-third', [1, 1, 0, 0, 1], 10), ('fourth', [0, 0, 0, 0, 1], 8),
                                   ('next-branch', [0, 0, 1, 1, 0], 10)]:
        case('row-8-' + name, rows_of_switches(2, positions), (8, place))
    case('two-and-two', rows_of_switches(2, [0, 1, 1, 0]), OK)
    # the id of the third stands twice, or its flags have no meaning, or another switch before it has an id twice
    case('third-with-its-id-twice', rows_of_switches(2, [0, 0, 0, 1], ids=[10, 11, 10, 12]), (7, 8))
    case('third-with-flags-04', rows_of_switches(2, [0, 0, 0, 1], flags=[2, 2, 4, 2]), (3, 8))
    case('third-behind-an-id-twice', rows_of_switches(2, [0, 0, 0], ids=[10, 10, 12]), (7, 7))
    case('third-before-an-id-twice', rows_of_switches(2, [0, 0, 0, 1], ids=[10, 11, 12, 12]), (8, 8))
    case('third-before-a-position-2-of-2', rows_of_switches(2, [0, 0, 0, 2]), (8, 8))
    # ten ties on five branches, two each; the eleventh on one of them or beside them
    ties = [0, 0, 1, 1, 2, 2, 3, 3, 4, 4]
    for method in range(3):
        case('ten-ties-on-five-branches-method-%d' % method, rows_of_switches(6, ties, method, flags=[3] * 10), OK)
        case('eleventh-tie-as-a-third-method-%d' % method, rows_of_switches(6, ties + [2], method, flags=[3] * 11), (8, 20))
        case('eleventh-tie-beside-method-%d' % method, rows_of_switches(6, ties + [5], method, flags=[3] * 11), (9, 20) if method == 2 else OK)
    case('eleventh-tie-as-a-second', rows_of_switches(6, ties[:9] + [5, 4], 2, flags=[3] * 11), (9, 20))
    case('section-as-a-third-behind-ten-ties', rows_of_switches(6, ties + [2], 2, flags=[3] * 10 + [2]), (8, 20))


def many_with_two():
    """Among many branches, far apart and at the ends of the list."""
    order = [(37 * k) % 100 for k in range(100)]
    case('two-far-apart', rows_of_switches(100, order + [order[0]]), OK)
    case('third-far-apart', rows_of_switches(100, order[:50] + [order[0]] + order[50:] + [order[0]]), (8, 205))
    case('third-among-100-of-two', rows_of_switches(100, order + order[::-1] + [order[31]]), (8, 304))
    # counts of eight bits of a position, or of as many switches as fit into one
    case('two-on-0-and-on-256', rows_of_switches(257, [0, 256, 0, 256]), OK)
    case('third-on-256', rows_of_switches(257, [0, 256, 256, 0, 256]), (8, 265))
    # a chain of 256 buses: each of the 255 branches with two switches and one more, or 256 branches with two
    chain = [bus(65535 - i) for i in range(256)] + [branch(65535 - i, 65534 - i) for i in range(255)] + [branch(65280, 65535)]
    positions = [(101 * i) % 256 for i in range(256)]
    both = positions + [(positions[i] + 7) % 256 for i in range(256)]
    ties = {255: 3}
    largest = lambda on: [head(256, 256, 512, ONE, 1, 1000)] + chain + [switch(40000 - 77 * i, k, ties.get(k, 2)) for i, k in enumerate(on)]
    case('256-branches-of-two', largest(both), OK)
    case('256-branches-of-two-supply', largest(both) + [supply(65400)], OK)
    assert both.count(both[-1]) == 2 and both[-1] != both[0]
    case('256-branches-of-two-last-is-a-third', largest(both[:-1] + both[:1]), (8, 1025))


def limits():
    for method in range(3):
        case('nothing-listed-method-%d' % method, [head(0, 0, 0, ONE, method, 0)], OK)
        case('iterations-1000-method-%d' % method, small(head=head(2, 1, 1, ONE, method, 1000)), OK)
        case('iterations-1001-method-%d' % method, small(head=head(2, 1, 1, ONE, method, 1001)), (3, 1))
        case('ten-ties-method-%d' % method, many(11, 12, 12, method, 0, 10), OK)
        eleven = many(11, 12, 12, method, 0, 11)
        case('eleven-ties-method-%d' % method, eleven, (9, 36) if method == 2 else OK)
    locked = [line[:-2] + '%02X' % (int(line[-2:], 16) & 1) if line.startswith('04') else line for line in many(11, 12, 12, 2, 0, 11)]
    case('eleven-locked-ties', locked, (9, 36))
    case('ids-65535-and-0', [head(2, 2, 2), bus(65535), bus(0), branch(0, 65535), branch(65535, 0), switch(65535, 0), switch(0, 1)], OK)
    case('buses-256', many(256, 0, 0), OK)
    case('buses-257', many(257, 0, 0), (4, 1))
    case('buses-65535', [head(65535, 0, 0)], (4, 1))
    case('branches-512', many(2, 512, 0), OK)
    case('branches-513', many(2, 513, 0), (4, 1))
    case('switches-512', many(2, 512, 512), OK)
    case('switches-513', [head(2, 512, 513)] + many(2, 512, 512)[1:], (4, 1))
    for method in range(3):
        case('largest-method-%d' % method, many(256, 512, 512, method, 1000, 10), OK)
    case('largest-and-a-line', text(many(256, 512, 512)) + b'00\n', (2, 1282))
    case('largest-and-a-long-line', text(many(256, 512, 512)) + b'G' * 100, (2, 1282))
    case('largest-last-line-missing', many(256, 512, 512)[:-1], (2, 1281))


def ranges():
    def each(kind, make, place, good, bad):
        for bits in good:
            case('%s-%016X' % (kind, bits), make(bits), OK)
        for bits in bad + [INFINITY, MINUS_INFINITY] + NANS:
            case('%s-%016X' % (kind, bits), make(bits), (5, place))
    each('base', lambda bits: small(head=head(2, 1, 1, bits)), 1,
         [0x3F50624DD2F1A9FC, 0x3F50624DD2F1A9FD, 0x412E847FFFFFFFFF, 0x412E848000000000],
         [0x3F50624DD2F1A9FB, 0x412E848000000001, ZERO, MINUS_ZERO, 1, 0xBFF0000000000000])
    each('pd', lambda bits: small(second=bus(2, bits)), 3,
         [ZERO, MINUS_ZERO, 1, 0x8000000000000001, 0x412E848000000000, 0xC12E848000000000, 0x412E847FFFFFFFFF],
         [0x412E848000000001, 0xC12E848000000001, 0x7FEFFFFFFFFFFFFF, 0xFFEFFFFFFFFFFFFF])
    each('r', lambda bits: small(branch=branch(1, 2, bits)), 4,
         [ZERO, MINUS_ZERO, 1, 0x408F400000000000, 0x408F3FFFFFFFFFFF],
         [0x8000000000000001, 0x408F400000000001, 0xBFF0000000000000, 0x7FEFFFFFFFFFFFFF])


def lines():
    good = text(small())
    case('good', good, OK)
    case('no-line-feed-at-the-end', good[:-1], (1, 5))
    case('a-line-feed-more', good + b'\n', (2, 6))
    case('empty-line-first', b'\n' + good, (2, 1))
    case('only-a-line-feed', b'\n', (2, 1))
    case('head-only', good[:37], (2, 2))
    case('head-with-CR-LF', good[:36] + b'\r' + good[36:], (2, 1))
    case('bus-with-CR-LF', good[:59] + b'\r' + good[59:], (1, 2))
    case('lower-case', small(switch='04000a000002'), (1, 5))
    for name, byte in [('space', 32), ('tab', 9), ('NUL', 0), ('FF', 255), ('slash', 47), ('colon', 58), ('at', 64), ('G', 71), ('a', 97)]:
        case('other-character-' + name, good[:40] + bytes([byte]) + good[41:], (1, 2))
    case('odd-digits', small(switch='04000A00000'), (1, 5))
    case('two-digits-short', small(switch='04000A0000'), (2, 5))
    case('two-digits-long', small(switch='04000A00000200'), (2, 5))
    case('kind-05', small(switch='05000A000002'), (2, 5))
    case('kind-00', small(switch='00000A000002'), (2, 5))
    case('head-again', small(first=head(2, 1, 1)), (2, 2))
    case('bus-for-a-branch', small(branch=bus(3)), (2, 4))
    case('switch-for-a-bus', small(first=switch(1, 0)), (2, 2))
    for size, ending, verdict in [(36, '', (1, 1)), (36, '\n', (2, 1)), (37, '', (2, 1)), (37, '\n', (2, 1)), (1000, '', (2, 1))]:
        for name, character in [('digits', '0'), ('others', 'G')]:
            expected = (1, 1) if (size, name) == (36, 'others') else verdict
            case('line-of-%d-%s-%s' % (size, name, 'ended' if ending else 'unended'), (character * size + ending).encode(), expected)
    for i in range(1, 6):
        case('line-%d-missing-to-the-end' % i, small()[:i - 1], (2, i))
    case('switch-line-missing', small()[:4], (2, 5))
    surplus = [('even', '00\n', 2), ('switch', switch(11, 0) + '\n', 2), ('odd', '000\n', 1), ('other', 'GG\n', 1), ('unended', '00', 1),
               ('unended-odd', '0', 1), ('36-unended', '0' * 36, 1), ('37', '0' * 37, 2), ('37-others-ended', 'G' * 37 + '\n', 2), ('36-others', 'G' * 36 + '\n', 1)]
    for name, more, number in surplus:
        case('surplus-' + name, good + more.encode(), (number, 6))
    case('surplus-two-lines-second-worse', good + b'00\nGG', (2, 6))


def supplies():
    """Document 02's last line, 050001 or another bus, behind the triangle's nine: its base is radial."""
    for number in (1, 2, 3):
        case('supply-bus-%d' % number, TRIANGLE + [supply(number)], OK)
    # the id is no position, no switch's id and no branch's
    for number in (0, 4, 9, 10, 11, 65535):
        case('supply-%d-not-listed' % number, TRIANGLE + [supply(number)], (14, 10))
    ends = [head(2, 1, 0), bus(65535), bus(0), branch(0, 65535)]
    for number, verdict in [(0, OK), (65535, OK), (1, (14, 5)), (65534, (14, 5))]:
        case('supply-%d-of-0-and-65535' % number, ends + [supply(number)], verdict)
    case('supply-the-only-bus', [head(1, 0, 0), bus(7), supply(7)], OK)
    case('supply-beside-the-only-bus', [head(1, 0, 0), bus(7), supply(8)], (14, 3))
    for number in (0, 1, 65535):
        case('supply-%d-of-no-buses' % number, [head(0, 0, 0), supply(number)], (14, 2))
    case('supply-of-no-buses-method-2', [head(0, 0, 0, ONE, 2), supply(1)], (14, 2))
    for method in range(3):
        case('supply-method-%d' % method, [head(3, 3, 2, ONE, method, 1000)] + TRIANGLE[1:] + [supply(2)], OK)
    case('largest-with-supply', many(256, 512, 512, 1, 1000, 257) + [supply(65400)], OK)


def bases():
    """15: the base, with exactly the normally open switches open, is not radial. Locked switches count as others."""
    def fed(name, lines, verdict, number=1):
        case('base-' + name, lines + [supply(number)], verdict)
    fed('with-a-loop', TRIANGLE[:8] + [switch(11, 2, 2)], (15, 10))
    fed('with-a-bus-cut-off', TRIANGLE[:7] + [switch(10, 1, 3), switch(11, 2, 3)], (15, 10))
    fed('with-the-supply-cut-off', TRIANGLE[:7] + [switch(10, 0, 3), switch(11, 2, 3)], (15, 10))
    fed('with-locked-ties', TRIANGLE[:7] + [switch(10, 1, 0), switch(11, 2, 1)], OK)
    fed('with-a-branch-out-of-service', TRIANGLE[:4] + [branch(1, 2, ONE, 0)] + TRIANGLE[5:], (15, 10))
    fed('with-the-tie-out-of-service', TRIANGLE[:6] + [branch(1, 3, ONE, 0)] + TRIANGLE[7:8] + [switch(11, 2, 2)], OK)
    fed('without-switches', [head(2, 1, 0), bus(1), bus(2), branch(2, 1)], OK)
    fed('of-two-parallel', [head(2, 2, 0), bus(1), bus(2), branch(1, 2), branch(2, 1)], (15, 6))
    fed('of-two-parallel-one-open', [head(2, 2, 1), bus(1), bus(2), branch(1, 2), branch(2, 1), switch(5, 0, 3)], OK)
    fed('with-an-own-loop', [head(1, 1, 0), bus(1), branch(1, 1)], (17, 3))
    fed('with-an-own-loop-open', [head(1, 1, 1), bus(1), branch(1, 1), switch(5, 0, 1)], (17, 3))
    fed('of-two-buses-no-branch', [head(2, 0, 0), bus(1), bus(2)], (15, 4), 2)
    # as many branches as a tree has, and a bus apart
    fed('with-a-loop-and-a-bus-apart', [head(4, 3, 0), bus(1), bus(2), bus(3), bus(4), branch(1, 2), branch(2, 3), branch(3, 1)], (15, 9), 4)
    # two switches on a branch: one open is enough to make it dead
    for name, first, second, base in [('tie-and-section', 3, 2, OK), ('section-and-tie', 2, 3, OK), ('both-ties', 3, 1, OK), ('both-sections', 2, 0, (15, 11))]:
        fed('with-a-switch-at-each-end-' + name, [head(3, 3, 3)] + TRIANGLE[1:8] + [switch(11, 2, first), switch(12, 2, second)], base)
    for name, first, second in [('tie-and-section', 3, 2), ('section-and-tie', 2, 3)]:
        fed('cut-off-by-one-of-two-' + name, [head(2, 1, 2), bus(1), bus(2), branch(1, 2), switch(5, 0, first), switch(6, 0, second)], (15, 7))
    fed('not-radial-supply-not-listed', TRIANGLE[:8] + [switch(11, 2, 2)], (14, 10), 9)
    case('not-radial-no-supply', TRIANGLE[:8] + [switch(11, 2, 2)], OK)


def supply_lines():
    """A line behind the switches is judged as the 05 line."""
    good = text(TRIANGLE)
    bad = [('unended', '050001', 1), ('unended-not-listed', '050009', 1), ('odd', '05001\n', 1), ('lower-case', '05000a\n', 1), ('other-character', '05000G\n', 1),
           ('with-CR-LF', '050001\r\n', 1), ('of-7', '0500001\n', 1), ('of-5-unended', '05001', 1), ('of-8', '05000001\n', 2), ('of-4', '0500\n', 2), ('of-2', '05\n', 2),
           ('of-12', '050001000002\n', 2), ('of-36', '05' + '0' * 34 + '\n', 2), ('of-36-unended', '05' + '0' * 34, 1), ('of-37', '05' + '0' * 35 + '\n', 2),
           ('of-37-unended', '05' + '0' * 35, 2), ('of-37-others', '05' + 'G' * 35 + '\n', 2), ('of-1000', '05' + '0' * 998, 2)]
    bad += [('kind-%s' % kind, kind + '0001\n', 2) for kind in ('00', '01', '02', '03', '04', '06', '15', '50', '82', 'FF')]
    bad += [('a-switch', switch(12, 0) + '\n', 2), ('a-head', head(0, 0, 0) + '\n', 2), ('kind-04-unended', '040001', 1), ('kind-06-lower-case', '06000a\n', 1)]
    for name, line, number in bad:
        case('supply-line-' + name, good + line.encode(), (number, 10))
    # a line too many behind it, whatever comes of the 05 line without it
    surplus = [('itself', supply(1) + '\n', 2), ('another-bus', supply(2) + '\n', 2), ('a-switch', switch(12, 0) + '\n', 2), ('unended', '050001', 1), ('odd', '050\n', 1),
               ('other-character', 'GG\n', 1), ('a-line-feed', '\n', 2), ('37-unended', 'G' * 37, 2), ('36-others', 'G' * 36 + '\n', 1)]
    for name, line, number in surplus:
        case('supply-and-' + name, good + b'050001\n' + line.encode(), (number, 11))
    for name, line, number in [('of-8', '05000001\n', 2), ('lower-case', '05000b\n', 1), ('kind-06', '060001\n', 2), ('not-listed', '050009\n', 14)]:
        for behind, more in [('itself', '050001\n'), ('unended', '0')]:
            case('supply-line-%s-and-%s' % (name, behind), good + line.encode() + more.encode(), (number, 10))
    case('supply-line-of-a-loop-and-itself', text(TRIANGLE[:8] + [switch(11, 2, 2)]) + b'050001\n050001\n', (15, 10))
    for name, at in [('head', 0), ('buses', 1), ('branches', 4), ('switches', 7), ('last-switch', 8)]:
        case('supply-before-the-' + name, TRIANGLE[:at] + [supply(1)] + TRIANGLE[at:], (2, at + 1))
        case('supply-for-the-' + name, TRIANGLE[:at] + [supply(1)] + TRIANGLE[at + 1:], (2, at + 1))


# one fault of each number that a kind of line can have; a line is written from what the faults change
FAULTS = {
    'head': {2: dict(tail='00'), 3: dict(method=3), 4: dict(buses=257), 5: dict(base=ZERO)},
    'bus': {2: dict(kind='05'), 5: dict(pd=INFINITY), 7: dict(number=1)},
    'branch': {2: dict(kind='05'), 3: dict(status=2), 5: dict(r=MINUS_INFINITY), 6: dict(to_bus=9), 17: dict(own=True)},
    'switch': {2: dict(kind='05'), 3: dict(flags=7), 6: dict(position=12), 7: dict(number=1), 8: dict(position=0), 9: dict(tie=1)},
    # 15 is no fault of the line itself: the one branch that is live in the base is out of service
    'supply': {2: dict(kind='06'), 14: dict(number=9), 15: {}},
}
PLACES = {'head': 1, 'bus': 3, 'branch': 4, 'switch': 24, 'supply': 25}


def line_of(kind, faults):
    """The line with these faults. 1 is a character that is no digit, put at its end."""
    change = {}
    for number in faults:
        change.update(FAULTS[kind].get(number, {}))
    if kind == 'head':
        line = head(change.get('buses', 2), 10, 11, change.get('base', ONE), change.get('method', 2)) + change.get('tail', '')
    elif kind == 'bus':
        line = bus(change.get('number', 2), change.get('pd', ZERO))
    elif kind == 'branch':
        to_bus = change.get('to_bus', 2)
        line = branch(to_bus if 'own' in change else 1, to_bus, change.get('r', ONE), change.get('status', 1))
    elif kind == 'supply':
        line = supply(change.get('number', 2))
    else:
        flags = change.get('flags', 2) | change.get('tie', 0)
        line = switch(change.get('number', 11), change.get('position', 9), flags)
    line = change.get('kind', line[:2]) + line[2:]
    return line[:-1] + 'G' if 1 in faults else line


def with_faults(by_kind):
    """Two buses, ten branches, eleven switches of which the first ten are ties, two of them on the first branch, with faults in the second bus, first branch, last switch; and a
    supply line where it has a fault."""
    rows = [line_of('head', by_kind.get('head', ())), bus(1), line_of('bus', by_kind.get('bus', ())), line_of('branch', by_kind.get('branch', ()))]
    rows += [branch(1, 2)] * 8 + [branch(1, 2, ONE, 0 if 15 in by_kind.get('supply', ()) else 1)] + [switch(1 + i, max(i - 1, 0), 3) for i in range(10)]
    rows += [line_of('switch', by_kind.get('switch', ()))]
    return rows + [line_of('supply', by_kind['supply'])] if 'supply' in by_kind else rows


def two_faults():
    numbers = {kind: [1] + list(FAULTS[kind]) for kind in FAULTS}
    for kind in FAULTS:
        for number in numbers[kind]:
            expected = (2, 1) if (kind, number) == ('head', 2) else (number, PLACES[kind])
            case('%s-%d' % (kind, number), with_faults({kind: (number,)}), expected)
        for a, b in itertools.combinations(numbers[kind], 2):
            if (kind, a, b) == ('switch', 6, 8):
                continue  # one position cannot be both beyond the branches and taken
            least = 2 if kind == 'head' and 2 in (a, b) else a  # its line is over 36 characters
            case('%s-%d-and-%d' % (kind, a, b), with_faults({kind: (a, b)}), (least, PLACES[kind]))
    for first, second in itertools.combinations(FAULTS, 2):
        for a in numbers[first]:
            for b in numbers[second] if second != 'supply' else (1, 14):
                case('%s-%d-then-%s-%d' % (first, a, second, b), with_faults({first: (a,), second: (b,)}), (a, PLACES[first]))


def main():
    names = [name for name, _, _ in cases]
    assert len(names) == len(set(names)), 'a name stands twice'
    os.makedirs(ROOT, exist_ok=True)
    with open(os.path.join(ROOT, 'stdin'), 'wb') as out:
        for name, data, _ in cases:
            out.write(b'%d %s\n' % (len(data), name.encode()) + data + b'\n')
        assert out.tell() <= ROOM_FOR_CASES, 'the program has no room for the cases'
    with open(os.path.join(ROOT, 'stdout'), 'w') as out:
        for name, _, verdict in cases:
            out.write('%s %s\n' % (name, verdict))
    print('%d cases' % len(cases))


for make in (examples, own_loops, two_on_a_branch, many_with_two, limits, ranges, lines, supplies, bases, supply_lines, two_faults):
    make()
# tests/cases/writer_cases.py and tests/cases/repair_cases.py take the texts from here
if __name__ == '__main__':
    main()
