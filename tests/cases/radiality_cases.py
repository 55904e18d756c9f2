#!/usr/bin/env python3
"""Writes crates/radiality_cases/stdin and stdout: feeders, states, and what documents 01 and 02 say of their radiality.

usage: tests/cases/radiality_cases.py

Each case of stdin is a line 'LENGTH NAME', a frame text, a line feed, and a line 'CHANGE STATE': a letter for a change of the
records once they are read (see CHANGES), a hyphen for none, and a digit for each byte of the state. A text is left out where the case
before has the same. Each line of stdout is 'NAME tree', 'NAME loop BRANCH ISLANDS', 'NAME islands COUNT' or 'NAME NUMBER PLACE'. The
answers of the named cases are written by hand from these documents, those of the drawn ones reckoned by labels and by searches, which must
agree; all three must agree on the named ones, and each wrong way to read must fail on one of these. Texts are read as stored ones, so that it is the call that refuses a
branch from a bus to itself.
"""
import itertools
import os
import random

import feeders

ROOT = os.path.join(os.path.dirname(os.path.abspath(__file__)), '..', '..', 'crates', 'radiality_cases')
ONE, ZERO = 0x3FF0000000000000, 0
CHANGES = {'max_iterations 1001': 'A', '257 buses': 'B', '513 branches': 'C', '513 switches': 'D', 'base_mva 0': 'E', 'switch 10 a tie': 'F',
           'id of bus 1 is 1': 'G', 'pd of bus 2 is 2000000': 'H', 'end of branch 0 is 9': 'I', 'r of branch 1 is -1': 'J',
           'switch 0 on branch 3': 'K', 'id of switch 1 is 10': 'L', 'three on branch 1': 'M', 'three unlisted': 'N', '': '-'}
WRONG_RECORDS = ('out of service too', 'a byte a branch', 'unlisted too', 'any closed switch makes a branch live', 'the last switch decides', 'the first switch decides')
ROOM_FOR_CASES = 458752
cases, wrong_ways, told_apart = [], set(), set()


def head(buses, branches, switches, method=0):
    return '01%04X%04X%04X%016X%02X0064' % (buses, branches, switches, ONE, method)


def bus(number, pd=ZERO):
    return '02%04X%016X' % (number, pd)


def branch(from_bus, to_bus, status=1):
    return '03%04X%04X%016X%02X' % (from_bus, to_bus, ONE, status)


def switch(number, position, flags=2):
    return '04%04X%04X%02X' % (number, position, flags)


def listed(lines, change, wrong=''):
    """The listed records of a text."""
    buses, branches, switches = ([line for line in lines if line.startswith(kind)] for kind in ('02', '03', '04'))
    if change == 'three unlisted' and wrong != 'unlisted too':
        buses, branches, switches = buses[:-3], branches[:-3], switches[:-3]
    branches = [(line[2:6], line[6:10], 1 if wrong == 'out of service too' else int(line[26:])) for line in branches]
    on = range(len(switches)) if wrong == 'a byte a branch' else [int(line[6:10], 16) for line in switches]
    return feeders.Feeder([line[2:6] for line in buses], branches, [(line[2:6], k, line[10:]) for line, k in zip(switches, on)])


def met_first(feeder, live):
    """The first branch that leads a walk in breadth, from the first bus and then from each that it has not reached, to a bus again."""
    beside, by = feeder.beside(sorted(live)), {}
    for start in feeder.buses:
        queue = [] if start in by else [start]
        by.setdefault(start, None)
        for bus in queue:
            for other, k in beside[bus]:
                if k != by[bus] and other in by:
                    return k
                if other not in by:
                    by[other] = k
                    queue.append(other)


def in_a_loop(feeder, live):
    """The first branch whose ends all others join, behind it or before."""
    return next((k for k in sorted(live) if feeder.branches[k][1] in feeder.reached(live - {k}, feeder.branches[k][0])), None)


def first_labels(feeder, live, count):
    """Labels of which only the first so many are merged; the islands by the branches that merge."""
    place, label = {bus: i for i, bus in enumerate(feeder.buses)}, list(range(len(feeder.buses)))
    islands, closing = len(label) - 1, []
    for k in sorted(live):
        kept, gone = (label[place[end]] for end in feeder.branches[k][:2])
        label[:count] = [kept if old == gone else old for old in label[:count]]
        islands, closing = islands - (kept != gone), closing + [k] * (kept == gone)
    return max(0, islands), closing[0] if closing else None


def apart(feeder, live):
    """Of branches between the same buses only the first."""
    return {k for k in live if not any(set(feeder.branches[j][:2]) == set(feeder.branches[k][:2]) for j in live if j < k)}


def wrong_forms(feeder, live, islands, branch):
    """What each says of a state that is no tree: when it is taken for one, then the islands, the branch, and which branches are added or labels merged."""
    closing = sorted(live - feeder.joined(sorted(live)))
    return {
        'counted only': feeders.TREE if len(live) == len(feeder.buses) - 1 else (islands, branch),
        'joined only': (islands, branch) if islands else feeders.TREE,
        'loops only': (islands, branch) if closing else feeders.TREE,
        'pieces': (islands + 1, branch),
        'one island': (1, branch),
        'no islands beside a loop': (0 if closing else islands, branch),
        'islands before a loop': (islands, None if islands else branch),
        'the last that closes': (islands, closing[-1] if closing else None),
        'the first that a walk meets': (islands, met_first(feeder, live)),
        'the first in a loop': (islands, in_a_loop(feeder, live)),
        'its place among the live': (islands, sorted(live).index(branch) if closing else None),
        'dead ones added': feeder.form_by_labels(set(range(len(feeder.branches)))),
        'no parallels added': feeder.form_by_labels(apart(feeder, live)),
        '255 labels merged': first_labels(feeder, live, 255)}


def try_wrong_ways(lines, state, change, form):
    wrong = {}
    for way in WRONG_RECORDS:
        feeder = listed(lines, change, way)
        wrong[way] = feeder.form_by_labels(feeder.live(state, way))
    if form != feeders.TREE:
        feeder = listed(lines, change)
        wrong.update(wrong_forms(feeder, feeder.live(state), *form))
    wrong_ways.update(wrong)
    told_apart.update(way for way in wrong if wrong[way] != form)


def words(islands, branch):
    if (islands, branch) == feeders.TREE:
        return TREE
    return 'islands %d' % islands if branch is None else 'loop %d %d' % (branch, islands)


def case(name, lines, state, answer=None, change=''):
    """A refusal's number and place, or the words that are to be reckoned; none for a drawn state."""
    if isinstance(answer, tuple):
        reckoned = '%d %d' % answer
    else:
        feeder = listed(lines, change)
        form = feeder.form(feeder.live(state))
        reckoned = words(*form)
        assert answer in (None, reckoned), (name, reckoned)
        if answer:
            try_wrong_ways(lines, state, change, form)
    cases.append((name, lines, CHANGES[change], state, reckoned))


TREE, FEEDERS = 'tree', 250
ONE_BUS = [head(1, 0, 0), bus(1)]
TWO = [bus(1), bus(2)]
TRIANGLE = [head(3, 3, 2), bus(1), bus(2, ONE), bus(3, 0x4000000000000000), branch(1, 2), branch(2, 3), branch(1, 3),
            switch(10, 1, 2), switch(11, 2, 3)]


def small(n, branches, switches=()):
    return [head(n, len(branches), len(switches))] + [bus(1 + i) for i in range(n)] + branches + list(switches)


def marked():
    case('no-buses', [head(0, 0, 0)], '', TREE)
    case('one-bus', ONE_BUS, '', TREE)
    case('one-bus-own-loop', [head(1, 1, 0), bus(1), branch(1, 1)], '', (17, 3))
    case('two-buses-one-branch', [head(2, 1, 0)] + TWO + [branch(1, 2)], '', TREE)
    case('two-parallel', [head(2, 2, 0)] + TWO + [branch(1, 2), branch(1, 2)], '', 'loop 1 0')
    case('triangle-base', TRIANGLE, '01', TREE)
    case('triangle-exchanged', TRIANGLE, '10', TREE)
    case('triangle-all-closed', TRIANGLE, '00', 'loop 2 0')


def others():
    case('triangle-both-open', TRIANGLE, '11', 'islands 1')
    case('two-buses-turned', [head(2, 1, 0)] + TWO + [branch(2, 1)], '', TREE)
    case('two-buses-no-branch', [head(2, 0, 0)] + TWO, '', 'islands 1')
    case('two-buses-out-of-service', [head(2, 1, 0)] + TWO + [branch(1, 2, 0)], '', 'islands 1')
    case('out-of-service-with-closed-switch', [head(2, 1, 1)] + TWO + [branch(1, 2, 0), switch(1, 0)], '0', 'islands 1')
    case('two-parallel-one-out-of-service', [head(2, 2, 0)] + TWO + [branch(1, 2, 0), branch(2, 1)], '', TREE)
    case('two-parallel-one-open', [head(2, 2, 1)] + TWO + [branch(1, 2), branch(1, 2), switch(1, 1)], '1', TREE)
    # three live branches for four buses, and one bus is not reached
    case('loop-and-a-bus-apart', [head(4, 3, 0)] + TWO + [bus(3), bus(4), branch(1, 2), branch(2, 3), branch(3, 1)], '', 'loop 2 1')
    case('loop-apart-from-the-first-bus', [head(4, 3, 0)] + TWO + [bus(3), bus(4), branch(2, 3), branch(3, 4), branch(4, 2)], '', 'loop 2 1')
    case('star', [head(4, 3, 0)] + TWO + [bus(3), bus(4), branch(1, 2), branch(3, 1), branch(1, 4)], '', TREE)


def full_size():
    buses = [bus(65535 - i) for i in range(256)]
    chain = [branch(65535 - i, 65534 - i) for i in range(255)]
    case('256-buses-no-branch', [head(256, 0, 0)] + buses, '', 'islands 255')
    case('256-buses-512-parallels-at-the-last', [head(256, 512, 0)] + buses + [branch(65281, 65280)] * 512, '', 'loop 1 254')
    case('chain-of-256', [head(256, 255, 0)] + buses + chain, '', TREE)
    # branch 511 has the first switch, branch 0 the last: the extras from the first bus to the last stand before the sections of the chain
    ring = [head(256, 512, 512)] + buses + chain + [branch(65535, 65280)] * 257 + [switch(i, 511 - i) for i in range(512)]
    for name, extras, sections, answer in [
            ('extras-open', '1' * 257, '0' * 255, TREE), ('one-more-closed', '1' * 256 + '0', '0' * 255, 'loop 255 0'),
            ('another-section-open', '1' * 256 + '0', '0' * 254 + '1', TREE), ('last-closed', '0' + '1' * 256, '0' * 255, 'loop 511 0'),
            ('all-closed', '0' * 257, '0' * 255, 'loop 255 0'), ('all-open', '1' * 257, '1' * 255, 'islands 255'),
            ('sections-open', '0' * 257, '1' * 255, 'loop 256 254'), ('two-sections-open', '0' + '1' * 256, '0' * 253 + '11', 'islands 1'),
            ('255-live-branches-one-bus-apart', '1' * 255 + '00', '0' * 253 + '11', 'loop 256 1')]:
        case('ring-512-switches-' + name, ring, extras + sections, answer)


def loops():
    """The first branch that closes one by rising position, wherever a walk begins."""
    ring = [branch(1, 2), branch(2, 3), branch(3, 1)]
    case('parallel-before-a-ring', small(3, [branch(2, 1)] + ring), '', 'loop 1 0')
    case('parallel-behind-a-ring', small(3, ring + [branch(2, 1)]), '', 'loop 2 0')
    case('ring-from-the-far-side', small(4, [branch(3, 4), branch(2, 3), branch(4, 1), branch(1, 2)]), '', 'loop 3 0')
    case('ring-with-a-chord', small(4, [branch(4, 1), branch(3, 4)] + ring), '', 'loop 3 0')
    pairs = [branch(3, 4), branch(4, 3), branch(1, 2), branch(2, 1)]
    case('two-rings-joined', small(4, pairs + [branch(2, 3)]), '', 'loop 1 0')
    case('two-rings-apart', small(4, pairs), '', 'loop 1 1')
    # as many live branches as a tree of these buses has
    case('loop-of-four-branches-five-buses', small(5, [branch(3, 4), branch(1, 2), branch(2, 1), branch(1, 2)]), '', 'loop 2 2')


def own_loops():
    """Document 02's 17, wherever such a branch stands, dead or live, before 10; a fault of an earlier line comes first."""
    ring = [branch(1, 2), branch(2, 3), branch(3, 1)]
    case('own-loop-open', [head(1, 1, 1), bus(1), branch(1, 1), switch(7, 0)], '1', (17, 3))
    case('own-loop-open-state-02', [head(1, 1, 1), bus(1), branch(1, 1), switch(7, 0)], '2', (17, 3))
    case('own-loop-for-a-branch', [head(2, 1, 0)] + TWO + [branch(1, 1)], '', (17, 4))
    case('own-loop-before-a-ring', small(3, [branch(2, 2)] + ring), '', (17, 5))
    case('own-loop-within-a-ring', small(3, ring[:1] + [branch(3, 3)] + ring[1:]), '', (17, 6))
    case('own-loop-behind-a-ring', small(3, ring + [branch(1, 1)]), '', (17, 8))
    case('own-loops-at-four-of-five-buses', small(5, [branch(i, i) for i in range(2, 6)]), '', (17, 7))
    for how, status, state in [('open', 1, '1'), ('out-of-service', 0, '0')]:
        case('own-loop-within-a-ring-' + how, small(3, ring[:1] + [branch(2, 2, status)] + ring[1:], [switch(9, 1)]), state, (17, 6))
        case('own-loop-beside-a-tree-' + how, small(3, ring[:2] + [branch(2, 2, status)], [switch(9, 2)]), state, (17, 7))
    # what is left of it is radial, so that a stored text with its supply passes
    fed = [head(3, 4, 2)] + TRIANGLE[1:5] + [branch(2, 2)] + TRIANGLE[5:7] + [switch(10, 2, 2), switch(11, 3, 3), '050001']
    for state in ('01', '10', '00', '0', '02'):
        case('own-loop-supply-state-' + state, fed, state, (17, 6))
    triangle = fed[:-1]
    for change, answer in [('max_iterations 1001', (3, 1)), ('id of bus 1 is 1', (7, 3)), ('end of branch 0 is 9', (6, 5)), ('switch 0 on branch 3', (17, 6)), ('id of switch 1 is 10', (17, 6)),
                           ('three on branch 1', (17, 6)), ('r of branch 1 is -1', (5, 6))]:
        case('own-loop-and-' + change.replace(' ', '-'), triangle, '01', answer, change)


def dead_branches():
    """An open switch and a branch out of service neither close nor join."""
    ab, bc, ca = branch(1, 2), branch(2, 3), branch(3, 1)
    for how, status, state in [('open', 1, '1'), ('out-of-service', 0, '0')]:
        for name, n, position, branches, answer in [
                ('last-of-a-ring', 3, 2, [ab, bc, branch(3, 1, status)], TREE),
                ('last-of-a-ring-bus-apart', 4, 2, [ab, bc, branch(3, 1, status)], 'islands 1'),
                ('first-of-a-ring-bus-apart', 4, 0, [branch(1, 2, status), bc, ca], 'islands 1'),
                ('first-parallel', 3, 0, [branch(1, 2, status), ab, bc, ca], 'loop 3 0'),
                ('second-parallel', 3, 1, [ab, branch(2, 1, status), bc, ca], 'loop 3 0'),
                ('joining', 3, 0, [branch(1, 2, status), bc], 'islands 1'),
                ('joining-beside-a-loop', 3, 1, [ab, branch(2, 3, status), ab], 'loop 2 1')]:
            case('%s-%s' % (name, how), small(n, branches, [switch(9, position)]), state, answer)


def two_on_a_branch():
    """A branch is live only where both of its switches are closed. Document 02's triangle has its switches 12, 10, 11, 13 on branches 2, 1, 2, 1."""
    two_each = [head(3, 3, 4)] + TRIANGLE[1:7] + [switch(12, 2, 3), switch(10, 1, 2), switch(11, 2, 3), switch(13, 1, 0)]
    for state, answer in [('1010', TREE), ('0010', TREE), ('1000', TREE), ('0000', 'loop 2 0'), ('0100', TREE), ('0001', TREE), ('0101', TREE), ('1100', 'islands 1'),
                          ('0110', 'islands 1'), ('1001', 'islands 1'), ('0011', 'islands 1'), ('1111', 'islands 1')]:
        case('two-each-' + state, two_each, state, answer)
    for state in ('', '101', '10101', '1020'):
        case('two-each-malformed-' + state, two_each, state, (10, 0))
    parallel = small(2, [branch(1, 2), branch(2, 1), branch(1, 2, 0)], [switch(1, 0), switch(2, 2), switch(3, 1), switch(4, 1), switch(5, 0), switch(6, 2)])
    for state, answer in [('000000', 'loop 1 0'), ('100000', TREE), ('000010', TREE), ('001000', TREE), ('000100', TREE), ('010001', 'loop 1 0'), ('101000', 'islands 1'), ('100100', 'islands 1'),
                          ('001110', 'islands 1')]:
        case('two-on-parallels-' + state, parallel, state, answer)


def refusals():
    for name, state in [('empty', ''), ('too-short', '0'), ('too-long', '010'), ('byte-02', '02'), ('byte-02-first', '20'),
                        ('byte-FF', '0F'), ('too-long-of-513', '0' * 513)]:
        case('state-' + name, TRIANGLE, state, (10, 0))
    case('state-of-a-feeder-without-switches', ONE_BUS, '0', (10, 0))
    case('state-of-no-buses', [head(0, 0, 0)], '0', (10, 0))
    for change, answer in [('max_iterations 1001', (3, 1)), ('257 buses', (4, 1)), ('513 branches', (4, 1)), ('513 switches', (4, 1)),
                           ('base_mva 0', (5, 1)), ('id of bus 1 is 1', (7, 3)), ('pd of bus 2 is 2000000', (5, 4)),
                           ('end of branch 0 is 9', (6, 5)), ('r of branch 1 is -1', (5, 6)), ('switch 0 on branch 3', (6, 8)),
                           ('id of switch 1 is 10', (7, 9)), ('three on branch 1', (8, 10))]:
        name = 'records-' + change.replace(' ', '-')
        case(name, TRIANGLE, '01', answer, change)
        case(name + '-state-02', TRIANGLE, '02', answer, change)
    ties = [head(2, 11, 11)] + TWO + [branch(1, 2)] * 11 + [switch(1 + i, i, 3) for i in range(11)]
    case('eleven-ties', ties, '0' + '1' * 10, TREE)
    ten = [head(2, 11, 11, 2)] + ties[1:-1] + [switch(11, 10)]
    case('ten-ties-exhaustive', ten, '0' + '1' * 10, TREE)
    case('records-eleven-ties-exhaustive', ten, '0' + '1' * 10, (9, 25), 'switch 10 a tie')


def unlisted():
    """Buses 1 and 2 with branch 0 are listed, and no switch."""
    lines = [head(5, 4, 3)] + TWO + [bus(3), bus(4), bus(5), branch(1, 2), branch(3, 4), branch(1, 2), branch(4, 5)]
    lines += [switch(1, 1), switch(2, 0), switch(3, 3)]
    case('unlisted', lines, '', TREE, 'three unlisted')
    case('unlisted-state-for-all', lines, '000', (10, 0), 'three unlisted')
    case('all-listed', lines, '000', 'loop 2 1')
    rest = [branch(3, 4), branch(3, 4), branch(1, 2)] + lines[10:]
    for name, first, answer in [('islands', branch(1, 2, 0), 'islands 1'), ('own-loop', branch(2, 2), (17, 4))]:
        case('unlisted-beside-' + name, lines[:6] + [first] + rest, '', answer, 'three unlisted')
    looped = [head(5, 5, 3)] + lines[1:6] + [branch(1, 2), branch(2, 1)] + rest
    case('unlisted-beside-loop', looped, '', 'loop 1 0', 'three unlisted')
    # one that is no longer listed decides nothing
    case('unlisted-own-loop', lines[:6] + [branch(1, 2), branch(4, 4), branch(2, 2), branch(1, 1)] + rest[3:], '', TREE, 'three unlisted')


def supplies():
    """Document 02's last line is looked at in the network's test alone: no state that is not radial is refused for it."""
    for supply in (1, 3):
        fed = TRIANGLE + ['05%04X' % supply]
        for name, state, answer in [('base', '01', TREE), ('exchanged', '10', TREE), ('all-closed', '00', 'loop 2 0'), ('both-open', '11', 'islands 1'), ('short', '0', (10, 0))]:
            case('supply-%d-%s' % (supply, name), fed, state, answer)
    case('supply-the-only-bus', ONE_BUS + ['050001'], '', TREE)
    fed = TRIANGLE + ['050001']
    for change, answer in [('max_iterations 1001', (3, 1)), ('id of switch 1 is 10', (7, 9)), ('257 buses', (4, 1))]:
        case('supply-and-' + change.replace(' ', '-'), fed, '02', answer, change)
    # by records: 14 where the supply's bus is listed no longer; 15 where branch 1 has lost its open switch, or the last of eleven parallel ones its closed one
    five = TWO + [bus(3), bus(4), bus(5), branch(1, 2), branch(1, 2), branch(2, 3), branch(3, 4), branch(4, 5), switch(1, 1, 3), switch(2, 0), switch(3, 3)]
    for supply, answer in [(1, (15, 6)), (2, (15, 6)), (3, (14, 6)), (5, (14, 6))]:
        case('supply-%d-three-unlisted' % supply, [head(5, 5, 3)] + five + ['05%04X' % supply], '', answer, 'three unlisted')
    without = TWO + [bus(3), bus(4), bus(5), branch(1, 2), branch(2, 3), branch(3, 4), branch(4, 5), switch(1, 1), switch(2, 0), switch(3, 3)]
    case('supply-1-three-unlisted-radial', [head(5, 4, 3)] + without + ['050001'], '', TREE, 'three unlisted')
    case('supply-4-three-unlisted-radial', [head(5, 4, 3)] + without + ['050004'], '', (14, 5), 'three unlisted')
    ten = TWO + [branch(1, 2)] * 11 + [switch(1 + i, i, 3) for i in range(10)] + [switch(11, 10)]
    for method, answer in [(0, (15, 26)), (1, (15, 26)), (2, (9, 25))]:
        lines = [head(2, 11, 11, method)] + ten + ['050002']
        case('supply-ten-ties-method-%d' % method, lines, '0' + '1' * 10, TREE)
        case('supply-eleven-ties-method-%d' % method, lines, '0' + '1' * 10, answer, 'switch 10 a tie')


def drawn_branches(draw, n):
    """At most 20: mostly a tree over all buses, and others beside it, parallels among them. Each with its ends, whether it is in service and whether it has a switch."""
    ends = [(i, draw.randrange(i)) for i in range(1, n) if draw.random() < 0.99]
    branches = [(pair, draw.random() < 0.99, draw.random() < 0.75) for pair in ends]
    for _ in range(draw.randint(0, min(9, 20 - len(ends))) if n > 1 else 0):
        pair = tuple(draw.sample(range(n), 2))
        pair = draw.choice([pair, draw.choice(ends or [pair])])
        branches.append((pair, draw.random() < 0.85, draw.random() < 0.97))
    draw.shuffle(branches)
    return [tuple(draw.sample(pair, 2)) for pair, _, _ in branches], [s for _, s, _ in branches], [k for k, b in enumerate(branches) if b[2]]


def drawn_states(draw, n, ends, status, on):
    """Every state of few switches. Of more: trees, what is one or two switches beside them, and any states."""
    if len(on) <= 4:
        return [''.join(digits) for digits in itertools.product('01', repeat=len(on))]
    fixed = [k for k in range(len(ends)) if status[k] and k not in on]
    moved = sorted({k for k in on if status[k]})
    states, feeder = set(), feeders.Feeder(range(n), ends, [])
    for _ in range(17):
        tree = feeder.joined(fixed + draw.sample(moved, len(moved)))
        # of two switches on a dead branch one is open, or both are
        opened = {k: draw.choice([[0], [1], [0, 1]]) if on.count(k) == 2 else [0] for k in moved if k not in tree}
        state = [draw.choice('01') if not status[k] else '01'[on[:i].count(k) in opened.get(k, ())] for i, k in enumerate(on)]
        toggled = draw.sample(range(len(on)), draw.choice([1, 2, 3, 3]))
        states |= {''.join(state), ''.join('10'[int(byte)] if i in toggled else byte for i, byte in enumerate(state))}
    states |= {''.join(draw.choice('01') for _ in on) for _ in range(2)}
    return sorted(states)


def drawn(number, draw, beyond):
    """A feeder of at most 12 buses and its states; so many records of each kind stand beyond those that the call is to list."""
    n = draw.randint(0, 12)
    ends, status, on = drawn_branches(draw, n)
    on += [k for k in on if draw.random() < 0.4]
    draw.shuffle(on)
    ids = draw.sample(range(65536), n + beyond)
    all_ends = ends + [tuple(draw.sample(range(n + beyond), 2)) for _ in range(beyond)]
    all_on = on + draw.sample([k for k in range(len(all_ends)) if k not in on], beyond)
    lines = [head(n + beyond, len(all_ends), len(all_on))] + [bus(i) for i in ids]
    lines += [branch(ids[a], ids[b], in_service) for (a, b), in_service in zip(all_ends, status + [True] * beyond)]
    lines += [switch(i, k, draw.randrange(4)) for i, k in zip(draw.sample(range(65536), len(all_on)), all_on)]
    change = 'three unlisted' if beyond else ''
    if number % 5 == 0 and n:
        drawn_own_loop(number, draw, lines, ids[draw.randrange(n)], len(on) + beyond)
    for i, state in enumerate(drawn_states(draw, n, ends, status, on)):
        case('d%d-%d' % (number, i), lines, state, change=change)
    malformed = ''.join(draw.choice('01') for _ in on)
    malformed = draw.choice([malformed + '0', malformed + '010', malformed[:-1] + draw.choice('23F')])
    case('d%d-malformed' % number, lines, malformed, (10, 0), change)


def drawn_own_loop(number, draw, lines, at, switches):
    """The feeder with one of its branches leading from a bus to itself: its place is the line's, whatever the state."""
    branches = [i for i, line in enumerate(lines) if line.startswith('03')]
    if branches:
        i = draw.choice(branches)
        looped = lines[:i] + [branch(at, at, draw.randrange(2))] + lines[i + 1:]
        case('d%d-own-loop' % number, looped, ''.join(draw.choice('01') for _ in range(switches)), (17, i + 1))


def kinds(answers):
    """How many there are of each."""
    words = [answer.split() for answer in answers]
    count = [word[0] if word[0] != 'loop' else 'loop alone' if word[2] == '0' else 'loop with islands' for word in words]
    return ', '.join('%d %s' % (count.count(kind), kind) for kind in ('tree', 'loop alone', 'loop with islands', 'islands')) + ', %d refused 10, %d refused 17' % (count.count('10'), count.count('17'))


def main():
    for make in (marked, others, full_size, loops, own_loops, dead_branches, two_on_a_branch, refusals, unlisted, supplies):
        make()
    named = len(cases)
    assert told_apart == wrong_ways, wrong_ways - told_apart
    draw = random.Random(5)
    for number in range(FEEDERS):
        drawn(number, draw, 3 if number % 4 == 0 else 0)
    names = [case[0] for case in cases]
    assert len(names) == len(set(names)), 'a name stands twice'
    os.makedirs(ROOT, exist_ok=True)
    before = None
    with open(os.path.join(ROOT, 'stdin'), 'wb') as out:
        for name, lines, change, state, _ in cases:
            text = b'' if lines == before else ''.join(line + '\n' for line in lines).encode()
            out.write(b'%d %s\n' % (len(text), name.encode()) + text + b'\n' + ('%s %s\n' % (change, state)).encode())
            before = lines
        assert out.tell() <= ROOM_FOR_CASES, 'the program has no room for the cases'
    with open(os.path.join(ROOT, 'stdout'), 'w') as out:
        for name, _, _, _, answer in cases:
            out.write('%s %s\n' % (name, answer))
    print('%d named cases, %d wrong ways told apart; %d states of %d drawn feeders: %s' % (
        named, len(told_apart), len(cases) - named, FEEDERS, kinds(answer for *_, answer in cases[named:])))


main()
