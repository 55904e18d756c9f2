#!/usr/bin/env python3
"""Writes crates/plan_cases/stdin and stdout: feeders, pairs of states, and the plans between them.

usage: tests/cases/plan_cases.py

Each case of stdin is a line 'LENGTH NAME', a frame text, a line feed, and three lines: 'CHANGE PRESENT', WANTED and SLICE. CHANGE is a
letter for a change of the records once they are read (see CHANGES), a hyphen for none; PRESENT and WANTED have a digit for each byte of
the states, SLICE a dot for each byte of the lent slice. The cases of a feeder stand together, and only the first has the text. Each case
of stdout is 'NAME PAIRS [SLICE]' or 'NAME refused NUMBER PLACE [SLICE]', with the slice as the call leaves it. The answers of the named
cases are written by hand from documents 01 and 02, and those of the drawn ones reckoned from 01's sections State, Refusals and Plan; both must
agree on the named ones, and each planner of plans.WRONG must fail on one and on several drawn ones. Where there is a plan, the one back is a case too. Every plan that
stdout shows is judged: its pairs are carried out and undone switch by switch, and each stopping point and each state between is held to demand 3 by labels.
"""
import os
import random
import re

import plans
from feeders import Feeder
from plans import answer, length_of, line_of, plan

ROOT = os.path.join(os.path.dirname(os.path.abspath(__file__)), '..', '..', 'crates', 'plan_cases')
CHANGES = {'iterations 1001': 'A', 'switch 10 a tie': 'F', '': '-'}
ROOM_FOR_CASES = 655360
# bytes of an 86 line with one id on each side
LINE = 15
# the planners of plans.WRONG are tried on feeders of at most so many buses, and each must fail on so many drawn cases
FEW_BUSES, FEWEST_TOLD = 64, 8
cases, told_apart = [], {}


def listed(pairs):
    """The pairs of a plan; an id alone stands for a list of one."""
    return [tuple(ids if isinstance(ids, tuple) else (ids,) for ids in pair) for pair in pairs]


def case(name, feeder, present, wanted, room, known=None, change=''):
    known = listed(known) if isinstance(known, list) else known
    found = answer(feeder, change, present, wanted, room)
    assert known is None or found == known, (name, found)
    if len(feeder.buses) <= FEW_BUSES:
        for wrong in plans.tell_apart(feeder, change, present, wanted, room, found):
            told_apart.setdefault(wrong, []).append(name)
    cases.append((name, feeder, change, present, wanted, room, found))


TRIANGLE = Feeder([1, 2, 3], [(1, 2, 1), (2, 3, 1), (1, 3, 1)], [(10, 1, 2), (11, 2, 3)],
                  [0x3FD0000000000000, 0x3FDC000000000000, 0x3FC8000000000000], [0, 0x3FF0000000000000, 0x4000000000000000])
CHAIN = [(1, 2, 1), (2, 3, 1), (3, 4, 1)]
BESIDE = [(1, 4, 1), (1, 3, 1)]


def chain(beside, listed, locked=()):
    """Buses 1 to 4 in a chain and branches beside it; switch 100 + k is on branch k, listed in the order that is given."""
    return Feeder([1, 2, 3, 4], CHAIN + beside, [(100 + k, k, 0 if k in locked else 2) for k in listed])


def bytes_of(feeder, live):
    """The state with just these branches live, all being in service."""
    return ''.join('0' if k in live else '1' for _, k, _ in feeder.switches)


def between(name, feeder, present, wanted, known):
    case(name, feeder, bytes_of(feeder, present), bytes_of(feeder, wanted), length_of(listed(known)), known)


def slices():
    case('triangle', TRIANGLE, '01', '10', 15, [(11, 10)])
    case('triangle-back', TRIANGLE, '10', '01', 15, [(10, 11)])
    case('one-byte-longer', TRIANGLE, '01', '10', 16, [(11, 10)])
    case('ten-bytes-longer', TRIANGLE, '01', '10', 25, [(11, 10)])
    case('one-byte-short', TRIANGLE, '01', '10', 14, (13, 0))
    case('no-slice', TRIANGLE, '01', '10', 0, (13, 0))
    case('same-state-no-slice', TRIANGLE, '01', '01', 0, [])
    case('same-state-longer', TRIANGLE, '10', '10', 5, [])
    case('no-buses', Feeder([], [], []), '', '', 0, [])
    case('one-bus', Feeder([7], [], []), '', '', 3, [])
    case('two-parallel', Feeder([1, 2], [(1, 2, 1), (2, 1, 1)], [(8, 0, 2), (9, 1, 2)]), '01', '10', 15, [(9, 8)])
    two = chain([(1, 4, 1), (2, 4, 1)], [0, 1, 2, 3, 4])
    for name, room, known in [('exactly-full', 30, [(103, 100), (104, 102)]), ('one-byte-longer', 31, [(103, 100), (104, 102)]),
                              ('one-byte-short', 29, (13, 0)), ('room-for-one', 15, (13, 0))]:
        case('two-pairs-' + name, two, '00011', '10100', room, known)


def orders():
    """Document 01: by switch order; beginning at the from bus; before the closing; the first that the wanted state doesn't have live."""
    for name, first, known in [('from-bus-1', (1, 4, 1), [(103, 100), (104, 102)]), ('from-bus-4', (4, 1, 1), [(103, 102), (104, 100)])]:
        between(name, chain([first, (2, 4, 1)], [0, 1, 2, 3, 4]), {0, 1, 2}, {1, 3, 4}, known)
    # the second closing's path in the present state has only branch 0 to open, which is open by then
    between('path-before-the-closing', chain(BESIDE, [0, 1, 2, 3, 4]), {0, 1, 2}, {1, 3, 4}, [(103, 100), (104, 102)])
    between('by-switch-order', chain(BESIDE, [4, 2, 3, 1, 0]), {0, 1, 2}, {1, 3, 4}, [(104, 100), (103, 102)])
    five = [(1, 2, 1), (2, 3, 1), (3, 4, 1), (4, 5, 1), (1, 5, 1), (2, 5, 1), (3, 5, 1)]
    listed = [(500, 5, 2), (10, 3, 2), (400, 6, 2), (11, 0, 2), (600, 4, 2), (12, 1, 2)]
    between('by-switch-order-of-three', Feeder([1, 2, 3, 4, 5], five, listed), {0, 1, 2, 3}, {2, 4, 5, 6}, [(500, 12), (400, 10), (600, 11)])
    for name, listed, known in [('ids-rise-positions-fall', [(1, 4, 2), (2, 3, 2), (3, 2, 2), (4, 1, 2), (5, 0, 2)], [(1, 5), (2, 3)]),
                                ('ids-fall-positions-rise', [(5, 0, 2), (4, 1, 2), (3, 2, 2), (2, 3, 2), (1, 4, 2)], [(2, 5), (1, 3)])]:
        between(name, Feeder([1, 2, 3, 4], CHAIN + BESIDE, listed), {0, 1, 2}, {1, 3, 4}, known)


def network_refusals():
    ties, ten = (Feeder([1, 2], [(1, 2, 1)] * 11, [(1 + i, i, flags[i]) for i in range(11)], method=method)
                 for flags, method in (([3] * 11, 0), ([3] * 10 + [2], 2)))
    present, wanted = '0' + '1' * 10, '1' * 10 + '0'
    case('eleven-ties', ties, present, wanted, LINE, [(11, 1)])
    case('ten-ties-exhaustive', ten, present, wanted, LINE, [(11, 1)])
    case('eleven-ties-exhaustive', ten, present, wanted, LINE, (9, 25), 'switch 10 a tie')
    case('eleven-ties-exhaustive-states-02', ten, '2', '2', 0, (9, 25), 'switch 10 a tie')
    case('iterations-1001', TRIANGLE, '01', '10', LINE, (3, 1), 'iterations 1001')
    case('iterations-1001-state-02', TRIANGLE, '02', '10', LINE, (3, 1), 'iterations 1001')
    exhaustive = Feeder(TRIANGLE.buses, TRIANGLE.branches, TRIANGLE.switches, TRIANGLE.resistances, TRIANGLE.loads, 2)
    case('triangle-exhaustive', exhaustive, '01', '10', LINE, [(11, 10)])


def refusals():
    for name, state in [('empty', ''), ('too-short', '0'), ('too-long', '010'), ('byte-02', '02'), ('byte-02-first', '20'), ('byte-FF', '0F'),
                        ('of-513', '0' * 513)]:
        case('present-' + name, TRIANGLE, state, '10', LINE, (10, 0))
        case('wanted-' + name, TRIANGLE, '01', state, LINE, (10, 1))
    case('both-malformed', TRIANGLE, '02', '20', LINE, (10, 0))
    case('present-malformed-wanted-not-radial', TRIANGLE, '02', '00', LINE, (10, 0))
    case('present-not-radial-wanted-malformed', TRIANGLE, '00', '02', LINE, (10, 1))
    case('wanted-malformed-no-slice', TRIANGLE, '01', '02', 0, (10, 1))
    for name, state in [('all-closed', '00'), ('both-open', '11')]:
        case('present-' + name, TRIANGLE, state, '10', LINE, (11, 0))
        case('wanted-' + name, TRIANGLE, '01', state, LINE, (11, 1))
    case('both-not-radial', TRIANGLE, '11', '00', LINE, (11, 0))
    case('same-state-not-radial', TRIANGLE, '00', '00', LINE, (11, 0))
    locked = Feeder(TRIANGLE.buses, TRIANGLE.branches, [(10, 1, 0), (11, 2, 3)])
    case('switch-10-locked', locked, '01', '10', LINE, (12, 10))
    case('switch-10-locked-no-slice', locked, '01', '10', 0, (12, 10))
    case('switch-10-locked-present-not-radial', locked, '00', '10', LINE, (11, 0))
    case('switch-10-locked-wanted-not-radial', locked, '01', '11', LINE, (11, 1))
    case('switch-10-locked-same-state', locked, '01', '01', 0, [])
    case('switch-11-locked', Feeder(TRIANGLE.buses, TRIANGLE.branches, [(10, 1, 2), (11, 2, 1)]), '01', '10', LINE, (12, 11))


def locked_switches():
    for name, listed, locked, known in [('ids-fall', [4, 3, 2, 1, 0], (0, 2, 3, 4), (12, 104)), ('ids-rise', [0, 1, 2, 3, 4], (0, 2, 3, 4), (12, 100)),
                                        ('opening-first', [1, 2, 0, 4, 3], (2, 3), (12, 102)), ('closing-first', [1, 0, 4, 3, 2], (2, 4), (12, 104)),
                                        ('no-differing-one', [4, 3, 2, 1, 0], (1,), [(104, 100), (103, 102)])]:
        feeder = chain(BESIDE, listed, locked)
        case('locked-' + name, feeder, bytes_of(feeder, {0, 1, 2}), bytes_of(feeder, {1, 3, 4}), 2 * LINE, known)
    # branch 3 is out of service: its switch differs, is locked and stays as found
    for flags in (0, 2):
        feeder = Feeder(TRIANGLE.buses, TRIANGLE.branches + [(1, 2, 0)], [(12, 3, flags), (10, 1, 2), (11, 2, 2)])
        for present, wanted in (('0', '1'), ('1', '0')):
            name = 'out-of-service-flags-%d-byte-%s-to-%s' % (flags, present, wanted)
            case(name, feeder, present + '01', wanted + '10', LINE, [(11, 10)])
            case(name + '-empty', feeder, present + '01', wanted + '01', 0, [])


def own_loops():
    """Document 02's 17, wherever such a branch stands, dead or live, moved or not: before 10 to 13. The text is read as a stored one, so that it is the call that refuses."""
    lone = Feeder([7], [(7, 7, 1)], [(1, 0, 2)])
    for name, present, wanted in [('open', '1', '1'), ('closed', '0', '0'), ('moved', '1', '0'), ('malformed', '2', '')]:
        case('one-bus-own-loop-' + name, lone, present, wanted, 0, (17, 3))
    for k in range(4):
        for status in (0, 1):
            branches = TRIANGLE.branches[:k] + [(2, 2, status)] + TRIANGLE.branches[k:]
            others = [j for j in range(4) if j != k]
            looped = Feeder(TRIANGLE.buses, branches, [(10, others[1], 2), (12, k, 0), (11, others[2], 3)], supply=1 if k == 2 else None)
            for name, present, wanted, room in [('', '001', '100', LINE), ('-its-switch-moves', '011', '100', LINE), ('-not-radial', '000', '111', 0), ('-malformed', '0', '2', 0)]:
                case('own-loop-at-%d-status-%d%s' % (k, status, name), looped, present, wanted, room, (17, 5 + k))
    case('own-loop-iterations-1001', Feeder(TRIANGLE.buses, TRIANGLE.branches + [(1, 1, 1)], TRIANGLE.switches), '01', '10', LINE, (3, 1), 'iterations 1001')
    ties = [(1 + i, i, 3 if i < 10 else 2) for i in range(11)]
    for k in (0, 10):
        looped = Feeder([1, 2], [(1, 1 if j == k else 2, 1) for j in range(11)], ties, method=2)
        case('own-loop-at-%d-before-the-eleventh-tie' % k, looped, '0' + '1' * 10, '1' * 10 + '0', LINE, (17, 4 + k), 'switch 10 a tie')


def supplies():
    """Document 02's last line is looked at in the network's test alone: the plan is that of the text without it."""
    for supply in (1, 2, 3):
        fed = Feeder(TRIANGLE.buses, TRIANGLE.branches, TRIANGLE.switches, TRIANGLE.resistances, TRIANGLE.loads, supply=supply)
        case('supply-%d' % supply, fed, '01', '10', LINE, [(11, 10)])
        case('supply-%d-one-byte-short' % supply, fed, '01', '10', LINE - 1, (13, 0))
        case('supply-%d-present-all-closed' % supply, fed, '00', '10', LINE, (11, 0))
        case('supply-%d-wanted-both-open' % supply, fed, '01', '11', LINE, (11, 1))
        case('supply-%d-wanted-short' % supply, fed, '00', '1', LINE, (10, 1))
        case('supply-%d-iterations-1001' % supply, fed, '01', '10', LINE, (3, 1), 'iterations 1001')
    tied = [(100 + k, k, 3 if k > 2 else 2) for k in range(5)]
    for supply in (1, 4):
        between('supply-%d-two-pairs' % supply, Feeder([1, 2, 3, 4], CHAIN + BESIDE, tied, supply=supply), {0, 1, 2}, {1, 3, 4}, [(103, 100), (104, 102)])
    # by records: the base has no live branch once its eleventh switch is a tie
    present, wanted = '0' + '1' * 10, '1' * 10 + '0'
    for method, known in [(0, (15, 26)), (1, (15, 26)), (2, (9, 25))]:
        fed = Feeder([1, 2], [(1, 2, 1)] * 11, [(1 + i, i, 3 if i < 10 else 2) for i in range(11)], method=method, supply=1)
        case('supply-ten-ties-method-%d' % method, fed, present, wanted, LINE, [(11, 1)])
        case('supply-eleven-ties-method-%d' % method, fed, present, wanted, LINE, known, 'switch 10 a tie')
        case('supply-eleven-ties-states-02-method-%d' % method, fed, '2', '2', 0, known, 'switch 10 a tie')


# document 02's triangle with a switch at each end of branch 2 and of branch 1, listed apart; switch 13 is locked
TWO_EACH = Feeder(TRIANGLE.buses, TRIANGLE.branches, [(12, 2, 3), (10, 1, 2), (11, 2, 3), (13, 1, 0)], TRIANGLE.resistances, TRIANGLE.loads)
PARALLEL = [(1, 2, 1), (2, 1, 1)]


def two_on_a_branch():
    """A pair closes all open switches of the one branch and opens those of the other that the wanted state opens."""
    there, back = [((12, 11), 10)], [(10, (12, 11))]
    assert ''.join(map(line_of, listed(there))) == '8602000C000B01000A\n' and ''.join(map(line_of, listed(back))) == '8601000A02000C000B\n'
    for name, room, known in [('exactly-full', 19, there), ('one-byte-longer', 20, there), ('ten-bytes-longer', 29, there), ('one-byte-short', 18, (13, 0)),
                              ('room-for-one-and-one', 15, (13, 0)), ('no-slice', 0, (13, 0))]:
        case('two-each-' + name, TWO_EACH, '1010', '0100', room, known)
    case('two-each-back', TWO_EACH, '0100', '1010', 19, back)
    for room in (0, 18, 19):
        case('two-each-13-would-open-%d' % room, TWO_EACH, '1010', '0101', room, (12, 13))
    case('two-each-13-would-close', TWO_EACH, '0101', '1010', 23, (12, 13))
    for name, present, wanted, known in [('first-open', '1000', '0100', [(12, 10)]), ('second-open', '0010', '0100', [(11, 10)]), ('first-to-open', '0100', '1000', [(10, 12)]),
                                         ('second-to-open', '0100', '0010', [(10, 11)]), ('dead-in-both', '1010', '1000', []), ('dead-by-the-other', '1000', '0010', [])]:
        case('two-each-' + name, TWO_EACH, present, wanted, LINE * len(known), known)
    for name, state in [('all-closed', '0000'), ('12-and-10-open', '1100'), ('12-and-13-open', '1001')]:
        case('two-each-present-' + name, TWO_EACH, state, '0100', 19, (11, 0))
        case('two-each-wanted-' + name, TWO_EACH, '1010', state, 19, (11, 1))
    case('two-each-short-state', TWO_EACH, '101', '0100', 19, (10, 0))
    both = Feeder([1, 2], PARALLEL, [(8, 0, 2), (9, 1, 2), (7, 0, 2), (6, 1, 2)])
    for name, room, known in [('exactly-full', 23, [((9, 6), (8, 7))]), ('one-byte-short', 22, (13, 0)), ('one-byte-longer', 24, [((9, 6), (8, 7))])]:
        case('two-and-two-' + name, both, '0101', '1010', room, known)
    case('two-and-two-one-to-open', both, '0101', '0010', 19, [((9, 6), 7)])
    # a switch that stays closed ranks its branch: by the first that moves, 2 would be closed first
    held = Feeder([1, 2, 3, 4], CHAIN + BESIDE, [(1, 3, 2), (2, 4, 2), (3, 3, 2), (4, 0, 2), (5, 2, 2), (6, 1, 0)])
    case('ranks-by-a-switch-that-stays', held, '011000', '000110', 30, [(3, 4), (2, 5)])
    for flags in (0, 2):
        spare = Feeder(TRIANGLE.buses, TRIANGLE.branches + [(1, 2, 0)], [(14, 3, flags)] + TWO_EACH.switches + [(15, 3, flags)])
        case('two-out-of-service-flags-%d' % flags, spare, '1' + '1010' + '0', '0' + '0100' + '1', 19, there)
        case('two-out-of-service-flags-%d-empty' % flags, spare, '1' + '1010' + '0', '0' + '1010' + '1', 0, [])


def two_and_locked():
    """12 looks at every switch that would move, in list order, and at no other."""
    for name, flags, present, wanted, known in [
            ('opening-listed-first', (0, 3, 1, 2), '0110', '1000', (12, 10)), ('closing-listed-first', (2, 1, 0, 0), '0110', '1001', (12, 12)),
            ('second-to-close', (2, 3, 1, 2), '0110', '1000', (12, 11)), ('second-to-open', (2, 3, 3, 0), '0110', '1001', (12, 13)),
            ('second-stays-closed', (2, 3, 3, 0), '0110', '1000', [((12, 11), 10)]), ('first-stays-closed', (0, 3, 3, 2), '0110', '0001', [((12, 11), 13)]),
            ('first-stays-third-moves', (0, 3, 1, 2), '0110', '0001', (12, 11)),
            ('closed-one-stays', (2, 0, 3, 2), '0010', '1001', [(11, (10, 13))]), ('both-stay', (0, 0, 3, 2), '0010', '0001', [(11, 13)])]:
        feeder = Feeder(TRIANGLE.buses, TRIANGLE.branches, [(number, k, flag) for (number, k), flag in zip([(10, 1), (12, 2), (11, 2), (13, 1)], flags)])
        case('two-locked-' + name, feeder, present, wanted, 23, known)
    # plan order would find 21, which the first pair opens, before 20; by list order 20, which the second closes, comes first
    listed_first = Feeder([1, 2, 3, 4], CHAIN + BESIDE, [(23, 3, 2), (20, 4, 0), (24, 2, 2), (21, 0, 0), (22, 4, 2)])
    case('two-locked-in-list-order', listed_first, '11001', '00110', 40, (12, 20))
    # branch 3 is dead in both states, and its locked switches differ
    spare = Feeder(TRIANGLE.buses, TRIANGLE.branches + [(1, 2, 1)], [(14, 3, 0)] + TWO_EACH.switches + [(15, 3, 1)])
    for present, wanted in ('10', '01'), ('01', '11'), ('11', '10'):
        name = 'two-locked-dead-in-both-%s-to-%s' % (present, wanted)
        case(name, spare, present[0] + '1010' + present[1], wanted[0] + '0100' + wanted[1], 19, [((12, 11), 10)])
        case(name + '-empty', spare, present[0] + '1010' + present[1], wanted[0] + '1010' + wanted[1], 0, [])


def drawn(name, draw, n, share):
    """A feeder of n buses and two radial states of it, of which the second keeps at least a share of the first one's branches."""
    buses = draw.sample(range(65536), n)
    ends = [(i, draw.randrange(max(0, i - draw.choice([1, 3, n])), i)) for i in range(1, n)]
    ends += [tuple(draw.sample(range(n), 2)) for _ in range(draw.randint(1, n if n < 256 else n // 2))]
    draw.shuffle(ends)
    branches = [tuple(buses[i] for i in draw.sample(pair, 2)) + (1,) for pair in ends]
    feeder = Feeder(buses, branches, [])
    order = draw.sample(range(len(branches)), len(branches))
    first = feeder.joined(order)
    draw.shuffle(order)
    kept = [k for k in order if k in first and draw.random() < share]
    second = feeder.joined(kept + [k for k in order if k not in first] + order)
    for k, (a, b, _) in enumerate(branches):
        if k not in first | second and draw.random() < 0.3:
            branches[k] = (a, b, 0)
    states = plans.drawn_switches(draw, feeder, first, second, draw.sample(range(65536), plans.MAX_SWITCHES), n < 256 and draw.random() < 0.15)
    case(name, feeder, *states, length_of(plan(feeder, *states)) + draw.choice([0, 0, 1, 7]))
    if n < 20 and draw.random() < 0.1:
        k, bus = draw.randrange(len(branches)), draw.choice(buses)
        looped = Feeder(buses, branches[:k] + [(bus, bus, draw.randrange(2))] + branches[k + 1:], feeder.switches)
        case(name + '-own-loop', looped, *states, LINE, (17, 2 + n + k))


def full_size():
    """255 pairs on 256 buses: two trees that share no branch, listed in any order, two branches with a switch at each end. And 128 pairs of 256 branches with two switches each,
    which all move."""
    for name, buses, seed, pairs, length in [('255-pairs', 256, 3, 255, 3833), ('128-pairs-of-two-and-two', 129, 5, 128, 128 * 23)]:
        draw = random.Random(seed)
        branches = [(i, i + 1, 1) for i in range(pairs)] + [(draw.randrange(i), i, 1) for i in range(1, buses)]
        positions = list(range(2 * pairs)) + ([17, 300] if pairs == 255 else list(range(2 * pairs)))
        positions = draw.sample(positions, len(positions))
        assert len(positions) == plans.MAX_SWITCHES
        feeder = Feeder(list(range(buses)), branches, [(number, k, 2) for number, k in zip(draw.sample(range(1000, 9999), len(positions)), positions)])
        states = [''.join('01'[(k < pairs) == second] for k in positions) for second in (False, True)]
        assert len(answer(feeder, '', *states, length)) == pairs
        case(name, feeder, *states, length)
        case(name + '-one-byte-short', feeder, *states, length - 1, (13, 0))


def back():
    """The plan back of every plan, where it is no case already."""
    asked = {(feeder.text(), change, present, wanted) for _, feeder, change, present, wanted, _, _ in cases}
    for name, feeder, change, present, wanted, _, found in list(cases):
        question = feeder.text(), change, wanted, present
        if isinstance(found, list) and question not in asked:
            asked.add(question)
            case(name + '-back', feeder, wanted, present, length_of(plan(feeder, wanted, present)), change=change)
            assert isinstance(cases[-1][-1], list), name


def branch_of(feeder, ids, order):
    """The branch of the switches with these ids, which may be moved and stand in this order."""
    places = [i for number in ids for i, (listed, _, _) in enumerate(feeder.switches) if listed == number]
    assert len(places) == len(ids) > 0 and places == sorted(set(places))[::order], 'moves none, a switch twice, or out of order'
    found = {feeder.switches[i][1] for i in places}
    assert len(found) == 1, 'moves switches of two branches'
    assert all(feeder.switches[i][2] & 2 for i in places) and feeder.branches[min(found)][2] == 1, 'moves a switch that it may not move'
    return min(found)


def moved(feeder, state, closes, opens, order=1):
    """The states behind each move of a pair that closes a dead branch and opens a live one on the loop which that makes; order -1 for a pair that is undone."""
    closed, opened, before = branch_of(feeder, closes, order), branch_of(feeder, opens, order), feeder.live(state)
    assert closed not in before and opened in before, 'closes a live branch or opens a dead one'
    assert list(closes) == feeder.open_on(state, closed)[::order], 'closes not just the open switches of its branch'
    label, _ = feeder.labels(before - {opened})
    assert len({label[end] for end in feeder.branches[closed][:2]}) == 2, 'opens a branch that is not on the loop'
    states = [state]
    for id_, byte in [(id_, '0') for id_ in closes] + [(id_, '1') for id_ in opens]:
        states.append(''.join(byte if number == id_ else old for (number, _, _), old in zip(feeder.switches, states[-1])))
    for at, later in enumerate(states):
        expected = before if at < len(closes) else before | {closed} if at == len(closes) else before - {opened} | {closed}
        assert feeder.live(later) == expected, 'has other live branches with %d of its moves done' % at
        assert at == len(closes) or feeder.is_radial(expected), 'is no tree with %d of its moves done' % at
    return states[1:]


def judge(feeder, present, wanted, pairs):
    """How many stopping points a plan has, all pairs forward and all pairs back, each held to demand 3, and how many states between them. Going forward each pair is held to
    document 01's order, its path found by distances."""
    start, aim = feeder.live(present), feeder.live(wanted)
    ranks = [feeder.on(branch_of(feeder, closes, 1))[0] for closes, _ in pairs]
    assert ranks == sorted(feeder.on(k)[0] for k in aim - start), 'closes other branches, or by another order than that of their first listed switches'
    state, points, between = present, 1, 0
    for i, (closes, opens) in enumerate(pairs):
        live, closed = feeder.live(state), branch_of(feeder, closes, 1)
        way = plans.way(feeder, live, *feeder.branches[closed][:2])
        assert branch_of(feeder, opens, 1) == [k for k in way if k not in aim][0], 'opens another branch than the first that the wanted state has not'
        assert list(opens) == feeder.open_on(wanted, branch_of(feeder, opens, 1)), 'opens not just what the wanted state opens'
        assert len(aim - live) == len(pairs) - i, 'has another number of pairs than of branches to close'
        states = moved(feeder, state, closes, opens)
        state, points, between = states[-1], points + 1, between + len(states) - 1
    assert feeder.live(state) == aim, 'ends at other branches than the wanted ones'
    there = plans.to_move(feeder, present, wanted)
    assert state == ''.join(wanted[i] if i in there else byte for i, byte in enumerate(present)), 'moves another switch, or not all'
    assert sum(len(ids) for pair in pairs for ids in pair) == len(there), 'moves a switch twice'
    for closes, opens in reversed(pairs):
        states = moved(feeder, state, opens[::-1], closes[::-1], -1)
        state, points, between = states[-1], points + 1, between + len(states) - 1
    assert state == present, 'does not lead back'
    return points, between


def is_refused(judged, *plan):
    try:
        judged(*plan)
    except AssertionError:
        return True
    return False


def judge_the_judge(feeder, present, wanted, pairs):
    """It refuses all that the planners of plans.WRONG make otherwise, and a first pair that opens a branch beside the path."""
    for wrong in plans.WRONG if len(feeder.buses) <= FEW_BUSES else ('over the present path', 'a wanted branch'):
        if plans.refusal(feeder, '', present, wanted, wrong) is None:
            spoilt = plan(feeder, present, wanted, wrong)
            assert spoilt == pairs or is_refused(judge, feeder, present, wanted, spoilt), wrong
    for closes, opens in pairs[:1]:
        assert is_refused(judge, feeder, present, wanted, [(opens, closes)] + pairs[1:])
        way = feeder.path(feeder.live(present), *feeder.branches[branch_of(feeder, closes, 1)][:2])
        for number, k, flags in feeder.switches:
            assert is_refused(moved, feeder, present, closes, (number,)) == (k not in way or not flags & 2)


def judge_all(shown):
    """How many plans stdout shows, their stopping points and the states between; each is judged. And how many pairs close and open so many switches."""
    read = re.findall(r'(\S+) (\d+|refused \d+ \d+) \[((?:86[0-9A-F]{12,20}\n)*)(\.*)\]\n', shown)
    assert [name for name, *_ in read] == [case[0] for case in cases]
    assert sum(len(''.join(parts)) + 5 for parts in read) == len(shown)
    plans_seen, points, between, sizes = 0, 0, 0, {}
    for (name, said, lines, _), (_, feeder, _, present, wanted, _, _) in zip(read, cases):
        pairs = [pair_in(line) for line in lines.split()]
        assert len(pairs) == (0 if said.startswith('refused') else int(said)), name
        if not said.startswith('refused'):
            of_plan = judge(feeder, present, wanted, pairs)
            plans_seen, points, between = plans_seen + 1, points + of_plan[0], between + of_plan[1]
            judge_the_judge(feeder, present, wanted, pairs)
            for pair in pairs:
                size = tuple(map(len, pair))
                sizes[size] = sizes.get(size, 0) + 1
    return plans_seen, points, between, sizes


def pair_in(line):
    """The ids of an 86 line, by its count bytes."""
    lists, rest = [], line[2:]
    for _ in range(2):
        count, rest = int(rest[:2], 16), rest[2:]
        lists.append(tuple(int(rest[4 * i:4 * i + 4], 16) for i in range(count)))
        rest = rest[4 * count:]
    assert not rest and all(1 <= len(ids) <= 2 for ids in lists), line
    return tuple(lists)


def main():
    for make in (slices, orders, network_refusals, refusals, locked_switches, own_loops, supplies, two_on_a_branch, two_and_locked, full_size):
        make()
    named = len(cases)
    assert set(told_apart) == set(plans.WRONG), set(plans.WRONG) - set(told_apart)
    draw = random.Random(4)
    for i in range(250):
        drawn('drawn-%d' % i, draw, min(draw.randint(2, 40) for _ in range(2)), draw.choice([0, 0, 0.3, 0.6]))
    for i in range(4):
        drawn('drawn-256-buses-%d' % i, draw, 256, [0, 0.1, 0.3, 0.6][i])
    again = sum(name.endswith('-own-loop') for name, *_ in cases[named:])
    feeders = len(cases) - named - again
    back()
    told = {wrong: sum(name.startswith('drawn') for name in names) for wrong, names in told_apart.items()}
    assert min(told.values()) >= FEWEST_TOLD, told
    texts = [case[1].text() for case in cases]
    cases.sort(key=lambda case: texts.index(case[1].text()))
    names = [case[0] for case in cases]
    assert len(names) == len(set(names)), 'a name stands twice'
    os.makedirs(ROOT, exist_ok=True)
    before = None
    with open(os.path.join(ROOT, 'stdin'), 'wb') as out:
        for name, feeder, change, present, wanted, room, _ in cases:
            text = feeder.text()
            given = b'' if text == before else text
            out.write(b'%d %s\n' % (len(given), name.encode()) + given + b'\n')
            out.write(('%s %s\n%s\n%s\n' % (CHANGES[change], present, wanted, '.' * room)).encode())
            before = text
        assert out.tell() <= ROOM_FOR_CASES, 'the program has no room for the cases'
    shown = ''
    for name, _, _, _, _, room, found in cases:
        is_plan = isinstance(found, list)
        lines = ''.join(map(line_of, found)) if is_plan else ''
        said = '%d' % len(found) if is_plan else 'refused %d %d' % found
        shown += '%s %s [%s]\n' % (name, said, lines + '.' * (room - len(lines)))
    plans_seen, points, between, sizes = judge_all(shown)
    with open(os.path.join(ROOT, 'stdout'), 'w') as out:
        out.write(shown)
    print('%d named cases, %d drawn feeders, %d of them again with an own loop, %d cases with the plans back; %d plans with %d stopping points and %d states between judged; pairs that close and open %s; '
          'each of %d wrong planners fails on %d drawn cases or more' % (named, feeders, again, len(cases), plans_seen, points, between,
                                                                       ', '.join('%d and %d: %d' % (*size, sizes[size]) for size in sorted(sizes)), len(told), min(told.values())))


# tests/cases/call_cases.py takes the judge from here
if __name__ == '__main__':
    main()
