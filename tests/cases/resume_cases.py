#!/usr/bin/env python3
"""Writes crates/resume_cases/stdin and stdout: plans that were cut off, and what finishes them or goes back.

usage: tests/cases/resume_cases.py

Each case of stdin is a line 'LENGTH NAME', a frame text, a line feed, and three lines: 'CHANGE PRESENT', WANTED and CALLS. CHANGE is a letter
for a change of the records once they are read (see CHANGES), a hyphen for none; PRESENT and WANTED have a digit for each byte of the states.
CALLS is 'O COUNT REMAINING BACK' for one call, with the lengths of the two lent slices, or 'E MOVES' for every count from 0 to one above the
plan's moves, with slices as long as the lists. The cases of a feeder stand together, and only the first has the text. Each case of stdout is
its name on a line and, for each call, 'COUNT ANSWER [REMAINING] [BACK]' with the slices as the call leaves them: ANSWER is the number of
remaining moves or 'refused NUMBER PLACE'. 'L MOVES' is for the longest plan, whose slices would fill 2.4 MB. There the two longest lists
stand in full, those that remain at count 0 and that go back from the last one, and every other list is the end of one of these: the program
compares each slice with it, byte for byte, and prints 'end', so that no byte at any count is left out.

The answers of the named calls are written by hand from documents 01 and 02, but for the lists of the longest plan; these and the others are
reckoned from 01's sections State, Refusals and Plan and 02's Point 4. Both must agree on those by hand, and each answer of WRONG must differ on
a named one. Every answer that stdout shows is judged by labels: at its count, all along its two lists to the wanted live branches and to the
bytes of the present state, and as README has it where the stored count is one move behind. plans.py has the plans and the ways to get them wrong.
"""
import functools
import itertools
import os
import re

import feeders
import plans
from plans import refusal

ROOT = os.path.join(os.path.dirname(os.path.abspath(__file__)), '..', '..', 'crates', 'resume_cases')
CHANGES = {'iterations 1001': 'A', 'switch 10 a tie': 'F', '': '-'}
ROOM_FOR_CASES = 524288
# bytes of an 82 line
LINE_LENGTH = 9
OPEN, CLOSE = 0, 1
# each of TOLD_BY_DRAWN must fail on so many drawn plans
FEWEST_TOLD = 50
cases, told_apart, told_by_drawn = [], set(), {}


class Draw:
    """The same numbers from the same seed, with every Python."""

    def __init__(self, seed):
        self.state = seed

    def below(self, bound):
        self.state = (self.state * 6364136223846793005 + 1442695040888963407) % 2 ** 64
        return (self.state >> 33) % bound

    def chance(self, percent):
        return self.below(100) < percent

    def choice(self, things):
        return things[self.below(len(things))]

    def shuffled(self, things):
        left = list(things)
        return [left.pop(self.below(len(left))) for _ in range(len(left))]

    def ids(self, count):
        seen = {}
        while len(seen) < count:
            seen[self.below(65536)] = True
        return list(seen)


class Feeder(feeders.Feeder):
    def __init__(self, *records, **others):
        super().__init__(*records, **others)
        self.kinds = {}

    @functools.cached_property
    def places(self):
        """Where each switch stands in the list, by its id."""
        return {number: i for i, (number, _, _) in enumerate(self.switches)}

    def branch_of(self, number):
        return self.switches[self.places[number]][1]

    def kind(self, state):
        """What the live branches are: a tree, or all buses connected with one branch more, which is then in the only loop."""
        if state not in self.kinds:
            live = self.live(state)
            pieces, spare = len(set(self.labels(live)[0].values())), len(live) - len(self.buses)
            kind = 'parted' if pieces > 1 else {-1: 'a tree', 0: 'one loop'}.get(spare, 'loops')
            self.kinds[state] = kind if self.buses else 'a tree'
        return self.kinds[state]

    def loop(self, live):
        """The branches that are left of one loop with trees on it once every dead end is taken off."""
        left, beside = set(live), self.beside(live)
        ends = [bus for bus in self.buses if len(beside[bus]) == 1]
        for bus in ends:
            for other, k in beside[bus]:
                if k in left:
                    left.remove(k)
                    ends += [other] * (sum(j in left for _, j in beside[other]) == 1)
        touched = [end for k in left for end in self.branches[k][:2]]
        assert left and all(touched.count(bus) == 2 for bus in touched), 'is more or less than one loop'
        return left


# Answers that look sensible, each of which a named call must tell from the right one; beside them those to the plans of plans.WRONG.
WRONG = {'opening first', 'back in order', 'back not inverted', 'undone in list order', 'counts pairs', '16 above the pairs', '16 above two a pair', '16 at the last',
         '16 before all', '16 before 12', '13 before 16', 'count of 8 bits', 'count of 16 bits', 'count of 32 bits', 'only remaining looked at', 'only back looked at',
         'remaining written first', 'back written first', 'both at once', 'one slice for both', 'answers the count', 'back from the rest'}
WRONG_PLANS = {'any closed switch makes a branch live', 'the last switch decides', 'by the first switch that moves', 'a branch with two switches closed twice',
               'only the first open one closed', 'all switches of the opened branch opened', 'ids sorted', '12 for a locked switch that stays',
               '12 on a branch that is dead in both'}
# those that drawn plans tell too: none of these is refused, and their slices are exact
TOLD_BY_DRAWN = WRONG_PLANS | {'opening first', 'back in order', 'back not inverted', 'undone in list order', '16 above two a pair'}


def moves_of(pairs, wrong=None):
    """One move for each id, in list order: what a pair closes, then what it opens."""
    turned = -1 if wrong == 'opening first' else 1
    return [(number, action) for pair in pairs for ids, action in list(zip(pair, (CLOSE, OPEN)))[::turned] for number in ids]


def lists_of(moves, count, wrong=None):
    done = moves[count:] if wrong == 'back from the rest' else moves[:count]
    back = done if wrong == 'back in order' else done[::-1]
    if wrong == 'undone in list order':
        back = [move for run in runs(done)[::-1] for move in run]
    return moves[count:], back if wrong == 'back not inverted' else [(switch, 1 - action) for switch, action in back]


def runs(moves):
    """The closings of each pair, and its openings."""
    return [list(run) for _, run in itertools.groupby(moves, lambda move: move[1])]


def lines_of(moves):
    return ''.join('82%04X%02X\n' % move for move in moves)


def room_is_short(rooms, lists, wrong):
    short = [room < LINE_LENGTH * len(moves) for room, moves in zip(rooms, lists)]
    if wrong == 'one slice for both':
        return sum(rooms) < sum(LINE_LENGTH * len(moves) for moves in lists)
    return {'only remaining looked at': short[0], 'only back looked at': short[1], 'both at once': all(short)}.get(wrong, any(short))


def resumed(feeder, change, present, wanted, count, rooms, wrong=None):
    """The answer and both slices behind the call; a name of WRONG makes it wrong."""
    kept = ['.' * room for room in rooms]
    if wrong == '16 before all' and count > plans.MAX_SWITCHES:
        return 'refused 16 0', kept
    refused = refusal(feeder, change, present, wanted, wrong)
    if refused and not (wrong == '16 before 12' and refused[0] == 12):
        return 'refused %d %d' % refused, kept
    pairs = plans.plan(feeder, present, wanted, wrong if wrong in WRONG_PLANS else '')
    moves = moves_of(pairs, wrong)
    bits = {'count of 8 bits': 8, 'count of 16 bits': 16, 'count of 32 bits': 32}.get(wrong, 64)
    count = 2 * count if wrong == 'counts pairs' else count % 2 ** bits
    least = {'16 above the pairs': len(pairs), '16 above two a pair': 2 * len(pairs), '16 at the last': len(moves) - 1}.get(wrong, len(moves))
    lists = lists_of(moves, count, wrong)
    is_short = room_is_short(rooms, lists, wrong)
    if wrong == '13 before 16' and is_short:
        return 'refused 13 0', kept
    if count > least:
        return 'refused 16 0', kept
    if refused:
        return 'refused %d %d' % refused, kept
    written = [(lines_of(part) + slice[LINE_LENGTH * len(part):])[:len(slice)] for part, slice in zip(lists, kept)]
    if is_short:
        return 'refused 13 0', [written[0] if wrong == 'remaining written first' else kept[0], written[1] if wrong == 'back written first' else kept[1]]
    return '%d' % (count if wrong == 'answers the count' else len(lists[0])), written


def one(name, feeder, present, wanted, count, rooms, known, change=''):
    """A call whose answer is known: the lines of both lists, or the refusal. None stands for lists that are reckoned."""
    question = feeder, change, present, wanted, count, rooms
    reckoned = resumed(*question)
    if isinstance(known, str):
        assert reckoned == (known, ['.' * room for room in rooms]), (name, reckoned)
    elif known is not None:
        lists = [''.join(line + '\n' for line in lines.split()) for lines in known]
        slices = [lines + '.' * (room - len(lines)) for lines, room in zip(lists, rooms)]
        assert reckoned == ('%d' % lists[0].count('\n'), slices), (name, reckoned)
    told_apart.update(wrong for wrong in WRONG | WRONG_PLANS if resumed(*question, wrong) != reckoned)
    cases.append((name, *question[:4], ('O', count, rooms)))


def every(name, feeder, present, wanted, kind='E'):
    """Every count of a plan, and how many pairs it has."""
    assert refusal(feeder, '', present, wanted) is None, name
    pairs = plans.plan(feeder, present, wanted)
    cases.append((name, feeder, '', present, wanted, (kind, len(moves_of(pairs)))))
    return len(pairs)


TRIANGLE = Feeder([1, 2, 3], [(1, 2, 1), (2, 3, 1), (1, 3, 1)], [(10, 1, 2), (11, 2, 3)])
# what remains and what goes back, at each count
TRIANGLE_LISTS = [('82000B01 82000A00', ''), ('82000A00', '82000B00'), ('', '82000A01 82000B00')]
# buses 1 to 4 in a chain, and two branches beside it; pair by pair switch 103 for 100 and 104 for 102
CHAIN = Feeder([1, 2, 3, 4], [(1, 2, 1), (2, 3, 1), (3, 4, 1), (1, 4, 1), (2, 4, 1)], [(100 + k, k, 2) for k in range(5)])
CHAIN_LISTS = [('82006701 82006400 82006801 82006600', ''), ('82006400 82006801 82006600', '82006700'), ('82006801 82006600', '82006401 82006700'),
               ('82006600', '82006800 82006401 82006700'), ('', '82006601 82006800 82006401 82006700')]
# document 02's triangle with a switch at each end of branch 2 and of branch 1; switch 13 is locked
TWO_EACH = Feeder(TRIANGLE.buses, TRIANGLE.branches, [(12, 2, 3), (10, 1, 2), (11, 2, 3), (13, 1, 0)])
TWO_EACH_LISTS = [('82000C01 82000B01 82000A00', ''), ('82000B01 82000A00', '82000C00'), ('82000A00', '82000B00 82000C00'), ('', '82000A01 82000B00 82000C00')]
# counts of more bits than a count of moves needs, some of which have few low bits set
LARGE = [255, 256, 257, 258, 65535, 65536, 65537, 65538, 2 ** 31, 2 ** 32 - 1, 2 ** 32, 2 ** 32 + 1, 2 ** 32 + 2, 2 ** 63, 2 ** 64 - 2, 2 ** 64 - 1]


def slices():
    """Each slice exact, one byte longer, a line and a byte longer, one byte short, and empty, with each of the other's lengths, at every count."""
    for name, feeder, present, wanted, lists in (('triangle', TRIANGLE, '01', '10', TRIANGLE_LISTS), ('chain', CHAIN, '00011', '10100', CHAIN_LISTS),
                                                   ('two-each', TWO_EACH, '1010', '0100', TWO_EACH_LISTS)):
        every(name, feeder, present, wanted)
        every(name + '-turned', feeder, wanted, present)
        for count, known in enumerate(lists):
            exact = [LINE_LENGTH * len(lines.split()) for lines in known]
            lengths = [sorted({room for room in (length, length + 1, length + 10, length - 1, 0) if room >= 0}) for length in exact]
            for rooms in ((remaining, back) for remaining in lengths[0] for back in lengths[1]):
                fits = rooms[0] >= exact[0] and rooms[1] >= exact[1]
                one('%s-%d-into-%d-%d' % (name, count, *rooms), feeder, present, wanted, count, rooms, known if fits else 'refused 13 0')
    # one line of two, in either slice
    one('triangle-0-room-for-one', TRIANGLE, '01', '10', 0, (9, 9), 'refused 13 0')
    one('triangle-2-room-for-one', TRIANGLE, '01', '10', 2, (9, 9), 'refused 13 0')


def two_on_a_branch():
    """Each switch is a move. Between the two closings, as between two openings, no branch becomes live or dead."""
    assert [TWO_EACH.kind(state) for state in ('1010', '0010', '0000', '0100')] == ['a tree', 'a tree', 'one loop', 'a tree']
    assert TWO_EACH.loop(TWO_EACH.live('0000')) == {0, 1, 2}
    for name, present, wanted, lists in [
            ('first-open', '1000', '0100', [('82000C01 82000A00', ''), ('82000A00', '82000C00'), ('', '82000A01 82000C00')]),
            ('second-to-open', '0100', '0010', [('82000A01 82000B00', ''), ('82000B00', '82000A00'), ('', '82000B01 82000A00')]),
            ('two-to-open', '0100', '1010', [('82000A01 82000C00 82000B00', ''), ('82000C00 82000B00', '82000A00'), ('82000B00', '82000C01 82000A00'),
                                             ('', '82000B01 82000C01 82000A00')])]:
        every('two-each-' + name, TWO_EACH, present, wanted)
        for count, known in enumerate(lists):
            one('two-each-%s-%d' % (name, count), TWO_EACH, present, wanted, count, (27, 28), known)
        one('two-each-%s-%d' % (name, len(lists)), TWO_EACH, present, wanted, len(lists), (36, 36), 'refused 16 0')
    for count in [4, 5, 6] + LARGE[:4] + LARGE[-2:]:
        one('two-each-count-%d' % count, TWO_EACH, '1010', '0100', count, (36, 36), 'refused 16 0')
    one('two-each-dead-in-both', TWO_EACH, '1010', '0010', 0, (9, 9), ('', ''))
    one('two-each-dead-in-both-1', TWO_EACH, '1010', '0010', 1, (9, 9), 'refused 16 0')
    # two pairs of four moves; ids fall, and the branch that closes first ranks by a switch that stays closed in the one, moves in the other
    branches = CHAIN.branches[:3] + [(1, 4, 1), (1, 3, 1)]
    row = Feeder(CHAIN.buses, branches, [(9, 3, 2), (8, 4, 2), (7, 3, 2), (6, 0, 2), (5, 2, 2), (4, 4, 2), (3, 0, 2), (2, 1, 0), (1, 2, 2)])
    for name, present, moves in [('eight', '111001000', [(9, CLOSE), (7, CLOSE), (6, OPEN), (3, OPEN), (8, CLOSE), (4, CLOSE), (5, OPEN), (1, OPEN)]),
                                 ('seven', '011001000', [(7, CLOSE), (6, OPEN), (3, OPEN), (8, CLOSE), (4, CLOSE), (5, OPEN), (1, OPEN)])]:
        every('%s-moves' % name, row, present, '000110101')
        for count in range(len(moves) + 1):
            lists = lines_of(moves[count:]), lines_of([(number, 1 - action) for number, action in moves[:count][::-1]])
            one('%s-moves-%d' % (name, count), row, present, '000110101', count, tuple(map(len, lists)), lists)
        one('%s-moves-%d' % (name, len(moves) + 1), row, present, '000110101', len(moves) + 1, (9, 90), 'refused 16 0')
    # branch 3 is dead in both, and its locked switches differ
    spare = Feeder(TRIANGLE.buses, TRIANGLE.branches + [(1, 2, 1)], [(14, 3, 0)] + TWO_EACH.switches + [(15, 3, 1)])
    every('two-each-locked-dead-in-both', spare, '1' + '1010' + '0', '0' + '0100' + '1')
    one('two-each-locked-dead-in-both-2', spare, '1' + '1010' + '0', '0' + '0100' + '1', 2, (9, 18), TWO_EACH_LISTS[2])


def counts():
    """Counts above the plan's moves, with room for every list and with none."""
    for count in [3, 4] + LARGE:
        one('triangle-count-%d' % count, TRIANGLE, '01', '10', count, (18, 18), 'refused 16 0')
        one('triangle-count-%d-no-slices' % count, TRIANGLE, '01', '10', count, (0, 0), 'refused 16 0')
    for count in [5] + LARGE[-4:]:
        one('chain-count-%d' % count, CHAIN, '00011', '10100', count, (36, 45), 'refused 16 0')
    one('triangle-count-3-first-empty', TRIANGLE, '01', '10', 3, (0, 27), 'refused 16 0')
    one('triangle-count-3-second-empty', TRIANGLE, '01', '10', 3, (27, 0), 'refused 16 0')


def empty_plans():
    spare = Feeder(TRIANGLE.buses, TRIANGLE.branches + [(1, 2, 0)], [(12, 3, 0), (10, 1, 2), (11, 2, 2)])
    for name, feeder, present, wanted in [('same-state', TRIANGLE, '01', '01'), ('same-other-state', TRIANGLE, '10', '10'), ('no-buses', Feeder([], [], []), '', ''),
                                          ('one-bus', Feeder([7], [], []), '', ''),
                                          ('out-of-service-differs', spare, '001', '101')]:
        every(name, feeder, present, wanted)
        one(name + '-0', feeder, present, wanted, 0, (0, 0), ('', ''))
        one(name + '-0-longer', feeder, present, wanted, 0, (5, 7), ('', ''))
        one(name + '-1', feeder, present, wanted, 1, (0, 0), 'refused 16 0')
        one(name + '-1-longer', feeder, present, wanted, 1, (9, 9), 'refused 16 0')
        for count in (65536, 2 ** 32, 2 ** 64 - 1):
            one('%s-%d' % (name, count), feeder, present, wanted, count, (9, 9), 'refused 16 0')
    # the switch out of service is locked and stays as found while the others move
    every('out-of-service-stays', spare, '001', '110')
    one('out-of-service-stays-1', spare, '001', '110', 1, (9, 9), TRIANGLE_LISTS[1])


def refusals():
    """Documents 01 and 02: the network, 10, 11, 12, 16, 13. Each with a count that would do, with one above the moves, and with no slice."""
    locked, other = (Feeder(TRIANGLE.buses, TRIANGLE.branches, [(10, 1, flags), (11, 2, others)]) for flags, others in ((0, 3), (2, 1)))
    both = Feeder(TRIANGLE.buses, TRIANGLE.branches, [(11, 2, 1), (10, 1, 0)])
    # 10, which opens last, is listed before 11, which closes
    later = Feeder(TRIANGLE.buses, TRIANGLE.branches, [(10, 1, 0), (12, 2, 3), (11, 2, 1), (13, 1, 2)])
    for name, feeder, present, wanted, known in [
            ('present-short', TRIANGLE, '0', '10', '10 0'), ('present-long', TRIANGLE, '010', '10', '10 0'), ('present-byte-02', TRIANGLE, '02', '10', '10 0'),
            ('wanted-empty', TRIANGLE, '01', '', '10 1'), ('wanted-byte-02', TRIANGLE, '01', '20', '10 1'), ('wanted-of-513', TRIANGLE, '01', '0' * 513, '10 1'),
            ('both-malformed', TRIANGLE, '2', '2', '10 0'), ('present-loop-wanted-malformed', TRIANGLE, '00', '1', '10 1'),
            ('present-loop', TRIANGLE, '00', '10', '11 0'), ('present-parted', TRIANGLE, '11', '10', '11 0'), ('wanted-loop', TRIANGLE, '01', '00', '11 1'),
            ('wanted-parted', TRIANGLE, '01', '11', '11 1'), ('both-not-radial', TRIANGLE, '00', '11', '11 0'), ('same-loop', TRIANGLE, '00', '00', '11 0'),
            ('locked-opening', locked, '01', '10', '12 10'), ('locked-closing', other, '01', '10', '12 11'), ('both-locked', both, '10', '01', '12 11'),
            ('locked-present-loop', locked, '00', '10', '11 0'), ('locked-wanted-parted', locked, '01', '11', '11 1'),
            ('two-each-13-to-open', TWO_EACH, '1010', '0101', '12 13'), ('two-each-13-to-close', TWO_EACH, '0101', '1010', '12 13'),
            ('two-each-two-locked', later, '0110', '1000', '12 10'), ('two-each-short', TWO_EACH, '101', '0100', '10 0'), ('two-each-loop', TWO_EACH, '1010', '0000', '11 1')]:
        for count, rooms in (0, (18, 0)), (1, (9, 9)), (2, (0, 18)), (3, (0, 27)), (65536, (18, 18)), (2 ** 64 - 1, (0, 0)), (0, (0, 0)):
            one('%s-%d-%d-%d' % (name, count, *rooms), feeder, present, wanted, count, rooms, 'refused ' + known)
    # locked switches that need not move decide nothing
    one('locked-same-state', locked, '01', '01', 0, (0, 0), ('', ''))
    one('locked-same-state-1', locked, '01', '01', 1, (9, 9), 'refused 16 0')
    held = Feeder(CHAIN.buses, CHAIN.branches, [(number, k, 0 if k == 1 else 2) for number, k, _ in CHAIN.switches])
    every('locked-switch-stays', held, '00011', '10100')
    one('locked-switch-stays-3', held, '00011', '10100', 3, (9, 27), CHAIN_LISTS[3])
    one('locked-switch-stays-5', held, '00011', '10100', 5, (9, 45), 'refused 16 0')


def own_loops():
    """Document 02's 17, before the states and the count: the text is read as a stored one, so that it is the call that refuses. Dead or live, with a switch that moves or stays."""
    lone = Feeder([7], [(7, 7, 1)], [(1, 0, 2)])
    for count, rooms in (0, (0, 0)), (0, (5, 7)), (1, (0, 0)), (1, (9, 9)), (65536, (9, 9)), (2 ** 32, (9, 9)), (2 ** 64 - 1, (9, 9)):
        one('own-loop-open-%d-%d-%d' % (count, *rooms), lone, '1', '1', count, rooms, 'refused 17 3')
    for k, status in itertools.product(range(4), (0, 1)):
        others = [j for j in range(4) if j != k]
        branches = TRIANGLE.branches[:k] + [(3, 3, status)] + TRIANGLE.branches[k:]
        looped = Feeder(TRIANGLE.buses, branches, [(10, others[1], 2), (12, k, 2), (11, others[2], 3)], supply=2 if k == 1 else None)
        for count, present, wanted in (1, '001', '100'), (0, '011', '100'), (3, '001', '100'), (2 ** 64 - 1, '000', '2'):
            one('own-loop-at-%d-status-%d-count-%d-%s' % (k, status, count, present), looped, present, wanted, count, (9, 9), 'refused 17 %d' % (5 + k))
    one('own-loop-iterations-1001', lone, '1', '1', 0, (0, 0), 'refused 3 1', 'iterations 1001')


def network_refusals():
    """Records that no text has: they get their fault once they are read."""
    for supply in (None, 1, 3):
        fed = Feeder(TRIANGLE.buses, TRIANGLE.branches, TRIANGLE.switches, supply=supply)
        name = 'iterations-1001' + ('' if supply is None else '-supply-%d' % supply)
        for count, rooms in (1, (9, 9)), (3, (18, 18)), (2 ** 64 - 1, (0, 0)):
            one('%s-%d' % (name, count), fed, '01', '10', count, rooms, 'refused 3 1', 'iterations 1001')
            one('%s-%d-states-02' % (name, count), fed, '2', '2', count, rooms, 'refused 3 1', 'iterations 1001')
    present, wanted = '0' + '1' * 10, '1' * 10 + '0'
    for method, supply, known in [(2, None, '9 25'), (0, 1, '15 26'), (1, 2, '15 26'), (2, 1, '9 25')]:
        ties = Feeder([1, 2], [(1, 2, 1)] * 11, [(1 + i, i, 3 if i < 10 else 2) for i in range(11)], method=method, supply=supply)
        name = 'eleven-ties-method-%d-supply-%s' % (method, supply)
        every(name, ties, present, wanted)
        one(name + '-unchanged', ties, present, wanted, 1, (9, 9), ('82000100', '82000B00'))
        for count, rooms in (1, (9, 9)), (3, (18, 18)), (2 ** 64 - 1, (0, 0)):
            one('%s-%d' % (name, count), ties, present, wanted, count, rooms, 'refused ' + known, 'switch 10 a tie')


def supplies():
    """Document 02's last line is looked at in the network's test alone."""
    for supply in (1, 2, 3):
        fed = Feeder(TRIANGLE.buses, TRIANGLE.branches, TRIANGLE.switches, supply=supply)
        name = 'supply-%d' % supply
        every(name, fed, '01', '10')
        for count, known in enumerate(TRIANGLE_LISTS):
            one('%s-%d' % (name, count), fed, '01', '10', count, (18, 18), known)
            one('%s-%d-one-byte-short' % (name, count), fed, '01', '10', count, (17, 17), known if count == 1 else 'refused 13 0')
        for count, present, wanted, known in [(3, '01', '10', '16 0'), (2 ** 64 - 1, '01', '10', '16 0'), (3, '00', '10', '11 0'), (65536, '01', '11', '11 1'),
                                              (3, '00', '1', '10 1'), (1, '01', '2', '10 1')]:
            one('%s-%d-%s-%s' % (name, count, present, wanted), fed, present, wanted, count, (18, 18), 'refused ' + known)


def longest():
    """255 pairs on 256 buses: two trees that share no branch, listed in any order, two of the branches with two switches. Its lists are reckoned."""
    draw = Draw(3)
    branches = [(i, i + 1, 1) for i in range(255)] + [(draw.below(i), i, 1) for i in range(1, 256)]
    positions = draw.shuffled(list(range(510)) + [17, 300])
    feeder = Feeder(list(range(256)), branches, [(1000 + i, k, 2) for i, k in enumerate(positions)])
    states = [''.join('01'[(k < 255) == second] for k in positions) for second in (False, True)]
    assert every('255-pairs', feeder, *states, 'L') == 255 and cases[-1][-1] == ('L', 512)
    for count in (1, 255, 256, 511):
        one('255-pairs-%d' % count, feeder, *states, count, (9 * (512 - count), 9 * count + 1), None)
    for count, rooms, known in [(0, (4607, 0), '13 0'), (512, (0, 4607), '13 0'), (255, (2312, 2295), '13 0'), (255, (2313, 2294), '13 0'), (513, (9, 9), '16 0'),
                                (65536, (4608, 0), '16 0'), (65536 + 512, (0, 4608), '16 0'), (2 ** 32 + 512, (0, 4608), '16 0'), (2 ** 64 - 1, (0, 0), '16 0')]:
        one('255-pairs-%d-%d-%d' % (count, *rooms), feeder, *states, count, rooms, 'refused ' + known)


SHAPES = {'chain': lambda draw, i: i - 1, 'star': lambda draw, i: 0, 'ring': lambda draw, i: i - 1, 'comb': lambda draw, i: max(0, i - 1 - draw.below(3)),
          'tree': lambda draw, i: draw.below(i)}


def drawn(name, draw, shape, most):
    """A feeder of this shape with ties, and two radial states of it at most so many pairs apart."""
    n = most + 1 + draw.below(5)
    tree = [(SHAPES[shape](draw, i), i) for i in range(1, n)]
    ties = [(n - 1, 0)] * (shape == 'ring') + [(draw.below(n), draw.below(n)) for _ in range(most + most // 2 + draw.below(4))]
    ties = [(a, b if b != a else (a + 1) % n) for a, b in ties if n > 1]
    buses, order = draw.ids(n), draw.shuffled(range(len(tree + ties)))
    branches = [tuple(buses[i] for i in draw.shuffled((tree + ties)[at])) + (1,) for at in order]
    feeder = Feeder(buses, branches, [])
    first = {k for k, at in enumerate(order) if at < n - 1}
    kept = draw.shuffled(first)[most:]
    second = feeder.joined(kept + draw.shuffled(k for k in range(len(branches)) if k not in first) + draw.shuffled(first))
    for k in [k for k in range(len(branches)) if k not in first | second]:
        branches[k] = branches[k][:2] + (draw.chance(60),)
    states = plans.drawn_switches(draw, feeder, first, second, draw.ids(2 * len(branches)), False)
    if draw.chance(25):
        feeder.supply = draw.choice(buses)
        feeder.switches = [(number, k, flags & 2 | int(byte)) for (number, k, flags), byte in zip(feeder.switches, states[0])]
    states = states if draw.below(2) else states[::-1]
    pairs = every(name, feeder, *states)
    count_told(feeder, *states)
    return pairs


def count_told(feeder, present, wanted):
    """Which wrong answers this plan tells from the right one, at some count."""
    moves = cases[-1][-1][1]
    questions = [(feeder, '', present, wanted, count, (LINE_LENGTH * (moves - count), LINE_LENGTH * count)) for count in range(moves, -1, -1)]
    right = [resumed(*question) for question in questions]
    for wrong in TOLD_BY_DRAWN:
        told_by_drawn[wrong] = told_by_drawn.get(wrong, 0) + any(resumed(*question, wrong) != answer for question, answer in zip(questions, right))


def said_in(shown):
    """For each case of stdout its calls: count, answer, and both slices."""
    found, slice = [], r' (end|\[[^\]]*\])'
    lines = list(re.finditer(r'(\S+)\n|(\d+) (\d+|refused \d+ \d+)%s%s\n' % (slice, slice), shown))
    assert ''.join(line[0] for line in lines) == shown
    for line in lines:
        name, count, said, *slices = line.groups()
        if name:
            found.append((name, []))
        else:
            found[-1][1].append((int(count), said, [slice.strip('[]') for slice in slices]))
    return found


def whole(calls, moves):
    """The calls of a long plan, each 'end' put back in full. The two longest lists stand in the first two calls."""
    longest = calls[0][2][0], calls[1][2][1]
    for count, said, slices in calls[2:]:
        lengths = LINE_LENGTH * max(0, moves - count), LINE_LENGTH * count
        yield count, said, [full[len(full) - length:] if slice == 'end' else slice for slice, full, length in zip(slices, longest, lengths)]


def carried(feeder, state, move):
    """The state behind a move, which changes the byte of a switch that may be moved."""
    number, action = move
    assert number in feeder.places, 'moves a switch that is not listed'
    at = feeder.places[number]
    _, k, flags = feeder.switches[at]
    assert flags & 2 and feeder.branches[k][2], 'moves a switch that it may not move'
    assert state[at] == '01'[action], 'moves a switch that stands so already'
    return state[:at] + '10'[action] + state[at + 1:]


def judge_loop(feeder, before, state, after, closing, opening):
    """Between a closing and its opening the one loop is the closed branch and the whole path between its ends; going back, the opening is the
    closing."""
    loop = feeder.loop(feeder.live(state))
    for (number, action), other, expected in (closing, before, CLOSE), (opening, after, OPEN):
        assert action == expected, 'has a closing where an opening belongs'
        k = feeder.branch_of(number)
        assert loop == {k, *feeder.path(feeder.live(other), *feeder.branches[k][:2])}, 'has another loop than the closed branch with its path'


def joined_up(remaining, back):
    """The moves of the plan, from both lists of an answer."""
    return [(switch, 1 - action) for switch, action in reversed(back)] + remaining


@functools.cache
def to_move(feeder, present, wanted):
    return sorted(feeder.switches[i][0] for i in plans.to_move(feeder, present, wanted))


def judge(feeder, present, wanted, count, remaining, back):
    """How many states an answer leads through. Between the last closing of a pair and its first opening there is one loop, else a tree."""
    done = joined_up([], back)
    assert len(done) == count, 'goes back by another number of moves than were done'
    moves, states = done + remaining, [present]
    assert sorted(number for number, _ in moves) == to_move(feeder, present, wanted), 'moves other switches than those that differ on the branches to close and to open'
    judge_order(feeder, present, wanted, runs(moves))
    for move in moves:
        states.append(carried(feeder, states[-1], move))
    returning = states[count:count + 1]
    for move in back:
        returning.append(carried(feeder, returning[-1], move))
    for at, state in [*enumerate(states), *zip(range(count, -1, -1), returning)]:
        assert feeder.kind(state) == ('one loop' if is_between(moves, at) else 'a tree'), 'is %s with %d moves done' % (feeder.kind(state), at)
    aim, start = feeder.live(wanted), feeder.live(present)
    assert feeder.live(states[-1]) == aim, 'ends at other branches than the wanted ones'
    assert all(byte == (aimed if k in start ^ aim else found) for (_, k, _), byte, found, aimed in zip(feeder.switches, states[-1], present, wanted))
    assert returning[-1] == present, 'does not go back to the present state'
    judge_late(feeder, states, count, remaining, back)
    if is_between(moves, count):
        judge_loop(feeder, states[count - 1], states[count], states[count + 1], done[-1], remaining[0])
    return len(states) + len(returning)


def judge_order(feeder, present, wanted, parts):
    """Closings and openings by turns, each of one branch and in list order; the closed branches by their first listed switches."""
    assert [part[0][1] for part in parts] == [CLOSE, OPEN] * (len(parts) // 2), 'does not close and open by turns'
    for part in parts:
        places = [feeder.places[number] for number, _ in part]
        assert places == sorted(places) and len({feeder.switches[i][1] for i in places}) == 1, 'moves out of order, or switches of two branches'
    ranks = [feeder.on(feeder.branch_of(part[0][0]))[0] for part in parts[::2]]
    assert ranks == sorted(set(ranks)), 'closes by another order than that of the first listed switches'


def is_between(moves, count):
    """Whether the last move done closes and the next opens."""
    return 0 < count < len(moves) and moves[count - 1][1] == CLOSE and moves[count][1] == OPEN


def judge_late(feeder, states, count, remaining, back):
    """README, "After a power cut": the switches may stand one move before or behind the stored count. Either list, with the inverse of the other's
    first line before it, leads through states of the plan alone, and ends as it should."""
    for stands in states[max(0, count - 1):count + 2]:
        for moves, other, end in (remaining, back, states[-1]), (back, remaining, states[0]):
            state = stands
            for number, action in [(switch, 1 - action) for switch, action in other[:1]] + moves:
                at = feeder.places[number]
                state = state[:at] + '10'[action] + state[at + 1:]
                assert state in states, 'leaves the plan where the count is one behind'
            assert state == end, 'ends elsewhere where the count is one behind'


def is_refused(judged, *answer):
    try:
        judged(*answer)
    except AssertionError:
        return True
    return False


def judge_the_judge(feeder, present, wanted, count, remaining, back):
    """How many damaged answers it refuses: a move too few or too many, turned over, at another place, or by another switch."""
    moves = joined_up(remaining, back)
    damaged = [(count + 1, remaining, back), (count, *lists_of(moves, count + 1))]
    if remaining:
        (number, action), *rest = remaining
        damaged += [(count, rest, back), (count, remaining[:-1], back), (count, remaining + remaining[-1:], back)]
        damaged += [(count, [(number, 1 - action)] + rest, back), (count, rest[:1] + remaining[:1] + rest[1:], back)]
        damaged += [(count, [(other, action)] + rest, back) for other, _, _ in feeder.switches]
    if back:
        damaged += [(count, remaining, back[1:]), (count, remaining, back[:-1]), (count, remaining, back + back[-1:])]
        damaged += [(count, remaining, lists_of(moves, count, wrong)[1]) for wrong in ('back not inverted', 'undone in list order')]
        damaged += [(count, remaining, back[1:2] + back[:1] + back[2:])]
    damaged = [lists for lists in damaged if lists != (count, remaining, back)]
    for lists in damaged:
        assert is_refused(judge, feeder, present, wanted, *lists), (count, remaining, back, lists)
    return len(damaged)


def judge_the_loops(feeder, present, moves):
    """How many loops it refuses: at each last closing of a pair, those that a switch of another branch would have closed or would open."""
    states, refused = [present], 0
    for move in moves:
        states.append(carried(feeder, states[-1], move))
    for at in [at for at in range(len(moves)) if is_between(moves, at + 1)]:
        right = [feeder.branch_of(number) for number, _ in moves[at:at + 2]]
        for number, _, _ in feeder.switches:
            for closing, opening in ((number, CLOSE), moves[at + 1]), (moves[at], (number, OPEN)):
                if [feeder.branch_of(closing[0]), feeder.branch_of(opening[0])] != right:
                    assert is_refused(judge_loop, feeder, *states[at:at + 3], closing, opening)
                    refused += 1
    return refused


def judge_all(shown):
    """How many calls stdout shows, how many of them answer, the states their lists lead through and the damaged answers refused."""
    read, plans = said_in(shown), {}
    assert [name for name, _ in read] == [case[0] for case in cases]
    calls_seen = answers = states = damaged = 0
    for (name, calls), (_, feeder, _, present, wanted, (kind, number, *_)) in zip(read, cases):
        assert [count for count, _, _ in calls] == counts_of(kind, number), name
        for count, said, slices in whole(calls, number) if kind == 'L' else calls:
            calls_seen += 1
            parts = [re.fullmatch(r'((?:82[0-9A-F]{4}0[01]\n)*)(\.*)', slice) for slice in slices]
            assert all(parts), 'has something else than lines and dots'
            lists = [[(int(line[2:6], 16), int(line[6:], 16)) for line in part[1].split()] for part in parts]
            if said.startswith('refused'):
                assert lists == [[], []], 'writes although it refuses'
                continue
            assert int(said) == len(lists[0]), 'says another number of moves than it writes'
            answers, states = answers + 1, states + judge(feeder, present, wanted, count, *lists)
            moves = plans.setdefault((feeder, present, wanted), joined_up(*lists))
            assert joined_up(*lists) == moves, 'has other moves than at another count'
            damaged += judge_the_judge(feeder, present, wanted, count, *lists) if kind == 'E' else 0
            damaged += judge_the_loops(feeder, present, lists[0]) if kind == 'E' and count == 0 else 0
    return calls_seen, answers, states, damaged


def counts_of(kind, number):
    """The counts of a case's calls, in order."""
    every = [number] if kind == 'O' else list(range(number + 2))
    return [0, number] + every if kind == 'L' else every


def shown_of(name, feeder, change, present, wanted, calls):
    """What the program prints of a case."""
    kind, number, *rooms = calls
    lines, longest = [name], ['', '']
    for at, count in enumerate(counts_of(kind, number)):
        said, slices = resumed(feeder, change, present, wanted, count, *(rooms or [(LINE_LENGTH * max(0, number - count), LINE_LENGTH * count)]))
        if kind == 'L' and at < 2:
            longest[at] = slices[at]
        ends = [kind == 'L' and at > 1 and full.endswith(slice) for slice, full in zip(slices, longest)]
        lines.append('%d %s %s %s' % (count, said, *('end' if is_end else '[%s]' % slice for is_end, slice in zip(ends, slices))))
    return '\n'.join(lines) + '\n'


def write(shown):
    os.makedirs(ROOT, exist_ok=True)
    before = None
    with open(os.path.join(ROOT, 'stdin'), 'wb') as out:
        for name, feeder, change, present, wanted, (kind, number, *rooms) in cases:
            text = feeder.text()
            given = b'' if text == before else text
            out.write(b'%d %s\n' % (len(given), name.encode()) + given + b'\n')
            calls = 'O %016X %04X %04X' % (number, *rooms[0]) if kind == 'O' else '%s %X' % (kind, number)
            out.write(('%s %s\n%s\n%s\n' % (CHANGES[change], present, wanted, calls)).encode())
            before = text
        assert out.tell() <= ROOM_FOR_CASES, 'the program has no room for the cases'
    with open(os.path.join(ROOT, 'stdout'), 'w') as out:
        out.write(shown)


def main():
    for make in (slices, two_on_a_branch, counts, empty_plans, refusals, own_loops, network_refusals, supplies, longest):
        make()
    assert told_apart == WRONG | WRONG_PLANS, (WRONG | WRONG_PLANS) - told_apart
    draw, lengths = Draw(4), []
    for i in range(265):
        shape = list(SHAPES)[i % len(SHAPES)]
        lengths.append(drawn('drawn-%s-%d' % (shape, i), draw, shape, i % 22 if i < 44 else 1 + draw.below(7)))
    assert sum(length > 0 for length in lengths) >= 220
    assert set(lengths) >= set(range(9)) and len(set(lengths)) >= 18, sorted(set(lengths))
    assert min(told_by_drawn.values()) >= FEWEST_TOLD, told_by_drawn
    texts = [case[1].text() for case in cases]
    cases.sort(key=lambda case: texts.index(case[1].text()))
    names = [case[0] for case in cases]
    assert len(names) == len(set(names)), 'a name stands twice'
    shown = ''.join(shown_of(*case) for case in cases)
    calls, answers, states, damaged = judge_all(shown)
    write(shown)
    several = sum(max(map(len, runs(moves_of(plans.plan(*case[1:2], *case[3:5]))))) > 1 for case in cases if case[-1][0] != 'O' and case[-1][1])
    print('%d cases, %d of them every count of a plan and %d drawn, %d with several closings or openings in a pair; %d calls, %d answered and judged at their count, %d states on '
          'the way of their lists; %d damaged answers refused; each of %d wrong answers fails on %d drawn plans or more' % (
              len(cases), sum(case[-1][0] != 'O' for case in cases), len(lengths), several, calls, answers, states, damaged, len(told_by_drawn), min(told_by_drawn.values())))


# tests/cases/call_cases.py takes the judge from here
if __name__ == '__main__':
    main()
