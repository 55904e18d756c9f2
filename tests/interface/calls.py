"""python/lugwefa.py over the library: the triangle, forms, plans with up to two switches on a branch, refusals, states by id, records, repairs, the bytes that no call may touch, and every
text of the list that `replay` has (tests/answers.md). usage: calls.py LIST EXAMPLE"""

import ctypes
import io
import itertools
import random
import runpy
import struct
import sys
from collections import Counter
from contextlib import redirect_stdout

import lugwefa
from lugwefa import BRANCH, CLOSED, OPEN, SWITCH, TREE, Branch, Bus, Dropped, Form, Head, Move, NoRoom, Operation, Pair, Refused, Repaired, Resumed, Switch

HEAD = '010003000300023FF0000000000000000064\n'
BUSES = '0200010000000000000000\n0200023FF0000000000000\n0200034000000000000000\n'
BRANCHES = '03000100023FD000000000000001\n03000200033FDC00000000000001\n03000100033FC800000000000001\n'
TRIANGLE = HEAD + BUSES + BRANCHES + '04000A000102\n04000B000203\n'
TURNED = TRIANGLE.replace('0300010002', '0300020001')
LOCKED = HEAD + BUSES + BRANCHES + '04000A000100\n04000B000203\n'
# the triangle with a switch at each end of two branches: 12 and 11 on branch 2, 10 and 13, which is locked, on branch 1
FOUR_SWITCHES = HEAD.replace('0002', '0004') + BUSES + BRANCHES + '04000C000203\n04000A000102\n04000B000203\n04000D000100\n'
# the triangle with a branch from bus 2 to itself, at position 1, and switch 12 on it
OWN_LOOP = '03000200023FD000000000000001\n'
STORED = HEAD.replace('000300030002', '000300040003') + BUSES + BRANCHES[:29] + OWN_LOOP + BRANCHES[29:] + '04000A000202\n04000C000102\n04000B000303\n'
STORED_DROPPED = [Dropped(6, BRANCH), Dropped(10, SWITCH)]
# one bus with its own loop, and without it
OWN_BUS = '010001000100003FF0000000000000000064\n0200010000000000000000\n03000100013FD000000000000001\n'
ONE_BUS = '010001000000003FF0000000000000000064\n0200010000000000000000\n'
PRINTED = '810140100000000000003FF00000000000004052C00000000000000201\n840000FFFF\n82000A00\n82000B01\n8601000B01000A\n'
BASE = {10: CLOSED, 11: OPEN}
BEST = {10: OPEN, 11: CLOSED}
ALL_CLOSED = {10: CLOSED, 11: CLOSED}
ALL_OPEN = {10: OPEN, 11: OPEN}
RECORDS = (Head(1.0, 0, 100), [Bus(1, 0.0), Bus(2, 1.0), Bus(3, 2.0)],
           [Branch(1, 2, 0.25, 1), Branch(2, 3, 0.4375, 1), Branch(1, 3, 0.1875, 1)], [Switch(10, 1, False, True), Switch(11, 2, True, True)])

checks = 0
wrong = 0


def expect(value, right, what):
    global checks, wrong
    checks += 1
    if value != right:
        wrong += 1
        print(f'interface: Python: wrong: {what}: {value!r} for {right!r}')


def refusal(ask, *words):
    """The number and the place that a call is refused with, None where it is not."""
    try:
        ask(*words)
    except Refused as refused:
        return refused.number, refused.place
    return None


def triangle():
    for text in (TRIANGLE, TRIANGLE.encode(), bytearray(TRIANGLE.encode())):
        expect(lugwefa.base_state(text), BASE, 'the base')
        expect(lugwefa.answer_text(text), PRINTED, 'what is printed')
    expect(lugwefa.switch_ids(TRIANGLE), [10, 11], 'the ids')
    expect([lugwefa.radiality(TRIANGLE, s) for s in (BASE, BEST, ALL_CLOSED, ALL_OPEN)], [True, True, False, False], 'radiality')
    expect([lugwefa.form(TRIANGLE, s) for s in (BASE, BEST, ALL_CLOSED, ALL_OPEN)], [TREE, TREE, Form(0, 2), Form(1, None)], 'form')
    expect([lugwefa.loss(TRIANGLE, s) for s in (BASE, BEST, ALL_CLOSED)], [4.0, 1.0, 5.6875], 'loss')
    expect(lugwefa.plan(TRIANGLE, BASE, BEST), [Pair(close=(11,), open=(10,))], 'the plan')
    expect(lugwefa.plan(TRIANGLE, BEST, BASE), [Pair(close=(10,), open=(11,))], 'the way back')
    expect(lugwefa.plan(TRIANGLE, BASE, BASE), [], 'no plan is needed')
    expect(lugwefa.operations(TRIANGLE, BASE, BEST), [Operation(10, OPEN), Operation(11, CLOSED)], 'the operations')
    expect(lugwefa.operations(TRIANGLE, BASE, ALL_OPEN), [Operation(10, OPEN)], 'one operation')
    expect(lugwefa.solve(TRIANGLE), lugwefa.Solution(BEST, True, 4.0, 1.0, 75.0, 2, True), 'the search')


def states_by_id():
    swapped = {11: OPEN, 10: CLOSED}
    expect(lugwefa.loss(TRIANGLE, swapped), 4.0, 'a state in another order')
    for state in (b'\0\1', bytearray(b'\0\1'), [0, 1], (0, 1)):
        expect(lugwefa.loss(TRIANGLE, state), 4.0, "a state in the call's bytes")
    for state, why in (({10: CLOSED}, 'switch 11 is missing'), ({**BASE, 12: OPEN}, '12 is no switch of the text'),
                       ({10: CLOSED, 11: 1}, 'switch 11 is 1'), ({}, 'switch 10 is missing; switch 11 is missing')):
        for number, ask in ((0, lambda s: lugwefa.loss(TRIANGLE, s)), (0, lambda s: lugwefa.radiality(TRIANGLE, s)), (0, lambda s: lugwefa.form(TRIANGLE, s)),
                            (0, lambda s: lugwefa.plan(TRIANGLE, s, {})), (1, lambda s: lugwefa.plan(TRIANGLE, BASE, s)),
                            (0, lambda s: lugwefa.operations(TRIANGLE, s, {})), (1, lambda s: lugwefa.operations(TRIANGLE, BASE, s))):
            try:
                ask(state)
                expect(None, why, 'a state that is none')
            except Refused as refused:
                expect((refused.number, refused.place, refused.why), (10, number, why), 'a state that is none')
    for state in (b'\0', b'\0\1\0', b'\0\2', b''):
        expect([refusal(ask, TRIANGLE, state) for ask in (lugwefa.radiality, lugwefa.form)], [(10, 0)] * 2, 'a state that is too short or too long, or has a byte 2')
    expect(refusal(lugwefa.plan, TRIANGLE, b'\2', {}), (10, 0), "the present state's refusal first")
    expect(refusal(lugwefa.plan, TRIANGLE, ALL_OPEN, {}), (10, 1), '10 before 11')


def other(stands):
    return OPEN if stands == CLOSED else CLOSED


def live(text, state):
    """The positions of the live branches, by the text's own lines."""
    _, _, branches, switches, *_ = in_records(text)
    dead = {switch.branch for switch in switches if state[switch.id] == OPEN}
    return [k for k, branch in enumerate(branches) if branch.status and k not in dead]


def flood(neighbours, bus):
    """The buses that are joined with one, itself among them."""
    reached, onward = {bus}, [bus]
    while onward:
        more = neighbours[onward.pop()] - reached
        reached |= more
        onward += more
    return reached


def reckoned(text, state):
    """The form of a state by document 02: the first branch whose ends those before it already join, by a flood for each; the pieces by a flood for each."""
    _, buses, branches, *_ = in_records(text)
    neighbours, first, pieces, left = {bus.id: set() for bus in buses}, None, 0, {bus.id for bus in buses}
    for k in live(text, state):
        start, end = branches[k][:2]
        if first is None and end in flood(neighbours, start):
            first = k
        neighbours[start].add(end)
        neighbours[end].add(start)
    while left:
        left -= flood(neighbours, min(left))
        pieces += 1
    return Form(max(pieces - 1, 0), first)


def is_formed(text, state, what):
    """The form; and a state is radial exactly where it is a tree."""
    right = reckoned(text, state)
    expect((lugwefa.form(text, state), lugwefa.radiality(text, state)), (right, right == (0, None)), what)


# The buses, the ends of the branches, and the form with all switches closed, by hand.
FORMS = {
    'no buses': (0, [], (0, None)),
    'one bus': (1, [], (0, None)),
    'two buses without a branch': (2, [], (1, None)),
    '256 buses without a branch': (256, [], (255, None)),
    'two buses and a branch': (2, [(0, 1)], (0, None)),
    'two parallel branches': (2, [(0, 1), (1, 0)], (0, 1)),
    'a parallel before the branch that closes a ring': (3, [(0, 1), (1, 0), (1, 2), (2, 0)], (0, 1)),
    'a loop and a bus apart, with as many branches as a tree': (4, [(0, 1), (1, 2), (2, 0)], (1, 2)),
    'two rings apart: the one that is closed first': (6, [(0, 1), (3, 4), (4, 5), (5, 3), (1, 2), (2, 0)], (1, 3)),
    'two pieces that are joined before a loop is closed': (5, [(4, 3), (0, 1), (1, 2), (2, 3), (0, 4), (2, 0), (1, 3)], (0, 4)),
    '256 buses in a row, and a branch from the last to the first': (256, [*((k, k + 1) for k in range(255)), (255, 0)], (0, 255)),
    '256 buses in a row, and 257 branches beside the first': (256, [*((k, k + 1) for k in range(255)), *[(0, 1)] * 257], (0, 255)),
}


def text_of(buses, ends):
    """Ids fall where positions rise, and the switches are listed from the last branch to the first, so that an id or a place in the list is not taken for a position."""
    count = len(ends)
    return in_text(lugwefa.records((1.0, 0, 0), [(999 - k, 0.0) for k in range(buses)], [(999 - a, 999 - b, 0.0, 1) for a, b in ends],
                                   [(k, count - 1 - k, False, True) for k in range(count)]))


def forms():
    """With all switches closed, known by hand; in every state, or in drawn ones where these are too many."""
    draw = random.Random(1)
    for what, (buses, ends, right) in FORMS.items():
        count = len(ends)
        text = text_of(buses, ends)
        expect(lugwefa.form(text, [0] * count), Form(*right), what)
        states = itertools.product((CLOSED, OPEN), repeat=count) if count < 8 else (draw.choices((CLOSED, OPEN), (1, chance), k=count) for chance in range(20))
        for state in states:
            is_formed(text, dict(enumerate(state)), what)
        printed = lugwefa.answer_text(text).splitlines()
        expect(printed[1], '84%04X%04X' % (right[0], 65535 if right[1] is None else right[1]), f'{what}, printed')
        expect((len(printed), printed[0][:4]), (2, '8101' if right == (0, None) else '8100'), f'{what}, printed')


def path(branches, live, start, end):
    """The branches between two buses of a tree, from the first bus on."""
    onward = [(start, [])]
    while onward:
        bus, way = onward.pop()
        if bus == end:
            return way
        onward += ((sum(branches[k][:2]) - bus, [*way, k]) for k in live if bus in branches[k][:2] and k not in way[-1:])


def planned(text, present, wanted):
    """What `plan` answers by documents 01 and 02: the number and place of 11 or 12, or the pairs. A branch ranks by its first listed switch, moved or not."""
    for place, state in enumerate((present, wanted)):
        if reckoned(text, state) != (0, None):
            return 11, place
    _, _, branches, switches, *_ = in_records(text)
    now, before, goal, pairs = live(text, present), set(live(text, present)), set(live(text, wanted)), []
    for switch in switches:
        if (switch.branch in before) != (switch.branch in goal) and present[switch.id] != wanted[switch.id] and not switch.can_operate:
            return 12, switch.id
    open_on = lambda state, k: tuple(switch.id for switch in switches if switch.branch == k and state[switch.id] == OPEN)
    for k in dict.fromkeys(switch.branch for switch in switches):
        if k in goal and k not in before:
            opened = next(each for each in path(branches, now, *branches[k][:2]) if each not in goal)
            pairs.append(Pair(open_on(present, k), open_on(wanted, opened)))
            now = [each for each in now if each != opened] + [k]
    return pairs


def moves_of(pair):
    """Carried out: the closed ones, then the opened ones, in their order."""
    return [Move(switch, CLOSED) for switch in pair.close] + [Move(switch, OPEN) for switch in pair.open]


def undoing(pair):
    """The opened ones are closed, then the closed ones opened, the last first."""
    return [Move(switch, CLOSED) for switch in reversed(pair.open)] + [Move(switch, OPEN) for switch in reversed(pair.close)]


def carried_out(state, moves):
    """A state after the moves; each must change its switch."""
    state = dict(state)
    for switch, stands in moves:
        if state[switch] == stands:
            return None
        state[switch] = stands
    return state


def every_pair(text, present, pairs, what):
    """The plan by whole pairs: radial at each stopping point, and undoing a pair goes back to the point before it."""
    state = dict(present)
    for pair in pairs:
        after = carried_out(state, moves_of(pair))
        expect((lugwefa.radiality(text, after), carried_out(after, undoing(pair))), (True, state), f'{what}, by whole pairs')
        state = after


def every_cut(text, present, wanted, what):
    """A plan, and cut off at every count of single moves. From the last closing of a pair to its first opening there is one loop: all buses connected, and as many live branches as buses."""
    pairs, buses = lugwefa.plan(text, present, wanted), len(in_records(text)[1])
    expect(pairs, planned(text, present, wanted), what)
    every_pair(text, present, pairs, what)
    moves = [move for pair in pairs for move in moves_of(pair)]
    expect(lugwefa.resume(text, present, wanted, len(moves)).back, [move for pair in reversed(pairs) for move in undoing(pair)], f'{what}, undone by its lines')
    for count in range(len(moves) + 1):
        right = Resumed(moves[count:], [Move(switch, other(stands)) for switch, stands in reversed(moves[:count])])
        cut, state = lugwefa.resume(text, present, wanted, count), carried_out(present, moves[:count])
        expect(cut, right, f'{what}, cut off at {count}')
        expect(live(text, carried_out(state, cut.remaining)), live(text, wanted), f'{what}, finished from {count}')
        expect(carried_out(state, cut.back), dict(present), f'{what}, gone back from {count}')
        loop, form = [stands for _, stands in moves[max(count - 1, 0):count + 1]] == [CLOSED, OPEN] and count > 0, lugwefa.form(text, state)
        expect((lugwefa.radiality(text, state), form == TREE, form.islands), (not loop, not loop, 0), f'{what}, at {count}')
        expect(len(live(text, state)), max(buses - 1 + loop, 0), f'{what}, the live branches at {count}')
    for count in (len(moves) + 1, 65536, 65536 + len(moves), 2 ** 32, 2 ** 64 - 1, 2 ** 64, 2 ** 64 + len(moves), 10 ** 30):
        expect(refusal(lugwefa.resume, text, present, wanted, count), (16, 0), f'{what}, cut off behind its end')


def resumed():
    expect(lugwefa.resume(TRIANGLE, BASE, BEST, 0), Resumed([Move(11, CLOSED), Move(10, OPEN)], []), 'no move done')
    expect(lugwefa.resume(TRIANGLE, BASE, BEST, 1), Resumed([Move(10, OPEN)], [Move(11, OPEN)]), 'the closing done')
    expect(lugwefa.resume(TRIANGLE, BASE, BEST, 2), Resumed([], [Move(10, CLOSED), Move(11, OPEN)]), 'both moves done')
    expect(lugwefa.resume(TRIANGLE, b'\1\0', [0, 1], True), Resumed([Move(11, OPEN)], [Move(10, OPEN)]), "states in the call's bytes")
    for text in (TRIANGLE, TURNED + '050001\n'):
        for present, wanted in ((BASE, BEST), (BEST, BASE), (BASE, BASE)):
            every_cut(text, present, wanted, "the triangle's plan")
    expect(refusal(lugwefa.resume, TRIANGLE, b'\2', {}, 99), (10, 0), "the present state's refusal first")
    expect(refusal(lugwefa.resume, TRIANGLE, ALL_OPEN, {}, 99), (10, 1), '10 before 11')
    expect(refusal(lugwefa.resume, TRIANGLE, ALL_CLOSED, BEST, 1), (11, 0), 'the state after the cut is no present state')
    expect(refusal(lugwefa.resume, LOCKED, BASE, ALL_OPEN, 99), (11, 1), '11 before 16')
    expect(refusal(lugwefa.resume, LOCKED, BASE, BEST, 99), (12, 10), '12 before 16')
    expect(str(Refused(16, 0)), "refused 16 at place 0: count above the plan's moves", 'words')
    for count, error in ((-1, ValueError), (-2 ** 64, ValueError), (1.0, TypeError), ('1', TypeError), (None, TypeError)):
        try:
            expect(lugwefa.resume(TRIANGLE, BASE, BEST, count), error, 'no count')
        except (ValueError, TypeError) as raised:
            expect(type(raised), error, 'no count')


def both_ends():
    """A switch at each end: document 02's example, and what decides between the switches of a branch."""
    state = lambda *stands: dict(zip((12, 10, 11, 13), stands))
    began, ended = state(OPEN, CLOSED, OPEN, CLOSED), state(CLOSED, OPEN, CLOSED, CLOSED)
    done = [Move(12, CLOSED), Move(11, CLOSED), Move(10, OPEN)]
    expect(lugwefa.plan(FOUR_SWITCHES, began, ended), [Pair((12, 11), (10,))], 'both ends closed, one opened')
    expect(lugwefa.plan(FOUR_SWITCHES, ended, began), [Pair((10,), (12, 11))], 'the other way')
    for count, right in enumerate((TREE, TREE, Form(0, 2), TREE)):
        expect(lugwefa.form(FOUR_SWITCHES, carried_out(began, done[:count])), right, f'both ends, {count} moves done')
        expect(lugwefa.resume(FOUR_SWITCHES, began, ended, count).remaining, done[count:], f'both ends, {count} moves done')
    expect(lugwefa.resume(FOUR_SWITCHES, began, ended, 3).back, [Move(10, CLOSED), Move(11, OPEN), Move(12, OPEN)], 'both ends, gone back')
    expect(refusal(lugwefa.plan, FOUR_SWITCHES, began, {**ended, 13: OPEN}), (12, 13), 'the locked switch of two would move')
    expect(refusal(lugwefa.resume, FOUR_SWITCHES, began, {**ended, 13: OPEN}, 99), (12, 13), 'the locked switch of two, before the count')
    expect(lugwefa.plan(FOUR_SWITCHES, {**began, 12: CLOSED}, ended), [Pair((11,), (10,))], 'of two switches the closed one stays')
    expect(lugwefa.plan(FOUR_SWITCHES, {**began, 12: CLOSED}, began), [], 'a switch that moves on a branch that stays dead')
    operable = FOUR_SWITCHES.replace('04000D000100', '04000D000102')
    expect(lugwefa.plan(operable, began, {**ended, 13: OPEN}), [Pair((12, 11), (10, 13))], 'both ends closed, both opened')
    locked = FOUR_SWITCHES.replace('04000C000203', '04000C000201').replace('04000A000102', '04000A000100')
    swapped = locked.replace('04000C000201\n04000A000100', '04000A000100\n04000C000201')
    expect([refusal(lugwefa.plan, text, began, ended) for text in (locked, swapped)], [(12, 12), (12, 10)], 'the first locked one in list order')
    for method, rounds in (('00', 1), ('01', 100), ('02', 3)):
        text = FOUR_SWITCHES.replace('000064\n', f'{method}0064\n', 1)
        expect(lugwefa.solve(text), lugwefa.Solution(began, True, 4.0, 4.0, 0.0, rounds, True), f'both ends by method {method}')
        expect(lugwefa.answer_text(text), f'810140100000000000004010000000000000{0:016X}{rounds:04X}01\n840000FFFF\n', f'both ends by method {method}')
    # branches 0 and 1 from bus 1 to 2, 2 and 3 from 2 to 3: branch 1 comes first by switch 9, which stays, and the one that moves is listed last
    double = lugwefa.write_text(lugwefa.records((1.0, 0, 0), RECORDS[1], [(1, 2, 1.0, 1)] * 2 + [(2, 3, 1.0, 1)] * 2,
                                                [(9, 1, 0, 1), (8, 3, 1, 1), (7, 0, 0, 1), (6, 2, 0, 1), (5, 1, 1, 1)]))
    expect(lugwefa.plan(double, lugwefa.base_state(double), {9: CLOSED, 8: CLOSED, 7: OPEN, 6: OPEN, 5: CLOSED}), [Pair((5,), (7,)), Pair((8,), (6,))], 'rank by the first listed switch')
    for one, two in ((began, ended), (ended, began), (began, {**ended, 13: OPEN})):
        every_cut(operable, one, two, 'both ends')


def drawn_feeder(draw):
    """A tree and branches more, at any positions, each with none, one or two switches, in some feeders two on each, listed in any order. Of those beside the tree some are out of service."""
    buses, all_two, locked = draw.randint(1, 8), draw.random() < 0.3, draw.choice((0, 0.1))
    ends = [(draw.randrange(k), k, True, draw.choice((0, 1, 2))) for k in range(1, buses)]
    ends += [(*draw.sample(range(buses), 2), draw.random() < 0.9, draw.choice((1, 2))) for _ in range(draw.randint(0, 7) if buses > 1 else 0)]
    draw.shuffle(ends)
    on = [k for k, each in enumerate(ends) for _ in range(2 if all_two else each[3])]
    draw.shuffle(on)
    switches = [Switch(switch, k, draw.random() < 0.4, draw.random() >= locked) for switch, k in zip(draw.sample(range(65536), len(on)), on)]
    method = draw.choice((0, 1, 2)) if sum(switch.normally_open for switch in switches) <= 10 else draw.choice((0, 1))
    branches = [(999 - start, 999 - end, draw.choice((0.125, 1.0)), status) for start, end, status, _ in ends]
    return lugwefa.write_text(lugwefa.records((1.0, method, 8), [(999 - k, 1.0) for k in range(buses)], branches, switches))


def drawn_state(draw, text):
    """A state whose live branches are a tree, but for a few, where the text has one: those without a switch are live, of the others those that join two pieces. On a dead one one switch is
    open or both."""
    _, buses, branches, switches, *_ = in_records(text)
    state = {switch.id: draw.choice((OPEN, OPEN, CLOSED)) for switch in switches}
    on = [[switch.id for switch in switches if switch.branch == k] for k in range(len(branches))]
    neighbours = {bus.id: set() for bus in buses}
    for k in sorted(draw.sample(range(len(branches)), len(branches)), key=lambda k: len(on[k]) > 0):
        start, end, _, status = branches[k]
        if status and end not in flood(neighbours, start):
            state.update(dict.fromkeys(on[k], CLOSED))
            neighbours[start].add(end)
            neighbours[end].add(start)
        elif status and all(state[switch] == CLOSED for switch in on[k]):
            state.update((switch, OPEN) for switch in on[k][:1])
    if switches and draw.random() < 0.08:
        switch = draw.choice(switches).id
        state[switch] = other(state[switch])
    return state


def drawn_plans():
    """Plans between drawn states, and what is printed for drawn feeders. Pairs of two, three and four moves are met, and both refusals."""
    draw, met = random.Random(6), Counter()
    for number in range(300):
        text, what = drawn_feeder(draw), f'drawn feeder {number}'
        one, two = drawn_state(draw, text), drawn_state(draw, text)
        is_formed(text, one, what)
        for present, wanted in ((one, two), (two, one)):
            right = planned(text, present, wanted)
            if isinstance(right, tuple):
                met[f'refusal {right[0]}'] += 1
                expect((refusal(lugwefa.plan, text, present, wanted), refusal(lugwefa.resume, text, present, wanted, 10 ** 6)), (right, right), what)
            else:
                met.update(f'{len(pair.close + pair.open)} moves' for pair in right)
                every_cut(text, present, wanted, what)
        expect(lugwefa.answer_text(text), printed_by_calls(text), what)
    expect([kind for kind in ('2 moves', '3 moves', '4 moves', 'refusal 11', 'refusal 12') if met[kind] < 20], [], 'kinds that are hardly met')


def in_bytes(text):
    """A text's records in bytes: a byte for two digits, and no line feeds."""
    return bytes.fromhex(text.replace('\n', ''))


def in_text(records):
    """The text of records in bytes, accepted or not."""
    sizes, lines, digits = {1: 36, 2: 22, 3: 28, 4: 12, 5: 6}, [], records.hex().upper()
    while digits:
        size = sizes[int(digits[:2], 16)]
        lines.append(digits[:size] + '\n')
        digits = digits[size:]
    return ''.join(lines)


def in_records(text):
    """The records of a text."""
    number = lambda digits: int(digits, 16)
    float_of = lambda digits: struct.unpack('>d', bytes.fromhex(digits))[0]
    kinds = {'01': [], '02': [], '03': [], '04': [], '05': []}
    for line in text.splitlines():
        kinds[line[:2]].append(line)
    head = Head(float_of(kinds['01'][0][14:30]), number(kinds['01'][0][30:32]), number(kinds['01'][0][32:]))
    buses = [Bus(number(line[2:6]), float_of(line[6:])) for line in kinds['02']]
    branches = [Branch(number(line[2:6]), number(line[6:10]), float_of(line[10:26]), number(line[26:])) for line in kinds['03']]
    switches = [Switch(number(line[2:6]), number(line[6:10]), line[11] in '13', line[11] in '23') for line in kinds['04']]
    return head, buses, branches, switches, *(number(line[2:]) for line in kinds['05'])


def written_texts():
    plain = tuple(RECORDS[0]), *(map(tuple, each) for each in RECORDS[1:])
    whole = (1, 0, 100), [(1, 0), (2, 1), (3, 2)], [(1, 2, 0.25, True), *RECORDS[2][1:]], [[10, 1, 0, 1], [11, 2, 1, 1]]
    for what, records in (('records', RECORDS), ('tuples in iterators', plain), ('whole numbers and truth values', whole), ('as read', in_records(TRIANGLE))):
        expect(lugwefa.records(*records), in_bytes(TRIANGLE), f'the bytes of {what}')
    for records in (in_bytes(TRIANGLE), bytearray(in_bytes(TRIANGLE)), list(in_bytes(TRIANGLE))):
        expect(lugwefa.write_text(records), TRIANGLE, "the triangle's text")
    expect(lugwefa.answer_text(lugwefa.write_text(lugwefa.records(*RECORDS))), PRINTED, "the triangle's text, answered")
    for value, digits in ((-0.0, '8000000000000000'), (5e-324, '0000000000000001'), (-1e6, 'C12E848000000000'), (0.1, '3FB999999999999A')):
        text = '010001000000003FF0000000000000020000\n02FFFF' + digits + '\n'
        expect(lugwefa.write_text(lugwefa.records((1.0, 2, 0), [(65535, value)], [], [])), text, f'the bits of {value}')
    for pattern in ('7FF0000000000001', 'FFF8000000000000', '7FF0000000000000'):
        value = struct.unpack('>d', bytes.fromhex(pattern))[0]
        records = lugwefa.records((1.0, 0, 0), [(1, value)], [], [])
        expect((records[-8:].hex().upper(), refusal(lugwefa.write_text, records)), (pattern, (5, 2)), 'a float that is not finite')
    for long in (b'\5' * 100000, in_bytes(BUSES) * 3000, in_bytes(HEAD) * 6000):
        expect(refusal(lugwefa.write_text, long), (2, 2 if long[0] == 1 else 1), 'records without end')


def supplies():
    """With the supply named a loss counts the side away from it, however a branch was drawn."""
    expect([lugwefa.loss(TURNED, state) for state in (BASE, BEST)], [1.75, 1.75], 'branch 0 turned, no supply')
    for text in (TRIANGLE, TURNED):
        for supply, losses in ((1, [4.0, 1.0]), (2, [1.75, 1.75]), (3, [0.4375, 0.4375])):
            fed, what = text + f'05{supply:04X}\n', f'fed at bus {supply}'
            expect([lugwefa.loss(fed, state) for state in (BASE, BEST)], losses, what)
            expect([lugwefa.radiality(fed, state) for state in (BASE, ALL_CLOSED)], [True, False], what)
            expect([lugwefa.form(fed, state) for state in (BASE, ALL_CLOSED, ALL_OPEN)], [TREE, Form(0, 2), Form(1, None)], what)
            expect([refusal(lugwefa.loss, fed, state) for state in (ALL_CLOSED, ALL_OPEN, b'\0\0\0')], [(11, 0), (11, 0), (10, 0)], what)
            expect(lugwefa.plan(fed, BASE, BEST), [Pair(close=(11,), open=(10,))], what)
            expect(lugwefa.operations(fed, ALL_CLOSED, BEST), [Operation(10, OPEN)], what)
            expect((lugwefa.base_state(fed), lugwefa.switch_ids(fed)), (BASE, [10, 11]), what)
            found = lugwefa.Solution(BEST, True, 4.0, 1.0, 75.0, 2, True) if supply == 1 else lugwefa.Solution(BASE, True, *losses, 0.0, 1, True)
            expect(lugwefa.solve(fed), found, what)
            expect(lugwefa.records(*in_records(fed)), in_bytes(fed), f'the bytes of records {what}')
            expect(lugwefa.write_text(in_bytes(fed)), fed, f'the text {what}')
    expect(lugwefa.answer_text(TURNED + '050001\n'), PRINTED, 'what is printed, fed at bus 1')
    expect(lugwefa.records(*RECORDS, None), in_bytes(TRIANGLE), 'the bytes of records without a supply')
    expect(lugwefa.records(*RECORDS, supply=65535)[-3:], b'\5\xff\xff', "a supply's bytes")
    expect(lugwefa.write_text(lugwefa.records((1.0, 0, 0), [(0, 1.0)], [], [], 0)), '010001000000003FF0000000000000000000\n0200003FF0000000000000\n050000\n', 'supply 0')
    for supply in (0, 4, 10, 65535):
        expect(refusal(lugwefa.write_text, lugwefa.records(*RECORDS, supply)), (14, 10), 'records with a supply that is not listed')
    for value in (-1, 65536, '1', 1.0, b'1'):
        expect(no_room(*RECORDS, value), ('supply', 0, 'id', value, 'whole number from 0 to 65,535'), 'a supply')


def values_without_room():
    """A value that does not fit is said with its record and field, and never made to fit."""
    head, buses, branches, switches = RECORDS
    whole, byte, truth = 'whole number from 0 to 65,535', 'whole number from 0 to 255', 'truth value, 0 or 1'
    for value in (-1, 65536, 70000, None, '2', 2.0, b'2'):
        expect(no_room(head, [*buses, (value, 0.0)], branches, switches), ('bus', 3, 'id', value, whole), 'a bus id')
        expect(no_room(head, buses, [(1, value, 0.25, 1)], switches), ('branch', 0, 'to_bus', value, whole), 'a branch end')
        expect(no_room(head, buses, branches, [switches[0], (11, value, 1, 1)]), ('switch', 1, 'branch', value, whole), "a switch's branch")
        expect(no_room((1.0, 0, value), [], [], []), ('head', 0, 'max_iterations', value, whole), 'iterations')
    for value in (None, 'two', b'', 10 ** 400, 1j):
        expect(no_room(head, [(1, value)], [], []), ('bus', 0, 'pd', value, 'number'), 'a load')
        expect(no_room((value, 0, 0), [], [], []), ('head', 0, 'base_mva', value, 'number'), 'a base')
    for value in (-1, 256, None, '1'):
        expect(no_room(head, buses, [(1, 2, 0.25, value)], []), ('branch', 0, 'status', value, byte), 'a status')
    for value in (-1, 2, 3, None, 'no', '1', 0.5):
        expect(no_room(head, [], [], [(1, 0, value, 1)]), ('switch', 0, 'normally_open', value, truth), 'a flag')
        expect(no_room(head, [], [], [(1, 0, 1, value)]), ('switch', 0, 'can_operate', value, truth), 'a flag')
    expect(no_room(head, [(1, 0.0)] * 65536, [], []), ('head', 0, 'buses', 65536, whole), 'a count')
    expect(str(NoRoom('bus', 3, 'id', 70000, whole)), 'bus at position 3: id is 70000, which is no whole number from 0 to 65,535', 'words')
    # what fits is for the call to judge
    for right, records in (((4, 1), (head, [(0, 0.0)] * 257, [], [])), ((3, 1), ((1.0, 255, 0), [], [], [])), ((3, 5), (head, buses, [(1, 2, 0.25, 255)], [])),
                           ((6, 2), (head, [], [(0, 65535, 0.0, 1)], [])), ((7, 3), (head, [(9, 0.0)] * 2, [], []))):
        expect(refusal(lugwefa.write_text, lugwefa.records(*records)), right, 'records that are refused')


def no_room(*records):
    """The fields of NoRoom, None where there is room."""
    try:
        lugwefa.records(*records)
    except NoRoom as error:
        return error.kind, error.position, error.field, error.value, error.room
    return None


def refusals():
    bad = HEAD + BUSES + BRANCHES
    texts = {
        (1, 1): '0G',
        (2, 1): '',
        (3, 8): bad + '04000A000104\n04000B000203\n',
        (4, 1): '01010100000000' + '3FF0000000000000' + '000064\n',
        (5, 3): HEAD + '0200010000000000000000\n0200027FF0000000000000\n0200034000000000000000\n' + BRANCHES + '04000A000102\n04000B000203\n',
        (6, 8): bad + '04000A000302\n04000B000203\n',
        (7, 9): bad + '04000A000102\n04000A000203\n',
        (8, 10): bad.replace('0002', '0003', 1) + '04000A000102\n04000B000103\n04000C000102\n',
        (8, 12): FOUR_SWITCHES.replace('0004', '0005', 1) + '04000E000202\n',
        (7, 12): FOUR_SWITCHES.replace('0004', '0005', 1) + '04000C000202\n',
        (9, 25): '010002000B000B3FF0000000000000020000\n' + BUSES[:46] + '03000100023FD000000000000000\n' * 11
                 + ''.join(f'04{k + 1:04X}{k:04X}03\n' for k in range(11)),
        (17, 5): HEAD + BUSES + OWN_LOOP,
        (17, 6): STORED + '050009\n',
        (14, 10): TRIANGLE + '050009\n',
        (15, 10): bad + '04000A000102\n04000B000202\n050001\n',
    }
    for right, text in texts.items():
        if right[0] > 1:
            expect(refusal(lugwefa.write_text, in_bytes(text)), right, f'records that are refused {right[0]}')
        for ask in (lugwefa.answer_text, lugwefa.base_state, lugwefa.solve, lugwefa.switch_ids):
            expect(refusal(ask, text), right, f'a text that is refused {right[0]}')
        for ask in (lugwefa.radiality, lugwefa.form, lugwefa.loss):
            expect(refusal(ask, text, BASE), right, f'{right[0]} before the state')
            expect(refusal(ask, text, b'\2'), right, f'{right[0]} before the state')
        for ask in (lugwefa.plan, lugwefa.operations):
            expect(refusal(ask, text, BASE, {}), right, f'{right[0]} before the states')
        expect(refusal(lugwefa.resume, text, BASE, {}, 99), right, f'{right[0]} before the states and the count')
    expect(refusal(lugwefa.plan, LOCKED, ALL_CLOSED, BEST), (11, 0), 'a present state that is not radial')
    expect(refusal(lugwefa.plan, LOCKED, BASE, ALL_OPEN), (11, 1), 'a wanted state that is not radial')
    expect(refusal(lugwefa.plan, LOCKED, BASE, BEST), (12, 10), 'a locked switch')
    expect(str(Refused(8, 10)), 'refused 8 at line 10: third switch on a branch', 'words')
    expect(str(Refused(12, 10)), 'refused 12 at switch 10: a switch that the plan would move is locked', 'words')
    expect(str(Refused(5, 3)), 'refused 5 at line 3: float outside its range, or not finite', 'words')
    expect(str(Refused(11, 1)), "refused 11 at the wanted state: a plan's state isn't radial, or with a supply that of a loss", 'words')
    expect(str(Refused(14, 10)), 'refused 14 at line 10: supply bus not listed', 'words')
    expect(str(Refused(15, 10)), 'refused 15 at line 10: a supply is named, and the base is not radial', 'words')
    expect(str(Refused(17, 6)), 'refused 17 at line 6: branch from a bus to itself', 'words')
    expect(sorted(lugwefa.CONDITIONS), list(range(1, 18)), 'a condition for each number')


def repaired_by_lines(text):
    """The repair of an accepted stored text, reckoned on its lines: those of the branches with equal ends and of the switches on them go."""
    lines = text.splitlines(keepends=True)
    buses, branches, switches = (int(lines[0][at:at + 4], 16) for at in (2, 6, 10))
    first, behind = 1 + buses, 1 + buses + branches
    own = {k for k in range(branches) if lines[first + k][2:6] == lines[first + k][6:10]}
    on = {behind + i: int(lines[behind + i][6:10], 16) for i in range(switches)}
    dropped = [Dropped(first + k + 1, BRANCH) for k in sorted(own)] + [Dropped(at + 1, SWITCH) for at, k in on.items() if k in own]
    gone = {line - 1 for line, _ in dropped}
    place = lambda k: f'{k - sum(each < k for each in own):04X}'
    kept = [line[:6] + place(on[at]) + line[10:] if at in on else line for at, line in enumerate(lines) if at not in gone]
    kept[0] = f'01{buses:04X}{branches - len(own):04X}{switches - sum(k in own for k in on.values()):04X}{lines[0][14:]}'
    return Repaired(''.join(kept), dropped)


def is_repaired(text, place, what):
    """A stored text that the other calls refuse with 17; what is left is a new text, which they read, and the same repaired."""
    right = repaired_by_lines(text)
    expect(lugwefa.repair_text(text), right, what)
    for ask in (lugwefa.answer_text, lugwefa.base_state):
        expect(refusal(ask, text), (17, place), f'{what}, refused')
    expect(refusal(lugwefa.write_text, in_bytes(text)), (17, place), f'{what}, its records refused')
    is_clean(right.text, f'{what}, repaired')


def is_clean(text, what):
    expect(lugwefa.repair_text(text), Repaired(text, []), what)
    expect(lugwefa.write_text(in_bytes(text)), text, what)
    expect(lugwefa.answer_text(text)[:2], '81', what)


def with_own_loops(draw, text):
    """Branches from a bus to itself put among those of an accepted text, with none to two switches each."""
    head, buses, branches, switches, *supply = in_records(text)
    for _ in range(draw.randint(1, 4)):
        at, bus = draw.randint(0, len(branches)), draw.choice(buses).id
        branches.insert(at, Branch(bus, bus, 0.25, draw.choice((0, 1))))
        switches = [switch._replace(branch=switch.branch + (switch.branch >= at)) for switch in switches]
        for _ in range(draw.randint(0, 2)):
            number = draw.choice([k for k in range(100) if all(k != switch.id for switch in switches)])
            switches.insert(draw.randint(0, len(switches)), Switch(number, at, head.method < 2 and draw.random() < 0.5, draw.random() < 0.5))
    return in_text(lugwefa.records(head, buses, branches, switches, *supply))


# The buses and the ends of branches, some of them equal, and the line of the first of these.
OWN_LOOPS = {
    'a bus with its own loop': (1, [(0, 0)], 3),
    'an own loop and an island': (2, [(1, 1)], 4),
    'an own loop before the branches of a ring': (3, [(1, 1), (0, 1), (1, 2), (2, 0)], 5),
    '256 buses, and 512 own loops at the last': (256, [(255, 255)] * 512, 258),
}


def repairs():
    for text in (STORED, STORED.encode(), bytearray(STORED.encode())):
        expect(lugwefa.repair_text(text), Repaired(TRIANGLE, STORED_DROPPED), 'the stored triangle')
    expect(lugwefa.repair_text(STORED + '050001\n'), Repaired(TRIANGLE + '050001\n', STORED_DROPPED), 'the stored triangle, fed')
    expect(lugwefa.repair_text(OWN_BUS), Repaired(ONE_BUS, [Dropped(3, BRANCH)]), 'one bus with its own loop')
    looped = STORED.replace('04000B000303', '04000B000302')
    for right, text in (((15, 12), looped + '050001\n'), ((15, 12), looped + '050001\n050001\n'), ((2, 13), STORED + '050001\n050001\n'), ((14, 12), STORED + '050009\n'),
                        ((7, 10), STORED.replace('04000C', '04000A')), ((8, 11), STORED.replace('A0002', 'A0001').replace('B0003', 'B0001')), ((6, 6), STORED.replace(OWN_LOOP, OWN_LOOP.replace('0002', '0009'))),
                        ((3, 11), STORED.replace('B000303', 'B000304')), ((1, 1), '0G'), ((2, 1), ''), ((2, 1), '\udcff' * 40)):
        expect(refusal(lugwefa.repair_text, text), right, f'a stored text that is refused {right[0]}')
    for what, (buses, ends, place) in OWN_LOOPS.items():
        is_repaired(text_of(buses, ends), place, what)
    for what, (buses, ends, _) in FORMS.items():
        is_clean(text_of(buses, ends), f'{what}, byte for byte')
    row = [(k, k + 1, 1.0, 1) for k in range(255)]
    longest, own = (in_text(lugwefa.records((1.0, 0, 1), [(k, 0.0) for k in range(256)], row + [(0, end, 1.0, 1)] * 257, [(k, k, k >= 255, True) for k in range(512)], 0)) for end in (1, 0))
    expect(len(longest), 27436, 'the longest text has as many bytes as the header says')
    is_clean(longest, 'the longest text, byte for byte')
    is_repaired(own, 513, 'the longest text with 257 own loops')
    draw = random.Random(7)
    for number in range(200):
        text = drawn_feeder(draw)
        is_clean(text, f'drawn feeder {number}, byte for byte')
        stored = with_own_loops(draw, text)
        is_repaired(stored, lugwefa.repair_text(stored).dropped[0].line, f'drawn feeder {number} with own loops')
        expect(lugwefa.repair_text(stored).text, text, f'drawn feeder {number}, given back')


def tails():
    """Guard bytes around the lent slice: what is behind the answer stays, and a refusal writes nothing."""
    library, text = lugwefa._library(), TRIANGLE.encode()
    base, best = b'\0\1', b'\1\0'
    lent = (('feeder_plan', (text, base, best), b'8601000B01000A\n'), ('feeder_plan', (FOUR_SWITCHES.encode(), b'\1\0\1\0', b'\0\1\0\0'), b'8602000C000B01000A\n'),
            ('feeder_operations', (text, base, best), b'82000A00\n82000B01\n'),
            ('feeder_answer_text', (text,), PRINTED.encode()), ('feeder_base_state', (text,), base), ('feeder_solve', (text,), best),
            ('feeder_write_text', (in_bytes(TRIANGLE),), text), ('feeder_repair_text', (text,), text), ('feeder_repair_text', (OWN_BUS.encode(),), ONE_BUS.encode() + b'87000301\n'))
    for name, slices, written in lent:
        for room in (len(written) + 8, len(written), len(written) - 1, 0):
            fits = room >= len(written)
            buffer = ctypes.create_string_buffer(b'\xAA' * 256, 256)
            middle = ctypes.c_char_p(ctypes.addressof(buffer) + 16)
            words = [word for each in slices for word in (each, len(each))]
            answer = getattr(library, name)(*words, middle, room)
            right = b'\xAA' * 16 + (written if fits else b'')
            expect(buffer.raw, right + b'\xAA' * (256 - len(right)), f'{name}: the bytes with room for {room}')
            expect((answer.number, answer.place), (0 if fits else 13, 0), f'{name}: the answer with room for {room}')


def two_tails():
    """The same around the two slices of a plan that was cut off, at each count with room and without."""
    for text, present, wanted, moves, undone in (
            (TRIANGLE, b'\0\1', b'\1\0', (b'82000B01\n', b'82000A00\n'), (b'82000A01\n', b'82000B00\n')),
            (FOUR_SWITCHES, b'\1\0\1\0', b'\0\1\0\0', (b'82000C01\n', b'82000B01\n', b'82000A00\n'), (b'82000A01\n', b'82000B00\n', b'82000C00\n'))):
        words = [word for each in (text.encode(), present, wanted) for word in (each, len(each))]
        length = len(moves)
        for count, spare in itertools.product(range(length + 2), ((8, 8), (0, 0), (-1, 8), (8, -1), (-1, -1))):
            written = b''.join(moves[count:]), b''.join(undone[length - count:]) if count <= length else b''
            rooms = [max(len(each) + more, 0) for each, more in zip(written, spare)]
            number = 16 if count > length else 13 if any(room < len(each) for room, each in zip(rooms, written)) else 0
            buffers = [ctypes.create_string_buffer(b'\xAA' * 64, 64) for _ in written]
            middles = [ctypes.c_char_p(ctypes.addressof(buffer) + 16) for buffer in buffers]
            answer = lugwefa._library().feeder_resume(*words, count, middles[0], rooms[0], middles[1], rooms[1])
            rights = [b'\xAA' * 16 + (b'' if number else each) for each in written]
            expect([buffer.raw for buffer in buffers], [right + b'\xAA' * (64 - len(right)) for right in rights], f'two slices at {count} with room for {rooms}')
            expect((answer.number, answer.place, answer.value), (number, 0, 0 if number else length - count), f'the answer at {count} with room for {rooms}')


def bits(x):
    return struct.pack('>d', x).hex().upper()


def entries(path):
    with open(path, 'rb') as file:
        while head := file.read(9):
            yield file.read(int(head[:4], 16)), file.read(int(head[4:8], 16)).decode()


def id_list(ids):
    return f'{len(ids):02X}' + ''.join(f'{switch:04X}' for switch in ids)


def printed_by_calls(text):
    """What is printed for an accepted text, made again from what the calls answer."""
    base, found = lugwefa.base_state(text), lugwefa.solve(text)
    lines = [f'81{found.radial:02X}{bits(found.base_loss)}{bits(found.best_loss)}{bits(found.reduction)}{found.iterations:04X}{found.converged:02X}']
    form = lugwefa.form(text, found.state)
    lines += [f'84{form.islands:04X}{65535 if form.branch is None else form.branch:04X}']
    lines += [f'82{switch:04X}{stands == CLOSED:02X}' for switch, stands in lugwefa.operations(text, base, found.state)]
    if lugwefa.radiality(text, base):
        lines += [f'86{id_list(pair.close)}{id_list(pair.open)}' for pair in lugwefa.plan(text, base, found.state)]
    return '\n'.join(lines) + '\n'


def every_text(path):
    """The printed lines of each text, made again from what the calls answer; and an accepted text itself, made again from its records."""
    texts = written = 0
    for text, printed in entries(path):
        texts += 1
        what = f'entry {texts}'
        if printed.startswith('8F'):
            right = int(printed[2:4], 16), int(printed[4:8], 16)
            expect(refusal(lugwefa.answer_text, text), right, what)
            if right[0] != 17:
                expect(refusal(lugwefa.repair_text, text), right, f'{what}, repaired')
            elif refusal(lugwefa.repair_text, text) is None:
                is_repaired(text.decode(), right[1], what)
            continue
        expect(lugwefa.answer_text(text), printed, what)
        expect(lugwefa.repair_text(text), Repaired(text.decode(), []), f'{what}, repaired')
        written += 1
        expect(lugwefa.write_text(lugwefa.records(*in_records(text.decode()))), text.decode(), what)
        expect(printed_by_calls(text), printed, what)
        base, found = lugwefa.base_state(text), lugwefa.solve(text)
        if lugwefa.radiality(text, base):
            every_cut(text.decode(), base, found.state, what)
        else:
            expect(refusal(lugwefa.plan, text, base, found.state), (11, 0), what)
            expect(refusal(lugwefa.resume, text, base, found.state, 0), (11, 0), what)
        for state in (base, found.state, *(dict.fromkeys(base, stands) for stands in (CLOSED, OPEN))):
            is_formed(text.decode(), state, what)
        losses = [lugwefa.loss(text, state) for state in (base, found.state)]
        expect((losses, lugwefa.radiality(text, found.state)), ([found.base_loss, found.best_loss], found.radial), what)
    return texts, written


def example(path):
    with redirect_stdout(io.StringIO()) as printed:
        runpy.run_path(path)
    expect(printed.getvalue(), "base {10: 'closed', 11: 'open'}: 4.0 MW lost; best {10: 'open', 11: 'closed'}: 1.0 MW, 75.0 percent less\n"
           'close switch 11, then open switch 10\n'
           'power lost after one move: to finish, 10 open; to go back, 11 open\n'
           "both open: refused 11 at the wanted state: a plan's state isn't radial, or with a supply that of a loss; Form(islands=1, branch=None)\n"
           "both closed: refused 11 at the wanted state: a plan's state isn't radial, or with a supply that of a loss; Form(islands=0, branch=2)\n"
           'a stored text: refused 17 at line 6: branch from a bus to itself; repaired without line 6 (branch), line 10 (switch) it is the feeder above: True\n', 'the example')


triangle()
forms()
states_by_id()
resumed()
both_ends()
drawn_plans()
written_texts()
supplies()
values_without_room()
refusals()
repairs()
tails()
two_tails()
example(sys.argv[2])
texts, written = every_text(sys.argv[1])
print(f'interface: Python: {checks} checks, {wrong} wrong ({texts} texts of the list, {written} of them accepted and written back)')
sys.exit(wrong > 0)
