#!/usr/bin/env python3
"""Writes crates/call_cases/stdin and stdout: calls on feeders and states, and what they answer.

usage: tests/cases/call_cases.py

Each case of stdin is a line 'LENGTH NAME', a frame text, a line feed, and three lines: the letters CALL and CHANGE with a blank and PRESENT, then
WANTED, then SLICE (crates/call_cases/src/calls.rt). Each case of stdout is 'NAME FIELDS [SLICE]' or 'NAME refused NUMBER PLACE [SLICE]', with
the slice as the call leaves it; call S is three calls without a slice, and call R has two, the second in a line of its own. Every answer is written by hand from documents 01 and 02, but
for those on drawn feeders, which are reckoned and judged as in the generators beside this one; that of a state's form must be what labels and searches give. tests/oracle/self-test
holds them against the original Rust and the oracle's own reckoning.
"""
import os
import struct
import sys

sys.dont_write_bytecode = True
import loss_cases
import plan_cases
import plans
import resume_cases
from feeders import TREE

ROOT = os.path.join(os.path.dirname(os.path.abspath(__file__)), '..', '..', 'crates', 'call_cases')
EXCHANGE, TABU, EXHAUSTIVE = 0, 1, 2
ROOM_FOR_CASES = 393216
# bytes of an 86 line with one id on each side
LINE = 15
cases = []


def bits(x):
    return struct.unpack('>Q', struct.pack('>d', x))[0]


class Feeder:
    """Loads of buses 1, 2, ..; branches (from, to, r); switches (id, branch position, flags); the id of the supply, where there is one; the positions of branches out of service."""

    def __init__(self, loads, branches, switches, supply=None, out_of_service=()):
        self.loads, self.branches, self.switches, self.supply, self.out_of_service = loads, branches, switches, supply, out_of_service

    def records(self):
        """The feeder that plans are made for."""
        branches = [(a, b, int(k not in self.out_of_service)) for k, (a, b, _) in enumerate(self.branches)]
        return resume_cases.Feeder(list(range(1, len(self.loads) + 1)), branches, self.switches, supply=self.supply)

    def form(self, state):
        feeder = self.records()
        return feeder.form(feeder.live(state))

    def fed(self, supply):
        return Feeder(self.loads, self.branches, self.switches, supply)

    def text(self, method=EXCHANGE, iterations=100):
        lines = ['01%04X%04X%04X%016X%02X%04X' % (len(self.loads), len(self.branches), len(self.switches), bits(1.0), method, iterations)]
        lines += ['02%04X%016X' % (i + 1, bits(load)) for i, load in enumerate(self.loads)]
        lines += ['03%04X%04X%016X%02X' % (a, b, bits(r), k not in self.out_of_service) for k, (a, b, r) in enumerate(self.branches)]
        lines += ['04%04X%04X%02X' % switch for switch in self.switches]
        lines += ['05%04X' % self.supply] if self.supply is not None else []
        return ''.join(line + '\n' for line in lines)


SIDES = [(1, 2, 0.25), (2, 3, 0.4375), (1, 3, 0.1875)]
TRIANGLE = Feeder([0.0, 1.0, 2.0], SIDES, [(10, 1, 2), (11, 2, 3)])
TURNED = Feeder([0.0, 1.0, 2.0], [(2, 1, 0.25)] + SIDES[1:], [(10, 1, 2), (11, 2, 3)])
NO_BUSES = Feeder([], [], [])
ONE_BUS = Feeder([3.0], [], [])
OWN_LOOP = Feeder([3.0], [(1, 1, 0.5)], [])
TWO_PARALLEL = Feeder([0.0, 2.0], [(1, 2, 0.25), (1, 2, 0.5)], [])
TWO_BUSES = Feeder([0.0, 2.0], [(1, 2, 0.25)], [])
TIE_ONLY = Feeder([0.0, 2.0], [(1, 2, 0.25)], [(7, 0, 3)])
PARALLEL = Feeder([0.0, 2.0], [(1, 2, 0.25), (1, 2, 0.5)], [(7, 1, 2)])
# two parallel branches, and a bus apart
APART = Feeder([0.0, 2.0, 1.0], PARALLEL.branches, PARALLEL.switches)
TIES_ONLY = Feeder([0.0, 1.0, 2.0], [(1, 2, 0.25), (2, 3, 0.25)], [(8, 0, 3), (9, 1, 3)])
# MODEL's ring, drawn one way round, on a base of 1 MVA
RING = Feeder([0.0, 2.0, 3.0, 1.0, 2.0], [(1, 2, 0.25), (2, 3, 0.25), (3, 4, 0.25), (4, 5, 0.25), (5, 1, 0.25)], [(10 + k, k, 3 if k == 2 else 2) for k in range(5)])
# ids fall, and every second switch is a locked tie
LARGEST = Feeder([0.0, 0.0], [(1, 2, 0.0)] * 512, [(1000 - i, i, i % 2) for i in range(512)])
# document 02's triangle with a switch at each end of branch 2, both ties, and of branch 1, of which 13 is locked
TWO_EACH = Feeder([0.0, 1.0, 2.0], SIDES, [(12, 2, 3), (10, 1, 2), (11, 2, 3), (13, 1, 0)])
LOCKED = Feeder([0.0, 1.0, 2.0], SIDES, [(10, 1, 0), (11, 2, 3)])
# the longest text without a supply: parallel branches at the last bus
PARALLELS = Feeder([0.0] * 256, [(255, 256, 0.0)] * 512, [(1000 - i, i, 2) for i in range(512)])
# three buses in a row, joined by two branches each
ROW = Feeder([0.0, 1.0, 2.0], [(1, 2, 0.25), (2, 3, 0.25)] * 2, [(40, 0, 2), (30, 1, 2), (20, 2, 3), (10, 3, 3)])
# bus 1 joined with each of 255 others by two branches, the second of them a tie; the last bus's two have a second switch each, listed first and last
LONGEST = Feeder([0.0] * 256, [(1, 2 + k, 0.0) for k in range(255)] * 2,
                 [(2001, 509, 3)] + [(1000 - i, i, 2 if i < 255 else 3) for i in range(510)] + [(2000, 254, 2)])


def case(call, name, text, printed, present='', wanted='', room=0, change='-', slices=None):
    cases.append((name, '%d %s\n%s\n%s%s %s\n%s\n%s\n' % (len(text), name, text, call, change, present, wanted, slices or '.' * room), printed))


def refused(number, place):
    return 'refused %d %d' % (number, place)


def slice_case(call, name, text, room, fields, written, **more):
    case(call, name, text, '%s [%s]' % (fields, written + '.' * (room - len(written))), room=room, **more)


def form_fields(feeder, state, form):
    """Those of the 84 line: the islands, then the branch, FFFF where no loop is."""
    assert feeder.form(state) == form, (feeder.form(state), form)
    islands, branch = form
    return islands, 0xFFFF if branch is None else branch


def best(name, feeder, room, form, base, least, rounds, converged, state, method=EXCHANGE, iterations=100):
    reduction = (base - least) / base * 100 if base > 1e-12 else 0.0
    fields = '%02x %016x %016x %016x %04x %02x' % (form == TREE, bits(base), bits(least), bits(reduction), rounds, converged)
    fields += ' %04x %04x' % form_fields(feeder, state, form)
    slice_case('B', 'best-' + name, feeder.text(method, iterations), room, fields, state)


def operations(name, feeder, present, wanted, room, known):
    """Of an operation: the id, and 00 open or 01 close."""
    lines = ''.join('82%04X%02X\n' % operation for operation in known)
    slice_case('O', 'operations-' + name, feeder.text(), room, '%04x' % len(known), lines, present=present, wanted=wanted)


def state(name, feeder, bytes_, form, loss):
    """The loss, or number and place of its refusal."""
    fields = '%02x %04x%04x ' % (form == TREE, *form_fields(feeder, bytes_, form))
    fields += refused(*loss) if isinstance(loss, tuple) else '%016x' % bits(loss)
    case('S', 'state-' + name, feeder.text(), fields, present=bytes_)


def refused_state(name, text, bytes_, fault):
    case('S', 'state-' + name, text, ' '.join([refused(*fault)] * 3), present=bytes_)


def plan(name, present, wanted, room, known, feeder=TRIANGLE, method=EXCHANGE):
    lines = ''.join(map(plans.line_of, plan_cases.listed(known)))
    slice_case('P', 'plan-' + name, feeder.text(method), room, '%04x' % len(known), lines, present=present, wanted=wanted)


def cut_plan(name, count, rooms, fields, remaining=(), back=(), text=TRIANGLE.text(), present='01', wanted='10', change='-'):
    """The count and the rooms of the two slices; of a move the id, and 00 open or 01 close."""
    lists = [''.join('82%04X%02X\n' % move for move in moves) for moves in (remaining, back)]
    left = ['[%s]' % (written + '.' * (room - len(written))) for written, room in zip(lists, rooms)]
    case('R', 'cut-plan-' + name, text, '%s %s\n %s' % (fields, *left), present, wanted, change=change, slices='%016X %04X %04X' % (count, *rooms))


def best_states():
    for name, room in [('no-slice', 0), ('one-byte', 1)]:
        slice_case('B', 'best-triangle-' + name, TRIANGLE.text(), room, refused(13, 0), '')
    for name, room in [('exactly-full', 2), ('one-byte-longer', 3), ('ten-bytes-longer', 12)]:
        best('triangle-' + name, TRIANGLE, room, TREE, 4.0, 1.0, 2, 1, '10')
    best('exchange-0-rounds', TRIANGLE, 2, TREE, 4.0, 4.0, 0, 0, '01', iterations=0)
    best('exchange-1-round', TRIANGLE, 2, TREE, 4.0, 1.0, 1, 0, '10', iterations=1)
    best('exchange-2-rounds', TRIANGLE, 2, TREE, 4.0, 1.0, 2, 0, '10', iterations=2)
    best('exchange-3-rounds', TRIANGLE, 2, TREE, 4.0, 1.0, 2, 1, '10', iterations=3)
    best('exhaustive', TRIANGLE, 2, TREE, 4.0, 4.0, 1, 1, '01', EXHAUSTIVE)
    best('tabu-100-rounds', TRIANGLE, 2, TREE, 4.0, 4.0, 100, 1, '01', TABU)
    # exchanged it loses 0.25 x 2 x 2 + 0.1875 x 2 x 2, which is not below 1.75
    best('branch-0-turned', TURNED, 2, TREE, 1.75, 1.75, 1, 1, '01')
    for method, iterations, on_radial, on_loop in [(EXCHANGE, 100, 1, 1), (TABU, 100, 100, 100), (EXHAUSTIVE, 100, 1, 0)]:
        best('no-buses-method-%d' % method, NO_BUSES, 2 * method, TREE, 0.0, 0.0, on_radial, 1, '', method, iterations)
        best('one-bus-method-%d' % method, ONE_BUS, 0, TREE, 0.0, 0.0, on_radial, 1, '', method, iterations)
        best('two-buses-method-%d' % method, TWO_BUSES, 1, TREE, 1.0, 1.0, on_radial, 1, '', method, iterations)
        best('two-parallel-method-%d' % method, TWO_PARALLEL, 0, (0, 1), 3.0, 3.0, on_loop, 1, '', method, iterations)


def moved_bytes():
    """Bases that are not radial: exhaustive closes the tie though nothing was lost before, and tabu opens one of two parallel branches."""
    best('tie-only-exchange', TIE_ONLY, 1, (1, None), 0.0, 0.0, 1, 1, '1')
    best('tie-only-tabu', TIE_ONLY, 1, (1, None), 0.0, 0.0, 100, 1, '1', TABU)
    best('tie-only-exhaustive', TIE_ONLY, 1, TREE, 0.0, 1.0, 1, 1, '0', EXHAUSTIVE)
    best('parallel-exchange', PARALLEL, 1, (0, 1), 3.0, 3.0, 1, 1, '0')
    best('parallel-tabu', PARALLEL, 2, TREE, 3.0, 1.0, 2, 1, '1', TABU, 2)
    best('parallel-exhaustive', PARALLEL, 1, (0, 1), 3.0, 3.0, 0, 1, '0', EXHAUSTIVE)


def best_of_no_tree():
    """A base without a radial state in reach stays the best; the 84 line's fields are those of the best state, not of the base."""
    for method, rounds in [(EXCHANGE, 1), (TABU, 100), (EXHAUSTIVE, 0)]:
        best('loop-and-islands-method-%d' % method, APART, 1 + method, (1, 1), 3.0, 3.0, rounds, 1, '0', method)
    best('loop-and-islands-0-rounds', APART, 1, (1, 1), 3.0, 3.0, 0, 0, '0', iterations=0)
    for name, room in [('exactly-full', 2), ('one-byte-longer', 3)]:
        best('islands-' + name, TIES_ONLY, room, (2, None), 0.0, 0.0, 1, 1, '11')
    best('islands-tabu', TIES_ONLY, 2, (2, None), 0.0, 0.0, 100, 1, '11', TABU)
    # both ties closed, 0.25 x 3 x 3 + 0.25 x 2 x 2
    best('islands-exhaustive', TIES_ONLY, 2, TREE, 0.0, 3.25, 1, 1, '00', EXHAUSTIVE)
    best('loop-one-byte-longer', PARALLEL, 2, (0, 1), 3.0, 3.0, 1, 1, '0')
    for name, feeder in [('loop', PARALLEL), ('loop-and-islands', APART), ('islands', TIES_ONLY)]:
        room = len(feeder.switches)
        slice_case('B', 'best-%s-one-byte-short' % name, feeder.text(), room - 1, refused(13, 0), '')
        refused_state(name + '-too-long', feeder.text(), '0' * room + '1', (10, 0))
        refused_state(name + '-byte-02', feeder.text(), '1' * (room - 1) + '2', (10, 0))
    slice_case('B', 'best-loop-and-islands-change-I', APART.text(), 1, refused(3, 1), '', change='I')


def listed_operations():
    there, back = [(10, 0), (11, 1)], [(10, 1), (11, 0)]
    operations('exactly-full', TRIANGLE, '01', '10', 18, there)
    operations('one-byte-longer', TRIANGLE, '01', '10', 19, there)
    operations('back', TRIANGLE, '10', '01', 18, back)
    operations('both-open', TRIANGLE, '00', '11', 18, [(10, 0), (11, 0)])
    operations('both-closed', TRIANGLE, '11', '00', 27, [(10, 1), (11, 1)])
    operations('one', TRIANGLE, '01', '11', 9, [(10, 0)])
    operations('equal-states-no-slice', TRIANGLE, '01', '01', 0, [])
    operations('equal-states', TRIANGLE, '11', '11', 5, [])
    operations('no-buses', NO_BUSES, '', '', 3, [])
    operations('locked', Feeder([0.0, 2.0], [(1, 2, 0.25)], [(7, 0, 0)]), '0', '1', 9, [(7, 0)])
    operations('switch-order', Feeder([0.0, 1.0, 2.0], SIDES, [(11, 2, 3), (10, 1, 2)]), '10', '01', 18, [(11, 1), (10, 0)])
    for name, present, wanted, room in [('one-byte-short', '01', '10', 17), ('room-for-one', '01', '10', 9), ('no-slice', '01', '10', 0), ('one-of-8', '01', '11', 8)]:
        slice_case('O', 'operations-' + name, TRIANGLE.text(), room, refused(13, 0), '', present=present, wanted=wanted)


def refused_states():
    for name, bytes_ in [('empty', ''), ('too-short', '0'), ('too-long', '010'), ('byte-02', '02'), ('byte-FF', 'F1')]:
        for room in (0, 18):
            slice_case('O', 'operations-present-%s-%d' % (name, room), TRIANGLE.text(), room, refused(10, 0), '', present=bytes_, wanted='10')
            slice_case('O', 'operations-wanted-%s-%d' % (name, room), TRIANGLE.text(), room, refused(10, 1), '', present='01', wanted=bytes_)
        slice_case('O', 'operations-both-' + name, TRIANGLE.text(), 18, refused(10, 0), '', present=bytes_, wanted=bytes_)
        refused_state(name, TRIANGLE.text(), bytes_, (10, 0))


def network_refusals():
    """Before 10 and 13: 1,001 iterations (I), an end of branch 1 that is not among two buses (U), 513 switches (W)."""
    for change, fault in [('I', (3, 1)), ('U', (6, 5)), ('W', (4, 1))]:
        for room in (0, 1, 2):
            slice_case('B', 'best-change-%s-%d' % (change, room), TRIANGLE.text(), room, refused(*fault), '', change=change)
        for states, present, wanted in [('good', '01', '10'), ('02', '02', '20')]:
            slice_case('O', 'operations-change-%s-%s' % (change, states), TRIANGLE.text(), 18, refused(*fault), '', present=present, wanted=wanted, change=change)
    slice_case('B', 'best-of-no-text', '0G\n', 2, refused(1, 1), '')
    slice_case('O', 'operations-of-no-text', '0G\n', 18, refused(1, 1), '', present='01', wanted='10')
    slice_case('P', 'plan-of-no-text', '0G\n', LINE, refused(1, 1), '', present='01', wanted='10')
    refused_state('of-no-text', '0G\n', '01', (1, 1))


def states_of_no_tree():
    state('two-parallel-without-a-switch', TWO_PARALLEL, '', (0, 1), 3.0)
    state('two-parallel', PARALLEL, '0', (0, 1), 3.0)
    state('all-closed', TRIANGLE, '00', (0, 2), 5.6875)
    state('both-open', TRIANGLE, '11', (1, None), 0.25)
    state('tie-open', TIE_ONLY, '1', (1, None), 0.0)
    state('two-ties-open', TIES_ONLY, '11', (2, None), 0.0)
    state('parallel-and-a-bus-apart', APART, '0', (1, 1), 3.0)
    state('branch-and-a-bus-apart', APART, '1', (1, None), 1.0)
    # as many live branches as a tree has
    state('row-first-pair', ROW, '0101', (1, 2), 0.5)
    state('row-second-pair', ROW, '1010', (1, 3), 2.0)
    state('row-all-closed', ROW, '0000', (0, 2), 6.5)
    state('row-all-open', ROW, '1111', (2, None), 0.0)
    state('row-loop-supply', ROW.fed(1), '0101', (1, 2), (11, 0))
    # 4 + 1 + 4 quarters
    state('ring-two-open', RING, '01010', (1, None), 2.25)


def states_and_plans():
    state('no-buses', NO_BUSES, '', TREE, 0.0)
    state('one-bus', ONE_BUS, '', TREE, 0.0)
    state('two-buses', TWO_BUSES, '', TREE, 1.0)
    state('base', TRIANGLE, '01', TREE, 4.0)
    state('exchanged', TRIANGLE, '10', TREE, 1.0)
    state('branch-0-turned', TURNED, '01', TREE, 1.75)
    plan('exactly-full', '01', '10', 15, [(11, 10)])
    plan('one-byte-longer', '01', '10', 16, [(11, 10)])
    plan('equal-states', '01', '01', 0, [])
    slice_case('P', 'plan-one-byte-short', TRIANGLE.text(), 14, refused(13, 0), '', present='01', wanted='10')
    slice_case('P', 'plan-all-closed', TRIANGLE.text(), LINE, refused(11, 0), '', present='00', wanted='10')


def written_texts():
    """The text that was read, and none of records with a fault, whatever the slice."""
    text = TRIANGLE.text()
    for name, room in [('exactly-full', 219), ('one-byte-longer', 220), ('ten-bytes-longer', 229)]:
        slice_case('T', 'text-triangle-' + name, text, room, '%04x' % 219, text)
    for name, room in [('one-byte-short', 218), ('no-slice', 0)]:
        slice_case('T', 'text-triangle-' + name, text, room, refused(13, 0), '')
    slice_case('T', 'text-no-buses', NO_BUSES.text(), 37, '%04x' % 37, NO_BUSES.text())
    for change, fault in [('I', (3, 1)), ('U', (6, 5)), ('W', (4, 1))]:
        for room in (0, 218, 219):
            slice_case('T', 'text-change-%s-%d' % (change, room), text, room, refused(*fault), '', change=change)
    slice_case('T', 'text-of-no-text', '0G\n', 219, refused(1, 1), '')


def searches_with_supply():
    """Each method counts the loads away from the supply, whichever way a branch was drawn, and the plan to its best state is that of the text without the line."""
    for drawing, feeder in [('triangle', TRIANGLE), ('turned', TURNED)]:
        fed = feeder.fed(1)
        best(drawing + '-supply-1-exchange', fed, 2, TREE, 4.0, 1.0, 2, 1, '10')
        best(drawing + '-supply-1-exchange-1-round', fed, 3, TREE, 4.0, 1.0, 1, 0, '10', iterations=1)
        best(drawing + '-supply-1-tabu', fed, 2, TREE, 4.0, 4.0, 100, 1, '01', TABU)
        best(drawing + '-supply-1-exhaustive', fed, 2, TREE, 4.0, 4.0, 1, 1, '01', EXHAUSTIVE)
        for method in (EXCHANGE, TABU, EXHAUSTIVE):
            plan('%s-supply-1-method-%d' % (drawing, method), '01', '10', LINE, [(11, 10)], fed, method)
            plan('%s-supply-1-method-%d-none' % (drawing, method), '01', '01', 3, [], fed, method)
        operations(drawing + '-supply-1', fed, '01', '10', 18, [(10, 0), (11, 1)])
        # at bus 2 and at bus 3 both radial states lose the same
        for supply, loss in [(2, 1.75), (3, 0.4375)]:
            for method, rounds in [(EXCHANGE, 1), (TABU, 100), (EXHAUSTIVE, 1)]:
                best('%s-supply-%d-method-%d' % (drawing, supply, method), feeder.fed(supply), 2, TREE, loss, loss, rounds, 1, '01', method)
    # 25 + 9 + 1 + 9 quarters; without the line the exchange opens switch 11
    for method, rounds in [(EXCHANGE, 1), (TABU, 100), (EXHAUSTIVE, 1)]:
        best('ring-supply-1-method-%d' % method, RING.fed(1), 5, TREE, 11.0, 11.0, rounds, 1, '00100', method)
    best('ring', RING, 5, TREE, 27.0, 12.25, 2, 1, '01000')
    # 25 + 9 + 49 + 25 quarters and, with 11 opened in place of 12, 4 + 9 + 16 + 4; with 10 in place of 11 as much
    best('ring-supply-4', RING.fed(4), 5, TREE, 27.0, 8.25, 2, 1, '01000')
    plan('ring-supply-4', '00100', '01000', LINE, [(12, 11)], RING.fed(4))
    for method, rounds in [(EXCHANGE, 1), (TABU, 100), (EXHAUSTIVE, 1)]:
        best('only-bus-supply-method-%d' % method, ONE_BUS.fed(1), 0, TREE, 0.0, 0.0, rounds, 1, '', method)
        best('two-buses-supply-2-method-%d' % method, TWO_BUSES.fed(2), 0, TREE, 0.0, 0.0, rounds, 1, '', method)


def calls_with_supply():
    """With the line a loss is refused 11 on a state that is not radial; every other call answers as without it, but for the network's 14 and 15."""
    for supply, losses in [(1, (4.0, 1.0)), (2, (1.75, 1.75)), (3, (0.4375, 0.4375))]:
        for bytes_, loss in zip(('01', '10'), losses):
            state('supply-%d-%s' % (supply, bytes_), TRIANGLE.fed(supply), bytes_, TREE, loss)
            state('turned-supply-%d-%s' % (supply, bytes_), TURNED.fed(supply), bytes_, TREE, loss)
    fed = TRIANGLE.fed(1)
    for bytes_, form in [('00', (0, 2)), ('11', (1, None))]:
        state('supply-%s' % bytes_, fed, bytes_, form, (11, 0))
    for bytes_ in ('', '0', '000', '02'):
        refused_state('supply-malformed-%s' % bytes_, fed.text(), bytes_, (10, 0))
    operations('supply-not-radial', fed, '00', '11', 18, [(10, 0), (11, 0)])
    slice_case('P', 'plan-supply-not-radial', fed.text(), LINE, refused(11, 1), '', present='01', wanted='00')
    slice_case('T', 'text-supply', fed.text(), 230, '%04x' % 226, fed.text())
    slice_case('T', 'text-supply-one-byte-short', fed.text(), 225, refused(13, 0), '')
    for change, fault in [('I', (3, 1)), ('U', (6, 5)), ('W', (4, 1))]:
        for call in 'BOT':
            slice_case(call, 'supply-change-%s-%s' % (change, call), fed.text(), 226, refused(*fault), '', present='01', wanted='10', change=change)
    for name, feeder, fault in [('not-listed', TRIANGLE.fed(9), (14, 10)), ('on-a-loop', TWO_PARALLEL.fed(1), (15, 6)), ('cut-off', TIE_ONLY.fed(1), (15, 6)),
                                ('of-no-buses', NO_BUSES.fed(1), (14, 2)), ('not-listed-on-a-loop', TWO_PARALLEL.fed(3), (14, 6)), ('of-an-own-loop', OWN_LOOP.fed(1), (17, 3)),
                                ('not-listed-of-an-own-loop', OWN_LOOP.fed(3), (17, 3))]:
        refused_state('supply-' + name, feeder.text(), '2', fault)
        for call in 'BOPT':
            slice_case(call, 'supply-%s-%s' % (name, call), feeder.text(), LINE, refused(*fault), '', present='2', wanted='2')


def cut_plans():
    """The triangle's plan closes 11, then opens 10."""
    there, back = [(11, 1), (10, 0)], [(10, 1), (11, 0)]
    for done, rooms in [(0, (18, 0)), (1, (9, 9)), (2, (0, 18)), (0, (19, 1)), (1, (12, 10)), (2, (18, 27))]:
        cut_plan('%d-done-%d-%d' % (done, *rooms), done, rooms, '%04x' % (2 - done), there[done:], back[2 - done:])
    for done, rooms in [(0, (17, 18)), (0, (0, 0)), (1, (8, 9)), (1, (9, 8)), (1, (8, 8)), (1, (0, 9)), (1, (18, 0)), (2, (18, 17)), (2, (0, 0))]:
        cut_plan('no-room-%d-done-%d-%d' % (done, *rooms), done, rooms, refused(13, 0))
    for done in [3, 4, 255, 256, 65535, 65536, 65537, 2**32, 2**32 + 1, 2**63, 2**64 - 1]:
        cut_plan('of-2-moves-%d-done' % done, done, (18, 18), refused(16, 0))
    cut_plan('16-before-13', 3, (0, 0), refused(16, 0))
    cut_plan('with-supply', 1, (9, 9), '0001', [(10, 0)], [(11, 0)], TRIANGLE.fed(1).text())
    cut_plan('equal-states', 0, (2, 3), '0000', wanted='01')
    cut_plan('equal-states-one-done', 1, (2, 3), refused(16, 0), wanted='01')
    cut_plan('no-buses', 0, (0, 0), '0000', text=NO_BUSES.text(), present='', wanted='')
    cut_plan('no-buses-one-done', 1, (9, 9), refused(16, 0), text=NO_BUSES.text(), present='', wanted='')
    for done in (0, 3):
        cut_plan('locked-%d-done' % done, done, (0, 0), refused(12, 10), text=LOCKED.text())
    for name, present, wanted, fault in [('present-02', '02', '2', (10, 0)), ('wanted-too-long', '00', '101', (10, 1)), ('present-looped', '00', '11', (11, 0)), ('wanted-in-pieces', '01', '11', (11, 1))]:
        cut_plan(name, 2**64 - 1, (4, 5), refused(*fault), present=present, wanted=wanted)
    for change, fault in [('I', (3, 1)), ('U', (6, 5)), ('W', (4, 1))]:
        cut_plan('change-' + change, 3, (18, 17), refused(*fault), present='02', change=change)
    cut_plan('of-no-text', 3, (4, 5), refused(1, 1), text='0G\n')
    cut_plan('supply-not-listed', 3, (4, 5), refused(14, 10), text=TRIANGLE.fed(9).text())
    # closes 20, opens 40, closes 10, opens 30
    there, back = [(20, 1), (40, 0), (10, 1), (30, 0)], [(30, 1), (10, 0), (40, 1), (20, 0)]
    for done in range(5):
        cut_plan('row-%d-done' % done, done, (9 * (4 - done), 9 * done), '%04x' % (4 - done), there[done:], back[4 - done:], ROW.text(), '0011', '1100')
    cut_plan('row-5-done', 5, (36, 36), refused(16, 0), text=ROW.text(), present='0011', wanted='1100')


def two_on_a_branch():
    """From a base with both ties of branch 2 open no swap is radial; tabu toggles one of them, which changes no live branch; of the masks 0 to 2 each is radial."""
    for name, method, rounds in [('exchange', EXCHANGE, 1), ('tabu', TABU, 100), ('exhaustive', EXHAUSTIVE, 3)]:
        best('two-each-' + name, TWO_EACH, 4 + method, TREE, 4.0, 4.0, rounds, 1, '1010', method)
    slice_case('B', 'best-two-each-one-byte-short', TWO_EACH.text(), 3, refused(13, 0), '')
    # the first operable section of branch 1 opens
    for name, first, second, found in [('both-operable', 2, 2, '100'), ('first-locked', 0, 2, '001'), ('second-locked', 2, 0, '100')]:
        best('two-sections-' + name, Feeder([0.0, 1.0, 2.0], SIDES, [(10, 1, first), (11, 2, 3), (14, 1, second)]), 3, TREE, 4.0, 1.0, 2, 1, found)
    # a tie beside an open one joins nothing: with both closed branch 0 carries 2 - 2 MW and branch 1, by 0.125, 2 MW
    ties = Feeder([0.0, 2.0, -2.0], [(1, 2, 0.25), (2, 3, 0.125)], [(7, 1, 3), (8, 1, 3)])
    best('two-ties-exchange', ties, 2, (1, None), 1.0, 1.0, 1, 1, '11')
    best('two-ties-tabu', ties, 2, (1, None), 1.0, 1.0, 100, 1, '11', TABU)
    best('two-ties-exhaustive', ties, 2, TREE, 1.0, 0.5, 1, 1, '00', EXHAUSTIVE)
    # with one of the two a section, closing the other joins
    best('tie-and-section-tabu', Feeder(ties.loads, ties.branches, [(7, 1, 3), (8, 1, 2)]), 2, TREE, 1.0, 0.5, 100, 1, '00', TABU)
    best('two-sections-tabu', Feeder(PARALLEL.loads, PARALLEL.branches, [(7, 1, 2), (8, 1, 2)]), 2, TREE, 3.0, 1.0, 100, 1, '10', TABU)
    for bytes_, form, loss in [('1010', TREE, 4.0), ('1000', TREE, 4.0), ('0010', TREE, 4.0), ('0000', (0, 2), 5.6875), ('0100', TREE, 1.0), ('0001', TREE, 1.0), ('0101', TREE, 1.0),
                               ('1100', (1, None), 0.25), ('0011', (1, None), 0.25), ('1111', (1, None), 0.25)]:
        state('two-each-' + bytes_, TWO_EACH, bytes_, form, loss)
    for bytes_ in ('101', '10100', '1012'):
        refused_state('two-each-malformed-' + bytes_, TWO_EACH.text(), bytes_, (10, 0))
    operations('two-each', TWO_EACH, '1010', '0100', 27, [(12, 1), (10, 0), (11, 1)])
    operations('two-each-dead-in-both', TWO_EACH, '1010', '0010', 9, [(12, 1)])
    for name, room in [('exactly-full', 19), ('one-byte-longer', 20), ('ten-bytes-longer', 29)]:
        plan('two-each-' + name, '1010', '0100', room, [((12, 11), 10)], TWO_EACH)
    plan('two-each-back', '0100', '1010', 19, [(10, (12, 11))], TWO_EACH)
    plan('two-each-first-open', '1000', '0100', LINE, [(12, 10)], TWO_EACH)
    plan('two-each-second-to-open', '0100', '0010', LINE, [(10, 11)], TWO_EACH)
    plan('two-each-dead-in-both', '1010', '0010', 0, [], TWO_EACH)
    plan('two-and-two', '0101', '1010', 23, [((9, 6), (8, 7))], Feeder([0.0, 1.0], [(1, 2, 0.5), (2, 1, 0.25)], [(8, 0, 2), (9, 1, 3), (7, 0, 2), (6, 1, 3)]))
    for room in (18, 15, 0):
        slice_case('P', 'plan-two-each-no-room-%d' % room, TWO_EACH.text(), room, refused(13, 0), '', present='1010', wanted='0100')
        slice_case('P', 'plan-two-each-13-would-move-%d' % room, TWO_EACH.text(), room, refused(12, 13), '', present='1010', wanted='0101')
    moves = [(12, 1), (11, 1), (10, 0)]
    cut = {'text': TWO_EACH.text(), 'present': '1010', 'wanted': '0100'}
    back = [[], [(12, 0)], [(11, 0), (12, 0)], [(10, 1), (11, 0), (12, 0)]]
    for done in range(4):
        cut_plan('two-each-%d-done' % done, done, (9 * (3 - done), 9 * done), '%04x' % (3 - done), moves[done:], back[done], **cut)
        cut_plan('two-each-%d-done-longer' % done, done, (28, 37), '%04x' % (3 - done), moves[done:], back[done], **cut)
    for done, rooms in [(0, (26, 27)), (1, (17, 9)), (1, (18, 8)), (2, (9, 17)), (3, (0, 26))]:
        cut_plan('two-each-no-room-%d-done-%d-%d' % (done, *rooms), done, rooms, refused(13, 0), **cut)
    for done in (4, 5, 65536 + 2, 2**64 - 1):
        cut_plan('two-each-of-3-moves-%d-done' % done, done, (36, 36), refused(16, 0), **cut)
    for done in (0, 4):
        cut_plan('two-each-13-would-move-%d-done' % done, done, (27, 27), refused(12, 13), text=TWO_EACH.text(), present='1010', wanted='0101')
    slice_case('T', 'text-two-each', TWO_EACH.text(), 246, '%04x' % 245, TWO_EACH.text())
    third = Feeder(TWO_EACH.loads, SIDES, TWO_EACH.switches + [(14, 2, 2)]).text()
    refused_state('third-switch', third, '10100', (8, 12))
    for call in 'BOPT':
        slice_case(call, 'third-switch-' + call, third, LINE, refused(8, 12), '', present='10100', wanted='01000')
    cut_plan('third-switch', 9, (9, 9), refused(8, 12), text=third, present='10100', wanted='01000')


def own_loops():
    """Document 02's 17, at its line, of every call: in service or not, with switches or without, before states and slices are looked at."""
    sides = SIDES[:1] + [(2, 2, 0.25)] + SIDES[1:]
    stored = Feeder([0.0, 1.0, 2.0], sides, [(10, 2, 2), (12, 1, 2), (11, 3, 3)])
    for name, feeder, present, wanted, fault in [
            ('one-bus', OWN_LOOP, '', '', (17, 3)), ('triangle', stored, '001', '100', (17, 6)), ('triangle-supply', stored.fed(1), '001', '100', (17, 6)),
            ('out-of-service', Feeder(stored.loads, sides, stored.switches, out_of_service=[1]), '001', '100', (17, 6)), ('malformed-states', stored, '2', '', (17, 6)),
            ('not-radial', stored, '000', '111', (17, 6)), ('unlisted', Feeder(stored.loads, SIDES[:1] + [(9, 9, 0.25)] + SIDES[1:], stored.switches), '001', '100', (6, 6)),
            ('last-branch', Feeder(stored.loads, SIDES + [(3, 3, 0.0)], stored.switches), '001', '100', (17, 8))]:
        refused_state('own-loop-' + name, feeder.text(), present, fault)
        for call, room in [('B', 3), ('O', 18), ('P', LINE), ('T', 300), ('T', 0)]:
            slice_case(call, 'own-loop-%s-%s-%d' % (name, call, room), feeder.text(), room, refused(*fault), '', present=present, wanted=wanted)
        cut_plan('own-loop-' + name, 1, (9, 9), refused(*fault), text=feeder.text(), present=present, wanted=wanted)
    for method in (EXCHANGE, TABU, EXHAUSTIVE):
        slice_case('B', 'best-own-loop-method-%d' % method, OWN_LOOP.text(method), 0, refused(17, 3), '')
    slice_case('B', 'own-loop-iterations-1001', stored.text(iterations=1001), 3, refused(3, 1), '')


def repairs():
    """Document 02's repair of a stored text, by document 02's words: what is left of it, then an 87 line for each line that went."""
    sides = SIDES[:1] + [(2, 2, 0.25)] + SIDES[1:]
    stored = Feeder([0.0, 1.0, 2.0], sides, [(10, 2, 2), (12, 1, 2), (11, 3, 3)])
    gone = '87000601\n87000A02\n'
    for name, text, left in [('triangle', stored.text(), TRIANGLE.text() + gone), ('triangle-supply', stored.fed(1).text(), TRIANGLE.fed(1).text() + gone),
                             ('one-bus', OWN_LOOP.text(), Feeder([3.0], [], []).text() + '87000301\n'), ('one-bus-supply', OWN_LOOP.fed(1).text(), ONE_BUS.fed(1).text() + '87000301\n'),
                             ('nothing-to-drop', TRIANGLE.fed(3).text(), TRIANGLE.fed(3).text()), ('parallels', PARALLEL.text(), PARALLEL.text()), ('no-buses', NO_BUSES.text(), NO_BUSES.text()),
                             ('two-each', TWO_EACH.text(TABU, 7), TWO_EACH.text(TABU, 7))]:
        for more in (0, 1, 10):
            slice_case('D', 'repair-%s-%d-longer' % (name, more), text, len(left) + more, '%04x' % len(left), left)
        for room in (0, len(left) - 1):
            slice_case('D', 'repair-%s-in-%d' % (name, room), text, room, refused(13, 0), '')
    looped = Feeder(stored.loads, sides, [(10, 2, 2), (12, 1, 2), (11, 3, 2)])
    for name, text, fault in [('not-cured', looped.fed(1).text(), (15, 12)), ('not-listed', stored.fed(9).text(), (14, 12)), ('no-text', '0G\n', (1, 1)), ('empty', '', (2, 1)),
                              ('id-twice', Feeder(stored.loads, sides, [(10, 2, 2), (10, 1, 2), (11, 3, 3)]).text(), (7, 10)), ('a-line-too-many', stored.text() + '00\n', (2, 12)),
                              ('third-switch', Feeder(stored.loads, sides, [(10, 1, 2), (12, 1, 2), (11, 1, 3)]).text(), (8, 11)),
                              ('unlisted', Feeder(stored.loads, SIDES[:1] + [(9, 9, 0.25)] + SIDES[1:], stored.switches).text(), (6, 6))]:
        for room in (0, 260):
            slice_case('D', 'repair-%s-in-%d' % (name, room), text, room, refused(*fault), '')


def drawn_feeder(draw, may_be_locked):
    """Two to seven buses, none, one or two switches a branch, and two radial states."""
    n = 2 + draw.below(6)
    ends = [(i, draw.below(i)) for i in range(1, n)] + [tuple(draw.shuffled(range(n))[:2]) for _ in range(1 + draw.below(4))]
    branches = [tuple(1 + i for i in draw.shuffled(pair)) + (draw.below(64) / 64,) for pair in draw.shuffled(ends)]
    feeder = Feeder([float(draw.below(10)) for _ in range(n)], branches, [])
    order = draw.shuffled(range(len(branches)))
    first = feeder.records().joined(order)
    second = feeder.records().joined([k for k in order if k not in first] + order)
    feeder.out_of_service = [k for k in range(len(branches)) if k not in first | second and draw.chance(30)]
    records = feeder.records()
    states = plans.drawn_switches(draw, records, first, second, draw.ids(2 * len(branches)), may_be_locked)
    feeder.switches = records.switches
    return feeder, *states


def drawn_plan(name, draw, feeder, present, wanted):
    """The plan in slices exact, one byte short and longer, and cut off: before its first move, at its first loop, at its end and beyond."""
    records, text = feeder.records(), feeder.text()
    fault = plans.refusal(records, '', present, wanted)
    if fault:
        slice_case('P', 'plan-' + name, text, 0, refused(*fault), '', present=present, wanted=wanted)
        cut_plan(name, 2**64 - 1, (0, 9), refused(*fault), text=text, present=present, wanted=wanted)
        return
    pairs = plans.plan(records, present, wanted)
    length = plans.length_of(pairs)
    plan_cases.judge(records, present, wanted, pairs)
    plan(name, present, wanted, length + draw.choice([0, 1, 9]), pairs, feeder)
    if pairs:
        slice_case('P', 'plan-%s-one-byte-short' % name, text, length - 1, refused(13, 0), '', present=present, wanted=wanted)
    moves = resume_cases.moves_of(pairs)
    for done in sorted({0, len(pairs[0][0]), len(moves)}) if pairs else [0]:
        remaining, back = resume_cases.lists_of(moves, done)
        resume_cases.judge(records, present, wanted, done, remaining, back)
        rooms = 9 * len(remaining) + draw.choice([0, 1]), 9 * len(back)
        cut_plan('%s-%d-done' % (name, done), done, rooms, '%04x' % len(remaining), remaining, back, text, present, wanted)
    cut_plan(name + '-too-many-done', len(moves) + 1, (0, 0), refused(16, 0), text=text, present=present, wanted=wanted)


def drawn_until(draw, kind):
    """With a locked switch that would move, with two that a pair closes or opens, or with any pair."""
    while True:
        feeder, present, wanted = drawn_feeder(draw, kind == 'locked')
        fault, pairs = plans.refusal(feeder.records(), '', present, wanted), plans.plan(feeder.records(), present, wanted)
        if {'locked': fault is not None, 'two': any(len(ids) == 2 for pair in pairs for ids in pair), 'any': bool(pairs)}[kind]:
            return feeder, present, wanted


def drawn():
    draw = resume_cases.Draw(6)
    for i, kind in enumerate(['two', 'any', 'two', 'locked'] * 3):
        feeder, present, wanted = drawn_until(draw, kind)
        name = 'drawn-%s-%d' % (kind, i)
        parts = feeder.loads, [branch + (int(k not in feeder.out_of_service),) for k, branch in enumerate(feeder.branches)], [k for _, k, _ in feeder.switches], 1.0
        for j, bytes_ in enumerate((present, ''.join(draw.choice('01') for _ in present))):
            state('%s-%d' % (name, j), feeder, bytes_, feeder.form(bytes_), loss_cases.loss(parts, bytes_))
        listed = [(number, 1 - int(aimed)) for (number, _, _), found, aimed in zip(feeder.switches, present, wanted) if found != aimed]
        operations(name, feeder, present, wanted, 9 * len(listed) + i % 2, listed)
        drawn_plan(name, draw, feeder, present, wanted)


def largest():
    best('512-switches', LARGEST, 512, (0, 2), 0.0, 0.0, 1, 1, '01' * 256)
    slice_case('B', 'best-512-switches-one-byte-short', LARGEST.text(), 511, refused(13, 0), '')
    state('256-buses-last-of-512-parallels', PARALLELS, '1' * 510 + '00', (254, 511), 0.0)
    operations('512', LARGEST, '0' * 512, '1' * 512, 4608, [(1000 - i, 0) for i in range(512)])
    slice_case('O', 'operations-512-one-byte-short', LARGEST.text(), 4607, refused(13, 0), '', present='0' * 512, wanted='1' * 512)
    longest = {'text': LONGEST.text(), 'present': '1' + '0' * 255 + '1' * 255 + '0', 'wanted': '0' + '1' * 255 + '0' * 255 + '1'}
    # first switches 2001 and 491 close, 746 and 2000 open; then switch 745 - k closes before switch 1000 - k opens, k from 0: with 257 moves done 619 is closed, and 874 is to be opened
    first, others = [(2001, 1), (491, 1), (746, 0), (2000, 0)], [[(745 - k, 1), (1000 - k, 0)] for k in range(254)]
    remaining = [(874, 0)] + [move for pair in others[127:] for move in pair]
    back = [(619, 0)] + [(number, 1 - action) for pair in reversed(others[:126]) for number, action in reversed(pair)] + [(2000, 1), (746, 1), (491, 0), (2001, 0)]
    assert len(first + remaining + back) == 4 + 512
    cut_plan('512-moves-257-done', 257, (2295, 2314), '00ff', remaining, back, **longest)
    pairs = [((2001, 491), (746, 2000))] + [(745 - k, 1000 - k) for k in range(254)]
    plan('longest', longest['present'], longest['wanted'], 3834, pairs, LONGEST)


def main():
    for make in (best_states, moved_bytes, best_of_no_tree, listed_operations, refused_states, network_refusals, states_of_no_tree, states_and_plans, written_texts, searches_with_supply, calls_with_supply, cut_plans, two_on_a_branch, own_loops, repairs, drawn, largest):
        make()
    names = [name for name, _, _ in cases]
    assert len(names) == len(set(names)), 'a name stands twice'
    os.makedirs(ROOT, exist_ok=True)
    with open(os.path.join(ROOT, 'stdin'), 'w') as out:
        out.write(''.join(question for _, question, _ in cases))
        assert out.tell() <= ROOM_FOR_CASES, 'the program has no room for the cases'
    with open(os.path.join(ROOT, 'stdout'), 'w') as out:
        out.write(''.join('%s %s\n' % (name, printed) for name, _, printed in cases))
    print('%d cases' % len(cases))


main()
