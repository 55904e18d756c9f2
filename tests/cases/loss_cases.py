#!/usr/bin/env python3
"""Writes crates/loss_cases/stdin and stdout: feeders, states, and the bits of their losses.

usage: tests/cases/loss_cases.py

Each case of stdin is a line 'LENGTH NAME', a frame text, a line feed, and a line 'CHANGE STATE' (crates/loss_cases/src/main.rt). Each line
of stdout is 'NAME BITS' or 'NAME NUMBER PLACE'. The refusals and the marked losses are written by hand from documents 01 and 02; the others are
reckoned here with floats that round each operation once, by document 01's section Loss. With a supply the side of a branch that counts is found by
labels, and each way of WRONG to take that loss must fail on a case. Where a walk's queue is full, it is said which ways of WRONG_QUEUE fail.
"""
import os
import random
import struct
from collections import deque
from fractions import Fraction

ROOT = os.path.join(os.path.dirname(os.path.abspath(__file__)), '..', '..', 'crates', 'loss_cases')
CHANGES = {'iterations 1001': 'A', 'switch 10 a tie': 'F', 'no supply': 'W', '': '-'}
# With a supply: the to side, as without one; the side that holds the supply; the bus at the position that the id is; what each branch of a bus brings added to its own load, up the
# tree; each branch followed to its end first; neighbours by falling branch position.
WRONG = 'to side', 'supply side', 'id as position', 'up the tree', 'depth first', 'by falling position'
# A walk's queue in which the last of 255 buses has no room; positions in seven bits; the loads added from the queue's end.
WRONG_QUEUE = 'queue of 254', 'positions of seven bits', 'from the last'
cases, told_apart = [], set()


def bits(x):
    return struct.unpack('>Q', struct.pack('>d', x))[0]


def text(feeder, method=0, ties=0, supply=None):
    """The switches have the ids from 10 on; the first so many are ties, or those at the positions that are given."""
    loads, branches, switches, base = feeder
    ties = range(ties) if isinstance(ties, int) else ties
    lines = ['01%04X%04X%04X%016X%02X0064' % (len(loads), len(branches), len(switches), bits(base), method)]
    lines += ['02%04X%016X' % (i + 1, bits(pd)) for i, pd in enumerate(loads)]
    lines += ['03%04X%04X%016X%02X' % (a, b, bits(r), status) for a, b, r, status in branches]
    lines += ['04%04X%04X%02X' % (10 + i, on, 3 if i in ties else 2) for i, on in enumerate(switches)]
    lines += ['05%04X' % supply] if supply is not None else []
    return ''.join(line + '\n' for line in lines).encode()


def neighbours(branches, live, wrong=''):
    """Of each bus, by rising branch position."""
    beside = {}
    for k in reversed(live) if wrong == 'by falling position' else live:
        a, b = branches[k][:2]
        beside.setdefault(a, {})[b] = True
        beside.setdefault(b, {})[a] = True
    return beside


def order_of(beside, start, barred, wrong=''):
    """The buses on the side of the start in breadth-first order, as they stand in the queue."""
    left, seen, order = deque([start]), {start, barred}, []
    while left:
        u = left.popleft()
        order.append(u)
        found = [v for v in beside.get(u, ()) if v not in seen]
        seen.update(found)
        if wrong == 'positions of seven bits':
            found = [(v - 1) % 128 + 1 for v in found]
        if wrong == 'depth first':
            left.extendleft(reversed(found))
        else:
            left.extend(found)
    return order


def load_of(loads, beside, start, barred, wrong=''):
    """The loads on the side of the start, added in breadth-first order."""
    order = order_of(beside, start, barred, wrong)
    if wrong == 'queue of 254':
        order = order[:254]
    if wrong == 'from the last':
        order = order[::-1]
    load = 0.0
    for u in order:
        load += loads[u - 1]
    return load


def up_the_tree(loads, branches, live, start, barred):
    """The bus's load and what each of its branches but the barred bus's brings: another sum of the same loads."""
    load = loads[start - 1]
    for k in live:
        a, b = branches[k][:2]
        if start in (a, b) and barred not in (a, b):
            load += up_the_tree(loads, branches, live, a + b - start, start)
    return load


def labels(count, branches, live):
    """Buses that live branches join have one label."""
    label, same = list(range(count + 1)), [[bus] for bus in range(count + 1)]
    for k in live:
        a, b = (label[end] for end in branches[k][:2])
        if a != b:
            for bus in same[b]:
                label[bus] = a
            same[a] += same[b]
    return label


def ends_of(feeder, live, k, supply, wrong):
    """Where the walk begins, and the bus that it never enters."""
    a, b = feeder[1][k][:2]
    if supply is None or wrong == 'to side':
        return b, a
    label = labels(len(feeder[0]), feeder[1], [j for j in live if j != k])
    source = min(supply + 1, len(feeder[0])) if wrong == 'id as position' else supply
    assert (label[a] == label[source]) != (label[b] == label[source]), 'one end is away from the supply, one is not'
    return (b, a) if (label[a] == label[source]) != (wrong == 'supply side') else (a, b)


def live_in(feeder, state):
    _, branches, switches, _ = feeder
    opened = {on for on, byte in zip(switches, state) if byte == '1'}
    return [k for k, b in enumerate(branches) if b[3] == 1 and k not in opened]


def is_radial(feeder, live):
    joined = labels(len(feeder[0]), feeder[1], live)
    return not feeder[0] or len(live) == len(feeder[0]) - 1 and len(set(joined[1:])) == 1


def loss(feeder, state, fused=False, supply=None, wrong=''):
    loads, branches, switches, base = feeder
    live = live_in(feeder, state)
    beside = neighbours(branches, live, wrong)
    total = 0.0
    for k in live if loads else []:
        ends = ends_of(feeder, live, k, supply, wrong)
        load = up_the_tree(loads, branches, live, *ends) if wrong == 'up the tree' else load_of(loads, beside, *ends, wrong)
        p = load / base
        term = (branches[k][2] * p) * p
        total = float(Fraction(term) * Fraction(base) + Fraction(total)) if fused else total + term * base
    return total


def case(name, feeder, state, known=None, change='', **head):
    supply = head.get('supply')
    answer = loss(feeder, state, supply=supply)
    assert known is None or answer == known, name
    if supply is not None:
        assert is_radial(feeder, live_in(feeder, state)), name
        told_apart.update(wrong for wrong in set(WRONG) - told_apart if bits(loss(feeder, state, supply=supply, wrong=wrong)) != bits(answer))
    cases.append((name, text(feeder, **head), CHANGES[change], state, '%016x' % bits(answer if known is None else known)))


def unsupplied(name, feeder, state, known, **head):
    """Read with a supply's line; the records then say that there is none, and the number beside that decides nothing."""
    assert loss(feeder, state) == known != loss(feeder, state, supply=head['supply']), name
    cases.append((name, text(feeder, **head), CHANGES['no supply'], state, '%016x' % bits(known)))


def refusal(name, feeder, state, answer, change='', **head):
    cases.append((name, text(feeder, **head), CHANGES[change], state, '%d %d' % answer))


TRIANGLE = ([0.0, 1.0, 2.0], [(1, 2, 0.25, 1), (2, 3, 0.4375, 1), (1, 3, 0.1875, 1)], [1, 2], 1.0)
TURNED = (TRIANGLE[0], [(2, 1, 0.25, 1)] + TRIANGLE[1][1:], [1, 2], 1.0)


def marked():
    case('no-buses', ([], [], [], 1.0), '', 0.0)
    case('triangle-base', TRIANGLE, '01', 4.0)
    case('triangle-exchanged', TRIANGLE, '10', 1.0)
    case('triangle-all-closed', TRIANGLE, '00', 5.6875)
    case('branch-0-turned', TURNED, '01', 1.75)
    for name, state in [('too-short', '0'), ('too-long', '010'), ('byte-02', '02')]:
        refusal('state-' + name, TRIANGLE, state, (10, 0))


def two_on_a_branch():
    """Document 02's triangle with switches on branches 2, 1, 2, 1: a branch with one of two open has no load and lets none pass."""
    two_each = TRIANGLE[:2] + ([2, 1, 2, 1], 1.0)
    for state, known in [('1010', 4.0), ('1000', 4.0), ('0010', 4.0), ('0100', 1.0), ('0001', 1.0), ('0101', 1.0), ('0000', 5.6875), ('1100', 0.25), ('0011', 0.25), ('1111', 0.25)]:
        case('two-each-' + state, two_each, state, known)
    for state, known in [('1010', 0.4375), ('1000', 0.4375), ('0010', 0.4375), ('0001', 0.4375)]:
        case('two-each-supply-3-' + state, two_each, state, known, ties=[0, 2], supply=3)
    for state in ('0000', '1100', '0011'):
        refusal('two-each-not-radial-supply-' + state, two_each, state, (11, 0), ties=[0], supply=1)
    refusal('two-each-short-state', two_each, '101', (10, 0))


def faulty_records():
    """The loss call tests the records first, method and iterations too."""
    refusal('records-iterations-1001', TRIANGLE, '01', (3, 1), 'iterations 1001')
    refusal('records-iterations-1001-state-02', TRIANGLE, '02', (3, 1), 'iterations 1001')
    side_by_side, state = ([0.0, 1.0], [(1, 2, 0.5, 1)] * 11, list(range(11)), 1.0), '1' * 10 + '0'
    case('ten-ties-exhaustive', side_by_side, state, 0.5, method=2, ties=10)
    case('records-eleven-ties-exchange', side_by_side, state, 0.5, 'switch 10 a tie', ties=10)
    refusal('records-eleven-ties-exhaustive', side_by_side, state, (9, 25), 'switch 10 a tie', method=2, ties=10)
    refusal('records-eleven-ties-exhaustive-state-02', side_by_side, '2', (9, 25), 'switch 10 a tie', method=2, ties=10)


def two(load, r, base):
    return ([0.0, load], [(1, 2, r, 1)], [], base)


def ranges():
    tiny = struct.unpack('>d', struct.pack('>Q', 1))[0]
    for load in [1e6, -1e6, 0.0, -0.0, tiny, -tiny, 2.2250738585072014e-308, -1.5, 0.1]:
        for r in [0.0, -0.0, tiny, 0.1, 1000.0]:
            for base in [0.001, 0.3, 1e6]:
                case('load-%016X-r-%016X-base-%016X' % (bits(load), bits(r), bits(base)), two(load, r, base), '')
    case('out-of-service', ([1.0, 3.0], [(1, 2, 0.1, 0)], [], 1.0), '')
    case('order-of-the-loads', ([0.0, 1e6, 1e-10, -1e6, 0.1], [(1, 2, 1.0, 1), (2, 5, 0.3, 1), (4, 2, 0.7, 1), (2, 3, 0.9, 1)], [], 0.7), '')


def fused():
    """A chain on which one rounding for a product and its sum would give another bit."""
    draw = random.Random(1)
    while True:
        feeder = ([0.0, draw.uniform(0, 9), draw.uniform(0, 9)], [(1, 2, draw.random(), 1), (2, 3, draw.random(), 1)], [], draw.uniform(1, 9))
        if bits(loss(feeder, '')) != bits(loss(feeder, '', True)):
            return case('fused-would-differ', feeder, '')


def drawn():
    """Feeders of up to 12 buses and 20 branches with loads of either sign."""
    draw = random.Random(2)
    for i in range(100):
        n = draw.randint(1, 12)
        branches = [(*draw.sample(range(1, n + 1), 2), draw.uniform(0, 1000), int(draw.random() < 0.9)) for _ in range(draw.randint(0, 20) if n > 1 else 0)]
        switches = draw.sample(range(len(branches)), draw.randint(0, len(branches)))
        # a second one on some of them, listed in any order
        switches = draw.sample(switches + switches[::3], len(switches + switches[::3]))
        feeder = ([draw.uniform(-1e6, 1e6) for _ in range(n)], branches, switches, draw.uniform(0.001, 100))
        case('drawn-%d' % i, feeder, ''.join(draw.choice('01') for _ in switches))


def with_supply():
    """The triangle, and that with branch 0 turned, at every bus. A branch counts once, from whichever side it was drawn."""
    for drawing, feeder in [('triangle', TRIANGLE), ('turned', TURNED)]:
        for supply, base, exchanged in [(1, 4.0, 1.0), (2, 1.75, 1.75), (3, 0.4375, 0.4375)]:
            case('%s-supply-%d-base' % (drawing, supply), feeder, '01', base, ties=[1], supply=supply)
            case('%s-supply-%d-exchanged' % (drawing, supply), feeder, '10', exchanged, ties=[1], supply=supply)
    case('one-bus-supply', ([3.0], [], [], 1.0), '', 0.0, supply=1)
    case('two-buses-supply-1', ([5.0, -3.0], [(2, 1, 0.5, 1)], [], 1.0), '', 4.5, supply=1)
    case('two-buses-supply-2', ([5.0, -3.0], [(2, 1, 0.5, 1)], [], 1.0), '', 12.5, supply=2)
    # minus zeros, of which the walk's own 0.0 makes a zero; loads that cancel out
    zeros = ([-0.0, -0.0, -0.0], [(2, 1, 0.5, 1), (3, 2, 0.5, 1)], [], 1.0)
    cancelling = ([1.0, -2.0, 2.0, -1.0], [(2, 1, 0.25, 1), (3, 2, 0.25, 1), (3, 4, -0.0, 1)], [], 0.001)
    for supply in (1, 2, 3):
        case('minus-zeros-supply-%d' % supply, zeros, '', 0.0, supply=supply)
        case('cancelling-loads-supply-%d' % supply, cancelling, '', supply=supply)


def refused_with_supply():
    """The network, 10, then 11 of a state that is not radial; without the line such a state has a loss."""
    for name, state, without in [('all-closed', '00', 5.6875), ('both-open', '11', 0.25)]:
        case('without-the-line-' + name, TRIANGLE, state, without, ties=[1])
        refusal('with-the-line-' + name, TRIANGLE, state, (11, 0), ties=[1], supply=2)
    for state in ('', '0', '000', '111', '20', 'F0'):
        refusal('with-the-line-state-%s' % (state or 'empty'), TRIANGLE, state, (10, 0), ties=[1], supply=1)
    unsupplied('turned-supply-taken-away', TURNED, '01', 1.75, ties=[1], supply=3)
    unsupplied('exchanged-supply-taken-away', TRIANGLE, '10', 1.0, ties=[1], supply=3)
    loop_apart = ([0.0, 1.0, 1.0, 1.0], [(1, 2, 1.0, 1), (2, 3, 1.0, 1), (3, 4, 1.0, 1), (4, 2, 1.0, 1)], [0, 3], 1.0)
    refusal('as-many-branches-as-a-tree-has-supply', loop_apart, '10', (11, 0), ties=[1], supply=1)
    refusal('iterations-1001-not-radial-supply', TRIANGLE, '00', (3, 1), 'iterations 1001', ties=[1], supply=1)
    beside, state = ([0.0, 1.0], [(1, 2, 0.5, 1)] * 11, list(range(11)), 1.0), '1' * 10 + '0'
    case('ten-ties-supply', beside, state, 0.5, ties=10, supply=1)
    # the records get a base without a live branch
    refusal('records-eleven-ties-supply', beside, state, (15, 26), 'switch 10 a tie', ties=10, supply=1)
    refusal('records-eleven-ties-supply-state-02', beside, '2', (15, 26), 'switch 10 a tie', ties=10, supply=1)
    refusal('records-eleven-ties-supply-exhaustive', beside, state, (9, 25), 'switch 10 a tie', method=2, ties=10, supply=1)


def tree(draw, n, load):
    """Each bus behind the first joined to one before it, drawn either way, in any order."""
    ends = [draw.sample((i, draw.randrange(max(1, i - 3), i)), 2) for i in range(2, n + 1)]
    draw.shuffle(ends)
    return [load() for _ in range(n)], [(a, b, draw.uniform(0, 1), 1) for a, b in ends], [], draw.uniform(1, 9)


def other_bits():
    """Trees on which the loads added up the tree, each branch's sum to its bus's own load, give other bits: three are kept. And one for each other order."""
    draw = random.Random(18)
    for wrong, number in [('up the tree', 1), ('up the tree', 2), ('up the tree', 3), ('depth first', 1), ('by falling position', 1)]:
        answers = ()
        while len(set(answers)) < 3:
            feeder, supply = tree(draw, 5, lambda: draw.uniform(0, 9)), draw.randint(1, 5)
            answers = [bits(loss(feeder, '', supply=supply, wrong=way)) for way in ('', wrong, 'to side')]
        case('%s-would-differ-%d' % (wrong.replace(' ', '-'), number), feeder, '', supply=supply)


def at_every_bus():
    """A meshed feeder of seven buses, loads of either sign, in two radial states at every bus as the supply."""
    draw = random.Random(19)
    loads, branches, _, base = tree(draw, 7, lambda: draw.uniform(-1e6, 1e6))
    meshed = (loads, branches + [(1, 7, 0.3, 1), (6, 2, 0.7, 1), (4, 5, 0.5, 0)], [6, 0, 7, 8], base)
    states = [state for state in ('1010', '1011', '0110', '0111', '1100', '1101') if is_radial(meshed, live_in(meshed, state))]
    for supply in range(1, 8):
        for state in ('1010', states[-1]):
            case('every-bus-%d-%s' % (supply, state), meshed, state, ties=[0, 2], supply=supply)


def chains():
    """256 buses in a row, each branch drawn either way: fed at the end that comes last, and in the middle."""
    draw = random.Random(20)
    ends = [draw.sample((i, i + 1), 2) for i in range(1, 256)]
    row = [draw.uniform(-9, 9) for _ in range(256)], [(a, b, draw.random(), 1) for a, b in ends], [], 10.0
    for name, supply in [('at-a-leaf', 256), ('in-the-middle', 128)]:
        case('chain-of-256-supply-' + name, row, '', supply=supply)


STAR = [(77, u) for u in range(1, 256) if u != 77]


def near_tree(draw):
    return [(draw.randrange(max(1, u - 3), u), u) for u in range(2, 257)]


def full_size(draw, ends, last=()):
    """256 buses, loads of either sign, the branches in a drawn order and drawn either way; behind them some as they are."""
    listed = draw.sample([draw.sample(pair, 2) for pair in ends], len(ends)) + list(last)
    return [draw.uniform(-9, 9) for _ in range(256)], [(a, b, draw.random(), 1) for a, b in listed], [], draw.uniform(1, 9)


def placed(feeder, start, barred, places):
    """Whether all buses but the barred one stand in the queue of a walk, that at position 255 at one of these places. From a supply nothing but the start is barred."""
    order = order_of(neighbours(feeder[1], live_in(feeder, '')), start, barred)
    return len(order) == 256 - (start != barred) and order.index(256) in places


def told_from(feeder, wrong, walk=None, supply=None):
    """Whether each wrong way gives the loss other bits, and the load of this walk."""
    live = live_in(feeder, '')
    load = lambda way='': bits(load_of(feeder[0], neighbours(feeder[1], live, way), *walk, way))
    if walk and not all(load(way) != load() for way in wrong):
        return False
    right = bits(loss(feeder, '', supply=supply))
    return all(bits(loss(feeder, '', supply=supply, wrong=way)) != right for way in wrong)


def drawn_until(make, holds):
    feeder = make()
    while not holds(feeder):
        feeder = make()
    return feeder


def own_loops():
    """Document 02's 17, dead or live, before 10 and 11. The text is read as a stored one, so that it is the call that refuses."""
    lone = [3.0], [(1, 1, 0.1, 1)], [0], 1.0
    dead = [3.0], [(1, 1, 0.1, 0)], [0], 1.0
    refusal('one-bus-own-loop', ([3.0], [(1, 1, 0.1, 1)], [], 1.0), '', (17, 3))
    refusal('one-bus-own-loop-open-supply', lone, '1', (17, 3), ties=1, supply=1)
    refusal('one-bus-own-loop-out-of-service-supply', dead, '0', (17, 3), supply=1)
    refusal('own-loop-closed-supply', lone, '0', (17, 3), ties=1, supply=1)
    refusal('own-loop-state-02', lone, '2', (17, 3))
    refusal('own-loop-iterations-1001', lone, '1', (3, 1), 'iterations 1001')
    for k in range(4):
        sides = TRIANGLE[1][:k] + [(2, 2, 0.5, 1)] + TRIANGLE[1][k:]
        others = [j for j in range(4) if j != k]
        looped = TRIANGLE[0], sides, [others[1], others[2], k], 1.0
        for state in ('010', '011', '000'):
            refusal('own-loop-at-position-%d-%s' % (k, state), looped, state, (17, 5 + k), ties=[1], supply=1 if k % 2 else None)
    draw = random.Random(22)
    loads, branches, _, base = full_size(draw, near_tree(draw), [(u, u) for u in (1, 256, 101)])
    refusal('own-loops-of-256-buses', (loads, branches, [255, 256, 257], base), '011', (17, 513))
    for i in range(10):
        n = draw.randint(1, 9)
        branches = [(*draw.choice([(a, a), (a, a % n + 1)]), draw.uniform(0, 9), draw.randrange(2)) for a in (draw.randint(1, n) for _ in range(8))]
        first = next((k for k, (a, b, *_) in enumerate(branches) if a == b), None)
        if first is not None:
            refusal('drawn-own-loop-%d' % i, ([draw.uniform(-9, 9) for _ in range(n)], branches, [3, 0, 3], 1.0), ''.join(draw.choice('01') for _ in range(3)), (17, 2 + n + first))


def first_of_a_chain():
    """Only the first branch of a chain of 256 has a resistance: drawn away from the first bus it has 255 buses in the queue, the other way one."""
    draw, rest = random.Random(23), [(u, u + 1, 0.0, 1) for u in range(2, 256)]
    feeder = [draw.uniform(-9, 9) for _ in range(256)], [(1, 2, 0.7, 1)] + rest, [], 3.0
    turned = feeder[0], [(2, 1, 0.7, 1)] + rest, [], 3.0
    assert placed(feeder, 2, 1, [254]) and order_of(neighbours(turned[1], range(255)), 1, 2) == [1]
    assert told_from(feeder, WRONG_QUEUE)
    case('first-of-a-chain-255-in-the-queue', feeder, '')
    case('first-of-a-chain-one-in-the-queue', turned, '')


def leaf_of(ends):
    """A bus at the end of one branch, nearer to the last than to the first, and that branch as it leads away from there."""
    parents = {a for a, _ in ends}
    return next((b, a) for a, b in ends if b > 200 and b not in parents)


def full_queues():
    """255 buses in the queue, as many as the walk of a branch can have: that of the branch from a leaf, with position 255 first, last and in between."""
    draw, between, tree = random.Random(24), range(1, 254), near_tree(random.Random(24))
    row = draw.sample(range(1, 256), 255)
    for name, ends, last, places, more in [
        ('star', [pair for pair in STAR if pair != (77, 9)] + [(77, 256)], [(9, 77)], between, ('by falling position',)),
        ('star-listed-last', [pair for pair in STAR if pair != (77, 9)], [(9, 77), (256, 77)], [254], ('by falling position',)),
        ('star-around-it', [(256, u) for u in range(1, 256) if u != 9], [(9, 256)], [0], ('by falling position',)),
        ('chain', list(zip(row[1:], row[2:] + [256])), [(row[0], row[1])], [254], ()),
        ('chain-from-it', [(256, row[1])] + list(zip(row[1:], row[2:])), [(row[0], 256)], [0], ()),
        ('tree', [pair for pair in tree if pair != leaf_of(tree)[::-1]], [leaf_of(tree)], between, ('by falling position', 'depth first')),
    ]:
        barred, start = last[0]
        # from its end a chain has one order only
        feeder = drawn_until(lambda: full_size(draw, ends, last), lambda feeder: told_from(feeder, WRONG_QUEUE + more, (start, barred)))
        assert placed(feeder, start, barred, places), name
        case('full-queue-' + name, feeder, '')


def supply_walks():
    """The walk from the supply has all 256 buses in its queue, that at position 255 last and in between."""
    draw, wrong = random.Random(25), ('from the last', 'positions of seven bits', 'by falling position')
    for name, ends, last, supply, places in [('star', STAR, [(256, 77)], 9, [255]), ('tree', near_tree(draw), [], 200, range(1, 255))]:
        feeder = drawn_until(lambda: full_size(draw, ends, last), lambda feeder: told_from(feeder, wrong, supply=supply))
        assert placed(feeder, supply, supply, places), name
        case('%s-of-256-supply' % name, feeder, '', supply=supply)


def drawn_with_supply():
    """Trees of up to 12 buses, fed anywhere."""
    draw = random.Random(21)
    for i in range(16):
        n = draw.randint(2, 12)
        case('drawn-supply-%d' % i, tree(draw, n, lambda: draw.uniform(-1e6, 1e6)), '', supply=draw.randint(1, n))


def main():
    for make in (marked, two_on_a_branch, faulty_records, ranges, fused, drawn, with_supply, refused_with_supply, other_bits, at_every_bus, chains, drawn_with_supply,
                 own_loops, first_of_a_chain, full_queues, supply_walks):
        make()
    assert told_apart == set(WRONG), set(WRONG) - told_apart
    names = [case[0] for case in cases]
    assert len(names) == len(set(names)), 'a name stands twice'
    os.makedirs(ROOT, exist_ok=True)
    with open(os.path.join(ROOT, 'stdin'), 'wb') as out:
        for name, data, change, state, _ in cases:
            out.write(b'%d %s\n' % (len(data), name.encode()) + data + b'\n' + ('%s %s\n' % (change, state)).encode())
        assert out.tell() <= 327680, 'the program has no room for the cases'
    with open(os.path.join(ROOT, 'stdout'), 'w') as out:
        for name, _, _, _, answer in cases:
            out.write('%s %s\n' % (name, answer))
    print('%d cases' % len(cases))


# tests/cases/call_cases.py takes the loss from here
if __name__ == '__main__':
    main()
