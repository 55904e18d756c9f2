"""Switching plans of the generators beside it: what documents 01 and 02 plan and refuse between two states, ways to get it wrong, and drawn switches with two states.
No program by itself."""
import functools

MAX_SWITCHES = 512
# Planners that look sensible: which branches they take for live, in which order they close them, what they open, which switches they move, and when they refuse 12.
WRONG = (
    'any closed switch makes a branch live', 'the last switch decides', 'the first switch decides',
    'by position', 'by id', 'by the first switch that moves', 'by the last listed switch', 'a branch with two switches closed twice',
    'from the to bus', 'the last', 'over the present path', 'a wanted branch',
    'only the first open one closed', 'all switches of the closed branch closed', 'only the first opened', 'all switches of the opened branch opened', 'ids sorted',
    'openings before closings', '12 for a locked switch that stays', '12 on a branch that is dead in both', '12 in plan order')


def ranked(feeder, present, wanted, wrong=''):
    """The branches with a switch, by the first listed one, moved or not."""
    rows = [(switch, before != behind) for switch, before, behind in zip(feeder.switches, present, wanted)]
    if wrong == 'by the first switch that moves':
        rows = [row for row in rows if row[1]]
    if wrong == 'by the last listed switch':
        return list(dict.fromkeys(k for (_, k, _), _ in reversed(rows)))[::-1]
    order = {'by id': lambda row: row[0][0], 'by position': lambda row: row[0][1]}.get(wrong)
    return list(dict.fromkeys(k for (_, k, _), _ in (sorted(rows, key=order) if order else rows)))


def ids_of(feeder, present, wanted, closed, opened, wrong=''):
    """A pair: the switches of the one branch that are open in the present state and those of the other that the wanted state opens, in list order."""
    ids = feeder.open_on(present, closed), feeder.open_on(wanted, opened)
    every = [[feeder.switches[i][0] for i in feeder.on(k)] for k in (closed, opened)]
    ids = {'only the first open one closed': (ids[0][:1], ids[1]), 'all switches of the closed branch closed': (every[0], ids[1]),
           'only the first opened': (ids[0], ids[1][:1]), 'all switches of the opened branch opened': (ids[0], every[1]),
           'ids sorted': (sorted(ids[0]), sorted(ids[1])), 'openings before closings': ids[::-1]}.get(wrong, ids)
    return tuple(ids[0]), tuple(ids[1])


@functools.cache
def plan(feeder, present, wanted, wrong=''):
    """The pairs, each with the ids that it closes and those that it opens; a name of WRONG makes it wrong."""
    before, aim = feeder.live(present, wrong), feeder.live(wanted, wrong)
    live, pairs = before, []
    for k in ranked(feeder, present, wanted, wrong):
        if k not in aim - before:
            continue
        ends = feeder.branches[k][:2]
        way = feeder.path(before if wrong == 'over the present path' else live, *(ends[::-1] if wrong == 'from the to bus' else ends))
        opened = way[0] if wrong == 'a wanted branch' else [j for j in way if j not in aim][-1 if wrong == 'the last' else 0]
        live = live - {opened} | {k}
        pairs += [ids_of(feeder, present, wanted, k, opened, wrong)] * (len(feeder.on(k)) if wrong == 'a branch with two switches closed twice' else 1)
    return pairs


def line_of(pair):
    """The 86 line: a count byte and the closed ids, a count byte and the opened ones."""
    return '86' + ''.join('%02X' % len(ids) + ''.join('%04X' % number for number in ids) for ids in pair) + '\n'


def length_of(pairs):
    """Of the 86 lines together: 7 bytes a pair and 4 a moved switch."""
    return 7 * len(pairs) + 4 * sum(len(ids) for pair in pairs for ids in pair)


def to_move(feeder, present, wanted, wrong=''):
    """Where the switches stand that a plan moves: they differ, on a branch that is live in one of the states only."""
    differing = feeder.live(present, wrong) ^ feeder.live(wanted, wrong)
    return [i for i, (_, k, _) in enumerate(feeder.switches) if k in differing and present[i] != wanted[i]]


def locked(feeder, present, wanted, wrong=''):
    """The ids of the locked switches that would move, in list order."""
    looked_at = to_move(feeder, present, wanted, wrong)
    if wrong == '12 for a locked switch that stays':
        differing = feeder.live(present) ^ feeder.live(wanted)
        looked_at = [i for i, (_, k, _) in enumerate(feeder.switches) if k in differing]
    if wrong == '12 on a branch that is dead in both':
        looked_at = [i for i in range(len(feeder.switches)) if present[i] != wanted[i]]
    if wrong == '12 in plan order':
        places = {number: i for i, (number, _, _) in enumerate(feeder.switches)}
        looked_at = [places[number] for pair in plan(feeder, present, wanted) for ids in pair for number in ids]
    return [feeder.switches[i][0] for i in looked_at if not feeder.switches[i][2] & 2]


def refusal(feeder, change, present, wanted, wrong=''):
    """Number and place of a refusal that comes before counts and slices are looked at. The change is one that the records get once they are read."""
    ties = [i for i, (_, _, flags) in enumerate(feeder.switches) if flags & 1 or change == 'switch 10 a tie' and i == 10]
    lines = 2 + len(feeder.buses) + len(feeder.branches)
    if change == 'iterations 1001':
        return 3, 1
    own = [k for k, (a, b, _) in enumerate(feeder.branches) if a == b]
    if own:
        return 17, 2 + len(feeder.buses) + own[0]
    if feeder.method == 2 and len(ties) > 10:
        return 9, lines + ties[10]
    base = ''.join('01'[i in ties] for i in range(len(feeder.switches)))
    if feeder.supply is not None and not feeder.is_radial(feeder.live(base)):
        return 15, lines + len(feeder.switches)
    for place, state in enumerate((present, wanted)):
        if len(state) != len(feeder.switches) or set(state) - {'0', '1'}:
            return 10, place
    for place, state in enumerate((present, wanted)):
        if not feeder.is_radial(feeder.live(state, wrong)):
            return 11, place
    return next(((12, number) for number in locked(feeder, present, wanted, wrong)), None)


def answer(feeder, change, present, wanted, room, wrong=''):
    """The planner's pairs, or number and place of its refusal."""
    refused = refusal(feeder, change, present, wanted, wrong)
    if refused:
        return refused
    pairs = plan(feeder, present, wanted, wrong)
    return pairs if length_of(pairs) <= room else (13, 0)


def shuffled(draw, things):
    left = list(things)
    return [left.pop(draw.choice(range(len(left)))) for _ in range(len(left))]


def drawn_switches(draw, feeder, first, second, ids, may_be_locked):
    """Gives a feeder none, one or two switches a branch, listed in any order, and answers two states with these live branches. Where both states have a branch dead and in
    service, one of its switches is open or both are, in each state by itself. A switch that would move is locked only where it may be."""
    branches, room = feeder.branches, MAX_SWITCHES - len(feeder.branches)
    numbers = {}
    for k in shuffled(draw, range(len(branches))):
        least = 0 if k in first & second or not branches[k][2] else 1
        numbers[k] = draw.choice([1, 2] if least else [0, 1, 2])
        if numbers[k] == 2 and room == 0:
            numbers[k] = 1
        room -= numbers[k] == 2
    once, again = ([k for k, number in numbers.items() if number > least] for least in (0, 1))
    # now and then every second switch of a branch stands behind all the first ones
    positions = shuffled(draw, once) + shuffled(draw, again) if draw.choice(range(3)) == 0 else shuffled(draw, once + again)
    states = []
    for live in first, second:
        bytes_on = {k: list(draw.choice({1: ['1'], 2: ['10', '01', '11']}[numbers[k]])) for k in once}
        bytes_on = {k: ['0'] * numbers[k] if k in live else draw.choice([bytes_, ['0'] * numbers[k]]) if not branches[k][2] else bytes_ for k, bytes_ in bytes_on.items()}
        states.append(''.join(bytes_on[k].pop() for k in positions))
    feeder.switches = [(number, k, draw.choice([0, 1, 2, 2, 3, 3])) for number, k in zip(ids, positions)]
    moved = [] if may_be_locked else to_move(feeder, *states)
    feeder.switches = [(number, k, flags | 2 if i in moved else flags) for i, (number, k, flags) in enumerate(feeder.switches)]
    return states


def tell_apart(feeder, change, present, wanted, room, found):
    """The planners of WRONG that answer otherwise."""
    return [wrong for wrong in WRONG if answer(feeder, change, present, wanted, room, wrong) != found]


def way(feeder, live, start, end):
    """The branches between two buses of a tree, by distances: a bus is on the way where it is as far from both ends together as they are from each other."""
    far = [distances(feeder, live, bus) for bus in (start, end)]
    on = {bus for bus in far[0] if bus in far[1] and far[0][bus] + far[1][bus] == far[0][end]}
    return sorted((k for k in live if set(feeder.branches[k][:2]) <= on), key=lambda k: max(far[0][bus] for bus in feeder.branches[k][:2]))


def distances(feeder, live, start):
    beside, far, left = feeder.beside(live), {start: 0}, [start]
    for bus in left:
        for other, _ in beside[bus]:
            if other not in far:
                far[other] = far[bus] + 1
                left.append(other)
    return far
