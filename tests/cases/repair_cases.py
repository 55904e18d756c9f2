#!/usr/bin/env python3
"""Writes crates/repair_cases/stdin and stdout: stored texts, what a new text is answered with, and their repairs.

usage: tests/cases/repair_cases.py [PROGRAM COUNT SEED]

Each case of stdin is a line 'LENGTH NAME', a text, a line feed, and a line with two lengths; each case of stdout is a line with the name and the verdict on a new text, one for
each of five slices, and one for what is read before the 87 lines (crates/repair_cases/src/main.rt). The answers of the named cases are written by hand from document 02, or the stored
text is made by putting branches from a bus to itself and their switches into one without any, which has to come out; those of the small texts of
tests/cases/reader_cases.py are its verdicts. All must agree with the reckoning here, which knows no records: it goes through the lines, strikes some out and changes digits in
others. Each way of WRONG to repair, and of WRONG_READING to judge a new text, must fail on a named case. Damaged copies and any bytes are reckoned alone.

With PROGRAM, the program repair_cases or another that answers as it does, nothing is written: so many drawn texts, damaged copies and any bytes, of the seed, are put to it, and what it
prints is compared with the reckoning.
"""
import os
import random
import struct
import subprocess
import sys

sys.dont_write_bytecode = True
import reader_cases
import writer_cases
from reader_cases import INFINITY, MINUS_ZERO, OK, ONE, TRIANGLE, ZERO, branch, bus, head, small, supply, switch, text

ROOT = os.path.join(os.path.dirname(os.path.abspath(__file__)), '..', '..', 'crates', 'repair_cases')
ROOM_FOR_CASES, ROOM_BEHIND, LONGEST, DRAWN = 344064, 80, 27436, 240
# texts of reader_cases are taken up to this length, and those in which 17 meets another fault
FEW_BYTES = 400
LENGTHS = {'01': 36, '02': 22, '03': 28, '04': 12, '05': 6}
WRONG = {
    'positions kept', 'switches kept on branch 0', 'switches kept on the next branch', 'positions by the switches dropped', 'counts kept', 'branch count kept', 'switch count kept',
    'new line numbers', 'lines from 0', 'reasons exchanged', '87 first', '87 before the 05 line', 'switches before branches', 'only branches told', '15 before the dropping',
    '15 at the new line', 'faults at the new line', '7 after the dropping', '8 after the dropping', '9 after the dropping', 'own loops not judged', 'parallels dropped',
    'turned parallels dropped', '05 line dropped', 'only in service', 'only without a switch', 'the first only', 'neighbours passed over', '17 as of a new text', '15 behind a line too many',
    'zeros normalised', 'buses without a branch dropped'}
WRONG_READING = {'17 before 3', '17 before 5', '17 before 6', '17 only in service', '17 without an open switch', '17 behind the switches', '15 before 17', 'no 17'}
cases, told_apart = [], set()


def split(data):
    """The lines, and what each earns by its characters alone: 1, or 2 where it has more than 36, ended or not; nothing is looked at behind such a one."""
    at = 0
    while at < len(data):
        end = data.find(b'\n', at, at + 37)
        if end < 0:
            yield '', 2 if len(data) - at > 36 else 1
            return
        line = data[at:end].decode('latin-1')
        yield line, 1 if len(line) % 2 or set(line) - set('0123456789ABCDEF') else None
        at = end + 1


def number(line, at, digits=4):
    return int(line[at:at + digits], 16)


def outside(line, at, least, most):
    """Whether a float is outside its range, which no NaN is inside of."""
    return not least <= struct.unpack('>d', bytes.fromhex(line[at:at + 16]))[0] <= most


def is_own(line):
    return line[2:6] == line[6:10]


def head_faults(line):
    return {3: line[30:32] not in ('00', '01', '02') or number(line, 32) > 1000, 4: number(line, 2) > 256 or number(line, 6) > 512 or number(line, 10) > 512,
            5: outside(line, 14, 0.001, 1e6)}


def bus_faults(line, before):
    return {5: outside(line, 6, -1e6, 1e6), 7: line[2:6] in [other[2:6] for other in before if other[:2] == '02']}


def branch_faults(line, before, stored, wrong):
    ids = [other[2:6] for other in before if other[:2] == '02']
    faults = {3: line[26:] not in ('00', '01'), 5: outside(line, 10, 0, 1000), 6: line[2:6] not in ids or line[6:10] not in ids, 17: is_own(line) and not stored}
    if wrong == 'own loops not judged' and is_own(line):
        return {}
    if wrong in ('no 17', '17 behind the switches', '15 before 17', '17 without an open switch'):
        faults[17] = False
    if wrong == '17 only in service':
        faults[17] = faults[17] and line[26:] == '01'
    if wrong.startswith('17 before') and faults[17]:
        faults = {fault: holds for fault, holds in faults.items() if fault < int(wrong[-1]) or fault == 17}
    return faults


def switch_faults(line, before, wrong):
    branches = [other for other in before if other[:2] == '03']
    others = [other for other in before if other[:2] == '04']
    proper = [other for other in others if not is_own(branches[number(other, 6)])]
    drops = number(line, 6) < len(branches) and is_own(branches[number(line, 6)])
    listed = {fault: [] if wrong == '%d after the dropping' % fault and drops else proper if wrong == '%d after the dropping' % fault else others for fault in (7, 8, 9)}
    return {3: number(line, 10, 2) > 3, 6: number(line, 6) >= len(branches), 7: line[2:6] in [other[2:6] for other in listed[7]],
            8: [other[6:10] for other in listed[8]].count(line[6:10]) >= 2,
            9: before[0][30:32] == '02' and number(line, 11, 1) % 2 == 1 and sum(number(other, 11, 1) % 2 for other in listed[9]) >= 10}


def radial(lines):
    """The base of a text: of its branch lines those in service, on which no normally open switch line is, join all buses and are one fewer."""
    label = {line[2:6]: line[2:6] for line in lines if line[:2] == '02'}
    dead = {number(line, 6) for line in lines if line[:2] == '04' and number(line, 11, 1) % 2}
    live = [line for k, line in enumerate(line for line in lines if line[:2] == '03') if line[26:] == '01' and k not in dead]
    for line in live:
        old, new = label[line[2:6]], label[line[6:10]]
        label = {bus: new if at == old else at for bus, at in label.items()}
    return len(set(label.values())) <= 1 and len(live) == max(0, len(label) - 1)


def supply_faults(line, before, stored, wrong):
    base = before if wrong == '15 before the dropping' or not stored else left_of(before)[0]
    return {14: line[2:6] not in [other[2:6] for other in before if other[:2] == '02'], 15: not radial(base)}


def faults_of(line, before, stored, wrong):
    """The numbers that a line of the right kind and length earns behind these."""
    kind = line[:2]
    faults = {'01': lambda: head_faults(line), '02': lambda: bus_faults(line, before), '03': lambda: branch_faults(line, before, stored, wrong),
              '04': lambda: switch_faults(line, before, wrong), '05': lambda: supply_faults(line, before, stored, wrong)}[kind]()
    return [fault for fault, holds in faults.items() if holds]


def taken(data, stored, wrong=''):
    """The lines of a text that is accepted, or number and place of the refusal. The first faulty line decides, and in it the lower number."""
    lines, kinds, late = [], ['01'], None
    for place, (line, fault) in enumerate(split(data), 1):
        kind = (kinds + ['05'])[place - 1] if place <= len(kinds) + 1 else None
        if late and place > late[1]:
            return 2, place
        if fault or len(line) != LENGTHS.get(kind) or line[:2] != kind:
            return fault or 2, place
        faults = faults_of(line, lines, stored, wrong)
        if faults == [15] and wrong == '15 behind a line too many':
            faults, late = [], (15, place)
        if faults:
            return min(faults), place
        lines.append(line)
        if kind == '01':
            kinds += ['02'] * number(line, 2) + ['03'] * number(line, 6) + ['04'] * number(line, 10)
    return late or (lines if len(lines) >= len(kinds) else (2, len(lines) + 1))


def gone_from(lines, wrong=''):
    """The numbers of the lines that go, each with its reason."""
    first, gone, ends = next((place for place, line in enumerate(lines, 1) if line[:2] not in ('01', '02')), 0), {}, []
    tied = {first + number(line, 6) for line in lines if line[:2] == '04'}
    for place, line in enumerate(lines, 1):
        is_parallel = line[2:10] in ends if wrong == 'parallels dropped' else wrong == 'turned parallels dropped' and line[6:10] + line[2:6] in ends
        spared = wrong == 'only in service' and line[26:] == '00' or wrong == 'only without a switch' and place in tied or wrong == 'the first only' and gone
        spared = spared or wrong == 'neighbours passed over' and place - 1 in gone
        if line[:2] == '03' and (is_own(line) and not spared or is_parallel):
            gone[place] = '01'
        if line[:2] == '03':
            ends.append(line[2:10])
        if line[:2] == '04' and gone.get(first + number(line, 6)) == '01':
            gone[place] = '02'
    return first, gone


def left_of(lines, wrong=''):
    """The lines of what is left, and those that went: a switch's position falls by the branch lines that went before its own."""
    first, gone = gone_from(lines, wrong)
    kept = []
    for place, line in enumerate(lines, 1):
        if line[:2] == '04' and wrong != 'positions kept':
            on = first + number(line, 6)
            reason = '02' if wrong == 'positions by the switches dropped' else '01'
            fewer = sum(other < (place if reason == '02' else on) and gone[other] == reason for other in gone)
            line = line[:6] + '%04X' % max(0, number(line, 6) - fewer) + line[10:]
        if place not in gone:
            kept.append(line)
        elif gone[place] == '02' and wrong in ('switches kept on branch 0', 'switches kept on the next branch'):
            kept.append(line if wrong.endswith('next branch') else line[:6] + '0000' + line[10:])
    if wrong == '05 line dropped':
        kept = [line for line in kept if line[:2] != '05']
    if wrong == 'zeros normalised':
        kept = [line.replace('8000000000000000', '0000000000000000') for line in kept]
    if wrong == 'buses without a branch dropped':
        ends = {end for line in kept if line[:2] == '03' for end in (line[2:6], line[6:10])}
        kept = [line for line in kept if line[:2] != '02' or line[2:6] in ends or not gone]
    return recounted(kept, wrong), gone


def recounted(lines, wrong):
    """The head with the counts of the lines behind it."""
    counts = {kind: '%04X' % sum(line[:2] == kind for line in lines) for kind in ('02', '03', '04')}
    first = lines[0]
    if wrong in ('counts kept', 'branch count kept'):
        counts['03'] = first[6:10]
    if wrong in ('counts kept', 'switch count kept'):
        counts['04'] = first[10:14]
    return ['01' + counts['02'] + counts['03'] + counts['04'] + first[14:]] + lines[1:]


def told(gone, wrong):
    """The 87 lines."""
    places = sorted(gone, key=lambda place: (gone[place] == '01', place)) if wrong == 'switches before branches' else sorted(gone)
    for place in places:
        shown = place - 1 if wrong == 'lines from 0' else place - sum(other < place for other in gone) if wrong == 'new line numbers' else place
        reason = {'01': '02', '02': '01'}[gone[place]] if wrong == 'reasons exchanged' else gone[place]
        if gone[place] == '01' or wrong != 'only branches told':
            yield '87%04X%s' % (shown, reason)


def repaired(data, wrong=''):
    """The lines that are left and the 87 lines, or number and place of the refusal."""
    lines = taken(data, wrong != '17 as of a new text', wrong)
    if isinstance(lines, tuple):
        fault, place = lines
        before = [line for line, _ in split(data)][:place - 1]
        shifts = wrong == 'faults at the new line' or wrong == '15 at the new line' and fault == 15
        return (fault, place - len(gone_from(before)[1])) if shifts and fault > 2 else lines
    left, gone = left_of(lines, wrong)
    dropped = list(told(gone, wrong))
    if wrong == '87 before the 05 line' and left[-1][:2] == '05':
        return left[:-1], dropped + left[-1:]
    return (dropped, left) if wrong == '87 first' else (left, dropped)


def read_anew(data, wrong=''):
    """The verdict on a new text; a wrong one judges 17 too late."""
    found = taken(data, False, wrong)
    if not isinstance(found, tuple) and wrong in ('17 behind the switches', '15 before 17', '17 without an open switch'):
        dead = {number(line, 6) for line in found if line[:2] == '04' and number(line, 11, 1) % 2}
        own = [(17, place) for place, line in enumerate(found, 1) if line[:2] == '03' and is_own(line)]
        first = sum(line[:2] in ('01', '02') for line in found) + 1
        return next((fault for fault in own if wrong != '17 without an open switch' or fault[1] - first not in dead), OK)
    return found if isinstance(found, tuple) else OK


def verdict_of(found):
    return OK if found == OK else 'refused %d %d' % found


def lines_of(name, data, new, answer):
    """What is printed for a text."""
    yield '%s %s' % (name, verdict_of(new))
    is_refused = isinstance(answer[0], int)
    whole = b'' if is_refused else text(answer[0] + answer[1])
    exact = room_of(data, answer)
    for at, room in enumerate([exact, 0] + [exact - 1] * (exact > 0) + [exact + 1, exact + ROOM_BEHIND]):
        refusal = answer if is_refused else (13, 0) if room < len(whole) else None
        if refusal:
            yield '%d: refused %d %d, kept' % (room, *refusal)
        else:
            shown = 'as stored' if whole == data else 'as before' if at else '[%s]' % whole.decode()
            yield '%d: %d written, %s' % (room, len(whole), shown)
    if not is_refused:
        yield OK


def room_of(data, answer):
    """The length of the repair; of a refused text its own, that of a long one cut off."""
    return min(len(data), 300) if isinstance(answer[0], int) else len(text(answer[0] + answer[1]))


def stored(name, data, new, answer):
    """A text, and what is printed of it."""
    rooms = '%04X %04X' % (room_of(data, answer), 0 if isinstance(answer[0], int) else len(text(answer[0])))
    question = b'%d %s\n%s\n%s\n' % (len(data), name.encode(), data, rooms.encode())
    return name, question, ''.join(line + '\n' for line in lines_of(name, data, new, answer))


def case(name, what, new, answer):
    """The verdict on a new text, and the refusal of the repair or its lines, the 87 lines last."""
    data = what if isinstance(what, bytes) else text(what)
    if isinstance(answer, list):
        answer = [line for line in answer if line[:2] != '87'], [line for line in answer if line[:2] == '87']
    found, anew = repaired(data), read_anew(data)
    assert found == answer, (name, found)
    assert anew == new, (name, anew)
    if not isinstance(found[0], int):
        assert read_anew(text(found[0])) == OK and repaired(text(found[0])) == (found[0], []), name
        assert len(text(found[0] + found[1])) <= len(data) <= LONGEST, name
    told_apart.update(wrong for wrong in WRONG - told_apart if fails(wrong, data, found))
    told_apart.update(wrong for wrong in WRONG_READING - told_apart if read_anew(data, wrong) != anew)
    cases.append(stored(name, data, new, answer))


def fails(wrong, data, found):
    """Whether a wrong repair answers otherwise: it may not be able to go on at all."""
    try:
        return repaired(data, wrong) != found
    except (IndexError, KeyError):
        return True


def with_own(rows, loops, switches=()):
    """A text without own loops into which some are put: branch lines by their positions, switches (place in the list, id, position, flags); and the 87 lines of these."""
    first, others = rows[0], {kind: [row for row in rows if row[:2] == kind] for kind in ('02', '03', '04', '05')}
    branches = list(others['03'])
    for k, line in sorted(loops.items()):
        branches.insert(k, line)
    moved = [k for k in range(len(branches)) if k not in loops]
    listed = [row[:6] + '%04X' % moved[number(row, 6)] + row[10:] for row in others['04']]
    for i, id_, k, flags in sorted(switches):
        listed.insert(i, switch(id_, k, flags))
    assert all(branches[k] == line for k, line in loops.items()) and all(k in loops for _, _, k, _ in switches)
    first = first[:6] + '%04X%04X' % (len(branches), len(listed)) + first[14:]
    before = 2 + len(others['02'])
    dropped = ['87%04X01' % (before + k) for k in sorted(loops)] + ['87%04X02' % (before + len(branches) + i) for i, *_ in sorted(switches)]
    return [first] + others['02'] + branches + listed + others['05'], dropped


def put(name, rows, loops, switches=()):
    """The text into which own loops are put comes out again; a new text with them is refused at the first."""
    what, dropped = with_own(rows, loops, switches)
    case(name, what, (17, number(dropped[0], 2)), rows + dropped)


# document 02's triangle with an own loop on line 6 and its switch on line 10
OWN = branch(2, 2, 0x3FD0000000000000)
STORED = [head(3, 4, 3)] + TRIANGLE[1:5] + [OWN] + TRIANGLE[5:7] + [switch(10, 2, 2), switch(12, 1, 2), switch(11, 3, 3)]
# what goes from it
GONE = ['87000601', '87000A02']


def by_hand():
    assert STORED[5] == '03000200023FD000000000000001' and STORED[9] == '04000C000102'
    case('triangle', STORED, (17, 6), TRIANGLE + GONE)
    case('triangle-supply', STORED + [supply(1)], (17, 6), TRIANGLE + [supply(1)] + GONE)
    case('triangle-supply-not-cured', STORED[:10] + [switch(11, 3, 2), supply(1)], (17, 6), (15, 12))
    case('triangle-two-own-loops', [head(3, 5, 4)] + STORED[1:4] + [branch(3, 3)] + TRIANGLE[4:7] + [branch(1, 1, ONE, 0), switch(1, 0, 3), switch(10, 2), switch(2, 4, 0), switch(11, 3, 3)],
         (17, 5), TRIANGLE + ['87000501', '87000901', '87000A02', '87000C02'])
    one = [head(1, 1, 0), bus(1), branch(1, 1)]
    case('one-bus', one, (17, 3), [head(1, 0, 0), bus(1), '87000301'])
    case('one-bus-supply', one + [supply(1)], (17, 3), [head(1, 0, 0), bus(1), supply(1), '87000301'])
    case('one-bus-supply-not-listed', one + [supply(2)], (17, 3), (14, 4))
    case('two-buses-supply-cut-off', [head(2, 1, 0), bus(1), bus(2), branch(1, 1), supply(1)], (17, 4), (15, 5))
    case('ids-0-and-65535', [head(2, 3, 0), bus(65535), bus(0), branch(0, 0), branch(0, 65535), branch(65535, 65535)], (17, 4),
         [head(2, 1, 0), bus(65535), bus(0), branch(0, 65535), '87000401', '87000601'])
    # a position that is no id and no line: bus 4 is listed first, and the ends are ids
    case('ids-are-no-positions', [head(2, 2, 1), bus(4), bus(1), branch(1, 4), branch(4, 4), switch(4, 0)], (17, 5), [head(2, 1, 1), bus(4), bus(1), branch(1, 4), switch(4, 0), '87000501'])
    values = [head(2, 2, 1, 0x3F50624DD2F1A9FC, 1, 999), bus(1, MINUS_ZERO), bus(2, 1), branch(2, 2, ZERO), branch(1, 2, MINUS_ZERO, 0), switch(65535, 1, 1)]
    case('bits-kept', values, (17, 4), [head(2, 1, 1, 0x3F50624DD2F1A9FC, 1, 999)] + values[1:3] + values[4:5] + [switch(65535, 0, 1), '87000401'])


def nothing_to_drop():
    """What is accepted comes out byte for byte: the small texts of reader_cases and the largest, 27,436 bytes. What is refused is refused as before."""
    for name, data, verdict in reader_cases.cases:
        meets_17 = data.startswith(text(reader_cases.with_faults({})[:1])[:6]) and '17' in name.split('-')
        if len(data) > FEW_BYTES and not meets_17:
            continue
        anew = OK if verdict == OK else tuple(map(int, verdict.split()))
        lines = data.decode('latin-1').split()
        answer = lines if anew == OK else anew
        case('read-' + name, data, anew, repaired(data) if anew != OK and anew[0] == 17 else answer)
    rows = writer_cases.largest_rows()
    assert len(text(rows)) == LONGEST
    case('largest', rows, OK, rows)


def places():
    """Own loops first, last, neighbours, by turns and all round, each with no switch, one or two: locked, operable, ties."""
    at = {'first': (0,), 'second': (1,), 'last': (3,), 'first-two': (0, 1), 'neighbours': (1, 2), 'last-two': (3, 4), 'first-and-last': (0, 4), 'by-turns': (0, 2, 4, 6), 'three-running': (2, 3, 4)}
    for name, positions in at.items():
        loops = {k: branch(1 + k % 3, 1 + k % 3, ONE, k % 4 != 1) for k in positions}
        put('%s-no-switch' % name, TRIANGLE, loops)
        put('%s-one-switch' % name, TRIANGLE, loops, [(i, 100 + i, k, i % 4) for i, k in enumerate(positions)])
        put('%s-two-switches' % name, TRIANGLE, loops, [(2 + i, 100 + i, k, 3 - i % 4) for i, k in enumerate(positions + positions[::-1])])
    for flags, kind in enumerate(('locked', 'locked-tie', 'section', 'tie')):
        for status in (0, 1):
            name = '%s-%s' % (kind, 'in-service' if status else 'out-of-service')
            put(name, TRIANGLE, {1: branch(3, 3, ONE, status)}, [(1, 12, 1, flags)])
            put(name + '-two', TRIANGLE, {1: branch(3, 3, ONE, status)}, [(0, 12, 1, flags), (3, 9, 1, flags ^ 1)])
            put(name + '-supply', TRIANGLE + [supply(2)], {1: branch(3, 3, ONE, status)}, [(1, 12, 1, flags)])
    # switches of the triangle before, between and behind those that go
    for places_ in [(0, 1), (0, 3), (1, 2), (2, 3), (0, 2), (1, 3)]:
        put('switches-at-%d-and-%d' % places_, TRIANGLE, {0: branch(1, 1), 2: branch(1, 1)}, [(i, 1 + i, k, 2) for i, k in zip(places_, (2, 0))])
    for method in range(3):
        put('method-%d' % method, [head(3, 3, 2, ONE, method, 1000)] + TRIANGLE[1:], {3: branch(2, 2)}, [(2, 1, 3, 3)])


def all_of_them():
    """Only own loops: no branch and no switch is left."""
    empty = [head(3, 0, 0)] + TRIANGLE[1:4]
    loops = {k: branch(1 + k, 1 + k, ONE, k % 2) for k in range(3)}
    put('all', empty, loops)
    put('all-with-switches', empty, loops, [(i, 10 - i, k, i % 4) for i, k in enumerate((2, 0, 1, 1, 2))])
    what, _ = with_own(empty + [supply(1)], loops)
    case('all-supply', what, (17, 5), (15, 8))
    put('all-of-one-bus-supply', [head(1, 0, 0), bus(9), supply(9)], {k: branch(9, 9) for k in range(3)}, [(0, 1, 2, 2), (1, 2, 0, 3)])


def parallels():
    """Branches between the same two buses stay, turned or not, beside an own loop or without one."""
    rows = [head(2, 4, 3), bus(1), bus(2), branch(1, 2), branch(1, 2), branch(2, 1), branch(1, 2, ONE, 0), switch(3, 1, 3), switch(2, 2, 1), switch(1, 1, 0)]
    case('parallels', rows, OK, rows)
    case('parallels-supply', rows + [supply(2)], OK, rows + [supply(2)])
    put('parallels-and-an-own-loop', rows, {1: branch(2, 2)}, [(1, 9, 1, 2)])
    put('parallels-between-own-loops', rows, {0: branch(1, 1), 2: branch(2, 2), 4: branch(1, 1), 7: branch(2, 2)}, [(0, 9, 4, 3), (4, 8, 0, 2)])
    put('parallels-supply-and-own-loops', rows + [supply(1)], {2: branch(2, 2), 3: branch(2, 2)})


def supplies():
    """15 is judged of what is left, at the old line; 14 of the text as it stands."""
    for name, status, flags in [('live', 1, 2), ('dead-by-a-tie', 1, 3), ('out-of-service', 0, 2)]:
        put('supply-' + name, TRIANGLE + [supply(3)], {1: branch(3, 3, ONE, status)}, [(1, 12, 1, flags)])
    put('supply-live-without-a-switch', TRIANGLE + [supply(3)], {3: branch(1, 1)})
    # with its own loop it has as many live branches as a tree, or more: once that is gone a loop, or a bus cut off, is left
    looped, parted = TRIANGLE[:8] + [switch(11, 2, 2), supply(1)], TRIANGLE[:7] + [switch(10, 1, 3), switch(11, 2, 3), supply(1)]
    for name, rows in [('loop', looped), ('bus-cut-off', parted)]:
        for k in (0, 3):
            what, _ = with_own(rows, {k: branch(2, 2)}, [(1, 12, k, 2)])
            case('supply-%s-is-left-%d' % (name, k), what, (17, 5 + k), (15, 12))
    what, _ = with_own(parted, {0: branch(2, 2), 2: branch(1, 1), 3: branch(1, 1)}, [(0, 1, 2, 2), (1, 2, 0, 3), (4, 3, 3, 0), (5, 4, 3, 1)])
    case('supply-bus-cut-off-many-dropped', what, (17, 5), (15, 17))
    for number_ in (0, 4, 9, 65535):
        case('supply-%d-not-listed' % number_, STORED + [supply(number_)], (17, 6), (14, 12))
        case('supply-%d-not-listed-not-cured' % number_, STORED[:10] + [switch(11, 3, 2), supply(number_)], (17, 6), (14, 12))


def one_line_of_two_faults():
    """The own loop's own line: 3, 5, 6 as before, and 17 of a new text behind them."""
    for name, line, fault in [('status-02', branch(2, 2, ONE, 2), 3), ('r-infinite', branch(2, 2, INFINITY), 5), ('r-below-zero', branch(2, 2, 0xBFF0000000000000), 5),
                              ('unlisted', branch(9, 9), 6), ('unlisted-out-of-service', branch(9, 9, ONE, 0), 6), ('unlisted-r-infinite', branch(9, 9, INFINITY), 5),
                              ('unlisted-status-02', branch(9, 9, ONE, 2), 3), ('r-infinite-status-02', branch(2, 2, INFINITY, 2), 3), ('lower-case', branch(2, 2)[:-3] + 'a01', 1),
                              ('kind-05', '05' + branch(2, 2)[2:], 2), ('too-long', branch(2, 2) + '00', 2), ('id-is-a-switch', branch(12, 12), 6)]:
        case('own-loop-' + name, STORED[:5] + [line] + STORED[6:], (fault, 6), (fault, 6))
        behind = STORED[:4] + [branch(1, 1)] + STORED[5:]
        case('own-loop-before-own-loop-' + name, behind[:5] + [line] + behind[6:], (17, 5), (fault, 6))
    case('one-end-unlisted', STORED[:5] + [branch(2, 9)] + STORED[6:], (6, 6), (6, 6))
    case('head-of-513-branches', [head(3, 513, 3)] + STORED[1:], (4, 1), (4, 1))
    case('bus-again', STORED[:2] + [bus(1)] + STORED[3:], (7, 3), (7, 3))


def two_lines_of_faults():
    """A new text is refused at the own loop, the stored one at the later line."""
    for name, at, line, fault in [('branch-unlisted', 7, branch(1, 9), 6), ('branch-status-02', 8, branch(1, 3, ONE, 2), 3), ('branch-r-infinite', 7, branch(2, 3, INFINITY), 5),
                                  ('flags-04', 9, switch(10, 2, 4), 3), ('position-4-of-4', 11, switch(11, 4, 3), 6), ('position-65535', 9, switch(10, 65535), 6),
                                  ('id-of-one-that-goes', 11, switch(12, 3, 3), 7), ('flags-of-one-that-goes', 10, switch(12, 1, 4), 3), ('id-twice', 11, switch(10, 3, 3), 7),
                                  ('one-that-goes-has-an-id-twice', 10, switch(10, 1, 2), 7), ('no-hexadecimal', 11, '04000B00030G', 1), ('kind-05', 11, supply(1), 2)]:
        case('own-loop-and-' + name, STORED[:at - 1] + [line] + STORED[at:], (17, 6), (fault, at))
    # a position inside the old count, beyond the new one
    case('own-loop-and-position-3-of-4', STORED[:8] + [switch(10, 3, 2)] + STORED[9:], (17, 6), [TRIANGLE[0]] + TRIANGLE[1:7] + [switch(10, 2, 2), switch(11, 2, 3)] + GONE)
    for name, data, place in [('a-line-missing', STORED[:10], 11), ('a-line-too-many', STORED + [switch(13, 0)], 12), ('two-supplies', STORED + [supply(1)] * 2, 13)]:
        case('own-loop-and-' + name, data, (17, 6), (2, place))
    case('own-loop-and-unended', text(STORED)[:-1], (17, 6), (1, 11))
    case('own-loop-and-supply-unended', text(STORED) + b'050001', (17, 6), (1, 12))
    case('own-loop-and-87-lines', STORED + GONE, (17, 6), (2, 12))
    case('repaired-with-87-lines', TRIANGLE + GONE, (2, 10), (2, 10))


def counted_as_they_stand():
    """7, 8 and 9 are judged on the lines as they stand, those that go among them."""
    loop = {1: branch(3, 3)}
    third = with_own(TRIANGLE, loop, [(0, 1, 1, 2), (1, 2, 1, 2), (4, 3, 1, 2)])[0]
    case('third-switch-on-an-own-loop', third, (17, 6), (8, 13))
    case('third-switch-on-an-own-loop-supply', third + [supply(1)], (17, 6), (8, 13))
    case('both-of-an-id-go', with_own(TRIANGLE, loop, [(0, 12, 1, 2), (3, 12, 1, 2)])[0], (17, 6), (7, 12))
    case('first-of-an-id-goes', with_own(TRIANGLE, loop, [(0, 11, 1, 2)])[0], (17, 6), (7, 11))
    case('second-of-an-id-goes', with_own(TRIANGLE, loop, [(2, 11, 1, 2)])[0], (17, 6), (7, 11))
    ties = lambda count, method: [head(2, 12, count, ONE, method), bus(1), bus(2)] + [branch(1, 2)] * 12 + [switch(1 + i, i, 3) for i in range(count)]
    for method in range(3):
        for name, at in [('first', 0), ('last', 10)]:
            what, dropped = with_own(ties(10, method), {5: branch(1, 1)}, [(at, 99, 5, 3)])
            case('eleventh-tie-goes-%s-method-%d' % (name, method), what, (17, 9), (9, 27) if method == 2 else ties(10, method) + dropped)
        put('ten-ties-one-goes-method-%d' % method, ties(9, method), {12: branch(2, 2)}, [(9, 99, 12, 3)])
        put('ten-ties-and-a-section-goes-method-%d' % method, ties(10, method), {0: branch(2, 2)}, [(10, 99, 0, 2)])


def behind_the_supply():
    """15 after the dropping goes before a line too many; where it is cured that line is judged."""
    looped = STORED[:10] + [switch(11, 3, 2), supply(1)]
    for name, more, fault in [('itself', '050001\n', 2), ('a-switch', switch(13, 0) + '\n', 2), ('unended', '050001', 1), ('others', 'GG\n', 1), ('a-line-feed', '\n', 2), ('long', 'G' * 37, 2)]:
        case('not-cured-and-' + name, text(looped) + more.encode(), (17, 6), (15, 12))
        case('cured-and-' + name, text(STORED + [supply(1)]) + more.encode(), (17, 6), (fault, 13))
        case('not-listed-and-' + name, text(STORED + [supply(9)]) + more.encode(), (17, 6), (14, 12))
    for name, line, fault in [('of-8', '05000001', 2), ('lower-case', '05000a', 1), ('kind-06', '060001', 2)]:
        case('not-cured-supply-line-' + name, looped[:11] + [line, supply(1)], (17, 6), (fault, 12))


def full_size():
    """512 branches and 512 switches, 256 buses: all branches own loops; every second one, with two switches each; 200 of them, with 200 switches, in a text with a supply."""
    ids = [65535 - 3 * i for i in range(256)]
    buses = [bus(id_, ONE) for id_ in ids]
    put('512-own-loops-512-switches', [head(256, 0, 0, ONE, 1, 1000)] + buses, {k: branch(ids[k // 2], ids[k // 2], ONE, k % 2) for k in range(512)},
        [(i, 1000 - i, (7 * i) % 512, i % 4) for i in range(512)])
    chain = [branch(ids[i], ids[i + 1]) for i in range(255)]
    put('every-second-of-512', [head(256, 256, 0)] + buses + chain + [branch(ids[255], ids[0])], {2 * k: branch(ids[k], ids[k]) for k in range(256)},
        [(i, 9 + i, 2 * ((5 * i) % 256), i % 4) for i in range(512)])
    draw = random.Random(7)
    kept = [head(256, 312, 312, 0x412E848000000000, 0, 7)] + buses + chain + [branch(ids[0], ids[9 + i], ONE, i % 2) for i in range(57)]
    kept += [switch(5000 + 3 * i, (11 * i) % 312, 3 if (11 * i) % 312 > 254 else 2) for i in range(312)] + [supply(ids[77])]
    at, listed = (sorted(draw.sample(range(512), 200)) for _ in range(2))
    loops = {k: branch(*[draw.choice(ids)] * 2, draw.randrange(0x408) << 52 | draw.getrandbits(52), draw.randrange(2)) for k in at}
    switches = [(i, j, draw.choice(at[j % 100::100]), draw.randrange(4)) for j, i in enumerate(listed)]
    assert len(text(with_own(kept, loops, switches)[0])) == LONGEST
    put('200-of-512-supply', kept, loops, switches)


def drawn_text(draw):
    """A feeder of at most seven buses, own loops and switches put into it, with its supply now and then; the 87 lines are known."""
    n = draw.randint(1, 7)
    ids = draw.sample(range(65536), n)
    tree = [(i, draw.randrange(i)) for i in range(1, n) if draw.random() < 0.95]
    more = [tuple(draw.sample(range(n), 2)) for _ in range(draw.randrange(3))] if n > 1 else []
    ends = draw.sample(tree + more, len(tree + more))
    is_tree = [pair in tree for pair in ends]
    floats = [ZERO, MINUS_ZERO, ONE, 0x3FD0000000000000, 1]
    rows = [bus(id_, draw.choice(floats)) for id_ in ids]
    rows += [branch(*(ids[i] for i in draw.sample(pair, 2)), draw.choice(floats), draw.random() < (0.98 if tree_ else 0.3)) for pair, tree_ in zip(ends, is_tree)]
    on = [k for k in range(len(ends)) for _ in range(draw.choice([0, 1, 1, 2]))]
    draw.shuffle(on)
    numbers = draw.sample(range(65536), 40)
    rows += [switch(numbers.pop(), k, draw.randrange(2) * 2 | (not is_tree[k] if draw.random() < 0.97 else 1)) for k in on]
    rows += [supply(draw.choice(ids))] if draw.random() < 0.5 else []
    rows = [head(n, len(ends), len(on), ONE, draw.randrange(3), draw.choice([0, 100, 1000]))] + rows
    count = draw.choice([0, 1, 1, 2, 3, 5])
    places_ = sorted(draw.sample(range(len(ends) + count), count))
    loops = {k: branch(*[draw.choice(ids)] * 2, draw.choice(floats), draw.randrange(2)) for k in places_}
    own = [k for k in places_ for _ in range(draw.choice([0, 1, 1, 2]))]
    draw.shuffle(own)
    listed = sorted(draw.sample(range(len(on) + len(own)), len(own)))
    what, dropped = with_own(rows, loops, [(i, numbers.pop(), k, draw.randrange(4)) for i, k in zip(listed, own)])
    return rows, what, dropped


def damaged(draw, what):
    """A copy with a digit, a field, a line or an end changed, once or twice."""
    lines = list(what)
    for _ in range(draw.choice([1, 1, 2])):
        way, i = draw.randrange(9), draw.randrange(len(lines))
        line = lines[i] or '0'
        at = draw.randrange(len(line))
        if way < 3:
            lines[i] = line[:at] + draw.choice('0123456789ABCDEF' + 'Ga ') + line[at + 1:]
        elif way == 3:
            field = 2 + 4 * draw.randrange(3)
            lines[i] = line[:field] + '%04X' % draw.choice([0, 1, 2, 3, 9, 512, 65535]) + line[field + 4:]
        elif way == 4:
            other = draw.choice(lines)
            lines[i] = line[:2] + other[2:6] + line[6:]
        elif way == 5:
            lines[i] = line[:6] + line[2:6] + line[10:]
        else:
            lines[i:i + 1] = {6: [], 7: [line] * 2, 8: lines[i + 1:i + 2] + [line]}[way]
        lines = lines or ['']
    data = text(lines)
    cut = draw.random()
    return data[:draw.randrange(len(data) + 1)] if cut < 0.1 else data + draw.choice([b'050001\n', b'0', b'\n', b'87000601\n', b'G' * 40]) if cut < 0.2 else data


def any_bytes(draw):
    letters = draw.choice([b'0123456789ABCDEF\n', bytes(range(256)), b'01\n', b'0\n', b'0012345\n'])
    return bytes(draw.choice(letters) for _ in range(draw.randrange(90)))


def drawn_case(draw, at):
    """Drawn texts, damaged copies of such, and any bytes by turns; what is put into a text has to come out."""
    rows, what, dropped = drawn_text(draw)
    kind = ('drawn', 'drawn', 'damaged', 'damaged', 'damaged', 'any-bytes')[at % 6]
    data = {'drawn': lambda: text(what), 'damaged': lambda: damaged(draw, what), 'any-bytes': lambda: any_bytes(draw)}[kind]()
    answer, new = repaired(data), read_anew(data)
    if kind == 'drawn':
        is_15 = rows[-1][:2] == '05' and not radial(rows)
        ties = [place for place, line in enumerate(what, 1) if line[:2] == '04' and line[-1] in '13']
        if rows[0][30:32] != '02' or len(ties) < 11:
            assert answer == ((15, len(what)) if is_15 else (rows, dropped)), (rows, what)
            assert new == ((17, number(dropped[0], 2)) if dropped else (15, len(what)) if is_15 else OK)
    return stored('%s-%d' % (kind, at), data, new, answer)


def compare(program, count, seed):
    """Puts so many drawn cases to a program, as many at a time as it has room for."""
    draw, left, differences, kinds = random.Random(seed), count, 0, {}
    while left:
        some = []
        while left and sum(len(question) for _, question, _ in some) < ROOM_FOR_CASES - 4096:
            some.append(drawn_case(draw, left))
            left -= 1
        said = subprocess.run(program.split(), input=b''.join(question for _, question, _ in some), stdout=subprocess.PIPE, check=True).stdout.decode('latin-1')
        for name, question, printed in some:
            kind = printed.split('\n')[1].split(': ')[1].split(',')[0]
            kinds[kind if kind.startswith('refused') else 'written'] = kinds.get(kind if kind.startswith('refused') else 'written', 0) + 1
        if said != ''.join(printed for *_, printed in some):
            differences += 1
            print('DIFFERENCE in the chunk that begins with %s' % some[0][0])
    numbers = {}
    for kind, of_kind in kinds.items():
        numbers[' '.join(kind.split()[:2])] = numbers.get(' '.join(kind.split()[:2]), 0) + of_kind
    print('%d texts, %d chunks differ; %s' % (count, differences, ', '.join('%s %d' % item for item in sorted(numbers.items()))))
    return differences


def main():
    if len(sys.argv) == 4:
        sys.exit(compare(sys.argv[1], int(sys.argv[2]), int(sys.argv[3])) > 0)
    for make in (by_hand, nothing_to_drop, places, all_of_them, parallels, supplies, one_line_of_two_faults, two_lines_of_faults, counted_as_they_stand, behind_the_supply, full_size):
        make()
    assert told_apart == WRONG | WRONG_READING, (WRONG | WRONG_READING) - told_apart
    named, draw = len(cases), random.Random(1)
    cases.extend(drawn_case(draw, at) for at in range(DRAWN))
    names = [name for name, _, _ in cases]
    assert len(names) == len(set(names)), 'a name stands twice'
    os.makedirs(ROOT, exist_ok=True)
    with open(os.path.join(ROOT, 'stdin'), 'wb') as out:
        out.write(b''.join(question for _, question, _ in cases))
        assert out.tell() <= ROOM_FOR_CASES, ('the program has no room for the cases', out.tell())
    with open(os.path.join(ROOT, 'stdout'), 'w') as out:
        out.write(''.join(printed for _, _, printed in cases))
    print('%d named cases, %d wrong ways told apart; %d drawn' % (named, len(told_apart), len(cases) - named))


main()
