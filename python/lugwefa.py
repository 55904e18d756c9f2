"""Lugwefa from Python: the calls of include/feeder.h, with states by switch id and refusals as exceptions.

Tested (tests/interface/run), not proved: what is proved are the calls of the library that this module loads. `python/build` makes it;
LUGWEFA_LIBRARY names it, else liblugwefa.so is taken from beside this file or from target/python. Nothing but Python's own library is needed.

A text is a feeder in the frames of docs/INTERFACE.md, as bytes or str. A state says of each switch, by its id, how it stands:

    >>> base_state(triangle)
    {10: 'closed', 11: 'open'}

A state that is handed over is such a mapping, or the bytes of the calls (0 closed, 1 open, in the text's order). What is not acceptable is
refused by the call itself, and raises Refused with the number and place that docs/INTERFACE.md has. python/example.py shows the rest.

A stored text that is refused with 17 has branches from a bus to itself: `repair_text` drops them.

Who has no text has it made: `write_text(records(head, buses, branches, switches, supply))`, without the last where the text is to name no supply. examples/estate does so
from a database.
"""

import ctypes
import operator
import os
import struct
from collections import namedtuple
from collections.abc import Mapping

CLOSED = 'closed'
OPEN = 'open'
_STANDS = (CLOSED, OPEN)

# A pair of a plan: the ids of the switches that it closes, those of one branch, and of those that it then opens, of another; a tuple of one or two each. Carried out, both
# tuples are gone through from the first to the last. Undone, the opened ones are closed, then the closed ones opened, each from the last to the first.
Pair = namedtuple('Pair', 'close open')
# What is done with a switch. A list of these is NO order to switch in: that is the plan's.
Operation = namedtuple('Operation', 'switch stands')
# A single move of a plan: one switch, and how it stands then. Moves are carried out in their order.
Move = namedtuple('Move', 'switch stands')
# A plan that was cut off: the moves that finish it, and those that go back to the state in which it began.
Resumed = namedtuple('Resumed', 'remaining back')
# What the live branches of a state are: how many islands, the connected pieces minus one (0 for no buses), and the position, from 0, of the first live branch whose ends
# those before it already join, None where there is no loop.
Form = namedtuple('Form', 'islands branch')
TREE = Form(0, None)
# A line that a repair dropped: its number in the stored text, and what stood on it, BRANCH or SWITCH.
Dropped = namedtuple('Dropped', 'line reason')
BRANCH = 'branch'
SWITCH = 'switch'
# A repaired text, and the lines that were dropped from the stored one.
Repaired = namedtuple('Repaired', 'text dropped')
# What a search answers: its best state, and the fields of the 81 line. Losses are in MW, the reduction in percent of the base's loss.
Solution = namedtuple('Solution', 'state radial base_loss best_loss reduction iterations converged')

# Records, from which a text is made: the fields of the frames, in their order, under their names. Other sequences of the same values do as well. A status is
# 1 in service or 0 out of service; normally_open and can_operate are truth values, or 1 and 0.
Head = namedtuple('Head', 'base_mva method max_iterations')
Bus = namedtuple('Bus', 'id pd')
Branch = namedtuple('Branch', 'from_bus to_bus r status')
Switch = namedtuple('Switch', 'id branch normally_open can_operate')

# the words of document 01; of 02 are 8, 12, the second half of 11, and 14 to 17
CONDITIONS = {
    1: 'unended line, odd digits, another character',
    2: 'wrong kind or length, line missing or too many',
    3: 'method, status or flags byte has no meaning, or iterations over 1,000',
    4: 'head count over its limit',
    5: 'float outside its range, or not finite',
    6: 'branch end not listed, or branch position not below the count',
    7: 'bus or switch id twice in its kind',
    8: 'third switch on a branch',
    9: 'eleventh normally open switch, method 02',
    10: "state isn't one byte 00 (closed) or 01 (open) for each switch",
    11: "a plan's state isn't radial, or with a supply that of a loss",
    12: 'a switch that the plan would move is locked',
    13: 'lent slice shorter than the answer',
    14: 'supply bus not listed',
    15: 'a supply is named, and the base is not radial',
    16: "count above the plan's moves",
    17: 'branch from a bus to itself',
}


class Refused(ValueError):
    """A refusal: its number and place. `why` says what is wrong with a state that was handed over by ids, where that is known."""

    def __init__(self, number, place, why=''):
        super().__init__(number, place, why)
        self.number, self.place, self.why = number, place, why

    def __str__(self):
        return f'refused {self.number} at {self._where()}: {CONDITIONS[self.number]}' + (f' ({self.why})' if self.why else '')

    def _where(self):
        if self.number <= 9 or self.number in (14, 15, 17):
            return f'line {self.place}'
        if self.number <= 11:
            return 'the wanted state' if self.place else 'the present or only state'
        return f'switch {self.place}' if self.number == 12 else 'place 0'


class NoRoom(ValueError):
    """A value for which its field in the records' bytes has no room: kind ('head', 'bus', 'branch', 'switch' or 'supply'), position in its list from 0, field, value,
    and what there is room for."""

    def __init__(self, kind, position, field, value, room):
        super().__init__(kind, position, field, value, room)
        self.kind, self.position, self.field, self.value, self.room = kind, position, field, value, room

    def __str__(self):
        return f'{self.kind} at position {self.position}: {self.field} is {self.value!r}, which is no {self.room}'


def records(head, buses, branches, switches, supply=None):
    """The records in bytes, for write_text; the head's counts are how many of each are handed over. Supply is the id of the bus that feeds them, from which losses are then
    counted away; None names none. What has no room in its field raises NoRoom; all else is for the call to judge."""
    lists = [list(each) for each in (buses, branches, switches)]
    counts = _packed('head', 0, ('buses', 'branches', 'switches'), 'HHH', map(len, lists))
    parts = [b'\1', counts, _packed('head', 0, Head._fields, 'dBH', Head(*head))]
    for (kind, byte, record, codes), each in zip(_KINDS, lists):
        for position, values in enumerate(each):
            parts += byte, _packed(kind, position, record._fields, codes, record(*values))
    if supply is not None:
        parts += b'\5', _packed('supply', 0, ['id'], 'H', [supply])
    return b''.join(parts)


def write_text(records):
    """The text of records in bytes. The place of a refusal is a line of it: the head's is 1, then come the buses, branches and switches in their order, and
    the supply."""
    answer, room = _lent(_library().feeder_write_text, bytes(iter(records)))
    return _checked(answer, room[:answer.value]).decode()


def repair_text(text):
    """A stored text without its branches from a bus to itself and the switches on them, and which lines were dropped, in their order: `Repaired`. Without such branches the text is the
    same and none is dropped. The place of a refusal is a line of the stored text; it is never 17."""
    answer, room = _lent(_library().feeder_repair_text, _bytes(text))
    lines = _checked(answer, room[:answer.value]).decode().splitlines(keepends=True)
    return Repaired(''.join(line for line in lines if line[:2] != '87'), [_dropped(line) for line in lines if line[:2] == '87'])


def radiality(text, state):
    """Whether the state is radial: every bus connected, and no loop."""
    return bool(_on_states(_library().feeder_radiality, text, state).value)


def form(text, state):
    """What the live branches of the state are: TREE, exactly where it is radial, else a loop, islands, or both; `Form` has the islands, and the branch that closes the first loop."""
    islands, branch = divmod(_on_states(_library().feeder_form, text, state).value, 65536)
    return Form(islands, None if branch == 65535 else branch)


def loss(text, state):
    """The loss of the state in MW. It need not be radial where the text names no supply."""
    bits = _on_states(_library().feeder_loss, text, state).value
    return ctypes.c_double.from_buffer(ctypes.c_uint64(bits)).value


def plan(text, present, wanted):
    """The pairs that lead from the present state to the wanted one, in the order in which they are carried out. A run may stop between whole pairs."""
    lines, = _lines_on_states(_library().feeder_plan, text, present, wanted)
    return [_pair(line) for line in lines]


def resume(text, present, wanted, count):
    """The plan from the present state to the wanted one, cut off when so many of its single moves were done: each switch of a pair is one, those that it closes and then
    those that it opens. Present is the state in which the plan began, and not the one after the cut. `Resumed` has the moves that remain and those that go back; a count below 0 is a ValueError."""
    remaining, back = _lines_on_states(_library().feeder_resume, text, present, wanted, _count(count))
    return Resumed(*([Move(*_operation(line)) for line in lines] for lines in (remaining, back)))


def answer_text(text):
    """What the program feeder prints for an accepted text: 81, 84, 82 and, from a radial base, 86 lines."""
    text = _bytes(text)
    answer, room = _lent(_library().feeder_answer_text, text)
    return _checked(answer, room[:answer.value]).decode()


def base_state(text):
    """The base: exactly the normally open switches are open."""
    text = _bytes(text)
    answer, room = _lent(_library().feeder_base_state, text)
    return _by_id(text, _checked(answer, room[:answer.value]))


def solve(text):
    """The search that the text's head asks for."""
    text = _bytes(text)
    answer, room = _lent(_library().feeder_solve, text)
    _checked(answer)
    state = _by_id(text, room)
    return Solution(state, bool(answer.radial), answer.base_loss, answer.best_loss, answer.reduction, answer.iterations, bool(answer.converged))


def operations(text, present, wanted):
    """The switches that stand otherwise in the wanted state, in the text's order, and how they stand there."""
    lines, = _lines_on_states(_library().feeder_operations, text, present, wanted)
    return [Operation(*_operation(line)) for line in lines]


def switch_ids(text):
    """The ids of the text's switches, in its order."""
    return list(base_state(text))


# How records become bytes.

# The kinds behind the head, each with its kind byte, its record, and the codes that `struct` has for the fields.
_KINDS = (('bus', b'\2', Bus, 'Hd'), ('branch', b'\3', Branch, 'HHdB'), ('switch', b'\4', Switch, 'HH??'))
_ROOMS = {'B': 'whole number from 0 to 255', 'H': 'whole number from 0 to 65,535', 'd': 'number', '?': 'truth value, 0 or 1'}


def _packed(kind, position, fields, codes, values):
    packed = b''.join(_field(kind, position, *each) for each in zip(fields, codes, values))
    # the two truth values of a switch are bits 0 and 1 of one byte
    return packed[:-2] + bytes([packed[-2] | packed[-1] << 1]) if kind == 'switch' else packed


def _field(kind, position, field, code, value):
    """The most significant byte first. `struct` takes anything for a truth value, and would turn 2 or 'no' into 1."""
    try:
        if code != '?' or value in (0, 1):
            return struct.pack('>' + code, value)
    except (struct.error, TypeError, OverflowError):
        pass
    raise NoRoom(kind, position, field, value, _ROOMS[code])


# How a call is made.

class _Answer(ctypes.Structure):
    _fields_ = [('number', ctypes.c_uint8), ('place', ctypes.c_uint16), ('value', ctypes.c_uint64)]


class _Solved(ctypes.Structure):
    _fields_ = [('number', ctypes.c_uint8), ('place', ctypes.c_uint16), ('radial', ctypes.c_uint8), ('converged', ctypes.c_uint8),
                ('iterations', ctypes.c_uint16), ('base_loss', ctypes.c_double), ('best_loss', ctypes.c_double), ('reduction', ctypes.c_double)]


# each call with what it answers and what it takes: slices, and a number
_SLICE, _NUMBER = (ctypes.c_char_p, ctypes.c_size_t), (ctypes.c_uint64,)
_CALLS = {'feeder_radiality': (_Answer, 2 * _SLICE), 'feeder_form': (_Answer, 2 * _SLICE), 'feeder_loss': (_Answer, 2 * _SLICE),
          'feeder_plan': (_Answer, 4 * _SLICE), 'feeder_resume': (_Answer, 3 * _SLICE + _NUMBER + 2 * _SLICE),
          'feeder_answer_text': (_Answer, 2 * _SLICE), 'feeder_base_state': (_Answer, 2 * _SLICE), 'feeder_solve': (_Solved, 2 * _SLICE),
          'feeder_operations': (_Answer, 4 * _SLICE), 'feeder_write_text': (_Answer, 2 * _SLICE), 'feeder_repair_text': (_Answer, 2 * _SLICE)}
_loaded = None


def _library():
    global _loaded
    if _loaded is None:
        here = os.path.dirname(os.path.abspath(__file__))
        places = [os.path.join(here, 'liblugwefa.so'), os.path.join(here, '..', 'target', 'python', 'liblugwefa.so')]
        path = os.environ.get('LUGWEFA_LIBRARY') or next(filter(os.path.exists, places), None)
        if path is None:
            raise OSError('liblugwefa.so is not there: python/build makes it, or LUGWEFA_LIBRARY names it')
        library = ctypes.CDLL(path)
        for name, (answer, parameters) in _CALLS.items():
            call = getattr(library, name, None)
            if call is None:
                raise OSError(f'{path} has no {name}: python/build makes it anew')
            call.restype, call.argtypes = answer, parameters
        _loaded = library
    return _loaded


def _bytes(text):
    return text.encode(errors='surrogatepass') if isinstance(text, str) else bytes(iter(text))


def _count(count):
    """A count above every u64 is above every plan's moves: the call refuses the largest u64 too. `ctypes` would drop its upper bits."""
    count = operator.index(count)
    if count < 0:
        raise ValueError(f'the count is {count}, which is no number of moves')
    return min(count, 2 ** 64 - 1)


def _call(call, parameters):
    return call(*(word for each in parameters for word in ((each,) if isinstance(each, int) else (each, len(each)))))


def _lent(call, *parameters, slices=1):
    """The call with slices of its own to write to, doubled while they are too short; what it answers, and the slices."""
    size = 8192
    while True:
        rooms = [ctypes.create_string_buffer(size) for _ in range(slices)]
        answer = _call(call, (*parameters, *rooms))
        if answer.number != 13:
            return answer, *(room.raw for room in rooms)
        size *= 2


def _checked(answer, value=None, whys=()):
    if answer.number:
        raise Refused(answer.number, answer.place, whys[answer.place] if answer.number == 10 and whys else '')
    return value


def _on_states(call, text, state):
    text = _bytes(text)
    state, why = _in_order(text, state)
    answer = _call(call, (text, state))
    return _checked(answer, answer, [why])


def _lines_on_states(call, text, present, wanted, *done):
    """The lines of the call's slices: in the first as many as it answers, in the second, where moves were done, one for each of these."""
    text = _bytes(text)
    (present, why), (wanted, other_why) = _in_order(text, present), _in_order(text, wanted)
    answer, *rooms = _lent(call, text, present, wanted, *done, slices=1 + len(done))
    _checked(answer, None, [why, other_why])
    return [[line.decode() for line in room.split(b'\n')[:count]] for room, count in zip(rooms, (answer.value, *done))]


def _operation(line):
    """An 82 line: the switch, and how it stands then."""
    return int(line[2:6], 16), CLOSED if line[6:8] == '01' else OPEN


def _dropped(line):
    """An 87 line: the number of the stored text's line, and what stood there."""
    return Dropped(int(line[2:6], 16), BRANCH if line[6:8] == '01' else SWITCH)


def _pair(line):
    """An 86 line: two lists of ids, each behind its length."""
    closed, rest = _id_list(line[2:])
    opened, _ = _id_list(rest)
    return Pair(closed, opened)


def _id_list(digits):
    behind = 2 + 4 * int(digits[:2], 16)
    return tuple(int(digits[k:k + 4], 16) for k in range(2, behind, 4)), digits[behind:]


def _ids(text):
    return [int(line[2:6], 16) for line in text.split(b'\n') if line[:2] == b'04']


def _by_id(text, state):
    return {switch: _STANDS[byte] for switch, byte in zip(_ids(text), state)}


def _in_order(text, state):
    """A state's bytes in the text's order, and what is wrong with it by its ids. What is no state gets a byte 2, and the call refuses it."""
    if not isinstance(state, Mapping):
        return bytes(byte if byte in (0, 1) else 2 for byte in state), ''
    base_state(text)
    ids = _ids(text)
    missing = [f'switch {switch} is missing' for switch in ids if switch not in state]
    unknown = [f'{switch!r} is no switch of the text' for switch in state if switch not in ids]
    neither = [f'switch {switch} is {stands!r}' for switch, stands in state.items() if stands not in _STANDS]
    why = '; '.join((missing + unknown + neither)[:3])
    if why:
        return b'\2' * (len(ids) + 1), why
    return bytes(_STANDS.index(state[switch]) for switch in ids), ''
