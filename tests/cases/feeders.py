"""The feeders of the generators beside it: records, their text, what is live, joined and on a path, and what live branches are. No program by itself."""

# islands and closing branch of a tree
TREE = 0, None
# Whether the bytes of its switches make a branch in service dead, and ways to get that wrong.
IS_DEAD = {'': lambda bytes_: '1' in bytes_, 'any closed switch makes a branch live': lambda bytes_: '0' not in bytes_,
           'the last switch decides': lambda bytes_: bytes_[-1] == '1', 'the first switch decides': lambda bytes_: bytes_[0] == '1'}


class Feeder:
    """Ids of buses; branches (from, to, status); switches (id, branch position, flags); the id of the supply bus, where there is one."""

    def __init__(self, buses, branches, switches, resistances=None, loads=None, method=0, supply=None):
        self.buses, self.branches, self.switches, self.method, self.supply = buses, branches, switches, method, supply
        self.resistances = resistances or [0x3FF0000000000000] * len(branches)
        self.loads = loads or [0] * len(buses)

    def text(self):
        lines = ['01%04X%04X%04X3FF0000000000000%02X0064' % (len(self.buses), len(self.branches), len(self.switches), self.method)]
        lines += ['02%04X%016X' % bus for bus in zip(self.buses, self.loads)]
        lines += ['03%04X%04X%016X%02X' % (a, b, r, status) for (a, b, status), r in zip(self.branches, self.resistances)]
        lines += ['04%04X%04X%02X' % switch for switch in self.switches]
        lines += ['05%04X' % self.supply] if self.supply is not None else []
        return ''.join(line + '\n' for line in lines).encode()

    def live(self, state, wrong=''):
        """In service and no open switch on it; a name of IS_DEAD makes it wrong."""
        bytes_on = {}
        for (_, k, _), byte in zip(self.switches, state):
            bytes_on.setdefault(k, []).append(byte)
        dead = {k for k, bytes_ in bytes_on.items() if IS_DEAD.get(wrong, IS_DEAD[''])(bytes_)}
        return {k for k, (_, _, status) in enumerate(self.branches) if status == 1 and k not in dead}

    def on(self, k):
        """Where the switches on a branch stand in the list."""
        return [i for i, (_, on, _) in enumerate(self.switches) if on == k]

    def open_on(self, state, k):
        """The ids of the switches on a branch that are open, in list order."""
        return [self.switches[i][0] for i in self.on(k) if state[i] == '1']

    def is_radial(self, live):
        return not self.buses or self.joined(live) == live and len(live) == len(self.buses) - 1

    def labels(self, order):
        """For each bus a label that it shares with the buses joined to it, and those of these branches whose ends the ones before have
        not joined yet."""
        label, same, taken = {bus: bus for bus in self.buses}, {bus: [bus] for bus in self.buses}, set()
        for k in order:
            a, b = (label[end] for end in self.branches[k][:2])
            if a != b:
                label.update((bus, a) for bus in same[b])
                same[a] += same.pop(b)
                taken.add(k)
        return label, taken

    def joined(self, order):
        return self.labels(order)[1]

    def beside(self, live):
        """For each bus the others that these branches lead to, and by which."""
        beside = {bus: [] for bus in self.buses}
        for k in live:
            a, b = self.branches[k][:2]
            beside[a].append((b, k))
            beside[b].append((a, k))
        return beside

    def path(self, live, start, end):
        """The branches of the chain with no bus twice, found by trying every one."""
        beside, chains = self.beside(live), [(start, (start,), ())]
        for bus, seen, way in chains:
            if bus == end:
                return way
            chains += [(other, seen + (other,), way + (k,)) for other, k in beside[bus] if other not in seen]

    def form_by_labels(self, live):
        label, taken = self.labels(sorted(live))
        return max(0, len(set(label.values())) - 1), min(live - taken, default=None)

    def reached(self, live, start):
        """The buses that these branches join with this one."""
        beside, reached, left = self.beside(live), {start}, [start]
        while left:
            others = {other for other, _ in beside[left.pop()]} - reached
            reached |= others
            left += others
        return reached

    def form_by_search(self, live):
        """A branch closes a loop where one of its ends is reached from the other by the live ones before it."""
        closing = (k for k in sorted(live) if self.branches[k][1] in self.reached({j for j in live if j < k}, self.branches[k][0]))
        left, pieces = set(self.buses), 0
        while left:
            left -= self.reached(live, min(left))
            pieces += 1
        return max(0, pieces - 1), next(closing, None)

    def form(self, live):
        """Document 02's answer: the islands, and the first branch that closes a loop, None where no branch does. Document 01's count of branches has to agree."""
        form = self.form_by_labels(live)
        assert form == self.form_by_search(live), 'labels and searches differ'
        assert (form == TREE) == (form[0] == 0 and len(live) == max(0, len(self.buses) - 1)), 'documents 01 and 02 differ'
        return form
