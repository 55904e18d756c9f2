"""A feeder of three buses: what its search finds, in which order the switches move to it, what is left to do after a power cut, why another state has no plan, and the repair of a
stored text with a branch from a bus to itself. Before it: python/build."""
import lugwefa

FEEDER = '''\
010003000300023FF0000000000000000064
0200010000000000000000
0200023FF0000000000000
0200034000000000000000
03000100023FD000000000000001
03000200033FDC00000000000001
03000100033FC800000000000001
04000A000102
04000B000203
'''

base = lugwefa.base_state(FEEDER)
found = lugwefa.solve(FEEDER)
print(f'base {base}: {lugwefa.loss(FEEDER, base)} MW lost; best {found.state}: {found.best_loss} MW, {found.reduction} percent less')
for pair in lugwefa.plan(FEEDER, base, found.state):
    closed, opened = (', '.join(map(str, switches)) for switches in pair)
    print(f'close switch {closed}, then open switch {opened}')
cut = lugwefa.resume(FEEDER, base, found.state, 1)
print('power lost after one move: to finish,', ', '.join(f'{switch} {stands}' for switch, stands in cut.remaining), end='; ')
print('to go back,', ', '.join(f'{switch} {stands}' for switch, stands in cut.back))
for stands in (lugwefa.OPEN, lugwefa.CLOSED):
    wanted = {10: stands, 11: stands}
    try:
        lugwefa.plan(FEEDER, base, wanted)
    except lugwefa.Refused as refusal:
        print(f'both {stands}: {refusal}; {lugwefa.form(FEEDER, wanted)}')

STORED = '''\
010003000400033FF0000000000000000064
0200010000000000000000
0200023FF0000000000000
0200034000000000000000
03000100023FD000000000000001
03000200023FD000000000000001
03000200033FDC00000000000001
03000100033FC800000000000001
04000A000202
04000C000102
04000B000303
'''

try:
    lugwefa.solve(STORED)
except lugwefa.Refused as refusal:
    repaired = lugwefa.repair_text(STORED)
    lines = ', '.join(f'line {line} ({reason})' for line, reason in repaired.dropped)
    print(f'a stored text: {refusal}; repaired without {lines} it is the feeder above: {repaired.text == FEEDER}')
