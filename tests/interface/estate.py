"""examples/estate: what plan.py prints and writes, and its exit status, on the database that make_database.py makes and on damaged ones.
usage: estate.py EXAMPLE FOLDER   (the example's folder; a folder for the databases)"""

import io
import os
import shutil
import sqlite3
import subprocess
import sys
from contextlib import redirect_stderr, redirect_stdout

PLAN = """\
0.0280 MW are lost as the switches normally stand, 0.0150 MW after the plan: 46.4 percent less
1. close switch 6 'yard tie' on cable 401 'yard cable',
   then open switch 4 'tower switch' on cable 203 'farm feeder 3'
2. close switch 7 'mill lane tie' on cable 402 'mill lane cable',
   then open switch 5 'mill switch' on cable 303 'park feeder 3'
Every bus stays connected all the way, and after each step there is no loop: a run may stop there.
"""
# The same where no supply is named and every cable but the ties is drawn towards the intake: each then counts the load on the intake's side. The sums are by hand.
MISLED = """\
0.1395 MW are lost as the switches normally stand, 0.1256 MW after the plan: 9.9 percent less
1. close switch 7 'mill lane tie' on cable 402 'mill lane cable',
   then open switch 5 'mill switch' on cable 303 'park feeder 3'
Every bus stays connected all the way, and after each step there is no loop: a run may stop there.
"""
# The same with both ends of the yard cable open: the drying tower, 0.9 MW, stays where it is. The sums are by hand.
WITHOUT_YARD = """\
0.0280 MW are lost as the switches normally stand, 0.0233 MW after the plan: 16.9 percent less
1. close switch 7 'mill lane tie' on cable 402 'mill lane cable',
   then open switch 5 'mill switch' on cable 303 'park feeder 3'
Every bus stays connected all the way, and after each step there is no loop: a run may stop there.
"""
# A pair that closes two switches and opens two.
FOUR_MOVES = """\
close switch 6 'yard tie',
   close switch 9 'yard isolator',
   then open switch 4 'tower switch',
   open switch 10 'tower isolator'"""
# the database's text, by hand from docs/INTERFACE.md
TEXT = """\
01000A000C00084024000000000000000064
0200010000000000000000
02000B3FA999999999999A
02000C3FD999999999999A
02000D3FD3333333333333
0200153FA999999999999A
0200163FD6666666666666
0200173FECCCCCCCCCCCCD
02001F3FC3333333333333
0200203FD999999999999A
0200213FE0000000000000
030001000B3F847AE147AE147B01
03000B000C3F847AE147AE147B01
03000C000D3F889374BC6A7EFA01
03000100153FA47AE147AE147B01
03001500163FA999999999999A01
03001600173FA47AE147AE147B01
030001001F3FA1EB851EB851EC01
03001F00203FA999999999999A01
03002000213FA70A3D70A3D70A01
03000D00173F80624DD2F1A9FC01
03000C00213F947AE147AE147B01
03001600203FB47AE147AE147B01
040001000000
040002000300
040003000600
040004000502
040005000802
040006000903
040007000A03
040008000B03
050001
"""
HEAD = "head, row 1 (base_mva {}, method {}, max_iterations {}, supply 1)"
SUPPLY = "head, row 1 (base_mva 10, method 0, max_iterations 100, supply {})"
NOT_RADIAL = ': as the switches normally stand, a bus is not connected or there is a loop, and a supply is named (refusal 15 at line {})'
NO_PLAN = 'as the switches normally stand, a bus is not connected or there is a loop (refusal 11): no plan leads from there'
NO_SUPPLY = "UPDATE head SET supply = NULL; "
# every cable but the ties, drawn towards the intake
TURNED = "UPDATE branches SET from_bus = to_bus, to_bus = from_bus WHERE id < 400; "
LODGE = "buses, row 2 (id {}, name 'gate lodge', pd {})"
TOWER = "buses, row 7 (id {}, name 'dairy drying tower', pd {})"
FARM = "branches, row 5 (id {}, name 'farm feeder 2', from_bus {}, to_bus {}, r {}, status {})"
MILL = "switches, row 5 (id {}, name 'mill switch', branch {}, normally_open {}, can_operate {})"
OLD_DRIVE = "switches, row 8 (id 8, name 'old drive tie', branch {}, normally_open 1, can_operate 1)"
WHOLE = 'which is no whole number from 0 to 65,535'
OTHERS = 'WITH RECURSIVE k(n) AS (SELECT 1000 UNION ALL SELECT n + 1 FROM k WHERE n < {}) INSERT INTO '

# What is done to the good database, and what is then printed behind 'refused: '.
REFUSED = [
    # the library's refusals, in each table
    ("UPDATE branches SET to_bus = 99 WHERE id = 202", FARM.format(202, 21, 99, 0.05, 1) + ': from_bus or to_bus is the id of no bus (refusal 6 at line 16)'),
    ("UPDATE buses SET id = 11 WHERE id = 23", TOWER.format(11, 0.9) + ': a row before it has the same id (refusal 7 at line 8)'),
    ("UPDATE buses SET pd = 1000000.5 WHERE id = 23", TOWER.format(23, 1000000.5) + ': pd is not from -1,000,000 to 1,000,000 (refusal 5 at line 8)'),
    ("UPDATE buses SET pd = 9e999 WHERE id = 23", TOWER.format(23, 'inf') + ': pd is not from -1,000,000 to 1,000,000 (refusal 5 at line 8)'),
    ("UPDATE switches SET branch = 999 WHERE id = 5", MILL.format(5, 999, 0, 1) + ': branch is the id of no branch (refusal 6 at line 28)'),
    ("UPDATE switches SET id = 4 WHERE id = 5", MILL.format(4, 303, 0, 1) + ': a row before it has the same id (refusal 7 at line 28)'),
    ("UPDATE switches SET branch = 203 WHERE id IN (3, 5)", MILL.format(5, 203, 0, 1) + ': two rows before it are on the same branch (refusal 8 at line 28)'),
    ("UPDATE branches SET status = 2 WHERE id = 202", FARM.format(202, 21, 22, 0.05, 2) + ': status is neither 0 nor 1 (refusal 3 at line 16)'),
    ("UPDATE branches SET to_bus = 21 WHERE id = 202", FARM.format(202, 21, 21, 0.05, 1) + ': from_bus and to_bus are the same bus (refusal 17 at line 16)'),
    ("UPDATE branches SET to_bus = 21, status = 0 WHERE id = 202; UPDATE head SET supply = 99", FARM.format(202, 21, 21, 0.05, 0)
     + ': from_bus and to_bus are the same bus (refusal 17 at line 16)'),
    ("UPDATE branches SET from_bus = 99, to_bus = 99 WHERE id = 202", FARM.format(202, 99, 99, 0.05, 1) + ': from_bus or to_bus is the id of no bus (refusal 6 at line 16)'),
    ("UPDATE branches SET r = -0.05 WHERE id = 202", FARM.format(202, 21, 22, -0.05, 1) + ': r is not from 0 to 1,000 (refusal 5 at line 16)'),
    ("UPDATE head SET method = 3", HEAD.format(10, 3, 100) + ': method is none of 0, 1 and 2, or max_iterations is over 1,000 (refusal 3 at line 1)'),
    ("UPDATE head SET base_mva = 0", HEAD.format(0, 0, 100) + ': base_mva is not from 0.001 to 1,000,000 (refusal 5 at line 1)'),
    (OTHERS.format(1246) + "buses SELECT NULL, n, 'shed', 0 FROM k",
     HEAD.format(10, 0, 100) + ': there are more than 256 buses, 512 branches or 512 switches (refusal 4 at line 1)'),
    ("UPDATE head SET method = 2; UPDATE switches SET normally_open = 1; " + OTHERS.format(1003) + "branches SELECT NULL, n, 'spare', 1, 11, 1, 0 FROM k; "
     + OTHERS.format(1002) + "switches SELECT NULL, n, 'spare', n, 1, 0 FROM k",
     "switches, row 11 (id 1002, name 'spare', branch 1002, normally_open 1, can_operate 0): it is the eleventh normally open switch, and method 2 takes ten "
     '(refusal 9 at line 38)'),
    # an empty table
    ("DELETE FROM buses", "branches, row 1 (id 101, name 'dairy feeder 1', from_bus 1, to_bus 11, r 0.01, status 1): from_bus or to_bus is the id of no bus (refusal 6 at line 2)"),
    ("DELETE FROM branches", "switches, row 1 (id 1, name 'dairy breaker', branch 101, normally_open 0, can_operate 0): branch is the id of no branch (refusal 6 at line 12)"),
    ("DELETE FROM switches", SUPPLY.format(1) + NOT_RADIAL.format(24)),
    (NO_SUPPLY + "DELETE FROM switches", NO_PLAN),
    ("DELETE FROM head", 'head: 0 rows, and one is wanted'),
    ("INSERT INTO head VALUES (NULL, 10, 0, 100, 1)", 'head: 2 rows, and one is wanted'),
    # a line is the row's place in the order of its table, not the number by which it is named
    ("DELETE FROM buses WHERE id = 12; DELETE FROM branches WHERE 12 IN (from_bus, to_bus); DELETE FROM switches WHERE branch = 402; UPDATE buses SET pd = 2e6 WHERE id = 23",
     TOWER.format(23, 2000000) + ': pd is not from -1,000,000 to 1,000,000 (refusal 5 at line 7)'),
    # what cannot be handed over
    ("UPDATE buses SET pd = NULL WHERE id = 23", TOWER.format(23, 'NULL') + ': pd is NULL, which is no number'),
    ("UPDATE buses SET pd = 'about 1' WHERE id = 23", TOWER.format(23, "'about 1'") + ": pd is 'about 1', which is no number"),
    ("UPDATE buses SET pd = '0,9' WHERE id = 23", TOWER.format(23, "'0,9'") + ": pd is '0,9', which is no number"),
    ("UPDATE buses SET id = NULL WHERE id = 23", TOWER.format('NULL', 0.9) + f': id is NULL, {WHOLE}'),
    ("UPDATE buses SET id = 65536 WHERE id = 23", TOWER.format(65536, 0.9) + f': id is 65536, {WHOLE}'),
    ("UPDATE buses SET id = -1 WHERE id = 11", LODGE.format(-1, 0.05) + f': id is -1, {WHOLE}'),
    ("UPDATE branches SET from_bus = 'stables' WHERE id = 202", FARM.format(202, "'stables'", 22, 0.05, 1) + f": from_bus is 'stables', {WHOLE}"),
    ("UPDATE branches SET r = NULL WHERE id = 202", FARM.format(202, 21, 22, 'NULL', 1) + ': r is NULL, which is no number'),
    ("UPDATE branches SET status = 'in service' WHERE id = 202",
     FARM.format(202, 21, 22, 0.05, "'in service'") + ": status is 'in service', which is no whole number from 0 to 255"),
    ("UPDATE switches SET id = 70000 WHERE id = 5", MILL.format(70000, 303, 0, 1) + f': id is 70000, {WHOLE}'),
    ("UPDATE branches SET id = NULL WHERE id = 202", FARM.format('NULL', 21, 22, 0.05, 1) + ': id is NULL, which is no whole number'),
    ("UPDATE branches SET id = 'C5' WHERE id = 202", FARM.format("'C5'", 21, 22, 0.05, 1) + ": id is 'C5', which is no whole number"),
    ("UPDATE switches SET branch = NULL WHERE id = 5", MILL.format(5, 'NULL', 0, 1) + ': branch is NULL, which is no whole number'),
    ("UPDATE switches SET branch = 'mill' WHERE id = 5", MILL.format(5, "'mill'", 0, 1) + ": branch is 'mill', which is no whole number"),
    ("UPDATE switches SET normally_open = 2 WHERE id = 5", MILL.format(5, 303, 2, 1) + ': normally_open is 2, which is no truth value, 0 or 1'),
    ("UPDATE switches SET can_operate = 'yes' WHERE id = 5", MILL.format(5, 303, 0, "'yes'") + ": can_operate is 'yes', which is no truth value, 0 or 1"),
    ("UPDATE head SET max_iterations = NULL", HEAD.format(10, 0, 'NULL') + f': max_iterations is NULL, {WHOLE}'),
    ("UPDATE branches SET id = 403 WHERE id = 202", OLD_DRIVE.format(403) + ': 2 branches have the id 403'),
    # a view without numbers for its rows
    ("ALTER TABLE buses RENAME TO loads; CREATE VIEW buses AS SELECT NULL AS row, id, name, NULL AS pd FROM loads WHERE id = 23",
     "buses, row NULL (id 23, name 'dairy drying tower', pd NULL): pd is NULL, which is no number"),
    (OTHERS.format(66600) + "switches SELECT NULL, n, 'spare', n, 1, 0 FROM k", 'switches: 65609 rows are too many'),
    # not radial: with a supply refused by the library, without one accepted, but not planned
    ("UPDATE switches SET normally_open = 1 WHERE id = 4", SUPPLY.format(1) + NOT_RADIAL.format(32)),
    (NO_SUPPLY + "UPDATE switches SET normally_open = 1 WHERE id = 4", NO_PLAN),
    # the supply
    ("UPDATE head SET supply = 99", SUPPLY.format(99) + ': supply is the id of no bus (refusal 14 at line 32)'),
    ("UPDATE head SET supply = 0; UPDATE switches SET normally_open = 1 WHERE id = 4", SUPPLY.format(0) + ': supply is the id of no bus (refusal 14 at line 32)'),
    ("DELETE FROM buses; DELETE FROM branches; DELETE FROM switches", SUPPLY.format(1) + ': supply is the id of no bus (refusal 14 at line 2)'),
    ("UPDATE head SET supply = 99; UPDATE buses SET id = 11 WHERE id = 23", TOWER.format(11, 0.9) + ': a row before it has the same id (refusal 7 at line 8)'),
    ("UPDATE head SET supply = 70000", SUPPLY.format(70000) + f': supply is 70000, {WHOLE}'),
    ("UPDATE head SET supply = -1", SUPPLY.format(-1) + f': supply is -1, {WHOLE}'),
    ("UPDATE head SET supply = 'intake'", SUPPLY.format("'intake'") + f": supply is 'intake', {WHOLE}"),
]

# What is done to the good database, and what is then planned.
PLANNED = [
    ("SELECT 1", PLAN),
    ("UPDATE head SET method = 1", '0.0280 MW are lost as the switches normally stand, 0.0280 MW after the plan: 0.0 percent less\nNo switch has to move.\n'),
    ("UPDATE buses SET name = NULL, id = 65535 WHERE id = 31; UPDATE branches SET to_bus = 65535 WHERE id = 301; UPDATE branches SET from_bus = 65535 WHERE id = 302", PLAN),
    ("UPDATE buses SET pd = '0.9' WHERE id = 23; UPDATE switches SET branch = '303' WHERE id = 5", PLAN),
    ("UPDATE branches SET id = 100000 WHERE id = 403; UPDATE switches SET branch = 100000 WHERE branch = 403", PLAN),
    # every cable is drawn away from the intake: without a supply all is the same, be the column empty or missing
    (NO_SUPPLY, PLAN),
    ("ALTER TABLE head RENAME TO old; CREATE VIEW head AS SELECT row, base_mva, method, max_iterations FROM old", PLAN),
    # with it they may be drawn either way; without it the cables that are drawn towards the intake mislead
    (TURNED, PLAN),
    (NO_SUPPLY + TURNED, MISLED),
    # a switch at each end: the second one of a cable stays closed
    ("INSERT INTO switches VALUES (NULL, 9, 'yard isolator', 401, 0, 1), (NULL, 10, 'tower isolator', 203, 0, 1)", PLAN),
    # a tie at each end is not closed by the search: the plan does without the yard cable
    ("INSERT INTO switches VALUES (NULL, 9, 'yard isolator', 401, 1, 1)", WITHOUT_YARD),
    (NO_SUPPLY + "DELETE FROM buses; DELETE FROM branches; DELETE FROM switches",
     '0.0000 MW are lost as the switches normally stand, 0.0000 MW after the plan: 0.0 percent less\nNo switch has to move.\n'),
]

example, folder = sys.argv[1:]
sys.path.insert(0, example)
import plan

good, other, kept = (os.path.join(folder, name) for name in ('estate.db', 'damaged.db', 'estate.txt'))
checks = wrong = 0


def ask(words):
    """What plan.py prints on standard output, on standard error, and the status with which it ends."""
    with redirect_stdout(io.StringIO()) as printed, redirect_stderr(io.StringIO()) as said:
        status = plan.main(['plan.py', *words])
    return printed.getvalue(), said.getvalue(), status


def run(*words, program='plan.py', **variables):
    """The same of a program by itself."""
    program = [sys.executable, '-B', os.path.join(example, program), *words]
    ended = subprocess.run(program, capture_output=True, text=True, env={**os.environ, **variables})
    return ended.stdout, ended.stderr, ended.returncode


def expect(value, right, what):
    global checks, wrong
    checks += 1
    if value != right:
        wrong += 1
        print(f'interface: estate: wrong: {what}:\n{value!r} for\n{right!r}')


def damaged(damage):
    shutil.copyfile(good, other)
    connection = sqlite3.connect(other)
    connection.executescript(damage)
    connection.close()
    return [other]


def content(path):
    with open(path, 'rb') as file:
        return file.read()


def made():
    """make_database.py makes a new file, and nothing else."""
    nowhere = os.path.join(folder, 'nowhere', 'estate.db')
    expect(run(good, program='make_database.py'), ('', '', 0), 'a database is made')
    expect(run(good, program='make_database.py'), ('', f'make_database.py: {good} is there already\n', 1), 'a database that is there')
    expect(run(nowhere, program='make_database.py'), ('', f'make_database.py: {nowhere}: unable to open database file\n', 1), 'a folder that is not there')


def texts():
    """The text in a file of its own."""
    before = content(good)
    expect(run(good, kept), (PLAN, '', 0), 'the program, with a file for the text')
    expect(content(kept), TEXT.encode(), 'the text')
    # a text is written where no plan leads from the base, and none where there is no text
    for damage in (NO_SUPPLY + 'UPDATE switches SET normally_open = 1 WHERE id = 4', 'DELETE FROM head', 'UPDATE head SET supply = 99'):
        expect(ask([*damaged(damage), kept])[2], 1, damage)
        expect(content(kept), TEXT.replace('040004000502', '040004000503').replace('050001\n', '').encode(), f'the text: {damage}')
    expect(ask([good, good]), ('', f'plan.py: {good} is the database\n', 2), 'the database is not overwritten')
    expect(content(good), before, 'the database is not overwritten')
    expect(ask([good, folder]), ('', f"plan.py: [Errno 21] Is a directory: '{folder}'\n", 2), 'a file that cannot be written')


def edited_meanwhile():
    """Behind each table that is read the switches are deleted: what is read is from before."""
    editor = sqlite3.connect(*damaged('PRAGMA journal_mode = WAL'), isolation_level=None)

    class Columns(dict):
        def items(self):
            for item in super().items():
                yield item
                editor.execute('DELETE FROM switches')

    columns, plan.COLUMNS = plan.COLUMNS, Columns(plan.COLUMNS)
    expect(ask([other]), (PLAN, '', 0), 'a database that is edited meanwhile')
    plan.COLUMNS = columns
    expect(editor.execute('SELECT count(*) FROM switches').fetchone(), (0,), 'the edit')
    editor.close()


for path in (good, kept):
    if os.path.exists(path):
        os.remove(path)
made()
for damage, printed in PLANNED:
    expect(ask(damaged(damage)), (printed, '', 0), damage)
for damage, printed in REFUSED:
    expect(ask(damaged(damage)), (f'refused: {printed}\n', '', 1), damage)
missing = os.path.join(folder, 'missing.db')
expect(ask([missing]), ('', f'plan.py: {missing}: unable to open database file\n', 2), 'no database')
expect(os.path.exists(missing), False, 'no database is made')
expect(ask(damaged('DROP TABLE buses')), ('', f'plan.py: {other}: no such table: buses\n', 2), 'a missing table')
expect(ask(damaged('ALTER TABLE buses RENAME pd TO load')), ('', f'plan.py: {other}: no such column: pd\n', 2), 'a missing column')
expect(run(good), (PLAN, '', 0), 'the program, planned')
expect(run(*damaged('DELETE FROM head')), ('refused: head: 0 rows, and one is wanted\n', '', 1), 'the program, refused')
expect(run(), ('', 'usage: plan.py DATABASE [TEXT]\n', 2), 'the program, no database named')
expect(run(good, LUGWEFA_LIBRARY='/no/library')[::2], ('', 2), 'the program, no library')
expect(run(good, LUGWEFA_LIBRARY='libc.so.6'), ('', 'plan.py: libc.so.6 has no feeder_radiality: python/build makes it anew\n', 2), 'the program, another library')
expect(run(*damaged("UPDATE branches SET name = 'hölzern' WHERE id = 401"), PYTHONIOENCODING='ascii'), (PLAN.replace('yard cable', 'h\\xf6lzern'), '', 0),
       'a name with a letter that the output has not')
texts()
edited_meanwhile()
named = {6: "switch 6 'yard tie'", 9: "switch 9 'yard isolator'", 4: "switch 4 'tower switch'", 10: "switch 10 'tower isolator'"}
expect(plan.in_order(plan.lugwefa.Pair((6, 9), (4, 10)), named), FOUR_MOVES, 'a pair of four moves')
with open(os.path.join(example, 'README.md'), encoding='utf-8') as paper:
    expect(''.join(f'    {line}\n' for line in PLAN.splitlines()) in paper.read(), True, 'the plan as README has it')
print(f'interface: estate: {checks} checks, {wrong} wrong ({len(PLANNED)} databases planned, {len(REFUSED)} refused)')
sys.exit(wrong > 0)
