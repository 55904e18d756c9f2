#!/usr/bin/env python3
"""The switching plan of an estate's feeder, out of the tables of schema.sql. usage: plan.py DATABASE [TEXT]   (TEXT: a file for the text, which feeder reads)
The text is made and answered by the library. Judged here are: that a value has room in its field, that there is one head, that a cable's number is whole and means
one cable, and which row a line is. Exit status: 0 planned, 1 refused, 2 could not run."""
import pathlib
import sqlite3
import sys
from contextlib import closing

sys.path.insert(0, str(pathlib.Path(__file__).resolve().parents[2] / 'python'))
import lugwefa

# The tables in the order of a text's lines, each with its columns.
COLUMNS = {
    'head': ('row', 'base_mva', 'method', 'max_iterations'),
    'buses': ('row', 'id', 'name', 'pd'),
    'branches': ('row', 'id', 'name', 'from_bus', 'to_bus', 'r', 'status'),
    'switches': ('row', 'id', 'name', 'branch', 'normally_open', 'can_operate'),
}
# A column of the head that may be missing.
SUPPLY = 'supply'
TABLE_OF = {'head': 'head', 'bus': 'buses', 'branch': 'branches', 'switch': 'switches', 'supply': 'head'}

# What a refusal of a table's row means.
MEANINGS = {
    ('head', 3): 'method is none of 0, 1 and 2, or max_iterations is over 1,000',
    ('head', 4): 'there are more than 256 buses, 512 branches or 512 switches',
    ('head', 5): 'base_mva is not from 0.001 to 1,000,000',
    ('buses', 5): 'pd is not from -1,000,000 to 1,000,000',
    ('buses', 7): 'a row before it has the same id',
    ('branches', 3): 'status is neither 0 nor 1',
    ('branches', 5): 'r is not from 0 to 1,000',
    ('branches', 6): 'from_bus or to_bus is the id of no bus',
    ('branches', 17): 'from_bus and to_bus are the same bus',
    ('switches', 6): 'branch is the id of no branch',
    ('switches', 7): 'a row before it has the same id',
    ('switches', 8): 'two rows before it are on the same branch',
    ('switches', 9): 'it is the eleventh normally open switch, and method 2 takes ten',
    (SUPPLY, 14): 'supply is the id of no bus',
    (SUPPLY, 15): 'as the switches normally stand, a bus is not connected or there is a loop, and a supply is named',
}


class Fault(Exception):
    """What is wrong with the tables, in words."""


def read_tables(path):
    """Each table's rows, in their order. The database is only read, in one transaction: an edit meanwhile does not make a text of two plans."""
    with closing(sqlite3.connect(pathlib.Path(path).resolve().as_uri() + '?mode=ro', uri=True, isolation_level=None)) as connection:
        connection.row_factory = sqlite3.Row
        connection.execute('BEGIN')
        return {table: connection.execute(f'SELECT {", ".join((*columns, *optional(connection, table)))} FROM {table} ORDER BY row').fetchall()
                for table, columns in COLUMNS.items()}


def optional(connection, table):
    """The columns that a table has beside those that it must have."""
    there = [column['name'] for column in connection.execute(f'PRAGMA table_info({table})')]
    return [SUPPLY] if table == 'head' and SUPPLY in there else []


def shown(value):
    return 'NULL' if value is None else repr(value)


def in_words(table, row):
    return f'{table}, row {shown(row["row"])} ({", ".join(f"{column} {shown(row[column])}" for column in row.keys()[1:])})'


def record_of(record, row):
    return record(*(row[field] for field in record._fields))


def cable_number(table, row, column):
    """Any whole number: it is not in the text."""
    if not isinstance(row[column], int):
        raise Fault(f'{in_words(table, row)}: {column} is {shown(row[column])}, which is no whole number')
    return row[column]


def positions_of(branches):
    """Where the branches stand in their list, by their ids."""
    positions = {}
    for position, row in enumerate(branches):
        positions.setdefault(cable_number('branches', row, 'id'), []).append(position)
    return positions


def switch_of(row, positions, behind):
    """The switch with its branch's position. For an id that no branch has it is the one behind the last, which the library refuses."""
    number = cable_number('switches', row, 'branch')
    found = positions.get(number, [behind])
    if len(found) > 1:
        raise Fault(f'{in_words("switches", row)}: {len(found)} branches have the id {number}')
    return record_of(lugwefa.Switch, row)._replace(branch=found[0])


def records_of(tables):
    """The records in bytes."""
    head, buses, branches, switches = tables.values()
    if len(head) != 1:
        raise Fault(f'head: {len(head)} rows, and one is wanted')
    positions = positions_of(branches)
    supply = head[0][SUPPLY] if SUPPLY in head[0].keys() else None
    return lugwefa.records(record_of(lugwefa.Head, head[0]), [record_of(lugwefa.Bus, row) for row in buses],
                           [record_of(lugwefa.Branch, row) for row in branches], [switch_of(row, positions, len(branches)) for row in switches], supply)


def rows_of(tables):
    """The rows in the order of the text's lines, each with its table, in words; behind them the head again, for the supply's line."""
    rows = [(table, in_words(table, row)) for table, rows in tables.items() for row in rows]
    return rows + [(SUPPLY, rows[0][1])]


def text_of(tables):
    """The text that the library makes, or the table and row that are wrong."""
    try:
        return lugwefa.write_text(records_of(tables))
    except lugwefa.NoRoom as error:
        if error.field in tables:
            raise Fault(f'{error.field}: {error.value} rows are too many')
        table, column = TABLE_OF[error.kind], SUPPLY if error.kind == 'supply' else error.field
        raise Fault(f'{in_words(table, tables[table][error.position])}: {column} is {shown(error.value)}, which is no {error.room}')
    except lugwefa.Refused as refused:
        table, words = rows_of(tables)[refused.place - 1]
        meaning = MEANINGS.get((table, refused.number), lugwefa.CONDITIONS[refused.number])
        raise Fault(f'{words}: {meaning} (refusal {refused.number} at line {refused.place})')


def pairs_of(text, found):
    """The plan from how the switches normally stand to what the search found. Only the first of these can be at fault."""
    try:
        return lugwefa.plan(text, lugwefa.base_state(text), found.state)
    except lugwefa.Refused as refused:
        raise Fault(f'as the switches normally stand, a bus is not connected or there is a loop (refusal {refused.number}): no plan leads from there')


def keep_text(text, path, database):
    if path.exists() and path.samefile(database):
        raise OSError(f'{path} is the database')
    path.write_bytes(text.encode())


def in_order(pair, switches):
    """What is done with the switches of a pair, one behind the other; by their names."""
    closings = [f'close {switches[switch]},' for switch in pair.close]
    openings = [f'open {switches[switch]}' for switch in pair.open]
    return '\n   '.join([*closings, 'then ' + ',\n   '.join(openings)])


def print_plan(tables, text):
    found = lugwefa.solve(text)
    pairs = pairs_of(text, found)
    cables = {row['id']: f'cable {row["id"]} {shown(row["name"])}' for row in tables['branches']}
    switches = {row['id']: f'switch {row["id"]} {shown(row["name"])} on {cables[row["branch"]]}' for row in tables['switches']}
    print(f'{found.base_loss:.4f} MW are lost as the switches normally stand, {found.best_loss:.4f} MW after the plan: {found.reduction:.1f} percent less')
    for number, pair in enumerate(pairs, 1):
        print(f'{number}. {in_order(pair, switches)}')
    print('Every bus stays connected all the way, and after each step there is no loop: a run may stop there.' if pairs else 'No switch has to move.')


def main(words):
    if len(words) not in (2, 3):
        print('usage: plan.py DATABASE [TEXT]', file=sys.stderr)
        return 2
    try:
        tables = read_tables(words[1])
        text = text_of(tables)
        if len(words) == 3:
            keep_text(text, pathlib.Path(words[2]), words[1])
        print_plan(tables, text)
        return 0
    except Fault as fault:
        print(f'refused: {fault}')
        return 1
    except sqlite3.Error as error:
        print(f'plan.py: {words[1]}: {error}', file=sys.stderr)
        return 2
    except OSError as error:
        print(f'plan.py: {error}', file=sys.stderr)
        return 2


if __name__ == '__main__':
    # a name may have a letter that the output has not
    sys.stdout.reconfigure(errors='backslashreplace')
    sys.exit(main(sys.argv))
