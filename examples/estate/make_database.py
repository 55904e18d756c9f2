#!/usr/bin/env python3
"""Makes a small estate's database: three feeders from one intake, and three ties between them. usage: make_database.py DATABASE (a new file)"""
import os
import pathlib
import sqlite3
import sys

HEAD = (10, 0, 100, 1)
BUSES = [
    (1, 'intake substation', 0),
    (11, 'gate lodge', 0.05), (12, 'dairy', 0.4), (13, 'cold store', 0.3),
    (21, 'stables', 0.05), (22, 'grain store', 0.35), (23, 'dairy drying tower', 0.9),
    (31, 'manor house', 0.15), (32, 'greenhouses', 0.4), (33, 'saw mill', 0.5),
]
# every cable leads away from the intake, the ties too: as the intake is named, they need not
BRANCHES = [
    (101, 'dairy feeder 1', 1, 11, 0.01, 1), (102, 'dairy feeder 2', 11, 12, 0.01, 1), (103, 'dairy feeder 3', 12, 13, 0.012, 1),
    (201, 'farm feeder 1', 1, 21, 0.04, 1), (202, 'farm feeder 2', 21, 22, 0.05, 1), (203, 'farm feeder 3', 22, 23, 0.04, 1),
    (301, 'park feeder 1', 1, 31, 0.035, 1), (302, 'park feeder 2', 31, 32, 0.05, 1), (303, 'park feeder 3', 32, 33, 0.045, 1),
    (401, 'yard cable', 13, 23, 0.008, 1), (402, 'mill lane cable', 12, 33, 0.02, 1), (403, 'old drive cable', 22, 32, 0.08, 1),
]
# the breakers at the intake are locked
SWITCHES = [
    (1, 'dairy breaker', 101, 0, 0), (2, 'farm breaker', 201, 0, 0), (3, 'park breaker', 301, 0, 0),
    (4, 'tower switch', 203, 0, 1), (5, 'mill switch', 303, 0, 1),
    (6, 'yard tie', 401, 1, 1), (7, 'mill lane tie', 402, 1, 1), (8, 'old drive tie', 403, 1, 1),
]


def make(path):
    connection = sqlite3.connect(path)
    connection.executescript((pathlib.Path(__file__).parent / 'schema.sql').read_text())
    with connection:
        for table, rows in (('head', [HEAD]), ('buses', BUSES), ('branches', BRANCHES), ('switches', SWITCHES)):
            connection.executemany(f'INSERT INTO {table} VALUES (NULL{", ?" * len(rows[0])})', rows)
    connection.close()


def main(path):
    if os.path.exists(path):
        sys.exit(f'make_database.py: {path} is there already')
    try:
        make(path)
    except sqlite3.Error as error:
        sys.exit(f'make_database.py: {path}: {error}')


if __name__ == '__main__':
    if len(sys.argv) != 2:
        sys.exit('usage: make_database.py DATABASE')
    main(sys.argv[1])
