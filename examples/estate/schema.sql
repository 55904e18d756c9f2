-- An estate's cable plan, as plan.py reads it: the fields of the frames (docs/INTERFACE.md) under their names, and names for people beside the ids.
-- There are no constraints: what is wrong with a feeder is for the library to say. "row" orders a table, and is what plan.py names a row by.
-- A decimal becomes the nearest f64.

CREATE TABLE head (             -- one row
    row INTEGER PRIMARY KEY,
    base_mva DECIMAL,           -- MVA
    method INTEGER,             -- 0 branch exchange, 1 tabu, 2 exhaustive
    max_iterations INTEGER,
    supply INTEGER              -- id of the bus that feeds the estate; NULL, or no such column: losses are counted behind each cable's to_bus
);

CREATE TABLE buses (
    row INTEGER PRIMARY KEY,
    id INTEGER,
    name TEXT,
    pd DECIMAL                  -- load in MW
);

CREATE TABLE branches (         -- cables; where the head names no supply, from_bus must be the end towards it
    row INTEGER PRIMARY KEY,
    id INTEGER,                 -- the cable's own number, for the switches
    name TEXT,
    from_bus INTEGER,           -- ids of buses
    to_bus INTEGER,
    r DECIMAL,                  -- per unit
    status INTEGER              -- 1 in service, 0 out of service
);

-- A frame has a branch's position in its list, which changes with every cable that is taken out. An estate numbers its cables, so a switch has the
-- branch's id here, and plan.py turns it into the position by the order of the rows.
CREATE TABLE switches (
    row INTEGER PRIMARY KEY,
    id INTEGER,
    name TEXT,
    branch INTEGER,             -- id of a branch; at most two switches have the same
    normally_open INTEGER,      -- 1 or 0
    can_operate INTEGER         -- 1; 0: locked
);
