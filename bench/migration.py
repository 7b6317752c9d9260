#!/usr/bin/env python3
"""Files of the first version for bench/migration.sh, and what Python's own sqlite3 takes for the same migration.

migration.py make FILE LEASES    makes FILE with the fourteen tables of the first version: so many leases of ten branches, and the rent runs
                                 of ten months over them
migration.py python FILE         takes FILE to the second version by the same statements, and prints the milliseconds of that transaction
migration.py same FILE FILE      ends with 0 if both have the same tables and rows
"""

import sqlite3
import sys
import time
from contextlib import closing

from runs import FIRST_MONTH, fill, month
from tables import made_tables, opened, texts_of

MONTHS = 10


def charge(conn, k):
    """The run of a month, in which each lease has its due k. The day of a due is that of the lease's start, which is 28 at most."""
    conn.execute("INSERT INTO run SELECT ?, ?, count(*), coalesce(sum(rent), 0), 1 FROM lease", (FIRST_MONTH + k, f"R-{k}"))
    conn.execute("INSERT INTO charge SELECT lease_no, ?, ?, ? || substr(start_day, 8), rent FROM lease", (k, FIRST_MONTH + k, month(k)))
    conn.execute("INSERT INTO part SELECT ?, branch.branch_no, coalesce(max(lease_no), 0), count(lease_no), coalesce(sum(lease.rent), 0) "
                 "FROM branch LEFT JOIN property ON property.branch_no = branch.branch_no "
                 "LEFT JOIN lease ON lease.property_no = property.property_no GROUP BY branch.branch_no", (FIRST_MONTH + k,))


def make(path, leases, months=MONTHS, is_open=False):
    """The file, with the run of the month behind these opened where that is asked for."""
    with closing(made_tables(path, texts_of("FIRST"))) as conn:
        fill(conn, leases)
        conn.execute("BEGIN")
        for k in range(months):
            charge(conn, k)
        if is_open:
            conn.execute("INSERT INTO run VALUES (?, ?, 0, 0, 0)", (FIRST_MONTH + months, f"R-{months}"))
        conn.execute("UPDATE meta SET version = 1, next_month = ?", (FIRST_MONTH + months + is_open,))
        conn.execute("COMMIT")


def migrate(conn):
    """The statements of the program, behind its look at the version, the open run and the rules."""
    parts = conn.execute("SELECT month, branch_no FROM part").fetchall()
    conn.execute("BEGIN")
    for text in texts_of("FIRST_TO_SECOND"):
        conn.execute(text)
    conn.execute("UPDATE meta SET version = ? WHERE id = 1", (2,))
    for part in parts:
        conn.execute("INSERT INTO part_fee VALUES (?, ?, 0, 0)", part)
    conn.execute("COMMIT")


def time_migration(path):
    with closing(opened(path)) as conn:
        start = time.perf_counter()
        migrate(conn)
        print(f"{(time.perf_counter() - start) * 1e3:.1f}")


def held(path):
    """The names of the tables and indexes in their order, and the rows of each table."""
    with closing(sqlite3.connect(path)) as conn:
        schema = conn.execute("SELECT type, name, tbl_name FROM sqlite_schema ORDER BY rowid").fetchall()
        return schema, {name: sorted(conn.execute(f"SELECT * FROM {name}")) for kind, name, _ in schema if kind == "table"}


def main(words):
    match words:
        case ["make", path, leases]:
            make(path, int(leases))
        case ["python", path]:
            time_migration(path)
        case ["same", one, other]:
            if held(one) != held(other):
                sys.exit(f"{one} and {other} have different tables or rows")
        case _:
            sys.exit(__doc__)


if __name__ == "__main__":
    main(sys.argv[1:])
