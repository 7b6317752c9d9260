#!/usr/bin/env python3
"""Files for bench/sqlite_alone.sh, and what Python's own sqlite3 takes for the same calls.

sqlite_alone.py make FILE LEASES      makes FILE of the second version with so many leases of ten branches, and the charges of ten months
sqlite_alone.py bare FILE             takes the indexes for look-ups out of it
sqlite_alone.py python FILE [LEASES]  prints a row for each part: a name and the milliseconds; the opening alone where LEASES is left out
sqlite_alone.py least FILE..          prints the least figure that these files have for each name, in the order of the first
"""

import sys
import time
from contextlib import closing, contextmanager

from migration import MONTHS, charge
from runs import BATCH, FIRST_MONTH, fill
from tables import made_tables, opened, texts_of

LEASES = "SELECT lease_no, client_no, property_no, start_day, months, method, rent FROM lease WHERE property_no = ?"
CLIENT = "SELECT client_no, name, telephone, pref_type, max_rent FROM client WHERE client_no = ?"
CHARGES = "SELECT lease_no, k, month, day, amount FROM charge WHERE lease_no = ?"
RECEIPTS = "SELECT receipt_no, req_key, lease_no, kind, amount, day FROM receipt WHERE lease_no = ?"


def make(path, leases):
    with closing(made_tables(path)) as conn:
        fill(conn, leases)
        conn.execute("BEGIN")
        for k in range(MONTHS):
            charge(conn, k)
        conn.execute("UPDATE meta SET next_month = ?", (FIRST_MONTH + MONTHS,))
        conn.execute("COMMIT")
        conn.execute("PRAGMA wal_checkpoint(TRUNCATE)")


def index_texts():
    return [text for text in texts_of() if text.startswith("CREATE INDEX")]


def drop_indexes(conn):
    for text in index_texts():
        conn.execute(f"DROP INDEX {text.split()[2]}")


def make_bare(path):
    with closing(opened(path)) as conn:
        drop_indexes(conn)
        conn.execute("VACUUM")
        conn.execute("PRAGMA wal_checkpoint(TRUNCATE)")


@contextmanager
def timed(name):
    start = time.perf_counter()
    yield
    print(f"{name} {(time.perf_counter() - start) * 1e3:.1f}")


def checked(path):
    """A connection to a file whose trees and references hold."""
    conn = opened(path)
    if conn.execute("PRAGMA integrity_check").fetchall() != [("ok",)] or conn.execute("PRAGMA foreign_key_check").fetchall():
        sys.exit(f"{path} is damaged")
    return conn


def look_at_branch(conn, leases):
    for number in range(0, leases, 10):
        conn.execute(LEASES, (f"P{number}",)).fetchall()
        conn.execute(CLIENT, (f"C{number}",)).fetchall()
        conn.execute(CHARGES, (number + 1,)).fetchall()
        conn.execute(RECEIPTS, (number + 1,)).fetchall()


def make_indexes(conn):
    conn.execute("BEGIN")
    drop_indexes(conn)
    with timed("indexes"):
        for text in index_texts():
            conn.execute(text)
    conn.execute("ROLLBACK")


def add_charges(conn, leases):
    for first in range(1, leases, BATCH):
        conn.execute("BEGIN")
        conn.executemany("INSERT INTO charge (lease_no, k, month, day, amount) VALUES (?, 9000, 24312, '2026-01-31', 65000)",
                         [(lease,) for lease in range(first, first + BATCH)])
        conn.execute("COMMIT")


def time_calls(path, leases):
    with timed("opening"):
        conn = checked(path)
    with closing(conn):
        if leases is None:
            return
        tables = [name for (name,) in conn.execute("SELECT name FROM sqlite_schema WHERE type = 'table'")]
        with timed("rows"):
            for name in tables:
                conn.execute(f"SELECT * FROM {name}").fetchall()
        with timed("looks"):
            look_at_branch(conn, leases)
        make_indexes(conn)
        with timed("charges"):
            add_charges(conn, leases)


def put_least(paths):
    figures = {}
    for path in paths:
        with open(path) as rows:
            for name, figure in map(str.split, rows):
                figures[name] = min(float(figure), figures.get(name, float("inf")))
    for name, figure in figures.items():
        print(name, figure)


def main(words):
    match words:
        case ["make", path, leases]:
            make(path, int(leases))
        case ["bare", path]:
            make_bare(path)
        case ["python", path, *leases]:
            time_calls(path, int(leases[0]) if leases else None)
        case ["least", *paths]:
            put_least(paths)
        case _:
            sys.exit(__doc__)


if __name__ == "__main__":
    main(sys.argv[1:])
