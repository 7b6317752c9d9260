#!/usr/bin/env python3
"""Lines for bench/commands.sh and bench/branches.sh, and what Python's own sqlite3 takes for some of them.

commands.py lines ROWS      lines that give each table so many rows, and then, behind `time NAME`, lines of each kind that are timed
commands.py branches ROWS   so many `branch` lines
commands.py answer          answers the `branch` lines of standard input by tables in memory, a transaction a line
"""

import csv
import sqlite3
import sys

TIMED = 500


def day(n):
    return f"2025-01-{n % 28 + 1:02}"


def filling(n):
    """The lines of row n of each table, which refer to rows of the same number."""
    yield f"branch,B{n},{n} Main St,Leeds,LS1 1AA"
    yield f"staff,S{n},Ann Lee,Assistant,B{n}"
    yield f"owner,O{n},Tom Ray,2 Low Rd Leeds,0113 1"
    yield f"property,P{n},{n} Hill Rd,Leeds,LS2 2BB,Flat,3,650.00,O{n},S{n},B{n}"
    yield f"client,C{n},Mia Fox,0113 2,Flat,700.00"
    yield f"register,C{n},B{n},S{n},{day(n)}"
    yield f"viewing,C{n},P{n},{day(n)},"
    yield f"inspection,P{n},{day(n)},S{n},Dry"
    yield f"lease,{n + 1},C{n},P{n},2025-01-{n % 28 + 1:02},3,Cash"
    yield f"receipt,K{n},{n + 1},rent,650.00,{day(n)}"


def timed(rows):
    """The kinds of line that are timed, each with the line for the sampled row n and the new row m."""
    return {
        "branch": lambda n, m: f"branch,B{m},1 Main St,Leeds,LS1 1AA",
        "branch-again": lambda n, m: f"branch,B{n},{n} Main St,Leeds,LS1 1AA",
        "staff": lambda n, m: f"staff,S{m},Ann Lee,Assistant,B{n}",
        "owner": lambda n, m: f"owner,O{m},Tom Ray,2 Low Rd Leeds,0113 1",
        "property": lambda n, m: f"property,P{m},1 Hill Rd,Leeds,LS2 2BB,Flat,3,650.00,O{n},S{n},B{n}",
        "assign": lambda n, m: f"assign,P{n},",
        "rent": lambda n, m: f"rent,P{n},700.00",
        "client": lambda n, m: f"client,C{m},Mia Fox,0113 2,Flat,700.00",
        "register": lambda n, m: f"register,C{m},B{n},S{n},2025-02-01",
        "viewing": lambda n, m: f"viewing,C{m},P{n},2025-02-01,",
        "comment": lambda n, m: f"comment,C{n},P{n},Too small",
        "inspection": lambda n, m: f"inspection,P{n},2025-03-01,S{n},Dry",
        "lease": lambda n, m: f"lease,{m + 1},C{n},P{n},2025-06-01,3,Cash",
        "receipt": lambda n, m: f"receipt,K{m},{n + 1},rent,650.00,2025-02-01",
        "deposit": lambda n, m: f"receipt,D{m},{n + 1},deposit,1300.00,2025-02-01",
        "statement": lambda n, m: f"show,statement,{n + 1}",
    }


def put_lines(rows):
    for n in range(rows):
        print("\n".join(filling(n)))
    stride = max(1, rows // TIMED)
    for name, line in timed(rows).items():
        print("time", name)
        for k in range(min(TIMED, rows)):
            print(line(k * stride, rows + k))


def put_branches(rows):
    for n in range(rows):
        print(f"branch,B{n * 7919 % 1000000:06},{n} Main St,Leeds,LS1 1AA")


def answer():
    conn = sqlite3.connect(":memory:", isolation_level=None)
    conn.execute("CREATE TABLE branch (branch_no TEXT NOT NULL PRIMARY KEY, street TEXT NOT NULL, city TEXT NOT NULL, "
                 "postcode TEXT NOT NULL) STRICT")
    for number, record in enumerate(csv.reader(sys.stdin), 1):
        row = record[1:]
        there = conn.execute("SELECT * FROM branch WHERE branch_no = ?", row[:1]).fetchone()
        if there is None:
            conn.execute("BEGIN")
            conn.execute("INSERT INTO branch VALUES (?, ?, ?, ?)", row)
            conn.execute("COMMIT")
            reply = "ok"
        else:
            reply = "already" if there == tuple(row) else "refused 1"
        sys.stdout.write(f"{number} {reply}\n")
        sys.stdout.flush()


match sys.argv[1:]:
    case ["lines", rows]:
        put_lines(int(rows))
    case ["branches", rows]:
        put_branches(int(rows))
    case ["answer"]:
        answer()
    case _:
        sys.exit(__doc__)
