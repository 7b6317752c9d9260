#!/usr/bin/env python3
"""Lines for bench/runs.sh and bench/office.sh, and what Python's own sqlite3 takes for the same rent run.

runs.py lines LEASES RUNS       lines that give so many leases of ten branches and the rent runs of so many months, and then, behind
                                `time run`, the run of the month after
runs.py half LEASES             the same leases, and a run that is opened and half posted
runs.py leases LEASES           the same leases alone
runs.py middle LEASES           prints half the number of batches of their run
runs.py python LEASES [FILE]    makes the same tables, in memory or in FILE, and prints the microseconds of the run of the first
                                month: its opening, its batches of fifty and its end, a transaction each
runs.py recover LEASES FILE     makes the same tables in FILE with half of that run, opens FILE again, and prints the microseconds of
                                checking its part rows against its charges, as `open` does, and of the rest of the run
runs.py open FILE               prints the microseconds of opening FILE: its check by sqlite3, all rows, and the sums of each month and
                                branch beside the part rows, which is some of what the program audits
"""

import sqlite3
import sys
import time

from tables import made_tables, opened

BRANCHES = 10
BATCH = 50
FIRST_MONTH = 12 * 2025


def month(n):
    return f"{2025 + n // 12}-{n % 12 + 1:02}"


def put_branches():
    for n in range(BRANCHES):
        print(f"branch,B{n},1 Main St,Leeds,LS1 1AA")
        print(f"staff,S{n},Ann Lee,Assistant,B{n}")


def put_lease(n, owner):
    branch = n % BRANCHES
    print(f"property,P{n},{n} Hill Rd,Leeds,LS2 2BB,Flat,3,{n % 900 + 100}.00,{owner},,B{branch}")
    print(f"client,C{n},Mia Fox,0113 2,Flat,700.00")
    print(f"register,C{n},B{branch},S{branch},2025-01-01")
    print(f"lease,{n + 1},C{n},P{n},2025-01-{n % 28 + 1:02},12,Cash")


def put_leases(leases):
    put_branches()
    print("owner,O1,Tom Ray,2 Low Rd Leeds,0113 1")
    for n in range(leases):
        put_lease(n, "O1")


def batches(leases):
    return sum(max(1, (len(range(n, leases, BRANCHES)) + BATCH - 1) // BATCH) for n in range(BRANCHES))


def put_lines(leases, runs):
    put_leases(leases)
    for n in range(runs):
        print(f"run,R-{n},{month(n)}")
    print("time run")
    print(f"run,R-{runs},{month(runs)}")


def put_half(leases):
    put_leases(leases)
    print(f"open,R-0,{month(0)}")
    if batches(leases) > 1:
        print(f"post,{batches(leases) // 2}")
    print("time nothing")


def fill(conn, leases):
    conn.execute("BEGIN")
    conn.execute(f"INSERT INTO meta VALUES (1, 2, {FIRST_MONTH}, {FIRST_MONTH})")
    for n in range(BRANCHES):
        conn.execute("INSERT INTO branch VALUES (?, '1 Main St', 'Leeds', 'LS1 1AA')", (f"B{n}",))
        conn.execute("INSERT INTO staff VALUES (?, 'Ann Lee', 'Assistant', ?)", (f"S{n}", f"B{n}"))
    conn.execute("INSERT INTO owner VALUES ('O1', 'Tom Ray', '2 Low Rd Leeds', '0113 1')")
    for n in range(leases):
        branch = n % BRANCHES
        rent = (n % 900 + 100) * 100
        conn.execute("INSERT INTO property VALUES (?, ?, 'Leeds', 'LS2 2BB', 'Flat', 3, ?, 'O1', NULL, ?)",
                     (f"P{n}", f"{n} Hill Rd", rent, f"B{branch}"))
        conn.execute("INSERT INTO client VALUES (?, 'Mia Fox', '0113 2', 'Flat', 70000)", (f"C{n}",))
        conn.execute("INSERT INTO registration VALUES (?, ?, ?, '2025-01-01')", (f"C{n}", f"B{branch}", f"S{branch}"))
        conn.execute("INSERT INTO lease VALUES (?, ?, ?, ?, 12, 'Cash', ?)",
                     (n + 1, f"C{n}", f"P{n}", f"2025-01-{n % 28 + 1:02}", rent))
    conn.execute("COMMIT")


def open_run(conn):
    conn.execute("BEGIN")
    conn.execute("INSERT INTO run VALUES (?, 'R-0', 0, 0, 0)", (FIRST_MONTH,))
    conn.execute("UPDATE meta SET next_month = ?", (FIRST_MONTH + 1,))
    conn.execute("COMMIT")


def post_batch(conn, branch, batch, part):
    """The part row behind this batch, which is charged in a transaction; the one before it is None where this batch is the branch's first."""
    _, count, total = part or (0, 0, 0)
    after = (batch[-1][0] if batch else 0, count + len(batch), total + sum(rent for _, _, rent in batch))
    conn.execute("BEGIN")
    conn.executemany("INSERT INTO charge VALUES (?, 0, ?, ?, ?)", [(lease, FIRST_MONTH, day, rent) for lease, day, rent in batch])
    if part is None:
        conn.execute("INSERT INTO part VALUES (?, ?, ?, ?, ?)", (FIRST_MONTH, branch, *after))
        conn.execute("INSERT INTO part_fee VALUES (?, ?, 0, 0)", (FIRST_MONTH, branch))
    else:
        conn.execute("UPDATE part SET through_lease = ?, due_count = ?, due_total = ? WHERE month = ? AND branch_no = ?",
                     (*after, FIRST_MONTH, branch))
        conn.execute("UPDATE part_fee SET fee = 0, fee_total = 0 WHERE month = ? AND branch_no = ?", (FIRST_MONTH, branch))
    conn.execute("COMMIT")
    return after


def post(conn, most):
    """Posts so many of the batches that are left, or all of them where there are no more."""
    for (branch,) in conn.execute("SELECT branch_no FROM branch ORDER BY branch_no").fetchall():
        part = conn.execute("SELECT through_lease, due_count, due_total FROM part WHERE month = ? AND branch_no = ?",
                            (FIRST_MONTH, branch)).fetchone()
        due = conn.execute("SELECT lease_no, start_day, lease.rent FROM lease JOIN property USING (property_no) "
                           "WHERE branch_no = ? AND lease_no > ? ORDER BY lease_no", (branch, part[0] if part else 0)).fetchall()
        for start in range(0, len(due) if part else max(1, len(due)), BATCH):
            if most == 0:
                return
            part = post_batch(conn, branch, due[start:start + BATCH], part)
            most -= 1


def close_run(conn):
    sums = conn.execute("SELECT sum(due_count), sum(due_total) FROM part WHERE month = ?", (FIRST_MONTH,)).fetchone()
    conn.execute("BEGIN")
    conn.execute("UPDATE run SET due_count = ?, due_total = ?, closed = 1 WHERE month = ?", (*sums, FIRST_MONTH))
    conn.execute("COMMIT")


def time_run(leases, path):
    conn = made_tables(path)
    fill(conn, leases)
    start = time.perf_counter()
    open_run(conn)
    post(conn, batches(leases))
    close_run(conn)
    print(f"{(time.perf_counter() - start) * 1e6:.1f}")
    conn.close()


def time_recovery(leases, path):
    conn = made_tables(path)
    fill(conn, leases)
    open_run(conn)
    post(conn, batches(leases) // 2)
    conn.close()
    conn = opened(path)
    start = time.perf_counter()
    check_parts(conn, path)
    post(conn, batches(leases))
    close_run(conn)
    print(f"{(time.perf_counter() - start) * 1e6:.1f}")
    conn.close()


def check_parts(conn, path):
    """Fetches all rows, and compares the sums of each month and branch with the part rows."""
    tables = [name for (name,) in conn.execute("SELECT name FROM sqlite_schema WHERE type = 'table'")]
    rows = {name: conn.execute(f"SELECT * FROM {name}").fetchall() for name in tables}
    branch_of = {row[0]: row[9] for row in rows["property"]}
    leases = {row[0]: branch_of[row[2]] for row in rows["lease"]}
    sums = {}
    for lease, _, month, _, amount in rows["charge"]:
        count, total = sums.get((month, leases[lease]), (0, 0))
        sums[month, leases[lease]] = count + 1, total + amount
    for month, branch, _, count, total in rows["part"]:
        if sums.get((month, branch), (0, 0)) != (count, total):
            sys.exit(f"{path}: the part of {branch} does not add up")


def time_open(path):
    start = time.perf_counter()
    conn = sqlite3.connect(path)
    if conn.execute("PRAGMA integrity_check").fetchall() != [("ok",)] or conn.execute("PRAGMA foreign_key_check").fetchall():
        sys.exit(f"{path} is damaged")
    check_parts(conn, path)
    print(f"{(time.perf_counter() - start) * 1e6:.1f}")
    conn.close()


def main():
    match sys.argv[1:]:
        case ["lines", leases, runs]:
            put_lines(int(leases), int(runs))
        case ["half", leases]:
            put_half(int(leases))
        case ["leases", leases]:
            put_leases(int(leases))
        case ["middle", leases]:
            print(batches(int(leases)) // 2)
        case ["python", leases, *path]:
            time_run(int(leases), path[0] if path else ":memory:")
        case ["recover", leases, path]:
            time_recovery(int(leases), path)
        case ["open", path]:
            time_open(path)
        case _:
            sys.exit(__doc__)


if __name__ == "__main__":
    main()
