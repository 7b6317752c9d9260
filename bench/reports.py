#!/usr/bin/env python3
"""Lines for bench/reports.sh, and what Python's own sqlite3 takes for the same reports and early ends.

reports.py lines LEASES MONTHS           lines that give so many leases of ten branches with a fee each and of so many owners that each has a
                                         hundred, and the rent runs of so many months. Past a year a property has one lease after the other
reports.py owner LEASES MONTHS TIMES     so many times a statement of each owner, a hundred at most, for the last of these months
reports.py arrears LEASES MONTHS TIMES   so many times what each branch is owed
reports.py end LEASES MONTHS TIMES       the early end of so many leases
reports.py python LEASES MONTHS FILE     makes the same tables in FILE, and prints the microseconds of a statement, of what a branch is owed
                                         and, where one month was charged, of an end: by the same looks at rows, a commit an end
"""

import sys
import time

from runs import BRANCHES, FIRST_MONTH, fill, month, put_branches, put_lease
from tables import made_tables

OF_ONE = 100
# The months of each lease.
TERM = 12
TIMED_OWNERS = 100
TIMED_ENDS = 500
TIMED_ARREARS = 3


def owners(leases):
    return max(1, leases // OF_ONE)


def asked_owners(leases):
    return [n % owners(leases) for n in range(TIMED_OWNERS)]


def ended_leases(leases, times=TIMED_ENDS):
    stride = max(1, leases // times)
    return [n * stride + 1 for n in range(min(times, leases))]


def terms(months):
    """How many leases a property has, one after the other."""
    return (months + TERM - 1) // TERM


def start_of(n, homes):
    """The first day of a lease behind the first of its property."""
    return f"{2025 + n // homes}-01-{n % homes % 28 + 1:02}"


def put_lines(leases, months):
    put_branches()
    for n in range(BRANCHES):
        print(f"fee,B{n},{n * 100 + 50}")
    for n in range(owners(leases)):
        print(f"owner,O{n},Tom Ray,2 Low Rd Leeds,0113 1")
    homes = leases // terms(months)
    for n in range(homes):
        put_lease(n, f"O{n % owners(leases)}")
    for n in range(homes, homes * terms(months)):
        print(f"lease,{n + 1},C{n % homes},P{n % homes},{start_of(n, homes)},{TERM},Cash")
    for k in range(months):
        print(f"run,R-{k},{month(k)}")


def put_asked(what, leases, months, times):
    for _ in range(times):
        if what == "owner":
            for n in asked_owners(leases):
                print(f"show,owner,O{n},{month(months - 1)}")
        else:
            for n in range(BRANCHES):
                print(f"show,arrears,B{n}")


def put_ends(leases, times):
    for number in ended_leases(leases, times):
        print(f"end,{number},3")


def month_of(day):
    return int(day[:4]) * 12 + int(day[5:7]) - 1


def money(amount):
    return f"{amount // 100}.{amount % 100:02}".rjust(12)


def statement(conn, owner, month):
    """The report of an owner's month, by the looks at rows that the program takes."""
    (next_month,) = conn.execute("SELECT next_month FROM meta").fetchone()
    if conn.execute("SELECT 1 FROM run WHERE month = ? AND closed = 0", (next_month - 1,)).fetchone():
        return "refused 10"
    if conn.execute("SELECT 1 FROM owner WHERE owner_no = ?", (owner,)).fetchone() is None:
        return "refused 2 3"
    found = conn.execute("SELECT closed FROM run WHERE month = ?", (month,)).fetchone()
    if found != (1,):
        return "refused 14"
    fees = dict(conn.execute("SELECT branch_no, fee FROM part_fee WHERE month = ?", (month,)))
    rows = []
    for number, branch in conn.execute("SELECT property_no, branch_no FROM property WHERE owner_no = ?", (owner,)).fetchall():
        for lease, start in conn.execute("SELECT lease_no, start_day FROM lease WHERE property_no = ?", (number,)):
            k = month - month_of(start)
            if 0 <= k < TERM:
                for (amount,) in conn.execute("SELECT amount FROM charge WHERE lease_no = ? AND k = ?", (lease, k)):
                    rows.append((lease, number, amount, amount * fees[branch] // 10000))
    rows.sort()
    amounts = sum(row[2] for row in rows)
    fee = sum(row[3] for row in rows)
    lines = [f"{lease:>8} {number:8} {money(amount)} {money(of)}" for lease, number, amount, of in rows]
    lines.append(f"{'total':8} {'':8} {money(amounts)} {money(fee)}")
    lines.append(f"{'payable':8} {'':8} {money(amounts - fee)}")
    return "\n".join([f"shown {len(lines)}", *lines])


def arrears(conn, branch):
    """The report of what a branch is owed, by the looks at rows that the program takes."""
    (next_month,) = conn.execute("SELECT next_month FROM meta").fetchone()
    if conn.execute("SELECT 1 FROM run WHERE month = ? AND closed = 0", (next_month - 1,)).fetchone():
        return "refused 10"
    lines = []
    total = 0
    found = conn.execute("SELECT lease_no, client_no FROM property JOIN lease USING (property_no) WHERE branch_no = ?", (branch,))
    for lease, client in sorted(found):
        (charged,) = conn.execute("SELECT coalesce(sum(amount), 0) FROM charge WHERE lease_no = ?", (lease,)).fetchone()
        (paid,) = conn.execute("SELECT coalesce(sum(amount), 0) FROM receipt WHERE lease_no = ? AND kind = 'rent'", (lease,)).fetchone()
        (name,) = conn.execute("SELECT name FROM client WHERE client_no = ?", (client,)).fetchone()
        if charged > paid:
            total += charged - paid
            lines.append(f"{lease:>8} {client:8} {money(charged - paid)} {name}")
    lines.append(f"{'total':17} {money(total)}")
    return "\n".join([f"shown {len(lines)}", *lines])


def end(conn, number, months):
    (next_month,) = conn.execute("SELECT next_month FROM meta").fetchone()
    if conn.execute("SELECT 1 FROM run WHERE month = ? AND closed = 0", (next_month - 1,)).fetchone():
        return "refused 10"
    found = conn.execute("SELECT start_day, months FROM lease WHERE lease_no = ?", (number,)).fetchone()
    if found is None:
        return "refused 2 2"
    ending = conn.execute("SELECT months FROM ending WHERE lease_no = ?", (number,)).fetchone()
    length = ending[0] if ending else found[1]
    if months == length:
        return "already"
    if months > length:
        return f"refused 19 {length}"
    if month_of(found[0]) + months < next_month:
        return "refused 7"
    conn.execute("BEGIN")
    if ending:
        conn.execute("UPDATE ending SET months = ? WHERE lease_no = ?", (months, number))
    else:
        conn.execute("INSERT INTO ending VALUES (?, ?)", (number, months))
    conn.execute("COMMIT")
    return "ok"


def timed(name, calls):
    start = time.perf_counter()
    count = 0
    for call in calls:
        call()
        count += 1
    print(f"{name} {(time.perf_counter() - start) * 1e6 / count:.1f}")


def charge(conn, k):
    """The run of a month, whole: each lease that is running then has its due."""
    at = FIRST_MONTH + k
    conn.execute("INSERT INTO run VALUES (?, ?, 0, 0, 1)", (at, f"R-{k}"))
    conn.execute("INSERT INTO charge SELECT lease_no, ?1 - start, ?1, ?2 || substr(start_day, 8), rent FROM "
                 "(SELECT *, substr(start_day, 1, 4) * 12 + substr(start_day, 6, 2) - 1 AS start FROM lease) "
                 "WHERE start <= ?1 AND ?1 < start + ?3", (at, month(k), TERM))
    conn.execute("INSERT INTO part SELECT ?, branch_no, 0, 0, 0 FROM branch", (at,))
    conn.execute("INSERT INTO part_fee SELECT ?, branch_no, substr(branch_no, 2) * 100 + 50, 0 FROM branch", (at,))


def fill_all(conn, leases, months):
    homes = leases // terms(months)
    fill(conn, homes)
    conn.execute("BEGIN")
    for n in range(owners(leases)):
        conn.execute("INSERT OR IGNORE INTO owner VALUES (?, 'Tom Ray', '2 Low Rd Leeds', '0113 1')", (f"O{n}",))
    conn.execute("UPDATE property SET owner_no = 'O' || (substr(property_no, 2) % ?)", (owners(leases),))
    for n in range(homes, homes * terms(months)):
        rent = (n % homes % 900 + 100) * 100
        conn.execute("INSERT INTO lease VALUES (?, ?, ?, ?, ?, 'Cash', ?)",
                     (n + 1, f"C{n % homes}", f"P{n % homes}", start_of(n, homes), TERM, rent))
    for k in range(months):
        charge(conn, k)
    conn.execute("UPDATE meta SET next_month = ?", (FIRST_MONTH + months,))
    conn.execute("COMMIT")


def time_all(leases, months, path):
    conn = made_tables(path)
    fill_all(conn, leases, months)
    last = FIRST_MONTH + months - 1
    timed("owner", [lambda n=n: statement(conn, f"O{n}", last) for n in asked_owners(leases)])
    timed("arrears", [lambda n=n: arrears(conn, f"B{n}") for _ in range(TIMED_ARREARS) for n in range(BRANCHES)])
    if months == 1:
        timed("end", [lambda number=number: end(conn, number, 3) for number in ended_leases(leases)])
    conn.close()


match sys.argv[1:]:
    case ["lines", leases, months]:
        put_lines(int(leases), int(months))
    case [("owner" | "arrears") as what, leases, months, times]:
        put_asked(what, int(leases), int(months), int(times))
    case ["end", leases, months, times]:
        put_ends(int(leases), int(times))
    case ["python", leases, months, path]:
        time_all(int(leases), int(months), path)
    case _:
        sys.exit(__doc__)
