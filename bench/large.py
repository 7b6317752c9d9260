#!/usr/bin/env python3
"""Large files for bench/large.sh: what the program prints on them, and the rows that it leaves, beside what is reckoned here.

large.py PROGRAM FOLDER DUES LEASES    makes files in FOLDER, of so many dues in one branch, and of so many leases with ten charges each;
                                       prints the seconds of each part, each check that differs, and the counts; ends with 0 if none does

Nothing that is wanted is asked of the program, and no sum of a database: an office here says of each lease what it was charged and has paid.
"""

import shutil
import sqlite3
import subprocess
import sys
import time
from contextlib import closing
from pathlib import Path

from migration import held
from runs import BATCH, FIRST_MONTH, month
from tables import made_tables, texts_of

MONTHS = 10


def money(pence):
    return f"{'-' if pence < 0 else ''}{abs(pence) // 100}.{abs(pence) % 100:02}"


class Office:
    """An office whose lease n has the number n + 1, property Pn and client Cn, and runs for twelve months from a day of January on."""

    branches = 10
    owners = 100

    def __init__(self, leases, months, paid=MONTHS, version=2):
        self.leases = leases
        self.months = months
        self.paid_months = paid
        self.version = version

    def branch(self, n):
        return n % 10

    def rent(self, n):
        return (n % 900 + 100) * 100 + n % 97

    def day(self, n):
        return n % 28 + 1

    def paid(self, n):
        """How many of its charges are paid: none to each of them."""
        return min(n % (MONTHS + 1), self.paid_months)

    def has_deposit(self, n):
        return n % 3 == 0

    def manager(self, n):
        """Who manages the property: nobody."""
        return None

    def length(self, n):
        """How many months it runs."""
        return 11 if self.version == 2 and n % 50 == 0 else 12

    def fee(self, branch):
        """What the branch takes of each rent, in hundredths of a percent."""
        return branch * 100 + 50 if self.version == 2 else 0

    def fee_of(self, n):
        return self.rent(n) * self.fee(self.branch(n)) // 10000

    def balance(self, n):
        return self.rent(n) * (self.months - self.paid(n))

    def due_in(self, branch):
        return [n for n in range(self.leases) if self.branch(n) == branch]

    def batches(self):
        return sum(max(1, -(-len(self.due_in(branch)) // BATCH)) for branch in range(self.branches))

    def receipts(self):
        """The lease, the kind, the month and the amount of each receipt, in the order of their numbers."""
        for n in range(self.leases):
            if self.has_deposit(n):
                yield n, "deposit", 0, 2 * self.rent(n)
        for k in range(self.paid_months):
            for n in range(self.leases):
                if k < self.paid(n):
                    yield n, "rent", k, self.rent(n)


class OneBranch(Office):
    """An office whose leases are all in its first branch, of one owner, and have the rent of 700.00. Its second branch has no lease."""

    branches = 2
    owners = 1

    def branch(self, n):
        return 0

    def rent(self, n):
        return 70000

    def length(self, n):
        return 12

    def fee(self, branch):
        return 1000 if branch == 0 else 0


def day_of(office, n, k):
    return f"{month(k)}-{office.day(n):02}"


def homes(office, properties):
    """The rows of the branches, of the staff, of the owners and of so many properties, by their tables."""
    branches = range(office.branches)
    yield "branch", [(f"B{b}", "1 Main St", "Leeds", "LS1 1AA") for b in branches]
    yield "staff", [(f"S{b}", "Ann Lee", "Assistant", f"B{b}") for b in branches]
    yield "owner", [(f"O{o}", "Tom Ray", "2 Low Rd Leeds", "0113 1") for o in range(office.owners)]
    yield "property", [(f"P{n}", f"{n} Hill Rd", "Leeds", "LS2 2BB", "Flat", 3, office.rent(n), f"O{n % office.owners}", office.manager(n),
                        f"B{office.branch(n)}") for n in range(properties)]


def clients(count):
    return [(f"C{n}", "Mia Fox", "0113 2", "Flat", 70000) for n in range(count)]


def people(office):
    """The rows that no run writes, by their tables; a table comes behind those that it refers to."""
    leases = range(office.leases)
    yield from homes(office, office.leases)
    yield "client", clients(office.leases)
    yield "registration", [(f"C{n}", f"B{office.branch(n)}", f"S{office.branch(n)}", "2025-01-01") for n in leases]
    yield from [("viewing", []), ("inspection", [])]
    yield "lease", [(n + 1, f"C{n}", f"P{n}", day_of(office, n, 0), 12, "Cash", office.rent(n)) for n in leases]
    yield "receipt", [(number, f"K-{number}", n + 1, kind, amount, day_of(office, n, k))
                      for number, (n, kind, k, amount) in enumerate(office.receipts(), 1)]


def charged(office, months):
    """The rows that the runs of these months write, by their tables."""
    due = [office.due_in(branch) for branch in range(office.branches)]
    sums = [sum(map(office.rent, leases)) for leases in due]
    yield "run", [(FIRST_MONTH + k, f"R-{k}", office.leases, sum(sums), 1) for k in months]
    yield "charge", [(n + 1, k, FIRST_MONTH + k, day_of(office, n, k), office.rent(n)) for k in months for n in range(office.leases)]
    yield "part", [(FIRST_MONTH + k, f"B{b}", leases[-1] + 1 if leases else 0, len(leases), sums[b])
                   for k in months for b, leases in enumerate(due)]
    yield "part_fee", [(FIRST_MONTH + k, f"B{b}", office.fee(b), sum(map(office.fee_of, leases)))
                       for k in months for b, leases in enumerate(due)]


def of_the_second(office):
    yield "branch_fee", [(f"B{b}", office.fee(b)) for b in range(office.branches) if office.fee(b)]
    yield "ending", [(n + 1, office.length(n)) for n in range(office.leases) if office.length(n) < 12]


def rows_of(office):
    """All rows of the office, by their tables, once its months are charged."""
    rows = {"meta": [(1, office.version, FIRST_MONTH, FIRST_MONTH + office.months)]}
    rows |= people(office)
    rows |= charged(office, range(office.months))
    if office.version == 2:
        return rows | dict(of_the_second(office))
    del rows["part_fee"]
    return rows


def write(path, all_rows, version=2):
    """A file of this version with these rows, by Python's sqlite3."""
    with closing(made_tables(path, texts_of("SECOND" if version == 2 else "FIRST"))) as conn:
        conn.execute("BEGIN")
        for table, rows in all_rows.items():
            if rows:
                conn.executemany(f"INSERT INTO {table} VALUES ({', '.join('?' * len(rows[0]))})", rows)
        conn.execute("COMMIT")


def make(path, office):
    write(path, rows_of(office), office.version)


def statement_lines(number, client, home, rent, entries, balance):
    """The statement of a lease, where its entries are a word, a day and pence each."""
    lines = [f"{number:>8} {client:8} {home:8} {money(rent):>12}"]
    lines += [f"{word:8} {day} {money(pence):>12}" for word, day, pence in entries]
    return [*lines, f"{'balance':8} {'':10} {money(balance):>12}"]


def statement(office, n):
    rent = office.rent(n)
    entries = [("charge", day_of(office, n, k), rent) for k in range(office.months)]
    if office.has_deposit(n):
        entries.append(("deposit", day_of(office, n, 0), 2 * rent))
    entries += [("rent", day_of(office, n, k), rent) for k in range(office.paid(n))]
    return statement_lines(n + 1, f"C{n}", f"P{n}", rent, entries, office.balance(n))


def arrears_lines(owing):
    """What a branch is owed, where those that owe are a lease, a client and pence each."""
    lines = [f"{number:>8} {client:8} {money(pence):>12} Mia Fox" for number, client, pence in owing]
    return [*lines, f"{'total':8} {'':8} {money(sum(pence for _, _, pence in owing)):>12}"]


def arrears(office, branch):
    return arrears_lines([(n + 1, f"C{n}", office.balance(n)) for n in office.due_in(branch) if office.balance(n) > 0])


def run_report(office, k):
    parts = [(f"B{b}", office.due_in(b)) for b in range(office.branches)] + [(month(k), range(office.leases))]
    return [f"{name:8} {len(due):>8} {money(sum(map(office.rent, due))):>12}" for name, due in parts]


def owner_report(office, owner):
    """The same in each month that is charged."""
    own = [(n, office.rent(n), office.fee_of(n)) for n in range(owner, office.leases, office.owners)]
    amount, fee = sum(rent for _, rent, _ in own), sum(fee for _, _, fee in own)
    lines = [f"{n + 1:>8} {f'P{n}':8} {money(rent):>12} {money(of):>12}" for n, rent, of in own]
    return [*lines, f"{'total':8} {'':8} {money(amount):>12} {money(fee):>12}", f"{'payable':8} {'':8} {money(amount - fee):>12}"]


def vacant(office, day):
    def is_covered(n):
        return day_of(office, n, 0) <= day < day_of(office, n, office.length(n))

    free = sorted((f"P{n}", office.rent(n)) for n in range(office.leases) if not is_covered(n))
    return [f"{number:8} {'Flat':5} {3:>2} {money(rent):>12} Leeds" for number, rent in free]


class Play:
    """The program on one file, and how many checks there were and how many differ."""

    def __init__(self, program, folder):
        self.program = program
        self.folder = folder
        self.checks = self.wrong = 0
        self.path = None

    def same(self, what, got, want):
        self.checks += 1
        if got != want:
            self.wrong += 1
            print(f"DIFFERS: {what}: {first_other(got, want)}")

    def run(self, status, want, *words, lines=""):
        """A run with these words behind the subcommand's file, which has to end and to print so."""
        ended = subprocess.run([self.program, words[0], "--file", self.path, *words[1:]], input=lines.encode(), capture_output=True)
        what = f"{self.path.name}: {' '.join(words)}"
        self.same(f"{what}: status", ended.returncode, status)
        self.same(what, ended.stdout.decode().split("\n"), [*want, ""])

    def rows(self, what, want):
        """The tables of the file, which have to have these rows."""
        got = held(self.path)[1]
        self.same(f"{self.path.name}: tables {what}", sorted(got), sorted(want))
        for table, rows in want.items():
            self.same(f"{self.path.name}: {table} {what}", got.get(table), sorted(rows))

    def questions(self, asked):
        """The answers to these questions, by one batch."""
        lines = "".join(f"show,{question}\n" for question, _ in asked)
        want = []
        for number, (_, report) in enumerate(asked, 1):
            want += [f"{number} shown {len(report)}", *report]
        self.run(0, want, "batch", lines=lines)


def first_other(got, want):
    """The first item that differs, of two lists, or both values."""
    if not isinstance(got, list):
        return f"{got!r:.100} in place of {want!r:.100}"
    for at in range(max(len(got), len(want))):
        one, other = got[at:at + 1], want[at:at + 1]
        if one != other:
            return f"item {at + 1}: {one!r:.100} in place of {other!r:.100}"
    return "the same in another form"


def balances(path):
    """What each lease owes, by Python's sqlite3."""
    with closing(sqlite3.connect(path)) as conn:
        return conn.execute("SELECT lease_no, (SELECT coalesce(sum(amount), 0) FROM charge WHERE charge.lease_no = lease.lease_no) - "
                            "(SELECT coalesce(sum(amount), 0) FROM receipt WHERE receipt.lease_no = lease.lease_no AND kind = 'rent') "
                            "FROM lease ORDER BY lease_no").fetchall()


def sample(office):
    """Some of its leases, the first and the last among them."""
    return sorted({*range(0, office.leases, max(1, office.leases // 40)), office.leases - 1})


def asked(office):
    """Questions of each kind, with the reports that are wanted."""
    yield "branches", [f"{f'B{b}':8} Leeds" for b in range(office.branches)]
    for n in sample(office):
        yield f"statement,{n + 1}", statement(office, n)
    for b in range(office.branches):
        yield f"arrears,B{b}", arrears(office, b)
    for k in range(office.months):
        yield f"run,{month(k)}", run_report(office, k)
    for owner in sorted({0, office.owners // 2, office.owners - 1}):
        yield f"owner,O{owner},{month(office.months - 1)}", owner_report(office, owner)
    yield "vacant,2025-12-15", vacant(office, "2025-12-15")


def play_reports(play, office):
    """A report of each kind by a call of its own, and more of them by one batch."""
    play.run(0, statement(office, 0), "report", "statement", "1")
    play.run(0, arrears(office, 0), "report", "arrears", "B0")
    play.run(0, run_report(office, office.months - 1), "report", "run", month(office.months - 1))
    play.run(0, owner_report(office, 0), "report", "owner", "O0", month(0))
    play.questions(list(asked(office)))


def play_run(play, dues):
    """The run of a month in one branch, whole, and opened, posted in parts and recovered."""
    before, after = OneBranch(dues, 0, paid=0), OneBranch(dues, 1, paid=0)
    whole, parts = play.folder / "whole", play.folder / "parts"
    make(whole, before)
    shutil.copy(whole, parts)
    posted = f"posted {month(0)} {dues} {money(70000 * dues)}"
    rows = rows_of(before) | dict(charged(after, range(1))) | {"meta": [(1, 2, FIRST_MONTH, FIRST_MONTH + 1)]}
    play.path = whole
    run = "run", "--key", "R-0", "--month", month(0)
    play.run(0, [posted], *run)
    play.run(0, [f"already {posted}"], *run)
    play.rows("behind the run", rows)
    play_reports(play, after)
    play.path = parts
    all_batches = after.batches()
    first, second = max(1, all_batches // 3), max(1, all_batches // 4)
    play.run(4, [f"part {month(0)} {first} of {all_batches}"], *run, "--batches", str(first))
    play.run(4, [f"1 part {month(0)} {first + second} of {all_batches}"], "batch", lines=f"post,{second}\n")
    play.run(1, [f"refused 10 {month(0)}"], "report", "arrears", "B0")
    play.run(0, ["recovered"], "recover")
    play.rows("behind the recovery", rows)
    play.run(0, [f"already {posted}"], *run)
    play.run(0, run_report(after, 0), "report", "run", month(0))


def play_second(play, leases):
    """A file of the second version, and the run of its next month."""
    office = Office(leases, MONTHS)
    play.path = play.folder / "second"
    make(play.path, office)
    play_reports(play, office)
    play.rows("behind the reports", rows_of(office))
    total = money(sum(map(office.rent, range(leases))))
    play.run(0, [f"posted {month(MONTHS)} {leases} {total}"], "run", "--key", f"R-{MONTHS}", "--month", month(MONTHS))
    later = Office(leases, MONTHS + 1)
    play.run(0, statement(later, 0), "report", "statement", "1")
    play.rows("behind a run", rows_of(later))


def play_first(play, leases):
    """A file of the first version, which is migrated."""
    office = Office(leases, MONTHS, version=1)
    play.path = play.folder / "first"
    make(play.path, office)
    owed = balances(play.path)
    play.same("first: balances", owed, [(n + 1, office.balance(n)) for n in range(leases)])
    play.run(5, ["refused 16 1"], "report", "arrears", "B0")
    play.run(0, ["recovered"], "recover")
    play.rows("behind a recovery", rows_of(office))
    play.run(0, ["migrated"], "migrate")
    play.same("first: balances behind the migration", balances(play.path), owed)
    second = {"meta": [(1, 2, FIRST_MONTH, FIRST_MONTH + MONTHS)], "branch_fee": [], "ending": []}
    play.rows("behind the migration", rows_of(office) | dict(charged(office, range(MONTHS))) | second)
    play_reports(play, office)
    play.run(5, ["refused 16 2"], "migrate")


def main(program, folder, dues, leases):
    play = Play(program, Path(folder))
    parts = [(f"a run of {dues} dues in one branch", play_run, dues),
             (f"a file of the second version with {leases * MONTHS} charges", play_second, leases),
             (f"a file of the first version with {leases * MONTHS} charges", play_first, leases)]
    for what, part, count in parts:
        start = time.perf_counter()
        part(play, count)
        print(f"{what}: {time.perf_counter() - start:.1f} s", flush=True)
    print(f"{play.checks} checks, {play.wrong} differ")
    return 1 if play.wrong else 0


if __name__ == "__main__":
    match sys.argv[1:]:
        case [program, folder, dues, leases]:
            sys.exit(main(program, folder, int(dues), int(leases)))
        case _:
            sys.exit(__doc__)
