#!/usr/bin/env python3
"""How large an office may be, and how fast a call is then: files for bench/size.sh, and what the program takes on them.

size.py PROGRAM FOLDER YEARS PROPERTIES..    makes a file in FOLDER for each of these numbers of properties, each let for so many years;
                                             prints a row of figures for each, and each check that differs; ends with 0 if none does
size.py make FILE YEARS PROPERTIES           makes FILE, and prints as JSON how much is in it and what the program has to print on it

What is wanted is summed up here of the rows that are put in, and never asked of the program. A file is made by a process of its own: the
memory that the system tells of a call is at least that of the process which began it.
"""

import json
import os
import shutil
import subprocess
import sys
import time
from pathlib import Path

from large import Play, arrears_lines, clients, day_of, homes, money, statement_lines, write
from runs import FIRST_MONTH, month

HERE = Path(__file__).resolve().parent
ROUNDS = 5
LINES = 1000
SYNCS = 200
# Nobody manages more than a hundred properties, and a branch has one member of staff.
IN_BRANCH = 100
OF_OWNER = 5
# How many leases a client has, one after the other.
STAYS = 3
COLUMNS = {"properties": 10, "years": 5, "leases": 7, "charges": 8, "receipts": 8, "MB": 6, "arrears s": 13, "statement s": 13,
           "most MB": 7, "run s": 8, "python s": 8, "line ms": 8, "fsync ms": 8}


class FullOffice:
    """An office whose properties are all let, from its first month to behind its last one. Lease j of property n begins as lease j - 1 ends.
    Each has twelve months but the first, which has up to nine fewer, so that leases start in ten months of a year."""

    def __init__(self, properties, years):
        self.properties = properties
        self.years = years
        self.months = 12 * years
        self.branches = -(-properties // IN_BRANCH)
        self.owners = -(-properties // OF_OWNER)

    def branch(self, n):
        return n // IN_BRANCH

    def of_branch(self, branch):
        return range(branch * IN_BRANCH, min(self.properties, (branch + 1) * IN_BRANCH))

    def manager(self, n):
        return f"S{self.branch(n)}"

    def fee(self, branch):
        """What the branch takes of each rent, in hundredths of a percent."""
        return 600 + branch % 10 * 50

    def day(self, n):
        return n % 28 + 1

    def start(self, n, j):
        """The month in which the lease starts, counted from the first."""
        return max(0, 12 * j - n % 10)

    def running(self, n, k):
        """Which lease of the property is charged in month k."""
        return (k + n % 10) // 12

    def number(self, n, j):
        return j * self.properties + n + 1

    def client(self, n, j):
        return f"C{j // STAYS * self.properties + n}"

    def agreed(self, n, j):
        """The rent of the lease."""
        return (n % 900 + 100) * 100 + n % 97 + 500 * j

    def rent(self, n):
        """The rent of the property: that of its last lease."""
        return self.agreed(n, self.years)

    def unpaid(self, n):
        """How many of the last months are not paid: of one property in ten one or two, and two are of two leases."""
        return {3: 1, 11: 2}.get(n % 20, 0)

    def dues(self, branch, k):
        """The charges of month k there."""
        for n in self.of_branch(branch):
            j = self.running(n, k)
            yield self.number(n, j), k - self.start(n, j), FIRST_MONTH + k, day_of(self, n, k), self.agreed(n, j)


def signed(office):
    """The rows of the clients, of what they did before they signed, and of the leases, by their tables."""
    stays = [(n, j) for j in range(0, office.years + 1, STAYS) for n in range(office.properties)]
    first = [(office.client(n, j), n, day_of(office, n, office.start(n, j))) for n, j in stays]
    yield "client", clients(len(stays))
    yield "registration", [(client, f"B{office.branch(n)}", office.manager(n), day) for client, n, day in first]
    yield "viewing", [(client, f"P{n}", day, None) for client, n, day in first]
    yield "inspection", [(f"P{n}", day_of(office, n, k), office.manager(n), "Dry")
                         for k in range(0, office.months, 12) for n in range(office.properties)]
    yield "lease", [(office.number(n, j), office.client(n, j), f"P{n}", day_of(office, n, office.start(n, j)),
                     office.start(n, j + 1) - office.start(n, j), "Transfer", office.agreed(n, j))
                    for j in range(office.years + 1) for n in range(office.properties)]


def charged(office):
    """The rows that the runs of all months write, by their tables."""
    rows = {"run": [], "charge": [], "part": [], "part_fee": []}
    for k in range(office.months):
        at, count, total = FIRST_MONTH + k, 0, 0
        for b in range(office.branches):
            dues = list(office.dues(b, k))
            amounts = [amount for *_, amount in dues]
            rows["charge"] += dues
            rows["part"].append((at, f"B{b}", max(lease for lease, *_ in dues), len(dues), sum(amounts)))
            rows["part_fee"].append((at, f"B{b}", office.fee(b), sum(amount * office.fee(b) // 10000 for amount in amounts)))
            count, total = count + len(dues), total + sum(amounts)
        rows["run"].append((at, f"R-{k}", count, total, 1))
    return rows


def paid(office, charges):
    """The receipts: the rent of each charge that is paid, and a deposit with the first charge of each lease."""
    taken = []
    for lease, k, at, day, amount in charges:
        if k == 0:
            taken.append((lease, "deposit", 2 * amount, day))
        if at < FIRST_MONTH + office.months - office.unpaid((lease - 1) % office.properties):
            taken.append((lease, "rent", amount, day))
    return [(number, f"K-{number}", *row) for number, row in enumerate(taken, 1)]


def rows_of(office):
    """All rows of the office, by their tables; a table comes behind those that it refers to."""
    rows = {"meta": [(1, 2, FIRST_MONTH, FIRST_MONTH + office.months)]}
    rows |= homes(office, office.properties)
    rows |= signed(office)
    rows |= charged(office)
    rows["receipt"] = paid(office, rows["charge"])
    rows["branch_fee"] = [(f"B{b}", office.fee(b)) for b in range(office.branches)]
    return rows


def arrears(office, rows, branch):
    """What is owed on the properties of the branch."""
    owed = {number: 0 for number, *_ in rows["lease"]}
    for number, _, _, _, amount in rows["charge"]:
        owed[number] += amount
    for _, _, number, kind, amount, _ in rows["receipt"]:
        if kind == "rent":
            owed[number] -= amount
    there = {f"P{n}" for n in office.of_branch(branch)}
    return arrears_lines([(number, client, owed[number]) for number, client, home, *_ in rows["lease"] if home in there and owed[number] > 0])


def statement(rows, wanted):
    [(number, client, home, _, _, _, rent)] = [row for row in rows["lease"] if row[0] == wanted]
    charges = [("charge", day, amount) for lease, _, _, day, amount in rows["charge"] if lease == number]
    receipts = [(kind, day, amount) for _, _, lease, kind, amount, day in rows["receipt"] if lease == number]
    balance = sum(amount for _, _, amount in charges) - sum(amount for kind, _, amount in receipts if kind == "rent")
    return statement_lines(number, client, home, rent, charges + receipts, balance)


def make(path, years, properties):
    """Makes the file, and gives how much is in it and what the program has to print on it."""
    office = FullOffice(properties, years)
    rows = rows_of(office)
    write(path, rows)
    # A lease that ends in the last year, and that owes its last month where there are so many properties.
    number = office.number(min(11, properties - 1), years - 1)
    total = sum(office.agreed(n, office.running(n, office.months)) for n in range(properties))
    return {"leases": len(rows["lease"]), "charges": len(rows["charge"]), "receipts": len(rows["receipt"]), "lease": number,
            "arrears": arrears(office, rows, 0), "statement": statement(rows, number),
            "posted": f"posted {month(office.months)} {properties} {money(total)}"}


class Differs(Exception):
    """A call ended or printed otherwise."""


def waited(words, given, said):
    """The status of a process, its seconds, and the most memory that it had, in bytes."""
    start = time.perf_counter()
    process = subprocess.Popen(words, stdin=given, stdout=said)
    _, status, used = os.wait4(process.pid, 0)
    seconds = time.perf_counter() - start
    process.returncode = os.waitstatus_to_exitcode(status)
    return process.returncode, seconds, used.ru_maxrss * 1024


class Calls(Play):
    """Calls of the program on a copy of a file that was made."""

    def __init__(self, program, folder):
        super().__init__(program, folder)
        self.made, self.path, self.said, self.lines = (folder / name for name in ("made", "office", "said", "lines"))

    def copy(self):
        """The copy is made anew. It is on the disk then, so that no call waits for it."""
        for path in self.folder.glob("office*"):
            path.unlink()
        shutil.copy(self.made, self.path)
        with open(self.path, "rb") as file:
            os.fsync(file.fileno())

    def call(self, want, *words):
        """The seconds and the bytes of memory of a call, which has to end with 0 and to print so."""
        with open(os.devnull, "rb") as given, open(self.said, "w+b") as said:
            status, seconds, memory = waited([self.program, words[0], "--file", self.path, *words[1:]], given, said)
            said.seek(0)
            printed = said.read()
        self.check(" ".join(words), status, printed, want)
        return seconds, memory

    def check(self, words, status, printed, want):
        """The call has to end with 0, and to print these lines."""
        before = self.wrong
        self.same(f"{words}: status", status, 0)
        self.same(words, printed.decode(errors="replace").split("\n"), [*want, ""])
        if self.wrong > before:
            raise Differs

    def line_seconds(self):
        """The seconds of a line of a batch that has answered its first: from when the others are sent to the last reply."""
        first, *others = self.lines.read_bytes().splitlines(keepends=True)
        with subprocess.Popen([self.program, "batch", "--file", self.path], stdin=subprocess.PIPE, stdout=subprocess.PIPE) as batch:
            batch.stdin.write(first)
            batch.stdin.flush()
            printed = batch.stdout.readline()
            start = time.perf_counter()
            # A pipe holds them all.
            batch.stdin.write(b"".join(others))
            batch.stdin.flush()
            printed += b"".join(batch.stdout.readline() for _ in others)
            seconds = time.perf_counter() - start
            batch.stdin.close()
        self.check("batch", batch.returncode, printed, [f"{n} ok" for n in range(1, len(others) + 2)])
        return seconds / len(others)

    def least_memory(self):
        """What the system tells of a process that does nothing: a call that has no more may have had less."""
        with open(os.devnull, "r+b") as nothing:
            return waited(["true"], nothing, nothing)[2]

    def five(self, want, *words):
        return [self.call(want, *words) for _ in range(ROUNDS)]


def sync_seconds(path):
    """The seconds of one fsync of a file with 4 KB more at its end, the mean of many."""
    seconds = 0
    with open(path, "wb", buffering=0) as file:
        for _ in range(SYNCS):
            file.write(bytes(4096))
            start = time.perf_counter()
            os.fsync(file.fileno())
            seconds += time.perf_counter() - start
    return seconds / SYNCS


def least(called):
    return min(seconds for seconds, _ in called)


def span(called):
    """The least and the greatest seconds."""
    return f"{least(called):.3f}-{max(seconds for seconds, _ in called):.3f}"


def printed_by(*words):
    """What a script of this folder prints."""
    return subprocess.run([sys.executable, *words], check=True, stdout=subprocess.PIPE).stdout


def changes(calls, told, years, properties):
    """The least seconds of the next month's run, and those of a line once the file is open. Each run and each batch is on a new copy."""
    # No property has such a rent, so each line is a commit.
    calls.lines.write_text("".join(f"rent,P{n % properties},{money(500000 + n)}\n" for n in range(LINES + 1)))
    key, at = f"R-{12 * years}", month(12 * years)
    runs, lines = [], []
    for _ in range(ROUNDS):
        calls.copy()
        runs.append(calls.call([told["posted"]], "run", "--key", key, "--month", at))
        calls.copy()
        lines.append(calls.line_seconds())
    return least(runs), min(lines)


def figures(calls, years, properties):
    """The row of an office, whose file is made for it."""
    calls.made.unlink(missing_ok=True)
    told = json.loads(printed_by(HERE / "size.py", "make", calls.made, str(years), str(properties)))
    calls.copy()
    arrears_calls = calls.five(told["arrears"], "report", "arrears", "B0")
    statement_calls = calls.five(told["statement"], "report", "statement", str(told["lease"]))
    memory, no_less = max(memory for _, memory in arrears_calls + statement_calls), calls.least_memory()
    run, line = changes(calls, told, years, properties)
    sync = sync_seconds(calls.folder / "synced")
    python = min(float(printed_by(HERE / "runs.py", "open", calls.made)) for _ in range(ROUNDS)) / 1e6
    return (properties, years, told["leases"], told["charges"], told["receipts"], f"{calls.made.stat().st_size / 1e6:.1f}",
            span(arrears_calls), span(statement_calls), f"{'' if memory > no_less else '<'}{memory / 1e6:.0f}", f"{run:.3f}",
            f"{python:.3f}", f"{line * 1e3:.3f}", f"{sync * 1e3:.3f}")


def put_row(values):
    print(" ".join(f"{value:>{width}}" for value, width in zip(values, COLUMNS.values())), flush=True)


def main(program, folder, years, sizes):
    calls = Calls(program, Path(folder))
    put_row(COLUMNS)
    for properties in sizes:
        try:
            put_row(figures(calls, years, properties))
        except Differs:
            print(f"{properties} properties: no figures, since a call differs", flush=True)
    return 1 if calls.wrong else 0


if __name__ == "__main__":
    match sys.argv[1:]:
        case ["make", path, years, properties]:
            print(json.dumps(make(path, int(years), int(properties))))
        case [program, folder, years, *sizes] if sizes:
            sys.exit(main(program, folder, int(years), list(map(int, sizes))))
        case _:
            sys.exit(__doc__)
