#!/usr/bin/env python3
"""Files with the tables of an office, made and read by Python's own sqlite3.

tables.py make FILE ROWS CHARGES    makes FILE with so many rows a table, FILE.asked with a thousand of each table's rows,
                                    and FILE.new with a thousand rows that FILE lacks
tables.py fetch FILE                prints the least time of five of fetching all rows, in memory and from the file
"""

import re
import sqlite3
import sys
import time
from pathlib import Path

SOURCES = Path(__file__).parent.parent / "crates/dh_ddl/src"
SAMPLE = 1000
FIRST_MONTH = 24000
# A run has a month of its own, of which there are 2,412.
RUNS = 2000
NEW_RUNS = 400
# Ten sampled rows are of each of the first months, and no other row is.
CROWDED_MONTHS = FIRST_MONTH + SAMPLE // 10
TABLES = ["branch", "staff", "owner", "property", "client", "registration", "viewing", "inspection", "lease", "charge",
          "receipt", "run", "part"]


def columns_of(table):
    """The columns of a table as the product makes it, each with what it holds."""
    rule = re.search(rf"\n    \(\$what:ident, {table},.*?\n    }};", (SOURCES / "columns.rt").read_text(), re.S).group()
    return ", ".join(f"{name} {holds}" for name, holds in re.findall(r'"(\w+)" "\?\d+" "(.*?)"', rule))


def texts_of(name="SECOND"):
    """The statements of this list of the product, in their order: those that make the tables and indexes of a version, or those of the second
    of those of the first."""
    source = (SOURCES / "texts.rt").read_text()
    texts = dict(re.findall(r'const (\w+): &str =\s*"(.*?)";', source))
    for text, table, more in re.findall(r'const (\w+): &str = text_of!\(\s*create,\s*(\w+),\s*"(.*?)"\s*\)', source):
        texts[text] = f"CREATE TABLE {table} ({columns_of(table)}{more}) STRICT"

    def listed(head):
        return [word for word in re.findall(r"\w+", re.search(rf"{head}(.*?)[)\]]", source, re.S).group(1)) if word in texts]

    tables = listed(r"\$list!\(")
    first, second = (listed(rf"macro_rules! {macro} .*?\$\(\$text,\)\*") for macro in ("first_list", "second_list"))
    order = {"FIRST": tables + first, "SECOND": tables + second, "FIRST_TO_SECOND": listed(r"second_list!\(") + second}[name]
    return [texts[name] for name in order]


def opened(path):
    """A connection that journals and checks as the store does on a file. Each statement is a transaction where none was begun."""
    conn = sqlite3.connect(path, isolation_level=None)
    conn.execute("PRAGMA journal_mode = WAL")
    conn.execute("PRAGMA foreign_keys = ON")
    return conn


def made_tables(path, texts=None):
    """Such a connection to a new file or to memory, with the tables that these texts make, or all where none are given."""
    conn = opened(path)
    for text in texts_of() if texts is None else texts:
        conn.execute(text)
    return conn


class Rows:
    """The rows of each table by their number; those of a number past the table's refer to rows that it has."""

    def __init__(self, rows, charges):
        self.rows = rows
        self.counts = {table: rows for table in TABLES} | {"charge": charges, "run": min(rows, RUNS)}

    def stride(self, table):
        return max(1, self.counts[table] // SAMPLE)

    def month(self, table, number):
        stride = self.stride(table)
        if number < self.counts[table] and number % stride == 0 and number // stride < SAMPLE:
            return FIRST_MONTH + number // stride // 10
        return CROWDED_MONTHS + number % (RUNS - SAMPLE // 10)

    def branch(self, n):
        return f"B{n}", "1 Main St", "Leeds", "LS1 1AA"

    def staff(self, n):
        return f"S{n}", "Ann Lee", "Assistant", f"B{n % self.rows}"

    def owner(self, n):
        return f"O{n}", "Tom Ray", "2 Low Rd Leeds", "0113 1"

    def property(self, n):
        return (f"P{n}", "3 High St", "Leeds", "LS2 2BB", "Flat", 2, 50000 + n % 997, f"O{n // 5}", f"S{n // 100}",
                f"B{n % self.rows}")

    def client(self, n):
        return f"C{n}", "Eve Orr", "0113 2", "Flat", 70000

    def registration(self, n):
        branch = (n * 7919 + n // self.rows) % self.rows
        return f"C{n % self.rows}", f"B{branch}", f"S{n % self.rows}", "2025-01-01"

    def viewing(self, n):
        place = (n * 7919 + n // self.rows) % self.rows
        return f"C{n % self.rows}", f"P{place}", "2025-01-02", "Too small" if n % 2 else None

    def inspection(self, n):
        return f"P{n // 4}", f"2025-01-{n % 4 + 1:02}", f"S{n % self.rows}", "All well"

    def lease(self, n):
        return n + 1, f"C{n // 2}", f"P{n // 3}", f"2025-01-{n % 28 + 1:02}", 12, "Cash", 50000 + n % 997

    def charge(self, n):
        month = self.month("charge", n)
        return n // 10 + 1, n % 10, month, f"{month // 12}-{month % 12 + 1:02}-15", 50000 + n % 997

    def receipt(self, n):
        kind = "rent" if n % 10 else "deposit"
        return n + 1, f"payment-{n + 1}", n // 10 + 1, kind, 50000 + n % 997, "2025-01-31"

    def run(self, n):
        is_open = n + 1 == self.counts["run"]
        return FIRST_MONTH + n, f"run-{n + 1}", 10, 500000, 0 if is_open else 1

    def part(self, n):
        return self.month("part", n), f"B{n % self.rows}", 0, 10, 500000


def make_file(path, rows, texts, numbers):
    """A file with the rows of these numbers of each table."""
    Path(path).unlink(missing_ok=True)
    conn = sqlite3.connect(path)
    conn.executescript("PRAGMA journal_mode = OFF; PRAGMA synchronous = OFF")
    for text in texts:
        conn.execute(text)
    conn.execute("INSERT INTO meta VALUES (1, 2, ?, ?)", (FIRST_MONTH, FIRST_MONTH + RUNS))
    for table in TABLES:
        row = getattr(rows, table)
        places = ", ".join("?" * len(row(0)))
        conn.executemany(f"INSERT INTO {table} VALUES ({places})", map(row, numbers(table)))
    conn.commit()
    conn.close()


def sample(rows, table):
    stride = rows.stride(table)
    return range(0, min(rows.counts[table], stride * SAMPLE), stride)


def new_numbers(rows, table):
    first = rows.counts[table]
    return range(first, first + (NEW_RUNS if table == "run" else SAMPLE))


def make(path, count, charges):
    rows = Rows(count, charges)
    texts = texts_of()
    make_file(path, rows, texts, lambda table: range(rows.counts[table]))
    # Rows by themselves refer to rows that aren't there, and a file that breaks its references isn't opened.
    loose = [re.sub(r",? FOREIGN KEY \([^)]*\) REFERENCES \w+| REFERENCES \w+", "", text) for text in texts]
    make_file(path + ".asked", rows, loose, lambda table: sample(rows, table))
    make_file(path + ".new", rows, loose, lambda table: new_numbers(rows, table))


def fetched(conn):
    """All rows of the fourteen tables."""
    return [conn.execute(f"SELECT * FROM {table}").fetchall() for table in ["meta"] + TABLES]


def least(call):
    times = []
    for _ in range(5):
        start = time.perf_counter()
        answer = call()
        times.append(time.perf_counter() - start)
        del answer
    return min(times)


def fetch(path):
    start = time.perf_counter()
    conn = sqlite3.connect(path)
    conn.execute("SELECT name FROM sqlite_schema").fetchall()
    opening = time.perf_counter() - start
    memory = sqlite3.connect(":memory:")
    conn.backup(memory)
    print(f"memory {least(lambda: fetched(memory)):.6f}")
    print(f"file {least(lambda: fetched(conn)):.6f}")
    print(f"opening {opening:.6f}")


def main(words):
    match words:
        case ["make", path, rows, charges]:
            make(path, int(rows), int(charges))
        case ["fetch", path]:
            fetch(path)
        case _:
            sys.exit(__doc__)


if __name__ == "__main__":
    main(sys.argv[1:])
