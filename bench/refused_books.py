"""The rows of the tables behind lines that were answered, for bench/refused_memory.py: computed from the lines, and read from a
file by Python's own sqlite3. A run is whole as soon as it is opened, as a recovery leaves it."""

import csv
import sqlite3
from calendar import monthrange
from contextlib import closing
from datetime import date

# Each table with the number of its columns that are its key.
KEYS = {"meta": 1, "branch": 1, "staff": 1, "owner": 1, "property": 1, "client": 1, "registration": 2, "viewing": 2, "inspection": 2,
        "lease": 1, "charge": 2, "receipt": 1, "run": 1, "part": 2, "branch_fee": 1, "part_fee": 2, "ending": 1}
# Those that came with the second version.
LATER = {"branch_fee", "part_fee", "ending"}
STAFF, RENT, BRANCH = 8, 6, 9


def pence(text):
    pounds, _, rest = text.partition(".")
    return int(pounds) * 100 + int(rest or 0)


def month_of(text):
    """The number of the month of a day or a month."""
    return 12 * int(text[:4]) + int(text[5:7]) - 1


def plus_months(text, months):
    year, month = divmod(month_of(text) + months, 12)
    return str(date(year, month + 1, min(int(text[8:]), monthrange(year, month + 1)[1])))


class Books:
    def __init__(self, first):
        self.tables = {table: {} for table in KEYS}
        self.first = self.next = month_of(first)

    def put(self, table, *row):
        self.tables[table][row[:KEYS[table]]] = row

    def change(self, table, key, column, value):
        row = self.tables[table][key]
        self.tables[table][key] = (*row[:column], value, *row[column + 1:])

    def run(self, key, month):
        """The month's charges, its part rows and their fees, computed from the leases, and its run, closed."""
        parts = {branch: (0, 0, 0) for branch, in self.tables["branch"]}
        fees = {branch: self.tables["branch_fee"].get((branch,), (branch, 0))[1] for branch in parts}
        taken = dict.fromkeys(parts, 0)
        for lease, _, place, start, months, _, rent in sorted(self.tables["lease"].values()):
            k = month_of(month) - month_of(start)
            if 0 <= k < self.tables["ending"].get((lease,), (lease, months))[1]:
                branch = self.tables["property"][place,][BRANCH]
                _, count, total = parts[branch]
                parts[branch] = lease, count + 1, total + rent
                taken[branch] += rent * fees[branch] // 10000
                self.put("charge", lease, k, month_of(month), plus_months(start, k), rent)
        for branch, part in parts.items():
            self.put("part", month_of(month), branch, *part)
            self.put("part_fee", month_of(month), branch, fees[branch], taken[branch])
        self.put("run", month_of(month), key, sum(part[1] for part in parts.values()), sum(part[2] for part in parts.values()), 1)
        self.next += 1

    def accept(self, reply, word, fields):
        """Puts in the rows of an accepted line."""
        match word, fields:
            case "branch" | "staff" | "owner" | "inspection", _:
                self.put(word, *fields)
            case "fee", [branch, fee]:
                self.put("branch_fee", branch, int(fee))
            case "end", [lease, months]:
                self.put("ending", int(lease), int(months))
            case "register", _:
                self.put("registration", *fields)
            case "property", [*texts, rooms, rent, owner, staff, branch]:
                self.put("property", *texts, int(rooms), pence(rent), owner, staff or None, branch)
            case "client", [*texts, rent]:
                self.put("client", *texts, pence(rent))
            case "assign", [place, staff]:
                self.change("property", (place,), STAFF, staff or None)
            case "rent", [place, rent]:
                self.change("property", (place,), RENT, pence(rent))
            case "viewing", [*texts, comment]:
                self.put("viewing", *texts, comment or None)
            case "comment", [client, place, comment]:
                self.change("viewing", (client, place), 3, comment)
            case "lease", [number, client, place, start, months, method]:
                self.put("lease", int(number), client, place, start, int(months), method, self.tables["property"][place,][RENT])
            case "receipt", [key, lease, kind, amount, day]:
                self.put("receipt", int(reply.split()[1]), key, int(lease), kind, pence(amount), day)
            case "run" | "open", [key, month]:
                self.run(key, month)

    def rows(self):
        self.put("meta", 1, 2, self.first, self.next)
        return {table: sorted(rows.values()) for table, rows in self.tables.items()}


def is_accepted(word, reply):
    return word not in ("show", "post") and not reply.startswith(("already", "refused", "bad"))


def rows_behind(first, lines, replies):
    """The rows before the lines, and behind each of them."""
    books = Books(first)
    steps = [books.rows()]
    for (word, *fields), reply in zip(csv.reader(lines.decode().splitlines()), replies, strict=True):
        if is_accepted(word, reply):
            books.accept(reply, word, fields)
        steps.append(books.rows())
    return steps


def migrated(rows):
    """The rows of a file of the first version, once it is taken to the second."""
    meta = [(number, 2, *months) for number, _, *months in rows["meta"]]
    fees = [(month, branch, 0, 0) for month, branch, *_ in rows["part"]]
    return rows | {"meta": meta, "branch_fee": [], "part_fee": fees, "ending": []}


def rows_of(path):
    """The rows of the file, of either version, whose integrity Python's sqlite3 has checked."""
    with closing(sqlite3.connect(f"file:{path}?mode=rw", uri=True)) as conn:
        names = {name for name, in conn.execute("SELECT name FROM sqlite_schema WHERE type = 'table'")}
        if names not in (set(KEYS), set(KEYS) - LATER):
            raise ValueError(f"the tables are {names}")
        for text, wanted in (("PRAGMA integrity_check", [("ok",)]), ("PRAGMA foreign_key_check", [])):
            if (found := conn.execute(text).fetchall()) != wanted:
                raise ValueError(f"{text}: {found}")
        return {table: sorted(conn.execute(f"SELECT * FROM {table}").fetchall()) for table in KEYS if table in names}
