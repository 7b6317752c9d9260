#!/usr/bin/env python3
"""Lines of an office's day for bench/lines.sh, and the same job done by Python's own sqlite3.

lines.py lines COUNT      so many lines: commands of each daily kind, and statements of leases with few rows
lines.py answer [FILE]    answers the lines of standard input by the same tables, in memory or in FILE, a commit a command
"""

import csv
import re
import sys
from datetime import date

from tables import made_tables

FIRST_MONTH = 12 * 2025
ID = re.compile("[A-Z][A-Z0-9]{0,7}").fullmatch
TEXT = re.compile("[^\x00-\x1f\x7f]{1,60}").fullmatch
COMMENT = re.compile("[^\x00-\x1f\x7f]{1,200}").fullmatch
KEY = re.compile("[A-Za-z0-9-]{1,40}").fullmatch
LEASE = re.compile("[1-9][0-9]{0,7}").fullmatch
MONEY = re.compile("[0-9]{1,6}([.][0-9]{2})?").fullmatch
MONTHS = re.compile("[3-9]|1[0-2]").fullmatch
ROOMS = re.compile("[1-9]|1[0-5]").fullmatch
TYPE = ("House", "Flat").__contains__
POSITION = ("Manager", "Supervisor", "Assistant").__contains__
METHOD = ("Cash", "Cheque", "Card", "Transfer").__contains__
KIND = ("rent", "deposit").__contains__


def is_day(text):
    try:
        return 2000 <= date.fromisoformat(text).year <= 2199
    except ValueError:
        return False


FIELDS = {
    "branch": (ID, TEXT, TEXT, TEXT),
    "staff": (ID, TEXT, POSITION, ID),
    "owner": (ID, TEXT, TEXT, TEXT),
    "property": (ID, TEXT, TEXT, TEXT, TYPE, ROOMS, MONEY, ID, lambda text: not text or ID(text), ID),
    "rent": (ID, MONEY),
    "client": (ID, TEXT, TEXT, TYPE, MONEY),
    "register": (ID, ID, ID, is_day),
    "viewing": (ID, ID, is_day, lambda text: not text or COMMENT(text)),
    "comment": (ID, ID, COMMENT),
    "inspection": (ID, is_day, ID, COMMENT),
    "lease": (LEASE, ID, ID, is_day, MONTHS, METHOD),
    "receipt": (KEY, LEASE, KIND, MONEY, is_day),
    "statement": (LEASE,),
}


def group(n):
    """Lines whose rows refer to one another."""
    day = f"2025-01-{n % 28 + 1:02}"
    yield f"branch,B{n},{n} Main St,Leeds,LS1 1AA"
    yield f"staff,S{n},Ann Lee,Assistant,B{n}"
    yield f"owner,O{n},Tom Ray,2 Low Rd Leeds,0113 1"
    yield f"property,P{n},{n} Hill Rd,Leeds,LS2 2BB,Flat,3,650.00,O{n},S{n},B{n}"
    yield f"client,C{n},Mia Fox,0113 2,Flat,700.00"
    yield f"register,C{n},B{n},S{n},{day}"
    yield f"viewing,C{n},P{n},{day},"
    yield f"comment,C{n},P{n},Likes the light"
    yield f"inspection,P{n},{day},S{n},Dry"
    yield f"lease,{n + 1},C{n},P{n},{day},3,Cash"
    yield f"receipt,K{n},{n + 1},rent,650.00,{day}"
    yield f"rent,P{n},700.00"
    yield f"show,statement,{n + 1}"


def put_lines(count):
    n = 0
    while count > 0:
        for line in list(group(n))[:count]:
            print(line)
            count -= 1
        n += 1


def pence(text):
    pounds, _, rest = text.partition(".")
    return int(pounds) * 100 + int(rest or 0)


def plus_months(day, months):
    year, month = divmod(day.year * 12 + day.month - 1 + months, 12)
    for last in (day.day, 30, 29, 28):
        try:
            return date(year, month + 1, min(last, day.day))
        except ValueError:
            pass


class Office:
    def __init__(self, path):
        self.conn = made_tables(path)
        self.conn.execute(f"INSERT INTO meta VALUES (1, 2, {FIRST_MONTH}, {FIRST_MONTH})")

    def one(self, text, *values):
        return self.conn.execute(text, values).fetchone()

    def has(self, table, value):
        return self.one(f"SELECT 1 FROM {table} WHERE {table}_no = ?", value) is not None

    def change(self, text, *values):
        self.conn.execute("BEGIN")
        self.conn.execute(text, values)
        self.conn.execute("COMMIT")
        return "ok"

    def insert(self, table, row):
        return self.change(f"INSERT INTO {table} VALUES ({', '.join('?' * len(row))})", *row)

    def open_run(self):
        (next_month,) = self.one("SELECT next_month FROM meta")
        found = self.one("SELECT month FROM run WHERE month = ? AND closed = 0", next_month - 1)
        return found and f"refused 10 {found[0] // 12}-{found[0] % 12 + 1:02}"

    def there(self, table, row, keys=1):
        found = self.one(f"SELECT * FROM {table} WHERE {' AND '.join(KEYS[table])}", *row[:keys])
        return found and ("already" if found == tuple(row) else "refused 1")

    def branch(self, *row):
        return self.open_run() or self.there("branch", row) or self.insert("branch", row)

    def staff(self, *row):
        return self.there("staff", row) or (self.insert("staff", row) if self.has("branch", row[3]) else "refused 2 5")

    def owner(self, *row):
        return self.there("owner", row) or self.insert("owner", row)

    def property(self, *fields):
        row = (*fields[:5], int(fields[5]), pence(fields[6]), fields[7], fields[8] or None, fields[9])
        found = self.there("property", row)
        if found:
            return found
        for table, value, number in (("owner", row[7], 9), ("staff", row[8], 10), ("branch", row[9], 11)):
            if value and not self.has(table, value):
                return f"refused 2 {number}"
        if row[8]:
            if self.one("SELECT branch_no FROM staff WHERE staff_no = ?", row[8])[0] != row[9]:
                return "refused 3"
            if self.one("SELECT count(*) FROM property WHERE staff_no = ?", row[8])[0] >= 100:
                return "refused 4"
        return self.insert("property", row)

    def rent(self, number, rent):
        found = self.one("SELECT rent FROM property WHERE property_no = ?", number)
        if found is None:
            return "refused 2 2"
        return "already" if found[0] == pence(rent) else self.change("UPDATE property SET rent = ? WHERE property_no = ?", pence(rent), number)

    def client(self, *fields):
        row = (*fields[:4], pence(fields[4]))
        return self.there("client", row) or self.insert("client", row)

    def register(self, *row):
        found = self.there("registration", row, 2)
        if found:
            return found
        for table, value, number in (("client", row[0], 2), ("branch", row[1], 3), ("staff", row[2], 4)):
            if not self.has(table, value):
                return f"refused 2 {number}"
        if self.one("SELECT branch_no FROM staff WHERE staff_no = ?", row[2])[0] != row[1]:
            return "refused 3"
        return self.insert("registration", row)

    def viewing(self, *fields):
        row = (*fields[:3], fields[3] or None)
        found = self.there("viewing", row, 2)
        if found:
            return found
        for table, value, number in (("client", row[0], 2), ("property", row[1], 3)):
            if not self.has(table, value):
                return f"refused 2 {number}"
        return self.insert("viewing", row)

    def comment(self, client, number, comment):
        found = self.one("SELECT comment FROM viewing WHERE client_no = ? AND property_no = ?", client, number)
        if found is None:
            return "refused 2 2"
        if found[0] == comment:
            return "already"
        return self.change("UPDATE viewing SET comment = ? WHERE client_no = ? AND property_no = ?", comment, client, number)

    def inspection(self, *row):
        found = self.there("inspection", row, 2)
        if found:
            return found
        for table, value, number in (("property", row[0], 2), ("staff", row[2], 4)):
            if not self.has(table, value):
                return f"refused 2 {number}"
        return self.insert("inspection", row)

    def lease(self, number, client, place, start, months, method):
        found = self.open_run()
        if found:
            return found
        row = self.one("SELECT * FROM lease WHERE lease_no = ?", int(number))
        if row is not None:
            return "already" if row[:6] == (int(number), client, place, start, int(months), method) else "refused 1"
        if not self.has("client", client):
            return "refused 2 3"
        found = self.one("SELECT rent, branch_no FROM property WHERE property_no = ?", place)
        if found is None:
            return "refused 2 4"
        if self.one("SELECT 1 FROM registration WHERE client_no = ? AND branch_no = ?", client, found[1]) is None:
            return "refused 13"
        day = date.fromisoformat(start)
        (next_month,) = self.one("SELECT next_month FROM meta")
        if day.year * 12 + day.month - 1 < next_month:
            return f"refused 7 {next_month // 12}-{next_month % 12 + 1:02}"
        same = self.one("SELECT lease_no FROM lease WHERE client_no = ? AND start_day = ?", client, start)
        if same is not None:
            return f"refused 6 {same[0]}"
        end = plus_months(day, int(months))
        for other, begin, length in self.conn.execute("SELECT lease_no, start_day, months FROM lease WHERE property_no = ? ORDER BY lease_no", (place,)):
            begin = date.fromisoformat(begin)
            if begin < end and day < plus_months(begin, length):
                return f"refused 5 {other}"
        return self.insert("lease", (int(number), client, place, start, int(months), method, found[0]))

    def receipt(self, key, lease, kind, amount, day):
        found = self.open_run()
        if found:
            return found
        row = self.one("SELECT * FROM receipt WHERE req_key = ?", key)
        if row is not None:
            return f"already receipt {row[0]}" if row[2:] == (int(lease), kind, pence(amount), day) else "refused 9"
        if self.one("SELECT 1 FROM run WHERE req_key = ?", key) is not None:
            return "refused 9"
        found = self.one("SELECT rent FROM lease WHERE lease_no = ?", int(lease))
        if found is None:
            return "refused 2 3"
        if kind == "deposit":
            if self.one("SELECT 1 FROM receipt WHERE lease_no = ? AND kind = 'deposit'", int(lease)) is not None:
                return "refused 12"
            if pence(amount) != 2 * found[0]:
                return f"refused 11 {2 * found[0] // 100}.{2 * found[0] % 100:02}"
        last = self.one("SELECT receipt_no FROM receipt ORDER BY receipt_no DESC LIMIT 1")
        number = (last[0] if last else 0) + 1
        self.insert("receipt", (number, key, int(lease), kind, pence(amount), day))
        return f"receipt {number}"

    def statement(self, lease):
        found = self.open_run()
        if found:
            return found
        row = self.one("SELECT client_no, property_no, rent FROM lease WHERE lease_no = ?", int(lease))
        if row is None:
            return "refused 2 3"
        lines = [f"{lease:>8} {row[0]:8} {row[1]:8} {money(row[2])}"]
        balance = 0
        for day, amount in self.conn.execute("SELECT day, amount FROM charge WHERE lease_no = ? ORDER BY k", (int(lease),)):
            lines.append(f"{'charge':8} {day} {money(amount)}")
            balance += amount
        for kind, day, amount in self.conn.execute("SELECT kind, day, amount FROM receipt WHERE lease_no = ? ORDER BY receipt_no", (int(lease),)):
            lines.append(f"{kind:8} {day} {money(amount)}")
            balance -= amount if kind == "rent" else 0
        lines.append(f"{'balance':8} {'':10} {money(balance)}")
        return "\n".join([f"shown {len(lines)}", *lines])


KEYS = {table: [f"{table}_no = ?"] for table in ("branch", "staff", "owner", "property", "client")} | {
    "registration": ["client_no = ?", "branch_no = ?"],
    "viewing": ["client_no = ?", "property_no = ?"],
    "inspection": ["property_no = ?", "day = ?"],
}


def money(amount):
    return f"{'-' * (amount < 0)}{abs(amount) // 100}.{abs(amount) % 100:02}".rjust(12)


def replied(office, record):
    first = 1
    if record[0] == "show":
        record, first = record[1:], 2
    word, fields = record[0], record[1:]
    kinds = FIELDS.get(word)
    if kinds is None:
        return f"bad field {first}"
    for number, (kind, field) in enumerate(zip(kinds, fields), first + 1):
        if not kind(field):
            return f"bad field {number}"
    if len(fields) != len(kinds):
        return f"bad field {first + min(len(fields), len(kinds)) + 1}"
    return getattr(office, word)(*fields)


def answer(path):
    office = Office(path)
    for number, record in enumerate(csv.reader(sys.stdin), 1):
        sys.stdout.write(f"{number} {replied(office, record)}\n")
        sys.stdout.flush()
    office.conn.close()


match sys.argv[1:]:
    case ["lines", count]:
        put_lines(int(count))
    case ["answer", *path]:
        answer(path[0] if path else ":memory:")
    case _:
        sys.exit(__doc__)
