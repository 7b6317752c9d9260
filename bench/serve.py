#!/usr/bin/env python3
"""The lines, the client and Python's own server for bench/serve.sh.

serve.py lines                  lines of a branch, a member of staff, an owner and a thousand properties
serve.py answer FILE COUNT      makes the same tables and rows in FILE, prints `port P`, answers so many connections, and prints the
                                status of each
serve.py time LETTING PYTHON    prints the requests a second of `letting serve` on the file LETTING, and of the above on PYTHON
"""

import json
import re
import socket
import subprocess
import sys
import time
from contextlib import contextmanager
from http.server import BaseHTTPRequestHandler, HTTPServer
from pathlib import Path

from tables import made_tables

PROPERTIES = 1000
REQUESTS = 1000
ROUNDS = 3
# The two servers take turns after so many requests, so that what else the machine does falls on both.
TURN = 20
LETTING = str(Path(__file__).parent.parent / "letting")
ID = re.compile("[A-Z][A-Z0-9]{0,7}").fullmatch
MONEY = re.compile("[0-9]{1,6}([.][0-9]{2})?").fullmatch


def lines():
    yield "branch,B001,1 Main St,Leeds,LS1 1AA"
    yield "staff,S1,Ann Lee,Assistant,B001"
    yield "owner,O1,Tom Ray,2 Low Rd Leeds,0113 1"
    for n in range(PROPERTIES):
        yield f"property,P{n},{n} Hill Rd,Leeds,LS2 2BB,Flat,3,650.00,O1,,B001"


def pence(text):
    pounds, _, rest = text.partition(".")
    return int(pounds) * 100 + int(rest or 0)


class Office:
    def __init__(self, path):
        self.conn = made_tables(path)
        self.conn.execute("BEGIN")
        for line in lines():
            table, *row = line.split(",")
            if table == "property":
                row[5:9] = int(row[5]), pence(row[6]), row[7], row[8] or None
            self.conn.execute(f"INSERT INTO {table} VALUES ({', '.join('?' * len(row))})", row)
        self.conn.execute("COMMIT")

    def rent(self, number, rent):
        found = self.conn.execute("SELECT rent FROM property WHERE property_no = ?", (number,)).fetchone()
        if found is None:
            return 2, "refused 2 2"
        if found[0] == pence(rent):
            return 0, "already"
        self.conn.execute("BEGIN")
        self.conn.execute("UPDATE property SET rent = ? WHERE property_no = ?", (pence(rent), number))
        self.conn.execute("COMMIT")
        return 0, "ok"

    def command(self, fields):
        """The code and the text of the reply; of the commands there is `rent` alone."""
        kinds = "rent".__eq__, ID, lambda text: MONEY(text) and pence(text)
        for number, (kind, field) in enumerate(zip(kinds, fields), 1):
            if not kind(field):
                return 15, f"bad field {number}"
        if len(fields) != len(kinds):
            return 15, f"bad field {min(len(fields), len(kinds)) + 1}"
        return self.rent(*fields[1:])

    def branches(self):
        rows = self.conn.execute("SELECT branch_no, city FROM branch ORDER BY branch_no")
        return "".join(f"{number:8} {city}\n" for number, city in rows)


class Handler(BaseHTTPRequestHandler):
    protocol_version = "HTTP/1.1"
    # An answer goes out in one write.
    wbufsize = -1

    def do_GET(self):
        if self.path == "/branches":
            self.answer(200, "text/plain; charset=utf-8", self.server.office.branches())
        else:
            self.answer(404)

    def do_POST(self):
        if self.path != "/commands":
            return self.answer(404)
        try:
            fields = json.loads(self.rfile.read(int(self.headers["Content-Length"])))
        except (TypeError, ValueError):
            return self.answer(400)
        if not isinstance(fields, list) or not all(isinstance(field, str) for field in fields):
            return self.answer(400)
        code, text = self.server.office.command(fields)
        body = json.dumps({"code": code, "text": text}, separators=(",", ":"))
        self.answer({0: 200, 15: 400}.get(code, 409), "application/json", body)

    def answer(self, status, kind=None, text=""):
        body = text.encode()
        # Without the lines Server and Date.
        self.send_response_only(status)
        if kind:
            self.send_header("Content-Type", kind)
        self.send_header("Content-Length", str(len(body)))
        self.send_header("Connection", "close")
        self.end_headers()
        self.wfile.write(body)
        self.wfile.flush()
        print(status, flush=True)
        self.server.left -= 1


class Server(HTTPServer):
    def service_actions(self):
        if self.left == 0:
            sys.exit()


def answer(path, count):
    with Server(("127.0.0.1", 0), Handler) as server:
        server.office = Office(path)
        server.left = count
        print("port", server.server_port, flush=True)
        server.serve_forever()


@contextmanager
def serving(*words):
    """The port of the server of these words, which ends by itself; a pipe holds all its statuses, each of which must be 200."""
    process = subprocess.Popen(words, stdout=subprocess.PIPE, text=True)
    try:
        first = process.stdout.readline()
        if not first.startswith("port "):
            sys.exit(f"{' '.join(words)}: no port, but {first!r}")
        yield int(first[5:])
        statuses, _ = process.communicate(timeout=30)
        if process.returncode != 0 or set(statuses.split()) != {"200"}:
            sys.exit(f"{' '.join(words)}: ended with {process.returncode}, after the statuses {set(statuses.split())}")
    finally:
        process.kill()
        process.wait()


def answered(port, request):
    with socket.create_connection(("127.0.0.1", port), timeout=10) as connection:
        connection.sendall(request)
        parts = []
        while part := connection.recv(65536):
            parts.append(part)
    return b"".join(parts)


def seconds(port, requests, wanted):
    start = time.perf_counter()
    answers = [answered(port, request) for request in requests]
    taken = time.perf_counter() - start
    for found in answers:
        if found != wanted:
            sys.exit(f"answered {found}, not {wanted}")
    return taken


def round_of(ports, requests, wanted):
    """The seconds that each server takes for the requests."""
    turns = [requests[start:start + TURN] for start in range(0, len(requests), TURN)]
    return [sum(taken) for taken in zip(*([seconds(port, turn, wanted) for port in ports] for turn in turns))]


def rent(n):
    """The request n of all rents, none of which is the one before of the property."""
    body = json.dumps(["rent", f"P{n % PROPERTIES}", f"{100 + n // 100}.{n % 100:02}"], separators=(",", ":"))
    return f"POST /commands HTTP/1.1\r\nHost: localhost\r\nContent-Length: {len(body)}\r\n\r\n{body}".encode()


def answer_of(kind, body):
    return f"HTTP/1.1 200 OK\r\nContent-Type: {kind}\r\nContent-Length: {len(body)}\r\nConnection: close\r\n\r\n{body}".encode()


RENT = answer_of("application/json", '{"code":0,"text":"ok"}')
BRANCHES = answer_of("text/plain; charset=utf-8", "B001     Leeds\n")


def put_times(letting, python):
    count = str(2 * REQUESTS * ROUNDS)
    times = {"rent": [], "branches": []}
    with (serving(LETTING, "serve", "--file", letting, "--port", "0", "--count", count) as first,
          serving(sys.executable, __file__, "answer", python, count) as second):
        for start in range(0, REQUESTS * ROUNDS, REQUESTS):
            rents = [rent(n) for n in range(start, start + REQUESTS)]
            lists = [b"GET /branches HTTP/1.1\r\nHost: localhost\r\n\r\n"] * REQUESTS
            times["rent"].append(round_of((first, second), rents, RENT))
            times["branches"].append(round_of((first, second), lists, BRANCHES))
    print(f"{'request':10} {'letting':>12} {'http.server':>12}")
    for name, rounds in times.items():
        print(f"{name:10}", *(f"{REQUESTS / min(taken):12.0f}" for taken in zip(*rounds)))


match sys.argv[1:]:
    case ["lines"]:
        print("\n".join(lines()))
    case ["answer", path, count]:
        answer(path, int(count))
    case ["time", letting, python]:
        put_times(letting, python)
    case _:
        sys.exit(__doc__)
