#!/usr/bin/env python3
"""Plays the jobs of bench/refused_memory.sh: PROGRAM WORK STRIDE FIRST [JOB..], where WORK has refuse.so; with no job named, all of them."""

import re
import socket
import sys
import time
from bisect import bisect_left, bisect_right
from collections import Counter
from itertools import accumulate, pairwise
from pathlib import Path

from migration import make
from refused_books import migrated, rows_behind, rows_of
from refused_jobs import FIRST_MONTH, ON_FILE, Asked, BadWords, Bench, Job, Service, replied, shown

HERE = Path(__file__).parent
LINES = (HERE / "refused_memory/day.csv").read_bytes()
ANSWERS = (HERE / "refused_memory/day.out").read_bytes()
THREE = (HERE.parent / "examples/three-branches.csv").read_bytes()
RUN = b"run,R-1,2025-01\n"
HALF = b"open,R-1,2025-01\npost,1\n"
# So many wrong answers of a job are printed.
MOST_TOLD = 5

REPORTS = {
    "branches": b"B001     Leeds\nB002     York\nB003     Hull\n",
    "vacant 2025-01-10": b"P101     Flat   2       650.00 Leeds\nP301     House  4       375.00 Hull\n",
    "matching C001 2025-07-10": b"P102     Flat   1       400.00 Leeds\nP101     Flat   2       650.00 Leeds\n",
    "statement 10001": b"   10001 C001     P101           650.00\ncharge   2025-01-31       650.00\nbalance                   650.00\n",
    "arrears B001": b"   10001 C001           650.00 Eve Orr\n   10002 C002           400.00 Ian Poe\ntotal                  1050.00\n",
    "run 2025-01": b"B001            2      1050.00\nB002            0         0.00\nB003            1       375.00\n2025-01         3      1425.00\n",
    "owner O1 2025-01": b"   10001 P101           650.00         0.00\n   10002 P102           400.00         0.00\n"
                        b"   10003 P301           375.00         0.00\ntotal                  1425.00         0.00\npayable                1425.00\n",
}
FROB = b"error: unrecognized subcommand 'frob'\n\nUsage: letting <COMMAND>\n\nFor more information, try '--help'.\n"

RENT = b"rent,P101,700.00\n"
RECEIPT = b"receipt,K-1,10001,rent,650.00,2025-02-01\n"


def post(body):
    return b"POST /commands HTTP/1.0\r\nContent-Length: %d\r\n\r\n%b" % (len(body), body)


def get(target):
    return b"GET %b HTTP/1.1\r\nHost: localhost\r\n\r\n" % target


def vacant(done):
    return shown(b"P101     Flat   2       %b Leeds\n" % (b"700.00" if 0 in done else b"650.00"))


def statement(done):
    lease = b"   10001 C001     P101           650.00\n"
    if 2 in done:
        return shown(lease + b"rent     2025-02-01       650.00\nbalance                  -650.00\n")
    return shown(lease + b"balance                     0.00\n")


# The requests 0 and 2 change the books; which of them were carried out, `done` says.
REQUESTS = [
    Asked(post(b'["rent","P101","700.00"]'), lambda done: replied(200, b"OK", 0, "ok"), True),
    Asked(get(b"/vacant/2025-05-01"), vacant),
    Asked(post(b'["receipt","K-1","10001","rent","650.00","2025-02-01"]'), lambda done: replied(200, b"OK", 0, "receipt 1"), True),
    Asked(get(b"/statement/10001"), statement),
    Asked(post(b'["lease","10004","C001","P101","2025-04-29","3","Cash"]'), lambda done: replied(409, b"Conflict", 5, "refused 5 10001")),
]


def answers_of(text):
    """The answers of a batch, each with its report."""
    return re.findall(rb"^[0-9]+ .*\n(?:(?![0-9]+ ).*\n)*", text, re.M)


def rows_after(lines, replies):
    return rows_behind(FIRST_MONTH, lines, replies)[-1]


def first_version(bench, name, months, is_open=False):
    """A folder with a file of the first version, and the file's rows."""
    folder = bench.folder(name)
    make(folder / "office.db", 3, months, is_open)
    return folder, rows_of(folder / "office.db")


def all_jobs(bench):
    oks = ["ok"] * THREE.count(b"\n")
    three, ran = rows_after(THREE, oks), rows_after(THREE + RUN, [*oks, "posted"])
    day = rows_behind(FIRST_MONTH, LINES, [re.match(rb"[0-9]+ (.*)", answer)[1].decode() for answer in answers_of(ANSWERS)])
    none, blank, let = bench.folder("none"), bench.folder("blank", b""), bench.folder("let", THREE)
    half, posted = bench.folder("half", THREE + HALF), bench.folder("posted", THREE + RUN)
    run = ["run", *ON_FILE, "--key", "R-1", "--month", "2025-01"]
    yield Job("init", ["init", *ON_FILE, "--first", FIRST_MONTH], none, [b"created 2025-01\n"], rows=[None, day[0]])
    yield Job("batch in memory", ["batch"], none, answers_of(ANSWERS), 1, LINES, is_batch=True)
    yield Job("batch on a file", ["batch", *ON_FILE], blank, answers_of(ANSWERS), 1, LINES, day, is_batch=True)
    yield Job("run", run, let, [b"posted 2025-01 3 1425.00\n"], rows=[three, ran])
    yield Job("run in parts", [*run, "--batches", "1"], let, [b"part 2025-01 1 of 3\n"], 4, rows=[three, ran])
    yield Job("recover", ["recover", *ON_FILE], half, [b"recovered\n"], rows=[ran, ran])
    (cut, _), (old, rows) = first_version(bench, "cut", 1, True), first_version(bench, "old", 2)
    yield Job("recover, first version", ["recover", *ON_FILE], cut, [b"recovered\n"], rows=[rows, rows])
    yield Job("migrate", ["migrate", *ON_FILE], old, [b"migrated\n"], rows=[rows, migrated(rows)])
    for question, report in REPORTS.items():
        yield Job(f"report {question}", ["report", *ON_FILE, *question.split()], posted, [report], rows=[ran, ran])
    yield Job("report branches, a run open", ["report", *ON_FILE, "branches"], half, [REPORTS["branches"]], 4, rows=[ran, ran])
    yield BadWords("frob", ["frob"], none, [FROB], 2)
    oks.append("receipt 1")
    both = rows_after(THREE + RENT + RECEIPT, ["ok", *oks])
    rows = {(): three, (0,): rows_after(THREE + RENT, oks), (2,): rows_after(THREE + RECEIPT, oks), (0, 2): both}
    yield Service("serve", let, REQUESTS, rows)
    with socket.create_server(("127.0.0.1", 0)) as taken:
        words = ["serve", *ON_FILE, "--port", str(taken.getsockname()[1]), "--count", "1"]
        yield Job("serve, no port", words, let, [b"no listener\n"], 3, rows=[three, three])


class Play:
    """A job with each growth refused in turn, alone or with each later one."""

    def __init__(self, bench, job, is_from):
        self.bench, self.job, self.is_from = bench, job, is_from
        self.counts = Counter()
        self.at = -1
        self.wrong = 0
        # Where each part ends that is written, and how many bytes were written once so many growths were asked for.
        self.ends = list(accumulate(job.lengths()))
        self.written = []

    def tell(self, growth, why):
        self.wrong += 1
        if self.wrong <= MOST_TOLD:
            print(f"WRONG: {self.job.name}, growth {growth} refused{' and each later one' * self.is_from}: {why}", flush=True)

    def part(self, growth):
        """The part in which this growth was asked for: so many parts were written whole before."""
        at = bisect_left(self.written, (growth, 0))
        return bisect_right(self.ends, self.written[at - 1][1] if at else 0)

    def check_place(self, growth, verdict):
        """The fault is met in the part in which the growth was asked for, or a later one where later growths are refused too."""
        if verdict.kind in ("at a record", "lost", "503"):
            due = self.part(growth) - isinstance(self.job, Service)
            if verdict.at < due or verdict.at > due and not self.is_from:
                self.tell(growth, f"a fault at part {verdict.at}, which was met at {due}")
        if verdict.kind != "right":
            if verdict.at < self.at:
                self.tell(growth, f"a fault at part {verdict.at}, and of an earlier growth at {self.at}")
            self.at = verdict.at

    def check_file(self, growth, verdict, left):
        """The file is recovered to what it may hold."""
        if not self.job.rows:
            return
        try:
            found = self.bench.rows(left)
        except ValueError as error:
            return self.tell(growth, error)
        if found not in verdict.rows:
            self.tell(growth, f"told {verdict.kind} {verdict.at}, and the file has {found}")

    def check_writing(self):
        """No growth is asked for while a part is written."""
        for (before, end), (asked, _) in pairwise(self.written):
            if asked != before and end not in self.ends:
                self.tell(asked, "it is asked for within a part")

    def judge(self, growth, answer, left):
        verdict = self.job.verdict(answer)
        if verdict is None or growth is None and verdict.kind != "right":
            return self.tell(growth, f"another answer: {answer}")
        self.check_file(growth, verdict, left)
        if growth is not None:
            self.check_place(growth, verdict)
            self.counts[verdict.kind] += 1

    def begin(self):
        """How many growths the job asks for."""
        self.judge(None, self.job.play(self.bench), self.bench.here)
        growths, writes = self.bench.asked()
        self.written = list(zip((asked for asked, _ in writes), accumulate(count for _, count in writes)))
        self.check_writing()
        return growths

    def run(self, first, stride):
        start = time.monotonic()
        growths = self.begin()
        for refused, (growth, answer, left) in enumerate(self.job.each(self.bench, growths, first, stride, self.is_from)):
            self.judge(growth, answer, left)
        counted = ", ".join(f"{count} {kind}" for kind, count in self.counts.items())
        way = "each from n on" if self.is_from else "n alone"
        print(f"{self.job.name}, {way}: {growths} growths, {refused} refused, from {first} by {stride}: {counted}; "
              f"{self.wrong} wrong; {time.monotonic() - start:.0f} s", flush=True)


def main(program, work, stride, first, names):
    bench = Bench(program, work)
    wrong = 0
    for job in all_jobs(bench):
        for is_from in (False, True) if job.name in names or not names else ():
            play = Play(bench, job, is_from)
            play.run(int(first), int(stride))
            wrong += play.wrong
    sys.exit(wrong > 0)


match sys.argv[1:]:
    case [program, work, stride, first, *names]:
        main(program, work, stride, first, names)
    case _:
        sys.exit(__doc__)
