"""The jobs of bench/refused_memory.py, each with the answers that it may give where memory is refused."""

import fcntl
import json
import os
import re
import shutil
import socket
import subprocess
import time
from dataclasses import dataclass, field
from pathlib import Path

from refused_books import rows_of

FIRST_MONTH = "2025-01"
ON_FILE = ["--file", "office.db"]
FAULT = b"fault 21\n"
FAILED = 3
# A peer is waited for no longer than so many seconds.
PATIENCE = 60


class Bench:
    """The program, and a folder of this run's own, with refuse.so in it."""

    def __init__(self, program, work):
        self.program = program
        self.work = Path(work)
        self.here, self.folders = self.work / "run", self.work / "tries"
        self.given, self.printed, self.notes = self.work / "given", self.work / "printed", self.work / "notes"
        self.seen = {}
        self.here.mkdir()
        self.folders.mkdir()

    def plain(self, words, folder, given=b""):
        """The status and the text of the program, to which memory is granted."""
        ended = subprocess.run([self.program, *words], cwd=folder, input=given, stdout=subprocess.PIPE)
        return ended.returncode, ended.stdout

    def folder(self, name, *batches):
        """A folder with the file of an office that was told the batches, or with none."""
        made = self.work / name
        made.mkdir()
        if batches:
            self.plain(["init", *ON_FILE, "--first", FIRST_MONTH], made)
        for lines in batches:
            self.plain(["batch", *ON_FILE], made, lines)
        return made

    def begun(self, words, begins, given, told=(), **how):
        """The program in a copy of the folder, with an input that is a file, and growths refused as refuse.c says."""
        for path in self.here.iterdir():
            path.unlink()
        for path in begins.iterdir():
            (self.here / path.name).write_bytes(path.read_bytes())
        self.given.write_bytes(given)
        refusing = dict(os.environ, LD_PRELOAD=str(self.work / "refuse.so"), NOTES=str(self.notes), **how)
        with self.given.open("rb") as given, self.printed.open("wb") as printed:
            return subprocess.Popen([self.program, *words], cwd=self.here, env=refusing, stdin=given, stdout=printed, pass_fds=told)

    def answer(self, running):
        """The status and the text of the program in the folder of all copies."""
        return running.wait(), self.printed.read_bytes()

    def each(self, words, begins, given, first, stride, is_from):
        """Each of these growths, what the program answers where it is refused, and the folder that it leaves."""
        lines, told = os.pipe()
        # The program goes on while its children are judged, by no more than a page of these lines.
        fcntl.fcntl(lines, fcntl.F_SETPIPE_SZ, 4096)
        each = f"{first} {stride} {'-' * is_from}"
        running = self.begun(words, begins, given, [told], EACH=each, FOLDERS=str(self.folders), TOLD=str(told))
        os.close(told)
        with open(lines) as lines:
            for line in lines:
                growth, status = map(int, line.split())
                left = self.folders / str(growth)
                yield growth, (os.waitstatus_to_exitcode(status), (left / "printed").read_bytes()), left
                shutil.rmtree(left)
        yield None, self.answer(running), self.here

    def asked(self):
        """How many growths the program asked for, and for each write how many it had asked for by then and how many bytes it wrote."""
        asked, *writes = self.notes.read_text().splitlines()
        return int(asked), [tuple(map(int, line.split())) for line in writes]

    def rows(self, left):
        """The rows of the file that was left, once it is recovered; None where it has none. What was seen of a file stands for each
        other one with the same bytes."""
        files = {path.name: path.read_bytes() for path in left.iterdir() if path.name != "printed"}
        if strange := files.keys() - {"office.db", "office.db-wal"}:
            raise ValueError(f"the folder has {strange}")
        key = frozenset(files.items())
        if key not in self.seen:
            self.seen[key] = self.recovered_rows(left)
        return self.seen[key]

    def recovered_rows(self, left):
        """The file is recovered and can't be begun anew, or it is no office's and `init` makes it one."""
        recovered = self.plain(["recover", *ON_FILE], left)
        made = self.plain(["init", *ON_FILE, "--first", FIRST_MONTH], left)
        if recovered == (0, b"recovered\n") and made == (FAILED, b"fault 22\n"):
            return rows_of(left / "office.db")
        if recovered == (FAILED, b"fault 22\n") and made == (0, b"created 2025-01\n"):
            return None
        raise ValueError(f"recover: {recovered}, and then init: {made}")


@dataclass
class Verdict:
    """What an answer is: right, or which fault of those that there may be; the part of the answer at which that was met, counted from 0,
    or -1 before them all; and what the file may hold, rows or None for no tables."""

    kind: str
    at: int
    rows: list


@dataclass
class Job:
    """Words and an input, and what is wanted where memory is granted: a status, a text in parts, each of which stands whole or not at
    all, and the rows of the file before the parts and behind each. With no rows the job has no file."""

    name: str
    words: list
    begins: Path
    parts: list
    status: int = 0
    given: bytes = b""
    rows: list = field(default_factory=list)
    is_batch: bool = False

    def play(self, bench):
        """The answer where memory is granted."""
        return bench.answer(bench.begun(self.words, self.begins, self.given))

    def each(self, bench, growths, first, stride, is_from):
        """Each of these growths, the answer where it is refused, and the folder that is left; at last that where none is met."""
        return bench.each(self.words, self.begins, self.given, first, stride, is_from)

    def lengths(self):
        """Those of the parts that are written to standard output."""
        return [len(part) for part in self.parts]

    def is_right(self, answer):
        return answer == (self.status, b"".join(self.parts))

    def verdict(self, answer):
        """None where this is no answer for the job."""
        status, text = answer
        if self.is_right(answer):
            return Verdict("right", len(self.parts), self.rows[-1:])
        if status != FAILED:
            return None
        rest, told = text, 0
        while told < len(self.parts) and rest.startswith(self.parts[told]):
            rest = rest[len(self.parts[told]):]
            told += 1
        if self.is_batch and rest == b"%d %b" % (told + 1, FAULT):
            return Verdict("at a record", told, self.rows[told:told + 2])
        if rest == FAULT and told == 0:
            return Verdict("before an answer", -1, self.rows[:1 if self.is_batch else 2])
        if rest == FAULT and told == len(self.parts):
            return Verdict("behind the answers", told, self.rows[-1:])
        return None


class BadWords(Job):
    """Words that ask for nothing end with 2, also where there is no memory for the message."""

    def verdict(self, answer):
        return Verdict("as bad words", 0, []) if answer == (self.status, FAULT) else super().verdict(answer)


def answer_of(status, phrase, kind, body):
    return b"HTTP/1.1 %d %b\r\nContent-Type: %b\r\nContent-Length: %d\r\nConnection: close\r\n\r\n%b" % (status, phrase, kind, len(body), body)


def replied(status, phrase, code, text):
    """The answer with a reply, a refusal or a fault."""
    return answer_of(status, phrase, b"application/json", json.dumps({"code": code, "text": text}, separators=(",", ":")).encode())


def shown(report):
    return answer_of(200, b"OK", b"text/plain; charset=utf-8", report)


STOPPED = replied(503, b"Service Unavailable", 21, "fault 21")


@dataclass
class Asked:
    """A request, the answer that is wanted by the commands carried out before it, and whether it is a command that adds to these."""

    request: bytes
    wanted: callable
    is_change: bool = False


def got(port, request):
    """What the server answers to the request, nothing where it is gone."""
    answer = b""
    try:
        with socket.create_connection(("127.0.0.1", port), PATIENCE) as peer:
            peer.sendall(request)
            peer.shutdown(socket.SHUT_WR)
            while part := peer.recv(4096):
                answer += part
    except OSError:
        pass
    return answer


@dataclass
class Service:
    """`serve`, and requests one after the other. The rows are those of the file by the commands carried out."""

    name: str
    begins: Path
    asked: list
    rows: dict

    def play(self, bench, **how):
        """The status, the text behind the port, and what each peer got; where there is no port, all the text."""
        words = ["serve", *ON_FILE, "--port", "0", "--count", str(len(self.asked))]
        running = bench.begun(words, self.begins, b"", **how)
        while not (first := bench.printed.read_bytes()).endswith(b"\n") and running.poll() is None:
            time.sleep(0.001)
        port = re.match(rb"port ([0-9]+)\n", first)
        answers = [got(int(port[1]), it.request) for it in self.asked] if port else None
        status, text = bench.answer(running)
        return status, text[len(port[0]):] if port else text, answers

    def each(self, bench, growths, first, stride, is_from):
        """The program is begun for each growth, since a peer can't be shared."""
        for growth in range(first, growths + 1, stride):
            yield growth, self.play(bench, REFUSED=f"{growth}{'-' * is_from}"), bench.here
        yield None, self.play(bench), bench.here

    def lengths(self):
        """Those of the port, of five digits, and of a status for each request."""
        return [len(b"port 50000\n"), *(len(b"200\n") for _ in self.asked)]

    def is_right(self, answer):
        verdict = self.verdict(answer)
        return verdict is not None and verdict.kind == "right"

    def after(self, at, line, answer, states):
        """The states in which the machine may stand behind this request: tuples of the commands that were carried out."""
        it = self.asked[at]
        moved = {(*state, at) for state in states} if it.is_change else states
        if answer == b"" and line == b"lost" or answer == STOPPED and line == b"503":
            return states | moved
        fit = {state for state in states if answer == it.wanted(state) and line == answer[9:12]}
        return {(*state, at) for state in fit} if it.is_change and line == b"200" else fit

    def verdict(self, answer):
        status, text, answers = answer
        if answers is None:
            return Verdict("before an answer", -1, [self.rows[()]]) if (status, text) == (FAILED, FAULT) else None
        *lines, last = text.splitlines() or [b""]
        is_end_fault = last + b"\n" == FAULT
        lines += [] if is_end_fault else [last]
        states, bad = {()}, []
        for at, line in enumerate(lines[:len(self.asked)]):
            states = self.after(at, line, answers[at], states)
            bad += [at] if line in (b"lost", b"503") else []
        is_stopped = lines[-1:] == [b"503"]
        is_left = is_end_fault and not any(answers[len(lines):])
        is_whole = b"503" not in lines[:-1] and (len(lines) == len(self.asked) or is_stopped or is_left)
        if not states or not is_whole or status != (FAILED if is_stopped or is_end_fault else 0):
            return None
        rows = [self.rows[state] for state in states]
        if is_end_fault and not lines:
            return Verdict("before an answer", -1, rows)
        if is_end_fault:
            return Verdict("behind the answers", bad[0] if bad else len(lines), rows)
        return Verdict("503" if is_stopped else "lost" if bad else "right", bad[0] if bad else len(lines), rows)
