#!/usr/bin/env python3
"""Plays the checks of bench/init.sh: PROGRAM WORK ROUNDS [PART..]."""

import os
import random
import re
import shutil
import socket
import subprocess
import sys
import threading
import time
from pathlib import Path

PROGRAM, WORK, ROUNDS = sys.argv[1], Path(sys.argv[2]), int(sys.argv[3])
CREATED, FAULT = (0, "created 2025-01\n"), (3, "fault 22\n")
MADE, NONE = (0, ""), []
LINE = "branch,B001,1 Main St,Leeds,LS1 1AA\n"
LEEDS = "B001     Leeds\n"
BOTH = LEEDS + "B002     York\n"
# The calls of the system by which an `init` looks, and those by which it writes.
LOOKS = ("openat", "statx", "fcntl", "readlink")
WRITES = ("pwrite64", "fsync", "fdatasync", "ftruncate", "fchmod", "fchown", "fadvise64")

counts = {"checks": 0, "wrong": 0}


def check(name, is_so, came=""):
    """Counts a check, and prints it where it is not so."""
    counts["checks"] += 1
    if not is_so:
        counts["wrong"] += 1
        print(f"WRONG: {name}: {came}", flush=True)


def same(name, got, want):
    check(name, got == want, f"{got!r} and not {want!r}")


class Room:
    """A folder of its own, with `office.db` in it."""

    count = 0

    def __init__(self):
        Room.count += 1
        self.at = WORK / f"room{Room.count}"
        self.at.mkdir()
        self.file = self.at / "office.db"
        self.log = self.at / "office.db-wal"

    def __enter__(self):
        return self

    def __exit__(self, *_):
        shutil.rmtree(self.at, ignore_errors=True)

    def words(self, *words):
        return [PROGRAM, words[0], "--file", "office.db", *words[1:]]

    def start(self, *words, before=(), **how):
        """A run of the program, with these words of another program before it."""
        how = {"stdin": subprocess.DEVNULL, "stdout": subprocess.PIPE, "stderr": subprocess.DEVNULL, **how}
        return subprocess.Popen([*before, *self.words(*words)], cwd=self.at, text=True, **how)

    def run(self, *words, **how):
        """The status and the output of a run."""
        run = self.start(*words, **how)
        output = run.communicate(timeout=60)[0]
        return run.returncode, output

    def init(self, **how):
        return self.run("init", "--first", "2025-01", **how)

    def report(self, **how):
        return self.run("report", "branches", **how)

    def batch(self, lines):
        run = self.start("batch", stdin=subprocess.PIPE)
        return run.communicate(lines, timeout=60)[0]

    def names(self):
        return sorted(os.listdir(self.at))

    def sizes(self):
        return [(name, os.lstat(self.at / name).st_size) for name in self.names()]

    def is_made(self):
        return self.report() == MADE


def strace(room, log, *more):
    """The words of a strace that sees the calls on the file, its log and their folder."""
    paths = "office.db", room.file, room.log, f"{room.file}-journal", room.at
    return ["strace", "-f", "-qq", "-o", str(log), *(word for path in paths for word in ("-P", str(path))), *more]


def traced(room, call, what):
    """The words that do something to such a call."""
    return strace(room, "/dev/null", "-e", f"trace={call}", "-e", f"inject={call}:{what}")


def rest_of(run, lines=None):
    """What a run prints from here on, which gets these lines. It has twenty seconds."""
    timer = threading.Timer(20, run.kill)
    timer.start()
    if lines is not None:
        run.stdin.write(lines)
        run.stdin.close()
    output = run.stdout.read()
    run.wait()
    timer.cancel()
    return output


def ended(runs):
    return sorted((run.communicate(timeout=60)[0], run.returncode) for run in runs)


def judge_many(name, room, runs):
    """One of the runs made the agency, and it stands."""
    came = ended(runs)
    want = [(CREATED[1], 0)] + [(FAULT[1], 3)] * (len(runs) - 1)
    same(name, came, want)
    check(f"{name}, the file", room.is_made(), room.names())


def four_at_once():
    for turn in range(ROUNDS):
        with Room() as room:
            if turn % 4 == 3:
                room.file.touch()
            judge_many(f"four init at once, round {turn + 1}", room, [room.start("init", "--first", "2025-01") for _ in range(4)])


def calls_of_init():
    """How often an `init` makes each call of the system."""
    with Room() as room:
        log = WORK / "calls"
        came = room.init(before=strace(room, log))
        found = re.findall(r"^\d+ +(\w+)\(", log.read_text(), re.M)
    same("an init under strace", came, CREATED)
    return {call: found.count(call) for call in (*LOOKS, *WRITES) if call in found}


def one_held():
    """One call is held behind each of its looks, and another at its first flush."""
    calls = calls_of_init()
    for call in (*LOOKS, "fsync"):
        for turn in range(1, min(calls[call], 6) + 1):
            for hold in ("delay_enter", "delay_exit"):
                with Room() as room:
                    first = room.start("init", "--first", "2025-01", before=traced(room, call, f"{hold}=150000:when={turn}"))
                    time.sleep(0.06)
                    second = room.start("init", "--first", "2025-01", before=traced(room, "fsync", "delay_enter=150000:when=1"))
                    judge_many(f"one init held at {call} {turn} ({hold}), one at its first flush", room, [first, second])


def judge_failed(name, room, came, was_empty):
    """Nothing is left of an init that answered a fault, and a second one works. Behind `created` there is an agency."""
    if came == CREATED:
        check(f"{name}, made", room.is_made(), room.names())
        return
    check(f"{name}, the answer", came in (FAULT, (3, "fault 21\n")), came)
    same(f"{name}, what is left", room.sizes(), [("office.db", 0)] if was_empty else NONE)
    same(f"{name}, a second init", room.init(), CREATED)


def each_fails():
    """Each call of the system fails in turn."""
    for call, count in calls_of_init().items():
        for turn in range(1, count + 1):
            error = "ENOMEM" if turn % 3 == 2 else "EIO"
            was_empty = turn % 4 == 3
            with Room() as room:
                if was_empty:
                    room.file.touch()
                came = room.init(before=traced(room, call, f"error={error}:when={turn}"))
                judge_failed(f"init, {call} {turn} fails{', on an empty file' * was_empty}", room, came, was_empty)


def each_killed():
    """An init is killed at each of its writes, and then there is an agency, or one more init makes it."""
    calls = calls_of_init()
    for call in WRITES:
        for turn in range(1, calls[call] + 1):
            with Room() as room:
                room.init(before=traced(room, call, f"signal=KILL:when={turn}"))
                left = room.sizes()
                if room.is_made():
                    continue
                came = room.init()
                if came == FAULT:
                    check(f"init killed at {call} {turn}, the size of what is left", room.file.stat().st_size <= 4096, left)
                    room.file.unlink()
                    room.log.unlink(missing_ok=True)
                    came = room.init()
                same(f"init killed at {call} {turn}, which left {left}", came, CREATED)


class Disk:
    """A disk of its own with so many kB."""

    def __init__(self, room, size):
        self.at = room.at
        subprocess.run(["mount", "-t", "tmpfs", "-o", f"size={size}k", "tmpfs", str(self.at)], check=True)

    def grow(self):
        subprocess.run(["mount", "-o", "remount,size=16m", str(self.at)], check=True)

    def __enter__(self):
        return self

    def __exit__(self, *_):
        subprocess.run(["umount", "-l", str(self.at)], check=True)


def full_disks():
    answers = set()
    for size in range(8, 8 + 56 * 12, 12):
        for was_empty in (False, True):
            with Room() as room, Disk(room, size) as disk:
                if was_empty:
                    room.file.touch()
                came = room.init()
                answers.add(came)
                name = f"init on {size} kB{', on an empty file' * was_empty}"
                if came != CREATED:
                    same(f"{name}, what is left", room.sizes(), [("office.db", 0)] if was_empty else NONE)
                disk.grow()
                judge_failed(name, room, came, was_empty)
    same("the answers on full disks", answers, {CREATED, FAULT})


def stands(name, make, want=FAULT, stays=True):
    """What an init answers where this was made, which stays as it is where it is refused."""
    with Room() as room:
        make(room)
        before = room.sizes(), [(room.at / it).read_bytes() for it in room.names() if (room.at / it).is_file()]
        same(f"init on {name}", room.init(), want)
        if want == CREATED:
            check(f"init on {name}, made", room.is_made(), room.names())
        elif stays:
            same(f"{name} stays", (room.sizes(), [(room.at / it).read_bytes() for it in room.names() if (room.at / it).is_file()]), before)


def things():
    stands("a byte", lambda room: room.file.write_bytes(b"S"))
    stands("two bytes", lambda room: room.file.write_bytes(b"SQ"))
    stands("a page of nothing", lambda room: room.file.write_bytes(bytes(4096)))
    stands("an empty file", lambda room: room.file.touch(), CREATED)
    stands("a folder", lambda room: room.file.mkdir())
    stands("a pipe", lambda room: os.mkfifo(room.file))
    stands("a link that leads nowhere", lambda room: room.file.symlink_to("none.db"))
    stands("a link to itself", lambda room: room.file.symlink_to("office.db"))
    stands("a link to a folder", lambda room: room.file.symlink_to("."))
    stands("a link to an empty file", lambda room: ((room.at / "real.db").touch(), room.file.symlink_to("real.db")), CREATED)
    stands("a link to a byte", lambda room: ((room.at / "real.db").write_bytes(b"S"), room.file.symlink_to("real.db")))
    stands("an empty file with two names", lambda room: (room.file.touch(), os.link(room.file, room.at / "other.db")))
    stands("a journal beside no file", lambda room: (room.at / "office.db-journal").write_bytes(b"journal"))
    for size, want in ((0, CREATED), (1, CREATED), (41, CREATED), (42, FAULT), (262144, FAULT)):
        stands(f"a log of {size} bytes beside no file", lambda room: room.log.write_bytes(b"x" * size), want)
        stands(f"a log of {size} bytes beside an empty file", lambda room: (room.file.touch(), room.log.write_bytes(b"x" * size)), want)
        stands(f"a log of {size} bytes where a link to an empty file leads", lambda room: (
            (room.at / "real.db").touch(), room.file.symlink_to("real.db"), (room.at / "real.db-wal").write_bytes(b"x" * size)), want)
    stands("a folder for the log", lambda room: room.log.mkdir())
    stands("a link for the log", lambda room: room.log.symlink_to("none"))
    with Room() as room:
        same("a log that an agency left", (room.init(), room.file.unlink(), room.init()), (CREATED, None, CREATED))
    for closed in ("<&-", ">&-", "<&- >&- 2>&-"):
        with Room() as room:
            subprocess.run(["sh", "-c", f'"$0" init --file office.db --first 2025-01 {closed}', PROGRAM], cwd=room.at, check=False, stdout=subprocess.DEVNULL)
            check(f"init {closed}", room.is_made() or room.names() == NONE, room.sizes())


def swapped():
    """A file that is removed or replaced as a report opens it."""
    for name in ("removed", "removed with its log", "replaced"):
        with Room() as room, Room() as other:
            room.init()
            other.init()
            other.batch(LINE)
            log = WORK / "looks"
            log.write_text("")
            look = "-e", "trace=statx", "-e", "inject=statx:delay_exit=400000:when=1"
            run = room.start("report", "branches", before=strace(room, log, *look))
            while "statx" not in log.read_text():
                time.sleep(0.01)
            if name == "replaced":
                os.rename(other.file, room.file)
            else:
                room.file.unlink()
            if name == "removed with its log":
                room.log.unlink()
            came = run.communicate(timeout=60)[0]
            same(f"a file that is {name} as a report opens it", (run.returncode, came), FAULT)
            if name == "replaced":
                same("the other file", room.report(), (0, LEEDS))
            else:
                check(f"a file that is {name} as a report opens it, what is left", not room.file.exists(), room.sizes())
                check("an init behind it", room.init() == CREATED, room.sizes())


def change(room, kind):
    """Does this to the file, and gives what has it then."""
    moved = room.at / "moved.db"
    if kind == "removed":
        room.file.unlink()
        return None
    if kind == "replaced":
        os.link(room.file, moved)
        (room.at / "other.db").write_bytes(b"rent")
        os.rename(room.at / "other.db", room.file)
    else:
        os.rename(room.file, moved)
    if kind == "moved and back":
        os.rename(moved, room.file)
        return room.file
    return moved


KINDS = ("moved", "removed", "replaced", "moved and back")


def judge_changed(name, room, kind, holder, came, want, lines):
    same(name, came, want)
    if holder:
        words = [PROGRAM, "report", "--file", str(holder), "branches"]
        got = subprocess.run(words, cwd=room.at, capture_output=True, text=True, check=False)
        same(f"{name}, the lines", (got.returncode, got.stdout), (0, lines))
    if kind == "replaced":
        same(f"{name}, the other file", room.file.read_bytes(), b"rent")


def changed_under_batch():
    """It answers on, and says at its end that the file is not where it was."""
    for kind in KINDS * ROUNDS:
        with Room() as room:
            room.init()
            run = room.start("batch", stdin=subprocess.PIPE)
            run.stdin.write(LINE)
            run.stdin.flush()
            output = run.stdout.readline()
            holder = change(room, kind)
            output += rest_of(run, "branch,B002,5 Oak Rd,York,YO1 1CC\n")
            want = (0, "1 ok\n2 ok\n") if kind == "moved and back" else (3, "1 ok\n2 ok\nfault 22\n")
            judge_changed(f"a file that is {kind} under batch", room, kind, holder, (run.returncode, output), want, BOTH)


def asked(port, line):
    """Sends the line to the server, and gives the text that is answered, or nothing."""
    body = '["' + line.strip().replace(",", '","') + '"]'
    answer = b""
    try:
        with socket.create_connection(("127.0.0.1", port), timeout=20) as peer:
            peer.sendall(f"POST /commands HTTP/1.0\r\nContent-Length: {len(body)}\r\n\r\n{body}".encode())
            while part := peer.recv(4096):
                answer += part
    except ConnectionError:
        pass
    found = re.search(rb'"text":"([^"]*)"', answer)
    return found[1].decode() if found else ""


def changed_under_serve():
    """It answers nothing more, and says so as the next request comes."""
    for kind in KINDS * ROUNDS:
        with Room() as room:
            room.init()
            run = room.start("serve", "--port", "0", "--count", "2")
            port = int(run.stdout.readline().split()[1])
            answers = asked(port, LINE),
            output = run.stdout.readline()
            holder = change(room, kind)
            answers += asked(port, "branch,B002,5 Oak Rd,York,YO1 1CC"),
            output += rest_of(run)
            is_back = kind == "moved and back"
            same(f"the answers about a file that is {kind} under serve", answers, ("ok", "ok" if is_back else ""))
            want = (0, "200\n200\n") if is_back else (3, "200\nfault 22\n")
            judge_changed(f"a file that is {kind} under serve", room, kind, holder, (run.returncode, output), want, BOTH if is_back else LEEDS)


def killed_under_load():
    """A server that is killed and started again, in each round. Each receipt that was answered is there, and none twice."""
    with Room() as room:
        room.init()
        room.batch((Path(__file__).parent.parent / "examples" / "one-lease.csv").read_text())
        taken = 0
        for _ in range(ROUNDS):
            run = room.start("serve", "--port", "0", "--count", "1000000")
            port = int(run.stdout.readline().split()[1])
            timer = threading.Timer(random.uniform(0, 0.1), run.kill)
            timer.start()
            # One that got no answer is sent again.
            while answer := asked(port, f"receipt,K-{taken + 1},10001,rent,0.01,2025-02-01"):
                taken += 1
                same("a receipt", answer.replace("already ", ""), f"receipt {taken}")
            run.communicate(timeout=60)
        came = room.run("report", "statement", "10001")
        same("the receipts", (came[0], len(re.findall("^rent ", came[1], re.M))), (0, taken))
        check("the rounds had receipts", taken >= ROUNDS, taken)


def no_descriptors():
    """A server that may open no further file."""
    with Room() as room:
        room.init()
        words = 'ulimit -n 6; exec "$0" serve --file office.db --port 0 --count 2'
        run = subprocess.Popen(["sh", "-c", words, PROGRAM], cwd=room.at, text=True, stdin=subprocess.DEVNULL,
                               stdout=subprocess.PIPE, stderr=subprocess.DEVNULL)
        port = run.stdout.readline().split()
        if len(port) == 2:
            for _ in range(2):
                try:
                    socket.create_connection(("127.0.0.1", int(port[1])), timeout=5).close()
                except OSError:
                    pass
        output = rest_of(run)
        same("(serve) no descriptor is left for a connection", (run.returncode, output), FAULT)


PARTS = {"four": four_at_once, "held": one_held, "fails": each_fails, "killed": each_killed, "full": full_disks, "things": things,
         "swapped": swapped, "batch": changed_under_batch, "serve": changed_under_serve, "load": killed_under_load,
         "descriptors": no_descriptors}


def main():
    for part in sys.argv[4:] or PARTS:
        if part == "full" and os.geteuid() != 0:
            print("not tried: full disks, which ask for root")
            continue
        PARTS[part]()
    print(f"{counts['checks']} checks, {counts['wrong']} came otherwise")
    sys.exit(1 if counts["wrong"] else 0)


main()
