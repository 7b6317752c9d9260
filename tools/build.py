#!/usr/bin/env python3
"""Proves and builds a program with the crates below it. `letting` calls it for the first call, and bench/program.sh for a bench.

    tools/build.py PROGRAM LOG [FOLDER]     makes out/PROGRAM in crates/PROGRAM, or in this folder, whose file `libraries` has what it uses;
                                            what the toolchain prints goes into LOG

A crate begins once those below it stand, as many at once as there are processors and memory for. The longer the chain above a crate, the more of
the processors it gets. What a crate made is kept in its out/rlib, so a call that was cut goes on where it stopped.
Each crate is told on standard error as it begins and ends, and what is under way is told each minute. It ends with 0 if the program was made.
"""
import sys

if sys.version_info < (3, 8):
    sys.exit(f'this needs Python 3.8 or later, and `python3` on the path is {sys.version.split()[0]}')

import hashlib
import math
import os
import re
import shutil
import signal
import subprocess
import time
from pathlib import Path

from crates import TOP, uses_now, with_below

PARTS = ('src', 'specs', 'proofs')
MOST_JOBS = 4
# The memory that a proof takes, with a half of that for each further process of it.
PROOF_MEMORY = 3e9


class Crate:
    def __init__(self, name, used, folder):
        self.name, self.used, self.folder = name, used, folder
        # `rt` refuses sources of another place below out/, and those of a library are there.
        self.built = self.folder / 'out' / 'rlib'
        self.is_program = (self.folder / 'src' / 'main.rt').exists()
        self.root = 'src/main.rt' if self.is_program else 'src/lib.rt'
        self.library = self.built / f'{name}.rlib'
        self.stamp = self.built / 'built-of'
        self.program = self.folder / 'out' / name
        files = sorted(path for part in PARTS for path in (self.folder / part).rglob('*') if path.is_file())
        self.texts = {path: path.read_bytes() for path in files}
        self.lines = sum(text.count(b'\n') for text in self.texts.values())

    def subject(self):
        """What its first line says it is for."""
        first = self.texts[self.folder / self.root].decode().splitlines()[0]
        return re.sub('^//! ', '', first).partition(':')[0].partition('.')[0]


def crates_of(program, folder=None):
    """The program with the crates of the repository below it, each behind those that it uses."""
    uses, folders = uses_now(), {}
    if folder:
        uses[program], folders[program] = (folder / 'libraries').read_text().split(), folder
    return {name: Crate(name, uses[name], folders.get(name, TOP / 'crates' / name)) for name in with_below(program, uses)}


def below(crate, crates):
    """The crates of the repository that this one stands on."""
    names = with_below(crate.name, {name: it.used for name, it in crates.items()})
    return [crates[name] for name in names if name != crate.name]


def stamps_of(crates, kit):
    """A sum for each crate of all that it is made of."""
    found = {}
    for crate in crates.values():
        whole = hashlib.sha256((kit / 'KIT-ID').read_bytes())
        for path, text in crate.texts.items():
            whole.update(f'{path.relative_to(crate.folder)} {len(text)} '.encode() + text)
        for name in crate.used:
            whole.update(f'{name} {found.get(name)} '.encode())
        found[crate.name] = whole.hexdigest()
    return found


def words_of(what, crate, crates, kit, jobs):
    """The call of the compiler that checks the crate or builds it."""
    words = [kit / 'bin' / 'rattle', what, '--crate-name', crate.name, crate.root, '-L', f'dependency={kit}/rlibs']
    for name in ['std', *crate.used]:
        words += ['--extern', f'{name}={crates[name].library if name in crates else kit / "rlibs" / f"{name}.rlib"}']
    for lower in below(crate, crates):
        words += ['-L', f'dependency={lower.built}']
    words += ['--antt-project', kit / 'rattle' / 'logic' / 'antt-project.json', '--logic-built', kit / 'logic_built']
    return [*words, '--links', f'{crate.name}=', '--jobs', str(jobs)]


def made_by(crate, kit):
    """What the compiler is to make of the crate."""
    if crate.is_program:
        return ['--toolchain', kit / 'toolchain', '--backend', 'llvm', '-o', f'{crate.program}.o']
    return ['--statements', '-o', crate.library]


def linked(crate, kit, log):
    """Links the program beside its place, and then puts it there."""
    words = [kit / 'bin' / 'rattle-link', '--target', 'x86_64-unknown-linux-gnu', '--toolchain', kit / 'toolchain']
    words += ['-o', f'{crate.program}.new', f'{crate.program}.o', kit / 'c' / 'libos_c.a', kit / 'c' / 'liblibc_c.a']
    if subprocess.run(words, cwd=crate.folder, stdin=subprocess.DEVNULL, stdout=log, stderr=log).returncode:
        return False
    os.replace(f'{crate.program}.new', crate.program)
    return True


class Build:
    """What is to be built, and what is under way."""

    def __init__(self, crates, kit, log):
        self.crates, self.kit, self.log = crates, kit, log
        self.begun = time.monotonic()
        self.stamps = stamps_of(crates, kit)
        # What stands over a library that is built anew is built anew too.
        self.done = set()
        for name, crate in crates.items():
            if self.can_begin(name) and self.stands(crate):
                self.done.add(name)
        self.left = [name for name in crates if name not in self.done]
        self.running = {}
        self.ahead = {}
        for name in reversed(crates):
            above = [self.ahead[other] for other in self.ahead if name in crates[other].used]
            self.ahead[name] = crates[name].lines + max(above, default=0)
        self.processors = len(os.sched_getaffinity(0))
        self.memory = 1024 * int(re.search(r'MemAvailable:\s+(\d+)', Path('/proc/meminfo').read_text())[1])

    def can_begin(self, name):
        """Whether what the crate stands on is done. Of this, what stands below is done too."""
        return self.done.issuperset(used for used in self.crates[name].used if used in self.crates)

    def stands(self, crate):
        made = crate.program if crate.is_program else crate.library
        return made.exists() and crate.stamp.is_file() and crate.stamp.read_text() == self.stamps[crate.name]

    def say(self, text):
        print(f'{int(time.monotonic() - self.begun) // 60} min: {text}', file=sys.stderr, flush=True)

    def begin(self, name, jobs, rank):
        crate = self.crates[name]
        shutil.rmtree(crate.built, ignore_errors=True)
        crate.built.mkdir(parents=True)
        self.left.remove(name)
        said = open(crate.built / 'log', 'w+')
        words = ['nice', '-n', str(min(5 * rank, 15)), *words_of('build', crate, self.crates, self.kit, jobs), *made_by(crate, self.kit)]
        ran = subprocess.Popen(words, cwd=crate.folder, stdin=subprocess.DEVNULL, stdout=said, stderr=subprocess.STDOUT, preexec_fn=os.setpgrp)
        self.running[name] = ran, said, jobs, time.monotonic()
        self.say(f'begins {name}: {crate.subject()}')

    def begin_what_can(self):
        """Begins the crates whose libraries stand, while processors and memory are free. Each gets as many processes as the next. More than there
        are processors would cost: with a second process dh_values took a third more of their time."""
        ready = sorted(filter(self.can_begin, self.left), key=lambda name: -self.ahead[name])
        jobs = math.ceil(min(MOST_JOBS, self.processors) / (len(self.running) + len(ready) or 1))
        for name in ready:
            rank = sum(self.ahead[other] > self.ahead[name] for other in self.running)
            taken = sum(PROOF_MEMORY * (1 + it) / 2 for it in [jobs, *(it for _, _, it, _ in self.running.values())])
            if self.running and (rank >= self.processors or len(self.running) > self.processors + 1 or taken > self.memory):
                return
            self.begin(name, jobs, rank)

    def end(self, name):
        """Whether this crate was proved and built."""
        ran, said, _, since = self.running.pop(name)
        crate = self.crates[name]
        said.seek(0)
        text = said.read()
        said.close()
        self.log.write(f'== {name}\n{text}')
        self.log.flush()
        if ran.returncode or 'logic=proved ' not in text or crate.is_program and not linked(crate, self.kit, self.log):
            self.say(f'{name} could not be built')
            return False
        crate.stamp.write_text(self.stamps[name])
        self.done.add(name)
        left = len(self.left) + len(self.running)
        self.say(f'{name} is proved, in {time.monotonic() - since:.0f} s; {left} left')
        return True

    def run(self):
        told = time.monotonic()
        try:
            while self.left or self.running:
                self.begin_what_can()
                time.sleep(0.2)
                if not all(self.end(name) for name in [*self.running] if self.running[name][0].poll() is not None):
                    return False
                if time.monotonic() - told > 50:
                    told = time.monotonic()
                    self.say('still at ' + ', '.join(self.running))
            return True
        finally:
            for ran, *_ in self.running.values():
                os.killpg(ran.pid, signal.SIGKILL)


def toolchain():
    """The folder of the toolchain."""
    page = subprocess.run(['rt', 'doc'], capture_output=True, text=True, check=True).stdout.strip()
    return Path(page).parent


def main(program, log, folder=None):
    with open(log, 'w') as told:
        return not Build(crates_of(program, folder and Path(folder).resolve()), toolchain(), told).run()


if __name__ == '__main__':
    # What is under way ends with this call, however it ends.
    for number in (signal.SIGINT, signal.SIGTERM, signal.SIGHUP):
        signal.signal(number, lambda *_: sys.exit(1))
    sys.exit(main(*sys.argv[1:]) if len(sys.argv) in (3, 4) else __doc__)
