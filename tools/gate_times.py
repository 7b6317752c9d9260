#!/usr/bin/env python3
"""Runs `rt ci` at the top of the repository, and tells what each crate took of it.

    tools/gate_times.py [--write] [WORD..]      the WORDs are those of `rt ci`, as NAME or --anew

It prints what `rt ci` prints, as it comes. Before the last line of that, it prints a table: processor seconds and the most memory of each crate's
proof, and those of its wrong bodies. Twice a second it looks at the toolchain's processes that this run began, and at no others. So a time may
lack the last half second of each process; the sum over all is the system's own. The status is that of `rt ci`. With --write, where each crate was
proved in this run and the gate passed, docs/gate-times.txt has the table too.
"""
import os
import re
import resource
import subprocess
import sys
import tempfile
import time
from collections import Counter
from datetime import date

from crates import uses_in

TICK = os.sysconf('SC_CLK_TCK')
PAGE = os.sysconf('SC_PAGE_SIZE')


def read(path, mode='r'):
    with open(path, mode) as file:
        return file.read()


def words_of(pid):
    return read(f'/proc/{pid}/cmdline', 'rb').decode(errors='replace').split('\0')


def parents():
    """The parent of each process."""
    found = {}
    for pid in filter(str.isdigit, os.listdir('/proc')):
        try:
            found[int(pid)] = int(read(f'/proc/{pid}/stat').rpartition(') ')[2].split()[1])
        except OSError:
            pass
    return found


def below(first, parent_of):
    """The processes that this one began, and those that they began."""
    found = {first}
    grown = True
    while grown:
        more = {pid for pid, parent in parent_of.items() if parent in found} - found
        found |= more
        grown = bool(more)
    return found - {first}


def process(pid):
    """The crate that a process of the toolchain works on, for what, its processor seconds and its memory; None for another process. LLVM works for
    the process that began it, and a program of cases runs in its crate's folder."""
    try:
        words = words_of(pid)
        folder = os.readlink(f'/proc/{pid}/cwd')
        fields = read(f'/proc/{pid}/stat').rpartition(') ')[2].split()
        if '--crate-name' not in words:
            words = words_of(fields[1])
        if '--crate-name' in words:
            crate = words[words.index('--crate-name') + 1]
        elif '/crates/' in folder:
            crate = folder.rpartition('/crates/')[2].partition('/')[0]
        else:
            return None
        seconds = (int(fields[11]) + int(fields[12])) / TICK
        memory = int(read(f'/proc/{pid}/statm').split()[1]) * PAGE
    except (OSError, IndexError):
        return None
    work = 'edits' if 'rt-edit-' in folder else 'proof'
    return crate, work, seconds, memory


def ran(words, top):
    """Runs `rt ci`, and prints all that it prints but the last line. Returns its status, its whole output, and what the processes took."""
    seconds, peaks, whole, end = {}, {}, b'', 0
    with tempfile.NamedTemporaryFile() as log, open(log.name, 'rb') as lines:
        gate = subprocess.Popen(['rt', 'ci', *words], cwd=top, stdin=subprocess.DEVNULL, stdout=log, stderr=subprocess.STDOUT)
        has_ended = False
        while not has_ended:
            has_ended = gate.poll() is not None
            now = {}
            for pid in below(gate.pid, parents()):
                seen = process(pid)
                if seen:
                    crate, work, taken, memory = seen
                    seconds[crate, work, pid] = max(taken, seconds.get((crate, work, pid), 0))
                    now[crate, work] = now.get((crate, work), 0) + memory
            for key, memory in now.items():
                peaks[key] = max(memory, peaks.get(key, 0))
            whole += lines.read()
            begin, end = end, whole.rstrip(b'\n').rfind(b'\n') + 1
            print(whole[begin:end].decode(errors='replace'), end='', flush=True)
            time.sleep(0.5)
    return gate.returncode, whole.decode(errors='replace'), seconds, peaks


def table_of(crates, text, seconds, peaks):
    """A line for each crate, below the heading."""
    tried = Counter(re.findall(r'^rt: must-fail ([a-z_0-9]+)/', text, re.M))
    table = [f"{'crate':<18}{'proof, s':>10}{'wrong bodies, s':>17}{'how many':>10}{'memory of the proof, GB':>25}"]
    for crate in crates:
        def took(work):
            found = [taken for key, taken in seconds.items() if key[:2] == (crate, work)]
            return f'{sum(found):.0f}' if found else '-'

        memory = f"{peaks[crate, 'proof'] / 1e9:.1f}" if (crate, 'proof') in peaks else '-'
        table.append(f"{crate:<18}{took('proof'):>10}{took('edits'):>17}{tried[crate]:>10}{memory:>25}")
    return table


def main():
    words = [word for word in sys.argv[1:] if word != '--write']
    top = subprocess.run(['git', 'rev-parse', '--show-toplevel'], capture_output=True, text=True, check=True).stdout.strip()
    begun = time.monotonic()
    status, text, seconds, peaks = ran(words, top)
    last = text.rstrip().rpartition('\n')[2]
    crates = list(uses_in(read(f'{top}/crates.txt')))
    table = table_of(crates, text, seconds, peaks)
    used = resource.getrusage(resource.RUSAGE_CHILDREN)
    took = f'{(used.ru_utime + used.ru_stime) / 60:.0f} processor minutes, {(time.monotonic() - begun) / 60:.0f} minutes'
    print('\n'.join([*table, took, last]))
    if '--write' in sys.argv and status == 0 and all((crate, 'proof') in peaks for crate in crates):
        commit = subprocess.run(['git', 'rev-parse', '--short=8', 'HEAD'], cwd=top, capture_output=True, text=True, check=True).stdout.strip()
        head = [f'tools/gate_times.py printed this of a whole run of the gate at {commit}, on {date.today()} with {os.cpu_count()} processors:',
                f'{took}; {last}', 'docs/PERFORMANCE.md says on which machine, and what else ran.', '']
        with open(f'{top}/docs/gate-times.txt', 'w') as out:
            out.write('\n'.join([*head, *table]) + '\n')
    return status


if __name__ == '__main__':
    sys.exit(main())
