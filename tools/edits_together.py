#!/usr/bin/env python3
"""Tries the wrong bodies that are kept outside the gate, many in one check, and tells where they have to be tried anew.

    tools/edits_together.py [--gate] CRATE [NAME..]     those of the crate, or these alone; with --gate those that the gate tries too
    tools/edits_together.py --new CRATE                 those that came or have another text since the row of the crate; all where its sum differs
    tools/edits_together.py [--gate] --all [--stale]    those of all crates, or the new ones of the stale crates, in the order of crates.txt
    tools/edits_together.py --stale                     lists the stale crates, each with the reason; ends with 0 if there is none
    tools/edits_together.py --texts                     only whether each text that a wrong body replaces stands once

It works on a copy of the crate, over the libraries below it as tools/build.py builds them. A group has wrong bodies of different functions.
Each has to be refused at a goal of its own function, by one check of the group; one that does not show it is tried alone. Where one group has
all, only the modules with a wrong body are checked. Prints a line for each: `refused` with the first goal or error of its function, `names`
where a proof file names what the body took away, `no goal` where the refusal names no goal, `bad` where it does not compile, `proved` where
nothing refused it. Ends with 0 if each was refused. Where all outside the gate were tried, or with --new the new ones, it writes the row of the
crate into docs/wrong-bodies.txt.

A row keeps a sum of what was stated as they were tried. A crate is stale where the sum is another now, or the number of its wrong bodies is, or
not each was refused. Summed are (tools/statements.py), in no order and without comments and layout:
- of the crate the signature, the `requires` and the `ensures` of each function, public or not, types, constants, macros, ghost items, and
  the heads of traits and of `impl`s;
- its definitions, and those of the crates of the repository below it, with what definitions can name of the sources there: public types and
  constants, macros, what an `impl` or a trait has besides functions;
- beside each of these, where the imported names in it come from.
No sum has bodies, tactics, proofs, the contracts of functions below, the texts of the wrong bodies, or the toolchain.
"""
import re
import shutil
import signal
import subprocess
import sys
import tempfile
import time
from pathlib import Path
from typing import NamedTuple

from build import Build, crates_of, toolchain, words_of
from crates import TOP, uses_now, with_below
from edits import edits_of, groups_of, module_of
from statements import Sources, sum_of

# What a check of a group takes of the time of the crate's proof.
SHARE = 0.7
TABLE = TOP / 'docs' / 'wrong-bodies.txt'
EACH = 'each refused at a goal'
REFUSED = re.compile(r'^(?:fn|impl) (\S+?): (?:no proof|not proved)(.*)$', re.M)
NAMED = re.compile(r'^(?:fn|impl) (\S+?): ', re.M)
ERROR = re.compile(r'^\./((?:proofs|specs)/\S+?):\d+:\d+: error: (.*)$', re.M)
NAMES = re.compile(r'unknown|can be named|no (?:field|goal|such|clause)|not in scope|is not (?:a|the) (?:field|goal|name)|does not exist|'
                   r'was not (?:admitted|checked)')


def read(path):
    return Path(path).read_text(encoding='utf-8')


class Room:
    """A copy of a crate in which wrong bodies are tried. What one check proves the next one takes over."""

    def __init__(self, work, crate, words):
        self.crate, self.kept, self.proved, self.words = work / 'crate', work / 'kept', work / 'proved', words
        shutil.copytree(crate, self.crate, ignore=shutil.ignore_patterns('out'))
        shutil.copytree(self.crate, self.kept)
        self.is_whole = True

    def put_back(self):
        """The sources and definitions as they were."""
        for part in ('src', 'specs'):
            if (self.kept / part).is_dir():
                shutil.rmtree(self.crate / part)
                shutil.copytree(self.kept / part, self.crate / part)

    def checked(self, edits):
        """The output of a check with these wrong bodies, without those whose texts no longer stand."""
        self.put_back()
        done = [edit for edit in edits if edit.made(self.crate)]
        words = [*self.words, '--incremental', self.proved]
        if not self.is_whole:
            modules = {module_of(file) for edit in done for file, _, _ in edit.changes}
            words += [word for module in sorted(modules) for word in ('--only', module)]
        run = subprocess.run(words, cwd=self.crate, stdin=subprocess.DEVNULL, capture_output=True, text=True, errors='replace')
        return done, run.stdout + run.stderr


def stands_for(name, module, function, output):
    """Whether a check calls this function of this module by that name. A method has the name of its type's module, wherever it is written."""
    *path, last = name.split('::')
    if last != function:
        return False
    alike = {found for found in NAMED.findall(output) if found.split('::')[-1] == function}
    return module in [*path, 'lib', 'main', 'mod'] or len(alike) == 1


def refusal(output, functions):
    """The first line that refuses one of the functions."""
    for name, why in REFUSED.findall(output):
        if any(stands_for(name, module, function, output) for module, function in functions):
            return f'{name}: {why.strip(" :;")}'
    return None


def errors_in(output, functions):
    """The errors in the proof files of the functions."""
    names = {function for _, function in functions}
    return [error for path, error in ERROR.findall(output) if Path(path).parent.name in names]


def is_at_a_goal(why, errors):
    """Whether it is refused at a goal, and not because a proof file names what the body took away."""
    return 'search' in why or any(not NAMES.search(error) for error in errors)


def is_compiled(output):
    return 'functions=' in output or 'not-proved' in output or re.search(r'^only=', output, re.M) is not None


def told(edit, verdict, why):
    print(f'{verdict:8} {edit.name}: {why[:160]}', flush=True)
    return verdict == 'refused'


def tried_alone(room, edit, functions):
    done, output = room.checked([edit])
    if not done or not is_compiled(output):
        return told(edit, 'bad', output.strip()[-160:].replace('\n', ' '))
    errors = [error for _, error in ERROR.findall(output)]
    own = refusal(output, functions)
    # Another function may be named, as one that the wrong body brings in, or one that stands over a definition.
    lines = [own] if own and errors else [own, *(f'{name}: {why.strip(" :;")}' for name, why in REFUSED.findall(output))]
    lines = [line for line in lines if line]
    if not lines:
        return told(edit, 'proved', 'nothing refused it')
    why = next((line for line in lines if is_at_a_goal(line, [])), lines[0])
    if is_at_a_goal(why, errors):
        return told(edit, 'refused', f'alone, {why} {errors[0] if errors else ""}')
    return told(edit, 'names' if errors else 'no goal', errors[0] if errors else why)


def tried(room, group):
    """Tries a group; the names of those that were not refused. A function that calls another wrong body says nothing of its own, so those that are
    left are tried once more together, and alone where that shows nothing."""
    room.put_back()
    functions = {edit.name: edit.functions(room.crate) for edit in group}
    done, output = room.checked(group)
    left = []
    for edit in group:
        why = refusal(output, functions[edit.name]) if edit in done and is_compiled(output) else None
        errors = errors_in(output, functions[edit.name])
        if why and is_at_a_goal(why, errors):
            told(edit, 'refused', f'{why} {errors[0] if errors else ""}')
        else:
            left.append(edit)
    if 1 < len(left) < len(group):
        return tried(room, left)
    return [edit.name for edit in left if not tried_alone(room, edit, functions[edit.name])]


class Row(NamedTuple):
    """What the table has of a crate."""
    count: int
    commit: str
    total: str
    result: str


def table():
    """The head of the table, and its rows by crate."""
    head, _, rows = read(TABLE).partition('\ncrate ')
    found = {}
    for row in rows.splitlines()[1:]:
        name, count, *rest = row.split(None, 4)
        found[name] = Row(int(count), *rest)
    return head, found


def record(name, row):
    """Writes the row of a crate into the table."""
    head, found = table()
    found[name] = row
    lines = [head, f"{'crate':<18}{'how many':>10}   {'last tried':<13}{'sum':<15}result"]
    for crate in uses_now():
        if crate in found:
            count, commit, total, result = found[crate]
            lines.append(f'{crate:<18}{count:>10}   {commit:<13}{total:<15}{result}')
    TABLE.write_text('\n'.join(lines) + '\n', encoding='utf-8')


def stale():
    """The crates whose wrong bodies have to be tried anew, each with the reason."""
    sources, found = Sources(), {}
    rows = table()[1]
    for name in sources.uses():
        count, row = len(edits_of(name)), rows.get(name)
        why = [f'{count} wrong bodies, {row.count if row else 0} when last tried'] if count != (row.count if row else 0) else []
        if row and row.result != EACH:
            why.append(row.result)
        if row and row.total == '-':
            why.append('no sum yet')
        elif row and row.total != sum_of(sources, name):
            why.append(f'its clauses, or definitions below them, differ since {row.commit}')
        if why:
            found[name] = '; '.join(why)
    return found


def tell_stale():
    found = stale()
    for name, why in found.items():
        print(f'{name}: {why}')
    return bool(found)


def tell_texts():
    """Says which texts of wrong bodies do not stand once."""
    count = 0
    for name in uses_now():
        for edit in edits_of(name, gate=True):
            for wrong in edit.replaced(TOP / 'crates' / name)[1]:
                print(f'{name} {edit.name}: {wrong}')
                count += 1
    print(f'{count} texts that do not stand once')
    return count > 0


def is_whole(edits, groups, crate):
    """Whether all modules are checked: where several groups are, or a wrong body is of no function or stands in the root or in a definition."""
    return len(groups) > 1 or any(not edit.functions(crate) or not module_of(file) or not file.startswith('src/')
                                  for edit in edits for file, _, _ in edit.changes)


def try_in(work, name, edits):
    """Tries these of a crate in a folder; the names of those that were not refused, or None where the crate could not be tried."""
    crates, kit = crates_of(name), toolchain()
    with open(work / 'log', 'w') as log:
        if not Build({lower: crate for lower, crate in crates.items() if lower != name}, kit, log).run():
            print(f'what stands below {name} could not be built')
            return None
    room = Room(work, crates[name].folder, words_of('check', crates[name], crates, kit, 1))
    groups = groups_of(edits, room.crate)
    room.is_whole = is_whole(edits, groups, room.crate)
    output = room.checked([])[1] if room.is_whole else 'logic=proved'
    if 'logic=proved' not in output:
        print(f'{name} is not proved as it stands: {output[-300:]}')
        return None
    return [edit for group in groups for edit in tried(room, group)]


def is_new(name, edit, commit):
    """Whether it came, or has another text, since a commit."""
    path = f'crates/{name}/must-fail/{edit.name}.edit.md'
    was = subprocess.run(['git', 'show', f'{commit}:{path}'], cwd=TOP, capture_output=True, text=True, errors='replace')
    return was.returncode != 0 or was.stdout != (TOP / path).read_text(encoding='utf-8')


def new_ones(name):
    """Those that are new since the row of the crate; all where what was stated then does not stand, or not each was refused."""
    row, edits = table()[1].get(name), edits_of(name)
    stands = row and row.result == EACH and row.total == sum_of(Sources(), name)
    return [edit for edit in edits if not stands or is_new(name, edit, row.commit)]


def try_crate(name, only=(), gate=False, new=False):
    """Whether each was refused. Where all outside the gate were tried, or the new ones, the table has the result."""
    commit = subprocess.run(['git', 'rev-parse', '--short=8', 'HEAD'], cwd=TOP, capture_output=True, text=True, check=True).stdout.strip()
    total = sum_of(Sources(), name)
    edits = new_ones(name) if new else [edit for edit in edits_of(name, gate) if not only or edit.name in only]
    with tempfile.TemporaryDirectory() as work:
        left = try_in(Path(work), name, edits) if edits else []
    if left is None:
        return False
    result = EACH if not left else 'not each refused: ' + ', '.join(left)
    print(f'{name}: {len(edits)} tried, {result}', flush=True)
    if edits_of(name) and not only and not gate:
        record(name, Row(len(edits_of(name)), commit, total, result))
    return not left


def proof_times():
    """The seconds of each crate's proof, by the table of the gate. A crate that it does not have is taken for one of the others."""
    uses = uses_now()
    rows = dict(re.findall(r'^(\w+) +(\d+) .*$', read(TOP / 'docs' / 'gate-times.txt'), re.M))
    known = [int(rows[name]) for name in uses if name in rows]
    return {name: int(rows.get(name, sum(known) // len(known))) for name in uses}


def not_built(names):
    """The libraries below these crates that have to be proved and built first."""
    uses, crates = uses_now(), {}
    for name in names:
        crates.update(crates_of(name))
    lower = {it for name in names for it in with_below(name, uses) if it != name}
    return Build({it: crate for it, crate in crates.items() if it in lower}, toolchain(), None).left


def estimate(names, gate):
    """What the wrong bodies of these crates should take: of each crate its proof where there are several groups, and a share of that for each."""
    times, seconds = proof_times(), 0
    for name in names:
        edits, crate = edits_of(name, gate), TOP / 'crates' / name
        groups = groups_of(edits, crate)
        seconds += times[name] * (is_whole(edits, groups, crate) + SHARE * len(groups))
    lower = not_built(names)
    told = f', and {sum(times[name] for name in lower) / 3600:.1f} hours to prove {len(lower)} libraries below' if lower else ''
    return f'some {seconds / 3600:.1f} hours of one processor{told}'


def try_all(names, gate, new):
    """Tries those of all these crates, or the new ones, and says how far it is. Whether each was refused."""
    begun = time.monotonic()
    counts = {name: len(new_ones(name) if new else edits_of(name, gate)) for name in names}
    print(f'{sum(counts.values())} wrong bodies of {len(names)} crates: {estimate(names, gate)}', flush=True)
    right = True
    for done, name in enumerate(names):
        print(f'== {name} begins, with {counts[name]} wrong bodies: {so_far(done, names, begun)}', flush=True)
        right = try_crate(name, gate=gate, new=new) and right
        print(f'== {name} ends: {so_far(done + 1, names, begun)}', flush=True)
    return right


def so_far(done, names, begun):
    return f'{done} crates are done, {len(names) - done} left, {(time.monotonic() - begun) / 60:.0f} min so far'


def main(words):
    flags = {word for word in words if word.startswith('--')}
    words = [word for word in words if word not in flags]
    gate = '--gate' in flags
    crates = uses_now()
    if flags - {'--gate', '--all', '--new', '--stale', '--texts'} or bool(words) == bool(flags - {'--gate', '--new'}) or words and words[0] not in crates:
        return __doc__
    if '--all' in flags:
        is_stale = '--stale' in flags
        return not try_all([name for name in (stale() if is_stale else crates) if edits_of(name, gate)], gate, is_stale and not gate)
    if '--texts' in flags:
        return tell_texts()
    if '--stale' in flags:
        return tell_stale()
    return not try_crate(words[0], words[1:], gate, '--new' in flags)


if __name__ == '__main__':
    # A check that is under way ends with this call, however it ends.
    for number in (signal.SIGINT, signal.SIGTERM, signal.SIGHUP):
        signal.signal(number, lambda *_: sys.exit(1))
    sys.exit(main(sys.argv[1:]))
