#!/usr/bin/env python3
"""Hands on what is proved: an archive of the program's libraries, for a checkout whose user trusts whoever made it.

    tools/archive.py make FOLDER      writes the archive into a folder, if each library below dh_desk stands, and prints its path
    tools/archive.py take ARCHIVE     puts its libraries into their places; `./letting --from` calls it, and then builds the program over them

A library stands if its sum is that of the sources and the toolchain that are here (tools/build.py). `take` leaves those that stand as they are, and
takes none whose sum is another. None counts before the archive was read to its end. It ends with 0, or with a line that says what failed.
"""
import lzma
import os
import re
import shutil
import signal
import subprocess
import sys
import tarfile
from pathlib import Path

# An older Python is refused there.
from build import TOP, Build, crates_of, toolchain

# What is handed on of a library: its sum and its folder. The sum by which `rt` takes a library for its own never is.
PLACE = re.compile(r'crates/(\w+)/out/rlib/(built-of|\1\.rlib/.+)')
# A twentieth of the size, at 20 MB/s. A higher preset makes it a ninth smaller and takes four times as long.
PRESET = 3
TRUST = 'the proofs of these libraries are trusted, as whoever made the archive checked them; `.ci/run`, or a first call in a clean clone, proves them here'


def plain(entry):
    """An entry without who made it and when: the same libraries make the same archive."""
    entry.uid = entry.gid = entry.mtime = 0
    entry.uname = entry.gname = ''
    entry.mode = 0o644
    return entry


def make(folder, kit, build, libraries):
    lacking = [name for name in libraries if name not in build.done]
    if lacking:
        sys.exit(f'not built of these sources: {", ".join(lacking)}; `./letting init ..` builds them')
    words = ['git', 'describe', '--always', '--exclude=*', '--dirty', '--abbrev=8']
    commit = subprocess.run(words, cwd=TOP, capture_output=True, text=True, check=True).stdout.strip()
    path = Path(folder) / f'letting-{kit.split()[0]}-{commit}.tar.xz'
    unfinished = path.with_name(f'.{path.name}')
    try:
        # Linked files are written each by itself.
        with tarfile.open(unfinished, 'w:xz', preset=PRESET, pax_headers={'comment': kit}, dereference=True) as tar:
            for crate in libraries.values():
                for file in [crate.stamp, *sorted(crate.library.rglob('*'))]:
                    if file.is_file():
                        tar.add(file, file.relative_to(TOP), filter=plain)
        os.replace(unfinished, path)
    finally:
        unfinished.unlink(missing_ok=True)
    print(path)


def wanted(archive, tar, build, libraries, taken):
    """The files of libraries that are of these sources and do not stand. The sum of a library comes before its files."""
    for entry in tar:
        place = PLACE.fullmatch(entry.name)
        if not (place and place[1] in libraries and entry.isreg()) or '..' in entry.name.split('/'):
            sys.exit(f'{archive} has {entry.name}, which is no file of a library')
        name, file = place.groups()
        if name in taken and file != 'built-of':
            yield entry
        elif name not in build.done and file == 'built-of' and tar.extractfile(entry).read() == build.stamps[name].encode():
            # What is there may be linked to what `rt` keeps, so none of it is written over.
            shutil.rmtree(libraries[name].built, ignore_errors=True)
            libraries[name].built.mkdir(parents=True)
            taken.add(name)


def put(name, text):
    """Writes the file of a library. `extractall` has a filter of entries in some releases of Python 3.8 to 3.11 and not in others."""
    path = TOP / name
    path.parent.mkdir(parents=True, exist_ok=True)
    with open(path, 'wb') as file:
        shutil.copyfileobj(text, file)


def take(archive, kit, build, libraries):
    taken = set()
    try:
        with tarfile.open(archive, 'r:xz') as tar:
            of = tar.pax_headers.get('comment')
            if of != kit:
                sys.exit(f'{archive} is of the toolchain `{of}`, and `rt` on the path is of `{kit}`' if of else f'{archive} does not name its toolchain')
            print(TRUST, flush=True)
            for entry in wanted(archive, tar, build, libraries, taken):
                put(entry.name, tar.extractfile(entry))
            # Behind the last entry stands the sum of the whole.
            while tar.fileobj.read(1 << 20):
                pass
        for name in taken:
            libraries[name].stamp.write_text(build.stamps[name])
    except BaseException:
        for name in taken:
            shutil.rmtree(libraries[name].built, ignore_errors=True)
        raise
    print(f'{len(taken)} of {len(libraries)} libraries were taken; left to prove: {len(libraries.keys() - taken - build.done)}')


WORDS = {'make': make, 'take': take}


def main(word, path):
    kit = toolchain()
    crates = crates_of('dh_desk')
    libraries = {name: crate for name, crate in crates.items() if not crate.is_program}
    WORDS[word](path, (kit / 'KIT-ID').read_text().strip(), Build(crates, kit, None), libraries)


if __name__ == '__main__':
    # Nothing half done is left, however this call ends.
    for number in (signal.SIGINT, signal.SIGTERM, signal.SIGHUP):
        signal.signal(number, lambda *_: sys.exit(1))
    try:
        sys.exit(main(*sys.argv[1:]) if len(sys.argv) == 3 and sys.argv[1] in WORDS else __doc__)
    except (OSError, EOFError, lzma.LZMAError, tarfile.TarError, subprocess.SubprocessError) as error:
        sys.exit(f'{sys.argv[2]}: {error}')
