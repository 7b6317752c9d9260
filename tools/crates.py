"""The crates of the repository by crates.txt: their order, what each uses, and what is below one.

The script `letting` reads the file by itself: it does so at each call, and a call of what is built needs no Python.
"""
from pathlib import Path

TOP = Path(__file__).resolve().parent.parent


def uses_in(text):
    """The crates in the order of this text of crates.txt, each with what it uses."""
    found = {}
    for line in text.splitlines():
        name, _, used = line.partition('#')[0].partition(':')
        if name.strip():
            found[name.strip()] = used.split()
    return found


def uses_now():
    """The same, of the file as it stands."""
    return uses_in((TOP / 'crates.txt').read_text(encoding='utf-8'))


def with_below(crate, uses):
    """The crates of the repository below this one, each behind those that it uses, and then itself."""
    found = []

    def take(name):
        if name in uses and name not in found:
            for used in uses[name]:
                take(used)
            found.append(name)

    take(crate)
    return found
