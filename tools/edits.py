"""What a wrong body is: its file, what it replaces and in which functions, and which of them can be tried together.

CONTRIBUTING.md has the form of the file. tools/edits_together.py tries them.
"""
import re
from pathlib import Path

from crates import TOP

# How many a group has at most.
GROUP = 12
FUNCTION = re.compile(r'^\s*(?:pub(?:\(crate\))? )?(?:const )?fn (\w+)')


def read_if_there(path):
    return path.read_text(encoding='utf-8') if path.is_file() else ''


class Edit:
    """A wrong body: in each file the texts that are replaced, and the functions in which they stand."""

    def __init__(self, path):
        self.name = path.name.split('.')[0]
        self.changes = []
        file = old = None
        for line in path.read_text(encoding='utf-8').splitlines():
            key, _, text = line.partition(':')
            text = text[1:]
            if key == 'file':
                file = text
            elif key == 'old':
                old = text
            elif key == 'new':
                self.changes.append((file, old, text))

    def functions(self, crate):
        """The functions that hold what is replaced, each with its module."""
        found = set()
        for file, old, _ in self.changes:
            text = read_if_there(crate / file)
            at = text.find(old)
            if at < 0:
                continue
            lines = text[:at].splitlines() + [old]
            names = [match[1] for match in map(FUNCTION.match, lines) if match]
            if names:
                found.add((Path(file).stem, names[-1]))
        return found

    def replaced(self, crate):
        """The files with its texts replaced, and those of the texts that do not stand once."""
        files, wrong = {}, []
        for file, old, new in self.changes:
            text = files.get(file) or read_if_there(crate / file)
            if text.count(old) != 1:
                wrong.append(f'stands {text.count(old)} times: {old}')
            files[file] = text.replace(old, new, 1)
        return files, wrong

    def made(self, crate):
        """Replaces its texts; False where one of them does not stand once."""
        files, wrong = self.replaced(crate)
        if not wrong:
            for file, text in files.items():
                (crate / file).write_text(text, encoding='utf-8')
        return not wrong


def edits_of(name, gate=False):
    """The wrong bodies of a crate that are kept outside the gate; with those of the gate too."""
    folder = TOP / 'crates' / name / 'must-fail'
    return [Edit(path) for path in sorted(folder.glob('*.edit*')) if gate or path.name.endswith('.md')]


def groups_of(edits, crate):
    """Groups of edits no two of which share a function."""
    groups = []
    for edit in edits:
        functions = edit.functions(crate)
        for group, held in groups:
            if len(group) < GROUP and functions and not functions & held:
                group.append(edit)
                held |= functions
                break
        else:
            groups.append(([edit], set(functions)))
    return [group for group, _ in groups]


def module_of(file):
    """The module that a source file has; none for the root."""
    parts = Path(file).with_suffix('').parts[1:]
    return '::'.join(part for part in parts if part not in ('lib', 'main', 'mod'))
