#!/usr/bin/env python3
"""Lists the clauses and definitions that differ from those of an earlier commit.

    tools/clauses.py COMMIT [CRATE..]        of the crates that ship, or of these

For each public function of the commit: the `requires` and `ensures` that it has no longer word for word, beside those that it has now and had
not; and whether it is gone. Then each definition of specs/ whose text differs, or that is gone. A function or a definition that stands in
another file of its crate under its name is the same one. What is listed has to be said or implied by what stands now: the reason for each
belongs into the note on the change. Nothing is listed of what is only new.

What tools/names.txt gives another name is no difference: both are renamed by tools/rename.py before they are compared.
"""
import sys

from crates import TOP, with_below
from rename import applied, table_rows
from statements import Sources, behind_ghost, definitions_in, items_in, squeezed


def shipped(sources):
    """The crates below `dh_desk`, and itself."""
    return sorted(with_below('dh_desk', sources.uses()))


def renamed(sources):
    """The sources with the names that the table gives them."""
    rows = [row for row in table_rows() if row.kind in ('', 'clause', 'module')]
    texts = sources.packed or {str(path.relative_to(TOP)): path.read_text(encoding='utf-8') for path in [TOP / 'crates.txt', *written()]}
    sources.packed = applied(rows, {name: text for name, text in texts.items() if '/proofs/' not in name})
    return sources


def written():
    """The files with clauses and definitions."""
    return [*(TOP / 'crates').glob('*/src/**/*.rt'), *(TOP / 'crates').glob('*/specs/**/*.antt')]


def clauses_in(text):
    """The clauses of each public function in a source: those of a trait's method and of a method of an `impl` under the name of that too."""
    found = {}
    for item in items_in(text):
        if item.kind == 'fn' and (item.visibility == 'pub' or item.holder and not item.visibility):
            found[f'{item.owner()}::{item.name}' if item.holder else item.name] = dict(clauses_of(item))
    return found


def clauses_of(item):
    tokens, at = item.tokens, 0
    while at < len(tokens):
        end = at + 1
        if tokens[at][0] in ('requires', 'ensures'):
            end = behind_ghost(tokens, at)
            begun = next(place for place in range(at, end) if tokens[place][0] == '{')
            said = item.text[tokens[begun][2] - tokens[0][1]:tokens[end - 1][1] - tokens[0][1]]
            yield ' '.join(word for word, *_ in tokens[at:begun] if word != '*'), squeezed(said)
        at = end


def gathered(texts, read):
    """What each file has; of two with one name the texts of both."""
    found = {}
    for text in texts:
        for name, it in read(text).items():
            if isinstance(it, dict):
                held = found.setdefault(name, {})
                for clause, said in it.items():
                    held.setdefault(clause, set()).add(said)
            else:
                found.setdefault(name, set()).add(it)
    return found


def both(crate, then, now, part, ending, read):
    """What the crate had then, and what it has now."""
    return [gathered(sources.texts(crate, part, ending), read) for sources in (then, now)]


def tell_clauses(crate, then, now):
    old, new = both(crate, then, now, 'src', '.rt', clauses_in)
    count = 0
    for name, clauses in old.items():
        if name not in new:
            count += 1
            print(f'{crate} {name}: gone')
            continue
        said = {text for texts in new[name].values() for text in texts}
        had = {text for texts in clauses.values() for text in texts}
        lost = [(clause, text) for clause, texts in clauses.items() for text in sorted(texts - said)]
        more = [(clause, text) for clause, texts in new[name].items() for text in sorted(texts - had)]
        # A `requires` more asks more of a caller.
        if lost or any(clause.startswith('requires') for clause, _ in more):
            count += 1
            print(f'{crate} {name}')
            for sign, clause, text in [('-', *it) for it in lost] + [('+', *it) for it in more]:
                print(f'  {sign} {clause} {{ {text} }}')
    return count


def tell_definitions(crate, then, now):
    old, new = both(crate, then, now, 'specs', '.antt', definitions_in)
    lost = {name: texts - new.get(name, set()) for name, texts in old.items() if texts - new.get(name, set())}
    for name, texts in lost.items():
        print(f'{crate} {name}: ' + ('differs' if name in new else 'gone'))
        for sign, text in [('-', it) for it in sorted(texts)] + [('+', it) for it in sorted(new.get(name, set()) - old[name])]:
            print(f'  {sign} {text}')
    return len(lost)


def main(words):
    commit, then, now = words[0], renamed(Sources(words[0])), renamed(Sources())
    crates = words[1:] or shipped(now)
    print('== public functions')
    functions = sum(tell_clauses(crate, then, now) for crate in crates)
    print('== definitions')
    definitions = sum(tell_definitions(crate, then, now) for crate in crates)
    print(f'{functions} functions and {definitions} definitions differ from {commit}')
    return 0


if __name__ == '__main__':
    sys.exit(main(sys.argv[1:]) if len(sys.argv) > 1 else __doc__)
