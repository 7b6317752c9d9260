#!/usr/bin/env python3
"""Refuses an error or a fault that is made by hand where it should be passed on.

    tools/made_errors.py            at the top of the repository
    tools/made_errors.py --list     prints each place that is not in the list, as the list has it

A body that gives up could make an error, or say that memory ran out, without a reason. So these words may stand in an item that is brought in
by `use`, in a signature, in the head of an `impl`, in a declared type, and within `Result<..>` and `From<..>`. Anywhere else they have to be in
a text of tools/made_errors.txt: that names the file, the function and why, and then the text with its condition, letter for letter. Patterns
that have such a word are listed too. A word that is brought in under another name, by `*` or as a variant alone, is refused, and so is a
`type` of it. The sizes that memory is asked for (`vec!` and the like) are listed in the same way.

What the prover refuses without its reason isn't looked for, as `StoreFault::unclean`. The cases and their kits may name any fault,
and an error of a reader or a writer.
No text sees a size that is too large: it stands in the list with what it is of.
"""
import re
import sys
from pathlib import Path

ERRORS = {'AllocError', 'Error', 'ErrorCode', 'ErrorKind'}
FAULTS = {'Memory', 'Store', 'NoListener'}
GROWTHS = {'vec', 'reserve', 'with_capacity', 'resize', 'try_reserve'}
# What the cases may not make either.
OF_STORE = {'AllocError', 'ErrorCode'}
TOKEN = re.compile(r'''//[^\n]*|b?r?"(?:\\[\s\S]|[^"\\])*"|b?'(?:\\u\{\w+\}|\\x\w\w|\\.|[^'\\])'|'\w+|\w+|::|->|=>|[^\s\w]''')
ENDS = {'{': '}', '(': ')', '[': ']'}
# What an item is that ends at a semicolon: the value of a constant is looked at as a body is.
KINDS = {'use': 'use', 'type': 'type', 'const': 'fn', 'static': 'fn'}


def tokens_of(text):
    """The tokens of a source, each with its line, without comments."""
    found = []
    for match in TOKEN.finditer(text):
        if not match[0].startswith('//'):
            found.append((match[0], text.count('\n', 0, match.start()) + 1))
    return found


def behind(tokens, at):
    """The place behind the bracket that closes the one at this place."""
    depth = 0
    while at < len(tokens):
        word = tokens[at][0]
        depth += (word in ENDS) - (word in ENDS.values())
        at += 1
        if not depth:
            return at
    return at


def without_clauses(tokens):
    """The tokens without clauses and ghost items, which no program runs."""
    kept, at = [], 0
    while at < len(tokens):
        word = tokens[at][0]
        if word in ('requires', 'ensures'):
            while tokens[at][0] != '{':
                at += 1
            at = behind(tokens, at)
        elif word == 'ghost':
            while tokens[at][0] not in (';', ','):
                at = behind(tokens, at) if tokens[at][0] in ENDS else at + 1
            at += 1
        else:
            kept.append(tokens[at])
            at += 1
    return kept


def parts_of(tokens):
    """What a source is made of: a kind, a name and the tokens. The kinds are `use`, `type`, `fn` (a body), and `head` (all else)."""
    parts, at, head = [], 0, []
    while at < len(tokens):
        word = tokens[at][0]
        if word in KINDS and tokens[at + 1][0] != 'fn' and tokens[at - 1][0] not in ('<', ','):
            end = at
            while tokens[end][0] != ';':
                end = behind(tokens, end) if tokens[end][0] in ENDS else end + 1
            is_bare = word == 'type' and all(it != '=' for it, _ in tokens[at:end])
            parts.append(('head' if is_bare else KINDS[word], tokens[at + 1][0], tokens[at:end]))
            at = end
        elif word in ('fn', 'macro_rules'):
            name = tokens[at + (1 if word == 'fn' else 2)][0]
            while tokens[at][0] not in ('{', ';'):
                head.append(tokens[at])
                at = at + 1
            if tokens[at][0] == '{':
                end = behind(tokens, at)
                parts.append(('fn', name, tokens[at:end]))
                at = end
        else:
            head.append(tokens[at])
            at += 1
    return [*parts, ('head', '', head)]


def is_within_result(tokens, at):
    """Whether the word stands as a type within `Result<..>` or `From<..>`."""
    depth = 0
    for place in range(at - 1, 0, -1):
        word = tokens[place][0]
        if word in ('>', ')', ']', '}') and tokens[place - 1][0] != '-':
            depth += 1
        elif word in ('<', '(', '[', '{'):
            if not depth:
                return word == '<' and tokens[place - 1][0] in ('Result', 'From')
            depth -= 1
    return False


def listed(path):
    """The texts of the list, by file and function, each as the words of its tokens."""
    found = {}
    key = None
    for line in path.read_text().splitlines():
        if line.startswith('    '):
            found[key].append([word for word, _ in tokens_of(line)])
        elif line.strip() and not line.startswith('#'):
            file, _, rest = line.partition(' ')
            key = file, rest.partition(':')[0]
            found.setdefault(key, [])
    return found


def covered(tokens, texts):
    """The places of a body that stand in a listed text, and the texts that do not stand in it."""
    words = [word for word, _ in tokens]
    places, left = set(), []
    for text in texts:
        for at in range(len(words) - len(text) + 1):
            if words[at:at + len(text)] == text and at not in places:
                places.update(range(at, at + len(text)))
                break
        else:
            left.append(text)
    return places, left


def wrong_in_use(tokens):
    """Whether a `use` renames a watched word, or brings in a variant alone or all that there is."""
    words = [word for word, _ in tokens]
    watched = ERRORS | FAULTS | {'Fault', 'Unread', 'NetFault', 'BadWords', 'Unserved'}
    renamed = any(word == 'as' and words[at - 1] in watched for at, word in enumerate(words))
    return renamed or '*' in words or any(word in FAULTS for word in words)


def looked_for(tokens, at, is_case):
    """Whether the word at this place is one that has to be listed there."""
    word = tokens[at][0]
    if is_case:
        return word in OF_STORE and not is_within_result(tokens, at)
    if word in GROWTHS:
        return at + 1 < len(tokens) and tokens[at + 1][0] in ('!', '(')
    return word in FAULTS or word in ERRORS and not is_within_result(tokens, at)


def wrong_places(name, text, texts):
    """The lines of a source that have to be in the list and are not, and the listed texts that no longer stand."""
    is_case = '_cases/' in name or '_kit/' in name
    bad, bodies = [], {}
    for kind, part, tokens in parts_of(without_clauses(tokens_of(text))):
        if kind == 'use' and wrong_in_use(tokens) and not is_case:
            bodies[part] = []
            if len(covered(tokens, texts.pop((name, part), []))[0]) < len(tokens):
                bad.append((tokens[0][1], part, 'brought in under another name'))
        elif kind == 'type' and any(word in ERRORS and not is_within_result(tokens, at) for at, (word, _) in enumerate(tokens)):
            bad.append((tokens[0][1], part, 'another name for an error'))
        elif kind == 'fn':
            bodies.setdefault(part, []).extend(tokens)
    for part, tokens in bodies.items():
        places, left = covered(tokens, texts.get((name, part), []))
        bad += [(tokens[0][1] if tokens else 1, part, 'listed, and no longer there: ' + ' '.join(it)) for it in left]
        for at in range(len(tokens)):
            if at not in places and looked_for(tokens, at, is_case):
                bad.append((tokens[at][1], part, tokens[at][0]))
    gone = [key for key in texts if key[0] == name and key[1] not in bodies]
    return bad + [(1, part, 'listed, and there is no such function') for _, part in gone]


def main(words):
    texts = listed(Path(__file__).with_suffix('.txt'))
    seen, right = set(), True
    for path in sorted(Path('crates').glob('*/src/**/*.rt')):
        name = path.relative_to('crates').as_posix()
        seen.add(name)
        text = path.read_text()
        lines = text.splitlines()
        for number, part, why in wrong_places(name, text, texts):
            right = False
            print(f'{name} {part}: {why}\n    {lines[number - 1].strip()}' if words else f'crates/{name}:{number}: {part}: {why}')
    for name, part in texts:
        if name not in seen:
            right = False
            print(f'tools/made_errors.txt: there is no {name}')
    return 0 if right else 1


if __name__ == '__main__':
    sys.exit(main(sys.argv[1:]))
