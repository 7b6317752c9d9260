#!/usr/bin/env python3
"""Refuses a page that leads nowhere: a relative Markdown link, an #anchor, or a file named in backticks that is not there.

Prints a line for each, and ends with 1 if there is one. A path in backticks stands at the top, below crates/, in a crate, in its src, or in
its proofs, where `.antt` may be missing. A name without a slash, with the ending of a source, a page or a script, is that of some file.
What a check leaves in `out/` is not looked for, nor a name with a part in capitals for one to choose.
"""
import os
import re
import sys
from pathlib import Path

TOP = Path(__file__).resolve().parent.parent
PAGES = [TOP / 'README.md', TOP / 'CONTRIBUTING.md', TOP / 'CHANGELOG.md', TOP / 'bench' / 'README.md', *sorted((TOP / 'docs').glob('*.md'))]
BLOCK = re.compile(r'^```.*?^```$', re.M | re.S)


def names_there():
    """The names of all files but those that a check or git made."""
    found = set()
    for _, folders, files in os.walk(TOP):
        folders[:] = [name for name in folders if name not in ('out', '.git')]
        found.update(files)
    return found


NAMES = names_there()


def anchors_of(page):
    """The anchors of its headings, as a reader of Markdown makes them."""
    heads = re.findall(r'^#+ (.*)$', BLOCK.sub('', page.read_text(encoding='utf-8')), re.M)
    return {re.sub(r'[^\w -]', '', head).lower().replace(' ', '-') for head in heads}


def is_there(name):
    places = ['', 'crates/', 'crates/*/', 'crates/*/src/', 'crates/*/proofs/']
    return re.match(r'out(/|$)', name) or re.search(r'\b(NAME|MODULE|FUNCTION)\b', name) or any(
        next(TOP.glob(place + name + end), None) for place in places for end in ('', '.antt'))


def faults_of(page):
    text = BLOCK.sub('', page.read_text(encoding='utf-8'))
    for link in re.findall(r'\]\(([^)\s]+)\)', text):
        path, _, anchor = link.partition('#')
        target = page.parent / path if path else page
        if not re.match(r'\w+:', link) and not (target.exists() and (not anchor or anchor in anchors_of(target))):
            yield f'the link {link} leads nowhere'
    for quoted in re.findall(r'`([^`]+)`', text):
        name = re.match(r'(?:\./)?([A-Za-z_][\w.-]*/[\w./-]*|\.ci/\w+)', quoted)
        alone = re.fullmatch(r'([\w-]*[a-z][\w-]*\.(?:rt|antt|py|sh|txt|md|csv))', quoted)
        if name and not is_there(name[1].rstrip('/')) or alone and alone[1] not in NAMES:
            yield f'there is no {(name or alone)[1]}'


found = [f'{page.relative_to(TOP)}: {fault}' for page in PAGES for fault in faults_of(page)]
print('\n'.join(found), end='\n' if found else '')
sys.exit(bool(found))
