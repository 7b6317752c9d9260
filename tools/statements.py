"""What the sources of a crate state: the clauses of its functions, its other items, and the definitions of its specs/.

tools/clauses.py lists what of it differs, and tools/edits_together.py keeps a sum of it. An item is a function without its body, a type, a
constant, a ghost item or a macro. The head of an `impl` or a trait is one too, and what stands within are others. A tactic is of the proof.
"""
import hashlib
import io
import re
import subprocess
import tarfile
from typing import NamedTuple

from crates import TOP, uses_in, with_below
from made_errors import ENDS, TOKEN, behind

HOLDERS = {'impl', 'trait', 'mod'}
# What ends with its braces, and not at a semicolon.
BRACED = {'fn', 'struct', 'enum', 'union', *HOLDERS}
HEADS = {'fn', *HOLDERS}
OWNER = re.compile(r'^(?:impl\b(?:<.*?>)?\s+(?:.*\bfor\s+)?&?(?:\'\w+ )?|(?:pub(?:\(crate\))? )?trait )(\w+)')
DEFINED = re.compile(r'\s*(?:abbrev pub|pub abbrev|unfoldable pub|pub unfoldable|pub data|pub record|abbrev|unfoldable|data|record|pub)\s+(\S+)')
WORD_OF_DEFINITION = re.compile(r'"(?:\\.|[^"\\])*"|[\w\'«»-]+|\S')
COMMENT = re.compile(r'("(?:\\.|[^"\\])*")|(?<!\S)--[^\n]*')
IMPORT = re.compile(r'^(?:pub )?use ([^{\n]*(?:\{[^}]*\})?[^\n]*)\n', re.M)


class Sources:
    """The sources of the crates, as they stand or at a commit."""

    def __init__(self, commit=None):
        self.packed = None if commit is None else packed(commit)
        self.stated = {}

    def text(self, name):
        return (TOP / name).read_text(encoding='utf-8') if self.packed is None else self.packed[name]

    def texts(self, crate, part, ending):
        """The texts of the files in a part of a crate."""
        folder = f'crates/{crate}/{part}/'
        if self.packed is None:
            return [path.read_text(encoding='utf-8') for path in sorted((TOP / folder).rglob(f'*{ending}'))]
        return [text for name, text in sorted(self.packed.items()) if name.startswith(folder) and name.endswith(ending)]

    def uses(self):
        """The crates in their order, each with what it uses."""
        return uses_in(self.text('crates.txt'))


def packed(commit):
    """The texts of the sources at a commit, by their names."""
    archive = subprocess.run(['git', 'archive', commit, 'crates.txt', 'crates'], cwd=TOP, capture_output=True, check=True).stdout
    with tarfile.open(fileobj=io.BytesIO(archive)) as tar:
        return {it.name: tar.extractfile(it).read().decode() for it in tar if it.name.endswith(('.rt', '.antt', 'crates.txt')) and it.isfile()}


def squeezed(text):
    return re.sub(r'\s+', ' ', text).strip()


class Item(NamedTuple):
    kind: str
    name: str
    # `pub`, or `pub(` within the crate, or nothing.
    visibility: str
    # The head of the `impl` or the trait that it stands in.
    holder: str
    # Each with its place in the text.
    tokens: list
    text: str

    def owner(self):
        """The type or the trait that it stands in."""
        match = OWNER.match(self.holder)
        return match[1] if match else ''


def is_ghost(tokens, at):
    """Whether a clause or a ghost item begins here."""
    return tokens[at][0] in ('requires', 'ensures') or tokens[at][0] == 'ghost' and tokens[at + 1][0] != 'use'


def behind_ghost(tokens, at):
    """The place behind the clause or the ghost item, which may have a type and a value."""
    while tokens[at][0] != '{':
        at += 1
    at = behind(tokens, at)
    return behind_ghost(tokens, at) if tokens[at:at + 1] and tokens[at][0] == '=' else at


def lead_of(tokens, at):
    """What stands before the word that says what an item is, but for tactics; and the place of that word."""
    kept = []
    while at < len(tokens):
        begun, (word, after) = at, [it for it, *_ in tokens[at:at + 2]]
        if word == '#':
            at = behind(tokens, at + 1 + (after == '!'))
            if after == '[' and tokens[begun + 2][0] == 'tactic' or after == '!':
                begun = at
        elif word == 'pub' and after == '(':
            at = behind(tokens, at + 1)
        elif word in ('pub', 'final', 'unsafe') or word == 'const' and after in ('fn', 'unsafe') or word == 'ghost' and after == 'use':
            at += 1
        else:
            break
        kept += tokens[begun:at]
    return kept, at


def visibility_of(lead):
    words = [word for word, *_ in lead]
    return 'pub(' if 'pub(' in ''.join(words) else 'pub' if 'pub' in words else ''


def end_of_head(tokens, at, is_braced):
    """The place of the semicolon at which an item ends, or of its braces."""
    while at < len(tokens) and tokens[at][0] != ';':
        if is_braced and is_ghost(tokens, at):
            at = behind_ghost(tokens, at)
        elif tokens[at][0] not in ENDS:
            at += 1
        elif is_braced and tokens[at][0] == '{':
            return at
        else:
            at = behind(tokens, at)
    return at


def items_in(text):
    """The items of a source, its imports among them."""
    return items_among([(it[0], it.start(), it.end()) for it in TOKEN.finditer(text) if not it[0].startswith('//')], text, '')


def items_among(tokens, text, holder):
    lead, at = lead_of(tokens, 0)
    while at < len(tokens):
        kind = tokens[at][0]
        end = end_of_head(tokens, at, kind in BRACED or tokens[at + 1][0] == '!')
        closed = behind(tokens, end) if tokens[end:end + 1] and tokens[end][0] == '{' else end + 1
        held = [*lead, *tokens[at:end if kind in HEADS else closed]]
        name = next((word for word, *_ in tokens[at + 1:end] if word[0].isalpha() or word[0] == '_'), '')
        said = text[held[0][1]:held[-1][2]]
        yield Item(kind, name, visibility_of(lead), holder, held, said)
        if kind in HOLDERS:
            yield from items_among(tokens[end + 1:closed - 1], text, holder if kind == 'mod' else squeezed(said))
        lead, at = lead_of(tokens, closed)


def definitions_in(text):
    """The definitions of a file of specs/, each with its text without comments."""
    found, name = {}, ''
    for line in IMPORT.sub('', without_comments(text)).splitlines():
        if not line.strip() or line.startswith(('pub mod ', 'infix')):
            continue
        match = DEFINED.match(line)
        if match and len(line) - len(line.lstrip()) <= 2 and not re.match(r'\s+pub \w+ :', line):
            name = match[1]
        found[name] = found.get(name, '') + ' ' + line
    return {name: squeezed(text) for name, text in found.items()}


def without_comments(text):
    return COMMENT.sub(lambda it: it[1] or '', text)


def names_in(imported, before=''):
    """The names that an import brings, each with what it stands for."""
    head, brace, rest = imported.partition('{')
    if brace:
        for part in re.split(r',(?![^{]*\})', rest[:rest.rindex('}')]):
            yield from names_in(part, before + head.strip())
    elif head.strip():
        path, _, name = head.partition(' as ')
        yield name.strip() or re.split(r'::|\.', path)[-1].strip(), before + path.strip()


def brought(words, imports):
    """Where the names come from that stand among these words and are imported."""
    plain, run = set(words), ''.join(words)
    for name, path in imports:
        if name in plain or not re.fullmatch(r'[\w\']+', name) and all(part in run for part in name.split('◌')):
            yield path


def plainly(words):
    """The words in a row, without a comma before a bracket that closes: it comes and goes with the layout."""
    return ' '.join(word for word, after in zip(words, [*words[1:], '']) if word != ',' or after not in (')', ']', '}', '>'))


def statement_of(item, imports, ghost_imports):
    """An item with where the names in it come from: those of clauses and ghost items from other imports than those of the code."""
    code, ghost, at = [], [], 0
    while at < len(item.tokens):
        is_one = is_ghost(item.tokens, at)
        end = behind_ghost(item.tokens, at) if is_one else at + 1
        (ghost if is_one else code).extend(word for word, *_ in item.tokens[at:end])
        at = end
    places = {*brought(code, imports), *brought(ghost, ghost_imports)}
    return ' | '.join([plainly(TOKEN.findall(item.holder)), plainly([word for word, *_ in item.tokens]), *sorted(places)])


def is_seen_above(item):
    """Whether definitions and clauses of crates above can name the item: as a type, a constant or a ghost item."""
    return item.kind not in HEADS and (item.visibility == 'pub' or item.holder != '' or item.kind == 'macro_rules')


def statements_of_source(text):
    """What a source states: each item with where its names come from, and whether crates above can name it."""
    items = list(items_in(text))
    brought_by = {True: [], False: []}
    for item in items:
        if item.kind == 'use':
            brought_by[item.text.startswith('ghost')] += names_in(item.text.partition('use ')[2].rstrip(';'))
    for item in items:
        if item.kind not in ('use', 'mod'):
            yield statement_of(item, brought_by[False], brought_by[True]), is_seen_above(item)


def statements_of_specs(text):
    """What a file of specs/ states: each definition with where its names come from, and how its operators are read."""
    bare = without_comments(text)
    imports = [it for match in IMPORT.finditer(bare) for it in names_in(match[1])]
    for name, said in definitions_in(text).items():
        words = WORD_OF_DEFINITION.findall(said)
        yield ' | '.join([name, plainly(words), *sorted(brought(words, imports))])
    yield from (squeezed(line) for line in bare.splitlines() if line.startswith(('infix', 'pub use ')))


def statements_of(sources, crate):
    """All that the crate states, and of it what crates above stand on: its definitions, public types and constants, and ghost items."""
    if crate not in sources.stated:
        said = [it for text in sources.texts(crate, 'src', '.rt') for it in statements_of_source(text)]
        said += [(it, True) for text in sources.texts(crate, 'specs', '.antt') for it in statements_of_specs(text)]
        sources.stated[crate] = {it for it, _ in said}, {it for it, is_seen in said if is_seen}
    return sources.stated[crate]


def sum_of(sources, crate):
    """A sum of what a crate states, with what it stands on of the crates below it; `-` where the sources have no such crate."""
    uses = sources.uses()
    if crate not in uses:
        return '-'
    stated = {f'{crate} {it}' for it in statements_of(sources, crate)[0]}
    stated |= {f'{lower} {it}' for lower in with_below(crate, uses) for it in statements_of(sources, lower)[1]}
    return hashlib.sha256('\n'.join(sorted(stated)).encode()).hexdigest()[:12]
