#!/usr/bin/env python3
"""Renames what the table of old and new names says.

    tools/rename.py                    renames in the checkout, and prints the rows with what each renamed
    tools/rename.py --try              prints that alone
    tools/rename.py --lines            and each line that it would change
    .. --table FILE                    with another table than tools/names.txt

A row of the table is `SCOPE OLD NEW`, and a line that begins with `#` is passed over. The scope says where the name is another one, and what
it is. A row that finds nothing is done already, so a second call finds nothing; if its new name is not there either, it is told.

    all                     everywhere
    CRATE                   the sources, definitions, proofs and wrong bodies of the crate, and its places in tools/made_errors.txt
    CRATE:PATH              a file of the crate, or a folder that ends with `/`
    PATH                    another file of the repository, with a slash or a point in it
    clause:SCOPE            the label of an `ensures` or a `requires`: where it stands, in `.ensures.OLD` and `.requires.OLD`, and in the
                            names of goals, as `returns-in-Ok-clause-OLD`
    module:CRATE            a module of `src` or of `specs`: its file, its folders, and the paths that lead to it
    edit:CRATE              a wrong body
    words:PATH              a word of the language of scripts: in a script where a line or an answer begins, and in the strings of a source and
                            in backticks

Several scopes are parted by commas. Old and new names are whole identifiers; one of .antt may have `-` and `'`, and a part of it between hyphens
counts as one too, since the goals and steps of a proof are named so after functions. The name of a folder of `proofs` is one. In a comment and
on a page a name is looked for in backticks alone, and on a page in blocks of code too.

A row whose new name stands as an identifier in a file of its scope is refused, unless a fourth word `merge` says that this is meant: the two then
have one name. Behind `text:PATH`, lines `old: ` and `new: ` are two texts of a page, each of one line or with `\\n` for a line's end.

`rt fmt` is called behind it: it puts the lines of `use` and `mod` in their order, and folds what a longer name made too long.

tools/clauses.py reads the table too, and compares with an earlier commit as if the names had been these.
"""
import re
import sys
from pathlib import Path
from typing import NamedTuple

TOP = Path(__file__).resolve().parent.parent
TABLE = TOP / 'tools' / 'names.txt'
WORD = r"[A-Za-z_][\w']*"
# A name of .antt, with the hyphens that Rattle puts into the names of goals.
NAME = re.compile(rf'{WORD}(?:[-+][\w\']+)*')
STRING = r'b?r#+"[\s\S]*?"#+|b?r?"(?:\\[\s\S]|[^"\\])*"'
CHARACTER = r"b?'(?:\\u\{\w+\}|\\x\w\w|\\.|[^'\\\n])'"
# What is brought in of the definitions of another repository.
FOREIGN = r'\bRattle\.(?!dh_)\w+(?:\.\w+)*(?:\.\{[^}]*\})?'
# What a source is made of: a comment, a string, what is passed over, or a name.
PIECES = {
    '.rt': re.compile(rf'(?P<comment>//[^\n]*)|(?P<string>{STRING})|(?P<other>{CHARACTER}|{FOREIGN})|(?P<name>{NAME.pattern})'),
    '.antt': re.compile(rf'(?P<comment>(?<!\S)--[^\n]*)|(?P<string>"(?:\\.|[^"\\])*")|(?P<other>{FOREIGN})|(?P<name>{NAME.pattern})'),
}
# In a comment, a name in backticks or in a link; in a string, one that `format!` reads.
QUOTED = re.compile(r'`[^`\n]+`|\]\([^)\n]+\)|\[[^\]\n]+\]')
FORMATTED = re.compile(rf'(?<=\{{){WORD}(?=[:}}])')
IMPORTED = re.compile(r'\buse [^;{}\n]*\{([^{}]*)\}')
LISTED = re.compile(r'[^,\s][^,]*[^,\s]|[^,\s]')
BLOCK = re.compile(r'^```.*?^```$', re.M | re.S)
LABELS = (r'\b(?:ensures|requires)\s+\*?', r'\.(?:ensures|requires)\.', r'-clause-')
# A line has so many characters at most.
WIDTH = 160
SOURCES = ('.rt', '.antt', '.edit', '.edit.md', '.rt.in')
PAGES = ('.md',)
HEAD_OF_FUNCTION = re.compile(r'^\s*(?:pub(?:\(crate\))? )?(?:final )?(?:const )?fn \w+', re.M)


class Row(NamedTuple):
    kind: str
    scopes: list
    old: str
    new: str
    is_merge: bool
    line: int

    def __str__(self):
        scope = (self.kind + ':' if self.kind else '') + ','.join(self.scopes)
        return f'{scope} {self.old.strip().splitlines()[0][:40]}..' if self.kind == 'text' else f'{scope} {self.old} {self.new}'


class Wrong(Exception):
    """A row that can't be read, or is refused."""


def rows_of(table):
    """The rows of the table, in their order."""
    rows, page, old = [], None, None
    for number, line in enumerate(table.splitlines(), 1):
        if page and line.startswith('old: '):
            old = line[5:].replace('\\n', '\n')
        elif page and old is not None and re.match(r'new:( |$)', line):
            rows.append(Row('text', [page], old, line[5:].replace('\\n', '\n'), False, number))
            old = None
        elif line.startswith('text:'):
            page = line[5:].strip()
        elif line.strip() and not line.startswith('#'):
            page = None
            words = line.split()
            if len(words) < 3 or words[3:] not in ([], ['merge']):
                raise Wrong(f'line {number} is no row: {line}')
            kind, _, scope = words[0].partition(':')
            if kind not in ('clause', 'module', 'edit', 'words'):
                kind, scope = '', words[0]
            rows.append(Row(kind, scope.split(','), words[1], words[2], words[3:] == ['merge'], number))
    return rows


def is_in(path, scope):
    """Whether a file is in the scope."""
    if scope == 'all':
        return path.endswith(SOURCES + PAGES) or path == 'tools/made_errors.txt'
    crate, _, place = scope.partition(':')
    if place:
        whole = f'crates/{crate}/{place}'
        return path.startswith(whole) if place.endswith('/') else path == whole
    if '/' in scope or '.' in scope:
        return path == scope
    return path.startswith(f'crates/{scope}/') and path.endswith(SOURCES) or path == 'tools/made_errors.txt'


def kind_of(path):
    """How a file is read."""
    if path.endswith(('.edit', '.edit.md')):
        return 'edit'
    if path == 'tools/made_errors.txt':
        return 'list'
    return next((ending for ending in ('.rt', '.antt', '.md') if path.endswith((ending, ending + '.in'))), '')


class Names:
    """Replaces a name by another one where it stands as an identifier. If it is strict, it refuses a file that brings another thing of the old name
    in from another repository."""

    def __init__(self, row, is_strict=False):
        self.row, self.is_strict, self.count = row, is_strict, 0

    def name(self, match):
        """The name, or each part of it that is the old one."""
        word = match[0]
        if word == self.row.old:
            self.count += 1
            return self.row.new
        parts = re.split(r'([-+])', word)
        found = parts.count(self.row.old)
        self.count += found
        return ''.join(self.row.new if part == self.row.old else part for part in parts) if found else word

    def quoted(self, text):
        return QUOTED.sub(lambda it: NAME.sub(self.name, it[0]), text)

    def code(self, text, ending):
        def piece(match):
            if match['comment'] is not None:
                return self.quoted(match[0])
            if match['string'] is not None:
                return FORMATTED.sub(self.name, match[0]) if ending == '.rt' else match[0]
            if match['name'] is not None:
                return self.name(match)
            if self.is_strict and self.row.old in NAME.findall(match[0].partition('{')[2]):
                raise Wrong(f'{self.row}: {match[0]} brings another one in')
            return match[0]
        return PIECES[ending].sub(piece, text)

    def edit(self, text):
        """A wrong body: its texts are code of the file that it names."""
        ending, lines = '.rt', []
        for line in text.splitlines(keepends=True):
            key, colon, said = line.partition(':')
            if key == 'file':
                ending = '.antt' if said.strip().endswith('.antt') else '.rt'
            lines.append(key + colon + self.code(said, ending) if key in ('old', 'new') and colon else line)
        return ''.join(lines)

    def page(self, text):
        """A page: its blocks of code, and what stands in backticks."""
        kept, at = [], 0
        for block in BLOCK.finditer(text):
            kept += [self.quoted(text[at:block.start()]), self.code(block[0], '.antt')]
            at = block.end()
        return ''.join(kept) + self.quoted(text[at:])

    def listed(self, text):
        """tools/made_errors.txt: the places of the crates in the scope."""
        crates = [scope.partition(':')[0] for scope in self.row.scopes]
        kept = []
        for place in re.split(r'(\n\n+)', text):
            head, colon, rest = place.partition(': ')
            file = 'crates/' + head.split(' ')[0]
            if 'all' in crates or any(is_in(file, scope) for scope in self.row.scopes) and file.split('/')[1] in crates:
                why, _, texts = rest.partition('\n')
                path, _, function = head.partition(' ')
                head = path + ' ' + NAME.sub(self.name, function) if function else head
                place = head + colon + self.quoted(why) + (rest and '\n' + self.code(texts, '.rt') if '\n' in rest else '')
            kept.append(place)
        return ''.join(kept)

    def text(self, path, text):
        kind = kind_of(path)
        if self.row.old not in text:
            return text
        if kind == 'edit':
            return self.edit(text)
        if kind == 'list':
            return self.listed(text)
        if kind == '.md':
            return self.page(text)
        return self.code(text, kind) if kind else NAME.sub(self.name, text)


class Labels(Names):
    """Replaces the label of a clause."""

    def __init__(self, row, is_strict=False):
        super().__init__(row, is_strict)
        self.pattern = re.compile(rf"((?:{'|'.join(LABELS)})){row.old}(?![\w'])")

    def label(self, match):
        self.count += 1
        return match[1] + self.row.new

    def code(self, text, ending):
        return self.pattern.sub(self.label, text)

    def quoted(self, text):
        return text

    def text(self, path, text):
        return super().text(path, text) if kind_of(path) in ('.rt', '.antt', 'edit') else text


class Words(Names):
    """Replaces a word of scripts."""

    def text(self, path, text):
        def counted(match):
            self.count += 1
            return self.row.new
        word = re.compile(rf'(?<![\w-]){self.row.old}(?![\w-])')
        if path.endswith('.rt'):
            def piece(match):
                if match['comment'] is not None:
                    return re.sub(r'`[^`\n]+`', lambda it: word.sub(counted, it[0]), match[0])
                return word.sub(counted, match[0]) if match['string'] is not None else match[0]
            return PIECES['.rt'].sub(piece, text)
        if path.endswith('.md'):
            return re.sub(r'`[^`]+`', lambda it: word.sub(counted, it[0]), text)
        return re.sub(rf'(?:^|(?<= -> )){self.row.old}(?=[,\s]|$)', counted, text, flags=re.M)


def folder_renamed(path, row):
    """The path of a file of proofs, with the name of each folder that is the old one."""
    parts = path.split('/')
    if 'proofs' not in parts or row.old not in parts[3:-1] or not any(is_in(path, scope) for scope in row.scopes):
        return path
    return '/'.join(parts[:3] + [row.new if part == row.old else part for part in parts[3:-1]] + parts[-1:])


def with_names(row, files, is_strict):
    """The files with the names of a row, and how often it renamed."""
    names = {'clause': Labels, 'words': Words}.get(row.kind, Names)(row, is_strict)
    found = {}
    for path, text in files.items():
        is_here = any(is_in(path, scope) for scope in row.scopes)
        found[folder_renamed(path, row) if not row.kind else path] = names.text(path, text) if is_here else text
    return found, names.count


def with_module(row, files, is_strict):
    """The files with a module of another name."""
    crate = row.scopes[0]
    old, new = row.old, row.new
    is_source = any(re.match(rf'crates/{crate}/src/{old}(\.rt|/)', path) for path in files)
    is_specs = f'crates/{crate}/specs/{old}.antt' in files
    last, other = old.split('/')[-1], new.split('/')[-1]
    dotted, other_dotted = old.replace('/', '.'), new.replace('/', '.')
    paths, pieces = [], []
    if is_source:
        paths += [(rf'crates/{crate}/(src|proofs)/{old}(?=/|\.rt$)', rf'crates/{crate}/\1/{new}')]
        pieces += [(rf'(\bRattle\.{crate}\.(?:specs\.declared|specs\.contracts|proofs)\.){re.escape(dotted)}\b', rf'\g<1>{other_dotted}'),
                   (rf'(\b{crate}::){last}\b', rf'\g<1>{other}'), (rf'(\b{crate}/src/){old}(?=\.rt|/)', rf'\g<1>{new}')]
    if is_specs:
        paths += [(rf'crates/{crate}/specs/{old}\.antt$', f'crates/{crate}/specs/{new}.antt')]
        pieces += [(rf'(\bRattle\.{crate}\.specs\.){old}\b', rf'\g<1>{new}'), (rf'(\b{crate}/specs/){old}\b', rf'\g<1>{new}')]
    own = [(rf'(\bmod ){last}(?=;)', rf'\g<1>{other}'), (rf'(\bcrate::){last}\b', rf'\g<1>{other}'), (rf'(?<![\w:.]){last}(?=::\w|::\{{)', other),
           (rf'^(file: src/){old}(?=\.rt$|/)', rf'\g<1>{new}')] if is_source else []
    own += [(rf'(\bpub mod ){old}$', rf'\g<1>{new}'), (rf'^(file: specs/){old}(?=\.antt$)', rf'\g<1>{new}')] if is_specs else []
    found, count = {}, 0
    for path, text in files.items():
        moved = path
        for pattern, by in paths:
            moved = re.sub(pattern, by, moved)
        count += moved != path
        if is_strict and (moved in found or moved != path and moved in files):
            raise Wrong(f'{row}: there is {moved}')
        for pattern, by in pieces + (own if path.startswith(f'crates/{crate}/') else []):
            text, more = re.subn(pattern, by, text, flags=re.M)
            count += more
        found[moved] = text
    return (found, count) if is_source or is_specs else (files, 0)


def with_edit(row, files, is_strict):
    """The files with a wrong body of another name."""
    found = {re.sub(rf'^(crates/{row.scopes[0]}/must-fail/){row.old}(?=\.)', rf'\g<1>{row.new}', path): text for path, text in files.items()}
    if is_strict and len(found) < len(files):
        raise Wrong(f'{row}: there is another one')
    return found, sum(path != other for path, other in zip(files, found))


def with_text(row, files, is_strict):
    """The files with a text of a page replaced, which has to stand once; nothing, if it does not stand there."""
    path = row.scopes[0]
    count = files.get(path, '').count(row.old)
    if is_strict and count > 1:
        raise Wrong(f'{row}: stands {count} times')
    return ({**files, path: files[path].replace(row.old, row.new)}, 1) if count else (files, 0)


def names_in(path, text):
    """The identifiers of a source, and the parts of them between hyphens."""
    seen = set()
    found = Names(Row('', [], '', '', False, 0))
    found.name = lambda match: seen.update([match[0], *re.split(r'[-+]', match[0])]) or match[0]
    found.edit(text) if kind_of(path) == 'edit' else found.code(text, kind_of(path))
    return seen


def has_both(row, text):
    """Whether a function of the source has clauses of both labels."""
    heads = [it.start() for it in HEAD_OF_FUNCTION.finditer(text)] + [len(text)]
    functions = [text[begun:end] for begun, end in zip(heads, heads[1:])]
    return any(all(re.search(rf'\b(ensures|requires) \*?{label} ', it) for label in (row.old, row.new)) for it in functions)


def file_with_new_name(row, files):
    """A file of the scope in which the new name stands already, if there is one."""
    for path, text in files.items():
        if row.new in text and kind_of(path) in ('.rt', '.antt', 'edit') and any(is_in(path, scope) for scope in row.scopes):
            if has_both(row, text) if row.kind == 'clause' else row.new in names_in(path, text):
                return path
    return None


def is_done(row, files):
    """Whether the new name of a row that finds nothing is there."""
    if row.kind == 'text':
        return row.new in files.get(row.scopes[0], '')
    if row.kind in ('module', 'edit'):
        return any(path.startswith(f'crates/{row.scopes[0]}/') and re.search(rf'/{row.new}(?=[./])', path) for path in files)
    # The file that a scope names may have another name by now.
    scopes = [scope.partition(':')[0] for scope in row.scopes]
    return any(re.search(rf"(?<![\w']){row.new}(?![\w'])", text) for path, text in files.items() if any(is_in(path, scope) for scope in scopes))


def in_order(before, after):
    """The text with each list of an import in order again that was so before."""
    lists = [it[1] for it in IMPORTED.finditer(before)]

    def sorted_again(match):
        was, now = LISTED.findall(lists.pop(0)), LISTED.findall(match[1])
        if was != sorted(was) or now == sorted(now):
            return match[0]
        names = iter(sorted(now))
        return match[0].replace(match[1], LISTED.sub(lambda _: next(names), match[1]))
    return IMPORTED.sub(sorted_again, after) if len(lists) == len(IMPORTED.findall(after)) else after


def breaks_in(line):
    """Where a line may be broken: the depth in brackets, whether an operator follows, and the place."""
    depth = 0
    for at, sign in enumerate(line):
        depth += (sign in '({[') - (sign in ')}]')
        if sign == ' ' and 0 < at <= WIDTH and line[:at].strip():
            yield depth, not re.match(r'[→×⊎∙∷] |\+\+ ', line[at + 1:]) and not line[:at].endswith(' ='), at


def folded(line):
    """A line of .antt, or of a clause, in lines that are no longer than a line may be."""
    if len(line) <= WIDTH:
        return line
    indent = re.match(r' *', line)[0]
    brought = re.match(r'( *(?:pub |ghost )?use [^{]*\{)([^{}]*)(\};?)$', line)
    if brought:
        names = brought[2].split(', ')
        count = max(n for n in range(1, len(names)) if len(brought[1] + ', '.join(names[:n]) + brought[3]) <= WIDTH)
        return '\n'.join(brought[1] + ', '.join(some) + brought[3] for some in (names[:count], names[count:]))
    at = min(breaks_in(line), key=lambda it: (it[0], it[1], -it[2]))[2]
    is_term = re.match(r' *let ', line) or not re.search(r' [:=] ', line)
    return line[:at] + '\n' + folded(indent + ('' if is_term else '    ') + line[at + 1:])


def laid_out(path, before, after):
    """The text of a source with its lists of imports in order, and without a line that has become too long."""
    if before == after or kind_of(path) not in PIECES:
        return after
    after = in_order(before, after)
    was, now = before.split('\n'), after.split('\n')
    if len(was) != len(now):
        return after
    return '\n'.join(it if len(old) > WIDTH or it.lstrip().startswith(('//', '--')) else folded(it) for old, it in zip(was, now))


def applied(rows, files, tell=None):
    """The files as the rows rename them. With `tell`, a row is refused whose new name is there, and each is told with what it renamed."""
    first = files
    for row in rows:
        by = {'module': with_module, 'edit': with_edit, 'text': with_text}.get(row.kind, with_names)
        renamed, count = by(row, files, bool(tell))
        if tell:
            if count and row.kind in ('', 'clause') and not row.is_merge:
                found = file_with_new_name(row, files)
                if found:
                    raise Wrong(f'line {row.line}, {row}: the new name stands in {found}')
            tell(row, files, renamed, count)
        files = renamed
    return {path: laid_out(path, was, text) for was, (path, text) in zip(first.values(), files.items())}


def table_rows():
    return rows_of(TABLE.read_text(encoding='utf-8')) if TABLE.is_file() else []


def files_here():
    """The files that a row may be about, with their texts."""
    found = {}
    for path in sorted(TOP.rglob('*')):
        name = str(path.relative_to(TOP))
        if not re.match(r'(crates|docs|bench|office|tools|examples)/|[^/]+\.(md|txt)$', name) or re.search(r'(^|/)(out|__pycache__)/', name):
            continue
        if path.is_file() and not path.is_symlink() and name not in ('tools/names.txt', 'tools/rename.py'):
            try:
                found[name] = path.read_bytes().decode('utf-8')
            except UnicodeDecodeError:
                pass
    return found


def put(before, after):
    """Writes what differs, and takes away the files that are elsewhere now."""
    for name, text in after.items():
        if before.get(name) != text:
            path = TOP / name
            path.parent.mkdir(parents=True, exist_ok=True)
            path.write_bytes(text.encode('utf-8'))
    for path in [TOP / name for name in before if name not in after]:
        path.unlink()
        for folder in path.parents:
            if any(folder.iterdir()):
                break
            folder.rmdir()


def main(words):
    flags = {word for word in words if word in ('--try', '--lines')}
    rest = [word for word in words if word not in flags]
    if rest and (len(rest) != 2 or rest[0] != '--table'):
        return __doc__
    table = Path(rest[1]) if rest else TABLE
    total = [0, 0]

    def tell(row, before, after, count):
        if not count:
            if not is_done(row, before):
                print(f'    - {row} stands nowhere')
            return
        total[0] += 1
        total[1] += count
        print(f'{count:5} {row}')
        if '--lines' in flags:
            for (_, old), (name, text) in zip(before.items(), after.items()):
                for was, now in zip(old.splitlines(), text.splitlines()) if old != text else ():
                    if was != now:
                        print(f'        {name}: {now.strip()[:170]}')

    before = files_here()
    try:
        rows = rows_of(table.read_text(encoding='utf-8'))
        after = applied(rows, before, tell)
    except (Wrong, OSError) as wrong:
        return str(wrong)
    print(f'{total[0]} of {len(rows)} rows, {total[1]} places' + ('' if flags else ', renamed'))
    if not flags:
        put(before, after)
    return 0


if __name__ == '__main__':
    sys.exit(main(sys.argv[1:]))
