"""The pages beside the tree. See tests/pages/run.

A link `[words](target)`: the target is a file, a folder, or a heading of a page. Where the words are `a name` and the target a file of code or specs,
that file defines the name.
A row of docs/PROMISES.md whose last cell names files, as `plant/specs/Promises; text/specs`: each `name` in the cell before it is defined in one of them.
A row of its table of the paper's sentences (what the paper says, definition, theorem, edits): in the second and the third cell each part up to a `;` has its
names and then the files, and each name is defined in one of these. Each edit of the fourth, as `crate/edit`, is there, and where none is named stands why.
The edits of any other table whose last heading says so are there too. The gate tries all of them.
A name `Type::NAME` or `crate::name` on any page but the landings and the port, which tell of former times, is one of the sources.
"""
import glob
import os
import re
import sys

PAGES = ['README.md', 'CONTRIBUTING.md', 'tests/README.md'] + sorted(glob.glob('docs/*.md'))
KIT = ['io', 'std', 'fs']
SENTENCES = ['what the paper says', 'definition', 'theorem on the calls', 'edits']


def read(path):
    with open(path, encoding='utf-8') as file:
        return file.read()


def defines(path, name):
    """Whether a file of code or specs, or one of a folder of them, defines the name."""
    if os.path.isdir(path):
        return any(defines(os.path.join(path, f), name) for f in os.listdir(path))
    if path.endswith('.antt'):
        word = re.escape(name)
        return re.search(r'(?m)^\s*(?:(?:pub|abbrev|unfoldable)\s+)*(?:(?:record|data)\s+%s(?=[\s:]|$)|%s\s*:)' % (word, word), read(path)) is not None
    if path.endswith('.rt'):
        return re.search(r'\b(?:fn|struct|enum|const|mod)\s+%s\b' % re.escape(name), read(path)) is not None
    return False


def heading_marks(page):
    """The marks by which the headings of a page are linked to."""
    titles = re.findall(r'(?m)^#+ (.*)$', read(page))
    return {re.sub(r'[^\w\- ]', '', title.lower()).replace(' ', '-') for title in titles}


def links(page):
    text = re.sub(r'(?m)^    .*$', '', read(page))
    for words, target in re.findall(r'\[([^\]]+)\]\(([^)\s]+)\)', text):
        if '://' in target:
            continue
        path, _, mark = target.partition('#')
        path = os.path.normpath(os.path.join(os.path.dirname(page), path)) if path else page
        if not os.path.exists(path):
            yield '%s: there is no %s' % (page, target)
        elif mark and mark not in heading_marks(path):
            yield '%s: no heading for %s' % (page, target)
        elif re.fullmatch('`[^`]+`', words) and path.endswith(('.antt', '.rt')) and not defines(path, words.strip('`').split('::')[-1]):
            yield '%s: %s does not define %s' % (page, target, words)


def places(cell):
    """The files and folders that a cell names: `plant/specs/Promises`, `transcript/specs`, `course/src`."""
    found = []
    for crate, rest in re.findall(r'\b([a-z_]+)/((?:specs|src|proofs)(?:/\w+)*)', cell):
        path = 'crates/%s/%s' % (crate, rest)
        found.append(path if os.path.isdir(path) else path + '.antt')
    return found


def tables(page):
    """The tables of a page: each the list of its rows, each row the list of its cells."""
    table = []
    for line in read(page).splitlines() + ['']:
        if line.startswith('|'):
            table.append([c.strip() for c in line.strip().strip('|').split('|')])
        elif table:
            yield table
            table = []


def stand(page, names, files):
    """What is wrong where each name of a cell has to be defined in one of the files."""
    for path in files:
        if not os.path.exists(path):
            yield '%s: there is no %s' % (page, path)
    for name in re.findall(r'`([^`]+)`', names):
        if not any(os.path.exists(f) and defines(f, name) for f in files):
            yield '%s: none of %s defines `%s`' % (page, ', '.join(files), name)


def named(page, cell):
    """What is wrong in a cell of names and files. Names stand before their files, and behind the last ones what is of these."""
    for part in cell.split(';'):
        groups = re.findall(r'(.*?)((?:\b[a-z_]+/(?:specs|src|proofs)(?:/\w+)*(?:,\s*)?)+)', part)
        if '`' in part and not groups:
            yield '%s: no file for %s' % (page, part.strip())
        for names, files in groups:
            yield from stand(page, names, places(files))
        if groups:
            yield from stand(page, part[part.rindex(groups[-1][1]) + len(groups[-1][1]):], places(groups[-1][1]))


def edits(page, cell):
    """What is wrong in a cell of edits: each is there."""
    for edit in re.findall(r'\b([a-z_]+)/([a-z_0-9]+)', cell):
        if not os.path.exists('crates/%s/must-fail/%s.edit' % edit):
            yield '%s: there is no edit %s/%s' % (page, *edit)


def sentence(page, cells):
    """A row of the table of sentences: none of its cells is empty but in the row of a section's name."""
    if cells[1:] == ['', '', '']:
        return
    if len(cells) != 4 or '' in cells:
        yield '%s: a row with no definition, theorem or edit, and no ground: %s' % (page, cells[0])
        return
    yield from named(page, cells[1])
    yield from named(page, cells[2])
    yield from edits(page, cells[3])
    if cells[3] == '-':
        yield '%s: no edit, and no ground: %s' % (page, cells[0])


def qualified(page):
    """What is wrong with names as `Rule::MAX` and `log::read_log`. Those of the kit's own libraries are not looked for."""
    for owner, name in re.findall(r'`(\w+)::(\w+)', read(page)):
        if owner[0].isupper():
            sources = [s for s in SOURCES.values() if re.search(r'(?m)^impl(?:<[^>]*>)? %s\b|\benum %s\b' % (owner, owner), s)]
            found = any(re.search(r'\b(?:const|fn) %s\b|(?m:^    %s\b)' % (name, name), s) for s in sources)
        else:
            sources = [s for path, s in SOURCES.items() if path.startswith('crates/%s/' % owner)]
            found = owner in KIT or any(re.search(r'\b(?:const|fn) %s\b' % name, s) for s in sources)
        if not found:
            yield '%s: there is no %s::%s' % (page, owner, name)


def rows(page):
    for head, _, *body in tables(page):
        for cells in body:
            if head == SENTENCES:
                yield from sentence(page, cells)
            elif head[-1] == 'edits':
                yield from edits(page, cells[-1])
            elif len(cells) > 2 and places(cells[-1]):
                yield from stand(page, cells[-2], places(cells[-1]))


SOURCES = {path: read(path) for path in glob.glob('crates/*/src/*.rt')}
if not any(table[0] == SENTENCES for table in tables('docs/PROMISES.md')):
    sys.exit('pages: docs/PROMISES.md has no table of sentences')
wrong = [w for page in PAGES if os.path.exists(page) for w in links(page)] + list(rows('docs/PROMISES.md'))
wrong += [w for page in PAGES if os.path.exists(page) and page not in ('docs/LANDINGS.md', 'docs/PORT.md', 'docs/DESIGN-PASS.md') for w in qualified(page)]
if wrong:
    sys.exit('\n'.join(['pages: what the pages name is not in the tree'] + wrong))
print('pages: every link leads somewhere, every name stands where it is said to, and every edit is there')
