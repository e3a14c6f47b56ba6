"""Looks whether each must-fail edit can be made, as `rt` makes it: one replacement after the other, each of a text that occurs once."""
import glob
import os
import sys


def pairs(path):
    """The replacements of an edit: file, old text, new text."""
    name = old = ''
    for line in open(path, encoding='utf-8').read().split('\n'):
        if line.startswith('file: '):
            name = line[len('file: '):]
        elif line.startswith('old: '):
            old = line[len('old: '):]
        elif line.startswith('new:'):
            yield name, old, line[len('new:'):].removeprefix(' ')
            old = ''


def made(path):
    """What an edit makes of its crate's files; or why it can't be made, as an AssertionError."""
    crate = path.split('/')[1]
    texts = {}
    for name, old, new in pairs(path):
        where = os.path.join('crates', crate, name)
        assert os.path.isfile(where), 'there is no file %s' % where
        text = texts.get(name)
        if text is None:
            text = open(where, encoding='utf-8').read()
        assert old and text.count(old) == 1, '%d times in %s: %s' % (text.count(old) if old else 0, where, old)
        assert old != new, 'it changes nothing'
        texts[name] = text.replace(old, new)
    assert texts, 'it has no replacement'
    return crate, tuple(sorted(texts.items()))


def main():
    first, wrong, count = {}, 0, 0
    for path in glob.glob('crates/*/must-fail/*/*'):
        print('edits: %s: an edit stands right in must-fail' % path)
        wrong += 1
    for path in sorted(glob.glob('crates/*/must-fail/*.edit')):
        try:
            result = made(path)
            assert first.setdefault(result, path) == path, 'it is that of %s' % first[result]
            assert open(path, encoding='utf-8').read().startswith('# '), 'no line says what it harms'
        except AssertionError as fault:
            print('edits: %s: %s' % (path, fault))
            wrong += 1
        count += 1
    if wrong:
        sys.exit(1)
    print('edits: each of the %d can be made' % count)


main()
