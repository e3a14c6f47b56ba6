"""A folder in names: the texts that its words give, and whether the texts that are there are those."""
import os

from desk import rules, texts, words
from desk.trouble import Bad, Trouble, counted, told


def read_text(folder, name, reading):
    """What a text in names says; trouble with a caret where it can't be read."""
    path = os.path.join(folder, name)
    if not os.path.lexists(path):
        raise Trouble('there is no %s. To begin one: tools/plant %s --new. To have the words of a plant.txt that is there: tools/plant %s --back' % (path, folder, folder))
    text = texts.decoded(texts.contents(path), path)
    try:
        return reading(text)
    except Bad as bad:
        raise told(path, text, bad) from None


def files_of(folder):
    """The files that the words of a folder give, the plant that they say, and the events; None where there is no seen.txt."""
    plant = read_text(folder, 'words.txt', words.read_words)
    files = {'plant.txt': texts.write_table(plant.table), 'rule.txt': rules.write_rule(plant.tree) + '\n', 'names.txt': plant.names.lines()}
    events = None
    if os.path.exists(os.path.join(folder, 'seen.txt')):
        events = read_text(folder, 'seen.txt', lambda text: words.read_seen(text, plant.names))
        files['log.txt'] = texts.write_log(events, plant.table.props)
    return files, plant, events


def decoded(folder):
    """The plant that the texts of a folder say."""
    table = texts.table_of(folder)
    return words.Plant(table, tree_of(folder, table), texts.names_of(folder, table))


def tree_of(folder, table):
    """The rule of a folder. The programs have the last word on it; here a bad one is trouble."""
    text = texts.rule_text(folder)
    try:
        tree = rules.read_rule(text)
    except Bad as bad:
        raise told(os.path.join(folder, 'rule.txt'), text, bad) from None
    for k in sorted(rules.used(tree)):
        if k >= table.props:
            raise Trouble('%s names p%d, and the plant has %s' % (os.path.join(folder, 'rule.txt'), k, counted(table.props, 'signal')))
    return tree


def other_files(folder):
    """The files that are not what the words give, byte by byte."""
    return [name for name, text in files_of(folder)[0].items() if held(folder, name) != text.encode('utf-8')]


def held(folder, name):
    """The bytes of a file; of one that can't be read none that a text has."""
    try:
        return texts.contents(os.path.join(folder, name))
    except Trouble:
        return b'(none)'


def stale(folder):
    """A word of warning where a folder has words that say something else than its texts, capital digits aside; the programs read the texts alone."""
    if not os.path.exists(os.path.join(folder, 'words.txt')):
        return ''
    try:
        files = files_of(folder)[0]
        other = [name for name in other_files(folder) if name == 'names.txt' or held(folder, name).lower() != files[name].lower().encode('utf-8')]
    except Trouble:
        return 'Mind: words.txt or seen.txt can\'t be read as it stands, and what follows is of the texts that are there. What is wrong: tools/plant %s' % folder
    return 'Mind: the words say something else than %s, and what follows is of the texts. To make them anew: tools/plant %s' % (', '.join(other), folder) if other else ''
