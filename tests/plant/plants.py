"""See tests/plant/run."""
import os
import sys
import tempfile

import damaged as harm
import thrown
from started import Tool
from thrown import HOME

from desk import program, rules, texts, words
from desk.trouble import Bad, spot, told

GOOD = '''title: A gate
signals: alarm, closed
state: quiet
  on: nothing
  leads to: quiet, alarm
state: alarm
  on: alarm
  leads to: alarm, shut
state: shut
  on: closed
  leads to: shut, quiet
start: quiet
again and again: the alarm ends = all but alarm
rule: always (if alarm then sometime closed)
'''

# What is put into the good text in the place of what, and where and by what words it must be refused.
WORDS = [
    ('state: shut', 'stat: shut', (9, 1), 'Is `state:` meant?'),
    ('state: shut', 'shut', (9, 1), 'one of `title`'),
    ('start: quiet', 'start: quite', (12, 8), 'Is `quiet` meant?'),
    ('start: quiet', 'start: quiet, quiet', (12, 15), 'in this list already'),
    ('start: quiet', 'start: quiet alarm', (12, 8), 'No state is called `quiet alarm`'),
    ('start: quiet', 'start:', (12, 7), 'the name of a state'),
    ('start: quiet', 'start: quiet,', (12, 14), 'A comma at the end of a line'),
    ('start: quiet\n', '', (14, 1), 'a line `start:`'),
    ('start: quiet', 'start: quiet\nstart: shut', (13, 1), 'no second `start:`'),
    ('signals: alarm, closed\n', '', (14, 1), 'a line `signals:`'),
    ('signals: alarm, closed', 'signals: alarm, alarm', (2, 17), 'no other signal'),
    ('signals: alarm, closed', 'signals: ' + ', '.join('s%d' % k for k in range(17)), (2, 80), 'no more than 16 signals'),
    ('  on: closed', '  on: open', (10, 7), 'No signal is called `open`'),
    ('  on: closed\n', '', (9, 1), 'a line `on:`'),
    ('  on: closed', '  on: closed\n  on: closed', (11, 3), 'no second `on:`'),
    ('  leads to: quiet, alarm\nstate: alarm', 'state: alarm', (3, 1), 'a line `leads to:`'),
    ('state: quiet', 'on: alarm\nstate: quiet', (3, 1), 'a line `state:` before'),
    ('state: shut', 'state: alarm', (9, 8), 'no other state'),
    ('state: shut', 'state: half (shut)', (9, 13), 'in quotes'),
    ('state: shut', 'state: "shut', (9, 8), 'quotes are not closed'),
    ('state: shut', 'state: ""', (9, 8), 'at least one letter'),
    ('all but alarm', 'all but alram', (13, 43), 'Is `alarm` meant?'),
    ('the alarm ends = all', 'the (alarm) ends = all', (13, 22), '`=`, and then the states'),
    ('again and again: the alarm ends = all but alarm', '\n'.join(['again and again: quiet'] * 5), (17, 1), 'no more than 4 lines'),
    ('always (if alarm then sometime closed)', 'always (if alarm then sometime closed', (14, 44), 'or a `)`'),
    ('always (if alarm then sometime closed)', 'always (if alarm sometime closed)', (14, 24), 'or `then`'),
    ('always (if alarm then sometime closed)', 'never alarm', (14, 7), '`always not`'),
    ('always (if alarm then sometime closed)', 'Always alarm', (14, 7), 'written small'),
    ('always (if alarm then sometime closed)', 'alarm and', (14, 16), 'a signal\'s name'),
    ('always (if alarm then sometime closed)', 'alarm closed', (14, 7), 'the name of a signal'),
    ('always (if alarm then sometime closed)', 'alarm) and closed', (14, 12), 'the end of the rule'),
    ('always (if alarm then sometime closed)', 'G(alarm -> Fclosed)', (14, 18), 'a space between `F` and `closed`'),
    ('always (if alarm then sometime closed)', 'alarm @ closed', (14, 13), 'in quotes'),
    ('always (if alarm then sometime closed)', ' '.join(['not'] * 32) + ' alarm', (14, 7), 'at most 32'),
    ('always (if alarm then sometime closed)', ' '.join(['next'] * 7) + ' alarm', (14, 7), 'at most 6'),
    ('rule: ', 'rules: ', (14, 1), 'Is `rule:` meant?'),
    ('again and again: the', 'fairness: the', (13, 1), 'Is `again and again:` meant?'),
    ('the alarm ends = all', 'the alarm ends: all', (13, 32), '`=` behind the name'),
    ('quiet, alarm\n', 'quiet, alarm,\n', (5, 26), 'A comma at the end of a line'),
    ('start: quiet', 'start: quiet,   # and more', (12, 14), 'A comma at the end of a line'),
    ('quiet, alarm\n', 'quiet,\n    alram\n', (6, 5), 'Is `alarm` meant? A comma at the end'),
    ('quiet, alarm\n', 'quiet\n    alarm\n', (6, 5), 'a list goes on behind a comma'),
    ('start: quiet', 'start: quiet and shut', (12, 8), 'Is a comma missing between `quiet` and `shut`?'),
    ('signals: alarm, closed', 'signals: alarm bell closed', (7, 7), 'There is `alarm bell closed`: is a comma missing there?'),
    ('  on: closed', '  on: shut', (10, 7), 'There is a state of that name'),
    ('  on: nothing', '  on: Nothing', (4, 7), '`nothing` is written small'),
    ('start: quiet', 'start: “quiet”', (12, 8), 'quotes of a word processor'),
    ('start: quiet', 'start: qui\u200bet', (12, 11), 'no picture (U+200B)'),
    ('always (if alarm then sometime closed)', 'always (alarm => closed)', (14, 22), '`a -> b`'),
    ('always (if alarm then sometime closed)', 'always [alarm]', (14, 14), 'Parentheses are round'),
    ('always (if alarm then sometime closed)', 'alarm && closed', (14, 14), 'one `&`'),
    ('always (if alarm then sometime closed)', 'always quiet', (14, 14), '`quiet` is a state, and a rule speaks of signals'),
    ('always (if alarm then sometime closed)', 'not alarm closed', (14, 11), 'Is a word missing between `alarm` and `closed`'),
    ('always (if alarm then sometime closed)', '(' * 600 + 'alarm' + ')' * 600, (14, 507), 'too long'),
    ('start: quiet', ''.join('state: n%d\n  on: nothing\n  leads to: quiet\n' % k for k in range(62)) + 'start: quiet', (195, 8), 'no more than 64 states'),
]
SEEN = [
    ('closed', (1, 1), '`on`, `off`, `all`'),
    ('on alarm; off alarm', (1, 15), 'both on and off'),
    ('on alarm; on closed', (1, 11), 'each once'),
    ('on alarm closed', (1, 4), 'No signal is called'),
    ('on', (1, 3), 'the name of a signal'),
    ('all', (1, 4), '`; on`'),
    ('restart', (1, 8), '`;`'),
    ('restart on alarm', (1, 9), '`;`'),
    ('nothing; on alarm', (1, 8), 'the end of the line'),
    ('event x; nothing', (1, 7), 'the number of the event'),
    ('event 4294967296; nothing', (1, 7), 'the number of the event'),
    ('event 4; nothing\nnothing', (2, 1), '`event` and its number'),
    ('nothing\nevent 4; nothing', (2, 1), 'no number'),
    ('event 4; nothing\nevent 4; nothing', (2, 7), 'a number from 5 to 21'),
    ('event 4; nothing\nevent 22; nothing', (2, 7), 'at most 16'),
    ('event 4294967295; nothing\nevent 0; nothing', (2, 7), 'was the last number'),
    ('event ' + '9' * 5000 + '; nothing', (1, 7), 'the number of the event'),
    ('on: alarm', (1, 3), 'no colon'),
    ('alarm on', (1, 1), '`on alarm`, or `off alarm`'),
    ('All; on alarm', (1, 1), 'written small: `all`'),
    ('on alarm, off closed', (1, 11), 'Before `off` stands a `;`'),
    ('on alarm and closed', (1, 4), 'Is a comma missing'),
    ('on alarm; restart', (1, 11), 'The order is'),
    ('on shut', (1, 4), 'There is a state of that name'),
    ('on alarm,\nnothing', (2, 1), 'A comma at the end'),
    ('on alarm,', (1, 10), 'A comma at the end'),
    ('7; nothing', (1, 1), '`event 7; ..`'),
    ('see=01 val=01 new=0', (1, 1), 'a line of log.txt'),
    ('nothing\n' * 3276 + 'on alarm', (3277, 1), 'at most 3,276 events'),
    ('\n'.join('event %d; nothing' % k for k in range(1986)), (1986, 1), 'at most 1,985 events'),
]


def fail(words_):
    sys.exit('plant: %s' % words_)


asked = Tool('plant', fail).asked


def refused(reading, text, where, phrase):
    """A text that must be refused there, by these words."""
    try:
        reading(text)
    except Bad as bad:
        if spot(text, bad.place)[:2] != where or phrase not in bad.expected + ' ' + bad.hint:
            fail('refused at %s by "%s. %s" and not at %s by "%s":\n%s' % (spot(text, bad.place)[:2], bad.expected, bad.hint, where, phrase, text))
    else:
        fail('taken, and should be refused by "%s":\n%s' % (phrase, text))


def same(one, other):
    return one.table.parts() == other.table.parts() and one.tree == other.tree and one.names.lines() == other.names.lines()


def loose(tree, level, name, spoken):
    """A rule with no parentheses but those that it needs: levels are 0 arrow, 1 or, 2 and, 3 until, 4 prefix."""
    sign = tree[0]
    if sign == 'p' or len(tree) == 1:
        return name(tree[1]) if sign == 'p' else sign
    if len(tree) == 2:
        return '%s %s' % (rules.WORDS[sign] if spoken else sign, loose(tree[1], 4, name, spoken))
    own = {'->': 0, '|': 1, '&': 2, 'U': 3, 'R': 3}[sign]
    left, right = (own, own + 1) if sign in '|&' else (own + 1, own)
    text = '%s %s %s' % (loose(tree[1], left, name, spoken), rules.WORDS[sign] if spoken and sign != '->' else sign, loose(tree[2], right, name, spoken))
    return '(%s)' % text if own < level else text


def spoken(text, names):
    return rules.Spoken(words.tokens(text, 0, len(text)), names).whole()


def try_plant(dice, **sizes):
    plant = thrown.plant(dice, **sizes)
    text = words.write_words(plant)
    if not same(words.read_words(text), plant):
        fail('a plant does not come back from its words:\n%s' % text)
    back = texts.read_table(texts.write_table(plant.table))
    if back.parts() != plant.table.parts() or rules.read_rule(rules.write_rule(plant.tree)) != plant.tree:
        fail('a plant does not come back from its texts:\n%s' % text)
    name = lambda k: words.in_rule(plant.names.signal[k])
    for line in (loose(plant.tree, 0, name, True), loose(plant.tree, 0, name, False), rules.in_words(plant.tree, name)):
        if spoken(line, plant.names.signal) != plant.tree:
            fail('a rule is read otherwise: %s' % line)
    bare = loose(plant.tree, 0, lambda k: 'p%d' % k, False)
    if rules.read_rule(bare) != plant.tree or spoken(bare, ['p%d' % k for k in range(16)]) != plant.tree:
        fail('grammar and words differ: %s' % bare)
    for numbered in (False, True):
        events = thrown.log(dice, plant.table.props, 12, numbered)
        if words.read_seen(words.write_seen(events, plant.names), plant.names) != events or texts.read_log(texts.write_log(events, plant.table.props), plant.table.props) != events:
            fail('a log does not come back:\n%s' % words.write_seen(events, plant.names))
    return plant


def damaged(dice, text):
    """A text with some letters gone, put in or exchanged."""
    for _ in range(dice.randint(1, 3)):
        at = dice.randrange(len(text))
        text = text[:at] + dice.choice(['', ',', ':', ';', '(', ')', '"', '=', ' ', '\n', '#', 'x', '!', '->', '-', ' all ', ' but ', ' not ', ' if ', 'é', '\t', '\0']) + text[at + dice.randint(0, 2):]
    return text


def try_damage(seed):
    """A damaged text is taken, or refused at a place that it has; nothing else comes of it."""
    names = words.read_words(GOOD).names
    for k in range(600):
        dice = thrown.dice('%s damage %d' % (seed, k))
        for text, reading in ((damaged(dice, GOOD), words.read_words), (damaged(dice, 'restart; on alarm; off closed\nevent 7; all; on nothing\nnothing\n'), lambda t: words.read_seen(t, names))):
            try:
                reading(text)
            except Bad as bad:
                if not 0 <= bad.place <= len(text) or not told('words.txt', text, bad):
                    fail('refused at %d, which the text does not have:\n%s' % (bad.place, text))


def write(folder, name, data):
    with open(os.path.join(folder, name), 'wb') as file:
        file.write(data)


def try_tool(room):
    """The tool as a person starts it."""
    mine = os.path.join(room, 'mine')
    asked(0, 'usage:', '--help')
    asked(1, 'one folder is needed')
    asked(1, 'there is no folder', os.path.join(room, 'none'))
    asked(0, 'Next:', mine, '--new')
    asked(1, 'not written over', mine, '--new')
    asked(0, 'Read back', mine)
    asked(0, 'are what the words give', mine, '--check')
    write(mine, 'rule.txt', b'Fp0\n')
    asked(1, 'not what the words give: rule.txt', mine, '--check')
    asked(1, 'not written over', mine, '--back')
    for name in ('words.txt', 'seen.txt'):
        os.remove(os.path.join(mine, name))
    asked(0, 'Written', mine, '--back')
    asked(0, 'are what the words give', mine, '--check')
    write(mine, 'words.txt', 'title: Schütz\n'.encode('latin-1'))
    asked(1, 'Save it anew as UTF-8', mine)
    write(mine, 'seen.txt', b'all; on alarm\n')
    write(mine, 'words.txt', ('\ufeff' + GOOD.replace('\n', '\r\n')).encode('utf-8'))
    asked(0, 'Read back', mine)
    write(mine, 'words.txt', GOOD.replace('quiet, alarm', 'quiet, alram').encode('utf-8'))
    before = texts.contents(os.path.join(mine, 'plant.txt'))
    asked(1, '      leads to: quiet, alram\n                       ^\nExpected here: the name of a state.', mine)
    if texts.contents(os.path.join(mine, 'plant.txt')) != before:
        fail('words that can\'t be read are written')


def try_places(room):
    """Folders and files that are not as a tool would have them, and terminals that can't show all signs."""
    odd = os.path.join(room, 'odd')
    asked(1, 'has a plant already (log.txt)', made(odd, {'log.txt': b''}), '--new')
    asked(1, 'can\'t be made', os.path.join(odd, 'log.txt'), '--new')
    asked(1, 'To begin one: tools/plant', odd)
    os.remove(os.path.join(odd, 'log.txt'))
    made(odd, {'words.txt': GOOD.replace('quiet', 'stehtün').encode('utf-8')})
    asked(0, 'steht?n', odd, env=dict(os.environ, PYTHONIOENCODING='ascii'))
    os.remove(os.path.join(odd, 'plant.txt'))
    os.mkdir(os.path.join(odd, 'plant.txt'))
    asked(1, 'plant.txt can\'t be written: is a directory', odd)
    full = made(os.path.join(room, 'full'), {'words.txt': GOOD.encode('utf-8')})
    os.symlink('/dev/full', os.path.join(full, 'rule.txt'))
    asked(1, 'rule.txt can\'t be written: no space left', full)
    strange = made(os.path.join(room, 'n\udcfcr'), {'words.txt': GOOD.encode('utf-8')})
    asked(0, 'Read back', strange, env=dict(os.environ, PYTHONIOENCODING='utf-8'))
    for words_ in (GOOD.replace('\n', '\r'), GOOD.replace('  ', '\t'), GOOD.replace('state: shut', 'state: sch\u00fctz').replace('shut', 'schu\u0308tz')):
        asked(0, 'Read back', made(os.path.join(room, 'ends'), {'words.txt': words_.encode('utf-8')}))
    asked(1, 'seen.txt, line 1, column 7', made(os.path.join(room, 'ends'), {'seen.txt': b'event ' + b'9' * 5000}))
    asked(1, 'rule.txt, line 1, column 513', made(os.path.join(room, 'deep'), {'plant.txt': texts.write_table(words.read_words(GOOD).table).encode(), 'rule.txt': b'(' * 9000}), '--back')


def made(folder, files):
    os.makedirs(folder, exist_ok=True)
    for name, data in files.items():
        write(folder, name, data)
    return folder


def try_programs(room, seed):
    """What is written is taken by the proved reader: no refusal of plant, rule or log."""
    if not program.is_built('watch'):
        fail('target/bin/watch is not there: tools/build watch')
    for k in range(12):
        dice = thrown.dice('%s programs %d' % (seed, k))
        plant = thrown.plant(dice, states=[1, 3, 20, 64][k % 4], props=[1, 4, 9, 16][k // 3])
        folder = os.path.join(room, 'p%d' % k)
        thrown.put(folder, plant, thrown.log(dice, plant.table.props, 5, k % 2 == 1))
        shown = program.watched(folder)
        if shown.refused and shown.refused[0] != 16:
            fail('the program refuses by %d at %d what the tool writes:\n%s' % (*shown.refused, words.write_words(plant)))


def without_words(dice, folder):
    """A folder whose words are to be made from its texts."""
    for name in ('words.txt', 'seen.txt'):
        os.remove(os.path.join(folder, name))
    return [folder, '--back']


def try_harm(room, seed):
    """Worked folders with harmed files: the tool says what is wrong, or takes them."""
    built, program.is_built = program.is_built, lambda name: False
    wrong = harm.try_harm('plant', 300, seed, room, ['words.txt', 'seen.txt'], lambda dice, folder: [folder] + dice.choice([[], [], ['--check']])) \
        or harm.try_harm('plant', 200, seed, room, ['plant.txt', 'rule.txt', 'log.txt', 'names.txt'], without_words)
    program.is_built = built
    if wrong:
        fail('the tool falls over a harmed folder: %s' % wrong)


GUIDE_RULES = ['G!p0', 'Fp0', 'GFp0', 'FGp0', 'G(p0->Fp1)', 'G(p0->XFp1)', 'G(p0->Xp1)', '!p1Up0', 'p0R(!p1|p0)', 'G(p0->(p1Up2))', 'GFp0->GFp1']


def try_guide(room):
    """What docs/GUIDE.md shows is what the tool does: the folder that it begins, and the rules in words."""
    guide = texts.contents(os.path.join(HOME, 'docs', 'GUIDE.md')).decode('utf-8')
    asked(0, 'Next:', os.path.join(room, 'guide'), '--new')
    for name in ('words.txt', 'seen.txt'):
        text = texts.contents(os.path.join(room, 'guide', name)).decode('utf-8')
        if ''.join('    %s\n' % line if line else '\n' for line in text.split('\n')[1:-1]) not in guide:
            fail('docs/GUIDE.md does not show the %s of --new' % name)
    rows = guide[guide.index('| in words | rule |'):].split('\n\n')[0].splitlines()[2:]
    found = [rules.write_rule(spoken(row.split('`')[1], ['a', 'b', 'c'])) for row in rows]
    if found != GUIDE_RULES:
        fail('the rules of docs/GUIDE.md are %s' % found)


def main():
    seed = sys.argv[1] if len(sys.argv) > 1 else '28'
    for k in range(120):
        try_plant(thrown.dice('%s %d' % (seed, k)))
    try_plant(thrown.dice(seed), props=16, states=64)
    for old, new, where, phrase in WORDS:
        if GOOD.count(old) < 1:
            fail('the good text has no "%s"' % old)
        refused(words.read_words, GOOD.replace(old, new, 1), where, phrase)
    try_damage(seed)
    names = words.read_words(GOOD).names
    for text, where, phrase in SEEN:
        refused(lambda t: words.read_seen(t, names), text + '\n', where, phrase)
    folders = [f for f in sorted(os.listdir(os.path.join(HOME, 'examples'))) if os.path.isdir(os.path.join(HOME, 'examples', f))]
    for folder in folders:
        asked(0, 'log.txt are what the words give', os.path.join(HOME, 'examples', folder), '--check')
    with tempfile.TemporaryDirectory() as room:
        try_tool(room)
        try_places(room)
        try_guide(room)
        try_harm(room, seed)
        try_programs(room, seed)
    print('plant: 121 plants, rules and logs go into texts and come back, %d bad words are refused at their places, the texts of %d worked plants are those of their words' % (len(WORDS) + len(SEEN), len(folders)))


main()
