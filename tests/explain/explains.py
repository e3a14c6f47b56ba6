"""See tests/explain/run."""
import os
import re
import shutil
import subprocess
import sys
import tempfile

HOME = os.path.dirname(os.path.dirname(os.path.dirname(os.path.abspath(__file__))))
sys.path.insert(0, os.path.join(HOME, 'tests', 'plant'))

import damaged
import thrown
from started import Tool

from desk import doctor, graph, others, program, refusals, rules, texts, why, words
from desk.trouble import Bad

PLANT = '''props=2
states=3
start=0000000000000001
just=0
label0=00
next0=0000000000000003
label1=01
next1=0000000000000006
label2=02
next2=0000000000000005
'''
GOOD = {'plant.txt': PLANT, 'rule.txt': 'Fp0\n', 'log.txt': 'see=03 val=00 new=0\nsee=02 val=02 new=0\n'}
NUMBERED = 'num=00000004 see=03 val=00 new=0\nnum=%s see=00 val=00 new=0\n'

# A file in the place of the good one, the refusal's number, line and column, and words of the explanation.
CASES = [
    ('plant.txt', '', 3, (1, 1), 'the file is empty'),
    ('plant.txt', PLANT.replace('\n', '\r\n'), 3, (1, 8), 'line ends of another system'),
    ('plant.txt', '\xef\xbb\xbf' + PLANT, 3, (1, 1), 'a mark at the file\'s beginning'),
    ('plant.txt', '\xff\xfe' + ''.join(c + '\0' for c in PLANT), 3, (1, 1), 'UTF-16'),
    ('plant.txt', PLANT[:-1], 3, (10, 23), 'the line end behind the last line is missing'),
    ('plant.txt', PLANT[:-9], 3, (10, 15), 'its end is cut off'),
    ('plant.txt', PLANT[:PLANT.index('next2')], 3, (10, 1), 'lines are missing at its end'),
    ('plant.txt', PLANT + '\n', 3, (11, 1), 'the end of the file: state 2 is the last'),
    ('plant.txt', PLANT.replace('props=2', 'props = 2'), 3, (1, 6), 'a space'),
    ('plant.txt', PLANT.replace('props=2', 'Props=2'), 3, (1, 1), 'a key in capital letters'),
    ('plant.txt', PLANT.replace('props=2', 'props=0'), 3, (1, 7), 'a count of 0'),
    ('plant.txt', PLANT.replace('props=2', 'props=17'), 3, (1, 8), 'a count that is too large'),
    ('plant.txt', PLANT.replace('label1=01', 'label1=0001'), 3, (7, 10), 'too many digits'),
    ('plant.txt', PLANT.replace('label1=01', 'label1=1'), 3, (7, 9), 'too few digits'),
    ('plant.txt', PLANT.replace('label1=01', 'label1=0g'), 3, (7, 9), 'no hexadecimal digit'),
    ('plant.txt', PLANT.replace('label1', 'label2'), 3, (7, 6), 'the line `label1=`'),
    ('plant.txt', PLANT.replace('just=0', 'just=1'), 3, (5, 1), 'the line `j0=`'),
    ('plant.txt', PLANT.replace('label2=02', 'label2=04'), 2, (9, 9), 'names signal 2; with `props=2` the last one is 1'),
    ('plant.txt', PLANT.replace('next1=0000000000000006', 'next1=0000000000000106'), 2, (8, 20), 'names state 8'),
    ('plant.txt', None, 14, None, 'plant.txt is not there'),
    ('plant.txt', PLANT + '#' * 3000, 14, None, 'has more than the 2,477 bytes'),
    ('rule.txt', None, 14, None, 'rule.txt is not there'),
    ('log.txt', None, 14, None, 'an empty log.txt is a log with no events'),
    ('log.txt', 'see=00 val=00 new=0\n' * 3277, 14, None, 'cut it'),
    ('rule.txt', 'p0&' * 170 + 'p0 ', 4, (1, 513), 'has 513 bytes'),
    ('rule.txt', 'p0&' * 200 + 'p0\n', 14, None, 'has more than the 513 bytes'),
    ('rule.txt', '', 5, (1, 1), 'the file is empty'),
    ('rule.txt', 'G(p0->Fp1\n', 5, (1, 10), 'a `)` is missing'),
    ('rule.txt', 'p0 &\n', 5, (1, 5), 'something is missing behind its last sign'),
    ('rule.txt', 'Fp0\nGp1\n', 5, (1, 4), 'a second line'),
    ('rule.txt', 'Fp0\r\n', 5, (1, 4), 'line ends of another system'),
    ('rule.txt', '\xef\xbb\xbfFp0\n', 5, (1, 1), 'a mark at the file\'s beginning'),
    ('rule.txt', 'p0)\n', 5, (1, 3), 'a `)` too many'),
    ('rule.txt', 'p16\n', 5, (1, 3), 'a signal beyond p15'),
    ('rule.txt', 'p0\t&p1\n', 5, (1, 3), 'a tab'),
    ('rule.txt', 'p0&&p1\n', 5, (1, 4), 'one `&`'),
    ('rule.txt', 'p0=>p1\n', 5, (1, 3), 'is written `->`'),
    ('rule.txt', '[]p0\n', 5, (1, 1), '"always" is `G`'),
    ('rule.txt', '~p0\n', 5, (1, 1), '"Not" is `!`'),
    ('rule.txt', 'always p0\n', 5, (1, 1), 'tools/plant makes rule.txt'),
    ('rule.txt', 'p0 \xe2\x80\x93> p1\n', 5, (1, 4), 'not plain ASCII'),
    ('rule.txt', 'p0&p7\n', 6, (1, 4), 'The plant has 2 signals: p0 to p1'),
    ('rule.txt', '!' * 32 + 'p0\n', 7, (1, 1), 'This one has 33'),
    ('rule.txt', 'XXXXXXXp0\n', 8, (1, 1), 'This one has 7'),
    ('log.txt', 'see=03 val=00 new=0', 12, (1, 20), 'the line end behind the last line is missing'),
    ('log.txt', 'see=03 val=00 ne', 12, (1, 17), 'its end is cut off'),
    ('log.txt', 'see=03 val=00 new=0\r\n', 12, (1, 20), 'line ends of another system'),
    ('log.txt', '\xef\xbb\xbfsee=03 val=00 new=0\n', 12, (1, 1), 'a mark at the file\'s beginning'),
    ('log.txt', 'see=03 val=00 new=0\n\n', 12, (2, 1), 'an empty line'),
    ('log.txt', 'see=3 val=00 new=0\n', 12, (1, 6), 'too few digits'),
    ('log.txt', 'see=0003 val=0000 new=0\n', 12, (1, 7), 'too many digits'),
    ('log.txt', 'see=03  val=00 new=0\n', 12, (1, 8), 'a space too many'),
    ('log.txt', 'see=03 val=00 new=2\n', 12, (1, 19), '`new` is 0 or 1'),
    ('log.txt', 'see=03 new=0\n', 12, (1, 8), 'a field that is missing'),
    ('log.txt', '# morning\n', 12, (1, 1), 'a remark'),
    ('log.txt', NUMBERED % '00000005' + 'see=00 val=00 new=0\n', 12, (3, 1), 'all lines of a log have numbers'),
    ('log.txt', 'see=03 val=00 new=0\nsee=04 val=00 new=0\n', 10, (2, 6), '`see` names signal 2'),
    ('log.txt', 'see=01 val=02 new=0\n', 10, (1, 13), '`val` has p1 on'),
    ('log.txt', NUMBERED % '00000004', 16, (2, 5), 'comes again'),
    ('log.txt', NUMBERED % '00000003', 16, (2, 5), 'goes back'),
    ('log.txt', NUMBERED % '00000016', 16, (2, 5), 'there are 17 missing'),
    ('log.txt', (NUMBERED % '00000005').replace('00000004', 'ffffffff'), 16, (2, 5), 'goes back'),
]

# What another program says: of which folder, with which files in the place of those that are there, and the status and words that it is told by.
EVENING, SENT = ('examples', 'sluice_evening'), ('tests', 'reports', 'data', 'right')
MANY = '0,' * 4096 + '0'
OTHERS = [
    ('day', EVENING, {}, 0, ['From event 0 on, 5 events: inconclusive; never true or false.', 'The day ends with presumably-true: the lamp is inconclusive']),
    ('day', EVENING, {'local.txt': 'rule=Fp0\nclosing=1\n'}, 0, ['true or false for the first time at event', 'The day ends with true']),
    ('day', EVENING, {'local.txt': 'closing=100\n'}, 1, ['Refusal 18 at byte 10', 'local.txt, line 1, column 11', 'Expected here: the end of the line', 'too large']),
    ('day', EVENING, {'local.txt': 'closing=05\n'}, 1, ['local.txt, line 1, column 10', 'no zero before']),
    ('day', EVENING, {'local.txt': 'closing=2\r\n'}, 1, ['local.txt, line 1, column 10', 'line ends of another system']),
    ('day', EVENING, {'local.txt': 'closing=2'}, 1, ['local.txt, line 1, column 10', 'the line end behind the last line is missing']),
    ('day', EVENING, {'local.txt': '\xef\xbb\xbfclosing=2\n'}, 1, ['local.txt, line 1, column 1', 'a mark at the file\'s beginning']),
    ('day', EVENING, {'local.txt': 'Closing=2\n'}, 1, ['local.txt, line 1, column 1', 'Keys are small']),
    ('day', EVENING, {'local.txt': 'closing = 2\n'}, 1, ['local.txt, line 1, column 8', 'a space']),
    ('day', EVENING, {'local.txt': '# ours\nclosing=2\n'}, 1, ['local.txt, line 1, column 1', 'a remark']),
    ('day', EVENING, {'local.txt': 'x' * 1100}, 1, ['Refusal 18 at byte 1024', 'too long for a sheet']),
    ('day', EVENING, {'shared.txt': 'rule=Fp0\nedition=1\n'}, 1, ['shared.txt, line 2, column 1', 'lines in another order']),
    ('day', EVENING, {'shared.txt': 'rule=Fp0\nrule=Fp1\n'}, 1, ['shared.txt, line 2, column 1', 'stands there already']),
    ('day', EVENING, {'shared.txt': 'rule=\n'}, 1, ['shared.txt, line 1, column 6', 'nothing behind its `=`']),
    ('day', EVENING, {'shared.txt': 'edition=12\nclosing=1\n'}, 1, ['Refusal 17', 'neither local.txt nor shared.txt has a line `rule=`']),
    ('day', EVENING, {'local.txt': 'rule=p0 p1\n'}, 1, ['Refusal 5 at byte 3: the rule in local.txt is not a rule', 'local.txt, line 1, column 9', 'an operator']),
    ('day', EVENING, {'local.txt': 'rule=G(p0->Fp1\n'}, 1, ['local.txt, line 1, column 15', 'stops too soon', 'a `)` is missing']),
    ('day', EVENING, {'shared.txt': 'edition=1\nrule=Fp4\n'}, 1, ['Refusal 6', 'shared.txt, line 2, column 7', 'The plant has 4 signals']),
    ('day', EVENING, {'local.txt': 'rule=%sp0\n' % ('X' * 7)}, 1, ['Refusal 8', 'local.txt, line 1, column 6', 'This one has 7']),
    ('day', EVENING, {'local.txt': 'closing=3\n'}, 1, ['Refusal 21', 'local.txt, line 1, column 9', 'This one says 3', '`closing=1` or `closing=2`']),
    ('day', EVENING, {'log.txt': 'see=00 val=00 new=1\n' * 66}, 1, ['Refusal 23 at byte 1280', 'log.txt, line 65, column 1', '1 event more']),
    ('day', EVENING, {'log.txt': 'see=0f'}, 1, ['Refusal 12', 'log.txt, line 1, column 7']),
    ('day', EVENING, {'local.txt': None}, 1, ['local.txt is not there', 'is an empty file']),
    ('day', EVENING, {'log.txt': None}, 1, ['log.txt is not there']),
    ('day', EVENING, {'local.txt': 'closing=1\n'}, 0, ['nothing is presumed: `closing=1` asks for the last lamp alone']),
    ('day', EVENING, {'log.txt': ''}, 0, ['nothing is presumed: there was no event']),
    ('day', EVENING, {'log.txt': 'see=0f val=00 new=0\nsee=0e val=00 new=0\n'}, 0, ['nothing is presumed: event 1 did not see fish alarm sounds, of which the rule speaks']),
    ('day', EVENING, {'log.txt': 'num=00000004 see=0f val=00 new=0\nnum=00000007 see=0f val=00 new=0\n'}, 0, ['nothing is presumed: before event 7 2 were lost']),
    ('judge', SENT, {}, 0, ['accepted: the report is right']),
    ('judge', SENT, {'report.txt': 'claim=true\nkeeps stem=0,1 loop=2,0,1\n'}, 0, ['wrong verdict']),
    ('judge', SENT, {'report.txt': ''}, 1, ['report.txt, line 1, column 1', 'is not of the form of a report', 'the file is empty']),
    ('judge', SENT, {'report.txt': 'claim=maybe\n'}, 1, ['report.txt, line 1, column 7', 'a claim that is none of']),
    ('judge', SENT, {'report.txt': 'claim=true\r\n'}, 1, ['report.txt, line 1, column 11', 'line ends of another system']),
    ('judge', SENT, {'report.txt': 'claim=true\nkeeps stem=0, 1 loop=0\n'}, 1, ['report.txt, line 2, column 14', 'a space behind a comma']),
    ('judge', SENT, {'report.txt': 'claim=true\nkeeps stem=0;1 loop=0\n'}, 1, ['report.txt, line 2, column 13', 'another sign between states']),
    ('judge', SENT, {'report.txt': 'claim=true\nbreaks stem= loop=0\nkeeps stem= loop=0\n'}, 1, ['report.txt, line 3, column 1', 'lines in another order']),
    ('judge', SENT, {'report.txt': 'claim=true\nkeeps stem=0 loop=0'}, 1, ['report.txt, line 2, column 20', 'the line end behind the last line is missing']),
    ('judge', SENT, {'report.txt': 'claim=inconclusive\nkeeps stem=0,1 loop=2,0,1\nbreaks stem=%s loop=0\n' % MANY}, 1, ['Refusal 22', 'report.txt, line 3, column 1', 'has 4,098 states']),
    ('judge', SENT, {'report.txt': None}, 1, ['report.txt is not there']),
    ('judge', SENT, {'rule.txt': 'Fp1\n\n'}, 1, ['Refusal 5', 'rule.txt, line 1, column 4']),
    ('machine', ('examples', 'turbine'), {}, 0, ['There is a machine', 'tools/try']),
    ('machine', ('examples', 'station'), {}, 1, ['The plant has 13 signals, and a machine is made for at most 3']),
    ('machine', ('examples', 'turbine'), {'rule.txt': 'p0&\n'}, 1, ['Refusal 5', 'rule.txt, line 1, column 4']),
    ('table', ('examples', 'lock'), {'rule.txt': None}, 0, ['takes plant.txt, and writes the same']),
    ('table', ('examples', 'lock'), {'plant.txt': 'props=2\r\n'}, 1, ['Refusal 3', 'line ends of another system']),
]

# Small plants in words, and what the doctor must say of each; nothing where nothing is wrong.
BEGIN = 'signals: a, b\nstate: one\n  on: nothing\n  leads to: one, two\nstate: two\n  on: a\n  leads to: one, two, three\nstate: three\n  on: b\n  leads to: %s\n%sstart: %s\n%srule: always (if a then sometime b)\n'
SICK = [
    (BEGIN % ('one', '', 'one', ''), []),
    (BEGIN % ('nowhere', '', 'one', ''), ['`three` is a dead end', 'The rule names `b`, which is never on']),
    (BEGIN % ('one', '', 'none', ''), ['The plant has no starting state']),
    (BEGIN % ('one', 'state: four\n  on: a\n  leads to: one\n', 'one', ''), ['1 state can\'t be reached']),
    (BEGIN % ('three', '', 'one', 'again and again: rest = one\n'), ['`three` is cut off', 'never on']),
    (BEGIN % ('one', 'state: four\n  on: a\n  leads to: nowhere\n', 'one, four', ''), ['No run begins in `four`', '`four` is a dead end']),
    (BEGIN % ('one', '', 'one', 'again and again: none\n'), ['No run begins anywhere', 'from none of them `j0` can happen']),
    ((BEGIN % ('one', '', 'one', '')).replace('a, b', 'a, b, c'), ['1 signal for nothing']),
    ((BEGIN % ('one', '', 'one', '')).replace('on: nothing', 'on: a').replace('on: b', 'on: a, b'), ['which is always on']),
    ((BEGIN % ('one, four', 'state: four\n  on: a\n  leads to: five\nstate: five\n  on: b\n  leads to: four\n', 'one', 'again and again: y = one\n')),
     ['`four` is cut off: no run goes there', 'never comes again']),
]


def fail(said):
    sys.exit('explain: %s' % said)


tool = Tool('explain', fail)
asked = tool.asked


def put(folder, files):
    os.makedirs(folder, exist_ok=True)
    for name, text in files.items():
        if text is not None:
            with open(os.path.join(folder, name), 'wb') as file:
                file.write(text.encode('latin-1'))


# ---- refusals ----

def try_case(folder, name, text, number, where, phrase):
    put(folder, dict(GOOD, **{name: text}))
    shown = program.watched(folder)
    if not shown.refused or shown.refused[0] != number:
        fail('the program does not refuse by %d: %r' % (number, text))
    said = refusals.explained(folder, *shown.refused)
    place = re.search(r'%s, line (\d+), column (\d+):\n    (.*)\n    ( *)\^' % re.escape(os.path.join(folder, name)), said)
    if phrase not in said or where and (not place or (int(place.group(1)), int(place.group(2))) != where):
        fail('%r is not explained at %s by "%s", but so:\n%s' % ((text or '')[:60], where, phrase, said))
    if place and not place.group(3).startswith('.. ') and len(place.group(4)) != where[1] - 1:
        fail('the caret does not stand under its byte:\n%s' % said)


def try_refusals(room):
    given = set()
    for k, (name, text, number, where, phrase) in enumerate(CASES):
        try_case(os.path.join(room, 'case%d' % k), name, text, number, where, phrase)
        given.add(number)
    if given != {2, 3, 4, 5, 6, 7, 8, 10, 12, 14, 16}:
        fail('the cases have the refusals %s alone' % sorted(given))
    told = [asked(0, ['Refusal %d:' % number, 'What to do:'], '--number', str(number)).strip() for number in range(1, 25, 5)]
    texts_ = told + [refusals.kind_text(number) for number in range(1, 25)]
    if set(refusals.KINDS) != set(range(1, 25)) or len(set(texts_)) != 24 or min(len(kind) for k in refusals.KINDS.values() for kind in k) < 15:
        fail('a refusal has no text of its own')
    asked(1, ['there is no refusal 25'], '--number', '25')
    asked(1, ['a refusal is a number'], '--number', 'x')
    folder = os.path.join(room, 'case1')
    asked(1, ['Refusal 3 at byte 7', 'line 1, column 8', 'props=2␍', 'line ends of another system', 'What to do:'], folder)


def try_places(room, seed):
    """Damaged texts: what the tool expects stands at the program's place."""
    for k in range(18):
        dice = thrown.dice('%s damage %d' % (seed, k))
        plant = thrown.plant(dice, states=3, props=dice.choice([2, 9]))
        folder = os.path.join(room, 'd%d' % k)
        thrown.put(folder, plant, thrown.log(dice, plant.table.props, 3, k % 2 == 0))
        name = ['plant.txt', 'rule.txt', 'log.txt'][k % 3]
        text = texts.text_of(folder, name)
        at = dice.randrange(len(text))
        put(folder, {name: dice.choice([text[:at], text[:at] + text[at + 1:], text[:at] + dice.choice(' \n0g(=p&s') + text[at + 1:]])})
        shown = program.watched(folder)
        if shown.refused and shown.refused[0] in (3, 5, 12) and 'Expected here:' not in refusals.explained(folder, *shown.refused):
            fail('the tool expects nothing at the place of refusal %d at %d of %r' % (*shown.refused, texts.text_of(folder, name)))


def try_bytes(room, seed):
    """Any bytes: whatever stands in a file, its explanation is words with a caret. The place is that of the tool's own reader here."""
    folder = os.path.join(room, 'bytes')
    put(folder, GOOD)
    readers = {'plant.txt': (3, texts.read_table), 'rule.txt': (5, lambda text: rules.read_rule(text[:-1] if text.endswith('\n') else text)), 'log.txt': (12, lambda text: texts.read_log(text, 2))}
    for k in range(300):
        dice = thrown.dice('%s bytes %d' % (seed, k))
        name = ['plant.txt', 'rule.txt', 'log.txt'][k % 3]
        at = dice.randrange(len(GOOD[name]) + 1)
        text = GOOD[name][:at] + ''.join(chr(dice.choice([0, 9, 10, 13, 32, 40, 41, 48, 61, 70, 112, 195, 255, dice.randrange(256)])) for _ in range(dice.randint(0, 3))) + GOOD[name][at + dice.randint(0, 2):]
        put(folder, {name: text})
        try:
            readers[name][1](text)
        except Bad as bad:
            said = refusals.explained(folder, readers[name][0], bad.place)
            if 'Expected here: ' not in said or '^' not in said or 'What to do: ' not in said:
                fail('bytes that are not explained: %r\n%s' % (text, said))
        put(folder, GOOD)


def try_others(room):
    """What the other programs say is told."""
    for k, (name, at, files, status, phrases) in enumerate(OTHERS):
        folder = os.path.join(room, 'other%d' % k)
        shutil.copytree(os.path.join(HOME, *at), folder)
        for file, text in files.items():
            os.remove(os.path.join(folder, file))
        put(folder, files)
        said, is_refused = others.told(name, folder)
        if is_refused != bool(status) or any(phrase not in said for phrase in phrases):
            fail('what `%s` says of %s is not told by %s, but so:\n%s' % (name, files, phrases, said))
        if ('Refusal 18' in said or 'Refusal 12' in said) and not ('Expected here: ' in said and 'Likely cause: ' in said):
            fail('`%s` of %s: the tool expects nothing at the program\'s place:\n%s' % (name, files, said))
    asked(0, ['The day ends with'], os.path.join(room, 'other0'), '--of', 'day')
    for file in ('rule.txt', 'words.txt'):
        os.remove(os.path.join(room, 'other0', file))
    asked(1, ['rule.txt is not there', '--of day'], os.path.join(room, 'other0'))
    asked(1, ['Refusal 18'], os.path.join(room, 'other2'), '--of', 'day')
    asked(1, ['`--of` names a program: table, machine, day or judge'], room, '--of', 'tables')
    asked(1, ['there is no folder'], os.path.join(room, 'none'), '--of', 'day')


def try_forms(room, seed):
    """Damaged sheets and reports: what the tool expects stands at the program's place."""
    for k in range(16):
        dice = thrown.dice('%s forms %d' % (seed, k))
        name, at, file = (('day', EVENING, dice.choice(['local.txt', 'shared.txt'])), ('judge', SENT, 'report.txt'))[k % 2]
        folder = os.path.join(room, 'form%d' % k)
        shutil.copytree(os.path.join(HOME, *at), folder)
        text = texts.text_of(folder, file)
        place = dice.randrange(len(text))
        put(folder, {file: text[:place] + dice.choice(['', ' ', '\n', '0', ',', '=', 'x', '\r', 'r']) + text[place + dice.randint(0, 1):]})
        refused = others.REFUSED.fullmatch(program.run(name, folder))
        said = others.told(name, folder)[0]
        if refused and refused.group(1) in refusals.SHEETS and ('Expected here: ' not in said or 'Likely cause: ' not in said):
            fail('what is wrong with %r is not told:\n%s' % (texts.text_of(folder, file), said))


def try_harm(room, seed):
    """Worked folders with harmed files are explained, or what is wrong is told."""
    wrong = damaged.try_harm('explain', 40, seed, room, ['plant.txt', 'rule.txt', 'log.txt', 'names.txt', 'words.txt'], lambda dice, folder: [folder] + dice.choice([[], ['--doctor'], ['--at', '3']]))
    if wrong:
        fail('the tool falls over a harmed folder: %s' % wrong)


# ---- the doctor ----

def by_sweeps(table):
    """The states from which a fair way goes on for ever, by another way than the tool's: what can't go on to each fairness set is swept out until nothing is."""
    alive = set(range(table.states))
    while True:
        after = set(alive)
        for fair in table.fair or [frozenset(range(table.states))]:
            near = set()
            while True:
                more = {s for s in after if any(t in after and (t in fair or t in near) for t in table.next[s])}
                if more == near:
                    break
                near = more
            after &= near
        if after == alive:
            return alive
        alive = after


def try_doctor(room, seed):
    for k, (text, wanted) in enumerate(SICK):
        plant = words.read_words(text)
        found = ['%s. %s' % (f.title, f.text) for f in doctor.advice(plant.table, plant.names, plant.tree)]
        if not wanted and found or any(not any(w in f for f in found) for w in wanted):
            fail('the doctor should say %s of this, and says %s:\n%s' % (wanted, found, text))
    for k in range(80):
        plant = thrown.plant(thrown.dice('%s doctor %d' % (seed, k)))
        if graph.endless(plant.table) != by_sweeps(plant.table):
            fail('the states that go on for ever are others:\n%s' % words.write_words(plant))
        said = ' '.join(f.title + f.text for f in doctor.advice(plant.table, plant.names, plant.tree))
        missed = [s for s in range(plant.table.states) if s not in graph.visited(plant.table) and '`%s`' % plant.names.state[s] not in said]
        if missed and plant.table.start & graph.endless(plant.table):
            fail('the doctor has no word of state %d, which no run visits:\n%s\n%s' % (missed[0], said, words.write_words(plant)))
    lock = os.path.join(HOME, 'examples', 'lock')
    asked(0, ['`both gates open` is cut off: no run goes there', 'only back to itself, and it is not in `the gates are shut`', 'decided at the start: true'], lock, '--doctor')
    mend(lock, os.path.join(room, 'mended'))


def mend(lock, folder):
    """The lock as the doctor advises: nothing is found any more, and the lamp turns red where both gates are open."""
    shutil.copytree(lock, folder)
    text = texts.contents(os.path.join(folder, 'words.txt')).decode('utf-8')
    put(folder, {'words.txt': text.replace('the gates are shut = low water, high water', 'it comes to rest = low water, high water, both gates open')})
    subprocess.run([sys.executable, '-B', os.path.join(HOME, 'tools', 'plant'), folder], stdout=subprocess.DEVNULL, check=True)
    said = asked(0, ['Advice on the plant: nothing found', 'The lamp is red (false)', 'It was decided at event 6', 'stays in `both gates open` for ever'], folder)
    if 'yellow (inconclusive)' not in said or 'Mind:' in said:
        fail('the mended lock is decided at the start, or has other texts than its words give:\n%s' % said)
    put(folder, {'words.txt': text})
    asked(0, ['Mind: the words say something else than plant.txt, names.txt', 'The lamp is red (false)'], folder)
    put(folder, {'seen.txt': 'on nobody\n'})
    asked(0, ['Mind: words.txt or seen.txt can\'t be read'], folder)
    put(folder, {'seen.txt': 'nothing\n'})
    os.remove(os.path.join(folder, 'rule.txt'))
    os.mkdir(os.path.join(folder, 'rule.txt'))
    asked(1, ['Mind: the words say something else than plant.txt, rule.txt', 'rule.txt is a folder, and a file is needed'], folder)


# ---- why ----

def holds(tree, labels, loop, i):
    """A rule at a position of a lasso, by the words of its meaning: every position that is ever different lies before two more rounds."""
    many = len(labels)
    at = lambda j: j if j < many else loop + (j - loop) % (many - loop)
    later = range(i, max(i, loop) + 2 * (many - loop))
    sign = tree[0]
    if sign == 'p':
        return tree[1] in labels[at(i)]
    one = lambda j: holds(tree[1], labels, loop, at(j))
    two = lambda j: holds(tree[2], labels, loop, at(j))
    return {
        '0': lambda: False, '1': lambda: True, '!': lambda: not one(i), 'X': lambda: one(i + 1), 'F': lambda: any(one(j) for j in later), 'G': lambda: all(one(j) for j in later),
        'U': lambda: any(two(j) and all(one(k) for k in range(i, j)) for j in later), 'R': lambda: all(two(j) or any(one(k) for k in range(i, j)) for j in later),
        '&': lambda: one(i) and two(i), '|': lambda: one(i) or two(i), '->': lambda: not one(i) or two(i),
    }[sign]()


def check_walk(story, walk, way, kind):
    """Walk and way on are a run that fits the log and is of the kind."""
    table = story.table
    row, places = graph.filled(story.events)
    states = walk[:-1] + way.stem + way.loop
    loop = len(walk) - 1 + len(way.stem)
    if walk[-1] != (way.stem + way.loop)[0] or walk[0] not in table.start or len(walk) != max(1, len(row)):
        return 'a walk that does not begin at a start and end now'
    if any(b not in table.next[a] for a, b in zip(states, states[1:] + [states[loop]])):
        return 'a move that is not in the table'
    if any(event and not graph.agrees(event, table.label[s]) for event, s in zip(row, walk)):
        return 'a state that does not fit what was seen'
    mark = max([places[n] for n, e in enumerate(story.events) if e.new] or [0])
    return '' if holds(story.tree, [table.label[s] for s in states], loop, mark) == kind else 'a run of the other kind'


def try_why(room, seed):
    """On thrown plants: the states where the plant can be are as many as the program says, and walks are runs of their kind."""
    walks = 0
    for k in range(16):
        dice = thrown.dice('%s why %d' % (seed, k))
        plant = thrown.plant(dice, states=dice.choice([2, 3, 4, 5]), props=2, busy=True)
        plant.tree = thrown.rule(dice, 2, 7)
        folder = os.path.join(room, 'w%d' % k)
        thrown.put(folder, plant, thrown.walked(dice, plant.table, dice.choice([0, 1, 2, 3]), k % 3 == 0))
        story, shown = why.Story(folder), program.watched(folder)
        if [len(states) for states in story.where] != [shown.start.left] + [lamp.left for lamp in shown.lamps]:
            fail('the plant can be in other states than the program says: %s' % folder)
        said = '\n'.join(why.told(story, shown))
        if 'believe the program' in said or 'The lamp is %s' % why.COLOURS[(shown.lamps or [shown.start])[-1].verdict] not in said:
            fail('another lamp is told than the program shows:\n%s' % said)
        walks += try_walks(story)
    if walks < 15:
        fail('only %d walks were tried' % walks)
    return walks


def thrown_way(dice, table, state):
    """A way on from a state: some moves, and round again from a state that came before; None where it comes to an end."""
    row = [state]
    for _ in range(dice.randint(1, 6)):
        if not table.next[row[-1]]:
            return None
        row.append(dice.choice(sorted(table.next[row[-1]])))
    again = [k for k, s in enumerate(row[:-1]) if s == row[-1]]
    return program.Way(row[:again[0]], row[again[0]:-1]) if again else None


def all_walks(story, last):
    """Every walk that fits all events and ends in a state."""
    row, _ = graph.filled(story.events)
    walks = [[s] for s in story.table.start]
    for event in row[1:]:
        walks = [w + [t] for w in walks for t in story.table.next[w[-1]]]
    return [w for w in walks if w[-1] == last and all(e is None or graph.agrees(e, story.table.label[s]) for e, s in zip(row, w))]


def try_judged(room, seed):
    """With no program: what a rule says of a lasso, by its meaning; and of which kinds walks to a way on can be, by trying each walk."""
    kinds = 0
    for k in range(200):
        dice = thrown.dice('%s judged %d' % (seed, k))
        plant = thrown.plant(dice, states=3, props=2, busy=True)
        plant.table.fair, plant.table.start, plant.tree = [], frozenset({0, 1, 2}), thrown.rule(dice, 2, dice.choice([4, 6, 9]))
        folder = os.path.join(room, 'judged')
        events = thrown.walked(dice, plant.table, dice.choice([1, 3, 5]), k % 2 == 0)
        thrown.put(folder, plant, [e._replace(new=dice.random() < 0.3) if dice.random() < 0.3 else e._replace(see=0, val=0, new=dice.random() < 0.3) for e in events])
        story = why.Story(folder)
        way = thrown_way(dice, story.table, dice.choice(sorted(story.where[-1]))) if story.where[-1] else None
        if not way:
            continue
        labels = [story.table.label[s] for s in way.stem + way.loop]
        values = rules.judged(story.tree, labels, len(way.stem))
        for part, row in values.items():
            if row != [holds(part, labels, len(way.stem), i) for i in range(len(labels))]:
                fail('%s has other values on %s' % (rules.write_rule(part), way))
        found = why.walks(story, way)
        wanted = {kind for walk in all_walks(story, (way.stem + way.loop)[0]) for kind in (True, False) if not check_walk(story, walk, way, kind)}
        if set(found) != wanted or any(check_walk(story, walk, way, kind) for kind, walk in found.items()):
            fail('walks of the kinds %s and not %s: %s, %s' % (sorted(found), sorted(wanted), way, words.write_words(plant) + words.write_seen(story.events, plant.names)))
        kinds += len(wanted) == 2
    if kinds < 12:
        fail('only %d ways on had walks of both kinds' % kinds)


def try_where():
    """Where the plants of the worked folders can be: as many states as their expected outputs say."""
    for name in sorted(os.listdir(os.path.join(HOME, 'examples'))):
        folder = os.path.join(HOME, 'examples', name)
        if os.path.exists(os.path.join(folder, 'expected.txt')):
            lefts = [int(left) for left in re.findall(r'left=(\d+)', texts.contents(os.path.join(folder, 'expected.txt')).decode())]
            if [len(states) for states in why.Story(folder).where] != lefts:
                fail('%s can be in other states than its expected output says' % name)


def try_walks(story):
    ways = story.cut(len(story.events), program.ways)
    tried = 0
    for kind, way in zip((True, False), ways):
        if not way:
            continue
        found = why.walks(story, way)
        if kind not in found:
            fail('no walk that %s the rule leads to the way that the program gives' % why.KIND[kind])
        for other, walk in found.items():
            wrong = check_walk(story, walk, way, other)
            if wrong:
                fail('%s: %s, %s' % (wrong, walk, way))
            tried += 1
    return tried


def try_long(room):
    """The longest log of a large plant with many arrows, and a rule with six temporal operators: it is told in seconds."""
    dice = thrown.dice('long')
    every = range(64)
    table = texts.Table(16, every, [every] * 4, [thrown.some(dice, 16, 0.5) for _ in every], [thrown.some(dice, 64, 0.1) | {(s + 1) % 64} for s in every])
    tree = rules.read_rule('G(p0->F(p1U(p2&X(p3R(p4|(Fp5&p6))))))&(p7|p8)&(p9->p10)')
    folder = os.path.join(room, 'long')
    events = [texts.Event(None, dice.choice([0, 0, 1 << dice.randrange(16)]), 0, False) for _ in range(2730)]
    thrown.put(folder, words.Plant(table, tree, texts.Names(16, 64, 4)), events)
    asked(0, ['What happened (2,730 events)', 'The lamp is yellow (inconclusive)', 'A run that breaks the rule can go on so'], folder, timeout=60)


PAST = {'plant.txt': 'props=1\nstates=3\nstart=0000000000000003\njust=0\nlabel0=01\nnext0=0000000000000004\nlabel1=00\nnext1=0000000000000004\nlabel2=00\nnext2=0000000000000004\n',
        'rule.txt': 'p0\n', 'log.txt': 'see=00 val=00 new=0\nsee=01 val=00 new=0\n', 'names.txt': 's0=wet\ns1=dry\ns2=shut\n'}


def try_guide(room):
    """What docs/GUIDE.md shows is what the tool says: of the folder that is begun, of the sluice, of the lock; and it has a row for each number, in turn."""
    guide = texts.contents(os.path.join(HOME, 'docs', 'GUIDE.md')).decode('utf-8')
    folder = os.path.join(room, 'guide')
    for given in ([folder, '--new'], [folder]):
        subprocess.run([sys.executable, '-B', os.path.join(HOME, 'tools', 'plant'), *given], stdout=subprocess.DEVNULL, check=True)
    shown = [('The second answers:', [folder]), ('$ tools/explain examples/sluice --at 9', [os.path.join(HOME, 'examples', 'sluice'), '--at', '9']), ('`tools/explain` finds that:', [os.path.join(HOME, 'examples', 'lock')])]
    for begin, given in shown:
        block = re.match(r'[^\n]*\n+((?:    [^\n]*\n|\n)+)', guide[guide.index(begin):]).group(1)
        said = tool.run(*given)[1]
        for line in (part.strip() for row in block.splitlines() for part in row.split('..')):
            if line not in said:
                fail('docs/GUIDE.md shows "%s", and the tool does not say it:\n%s' % (line, said))
    if [int(n) for n in re.findall(r'(?m)^\| (\d+) \|', guide)] != sorted(refusals.KINDS):
        fail('docs/GUIDE.md does not have each refusal in turn')


def try_told(room):
    """What must be said of some folders."""
    folder = os.path.join(room, 'past')
    put(folder, PAST)
    asked(0, ['The two kinds differ in the past: with the very same way on', 'keeps the rule, if it came so: `wet`, `shut`', 'breaks the rule, if it came so: `dry`, `shut`'], folder)
    files = dict(PAST, **{'rule.txt': 'p0&FGp1\n', 'plant.txt': PAST['plant.txt'].replace('props=1', 'props=2').replace('label2=00\nnext2=0000000000000004', 'label2=02\nnext2=0000000000000005')})
    put(os.path.join(room, 'too'), files)
    asked(0, ['The past counts too: with the first way on a run may keep the rule or break it', 'It keeps the rule, if it came so: `wet`, `shut`', 'It breaks the rule, if it came so: `dry`, `shut`'], os.path.join(room, 'too'))
    bottling = os.path.join(HOME, 'examples', 'bottling')
    asked(0, ['The lamp is red (false)', 'It was decided at event 10 (on: belt moves; off: syrup flows)', 'could be in `waits` or `valve sticks`', 'The plant can now be in `empty, capper`', 'No run that fits keeps the rule any more'],
          bottling, '--at', '11')
    asked(0, ['The plant can now be in `full, outlet`', '`empty, outlet`', 'from event 13 on, the last restart', 'nothing found'], bottling)
    asked(0, ['Since event 16', 'in `barred` `fish alarm sounds` is off'], os.path.join(HOME, 'examples', 'sluice'))
    asked(0, ['What happened (12 events)', 'event 434', 'The lamp is green (true)'], os.path.join(HOME, 'examples', 'ferry'))
    asked(0, ['decided at the start: true', 'What was seen fits `both gates open`'], os.path.join(HOME, 'examples', 'lock'))
    asked(0, ['usage:'], '--help')
    asked(1, ['one folder is needed'])
    asked(1, ['there is no folder'], os.path.join(room, 'none'))
    asked(1, ['the log has no event 99'], bottling, '--at', '99')
    asked(1, ['an event is a number'], bottling, '--at', 'x')
    asked(0, ['What happened (0 events)', 'The plant can now be in `bottle comes`'], bottling, '--at', 'start')


def main():
    seed = sys.argv[1] if len(sys.argv) > 1 else '28'
    for name in ('watch', 'runs', 'table', 'machine', 'day', 'judge'):
        if not program.is_built(name):
            fail('target/bin/%s is not there: tools/build %s' % (name, name))
    with tempfile.TemporaryDirectory() as room:
        try_refusals(room)
        try_places(room, seed)
        try_bytes(room, seed)
        try_harm(room, seed)
        try_others(room)
        try_forms(room, seed)
        try_doctor(room, seed)
        try_where()
        try_judged(room, seed)
        walks = try_why(room, seed)
        try_long(room)
        try_told(room)
        try_guide(room)
    print('explain: %d refusals are told at their places, each number has its text, %d answers of other programs are told, the doctor finds what is wrong in %d plants and in the lock, and %d walks are runs of their kind' % (len(CASES), len(OTHERS), len(SICK), walks))


main()
