"""What each refusal means, where it stands in the files, what it likely comes of, and what to do."""
import collections
import os

from desk import rules, sheets, texts
from desk.trouble import Bad, counted, pointed, reason, spot

Kind = collections.namedtuple('Kind', 'title meaning todo')

KINDS = {
    1: Kind('a table with wrong counts',
            'A call was handed a table whose counts are out of their ranges (1 to 16 signals, 1 to 64 states, 0 to 4 fairness sets), or parts that are not as long as the counts say. '
            'A fixed machine has at most 3 signals.',
            'Only calls answer this, never a text. Hand in `just` fairness sets, `states` labels and `states` next sets. A box of a C program was never opened, or is damaged: open it anew.'),
    2: Kind('a state or signal that there is not',
            'A set names a state that is not below `states`, or a label a signal that is not below `props`.',
            'Correct the set, or raise the count. Who writes plants in names (tools/plant) never sees this.'),
    3: Kind('plant.txt is not of the form of a plant',
            'The program reads plant.txt byte by byte, and up to this place all is right; this byte can\'t be.',
            'Correct it there, or write the plant in names and let tools/plant make the file.'),
    4: Kind('the rule is too long', 'A rule has at most 512 bytes; spaces count.', 'Shorten it: leave out spaces and parentheses that are not needed.'),
    5: Kind('rule.txt is not a rule', 'Up to this place it can be a rule; with this byte it can\'t.', 'Correct it there, or write the rule in words and let tools/plant make the file.'),
    6: Kind('the rule names a signal that the plant has not', 'Signals are counted from p0, and `props` in plant.txt says how many there are.',
            'Name another signal, or give the plant one more (`props`, and a label with it).'),
    7: Kind('the rule has too many parts', 'A rule has at most 32 operators and names together; parentheses don\'t count.', 'Say it shorter, or watch two rules in two folders.'),
    8: Kind('the rule has too many temporal operators', 'A rule has at most 6 of X, F, G, U and R.',
            'Put some together: `Xa&Xb` is `X(a&b)`, `Ga&Gb` is `G(a&b)`, `Fa|Fb` is `F(a|b)`. Or watch two rules in two folders.'),
    9: Kind('a value that the box never made',
            'A call was handed a rule that no text gives, or a monitor, a live set or something else that was kept and does not belong to this table and rule, or counts more than it may.',
            'Only calls answer this. Hand in what the calls gave, for the same table and the same rule; a box that was kept and is refused must be opened anew.'),
    10: Kind('an event that can\'t be', 'An event of the log sees a signal that the plant has not, or has one on that it did not see.',
             'Correct the line: `see` has only signals below `props`, and `val` only what `see` has. The lamps before it are right.'),
    11: Kind('a buffer that is too short', 'A call was lent fewer bytes (or words) than it needs to write its answer.',
             'Only calls answer this. Lend more: 49,152 bytes for a witness, 49,152 words for making a machine, 2,477 bytes for any table, 109 for any rule, one byte for each line of a log.'),
    12: Kind('log.txt is not of the form of a log', 'Up to this place all is right; this byte can\'t be. Since the form is wrong, no lamp is shown, not even that of the start.',
             'Correct it there, or write the log in names (seen.txt) and let tools/plant make the file.'),
    13: Kind('no run of that kind', 'No run that fits what was seen is of the kind that was asked for: all of them keep the rule, or all break it, or none fits.',
             'This is an answer and no mistake: ask for the other kind, or look at the lamp first.'),
    14: Kind('a file that can\'t be read', 'One of plant.txt, rule.txt and log.txt is missing, is a folder, may not be read, or is too long.',
             'Put the file there. An empty log.txt is a log with no events. A log that is too long is cut; each piece is then watched by itself, from a starting state.'),
    15: Kind('a machine with too many rows', 'The fixed machine of this plant and rule would need more than 256 different states of the monitor, before equal ones are joined.',
             'Take a smaller plant or a simpler rule, or let the monitor step event by event: it has no such limit.'),
    16: Kind('an event\'s number is not in turn', 
             'Numbers go up. Up to 16 may be missing in a row; one that goes back, comes again or skips more is refused, and so is every event behind number 4,294,967,295.',
             'Too much was lost, or two logs were put together: begin a new log at this line. The lamps before it are right.'),
    17: Kind('a setting that no sheet has', 
             'The key that was asked for stands neither in the local settings sheet nor in the shared one; or a sheet that is to be kept has no line `edition=`.',
             'Write the line into one of the two sheets. The local one goes before the shared one.'),
    18: Kind('a settings sheet that is not of the form',
             'A sheet has lines `edition=`, `rule=`, `closing=`, in this order, each at most once, each ended by a line end, 1,024 bytes in all at most. '
             'The sheet is named (1 is the local one, 2 the shared one), and the byte.',
             'Correct that sheet at that byte. `edition` is 1 to 65535, `closing` 0 to 99, both without a leading zero; `rule` has 1 to 512 printable bytes.'),
    19: Kind('a sheet that is not newer', 'A sheet is kept only if its edition is above that of the newest one that is held.', 'Give the sheet a higher `edition`.'),
    20: Kind('an edition that is not held', 'The store holds the 8 newest sheets, and none of them has the edition that was asked for.',
             'Ask for another edition; an older one was dropped when newer ones came.'),
    21: Kind('a closing edition that there is not', 'The setting `closing` names the way in which a day\'s last verdict is found, and only 1 and 2 are ways.', 'Write `closing=1` or `closing=2`.'),
    22: Kind('a run of a report that is too long', 'A run in a neighbour\'s report may have 4,096 states, stem and loop together.', 'Ask the neighbour for a shorter run.'),
    23: Kind('a day sheet that is full', 'A day sheet has at most 64 stretches, one for each restart and the beginning. This event would begin another.', 'Put the sheet away and begin a new log.'),
    24: Kind('a log that grows too long', 'A log that comes in pieces has at most 4,294,967,295 bytes in all. The piece was not taken.', 'Begin a new log.'),
}


REPORT = Kind('report.txt is not of the form of a report', 'Up to this place all is right; this byte can\'t be.',
              'Correct it there, or ask the neighbour for it anew: a line `claim=`, and the runs as the program `runs` writes them.')


def kind_text(number):
    """What a refusal's number means, with no file at hand."""
    kind = KINDS[number]
    return 'Refusal %d: %s.\n%s\nWhat to do: %s' % (number, kind.title, kind.meaning, kind.todo)


# ---- where it stands ----

RUN = 4096          # the most states of a run in a report

FILES = {2: 'plant.txt', 3: 'plant.txt', 4: 'rule.txt', 5: 'rule.txt', 6: 'rule.txt', 7: 'rule.txt', 8: 'rule.txt', 10: 'log.txt', 12: 'log.txt', 16: 'log.txt', 22: 'report.txt', 23: 'log.txt'}
READS = {
    'watch': ('plant.txt', 'rule.txt', 'log.txt'), 'table': ('plant.txt',), 'machine': ('plant.txt', 'rule.txt'),
    'day': ('plant.txt', 'local.txt', 'shared.txt', 'log.txt'), 'judge': ('plant.txt', 'rule.txt', 'log.txt', 'report.txt'),
}
SHEETS = {'local': 'local.txt', 'shared': 'shared.txt', 'report': 'report.txt'}          # what a program writes before a refusal of these

Site = collections.namedtuple('Site', 'name begin text')       # a file, or a part of it: where it begins there, and its bytes


def explained(folder, number, place, program='watch', word=''):
    """A refusal of a program on a folder, in words. `word` is what the program wrote before it: a sheet, a key, the report."""
    if number == 14:
        return unread(folder, READS[program])
    if number == 17 and word:
        return '%s\nHere neither local.txt nor shared.txt has a line `%s=`.' % (kind_text(17), word)
    try:
        site = site_of(folder, number, program, word)
        at, detail = FOUND.get(number, not_of_form)(folder, site, number, place) if site else (0, [])
    except (Bad, LookupError, StopIteration):
        return '%s\nThe files are not any more those that were refused: start again.' % kind_text(number)
    if not site:
        return kind_text(number) if number in KINDS else 'Refusal %d at place %d: this tool does not know the number; docs/REFERENCE.md may.' % (number, place)
    kind, whole = kind_of(number, site, word), texts.text_of(folder, site.name)
    line, column, _ = spot(whole, site.begin + at)
    out = ['Refusal %d at byte %d: %s.' % (number, place, kind.title), '', '%s, line %d, column %d:' % (os.path.join(folder, site.name), line, column), pointed(whole, site.begin + at)]
    short = number in (3, 5, 12, 18) and place == len(site.text)
    return '\n'.join(out + ['', 'All that is there is right, but it stops too soon.' if short else kind.meaning] + detail + ['What to do: %s' % kind.todo])


def kind_of(number, site, word):
    """What is said of a refusal, by the file that it is about."""
    if number == 5 and site.name != 'rule.txt':
        return KINDS[5]._replace(title='the rule in %s is not a rule' % site.name, todo='Correct it there. The signs for a rule in words are printed by tools/plant.')
    return REPORT if word == 'report' else KINDS[number]


def site_of(folder, number, program, word):
    """The file that a refusal is about, or the part of it. One line end behind a rule is dropped, as the programs do; `day` has its rule from a sheet."""
    key = 'closing' if number == 21 else 'rule'
    if program == 'day' and number in (4, 5, 6, 7, 8, 21):
        for name in ('local.txt', 'shared.txt'):
            found = sheets.read_sheet(texts.text_of(folder, name))
            if key in found:
                return Site(name, *found[key])
    name = SHEETS.get(word) or FILES.get(number)
    if not name:
        return None
    return Site(name, 0, texts.rule_text(folder) if name == 'rule.txt' else texts.text_of(folder, name))


def unread(folder, names):
    """The first file that can't be read, or is too long."""
    kind = KINDS[14]
    out = ['Refusal 14: %s.' % kind.title]
    for name in names:
        path = os.path.join(folder, name)
        wrong = not_read(path, texts.SIZES.get(name))
        if wrong:
            return '\n'.join(out + ['', '%s %s.' % (path, wrong), '', 'What to do: %s' % remedy(name, wrong, folder)])
    return '\n'.join(out + ['', kind.meaning, 'All can be read now: was one of them just being written? Start again.'])


def not_read(path, most):
    if os.path.isdir(path):
        return 'is a folder, and a file is needed'
    if not os.path.exists(path):
        return 'points to a file that is not there' if os.path.islink(path) else 'is not there'
    try:
        with open(path, 'rb') as file:
            size = len(file.read(most + 1 if most else 1))
    except OSError as wrong:
        return 'can\'t be read (%s)' % reason(wrong)
    return 'has more than the %s bytes that the program takes' % '{:,}'.format(most) if most and size > most else ''


def remedy(name, wrong, folder):
    if name == 'log.txt' and wrong.startswith('is not there'):
        return 'put the log there; an empty log.txt is a log with no events, and shows the lamp of the start.'
    if name in ('local.txt', 'shared.txt'):
        return 'put the settings sheet there. One that says nothing is an empty file.'
    if name == 'report.txt':
        return 'put the neighbour\'s report there, of at most 65,536 bytes: a line `claim=`, and the runs as the program `runs` writes them.'
    if name == 'log.txt' and wrong.startswith('has more'):
        return 'cut it. Each piece is then watched by itself, from a starting state.'
    if os.path.exists(os.path.join(folder, 'words.txt')) and wrong.startswith('is not there'):
        return 'words.txt is there, so: tools/plant %s' % folder
    if name == 'rule.txt' and os.path.exists(os.path.join(folder, 'shared.txt')) and wrong.startswith('is not there'):
        return 'shared.txt is there, so the rule may stand in it for the program `day`: tools/explain %s --of day. The others want it in rule.txt.' % folder
    if name == 'rule.txt' and wrong.startswith('has more'):
        return 'a rule has at most 512 bytes, and one line end behind it. Shorten it, or look whether this is another file.'
    if name == 'plant.txt' and wrong.startswith('has more'):
        return 'every plant of the form has at most 2,477 bytes, so this is another file, or something stands behind the plant.'
    return 'put the file there, such that it can be read; tools/plant FOLDER makes plant.txt and rule.txt from a text in names.'


def line_of(text, key):
    """The place of a line's value."""
    at = 0 if text.startswith(key + '=') else text.find('\n%s=' % key) + 1
    return at + len(key) + 1


def named_beyond(folder, site, number, place):
    text = site.text
    table = texts.read_table(text)
    found = texts.beyond(table)
    key, kind, first = found[0]
    value = line_of(text, key)
    wide = texts.width(table.props) if kind == 'signal' else 16
    count, many = ('states', table.states) if kind == 'state' else ('props', table.props)
    detail = ['The line `%s=` names %s %d; with `%s=%d` the last one is %d.' % (key, kind, first, count, many, many - 1)]
    if len(found) > 1:
        detail.append('So do these lines: %s.' % ', '.join('`%s=`' % k for k, _, _ in found[1:]))
    return value + wide - 1 - first // 4, detail


def props_of(folder):
    return texts.read_table(texts.text_of(folder, 'plant.txt')).props


def illegal(folder, site, number, place):
    text, props = site.text, props_of(folder)
    line = text[place:text.find('\n', place)]
    event = texts.read_log(line + '\n', props)[0]
    wide = texts.width(props)
    see = place + line.index('see=') + 4
    over = [k for k in texts.members(event.see) if k >= props]
    if over:
        return see + wide - 1 - over[0] // 4, ['`see` names signal %d, and the plant has %s: p0 to p%d.' % (over[0], counted(props, 'signal'), props - 1)]
    blind = texts.members(event.val & ~event.see)
    return see + 5 + wide + wide - 1 - blind[0] // 4, ['`val` has p%d on, and `see` does not have p%d: what was not seen can\'t have been seen on.' % (blind[0], blind[0])]


def out_of_turn(folder, site, number, place):
    text = site.text
    events = texts.read_log(text, props_of(folder))
    k = place // texts.line_bytes(text.startswith('n'), props_of(folder))
    here, before = events[k].number, events[k - 1].number
    if here is None:
        return place, ['Number 4,294,967,295 was the last one.']
    if here <= before:
        why = 'Its number, %d, %s: the event before it is %d.' % (here, 'comes again' if here == before else 'goes back', before)
    else:
        why = 'Between %d, the event before it, and %d there are %s missing, and at most 16 may be.' % (before, here, '{:,}'.format(here - before - 1))
    return place + 4, [why]


def no_signal(folder, site, number, place):
    props = props_of(folder)
    return place, ['The plant has %s: %s.' % (counted(props, 'signal'), 'p0 alone' if props == 1 else 'p0 to p%d' % (props - 1))]


def too_many(folder, site, number, place):
    tree = rules.read_rule(site.text)
    return 0, ['This one has %d.' % (rules.size(tree) if number == 7 else rules.parts(tree))]


def too_long(folder, site, number, place):
    return place, ['This one has %s, and the caret is under the first that is too much.' % counted(len(site.text), 'byte')]


def no_edition(folder, site, number, place):
    return 0, ['This one says %s.' % site.text]


def long_run(folder, site, number, place):
    """The first run of a report that is too long."""
    _, runs = sheets.read_report(site.text)
    kind = next(k for k in runs if runs[k] > RUN)
    return site.text.index('\n%s ' % kind) + 1, ['The one of `%s` has %s.' % (kind, counted(runs[kind], 'state'))]


def full_day(folder, site, number, place):
    return place, ['Behind it the log has %s.' % counted(site.text.count('\n', place) - 1, 'event more', 'events more')]


# ---- texts that are not of the form ----

FOUND = {2: named_beyond, 4: too_long, 6: no_signal, 7: too_many, 8: too_many, 10: illegal, 16: out_of_turn, 21: no_edition, 22: long_run, 23: full_day}


def form_of(number, site):
    """Of which form a text should be."""
    return 'report' if site.name == 'report.txt' else {3: 'plant', 5: 'rule', 12: 'log', 18: 'sheet'}[number]


def not_of_form(folder, site, number, place):
    text, form = site.text, form_of(number, site)
    readers = {'plant': texts.read_table, 'rule': rules.read_rule, 'log': lambda given: texts.read_log(given, props_of(folder)), 'sheet': sheets.read_sheet, 'report': sheets.read_report}
    expected = ''
    try:
        readers[form](text)
    except Bad as bad:
        expected = bad.expected if bad.place == place else ''
    detail = ['Expected here: %s.' % expected] if expected else []
    causes = [cause for holds, cause in likely(form, text, place) if holds]
    return place, detail + ['Likely cause: %s' % c for c in causes[:1]]


def likely(form, text, place):
    """Likely causes, the surest first: whether it looks so, and what is said then."""
    here, rest = text[place:place + 1], text[place:]
    line = text[text.rfind('\n', 0, place) + 1:]
    return common(form, text, place, here, rest, line) + {'plant': of_plant, 'rule': of_rule, 'log': of_log, 'sheet': of_sheet, 'report': of_report}[form](text, place, here, rest, line)


def common(form, text, place, here, rest, line):
    return [
        (not text, 'the file is empty.'),
        (text.startswith('\xef\xbb\xbf'), 'a mark at the file\'s beginning (three bytes, "byte order mark") that some editors put there unseen. Save the file as "UTF-8 without BOM", or: tail -c +4 FILE > NEW'),
        (text[:2] in ('\xff\xfe', '\xfe\xff') or '\0' in text, 'the file was saved as UTF-16, two bytes for each letter. Save it as plain text (ASCII, or UTF-8 without a mark).'),
        (here == '\r', 'line ends of another system (Windows): each line ends with two bytes, CR and LF, and only LF is taken. Save the file with "Unix line ends", or: tr -d \'\\r\' < FILE > NEW'),
        (place == len(text) and form != 'rule' and not text.endswith('\n'), 'the file stops too soon: ' + ('the line end behind the last line is missing.' if full(form, line) else 'its end is cut off.')),
        (place == len(text) and form == 'plant', 'the file stops too soon: lines are missing at its end.'),
        (here == '\t', 'a tab. Only spaces may stand there, and only in a rule.'),
        (here == '\xa0' or rest.startswith('\xc2\xa0'), 'a hard space, as word processors make them. Write a plain one.'),
        (here >= '\x80', 'a letter or sign that is not plain ASCII, perhaps from a word processor (another dash, another quote).'),
    ]


def is_digit(letter):
    return letter != '' and letter in texts.HEXADECIMAL


def full(form, line):
    """Whether a last line lacks its line end alone."""
    if form == 'log':
        return len(line) >= 19 and line[-6:-1] == ' new='
    value = line.split('=', 1)[1] if '=' in line else ''
    return len(value) in (2, 4, 16) if form == 'plant' else value != ''


def of_plant(text, place, here, rest, line):
    key = line.split('=')[0].split('\n')[0]
    return [
        (here == '\n' and text[:place].endswith('\n'), 'an empty line. Lines follow each other, and none stands behind the last.'),
        (here == ' ', 'a space. There is none in plant.txt, not around `=` and not at a line\'s end.'),
        (key != key.lower() and key.lower().rstrip('0123456789') in ('props', 'states', 'start', 'just', 'j', 'label', 'next'), 'a key in capital letters. Keys are small.'),
        (text[:place].endswith(('props=', 'states=')) and here == '0', 'a count of 0, or one with a zero before it.'),
        (text[:place].rsplit('\n', 1)[-1].startswith(('props=', 'states=', 'just=')) and here.isdigit(), 'a count that is too large.'),
        (here == '\n' and '=' in line, 'too few digits: a set of states has 16, a label two (four where there are over 8 signals).'),
        (is_digit(here) and '=' in text[:place].rsplit('\n', 1)[-1], 'too many digits: a set of states has 16, a label two (four where there are over 8 signals).'),
        (here.isalpha() and '=' in text[:place].rsplit('\n', 1)[-1], 'a letter that is no hexadecimal digit. Digits are 0 to 9 and a to f.'),
        (place > 0 and text[:place].endswith('\n'), 'a line too many, too few, or in another order than the counts say.'),
        (True, 'a key that is not the one in turn: a line is missing, stands twice or in another order.'),
    ]


def of_rule(text, place, here, rest, line):
    return [
        (place == len(text) and text.count('(') > text.count(')'), 'the rule stops too soon: a `)` is missing.'),
        (place == len(text), 'the rule stops too soon: something is missing behind its last sign.'),
        (here == '\n', 'a second line. A rule is one line, with at most one line end behind it.'),
        (here == ')', 'a `)` too many, or nothing between an operator and it.'),
        (here.isdigit() and text[:place].rstrip('0123456789').endswith('p'), 'a signal beyond p15, or a zero before its number.'),
        (here in '~^', 'a sign of another tool. "Not" is `!`.'),
        (here == '=' or rest.startswith('>'), '"if .. then" is written `->`.'),
        (text[:place].endswith(('&', '|')) and here in '&|', '"and" is one `&`, "or" is one `|`.'),
        (here in '[]<>', 'a sign of another tool: "always" is `G`, "sometime" is `F`.'),
        (here.isalpha(), 'a word or letter that is none of the grammar\'s. Names and words belong into words.txt; tools/plant makes rule.txt from it.'),
    ]


def of_sheet(text, place, here, rest, line):
    key = line.split('=')[0].split('\n')[0]
    before = [part.split('=')[0] for part in text[:place].split('\n')[:-1]]
    value = text[:place].rsplit('\n', 1)[-1].partition('=')[2]
    return [
        (place == sheets.SHEET, 'the file is too long for a sheet, or is another file.'),
        (here == '\n' and text[:place].endswith('\n'), 'an empty line. Lines follow each other, and none stands behind the last.'),
        (key.strip().lower() in before, 'a line that stands there already: each comes once.'),
        (key in sheets.KEYS and text[:place].endswith('\n'), 'lines in another order: first `edition=`, then `rule=`, then `closing=`.'),
        (here == ' ', 'a space. There is none in a sheet but within the rule.'),
        (key != key.lower(), 'a key in capital letters. Keys are small.'),
        (here == '\n', 'a line with nothing behind its `=`. Leave the line out.'),
        (here.isdigit() and value == '0' or here == '0' and value == '', 'a 0 that may not stand there: numbers have no zero before them, and `edition` is at least 1.'),
        (here.isdigit() and value != '', 'a number that is too large: `edition` goes to 65535, `closing` to 99.'),
        (here in ('#', ';'), 'a remark. There are none in a sheet.'),
        (True, 'a key that a sheet has not, or a value that is none.'),
    ]


def of_report(text, place, here, rest, line):
    return [
        (here == '\n' and text[:place].endswith('\n'), 'an empty line. Lines follow each other, and none stands behind the last.'),
        (text[:place].endswith('\n') and rest.startswith('keeps'), 'lines in another order: the run that keeps the rule stands before the one that breaks it, and each comes once.'),
        (text[:place].endswith(', ') or here == ' ' and text[:place].endswith(','), 'a space behind a comma. There is none between states.'),
        (here == ';', 'another sign between states: they have commas between them.'),
        (text[:place].startswith('claim=') and '\n' not in text[:place], 'a claim that is none of inconclusive, true, false and out-of-model, written small.'),
        (True, 'something that the program `runs` does not write.'),
    ]


def of_log(text, place, here, rest, line):
    widths = '`see` and `val` have two each, four where the plant has over 8 signals%s.' % ('; a number has eight' if text.startswith('n') else '')
    return [
        (here == '\n' and text[:place].endswith('\n'), 'an empty line. Lines follow each other, and none stands behind the last.'),
        (text[:place].endswith('\n') and here in ('n', 's'), 'lines with numbers and lines without in one log, perhaps two logs put together.'),
        (here == ' ' and is_digit(text[:place][-1:]), 'too few digits: ' + widths),
        (is_digit(here) and is_digit(text[:place][-1:]), 'too many digits: ' + widths),
        (here == ' ', 'a space too many.'),
        (here.isdigit() and text[:place].endswith('new='), '`new` is 0 or 1.'),
        (here == '#', 'a remark. There are none in log.txt; in seen.txt there may be.'),
        (True, 'a field that is missing, stands in another order or has another name.'),
    ]
