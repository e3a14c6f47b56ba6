"""The files of a folder: tables, logs and names, read and written. docs/REFERENCE.md has their forms exactly."""
import collections
import os
import unicodedata

from desk.trouble import Bad, Trouble, reason, told

SIGNALS, STATES, FAIR = 16, 64, 4                                       # the most of each that a table has
SIZES = {'plant.txt': 2477, 'rule.txt': 513, 'log.txt': 65520, 'report.txt': 65536}         # the most bytes that the programs take
NUMBERS, MISSING = 1 << 32, 16                                          # event numbers; how many may be missing in a row
HEXADECIMAL = '0123456789abcdefABCDEF'

Event = collections.namedtuple('Event', 'number see val new')           # number: None in a log without numbers


class Table:
    """A plant: for each state the signals that are on and the states that may follow, the starting states, the fairness sets."""

    def __init__(self, props, start, fair, label, next_):
        self.props, self.states = props, len(label)
        self.start, self.fair = frozenset(start), [frozenset(f) for f in fair]
        self.label, self.next = [frozenset(l) for l in label], [frozenset(n) for n in next_]

    def parts(self):
        return self.props, self.start, self.fair, self.label, self.next


def members(number):
    return [k for k in range(64) if number >> k & 1]


def weight(members_):
    return sum(1 << k for k in members_)


def width(props):
    """The digits of a set of signals."""
    return 2 if props <= 8 else 4


def number_in(digits, most):
    """The number that decimal digits say, or None: what is no such number, or is above the most. A row of digits may be as long as a file."""
    plain = digits.lstrip('0') or '0'
    return int(plain) if digits.isascii() and digits.isdigit() and len(plain) <= len(str(most)) and int(plain) <= most else None


# ---- reading by slots: the first byte that can't be right, and what was expected there ----

class Slots:
    def __init__(self, text):
        self.text, self.at = text, 0

    def here(self):
        return self.text[self.at:self.at + 1]

    def fixed(self, letters, what):
        for letter in letters:
            if self.here() != letter:
                raise Bad(self.at, what)
            self.at += 1

    def digits(self, count, what):
        begin = self.at
        for k in range(count):
            if self.here() == '' or self.here() not in HEXADECIMAL:
                raise Bad(self.at, 'digit %d of %d of %s (0 to 9, a to f)' % (k + 1, count, what))
            self.at += 1
        return int(self.text[begin:self.at], 16)

    def count(self, least, most, what):
        begin = self.at
        while self.here() and fits(self.text[begin:self.at + 1], least, most):
            self.at += 1
        if self.at == begin:
            raise Bad(self.at, '%s, %d to %d, with no zero or space before it' % (what, least, most))
        return int(self.text[begin:self.at])

    def line_end(self, what):
        if self.here() != '\n':
            raise Bad(self.at, 'the end of the line, behind %s' % what)
        self.at += 1


def fits(digits, least, most):
    """Whether digits are a decimal count in its range, with no leading zero."""
    return digits.isascii() and digits.isdigit() and (digits == '0' or digits[0] != '0') and least <= int(digits) <= most


def read_table(text):
    """The table of a text, or Bad at its first byte that can't be right."""
    slots = Slots(text)

    def line(key, reading, what):
        slots.fixed(key + '=', 'the line `%s=`, with %s' % (key, what))
        value = reading(what)
        slots.line_end('%s of `%s=`' % (what, key))
        return value

    def states(what):
        return slots.digits(16, what)

    props = line('props', lambda what: slots.count(1, SIGNALS, what), 'the number of signals')
    count = line('states', lambda what: slots.count(1, STATES, what), 'the number of states')
    start = line('start', states, 'the set of starting states')
    just = line('just', lambda what: slots.count(0, FAIR, what), 'the number of fairness sets')
    fair = [line('j%d' % j, states, 'the fairness set') for j in range(just)]
    label, next_ = [], []
    for s in range(count):
        label.append(line('label%d' % s, lambda what: slots.digits(width(props), what), 'the set of signals that are on'))
        next_.append(line('next%d' % s, states, 'the set of next states'))
    if slots.here():
        raise Bad(slots.at, 'the end of the file: state %d is the last' % (count - 1))
    return Table(props, members(start), [members(f) for f in fair], [members(l) for l in label], [members(n) for n in next_])


def beyond(table):
    """The lines of a table that name a state or a signal which there is not, each with the first of them: refusal 2."""
    sets = [('start', table.start, table.states, 'state')] + [('j%d' % j, f, table.states, 'state') for j, f in enumerate(table.fair)]
    for s in range(table.states):
        sets += [('label%d' % s, table.label[s], table.props, 'signal'), ('next%d' % s, table.next[s], table.states, 'state')]
    return [(key, kind, min(k for k in found if k >= most)) for key, found, most, kind in sets if any(k >= most for k in found)]


def write_table(table):
    out = ['props=%d' % table.props, 'states=%d' % table.states, 'start=%016x' % weight(table.start), 'just=%d' % len(table.fair)]
    out += ['j%d=%016x' % (j, weight(f)) for j, f in enumerate(table.fair)]
    for s in range(table.states):
        out += ['label%d=%0*x' % (s, width(table.props), weight(table.label[s])), 'next%d=%016x' % (s, weight(table.next[s]))]
    return ''.join(line + '\n' for line in out)


# ---- logs ----

def line_bytes(numbered, props):
    return 16 + 2 * width(props) + (13 if numbered else 0)


def most_events(props, numbered):
    """How many events fit into a log that the programs take."""
    return SIZES['log.txt'] // line_bytes(numbered, props)


def read_log(text, props):
    """The events of a log, or Bad. Its first byte tells whether its lines have numbers."""
    slots, events, numbered = Slots(text), [], text.startswith('n')
    other = 'a line that begins with %s, as the first line does: all lines of a log have numbers, or none has' % ('`num=`' if numbered else '`see=`')
    while slots.here():
        number = None
        if events and slots.here() in ('n', 's') and slots.here() != ('n' if numbered else 's'):
            raise Bad(slots.at, other)
        if numbered:
            slots.fixed('num=', '`num=`, with the number of the event in eight digits')
            number = slots.digits(8, 'the number of the event')
            slots.fixed(' ', 'one space, and then `see=`')
        slots.fixed('see=', '`see=`, with the signals that were seen')
        see = slots.digits(width(props), 'the set of signals that were seen')
        slots.fixed(' val=', 'one space, and then `val=` with the signals that were on')
        val = slots.digits(width(props), 'the set of signals that were on')
        slots.fixed(' new=', 'one space, and then `new=` with 0 or 1')
        if slots.here() not in ('0', '1'):
            raise Bad(slots.at, '0, or 1 for a restart')
        new = slots.here() == '1'
        slots.at += 1
        slots.line_end('`new=`')
        events.append(Event(number, see, val, new))
    return events


def write_log(events, props):
    wide = width(props)
    return ''.join('%ssee=%0*x val=%0*x new=%d\n' % ('' if e.number is None else 'num=%08x ' % e.number, wide, e.see, wide, e.val, e.new) for e in events)


def numbers(events):
    """The number that each event takes."""
    return [n if e.number is None else e.number for n, e in enumerate(events)]


def lost(events):
    """How many events are missing before each. The first may have any number."""
    taken = numbers(events)
    return [0] + [b - a - 1 for a, b in zip(taken, taken[1:])] if events else []


# ---- names ----

class Names:
    """What signals, states and fairness sets are called. One with no name of its own is called p0, s0, j0; no two are called the same."""

    def __init__(self, props, states, just, given=None, title=''):
        given = given or {}
        self.title = title
        self.signal, self.state, self.fair = (distinct(given, mark, count) for mark, count in (('p', props), ('s', states), ('j', just)))

    def lines(self):
        """As names.txt has them: the names that are no bare marks."""
        out = ['title=%s' % self.title] if self.title else []
        for mark, names in (('p', self.signal), ('s', self.state), ('j', self.fair)):
            out += ['%s%d=%s' % (mark, k, name) for k, name in enumerate(names) if name != '%s%d' % (mark, k)]
        return ''.join(line + '\n' for line in out)


def distinct(given, mark, count):
    names = []
    for k in range(count):
        own = '%s%d' % (mark, k)
        name = given.get(own) or own
        while name in names:
            name += ' (%s)' % own
        names.append(name)
    return names


def read_names(data, where='names.txt'):
    """The lines `key=name` of names.txt. Spaces around `=`, a mark at the file's beginning and line ends of other systems do no harm."""
    text = decoded(data, where)
    given = {}
    for line in text.splitlines():
        key, sign, name = line.partition('=')
        if sign and name.strip():
            given[key.strip()] = ' '.join(name.split())
    return given


def decoded(data, where):
    """A text that people write: UTF-8, with or without a mark at its beginning, with line ends of any system. A letter and its accent are one character, whichever
    way the editor keeps them."""
    try:
        return unicodedata.normalize('NFC', data.decode('utf-8-sig').replace('\r\n', '\n').replace('\r', '\n'))
    except UnicodeDecodeError as wrong:
        text = data.decode('latin-1')
        raise told(where, text, Bad(wrong.start, 'a letter in UTF-8', 'The file was saved in another encoding. Save it anew as UTF-8.')) from None


def names_of(folder, table):
    path = os.path.join(folder, 'names.txt')
    given = read_names(contents(path), path) if os.path.exists(path) else {}
    return Names(table.props, table.states, len(table.fair), given, given.get('title', ''))


# ---- files ----

def contents(path):
    try:
        with open(path, 'rb') as file:
            return file.read()
    except OSError as wrong:
        raise Trouble('%s can\'t be read: %s' % (path, reason(wrong))) from None


def text_of(folder, name):
    """A text for the programs, byte by byte."""
    return contents(os.path.join(folder, name)).decode('latin-1')


def rule_text(folder):
    """The rule of rule.txt, as the programs take it: one line end at its end is dropped."""
    text = text_of(folder, 'rule.txt')
    return text[:-1] if text.endswith('\n') else text


def table_of(folder):
    """The table of a folder. The programs have the last word on it; here a bad one is trouble."""
    text = text_of(folder, 'plant.txt')
    try:
        table = read_table(text)
    except Bad as bad:
        raise told(os.path.join(folder, 'plant.txt'), text, bad) from None
    for key, kind, number in beyond(table):
        raise Trouble('%s: the line `%s=` names %s %d, and there is none' % (os.path.join(folder, 'plant.txt'), key, kind, number))
    return table


def log_of(folder, table):
    text = text_of(folder, 'log.txt')
    try:
        return read_log(text, table.props)
    except Bad as bad:
        raise told(os.path.join(folder, 'log.txt'), text, bad) from None


def called(folder):
    """A folder's own name, for a page's title where there is no other; its bytes may be any."""
    return os.fsencode(os.path.basename(os.path.abspath(folder))).decode('utf-8', 'replace')


def asked_folder(path):
    if not os.path.isdir(path):
        raise Trouble('there is no folder %s' % path)
    return path
