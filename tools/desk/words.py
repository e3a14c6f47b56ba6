"""A plant and a log in names: words.txt and seen.txt, read and written. docs/GUIDE.md tells how they are written.

Lines `key: value`; `#` begins a remark. A list goes on in the next line behind a comma, a rule while a parenthesis is open.
"""
import collections
import difflib
import itertools
import re

from desk import rules
from desk.near import unknown
from desk.texts import FAIR, MISSING, NUMBERS, SIGNALS, STATES, Event, Names, Table, members, most_events, number_in, weight
from desk.trouble import Bad, is_unseen, listed

KEYS = ['title', 'signals', 'state', 'on', 'leads to', 'start', 'again and again', 'rule']
MEANT_KEYS = {
    'again': 'again and again', 'fairness': 'again and again', 'fair': 'again and again', 'just': 'again and again', 'name': 'title', 'next': 'leads to', 'to': 'leads to', 'goes to': 'leads to',
    'followed by': 'leads to', 'label': 'on', 'initial': 'start', 'begin': 'start', 'begins': 'start', 'props': 'signals', 'propositions': 'signals', 'sensors': 'signals', 'situation': 'state',
}
NONE = ('nothing', 'none', 'nowhere')
LONE = set(NONE) | {'all', 'restart', 'but'}         # words that are no names where they stand alone
WIDE = 100                                           # lists are broken behind so many characters

Token = collections.namedtuple('Token', 'kind text begin later', defaults=(False,))     # kind: word, quoted, sign, end; later: begins a further line of a value
WORD = r"(?:\w|[.'’/%°+]|-(?!>))+"
KEY_LINE = re.compile(r'[^":#\n]*:')                # a colon is no part of a list or a rule, so such a line begins anew
TOKEN = re.compile(r'(?P<blank>\s+|#[^\n]*)|"(?P<quoted>(?:[^"\n]|"")*)"|(?P<sign>->|[(),;:=!&|])|(?P<word>%s)' % WORD)


# Signs that no text in names has, and what to write.
ODD = {
    '"': 'The quotes are not closed in this line.', '“”„‟«»': 'These are quotes of a word processor. Write plain ones: ".', '[]{}': 'Parentheses are round: ( and ).',
    '>→⇒': 'Write `if a then b`, or `a -> b`.', '~^¬': '"Not" is written `not`, or `!`.', '∧∨': 'Write `and` and `or`.',
}
COMMA = 'A comma at the end of a line says that the list goes on in the next line.'


def odd(character):
    """A hint on a character that begins no word and is no sign."""
    if is_unseen(character):
        return 'A character stands here that has no picture (U+%04X). Delete it.' % ord(character)
    return next((hint for signs, hint in ODD.items() if character in signs), 'A name with signs in it stands in quotes: "valve sticks (hidden)".')


def tokens(text, begin, end):
    """The words, quoted names and signs of a part of a text, and an end, right behind the last of them."""
    found, at, last = [], begin, begin
    while at < end:
        match = TOKEN.match(text, at, end)
        if not match:
            raise Bad(at, 'a name, or one of `,` `;` `(` `)`', odd(text[at]))
        kind, at = match.lastgroup, match.end()
        if kind != 'blank':
            found.append(Token(kind, match.group(kind).replace('""', '"'), match.start()))
            last = at
    return found + [Token('end', '', last)]


def is_plain(name):
    """Whether a name may stand in a list without quotes."""
    return re.fullmatch('%s(?: %s)*' % (WORD, WORD), name) is not None and name not in LONE and not name.startswith('all but ')


def quoted(name):
    return name if is_plain(name) else '"%s"' % name.replace('"', '""')


def in_rule(name):
    """A name as it stands in a rule: in quotes also if one of its words is an operator's."""
    return quoted(name) if not set(name.split()) & rules.RESERVED else '"%s"' % name.replace('"', '""')


# ---- lists of names ----

class Listed:
    """Reads tokens as a list of names."""

    def __init__(self, found):
        self.tokens, self.at = found, 0

    def here(self):
        return self.tokens[self.at]

    def sign(self, text):
        found = self.here().kind == 'sign' and self.here().text == text
        self.at += found
        return found

    def word(self, text):
        found = self.here().kind == 'word' and self.here().text == text
        self.at += found
        return found

    def name(self, what):
        """A quoted name, or the words up to the next sign; and where it begins."""
        token = self.here()
        if token.kind not in ('word', 'quoted'):
            raise Bad(token.begin, what, COMMA if token.kind == 'end' and self.at and self.tokens[self.at - 1].text == ',' else '')
        words = []
        while self.here().kind == 'word' and token.kind == 'word' or not words:
            words.append(self.here().text)
            self.at += 1
        name = ' '.join(' '.join(words).split())
        if not name:
            raise Bad(token.begin, what, 'A name has at least one letter.')
        return name, token.begin

    def names(self, what):
        """Names with commas between them, up to what no list goes on with."""
        found = [self.name(what)]
        while self.sign(','):
            found.append(self.name(what))
        return found

    def is_none(self):
        """Whether the list says that there is nothing."""
        alone = self.here().kind == 'word' and self.here().text in NONE and self.tokens[self.at + 1].kind in ('end', 'sign')
        self.at += alone
        return alone

    def done(self, also=''):
        if self.here().kind != 'end':
            raise Bad(self.here().begin, '`,` and a further name, %sor the end of the line' % also)

    def set(self, known, kind, elsewhere=None):
        """The numbers of a list of known names; `nothing`, `all` and `all but ..` are lists too. `elsewhere`: names of another kind, which may have been meant."""
        if self.is_none():
            return set()
        whole = self.here().kind == 'word' and self.here().text == 'all' and (self.tokens[self.at + 1].kind != 'word' or self.tokens[self.at + 1].text == 'but')
        if whole:
            self.at += 1
            if not self.word('but'):
                return set(range(len(known)))
        found = set()
        for name, begin in self.names('the name of a %s, or `nothing`' % kind):
            if name not in known:
                raise Bad(begin, 'the name of a %s' % kind, self.no_name(name, begin, known, kind, elsewhere))
            if known.index(name) in found:
                raise Bad(begin, 'the name of another %s' % kind, '`%s` stands in this list already.' % name)
            found.add(known.index(name))
        return set(range(len(known))) - found if whole else found


    def no_name(self, name, begin, known, kind, elsewhere):
        """A hint on a name in a list that there is not."""
        later = any(t.later for t in self.tokens if t.begin == begin)
        alone = '`%s` is written small.' % name.lower() if name not in LONE else '`%s` is a list by itself.' % name
        return (alone if name.lower() in LONE else unknown(name, known, kind, elsewhere)) + (' ' + COMMA if later else '')


# ---- words.txt ----

Entry = collections.namedtuple('Entry', 'key begin value tokens')          # value: the text behind the colon; tokens: of it


def entries(text):
    """The lines of words.txt with their keys."""
    found, at = [], 0
    while at < len(text):
        end = line_end(text, at)
        line = text[at:end]
        if line.strip() and not line.lstrip().startswith('#'):
            entry, end = entry_at(text, at, end)
            found.append(entry)
        at = end + 1
    return found


def line_end(text, at):
    end = text.find('\n', at)
    return end if end >= 0 else len(text)


def entry_at(text, at, end):
    begin = at + len(text[at:end]) - len(text[at:end].lstrip())
    colon = text.find(':', at, end)
    key = ' '.join(text[begin:colon].split()) if colon >= 0 else ''
    key = 'signals' if key == 'signal' else key
    if key not in KEYS:
        raise Bad(begin, 'one of %s, and `:`' % listed(('`%s`' % k for k in KEYS), 'or'), no_key(text[begin:colon if colon >= 0 else end].strip(), colon >= 0))
    if key == 'title':
        return Entry(key, begin, ' '.join(text[colon + 1:end].split()), []), end
    found, end = value_from(text, colon + 1, end, key == 'rule')
    return Entry(key, begin, text[colon + 1:end], found), end


def no_key(word, colon):
    """A hint on a line that begins with none of the keys."""
    asked = MEANT_KEYS.get(word.lower()) if colon else None
    near = difflib.get_close_matches(word.lower() if colon else word.split(' ')[0], KEYS, 1, 0.6)
    if asked or near:
        return 'Is `%s:` meant?' % (asked or near[0])
    return '' if colon else 'If this goes on with the line above: a list goes on behind a comma, a rule while a parenthesis is open.'


def value_from(text, begin, end, spoken=False):
    """The tokens of a value, and where it ends. It goes on in the next line behind a comma, and a rule while a parenthesis is open; not in a line with a key."""
    found = tokens(text, begin, end)
    deep = depth(found)
    while end < len(text) and (len(found) > 1 and found[-2][:2] == ('sign', ',') or spoken and deep > 0) and not KEY_LINE.match(text, end + 1):
        begin, end = end + 1, line_end(text, end + 1)
        more = tokens(text, begin, end)
        if len(more) > 1:
            found[-1:] = [more[0]._replace(later=True)] + more[1:]
            deep += depth(more)
    return found, end


def depth(found):
    """How many parentheses are opened and not closed."""
    return sum((t.text == '(') - (t.text == ')') for t in found if t.kind == 'sign')


class Plant:
    """What words.txt says: a table, a rule's tree, names."""

    def __init__(self, table, tree, names):
        self.table, self.tree, self.names = table, tree, names


def read_words(text):
    """The plant that words.txt says, or Bad."""
    found = entries(text)
    by_key = {key: [e for e in found if e.key == key] for key in KEYS}
    for key in ('title', 'start', 'rule'):
        for extra in by_key[key][1:]:
            raise Bad(extra.begin, 'no second `%s:`' % key, 'One plant has one.')
    end = len(text)
    signals = declared([n for e in by_key['signals'] for n in all_names(e, 'the name of a signal')], 'signal', SIGNALS, end)
    states = declared([whole_name(e, 'the name of the state') for e in by_key['state']], 'state', STATES, end)
    label, next_ = read_states(found, signals, states)
    fair, fair_names = read_fair(by_key['again and again'], states)
    start = one_set(only(by_key, 'start', end, 'the states in which the plant may begin'), states, 'state')
    tree = read_rule(only(by_key, 'rule', end, 'what should hold'), signals, states)
    given = {'%s%d' % (mark, k): name for mark, names in (('p', signals), ('s', states), ('j', fair_names)) for k, name in enumerate(names)}
    title = by_key['title'][0].value if by_key['title'] else ''
    return Plant(Table(len(signals), start, fair, label, next_), tree, Names(len(signals), len(states), len(fair), given, title))


def only(by_key, key, end, what):
    if not by_key[key]:
        raise Bad(end, 'a line `%s:`, with %s' % (key, what))
    return by_key[key][0]


def all_names(entry, what):
    names = Listed(entry.tokens)
    found = names.names(what)
    names.done()
    return found


def whole_name(entry, what):
    names = Listed(entry.tokens)
    found = names.name(what)
    if names.here().kind != 'end':
        raise Bad(names.here().begin, 'the end of the line', 'A name with signs in it stands in quotes: "bell, near bank".')
    return found


def declared(found, kind, most, end):
    """Names that are made known: not too few, not too many, no two the same."""
    if not found:
        raise Bad(end, 'a line `%s`, with the %s' % ('signals:' if kind == 'signal' else 'state:', 'things that can be on or off' if kind == 'signal' else 'name of a situation'))
    names = []
    for name, begin in found:
        if name in names:
            raise Bad(begin, 'a name that no other %s has' % kind, '`%s` is the name of %s %d already.' % (name, kind, names.index(name)))
        names.append(name)
    if len(names) > most:
        raise Bad(found[most][1], 'no more than %d %ss' % (most, kind), 'The box takes no more than that.')
    return names


def read_states(found, signals, states):
    """The labels and the next states: lines `on:` and `leads to:`, each once behind its `state:`."""
    label, next_, at = [None] * len(states), [None] * len(states), -1
    for entry in found:
        if entry.key == 'state':
            at += 1
        elif entry.key in ('on', 'leads to'):
            row, known, kind, elsewhere = (label, signals, 'signal', ('state', states)) if entry.key == 'on' else (next_, states, 'state', ('signal', signals))
            if at < 0:
                raise Bad(entry.begin, 'a line `state:` before this one', '`%s:` says something of the state above it.' % entry.key)
            if row[at] is not None:
                raise Bad(entry.begin, 'no second `%s:` for this state' % entry.key)
            row[at] = one_set(entry, known, kind, elsewhere)
    for s, entry in enumerate(e for e in found if e.key == 'state'):
        for row, key, none in ((label, 'on', 'nothing'), (next_, 'leads to', 'nowhere')):
            if row[s] is None:
                raise Bad(entry.begin, 'a line `%s:` below this state' % key, 'Each state has its `on:` and its `leads to:`; where there is nothing to say, `%s: %s`.' % (key, none))
    return label, next_


def one_set(entry, known, kind, elsewhere=None):
    names = Listed(entry.tokens)
    found = names.set(known, kind, elsewhere)
    names.done()
    return found


def read_fair(found, states):
    """The fairness sets and their names: `again and again: name = states`, the name may be left out."""
    sets, names = [], []
    for j, entry in enumerate(found):
        if j == FAIR:
            raise Bad(entry.begin, 'no more than %d lines `again and again:`' % FAIR, 'The box takes no more than that.')
        reader, name = Listed(entry.tokens), 'j%d' % j
        colon = next((t.begin for t in entry.tokens if t[:2] == ('sign', ':')), None)
        if colon is not None:
            raise Bad(colon, '`=` behind the name of the set, or `,` between states')
        if any(t[:2] == ('sign', '=') for t in entry.tokens):
            name, begin = reader.name('what must happen again and again, or the names of states')
            if not reader.sign('='):
                raise Bad(reader.here().begin, '`=`, and then the states', 'A name with signs in it stands in quotes.')
            if name in names:
                raise Bad(begin, 'a name that no other set has')
        sets.append(reader.set(states, 'state'))
        reader.done()
        names.append(name)
    return sets, names


def read_rule(entry, signals, states):
    tree = rules.Spoken(entry.tokens, signals, states).whole()
    begin = entry.tokens[0].begin
    if rules.size(tree) > rules.SIZE:
        raise Bad(begin, 'a rule of at most %d operators and names' % rules.SIZE, 'It has %d. Say it shorter, or watch two rules in two folders.' % rules.size(tree))
    if rules.parts(tree) > rules.PARTS:
        raise Bad(begin, 'a rule with at most %d of `next`, `sometime`, `always`, `until`, `releases`' % rules.PARTS, 'It has %d. Say it shorter, or watch two rules in two folders.' % rules.parts(tree))
    return tree


def write_words(plant):
    table, names = plant.table, plant.names
    out = ['title: %s' % names.title, ''] if names.title else []
    out += broken('signals: ', names.signal) + ['']
    for s in range(table.states):
        out.append('state: %s' % quoted(names.state[s]))
        out += broken('  on: ', [names.signal[p] for p in sorted(table.label[s])], 'nothing')
        out += broken('  leads to: ', [names.state[t] for t in sorted(table.next[s])], 'nowhere')
    out += [''] + broken('start: ', [names.state[s] for s in sorted(table.start)], 'none')
    for j, fair in enumerate(table.fair):
        name = '' if names.fair[j] == 'j%d' % j else '%s = ' % quoted(names.fair[j])
        out += broken('again and again: ' + name, [names.state[s] for s in sorted(fair)], 'none')
    out += ['', 'rule: %s' % rules.in_words(plant.tree, lambda k: in_rule(names.signal[k]))]
    return ''.join(line + '\n' for line in out)


def broken(head, names, none='none'):
    """A list, broken into lines behind commas."""
    lines = [head]
    for k, name in enumerate(names or [none]):
        word = (quoted(name) if names else name) + (',' if k + 1 < len(names) else '')
        if k and len(lines[-1]) + len(word) > WIDE:
            lines.append(' ' * (len(head) - len(head.lstrip()) + 4) + word)
        else:
            lines[-1] += word if lines[-1].endswith(' ') else ' ' + word
    return lines


# ---- seen.txt ----

SIGHTS = ('on', 'off', 'all', 'nothing', 'restart', 'event')


def read_seen(text, names):
    """The events of seen.txt, or Bad. A line has parts with `;` between them: `event 7`, `restart`, `all`, `nothing`, `on ..`, `off ..`."""
    events, at = [], 0
    while at < len(text):
        found, end = value_from(text, at, line_end(text, at))
        if len(found) > 1:
            events.append(read_event(Listed(found), names, events))
            most = most_events(len(names.signal), events[0].number is not None)
            if len(events) > most:
                raise Bad(found[0].begin, 'the end of the file: of this plant a log has at most %s events' % '{:,}'.format(most), 'Begin a new log here: it is watched by itself, from a starting state.')
        at = end + 1
    return events


def read_event(reader, names, before):
    begin = reader.here().begin
    number = read_number(reader, before)
    new = reader.word('restart')
    if new and not reader.sign(';'):
        raise Bad(reader.here().begin, '`;`, and then what was seen', 'Where nothing was seen: `restart; nothing`.')
    on, off = read_sight(reader, names)
    reader.done('`;` and a further part, ')
    if before and (before[-1].number is None) != (number is None):
        raise Bad(begin, '`event` and its number, as in the lines before' if number is None else 'no number, as in the lines before', 'All lines have numbers, or none has.')
    return Event(number, weight(on | off), weight(on), new)


def read_number(reader, before):
    if not (reader.here().kind == 'word' and reader.here().text == 'event'):
        return None
    reader.at += 1
    token = reader.here()
    number = number_in(token.text, NUMBERS - 1) if token.kind == 'word' else None
    if number is None:
        raise Bad(token.begin, 'the number of the event, 0 to %d' % (NUMBERS - 1))
    reader.at += 1
    if not reader.sign(';'):
        raise Bad(reader.here().begin, '`;`, and then what was seen')
    first = before[-1].number + 1 if before and before[-1].number is not None else number
    last = min(first + MISSING, NUMBERS - 1)
    if first > last:
        raise Bad(token.begin, 'no further event: %d was the last number' % last, 'Begin a new log here.')
    if not first <= number <= last:
        raise Bad(token.begin, 'a number from %d to %d' % (first, last), 'Numbers go up, and at most %d may be missing in a row. Begin a new log here.' % MISSING)
    return number


def read_sight(reader, names):
    """What was seen on, and what off."""
    if reader.is_none():
        return set(), set()
    if reader.word('all'):
        if not reader.sign(';') or not reader.word('on'):
            raise Bad(reader.here().begin, '`; on`, and the signals that were on', '`all; on nothing` says that all was seen, and nothing was on.')
        on = signals_of(reader, names)
        return on, set(range(len(names.signal))) - on
    seen = {}
    while not seen or reader.sign(';'):
        part = next((p for p in ('on', 'off') if p not in seen and reader.word(p)), None)
        if not part:
            what = '`on` or `off`, each once' if seen else '`on`, `off`, `all`, `nothing`, `restart` or `event`'
            raise Bad(reader.here().begin, what, no_sight(reader.here().text, names))
        begin = reader.here().begin
        seen[part] = signals_of(reader, names)
    on, off = seen.get('on', set()), seen.get('off', set())
    if on & off:
        raise Bad(begin, 'signals that are not in the other list', '`%s` can\'t be both on and off.' % names.signal[min(on & off)])
    return on, off


def signals_of(reader, names):
    """The signals behind `on` or `off`."""
    if reader.here()[:2] == ('sign', ':'):
        raise Bad(reader.here().begin, 'the name of a signal, or `nothing`', 'In a log no colon stands behind `on` and `off`.')
    try:
        return reader.set(names.signal, 'signal', ('state', names.state))
    except Bad as bad:
        words = [t.text for t in itertools.takewhile(lambda t: t.kind == 'word', (t for t in reader.tokens if t.begin >= bad.place))]
        part = next((w for w in ('on', 'off') if w in words), None)
        raise Bad(bad.place, bad.expected, 'Before `%s` stands a `;`: `on a; off b, c`.' % part if part and not bad.hint.endswith(COMMA) else bad.hint) from None


def no_sight(word, names):
    """A hint on what begins no part of a line."""
    if word.lower() in SIGHTS and word not in SIGHTS:
        return 'It is written small: `%s`.' % word.lower()
    if word in SIGHTS:
        return 'The order is: `event 7; restart; on a; off b`.'
    if word.isdigit():
        return 'A number stands behind `event`: `event %s; ..`.' % word[:10]
    if word in ('see', 'num'):
        return 'This is a line of log.txt, which the programs read. With log.txt in its place, tools/plant FOLDER --back puts it into words.'
    starts = [s for s in names.signal if s.split()[0] == word]
    return 'Say whether it was on or off: `on %s`, or `off %s`.' % (starts[0], starts[0]) if starts else ''


def write_event(event, names, number=True):
    """An event as a line of seen.txt."""
    everything = (1 << len(names.signal)) - 1
    out = ['event %d' % event.number] if number and event.number is not None else []
    out += ['restart'] if event.new else []
    on, off = ([quoted(names.signal[k]) for k in members(found)] for found in (event.see & event.val, event.see & ~event.val))
    if event.see == everything:
        out.append('all; on %s' % (', '.join(on) or 'nothing'))
    elif not event.see:
        out.append('nothing')
    else:
        out += ['%s %s' % (word, ', '.join(found)) for word, found in (('on', on), ('off', off)) if found]
    return '; '.join(out)


def write_seen(events, names):
    return ''.join(write_event(e, names) + '\n' for e in events)


def told_event(event, names):
    """An event in words, for a reader."""
    everything = (1 << len(names.signal)) - 1
    on, off = ([names.signal[k] for k in members(found)] for found in (event.see & event.val, event.see & ~event.val))
    if event.see == everything:
        return 'all seen, %s' % ('on: %s' % ', '.join(on) if on else 'nothing on')
    if not event.see:
        return 'nothing seen'
    return '; '.join('%s: %s' % (word, ', '.join(found)) for word, found in (('on', on), ('off', off)) if found)
