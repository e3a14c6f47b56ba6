"""Settings sheets and reports, read as the programs read them: what they say, or Bad at the first byte that can't be right. docs/REFERENCE.md has their forms exactly."""
import re

from desk.texts import Slots
from desk.trouble import Bad

SHEET, RULE = 1024, 512                                   # the most bytes of a sheet, and of its rule
KEYS = {'edition': (1, 65535), 'rule': None, 'closing': (0, 99)}
LIST = re.compile('(?:[0-9]+(?:,[0-9]+)*)?')
CLAIMS = ('inconclusive', 'true', 'false', 'out-of-model')


def read_sheet(text):
    """For each key of a sheet where its value begins, and the value."""
    if len(text) > SHEET:
        raise Bad(SHEET, 'the end of the file: a sheet has at most 1,024 bytes')
    slots, found, left = Slots(text), {}, list(KEYS)
    while slots.here():
        key = next((k for k in left if k[0] == slots.here()), None)
        if not key:
            raise Bad(slots.at, ', '.join('a line `%s=`' % k for k in left) + (' or ' if left else '') + 'the end of the file')
        left = left[left.index(key) + 1:]
        slots.fixed(key + '=', '`%s=`' % key)
        begin = slots.at
        if key == 'rule':
            printable(slots)
        else:
            slots.count(*KEYS[key], 'the number of `%s`' % key)
        found[key] = begin, text[begin:slots.at]
        slots.line_end('the value of `%s=`' % key)
    return found


def printable(slots):
    """The bytes of a rule in a sheet: at least one, and at most so many."""
    begin = slots.at
    while ' ' <= slots.here() <= '~' and slots.at < begin + RULE:
        slots.at += 1
    if slots.at == begin:
        raise Bad(begin, 'a rule, of 1 to %d plain signs' % RULE)


def read_report(text):
    """The claim of a report, and how many states each of its runs has; none for one that is left out."""
    slots = Slots(text)
    slots.fixed('claim=', '`claim=`, with the verdict that is claimed')
    claim = word_of(slots, CLAIMS, 'one of the verdicts inconclusive, true, false and out-of-model')
    slots.line_end('the claim')
    runs = {}
    for kind in ('keeps', 'breaks'):
        if slots.here() == kind[0]:
            slots.fixed(kind + ' ', '`%s` and one space' % kind)
            runs[kind] = run_of(slots)
    if slots.here():
        raise Bad(slots.at, 'the end of the file' if 'breaks' in runs else 'a line `breaks`, or the end of the file' if 'keeps' in runs else 'a line `keeps` or `breaks`, or the end of the file')
    return claim, runs


def word_of(slots, words, what):
    """The word of some that stands here."""
    begin = slots.at
    while slots.text[begin:slots.at] not in words:
        if not any(slots.here() and w.startswith(slots.text[begin:slots.at + 1]) for w in words):
            raise Bad(slots.at, what)
        slots.at += 1
    return slots.text[begin:slots.at]


def run_of(slots):
    """A run's line behind its kind: how many states it has."""
    if slots.here() == 'r':
        slots.fixed('refused=13 place=0', '`refused=13 place=0`, where there is no such run')
        slots.line_end('it')
        return 0
    slots.fixed('stem=', '`stem=` with the states that come once')
    stem = states_of(slots)
    slots.fixed(' loop=', '`,` and a further state, or one space and `loop=` with the states that come for ever')
    loop = states_of(slots)
    slots.line_end('the loop')
    return stem + loop


def states_of(slots):
    """A list of states, with commas between them, or nothing."""
    listed = LIST.match(slots.text, slots.at).group()
    slots.at += len(listed)
    if slots.here() == ',':
        raise Bad(slots.at + bool(listed), 'the number of a state')
    return len(listed.split(',')) if listed else 0
