"""See tests/try/run and tests/try/look: the pages of tools/try in a real browser, clicked and typed through beside the program `watch`."""
import os
import random
import sys
import tempfile
from types import SimpleNamespace

from browser import Browser, Silent
from tries import PLANTS, data_of, fail, folder_of, lamps_of, logs_through, oddly_named, page_of, recorded, text_of, watched

from desk import texts, words
from desk.lamps import SIGNS

WAYS = ('unseen', 'on', 'off')
KEYS = {'undo': 'u', 'over': 's'}
PHONE, DESK = (360, 740), (1280, 900)


def ways_of(event, props):
    """How each signal stands in an event."""
    return ['unseen' if not event[0] >> p & 1 else 'on' if event[1] >> p & 1 else 'off' for p in range(props)]


class Person:
    """Who sits before a page. What is read is what the page shows."""

    def __init__(self, browser, found, address, signals):
        self.browser, self.found, self.address, self.signals = browser, found, address, signals

    def begin(self):
        self.browser.visit(self.address)
        self.ways, self.count = ['unseen'] * self.found.props, 0

    def click(self, event):
        for p, way in enumerate(ways_of(event, self.found.props)):
            if way != self.ways[p]:
                self.browser.click('document.querySelector(\'[name=p%d][value=%s]\').parentElement' % (p, way))
                self.ways[p] = way
        if event[2]:
            self.browser.click('document.querySelector(\'[name=restart]\').parentElement')
        self.browser.click('document.querySelector(\'button.main\')')

    def type(self, event):
        for p, way in enumerate(ways_of(event, self.found.props)):
            while way != self.ways[p]:
                self.browser.press(str(p + 1))
                self.ways[p] = WAYS[(WAYS.index(self.ways[p]) + 1) % 3]
        if event[2]:
            self.browser.press('n')
        self.browser.press('Enter')

    def lamp(self):
        """The lamp as it is read: sign, word and number."""
        sign, word = self.browser.value('document.querySelector("#lamp").innerText').split()
        left, _, states = self.browser.value('document.querySelector("#left").innerText').split()[:3]
        return sign, word, int(left), int(states)

    def table(self):
        """The lamps of all events so far, the start first."""
        return [tuple(row) for row in self.browser.see('table()')[::-1]]

    def log(self):
        return self.browser.value('document.querySelector("#log").value')

    def seen(self):
        """The events that the page writes in names, as tools/plant reads them."""
        text = self.browser.value('document.querySelector("#seen").value')
        events = words.read_seen(text, SimpleNamespace(signal=self.signals, state=[]))
        return [self.found.columns.index((e.see, e.val, int(e.new))) for e in events]

    def fits(self):
        """Whether nothing stands beyond the screen's right edge."""
        return self.browser.see('fits()')


def try_sight(person, name, log):
    """Each text can be told from what is behind it, by day and in the dark, and each thing to click is large enough for a finger."""
    for dark in (False, True):
        person.browser.screen(*PHONE, dark=dark, phone=True)
        person.browser.visit(person.address + '#' + '.'.join(map(str, log)))
        person.browser.value('document.querySelectorAll("details").forEach(d => { d.open = true; })')
        pale, small = person.browser.see('pale()'), person.browser.see('small()')
        if pale or small:
            fail('in the browser, %s, %s: too pale: %s; too small: %s' % (name, 'in the dark' if dark else 'by day', pale, small))


def expect(person, name, lamps, states, what):
    """The page shows the last of these lamps, and all of them in the events so far."""
    verdict, left = lamps[-1]
    if person.lamp() != (SIGNS[verdict], verdict, left, states):
        fail('in the browser, %s of %s: %s is shown, and `watch` shows %s' % (what, name, person.lamp(), lamps[-1]))
    if person.table() != lamps:
        fail('in the browser, %s of %s: the events so far show other lamps than `watch`' % (what, name))


def go_through(person, name, log, lamps, states, way):
    """An event after the other, by clicks or by keys, each lamp beside that of `watch`."""
    person.begin()
    expect(person, name, lamps[:1], states, 'the start')
    for n, column in enumerate(log):
        way(person.found.columns[column])
        expect(person, name, lamps[:n + 2], states, 'event %d' % n)
    if person.log() != text_of(person.found, log) or person.seen() != log or not person.fits():
        fail('in the browser, %s: the log of the events is another one, or the page is wider than the screen' % name)


def try_buttons(person, name, lamps, states, press):
    """Undo, start over, and undo of that; a page that is loaded anew."""
    press('undo')
    expect(person, name, lamps[:-1], states, 'undo')
    press('over')
    expect(person, name, lamps[:1], states, 'starting over')
    press('undo')
    expect(person, name, lamps[:-1], states, 'undo of starting over')
    person.browser.reload()
    expect(person, name, lamps[:-1], states, 'loading anew')
    for _ in range(len(lamps)):
        press('undo')
    expect(person, name, lamps[:1], states, 'undo to the start')


def try_tabs(person, states):
    """With no keys but those that every form has: Tab, arrows, the space bar, Enter."""
    browser, expected = person.browser, lambda *events: [(v, left) for v, left in lamps_of(person.found, [person.found.columns.index(e) for e in events])]
    person.begin()
    for key in ('Tab', 'ArrowRight', 'Enter'):
        browser.press(key)
    expect(person, 'a page', expected((1, 1, 0)), states, 'Tab, arrow and Enter')
    for key in ['Tab'] * person.found.props + ['Space', 'Tab', 'Enter']:
        browser.press(key)
    expect(person, 'a page', expected((1, 1, 0), (1, 1, 1)), states, 'Tab to the restart and to the button')
    for key in ('Tab', 'Space'):
        browser.press(key)
    expect(person, 'a page', expected((1, 1, 0)), states, 'Tab to undo')
    for key in ('Tab', 'Enter'):
        browser.press(key)
    expect(person, 'a page', expected(), states, 'Tab to start over')


def try_address(person, name, logs):
    """Each cell from which a way goes back, and some others, by events in the page's address: the first with the page, the others written into it."""
    person.browser.visit(person.address + '#' + '.'.join(map(str, logs[0])))
    for k, log in enumerate(logs):
        if k and log != logs[k - 1]:
            person.browser.see('address("%s")' % '.'.join(map(str, log)), wait=True)
        if person.table() != lamps_of(person.found, log):
            fail('in the browser, %s: a log in the page\'s address shows other lamps than the machine' % name)


def try_odd(browser, room):
    """Odd names in the browser: shown as they are, on the narrowest telephone too, and the page works."""
    folder = oddly_named(room)
    page, address = page_of(folder, room, recorded('turbine')), 'file://%s/page.html' % room
    found, told = data_of(page)
    person = Person(browser, found, address, told['signals'])
    browser.screen(320, 640, phone=True)
    person.begin()
    person.click((7, 0, 0))
    if person.seen() != [found.columns.index((7, 0, 0))]:
        fail('in the browser, odd names are not written so that they are read back')
    shown = [text.split() for text in browser.value('[...document.querySelectorAll("legend")].map(e => e.firstChild.textContent)')]
    if shown != [name.split() for name in told['signals']] or browser.value('document.title') == '1' or not person.fits():
        fail('in the browser, odd names are not shown as they are, or do not fit: %s' % shown)
    expect(person, 'odd names', lamps_of(found, [found.columns.index((7, 0, 0))]), told['states'], 'an event')


def drawn(found, seed):
    """A log of a dozen events that stays away from out-of-model while it can."""
    throw, row, log = random.Random(seed), 0, []
    for _ in range(12):
        columns = [c for c in range(len(found.columns)) if found.lamp(found.rows[row][2 + c])[0] != 'out-of-model'] or range(len(found.columns))
        log.append(throw.choice(columns))
        row = found.rows[row][2 + log[-1]]
    return log


def own(name, found, table):
    path = os.path.join(folder_of(name), 'log.txt')
    return [found.columns.index((e.see, e.val, int(e.new))) for e in texts.log_of(folder_of(name), table)] if os.path.exists(path) else []


def try_page(browser, name, room, pictures):
    folder, address = folder_of(name), 'file://%s/%s.html' % (room, name)
    page = page_of(folder, room, recorded(name))
    with open(os.path.join(room, name + '.html'), 'w', encoding='utf-8') as file:
        file.write(page)
    (found, told), table = data_of(page), texts.table_of(folder)
    person, count = Person(browser, found, address, told['signals']), 0
    by_click = (own(name, found, table), PHONE, False, person.click, lambda button: browser.click('document.querySelector("#%s")' % button))
    by_key = (drawn(found, 7), DESK, True, person.type, lambda button: browser.press(KEYS[button]))
    for log, (wide, high), dark, way, press in (by_click, by_key):
        if log:
            lamps = watched(folder, text_of(found, log), room)
            browser.screen(wide, high, dark, phone=wide < 600)
            go_through(person, name, log, lamps, table.states, way)
            photograph(browser, name, pictures)
            try_buttons(person, name, lamps, table.states, press)
            count += len(log)
    try_tabs(person, table.states)
    try_sight(person, name, own(name, found, table) or drawn(found, 7))
    try_address(person, name, logs_through(found, 20261116))
    browser.visit(address + '#1.x')
    expect(person, name, watched(folder, '', room), table.states, 'an address that is no log')
    if {a.split('#')[0] for a in browser.asked} - {address, 'about:blank'}:
        fail('the page of %s asks for %s' % (name, browser.asked))
    browser.asked.clear()
    return count


def photograph(browser, name, pictures):
    """The page as on a telephone and at a desk, by day and in the dark."""
    if not pictures:
        return
    for kind, (wide, high), dark in (('phone', PHONE, False), ('phone-dark', PHONE, True), ('desk', DESK, False), ('desk-dark', DESK, True)):
        browser.screen(wide, high, dark, phone=wide < 600)
        browser.value('document.querySelectorAll("details").forEach(d => { d.open = true; }); scrollTo(0, 0)')
        browser.picture(os.path.join(pictures, 'try-%s-%s.png' % (name, kind)))
    browser.value('document.querySelectorAll("details").forEach(d => { d.open = false; })')


def main():
    pictures = sys.argv[1] if len(sys.argv) > 1 else None
    try:
        browser = Browser()
    except Silent as wrong:
        print('try: there is a browser, but it can\'t be started here (%s), so nothing was clicked' % wrong)
        return
    try:
        with tempfile.TemporaryDirectory() as room:
            count = sum(try_page(browser, name, room, pictures) for name in PLANTS)
            try_odd(browser, room)
    except (Silent, AssertionError) as wrong:
        fail('in the browser: %s' % wrong)
    finally:
        browser.close()
    print('try: in a browser, %d events clicked or typed show the lamps of `watch`, with undo and starting over, on a telephone\'s width and at a desk; '
          'and so does each cell by the page\'s address' % count)


main()
