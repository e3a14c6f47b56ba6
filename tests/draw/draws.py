"""See tests/draw/run."""
import html.parser
import os
import re
import shutil
import subprocess
import sys
import tempfile
from xml.dom import minidom

HOME = os.path.dirname(os.path.dirname(os.path.dirname(os.path.abspath(__file__))))
sys.path.insert(0, os.path.join(HOME, 'tests', 'plant'))

import damaged
import pictured
from started import Tool

from desk import picture, program, texts

EMPTY = {'meta', 'br', 'link', 'img', 'input', 'hr'}


def fail(words):
    sys.exit('draw: %s' % words)


asked = Tool('draw', fail).asked


class Balanced(html.parser.HTMLParser):
    """Whether each tag that is opened is closed, in turn."""

    def __init__(self):
        super().__init__()
        self.open, self.wrong = [], []

    def handle_starttag(self, tag, attrs):
        if tag not in EMPTY:
            self.open.append(tag)

    def handle_startendtag(self, tag, attrs):
        pass

    def handle_endtag(self, tag):
        if not self.open or self.open.pop() != tag:
            self.wrong.append(tag)


def drawn(folder, room, lamps, status=0):
    """The page of a folder, looked at for its form."""
    target = os.path.join(room, 'page.html')
    asked(status, 'draw: ', folder, target, '--lamps', lamps)
    page = texts.contents(target).decode('utf-8')
    form = Balanced()
    form.feed(page)
    if form.open or form.wrong:
        fail('the page of %s has tags that do not match: %s' % (folder, form.open + form.wrong))
    for drawing in re.findall(r'<svg.*?</svg>', page, re.S):
        minidom.parseString(drawing)
    for word in ('viewport', 'prefers-color-scheme:dark', '@media print', 'max-width:640px'):
        if word not in page:
            fail('the page of %s has no %s' % (folder, word))
    if re.search(r'(?:src|href)=', page):
        fail('the page of %s asks for something from elsewhere' % folder)
    return page


def write(folder, name, data):
    with open(os.path.join(folder, name), 'wb') as file:
        file.write(data)


def lamps_in(text):
    return re.findall(r'verdict=(\S+) left=(\d+)', text)


def try_worked(room):
    count = 0
    for name in sorted(os.listdir(os.path.join(HOME, 'examples'))):
        folder = os.path.join(HOME, 'examples', name)
        lamps = os.path.join(folder, 'expected.txt')
        if not os.path.exists(lamps):
            continue
        page = drawn(folder, room, lamps)
        if re.findall(r'data-lamp="(\S+) (\d+)"', page) != lamps_in(texts.contents(lamps).decode()):
            fail('the page of %s does not show the lamps of its expected output' % name)
        if '<svg' not in page or '<h2>Outcome</h2>' not in page:
            fail('the page of %s has no drawing or no outcome' % name)
        capitals = os.path.join(room, 'capitals', name)
        subprocess.run([os.path.join(HOME, 'tests', 'capitals'), folder, capitals], check=True)
        if drawn(capitals, room, lamps) != page:
            fail('the page of %s is another with capital digits' % name)
        count += 1
    return count


def try_day(room):
    """The stretches are those of the program `day`; lost events before a restart belong to the stretch before it; of more than 64 so many are shown."""
    for name in ('sluice', 'sluice_evening'):
        folder = os.path.join(HOME, 'examples', name)
        page = drawn(folder, room, os.path.join(folder, 'expected.txt'))
        if re.findall(r'data-stretch="([^"]*)"', page) != texts.contents(os.path.join(folder, 'day.txt')).decode().splitlines()[:-1]:
            fail('the page of %s does not show the stretches of its day' % name)
    folder, lamps = os.path.join(room, 'day'), os.path.join(room, 'lamps.txt')
    shutil.copytree(os.path.join(HOME, 'examples', 'sluice_evening'), folder)
    write(folder, 'log.txt', b'num=00000005 see=00 val=00 new=1\nnum=00000008 see=00 val=00 new=1\n')
    write(room, 'lamps.txt', program.run('watch', folder).encode())
    if re.findall(r'first=(\d+) events=(\d+)', drawn(folder, room, lamps)) != [('5', '3'), ('8', '1')]:
        fail('lost events before a restart are not in the stretch before it')
    write(folder, 'log.txt', b'see=00 val=00 new=1\n' * 66)
    write(room, 'lamps.txt', program.run('watch', folder).encode())
    page = drawn(folder, room, lamps)
    if page.count('data-stretch=') != 64 or 'And 2 stretches more' not in page:
        fail('of 66 stretches not 64 are shown')


def try_outcome(room):
    """The summary says since when, and because of what; a state that no run visits is marked."""
    lock, bottling = (os.path.join(HOME, 'examples', name) for name in ('lock', 'bottling'))
    page = drawn(lock, room, os.path.join(lock, 'expected.txt'))
    outcome = page[page.index('Outcome'):page.index('The plant')]
    for phrase in ('out-of-model', '<b>event 6</b>', 'upper gate open', 'no way from there shows this', '1 change of the lamp'):
        if phrase not in outcome:
            fail('the outcome of the lock has no word of "%s"' % phrase)
    if re.findall(r'class="state[a-z ]*ghost[a-z ]*"><title>(\d+)', page) != ['6'] or page.count('<b>∅ no run</b>') != 1 or 'is cut off' not in page:
        fail('the lock\'s state that no run visits is not marked')
    if 'class="set-name"' not in page or '<b>(a)</b>' not in page:
        fail('fairness is told by colour alone')
    page = drawn(bottling, room, os.path.join(bottling, 'expected.txt'))
    if '<span class="chip yes">● belt moves</span><span class="chip">○ syrup flows</span>' not in page:
        fail('the page of the bottling line does not show what was seen on and off')
    if page.index('event 13') > page.index('event 10') or '✗' not in page:
        fail('the outcome of the bottling line is not told, the last change first')


def try_large(room):
    """Plants of 3, 20 and 64 states with long names, and logs of 3 to 3,276 events."""
    for states in (3, 20, 64):
        folder, lamps = os.path.join(room, 'large%d' % states), os.path.join(room, 'lamps.txt')
        plant = pictured.put(folder, states, 60)
        write(room, 'lamps.txt', program.run('watch', folder).encode())
        page = drawn(folder, room, lamps)
        drawing = page[page.index('<svg'):page.index('</svg>')]
        bare = re.sub(r'<title>.*?</title>', '', drawing)
        for s in range(states):
            if plant.names.state[s].split()[0] not in bare:
                fail('the name of state %d of %d is not in the drawing' % (s, states))
    for many in (3, 400, 3276):
        folder = os.path.join(room, 'long%d' % many)
        pictured.put(folder, 3, many)
        write(room, 'lamps.txt', program.run('watch', folder).encode())
        page = drawn(folder, room, lamps)
        rows = page.count('data-lamp=')
        if many <= 60 and rows != many + 1 or many > 60 and (rows > 310 or 'shown are the changes' not in page) or len(page) > 300000:
            fail('the page of %d events has %d rows and %d bytes' % (many, rows, len(page)))


def try_names():
    """Names of any letters stand within their boxes: no line is wider than it may be, and no letter is lost but behind a sign."""
    for text in ('lower gate open', 'WARTUNGSMODUS AM UNTEREN WEHR', 'Donaudampfschifffahrtsgesellschaft', 'm' * 60, 'x', 'half-open valve, north', '水門が完全に閉じている', 'W ' * 30):
        for most in (99, 3, 1):
            lines = picture.wrapped(text, 138, picture.NAME, most)
            bare = ''.join(lines).replace('-', '').replace(' ', '')
            whole = text.replace('-', '').replace(' ', '')
            if len(lines) > most or any(picture.ems(line) * picture.NAME > 138.01 for line in lines) or bare != whole and not (lines[-1].endswith('…') and most < 99 and whole.startswith(bare[:-1])):
                fail('the name "%s" is wrapped as %s' % (text, lines))


def try_refused(room):
    """A refused event is marked; a text that is refused is told; and both give another status than 0."""
    folder, lamps = os.path.join(room, 'refused'), os.path.join(room, 'lamps.txt')
    shutil.copytree(os.path.join(HOME, 'examples', 'sluice'), folder)
    log = texts.contents(os.path.join(folder, 'log.txt'))
    write(folder, 'log.txt', log[:60] + b'see=01 val=02 new=0\n' + log[60:])
    lines = texts.contents(os.path.join(folder, 'expected.txt')).splitlines(True)
    write(room, 'lamps.txt', b''.join(lines[:4]) + b'refused=10 place=60\n')
    page = drawn(folder, room, lamps, 1)
    if 'class="refused-row"' not in page or 'refused by 10' not in page or '15 events not looked at' not in page or 'line 4, column 13' not in page:
        fail('a refused event is not marked')
    write(folder, 'log.txt', log)
    write(folder, 'rule.txt', b'G(p0->Fp1\n')
    write(room, 'lamps.txt', b'refused=5 place=9\n')
    page = drawn(folder, room, lamps, 1)
    if 'a <b>“)”</b> is missing' not in page or '<svg' not in page:
        fail('a refused rule is not told beside the plant')
    write(folder, 'plant.txt', b'props=2\r\n')
    write(room, 'lamps.txt', b'refused=3 place=7\n')
    if 'line ends of another system' not in drawn(folder, room, lamps, 1):
        fail('a refused plant is not told')


def try_wrong(room):
    """What can't be drawn is refused in words."""
    sluice, boiler, page = (os.path.join(HOME, 'examples', 'sluice'), os.path.join(HOME, 'examples', 'boiler'), os.path.join(room, 'page.html'))
    lamps = os.path.join(sluice, 'expected.txt')
    asked(0, 'usage:', '--help')
    asked(1, 'a folder and the name of a page', sluice)
    asked(1, 'there is no folder', os.path.join(room, 'none'), page)
    asked(1, 'no such file', sluice, page, '--lamps', os.path.join(room, 'none.txt'))
    asked(1, 'not of this log', sluice, page, '--lamps', os.path.join(boiler, 'expected.txt'))
    asked(1, 'is no output of the program', sluice, page, '--lamps', os.path.join(sluice, 'log.txt'))
    for left in (b'3', b'5'):
        write(room, 'lamps.txt', texts.contents(lamps).replace(b'n=2 verdict=inconclusive left=4', b'n=2 verdict=inconclusive left=' + left))
        asked(1, 'not of this plant: at event 2', sluice, page, '--lamps', os.path.join(room, 'lamps.txt'))
    asked(1, 'can\'t be written', sluice, os.path.join(room, 'none', 'page.html'), '--lamps', lamps)
    folder = os.path.join(room, 'wrong')
    shutil.copytree(sluice, folder)
    write(folder, 'names.txt', 'p0 = fish alarm\r\ns3=zu für heute\n'.encode('utf-8'))
    if 'fish alarm' not in drawn(folder, room, lamps):
        fail('spaces around = in names.txt hide a name')
    write(folder, 'names.txt', 's3=zu f\xfcr heute\n'.encode('latin-1'))
    asked(1, 'Save it anew as UTF-8', folder, page, '--lamps', lamps)
    os.remove(os.path.join(folder, 'names.txt'))
    drawn(folder, room, lamps)
    write(folder, 'plant.txt', texts.contents(os.path.join(sluice, 'plant.txt')).replace(b'props=4', b'props = 4'))
    asked(1, 'line 1, column 6', folder, page, '--lamps', lamps)


def try_rules(room):
    """A rule that can't be read is told on the page where the program refused it, and is trouble beside lamps that know nothing of it."""
    sluice, page, folder = os.path.join(HOME, 'examples', 'sluice'), os.path.join(room, 'page.html'), os.path.join(room, 'rule \udcfc')
    shutil.copytree(sluice, folder)
    os.remove(os.path.join(folder, 'names.txt'))
    write(folder, 'rule.txt', b'(' * 512)
    asked(1, 'draw: ', folder, page)
    write(folder, 'rule.txt', b'x' * 600)
    asked(1, 'draw: ', folder, page)
    told = texts.contents(page).decode('utf-8')
    if 'has more than the 513 bytes' not in told or '<svg' not in told or '<h1>rule \ufffd</h1>' not in told:
        fail('a rule that is too long is not told beside the plant')
    for rule, phrase in ((b'x' * 600, 'rule.txt, line 1, column 513'), (b'G(p0\n', 'rule.txt, line 1, column 5'), (b'Gp9\n', 'names p9')):
        write(folder, 'rule.txt', rule)
        asked(1, phrase, folder, page, '--lamps', os.path.join(sluice, 'expected.txt'))
    for lamps in (b'start verdict=true left=' + b'9' * 5000, b'start verdict=true left=1\nn=' + b'9' * 5000 + b' verdict=true left=1\n'):
        write(room, 'lamps.txt', lamps)
        asked(1, 'is no output of the program', sluice, page, '--lamps', os.path.join(room, 'lamps.txt'))


def try_harm(room):
    """Worked folders with harmed files are drawn, or what is wrong is told."""
    page = os.path.join(room, 'page.html')
    wrong = damaged.try_harm('draw', 30, '28', room, ['plant.txt', 'rule.txt', 'log.txt', 'names.txt'], lambda dice, folder: [folder, page]) \
        or damaged.try_harm('draw', 200, '5', room, ['rule.txt', 'log.txt', 'names.txt', 'expected.txt'], lambda dice, folder: [folder, page, '--lamps', os.path.join(folder, 'expected.txt')])
    if wrong:
        fail('the tool falls over a harmed folder: %s' % wrong)


def try_sensors():
    """The picture of two sensors shows the lamps of the two logs that it stands for."""
    picture = texts.contents(os.path.join(HOME, 'docs', 'sensors.svg')).decode('utf-8')
    minidom.parseString(picture.encode('utf-8'))
    shown = re.findall(r'<title>event (\d+): (\S+), left (\d+)</title>', picture)
    logs = [texts.contents(os.path.join(HOME, 'examples', name, 'expected.txt')).decode() for name in ('sluice_before', 'sluice_after')]
    if shown != [lamp for log in logs for lamp in re.findall(r'n=(\d+) verdict=(\S+) left=(\d+)', log)]:
        fail('docs/sensors.svg does not show the lamps of examples/sluice_before and examples/sluice_after')


def main():
    with tempfile.TemporaryDirectory() as room:
        count = try_worked(room)
        try_day(room)
        try_outcome(room)
        try_names()
        try_large(room)
        try_refused(room)
        try_wrong(room)
        try_rules(room)
        try_harm(room)
    try_sensors()
    print('draw: the pages of %d worked plants, of 3 to 64 states and of 3 to 3,276 events are well formed and show their lamps, and what can\'t be drawn is refused in words' % count)


main()
