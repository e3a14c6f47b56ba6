"""See tests/try/run. What a page of tools/try holds, and what its look-up gives, beside the program `watch`; and what is said where there is no page."""
import collections
import html.parser
import json
import os
import random
import re
import shutil
import sys
import tempfile

HOME = os.path.dirname(os.path.dirname(os.path.dirname(os.path.abspath(__file__))))
sys.path[:0] = [os.path.join(HOME, 'tools'), os.path.join(HOME, 'tests', 'plant')]

from desk import machine, program, texts
from started import Tool

PLANTS = {'turbine': 'examples/turbine', 'door': 'tests/try/plants/door', 'three': 'tests/try/plants/three'}
MOST = 3276             # lines of a log for `watch`
ENDS = 12               # logs of a plant that end at a cell from which no way goes back


def fail(words):
    sys.exit('try: %s' % words)


asked = Tool('try', fail).asked


def folder_of(name):
    return os.path.join(HOME, PLANTS[name])


def recorded(name):
    return os.path.join(HOME, 'tests', 'try', 'machines', name + '.txt')


# ---- the tool ----

def page_of(folder, room, source=None):
    """The page of a folder, by the program where there is no source."""
    target = os.path.join(room, 'page.html')
    asked(0, 'try: ', folder, target, *(['--machine', source] if source else []))
    return texts.contents(target).decode('utf-8')


class Form(html.parser.HTMLParser):
    """The tags of a page: whether they match, and how many there are."""

    def __init__(self, page):
        super().__init__()
        self.open, self.wrong, self.tags = [], [], collections.Counter()
        self.feed(page)

    def handle_starttag(self, tag, attrs):
        self.tags[tag] += 1
        if tag not in ('meta', 'input'):
            self.open.append(tag)

    def handle_startendtag(self, tag, attrs):
        self.tags[tag] += 1

    def handle_endtag(self, tag):
        if not self.open or self.open.pop() != tag:
            self.wrong.append(tag)


def look_at(page, name, props):
    form = Form(page)
    if form.open or form.wrong:
        fail('the page of %s has tags that do not match: %s' % (name, form.open + form.wrong))
    if form.tags['script'] != 2 or form.tags['fieldset'] != props or form.tags['input'] != 3 * props + 1:
        fail('the page of %s has other parts than two scripts, three ways for each signal and one restart: %s' % (name, form.tags))
    if re.search(r'(?:src|href|action)=|https?:|@import|url\((?!#)', page.replace('http-equiv', '')):
        fail('the page of %s asks for something from elsewhere' % name)
    for word in ('viewport', 'prefers-color-scheme:dark', '@media print', 'max-width:640px', "default-src 'none'"):
        if word not in page:
            fail('the page of %s has no %s' % (name, word))


def data_of(page):
    """The machine that stands in a page, and what it calls the signals."""
    told = json.loads(re.search(r'<script type="application/json" id="machine">(.*?)</script>', page, re.S).group(1))
    verdicts = [verdict for verdict, _, _ in told['verdicts']]
    if verdicts != list(machine.VERDICTS) or len({sign for _, sign, _ in told['verdicts']}) != 4:
        fail('the page has verdicts %s, or two with one sign' % verdicts)
    return machine.Machine(told['props'], bytes.fromhex(''.join(told['rows'])), 'the page'), told


# ---- logs that go through the machine ----

def way_to(found, row, wanted):
    """The columns of a shortest way from a row to a cell that is wanted, that cell included."""
    come, queue = {row: None}, collections.deque([row])
    while queue:
        here = queue.popleft()
        for column, there in enumerate(found.rows[here][2:]):
            if (here, column) in wanted:
                way = [column]
                while come[here]:
                    here, before = come[here]
                    way.append(before)
                return way[::-1]
            if there not in come:
                come[there] = (here, column)
                queue.append(there)
    return None


def reached(found, row):
    """The rows to which a row leads, itself among them."""
    seen, queue = {row}, [row]
    for here in queue:
        for there in found.rows[here][2:]:
            if there not in seen:
                seen.add(there)
                queue.append(there)
    return seen


def tour(found, wanted):
    """One log that takes as many of the wanted cells as it comes to; they are wanted no more."""
    row, log = 0, []
    while True:
        way = way_to(found, row, wanted)
        if not way or len(log) + len(way) > MOST:
            return log
        for column in way:
            wanted.discard((row, column))
            row = found.rows[row][2 + column]
        log += way


def logs_through(found, seed):
    """Logs that take every cell from which a way goes back, and some of the others, with a few events behind."""
    cells = [(row, column) for row in range(len(found.rows)) for column in range(len(found.columns))]
    to = [reached(found, row) for row in range(len(found.rows))]
    ends = [(row, column) for row, column in cells if row not in to[found.rows[row][2 + column]]]
    wanted, logs, throw = set(cells) - set(ends), [], random.Random(seed)
    while wanted:
        logs.append(tour(found, wanted))
    for cell in throw.sample(ends, min(ENDS, len(ends))):
        logs.append(way_to(found, 0, {cell}) + [throw.randrange(len(found.columns)) for _ in range(3)])
    return logs


def lamps_of(found, log):
    """The lamps of a log by looking it up: what the page's script does, in python."""
    row, lamps = 0, [found.lamp(0)]
    for column in log:
        row = found.after(row, found.columns[column])
        lamps.append(found.lamp(row))
    return lamps


def text_of(found, log):
    return ''.join('see=%02x val=%02x new=%d\n' % found.columns[column] for column in log)


def watched(folder, text, room):
    """The lamps of `watch` on a plant with a log."""
    there = tempfile.mkdtemp(dir=room)
    for name in ('plant.txt', 'rule.txt'):
        shutil.copy(os.path.join(folder, name), there)
    with open(os.path.join(there, 'log.txt'), 'w', encoding='ascii') as file:
        file.write(text)
    shown = program.watched(there)
    if shown.refused:
        fail('`watch` refuses a log of columns: %s' % (shown.refused,))
    return [(lamp.verdict, lamp.left) for lamp in [shown.start] + shown.lamps]


# ---- what is tried ----

def try_plant(name, room):
    """A page holds the machine, and looking up gives the lamps of `watch`."""
    folder = folder_of(name)
    page = page_of(folder, room, recorded(name))
    table = texts.table_of(folder)
    look_at(page, name, table.props)
    found, told = data_of(page)
    if found.rows != machine.read_machine(texts.contents(recorded(name)).decode(), table.props, name).rows:
        fail('the page of %s holds other bytes than its machine' % name)
    if told['signals'] != texts.names_of(folder, table).signal or told['states'] != table.states:
        fail('the page of %s has other names or another number of states' % name)
    if program.is_built('machine') and page_of(folder, room) != page:
        fail('the program `machine` makes another machine of %s than the one that is kept' % name)
    logs = logs_through(found, 20261116)
    for log in logs:
        if watched(folder, text_of(found, log), room) != lamps_of(found, log):
            fail('looking up in the page of %s gives other lamps than `watch` for the log\n%s' % (name, text_of(found, log)))
    if os.path.exists(os.path.join(folder, 'log.txt')):
        own = [found.columns.index((e.see, e.val, int(e.new))) for e in texts.log_of(folder, table)]
        if watched(folder, texts.text_of(folder, 'log.txt'), room) != lamps_of(found, own):
            fail('looking up in the page of %s gives other lamps than `watch` for its own log' % name)
    return sum(len(log) for log in logs)


ORDERS = {
    'by values first': lambda e: (e[1], e[0], e[2]),
    'restarts behind all others': lambda e: (e[2], e[0], e[1]),
    'restarts first': lambda e: (e[0], e[1], -e[2]),
}
CHANGES = {
    'a cell too far': lambda row: row[:2] + row[-1:] + row[2:-1],
    'verdict and left exchanged': lambda row: bytes((row[1] % 4, row[0])) + row[2:],
    'true and false exchanged': lambda row: bytes(((0, 2, 1, 3)[row[0]],)) + row[1:],
    'one state too many': lambda row: row[:1] + bytes((row[1] + 1,)) + row[2:],
}


def mistaken(found):
    """Machines that are looked up wrongly, or have a wrong byte: what is wrong, and the machine."""
    for what, order in ORDERS.items():
        wrong = machine.Machine(found.props, b''.join(found.rows), what)
        wrong.columns = sorted(found.columns, key=order)
        yield what, wrong
    for what, change in CHANGES.items():
        wrong = machine.Machine(found.props, b''.join(found.rows), what)
        wrong.rows = [change(row) for row in wrong.rows]
        yield what, wrong
    for row in range(len(found.rows)):
        wrong = machine.Machine(found.props, b''.join(found.rows), 'row')
        wrong.rows[row] = bytes(((wrong.rows[row][0] + 1) % 4,)) + wrong.rows[row][1:]
        yield 'the verdict of row %d' % row, wrong


def try_planted(room):
    """Each of these mistakes is found by a log: else the logs are too weak."""
    found, _ = data_of(page_of(folder_of('turbine'), room, recorded('turbine')))
    logs = sorted(logs_through(found, 20261116), key=len)
    right = [lamps_of(found, log) for log in logs]
    for what, wrong in mistaken(found):
        events = [[wrong.columns.index(found.columns[column]) for column in log] for log in logs]
        if all(lamps_of(wrong, log) == lamps for log, lamps in zip(events, right)):
            fail('the logs do not find a mistake: %s' % what)


ODD = ['</script><script>document.title = 1</script>', '"quoted" & <b>bold</b> \\u003c', 'Mühle ohne Ende und ohneeeeeeeeeeeeeeeeeeeeeeeeeeeeeeeeeeeeeeeeee Pause']


def oddly_named(room):
    """The turbine with names that have signs of the page's own language, and one that is very long."""
    folder = os.path.join(room, 'odd')
    shutil.copytree(folder_of('turbine'), folder)
    with open(os.path.join(folder, 'names.txt'), 'w', encoding='utf-8') as file:
        file.write('title=<i>%s</i>\n' % ODD[0] + ''.join('p%d=%s\n' % (k, name) for k, name in enumerate(ODD)))
    return folder


def try_names(room):
    """Names are names, whatever signs they have; signals without one are called by their marks."""
    folder = oddly_named(room)
    page = page_of(folder, room, recorded('turbine'))
    look_at(page, 'odd names', 3)
    if data_of(page)[1]['signals'] != texts.names_of(folder, texts.table_of(folder)).signal or Form(page).tags['i'] or '<b>bold' in page:
        fail('names with signs of the page\'s own language are not shown as they are')
    if data_of(page_of(folder_of('three'), room, recorded('three')))[1]['signals'] != ['p0', 'p1']:
        fail('signals without names are not called by their marks')


def try_refused(room):
    """Where there is no machine, it is told why, and no page is written."""
    turbine, sluice = folder_of('turbine'), os.path.join(HOME, 'examples', 'sluice')
    page, said = os.path.join(room, 'none.html'), os.path.join(room, 'said.txt')

    def output(text):
        with open(said, 'w', encoding='ascii') as file:
            file.write(text)
        return '--machine', said

    array, three = texts.contents(recorded('three')).decode(), folder_of('three')
    row = ', '.join(['0'] * 20)
    for folder, text, phrase in (
            (sluice, 'refused=1 place=0\n', 'The plant has 4 signals, and a machine is made for at most 3'),
            (sluice, array, 'The plant has 4 signals'),
            (turbine, 'refused=15 place=0\n', 'Refusal 15: a machine with too many rows'),
            (turbine, 'refused=5 place=2\n', 'rule.txt, line 1, column 3'),
            (turbine, 'refused=14 place=0\n', 'Refusal 14'),
            (turbine, '', 'is no output of the program `machine`: it has no array'),
            (turbine, 'start verdict=true left=1\n', 'it has no array'),
            (turbine, array, 'it has 140 bytes, and a row of 3 signals has 56'),
            (folder_of('door'), array, 'it has 140 bytes, and a row of 1 signal has 8'),
            (three, 'unsigned char m[20] = { %s };' % row.replace('0', '4', 1), 'its row 0 has a verdict above 3'),
            (three, 'unsigned char m[20] = { %s1 };' % row[:-1], 'leads to a row that is not there'),
            (three, 'unsigned char m[20] = { %s };' % row.replace('0', '256', 1), '256, which is no byte'),
            (three, 'unsigned char m[20] = { 0, 9%s };' % row[4:], 'leaves more states than the plant has')):
        asked(1, phrase, folder, page, *output(text))
    asked(0, 'try: ', three, page, *output('rows=1\n// a row\nconst uint8_t m[1][20] = { { 0x00, /* 7 */ 0x1u, %s, }, };\n' % row[6:]))
    os.remove(page)
    asked(1, 'there is no folder', os.path.join(room, 'nowhere'), page)
    asked(1, 'a folder and the name of a page are needed', turbine)
    asked(1, 'a folder and the name of a page are needed', turbine, page, '--lamps', said)
    asked(1, 'said.txt can\'t be read', turbine, page, '--machine', os.path.join(room, 'no', 'said.txt'))
    asked(1, 'can\'t be written', turbine, os.path.join(room, 'no', 'page.html'), '--machine', recorded('turbine'))
    asked(0, 'usage: tools/try FOLDER PAGE.html', '--help')
    if program.is_built('machine'):
        asked(1, 'The plant has 4 signals', sluice, page)
    else:
        asked(1, 'tools/build machine', turbine, page)
    if os.path.exists(page):
        fail('a page is written where there is no machine')


def main():
    with tempfile.TemporaryDirectory() as room:
        events = sum(try_plant(name, room) for name in PLANTS)
        try_planted(room)
        try_names(room)
        try_refused(room)
    by = 'the machines are those of the program' if program.is_built('machine') else 'the program `machine` is not built: the machines are those that are kept'
    print('try: pages of %d plants hold their machines, and looking up gives the lamps of `watch` at %s events; %s' % (len(PLANTS), '{:,}'.format(events), by))


if __name__ == '__main__':
    main()
