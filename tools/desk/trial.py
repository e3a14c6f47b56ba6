"""A page on which a plant is tried: a person clicks what is seen, and the page looks the next row up in the machine's bytes. It is meant for a
telephone, a desk and the keyboard; it needs no network, and no colour stands without a sign. The page works nothing out: its script, trial.js, has
one line that goes from a row to the next."""
import json
import os

from desk.lamps import MEANS, SIGNS
from desk.machine import VERDICTS
from desk.page import STYLE, Page
from desk.picture import quote
from desk.program import Shown
from desk.trouble import counted
from desk.words import quoted

# A browser that reads this asks for nothing from elsewhere, whatever stands in the page.
ALONE = "default-src 'none';style-src 'unsafe-inline';script-src 'unsafe-inline'"
WAYS = (('unseen', 'not seen'), ('on', '● on'), ('off', '○ off'))


def beside(name):
    """A file that goes into the page as it stands."""
    with open(os.path.join(os.path.dirname(os.path.abspath(__file__)), name), encoding='utf-8') as file:
        return file.read()


def folded(title, body):
    return '<details><summary>%s</summary>%s</details>' % (title, body)


class Trial:
    """What the page shows: a plant with its names and its rule, and its machine."""

    def __init__(self, title, rule, tree, table, names, machine):
        self.title, self.table, self.names, self.machine = title, table, names, machine
        self.drawn = Page(title, rule, Shown(None, [], None), '', table, names, tree)

    def html(self):
        now = '<div class="now">%s%s</div>' % (self.status(), self.event())
        parts = [self.drawn.head(), now, self.events(), self.log(), folded('The plant', self.drawn.plant()), self.grounds(), self.data()]
        return '\n'.join([
            '<!doctype html>', '<html lang="en"><head><meta charset="utf-8">', '<meta name="viewport" content="width=device-width,initial-scale=1">',
            '<meta name="color-scheme" content="light dark">', '<meta http-equiv="Content-Security-Policy" content="%s">' % ALONE,
            '<title>%s</title>' % quote(self.title), '<style>%s%s</style></head>' % (STYLE, beside('trial.css')),
            '<body><main>%s</main>' % '\n'.join(parts), '<script>\n%s</script></body></html>' % beside('trial.js'), ''])

    def status(self):
        """The lamp. Its first part is told by a screen reader whenever it changes."""
        told = '<div role="status"><p class="soft" id="when"></p><p id="lamp"></p><p id="left"></p></div>'
        return '<div class="status">%s<div class="bar" aria-hidden="true"><span id="share"></span></div><p class="soft" id="means"></p></div>' % told

    # ---- what is clicked ----

    def event(self):
        return '<section><h2>What is seen next?</h2><form>%s%s%s</form>%s%s</section>' % (
            ''.join(self.signal(k, name) for k, name in enumerate(self.names.signal)),
            '<label class="restart"><input type="checkbox" name="restart">restart: judge the rule anew from this event on <kbd>n</kbd></label>', self.buttons(),
            '<p class="soft keys-only">Keys: %s through not seen, on and off.</p>' % ('1 goes' if self.table.props == 1 else '1 to %d go' % self.table.props),
            '<noscript><p><b>This page needs its script, and the browser does not run it.</b></p></noscript>')

    def signal(self, k, name):
        ways = ''.join('<label><input type="radio" name="p%d" value="%s"%s>%s</label>' % (k, way, ' checked' if way == 'unseen' else '', words) for way, words in WAYS)
        return '<fieldset><legend>%s <kbd>%d</kbd></legend><div class="ways">%s</div></fieldset>' % (quote(name), k + 1, ways)

    def buttons(self):
        return '<div class="buttons">%s%s%s</div>' % (
            '<button class="main">Take this event <kbd>Enter</kbd></button>', '<button type="button" id="undo">↶ Undo <kbd>u</kbd></button>',
            '<button type="button" id="over">⟲ Start over <kbd>s</kbd></button>')

    # ---- what was clicked ----

    def events(self):
        head = ''.join('<th>%s</th>' % word for word in ('event', 'lamp', 'left', 'seen'))
        return '<section><h2>Events so far</h2><p class="soft">The last one stands first.</p>%s</section>' % (
            '<table class="log"><thead><tr>%s</tr></thead><tbody id="events"></tbody></table>' % head)

    def log(self):
        texts = (('seen', 'In names, for a file seen.txt beside words.txt:', 'the events in names'), ('log', 'As the programs read them, for a file log.txt beside this plant:', 'the events as lines of a log'))
        return folded('These events as a log', ''.join(
            '<p>%s</p><textarea id="%s" readonly aria-label="%s"></textarea><p><button type="button" id="copy-%s">Copy</button> <span id="copied-%s" role="status"></span></p>' % (
                words, name, label, name, name) for name, words, label in texts) + '<p class="soft">With either of them <code>watch</code> shows the same lamps.</p>')

    # ---- the machine ----

    def grounds(self):
        words = 'The program <code>machine</code> made a table of this plant and this rule: %s, the fewest that answer as the box does, each with its lamp, its ' \
            'number of states left, and for each of the %d events that there are the row behind it. The page holds that table. A click looks up the next row; ' \
            'nothing is worked out here, and nothing leaves this page.' % (counted(len(self.machine.rows), 'row'), len(self.machine.columns))
        return folded('Where the lamps come from', '<p>%s</p><p>Row now: <b id="row"></b>.</p>' % words)

    def data(self):
        """The machine's bytes, a row a line in hexadecimal digits, and the words for what they say."""
        told = {
            'props': self.table.props, 'states': self.table.states, 'signals': self.names.signal, 'quoted': [quoted(name) for name in self.names.signal],
            'verdicts': [[v, SIGNS[v], MEANS[v][0].upper() + MEANS[v][1:] + '.'] for v in VERDICTS], 'rows': [row.hex() for row in self.machine.rows]}
        return '<script type="application/json" id="machine">%s</script>' % json.dumps(told, indent=0).replace('<', '\\u003c')
