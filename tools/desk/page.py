"""A plant and the lamps of its log as one page: the outcome first, then what changed, the drawing, the states, the log. It is meant to be read on a
telephone and to be printed; it needs no network, and no colour stands without a sign."""
import re

from desk import doctor, graph, rules, texts
from desk.lamps import MEANS, SIGNS, changes, stretches
from desk.picture import SETS, Drawing, quote
from desk.trouble import counted, listed
from desk.words import in_rule

WHOLE = 60            # a log of so many events is shown whole; of a longer one the changes
MOST = 150            # and of these so many at either end
LINES = 64            # a day sheet has so many stretches

STYLE = '''
:root{--paper:#fff;--desk:#eef1f5;--ink:#1c2632;--soft:#5a6675;--line:#7d8997;--hair:#d9dfe6;--box:#f1f5fa;--edge:#8694a5;--ghost:#727d89;--dark:#24405f;--on-dark:#fff;
--true:#1d7f46;--false:#bf2b2b;--inconclusive:#8a5a00;--out-of-model:#5d6672;--set:#6a3fb5}
@media (prefers-color-scheme:dark){:root{--paper:#171d25;--desk:#0d1117;--ink:#e8edf3;--soft:#a5b1bf;--line:#8795a6;--hair:#36414e;--box:#222c38;--edge:#8c9aab;--ghost:#909ca8;--dark:#a9cdf3;--on-dark:#0f1620;
--true:#55c487;--false:#ff8b84;--inconclusive:#f0b84c;--out-of-model:#a9b3bf;--set:#c3a4ff}}
@media print{:root{--paper:#fff;--desk:#fff;--ink:#000;--soft:#333;--line:#555;--hair:#bbb;--box:#fff;--edge:#444;--ghost:#666;--dark:#000;--on-dark:#fff;--true:#0b5a2d;--false:#9d1313;--inconclusive:#6a4500;--out-of-model:#444;--set:#3f2180}}
*{box-sizing:border-box}
body{margin:0;background:var(--desk);color:var(--ink);font:16px/1.45 "Noto Sans","DejaVu Sans",system-ui,sans-serif;overflow-wrap:anywhere}
main{max-width:1180px;margin:0 auto;padding:20px 16px 40px}
h1{font-size:1.45rem;line-height:1.25;margin:0 0 .4rem}h2{font-size:1.05rem;margin:0 0 .6rem}p{margin:.4rem 0}
section{background:var(--paper);border:1px solid var(--hair);border-radius:12px;padding:16px 18px;margin:14px 0}
code,pre{font-family:"DejaVu Sans Mono",ui-monospace,monospace;font-size:.92em}pre{overflow-x:auto;white-space:pre}
.soft{color:var(--soft);font-size:.9rem}
.lamp{display:inline-flex;align-items:center;gap:.45em;font-weight:700;white-space:nowrap}
.lamp i{display:inline-grid;place-items:center;width:1.55em;height:1.55em;border-radius:50%;background:currentColor;font-style:normal;flex:none}.lamp i b{color:var(--paper);line-height:1}
.true{color:var(--true)}.false{color:var(--false)}.inconclusive{color:var(--inconclusive)}.out-of-model,.refused{color:var(--out-of-model)}.refused{color:var(--false)}
.outcome{border-width:2px}.outcome .big .lamp{font-size:1.5rem}.outcome li{margin:.3rem 0}
.bar{display:flex;height:26px;border-radius:6px;overflow:hidden;margin:.7rem 0 .3rem}.bar span{display:grid;place-items:center;min-width:2px;background:currentColor;border-right:1px solid var(--paper)}.bar b{color:var(--paper);font-size:.8rem}
.scroll{overflow-x:auto}
svg{display:block;max-width:100%;height:auto;margin:0 auto}svg.plant{min-width:calc(.6*var(--wide))}svg text{font-family:"Noto Sans","DejaVu Sans",system-ui,sans-serif;fill:var(--ink)}
.state rect,.state .bead{fill:var(--box);stroke:var(--edge);stroke-width:1.3}.state.start rect,.state.start .bead{stroke:var(--ink);stroke-width:2.6}
.state.now rect,.state.now .bead{stroke:var(--dark);stroke-width:4}.state.ghost rect,.state.ghost .bead{fill:none;stroke:var(--ghost);stroke-dasharray:5 4}.state.ghost text{fill:var(--ghost)}
.name{font-size:14px;font-weight:700}.on{font-size:11.5px}.state .on{fill:var(--soft)}.mark{font-size:11.5px;font-weight:700}.ray{font-size:12px}.bead-text{font-size:10px;font-weight:700}
circle.number{fill:var(--ink)}svg .number-text{font-size:11px;font-weight:700;fill:var(--paper)}.state.ghost circle.number{fill:var(--ghost)}.state.ghost .number-text{fill:var(--paper)}
circle.set{fill:var(--paper);stroke:var(--set);stroke-width:2}svg .set-name{font-size:11px;font-weight:700;fill:var(--set)}
.move,.begin{fill:none;stroke:var(--line);stroke-width:1.4}.begin{stroke:var(--ink);stroke-width:2.2}.move.ghost{stroke:var(--hair);stroke-dasharray:4 4}.tip{fill:var(--line)}
ul.keys{display:flex;flex-wrap:wrap;gap:4px 22px;margin:.7rem 0 0;padding:0;list-style:none;font-size:.88rem;color:var(--soft)}ul.keys b{color:var(--ink)}
table{border-collapse:collapse;width:100%}th{text-align:left;white-space:nowrap;font-size:.82rem;color:var(--soft);font-weight:600}th,td{padding:5px 10px 5px 0;border-bottom:1px solid var(--hair);vertical-align:top}
td.n{white-space:nowrap;font-variant-numeric:tabular-nums}tr.ghost td{color:var(--ghost)}tr.many td{color:var(--soft);font-size:.9rem}
.chip{display:inline-block;border:1px solid var(--edge);border-radius:9px;padding:0 .5em;margin:1px 0;font-size:.88rem}.chip+.chip{margin-left:3px}.narrow{display:none}.chip.yes{background:var(--dark);color:var(--on-dark);border-color:var(--dark)}
@media (max-width:640px){body{font-size:15px}.narrow{display:block}svg.plant{min-width:calc(.85*var(--wide))}main{padding:12px 8px 28px}section{padding:12px 11px}
table.log,table.log tbody{display:block}table.log thead{display:none}table.log tr{display:grid;grid-template-columns:auto 1fr auto;gap:2px 10px;padding:7px 0;border-bottom:1px solid var(--hair)}table.log td{border:0;padding:0}table.log td.saw{grid-column:1/-1}
table.states,table.states tbody{display:block}table.states thead{display:none}table.states tr{display:block;padding:7px 0;border-bottom:1px solid var(--hair)}table.states td{display:block;border:0;padding:0}table.states td.n,table.states td.n+td{display:inline;margin-right:.5em}table.states td[data-k]:before{content:attr(data-k) " ";color:var(--soft)}}
@media print{body{font-size:10.5pt}main{max-width:none;padding:0}section{border-color:#999;padding:8pt 10pt;margin:8pt 0;break-inside:avoid}section.long{break-inside:auto}.narrow{display:none}tr,li{break-inside:avoid}h2{break-after:avoid}.scroll{overflow:visible}svg.plant{min-width:0!important;max-height:22cm}
.lamp i,.bar span,.chip.yes{-webkit-print-color-adjust:exact;print-color-adjust:exact}}
'''


def lamp(verdict):
    return '<span class="lamp %s"><i><b>%s</b></i>%s</span>' % (verdict, SIGNS[verdict], verdict)


def named(text):
    """Words of the tools, in which names stand between backquotes."""
    return re.sub('`([^`]*)`', r'<b>“\1”</b>', quote(text))


class Page:
    """What a page shows. `shown` is what the program said; there is no table where plant.txt itself is refused."""

    def __init__(self, title, rule, shown, refusal, table=None, names=None, tree=None, events=()):
        self.title, self.rule, self.shown, self.refusal = title, rule, shown, refusal
        self.table, self.names, self.tree, self.events = table, names, tree, list(events)
        self.lamps = [shown.start] + shown.lamps if shown.start else []
        self.numbers = texts.numbers(self.events)
        self.where = graph.where(table, self.events[:len(shown.lamps)]) if table and shown.start else []

    def html(self):
        parts = [self.head(), self.outcome()]
        if self.shown.lamps:
            parts.append(self.day())
        if self.table:
            parts += [self.plant(), self.advice(), self.states()]
        if self.lamps:
            parts.append(self.log())
        head = '<meta charset="utf-8"><meta name="viewport" content="width=device-width,initial-scale=1"><meta name="color-scheme" content="light dark">'
        return '<!doctype html>\n<html lang="en"><head>%s<title>%s</title><style>%s</style></head><body><main>%s</main></body></html>\n' % (
            head, quote(self.title), STYLE, '\n'.join(parts))

    def head(self):
        words = '<p>Rule: <b>%s</b></p>' % quote(rules.in_words(self.tree, lambda k: in_rule(self.names.signal[k]))) if self.tree else ''
        return '<h1>%s</h1>%s<p class="soft">In the box\'s signs: <code>%s</code></p>' % (quote(self.title), words, quote(self.rule))

    # ---- the outcome ----

    def called(self, k):
        return 'the start' if k == 0 else 'event %d' % self.numbers[k - 1]

    def state_names(self, states):
        return listed(('<b>%s</b>' % quote(self.names.state[s]) for s in sorted(states)), 'or') or 'nowhere'

    def because(self, k):
        """What event k showed, and what that left."""
        if k == 0:
            return 'The plant alone says so, before any event.'
        restart = 'A restart: the rule is judged anew from here. ' if self.events[k - 1].new and k > 1 else ''
        before = ''
        if len(self.where[k - 1]) <= 8:
            gap = texts.lost(self.events)[k - 1]
            before = '<br>Before it%s the plant could be in %s' % (' (and before %s)' % counted(gap, 'lost event') if gap > 0 and k > 1 else '', self.state_names(self.where[k - 1]))
            if not self.where[k]:
                before += ', and no way from there shows this'
            elif len(self.where[k]) <= 8:
                before += ', then in %s' % self.state_names(self.where[k])
            before += '.'
        return '%sSeen: %s%s' % (restart, self.saw(self.events[k - 1]), before)

    def outcome(self):
        refused = self.told_refusal() if self.refusal else ''
        if not self.lamps:
            return '<section class="outcome"><h2>Refused</h2>%s</section>' % refused
        last, turns = self.lamps[-1], changes(self.lamps)
        out = [refused + '<h2>Up to there</h2>' if refused else '', '<p class="big">%s</p><p>%s.</p>' % (lamp(last.verdict), MEANS[last.verdict][0].upper() + MEANS[last.verdict][1:])]
        out.append('<p>So since <b>%s</b>. %s</p>' % (self.called(turns[-1]), self.because(turns[-1])))
        if last.left and last.left <= 12:
            out.append('<p>At the %s the plant can be in %s.</p>' % ('last event that was taken' if refused else 'end of the log', self.state_names(self.where[-1])))
        extras = '; ' + self.extras() if self.extras() else ''
        out.append('<p class="soft">%s; %s of the lamp%s. The lamps are the proved program\'s; in which states the plant can be is worked out by the drawing tool.</p>' % (
            counted(len(self.events), 'event'), counted(len(turns) - 1, 'change'), extras))
        return '<section class="outcome"><h2>Outcome</h2>%s%s%s</section>' % (''.join(out), self.bar(), self.turns(turns))

    def told_refusal(self):
        """A refusal in words: the line with its caret as it stands, the rest as it fits the page."""
        lines = self.refusal.split('\n')
        caret = max([k for k, line in enumerate(lines) if line.strip() == '^'], default=0)
        rest = ''.join('<p>%s</p>' % named(line) for line in lines[caret + 1:] if line)
        return '<p class="lamp refused"><i><b>!</b></i>refused by %d</p><pre>%s</pre>%s' % (self.shown.refused[0], quote('\n'.join(lines[:caret + 1])), rest)

    def extras(self):
        restarts, missing = sum(e.new for e in self.events[1:]), sum(max(0, gap) for gap in texts.lost(self.events[:len(self.shown.lamps)]))
        return ', '.join(counted(n, word) for n, word in ((restarts, 'restart'), (missing, 'lost event')) if n)

    def bar(self):
        """The lamps of the whole log as one bar."""
        spans, total, ends = [], len(self.lamps), changes(self.lamps)[1:] + [len(self.lamps)]
        for k, end in zip(changes(self.lamps), ends):
            verdict = self.lamps[k].verdict
            sign = '<b>%s</b>' % SIGNS[verdict] if (end - k) / total > 0.04 else ''
            spans.append('<span class="%s" style="flex:%d" title="%s to %s: %s">%s</span>' % (verdict, end - k, self.called(k), self.called(end - 1), verdict, sign))
        return '<div class="bar" aria-hidden="true">%s</div>' % ''.join(spans) if total > 1 else ''

    def turns(self, found):
        """The changes of the lamp before the last one."""
        if len(found) < 3:
            return ''
        shown = found[:-1] if len(found) <= 13 else found[-13:-1]
        rows = ['<li>%s since <b>%s</b>. %s</li>' % (lamp(self.lamps[k].verdict), self.called(k), self.because(k)) for k in reversed(shown)]
        more = '<li>and %d more before</li>' % (len(found) - 1 - len(shown)) if len(found) - 1 > len(shown) else ''
        return '<p>Before that:</p><ul>%s%s</ul>' % (''.join(rows), more)

    # ---- the day ----

    def day(self):
        """The stretches between restarts, as the day sheet has them."""
        found = stretches(self.events, self.numbers, self.shown.lamps)
        rows = []
        for line in found[:LINES]:
            decided = 'never true or false' if line.decided is None else 'true or false for the first time at event %d' % line.decided
            told = 'first=%d events=%d verdict=%s decided=%s' % (line.first, line.events, line.verdict, '-' if line.decided is None else line.decided)
            rows.append('<li data-stretch="%s">from event %d on, %s: %s<br><span class="soft">%s</span></li>' % (
                told, line.first, counted(line.events, 'event'), lamp(line.verdict), decided))
        more = '<p class="soft">And %s more: a day sheet has %d lines.</p>' % (counted(len(found) - LINES, 'stretch', 'stretches'), LINES) if len(found) > LINES else ''
        note = '<p class="soft">A stretch begins with the first event and with each restart. Lost events are counted; the lamp is that of the last event.</p>'
        return '<section><h2>The day, from restart to restart</h2>%s<ul class="day">%s</ul>%s</section>' % (note, ''.join(rows), more)

    # ---- the plant ----

    def plant(self):
        now = self.where[-1] if self.where else ()
        drawing = Drawing(self.table, self.names, now)
        keys = ['<b>▶ start</b>, thick border: the plant may begin here']
        keys += ['<b>(%s)</b> %s: every run is again and again in one of these states' % (SETS[j], quote(self.names.fair[j])) for j in range(len(self.table.fair))]
        keys += ['<b>◉ now</b>: the plant can be here at the last event'] if now else []
        keys += ['<b>∅ no run</b>, grey, dashed: no run visits it'] if len(drawing.visited) < self.table.states else []
        hint = '<p class="soft narrow">Push it sideways where it is wider than the screen.</p>'
        return '<section><h2>The plant</h2>%s<div class="scroll">%s</div><ul class="keys">%s</ul></section>' % (hint, drawing.svg(), ''.join('<li>%s</li>' % k for k in keys))

    def advice(self):
        found = doctor.advice(self.table, self.names, self.tree, self.shown.start.verdict if self.shown.start else None) if self.tree else []
        if not found:
            return ''
        rows = ''.join('<li><b>%s.</b> %s</li>' % (named(f.title), named(f.text)) for f in found)
        return '<section><h2>Advice on the plant</h2><p class="soft">Worked out by the drawing tool, and not proved.</p><ul>%s</ul></section>' % rows

    def states(self):
        table, names, visited = self.table, self.names, graph.visited(self.table)
        rows = []
        for s in range(table.states):
            signs = ((' ▶ start', s in table.start), (' ◉ now', bool(self.where) and s in self.where[-1]), (' ∅ no run', s not in visited))
            marks = ''.join(sign for sign, holds in signs if holds)
            marks += ''.join(' (%s)' % SETS[j] for j, fair in enumerate(table.fair) if s in fair)
            rows.append('<tr%s><td class="n">%d</td><td><b>%s</b>%s</td><td data-k="on:">%s</td><td data-k="leads to:">%s</td></tr>' % (
                '' if s in visited else ' class="ghost"', s, quote(names.state[s]), marks, quote(' · '.join(names.signal[p] for p in sorted(table.label[s])) or 'nothing'),
                quote(' · '.join(names.state[t] for t in sorted(table.next[s])) or 'nowhere')))
        head = '<tr><th></th><th>state</th><th>signals that are on</th><th>leads to</th></tr>'
        return '<section class="long"><h2>Its states</h2><table class="states"><thead>%s</thead><tbody>%s</tbody></table></section>' % (head, ''.join(rows))

    # ---- the log ----

    def saw(self, event):
        chips = []
        for p in texts.members(event.see):
            yes = event.val >> p & 1
            name = self.names.signal[p] if p < self.table.props else 'p%d' % p
            chips.append('<span class="chip%s">%s %s</span>' % (' yes' if yes else '', '●' if yes else '○', quote(name)))
        return ''.join(chips) or 'nothing'

    def row(self, k):
        event, missing = self.events[k - 1] if k else None, texts.lost(self.events)[k - 1] if k else 0
        notes = '<b>restart</b> ' if event and event.new else ''
        notes += '<b>+%d lost before it</b> ' % missing if missing > 0 and k <= len(self.shown.lamps) else ''
        heading = 'start' if k == 0 else str(self.numbers[k - 1])
        if k >= len(self.lamps):
            return '<tr class="refused-row"><td class="n">%s</td><td><span class="lamp refused"><i><b>!</b></i>refused by %d</span></td><td></td><td class="saw">%s%s</td></tr>' % (heading, self.shown.refused[0], notes, self.saw(event))
        shown = self.lamps[k]
        return '<tr data-lamp="%s %d"><td class="n">%s</td><td>%s</td><td class="n" title="states where the plant can be">%d left</td><td class="saw">%s%s</td></tr>' % (
            shown.verdict, shown.left, heading, lamp(shown.verdict), shown.left, notes, self.saw(event) if event else 'before any event')

    def stretch(self, first, last):
        """Events between two changes, told in one row."""
        lefts = [self.lamps[k].left for k in range(first, last + 1)]
        left = '%d left' % lefts[0] if min(lefts) == max(lefts) else '%d to %d left' % (min(lefts), max(lefts))
        return '<tr class="many"><td class="n">..</td><td>%s, %s</td><td class="n">%s</td><td class="saw">%s to %s</td></tr>' % (
            self.lamps[first].verdict, counted(last - first + 1, 'event'), left, self.called(first), self.called(last))

    def chosen(self):
        """The rows that are shown: all of a short log, of a longer one the start, the changes, restarts, gaps and the end, with the event before each change."""
        last = len(self.lamps) - 1
        if last <= WHOLE:
            return list(range(last + 1)), False
        gaps = texts.lost(self.events)
        told = {0, last} | set(changes(self.lamps)) | {k - 1 for k in changes(self.lamps)[1:]} | {k for k in range(1, last + 1) if self.events[k - 1].new or gaps[k - 1] > 0}
        return sorted(told), True

    def log(self):
        told, short = self.chosen()
        cut = told[MOST:-MOST] if len(told) > 2 * MOST else []
        rows, before = [], -1
        for k in told if not cut else told[:MOST] + told[-MOST:]:
            if before >= 0 and k > before + 1:
                rows.append(self.stretch_between(before + 1, k - 1))
            rows.append(self.row(k))
            before = k
        if self.shown.refused and len(self.lamps) <= len(self.events):
            rows.append(self.row(len(self.lamps)))
            rest = len(self.events) - len(self.lamps)
            rows += ['<tr class="many"><td></td><td>%s not looked at</td><td></td><td class="saw"></td></tr>' % counted(rest, 'event')] if rest else []
        note = '<p class="soft">%s; shown are the changes of the lamp, restarts, gaps and the event before each change.</p>' % counted(len(self.events), 'event') if short else ''
        keys = ('<li><span class="chip yes">● name</span> seen on</li><li><span class="chip">○ name</span> seen off</li><li>what is not named was not seen</li>'
                '<li><b>left</b>: states where the plant can be</li>')
        head = '<tr><th>event</th><th>lamp</th><th>left</th><th>seen</th></tr>'
        return '<section class="long"><h2>The log and its lamps</h2>%s<table class="log"><thead>%s</thead><tbody>%s</tbody></table><ul class="keys">%s</ul></section>' % (note, head, ''.join(rows), keys)

    def stretch_between(self, first, last):
        verdicts = {self.lamps[k].verdict for k in range(first, last + 1)}
        if len(verdicts) == 1:
            return self.stretch(first, last)
        return '<tr class="many"><td class="n">..</td><td>%s with changes</td><td></td><td class="saw">%s to %s</td></tr>' % (counted(last - first + 1, 'event'), self.called(first), self.called(last))
