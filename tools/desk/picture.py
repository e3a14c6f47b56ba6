"""The plant as a drawing (SVG). Colours are classes, so that a page can have others in the dark and on paper; each colour has a sign beside it."""
import html
import math
import unicodedata

from desk import graph

BOX_W, GAP_X, GAP_Y, LINE_H, TOP = 150, 58, 46, 15, 22
NAME, SMALL, RAY = 14, 10.4, 11.2          # how wide an em is: of a name in bold, of the signals below it, of a name on a ray
MOST_LINES, LONGEST = 3, 220               # of a name in a box the most lines, of one on a ray how long it may be
EMS = {"iljI.,;:'|! ": 0.36, 'frt-()/': 0.48, 'mwMW@%': 1.0}
SETS = 'abcd'
TIP = ('<marker id="tip" viewBox="0 0 10 10" refX="9" refY="5" markerWidth="10" markerHeight="10" markerUnits="userSpaceOnUse" orient="auto">'
       '<path class="tip" d="M0,0.8 L10,5 L0,9.2 z"/></marker>')


def quote(text):
    return html.escape(str(text), quote=True)


def text_at(x, y, text, kind, anchor='middle', extra=''):
    return '<text x="%.1f" y="%.1f" class="%s" text-anchor="%s"%s>%s</text>' % (x, y, kind, anchor, extra, quote(text))


def ems(text):
    """About how wide a text is, in ems of a sans-serif bold: no browser is asked."""
    return sum(one_em(character) for character in text)


def one_em(character):
    if unicodedata.east_asian_width(character) in 'WF':
        return 1.0
    return next((wide for among, wide in EMS.items() if character in among), 0.8 if character.isupper() else 0.67)


def fitting(text, most):
    """As many letters of a text as are at most so wide, one at least."""
    return next((k for k in range(1, len(text)) if ems(text[:k + 1]) > most), len(text))


def pieces(word, most):
    """A word, or the parts of one that is too wide for a line, with a dash where letters are parted."""
    found = []
    while ems(word) > most:
        at = fitting(word, most - EMS['frt-()/'])
        found.append(word[:at] + ('-' if word[at - 1].isalpha() and ems(word[at - 1]) < 1 else ''))
        word = word[at:]
    return found + [word]


def wrapped(text, wide, em, most):
    """A text in lines that are at most so wide; what is too much is cut, with a sign."""
    lines, room = [''], wide / em
    for piece in (piece for word in text.split() for piece in pieces(word, room)):
        if lines[-1] and ems(lines[-1] + ' ' + piece) > room:
            lines.append('')
        lines[-1] += (' ' if lines[-1] else '') + piece
    if len(lines) <= most:
        return lines
    return lines[:most - 1] + [lines[most - 1][:fitting(lines[most - 1], room - 1)].rstrip(' -·') + '…']


class Drawing:
    """A plant to be drawn, and the states in which it can be now."""

    def __init__(self, table, names, now=()):
        self.table, self.names, self.now = table, names, set(now)
        self.visited = graph.visited(table)
        self.columns, self.beyond = layers(table)
        self.crowded = max([len(c) for c in self.columns] + [len(self.beyond)]) > 7 or table.states > 24 or len(self.columns) > 9 or not self.columns

    def lines(self, s):
        """What stands in a state's box: its name, and the signals that are on."""
        on = ' · '.join(self.names.signal[p] for p in sorted(self.table.label[s]))
        return wrapped(self.names.state[s], BOX_W - 12, NAME, MOST_LINES), wrapped(on or '(nothing on)', BOX_W - 12, SMALL, MOST_LINES)

    def high(self, s):
        name, on = self.lines(s)
        return TOP + 3 + LINE_H * (len(name) + len(on))

    def kind(self, s):
        return ' '.join(['state'] + ['start'] * (s in self.table.start) + ['ghost'] * (s not in self.visited) + ['now'] * (s in self.now))

    def title(self, s):
        """All that is known of a state, for a pointer that rests on it."""
        table, names = self.table, self.names
        on, to = ', '.join(names.signal[p] for p in sorted(table.label[s])), ', '.join(names.state[t] for t in sorted(table.next[s]))
        out = ['%d %s' % (s, names.state[s]), 'on: %s' % (on or 'nothing'), 'leads to: %s' % (to or 'nowhere')]
        return '; '.join(out + ['no run visits it'] * (s not in self.visited))

    def svg(self):
        body, (x, y, wide, high) = circle(self) if self.crowded else in_columns(self)
        head = '<svg class="plant" viewBox="%.0f %.0f %.0f %.0f" width="%.0f" style="--wide:%.0fpx" role="img" ' % (x, y, wide, high, wide, wide)
        return '%saria-label="the plant: states and what may follow what"><defs>%s</defs>%s</svg>' % (head, TIP, body)


def layers(table):
    """States by their distance from a starting state; those out of reach apart."""
    far, queue = {s: 0 for s in table.start}, sorted(table.start)
    for s in queue:
        for t in sorted(table.next[s]):
            if t not in far:
                far[t] = far[s] + 1
                queue.append(t)
    rows = [[s for s in range(table.states) if far.get(s) == d] for d in range(max(far.values(), default=-1) + 1)]
    return rows, [s for s in range(table.states) if s not in far]


def ordered(columns, table):
    """Puts the states of a column near those that lead to them."""
    place = {s: i for c in columns for i, s in enumerate(c)}
    for _ in range(6):
        for column, before in zip(columns[1:], columns):
            def pull(s, before=before):
                here = [place[p] - len(before) / 2 for p in before if s in table.next[p]]
                return (sum(here) / len(here) if here else 0, s)
            column.sort(key=pull)
            place.update((s, i) for i, s in enumerate(column))
    return columns


# ---- in columns ----

def placed(drawing):
    """The middle of each box, and the size of the whole."""
    columns = ordered(drawing.columns + ([drawing.beyond] if drawing.beyond else []), drawing.table)
    tall = [sum(drawing.high(s) + GAP_Y for s in column) for column in columns]
    centre = {}
    for i, column in enumerate(columns):
        y = 70 + (max(tall) - tall[i]) / 2
        for s in column:
            centre[s] = (62 + BOX_W / 2 + i * (BOX_W + GAP_X), y + drawing.high(s) / 2)
            y += drawing.high(s) + GAP_Y
    return centre, 124 + BOX_W + (len(columns) - 1) * (BOX_W + GAP_X)


def curve(*points):
    return 'M%.1f,%.1f C%.1f,%.1f %.1f,%.1f %.1f,%.1f' % points


def forward(a, b, high):
    """The path of a move to the same box, to the right, or within a column."""
    (x, y), (u, v) = a, b
    if a == b:
        left, top = x + BOX_W / 2 - 34, y - high / 2
        return curve(left, top, left - 6, top - 30, left + 32, top - 30, left + 22, top - 1)
    if u > x:
        x, u = x + BOX_W / 2, u - BOX_W / 2 - 2
        far = u - x > BOX_W + GAP_X
        bend, lift = (u - x) / 2 + (40 if far else 0), -70 if far else 0
        return curve(x, y, x + bend, y + lift, u - bend, v + lift, u, v)
    side = x + BOX_W / 2
    return curve(side, y + 10, side + 46, y + 10, side + 46, v - 10, side + 2, v - 10)


def rounded(points, r=12):
    """A path of straight pieces with round corners."""
    path = ['M%.1f,%.1f' % points[0]]
    for (x, y), (u, v), (w, z) in zip(points, points[1:], points[2:]):
        a, b = math.hypot(u - x, v - y) or 1, math.hypot(w - u, z - v) or 1
        c, d = min(r, a / 2), min(r, b / 2)
        path.append('L%.1f,%.1f Q%.1f,%.1f %.1f,%.1f' % (u - (u - x) / a * c, v - (v - y) / a * c, u, v, u + (w - u) / b * d, v + (z - v) / b * d))
    path.append('L%.1f,%.1f' % points[-1])
    return ' '.join(path)


def backward(a, b, heights, lane, up, free):
    """The path of a move to the left, along a lane above or below all boxes. `free` says for each end whether nothing stands between the box and the lane;
    if something does, the path goes through the gap beside the column."""
    (x, y), (u, v) = a, b
    out_y, in_y = (-heights[0] / 2, -heights[1] / 2 - 2) if up else (heights[0] / 2, heights[1] / 2 + 2)
    out = [(x - 24, y + out_y), (x - 24, lane)] if free[0] else [(x + BOX_W / 2, y + 18), (x + BOX_W / 2 + 18, y + 18), (x + BOX_W / 2 + 18, lane)]
    into = [(u + 14, lane), (u + 14, v + in_y)] if free[1] else [(u - BOX_W / 2 - 20, lane), (u - BOX_W / 2 - 20, v + 18), (u - BOX_W / 2 - 2, v + 18)]
    return rounded(out + into)


def badges(drawing, s, x, y, step):
    """The fairness sets of a state: each a letter in a ring, in turn, the last one at this place."""
    letters = [SETS[j] for j, fair in enumerate(drawing.table.fair) if s in fair]
    spots = [x - step * k for k in reversed(range(len(letters)))]
    return ''.join('<circle class="set" cx="%.1f" cy="%.1f" r="8"/>%s' % (at, y, text_at(at, y + 3.5, letter, 'set-name')) for at, letter in zip(spots, letters))


def box(drawing, s, centre):
    x, y = centre
    high = drawing.high(s)
    left, top = x - BOX_W / 2, y - high / 2
    name, on = drawing.lines(s)
    out = ['<g class="%s"><title>%s</title><rect x="%.1f" y="%.1f" width="%d" height="%.1f" rx="12"/>' % (drawing.kind(s), quote(drawing.title(s)), left, top, BOX_W, high)]
    row = top + TOP                      # below the number, which stands on the corner
    for kind, lines in (('name', name), ('on', on)):
        for line in lines:
            out.append(text_at(x, row, line, kind))
            row += LINE_H
    out.append('<circle class="number" cx="%.1f" cy="%.1f" r="11"/>%s' % (left, top, text_at(left, top + 4, s, 'number-text')))
    out.append(badges(drawing, s, left + BOX_W - 12, top + high, 19))
    if s in drawing.table.start:
        out.append('<path class="begin" d="M%.1f,%.1f L%.1f,%.1f" marker-end="url(#tip)"/>%s' % (left - 46, y, left - 4, y, text_at(left - 48, y - 8, 'start', 'mark', 'start')))
    if s in drawing.now:
        out.append(text_at(left + 4, top + high + 14, '◉ now', 'mark', 'start'))
    if s not in drawing.visited:
        out.append(text_at(left + 4, top + high + 14, '∅ no run', 'mark', 'start'))
    return ''.join(out) + '</g>'


def in_columns(drawing):
    table = drawing.table
    centre, width = placed(drawing)
    half = {s: drawing.high(s) / 2 for s in centre}
    column = {s: [t for t in centre if centre[t][0] == centre[s][0]] for s in centre}
    first = {s: min(column[s], key=lambda t: centre[t][1]) == s for s in centre}
    last = {s: max(column[s], key=lambda t: centre[t][1]) == s for s in centre}
    ceiling, floor = min(centre[s][1] - half[s] for s in centre) - 44, max(centre[s][1] + half[s] for s in centre) + 30
    lanes, moves = {True: 0, False: 0}, []
    for s in range(table.states):
        for t in sorted(table.next[s]):
            if centre[t][0] >= centre[s][0]:
                path = forward(centre[s], centre[t], 2 * half[s])
            else:
                up = first[s] and not last[s]
                lane = ceiling - 14 * lanes[True] if up else floor + 14 * lanes[False]
                lanes[up] += 1
                path = backward(centre[s], centre[t], (2 * half[s], 2 * half[t]), lane, up, (first[s], first[t]) if up else (last[s], last[t]))
            moves.append(move(drawing, s, t, path))
    boxes = [box(drawing, s, centre[s]) for s in range(table.states)]
    top = ceiling - 14 * lanes[True] if lanes[True] else ceiling + 10
    return ''.join(moves) + ''.join(boxes), (0, top, width, floor + 14 * lanes[False] + 8 - top)


def move(drawing, s, t, path):
    kind = 'move' if s in drawing.visited and t in drawing.visited else 'move ghost'
    return '<path class="%s" d="%s" marker-end="url(#tip)"><title>from %s to %s</title></path>' % (kind, path, quote(drawing.names.state[s]), quote(drawing.names.state[t]))


# ---- on a circle ----

def circle(drawing):
    """Large or crowded plants stand on a circle, in the order of their numbers, their names outside, along the rays."""
    table = drawing.table
    radius = max(150, table.states * 4.4)
    rays = [ray(drawing, s) for s in range(table.states)]
    angle = [2 * math.pi * s / table.states - math.pi / 2 for s in range(table.states)]
    spot = [(radius * math.cos(a), radius * math.sin(a)) for a in angle]
    out = [move(drawing, s, t, bow(spot[s], spot[t], radius)) for s in range(table.states) for t in sorted(table.next[s])]
    out += [bead(drawing, s, x, y, angle[s], rays[s]) for s, (x, y) in enumerate(spot)]
    ends = [1 + (16 + RAY * ems(words)) / radius for words in rays]
    xs, ys = [x * far for (x, _), far in zip(spot, ends)], [y * far for (_, y), far in zip(spot, ends)]
    left, top = min(xs) - 16, min(ys) - 16
    return ''.join(out), (left, top, max(xs) + 16 - left, max(ys) + 16 - top)


def ray(drawing, s):
    """What stands on a state's ray: its name, with the signs that a box would have."""
    before = ''.join(sign for sign, holds in (('▶ ', s in drawing.table.start), ('◉ ', s in drawing.now), ('∅ ', s not in drawing.visited)) if holds)
    return before + wrapped(drawing.names.state[s], LONGEST, RAY, 1)[0] + ''.join(' (%s)' % SETS[j] for j, fair in enumerate(drawing.table.fair) if s in fair)


def bow(a, b, radius):
    """The path of a move between two spots of the circle; one to itself is a small loop inside."""
    (x, y), (u, v) = a, b
    if a == b:
        x, y = x * (1 - 8 / radius), y * (1 - 8 / radius)
        dx, dy = -x / radius, -y / radius
        return curve(x, y, x + 34 * dx - 16 * dy, y + 34 * dy + 16 * dx, x + 34 * dx + 16 * dy, y + 34 * dy - 16 * dx, x + 2 * dx, y + 2 * dy)
    pull = 1 - min(0.44, 0.12 + 0.32 * math.hypot(u - x, v - y) / radius)       # between neighbours the bow is flat
    mx, my = (x + u) / 2 * pull, (y + v) / 2 * pull
    length = math.hypot(u - mx, v - my) or 1
    return 'M%.1f,%.1f Q%.1f,%.1f %.1f,%.1f' % (x, y, mx, my, u - (u - mx) / length * 11, v - (v - my) / length * 11)


def bead(drawing, s, x, y, angle, words):
    """A state on the circle: its number, and on the ray behind it what it is called."""
    turn = math.degrees(angle)
    flip = 90 < turn % 360 < 270
    scale = 1 + 16 / math.hypot(x, y)
    place = 'transform="translate(%.1f,%.1f) rotate(%.1f)"' % (x * scale, y * scale, turn + 180 if flip else turn)
    return '<g class="%s"><title>%s</title><circle class="bead" cx="%.1f" cy="%.1f" r="10"/>%s%s</g>' % (
        drawing.kind(s), quote(drawing.title(s)), x, y, text_at(x, y + 3.5, s, 'bead-text'), text_at(0, 4, words, 'ray', 'end' if flip else 'start', ' ' + place))
