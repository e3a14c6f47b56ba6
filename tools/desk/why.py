"""Why a lamp is lit, in words: what happened, where the plant can be, how runs of each kind go on. Lamps and ways on come from the proved programs;
the states where the plant can be, and the walks that lead there, are worked out by this tool and are advice."""
import os
import tempfile

from desk import graph, program, rules, texts
from desk.lamps import COLOURS, MEANS, changes
from desk.trouble import counted, listed, put
from desk.walks import walks
from desk.words import told_event

KIND = {True: 'keeps', False: 'breaks'}
SHORT = 12           # so many states of a walk or a way are written out at either end


class Story:
    """A folder and the first events of its log, or all."""

    def __init__(self, folder, at=None):
        self.folder = folder
        self.table = texts.table_of(folder)
        self.names = texts.names_of(folder, self.table)
        self.tree = rules.read_rule(texts.rule_text(folder))
        self.events = texts.log_of(folder, self.table)
        self.numbers = texts.numbers(self.events)
        if at is not None:
            self.events, self.numbers = self.events[:at], self.numbers[:at]
        self.where = graph.where(self.table, self.events)

    def cut(self, count, action):
        """What a program says of the first events."""
        with tempfile.TemporaryDirectory() as room:
            for name in ('plant.txt', 'rule.txt'):
                copy(os.path.join(self.folder, name), os.path.join(room, name))
            put(os.path.join(room, 'log.txt'), texts.write_log(self.events[:count], self.table.props))
            return action(room)

    def state_names(self, states):
        names = ['`%s`' % self.names.state[s] for s in sorted(states)]
        if len(names) > 2 * SHORT:
            names = names[:SHORT] + ['%d more' % (len(names) - SHORT)]
        return listed(names, 'or') or 'nowhere'

    def row(self, states):
        """States in their order, a long row cut in its middle, and one that stays told once."""
        told = []
        for s in states:
            if told and told[-1][0] == s:
                told[-1][1] += 1
            else:
                told.append([s, 1])
        words = ['`%s`%s' % (self.names.state[s], '' if many == 1 else ' (%d times)' % many) for s, many in told]
        if len(words) > 2 * SHORT:
            words = words[:SHORT] + ['.. %d more ..' % (len(words) - 2 * SHORT)] + words[-SHORT:]
        return ', '.join(words)

    def way(self, way):
        """How a run goes on. Its first state is the present one."""
        loop = 'stays in %s for ever' % self.row(way.loop) if len(way.loop) == 1 else 'goes round for ever: %s' % self.row(way.loop)
        return '%s; then it %s' % (self.row(way.stem), loop) if way.stem else 'it %s' % loop


def copy(source, target):
    with open(target, 'wb') as file:
        file.write(texts.contents(source))


# ---- told ----

def told(story, shown):
    """Why the last lamp is lit, line by line. `shown` is what `watch` says of the whole story."""
    lamps = [shown.start] + shown.lamps[:len(story.events)]
    out = happened(story, lamps)
    out += ['', *now(story, lamps)]
    last = lamps[-1].verdict
    if last == 'out-of-model':
        return out + out_of_model(story, lamps)
    ways = story.cut(len(story.events), program.ways)
    out += ['', *turned(story, lamps)] if last in ('true', 'false') else ['']
    return out + went_on(story, ways)


def name_of(story, k):
    return 'the start' if k == 0 else 'event %d' % story.numbers[k - 1]


def happened(story, lamps):
    """The lamps and the events at which they changed."""
    out = ['What happened (%s):' % counted(len(story.events), 'event')]
    found = changes(lamps)
    shown = found if len(found) <= 2 * SHORT else found[:SHORT] + found[-SHORT:]
    for k in shown:
        event = '' if k == 0 else ': %s%s' % ('restart; ' if story.events[k - 1].new else '', told_event(story.events[k - 1], story.names))
        out.append('  %-10s %s (%s)%s' % (name_of(story, k), COLOURS[lamps[k].verdict], lamps[k].verdict, event))
    if len(found) > len(shown):
        out.insert(1 + SHORT, '  .. %d more changes ..' % (len(found) - len(shown)))
    if found[-1] != len(lamps) - 1:
        out.append('  %-10s still so: %s' % (name_of(story, len(lamps) - 1), told_event(story.events[-1], story.names)))
    restarts = [story.numbers[n] for n, e in enumerate(story.events) if e.new and n]
    if restarts and lamps[-1].verdict != 'out-of-model':
        out.append('  The rule is judged from event %d on, the last restart.' % restarts[-1])
    return out


def now(story, lamps):
    lamp = lamps[-1]
    out = ['The lamp is %s (%s): %s.' % (COLOURS[lamp.verdict], lamp.verdict, MEANS[lamp.verdict])]
    states = story.where[-1]
    if len(states) != lamp.left:
        return out + ['(This tool finds %s where the plant can be, and the program %d: believe the program, and please keep the folder and tell us.)' % (counted(len(states), 'state'), lamp.left)]
    if states:
        out.append('The plant can now be in %s.' % story.state_names(states))
    return out


def out_of_model(story, lamps):
    """Which event fits nothing, and what would have fitted."""
    k = max(k for k in changes(lamps) if lamps[k].verdict == 'out-of-model')
    if k == 0:
        return ['There is no run at all: no starting state has an endless way on that meets every fairness set.']
    event, gap, before = story.events[k - 1], texts.lost(story.events)[k - 1], story.where[k - 1]
    states = moved_on(story, before, gap + 1 if k > 1 else 0, graph.endless(story.table))
    out = ['', 'Since event %d: %s.' % (story.numbers[k - 1], told_event(event, story.names))]
    out.append('Before it the plant could be in %s.%s At this event it had to be in %s, and that does not fit what was seen:' % (
        story.state_names(before), ' Then %s lost.' % counted(gap, 'event was', 'events were') if gap > 0 and k > 1 else '', story.state_names(states)))
    for s in sorted(states)[:SHORT]:
        wrong = [p for p in texts.members(event.see) if (event.val >> p & 1) != (p in story.table.label[s])]
        out.append('  in `%s` %s' % (story.names.state[s], listed('`%s` is %s' % (story.names.signal[p], 'on' if p in story.table.label[s] else 'off') for p in wrong)))
    ghosts = {s for s in moved_on(story, before, gap + 1 if k > 1 else 0, set(range(story.table.states))) - states if graph.agrees(event, story.table.label[s])}
    if ghosts:
        out.append('What was seen fits %s, where arrows lead; but no run goes there. The advice below tells why.' % story.state_names(ghosts))
    return out + ['Look for a sensor that is wrong, an event that was lost, or an arrow that the plant is missing. A restart does not mend it: begin a new log.']


def moved_on(story, states, moves, among):
    """Where some moves lead, through these states."""
    for _ in range(moves):
        states = graph.moved(story.table, states, among)
    return states


def turned(story, lamps):
    """The event at which a lamp of true or false was decided, and the run of the other kind that was still possible before it."""
    k = changes(lamps)[-1]
    if k == 0:
        return ['It was so before any event: the plant alone decides it.']
    event = story.events[k - 1]
    out = ['It was decided at event %d (%s%s).' % (story.numbers[k - 1], 'restart; ' if event.new else '', told_event(event, story.names))]
    if event.new:
        return out + ['From this restart on the rule is judged anew.']
    other = lamps[k].verdict == 'false'
    way = story.cut(k - 1, program.ways)[0 if other else 1]
    if way:
        out.append('Before it, at %s, the plant could be in %s, and a run that %s the rule could go on so: %s.' % (name_of(story, k - 1), story.state_names(story.where[k - 1]), KIND[other], story.way(way)))
        out.append('What was seen then leaves %s, and no run of that kind.' % story.state_names(story.where[k]))
    return out


def went_on(story, ways):
    """How a run of each kind goes on; and where the kinds differ in the past only, that."""
    out = []
    for kind, way in zip((True, False), ways):
        if way:
            out.append('A run that %s the rule can go on so: %s.' % (KIND[kind], story.way(way)))
        else:
            out.append('No run that fits %s the rule any more.' % KIND[kind])
    if all(ways):
        out += past(story, ways)
    return out


def past(story, ways):
    """Where a way on belongs to runs of both kinds, they differ in what was before, which nobody saw."""
    found = [walks(story, way) for way in ways]
    both = [len(of_way) == 2 for of_way in found]
    if not any(both):
        return []
    if all(both):
        begin = 'The two kinds differ in the past: with %s way on' % ('the very same' if ways[0] == ways[1] else 'either')
    else:
        begin = 'The past counts too: with the %s way on' % ('first' if both[0] else 'second')
    out = ['%s a run may keep the rule or break it, by what it did before, which nobody saw.' % begin]
    for kind in (True, False):
        out.append('  It %s the rule, if it came so: %s.' % (KIND[kind], story.row(found[both.index(True)][kind])))
    return out
