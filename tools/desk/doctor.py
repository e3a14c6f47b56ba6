"""Advice on a plant that reads well and is likely wrong. All of it is worked out here from the arrows and labels, and is advice: only the lamp of the start,
which comes from the proved program, is more than that.

Each finding is a title and a text. A finding that changes what a lamp can see comes before one that is a matter of tidiness.
"""
import collections

from desk import graph, rules
from desk.trouble import counted, listed

Finding = collections.namedtuple('Finding', 'title text')


def advice(table, names, tree, start=None):
    """The findings on a plant. `start` is the verdict of the start, where the program has shown it."""
    live = graph.endless(table)
    return no_run(table, names, live) + cut_off(table, names, live) + no_begin(table, names, live) + dead_ends(table, names) + apart(table, names) \
        + idle_signals(table, names, tree) + decided(table, names, tree, start)


def called(names, states):
    return listed('`%s`' % names.state[s] for s in sorted(states))


def no_run(table, names, live):
    if table.start & live:
        return []
    if not table.start:
        return [Finding('The plant has no starting state', 'So there is no run at all, and every lamp is out-of-model. Say where it may begin (`start:`).')]
    unmet = [j for j in range(len(table.fair)) if not table.start & graph.endless(table, [table.fair[j]])]
    if not table.start & graph.endless(table, []):
        reason = 'from each of them every way comes to an end'
    elif unmet:
        reason = 'from none of them %s can happen again and again, and it must' % listed('`%s`' % names.fair[j] for j in unmet)
    else:
        reason = 'what must happen again and again can\'t all happen together'
    return [Finding('No run begins anywhere', 'There are starting states, but %s. Every lamp is out-of-model.' % reason)]


def cut_off(table, names, live):
    """States that can be reached and go on for ever, and that no run visits because of the fairness sets. The first on each way are told, with the ground."""
    lost = (graph.reached(table, table.start) & graph.endless(table, [])) - live if table.start & live else set()
    entries = [s for s in sorted(lost) if s in table.start or any(s in table.next[r] for r in range(table.states) if r not in lost)]
    return [Finding('`%s` is cut off: no run goes there' % names.state[s], ground(table, names, s, lost)) for s in entries]


def ground(table, names, s, lost):
    """Why the fairness sets leave no run through a state."""
    sets = [j for j in range(len(table.fair)) if s not in graph.endless(table, [table.fair[j]])]
    which = listed('`%s`' % names.fair[j] for j in sets)
    text = 'Arrows lead there, but '
    if table.next[s] == {s} and sets:
        text += 'from there only back to itself, and it is not in %s, which must happen again and again' % which
    elif sets:
        text += 'from there %s never comes again, and it must happen again and again' % which
    else:
        text += 'from there the fairness sets can\'t all be met together'
    text += '. So the box takes it that the plant is never in %s, and a rule that would be broken there can light green for that reason alone. ' % called(names, graph.reached(table, [s]) & lost)
    if sets:
        text += 'If it can happen, put `%s` into %s, or give it an arrow that leads out.' % (names.state[s], which)
    else:
        text += 'If it can happen, let a way lead on from there that meets all of them.'
    return text


def no_begin(table, names, live):
    if not table.start & live:
        return []
    endless = graph.endless(table, [])
    return [Finding('No run begins in `%s`' % names.state[s], 'It is a starting state, but every way from it comes to an end. The box takes it that the plant never begins there.')
            for s in sorted(table.start - live) if s not in endless]


def dead_ends(table, names):
    found = []
    endless, reached = graph.endless(table, []), graph.reached(table, table.start)
    for s in sorted(reached):
        if not table.next[s]:
            before = sorted(r for r in reached if r not in endless and r != s and s in graph.behind(table)[r])
            also = ' For the same reason it is never in %s.' % called(names, before) if before else ''
            found.append(Finding('`%s` is a dead end' % names.state[s],
                                 'No arrow leads out of it, so no run passes it, and the box takes it that the plant is never there.%s If the plant may stay there, give it an arrow to itself.' % also))
    return found


def apart(table, names):
    beyond = set(range(table.states)) - graph.reached(table, table.start)
    if not beyond or not table.start:
        return []
    return [Finding('%s can\'t be reached' % counted(len(beyond), 'state'), 'No arrows lead from a starting state to %s. An arrow is missing, or the state is not needed.' % called(names, beyond))]


def idle_signals(table, names, tree):
    found, asked = [], rules.used(tree)
    lit = set().union(*table.label)
    idle = [p for p in range(table.props) if p not in lit and p not in asked]
    if idle:
        found.append(Finding('%s for nothing' % counted(len(idle), 'signal'), 'In no state %s on, and the rule does not name %s: %s.' % (
            'it is' if len(idle) == 1 else 'they are', 'it' if len(idle) == 1 else 'them', listed('`%s`' % names.signal[p] for p in idle))))
    visited = graph.visited(table)
    for p in sorted(asked):
        on = {s for s in visited if p in table.label[s]}
        if visited and (not on or on == visited):
            found.append(Finding('The rule names `%s`, which is %s' % (names.signal[p], 'always on' if on else 'never on'),
                                 'In %s state that a run visits it is on. So the rule says less than it seems to.' % ('every' if on else 'no')))
    return found


def decided(table, names, tree, start):
    if start == 'true':
        return [Finding('The rule is decided at the start: true',
                        'Every run of this plant keeps it, whatever will be seen: the box says so before any event. There is nothing to watch. '
                        'Is a move missing that can go wrong, or does a fairness set say too much?')]
    if start == 'false':
        return [Finding('The rule is decided at the start: false',
                        'Every run of this plant breaks it, whatever will be seen: the box says so before any event. '
                        'Is the rule the one that is meant? Is a good way missing in the plant?')]
    if start == 'out-of-model' and table.start & graph.endless(table):
        return [Finding('Out-of-model at the start', 'The box finds no run at all.')]
    return []
