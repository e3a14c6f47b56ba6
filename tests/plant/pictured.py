"""Plants and logs for pictures: a ring of states with long names, and what was seen on a way round it."""
import thrown

from desk import texts, words

PARTS = ['gate', 'pump', 'valve', 'sluice', 'turbine', 'fish pass', 'upper weir', 'lower weir']
DOES = ['is being opened by hand', 'stands half open', 'closes', 'waits for the keeper', 'runs at night', 'is under repair', 'is shut', 'stands still']
RESTARTS = 701


def names(states, props):
    given = {'s%d' % s: '%d%s %s %s' % (s, 'abcdefgh'[s % 8], PARTS[s % 8], DOES[s // 8 % 8]) for s in range(states)}
    given.update(('p%d' % p, '%s signal %s' % (PARTS[p % 8], 'north' if p < 8 else 'south')) for p in range(props))
    return dict(given, j0='the keeper comes round', j1='the water goes down')


def plant(states):
    """A ring: each state may last or be followed by the next, some by one further on. Signal 0 is on in state 1, signal 1 in state 2, and the rule says that the one
    is followed by the other at once. Where there are many states the last one is cut off."""
    props = 4 if states <= 20 else 13
    label = [{s - 1} if s in (1, 2) else {2 + s % (props - 2)} for s in range(states)]
    next_ = [{s, (s + 1) % states} | ({(s + 5) % states} if s % 9 == 4 else set()) for s in range(states)]
    if states > 3:
        next_[states - 1] = {states - 1}
        next_[states - 2].add(0)
    table = texts.Table(props, {0}, [{0}, {2}], label, next_)
    tree = ('G', ('->', ('p', 0), ('X', ('p', 1))))
    return words.Plant(table, tree, texts.Names(props, states, 2, names(states, props), 'A ring of %d states, with names that are longer than a box is wide' % states))


def log(plant_, many):
    """What was seen on a way round the ring. In each third round state 1 lasts, which breaks the rule; all is seen at each fifth event, else signals 0 and 1 or nothing."""
    table, state, turn, events = plant_.table, 0, 0, []
    for n in range(many):
        if n and not (state == 1 and turn % 3 == 2 and n % 2):
            state = (state + 1) % table.states if 3 == table.states or state < table.states - 2 else 0
            turn += state == 0
        see = [(1 << table.props) - 1, 3, 3, 0, 3][n % 5]
        events.append(texts.Event(None, see, see & texts.weight(table.label[state]), n > 0 and n % RESTARTS == 0))
    return events


def put(folder, states, many):
    made = plant(states)
    thrown.put(folder, made, log(made, many))
    return made
