"""What a table's arrows say: which states runs visit, and where the plant can be by what was seen. Advice alone: lamps come from the programs."""

from desk.texts import MISSING, lost, members, weight


def reached(table, begin):
    """The states to which arrows lead from some, these too."""
    found, queue = set(begin), list(begin)
    for s in queue:
        for t in table.next[s]:
            if t not in found:
                found.add(t)
                queue.append(t)
    return found


def behind(table):
    """For each state those that come at some time behind it, itself only if it comes again. Worked out once for a table."""
    if not hasattr(table, 'behind'):
        table.behind = [reached(table, table.next[s]) for s in range(table.states)]
    return table.behind


def endless(table, fair=None):
    """The states from which some way goes on for ever and meets every fairness set again and again."""
    later, fair = behind(table), table.fair if fair is None else fair
    loops = {s for s in range(table.states) if s in later[s] and all(any(t in later[s] and s in later[t] for t in f) for f in fair)}
    return {s for s in range(table.states) if s in loops or later[s] & loops}


def visited(table):
    """The states that some run visits."""
    live = endless(table)
    return reached(table, table.start & live) & live


def agrees(event, label):
    return not (weight(label) ^ event.val) & event.see


def moved(table, states, live):
    return {t for s in states for t in table.next[s]} & live


# ---- along a log. Sets of states are numbers here, bit k for state k: a log is long ----

class Moves:
    """Where moves lead. Eight states are looked up at once."""

    def __init__(self, next_):
        numbers = [weight(n) for n in next_] + [0] * (-len(next_) % 8)
        self.rows = [together(numbers[k:k + 8]) for k in range(0, len(numbers), 8)]

    def of(self, states):
        found = 0
        for row in self.rows:
            found |= row[states & 255]
            states >>= 8
        return found


def together(sets):
    """For each choice of some sets, as a number, all their members."""
    row = [0]
    for one in sets:
        row += [other | one for other in row]
    return row


class Fitting:
    """The states that fit an event; for one that is missing all of them."""

    def __init__(self, table):
        self.labels, self.known = [weight(label) for label in table.label], {None: (1 << table.states) - 1}

    def of(self, event):
        key = event and (event.see, event.val)
        if key not in self.known:
            self.known[key] = weight(s for s, label in enumerate(self.labels) if not (label ^ event.val) & event.see)
        return self.known[key]


def possible(table, row):
    """At each position of a row of events, missing ones put in, the states in which the plant can be."""
    live, moves, fitting, found = weight(endless(table)), Moves(table.next), Fitting(table), []
    for event in row:
        states = moves.of(found[-1]) if found else weight(table.start)
        found.append(states & live & fitting.of(event))
    return found


def where(table, events):
    """The states in which the plant can be: at the beginning, and at each event. Events that are missing are moves that nobody saw."""
    row, places = filled(events)
    found = possible(table, row)
    sets = {states: frozenset(members(states)) for states in set(found)}
    return [frozenset(table.start & endless(table))] + [sets[found[place]] for place in places]


def filled(events):
    """The events with the missing ones put in, and for each event of the log its position there."""
    row, places = [], []
    for event, gap in zip(events, lost(events)):
        row += [None] * min(max(gap, 0), MISSING)
        places.append(len(row))
        row.append(event)
    return row, places
