"""The walk that led here: for a way on, a row of states from the beginning to now that fits all events and with it keeps the rule, or breaks it. It is advice.

It is found back from the way on: what is true of a rule at a moment follows from the label there and from what is true of it at the next. Sets of states are
numbers, bit k for state k."""
import itertools

from desk import graph, rules
from desk.texts import weight


class Carried:
    """What a moment has to know of the next one: whether the parts that look ahead are true there. For each label it is worked out once."""

    def __init__(self, tree):
        self.parts, self.known = rules.nodes(tree), {}
        self.asked = [part[1] if part[0] == 'X' else part for part in self.parts if part[0] in rules.TEMPORAL]

    def now(self, label, later):
        """By a label and what is carried from the next moment: what this one carries, and whether the rule is true here."""
        if (label, later) not in self.known:
            ahead, found = dict(zip(self.asked, later)), {}
            for part in self.parts:
                below = part[1:] if part[0] != 'p' else ()
                found[part] = rules.now(part, label, [found[b] for b in below], [ahead.get(b) for b in below], ahead.get(part))
            self.known[label, later] = tuple(found[part] for part in self.asked), found[self.parts[-1]]
        return self.known[label, later]


def walks(story, way):
    """For each kind, True for keeping the rule and False for breaking it, a walk to this way on; none of a kind of which there is none."""
    row, places = graph.filled(story.events)
    row = row or [None]
    mark = max([places[n] for n, e in enumerate(story.events) if e.new] or [0])
    carried = Carried(story.tree)
    layers = back(story.table, carried, row, mark, way)
    found = {kind: forth(story.table, carried, layers, mark, kind) for kind in (True, False)}
    return {kind: walk for kind, walk in found.items() if walk}


def back(table, carried, row, mark, way):
    """For each position what can be carried there so that the way on is reached, and the states of which that is so. Before the mark the rule is not judged, and
    whether it will be kept is all that is carried. Equal layers of a long log are worked out once."""
    states, known = way.stem + way.loop, {}
    values = rules.judged(carried.parts[-1], [table.label[s] for s in states], len(way.stem))
    can_be = graph.possible(table, row)
    before = graph.Moves([{r for r in range(table.states) if s in table.next[r]} for s in range(table.states)])
    labels = {label: weight(s for s in range(table.states) if table.label[s] == label) for label in table.label}
    last = values[carried.parts[-1]][0] if mark == len(row) - 1 else tuple(values[part][0] for part in carried.asked)
    layers = [{last: 1 << states[0] & can_be[-1]}]
    for i in reversed(range(len(row) - 1)):
        key = frozenset(layers[-1].items()), can_be[i], (i > mark) - (i < mark)
        if key not in known:
            earlier = [(value, before.of(found) & can_be[i]) for value, found in layers[-1].items()]
            known[key] = dict(earlier) if i < mark else one_back(carried, earlier, labels, i == mark)
        layers.append(known[key])
    return layers[::-1]


def one_back(carried, earlier, labels, at_mark):
    """What is carried one position earlier, by the states that were there before each value."""
    found = {}
    for (value, states), (label, among) in itertools.product(earlier, labels.items()):
        if states & among:
            now, whole = carried.now(label, value)
            key = whole if at_mark else now
            found[key] = found.get(key, 0) | states & among
    return found


def forth(table, carried, layers, mark, kind):
    """A walk through the layers at whose mark the rule has the value asked for."""
    states, value, walk = layers[0].get(kind, 0) & weight(table.start), kind, []
    for i in range(len(layers)):
        if not states:
            return None
        state = (states & -states).bit_length() - 1
        walk.append(state)
        if i < len(layers) - 1:
            value, states = onward(carried, layers[i + 1], table, state, value, i - mark)
    return walk


def onward(carried, layer, table, state, value, beyond):
    """A value of the next layer from which this one follows in this state, and the states to which moves lead there. `beyond` is how far behind the mark this is."""
    for later, states in layer.items():
        follows = later if beyond < 0 else carried.now(table.label[state], later)[beyond == 0]
        if follows == value and states & weight(table.next[state]):
            return later, states & weight(table.next[state])
    return value, 0
