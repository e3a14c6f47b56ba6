"""Plants, rules, logs and names thrown by a seed, for the tests of the tools."""
import os
import random
import sys

HOME = os.path.dirname(os.path.dirname(os.path.dirname(os.path.abspath(__file__))))
sys.path.insert(0, os.path.join(HOME, 'tools'))

from desk import rules, texts, words

ODD = ['all', 'nothing', 'none', 'nowhere', 'all but one', 'restart', 'on', 'off', 'event 7', 'not closed', 'next door', 'until noon', 'G', 'p3', 'a, b', 'x (y)', 'say "so"', 'gate: open',
       'a=b', '# three', 'Überlauf', 'größer 3', "miller's gate", 'No. 5', '50 % full', 'a->b', 'a - b', '!', 'if wet then', '1', '0', 'true', 'pump/valve', 'a; b', 'X Y Z', 'half-open']
PLAIN = ['gate', 'pump', 'valve', 'water', 'alarm', 'motor', 'belt', 'lamp', 'door', 'bell', 'high', 'low', 'open', 'shut', 'runs', 'stands', 'warm', 'cold', 'left', 'right']


def name(dice, taken):
    while True:
        found = dice.choice(ODD) if dice.random() < 0.25 else ' '.join(dice.choice(PLAIN) for _ in range(dice.randint(1, 3)))
        found = found if dice.random() < 0.6 else '%s %d' % (found, dice.randint(1, 99))
        if found not in taken:
            taken.append(found)
            return found


def some(dice, many, likely):
    return {k for k in range(many) if dice.random() < likely}


def table(dice, props=None, states=None, busy=False):
    """A table; a busy one has many arrows and large fairness sets, and so mostly runs."""
    props, states = props or dice.choice([1, 2, 3, 4, 8, 9, 13, 16]), states or dice.choice([1, 2, 3, 4, 5, 8, 20, 64])
    likely = 0.6 if busy else dice.choice([0.1, 0.3, 0.6]) if states < 9 else 3 / states
    fair = [some(dice, states, 0.8 if busy else dice.choice([0.2, 0.5, 0.9])) for _ in range(dice.choice([0, 0, 1, 2, 4]))]
    return texts.Table(props, some(dice, states, 0.3) or {0}, fair, [some(dice, props, 0.4) for _ in range(states)], [some(dice, states, likely) for _ in range(states)])


def rule(dice, props, size):
    """A rule of at most so many nodes, with at most six temporal operators."""
    while True:
        tree = grown(dice, props, size)
        if rules.parts(tree) <= rules.PARTS:
            return tree


def grown(dice, props, size):
    if size <= 1 or dice.random() < 0.1:
        return ('p', dice.randrange(props)) if dice.random() < 0.9 else (dice.choice('01'),)
    if size == 2 or dice.random() < 0.4:
        return (dice.choice('!!XFG'), grown(dice, props, size - 1))
    left = dice.randint(1, size - 2)
    return (dice.choice(['U', 'R', '&', '&', '|', '|', '->', '->']), grown(dice, props, left), grown(dice, props, size - 1 - left))


def plant(dice, **sizes):
    found = table(dice, **sizes)
    given = {}
    for mark, many in (('p', found.props), ('s', found.states), ('j', len(found.fair))):
        taken = []
        given.update(('%s%d' % (mark, k), name(dice, taken)) for k in range(many) if dice.random() < 0.9)
    title = dice.choice(['', 'A plant', 'The lock: # never both', 'x=y'])
    return words.Plant(found, rule(dice, found.props, dice.choice([1, 2, 4, 8, 16, 32])), texts.Names(found.props, found.states, len(found.fair), given, title))


def log(dice, props, many, numbered):
    events, number = [], dice.choice([0, 7, 4000000000])
    for _ in range(many):
        see = dice.getrandbits(props) if dice.random() < 0.7 else dice.choice([0, (1 << props) - 1])
        events.append(texts.Event(number if numbered else None, see, see & dice.getrandbits(props), dice.random() < 0.1))
        number += dice.choice([1, 1, 1, 2, 17])
    return events


def walked(dice, found, many, numbered=False):
    """A log that some walk through the table gives, and so mostly one with lamps; now and then a gap."""
    state, events, number = min(found.start), [], dice.choice([0, 12])
    for k in range(many):
        for _ in range(dice.choice([1, 1, 1, 3]) if numbered and k else 1 if k else 0):
            state = dice.choice(sorted(found.next[state]) or [state])
            number += 1
        see = dice.getrandbits(found.props) & dice.getrandbits(found.props)
        events.append(texts.Event(number if numbered else None, see, see & texts.weight(found.label[state]), dice.random() < 0.1))
    return events


def put(folder, plant_, events):
    """The files of a plant and a log."""
    os.makedirs(folder, exist_ok=True)
    files = {'plant.txt': texts.write_table(plant_.table), 'rule.txt': rules.write_rule(plant_.tree) + '\n', 'names.txt': plant_.names.lines(), 'log.txt': texts.write_log(events, plant_.table.props)}
    for file_name, text in files.items():
        with open(os.path.join(folder, file_name), 'w', encoding='utf-8', newline='') as file:
            file.write(text)


def dice(seed):
    return random.Random(seed)
