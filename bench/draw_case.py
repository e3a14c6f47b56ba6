#!/usr/bin/env python3
"""Writes a seeded case at the limits (64 states, 4 fairness sets, a rule with 6 temporal operators) to a folder.

usage: bench/draw_case.py FOLDER SEED [KEY=VALUE..]
moves=2          how many moves are drawn for each state; or a shape: `chain`, each state to the one behind it and the last to itself; `stays`,
                 a chain whose states lead to themselves too; `rings4`, a chain of rings of four, and so for 2 and 3;
                 `ring`, one ring of all
fair=16          how many states are drawn for each fairness set; or `all`, or `last`: the last state alone
seen=0           how many propositions an event shows, on average; with 0 nothing is seen and every state is a starting state, so that as many
                 pairs as can be are held
operators=XFGUR  the temporal operators that are drawn
props=8          how many propositions there are; over 8 labels and events have four digits
labels=drawn     or `rare`: each proposition at one drawn state alone
lines=100        how many lines the log has
new=0            or 1: each event is a restart
rule=drawn       or `again`, G of Fp0 and .. and Fp4; `nested`, F(p0&F(p1&..Fp5)); `untils`, (..((p0Up1)Up2)..Up6); `ahead`, XXXXXXp0

The folder gets plant.txt, rule.txt and log.txt (lines along a run of the plant), and twin.txt, the same for the C twin: numbers alone,
the rule as its nodes, operands first.
"""
import os
import random
import sys

folder, seed = sys.argv[1], int(sys.argv[2])
given = {'props': '8', 'moves': '2', 'fair': '16', 'seen': '0', 'operators': 'XFGUR', 'labels': 'drawn', 'lines': '100', 'new': '0', 'rule': 'drawn'}
for word in sys.argv[3:]:
    key, value = word.split('=')
    if key not in given:
        sys.exit('draw_case: no key ' + key)
    given[key] = value
operators, seen, new = given['operators'], int(given['seen']), int(given['new'])
draw = random.Random(seed)
STATES, PROPS, FAIR, PARTS, NODES, LINES = 64, int(given['props']), 4, 6, 32, int(given['lines'])
DIGITS = 4 if PROPS > 8 else 2
CODES = {'X': 4, 'F': 5, 'G': 6, 'U': 7, 'R': 8, '&': 9, '|': 10, '->': 11}
PROP, NOT = 2, 3


def some_states(count):
    word = 0
    for _ in range(count):
        word |= 1 << draw.randrange(STATES)
    return word


def tree(size, parts):
    """A rule with at most `size` nodes and about `parts` temporal operators: a text for a leaf, else operator and operands."""
    if parts == 0 and (size < 3 or draw.random() < 0.5):
        leaf = 'p%d' % draw.randrange(PROPS)
        return draw.choice([leaf] * 6 + ['!p%d' % draw.randrange(PROPS)]) if size >= 2 else leaf
    choices = list(operators) if parts else []
    if parts < 3 and size > 2 * parts + 4:
        choices += ['&', '|', '->']
    if not choices:
        return 'p%d' % draw.randrange(PROPS)
    operator = draw.choice(choices)
    rest = parts - (operator in 'XFGUR')
    if operator in 'XFG':
        return (operator, tree(size - 1, rest))
    left = draw.randint(0, rest)
    room = size - 1
    share = max(1, min(room - 1, room * (left + 1) // (rest + 2)))
    return (operator, tree(share, left), tree(room - share, rest - left))


def text(rule):
    if isinstance(rule, str):
        return rule
    if len(rule) == 2:
        return rule[0] + text(rule[1])
    return '(' + text(rule[1]) + rule[0] + text(rule[2]) + ')'


def nodes(rule):
    if isinstance(rule, str):
        return nodes(rule[1:]) + [(NOT, 0)] if rule[0] == '!' else [(PROP, int(rule[1:]))]
    return [node for operand in rule[1:] for node in nodes(operand)] + [(CODES[rule[0]], 0)]


def parts_of(rule):
    return sum(CODES['X'] <= code <= CODES['R'] for code, _ in nodes(rule))


def moves_from(s):
    shape = given['moves']
    last = s == STATES - 1
    if shape == 'chain':
        return 1 << s if last else 2 << s
    if shape == 'stays':
        return 1 << s if last else 3 << s
    if shape.startswith('rings'):
        size = int(shape[5:])
        back = 1 << s - size + 1 if s % size == size - 1 else 1 << s if last else 0
        return back | (0 if last else 2 << s)
    if shape == 'ring':
        return 1 if last else 2 << s
    return some_states(int(shape))


def fairness_set():
    return {'all': (1 << STATES) - 1, 'last': 1 << STATES - 1}.get(given['fair']) or some_states(int(given['fair']))


def fold(operator, rules):
    """The rules joined, the first two first."""
    joined = rules[0]
    for rule in rules[1:]:
        joined = (operator, joined, rule)
    return joined


def rule_of(kind):
    leaves = ['p%d' % k for k in range(PROPS)]
    if kind == 'again':
        return ('G', fold('&', [('F', leaf) for leaf in leaves[:PARTS - 1]]))
    if kind == 'untils':
        return fold('U', leaves[:PARTS + 1])
    if kind == 'ahead':
        rule = leaves[0]
        for _ in range(PARTS):
            rule = ('X', rule)
        return rule
    if kind == 'nested':
        rule = ('F', leaves[PARTS - 1])
        for leaf in reversed(leaves[:PARTS - 1]):
            rule = ('F', ('&', leaf, rule))
        return rule
    rule = tree(30, PARTS)
    while parts_of(rule) != PARTS or len(nodes(rule)) > NODES:
        rule = tree(30, PARTS)
    return rule


if given['labels'] == 'rare':
    homes = [draw.randrange(STATES) for _ in range(PROPS)]
    labels = [sum((homes[p] == s) << p for p in range(PROPS)) for s in range(STATES)]
else:
    labels = [draw.randrange(1 << PROPS) for _ in range(STATES)]
nexts = [moves_from(s) for s in range(STATES)]
fairs = [fairness_set() for _ in range(FAIR)]
start = draw.getrandbits(STATES) | 1 if seen else (1 << STATES) - 1
rule = rule_of(given['rule'])
sees = [sum((draw.random() < seen / PROPS) << p for p in range(PROPS)) for _ in range(LINES)]
here = draw.randrange(STATES)
start |= 1 << here
events = []
for see in sees:
    events.append((see, labels[here] & see, new))
    here = draw.choice([s for s in range(STATES) if nexts[here] >> s & 1])

os.makedirs(folder, exist_ok=True)


def write(name, lines, end='\n'):
    with open(os.path.join(folder, name), 'w') as file:
        file.write('\n'.join(lines) + end)


write('plant.txt', ['props=%d' % PROPS, 'states=%d' % STATES, 'start=%016x' % start, 'just=%d' % FAIR]
      + ['j%d=%016x' % pair for pair in enumerate(fairs)]
      + ['label%d=%0*x\nnext%d=%016x' % (s, DIGITS, labels[s], s, nexts[s]) for s in range(STATES)])
write('rule.txt', [text(rule)], '')
write('log.txt', ['see=%0*x val=%0*x new=%d' % (DIGITS, see, DIGITS, val, new) for see, val, new in events])
write('twin.txt', ['%d %d %d %d' % (PROPS, STATES, start, FAIR)] + ['%d' % fair for fair in fairs]
      + ['%d %d' % pair for pair in zip(labels, nexts)]
      + ['%d' % len(nodes(rule))] + ['%d %d' % node for node in nodes(rule)]
      + ['%d' % LINES] + ['%d %d %d' % event for event in events])
