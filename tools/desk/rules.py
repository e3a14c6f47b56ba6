"""Rules: the tree of a rule, its text in the grammar, and its text in words. Each word stands for one operator, so the two go one to one.

A tree is ('p', k) for signal k, ('0',), ('1',), (operator, a) or (operator, a, b).
"""
import sys

from desk.near import parted, unknown
from desk.trouble import Bad, listed

sys.setrecursionlimit(max(5000, sys.getrecursionlimit()))         # 512 parentheses in each other are a rule

PREFIX = {'!': 'not', 'X': 'next', 'F': 'sometime', 'G': 'always'}
UNTIL = {'U': 'until', 'R': 'releases'}
WORDS = dict(PREFIX, **UNTIL, **{'&': 'and', '|': 'or', '0': 'false', '1': 'true'})
MEANT = {word: sign for sign, word in WORDS.items()}
TEMPORAL = 'XFGUR'
SIZE, PARTS, BYTES = 32, 6, 512
TOKENS = 500         # a rule in words of so many words and signs has more than it may have, or is all parentheses
RESERVED = set(MEANT) | {'if', 'then'} | set('XFGUR01')
# What people write, and which of the words says it.
INSTEAD = {
    'never': '`always not`', 'whenever': '`always (if .. then ..)`', 'eventually': '`sometime`', 'finally': '`sometime`', 'globally': '`always`',
    'implies': '`if .. then ..`', 'unless': '`(a until b) or always a`', 'before': '`(not b) until a`, or `a releases not b` where a may never come',
    'after': '`always (if a then ..)`', 'when': '`always (if .. then ..)`', 'release': '`releases`', 'later': '`next sometime`', 'henceforth': '`always`',
}


def size(tree):
    return 1 + sum(size(part) for part in tree[1:]) if tree[0] != 'p' else 1


def parts(tree):
    """How many temporal operators a rule has."""
    return 0 if tree[0] == 'p' else (tree[0] in TEMPORAL) + sum(parts(part) for part in tree[1:])


def used(tree):
    """The signals that a rule names."""
    return {tree[1]} if tree[0] == 'p' else set().union(*(used(part) for part in tree[1:]))


# ---- the grammar ----

class Grammar:
    """Reads a rule's text. What it can't read is Bad at the first byte with which no rule goes on."""
    OPERAND = 'a signal (`p0` to `p15`), `0`, `1`, `(`, or one of `!` `X` `F` `G`'

    def __init__(self, text):
        self.text, self.at, self.open, self.named = text, 0, 0, []

    def here(self):
        while self.text[self.at:self.at + 1] == ' ':
            self.at += 1
        return self.text[self.at:self.at + 1]

    def take(self, letter):
        found = self.here() == letter
        self.at += found
        return found

    def whole(self):
        tree = self.arrow()
        if self.here():
            raise Bad(self.at, 'an operator (`U` `R` `&` `|` `->`)%s or the end of the rule' % (', a `)`' if self.open else ''))
        return tree

    def arrow(self):
        left = self.row('|', lambda: self.row('&', self.until))
        if not self.take('-'):
            return left
        if self.text[self.at:self.at + 1] != '>':
            raise Bad(self.at, '`>`, right behind `-`')
        self.at += 1
        return ('->', left, self.arrow())

    def row(self, sign, below):
        left = below()
        while self.take(sign):
            left = (sign, left, below())
        return left

    def until(self):
        left = self.prefix()
        return (self.taken(), left, self.until()) if self.here() in UNTIL else left

    def taken(self):
        self.at += 1
        return self.text[self.at - 1]

    def prefix(self):
        return (self.taken(), self.prefix()) if self.here() in PREFIX else self.leaf()

    def leaf(self):
        if self.here() and self.here() in '01':
            return (self.taken(),)
        if self.take('('):
            self.open += 1
            tree = self.arrow()
            if not self.take(')'):
                raise Bad(self.at, 'an operator (`U` `R` `&` `|` `->`) or a `)`')
            self.open -= 1
            return tree
        if self.take('p'):
            return self.name()
        raise Bad(self.at, self.OPERAND)

    def name(self):
        begin = self.at
        if not self.digit('0123456789'):
            raise Bad(self.at, 'the number of a signal, 0 to 15, right behind `p`')
        if self.text[begin] == '1':
            self.digit('012345')
        self.named.append((int(self.text[begin:self.at]), begin - 1))
        return ('p', int(self.text[begin:self.at]))

    def digit(self, among):
        letter = self.text[self.at:self.at + 1]
        found = letter != '' and letter in among
        self.at += found
        return found


def read_rule(text):
    if len(text) > BYTES:
        raise Bad(BYTES, 'the end of the rule: it has at most %d bytes' % BYTES)
    return Grammar(text).whole()


def write_rule(tree):
    """The text of a rule: as the box prints it, but for the outermost parentheses."""
    text = inner(tree, lambda k: 'p%d' % k)
    return text[1:-1] if text.startswith('(') and len(tree) == 3 else text


def inner(tree, name):
    sign = tree[0]
    if sign == 'p':
        return name(tree[1])
    if len(tree) == 1:
        return sign
    if len(tree) == 2:
        return sign + inner(tree[1], name)
    return '(%s%s%s)' % (inner(tree[1], name), sign, inner(tree[2], name))


# ---- in words ----

def in_words(tree, name, outermost=True):
    """A rule in words. Two-sided operators stand in parentheses, but for the outermost."""
    sign = tree[0]
    if sign == 'p':
        return name(tree[1])
    if len(tree) == 1:
        return WORDS[sign]
    if len(tree) == 2:
        return '%s %s' % (WORDS[sign], in_words(tree[1], name, False))
    left, right = in_words(tree[1], name, False), in_words(tree[2], name, False)
    text = 'if %s then %s' % (left, right) if sign == '->' else '%s %s %s' % (left, WORDS[sign], right)
    return text if outermost else '(%s)' % text


class Spoken:
    """Reads a rule in words, or in the grammar with names, from tokens (desk.words). A row of words that are none of the operators' is one name."""
    OPERAND = 'a signal\'s name, `(`, `not`, `next`, `sometime`, `always` or `if`'

    def __init__(self, tokens, signals, states=()):
        self.tokens, self.at, self.signals, self.states, self.open = tokens, 0, signals, states, 0
        if len(tokens) > TOKENS:
            raise Bad(tokens[TOKENS].begin, 'the end of the rule', 'It is too long: it has at most %d operators and names.' % SIZE)

    def here(self):
        """The operator that stands here, by its sign; else the text of a sign that is none; None for a part of a name."""
        token = self.tokens[self.at]
        if token.kind == 'word':
            return MEANT.get(token.text) or (token.text if token.text in RESERVED else None)
        return None if token.kind == 'quoted' else token.text

    def take(self, sign):
        found = self.here() == sign
        self.at += found
        return found

    def bad(self, expected, hint=''):
        return Bad(self.tokens[self.at].begin, expected, hint)

    def whole(self):
        tree = self.arrow()
        if self.tokens[self.at].kind != 'end':
            raise self.bad('`and`, `or`, `until`, `releases`, `->`%s or the end of the rule' % (', `)`' if self.open else ''))
        return tree

    def arrow(self):
        left = self.row('|', lambda: self.row('&', self.until))
        return ('->', left, self.arrow()) if self.take('->') else left

    row = Grammar.row

    def until(self):
        left = self.prefix()
        return (self.taken(), left, self.until()) if self.here() in UNTIL else left

    def taken(self):
        self.at += 1
        return MEANT.get(self.tokens[self.at - 1].text, self.tokens[self.at - 1].text)

    def prefix(self):
        return (self.taken(), self.prefix()) if self.here() in PREFIX else self.leaf()

    def leaf(self):
        if self.here() in ('0', '1'):
            return (self.taken(),)
        if self.take('if'):
            left = self.arrow()
            if not self.take('then'):
                raise self.bad('`and`, `or`, `until`, `releases` or `then`', 'Each `if` has its `then`.')
            return ('->', left, self.arrow())
        if self.take('('):
            self.open += 1
            tree = self.arrow()
            if not self.take(')'):
                raise self.bad('`and`, `or`, `until`, `releases`, `->` or a `)`')
            self.open -= 1
            return tree
        if self.here() is None:
            return self.name()
        raise self.bad(self.OPERAND, '"And" is one `&`, "or" is one `|`.' if self.here() in ('&', '|') else '')

    def name(self):
        first = self.at
        words = [self.tokens[self.at].text]
        self.at += 1
        while self.tokens[first].kind == 'word' and self.tokens[self.at].kind == 'word' and self.here() is None:
            words.append(self.tokens[self.at].text)
            self.at += 1
        name = ' '.join(' '.join(words).split())
        if name not in self.signals:
            raise Bad(self.tokens[first].begin, 'the name of a signal', no_signal(name, self.signals, self.states))
        return ('p', self.signals.index(name))


def no_signal(name, signals, states):
    """What may have been meant by a name that no signal has."""
    for word in name.split():
        if word.lower() in INSTEAD:
            return '`%s` is none of the words of a rule. To say it: %s.' % (word, INSTEAD[word.lower()])
        if word.lower() in MEANT and word not in MEANT:
            return 'The words of a rule are written small: `%s`.' % word.lower()
        if word[0] in 'XFG' and word[1:] in signals:
            return 'Put a space between `%s` and `%s`.' % (word[0], word[1:])
    known = [s for s in signals if set(s.split()) & RESERVED and s.startswith(name)]
    if known:
        return 'A name with a word of the rules in it stands in quotes here: "%s".' % known[0]
    if len(parted(name, signals)) > 1:
        return 'No signal is called `%s`. Is a word missing between %s: `and`, `or`, `until`?' % (name, listed('`%s`' % s for s in parted(name, signals)))
    if name in states:
        return '`%s` is a state, and a rule speaks of signals. Let a signal be on in that state, and name the signal.' % name
    return unknown(name, signals, 'signal')


# ---- what a rule says of a run ----

def judged(tree, labels, after):
    """The truth of each part of a rule along a row of labels, a list for each position: its last position is followed by position `after`, for ever round."""
    many = len(labels)
    follow = [i + 1 for i in range(many - 1)] + [after]
    values = {}

    def settle(start, rule):
        row = [start] * many
        for _ in range(2):                         # once round the loop, and once more with what came of it
            for i in reversed(range(many)):
                row[i] = rule(i, row[follow[i]])
        return row

    def walk(node):
        if node in values:
            return values[node]
        below = [walk(part) for part in node[1:]] if node[0] != 'p' else []
        values[node] = settle(node[0] in 'GR', lambda i, later: now(node, labels[i], [b[i] for b in below], [b[follow[i]] for b in below], later))
        return values[node]

    walk(tree)
    return values


def now(node, label, below, below_next, later):
    """The truth of a node by its label, its operands now and next, and its own truth next."""
    sign = node[0]
    if sign == 'p':
        return node[1] in label
    return {
        '0': lambda: False, '1': lambda: True, '!': lambda: not below[0], 'X': lambda: below_next[0],
        'F': lambda: below[0] or later, 'G': lambda: below[0] and later,
        'U': lambda: below[1] or below[0] and later, 'R': lambda: below[1] and (below[0] or later),
        '&': lambda: below[0] and below[1], '|': lambda: below[0] or below[1], '->': lambda: not below[0] or below[1],
    }[sign]()


def nodes(tree):
    """The different nodes of a rule, operands before operators."""
    found = []
    for part in tree[1:] if tree[0] != 'p' else ():
        found += [n for n in nodes(part) if n not in found]
    return found + ([tree] if tree not in found else [])
