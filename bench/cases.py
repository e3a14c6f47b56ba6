"""The cases that the benches go by: those of cases.txt, and fresh ones by a seed."""
import os
import random
import subprocess

HERE = os.path.dirname(os.path.abspath(__file__))
KEYS = {'moves': ['2', '3', '8', 'chain', 'stays', 'rings2', 'rings3', 'rings4', 'ring'], 'fair': ['1', '16', 'all', 'last'], 'labels': ['drawn', 'rare'],
        'rule': ['drawn', 'drawn', 'again', 'nested', 'untils', 'ahead'], 'operators': ['XFGUR', 'X', 'U', 'F', 'GF', 'UR']}


def listed():
    """Names and words of the drawn cases, and of those that are hard for a witness."""
    drawn, hard = {}, {}
    into = drawn
    with open(os.path.join(HERE, 'cases.txt')) as file:
        for line in file:
            if line.startswith('--'):
                into = hard
            elif not line.startswith('#'):
                name, *words = line.split()
                into[name] = words
    return drawn, hard


def fresh(count, seed):
    """As many cases of all kinds: what a case is drawn by is its name too."""
    draw = random.Random(seed)
    cases = {}
    for _ in range(count):
        words = [str(draw.randrange(10 ** 6))] + [key + '=' + draw.choice(values) for key, values in KEYS.items()]
        cases[' '.join(words)] = words
    return cases


def folder(room, words, more=()):
    """The folder of a case, which is drawn anew, by more words than it is named by."""
    path = os.path.join(room, '-'.join(words))
    subprocess.run(['python3', os.path.join(HERE, 'draw_case.py'), path] + words + list(more), check=True)
    return path
