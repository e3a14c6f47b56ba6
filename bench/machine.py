#!/usr/bin/env python3
"""Prints what a fixed machine takes to make, beside the C twin, and what a look-up takes; bench/machine calls it.

usage: bench/machine.py time|count ROOM ROUNDS   ROOM has machine, and count.so where instructions are counted, and gets a folder for each case.
"""
import os
import re
import subprocess
import sys

HOW, ROOM, ROUNDS = sys.argv[1], sys.argv[2], int(sys.argv[3]) if sys.argv[1] == 'time' else 1
HOME = os.path.dirname(os.path.dirname(os.path.abspath(__file__)))
PROGRAM, NUMBERS = os.path.join(ROOM, 'machine'), os.path.join(ROOM, 'count.txt')
UNIT, MANY = ('ms', 1e6) if HOW == 'time' else ('millions', 1e6)


def groups(count, labels):
    """64 states or a few less in so many groups, each state followed by all of the next group; its labels in turn; the first group starts."""
    size = 64 // count
    table = 'props=3\nstates=%d\nstart=%016x\njust=0\n' % (count * size, (1 << size) - 1)
    for state in range(count * size):
        after = ((1 << size) - 1) << (state // size + 1) % count * size
        table += 'label%d=%02x\nnext%d=%016x\n' % (state, state % size % labels, state, after)
    return table


def ring():
    """64 states in a ring, of which the first alone has p0: two of them are told apart by going round to it."""
    return 'props=3\nstates=64\nstart=%016x\njust=0\n' % 1 + ''.join('label%d=%02x\nnext%d=%016x\n' % (s, s == 0, s, 1 << (s + 1) % 64) for s in range(64))


# A worked plant, or a table and a rule.
CASES = {
    'W': 'crates/machine/data',
    'turbine': 'examples/turbine',
    'ahead': (groups(1, 8), 'XXXXXXp0'),
    'ahead-3': (groups(3, 4), 'XXXXXXp0'),
    'groups': (groups(8, 8), 'FGp0|FGp1|FGp2'),
    'ring': (ring(), 'p0'),
}
LOOKED_UP = ('W', 'turbine', 'ahead')
# How many turns are few and how many are more: for a machine, for events by a call each, for steps, for many events in a call. A count needs few turns, and is the
# same each time; a time needs so many that what the processor does beside it is little.
TURNS = {'count': ((1, 3), (100000, 300000), (100, 600), (102400, 307200)),
         'time': ((2, 22), (1000000, 11000000), (100, 2100), (1024000, 11264000))}[HOW]


def folder(name):
    """The folder of a case."""
    case = CASES[name]
    if isinstance(case, str):
        return os.path.join(HOME, case)
    path = os.path.join(ROOM, 'machine-' + name)
    os.makedirs(path, exist_ok=True)
    for file, text in zip(('plant.txt', 'rule.txt'), case):
        with open(os.path.join(path, file), 'w') as out:
            out.write(text)
    return path


def used_by(words, name):
    """The processor time of a run in a case's folder, in ns, and what it wrote and told."""
    child = subprocess.Popen(words, cwd=folder(name), stdout=subprocess.PIPE, stderr=subprocess.PIPE)
    said, told = child.stdout.read(), child.stderr.read()
    _, status, used = os.wait4(child.pid, 0)
    child.returncode = status
    if status:
        sys.exit('bench: %s failed on %s' % (' '.join(words), name))
    return (used.ru_utime + used.ru_stime) * 1e9, said, told


def run(name, mode, turns):
    """What a run took, in ns or in instructions, what it wrote, and what it told on the error stream."""
    words = [PROGRAM, mode, str(turns)]
    if HOW == 'count':
        done = subprocess.run(['qemu-x86_64', '-plugin', os.path.join(ROOM, 'count.so')] + words, cwd=folder(name), env=dict(os.environ, COUNT_FILE=NUMBERS),
                              stdout=subprocess.PIPE, stderr=subprocess.PIPE, check=True)
        with open(NUMBERS) as file:
            return sum(int(line.split(' ', 1)[0]) for line in file), done.stdout, done.stderr
    return used_by(words, name)


def each(name, modes, turns, idle=()):
    """What one turn beyond the first few takes in each mode, without what it takes in the idle one. All modes must say the same."""
    (few, more), took, heard, told = turns, {}, {}, ''
    for _ in range(ROUNDS):
        for mode in modes + idle:
            for many in turns:
                spent, said, beside = run(name, mode, many)
                took[mode, many] = min(spent, took.get((mode, many), spent))
                told = told or beside.decode()
                if mode in modes and heard.setdefault(many, said) != said:
                    sys.exit('bench: on %s %s says something else' % (name, mode))
    one = {mode: (took[mode, more] - took[mode, few]) / (more - few) for mode in modes + idle}
    return {mode: one[mode] - sum(one[other] for other in idle) for mode in modes}, heard[more].decode(), told


def alone(name, level, modes, idle):
    """What an event takes on this processor in C alone, in ns, in each mode, without what it takes in the idle one. The modes take turns, and the least of each counts."""
    few, more, took = 1000000, 11000000, {}
    for _ in range(7):
        for mode in modes + (idle,):
            for turns in (few, more):
                spent = used_by([os.path.join(ROOM, 'alone' + level), mode, str(turns)], name)[0]
                took[mode, turns] = min(spent, took.get((mode, turns), spent))
    one = {mode: (took[mode, more] - took[mode, few]) / (more - few) for mode in modes + (idle,)}
    return [one[mode] - one[idle] for mode in modes]


def natively():
    """What a look-up takes on this processor in C alone, in ns: with the same checks by a call, with them within the loop, and with none; and many in a call, with them and with none."""
    print('\nan event in C, in ns of this processor (%s)' % os.uname().machine)
    print('%-10s %-4s %8s %8s %8s %16s %15s %8s %8s %16s' % (
        'case', 'at', 'checked', 'inside', 'bare', 'checked to bare', 'inside to bare', 'through', 'over', 'through to over'))
    for level in ('-O2', '-O3'):
        for name in LOOKED_UP:
            checked, inside, bare = alone(name, level, ('checked', 'inside', 'bare'), 'none')
            through, over = alone(name, level, ('through', 'over'), 'shown')
            print('%-10s %-4s %8.2f %8.2f %8.2f %16.2f %15.2f %8.2f %8.2f %16.2f' % (
                name, level, checked, inside, bare, checked / bare, inside / bare, through, over, through / over), flush=True)


def main():
    print('a machine, in %s' % UNIT)
    print('%-10s %8s %6s %10s %10s %14s' % ('case', 'states', 'rows', 'make', 'twin', 'make to twin'))
    for name in CASES:
        took, said, told = each(name, ('make', 'twin'), TURNS[0])
        states = re.search(r'states=(\d+)', told).group(1)
        print('%-10s %8s %6s %10.2f %10.2f %14.2f' % (name, states, said.split()[0], took['make'] / MANY, took['twin'] / MANY, took['make'] / took['twin']), flush=True)
    print('\nan event, in %s' % ('ns' if HOW == 'time' else 'instructions'))
    print('%-10s %8s %8s %8s %8s %10s %13s %16s %13s' % ('case', 'look', 'bare', 'checked', 'inside', 'step', 'look to bare', 'look to checked', 'step to look'))
    for name in LOOKED_UP:
        took = each(name, ('look', 'bare', 'checked', 'inside'), TURNS[1], ('none',))[0]
        step = each(name, ('step', 'look'), TURNS[2], ('none',))[0]['step']
        print('%-10s %8.1f %8.1f %8.1f %8.1f %10.1f %13.2f %16.2f %13.0f' % (
            name, took['look'], took['bare'], took['checked'], took['inside'], step, took['look'] / took['bare'], took['look'] / took['checked'], step / took['look']), flush=True)
    print('\nmany events in a call, an event in %s' % ('ns' if HOW == 'time' else 'instructions'))
    print('%-10s %8s %8s %8s %14s %17s' % ('case', 'steps', 'through', 'over', 'steps to over', 'steps to through'))
    for name in LOOKED_UP:
        took = each(name, ('steps', 'through', 'over'), TURNS[3], ('shown',))[0]
        print('%-10s %8.1f %8.1f %8.1f %14.2f %17.2f' % (
            name, took['steps'], took['through'], took['over'], took['steps'] / took['over'], took['steps'] / took['through']), flush=True)
    natively()


main()
