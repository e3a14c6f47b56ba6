#!/usr/bin/env python3
"""Prints what a whole log takes by the library for C programs, beside stepping one by one and beside the C twin; bench/whole calls it.

usage: bench/whole.py time|count ROOM ROUNDS [scraps]   ROOM has whole, and count.so and x86-64, the folder of the C library, where instructions are counted, and gets a folder for each case.
With `scraps`: what it takes where it comes in scraps of 1, 20 and 4,096 bytes, beside the whole log in one call.
"""
import os
import subprocess
import sys

import cases
from witnesses import write_turns

HOW, ROOM, ROUNDS = sys.argv[1], sys.argv[2], int(sys.argv[3]) if sys.argv[1] == 'time' else 1
WHOLE, NUMBERS = os.path.join(ROOM, 'whole'), os.path.join(ROOM, 'count.txt')
TIMING = os.path.abspath(os.path.join('target', 'bin', 'timing'))
MODES = ('call', 'steps', 'twin')
SHOWN = ('call', 'steps', 'step', 'twin')
SHORT, LONG = 100, 1100
LENGTHS = (1000, 10000, 100000, 1000000)
# Scraps of so many bytes, and the lines between which a line is measured: 1,024 lines, of 20 or of 24 bytes, are whole scraps of 4,096.
SIZES = {'take-1': (5, 25), 'take-20': (100, 400), 'take-4096': (1024, 2048)}


def run(folder, words):
    """What a run took, in ns or in instructions, and what it wrote."""
    if HOW == 'count':
        emulator = ['qemu-x86_64', '-L', os.path.join(ROOM, 'x86-64'), '-plugin', os.path.join(ROOM, 'count.so')]
        said = subprocess.run(emulator + words, cwd=folder, env=dict(os.environ, COUNT_FILE=NUMBERS), stdout=subprocess.PIPE, check=True).stdout
        with open(NUMBERS) as file:
            return sum(int(line.split(' ', 1)[0]) for line in file), said
    child = subprocess.Popen(words, cwd=folder, stdout=subprocess.PIPE)
    said = child.stdout.read()
    _, status, used = os.wait4(child.pid, 0)
    child.returncode = status
    if status:
        sys.exit('bench: %s failed in %s' % (' '.join(words), folder))
    return (used.ru_utime + used.ru_stime) * 1e9, said


def events(folder, modes, short, long):
    """What an event beyond `short` takes in each mode. All modes must say the same."""
    cost, heard = {}, {}
    for lines in (short, long):
        took = {}
        for _ in range(ROUNDS):
            for mode in modes + ('none',):
                spent, said = run(folder, [WHOLE, mode, str(lines)])
                took[mode] = min(spent, took.get(mode, spent))
                if mode != 'none' and heard.setdefault(lines, said) != said:
                    sys.exit('bench: in %s the verdicts differ' % folder)
        for mode in modes:
            cost[mode, lines] = took[mode] - took['none']
    return {mode: (cost[mode, long] - cost[mode, short]) / (long - short) for mode in modes}


def step(folder):
    """What an event beyond SHORT takes by the step itself, with all values handed over: the program `timing` on one log."""
    path, took = os.path.join(folder, 'log.txt'), {}
    with open(path) as file:
        log = file.readlines()
    write_turns(folder, logs=1)
    for lines in (SHORT, LONG):
        with open(path, 'w') as file:
            file.writelines(log[:lines])
        took[lines] = min(run(folder, [TIMING])[0] for _ in range(ROUNDS))
    return (took[LONG] - took[SHORT]) / (LONG - SHORT)


def scraps(drawn, unit):
    modes = ('call',) + tuple(SIZES)
    print('a line of a log in scraps, in %s' % unit)
    print('%-14s' % 'case' + ''.join(' %12s' % mode for mode in modes))
    total = dict.fromkeys(modes, 0)
    for case, words in drawn.items():
        folder = cases.folder(ROOM, words + ['lines=%d' % max(long for _, long in SIZES.values())])
        took = events(folder, ('call',), SHORT, LONG)
        for mode, (short, long) in SIZES.items():
            took[mode] = events(folder, ('call', mode), short, long)[mode]
        print('%-14s' % case + ''.join(' %12.0f' % took[mode] for mode in modes), flush=True)
        for mode in modes:
            total[mode] += took[mode]
    print('%-14s' % 'all' + ''.join(' %12.0f' % total[mode] for mode in modes))


def main():
    drawn = cases.listed()[0]
    unit = 'ns' if HOW == 'time' else 'instructions'
    if sys.argv[4:] == ['scraps']:
        return scraps(drawn, unit)
    print('an event, in %s' % unit)
    print('%-14s' % 'case' + ''.join(' %10s' % mode for mode in SHOWN) + ' %12s %13s %13s' % ('call to twin', 'steps to call', 'steps to step'))
    total = dict.fromkeys(SHOWN, 0)
    for case, words in drawn.items():
        folder = cases.folder(ROOM, words + ['lines=%d' % LONG])
        took = events(folder, MODES, SHORT, LONG)
        took['step'] = step(folder)
        show(case, took)
        for mode in SHOWN:
            total[mode] += took[mode]
    show('all', total)
    print('\nan event of logs of growing length, of seeing-3, in %s' % unit)
    folder = cases.folder(ROOM, drawn['seeing-3'] + ['lines=%d' % LENGTHS[-1]])
    for lines in LENGTHS:
        took = events(folder, ('call', 'twin'), SHORT, lines)
        print('%8d lines  call %10.1f  twin %10.1f' % (lines, took['call'], took['twin']), flush=True)


def show(case, took):
    print('%-14s' % case + ''.join(' %10.1f' % took[mode] for mode in SHOWN)
          + ' %12.2f %13.2f %13.2f' % (took['call'] / took['twin'], took['steps'] / took['call'], took['steps'] / took['step']), flush=True)


main()
