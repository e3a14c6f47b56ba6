#!/usr/bin/env python3
"""Prints what it takes to judge a neighbour's report at the limits; bench/reports calls it.

usage: bench/reports.py time|count ROOM ROUNDS   ROOM has reports, and count.so where instructions are counted.
"""
import os
import subprocess
import sys

HOW, ROOM, ROUNDS = sys.argv[1], sys.argv[2], int(sys.argv[3]) if sys.argv[1] == 'time' else 1
REPORTS, NUMBERS = os.path.join(ROOM, 'reports'), os.path.join(ROOM, 'count.txt')
STATES = (2, 64, 1024, 4096)
# How often a report is judged in one run: a time wants many, a count one.
TURNS = 20 if HOW == 'time' else 1


def run(nodes, states, lines, turns):
    """What a run took, in ns or in instructions."""
    words = [REPORTS] + [str(n) for n in (nodes, states, lines, turns)]
    if HOW == 'count':
        subprocess.run(['qemu-x86_64', '-plugin', os.path.join(ROOM, 'count.so')] + words, env=dict(os.environ, COUNT_FILE=NUMBERS), check=True)
        with open(NUMBERS) as file:
            return sum(int(line.split(' ', 1)[0]) for line in file)
    child = subprocess.Popen(words)
    _, status, used = os.wait4(child.pid, 0)
    child.returncode = status
    if status:
        sys.exit('bench: %s failed' % ' '.join(words))
    return (used.ru_utime + used.ru_stime) * 1e9


def report(nodes, states, lines):
    """What one report takes: the least of some runs, without what a run takes that judges none."""
    return (min(run(nodes, states, lines, TURNS) for _ in range(ROUNDS)) - min(run(nodes, states, lines, 0) for _ in range(ROUNDS))) / TURNS


def main():
    print('a report, in thousands of %s, by the states of each of its two runs' % ('instructions' if HOW == 'count' else 'ns'))
    print('%6s %6s' % ('lines', 'nodes') + ''.join(' %10d' % states for states in STATES) + '   a node at a position')
    for lines in (0, 3276):
        for nodes in (4, 32):
            took = [report(nodes, states, lines) for states in STATES]
            more = (took[-1] - took[0]) / (2 * nodes * (STATES[-1] - STATES[0]))
            print('%6d %6d' % (lines, nodes) + ''.join(' %10.0f' % (each / 1000) for each in took) + '   %.1f' % more, flush=True)


main()
