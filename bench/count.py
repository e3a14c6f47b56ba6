#!/usr/bin/env python3
"""Prints instructions where bench/measure.py prints times: of the proved programs beside the C twin, and of a witness beside a prepare; bench/count
calls it. In between, those of the function `lamp` alone, which finds the verdict and counts `left`.

usage: bench/count.py BIN ROOM DRAWN SEED [BEFORE]   BIN has timing and watch, and so has BEFORE, of an earlier state; ROOM has twin, count.so and
x86-64, the folder of the C library, and gets a folder for each case. DRAWN is `twin` where no witness is asked for.
"""
import os
import subprocess
import sys

import cases
import twins
import witnesses

BIN, ROOM = sys.argv[1:3]
COUNT, SEED = sys.argv[3], int(sys.argv[4])
DRAWN, HARD = cases.listed()
TIMING, WATCH = twins.programs(BIN, ROOM, sys.argv[5:])
NUMBERS = os.path.join(ROOM, 'count.txt')
EMULATOR = ['qemu-x86_64', '-L', os.path.join(ROOM, 'x86-64'), '-plugin', os.path.join(ROOM, 'count.so')]


def counted(words, folder):
    """The instructions of a run in the folder, by function, and what it wrote."""
    said = subprocess.run(EMULATOR + words, cwd=folder, env=dict(os.environ, COUNT_FILE=NUMBERS), stdout=subprocess.PIPE, check=True).stdout
    with open(NUMBERS) as file:
        return [(int(count), name) for count, name in (line.rstrip('\n').split(' ', 1) for line in file)], said


def whole(words, folder):
    """In thousands."""
    counts, said = counted(words, folder)
    return sum(count for count, _ in counts) / 1e3, said


def lamp(words, folder):
    """Those of `lamp` alone, by value or of lent sets, whatever its crate is, and whatever the compiler put behind its name."""
    counts, said = counted(words, folder)
    return sum(count for count, name in counts if name.split('::')[-1].split('.')[0] in ('lamp', 'lamp_of')) / 1e3, said


def witness_counts(words):
    """Of a prepare and of a witness of each kind."""
    folder = cases.folder(ROOM, words)
    return witnesses.costs(folder, lambda: whole(TIMING['proved'], folder), 10, 10, 1)


twins.steps(DRAWN, ROOM, 'thousands', TIMING, whole, 1, {'prepares': 10, 'logs': 10})
twins.logs(DRAWN, ROOM, 'thousands', WATCH, whole, 1)
twins.lengths('blind-1', DRAWN['blind-1'], ROOM, 'thousands', WATCH, whole, 1)
print('lamp alone:')
twins.steps(DRAWN, ROOM, 'thousands', TIMING, lamp, 1, {'logs': 10})
twins.logs(DRAWN, ROOM, 'thousands', WATCH, lamp, 1, whole=False)
for kind in () if COUNT == 'twin' else (DRAWN, HARD, cases.fresh(int(COUNT), SEED)):
    if kind:
        witnesses.table(kind, 'thousands', witness_counts)
