#!/usr/bin/env python3
"""Times whole runs by the processor time that they take, and prints ratios; bench/run calls it.

usage: bench/measure.py BIN ROOM ROUNDS [BEFORE]   BIN has timing and watch, and so has BEFORE, of an earlier state; ROOM has twin and gets a folder
for each case.
"""
import os
import subprocess
import sys

import cases
import twins
import witnesses

BIN, ROOM, ROUNDS = sys.argv[1], sys.argv[2], int(sys.argv[3])
DRAWN, HARD = cases.listed()
PREPARES, LOGS, WITNESSES = 400, 40, 100
TIMING, WATCH = twins.programs(BIN, ROOM, sys.argv[4:])


def run(words, folder):
    """The processor time, user and system, of a run in the folder, in microseconds, and what it wrote."""
    reading, writing = os.pipe()
    child = subprocess.Popen(words, cwd=folder, stdout=writing)
    os.close(writing)
    with os.fdopen(reading, 'rb') as pipe:
        said = pipe.read()
    _, status, used = os.wait4(child.pid, 0)
    child.returncode = status
    if status:
        sys.exit('bench: %s failed in %s' % (words[0], folder))
    return (used.ru_utime + used.ru_stime) * 1e6, said


def witness_times(words):
    """Of a prepare and of a witness of each kind by the proved program."""
    folder = cases.folder(ROOM, words)
    return witnesses.costs(folder, lambda: run(TIMING['proved'], folder), PREPARES, WITNESSES, ROUNDS)


twins.steps(DRAWN, ROOM, 'us', TIMING, run, ROUNDS, {'prepares': PREPARES, 'logs': LOGS})
twins.logs(DRAWN, ROOM, 'us', WATCH, run, ROUNDS)
twins.lengths('blind-1', DRAWN['blind-1'], ROOM, 'us', WATCH, run, ROUNDS)
print('all results are the same\n')
for kind in (DRAWN, HARD):
    witnesses.table(kind, 'us', witness_times)
