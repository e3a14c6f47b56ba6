"""What the proved programs take beside the C twin, by time or by instructions: a prepare, a step and a restart, and the program on whole logs.

`programs` gives for each name the words that start it: `proved`, `twin`, and `before` where an earlier state is asked for. `measure(words,
folder)` runs one in the folder, and gives what the run took and what it wrote.
"""
import os
import statistics
import sys

import cases
from witnesses import write_turns

LINES = (1, 819, 1638, 3276)
WIDE = 2730


def programs(binaries, room, before):
    """Those for prepares and steps, and those for whole logs; `before` is a list of at most one folder."""
    folders = dict([('before', folder) for folder in before] + [('proved', binaries)])
    twin = os.path.join(room, 'twin')
    return (dict({name: [os.path.join(folder, 'timing')] for name, folder in folders.items()}, twin=[twin]),
            dict({name: [os.path.join(folder, 'watch')] for name, folder in folders.items()}, twin=[twin, 'watch']))


def least(folder, programs, variants, measure, rounds, heard):
    """For each variant, which is laid into the folder, what each program took at the least; and what was heard of each variant, which must be the
    same from all programs. They take turns, so that all meet the same load."""
    took, wrote = {}, {}
    for _ in range(rounds):
        for variant, lay in variants.items():
            lay()
            for name, words in programs.items():
                cost, said = measure(words, folder)
                took[variant, name] = min(cost, took.get((variant, name), cost))
                if wrote.setdefault(variant, heard(said)) != heard(said):
                    sys.exit('bench: in %s the results differ' % folder)
    return took, wrote


def table(drawn, unit, programs, columns, cost):
    """A row for each case and one for all together: cost(words) gives what each program takes for each column."""
    width = 11 * len(programs) + 7
    print('%-10s' % unit + ''.join(' %*s' % (width, column) for column in columns))
    print('%-10s' % 'case' + (''.join(' %10s' % name for name in programs) + ' %7s' % 'ratio') * len(columns))
    total, ratios = {}, {column: [] for column in columns}

    def show(case, took):
        row = '%-10s' % case
        for column in columns:
            row += ''.join(' %10.1f' % took[column, name] for name in programs) + ' %7.2f' % (took[column, 'proved'] / took[column, 'twin'])
        print(row, flush=True)
    for case, words in drawn.items():
        took = cost(words)
        for key in took:
            total[key] = total.get(key, 0) + took[key]
        for column in columns:
            ratios[column].append(took[column, 'proved'] / took[column, 'twin'])
        show(case, took)
    show('all', total)
    for column in columns:
        of = ratios[column]
        print('%s, proved to twin: all together %.2f; by case from %.2f to %.2f, median %.2f' % (
            column, total[column, 'proved'] / total[column, 'twin'], min(of), max(of), statistics.median(of)))
        if 'before' in programs:
            print('%s, proved to before: all together %.3f' % (column, total[column, 'proved'] / total[column, 'before']))
    print()


def steps(drawn, room, unit, programs, measure, rounds, turns):
    """What a prepare, a step and a restart take: turns gives how often each is done, a step and a restart by logs of 100 lines. Beside an earlier
    state, which may restart in another way, no restart is asked for."""
    many = {'prepare': turns.get('prepares'), 'step': turns['logs'] * 100, 'restart': 'before' not in programs and turns['logs'] * 100}
    columns = [column for column in many if many[column]]
    ratios = []

    def cost(words):
        folder = cases.folder(room, words)

        def lay(more=(), **turns):
            cases.folder(room, words, more)
            write_turns(folder, **turns)
        asked = {'step': lambda: lay(logs=turns['logs']), 'restart': lambda: lay(['new=1'], logs=turns['logs']),
                 'prepare': lambda: lay(prepares=turns.get('prepares'))}
        variants = dict({column: asked[column] for column in columns}, none=lay)
        # of the digests that the proved program writes, the twin has the first two
        took, _ = least(folder, programs, variants, measure, rounds, lambda said: said.split()[:2])
        costs = {(column, name): (took[column, name] - took['none', name]) / many[column] for column in columns for name in programs}
        if 'restart' in columns:
            ratios.append(costs['restart', 'proved'] / costs['step', 'proved'])
        return costs
    table(drawn, unit, programs, columns, cost)
    if ratios:
        print('restart to step, proved: by case from %.3f to %.3f, median %.3f\n' % (min(ratios), max(ratios), statistics.median(ratios)))


def log_costs(room, words, programs, measure, rounds, lengths):
    """What the program takes on as many lines of a log. What it writes for a shorter log begins what it writes for a longer one."""
    folder = cases.folder(room, words + ['lines=%d' % max(lengths)])
    path = os.path.join(folder, 'log.txt')
    with open(path) as file:
        log = file.readlines()

    def lay(count):
        with open(path, 'w') as file:
            file.writelines(log[:count])
    took, wrote = least(folder, programs, {count: lambda count=count: lay(count) for count in lengths}, measure, rounds, lambda said: said)
    for count in lengths:
        if wrote[count].count(b'\n') != count + 1 or not wrote[max(lengths)].startswith(wrote[count]):
            sys.exit('bench: in %s the lines of the program are not those of the log' % folder)
    return took


def logs(drawn, room, unit, programs, measure, rounds, whole=True):
    """What the program takes on the longest log, where that is asked for, and for a line of it beyond the first. With 16 propositions lines are wider,
    and fewer."""
    short = LINES[0]
    columns = ['longest log', 'a line'] if whole else ['a line']

    def cost(words):
        long = WIDE if 'props=16' in words else LINES[-1]
        took = log_costs(room, words, programs, measure, rounds, (short, long))
        costs = {('a line', name): (took[long, name] - took[short, name]) / (long - short) for name in programs}
        if whole:
            costs.update({(columns[0], name): took[long, name] for name in programs})
        return costs
    table(drawn, unit, programs, columns, cost)


def lengths(case, words, room, unit, programs, measure, rounds):
    """What the program takes on logs of growing length of one case."""
    took = log_costs(room, words, programs, measure, rounds, LINES)
    print('the program on logs of %s, and for a line beyond the first, in %s' % (case, unit))
    print('lines' + ''.join('   %12s %12s' % (name, 'a line') for name in programs))
    for count in LINES:
        row = '%5d' % count
        for name in programs:
            more = (took[count, name] - took[1, name]) / (count - 1) if count > 1 else 0
            row += '   %12.1f %12s' % (took[count, name], '%.2f' % more if more else '-')
        print(row)
    print()
