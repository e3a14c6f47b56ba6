"""What a witness takes beside a prepare of the same program, by time or by instructions."""
import os
import statistics

KINDS = ('keeping', 'breaking')
NONE = {'prepares': 0, 'logs': 0, 'keeping': 0, 'breaking': 0}


def write_turns(folder, **turns):
    """What the program is to do, and how often: see crates/timing."""
    with open(os.path.join(folder, 'turns.txt'), 'w') as file:
        file.write('prepares=%(prepares)03d logs=%(logs)03d keeping=%(keeping)03d breaking=%(breaking)03d\n' % dict(NONE, **turns))


def costs(folder, measure, prepares, asked, rounds):
    """What a prepare takes, and a witness of each kind, None where there is no such run: `measure` runs the program, and gives what the
    run took and what it wrote. The least of all rounds counts."""
    turns = {'none': {}, 'prepare': {'prepares': prepares}, 'keeping': {'keeping': asked}, 'breaking': {'breaking': asked}}
    least, said = {}, {}
    for _ in range(rounds):
        for name, counts in turns.items():
            write_turns(folder, **counts)
            took, said[name] = measure()
            least[name] = min(took, least.get(name, took))
    cost = {'prepare': (least['prepare'] - least['none']) / prepares}
    for place, kind in enumerate(KINDS):
        there = said[kind].split()[2 + place] != b'0'
        cost[kind] = (least[kind] - least['none']) / asked if there else None
    return cost


def table(cases, unit, cost):
    """A row for each case, and the ratios: cost(words) gives what `costs` does."""
    width = max(len(name) for name in cases)
    print('%-*s %11s   %20s   %20s' % (width, '', 'prepare', 'a run that keeps', 'a run that breaks'))
    print('%-*s %11s ' % (width, 'case', unit) + 2 * '  %11s  %6s ' % ((unit, 'ratio') * 2))
    ratios = {}
    for name, words in cases.items():
        took = cost(words)
        row = '%-*s %11.1f ' % (width, name, took['prepare'])
        for kind in KINDS:
            if took[kind] is None:
                row += '  %11s  %6s ' % ('-', '-')
            else:
                ratios[name, kind] = took[kind] / took['prepare']
                row += '  %11.1f  %6.2f ' % (took[kind], ratios[name, kind])
        print(row, flush=True)
    low, high = min(ratios, key=ratios.get), max(ratios, key=ratios.get)
    print('witness to prepare, %d runs: median %.2f; from %.2f (%s) to %.2f (%s)\n' % (
        len(ratios), statistics.median(ratios.values()), ratios[low], low[0], ratios[high], high[0]))
