"""What tools/report writes of the worked plants and of thrown ones: the program `judge` accepts each. Where the log is refused, there is none."""
import glob
import os
import shutil
import subprocess
import sys
import tempfile

HOME = os.path.dirname(os.path.dirname(os.path.dirname(os.path.abspath(__file__))))
sys.path.insert(0, os.path.join(HOME, 'tests', 'plant'))

import thrown

from desk import program


def tool(*words):
    done = subprocess.run([sys.executable, '-B', os.path.join(HOME, 'tools', 'report')] + list(words), stdout=subprocess.PIPE, stderr=subprocess.PIPE, check=False)
    return done.returncode, done.stdout.decode(), done.stderr.decode()


def fail(text):
    sys.exit('reports: %s' % text)


def put(folder, name, text):
    with open(os.path.join(folder, name), 'w', encoding='latin-1', newline='') as file:
        file.write(text)


def own(folder):
    """The claim of the report that the tool writes of a folder; `judge` accepts it."""
    status, text, wrong = tool(folder)
    if status or wrong:
        fail('tools/report %s: %s' % (folder, wrong))
    put(folder, 'report.txt', text)
    said = program.run('judge', folder)
    if said != 'accepted: the report is right\n':
        fail('our own report on %s is answered so: %s%s' % (folder, said, text[:2000]))
    return text.split('\n', 1)[0]


def guide(report):
    """The guide shows this report, line by line."""
    with open(os.path.join(HOME, 'docs', 'GUIDE.md'), encoding='utf-8') as file:
        if ''.join('    %s\n' % line for line in report.splitlines()) not in file.read():
            fail('docs/GUIDE.md shows another report on the bottling line than tools/report writes:\n%s' % report)


def main():
    claims = {}
    with tempfile.TemporaryDirectory() as room:
        folders = []
        for folder in sorted(glob.glob(os.path.join(HOME, 'examples', '*', ''))):
            folders.append(os.path.join(room, os.path.basename(os.path.dirname(folder))))
            shutil.copytree(folder, folders[-1])
        for k in range(40):
            dice = thrown.dice('reports %d' % k)
            plant = thrown.plant(dice, states=dice.choice([2, 3, 5, 20]), props=dice.choice([2, 9]), busy=True)
            folders.append(os.path.join(room, 't%d' % k))
            thrown.put(folders[-1], plant, thrown.walked(dice, plant.table, dice.choice([0, 1, 3, 8]), k % 3 == 0))
        guide(tool(os.path.join(HOME, 'examples', 'bottling'))[1])
        for folder in folders:
            claim = own(folder)
            claims[claim] = claims.get(claim, 0) + 1
        if len(claims) < 4:
            fail('not every verdict is claimed: %s' % claims)
        here = os.path.join(room, 'wrong')
        shutil.copytree(os.path.join(HOME, 'tests', 'reports', 'data', 'right'), here)
        put(here, 'log.txt', 'see=03')
        status, said, wrong = tool(here)
        if status == 0 or said or 'Refusal 12' not in wrong:
            fail('of a log that is refused there is no report: %s%s' % (said, wrong))
    print('reports: %d reports of our own are accepted: %s' % (sum(claims.values()), ', '.join('%d %s' % (many, claim) for claim, many in sorted(claims.items()))))


main()
