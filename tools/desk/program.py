"""The proved programs: started, and their lines read."""
import collections
import os
import re
import shlex
import subprocess

from desk.trouble import Trouble

HOME = os.path.dirname(os.path.dirname(os.path.dirname(os.path.abspath(__file__))))
VERDICTS = ('true', 'false', 'inconclusive', 'out-of-model')

Lamp = collections.namedtuple('Lamp', 'number verdict left')                  # number: None for the start
Shown = collections.namedtuple('Shown', 'start lamps refused')                # refused: None, or its number and place
Way = collections.namedtuple('Way', 'stem loop')                              # how a run goes on


def path_of(program):
    return os.path.join(HOME, 'target', 'bin', program)


def is_built(program):
    return os.path.exists(path_of(program))


def building(program):
    """What to type to have a program."""
    here = os.path.realpath(os.curdir) == os.path.realpath(HOME)
    return '%s %s' % ('tools/build' if here else shlex.quote(os.path.join(HOME, 'tools', 'build')), program)


def run(program, folder):
    """What a program writes on a folder."""
    if not is_built(program):
        raise Trouble('the program target/bin/%s is not there. This proves and builds it; the first time it takes some minutes:\n    %s' % (program, building(program)))
    words, folder = [os.path.join(HOME, 'tests', 'launch'), path_of(program)], os.path.abspath(folder)
    # A program takes a path that is UTF-8 alone. Where the folder's name is not, it is started there.
    is_text = not any('\udc80' <= sign <= '\udcff' for sign in folder)
    done = subprocess.run(words + [folder] * is_text, cwd=None if is_text else folder, stdout=subprocess.PIPE, stderr=subprocess.PIPE, check=False)
    if done.returncode or done.stderr:
        raise Trouble('the program %s could not be run here: %s' % (program, done.stderr.decode('utf-8', 'replace').strip() or 'status %d' % done.returncode))
    return done.stdout.decode('ascii')


def read_lamps(output, source):
    """The lamps of an output of `watch`."""
    start, lamps, refused = None, [], None
    for line in output.splitlines():
        lamp = re.fullmatch(r'(?:start|n=(\d{1,10})) verdict=(%s) left=(\d{1,3})' % '|'.join(VERDICTS), line)
        refusal = re.fullmatch(r'refused=(\d{1,3}) place=(\d{1,10})', line)
        if refused or not (lamp or refusal) or lamp and line.startswith('start') != (start is None):
            raise Trouble('%s is no output of the program `watch`: its line `%s` does not fit' % (source, line[:60]))
        if refusal:
            refused = (int(refusal.group(1)), int(refusal.group(2)))
        elif start is None:
            start = Lamp(None, lamp.group(2), int(lamp.group(3)))
        else:
            lamps.append(Lamp(int(lamp.group(1)), lamp.group(2), int(lamp.group(3))))
    if start is None and refused is None:
        raise Trouble('%s is no output of the program `watch`: it has no line of the start' % source)
    return Shown(start, lamps, refused)


def watched(folder):
    return read_lamps(run('watch', folder), 'what the program wrote')


def ways(folder):
    """How a run of each kind goes on behind a folder's log: keeps, breaks; None where there is none of the kind."""
    found = {}
    for line in run('runs', folder).splitlines():
        way = re.fullmatch(r'(keeps|breaks) stem=([\d,]*) loop=([\d,]+)', line)
        none = re.fullmatch(r'(keeps|breaks) refused=13 place=0', line)
        if not way and not none:
            raise Trouble('the program `runs` wrote `%s`, which this tool does not know' % line)
        found[(way or none).group(1)] = Way(states(way.group(2)), states(way.group(3))) if way else None
    return found['keeps'], found['breaks']


def states(text):
    return [int(word) for word in text.split(',') if word]
