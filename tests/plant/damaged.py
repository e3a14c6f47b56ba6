"""Whole tools on damaged folders: whatever stands in their files, they end with words."""
import contextlib
import importlib.machinery
import importlib.util
import io
import os
import shutil
import traceback

import thrown
from thrown import HOME

from desk.trouble import Trouble

PIECES = [b'', b',', b':', b';', b'(', b')', b'"', b'=', b' ', b'\n', b'#', b'!', b'->', b'-', b' all ', b' but ', b' not ', b' if ', b'\xc3\xa9', b'\t', b'\0', b'\r\n', b'\xff', b'\xef\xbb\xbf', b'0',
          b'9' * 5000, b'f', b'p', b'U', b'(' * 600, b'!' * 600, b'\xe2\x80\x8b', b'state:', b'on:', b'rule:', b'event ', b'restart;', b'num=', b'see=', b'\xe2\x80\xa8', b'\x85', b'states=64\n', b'just=4\n',
          b'refused=12 place=99999\n', b'start verdict=true left=1\n']
WORKED = sorted(f for f in os.listdir(os.path.join(HOME, 'examples')) if os.path.isdir(os.path.join(HOME, 'examples', f)))


def loaded(tool):
    """A tool as a module, not started."""
    loader = importlib.machinery.SourceFileLoader('tool_' + tool, os.path.join(HOME, 'tools', tool))
    module = importlib.util.module_from_spec(importlib.util.spec_from_loader(loader.name, loader))
    loader.exec_module(module)
    return module


def harmed(dice, data):
    """Bytes with pieces put in, gone, doubled or cut off."""
    for _ in range(dice.choice([1, 1, 2, 5])):
        at, to = sorted((dice.randrange(len(data) + 1), dice.randrange(len(data) + 1)))
        piece = dice.choice(PIECES) if dice.random() < 0.8 else bytes(dice.randrange(256) for _ in range(3))
        data = dice.choice([data[:at] + piece + data[at:], data[:at] + piece + data[at + 1:], data[:at] + piece + data[at:], data[:at], data[:at] + data[to:], data + data[at:to]])
    return data


def harm(dice, folder, names):
    """Harms one or two files of a folder; now and then one is gone, or is a folder."""
    for name in dice.sample(names, dice.choice([1, 1, 2])):
        path = os.path.join(folder, name)
        if os.path.isfile(path):
            with open(path, 'rb') as file:
                data = file.read()
            os.remove(path)
            way = dice.random()
            if way > 0.06:
                with open(path, 'wb') as file:
                    file.write(harmed(dice, data))
            elif way > 0.03:
                os.mkdir(path)


def try_harm(tool, rounds, seed, room, names, given):
    """Runs a tool on worked folders, each harmed in another way. What is wrong, or nothing."""
    main, folder = loaded(tool).main, os.path.join(room, 'harmed')
    for k in range(rounds):
        dice = thrown.dice('%s %s %d' % (seed, tool, k))
        shutil.rmtree(folder, ignore_errors=True)
        shutil.copytree(os.path.join(HOME, 'examples', dice.choice(WORKED)), folder)
        words = given(dice, folder)
        harm(dice, folder, names)
        try:
            with contextlib.redirect_stdout(io.StringIO()):
                main(words)
        except Trouble:
            pass
        except Exception:
            return 'round %d of seed %s, %s:\n%s' % (k, seed, ' '.join(words), traceback.format_exc())
    return ''
