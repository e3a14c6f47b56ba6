"""What is said to a person where something is wrong: the file, the line, a caret under the place, what was expected, what to do."""
import os
import sys
import unicodedata

MARGIN = 36   # so many characters of a long line are shown on either side of the place


class Trouble(Exception):
    """Something that a person has to put right. Its text is meant to be read as it stands."""


class Bad(Exception):
    """The first byte or character of a text at which it can't go on, and what was expected there. `hint` says more, where more is known."""

    def __init__(self, place, expected, hint=''):
        super().__init__(expected)
        self.place, self.expected, self.hint = place, expected, hint


def visible(character):
    """A character as a line can show it: line ends, tabs and the like have pictures of their own."""
    code = ord(character)
    if code < 32:
        return chr(0x2400 + code)
    return '·' if is_unseen(character) else character


def is_unseen(character):
    """Whether a character has no picture: control and format characters, a mark of the byte order among them."""
    return unicodedata.category(character) in ('Cc', 'Cf', 'Cs', 'Zl', 'Zp')


def columns(text):
    """How many columns a text takes on a screen: letters of the far east take two, accents that stand by themselves none."""
    return sum(0 if unicodedata.combining(c) else 2 if unicodedata.east_asian_width(c) in 'WF' else 1 for c in text)


def spot(text, place):
    """The line and the column of a place, both counted from 1, and the line itself."""
    begin = text.rfind('\n', 0, place) + 1
    end = text.find('\n', place)
    return text.count('\n', 0, place) + 1, place - begin + 1, text[begin:end if end >= 0 else len(text)]


def pointed(text, place):
    """The line of a place and a caret below it, each behind four spaces. A long line is cut on both sides of the place."""
    _, column, line = spot(text, place)
    at = column - 1
    begin = max(0, at - MARGIN) if len(line) > 2 * MARGIN else 0
    end = begin + 2 * MARGIN if len(line) > 2 * MARGIN else len(line)
    before, after = '.. ' if begin else '', ' ..' if end < len(line) else ''
    shown = ''.join(visible(c) for c in line[begin:end])
    return '    %s%s%s\n    %s^' % (before, shown, after, ' ' * (len(before) + columns(shown[:at - begin])))


def told(name, text, bad):
    """Trouble for a bad place of a text that stands in a file of this name."""
    line, column, _ = spot(text, bad.place)
    words = '%s, line %d, column %d:\n%s\nExpected here: %s.' % (name, line, column, pointed(text, bad.place), bad.expected)
    return Trouble(words + ('\n' + bad.hint if bad.hint else ''))


def listed(words, last='and'):
    """Words as one would say them: a, b and c."""
    words = list(words)
    return words[0] if len(words) == 1 else '%s %s %s' % (', '.join(words[:-1]), last, words[-1]) if words else ''


def counted(number, one, many=None):
    return '%s %s' % ('{:,}'.format(number), one if number == 1 else many or one + 's')


def reason(wrong):
    """What the system says of a file that it does not open, read or write."""
    return (wrong.strerror or str(wrong)).lower()


def put(path, text):
    """Writes a text as it stands; the name of a folder may have bytes in it that are no letters, and these are question marks then."""
    try:
        with open(path, 'w', encoding='utf-8', errors='replace', newline='') as file:
            file.write(text)
    except OSError as wrong:
        raise Trouble('%s can\'t be written: %s' % (path, reason(wrong))) from None


def started(tool, main, usage):
    """Runs the main function of a tool: help where it is asked for, trouble as words, and an exit status other than 0 for it. What a terminal has no sign for
    is a question mark there, and no trouble."""
    for stream in (sys.stdout, sys.stderr):
        if stream:
            stream.reconfigure(errors='replace')
    if sys.argv[1:2] == ['help'] or {'--help', '-h'} & set(sys.argv[1:]):
        print(usage.strip())
        sys.exit(0)
    try:
        ended = main(sys.argv[1:])
        print(end='', flush=True)
        sys.exit(ended)
    except Trouble as trouble:
        sys.exit('%s: %s' % (tool, trouble))
    except BrokenPipeError:
        os.dup2(os.open(os.devnull, os.O_WRONLY), sys.stdout.fileno())    # nobody reads on, and nothing more is said
        sys.exit(1)
    except KeyboardInterrupt:
        sys.exit(130)
    except OSError as wrong:
        sys.exit('%s: %s%s' % (tool, '%s: ' % wrong.filename if wrong.filename else '', reason(wrong)))
