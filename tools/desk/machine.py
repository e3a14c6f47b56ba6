"""A fixed machine: its bytes, as the program `machine` wrote them, and how a row is looked up. Nothing is worked out here.

A row is one byte for the verdict, one for `left`, and one for each column: the row behind that event. The columns are the events that there are: by what is seen,
then by what of that is on, then without and with a restart. Row 0 is the opening."""
import re

from desk import refusals, texts
from desk.trouble import Bad, Trouble, counted

SIGNALS, ROWS = 3, 256                                                        # the most of each
VERDICTS = ('inconclusive', 'true', 'false', 'out-of-model')                  # by their numbers


def columns(props):
    """What is seen, what of it is on, and whether it is a restart: an event for each column, in order."""
    return [(see, val, new) for see in range(1 << props) for val in range(1 << props) if not val & ~see for new in (0, 1)]


class Machine:
    """Rows of bytes. What is no machine of so many signals is trouble, and not looked up."""

    def __init__(self, props, data, source):
        self.props, self.columns = props, columns(props)
        wide = 2 + len(self.columns)
        if not data or len(data) % wide or len(data) > ROWS * wide:
            raise Trouble('%s is no machine of this plant: it has %s, and a row of %s has %d' % (source, counted(len(data), 'byte'), counted(props, 'signal'), wide))
        self.rows = [data[at:at + wide] for at in range(0, len(data), wide)]
        for k, row in enumerate(self.rows):
            if row[0] >= len(VERDICTS) or max(row[2:]) >= len(self.rows):
                raise Trouble('%s is no machine: its row %d has a verdict above 3 or leads to a row that is not there' % (source, k))

    def lamp(self, row):
        return VERDICTS[self.rows[row][0]], self.rows[row][1]

    def after(self, row, event):
        return self.rows[row][2 + self.columns.index(event)]


def read_machine(output, props, source):
    """The machine in an output of the program: the C array, whatever stands around it."""
    code = re.sub(r'/\*.*?\*/|//[^\n]*', ' ', output, flags=re.S)
    array = re.search(r'\]\s*=\s*\{(.*?)\}\s*;', code, re.S)
    if not array:
        raise Trouble('%s is no output of the program `machine`: it has no array of bytes' % source)
    found = re.findall(r'\b(?:0[xX][0-9a-fA-F]+|\d+)', array.group(1))
    large = [digits for digits in found if number_of(digits) > 255]
    if large:
        raise Trouble('%s is no output of the program `machine`: its array has %s, which is no byte' % (source, large[0][:20]))
    return Machine(props, bytes(number_of(digits) for digits in found), source)


def number_of(digits):
    """The number that C reads there; of many digits one that is no byte."""
    return int(digits, 16 if digits[:2].lower() == '0x' else 10) if len(digits) <= 4 else 256


def refused(output):
    """The number and the place of a refusal, where the program wrote one."""
    line = re.search(r'(?m)^refused=(\d{1,3}) place=(\d{1,10})$', output)
    return (int(line.group(1)), int(line.group(2))) if line else None


def explained(folder, number, place):
    """Why there is no machine, in words."""
    props = props_of(folder)
    if number == 1 and props:
        return 'The plant has %s, and a machine is made for at most %d.\nWhat to do: leave out signals that the rule and the sensors do not need, ' \
            'or write a log: tools/draw %s PAGE.html' % (counted(props, 'signal'), SIGNALS, folder)
    return refusals.explained(folder, number, place, 'machine')


def props_of(folder):
    """The signals of a plant, or 0 where its text is not of the form."""
    try:
        return texts.read_table(texts.text_of(folder, 'plant.txt')).props
    except (Bad, Trouble):
        return 0
