"""The four lamps: sign, colour and meaning; where they change; and the stretches of a day."""
import collections

SIGNS = {'true': '✓', 'false': '✗', 'inconclusive': '?', 'out-of-model': '–'}
COLOURS = {'true': 'green', 'false': 'red', 'inconclusive': 'yellow', 'out-of-model': 'grey'}
MEANS = {
    'true': 'every run that fits what was seen keeps the rule, whatever happens next',
    'false': 'every run that fits what was seen breaks the rule, whatever happens next',
    'inconclusive': 'of the runs that fit what was seen, one keeps the rule and one breaks it',
    'out-of-model': 'no run of the plant fits what was seen: a sensor is wrong, or the plant did what its table does not know',
}


def changes(lamps):
    """The places at which another lamp is shown than before; the first is the start's."""
    return [k for k in range(len(lamps)) if k == 0 or lamps[k].verdict != lamps[k - 1].verdict]


Stretch = collections.namedtuple('Stretch', 'first events verdict decided')   # decided: None, or the number of an event


def stretches(events, numbers, lamps):
    """The stretches between restarts, by the lamps of the events that were taken. Lost events before a restart belong to the stretch before it."""
    begins = [k for k in range(len(lamps)) if k == 0 or events[k].new]
    ends = begins[1:] + [len(lamps)]
    found = []
    for begin, end in zip(begins, ends):
        behind = numbers[end] if end < len(lamps) else numbers[end - 1] + 1
        decided = [numbers[k] for k in range(begin, end) if lamps[k].verdict in ('true', 'false')]
        found.append(Stretch(numbers[begin], behind - numbers[begin], lamps[end - 1].verdict, decided[0] if decided else None))
    return found
