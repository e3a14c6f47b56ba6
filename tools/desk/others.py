"""What the other programs say of a folder, in words: `table`, `machine`, `day` and `judge`. Their answers stand as they are; nothing is decided here."""
import re

from desk import machine, program, refusals, rules, sheets, texts
from desk.trouble import counted, listed

CLOSING = {
    'true': 'the last lamp is true: every run that fits keeps the rule',
    'false': 'the last lamp is false: every run that fits breaks the rule',
    'out-of-model': 'the last lamp is out-of-model: no run of the plant fits what was seen',
    'presumably-true': 'the lamp is inconclusive; looking at this day alone, as if no other came, the rule was kept',
    'presumably-false': 'the lamp is inconclusive; looking at this day alone, as if no other came, the rule was not kept',
    'inconclusive': 'so is the lamp, and nothing is presumed',
}
REFUSED = re.compile(r'(?:(local|shared|rule|closing|report) )?refused=(\d{1,3}) place=(\d{1,10})\n?')


def told(name, folder):
    """What a program says of a folder: the words, and whether something was refused."""
    output = program.run(name, folder)
    refused = REFUSED.fullmatch(output)
    if not refused:
        return {'table': of_table, 'machine': of_machine, 'day': of_day, 'judge': of_judge}[name](output, folder), False
    number, place = int(refused.group(2)), int(refused.group(3))
    if name == 'machine':
        return machine.explained(folder, number, place), True
    return refusals.explained(folder, number, place, name, refused.group(1) or ''), True


def of_table(output, folder):
    same = output == texts.text_of(folder, 'plant.txt')
    return 'The program `table` takes plant.txt%s.' % (', and writes the same' if same else ', and writes it with small digits')


def of_machine(output, folder):
    found = machine.read_machine(output, texts.table_of(folder).props, 'what the program wrote')
    return 'There is a machine of this plant and this rule: it has %s. To try it by clicking: tools/try %s PAGE.html' % (counted(len(found.rows), 'row'), folder)


def of_day(output, folder):
    """The stretches of a day, and what it ends with."""
    out = []
    for first, events, verdict, decided in re.findall(r'(?m)^first=(\d+) events=(\d+) verdict=(\S+) decided=(\S+)$', output):
        told_ = 'never true or false' if decided == '-' else 'true or false for the first time at event %s' % decided
        out.append('From event %s on, %s: %s; %s.' % (first, counted(int(events), 'event'), verdict, told_))
    closing = re.search(r'(?m)^closing verdict=(\S+)$', output).group(1)
    return '\n'.join(out + ['The day ends with %s: %s%s.' % (closing, CLOSING[closing], why_open(folder) if closing == 'inconclusive' else '')])


def why_open(folder):
    """Why nothing is presumed: the edition, or the first event since the last restart that spoils it. Worked out here."""
    values = dict(sheets.read_sheet(texts.text_of(folder, 'shared.txt')), **sheets.read_sheet(texts.text_of(folder, 'local.txt')))
    if values['closing'][1] == '1':
        return ': `closing=1` asks for the last lamp alone'
    table = texts.table_of(folder)
    names, events = texts.names_of(folder, table), texts.log_of(folder, table)
    needed, numbers, lost = rules.used(rules.read_rule(values['rule'][1])), texts.numbers(events), texts.lost(events)
    begin = max([k for k, event in enumerate(events) if event.new] or [0])
    for k in range(begin, len(events)):
        if k > begin and lost[k]:
            return ': before event %d %s lost, and nobody knows what was to be seen then' % (numbers[k], '1 was' if lost[k] == 1 else '%d were' % lost[k])
        unseen = [names.signal[p] for p in sorted(needed) if not events[k].see >> p & 1]
        if unseen:
            return ': event %d did not see %s, of which the rule speaks' % (numbers[k], listed(unseen))
    return ': there was no event'


def of_judge(output, folder):
    return 'The program `judge` says of report.txt: %s.' % output.strip()
