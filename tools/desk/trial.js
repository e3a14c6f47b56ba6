// What a page of tools/try does. The machine's bytes stand in the page; a row is looked up in them, and nothing else is known here of lamps.
'use strict';
(() => {
  const at = id => document.getElementById(id);
  const machine = JSON.parse(at('machine').textContent);

  // ---- the look-up ----

  // A row: verdict, left, and the next row for each column.
  const rows = machine.rows.map(digits => digits.match(/../g).map(byte => parseInt(byte, 16)));
  // The columns: events by what is seen, then by what of it is on, then without and with a restart.
  const columns = [];
  for (let see = 0; see < 1 << machine.props; see++)
    for (let val = 0; val < 1 << machine.props; val++)
      for (let restart = 0; restart < 2; restart++)
        if (!(val & ~see)) columns.push({ see, val, restart });
  const after = (row, column) => rows[row][2 + column];
  const lampOf = row => machine.verdicts[rows[row][0]];
  const leftOf = row => rows[row][1];

  // ---- what was clicked: the columns of the events taken, and what they were before each click ----

  let taken = [], before = [];
  const form = document.forms[0];

  const change = events => { before.push(taken); taken = events; show(); };
  const undo = () => { if (taken.length || before.length) { taken = before.length ? before.pop() : taken.slice(0, -1); show(); } };
  const startOver = () => { if (taken.length) change([]); };

  const take = () => {
    let see = 0, val = 0;
    for (let p = 0; p < machine.props; p++) {
      const way = form.elements['p' + p].value;
      if (way !== 'unseen') see |= 1 << p;
      if (way === 'on') val |= 1 << p;
    }
    const restart = form.elements.restart.checked ? 1 : 0;
    form.elements.restart.checked = false;
    change(taken.concat(columns.findIndex(e => e.see === see && e.val === val && e.restart === restart)));
  };

  // ---- what is shown ----

  const make = (tag, kind, text) => {
    const made = document.createElement(tag);
    made.className = kind;
    made.textContent = text;
    return made;
  };

  const lamp = row => {
    const [verdict, sign] = lampOf(row), made = make('span', 'lamp ' + verdict, ''), round = make('i', '', '');
    round.append(make('b', '', sign));
    round.setAttribute('aria-hidden', 'true');
    made.append(round, verdict);
    return made;
  };

  const seen = event => {
    const cell = make('td', 'saw', event && event.restart ? 'restart: ' : '');
    if (!event) cell.textContent = 'before any event';
    else if (!event.see) cell.append('nothing');
    else machine.signals.forEach((name, p) => {
      const on = event.val >> p & 1;
      if (event.see >> p & 1) cell.append(make('span', on ? 'chip yes' : 'chip', (on ? '● ' : '○ ') + name));
    });
    return cell;
  };

  // A line of the events: the start, or event n, and the row behind it.
  const line = (n, event, row) => {
    const made = document.createElement('tr'), shown = make('td', '', '');
    shown.append(lamp(row));
    made.append(make('td', 'n', event ? String(n) : 'start'), shown, make('td', 'n', leftOf(row) + ' left'), seen(event));
    return made;
  };

  const two = number => number.toString(16).padStart(2, '0');
  const asLog = e => 'see=' + two(e.see) + ' val=' + two(e.val) + ' new=' + e.restart + '\n';

  // An event as a line of seen.txt: what was on, what was off; `all` where nothing was left out.
  const inNames = e => {
    const all = (1 << machine.props) - 1, names = set => machine.quoted.filter((name, p) => set >> p & 1).join(', ');
    const on = names(e.see & e.val), off = names(e.see & ~e.val);
    const parts = e.see === all ? ['all', 'on ' + (on || 'nothing')] : [on && 'on ' + on, off && 'off ' + off].filter(part => part);
    return (e.restart ? ['restart'] : []).concat(parts.length ? parts : ['nothing']).join('; ') + '\n';
  };

  const show = () => {
    let row = 0;
    const lines = [line(0, null, row)];
    taken.forEach((column, n) => { row = after(row, column); lines.push(line(n, columns[column], row)); });
    at('when').textContent = taken.length ? 'After event ' + (taken.length - 1) : 'Before any event';
    at('lamp').replaceChildren(lamp(row));
    at('left').textContent = leftOf(row) + ' of ' + machine.states + (machine.states === 1 ? ' state' : ' states') + ' left';
    at('share').style.width = 100 * leftOf(row) / machine.states + '%';
    at('means').textContent = lampOf(row)[2];
    at('row').textContent = row;
    at('events').replaceChildren(...lines.reverse());
    for (const [id, line] of [['seen', inNames], ['log', asLog]]) {
      at(id).value = taken.map(c => line(columns[c])).join('');
      at('copied-' + id).textContent = '';
    }
    at('undo').setAttribute('aria-disabled', String(!taken.length && !before.length));
    at('over').setAttribute('aria-disabled', String(!taken.length));
    keep();
  };

  // ---- the events in the page's address, so that it can be loaded anew or handed on ----

  const keep = () => {
    try { history.replaceState(null, '', '#' + taken.join('.')); } catch (refused) { /* the page works without */ }
  };

  const recall = () => {
    const numbers = location.hash.slice(1).split('.').map(digits => /^\d+$/.test(digits) ? Number(digits) : columns.length);
    before = [];
    taken = numbers.every(column => column < columns.length) ? numbers : [];
    show();
  };

  // ---- clicks and keys ----

  const turn = p => {
    const ways = form.elements['p' + p], now = [...ways].findIndex(way => way.checked);
    ways[(now + 1) % 3].checked = true;
  };

  form.addEventListener('submit', press => { press.preventDefault(); take(); });
  at('undo').addEventListener('click', undo);
  at('over').addEventListener('click', startOver);
  for (const id of ['seen', 'log'])
    at('copy-' + id).addEventListener('click', () => {
      at(id).select();
      at('copied-' + id).textContent = document.execCommand('copy') ? 'Copied.' : 'Select the lines and copy them.';
    });
  addEventListener('hashchange', recall);
  addEventListener('keydown', press => {
    const over = kinds => press.target.closest && press.target.closest(kinds);
    if (press.ctrlKey || press.metaKey || press.altKey || over('textarea')) return;
    const p = Number(press.key) - 1;
    if (p >= 0 && p < machine.props) turn(p);
    else if (press.key === 'n') form.elements.restart.checked = !form.elements.restart.checked;
    else if (press.key === 'u' || press.key === 'Backspace') undo();
    else if (press.key === 's') startOver();
    else if (press.key === 'Enter' && !press.repeat && !over('button, summary')) take();
    else return;
    press.preventDefault();
  });
  recall();
})();
