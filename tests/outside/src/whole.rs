//! A whole log in one call: the function jug_watch_log. A byte for each line, by stepping one by one.

use crate::calls::{four, hex};
use crate::closing;
use crate::dice::Dice;
use crate::faults::{self, Fault};
use crate::log::{self, Numbers};
use crate::pairs::{Graph, Monitor, Verdict};
use crate::plant;
use crate::rule;

/// What is answered, number, place, count and value, and what then stands in the buffer.
fn answer(table: &[u8], rule: &[u8], log: &[u8], before: &[u8]) -> ([usize; 4], Vec<u8>) {
    let untouched = |number: usize, place: usize| ([number, place, 0, 0], before.to_vec());
    let plant = match plant::read(table) {
        Ok(plant) => plant,
        Err(r) => return untouched(r.number, r.place),
    };
    let bare = if faults::is(Fault::WholeLineEndDropped) { rule.strip_suffix(b"\n").unwrap_or(rule) } else { rule };
    let rule = match rule::read(bare, plant.props) {
        Ok(rule) => rule,
        Err(r) => return untouched(r.number, r.place),
    };
    let short = |lines: usize| before.len() < lines + faults::is(Fault::WholeRoomForOneMore) as usize;
    if faults::is(Fault::WholeRoomFirst) && short(log.iter().filter(|b| **b == b'\n').count()) {
        return untouched(11, 0);
    }
    let events = match log::read(log, plant.props) {
        Ok(events) => events,
        Err(r) => return untouched(r.number, r.place),
    };
    if short(events.len()) && !faults::is(Fault::WholeRoomForgotten) {
        return untouched(11, 0);
    }
    let graph = Graph::new(&plant, &rule);
    let mut monitor = Monitor::open(&graph);
    let mut numbers = Numbers::new();
    let mut bytes = if faults::is(Fault::WholeOpeningShown) { vec![number(&monitor)] } else { Vec::new() };
    let mut ends = [0, 0, events.len(), 0];
    for (line, event) in events.iter().enumerate() {
        let taken = if event.is_legal(plant.props) { numbers.take(event).ok_or(16) } else { Err(10) };
        let missing = match taken {
            Ok((_, missing)) => missing,
            Err(number) => {
                let at = if faults::is(Fault::WholePlaceNext) { line + 1 } else if faults::is(Fault::WholePlaceZero) { 0 } else { line };
                let count = if faults::is(Fault::WholeCountOneMore) { line + 1 } else if faults::is(Fault::WholeNoCount) { 0 } else { line };
                ends = [number, at * log::bytes(log, plant.props), count, 0];
                break;
            }
        };
        for one in log::around(missing, *event) {
            monitor = monitor.step(&graph, one);
            if faults::is(Fault::WholeLostShown) {
                bytes.push(number(&monitor));
            }
        }
        if !faults::is(Fault::WholeLostShown) {
            bytes.push(number(&monitor));
        }
    }
    if ends[0] != 0 && faults::is(Fault::WholeNothingWritten) {
        bytes.clear();
    }
    let mut after = before.to_vec();
    for (to, byte) in after.iter_mut().zip(&bytes) {
        *to = *byte;
    }
    if faults::is(Fault::WholeByteBeyond) && bytes.len() < after.len() {
        after[bytes.len()] = number(&monitor);
    }
    (ends, after)
}

fn number(monitor: &Monitor) -> u8 {
    match monitor.verdict() {
        Verdict::Inconclusive => 0,
        Verdict::True => 1,
        Verdict::False => 2,
        Verdict::OutOfModel => 3,
    }
}

/// A case of jug_watch_log. In many of them an event or a text is spoilt; the buffer fits, or has some bytes more or a few less.
pub fn asked(dice: &mut Dice) -> (String, String) {
    let (plant, text, mut events) = faults::with(None, || closing::draw(dice));
    if !events.is_empty() && dice.chance(40) {
        let k = dice.below(events.len());
        let one = 1 << dice.below(plant.props);
        match dice.below(3) {
            0 if plant.props % 8 > 0 => events[k].see |= 1 << plant.props,
            0 | 1 => (events[k].see, events[k].val) = (events[k].see & !one, events[k].val | one),
            _ => events[k].num = events[k].num.map(|n| n ^ 1 << dice.below(6)),
        }
    }
    let mut texts = [plant.text(), text.into_bytes(), events.iter().map(|e| e.text(plant.props)).collect::<String>().into_bytes()];
    if dice.chance(20) {
        let one = &mut texts[*dice.pick(&[0, 1, 2, 2, 2])];
        let k = dice.below(one.len() + 1);
        match dice.below(3) {
            0 => one.truncate(k),
            1 => one.insert(k, b'\n'),
            _ => one.get_mut(k).into_iter().for_each(|byte| *byte ^= 1 << dice.below(7)),
        }
    } else if dice.chance(5) {
        texts[1].push(b'\n');
    }
    let lines = events.len();
    let room = *dice.pick(&[lines, lines, lines, lines, lines + 1, lines + 5, lines + 5, lines.saturating_sub(1), lines / 2]);
    let before: Vec<u8> = (0..room).map(|_| dice.below(256) as u8).collect();
    let [table, rule, log] = &texts;
    let ([number, place, count, value], after) = answer(table, rule, log, &before);
    (format!("{} {} {} {}", hex(table), hex(rule), hex(log), hex(&before)), format!("{} {}", four(number, place, count, value), hex(&after)))
}
