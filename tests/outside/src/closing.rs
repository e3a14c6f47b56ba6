//! A day's end: the function jug_close_log. Finite-trace logic here is the definition of each operator, asked at each event; nothing goes backward.

use crate::calls::{four, hex};
use crate::cases;
use crate::dice::Dice;
use crate::faults::{self, Fault};
use crate::log::{self, Event, Numbers};
use crate::pairs::{Graph, Monitor, Verdict};
use crate::plant::{self, Plant};
use crate::rule::{self, Rule};

/// Whether a rule holds at each event of a trace.
fn within(rule: &Rule, trace: &[u16]) -> Vec<bool> {
    let n = trace.len();
    let at = |test: &dyn Fn(usize) -> bool| (0..n).map(test).collect::<Vec<bool>>();
    match rule {
        Rule::Is(value) => vec![*value; n],
        Rule::Prop(p) => at(&|i| trace[i] >> p & 1 == 1),
        Rule::One('!', inner) => match &**inner {
            Rule::One('X', a) if faults::is(Fault::NegationPushed) => within(&Rule::One('X', Box::new(Rule::One('!', a.clone()))), trace),
            _ => within(inner, trace).iter().map(|v| !v).collect(),
        },
        Rule::One(op, inner) => {
            let a = within(inner, trace);
            match op {
                'X' => at(&|i| if i + 1 < n { a[i + 1] } else { faults::is(Fault::NextWeak) }),
                'F' => at(&|i| (i..n).any(|j| a[j]) || faults::is(Fault::FinallyOpen)),
                _ => at(&|i| (i..n).all(|j| a[j]) && !faults::is(Fault::GloballyOpen)),
            }
        }
        Rule::Two(op, left, right) => {
            let (a, b) = (within(left, trace), within(right, trace));
            match op {
                'U' => at(&|i| (i..n).any(|j| b[j] && (i..j).all(|k| a[k])) || faults::is(Fault::UntilOpen) && (i..n).all(|k| a[k])),
                'R' => {
                    let let_go = |i: usize| (i..n).any(|k| a[k] && b[k]);
                    at(&|i| (i..n).all(|j| b[j] || (i..j).any(|k| a[k])) && (let_go(i) || !faults::is(Fault::ReleaseOpen)))
                }
                '&' => at(&|i| a[i] && b[i]),
                '|' => at(&|i| a[i] || b[i]),
                _ => at(&|i| !a[i] || b[i]),
            }
        }
    }
}

/// The set of the propositions that occur in a rule.
fn used(rule: &Rule) -> u16 {
    match rule {
        Rule::Is(_) => 0,
        Rule::Prop(p) => 1 << p,
        Rule::One(_, a) => used(a),
        Rule::Two(_, a, b) => used(a) | used(b),
    }
}

/// 4 or 5 for the events, with the lost ones put in; or 0 where nothing may be presumed.
fn presumed(rule: &Rule, props: usize, events: &[Event]) -> usize {
    let mut from = if faults::is(Fault::RestartsPassedOver) { 0 } else { log::mark(events) };
    if faults::is(Fault::RestartLeftOut) && events.get(from).map_or(false, |e| e.new) {
        from += 1;
    }
    let asked = if faults::is(Fault::AllPropsAsked) { (1u32 << props) as u16 - 1 } else { used(rule) };
    let lost = |e: &Event| e.see == 0 && !e.new;
    let blind = |e: &Event| e.see & asked != asked;
    let mut stretch = events[from..].to_vec();
    if faults::is(Fault::LostPassedOver) {
        stretch.retain(|e| !lost(e));
    }
    if faults::is(Fault::BlindPassedOver) {
        stretch.retain(|e| !blind(e));
    }
    let spoilt = if faults::is(Fault::BlindBeforeSpoils) { events.iter().any(blind) } else { stretch.iter().any(blind) && !faults::is(Fault::BlindIsOff) };
    if spoilt || stretch.is_empty() && !faults::is(Fault::NothingPresumed) {
        return 0;
    }
    let trace: Vec<u16> = stretch.iter().map(|e| e.val).collect();
    if within(rule, &trace).first().copied().unwrap_or(true) { 4 } else { 5 }
}

/// What is answered: number, place, count, value.
pub fn answer(table: &[u8], rule: &[u8], log: &[u8], edition: u64) -> [usize; 4] {
    let known = edition == 1 || edition == 2 || edition > 2 && faults::is(Fault::EditionsGoOn) || edition == 0 && faults::is(Fault::EditionFromZero);
    if !known && faults::is(Fault::EditionFirst) {
        return [21, 0, 0, 0];
    }
    let plant = match plant::read(table) {
        Ok(plant) => plant,
        Err(r) => return [r.number, r.place, 0, 0],
    };
    let rule = match rule::read(rule, plant.props) {
        Ok(rule) => rule,
        Err(r) => return [r.number, r.place, 0, 0],
    };
    let events = match log::read(log, plant.props) {
        Ok(events) => events,
        Err(r) => return [r.number, r.place, 0, 0],
    };
    if !known && faults::is(Fault::EditionBeforeEvents) {
        return [21, 0, 0, 0];
    }
    let graph = Graph::new(&plant, &rule);
    let mut monitor = Monitor::open(&graph);
    let mut numbers = Numbers::new();
    let mut all = Vec::new();
    for (line, event) in events.iter().enumerate() {
        let place = if faults::is(Fault::ClosingPlaceZero) { 0 } else { line * log::bytes(log, plant.props) };
        let count = if faults::is(Fault::ClosingNoCount) { 0 } else { line };
        if !event.is_legal(plant.props) {
            return [10, place, count, 0];
        }
        let Some((_, missing)) = numbers.take(event) else { return [16, place, count, 0] };
        for one in log::around(missing, *event) {
            monitor = monitor.step(&graph, one);
            all.push(one);
        }
    }
    if !known {
        return [21, 0, 0, 0];
    }
    let verdict = match monitor.verdict() {
        Verdict::Inconclusive => 0,
        Verdict::True => 1,
        Verdict::False => 2,
        Verdict::OutOfModel => 3,
    };
    let second = edition >= 2 || faults::is(Fault::FirstPresumes);
    let open = verdict == 0 || faults::is(Fault::DecidedPresumed);
    let closing = if second && open { presumed(&rule, plant.props, &all) } else { 0 };
    [0, 0, 0, if closing == 0 { verdict } else { closing }]
}

/// Events along a walk: most of them see all, some restart; with numbers some are lost.
fn walk(dice: &mut Dice, plant: &Plant) -> Vec<Event> {
    let sight = *dice.pick(&[100, 100, 100, 100, 97, 80]);
    let restarts = *dice.pick(&[0, 0, 15, 40]);
    let lost = *dice.pick(&[0, 0, 20, 30]);
    let numbered = lost > 0 || dice.chance(30);
    let mut s = (0..plant.states).find(|s| plant.starts(*s)).unwrap_or(0);
    let first = dice.below(1000) as u32;
    let mut events = Vec::new();
    for k in 0..*dice.pick(&[0, 1, 2, 3, 5, 9]) {
        let see = (0..plant.props).fold(0u16, |m, p| m | (dice.chance(sight) as u16) << p);
        let event = Event { num: if numbered { Some(first + k) } else { None }, see, val: plant.label[s] & see, new: dice.chance(restarts) };
        if k == 0 || !dice.chance(lost) {
            events.push(event);
        }
        let ways: Vec<usize> = (0..plant.states).filter(|t| plant.moves(s, *t)).collect();
        s = if ways.is_empty() { s } else { *dice.pick(&ways) };
    }
    events
}

/// A case of jug_close_log. Most rules are open at the end of the log, and few texts are bad.
pub fn asked(dice: &mut Dice) -> (String, String) {
    let (mut plant, mut text, mut events) = faults::with(None, || draw(dice));
    for _ in 0..4 {
        let bytes: Vec<u8> = events.iter().map(|e| e.text(plant.props)).collect::<String>().into_bytes();
        let open = faults::with(None, || answer(&plant.text(), text.as_bytes(), &bytes, 1)[3] == 0);
        if open {
            break;
        }
        (plant, text, events) = faults::with(None, || draw(dice));
    }
    if !events.is_empty() && dice.chance(6) {
        let k = dice.below(events.len());
        match dice.below(3) {
            0 => events[k].see = u16::MAX >> (16 - plant.props.min(8)),
            1 => events[k].val |= 1 << dice.below(plant.props),
            _ => events[k].num = events[k].num.map(|n| n ^ 1 << dice.below(6)),
        }
    }
    let mut texts = [plant.text(), text.into_bytes(), events.iter().map(|e| e.text(plant.props)).collect::<String>().into_bytes()];
    if dice.chance(8) {
        let one = &mut texts[dice.below(3)];
        if !one.is_empty() {
            let k = dice.below(one.len());
            if dice.chance(50) { one.truncate(k) } else { one[k] ^= 1 << dice.below(7) }
        }
    }
    let other = dice.word();
    let edition = *dice.pick(&[2, 2, 2, 2, 2, 2, 2, 2, 2, 2, 2, 2, 2, 2, 1, 1, 1, 0, 3, 99, 4294967298, other]);
    let [table, rule, log] = &texts;
    let [number, place, count, value] = answer(table, rule, log, edition);
    (format!("{} {} {} {}", hex(table), hex(rule), hex(log), edition), four(number, place, count, value))
}

/// A small plant, a rule, and events along a walk.
pub fn draw(dice: &mut Dice) -> (Plant, String, Vec<Event>) {
    let states = *dice.pick(&[2, 3, 4, 6]);
    let plant = cases::plant(dice, states);
    let parts = *dice.pick(&[1, 2, 3, 4]);
    let rule = cases::rule(dice, plant.props, parts);
    let events = walk(dice, &plant);
    (plant, rule, events)
}

#[cfg(test)]
mod tests {
    use super::*;

    fn holds(text: &str, trace: &[u16]) -> bool {
        within(&rule::read(text.as_bytes(), 2).unwrap(), trace)[0]
    }

    #[test]
    fn operators_at_the_end() {
        assert!(!holds("Xp0", &[1]) && holds("!Xp0", &[1]) && !holds("X!p0", &[1]));
        assert!(holds("Fp0", &[0, 1, 0]) && !holds("Fp1", &[0, 1, 0]));
        assert!(holds("G!p1", &[0, 1, 0]) && !holds("Gp0", &[1, 0]));
        assert!(holds("p0Up1", &[1, 1, 2]) && !holds("p0Up1", &[1, 1, 1]));
        assert!(holds("p1Rp0", &[1, 1, 1]) && holds("p1Rp0", &[1, 3, 0]) && !holds("p1Rp0", &[1, 0]));
    }
}
