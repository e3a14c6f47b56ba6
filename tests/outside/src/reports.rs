//! A neighbour's report judged: the function jug_judge. A right report is drawn, and then one thing in it is spoilt.

use crate::calls::{four, hex};
use crate::cases;
use crate::dice::Dice;
use crate::faults::{self, Fault};
use crate::log::{self, mark, Event};
use crate::meaning::{values, Lasso};
use crate::pairs::{run_to, trace, Graph, Monitor};
use crate::plant::Plant;
use crate::rule::{self, Rule};
use crate::{plant, Refusal};

/// What is sent. The runs are a stem and a loop each, the one that keeps the rule first.
struct Sent {
    table: Vec<u8>,
    rule: Vec<u8>,
    log: Vec<u8>,
    claim: u8,
    runs: [[Vec<u8>; 2]; 2],
}

/// The most states of a run.
const MOST: usize = 4096;

fn claim_of(monitor: &Monitor) -> u8 {
    match (monitor.keeps.is_empty(), monitor.breaks.is_empty()) {
        (false, false) => 0,
        (false, true) => 1,
        (true, false) => 2,
        (true, true) => 3,
    }
}

/// A run of each kind, where there is one: the walk along the events and how it goes on.
fn shown(graph: &Graph, events: &[Event]) -> ([Option<Lasso>; 2], u8) {
    let monitors = trace(graph, events);
    let last = monitors.last().unwrap();
    let run = |keeps: bool| {
        let own = |m: &Monitor| if keeps { m.keeps.clone() } else { m.breaks.clone() };
        let both = |m: &Monitor| [m.keeps.as_slice(), &m.breaks].concat();
        let sets: Vec<Vec<usize>> = monitors.iter().enumerate().map(|(i, m)| if i <= mark(events) { both(m) } else { own(m) }).collect();
        own(last).first().map(|node| run_to(graph, &sets, *node))
    };
    ([run(true), run(false)], claim_of(last))
}

/// The same run told in another way: the loop turned, or gone round in the stem, or twice in the loop.
fn retold(dice: &mut Dice, run: &Lasso) -> Lasso {
    let mut run = run.clone();
    for _ in 0..dice.below(4) {
        match dice.below(3) {
            0 => run.stem.extend(run.ring.clone()),
            1 => run.ring.extend(run.ring.clone()),
            _ => {
                let first = run.ring.remove(0);
                run.stem.push(first);
                run.ring.push(first);
            }
        }
    }
    run
}

fn bytes(states: &[usize]) -> Vec<u8> {
    states.iter().map(|s| *s as u8).collect()
}

/// The same run with so many states: the loop is gone round in the stem.
fn lengthen(run: &mut [Vec<u8>; 2], long: usize) {
    let ring = run[1].clone();
    let more = long.saturating_sub(run[0].len() + ring.len());
    if !ring.is_empty() {
        run[0].extend(ring.iter().cycle().take(more));
        run[1].rotate_left(more % ring.len());
    }
}

/// The run's beginning, with the loop closed early where the table allows it: it agrees with the first events, and perhaps with no others.
fn fold(dice: &mut Dice, plant: &Plant, run: &mut [Vec<u8>; 2]) {
    let ring = run[1].clone();
    if ring.is_empty() || run.iter().flatten().any(|s| *s as usize >= plant.states) {
        return;
    }
    let long = dice.from(1, 8);
    let states: Vec<u8> = run[0].iter().chain(ring.iter().cycle().take(long)).take(long).cloned().collect();
    let from: Vec<usize> = (0..long).filter(|i| plant.moves(states[long - 1] as usize, states[*i] as usize)).collect();
    if !from.is_empty() {
        let at = *dice.pick(&from);
        *run = [states[..at].to_vec(), states[at..].to_vec()];
    }
}

fn spoil(dice: &mut Dice, plant: &Plant, sent: &mut Sent) {
    let which = dice.below(2);
    let part = dice.below(2);
    let state = dice.below(plant.states + 1) as u8;
    match dice.below(18) {
        0 => sent.claim = dice.below(6) as u8,
        1 => sent.runs[which][0].clear(),
        2 => sent.runs[which][1].clear(),
        3 => sent.runs[which] = [vec![], vec![]],
        4 | 5 | 6 if !sent.runs[which][part].is_empty() => {
            let at = dice.below(sent.runs[which][part].len());
            sent.runs[which][part][at] = state;
        }
        7 => sent.runs[which][part].push(state),
        8 => sent.runs.swap(0, 1),
        9 => {
            let long = MOST + dice.below(2);
            lengthen(&mut sent.runs[which], long);
        }
        14..=17 => fold(dice, plant, &mut sent.runs[which]),
        10 => sent.runs[which][0].insert(0, state),
        11 => sent.claim = 255,
        12 if dice.chance(30) => sent.rule = b"p0U".to_vec(),
        _ if dice.chance(30) => sent.log.push(b'x'),
        _ => {}
    }
}

fn draw(dice: &mut Dice) -> Sent {
    let states = dice.from(1, 5);
    let length = *dice.pick(&[0, 1, 2, 3, 5, 9, 14]);
    let parts = dice.from(0, 3);
    let (plant, text, events) = cases::good(dice, states, parts, length);
    let events = cases::as_sent(dice, events);
    let rule = rule::read(text.as_bytes(), plant.props).expect("a rule");
    let log: Vec<u8> = events.iter().map(|e| e.text(plant.props)).collect::<String>().into_bytes();
    let legal = events.iter().all(|e| e.is_legal(plant.props));
    let mut sent = Sent { table: plant.text(), rule: text.into_bytes(), log, claim: dice.below(4) as u8, runs: Default::default() };
    if let (true, Some(all)) = (legal, log::filled(&events)) {
        let ([keeps, breaks], claim) = shown(&Graph::new(&plant, &rule), &all);
        sent.claim = claim;
        for (k, run) in [keeps, breaks].iter().enumerate() {
            if let Some(run) = run {
                let run = retold(dice, run);
                sent.runs[k] = [bytes(&run.stem), bytes(&run.ring)];
            }
        }
    }
    for _ in 0..*dice.pick(&[0, 1, 1, 1, 2]) {
        spoil(dice, &plant, &mut sent);
    }
    sent
}

/// The first rule that a run fails: 1 start, 2 moves, 3 fairness, 4 agreement, 5 the rule's value.
fn failing(plant: &Plant, rule: &Rule, events: &[Event], run: &[Vec<u8>; 2], keeps: bool) -> Option<usize> {
    let lasso = Lasso { stem: run[0].iter().map(|s| *s as usize).collect(), ring: run[1].iter().map(|s| *s as usize).collect() };
    let starts = lasso.stem.iter().chain(&lasso.ring).next().map_or(false, |s| *s < plant.states && plant.starts(*s));
    let moves = !lasso.ring.is_empty() && {
        let all: Vec<usize> = lasso.stem.iter().chain(&lasso.ring).chain(lasso.ring.first()).cloned().collect();
        let closed = if faults::is(Fault::LoopNotClosed) { &all[..all.len() - 1] } else { &all[..] };
        all.iter().all(|s| *s < plant.states) && closed.windows(2).all(|w| plant.moves(w[0], w[1]))
    };
    let fair = plant.fair.iter().all(|set| {
        let met = |s: &usize| *s < 64 && set >> s & 1 == 1;
        lasso.ring.iter().any(met) || faults::is(Fault::StemIsFair) && lasso.stem.iter().any(met)
    });
    if !starts {
        return Some(1);
    }
    if faults::is(Fault::FairnessBeforeMoves) && !fair {
        return Some(3);
    }
    if !moves {
        return Some(2);
    }
    if !fair {
        return Some(3);
    }
    let round = if faults::is(Fault::OneTurnAgrees) { lasso.len() } else { usize::MAX };
    if !events.iter().enumerate().take(round).all(|(i, e)| e.agrees(plant.label[lasso.state(i)])) {
        return Some(4);
    }
    let at = if faults::is(Fault::JudgedAtStart) { 0 } else { mark(events) };
    if values(rule, plant, &lasso)[lasso.place(at)] != keeps {
        return Some(5);
    }
    None
}

/// Refusals, then the runs that are needed, then the verdict.
fn answer(sent: &Sent) -> Result<String, (Refusal, usize)> {
    let early = |r: Refusal| (r, 0);
    let plant = plant::read(&sent.table).map_err(early)?;
    plant.within_counts().map_err(early)?;
    let rule = rule::read(&sent.rule, plant.props).map_err(early)?;
    let events = log::read(&sent.log, plant.props).map_err(early)?;
    let mut numbers = log::Numbers::new();
    let mut all = Vec::new();
    for (k, event) in events.iter().enumerate() {
        let refused = |number: usize| (Refusal { number, place: k * log::bytes(&sent.log, plant.props) }, k);
        if !event.is_legal(plant.props) {
            return Err(refused(10));
        }
        let (_, missing) = numbers.take(event).ok_or(refused(16))?;
        all.extend(log::around(missing, *event));
    }
    let plain = |number: usize| (Refusal { number, place: 0 }, 0);
    if sent.claim > 3 {
        return Err(plain(9));
    }
    let needed = [sent.claim == 0 || sent.claim == 1, sent.claim == 0 || sent.claim == 2];
    let looked = |k: usize| needed[k] || faults::is(Fault::OtherRunLookedAt) && sent.claim < 3;
    let most = if faults::is(Fault::RunsOf4095) { MOST - 1 } else { MOST };
    if (0..2).any(|k| looked(k) && sent.runs[k][0].len() + sent.runs[k][1].len() > most) {
        return Err(plain(22));
    }
    let order = if faults::is(Fault::BreakingFirst) { [1, 0] } else { [0, 1] };
    for k in order {
        if let (true, Some(rule)) = (looked(k), failing(&plant, &rule, &all, &sent.runs[k], k == 0)) {
            return Ok(four(0, rule, k + 1, 1));
        }
    }
    let verdict = claim_of(trace(&Graph::new(&plant, &rule), &all).last().unwrap());
    let agreed = sent.claim == verdict || sent.claim == 0 || faults::is(Fault::RunIsEnough) && sent.claim < 3;
    Ok(if agreed { four(0, 0, 0, 0) } else { four(0, 0, 0, 2) })
}

/// A case of jug_judge.
pub fn asked(dice: &mut Dice) -> (String, String) {
    let sent = faults::with(None, || draw(dice));
    let [[ks, kl], [bs, bl]] = &sent.runs;
    let words = format!("{} {} {} {} {} {} {} {}", hex(&sent.table), hex(&sent.rule), hex(&sent.log), sent.claim, hex(ks), hex(kl), hex(bs), hex(bl));
    let said = match answer(&sent) {
        Ok(said) => said,
        Err((refusal, k)) => four(refusal.number, refusal.place, k, 0),
    };
    (words, said)
}
