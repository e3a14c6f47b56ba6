//! Does a better sensor ever hurt, or a table with fewer starts and moves? Two cases side by side: the second lamp must say at least as much as the first.

use crate::cases;
use crate::dice::Dice;
use crate::faults::{self, Fault};
use crate::log::Event;
use crate::plant::Plant;
use crate::watch::{self, Files};

/// A table, a rule and a log that are accepted.
#[derive(Clone)]
struct Told {
    plant: Plant,
    rule: String,
    log: Vec<Event>,
}

impl Told {
    fn files(&self) -> Files {
        cases::files(&self.plant, &self.rule, &self.log)
    }
}

/// How the second is made from the first.
#[derive(Clone, Copy, PartialEq, Debug)]
enum Way {
    /// The two that the law speaks of.
    BetterSensor,
    SmallerTable,
    /// Each of these leaves out one thing that the law asks for.
    OtherValues,
    SeesLess,
    OtherRestarts,
    OtherNumbers,
    OtherFairness,
    OtherLabels,
    MoreStarts,
    MoreMoves,
}

const GOOD: [Way; 2] = [Way::BetterSensor, Way::SmallerTable];

const BAD: [Way; 8] =
    [Way::OtherValues, Way::SeesLess, Way::OtherRestarts, Way::OtherNumbers, Way::OtherFairness, Way::OtherLabels, Way::MoreStarts, Way::MoreMoves];

/// Mistakes of a box by which a better sensor, or a smaller table, does hurt.
const HURTS: [Fault; 5] = [Fault::UnseenIsFalse, Fault::DecidedSticks, Fault::TrueOnNothing, Fault::RestartRevives, Fault::DeadEndsLive];

/// Some of the bits.
fn some(dice: &mut Dice, set: u64, percent: usize) -> u64 {
    (0..64).filter(|k| set >> k & 1 == 1).fold(0, |s, k| s | (dice.chance(percent) as u64) << k)
}

/// Two cases, made in that way.
fn two(dice: &mut Dice, way: Way) -> (Files, Files) {
    let (states, length) = (*dice.pick(&[1, 2, 3, 3, 4, 5, 8, 14]), dice.from(1, 9));
    let parts = dice.from(0, 3);
    let (plant, rule, log) = cases::good(dice, states, parts, length);
    let log = if way == Way::OtherNumbers { log.iter().enumerate().map(|(k, e)| Event { num: Some(k as u32), ..*e }).collect() } else { cases::as_sent(dice, log) };
    let mut first = Told { plant, rule, log };
    let mut second = first.clone();
    match way {
        // What was seen is seen, but for some of it.
        Way::BetterSensor | Way::SeesLess => {
            let dim = if way == Way::BetterSensor { &mut first } else { &mut second };
            for e in dim.log.iter_mut() {
                e.see = some(dice, e.see as u64, 60) as u16;
                e.val &= e.see;
            }
        }
        Way::SmallerTable => {
            second.plant.start = some(dice, first.plant.start, 70);
            let share = *dice.pick(&[60, 80, 95]);
            second.plant.next = first.plant.next.iter().map(|n| some(dice, *n, share)).collect();
        }
        Way::OtherValues => {
            let k = dice.below(first.log.len());
            let e = &mut second.log[k];
            e.val = (e.val ^ 1 << dice.below(first.plant.props)) & e.see;
        }
        Way::OtherRestarts => {
            let k = dice.below(first.log.len());
            second.log[k].new ^= true;
        }
        Way::OtherNumbers => {
            let (k, gap) = (dice.below(first.log.len()), dice.from(1, 3) as u32);
            second.log[k..].iter_mut().for_each(|e| e.num = e.num.map(|n| n + gap));
        }
        Way::OtherFairness => {
            let all = (1 << first.plant.states) - 1;
            second.plant.fair.iter_mut().for_each(|j| *j = if dice.chance(70) { all } else { *j });
        }
        Way::OtherLabels => second.plant.label[dice.below(first.plant.states)] ^= 1 << dice.below(first.plant.props),
        Way::MoreStarts => second.plant.start |= 1 << dice.below(first.plant.states),
        Way::MoreMoves => second.plant.next[dice.below(first.plant.states)] |= 1 << dice.below(first.plant.states),
    }
    (first.files(), second.files())
}

/// The lamps of an output, the word and `left`, without the start; None where anything is refused.
fn lamps(output: &str) -> Option<Vec<(&str, usize)>> {
    let lamp = |line: &'_ str| -> Option<(usize, usize, usize)> {
        let (word, left) = (line.find(" verdict=")? + 9, line.find(" left=")?);
        Some((word, left, line[left + 6..].parse().ok()?))
    };
    output.lines().skip(1).map(|line| lamp(line).map(|(word, end, left)| (&line[word..end], left))).collect()
}

/// Where the second output says less than the first.
fn hurt(first: &str, second: &str) -> Option<String> {
    let (Some(a), Some(b)) = (lamps(first), lamps(second)) else { return Some(String::from("an event is refused")) };
    if a.len() != b.len() {
        return Some(format!("{} lamps, and then {}", a.len(), b.len()));
    }
    (0..a.len()).find_map(|n| {
        let ((x, l), (y, m)) = (a[n], b[n]);
        let stays = x == "inconclusive" || y == x || y == "out-of-model";
        (!stays || m > l).then(|| format!("event {}: {} with {} left, and then {} with {}", n, x, l, y, m))
    })
}

/// Pair k of a way.
fn pair(seed: u64, way: Way, k: usize) -> (Files, Files) {
    two(&mut Dice::new(seed ^ 0x5e45 ^ (way as u64) << 32, k as u64), way)
}

/// Does pair k hurt in our own reading?
fn hurts(seed: u64, way: Way, k: usize) -> bool {
    let (first, second) = pair(seed, way, k);
    hurt(&watch::output(&first), &watch::output(&second)).is_some()
}

pub type Program<'a> = &'a dyn Fn(Files) -> Result<String, String>;

/// No pair of a way hurts; nor, for the first few, by the program.
fn none_hurts(seed: u64, way: Way, count: usize, driven: usize, program: Program) -> Result<String, String> {
    let mut other = 0;
    for k in 0..count {
        let (first, second) = pair(seed, way, k);
        let (a, b) = (watch::output(&first), watch::output(&second));
        let told = |what: String| format!("sensors: {:?}, pair {}: {}", way, k, what);
        if let Some(what) = hurt(&a, &b) {
            return Err(told(what));
        }
        if k < driven {
            let (c, d) = (program(first).map_err(told)?, program(second).map_err(told)?);
            if let Some(what) = hurt(&c, &d) {
                return Err(told(format!("by the program, {}", what)));
            }
        }
        other += (a != b) as usize;
    }
    // Pairs whose lamps are all the same show little.
    if other * 6 < count { Err(format!("sensors: {:?}: the lamps differ in {} of {} pairs", way, other, count)) } else { Ok(format!("{:?} {} ({} with other lamps)", way, count, other)) }
}

/// No pair that the law speaks of hurts; each way that leaves a hypothesis out does in some pairs; and each mistake is found.
pub fn all(seed: u64, count: usize, driven: usize, program: Program) -> Result<String, String> {
    let good = GOOD.iter().map(|way| none_hurts(seed, *way, count, driven, program)).collect::<Result<Vec<_>, _>>()?;
    for way in BAD {
        if (0..count).filter(|k| hurts(seed, way, *k)).take(3).count() < 3 {
            return Err(format!("sensors: {:?} hurts in fewer than 3 of {} pairs", way, count));
        }
    }
    for fault in HURTS {
        if !(0..count).any(|k| GOOD.iter().any(|way| faults::with(Some(fault), || hurts(seed, *way, k)))) {
            return Err(format!("sensors: {:?} hurts in none of {} pairs", fault, count));
        }
    }
    Ok(format!(
        "sensors: no lamp says less: {}; {} of each by the program too; with any of {} hypotheses left out some do, and with each of {} planted mistakes",
        good.join(", "), driven, BAD.len(), HURTS.len()
    ))
}
