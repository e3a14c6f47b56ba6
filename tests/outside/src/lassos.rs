//! The oracle by definition. Both directions of the paper's sentence about the two sets are looked at: for each pair held
//! a whole run is shown and checked by the meaning; and runs found without the sets are found in them, at every event they
//! agree with. On tiny plants these are all short lassos, on others thrown ones.

use crate::dice::Dice;
use crate::log::{mark, Event};
use crate::meaning::{run_fault, values, witness_fault, Lasso};
use crate::pairs::{run_to, trace, Graph, Monitor};
use crate::plant::Plant;
use crate::rule::Rule;

#[derive(Default)]
pub struct Tally {
    pub pairs: usize,
    pub runs: usize,
}

/// Runs by throwing: a walk from a starting state that closes its loop where it came by before.
pub fn thrown_runs(plant: &Plant, dice: &mut Dice, count: usize, visit: &mut dyn FnMut(&Lasso)) {
    let starts: Vec<usize> = (0..plant.states).filter(|s| plant.starts(*s)).collect();
    for _ in 0..if starts.is_empty() { 0 } else { count } {
        let mut path = vec![*dice.pick(&starts)];
        for _ in 0..dice.from(1, 4 + 2 * plant.states) {
            let ways: Vec<usize> = (0..plant.states).filter(|t| plant.moves(*path.last().unwrap(), *t)).collect();
            if ways.is_empty() {
                break;
            }
            path.push(*dice.pick(&ways));
        }
        let closings: Vec<usize> = (0..path.len()).filter(|i| plant.moves(*path.last().unwrap(), path[*i])).collect();
        if !closings.is_empty() {
            let from = *dice.pick(&closings);
            let lasso = Lasso { stem: path[..from].to_vec(), ring: path[from..].to_vec() };
            if lasso.fault(plant).is_none() {
                visit(&lasso);
            }
        }
    }
}

/// All lassos of up to `most` states that begin at a starting state and are runs of the plant.
pub fn short_runs(plant: &Plant, most: usize, visit: &mut dyn FnMut(&Lasso)) {
    let mut paths: Vec<Vec<usize>> = (0..plant.states).filter(|s| plant.starts(*s)).map(|s| vec![s]).collect();
    while let Some(path) = paths.pop() {
        for from in 0..path.len() {
            let lasso = Lasso { stem: path[..from].to_vec(), ring: path[from..].to_vec() };
            if lasso.fault(plant).is_none() {
                visit(&lasso);
            }
        }
        if path.len() < most {
            let last = *path.last().unwrap();
            paths.extend((0..plant.states).filter(|t| plant.moves(last, *t)).map(|t| [path.as_slice(), &[t]].concat()));
        }
    }
}

/// The pair in which a run is at position i.
fn pair_of(parts: &[Vec<bool>], run: &Lasso, i: usize) -> (usize, u64) {
    let at = run.place(i);
    (run.state(i), parts.iter().enumerate().fold(0, |v, (k, p)| v | (p[at] as u64) << k))
}

/// Compares the sets with the runs that `runs` visits, and shows a run for each pair held.
pub fn check(plant: &Plant, rule: &Rule, events: &[Event], runs: impl FnOnce(&mut dyn FnMut(&Lasso))) -> Result<Tally, String> {
    let graph = Graph::new(plant, rule);
    let monitors = trace(&graph, events);
    let mut tally = Tally::default();
    let mut held: Vec<[std::collections::HashSet<(usize, u64)>; 2]> = Vec::new();
    for (k, monitor) in monitors.iter().enumerate() {
        for (keeps, set) in [(true, &monitor.keeps), (false, &monitor.breaks)] {
            // Up to the last restart a run of either kind leads here, and from there on one of this kind.
            let both = |m: &Monitor| [m.keeps.as_slice(), &m.breaks].concat();
            let own = |m: &Monitor| if keeps { m.keeps.clone() } else { m.breaks.clone() };
            let sets: Vec<Vec<usize>> = monitors[..=k].iter().enumerate().map(|(i, m)| if i <= mark(&events[..k]) { both(m) } else { own(m) }).collect();
            for node in set {
                let (state, valuation) = graph.pair(*node);
                if let Some(fault) = witness_fault(plant, rule, state, valuation, &graph.lasso(*node).expect("a live node")) {
                    return Err(format!("pair {:?} after {} events is not live: {}", (state, valuation), k, fault));
                }
                let run = run_to(&graph, &sets, *node);
                if let Some(fault) = run_fault(plant, rule, &events[..k], &run, keeps) {
                    return Err(format!("pair {:?} after {} events, keeps {}: {:?}: {}", (state, valuation), k, keeps, run, fault));
                }
                if run.state(k.max(1) - 1) != state {
                    return Err(format!("the run shown for {:?} is at another state", (state, valuation)));
                }
                tally.pairs += 1;
            }
        }
        let pairs = |set: &Vec<usize>| set.iter().map(|n| graph.pair(*n)).collect();
        held.push([pairs(&monitor.breaks), pairs(&monitor.keeps)]);
    }
    let mut missed = None;
    runs(&mut |run| {
        tally.runs += 1;
        let kinds = values(rule, plant, run);
        let parts: Vec<Vec<bool>> = rule.parts().iter().map(|p| values(p, plant, run)).collect();
        for k in 0..=events.len() {
            if k > 0 && !events[k - 1].agrees(plant.label[run.state(k - 1)]) {
                break;
            }
            let pair = pair_of(&parts, run, k.max(1) - 1);
            let kind = kinds[run.place(mark(&events[..k]))];
            if !held[k][kind as usize].contains(&pair) {
                missed = Some(format!("run {:?}, keeps {}, after {} events is at {:?}, which is not held", run, kind, k, pair));
            }
        }
    });
    match missed {
        Some(missed) => Err(missed),
        None => Ok(tally),
    }
}

#[cfg(test)]
mod tests {
    use super::*;
    use crate::faults::{self, Fault};

    /// The oracle finds mistakes about runs and rules: each of these, planted in the pair sets, is found on some tiny plant.
    #[test]
    fn mistakes_are_found() {
        let mistakes = [
            Fault::NoFairness, Fault::FairnessOnce, Fault::FinallyPutOff, Fault::GloballyPutOff, Fault::DeadPairsKept, Fault::DeadEndsLive, Fault::MoveBeforeFirst,
            Fault::NoMove, Fault::StartAnywhere, Fault::DecidedSticks, Fault::NextIsNow, Fault::UntilNeedsNoEnd, Fault::ReleaseSwapped, Fault::ReleaseAtOnce,
            Fault::RestartForgets, Fault::RestartAnywhere, Fault::RestartRevives, Fault::RestartIgnored, Fault::RestartKeepsSides, Fault::RestartSplitsFirst, Fault::RestartAtStart,
            Fault::RestartNoMove, Fault::RestartFirst,
        ];
        for mistake in mistakes {
            let found = (0..600).any(|k| {
                let (plant, text, events) = crate::cases::accepted(&mut Dice::new(5, k), 3);
                let rule = crate::rule::read(text.as_bytes(), plant.props).unwrap();
                let look = || faults::with(Some(mistake), || check(&plant, &rule, &events, |visit| short_runs(&plant, 5, visit)).is_err());
                let found = std::panic::catch_unwind(std::panic::AssertUnwindSafe(look)).unwrap_or(true);
                assert!(check(&plant, &rule, &events, |visit| short_runs(&plant, 4, visit)).is_ok());
                found
            });
            assert!(found, "{:?}", mistake);
        }
    }
}
