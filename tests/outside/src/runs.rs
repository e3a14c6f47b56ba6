//! How a run of each kind goes on: what the program `runs` writes. The paper leaves the choice of the run open, so its lines are not compared; they
//! are read, and each run is checked by the meaning, joined with the walks that agree with the events. Beside that, lines of our own.

use std::collections::HashSet;

use crate::faults::{self, Fault};
use crate::log::{filled, mark, Event};
use crate::meaning::{run_fault, values, Lasso};
use crate::pairs::{Graph, Monitor};
use crate::plant::Plant;
use crate::rule::Rule;
use crate::watch::{self, Files};

/// What there is before the end of a log, as far as a run that goes on must fit it.
pub struct Past {
    pub plant: Plant,
    pub rule: Rule,
    pub events: Vec<Event>,
    /// Is there a run that keeps the rule, and one that breaks it? By the lamp.
    kinds: [bool; 2],
}

/// Reads what is there, or gives the refusal's line, which is then the whole output.
pub fn past(files: &Files) -> Result<Past, String> {
    let lamps = watch::output(files);
    let last = lamps.lines().last().unwrap();
    if last.starts_with("refused=") {
        return Err(format!("{}\n", last));
    }
    let kinds = match last.split(' ').nth(1) {
        Some("verdict=inconclusive") => [true, true],
        Some("verdict=true") => [true, false],
        Some("verdict=false") => [false, true],
        _ => [false, false],
    };
    let read = || -> Result<Past, crate::Refusal> {
        let plant = files.read_plant()?;
        let rule = files.read_rule(plant.props)?;
        let events = filled(&files.read_log(plant.props)?).expect("numbers that are taken");
        Ok(Past { plant, rule, events, kinds })
    };
    Ok(read().expect("what the lamps were shown for"))
}

/// A rule's parts, all of them, each behind the one that it belongs to.
struct Part<'a> {
    rule: &'a Rule,
    left: usize,
    right: usize,
}

fn all_parts<'a>(rule: &'a Rule, parts: &mut Vec<Part<'a>>) -> usize {
    let at = parts.len();
    parts.push(Part { rule, left: 0, right: 0 });
    match rule {
        Rule::Is(_) | Rule::Prop(_) => {}
        Rule::One(_, a) => parts[at].left = all_parts(a, parts),
        Rule::Two(_, a, b) => {
            parts[at].left = all_parts(a, parts);
            parts[at].right = all_parts(b, parts);
        }
    }
    at
}

/// The parts' values (bit k is part k) in a state whose follower has these values: X looks at the follower, the others at both.
fn values_before(parts: &[Part], plant: &Plant, state: usize, after: u64) -> u64 {
    let mut here = 0u64;
    for at in (0..parts.len()).rev() {
        let part = &parts[at];
        let (left, right, later) = (here >> part.left & 1 == 1, here >> part.right & 1 == 1, after >> at & 1 == 1);
        let value = match part.rule {
            Rule::Is(b) => *b,
            Rule::Prop(p) => plant.has(state, *p),
            Rule::One('!', _) => !left,
            Rule::One('X', _) => after >> part.left & 1 == 1,
            Rule::One('F', _) => left || later,
            Rule::One(_, _) => left && later,
            Rule::Two('&', _, _) => left && right,
            Rule::Two('|', _, _) => left || right,
            Rule::Two('>', _, _) => !left || right,
            Rule::Two('U', _, _) => right || (left && later),
            Rule::Two(_, _, _) => right && (left || later),
        };
        here |= (value as u64) << at;
    }
    here
}

/// From a lasso's end backwards. One round of the loop tells what stands at its first position: F and U are false there if that round does
/// not meet them, the others true if it does not hurt them.
fn backwards(lasso: &Lasso, start: bool, step: impl Fn(usize, bool) -> bool) -> Vec<bool> {
    let (stem, all) = (lasso.stem.len(), lasso.len());
    let mut later = (stem..all).rev().fold(start, |later, i| step(i, later));
    let mut found = vec![false; all];
    for i in (0..all).rev() {
        later = step(i, later);
        found[i] = later;
    }
    found
}

/// The parts' values at each position of a lasso that is too long for the definitions word by word.
fn values_of_long(parts: &[Part], plant: &Plant, lasso: &Lasso) -> Vec<Vec<bool>> {
    let mut found: Vec<Vec<bool>> = vec![vec![]; parts.len()];
    for at in (0..parts.len()).rev() {
        let (a, b) = (&found[parts[at].left], &found[parts[at].right]);
        let here = |f: &dyn Fn(usize) -> bool| (0..lasso.len()).map(|i| f(i)).collect();
        found[at] = match parts[at].rule {
            Rule::Is(b) => here(&|_| *b),
            Rule::Prop(p) => here(&|i| plant.has(lasso.state(i), *p)),
            Rule::One('!', _) => here(&|i| !a[i]),
            Rule::One('X', _) => here(&|i| a[lasso.place(i + 1)]),
            Rule::One('F', _) => backwards(lasso, false, |i, later| a[i] || later),
            Rule::One(_, _) => backwards(lasso, true, |i, later| a[i] && later),
            Rule::Two('&', _, _) => here(&|i| a[i] && b[i]),
            Rule::Two('|', _, _) => here(&|i| a[i] || b[i]),
            Rule::Two('>', _, _) => here(&|i| !a[i] || b[i]),
            Rule::Two('U', _, _) => backwards(lasso, false, |i, later| b[i] || (a[i] && later)),
            Rule::Two(_, _, _) => backwards(lasso, true, |i, later| b[i] && (a[i] || later)),
        };
    }
    found
}

/// The parts' values (bit k is part k) at a lasso's first position: by the definitions, unless it is long.
fn values_at_first(parts: &[Part], plant: &Plant, lasso: &Lasso) -> u64 {
    let first: Vec<bool> = if lasso.len() > 64 {
        values_of_long(parts, plant, lasso).iter().map(|v| v[0]).collect()
    } else {
        parts.iter().map(|p| values(p.rule, plant, lasso)[0]).collect()
    };
    first.iter().enumerate().fold(0, |v, (k, b)| v | (*b as u64) << k)
}

impl Past {
    /// Does some walk that agrees with the events lead to the lasso, so that both are a run of the kind? By sets: in which state, and with which
    /// values of the rule's parts, a run may be that goes on so; from now back to position 0, and at the last restart only with the kind's value.
    fn is_joined(&self, lasso: &Lasso, keeps: bool) -> bool {
        let mut parts = Vec::new();
        all_parts(&self.rule, &mut parts);
        let agrees = |i: usize, s: usize| self.events.get(i).map_or(true, |e| e.agrees(self.plant.label[s]));
        let now = self.events.len().max(1) - 1;
        let mut set: HashSet<(usize, u64)> = HashSet::new();
        if agrees(now, lasso.state(0)) {
            set.insert((lasso.state(0), values_at_first(&parts, &self.plant, lasso)));
        }
        let from = mark(&self.events);
        let of_kind = |i: usize, v: u64| i != from || (v & 1 == 1) == keeps;
        set.retain(|(_, v)| of_kind(now, *v));
        for i in (0..now).rev() {
            let before = |(t, after): &(usize, u64)| -> Vec<(usize, u64)> {
                let from = (0..self.plant.states).filter(|s| self.plant.moves(*s, *t) && agrees(i, *s));
                from.map(|s| (s, values_before(&parts, &self.plant, s, *after))).collect()
            };
            set = set.iter().flat_map(before).filter(|(_, v)| of_kind(i, *v)).collect();
        }
        set.iter().any(|(s, _)| self.plant.starts(*s))
    }

    /// The same by trying each walk, and each whole run by its definition, if there are at most so many walks.
    fn is_joined_by_walks(&self, lasso: &Lasso, keeps: bool, most: usize) -> Option<bool> {
        let now = self.events.len().max(1) - 1;
        let mut walks = vec![vec![]];
        for i in 0..now {
            let mut longer = Vec::new();
            for walk in walks {
                let follows = |s: &usize| walk.last().map_or(true, |w: &usize| self.plant.moves(*w, *s));
                let next = (0..self.plant.states).filter(|s| follows(s) && self.events[i].agrees(self.plant.label[*s]));
                longer.extend(next.map(|s| [walk.as_slice(), &[s]].concat()));
            }
            walks = longer;
            if walks.len() > most {
                return None;
            }
        }
        let whole = |walk: &Vec<usize>| Lasso { stem: [walk.as_slice(), &lasso.stem].concat(), ring: lasso.ring.clone() };
        Some(walks.iter().any(|w| run_fault(&self.plant, &self.rule, &self.events, &whole(w), keeps).is_none()))
    }

    /// What is wrong with a run that is said to go on so, if anything.
    pub fn fault(&self, lasso: &Lasso, keeps: bool) -> Option<String> {
        if lasso.stem.len() > 4095 || lasso.ring.len() > 45056 {
            return Some(format!("stem {} and loop {} are not within the bounds", lasso.stem.len(), lasso.ring.len()));
        }
        if let Some(fault) = lasso.fault(&self.plant) {
            return Some(fault);
        }
        let joined = self.is_joined(lasso, keeps);
        if lasso.len() <= 40 && self.plant.states <= 4 && self.is_joined_by_walks(lasso, keeps, 100).map_or(false, |j| j != joined) {
            return Some(String::from("our own two checks differ"));
        }
        if joined { None } else { Some(String::from("no walk that agrees with the events leads to it and makes a run of this kind")) }
    }

    /// What is wrong with a kind's line, if anything: it has a run exactly if there is one of the kind.
    fn line_fault(&self, line: &str, keeps: bool) -> Option<String> {
        let said = match line.strip_prefix(if keeps { "keeps " } else { "breaks " }) {
            Some(said) => said,
            None => return Some(String::from("it is not of its kind")),
        };
        let exists = self.kinds[!keeps as usize];
        if said == "refused=13 place=0" {
            return if exists { Some(String::from("there is a run of this kind")) } else { None };
        }
        match read_run(said) {
            None => Some(String::from("it is not of the form")),
            Some(_) if !exists => Some(String::from("there is no run of this kind")),
            Some(lasso) => self.fault(&lasso, keeps),
        }
    }

    /// What is wrong with the two lines, if anything.
    pub fn lines_fault(&self, text: &str) -> Option<String> {
        let lines: Vec<&str> = text.split_inclusive('\n').collect();
        if lines.len() != 2 || !lines.iter().all(|l| l.ends_with('\n')) {
            return Some(String::from("they are not two lines"));
        }
        let fault = |line: &str, keeps: bool| self.line_fault(line.trim_end_matches('\n'), keeps).map(|why| format!("{:.60}: {}", line.trim_end(), why));
        fault(lines[0], true).or_else(|| fault(lines[1], false))
    }
}

/// States in decimal with no leading zero, parted by commas; none if there is no byte.
fn read_states(list: &str) -> Option<Vec<usize>> {
    if list.is_empty() {
        return Some(vec![]);
    }
    list.split(',').map(|word| word.parse::<usize>().ok().filter(|s| s.to_string() == word)).collect()
}

fn read_run(text: &str) -> Option<Lasso> {
    let (stem, ring) = text.strip_prefix("stem=")?.split_once(" loop=")?;
    Some(Lasso { stem: read_states(stem)?, ring: read_states(ring)? })
}

/// What is wrong with the output of `runs` on these files, if anything. A refusal is the one of `watch`, and all that is written.
pub fn fault(files: &Files, wrote: &str) -> Option<String> {
    match past(files) {
        Err(refusal) if wrote == refusal => None,
        Err(refusal) => Some(format!("wanted {:?}, got {:.60?}", refusal, wrote)),
        Ok(past) => past.lines_fault(wrote),
    }
}

fn write_states(states: &[usize]) -> String {
    states.iter().map(|s| if faults::is(Fault::RunTwoDigits) { format!("{:02}", s) } else { s.to_string() }).collect::<Vec<String>>().join(",")
}

/// A run spoilt by the mistake that is planted, if one is.
fn spoilt(mut run: Lasso, states: usize) -> Lasso {
    if faults::is(Fault::RunStateChanged) {
        let middle = run.ring.len() / 2;
        run.ring[middle] = (run.ring[middle] + 1) % states;
    }
    if faults::is(Fault::RunStateBeyond) {
        run.ring[0] = states;
    }
    if faults::is(Fault::RunSwapped) && !run.stem.is_empty() {
        std::mem::swap(&mut run.stem, &mut run.ring);
    }
    if faults::is(Fault::RunLoopOpen) {
        run.ring.pop();
    }
    if faults::is(Fault::RunMovesFirst) {
        if run.stem.is_empty() { run.ring.rotate_left(1) } else { run.stem.remove(0); }
    }
    if faults::is(Fault::RunLongLoop) {
        run.ring = run.ring.repeat(45056 / run.ring.len() + 1);
    }
    if faults::is(Fault::RunLongStem) {
        run.stem.extend(run.ring.repeat(4095 / run.ring.len() + 1));
    }
    run
}

/// Lines of our own for the runs from these sets.
fn own_lines(plant: &Plant, rule: &Rule, events: &[Event]) -> [Option<Lasso>; 2] {
    let graph = Graph::new(plant, rule);
    let from = if faults::is(Fault::RunFromStart) { events.len() } else { 0 };
    let monitor = events[from..].iter().fold(Monitor::open(&graph), |m, e| m.step(&graph, *e));
    // A loop that forgets what it owes comes from a graph without those debts.
    let planted = if faults::is(Fault::RunSkipsFairness) { Some(Fault::NoFairness) } else if faults::is(Fault::RunPutsOff) { Some(Fault::FinallyPutOff) } else { None };
    let careless = planted.map(|fault| faults::with(Some(fault), || Graph::new(plant, rule)));
    let alone = |node: usize| Lasso { stem: vec![], ring: vec![graph.pair(node).0] };
    // With a mistake planted a pair may be held that is not live: then its state alone.
    let run = |set: &Vec<usize>| set.first().map(|n| careless.as_ref().unwrap_or(&graph).lasso(*n).unwrap_or_else(|| alone(*n)));
    [run(&monitor.keeps), run(&monitor.breaks)]
}

/// What `runs` may write, by our own reading.
pub fn output(files: &Files) -> String {
    let past = match past(files) {
        Err(refusal) => return refusal,
        Ok(past) => past,
    };
    let mut runs = own_lines(&past.plant, &past.rule, &past.events);
    if faults::is(Fault::RunKindLeftOut) && runs[0].is_some() {
        runs[1] = None;
    }
    if faults::is(Fault::RunKindInvented) {
        runs = [runs[0].clone().or(runs[1].clone()), runs[1].clone().or(runs[0].clone())];
    }
    if faults::is(Fault::RunWrongKind) && runs.iter().all(|r| r.is_some()) {
        runs.swap(0, 1);
    }
    let mut lines: Vec<String> = Vec::new();
    for (kind, run) in ["keeps", "breaks"].iter().zip(runs) {
        lines.push(match run.map(|r| spoilt(r, past.plant.states)) {
            Some(run) => format!("{} stem={} loop={}\n", kind, write_states(&run.stem), write_states(&run.ring)),
            None => format!("{} refused=13 place=0\n", kind),
        });
    }
    if faults::is(Fault::RunBreaksFirst) {
        lines.reverse();
    }
    if faults::is(Fault::RunOneLine) {
        lines.pop();
    }
    lines.concat()
}

#[cfg(test)]
mod tests {
    use super::*;
    use crate::dice::Dice;
    use crate::{cases, rule};

    /// On long lassos the values are those of the definitions.
    #[test]
    fn long_lassos_have_the_same_values() {
        for k in 0..300 {
            let mut dice = Dice::new(9, k);
            let (plant, text, _) = cases::accepted(&mut dice, 5);
            let rule = rule::read(text.as_bytes(), plant.props).unwrap();
            let mut parts = Vec::new();
            all_parts(&rule, &mut parts);
            crate::lassos::thrown_runs(&plant, &mut dice, 8, &mut |lasso| {
                let found = values_of_long(&parts, &plant, lasso);
                (0..parts.len()).for_each(|p| assert_eq!(found[p], values(parts[p].rule, &plant, lasso), "{} on {:?}", parts[p].rule.print(), lasso));
            });
        }
    }

    /// Right and spoilt runs: the sets and the walks tried one by one say the same of each.
    #[test]
    fn sets_and_walks_say_the_same() {
        let mut told = [0, 0];
        for k in 0..400 {
            let mut dice = Dice::new(11, k);
            let (plant, text, events) = cases::accepted(&mut dice, 4);
            let rule = rule::read(text.as_bytes(), plant.props).unwrap();
            let past = Past { plant: plant.clone(), rule, events, kinds: [true, true] };
            crate::lassos::thrown_runs(&plant, &mut dice, 12, &mut |lasso| {
                for keeps in [true, false] {
                    let joined = past.is_joined(lasso, keeps);
                    assert_eq!(past.is_joined_by_walks(lasso, keeps, 100000), Some(joined), "{:?} keeps {}", lasso, keeps);
                    told[joined as usize] += 1;
                }
            });
        }
        assert!(told[0] > 300 && told[1] > 300, "{:?}", told);
    }

    /// Plant W of the paper, by hand.
    #[test]
    fn lines_by_hand() {
        let file = |t: &str| watch::File::Bytes(t.as_bytes().to_vec());
        let on = |rule: &str, log: &str, wrote: &str| {
            fault(&Files { plant: file(cases::W), rule: file(rule), log: file(log) }, wrote).unwrap_or(String::from("right"))
        };
        let says = |rule: &str, log: &str, wrote: &str, why: &str| assert!(on(rule, log, wrote).contains(why), "{} {:?} {:?}: {}", rule, log, wrote, on(rule, log, wrote));
        let first = "see=03 val=00 new=0\n";
        let second = "see=03 val=00 new=0\nsee=03 val=01 new=0\n";
        says("Fp1", "", "keeps stem=0 loop=2,0\nbreaks stem= loop=0\n", "no move from state 0 to state 2");
        says("Fp1", "", "keeps stem=0 loop=0,1,2\nbreaks stem= loop=0\n", "right");
        says("Fp1", first, "keeps stem=0 loop=0,1,2\nbreaks stem=0 loop=1\n", "right");
        says("Fp1", second, "keeps stem=1 loop=2\nbreaks stem= loop=1\n", "right");
        says("Fp1", second, "keeps stem=0,1 loop=2\nbreaks stem= loop=1\n", "no walk");
        says("Fp1", second, "keeps stem=1 loop=2\nbreaks stem= loop=0\n", "no walk");
        says("Fp1", second, "keeps stem= loop=1\nbreaks stem= loop=1\n", "no walk");
        says("Fp1", second, "keeps stem=1 loop=2\nbreaks refused=13 place=0\n", "there is a run");
        says("Fp1", second, "keeps stem=1 loop=2\n", "two lines");
        says("Fp1", second, "breaks stem= loop=1\nkeeps stem=1 loop=2\n", "not of its kind");
        says("Fp1", second, "keeps stem=1 loop=02\nbreaks stem= loop=1\n", "form");
        says("Fp1", second, "keeps stem=1,2 loop=\nbreaks stem= loop=1\n", "empty");
        let warm = "see=03 val=00 new=0\nsee=03 val=01 new=0\nsee=01 val=00 new=1\n";
        says("Xp0", warm, "keeps refused=13 place=0\nbreaks stem=2 loop=0\n", "right");
        says("Xp0", warm, "keeps refused=13 place=0\nbreaks stem= loop=0\n", "no walk");
        says("1", "", "keeps stem= loop=0\nbreaks stem= loop=0\n", "there is no run");
        says("1", "", "keeps stem= loop=0\nbreaks refused=13 place=0\n", "right");
        says("1", "see=04 val=00 new=0\n", "refused=10 place=0\n", "right");
        says("1", "see=04 val=00 new=0\n", "keeps stem= loop=0\nbreaks refused=13 place=0\n", "wanted");
    }
}
