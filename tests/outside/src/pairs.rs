//! The monitor's state as the paper tells it: sets of pairs of a table state and a value for each temporal part. Pairs are
//! single nodes of a graph, and live are those that lead to a knot of the graph that owes nothing.

use crate::faults::{self, Fault};
use crate::log::Event;
use crate::meaning::Lasso;
use crate::plant::Plant;
use crate::rule::Rule;

/// A rule whose temporal parts are replaced by their numbers.
enum Flat {
    Is(bool),
    Prop(u8),
    Part(usize),
    Not(Box<Flat>),
    Two(char, Box<Flat>, Box<Flat>),
}

struct Part {
    op: char,
    left: Flat,
    right: Flat,
}

/// Numbers the parts from the left of the printed text to its right.
fn flatten(rule: &Rule, parts: &mut Vec<Part>) -> Flat {
    match rule {
        Rule::Is(b) => Flat::Is(*b),
        Rule::Prop(p) => Flat::Prop(*p),
        Rule::One('!', a) => Flat::Not(Box::new(flatten(a, parts))),
        Rule::One(op, a) => {
            let number = parts.len();
            parts.push(Part { op: *op, left: Flat::Is(true), right: Flat::Is(true) });
            parts[number].right = flatten(a, parts);
            Flat::Part(number)
        }
        Rule::Two(op, a, b) if "UR".contains(*op) => {
            let left = flatten(a, parts);
            let number = parts.len();
            parts.push(Part { op: *op, left, right: Flat::Is(true) });
            parts[number].right = flatten(b, parts);
            Flat::Part(number)
        }
        Rule::Two(op, a, b) => {
            let left = Box::new(flatten(a, parts));
            Flat::Two(*op, left, Box::new(flatten(b, parts)))
        }
    }
}

fn truth(rule: &Flat, label: u16, valuation: u64) -> bool {
    match rule {
        Flat::Is(b) => *b,
        Flat::Prop(p) => label >> p & 1 == 1,
        Flat::Part(k) => valuation >> k & 1 == 1,
        Flat::Not(a) => !truth(a, label, valuation),
        Flat::Two(op, a, b) => {
            let (a, b) = (truth(a, label, valuation), truth(b, label, valuation));
            match op {
                '&' => a && b,
                '|' => a || b,
                _ => !a || b,
            }
        }
    }
}

/// What a part's operands say at a pair.
#[derive(Clone, Copy)]
struct Sides {
    left: bool,
    right: bool,
}

/// Does a part's value fit with what it is next?
fn fits(op: char, value: bool, here: Sides, there: Sides, next: bool) -> bool {
    let unfolded = match op {
        'X' if faults::is(Fault::NextIsNow) => here.right,
        'X' => there.right,
        'F' => here.right || next,
        'G' => here.right && next,
        'U' => here.right || (here.left && next),
        _ if faults::is(Fault::ReleaseSwapped) => here.left && (here.right || next),
        _ if faults::is(Fault::ReleaseAtOnce) => here.left || (here.right && next),
        _ => here.right && (here.left || next),
    };
    value == unfolded
}

/// Does a part owe nothing here? A true F or U owes its right side, a false G or R the failure of its right side.
fn settled(op: char, value: bool, here: Sides) -> bool {
    match op {
        'F' => !value || here.right || faults::is(Fault::FinallyPutOff),
        'U' => !value || here.right || faults::is(Fault::FinallyPutOff) || faults::is(Fault::UntilNeedsNoEnd),
        'G' => value || !here.right || faults::is(Fault::GloballyPutOff),
        'R' if faults::is(Fault::ReleaseSwapped) => value || !here.left,
        'R' => value || !here.right || faults::is(Fault::GloballyPutOff),
        _ => true,
    }
}

/// The graph of pairs of a plant and a rule; pair (s, v) is node s * width + v.
pub struct Graph {
    plant: Plant,
    width: usize,
    holds: Vec<bool>,
    next: Vec<Vec<usize>>,
    debts: Vec<Vec<bool>>,
    pub live: Vec<bool>,
}

impl Graph {
    pub fn new(plant: &Plant, rule: &Rule) -> Graph {
        let mut parts = Vec::new();
        let top = flatten(rule, &mut parts);
        let width = 1usize << parts.len();
        let nodes = plant.states * width;
        let state = |n: usize| n / width;
        let value = |n: usize, k: usize| (n % width) >> k & 1 == 1;
        let holds = (0..nodes).map(|n| truth(&top, plant.label[state(n)], (n % width) as u64)).collect();
        let sides: Vec<Vec<Sides>> = (0..nodes)
            .map(|n| {
                let (label, v) = (plant.label[state(n)], (n % width) as u64);
                parts.iter().map(|p| Sides { left: truth(&p.left, label, v), right: truth(&p.right, label, v) }).collect()
            })
            .collect();
        let leads = |n: usize, m: usize| (0..parts.len()).all(|k| fits(parts[k].op, value(n, k), sides[n][k], sides[m][k], value(m, k)));
        let next = (0..nodes)
            .map(|n| (0..nodes).filter(|m| plant.moves(state(n), state(*m)) && leads(n, *m)).collect())
            .collect();
        let mut debts: Vec<Vec<bool>> = Vec::new();
        for set in &plant.fair {
            debts.push((0..nodes).map(|n| set >> state(n) & 1 == 1).collect());
        }
        if faults::is(Fault::NoFairness) {
            debts.clear();
        }
        if faults::is(Fault::FairnessOnce) && !debts.is_empty() {
            let any = (0..nodes).map(|n| debts.iter().any(|d| d[n])).collect();
            debts = vec![any];
        }
        for k in 0..parts.len() {
            debts.push((0..nodes).map(|n| settled(parts[k].op, value(n, k), sides[n][k])).collect());
        }
        let mut graph = Graph { plant: plant.clone(), width, holds, next, debts, live: vec![] };
        graph.live = graph.find_live();
        graph
    }

    pub fn pair(&self, node: usize) -> (usize, u64) {
        (node / self.width, (node % self.width) as u64)
    }

    /// A knot owes nothing if it has a move inside and a node for each debt.
    fn is_free(&self, knot: &[usize], number: &[usize]) -> bool {
        let same = number[knot[0]];
        let turns = knot.iter().any(|n| self.next[*n].iter().any(|m| number[*m] == same));
        turns && self.debts.iter().all(|d| knot.iter().any(|n| d[*n]))
    }

    fn find_live(&self) -> Vec<bool> {
        let (knots, number) = knots(&self.next);
        let mut live = vec![false; self.next.len()];
        // Knots come so that each stands after those it leads to.
        for knot in &knots {
            let leads = knot.iter().any(|n| self.next[*n].iter().any(|m| live[*m]));
            let dead_end = faults::is(Fault::DeadEndsLive) && self.plant.next[knot[0] / self.width] == 0;
            if leads || dead_end || faults::is(Fault::DeadPairsKept) || self.is_free(knot, &number) {
                knot.iter().for_each(|n| live[*n] = true);
            }
        }
        live
    }

    /// A fair lasso by which a node is live, if it is: to the nearest node of a free knot, then round by each debt.
    pub fn lasso(&self, node: usize) -> Option<Lasso> {
        let (knots, number) = knots(&self.next);
        let free: Vec<bool> = knots.iter().map(|k| self.is_free(k, &number)).collect();
        let stem = self.path(node, |n| free[number[n]], |_| true)?;
        let entry = *stem.last().unwrap();
        let inside = |n: usize| number[n] == number[entry];
        let mut ring = vec![entry];
        for debt in &self.debts {
            let leg = self.path(*ring.last().unwrap(), |n| debt[n], inside).expect("a debt's node");
            ring.extend(&leg[1..]);
        }
        // One move at least, then back to the entry.
        let last = *ring.last().unwrap();
        let out = *self.next[last].iter().find(|m| inside(**m)).expect("a move inside");
        let back = self.path(out, |n| n == entry, inside).expect("a way back");
        ring.extend(&back[..back.len() - 1]);
        let states = |nodes: &[usize]| nodes.iter().map(|n| n / self.width).collect();
        Some(Lasso { stem: states(&stem[..stem.len() - 1]), ring: states(&ring) })
    }

    /// A shortest path from a node to one that is wanted, over nodes that are allowed.
    fn path(&self, from: usize, wanted: impl Fn(usize) -> bool, allowed: impl Fn(usize) -> bool) -> Option<Vec<usize>> {
        let mut before = vec![usize::MAX; self.next.len()];
        let mut queue = std::collections::VecDeque::from(vec![from]);
        before[from] = from;
        while let Some(n) = queue.pop_front() {
            if wanted(n) {
                let mut path = vec![n];
                while *path.last().unwrap() != from {
                    path.push(before[*path.last().unwrap()]);
                }
                path.reverse();
                return Some(path);
            }
            for m in self.next[n].iter().cloned() {
                if before[m] == usize::MAX && allowed(m) {
                    before[m] = n;
                    queue.push_back(m);
                }
            }
        }
        None
    }
}

/// The knots (strongly connected parts) of a graph, each after those it leads to, and each node's knot. Tarjan's walk without recursion.
fn knots(next: &[Vec<usize>]) -> (Vec<Vec<usize>>, Vec<usize>) {
    let n = next.len();
    let (mut index, mut low, mut number) = (vec![usize::MAX; n], vec![0; n], vec![usize::MAX; n]);
    let (mut knots, mut stack, mut count) = (Vec::new(), Vec::new(), 0);
    for root in 0..n {
        if index[root] != usize::MAX {
            continue;
        }
        let mut walk = vec![(root, 0usize)];
        while let Some((v, i)) = walk.pop() {
            if i == 0 {
                index[v] = count;
                low[v] = count;
                count += 1;
                stack.push(v);
            }
            if i > 0 {
                low[v] = low[v].min(low[next[v][i - 1]]);
            }
            let mut at = i;
            while at < next[v].len() && index[next[v][at]] != usize::MAX {
                let w = next[v][at];
                if number[w] == usize::MAX {
                    low[v] = low[v].min(index[w]);
                }
                at += 1;
            }
            if at < next[v].len() {
                walk.push((v, at + 1));
                walk.push((next[v][at], 0));
                continue;
            }
            if low[v] == index[v] {
                let from = stack.iter().rposition(|x| *x == v).unwrap();
                let knot = stack.split_off(from);
                knot.iter().for_each(|x| number[*x] = knots.len());
                knots.push(knot);
            }
        }
    }
    (knots, number)
}

#[derive(Clone, Copy, PartialEq, Debug)]
pub enum Verdict {
    Inconclusive,
    True,
    False,
    OutOfModel,
}

/// The two sets, as lists of nodes in rising order.
#[derive(Clone, Debug)]
pub struct Monitor {
    seen: bool,
    pub keeps: Vec<usize>,
    pub breaks: Vec<usize>,
}

impl Monitor {
    pub fn open(graph: &Graph) -> Monitor {
        let at_start = |n: usize| graph.plant.starts(n / graph.width) || faults::is(Fault::StartAnywhere);
        let opening: Vec<usize> = (0..graph.live.len()).filter(|n| graph.live[*n] && at_start(*n)).collect();
        let (keeps, breaks) = opening.into_iter().partition(|n| graph.holds[*n]);
        Monitor { seen: false, keeps, breaks }
    }

    fn agreeing(set: Vec<usize>, graph: &Graph, event: Event) -> Vec<usize> {
        set.into_iter().filter(|n| event.agrees(graph.plant.label[n / graph.width])).collect()
    }

    fn moved(set: &[usize], graph: &Graph) -> Vec<usize> {
        let mut hit = vec![false; graph.next.len()];
        set.iter().for_each(|n| graph.next[*n].iter().for_each(|m| hit[*m] = true));
        (0..hit.len()).filter(|n| hit[*n] && graph.live[*n]).collect()
    }

    pub fn step(&self, graph: &Graph, event: Event) -> Monitor {
        let restart = event.new && (self.seen || faults::is(Fault::RestartFirst)) && !faults::is(Fault::RestartIgnored);
        let revives = faults::is(Fault::RestartRevives) && self.verdict() == Verdict::OutOfModel;
        if restart && (faults::is(Fault::RestartForgets) || faults::is(Fault::RestartAnywhere) || revives) {
            let open = if faults::is(Fault::RestartAnywhere) { faults::with(Some(Fault::StartAnywhere), || Monitor::open(graph)) } else { Monitor::open(graph) };
            let keeps = Self::agreeing(open.keeps, graph, event);
            return Monitor { seen: true, keeps, breaks: Self::agreeing(open.breaks, graph, event) };
        }
        if restart {
            return self.restarted(graph, event);
        }
        let first = !self.seen && !faults::is(Fault::MoveBeforeFirst) || faults::is(Fault::NoMove);
        let go = |set: &Vec<usize>| if first { set.clone() } else { Self::moved(set, graph) };
        let after = Monitor { seen: true, keeps: Self::agreeing(go(&self.keeps), graph, event), breaks: Self::agreeing(go(&self.breaks), graph, event) };
        let decided = self.verdict() == Verdict::True || self.verdict() == Verdict::False;
        if faults::is(Fault::DecidedSticks) && decided && after.verdict() == Verdict::OutOfModel {
            return self.clone();
        }
        after
    }

    /// Both sets move as one, and what they reach is split by the rule's value there.
    fn restarted(&self, graph: &Graph, event: Event) -> Monitor {
        let go = |set: &[usize]| {
            let moved = if faults::is(Fault::RestartNoMove) { set.to_vec() } else { Self::moved(set, graph) };
            let at_start = |n: &usize| graph.plant.starts(n / graph.width) || !faults::is(Fault::RestartAtStart);
            Self::agreeing(moved.into_iter().filter(at_start).collect(), graph, event)
        };
        if faults::is(Fault::RestartKeepsSides) {
            let keeps = go(&self.keeps).into_iter().filter(|n| graph.holds[*n]).collect();
            return Monitor { seen: true, keeps, breaks: go(&self.breaks).into_iter().filter(|n| !graph.holds[*n]).collect() };
        }
        let mut both = [self.keeps.as_slice(), &self.breaks].concat();
        both.sort();
        both.dedup();
        if faults::is(Fault::RestartSplitsFirst) {
            let (keeps, breaks): (Vec<usize>, Vec<usize>) = both.into_iter().partition(|n| graph.holds[*n]);
            return Monitor { seen: true, keeps: go(&keeps), breaks: go(&breaks) };
        }
        let (keeps, breaks) = go(&both).into_iter().partition(|n| graph.holds[*n]);
        Monitor { seen: true, keeps, breaks }
    }

    pub fn verdict(&self) -> Verdict {
        match (self.keeps.is_empty(), self.breaks.is_empty()) {
            (false, false) => Verdict::Inconclusive,
            (false, true) => Verdict::True,
            (true, false) => Verdict::False,
            (true, true) if faults::is(Fault::TrueOnNothing) => Verdict::True,
            (true, true) => Verdict::OutOfModel,
        }
    }

    /// The states that occur in the two sets.
    pub fn states(&self, graph: &Graph) -> Vec<usize> {
        let mut states: Vec<usize> = self.keeps.iter().chain(&self.breaks).map(|n| n / graph.width).collect();
        states.sort();
        states.dedup();
        states
    }

    pub fn left(&self, graph: &Graph) -> usize {
        let alone = |keeps: &Vec<usize>| Monitor { seen: true, keeps: keeps.clone(), breaks: vec![] }.states(graph).len();
        if faults::is(Fault::LeftCountsPairs) {
            return self.keeps.len() + self.breaks.len();
        }
        if faults::is(Fault::LeftCountsTwice) {
            return alone(&self.keeps) + alone(&self.breaks);
        }
        if faults::is(Fault::LeftOfKeeping) {
            return alone(&self.keeps);
        }
        self.states(graph).len()
    }
}

/// The monitors of a log, the opening first.
pub fn trace(graph: &Graph, events: &[Event]) -> Vec<Monitor> {
    let mut trace = vec![Monitor::open(graph)];
    for event in events {
        let after = trace.last().unwrap().step(graph, *event);
        trace.push(after);
    }
    trace
}

/// A run that is at `node` now, given the trace of the sets it went through: the walk that led there, then the node's lasso.
pub fn run_to(graph: &Graph, sets: &[Vec<usize>], node: usize) -> Lasso {
    let mut walk = vec![node];
    // The opening and the first event are the same position.
    for set in sets.iter().rev().skip(1).take(sets.len().saturating_sub(2)) {
        let now = *walk.last().unwrap();
        walk.push(*set.iter().find(|p| graph.next[**p].contains(&now)).expect("an old pair that leads here"));
    }
    walk.reverse();
    let mut run = graph.lasso(node).expect("a live node");
    let before: Vec<usize> = walk[..walk.len() - 1].iter().map(|n| n / graph.width).collect();
    run.stem = [before, run.stem].concat();
    run
}
