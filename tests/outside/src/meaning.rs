//! What a run is and when a rule holds on it, word by word after the paper; and the check of runs and witnesses by it.

use crate::log::{mark, Event};
use crate::plant::Plant;
use crate::rule::Rule;

/// A stem of states, then a loop for ever.
#[derive(Clone, Debug, PartialEq)]
pub struct Lasso {
    pub stem: Vec<usize>,
    pub ring: Vec<usize>,
}

impl Lasso {
    pub fn len(&self) -> usize {
        self.stem.len() + self.ring.len()
    }

    /// The position that stands for position i: from the loop's end one goes on at its beginning.
    pub fn place(&self, i: usize) -> usize {
        let stem = self.stem.len();
        if i < stem { i } else { stem + (i - stem) % self.ring.len() }
    }

    pub fn state(&self, i: usize) -> usize {
        let i = self.place(i);
        if i < self.stem.len() { self.stem[i] } else { self.ring[i - self.stem.len()] }
    }

    /// What is wrong with it as a fair lasso of the plant, if anything; its first state may be any.
    pub fn fault(&self, plant: &Plant) -> Option<String> {
        if self.ring.is_empty() {
            return Some(String::from("the loop is empty"));
        }
        if let Some(s) = self.stem.iter().chain(&self.ring).find(|s| **s >= plant.states) {
            return Some(format!("state {} is beyond the table", s));
        }
        if let Some(i) = (0..self.len()).find(|i| !plant.moves(self.state(*i), self.state(i + 1))) {
            return Some(format!("no move from state {} to state {} at position {}", self.state(i), self.state(i + 1), i));
        }
        let missing = plant.fair.iter().position(|set| !self.ring.iter().any(|s| set >> s & 1 == 1));
        missing.map(|j| format!("the loop has no state of fairness set {}", j))
    }
}

/// The rule's value at each position of a lasso, each by its definition. Positions i to i + len - 1 stand for all from i on.
pub fn values(rule: &Rule, plant: &Plant, lasso: &Lasso) -> Vec<bool> {
    let n = lasso.len();
    let at = |v: &Vec<bool>, i: usize| v[lasso.place(i)];
    match rule {
        Rule::Is(b) => vec![*b; n],
        Rule::Prop(p) => (0..n).map(|i| plant.has(lasso.state(i), *p)).collect(),
        Rule::One(op, a) => {
            let a = values(a, plant, lasso);
            (0..n)
                .map(|i| match op {
                    '!' => !a[i],
                    'X' => at(&a, i + 1),
                    'F' => (i..i + n).any(|j| at(&a, j)),
                    _ => (i..i + n).all(|j| at(&a, j)),
                })
                .collect()
        }
        Rule::Two(op, a, b) => {
            let (a, b) = (values(a, plant, lasso), values(b, plant, lasso));
            (0..n)
                .map(|i| match op {
                    '&' => a[i] && b[i],
                    '|' => a[i] || b[i],
                    '>' => !a[i] || b[i],
                    'U' => (i..i + n).any(|j| at(&b, j) && (i..j).all(|k| at(&a, k))),
                    _ => (i..i + n).all(|j| at(&b, j) || (i..j).any(|k| at(&a, k))),
                })
                .collect()
        }
    }
}

/// What is wrong with a run that is said to agree with the events and, from the last restart on, to keep (or break) the rule, if anything.
pub fn run_fault(plant: &Plant, rule: &Rule, events: &[Event], run: &Lasso, keeps: bool) -> Option<String> {
    let first = run.stem.first().or_else(|| run.ring.first());
    if !first.map_or(false, |s| *s < plant.states && plant.starts(*s)) {
        return Some(String::from("the first state is no starting state"));
    }
    if let Some(fault) = run.fault(plant) {
        return Some(fault);
    }
    if let Some(i) = (0..events.len()).find(|i| !events[*i].agrees(plant.label[run.state(*i)])) {
        return Some(format!("event {} does not agree", i));
    }
    if values(rule, plant, run)[run.place(mark(events))] != keeps {
        return Some(String::from("the rule has the other value"));
    }
    None
}

/// What is wrong with a lasso that is said to make a pair live, if anything: it must begin at the pair's state and give
/// each temporal part the pair's value (bit k is part k, in the order of the printed text) at its first position.
pub fn witness_fault(plant: &Plant, rule: &Rule, state: usize, valuation: u64, witness: &Lasso) -> Option<String> {
    if let Some(fault) = witness.fault(plant) {
        return Some(fault);
    }
    if witness.state(0) != state {
        return Some(format!("it begins at state {} and not at {}", witness.state(0), state));
    }
    let wrong = rule.parts().iter().enumerate().position(|(k, part)| values(part, plant, witness)[0] != (valuation >> k & 1 == 1));
    wrong.map(|k| format!("part {} has the other value", k))
}

/// What is wrong with a witness written into a buffer: bounds of the lengths, then the lasso itself.
pub fn written_fault(plant: &Plant, rule: &Rule, pair: (usize, u64), buffer: &[u8], stem: usize, ring: usize) -> Option<String> {
    if stem > 4095 || ring < 1 || ring > 45056 || stem + ring > buffer.len() {
        return Some(format!("stem {} and loop {} are not within the bounds", stem, ring));
    }
    let states = |part: &[u8]| part.iter().map(|b| *b as usize).collect();
    let lasso = Lasso { stem: states(&buffer[..stem]), ring: states(&buffer[stem..stem + ring]) };
    witness_fault(plant, rule, pair.0, pair.1, &lasso)
}

#[cfg(test)]
mod tests {
    use super::*;
    use crate::plant::plant_w;

    fn rule(text: &str) -> Rule {
        crate::rule::read(text.as_bytes(), 2).unwrap()
    }

    fn lasso(stem: &[usize], ring: &[usize]) -> Lasso {
        Lasso { stem: stem.to_vec(), ring: ring.to_vec() }
    }

    fn first(text: &str, stem: &[usize], ring: &[usize]) -> bool {
        values(&rule(text), &plant_w(), &lasso(stem, ring))[0]
    }

    #[test]
    fn values_by_hand() {
        // States 0, 1, 2 of the plant have no proposition, p0, p1.
        assert!(first("Fp1", &[0, 1], &[2, 0, 1]));
        assert!(!first("Fp1", &[0], &[1]));
        assert!(first("G!p1", &[0], &[1]));
        assert!(!first("p0Up1", &[0], &[1]));
        assert!(first("p0Up1", &[1, 1], &[2, 0, 1]));
        assert!(!first("p0Up1", &[], &[1]));
        assert!(first("p0R!p1", &[], &[0]));
        assert!(first("p0R!p1", &[1], &[2, 0, 1]));
        assert!(!first("p0R!p1", &[], &[2, 0, 1]));
        assert!(!first("p0Rp1", &[1], &[2, 0, 1]));
        assert!(first("Xp0", &[0], &[1]));
        assert!(first("XXXp0", &[], &[0, 1, 2]) == first("XXXXXXp0", &[], &[0, 1, 2]));
        assert!(first("GFp0&GFp1", &[], &[0, 1, 2]));
    }

    #[test]
    fn a_good_witness_passes() {
        // Parts of G(p0->Fp1) in the printed order: G, then F.
        let r = rule("G(p0->Fp1)");
        assert_eq!(witness_fault(&plant_w(), &r, 1, 3, &lasso(&[1], &[2, 0, 1])), None);
        assert_eq!(witness_fault(&plant_w(), &r, 1, 0, &lasso(&[], &[1])), None);
        assert_eq!(witness_fault(&plant_w(), &r, 1, 2, &lasso(&[1, 2, 0], &[1])), None);
    }

    #[test]
    fn a_bad_witness_is_found() {
        let r = rule("G(p0->Fp1)");
        let mut w = plant_w();
        let bad = |p: &Plant, s, v, l: &Lasso, why: &str| assert!(witness_fault(p, &r, s, v, l).expect(why).contains(why));
        bad(&w, 1, 3, &lasso(&[1], &[]), "empty");
        bad(&w, 1, 3, &lasso(&[1], &[3]), "beyond");
        bad(&w, 1, 3, &lasso(&[1], &[2, 1]), "no move from state 2 to state 1");
        bad(&w, 1, 3, &lasso(&[1, 2], &[0, 1]), "no move from state 1 to state 0");
        bad(&w, 0, 3, &lasso(&[1], &[2, 0, 1]), "begins at state 1");
        bad(&w, 1, 1, &lasso(&[1], &[2, 0, 1]), "part 1");
        bad(&w, 1, 2, &lasso(&[1], &[2, 0, 1]), "part 0");
        bad(&w, 1, 3, &lasso(&[], &[1]), "part 0");
        w.fair = vec![5];
        bad(&w, 1, 0, &lasso(&[], &[1]), "fairness set 0");
        assert_eq!(witness_fault(&w, &r, 1, 3, &lasso(&[1], &[2, 0, 1])), None);
    }

    #[test]
    fn written_witnesses() {
        let r = rule("G(p0->Fp1)");
        let mut buffer = vec![9u8; 49152];
        buffer[..4].copy_from_slice(&[1, 2, 0, 1]);
        assert_eq!(written_fault(&plant_w(), &r, (1, 3), &buffer, 1, 3), None);
        assert!(written_fault(&plant_w(), &r, (1, 3), &buffer, 4, 0).is_some());
        assert!(written_fault(&plant_w(), &r, (1, 3), &buffer, 4096, 3).is_some());
        assert!(written_fault(&plant_w(), &r, (1, 3), &buffer, 1, 45057).is_some());
        assert!(written_fault(&plant_w(), &r, (1, 3), &buffer, 0, 4).is_none());
    }

    #[test]
    fn runs_by_hand() {
        let see = |v| Event { num: None, see: 3, val: v, new: false };
        let events = [see(0), see(1), see(2)];
        let good = lasso(&[0, 1], &[2, 0, 1]);
        assert_eq!(run_fault(&plant_w(), &rule("Fp1"), &events, &good, true), None);
        assert!(run_fault(&plant_w(), &rule("Fp1"), &events, &good, false).is_some());
        assert!(run_fault(&plant_w(), &rule("Fp1"), &events, &lasso(&[0, 0, 1], &[2, 0, 1]), true).is_some());
        assert!(run_fault(&plant_w(), &rule("Fp1"), &[], &lasso(&[], &[1, 2, 0]), true).is_some());
        let warm = [see(0), see(1), Event { new: true, ..see(2) }];
        assert_eq!(run_fault(&plant_w(), &rule("Xp0"), &warm, &good, false), None);
        assert_eq!(run_fault(&plant_w(), &rule("Xp0"), &events, &good, true), None);
        assert!(run_fault(&plant_w(), &rule("p1"), &warm, &lasso(&[], &[2, 0, 1]), true).is_some());
    }
}
