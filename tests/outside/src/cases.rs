//! Seeded cases: plants, rules and logs, good and damaged, and what may stand in the place of a file.

use crate::dice::Dice;
use crate::log::{Event, UNSEEN};
use crate::pairs::{Graph, Monitor, Verdict};
use crate::plant::{digits, Plant};
use crate::rule::Rule;
use crate::watch::{File, Files};

pub struct Case {
    pub kind: &'static str,
    pub files: Files,
    /// The output as the paper gives it, where it does.
    pub given: Option<&'static str>,
}

fn mask(states: usize) -> u64 {
    if states == 64 { u64::MAX } else { (1 << states) - 1 }
}

/// A set of states in which each occurs with this chance.
fn set(dice: &mut Dice, states: usize, percent: usize) -> u64 {
    (0..states).fold(0, |s, k| s | (dice.chance(percent) as u64) << k)
}

/// A plant, most often one that has a run.
pub fn plant(dice: &mut Dice, states: usize) -> Plant {
    let mut plant = any_plant(dice, states);
    for _ in 0..8 {
        if Monitor::open(&Graph::new(&plant, &Rule::Is(true))).verdict() == Verdict::True || dice.chance(10) {
            break;
        }
        plant = any_plant(dice, states);
    }
    plant
}

fn any_plant(dice: &mut Dice, states: usize) -> Plant {
    let props = *dice.pick(&[1, 2, 2, 3, 3, 4, 5, 8, 9, 13, 16]);
    let style = dice.below(4);
    let share = *dice.pick(&[15, 30, 50, 90]);
    let dead_ends = dice.chance(15);
    let mut next = Vec::new();
    for s in 0..states {
        let mut n = match style {
            0 => 1 << dice.below(states) | 1 << dice.below(states),
            1 => 1 << ((s + 1) % states) | set(dice, states, 10),
            2 => 1 << s | 1 << dice.below(states),
            _ => set(dice, states, share),
        };
        if dead_ends && dice.chance(30) {
            n = 0;
        }
        next.push(n);
    }
    let start = if dice.chance(60) { 1 << dice.below(states) } else { set(dice, states, share) };
    let just = *dice.pick(&[0, 0, 1, 1, 2, 3, 4]);
    let thin = *dice.pick(&[20, 40, 80]);
    let fair = (0..just).map(|_| if dice.chance(40) { 1 << dice.below(states) } else { set(dice, states, thin) }).collect();
    let label = (0..states).map(|_| dice.below(1 << props) as u16).collect();
    Plant { props, states, start, fair, label, next }
}

/// What a rule's text may still use up.
struct Purse {
    nodes: i32,
    parts: i32,
    spaces: usize,
    props: usize,
}

impl Purse {
    fn gap(&self, dice: &mut Dice, text: &mut String) {
        while dice.chance(self.spaces) {
            text.push(' ');
        }
    }

    fn operand(&mut self, dice: &mut Dice, text: &mut String, depth: usize) {
        while self.nodes > 2 && dice.chance(40) {
            let op = if self.parts > 0 { *dice.pick(&['!', 'X', 'F', 'G']) } else { '!' };
            self.parts -= (op != '!') as i32;
            self.nodes -= 1;
            self.gap(dice, text);
            text.push(op);
        }
        self.gap(dice, text);
        if depth > 0 && dice.chance(45) {
            text.push('(');
            self.text(dice, text, depth - 1);
            text.push(')');
        } else {
            self.nodes -= 1;
            match dice.below(14) {
                0 => text.push('0'),
                1 => text.push('1'),
                _ => *text += &format!("p{}", dice.below(self.props)),
            }
        }
        self.gap(dice, text);
    }

    fn text(&mut self, dice: &mut Dice, text: &mut String, depth: usize) {
        self.operand(dice, text, depth);
        while self.nodes > 3 && dice.chance(50) {
            let op = if self.parts > 0 { *dice.pick(&["U", "R", "&", "|", "->", "U", "R"]) } else { *dice.pick(&["&", "|", "->"]) };
            self.parts -= (op == "U" || op == "R") as i32;
            self.nodes -= 1;
            *text += op;
            self.operand(dice, text, depth);
        }
    }
}

const PATTERNS: &[&str] = &[
    "G(a->Fb)", "aUb", "GFa", "FGa", "G!a", "Fa", "aR!b", "G(a->XXb)", "GFa->GFb", "!(aUb)", "G(a->(!bUc))", "F(a&Xb)", "(aUb)R(bUc)",
    "Ga|Fb", "XXXa", "G(a->X(bRc))", "FGa&GFb", "aRbRc", "aUbUc", "G(a|X0)", "X1", "!X!a", "F(aUb)&!GFc", "G(a->Fb)&G(b->Fc)", "(GFa|FGb)->Fc",
];

/// A rule's text, most often one that the plant alone does not decide, if the plant is small.
fn open_rule(dice: &mut Dice, plant: &Plant, parts: usize) -> String {
    let mut text = rule(dice, plant.props, parts);
    for _ in 0..6 {
        let read = crate::rule::read(text.as_bytes(), plant.props);
        let decided = read.map_or(false, |r| Monitor::open(&Graph::new(plant, &r)).verdict() != Verdict::Inconclusive);
        if !decided || plant.states > 9 || dice.chance(15) {
            break;
        }
        text = rule(dice, plant.props, parts);
    }
    text
}

pub fn rule(dice: &mut Dice, props: usize, parts: usize) -> String {
    if dice.chance(30) {
        let pattern = dice.pick(PATTERNS).to_string();
        let pattern = "abc".chars().fold(pattern, |t, c| t.replace(c, &format!("p{}", dice.below(props))));
        if pattern.bytes().filter(|b| b"XFGUR".contains(b)).count() <= parts {
            return pattern;
        }
    }
    let nodes = *dice.pick(&[4, 8, 12, 20, 32]);
    let mut purse = Purse { nodes, parts: parts as i32, spaces: *dice.pick(&[0, 0, 10, 40]), props };
    let mut text = String::new();
    purse.text(dice, &mut text, 3);
    text
}

fn event_at(dice: &mut Dice, plant: &Plant, s: usize, sight: usize, new: bool) -> Event {
    let see = (0..plant.props).fold(0u16, |m, p| m | (dice.chance(sight) as u16) << p);
    Event { num: None, see, val: plant.label[s] & see, new }
}

/// A log that follows a walk through the plant, with some restarts and, now and then, a sight that does not fit. At a restart it may jump to the start.
pub fn log(dice: &mut Dice, plant: &Plant, length: usize) -> Vec<Event> {
    let sight = *dice.pick(&[20, 40, 60, 100]);
    let restarts = *dice.pick(&[0, 0, 10, 30]);
    let noise = *dice.pick(&[0, 0, 0, 3, 15]);
    let graph = Graph::new(plant, &Rule::Is(true));
    let starts: Vec<usize> = (0..plant.states).filter(|s| plant.starts(*s) && graph.live[*s]).collect();
    let begin = |dice: &mut Dice| if starts.is_empty() { 0 } else { *dice.pick(&starts) };
    let mut s = begin(dice);
    let mut events = Vec::new();
    for _ in 0..length {
        let new = dice.chance(restarts);
        if new && dice.chance(8) {
            s = begin(dice);
        }
        let mut event = event_at(dice, plant, s, sight, new);
        if dice.chance(noise) {
            event.val ^= event.see & dice.word() as u16;
        }
        events.push(event);
        let ways: Vec<usize> = (0..plant.states).filter(|t| plant.moves(s, *t) && graph.live[*t]).collect();
        s = if ways.is_empty() { s } else { *dice.pick(&ways) };
    }
    events
}

/// The events with numbers, as a radio brings them: some are lost on the way, but not the first.
fn numbered(dice: &mut Dice, events: &[Event]) -> Vec<Event> {
    let drawn = dice.word() >> 33;
    let first = *dice.pick(&[0, 0, 1, 9, 250, 65530, u32::MAX as u64 + 1 - events.len() as u64, drawn]);
    let lost = *dice.pick(&[0, 15, 40]);
    let number = |k: usize| (first + k as u64).min(u32::MAX as u64) as u32;
    let all = events.iter().enumerate().map(|(k, e)| Event { num: Some(number(k)), ..*e });
    all.enumerate().filter(|(k, _)| *k == 0 || !dice.chance(lost)).map(|(_, e)| e).collect()
}

/// The same events, sometimes with numbers.
pub fn as_sent(dice: &mut Dice, events: Vec<Event>) -> Vec<Event> {
    if dice.chance(40) { numbered(dice, &events) } else { events }
}

fn log_text(props: usize, events: &[Event]) -> Vec<u8> {
    events.iter().map(|e| e.text(props)).collect::<String>().into_bytes()
}

/// Damages a text in one of the ways in which texts are damaged.
fn damage(dice: &mut Dice, text: &mut Vec<u8>, alphabet: &[u8]) {
    let near = dice.chance(50);
    let spot = |dice: &mut Dice, n: usize| if near { dice.below(n.min(60)) } else { dice.below(n) };
    let byte = if dice.chance(90) { *dice.pick(alphabet) } else { dice.word() as u8 };
    let n = text.len();
    match dice.below(10) {
        0 | 1 | 2 if n > 0 => {
            let at = spot(dice, n);
            text[at] = byte;
        }
        3 | 4 => {
            let at = spot(dice, n + 1);
            text.insert(at, byte);
        }
        5 | 6 if n > 0 => {
            let at = spot(dice, n);
            text.remove(at);
        }
        7 => text.truncate(dice.below(n + 1)),
        8 => text.push(byte),
        _ if n > 1 => {
            let (a, b) = (dice.below(n), dice.below(n));
            text.swap(a, b);
        }
        _ => text.push(b'\n'),
    }
}

/// A plant, a rule of so many parts and a log of so many events.
pub fn good(dice: &mut Dice, states: usize, parts: usize, length: usize) -> (Plant, String, Vec<Event>) {
    let plant = plant(dice, states);
    let rule = open_rule(dice, &plant, parts);
    let log = log(dice, &plant, length);
    (plant, rule, log)
}

pub fn files(plant: &Plant, rule: &str, log: &[Event]) -> Files {
    Files { plant: File::Bytes(plant.text()), rule: File::Bytes(rule.as_bytes().to_vec()), log: File::Bytes(log_text(plant.props, log)) }
}

fn bytes(file: &mut File) -> &mut Vec<u8> {
    match file {
        File::Bytes(bytes) => bytes,
        _ => unreachable!(),
    }
}

/// The bytes of a file, if it can be read.
fn held(file: &File) -> Vec<u8> {
    match file {
        File::Bytes(bytes) | File::Linked(bytes) => bytes.clone(),
        _ => vec![],
    }
}

/// A case whose texts are good.
fn plain(dice: &mut Dice) -> Files {
    let (states, parts) = *dice.pick(&[(1, 6), (2, 5), (3, 6), (4, 3), (5, 6), (7, 4), (9, 3), (16, 3), (24, 2), (40, 2), (64, 1)]);
    let length = *dice.pick(&[0, 1, 2, 5, 12, 30]);
    let (plant, rule, log) = good(dice, states, parts, length);
    let log = as_sent(dice, log);
    let mut files = files(&plant, &rule, &log);
    if dice.chance(40) {
        bytes(&mut files.rule).push(b'\n');
    }
    files
}

fn small(dice: &mut Dice) -> Files {
    let states = dice.from(1, 4);
    let length = dice.from(0, 8);
    let (plant, rule, log) = good(dice, states, 3, length);
    let log = as_sent(dice, log);
    files(&plant, &rule, &log)
}

/// Operators of all levels in a row, with few parentheses, on a plant that can do anything: how a rule groups shows in its verdicts.
fn chains(dice: &mut Dice) -> Files {
    let props = dice.from(1, 3);
    let states = 1usize << props;
    let plant = Plant { props, states, start: mask(states), fair: vec![], label: (0..states as u16).collect(), next: vec![mask(states); states] };
    let mut purse = Purse { nodes: 11, parts: 4, spaces: *dice.pick(&[0, 20]), props };
    let mut text = String::new();
    purse.operand(dice, &mut text, 0);
    for _ in 0..dice.from(2, 4) {
        let op = if purse.parts > 0 { *dice.pick(&["U", "R", "U", "R", "&", "|", "->"]) } else { *dice.pick(&["&", "|", "->"]) };
        purse.parts -= (op == "U" || op == "R") as i32;
        text += op;
        purse.operand(dice, &mut text, 0);
    }
    let length = dice.from(2, 8);
    let events: Vec<Event> = (0..length).map(|_| { let s = dice.below(states); event_at(dice, &plant, s, 85, false) }).collect();
    files(&plant, &text, &events)
}

/// Many states together with many temporal operators.
fn large(dice: &mut Dice) -> Files {
    let states = *dice.pick(&[48, 63, 64]);
    let parts = dice.from(3, 6);
    let length = dice.from(0, 25);
    let (plant, rule, log) = good(dice, states, parts, length);
    files(&plant, &rule, &log)
}

/// A ring of many states with few short cuts, where little holds and fairness sets have one state: a run has far to go.
fn far(dice: &mut Dice) -> Files {
    let states = dice.from(40, 64);
    let short_cuts = *dice.pick(&[0, 3, 10]);
    let next = (0..states).map(|s| 1u64 << ((s + 1) % states) | if dice.chance(short_cuts) { 1 << dice.below(states) } else { 0 }).collect();
    let label = (0..states).map(|_| (0..3).fold(0, |l, p| l | (dice.chance(6) as u16) << p)).collect();
    // One before the other, so that each is nearly a round further on.
    let last = dice.from(4, states - 1);
    let backwards = dice.chance(40);
    let fair = (0..dice.from(0, 4)).map(|k| 1 << if backwards { last - k } else { dice.below(states) }).collect();
    let plant = Plant { props: 3, states, start: 1 << dice.below(states), fair, label, next };
    let rule = *dice.pick(&["GFp0&GFp1", "FGp0|GFp1", "G(p0->F(p1&Fp2))", "(!p0Up1)|GFp2", "G(p0->!p1Up2)", "!GF(p0&Xp1)"]);
    let length = dice.from(0, 12);
    let log = log(dice, &plant, length);
    files(&plant, rule, &log)
}

/// The bytes of a text that stand behind a `=`, up to the end of that value.
fn values(text: &[u8]) -> Vec<usize> {
    let mut inside = false;
    let mut found = Vec::new();
    for (at, byte) in text.iter().enumerate() {
        inside = inside && !b" \n".contains(byte);
        if inside {
            found.push(at);
        }
        inside = inside || *byte == b'=';
    }
    found
}

/// Digits as a neighbour's tool writes them: capital ones, also mixed with small ones in one number; now and then a byte beside the digits among them, or a capital in a key.
fn capitals(dice: &mut Dice) -> Files {
    let states = *dice.pick(&[4, 7, 12, 33, 64]);
    let length = dice.from(1, 12);
    let (plant, rule, log) = loop {
        let drawn = good(dice, states, 2, length);
        if drawn.0.props > 3 {
            break drawn;
        }
    };
    let log = as_sent(dice, log);
    let mut files = files(&plant, &rule, &log);
    for file in [&mut files.plant, &mut files.log] {
        let share = *dice.pick(&[20, 60, 100]);
        let text = bytes(file);
        let digits = values(text);
        for at in &digits {
            if dice.chance(share) {
                text[*at].make_ascii_uppercase();
            }
        }
        if dice.chance(20) {
            text[*dice.pick(&digits)] = *dice.pick(b"/:@G[`g{");
        }
        if dice.chance(10) {
            let at = dice.below(text.len());
            text[at].make_ascii_uppercase();
        }
    }
    files
}

fn damaged_plant(dice: &mut Dice) -> Files {
    let states = *dice.pick(&[1, 2, 3, 9, 10, 11, 63, 64]);
    let (mut plant, rule, log) = good(dice, states, 1, 2);
    // A bit beyond the counts, sometimes together with a damaged byte behind it.
    let beyond = dice.chance(50);
    if beyond {
        let bit = 1u64.checked_shl(dice.from(states, 64) as u32).unwrap_or(0);
        let s = dice.below(states);
        match dice.below(4) {
            0 => plant.start |= bit,
            1 => plant.next[s] |= bit,
            2 => plant.fair = vec![1, bit | 1],
            _ => plant.label[s] |= (1u32 << dice.from(plant.props, 4 * digits(plant.props))) as u16,
        }
    }
    let mut files = files(&plant, &rule, &log);
    let text = bytes(&mut files.plant);
    match dice.below(8) {
        _ if beyond && dice.chance(60) => {}
        0 => {
            let (key, other) = *dice.pick(&[("props=", "props=17"), ("props=", "props=0"), ("props=", "props=00"), ("states=", "states=0"), ("states=", "states=65"), ("states=", "states=7"), ("just=", "just=5"), ("just=", "just=04")]);
            let line = String::from_utf8(text.clone()).unwrap();
            let at = line.find(key).unwrap();
            let end = at + line[at..].find('\n').unwrap();
            text.splice(at..end, other.bytes());
        }
        1 => text.retain(|b| *b != b'\n'),
        2 => *text = text.iter().flat_map(|b| if *b == b'\n' { vec![b'\r', b'\n'] } else { vec![*b] }).collect(),
        3 => text.make_ascii_uppercase(),
        4 if dice.chance(40) => {
            text.pop();
        }
        4 => {
            let upper: Vec<usize> = (0..text.len()).filter(|i| (b'a'..=b'f').contains(&text[*i]) && i % 3 == 0).collect();
            upper.iter().for_each(|i| text[*i].make_ascii_uppercase());
        }
        5 => {}
        _ => damage(dice, text, b"0123456789abcdefgABCDEFG@=\n\r xlnj"),
    }
    files
}

fn damaged_rule(dice: &mut Dice) -> Files {
    let parts = dice.from(1, 8);
    let (plant, _, log) = good(dice, 3, 1, 2);
    let props = if dice.chance(30) { 16 } else { plant.props };
    let rule = rule(dice, props, parts);
    let mut files = files(&plant, &rule, &log);
    let text = bytes(&mut files.rule);
    for _ in 0..dice.below(3) {
        damage(dice, text, b"pppXFGUR!&|->()0123456789 \t\n-p");
    }
    if dice.chance(5) {
        let gaps: Vec<usize> = (1..text.len()).filter(|i| text[i - 1] == b'p' || text[i - 1] == b'-').collect();
        gaps.iter().take(1).for_each(|i| text.insert(*i, b' '));
    }
    if dice.chance(30) {
        text.push(b'\n');
    }
    files
}

/// Rules of about 32 operators and leaves, about 6 of them temporal.
fn rule_at_limits(dice: &mut Dice) -> Files {
    let (plant, _, log) = good(dice, 2, 1, 2);
    let nodes = dice.from(28, 36);
    let parts = dice.from(4, 8).min(nodes);
    let mut text = String::from("p0");
    let mut temporal = 0;
    let mut count = 1;
    while count < nodes {
        let needed = parts - temporal;
        let wants = needed > 0 && (nodes - count <= needed || dice.chance(30));
        if wants {
            text = format!("{}{}", dice.pick(&["X", "F", "G"]), if text.len() > 2 { format!("({})", text) } else { text });
            temporal += 1;
            count += 1;
        } else if dice.chance(40) && count + 2 <= nodes {
            text = format!("{}{}{}", text, dice.pick(&["&", "|", "->"]), dice.pick(&["p0", "(1)", " 0 ", "p15"]));
            count += 2;
        } else {
            text = format!("!({})", text);
            count += 1;
        }
    }
    files(&plant, &text, &log)
}

fn damaged_log(dice: &mut Dice) -> Files {
    let length = dice.from(0, 12);
    let (plant, rule, mut log) = good(dice, 3, 2, length);
    // Events that are of the form, and yet refused.
    if dice.chance(50) && !log.is_empty() {
        let k = dice.below(log.len());
        let room = ((1u32 << (4 * digits(plant.props))) - 1) as u16;
        match dice.below(3) {
            0 => log[k].see |= (1u32 << dice.from(plant.props, 4 * digits(plant.props))) as u16,
            1 => log[k].val |= !log[k].see & dice.word() as u16 & room,
            _ => log[k] = Event { see: dice.word() as u16 & room, val: dice.word() as u16 & room, new: false, ..log[k] },
        }
    }
    let log = as_sent(dice, log);
    let mut files = files(&plant, &rule, &log);
    let text = bytes(&mut files.log);
    if dice.chance(15) {
        text.pop();
    } else if dice.chance(60) {
        damage(dice, text, b"0123456789abcdefgABFG= \n\rsevalnwum");
    }
    files
}

/// Numbers that skip, come again, go back, come to an end or are left out of some lines; some of these at an event that is not legal either.
fn numbers(dice: &mut Dice) -> Files {
    let states = dice.from(1, 5);
    let length = *dice.pick(&[2, 4, 9, 25, 40]);
    let (plant, rule, log) = good(dice, states, 2, length);
    let mut log = numbered(dice, &log);
    for _ in 0..dice.from(1, 2) {
        let k = dice.below(log.len());
        let number = log[k].num.unwrap_or(0);
        let before = if k > 0 { log[k - 1].num.unwrap_or(0) } else { number };
        match dice.below(9) {
            0 | 1 if log.len() > 20 => {
                let many = dice.from(14, 18);
                log.drain(1..1 + many);
            }
            0 | 1 => (k..log.len()).for_each(|i| log[i].num = log[i].num.map(|n| n.saturating_add(15))),
            2 => log[k].num = Some(before),
            3 => log[k].num = Some(before.saturating_sub(dice.from(1, 20) as u32)),
            4 | 5 => log[k].num = Some(before.saturating_add(dice.from(15, 19) as u32)),
            6 => (0..log.len()).for_each(|i| log[i].num = Some(if i <= k { u32::MAX - (k - i) as u32 } else { (i - k - 1) as u32 })),
            7 => log[k].num = None,
            _ => {
                log[k].see &= !1;
                log[k].val |= 1;
                log[k].num = Some(if dice.chance(50) { before.saturating_add(40) } else { number });
            }
        }
    }
    files(&plant, &rule, &log)
}

/// Texts of exactly the sizes at which something changes.
fn sizes(dice: &mut Dice) -> Files {
    let (plant, rule, log) = good(dice, 2, 2, 3);
    let mut files = files(&plant, &rule, &log);
    let pad = |n: usize| { let mut t = b"p0".to_vec(); t.resize(n, b' '); t };
    let line = log_text(plant.props, &[Event { new: dice.chance(50), ..UNSEEN }]);
    let most = 65520 / line.len();
    let long = |lines: usize| log_text(plant.props, &(0..lines).map(|k| Event { num: Some(7 + k as u32), ..UNSEEN }).collect::<Vec<Event>>());
    match dice.below(17) {
        0 => *bytes(&mut files.rule) = pad(512),
        1 => *bytes(&mut files.rule) = [pad(512), vec![b'\n']].concat(),
        2 => *bytes(&mut files.rule) = pad(513),
        3 => *bytes(&mut files.rule) = [pad(511), vec![b'\n', b'\n']].concat(),
        4 => *bytes(&mut files.rule) = [pad(513), vec![b'\n']].concat(),
        5 => *bytes(&mut files.rule) = vec![b'('; *dice.pick(&[511, 512, 512, 513, 514])],
        6 => *bytes(&mut files.rule) = vec![b'x'; *dice.pick(&[512, 513, 514])],
        7 => *bytes(&mut files.rule) = [vec![b'('; 255], b"p0".to_vec(), vec![b')'; dice.from(253, 256)]].concat(),
        8 => *bytes(&mut files.log) = line.repeat(most),
        9 => *bytes(&mut files.log) = [line.repeat(most), vec![b's']].concat(),
        10 => {
            let text = bytes(&mut files.log);
            *text = line.repeat(most);
            let cut = dice.below(25);
            if dice.chance(50) { text.truncate(65520 - cut) } else { text[65519 - cut] = b'x' }
        }
        11 => {
            // The last event of the longest log is refused.
            let text = bytes(&mut files.log);
            *text = line.repeat(most - 1);
            text.extend(log_text(plant.props, &[Event { val: 1, ..UNSEEN }]));
        }
        12 | 13 => {
            let mut largest = self::plant(dice, 64);
            largest.props = 16;
            largest.fair = (0..4).map(|_| dice.word()).collect();
            let text = bytes(&mut files.plant);
            *text = largest.text();
            match dice.below(5) {
                0 => text.push(b'\n'),
                1 => text[2476] = b'x',
                2 => text.truncate(2476),
                _ => {}
            }
        }
        14 => *bytes(&mut files.plant) = vec![b'p'; dice.from(2476, 2479)],
        15 => {
            // As many numbered lines as there is room for, or what of one more goes into the file, or all of it.
            let text = bytes(&mut files.log);
            *text = long(2000);
            let bytes = long(1).len();
            text.truncate(*dice.pick(&[65520 / bytes * bytes, 65520, (65520 / bytes + 1) * bytes]));
        }
        _ => {
            let n = *dice.pick(&[0, 1, 5000, 70000]);
            let file = match dice.below(3) { 0 => &mut files.plant, 1 => &mut files.rule, _ => &mut files.log };
            *bytes(file) = vec![*dice.pick(&[b'\n', 0, b'p', 255]); n];
        }
    }
    files
}

/// Something else than a file that can be read.
fn odd_files(dice: &mut Dice) -> Files {
    let mut files = match dice.below(4) {
        0 => damaged_plant(dice),
        1 => damaged_rule(dice),
        2 => damaged_log(dice),
        _ => small(dice),
    };
    for _ in 0..dice.from(1, 2) {
        let file = match dice.below(3) { 0 => &mut files.plant, 1 => &mut files.rule, _ => &mut files.log };
        *file = match dice.below(6) {
            0 | 1 => File::Missing,
            2 => File::Folder,
            3 => File::Dangling,
            4 => File::Failing,
            _ => File::Linked(held(file)),
        };
    }
    files
}

/// The families in which a text is refused by this number, or taken, if it is 0.
fn that_give(number: usize) -> &'static [fn(&mut Dice) -> Files] {
    match number {
        0 => &[small],
        2 => &[damaged_plant],
        3 => &[damaged_plant, sizes],
        4 => &[sizes],
        5 => &[damaged_rule, sizes],
        6..=8 => &[damaged_rule, rule_at_limits],
        10 | 12 => &[damaged_log, sizes],
        16 => &[numbers],
        _ => &[odd_files, sizes],
    }
}

/// The numbers by which plant, rule and log may be refused, two or three of them together (0 for a text that is taken): first each two, then each three.
fn together() -> Vec<[usize; 3]> {
    let mut all = Vec::new();
    for plant in [0, 2, 3, 14] {
        for rule in [0, 4, 5, 6, 7, 8, 14] {
            all.extend([0, 10, 12, 14, 16].map(|log| [plant, rule, log]));
        }
    }
    let refused = |numbers: &[usize; 3]| numbers.iter().filter(|n| **n > 0).count();
    all.retain(|numbers| refused(numbers) > 1);
    all.sort_by_key(refused);
    all
}

/// Two or three texts that are refused, in each way in turn. Each comes from a case of another family, as one that is refused so beside this table.
fn several_damaged(dice: &mut Dice, turn: usize) -> Files {
    let ways = together();
    let numbers = ways[turn % ways.len()];
    let mut files = small(dice);
    // Beside a table with all propositions no rule is refused by 6.
    while files.read_plant().map_or(true, |plant| plant.props == 16) {
        files = small(dice);
    }
    for text in 0..3 {
        redraw(&mut files, text, numbers[text], dice);
    }
    files
}

/// A text (0 plant, 1 rule, 2 log) of another family's case, which is refused so beside this table; where none is in many cases, the family can't be had.
fn redraw(files: &mut Files, text: usize, number: usize, dice: &mut Dice) {
    for _ in 0..100_000 {
        if files.refusals()[text] == number {
            return;
        }
        let other = dice.pick(that_give(number))(dice);
        match text {
            0 => files.plant = other.plant,
            1 => files.rule = other.rule,
            _ => files.log = other.log,
        }
    }
    panic!("no text {} is refused by {}", text, number);
}

/// A file that this user may not open, in some cases beside other texts that are refused.
pub fn forbidden(number: usize) -> Case {
    let mut dice = Dice::new(77, number as u64);
    let mut files = if number % 8 < 5 { small(&mut dice) } else { several_damaged(&mut dice, number) };
    let file = match number % 4 { 0 => return Case { kind: "as another user", files, given: None }, 1 => &mut files.plant, 2 => &mut files.rule, _ => &mut files.log };
    *file = File::Forbidden(held(file));
    Case { kind: "forbidden", files, given: None }
}

pub const W: &str = "props=2\nstates=3\nstart=0000000000000001\njust=0\nlabel0=00\nnext0=0000000000000003\nlabel1=01\nnext1=0000000000000006\nlabel2=02\nnext2=0000000000000005\n";
const W_FAIR: &str = "props=2\nstates=3\nstart=0000000000000001\njust=1\nj0=0000000000000005\nlabel0=00\nnext0=0000000000000003\nlabel1=01\nnext1=0000000000000006\nlabel2=02\nnext2=0000000000000005\n";
const W_DEAD: &str = "props=2\nstates=3\nstart=0000000000000001\njust=0\nlabel0=00\nnext0=0000000000000000\nlabel1=01\nnext1=0000000000000000\nlabel2=02\nnext2=0000000000000000\n";

/// What the paper itself works out: M1 to M10, the program's example, and the rule texts it names.
pub const GIVEN: &[(&str, &str, &str, &str)] = &[
    (W, "1", "", "start verdict=true left=1\n"),
    (W, "G(p0->Fp1)", "", "start verdict=inconclusive left=1\n"),
    (W_FAIR, "G(p0->Fp1)", "", "start verdict=true left=1\n"),
    (W, "Fp1", "see=03 val=00 new=0\nsee=03 val=01 new=0\nsee=03 val=02 new=0\n", "start verdict=inconclusive left=1\nn=0 verdict=inconclusive left=1\nn=1 verdict=inconclusive left=1\nn=2 verdict=true left=1\n"),
    (W, "G!p1", "see=03 val=00 new=0\nsee=03 val=01 new=0\nsee=03 val=02 new=0\n", "start verdict=inconclusive left=1\nn=0 verdict=inconclusive left=1\nn=1 verdict=inconclusive left=1\nn=2 verdict=false left=1\n"),
    (W, "p0R!p1", "", "start verdict=true left=1\n"),
    (W, "Xp0", "see=03 val=00 new=0\nsee=03 val=00 new=0\n", "start verdict=inconclusive left=1\nn=0 verdict=inconclusive left=1\nn=1 verdict=false left=1\n"),
    (W, "Fp1", "see=03 val=00 new=0\nsee=03 val=03 new=0\n", "start verdict=inconclusive left=1\nn=0 verdict=inconclusive left=1\nn=1 verdict=out-of-model left=0\n"),
    (W, "Fp1", "see=03 val=00 new=0\nsee=03 val=03 new=0\nsee=03 val=00 new=1\n", "start verdict=inconclusive left=1\nn=0 verdict=inconclusive left=1\nn=1 verdict=out-of-model left=0\nn=2 verdict=out-of-model left=0\n"),
    (W_DEAD, "1", "", "start verdict=out-of-model left=0\n"),
    (W, "Fp0", "see=03 val=00 new=0\nsee=00 val=00 new=0\nsee=02 val=02 new=0\n", "start verdict=inconclusive left=1\nn=0 verdict=inconclusive left=1\nn=1 verdict=inconclusive left=2\nn=2 verdict=true left=1\n"),
    (W, "", "", "refused=5 place=0\n"),
    (W, "p0 p1", "", "refused=5 place=3\n"),
    (W, "p8", "", "refused=6 place=0\n"),
    (W, "p0|p10&p1", "", "refused=6 place=3\n"),
    (W, "p16", "", "refused=5 place=2\n"),
    (W, "p0-", "", "refused=5 place=3\n"),
    (W, "((p0)", "", "refused=5 place=5\n"),
    (W, "!!!!!!!!!!!!!!!!!!!!!!!!!!!!!!!p0", "", "start verdict=true left=1\n"),
    (W, "!!!!!!!!!!!!!!!!!!!!!!!!!!!!!!!!p0", "", "refused=7 place=0\n"),
    (W, "XXXXXXp0", "", "start verdict=inconclusive left=1\n"),
    (W, "XXXXXXXp0", "", "refused=8 place=0\n"),
];

/// The families of cases, and in how many ways (as `refusals` tells them) their texts must be refused at least, or the family tries too little.
pub const FAMILIES: &[(&str, usize)] = &[
    ("given by the paper", 4), ("plain", 1), ("small", 1), ("chains", 1), ("large", 1), ("far", 1), ("capitals", 4), ("damaged plant", 3), ("damaged rule", 3),
    ("rule at limits", 4), ("damaged log", 3), ("numbers", 4), ("sizes", 8), ("odd files", 15), ("several damaged", 126),
];

/// Case `number` of a seed; the first ones are the paper's own.
pub fn case(seed: u64, number: usize) -> Case {
    if let Some((plant, rule, log, out)) = GIVEN.get(number) {
        let file = |t: &str| File::Bytes(t.as_bytes().to_vec());
        return Case { kind: "given by the paper", files: Files { plant: file(plant), rule: file(rule), log: file(log) }, given: Some(out) };
    }
    let mut dice = Dice::new(seed, number as u64);
    let (kind, files) = match number % 40 {
        0..=2 => ("plain", plain(&mut dice)),
        3 | 4 => ("numbers", numbers(&mut dice)),
        5 | 6 => ("capitals", capitals(&mut dice)),
        7..=10 => ("small", small(&mut dice)),
        11..=15 => ("chains", chains(&mut dice)),
        16..=19 => ("damaged plant", damaged_plant(&mut dice)),
        20..=24 => ("damaged rule", damaged_rule(&mut dice)),
        25 | 26 => ("rule at limits", rule_at_limits(&mut dice)),
        27..=29 => ("damaged log", damaged_log(&mut dice)),
        30..=32 => ("sizes", sizes(&mut dice)),
        33 | 34 => ("odd files", odd_files(&mut dice)),
        place @ 35..=38 => ("several damaged", several_damaged(&mut dice, number / 40 * 4 + place - 35)),
        _ if number % 200 == 39 => ("large", large(&mut dice)),
        _ if number % 80 == 79 => ("far", far(&mut dice)),
        _ => ("plain", plain(&mut dice)),
    };
    Case { kind, files, given: None }
}

/// A plant of up to so many states, a rule and a log, all of them accepted.
pub fn accepted(dice: &mut Dice, states: usize) -> (Plant, String, Vec<Event>) {
    let states = dice.from(1, states);
    let length = dice.from(0, 4);
    let parts = dice.from(0, 3);
    good(dice, states, parts, length)
}

impl Files {
    pub fn each(&self) -> [(&'static str, &File); 3] {
        [("plant.txt", &self.plant), ("rule.txt", &self.rule), ("log.txt", &self.log)]
    }
}
