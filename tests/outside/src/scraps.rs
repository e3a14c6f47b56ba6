//! Logs arriving by radio (02, c): jug_take on one box, scrap after scrap, and jug_end. All bytes taken so far are read as one text, line by line, from its
//! beginning; what a scrap is answered is what that shows beyond what the bytes before it showed.

use crate::calls::{four, hex};
use crate::cases;
use crate::dice::Dice;
use crate::faults::{self, Fault};
use crate::log::{self, Event, Numbers};
use crate::pairs::{Graph, Monitor};
use crate::plant::Plant;
use crate::rule;
use crate::Refusal;

/// What is done with a box.
enum Deed {
    /// A scrap, and what is in the verdict buffer.
    Take(Vec<u8>, Vec<u8>),
    End,
}

/// The most bytes of a log.
const LONGEST: u64 = 4294967295;

/// What the bytes taken so far show: a verdict for each whole line, the monitor behind them, and the refusal of an event or a byte.
struct Shown {
    verdicts: Vec<u8>,
    monitor: Monitor,
    refusal: Option<Refusal>,
}

fn shown(graph: &Graph, plant: &Plant, text: &[u8]) -> Shown {
    let bytes = log::bytes(text, plant.props);
    let good = log::read(text, plant.props).map_or_else(|r| r.place, |_| text.len());
    let events = log::read(&text[..good / bytes * bytes], plant.props).expect("whole lines of the form");
    let mut monitor = Monitor::open(graph);
    let mut numbers = Numbers::new();
    let mut verdicts = Vec::new();
    for (line, event) in events.iter().enumerate() {
        let taken = if event.is_legal(plant.props) { numbers.take(event).ok_or(16) } else { Err(10) };
        match taken {
            Err(number) => return Shown { verdicts, monitor, refusal: Some(Refusal { number, place: line * bytes }) },
            Ok((_, missing)) => {
                for one in log::around(missing, *event) {
                    monitor = monitor.step(graph, one);
                }
                verdicts.push(monitor.verdict() as u8);
            }
        }
    }
    let waits = faults::is(Fault::ScrapByteLate) && !text[good..].contains(&b'\n');
    let refusal = if good < text.len() && !waits { Some(Refusal { number: 12, place: good }) } else { None };
    Shown { verdicts, monitor, refusal }
}

/// A box: the bytes that it took, how many the log had before them, and the refusal that stands.
struct Box<'a> {
    graph: &'a Graph,
    plant: &'a Plant,
    text: Vec<u8>,
    before: u64,
    standing: Option<(usize, u64)>,
}

impl Box<'_> {
    fn taken(&self) -> u64 {
        self.before + self.text.len() as u64
    }

    /// 9, and then the refusal that stands.
    fn kept(&self) -> Option<(usize, u64)> {
        if self.before > LONGEST { Some((9, 0)) } else { self.standing }
    }

    /// 11, and then 24.
    fn room(&self, scrap: &[u8], room: usize) -> Option<(usize, u64)> {
        let all = [&self.text[..], scrap].concat();
        let ends = scrap.iter().filter(|b| **b == b'\n').count();
        let lines = shown(self.graph, self.plant, &all).verdicts.len() - shown(self.graph, self.plant, &self.text).verdicts.len();
        let need = if faults::is(Fault::ScrapLinesAlone) { lines } else { ends };
        let most = if faults::is(Fault::ScrapOneLess) { LONGEST - 1 } else { LONGEST };
        let long = self.taken() + scrap.len() as u64 > most;
        if long && faults::is(Fault::ScrapLengthFirst) {
            return Some((24, 0));
        }
        if need > room { Some((11, 0)) } else if long { Some((24, 0)) } else { None }
    }

    fn take(&mut self, scrap: &[u8], buffer: &[u8]) -> String {
        let told = |refusal: (usize, u64)| format!("{} {}", four(refusal.0, refusal.1 as usize, 0, 0), hex(buffer));
        let (kept, room) = (self.kept(), self.room(scrap, buffer.len()));
        let first = if faults::is(Fault::ScrapRoomFirst) { room.or(kept) } else { kept.or(room) };
        if let Some(refusal) = first {
            if faults::is(Fault::ScrapRoomSticks) && refusal.0 == 11 {
                self.standing = Some(refusal);
            }
            if faults::is(Fault::ScrapRoomTakes) && refusal.0 == 11 {
                self.text.extend(scrap);
            }
            return told(refusal);
        }
        if faults::is(Fault::ScrapPartLost) {
            let bytes = log::bytes(&self.text, self.plant.props);
            self.text.truncate(self.text.len() / bytes * bytes);
        }
        let from = self.text.len();
        let old = shown(self.graph, self.plant, &self.text).verdicts.len();
        self.text.extend(scrap);
        let now = shown(self.graph, self.plant, &self.text);
        let fresh = &now.verdicts[old..];
        let count = if faults::is(Fault::ScrapCountsAll) { now.verdicts.len() } else { fresh.len() };
        let written = if faults::is(Fault::ScrapRefusedUnwritten) && now.refusal.is_some() { 0 } else { fresh.len().min(buffer.len()) };
        let lent = [&fresh[..written], &buffer[written..]].concat();
        let (number, place) = now.refusal.map_or((0, 0), |r| self.placed(r, from));
        if number != 0 && faults::is(Fault::ScrapForgets) {
            let bytes = log::bytes(&self.text, self.plant.props);
            self.text.truncate(now.verdicts.len() * bytes);
        } else if number != 0 {
            self.standing = Some((number, place));
        }
        format!("{} {}", four(number, place as usize, count, 0), hex(&lent))
    }

    /// A refusal's place in the whole log.
    fn placed(&self, refusal: Refusal, from: usize) -> (usize, u64) {
        let place = if faults::is(Fault::ScrapPlaceWithin) { refusal.place.saturating_sub(from) as u64 } else { self.before + refusal.place as u64 };
        let event = refusal.number != 12 && faults::is(Fault::ScrapEventAtEnd);
        (refusal.number, if event { self.taken() } else { place })
    }

    fn end(&mut self) -> String {
        let open = self.text.len() % log::bytes(&self.text, self.plant.props);
        let at = if faults::is(Fault::ScrapEndAtLine) { self.taken() - open as u64 } else { self.taken() };
        let refusal = self.kept().or(if open > 0 { Some((12, at)) } else { None });
        if faults::is(Fault::ScrapEndSticks) {
            self.standing = self.standing.or(refusal);
        }
        let (number, place) = refusal.unwrap_or((0, 0));
        four(number, place as usize, 0, 0)
    }
}

/// A log as it was sent: in one form, here and there with an event that is not legal, a number that is not next, or a byte that was damaged.
fn sent(dice: &mut Dice, plant: &Plant) -> Vec<u8> {
    let length = *dice.pick(&[0, 1, 2, 3, 5, 9]);
    let mut events: Vec<Event> = cases::log(dice, plant, length);
    let (numbered, first, lost) = (dice.chance(50), *dice.pick(&[0u32, 7, 4294967290]), *dice.pick(&[0, 0, 20]));
    let mut number = first;
    for event in events.iter_mut() {
        number = if dice.chance(lost) { number.saturating_add(*dice.pick(&[1, 3, 16, 17])) } else { number };
        event.num = if numbered { Some(number) } else { None };
        number = number.saturating_add(1);
        event.new = dice.chance(15);
        if dice.chance(4) {
            event.val ^= 1 << dice.below(plant.props);
        }
        if dice.chance(2) && plant.props != 8 && plant.props != 16 {
            event.see |= 1 << plant.props;
        }
    }
    if numbered && !events.is_empty() && dice.chance(6) {
        let k = dice.below(events.len());
        events[k].num = None;
    }
    let mut text: Vec<u8> = events.iter().map(|e| e.text(plant.props)).collect::<String>().into_bytes();
    if dice.chance(10) {
        text.iter_mut().filter(|b| **b >= b'a' && **b <= b'f').for_each(|b| *b = b.to_ascii_uppercase());
    }
    if !text.is_empty() && dice.chance(35) {
        let k = dice.below(text.len());
        match dice.below(5) {
            0 => text[k] ^= 1 << dice.below(8),
            1 => text[k] = b'\n',
            2 => text.insert(k, b'\n'),
            3 => text.truncate(k),
            _ => { text.remove(k); }
        }
    }
    text
}

/// The log cut anywhere, with buffers that mostly suffice, and ends asked for here and there.
fn deeds(dice: &mut Dice, text: &[u8]) -> Vec<Deed> {
    let most = *dice.pick(&[if text.len() < 50 { 1 } else { 34 }, 9, 20, 21, 34, 60, 400]);
    let mut deeds = Vec::new();
    let mut from = 0;
    while from < text.len() || deeds.is_empty() {
        let upto = text.len().min(from + if most == 1 { 1 + dice.below(2) } else { dice.below(most + 1) });
        let scrap = text[from..upto].to_vec();
        let ends = scrap.iter().filter(|b| **b == b'\n').count();
        let room = (ends + *dice.pick(&[0, 0, 0, 0, 0, 1, 3])).saturating_sub(dice.chance(6) as usize);
        deeds.push(Deed::Take(scrap, vec![0xe0 + dice.below(16) as u8; room]));
        from = if room < ends && dice.chance(90) { from } else { upto };
        if dice.chance(8) {
            deeds.push(Deed::End);
        }
    }
    deeds.push(Deed::End);
    deeds
}

/// A case: a table, a rule, how many bytes the log had before (none, but for a few that are near the most), and what is done. At last the lamp is told.
pub fn asked(dice: &mut Dice) -> (String, String) {
    let (plant, text, _) = faults::with(None, || cases::accepted(dice, 4));
    let rule = rule::read(text.as_bytes(), plant.props).expect("a rule that is accepted");
    let graph = Graph::new(&plant, &rule);
    let log = sent(dice, &plant);
    let near = LONGEST - dice.below(log.len() + 2) as u64;
    let before = if dice.chance(12) { *dice.pick(&[near, near, near, LONGEST, LONGEST + 1, 1000]) } else { 0 };
    let deeds = deeds(dice, &log);
    let mut words = format!("{} {} {}", hex(&plant.text()), hex(text.as_bytes()), before);
    let mut held = Box { graph: &graph, plant: &plant, text: vec![], before, standing: None };
    let mut told = Vec::new();
    for deed in &deeds {
        match deed {
            Deed::Take(scrap, buffer) => {
                words += &format!(" t {} {}", hex(scrap), hex(buffer));
                told.push(held.take(scrap, buffer));
            }
            Deed::End => {
                words += " e";
                told.push(held.end());
            }
        }
    }
    let last = shown(&graph, &plant, &held.text).monitor;
    told.push(four(0, 0, last.left(&graph), last.verdict() as usize));
    (words, told.join(" ; "))
}
