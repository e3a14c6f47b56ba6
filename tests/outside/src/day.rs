//! The day sheet (02, n): jug_note and jug_day_sheet, event by event, and the sheet worked out afresh from all events that were accepted.

use crate::calls::{four, hex};
use crate::cases;
use crate::dice::Dice;
use crate::faults::{self, Fault};
use crate::closing;
use crate::log::{self, Event, Numbers, UNSEEN};
use crate::pairs::{trace, Graph, Verdict};
use crate::plant::{self, Plant};
use crate::rule;
use crate::sheets;
use crate::watch::File;

/// An event of the whole list: its number, whether it was received, itself, and the verdict behind it.
struct Entry {
    number: u64,
    received: bool,
    event: Event,
    verdict: Verdict,
}

/// The events with the unseen ones put in, each with its number. None is refusal 16.
fn list(graph: &Graph, events: &[Event]) -> Option<Vec<Entry>> {
    let mut numbers = Numbers::new();
    let mut all: Vec<(u64, bool, Event)> = Vec::new();
    for event in events {
        let (number, missing) = numbers.take(event)?;
        all.extend((number - missing..number).map(|n| (n, false, UNSEEN)));
        all.push((number, true, *event));
    }
    let lamps = trace(graph, &all.iter().map(|x| x.2).collect::<Vec<Event>>());
    Some(all.into_iter().zip(&lamps[1..]).map(|((number, received, event), m)| Entry { number, received, event, verdict: m.verdict() }).collect())
}

/// Where stretches begin: at position 0, and at each restart behind it.
fn begins(list: &[Entry]) -> Vec<usize> {
    let restarts = (1..list.len()).filter(|i| list[*i].event.new);
    let first = if list.is_empty() { vec![] } else { vec![0] };
    let second = if faults::is(Fault::DayFirstFlag) && !list.is_empty() && list[0].event.new { vec![0] } else { vec![] };
    let moved = |i: usize| {
        let unseen = (1..i).rev().take_while(|k| !list[*k].received).count();
        if faults::is(Fault::DayRestartBefore) { i + 1 } else if faults::is(Fault::DayUnseenBehind) { i - unseen } else { i }
    };
    first.into_iter().chain(second).chain(restarts.map(moved)).filter(|i| *i < list.len()).collect()
}

fn decides(entry: &&Entry) -> bool {
    entry.verdict == Verdict::True || entry.verdict == Verdict::False
}

fn word(verdict: &Verdict) -> &'static str {
    match verdict {
        Verdict::Inconclusive => "inconclusive",
        Verdict::True => "true",
        Verdict::False => "false",
        Verdict::OutOfModel => "out-of-model",
    }
}

/// The lines of a day.
fn lines(list: &[Entry]) -> Vec<String> {
    let starts = begins(list);
    let ends = starts.iter().skip(1).cloned().chain([list.len()]);
    let mut told = false;
    starts.iter().zip(ends).enumerate().map(|(k, (from, upto))| {
        let stretch = &list[*from..upto];
        let events = stretch.iter().filter(|e| e.received || !faults::is(Fault::DayUnseenUncounted)).count();
        let shown = if faults::is(Fault::DayFirstVerdict) { stretch.first() } else { stretch.last() };
        let verdict = shown.map_or("inconclusive", |e| word(&e.verdict));
        let mut decided = if faults::is(Fault::DayLastDecided) { stretch.iter().filter(decides).last() } else { stretch.iter().find(decides) };
        if faults::is(Fault::DayForgets) && verdict == "out-of-model" || faults::is(Fault::DayDecidedOnce) && told {
            decided = None;
        }
        told |= decided.is_some();
        let none = if faults::is(Fault::DayDash) { "0" } else { "-" };
        let first = if faults::is(Fault::DayCountsNumbers) { k as u64 } else { list[*from].number };
        format!("first={} events={} verdict={} decided={}\n", first, events, verdict, decided.map_or(String::from(none), |e| e.number.to_string()))
    }).collect()
}

/// What is answered to an event behind those that were accepted: a refusal's number, or the whole list with it.
fn answer(graph: &Graph, plant: &Plant, taken: &[Event], event: Event) -> Result<Vec<Entry>, usize> {
    let all = [taken, &[event]].concat();
    let most = if faults::is(Fault::DaySixtyFive) { 65 } else if faults::is(Fault::DaySixtyThree) { 63 } else { 64 };
    let before = list(graph, taken).expect("events that were accepted");
    let another = event.new && !taken.is_empty() && begins(&before).len() == most;
    if another && faults::is(Fault::DayFullEarly) {
        return Err(23);
    }
    if !event.is_legal(plant.props) {
        return Err(10);
    }
    let list = list(graph, &all).ok_or(16usize)?;
    if begins(&list).len() > most { Err(23) } else { Ok(list) }
}

/// Events to note: most follow a walk, some are not legal, some skip numbers; a few days have more restarts than a sheet has lines.
fn events(dice: &mut Dice, plant: &Plant) -> Vec<Event> {
    let busy = dice.chance(12);
    let length = if busy { dice.from(60, 110) } else { dice.from(0, 14) };
    let mut events = cases::log(dice, plant, length);
    let restarts = if busy { 97 } else { *dice.pick(&[0, 15, 50]) };
    let mut number = *dice.pick(&[0u64, 0, 7, 4294967270, 4294967000]);
    let (numbered, lost) = (dice.chance(60), *dice.pick(&[0, 10, 40, 70]));
    for event in events.iter_mut() {
        event.new = dice.chance(restarts);
        if dice.chance(lost) {
            number += *dice.pick(&[1, 2, 3, 5, 9, 16, 17]);
        }
        if dice.chance(2) {
            number = number.saturating_sub(2);
        }
        if numbered && dice.chance(95) {
            event.num = Some(number.min(u32::MAX as u64) as u32);
        }
        number += 1;
        if dice.chance(3) {
            event.val ^= 1 << dice.below(16);
        }
    }
    events
}

/// A case: a plant, a rule, the events, and a buffer for the sheet. The answers to each event stand before that of the sheet.
pub fn asked(dice: &mut Dice) -> (String, String) {
    let states = *dice.pick(&[2, 4, 9]);
    let (plant, text, _) = cases::accepted(dice, states);
    let rule = rule::read(text.as_bytes(), plant.props).expect("a rule that is accepted");
    let graph = Graph::new(&plant, &rule);
    let events = events(dice, &plant);
    let short = *dice.pick(&[0, 0, 0, 0, 1, 20]);
    let mut words = format!("{} {} {} {}", hex(&plant.text()), hex(text.as_bytes()), short, events.len());
    for e in &events {
        words += &format!(" {} {} {} {} {}", e.num.is_some() as u8, e.num.unwrap_or(0), e.see, e.val, e.new as u8);
    }
    let mut taken: Vec<Event> = Vec::new();
    let mut told = Vec::new();
    for event in &events {
        match answer(&graph, &plant, &taken, *event) {
            Err(number) => {
                told.push(four(number, 0, 0, 0));
                if number == 23 && faults::is(Fault::DayFullTakes) {
                    taken.push(*event);
                }
            }
            Ok(list) => {
                taken.push(*event);
                let shown = trace(&graph, &list.iter().map(|e| e.event).collect::<Vec<Event>>());
                let last = shown.last().unwrap();
                told.push(four(0, 0, last.left(&graph), last.verdict() as usize));
            }
        }
    }
    let sheet = lines(&list(&graph, &taken).expect("events that were accepted")).concat().into_bytes();
    let buffer = if short > 0 && !sheet.is_empty() { four(11, 0, 0, 0) } else { format!("{} {}", four(0, 0, sheet.len(), 0), hex(&sheet)) };
    told.push(buffer);
    (words, told.join(" ; "))
}

const CLOSING: [&str; 6] = ["inconclusive", "true", "false", "out-of-model", "presumably-true", "presumably-false"];

/// What the program `day` writes of a folder's plant.txt, log.txt, local.txt and shared.txt: the lines of the day and the closing verdict, or a refusal alone.
pub fn minutes(files: [File; 4]) -> Result<String, String> {
    let [table, log, local, shared] = files;
    let told = |number: usize, place: usize| format!("refused={} place={}\n", number, place);
    let bytes = |file: &File, most: usize| file.within(most).map_err(|r| told(r.number, r.place));
    let table = bytes(&table, 2477)?;
    let plant = plant::read(&table).map_err(|r| told(r.number, r.place))?;
    let (local, shared) = (bytes(&local, 1 << 30)?, bytes(&shared, 1 << 30)?);
    let (text, edition) = (sheets::value(&local, &shared, 1)?, sheets::value(&local, &shared, 2)?);
    let rule = rule::read(&text, plant.props).map_err(|r| told(r.number, r.place))?;
    let log = bytes(&log, 65520)?;
    let events = log::read(&log, plant.props).map_err(|r| told(r.number, r.place))?;
    let graph = Graph::new(&plant, &rule);
    let of = |taken: &[Event]| lines(&list(&graph, taken).expect("events that were accepted"));
    let before = |taken: &[Event]| if faults::is(Fault::MinutesLinesStand) { of(taken).concat() } else { String::new() };
    for (k, event) in events.iter().enumerate() {
        let place = if faults::is(Fault::MinutesPlaceZero) { 0 } else { k * log::bytes(&log, plant.props) };
        answer(&graph, &plant, &events[..k], *event).map_err(|number| before(&events[..k]) + &told(number, place))?;
    }
    let edition = String::from_utf8_lossy(&edition).parse::<u64>().expect("a number of a sheet");
    let [number, place, _, value] = closing::answer(&table, &text, &log, edition);
    if number != 0 {
        return Err(before(&events) + &told(number, place));
    }
    let mut day = of(&events);
    if faults::is(Fault::MinutesLastOnly) {
        day.drain(..day.len().saturating_sub(1));
    }
    let closed = format!("closing verdict={}\n", CLOSING[value]);
    Ok(if faults::is(Fault::MinutesVerdictFirst) { closed + &day.concat() } else { day.concat() + &closed })
}
