//! A rule as a fixed machine: the functions jug_machine and jug_machine_step, and the program `machine`. Rows are told apart here by marking pairs of states, from those that show something else
//! backwards, and not by classes that are split.

use crate::calls::{four, hex};
use crate::cases;
use crate::dice::Dice;
use crate::faults::{self, Fault};
use crate::log::Event;
use crate::pairs::{Graph, Monitor};
use crate::plant::{self, Plant};
use crate::rule;
use crate::watch::{File, Files};
use crate::Refusal;
use std::collections::HashMap;

const STATES: usize = 256;
const WORDS: usize = 49152;

/// The legal events, one for each column.
fn columns(props: usize) -> Vec<Event> {
    let all = 1u16 << props;
    let mut events = vec![];
    for see in 0..all {
        for val in 0..all {
            for new in [false, true] {
                let event = Event { num: None, see, val, new };
                if event.is_legal(props) {
                    events.push(event);
                }
            }
        }
    }
    if faults::is(Fault::ColumnsByVal) {
        events.sort_by_key(|e| (e.val, e.see, e.new));
    }
    if faults::is(Fault::ColumnsByRestart) {
        events.sort_by_key(|e| (e.new, e.see, e.val));
    }
    events
}

/// All states that are reached, what each shows, and where each event leads; none where there are too many.
fn reached(graph: &Graph, events: &[Event]) -> Option<(Vec<(u8, u8)>, Vec<Vec<usize>>)> {
    let mut number = HashMap::new();
    let mut states = vec![Monitor::open(graph)];
    number.insert(format!("{:?}", states[0]), 0);
    let mut cells = vec![];
    while cells.len() < states.len() {
        let from = states[cells.len()].clone();
        let mut row = vec![];
        for event in events {
            let next = from.step(graph, *event);
            let k = *number.entry(format!("{:?}", next)).or_insert_with(|| {
                states.push(next);
                states.len() - 1
            });
            row.push(k);
        }
        cells.push(row);
        if states.len() > STATES {
            return None;
        }
    }
    let shows = states.iter().map(|m| (m.verdict() as u8, m.left(graph) as u8)).collect();
    Some((shows, cells))
}

/// Which two states some log tells apart.
fn apart(shows: &[(u8, u8)], cells: &[Vec<usize>]) -> Vec<Vec<bool>> {
    let n = shows.len();
    let told = |a: (u8, u8), b: (u8, u8)| if faults::is(Fault::JoinedByVerdict) { a.0 != b.0 } else { a != b };
    let mut marked = vec![vec![false; n]; n];
    let mut work: Vec<(usize, usize)> = vec![];
    let mut into: Vec<Vec<Vec<usize>>> = vec![vec![vec![]; n]; cells[0].len()];
    for (s, row) in cells.iter().enumerate() {
        for (k, t) in row.iter().enumerate() {
            into[k][*t].push(s);
        }
    }
    for a in 0..n {
        for b in 0..n {
            let alone = faults::is(Fault::NothingJoined) || faults::is(Fault::OpeningAlone) && (a == 0 || b == 0);
            if told(shows[a], shows[b]) || a != b && alone {
                marked[a][b] = true;
                work.push((a, b));
            }
        }
    }
    while let Some((a, b)) = work.pop() {
        for column in &into {
            for p in &column[a] {
                for q in &column[b] {
                    if !marked[*p][*q] {
                        marked[*p][*q] = true;
                        work.push((*p, *q));
                    }
                }
            }
        }
    }
    marked
}

/// The machine's bytes, row by row, and how many rows there are.
fn machine(plant: &Plant, rule: &rule::Rule) -> Option<(Vec<u8>, usize)> {
    let graph = Graph::new(plant, rule);
    let events = columns(plant.props);
    let (shows, cells) = reached(&graph, &events)?;
    let marked = apart(&shows, &cells);
    let like = |s: usize| (0..shows.len()).find(|t| !marked[s][*t]).unwrap();
    let mut rows = vec![like(0)];
    let mut done = 0;
    while done < rows.len() {
        if faults::is(Fault::NumberedByColumns) && done == 0 {
            // all that is known is gone through column by column
            let mut grown = true;
            while grown {
                grown = false;
                'scan: for k in 0..events.len() {
                    for r in 0..rows.len() {
                        let next = like(cells[rows[r]][k]);
                        if !rows.contains(&next) {
                            rows.push(next);
                            grown = true;
                            break 'scan;
                        }
                    }
                }
            }
        }
        for k in 0..events.len() {
            let next = like(cells[rows[done]][k]);
            if !rows.contains(&next) {
                rows.push(next);
            }
        }
        done += 1;
    }
    let mut bytes = vec![];
    for r in &rows {
        let (verdict, left) = shows[*r];
        bytes.extend(if faults::is(Fault::LeftBeforeVerdict) { [left, verdict] } else { [verdict, left] });
        bytes.extend(cells[*r].iter().map(|t| rows.iter().position(|x| *x == like(*t)).unwrap() as u8));
    }
    Some((bytes, rows.len()))
}

fn read(table: &[u8], text: &[u8]) -> Result<(Plant, rule::Rule), Refusal> {
    let plant = plant::read(table)?;
    plant.within_counts()?;
    let rule = rule::read(text, plant.props)?;
    Ok((plant, rule))
}

/// The answer, with what the words end as.
fn answer(table: &[u8], text: &[u8], words: usize, buffer: &[u8]) -> String {
    let kept = |number: usize, place: usize| format!("{} {} {}", four(number, place, 0, 0), hex(buffer), if words == 0 { "zero" } else { "kept" });
    let (plant, rule) = match read(table, text) {
        Ok(both) => both,
        Err(r) => return kept(r.number, r.place),
    };
    if words < WORDS && faults::is(Fault::WordsBeforeProps) {
        return kept(11, 0);
    }
    if plant.props > 3 {
        return kept(1, 0);
    }
    let made = machine(&plant, &rule);
    if made.is_none() && faults::is(Fault::StatesBeforeWords) {
        return kept(15, 0);
    }
    if words < WORDS {
        return kept(11, 0);
    }
    let (bytes, rows) = match made {
        None if faults::is(Fault::WordsStayAtFifteen) => return kept(15, 0),
        None => return format!("{} {} zero", four(15, 0, 0, 0), hex(buffer)),
        Some(made) => made,
    };
    if buffer.len() < bytes.len() {
        if faults::is(Fault::WordsStayAtEleven) {
            return kept(11, 0);
        }
        return format!("{} {} zero", four(11, 0, 0, 0), hex(buffer));
    }
    let mut left = buffer.to_vec();
    left[..bytes.len()].copy_from_slice(&bytes);
    format!("{} {} zero", four(0, 0, rows, bytes.len() / rows), hex(&left))
}

/// A plant of few propositions, with a rule.
fn few(dice: &mut Dice) -> (Plant, String) {
    let states = *dice.pick(&[1, 2, 2, 3, 3, 4, 5, 6, 9, 14]);
    let mut plant = cases::plant(dice, states);
    plant.props = *dice.pick(&[1, 1, 2, 2, 3, 3, 3]);
    plant.label.iter_mut().for_each(|l| *l &= (1 << plant.props) - 1);
    let parts = dice.from(0, 3);
    let text = cases::rule(dice, plant.props, parts);
    (plant, text)
}

pub fn asked(dice: &mut Dice) -> (String, String) {
    let (mut plant, mut text) = few(dice);
    match dice.below(20) {
        0 => plant.props = *dice.pick(&[4, 8, 16]),
        1 => text.push('&'),
        2 => plant.start |= 1 << 63,
        _ => (),
    }
    let table = plant.text();
    let words = *dice.pick(&[WORDS, WORDS, WORDS, WORDS, WORDS, WORDS + 7, WORDS - 1, 0]);
    let long = faults::with(None, || match read(&table, text.as_bytes()) {
        Ok((plant, rule)) if plant.props <= 3 => machine(&plant, &rule).map_or(20, |m| m.0.len()),
        _ => 20,
    });
    let room = match dice.below(8) {
        0 => long - 1,
        1 => dice.below(long),
        2 => long + dice.below(9),
        _ => long,
    };
    let buffer: Vec<u8> = (0..room).map(|_| dice.below(256) as u8).collect();
    let words_told = format!("{} {} {} {}", hex(&table), hex(text.as_bytes()), words, hex(&buffer));
    let told = answer(&table, text.as_bytes(), words, &buffer);
    (words_told, told)
}

/// One event in the bytes of a machine.
fn stepped(bytes: &[u8], props: usize, row: usize, event: Event) -> String {
    let refused = |number: usize| four(number, 0, 0, 0);
    if !(1..=3).contains(&props) {
        return refused(1);
    }
    let width = 2 + 2 * 3usize.pow(props as u32);
    let rows = bytes.len() / width;
    let broken = bytes.len() % width != 0 && !faults::is(Fault::PartOfARow) || row >= rows || rows > 256;
    if broken && !faults::is(Fault::EventBeforeBytes) {
        return refused(9);
    }
    if !event.is_legal(props) {
        return refused(10);
    }
    if broken {
        return refused(9);
    }
    // how many legal events come before it
    let column = columns(props).iter().position(|e| *e == event).unwrap();
    let next = bytes[row * width + 2 + column] as usize;
    if next >= rows {
        return refused(9);
    }
    let (verdict, left) = (bytes[next * width] as usize, bytes[next * width + 1] as usize);
    if verdict > 3 && !faults::is(Fault::AnyVerdict) || left > 64 {
        return refused(9);
    }
    if faults::is(Fault::OldRowShown) {
        return four(0, next, bytes[row * width + 1] as usize, bytes[row * width] as usize);
    }
    four(0, next, left, verdict)
}

pub fn step_asked(dice: &mut Dice) -> (String, String) {
    let (plant, text) = few(dice);
    let made = faults::with(None, || read(&plant.text(), text.as_bytes()).ok().and_then(|(p, r)| machine(&p, &r)));
    let mut bytes = made.map_or(vec![0; 16], |m| m.0);
    let mut props = plant.props;
    let width = 2 + 2 * 3usize.pow(props as u32);
    let mut row = dice.below((bytes.len() / width).max(1));
    let all = 1usize << props;
    let see = dice.below(all);
    let mut event = Event { num: None, see: see as u16, val: (dice.below(all) & see) as u16, new: dice.chance(30) };
    match dice.below(12) {
        0 => props = *dice.pick(&[0, 1, 2, 3, 4]),
        1 => row = *dice.pick(&[bytes.len() / width, 255, 256, usize::MAX]),
        2 => event.val = dice.below(all * 2) as u16,
        3 => event.see = dice.below(all * 2) as u16,
        4 => bytes.push(0),
        5 => bytes.iter_mut().for_each(|b| *b = if dice.chance(30) { dice.below(256) as u8 } else { *b }),
        6 => (0..bytes.len()).filter(|i| i % width == 0).for_each(|i| bytes[i] = dice.below(6) as u8),
        _ => (),
    }
    let asked = format!("{} {} {} {} {} {}", hex(&bytes), props, row, event.see, event.val, event.new as u8);
    (asked, stepped(&bytes, props, row, event))
}

/// The whole output of the program `machine`, but for what it says before the rows and how far apart things stand.
pub fn output(files: &Files) -> String {
    written(files).unwrap_or_else(|refusal| format!("refused={} place={}\n", refusal.number, refusal.place))
}

fn written(files: &Files) -> Result<String, Refusal> {
    let plant = files.read_plant()?;
    let rule = files.read_rule(plant.props)?;
    let refused = |number: usize| Refusal { number, place: 0 };
    if plant.props > 3 {
        return Err(refused(1));
    }
    let (bytes, rows) = machine(&plant, &rule).ok_or(refused(15))?;
    let width = bytes.len() / rows;
    let mut text = String::from("/*\n row verdict left");
    for event in columns(plant.props) {
        let (first, second) = if faults::is(Fault::NamesValBeforeSee) { (event.val, event.see) } else { (event.see, event.val) };
        text += &format!(" {}/{}/{}", first, second, event.new as u8);
    }
    for (number, row) in bytes.chunks(width).enumerate() {
        let word = ["inconclusive", "true", "false", "out-of-model"][(row[0] as usize).min(3)];
        let cells: Vec<String> = row[2..].iter().map(|cell| cell.to_string()).collect();
        text += &format!("\n {} {} {} {}", number + faults::is(Fault::LinesFromOne) as usize, word, row[1], cells.join(" "));
    }
    text += &format!("\n*/\nstatic const unsigned char jug_machine_bytes[{}][{}] = {{\n", rows, width);
    for row in bytes.chunks(width).take(rows - faults::is(Fault::LastRowLost) as usize) {
        let numbers: Vec<String> = row.iter().map(|byte| byte.to_string()).collect();
        text += &format!("    {{{}}},\n", numbers.join(","));
    }
    Ok(text + "};\n")
}

/// The words and signs of each line, from the one that names the columns on; none if there is no comment before it, or it ends too soon.
fn told(text: &str) -> Option<Vec<Vec<String>>> {
    let begins = text.find("\n row verdict")?;
    if !text.starts_with("/*") || text[..begins].contains("*/") {
        return None;
    }
    let apart = |line: &str| line.chars().fold(String::new(), |all, c| if ",{}[]=;".contains(c) { format!("{} {} ", all, c) } else { format!("{}{}", all, c) });
    Some(text[begins..].lines().filter(|line| !line.is_empty()).map(|line| apart(line).split_whitespace().map(String::from).collect()).collect())
}

/// What is wrong with what the program wrote for some files, if anything.
fn fault(files: &Files, got: &str) -> Option<String> {
    let wanted = faults::with(None, || output(files));
    if wanted.starts_with("refused=") || got.starts_with("refused=") {
        return (wanted != got).then(|| format!("wanted {:?}, got {:?}", wanted.lines().next(), got.lines().next()));
    }
    let (wanted, got) = (told(&wanted).unwrap(), match told(got) {
        Some(got) => got,
        None => return Some(String::from("no comment with rows")),
    });
    let line = (0..wanted.len().max(got.len())).find(|i| wanted.get(*i) != got.get(*i))?;
    Some(format!("line {} from the columns on: wanted {:?}, got {:?}", line + 1, wanted.get(line), got.get(line)))
}

fn folder(seed: u64, number: usize) -> Files {
    let mut dice = Dice::new(seed ^ 0x3a3a, number as u64);
    let (mut plant, mut text) = few(&mut dice);
    match dice.below(12) {
        0 => plant.props = *dice.pick(&[4, 8, 16]),
        1 => text.push('&'),
        _ => (),
    }
    Files { plant: File::Bytes(plant.text()), rule: File::Bytes(text.into_bytes()), log: File::Missing }
}

/// The program on so many folders; and mistakes planted in our own reading, each of which some of the folders must find.
pub fn drive(seed: u64, count: usize, program: &dyn Fn(Files) -> Result<String, String>) -> Result<String, String> {
    let mut refused = 0;
    for number in 0..count {
        let got = program(folder(seed, number))?;
        if let Some(why) = fault(&folder(seed, number), &got) {
            return Err(format!("folder {} of seed {}: {}", number, seed, why));
        }
        refused += got.starts_with("refused=") as usize;
    }
    let planted: Vec<&faults::Planted> = faults::OF_ROWS.iter().chain(faults::OF_MACHINES.iter().take(7)).collect();
    let found = |planted: &faults::Planted| (0..count).any(|number| fault(&folder(seed, number), &faults::with(Some(planted.0), || output(&folder(seed, number)))).is_some());
    let missed: Vec<&str> = planted.iter().filter(|p| !found(p)).map(|p| p.1).collect();
    if !missed.is_empty() {
        return Err(format!("planted mistakes that no folder finds: {}", missed.join(", ")));
    }
    Ok(format!("machines: the rows and the arrays of {} seeded plants are those of another reading, and {} more are refused as they should be; each of {} planted mistakes is found", count - refused, refused, planted.len()))
}
