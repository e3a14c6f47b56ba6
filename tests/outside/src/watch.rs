//! The program's whole output, from what stands in the three places.

use crate::faults::{self, Fault};
use crate::log::{self, Event, Numbers};
use crate::pairs::{Graph, Monitor, Verdict};
use crate::plant::{self, Plant};
use crate::rule::{self, Rule};
use crate::Refusal;

/// What stands in a file's place.
#[derive(Clone, Debug, PartialEq)]
pub enum File {
    Bytes(Vec<u8>),
    /// The same bytes behind a link.
    Linked(Vec<u8>),
    Missing,
    Folder,
    /// A link to nothing.
    Dangling,
    /// A file that opens but can't be read.
    Failing,
    /// A file that this user may not open.
    Forbidden(Vec<u8>),
}

impl File {
    /// The bytes, if they can be read and are not too many.
    pub fn within(&self, limit: usize) -> Result<Vec<u8>, Refusal> {
        match self {
            File::Bytes(bytes) | File::Linked(bytes) if bytes.len() <= limit => Ok(bytes.clone()),
            File::Folder if faults::is(Fault::FolderIsEmpty) => Ok(vec![]),
            _ => Err(Refusal { number: 14, place: 0 }),
        }
    }
}

pub struct Files {
    pub plant: File,
    pub rule: File,
    pub log: File,
}

fn plant_bytes(file: &File) -> Result<Vec<u8>, Refusal> {
    let limit = if faults::is(Fault::PlantLimit) { 2476 } else if faults::is(Fault::NoPlantLimit) { 1 << 30 } else { 2477 };
    file.within(limit)
}

fn rule_bytes(file: &File) -> Result<Vec<u8>, Refusal> {
    let mut bytes = file.within(513)?;
    if faults::is(Fault::RuleSizeAfterDrop) && bytes.len() == 513 && bytes[512] != b'\n' {
        return Err(Refusal { number: 14, place: 0 });
    }
    let drops = if faults::is(Fault::DropsNone) { 0 } else { 1 + faults::is(Fault::DropsTwo) as usize };
    for _ in 0..drops {
        if bytes.last() == Some(&b'\n') {
            bytes.pop();
        }
    }
    Ok(bytes)
}

fn log_bytes(file: &File) -> Result<Vec<u8>, Refusal> {
    if faults::is(Fault::MissingIsEmpty) && *file == File::Missing {
        return Ok(vec![]);
    }
    file.within(if faults::is(Fault::LogLimit) { 65500 } else if faults::is(Fault::NoLogLimit) { 1 << 30 } else { 65520 })
}

impl Files {
    pub fn read_plant(&self) -> Result<Plant, Refusal> {
        plant::read(&plant_bytes(&self.plant)?)
    }

    pub fn read_rule(&self, props: usize) -> Result<Rule, Refusal> {
        rule::read(&rule_bytes(&self.rule)?, props)
    }

    pub fn read_log(&self, props: usize) -> Result<Vec<Event>, Refusal> {
        log::read(&log_bytes(&self.log)?, props)
    }

    /// The numbers by which plant, rule and log are refused, each by itself, and 0 for one that is taken. Beside a table that is refused a single
    /// proposition is allowed.
    pub fn refusals(&self) -> [usize; 3] {
        let number = |refusal: Refusal| refusal.number;
        let plant = self.read_plant();
        let props = plant.as_ref().map_or(1, |p| p.props);
        let events = |log: Vec<Event>| {
            let mut numbers = Numbers::new();
            let refused = |e: &Event| if !e.is_legal(props) { Some(10) } else if numbers.take(e).is_none() { Some(16) } else { None };
            log.iter().find_map(refused).unwrap_or(0)
        };
        [plant.map_or_else(number, |_| 0), self.read_rule(props).map_or_else(number, |_| 0), self.read_log(props).map_or_else(number, events)]
    }
}

fn lamp(monitor: &Monitor, graph: &Graph) -> String {
    let word = match monitor.verdict() {
        Verdict::Inconclusive if faults::is(Fault::WordUnknown) => "unknown",
        Verdict::Inconclusive => "inconclusive",
        Verdict::True => "true",
        Verdict::False => "false",
        Verdict::OutOfModel => "out-of-model",
    };
    format!("verdict={} left={}\n", word, monitor.left(graph))
}

/// Writes the lines into `out`; a refusal ends them.
fn lines(files: &Files, out: &mut String) -> Result<(), Refusal> {
    if faults::is(Fault::FilesFirst) {
        plant_bytes(&files.plant)?;
        rule_bytes(&files.rule)?;
        log_bytes(&files.log)?;
    }
    let plant = files.read_plant();
    if faults::is(Fault::RuleBeforeTable) && plant.is_err() {
        files.read_rule(16)?;
    }
    if faults::is(Fault::LogBeforeTable) && plant.is_err() {
        files.read_log(8)?;
    }
    let plant = plant?;
    if faults::is(Fault::LogBeforeRule) {
        files.read_log(plant.props)?;
    }
    let rule = files.read_rule(plant.props)?;
    if faults::is(Fault::BitsAfterRule) {
        plant.within_counts()?;
    }
    let text = log_bytes(&files.log)?;
    let early = faults::is(Fault::LogLate) || faults::is(Fault::EventBeforeForm);
    let bytes = log::bytes(&text, plant.props);
    let whole = &text[..text.len() / bytes * bytes];
    let events = if early { log::read(whole, plant.props).or_else(|_| log::read(&text, plant.props)) } else { log::read(&text, plant.props) }?;
    let graph = Graph::new(&plant, &rule);
    let mut monitor = Monitor::open(&graph);
    *out += &format!("start {}", lamp(&monitor, &graph));
    if faults::is(Fault::LogLate) {
        log::read(&text, plant.props)?;
    }
    let mut numbers = Numbers::new();
    let mut restart = 0;
    for (line, event) in events.iter().enumerate() {
        let taken = take(&mut numbers, event, &plant, bytes, line)?;
        restart = if event.new { taken.number } else { restart };
        for one in log::around(taken.missing, *event) {
            monitor = monitor.step(&graph, one);
            if faults::is(Fault::UnseenShown) && one != *event {
                *out += &format!("n={} {}", taken.number, lamp(&monitor, &graph));
            }
        }
        let n = if faults::is(Fault::LinesCounted) { line as u64 } else if faults::is(Fault::NumbersRestart) { taken.number - restart } else { taken.number };
        let n = if faults::is(Fault::NumbersHex) { format!("{:x}", n) } else { n.to_string() };
        *out += &format!("n={} {}", n, lamp(&monitor, &graph));
    }
    log::read(&text, plant.props).map(|_| ())
}

/// The number of an event that is taken, and how many are missing before it.
struct Taken {
    number: u64,
    missing: u64,
}

/// Check 10, and then 16; both are refused at the line.
fn take(numbers: &mut Numbers, event: &Event, plant: &Plant, bytes: usize, line: usize) -> Result<Taken, Refusal> {
    let place = if faults::is(Fault::EventPlaceZero) { 0 } else if faults::is(Fault::EventPlaceLine) { line } else { bytes * line };
    let legal = event.is_legal(plant.props);
    let taken = if legal || faults::is(Fault::NumberBeforeEvent) { Some(numbers.take(event)) } else { None };
    match taken {
        Some(None) => Err(Refusal { number: 16, place: if faults::is(Fault::NumberPlaceZero) { 0 } else { place } }),
        Some(Some((number, missing))) if legal => Ok(Taken { number, missing }),
        _ => Err(Refusal { number: 10, place }),
    }
}

pub fn output(files: &Files) -> String {
    let mut out = String::new();
    if let Err(refusal) = lines(files, &mut out) {
        out += &format!("refused={} place={}\n", refusal.number, refusal.place);
    }
    out
}

/// The whole output of the program `table`: plant.txt written anew, or its refusal.
pub fn table(files: &Files) -> String {
    match files.read_plant() {
        Ok(plant) => plant.written(),
        Err(refusal) => format!("refused={} place={}\n", refusal.number, refusal.place),
    }
}
