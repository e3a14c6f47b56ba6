//! Tests of the program from outside: an independent reading of the paper, and cases that compare the two.
//!
//!   outside drive SEED CASES KEEP PROGRAM..   runs the program `watch` on seeded cases and compares whole outputs
//!   outside drive-runs SEED CASES KEEP PROGRAM..   runs the program `runs` on them and checks each run
//!   outside drive-table SEED CASES KEEP PROGRAM..   runs the program `table` on them and compares whole outputs
//!   outside drive-machine SEED CASES PROGRAM..   runs the program `machine` on seeded plants of few propositions and compares rows and arrays
//!   outside lassos SEED CASES                 compares our own reading with the meaning of runs
//!   outside sensors SEED CASES DRIVEN PROGRAM..   compares the lamps of a log with those of a better sensor, and of a table with those of a smaller one
//!   outside faults SEED CASES                 plants mistakes in our own reading and sees that the cases find each
//!   outside calls SEED THOUSANDS              prints cases of the functions for C programs, with their answers; planted mistakes must be found by some
//!   outside play [FAULT]                      is the program `watch` itself, in this folder, with a mistake if one is named
//!   outside play-runs [FAULT]                 is the program `runs` in the same way
//!   outside play-table [FAULT]                is the program `table` in the same way
//!   outside play-day [FAULT]                  is the program `day` in the same way
//!   outside play-machine [FAULT]              is the program `machine` in the same way, but for what it says before the rows
//!   outside lines FOLDER FILE                 checks the lines that `runs` wrote for a folder
//!   outside marked FILE                       checks the lines of the paper's marked examples
//!   outside case SEED NUMBER FOLDER           writes a case's files and its expected output into a folder
//!   outside witness PLANT RULE STATE VALUATION STEM LOOP   checks a witness; STEM and LOOP are states parted by commas, or -

mod calls;
mod cases;
mod closing;
mod day;
mod dice;
mod drive;
mod faults;
mod lassos;
mod log;
mod machines;
mod meaning;
mod pairs;
mod plant;
mod reports;
mod rule;
mod runs;
mod scraps;
mod sensors;
mod sheets;
mod tables;
mod watch;
mod whole;

use std::path::Path;
use watch::{File, Files};

/// A refusal's number and place.
#[derive(Clone, Debug, PartialEq)]
pub struct Refusal {
    pub number: usize,
    pub place: usize,
}

fn number(word: &str) -> usize {
    word.parse().unwrap_or_else(|_| panic!("{} is no number", word))
}

fn drive(judge: drive::Judge, words: &[String]) -> Result<String, String> {
    let drive = drive::Drive { judge, seed: number(&words[0]) as u64, cases: number(&words[1]), keep: words[2].clone().into(), program: words[3..].to_vec() };
    let families = drive.all().map_err(|wrong| wrong.join("\n"))?.told()?;
    let others = drive.forbidden()?;
    Ok(format!("{}\noutside: {} cases agree; of each family, and the ways in which they are refused: {}", others, drive.cases, families))
}

fn lassos(words: &[String]) -> Result<String, String> {
    let (seed, count) = (number(&words[0]) as u64, number(&words[1]));
    let mut tally = lassos::Tally::default();
    for k in 0..count {
        let mut dice = dice::Dice::new(seed ^ 0x5a5a, k as u64);
        let tiny = k % 4 != 0;
        let (plant, text, events) = cases::accepted(&mut dice, if tiny { 3 } else { 14 });
        let rule = rule::read(text.as_bytes(), plant.props).map_err(|r| format!("case {}: {:?}", k, r))?;
        let one = if tiny {
            lassos::check(&plant, &rule, &events, |visit| lassos::short_runs(&plant, 7, visit))
        } else {
            lassos::check(&plant, &rule, &events, |visit| lassos::thrown_runs(&plant, &mut dice, 200, visit))
        };
        let one = one.map_err(|why| format!("case {}, rule {}: {}", k, rule.print(), why))?;
        tally.pairs += one.pairs;
        tally.runs += one.runs;
    }
    Ok(format!("lassos: {} plants and logs; {} pairs shown live and reached by runs, {} runs found in the sets", count, tally.pairs, tally.runs))
}

/// Pairs of a log and a better sensor's, and of a table and a smaller one, by our own reading; the first few of each by the program too.
fn sensors(words: &[String]) -> Result<String, String> {
    let program = words[3..].to_vec();
    sensors::all(number(&words[0]) as u64, number(&words[1]), number(&words[2]), &|files| drive::wrote(&program, files))
}

/// The program `machine` on seeded plants.
fn drive_machine(words: &[String]) -> Result<String, String> {
    let program = words[2..].to_vec();
    machines::drive(number(&words[0]) as u64, number(&words[1]), &|files| drive::wrote(&program, files))
}

/// The mistakes of a list that no case finds in what a program writes; those that few cases find are told. Large plants are left out: they take long, and find no more.
fn missed(list: &[faults::Planted], seed: u64, count: usize, program: fn(&Files) -> String, is_wrong: fn(&Files, &str) -> bool) -> Vec<String> {
    let mut found = vec![Vec::new(); list.len()];
    for k in 0..count {
        let case = cases::case(seed, k);
        if case.kind == "large" || case.kind == "sizes" && k > 4000 {
            continue;
        }
        let right = program(&case.files);
        for (i, (fault, _, _)) in list.iter().enumerate().filter(|(i, _)| found[*i].len() < 3).collect::<Vec<_>>() {
            let other = faults::with(Some(*fault), || program(&case.files));
            if other != right && is_wrong(&case.files, &other) {
                found[i].push(k);
            }
        }
        if found.iter().all(|f| f.len() == 3) {
            break;
        }
    }
    for ((_, name, _), at) in list.iter().zip(&found) {
        if at.len() < 3 {
            println!("  {} is found by few cases: {:?}", name, at);
        }
    }
    list.iter().zip(&found).filter(|(_, f)| f.is_empty()).map(|(f, _)| format!("{} ({})", f.1, f.2)).collect()
}

/// Each planted mistake must change some output among the cases; and in the lines of runs the check must find each.
fn faults(words: &[String]) -> Result<String, String> {
    let (seed, count) = (number(&words[0]) as u64, number(&words[1]));
    let of_runs: Vec<faults::Planted> = faults::ALL.iter().filter(|f| !faults::OF_LAMPS.contains(&f.0)).chain(faults::OF_RUNS).cloned().collect();
    let lamps = missed(faults::ALL, seed, count, watch::output, |_, _| true);
    let runs = missed(&of_runs, seed, count, runs::output, |files, wrote| runs::fault(files, wrote).is_some());
    let tables = missed(faults::OF_TABLES, seed, count, watch::table, |_, _| true);
    if lamps.is_empty() && runs.is_empty() && tables.is_empty() {
        return Ok(format!(
            "faults: each of {} planted mistakes is found by the lamps, each of {} by the check of runs, and each of {} by the tables written",
            faults::ALL.len(),
            of_runs.len(),
            faults::OF_TABLES.len()
        ));
    }
    Err(format!("planted mistakes that no case finds: {}; in runs: {}; in tables: {}", lamps.join(", "), runs.join(", "), tables.join(", ")))
}

/// Cases for tests/calls, once each planted mistake is found by one of them.
fn calls(words: &[String]) -> Result<String, String> {
    let (seed, thousands) = (number(&words[0]) as u64, number(&words[1]));
    let missed = calls::missed(seed);
    if missed.is_empty() { Ok(calls::lines(seed, thousands).trim_end().to_string()) } else { Err(format!("planted mistakes that no case finds: {}", missed.join(", "))) }
}

fn file_of(folder: &Path, name: &str) -> File {
    match std::fs::read(folder.join(name)) {
        Ok(bytes) => File::Bytes(bytes),
        Err(_) if folder.join(name).is_dir() => File::Folder,
        Err(_) if folder.join(name).exists() => File::Failing,
        Err(_) => File::Missing,
    }
}

/// What stands in a folder.
fn files_of(folder: &Path) -> Files {
    let file = |name: &str| file_of(folder, name);
    Files { plant: file("plant.txt"), rule: file("rule.txt"), log: file("log.txt") }
}

fn planted(words: &[String]) -> Result<Option<faults::Fault>, String> {
    words.first().map(|name| faults::named(name).ok_or(String::from("no such fault"))).transpose()
}

/// The program `day`, by our own reading, on the files of this folder.
fn play_day(words: &[String]) -> Result<String, String> {
    let files = ["plant.txt", "log.txt", "local.txt", "shared.txt"].map(|name| file_of(Path::new("."), name));
    print!("{}", faults::with(planted(words)?, || day::minutes(files).unwrap_or_else(|refused| refused)));
    Ok(String::new())
}

/// A program, by our own reading, on the files of this folder.
fn play(program: fn(&Files) -> String, words: &[String]) -> Result<String, String> {
    let fault = planted(words)?;
    print!("{}", faults::with(fault, || program(&files_of(Path::new(".")))));
    Ok(String::new())
}

fn lines(words: &[String]) -> Result<String, String> {
    let wrote = std::fs::read_to_string(&words[1]).map_err(|e| format!("{}: {}", words[1], e))?;
    match runs::fault(&files_of(Path::new(&words[0])), &wrote) {
        Some(why) => Err(format!("{}: {}", words[1], why)),
        None => Ok(format!("runs: the lines of {} are right", words[1])),
    }
}

/// Lines `M4 start keeps ..` and `M4 n=2 keeps ..` of the marked examples M1 to M10, and of the program's example, P: each pair of lines by its own log.
fn marked(words: &[String]) -> Result<String, String> {
    let text = std::fs::read_to_string(&words[0]).map_err(|e| format!("{}: {}", words[0], e))?;
    let mut left = text.as_str();
    let mut count = 0;
    for (k, (plant, rule, log, _)) in cases::GIVEN.iter().take(11).enumerate() {
        let name = if k < 10 { format!("M{}", k + 1) } else { String::from("P") };
        let events = log.len() / 20;
        let ends: Vec<usize> = (0..=events).filter(|n| *n == 0 || *n == events || name == "P").collect();
        for end in ends {
            let at = if end == 0 { String::from("start") } else { format!("n={}", end - 1) };
            let mut two = String::new();
            for _ in 0..2 {
                let (line, rest) = left.split_once('\n').ok_or(format!("{} {}: a line is missing", name, at))?;
                two += &format!("{}\n", line.strip_prefix(&format!("{} {} ", name, at)).ok_or(format!("{} {}: wanted, got {:?}", name, at, line))?);
                left = rest;
            }
            let file = |t: &str| File::Bytes(t.as_bytes().to_vec());
            let files = Files { plant: file(plant), rule: file(rule), log: file(&log[..20 * end]) };
            if let Some(why) = runs::fault(&files, &two) {
                return Err(format!("{} {}: {}", name, at, why));
            }
            count += 2;
        }
    }
    if left.is_empty() { Ok(format!("runs: {} lines of the marked examples are right", count)) } else { Err(format!("there is more: {:?}", left)) }
}

fn write_case(words: &[String]) -> Result<String, String> {
    let case = cases::case(number(&words[0]) as u64, number(&words[1]));
    let folder = Path::new(&words[2]);
    std::fs::create_dir_all(folder).map_err(|e| e.to_string())?;
    drive::lay_out(&case, folder);
    std::fs::write(folder.join("expected.txt"), watch::output(&case.files)).map_err(|e| e.to_string())?;
    Ok(format!("case {} ({}) is in {}", words[1], case.kind, words[2]))
}

fn witness(words: &[String]) -> Result<String, String> {
    let bytes = |name: &str| std::fs::read(name).map_err(|e| format!("{}: {}", name, e));
    let plant = plant::read(&bytes(&words[0])?).map_err(|r| format!("plant refused: {:?}", r))?;
    let mut text = bytes(&words[1])?;
    if text.last() == Some(&b'\n') {
        text.pop();
    }
    let rule = rule::read(&text, plant.props).map_err(|r| format!("rule refused: {:?}", r))?;
    let states = |list: &str| if list == "-" { vec![] } else { list.split(',').map(|s| number(s) as u8).collect::<Vec<u8>>() };
    let (stem, ring) = (states(&words[4]), states(&words[5]));
    let pair = (number(&words[2]), number(&words[3]) as u64);
    match meaning::written_fault(&plant, &rule, pair, &[stem.clone(), ring.clone()].concat(), stem.len(), ring.len()) {
        Some(fault) => Err(fault),
        None => Ok(String::from("a witness")),
    }
}

fn main() {
    let words: Vec<String> = std::env::args().skip(1).collect();
    let least = |n: usize| words.len() > n;
    let done = match words.first().map(|w| w.as_str()) {
        Some("drive") if least(4) => drive(drive::lamps, &words[1..]),
        Some("drive-runs") if least(4) => drive(drive::runs, &words[1..]),
        Some("drive-table") if least(4) => drive(drive::table, &words[1..]),
        Some("drive-machine") if least(3) => drive_machine(&words[1..]),
        Some("lassos") if least(2) => lassos(&words[1..]),
        Some("sensors") if least(4) => sensors(&words[1..]),
        Some("faults") if least(2) => faults(&words[1..]),
        Some("calls") if least(2) => calls(&words[1..]),
        Some("play") => play(watch::output, &words[1..]),
        Some("play-runs") => play(runs::output, &words[1..]),
        Some("play-table") => play(watch::table, &words[1..]),
        Some("play-day") => play_day(&words[1..]),
        Some("play-machine") => play(machines::output, &words[1..]),
        Some("lines") if least(2) => lines(&words[1..]),
        Some("marked") if least(1) => marked(&words[1..]),
        Some("case") if least(3) => write_case(&words[1..]),
        Some("witness") if least(6) => witness(&words[1..]),
        _ => Err(String::from("see the first lines of tests/outside/src/main.rs")),
    };
    match done {
        Ok(said) if said.is_empty() => {}
        Ok(said) => println!("{}", said),
        Err(why) => {
            println!("{}", why);
            std::process::exit(1);
        }
    }
}
