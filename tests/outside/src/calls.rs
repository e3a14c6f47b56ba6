//! The functions for C programs (include/jugastilum.h): seeded cases, what is asked in each, and what must be answered.
//! A line `OP ARG .. => ANSWER`: bytes in hexadecimal, `-` for none, numbers in decimal. tests/calls/driver.c reads what stands before the arrow and answers.

use crate::day;
use crate::dice::Dice;
use crate::faults::{self, Planted};
use crate::reports;
use crate::scraps;
use crate::sheets;
use crate::closing;
use crate::machines;
use crate::tables;
use crate::whole;

/// Draws a case: what is asked, and the answer, with a mistake where one is planted. What is drawn does not go by the mistake.
pub type Asked = fn(&mut Dice) -> (String, String);

/// Each function by its name in the driver, with the mistakes that its cases must find, and how many cases of a thousand it has.
pub const ALL: &[(&str, Asked, &[&[Planted]], usize)] = &[
    ("whole", whole::asked, &[faults::OF_WHOLE], 1000),
    ("write_table", tables::asked, &[faults::OF_TABLES, faults::OF_WRITING], 250),
    ("setting", sheets::asked, &[faults::OF_SHEETS], 1000),
    ("store", sheets::stored, &[faults::OF_STORES], 250),
    ("closing", closing::asked, &[faults::OF_CLOSING], 1500),
    ("machine", machines::asked, &[faults::OF_MACHINES], 200),
    ("machine_step", machines::step_asked, &[faults::OF_LOOK_UPS], 200),
    ("day", day::asked, &[faults::OF_DAYS], 400),
    ("judge", reports::asked, &[faults::OF_REPORTS], 2000),
    ("scraps", scraps::asked, &[faults::OF_SCRAPS], 200),
];

pub fn hex(bytes: &[u8]) -> String {
    if bytes.is_empty() { String::from("-") } else { bytes.iter().map(|b| format!("{:02x}", b)).collect() }
}

/// The four numbers of an answer: number, place, count, value.
pub fn four(number: usize, place: usize, count: usize, value: usize) -> String {
    format!("{} {} {} {}", number, place, count, value)
}

fn case(op: usize, seed: u64, k: usize) -> (String, String) {
    let (name, asked, _, _) = ALL[op];
    let own = name.bytes().fold(seed, |sum, byte| sum.wrapping_mul(31).wrapping_add(byte as u64));
    let (words, answer) = asked(&mut Dice::new(own, k as u64));
    (format!("{} {}", name, words), answer)
}

/// All cases of a seed, line by line.
pub fn lines(seed: u64, thousands: usize) -> String {
    let line = |(asked, answer): (String, String)| format!("{} => {}\n", asked, answer);
    (0..ALL.len()).flat_map(|op| (0..ALL[op].3 * thousands).map(move |k| line(case(op, seed, k)))).collect()
}

/// The planted mistakes that no case finds.
pub fn missed(seed: u64) -> Vec<String> {
    let finds = |op: usize, k: usize, planted: &Planted| {
        let right = case(op, seed, k);
        let other = faults::with(Some(planted.0), || case(op, seed, k));
        assert!(right.0 == other.0, "a mistake changes what is asked");
        right.1 != other.1
    };
    let misses = |op: usize, planted: &Planted| !(0..ALL[op].3).any(|k| finds(op, k, planted));
    (0..ALL.len()).flat_map(|op| ALL[op].2.iter().flat_map(|list| list.iter()).filter(move |p| misses(op, p)).map(move |p| format!("{}: {} ({})", ALL[op].0, p.1, p.2))).collect()
}
