//! A table written: the program `table`, and the function jug_write_table.

use crate::calls::{four, hex};
use crate::cases;
use crate::dice::Dice;
use crate::faults::{self, Fault};
use crate::plant::Plant;

/// What is handed over: counts, and lists that need not be as long as the counts say.
struct Handed {
    just: usize,
    plant: Plant,
    buffer: Vec<u8>,
}

fn draw(dice: &mut Dice) -> Handed {
    let states = *dice.pick(&[1, 2, 3, 9, 10, 11, 63, 64]);
    let mut plant = cases::plant(dice, states);
    let mut just = plant.fair.len();
    for _ in 0..*dice.pick(&[0, 0, 0, 1, 2]) {
        match dice.below(9) {
            0 => plant.props = *dice.pick(&[0, 17, usize::MAX]),
            1 => plant.states = *dice.pick(&[0, 65, usize::MAX]),
            2 => just = *dice.pick(&[5, just + 1, usize::MAX]),
            3 => plant.fair.push(0),
            4 => plant.label.push(0),
            5 => plant.next.push(0),
            6 => plant.start |= 1 << dice.below(64),
            7 => plant.next[dice.below(states)] |= 1 << dice.below(64),
            _ => plant.label[dice.below(states)] |= 1 << dice.below(16),
        }
    }
    let long = if plant.label.len() >= plant.states && plant.next.len() >= plant.states && plant.states <= 64 { plant.text().len() } else { 100 };
    let room = match dice.below(8) {
        0 => long - 1,
        1 => dice.below(long),
        2 => 2477,
        3 => long + dice.below(9),
        _ => long,
    };
    let buffer = (0..room).map(|_| dice.below(256) as u8).collect();
    Handed { just, plant, buffer }
}

/// 1, 2, 11 in this order; else the text over the buffer's beginning.
fn answer(handed: &Handed) -> (usize, usize, Vec<u8>) {
    let plant = &handed.plant;
    let counts = (1..=16).contains(&plant.props) && (1..=64).contains(&plant.states) && handed.just <= 4;
    let lengths = plant.fair.len() == handed.just && plant.label.len() == plant.states && plant.next.len() == plant.states;
    let refused = |number: usize| (number, 0, handed.buffer.clone());
    let in_counts = counts && lengths;
    if faults::is(Fault::BitsBeforeCounts) && counts && plant.within_counts().is_err() {
        return refused(2);
    }
    if !in_counts {
        return refused(1);
    }
    if faults::is(Fault::RoomBeforeBits) && handed.buffer.len() < plant.text().len() {
        return refused(11);
    }
    if plant.within_counts().is_err() {
        return refused(2);
    }
    let text = plant.written().into_bytes();
    let needed = if faults::is(Fault::RoomForLongest) { 2477 } else { text.len() };
    if handed.buffer.len() < needed {
        return refused(11);
    }
    let mut after = handed.buffer.clone();
    after[..text.len()].copy_from_slice(&text);
    if faults::is(Fault::BytesBeyondCleared) {
        after[text.len()..].fill(0);
    }
    (0, text.len(), after)
}

/// A case of jug_write_table.
pub fn asked(dice: &mut Dice) -> (String, String) {
    let handed = draw(dice);
    let plant = &handed.plant;
    let list = |numbers: Vec<u64>| numbers.iter().fold(numbers.len().to_string(), |text, n| format!("{} {}", text, n));
    let labels = plant.label.iter().map(|l| *l as u64).collect();
    let words = format!(
        "{} {} {} {} {} {} {} {}",
        plant.props, plant.states, plant.start, handed.just, list(plant.fair.clone()), list(labels), list(plant.next.clone()), hex(&handed.buffer)
    );
    let (number, count, after) = answer(&handed);
    (words, format!("{} {}", four(number, 0, count, 0), hex(&after)))
}
