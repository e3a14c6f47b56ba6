//! Plant tables and their text form. A text is compared with every table form there is: the place of a refusal is the
//! length of the longest beginning that some form shares with it.

use crate::faults::{self, Fault};
use crate::Refusal;

#[derive(Clone, Debug, PartialEq)]
pub struct Plant {
    pub props: usize,
    pub states: usize,
    pub start: u64,
    pub fair: Vec<u64>,
    pub label: Vec<u16>,
    pub next: Vec<u64>,
}

/// Stands in a form for any hexadecimal digit; no form has this byte itself.
const DIGIT: u8 = b'?';

/// How many digits a set of propositions has: in labels, and in a log's events.
pub fn digits(props: usize) -> usize {
    if props > 8 && !faults::is(Fault::AlwaysTwoDigits) || faults::is(Fault::AlwaysFourDigits) { 4 } else { 2 }
}

/// The form of all tables with these counts.
fn form(props: usize, states: usize, just: usize) -> String {
    let set = "????????????????";
    let mut text = format!("props={}\nstates={}\nstart={}\njust={}\n", props, states, set, just);
    for j in 0..just {
        text += &format!("j{}={}\n", j, set);
    }
    for s in 0..states {
        text += &format!("label{}={}\nnext{}={}\n", s, "?".repeat(digits(props)), s, set);
    }
    text
}

struct Form {
    props: usize,
    states: usize,
    just: usize,
    bytes: Vec<u8>,
}

fn all_forms() -> Vec<Form> {
    let mut forms = Vec::new();
    for props in 1..=16 {
        for states in 1..=64 {
            for just in 0..=4 {
                forms.push(Form { props, states, just, bytes: form(props, states, just).into_bytes() });
            }
        }
    }
    forms
}

thread_local! { static FORMS: Vec<Form> = all_forms(); }

/// Capital and small digits are read alike.
pub fn is_digit(byte: u8) -> bool {
    let letters = if faults::is(Fault::DigitG) { 7 } else { 6 };
    let capital = if faults::is(Fault::DigitAt) { b'@' } else { b'A' };
    byte.is_ascii_digit() || (b'a'..b'a' + letters).contains(&byte) || (!faults::is(Fault::CapitalsRefused) && (capital..b'A' + letters).contains(&byte))
}

/// A byte that the form gives.
pub fn is_known(byte: u8, known: u8) -> bool {
    byte == known || (faults::is(Fault::CapitalsInKeys) && byte.to_ascii_lowercase() == known)
}

/// The mistaken reader's last byte: before the first letter of the other case in a number, whose digits stand where `in_number` says so.
pub fn one_case(text: &[u8], in_number: impl Fn(usize) -> bool) -> usize {
    let mut first = None;
    let mixed = (0..text.len()).find(|i| {
        let letter = text[*i].is_ascii_alphabetic();
        if !in_number(*i) {
            first = None;
        } else if letter && first.is_none() {
            first = Some(text[*i].is_ascii_uppercase());
        }
        letter && first.map_or(false, |upper| upper != text[*i].is_ascii_uppercase())
    });
    if faults::is(Fault::OneCaseInNumber) { mixed.unwrap_or(text.len()) } else { text.len() }
}

/// How many bytes of the text follow the form.
fn follows(text: &[u8], form: &[u8]) -> usize {
    let good = text.iter().zip(form).take_while(|(t, f)| if **f == DIGIT { is_digit(**t) } else { is_known(**t, **f) }).count();
    one_case(&text[..good], |i| form[i] == DIGIT)
}

fn value(digit: u8) -> u64 {
    let value = match digit {
        b'0'..=b'9' => digit - b'0',
        b'a'..=b'z' => digit - b'a' + 10,
        _ => digit + 10 - b'A' + faults::is(Fault::CapitalsOneMore) as u8,
    };
    value as u64
}

pub fn hex(digits: &[u8]) -> u64 {
    digits.iter().fold(0, |n: u64, d| (n << 4).wrapping_add(value(*d)))
}

fn fill(form: &Form, text: &[u8]) -> Plant {
    // The digits of the text, gathered field by field: the form says where they stand.
    let mut fields: Vec<Vec<u8>> = Vec::new();
    let mut inside = false;
    for (t, f) in text.iter().zip(&form.bytes) {
        if *f == DIGIT {
            if !inside {
                fields.push(Vec::new());
            }
            fields.last_mut().unwrap().push(*t);
        }
        inside = *f == DIGIT;
    }
    let numbers: Vec<u64> = fields.iter().map(|f| hex(f)).collect();
    let (sets, table) = numbers.split_at(1 + form.just);
    Plant {
        props: form.props,
        states: form.states,
        start: sets[0],
        fair: sets[1..].to_vec(),
        label: table.iter().step_by(2).map(|n| *n as u16).collect(),
        next: table.iter().skip(1).step_by(2).cloned().collect(),
    }
}

fn read_form(text: &[u8]) -> Result<Plant, Refusal> {
    let whole = |m: usize, form: &Form| {
        (m == form.bytes.len() && (m == text.len() || faults::is(Fault::TextAfterTable)))
            || (faults::is(Fault::LastLineOpen) && m + 1 == form.bytes.len() && m == text.len())
    };
    FORMS.with(|forms| {
        let mut longest = 0;
        for form in forms {
            let m = follows(text, &form.bytes);
            if whole(m, form) {
                return Ok(fill(form, text));
            }
            longest = longest.max(m);
        }
        Err(Refusal { number: 3, place: longest })
    })
}

pub fn read(text: &[u8]) -> Result<Plant, Refusal> {
    let read = read_form(text);
    if let Err(refusal) = &read {
        let counts = [b"\nprops=".as_ref(), b"\nstates=", b"\njust="];
        let before = [b"\n".as_ref(), &text[..refusal.place]].concat();
        if faults::is(Fault::CountsAreOne) && counts.iter().any(|c| before.ends_with(c)) {
            return Err(Refusal { number: 1, place: 0 });
        }
        // The mistaken reader looks at the start set as soon as its line has ended.
        if faults::is(Fault::BitsBeforeForm) && refusal.place >= 46 && early_bad_start(text) {
            return Err(Refusal { number: 2, place: 0 });
        }
    }
    let plant = read?;
    if !faults::is(Fault::BitsAfterRule) {
        plant.within_counts()?;
    }
    Ok(plant)
}

fn early_bad_start(text: &[u8]) -> bool {
    let lines: Vec<&[u8]> = text.split(|b| *b == b'\n').collect();
    let states: u32 = std::str::from_utf8(&lines[1][7..]).unwrap().parse().unwrap();
    states < 64 && hex(&lines[2][6..]) >> states != 0
}

impl Plant {
    /// Refusal 2 for a table text's value.
    pub fn within_counts(&self) -> Result<(), Refusal> {
        let states = if self.states == 64 { u64::MAX } else { (1 << self.states) - 1 };
        let props = ((1u32 << self.props) - 1) as u16;
        let beyond = (self.start & !states != 0 && !faults::is(Fault::StartBitsUnchecked))
            || (self.fair.iter().any(|f| f & !states != 0) && !faults::is(Fault::FairBitsUnchecked))
            || (self.next.iter().any(|n| n & !states != 0) && !faults::is(Fault::NextBitsUnchecked))
            || (self.label.iter().any(|l| l & !props != 0) && !faults::is(Fault::LabelBitsUnchecked));
        if beyond { Err(Refusal { number: 2, place: 0 }) } else { Ok(()) }
    }

    /// The table's text.
    pub fn text(&self) -> Vec<u8> {
        let mut text = format!("props={}\nstates={}\nstart={:016x}\njust={}\n", self.props, self.states, self.start, self.fair.len());
        for (j, set) in self.fair.iter().enumerate() {
            text += &format!("j{}={:016x}\n", j, set);
        }
        for s in 0..self.states {
            text += &format!("label{}={:0w$x}\nnext{}={:016x}\n", s, self.label[s], s, self.next[s], w = digits(self.props));
        }
        text.into_bytes()
    }

    /// The same as the program `table` writes it, with a mistake where one is planted.
    pub fn written(&self) -> String {
        let text = String::from_utf8(self.text()).unwrap();
        let line = |line: &str| {
            let (key, value) = line.split_once('=').unwrap();
            let value = match value.len() {
                1 if faults::is(Fault::ZeroBeforeCount) => format!("0{}", value),
                16 if faults::is(Fault::ShortSets) => value.trim_start_matches('0').to_string(),
                4 if faults::is(Fault::LabelsOfTwo) => value[2..].to_string(),
                2 if faults::is(Fault::LabelsOfFour) && key.starts_with("label") => format!("00{}", value),
                n if n > 2 && faults::is(Fault::CapitalsWritten) => value.to_uppercase(),
                _ => value.to_string(),
            };
            format!("{}={}\n", key, value)
        };
        let mut lines: Vec<String> = text.lines().map(line).collect();
        let first = lines.len() - 2 * self.states;
        if faults::is(Fault::NextBeforeLabel) {
            lines[first..].chunks_mut(2).for_each(|state| state.reverse());
        }
        if faults::is(Fault::LabelsTogether) {
            lines[first..].sort_by_key(|line| line.starts_with('n'));
        }
        lines.concat()
    }

    pub fn starts(&self, s: usize) -> bool {
        self.start >> s & 1 == 1
    }

    pub fn moves(&self, s: usize, t: usize) -> bool {
        self.next[s] >> t & 1 == 1
    }

    pub fn has(&self, s: usize, prop: u8) -> bool {
        self.label[s] >> prop & 1 == 1
    }
}

#[cfg(test)]
pub fn plant_w() -> Plant {
    Plant { props: 2, states: 3, start: 1, fair: vec![], label: vec![0, 1, 2], next: vec![3, 6, 5] }
}

#[cfg(test)]
mod tests {
    use super::*;

    fn place(text: &str) -> (usize, usize) {
        let r = read(text.as_bytes()).unwrap_err();
        (r.number, r.place)
    }

    #[test]
    fn the_longest_text_has_2477_bytes() {
        assert_eq!(all_forms().iter().map(|f| f.bytes.len()).max(), Some(2477));
    }

    #[test]
    fn what_is_written_is_read() {
        assert_eq!(read(&plant_w().text()), Ok(plant_w()));
    }

    #[test]
    fn places_by_hand() {
        assert_eq!(place(""), (3, 0));
        assert_eq!(place("props=17\n"), (3, 7));
        assert_eq!(place("props=0\n"), (3, 6));
        assert_eq!(place("props=1\nstates=65\n"), (3, 16));
        assert_eq!(place("props=1\nstates=640"), (3, 17));
        assert_eq!(place("props=1\nstates=06"), (3, 15));
        assert_eq!(place("props=1\nstates=6"), (3, 16));
        assert_eq!(place("props=A\n"), (3, 6));
        assert_eq!(place("props=1\nstates=1a\n"), (3, 16));
        assert_eq!(place("props=1\nstates=1\nstart=000000000000000G"), (3, 38));
        assert_eq!(place("props=1\nstates=1\nstart=000000000000000@"), (3, 38));
        assert_eq!(place("props=1\nstates=1\nstart=000000000000000`"), (3, 38));
        assert_eq!(place("props=1\nstates=1\nStart=0000000000000001"), (3, 17));
    }

    #[test]
    fn digits_are_small_or_capital() {
        assert_eq!(hex(b"aBcDeF09"), 0xabcdef09);
        let mut plant = plant_w();
        plant.states = 8;
        plant.label = vec![0; 8];
        plant.next = vec![0xab; 8];
        let text = String::from_utf8(plant.text()).unwrap();
        assert_eq!(read(text.replace("=00000000000000ab", "=00000000000000Ab").as_bytes()), Ok(plant));
    }

    #[test]
    fn form_goes_before_bits() {
        let mut text = plant_w().text();
        text[25] = b'f';
        assert_eq!(read(&text), Err(Refusal { number: 2, place: 0 }));
        let last = text.len() - 1;
        text[last] = b'x';
        assert_eq!(read(&text), Err(Refusal { number: 3, place: last }));
    }
}
