//! Logs: lines of 20 bytes, and of 24 for more than 8 propositions; with numbers 33 and 37. And which events were lost.

use crate::faults::{self, Fault};
use crate::plant::{digits, hex, is_digit, is_known, one_case};
use crate::Refusal;

#[derive(Clone, Copy, Debug, PartialEq)]
pub struct Event {
    /// Its number, if it gives one.
    pub num: Option<u32>,
    pub see: u16,
    pub val: u16,
    pub new: bool,
}

/// The event that sees nothing and restarts nothing: one that was lost.
pub const UNSEEN: Event = Event { num: None, see: 0, val: 0, new: false };

/// The form of a line for so many propositions, with a number or without one.
fn line(props: usize, numbered: bool) -> Vec<u8> {
    let set = "#".repeat(digits(props));
    let lead = if numbered { "num=######## " } else { "" };
    format!("{}see={} val={} new=@\n", lead, set, set).into_bytes()
}

/// Are the lines of a text to be numbered? The first one tells it.
fn is_numbered(text: &[u8]) -> bool {
    text.first() == Some(&b'n') && !faults::is(Fault::NumbersRefused)
}

/// How many bytes each line of a text has for so many propositions.
pub fn bytes(text: &[u8], props: usize) -> usize {
    line(props, is_numbered(text)).len()
}

fn fits(form: u8, byte: u8) -> bool {
    match form {
        b'#' => is_digit(byte) && !(faults::is(Fault::CapitalsInTablesAlone) && byte.is_ascii_uppercase()),
        b'@' => byte == b'0' || byte == b'1',
        _ => is_known(byte, form),
    }
}

pub fn read(text: &[u8], props: usize) -> Result<Vec<Event>, Refusal> {
    if faults::is(Fault::MixTaken) {
        return read_mixed(text, props);
    }
    let numbered = is_numbered(text);
    let form = line(props, numbered);
    let (bytes, w, lead) = (form.len(), digits(props), if numbered { 13 } else { 0 });
    let good = text.iter().zip(form.iter().cycle()).take_while(|(byte, form)| fits(**form, **byte)).count();
    let good = one_case(&text[..good], |i| form[i % bytes] == b'#');
    let open = good == text.len() && good % bytes == bytes - 1 && faults::is(Fault::LogLineOpen);
    if (good < text.len() || good % bytes != 0) && !open {
        let mixes = good > 0 && good % bytes == 0 && text.get(good) == Some(if numbered { &b's' } else { &b'n' });
        let place = if mixes && faults::is(Fault::MixPlaceFirst) { 0 } else if mixes && faults::is(Fault::MixPlaceBehind) { good + 1 } else { good };
        return Err(Refusal { number: 12, place });
    }
    let event = |whole: &[u8]| {
        let l = &whole[lead..];
        let num = if numbered { Some(hex(&whole[4..12]) as u32) } else { None };
        Event { num, see: hex(&l[4..4 + w]) as u16, val: hex(&l[9 + w..9 + 2 * w]) as u16, new: l[14 + 2 * w] == b'1' }
    };
    Ok(text.chunks(bytes).map(event).collect())
}

/// With this mistake each line is read in its own form.
fn read_mixed(text: &[u8], props: usize) -> Result<Vec<Event>, Refusal> {
    let mut events = Vec::new();
    let mut at = 0;
    while at < text.len() {
        let end = (at + bytes(&text[at..], props)).min(text.len());
        let one = faults::with(None, || read(&text[at..end], props));
        events.extend(one.map_err(|r| Refusal { number: r.number, place: at + r.place })?);
        at = end;
    }
    Ok(events)
}

/// Which number comes next, and whether any came before.
pub struct Numbers {
    expected: u64,
    begun: bool,
}

/// The most events that may be missing before one, and the number behind the last of 32 bits.
const MOST: u64 = 16;
const USED_UP: u64 = 1 << 32;

impl Numbers {
    pub fn new() -> Numbers {
        Numbers { expected: 0, begun: false }
    }

    /// Takes an event's number, and gives it with how many are missing before it. None is refusal 16.
    pub fn take(&mut self, event: &Event) -> Option<(u64, u64)> {
        let anew = faults::is(Fault::NumbersAnew) && event.new;
        if self.expected == USED_UP {
            return None;
        }
        let number = event.num.map_or(self.expected, |n| n as u64);
        let any = !self.begun && !faults::is(Fault::FirstFromZero) || anew;
        let most = if faults::is(Fault::GapOf17) { 17 } else if faults::is(Fault::GapOf16Refused) { 15 } else { MOST };
        let missing = if any { 0 } else if number >= self.expected { number - self.expected } else if self.goes_back(number) { 0 } else { return None };
        if missing > most || faults::is(Fault::LastRefused) && number + 1 == USED_UP {
            return None;
        }
        self.begun = true;
        self.expected = if faults::is(Fault::NumbersWrap) { (number + 1) % USED_UP } else { number + 1 };
        Some((number, missing))
    }

    /// Mistakes by which a number that comes again, or goes back, is taken.
    fn goes_back(&self, number: u64) -> bool {
        faults::is(Fault::BackTaken) || faults::is(Fault::RepeatTaken) && number + 1 == self.expected
    }
}

/// The events with the unseen ones put in, if all of them have numbers that are taken.
pub fn filled(events: &[Event]) -> Option<Vec<Event>> {
    let mut numbers = Numbers::new();
    let mut all = Vec::new();
    for event in events {
        let (_, missing) = numbers.take(event)?;
        all.extend(around(missing, *event));
    }
    Some(all)
}

/// An event with the unseen ones that it shows to be missing: they come before it.
pub fn around(missing: u64, event: Event) -> Vec<Event> {
    let many = if faults::is(Fault::UnseenLeftOut) { 0 } else if faults::is(Fault::UnseenOneMore) && missing > 0 { missing + 1 } else { missing };
    let unseen = vec![Event { new: faults::is(Fault::UnseenRestart), ..UNSEEN }; many as usize];
    if faults::is(Fault::UnseenBehind) { [vec![event], unseen].concat() } else { [unseen, vec![event]].concat() }
}

/// The position from which the rule is judged: that of the last restart, or 0.
pub fn mark(events: &[Event]) -> usize {
    events.iter().rposition(|e| e.new).unwrap_or(0)
}

impl Event {
    pub fn text(&self, props: usize) -> String {
        let lead = self.num.map_or(String::new(), |n| format!("num={:08x} ", n));
        format!("{}see={:0w$x} val={:0w$x} new={}\n", lead, self.see, self.val, self.new as u8, w = digits(props))
    }

    /// Refusal 10 asks for the opposite.
    pub fn is_legal(&self, props: usize) -> bool {
        let beyond = (self.see as u32) >> props != 0 && !faults::is(Fault::EventSeeUnchecked);
        let unseen = self.val & !self.see != 0 && !faults::is(Fault::EventValUnchecked);
        !beyond && !unseen
    }

    pub fn agrees(&self, label: u16) -> bool {
        if faults::is(Fault::UnseenIsFalse) {
            return label == self.val;
        }
        (0..16).all(|p| self.see >> p & 1 == 0 || label >> p & 1 == self.val >> p & 1)
    }
}

#[cfg(test)]
mod tests {
    use super::*;

    #[test]
    fn places_by_hand() {
        let place = |t: &str| read(t.as_bytes(), 8).unwrap_err().place;
        assert_eq!(read(b"", 8), Ok(vec![]));
        assert_eq!(place("see=03 val=01 new=0"), 19);
        assert_eq!(place("see=03 val=01 new=2\n"), 18);
        assert_eq!(place("see=03 val=01 new=0\nx"), 20);
        assert_eq!(read(b"see=0A val=01 new=0\n", 8).unwrap()[0].see, 10);
        assert_eq!(place("see=0G val=01 new=0\n"), 5);
        assert_eq!(place("see=03 Val=01 new=0\n"), 7);
        assert_eq!(read(b"see=0003 val=8001 new=0\n", 16).unwrap().len(), 1);
        assert_eq!(place("see=0003 val=0001 new=0\n"), 6);
        assert_eq!(place("see=03 val=01 new=0\r\n"), 19);
        let numbered = "num=000000fF see=03 val=01 new=0\n";
        assert_eq!(read(numbered.as_bytes(), 8).unwrap()[0], Event { num: Some(255), see: 3, val: 1, new: false });
        assert_eq!(place(&numbered[..32]), 32);
        assert_eq!(place(&numbered.replace("0000", "000")), 11);
        assert_eq!(place(&numbered.replace("num", "nuM")), 2);
        assert_eq!(place(&numbered.replace(" see", "see")), 12);
        let mixed = [numbered, numbered, "see=03 val=01 new=0\n"].concat();
        assert_eq!(place(&mixed), 66);
        assert_eq!(place(&["see=03 val=01 new=0\n", numbered].concat()), 20);
        assert_eq!(read(b"num=00000000 see=0003 val=8001 new=0\n", 9).unwrap().len(), 1);
    }

    #[test]
    fn numbers_by_hand() {
        let all = |numbers: &[i64]| -> Option<usize> {
            let event = |n: &i64| Event { num: if *n < 0 { None } else { Some(*n as u32) }, ..UNSEEN };
            filled(&numbers.iter().map(event).collect::<Vec<Event>>()).map(|f| f.len())
        };
        let last = (1i64 << 32) - 1;
        assert_eq!(all(&[7, 8, 9]), Some(3));
        assert_eq!(all(&[7, 24]), Some(18));
        assert_eq!(all(&[7, 25]), None);
        assert_eq!(all(&[7, 7]), None);
        assert_eq!(all(&[7, 6]), None);
        assert_eq!(all(&[-1, -1, 4]), Some(5));
        assert_eq!(all(&[last]), Some(1));
        assert_eq!(all(&[last - 1, last]), Some(2));
        assert_eq!(all(&[last, 0]), None);
        assert_eq!(all(&[last, -1]), None);
        assert_eq!(all(&[]), Some(0));
    }
}
