//! Settings sheets, and the store of older ones: jug_setting, jug_keep_sheet, jug_kept_sheet.
//! A text is a sheet if it falls into lines that are each right and stand in order; where it stops to be one is found by trying how each of its beginnings could go on.

use crate::calls::{four, hex};
use crate::dice::Dice;
use crate::faults::{self, Fault};

const KEYS: [&str; 3] = ["edition=", "rule=", "closing="];

/// Where the value of each key stands.
type Spots = [Option<(usize, usize)>; 3];

fn is_number(value: &[u8], least: usize, most: usize) -> bool {
    let text = String::from_utf8_lossy(value);
    let plain = !value.is_empty() && value.len() < 9 && value.iter().all(u8::is_ascii_digit);
    plain && text.parse::<usize>().is_ok_and(|n| (least..=most).contains(&n) && (n.to_string() == text || faults::is(Fault::LeadingZeros)))
}

fn is_value(key: usize, value: &[u8]) -> bool {
    match key {
        0 => is_number(value, if faults::is(Fault::EditionZero) { 0 } else { 1 }, if faults::is(Fault::Edition65536) { 65536 } else { 65535 }),
        1 => {
            let least = if faults::is(Fault::RuleTab) { 9 } else { 32 };
            let most = if faults::is(Fault::RuleDelete) { 127 } else if faults::is(Fault::RuleNoTilde) { 125 } else { 126 };
            let long = if faults::is(Fault::Rule513) { 513 } else if faults::is(Fault::Rule511) { 511 } else { 512 };
            let some = if faults::is(Fault::RuleEmpty) { 0 } else { 1 };
            (some..=long).contains(&value.len()) && value.iter().all(|b| (least..=most).contains(b) && *b != b'\n')
        }
        _ => is_number(value, 0, if faults::is(Fault::Closing100) { 100 } else { 99 }),
    }
}

/// The spots of a text that is a sheet.
fn spots(text: &[u8]) -> Option<Spots> {
    let mut found: Spots = [None; 3];
    let mut at = 0;
    let mut next = 0;
    while at < text.len() {
        let end = match text[at..].iter().position(|b| *b == b'\n') {
            Some(n) => at + n,
            None if faults::is(Fault::SheetLineOpen) => text.len(),
            None => return None,
        };
        let line = &text[at..end];
        let key = (0..3).find(|k| line.starts_with(KEYS[*k].as_bytes()))?;
        let value = &line[KEYS[key].len()..];
        let again = faults::is(Fault::LineTwice) && key + 1 == next;
        if !is_value(key, value) || key < next && !again && !(faults::is(Fault::LinesInAnyOrder) && found[key].is_none()) {
            return None;
        }
        found[key] = Some((at + KEYS[key].len(), end));
        next = if faults::is(Fault::LinesInAnyOrder) { next.max(key + 1) } else { key + 1 };
        at = end + 1;
    }
    Some(found)
}

/// Whether some sheet begins so. A sheet can be ended from anywhere in it: by the rest of a key, a 1 where nothing of the value is there, and LF.
fn begins(text: &[u8]) -> bool {
    KEYS.iter().any(|key| {
        let line = format!("{}1\n", key);
        (0..=line.len()).any(|cut| spots(&[text, &line.as_bytes()[cut..]].concat()).is_some())
    })
}

/// The spots of a sheet, or the place at which it is refused.
fn read(text: &[u8]) -> Result<Spots, usize> {
    if text.len() > 1024 && !faults::is(Fault::LongLookedAt) && !faults::is(Fault::LongTaken) {
        return Err(if faults::is(Fault::LongPlaceLength) { text.len() } else { 1024 });
    }
    let place = || {
        // What begins no sheet is no better with more behind it, so the beginnings that do stand before those that do not.
        let lengths: Vec<usize> = (0..=text.len()).collect();
        let first = lengths.partition_point(|n| begins(&text[..*n])) - 1;
        let line = text[..first].iter().rposition(|b| *b == b'\n').map_or(0, |n| n + 1);
        let value = text[line..first].iter().position(|b| *b == b'=').map_or(first, |n| line + n + 1);
        if faults::is(Fault::PlaceOfLine) {
            line
        } else if faults::is(Fault::PlaceOfValue) {
            value
        } else if faults::is(Fault::PlaceOneBack) && first == text.len() && first > 0 {
            first - 1
        } else {
            first
        }
    };
    spots(text).ok_or_else(place)
}

/// Number, place, count and value of jug_setting.
fn setting(local: &[u8], shared: &[u8], key: u64) -> String {
    let (own, common) = (read(local), read(shared));
    let malformed = |place: &usize, sheet: usize| four(18, *place, 0, if faults::is(Fault::NoSheetNumber) { 0 } else { sheet });
    let unknown = !(1..=3).contains(&key);
    if unknown && !faults::is(Fault::KeyAfterSheets) {
        return four(if faults::is(Fault::UnknownKeyMissing) { 17 } else { 9 }, 0, 0, 0);
    }
    let k = if unknown { 0 } else { key as usize - 1 };
    let of = |sheet: &Result<Spots, usize>| sheet.as_ref().ok().and_then(|s| s[k]);
    let tell = |spot: (usize, usize), sheet: usize| {
        let from = if faults::is(Fault::ValueWithKey) { spot.0 - KEYS[k].len() } else { spot.0 };
        let place = if faults::is(Fault::SharedPlaceBehind) && sheet == 2 { local.len() + from } else { from };
        four(0, place, spot.1 - from + usize::from(faults::is(Fault::ValueWithEnd)), sheet)
    };
    if faults::is(Fault::MissingFirst) && of(&own).is_none() && of(&common).is_none() {
        return four(17, 0, 0, 0);
    }
    if faults::is(Fault::SharedUnread) && of(&own).is_some() {
        return tell(of(&own).unwrap(), 1);
    }
    match (&own, &common) {
        (_, Err(place)) if faults::is(Fault::SharedFormFirst) => malformed(place, 2),
        (Err(place), _) => malformed(place, 1),
        (_, Err(place)) => malformed(place, 2),
        _ if unknown => four(9, 0, 0, 0),
        _ => match (of(&own), of(&common)) {
            (Some(_), Some(spot)) if faults::is(Fault::SharedFirst) => tell(spot, 2),
            (Some(spot), _) => tell(spot, 1),
            (None, Some(spot)) => tell(spot, 2),
            _ => four(17, 0, 0, 0),
        },
    }
}

/// The value of a key by two sheets, or the program's line of refusal.
pub fn value(local: &[u8], shared: &[u8], key: usize) -> Result<Vec<u8>, String> {
    let refused = |name: &str, place: usize| format!("{} refused=18 place={}\n", name, place);
    let own = read(local).map_err(|place| refused("local", place))?;
    let common = read(shared).map_err(|place| refused("shared", place))?;
    let found = own[key].map(|(a, b)| local[a..b].to_vec()).or(common[key].map(|(a, b)| shared[a..b].to_vec()));
    found.ok_or(format!("{} refused=17 place=0\n", KEYS[key].trim_end_matches('=')))
}

/// All sheets that were ever taken, with their editions; the last eight of them are held.
#[derive(Default)]
struct Store {
    taken: Vec<(usize, Vec<u8>)>,
    /// The words were damaged: they count more than a store may.
    damaged: bool,
}

impl Store {
    fn held(&self) -> Vec<&(usize, Vec<u8>)> {
        let many = if faults::is(Fault::SevenHeld) { 7 } else if faults::is(Fault::NineHeld) { 9 } else { 8 };
        if faults::is(Fault::NewestDropped) && self.taken.len() > many {
            return self.taken[..many - 1].iter().chain(self.taken.last()).collect();
        }
        self.taken[self.taken.len().saturating_sub(many)..].iter().collect()
    }

    fn keep(&mut self, sheet: &[u8]) -> String {
        if self.damaged && !(faults::is(Fault::DamageLate) && read(sheet).is_err()) {
            return four(9, 0, 0, 0);
        }
        let edition = |spots: Spots| spots[0].map(|(a, b)| String::from_utf8_lossy(&sheet[a..b]).parse::<usize>().unwrap());
        let spots = match read(sheet) {
            Err(_) if faults::is(Fault::EditionBeforeForm) && !sheet.starts_with(b"edition=") => return four(17, 0, 0, 0),
            Err(place) => return four(18, place, 0, if faults::is(Fault::NoSheetNumber) { 0 } else { 1 }),
            Ok(spots) => spots,
        };
        let newest = self.held().iter().map(|s| s.0).max();
        match edition(spots) {
            None => four(17, 0, 0, 0),
            Some(n) if newest.is_some_and(|m| n < m || n == m && !faults::is(Fault::SameEditionTaken)) && !(faults::is(Fault::AnyNewEdition) && self.held().iter().all(|s| s.0 != n)) => {
                if faults::is(Fault::RefusedDrops) {
                    self.taken.remove(0);
                }
                four(19, 0, 0, 0)
            }
            Some(n) => {
                self.taken.push((n, sheet.to_vec()));
                let count = if faults::is(Fault::AllCounted) { self.taken.len() } else { self.held().len() };
                four(0, 0, count, 0)
            }
        }
    }

    fn kept(&self, edition: u64, buffer: &[u8]) -> String {
        let mut out = buffer.to_vec();
        let held = self.held();
        let found = held.iter().find(|s| s.0 as u64 == if faults::is(Fault::EditionCutOff) { edition & 0xffff } else { edition });
        let answer = match found {
            _ if self.damaged => four(9, 0, 0, 0),
            None if faults::is(Fault::RoomBeforeHeld) && buffer.is_empty() => four(11, 0, 0, 0),
            None => four(20, 0, 0, 0),
            Some((_, sheet)) if buffer.len() < if faults::is(Fault::RoomForAnySheet) { 1024 } else { sheet.len() } => four(11, 0, 0, 0),
            Some((_, sheet)) => {
                out[..sheet.len()].copy_from_slice(sheet);
                if faults::is(Fault::RestCleared) {
                    out[sheet.len()..].fill(0);
                }
                four(0, 0, sheet.len(), 0)
            }
        };
        format!("{} {}", answer, hex(&out))
    }
}

/// A sheet with lines of these keys, by chance.
fn sheet(dice: &mut Dice, edition: Option<usize>) -> Vec<u8> {
    let mut text = edition.map_or(String::new(), |n| format!("edition={}\n", n));
    if dice.chance(60) {
        let long = *dice.pick(&[0, 1, 2, 3, 9, 40, 511, 512, 513]);
        let mut rule: Vec<u8> = (0..if dice.chance(80) { long.min(9) } else { long }).map(|_| dice.from(32, 126) as u8).collect();
        if dice.chance(15) && !rule.is_empty() {
            let at = dice.below(rule.len());
            rule[at] = *dice.pick(&[9, 31, 32, 126, 126, 127, 127]);
        }
        text += &format!("rule={}\n", String::from_utf8(rule).unwrap());
    }
    if dice.chance(60) {
        text += &format!("closing={}\n", dice.pick(&[0, 1, 2, 9, 10, 42, 99, 99, 100, 101, 990]));
    }
    text.into_bytes()
}

/// Some damage: a byte changed, dropped or put in, the text cut, a line twice or at another place, a number with a zero before it.
fn damage(dice: &mut Dice, text: &mut Vec<u8>) {
    let at = dice.below(text.len() + 1);
    let byte = *dice.pick(&[b'\n', b'\r', b'\t', b' ', b'0', b'1', b'9', b'=', b'e', b'r', b'c', b'~', 127, 0, 255, b'E']);
    let lines: Vec<Vec<u8>> = text.split_inclusive(|b| *b == b'\n').map(|l| l.to_vec()).collect();
    match dice.below(8) {
        0 if at < text.len() => text[at] = byte,
        1 if at < text.len() => {
            text.remove(at);
        }
        2 => text.insert(at, byte),
        3 => text.truncate(at),
        4 if !lines.is_empty() => text.extend(dice.pick(&lines).clone()),
        5 if lines.len() > 1 => *text = lines.iter().rev().flatten().copied().collect(),
        6 => {
            if let Some(n) = text.iter().position(|b| *b == b'=') {
                text.insert(n + 1, b'0');
            }
        }
        _ => text.extend(vec![byte; *dice.pick(&[1, 500, 1024, 1025])]),
    }
}

fn drawn(dice: &mut Dice) -> Vec<u8> {
    let edition = *dice.pick(&[None, Some(1), Some(9), Some(10), Some(255), Some(65535), Some(0), Some(65536), Some(65540), Some(100000)]);
    let edition = if dice.chance(70) { edition.filter(|n| (1..=65535).contains(n)) } else { edition };
    let mut text = sheet(dice, edition);
    if dice.chance(40) {
        damage(dice, &mut text);
    }
    if dice.chance(4) {
        text = vec![*dice.pick(&[b'x', b'e', b'\n']); *dice.pick(&[1023, 1024, 1025, 3000])];
    }
    if dice.chance(2) {
        // A rule so long that the sheet would be over its size, were it one.
        text = [&b"rule="[..], &vec![b'p'; *dice.pick(&[512, 513, 1019, 1020])], b"\n"].concat();
    }
    text
}

/// A case of jug_setting.
pub fn asked(dice: &mut Dice) -> (String, String) {
    let (local, shared) = (drawn(dice), drawn(dice));
    let key = if dice.chance(90) { dice.from(1, 3) as u64 } else { *dice.pick(&[0, 4, 255]) };
    (format!("{} {} {}", hex(&local), hex(&shared), key), setting(&local, &shared, key))
}

/// A case of the store, from all zero on: sheets are added (a), copied out (g), and now and then a word is damaged (w), so that the store counts too much.
pub fn stored(dice: &mut Dice) -> (String, String) {
    let mut store = Store::default();
    let (mut words, mut answers) = (Vec::new(), Vec::new());
    let mut newest = 0;
    for _ in 0..dice.from(1, 26) {
        if dice.chance(65) {
            let mut text = if dice.chance(85) {
                newest += *dice.pick(&[1, 1, 1, 2, 7, 300]);
                sheet(dice, Some(newest))
            } else {
                let edition = *dice.pick(&[None, Some(newest), Some(newest.saturating_sub(1)), Some(1), Some(65535)]);
                sheet(dice, edition)
            };
            if dice.chance(6) {
                damage(dice, &mut text);
            }
            words.push(format!("a {}", hex(&text)));
            answers.push(store.keep(&text));
        } else if dice.chance(96) {
            let edition = match dice.below(6) {
                0 => *dice.pick(&[0, 1, 65535, 65536, u64::MAX]),
                1 => 65536 + dice.below(newest + 2) as u64,
                _ => (newest + 1).saturating_sub(dice.below(12)) as u64,
            };
            let buffer: Vec<u8> = (0..*dice.pick(&[0, 9, 12, 20, 40, 600, 1024])).map(|_| dice.below(256) as u8).collect();
            words.push(format!("g {} {}", edition, hex(&buffer)));
            answers.push(store.kept(edition, &buffer));
        } else {
            // The first word is how many sheets there are; the next eight are their lengths. With eight counted, any of these counts.
            let (at, value) = if dice.chance(50) { (0, *dice.pick(&[9, 256, u64::MAX])) } else { (dice.from(1, 8), *dice.pick(&[1025, 65536, u64::MAX])) };
            if at == 0 || at <= store.taken.len().min(8) {
                words.push(format!("w {} {}", at, value));
                store.damaged = true;
            }
        }
    }
    (words.join(" "), if answers.is_empty() { String::from("-") } else { answers.join(" ; ") })
}

#[cfg(test)]
mod tests {
    use super::*;

    #[test]
    fn places() {
        let place = |text: &str| read(text.as_bytes()).err();
        for (text, wanted) in [
            ("", None),
            ("edition=65535\nclosing=99\n", None),
            ("edition=65536\n", Some(12)),
            ("closing=100\n", Some(10)),
            ("edition=0\n", Some(8)),
            ("closing=05\n", Some(9)),
            ("rule=\n", Some(5)),
            ("ed", Some(2)),
            ("rule=p\nedition=1\n", Some(7)),
            ("rule=p\nrule=p\n", Some(7)),
            ("closing=0\n\n", Some(10)),
        ] {
            assert_eq!(place(text), wanted, "{:?}", text);
        }
        assert_eq!(read(&[b'x'; 1025]), Err(1024));
        assert_eq!(read(&[&b"rule="[..], &[b'p'; 513], b"\n"].concat()), Err(517));
    }
}
