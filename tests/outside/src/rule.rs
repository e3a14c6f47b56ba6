//! Rules and their text. A text is parted at its loosest operator, and so on inside; the place of a refusal is found by
//! trying whether a beginning can be continued to a rule.

use crate::faults::{self, Fault};
use crate::Refusal;

#[derive(Clone, Debug, PartialEq)]
pub enum Rule {
    Is(bool),
    Prop(u8),
    One(char, Box<Rule>),
    Two(char, Box<Rule>, Box<Rule>),
}

/// A token. `->` is kept as `>`.
#[derive(Clone, Copy, Debug, PartialEq)]
enum Token {
    Leaf(u8),
    Prop(u8),
    Prefix(char),
    Between(char),
    Open,
    Close,
}

fn tokens(text: &[u8]) -> Option<Vec<Token>> {
    let mut found = Vec::new();
    let mut at = 0;
    while at < text.len() {
        let byte = text[at];
        at += 1;
        found.push(match byte {
            b' ' => continue,
            b'\t' if faults::is(Fault::TabIsSpace) => continue,
            b'0' | b'1' => Token::Leaf(byte),
            b'!' | b'X' | b'F' | b'G' => Token::Prefix(byte as char),
            b'U' | b'R' | b'&' | b'|' => Token::Between(byte as char),
            b'(' => Token::Open,
            b')' => Token::Close,
            b'-' if text.get(at) == Some(&b'>') => {
                at += 1;
                Token::Between('>')
            }
            b'p' => {
                while faults::is(Fault::SpaceInProp) && text.get(at) == Some(&b' ') {
                    at += 1;
                }
                match text.get(at) {
                    Some(b'1') if text.get(at + 1).map_or(false, |d| (b'0'..=b'5').contains(d)) && !faults::is(Fault::NamesOfOneDigit) => {
                        at += 2;
                        Token::Prop(10 + text[at - 1] - b'0')
                    }
                    Some(d) if d.is_ascii_digit() => {
                        at += 1;
                        Token::Prop(d - b'0')
                    }
                    _ => return None,
                }
            }
            _ => return None,
        });
    }
    Some(found)
}

/// Where a text without enclosing parentheses is parted: at the first or the last operator of the loosest level it has.
fn parting(text: &[Token]) -> Option<usize> {
    let mut depth = 0i32;
    let mut outer = Vec::new();
    for (at, token) in text.iter().enumerate() {
        match token {
            Token::Open => depth += 1,
            Token::Close => depth -= 1,
            Token::Between(op) if depth == 0 => outer.push((at, *op)),
            _ => {}
        }
    }
    for (level, first) in levels() {
        let mut here = outer.iter().filter(|o| level.contains(o.1)).map(|o| o.0);
        let found = if first { here.next() } else { here.last() };
        if found.is_some() {
            return found;
        }
    }
    None
}

/// The levels from the loosest on, and whether a level groups to the right, that is, parts at its first operator.
fn levels() -> Vec<(&'static str, bool)> {
    let arrow = (">", !faults::is(Fault::ArrowToLeft));
    let or = ("|", false);
    let and = ("&", false);
    let until = ("UR", !faults::is(Fault::UntilToLeft));
    if faults::is(Fault::UntilLooserThanAnd) {
        return vec![arrow, or, until, and];
    }
    if faults::is(Fault::AndLooserThanOr) {
        return vec![arrow, and, or, until];
    }
    vec![arrow, or, and, until]
}

fn part(text: &[Token]) -> Option<Rule> {
    let mut depth = 0i32;
    for token in text {
        depth += (*token == Token::Open) as i32 - (*token == Token::Close) as i32;
        if depth < 0 {
            return None;
        }
    }
    if faults::is(Fault::PrefixLoose) && parting(text).map_or(false, |at| "UR".contains(sign(text[at]))) {
        if let Token::Prefix(op) = text[0] {
            return Some(Rule::One(op, Box::new(part(&text[1..])?)));
        }
    }
    if let Some(at) = parting(text) {
        return Some(Rule::Two(sign(text[at]), Box::new(part(&text[..at])?), Box::new(part(&text[at + 1..])?)));
    }
    match text {
        [Token::Leaf(b)] => Some(Rule::Is(*b == b'1')),
        [Token::Prop(n)] => Some(Rule::Prop(*n)),
        [Token::Prefix(op), rest @ ..] => Some(Rule::One(*op, Box::new(part(rest)?))),
        [Token::Open, inner @ .., Token::Close] => part(inner),
        _ => None,
    }
}

fn sign(token: Token) -> char {
    match token {
        Token::Between(op) => op,
        _ => ' ',
    }
}

/// The rule of a text, if it is of the grammar.
pub fn of_grammar(text: &[u8]) -> Option<Rule> {
    part(&tokens(text)?)
}

/// Can this beginning be continued to a rule? Every rule closes what it opens, so the number of `)` at the end is known;
/// before them an operand may be missing, or a digit after `p`, or the rest of an arrow and its operand.
pub fn begins(start: &[u8]) -> bool {
    let count = |b: u8| start.iter().filter(|x| **x == b).count();
    if count(b'(') < count(b')') {
        return false;
    }
    let closing = vec![b')'; count(b'(') - count(b')')];
    [b"".as_ref(), b"0", b">0"].iter().any(|rest| of_grammar(&[start, rest, &closing].concat()).is_some())
}

/// The first byte at which the text begins no rule: halving is right since what continues a text continues its beginnings.
fn bad_place(text: &[u8]) -> usize {
    let (mut good, mut bad) = (0, text.len() + 1);
    while bad - good > 1 {
        let middle = (good + bad) / 2;
        if begins(&text[..middle]) {
            good = middle;
        } else {
            bad = middle;
        }
    }
    good
}

impl Rule {
    pub fn nodes(&self) -> usize {
        match self {
            Rule::Is(_) | Rule::Prop(_) => 1,
            Rule::One(_, a) => 1 + a.nodes(),
            Rule::Two(_, a, b) => 1 + a.nodes() + b.nodes(),
        }
    }

    /// The temporal parts in the order of the printed text.
    pub fn parts(&self) -> Vec<&Rule> {
        match self {
            Rule::Is(_) | Rule::Prop(_) => vec![],
            Rule::One('!', a) => a.parts(),
            Rule::One(_, a) => [vec![self], a.parts()].concat(),
            Rule::Two('U', a, b) | Rule::Two('R', a, b) => [a.parts(), vec![self], b.parts()].concat(),
            Rule::Two(_, a, b) => [a.parts(), b.parts()].concat(),
        }
    }

    /// The text with one pair of parentheses to each two-sided operator.
    pub fn print(&self) -> String {
        match self {
            Rule::Is(b) => String::from(if *b { "1" } else { "0" }),
            Rule::Prop(n) => format!("p{}", n),
            Rule::One(op, a) => format!("{}{}", op, a.print()),
            Rule::Two('>', a, b) => format!("({}->{})", a.print(), b.print()),
            Rule::Two(op, a, b) => format!("({}{}{})", a.print(), op, b.print()),
        }
    }
}

fn bad_prop(text: &[u8], props: usize) -> Option<Refusal> {
    let number = |i: usize| text[i + 1..].iter().skip_while(|b| **b == b' ').take_while(|b| b.is_ascii_digit()).fold(0, |n, d| 10 * n + (d - b'0') as usize);
    let mut bad = (0..text.len()).filter(|i| text[*i] == b'p' && number(*i) >= props);
    let place = if faults::is(Fault::PropPlaceLast) { bad.last() } else { bad.next() }?;
    Some(Refusal { number: 6, place: place + faults::is(Fault::PropPlaceDigit) as usize })
}

fn too_large(rule: &Rule, text: &[u8]) -> Option<Refusal> {
    let pairs = if faults::is(Fault::ParenthesesCount) { text.iter().filter(|b| **b == b'(').count() } else { 0 };
    let most_nodes = 32 + faults::is(Fault::Nodes33) as usize - faults::is(Fault::Nodes31) as usize;
    let most_parts = 6 + faults::is(Fault::Parts7) as usize - faults::is(Fault::Parts5) as usize;
    let nodes = rule.nodes() + pairs > most_nodes;
    let parts = rule.parts().len() > most_parts;
    if faults::is(Fault::PartsBeforeNodes) && parts {
        return Some(Refusal { number: 8, place: 0 });
    }
    let number = if nodes { 7 } else { 8 };
    if nodes || parts { Some(Refusal { number, place: 0 }) } else { None }
}

pub fn read(text: &[u8], props: usize) -> Result<Rule, Refusal> {
    if text.len() > 512 || (faults::is(Fault::RuleLimitPlays) && text.len() == 512 && of_grammar(text).is_none() && begins(text)) {
        return Err(Refusal { number: 4, place: 512 });
    }
    let rule = match of_grammar(text) {
        Some(rule) => rule,
        None => return Err(Refusal { number: 5, place: mistaken(bad_place(text), text) }),
    };
    if faults::is(Fault::PropAfterNodes) {
        if let Some(refusal) = too_large(&rule, text) {
            return Err(refusal);
        }
    }
    match bad_prop(text, props).or_else(|| too_large(&rule, text)) {
        Some(refusal) => Err(refusal),
        None => Ok(rule),
    }
}

/// The place as it is, unless a mistake about places is planted.
fn mistaken(place: usize, text: &[u8]) -> usize {
    if faults::is(Fault::RulePlaceToken) && place > 0 && (text[place - 1] == b'p' || text[place - 1] == b'-') {
        return place - 1;
    }
    if faults::is(Fault::RulePlaceEarly) && place == text.len() {
        return place.saturating_sub(1);
    }
    place
}

#[cfg(test)]
mod tests {
    use super::*;

    fn refused(text: &str) -> (usize, usize) {
        let r = read(text.as_bytes(), 2).unwrap_err();
        (r.number, r.place)
    }

    fn printed(text: &str) -> String {
        read(text.as_bytes(), 8).unwrap().print()
    }

    #[test]
    fn the_papers_texts() {
        assert_eq!(printed("p0Up1Up0"), "(p0U(p1Up0))");
        assert_eq!(printed("!p0Up1"), "(!p0Up1)");
        assert_eq!(printed("p0&p1&p0"), "((p0&p1)&p0)");
        assert_eq!(refused(""), (5, 0));
        assert_eq!(refused("p0 p1"), (5, 3));
        assert_eq!(refused("p8"), (6, 0));
        assert_eq!(refused("p16"), (5, 2));
        assert_eq!(refused("p01"), (5, 2));
        assert_eq!(refused("p1 0"), (5, 3));
        assert_eq!(refused("p0-"), (5, 3));
        assert_eq!(refused("((p0)"), (5, 5));
        assert_eq!(read(format!("{}p0", "!".repeat(31)).as_bytes(), 1).is_ok(), true);
        assert_eq!(refused(&format!("{}p0", "!".repeat(32))), (7, 0));
        assert_eq!(read(b"XXXXXXp0", 1).is_ok(), true);
        assert_eq!(refused("XXXXXXXp0"), (8, 0));
    }

    #[test]
    fn grouping_by_hand() {
        assert_eq!(printed("p0->p1->p2"), "(p0->(p1->p2))");
        assert_eq!(printed("p0|p1&p2Up3"), "(p0|(p1&(p2Up3)))");
        assert_eq!(printed("p0Rp1Up2&p3"), "((p0R(p1Up2))&p3)");
        assert_eq!(printed("G(p0->Fp1)|X!p2"), "(G(p0->Fp1)|X!p2)");
    }

    #[test]
    fn places_by_hand() {
        assert_eq!(refused("   "), (5, 3));
        assert_eq!(refused("p0- >p1"), (5, 3));
        assert_eq!(refused("p 0"), (5, 1));
        assert_eq!(refused("p0)"), (5, 2));
        assert_eq!(refused(&"(".repeat(512)), (5, 512));
        assert_eq!(refused(&"(".repeat(513)), (4, 512));
        assert_eq!(refused("p0&p5Up3"), (6, 3));
    }

    /// The few continuations tried are enough: every beginning over a small alphabet is compared with all continuations of up to four bytes.
    #[test]
    fn continuations_suffice() {
        let alphabet = b"p0U!()->& ";
        let mut texts: Vec<Vec<u8>> = vec![vec![]];
        let mut rules = std::collections::HashSet::new();
        for _ in 0..6 {
            texts = texts.iter().flat_map(|t| alphabet.iter().map(move |b| [t.as_slice(), &[*b]].concat())).collect();
            if texts[0].len() == 6 {
                texts.retain(|t| of_grammar(t).is_some());
            }
            for t in texts.iter().filter(|t| of_grammar(t).is_some()) {
                (0..=t.len()).for_each(|n| { rules.insert(t[..n].to_vec()); });
            }
        }
        let mut short: Vec<Vec<u8>> = vec![vec![]];
        for _ in 0..3 {
            for t in &short {
                let some = rules.contains(t);
                assert_eq!(begins(t), some || begins_long(t), "{:?}", String::from_utf8_lossy(t));
            }
            short = short.iter().flat_map(|t| alphabet.iter().map(move |b| [t.as_slice(), &[*b]].concat())).collect();
        }
    }

    /// Beginnings that need more than three further bytes, found by closing parentheses after an operand.
    fn begins_long(t: &[u8]) -> bool {
        ["0", ">0", "0)", ">0)", "0))", ">0))", "0)))", ")", "))", ")))"].iter().any(|r| of_grammar(&[t, r.as_bytes()].concat()).is_some())
    }
}
