//! Refusals 6, 7, 8 and 28: one walk over the elements in the order of the file.

use crate::order::Order;
use crate::rows::{longest, Node};
use crate::{Age, Refusal};

#[derive(Clone, Copy, Debug, PartialEq, Eq)]
pub enum Fault {
    /// 6: empty or too long.
    Length,
    /// 7: this byte of the text is not in the set.
    Character(usize),
    /// 8: not an allowed value.
    Value,
}

/// Whole length of an IBAN by country.
pub const COUNTRIES: [(&str, usize); 12] = [
    ("BE", 16),
    ("FI", 18),
    ("NL", 18),
    ("AT", 20),
    ("LU", 20),
    ("DE", 22),
    ("IE", 22),
    ("ES", 24),
    ("PT", 25),
    ("FR", 27),
    ("GR", 27),
    ("IT", 27),
];

/// Row 32, which a new message may no longer hold.
const WITHDRAWN: u32 = 32;

pub fn check(age: Age, order: &Order) -> Result<(), Refusal> {
    walk(age, order, &order.root, 0)
}

/// An element, and after it all that stands in it.
fn walk(age: Age, order: &Order, node: &Node, parent: u32) -> Result<(), Refusal> {
    if longest(node.row).is_some() {
        return leaf(order, node, parent);
    }
    if node.row == WITHDRAWN && age == Age::New {
        return Err(Refusal::new(28, node.row, node.offset));
    }
    node.children.iter().try_for_each(|child| walk(age, order, child, node.row))
}

fn leaf(order: &Order, leaf: &Node, parent: u32) -> Result<(), Refusal> {
    let currency = leaf.currency.map_or(&[] as &[u8], |part| part.of(order.message));
    match fault(leaf.row, parent, leaf.content.of(order.message), currency) {
        None => Ok(()),
        Some(Fault::Length) => Err(Refusal::new(6, leaf.row, leaf.offset)),
        Some(Fault::Character(at)) => Err(Refusal::new(7, leaf.row, leaf.content.start + at)),
        Some(Fault::Value) => Err(Refusal::new(8, leaf.row, leaf.offset)),
    }
}

/// What is wrong with this text in that row below that parent; the currency
/// counts for row 42 alone.
pub fn fault(row: u32, parent: u32, text: &[u8], currency: &[u8]) -> Option<Fault> {
    if text.is_empty() || text.len() > longest(row).unwrap_or(0) {
        return Some(Fault::Length);
    }
    if let Some(at) = text.iter().position(|byte| !in_set(*byte)) {
        return Some(Fault::Character(at));
    }
    let right = value_allowed(row, parent, text) && (row != 42 || currency == b"EUR");
    (!right).then_some(Fault::Value)
}

pub fn in_set(byte: u8) -> bool {
    byte.is_ascii_alphanumeric() || b"/-?:().,'+ ".contains(&byte)
}

fn value_allowed(row: u32, parent: u32, text: &[u8]) -> bool {
    if text.iter().all(|byte| *byte == b' ') {
        return false;
    }
    match row {
        4 | 11 | 39 | 40 => slashes_allowed(text),
        5 => date_and_time(text),
        6 | 14 => all_digits(text),
        7 | 15 => cents(text).is_some(),
        12 => text == b"TRF",
        13 => text == b"true" || text == b"false",
        17 => text == b"NORM" || text == b"HIGH",
        19 => text == service_or_reference(parent),
        21 => text.len() <= 4 && text.iter().all(|byte| capital_or_digit(*byte)),
        23 => day(text),
        28 => iban(text),
        31 => bic(text),
        33 => text == b"NOTPROVIDED",
        36 => text == b"SLEV",
        42 => cents(text).is_some_and(|cents| (1..=99_999_999_999).contains(&cents)),
        57 => text == b"INST",
        58 => date_time_and_zone(text),
        _ => true,
    }
}

fn service_or_reference(parent: u32) -> &'static [u8] {
    if parent == 53 {
        b"SCOR"
    } else {
        b"SEPA"
    }
}

fn slashes_allowed(text: &[u8]) -> bool {
    let doubled = text.windows(2).any(|pair| pair == b"//");
    !text.starts_with(b"/") && !text.ends_with(b"/") && !doubled
}

fn capital_or_digit(byte: u8) -> bool {
    byte.is_ascii_uppercase() || byte.is_ascii_digit()
}

fn all_digits(text: &[u8]) -> bool {
    !text.is_empty() && text.iter().all(u8::is_ascii_digit)
}

/// Digits alone, at most 17 of them, as a number.
pub fn number(text: &[u8]) -> Option<u64> {
    if !all_digits(text) || text.len() > 17 {
        return None;
    }
    Some(text.iter().fold(0, |value, digit| value * 10 + u64::from(digit - b'0')))
}

/// 1 to 15 digits, then optionally a point and one or two digits; in cents.
pub fn cents(text: &[u8]) -> Option<u64> {
    let (euros, fraction) = match text.iter().position(|byte| *byte == b'.') {
        Some(point) => (&text[..point], cents_after_point(&text[point + 1..])?),
        None => (text, 0),
    };
    if euros.len() > 15 {
        return None;
    }
    Some(number(euros)? * 100 + fraction)
}

fn cents_after_point(digits: &[u8]) -> Option<u64> {
    match digits.len() {
        1 => Some(number(digits)? * 10),
        2 => number(digits),
        _ => None,
    }
}

fn day(text: &[u8]) -> bool {
    let [y1, y2, y3, y4, b'-', m1, m2, b'-', d1, d2] = *text else { return false };
    let (Some(year), Some(month), Some(day)) =
        (number(&[y1, y2, y3, y4]), number(&[m1, m2]), number(&[d1, d2]))
    else {
        return false;
    };
    (2000..=2099).contains(&year) && (1..=days_of(month, year)).contains(&day)
}

fn days_of(month: u64, year: u64) -> u64 {
    match month {
        2 if year % 4 == 0 => 29,
        2 => 28,
        4 | 6 | 9 | 11 => 30,
        1..=12 => 31,
        _ => 0,
    }
}

fn date_and_time(text: &[u8]) -> bool {
    text.len() == 19 && day(&text[..10]) && text[10] == b'T' && time(&text[11..])
}

fn time(text: &[u8]) -> bool {
    let [h1, h2, b':', m1, m2, b':', s1, s2] = *text else { return false };
    let under = |digits: [u8; 2], limit| number(&digits).is_some_and(|value| value < limit);
    under([h1, h2], 24) && under([m1, m2], 60) && under([s1, s2], 60)
}

fn date_time_and_zone(text: &[u8]) -> bool {
    text.len() >= 19 && date_and_time(&text[..19]) && zone(&text[19..])
}

/// `Z`, or a sign and hh:mm up to 14:00.
fn zone(text: &[u8]) -> bool {
    let [b'+' | b'-', h1, h2, b':', m1, m2] = *text else { return text == b"Z" };
    let (Some(hours), Some(minutes)) = (number(&[h1, h2]), number(&[m1, m2])) else {
        return false;
    };
    minutes < 60 && 60 * hours + minutes <= 14 * 60
}

fn bic(text: &[u8]) -> bool {
    (text.len() == 8 || text.len() == 11)
        && text.iter().all(|byte| capital_or_digit(*byte))
        && text[4..6].iter().all(u8::is_ascii_uppercase)
        && text != b"NOTPROVIDED"
}

fn iban(text: &[u8]) -> bool {
    let length = COUNTRIES.iter().find(|(country, _)| text.starts_with(country.as_bytes()));
    length.is_some_and(|(_, length)| text.len() == *length)
        && text.iter().all(|byte| capital_or_digit(*byte))
        && number(&text[2..4]).is_some_and(|check| (2..=98).contains(&check))
        && remainder(&text[4..], &text[..4]) == 1
}

/// What these characters, read one after the other as a number, leave by 97.
pub fn remainder(first: &[u8], then: &[u8]) -> u64 {
    first.iter().chain(then).fold(0, |left, byte| match byte {
        b'A'..=b'Z' => (left * 100 + u64::from(byte - b'A') + 10) % 97,
        b'0'..=b'9' => (left * 10 + u64::from(byte - b'0')) % 97,
        _ => left,
    })
}
