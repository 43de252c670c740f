//! The form once more, as a grammar that is tried in every possible way.
//!
//! `Ways` follows the form's grammar nondeterministically: from a place in
//! the bytes each piece of it gives all places where it may end. Whoever asks
//! for a byte beyond the last one could go on, and everything in the grammar
//! can be finished, so then the bytes begin a text of the form.

mod common;
use common::ROOT;
use independent::form::{form, DECLARATION};
use independent::generate::random::Random;
use independent::generate::{case, sound_message};
use independent::{Age, Profile};
use std::cell::Cell;
use std::collections::BTreeSet;

type Places = BTreeSet<usize>;

struct Ways<'m> {
    bytes: &'m [u8],
    could_go_on: Cell<bool>,
}

impl<'m> Ways<'m> {
    fn new(bytes: &'m [u8]) -> Self {
        Ways { bytes, could_go_on: Cell::new(false) }
    }

    fn one(&self, from: &Places, allowed: impl Fn(u8) -> bool) -> Places {
        let mut places = Places::new();
        for place in from {
            match self.bytes.get(*place) {
                None => self.could_go_on.set(true),
                Some(byte) if allowed(*byte) => drop(places.insert(place + 1)),
                Some(_) => {}
            }
        }
        places
    }

    fn literal(&self, from: &Places, bytes: &[u8]) -> Places {
        bytes.iter().fold(from.clone(), |from, byte| self.one(&from, |other| other == *byte))
    }

    fn run(&self, from: &Places, allowed: fn(u8) -> bool) -> Places {
        let (mut all, mut last) = (from.clone(), from.clone());
        while !last.is_empty() {
            last = self.one(&last, allowed);
            all.extend(&last);
        }
        all
    }

    fn white(&self, from: &Places) -> Places {
        self.run(from, |byte| b" \t\n\r".contains(&byte))
    }

    fn message(&self) -> Places {
        let start = Places::from([0]);
        let mut before = self.literal(&start, DECLARATION);
        before.extend(start);
        let tag = self.literal(&self.white(&before), ROOT.as_bytes());
        self.white(&self.end_tag(&self.content(&tag, 1), b"Document"))
    }

    fn content(&self, from: &Places, depth: usize) -> Places {
        let mut ends = self
            .run(from, |byte| !b"<&".contains(&byte) && (byte >= 32 || b"\t\n\r".contains(&byte)));
        if depth < 12 {
            let mut last = self.white(from);
            while !last.is_empty() {
                last = last.iter().flat_map(|place| self.element(*place, depth + 1)).collect();
                last = self.white(&last);
                ends.extend(&last);
            }
        }
        ends
    }

    fn element(&self, from: usize, depth: usize) -> Places {
        let open = self.literal(&Places::from([from]), b"<");
        let mut name_ends = self.one(&open, |byte| byte.is_ascii_alphabetic());
        let mut last = name_ends.clone();
        for _ in 0..31 {
            last = self.one(&last, |byte| byte.is_ascii_alphanumeric());
            name_ends.extend(&last);
        }
        let after = |end: &usize| self.after_name(from + 1, *end, depth);
        name_ends.iter().flat_map(after).collect()
    }

    fn after_name(&self, start: usize, end: usize, depth: usize) -> Places {
        let name = &self.bytes[start..end];
        let mut tag = Places::from([end]);
        if name == b"InstdAmt" {
            tag = self.literal(&tag, b" Ccy=\"");
            for _ in 0..3 {
                tag = self.one(&tag, |byte| byte.is_ascii_uppercase());
            }
            tag = self.literal(&tag, b"\"");
        }
        self.end_tag(&self.content(&self.literal(&tag, b">"), depth), name)
    }

    fn end_tag(&self, from: &Places, name: &[u8]) -> Places {
        self.literal(&self.literal(&self.literal(from, b"</"), name), b">")
    }
}

fn of_the_form(bytes: &[u8]) -> bool {
    Ways::new(bytes).message().contains(&bytes.len())
}

fn begins_the_form(bytes: &[u8]) -> bool {
    let ways = Ways::new(bytes);
    ways.message().contains(&bytes.len()) || ways.could_go_on.get()
}

/// In the rules' words: the first byte after which the bytes so far begin no
/// text of the form, else the length; none for a text of the form. A beginning
/// of possible bytes is possible, so the place is found by halving.
fn refused_at(bytes: &[u8]) -> Option<usize> {
    if of_the_form(bytes) {
        return None;
    }
    let (mut possible, mut after) = (0, bytes.len() + 1);
    while after - possible > 1 {
        let length = (possible + after) / 2;
        if begins_the_form(&bytes[..length]) {
            possible = length;
        } else {
            after = length;
        }
    }
    Some(possible)
}

fn compare(bytes: &[u8]) {
    let shown = String::from_utf8_lossy(bytes);
    assert_eq!(form(bytes).err(), refused_at(bytes), "{shown}");
}

/// All strings of these pieces, up to so many of them, after that beginning.
fn compare_all(beginning: &str, pieces: &[&str], most: usize) {
    compare(beginning.as_bytes());
    if most > 0 {
        pieces
            .iter()
            .for_each(|piece| compare_all(&format!("{beginning}{piece}"), pieces, most - 1));
    }
}

#[test]
fn all_short_texts_at_the_start() {
    let declaration = std::str::from_utf8(DECLARATION).unwrap();
    compare_all("", &["<", "?", "D", " ", "x", ">", "/", "&", "\n", "\u{1}"], 4);
    compare_all(
        "",
        &["<?xml version=\"1.0\" ", "encoding=\"UTF-8\"?>", declaration, ROOT, "</Document>", " "],
        4,
    );
    for cut in 0..=declaration.len() {
        compare_all(&declaration[..cut], &["<", "?", "x", " ", ">", "\"", "="], 2);
    }
    for cut in 0..=ROOT.len() {
        compare_all(&ROOT[..cut], &["<", "/", ">", " ", "\"", "D", "9", "\t"], 2);
    }
}

#[test]
fn all_short_texts_in_the_root() {
    compare_all(ROOT, &["<", "/", ">", "a", " ", "&", "1", "\u{1}"], 5);
    compare_all(ROOT, &["<a>", "</a>", "<b>", "</b>", "x", " ", "</Document>"], 5);
    compare_all(&format!("{ROOT}<a>"), &["<", "/", ">", "a", "x", "</a", "</Document>"], 4);
}

#[test]
fn all_short_texts_at_an_amount() {
    let pieces = ["t", "X", " ", ">", "\"", "E", "e", "Ccy=\"", "EUR", "\">", "</InstdAmt>"];
    compare_all(&format!("{ROOT}<InstdAm"), &pieces, 4);
    compare_all(&format!("{ROOT}<InstdAmt Ccy="), &["\"", "E", "EU", "9", "a", ">", " ", "/"], 5);
    compare_all(
        &format!("{ROOT}<InstdAmt Ccy=\"EUR\">"),
        &["x", " ", "<", "/", "</InstdAmt>", "</InstdAmt", ">"],
        4,
    );
}

#[test]
fn every_byte_at_every_kind_of_place() {
    for beginning in [
        "",
        " ",
        "<",
        "<?",
        &format!("{ROOT} "),
        &format!("{ROOT}<"),
        &format!("{ROOT}x"),
        &format!("{ROOT}x<"),
        &format!("{ROOT}<a"),
        &format!("{ROOT}<a>"),
        &format!("{ROOT}<a></"),
        &format!("{ROOT}<a></a"),
        &format!("{ROOT}<a></a>"),
        &format!("{ROOT}<a></a> <"),
        &format!("{ROOT}<InstdAmt"),
        &format!("{ROOT}<InstdAmt "),
        &format!("{ROOT}<InstdAmt Ccy=\"E"),
        &format!("{ROOT}<InstdAmt Ccy=\"EUR"),
        &format!("{ROOT}</Document>"),
        &format!("{ROOT}</Document>\r"),
    ] {
        for byte in 0..=255 {
            compare(&[beginning.as_bytes(), &[byte]].concat());
        }
    }
}

#[test]
fn names_around_32_bytes_and_depths_around_12() {
    for length in 29..=34 {
        let name = "b".repeat(length);
        compare_all(&format!("{ROOT}<{name}"), &["b", ">", " ", "9", &format!("</{name}>")], 3);
    }
    for depth in 9..=13 {
        let opened = format!("{ROOT}{}", "<a>".repeat(depth));
        compare_all(&opened, &["<", "/", "a", ">", " ", "x", "</a>"], 3);
        compare(format!("{opened}{}</Document>", "</a>".repeat(depth)).as_bytes());
    }
}

/// Random texts of pieces that often follow one another.
fn random_text(random: &mut Random) -> Vec<u8> {
    let pieces = [
        "<a>",
        "</a>",
        "<b2>",
        "</b2>",
        "<InstdAmt Ccy=\"EUR\">",
        "</InstdAmt>",
        "<InstdAmt>",
        " ",
        "x",
        "\n",
        "<",
        ">",
        "/",
        "&",
        "</Document>",
        "<Document>",
        "é",
        "\u{7f}",
        "\u{1}",
        "<a></a>",
        "InstdAmt",
    ];
    let mut text = if random.percent(90) { ROOT.to_string() } else { String::new() };
    let mut open: Vec<&str> = Vec::new();
    for _ in 0..random.below(25) {
        match open.last() {
            Some(name) if random.percent(35) => {
                text += &format!("</{name}>");
                open.pop();
            }
            _ if random.percent(55) => {
                let name = *random.pick(&["a", "b2", "Nm"]);
                text += &format!("<{name}>");
                open.push(name);
            }
            _ => text += *random.pick(&pieces),
        }
    }
    text.into_bytes()
}

#[test]
fn random_and_mutated_texts() {
    let random = &mut Random::new(11, 0);
    for _ in 0..4000 {
        let mut text = random_text(random);
        compare(&text);
        independent::generate::damage::bytes(&mut text, random);
        compare(&text);
    }
}

#[test]
fn generated_messages_cut_short() {
    let random = &mut Random::new(12, 0);
    for index in 0..150 {
        let mut message = case(5, index).message;
        message.truncate(random.below(700));
        compare(&message);
    }
}

/// A completion of bytes that begin the form: always the first byte of these
/// that keeps them possible, so that everything open is closed.
fn completed(mut bytes: Vec<u8>) -> Vec<u8> {
    let preferred = b"</> \"=?DABCDEFGHIJKLMNOPQRSTUVWXYZabcdefghijklmnopqrstuvwxyz0123456789.-:";
    while !of_the_form(&bytes) {
        let next = preferred.iter().find(|byte| begins_the_form(&[&bytes[..], &[**byte]].concat()));
        bytes.push(*next.expect("a byte that may follow"));
    }
    bytes
}

#[test]
fn what_is_possible_can_be_completed() {
    let random = &mut Random::new(13, 0);
    for _ in 0..150 {
        let text = random_text(random);
        let end = form(&text).err().unwrap_or(text.len());
        let whole = completed(text[..random.between(0, end)].to_vec());
        assert!(form(&whole).is_ok(), "{}", String::from_utf8_lossy(&whole));
        let whole = completed(text[..end].to_vec());
        assert!(form(&whole).is_ok(), "{}", String::from_utf8_lossy(&whole));
    }
}

#[test]
fn parts_of_sound_messages_can_be_completed() {
    let random = &mut Random::new(14, 0);
    for index in 0..20 {
        let message =
            sound_message(Profile::BOTH[index as usize % 2], Age::Archived, 6, index).message;
        let whole = completed(message[..random.below(400.min(message.len()))].to_vec());
        assert!(form(&whole).is_ok(), "{}", String::from_utf8_lossy(&whole));
    }
}
