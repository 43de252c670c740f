//! Damage to messages: by order, tag, value, usage, counts, bytes and size.

use super::agent;
use super::draft::Draft;
use super::instant;
use super::random::Random;
use super::transfer::{bic, iban, iban_of_wrong_check_digits, written_cents};
use crate::form::{DECLARATION, ROOT_TAG};
use crate::rows;
use crate::values::cents;
use crate::LONGEST_MESSAGE;

pub type Damage = fn(&mut Draft, &mut Random);

pub const DAMAGES: [Damage; 10] = [
    order,
    tags,
    values,
    usage,
    counts,
    limits,
    instant::instrument,
    instant::date,
    agent::agent,
    agent::agent,
];

/// Names of the form and not: known, unknown, of 32 and 33 bytes, InstdAmt.
fn any_name(random: &mut Random) -> String {
    let tags: Vec<&str> = rows::tags().collect();
    match random.below(8) {
        0 => "Xyz9".to_string(),
        1 => "a".repeat(random.between(31, 34)),
        2 => random
            .pick(&["InstdAmtX", "InstdAm", "InstdAmt", "instdAmt", "9Nm", "N-m", ""])
            .to_string(),
        3 => random.pick(&tags).to_lowercase(),
        _ => random.pick(&tags).to_string(),
    }
}

fn any_element(random: &mut Random) -> Draft {
    let name = any_name(random);
    let text = *random.pick(&["", " ", "x", "NOTPROVIDED", "SEPA", "12.50"]);
    match random.below(4) {
        0 => Draft::nested(&["Othr", "Id"], "NOTPROVIDED"),
        1 => Draft::nested(&[&name, "Nm"], text),
        2 if name == "InstdAmt" => Draft::amount("EUR", text),
        _ => Draft::leaf(&name, text),
    }
}

pub fn order(root: &mut Draft, random: &mut Random) {
    let Some(group) = root.any(random, |element| !element.is_leaf()) else { return };
    let children = &mut group.children;
    let at = random.below(children.len());
    let other = random.below(children.len());
    match random.below(8) {
        0 | 1 => drop(children.remove(at)),
        2 => children.insert(other, children[at].clone()),
        3 => children.swap(at, other),
        4 => children.clear(),
        5 => children.insert(at, any_element(random)),
        6 => children.push(any_element(random)),
        _ => children.truncate(at),
    }
}

pub fn tags(root: &mut Draft, random: &mut Random) {
    let Some(element) = root.any(random, |_| true) else { return };
    match random.below(8) {
        0 => element.name = any_name(random),
        1 => element.attribute = any_attribute(random),
        2 => element.children.push(any_element(random)),
        3 => {
            element.children.clear();
            element.text = any_text(random);
        }
        4 => element.text = any_text(random),
        5 => *element = deep(element, random.between(3, 13)),
        6 => child_in_a_leaf(root, random),
        _ => amount_tag(root, random),
    }
}

fn any_attribute(random: &mut Random) -> String {
    random.pick(&[" ", "/", " a=\"b\"", " Ccy=\"EUR\"", "\n", " xmlns=\"x\""]).to_string()
}

fn any_text(random: &mut Random) -> Vec<u8> {
    let texts: [&[u8]; 9] = [
        b" \t\r\n",
        b" text",
        b"x",
        b"\n>\n",
        b"&amp;",
        b"\xC3\xA9",
        b"\x7F",
        b"\x00",
        b"\n]]>\xFF",
    ];
    random.pick(&texts).to_vec()
}

fn deep(element: &Draft, levels: usize) -> Draft {
    (0..levels).fold(element.clone(), |inner, _| Draft::group("Lvl", vec![inner]))
}

fn child_in_a_leaf(root: &mut Draft, random: &mut Random) {
    if let Some(leaf) = root.any(random, Draft::is_leaf) {
        leaf.text = random.pick(&["", " ", "\r\n\t", "x"]).as_bytes().to_vec();
        leaf.children.push(any_element(random));
    }
}

fn amount_tag(root: &mut Draft, random: &mut Random) {
    if let Some(amount) = root.any(random, |element| element.name == "InstdAmt") {
        let attributes = [
            "",
            " ",
            " Ccy=\"USD\"",
            " Ccy=\"eur\"",
            " Ccy=\"EU\"",
            " Ccy=\"EURO\"",
            " Ccy='EUR'",
            "  Ccy=\"EUR\"",
            " Ccy=\"EUR\" ",
            " CCy=\"EUR\"",
        ];
        amount.attribute = random.pick(&attributes).to_string();
    }
}

const EDGE_VALUES: [&str; 84] = [
    "",
    " ",
    "  ",
    "\t",
    "\n",
    "a\tb",
    "_",
    "\u{e9}",
    "a;b",
    ">",
    "/",
    "//",
    "/A",
    "A/",
    "A//B",
    "A/B/C",
    " /A",
    "A/ ",
    "TRF",
    "CHK",
    "TRFX",
    "true",
    "false",
    "TRUE",
    "NORM",
    "HIGH",
    "SEPA",
    "SCOR",
    "URGP",
    "SLEV",
    "SHAR",
    "NOTPROVIDED",
    "NOTPROVIDEX",
    "A",
    "a",
    "A1B2",
    "ABCDE",
    "SALA",
    "0",
    "00",
    "1",
    "01",
    "1.",
    ".5",
    ".",
    "1.2",
    "1.234",
    "1,2",
    "-1",
    "+1",
    "0.00",
    "0.01",
    "0.009",
    "999999999.99",
    "1000000000.00",
    "0000000000000.01",
    "999999999999999.99",
    "9999999999999999.9",
    "9999999999999999",
    "000000000000001",
    "0000000000000001",
    "2024-02-29",
    "2026-02-29",
    "2000-02-29",
    "2099-12-31",
    "2100-01-01",
    "1999-12-31",
    "2026-00-10",
    "2026-13-01",
    "2026-04-31",
    "2026-01-00",
    "2026/01/01",
    "2026-03-02T23:59:59",
    "2026-03-02T24:00:00",
    "2026-03-02T00:60:00",
    "2026-03-02t00:00:00",
    "INST",
    "inst",
    "2026-03-02T23:59:59Z",
    "2026-03-02T23:59:59z",
    "2026-03-02T23:59:59+14:00",
    "2026-03-02T23:59:59+14:01",
    "2026-03-02T23:59:59-00:00",
    "2026-03-02T23:59:59-00:60",
];

pub fn values(root: &mut Draft, random: &mut Random) {
    let Some(leaf) = root.any(random, Draft::is_leaf) else { return };
    match random.below(10) {
        0..=3 => leaf.text = random.pick(&EDGE_VALUES).as_bytes().to_vec(),
        4..=6 => change_byte(&mut leaf.text, random),
        7 => leaf.text = vec![*random.pick(b"A 0_"); random.between(1, 145)],
        8 => leaf.text = any_account_or_bank(random).into_bytes(),
        _ => {
            let longest = *random.pick(&[3, 4, 5, 10, 11, 15, 18, 19, 25, 34, 35, 70, 140]);
            leaf.text = vec![*random.pick(b"A1"); longest + random.below(2)];
        }
    }
}

fn change_byte(text: &mut Vec<u8>, random: &mut Random) {
    let at = random.below(text.len());
    let new = *random.pick(b"0123456789ABCDEFXYZabc/-.,: _\t\x80>");
    match random.below(4) {
        _ if text.is_empty() => text.push(new),
        0 => drop(text.remove(at)),
        1 => text.insert(at, new),
        _ => text[at] = new,
    }
}

fn any_account_or_bank(random: &mut Random) -> String {
    match random.below(6) {
        0 => iban_of_wrong_check_digits(random),
        1 => iban(random).to_lowercase(),
        2 => iban(random).replacen(|_: char| true, "G", 1),
        3 => iban(random) + "0",
        4 => bic(random) + "X",
        _ => bic(random),
    }
}

fn is_block(element: &Draft) -> bool {
    element.name == "PmtInf"
}

fn is_payment(element: &Draft) -> bool {
    element.name == "CdtTrfTxInf"
}

pub fn usage(root: &mut Draft, random: &mut Random) {
    if random.percent(25) {
        return same_block_id(root, random);
    }
    let kind = root.any(random, |element| element.name == "PmtTpInf").cloned();
    let (Some(kind), Some(block)) = (kind, root.any(random, is_block)) else { return };
    if random.percent(30) {
        block.remove("PmtTpInf");
        if let Some(payment) = block.any(random, is_payment) {
            payment.remove("PmtTpInf");
        }
        return;
    }
    let added = match random.below(3) {
        0 => kind,
        1 => Draft::leaf("ChrgBr", "SLEV"),
        _ => Draft::nested(&["UltmtDbtr", "Nm"], "Study 12"),
    };
    in_block_and_payment(block, added, random);
}

fn same_block_id(root: &mut Draft, random: &mut Random) {
    let copied = root.any(random, |element| element.name == "PmtInfId").cloned();
    let other = root.any(random, |element| element.name == "PmtInfId");
    if let (Some(copied), Some(other)) = (copied, other) {
        *other = copied;
    }
}

fn in_block_and_payment(block: &mut Draft, added: Draft, random: &mut Random) {
    if block.child(&added.name).is_none() {
        let after: &[&str] = match &*added.name {
            "PmtTpInf" => &["ReqdExctnDt"],
            "UltmtDbtr" => &["ChrgBr", "CdtTrfTxInf"],
            _ => &["CdtTrfTxInf"],
        };
        block.put_before(after, added.clone());
    }
    let Some(payment) = block.any(random, is_payment) else { return };
    if payment.child(&added.name).is_none() {
        let after: &[&str] = match &*added.name {
            "PmtTpInf" => &["Amt"],
            "UltmtDbtr" => &["CdtrAgt", "Cdtr"],
            _ => &["UltmtDbtr", "CdtrAgt", "Cdtr"],
        };
        payment.put_before(after, added);
    }
}

pub fn counts(root: &mut Draft, random: &mut Random) {
    if random.percent(35) {
        return sum_of_32_bits(root, random);
    }
    let wanted: fn(&Draft) -> bool = match random.below(4) {
        0 => |element| element.name == "NbOfTxs",
        1 => |element| element.name == "InstdAmt",
        _ => |element| element.name == "CtrlSum",
    };
    let Some(leaf) = root.any(random, wanted) else { return };
    let written = String::from_utf8_lossy(&leaf.text).into_owned();
    let (whole, point) = written.split_once('.').unwrap_or((&written, ""));
    let whole: u64 = whole.parse().unwrap_or(0);
    let other = match random.below(5) {
        0 => format!("{}", whole + 1),
        1 => format!("{}", whole.saturating_sub(1)),
        2 => format!("{whole}.{}", random.below(100)),
        3 => format!("{}{written}", random.below(10)),
        _ => format!("{whole}.{point}0").chars().take(18).collect(),
    };
    leaf.text = other.into_bytes();
}

/// The sum of the header or of a block 2^32 cents up or down, or taken to 32 bits.
fn sum_of_32_bits(root: &mut Draft, random: &mut Random) {
    let group = root.any(random, |element| element.name == "GrpHdr" || is_block(element));
    let Some(leaf) = group.and_then(|group| group.child("CtrlSum")) else { return };
    let Some(sum) = cents(&leaf.text) else { return };
    let other = match random.below(3) {
        0 if sum >= 1 << 32 => sum - (1 << 32),
        1 if sum >= 1 << 32 => sum % (1 << 32),
        _ => sum + (1 << 32),
    };
    leaf.text = written_cents(other, random).into_bytes();
}

/// Payments or blocks around and above the greatest number.
pub fn limits(root: &mut Draft, random: &mut Random) {
    let Some(message) = root.child("CstmrCdtTrfInitn") else { return };
    if random.percent(50) {
        let Some(block) = message.children.last().cloned() else { return };
        let more = random.between(13, 17);
        message.children.extend(vec![block; more]);
        return;
    }
    let Some(block) = message.any(random, is_block) else { return };
    let Some(payment) = block.children.last().cloned() else { return };
    let more = random.between(58, 66);
    block.children.extend(vec![payment; more]);
}

const TELLING_BYTES: &[u8] = b"<>/?&\"= \t\n\r\x00\x1F\x7F\x80\xFFADZadz059_.";

pub fn bytes(message: &mut Vec<u8>, random: &mut Random) {
    for _ in 0..random.between(1, 2) {
        byte(message, random);
    }
}

fn byte(message: &mut Vec<u8>, random: &mut Random) {
    let at = random.below(message.len());
    let other = random.below(message.len());
    let any = random.byte();
    let new = if random.percent(70) { *random.pick(TELLING_BYTES) } else { any };
    match random.below(10) {
        _ if message.is_empty() => message.push(new),
        0 | 1 => drop(message.remove(at)),
        2 | 3 => message.insert(at, new),
        4 => message.truncate(at),
        5 => drop(message.drain(at.min(other)..at.max(other).min(at.min(other) + 40))),
        6 => message.push(new),
        7 => message.swap(at, other),
        _ => message[at] = new,
    }
}

/// Padded by white space or text to about the greatest length, or far above.
pub fn size(message: &mut Vec<u8>, random: &mut Random) {
    let aim = match random.below(4) {
        0 => random.between(LONGEST_MESSAGE + 1, 3 * LONGEST_MESSAGE),
        _ => LONGEST_MESSAGE + random.below(4) - 1,
    };
    let gaps: Vec<usize> =
        (1..message.len()).filter(|at| message[at - 1..=*at] == *b"><").collect();
    let at = match random.below(3) {
        0 if !gaps.is_empty() => *random.pick(&gaps),
        1 => random.below(message.len()),
        _ => message.len(),
    };
    let missing = aim.saturating_sub(message.len());
    message.splice(at..at, std::iter::repeat_n(*random.pick(b" \n x"), missing));
}

/// A few pieces of messages, one after the other.
pub fn soup(random: &mut Random) -> Vec<u8> {
    let pieces: [&[u8]; 24] = [
        DECLARATION,
        ROOT_TAG,
        b"</Document>",
        b"<Document>",
        b"<CstmrCdtTrfInitn>",
        b"</CstmrCdtTrfInitn>",
        b"<GrpHdr>",
        b"</GrpHdr>",
        b"<a>",
        b"</a>",
        b"<a></a>",
        b"<InstdAmt Ccy=\"EUR\">",
        b"</InstdAmt>",
        b"<InstdAmt",
        b"<",
        b">",
        b"/",
        b" ",
        b"\r\n\t",
        b"text",
        b"&",
        b"?",
        b"\x80",
        b"\x01",
    ];
    let mut out = Vec::new();
    if random.percent(20) {
        out.extend(DECLARATION);
    }
    if random.percent(70) {
        out.extend(ROOT_TAG);
    }
    for _ in 0..random.below(12) {
        out.extend(*random.pick(&pieces));
    }
    out
}
