//! The rows, and refusals 3 and 4: one walk in the order of the file.

use crate::form::{is_white, Element, Part, Tree};
use crate::{Profile, Refusal};
use std::collections::BTreeSet;

enum Place {
    One(u32),
    Optional(u32),
    Several(u32),
    Choice(u32, u32),
}
use Place::{Choice, One, Optional, Several};

enum Holds {
    /// Text of at most so many bytes.
    Text(usize),
    Places(&'static [Place]),
}

struct Row {
    number: u32,
    tag: &'static str,
    holds: Holds,
}

const fn leaf(number: u32, tag: &'static str, longest: usize) -> Row {
    Row { number, tag, holds: Holds::Text(longest) }
}

const fn group(number: u32, tag: &'static str, places: &'static [Place]) -> Row {
    Row { number, tag, holds: Holds::Places(places) }
}

/// The first profile's rows, and behind them those that the instant one has as well.
static ROWS: [Row; 58] = [
    group(1, "Document", &[One(2)]),
    group(2, "CstmrCdtTrfInitn", &[One(3), Several(10)]),
    group(3, "GrpHdr", &[One(4), One(5), One(6), One(7), One(8)]),
    leaf(4, "MsgId", 35),
    leaf(5, "CreDtTm", 19),
    leaf(6, "NbOfTxs", 15),
    leaf(7, "CtrlSum", 18),
    group(8, "InitgPty", &[One(9)]),
    leaf(9, "Nm", 70),
    group(
        10,
        "PmtInf",
        &[
            One(11),
            One(12),
            Optional(13),
            One(14),
            One(15),
            Optional(16),
            One(22),
            One(24),
            One(26),
            One(29),
            Optional(34),
            Optional(36),
            Several(37),
        ],
    ),
    leaf(11, "PmtInfId", 35),
    leaf(12, "PmtMtd", 3),
    leaf(13, "BtchBookg", 5),
    leaf(14, "NbOfTxs", 15),
    leaf(15, "CtrlSum", 18),
    group(16, "PmtTpInf", &[Optional(17), One(18), Optional(20)]),
    leaf(17, "InstrPrty", 4),
    group(18, "SvcLvl", &[One(19)]),
    leaf(19, "Cd", 4),
    group(20, "CtgyPurp", &[One(21)]),
    leaf(21, "Cd", 4),
    group(22, "ReqdExctnDt", &[One(23)]),
    leaf(23, "Dt", 10),
    group(24, "Dbtr", &[One(25)]),
    leaf(25, "Nm", 70),
    group(26, "DbtrAcct", &[One(27)]),
    group(27, "Id", &[One(28)]),
    leaf(28, "IBAN", 34),
    group(29, "DbtrAgt", &[One(30)]),
    group(30, "FinInstnId", &[Choice(31, 32)]),
    leaf(31, "BICFI", 11),
    group(32, "Othr", &[One(33)]),
    leaf(33, "Id", 35),
    group(34, "UltmtDbtr", &[One(35)]),
    leaf(35, "Nm", 70),
    leaf(36, "ChrgBr", 4),
    group(
        37,
        "CdtTrfTxInf",
        &[
            One(38),
            Optional(16),
            One(41),
            Optional(36),
            Optional(34),
            Optional(43),
            One(44),
            One(45),
            Optional(46),
            Optional(47),
            Optional(48),
        ],
    ),
    group(38, "PmtId", &[Optional(39), One(40)]),
    leaf(39, "InstrId", 35),
    leaf(40, "EndToEndId", 35),
    group(41, "Amt", &[One(42)]),
    leaf(42, "InstdAmt", 18),
    group(43, "CdtrAgt", &[One(30)]),
    group(44, "Cdtr", &[One(25)]),
    group(45, "CdtrAcct", &[One(27)]),
    group(46, "UltmtCdtr", &[One(35)]),
    group(47, "Purp", &[One(21)]),
    group(48, "RmtInf", &[Choice(49, 50)]),
    leaf(49, "Ustrd", 140),
    group(50, "Strd", &[One(51)]),
    group(51, "CdtrRefInf", &[One(52), One(55)]),
    group(52, "Tp", &[One(53), Optional(54)]),
    group(53, "CdOrPrtry", &[One(19)]),
    leaf(54, "Issr", 35),
    leaf(55, "Ref", 35),
    group(56, "LclInstrm", &[One(57)]),
    leaf(57, "Cd", 35),
    leaf(58, "DtTm", 25),
];

/// The rows that are others in the instant profile.
static INSTANT_ROWS: [Row; 2] = [
    group(16, "PmtTpInf", &[Optional(17), One(18), One(56), Optional(20)]),
    group(22, "ReqdExctnDt", &[Choice(23, 58)]),
];

/// The FinInstnId of a creditor's agent (row 43) holds only row 31.
static CREDITOR_FIN_INSTN_ID: Row = group(30, "FinInstnId", &[One(31)]);

fn row(profile: Profile, number: u32, parent: u32) -> &'static Row {
    if (number, parent) == (30, 43) {
        return &CREDITOR_FIN_INSTN_ID;
    }
    let other = INSTANT_ROWS.iter().find(|row| profile.instant && row.number == number);
    other.unwrap_or(shared_row(number))
}

/// The first profile's row; its tag, and a leaf's length, are those of every profile.
fn shared_row(number: u32) -> &'static Row {
    &ROWS[number as usize - 1]
}

/// The longest length of a leaf's text; none for a group or no row.
pub fn longest(number: u32) -> Option<usize> {
    match ROWS.get((number as usize).wrapping_sub(1))?.holds {
        Holds::Text(longest) => Some(longest),
        Holds::Places(_) => None,
    }
}

/// The tags of all rows of both profiles, row 1's first.
pub fn tags() -> impl Iterator<Item = &'static str> {
    ROWS.iter().map(|row| row.tag)
}

/// The rows of a profile: row 1 and all that can stand in one of them.
pub fn rows_of(profile: Profile) -> BTreeSet<u32> {
    let mut rows = BTreeSet::new();
    let mut waiting = vec![1];
    while let Some(number) = waiting.pop() {
        if let (true, Holds::Places(places)) = (rows.insert(number), &row(profile, number, 0).holds)
        {
            waiting.extend(places.iter().flat_map(Place::rows));
        }
    }
    rows
}

pub fn tag(number: u32) -> &'static str {
    shared_row(number).tag
}

/// An element whose row is known.
#[derive(Clone, Debug, PartialEq, Eq)]
pub struct Node {
    pub row: u32,
    /// Where its `<` stands.
    pub offset: usize,
    pub content: Part,
    pub currency: Option<Part>,
    pub children: Vec<Node>,
}

impl Node {
    pub fn all(&self, row: u32) -> impl Iterator<Item = &Node> {
        self.children.iter().filter(move |child| child.row == row)
    }

    /// The element reached by going down through these rows.
    pub fn down(&self, path: &[u32]) -> Option<&Node> {
        path.iter().try_fold(self, |node, row| node.all(*row).next())
    }
}

/// The message's elements with their rows, or refusal 3 or 4.
pub fn place(profile: Profile, message: &[u8], tree: &Tree) -> Result<Node, Refusal> {
    node(Reading { profile, message }, &tree.root, row(profile, 1, 0))
}

/// A message and the profile under which it is read.
#[derive(Clone, Copy)]
struct Reading<'m> {
    profile: Profile,
    message: &'m [u8],
}

fn node(reading: Reading, element: &Element, row: &Row) -> Result<Node, Refusal> {
    let children = match row.holds {
        Holds::Text(_) => refuse_child_in_leaf(element, row)?,
        Holds::Places(places) => {
            refuse_text_in_group(reading.message, element, row)?;
            children(reading, element, row, places)?
        }
    };
    Ok(Node {
        row: row.number,
        offset: element.offset,
        content: element.content,
        currency: element.currency,
        children,
    })
}

fn refuse_child_in_leaf(leaf: &Element, row: &Row) -> Result<Vec<Node>, Refusal> {
    match leaf.children.first() {
        Some(child) => Err(Refusal::new(3, row.number, child.offset)),
        None => Ok(Vec::new()),
    }
}

fn refuse_text_in_group(message: &[u8], group: &Element, row: &Row) -> Result<(), Refusal> {
    if !group.children.is_empty() {
        return Ok(());
    }
    let text = group.content.of(message);
    match text.iter().position(|byte| !is_white(*byte)) {
        Some(at) => Err(Refusal::new(3, row.number, group.content.start + at)),
        None => Ok(()),
    }
}

/// Each place in turn takes the children that stand next and belong to it.
fn children(
    reading: Reading,
    parent: &Element,
    row: &Row,
    places: &[Place],
) -> Result<Vec<Node>, Refusal> {
    let Reading { profile, message } = reading;
    let mut waiting = parent.children.as_slice();
    let mut nodes = Vec::new();
    for (position, place) in places.iter().enumerate() {
        let before = nodes.len();
        while let Some((child, rest)) = waiting.split_first() {
            let full = nodes.len() > before && !place.repeats();
            let Some(number) = place.row_of(message, child).filter(|_| !full) else { break };
            nodes.push(node(reading, child, self::row(profile, number, row.number))?);
            waiting = rest;
        }
        if nodes.len() == before && place.required() {
            return Err(missing(message, parent, row, &places[position..], waiting));
        }
    }
    match waiting.first() {
        Some(child) => Err(Refusal::new(3, row.number, child.offset)),
        None => Ok(nodes),
    }
}

/// The first of these places got no child: the next one is of a later place, or
/// of none, or there is no more.
fn missing(
    message: &[u8],
    parent: &Element,
    row: &Row,
    places: &[Place],
    waiting: &[Element],
) -> Refusal {
    let first_missing = places.first().map_or(0, Place::first_row);
    match waiting.first() {
        None => Refusal::new(4, first_missing, parent.content.end()),
        Some(child) if places.iter().any(|place| place.row_of(message, child).is_some()) => {
            Refusal::new(4, first_missing, child.offset)
        }
        Some(child) => Refusal::new(3, row.number, child.offset),
    }
}

impl Place {
    fn rows(&self) -> [u32; 2] {
        match *self {
            One(row) | Optional(row) | Several(row) => [row, row],
            Choice(first, second) => [first, second],
        }
    }

    fn first_row(&self) -> u32 {
        self.rows()[0]
    }

    fn repeats(&self) -> bool {
        matches!(self, Several(_))
    }

    fn required(&self) -> bool {
        !matches!(self, Optional(_))
    }

    fn row_of(&self, message: &[u8], child: &Element) -> Option<u32> {
        let name = child.name.of(message);
        self.rows().into_iter().find(|number| tag(*number).as_bytes() == name)
    }
}

#[cfg(test)]
mod tests {
    use super::*;

    fn places(row: &Row) -> &'static [Place] {
        match row.holds {
            Holds::Places(places) => places,
            Holds::Text(_) => &[],
        }
    }

    #[test]
    fn every_row_stands_at_its_number_and_every_place_names_a_row() {
        for (index, row) in ROWS.iter().enumerate() {
            assert_eq!(row.number as usize, index + 1);
        }
        for row in ROWS.iter().chain(&INSTANT_ROWS) {
            if let Holds::Places(places) = row.holds {
                assert!(places.iter().flat_map(Place::rows).all(|r| (1..=58).contains(&r)));
                assert!(places.iter().any(Place::required));
            }
        }
    }

    #[test]
    fn no_group_has_one_tag_in_two_places() {
        for row in ROWS.iter().chain(&INSTANT_ROWS) {
            let mut rows: Vec<u32> = places(row).iter().flat_map(Place::rows).collect();
            rows.dedup();
            let mut tags: Vec<&str> = rows.iter().map(|r| tag(*r)).collect();
            tags.sort_unstable();
            let all = tags.len();
            tags.dedup();
            assert_eq!(tags.len(), all, "row {}", row.number);
        }
    }

    #[test]
    fn the_instant_profile_is_the_first_with_rows_16_and_22_replaced_and_56_to_58_added() {
        assert_eq!(rows_of(Profile::FIRST), (1..=55).collect());
        assert_eq!(rows_of(Profile::INSTANT), (1..=58).collect());
        let other = |number: &u32| {
            let [first, instant] = Profile::BOTH.map(|profile| row(profile, *number, 0));
            assert_eq!(first.tag, instant.tag);
            !std::ptr::eq(first, instant)
        };
        assert_eq!((1..=58).filter(other).collect::<Vec<u32>>(), [16, 22]);
    }
}
