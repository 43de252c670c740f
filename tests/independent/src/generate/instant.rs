//! Damage to what an instant transfer has beside the rest: row 56 with its code, and the date or
//! date and time of row 22. In a message of the first profile these stand where they never may.

use super::arrange::{execution_date, local_instrument};
use super::draft::Draft;
use super::random::Random;
use super::transfer::{day, execution, moment, zone};
use crate::Profile;

const CODES: [&str; 16] = [
    "",
    " ",
    "inst",
    "Inst",
    "INS",
    "INSTX",
    "INST ",
    " INST",
    "IN ST",
    "SEPA",
    "TRF",
    "INSTTRF",
    "I",
    "I_ST",
    "INST\n",
    "NOTPROVIDED",
];

pub fn instrument(root: &mut Draft, random: &mut Random) {
    let Some(kind) = root.any(random, |element| element.name == "PmtTpInf") else { return };
    if random.percent(60) {
        return instrument_contents(kind, random);
    }
    let found = kind.children.iter().position(|child| child.name == "LclInstrm");
    let at = random.below(kind.children.len() + 1);
    match (random.below(5), found) {
        (0, Some(found)) => drop(kind.children.remove(found)),
        (1, Some(found)) => {
            let taken = kind.children.remove(found);
            kind.children.insert(at.min(kind.children.len()), taken);
        }
        (2, _) => {
            kind.remove("SvcLvl");
            if random.percent(50) {
                kind.remove("LclInstrm");
            }
        }
        (3, _) => kind.put_before(&["CtgyPurp"], local_instrument()),
        _ => kind.children.insert(at, local_instrument()),
    }
}

/// Other contents of row 56, which is put in where it is not.
fn instrument_contents(kind: &mut Draft, random: &mut Random) {
    if kind.child("LclInstrm").is_none() {
        kind.put_before(&["CtgyPurp"], local_instrument());
    }
    let Some(instrument) = kind.child("LclInstrm") else { return };
    let code = |text: &str| Draft::leaf("Cd", text);
    instrument.children = match random.below(12) {
        0 => Vec::new(),
        1 => vec![code("INST"), code("INST")],
        2 => vec![Draft::leaf("Prtry", "INST")],
        3 => vec![code("INST"), Draft::leaf("Prtry", "INST")],
        4 => vec![Draft::nested(&["Cd", "Cd"], "INST")],
        5 => vec![code(&random.pick(&["A", " ", "INST", "_"]).repeat(36)[..36])],
        6 => vec![code(&random.pick(&["A", " ", "INST"]).repeat(35)[..35])],
        7 => vec![code("")],
        _ => vec![code(*random.pick(&CODES))],
    };
    if instrument.is_leaf() {
        instrument.text = random.pick(&["", " \n", "INST", " INST"]).as_bytes().to_vec();
    }
}

pub fn date(root: &mut Draft, random: &mut Random) {
    let Some(date) = root.any(random, |element| element.name == "ReqdExctnDt") else { return };
    let right = execution_date(&execution(Profile::INSTANT, random));
    let moment = |random: &mut Random| Draft::leaf("DtTm", &any_moment(random));
    let day = Draft::leaf("Dt", &day(random));
    date.children = match random.below(24) {
        0 => Vec::new(),
        1 => vec![day, right],
        2 => vec![right, day],
        3 => vec![right.clone(), right],
        4 => vec![day, moment(random)],
        5 => vec![Draft::leaf("Dt", &any_moment(random))],
        6 => vec![Draft { name: "DtTm".to_string(), ..day }],
        7 => vec![Draft::group("DtTm", vec![right])],
        8 => vec![right, Draft::leaf("Tm", "09:30:00")],
        9 => vec![Draft::leaf("DtTm", "")],
        _ => vec![moment(random)],
    };
    if date.is_leaf() {
        date.text = random.pick(&["", "\r\n", "2026-03-04", " 2026"]).as_bytes().to_vec();
    }
}

const MOMENTS: [&str; 14] = [
    "2026-03-04T00:00:00",
    "2026-03-04T23:59:59",
    "2026-03-04T24:00:00",
    "2026-03-04T23:60:00",
    "2026-03-04T23:59:60",
    "2026-03-04t09:30:00",
    "2026-03-04 09:30:00",
    "2024-02-29T09:30:00",
    "2026-02-29T09:30:00",
    "1999-12-31T09:30:00",
    "2100-01-01T09:30:00",
    "2026-3-04T09:30:00",
    "2026-03-04T09:30",
    "2026-03-04T09:30:00.0",
];

const ZONES: [&str; 36] = [
    "",
    "Z",
    "z",
    "ZZ",
    "Z ",
    " Z",
    "+",
    "-",
    "+00:00",
    "-00:00",
    "+14:00",
    "-14:00",
    "+14:01",
    "-14:01",
    "+13:59",
    "+13:60",
    "+09:60",
    "-09:99",
    "+15:00",
    "+24:00",
    "+99:00",
    "+9:00",
    "+0900",
    "+09",
    "+09:",
    "+09:0",
    "+09:000",
    "-12:00Z",
    "Z+01:00",
    "?01:00",
    "_01:00",
    "01:00",
    "+0a:00",
    "+09.00",
    "+ 9:00",
    "\u{2212}01:00",
];

/// Zones that are all but right.
const NEAR_ZONES: [&str; 10] =
    ["", "z", "+14:01", "-14:01", "+09:60", "-13:60", "+9:00", "+00:000", "+01_00", "Z\n"];

/// A date, time and zone, of which mostly one is wrong or none.
fn any_moment(random: &mut Random) -> String {
    if random.percent(25) {
        return random.pick(&MOMENTS).to_string() + &zone(random);
    }
    let zone = match random.below(5) {
        0 => zone(random),
        1 => {
            let sign = *random.pick(&['+', '-']);
            format!("{sign}{:02}:{:02}", random.below(17), random.below(62))
        }
        2 | 3 => random.pick(&NEAR_ZONES).to_string(),
        _ => random.pick(&ZONES).to_string(),
    };
    moment(random) + &zone
}
