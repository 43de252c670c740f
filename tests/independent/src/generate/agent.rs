//! Damage around row 32, which a new message may no longer hold: put in for a BIC, beside one, with
//! other contents, under the creditor's agent; often with a fault of another stage before or
//! behind it.

use super::damage::{self, Damage};
use super::draft::Draft;
use super::random::Random;

/// What row 33 may say in the place of NOTPROVIDED.
const TEXTS: [&str; 14] = [
    "",
    " ",
    "   ",
    "notprovided",
    "NOTPROVIDE",
    "NOTPROVIDEDX",
    "NOTPROVIDED ",
    " NOTPROVIDED",
    "NOT PROVIDED",
    "NOTPROVIDED\n",
    "NOT_PROVIDED",
    "86379524",
    "AAAALULL",
    "\u{e9}",
];

/// Faults of the stages before row 32's, of its own and of those after it.
const OTHERS: [Damage; 7] = [
    damage::order,
    damage::tags,
    damage::values,
    damage::values,
    damage::usage,
    damage::counts,
    damage::limits,
];

/// Row 32 with row 33 in it.
pub fn not_provided() -> Draft {
    Draft::nested(&["Othr", "Id"], "NOTPROVIDED")
}

pub fn agent(root: &mut Draft, random: &mut Random) {
    if random.percent(15) {
        under_the_creditors_agent(root, random);
    } else {
        under_the_debtors_agent(root, random);
    }
    if random.percent(45) {
        random.pick(&OTHERS)(root, random);
    }
}

fn under_the_debtors_agent(root: &mut Draft, random: &mut Random) {
    let Some(agent) = root.any(random, |element| element.name == "DbtrAgt") else { return };
    let Some(institution) = agent.child("FinInstnId") else { return };
    institution.children = alternatives(random);
}

/// What stands in a FinInstnId: half the time row 32 as it was allowed.
fn alternatives(random: &mut Random) -> Vec<Draft> {
    let bank = Draft::leaf("BICFI", *random.pick(&["AAAALULL", "NOTPROVIDED", ""]));
    match random.below(20) {
        0 => vec![bank, not_provided()],
        1 => vec![not_provided(), bank],
        2 => vec![not_provided(), not_provided()],
        3 => vec![Draft::leaf("BICFI", "NOTPROVIDED")],
        4 => vec![Draft::leaf("Id", "NOTPROVIDED")],
        5 => Vec::new(),
        6..=12 => vec![other_contents(random)],
        _ => vec![not_provided()],
    }
}

fn other_contents(random: &mut Random) -> Draft {
    let id = |text: &str| Draft::leaf("Id", text);
    let mut other = not_provided();
    other.children = match random.below(16) {
        0 | 1 => Vec::new(),
        2 => vec![id("NOTPROVIDED"), id("NOTPROVIDED")],
        3 => vec![id("NOTPROVIDED"), Draft::leaf("Issr", "X")],
        4 => vec![Draft::leaf("Nm", "X"), id("NOTPROVIDED")],
        5 => vec![Draft::leaf("Nm", "NOTPROVIDED")],
        6 => vec![Draft::nested(&["Id", "Id"], "NOTPROVIDED")],
        7 => vec![id(&"N".repeat(random.between(35, 36)))],
        8 => vec![id(&" ".repeat(random.between(35, 36)))],
        _ => vec![id(*random.pick(&TEXTS))],
    };
    if other.is_leaf() {
        other.text = random.pick(&["", " \n", "NOTPROVIDED", "\t NOT"]).as_bytes().to_vec();
    }
    other
}

/// Row 32 where it never was allowed.
fn under_the_creditors_agent(root: &mut Draft, random: &mut Random) {
    let Some(payment) = root.any(random, |element| element.name == "CdtTrfTxInf") else { return };
    if payment.child("CdtrAgt").is_none() {
        payment
            .put_before(&["Cdtr"], Draft::nested(&["CdtrAgt", "FinInstnId", "BICFI"], "AAAALULL"));
    }
    let institution = payment.child("CdtrAgt").and_then(|agent| agent.child("FinInstnId"));
    let Some(institution) = institution else { return };
    match random.below(3) {
        0 => institution.children.push(not_provided()),
        1 => institution.children.insert(0, not_provided()),
        _ => institution.children = vec![not_provided()],
    }
}
