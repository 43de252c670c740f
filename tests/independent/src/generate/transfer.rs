//! Payments as their seventeen fields, and allowed values for them.

use super::random::Random;
use crate::values::{remainder, COUNTRIES};
use crate::{Age, Profile};

/// Row 23 or 58.
#[derive(Clone, Debug, PartialEq, Eq)]
pub enum Execution {
    Day(String),
    Moment(String),
}

impl Execution {
    pub fn text(&self) -> &str {
        match self {
            Execution::Day(text) | Execution::Moment(text) => text,
        }
    }
}

/// What only a block can say of its payments.
#[derive(Clone, Debug, PartialEq, Eq)]
pub struct DebitSide {
    pub batch: bool,
    pub date: Execution,
    pub debtor: String,
    pub account: String,
    /// The BIC, or none for NOTPROVIDED, which an archived message alone may say.
    pub agent: Option<String>,
}

/// What row 16 says besides the service level.
#[derive(Clone, Debug, PartialEq, Eq)]
pub struct Kind {
    /// Row 56 is there.
    pub instant: bool,
    pub high: bool,
    pub category: Option<String>,
}

#[derive(Clone, Debug, PartialEq, Eq)]
pub enum Remittance {
    Plain(String),
    Reference { issuer: Option<String>, reference: String },
}

#[derive(Clone, Debug, PartialEq, Eq)]
pub struct Transfer {
    pub side: DebitSide,
    pub kind: Kind,
    pub ultimate_debtor: Option<String>,
    pub instruction: Option<String>,
    pub end_to_end: String,
    pub cents: u64,
    pub creditor_agent: Option<String>,
    pub creditor: String,
    pub creditor_account: String,
    pub ultimate_creditor: Option<String>,
    pub purpose: Option<String>,
    pub remittance: Option<Remittance>,
}

/// How much a message says: the chance of each optional row, the longest texts.
#[derive(Clone, Copy)]
pub struct Plenty {
    pub chance: usize,
    pub longest: usize,
}

/// The largest amount that is allowed.
const MOST_CENTS: u64 = 99_999_999_999;

const LETTERS: &[u8] = b"abcdefghijklmnopqrstuvwxyzABCDEFGHIJKLMNOPQRSTUVWXYZ0123456789";
const ALL: &[u8] = b"abcdefghijklmnopqrstuvwxyzABCDEFGHIJKLMNOPQRSTUVWXYZ0123456789/-?:().,'+ ";
const CAPITALS: &[u8] = b"ABCDEFGHIJKLMNOPQRSTUVWXYZ";
const CAPITALS_DIGITS: &[u8] = b"ABCDEFGHIJKLMNOPQRSTUVWXYZ0123456789";

pub fn of(set: &[u8], length: usize, random: &mut Random) -> String {
    (0..length).map(|_| char::from(*random.pick(set))).collect()
}

pub fn text(longest: usize, plenty: Plenty, random: &mut Random) -> String {
    let longest = if random.percent(5) { longest } else { longest.min(plenty.longest) };
    let length = random.between(1, longest.max(1));
    let words = of(if random.percent(50) { LETTERS } else { ALL }, length, random);
    if words.trim().is_empty() {
        of(LETTERS, length, random)
    } else {
        words
    }
}

/// No `/` first or last and no `//`.
pub fn id(plenty: Plenty, random: &mut Random) -> String {
    let mut bytes = text(35, plenty, random).into_bytes();
    for at in 0..bytes.len() {
        let edge = at == 0 || at + 1 == bytes.len() || bytes[at - 1] == b'/';
        if edge && (bytes[at] == b'/' || bytes[at] == b' ') {
            bytes[at] = b'-';
        }
    }
    String::from_utf8_lossy(&bytes).into_owned()
}

pub fn iban(random: &mut Random) -> String {
    let (country, length) = *random.pick(&COUNTRIES);
    let digits = random.percent(50);
    let rest = of(if digits { b"0123456789" } else { CAPITALS_DIGITS }, length - 4, random);
    let check = 98 - remainder(rest.as_bytes(), format!("{country}00").as_bytes());
    format!("{country}{check:02}{rest}")
}

/// Leaves 1 by 97, but its check digits are 00, 01 or 99.
pub fn iban_of_wrong_check_digits(random: &mut Random) -> String {
    for _ in 0..1000 {
        let right = iban(random);
        for (check, other) in [("97", "00"), ("98", "01"), ("02", "99")] {
            if right[2..4] == *check {
                return format!("{}{other}{}", &right[..2], &right[4..]);
            }
        }
    }
    iban(random)
}

pub fn bic(random: &mut Random) -> String {
    let branch = *random.pick(&[2, 5]);
    of(CAPITALS_DIGITS, 4, random) + &of(CAPITALS, 2, random) + &of(CAPITALS_DIGITS, branch, random)
}

pub fn code(random: &mut Random) -> String {
    of(CAPITALS_DIGITS, random.between(1, 4), random)
}

pub fn day(random: &mut Random) -> String {
    if random.percent(10) {
        return format!("{}-02-29", 2000 + 4 * random.below(25));
    }
    let month = random.between(1, 12);
    let last = [31, 28, 31, 30, 31, 30, 31, 31, 30, 31, 30, 31][month - 1];
    format!("{}-{month:02}-{:02}", random.between(2000, 2099), random.between(1, last))
}

pub fn moment(random: &mut Random) -> String {
    let [hour, minute, second] = [24, 60, 60].map(|limit| random.below(limit));
    format!("{}T{hour:02}:{minute:02}:{second:02}", day(random))
}

/// `Z`, or a sign and hh:mm up to 14:00.
pub fn zone(random: &mut Random) -> String {
    let minutes = match random.below(8) {
        0 | 1 => return "Z".to_string(),
        2 => 0,
        3 => 14 * 60,
        4 => 60 * random.below(15),
        _ => random.below(14 * 60 + 1),
    };
    format!("{}{:02}:{:02}", *random.pick(&['+', '-']), minutes / 60, minutes % 60)
}

pub fn execution(profile: Profile, random: &mut Random) -> Execution {
    if profile.instant && random.percent(65) {
        return Execution::Moment(moment(random) + &zone(random));
    }
    Execution::Day(day(random))
}

pub fn cents(random: &mut Random) -> u64 {
    let most = *random.pick(&[1, 100, 10_000, 1_000_000, MOST_CENTS]);
    if random.percent(5) {
        return most;
    }
    1 + random.draw() % most
}

/// An amount or sum, written in any of the ways allowed.
pub fn written_cents(cents: u64, random: &mut Random) -> String {
    let euros = with_zeros(cents / 100, random);
    match cents % 100 {
        0 if random.percent(40) => euros,
        tens if tens % 10 == 0 && random.percent(50) => format!("{euros}.{}", tens / 10),
        both => format!("{euros}.{both:02}"),
    }
}

pub fn with_zeros(number: u64, random: &mut Random) -> String {
    let width = if random.percent(10) { random.between(1, 15) } else { 1 };
    format!("{number:0width$}")
}

fn optional<T>(
    plenty: Plenty,
    random: &mut Random,
    value: impl FnOnce(&mut Random) -> T,
) -> Option<T> {
    random.percent(plenty.chance).then(|| value(random))
}

pub fn debit_side(profile: Profile, age: Age, plenty: Plenty, random: &mut Random) -> DebitSide {
    DebitSide {
        batch: random.percent(70),
        date: execution(profile, random),
        debtor: text(70, plenty, random),
        account: iban(random),
        agent: (age == Age::New || random.percent(60)).then(|| bic(random)),
    }
}

pub fn kind(profile: Profile, plenty: Plenty, random: &mut Random) -> Kind {
    Kind {
        instant: profile.instant,
        high: random.percent(30),
        category: optional(plenty, random, code),
    }
}

pub fn ultimate_party(plenty: Plenty, random: &mut Random) -> Option<String> {
    optional(plenty, random, |random| text(70, plenty, random))
}

pub fn remittance(plenty: Plenty, random: &mut Random) -> Remittance {
    if random.percent(50) {
        return Remittance::Plain(text(140, plenty, random));
    }
    Remittance::Reference {
        issuer: random.percent(50).then(|| text(35, plenty, random)),
        reference: text(35, plenty, random),
    }
}

/// Transfers that share a few debit sides, kinds and ultimate debtors, and of
/// which some may be alike.
pub fn transfers(
    profile: Profile,
    age: Age,
    count: usize,
    plenty: Plenty,
    random: &mut Random,
) -> Vec<Transfer> {
    let some = random.between(1, 4);
    let sides: Vec<_> = (0..some).map(|_| debit_side(profile, age, plenty, random)).collect();
    let kinds: Vec<_> = (0..some).map(|_| kind(profile, plenty, random)).collect();
    let debtors: Vec<_> = (0..some).map(|_| ultimate_party(plenty, random)).collect();
    let mut transfers: Vec<Transfer> = Vec::new();
    for _ in 0..count {
        let again = !transfers.is_empty() && random.percent(5);
        let transfer = if again {
            random.pick(&transfers).clone()
        } else {
            let shared = [sides.len(), kinds.len(), debtors.len()].map(|many| random.below(many));
            let own = (sides[shared[0]].clone(), kinds[shared[1]].clone());
            transfer(own, debtors[shared[2]].clone(), plenty, random)
        };
        transfers.push(transfer);
    }
    transfers
}

/// Half of the transfers, most of them or all get the largest amount.
pub fn enlarge(transfers: &mut [Transfer], random: &mut Random) {
    let chance = *random.pick(&[50, 90, 100]);
    for transfer in transfers {
        if random.percent(chance) {
            transfer.cents = MOST_CENTS;
        }
    }
}

fn transfer(
    (side, kind): (DebitSide, Kind),
    ultimate_debtor: Option<String>,
    plenty: Plenty,
    random: &mut Random,
) -> Transfer {
    Transfer {
        side,
        kind,
        ultimate_debtor,
        instruction: optional(plenty, random, |random| id(plenty, random)),
        end_to_end: id(plenty, random),
        cents: cents(random),
        creditor_agent: optional(plenty, random, bic),
        creditor: text(70, plenty, random),
        creditor_account: iban(random),
        ultimate_creditor: ultimate_party(plenty, random),
        purpose: optional(plenty, random, code),
        remittance: optional(plenty, random, |random| remittance(plenty, random)),
    }
}

impl Transfer {
    /// The same transfer but for this field.
    pub fn changed(&self, field: u32, random: &mut Random) -> Transfer {
        let mut other = self.clone();
        while other == *self {
            other.change(field, random);
        }
        other
    }

    fn change(&mut self, field: u32, random: &mut Random) {
        let plenty = Plenty { chance: 60, longest: 12 };
        match field {
            1 => self.side.batch ^= true,
            2 => self.kind.high ^= true,
            3 => self.kind.category = optional(plenty, random, code),
            4 => self.change_date(random),
            5 => self.side.debtor = text(70, plenty, random),
            6 => self.side.account = iban(random),
            7 => self.side.agent = Some(bic(random)),
            8 => self.ultimate_debtor = ultimate_party(plenty, random),
            9 => self.instruction = optional(plenty, random, |random| id(plenty, random)),
            10 => self.end_to_end = id(plenty, random),
            11 => self.cents = cents(random),
            12 => self.creditor_agent = optional(plenty, random, bic),
            13 => self.creditor = text(70, plenty, random),
            14 => self.creditor_account = iban(random),
            15 => self.ultimate_creditor = ultimate_party(plenty, random),
            16 => self.purpose = optional(plenty, random, code),
            _ => self.change_remittance(plenty, random),
        }
    }

    /// Another date, or the same time with another zone.
    fn change_date(&mut self, random: &mut Random) {
        let profile = Profile { instant: self.kind.instant };
        self.side.date = match &self.side.date {
            Execution::Moment(text) if random.percent(50) => {
                Execution::Moment(text[..19].to_string() + &zone(random))
            }
            _ => execution(profile, random),
        };
    }

    fn change_remittance(&mut self, plenty: Plenty, random: &mut Random) {
        self.remittance = match self.remittance.take() {
            Some(Remittance::Plain(text)) if random.percent(50) => Some(Remittance::Reference {
                issuer: None,
                reference: text.chars().take(35).collect(),
            }),
            Some(Remittance::Reference { reference, .. }) if random.percent(60) => {
                let issuer = random.percent(50).then(|| text(35, plenty, random));
                Some(Remittance::Reference { issuer, reference })
            }
            _ => optional(plenty, random, |random| remittance(plenty, random)),
        };
    }
}
