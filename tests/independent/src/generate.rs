//! Generated messages and pairs, the same for the same seed and index.

pub mod agent;
pub mod arrange;
pub mod damage;
pub mod draft;
pub mod instant;
pub mod last_pairs;
pub mod random;
pub mod transfer;

use crate::usage::MOST_PAYMENTS;
use crate::{Age, Profile, Refusal, Regroup, LEAST_NUMBERS, LONGEST_MESSAGE};
use damage::DAMAGES;
use draft::{Draft, Layout};
use random::Random;
use transfer::{Plenty, Transfer};

/// The profile and the age for which a message is made: one made as archived may hold row 32.
#[derive(Clone, Copy)]
struct Made {
    profile: Profile,
    age: Age,
}

/// A message, the profile under which it is read, its age as the caller says it, and the length of
/// the table lent with it.
pub struct Case {
    pub profile: Profile,
    pub age: Age,
    pub message: Vec<u8>,
    pub table: usize,
}

/// A message that must be accepted under the profile it was made for, and archived if it was made
/// so, with its payments in their order.
pub struct Sound {
    pub message: Vec<u8>,
    pub transfers: Vec<Transfer>,
    draft: Draft,
}

/// Two messages and a list, the profile under which they are read and the first message's age; the
/// answer where the making of them tells it.
pub struct Pair {
    pub profile: Profile,
    pub age: Age,
    pub first: Vec<u8>,
    pub second: Vec<u8>,
    pub list: Vec<u8>,
    pub expected: Option<Regroup>,
}

pub fn case(seed: u64, index: u64) -> Case {
    let random = &mut Random::new(seed, index);
    let made = Made { profile: any_profile(random), age: any_age(random) };
    let profile = if random.percent(5) { made.profile.other() } else { made.profile };
    let age = if random.percent(10) { made.age.other() } else { made.age };
    let table = match random.below(50) {
        0 => random.below(LEAST_NUMBERS),
        1 => random.between(LEAST_NUMBERS - 1, LEAST_NUMBERS + 1),
        2 => random.between(LEAST_NUMBERS + 1, LEAST_NUMBERS + 100),
        _ => LEAST_NUMBERS,
    };
    Case { profile, age, message: any_message(made, random), table }
}

fn any_profile(random: &mut Random) -> Profile {
    *random.pick(&Profile::BOTH)
}

fn any_age(random: &mut Random) -> Age {
    *random.pick(&Age::BOTH)
}

/// A message made for this profile and age, mostly damaged.
fn any_message(made: Made, random: &mut Random) -> Vec<u8> {
    match random.below(100) {
        0..=14 => sound(made, random).message,
        15..=28 => {
            let mut message = sound(made, random).message;
            damage::bytes(&mut message, random);
            message
        }
        29..=88 => {
            let damage = *random.pick(&DAMAGES);
            damaged(made, &[damage], random)
        }
        89..=93 => {
            let damages = [*random.pick(&DAMAGES), *random.pick(&DAMAGES)];
            damaged(made, &damages, random)
        }
        94..=95 => {
            let mut message = sound(made, random).message;
            damage::size(&mut message, random);
            message
        }
        _ => damage::soup(random),
    }
}

fn damaged(made: Made, damages: &[damage::Damage], random: &mut Random) -> Vec<u8> {
    let mut draft = sound(made, random).draft;
    for damage in damages {
        damage(&mut draft, random);
    }
    let message = Layout::any(random).write(&draft, random);
    if message.len() > LONGEST_MESSAGE && random.percent(90) {
        return Layout::tight(random).write(&draft, random);
    }
    message
}

pub fn sound_message(profile: Profile, age: Age, seed: u64, index: u64) -> Sound {
    sound(Made { profile, age }, &mut Random::new(seed, index))
}

fn sound(Made { profile, age }: Made, random: &mut Random) -> Sound {
    loop {
        let (count, plenty) = count_and_plenty(random);
        let mut transfers = transfer::transfers(profile, age, count, plenty, random);
        if random.percent(if count == MOST_PAYMENTS { 60 } else { 10 }) {
            transfer::enlarge(&mut transfers, random);
        }
        let sound = arranged(&in_any_order(&transfers, random), plenty, random);
        if sound.message.len() <= LONGEST_MESSAGE {
            return sound;
        }
    }
}

fn in_any_order(transfers: &[Transfer], random: &mut Random) -> Vec<Transfer> {
    let order = arrange::any_order(transfers, random);
    order.into_iter().map(|ordinal| transfers[ordinal].clone()).collect()
}

fn arranged(transfers: &[Transfer], plenty: Plenty, random: &mut Random) -> Sound {
    let draft = arrange::message(transfers, plenty, random);
    let mut message = Layout::any(random).write(&draft, random);
    if message.len() > LONGEST_MESSAGE {
        message = Layout::tight(random).write(&draft, random);
    }
    Sound { message, transfers: transfers.to_vec(), draft }
}

/// The more payments, the less each may say.
fn count_and_plenty(random: &mut Random) -> (usize, Plenty) {
    let (low, high, chance, longest) = match random.below(21) {
        0..=12 => (1, 5, 50, 35),
        13..=16 => (6, 20, 40, 20),
        17..=18 => (21, MOST_PAYMENTS, 20, 10),
        19 => (60, MOST_PAYMENTS, 10, 6),
        _ => (MOST_PAYMENTS, MOST_PAYMENTS, 10, 6),
    };
    (random.between(low, high), Plenty { chance, longest })
}

pub fn list(version: u16, count: u16, ordinals: &[u16]) -> Vec<u8> {
    let numbers = [version, count].into_iter().chain(ordinals.iter().copied());
    b"RGL".iter().copied().chain(numbers.flat_map(u16::to_be_bytes)).collect()
}

fn sound_list(ordinals: &[u16]) -> Vec<u8> {
    list(1, ordinals.len() as u16, ordinals)
}

pub fn pair(seed: u64, index: u64) -> Pair {
    let random = &mut Random::new(!seed, index);
    let (profile, age) = (any_profile(random), any_age(random));
    let made = Made { profile, age: if random.percent(25) { age } else { Age::New } };
    let pair = match random.below(24) {
        0..=3 => regrouped(made, random).0,
        4..=8 => changed_field(made, random),
        9..=10 => wrong_ordinal(made, random),
        11 => repeated_ordinal(made, random),
        12 => two_faults(made, random),
        13 => exchanged_ordinals(made, random),
        14 => malformed_list(made, random),
        15 => other_count(made, random),
        16 => a_payment_less(made, random),
        17 => shared_ids(made, random),
        18 => other_profile(made, random),
        19..=21 => damaged_message(made, random),
        _ => return withdrawn(Made { profile, age }, random),
    };
    // A message that was made as new is the same as an archived one.
    Pair { age, ..pair }
}

fn refused(number: u32, k: usize, field: u32) -> Option<Regroup> {
    Some(Regroup::Refused { number, k: k as u32, field })
}

/// Of two answers, each to a fault of its own, the one that comes first.
fn earlier(one: Regroup, other: Regroup) -> Regroup {
    let place = |answer: &Regroup| match *answer {
        Regroup::Message { whose, .. } => (0, 0, whose),
        Regroup::Refused { number: number @ 15..=17, .. } => (1, 0, number),
        Regroup::Refused { number, k, field } => (2, k, 100 * number + field),
        Regroup::Accepted => (3, 0, 0),
    };
    if place(&other) < place(&one) {
        other
    } else {
        one
    }
}

/// The transfers with a BIC, the same for all, where they had none; as a new message may have them.
fn provided(transfers: &[Transfer], random: &mut Random) -> Vec<Transfer> {
    let bank = transfer::bic(random);
    let mut provided = transfers.to_vec();
    for transfer in &mut provided {
        transfer.side.agent.get_or_insert_with(|| bank.clone());
    }
    provided
}

/// The first message, and the second, which is new, made of transfers that stand for its own.
fn pair_of(
    made: Made,
    first: Sound,
    seconds: &[Transfer],
    random: &mut Random,
) -> (Pair, Vec<u16>) {
    let provided = provided(seconds, random);
    let order = arrange::any_order(&provided, random);
    let ordered: Vec<Transfer> = order.iter().map(|o| provided[*o].clone()).collect();
    let plenty = Plenty { chance: 30, longest: 10 };
    let second = arranged(&ordered, plenty, random).message;
    let ordinals: Vec<u16> = order.iter().map(|ordinal| *ordinal as u16).collect();
    let not_provided = order.iter().position(|ordinal| seconds[*ordinal].side.agent.is_none());
    let answer = not_provided.map_or(Some(Regroup::Accepted), |k| refused(20, k, 7));
    let expected = answer.filter(|_| second.len() <= LONGEST_MESSAGE);
    let list = sound_list(&ordinals);
    let Made { profile, age } = made;
    (Pair { profile, age, first: first.message, second, list, expected }, ordinals)
}

fn regrouped(made: Made, random: &mut Random) -> (Pair, Vec<u16>) {
    let first = sound(made, random);
    let seconds = first.transfers.clone();
    pair_of(made, first, &seconds, random)
}

impl Pair {
    /// The same messages with another list, for which this is the answer if no other comes first.
    fn answering(mut self, list: Vec<u8>, answer: Option<Regroup>) -> Pair {
        self.list = list;
        self.expected = self.expected.zip(answer).map(|(one, other)| earlier(one, other));
        self
    }
}

fn changed_field(made: Made, random: &mut Random) -> Pair {
    let first = sound(made, random);
    let (ordinal, field) = (random.below(first.transfers.len()), random.between(1, 17) as u32);
    let mut seconds = first.transfers.clone();
    seconds[ordinal] = seconds[ordinal].changed(field, random);
    let (pair, ordinals) = pair_of(made, first, &seconds, random);
    let k = ordinals.iter().position(|named| usize::from(*named) == ordinal).unwrap_or(0);
    pair.answering(sound_list(&ordinals), refused(20, k, field))
}

fn wrong_ordinal(made: Made, random: &mut Random) -> Pair {
    let (pair, mut ordinals) = regrouped(made, random);
    let k = random.below(ordinals.len());
    let count = ordinals.len() as u16;
    ordinals[k] = *random.pick(&[count, count + 1, 255, 256 + ordinals[k], 0x8000, u16::MAX]);
    pair.answering(sound_list(&ordinals), refused(18, k, 0))
}

fn repeated_ordinal(made: Made, random: &mut Random) -> Pair {
    let (pair, mut ordinals) = regrouped(made, random);
    let k = random.below(ordinals.len());
    if k == 0 {
        return pair;
    }
    ordinals[k] = ordinals[random.below(k)];
    pair.answering(sound_list(&ordinals), refused(19, k, 0))
}

/// A changed field at one place and an ordinal too large at another.
fn two_faults(made: Made, random: &mut Random) -> Pair {
    let pair = changed_field(made, random);
    let count = (pair.list.len() - 7) / 2;
    let k = random.below(count);
    let mut list = pair.list.clone();
    list[7 + 2 * k..9 + 2 * k].copy_from_slice(&(count as u16).to_be_bytes());
    pair.answering(list, refused(18, k, 0))
}

fn exchanged_ordinals(made: Made, random: &mut Random) -> Pair {
    let (pair, mut ordinals) = regrouped(made, random);
    let (one, other) = (random.below(ordinals.len()), random.below(ordinals.len()));
    ordinals.swap(one, other);
    let expected = if one == other { pair.expected } else { None };
    pair.answering(sound_list(&ordinals), expected)
}

fn malformed_list(made: Made, random: &mut Random) -> Pair {
    let (pair, ordinals) = regrouped(made, random);
    let count = ordinals.len() as u16;
    let mut wrong = sound_list(&ordinals);
    match random.below(7) {
        0 => wrong[random.below(3)] ^= 0x20,
        1 => wrong = list(*random.pick(&[0, 2, 256]), count, &ordinals),
        2 => wrong = list(1, count + 1, &ordinals),
        3 => wrong = list(1, count.wrapping_sub(1), &ordinals),
        4 => wrong.truncate(random.below(wrong.len())),
        5 => wrong.push(random.byte()),
        _ => wrong.extend([0, 0]),
    }
    pair.answering(wrong, refused(16, 0, 0))
}

fn other_count(made: Made, random: &mut Random) -> Pair {
    let (pair, mut ordinals) = regrouped(made, random);
    match random.below(3) {
        0 => ordinals.push(ordinals.len() as u16),
        1 => ordinals.clear(),
        _ => drop(ordinals.pop()),
    }
    pair.answering(sound_list(&ordinals), refused(17, 0, 0))
}

fn a_payment_less(made: Made, random: &mut Random) -> Pair {
    let first = sound(made, random);
    let mut seconds = first.transfers.clone();
    if seconds.len() == 1 {
        seconds.push(seconds[0].changed(10, random));
    } else {
        seconds.remove(random.below(seconds.len()));
    }
    let (pair, ordinals) = pair_of(made, first, &seconds, random);
    pair.answering(sound_list(&ordinals), refused(15, 0, 0))
}

/// All payments bear one end-to-end id, and two are exchanged by the list.
fn shared_ids(made: Made, random: &mut Random) -> Pair {
    let mut transfers = sound(made, random).transfers;
    for transfer in &mut transfers {
        transfer.end_to_end = "SAME".to_string();
    }
    let first = arranged(&transfers, Plenty { chance: 30, longest: 10 }, random);
    let (pair, mut ordinals) = pair_of(made, first, &transfers, random);
    let (one, other) = (random.below(ordinals.len()), random.below(ordinals.len()));
    ordinals.swap(one, other);
    pair.answering(sound_list(&ordinals), None)
}

/// One or both of the messages made for the other profile.
fn other_profile(made: Made, random: &mut Random) -> Pair {
    let (mut pair, _) = regrouped(made, random);
    let made = Made { profile: made.profile.other(), ..made };
    let mut other = || sound(made, random).message;
    let [first, second] = [other(), other()];
    match random.below(3) {
        0 => pair.first = first,
        1 => pair.second = second,
        _ => (pair.first, pair.second) = (first, second),
    }
    pair.expected = None;
    pair
}

fn damaged_message(made: Made, random: &mut Random) -> Pair {
    let (mut pair, _) = regrouped(made, random);
    let damaged = any_message(made, random);
    match random.below(3) {
        0 => pair.first = damaged,
        1 => pair.second = damaged,
        _ => (pair.first, pair.second) = (damaged, any_message(made, random)),
    }
    pair.expected = None;
    pair
}

/// Row 32 in the first message, in the second or in both: a new message is refused for it, and so is
/// the second always; a payment of an archived first has its like in no second.
fn withdrawn(made: Made, random: &mut Random) -> Pair {
    let archived = Made { age: Age::Archived, ..made };
    let first = loop {
        let first = sound(archived, random);
        if row_32(&first.message).is_some() {
            break first;
        }
    };
    let transfers = first.transfers.clone();
    let (mut pair, _) = pair_of(made, first, &transfers, random);
    let plenty = Plenty { chance: 30, longest: 10 };
    match random.below(5) {
        0 => pair.second = arranged(&transfers, plenty, random).message,
        1 => {
            let provided = provided(&transfers, random);
            pair.first = arranged(&provided, plenty, random).message;
            pair.second = arranged(&transfers, plenty, random).message;
        }
        _ => {}
    }
    if [&pair.first, &pair.second].iter().any(|message| message.len() > LONGEST_MESSAGE) {
        pair.expected = None;
    }
    let refused = |whose, message: &[u8]| {
        let offset = row_32(message)?;
        Some(Regroup::Message { whose, refusal: Refusal::new(28, 32, offset) })
    };
    let of_first = refused(1, &pair.first).filter(|_| made.age == Age::New);
    let of_either = of_first.or_else(|| refused(2, &pair.second));
    pair.expected = pair.expected.map(|expected| of_either.unwrap_or(expected));
    pair
}

/// Where row 32 stands first in a sound message.
fn row_32(message: &[u8]) -> Option<usize> {
    message.windows(6).position(|piece| piece == b"<Othr>")
}
