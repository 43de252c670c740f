//! The regrouping list: refusals 15 to 20 and the differing part.

use crate::fields::lowest_difference;
use crate::{read, Accepted, Age, Profile, Refusal};
use std::fmt;

#[derive(Clone, Copy, Debug, PartialEq, Eq)]
pub enum Regroup {
    Accepted,
    /// The refusal of message 1 or 2.
    Message {
        whose: u32,
        refusal: Refusal,
    },
    Refused {
        number: u32,
        k: u32,
        field: u32,
    },
}

impl fmt::Display for Regroup {
    fn fmt(&self, out: &mut fmt::Formatter) -> fmt::Result {
        match self {
            Regroup::Accepted => write!(out, "ACCEPTED"),
            Regroup::Message { whose: 1, refusal } => write!(out, "FIRST {refusal}"),
            Regroup::Message { refusal, .. } => write!(out, "SECOND {refusal}"),
            Regroup::Refused { number, k, field } => {
                write!(out, "REFUSED {number} k={k} field={field}")
            }
        }
    }
}

/// Whether the second message regroups the first by that list; one profile for both. The age is
/// the first message's; the second is read as new.
pub fn regroup(profile: Profile, age: Age, first: &[u8], second: &[u8], list: &[u8]) -> Regroup {
    let both = read_both(profile, age, first, second);
    match both.and_then(|(first, second)| judge(&first, &second, list)) {
        Ok(()) => Regroup::Accepted,
        Err(refused) => refused,
    }
}

/// For refusal 20, where the differing field's text stands in the second
/// message; otherwise the empty part at 0.
pub fn differing(
    profile: Profile,
    age: Age,
    first: &[u8],
    second: &[u8],
    list: &[u8],
) -> (usize, usize) {
    match regroup(profile, age, first, second, list) {
        Regroup::Refused { number: 20, k, field } => {
            crate::field(profile, Age::New, second, k as usize, field as usize)
        }
        _ => (0, 0),
    }
}

fn read_both<'f, 's>(
    profile: Profile,
    age: Age,
    first: &'f [u8],
    second: &'s [u8],
) -> Result<(Accepted<'f>, Accepted<'s>), Regroup> {
    let of = |whose| move |refusal| Regroup::Message { whose, refusal };
    let first = read(profile, age, first).map_err(of(1))?;
    let second = read(profile, Age::New, second).map_err(of(2))?;
    Ok((first, second))
}

fn judge(first: &Accepted, second: &Accepted, list: &[u8]) -> Result<(), Regroup> {
    let refuse = |number| Regroup::Refused { number, k: 0, field: 0 };
    let payments = second.order.payments().len();
    if first.order.payments().len() != payments {
        return Err(refuse(15));
    }
    let ordinals = ordinals(list).ok_or(refuse(16))?;
    if ordinals.len() != payments {
        return Err(refuse(17));
    }
    (0..payments).try_for_each(|k| pair(first, second, &ordinals, k))
}

/// 18, 19 and 20 for the payment that stands k-th in the second message.
fn pair(first: &Accepted, second: &Accepted, ordinals: &[usize], k: usize) -> Result<(), Regroup> {
    let refuse = |number, field| Err(Regroup::Refused { number, k: k as u32, field });
    let (firsts, seconds) = (first.order.payments(), second.order.payments());
    let Some(named) = firsts.get(ordinals[k]) else { return refuse(18, 0) };
    if ordinals[..k].contains(&ordinals[k]) {
        return refuse(19, 0);
    }
    match lowest_difference((&first.order, named), (&second.order, &seconds[k])) {
        Some(field) => refuse(20, field),
        None => Ok(()),
    }
}

/// The ordinals of a list file: `RGL`, version 1, count, that many ordinals.
fn ordinals(list: &[u8]) -> Option<Vec<usize>> {
    let pairs = list.strip_prefix(b"RGL")?.chunks_exact(2);
    if !pairs.remainder().is_empty() {
        return None;
    }
    let mut numbers = pairs.map(|pair| usize::from(u16::from_be_bytes([pair[0], pair[1]])));
    let (version, count) = (numbers.next()?, numbers.next()?);
    let ordinals: Vec<usize> = numbers.collect();
    (version == 1 && ordinals.len() == count).then_some(ordinals)
}

#[cfg(test)]
mod tests {
    use super::*;

    #[test]
    fn lists() {
        assert_eq!(ordinals(b"RGL\0\x01\0\0"), Some(vec![]));
        assert_eq!(ordinals(b"RGL\0\x01\0\x02\0\x01\x01\0"), Some(vec![1, 256]));
        for wrong in [
            &b""[..],
            b"RGL",
            b"RGL\0\x01",
            b"RGL\0\x01\0",
            b"RGM\0\x01\0\0",
            b"RGL\0\x02\0\0",
            b"RGL\0\x01\0\0\0",
            b"RGL\0\x01\0\0\0\0",
            b"RGL\0\x01\0\x02\0\0",
            b"RGL\0\x01\0\x01\0",
        ] {
            assert_eq!(ordinals(wrong), None, "{wrong:?}");
        }
    }
}
