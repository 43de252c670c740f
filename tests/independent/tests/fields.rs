//! The cases of the crate `run_fields`: that they leave nothing out, and that its files hold them.

mod common;
use common::asked::{self, Asked};
use common::pairs::{self, Pair};
use common::*;
use independent::{differing, field, regroup, verdict, Age, Profile, Regroup, Verdict};
use independent::{LEAST_NUMBERS, NUMBERS_EACH};
use std::collections::BTreeSet;

/// The fields that a payment need not have.
const OPTIONAL: [usize; 9] = [1, 2, 3, 8, 9, 12, 15, 16, 17];

/// A part of a message, with the elements that it stands in.
struct Found<'m> {
    text: &'m str,
    before: &'m str,
}

impl<'m> Found<'m> {
    fn new(message: &'m str, (start, length): (usize, usize)) -> Self {
        Found { text: &message[start..start + length], before: &message[..start] }
    }

    /// The name of the element whose text it is.
    fn name(&self) -> &'m str {
        let tag = self.before.rsplit('<').next().unwrap();
        tag.trim_end_matches('>')
    }

    fn has_issuer(&self) -> bool {
        self.before.rsplit("<RmtInf>").next().unwrap().contains("<Issr>")
    }
}

/// A field of a payment that an accepted message has.
struct Of<'m> {
    number: usize,
    found: Found<'m>,
    block: u32,
    inherited: bool,
}

fn fields_of(asked: &Asked) -> Vec<Of<'_>> {
    let Asked { profile, age, message, payment, fields, .. } = asked;
    let mut table = [0; LEAST_NUMBERS];
    let answer = verdict(*profile, *age, message.as_bytes(), &mut table);
    let Verdict::Accepted { payments, .. } = answer else { return Vec::new() };
    if *payment >= payments as usize {
        return Vec::new();
    }
    let row = &table[NUMBERS_EACH * payment..];
    let (block, offset) = (row[0], row[15] as usize);
    let known = fields.clone().filter(|number| (1..=17).contains(number));
    known
        .map(|number| {
            let part = field(*profile, *age, message.as_bytes(), *payment, number);
            let found = Found::new(message, part);
            Of { number, found, block, inherited: part.0 < offset }
        })
        .collect()
}

/// The numbers of the fields that are as is said here.
fn numbers(all: &[Asked], said: impl Fn(&Of) -> bool) -> Vec<usize> {
    let fields = all.iter().flat_map(fields_of).filter(|of| said(of));
    fields.map(|of| of.number).collect::<BTreeSet<usize>>().into_iter().collect()
}

fn every_field() -> Vec<usize> {
    (1..=17).collect()
}

/// What is asked of messages that are read so.
fn asked_as(age: Age) -> Vec<Asked> {
    asked::all().into_iter().filter(|asked| asked.age == age).collect()
}

fn pairs_as(age: Age) -> Vec<Pair> {
    pairs::all().into_iter().filter(|pair| pair.age == age).collect()
}

#[test]
fn every_field_is_asked_for_where_it_is_and_where_it_is_not() {
    for age in Age::BOTH {
        every_field_is_asked_for(&asked_as(age));
    }
    let absent = |of: &Of| of.found.text.is_empty() && of.block > 0;
    assert_eq!(numbers(&asked_as(Age::New), absent), OPTIONAL);
}

fn every_field_is_asked_for(all: &[Asked]) {
    let there = |of: &Of| !of.found.text.is_empty();
    assert_eq!(numbers(all, there), every_field());
    assert_eq!(numbers(all, |of| !there(of)), OPTIONAL);
    assert_eq!(numbers(all, |of| there(of) && of.block > 0), every_field());
    assert_eq!(numbers(all, |of| there(of) && of.inherited), [1, 2, 3, 4, 5, 6, 7, 8]);
    let own = [2, 3, 8, 9, 10, 11, 12, 13, 14, 15, 16, 17];
    assert_eq!(numbers(all, |of| there(of) && !of.inherited), own);
}

#[test]
fn agents_remittances_and_amounts_are_written_in_every_way() {
    let all = asked::all();
    let fields: Vec<Of> = all.iter().flat_map(fields_of).collect();
    let of = |number| fields.iter().filter(move |of| of.number == number).map(|of| &of.found);
    let named = |number, name| of(number).any(|found| found.name() == name);
    assert!(named(7, "BICFI") && named(17, "Ustrd"));
    for issuer in [true, false] {
        assert!(of(17).any(|found| found.name() == "Ref" && found.has_issuer() == issuer));
    }
    for amount in ["12.5", "22.60", "13", "0012.50", "999999999.99", "000000000000012.50"] {
        assert!(of(11).any(|found| found.text == amount), "{amount}");
    }
}

#[test]
fn an_agent_that_was_not_provided_is_asked_for_under_both_profiles_as_archived_alone() {
    for profile in Profile::BOTH {
        let names = |age| {
            let all = asked_as(age);
            let under = all.iter().filter(|asked| asked.profile == profile);
            let agents = under.flat_map(fields_of).filter(|of| of.number == 7);
            agents.map(|of| of.found.name().to_string()).collect::<BTreeSet<String>>()
        };
        assert_eq!(names(Age::New), BTreeSet::from(["BICFI".to_string()]));
        let both = ["BICFI", "Id"].map(str::to_string);
        assert_eq!(names(Age::Archived), BTreeSet::from(both));
    }
}

#[test]
fn unknown_payments_and_fields_are_asked_for() {
    let all = asked_as(Age::New);
    let asks = |payment: usize, number: usize| {
        all.iter().any(|asked| asked.payment == payment && asked.fields.contains(&number))
    };
    for number in [0, 18, (1 << 32) + 10, usize::MAX] {
        assert!(asks(0, number), "{number}");
    }
    for payment in [1, 63, 1 << 32, usize::MAX] {
        assert!(asks(payment, 10), "{payment}");
    }
    let of_first = BTreeSet::from([2, 3, 4, 6, 7, 8, 9, 10, 12, 13, 28]);
    assert_eq!(refusals(&all, Profile::FIRST), of_first);
    assert_eq!(refusals(&all, Profile::INSTANT), BTreeSet::from([3, 4, 6, 8, 28]));
    assert!(all.iter().any(|asked| asked.message.is_empty()));
    let archived = asked_as(Age::Archived);
    assert_eq!(refusals(&archived, Profile::FIRST), BTreeSet::from([3, 4, 6, 7, 8, 12]));
    assert_eq!(refusals(&archived, Profile::INSTANT), BTreeSet::from([4, 8]));
}

/// The refusals of the messages that are asked under this profile.
fn refusals(all: &[Asked], profile: Profile) -> BTreeSet<u32> {
    let under = all.iter().filter(|asked| asked.profile == profile);
    let refusals = under.filter_map(|asked| match judge_as(profile, asked.age, &asked.message) {
        Verdict::Refused { number, .. } => Some(number),
        Verdict::Accepted { .. } => None,
    });
    refusals.collect()
}

#[test]
fn under_the_instant_profile_every_field_is_asked_for_and_field_4_in_both_ways() {
    let (instant, first): (Vec<Asked>, Vec<Asked>) =
        asked_as(Age::New).into_iter().partition(|asked| asked.profile.instant);
    assert_eq!(numbers(&instant, |of| !of.found.text.is_empty()), every_field());
    let names = |all: &[Asked]| {
        let dates = all.iter().flat_map(fields_of).filter(|of| of.number == 4);
        dates.map(|of| of.found.name().to_string()).collect::<BTreeSet<String>>()
    };
    let both = BTreeSet::from(["Dt".to_string(), "DtTm".to_string()]);
    assert_eq!(names(&instant), both);
    assert_eq!(names(&first), BTreeSet::from(["Dt".to_string()]));
}

#[test]
fn a_message_of_the_other_profile_is_asked_for_each_way_and_has_no_field() {
    for (profile, age) in Profile::BOTH.into_iter().flat_map(|p| Age::BOTH.map(|age| (p, age))) {
        let accepted = accepted(1, 2, 3510);
        let other = |asked: &&Asked| {
            asked.profile == profile && judge_as(profile.other(), age, &asked.message) == accepted
        };
        let all = asked_as(age);
        let found: Vec<&Asked> = all.iter().filter(other).collect();
        assert!(!found.is_empty(), "{profile:?}");
        assert!(found.iter().flat_map(|asked| asked.texts()).all(|(_, text)| text.is_empty()));
    }
}

/// The answers of a pair, with what is handed back.
fn answers(pair: &Pair) -> [(Regroup, Found<'_>); 2] {
    pair.ways().map(|(first, second)| {
        let (one, two) = (first.as_bytes(), second.as_bytes());
        let found = Found::new(second, differing(pair.profile, pair.age, one, two, &pair.list));
        (regroup(pair.profile, pair.age, one, two, &pair.list), found)
    })
}

/// The fields that differ in both ways, with the two parts.
fn differences(pairs: &[Pair]) -> Vec<(usize, [Found<'_>; 2])> {
    let differing = |pair| match answers(pair) {
        [(Regroup::Refused { number: 20, field, .. }, one), (Regroup::Refused { field: same, .. }, other)]
            if field == same =>
        {
            Some((field as usize, [one, other]))
        }
        _ => None,
    };
    pairs.iter().filter_map(differing).collect()
}

#[test]
fn every_field_differs_where_both_have_it_and_where_one_has_it() {
    let pairs = pairs::all();
    let differences = differences(&pairs);
    let fields = |absent: usize| -> Vec<usize> {
        let with = differences.iter().filter(|(_, parts)| {
            parts.iter().filter(|found| found.text.is_empty()).count() == absent
        });
        with.map(|(field, _)| *field).collect::<BTreeSet<usize>>().into_iter().collect()
    };
    assert_eq!(fields(0), every_field());
    assert_eq!(fields(1), OPTIONAL);
    assert!(fields(2).is_empty());
}

#[test]
fn under_the_instant_profile_dates_differ_in_zone_in_time_and_in_kind() {
    let pairs = pairs::all().into_iter().filter(|pair| pair.profile.instant);
    let pairs: Vec<Pair> = pairs.collect();
    let differences = differences(&pairs);
    let dates = differences.iter().filter(|(field, _)| *field == 4);
    let seen: BTreeSet<([&str; 2], bool)> = dates
        .map(|(_, [one, other])| {
            let time = |found: &Found| found.text.get(..19).map(str::to_string);
            ([one.name(), other.name()], time(one) == time(other))
        })
        .collect();
    let (day, moment) = ("Dt", "DtTm");
    for wanted in [
        ([moment, moment], true),
        ([moment, moment], false),
        ([day, day], true),
        ([moment, day], false),
    ] {
        assert!(seen.contains(&wanted), "{wanted:?} in {seen:?}");
    }
}

#[test]
fn remittances_differ_in_kind_in_issuer_and_in_text() {
    let pairs = pairs::all();
    let differences = differences(&pairs);
    let remittances = differences.iter().filter(|(field, _)| *field == 17);
    let seen: BTreeSet<([&str; 2], [bool; 2], bool)> = remittances
        .map(|(_, parts)| {
            let [one, other] = parts;
            let issuers = [one.has_issuer(), other.has_issuer()];
            ([one.name(), other.name()], issuers, one.text == other.text)
        })
        .collect();
    for wanted in [
        (["Ref", "Ustrd"], [false, false], true),
        (["Ref", "Ref"], [true, true], true),
        (["Ref", "Ref"], [false, true], true),
        (["Ref", "Ref"], [false, false], false),
        (["Ustrd", "Ustrd"], [false, false], false),
    ] {
        assert!(seen.contains(&wanted), "{wanted:?}");
    }
}

#[test]
fn every_answer_is_reached() {
    let reached = |age| {
        let pairs = pairs_as(age);
        let answers = pairs.iter().flat_map(answers).map(|(answer, _)| match answer {
            Regroup::Accepted => (0, 0),
            Regroup::Message { whose, refusal } if refusal.number == 28 => (whose, 28),
            Regroup::Message { whose, .. } => (whose, 0),
            Regroup::Refused { number, k, .. } => (number, k),
        });
        answers.collect::<BTreeSet<(u32, u32)>>()
    };
    let at_0 = [0, 1, 2, 15, 16, 17, 18, 20].map(|number| (number, 0));
    let at_1 = [18, 19, 20].map(|number| (number, 1));
    let withdrawn = [1, 2].map(|whose| (whose, 28));
    let wanted = at_0.into_iter().chain(at_1).chain(withdrawn).collect();
    assert_eq!(reached(Age::New), wanted);
    let at_0 = [0, 17, 18, 20].map(|number| (number, 0));
    let wanted = at_0.into_iter().chain(at_1).chain([(2, 28)]).collect();
    assert_eq!(reached(Age::Archived), wanted);
}

#[test]
fn an_agent_not_provided_differs_from_every_bic_under_both_profiles() {
    for profile in Profile::BOTH {
        let pairs = pairs_as(Age::Archived).into_iter().filter(|pair| pair.profile == profile);
        let (mut sevens, mut lower) = (0, 0);
        for pair in pairs.filter(|pair| pair.first.contains("<Othr>")) {
            let [(there, found), (back, none)] = answers(&pair);
            assert!(matches!(back, Regroup::Message { whose: 2, .. }), "{}", pair.name);
            assert!(none.text.is_empty());
            match there {
                Regroup::Refused { number: 20, field: 7, .. } => {
                    assert_eq!(found.name(), "BICFI");
                    sevens += 1;
                }
                Regroup::Refused { number: 20, .. } => lower += 1,
                _ => {}
            }
        }
        assert!(sevens > 1 && lower > 0, "{profile:?}");
    }
}

#[test]
fn the_files_of_the_crate_hold_the_cases_and_the_lines() {
    let folder = concat!(env!("CARGO_MANIFEST_DIR"), "/../../crates/run_fields");
    let ([cases, archived], lines) = written::run_fields();
    let file = |name| std::fs::read(format!("{folder}/{name}")).unwrap();
    assert!(file("data/cases") == cases, "examples/fields.rs writes other cases");
    assert!(file("data/archived") == archived, "examples/fields.rs writes other archived cases");
    assert!(file("stdout") == lines.as_bytes(), "examples/fields.rs writes other lines");
}
