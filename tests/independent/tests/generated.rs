//! Generated messages and pairs: sound ones are accepted as made, damaged ones
//! reach every refusal, totals reach the largest, and no refusal writes.

mod common;
use common::edits::recounted;
use common::{judge_as, list};
use independent::generate::transfer::{Remittance, Transfer};
use independent::generate::{case, last_pairs, pair, sound_message};
use independent::rows::{rows_of, tag};
use independent::values::cents;
use independent::{differing, field, form, regroup, verdict, Age, Profile, Regroup, Verdict};
use independent::{LEAST_NUMBERS, NUMBERS_EACH};
use std::collections::{BTreeMap, BTreeSet};

const SEED: u64 = 2026;

/// How a message is read: its profile and its age.
type Read = (Profile, Age);

fn text((profile, age): Read, message: &[u8], payment: usize, number: usize) -> &str {
    let (start, length) = field(profile, age, message, payment, number);
    std::str::from_utf8(&message[start..start + length]).unwrap()
}

fn remittance_text(transfer: &Transfer) -> &str {
    match &transfer.remittance {
        None => "",
        Some(Remittance::Plain(text)) => text,
        Some(Remittance::Reference { reference, .. }) => reference,
    }
}

/// The texts a transfer's fields must have; none where several are allowed.
fn expected_texts(transfer: &Transfer) -> [Option<String>; 17] {
    let absent = |text: &Option<String>| Some(text.clone().unwrap_or_default());
    let side = &transfer.side;
    let agent = side.agent.clone().unwrap_or("NOTPROVIDED".to_string());
    [
        (!side.batch).then(|| "false".to_string()),
        transfer.kind.high.then(|| "HIGH".to_string()),
        absent(&transfer.kind.category),
        Some(side.date.text().to_string()),
        Some(side.debtor.clone()),
        Some(side.account.clone()),
        Some(agent),
        absent(&transfer.ultimate_debtor),
        absent(&transfer.instruction),
        Some(transfer.end_to_end.clone()),
        None,
        absent(&transfer.creditor_agent),
        Some(transfer.creditor.clone()),
        Some(transfer.creditor_account.clone()),
        absent(&transfer.ultimate_creditor),
        absent(&transfer.purpose),
        Some(remittance_text(transfer).to_string()),
    ]
}

#[test]
fn sound_messages_are_accepted_with_the_fields_they_were_made_of() {
    for ((profile, age), index) in in_all_four(100) {
        let sound = sound_message(profile, age, SEED, index);
        for (payment, transfer) in sound.transfers.iter().enumerate().step_by(5) {
            let fields = expected_texts(transfer);
            for (number, wanted) in (1..).zip(&fields) {
                let found = text((profile, age), &sound.message, payment, number);
                match wanted {
                    Some(wanted) => assert_eq!(found, wanted, "field {number}"),
                    None => assert!(number == 11 || ["", "true", "NORM"].contains(&found)),
                }
            }
        }
    }
}

/// Both profiles with both ages.
fn all_four() -> impl Iterator<Item = Read> {
    Profile::BOTH.into_iter().flat_map(|profile| Age::BOTH.map(|age| (profile, age)))
}

/// Each of the four with so many indices.
fn in_all_four(many: u64) -> impl Iterator<Item = (Read, u64)> {
    all_four().flat_map(move |read| (0..many).map(move |index| (read, index)))
}

#[test]
fn sound_messages_fill_the_table() {
    for ((profile, age), index) in in_all_four(400) {
        let sound = sound_message(profile, age, SEED + 1, index);
        let mut table = vec![0xABCD; LEAST_NUMBERS + 16];
        let answer = verdict(profile, age, &sound.message, &mut table);
        let Verdict::Accepted { blocks, payments, cents } = answer else { panic!("{answer:?}") };
        assert_eq!(payments as usize, sound.transfers.len());
        assert_eq!(cents, sound.transfers.iter().map(|transfer| transfer.cents).sum::<u64>());
        let part = |at: usize| {
            let (start, length) = (table[at] as usize, table[at + 1] as usize);
            std::str::from_utf8(&sound.message[start..start + length]).unwrap()
        };
        for (k, transfer) in sound.transfers.iter().enumerate() {
            let at = NUMBERS_EACH * k;
            assert!(table[at] < blocks);
            assert!(k == 0 || table[at].wrapping_sub(table[at - NUMBERS_EACH]) <= 1);
            assert_eq!(part(at + 1), transfer.end_to_end);
            assert_eq!(part(at + 3), transfer.creditor_account);
            assert_eq!(part(at + 5), transfer.creditor);
            assert_eq!(part(at + 7), transfer.ultimate_debtor.as_deref().unwrap_or(""));
            assert_eq!(transfer.ultimate_debtor.is_none(), table[at + 7] == 0);
            assert!(part(at + 9).contains("<SvcLvl>"));
            assert_eq!(part(at + 9).contains("</LclInstrm>"), profile.instant);
            assert_eq!(part(at + 9).contains("HIGH"), transfer.kind.high);
            assert_eq!(part(at + 11), transfer.side.account);
            assert_eq!(u64::from(table[at + 13]) * 100 + u64::from(table[at + 14]), transfer.cents);
            assert!(sound.message[table[at + 15] as usize..].starts_with(b"<CdtTrfTxInf>"));
            assert_eq!(part(at + 16), transfer.creditor_agent.as_deref().unwrap_or(""));
            assert_eq!(transfer.creditor_agent.is_none(), table[at + 16] == 0);
            assert_eq!(part(at + 18), remittance_text(transfer));
            assert_eq!(transfer.remittance.is_none(), table[at + 18] == 0);
        }
        assert!(table[NUMBERS_EACH * payments as usize..].iter().all(|number| *number == 0xABCD));
    }
}

#[test]
fn sound_messages_span_the_subset() {
    for (profile, age) in all_four() {
        let sounds: Vec<_> =
            (0..1000).map(|index| sound_message(profile, age, SEED + 2, index)).collect();
        let has = |piece: &str| {
            sounds.iter().any(|sound| String::from_utf8_lossy(&sound.message).contains(piece))
        };
        for row in rows_of(profile) {
            let allowed = row != 32 || age == Age::Archived;
            assert_eq!(has(&format!("</{}>", tag(row))), allowed, "row {row}");
        }
        assert!(has("<?xml") && has("\r\n") && has("\t"));
        for zone in ["Z</DtTm>", "+14:00<", "-14:00<", "+00:00<", "-00:00<"] {
            assert_eq!(has(zone), profile.instant, "{zone}");
        }
        assert!(sounds.iter().any(|sound| sound.message.starts_with(b"<Doc")));
        let mut blocks = BTreeSet::new();
        let mut payments = BTreeSet::new();
        for sound in &sounds {
            let answer = judge_as(profile, age, &sound.message);
            let Verdict::Accepted { blocks: b, payments: p, .. } = answer else {
                panic!("{answer:?}")
            };
            blocks.insert(b);
            payments.insert(p);
        }
        assert_eq!(blocks, (1..=16).collect());
        assert!(payments.len() > 50 && payments.contains(&1) && payments.contains(&64));
    }
}

#[test]
fn a_sound_message_is_refused_under_the_other_profile() {
    for ((profile, age), index) in in_all_four(300) {
        let message = sound_message(profile, age, SEED + 5, index).message;
        let answer = judge_as(profile.other(), age, &message);
        let Verdict::Refused { number, element, offset } = answer else { panic!("{answer:?}") };
        let at = &message[offset..];
        match (profile.instant, element) {
            (true, 16) => assert!(number == 3 && at.starts_with(b"<LclInstrm>")),
            (true, _) => assert!(number == 3 && element == 22 && at.starts_with(b"<DtTm>")),
            (false, _) => {
                assert_eq!((number, element), (4, 56));
                assert!(at.starts_with(b"<CtgyPurp>") || at.starts_with(b"</PmtTpInf>"));
            }
        }
    }
}

#[test]
fn a_sound_archived_message_is_refused_as_new_exactly_where_it_holds_row_32() {
    let mut held = 0;
    for ((profile, made), index) in in_all_four(300) {
        let message = sound_message(profile, made, SEED + 6, index).message;
        let archived = judge_as(profile, Age::Archived, &message);
        assert!(matches!(archived, Verdict::Accepted { .. }));
        let wanted = match message.windows(6).position(|piece| piece == b"<Othr>") {
            Some(offset) => Verdict::Refused { number: 28, element: 32, offset },
            None => archived,
        };
        assert_eq!(judge_as(profile, Age::New, &message), wanted);
        held += u32::from(wanted != archived);
        assert!(wanted == archived || made == Age::Archived);
    }
    assert!((200..400).contains(&held), "{held}");
}

/// Under each profile, as new and as archived.
#[test]
fn accepted_messages_have_every_agent_and_remittance() {
    let mut read: BTreeMap<(u64, Age), BTreeMap<String, u32>> = BTreeMap::new();
    for index in 0..4000 {
        let case = case(SEED + 9, index);
        let met = read.entry((case.profile.number(), case.age)).or_default();
        let mut table = [7; LEAST_NUMBERS];
        let answer = verdict(case.profile, case.age, &case.message, &mut table);
        let Verdict::Accepted { payments, .. } = answer else { continue };
        for shown in last_pairs::of(&case.message, &table, payments as usize) {
            *met.entry(shown).or_insert(0) += 1;
        }
    }
    assert_eq!(read.len(), 4);
    for met in read.values() {
        let shown: BTreeSet<String> = met.keys().cloned().collect();
        assert_eq!(shown, last_pairs::all().into_iter().collect());
        assert!(met.values().all(|many| *many > 20), "{met:?}");
    }
}

#[test]
fn tables_around_the_least_are_lent_with_acceptable_messages() {
    let mut lent = BTreeSet::new();
    for index in 0..5000 {
        let case = case(SEED + 10, index);
        let acceptable = judge_as(case.profile, case.age, &case.message);
        let Verdict::Accepted { .. } = acceptable else { continue };
        let answer = verdict(case.profile, case.age, &case.message, &mut vec![0; case.table]);
        let short = Verdict::Refused { number: 14, element: 0, offset: 0 };
        assert_eq!(answer, if case.table < LEAST_NUMBERS { short } else { acceptable });
        lent.insert(case.table);
    }
    let mut around = LEAST_NUMBERS - 1..=LEAST_NUMBERS + 1;
    assert!(around.all(|numbers| lent.contains(&numbers)), "{lent:?}");
    let far = [lent.first().unwrap() + NUMBERS_EACH, lent.last().unwrap() - NUMBERS_EACH];
    assert!(far[0] < LEAST_NUMBERS && LEAST_NUMBERS < far[1], "{lent:?}");
}

#[test]
fn every_refusal_of_a_message_is_reached() {
    let mut read: BTreeMap<(u64, Age), BTreeMap<u32, BTreeSet<u32>>> = BTreeMap::new();
    for index in 0..16000 {
        let case = case(SEED, index);
        let reached = read.entry((case.profile.number(), case.age)).or_default();
        let mut table = vec![index as u32; case.table];
        match verdict(case.profile, case.age, &case.message, &mut table) {
            Verdict::Accepted { .. } => drop(reached.entry(0).or_default()),
            Verdict::Refused { number, element, offset } => {
                reached.entry(number).or_default().insert(element);
                assert!(table.iter().all(|kept| *kept == index as u32));
                assert!(offset <= case.message.len());
            }
        }
    }
    assert_eq!(read.len(), 4);
    for ((profile, age), reached) in &read {
        let numbers: Vec<u32> = reached.keys().copied().collect();
        let withdrawn = (*age == Age::New).then_some(28);
        assert_eq!(numbers, (0..=14).chain(withdrawn).collect::<Vec<_>>());
        assert_eq!(reached[&5], BTreeSet::from([10, 37]));
        assert_eq!(reached[&9], BTreeSet::from([16, 34, 36]));
        assert_eq!(reached[&12], BTreeSet::from([6, 14]));
        assert_eq!(reached[&13], BTreeSet::from([7, 15]));
        assert!([3, 4, 6, 7, 8].iter().all(|number| reached[number].len() >= 15));
        assert!([16, 22, 30, 32, 33].iter().all(|row| reached[&3].contains(row)));
        assert!([31, 33].iter().all(|row| reached[&4].contains(row)));
        for number in [6, 7, 8] {
            assert_eq!(reached[&number].contains(&33), *age == Age::Archived, "{number} on 33");
        }
        if *profile == Profile::INSTANT.number() {
            assert!([56, 57, 58].iter().all(|row| reached[&3].contains(row)));
            assert!([18, 23, 56, 57].iter().all(|row| reached[&4].contains(row)));
            let wrong = |number: &u32| [57, 58].iter().all(|row| reached[number].contains(row));
            assert!([6, 7, 8].iter().all(wrong));
        } else {
            assert!(reached.values().flatten().all(|row| *row <= 55));
        }
    }
}

/// The stated sum that stands so many-th in the text.
fn stated(text: &str, ordinal: usize) -> u64 {
    let sum = text.split("<CtrlSum>").nth(ordinal + 1).and_then(|rest| rest.split('<').next());
    cents(sum.unwrap().as_bytes()).unwrap()
}

#[test]
fn large_totals_and_sums_wrong_by_32_bits_are_made() {
    let (mut large, mut largest) = (BTreeMap::new(), 0);
    let mut wrong = BTreeMap::new();
    for index in 0..8000 {
        let case = case(SEED + 8, index);
        match judge_as(case.profile, case.age, &case.message) {
            Verdict::Accepted { cents, .. } if cents >= 1 << 32 => {
                *large.entry((case.profile.number(), case.age)).or_insert(0) += 1;
                largest += u32::from(cents == 64 * 99_999_999_999);
            }
            Verdict::Refused { number: 13, element, offset } => {
                let message = std::str::from_utf8(&case.message).unwrap();
                let ordinal = message[..offset].matches("<CtrlSum>").count();
                let [old, new] = [message, &recounted(message)].map(|text| stated(text, ordinal));
                assert_ne!(old, new);
                if old.abs_diff(new) % (1 << 32) == 0 {
                    *wrong.entry((element, old < new)).or_insert(0) += 1;
                }
            }
            _ => {}
        }
    }
    assert!(large.len() == 4 && large.values().all(|many| *many > 100), "{large:?}");
    assert!(wrong.len() == 4 && wrong.values().all(|many| *many > 10), "{wrong:?}");
    assert!(largest > 5, "{largest}");
}

#[test]
fn every_regrouping_refusal_is_reached_and_as_expected() {
    let mut read: BTreeMap<(u64, Age), [BTreeSet<u32>; 2]> = BTreeMap::new();
    for index in 0..8000 {
        let pair = pair(SEED, index);
        let [numbers, fields] = read.entry((pair.profile.number(), pair.age)).or_default();
        let answer = regroup(pair.profile, pair.age, &pair.first, &pair.second, &pair.list);
        if let Some(expected) = pair.expected {
            assert_eq!(answer, expected, "pair {index}");
        }
        let part = differing(pair.profile, pair.age, &pair.first, &pair.second, &pair.list);
        match answer {
            Regroup::Accepted => drop(numbers.insert(0)),
            Regroup::Message { whose, refusal } => {
                let (message, age) =
                    if whose == 1 { (&pair.first, pair.age) } else { (&pair.second, Age::New) };
                let judged = judge_as(pair.profile, age, message);
                let Verdict::Refused { number, .. } = judged else { panic!() };
                assert_eq!(number, refusal.number);
                numbers.insert(100 * whose);
                if number == 28 {
                    numbers.insert(100 * whose + 28);
                }
            }
            Regroup::Refused { number, k, field: differs } => {
                numbers.insert(number);
                fields.insert(differs);
                if number == 20 {
                    let (k, differs) = (k as usize, differs as usize);
                    assert_eq!(part, field(pair.profile, Age::New, &pair.second, k, differs));
                    continue;
                }
            }
        }
        assert_eq!(part, (0, 0));
    }
    assert_eq!(read.len(), 4);
    for ((_, age), [numbers, fields]) in &read {
        let withdrawn = (*age == Age::New).then_some(128).into_iter().chain([228]);
        let all = [0, 15, 16, 17, 18, 19, 20, 100, 200].into_iter().chain(withdrawn);
        assert_eq!(*numbers, all.collect());
        assert_eq!(*fields, (0..=17).collect());
    }
}

#[test]
fn row_32_of_an_archived_first_makes_field_7_differ() {
    let (mut many, mut alone) = (0, 0);
    for index in 0..4000 {
        let pair = pair(SEED + 7, index);
        let read = (pair.profile, pair.age);
        let answer = regroup(pair.profile, pair.age, &pair.first, &pair.second, &pair.list);
        let Regroup::Refused { number: 20, k, field: 7 } = answer else { continue };
        let at = 7 + 2 * k as usize;
        let named = u16::from_be_bytes([pair.list[at], pair.list[at + 1]]);
        if text(read, &pair.first, named.into(), 7) == "NOTPROVIDED" {
            many += 1;
            alone += u32::from(k == 0);
            assert_eq!(pair.age, Age::Archived);
        }
    }
    assert!(many > 100 && many > alone, "{many}, {alone} of them at 0");
}

#[test]
fn a_message_regroups_itself_by_the_rising_list_but_for_row_32() {
    for ((profile, made), index) in in_all_four(80) {
        let sound = sound_message(profile, made, SEED + 3, index);
        let message = &sound.message;
        let ordinals: Vec<u16> = (0..sound.transfers.len() as u16).collect();
        let as_new = judge_as(profile, Age::New, message);
        for age in Age::BOTH {
            let answer = regroup(profile, age, message, message, &list(&ordinals));
            match (as_new, answer) {
                (Verdict::Accepted { .. }, _) => assert_eq!(answer, Regroup::Accepted),
                (Verdict::Refused { offset, .. }, Regroup::Message { whose, refusal }) => {
                    assert_eq!(whose, if age == Age::New { 1 } else { 2 });
                    assert_eq!((refusal.number, refusal.offset), (28, offset));
                }
                _ => panic!("{answer:?}"),
            }
        }
    }
}

#[test]
fn the_same_seed_gives_the_same_cases() {
    for index in 0..50 {
        assert_eq!(case(1, index).message, case(1, index).message);
        assert_eq!(case(1, index).profile, case(1, index).profile);
        assert_eq!(case(1, index).age, case(1, index).age);
        assert_eq!(pair(1, index).list, pair(1, index).list);
    }
    assert_ne!(case(1, 0).message, case(2, 0).message);
}

#[test]
fn the_trees_children_lie_in_their_parents_in_order() {
    fn check(element: &form::Element) {
        let mut from = element.content.start;
        for child in &element.children {
            assert!(child.offset >= from && child.content.end() < element.content.end());
            from = child.content.end();
            check(child);
        }
    }
    for index in 0..100 {
        if let Ok(tree) = form(&case(SEED + 4, index).message) {
            check(&tree.root);
        }
    }
}
