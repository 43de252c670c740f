//! Row 32 is withdrawn, sentence by sentence: refusal 28 of a new message, and what an archived one
//! may still hold.

mod common;
use common::edits::{message, recounted};
use common::*;
use independent::LEAST_NUMBERS;
use independent::{differing, field, regroup, verdict, Age, Profile, Refusal, Regroup, Verdict};

const BIC: &str = "<BICFI>AAAALULL</BICFI>";

fn at(text: &str, piece: &str) -> usize {
    text.find(piece).expect("the piece")
}

/// M1 and I1, each with the profile it is made for.
fn both() -> [(Profile, String); 2] {
    [(Profile::FIRST, M1.to_string()), (Profile::INSTANT, i1())]
}

/// The message read as new and as archived.
fn judged(profile: Profile, message: &str) -> [Verdict; 2] {
    Age::BOTH.map(|age| judge_as(profile, age, message))
}

/// Under each profile the edit of M1 or I1 has these verdicts, as new and as archived; each is a
/// number, a row and the piece where it is, or none if the message is accepted.
fn verdicts(edit: impl Fn(&str) -> String, wanted: [Option<(u32, u32, &str)>; 2]) {
    for (profile, text) in both() {
        let message = edit(&text);
        let wanted = wanted.map(|refusal| match refusal {
            Some((number, row, piece)) => refused(number, row, at(&message, piece)),
            None => accepted(1, 2, 3510),
        });
        assert_eq!(judged(profile, &message), wanted, "{profile:?} {message}");
    }
}

const WITHDRAWN: Option<(u32, u32, &str)> = Some((28, 32, "<Othr>"));

#[test]
fn the_number_of_an_age() {
    assert_eq!(Age::numbered(0), Age::New);
    for number in [1, 2, 256, 1 << 32, 1 << 63, u64::MAX] {
        assert_eq!(Age::numbered(number), Age::Archived, "{number}");
    }
    for age in Age::BOTH {
        assert_eq!(Age::numbered(age.number()), age);
        assert_ne!(age.other(), age);
    }
}

#[test]
fn a_new_message_may_not_hold_row_32_and_an_archived_one_may() {
    verdicts(not_provided, [WITHDRAWN, None]);
    verdicts(str::to_string, [None, None]);
    verdicts(|text| not_provided(text).replace("><", ">\r\n\t <"), [WITHDRAWN, None]);
    let message = not_provided(M1);
    assert_eq!(judge(&message), refused(28, 32, M1.find(BIC).unwrap()));
}

#[test]
fn the_first_row_32_of_the_file_is_named() {
    let m3 = m3();
    let (head, tail) = m3.split_at(at(&m3, ">B2<"));
    let text = format!("{head}{}", not_provided(tail));
    let [as_new, as_archived] = judged(Profile::FIRST, &text);
    assert_eq!(as_new, refused(28, 32, at(&text, "<Othr>")));
    assert!(at(&text, "<Othr>") > at(&text, ">B2<"));
    assert_eq!(as_archived, accepted(2, 2, 3510));
    let both = not_provided(&text);
    assert_eq!(judge(&both), refused(28, 32, at(&both, "<Othr>")));
    assert!(at(&both, "<Othr>") < at(&both, ">B2<"));
}

#[test]
fn it_comes_before_its_contents() {
    let other = |text: &'static str| {
        move |message: &str| with_agent(message, &format!("<Othr><Id>{text}</Id></Othr>"))
    };
    verdicts(other(""), [WITHDRAWN, Some((6, 33, "<Id></Id>"))]);
    verdicts(other("NOTPROVIDED_"), [WITHDRAWN, Some((7, 33, "_</Id>"))]);
    verdicts(other("\n"), [WITHDRAWN, Some((7, 33, "\n</Id></Othr>"))]);
    verdicts(other("notprovided"), [WITHDRAWN, Some((8, 33, "<Id>notprovided"))]);
    verdicts(other("AAAALULL"), [WITHDRAWN, Some((8, 33, "<Id>AAAALULL"))]);
    verdicts(other(" "), [WITHDRAWN, Some((8, 33, "<Id> </Id>"))]);
    let long =
        |message: &str| with_agent(message, &format!("<Othr><Id>{}</Id></Othr>", "N".repeat(36)));
    verdicts(long, [WITHDRAWN, Some((6, 33, "<Id>NN"))]);
}

/// The same verdict as new and as archived.
fn either_way(edit: impl Fn(&str) -> String, number: u32, row: u32, piece: &str) {
    verdicts(edit, [Some((number, row, piece)); 2]);
}

#[test]
fn rows_3_and_4_come_first() {
    let agent = |content: &'static str| move |message: &str| with_agent(message, content);
    either_way(agent("<Othr></Othr>"), 4, 33, "</Othr>");
    either_way(agent("<Othr> \n</Othr>"), 4, 33, "</Othr>");
    either_way(agent("<Othr> NOTPROVIDED</Othr>"), 3, 32, "NOTPROVIDED");
    either_way(agent("<Othr><Nm>X</Nm></Othr>"), 3, 32, "<Nm>X");
    either_way(agent("<Othr><Id>NOTPROVIDED</Id><Id>X</Id></Othr>"), 3, 32, "<Id>X");
    either_way(agent("<Othr><Id><b>X</b></Id></Othr>"), 3, 33, "<b>");
    either_way(agent("<Othr><Id>NOTPROVIDED</Id></Othr><BICFI>X</BICFI>"), 3, 30, "<BICFI>X");
    either_way(agent("<BICFI>X</BICFI><Othr><Id>NOTPROVIDED</Id></Othr>"), 3, 30, "<Othr>");
    either_way(
        agent("<Othr><Id>NOTPROVIDED</Id></Othr><Othr><Id>X</Id></Othr>"),
        3,
        30,
        "<Othr><Id>X",
    );
    either_way(agent(""), 4, 31, "</FinInstnId></DbtrAgt>");
    either_way(agent("<BICFI>NOTPROVIDED</BICFI>"), 8, 31, "<BICFI>NOT");
}

#[test]
fn a_3_or_4_further_down_comes_first() {
    let behind = |old: &'static str, new: &'static str| {
        move |message: &str| with(&not_provided(message), old, new)
    };
    either_way(behind("<Cdtr><Nm>B Klein</Nm></Cdtr>", ""), 4, 44, "<CdtrAcct><Id><IBAN>LU41");
    either_way(behind("</PmtInf>", "<Xyz></Xyz></PmtInf>"), 3, 10, "<Xyz>");
    either_way(
        behind("<UltmtDbtr>", "<PmtMtd>TRF</PmtMtd><UltmtDbtr>"),
        3,
        10,
        "<PmtMtd>TRF</PmtMtd><Ul",
    );
}

#[test]
fn row_32_under_the_creditors_agent_is_3_on_row_30() {
    let agent = format!("<CdtrAgt><FinInstnId>{NOT_PROVIDED}</FinInstnId></CdtrAgt><Cdtr>");
    either_way(|text| with(text, "<Cdtr>", &agent), 3, 30, "<Othr>");
    let both = |text: &str| not_provided(&with(text, "<Cdtr>", &agent));
    let second = |text: &str| text.rfind("<Othr>").unwrap();
    for (profile, text) in both_profiles(both) {
        assert_eq!(judged(profile, &text), [refused(3, 30, second(&text)); 2]);
    }
    let elsewhere = |text: &str| with(text, "<Nm>Institute</Nm>", NOT_PROVIDED);
    either_way(elsewhere, 3, 24, "<Othr>");
}

fn both_profiles(edit: impl Fn(&str) -> String) -> [(Profile, String); 2] {
    both().map(|(profile, text)| (profile, edit(&text)))
}

#[test]
fn too_many_blocks_or_payments_come_first() {
    let block = not_provided(&edits::block_of_first());
    let blocks: Vec<String> =
        (0..17).map(|ordinal| with(&block, ">B1<", &format!(">B{ordinal}<"))).collect();
    let many = message(&blocks);
    let seventeenth = many.match_indices("<PmtInf>").nth(16).unwrap().0;
    assert_eq!(judged(Profile::FIRST, &many), [refused(5, 10, seventeenth); 2]);
    assert_eq!(
        judged(Profile::FIRST, &message(&blocks[..16])),
        [refused(28, 32, at(&many, "<Othr>")), accepted(16, 16, 16 * 1250)]
    );
    let payment = payments_of_m1()[0];
    let many = recounted(&not_provided(&m1(payment, &payment.repeat(64))));
    let last = many.match_indices("<CdtTrfTxInf>").nth(64).unwrap().0;
    assert_eq!(judged(Profile::FIRST, &many), [refused(5, 37, last); 2]);
}

#[test]
fn a_wrong_leaf_before_it_comes_first() {
    let before = |old: &'static str, new: &'static str| {
        move |message: &str| with(&not_provided(message), old, new)
    };
    either_way(before(">M1<", "><"), 6, 4, "<MsgId>");
    either_way(before(">Trials<", ">Tri_als<"), 7, 9, "_als");
    either_way(before(">TRF<", ">CHK<"), 8, 12, "<PmtMtd>");
    either_way(before("Institute", ""), 6, 25, "<Nm></Nm>");
    either_way(before("LU566541234567890123", "LU566541234567890124"), 8, 28, "<IBAN>LU56");
    either_way(before("LU566541234567890123", "LU56654123456789012_"), 7, 28, "_</IBAN>");
}

#[test]
fn a_wrong_leaf_behind_it_comes_later() {
    let behind = |old: &'static str, new: &'static str| {
        move |message: &str| with(&not_provided(message), old, new)
    };
    verdicts(behind("Study 12", ""), [WITHDRAWN, Some((6, 35, "<Nm></Nm>"))]);
    verdicts(behind(">E1<", ">E_<"), [WITHDRAWN, Some((7, 40, "_</End"))]);
    verdicts(behind(">12.5<", ">0.00<"), [WITHDRAWN, Some((8, 42, "<InstdAmt"))]);
    verdicts(behind("EUR", "USD"), [WITHDRAWN, Some((8, 42, "<InstdAmt"))]);
    verdicts(
        behind("LU415551234567898765", "LU415551234567898764"),
        [WITHDRAWN, Some((8, 28, "<IBAN>LU415551234567898764"))],
    );
    let agent = "<CdtrAgt><FinInstnId><BICFI>NOTPROVIDED</BICFI></FinInstnId></CdtrAgt><Cdtr>";
    verdicts(behind("<Cdtr>", agent), [WITHDRAWN, Some((8, 31, "<BICFI>NOT"))]);
}

#[test]
fn a_wrong_leaf_of_the_next_block_comes_later_and_of_the_block_before_it_first() {
    let m3 = m3();
    let (head, tail) = m3.split_at(at(&m3, ">B2<"));
    let second = format!("{head}{}", not_provided(tail));
    let wrong = with(&second, ">E1<", "><");
    assert_eq!(judged(Profile::FIRST, &wrong), [refused(6, 40, at(&wrong, "<EndToEndId></")); 2]);
    let first = not_provided(&m3);
    let wrong = with(&first, ">B2<", "><");
    assert_eq!(
        judged(Profile::FIRST, &wrong),
        [refused(28, 32, at(&wrong, "<Othr>")), refused(6, 11, at(&wrong, "<PmtInfId></"))]
    );
}

#[test]
fn usage_ids_counts_and_sums_come_later() {
    let debtor = "<UltmtDbtr><Nm>X</Nm></UltmtDbtr>";
    let twice = |text: &str| with(&not_provided(text), "<Cdtr>", &format!("{debtor}<Cdtr>"));
    verdicts(twice, [WITHDRAWN, Some((9, 34, debtor))]);
    let no_kind = |text: &str| with(&not_provided(text), element(text, "PmtTpInf"), "");
    verdicts(no_kind, [WITHDRAWN, Some((10, 16, "<CdtTrfTxInf>"))]);
    let count = |text: &str| with(&not_provided(text), "<NbOfTxs>2", "<NbOfTxs>3");
    verdicts(count, [WITHDRAWN, Some((12, 6, "<NbOfTxs>3"))]);
    let sum = |text: &str| with(&not_provided(text), ">35.10<", ">35.11<");
    verdicts(sum, [WITHDRAWN, Some((13, 7, "<CtrlSum>35.11"))]);
    let same = not_provided(&m3().replace(">B2<", ">B1<"));
    let wanted =
        [refused(28, 32, at(&same, "<Othr>")), refused(11, 11, same.rfind("<PmtInfId>").unwrap())];
    assert_eq!(judged(Profile::FIRST, &same), wanted);
}

#[test]
fn table_size_and_form_come_first() {
    for age in Age::BOTH {
        for (profile, text) in both_profiles(not_provided) {
            let mut short = [0; LEAST_NUMBERS - 1];
            assert_eq!(verdict(profile, age, text.as_bytes(), &mut short), refused(14, 0, 0));
            let long = format!("{text:32769}");
            assert_eq!(judge_as(profile, age, long), refused(1, 0, 32_768));
            let cut = text.trim_end().trim_end_matches('>');
            assert_eq!(judge_as(profile, age, cut), refused(2, 0, cut.len()));
        }
    }
}

#[test]
fn archived_excuses_row_32_alone() {
    for (old, new, wanted) in [
        (">M1<", ">M1/<", refused(8, 4, 92)),
        (">M1<", ">M_<", refused(7, 4, 100)),
        ("<NbOfTxs>2", "<NbOfTxs>3", refused(12, 6, 147)),
        (">35.10<", ">35.11<", refused(13, 7, 167)),
        ("AAAALULL", "NOTPROVIDED", refused(8, 31, at(M1, BIC))),
        ("<GrpHdr>", "<Othr></Othr><GrpHdr>", refused(3, 2, at(M1, "<GrpHdr>"))),
    ] {
        assert_eq!(judged(Profile::FIRST, &m1(old, new)), [wanted; 2], "{new}");
    }
    for age in Age::BOTH {
        assert_eq!(judge_as(Profile::INSTANT, age, M1), refused(4, 56, at(M1, "</PmtTpInf>")));
        assert_eq!(judge_as(Profile::FIRST, age, i1()), refused(3, 16, at(&i1(), "<LclInstrm>")));
    }
}

#[test]
fn the_table_is_filled_for_an_archived_message_and_kept_for_a_new_one() {
    for (profile, text) in both_profiles(not_provided) {
        let [mut archived, mut plain, mut new] = [[7; LEAST_NUMBERS]; 3];
        assert_eq!(
            verdict(profile, Age::Archived, text.as_bytes(), &mut archived),
            accepted(1, 2, 3510)
        );
        let provided = text.replace(NOT_PROVIDED, &format!("{BIC:33}"));
        verdict(profile, Age::New, provided.as_bytes(), &mut plain);
        assert_eq!(archived, plain);
        verdict(profile, Age::New, text.as_bytes(), &mut new);
        assert_eq!(new, [7; LEAST_NUMBERS]);
    }
}

fn text_of(profile: Profile, age: Age, message: &str, payment: usize, number: usize) -> &str {
    let (start, length) = field(profile, age, message.as_bytes(), payment, number);
    &message[start..start + length]
}

#[test]
fn fields_of_an_archived_message_and_none_of_a_new_one_that_holds_row_32() {
    for (profile, text) in both() {
        let other = not_provided(&text);
        for payment in [0, 1] {
            assert_eq!(text_of(profile, Age::Archived, &other, payment, 7), "NOTPROVIDED");
            for number in (0..=18).filter(|number| *number != 7) {
                let wanted = text_of(profile, Age::New, &text, payment, number);
                assert_eq!(text_of(profile, Age::Archived, &other, payment, number), wanted);
                assert_eq!(text_of(profile, Age::Archived, &text, payment, number), wanted);
            }
            for number in 0..=18 {
                assert_eq!(field(profile, Age::New, other.as_bytes(), payment, number), (0, 0));
            }
        }
    }
}

fn message_of(whose: u32, number: u32, element: u32, offset: usize) -> Regroup {
    Regroup::Message { whose, refusal: Refusal { number, element, offset } }
}

/// The answers with a new and with an archived first message, and the text of each.
fn regrouped<'s>(
    profile: Profile,
    first: &str,
    second: &'s str,
    ordinals: &[u16],
) -> [(Regroup, &'s str); 2] {
    Age::BOTH.map(|age| {
        let (one, two, list) = (first.as_bytes(), second.as_bytes(), list(ordinals));
        let (start, length) = differing(profile, age, one, two, &list);
        (regroup(profile, age, one, two, &list), &second[start..start + length])
    })
}

#[test]
fn only_the_first_message_of_a_regrouping_may_be_archived() {
    for (profile, text) in both() {
        let other = not_provided(&text);
        let withdrawn = |whose| message_of(whose, 28, 32, at(&other, "<Othr>"));
        let accepted = (Regroup::Accepted, "");
        assert_eq!(regrouped(profile, &text, &text, &[0, 1]), [accepted; 2]);
        assert_eq!(regrouped(profile, &text, &other, &[0, 1]), [(withdrawn(2), ""); 2]);
        assert_eq!(
            regrouped(profile, &other, &other, &[0, 1]),
            [(withdrawn(1), ""), (withdrawn(2), "")]
        );
        let differs = Regroup::Refused { number: 20, k: 0, field: 7 };
        assert_eq!(
            regrouped(profile, &other, &text, &[0, 1]),
            [(withdrawn(1), ""), (differs, "AAAALULL")]
        );
    }
}

#[test]
fn a_payment_whose_agent_was_not_provided_equals_none_of_the_second() {
    let m3 = m3();
    let split = at(&m3, ">B2<");
    let first = format!("{}{}", &m3[..split], not_provided(&m3[split..]));
    assert_eq!(judge_as(Profile::FIRST, Age::Archived, &first), accepted(2, 2, 3510));
    let withdrawn = message_of(1, 28, 32, at(&first, "<Othr>"));
    let differs = |k, field| Regroup::Refused { number: 20, k, field };
    let other = m3.replace("AAAALULL", "AAAALULLXXX");
    for (second, k, text) in [(&m3, 1, "AAAALULL"), (&other, 0, "AAAALULLXXX")] {
        let [new, archived] = regrouped(Profile::FIRST, &first, second, &[0, 1]);
        assert_eq!(new, (withdrawn, ""));
        assert_eq!(archived, (differs(k, 7), text));
    }
    let ordinals: [&[u16]; 4] = [&[0, 2], &[0, 0], &[0], &[2, 1]];
    let answers = [
        Regroup::Refused { number: 18, k: 1, field: 0 },
        Regroup::Refused { number: 19, k: 1, field: 0 },
        Regroup::Refused { number: 17, k: 0, field: 0 },
        Regroup::Refused { number: 18, k: 0, field: 0 },
    ];
    for (ordinals, answer) in ordinals.into_iter().zip(answers) {
        let [_, archived] = regrouped(Profile::FIRST, &first, &m3, ordinals);
        assert_eq!(archived, (answer, ""), "{ordinals:?}");
    }
    let lower = with(&m3, "<Dt>2026-03-04", "<Dt>2026-03-05");
    let [_, archived] = regrouped(Profile::FIRST, &first, &lower, &[0, 1]);
    assert_eq!(archived, (differs(0, 4), "2026-03-05"));
    let too = format!("{}{}", &m3[..split], with(&m3[split..], "Institute", "X"));
    let [_, archived] = regrouped(Profile::FIRST, &first, &too, &[0, 1]);
    assert_eq!(archived, (differs(1, 5), "X"));
}

#[test]
fn the_first_messages_refusal_comes_before_the_seconds() {
    let (other, wrong) = (not_provided(M1), m1(">M1<", ">M_<"));
    let withdrawn = |whose| message_of(whose, 28, 32, at(&other, "<Othr>"));
    let character = |whose| message_of(whose, 7, 4, 100);
    let answers = |first: &str, second: &str| {
        regrouped(Profile::FIRST, first, second, &[]).map(|(answer, _)| answer)
    };
    assert_eq!(answers(&other, &wrong), [withdrawn(1), character(2)]);
    assert_eq!(answers(&wrong, &other), [character(1); 2]);
    assert_eq!(answers(M1, &other), [withdrawn(2); 2]);
    assert_eq!(
        answers(&other, M1),
        [withdrawn(1), Regroup::Refused { number: 17, k: 0, field: 0 }]
    );
}
