//! The instant profile, sentence by sentence, and what the first one says of the same.

mod common;
use common::edits::{dated, moment};
use common::*;
use independent::values::{fault, Fault};
use independent::{differing, field, regroup, verdict, Age, Profile, Refusal, Regroup, Verdict};
use independent::{LEAST_NUMBERS, NUMBERS_EACH};

const NEW: Age = Age::New;
const DAY: &str = "<Dt>2026-03-04</Dt>";

fn at(text: &str, piece: &str) -> usize {
    text.find(piece).expect("the piece")
}

/// I1 with one change, refused under the instant profile on that row at that piece.
fn i1_refused(old: &str, new: &str, number: u32, row: u32, piece: &str) {
    let message = i1_with(old, new);
    assert_eq!(
        judge_instant(&message),
        refused(number, row, at(&message, piece)),
        "{old} -> {new}"
    );
}

#[test]
fn i1_is_accepted_under_the_instant_profile_with_the_counts_of_m1() {
    assert_eq!(judge(M1), accepted(1, 2, 3510));
    assert_eq!(judge_instant(i1()), accepted(1, 2, 3510));
    assert!(i1().contains("</SvcLvl><LclInstrm><Cd>INST</Cd></LclInstrm></PmtTpInf>"));
    assert!(i1().contains("<ReqdExctnDt><DtTm>2026-03-04T09:30:00+01:00</DtTm></ReqdExctnDt>"));
}

#[test]
fn each_profile_refuses_the_message_of_the_other() {
    assert_eq!(judge(i1()), refused(3, 16, at(&i1(), "<LclInstrm>")));
    assert_eq!(judge_instant(M1), refused(4, 56, at(M1, "</PmtTpInf>")));
}

#[test]
fn the_number_of_a_profile() {
    assert_eq!(Profile::numbered(1), Profile::INSTANT);
    for number in [0, 2, 257, (1 << 32) + 1, u64::MAX] {
        assert_eq!(Profile::numbered(number), Profile::FIRST, "{number}");
    }
    for profile in Profile::BOTH {
        assert_eq!(Profile::numbered(profile.number()), profile);
    }
}

#[test]
fn row_16_holds_17_18_56_and_20() {
    let before = "<InstrPrty>HIGH</InstrPrty><SvcLvl>";
    let behind = format!("{INSTRUMENT}<CtgyPurp><Cd>SALA</Cd></CtgyPurp>");
    let message = with(&i1_with("<SvcLvl>", before), INSTRUMENT, &behind);
    assert_eq!(judge_instant(&message), accepted(1, 2, 3510));
    let white = with(&message, "<LclInstrm><Cd>", "\n <LclInstrm>\t<Cd>");
    assert_eq!(judge_instant(white), accepted(1, 2, 3510));
}

#[test]
fn row_56_may_stand_in_the_payments() {
    let kind = element(M1, "PmtTpInf");
    let message = m1(kind, "").replace("<Amt>", &format!("{kind}<Amt>"));
    assert_eq!(judge(&message), accepted(1, 2, 3510));
    assert_eq!(judge_instant(instant(&message, MOMENT)), accepted(1, 2, 3510));
    let first_alone = with(&message, "</SvcLvl>", &format!("</SvcLvl>{INSTRUMENT}"));
    let second = first_alone.rfind("</PmtTpInf>").unwrap();
    assert_eq!(judge_instant(&first_alone), refused(4, 56, second));
    assert_eq!(judge(&first_alone), refused(3, 16, at(&first_alone, "<LclInstrm>")));
}

#[test]
fn a_missing_56_is_4_on_56_and_after_18() {
    i1_refused(INSTRUMENT, "", 4, 56, "</PmtTpInf>");
    let purpose = "<CtgyPurp><Cd>SALA</Cd></CtgyPurp>";
    i1_refused(INSTRUMENT, purpose, 4, 56, "<CtgyPurp>");
    i1_refused(INSTRUMENT, &format!("{purpose}{INSTRUMENT}"), 4, 56, "<CtgyPurp>");
    let service = element(M1, "SvcLvl");
    i1_refused(service, "", 4, 18, "<LclInstrm>");
    i1_refused(&format!("{service}{INSTRUMENT}"), "", 4, 18, "</PmtTpInf>");
    i1_refused(&format!("{service}{INSTRUMENT}"), purpose, 4, 18, "<CtgyPurp>");
    i1_refused(
        &format!("{service}{INSTRUMENT}"),
        &format!("{INSTRUMENT}{service}"),
        4,
        18,
        "<LclInstrm>",
    );
}

#[test]
fn row_56_twice_or_with_other_contents() {
    i1_refused(INSTRUMENT, &format!("{INSTRUMENT}<LclInstrm></LclInstrm>"), 3, 16, "<LclInstrm></");
    i1_refused(INSTRUMENT, "<LclInstrm></LclInstrm>", 4, 57, "</LclInstrm>");
    i1_refused(INSTRUMENT, "<LclInstrm> \n</LclInstrm>", 4, 57, "</LclInstrm>");
    i1_refused(INSTRUMENT, "<LclInstrm> INST</LclInstrm>", 3, 56, "INST</LclInstrm>");
    i1_refused("<Cd>INST</Cd>", "<Prtry>INST</Prtry>", 3, 56, "<Prtry>");
    i1_refused("<Cd>INST</Cd>", "<Cd>INST</Cd><Cd>I</Cd>", 3, 56, "<Cd>I</Cd>");
    i1_refused(">INST<", "><b>INST</b><", 3, 57, "<b>");
}

#[test]
fn row_57_is_inst_within_35_bytes() {
    let code = |text: &str| fault(57, 56, text.as_bytes(), b"");
    assert_eq!(code("INST"), None);
    for wrong in ["inst", "INS", "INSTX", "INST ", " INST", " ", "SEPA", "TRF", &"I".repeat(35)] {
        assert_eq!(code(wrong), Some(Fault::Value), "{wrong}");
    }
    assert_eq!(code(""), Some(Fault::Length));
    assert_eq!(code(&"I".repeat(36)), Some(Fault::Length));
    assert_eq!(code(&" ".repeat(36)), Some(Fault::Length));
    assert_eq!(code("INS_"), Some(Fault::Character(3)));
    i1_refused(">INST<", ">INSX<", 8, 57, "<Cd>INSX");
    i1_refused(">INST<", "><", 6, 57, "<Cd></Cd>");
    i1_refused(">INST<", &format!(">{}<", "I".repeat(36)), 6, 57, "<Cd>II");
    i1_refused(">INST<", ">IN_T<", 7, 57, "_T<");
}

#[test]
fn row_22_is_a_choice_of_23_and_58() {
    for content in [DAY, &moment("2026-03-04T09:30:00Z"), &moment(MOMENT)] {
        assert_eq!(judge_instant(dated(&i1(), content)), accepted(1, 2, 3510), "{content}");
    }
    let (both, reversed) = (DAY.to_string() + &moment(MOMENT), moment(MOMENT) + DAY);
    for (content, row, number, piece) in [
        ("", 23, 4, "</ReqdExctnDt>"),
        (" \r\n", 23, 4, "</ReqdExctnDt>"),
        ("2026", 22, 3, "2026</ReqdExctnDt>"),
        (&both, 22, 3, "<DtTm>"),
        (&reversed, 22, 3, "<Dt>"),
        ("<DtTm>2026-03-04T09:30:00Z</DtTm><DtTm>x</DtTm>", 22, 3, "<DtTm>x"),
        ("<Tm>09:30</Tm>", 22, 3, "<Tm>"),
        ("<DtTm><Dt></Dt></DtTm>", 58, 3, "<Dt></Dt>"),
    ] {
        let message = dated(&i1(), content);
        assert_eq!(judge_instant(&message), refused(number, row, at(&message, piece)), "{content}");
    }
}

#[test]
fn rows_56_and_58_are_3_in_the_first_profile() {
    let message = m1("</SvcLvl>", &format!("</SvcLvl>{INSTRUMENT}"));
    assert_eq!(judge(&message), refused(3, 16, at(&message, "<LclInstrm>")));
    let message = dated(M1, &moment(MOMENT));
    assert_eq!(judge(&message), refused(3, 22, at(&message, "<DtTm>")));
    let message = dated(M1, &format!("{DAY}{}", moment(MOMENT)));
    assert_eq!(judge(&message), refused(3, 22, at(&message, "<DtTm>")));
    let message = m1(element(M1, "SvcLvl"), INSTRUMENT);
    assert_eq!(judge(&message), refused(3, 16, at(&message, "<LclInstrm>")));
}

#[test]
fn row_58_is_a_date_a_time_and_a_zone() {
    let value = |text: &str| fault(58, 22, text.as_bytes(), b"");
    let zones = ["Z", "+00:00", "-00:00", "+14:00", "-14:00", "+13:59", "-09:30", "+01:59"];
    for zone in zones {
        assert_eq!(value(&format!("2026-03-04T09:30:00{zone}")), None, "{zone}");
        assert_eq!(judge_instant(i1_with("+01:00", zone)), accepted(1, 2, 3510), "{zone}");
    }
    for zone in [
        "", "z", "ZZ", "Z ", " Z", "+14:01", "-14:01", "+14:59", "+15:00", "+24:00", "+99:99",
        "+09:60", "-00:60", "+13:60", "+9:00", "+0900", "+09", "+09:", "+09:0", "+", "-", "01:00",
        "+0a:00", "+09.00", "+ 9:00", "?09:00", "+-9:00",
    ] {
        assert_eq!(value(&format!("2026-03-04T09:30:00{zone}")), Some(Fault::Value), "{zone}");
    }
    for time in ["2024-02-29T00:00:00", "2000-01-01T23:59:59", "2099-12-31T00:00:00"] {
        assert_eq!(value(&format!("{time}Z")), None, "{time}");
    }
    for time in [
        "2026-02-29T09:30:00",
        "1999-12-31T09:30:00",
        "2100-01-01T09:30:00",
        "2026-03-04T24:00:00",
        "2026-03-04T23:60:00",
        "2026-03-04T23:59:60",
        "2026-03-04t09:30:00",
        "2026-03-04 09:30:00",
        "2026-03-04",
        "2026-03-04T09:30",
        "2026-3-04T09:30:00",
        "09:30:00",
    ] {
        for zone in ["Z", "+01:00"] {
            let text = format!("{time}{zone}");
            assert_eq!(value(&text), Some(Fault::Value), "{text}");
        }
    }
    assert_eq!(value("2026-03-04T09:30:00.5Z"), Some(Fault::Value));
}

#[test]
fn every_zone_from_00_00_to_14_00_and_no_other() {
    for hours in 0..100 {
        for minutes in 0..100 {
            let right = minutes < 60 && (hours < 14 || (hours, minutes) == (14, 0));
            for sign in ['+', '-'] {
                let text = format!("2026-03-04T09:30:00{sign}{hours:02}:{minutes:02}");
                let wanted = (!right).then_some(Fault::Value);
                assert_eq!(fault(58, 22, text.as_bytes(), b""), wanted, "{text}");
            }
        }
    }
}

#[test]
fn row_58_has_at_most_25_bytes() {
    let value = |text: &str| fault(58, 22, text.as_bytes(), b"");
    assert_eq!(MOMENT.len(), 25);
    assert_eq!(value(""), Some(Fault::Length));
    assert_eq!(value(&format!("{MOMENT}0")), Some(Fault::Length));
    assert_eq!(value(&" ".repeat(25)), Some(Fault::Value));
    assert_eq!(value(&" ".repeat(26)), Some(Fault::Length));
    assert_eq!(value("2026-03-04T09:30:00_01:00"), Some(Fault::Character(19)));
    i1_refused(MOMENT, &format!("{MOMENT}Z"), 6, 58, "<DtTm>");
    i1_refused(MOMENT, "", 6, 58, "<DtTm>");
    i1_refused("+01:00", "", 8, 58, "<DtTm>");
    i1_refused("+01:00", "+01:0_", 7, 58, "_</DtTm>");
    let day_too_long = i1_with(&moment(MOMENT), &format!("<Dt>{MOMENT}</Dt>"));
    assert_eq!(judge_instant(&day_too_long), refused(6, 23, at(&day_too_long, "<Dt>")));
}

#[test]
fn values_of_both_rows_are_tried_in_the_order_of_the_file() {
    let message = i1_with(">INST<", ">X<").replace("+01:00", "_").replace("Institute", "");
    assert_eq!(judge_instant(&message), refused(8, 57, at(&message, "<Cd>X")));
    let message = i1_with("+01:00", "_").replace("Institute", "");
    assert_eq!(judge_instant(&message), refused(7, 58, at(&message, "_")));
    let message = i1_with("+01:00", "").replace("Institute", "").replace(">B1<", ">_<");
    assert_eq!(judge_instant(&message), refused(7, 11, at(&message, "_<")));
}

#[test]
fn the_tables_part_for_row_16_holds_56_too() {
    let (message, mut table) = (i1(), [7; LEAST_NUMBERS]);
    assert_eq!(
        verdict(Profile::INSTANT, NEW, message.as_bytes(), &mut table),
        accepted(1, 2, 3510)
    );
    for first in [0, NUMBERS_EACH] {
        let (start, length) = (table[first + 9] as usize, table[first + 10] as usize);
        let wanted = "<SvcLvl><Cd>SEPA</Cd></SvcLvl><LclInstrm><Cd>INST</Cd></LclInstrm>";
        assert_eq!(&message[start..start + length], wanted);
    }
    let mut untouched = [7; LEAST_NUMBERS];
    let answer = verdict(Profile::FIRST, NEW, message.as_bytes(), &mut untouched);
    assert!(matches!(answer, Verdict::Refused { number: 3, element: 16, .. }));
    assert_eq!(untouched, [7; LEAST_NUMBERS]);
}

fn text_of(profile: Profile, message: &str, payment: usize, number: usize) -> &str {
    let (start, length) = field(profile, NEW, message.as_bytes(), payment, number);
    &message[start..start + length]
}

#[test]
fn field_4_is_the_text_of_23_or_58_and_56_is_no_field() {
    let (i1, day) = (i1(), with_instrument(M1));
    for payment in [0, 1] {
        assert_eq!(text_of(Profile::INSTANT, &i1, payment, 4), MOMENT);
        assert_eq!(text_of(Profile::INSTANT, &day, payment, 4), "2026-03-04");
        assert_eq!(text_of(Profile::FIRST, M1, payment, 4), "2026-03-04");
        for other in (0..=20).filter(|number| *number != 4) {
            let wanted = text_of(Profile::FIRST, M1, payment, other);
            assert_eq!(text_of(Profile::INSTANT, &i1, payment, other), wanted, "field {other}");
        }
    }
    for number in 1..=17 {
        assert_eq!(field(Profile::FIRST, NEW, i1.as_bytes(), 0, number), (0, 0));
        assert_eq!(field(Profile::INSTANT, NEW, M1.as_bytes(), 0, number), (0, 0));
    }
}

#[test]
fn field_4_is_compared_by_its_text() {
    let differs = Regroup::Refused { number: 20, k: 0, field: 4 };
    let dates = [
        DAY.to_string(),
        "<Dt>2026-03-05</Dt>".to_string(),
        moment("2026-03-04T00:00:00Z"),
        moment("2026-03-04T00:00:00+00:00"),
        moment("2026-03-04T00:00:00-00:00"),
        moment("2026-03-04T01:00:00+01:00"),
    ];
    for one in &dates {
        for other in &dates {
            let [first, second] = [one, other].map(|date| dated(&i1(), date));
            let (first, second) = (first.as_bytes(), second.as_bytes());
            let answer = regroup(Profile::INSTANT, NEW, first, second, &list(&[0, 1]));
            let wanted = if one == other { Regroup::Accepted } else { differs };
            assert_eq!(answer, wanted, "{one} {other}");
            let (start, length) = differing(Profile::INSTANT, NEW, first, second, &list(&[0, 1]));
            let text = std::str::from_utf8(&second[start..start + length]).unwrap();
            let wanted = if one == other { "" } else { other.split(['<', '>']).nth(2).unwrap() };
            assert_eq!(text, wanted);
        }
    }
}

#[test]
fn a_regrouping_reads_both_messages_under_one_profile() {
    let (i1, i2) = (i1(), instant(&m2(), MOMENT));
    let answer = |profile, first: &str, second: &str, ordinals: &[u16]| {
        regroup(profile, NEW, first.as_bytes(), second.as_bytes(), &list(ordinals))
    };
    let of = |whose, number, element, offset| Regroup::Message {
        whose,
        refusal: Refusal { number, element, offset },
    };
    let instrument = |whose| of(whose, 3, 16, at(&i1, "<LclInstrm>"));
    let missing = |whose| of(whose, 4, 56, at(M1, "</PmtTpInf>"));
    let (first, instant) = (Profile::FIRST, Profile::INSTANT);
    assert_eq!(answer(instant, &i1, &i2, &[1, 0]), Regroup::Accepted);
    assert_eq!(
        answer(instant, &i1, &i2, &[0, 1]),
        Regroup::Refused { number: 20, k: 0, field: 10 }
    );
    assert_eq!(answer(first, &i1, &i2, &[1, 0]), instrument(1));
    assert_eq!(answer(first, M1, &i1, &[0, 1]), instrument(2));
    assert_eq!(answer(first, &i1, M1, &[0, 1]), instrument(1));
    assert_eq!(answer(instant, M1, &i1, &[0, 1]), missing(1));
    assert_eq!(answer(instant, &i1, M1, &[0, 1]), missing(2));
    assert_eq!(answer(instant, M1, M1, &[0, 1]), missing(1));
}

#[test]
fn an_own_instrument_equals_an_inherited_one() {
    let own = edits::moved(element(M1, "PmtInf"), "PmtTpInf");
    let kind = element(M1, "PmtTpInf");
    let second = payments_of_m1()[1];
    let own = with(&own, second, &with(second, "<Amt>", &format!("{kind}<Amt>")));
    let own = instant(&m1(element(M1, "PmtInf"), &own), MOMENT);
    assert_eq!(judge_instant(&own), accepted(1, 2, 3510));
    let answer = regroup(Profile::INSTANT, NEW, i1().as_bytes(), own.as_bytes(), &list(&[0, 1]));
    assert_eq!(answer, Regroup::Accepted);
}

#[test]
fn usage_counts_and_sums_hold_under_the_instant_profile() {
    let kind = element(&i1(), "PmtTpInf").to_string();
    let message = i1_with("<Amt>", &format!("{kind}<Amt>"));
    let second = message.rfind("<PmtTpInf>").unwrap();
    assert_eq!(judge_instant(&message), refused(9, 16, second));
    let message = i1_with(&kind, "");
    assert_eq!(judge_instant(&message), refused(10, 16, at(&message, "<CdtTrfTxInf>")));
    let message = i1_with("<NbOfTxs>2", "<NbOfTxs>3");
    assert_eq!(judge_instant(&message), refused(12, 6, 147));
    let message = i1_with(">35.10<", ">35.11<");
    assert_eq!(judge_instant(&message), refused(13, 7, 167));
    let mut short = [0; LEAST_NUMBERS - 1];
    assert_eq!(verdict(Profile::INSTANT, NEW, i1().as_bytes(), &mut short), refused(14, 0, 0));
    assert_eq!(judge_instant([b' '; 32_769]), refused(1, 0, 32_768));
}
