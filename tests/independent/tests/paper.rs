//! The cases that the rules came with: those to be proved, M1, its table, the regrouping.

mod common;
use common::*;
use independent::values::{fault, Fault};
use independent::{differing, field, regroup, verdict, Age, Profile, Refusal, Regroup};
use independent::{LEAST_NUMBERS, NUMBERS_EACH};

const FIRST: Profile = Profile::FIRST;
const NEW: Age = Age::New;

const EUR: &[u8] = b"EUR";

#[test]
fn m1_is_accepted_and_fills_its_rows_of_the_table_alone() {
    let mut table = vec![7; LEAST_NUMBERS + 100];
    assert_eq!(verdict(FIRST, NEW, M1.as_bytes(), &mut table), accepted(1, 2, 3510));
    let text = |at: usize| &M1[table[at] as usize..][..table[at + 1] as usize];
    for (first, end_to_end, iban, name, euros, cents, payment) in [
        (0, "E1", "LU699871234567898765", "A Weis", 12, 50, payments_of_m1()[0]),
        (NUMBERS_EACH, "E2", "LU415551234567898765", "B Klein", 22, 60, payments_of_m1()[1]),
    ] {
        assert_eq!(table[first], 0);
        assert_eq!(text(first + 1), end_to_end);
        assert_eq!(text(first + 3), iban);
        assert_eq!(text(first + 5), name);
        assert_eq!(text(first + 7), "Study 12");
        assert_eq!(text(first + 9), "<SvcLvl><Cd>SEPA</Cd></SvcLvl>");
        assert_eq!(text(first + 11), "LU566541234567890123");
        assert_eq!(table[first + 13..first + 15], [euros, cents]);
        assert_eq!(table[first + 15] as usize, M1.find(payment).unwrap());
        assert_eq!(table[first + 16..first + NUMBERS_EACH], [0; 4]);
    }
    assert!(table[2 * NUMBERS_EACH..].iter().all(|number| *number == 7));
}

#[test]
fn an_absent_ultimate_debtor_is_0_0() {
    let mut table = [7; LEAST_NUMBERS];
    assert_eq!(verdict(FIRST, NEW, m3().as_bytes(), &mut table), accepted(2, 2, 3510));
    assert_eq!(&m3()[table[7] as usize..][..table[8] as usize], "Study 12");
    let second = &table[NUMBERS_EACH..];
    assert_eq!((second[0], second[7], second[8]), (1, 0, 0));
}

#[test]
fn a_refusal_writes_nothing() {
    let mut table = [7; LEAST_NUMBERS];
    assert_eq!(
        verdict(FIRST, NEW, m1(">35.10<", ">35.11<").as_bytes(), &mut table),
        refused(13, 7, 167)
    );
    assert!(table.iter().all(|number| *number == 7));
}

#[test]
fn a_short_table_comes_before_all_else_and_the_size_before_the_form() {
    for short in [0, 1, LEAST_NUMBERS - 1] {
        assert_eq!(verdict(FIRST, NEW, b"", &mut vec![0; short]), refused(14, 0, 0));
        assert_eq!(verdict(FIRST, NEW, &[b'x'; 40_000], &mut vec![0; short]), refused(14, 0, 0));
        assert_eq!(verdict(FIRST, NEW, M1.as_bytes(), &mut vec![0; short]), refused(14, 0, 0));
    }
    assert_eq!(judge([b'x'; 32_769]), refused(1, 0, 32_768));
    assert_eq!(judge([b'x'; 32_768]), refused(2, 0, 0));
    let padded = |length| format!("{M1:length$}");
    assert_eq!(judge(padded(32_768)), accepted(1, 2, 3510));
    assert_eq!(judge(padded(32_769)), refused(1, 0, 32_768));
}

#[test]
fn the_beginnings() {
    assert_eq!(judge(""), refused(2, 0, 0));
    assert_eq!(judge("<Document>"), refused(2, 0, 9));
    assert_eq!(judge(format!("{ROOT}</Document>")), refused(4, 2, 65));
}

#[test]
fn neighbours_of_m1() {
    assert_eq!(judge(m1(">M1<", ">M1/<")), refused(8, 4, 92));
    assert_eq!(judge(m1(">M1<", ">M_<")), refused(7, 4, 100));
    assert_eq!(judge(m1("<NbOfTxs>2", "<NbOfTxs>3")), refused(12, 6, 147));
    assert_eq!(judge(m1("<NbOfTxs>2", "<NbOfTxs>02")), accepted(1, 2, 3510));
    assert_eq!(judge(m1(">35.10<", ">35.11<")), refused(13, 7, 167));
}

#[test]
fn amounts_accounts_and_days() {
    for right in ["0.01", "999999999.99"] {
        assert_eq!(fault(42, 41, right.as_bytes(), EUR), None, "{right}");
    }
    for wrong in ["0.00", "1000000000.00"] {
        assert_eq!(fault(42, 41, wrong.as_bytes(), EUR), Some(Fault::Value), "{wrong}");
    }
    for iban in ["LU566541234567890123", "LU699871234567898765", "LU415551234567898765"] {
        assert_eq!(fault(28, 27, iban.as_bytes(), b""), None, "{iban}");
        for step in [-1, 1] {
            let mut other = iban.as_bytes().to_vec();
            other[19] = other[19].wrapping_add_signed(step);
            assert_eq!(fault(28, 27, &other, b""), Some(Fault::Value), "{iban} {step}");
        }
    }
    assert_eq!(fault(23, 22, b"2024-02-29", b""), None);
    assert_eq!(fault(23, 22, b"2026-02-29", b""), Some(Fault::Value));
}

#[test]
fn amounts_and_days_in_m1() {
    assert_eq!(judge(m1(">12.5<", ">0.01<")), refused(13, 7, 167));
    let amount = M1.find("<InstdAmt").unwrap();
    assert_eq!(judge(m1(">12.5<", ">0.00<")), refused(8, 42, amount));
    assert_eq!(judge(m1("2026-03-04", "2024-02-29")), accepted(1, 2, 3510));
    let day = M1.find("<Dt>").unwrap();
    assert_eq!(judge(m1("2026-03-04", "2026-02-29")), refused(8, 23, day));
}

#[test]
fn m2_and_m3() {
    let differs = |k, field| Regroup::Refused { number: 20, k, field };
    let (one, two, three) = (M1.as_bytes(), m2(), m3());
    assert_eq!(regroup(FIRST, NEW, one, two.as_bytes(), &list(&[1, 0])), Regroup::Accepted);
    assert_eq!(regroup(FIRST, NEW, one, two.as_bytes(), &list(&[0, 1])), differs(0, 10));
    assert_eq!(regroup(FIRST, NEW, one, three.as_bytes(), &list(&[0, 1])), differs(1, 8));

    let (start, length) = differing(FIRST, NEW, one, two.as_bytes(), &list(&[0, 1]));
    assert_eq!(&two[start..start + length], "E2");
    assert_eq!(differing(FIRST, NEW, one, three.as_bytes(), &list(&[0, 1])), (0, 0));
    assert_eq!(differing(FIRST, NEW, one, two.as_bytes(), &list(&[1, 0])), (0, 0));
    let (start, length) = differing(FIRST, NEW, three.as_bytes(), one, &list(&[0, 1]));
    assert_eq!(&M1[start..start + length], "Study 12");
}

#[test]
fn the_order_of_the_regrouping_refusals() {
    let refused = |number, k| Regroup::Refused { number, k, field: 0 };
    let message = |whose, number, element, offset| Regroup::Message {
        whose,
        refusal: Refusal { number, element, offset },
    };
    let one = M1.as_bytes();
    let single = with(&m3(), element(&m3()[m3().find("B1").unwrap()..], "PmtInf"), "");
    let single = single.replace("<NbOfTxs>2", "<NbOfTxs>1").replace("35.10", "12.50");
    assert_eq!(judge(&single), accepted(1, 1, 1250));
    let long = [b' '; 32_769];

    assert_eq!(regroup(FIRST, NEW, b"", b"", b""), message(1, 2, 0, 0));
    assert_eq!(regroup(FIRST, NEW, one, &long, b""), message(2, 1, 0, 32_768));
    assert_eq!(regroup(FIRST, NEW, &long, b"", b""), message(1, 1, 0, 32_768));
    assert_eq!(regroup(FIRST, NEW, one, single.as_bytes(), b""), refused(15, 0));
    assert_eq!(regroup(FIRST, NEW, one, one, b""), refused(16, 0));
    assert_eq!(regroup(FIRST, NEW, one, one, &list(&[0])), refused(17, 0));
    assert_eq!(regroup(FIRST, NEW, one, one, &list(&[0, 1, 2])), refused(17, 0));
    assert_eq!(regroup(FIRST, NEW, one, one, &list(&[2, 2])), refused(18, 0));
    assert_eq!(regroup(FIRST, NEW, one, one, &list(&[0, 2])), refused(18, 1));
    assert_eq!(regroup(FIRST, NEW, one, one, &list(&[0, 0])), refused(19, 1));
    let first_differs = Regroup::Refused { number: 20, k: 0, field: 10 };
    assert_eq!(regroup(FIRST, NEW, one, one, &list(&[1, 2])), first_differs);
    assert_eq!(regroup(FIRST, NEW, one, one, &list(&[1, 1])), first_differs);
    assert_eq!(regroup(FIRST, NEW, one, one, &list(&[0, 1])), Regroup::Accepted);
}

#[test]
fn fields_of_m1() {
    let text = |payment, number| {
        let (start, length) = field(FIRST, NEW, M1.as_bytes(), payment, number);
        &M1[start..start + length]
    };
    let expected = [
        "",
        "",
        "",
        "2026-03-04",
        "Institute",
        "LU566541234567890123",
        "AAAALULL",
        "Study 12",
        "",
        "E1",
        "12.5",
        "",
        "A Weis",
        "LU699871234567898765",
        "",
        "",
        "",
    ];
    for (index, expected) in expected.iter().enumerate() {
        assert_eq!(text(0, index + 1), *expected, "field {}", index + 1);
    }
    for number in [0, 18, (1 << 32) + 10, usize::MAX] {
        assert_eq!(field(FIRST, NEW, M1.as_bytes(), 0, number), (0, 0));
    }
    for payment in [2, 1 << 32, usize::MAX] {
        assert_eq!(field(FIRST, NEW, M1.as_bytes(), payment, 10), (0, 0));
    }
    assert_eq!(field(FIRST, NEW, m1(">M1<", ">M_<").as_bytes(), 0, 10), (0, 0));
    assert_eq!(field(FIRST, NEW, M1.as_bytes(), 0, 1), (0, 0));
}
