//! What the source documents print, with the verdicts that the rules give.

mod common;
use common::*;
use examples::*;
use independent::values::{fault, remainder, Fault};
use independent::{regroup, Age, Profile};
use std::collections::BTreeSet;

const ACCOUNTS: [&str; 3] =
    ["LU566541234567890123", "LU699871234567898765", "LU415551234567898765"];

fn check(row: u32, parent: u32, texts: &[&str], wanted: Option<Fault>) {
    for text in texts {
        assert_eq!(fault(row, parent, text.as_bytes(), b"EUR"), wanted, "row {row}: {text}");
    }
}

#[test]
fn accounts_and_banks() {
    let wrong = Some(Fault::Value);
    check(28, 27, &ACCOUNTS, None);
    check(28, 27, &["86379524"], wrong);
    for (account, step, left) in ACCOUNTS.iter().flat_map(|a| [(a, 1, 28), (a, -1, 71), (a, 0, 1)])
    {
        let mut text = account.as_bytes().to_vec();
        text[19] = text[19].wrapping_add_signed(step);
        assert_eq!(remainder(&text[4..], &text[..4]), left, "{account} {step}");
    }
    let banks =
        ["AAAALULL", "AAAALULLXXX", "BBBBLULL", "CCCCLULL", "MYBBUS33", "AAAAGBXX", "CAIXESBBXXX"];
    check(31, 30, &banks, None);
    check(31, 30, &["NOTPROVIDED"], wrong);
    check(33, 32, &["NOTPROVIDED"], None);
}

#[test]
fn references_money_and_counts() {
    let wrong = Some(Fault::Value);
    check(55, 51, &["+++01234012401313+++", "+++12345678912313+++"], None);
    check(
        42,
        41,
        &["535.25", "1400", "4723.34", "7500.00", "999999999.99", "0.01", "10", "10.0", "10.00"],
        None,
    );
    check(7, 3, &["12.56", "74776", "1935.25", "72840.75", "999999999999.99"], None);
    check(6, 3, &["3", "55", "2", "1"], None);
    check(
        42,
        41,
        &["10.", "999999999999.99", "1,400", "72.840,75", "1,500", "999.999.999,99"],
        wrong,
    );
    assert_eq!(fault(42, 41, b"72840.75", b"USD"), wrong);
}

#[test]
fn dates() {
    let wrong = Some(Fault::Value);
    check(
        5,
        3,
        &[
            "2010-12-18T08:35:30",
            "2011-11-30T14:00:00",
            "2010-06-10T08:35:30",
            "2010-12-10T08:35:30",
        ],
        None,
    );
    check(23, 22, &["2021-05-31", "2011-12-01"], None);
    check(23, 22, &["01/12/2011", "1997-10-01", "20161124", "15-02-2016"], wrong);
    check(5, 3, &["2020-12-24T11:37"], wrong);
}

#[test]
fn ids() {
    let right = [
        "ABC/060928/CCT001",
        "ABC/1230/2011-11-15",
        "ABC/1231/2011-11-15",
        "ABC/4562/2010-09-25",
        "ABC/1234/2011-11-30",
        "ABC/1235/2011-11-30",
        "ABC/1236/2011-11-30",
        "1234567890",
        " ABC/1234/2010-09-25",
        " ABC/1230/2011-11-15",
    ];
    for row in [4, 11, 39, 40] {
        check(row, 0, &right, None);
        check(row, 0, &["/CCDNDR/", "/ BENEFRES/AE//", "OT/"], Some(Fault::Value));
    }
}

#[test]
fn codes() {
    let wrong = Some(Fault::Value);
    check(19, 18, &["SEPA"], None);
    check(19, 53, &["SCOR"], None);
    check(
        19,
        18,
        &["BKTR", "G001", "G002", "G003", "G004", "NUGP", "NURG", "PRPT", "SDVA", "URGP", "URNS"],
        wrong,
    );
    check(12, 10, &["TRF"], None);
    check(12, 10, &["CHK"], wrong);
    check(36, 10, &["SLEV"], None);
    check(36, 10, &["CRED", "DEBT", "SHAR"], wrong);
    check(13, 10, &["true", "false"], None);
    check(13, 10, &["TRUE"], wrong);
    check(21, 20, &["SALA", "INTC", "PENS", "ELEC"], None);
    check(21, 20, &["Supplier"], Some(Fault::Length));
}

#[test]
fn local_instruments_and_moments() {
    let wrong = Some(Fault::Value);
    check(57, 56, &["INST"], None);
    check(57, 56, &["TRF", "CTP", "ITP"], wrong);
    check(58, 22, &["2020-12-24T11:37", "2010-12-18T08:35:30", "2021-05-31"], wrong);
    check(58, 22, &["2010-12-18T08:35:30Z", "2010-12-18T08:35:30+01:00"], None);
}

#[test]
fn annex_2_has_324_codes_none_twice() {
    let codes: Vec<&str> = include_str!("published/annex2.txt")
        .lines()
        .filter_map(|line| line.split('\t').next())
        .collect();
    assert_eq!(codes.len(), 324);
    assert_eq!(codes.iter().collect::<BTreeSet<_>>().len(), 324);
    check(21, 47, &codes, None);
}

#[test]
fn whole_messages_and_snippets() {
    for Example { name, message, wanted } in all_messages() {
        let found = |age| Profile::BOTH.map(|profile| judge_as(profile, age, &message));
        assert_eq!(found(Age::New), wanted.new, "{name}");
        if let Some(archived) = wanted.archived {
            assert_eq!(found(Age::Archived), archived, "{name}, archived");
        }
    }
}

fn all_messages() -> impl Iterator<Item = Example> {
    let whole = [example_1_4(), example_6_1(), example_6_2(), instant_messages()];
    let snippets = [accepted_snippets(), refused_snippets(), snippets_in_i1()];
    let withdrawn = [withdrawn_messages(), vec![withdrawn_snippet()]];
    whole.into_iter().chain(snippets).chain(withdrawn).flatten()
}

#[test]
fn what_holds_row_32_is_read_both_ways() {
    let holds = |message: &str| message.contains("<Id>NOTPROVIDED</Id>");
    for Example { name, message, wanted } in all_messages() {
        assert!(wanted.archived.is_some() || !holds(&message), "{name}");
    }
    for Regrouping { name, first, wanted, .. } in all_regroupings() {
        assert!(wanted.archived.is_some() || !holds(&first), "{name}");
    }
}

#[test]
fn examples_and_m1_regrouped() {
    for Regrouping { name, first, second, list, wanted } in all_regroupings() {
        let (first, second) = (first.as_bytes(), second.as_bytes());
        let found = |age| Profile::BOTH.map(|profile| regroup(profile, age, first, second, &list));
        assert_eq!(found(Age::New), wanted.new, "{name}");
        if let Some(archived) = wanted.archived {
            assert_eq!(found(Age::Archived), archived, "{name}, archived");
        }
    }
}
