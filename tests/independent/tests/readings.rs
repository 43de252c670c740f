//! The written form, rows, limits, values and usage, place by place.

mod common;
use common::edits::recounted;
use common::*;
use independent::form::{form, DECLARATION};
use independent::values::{fault, Fault};
use independent::Verdict;

/// Where the bytes, after the root's start tag, fail.
fn after_root(rest: &str) -> Option<usize> {
    form(format!("{ROOT}{rest}").as_bytes()).err().map(|offset| offset - ROOT.len())
}

#[test]
fn before_the_root() {
    let declaration = std::str::from_utf8(DECLARATION).unwrap();
    assert_eq!(DECLARATION.len(), 38);
    assert_eq!(ROOT.len(), 65);
    for (text, offset) in [
        ("x".to_string(), 0),
        ("<".to_string(), 1),
        ("<x".to_string(), 1),
        ("<!".to_string(), 1),
        ("<?".to_string(), 2),
        ("<?xml version='1.0'?>".to_string(), 14),
        (" <?xml".to_string(), 2),
        ("\u{feff}<".to_string(), 0),
        (declaration.to_string(), 38),
        (format!("{declaration}\r\n\t "), 42),
        (format!("{declaration}{declaration}"), 39),
        (format!("{declaration}\n<?"), 40),
        (format!("{declaration} {ROOT}"), 104),
        (" \n<Document ".to_string(), 12),
        ("<Document  ".to_string(), 10),
        ("<Document xmlns='".to_string(), 16),
        ("<document".to_string(), 1),
    ] {
        assert_eq!(form(text.as_bytes()).err(), Some(offset), "{text}");
    }
}

#[test]
fn inside_the_root() {
    let name32 = "a".repeat(32);
    for (rest, offset) in [
        ("", Some(0)),
        ("</Document>", None),
        ("</Document> \t\r\n", None),
        ("text\u{e9}>\u{7f}</Document>", None),
        ("</Document >", Some(10)),
        ("</Documents>", Some(10)),
        ("</Doc>", Some(5)),
        ("</Document>x", Some(11)),
        ("</Document><", Some(11)),
        ("&amp;", Some(0)),
        ("text&", Some(4)),
        ("\u{0}", Some(0)),
        (" \u{1f}", Some(1)),
        ("<1>", Some(1)),
        ("<>", Some(1)),
        ("<!--", Some(1)),
        ("<?", Some(1)),
        ("< a>", Some(1)),
        ("<a b", Some(2)),
        ("<a/>", Some(2)),
        ("<a_>", Some(2)),
        ("<a></b>", Some(5)),
        ("<a></ab>", Some(6)),
        ("<ab></a>", Some(7)),
        ("<a></A>", Some(5)),
        ("<a></a><b></b></Document>", None),
        (" <a> </a>\n<b>x</b> </Document>", None),
        ("<a></a>x", Some(7)),
        ("<a></a> x", Some(8)),
        ("<a></a> &", Some(8)),
        ("x<a></a></Document>", Some(2)),
        ("x</Document>", None),
        ("x <", Some(3)),
        ("x <?", Some(3)),
        ("<Document></Document></Document>", None),
        ("<Document xmlns", Some(9)),
        ("<InstdAmt>", Some(9)),
        ("<InstdAmt", Some(9)),
        ("<InstdAmt/", Some(9)),
        ("<InstdAmt\tC", Some(9)),
        ("<InstdAmt  C", Some(10)),
        ("<InstdAmt Ccy='", Some(14)),
        ("<InstdAmt Ccy=\"eUR\">", Some(15)),
        ("<InstdAmt Ccy=\"EU\">", Some(17)),
        ("<InstdAmt Ccy=\"EURO", Some(18)),
        ("<InstdAmt Ccy=\"EUR\" ", Some(19)),
        ("<InstdAmt Ccy=\"XYZ\"></InstdAmt></Document>", None),
        ("<InstdAmt Ccy=\"XYZ\"></InstdAmt ", Some(30)),
        ("<InstdAmtX></InstdAmtX></Document>", None),
        ("<InstdAmtX Ccy", Some(10)),
        ("<InstdAm Ccy", Some(8)),
    ] {
        assert_eq!(after_root(rest), offset, "{rest}");
    }
    assert_eq!(after_root(&format!("<{name32}></{name32}></Document>")), None);
    assert_eq!(after_root(&format!("<{name32}a>")), Some(33));
    assert_eq!(after_root(&format!("<{name32} ")), Some(33));
}

#[test]
fn depth_is_at_most_twelve() {
    let nested = |levels: usize, inner: &str| {
        format!("{}{inner}{}</Document>", "<a>".repeat(levels), "</a>".repeat(levels))
    };
    assert_eq!(after_root(&nested(11, "text")), None);
    assert_eq!(after_root(&nested(12, "")), Some(3 * 11 + 1));
    assert_eq!(after_root(&nested(11, " <InstdAmt Ccy")), Some(3 * 11 + 2));
    assert_eq!(after_root(&nested(11, " x<")), Some(3 * 11 + 3));
}

/// The message with all that may be there.
fn full() -> String {
    let both = "<BtchBookg>true</BtchBookg>";
    let kind = "<PmtTpInf><InstrPrty>NORM</InstrPrty><SvcLvl><Cd>SEPA</Cd></SvcLvl><CtgyPurp><Cd>SALA</Cd></CtgyPurp></PmtTpInf>";
    let text = m1("<PmtMtd>TRF</PmtMtd>", &format!("<PmtMtd>TRF</PmtMtd>{both}"));
    let text = with(&text, element(M1, "PmtTpInf"), "");
    let text = with(&text, element(M1, "UltmtDbtr"), "");
    let text = with(&text, "<EndToEndId>E1", "<InstrId>I1</InstrId><EndToEndId>E1");
    let text = text.replace("<Amt>", &format!("{kind}<Amt>"));
    let text = text.replace(
        "<Cdtr>",
        "<ChrgBr>SLEV</ChrgBr><UltmtDbtr><Nm>Study 12</Nm></UltmtDbtr><CdtrAgt><FinInstnId><BICFI>BBBBLULLXXX</BICFI></FinInstnId></CdtrAgt><Cdtr>",
    );
    let strd = "<Strd><CdtrRefInf><Tp><CdOrPrtry><Cd>SCOR</Cd></CdOrPrtry><Issr>I</Issr></Tp><Ref>R</Ref></CdtrRefInf></Strd>";
    text.replace(
        "</CdtrAcct></CdtTrfTxInf>",
        &format!("</CdtrAcct><UltmtCdtr><Nm>U</Nm></UltmtCdtr><Purp><Cd>ELEC</Cd></Purp><RmtInf>{strd}</RmtInf></CdtTrfTxInf>"),
    )
}

#[test]
fn all_rows_at_once() {
    assert_eq!(judge(full()), accepted(1, 2, 3510));
}

/// The full message with one change, refused on that element at that piece of it.
fn full_refused(old: &str, new: &str, number: u32, element: u32, at: &str) {
    let message = with(&full(), old, new);
    let offset = message.find(at).expect("the place");
    assert_eq!(judge(&message), refused(number, element, offset), "{old} -> {new}");
}

#[test]
fn rows_3_and_4() {
    full_refused("<GrpHdr>", "<Xyz></Xyz><GrpHdr>", 3, 2, "<Xyz>");
    full_refused("<MsgId>M1</MsgId>", "", 4, 4, "<CreDtTm>");
    full_refused(
        "<MsgId>M1</MsgId>",
        "<MsgId>M1</MsgId><MsgId>M1</MsgId>",
        3,
        3,
        "<MsgId>M1</MsgId><Cre",
    );
    full_refused("<InitgPty><Nm>Trials</Nm></InitgPty>", "", 4, 8, "</GrpHdr>");
    full_refused("<Nm>Trials</Nm>", "", 4, 9, "</InitgPty>");
    full_refused("<Nm>Trials</Nm>", " \n", 4, 9, "</InitgPty>");
    full_refused("<Nm>Trials</Nm>", " \nTrials", 3, 8, "Trials<");
    full_refused("<Nm>Trials</Nm>", "<Nm>Trials</Nm><Nm>T</Nm>", 3, 8, "<Nm>T<");
    full_refused("<Nm>Trials</Nm>", "<Nm> <b>Trials</b></Nm>", 3, 9, "<b>");
    full_refused("<Nm>Trials</Nm>", "<Othr></Othr>", 3, 8, "<Othr>");
    full_refused("<BtchBookg>true</BtchBookg>", "<CtrlSum>1</CtrlSum>", 4, 14, "<CtrlSum>1<");
    full_refused(
        "<ReqdExctnDt>",
        "<BtchBookg>true</BtchBookg><ReqdExctnDt>",
        3,
        10,
        "<BtchBookg>true</BtchBookg><Req",
    );
    full_refused("<BICFI>AAAALULL</BICFI>", "", 4, 31, "</FinInstnId></DbtrAgt>");
    full_refused(
        "<BICFI>AAAALULL</BICFI>",
        "<BICFI>AAAALULL</BICFI><Othr>",
        2,
        0,
        "FinInstnId></DbtrAgt>",
    );
    full_refused(
        "<BICFI>AAAALULL</BICFI>",
        "<BICFI>AAAALULL</BICFI><Othr></Othr>",
        3,
        30,
        "<Othr>",
    );
    full_refused(
        "<BICFI>AAAALULL</BICFI>",
        "<Othr><Id>NOTPROVIDED</Id></Othr><BICFI>X</BICFI>",
        3,
        30,
        "<BICFI>X",
    );
    full_refused("<BICFI>AAAALULL</BICFI>", "<Othr><Nm>X</Nm></Othr>", 3, 32, "<Nm>X");
    full_refused(
        "<BICFI>BBBBLULLXXX</BICFI>",
        "<Othr><Id>NOTPROVIDED</Id></Othr>",
        3,
        30,
        "<Othr>",
    );
    full_refused("<BICFI>BBBBLULLXXX</BICFI>", "", 4, 31, "</FinInstnId></CdtrAgt>");
    full_refused("<Strd>", "<Ustrd>a</Ustrd><Strd>", 3, 48, "<Strd>");
    full_refused("<Ref>R</Ref>", "", 4, 55, "</CdtrRefInf>");
    full_refused("<CdOrPrtry><Cd>SCOR</Cd></CdOrPrtry><Issr>", "<Issr>", 4, 53, "<Issr>");
    full_refused("</Purp>", "</Purp><Purp>", 2, 0, "CdtTrfTxInf>\n<CdtTrf");
}

#[test]
fn a_missing_payment_or_block() {
    let header_only =
        format!("{ROOT}<CstmrCdtTrfInitn>{}</CstmrCdtTrfInitn></Document>", element(M1, "GrpHdr"));
    assert_eq!(judge(&header_only), refused(4, 10, header_only.find("</Cstmr").unwrap()));
    let [first, second] = payments_of_m1();
    let none = M1.replace(first, "").replace(second, "");
    assert_eq!(judge(&none), refused(4, 37, none.find("</PmtInf>").unwrap()));
    let no_header = m1(element(M1, "GrpHdr"), "");
    assert_eq!(judge(&no_header), refused(4, 3, no_header.find("<PmtInf>").unwrap()));
    let remittance = m1("</CdtrAcct></CdtTrfTxInf>", "</CdtrAcct><RmtInf></RmtInf></CdtTrfTxInf>");
    assert_eq!(judge(&remittance), refused(4, 49, remittance.find("</RmtInf>").unwrap()));
}

#[test]
fn a_row_that_is_past_is_3_even_where_another_is_missing() {
    let message = m1("<Dbtr><Nm>Institute</Nm></Dbtr>", "<PmtMtd>CHK</PmtMtd>");
    assert_eq!(judge(&message), refused(3, 10, message.find("<PmtMtd>CHK").unwrap()));
}

/// M1's header and these blocks of so many payments each; ids rise.
fn blocks(payments: &[usize]) -> String {
    let [first, second] = payments_of_m1();
    let block = M1.find("<PmtInf>").unwrap();
    let mut out = M1[..block].to_string();
    let head = &M1[block..M1.find(first).unwrap()];
    for (ordinal, payments) in payments.iter().enumerate() {
        out += &with(head, "B1", &format!("B{ordinal}"));
        out += &second.repeat(*payments);
        out += "</PmtInf>";
    }
    out + "</CstmrCdtTrfInitn></Document>"
}

fn nth(text: &str, piece: &str, ordinal: usize) -> usize {
    text.match_indices(piece).nth(ordinal).expect("the piece").0
}

#[test]
fn limits_of_blocks_and_payments() {
    let most = blocks(&[4; 16]);
    assert!(matches!(judge(&most), Verdict::Refused { number: 12, element: 6, .. }));
    let message = blocks(&[1; 17]);
    assert_eq!(judge(&message), refused(5, 10, nth(&message, "<PmtInf>", 16)));
    let message = blocks(&[65]);
    assert_eq!(judge(&message), refused(5, 37, nth(&message, "<CdtTrfTxInf>", 64)));
    let mut many = [4; 17];
    let message = blocks(&many);
    assert_eq!(judge(&message), refused(5, 10, nth(&message, "<PmtInf>", 16)));
    many[15] = 5;
    let message = blocks(&many);
    assert_eq!(judge(&message), refused(5, 37, nth(&message, "<CdtTrfTxInf>", 64)));
}

#[test]
fn values_by_row() {
    let check = |row, parent, texts: &[&str], wanted: Option<Fault>| {
        for text in texts {
            assert_eq!(fault(row, parent, text.as_bytes(), b"EUR"), wanted, "row {row}: {text:?}");
        }
    };
    let wrong = Some(Fault::Value);
    check(9, 8, &["", &"a".repeat(71), &" ".repeat(71)], Some(Fault::Length));
    check(9, 8, &[" ", "   "], wrong);
    check(9, 8, &["\t", "\n", "\r", "_", "\u{e9}", ">"], Some(Fault::Character(0)));
    check(9, 8, &[&"a".repeat(70), "/-?:().,'+ ", "//", "Z9"], None);
    for row in [4, 11, 39, 40] {
        check(row, 0, &["/", "/a", "a/", "a//b"], wrong);
        check(row, 0, &["a/b/c", " /a", "a/ ", "-"], None);
    }
    check(54, 52, &["/", "//"], None);
    check(12, 10, &["TRF"], None);
    check(12, 10, &["trf", "TR", "CHK", "TRA"], wrong);
    check(13, 10, &["true", "false"], None);
    check(13, 10, &["TRUE", "1", "truE"], wrong);
    check(17, 16, &["NORM", "HIGH"], None);
    check(17, 16, &["LOW", "norm"], wrong);
    check(19, 18, &["SEPA"], None);
    check(19, 18, &["SCOR"], wrong);
    check(19, 53, &["SCOR"], None);
    check(19, 53, &["SEPA"], wrong);
    check(33, 32, &["NOTPROVIDED"], None);
    check(33, 32, &["NOTPROVIDEd", "86379524"], wrong);
    check(36, 10, &["SLEV"], None);
    check(36, 10, &["SHAR"], wrong);
    check(21, 20, &["A", "1", "SALA", "Z9Z9"], None);
    check(21, 20, &["a", "A B", "-"], wrong);
    check(21, 20, &["ABCDE"], Some(Fault::Length));
    check(23, 22, &["2000-01-01", "2099-12-31", "2096-02-29", "2000-02-29", "2026-04-30"], None);
    check(23, 22, &["1999-12-31", "2100-01-01", "2026-00-01", "2026-13-01", "2026-01-00"], wrong);
    check(
        23,
        22,
        &["2026-01-32", "2026-04-31", "2026-1-01", "2026-01-1", "20260101", "2026/01/01"],
        wrong,
    );
    check(5, 3, &["2026-03-02T00:00:00", "2026-03-02T23:59:59"], None);
    check(5, 3, &["2026-03-02T24:00:00", "2026-03-02T23:60:00", "2026-03-02T23:59:60"], wrong);
    check(
        5,
        3,
        &["2026-03-02 00:00:00", "2026-03-02", "2026-02-29T00:00:00", "2026-03-02T00:00:0"],
        wrong,
    );
    check(6, 3, &["0", "007", "000000000000000", "999999999999999"], None);
    check(6, 3, &["-1", "1.0", "1 ", "+1", "1a"], wrong);
    check(6, 3, &["0000000000000000"], Some(Fault::Length));
    check(7, 3, &["0", "0.0", "0.00", "000000000000001.25", "999999999999999.99"], None);
    check(7, 3, &["1.", ".5", ".", "1.234", "1,2", "1 ", "1.2.", "1..2", "-1"], wrong);
    check(7, 3, &["1000000000000000", "1000000000000000.1"], wrong);
    check(42, 41, &["0.01", "000000000000.01", "999999999.99", "00999999999.99", "1"], None);
    check(42, 41, &["0", "0.0", "0.00", "1000000000", "1000000000.00", "1e3"], wrong);
    assert_eq!(fault(42, 41, b"1", b"USD"), wrong);
    assert_eq!(fault(42, 41, b"", b"USD"), Some(Fault::Length));
    assert_eq!(fault(42, 41, b"1_", b"USD"), Some(Fault::Character(1)));
    check(31, 30, &["AAAALULL", "A1B2LU99", "AAAALULLXXX", "AAAALULL123"], None);
    check(
        31,
        30,
        &["NOTPROVIDED", "AAAALULLX", "AAAALULLXX", "AAAALUL", "AAAA1ULL", "AAAAL1LL", "aAAALULL"],
        wrong,
    );
}

#[test]
fn accounts() {
    let iban = |text: &str| fault(28, 27, text.as_bytes(), b"");
    for right in [
        "BE68539007547034",
        "FI2112345600000785",
        "NL91ABNA0417164300",
        "AT611904300234573201",
        "LU280019400644750000",
        "DE89370400440532013000",
        "IE29AIBK93115212345678",
        "ES9121000418450200051332",
        "PT50000201231234567890154",
        "FR1420041010050500013M02606",
        "GR1601101250000000012300695",
        "IT60X0542811101000000123456",
    ] {
        assert_eq!(iban(right), None, "{right}");
        assert_eq!(iban(&format!("{right}0")), Some(Fault::Value));
        assert_eq!(iban(&right[..right.len() - 1]), Some(Fault::Value));
        assert_eq!(iban(&right.to_lowercase()), Some(Fault::Value));
    }
    assert_eq!(iban("GB82WEST12345698765432"), Some(Fault::Value));
    assert_eq!(iban("LU5"), Some(Fault::Value));
    assert_eq!(iban("LU56 6541 2345 6789 0123"), Some(Fault::Value));
}

#[test]
fn check_digits_00_01_and_99_are_refused_though_they_leave_1() {
    let mut tried = [false; 3];
    for number in 0..2000 {
        let rest = format!("{number:016}");
        let check = 98 - independent::values::remainder(rest.as_bytes(), b"LU00");
        let wrong = match check {
            97 => 0,
            98 => 1,
            2 => 99,
            _ => continue,
        };
        let text = format!("LU{wrong:02}{rest}");
        assert_eq!(independent::values::remainder(rest.as_bytes(), &text.as_bytes()[..4]), 1);
        assert_eq!(fault(28, 27, text.as_bytes(), b""), Some(Fault::Value), "{text}");
        assert_eq!(fault(28, 27, format!("LU{check:02}{rest}").as_bytes(), b""), None);
        tried[wrong.min(2) as usize] = true;
    }
    assert_eq!(tried, [true; 3]);
}

#[test]
fn the_walk_over_values_goes_by_the_file() {
    let message = m1("2026-03-02T08:30:00", "x").replace(">E2<", ">_<").replace("Institute", "");
    assert_eq!(judge(&message), refused(8, 5, message.find("<CreDtTm>").unwrap()));
    let message =
        m1("Institute", "").replace(">E2<", ">_<").replace(">2</NbOfTxs>", ">3</NbOfTxs>");
    assert_eq!(judge(&message), refused(6, 25, message.find("<Nm></Nm>").unwrap()));
    let message = m1(">E2<", ">_<").replace(">2</NbOfTxs>", ">3</NbOfTxs>");
    assert_eq!(judge(&message), refused(7, 40, message.find("_").unwrap()));
}

#[test]
fn usage_9_to_11() {
    let kind = element(M1, "PmtTpInf");
    let debtor = element(M1, "UltmtDbtr");
    let charges = "<ChrgBr>SLEV</ChrgBr>";
    let second = |text: &str, piece: &str| nth(text, piece, 1);

    let message = m1("<Amt>", &format!("{kind}<Amt>"));
    assert_eq!(judge(&message), refused(9, 16, second(&message, "<PmtTpInf>")));
    let message = m1("<Cdtr>", &format!("{debtor}<Cdtr>"));
    assert_eq!(judge(&message), refused(9, 34, second(&message, "<UltmtDbtr>")));
    let message = m1(debtor, &format!("{debtor}{charges}"));
    assert_eq!(judge(&message), accepted(1, 2, 3510));
    let both = with(&message, "<Cdtr>", &format!("{charges}{debtor}<Cdtr>"));
    assert_eq!(judge(&both), refused(9, 36, second(&both, "<ChrgBr>")));
    let message = m1(kind, "");
    assert_eq!(judge(&message), refused(10, 16, message.find("<CdtTrfTxInf>").unwrap()));
    let message = with(&message, "<Amt>", &format!("{kind}<Amt>"));
    assert_eq!(judge(&message), refused(10, 16, second(&message, "<CdtTrfTxInf>")));
    let message = with(&message, "<Cdtr>", &format!("{debtor}<Cdtr>"));
    assert_eq!(judge(&message), refused(9, 34, second(&message, "<UltmtDbtr>")));

    let message = m3().replace(">B2<", ">B1<");
    assert_eq!(judge(&message), refused(11, 11, second(&message, "<PmtInfId>")));
    let message = with(&message, "<NbOfTxs>2", "<NbOfTxs>3");
    assert_eq!(judge(&message), refused(11, 11, second(&message, "<PmtInfId>")));
}

#[test]
fn counts_and_sums_of_header_and_blocks_in_their_order() {
    let message = m3();
    assert_eq!(judge(&message), accepted(2, 2, 3510));
    let message = with(&message, "<CtrlSum>22.6<", "<CtrlSum>22.61<");
    assert_eq!(judge(&message), refused(13, 15, nth(&message, "<CtrlSum>", 2)));
    let message = message.replace("<NbOfTxs>1<", "<NbOfTxs>2<");
    assert_eq!(judge(&message), refused(12, 14, nth(&message, "<NbOfTxs>", 1)));
    let message = with(&message, "<CtrlSum>35.10<", "<CtrlSum>35.11<");
    assert_eq!(judge(&message), refused(13, 7, nth(&message, "<CtrlSum>", 0)));
    let message = with(&message, "<NbOfTxs>2<", "<NbOfTxs>1<");
    assert_eq!(judge(&message), refused(12, 6, nth(&message, "<NbOfTxs>", 0)));
    for sum in ["35.1", "35.10", "0035.10", "000000000000035.1"] {
        assert_eq!(judge(m1(">35.10<", &format!(">{sum}<"))), accepted(1, 2, 3510));
    }
}

/// 64 payments of the largest amount, so many in each block, with true counts and sums.
fn largest(payments: &[usize]) -> String {
    let message = recounted(&blocks(payments).replace(">22.60<", ">999999999.99<"));
    assert!(payments.iter().sum::<usize>() == 64 && message.len() <= independent::LONGEST_MESSAGE);
    message
}

#[test]
fn the_largest_total() {
    for payments in [&[64][..], &[1, 63], &[20, 1, 43], &[4; 16]] {
        for (profile, age, message) in read_each_way(&largest(payments)) {
            assert!(element(&message, "GrpHdr").contains("<CtrlSum>63999999999.36<"));
            let wanted = accepted(payments.len() as u32, 64, 6_399_999_999_936);
            assert_eq!(judge_as(profile, age, &message), wanted, "{payments:?}");
        }
    }
}

/// The true sum is 6,399,999,999,936 cents: one cent off, 2^32 cents off, and taken to 32 bits.
#[test]
fn a_sum_beside_the_largest_total() {
    let others = ["63999999999.35", "63999999999.37", "63957050326.40", "64042949672.32"];
    for other in others.into_iter().chain(["4987288.96", "04987288.96"]) {
        let wrong = |text: &str| with(text, ">63999999999.36<", &format!(">{other}<"));
        for payments in [&[64][..], &[30, 34], &[4; 16]] {
            for (profile, age, message) in read_each_way(&wrong(&largest(payments))) {
                let wanted = refused(13, 7, nth(&message, "<CtrlSum>", 0));
                assert_eq!(judge_as(profile, age, &message), wanted, "{other} of {payments:?}");
            }
        }
        let message = largest(&[64]);
        let block = element(&message, "PmtInf");
        for (profile, age, message) in read_each_way(&with(&message, block, &wrong(block))) {
            let wanted = refused(13, 15, nth(&message, "<CtrlSum>", 1));
            assert_eq!(judge_as(profile, age, &message), wanted, "{other} of the block");
        }
    }
}
