//! Message M1 and what the tests share.
#![allow(dead_code)]

pub mod asked;
pub mod edits;
pub mod examples;
pub mod pairs;
pub mod written;

use independent::{verdict, Age, Profile, Verdict, LEAST_NUMBERS};

pub const ROOT: &str = r#"<Document xmlns="urn:iso:std:iso:20022:tech:xsd:pain.001.001.09">"#;

pub const M1: &str = r#"<Document xmlns="urn:iso:std:iso:20022:tech:xsd:pain.001.001.09"><CstmrCdtTrfInitn>
<GrpHdr><MsgId>M1</MsgId><CreDtTm>2026-03-02T08:30:00</CreDtTm><NbOfTxs>2</NbOfTxs><CtrlSum>35.10</CtrlSum><InitgPty><Nm>Trials</Nm></InitgPty></GrpHdr>
<PmtInf><PmtInfId>B1</PmtInfId><PmtMtd>TRF</PmtMtd><NbOfTxs>2</NbOfTxs><CtrlSum>35.1</CtrlSum><PmtTpInf><SvcLvl><Cd>SEPA</Cd></SvcLvl></PmtTpInf><ReqdExctnDt><Dt>2026-03-04</Dt></ReqdExctnDt><Dbtr><Nm>Institute</Nm></Dbtr><DbtrAcct><Id><IBAN>LU566541234567890123</IBAN></Id></DbtrAcct><DbtrAgt><FinInstnId><BICFI>AAAALULL</BICFI></FinInstnId></DbtrAgt><UltmtDbtr><Nm>Study 12</Nm></UltmtDbtr>
<CdtTrfTxInf><PmtId><EndToEndId>E1</EndToEndId></PmtId><Amt><InstdAmt Ccy="EUR">12.5</InstdAmt></Amt><Cdtr><Nm>A Weis</Nm></Cdtr><CdtrAcct><Id><IBAN>LU699871234567898765</IBAN></Id></CdtrAcct></CdtTrfTxInf>
<CdtTrfTxInf><PmtId><EndToEndId>E2</EndToEndId></PmtId><Amt><InstdAmt Ccy="EUR">22.60</InstdAmt></Amt><Cdtr><Nm>B Klein</Nm></Cdtr><CdtrAcct><Id><IBAN>LU415551234567898765</IBAN></Id></CdtrAcct></CdtTrfTxInf>
</PmtInf></CstmrCdtTrfInitn></Document>
"#;

/// The text with the first of one piece, which must be there, made another.
pub fn with(text: &str, old: &str, new: &str) -> String {
    assert!(text.contains(old), "no {old} in {text}");
    text.replacen(old, new, 1)
}

/// M1 with one piece made another.
pub fn m1(old: &str, new: &str) -> String {
    with(M1, old, new)
}

/// The whole element of this name that stands first in the text.
pub fn element<'t>(text: &'t str, name: &str) -> &'t str {
    let start = text.find(&format!("<{name}>")).or_else(|| text.find(&format!("<{name} ")));
    let start = start.expect("the element's start");
    let end_tag = format!("</{name}>");
    let end = start + text[start..].find(&end_tag).expect("the element's end") + end_tag.len();
    &text[start..end]
}

pub fn payments_of_m1() -> [&'static str; 2] {
    let first = element(M1, "CdtTrfTxInf");
    let after = M1.find(first).unwrap() + first.len();
    [first, element(&M1[after..], "CdtTrfTxInf")]
}

/// The text with two pieces of it exchanged.
pub fn exchanged(text: &str, one: &str, other: &str) -> String {
    text.replace(one, "ONE").replace(other, one).replace("ONE", other)
}

/// M1 with its payments exchanged.
pub fn m2() -> String {
    let [first, second] = payments_of_m1();
    exchanged(M1, first, second)
}

/// M1 with the second payment in a block B2 without ultimate debtor.
pub fn m3() -> String {
    let [first, second] = payments_of_m1();
    let block = element(M1, "PmtInf");
    let counted = |block: &str, count, sum| {
        with(&with(block, "<NbOfTxs>2", &format!("<NbOfTxs>{count}")), "35.1", sum)
    };
    let b1 = counted(&with(block, &format!("{second}\n"), ""), 1, "12.50");
    let b2 = with(&with(block, &format!("{first}\n"), ""), "B1", "B2");
    let b2 = counted(&with(&b2, "<UltmtDbtr><Nm>Study 12</Nm></UltmtDbtr>", ""), 1, "22.6");
    m1(block, &format!("{b1}\n{b2}"))
}

/// Row 56.
pub const INSTRUMENT: &str = "<LclInstrm><Cd>INST</Cd></LclInstrm>";

/// Row 58 of I1.
pub const MOMENT: &str = "2026-03-04T09:30:00+01:00";

/// A message of the first profile with row 56 in each row 16, and so one of the instant profile.
pub fn with_instrument(text: &str) -> String {
    text.replace("</SvcLvl>", &format!("</SvcLvl>{INSTRUMENT}"))
}

/// M1, or a piece or a neighbour of it, with row 56 and this row 58 for its day.
pub fn instant(text: &str, moment: &str) -> String {
    with_instrument(text).replace("<Dt>2026-03-04</Dt>", &format!("<DtTm>{moment}</DtTm>"))
}

/// The instant neighbour of M1.
pub fn i1() -> String {
    instant(M1, MOMENT)
}

/// I1 with one piece made another.
pub fn i1_with(old: &str, new: &str) -> String {
    with(&i1(), old, new)
}

pub fn refused(number: u32, element: u32, offset: usize) -> Verdict {
    Verdict::Refused { number, element, offset }
}

pub fn accepted(blocks: u32, payments: u32, cents: u64) -> Verdict {
    Verdict::Accepted { blocks, payments, cents }
}

/// Row 32.
pub const NOT_PROVIDED: &str = "<Othr><Id>NOTPROVIDED</Id></Othr>";

/// M1, I1 or a neighbour with this for the BIC of its first debtor's agent.
pub fn with_agent(text: &str, content: &str) -> String {
    with(text, "<BICFI>AAAALULL</BICFI>", content)
}

/// The same with row 32, as an archived message may have it.
pub fn not_provided(text: &str) -> String {
    with_agent(text, NOT_PROVIDED)
}

/// M1 or a neighbour read in every way: under both profiles, as new and as archived, then also with row 32.
pub fn read_each_way(message: &str) -> Vec<(Profile, Age, String)> {
    let both =
        [(Profile::FIRST, message.to_string()), (Profile::INSTANT, instant(message, MOMENT))];
    let each = both.map(|(profile, message)| {
        let other = not_provided(&message);
        [(Age::New, message.clone()), (Age::Archived, message), (Age::Archived, other)]
            .map(|(age, message)| (profile, age, message))
    });
    each.concat()
}

/// The name of a case that is read so.
pub fn named(age: Age, name: &str) -> String {
    let how = if age == Age::Archived { "archived, " } else { "" };
    format!("{how}{name}")
}

/// The verdict on a new message under the first profile.
pub fn judge(message: impl AsRef<[u8]>) -> Verdict {
    judge_as(Profile::FIRST, Age::New, message)
}

pub fn judge_instant(message: impl AsRef<[u8]>) -> Verdict {
    judge_as(Profile::INSTANT, Age::New, message)
}

pub fn judge_as(profile: Profile, age: Age, message: impl AsRef<[u8]>) -> Verdict {
    verdict(profile, age, message.as_ref(), &mut [0; LEAST_NUMBERS])
}

pub fn list(ordinals: &[u16]) -> Vec<u8> {
    independent::generate::list(1, ordinals.len() as u16, ordinals)
}
