//! The whole messages and the snippets that the source documents print, with the
//! verdicts that the rules give. Shared by the test over them and by the program that
//! writes them for the crate `published`.

use super::*;
use independent::{Refusal, Regroup};

/// The answers under the first profile and under the instant one, read as new; and read as archived,
/// where that is tried too.
#[derive(Clone)]
pub struct Wanted<A> {
    pub new: [A; 2],
    pub archived: Option<[A; 2]>,
}

impl<A> Wanted<A> {
    fn as_new(new: [A; 2]) -> Self {
        Wanted { new, archived: None }
    }
}

/// A message and its verdicts.
pub struct Example {
    pub name: String,
    pub message: String,
    pub wanted: Wanted<Verdict>,
}

impl Example {
    /// Of a message without row 56, by its verdict under the first profile.
    fn new(name: String, message: String, wanted: Verdict) -> Self {
        let wanted = Wanted::as_new([wanted, without_instrument(&message, wanted)]);
        Example { name, message, wanted }
    }

    /// The same of one that is read as new and as archived.
    fn either_way(name: String, message: String, wanted: [Verdict; 2]) -> Self {
        let [new, archived] = wanted.map(|wanted| [wanted, without_instrument(&message, wanted)]);
        Example { name, message, wanted: Wanted { new, archived: Some(archived) } }
    }
}

/// The verdict under the instant profile, where row 56 is nowhere: the first's if its form fails,
/// or its rows before the end of row 18 that stands first; 4 on row 56 otherwise.
fn without_instrument(message: &str, wanted: Verdict) -> Verdict {
    let after = message.find("</SvcLvl>").map(|at| at + "</SvcLvl>".len());
    let next = after.and_then(|at| Some(at + message[at..].find('<')?));
    match (wanted, next) {
        (Verdict::Refused { number: 1 | 2, .. }, _) | (_, None) => wanted,
        (Verdict::Refused { number: 3 | 4, offset, .. }, Some(at)) if offset < at => wanted,
        (_, Some(at)) => refused(4, 56, at),
    }
}

/// Two messages and a list, and the answers; archived is the first message's.
#[derive(Clone)]
pub struct Regrouping {
    pub name: String,
    pub first: String,
    pub second: String,
    pub list: Vec<u8>,
    pub wanted: Wanted<Regroup>,
}

impl Regrouping {
    /// The same, also with the first message archived.
    fn archived(mut self, answers: [Regroup; 2]) -> Self {
        self.wanted.archived = Some(answers);
        self
    }
}

/// Messages without row 56: under the instant profile the first one is refused.
fn regrouping(name: &str, [first, second]: [&str; 2], list: &[u8], wanted: Regroup) -> Regrouping {
    let [name, first, second] = [name, first, second].map(str::to_string);
    let wanted = Wanted::as_new([wanted, no_instrument(&first)]);
    Regrouping { name, first, second, list: list.to_vec(), wanted }
}

/// The answer under the instant profile to a first message that has row 16 without row 56.
fn no_instrument(first: &str) -> Regroup {
    match without_instrument(first, accepted(1, 2, 0)) {
        Verdict::Refused { number, element, offset } => of_message(1, (number, element, offset)),
        Verdict::Accepted { .. } => panic!("no row 16"),
    }
}

fn of_message(whose: u32, (number, element, offset): (u32, u32, usize)) -> Regroup {
    Regroup::Message { whose, refusal: Refusal { number, element, offset } }
}

/// What is repaired, how, and the verdict after it.
type Step<'s> = (&'s str, &'s dyn Fn(&str) -> String, Verdict);

/// The message as printed, and after one repair after the other.
fn repaired(name: &str, message: &str, printed: Verdict, steps: &[Step]) -> Vec<Example> {
    let mut text = message.to_string();
    let mut examples = vec![Example::new(format!("{name} as printed"), text.clone(), printed)];
    for (number, (what, repair, wanted)) in (1..).zip(steps) {
        text = repair(&text);
        let name = format!("{name} step {number}, {what}");
        examples.push(Example::new(name, text.clone(), *wanted));
    }
    examples
}

/// Takes out the first line that has this piece, with its line end.
fn without_line(text: &str, piece: &str) -> String {
    let at = text.find(piece).expect("the line");
    let start = text[..at].rfind('\n').map_or(0, |end| end + 1);
    let end = at + text[at..].find('\n').expect("the line's end") + 1;
    format!("{}{}", &text[..start], &text[end..])
}

/// Takes out all lines from the one with the first piece to the one with the second.
fn without_lines(text: &str, first: &str, last: &str) -> String {
    let at = text.find(first).expect("the first line");
    let start = text[..at].rfind('\n').map_or(0, |end| end + 1);
    let at = start + text[start..].find(last).expect("the last line") + last.len();
    let end = at + text[at..].find('\n').expect("the line's end") + 1;
    format!("{}{}", &text[..start], &text[end..])
}

pub fn example_1_4() -> Vec<Example> {
    repaired(
        "001-1.4",
        include_str!("../published/001-1.4.xml"),
        refused(2, 0, 60),
        &[
            ("urn:urn to urn", &|t| with(t, "urn:urn", "urn"), refused(2, 0, 103)),
            (
                "no xmlns:xs",
                &|t| with(t, " xmlns:xs=\"\nhttp://www.w3.org/2001/XMLSchema\"", ""),
                refused(3, 1, 109),
            ),
            (
                "both InItN tags right",
                &|t| t.replace("CstmrCdtTrfInItN", "CstmrCdtTrfInitn"),
                refused(3, 2, 136),
            ),
            ("no text", &|t| with(t, "message content...", ""), refused(4, 3, 141)),
        ],
    )
}

const SCHEMA: &str = "\nxmlns:xsi=\"http://www.w3.org/2001/XMLSchema-instance\"";

fn declared(text: &str) -> String {
    with(
        text,
        "<xml version=\"1.0\" encoding=\"UTF-8\">",
        "<?xml version=\"1.0\" encoding=\"UTF-8\"?>",
    )
}

pub fn example_6_1() -> Vec<Example> {
    repaired(
        "001-6.1",
        include_str!("../published/001-6.1.xml"),
        refused(2, 0, 1),
        &[
            ("<?xml ..?>", &declared, refused(2, 0, 103)),
            ("no xmlns:xsi", &|t| with(t, SCHEMA, ""), refused(2, 0, 398)),
            ("</Orgld> right (2971)", &|t| with(t, "</Orgld>", "</OrgId>"), refused(2, 0, 3461)),
            (
                "PstlAdr once (3135)",
                &|t| with(t, "<PstlAdr><PstlAdr>", "<PstlAdr>"),
                refused(3, 1, 105),
            ),
            (
                "Inittn to Initn",
                &|t| t.replace("CstmrCdtTrfInittn", "CstmrCdtTrfInitn"),
                refused(3, 3, 219),
            ),
            (
                "NbOfTx right (2958)",
                &|t| with(t, "<NbOfTx>3</NbOfTx>", "<NbOfTxs>3</NbOfTxs>"),
                refused(3, 8, 310),
            ),
            ("no InitgPty/Id", &|t| without_lines(t, "    <Id>", "\n</Id>"), refused(3, 10, 444)),
            (
                "NbOfTxes right (2979)",
                &|t| with(t, "<NbOfTxes>2</NbOfTxes>", "<NbOfTxs>2</NbOfTxs>"),
                refused(3, 38, 1017),
            ),
            ("no UETR", &|t| without_line(t, "<UETR>"), refused(3, 44, 1208)),
            ("no PstlAdr", &|t| without_lines(t, "<PstlAdr>", "</PstlAdr>"), refused(3, 38, 1451)),
            ("no second UETR", &|t| without_line(t, "<UETR>"), refused(3, 10, 2000)),
            ("no second block", &|t| with(t, second_block(t), ""), refused(12, 6, 219)),
            ("count 2", &|t| with(t, "<NbOfTxs>3", "<NbOfTxs>2"), refused(13, 7, 244)),
            (
                "sum 1935.25",
                &|t| with(t, "<CtrlSum>74776", "<CtrlSum>1935.25"),
                accepted(1, 2, 193_525),
            ),
        ],
    )
}

fn second_block(text: &str) -> &str {
    let first_end = text.find("</PmtInf>").expect("the first block") + "</PmtInf>".len();
    element(&text[first_end..], "PmtInf")
}

/// With the second and third stray lines goes one empty line each.
pub fn example_6_2() -> Vec<Example> {
    repaired(
        "001-6.2",
        include_str!("../published/001-6.2.xml"),
        refused(2, 0, 1),
        &[
            ("<?xml ..?>", &declared, refused(2, 0, 103)),
            ("no xmlns:xsi", &|t| with(t, SCHEMA, ""), refused(2, 0, 1534)),
            (
                "stray 3194-3195 out",
                &|t| without_lines(t, "</PmtInf>", "</CstmrCdtTrfInitn>"),
                refused(2, 0, 1503),
            ),
            (
                "stray 3235-3237 out",
                &|t| with(t, "    </PstlAdr>\n  </Cdtr>\n</CdtTrfTxInf>\n\n", ""),
                refused(2, 0, 2060),
            ),
            (
                "stray 3279, 3284-3285 out",
                &|t| with(t, "</CdtTrfTxInf>\n\n</Id>\n</CdtrAcct>\n", ""),
                refused(2, 0, 2283),
            ),
            (
                "Initt right (3300)",
                &|t| with(t, "CstmrCdtTrfInitt>", "CstmrCdtTrfInitn>"),
                refused(3, 3, 219),
            ),
            ("both NbOfTxes right", &|t| t.replace("NbOfTxes", "NbOfTxs"), refused(3, 8, 318)),
            ("no Id", &|t| without_lines(t, "      <Id>", "\n      </Id>"), refused(3, 38, 939)),
            ("no UETR", &|t| without_line(t, "<UETR>"), refused(3, 44, 1130)),
            ("no PstlAdr", &|t| without_lines(t, "<PstlAdr>", "</PstlAdr>"), refused(3, 38, 1353)),
            ("no second UETR", &|t| without_line(t, "<UETR>"), accepted(1, 2, 193_525)),
        ],
    )
}

fn last(examples: Vec<Example>) -> String {
    examples.into_iter().last().expect("an example").message
}

pub fn all_regroupings() -> Vec<Regrouping> {
    [regroupings(), regroupings_of_m1(), regroupings_of_i1(), regroupings_of_archived()].concat()
}

/// The repaired 6.1 regrouped to the repaired 6.2.
fn regroupings() -> Vec<Regrouping> {
    let (first, second) = (last(example_6_1()), last(example_6_2()));
    let booked = with(&first, "<BtchBookg>false", "<BtchBookg>true");
    let differs = |field| Regroup::Refused { number: 20, k: 0, field };
    let regrouping = |name: &str, first: &str, ordinals: &[u16], wanted| {
        let name = format!("001-6.1 to 001-6.2{name}");
        regrouping(&name, [first, &second], &list(ordinals), wanted)
    };
    vec![
        regrouping(" by 0, 1", &first, &[0, 1], differs(1)),
        regrouping(", batch booking equal, by 0, 1", &booked, &[0, 1], Regroup::Accepted),
        regrouping(", batch booking equal, by 1, 0", &booked, &[1, 0], differs(10)),
    ]
}

/// M1 regrouped to M2, to M3 and to itself: each refusal of a regrouping.
fn regroupings_of_m1() -> Vec<Regrouping> {
    let (m2, m3, wrong) = (m2(), m3(), m1("<NbOfTxs>2", "<NbOfTxs>3"));
    let payment = format!("{}\n", payments_of_m1()[1]);
    let fewer = with(&m1(&payment, "").replace("<NbOfTxs>2", "<NbOfTxs>1"), "35.10", "12.5");
    let fewer = with(&fewer, "35.1", "12.5");
    let longer = [list(&[0, 1]), vec![0]].concat();
    let refused = |number, k, field| Regroup::Refused { number, k, field };
    let message = |whose| of_message(whose, (12, 6, 147));
    let regrouping = |name: &str, first: &str, second: &str, list: &[u8], wanted| {
        regrouping(name, [first, second], list, wanted)
    };
    vec![
        regrouping("M1 to M2 by 1, 0", M1, &m2, &list(&[1, 0]), Regroup::Accepted)
            .archived([Regroup::Accepted, no_instrument(M1)]),
        regrouping("M1 to M2 by 0, 1", M1, &m2, &list(&[0, 1]), refused(20, 0, 10)),
        regrouping("M1 to M3 by 0, 1", M1, &m3, &list(&[0, 1]), refused(20, 1, 8)),
        regrouping("M1 to M3 by 1, 2", M1, &m3, &list(&[1, 2]), refused(20, 0, 10)),
        regrouping("M1 to M1 by 0, 2", M1, M1, &list(&[0, 2]), refused(18, 1, 0)),
        regrouping("M1 to M1 by 0, 0", M1, M1, &list(&[0, 0]), refused(19, 1, 0)),
        regrouping("M1 to M1 by 0", M1, M1, &list(&[0]), refused(17, 0, 0)),
        regrouping("M1 to M1 by 0, 1 and a byte", M1, M1, &longer, refused(16, 0, 0)),
        regrouping("M1 to M1 by no bytes", M1, M1, &[], refused(16, 0, 0)),
        regrouping("M1 to one payment by 0", M1, &fewer, &list(&[0]), refused(15, 0, 0)),
        regrouping("a wrong count to M1", &wrong, M1, &[], message(1)),
        regrouping("M1 to a wrong count", M1, &wrong, &[], message(2)),
        regrouping("a wrong count to a wrong count", &wrong, &wrong, &[], message(1)),
    ]
}

/// M1 with a printed snippet for the first element of that name in it.
fn instead_of(name: &str, snippet: &str) -> String {
    m1(element(M1, name), snippet)
}

/// M1 with a printed snippet before the first piece like this.
fn before(piece: &str, snippet: &str) -> String {
    m1(piece, &format!("{snippet}{piece}"))
}

/// M1 with a piece of its first block for another.
fn in_block(name: &str, snippet: &str) -> String {
    let block = element(M1, "PmtInf");
    m1(block, &with(block, element(block, name), snippet))
}

fn snippet(lines: &str, message: String, wanted: Verdict) -> Example {
    let document = if lines.contains(':') { "" } else { "001:" };
    Example::new(format!("{document}{lines} in M1"), message, wanted)
}

/// I1 and its neighbours: where row 56 and row 58 are right and where they are not.
pub fn instant_messages() -> Vec<Example> {
    let sound = accepted(1, 2, 3510);
    let (instrument, day, moment) = (16, "<Dt>2026-03-04</Dt>", element_of_i1("DtTm"));
    let example = |name: &str, message: String, first: (u32, &str), instant| {
        let (row, at) = first;
        let first = refused(3, row, message.find(at).expect("the place"));
        let instant = match instant {
            None => sound,
            Some((number, row, at)) => refused(number, row, message.find(at).expect("the place")),
        };
        Example { name: name.to_string(), message, wanted: Wanted::as_new([first, instant]) }
    };
    let i1_but = |name: &str, old: &str, new: &str, instant| {
        example(name, i1_with(old, new), (instrument, "<LclInstrm>"), instant)
    };
    let both = format!("{day}{moment}");
    let behind = format!("<CtgyPurp><Cd>SALA</Cd></CtgyPurp>{INSTRUMENT}");
    vec![
        Example::new("M1".to_string(), M1.to_string(), sound),
        example("I1", i1(), (instrument, "<LclInstrm>"), None),
        i1_but("I1 with Z", "+01:00", "Z", None),
        i1_but("I1 with a day", &moment, day, None),
        example(
            "I1 without instrument",
            i1_with(INSTRUMENT, ""),
            (22, "<DtTm>"),
            Some((4, 56, "</PmtTpInf>")),
        ),
        i1_but("I1 with its instrument behind", INSTRUMENT, &behind, Some((4, 56, "<CtgyPurp>"))),
        i1_but("I1 with the code TRF (002:330)", ">INST<", ">TRF<", Some((8, 57, "<Cd>TRF"))),
        i1_but(
            "I1 with a code of 36 bytes",
            ">INST<",
            &format!(">{:X<36}<", "INST"),
            Some((6, 57, "<Cd>INSTX")),
        ),
        i1_but("I1 with both dates", &moment, &both, Some((3, 22, "<DtTm>"))),
        i1_but("I1 without date", &moment, "", Some((4, 23, "</ReqdExctnDt>"))),
        i1_but("I1 without zone", "+01:00", "", Some((8, 58, "<DtTm>"))),
        i1_but("I1 with +14:01", "+01:00", "+14:01", Some((8, 58, "<DtTm>"))),
        i1_but("I1 with a byte behind the zone", "+01:00", "+01:000", Some((6, 58, "<DtTm>"))),
    ]
}

/// M1 and I1 with row 32 under the debtor's agent, and faults before it, in it and behind it.
pub fn withdrawn_messages() -> Vec<Example> {
    let sound = accepted(1, 2, 3510);
    let withdrawn = Some((28, 32, "<Othr>"));
    let example = |name: &str, message: String, wanted: [Option<(u32, u32, &str)>; 2]| {
        let wanted = wanted.map(|refusal| match refusal {
            None => sound,
            Some((number, row, at)) => refused(number, row, message.find(at).expect("the place")),
        });
        let name = name.to_string();
        let Some(instrument) = message.find("<LclInstrm>") else {
            return Example::either_way(name, message, wanted);
        };
        let [new, archived] = wanted.map(|wanted| [refused(3, 16, instrument), wanted]);
        Example { name, message, wanted: Wanted { new, archived: Some(archived) } }
    };
    let i1_but = |name: &str, old: &str, new: &str, archived| {
        let message = with(&not_provided(&i1()), old, new);
        example(&format!("I1 without BIC, {name}"), message, [withdrawn, archived])
    };
    let before = with(&not_provided(&i1()), "Institute", "");
    let no_contents = with_agent(&i1(), "<Othr></Othr>");
    let both = i1_with("</BICFI>", &format!("</BICFI>{NOT_PROVIDED}"));
    let agent = format!("<CdtrAgt><FinInstnId>{NOT_PROVIDED}</FinInstnId></CdtrAgt><Cdtr>");
    let creditors = i1_with("<Cdtr>", &agent);
    vec![
        example("M1 without BIC", not_provided(M1), [withdrawn, None]),
        example("I1 without BIC", not_provided(&i1()), [withdrawn, None]),
        i1_but("an empty id", "NOTPROVIDED", "", Some((6, 33, "<Id></Id>"))),
        i1_but("a wrong id", "NOTPROVIDED", "AAAALULL", Some((8, 33, "<Id>AAAALULL"))),
        i1_but("a wrong name behind it", "Study 12", "Study_12", Some((7, 35, "_12"))),
        i1_but("a wrong count", "<NbOfTxs>2", "<NbOfTxs>3", Some((12, 6, "<NbOfTxs>3"))),
        example("I1 without BIC, no name before it", before, [Some((6, 25, "<Nm></Nm>")); 2]),
        example("I1 with an empty Othr", no_contents, [Some((4, 33, "</Othr>")); 2]),
        example("I1 with BIC and Othr", both, [Some((3, 30, "<Othr>")); 2]),
        example("I1 with a creditor's Othr", creditors, [Some((3, 30, "<Othr>")); 2]),
    ]
}

/// Of M1 and I1, with row 32 in the first message, in the second and in both.
fn regroupings_of_archived() -> Vec<Regrouping> {
    let (m1, i1) = (not_provided(M1), i1());
    let other = not_provided(&i1);
    let of =
        |whose, message: &str| of_message(whose, (28, 32, message.find("<Othr>").expect("row 32")));
    let differs = Regroup::Refused { number: 20, k: 0, field: 7 };
    let regrouping = |name: &str, [first, second]: [&str; 2], new, archived| {
        let [name, first, second] = [name, first, second].map(str::to_string);
        let wanted = Wanted { new, archived: Some(archived) };
        Regrouping { name, first, second, list: list(&[0, 1]), wanted }
    };
    let (missing, instrument) =
        (no_instrument(&m1), of_message(1, (3, 16, i1.find("<LclInstrm>").expect("row 56"))));
    vec![
        regrouping(
            "M1 without BIC to itself",
            [&m1, &m1],
            [of(1, &m1), missing],
            [of(2, &m1), missing],
        ),
        regrouping("M1 without BIC to M1", [&m1, M1], [of(1, &m1), missing], [differs, missing]),
        regrouping(
            "I1 without BIC to I1",
            [&other, &i1],
            [instrument, of(1, &other)],
            [instrument, differs],
        ),
        regrouping(
            "I1 to I1 without BIC",
            [&i1, &other],
            [instrument, of(2, &other)],
            [instrument, of(2, &other)],
        ),
    ]
}

fn element_of_i1(name: &str) -> String {
    element(&i1(), name).to_string()
}

/// I1 regrouped to itself with its payments exchanged and with other dates; I1 and M1.
fn regroupings_of_i1() -> Vec<Regrouping> {
    let (i1, i2, day) = (i1(), instant(&m2(), MOMENT), with_instrument(M1));
    let [utc, zero] = ["Z", "+00:00"].map(|zone| i1_with("+01:00", zone));
    let instrument = |whose| of_message(whose, (3, 16, i1.find("<LclInstrm>").expect("row 56")));
    let missing = |whose| of_message(whose, (4, 56, M1.find("</PmtTpInf>").expect("row 16")));
    let differs = |field| Regroup::Refused { number: 20, k: 0, field };
    let regrouping = |name: &str, first: &str, second: &str, ordinals: &[u16], wanted| {
        let [name, first, second] = [name, first, second].map(str::to_string);
        Regrouping { name, first, second, list: list(ordinals), wanted: Wanted::as_new(wanted) }
    };
    vec![
        regrouping("I1 to I2 by 1, 0", &i1, &i2, &[1, 0], [instrument(1), Regroup::Accepted])
            .archived([instrument(1), Regroup::Accepted]),
        regrouping("I1 to I2 by 0, 1", &i1, &i2, &[0, 1], [instrument(1), differs(10)]),
        regrouping(
            "I1 with Z to I1 with +00:00",
            &utc,
            &zero,
            &[0, 1],
            [instrument(1), differs(4)],
        ),
        regrouping("I1 with a day to I1", &day, &i1, &[0, 1], [instrument(1), differs(4)]),
        regrouping("M1 to I1", M1, &i1, &[0, 1], [instrument(2), missing(1)]),
        regrouping("I1 to M1", &i1, M1, &[0, 1], [instrument(1), missing(2)]),
    ]
}

/// What the guides print for rows 16 and 22, in I1: accepted under the instant profile.
pub fn snippets_in_i1() -> Vec<Example> {
    let purpose = "<CtgyPurp><Cd>SALA</Cd></CtgyPurp>";
    [
        ("001:1712", i1_with("</PmtTpInf>", &format!("{purpose}</PmtTpInf>"))),
        ("001:1749-1751", i1_with(&element_of_i1("ReqdExctnDt"), DATE)),
    ]
    .into_iter()
    .map(|(lines, message)| {
        let first = refused(3, 16, message.find("<LclInstrm>").expect("row 56"));
        let wanted = Wanted::as_new([first, accepted(1, 2, 3510)]);
        Example { name: format!("{lines} in I1"), message, wanted }
    })
    .chain([no_agent_in_i1()])
    .collect()
}

/// Withdrawn since it was printed.
fn no_agent_in_i1() -> Example {
    let message = i1_with(&element_of_i1("DbtrAgt"), NO_AGENT);
    let first = refused(3, 16, message.find("<LclInstrm>").expect("row 56"));
    let withdrawn = refused(28, 32, message.find("<Othr>").expect("row 32"));
    let wanted = Wanted { new: [first, withdrawn], archived: Some([first, accepted(1, 2, 3510)]) };
    Example { name: "001:1923-1929 in I1".to_string(), message, wanted }
}

/// The one snippet that holds row 32: accepted as archived alone.
pub fn withdrawn_snippet() -> Example {
    let message = instead_of("DbtrAgt", NO_AGENT);
    let withdrawn = refused(28, 32, message.find("<Othr>").expect("row 32"));
    let wanted = [withdrawn, accepted(1, 2, 3510)];
    Example::either_way("001:1923-1929 in M1".to_string(), message, wanted)
}

/// 001:1749-1751.
const DATE: &str = " <ReqdExctnDt>\n <Dt>2021-05-31</Dt>\n </ReqdExctnDt>";

/// 001:1923-1929.
const NO_AGENT: &str = "<DbtrAgt>\n  <FinInstnId>\n    <Othr>\n      <Id>NOTPROVIDED</Id>\n    </Othr>\n  </FinInstnId>\n</DbtrAgt>";

pub fn accepted_snippets() -> Vec<Example> {
    let agent = "<DbtrAgt>\n\n\n    <FinInstnId>\n      <BICFI>AAAALULLXXX</BICFI>\n    </FinInstnId>\n  </DbtrAgt>";
    let reference = "<CdtrRefInf>\n <Tp>\n <CdOrPrtry>\n <Cd>SCOR</Cd>\n </CdOrPrtry>\n </Tp>\n <Ref>+++01234012401313+++</Ref>\n</CdtrRefInf>";
    [
        ("1346", instead_of("MsgId", "<MsgId>ABC/060928/CCT001</MsgId>")),
        ("1360", instead_of("CreDtTm", "<CreDtTm>2010-12-18T08:35:30</CreDtTm>")),
        ("1508", instead_of("PmtMtd", "<PmtMtd>TRF</PmtMtd>")),
        ("1605", before("<SvcLvl>", "<InstrPrty>NORM</InstrPrty>")),
        ("1658", instead_of("Cd", "<Cd>SEPA</Cd>")),
        ("1712", before("</PmtTpInf>", "<CtgyPurp><Cd>SALA</Cd></CtgyPurp>")),
        ("1749-1751", instead_of("ReqdExctnDt", DATE)),
        (
            "1867-1871",
            instead_of(
                "DbtrAcct",
                "<DbtrAcct>\n <Id>\n <IBAN>LU566541234567890123</IBAN>\n </Id>\n </DbtrAcct>",
            ),
        ),
        ("1908-1915", instead_of("DbtrAgt", agent)),
        ("2062", before("\n<CdtTrfTxInf>", "<ChrgBr>SLEV</ChrgBr>")),
        ("2106", before("<EndToEndId>", "<InstrId>1234567890</InstrId>")),
        ("2124", instead_of("EndToEndId", "<EndToEndId>ABC/4562/2010-09-25</EndToEndId>")),
        ("2421", before("<Cdtr>", "<ChrgBr>SLEV</ChrgBr>")),
        (
            "2633-2637",
            instead_of(
                "CdtrAcct",
                "<CdtrAcct>\n <Id>\n <IBAN>LU566541234567890123</IBAN>\n </Id>\n </CdtrAcct>",
            ),
        ),
        ("2762", before("</CdtTrfTxInf>", "<Purp><Cd>ELEC</Cd></Purp>")),
        (
            "2869-2876",
            before("</CdtTrfTxInf>", &format!("<RmtInf><Strd>{reference}</Strd></RmtInf>")),
        ),
        ("004:1498", instead_of("CreDtTm", "<CreDtTm>2010-06-10T08:35:30</CreDtTm>")),
        ("004:1667", before("<SvcLvl>", "<InstrPrty>HIGH</InstrPrty>")),
        ("004:2686", instead_of("CreDtTm", "<CreDtTm>2010-12-10T08:35:30</CreDtTm>")),
    ]
    .into_iter()
    .map(|(lines, message)| snippet(lines, message, accepted(1, 2, 3510)))
    .collect()
}

pub fn refused_snippets() -> Vec<Example> {
    let initiator = "<InitgPty>\n  <Nm>Luxcompany</Nm>\n  <Id>\n    <OrgId>\n      <Othr>\n        <Id>0123456789</Id>\n      </Othr>\n    </OrgId>\n  </Id>\n</InitPty>";
    let debtor_with_empty_lines = "<Dbtr>\n\n<Nm>ABC Corporation</Nm>\n\n<PstlAdr>\n\n<StrtNm>Times Square</StrtNm>\n\n<BldgNb>7</BldgNb>\n\n<PstCd>NY 10036</PstCd>\n\n<TwnNm>New York</TwnNm>\n\n<Ctry>US</Ctry>\n\n</PstlAdr>\n\n</Dbtr>";
    let debtor = "<Dbtr>\n  <Nm>Luxcompany</Nm>\n  <PstlAdr>\n    <AdrLine>59 Boulevard Royal</AdrLine>\n    <AdrLine>L-2010 Luxembourg</AdrLine>\n    <Ctry>LU</Ctry>\n  </PstlAdr>\n</Dbtr>";
    let ultimate_debtor = "<UltmtDbtr>\n\n\n    <Id>\n      <OrgId>\n        <Othr>\n          <Id>0123456789</Id>\n        </Othr>\n      </OrgId>\n    </Id>\n  </UltmtDbtr>";
    let equivalent =
        "<EqvtAmt>\n  <Amt Ccy=\"EUR\">1500</Amt>\n  <CcyOfTrf>JPY</CcyOfTrf>\n</EqvtAmt>";
    let agent =
        "<CdtrAgt>\n  <FinInstnId>\n    <BIC>AAAALULLXXX</BIC>\n  </FinInstnId>\n</CdtrAgt>";
    let agent_with_system = "<CdtrAgt>  \n  <FinInstnId>  \n    <BIC>AAAAGBXX</BIC>  \n    <ClrSysMmbld>  \n      <ClrSysId>  \n        <Cd>GBDSC123456</Cd>  \n      </ClrSysId>  \n      <Mmbld>123456</Mmbld>  \n    </ClrSysMmbld>  \n  </FinInstnId>  \n</CdtrAgt>";
    let creditor = "<Cdtr>\n  <Nm>Luxcompany</Nm>\n  <PstAdr>\n    <AdrLine>59 Boulevard Royal</AdrLine>\n    <PstCd>L-2010</PstCd>\n    <TwnNm>Luxembourg</TwnNm>\n    <Ctry>LU</Ctry>\n  </PstAdr>\n</Cdtr>";
    let ultimate_creditor = "<UltmtCDtr>\n <Id>\n <OrgId>\n <Othr>\n <Id>0123456789</Id>\n </Othr>\n </OrgId>\n </Id>\n</UltmtCdtr>";
    [
        ("1374", instead_of("NbOfTxs", "<NbOfTxs>3</NbOfTxs>"), (12, 6, 147)),
        ("1388", instead_of("CtrlSum", "<CtrlSum>12.56</CtrlSum>"), (13, 7, 167)),
        ("1556", in_block("CtrlSum", "<CtrlSum>12.56</CtrlSum>"), (13, 15, 308)),
        ("1439-1448", instead_of("InitgPty", initiator), (2, 0, 325)),
        (
            "1487",
            instead_of("PmtInfId", "<PmtInflId> ABC/1234/2010-09-25</PmtInflId>"),
            (3, 10, 245),
        ),
        (
            "1528",
            in_block("NbOfTxs", "<BtchBookg>>false</BtchBookg><NbOfTxs>2</NbOfTxs>"),
            (6, 13, 288),
        ),
        ("1542", in_block("NbOfTxs", "<NbOfTx>55</NbOfTx>"), (3, 10, 288)),
        ("1674", instead_of("Cd", "<Prtry>NONSEPTARIF1</Prtry>"), (3, 18, 349)),
        ("1808-1826", instead_of("Dbtr", debtor_with_empty_lines), (3, 24, 462)),
        ("1832-1839", instead_of("Dbtr", debtor), (3, 24, 459)),
        ("2015-2026", instead_of("UltmtDbtr", ultimate_debtor), (3, 34, 607)),
        (
            "2285",
            instead_of("InstdAmt", "<InstdAmt Ccy=\u{201c}EUR\u{201d}>4723.34</InstdAmt>"),
            (2, 0, 704),
        ),
        ("2313-2316", instead_of("InstdAmt", equivalent), (2, 0, 706)),
        ("2343", instead_of("Amt", "<Amt Ccy=\"EUR\">1500</Amt>"), (2, 0, 689)),
        ("2389", before("<Cdtr>", "<CtrctId>FX222222111111</CtrctId>"), (3, 37, 731)),
        ("2485-2489", before("<Cdtr>", agent), (3, 30, 760)),
        ("2496-2506", before("<Cdtr>", agent_with_system), (3, 30, 764)),
        ("2600-2608", instead_of("Cdtr", creditor), (3, 44, 762)),
        ("2692-2700", before("</CdtTrfTxInf>", ultimate_creditor), (2, 0, 912)),
        (
            "2724",
            before("</CdtTrfTxInf>", "<InstrForDbtrAgt>SDVA/ADEB</InstrForDbtrAgt>"),
            (3, 37, 822),
        ),
        ("004:1635", instead_of("SvcLvl", "<SvcLvl><Cd>URGP<Cd>, see 2.9)."), (2, 0, 358)),
    ]
    .into_iter()
    .map(|(lines, message, (number, element, offset))| {
        snippet(lines, message, refused(number, element, offset))
    })
    .collect()
}
