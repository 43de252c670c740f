//! Messages, and the texts that their fields must have.

use super::edits::*;
use super::*;
use independent::field;
use std::ops::RangeInclusive;

/// Asks for each of these fields of a payment, the message read under this profile and as that age.
pub struct Asked {
    pub name: String,
    pub profile: Profile,
    pub age: Age,
    pub message: String,
    pub payment: usize,
    pub fields: RangeInclusive<usize>,
}

impl Asked {
    /// With each number, the text that is handed back.
    pub fn texts(&self) -> impl Iterator<Item = (usize, &str)> {
        self.fields.clone().map(|number| {
            let (start, length) =
                field(self.profile, self.age, self.message.as_bytes(), self.payment, number);
            (number, &self.message[start..start + length])
        })
    }
}

type Texts<'t> = [(usize, &'t str)];

const EVERY_NUMBER: RangeInclusive<usize> = 0..=18;

/// What M1's block gives its payments, and what these say themselves.
const BLOCK: &Texts = &[
    (4, "2026-03-04"),
    (5, "Institute"),
    (6, "LU566541234567890123"),
    (7, "AAAALULL"),
    (8, "Study 12"),
];
const FIRST: &Texts = &[(10, "E1"), (11, "12.5"), (13, "A Weis"), (14, "LU699871234567898765")];
const SECOND: &Texts = &[(10, "E2"), (11, "22.60"), (13, "B Klein"), (14, "LU415551234567898765")];

/// All seventeen, no two alike; 2, 3 and 8 from the block.
pub const EVERY: &Texts = &[
    (1, "false"),
    (2, "HIGH"),
    (3, "SALA"),
    (4, "2027-01-31"),
    (5, "Hospital"),
    (6, "BE68539007547034"),
    (7, "BBBBLULLXXX"),
    (8, " Study 34 "),
    (9, "I/1"),
    (10, "E-1"),
    (11, "0012.50"),
    (12, "CCCCLULL"),
    (13, "'Taxi', (Sud)"),
    (14, "DE89370400440532013000"),
    (15, "Ward  5"),
    (16, "TAXS"),
    (17, "2 nights: 1 + 1"),
];

/// What the first payment of a third block has, 2, 3 and 8 by itself.
const OWN: &Texts = &[
    (1, "true"),
    (2, "NORM"),
    (3, "PENS"),
    (4, "2026-12-31"),
    (5, "Clinic"),
    (6, "FI2112345600000785"),
    (7, "DDDDLULLXXX"),
    (8, "Study 56"),
    (9, "I3"),
    (10, "E3"),
    (11, "999999999.99"),
    (12, "DDDDLULL"),
    (13, "Garage"),
    (14, "NL91ABNA0417164300"),
    (15, "Ward 6"),
    (16, "9"),
];

/// These fields of a payment of the new message, which must have these texts and no others.
fn asked(
    name: &str,
    message: &str,
    payment: usize,
    fields: RangeInclusive<usize>,
    wanted: &[&Texts],
) -> Asked {
    asked_as((Profile::FIRST, Age::New), (name, message), payment, fields, wanted)
}

fn asked_as(
    (profile, age): (Profile, Age),
    (name, message): (&str, &str),
    payment: usize,
    fields: RangeInclusive<usize>,
    wanted: &[&Texts],
) -> Asked {
    let (name, message) = (named(age, name), message.to_string());
    let asked = Asked { name, profile, age, message, payment, fields };
    let found: Vec<(usize, &str)> = asked.texts().filter(|(_, text)| !text.is_empty()).collect();
    assert_eq!(found, wanted.concat(), "{}, payment {payment}", asked.name);
    asked
}

pub fn all() -> Vec<Asked> {
    let m1 = |payment, own| asked("M1", M1, payment, EVERY_NUMBER, &[BLOCK, own]);
    let mut all = vec![m1(0, FIRST), m1(1, SECOND)];
    all.extend(of_three_blocks(Age::New));
    all.extend(indented());
    all.extend([longest_texts(), last_of_64()]);
    all.extend(unknown());
    all.extend(refused_messages());
    all.extend(instant_messages());
    all.extend(refused_instant_messages());
    all.extend(of_the_other_profile());
    all.extend(refused_without_bic());
    all.extend(of_three_blocks(Age::Archived));
    all.extend(archived_messages());
    all.extend(refused_archived_messages());
    all
}

/// M1's block; one whose payment has every field; one whose payments do not inherit, and whose
/// debtor's agent is not provided in an archived message.
fn of_three_blocks(age: Age) -> Vec<Asked> {
    let kind = element(M1, "PmtTpInf");
    let alone = |id| with(&block_of_first(), ">B1<", id);
    let mut texts = OWN.to_vec();
    if age == Age::Archived {
        texts[6].1 = "NOTPROVIDED";
    }
    let own = moved(&moved(&filled(&alone(">B3<"), &texts), "PmtTpInf"), "UltmtDbtr");
    let own = remitted(&own, &reference(Some("ISO"), "RF18 5390"));
    let bare = with(payments_of_m1()[1], "<Amt>", &format!("{kind}<Amt>"));
    let bare = with(&with(&bare, ">E2<", ">E4<"), ">22.60<", ">13<");
    let bare = remitted(&bare, &reference(None, "+++01234012401313+++"));
    let own = with(&own, "</PmtInf>", &format!("{bare}\n</PmtInf>"));
    let block = element(M1, "PmtInf").to_string();
    let message = message(&[block, filled(&alone(">B2<"), EVERY), own]);
    let of = |payment, wanted: &[&Texts]| {
        let named = ("three blocks", message.as_str());
        asked_as((Profile::FIRST, age), named, payment, EVERY_NUMBER, wanted)
    };
    let said = [(10, "E4"), (11, "13"), SECOND[2], SECOND[3], (17, "+++01234012401313+++")];
    vec![
        of(2, &[EVERY]),
        of(3, &[&texts, &[(17, "RF18 5390")]]),
        of(4, &[&texts[..1], &texts[3..7], &said]),
    ]
}

/// Every field, with the declaration and with white space around the elements.
fn indented() -> Vec<Asked> {
    let message = recounted(&filled(M1, EVERY)).replace("><", ">\n\t <");
    let message = format!("<?xml version=\"1.0\" encoding=\"UTF-8\"?>\n{message}");
    let of =
        |payment, wanted: &[&Texts]| asked("indented", &message, payment, EVERY_NUMBER, wanted);
    vec![of(0, &[EVERY]), of(1, &[&EVERY[..8], SECOND])]
}

/// The most bytes that each field of text can have.
fn longest_texts() -> Asked {
    let name = |what: &str| format!("{what:.<70}");
    let id = |what: &str| format!("{what:-<35}");
    let (debtor, payer) = (name("Debtor"), name("Ultimate debtor"));
    let (creditor, payee) = (name("Creditor"), name("Ultimate creditor"));
    let (instruction, end_to_end) = (id("Instruction"), id("End to end"));
    let remittance = format!("{:+<140}", "Remittance");
    let texts: &Texts = &[
        (4, "2028-02-29"),
        (5, &debtor),
        (6, "FR1420041010050500013M02606"),
        (7, "BBBBLULLXXX"),
        (8, &payer),
        (9, &instruction),
        (10, &end_to_end),
        (11, "000000000000012.50"),
        (12, "CCCCLULLXXX"),
        (13, &creditor),
        (14, "IT60X0542811101000000123456"),
        (15, &payee),
        (16, "Z9Z9"),
        (17, &remittance),
    ];
    asked("the longest texts", &filled(M1, texts), 0, EVERY_NUMBER, &[texts])
}

/// The last payment of the most: 16 blocks with 4 payments each.
fn last_of_64() -> Asked {
    let block = |b: usize| {
        let payment = |k: usize| given(payments_of_m1()[0], 10, &format!("E{k}"));
        let payments: Vec<String> = (4 * b..4 * b + 4).map(payment).collect();
        let block = with(&block_of_first(), payments_of_m1()[0], &payments.join("\n"));
        filled(&with(&block, ">B1<", &format!(">B{b}<")), &[(8, &format!("Study {b}"))])
    };
    let message = message(&(0..16).map(block).collect::<Vec<String>>());
    assert_eq!(judge(&message), accepted(16, 64, 64 * 1250));
    let wanted = [&BLOCK[..4], &[(8, "Study 15"), (10, "E63")], &FIRST[1..]];
    asked("16 blocks and 64 payments", &message, 63, EVERY_NUMBER, &wanted)
}

/// Payments and fields that M1's first payment alone does not have.
fn unknown() -> Vec<Asked> {
    let message = message(&[block_of_first()]);
    let of = |payment, number| asked("one payment", &message, payment, number..=number, &[]);
    let large = [1 << 8, 1 << 16, 1 << 32];
    let mut all =
        vec![of(1, 10), of(usize::MAX, 10), of(0, usize::MAX), of(usize::MAX, usize::MAX)];
    all.extend(large.map(|payment| of(payment, 10)));
    all.extend(large.map(|number| of(0, number + 10)));
    all
}

fn refused_messages() -> Vec<Asked> {
    let message = message(&[block_of_first()]);
    let kind = element(M1, "PmtTpInf");
    let of = |name, message: &str, refusal| {
        let Verdict::Refused { number, .. } = judge(message) else { panic!("{name}: accepted") };
        assert_eq!(number, refusal, "{name}");
        asked(name, message, 0, 10..=11, &[])
    };
    vec![
        of("no bytes", "", 2),
        of("the last byte missing", message.trim_end().trim_end_matches('>'), 2),
        of("a second message id", &message.replace("</MsgId>", "</MsgId><MsgId>M2</MsgId>"), 3),
        of("no amount", &with(&message, element(&message, "Amt"), ""), 4),
        of("an empty name", &message.replace("A Weis", ""), 6),
        of("a wrong character", &message.replace("A Weis", "A_Weis"), 7),
        of("a wrong day", &message.replace("2026-03-04", "2026-02-29"), 8),
        of("type twice", &with(&message, "<Amt>", &format!("{kind}<Amt>")), 9),
        of("no type", &with(&message, kind, ""), 10),
        of("a wrong count", &with(&message, "<NbOfTxs>1", "<NbOfTxs>2"), 12),
        of("a wrong sum", &with(&message, "12.50", "12.51"), 13),
    ]
}

fn asked_instant(
    name: &str,
    message: &str,
    payment: usize,
    fields: RangeInclusive<usize>,
    wanted: &[&Texts],
) -> Asked {
    asked_as((Profile::INSTANT, Age::New), (name, message), payment, fields, wanted)
}

/// I1; every field; a block that says the day behind one that says the time; own row 16.
fn instant_messages() -> Vec<Asked> {
    let i1 = i1();
    let of_i1 = |payment, own| {
        asked_instant("I1", &i1, payment, EVERY_NUMBER, &[&[(4, MOMENT)], &BLOCK[1..], own])
    };
    let day = with_instrument(M1);
    let (latest, earliest) = ("2099-12-31T23:59:59-14:00", "2000-01-01T00:00:00+14:00");
    let but_4 = [&EVERY[..3], &EVERY[4..]].concat();
    let every = recounted(&instant(&filled(M1, &but_4), latest));
    let [one, other] = [">B1<", ">B2<"].map(|id| with(&block_of_first(), ">B1<", id));
    let two = message(&[instant(&one, earliest), with_instrument(&moved(&other, "PmtTpInf"))]);
    let of_two = |payment, date| {
        asked_instant("two instant blocks", &two, payment, 2..=5, &[&[(4, date), BLOCK[1]]])
    };
    vec![
        of_i1(0, FIRST),
        of_i1(1, SECOND),
        asked_instant("I1 with a day", &day, 0, EVERY_NUMBER, &[BLOCK, FIRST]),
        asked_instant(
            "every instant field",
            &every,
            0,
            EVERY_NUMBER,
            &[&EVERY[..3], &[(4, latest)], &EVERY[4..]],
        ),
        of_two(0, earliest),
        of_two(1, "2026-03-04"),
        asked_instant("I1", &i1, 2, 4..=4, &[]),
    ]
}

fn refused_instant_messages() -> Vec<Asked> {
    let of = |name, message: &str, refusal| {
        let Verdict::Refused { number, .. } = judge_instant(message) else {
            panic!("{name}: accepted")
        };
        assert_eq!(number, refusal, "{name}");
        asked_instant(name, message, 0, 4..=4, &[])
    };
    let day = "<Dt>2026-03-04</Dt>";
    vec![
        of("both dates", &i1_with("<DtTm>", &format!("{day}<DtTm>")), 3),
        of("no instrument", &i1_with(INSTRUMENT, ""), 4),
        of("no date", &dated(&i1(), ""), 4),
        of("a byte behind the zone", &i1_with(MOMENT, &format!("{MOMENT}0")), 6),
        of("another instrument", &i1_with(">INST<", ">TRF<"), 8),
        of("no zone", &i1_with("+01:00", ""), 8),
    ]
}

/// New messages with row 32: not even the other fields are handed back.
fn refused_without_bic() -> [Asked; 2] {
    let [of_m1, of_i1] = [M1, &i1()].map(not_provided);
    assert!(matches!(judge(&of_m1), Verdict::Refused { number: 28, .. }));
    assert!(matches!(judge_instant(&of_i1), Verdict::Refused { number: 28, .. }));
    [
        asked("M1 without BIC", &of_m1, 0, 5..=11, &[]),
        asked_instant("I1 without BIC", &of_i1, 1, 4..=8, &[]),
    ]
}

/// M1 and I1 as they are, and without a BIC.
fn archived_messages() -> Vec<Asked> {
    let (i1, no_agent) = (i1(), &[(7, "NOTPROVIDED")]);
    let [of_m1, of_i1] = [not_provided(M1), not_provided(&i1)];
    let first = |name, message: &str, payment, wanted: &[&Texts]| {
        let read = (Profile::FIRST, Age::Archived);
        asked_as(read, (name, message), payment, EVERY_NUMBER, wanted)
    };
    let instant = |name, message: &str, payment, wanted: &[&Texts]| {
        let read = (Profile::INSTANT, Age::Archived);
        let wanted = [&[&[(4, MOMENT)][..]], wanted].concat();
        asked_as(read, (name, message), payment, EVERY_NUMBER, &wanted)
    };
    let read = (Profile::FIRST, Age::Archived);
    vec![
        first("M1", M1, 0, &[BLOCK, FIRST]),
        first("M1 without BIC", &of_m1, 0, &[&BLOCK[..3], no_agent, &BLOCK[4..], FIRST]),
        first("M1 without BIC", &of_m1, 1, &[&BLOCK[..3], no_agent, &BLOCK[4..], SECOND]),
        asked_as(read, ("M1 without BIC", &of_m1), 2, 7..=7, &[]),
        instant("I1", &i1, 1, &[&BLOCK[1..], SECOND]),
        instant("I1 without BIC", &of_i1, 0, &[&BLOCK[1..3], no_agent, &BLOCK[4..], FIRST]),
        instant("I1 without BIC", &of_i1, 1, &[&BLOCK[1..3], no_agent, &BLOCK[4..], SECOND]),
    ]
}

/// What is refused though it is archived.
fn refused_archived_messages() -> Vec<Asked> {
    let one = message(&[block_of_first()]);
    let other = |text: &str| with_agent(&one, &format!("<Othr>{text}</Othr>"));
    let no_agent = not_provided(&one);
    let of = |profile, name, message: &str, refusal| {
        let judged = judge_as(profile, Age::Archived, message);
        let Verdict::Refused { number, .. } = judged else { panic!("{name}: accepted") };
        assert_eq!(number, refusal, "{name}");
        asked_as((profile, Age::Archived), (name, message), 0, 7..=7, &[])
    };
    let (first, instant) = (Profile::FIRST, Profile::INSTANT);
    vec![
        of(first, "Othr twice", &no_agent.replace("<Othr>", &format!("{NOT_PROVIDED}<Othr>")), 3),
        of(first, "an empty Othr", &other(""), 4),
        of(first, "an empty id", &other("<Id></Id>"), 6),
        of(first, "a wrong character in the id", &other("<Id>NOT_PROVIDED</Id>"), 7),
        of(first, "a BIC as id", &other("<Id>AAAALULL</Id>"), 8),
        of(first, "NOTPROVIDED as BIC", &one.replace("AAAALULL", "NOTPROVIDED"), 8),
        of(first, "no BIC and a wrong count", &with(&no_agent, "<NbOfTxs>1", "<NbOfTxs>2"), 12),
        of(first, "I1 under the first profile", &not_provided(&i1()), 3),
        of(instant, "M1 as instant", &not_provided(M1), 4),
        of(
            instant,
            "a BIC as instant id",
            &i1_with("<BICFI>AAAALULL</BICFI>", "<Othr><Id>AAAALULL</Id></Othr>"),
            8,
        ),
    ]
}

/// M1 read under the instant profile, I1 under the first.
fn of_the_other_profile() -> [Asked; 2] {
    let i1 = i1();
    [
        asked_instant("M1 as instant", M1, 0, 4..=5, &[]),
        asked("I1 under the first profile", &i1, 0, 4..=5, &[]),
    ]
}
