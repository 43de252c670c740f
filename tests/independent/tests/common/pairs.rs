//! Two messages and a list, each pair asked both ways: the text of the field in which they
//! differ, and the answer to the regrouping.

use super::edits::*;
use super::*;
use independent::{differing, regroup};

pub struct Pair {
    pub name: String,
    pub profile: Profile,
    /// Of the message that stands first, whichever way.
    pub age: Age,
    pub first: String,
    pub second: String,
    pub list: Vec<u8>,
}

impl Pair {
    /// The second regrouped from the first, and the first from the second.
    pub fn ways(&self) -> [(&str, &str); 2] {
        [(&self.first, &self.second), (&self.second, &self.first)]
    }

    /// For each way the text and the answer.
    pub fn answers(&self) -> [(&str, String); 2] {
        self.ways().map(|(first, second)| {
            let (one, two) = (first.as_bytes(), second.as_bytes());
            let (start, length) = differing(self.profile, self.age, one, two, &self.list);
            let answer = regroup(self.profile, self.age, one, two, &self.list);
            (&second[start..start + length], answer.to_string())
        })
    }
}

pub fn all() -> Vec<Pair> {
    let first = [of_blocks(), of_payments(), of_m1(Age::New), refused_otherwise()];
    let instant = [of_instant_blocks(), of_i1(Age::New), of_both_profiles()];
    let archived = [of_m1(Age::Archived), of_i1(Age::Archived), of_archived(), refused_archived()];
    first.into_iter().chain(instant).chain(archived).flatten().collect()
}

/// A pair of new messages that must get these texts and answers.
fn pair(
    name: impl Into<String>,
    messages: [&str; 2],
    list: &[u8],
    wanted: [(&str, &str); 2],
) -> Pair {
    pair_as((Profile::FIRST, Age::New), name, messages, list, wanted)
}

fn pair_as(
    (profile, age): (Profile, Age),
    name: impl Into<String>,
    [first, second]: [&str; 2],
    list: &[u8],
    wanted: [(&str, &str); 2],
) -> Pair {
    let name = named(age, &name.into());
    let [first, second] = [first, second].map(str::to_string);
    let pair = Pair { name, profile, age, first, second, list: list.to_vec() };
    let wanted = wanted.map(|(text, answer)| (text, answer.to_string()));
    assert_eq!(pair.answers(), wanted, "{}", pair.name);
    pair
}

/// Two messages that have a piece of M1 in common, whose payment is 0 in the first and 1 in
/// the second; by the list 1, 0 the second regroups the first.
struct Place {
    profile: Profile,
    messages: [String; 2],
    piece: String,
}

/// M3 and M3 with its blocks exchanged: the block B1.
fn a_block() -> Place {
    let m3 = m3();
    let first = element(&m3, "PmtInf");
    let after = m3.find(first).expect("the block") + first.len();
    let second = exchanged(&m3, first, element(&m3[after..], "PmtInf"));
    Place { profile: Profile::FIRST, piece: first.to_string(), messages: [m3.clone(), second] }
}

/// The instant neighbours of these.
fn an_instant_block() -> Place {
    let Place { messages, piece, .. } = a_block();
    let messages = messages.map(|message| instant(&message, MOMENT));
    Place { profile: Profile::INSTANT, messages, piece: instant(&piece, MOMENT) }
}

/// M1 and M2: the payment E1.
fn a_payment() -> Place {
    let (profile, messages) = (Profile::FIRST, [M1.to_string(), m2()]);
    Place { profile, piece: payments_of_m1()[0].to_string(), messages }
}

type Edit<'e> = &'e dyn Fn(&str) -> String;

fn as_it_is(piece: &str) -> String {
    piece.to_string()
}

impl Place {
    fn named(&self, name: &str) -> String {
        format!("{}{name}", if self.profile.instant { "instant, " } else { "" })
    }

    /// The messages with the piece edited in each.
    fn edited(&self, edits: [Edit; 2]) -> [String; 2] {
        [0, 1].map(|side| {
            let piece = edits[side](&self.piece);
            recounted(&with(&self.messages[side], &self.piece, &piece))
        })
    }

    fn differing(&self, name: &str, field: usize, edits: [Edit; 2], texts: [&str; 2]) -> Pair {
        let [first, second] = &self.edited(edits);
        let [there, back] = [1, 0].map(|k| format!("REFUSED 20 k={k} field={field}"));
        let wanted = [(texts[1], there.as_str()), (texts[0], back.as_str())];
        let name = self.named(&format!("{name}, field {field}"));
        pair_as((self.profile, Age::New), name, [first, second], &list(&[1, 0]), wanted)
    }

    fn equal(&self, name: &str, edits: [Edit; 2]) -> Pair {
        let [first, second] = &self.edited(edits);
        let name = self.named(&format!("{name}, equal"));
        let read = (self.profile, Age::New);
        pair_as(read, name, [first, second], &list(&[1, 0]), [("", "ACCEPTED"); 2])
    }

    /// A payment whose debtor's agent was not provided in the first message, and which has a BIC and
    /// this edit in the second. That regrouping gives this text and field if the first message is
    /// archived; back, the one that holds row 32 is always new.
    fn not_provided(&self, age: Age, name: &str, edit: Edit, text: &str, field: usize) -> Pair {
        let [first, second] = &self.edited([&|b| given(b, 7, "NOTPROVIDED"), edit]);
        let offset = first.find("<Othr>").expect("row 32");
        let withdrawn = format!("REFUSED 28 element=32 offset={offset}");
        let there = match age {
            Age::New => ("", format!("FIRST {withdrawn}")),
            Age::Archived => (text, format!("REFUSED 20 k=1 field={field}")),
        };
        let wanted = [(there.0, there.1.as_str()), ("", &format!("SECOND {withdrawn}"))];
        let name = self.named(&format!("NOTPROVIDED and {name}"));
        pair_as((self.profile, age), name, [first, second], &list(&[1, 0]), wanted)
    }

    /// Two texts of a field, or one alone.
    fn texts(&self, field: usize, texts: [Option<&str>; 2]) -> Pair {
        let [one, other] = texts.map(|text| text.unwrap_or("none"));
        let edit = |side: usize| {
            move |piece: &str| match texts[side] {
                Some(text) => given(piece, field, text),
                None if field == 8 => with(piece, element(piece, "UltmtDbtr"), ""),
                None => piece.to_string(),
            }
        };
        let found = texts.map(|text| text.unwrap_or(""));
        self.differing(&format!("{one} and {other}"), field, [&edit(0), &edit(1)], found)
    }
}

/// The fields 1 to 8, which a payment has from its block or may have.
fn of_blocks() -> Vec<Pair> {
    let place = a_block();
    let mut pairs: Vec<Pair> = [
        (1, Some("false"), Some("true")),
        (1, Some("false"), None),
        (2, Some("HIGH"), Some("NORM")),
        (2, Some("HIGH"), None),
        (3, Some("SALA"), Some("PENS")),
        (3, Some("SALA"), None),
        (4, Some("2026-03-05"), Some("2027-03-04")),
        (5, Some("Hospital"), Some("Clinic")),
        (6, Some("BE68539007547034"), Some("DE89370400440532013000")),
        (7, Some("BBBBLULL"), Some("BBBBLULLXXX")),
        (8, Some("Study 3"), Some("Study 34")),
        (8, Some("Study 34"), None),
    ]
    .map(|(field, one, other)| place.texts(field, [one, other]))
    .into();
    pairs.extend(inherited(&place));
    pairs.extend([
        place.equal("true and none", [&|b| given(b, 1, "true"), &as_it_is]),
        place.equal("NORM and none", [&|b| given(b, 2, "NORM"), &as_it_is]),
        place.differing("every field", 1, [&|b| filled(b, asked::EVERY), &as_it_is], ["false", ""]),
        place.not_provided(Age::New, "AAAALULL", &as_it_is, "AAAALULL", 7),
    ]);
    pairs
}

/// What stands in the block of the first message and in the payment of the second.
fn inherited(place: &Place) -> Vec<Pair> {
    let own = |name: &'static str, field, text: &'static str| {
        move |block: &str| moved(&given(block, field, text), name)
    };
    let block = |field, text: &'static str| move |block: &str| given(block, field, text);
    let differing = |name, field, texts: [&'static str; 2]| {
        let edits: [Edit; 2] = [&block(field, texts[0]), &own(name, field, texts[1])];
        place.differing(&format!("{} and own {}", texts[0], texts[1]), field, edits, texts)
    };
    vec![
        differing("PmtTpInf", 2, ["NORM", "HIGH"]),
        differing("PmtTpInf", 3, ["SALA", "PENS"]),
        differing("UltmtDbtr", 8, ["Study 3", "Study 34"]),
        place.equal("own type", [&as_it_is, &|b| moved(b, "PmtTpInf")]),
        place.equal("own ultimate debtor", [&as_it_is, &|b| moved(b, "UltmtDbtr")]),
    ]
}

/// The fields 9 to 17, which a payment says itself.
fn of_payments() -> Vec<Pair> {
    let place = a_payment();
    let mut pairs: Vec<Pair> = [
        (9, Some("I1"), Some("I2")),
        (9, Some("I1"), None),
        (10, Some("E3"), Some("e3")),
        (11, Some("12.51"), Some("125.1")),
        (12, Some("BBBBLULL"), Some("CCCCLULL")),
        (12, Some("BBBBLULL"), None),
        (13, Some("Ward 5"), Some("Ward  5")),
        (14, Some("AT611904300234573201"), Some("NL91ABNA0417164300")),
        (15, Some("Ward 5"), Some("Ward 6")),
        (15, Some("Ward 5"), None),
        (16, Some("TAXS"), Some("TAX")),
        (16, Some("TAXS"), None),
        (17, Some("2 nights"), Some("3 nights")),
        (17, Some("2 nights"), None),
    ]
    .map(|(field, one, other)| place.texts(field, [one, other]))
    .into();
    pairs.extend(remittances(&place));
    pairs.extend([
        place.equal("12.5 and 0012.50", [&as_it_is, &|p| given(p, 11, "0012.50")]),
        place.differing(
            "every field of its own",
            9,
            [&|p| filled(p, &asked::EVERY[8..]), &as_it_is],
            ["I/1", ""],
        ),
    ]);
    pairs
}

/// The kind, the issuer and the text of a reference.
fn remittances(place: &Place) -> Vec<Pair> {
    let text = "RF18 5390";
    let plain = || format!("<Ustrd>{text}</Ustrd>");
    let differing = |name, one: String, other: String, texts| {
        let edits: [Edit; 2] = [&|p| remitted(p, &one), &|p| remitted(p, &other)];
        place.differing(name, 17, edits, texts)
    };
    let with_none: [Edit; 2] = [&|p| remitted(p, &reference(Some("ISO"), text)), &as_it_is];
    let issued = |issuer| reference(Some(issuer), text);
    let bare = || reference(None, text);
    vec![
        differing("text and reference", plain(), bare(), [text; 2]),
        differing("two issuers", issued("ISO"), issued("BBA"), [text; 2]),
        differing("an issuer and none", issued("ISO"), bare(), [text; 2]),
        differing("two references", bare(), reference(None, "RF18 539"), [text, "RF18 539"]),
        place.differing("a reference and none", 17, with_none, [text, ""]),
    ]
}

/// M1 with M2, M3 and itself.
fn of_m1(age: Age) -> Vec<Pair> {
    let pair = |name, messages, list: &[u8], wanted| {
        pair_as((Profile::FIRST, age), name, messages, list, wanted)
    };
    let both = |text, answer| [(text, answer); 2];
    let white = M1.replace("><", "> <");
    let end_to_end = "REFUSED 20 k=0 field=10";
    let ultimate_debtor = "REFUSED 20 k=1 field=8";
    vec![
        pair("M1 and M2 by 1, 0", [M1, &m2()], &list(&[1, 0]), both("", "ACCEPTED")),
        pair("M1 and M1 with white space", [M1, &white], &list(&[0, 1]), both("", "ACCEPTED")),
        pair(
            "M1 and M2 by 0, 1",
            [M1, &m2()],
            &list(&[0, 1]),
            [("E2", end_to_end), ("E1", end_to_end)],
        ),
        pair(
            "M1 and M3 by 0, 1",
            [M1, &m3()],
            &list(&[0, 1]),
            [("", ultimate_debtor), ("Study 12", ultimate_debtor)],
        ),
        pair("M1 by 1, 2", [M1, M1], &list(&[1, 2]), both("E1", end_to_end)),
        pair("M1 by 0, 2", [M1, M1], &list(&[0, 2]), both("", "REFUSED 18 k=1 field=0")),
        pair("M1 by 0, 0", [M1, M1], &list(&[0, 0]), both("", "REFUSED 19 k=1 field=0")),
    ]
}

/// 15 to 18 and refused messages, mostly with one payment.
fn refused_otherwise() -> Vec<Pair> {
    let one = message(&[block_of_first()]);
    let wrong = with(&one, "<NbOfTxs>1", "<NbOfTxs>2");
    let longer = [list(&[0]), vec![0]].concat();
    let refused = |name, list: &[u8], number| {
        let answer = format!("REFUSED {number} k=0 field=0");
        pair(format!("one payment by {name}"), [&one, &one], list, [("", &answer); 2])
    };
    let count = "REFUSED 12 element=6 offset=147";
    let (first, second) = (format!("FIRST {count}"), format!("SECOND {count}"));
    let no_bytes = "FIRST REFUSED 2 element=0 offset=0";
    let numbers = "REFUSED 15 k=0 field=0";
    vec![
        pair("one payment and two", [&one, M1], &list(&[0]), [("", numbers); 2]),
        refused("no bytes", b"", 16),
        refused("a byte too many", &longer, 16),
        refused("the empty list", &list(&[]), 17),
        refused("0, 1", &list(&[0, 1]), 17),
        refused("256", &list(&[256]), 18),
        pair("a wrong count", [&wrong, &one], &list(&[0]), [("", &first), ("", &second)]),
        pair("both refused", ["", &wrong], &list(&[0]), [("", no_bytes), ("", &first)]),
    ]
}

/// The fields that row 16 and row 22 give, under the instant profile.
fn of_instant_blocks() -> Vec<Pair> {
    let place = an_instant_block();
    let dates = |one: &'static str, other: &'static str| {
        let edit = |text: &'static str| {
            move |block: &str| match text.len() {
                10 => dated(block, &format!("<Dt>{text}</Dt>")),
                _ => dated(block, &moment(text)),
            }
        };
        let edits: [Edit; 2] = [&edit(one), &edit(other)];
        place.differing(&format!("{one} and {other}"), 4, edits, [one, other])
    };
    let day: Edit = &|b| dated(b, "<Dt>2026-03-04</Dt>");
    vec![
        dates("2026-03-04T09:30:00Z", "2026-03-04T09:30:00+00:00"),
        dates("2026-03-04T09:30:00+00:00", "2026-03-04T09:30:00-00:00"),
        dates("2026-03-04T09:30:00+01:00", "2026-03-04T08:30:00+00:00"),
        dates("2026-03-04", "2026-03-05"),
        dates("2026-03-04", "2026-03-04T00:00:00Z"),
        place.texts(3, [Some("SALA"), Some("PENS")]),
        place.equal("the same day", [day, day]),
        place.equal("own type", [&as_it_is, &|b| moved(b, "PmtTpInf")]),
    ]
}

/// I1 with the instant neighbours of M2 and M3, and with itself.
fn of_i1(age: Age) -> Vec<Pair> {
    let both = |text, answer| [(text, answer); 2];
    let (i1, i2, i3) = (i1(), instant(&m2(), MOMENT), instant(&m3(), MOMENT));
    let pair = |name, second: &str, list: &[u8], wanted| {
        pair_as((Profile::INSTANT, age), name, [&i1, second], list, wanted)
    };
    let end_to_end = "REFUSED 20 k=0 field=10";
    let ultimate_debtor = "REFUSED 20 k=1 field=8";
    vec![
        pair("I1 and I2 by 1, 0", &i2, &list(&[1, 0]), both("", "ACCEPTED")),
        pair("I1 and I2 by 0, 1", &i2, &list(&[0, 1]), [("E2", end_to_end), ("E1", end_to_end)]),
        pair(
            "I1 and I3 by 0, 1",
            &i3,
            &list(&[0, 1]),
            [("", ultimate_debtor), ("Study 12", ultimate_debtor)],
        ),
        pair("I1 by 0, 0", &i1, &list(&[0, 0]), both("", "REFUSED 19 k=1 field=0")),
    ]
}

/// M1 and I1, of which each profile refuses one.
fn of_both_profiles() -> Vec<Pair> {
    let i1 = i1();
    let instrument = format!("REFUSED 3 element=16 offset={}", i1.find("<LclInstrm>").unwrap());
    let missing = format!("REFUSED 4 element=56 offset={}", M1.find("</PmtTpInf>").unwrap());
    [
        (Profile::FIRST, "SECOND", "FIRST", instrument),
        (Profile::INSTANT, "FIRST", "SECOND", missing),
    ]
    .map(|(profile, there, back, refusal)| {
        let name = if profile.instant { "M1 and I1 as instant" } else { "M1 and I1" };
        let wanted = [there, back].map(|whose| format!("{whose} {refusal}"));
        let wanted = [("", wanted[0].as_str()), ("", wanted[1].as_str())];
        pair_as((profile, Age::New), name, [M1, &i1], &list(&[0, 1]), wanted)
    })
    .into()
}

/// Archived messages with row 32: field 7 differs, and is the lowest that does or not.
fn of_archived() -> Vec<Pair> {
    let mut pairs = Vec::new();
    for place in [a_block(), an_instant_block()] {
        let of = |name, edit: Edit, text, field| {
            place.not_provided(Age::Archived, name, edit, text, field)
        };
        pairs.extend([
            of("AAAALULL", &as_it_is, "AAAALULL", 7),
            of("BBBBLULLXXX", &|b| given(b, 7, "BBBBLULLXXX"), "BBBBLULLXXX", 7),
            of("AAAALULL and another amount", &|b| given(b, 11, "13"), "AAAALULL", 7),
            of("AAAALULL and another debtor", &|b| given(b, 5, "Clinic"), "Clinic", 5),
        ]);
    }
    pairs
}

/// Row 32 in both messages, and 15 to 19 before field 7 is looked at.
fn refused_archived() -> Vec<Pair> {
    let mut pairs = Vec::new();
    for (profile, text) in [(Profile::FIRST, M1.to_string()), (Profile::INSTANT, i1())] {
        let other = not_provided(&text);
        let of = |name: &str, messages, ordinals: &[u16], wanted: [(&str, &str); 2]| {
            let name = format!("{}{name}", if profile.instant { "I1" } else { "M1" });
            pair_as((profile, Age::Archived), name, messages, &list(ordinals), wanted)
        };
        let offset = other.find("<Othr>").expect("row 32");
        let second = format!("SECOND REFUSED 28 element=32 offset={offset}");
        let back = ("", second.as_str());
        pairs.extend([
            of(" without BIC twice", [&other, &other], &[0, 1], [back; 2]),
            of(
                " without BIC and with, by 2, 0",
                [&other, &text],
                &[2, 0],
                [("", "REFUSED 18 k=0 field=0"), back],
            ),
            of(
                " without BIC and with, by 0",
                [&other, &text],
                &[0],
                [("", "REFUSED 17 k=0 field=0"), back],
            ),
            of(
                " without BIC and with, by 1, 0",
                [&other, &text],
                &[1, 0],
                [("AAAALULL", "REFUSED 20 k=0 field=7"), back],
            ),
        ]);
    }
    pairs
}
