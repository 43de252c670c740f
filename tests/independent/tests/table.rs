//! The table: the twenty numbers of a payment, its last two pairs sentence by sentence, and how long
//! a table must be.

mod common;
use common::edits::{block_of_first, given, message, reference, remitted};
use common::*;
use independent::{field, verdict, Age, Profile, Verdict, LEAST_NUMBERS, NUMBERS_EACH};

const OLD: u32 = 0xA5A5_A5A5;
const ABSENT: [u32; 2] = [0, 0];

/// Tag and text of the element that a pair is of, or none.
type Of<'t> = Option<(&'t str, &'t str)>;

/// The numbers of each payment of a message that is accepted; all others are kept.
fn rows(profile: Profile, age: Age, message: &str) -> Vec<Vec<u32>> {
    let mut table = [OLD; LEAST_NUMBERS];
    let answer = verdict(profile, age, message.as_bytes(), &mut table);
    let Verdict::Accepted { payments, .. } = answer else { panic!("{answer:?} {message}") };
    let (filled, kept) = table.split_at(NUMBERS_EACH * payments as usize);
    assert!(kept.iter().all(|number| *number == OLD));
    filled.chunks_exact(NUMBERS_EACH).map(<[u32]>::to_vec).collect()
}

/// Start and length of the text that the one element of this tag has in payment k.
fn place(message: &str, k: usize, tag: &str, text: &str) -> [u32; 2] {
    let start = message.match_indices("<CdtTrfTxInf>").nth(k).expect("the payment").0;
    let payment = element(&message[start..], "CdtTrfTxInf");
    let whole = format!("<{tag}>{text}</{tag}>");
    assert_eq!(payment.matches(&whole).count(), 1, "{whole} in {payment}");
    let start = start + payment.find(&whole).unwrap() + tag.len() + 2;
    assert_eq!(&message[start..start + text.len()], text);
    [start as u32, text.len() as u32]
}

/// In every way that the message can be read, its payments have these last two pairs. Their first
/// sixteen numbers say what those of M1 say.
fn last_pairs(message: &str, wanted: [[Of; 2]; 2]) {
    for (profile, age, message) in read_each_way(message) {
        let rows = rows(profile, age, &message);
        assert_eq!(rows.len(), 2);
        for (k, (row, wanted)) in rows.iter().zip(&wanted).enumerate() {
            let wanted =
                wanted.map(|pair| pair.map_or(ABSENT, |(tag, text)| place(&message, k, tag, text)));
            assert_eq!(row[16..], wanted.concat(), "payment {k} of {profile:?} {age:?} {message}");
            first_sixteen(profile, &message, k, row);
        }
    }
}

/// They are those of payment k of M1, or of I1, in their meaning.
fn first_sixteen(profile: Profile, message: &str, k: usize, row: &[u32]) {
    let text = |at: usize| &message[row[at] as usize..][..row[at + 1] as usize];
    let own = [["E1", "LU699871234567898765", "A Weis"], ["E2", "LU415551234567898765", "B Klein"]];
    assert_eq!([1, 3, 5].map(text), own[k]);
    let kind = "<SvcLvl><Cd>SEPA</Cd></SvcLvl>";
    let instrument = if profile.instant { INSTRUMENT } else { "" };
    let inherited = ["Study 12", &format!("{kind}{instrument}"), "LU566541234567890123"];
    assert_eq!([7, 9, 11].map(text), inherited);
    assert_eq!([row[0], row[13], row[14]], [[0, 12, 50], [0, 22, 60]][k]);
    let payment = message.match_indices("<CdtTrfTxInf>").nth(k).unwrap().0;
    assert_eq!(row[15] as usize, payment);
}

/// M1 with this edit of payment k.
fn edited(text: &str, k: usize, edit: impl Fn(&str) -> String) -> String {
    let start = text.match_indices("<CdtTrfTxInf>").nth(k).expect("the payment").0;
    let payment = element(&text[start..], "CdtTrfTxInf");
    format!("{}{}{}", &text[..start], edit(payment), &text[start + payment.len()..])
}

fn with_bic(text: &str, k: usize, bic: &str) -> String {
    edited(text, k, |payment| given(payment, 12, bic))
}

fn with_remittance(text: &str, k: usize, content: &str) -> String {
    edited(text, k, |payment| remitted(payment, content))
}

fn plain(text: &str) -> String {
    format!("<Ustrd>{text}</Ustrd>")
}

#[test]
fn all_numbers_of_m1() {
    let wanted = [
        [0, 662, 2, 779, 20, 741, 6, 604, 8, 341, 30, 479, 20, 12, 50, 630, 0, 0, 0, 0],
        [0, 869, 2, 988, 20, 949, 7, 604, 8, 341, 30, 479, 20, 22, 60, 837, 0, 0, 0, 0],
    ];
    for age in Age::BOTH {
        assert_eq!(rows(Profile::FIRST, age, M1), wanted);
    }
    last_pairs(M1, [[None, None]; 2]);
}

/// M1's first payment with a BIC and a text, its second with a reference and its issuer: all forty.
#[test]
fn all_numbers_of_m1_with_both_pairs() {
    let text = with_remittance(&with_bic(M1, 0, "CCCCLULL"), 0, &plain("Taxi"));
    let text = with_remittance(&text, 1, &reference(Some("BBA"), "R 7"));
    let wanted = [
        [0, 662, 2, 846, 20, 808, 6, 604, 8, 341, 30, 479, 20, 12, 50, 630, 759, 8, 904, 4],
        [0, 972, 2, 1091, 20, 1052, 7, 604, 8, 341, 30, 479, 20, 22, 60, 940, 0, 0, 1226, 3],
    ];
    for age in Age::BOTH {
        assert_eq!(rows(Profile::FIRST, age, &text), wanted);
    }
}

#[test]
fn the_creditors_bic_and_no_other() {
    for bic in ["CCCCLULL", "CCCCLULLXXX"] {
        let pair = Some(("BICFI", bic));
        last_pairs(&with_bic(M1, 0, bic), [[pair, None], [None, None]]);
        last_pairs(&with_bic(M1, 1, bic), [[None, None], [pair, None]]);
        let both = with_bic(&with_bic(M1, 0, bic), 1, "DDDDLULL");
        last_pairs(&both, [[pair, None], [Some(("BICFI", "DDDDLULL")), None]]);
    }
}

#[test]
fn the_debtors_bic_is_not_the_creditors() {
    assert!(M1.contains("<DbtrAgt><FinInstnId><BICFI>AAAALULL</BICFI>"));
    last_pairs(M1, [[None, None]; 2]);
    let same = with_bic(M1, 1, "AAAALULL");
    last_pairs(&same, [[None, None], [Some(("BICFI", "AAAALULL")), None]]);
    for row in rows(Profile::FIRST, Age::New, &same) {
        assert!(row[16] == 0 || row[16] > row[15]);
    }
}

#[test]
fn the_text_of_ustrd() {
    for text in ["Taxi", "x", " 2 nights: 1 + 1 ", "AAAALULL", "E1", &"+".repeat(140)] {
        let pair = Some(("Ustrd", text));
        last_pairs(&with_remittance(M1, 0, &plain(text)), [[None, pair], [None, None]]);
        last_pairs(&with_remittance(M1, 1, &plain(text)), [[None, None], [None, pair]]);
    }
    let both = with_remittance(&with_remittance(M1, 0, &plain("Taxi")), 1, &plain("Bus"));
    last_pairs(&both, [[None, Some(("Ustrd", "Taxi"))], [None, Some(("Ustrd", "Bus"))]]);
}

#[test]
fn the_text_of_ref_and_not_its_issuers() {
    let long = "An issuer longer than the reference";
    assert_eq!(long.len(), 35);
    let issuers = [None, Some("BBA"), Some("R 7"), Some("SCOR"), Some(long)];
    for text in ["R 7", "r", "SCOR", "+++01234012401313+++", &"9".repeat(35)] {
        for issuer in issuers {
            let (content, pair) = (reference(issuer, text), Some(("Ref", text)));
            last_pairs(&with_remittance(M1, 0, &content), [[None, pair], [None, None]]);
            last_pairs(&with_remittance(M1, 1, &content), [[None, None], [None, pair]]);
        }
    }
}

/// A payment's content of row 48, and its last pair.
fn remittances() -> [(Option<String>, Of<'static>); 4] {
    [
        (None, None),
        (Some(plain("Taxi")), Some(("Ustrd", "Taxi"))),
        (Some(reference(None, "R 7")), Some(("Ref", "R 7"))),
        (Some(reference(Some("BBA"), "R 8")), Some(("Ref", "R 8"))),
    ]
}

/// Every agent with every remittance, in the first payment and in the second.
#[test]
fn each_pair_whatever_the_other_and_the_other_payment() {
    let agents = [None, Some(("BICFI", "CCCCLULLXXX"))];
    let given = |text: &str, k, agent: Of, content: &Option<String>| {
        let text = agent.map_or(text.to_string(), |(_, bic)| with_bic(text, k, bic));
        content.as_ref().map_or(text.clone(), |content| with_remittance(&text, k, content))
    };
    for [one, other] in agents.map(|one| agents.map(|other| [one, other])).concat() {
        for (content, remittance) in remittances() {
            for (other_content, other_remittance) in remittances() {
                let text = given(&given(M1, 0, one, &content), 1, other, &other_content);
                last_pairs(&text, [[one, remittance], [other, other_remittance]]);
            }
        }
    }
}

#[test]
fn an_archived_message_without_the_debtors_bic() {
    let text = with_remittance(&with_bic(M1, 1, "CCCCLULL"), 1, &plain("Taxi"));
    for (profile, text) in
        [(Profile::FIRST, text.clone()), (Profile::INSTANT, instant(&text, MOMENT))]
    {
        let other = not_provided(&text);
        let rows = [&text, &other].map(|text| rows(profile, Age::Archived, text));
        assert_eq!([rows[1][0][16..18].to_vec(), rows[1][0][18..].to_vec()], [ABSENT; 2]);
        let longer = (other.len() - text.len()) as u32;
        let [(bic, taxi), (later_bic, later_taxi)] =
            [0, 1].map(|at| (rows[at][1][16], rows[at][1][18]));
        assert_eq!((later_bic, later_taxi), (bic + longer, taxi + longer));
        assert_eq!([rows[1][1][17], rows[1][1][19]], [8, 4]);
        let mut table = [OLD; LEAST_NUMBERS];
        let answer = verdict(profile, Age::New, other.as_bytes(), &mut table);
        assert!(matches!(answer, Verdict::Refused { number: 28, element: 32, .. }));
        assert_eq!(table, [OLD; LEAST_NUMBERS]);
    }
}

#[test]
fn white_space_around_elements_is_no_part_of_a_text() {
    let text = with_remittance(&with_bic(M1, 0, "CCCCLULL"), 0, &plain(" Taxi "));
    let text = with_remittance(&text, 1, &reference(Some("BBA"), "R 7"));
    let text = text.replace("><", ">\r\n\t <");
    let text = format!("<?xml version=\"1.0\" encoding=\"UTF-8\"?>\n{text}");
    let rows = rows(Profile::FIRST, Age::New, &text);
    let [bic, taxi] =
        [("BICFI", "CCCCLULL"), ("Ustrd", " Taxi ")].map(|(t, x)| place(&text, 0, t, x));
    assert_eq!(rows[0][16..], [bic, taxi].concat());
    assert_eq!(rows[1][16..], [ABSENT, place(&text, 1, "Ref", "R 7")].concat());
}

/// What payment k of the most has: an agent or none, and each of the remittances in turn.
fn of_most(k: usize) -> (Option<String>, Option<String>, Option<(&'static str, String)>) {
    let bic = (k % 2 == 1).then(|| format!("CC{k:02}LULL"));
    match k / 2 % 4 {
        0 => (bic, Some(plain(&format!("T{k}"))), Some(("Ustrd", format!("T{k}")))),
        1 => (bic, Some(reference(None, &format!("R{k}"))), Some(("Ref", format!("R{k}")))),
        2 => (bic, Some(reference(Some("BBA"), &format!("R{k}"))), Some(("Ref", format!("R{k}")))),
        _ => (bic, None, None),
    }
}

/// 64 payments, four in each of 16 blocks.
fn most() -> String {
    let payment = |k: usize| {
        let payment = given(payments_of_m1()[0], 10, &format!("E{k}"));
        let (bic, content, _) = of_most(k);
        let payment = bic.map_or(payment.clone(), |bic| given(&payment, 12, &bic));
        content.map_or(payment.clone(), |content| remitted(&payment, &content))
    };
    let block = |b: usize| {
        let payments: Vec<String> = (4 * b..4 * b + 4).map(payment).collect();
        let block = with(&block_of_first(), payments_of_m1()[0], &payments.join("\n"));
        with(&block, ">B1<", &format!(">B{b}<"))
    };
    message(&(0..16).map(block).collect::<Vec<String>>())
}

#[test]
fn payment_k_begins_at_20k_up_to_the_last_of_64() {
    for (profile, age, text) in read_each_way(&most()) {
        let mut table = [OLD; 1400];
        let answer = verdict(profile, age, text.as_bytes(), &mut table);
        assert_eq!(answer, accepted(16, 64, 64 * 1250));
        for k in 0..64 {
            let row = &table[20 * k..20 * k + 20];
            let (bic, _, remittance) = of_most(k);
            let agent = bic.map_or(ABSENT, |bic| place(&text, k, "BICFI", &bic));
            let remitted = remittance.map_or(ABSENT, |(tag, own)| place(&text, k, tag, &own));
            assert_eq!(row[16..], [agent, remitted].concat(), "payment {k}");
            let payment = text.match_indices("<CdtTrfTxInf>").nth(k).unwrap().0;
            assert_eq!([row[0] as usize, row[15] as usize], [k / 4, payment]);
            assert_eq!(row[1..3], place(&text, k, "EndToEndId", &format!("E{k}")));
        }
        assert!(table[1280..].iter().all(|number| *number == OLD));
    }
}

#[test]
fn a_table_of_1279_numbers_is_refused_and_one_of_1280_is_enough() {
    assert_eq!((NUMBERS_EACH, LEAST_NUMBERS), (20, 1280));
    for text in [M1, &most()] {
        for (profile, age, text) in read_each_way(text) {
            for numbers in [0, 1, 40, 1024, 1278, 1279] {
                let mut table = vec![OLD; numbers];
                let answer = verdict(profile, age, text.as_bytes(), &mut table);
                assert_eq!(answer, refused(14, 0, 0), "{numbers}");
                assert_eq!(table, vec![OLD; numbers]);
            }
            let wanted = judge_as(profile, age, &text);
            let Verdict::Accepted { payments, .. } = wanted else { panic!("{wanted:?}") };
            let filled = rows(profile, age, &text).concat();
            assert_eq!(filled.len(), 20 * payments as usize);
            for numbers in [1280, 1281, 1299, 1300, 16_384] {
                let mut table = vec![OLD; numbers];
                assert_eq!(verdict(profile, age, text.as_bytes(), &mut table), wanted);
                assert_eq!(table[..filled.len()], filled);
                assert!(table[filled.len()..].iter().all(|number| *number == OLD), "{numbers}");
            }
        }
    }
}

#[test]
fn a_short_table_comes_first_whatever_the_message() {
    let (too_long, wrong) = ([b'x'; 32_769], m1("<NbOfTxs>2", "<NbOfTxs>3"));
    let messages: [(&[u8], Verdict); 5] = [
        (b"", refused(2, 0, 0)),
        (&too_long, refused(1, 0, 32_768)),
        (b"<Document>", refused(2, 0, 9)),
        (wrong.as_bytes(), refused(12, 6, 147)),
        (M1.as_bytes(), accepted(1, 2, 3510)),
    ];
    for age in Age::BOTH {
        for (message, wanted) in messages {
            let answer = |numbers| verdict(Profile::FIRST, age, message, &mut vec![0; numbers]);
            assert_eq!([1279, 1280].map(answer), [refused(14, 0, 0), wanted]);
        }
    }
}

/// The last two pairs are the parts that the reader hands back for fields 12 and 17.
#[test]
fn the_last_two_pairs_are_fields_12_and_17() {
    let mut there = [0, 0];
    for asked in asked::all() {
        let (profile, age, text) = (asked.profile, asked.age, asked.message.as_str());
        if !matches!(judge_as(profile, age, text), Verdict::Accepted { .. }) {
            continue;
        }
        for (k, row) in rows(profile, age, text).into_iter().enumerate() {
            for (ordinal, number) in [12, 17].into_iter().enumerate() {
                let (start, length) = field(profile, age, text.as_bytes(), k, number);
                let at = 16 + 2 * ordinal;
                assert_eq!(row[at..at + 2], [start as u32, length as u32], "{}", asked.name);
                there[ordinal] += u32::from(length > 0);
            }
        }
    }
    assert!(there.iter().all(|many| *many >= 5), "{there:?}");
}
