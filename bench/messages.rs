//! Writes the benchmark's messages to a folder, and checks with the independent implementation that each is what it is to be.
//!
//!     messages FOLDER
//!
//! N.xml: accepted, with N payments in up to 16 blocks; 64.xml is the largest that can be: 32,768 bytes, 16 blocks, 64 payments.
//! 64-instant.xml: the same under the instant profile, with rows 56 and 58 in each block and as many bytes.
//! moved.xml: the payments of 64.xml in opposite order, and reversed.rgl, the list for it; changed.xml: the same with the last remittance changed.
//! The others are refused, each after as much work as its refusal allows. All are read as new: every debtor's agent has a BIC.

use independent::{regroup, verdict, Age, Profile, Regroup, Verdict, LEAST_NUMBERS};
use std::io;
use std::path::Path;

const FIRST: Profile = Profile::FIRST;
const NEW: Age = Age::New;
const LARGEST: usize = 32_768;
const ACCOUNTS: [&str; 3] = ["LU566541234567890123", "LU699871234567898765", "LU415551234567898765"];
const ROOT: &str = "<Document xmlns=\"urn:iso:std:iso:20022:tech:xsd:pain.001.001.09\">";
const TEXT: &str = "Refund of travel to the visits of study 12, train and bus, receipts kept with the site (ref 4711/A), paid by the institute's desk in March.";

/// Payment `ordinal`, with this many bytes of remittance text.
fn payment(ordinal: usize, text: usize) -> String {
    format!(
        "<CdtTrfTxInf><PmtId><InstrId>INSTRUCTION-{ordinal:03}</InstrId><EndToEndId>E{ordinal:03}</EndToEndId></PmtId><Amt><InstdAmt Ccy=\"EUR\">{}.{:02}</InstdAmt></Amt>\
         <Cdtr><Nm>Traveller {ordinal}</Nm></Cdtr><CdtrAcct><Id><IBAN>{}</IBAN></Id></CdtrAcct>\
         <RmtInf><Ustrd>{}</Ustrd></RmtInf></CdtTrfTxInf>\n",
        100 + ordinal,
        ordinal,
        ACCOUNTS[1 + ordinal % 2],
        &TEXT[..text],
    )
}

fn cents(ordinals: &[usize]) -> String {
    let cents: usize = ordinals.iter().map(|ordinal| 100 * (100 + ordinal) + ordinal).sum();
    format!("{}.{:02}", cents / 100, cents % 100)
}

/// What row 16 and row 22 of a block hold.
fn kind_and_date(profile: Profile) -> [&'static str; 2] {
    if profile.instant {
        ["<SvcLvl><Cd>SEPA</Cd></SvcLvl><LclInstrm><Cd>INST</Cd></LclInstrm>", "<DtTm>2026-03-04T09:30:00+01:00</DtTm>"]
    } else {
        ["<SvcLvl><Cd>SEPA</Cd></SvcLvl>", "<Dt>2026-03-04</Dt>"]
    }
}

fn block(profile: Profile, number: usize, ordinals: &[usize], text: &dyn Fn(usize) -> usize) -> String {
    let [kind, date] = kind_and_date(profile);
    let payments: String = ordinals.iter().map(|ordinal| payment(*ordinal, text(*ordinal))).collect();
    format!(
        "<PmtInf><PmtInfId>B{number:02}</PmtInfId><PmtMtd>TRF</PmtMtd><NbOfTxs>{}</NbOfTxs><CtrlSum>{}</CtrlSum>\
         <PmtTpInf>{kind}</PmtTpInf><ReqdExctnDt>{date}</ReqdExctnDt><Dbtr><Nm>Institute</Nm></Dbtr>\
         <DbtrAcct><Id><IBAN>{}</IBAN></Id></DbtrAcct><DbtrAgt><FinInstnId><BICFI>AAAALULL</BICFI></FinInstnId></DbtrAgt>\n{payments}</PmtInf>\n",
        ordinals.len(),
        cents(ordinals),
        ACCOUNTS[0],
    )
}

/// A message of these payments, in as many blocks as there may be, as equal as they go.
fn message(profile: Profile, ordinals: &[usize], text: &dyn Fn(usize) -> usize) -> String {
    let each = (ordinals.len() + 15) / 16;
    let blocks: String = ordinals.chunks(each).enumerate().map(|(number, ordinals)| block(profile, number, ordinals, text)).collect();
    format!(
        "{ROOT}<CstmrCdtTrfInitn>\n<GrpHdr><MsgId>BENCH</MsgId><CreDtTm>2026-03-02T08:30:00</CreDtTm><NbOfTxs>{}</NbOfTxs><CtrlSum>{}</CtrlSum>\
         <InitgPty><Nm>Trials</Nm></InitgPty></GrpHdr>\n{blocks}</CstmrCdtTrfInitn></Document>\n",
        ordinals.len(),
        cents(ordinals),
    )
}

/// The longest texts with which the message of 64 payments is not too long; spaces at its end make it the largest.
fn largest(profile: Profile, ordinals: &[usize]) -> String {
    let rest = LARGEST - message(profile, ordinals, &|_| 1).len();
    let text = |ordinal: usize| 1 + (rest / 64) + usize::from(ordinal < rest % 64);
    let message = message(profile, ordinals, &text);
    format!("{message:<LARGEST$}")
}

fn refused(number: u32, element: u32, offset: usize) -> Verdict {
    Verdict::Refused { number, element, offset }
}

/// The message with the last of a piece made another of the same length.
fn with_last(text: &str, old: &str, new: &str) -> String {
    let at = text.rfind(old).expect("the piece");
    format!("{}{new}{}", &text[..at], &text[at + old.len()..])
}

/// Elements of one kind, as many as fit, in a root.
fn many(element: &str) -> String {
    let room = LARGEST - ROOT.len() - "</Document>".len();
    format!("{ROOT}{}</Document>", element.repeat(room / element.len()))
}

fn write(folder: &Path, name: &str, message: &str, wanted: Verdict) -> io::Result<()> {
    write_under(FIRST, folder, name, message, wanted)
}

fn write_under(profile: Profile, folder: &Path, name: &str, message: &str, wanted: Verdict) -> io::Result<()> {
    assert_eq!(verdict(profile, NEW, message.as_bytes(), &mut [0; LEAST_NUMBERS]), wanted, "{name}");
    std::fs::write(folder.join(name).with_extension("xml"), message)
}

fn main() -> io::Result<()> {
    let folder = std::env::args_os().nth(1).expect("the folder");
    let folder = Path::new(&folder);
    std::fs::create_dir_all(folder)?;
    let total = |count: usize| (0..count).map(|ordinal| (100 * (100 + ordinal) + ordinal) as u64).sum();
    for count in [1, 2, 4, 8, 16, 32] {
        let ordinals: Vec<usize> = (0..count).collect();
        let wanted = Verdict::Accepted { blocks: count.min(16) as u32, payments: count as u32, cents: total(count) };
        write(folder, &count.to_string(), &message(FIRST, &ordinals, &|_| 70), wanted)?;
    }
    let ordinals: Vec<usize> = (0..64).collect();
    let backwards: Vec<usize> = (0..64).rev().collect();
    let accepted = Verdict::Accepted { blocks: 16, payments: 64, cents: total(64) };
    let full = largest(FIRST, &ordinals);
    let moved = largest(FIRST, &backwards);
    let instant = largest(Profile::INSTANT, &ordinals);
    let changed = with_last(&moved, "<Ustrd>R", "<Ustrd>r");
    assert_eq!([full.len(), instant.len()], [LARGEST; 2]);
    write(folder, "64", &full, accepted)?;
    write_under(Profile::INSTANT, folder, "64-instant", &instant, accepted)?;
    write(folder, "moved", &moved, accepted)?;
    write(folder, "changed", &changed, accepted)?;
    let list: Vec<u8> = [1, 64].into_iter().chain(backwards.iter().map(|ordinal| *ordinal as u16)).flat_map(u16::to_be_bytes).collect();
    let list = [b"RGL", &list[..]].concat();
    std::fs::write(folder.join("reversed.rgl"), &list)?;
    assert_eq!(regroup(FIRST, NEW, full.as_bytes(), moved.as_bytes(), &list), Regroup::Accepted);
    let last = Regroup::Refused { number: 20, k: 63, field: 17 };
    assert_eq!(regroup(FIRST, NEW, full.as_bytes(), changed.as_bytes(), &list), last);

    let last_byte = format!("{}<", &full[..LARGEST - 1]);
    write(folder, "last-byte", &last_byte, refused(2, 0, LARGEST - 1))?;
    let last_sum = full.rfind("<CtrlSum>").expect("the last sum");
    let wrong_sum = with_last(&full, "<CtrlSum>6", "<CtrlSum>7");
    write(folder, "last-sum", &wrong_sum, refused(13, 15, last_sum))?;
    let last_id = full.rfind("<PmtInfId>").expect("the last block's id");
    write(folder, "last-id", &with_last(&full, "<PmtInfId>B15", "<PmtInfId>B14"), refused(11, 11, last_id))?;
    let last_text = full.rfind("<Ustrd>").expect("the last remittance") + "<Ustrd>".len();
    write(folder, "last-character", &with_last(&full, "<Ustrd>R", "<Ustrd>*"), refused(7, 49, last_text))?;
    write(folder, "siblings", &many("<a></a>"), refused(3, 1, ROOT.len()))?;
    let nested = "<a><a><a><a><a><a><a><a><a><a><a></a></a></a></a></a></a></a></a></a></a></a>";
    write(folder, "nested", &many(nested), refused(3, 1, ROOT.len()))?;
    let spaces = format!("{ROOT}{}</Document>", " ".repeat(LARGEST - ROOT.len() - "</Document>".len()));
    write(folder, "spaces", &spaces, refused(4, 2, LARGEST - "</Document>".len()))
}
