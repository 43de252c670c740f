//! Edits of M1 that give a payment a field, and counts and sums that are right after them.

use super::*;
use independent::values::cents;

/// The text of M1, of its block or of its first payment, with this text in a field of the
/// first payment; one that M1 does not have is put in. Of 15, 16 and 17 the lower comes first.
pub fn given(text: &str, field: usize, value: &str) -> String {
    let instead = |old| with(text, old, value);
    let before = |piece: &str, element: String| with(text, piece, &format!("{element}{piece}"));
    let after = |piece: &str, element: String| with(text, piece, &format!("{piece}{element}"));
    let last = |element| before("</CdtTrfTxInf>", element);
    let agent = format!("<CdtrAgt><FinInstnId><BICFI>{value}</BICFI></FinInstnId></CdtrAgt>");
    match field {
        1 => after("</PmtMtd>", format!("<BtchBookg>{value}</BtchBookg>")),
        2 => before("<SvcLvl>", format!("<InstrPrty>{value}</InstrPrty>")),
        3 => before("</PmtTpInf>", format!("<CtgyPurp><Cd>{value}</Cd></CtgyPurp>")),
        4 => instead("2026-03-04"),
        5 => instead("Institute"),
        6 => instead("LU566541234567890123"),
        7 if value == "NOTPROVIDED" => {
            with(text, element(text, "BICFI"), "<Othr><Id>NOTPROVIDED</Id></Othr>")
        }
        7 => instead("AAAALULL"),
        8 => instead("Study 12"),
        9 => before("<EndToEndId>", format!("<InstrId>{value}</InstrId>")),
        10 => with(text, ">E1<", &format!(">{value}<")),
        11 => with(text, ">12.5<", &format!(">{value}<")),
        12 => before("<Cdtr>", agent),
        13 => instead("A Weis"),
        14 => instead("LU699871234567898765"),
        15 => last(format!("<UltmtCdtr><Nm>{value}</Nm></UltmtCdtr>")),
        16 => last(format!("<Purp><Cd>{value}</Cd></Purp>")),
        17 => remitted(text, &format!("<Ustrd>{value}</Ustrd>")),
        _ => panic!("no field {field}"),
    }
}

/// The text with this in its first ReqdExctnDt.
pub fn dated(text: &str, content: &str) -> String {
    let date = format!("<ReqdExctnDt>{content}</ReqdExctnDt>");
    with(text, element(text, "ReqdExctnDt"), &date)
}

pub fn moment(text: &str) -> String {
    format!("<DtTm>{text}</DtTm>")
}

/// The text with all these fields given.
pub fn filled(text: &str, fields: &[(usize, &str)]) -> String {
    fields.iter().fold(text.to_string(), |text, (field, value)| given(&text, *field, value))
}

/// The first payment with this in its RmtInf.
pub fn remitted(text: &str, content: &str) -> String {
    with(text, "</CdtTrfTxInf>", &format!("<RmtInf>{content}</RmtInf></CdtTrfTxInf>"))
}

pub fn reference(issuer: Option<&str>, text: &str) -> String {
    let issuer = issuer.map_or(String::new(), |issuer| format!("<Issr>{issuer}</Issr>"));
    let kind = format!("<Tp><CdOrPrtry><Cd>SCOR</Cd></CdOrPrtry>{issuer}</Tp>");
    format!("<Strd><CdtrRefInf>{kind}<Ref>{text}</Ref></CdtrRefInf></Strd>")
}

/// A block whose PmtTpInf or UltmtDbtr stands in its first payment.
pub fn moved(block: &str, name: &str) -> String {
    let moved = element(block, name);
    let rest = with(block, moved, "");
    match name {
        "PmtTpInf" => with(&rest, "<Amt>", &format!("{moved}<Amt>")),
        _ => with(&rest, "</Amt>", &format!("</Amt>{moved}")),
    }
}

/// M1's block with its first payment alone.
pub fn block_of_first() -> String {
    with(element(M1, "PmtInf"), &format!("{}\n", payments_of_m1()[1]), "")
}

/// M1 with these blocks in place of its own.
pub fn message(blocks: &[String]) -> String {
    recounted(&m1(element(M1, "PmtInf"), &blocks.join("\n")))
}

/// The message with the true counts and sums, in the header and in each block.
pub fn recounted(message: &str) -> String {
    let (header, rest) = message.split_once("<PmtInf>").expect("a block");
    let blocks = rest.split("<PmtInf>").map(|block| counted(block, block));
    let pieces: Vec<String> = std::iter::once(counted(header, rest)).chain(blocks).collect();
    pieces.join("<PmtInf>")
}

/// The first count and sum of a text made those of the payments.
fn counted(text: &str, payments: &str) -> String {
    let amounts = payments.split("<InstdAmt Ccy=\"EUR\">").skip(1);
    let amounts = amounts.map(|rest| rest.split('<').next().expect("the amount"));
    let amounts: Vec<u64> = amounts.map(|text| cents(text.as_bytes()).expect("cents")).collect();
    let sum: u64 = amounts.iter().sum();
    let (count, sum) = (amounts.len(), format!("{}.{:02}", sum / 100, sum % 100));
    let text = with(text, element(text, "NbOfTxs"), &format!("<NbOfTxs>{count}</NbOfTxs>"));
    with(&text, element(&text, "CtrlSum"), &format!("<CtrlSum>{sum}</CtrlSum>"))
}
