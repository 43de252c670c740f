//! Of which elements the last two pairs of a payment's numbers are: so that it can be counted that
//! generated messages have all of them.

use crate::NUMBERS_EACH;

const AGENTS: [&str; 2] = ["BICFI", "none"];
const REMITTANCES: [&str; 4] = ["Ustrd", "Ref", "Issr and Ref", "none"];

/// All that there can be.
pub fn all() -> Vec<String> {
    let with = |agent| REMITTANCES.map(|remittance| format!("{agent}, {remittance}"));
    AGENTS.into_iter().flat_map(with).collect()
}

/// Those of each payment of an accepted message, whose table this is.
pub fn of(message: &[u8], table: &[u32], payments: usize) -> Vec<String> {
    let rows = table.chunks_exact(NUMBERS_EACH).take(payments);
    rows.map(|row| format!("{}, {}", element(message, row, 16), element(message, row, 18)))
        .collect()
}

/// The tag before the part that begins there, an issuer's with it.
fn element(message: &[u8], row: &[u32], at: usize) -> String {
    if row[at..at + 2] == [0, 0] {
        return "none".to_string();
    }
    let before = message.get(row[15] as usize..row[at] as usize);
    let before = String::from_utf8_lossy(before.unwrap_or_default());
    let tag = before.rsplit('<').next().unwrap_or_default().trim_end_matches('>');
    let issuer = if tag == "Ref" && before.contains("</Issr>") { "Issr and " } else { "" };
    format!("{issuer}{tag}")
}
