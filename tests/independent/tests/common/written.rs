//! A case as the files of the crates `published` and `run_fields` have it: a letter for
//! its kind, its parts, and a line feed; each part is its length in decimal, a `:`, its
//! bytes and a `,`.

use super::asked::{self, Asked};
use super::pairs::{self, Pair};

use independent::Age;

/// What the buffer of the program `run_fields` holds.
const MOST_BYTES: usize = 262_144;

pub fn case(kind: &str, parts: &[&[u8]]) -> Vec<u8> {
    let parts: Vec<u8> = parts.iter().flat_map(|bytes| part(bytes)).collect();
    [kind.as_bytes(), &parts, b"\n"].concat()
}

fn part(bytes: &[u8]) -> Vec<u8> {
    [format!("{}:", bytes.len()).as_bytes(), bytes, b","].concat()
}

/// The two files of cases of the crate `run_fields`, read as new and as archived, and what its
/// program must print, the lines of the first file before those of the second. A case is `F` with
/// name, profile (0 the first, 1 the instant one), payment, first and last field and message,
/// which has a line for each field; or `D` with name, profile, first, second and list, which
/// has a line for each of the two ways, of which each reads the message that stands second as new.
pub fn run_fields() -> ([Vec<u8>; 2], String) {
    let (asked, pairs) = (asked::all(), pairs::all());
    let mut lines = String::new();
    let files = Age::BOTH.map(|age| {
        let asked = asked.iter().filter(|asked| asked.age == age).map(of_asked);
        let pairs = pairs.iter().filter(|pair| pair.age == age).map(of_pair);
        let mut file = Vec::new();
        for (case, answers) in asked.chain(pairs) {
            file.extend(case);
            lines += &answers;
        }
        assert!(file.len() <= MOST_BYTES, "{} bytes of cases, {age:?}", file.len());
        file
    });
    (files, lines)
}

fn of_asked(asked: &Asked) -> (Vec<u8>, String) {
    let Asked { name, profile, message, payment, fields, .. } = asked;
    let numbers = [payment, fields.start(), fields.end()].map(usize::to_string);
    let ([of, first, last], profile) = (&numbers, &profile.number().to_string());
    let parts = [name, profile, of, first, last, message].map(|part| part.as_bytes());
    let line =
        |(number, text)| format!("{name}, payment {payment}, field {number}: {}\n", quoted(text));
    (case("F", &parts), asked.texts().map(line).collect())
}

fn of_pair(pair: &Pair) -> (Vec<u8>, String) {
    let Pair { name, profile, first, second, list, .. } = pair;
    let profile = profile.number().to_string();
    let [first, second] = [first, second].map(|message| message.as_bytes());
    let parts = [name.as_bytes(), profile.as_bytes(), first, second, list];
    let lines = ["", ", back"].iter().zip(pair.answers());
    let line = |(way, (text, answer))| format!("{name}{way}: {} {answer}\n", quoted(text));
    (case("D", &parts), lines.map(line).collect())
}

fn quoted(text: &str) -> String {
    format!("{} \"{text}\"", text.len())
}
