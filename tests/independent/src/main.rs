//! The command line: verdict, form, regroup, and the generator's cases.

use independent::generate::{self, Case, Pair};
use independent::{
    form, regroup, verdict, Age, Profile, Regroup, Verdict, LEAST_NUMBERS, NUMBERS_EACH,
};
use std::collections::{BTreeMap, BTreeSet};
use std::ffi::OsString;
use std::fs;
use std::io::{self, BufWriter, Read, Write};
use std::process::ExitCode;

const USAGE: &str = "\
independent verdict [--instant] [--archived] [FILE..]
independent form [FILE..]
independent regroup [--instant] [--archived] FIRST SECOND LIST
independent cases SEED N     N messages, each after its profile, 1 if it is archived or else 0,
                             and its length (u32, low byte first)
independent pairs SEED N     N times a profile, 1 if the first message is archived or else 0,
                             and first, second and list after their lengths
independent count SEED N     how often each refusal is reached in N messages and N pairs

--instant: read under the instant profile
--archived: read as archived; of a regrouping the first message";

fn main() -> ExitCode {
    let arguments: Vec<OsString> = std::env::args_os().skip(1).collect();
    let mut out = BufWriter::new(io::stdout().lock());
    match run(&arguments, &mut out).and_then(|known| out.flush().map(|()| known)) {
        Ok(true) => ExitCode::SUCCESS,
        Ok(false) => {
            let _ = writeln!(io::stderr(), "{USAGE}");
            ExitCode::from(2)
        }
        Err(_) => ExitCode::FAILURE,
    }
}

/// Whether the arguments were understood.
fn run(arguments: &[OsString], out: &mut impl Write) -> io::Result<bool> {
    let Some((command, rest)) = arguments.split_first() else { return Ok(false) };
    let (profile, age, named) = said_by_flags(rest);
    match (command.to_str(), rest) {
        (Some("verdict"), _) => {
            each_file(named, |message| verdict_lines(profile, age, message), out)?;
        }
        (Some("form"), files) => each_file(files, form_lines, out)?,
        (Some("regroup"), _) => {
            let [first, second, list] = named else { return Ok(false) };
            let [first, second, list] = [first, second, list].map(contents);
            let answer = regroup(profile, age, &first, &second, &list);
            writeln!(out, "{answer}")?;
        }
        (Some(command @ ("cases" | "pairs" | "count")), [seed, many]) => {
            let (Some(seed), Some(many)) = (number(seed), number(many)) else { return Ok(false) };
            generated(command, seed, many, out)?;
        }
        _ => return Ok(false),
    }
    Ok(true)
}

/// What `--instant` and `--archived`, or their absence, say, and what follows.
fn said_by_flags(arguments: &[OsString]) -> (Profile, Age, &[OsString]) {
    let (mut profile, mut age, mut rest) = (Profile::FIRST, Age::New, arguments);
    while let Some((flag, behind)) = rest.split_first() {
        match flag.to_str() {
            Some("--instant") => profile = Profile::INSTANT,
            Some("--archived") => age = Age::Archived,
            _ => break,
        }
        rest = behind;
    }
    (profile, age, rest)
}

fn number(argument: &OsString) -> Option<u64> {
    argument.to_str()?.parse().ok()
}

/// A file that cannot be read counts as empty.
fn contents(file: &OsString) -> Vec<u8> {
    fs::read(file).unwrap_or_default()
}

fn each_file(
    files: &[OsString],
    lines: impl Fn(&[u8]) -> Vec<String>,
    out: &mut impl Write,
) -> io::Result<()> {
    if files.is_empty() {
        let mut message = Vec::new();
        io::stdin().lock().read_to_end(&mut message)?;
        return lines(&message).iter().try_for_each(|line| writeln!(out, "{line}"));
    }
    for file in files {
        let prefix =
            if files.len() == 1 { String::new() } else { format!("{}: ", file.to_string_lossy()) };
        for line in lines(&contents(file)) {
            writeln!(out, "{prefix}{line}")?;
        }
    }
    Ok(())
}

fn form_lines(message: &[u8]) -> Vec<String> {
    vec![match form(message) {
        Ok(_) => "of the form".to_string(),
        Err(offset) => format!("refused at {offset}"),
    }]
}

fn verdict_lines(profile: Profile, age: Age, message: &[u8]) -> Vec<String> {
    let mut table = [0; LEAST_NUMBERS];
    let answer = verdict(profile, age, message, &mut table);
    let payments = match answer {
        Verdict::Accepted { payments, .. } => payments as usize,
        Verdict::Refused { .. } => 0,
    };
    let rows = table.chunks_exact(NUMBERS_EACH).take(payments).enumerate();
    let payments = rows.map(|(ordinal, row)| payment_line(message, ordinal, row));
    std::iter::once(answer.to_string()).chain(payments).collect()
}

fn payment_line(message: &[u8], ordinal: usize, row: &[u32]) -> String {
    let text = |at: usize| {
        let start = row[at] as usize;
        let part = message.get(start..start + row[at + 1] as usize);
        String::from_utf8_lossy(part.unwrap_or(&[])).into_owned()
    };
    let cents = u64::from(row[13]) * 100 + u64::from(row[14]);
    format!("{ordinal} {} {} {} {cents} {}", row[0], text(11), text(3), text(1))
}

fn generated(command: &str, seed: u64, many: u64, out: &mut impl Write) -> io::Result<()> {
    match command {
        "cases" => (0..many).try_for_each(|index| {
            let case = generate::case(seed, index);
            framed(case.profile, case.age, &[case.message], out)
        }),
        "pairs" => (0..many).try_for_each(|index| {
            let pair = generate::pair(seed, index);
            framed(pair.profile, pair.age, &[pair.first, pair.second, pair.list], out)
        }),
        _ => count(seed, many, out),
    }
}

fn framed(profile: Profile, age: Age, parts: &[Vec<u8>], out: &mut impl Write) -> io::Result<()> {
    for number in [profile.number(), age.number()] {
        out.write_all(&(number as u32).to_le_bytes())?;
    }
    parts.iter().try_for_each(|bytes| {
        out.write_all(&(bytes.len() as u32).to_le_bytes())?;
        out.write_all(bytes)
    })
}

/// How often each number was reached, and on which elements or fields.
#[derive(Default)]
struct Reached(BTreeMap<u32, (u64, BTreeSet<u32>)>);

impl Reached {
    fn add(&mut self, number: u32, element: u32) {
        let (times, elements) = self.0.entry(number).or_default();
        *times += 1;
        elements.insert(element);
    }

    fn print(&self, title: &str, out: &mut impl Write) -> io::Result<()> {
        writeln!(out, "{title}")?;
        for (number, (times, elements)) in &self.0 {
            let name = if *number == 0 { "accepted".to_string() } else { number.to_string() };
            let elements: Vec<String> = elements.iter().map(u32::to_string).collect();
            writeln!(out, "{name:>8} {times:>7}  on {}", elements.join(" "))?;
        }
        Ok(())
    }
}

fn count(seed: u64, many: u64, out: &mut impl Write) -> io::Result<()> {
    for (profile, name) in Profile::BOTH.into_iter().zip(["first", "instant"]) {
        for (age, how) in Age::BOTH.into_iter().zip(["new", "archived"]) {
            let read_so = (profile, age);
            let cases = (0..many).map(|index| generate::case(seed, index));
            let pairs = (0..many).map(|index| generate::pair(seed, index));
            let cases = cases.filter(|case| (case.profile, case.age) == read_so);
            let pairs = pairs.filter(|pair| (pair.profile, pair.age) == read_so);
            let title = format!("{name} profile, {how} messages (refusal, times, elements)");
            reached_by(cases).print(&title, out)?;
            let title = format!("{name} profile, {how} first of pairs (the same, or fields)");
            reached_by_pairs(pairs).print(&title, out)?;
        }
    }
    Ok(())
}

fn reached_by(cases: impl Iterator<Item = Case>) -> Reached {
    let mut reached = Reached::default();
    for case in cases {
        match verdict(case.profile, case.age, &case.message, &mut vec![0; case.table]) {
            Verdict::Accepted { .. } => reached.add(0, 0),
            Verdict::Refused { number, element, .. } => reached.add(number, element),
        }
    }
    reached
}

fn reached_by_pairs(pairs: impl Iterator<Item = Pair>) -> Reached {
    let mut reached = Reached::default();
    for pair in pairs {
        match regroup(pair.profile, pair.age, &pair.first, &pair.second, &pair.list) {
            Regroup::Accepted => reached.add(0, 0),
            Regroup::Message { refusal, .. } => reached.add(refusal.number, refusal.element),
            Regroup::Refused { number, field, .. } => reached.add(number, field),
        }
    }
    reached
}
