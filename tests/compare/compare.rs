//! Compares the library with the independent implementation over generated messages and pairs, through the two exported functions.
//!
//!     compare SEED MESSAGES PAIRS FOLDER COMMAND..
//!
//! COMMAND runs the driver (driver.c), which calls the library. What is lent to it lies among guard bytes in one run of bytes; the driver hands back the
//! answer and the whole run. Both must be what the independent implementation says: the answer, every byte of the table, and every other byte as it was.
//! Each call names a profile by a number, and says by a number whether the message, or the first one, is archived; a part of the messages and pairs is read
//! under both profiles, a part as new and as archived. The inputs of the first differences are written to FOLDER. It fails on any difference, and if under
//! one of the profiles, as new or as archived, a refusal that can be reached never was, or a number that can't was, or no total was as wide as the largest,
//! or a table of a length around the least was never lent with a message that is accepted if the table is long enough, or a kind of creditor's agent or of
//! remittance never stood in an accepted message.

use independent::generate::{self, last_pairs, random::Random, Pair};
use independent::{field, regroup, verdict, Age, Profile, Regroup, Verdict, LEAST_NUMBERS};
use std::collections::{BTreeMap, BTreeSet};
use std::io::{self, Read, Write};
use std::path::Path;
use std::process::{ChildStdin, ChildStdout, Command, ExitCode, Stdio};
use std::sync::mpsc::{sync_channel, SyncSender};
use std::time::Instant;

const GUARD: usize = 256;
const DIFFERENCES_SHOWN: usize = 10;
const NULL: u32 = u32::MAX;

/// Refusals of a message, of a table that is too short, and of a regrouping. No number but these and that of row 32 may ever be answered; 21 is none of them.
const OF_MESSAGES: std::ops::RangeInclusive<u64> = 1..=13;
const SHORT_TABLE: u64 = 14;
const OF_PAIRS: std::ops::RangeInclusive<u64> = 15..=20;
const FIELDS: std::ops::RangeInclusive<u64> = 1..=17;

/// Refusals and rows that come of the instant rows: standing where they never may, missing, twice, or wrong.
const OF_FIRST: [(u64, u64); 2] = [(3, 16), (3, 22)];
const OF_INSTANT: [(u64, u64); 15] =
    [(3, 16), (3, 22), (3, 56), (3, 57), (3, 58), (4, 18), (4, 23), (4, 56), (4, 57), (6, 57), (6, 58), (7, 57), (7, 58), (8, 57), (8, 58)];

/// Refusals and rows that come of the debtor's agent: of every message, of a new one and of an archived one.
const OF_AGENTS: [(u64, u64); 5] = [(3, 30), (3, 32), (3, 33), (4, 31), (4, 33)];
const OF_NEW: [(u64, u64); 1] = [(WITHDRAWN, 32)];
const OF_ARCHIVED: [(u64, u64); 3] = [(6, 33), (7, 33), (8, 33)];

/// The refusal of a new message that holds row 32.
const WITHDRAWN: u64 = 28;

/// The bits of the largest total, that of 64 payments of 99,999,999,999 cents.
const WIDEST: u64 = 43;

/// The bytes of the least table that is long enough.
const LEAST_BYTES: usize = 4 * LEAST_NUMBERS;

/// Lengths of tables, in bytes, that are lent one after the other with the same message: hardly any, all around the least, and many.
#[rustfmt::skip]
const LENGTHS: [usize; 15] = [
    0, 1, 3, 4,
    LEAST_BYTES - 4, LEAST_BYTES - 3, LEAST_BYTES - 2, LEAST_BYTES - 1,
    LEAST_BYTES, LEAST_BYTES + 1, LEAST_BYTES + 2, LEAST_BYTES + 3, LEAST_BYTES + 4,
    65_536, 65_539,
];

/// The field that is the debtor's agent, and its text where that was not provided.
const AGENT: u64 = 7;
const NOT_PROVIDED: &[u8] = b"NOTPROVIDED";

/// Numbers that name no profile, and so the first: some of their bytes or halves are those of 1.
const UNKNOWN: [u64; 4] = [2, 257, (1 << 32) + 1, u64::MAX];

/// Numbers besides 1 that say that a message is archived: some of their bytes or halves are 0.
const ARCHIVED: [u64; 5] = [2, 256, 1 << 32, 1 << 63, u64::MAX];

#[derive(Clone, Copy, PartialEq)]
enum Kind {
    Verdict = 1,
    Regroup = 2,
}

/// What the caller says with a message or a pair: the profile, and whether the message, or the first one, is archived.
#[derive(Clone, Copy)]
struct Said {
    profile: u64,
    archived: u64,
}

impl Said {
    fn profile(self) -> Profile {
        Profile::numbered(self.profile)
    }

    fn age(self) -> Age {
        Age::numbered(self.archived)
    }
}

/// One call: what is lent, and what must come back.
struct Call {
    kind: Kind,
    index: u64,
    said: Said,
    /// The agents differ, and the first message's was not provided.
    not_provided: bool,
    /// The message of a verdict is accepted if its table is long enough.
    acceptable: bool,
    /// Of each payment, if it is accepted: the elements of its last two pairs.
    last_pairs: Vec<String>,
    lent: Vec<u8>,
    /// Place and length of each part in what is lent.
    parts: [(u32, u32); 3],
    answer: [u64; 6],
    after: Vec<u8>,
}

fn main() -> ExitCode {
    let arguments: Vec<String> = std::env::args().skip(1).collect();
    let numbers: Vec<u64> = arguments.iter().take(3).map_while(|a| a.parse().ok()).collect();
    let ([seed, messages, pairs], [folder, command @ ..]) = (&numbers[..], arguments.get(3..).unwrap_or_default()) else {
        eprintln!("compare SEED MESSAGES PAIRS FOLDER COMMAND..");
        return ExitCode::from(2);
    };
    if command.is_empty() {
        eprintln!("no command that runs the driver");
        return ExitCode::from(2);
    }
    match compare(*seed, *messages, *pairs, Path::new(folder), command) {
        Ok(true) => ExitCode::SUCCESS,
        Ok(false) => ExitCode::FAILURE,
        Err(error) => {
            println!("the comparison broke off: {error}");
            ExitCode::FAILURE
        }
    }
}

/// Whether all answers agree and every refusal was reached.
fn compare(seed: u64, messages: u64, pairs: u64, folder: &Path, command: &[String]) -> io::Result<bool> {
    let start = Instant::now();
    let mut driver = Command::new(&command[0]).args(&command[1..]).stdin(Stdio::piped()).stdout(Stdio::piped()).spawn()?;
    let (to, mut from) = (driver.stdin.take().unwrap(), driver.stdout.take().unwrap());
    let (sender, calls) = sync_channel(16);
    // It ends when all is sent, or when the driver or this side has broken off.
    let asking = std::thread::spawn(move || ask(seed, messages, pairs, to, sender));
    let mut seen = SeenInEach::default();
    for call in calls {
        let (answer, after) = answer_to(&call, &mut from).map_err(|error| {
            io::Error::new(error.kind(), format!("no answer to {}: {error}", name(&call)))
        })?;
        seen.add(&call);
        if answer != call.answer || after != call.after {
            seen.differences += 1;
            report(&call, &answer, &after, folder)?;
        }
        if seen.differences == DIFFERENCES_SHOWN {
            println!("{DIFFERENCES_SHOWN} differences: the rest is not looked at");
            driver.kill()?;
            return Ok(false);
        }
    }
    asking.join().expect("the asking thread")?;
    let ended = driver.wait()?;
    println!("seed {seed}: {messages} messages and {pairs} pairs in {:.1} s", start.elapsed().as_secs_f64());
    let reached = seen.print();
    println!("{} differences", seen.differences);
    if !ended.success() {
        println!("the driver ended with {ended}");
    }
    Ok(ended.success() && reached && seen.differences == 0)
}

/// Sends every call to the driver, and first to the side that compares.
fn ask(seed: u64, messages: u64, pairs: u64, mut to: ChildStdin, compared: SyncSender<Call>) -> io::Result<()> {
    let verdicts = (0..messages).flat_map(|index| verdict_calls(seed, index));
    let regroups = (0..pairs).flat_map(|index| regroup_calls(seed, index));
    for call in verdicts.chain(regroups) {
        let mut frame = Vec::with_capacity(48 + call.lent.len());
        frame.extend(call.said.profile.to_le_bytes());
        frame.extend(call.said.archived.to_le_bytes());
        let parts = call.parts.iter().flat_map(|(place, length)| [*place, *length]);
        for number in [call.kind as u32, call.lent.len() as u32].into_iter().chain(parts) {
            frame.extend(number.to_le_bytes());
        }
        frame.extend(&call.lent);
        if compared.send(call).is_err() {
            return Ok(());
        }
        to.write_all(&frame)?;
    }
    Ok(())
}

fn answer_to(call: &Call, from: &mut ChildStdout) -> io::Result<([u64; 6], Vec<u8>)> {
    let mut bytes = [0; 48];
    from.read_exact(&mut bytes)?;
    let mut answer = [0; 6];
    for (number, bytes) in answer.iter_mut().zip(bytes.chunks_exact(8)) {
        *number = u64::from_le_bytes(bytes.try_into().unwrap());
    }
    let mut after = vec![0; call.lent.len()];
    from.read_exact(&mut after)?;
    Ok((answer, after))
}

/// How a case is read: under its own profile, and for one in eight the other too; as its own age, and for one in eight the other too.
fn readings(profile: Profile, age: Age, random: &mut Random) -> Vec<Said> {
    let profiles = one_or_both([profile, profile.other()], random);
    let ages = one_or_both([age, age.other()], random);
    let all = profiles.into_iter().flat_map(|profile| ages.iter().map(move |age| (profile, *age)));
    all.map(|(profile, age)| numbers_of(profile, age, random)).collect()
}

fn one_or_both<T: Copy>(both: [T; 2], random: &mut Random) -> Vec<T> {
    both[..if random.below(8) == 0 { 2 } else { 1 }].to_vec()
}

/// Now and then the first profile has a number that names none, and what is archived another number than 1.
fn numbers_of(profile: Profile, age: Age, random: &mut Random) -> Said {
    let (unknown, other) = (random.below(20) == 0, random.below(5) == 0);
    Said {
        profile: if unknown && !profile.instant { *random.pick(&UNKNOWN) } else { profile.number() },
        archived: if other && age == Age::Archived { *random.pick(&ARCHIVED) } else { age.number() },
    }
}

fn verdict_calls(seed: u64, index: u64) -> Vec<Call> {
    let random = &mut Random::new(seed ^ 0x7AB1E, index);
    let case = generate::case(seed, index);
    let message = if random.below(1000) == 0 { Vec::new() } else { case.message };
    let readings = readings(case.profile, case.age, random);
    let mut calls = Vec::new();
    for said in readings {
        calls.push(verdict_call(index, said, &message, table_bytes(case.table, random), random));
        if random.below(40) == 0 {
            calls.extend(LENGTHS.map(|length| verdict_call(index, said, &message, length, random)));
        }
    }
    calls
}

fn verdict_call(index: u64, said: Said, message: &[u8], table: usize, random: &mut Random) -> Call {
    let table = noise(table, random);
    let (lent, parts) = lay([message, &table, &[]], random);
    let acceptable = is_acceptable(said, message);
    let (answer, table, last_pairs) = independent_verdict(said, message, table);
    let mut after = lent.clone();
    if parts[1].0 != NULL {
        after[range(parts[1])].copy_from_slice(&table);
    }
    Call { kind: Kind::Verdict, index, said, not_provided: false, acceptable, last_pairs, lent, parts, answer, after }
}

/// Lengths around the least, odd ones, very short and long ones.
fn table_bytes(numbers: usize, random: &mut Random) -> usize {
    match random.below(40) {
        0 => random.below(LEAST_BYTES),
        1 => random.between(LEAST_BYTES - 8, LEAST_BYTES + 8),
        2 => random.between(LEAST_BYTES + 1, 2 * LEAST_BYTES),
        3 => *random.pick(&LENGTHS),
        4..=20 => 4 * numbers + random.below(4),
        _ => 4 * numbers,
    }
}

fn regroup_calls(seed: u64, index: u64) -> Vec<Call> {
    let random = &mut Random::new(seed ^ 0x115, index);
    let pair = generate::pair(seed, index);
    let readings = readings(pair.profile, pair.age, random);
    readings.into_iter().map(|said| regroup_call(index, said, &pair, random)).collect()
}

fn regroup_call(index: u64, said: Said, pair: &Pair, random: &mut Random) -> Call {
    let (lent, parts) = lay([&pair.first, &pair.second, &pair.list], random);
    let answer = independent_regroup(said, pair);
    let not_provided = answer[1] == 20 && answer[5] == AGENT && agent_of_first(said, pair, answer[4]) == NOT_PROVIDED;
    Call { kind: Kind::Regroup, index, said, not_provided, acceptable: false, last_pairs: Vec::new(), after: lent.clone(), lent, parts, answer }
}

/// The agent of the payment that the list names at k, as the first message has it.
fn agent_of_first(said: Said, pair: &Pair, k: u64) -> &[u8] {
    let at = 7 + 2 * k as usize;
    let named = u16::from_be_bytes([pair.list[at], pair.list[at + 1]]);
    let (start, length) = field(said.profile(), said.age(), &pair.first, named.into(), AGENT as usize);
    &pair.first[start..start + length]
}

/// The parts with guard bytes around each, at any alignment. An empty part is now and then a null pointer.
fn lay(parts: [&[u8]; 3], random: &mut Random) -> (Vec<u8>, [(u32, u32); 3]) {
    let mut lent = Vec::new();
    let mut places = [(NULL, 0); 3];
    for (part, place) in parts.into_iter().zip(&mut places) {
        lent.extend(noise(GUARD + random.below(16), random));
        if !part.is_empty() || random.percent(50) {
            *place = (lent.len() as u32, part.len() as u32);
        }
        lent.extend(part);
    }
    lent.extend(noise(GUARD, random));
    (lent, places)
}

fn noise(length: usize, random: &mut Random) -> Vec<u8> {
    let words = (0..length / 8 + 1).flat_map(|_| random.draw().to_le_bytes());
    words.take(length).collect()
}

fn range((place, length): (u32, u32)) -> std::ops::Range<usize> {
    place as usize..(place + length) as usize
}

fn is_acceptable(said: Said, message: &[u8]) -> bool {
    matches!(verdict(said.profile(), said.age(), message, &mut [0; LEAST_NUMBERS]), Verdict::Accepted { .. })
}

/// The independent implementation behind the exported function's interface: a table of bytes, high byte first. Then what the payments' last two pairs are of.
fn independent_verdict(said: Said, message: &[u8], mut table: Vec<u8>) -> ([u64; 6], Vec<u8>, Vec<String>) {
    let mut numbers: Vec<u32> = table.chunks_exact(4).map(|bytes| u32::from_be_bytes(bytes.try_into().unwrap())).collect();
    let (answer, last_pairs) = match verdict(said.profile(), said.age(), message, &mut numbers) {
        Verdict::Accepted { blocks, payments, cents } => {
            ([0, 0, 0, blocks.into(), payments.into(), cents], last_pairs::of(message, &numbers, payments as usize))
        }
        Verdict::Refused { number, element, offset } => ([number.into(), element.into(), offset as u64, 0, 0, 0], Vec::new()),
    };
    for (bytes, number) in table.chunks_exact_mut(4).zip(numbers) {
        bytes.copy_from_slice(&number.to_be_bytes());
    }
    (answer, table, last_pairs)
}

fn independent_regroup(said: Said, pair: &Pair) -> [u64; 6] {
    match regroup(said.profile(), said.age(), &pair.first, &pair.second, &pair.list) {
        Regroup::Accepted => [0; 6],
        Regroup::Message { whose, refusal } => {
            [whose.into(), refusal.number.into(), refusal.element.into(), refusal.offset as u64, 0, 0]
        }
        Regroup::Refused { number, k, field } => [0, number.into(), 0, 0, k.into(), field.into()],
    }
}

fn name(call: &Call) -> String {
    let (kind, table) = match call.kind {
        Kind::Verdict => ("verdict", format!(" table {}", call.parts[1].1)),
        Kind::Regroup => ("regrouping", String::new()),
    };
    format!("{kind} {}{table} profile {} archived {}", call.index, call.said.profile, call.said.archived)
}

fn report(call: &Call, answer: &[u64; 6], after: &[u8], folder: &Path) -> io::Result<()> {
    let (fields, files) = match call.kind {
        Kind::Verdict => ("number element offset blocks payments cents", ["message", "table", ""]),
        Kind::Regroup => ("whose number element offset k field", ["first", "second", "list"]),
    };
    println!("DIFFERENT: {} ({fields})", name(call));
    println!("  independent {:?}", call.answer);
    println!("  library     {answer:?}");
    let differing: Vec<usize> = (0..after.len()).filter(|at| after[*at] != call.after[*at]).collect();
    if let Some(first) = differing.first() {
        let part = call.parts.iter().position(|part| part.0 != NULL && range(*part).contains(first));
        let place = part.map_or("outside all parts".to_string(), |part| {
            format!("byte {} of the {}", first - call.parts[part].0 as usize, files[part])
        });
        println!("  {} bytes differ, the first {place}: {} for {}", differing.len(), after[*first], call.after[*first]);
    }
    for (part, file) in call.parts.iter().zip(files).filter(|(part, _)| part.0 != NULL && part.1 > 0) {
        let path = folder.join(format!("{}-{file}", name(call).replace(' ', "-")));
        std::fs::write(&path, &call.lent[range(*part)])?;
        println!("  {} bytes in {}", part.1, path.display());
    }
    Ok(())
}

/// How often each number was the answer, and on which elements or fields.
#[derive(Default)]
struct Reached(BTreeMap<u64, (u64, BTreeSet<u64>)>);

impl Reached {
    fn add(&mut self, number: u64, what: u64) {
        let (times, whats) = self.0.entry(number).or_default();
        *times += 1;
        whats.insert(what);
    }

    fn print(&self, title: &str, what: &str) {
        println!("{title}");
        for (number, (times, whats)) in &self.0 {
            let number = if *number == 0 { "accepted".to_string() } else { number.to_string() };
            let whats: Vec<String> = whats.iter().filter(|what| **what > 0).map(u64::to_string).collect();
            let whats = if whats.is_empty() { String::new() } else { format!("  {what} {}", whats.join(" ")) };
            println!("{number:>10} {times:>7}{whats}");
        }
    }

    fn print_numbers(&self, title: &str) {
        let numbers: Vec<String> = self.0.iter().map(|(number, (times, _))| format!("{number} {times} times")).collect();
        println!("{title}: {}", numbers.join(", "));
    }

    /// Says which of these rows was never refused by its number; whether all were.
    fn on(&self, wanted: &[(u64, u64)], of: &str) -> bool {
        let seen = |(number, row): &(u64, u64)| self.0.get(number).is_some_and(|(_, rows)| rows.contains(row));
        let missing: Vec<&(u64, u64)> = wanted.iter().filter(|wanted| !seen(wanted)).collect();
        if !missing.is_empty() {
            println!("NEVER REACHED: {of}, refusal and row {missing:?}");
        }
        missing.is_empty()
    }

    /// Says which of these numbers is missing; whether none is.
    fn all(&self, numbers: impl Iterator<Item = u64>, of: &str) -> bool {
        let missing: Vec<u64> = numbers.filter(|number| !self.0.contains_key(number)).collect();
        if !missing.is_empty() {
            println!("NEVER REACHED: {of} {missing:?}");
        }
        missing.is_empty()
    }

    /// Says which numbers besides these were reached, which can't be; whether none was.
    fn only(&self, numbers: impl Iterator<Item = u64>, of: &str) -> bool {
        let numbers: BTreeSet<u64> = numbers.collect();
        let others = self.0.keys().filter(|number| !numbers.contains(number));
        others.filter(|number| !self.never(**number, of)).count() == 0
    }

    /// Says that this number was reached, which can't be; whether it was not.
    fn never(&self, number: u64, of: &str) -> bool {
        let times = self.0.get(&number).map_or(0, |(times, _)| *times);
        if times > 0 {
            println!("REACHED: {of} {number}, {times} times");
        }
        times == 0
    }
}

/// A profile and an age, with what was seen of it.
struct Each {
    instant: bool,
    age: Age,
    seen: Seen,
}

struct SeenInEach {
    differences: usize,
    each: Vec<Each>,
    /// The numbers that named the profile of a verdict, and of a regrouping.
    verdicts: Reached,
    regroupings: Reached,
    /// The numbers that said whether the message of a verdict is archived, and the first of a regrouping.
    messages: Reached,
    firsts: Reached,
}

impl Default for SeenInEach {
    fn default() -> Self {
        let all = Profile::BOTH.into_iter().flat_map(|profile| Age::BOTH.map(|age| (profile.instant, age)));
        SeenInEach {
            differences: 0,
            each: all.map(|(instant, age)| Each { instant, age, seen: Seen::default() }).collect(),
            verdicts: Reached::default(),
            regroupings: Reached::default(),
            messages: Reached::default(),
            firsts: Reached::default(),
        }
    }
}

impl SeenInEach {
    fn add(&mut self, call: &Call) {
        let own = |each: &&mut Each| each.instant == call.said.profile().instant && each.age == call.said.age();
        self.each.iter_mut().find(own).expect("one of the four").seen.add(call);
        let (profiles, ages) = match call.kind {
            Kind::Verdict => (&mut self.verdicts, &mut self.messages),
            Kind::Regroup => (&mut self.regroupings, &mut self.firsts),
        };
        profiles.add(call.said.profile, 0);
        ages.add(call.said.archived, 0);
    }

    /// Whether under each profile, as new and as archived, all that can be reached was and nothing else.
    fn print(&self) -> bool {
        self.verdicts.print_numbers("profiles of verdicts");
        self.regroupings.print_numbers("profiles of regroupings");
        self.messages.print_numbers("archived of verdicts");
        self.firsts.print_numbers("archived of regroupings");
        let profiles = || [0, 1].into_iter().chain(UNKNOWN);
        let ages = || [0, 1].into_iter().chain(ARCHIVED);
        let named = [
            self.verdicts.all(profiles(), "a verdict's profile"),
            self.regroupings.all(profiles(), "a regrouping's profile"),
            self.messages.all(ages(), "a verdict's archived"),
            self.firsts.all(ages(), "a regrouping's archived"),
        ];
        let reached: Vec<bool> = self.each.iter().map(Each::print).collect();
        named.into_iter().chain(reached).all(|reached| reached)
    }
}

impl Each {
    /// Whether all that can be reached was, and nothing else.
    fn print(&self) -> bool {
        let seen = &self.seen;
        let profile = if self.instant { "instant" } else { "first" };
        let archived = self.age == Age::Archived;
        let name = format!("{profile} profile, {}", if archived { "archived" } else { "new" });
        let rows: &[(u64, u64)] = if self.instant { &OF_INSTANT } else { &OF_FIRST };
        let of_age: &[(u64, u64)] = if archived { &OF_ARCHIVED } else { &OF_NEW };
        let withdrawn = || std::iter::once(WITHDRAWN);
        let of_first = format!("{name}, the first message's refusal");
        let mut held = vec![
            seen.print(&name),
            seen.tables.print(&name),
            seen.messages.on(rows, &name),
            seen.messages.on(&OF_AGENTS, &name),
            seen.messages.on(of_age, &name),
            seen.seconds.all(withdrawn(), &format!("{name}, the second message's refusal")),
        ];
        let not_provided = format!("{name}, differing field, the agent not provided in the first message");
        if archived {
            seen.not_provided.print_numbers(&not_provided);
            held.push(seen.messages.never(WITHDRAWN, &format!("{name}, verdict")));
            held.push(seen.firsts.never(WITHDRAWN, &of_first));
            held.push(seen.not_provided.all(std::iter::once(AGENT), &not_provided));
        } else {
            held.push(seen.firsts.all(withdrawn(), &of_first));
            held.push(seen.not_provided.never(AGENT, &not_provided));
        }
        held.into_iter().all(|held| held)
    }
}

#[derive(Default)]
struct Seen {
    messages: Reached,
    firsts: Reached,
    seconds: Reached,
    pairs: Reached,
    fields: Reached,
    /// The field that differs since the first message holds row 32.
    not_provided: Reached,
    /// How many bits a total has that 32 can't hold.
    totals: Reached,
    tables: Tables,
}

/// What was seen of tables.
#[derive(Default)]
struct Tables {
    /// How often a table of so many bytes was answered how, the message being acceptable or not.
    answers: BTreeMap<(bool, usize), BTreeMap<&'static str, u64>>,
    /// Of which elements the last two pairs of accepted payments are.
    last_pairs: BTreeMap<String, u64>,
}

impl Tables {
    fn add(&mut self, call: &Call) {
        let answer = match call.answer[0] {
            0 => "accepted",
            SHORT_TABLE => "too short",
            _ => "refused otherwise",
        };
        let length = call.parts[1].1 as usize;
        *self.answers.entry((call.acceptable, length)).or_default().entry(answer).or_default() += 1;
        for elements in &call.last_pairs {
            *self.last_pairs.entry(elements.clone()).or_default() += 1;
        }
    }

    /// Whether all lengths were lent, with acceptable messages and with others, and whether the last two pairs were of all elements that they can be of.
    fn print(&self, name: &str) -> bool {
        let held = [
            self.lengths(true, &format!("{name}, bytes of tables, the message acceptable")),
            self.lengths(false, &format!("{name}, bytes of tables, the message not acceptable")),
            self.elements(&format!("{name}, creditor's agent and remittance of accepted payments")),
        ];
        held.into_iter().all(|held| held)
    }

    /// Whether each length was lent, too short exactly below the least, and answered by the message's own verdict from there on.
    fn lengths(&self, acceptable: bool, title: &str) -> bool {
        let own = if acceptable { "accepted" } else { "refused otherwise" };
        let none = BTreeMap::new();
        let (mut lent, mut missing) = (Vec::new(), Vec::new());
        for length in LENGTHS {
            let answers = self.answers.get(&(acceptable, length)).unwrap_or(&none);
            lent.extend(answers.iter().map(|(answer, times)| format!("{length} {answer} {times} times")));
            let wanted = if length < LEAST_BYTES { "too short" } else { own };
            if !answers.keys().eq([&wanted]) {
                missing.push(length);
            }
        }
        println!("{title}: {}", lent.join(", "));
        if !missing.is_empty() {
            println!("NEVER LENT, or answered otherwise: {title} {missing:?}");
        }
        missing.is_empty()
    }

    fn elements(&self, title: &str) -> bool {
        let seen: Vec<String> = self.last_pairs.iter().map(|(elements, times)| format!("{elements} {times} times")).collect();
        println!("{title}: {}", seen.join("; "));
        let all = last_pairs::all();
        let missing: Vec<&String> = all.iter().filter(|elements| !self.last_pairs.contains_key(*elements)).collect();
        let others: Vec<&String> = self.last_pairs.keys().filter(|elements| !all.contains(elements)).collect();
        if !missing.is_empty() {
            println!("NEVER REACHED: {title} {missing:?}");
        }
        if !others.is_empty() {
            println!("REACHED: {title} {others:?}");
        }
        missing.is_empty() && others.is_empty()
    }
}

impl Seen {
    fn add(&mut self, call: &Call) {
        let answer = &call.answer;
        if call.not_provided {
            self.not_provided.add(answer[5], 0);
        }
        if call.kind == Kind::Verdict && answer[5] >= 1 << 32 {
            self.totals.add(u64::from(u64::BITS - answer[5].leading_zeros()), 0);
        }
        match (call.kind, answer[0]) {
            (Kind::Verdict, number) => {
                self.messages.add(number, answer[1]);
                self.tables.add(call);
            }
            (Kind::Regroup, 0) => {
                self.pairs.add(answer[1], answer[5]);
                if answer[1] == 20 {
                    self.fields.add(answer[5], 0);
                }
            }
            (Kind::Regroup, 1) => self.firsts.add(answer[1], answer[2]),
            (Kind::Regroup, _) => self.seconds.add(answer[1], answer[2]),
        }
    }

    /// Whether all that can be reached was, whichever the profile and the age.
    fn print(&self, name: &str) -> bool {
        let titled = |what| format!("{name}, {what}");
        self.messages.print(&titled("verdicts"), "elements");
        self.pairs.print(&titled("regroupings"), "fields");
        self.firsts.print(&titled("regroupings, the first message refused"), "elements");
        self.seconds.print(&titled("regroupings, the second message refused"), "elements");
        let totals = titled("bits of totals above 32 bits");
        self.totals.print_numbers(&totals);
        let of_verdicts = || [0, SHORT_TABLE].into_iter().chain(OF_MESSAGES);
        let of_pairs = || std::iter::once(0).chain(OF_PAIRS);
        let of_messages = || OF_MESSAGES.chain([WITHDRAWN]);
        let [first, second] = ["the first message's refusal", "the second message's refusal"].map(titled);
        [
            self.messages.all(of_verdicts(), &titled("verdict")),
            self.messages.only(of_verdicts().chain([WITHDRAWN]), &titled("verdict")),
            self.totals.all(std::iter::once(WIDEST), &totals),
            self.pairs.all(of_pairs(), &titled("regrouping")),
            self.pairs.only(of_pairs(), &titled("regrouping")),
            self.firsts.all(std::iter::once(2), &first),
            self.firsts.only(of_messages(), &first),
            self.seconds.all(std::iter::once(2), &second),
            self.seconds.only(of_messages(), &second),
            self.fields.all(FIELDS, &titled("differing field")),
        ]
        .into_iter()
        .all(|reached| reached)
    }
}
