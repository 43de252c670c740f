//! Writes the data of the crate `published` and what its program must print.
//!
//!     cargo run --release --offline --example published FOLDER
//!
//! FOLDER/data/ gets four files of cases, FOLDER/stdout two lines for each case, its answers
//! under the first profile and under the instant one, both read as new. A case is `V` with name
//! and message, or `R` with name, first, second and list. A case with the letter `v` or `r` is
//! also read as archived, a regrouping's first message alone, and has two further lines. I1 and
//! its neighbours, and those with row 32, stand behind example 6.2.

#[path = "../tests/common/mod.rs"]
mod common;

use common::examples::*;
use common::written::case;
use independent::{regroup, Age, Profile};
use std::fmt::Display;
use std::path::Path;

/// The lines of a case.
fn lines<T: Display>(name: &str, archived: bool, answer: impl Fn(Profile, Age) -> T) -> String {
    let ages = [(Age::New, ""), (Age::Archived, ", archived")];
    let ages = &ages[..if archived { 2 } else { 1 }];
    let mut lines = String::new();
    for (age, how) in ages {
        let [first, instant] = Profile::BOTH.map(|profile| answer(profile, *age));
        lines += &format!("{name}{how}: {first}\n{name}, instant{how}: {instant}\n");
    }
    lines
}

fn main() -> std::io::Result<()> {
    let folder = std::env::args_os().nth(1).expect("the folder");
    let data = Path::new(&folder).join("data");
    std::fs::create_dir_all(&data)?;
    let mut stdout = String::new();
    let snippets =
        vec![accepted_snippets(), vec![withdrawn_snippet()], refused_snippets(), snippets_in_i1()];
    for (file, examples) in [
        ("whole-6.1", vec![example_1_4(), example_6_1()]),
        ("whole-6.2", vec![example_6_2(), instant_messages(), withdrawn_messages()]),
        ("snippets", snippets),
    ] {
        let mut cases = Vec::new();
        for Example { name, message, wanted } in examples.into_iter().flatten() {
            let archived = wanted.archived.is_some();
            let kind = if archived { "v" } else { "V" };
            cases.extend(case(kind, &[name.as_bytes(), message.as_bytes()]));
            let answer = |profile, age| common::judge_as(profile, age, &message);
            stdout += &lines(&name, archived, answer);
        }
        std::fs::write(data.join(file), cases)?;
    }
    let mut cases = Vec::new();
    for Regrouping { name, first, second, list, wanted } in all_regroupings() {
        let archived = wanted.archived.is_some();
        let kind = if archived { "r" } else { "R" };
        cases.extend(case(kind, &[name.as_bytes(), first.as_bytes(), second.as_bytes(), &list]));
        let (first, second) = (first.as_bytes(), second.as_bytes());
        let answer = |profile, age| regroup(profile, age, first, second, &list);
        stdout += &lines(&name, archived, answer);
    }
    std::fs::write(data.join("regroupings"), cases)?;
    std::fs::write(Path::new(&folder).join("stdout"), stdout)
}
