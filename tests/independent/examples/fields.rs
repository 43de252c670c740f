//! Writes the data of the crate `run_fields` and what its program must print.
//!
//!     cargo run --release --offline --example fields FOLDER
//!
//! FOLDER/data/cases gets the cases that are read as new, FOLDER/data/archived those that are read
//! as archived, FOLDER/stdout the lines of the answers.

#[path = "../tests/common/mod.rs"]
mod common;

use std::path::Path;

fn main() -> std::io::Result<()> {
    let folder = std::env::args_os().nth(1).expect("the folder");
    let folder = Path::new(&folder);
    let ([cases, archived], lines) = common::written::run_fields();
    std::fs::create_dir_all(folder.join("data"))?;
    std::fs::write(folder.join("data/cases"), cases)?;
    std::fs::write(folder.join("data/archived"), archived)?;
    std::fs::write(folder.join("stdout"), lines)
}
