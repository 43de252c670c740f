//! The programs' printed lines.

mod common;
use common::*;
use std::fs;
use std::io::Write;
use std::path::PathBuf;
use std::process::{Command, Stdio};

fn run(arguments: &[&str], input: &[u8]) -> (Vec<u8>, Option<i32>) {
    let mut child = Command::new(env!("CARGO_BIN_EXE_independent"))
        .args(arguments)
        .stdin(Stdio::piped())
        .stdout(Stdio::piped())
        .stderr(Stdio::null())
        .spawn()
        .unwrap();
    let _ = child.stdin.take().unwrap().write_all(input);
    let output = child.wait_with_output().unwrap();
    (output.stdout, output.status.code())
}

fn printed(arguments: &[&str], input: &[u8]) -> String {
    String::from_utf8(run(arguments, input).0).unwrap()
}

fn file(name: &str, contents: &[u8]) -> String {
    let path = PathBuf::from(env!("CARGO_TARGET_TMPDIR")).join(name);
    fs::write(&path, contents).unwrap();
    path.to_string_lossy().into_owned()
}

const ACCEPTED: &str = "\
ACCEPTED blocks=1 payments=2 cents=3510
0 0 LU566541234567890123 LU699871234567898765 1250 E1
1 0 LU566541234567890123 LU415551234567898765 2260 E2
";

#[test]
fn verdict_and_form() {
    assert_eq!(printed(&["verdict"], M1.as_bytes()), ACCEPTED);
    let wrong = m1("<NbOfTxs>2", "<NbOfTxs>3");
    let line = "REFUSED 12 element=6 offset=147\n";
    assert_eq!(printed(&["verdict"], wrong.as_bytes()), line);
    let (one, two) = (file("one.xml", M1.as_bytes()), file("two.xml", wrong.as_bytes()));
    assert_eq!(printed(&["verdict", &one], b""), ACCEPTED);
    let both = printed(&["verdict", &one, &two], b"");
    let named: String = ACCEPTED.lines().map(|line| format!("{one}: {line}\n")).collect();
    assert_eq!(both, format!("{named}{two}: {line}"));
    assert_eq!(printed(&["verdict", "no such file"], b""), "REFUSED 2 element=0 offset=0\n");
    assert_eq!(printed(&["verdict", "--instant"], i1().as_bytes()), ACCEPTED);
    assert_eq!(printed(&["verdict", "--instant", &one], b""), "REFUSED 4 element=56 offset=371\n");
    assert_eq!(printed(&["verdict"], i1().as_bytes()), "REFUSED 3 element=16 offset=371\n");
    let other = not_provided(M1);
    let withdrawn = format!("REFUSED 28 element=32 offset={}\n", other.find("<Othr>").unwrap());
    assert_eq!(printed(&["verdict"], other.as_bytes()), withdrawn);
    assert_eq!(printed(&["verdict", "--archived"], other.as_bytes()), ACCEPTED);
    assert_eq!(printed(&["verdict", "--archived", &one], b""), ACCEPTED);
    let other = not_provided(&i1());
    for flags in [["--instant", "--archived"], ["--archived", "--instant"]] {
        let arguments = [&["verdict"][..], &flags].concat();
        assert_eq!(printed(&arguments, other.as_bytes()), ACCEPTED);
    }
    assert_eq!(printed(&["form"], M1.as_bytes()), "of the form\n");
    assert_eq!(printed(&["form"], b"<Document>"), "refused at 9\n");
}

#[test]
fn regrouping() {
    let first = file("first.xml", M1.as_bytes());
    let second = file("second.xml", m2().as_bytes());
    let third = file("third.xml", m3().as_bytes());
    let wrong = file("wrong.xml", m1(">M1<", ">M_<").as_bytes());
    let (rising, falling) = (file("01.rgl", &list(&[0, 1])), file("10.rgl", &list(&[1, 0])));
    let answer = |arguments: [&str; 3]| printed(&[&["regroup"][..], &arguments].concat(), b"");
    assert_eq!(answer([&first, &second, &falling]), "ACCEPTED\n");
    assert_eq!(answer([&first, &second, &rising]), "REFUSED 20 k=0 field=10\n");
    assert_eq!(answer([&first, &third, &rising]), "REFUSED 20 k=1 field=8\n");
    assert_eq!(answer([&first, &third, "no such list"]), "REFUSED 16 k=0 field=0\n");
    assert_eq!(answer([&wrong, "none", &rising]), "FIRST REFUSED 7 element=4 offset=100\n");
    assert_eq!(answer([&first, "none", &rising]), "SECOND REFUSED 2 element=0 offset=0\n");
    let instant = file("instant.xml", i1().as_bytes());
    let answer =
        |arguments: [&str; 3]| printed(&[&["regroup", "--instant"][..], &arguments].concat(), b"");
    assert_eq!(answer([&instant, &instant, &rising]), "ACCEPTED\n");
    assert_eq!(answer([&instant, &instant, &falling]), "REFUSED 20 k=0 field=10\n");
    assert_eq!(answer([&instant, &first, &rising]), "SECOND REFUSED 4 element=56 offset=371\n");
    let other = not_provided(M1);
    let withdrawn = format!("REFUSED 28 element=32 offset={}\n", other.find("<Othr>").unwrap());
    let other = file("other.xml", other.as_bytes());
    let answer = |flag: Option<&str>, messages: [&str; 2]| {
        let flags: Vec<&str> = ["regroup"].into_iter().chain(flag).collect();
        printed(&[&flags[..], &messages, &[&rising]].concat(), b"")
    };
    let archived = Some("--archived");
    assert_eq!(answer(None, [&other, &first]), format!("FIRST {withdrawn}"));
    assert_eq!(answer(archived, [&other, &first]), "REFUSED 20 k=0 field=7\n");
    assert_eq!(answer(archived, [&other, &other]), format!("SECOND {withdrawn}"));
    assert_eq!(answer(archived, [&first, &first]), "ACCEPTED\n");
}

#[test]
fn framed_cases() {
    let (framed, code) = run(&["cases", "5", "20"], b"");
    assert_eq!(code, Some(0));
    let mut rest = &framed[..];
    for index in 0..20 {
        let (profile, after) = rest.split_first_chunk::<4>().unwrap();
        let (archived, after) = after.split_first_chunk::<4>().unwrap();
        let (length, after) = after.split_first_chunk::<4>().unwrap();
        let (message, after) = after.split_at(u32::from_le_bytes(*length) as usize);
        let case = independent::generate::case(5, index);
        assert_eq!(u64::from(u32::from_le_bytes(*profile)), case.profile.number());
        assert_eq!(u64::from(u32::from_le_bytes(*archived)), case.age.number());
        assert_eq!(message, case.message);
        rest = after;
    }
    assert!(rest.is_empty());
    let counted = printed(&["count", "5", "20"], b"");
    assert!(counted.starts_with("first profile, new messages"));
    assert!(counted.contains("\ninstant profile, archived first of pairs"));
}

#[test]
fn wrong_arguments_are_answered_with_the_usage() {
    for arguments in [
        &[][..],
        &["what"],
        &["regroup", "a"],
        &["regroup", "--instant", "a", "b"],
        &["regroup", "--archived", "a", "b"],
        &["cases", "x", "1"],
        &["count"],
    ] {
        assert_eq!(run(arguments, b""), (Vec::new(), Some(2)));
    }
}
