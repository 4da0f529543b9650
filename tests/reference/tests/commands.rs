//! The commands, run as a program.

use reference::generate::document::{proved, CLOSED_UNSAFE};
use reference::{answer_to, answering::Question, answers, stream};
use std::io::Write;
use std::path::PathBuf;
use std::process::{Command, Stdio};

/// Runs a command on this input; its exit status and output.
fn run(words: &[&str], input: &[u8]) -> (Option<i32>, Vec<u8>) {
    let mut child = Command::new(env!("CARGO_BIN_EXE_reference"))
        .args(words)
        .stdin(Stdio::piped())
        .stdout(Stdio::piped())
        .spawn()
        .expect("the program runs");
    let mut to_child = child.stdin.take().expect("its input");
    to_child.write_all(input).expect("it reads");
    drop(to_child);
    let output = child.wait_with_output().expect("it ends");
    (output.status.code(), output.stdout)
}

/// K1 to K12, the closed, unsafe one and an empty file, packed.
fn packed() -> (Vec<Vec<u8>>, Vec<u8>) {
    let mut files: Vec<Vec<u8>> = proved().into_iter().map(|(_, file)| file).collect();
    files.extend([CLOSED_UNSAFE.as_bytes().to_vec(), vec![]]);
    let mut packed = Vec::new();
    files
        .iter()
        .for_each(|file| stream::push(&mut packed, file));
    (files, packed)
}

#[test]
fn each_question_of_one_file() {
    for (_, file) in proved() {
        for (word, question) in [
            ("answer", Question::Verdict),
            ("sharing", Question::Sharing),
            ("closure", Question::Closure),
        ] {
            let (status, output) = run(&[word], &file);
            assert_eq!(status, Some(0));
            assert_eq!(output, answer_to(question, &file).1);
        }
    }
}

#[test]
fn all_questions_of_a_stream() {
    let (files, packed) = packed();
    let wanted: Vec<u8> = files.iter().flat_map(|file| answers(file).1).collect();
    assert_eq!(run(&["answers"], &packed), (Some(0), wanted));
}

/// A file of this test's own to hand to a command.
fn kept(name: &str, bytes: &[u8]) -> PathBuf {
    let path = PathBuf::from(env!("CARGO_TARGET_TMPDIR")).join(name);
    std::fs::write(&path, bytes).expect("the file is written");
    path
}

/// What `compare` says of these answers to the packed files.
fn compared(name: &str, given: &[u8]) -> (Option<i32>, String) {
    let certificates = kept(&format!("{name}-stream"), &packed().1);
    let others = kept(&format!("{name}-answers"), given);
    let words = [
        "compare",
        certificates.to_str().unwrap(),
        others.to_str().unwrap(),
    ];
    let (status, output) = run(&words, b"");
    (status, String::from_utf8(output).unwrap())
}

#[test]
fn compare_counts_every_kind() {
    let own = run(&["answers"], &packed().1).1;
    let (status, report) = compared("same", &own);
    let mut wanted: String = [
        ("accepted", 3),
        ("closure closed", 6),
        ("closure critical", 6),
        ("closure malformed", 1),
        ("closure stopped", 2),
        ("critical", 6),
        ("malformed  3", 1),
        ("sharing malformed", 1),
        ("sharing none", 11),
        ("sharing shared", 3),
        ("stopped", 2),
        ("suitable and stopped", 2),
        ("unsuitable", 3),
        ("unsuitable and closed", 3),
    ]
    .map(|(kind, count)| format!("{kind:<24}{count:>8}\n"))
    .concat();
    wanted += "15 certificates, 0 differences\n";
    assert_eq!((status, report), (Some(0), wanted));
}

#[test]
fn compare_finds_a_difference_in_any_answer() {
    let own = String::from_utf8(run(&["answers"], &packed().1).1).unwrap();
    for word in ["verdict=accepted", "sharing=none", "closure=closed"] {
        let (status, report) = compared(
            &word.replace('=', "-"),
            own.replacen(word, "", 1).as_bytes(),
        );
        assert_eq!(status, Some(1));
        assert!(
            report.ends_with("15 certificates, 1 differences\n"),
            "{report}"
        );
        assert!(
            report.starts_with("difference at certificate 0,"),
            "{report}"
        );
    }
    let (status, report) = compared("longer", format!("{own}\n").as_bytes());
    assert_eq!(status, Some(1));
    assert!(report.starts_with("1 bytes stand behind"), "{report}");
}
