//! The two questions asked apart, and the whole verdict put together from
//! their answers.

use reference::answering::Question;
use reference::generate::document::{example, proved, CLOSED_UNSAFE};
use reference::generate::faults::singles;
use reference::generate::mixed::{unsuitable, Ending};
use reference::generate::{corpus, packed};
use reference::judging::{closure, judge, sharing, Closure, Sharing, Verdict};
use reference::random::Random;
use reference::reading::{read, Certificate};
use reference::search::swift;
use reference::{answer, answer_to, answers};

const KEYS: [&str; 7] = ["refusal", "line", "rule", "x", "class", "bad", "examined"];

/// The eight lines from the first one and the values of the others.
fn lines(first: &str, values: [&str; 7]) -> String {
    let others = KEYS.iter().zip(values);
    let others: String = others
        .map(|(key, value)| format!("{key}={value}\n"))
        .collect();
    format!("{first}\n{others}")
}

fn shared(class: &str, bad: &str) -> String {
    lines("sharing=shared", ["-", "-", "-", "-", class, bad, "-"])
}

fn none_shared() -> String {
    lines("sharing=none", ["-"; 7])
}

fn critical(rule: &str, x: &str, class: &str, examined: &str) -> String {
    lines(
        "closure=critical",
        ["-", "-", rule, x, class, "-", examined],
    )
}

fn closed(examined: &str) -> String {
    lines("closure=closed", ["-", "-", "-", "-", "-", "-", examined])
}

fn stopped(examined: &str) -> String {
    lines("closure=stopped", ["-", "-", "-", "-", "-", "-", examined])
}

fn text(question: Question, file: &[u8]) -> String {
    String::from_utf8(answer_to(question, file).1).unwrap()
}

#[test]
fn k1_to_k12() {
    let wanted = [
        ("K1", none_shared(), closed("3")),
        ("K2", none_shared(), critical("0", "3", "1", "4")),
        ("K3", shared("0", "2"), closed("1")),
        ("K4", none_shared(), critical("0", "2", "1", "3")),
        ("K5", shared("1", "2"), closed("3")),
        ("K6", none_shared(), closed("3")),
        ("K7", none_shared(), stopped("2")),
        ("K8 with 3", none_shared(), stopped("3")),
        ("K8 with 4", none_shared(), critical("0", "3", "1", "4")),
        ("K9", none_shared(), closed("0")),
        ("K10", none_shared(), critical("0", "0", "2", "1")),
        ("K11", none_shared(), critical("0", "", "0", "1")),
        ("K12", none_shared(), critical("1", "0", "2", "4")),
    ];
    let files = proved();
    assert_eq!(files.len(), wanted.len());
    for ((name, file), (wanted_name, sharing, closure)) in files.iter().zip(wanted) {
        assert_eq!(*name, wanted_name);
        assert_eq!(text(Question::Sharing, file), sharing, "{name}");
        assert_eq!(text(Question::Closure, file), closure, "{name}");
    }
}

/// The system is not safe, and closure says closed: it promises nothing of B.
#[test]
fn closed_is_not_safe() {
    let path = concat!(
        env!("CARGO_MANIFEST_DIR"),
        "/../../examples/closed-unsafe.cert"
    );
    let file = std::fs::read(path).expect("the example");
    assert_eq!(file, CLOSED_UNSAFE.as_bytes());
    let whole = lines("verdict=unsuitable", ["-", "-", "-", "-", "0", "1", "0"]);
    assert_eq!(text(Question::Verdict, &file), whole);
    assert_eq!(text(Question::Sharing, &file), shared("0", "1"));
    assert_eq!(text(Question::Closure, &file), closed("1"));
}

/// K3 with a rule that leads out of its only class: a critical pair is named
/// though the merging is unsuitable, and the budget holds for it too.
#[test]
fn critical_though_unsuitable() {
    let mut model = example();
    model.merge = vec![0; 4];
    model.arities.push(0);
    model.rules[0].1 = reference::generate::model::Tree::Symbol(3, vec![]);
    let file = model.write();
    assert_eq!(text(Question::Sharing, &file), shared("0", "2"));
    assert_eq!(text(Question::Closure, &file), critical("0", "0", "0", "1"));
    model.budget = 0;
    let file = model.write();
    assert_eq!(text(Question::Sharing, &file), shared("0", "2"));
    assert_eq!(text(Question::Closure, &file), stopped("0"));
}

#[test]
fn all_three_stand_one_behind_the_other() {
    for (_, file) in proved() {
        let (refusal, all) = answers(&file);
        assert_eq!(refusal, 0);
        let one_by_one = Question::ALL.map(|question| text(question, &file)).concat();
        assert_eq!(String::from_utf8(all).unwrap(), one_by_one);
    }
}

/// The values of an answer's eight lines; the keys are looked at here.
fn values(question: Question, file: &[u8]) -> Vec<String> {
    let text = text(question, file);
    assert!(text.ends_with('\n'));
    let parted: Vec<(&str, &str)> = text
        .lines()
        .map(|line| line.split_once('=').unwrap())
        .collect();
    let keys: Vec<&str> = parted.iter().map(|line| line.0).collect();
    assert_eq!(keys, [&[question.key()], &KEYS[..]].concat());
    parted.iter().map(|line| line.1.to_string()).collect()
}

/// What the whole verdict must be, from the lines of the two others alone.
fn together(sharing: &[String], closure: &[String]) -> Vec<String> {
    let mut whole = closure.to_vec();
    match (&sharing[0][..], &closure[0][..]) {
        ("malformed", "malformed") => assert_eq!(sharing, closure),
        ("shared", "critical" | "closed" | "stopped") => {
            whole = sharing.to_vec();
            whole[0] = "unsuitable".to_string();
            whole[7] = "0".to_string();
        }
        ("none", "closed") => whole[0] = "accepted".to_string(),
        ("none", "critical" | "stopped") => {}
        other => panic!("{other:?}"),
    }
    whole
}

#[test]
fn the_whole_verdict_is_what_the_two_say_together() {
    let random = (0..6000).map(|index| packed(21, index));
    for file in corpus().into_iter().chain(random) {
        let [whole, sharing, closure] = Question::ALL.map(|question| values(question, &file));
        assert_eq!(
            whole,
            together(&sharing, &closure),
            "{}",
            file.escape_ascii()
        );
    }
}

#[test]
fn each_refuses_by_the_same_number_and_line() {
    let files = singles(&example()).into_iter().map(|single| single.file);
    let long = [16_384, 16_385, 65_535].map(|length| vec![b'\n'; length]);
    for file in files.chain(long).chain([vec![]]) {
        let (number, whole) = answer(&file);
        assert!((2..=11).contains(&number));
        let whole = String::from_utf8(whole).unwrap();
        for question in [Question::Sharing, Question::Closure] {
            let malformed = whole.replacen("verdict", question.key(), 1);
            assert_eq!(text(question, &file), malformed);
            assert_eq!(answer_to(question, &file).0, number);
        }
    }
    let refused = |first: &str, number, line| lines(first, [number, line, "-", "-", "-", "-", "-"]);
    assert_eq!(
        text(Question::Sharing, b""),
        refused("sharing=malformed", "3", "1")
    );
    assert_eq!(
        text(Question::Closure, b""),
        refused("closure=malformed", "3", "1")
    );
    let long = vec![b'\n'; 16_385];
    assert_eq!(
        text(Question::Sharing, &long),
        refused("sharing=malformed", "2", "-")
    );
    assert_eq!(
        text(Question::Closure, &long),
        refused("closure=malformed", "2", "-")
    );
}

fn certificates(seed: u64, count: u64) -> Vec<Certificate> {
    let sound = |index| read(&packed(seed, index)).ok();
    (0..count).filter_map(sound).collect()
}

#[test]
fn sharing_looks_at_no_rule_and_no_budget() {
    for mut certificate in certificates(22, 2000) {
        let before = sharing(&certificate);
        certificate.rules.clear();
        certificate.budget = 0;
        assert_eq!(sharing(&certificate), before);
    }
}

/// Without final marks every merging is suitable, and the whole verdict is the
/// answer about closure under another word.
#[test]
fn closure_looks_at_no_final_mark_and_not_at_b() {
    for mut certificate in certificates(23, 2000) {
        let before = closure(&certificate, swift);
        certificate.a.finals.clear();
        certificate.b.finals.clear();
        certificate.b.rows.clear();
        assert_eq!(closure(&certificate, swift), before);
        let whole = match before {
            Closure::Critical(critical) => Verdict::Critical(critical),
            Closure::Closed { examined } => Verdict::Accepted { examined },
            Closure::Stopped { examined } => Verdict::Stopped { examined },
        };
        assert_eq!(judge(&certificate, swift), whole);
    }
}

#[test]
fn mixed_ones_are_as_wished() {
    let mut random = Random::new(24);
    for number in 0..300 {
        let wished = Ending::ALL[number % 3];
        let certificate = read(&unsuitable(&mut random, wished).write()).expect("sound");
        assert!(matches!(sharing(&certificate), Sharing::Shared { .. }));
        let name = match wished {
            Ending::Critical => "critical",
            Ending::Closed => "closed",
            Ending::Stopped => "stopped",
        };
        assert_eq!(closure(&certificate, swift).name(), name);
        assert_eq!(judge(&certificate, swift).name(), "unsuitable");
    }
}
