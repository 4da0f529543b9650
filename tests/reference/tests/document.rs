//! The paper's own certificates, with the answers it gives for them.

use reference::answer;
use reference::generate::document::{example, proved, run, EXAMPLE};

/// The eight lines from their values, in the paper's order.
fn lines(values: [&str; 8]) -> String {
    let keys = [
        "verdict", "refusal", "line", "rule", "x", "class", "bad", "examined",
    ];
    keys.iter()
        .zip(values)
        .map(|(key, value)| format!("{key}={value}\n"))
        .collect()
}

fn accepted(examined: &str) -> String {
    lines(["accepted", "-", "-", "-", "-", "-", "-", examined])
}

fn stopped(examined: &str) -> String {
    lines(["stopped", "-", "-", "-", "-", "-", "-", examined])
}

fn critical(rule: &str, x: &str, class: &str, examined: &str) -> String {
    lines(["critical", "-", "-", rule, x, class, "-", examined])
}

fn unsuitable(class: &str, bad: &str) -> String {
    lines(["unsuitable", "-", "-", "-", "-", class, bad, "0"])
}

fn malformed(refusal: &str, line: &str) -> String {
    lines(["malformed", refusal, line, "-", "-", "-", "-", "-"])
}

fn text(file: &[u8]) -> String {
    String::from_utf8(answer(file).1).unwrap()
}

#[test]
fn the_example_is_answered_letter_by_letter() {
    let wanted = "verdict=accepted\nrefusal=-\nline=-\nrule=-\nx=-\nclass=-\nbad=-\nexamined=3\n";
    assert_eq!(text(EXAMPLE.as_bytes()), wanted);
    assert_eq!(example().write(), EXAMPLE.as_bytes());
}

#[test]
fn k1_to_k12() {
    let wanted = [
        ("K1", accepted("3")),
        ("K2", critical("0", "3", "1", "4")),
        ("K3", unsuitable("0", "2")),
        ("K4", critical("0", "2", "1", "3")),
        ("K5", unsuitable("1", "2")),
        ("K6", accepted("3")),
        ("K7", stopped("2")),
        ("K8 with 3", stopped("3")),
        ("K8 with 4", critical("0", "3", "1", "4")),
        ("K9", accepted("0")),
        ("K10", critical("0", "0", "2", "1")),
        ("K11", critical("0", "", "0", "1")),
        ("K12", critical("1", "0", "2", "4")),
    ];
    let files = proved();
    assert_eq!(files.len(), wanted.len());
    for ((name, file), (wanted_name, wanted)) in files.iter().zip(wanted) {
        assert_eq!(*name, wanted_name);
        assert_eq!(answer(file).0, 0, "{name}");
        assert_eq!(text(file), wanted, "{name}");
    }
}

#[test]
fn the_run_list() {
    let wanted = [
        ("merge=0,2,1,0", 11, "20"),
        ("merge=0,1,2", 6, "20"),
        ("l=2,x1", 9, "18"),
        ("r=2,1", 8, "19"),
        ("r=2,x1", 10, "19"),
        ("final=1,1", 7, "4"),
        ("final=4", 5, "4"),
    ];
    let files = run();
    assert_eq!(files.len(), wanted.len());
    for ((name, file), (wanted_name, number, line)) in files.iter().zip(wanted) {
        assert_eq!(*name, wanted_name);
        assert_eq!(answer(file).0, number, "{name}");
        assert_eq!(text(file), malformed(&number.to_string(), line), "{name}");
    }
}

/// The example with one line put in place of another.
fn with(old: &str, new: &str) -> Vec<u8> {
    let old = format!("\n{old}\n");
    let whole = format!("\n{EXAMPLE}");
    assert_eq!(whole.matches(&old).count(), 1, "{old:?}");
    whole.replace(&old, &format!("\n{new}\n")).as_bytes()[1..].to_vec()
}

fn refused(old: &str, new: &str, number: u8, line: u32) {
    let file = with(old, new);
    assert_eq!(answer(&file).0, number, "{new:?}");
    assert_eq!(
        text(&file),
        malformed(&number.to_string(), &line.to_string()),
        "{new:?}"
    );
}

/// The whole line is looked through before its number is chosen.
#[test]
fn the_smallest_number_on_a_line() {
    refused("t=0,0", "t=9,x", 4, 6);
    refused("t=0,0", "t=x,9", 4, 6);
    refused("t=0,0", "t=9", 5, 6);
    refused("t=0,0", "t=0,9,9", 5, 6);
    refused("t=0,0", "t=0,0,9", 5, 6);
    refused("t=0,0", "t=0,0,0", 6, 6);
    refused("t=0,0", "t=0", 6, 6);
    refused("u=0,0", "u=0,3", 5, 14);
    refused("u=0,0", "u=3,0", 5, 14);
    let tokens = |last: &str| format!("l={},{last}", vec!["1"; 24].join(","));
    refused("l=2,x0", &tokens("x4"), 5, 18);
    refused("l=2,x0", &tokens("x"), 4, 18);
    refused("l=2,x0", &tokens("0"), 6, 18);
    refused("l=2,x0", &tokens("1"), 6, 18);
    let arities =
        |count: usize, last: &str| format!("arities=0,1,1{},{last}", ",0".repeat(count - 4));
    refused("arities=0,1,1", &arities(66, "4"), 5, 2);
    refused("arities=0,1,1", &arities(66, "x"), 4, 2);
    refused("arities=0,1,1", &arities(66, "0"), 6, 2);
    refused("arities=0,1,1", &arities(65, "0"), 6, 2);
    assert_eq!(
        text(&with("arities=0,1,1", &arities(64, "0"))),
        accepted("3")
    );
    refused("final=1", "final=3,2,1,0,0", 7, 4);
    refused("final=1", "final=2,1,4", 5, 4);
    refused("final=1", "final=2,1,", 4, 4);
    refused("merge=0,1,2,0", "merge=0,2,32", 5, 20);
    refused("merge=0,1,2,0", "merge=0,2,1", 6, 20);
    refused("merge=0,1,2,0", "merge=1,1,2,0", 11, 20);
    refused("merge=0,1,2,0", "merge=0,31,2,0", 11, 20);
    refused("merge=0,1,2,0", "merge=", 4, 20);
    refused("l=2,x0", "l=x0,x1", 8, 18);
    refused("l=2,x0", "l=x1", 9, 18);
    refused("l=2,x0", "l=x0", 9, 18);
    refused("r=2,1,1,x0", "r=x0,x1", 8, 19);
    refused("r=2,1,1,x0", "r=x3", 10, 19);
}

#[test]
fn numbers_and_tokens() {
    for (value, number) in [
        ("budget=33554433", 5),
        ("budget=99999999", 5),
        ("budget=100000000", 4),
        ("budget=01", 4),
        ("budget=00", 4),
        ("budget=", 4),
        ("budget=1,2", 4),
        ("budget=1 ", 4),
        ("budget=1\r", 4),
        ("budget=-1", 4),
        ("budget", 3),
        ("Budget=1", 3),
        ("budget =1", 3),
    ] {
        let file = format!("{value}{}", &EXAMPLE[11..]);
        assert_eq!(
            text(file.as_bytes()),
            malformed(&number.to_string(), "1"),
            "{value:?}"
        );
    }
    for (token, number) in [
        ("x4", 5),
        ("x99999999", 5),
        ("x100000000", 4),
        ("x", 4),
        ("x00", 4),
        ("X0", 4),
        ("3", 5),
    ] {
        refused("r=2,1,1,x0", &format!("r=2,{token}"), number, 19);
    }
    assert_eq!(text(&with("badfinal=2", "badfinal=")), accepted("3"));
    assert_eq!(text(&with("final=1", "final=")), accepted("3"));
}

#[test]
fn missing_lines_and_lines_too_many() {
    refused("trans=5", "trans=4", 3, 10);
    refused("trans=5", "trans=6", 3, 11);
    refused("rules=1", "rules=2", 3, 20);
    refused("rules=1", "rules=0", 3, 18);
    refused("states=4", "states=33", 5, 3);
    refused("trans=5", "trans=129", 5, 5);
    refused("rules=1", "rules=33", 5, 17);
    for (file, line) in [
        ("".to_string(), "1"),
        ("budget=1000".to_string(), "1"),
        ("budget=1000\n".to_string(), "2"),
        (EXAMPLE[..EXAMPLE.len() - 1].to_string(), "20"),
        (format!("{EXAMPLE}\n"), "21"),
        (format!("{EXAMPLE} "), "21"),
        (format!("{EXAMPLE}\0"), "21"),
        (format!("{EXAMPLE}{EXAMPLE}"), "21"),
    ] {
        assert_eq!(text(file.as_bytes()), malformed("3", line), "{file:?}");
    }
}

#[test]
fn files_too_long() {
    let long = |length: usize| {
        let mut file = EXAMPLE.as_bytes().to_vec();
        file.resize(length, b'\n');
        file
    };
    assert_eq!(text(&long(16_384)), malformed("3", "21"));
    assert_eq!(text(&long(16_385)), malformed("2", "-"));
    assert_eq!(text(&long(65_535)), malformed("2", "-"));
}

/// Budget 0 with a rule is stopped; the larger budgets follow.
#[test]
fn budgets() {
    for (budget, wanted) in [
        ("0", stopped("0")),
        ("2", stopped("2")),
        ("3", accepted("3")),
        ("33554432", accepted("3")),
    ] {
        let file = EXAMPLE.replace("budget=1000", &format!("budget={budget}"));
        assert_eq!(text(file.as_bytes()), wanted);
    }
}

/// The slips that the paper warns of.
#[test]
fn slips_that_look_right() {
    // Two final marks that share no tree: class 1 and state 2 of B.
    assert_eq!(text(&with("u=2,1,2", "u=2,2,2")), accepted("3"));
    // A right side with several classes is not blamed.
    let several =
        "budget=9\narities=0,1\nstates=3\nfinal=\ntrans=4\nt=0,0\nt=0,1\nt=1,0,0\nt=1,1,2\n\
        badstates=1\nbadfinal=\nbadtrans=0\nrules=2\nl=0\nr=0\nl=1,0\nr=1,0\nmerge=0,1,2\n";
    assert_eq!(text(several.as_bytes()), accepted("2"));
    // A repeated variable has one class: f(x0) has class 0 under x0 = 0, but
    // g(x0,x0) has it only for the arguments 0 and 1.
    let repeated = "budget=9\narities=1,2\nstates=2\nfinal=\ntrans=2\nt=0,0,0\nt=1,0,1,0\n\
        badstates=1\nbadfinal=\nbadtrans=0\nrules=1\nl=0,x0\nr=1,x0,x0\nmerge=0,1\n";
    assert_eq!(text(repeated.as_bytes()), critical("0", "0", "0", "1"));
    // The variables of the left side count, also those the right side drops.
    let dropped = "budget=9\narities=2\nstates=2\nfinal=\ntrans=0\n\
        badstates=1\nbadfinal=\nbadtrans=0\nrules=1\nl=0,x0,x1\nr=x1\nmerge=0,1\n";
    assert_eq!(text(dropped.as_bytes()), accepted("4"));
}
