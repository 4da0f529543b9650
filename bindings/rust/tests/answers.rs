//! The linked checker, called from Rust: the examples' answers, those to the two questions, the refusals, and the bytes that must stay.
use mergecheck::{answer, check, closure, sharing, Answered, Closure, CriticalPair, Refusal, Sharing, BUFFER};
use std::path::PathBuf;

fn example(name: &str) -> Vec<u8> {
    let path = PathBuf::from(env!("CARGO_MANIFEST_DIR")).join("../../examples").join(name);
    std::fs::read(&path).unwrap_or_else(|e| panic!("{}: {e}", path.display()))
}

fn lines(values: [&str; 8]) -> String {
    let keys = ["verdict", "refusal", "line", "rule", "x", "class", "bad", "examined"];
    keys.iter().zip(values).map(|(key, value)| format!("{key}={value}\n")).collect()
}

#[test]
fn worked_certificates() {
    let accepted = |n| lines(["accepted", "-", "-", "-", "-", "-", "-", n]);
    let stopped = |n| lines(["stopped", "-", "-", "-", "-", "-", "-", n]);
    let unsuitable = |class, bad| lines(["unsuitable", "-", "-", "-", "-", class, bad, "0"]);
    let critical = |rule, x, class, n| lines(["critical", "-", "-", rule, x, class, "-", n]);
    let table = [
        ("K1", accepted("3")),
        ("K2", critical("0", "3", "1", "4")),
        ("K3", unsuitable("0", "2")),
        ("K4", critical("0", "2", "1", "3")),
        ("K5", unsuitable("1", "2")),
        ("K6", accepted("3")),
        ("K7", stopped("2")),
        ("K8a", stopped("3")),
        ("K8b", critical("0", "3", "1", "4")),
        ("K9", accepted("0")),
        ("K10", critical("0", "0", "2", "1")),
        ("K11", critical("0", "", "0", "1")),
        ("K12", critical("1", "0", "2", "4")),
    ];
    for (name, expected) in table {
        assert_eq!(answer(&example(&format!("{name}.cert"))), expected, "{name}");
    }
}

fn closed(examined: u32) -> Closure {
    Closure::Closed { examined }
}

fn stopped(examined: u32) -> Closure {
    Closure::Stopped { examined }
}

fn critical(rule: u8, x: &[u8], class: u8, examined: u32) -> Closure {
    Closure::Critical { pair: CriticalPair { rule, x: x.to_vec(), class }, examined }
}

#[test]
fn worked_certificates_of_the_two_questions() {
    let none = Sharing::None;
    let shared = |class, bad| Sharing::Shared { class, bad };
    let table = [
        ("K1", none, closed(3)),
        ("K2", none, critical(0, &[3], 1, 4)),
        ("K3", shared(0, 2), closed(1)),
        ("K4", none, critical(0, &[2], 1, 3)),
        ("K5", shared(1, 2), closed(3)),
        ("K6", none, closed(3)),
        ("K7", none, stopped(2)),
        ("K8a", none, stopped(3)),
        ("K8b", none, critical(0, &[3], 1, 4)),
        ("K9", none, closed(0)),
        ("K10", none, critical(0, &[0], 2, 1)),
        ("K11", none, critical(0, &[], 0, 1)),
        ("K12", none, critical(1, &[0], 2, 4)),
        ("closed-unsafe", shared(0, 1), closed(1)),
    ];
    for (name, about_sharing, about_closure) in table {
        let file = example(&format!("{name}.cert"));
        assert_eq!(sharing(&file), about_sharing, "{name}");
        assert_eq!(closure(&file), about_closure, "{name}");
    }
}

/// The example with pieces of its text replaced, each of which stands there once.
fn changed(changes: &[(&str, &str)]) -> Vec<u8> {
    let mut text = String::from_utf8(example("K1.cert")).unwrap();
    for (old, new) in changes {
        assert_eq!(text.matches(old).count(), 1, "{old:?}");
        text = text.replace(old, new);
    }
    text.into_bytes()
}

/// K5's merging, with K10's rule as a second one: the whole verdict does not tell the critical pair, and closure does.
#[test]
fn critical_though_unsuitable() {
    let two_rules = ("rules=1\nl=2,x0\nr=2,1,1,x0\n", "rules=2\nl=2,x0\nr=2,1,1,x0\nl=1,x0\nr=x0\n");
    let merging = ("merge=0,1,2,0\n", "merge=0,1,2,2\n");
    let file = changed(&[two_rules, merging]);
    assert_eq!(answer(&file), lines(["unsuitable", "-", "-", "-", "-", "1", "2", "0"]));
    assert_eq!(sharing(&file), Sharing::Shared { class: 1, bad: 2 });
    assert_eq!(closure(&file), critical(1, &[0], 2, 4));
    let file = changed(&[two_rules, merging, ("budget=1000\n", "budget=3\n")]);
    assert_eq!(sharing(&file), Sharing::Shared { class: 1, bad: 2 });
    assert_eq!(closure(&file), stopped(3));
}

/// All four places of `x` in use: the place counts `x0` as the most significant.
#[test]
fn four_variables() {
    let file = b"budget=99\narities=2\nstates=2\nfinal=\ntrans=2\nt=0,1,0,1\nt=0,1,1,0\nbadstates=1\nbadfinal=\nbadtrans=0\n\
        rules=1\nl=0,0,x0,x1,0,x2,x3\nr=x0\nmerge=0,1\n";
    assert_eq!(sharing(file), Sharing::None);
    assert_eq!(closure(file), critical(0, &[1, 0, 1, 0], 0, 11));
}

#[test]
fn refusals_of_the_two_questions() {
    let mut behind = example("K1.cert");
    behind.push(b'\n');
    let table = [
        (vec![], 3, Some(1)),
        (vec![0u8; 16384], 3, Some(1)),
        (vec![0u8; 16385], 2, None),
        (behind, 3, Some(21)),
        (changed(&[("merge=0,1,2,0\n", "merge=0,2,1,0\n")]), 11, Some(20)),
        (changed(&[("\nfinal=1\n", "\nfinal=1,1\n")]), 7, Some(4)),
    ];
    for (file, number, line) in table {
        assert_eq!(sharing(&file), Sharing::Malformed(Refusal { number, line }));
        assert_eq!(closure(&file), Closure::Malformed(Refusal { number, line }));
    }
}

#[test]
fn short_buffers_stay() {
    let file = example("K1.cert");
    for length in 0..BUFFER {
        let mut out = vec![0xA5u8; length];
        assert_eq!(check(&file, &mut out), Answered { refusal: 1, length: 0 });
        assert!(out.iter().all(|&b| b == 0xA5), "a buffer of {length} bytes was written to");
    }
}

#[test]
fn later_bytes_stay() {
    for name in ["K1.cert", "K2.cert", "K3.cert", "K7.cert", "K11.cert"] {
        let file = example(name);
        for length in [BUFFER, BUFFER + 1, 200, 4096] {
            let mut out = vec![0xA5u8; length];
            let got = check(&file, &mut out);
            assert_eq!(got.refusal, 0);
            assert!(out[..got.length].iter().all(|&b| b != 0xA5));
            assert!(out[got.length..].iter().all(|&b| b == 0xA5), "{name}: a byte behind the answer was written to");
        }
    }
}

#[test]
fn refusals() {
    let refused = |number, line| lines(["malformed", number, line, "-", "-", "-", "-", "-"]);
    assert_eq!(answer(b""), refused("3", "1"));
    assert_eq!(answer(&[0u8; 16384]), refused("3", "1"));
    assert_eq!(answer(&[0u8; 16385]), refused("2", "-"));
    let mut file = example("K1.cert");
    file.push(b'\n');
    assert_eq!(answer(&file), refused("3", "21"));
    let mut out = [0u8; BUFFER];
    assert_eq!(check(&file, &mut out).refusal, 3);
}
