//! What the generator makes: the faults it names are the faults found, and the
//! corpus has enough of everything.

use reference::generate::faults::{on_two_lines, singles, Expected};
use reference::generate::model::Kind;
use reference::generate::{corpus, document, packed, sizes};
use reference::judging::{closure, judge, sharing, Closure, Sharing, Verdict};
use reference::random::Random;
use reference::reading::{read, Certificate, LARGEST_BUDGET};
use reference::search::swift;
use reference::stream;
use std::collections::{BTreeMap, BTreeSet};

fn check(expected: &Expected, file: &[u8]) {
    let refusal = read(file).expect_err(&format!("{}", file.escape_ascii()));
    assert_eq!(refusal.number, expected.number, "{}", file.escape_ascii());
    if expected.line.is_some() {
        assert_eq!(refusal.line, expected.line, "{}", file.escape_ascii());
    }
}

#[test]
fn single_faults_are_refused_as_named() {
    for model in [document::example(), document::wider()] {
        for single in singles(&model) {
            check(&single.expected, &single.file);
        }
        for (expected, file) in on_two_lines(&model, &mut Random::new(3), 2000) {
            check(&expected, &file);
        }
    }
}

#[test]
fn single_faults_are_on_every_kind_of_line() {
    use Kind::*;
    let mut wanted: BTreeSet<(u8, Option<Kind>)> = BTreeSet::new();
    wanted.insert((3, None));
    for kind in Kind::ALL {
        wanted.extend([3, 4, 5].map(|number| (number, Some(kind))));
    }
    wanted.extend([Arities, T, U, L, R, Merge].map(|kind| (6, Some(kind))));
    wanted.extend([(7, Final), (7, BadFinal)].map(|(number, kind)| (number, Some(kind))));
    wanted.extend([(8, L), (8, R), (9, L), (10, R), (11, Merge)].map(|(n, kind)| (n, Some(kind))));
    for model in [document::example(), document::wider()] {
        let found: BTreeSet<(u8, Option<Kind>)> = singles(&model)
            .iter()
            .map(|single| (single.expected.number, single.kind))
            .collect();
        assert_eq!(found, wanted);
    }
}

#[test]
fn the_corpus_has_every_refusal_and_verdict() {
    let files = corpus();
    assert!(files.len() >= 2000);
    let bytes: usize = files.iter().map(|file| file.len() + 2).sum();
    assert!(bytes <= 1_600_000, "{bytes}");
    let mut refusals: BTreeMap<u8, u32> = BTreeMap::new();
    let mut verdicts: BTreeMap<&str, u32> = BTreeMap::new();
    for file in &files {
        match read(file) {
            Err(refusal) => *refusals.entry(refusal.number).or_default() += 1,
            Ok(certificate) => {
                *verdicts
                    .entry(judge(&certificate, swift).name())
                    .or_default() += 1
            }
        }
    }
    // A file too long for 2 has 16 kB, so there are fewer of these.
    assert!(refusals[&2] >= 5);
    for number in 3..=11 {
        assert!(
            refusals[&number] >= 50,
            "refusal {number}: {}",
            refusals[&number]
        );
    }
    for verdict in ["accepted", "critical", "stopped", "unsuitable"] {
        assert!(verdicts[verdict] >= 50, "{verdict}");
    }
}

/// The pairs of answers that the whole verdict hides or needs, and those of them
/// that are not decided at once.
#[test]
fn the_corpus_has_the_mixed_cases() {
    let mut cases: BTreeMap<(&str, &str), u32> = BTreeMap::new();
    let mut hard: BTreeMap<(&str, &str), u32> = BTreeMap::new();
    let mut longest: BTreeMap<(&str, &str), u64> = BTreeMap::new();
    let (mut late, mut behind) = (0, [0; 2]);
    let mut examined = 0;
    for file in corpus() {
        let Ok(mut certificate) = read(&file) else {
            continue;
        };
        let (sharing, closed) = (sharing(&certificate), closure(&certificate, swift));
        let case = (sharing.name(), closed.name());
        examined += closed.examined();
        *cases.entry(case).or_default() += 1;
        let most = longest.entry(case).or_default();
        *most = closed.examined().max(*most);
        if closed.examined() > 1 {
            *hard.entry(case).or_default() += 1;
        }
        match (&sharing, &closed) {
            (Sharing::Shared { .. }, Closure::Critical(critical)) => {
                late += u32::from(critical.place > 50)
            }
            (Sharing::Shared { .. }, Closure::Stopped { .. }) => {
                certificate.budget = LARGEST_BUDGET;
                let found = matches!(closure(&certificate, swift), Closure::Critical(_));
                behind[usize::from(found)] += 1;
            }
            _ => {}
        }
    }
    println!("{cases:?} {hard:?} {longest:?} {late} {behind:?} {examined}");
    for sharing in ["shared", "none"] {
        for closure in ["critical", "closed", "stopped"] {
            let case = (sharing, closure);
            assert!(cases[&case] >= 40, "{case:?}: {}", cases[&case]);
            assert!(hard[&case] >= 40, "{case:?}: {}", hard[&case]);
            assert!(longest[&case] >= 20_000, "{case:?}: {}", longest[&case]);
        }
    }
    // Late pairs, and budgets spent with and without a pair behind them.
    assert!(late >= 20, "{late}");
    assert!(behind.iter().all(|&count| count >= 20), "{behind:?}");
    // The proved program takes 10 to 100 ns for each.
    assert!(examined <= 60_000_000, "{examined}");
}

fn rounds_to_share(certificate: &Certificate, class: u8, bad: u8) -> u32 {
    // Depth of the shallowest shared tree: rounds that use only earlier pairs.
    use reference::automaton::Table;
    let (merged, other) = (Table::merged(certificate), Table::bad(certificate));
    let mut shared: BTreeSet<(u8, u8)> = BTreeSet::new();
    for round in 1.. {
        let mut next = shared.clone();
        for (symbol, &arity) in merged.arities.iter().enumerate() {
            for row in &merged.rows[symbol] {
                for bad_row in &other.rows[symbol] {
                    let met = (0..arity)
                        .all(|n| shared.contains(&(row.arguments[n], bad_row.arguments[n])));
                    if met {
                        next.insert((row.target, bad_row.target));
                    }
                }
            }
        }
        if next.contains(&(class, bad)) {
            return round;
        }
        assert!(next.len() > shared.len());
        shared = next;
    }
    unreachable!()
}

#[test]
fn the_corpus_has_hard_ones() {
    let mut late_rule = 0;
    let mut late_place = 0;
    let mut late_first = 0;
    let mut by_variables = [0; 5];
    let mut deep = [0; 4];
    let mut accepted_with_rules = 0;
    for file in corpus() {
        let Ok(certificate) = read(&file) else {
            continue;
        };
        match judge(&certificate, swift) {
            Verdict::Critical(critical) => {
                late_rule += u32::from(critical.rule > 0);
                late_place += u32::from(critical.place > 50);
                let wide = critical.substitution.len() > 2 && critical.place > 64;
                late_first += u32::from(wide && critical.substitution[0] > 0);
                by_variables[critical.substitution.len()] += 1;
            }
            Verdict::Unsuitable { class, bad } => {
                let rounds = rounds_to_share(&certificate, class, bad);
                deep[(rounds as usize).min(4) - 1] += 1;
            }
            Verdict::Accepted { .. } => {
                accepted_with_rules += u32::from(certificate.rules.len() > 1)
            }
            Verdict::Stopped { .. } => {}
        }
    }
    println!(
        "{late_rule} {late_place} {late_first} {by_variables:?} {deep:?} {accepted_with_rules}"
    );
    assert!(late_rule >= 50, "{late_rule}");
    assert!(late_place >= 50, "{late_place}");
    assert!(late_first >= 25, "{late_first}");
    assert!(
        by_variables.iter().all(|&count| count >= 10),
        "{by_variables:?}"
    );
    assert!(deep.iter().all(|&count| count >= 20), "{deep:?}");
    assert!(accepted_with_rules >= 50, "{accepted_with_rules}");
}

#[test]
fn the_same_seed_gives_the_same_bytes() {
    let print = |seed: u64| {
        // A plain checksum of the first certificates.
        let mut sum: u64 = 0xcbf2_9ce4_8422_2325;
        for index in 0..300 {
            for byte in packed(seed, index) {
                sum = (sum ^ u64::from(byte)).wrapping_mul(0x0000_0100_0000_01b3);
            }
        }
        sum
    };
    assert_eq!(print(1), print(1));
    assert_ne!(print(1), print(2));
    assert_eq!(print(1), FIRST_SEED);
}

/// Known from one machine; the others must agree.
const FIRST_SEED: u64 = 12_432_466_019_863_992_792;

#[test]
fn random_ones_are_half_malformed_and_of_all_verdicts() {
    let count = 4000;
    let mut malformed = 0;
    let mut verdicts: BTreeMap<&str, u32> = BTreeMap::new();
    let mut unsuitable: BTreeMap<&str, u32> = BTreeMap::new();
    for index in 0..count {
        match read(&packed(9, index)) {
            Err(_) => malformed += 1,
            Ok(certificate) => {
                let verdict = judge(&certificate, swift);
                *verdicts.entry(verdict.name()).or_default() += 1;
                if matches!(verdict, Verdict::Unsuitable { .. }) {
                    let closure = closure(&certificate, swift);
                    *unsuitable.entry(closure.name()).or_default() += 1;
                }
            }
        }
    }
    assert!(
        (count * 2 / 5..count * 3 / 5).contains(&malformed),
        "{malformed}"
    );
    assert_eq!(verdicts.len(), 4);
    assert!(
        verdicts.values().all(|&number| number >= 250),
        "{verdicts:?}"
    );
    assert_eq!(unsuitable.len(), 3);
    assert!(
        unsuitable.values().all(|&number| number >= 100),
        "{unsuitable:?}"
    );
}

#[test]
fn streams_are_packed_and_split() {
    let files: Vec<Vec<u8>> = (0..50).map(|index| packed(4, index)).collect();
    let mut bytes = Vec::new();
    for file in &files {
        stream::push(&mut bytes, file);
    }
    assert_eq!(stream::split(&bytes).unwrap(), files);
    assert!(stream::split(&bytes[..bytes.len() - 1]).is_err());
    assert!(stream::split(&[0]).is_err());
    let (text, whole) = (b"=\n".repeat(25), b"=\n".repeat(24));
    let mut answers = &text[..];
    assert_eq!(stream::take_answers(&mut answers), whole);
    assert_eq!(stream::take_answers(&mut answers), b"=\n");
    assert_eq!(stream::take_answers(&mut answers), b"");
}

#[test]
fn the_longest_file_is_sound() {
    let file = sizes::longest().write();
    println!("{} bytes", file.len());
    assert!(file.len() > 8000);
    assert!(read(&file).is_ok());
}
