//! Both searches, the budget, and the sharing of trees, on random certificates,
//! for unsuitable mergings too.

use reference::answering::{self, judged};
use reference::automaton::{sharing, Table};
use reference::generate::hidden::hidden_unsuitable;
use reference::generate::mixed::{unsuitable, Ending};
use reference::generate::valid::{valid, Wish};
use reference::judging::{self, closure, judge, total, Closure, Sharing, Verdict};
use reference::random::Random;
use reference::reading::{read, Certificate, LARGEST_BUDGET};
use reference::search::{plain, swift, Critical};
use std::collections::{BTreeMap, BTreeSet};

fn certificates(seed: u64, count: usize) -> Vec<Certificate> {
    let mut random = Random::new(seed);
    (0..count)
        .map(|number| read(&valid(&mut random, Wish::ALL[number % 4]).write()).expect("sound"))
        .collect()
}

#[test]
fn both_searches_agree() {
    let mut random = Random::new(5);
    let mut critical = 0;
    for certificate in certificates(1, 3000) {
        let merged = Table::merged(&certificate);
        let all = total(&certificate);
        let budgets = [
            u64::from(certificate.budget),
            u64::from(LARGEST_BUDGET),
            random.below(all as usize + 2) as u64,
        ];
        for budget in budgets {
            let one = plain(&merged, &certificate.rules, budget);
            let other = swift(&merged, &certificate.rules, budget);
            assert_eq!(one, other, "budget {budget}: {certificate:?}");
            critical += u32::from(one.is_some());
        }
        assert_eq!(judge(&certificate, plain), judge(&certificate, swift));
        assert_eq!(closure(&certificate, plain), closure(&certificate, swift));
    }
    assert!(critical > 1000, "{critical}");
}

#[test]
fn both_searches_agree_on_closure_where_the_merging_is_unsuitable() {
    let mut random = Random::new(8);
    let mut models = Vec::new();
    for number in 0..600 {
        models.push(unsuitable(&mut random, Ending::ALL[number % 3]));
    }
    models.extend((0..60).map(|_| hidden_unsuitable(&mut random)));
    let mut met: BTreeMap<&str, u32> = BTreeMap::new();
    for model in models.iter().filter(|model| model.total() < 300_000) {
        let certificate = read(&model.write()).expect("sound");
        let sharing = judging::sharing(&certificate);
        assert!(matches!(sharing, Sharing::Shared { .. }));
        let answer = closure(&certificate, plain);
        assert_eq!(answer, closure(&certificate, swift), "{certificate:?}");
        *met.entry(answer.name()).or_default() += 1;
    }
    assert_eq!(met.len(), 3);
    assert!(met.values().all(|&count| count >= 150), "{met:?}");
}

/// The paper's table, from the place of the first pair there is, if any, and
/// the total: whatever the merging shares.
#[test]
fn closure_is_by_the_first_pair_the_total_and_the_budget() {
    let mut random = Random::new(9);
    for mut certificate in certificates(8, 1500) {
        let merged = Table::merged(&certificate);
        let first = plain(&merged, &certificate.rules, u64::from(LARGEST_BUDGET));
        let all = total(&certificate);
        certificate.budget = random.below(all as usize + 2) as u32;
        let budget = u64::from(certificate.budget);
        let wanted = match first {
            Some(critical) if critical.place <= budget => Closure::Critical(critical),
            None if all <= budget => Closure::Closed { examined: all },
            _ => Closure::Stopped { examined: budget },
        };
        assert_eq!(closure(&certificate, swift), wanted, "{certificate:?}");
    }
}

#[test]
fn examined_never_exceeds_the_budget() {
    for certificate in certificates(2, 1000) {
        let verdict = judge(&certificate, swift);
        assert!(verdict.examined() <= u64::from(certificate.budget));
        assert!(verdict.examined() <= total(&certificate));
        let closure = closure(&certificate, swift);
        assert!(closure.examined() <= u64::from(certificate.budget));
        assert!(closure.examined() <= total(&certificate));
    }
}

#[test]
fn a_larger_budget_changes_no_verdict_but_stopped() {
    let mut random = Random::new(6);
    for mut certificate in certificates(3, 1500) {
        certificate.budget = random.below(total(&certificate) as usize + 2) as u32;
        let before = judge(&certificate, swift);
        let closed_before = closure(&certificate, swift);
        for more in [1, 2, 10, 1000] {
            certificate.budget = (certificate.budget + more).min(LARGEST_BUDGET);
            if !matches!(before, Verdict::Stopped { .. }) {
                assert_eq!(before, judge(&certificate, swift));
            }
            if !matches!(closed_before, Closure::Stopped { .. }) {
                assert_eq!(closed_before, closure(&certificate, swift));
            }
        }
    }
}

#[test]
fn answers_are_under_128_bytes() {
    let largest = Critical {
        rule: 31,
        substitution: vec![31; 4],
        class: 31,
        place: u64::from(LARGEST_BUDGET),
    };
    assert!(judged(&Verdict::Critical(largest.clone())).len() < 128);
    assert!(answering::closure(&Closure::Critical(largest)).len() < 128);
    let largest = Sharing::Shared { class: 31, bad: 31 };
    assert!(answering::sharing(&largest).len() < 128);
    for certificate in certificates(4, 500) {
        assert!(judged(&judge(&certificate, swift)).len() < 128);
    }
}

/// The sets of classes and of states of B that one ground term reaches, for
/// every ground term; none when there are too many.
fn reached(merged: &Table, bad: &Table) -> Option<BTreeSet<(u64, u64)>> {
    let step = |table: &Table, symbol: usize, sets: &[u64]| {
        let fits = |row: &&reference::automaton::Row| {
            sets.iter()
                .enumerate()
                .all(|(n, set)| set >> row.arguments[n] & 1 == 1)
        };
        table.rows[symbol]
            .iter()
            .filter(fits)
            .fold(0u64, |set, row| set | 1 << row.target)
    };
    let mut met: BTreeSet<(u64, u64)> = BTreeSet::new();
    loop {
        let known: Vec<(u64, u64)> = met.iter().copied().collect();
        if known.len() > 40 {
            return None;
        }
        for (symbol, &arity) in merged.arities.iter().enumerate() {
            for code in 0..known.len().pow(arity as u32) {
                let choice: Vec<(u64, u64)> = (0..arity)
                    .map(|n| known[code / known.len().pow(n as u32) % known.len()])
                    .collect();
                let one: Vec<u64> = choice.iter().map(|pair| pair.0).collect();
                let other: Vec<u64> = choice.iter().map(|pair| pair.1).collect();
                met.insert((step(merged, symbol, &one), step(bad, symbol, &other)));
            }
        }
        if met.len() == known.len() {
            return Some(met);
        }
    }
}

/// The smallest final class, and with it the smallest final state of B, that
/// stand together in what one ground term reaches.
fn first_final_pair(reached: &BTreeSet<(u64, u64)>, merged: &Table, bad: &Table) -> Sharing {
    let together = |class: u8, state: u8| {
        let mut sets = reached.iter();
        sets.any(|sets| sets.0 >> class & sets.1 >> state & 1 == 1)
    };
    for class in (0..32).filter(|class| merged.finals >> class & 1 == 1) {
        for state in (0..32).filter(|state| bad.finals >> state & 1 == 1) {
            if together(class, state) {
                return Sharing::Shared { class, bad: state };
            }
        }
    }
    Sharing::NoneShared
}

#[test]
fn sharing_is_by_one_ground_term() {
    let mut tried = 0;
    for certificate in certificates(7, 1200) {
        let (merged, bad) = (Table::merged(&certificate), Table::bad(&certificate));
        let Some(reached) = reached(&merged, &bad) else {
            continue;
        };
        tried += 1;
        let shared = sharing(&merged, &bad);
        for (class, &states) in shared.iter().enumerate() {
            let with_class = reached.iter().filter(|sets| sets.0 >> class & 1 == 1);
            assert_eq!(
                states,
                with_class.fold(0, |all, sets| all | sets.1),
                "{certificate:?}"
            );
        }
        assert_eq!(
            judging::sharing(&certificate),
            first_final_pair(&reached, &merged, &bad)
        );
    }
    assert!(tried > 600, "{tried}");
}
