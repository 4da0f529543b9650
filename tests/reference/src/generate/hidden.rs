//! Sound certificates of many substitutions, exactly one of which has a critical pair.

use super::model::{Model, Side, Tree};
use crate::random::Random;
use crate::reading::LARGEST_BUDGET;

/// Takes the class of a variable's place to 1 and every other one to 0; three of them, so that rows are left.
const MARKS: [u32; 3] = [1, 2, 3];
/// Gives 1 for two arguments 1, and 0 for any other two of 0 and 1.
const BOTH: u32 = 4;
/// The same, but nothing for two arguments 1.
const NOT_BOTH: u32 = 5;
/// Gives 0 for 0 and 1 for 1.
const SAME: u32 = 6;
const ARITIES: [u32; 7] = [0, 1, 1, 1, 2, 2, 1];

/// A last rule of two to four variables whose sides differ only at the root: `BOTH` on the left and `NOT_BOTH` on the right. The left side
/// has a class under every substitution, and the right side lacks it under one. Rules before it have twice the same side.
pub fn hidden(random: &mut Random) -> Model {
    let variables = *random.pick(&[2, 3, 4, 4, 4, 4]);
    let classes = match variables {
        4 => *random.pick(&[2, 3, 4, 5, 7, 8, 15, 16, 17, 31, 32]),
        _ => random.between(2, 32),
    };
    let marks: Vec<u32> = (0..variables).map(|_| *random.pick(&MARKS)).collect();
    let own: Vec<u32> = MARKS.iter().map(|_| random.below(classes as usize) as u32).collect();
    let under: Vec<Tree> = (0..variables)
        .map(|x| wrapped(random, Tree::Symbol(marks[x as usize], vec![Tree::Variable(x)])))
        .collect();
    let (first, second) = parted(random, under);
    let sides = |root| Tree::Symbol(root, vec![first.clone(), second.clone()]);
    let mut rules = vec![(sides(BOTH), sides(BOTH)); random.below(3)];
    let before = rules.len() as u64 * u64::from(classes).pow(variables);
    rules.push((sides(BOTH), sides(NOT_BOTH)));
    let place = marks
        .iter()
        .fold(0, |place, &mark| place * u64::from(classes) + u64::from(own[mark as usize - 1]));
    let mut model = Model {
        budget: 0,
        arities: ARITIES.to_vec(),
        a: Side { states: classes, finals: vec![], rows: rows(classes, &own) },
        b: Side { states: 1, finals: vec![], rows: vec![] },
        rules,
        merge: (0..classes).collect(),
    };
    model.budget = budget(random, before + place + 1, model.total());
    model
}

/// The same where the merging is unsuitable: the constant reaches class 0 and B's only state, and both are final.
pub fn hidden_unsuitable(random: &mut Random) -> Model {
    let mut model = hidden(random);
    model.a.finals = vec![0];
    model.b = Side { states: 1, finals: vec![0], rows: vec![vec![0, 0]] };
    model
}

/// Sometimes under `SAME` once or twice.
fn wrapped(random: &mut Random, tree: Tree) -> Tree {
    (0..random.below(3)).fold(tree, |tree, _| Tree::Symbol(SAME, vec![tree]))
}

/// Two terms that have all of these under `BOTH`, in their order.
fn parted(random: &mut Random, mut under: Vec<Tree>) -> (Tree, Tree) {
    let behind = under.split_off(1 + random.below(under.len() - 1));
    (joined(random, under), joined(random, behind))
}

fn joined(random: &mut Random, mut under: Vec<Tree>) -> Tree {
    if under.len() == 1 {
        return under.remove(0);
    }
    let (first, second) = parted(random, under);
    let tree = Tree::Symbol(BOTH, vec![first, second]);
    wrapped(random, tree)
}

fn rows(classes: u32, own: &[u32]) -> Vec<Vec<u32>> {
    let mut rows = vec![vec![0, 0]];
    for (mark, class) in MARKS.iter().zip(own) {
        rows.extend((0..classes).map(|q| vec![*mark, q, u32::from(q == *class)]));
    }
    for (a, b) in [(0, 0), (0, 1), (1, 0), (1, 1)] {
        rows.push(vec![BOTH, a, b, a & b]);
        if a & b == 0 {
            rows.push(vec![NOT_BOTH, a, b, 0]);
        }
    }
    rows.extend([vec![SAME, 0, 0], vec![SAME, 1, 1]]);
    rows
}

/// At the place, one before or after it, or further off.
fn budget(random: &mut Random, place: u64, total: u64) -> u64 {
    match random.below(6) {
        0 => place - 1,
        1 | 2 => place,
        3 => place + 1,
        4 => random.below(total as usize + 1) as u64,
        _ => u64::from(LARGEST_BUDGET),
    }
    .min(u64::from(LARGEST_BUDGET))
}

#[cfg(test)]
mod tests {
    use super::*;
    use crate::judging::{closure, judge, sharing, Closure, Sharing, Verdict};
    use crate::reading::read;
    use crate::search::{plain, swift};

    /// Both searches find the pair where it was put, if the budget reaches it, and are stopped else.
    #[test]
    fn one_pair_where_it_was_put() {
        let (mut found, mut stopped) = (0, 0);
        for number in 0..60 {
            let mut random = Random::numbered(11, number);
            let model = hidden(&mut random);
            let file = model.write();
            let certificate = read(&file).expect("a sound certificate");
            if certificate.budget < 300_000 {
                assert_eq!(judge(&certificate, plain), judge(&certificate, swift), "{number}");
            }
            match judge(&certificate, swift) {
                Verdict::Critical(critical) => {
                    assert_eq!(critical.class, 1);
                    assert!(critical.place <= model.budget);
                    found += 1;
                }
                Verdict::Stopped { .. } => stopped += 1,
                other => panic!("{number}: {}", other.name()),
            }
        }
        assert!(found > 20 && stopped > 5, "{found} {stopped}");
    }

    /// The answer about closure is the suitable certificate's own, and the whole verdict hides it.
    #[test]
    fn the_same_pair_where_the_merging_is_unsuitable() {
        let read_model = |model: Model| read(&model.write()).expect("a sound certificate");
        for number in 0..60 {
            let suitable = read_model(hidden(&mut Random::numbered(11, number)));
            let unsuitable = read_model(hidden_unsuitable(&mut Random::numbered(11, number)));
            assert_eq!(sharing(&suitable), Sharing::NoneShared);
            assert_eq!(sharing(&unsuitable), Sharing::Shared { class: 0, bad: 0 });
            let answer = closure(&unsuitable, swift);
            assert_eq!(answer, closure(&suitable, swift), "{number}");
            assert!(!matches!(answer, Closure::Closed { .. }), "{number}");
            assert_eq!(judge(&unsuitable, swift), Verdict::Unsuitable { class: 0, bad: 0 });
        }
    }
}
