//! Sound certificates at random, made for a wished verdict.

use super::model::{Model, Side, Tree};
use crate::automaton::{sharing, Table};
use crate::judging::{closure, judge, Closure, Verdict};
use crate::random::Random;
use crate::reading::{read, Certificate, LARGEST_BUDGET};
use crate::search::swift;

#[derive(Clone, Copy, Debug, PartialEq, Eq)]
pub enum Wish {
    Accepted,
    Critical,
    Stopped,
    Unsuitable,
}

impl Wish {
    pub const ALL: [Wish; 4] = [
        Wish::Accepted,
        Wish::Critical,
        Wish::Stopped,
        Wish::Unsuitable,
    ];
}

/// How large a certificate is to be.
#[derive(Clone, Copy, Debug)]
pub(super) struct Scale {
    symbols: u32,
    states: u32,
    rows: u32,
    rules: u32,
    /// The most substitutions of one rule.
    substitutions: u64,
}

pub(super) const SMALL: Scale = Scale {
    symbols: 5,
    states: 5,
    rows: 9,
    rules: 3,
    substitutions: 300,
};
pub(super) const MIDDLE: Scale = Scale {
    symbols: 8,
    states: 9,
    rows: 20,
    rules: 5,
    substitutions: 900,
};
const LARGE: Scale = Scale {
    symbols: 64,
    states: 32,
    rows: 90,
    rules: 12,
    substitutions: 2500,
};
const LONG: Scale = Scale {
    symbols: 5,
    states: 12,
    rows: 25,
    rules: 3,
    substitutions: 22_000,
};

/// A sound certificate, of the wished verdict nearly always.
pub fn valid(random: &mut Random, wish: Wish) -> Model {
    let mut model = attempt(random, wish);
    for _ in 0..30 {
        if fits(&verdict(&model), wish) {
            break;
        }
        model = attempt(random, wish);
    }
    model
}

/// A critical one whose pair comes late: three or four variables, `x0` above 0,
/// and more than 64 substitutions before.
pub fn late(random: &mut Random) -> Model {
    loop {
        let mut model = system(random, MIDDLE);
        complete(random, &mut model);
        spoil_late(random, &mut model);
        make_suitable(random, &mut model);
        model.budget = u64::from(LARGEST_BUDGET);
        let Verdict::Critical(critical) = verdict(&model) else {
            continue;
        };
        let variables = critical.substitution.len();
        if variables >= 3 && critical.substitution[0] > 0 && critical.place > 64 {
            model.budget = critical_budget(random, critical.place, model.total());
            return model;
        }
    }
}

fn attempt(random: &mut Random, wish: Wish) -> Model {
    let scale = match random.below(100) {
        0..=54 => SMALL,
        55..=93 => MIDDLE,
        94..=96 => LARGE,
        _ => LONG,
    };
    let mut model = system(random, scale);
    match wish {
        Wish::Unsuitable => make_unsuitable(random, &mut model),
        Wish::Accepted => make_accepted(random, &mut model),
        Wish::Critical => make_critical(random, &mut model),
        Wish::Stopped => make_stopped(random, &mut model),
    }
    model
}

fn fits(verdict: &Verdict, wish: Wish) -> bool {
    matches!(
        (verdict, wish),
        (Verdict::Accepted { .. }, Wish::Accepted)
            | (Verdict::Critical(_), Wish::Critical)
            | (Verdict::Stopped { .. }, Wish::Stopped)
            | (Verdict::Unsuitable { .. }, Wish::Unsuitable)
    )
}

pub(super) fn certificate(model: &Model) -> Certificate {
    read(&model.write()).expect("a sound certificate")
}

fn verdict(model: &Model) -> Verdict {
    judge(&certificate(model), swift)
}

/// The answer about closure when the budget is the largest.
pub(super) fn search_only(model: &Model) -> Closure {
    let mut certificate = certificate(model);
    certificate.budget = LARGEST_BUDGET;
    closure(&certificate, swift)
}

// ---- systems ----

pub(super) fn system(random: &mut Random, scale: Scale) -> Model {
    let arities = arities(random, scale.symbols);
    let states = count(random, 1, scale.states, 32);
    let bad_states = count(random, 1, scale.states, 32);
    let merge = merge(random, states);
    let mut model = Model {
        budget: 1000,
        a: side(random, states, &arities, scale.rows),
        b: side(random, bad_states, &arities, scale.rows),
        arities,
        rules: vec![],
        merge,
    };
    for _ in 0..random.below(3) {
        plant(random, &mut model);
    }
    if random.chance(40) {
        plant_apart(random, &mut model);
    }
    let rules = random.below(scale.rules as usize + 1);
    for _ in 0..rules {
        if let Some(rule) = rule(random, &model, scale.substitutions) {
            model.rules.push(rule);
        }
    }
    model
}

/// Mostly up to `usual`, sometimes 1, seldom the largest.
fn count(random: &mut Random, least: u32, usual: u32, largest: u32) -> u32 {
    match random.below(20) {
        0 => least,
        1 if usual > 10 => largest,
        _ => random.between(least.max(2).min(usual), usual),
    }
}

fn arities(random: &mut Random, usual: u32) -> Vec<u32> {
    let number = count(random, 1, usual, 64);
    let mut arities: Vec<u32> = (0..number)
        .map(|_| match random.below(20) {
            0..=5 => 0,
            6..=10 => 1,
            11..=15 => 2,
            _ => 3,
        })
        .collect();
    // Nearly always a constant, so that there are trees.
    if !random.chance(4) {
        let place = random.below(arities.len());
        arities[place] = 0;
    }
    arities
}

/// A partition: none merged, all merged, one or two merged, or anything.
fn merge(random: &mut Random, states: u32) -> Vec<u32> {
    let mut wanted: Vec<u32> = (0..states).collect();
    match random.below(10) {
        0..=1 => {}
        2 => wanted.fill(0),
        3..=5 => {
            for _ in 0..1 + random.below(2) {
                let (one, other) = (random.below(wanted.len()), random.below(wanted.len()));
                wanted[one] = wanted[other];
            }
        }
        6..=7 => {
            let classes = random.between(1, states);
            wanted.iter_mut().for_each(|class| *class %= classes);
        }
        _ => {
            let classes = states as usize;
            wanted
                .iter_mut()
                .for_each(|class| *class = random.below(classes) as u32);
        }
    }
    renumbered(&wanted)
}

/// The partition's one line: classes numbered as they are met.
fn renumbered(wanted: &[u32]) -> Vec<u32> {
    let mut met: Vec<u32> = Vec::new();
    let mut merge = Vec::new();
    for class in wanted {
        let place = met.iter().position(|own| own == class).unwrap_or_else(|| {
            met.push(*class);
            met.len() - 1
        });
        merge.push(place as u32);
    }
    merge
}

fn side(random: &mut Random, states: u32, arities: &[u32], rows: u32) -> Side {
    let mut side = Side {
        states,
        finals: vec![],
        rows: vec![],
    };
    let wanted = if random.chance(4) {
        0
    } else {
        random.below(rows as usize + 1)
    };
    for _ in 0..wanted {
        let row = match random.below(10) {
            // The same transition again.
            0 if !side.rows.is_empty() => random.pick(&side.rows).clone(),
            // The same arguments with another target.
            1 | 2 if !side.rows.is_empty() => {
                let mut row = random.pick(&side.rows).clone();
                let last = row.len() - 1;
                row[last] = random.below(states as usize) as u32;
                row
            }
            _ => {
                let symbol = random.below(arities.len());
                let mut row = vec![symbol as u32];
                for _ in 0..=arities[symbol] {
                    row.push(random.below(states as usize) as u32);
                }
                row
            }
        };
        side.rows.push(row);
    }
    let percent = *random.pick(&[0, 10, 20, 40, 100]);
    side.finals = (0..states).filter(|_| random.chance(percent)).collect();
    side
}

// ---- ground trees planted in both automata ----

fn ground(random: &mut Random, arities: &[u32], depth: u32) -> Option<Tree> {
    let fitting: Vec<u32> = (0..arities.len() as u32)
        .filter(|&symbol| (arities[symbol as usize] == 0) == (depth == 0))
        .collect();
    let any_constant = arities.contains(&0);
    if fitting.is_empty() || !any_constant {
        return if any_constant && depth > 0 {
            ground(random, arities, 0)
        } else {
            None
        };
    }
    let symbol = *random.pick(&fitting);
    let under: Option<Vec<Tree>> = (0..arities[symbol as usize])
        .map(|_| {
            let less = if random.chance(60) { 1 } else { depth };
            ground(random, arities, depth - less.max(1).min(depth))
        })
        .collect();
    Some(Tree::Symbol(symbol, under?))
}

/// Rows along which the tree reaches the state given back. States are given
/// to subterms one after the other from `next` on.
fn rows_for(tree: &Tree, states: u32, next: &mut u32, rows: &mut Vec<Vec<u32>>) -> u32 {
    let Tree::Symbol(symbol, under) = tree else {
        return 0;
    };
    let mut row = vec![*symbol];
    for one in under {
        row.push(rows_for(one, states, next, rows));
    }
    let target = *next % states;
    *next += 1;
    row.push(target);
    rows.push(row);
    target
}

/// Another tree of the same shape: one symbol replaced by one of its arity.
fn varied(random: &mut Random, tree: &Tree, arities: &[u32]) -> Tree {
    let Tree::Symbol(symbol, under) = tree else {
        return tree.clone();
    };
    let mut under = under.clone();
    if !under.is_empty() && random.chance(70) {
        let place = random.below(under.len());
        under[place] = varied(random, &under[place], arities);
        return Tree::Symbol(*symbol, under);
    }
    let arity = arities[*symbol as usize];
    let alike: Vec<u32> = (0..arities.len() as u32)
        .filter(|&n| arities[n as usize] == arity)
        .collect();
    Tree::Symbol(*random.pick(&alike), under)
}

/// Puts the rows of one tree into A and of the same tree, or of one slightly
/// different, into B. In reversed or mixed order, so that the pair at the top
/// needs several rounds. Marks both tops final now and then.
fn plant(random: &mut Random, model: &mut Model) {
    let depth = random.between(1, 4);
    let Some(tree) = ground(random, &model.arities, depth) else {
        return;
    };
    if tree.tokens() > 30 {
        return;
    }
    let same = random.chance(60);
    let other = if same {
        tree.clone()
    } else {
        varied(random, &tree, &model.arities)
    };
    let alike = random.chance(80);
    let mut tops = Vec::new();
    for (side, tree) in [(&mut model.a, &tree), (&mut model.b, &other)] {
        let mut next = random.below(side.states as usize) as u32;
        let mut rows = Vec::new();
        let top = rows_for(tree, side.states, &mut next, &mut rows);
        if alike {
            rows.reverse();
        } else {
            random.shuffle(&mut rows);
        }
        if side.rows.len() + rows.len() <= 110 {
            if random.chance(50) {
                side.rows.extend(rows);
            } else {
                side.rows.splice(0..0, rows);
            }
        }
        tops.push(top);
    }
    if random.chance(50) {
        mark(&mut model.a, tops[0]);
        mark(&mut model.b, tops[1]);
    }
}

/// Puts a tree into A and the same tree, or one slightly different, into B, on
/// new states of their own, and marks the tops final: the tops share this one
/// tree or none. Now and then two of the new states are merged.
fn plant_apart(random: &mut Random, model: &mut Model) {
    let depth = random.between(2, 5);
    let Some(tree) = ground(random, &model.arities, depth) else {
        return;
    };
    let new = tree.tokens() as u32;
    let room = 32 - model.a.states.max(model.b.states);
    if new > room || model.a.rows.len().max(model.b.rows.len()) > 90 {
        return;
    }
    let same = random.chance(45);
    let other = if same {
        tree.clone()
    } else {
        varied(random, &tree, &model.arities)
    };
    for (side, tree) in [(&mut model.a, &tree), (&mut model.b, &other)] {
        let mut next = side.states;
        side.states += new;
        let mut rows = Vec::new();
        let top = rows_for(tree, side.states, &mut next, &mut rows);
        rows.reverse();
        side.rows.splice(0..0, rows);
        mark(side, top);
    }
    let mut wanted = model.merge.clone();
    wanted.extend(100..100 + new);
    if random.chance(40) {
        let place = wanted.len() - 1 - random.below(new as usize);
        wanted[place] = *random.pick(&wanted);
    }
    model.merge = renumbered(&wanted);
}

fn mark(side: &mut Side, state: u32) {
    if let Err(place) = side.finals.binary_search(&state) {
        side.finals.insert(place, state);
    }
}

// ---- rules ----

/// How many variables a rule may have at most.
fn most_variables(random: &mut Random, classes: u32, substitutions: u64) -> u32 {
    let most = (0..=4)
        .rev()
        .find(|&v| u64::from(classes).pow(v) <= substitutions)
        .unwrap_or(0);
    if random.chance(50) {
        most
    } else {
        random.below(most as usize + 1) as u32
    }
}

fn rule(random: &mut Random, model: &Model, substitutions: u64) -> Option<(Tree, Tree)> {
    let most = most_variables(random, model.classes(), substitutions);
    for _ in 0..20 {
        // Of several, mostly the one with the most variables.
        let mut lefts: Vec<Tree> = (0..if random.chance(70) { 4 } else { 1 })
            .filter_map(|_| left_side(random, model, None, 0, &mut 0, most))
            .filter(|left| left.tokens() <= 24)
            .collect();
        lefts.sort_by_key(Tree::variables);
        let Some(left) = lefts.pop() else { continue };
        let variables = left.variables();
        for _ in 0..20 {
            let right = right_side(random, model, &left, variables);
            match right {
                Some(right) if right.tokens() <= 24 => return Some((left, right)),
                _ => {}
            }
        }
    }
    None
}

/// Grown along the transitions, so that it often has a class; variables are
/// numbered as they are met.
fn left_side(
    random: &mut Random,
    model: &Model,
    class: Option<u32>,
    depth: u32,
    variables: &mut u32,
    most: u32,
) -> Option<Tree> {
    if depth > 0 && *variables < most && random.chance(if depth == 1 { 60 } else { 75 }) {
        *variables += 1;
        return Some(Tree::Variable(*variables - 1));
    }
    if depth > 5 {
        return None;
    }
    let class_of = |state: u32| model.merge[state as usize];
    let target = |row: &&Vec<u32>| class_of(row[row.len() - 1]);
    let fitting: Vec<&Vec<u32>> = model
        .a
        .rows
        .iter()
        .filter(|row| class.is_none_or(|class| target(row) == class))
        .filter(|row| depth < 3 || row.len() == 2)
        .collect();
    let (symbol, arguments): (u32, Vec<Option<u32>>) = if !fitting.is_empty() && random.chance(92) {
        let row = random.pick(&fitting);
        (
            row[0],
            row[1..row.len() - 1]
                .iter()
                .map(|&state| Some(class_of(state)))
                .collect(),
        )
    } else {
        let symbol = random.below(model.arities.len());
        (symbol as u32, vec![None; model.arities[symbol] as usize])
    };
    let under: Option<Vec<Tree>> = arguments
        .into_iter()
        .map(|class| left_side(random, model, class, depth + 1, variables, most))
        .collect();
    Some(Tree::Symbol(symbol, under?))
}

fn right_side(random: &mut Random, model: &Model, left: &Tree, variables: u32) -> Option<Tree> {
    match random.below(12) {
        0 | 1 => Some(left.clone()),
        2 | 3 => Some(with_variables(random, left, variables)),
        4 if variables > 0 => Some(Tree::Variable(random.below(variables as usize) as u32)),
        5 => {
            // The left side under a unary symbol, or within a larger one.
            let symbol = random.below(model.arities.len());
            let place = random.below(model.arities[symbol].max(1) as usize);
            let under: Option<Vec<Tree>> = (0..model.arities[symbol] as usize)
                .map(|n| {
                    if n == place {
                        Some(left.clone())
                    } else {
                        grown(random, model, variables, 3)
                    }
                })
                .collect();
            Some(Tree::Symbol(symbol as u32, under?))
        }
        _ => grown(random, model, variables, 0),
    }
}

/// The same tree with its variables drawn anew, repeated as it happens.
fn with_variables(random: &mut Random, tree: &Tree, variables: u32) -> Tree {
    match tree {
        Tree::Variable(_) => Tree::Variable(random.below(variables as usize) as u32),
        Tree::Symbol(symbol, under) => {
            let under = under
                .iter()
                .map(|one| with_variables(random, one, variables))
                .collect();
            Tree::Symbol(*symbol, under)
        }
    }
}

/// Any tree over so many variables.
fn grown(random: &mut Random, model: &Model, variables: u32, depth: u32) -> Option<Tree> {
    if variables > 0 && depth > 0 && random.chance(50) {
        return Some(Tree::Variable(random.below(variables as usize) as u32));
    }
    if depth > 4 {
        return None;
    }
    // Mostly a symbol that has rows.
    let symbol = if model.a.rows.is_empty() || random.chance(15) {
        random.below(model.arities.len()) as u32
    } else {
        random.pick(&model.a.rows)[0]
    };
    let under: Option<Vec<Tree>> = (0..model.arities[symbol as usize])
        .map(|_| grown(random, model, variables, depth + 1))
        .collect();
    Some(Tree::Symbol(symbol, under?))
}

// ---- verdicts ----

/// For each class, the states of B that share a tree with it.
fn shared(model: &Model) -> Vec<u64> {
    let certificate = certificate(model);
    sharing(&Table::merged(&certificate), &Table::bad(&certificate))
}

/// Takes final marks away until no final pair shares a tree.
fn make_suitable(random: &mut Random, model: &mut Model) {
    let shared = shared(model);
    for state in model.a.finals.clone() {
        let class = model.merge[state as usize] as usize;
        let clash = |bad: &u32| shared[class] >> *bad & 1 == 1;
        if model.b.finals.iter().any(clash) {
            if random.chance(50) {
                model.a.finals.retain(|&own| own != state);
            } else {
                model.b.finals.retain(|bad| !clash(bad));
            }
        }
    }
}

/// Marks a pair that shares a tree.
pub(super) fn make_unsuitable(random: &mut Random, model: &mut Model) {
    if random.chance(35) {
        // Perhaps the pair of a tree on states of its own is the only one.
        model.a.finals.clear();
        model.b.finals.clear();
        plant_apart(random, model);
        if matches!(verdict(model), Verdict::Unsuitable { .. }) {
            model.budget = any_budget(random, model.total());
            return;
        }
    }
    for _ in 0..5 {
        let shared = shared(model);
        let pairs: Vec<(u32, u32)> = (0..shared.len())
            .flat_map(|class| (0..32).map(move |bad| (class, bad)))
            .filter(|&(class, bad)| shared[class] >> bad & 1 == 1)
            .map(|(class, bad)| (class as u32, bad as u32))
            .collect();
        if pairs.is_empty() {
            plant(random, model);
            continue;
        }
        if random.chance(70) {
            // Only this pair is marked.
            model.a.finals.clear();
            model.b.finals.clear();
        }
        let (class, bad) = if random.chance(50) {
            *pairs.last().unwrap()
        } else {
            *random.pick(&pairs)
        };
        let members: Vec<u32> = (0..model.a.states)
            .filter(|&state| model.merge[state as usize] == class)
            .collect();
        let member = *random.pick(&members);
        mark(&mut model.a, member);
        mark(&mut model.b, bad);
        break;
    }
    model.budget = any_budget(random, model.total());
}

fn any_budget(random: &mut Random, total: u64) -> u64 {
    match random.below(6) {
        0 => 0,
        1 => total.saturating_sub(1),
        2 => total,
        3 => total + 1,
        4 => u64::from(LARGEST_BUDGET),
        _ => random.below(2 * total as usize + 2) as u64,
    }
    .min(u64::from(LARGEST_BUDGET))
}

/// Adds transitions until no rule has a critical pair; where that does not
/// help, the rule is given its left side as right side.
pub(super) fn complete(random: &mut Random, model: &mut Model) {
    for _ in 0..90 {
        let Closure::Critical(critical) = search_only(model) else {
            return;
        };
        let (left, right) = model.rules[critical.rule].clone();
        let hopeless = matches!(right, Tree::Variable(_)) || random.chance(4);
        if hopeless || model.a.rows.len() > 100 {
            model.rules[critical.rule].1 = left;
        } else {
            let class = u32::from(critical.class);
            reach(random, model, &right, &critical.substitution, Some(class));
        }
    }
    for rule in &mut model.rules {
        rule.1 = rule.0.clone();
    }
}

/// Makes a term reach a class (the wished one, or any) and gives it back.
fn reach(
    random: &mut Random,
    model: &mut Model,
    tree: &Tree,
    substitution: &[u8],
    wished: Option<u32>,
) -> u32 {
    let (symbol, under) = match tree {
        Tree::Variable(variable) => return u32::from(substitution[*variable as usize]),
        Tree::Symbol(symbol, under) => (*symbol, under),
    };
    let arguments: Vec<u32> = under
        .iter()
        .map(|one| reach(random, model, one, substitution, None))
        .collect();
    let class_of = |state: u32| model.merge[state as usize];
    let fitting: Vec<u32> = model
        .a
        .rows
        .iter()
        .filter(|row| row[0] == symbol)
        .filter(|row| {
            row[1..row.len() - 1]
                .iter()
                .map(|&s| class_of(s))
                .eq(arguments.iter().copied())
        })
        .map(|row| class_of(row[row.len() - 1]))
        .collect();
    match wished {
        None if !fitting.is_empty() => return *random.pick(&fitting),
        Some(class) if fitting.contains(&class) => return class,
        _ => {}
    }
    let target = wished.unwrap_or_else(|| random.below(model.classes() as usize) as u32);
    let mut row = vec![symbol];
    for class in arguments.iter().chain([&target]) {
        let members: Vec<u32> = (0..model.a.states)
            .filter(|&state| class_of(state) == *class)
            .collect();
        row.push(*random.pick(&members));
    }
    let place = random.below(model.a.rows.len() + 1);
    if model.a.rows.len() < 128 {
        model.a.rows.insert(place, row);
    }
    target
}

fn make_accepted(random: &mut Random, model: &mut Model) {
    complete(random, model);
    make_suitable(random, model);
    model.budget = closing_budget(random, model.total());
}

/// A budget within which all substitutions are examined.
pub(super) fn closing_budget(random: &mut Random, total: u64) -> u64 {
    match random.below(5) {
        0 | 1 => total,
        2 => total + 1,
        3 => u64::from(LARGEST_BUDGET),
        _ => total + random.below(total as usize + 10) as u64,
    }
}

fn spoil(random: &mut Random, model: &mut Model) {
    spoil_closure(random, model);
    make_suitable(random, model);
}

/// A critical pair as it comes, or a late one: in a completed system, by one
/// transition less or by a rule at the end.
pub(super) fn spoil_closure(random: &mut Random, model: &mut Model) {
    match random.below(6) {
        0 => {}
        1 | 2 => {
            complete(random, model);
            spoil_late(random, model);
        }
        3 | 4 => {
            complete(random, model);
            let mut latest: Option<(u64, usize)> = None;
            for _ in 0..16 {
                if model.a.rows.is_empty() {
                    break;
                }
                let place = random.below(model.a.rows.len());
                let mut less = model.clone();
                less.a.rows.remove(place);
                if let Closure::Critical(critical) = search_only(&less) {
                    latest = latest.max(Some((critical.place, place)));
                }
            }
            if let Some((_, place)) = latest {
                model.a.rows.remove(place);
            }
        }
        _ => {
            complete(random, model);
            for _ in 0..8 {
                let Some(rule) = rule(random, model, 300) else {
                    continue;
                };
                if model.rules.len() >= 32 {
                    break;
                }
                model.rules.push(rule);
                if matches!(search_only(model), Closure::Critical(_)) {
                    break;
                }
                if random.chance(70) {
                    model.rules.pop();
                }
            }
        }
    }
}

/// A rule at the end whose left side is given a class under one substitution
/// chosen beforehand, mostly a late one of three or four variables.
fn spoil_late(random: &mut Random, model: &mut Model) {
    let classes = model.classes();
    let most = (0..=4)
        .rev()
        .find(|&v| u64::from(classes).pow(v) <= 11_000)
        .unwrap_or(0);
    let variables = if random.chance(75) {
        most
    } else {
        random.between(0, most)
    };
    let Some(left) = linear(random, &model.arities, variables) else {
        return;
    };
    if left.tokens() > 24 || model.rules.len() >= 32 {
        return;
    }
    let substitution: Vec<u8> = (0..variables)
        .map(|_| {
            let (one, other) = (
                random.below(classes as usize),
                random.below(classes as usize),
            );
            one.max(other) as u8
        })
        .collect();
    let class = random.below(classes as usize) as u32;
    reach(random, model, &left, &substitution, Some(class));
    for _ in 0..10 {
        match right_side(random, model, &left, variables) {
            Some(right) if right.tokens() <= 24 && right != left => {
                model.rules.push((left, right));
                return;
            }
            _ => {}
        }
    }
}

/// A left side with exactly so many variables: neighbours are put under a
/// symbol until one term is left.
fn linear(random: &mut Random, arities: &[u32], variables: u32) -> Option<Tree> {
    let symbols = |arity: u32| -> Vec<u32> {
        (0..arities.len() as u32)
            .filter(|&n| arities[n as usize] == arity)
            .collect()
    };
    let mut row: Vec<Tree> = (0..variables).map(Tree::Variable).collect();
    for step in 0..12 {
        if step > 0 && row.len() == 1 && random.chance(70) && matches!(row[0], Tree::Symbol(..)) {
            return row.pop();
        }
        let symbol = random.below(arities.len());
        let arity = arities[symbol] as usize;
        while row.len() < arity {
            let constants = symbols(0);
            if constants.is_empty() {
                return None;
            }
            let place = random.below(row.len() + 1);
            row.insert(place, Tree::Symbol(*random.pick(&constants), vec![]));
        }
        if arity == 0 && !row.is_empty() {
            continue;
        }
        let place = random.below(row.len() - arity + 1);
        let under: Vec<Tree> = row.splice(place..place + arity, []).collect();
        row.insert(place, Tree::Symbol(symbol as u32, under));
    }
    (row.len() == 1 && matches!(row[0], Tree::Symbol(..))).then(|| row.remove(0))
}

fn make_critical(random: &mut Random, model: &mut Model) {
    spoil(random, model);
    let Closure::Critical(critical) = search_only(model) else {
        return;
    };
    model.budget = critical_budget(random, critical.place, model.total());
}

/// A budget with which the pair at this place is met.
pub(super) fn critical_budget(random: &mut Random, place: u64, total: u64) -> u64 {
    match random.below(6) {
        0 | 1 => place,
        2 => place + 1,
        3 => total,
        4 => u64::from(LARGEST_BUDGET),
        _ => place + random.below((total - place) as usize + 1) as u64,
    }
    .min(u64::from(LARGEST_BUDGET))
}

fn make_stopped(random: &mut Random, model: &mut Model) {
    if random.chance(50) {
        complete(random, model);
        make_suitable(random, model);
    } else {
        spoil(random, model);
    }
    let end = search_only(model).examined();
    if end > 0 {
        model.budget = stopping_budget(random, end);
    }
}

/// A budget that is spent before the search comes to its end at this place.
pub(super) fn stopping_budget(random: &mut Random, end: u64) -> u64 {
    match random.below(5) {
        0 => 0,
        1 | 2 => end - 1,
        _ => random.below(end as usize) as u64,
    }
}
