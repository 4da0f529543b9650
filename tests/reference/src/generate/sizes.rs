//! Certificates at the edges of the paper's ranges.

use super::document::example;
use super::faults::with_line;
use super::model::{with_value, Kind, Model, Tree};
use crate::random::Random;
use crate::reading::LARGEST_FILE;

fn x(variable: u32) -> Tree {
    Tree::Variable(variable)
}

/// The example with one line's value replaced.
fn with(kind: Kind, value: &str) -> Vec<u8> {
    let lines = example().lines();
    let index = lines
        .iter()
        .position(|line| line.kind == kind)
        .expect("a line of this kind");
    with_line(&lines, index, &with_value(kind, value.as_bytes()))
}

/// A file lengthened to so many bytes by repeating a piece.
fn padded(mut file: Vec<u8>, piece: &[u8], length: usize) -> Vec<u8> {
    while file.len() < length {
        file.extend_from_slice(piece);
    }
    file.truncate(length);
    file
}

/// Budgets around a total, and at the ends of their own range.
fn budgets() -> Vec<Vec<u8>> {
    let spellings = [
        "0",
        "1",
        "2",
        "3",
        "4",
        "5",
        "33554431",
        "33554432",
        "33554433",
        "99999999",
        "10000000",
        "100000000",
        "033554432",
        "0033554432",
        "00",
        "03",
        "000",
        "00000003",
        "000000003",
        "333333333",
        "4294967299",
        "18446744073709551619",
    ];
    let mut files: Vec<Vec<u8>> = spellings
        .iter()
        .map(|text| with(Kind::Budget, text))
        .collect();
    let mut wide = super::document::wider();
    for total in [wide.total(), 0] {
        for budget in total.saturating_sub(2)..=total + 2 {
            wide.budget = budget;
            files.push(wide.write());
        }
        wide.rules.clear();
    }
    files
}

/// So many arities: the first three are the example's.
fn arities() -> Vec<Vec<u8>> {
    let mut files = Vec::new();
    let list = |count: usize, last: &str| {
        let mut entries = vec!["0", "1", "1"];
        entries.resize(count, "3");
        entries[count - 1] = last;
        entries.join(",")
    };
    for count in [4, 63, 64, 65, 66, 67, 128, 129, 256, 257, 1000] {
        for last in ["0", "3", "4", "x"] {
            files.push(with(Kind::Arities, &list(count, last)));
        }
    }
    for few in ["0", "1", "0,1", "3"] {
        files.push(with(Kind::Arities, few));
    }
    // The 64th symbol in use, and the 65th.
    let mut model = example();
    model.arities.resize(64, 0);
    model
        .rules
        .push((Tree::Symbol(63, vec![]), Tree::Symbol(63, vec![])));
    model.a.rows.push(vec![63, 1]);
    model.b.rows.push(vec![63, 2]);
    files.push(model.write());
    model.b.rows.pop();
    files.push(model.write());
    model.a.rows.push(vec![64, 1]);
    files.push(model.write());
    files
}

/// So many transitions, in either automaton.
fn rows() -> Vec<Vec<u8>> {
    let mut files = Vec::new();
    for count in [0, 1, 127, 128, 129, 130] {
        for in_b in [false, true] {
            let mut model = example();
            let side = if in_b { &mut model.b } else { &mut model.a };
            let own = side.rows.clone();
            side.rows = own.iter().cycle().take(count).cloned().collect();
            files.push(model.write());
            // The count alone.
            let kind = if in_b { Kind::BadTrans } else { Kind::Trans };
            files.push(with(kind, &count.to_string()));
        }
    }
    // The only row that matters is the last one.
    let mut model = example();
    model.a.rows.resize(127, vec![0, 0]);
    model.a.rows.push(vec![1, 0, 1]);
    files.push(model.write());
    let mut model = example();
    model.b.rows.resize(127, vec![0, 0]);
    model.b.rows.push(vec![2, 0, 2]);
    files.push(model.write());
    files
}

/// So many states of A and B.
fn states() -> Vec<Vec<u8>> {
    let mut files = Vec::new();
    for count in [1, 2, 31, 32, 33, 34] {
        let mut model = example();
        model.a.states = count;
        model.merge = (0..count).collect();
        files.push(model.write());
        model.a.rows = vec![vec![0, count - 1], vec![2, count - 1, 0]];
        model.a.finals = vec![count - 1];
        files.push(model.write());
        model.merge = vec![0; count as usize];
        files.push(model.write());
        model.a.finals = (0..count).collect();
        model.b.states = count;
        model.b.rows = vec![vec![0, 0], vec![1, 0, count - 1], vec![2, count - 1, 0]];
        model.b.finals = vec![count - 1];
        files.push(model.write());
        model.b.finals = (0..count).collect();
        files.push(model.write());
        // The last state's entry at its bound, one above it, and 32.
        for last in [31, 32] {
            *model.merge.last_mut().expect("a state") = last;
            files.push(model.write());
        }
    }
    for text in ["0", "1", "3", "4", "5", "32", "33"] {
        files.push(with(Kind::States, text));
        files.push(with(Kind::BadStates, text));
    }
    files
}

/// So many rules; the last one may be the one with a critical pair.
fn rules() -> Vec<Vec<u8>> {
    let mut files = Vec::new();
    for count in [0, 1, 2, 31, 32, 33, 34] {
        let mut model = example();
        let own = model.rules[0].clone();
        model.rules = vec![own; count];
        files.push(model.write());
        files.push(with(Kind::Rules, &count.to_string()));
        if count > 0 {
            model.rules[count - 1] = (Tree::Symbol(1, vec![x(0)]), x(0));
            files.push(model.write());
            model.budget = 3 * (count as u64 - 1);
            files.push(model.write());
            model.budget += 1;
            files.push(model.write());
        }
    }
    files
}

/// Terms of so many tokens.
fn tokens() -> Vec<Vec<u8>> {
    let mut files = Vec::new();
    for count in [2, 23, 24, 25, 26, 32, 33] {
        let unary = vec!["1"; count - 1].join(",");
        for end in ["0", "x0", "x1", "1", "x4", "3", "x"] {
            files.push(with(Kind::L, &format!("{unary},{end}")));
            files.push(with(Kind::R, &format!("{unary},{end}")));
        }
    }
    files
}

/// The longest sound file of its kind: every line as long as it may be.
pub fn longest() -> Model {
    let symbols = 64;
    let mut arities = vec![3; symbols];
    arities[10] = 0;
    arities[11] = 1;
    arities[12] = 2;
    let constant = || Tree::Symbol(10, vec![]);
    // A chain of ternary symbols: 7 x 3 + 1 = 22 tokens, under two unary ones.
    let chain = |last: Tree, symbol: u32| {
        let mut tree = last;
        for _ in 0..7 {
            tree = Tree::Symbol(symbol, vec![tree, constant(), constant()]);
        }
        Tree::Symbol(11, vec![Tree::Symbol(11, vec![tree])])
    };
    let all: Vec<u32> = (0..32).collect();
    let rows = |shift: u32| -> Vec<Vec<u32>> {
        (0..128u32)
            .map(|n| {
                let symbol = 13 + (n + shift) % 51;
                vec![
                    symbol,
                    10 + n % 22,
                    10 + (n * 7) % 22,
                    10 + (n * 5) % 22,
                    10 + (n * 3) % 22,
                ]
            })
            .collect()
    };
    let mut model = example();
    model.budget = 10_000_000;
    model.arities = arities;
    model.a.states = 32;
    model.a.finals = all.clone();
    model.a.rows = rows(0);
    model.b.states = 32;
    model.b.finals = all.clone();
    model.b.rows = rows(5);
    model.rules = (0..32)
        .map(|n| (chain(x(0), 20 + n), chain(x(0), 25 + n)))
        .collect();
    model.merge = all;
    model
}

/// A model with the largest total there is: 32 rules of four variables over
/// 32 classes. Its left sides have a class only where two rows fit.
pub fn largest_total() -> Model {
    let pair = |first: Tree, second: Tree| Tree::Symbol(1, vec![first, second]);
    let mut model = example();
    model.arities = vec![0, 2];
    model.a.states = 32;
    model.a.finals = vec![];
    model.a.rows = (0..32).map(|n| vec![1, n, 31 - n, n]).collect();
    model.b.states = 1;
    model.b.finals = vec![0];
    model.b.rows = vec![vec![0, 0]];
    model.merge = (0..32).collect();
    let left = pair(pair(x(0), x(1)), pair(x(2), x(3)));
    let right = pair(pair(x(0), x(1)), pair(x(2), x(3)));
    model.rules = vec![(left, right); 32];
    model
}

/// Few bytes, many substitutions: budgets that stop early, or pairs met early.
fn large_totals() -> Vec<Vec<u8>> {
    let mut files = Vec::new();
    let mut model = largest_total();
    for budget in [0, 1, 1000, 20_000] {
        model.budget = budget;
        files.push(model.write());
    }
    // The first critical pair is met within the first rule.
    model.rules[0].1 = x(3);
    for budget in [1, 31, 32, 1024, 33_554_432] {
        model.budget = budget;
        files.push(model.write());
    }
    // Two variables over 32 classes, 32 rules: a total of 32,768.
    let mut model = largest_total();
    let pair = Tree::Symbol(1, vec![x(0), x(1)]);
    model.rules = vec![(pair.clone(), pair); 32];
    for budget in [32_767, 32_768, 32_769, 33_554_432] {
        model.budget = budget;
        files.push(model.write());
    }
    // The last rule lacks its last class.
    model.rules[31].1 = Tree::Symbol(1, vec![x(1), x(0)]);
    files.push(model.write());
    files
}

/// Two variables over 32 classes, 32 rules, where the merging is unsuitable:
/// stopped by one substitution, closed, and critical in the last rule.
pub fn unsuitable_totals() -> Vec<Vec<u8>> {
    let mut model = largest_total();
    model.a.finals = vec![0];
    model.a.rows.push(vec![0, 0]);
    let pair = Tree::Symbol(1, vec![x(0), x(1)]);
    model.rules = vec![(pair.clone(), pair); 32];
    let mut files = Vec::new();
    for budget in [32_767, 32_768] {
        model.budget = budget;
        files.push(model.write());
    }
    model.rules[31].1 = Tree::Symbol(1, vec![x(1), x(0)]);
    files.push(model.write());
    files
}

/// Files of exactly so many bytes, around 16,384.
fn lengths() -> Vec<Vec<u8>> {
    let mut files = Vec::new();
    let sound = example().write();
    let last = sound.len() - 1;
    for length in [
        LARGEST_FILE - 1,
        LARGEST_FILE,
        LARGEST_FILE + 1,
        LARGEST_FILE + 2,
    ] {
        // Bytes after the last line.
        files.push(padded(sound.clone(), b"\n", length));
        // A last line too long, with and without its LF.
        let mut long = padded(sound[..last].to_vec(), b",0", length - 1);
        if long.last() == Some(&b',') {
            long[last] = b'0';
            long.insert(last, b'0');
        }
        long.truncate(length - 1);
        files.push(padded(long, b"\n", length));
    }
    // Nothing but one byte; a first line without end; a long list of finals.
    files.push(vec![b'b'; LARGEST_FILE]);
    files.push(vec![b'b'; LARGEST_FILE + 1]);
    files.push(padded(b"budget=1".to_vec(), b"0", LARGEST_FILE));
    let lines = example().lines();
    let finals = format!("0{}", ",1".repeat(7000));
    files.push(with_line(
        &lines,
        3,
        &with_value(Kind::Final, finals.as_bytes()),
    ));
    let finals = format!("0{}", ",4".repeat(8080));
    files.push(with_line(
        &lines,
        3,
        &with_value(Kind::Final, finals.as_bytes()),
    ));
    // Far too long, also for a length kept in 15 bits.
    files.push(padded(sound.clone(), b"\n", 32_768));
    files.push(padded(sound.clone(), b"merge=0\n", 20_000));
    files.push(padded(sound, b"0", 65_535));
    // Long and sound.
    let mut model = longest();
    files.push(model.write());
    model.b.rows.push(vec![10, 10]);
    files.push(model.write());
    model.b.rows.pop();
    model.budget = 1023;
    files.push(model.write());
    model.budget = 1024;
    files.push(model.write());
    // A 33rd rule.
    let again = model.rules[0].clone();
    model.rules.push(again);
    files.push(model.write());
    // Empty, and nearly so.
    files.push(vec![]);
    files.push(b"\n".to_vec());
    files.push(b"budget=0\n".to_vec());
    files
}

/// Counts that do not fit the lines that follow.
fn counts() -> Vec<Vec<u8>> {
    let mut files = Vec::new();
    for count in ["0", "1", "4", "6", "7", "128"] {
        files.push(with(Kind::Trans, count));
    }
    for count in ["0", "1", "2", "4", "5", "128"] {
        files.push(with(Kind::BadTrans, count));
    }
    for count in ["0", "2", "3", "32"] {
        files.push(with(Kind::Rules, count));
    }
    files
}

/// Lists of finals in and out of order.
fn finals() -> Vec<Vec<u8>> {
    let mut files = Vec::new();
    let lists = [
        "",
        "0",
        "0,1",
        "0,1,2",
        "0,2",
        "1,2",
        "2,1",
        "1,1",
        "0,1,1",
        "0,2,1",
        "3",
        "0,3",
        "0,1,2,3",
        "0,1,2,3,4",
        "0,0,0,0,0",
        "4",
        "3,4",
        "4,3",
        "4,4",
        "3,3,4",
        "2,1,4",
        "2,1,x",
        "2,1,",
        ",",
        "31",
        "32",
    ];
    for list in lists {
        files.push(with(Kind::Final, list));
        files.push(with(Kind::BadFinal, list));
    }
    files
}

/// Partitions of the example's four states: all of them, and every fourth line
/// like them that is none.
fn merges() -> Vec<Vec<u8>> {
    let mut files = Vec::new();
    for code in 0..256u32 {
        let entries: Vec<String> = (0..4)
            .map(|n| (code >> (6 - 2 * n) & 3).to_string())
            .collect();
        let file = with(Kind::Merge, &entries.join(","));
        if code % 4 == 1 || crate::reading::read(&file).is_ok() {
            files.push(file);
        }
    }
    files
}

/// One tree of two or three leaves in each automaton, the leaves of two kinds:
/// the tops share a tree only when all leaves are alike.
fn leaves() -> Vec<Vec<u8>> {
    let mut files = Vec::new();
    for arity in [2, 3] {
        for code in 0..1u32 << (2 * arity) {
            let leaf = |n: u32| code >> n & 1;
            let row = |from: u32| -> Vec<u32> {
                [2].into_iter()
                    .chain((0..arity).map(|n| leaf(from + n)))
                    .chain([2])
                    .collect()
            };
            let mut model = example();
            model.arities = vec![0, 0, arity];
            model.a.states = 3;
            model.a.finals = vec![2];
            model.a.rows = vec![row(0), vec![1, 1], vec![0, 0]];
            model.b.rows = vec![row(arity), vec![0, 0], vec![1, 1]];
            model.rules.clear();
            model.merge = vec![0, 1, 2];
            files.push(model.write());
        }
    }
    files
}

/// All of them.
pub fn all(random: &mut Random) -> Vec<Vec<u8>> {
    let mut files = Vec::new();
    files.extend(budgets());
    files.extend(arities());
    files.extend(rows());
    files.extend(states());
    files.extend(rules());
    files.extend(tokens());
    files.extend(large_totals());
    files.extend(lengths());
    files.extend(counts());
    files.extend(finals());
    files.extend(merges());
    files.extend(leaves());
    random.shuffle(&mut files);
    files
}

/// One of them at random, leaving out those that are long to judge or to read.
pub fn random_size(random: &mut Random) -> Vec<u8> {
    let files = match random.below(8) {
        0 => budgets(),
        1 => arities(),
        2 => rows(),
        3 => states(),
        4 => rules(),
        5 => tokens(),
        6 => counts(),
        _ => finals(),
    };
    random.pick(&files).clone()
}

/// A sound file made longer than may be, or as long as may be, at random.
pub fn random_length(file: &[u8], random: &mut Random) -> Vec<u8> {
    let pieces: [&[u8]; 4] = [b"\n", b"0", b",0", b"merge=0\n"];
    let piece = pieces[random.below(4)];
    let length = LARGEST_FILE - 1 + random.below(4);
    let keep = if random.chance(50) {
        file.len()
    } else {
        file.len().saturating_sub(1)
    };
    padded(file[..keep].to_vec(), piece, length)
}
