//! Certificates with rules of three and four variables and up to 32 classes, many of them alike, through the public operation and the reference:
//! `many [COUNT] [SEED]`. The answers have to be the same; how many there were of each verdict is printed.
use std::collections::BTreeMap;

/// Numbers that look random, the same for the same seed.
struct Numbers(u64);

impl Numbers {
    fn below(&mut self, most: usize) -> usize {
        self.0 ^= self.0 << 13;
        self.0 ^= self.0 >> 7;
        self.0 ^= self.0 << 17;
        (self.0 >> 11) as usize % most
    }

    fn chance(&mut self, percent: usize) -> bool {
        self.below(100) < percent
    }
}

const ARITIES: [usize; 6] = [0, 1, 1, 2, 2, 3];

/// A term that has the variables in `wanted`, each once, in their order; under a unary symbol each, where `clad`.
fn term(n: &mut Numbers, wanted: &[usize], clad: bool, out: &mut Vec<String>) {
    if wanted.is_empty() {
        out.push("0".into());
        return;
    }
    if wanted.len() == 1 && n.chance(80) {
        if clad || n.chance(30) {
            out.push((1 + n.below(2)).to_string());
        }
        out.push(format!("x{}", wanted[0]));
        return;
    }
    let f = if n.chance(20) { 1 + n.below(2) } else if wanted.len() > 2 && n.chance(30) { 5 } else { 3 + n.below(2) };
    out.push(f.to_string());
    let mut from = 0;
    for part in 0..ARITIES[f] {
        let to = if part + 1 == ARITIES[f] { wanted.len() } else { from + n.below(wanted.len() - from + 1) };
        term(n, &wanted[from..to], clad, out);
        from = to;
    }
}

/// Every row of arguments below `most`.
fn tuples(length: usize, most: usize) -> Vec<Vec<usize>> {
    (0..length).fold(vec![vec![]], |rows, _| rows.iter().flat_map(|row| (0..most).map(move |q| [row.as_slice(), &[q]].concat())).collect())
}

/// Rows under which a term with clad variables always has a class: the unary symbols take every class to one of the first few, by its kind, and the
/// others take those to some of them. Some unary rows lead to a class that no other row takes: classes that differ by such rows alone are alike, too.
fn closed_rows(n: &mut Numbers, k: usize, kind: &[usize]) -> Vec<Vec<usize>> {
    let few = 2;
    let mut rows = vec![vec![0, n.below(few)]];
    for f in 1..3 {
        let to: Vec<usize> = (0..8).map(|_| n.below(few)).collect();
        let odd = n.below(8);
        for q in 0..k {
            rows.push(vec![f, q, if n.chance(odd) { n.below(few) } else { to[kind[q]] }]);
        }
    }
    let idle = if k > few && n.chance(50) { n.below(100) } else { 0 };
    for f in 1..3 {
        for q in 0..k {
            if rows.len() < 96 && n.chance(idle) {
                rows.push(vec![f, q, few + n.below(k - few)]);
            }
        }
    }
    let both = n.below(100);
    for f in 3..6 {
        for arguments in tuples(ARITIES[f], few) {
            let first = n.below(few);
            rows.push([&[f], arguments.as_slice(), &[first]].concat());
            if n.chance(both) {
                rows.push([&[f], arguments.as_slice(), &[1 - first]].concat());
            }
        }
    }
    rows
}

/// A right side: the left one, or one with some variables in other places and some left out.
fn right_side(n: &mut Numbers, left: &[String], v: usize) -> Vec<String> {
    let exchange = n.chance(75);
    left.iter()
        .map(|token| if token.starts_with('x') && exchange && n.chance(40) { format!("x{}", n.below(v)) } else { token.clone() })
        .collect()
}

/// Rows by kind, so that classes of one kind are alike but for those whose row is left out.
fn scattered_rows(n: &mut Numbers, k: usize, kinds: usize, kind: &[usize]) -> Vec<Vec<usize>> {
    let mut rows = vec![vec![0, n.below(k)]];
    let thin = n.below(30);
    while rows.len() < 120 {
        let f = 1 + n.below(5);
        let (shape, to): (Vec<usize>, usize) = ((0..ARITIES[f]).map(|_| n.below(kinds)).collect(), n.below(k));
        let place = n.below(ARITIES[f]);
        for class in (0..k).filter(|&q| kind[q] == shape[place]) {
            if rows.len() < 128 && !n.chance(thin) {
                let mut row = vec![f];
                row.extend(shape.iter().enumerate().map(|(i, &s)| if i == place { class } else { kind.iter().position(|&t| t == s).unwrap_or(0) }));
                row.push(if n.chance(90) { to } else { n.below(k) });
                rows.push(row);
            }
        }
        if n.chance(1) {
            break;
        }
    }
    rows
}

fn certificate(n: &mut Numbers) -> Vec<u8> {
    let k = 3 + if n.chance(75) { n.below(12) } else { n.below(30) };
    let kinds = 1 + n.below(4);
    let kind: Vec<usize> = (0..k).map(|_| n.below(kinds)).collect();
    let clad = n.chance(65);
    let rows = if clad { closed_rows(n, k, &kind) } else { scattered_rows(n, k, kinds, &kind) };
    let list = |numbers: &[usize]| numbers.iter().map(usize::to_string).collect::<Vec<_>>().join(",");
    let budget = if n.chance(80) { 33_554_432 } else { n.below(2_000_000) };
    let mut text = format!("budget={budget}\narities={}\nstates={k}\nfinal={}\ntrans={}\n", list(&ARITIES), if n.chance(30) { "0" } else { "" }, rows.len());
    for row in &rows {
        text += &format!("t={}\n", list(row));
    }
    text += "badstates=1\nbadfinal=0\nbadtrans=1\nu=0,0\n";
    let rules = 1 + n.below(2);
    text += &format!("rules={rules}\n");
    for _ in 0..rules {
        let v = if n.chance(80) { 3 + n.below(2) } else { n.below(3) };
        let left = loop {
            let mut left = Vec::new();
            term(n, &(0..v).collect::<Vec<_>>(), clad, &mut left);
            if left.len() <= 24 && !left[0].starts_with('x') {
                break left;
            }
        };
        let right = right_side(n, &left, v.max(1));
        text += &format!("l={}\nr={}\n", left.join(","), right.join(","));
    }
    text += &format!("merge={}\n", list(&(0..k).collect::<Vec<_>>()));
    text.into_bytes()
}

fn main() {
    let words: Vec<String> = std::env::args().skip(1).collect();
    let count: usize = words.first().map_or(10_000, |w| w.parse().expect("COUNT is no number"));
    let seed: u64 = words.get(1).map_or(1, |w| w.parse().expect("SEED is no number"));
    let mut n = Numbers(seed.wrapping_mul(0x9e37_79b9_7f4a_7c15) | 1);
    let (mut verdicts, mut differences) = (BTreeMap::new(), 0);
    for _ in 0..count {
        let file = certificate(&mut n);
        let ours = mergecheck::answer(&file);
        let theirs = reference::answer(&file).1;
        if ours.as_bytes() != &theirs[..] {
            differences += 1;
            println!("{}\n{ours}\n{}", String::from_utf8_lossy(&file), String::from_utf8_lossy(&theirs));
        }
        let told: Vec<&str> = ours.lines().filter(|l| l.starts_with("verdict") || l.starts_with("refusal") && !l.ends_with('-')).collect();
        *verdicts.entry(told.join(" ")).or_insert(0usize) += 1;
    }
    for (verdict, n) in &verdicts {
        println!("{n:>8} {verdict}");
    }
    println!("{count} certificates, {differences} differences");
    std::process::exit(i32::from(differences > 0));
}
