//! Whole certificates through the public operation, beside the reference, in one run: answers are compared, times are the best of seven
//! runs of each in turn (of three for the reference where a run takes half a second), by processor time, and the ratio is the checker's time
//! over the reference's. The last column is its time over that of the same algorithm in Rust, which is given the tables and only searches.
mod same;

use same::Case;
use std::hint::black_box;
use std::path::PathBuf;

/// The processor time that this process has used, in seconds.
fn processor_time() -> f64 {
    #[repr(C)]
    struct Time {
        seconds: i64,
        nanoseconds: i64,
    }
    extern "C" {
        fn clock_gettime(clock: i32, time: *mut Time) -> i32;
    }
    const PROCESS_CPUTIME: i32 = 2;
    let mut time = Time { seconds: 0, nanoseconds: 0 };
    // SAFETY: `time` is valid for the call to fill.
    unsafe { clock_gettime(PROCESS_CPUTIME, &mut time) };
    time.seconds as f64 + time.nanoseconds as f64 * 1e-9
}

/// The time of one run, in seconds, where so many are made.
fn timed(rounds: usize, mut run: impl FnMut()) -> f64 {
    let start = processor_time();
    for _ in 0..rounds {
        run();
    }
    (processor_time() - start) / rounds as f64
}

/// Runs both on the files, and prints times, their ratio and, where more than one substitution was examined, the time for each of them. Where
/// a case is given, the search by the same algorithm is run beside them too.
fn compare(name: &str, files: &[Vec<u8>], rounds: usize, case: Option<&Case>) {
    let mut examined = 0u64;
    for file in files {
        let ours = mergecheck::answer(file);
        let theirs = reference::answer(file).1;
        assert_eq!(ours.as_bytes(), &theirs[..], "{name}: the answers differ");
        let last = ours.trim_end().rsplit('=').next().unwrap();
        examined += last.parse::<u64>().unwrap_or(0);
    }
    if let Some(case) = case {
        assert_eq!(case.search(), examined, "{name}: the counts differ");
    }
    let (mut checker, mut other, mut alike) = (f64::MAX, f64::MAX, f64::MAX);
    for run in 0..7 {
        checker = checker.min(timed(rounds, || {
            for file in files {
                let mut out = [0u8; mergecheck::BUFFER];
                black_box(mergecheck::check(black_box(file), &mut out));
            }
        }));
        if run < 3 || other < 0.5 {
            other = other.min(timed(rounds, || {
                for file in files {
                    black_box(reference::answer(black_box(file)));
                }
            }));
        }
        if let Some(case) = case {
            alike = alike.min(timed(rounds, || {
                black_box(black_box(case).search());
            }));
        }
    }
    let per = |time: f64| if examined > 1 { format!("{:.3}", time * 1e9 / examined as f64) } else { "-".into() };
    let ratio = if case.is_some() { format!("{:.2}", checker / alike) } else { "-".into() };
    println!(
        "{name:<44} {examined:>10} {:>12.3} {:>12.3} {:>9} {:>9} {:>6.2} {ratio:>6}",
        checker * 1e3,
        other * 1e3,
        per(checker),
        per(other),
        checker / other
    );
}

/// A certificate of k states, nothing merged, with these transitions and this rule written n times; no final states.
fn certificate(k: u8, arities: &[u8], rows: &[Vec<u8>], side: &str, n: usize, budget: u32) -> Vec<u8> {
    let list = |numbers: &[u8]| numbers.iter().map(u8::to_string).collect::<Vec<_>>().join(",");
    let mut text = format!("budget={budget}\narities={}\nstates={k}\nfinal=\ntrans={}\n", list(arities), rows.len());
    for row in rows {
        text += &format!("t={}\n", list(row));
    }
    text += &format!("badstates=1\nbadfinal=\nbadtrans=0\nrules={n}\n");
    for _ in 0..n {
        text += &format!("l={side}\nr={side}\n");
    }
    text += &format!("merge={}\n", list(&(0..k).collect::<Vec<u8>>()));
    text.into_bytes()
}

/// Numbers that look random, the same in every run.
struct Numbers(u64);

impl Numbers {
    fn below(&mut self, most: u64) -> u8 {
        self.0 ^= self.0 << 13;
        self.0 ^= self.0 >> 7;
        self.0 ^= self.0 << 17;
        (self.0 % most) as u8
    }
}

/// A certificate of 32 states made from its parts, beside the same algorithm.
fn both(name: &str, arities: &[u8], rows: &[Vec<u8>], side: &str, n: usize, budget: u32) {
    let case = Case::new(arities, rows, side, n, 32, budget);
    compare(name, &[certificate(32, arities, rows, side, n, budget)], 1, Some(&case));
}

/// How the time grows: a dense table of k classes, and n rules of four variables.
fn growth(k: u8, n: usize) {
    let rows = dense(k, &mut Numbers(12345));
    let case = Case::new(&ARITIES, &rows, SHORT, n, k as usize, LARGEST);
    let rounds = ((1 << 20) / (k as usize).pow(4)).max(1);
    let rules = if n == 1 { "one rule".into() } else { format!("{n} rules") };
    compare(&format!("{k} classes, {rules}"), &[certificate(k, &ARITIES, &rows, SHORT, n, LARGEST)], rounds, Some(&case));
}

/// A file of the project, by its path from this folder.
fn file(path: &str) -> Vec<u8> {
    let path = PathBuf::from(env!("CARGO_MANIFEST_DIR")).join(path);
    std::fs::read(&path).unwrap_or_else(|e| panic!("{}: {e}", path.display()))
}

fn example(name: &str) -> Vec<u8> {
    file(&format!("../examples/{name}"))
}

/// A certificate made to be slow, and the same algorithm's case of it.
fn worst(name: &str) -> (Vec<u8>, Case) {
    let bytes = file(&format!("worst/{name}.cert"));
    let case = Case::from_text(std::str::from_utf8(&bytes).unwrap());
    (bytes, case)
}

/// Of a certificate that the checker refuses, since it has more than 32 states: the time of the same algorithm in Rust alone.
fn refused(name: &str) {
    let (bytes, case) = worst(name);
    let answer = mergecheck::answer(&bytes);
    assert!(answer.starts_with("verdict=malformed\n"), "{name} is not refused: it can be compared");
    assert_eq!(answer.as_bytes(), &reference::answer(&bytes).1[..], "{name}: the answers differ");
    let mut examined = 0;
    let time = (0..3).map(|_| timed(1, || examined = black_box(black_box(&case).search()))).fold(f64::MAX, f64::min);
    let name = format!("{name}, refused today");
    println!("{name:<44} {examined:>10} {:>12.3} {:>22.3}", time * 1e3, time * 1e9 / examined as f64);
}

/// The corpus of `trials`: each certificate after its length in two bytes.
fn corpus() -> Vec<Vec<u8>> {
    let stream = file("../crates/trials/stdin");
    let (mut files, mut at) = (Vec::new(), 0);
    while at + 2 <= stream.len() {
        let length = stream[at] as usize * 256 + stream[at + 1] as usize;
        files.push(stream[at + 2..at + 2 + length].to_vec());
        at += 2 + length;
    }
    files
}

const LARGEST: u32 = 33_554_432;

const ARITIES: [u8; 8] = [0, 1, 1, 2, 2, 3, 3, 0];

const SHORT: &str = "1,3,1,x0,3,1,x1,3,1,x2,1,x3";

/// Dense: symbol 1 takes every class to one of four, and symbol 3 any two of those four to one of them, so no left side is ever empty.
fn dense(k: u8, numbers: &mut Numbers) -> Vec<Vec<u8>> {
    let mut rows: Vec<Vec<u8>> = Vec::new();
    for i in 0..k {
        rows.push(vec![1, i, (i.wrapping_mul(7) + 3) % 4]);
        rows.push(vec![2, i, (i.wrapping_mul(5) + 1) % 4]);
    }
    for i in 0..4 {
        for j in 0..4 {
            rows.push(vec![3, i, j, numbers.below(4)]);
        }
    }
    for i in 0..k {
        rows.push(vec![4, i, numbers.below(4), (i.wrapping_mul(9) + 5) % k]);
    }
    for i in 4..k.min(20) {
        rows.push(vec![3, i, numbers.below(k as u64), numbers.below(k as u64)]);
    }
    rows
}

fn main() {
    println!("{:<44} {:>10} {:>12} {:>12} {:>9} {:>9} {:>6} {:>6}", "", "examined", "checker, ms", "reference", "ns each", "ns each", "ratio", "same");
    compare("the scope's example, 207 bytes", &[example("K1.cert")], 2000, None);
    compare("the call-frame example, 366 bytes", &[example("frames-accepted.cert")], 2000, None);
    compare("the corpus of trials", &corpus(), 1, None);

    // Made to be slow: the first four for the search, the last for the question of sharing.
    for name in ["chain-32", "subset-32", "carry-32", "deep-32"] {
        let (bytes, case) = worst(name);
        compare(name, &[bytes], 1, Some(&case));
    }
    compare("cycles-32", &[file("worst/cycles-32.cert")], 10, None);

    let (arities, short) = (ARITIES, SHORT);
    let mut numbers = Numbers(12345);
    let rows = dense(32, &mut numbers);
    let long = "1,2,1,3,1,2,1,x0,3,1,2,2,x1,3,2,1,1,x2,1,2,1,2,1,x3";
    both("dense, 12 tokens a side, one rule", &arities, &rows, short, 1, LARGEST);
    both("dense, 24 tokens a side, one rule", &arities, &rows, long, 1, LARGEST);
    both("dense, 12 tokens a side, largest total", &arities, &rows, short, 32, LARGEST);
    both("dense, 24 tokens a side, largest total", &arities, &rows, long, 32, LARGEST);
    both("the same, stopped inside a batch", &arities, &rows, long, 32, LARGEST - 1);

    // The heaviest: all 128 rows are one binary symbol's, on both sides of every rule.
    let mut heavy: Vec<Vec<u8>> = Vec::new();
    for i in 0..32 {
        for j in 0..4 {
            heavy.push(vec![3, i, (i + j) % 32, (i * 3 + j) % 32]);
        }
    }
    both("128 rows of one binary symbol, one rule", &arities, &heavy, "3,3,x0,x1,3,x2,x3", 1, LARGEST);

    // Dense and heavy: every symbol of a side but the constant 7 is the one with 127 rows, and no left side is ever empty.
    let mut full: Vec<Vec<u8>> = vec![vec![7, 0]];
    for i in 0..32 {
        full.push(vec![3, i, 0, 0]);
    }
    for i in 0..95u8 {
        full.push(vec![3, i % 32, 1 + i / 32, (i.wrapping_mul(5)) % 32]);
    }
    let wide = "3,3,3,3,x0,7,7,3,3,x1,7,7,3,3,3,x2,7,7,3,3,x3,7,7";
    both("dense, one symbol of 127 rows, one rule", &arities, &full, wide, 1, LARGEST);
    both("dense, one symbol of 127 rows, largest total", &arities, &full, wide, 32, LARGEST);

    // As many rows as a side can walk: 18 of its 24 tokens are one unary symbol, which has all 128 rows but two. They lead to one class, to
    // two classes by turns, or to many; every class always leads to 0, so no left side is ever empty.
    let chain = "1,1,1,1,1,1,1,1,1,1,1,1,1,1,5,1,x0,1,x1,3,1,x2,1,x3";
    let unary = |target: &dyn Fn(u8) -> Vec<u8>| -> Vec<Vec<u8>> {
        let mut rows: Vec<Vec<u8>> = (0..126).map(target).collect();
        rows.extend([vec![3, 0, 0, 0], vec![5, 0, 0, 0, 0]]);
        rows
    };
    let one = unary(&|i| vec![1, i % 32, 0]);
    let turns = unary(&|i| vec![1, i / 2 % 32, i / 64 * 2 + i % 2]);
    let many = unary(&|i| vec![1, i % 32, if i < 32 { 0 } else { 1 + i.wrapping_mul(7) % 30 }]);
    both("18 unary symbols of 126 rows, to one class", &arities, &one, chain, 32, LARGEST);
    both("the same, to two classes by turns", &arities, &turns, chain, 32, LARGEST);
    both("the same, to many classes", &arities, &many, chain, 32, LARGEST);

    // Sparse: each symbol has four transitions, so most prefixes are dead.
    let mut sparse: Vec<Vec<u8>> = Vec::new();
    for f in 0..8u8 {
        for _ in 0..4 {
            let mut row = vec![f];
            for _ in 0..arities[f as usize] + 1 {
                row.push(numbers.below(32));
            }
            sparse.push(row);
        }
    }
    both("sparse, 12 tokens a side, largest total", &arities, &sparse, short, 32, LARGEST);

    // A quarter of the classes is alive at each depth.
    let mut quarter: Vec<Vec<u8>> = Vec::new();
    for i in 0..8 {
        quarter.push(vec![1, i, 0]);
        quarter.push(vec![2, i, 0]);
    }
    for i in 0..32 {
        quarter.push(vec![3, 0, i, 0]);
    }
    both("a quarter alive at each depth, largest total", &arities, &quarter, short, 32, LARGEST);

    println!("\nhow the time grows: a dense table, 12 tokens a side");
    for (k, n) in [(8, 1), (16, 1), (32, 1), (32, 8), (32, 32)] {
        growth(k, n);
    }

    println!("\n{:<44} {:>10} {:>12} {:>22}", "64 classes, the same algorithm in Rust alone", "examined", "same, ms", "ns each");
    for name in ["chain-64", "subset-64"] {
        refused(name);
    }
}
