//! Faults by the paper's numbers: for every kind of line, every refusal that
//! can occur on it, alone, by twos on one line, and on two lines.

use super::model::{join, with_value, Kind, Line, Model};
use crate::random::Random;

/// What a case must be refused with, where the case itself tells.
#[derive(Clone, Copy, Debug, PartialEq, Eq)]
pub struct Expected {
    pub number: u8,
    pub line: Option<u32>,
}

/// A line to stand in place of a sound one, LF included.
#[derive(Clone, Debug)]
pub struct Fault {
    pub number: u8,
    /// Whether the refusal is on this very line.
    pub here: bool,
    pub bytes: Vec<u8>,
}

/// No numbers, anywhere.
const NO_NUMBER: [&[u8]; 27] = [
    b"",
    b"00",
    b"01",
    b"007",
    b"000000000",
    b"123456789",
    b"100000000",
    b"4294967296",
    b"18446744073709551616",
    b" 1",
    b"1 ",
    b"1\r",
    b"\r",
    b"\0",
    b"1\0",
    b"\x80",
    b"1\xff",
    b"+1",
    b"-1",
    b"a",
    b"1a",
    b"/",
    b":",
    b"1.",
    b"0x1",
    b"1\t",
    b"X0",
];

/// No tokens of a term.
const NO_TOKEN: [&[u8]; 14] = [
    b"x",
    b"x00",
    b"x01",
    b"xx0",
    b"0x",
    b"x0x",
    b"x123456789",
    b"x-1",
    b"x 0",
    b"x0 ",
    b"y0",
    b"w0",
    b"x0\r",
    b"x\x80",
];

/// Spellings with which a key is spoiled.
fn wrong_keys(line: &Line) -> Vec<Vec<u8>> {
    let key = line.kind.key();
    let with = |text: &str| {
        let mut bytes = text.as_bytes().to_vec();
        bytes.extend_from_slice(&line.value);
        bytes.push(b'\n');
        bytes
    };
    let mut other = Kind::ALL[(line.kind as usize + 5) % 14].key().to_string();
    other.push('=');
    vec![
        with(&format!("{}=", key.to_uppercase())),
        with(&format!(" {key}=")),
        with(&format!("{key} =")),
        with(&format!("\r{key}=")),
        with(&format!("\0{key}=")),
        with(&format!("\u{e9}{key}=")),
        with(&format!("{key}\r=")),
        with(key),
        with(&format!("{key}:")),
        with(&format!("{}=", &key[1..])),
        with(&format!("{key}{key}=")),
        with("="),
        with(""),
        with(&other),
        with(&format!("\n{key}=")),
        key.as_bytes().to_vec(),
    ]
}

/// Every single fault on the line at `index` of a sound file.
pub fn on_line(model: &Model, lines: &[Line], index: usize) -> Vec<Fault> {
    let line = &lines[index];
    let mut faults = Vec::new();
    for bytes in wrong_keys(line) {
        faults.push(Fault {
            number: 3,
            here: true,
            bytes,
        });
    }
    // Gone, or there twice: among lines of one kind this shows only later.
    faults.push(Fault {
        number: 3,
        here: !matches!(line.kind, Kind::T | Kind::U),
        bytes: vec![],
    });
    faults.push(Fault {
        number: 3,
        here: false,
        bytes: [line.bytes(), line.bytes()].concat(),
    });
    for (number, value) in values(model, lines, index) {
        faults.push(Fault {
            number,
            here: true,
            bytes: with_value(line.kind, &value),
        });
    }
    faults
}

/// Every faulty value for the line at `index`, with its refusal.
pub fn values(model: &Model, lines: &[Line], index: usize) -> Vec<(u8, Vec<u8>)> {
    let mut values = Vec::new();
    let line = &lines[index];
    let entries = line.entries();
    let term = matches!(line.kind, Kind::L | Kind::R);

    // 4: the spelling.
    let spelt: Vec<&[u8]> = if term {
        NO_NUMBER.iter().chain(&NO_TOKEN).copied().collect()
    } else {
        NO_NUMBER
            .iter()
            .copied()
            .chain([&b"x0"[..], b"x"])
            .collect()
    };
    let finals = matches!(line.kind, Kind::Final | Kind::BadFinal);
    for (turn, wrong) in spelt.into_iter().enumerate() {
        if !(finals && wrong.is_empty()) {
            values.push((4, wrong.to_vec()));
        }
        if entries.len() > 1 {
            let place = [0, entries.len() - 1, entries.len() / 2][turn % 3];
            values.push((4, join(&replaced(&entries, place, wrong))));
        }
    }
    for wrong in [&b","[..], b",,"] {
        values.push((4, wrong.to_vec()));
    }
    values.push((4, [b",", &line.value[..]].concat()));
    values.push((4, [&line.value[..], b","].concat()));
    values.push((4, [&line.value[..], b",,0"].concat()));
    values.push((4, [&line.value[..], b", 0"].concat()));
    if single(line.kind) {
        values.push((4, [&line.value[..], b",0"].concat()));
        values.push((4, [&line.value[..], b",", &line.value[..]].concat()));
    }

    // 5: out of range, in each place.
    for wrong in out_of_range_single(line.kind) {
        values.push((5, wrong.to_string().into_bytes()));
    }
    for place in 0..entries.len() {
        for wrong in out_of_range(model, line.kind, place) {
            values.push((5, join(&replaced(&entries, place, wrong.as_bytes()))));
        }
    }

    // 6 to 11: entries that are sound one by one.
    values.extend(structure(model, lines, index));
    values
}

fn single(kind: Kind) -> bool {
    matches!(
        kind,
        Kind::Budget | Kind::States | Kind::Trans | Kind::BadStates | Kind::BadTrans | Kind::Rules
    )
}

fn replaced(entries: &[Vec<u8>], place: usize, new: &[u8]) -> Vec<Vec<u8>> {
    let mut entries = entries.to_vec();
    entries[place] = new.to_vec();
    entries
}

fn appended(entries: &[Vec<u8>], new: &[u8]) -> Vec<u8> {
    let mut entries = entries.to_vec();
    entries.push(new.to_vec());
    join(&entries)
}

fn out_of_range_single(kind: Kind) -> Vec<u32> {
    match kind {
        Kind::Budget => vec![33_554_433, 33_554_434, 40_000_000, 99_999_999],
        Kind::States | Kind::BadStates => vec![0, 33, 64, 256, 99_999_999],
        Kind::Trans | Kind::BadTrans => vec![129, 130, 256, 99_999_999],
        Kind::Rules => vec![33, 64, 256, 99_999_999],
        _ => vec![],
    }
}

/// Entries out of range for the place in a list.
fn out_of_range(model: &Model, kind: Kind, place: usize) -> Vec<String> {
    let from = |least: u32| {
        vec![
            least.to_string(),
            (least + 1).to_string(),
            "256".into(),
            "99999999".into(),
        ]
    };
    let symbols = model.arities.len() as u32;
    match kind {
        Kind::Arities => from(4),
        Kind::Final => from(model.a.states),
        Kind::BadFinal => from(model.b.states),
        Kind::T | Kind::U if place == 0 => from(symbols),
        Kind::T => from(model.a.states),
        Kind::U => from(model.b.states),
        Kind::L | Kind::R => {
            let variables = ["x4", "x5", "x10", "x256", "x99999999"].map(String::from);
            from(symbols).into_iter().chain(variables).collect()
        }
        Kind::Merge => from(32),
        _ => vec![],
    }
}

/// Faulty values whose entries are sound: 6 to 11.
fn structure(model: &Model, lines: &[Line], index: usize) -> Vec<(u8, Vec<u8>)> {
    let line = &lines[index];
    let entries = line.entries();
    let many = |entry: &str, count: usize| vec![entry; count].join(",").into_bytes();
    let text = |text: &str| text.as_bytes().to_vec();
    let mut values = Vec::new();
    match line.kind {
        Kind::Arities => {
            for count in [65, 66, 100, 257] {
                values.push((6, many("0", count)));
            }
        }
        Kind::Final | Kind::BadFinal => {
            let states = if line.kind == Kind::Final {
                model.a.states
            } else {
                model.b.states
            };
            let last = states - 1;
            values.push((7, text("0,0")));
            values.push((7, many(&last.to_string(), 2)));
            values.push((7, many("0", states as usize + 1)));
            values.push((7, many("0", 33)));
            values.push((7, many("0", 300)));
            if last > 0 {
                values.push((7, format!("{last},0").into_bytes()));
                values.push((7, format!("0,{last},0").into_bytes()));
                values.push((7, format!("0,{last},{last}").into_bytes()));
            }
        }
        Kind::T | Kind::U => {
            values.push((6, entries[0].clone()));
            values.push((6, join(&entries[..entries.len() - 1])));
            values.push((6, appended(&entries, b"0")));
            values.push((6, [&line.value[..], b",0,0"].concat()));
            values.push((6, [&line.value[..], b",", &many("0", 300)[..]].concat()));
        }
        Kind::L | Kind::R => values.extend(term_structure(model, lines, index)),
        Kind::Merge => {
            values.push((6, appended(&entries, b"0")));
            values.push((6, many("0", 33 + entries.len())));
            values.push((6, many("0", 300)));
            if entries.len() > 1 {
                values.push((6, join(&entries[..entries.len() - 1])));
                values.push((6, text("0")));
                values.push((11, join(&replaced(&entries, 1, b"2"))));
                values.push((11, join(&replaced(&entries, 1, b"31"))));
                values.push((11, join(&replaced(&entries, entries.len() - 1, b"31"))));
            }
            values.push((11, join(&replaced(&entries, 0, b"1"))));
            values.push((11, join(&replaced(&entries, 0, b"31"))));
        }
        _ => {}
    }
    values
}

fn term_structure(model: &Model, lines: &[Line], index: usize) -> Vec<(u8, Vec<u8>)> {
    let line = &lines[index];
    let entries = line.entries();
    let left = line.kind == Kind::L;
    let of_arity = |arity: u32| model.arities.iter().position(|&own| own == arity);
    let mut values = Vec::new();

    // Too many tokens, as a term where a chain can be had.
    let first = model.arities.iter().position(|&arity| arity > 0);
    values.push((6, vec!["0"; 25].join(",").into_bytes()));
    values.push((6, vec!["x0"; 40].join(",").into_bytes()));
    if let (Some(constant), Some(unary)) = (of_arity(0), of_arity(1)) {
        for count in [24, 25, 63, 64, 300] {
            let mut chain = vec![unary.to_string(); count];
            chain.push(constant.to_string());
            values.push((6, chain.join(",").into_bytes()));
        }
    }

    // Too few for the term, or more than it takes.
    if let Some(first) = first {
        values.push((8, first.to_string().into_bytes()));
        values.push((8, format!("{first},{first}").into_bytes()));
    }
    if entries.len() > 1 {
        values.push((8, join(&entries[..entries.len() - 1])));
    }
    if entries.len() < 24 {
        values.push((8, appended(&entries, b"0")));
        values.push((8, appended(&entries, b"x0")));
        values.push((8, appended(&entries, b"x3")));
    }
    values.push((8, b"x0,x0".to_vec()));
    values.push((8, b"x0,x1".to_vec()));

    let variables: Vec<usize> = (0..entries.len())
        .filter(|&n| entries[n][0] == b'x')
        .collect();
    if left {
        for bare in ["x0", "x1", "x2", "x3"] {
            values.push((9, bare.as_bytes().to_vec()));
        }
        for (own, &place) in variables.iter().enumerate() {
            for other in (0..4).filter(|&other| other != own) {
                let wrong = format!("x{other}");
                values.push((9, join(&replaced(&entries, place, wrong.as_bytes()))));
            }
        }
    } else {
        let before = &lines[index - 1];
        let count = before
            .entries()
            .iter()
            .filter(|entry| entry[0] == b'x')
            .count();
        for other in count..4 {
            let wrong = format!("x{other}");
            values.push((10, wrong.clone().into_bytes()));
            for &place in &variables {
                values.push((10, join(&replaced(&entries, place, wrong.as_bytes()))));
            }
        }
    }
    values
}

/// A file with the line at `index` replaced by these bytes.
pub fn with_line(lines: &[Line], index: usize, bytes: &[u8]) -> Vec<u8> {
    let mut file = Vec::new();
    for (place, line) in lines.iter().enumerate() {
        if place == index {
            file.extend_from_slice(bytes);
        } else {
            file.extend_from_slice(&line.bytes());
        }
    }
    file
}

/// Bytes after the last line.
const AFTER: [&[u8]; 14] = [
    b"\n",
    b"\n\n",
    b"0",
    b" ",
    b"\r",
    b"\r\n",
    b"\0",
    b"\xff",
    b"merge=0\n",
    b"budget=1\n",
    b"end",
    b"l=0\n",
    b"=",
    b"x",
];

/// A file with one fault, what it must be refused with, and the kind of line
/// (none for the end of the file).
#[derive(Clone, Debug)]
pub struct Single {
    pub kind: Option<Kind>,
    pub expected: Expected,
    pub file: Vec<u8>,
}

/// All single faults of a sound file.
pub fn singles(model: &Model) -> Vec<Single> {
    let lines = model.lines();
    let mut cases = Vec::new();
    for index in 0..lines.len() {
        let kind = Some(lines[index].kind);
        for fault in on_line(model, &lines, index) {
            let line = fault.here.then_some(index as u32 + 1);
            let expected = Expected {
                number: fault.number,
                line,
            };
            cases.push(Single {
                kind,
                expected,
                file: with_line(&lines, index, &fault.bytes),
            });
        }
        // Without its LF at the end of the file, and with none of it at all.
        let sound = lines[index].bytes();
        let begin: Vec<u8> = lines[..index].iter().flat_map(Line::bytes).collect();
        let expected = Expected {
            number: 3,
            line: Some(index as u32 + 1),
        };
        let cut = [&begin[..], &sound[..sound.len() - 1]].concat();
        cases.push(Single {
            kind,
            expected,
            file: cut,
        });
        cases.push(Single {
            kind,
            expected,
            file: begin,
        });
    }
    let whole = model.write();
    let expected = Expected {
        number: 3,
        line: Some(lines.len() as u32 + 1),
    };
    for bytes in AFTER {
        cases.push(Single {
            kind: None,
            expected,
            file: [&whole[..], bytes].concat(),
        });
    }
    cases
}

/// Two faults on one line: a misspelt entry and one out of range in both
/// orders, each of them before, in and behind every value faulty otherwise;
/// and a faulty value on a line without its LF or under a wrong key.
pub fn doubles(model: &Model) -> Vec<Vec<u8>> {
    let lines = model.lines();
    let mut files = Vec::new();
    for index in 0..lines.len() {
        let kind = lines[index].kind;
        let entries = lines[index].entries();
        let misspelt: &[u8] = if index % 2 == 0 { b"01" } else { b"" };
        let mut found: Vec<Vec<u8>> = Vec::new();
        for place in 0..entries.len() {
            for other in (0..entries.len()).filter(|&other| other != place) {
                for wrong in out_of_range(model, kind, other).iter().take(1) {
                    let both = replaced(&entries, place, misspelt);
                    found.push(join(&replaced(&both, other, wrong.as_bytes())));
                }
            }
        }
        for wrong in out_of_range_single(kind).iter().take(2) {
            found.push(format!("{wrong},").into_bytes());
            found.push(format!("{wrong},0").into_bytes());
            found.push(format!("0,{wrong}").into_bytes());
            found.push(format!("0{wrong}").into_bytes());
            found.push(format!("{wrong}\r").into_bytes());
        }
        for (number, value) in structure(model, &lines, index) {
            let sound = Line {
                kind,
                value: value.clone(),
            };
            let inner = sound.entries();
            let last = inner.len() - 1;
            let late = out_of_range(model, kind, 1)
                .first()
                .cloned()
                .unwrap_or_default();
            let first = out_of_range(model, kind, 0)
                .first()
                .cloned()
                .unwrap_or_default();
            for (place, wrong) in [(0, &first), (last, &late)] {
                found.push(join(&replaced(&inner, place, wrong.as_bytes())));
                found.push(join(&replaced(&inner, place, misspelt)));
            }
            found.push(appended(&inner, late.as_bytes()));
            found.push(appended(&inner, b"x"));
            found.push([late.as_bytes(), b",", &value[..]].concat());
            // Another fault of structure after or before this one.
            if number == 9 || number == 10 || number == 11 {
                found.push(appended(&inner, b"0"));
                found.push([b"0,", &value[..]].concat());
                found.push(appended(&inner, vec!["0"; 25].join(",").as_bytes()));
                if inner.len() > 1 {
                    found.push(join(&inner[..last]));
                }
            }
        }
        for value in found {
            files.push(with_line(&lines, index, &with_value(kind, &value)));
        }
        for (turn, (_, value)) in values(model, &lines, index).into_iter().enumerate() {
            if turn % 9 == 0 {
                let mut bytes = with_value(kind, &value);
                bytes.pop();
                let begin: Vec<u8> = lines[..index].iter().flat_map(Line::bytes).collect();
                files.push([begin, bytes.clone()].concat());
                bytes.push(b'\n');
                bytes[0] = bytes[0].to_ascii_uppercase();
                files.push(with_line(&lines, index, &bytes));
            }
        }
    }
    files
}

/// Faults on two lines, with what the earlier must be refused with.
pub fn on_two_lines(model: &Model, random: &mut Random, count: usize) -> Vec<(Expected, Vec<u8>)> {
    let lines = model.lines();
    let mut cases = Vec::new();
    while cases.len() < count {
        let first = random.below(lines.len() - 1);
        let second = first + 1 + random.below(lines.len() - first - 1);
        let earlier = values(model, &lines, first);
        let later = on_line(model, &lines, second);
        // Larger numbers are rarer; draw twice for them.
        let mut one = random.pick(&earlier).clone();
        if one.0 < 6 {
            one = random.pick(&earlier).clone();
        }
        let other = random.pick(&later).clone();
        let mut file = Vec::new();
        for (place, line) in lines.iter().enumerate() {
            if place == first {
                file.extend_from_slice(&with_value(line.kind, &one.1));
            } else if place == second {
                file.extend_from_slice(&other.bytes);
            } else {
                file.extend_from_slice(&line.bytes());
            }
        }
        cases.push((
            Expected {
                number: one.0,
                line: Some(first as u32 + 1),
            },
            file,
        ));
    }
    cases
}

/// One random fault with the refusal wished, where the file has a line for it,
/// perhaps with a second one.
pub fn random_fault(model: &Model, random: &mut Random, wished: u8) -> Vec<u8> {
    let lines = model.lines();
    if random.chance(12) {
        return on_two_lines(model, random, 1).remove(0).1;
    }
    if wished == 3 && random.chance(30) {
        return [&model.write()[..], *random.pick(&AFTER)].concat();
    }
    // Every kind of line about equally often, however many lines it has.
    let mut kinds = Kind::ALL;
    random.shuffle(&mut kinds);
    for kind in kinds {
        let places: Vec<usize> = (0..lines.len())
            .filter(|&n| lines[n].kind == kind)
            .collect();
        if places.is_empty() {
            continue;
        }
        let index = *random.pick(&places);
        if wished == 3 {
            return with_line(
                &lines,
                index,
                &random.pick(&on_line(model, &lines, index)).bytes,
            );
        }
        let mut faults = values(model, &lines, index);
        faults.retain(|fault| fault.0 == wished);
        if !faults.is_empty() {
            let mut value = random.pick(&faults).1.clone();
            if random.chance(20) && !value.is_empty() {
                value = with_another(&value, random);
            }
            return with_line(&lines, index, &with_value(kind, &value));
        }
    }
    model.write()
}

/// A faulty value with one more fault, perhaps.
fn with_another(value: &[u8], random: &mut Random) -> Vec<u8> {
    let entries: Vec<Vec<u8>> = value
        .split(|&byte| byte == b',')
        .map(<[u8]>::to_vec)
        .collect();
    let place = random.below(entries.len());
    let wrong = match random.below(3) {
        0 => NO_NUMBER[random.below(NO_NUMBER.len())].to_vec(),
        1 => b"99999999".to_vec(),
        _ => b"0".to_vec(),
    };
    if random.chance(50) {
        join(&replaced(&entries, place, &wrong))
    } else {
        appended(&entries, &wrong)
    }
}
