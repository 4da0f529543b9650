//! Damage to the bytes of a sound file, without regard to their meaning.

use crate::random::Random;

/// Where each line begins, and the file's end.
fn starts(file: &[u8]) -> Vec<usize> {
    let after = file
        .iter()
        .enumerate()
        .filter(|(_, &byte)| byte == b'\n')
        .map(|(n, _)| n + 1);
    std::iter::once(0).chain(after).collect()
}

fn inserted(file: &[u8], place: usize, bytes: &[u8]) -> Vec<u8> {
    [&file[..place], bytes, &file[place..]].concat()
}

fn without(file: &[u8], place: usize) -> Vec<u8> {
    [&file[..place], &file[place + 1..]].concat()
}

fn with_byte(file: &[u8], place: usize, byte: u8) -> Vec<u8> {
    let mut file = file.to_vec();
    file[place] = byte;
    file
}

fn swapped(file: &[u8], place: usize) -> Vec<u8> {
    let mut file = file.to_vec();
    if place + 1 < file.len() {
        file.swap(place, place + 1);
    }
    file
}

/// Each byte changed, dropped, doubled, and swapped with the next.
pub fn at_each_byte(file: &[u8], random: &mut Random) -> Vec<Vec<u8>> {
    let mut files = Vec::new();
    for place in 0..file.len() {
        files.push(with_byte(file, place, file[place] ^ (1 << random.below(8))));
        files.push(without(file, place));
        files.push(inserted(file, place, &file[place..place + 1]));
        files.push(swapped(file, place));
    }
    files
}

/// At each line: cut before and behind its LF, CR before the LF, LF doubled or
/// dropped, strange bytes at its beginning, behind its `=` and at its end, its
/// key in upper case.
pub fn at_each_line(file: &[u8]) -> Vec<Vec<u8>> {
    let mut files = Vec::new();
    for two in starts(file).windows(2) {
        let (start, end) = (two[0], two[1] - 1);
        files.push(file[..end].to_vec());
        files.push(file[..=end].to_vec());
        files.push(inserted(file, end, b"\r"));
        files.push(with_byte(file, end, b'\r'));
        files.push(inserted(file, end, b"\n"));
        files.push(without(file, end));
        let equals = start
            + file[start..end]
                .iter()
                .position(|&b| b == b'=')
                .unwrap_or(0);
        for strange in [&b"\0"[..], b" ", b"\x80", b"\xff", b"\xef\xbb\xbf"] {
            files.push(inserted(file, start, strange));
            files.push(inserted(file, equals + 1, strange));
            files.push(inserted(file, end, strange));
        }
        let mut upper = file.to_vec();
        upper[start..equals].make_ascii_uppercase();
        files.push(upper);
        files.push(with_byte(file, start, file[start].to_ascii_uppercase()));
    }
    files
}

/// Some damage at random, once or a few times.
pub fn random_damage(file: &[u8], random: &mut Random) -> Vec<u8> {
    let mut file = file.to_vec();
    let times = if random.chance(70) {
        1
    } else {
        1 + random.below(4)
    };
    for _ in 0..times {
        if file.is_empty() {
            break;
        }
        let place = random.below(file.len());
        let lines = starts(&file);
        let line = *random.pick(&lines);
        file = match random.below(16) {
            0 => with_byte(&file, place, random.below(256) as u8),
            1 => with_byte(&file, place, file[place] ^ (1 << random.below(8))),
            2 => without(&file, place),
            3 => inserted(&file, place, &file[place..place + 1]),
            4 => swapped(&file, place),
            5 => file[..line].to_vec(),
            6 => file[..place].to_vec(),
            7 => inserted(&file, line.saturating_sub(1), b"\r"),
            8 => inserted(&file, line, b"\n"),
            9 => {
                let strange = *random.pick(&[b'\0', b' ', b'\r', b'\t', 0x80, 0xff]);
                inserted(&file, place, &[strange])
            }
            10 => file[..file.len() - 1].to_vec(),
            11 => with_byte(&file, place, file[place].to_ascii_uppercase()),
            12 => with_byte(&file, place, b"0123456789,x=\n"[random.below(14)]),
            13 => inserted(&file, place, &b"0123456789,x=\n"[random.below(14)..][..1]),
            14 => {
                // Two lines exchanged.
                let mut pieces: Vec<Vec<u8>> = file
                    .split_inclusive(|&byte| byte == b'\n')
                    .map(<[u8]>::to_vec)
                    .collect();
                let (one, other) = (random.below(pieces.len()), random.below(pieces.len()));
                pieces.swap(one, other);
                pieces.concat()
            }
            _ => {
                // A line doubled.
                let mut pieces: Vec<Vec<u8>> = file
                    .split_inclusive(|&byte| byte == b'\n')
                    .map(<[u8]>::to_vec)
                    .collect();
                let one = random.below(pieces.len());
                let again = pieces[one].clone();
                pieces.insert(one, again);
                pieces.concat()
            }
        };
    }
    file
}
