//! Packed streams: each certificate after its length in two bytes, the higher
//! byte first. Answers stand one behind the other: three to a certificate, of
//! eight lines each.

pub const LONGEST: usize = 65_535;

/// The lines of one answer, and of the three to one certificate.
pub const ANSWER_LINES: usize = 8;
pub const LINES: usize = 3 * ANSWER_LINES;

/// Appends one certificate; it must not be longer than 65,535 bytes.
pub fn push(stream: &mut Vec<u8>, certificate: &[u8]) {
    assert!(
        certificate.len() <= LONGEST,
        "a certificate too long for the stream"
    );
    stream.extend_from_slice(&(certificate.len() as u16).to_be_bytes());
    stream.extend_from_slice(certificate);
}

/// The certificates of a stream, or what is wrong with it.
pub fn split(stream: &[u8]) -> Result<Vec<&[u8]>, String> {
    let mut certificates = Vec::new();
    let mut rest = stream;
    while !rest.is_empty() {
        let number = certificates.len();
        if rest.len() < 2 {
            return Err(format!(
                "the stream ends within the length of certificate {number}"
            ));
        }
        let length = usize::from(u16::from_be_bytes([rest[0], rest[1]]));
        rest = &rest[2..];
        if rest.len() < length {
            return Err(format!("the stream ends within certificate {number}"));
        }
        let (certificate, after) = rest.split_at(length);
        certificates.push(certificate);
        rest = after;
    }
    Ok(certificates)
}

/// Takes the answers to the next certificate off: 24 lines, or what there is.
pub fn take_answers<'a>(answers: &mut &'a [u8]) -> &'a [u8] {
    let ends = answers
        .iter()
        .enumerate()
        .filter(|(_, &byte)| byte == b'\n');
    let end = ends
        .map(|(place, _)| place + 1)
        .nth(LINES - 1)
        .unwrap_or(answers.len());
    let (taken, rest) = answers.split_at(end);
    *answers = rest;
    taken
}
