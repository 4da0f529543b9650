//! Judges merging certificates by the proved checker, which is linked as a static library: the whole verdict, and the two questions that
//! it is put together from.

extern "C" {
    // uint64_t mergecheck(const uint8_t *file, size_t file_length, uint8_t *out, size_t out_length);
    #[link_name = "mergecheck"]
    fn mergecheck_c(file: *const u8, file_length: usize, out: *mut u8, out_length: usize) -> u64;
    // uint32_t mergecheck_sharing(const uint8_t *file, size_t file_length, struct mergecheck_shared *answer);
    fn mergecheck_sharing(file: *const u8, file_length: usize, answer: *mut SharedNumbers) -> u32;
    // uint32_t mergecheck_closure(const uint8_t *file, size_t file_length, struct mergecheck_closed *answer);
    fn mergecheck_closure(file: *const u8, file_length: usize, answer: *mut ClosedNumbers) -> u32;
}

/// The least answer buffer. Every answer is shorter.
pub const BUFFER: usize = 128;

/// How much stack a call needs at most, in bytes; a test calls it on a thread with exactly that much.
pub const STACK: usize = 512 * 1024;

/// What a call gives back: the refusal's number (0 when not malformed) and the answer's length.
#[derive(Clone, Copy, Debug, PartialEq, Eq)]
pub struct Answered {
    pub refusal: u8,
    pub length: usize,
}

/// Judges the certificate and writes the answer to the start of `out`. A buffer under [`BUFFER`] bytes is refused by 1 and stays as
/// it is; in any other the bytes behind the answer stay as they are.
pub fn check(file: &[u8], out: &mut [u8]) -> Answered {
    // SAFETY: both slices are valid for their lengths and cannot overlap; the function reads and writes within them.
    let result = unsafe { mergecheck_c(file.as_ptr(), file.len(), out.as_mut_ptr(), out.len()) };
    Answered { refusal: (result / 256) as u8, length: (result % 256) as usize }
}

/// The eight lines of the answer.
pub fn answer(file: &[u8]) -> String {
    let mut out = [0u8; BUFFER];
    let length = check(file, &mut out).length;
    out[..length].iter().map(|&b| b as char).collect()
}

/// Why a file is refused: a number from 2 to 11 and, but for 2, the line, counted from 1.
#[derive(Clone, Copy, Debug, PartialEq, Eq)]
pub struct Refusal {
    pub number: u8,
    pub line: Option<u32>,
}

/// Does a final pair share a tree?
#[derive(Clone, Copy, Debug, PartialEq, Eq)]
pub enum Sharing {
    /// No final class shares a tree with a final state of the bad automaton.
    None,
    /// The first final class that does, and with it the first such state.
    Shared { class: u8, bad: u8 },
    Malformed(Refusal),
}

/// A rule, the classes of its variables, and the class that its left side has and its right side has not.
#[derive(Clone, Debug, PartialEq, Eq)]
pub struct CriticalPair {
    /// From 0.
    pub rule: u8,
    /// The classes of `x0`, `x1`, ..: as many as the rule has variables.
    pub x: Vec<u8>,
    pub class: u8,
}

/// Is there a critical pair within the budget?
#[derive(Clone, Debug, PartialEq, Eq)]
pub enum Closure {
    /// None at all; `examined` is the total. Says nothing of the bad automaton.
    Closed { examined: u32 },
    /// The first one; `examined` is the place of its substitution, from 1.
    Critical { pair: CriticalPair, examined: u32 },
    /// None among the first `examined` substitutions, which is the budget, and there are more.
    Stopped { examined: u32 },
    Malformed(Refusal),
}

/// Asks whether a final class and a final state of the bad automaton share a tree.
pub fn sharing(file: &[u8]) -> Sharing {
    let mut answer = SharedNumbers::default();
    // SAFETY: the slice is valid for its length, and the answer is memory of the layout that C declares; the two cannot overlap.
    let kind = unsafe { mergecheck_sharing(file.as_ptr(), file.len(), &mut answer) };
    match kind {
        0 => Sharing::None,
        1 => Sharing::Shared { class: answer.final_class as u8, bad: answer.bad_state as u8 },
        2 => Sharing::Malformed(refusal(answer.refusal, answer.line)),
        other => unreachable!("an answer of kind {other} about sharing"),
    }
}

/// Asks whether there is a critical pair within the budget, also where the merging is unsuitable.
pub fn closure(file: &[u8]) -> Closure {
    let mut answer = ClosedNumbers::default();
    // SAFETY: as for `sharing`.
    let kind = unsafe { mergecheck_closure(file.as_ptr(), file.len(), &mut answer) };
    let examined = answer.examined;
    match kind {
        0 => Closure::Closed { examined },
        1 => Closure::Critical { pair: answer.pair(), examined },
        2 => Closure::Stopped { examined },
        3 => Closure::Malformed(refusal(answer.refusal, answer.line)),
        other => unreachable!("an answer of kind {other} about closure"),
    }
}

/// `struct mergecheck_shared`.
#[repr(C)]
#[derive(Default)]
struct SharedNumbers {
    refusal: u32,
    line: u32,
    final_class: u32,
    bad_state: u32,
}

/// `struct mergecheck_closed`.
#[repr(C)]
#[derive(Default)]
struct ClosedNumbers {
    refusal: u32,
    line: u32,
    rule: u32,
    x: [u32; 4],
    missing_class: u32,
    examined: u32,
}

/// What an entry of `x` is where the rule has no such variable.
const NOTHING: u32 = 255;

impl ClosedNumbers {
    fn pair(&self) -> CriticalPair {
        CriticalPair {
            rule: self.rule as u8,
            x: self.x.iter().take_while(|&&class| class != NOTHING).map(|&class| class as u8).collect(),
            class: self.missing_class as u8,
        }
    }
}

/// The line 0 is none.
fn refusal(number: u32, line: u32) -> Refusal {
    Refusal { number: number as u8, line: (line != 0).then_some(line) }
}
