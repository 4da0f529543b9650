//! A second checker of merging certificates, written from the paper
//! "Judging a merging certificate", the request to ask its two questions apart
//! and `docs/QUESTIONS.md` alone, so that its answers can be compared with
//! those of the proved program.
//!
//! - `reading` takes the file apart, or refuses it;
//! - `automaton` has the tables, the value of a term and the sharing of trees;
//! - `search` looks for the first critical pair, in two ways;
//! - `judging` answers the two questions, and gives the whole verdict;
//! - `answering` writes the eight lines of an answer;
//! - `generate` makes certificates to try, `stream` packs them.

pub mod answering;
pub mod automaton;
pub mod generate;
pub mod judging;
pub mod random;
pub mod reading;
pub mod search;
pub mod stream;

use answering::Question;

/// The whole verdict on one certificate file: the refusal's number (0 when the
/// file is not malformed) and the eight lines.
pub fn answer(file: &[u8]) -> (u8, Vec<u8>) {
    answer_to(Question::Verdict, file)
}

/// The answer to one question, likewise.
pub fn answer_to(question: Question, file: &[u8]) -> (u8, Vec<u8>) {
    let certificate = match reading::read(file) {
        Err(refusal) => return (refusal.number, answering::malformed(question, &refusal)),
        Ok(certificate) => certificate,
    };
    let lines = match question {
        Question::Verdict => answering::judged(&judging::judge(&certificate, search::swift)),
        Question::Sharing => answering::sharing(&judging::sharing(&certificate)),
        Question::Closure => answering::closure(&judging::closure(&certificate, search::swift)),
    };
    (0, lines)
}

/// The answers to all three, one behind the other: the whole verdict, sharing,
/// closure.
pub fn answers(file: &[u8]) -> (u8, Vec<u8>) {
    let answers = Question::ALL.map(|question| answer_to(question, file));
    let refusal = answers[0].0;
    (refusal, answers.map(|(_, lines)| lines).concat())
}
