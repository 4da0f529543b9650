//! The eight lines of an answer: the same keys for every question, but for the
//! first, which names the question.

use crate::judging::{Closure, Sharing, Verdict};
use crate::reading::Refusal;
use crate::search::Critical;

/// What is asked of a certificate: for the whole verdict, or one of the two
/// questions that it is put together from.
#[derive(Clone, Copy, Debug, PartialEq, Eq)]
pub enum Question {
    Verdict,
    Sharing,
    Closure,
}

impl Question {
    /// In the order in which `answers` has them.
    pub const ALL: [Question; 3] = [Question::Verdict, Question::Sharing, Question::Closure];

    /// The key of the answer's first line.
    pub fn key(self) -> &'static str {
        match self {
            Question::Verdict => "verdict",
            Question::Sharing => "sharing",
            Question::Closure => "closure",
        }
    }
}

/// The first line's key, and the values behind the eight keys; `-` where there
/// is nothing to say.
struct Lines {
    question: Question,
    word: String,
    refusal: String,
    line: String,
    rule: String,
    x: String,
    class: String,
    bad: String,
    examined: String,
}

impl Lines {
    fn new(question: Question, word: &str) -> Lines {
        let nothing = || "-".to_string();
        Lines {
            question,
            word: word.to_string(),
            refusal: nothing(),
            line: nothing(),
            rule: nothing(),
            x: nothing(),
            class: nothing(),
            bad: nothing(),
            examined: nothing(),
        }
    }

    fn name_shared(&mut self, class: u8, bad: u8) {
        self.class = class.to_string();
        self.bad = bad.to_string();
    }

    fn name_critical(&mut self, critical: &Critical) {
        let classes: Vec<String> = critical.substitution.iter().map(u8::to_string).collect();
        self.rule = critical.rule.to_string();
        self.x = classes.join(",");
        self.class = critical.class.to_string();
    }

    fn write(self) -> Vec<u8> {
        format!(
            "{}={}\nrefusal={}\nline={}\nrule={}\nx={}\nclass={}\nbad={}\nexamined={}\n",
            self.question.key(),
            self.word,
            self.refusal,
            self.line,
            self.rule,
            self.x,
            self.class,
            self.bad,
            self.examined
        )
        .into_bytes()
    }
}

pub fn malformed(question: Question, refusal: &Refusal) -> Vec<u8> {
    let mut lines = Lines::new(question, "malformed");
    lines.refusal = refusal.number.to_string();
    if let Some(line) = refusal.line {
        lines.line = line.to_string();
    }
    lines.write()
}

pub fn judged(verdict: &Verdict) -> Vec<u8> {
    let mut lines = Lines::new(Question::Verdict, verdict.name());
    lines.examined = verdict.examined().to_string();
    match verdict {
        Verdict::Unsuitable { class, bad } => lines.name_shared(*class, *bad),
        Verdict::Critical(critical) => lines.name_critical(critical),
        Verdict::Accepted { .. } | Verdict::Stopped { .. } => {}
    }
    lines.write()
}

pub fn sharing(sharing: &Sharing) -> Vec<u8> {
    let mut lines = Lines::new(Question::Sharing, sharing.name());
    if let Sharing::Shared { class, bad } = sharing {
        lines.name_shared(*class, *bad);
    }
    lines.write()
}

pub fn closure(closure: &Closure) -> Vec<u8> {
    let mut lines = Lines::new(Question::Closure, closure.name());
    lines.examined = closure.examined().to_string();
    if let Closure::Critical(critical) = closure {
        lines.name_critical(critical);
    }
    lines.write()
}
