//! The judgement of a certificate that could be read: two questions, each
//! asked by itself, and the whole verdict put together from their answers.

use crate::automaton::{shared_final_pair, Table};
use crate::reading::Certificate;
use crate::search::{substitutions, Critical, Search};

/// Does a final pair share a tree? The first one, or none.
#[derive(Clone, Debug, PartialEq, Eq)]
pub enum Sharing {
    Shared { class: u8, bad: u8 },
    NoneShared,
}

/// Is there a critical pair within the budget? Says nothing of B.
#[derive(Clone, Debug, PartialEq, Eq)]
pub enum Closure {
    Critical(Critical),
    Closed { examined: u64 },
    Stopped { examined: u64 },
}

#[derive(Clone, Debug, PartialEq, Eq)]
pub enum Verdict {
    Unsuitable { class: u8, bad: u8 },
    Critical(Critical),
    Accepted { examined: u64 },
    Stopped { examined: u64 },
}

pub fn sharing(certificate: &Certificate) -> Sharing {
    let (merged, bad) = (Table::merged(certificate), Table::bad(certificate));
    match shared_final_pair(&merged, &bad) {
        Some((class, bad)) => Sharing::Shared { class, bad },
        None => Sharing::NoneShared,
    }
}

/// Judged for an unsuitable merging like for any other.
pub fn closure(certificate: &Certificate, search: Search) -> Closure {
    let budget = u64::from(certificate.budget);
    if let Some(critical) = search(&Table::merged(certificate), &certificate.rules, budget) {
        return Closure::Critical(critical);
    }
    let total = total(certificate);
    if total <= budget {
        Closure::Closed { examined: total }
    } else {
        Closure::Stopped { examined: budget }
    }
}

/// Sharing first; the search only where nothing is shared.
pub fn judge(certificate: &Certificate, search: Search) -> Verdict {
    if let Sharing::Shared { class, bad } = sharing(certificate) {
        return Verdict::Unsuitable { class, bad };
    }
    match closure(certificate, search) {
        Closure::Critical(critical) => Verdict::Critical(critical),
        Closure::Closed { examined } => Verdict::Accepted { examined },
        Closure::Stopped { examined } => Verdict::Stopped { examined },
    }
}

/// The sum of k^v over the rules.
pub fn total(certificate: &Certificate) -> u64 {
    let classes = certificate
        .merge
        .iter()
        .max()
        .map_or(0, |&largest| largest as usize + 1);
    certificate
        .rules
        .iter()
        .map(|rule| substitutions(classes, rule.variables))
        .sum()
}

impl Sharing {
    pub fn name(&self) -> &'static str {
        match self {
            Sharing::Shared { .. } => "shared",
            Sharing::NoneShared => "none",
        }
    }
}

impl Closure {
    pub fn name(&self) -> &'static str {
        match self {
            Closure::Critical(_) => "critical",
            Closure::Closed { .. } => "closed",
            Closure::Stopped { .. } => "stopped",
        }
    }

    pub fn examined(&self) -> u64 {
        match self {
            Closure::Critical(critical) => critical.place,
            Closure::Closed { examined } | Closure::Stopped { examined } => *examined,
        }
    }
}

impl Verdict {
    pub fn name(&self) -> &'static str {
        match self {
            Verdict::Unsuitable { .. } => "unsuitable",
            Verdict::Critical(_) => "critical",
            Verdict::Accepted { .. } => "accepted",
            Verdict::Stopped { .. } => "stopped",
        }
    }

    pub fn examined(&self) -> u64 {
        match self {
            Verdict::Unsuitable { .. } => 0,
            Verdict::Critical(critical) => critical.place,
            Verdict::Accepted { examined } | Verdict::Stopped { examined } => *examined,
        }
    }
}
