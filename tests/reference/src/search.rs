//! The search for the first critical pair among the first `budget`
//! substitutions: one at a time (`plain`), and many at once (`swift`).

use crate::automaton::Table;
use crate::reading::{Rule, Token, MOST_STATES};

/// The first critical pair. `place` counts substitutions from 1.
#[derive(Clone, Debug, PartialEq, Eq)]
pub struct Critical {
    pub rule: usize,
    pub substitution: Vec<u8>,
    pub class: u8,
    pub place: u64,
}

pub type Search = fn(&Table, &[Rule], u64) -> Option<Critical>;

/// How many substitutions a rule has.
pub fn substitutions(classes: usize, variables: u32) -> u64 {
    (classes as u64).pow(variables)
}

/// One substitution after the other, as the paper's order says.
pub fn plain(table: &Table, rules: &[Rule], budget: u64) -> Option<Critical> {
    let mut place = 0;
    for (number, rule) in rules.iter().enumerate() {
        let mut substitution = vec![0u8; rule.variables as usize];
        loop {
            if place == budget {
                return None;
            }
            place += 1;
            let left = table.value(&rule.left, &substitution);
            let right = table.value(&rule.right, &substitution);
            let lacking = left & !right;
            if lacking != 0 {
                let class = lacking.trailing_zeros() as u8;
                return Some(Critical {
                    rule: number,
                    substitution,
                    class,
                    place,
                });
            }
            if !advance(&mut substitution, table.size) {
                break;
            }
        }
    }
    None
}

/// The next substitution, the last variable moving fastest; false after the last.
fn advance(substitution: &mut [u8], classes: usize) -> bool {
    for class in substitution.iter_mut().rev() {
        *class += 1;
        if (*class as usize) < classes {
            return true;
        }
        *class = 0;
    }
    false
}

/// The same search, judging all classes of one variable at once, and passing
/// over every beginning x0, x1, .. under which the left side has no class.
pub fn swift(table: &Table, rules: &[Rule], budget: u64) -> Option<Critical> {
    let mut before = 0;
    for (number, rule) in rules.iter().enumerate() {
        if before >= budget {
            return None;
        }
        let mut seeker = Seeker {
            table,
            rule,
            budget,
            known: Vec::new(),
        };
        if let Some((place, class)) = seeker.seek(before) {
            let substitution = seeker.known;
            return Some(Critical {
                rule: number,
                substitution,
                class,
                place,
            });
        }
        before += substitutions(table.size, rule.variables);
    }
    None
}

/// For each class q a word; its bit j says whether q is in the value when the
/// variable in question has class j.
type Words = [u64; MOST_STATES as usize];

struct Seeker<'a> {
    table: &'a Table,
    rule: &'a Rule,
    budget: u64,
    /// The classes of the first variables.
    known: Vec<u8>,
}

impl Seeker<'_> {
    /// Looks through the substitutions that begin with the known classes;
    /// `before` substitutions come earlier. Gives place and class, and leaves
    /// the whole substitution in `known`.
    fn seek(&mut self, before: u64) -> Option<(u64, u8)> {
        let variables = self.rule.variables as usize;
        let level = self.known.len();
        let left = self.words(&self.rule.left, &mut 0);
        let mut open = self.join(&left);
        if level + 1 >= variables {
            return if open == 0 {
                None
            } else {
                self.judge_last(&left, before)
            };
        }
        let width = substitutions(self.table.size, (variables - level - 1) as u32);
        while open != 0 {
            let class = open.trailing_zeros();
            open &= open - 1;
            let first = before + u64::from(class) * width;
            if first >= self.budget {
                return None;
            }
            self.known.push(class as u8);
            let found = self.seek(first);
            if found.is_some() {
                return found;
            }
            self.known.pop();
        }
        None
    }

    /// All classes of the last variable at once (or the one empty substitution).
    fn judge_last(&mut self, left: &Words, before: u64) -> Option<(u64, u8)> {
        let right = self.words(&self.rule.right, &mut 0);
        let mut lacking = [0; MOST_STATES as usize];
        for (word, (left, right)) in lacking.iter_mut().zip(left.iter().zip(&right)) {
            *word = left & !right;
        }
        let some = self.join(&lacking);
        let first = some.trailing_zeros();
        let place = before + u64::from(first) + 1;
        if some == 0 || place > self.budget {
            return None;
        }
        if self.rule.variables > 0 {
            self.known.push(first as u8);
        }
        let class = lacking.iter().position(|word| word >> first & 1 == 1)?;
        Some((place, class as u8))
    }

    /// The classes of the variable in question for which some word has its bit.
    fn join(&self, words: &Words) -> u64 {
        let all = words.iter().fold(0, |join, word| join | word);
        match self.rule.variables {
            0 => all & 1,
            _ => all & ((1 << self.table.size) - 1),
        }
    }

    /// The value of the term at `place`. The known variables have their class;
    /// the next one is the variable in question; a later one may have any class.
    fn words(&self, term: &[Token], place: &mut usize) -> Words {
        let token = term[*place];
        *place += 1;
        let symbol = match token {
            Token::Variable(variable) => return self.variable(variable as usize),
            Token::Symbol(symbol) => symbol as usize,
        };
        let mut value = [0; MOST_STATES as usize];
        let rows = self.table.rows[symbol].iter();
        let at = |words: &Words, class: u8| words[(class % MOST_STATES as u8) as usize];
        let target = |class: u8| (class % MOST_STATES as u8) as usize;
        match self.table.arities[symbol] {
            0 => {
                for row in rows {
                    value[target(row.target)] = !0;
                }
            }
            1 => {
                let first = self.words(term, place);
                for row in rows {
                    value[target(row.target)] |= at(&first, row.arguments[0]);
                }
            }
            2 => {
                let first = self.words(term, place);
                let second = self.words(term, place);
                for row in rows {
                    value[target(row.target)] |=
                        at(&first, row.arguments[0]) & at(&second, row.arguments[1]);
                }
            }
            _ => {
                let first = self.words(term, place);
                let second = self.words(term, place);
                let third = self.words(term, place);
                for row in rows {
                    value[target(row.target)] |= at(&first, row.arguments[0])
                        & at(&second, row.arguments[1])
                        & at(&third, row.arguments[2]);
                }
            }
        }
        value
    }

    fn variable(&self, variable: usize) -> Words {
        let mut value = [0; MOST_STATES as usize];
        let level = self.known.len();
        if variable < level {
            value[self.known[variable] as usize] = !0;
        } else {
            for (class, word) in value[..self.table.size].iter_mut().enumerate() {
                *word = if variable == level { 1 << class } else { !0 };
            }
        }
        value
    }
}
