//! Tables of transitions, the value of a term, and the sharing of trees.
//! Sets of classes or states are masks: bit q stands for q.

use crate::reading::{Certificate, Side, Token};

#[derive(Clone, Copy, Debug, PartialEq, Eq, PartialOrd, Ord)]
pub struct Row {
    pub arguments: [u8; 3],
    pub target: u8,
}

/// An automaton with its rows grouped by symbol. Serves the merged automaton
/// and B alike.
#[derive(Clone, Debug)]
pub struct Table {
    pub size: usize,
    pub finals: u64,
    pub arities: Vec<usize>,
    pub rows: Vec<Vec<Row>>,
}

impl Table {
    /// A with every state replaced by its class. A class is final when at
    /// least one member is.
    pub fn merged(certificate: &Certificate) -> Table {
        Table::new(&certificate.a, &certificate.arities, &certificate.merge)
    }

    /// B as it stands: each state is its own class.
    pub fn bad(certificate: &Certificate) -> Table {
        let own: Vec<u32> = (0..certificate.b.states).collect();
        Table::new(&certificate.b, &certificate.arities, &own)
    }

    fn new(side: &Side, arities: &[u32], class_of: &[u32]) -> Table {
        let class = |state: u32| class_of[state as usize] as u8;
        let mut rows = vec![Vec::new(); arities.len()];
        for row in &side.rows {
            let (symbol, states) = (row[0] as usize, &row[1..]);
            let (target, given) = states.split_last().expect("a row has a target");
            let mut arguments = [0; 3];
            for (argument, &state) in arguments.iter_mut().zip(given) {
                *argument = class(state);
            }
            rows[symbol].push(Row {
                arguments,
                target: class(*target),
            });
        }
        for group in &mut rows {
            group.sort_unstable();
            group.dedup();
        }
        Table {
            size: class_of
                .iter()
                .max()
                .map_or(0, |&largest| largest as usize + 1),
            finals: side
                .finals
                .iter()
                .fold(0, |set, &state| set | 1 << class(state)),
            arities: arities.iter().map(|&arity| arity as usize).collect(),
            rows,
        }
    }

    /// The value of a term when variable n has the class `substitution[n]`.
    pub fn value(&self, term: &[Token], substitution: &[u8]) -> u64 {
        self.value_at(term, &mut 0, substitution)
    }

    fn value_at(&self, term: &[Token], place: &mut usize, substitution: &[u8]) -> u64 {
        let token = term[*place];
        *place += 1;
        let symbol = match token {
            Token::Variable(variable) => return 1 << substitution[variable as usize],
            Token::Symbol(symbol) => symbol as usize,
        };
        let arity = self.arities[symbol];
        let mut sets = [0u64; 3];
        for set in &mut sets[..arity] {
            *set = self.value_at(term, place, substitution);
        }
        let fits = |row: &&Row| (0..arity).all(|n| sets[n] >> row.arguments[n] & 1 == 1);
        self.rows[symbol]
            .iter()
            .filter(fits)
            .fold(0, |set, row| set | 1 << row.target)
    }
}

/// For each class, the states of B that share a ground term with it. Found by
/// rounds: a pair is shared when rows of one symbol lead to it from pairs
/// shared already.
pub fn sharing(merged: &Table, bad: &Table) -> Vec<u64> {
    let mut shared = vec![0u64; merged.size];
    loop {
        let before = shared.clone();
        for (symbol, &arity) in merged.arities.iter().enumerate() {
            for row in &merged.rows[symbol] {
                for bad_row in &bad.rows[symbol] {
                    let met = |n: usize| {
                        shared[row.arguments[n] as usize] >> bad_row.arguments[n] & 1 == 1
                    };
                    if (0..arity).all(met) {
                        shared[row.target as usize] |= 1 << bad_row.target;
                    }
                }
            }
        }
        if shared == before {
            return shared;
        }
    }
}

/// The final pair that shares a tree: smallest class, then smallest state of B.
pub fn shared_final_pair(merged: &Table, bad: &Table) -> Option<(u8, u8)> {
    let shared = sharing(merged, bad);
    (0..merged.size).find_map(|class| {
        let states = shared[class] & bad.finals;
        let found = merged.finals >> class & 1 == 1 && states != 0;
        found.then(|| (class as u8, states.trailing_zeros() as u8))
    })
}
