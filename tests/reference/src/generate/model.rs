//! A certificate before it is written: easy to change, and not checked.

/// A term as a tree.
#[derive(Clone, Debug, PartialEq, Eq)]
pub enum Tree {
    Variable(u32),
    Symbol(u32, Vec<Tree>),
}

/// One automaton. A row is a transition: symbol, arguments, target.
#[derive(Clone, Debug)]
pub struct Side {
    pub states: u32,
    pub finals: Vec<u32>,
    pub rows: Vec<Vec<u32>>,
}

#[derive(Clone, Debug)]
pub struct Model {
    pub budget: u64,
    pub arities: Vec<u32>,
    pub a: Side,
    pub b: Side,
    pub rules: Vec<(Tree, Tree)>,
    pub merge: Vec<u32>,
}

/// The kinds of lines, in the order of the file.
#[derive(Clone, Copy, Debug, PartialEq, Eq, PartialOrd, Ord)]
pub enum Kind {
    Budget,
    Arities,
    States,
    Final,
    Trans,
    T,
    BadStates,
    BadFinal,
    BadTrans,
    U,
    Rules,
    L,
    R,
    Merge,
}

impl Kind {
    pub const ALL: [Kind; 14] = [
        Kind::Budget,
        Kind::Arities,
        Kind::States,
        Kind::Final,
        Kind::Trans,
        Kind::T,
        Kind::BadStates,
        Kind::BadFinal,
        Kind::BadTrans,
        Kind::U,
        Kind::Rules,
        Kind::L,
        Kind::R,
        Kind::Merge,
    ];

    pub fn key(self) -> &'static str {
        match self {
            Kind::Budget => "budget",
            Kind::Arities => "arities",
            Kind::States => "states",
            Kind::Final => "final",
            Kind::Trans => "trans",
            Kind::T => "t",
            Kind::BadStates => "badstates",
            Kind::BadFinal => "badfinal",
            Kind::BadTrans => "badtrans",
            Kind::U => "u",
            Kind::Rules => "rules",
            Kind::L => "l",
            Kind::R => "r",
            Kind::Merge => "merge",
        }
    }
}

/// One line without its LF.
#[derive(Clone, Debug)]
pub struct Line {
    pub kind: Kind,
    pub value: Vec<u8>,
}

impl Line {
    pub fn new(kind: Kind, value: impl AsRef<[u8]>) -> Line {
        Line {
            kind,
            value: value.as_ref().to_vec(),
        }
    }

    /// The line with its LF.
    pub fn bytes(&self) -> Vec<u8> {
        with_value(self.kind, &self.value)
    }

    /// The entries of the value; none when it is empty.
    pub fn entries(&self) -> Vec<Vec<u8>> {
        if self.value.is_empty() {
            return Vec::new();
        }
        self.value
            .split(|&byte| byte == b',')
            .map(<[u8]>::to_vec)
            .collect()
    }
}

pub fn with_value(kind: Kind, value: &[u8]) -> Vec<u8> {
    let mut bytes = kind.key().as_bytes().to_vec();
    bytes.push(b'=');
    bytes.extend_from_slice(value);
    bytes.push(b'\n');
    bytes
}

pub fn join(entries: &[Vec<u8>]) -> Vec<u8> {
    entries.join(&b',')
}

fn list(numbers: &[u32]) -> String {
    let texts: Vec<String> = numbers.iter().map(u32::to_string).collect();
    texts.join(",")
}

impl Tree {
    pub fn text(&self) -> String {
        match self {
            Tree::Variable(variable) => format!("x{variable}"),
            Tree::Symbol(symbol, under) => {
                let mut text = symbol.to_string();
                for tree in under {
                    text.push(',');
                    text.push_str(&tree.text());
                }
                text
            }
        }
    }

    pub fn tokens(&self) -> usize {
        match self {
            Tree::Variable(_) => 1,
            Tree::Symbol(_, under) => 1 + under.iter().map(Tree::tokens).sum::<usize>(),
        }
    }

    /// How many variables a left side has.
    pub fn variables(&self) -> u32 {
        match self {
            Tree::Variable(_) => 1,
            Tree::Symbol(_, under) => under.iter().map(Tree::variables).sum(),
        }
    }
}

impl Model {
    /// The lines of the file.
    pub fn lines(&self) -> Vec<Line> {
        let mut lines = vec![
            Line::new(Kind::Budget, self.budget.to_string()),
            Line::new(Kind::Arities, list(&self.arities)),
        ];
        let kinds = [
            (&self.a, Kind::States, Kind::Final, Kind::Trans, Kind::T),
            (
                &self.b,
                Kind::BadStates,
                Kind::BadFinal,
                Kind::BadTrans,
                Kind::U,
            ),
        ];
        for (side, states, finals, count, row_kind) in kinds {
            lines.push(Line::new(states, side.states.to_string()));
            lines.push(Line::new(finals, list(&side.finals)));
            lines.push(Line::new(count, side.rows.len().to_string()));
            lines.extend(side.rows.iter().map(|row| Line::new(row_kind, list(row))));
        }
        lines.push(Line::new(Kind::Rules, self.rules.len().to_string()));
        for (left, right) in &self.rules {
            lines.push(Line::new(Kind::L, left.text()));
            lines.push(Line::new(Kind::R, right.text()));
        }
        lines.push(Line::new(Kind::Merge, list(&self.merge)));
        lines
    }

    /// The file.
    pub fn write(&self) -> Vec<u8> {
        write(&self.lines())
    }

    pub fn classes(&self) -> u32 {
        self.merge.iter().max().map_or(0, |largest| largest + 1)
    }

    /// The sum of k^v over the rules.
    pub fn total(&self) -> u64 {
        let classes = u64::from(self.classes());
        self.rules
            .iter()
            .map(|(left, _)| classes.pow(left.variables()))
            .sum()
    }
}

pub fn write(lines: &[Line]) -> Vec<u8> {
    lines.iter().flat_map(Line::bytes).collect()
}
