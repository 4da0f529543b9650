//! Reading a certificate: the first faulty line, and on it the smallest number.

pub const LARGEST_FILE: usize = 16_384;
pub const LARGEST_BUDGET: u32 = 33_554_432;
pub const MOST_ARITIES: usize = 64;
pub const LARGEST_ARITY: u32 = 3;
pub const MOST_STATES: u32 = 32;
pub const MOST_ROWS: u32 = 128;
pub const MOST_RULES: u32 = 32;
pub const MOST_TOKENS: usize = 24;
pub const VARIABLES: u32 = 4;

/// Why a file is refused. Refusal 2 names no line.
#[derive(Clone, Copy, Debug, PartialEq, Eq)]
pub struct Refusal {
    pub number: u8,
    pub line: Option<u32>,
}

/// One automaton as written. A row is a transition: symbol, arguments, target.
#[derive(Clone, Debug)]
pub struct Side {
    pub states: u32,
    pub finals: Vec<u32>,
    pub rows: Vec<Vec<u32>>,
}

#[derive(Clone, Copy, Debug, PartialEq, Eq)]
pub enum Token {
    Symbol(u32),
    Variable(u32),
}

/// A rule; both sides in preorder. `variables` counts those of the left side.
#[derive(Clone, Debug)]
pub struct Rule {
    pub left: Vec<Token>,
    pub right: Vec<Token>,
    pub variables: u32,
}

#[derive(Clone, Debug)]
pub struct Certificate {
    pub budget: u32,
    pub arities: Vec<u32>,
    pub a: Side,
    pub b: Side,
    pub rules: Vec<Rule>,
    pub merge: Vec<u32>,
}

/// Reads a whole file.
pub fn read(file: &[u8]) -> Result<Certificate, Refusal> {
    if file.len() > LARGEST_FILE {
        return Err(Refusal {
            number: 2,
            line: None,
        });
    }
    let mut lines = Lines {
        rest: file,
        line: 0,
    };

    let budget = lines.one("budget", 0, LARGEST_BUDGET)?;
    let arities = read_arities(&mut lines)?;
    let a = read_side(&mut lines, ["states", "final", "trans", "t"], &arities)?;
    let b = read_side(
        &mut lines,
        ["badstates", "badfinal", "badtrans", "u"],
        &arities,
    )?;
    let mut rules = Vec::new();
    for _ in 0..lines.one("rules", 0, MOST_RULES)? {
        rules.push(read_rule(&mut lines, &arities)?);
    }
    let merge = read_merge(&mut lines, a.states)?;
    if !lines.rest.is_empty() {
        lines.line += 1;
        return Err(lines.refuse(3));
    }
    Ok(Certificate {
        budget,
        arities,
        a,
        b,
        rules,
        merge,
    })
}

/// What is left of the file, and the number of the line last asked for.
struct Lines<'a> {
    rest: &'a [u8],
    line: u32,
}

impl<'a> Lines<'a> {
    fn refuse(&self, number: u8) -> Refusal {
        Refusal {
            number,
            line: Some(self.line),
        }
    }

    /// Refuses the current line when the fault is there.
    fn unless(&self, fault: bool, number: u8) -> Result<(), Refusal> {
        if fault {
            Err(self.refuse(number))
        } else {
            Ok(())
        }
    }

    /// The value of the next line, which must have this key and an LF.
    fn value(&mut self, key: &str) -> Result<&'a [u8], Refusal> {
        self.line += 1;
        let Some(end) = self.rest.iter().position(|&byte| byte == b'\n') else {
            return Err(self.refuse(3));
        };
        let line = &self.rest[..end];
        let after_key = line.strip_prefix(key.as_bytes());
        let Some(value) = after_key.and_then(|after| after.strip_prefix(b"=")) else {
            return Err(self.refuse(3));
        };
        self.rest = &self.rest[end + 1..];
        Ok(value)
    }

    /// A line with exactly one number.
    fn one(&mut self, key: &str, least: u32, greatest: u32) -> Result<u32, Refusal> {
        let value = self.value(key)?;
        let number = number(value).ok_or(self.refuse(4))?;
        self.unless(number < least || number > greatest, 5)?;
        Ok(number)
    }

    /// A line with a list of numbers, not empty.
    fn list(&mut self, key: &str) -> Result<Vec<u32>, Refusal> {
        let value = self.value(key)?;
        numbers(value).ok_or(self.refuse(4))
    }
}

/// 1 to 8 digits with no leading zero.
fn number(text: &[u8]) -> Option<u32> {
    let long_enough = (1..=8).contains(&text.len());
    let digits = text.iter().all(u8::is_ascii_digit);
    let leading_zero = text.len() > 1 && text[0] == b'0';
    if !long_enough || !digits || leading_zero {
        return None;
    }
    Some(
        text.iter()
            .fold(0, |sum, digit| sum * 10 + u32::from(digit - b'0')),
    )
}

/// Numbers parted by one comma each; an empty text has none and is refused.
fn numbers(text: &[u8]) -> Option<Vec<u32>> {
    text.split(|&byte| byte == b',').map(number).collect()
}

fn token(text: &[u8]) -> Option<Token> {
    match text.strip_prefix(b"x") {
        Some(rest) => number(rest).map(Token::Variable),
        None => number(text).map(Token::Symbol),
    }
}

fn read_arities(lines: &mut Lines) -> Result<Vec<u32>, Refusal> {
    let arities = lines.list("arities")?;
    lines.unless(arities.iter().any(|&arity| arity > LARGEST_ARITY), 5)?;
    lines.unless(arities.len() > MOST_ARITIES, 6)?;
    Ok(arities)
}

/// The four kinds of lines of one automaton, under the keys given.
fn read_side(lines: &mut Lines, keys: [&str; 4], arities: &[u32]) -> Result<Side, Refusal> {
    let states = lines.one(keys[0], 1, MOST_STATES)?;
    let finals = read_finals(lines, keys[1], states)?;
    let mut rows = Vec::new();
    for _ in 0..lines.one(keys[2], 0, MOST_ROWS)? {
        rows.push(read_row(lines, keys[3], arities, states)?);
    }
    Ok(Side {
        states,
        finals,
        rows,
    })
}

fn read_finals(lines: &mut Lines, key: &str, states: u32) -> Result<Vec<u32>, Refusal> {
    let value = lines.value(key)?;
    if value.is_empty() {
        return Ok(Vec::new());
    }
    let finals = numbers(value).ok_or(lines.refuse(4))?;
    lines.unless(finals.iter().any(|&state| state >= states), 5)?;
    lines.unless(finals.windows(2).any(|two| two[0] >= two[1]), 7)?;
    Ok(finals)
}

fn read_row(
    lines: &mut Lines,
    key: &str,
    arities: &[u32],
    states: u32,
) -> Result<Vec<u32>, Refusal> {
    let row = lines.list(key)?;
    let symbol = row[0] as usize;
    lines.unless(symbol >= arities.len(), 5)?;
    lines.unless(row[1..].iter().any(|&state| state >= states), 5)?;
    lines.unless(row.len() != arities[symbol] as usize + 2, 6)?;
    Ok(row)
}

fn read_rule(lines: &mut Lines, arities: &[u32]) -> Result<Rule, Refusal> {
    let left = read_term(lines, "l", arities)?;
    let met = variables(&left);
    let bare = matches!(left[0], Token::Variable(_));
    let in_turn = met
        .iter()
        .zip(0..)
        .all(|(&variable, place)| variable == place);
    lines.unless(bare || !in_turn, 9)?;
    let count = met.len() as u32;

    let right = read_term(lines, "r", arities)?;
    lines.unless(
        variables(&right).iter().any(|&variable| variable >= count),
        10,
    )?;
    Ok(Rule {
        left,
        right,
        variables: count,
    })
}

fn read_term(lines: &mut Lines, key: &str, arities: &[u32]) -> Result<Vec<Token>, Refusal> {
    let value = lines.value(key)?;
    let tokens: Option<Vec<Token>> = value.split(|&byte| byte == b',').map(token).collect();
    let tokens = tokens.ok_or(lines.refuse(4))?;
    let out_of_range = tokens.iter().any(|&token| match token {
        Token::Symbol(symbol) => symbol as usize >= arities.len(),
        Token::Variable(variable) => variable >= VARIABLES,
    });
    lines.unless(out_of_range, 5)?;
    lines.unless(tokens.len() > MOST_TOKENS, 6)?;
    lines.unless(!is_one_term(&tokens, arities), 8)?;
    Ok(tokens)
}

/// Whether the tokens are one term in preorder: neither too few nor too many.
fn is_one_term(tokens: &[Token], arities: &[u32]) -> bool {
    let mut awaited = 1;
    for token in tokens {
        if awaited == 0 {
            return false;
        }
        awaited -= 1;
        if let Token::Symbol(symbol) = token {
            awaited += arities[*symbol as usize];
        }
    }
    awaited == 0
}

/// The variables met, from left to right.
fn variables(tokens: &[Token]) -> Vec<u32> {
    let variable = |token: &Token| match token {
        Token::Variable(variable) => Some(*variable),
        Token::Symbol(_) => None,
    };
    tokens.iter().filter_map(variable).collect()
}

fn read_merge(lines: &mut Lines, states: u32) -> Result<Vec<u32>, Refusal> {
    let merge = lines.list("merge")?;
    lines.unless(merge.iter().any(|&class| class >= MOST_STATES), 5)?;
    lines.unless(merge.len() != states as usize, 6)?;
    let mut next_new = 0;
    for &class in &merge {
        lines.unless(class > next_new, 11)?;
        next_new = next_new.max(class + 1);
    }
    Ok(merge)
}
