//! DIMACS CNF text, by the last section of document 01 and by E2 and E4.
use super::refusal;
use std::collections::BTreeSet;
use why_engine::Refusal;

const BLANKS: &[u8] = b" \t\r";
const BLANKS_AND_LINE_ENDS: &[u8] = b" \t\r\n";

/// A text as it was typed: its variables and the literals of its clauses, v or -v.
pub struct Formula {
    pub variables: u64,
    pub clauses: Vec<Vec<i64>>,
}

pub fn read(bytes: &[u8]) -> Result<Formula, Refusal> {
    let mut text = Text { bytes, at: 0 };
    while text.next() == Some(b'c') {
        while text.next().is_some_and(|byte| byte != b'\n') {
            text.at += 1;
        }
        text.expect(b"\n")?;
    }
    text.expect(b"p")?;
    text.parted(BLANKS)?;
    text.expect(b"cnf")?;
    text.parted(BLANKS)?;
    let variables = text.limited(48)?;
    text.parted(BLANKS)?;
    let count = text.limited(128)?;
    let mut clauses = Vec::new();
    for _ in 0..count {
        clauses.push(text.clause(variables)?);
    }
    while text.next().is_some() {
        text.parted(BLANKS_AND_LINE_ENDS)?;
    }
    Ok(Formula { variables, clauses })
}

struct Text<'a> {
    bytes: &'a [u8],
    at: usize,
}

impl Text<'_> {
    fn next(&self) -> Option<u8> {
        self.bytes.get(self.at).copied()
    }

    /// The next byte is wrong, or the text ends too soon: its length is then the place as well.
    fn wrong<T>(&self) -> Result<T, Refusal> {
        Err(refusal(12, self.at))
    }

    fn expect(&mut self, word: &[u8]) -> Result<(), Refusal> {
        for &byte in word {
            if self.next() != Some(byte) {
                return self.wrong();
            }
            self.at += 1;
        }
        Ok(())
    }

    /// One or more of the bytes that part.
    fn parted(&mut self, parting: &[u8]) -> Result<(), Refusal> {
        let start = self.at;
        while self.next().is_some_and(|byte| parting.contains(&byte)) {
            self.at += 1;
        }
        match self.at > start {
            true => Ok(()),
            false => self.wrong(),
        }
    }

    /// A number; one that is too large for any limit stays too large.
    fn number(&mut self) -> Result<u64, Refusal> {
        let start = self.at;
        let mut value: u64 = 0;
        while let Some(digit @ b'0'..=b'9') = self.next() {
            value = value.saturating_mul(10).saturating_add(u64::from(digit - b'0'));
            self.at += 1;
            if value == 0 {
                break;
            }
        }
        match self.at > start {
            true => Ok(value),
            false => self.wrong(),
        }
    }

    fn limited(&mut self, most: u64) -> Result<u64, Refusal> {
        let start = self.at;
        let value = self.number()?;
        match value <= most {
            true => Ok(value),
            false => Err(refusal(13, start)),
        }
    }

    fn clause(&mut self, variables: u64) -> Result<Vec<i64>, Refusal> {
        let mut literals = Vec::new();
        let mut first = None;
        loop {
            self.parted(BLANKS_AND_LINE_ENDS)?;
            let start = self.at;
            let first = *first.get_or_insert(start);
            let no = self.next() == Some(b'-');
            if no {
                self.at += 1;
                if !matches!(self.next(), Some(b'1'..=b'9')) {
                    return self.wrong();
                }
            }
            let variable = self.number()?;
            if variable > variables {
                return Err(refusal(12, start));
            }
            if variable == 0 {
                return match kept(&literals).is_some_and(|kept| kept.len() > 8) {
                    true => Err(refusal(13, first)),
                    false => Ok(literals),
                };
            }
            literals.push(if no { -(variable as i64) } else { variable as i64 });
        }
    }
}

/// The literals of a clause in rising order, each once; none of a clause with a literal and its opposite, which is dropped.
fn kept(literals: &[i64]) -> Option<Vec<i64>> {
    let set: BTreeSet<i64> = literals.iter().copied().collect();
    if set.iter().any(|literal| set.contains(&-literal)) {
        return None;
    }
    let mut kept: Vec<i64> = set.into_iter().collect();
    kept.sort_by_key(|literal| literal.abs());
    Some(kept)
}

impl Formula {
    /// The bytes of its book.
    pub fn book(&self) -> Vec<u8> {
        let rules: Vec<Vec<i64>> = self.clauses.iter().filter_map(|clause| kept(clause)).collect();
        let choices = self.variables.min(32) as u8;
        let mut bytes = vec![b'H', b'D', self.variables as u8, choices, rules.len() as u8];
        for choice in 1..=choices {
            bytes.extend([b'C', b'S', choice, 0, 1, 0, 1]);
        }
        for rule in rules {
            bytes.extend([b'R', b'L', rule.len() as u8]);
            bytes.extend(rule.iter().map(|&literal| literal as i8 as u8));
        }
        bytes.extend(b"EN");
        bytes
    }

    /// Whether a filling, given as the mask of its yes, makes a literal of every clause true.
    pub fn holds(&self, filling: u64) -> bool {
        let yes = |variable: i64| filling >> (variable - 1) & 1 == 1;
        let holds = |&literal: &i64| yes(literal.abs()) == (literal > 0);
        self.clauses.iter().all(|clause| clause.iter().any(holds))
    }
}
