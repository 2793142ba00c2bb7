//! The reader of a DIMACS CNF text, and the book that is made of it.
use super::{refusal, variables_of, with, Writer, NO_LITERALS};
use why_engine::{Literals, Refusal};
use why_engine::{MAX_CHOICES, MAX_LITERALS, MAX_RULES, MAX_VARIABLES, MAX_WITHOUT_FACTS};

struct Text<'a> {
    bytes: &'a [u8],
    at: usize,
}

fn is_blank(byte: u8) -> bool {
    matches!(byte, b' ' | b'\t' | b'\r')
}

fn is_gap(byte: u8) -> bool {
    is_blank(byte) || byte == b'\n'
}

impl Text<'_> {
    fn next(&self) -> Option<u8> {
        self.bytes.get(self.at).copied()
    }

    fn wrong<T>(&self) -> Result<T, Refusal> {
        Err(refusal(12, self.at))
    }

    fn skip(&mut self, class: impl Fn(u8) -> bool) {
        while self.next().is_some_and(&class) {
            self.at += 1;
        }
    }

    fn one_or_more(&mut self, class: impl Fn(u8) -> bool) -> Result<(), Refusal> {
        if !self.next().is_some_and(&class) {
            return self.wrong();
        }
        self.skip(class);
        Ok(())
    }

    fn word_and_blanks(&mut self, word: &[u8]) -> Result<(), Refusal> {
        for &byte in word {
            if self.next() != Some(byte) {
                return self.wrong();
            }
            self.at += 1;
        }
        self.one_or_more(is_blank)
    }

    fn comments(&mut self) -> Result<(), Refusal> {
        while self.next() == Some(b'c') {
            self.skip(|byte| byte != b'\n');
            if self.next().is_none() {
                return self.wrong();
            }
            self.at += 1;
        }
        Ok(())
    }

    /// A number of at most `most`; a larger one, of any number of digits, is refused with
    /// `too_large`.
    fn number(&mut self, most: usize, too_large: Refusal) -> Result<usize, Refusal> {
        match self.next() {
            Some(b'0') => {
                self.at += 1;
                return Ok(0);
            }
            Some(b'1'..=b'9') => {}
            _ => return self.wrong(),
        }
        let mut value = 0usize;
        while let Some(digit @ b'0'..=b'9') = self.next() {
            value = value.saturating_mul(10).saturating_add((digit - b'0').into());
            self.at += 1;
        }
        if value > most {
            return Err(too_large);
        }
        Ok(value)
    }

    fn count(&mut self, most: usize) -> Result<usize, Refusal> {
        self.number(most, refusal(13, self.at))
    }

    /// A clause up to its closing 0, judged there.
    fn clause(&mut self, variables: usize) -> Result<Literals, Refusal> {
        let mut clause = NO_LITERALS;
        let mut first = None;
        loop {
            self.one_or_more(is_gap)?;
            let place = self.at;
            let too_long = refusal(13, *first.get_or_insert(place));
            let minus = self.next() == Some(b'-');
            if minus {
                self.at += 1;
                if self.next() == Some(b'0') {
                    return self.wrong();
                }
            }
            let variable = self.number(variables, refusal(12, place))?;
            if variable == 0 {
                let count = variables_of(clause).count_ones() as usize;
                let allowed = is_tautology(clause) || count <= MAX_LITERALS;
                return if allowed { Ok(clause) } else { Err(too_long) };
            }
            clause = with(clause, 1 << (variable - 1), !minus);
        }
    }
}

fn is_tautology(clause: Literals) -> bool {
    clause.yes & clause.no != 0
}

/// V, and the clauses that are no tautologies.
fn read_text(bytes: &[u8]) -> Result<(usize, Vec<Literals>), Refusal> {
    let mut text = Text { bytes, at: 0 };
    text.comments()?;
    text.word_and_blanks(b"p")?;
    text.word_and_blanks(b"cnf")?;
    let variables = text.count(MAX_VARIABLES)?;
    text.one_or_more(is_blank)?;
    let count = text.count(MAX_RULES)?;
    let mut clauses = Vec::with_capacity(count);
    for _ in 0..count {
        let clause = text.clause(variables)?;
        if !is_tautology(clause) {
            clauses.push(clause);
        }
    }
    text.skip(is_gap);
    if text.next().is_some() {
        return text.wrong();
    }
    Ok((variables, clauses))
}

pub fn read_dimacs(bytes: &[u8], buffer: &mut [u8]) -> Result<usize, Refusal> {
    if buffer.len() < MAX_WITHOUT_FACTS {
        return Err(refusal(8, 0));
    }
    let (variables, clauses) = read_text(bytes)?;
    let choices = variables.min(MAX_CHOICES) as u8;
    let mut out = Writer { buffer, at: 0 };
    out.put(b"HD");
    out.put(&[variables as u8, choices, clauses.len() as u8]);
    for choice in 1..=choices {
        out.put(b"CS");
        out.put(&[choice, 0, 1, 0, 1]);
    }
    for &clause in &clauses {
        out.put(b"RL");
        out.put_literals(clause);
    }
    out.put(b"EN");
    Ok(out.at)
}
