//! The book from its bytes, by the sections "The book" and "Where each check is made" and by E7.
use super::{bit, dates, refusal, variables, Literals, NO_LITERALS};
use why_engine::{Date, Moment, Refusal, Window};

/// A book that was accepted.
pub struct Book {
    pub variables: u32,
    pub choices: u32,
    /// The costs of yes and no, from choice 1 on.
    pub costs: Vec<[u16; 2]>,
    pub rules: Vec<Literals>,
    /// The window of each rule, if it has one.
    pub windows: Vec<Option<Window>>,
    pub facts: Literals,
}

impl Book {
    /// The book with the rules that are in force at the moment.
    pub fn in_force(&self, at: Moment) -> Book {
        let both = self.rules.iter().copied().zip(self.windows.iter().copied());
        let (rules, windows) = both.filter(|&(_, window)| dates::in_force(window, at)).unzip();
        Book { costs: self.costs.clone(), rules, windows, ..*self }
    }

    /// The sum of the costs of literals over choices.
    pub fn cost(&self, set: Literals) -> u32 {
        let row = |v: u32| self.costs[v as usize - 1];
        let yes: u32 = variables(set.yes).map(|v| u32::from(row(v)[0])).sum();
        let no: u32 = variables(set.no).map(|v| u32::from(row(v)[1])).sum();
        yes + no
    }

    /// The variables that stand in a rule or a fact.
    pub fn occurring(&self) -> u64 {
        let facts = self.facts.yes | self.facts.no;
        self.rules.iter().fold(facts, |mask, rule| mask | rule.yes | rule.no)
    }

    /// The mask of all choices.
    pub fn all_choices(&self) -> u64 {
        (1 << self.choices) - 1
    }

    /// What the book reader answers.
    pub fn as_read(&self) -> why_engine::Book {
        let (mut rules_yes, mut rules_no) = ([0; 128], [0; 128]);
        for (i, rule) in self.rules.iter().enumerate() {
            rules_yes[i] = rule.yes;
            rules_no[i] = rule.no;
        }
        let mut windows = [None; 128];
        windows[..self.windows.len()].copy_from_slice(&self.windows);
        why_engine::Book {
            variables: self.variables.into(),
            choices: self.choices.into(),
            rules: self.rules.len() as u64,
            rules_yes,
            rules_no,
            windows,
            facts: self.facts,
        }
    }

    /// What the costs' reader answers.
    pub fn cost_table(&self) -> [[u16; 2]; 32] {
        let mut table = [[0; 2]; 32];
        table[..self.costs.len()].copy_from_slice(&self.costs);
        table
    }
}

pub fn read(bytes: &[u8]) -> Result<Book, Refusal> {
    mark(bytes, 0, &[b"HD"])?;
    let header = fields(bytes, 0, 2, 3)?;
    let (v, u, r) = (header[0].into(), header[1].into(), header[2]);
    if v > 48 || u > 32 || u > v || r > 128 {
        return Err(refusal(3, 0));
    }
    let mut at = 5;
    let mut costs = Vec::new();
    for choice in 1..=u {
        costs.push(read_costs(bytes, at, choice)?);
        at += 7;
    }
    let (mut rules, mut windows) = (Vec::new(), Vec::new());
    for _ in 0..r {
        let (rule, size) = read_rule(bytes, at, v)?;
        rules.push(rule);
        at += size;
        let window = read_window(bytes, at)?;
        windows.push(window);
        at += if window.is_some() { 15 } else { 0 };
    }
    let (facts, end) = read_facts(bytes, at, u)?;
    if bytes.len() > end {
        return Err(refusal(7, end));
    }
    Ok(Book { variables: v, choices: u, costs, rules, windows, facts })
}

/// The mark of the record that begins at `at`.
fn mark<'a>(bytes: &'a [u8], at: usize, allowed: &[&[u8; 2]]) -> Result<&'a [u8], Refusal> {
    let mark = fields(bytes, at, 0, 2)?;
    match allowed.iter().any(|&allowed| allowed == mark) {
        true => Ok(mark),
        false => Err(refusal(2, at)),
    }
}

/// So many bytes, after the first `skipped` of the record that begins at `at`.
fn fields(bytes: &[u8], at: usize, skipped: usize, count: usize) -> Result<&[u8], Refusal> {
    let first = at + skipped;
    bytes.get(first..first + count).ok_or(refusal(1, at))
}

fn read_costs(bytes: &[u8], at: usize, choice: u32) -> Result<[u16; 2], Refusal> {
    mark(bytes, at, &[b"CS"])?;
    let row = fields(bytes, at, 2, 5)?;
    let yes = u16::from_be_bytes([row[1], row[2]]);
    let no = u16::from_be_bytes([row[3], row[4]]);
    let allowed = 1..=999;
    if u32::from(row[0]) != choice || !allowed.contains(&yes) || !allowed.contains(&no) {
        return Err(refusal(4, at));
    }
    Ok([yes, no])
}

/// The rule that begins at `at`, and its number of bytes.
fn read_rule(bytes: &[u8], at: usize, variables: u32) -> Result<(Literals, usize), Refusal> {
    mark(bytes, at, &[b"RL"])?;
    let count = usize::from(fields(bytes, at, 2, 1)?[0]);
    if count > 8 {
        return Err(refusal(5, at));
    }
    let (mut rule, mut last) = (NO_LITERALS, 0);
    for &byte in fields(bytes, at, 3, count)? {
        last = add(&mut rule, byte, last, variables).ok_or(refusal(6, at))?;
    }
    Ok((rule, 3 + count))
}

/// The window that begins at `at`, if the mark there is WN. Any other mark is judged by what else may stand there.
fn read_window(bytes: &[u8], at: usize) -> Result<Option<Window>, Refusal> {
    if mark(bytes, at, &[b"WN"]).is_err() {
        return Ok(None);
    }
    let &[y1, y2, month, day, z1, z2, end_month, end_day, weekdays, m1, m2, n1, n2] = fields(bytes, at, 2, 13)? else {
        unreachable!("so many bytes were asked for")
    };
    let two = |high, low| u16::from(high) * 256 + u16::from(low);
    let window = Window {
        first_day: Date { year: two(y1, y2), month, day },
        end_day: Date { year: two(z1, z2), month: end_month, day: end_day },
        weekdays,
        first_minute: two(m1, m2),
        end_minute: two(n1, n2),
    };
    match dates::is_window(window) {
        true => Ok(Some(window)),
        false => Err(refusal(14, at)),
    }
}

/// The facts that begin at `at`, and the place after EN.
fn read_facts(bytes: &[u8], mut at: usize, choices: u32) -> Result<(Literals, usize), Refusal> {
    let (mut facts, mut last) = (NO_LITERALS, 0);
    while mark(bytes, at, &[b"FA", b"EN"])? == b"FA" {
        let byte = fields(bytes, at, 2, 1)?[0];
        last = add(&mut facts, byte, last, choices).ok_or(refusal(6, at))?;
        at += 3;
    }
    Ok((facts, at + 2))
}

/// Adds the literal of a byte, whose variable must be over `last` and at most `top`, and gives its variable.
fn add(set: &mut Literals, byte: u8, last: u32, top: u32) -> Option<u32> {
    let literal = byte as i8;
    let variable = u32::from(literal.unsigned_abs());
    if variable <= last || variable > top {
        return None;
    }
    match literal > 0 {
        true => set.yes |= bit(variable),
        false => set.no |= bit(variable),
    }
    Some(variable)
}
