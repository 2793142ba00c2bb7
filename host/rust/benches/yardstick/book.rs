//! The book reader: the records in a row, each judged by its mark, its count, the presence of its
//! fields, and their values.
use super::{dates, refusal, with, NO_LITERALS};
use why_engine::{Costs, Date, Literals, Refusal, Window};
use why_engine::{MAX_CHOICES, MAX_COST, MAX_LITERALS, MAX_RULES, MAX_VARIABLES};

/// A book with its costs. A rule is a clause, the set of its literals, with a window or none;
/// `choices` is a mask.
pub struct Book {
    pub variables: u8,
    pub choices: u64,
    pub clauses: Vec<Literals>,
    pub windows: Vec<Option<Window>>,
    pub facts: Literals,
    pub costs: Costs,
}

/// What is left of the book, and where it begins.
struct Reader<'a> {
    rest: &'a [u8],
    place: usize,
}

impl<'a> Reader<'a> {
    fn refuse<T>(&self, number: u8) -> Result<T, Refusal> {
        Err(refusal(number, self.place))
    }

    /// The first bytes of the next record, if it has this mark and so many bytes.
    fn open(&self, mark: &[u8; 2], size: usize) -> Result<&'a [u8], Refusal> {
        if self.rest.len() < 2 {
            return self.refuse(1);
        }
        if !self.rest.starts_with(mark) {
            return self.refuse(2);
        }
        self.rest.get(..size).ok_or(refusal(1, self.place))
    }

    fn skip(&mut self, size: usize) {
        self.rest = &self.rest[size..];
        self.place += size;
    }

    /// V, U and R.
    fn header(&mut self) -> Result<[u8; 3], Refusal> {
        let record = self.open(b"HD", 5)?;
        let counts = [record[2], record[3], record[4]];
        let [v, u, r] = counts.map(usize::from);
        if v > MAX_VARIABLES || u > MAX_CHOICES || u > v || r > MAX_RULES {
            return self.refuse(3);
        }
        self.skip(5);
        Ok(counts)
    }

    fn costs(&mut self, choices: u8) -> Result<Costs, Refusal> {
        let mut costs = [[0; 2]; MAX_CHOICES];
        let is_cost = |cost| (1..=MAX_COST).contains(&cost);
        for choice in 1..=choices {
            let record = self.open(b"CS", 7)?;
            let yes = u16::from_be_bytes([record[3], record[4]]);
            let no = u16::from_be_bytes([record[5], record[6]]);
            if record[2] != choice || !is_cost(yes) || !is_cost(no) {
                return self.refuse(4);
            }
            costs[choice as usize - 1] = [yes, no];
            self.skip(7);
        }
        Ok(costs)
    }

    fn clause(&mut self, variables: u8) -> Result<Literals, Refusal> {
        let count = self.open(b"RL", 3)?[2] as usize;
        if count > MAX_LITERALS {
            return self.refuse(5);
        }
        let Some(bytes) = self.rest.get(3..3 + count) else {
            return self.refuse(1);
        };
        let (mut clause, mut last) = (NO_LITERALS, 0);
        let rises = |&byte| add(&mut clause, &mut last, byte, variables);
        if !bytes.iter().all(rises) {
            return self.refuse(6);
        }
        self.skip(3 + count);
        Ok(clause)
    }

    /// The window of the rule before, if a WN record is next.
    fn window(&mut self) -> Result<Option<Window>, Refusal> {
        if !self.rest.starts_with(b"WN") {
            return Ok(None);
        }
        let record = self.open(b"WN", 15)?;
        let two_bytes = |at| u16::from_be_bytes([record[at], record[at + 1]]);
        let date = |at| Date { year: two_bytes(at), month: record[at + 2], day: record[at + 3] };
        let window = Window {
            first_day: date(2),
            end_day: date(6),
            weekdays: record[10],
            first_minute: two_bytes(11),
            end_minute: two_bytes(13),
        };
        if !dates::is_window(window) {
            return self.refuse(14);
        }
        self.skip(15);
        Ok(Some(window))
    }

    /// The facts, and EN.
    fn facts(&mut self, choices: u8) -> Result<Literals, Refusal> {
        let (mut facts, mut last) = (NO_LITERALS, 0);
        while self.rest.starts_with(b"FA") {
            if !add(&mut facts, &mut last, self.open(b"FA", 3)?[2], choices) {
                return self.refuse(6);
            }
            self.skip(3);
        }
        self.open(b"EN", 2)?;
        self.skip(2);
        Ok(facts)
    }
}

/// Adds the literal that a signed byte is, or answers that its variable is too high or does not
/// rise.
fn add(set: &mut Literals, last: &mut u8, byte: u8, highest: u8) -> bool {
    let literal = byte as i8;
    let variable = literal.unsigned_abs();
    if variable <= *last || variable > highest {
        return false;
    }
    *set = with(*set, 1 << (variable - 1), literal > 0);
    *last = variable;
    true
}

pub fn read_book(rest: &[u8]) -> Result<Book, Refusal> {
    let mut reader = Reader { rest, place: 0 };
    let [variables, choices, rules] = reader.header()?;
    let costs = reader.costs(choices)?;
    let mut clauses = Vec::with_capacity(rules.into());
    let mut windows = Vec::with_capacity(rules.into());
    for _ in 0..rules {
        clauses.push(reader.clause(variables)?);
        windows.push(reader.window()?);
    }
    let facts = reader.facts(choices)?;
    if !reader.rest.is_empty() {
        return reader.refuse(7);
    }
    let choices = (1 << choices) - 1;
    Ok(Book { variables, choices, clauses, windows, facts, costs })
}
