//! The yardstick: the engine's calls in plain Rust, by the same search as the sources of the
//! archive. It shows what this search costs where nothing is proved of it. Of `why_engine` it uses
//! the limits and the types of the answers only.
mod book;
mod dates;
mod dimacs;
mod models;
mod step;

use dates::Now;
use why_engine::{Costs, Literals, Log, Moment, Refusal, Step, MAX_LOG};

pub use book::{read_book, Book};
pub use dimacs::read_dimacs;

const NO_MODEL: Refusal = refusal(9, 0);

const fn refusal(number: u8, place: usize) -> Refusal {
    let place = place as u64;
    Refusal { number, place }
}

const NO_LITERALS: Literals = Literals { yes: 0, no: 0 };

fn literals(yes: u64, no: u64) -> Literals {
    Literals { yes, no }
}

/// A set with one literal more, of the variable that is the only one in `bit`.
fn with(set: Literals, bit: u64, yes: bool) -> Literals {
    if yes {
        literals(set.yes | bit, set.no)
    } else {
        literals(set.yes, set.no | bit)
    }
}

/// The literals of `a` that are not in `b`.
fn without(a: Literals, b: Literals) -> Literals {
    literals(a.yes & !b.yes, a.no & !b.no)
}

/// The literals of a set that are over some variables.
fn over(set: Literals, variables: u64) -> Literals {
    literals(set.yes & variables, set.no & variables)
}

fn variables_of(set: Literals) -> u64 {
    set.yes | set.no
}

/// The literal of a set over the variable of bit `v`.
fn literal_of(set: Literals, v: usize) -> i8 {
    let yes = v as i8 + 1;
    if set.yes >> v & 1 == 1 {
        yes
    } else {
        -yes
    }
}

/// The elements of a mask, rising.
fn elements(mut mask: u64) -> impl Iterator<Item = usize> {
    std::iter::from_fn(move || {
        let element = mask.trailing_zeros() as usize;
        (mask != 0).then(|| {
            mask &= mask - 1;
            element
        })
    })
}

/// Bytes put one after the other at the front of a lent buffer.
struct Writer<'a> {
    buffer: &'a mut [u8],
    at: usize,
}

impl Writer<'_> {
    fn put(&mut self, bytes: &[u8]) {
        let end = self.at + bytes.len();
        self.buffer[self.at..end].copy_from_slice(bytes);
        self.at = end;
    }

    /// The number of literals, and the literals, rising by variable.
    fn put_literals(&mut self, set: Literals) {
        let all = variables_of(set);
        self.put(&[all.count_ones() as u8]);
        for v in elements(all) {
            self.put(&[literal_of(set, v) as u8]);
        }
    }
}

pub fn read_costs(bytes: &[u8]) -> Result<Costs, Refusal> {
    Ok(read_book(bytes)?.costs)
}

/// The book with the rules in force at the moment, which is judged first.
fn book_at(bytes: &[u8], at: Moment) -> Result<Book, Refusal> {
    let now = Now::of(at)?;
    let mut book = read_book(bytes)?;
    let rules = book.clauses.iter().zip(&book.windows);
    let in_force = rules.filter(|(_, &window)| now.has_in_force(window));
    book.clauses = in_force.map(|(&clause, _)| clause).collect();
    Ok(book)
}

pub fn model(bytes: &[u8], at: Moment) -> Result<u64, Refusal> {
    let book = book_at(bytes, at)?;
    models::first_model(&book.clauses, book.facts).ok_or(NO_MODEL)
}

pub fn consequence(bytes: &[u8], at: Moment) -> Result<Literals, Refusal> {
    forced(&book_at(bytes, at)?)
}

fn forced(book: &Book) -> Result<Literals, Refusal> {
    models::consequence(&book.clauses, book.choices, book.facts).ok_or(NO_MODEL)
}

pub fn next_step(bytes: &[u8], at: Moment, known: Literals) -> Result<Step, Refusal> {
    let book = book_at(bytes, at)?;
    let consequence = forced(&book)?;
    if without(book.facts, known) != NO_LITERALS || without(known, consequence) != NO_LITERALS {
        return Err(refusal(10, 0));
    }
    Ok(step::next_step(&book, consequence, known))
}

pub fn log(bytes: &[u8], at: Moment, buffer: &mut [u8]) -> Result<Log, Refusal> {
    let book = book_at(bytes, at)?;
    if buffer.len() < MAX_LOG {
        return Err(refusal(8, 0));
    }
    let consequence = forced(&book)?;
    let mut known = book.facts;
    let mut out = Writer { buffer, at: 0 };
    let (mut steps, mut total) = (0, 0);
    let next = |known| step::next_step(&book, consequence, known);
    while let Step::Next { goal, reasons, new, cost } = next(known) {
        out.put(b"ST");
        out.put(&[goal as u8]);
        out.put_literals(reasons);
        out.put_literals(new);
        out.put(&cost.to_be_bytes());
        known = literals(known.yes | new.yes, known.no | new.no);
        steps += 1;
        total += u32::from(cost);
    }
    out.put(b"OK");
    out.put(&[steps]);
    out.put(&total.to_be_bytes());
    let size = out.at;
    Ok(Log { size, steps, total })
}

/// The log is made in an array of its own, so that a refusal leaves the buffer as it was.
pub fn resume_log(bytes: &[u8], at: Moment, buffer: &mut [u8], written: usize) -> Result<Log, Refusal> {
    let mut made = [0; MAX_LOG];
    let room = buffer.len().min(MAX_LOG);
    let log = log(bytes, at, &mut made[..room])?;
    let made = &made[..log.size];
    let begun = made.get(..written).zip(buffer.get(..written)).is_some_and(|(made, found)| made == found);
    if !begun {
        return Err(refusal(15, 0));
    }
    buffer[written..log.size].copy_from_slice(&made[written..]);
    Ok(log)
}
