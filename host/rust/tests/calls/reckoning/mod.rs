//! What the calls must answer, worked out from the paper. Nothing here calls the engine.
pub mod dates;
pub mod dimacs;
pub mod fillings;
pub mod reader;
pub mod search;

use reader::Book;
use why_engine::{Literals, Refusal, Step};

/// The shortest buffer that the log takes.
pub const LOG_ROOM: usize = 1255;
/// The shortest buffer that the DIMACS reader takes.
pub const DIMACS_ROOM: usize = 1639;

pub const NO_LITERALS: Literals = Literals { yes: 0, no: 0 };

pub fn refusal(number: u8, place: usize) -> Refusal {
    let place = place as u64;
    Refusal { number, place }
}

/// The mask of one variable.
pub fn bit(variable: u32) -> u64 {
    1 << (variable - 1)
}

/// The variables of a mask, rising.
pub fn variables(mut mask: u64) -> impl Iterator<Item = u32> {
    std::iter::from_fn(move || {
        let lowest = (mask != 0).then(|| mask.trailing_zeros() + 1)?;
        mask &= mask - 1;
        Some(lowest)
    })
}

pub fn union(a: Literals, b: Literals) -> Literals {
    Literals { yes: a.yes | b.yes, no: a.no | b.no }
}

pub fn without(a: Literals, b: Literals) -> Literals {
    Literals { yes: a.yes & !b.yes, no: a.no & !b.no }
}

/// The literals of `a` whose variable is in the mask.
pub fn over(a: Literals, mask: u64) -> Literals {
    Literals { yes: a.yes & mask, no: a.no & mask }
}

pub fn opposite(a: Literals) -> Literals {
    Literals { yes: a.no, no: a.yes }
}

/// The variables of the literals that a filling, given as its yes, makes false.
pub fn made_false(filling: u64, a: Literals) -> u64 {
    (a.yes & !filling) | (a.no & filling)
}

/// The question was too hard for the limit that the search was given.
#[derive(Debug)]
pub struct OverLimit;
pub type Limited<T> = Result<T, OverLimit>;

/// A candidate, its fields in the order that decides: the less comes first. The set is the sum of 2^(v-1) over its variables.
#[derive(Clone, Copy, Debug, PartialEq, Eq, PartialOrd, Ord, Hash)]
pub struct Candidate {
    pub cost: u32,
    pub facts: u32,
    pub goal: u32,
    pub set: u64,
}

impl Candidate {
    /// The candidate with the literals of `set` as reasons. Known and goals hold no variable twice, so variables name their literals.
    pub fn new(book: &Book, known: Literals, goals: Literals, goal: u32, set: u64) -> Self {
        let opposite = opposite(over(goals, bit(goal)));
        let cost = book.cost(over(known, set)) + book.cost(opposite);
        Candidate { cost, facts: set.count_ones(), goal, set }
    }
}

/// The three questions that a way of reckoning answers; all else is made of them here.
pub trait Reckoning {
    /// The first model of rules and facts, as the mask of its yes.
    fn first_model(&self) -> Limited<Option<u64>>;
    /// The literals over choices that are true in every filling that obeys the rules and makes all of the set true, if there is such a filling.
    fn forced(&self, set: Literals) -> Limited<Option<Literals>>;
    /// The least candidate, and behind it those of the same cost that came to light.
    fn cheapest(&self, known: Literals, goals: Literals) -> Limited<Vec<Candidate>>;
}

/// One answer of the next step: from where, what, and the candidates of least cost, the chosen one first.
pub struct Answer {
    pub known: Literals,
    pub step: Step,
    pub rivals: Vec<Candidate>,
}

/// The next step of a book with a model.
pub fn next_step(
    book: &Book,
    reckoning: &dyn Reckoning,
    consequence: Literals,
    known: Literals,
) -> Limited<Result<Answer, Refusal>> {
    if without(book.facts, known) != NO_LITERALS || without(known, consequence) != NO_LITERALS {
        return Ok(Err(refusal(10, 0)));
    }
    let goals = without(consequence, known);
    if goals == NO_LITERALS {
        return Ok(Ok(Answer { known, step: Step::NothingLeft, rivals: Vec::new() }));
    }
    let rivals = reckoning.cheapest(known, goals)?;
    let best = rivals[0];
    let reasons = over(known, best.set);
    let forced = reckoning.forced(reasons)?.expect("the model makes the reasons true");
    let (goal, new) = (signed(goals, best.goal), without(forced, known));
    assert!((new.yes | new.no) & bit(best.goal) != 0, "the new literals include the goal");
    let step = Step::Next { goal, reasons, new, cost: best.cost as u16 };
    Ok(Ok(Answer { known, step, rivals }))
}

/// The log of a book with a model: its bytes, its number of steps, their total, and the answers on its way, the last that nothing is left.
pub struct Log {
    pub bytes: Vec<u8>,
    pub steps: u8,
    pub total: u32,
    pub way: Vec<Answer>,
}

pub fn log(book: &Book, reckoning: &dyn Reckoning, consequence: Literals) -> Limited<Log> {
    let mut log = Log { bytes: Vec::new(), steps: 0, total: 0, way: Vec::new() };
    let mut known = book.facts;
    loop {
        let answer = next_step(book, reckoning, consequence, known)?.expect("known is between");
        let step = answer.step;
        log.way.push(answer);
        let Step::Next { goal, reasons, new, cost } = step else { break };
        log.bytes.extend([b'S', b'T', goal as u8]);
        write_list(&mut log.bytes, reasons);
        write_list(&mut log.bytes, new);
        log.bytes.extend(cost.to_be_bytes());
        log.steps += 1;
        log.total += u32::from(cost);
        known = union(known, new);
    }
    log.bytes.extend([b'O', b'K', log.steps]);
    log.bytes.extend(log.total.to_be_bytes());
    Ok(log)
}

fn write_list(bytes: &mut Vec<u8>, list: Literals) {
    let both = list.yes | list.no;
    bytes.push(both.count_ones() as u8);
    bytes.extend(variables(both).map(|v| signed(list, v) as u8));
}

/// The literal of a variable that is in the set: v for its yes, -v for its no.
fn signed(set: Literals, variable: u32) -> i8 {
    if set.yes & bit(variable) != 0 {
        variable as i8
    } else {
        -(variable as i8)
    }
}
