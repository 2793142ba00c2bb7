//! The Why engine's calls as safe functions, one for each function of `../why.h`. What the header leaves to the caller, pointers that are good for
//! their lengths and do not overlap, a slice and a local of Rust's have by themselves.

pub mod calls;

/// V, the variables of a book, at most.
pub const MAX_VARIABLES: usize = 48;
/// U, the choices among them, at most.
pub const MAX_CHOICES: usize = 32;
/// R, the rules of a book, at most.
pub const MAX_RULES: usize = 128;
/// A cost, at most; the least is 1.
pub const MAX_COST: u16 = 999;
/// The literals of one rule, at most.
pub const MAX_LITERALS: usize = 8;
/// The bytes of a book, at most.
pub const MAX_BOOK: usize = 3655;
/// The bytes of a log, at most: what the buffer of [`log`] and of [`resume_log`] must have.
pub const MAX_LOG: usize = 1255;
/// The bytes of a book without facts and WN, at most: what the buffer of [`read_dimacs`] must have.
pub const MAX_WITHOUT_FACTS: usize = 1639;
/// The largest place that a refusal has room for.
pub const MAX_PLACE: u64 = 0xffffffffffffff;

/// The numbers of the refusals, named as in `../why.h`; `../README.md` says what a screen should do about each.
pub mod number {
    /// Fewer bytes are left than a record's mark, its count byte or its fields need.
    pub const BYTES_MISSING: u8 = 1;
    /// A mark that is not allowed there.
    pub const WRONG_MARK: u8 = 2;
    /// HD: V, U or R over its limit, or U over V.
    pub const WRONG_HEADER: u8 = 3;
    /// CS: not the next choice, or a cost outside 1 to 999.
    pub const WRONG_COST: u8 = 4;
    /// RL: a count over 8.
    pub const WRONG_COUNT: u8 = 5;
    /// RL, FA: literal 0, a variable over V (in FA over U), or not rising.
    pub const WRONG_LITERAL: u8 = 6;
    /// A byte after EN.
    pub const BYTE_AFTER_END: u8 = 7;
    /// The lent buffer is too short.
    pub const SHORT_BUFFER: u8 = 8;
    /// No filling obeys the rules in force and the given facts.
    pub const NO_MODEL: u8 = 9;
    /// The known set is not between the given facts and the consequence.
    pub const WRONG_KNOWN_SET: u8 = 10;
    /// The text is not of the form.
    pub const NOT_DIMACS: u8 = 12;
    /// DIMACS: V or R over its limit, or a clause with over 8 literals.
    pub const TOO_LARGE_DIMACS: u8 = 13;
    /// No such date or minute, of the moment (then at 0) or in WN; in WN also an end that is not after its start, an end minute over 1440, or weekdays
    /// that are 0 or over 127.
    pub const WRONG_TIME: u8 = 14;
    /// The buffer's first bytes are not the beginning of this book's log at this moment, or are more than the buffer has.
    pub const NOT_BEGUN: u8 = 15;
}

/// A refusal: its number, one of [`number`], and its place.
#[derive(Clone, Copy, Debug, PartialEq, Eq)]
pub struct Refusal {
    pub number: u8,
    pub place: u64,
}

/// A set of literals: the variables that are yes, and those that are no. Bit v - 1 stands for variable v.
#[derive(Clone, Copy, Debug, PartialEq, Eq)]
pub struct Literals {
    pub yes: u64,
    pub no: u64,
}

/// A day of the calendar: the year from 2000 to 2099, the month and the day counted from 1.
#[derive(Clone, Copy, Debug, PartialEq, Eq)]
pub struct Date {
    pub year: u16,
    pub month: u8,
    pub day: u8,
}

/// The moment that a call is to answer for: a day and its minute, 0 to 1439, in the shop's own time. The engine has no clock.
#[derive(Clone, Copy, Debug, PartialEq, Eq)]
pub struct Moment {
    pub date: Date,
    pub minute: u16,
}

/// When a rule with a WN record is in force: from the first day on and before the end day, on the weekdays whose bits are set (the lowest is Monday's),
/// from the first minute of the day on and before the end minute.
#[derive(Clone, Copy, Debug, PartialEq, Eq)]
pub struct Window {
    pub first_day: Date,
    pub end_day: Date,
    pub weekdays: u8,
    pub first_minute: u16,
    pub end_minute: u16,
}

/// A book as it is read, with all rules, whenever they are in force. The literals of rule i are `rules_yes[i]` and `rules_no[i]`; after the last rule
/// both are 0. A rule without a window is always in force.
#[derive(Clone, Debug, PartialEq, Eq)]
pub struct Book {
    pub variables: u64,
    pub choices: u64,
    pub rules: u64,
    pub rules_yes: [u64; MAX_RULES],
    pub rules_no: [u64; MAX_RULES],
    pub windows: [Option<Window>; MAX_RULES],
    pub facts: Literals,
}

/// The costs: the row of choice v is `[v - 1]`, its yes first; rows of 0 after the last choice.
pub type Costs = [[u16; 2]; MAX_CHOICES];

/// The cheapest next step, or that the known set is the consequence.
#[derive(Clone, Copy, Debug, PartialEq, Eq)]
pub enum Step {
    Next {
        /// v for the yes of variable v, -v for its no.
        goal: i8,
        reasons: Literals,
        new: Literals,
        cost: u16,
    },
    NothingLeft,
}

/// The log that was written: its length, its number of steps, their total cost.
#[derive(Clone, Copy, Debug, PartialEq, Eq)]
pub struct Log {
    pub size: usize,
    pub steps: u8,
    pub total: u32,
}

/// What a call answered: 0 is done, anything else a refusal, its number in the lowest byte and its place above.
fn answered<T>(returned: u64, done: impl FnOnce() -> T) -> Result<T, Refusal> {
    if returned == 0 {
        Ok(done())
    } else {
        Err(Refusal { number: (returned & 0xff) as u8, place: returned >> 8 })
    }
}

/// The window that is meant by nine fields in the order of the record. No window has no weekday.
fn window(fields: [u16; 9]) -> Option<Window> {
    let [year, month, day, end_year, end_month, end_day, weekdays, first_minute, end_minute] = fields;
    let date = |year, month, day| Date { year, month: month as u8, day: day as u8 };
    (weekdays != 0).then(|| Window {
        first_day: date(year, month, day),
        end_day: date(end_year, end_month, end_day),
        weekdays: weekdays as u8,
        first_minute,
        end_minute,
    })
}

/// The book as it is read. Refuses with 1 to 7, 14 in WN.
pub fn read_book(book: &[u8]) -> Result<Book, Refusal> {
    let (mut variables, mut choices, mut rules) = (0, 0, 0);
    let (mut rules_yes, mut rules_no) = ([0; MAX_RULES], [0; MAX_RULES]);
    let mut windows = [[0; 9]; MAX_RULES];
    let mut facts = Literals { yes: 0, no: 0 };
    let returned = unsafe {
        calls::why_read_book(
            book.as_ptr(),
            book.len(),
            &mut variables,
            &mut choices,
            &mut rules,
            &mut rules_yes,
            &mut rules_no,
            &mut windows,
            &mut facts.yes,
            &mut facts.no,
        )
    };
    answered(returned, || Book { variables, choices, rules, rules_yes, rules_no, windows: windows.map(window), facts })
}

/// The costs of the book. Refuses with 1 to 7, 14 in WN.
pub fn read_costs(book: &[u8]) -> Result<Costs, Refusal> {
    let mut costs = [[0; 2]; MAX_CHOICES];
    let returned = unsafe { calls::why_read_costs(book.as_ptr(), book.len(), &mut costs) };
    answered(returned, || costs)
}

/// Makes a book of a DIMACS CNF text at the front of the buffer, and answers its length. Refuses with 8, 12, 13.
pub fn read_dimacs(text: &[u8], buffer: &mut [u8]) -> Result<usize, Refusal> {
    let mut size = 0;
    let returned =
        unsafe { calls::why_read_dimacs(text.as_ptr(), text.len(), buffer.as_mut_ptr(), buffer.len(), &mut size) };
    answered(returned, || size as usize)
}

/// The first model of the rules in force at the moment, as the mask of its yes. Refuses with 14 at 0, 1 to 7, 14 in WN, 9.
pub fn model(book: &[u8], at: Moment) -> Result<u64, Refusal> {
    let Moment { date: Date { year, month, day }, minute } = at;
    let mut model = 0;
    let returned = unsafe { calls::why_model(book.as_ptr(), book.len(), year, month, day, minute, &mut model) };
    answered(returned, || model)
}

/// What is filled in by the rules in force at the moment. Refuses with 14 at 0, 1 to 7, 14 in WN, 9.
pub fn consequence(book: &[u8], at: Moment) -> Result<Literals, Refusal> {
    let Moment { date: Date { year, month, day }, minute } = at;
    let mut forced = Literals { yes: 0, no: 0 };
    let returned = unsafe {
        calls::why_consequence(book.as_ptr(), book.len(), year, month, day, minute, &mut forced.yes, &mut forced.no)
    };
    answered(returned, || forced)
}

/// The cheapest next step from a known set, by the rules in force at the moment. Refuses with 14 at 0, 1 to 7, 14 in WN, 9, 10.
pub fn next_step(book: &[u8], at: Moment, known: Literals) -> Result<Step, Refusal> {
    let Moment { date: Date { year, month, day }, minute } = at;
    let (mut goal, mut cost) = (0, 0);
    let mut reasons = Literals { yes: 0, no: 0 };
    let mut new = Literals { yes: 0, no: 0 };
    let returned = unsafe {
        calls::why_next_step(
            book.as_ptr(),
            book.len(),
            year,
            month,
            day,
            minute,
            known.yes,
            known.no,
            &mut goal,
            &mut reasons.yes,
            &mut reasons.no,
            &mut new.yes,
            &mut new.no,
            &mut cost,
        )
    };
    answered(returned, || match goal {
        0 => Step::NothingLeft,
        _ => Step::Next { goal: goal as i8, reasons, new, cost: cost as u16 },
    })
}

/// Writes the log of the rules in force at the moment, at the front of the buffer. Refuses with 14 at 0, 1 to 7, 14 in WN, 8, 9.
pub fn log(book: &[u8], at: Moment, buffer: &mut [u8]) -> Result<Log, Refusal> {
    let Moment { date: Date { year, month, day }, minute } = at;
    let (mut size, mut steps, mut total) = (0, 0, 0);
    let returned = unsafe {
        calls::why_log(
            book.as_ptr(),
            book.len(),
            year,
            month,
            day,
            minute,
            buffer.as_mut_ptr(),
            buffer.len(),
            &mut size,
            &mut steps,
            &mut total,
        )
    };
    answered(returned, || Log { size: size as usize, steps: steps as u8, total: total as u32 })
}

/// Carries a log on after a restart, in a buffer whose first `written` bytes stand as [`log`] or this function wrote them for the same book and moment;
/// the others may be anything. Writes the bytes from there on and answers what [`log`] would, which it is with 0 written. Refuses with 14 at 0, 1 to 7,
/// 14 in WN, 8, 9, 15.
pub fn resume_log(book: &[u8], at: Moment, buffer: &mut [u8], written: usize) -> Result<Log, Refusal> {
    let Moment { date: Date { year, month, day }, minute } = at;
    let (mut size, mut steps, mut total) = (0, 0, 0);
    let returned = unsafe {
        calls::why_resume_log(
            book.as_ptr(),
            book.len(),
            year,
            month,
            day,
            minute,
            buffer.as_mut_ptr(),
            buffer.len(),
            written,
            &mut size,
            &mut steps,
            &mut total,
        )
    };
    answered(returned, || Log { size: size as usize, steps: steps as u8, total: total as u32 })
}
