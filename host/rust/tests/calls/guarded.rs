//! Each call of the archive, through its pointers and through the safe function, which must agree. Whatever is lent to a call lies between guards
//! that must stay; where the call refuses, everything behind its pointers must stay.
use std::fmt::Debug;
use why_engine::{calls, Book, Costs, Date, Literals, Log, Moment, Refusal, Step, Window};

/// Elements before and after the room.
const GUARD: usize = 8;
/// No answer has this value: it has bits above the last variable, and it is no goal, size, number or cost.
const UNWRITTEN: u64 = 0x5a5a_5a5a_5a5a_5a5a;
/// What stands in memory after the bytes handed in; a call that reads on meets an end of a book.
const BEHIND: &[u8] = b"EN 0\nENEN";

/// Room that is lent to a call.
#[derive(Clone)]
struct Lent<T> {
    cells: Vec<T>,
    before: Vec<T>,
}

impl<T: Copy + PartialEq + Debug> Lent<T> {
    fn new(length: usize, fill: impl Fn(usize) -> T) -> Self {
        let cells: Vec<T> = (0..length + 2 * GUARD).map(fill).collect();
        Lent { before: cells.clone(), cells }
    }

    fn pointer(&mut self) -> *mut T {
        self.cells[..].as_mut_ptr().wrapping_add(GUARD)
    }

    fn inside(&self) -> &[T] {
        &self.cells[GUARD..self.cells.len() - GUARD]
    }

    /// Panics if anything but the first `written` elements of the room was changed.
    fn check(&self, written: usize) {
        let (front, back) = (..GUARD, GUARD + written..);
        assert_eq!(self.cells[front], self.before[front], "written before the room");
        assert_eq!(self.cells[back.clone()], self.before[back], "written after what is answered");
    }

    /// The room after the call, of which all is written if it was done and nothing if not.
    fn answer(&self, done: bool) -> &[T] {
        self.check(if done { self.inside().len() } else { 0 });
        self.inside()
    }
}

fn numbers<const N: usize>() -> [Lent<u64>; N] {
    std::array::from_fn(|_| Lent::new(1, |_| UNWRITTEN))
}

/// The single numbers after the call.
fn answers<const N: usize>(numbers: &[Lent<u64>; N], done: bool) -> [u64; N] {
    std::array::from_fn(|i| numbers[i].answer(done)[0])
}

/// A buffer whose bytes differ from one to the next.
fn buffer(length: usize) -> Lent<u8> {
    Lent::new(length, |i| (i * 37 + length + 11) as u8)
}

/// A buffer that holds these bytes.
fn buffer_of(bytes: &[u8]) -> Lent<u8> {
    let byte = |i: usize| i.checked_sub(GUARD).and_then(|place| bytes.get(place));
    Lent::new(bytes.len(), |i| byte(i).copied().unwrap_or((i * 37 + 11) as u8))
}

/// Calls with the bytes handed in, and sees that they stay.
fn handing(bytes: &[u8], call: impl FnOnce(*const u8, usize) -> u64) -> u64 {
    let handed = [bytes, BEHIND].concat();
    let returned = call(handed.as_ptr(), bytes.len());
    assert_eq!(handed, [bytes, BEHIND].concat(), "the bytes handed in were changed");
    returned
}

/// The answer of a call that returned this, which must be the safe function's.
fn answered<T: PartialEq + Debug>(returned: u64, done: T, safe: Result<T, Refusal>) -> Result<T, Refusal> {
    let answer = match returned {
        0 => Ok(done),
        _ => Err(Refusal { number: (returned % 256) as u8, place: returned / 256 }),
    };
    assert_eq!(safe, answer, "the safe function");
    answer
}

/// The window of nine fields, none where all are 0. The narrower types of a window must not hide anything.
fn window(fields: [u16; 9]) -> Option<Window> {
    let one_byte = |field: u16| u8::try_from(field).expect("a field of one byte");
    let date = |i| Date { year: fields[i], month: one_byte(fields[i + 1]), day: one_byte(fields[i + 2]) };
    (fields != [0; 9]).then(|| Window {
        first_day: date(0),
        end_day: date(3),
        weekdays: one_byte(fields[6]),
        first_minute: fields[7],
        end_minute: fields[8],
    })
}

pub fn read_book(book: &[u8]) -> Result<Book, Refusal> {
    let mut five = numbers::<5>();
    let mut rules = [(); 2].map(|_| Lent::new(128, |_| UNWRITTEN));
    let mut windows = Lent::new(128, |_| [UNWRITTEN as u16; 9]);
    let [v, u, r, facts_yes, facts_no] = five.each_mut().map(Lent::pointer);
    let [yes, no] = rules.each_mut().map(|lent| lent.pointer().cast());
    let nine_each = windows.pointer().cast();
    let returned = handing(book, |bytes, length| unsafe {
        calls::why_read_book(bytes, length, v, u, r, yes, no, nine_each, facts_yes, facts_no)
    });
    let done = returned == 0;
    let [variables, choices, count, yes, no] = answers(&five, done);
    let [rules_yes, rules_no] = rules.each_ref().map(|l| l.answer(done).try_into().unwrap());
    let nine_each: [[u16; 9]; 128] = windows.answer(done).try_into().unwrap();
    let windows = if done { nine_each.map(window) } else { [None; 128] };
    let facts = Literals { yes, no };
    let read = Book { variables, choices, rules: count, rules_yes, rules_no, windows, facts };
    answered(returned, read, why_engine::read_book(book))
}

pub fn read_costs(book: &[u8]) -> Result<Costs, Refusal> {
    let mut table = Lent::new(32, |_| [UNWRITTEN as u16; 2]);
    let costs = table.pointer().cast();
    let returned = handing(book, |bytes, length| unsafe { calls::why_read_costs(bytes, length, costs) });
    let costs = table.answer(returned == 0).try_into().unwrap();
    answered(returned, costs, why_engine::read_costs(book))
}

pub fn model(book: &[u8], at: Moment) -> Result<u64, Refusal> {
    let Moment { date: Date { year, month, day }, minute } = at;
    let mut one = numbers::<1>();
    let model = one[0].pointer();
    let returned =
        handing(book, |bytes, length| unsafe { calls::why_model(bytes, length, year, month, day, minute, model) });
    let [model] = answers(&one, returned == 0);
    answered(returned, model, why_engine::model(book, at))
}

pub fn consequence(book: &[u8], at: Moment) -> Result<Literals, Refusal> {
    let Moment { date: Date { year, month, day }, minute } = at;
    let mut two = numbers::<2>();
    let [yes, no] = two.each_mut().map(Lent::pointer);
    let returned = handing(book, |bytes, length| unsafe {
        calls::why_consequence(bytes, length, year, month, day, minute, yes, no)
    });
    let [yes, no] = answers(&two, returned == 0);
    answered(returned, Literals { yes, no }, why_engine::consequence(book, at))
}

pub fn next_step(book: &[u8], at: Moment, known: Literals) -> Result<Step, Refusal> {
    let Moment { date: Date { year, month, day }, minute } = at;
    let mut goal = Lent::new(1, |_| UNWRITTEN as i64);
    let mut five = numbers::<5>();
    let goal_pointer = goal.pointer();
    let [yes, no, new_yes, new_no, cost] = five.each_mut().map(Lent::pointer);
    let returned = handing(book, |bytes, length| unsafe {
        let Literals { yes: known_yes, no: known_no } = known;
        let goal = goal_pointer;
        calls::why_next_step(
            bytes, length, year, month, day, minute, known_yes, known_no, goal, yes, no, new_yes, new_no, cost,
        )
    });
    let done = returned == 0;
    let goal = goal.answer(done)[0];
    let rest = answers(&five, done);
    let [yes, no, new_yes, new_no, cost] = rest;
    let step = match goal {
        0 => Step::NothingLeft,
        _ => Step::Next {
            goal: goal as i8,
            reasons: Literals { yes, no },
            new: Literals { yes: new_yes, no: new_no },
            cost: cost as u16,
        },
    };
    if done {
        // The narrower types of the step must not hide anything.
        assert!(goal.abs() <= 32 && cost <= 33 * 999 && (goal != 0 || rest == [0; 5]));
    }
    answered(returned, step, why_engine::next_step(book, at, known))
}

/// The log in a buffer of so many bytes, and what is answered about it.
pub fn log(book: &[u8], at: Moment, room: usize) -> Result<(Log, Vec<u8>), Refusal> {
    let Moment { date: Date { year, month, day }, minute } = at;
    let call = |bytes, length, to, [size, steps, total]: [_; 3]| unsafe {
        calls::why_log(bytes, length, year, month, day, minute, to, room, size, steps, total)
    };
    logged(book, buffer(room), call, |room| why_engine::log(book, at, room))
}

/// The log carried on in a buffer that holds what was found, and what is answered about it.
pub fn resume_log(book: &[u8], at: Moment, found: &[u8], written: usize) -> Result<(Log, Vec<u8>), Refusal> {
    let Moment { date: Date { year, month, day }, minute } = at;
    let room = found.len();
    let call = |bytes, length, to, [size, steps, total]: [_; 3]| unsafe {
        calls::why_resume_log(bytes, length, year, month, day, minute, to, room, written, size, steps, total)
    };
    logged(book, buffer_of(found), call, |room| why_engine::resume_log(book, at, room, written))
}

/// The log that a call writes to a buffer, and what it answers about it.
fn logged(
    book: &[u8],
    mut lent: Lent<u8>,
    call: impl FnOnce(*const u8, usize, *mut u8, [*mut u64; 3]) -> u64,
    safe: impl FnOnce(&mut [u8]) -> Result<Log, Refusal>,
) -> Result<(Log, Vec<u8>), Refusal> {
    let mut again = lent.clone();
    let mut three = numbers::<3>();
    let to = lent.pointer();
    let pointers = three.each_mut().map(Lent::pointer);
    let returned = handing(book, |bytes, length| call(bytes, length, to, pointers));
    let done = returned == 0;
    let [size, steps, total] = answers(&three, done);
    let size = if done { size as usize } else { 0 };
    lent.check(size);
    assert!(!done || steps <= 32 && total <= 32 * 33 * 999);
    let log = Log { size, steps: steps as u8, total: total as u32 };
    let answer = answered(returned, log, safe(again.room()));
    assert_eq!(again.cells, lent.cells);
    answer.map(|log| (log, lent.inside()[..size].to_vec()))
}

/// The book of a text, made in a buffer of so many bytes.
pub fn read_dimacs(text: &[u8], room: usize) -> Result<Vec<u8>, Refusal> {
    let mut lent = buffer(room);
    let mut one = numbers::<1>();
    let (to, size) = (lent.pointer(), one[0].pointer());
    let returned = handing(text, |bytes, length| unsafe { calls::why_read_dimacs(bytes, length, to, room, size) });
    let done = returned == 0;
    let [size] = answers(&one, done);
    let size = if done { size as usize } else { 0 };
    lent.check(size);
    let mut again = buffer(room);
    let answer = answered(returned, size, why_engine::read_dimacs(text, again.room()));
    assert_eq!(again.cells, lent.cells);
    answer.map(|size| lent.inside()[..size].to_vec())
}

impl Lent<u8> {
    /// The room as a slice for the safe functions.
    fn room(&mut self) -> &mut [u8] {
        let end = self.cells.len() - GUARD;
        &mut self.cells[GUARD..end]
    }
}
