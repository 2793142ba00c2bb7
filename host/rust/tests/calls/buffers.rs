//! Buffers of every length around the limits, between guards.
use crate::compare::{same, same_at};
use crate::draw::{Draw, Order};
use crate::guarded;
use crate::reckoning::dates::{date, moment};
use crate::reckoning::reader::{self, Book};
use crate::reckoning::search::Search;
use crate::reckoning::{self, dimacs, refusal, Reckoning, DIMACS_ROOM, LOG_ROOM};
use why_engine::{Moment, Refusal, Window};

/// Twelve facts, and twenty choices that each follow from another seven of them, in July 2026 only: then a log of twenty steps.
pub fn long_log() -> Order {
    let mut draw = Draw::new("long log", 0);
    let mut rules = Vec::new();
    for target in 13..=32 {
        let reasons = draw.rising(7, 1, 12).into_iter().map(|v| -(v as i8));
        rules.push(reasons.chain([target]).collect());
    }
    let costs = (1..=32).map(|v| [v, 33 - v]).collect();
    let (first_day, end_day) = (date(2026, 7, 1), date(2026, 8, 1));
    let july = Window { first_day, end_day, weekdays: 127, first_minute: 0, end_minute: 1440 };
    Order { variables: 32, choices: 32, costs, rules, windows: vec![Some(july); 20], facts: (1..=12).collect() }
}

fn log_of(book: &Book) -> (why_engine::Log, Vec<u8>) {
    let search = Search::new(book, 1_000_000);
    let consequence = search.forced(book.facts).unwrap().unwrap();
    let log = reckoning::log(book, &search, consequence).unwrap();
    (why_engine::Log { size: log.bytes.len(), steps: log.steps, total: log.total }, log.bytes)
}

/// The log carried on in a buffer of so many bytes, from a drawn byte and from too many.
fn carry_on(
    book: &[u8],
    at: Moment,
    room: usize,
    log: &[u8],
    served: Result<(why_engine::Log, Vec<u8>), Refusal>,
    draw: &mut Draw,
) {
    let mut found = draw.bytes(room);
    let begun = draw.between(0, log.len()).min(room);
    found[..begun].copy_from_slice(&log[..begun]);
    same_at(guarded::resume_log(book, at, &found, begun), served.clone(), "log carried on", book, at);
    let expected = served.and(Err(refusal(15, 0)));
    for written in [room.max(log.len() + 1), room + 1, usize::MAX] {
        same_at(guarded::resume_log(book, at, &found, written), expected.clone(), "log carried on", book, at);
    }
}

#[test]
fn log_buffers() {
    let bytes = long_log().bytes();
    let book = reader::read(&bytes).unwrap();
    let [july, august] = [moment(2026, 7, 31, 1439), moment(2026, 8, 1, 0)];
    let [long, empty] = [july, august].map(|at| log_of(&book.in_force(at)));
    println!("long log: {} steps, {} bytes", long.0.steps, long.1.len());
    assert!(long.0.steps >= 10 && empty.0.steps == 0);
    let without_model = b"HD\0\0\x01RL\0EN";
    let damaged = &bytes[..bytes.len() - 1];
    let place = bytes.len() - 2;
    let mut draw = Draw::new("log buffers", 0);
    for room in 0..=1_300 {
        let enough = room >= LOG_ROOM;
        for (at, log) in [(july, &long), (august, &empty)] {
            let served = if enough { Ok(log.clone()) } else { Err(refusal(8, 0)) };
            same_at(guarded::log(&bytes, at, room), served.clone(), "log", &bytes, at);
            carry_on(&bytes, at, room, &log.1, served, &mut draw);
        }
        let (at, never) = (draw.moment(), draw.no_moment());
        let number = if enough { 9 } else { 8 };
        same_at(guarded::log(without_model, at, room), Err(refusal(number, 0)), "log", without_model, at);
        same_at(guarded::log(damaged, at, room), Err(refusal(1, place)), "log", damaged, at);
        for book in [&bytes, &without_model[..], damaged] {
            same_at(guarded::log(book, never, room), Err(refusal(14, 0)), "log", book, never);
        }
    }
}

/// A text of the most bytes that a book without facts can have.
fn longest_text() -> Vec<u8> {
    let clauses: Vec<String> = (0..128).map(|i| format!("{} 45 -7 46 11 -47 48 1 0", 12 + i % 20)).collect();
    format!("p cnf 48 128\n{}\n", clauses.join("\n")).into_bytes()
}

#[test]
fn dimacs_buffers() {
    let longest = longest_text();
    let book = dimacs::read(&longest).unwrap().book();
    assert_eq!(book.len(), DIMACS_ROOM);
    let texts: [(&[u8], Result<Vec<u8>, _>); 4] = [
        (&longest, Ok(book)),
        (b"p cnf 0 0", Ok(b"HD\0\0\0EN".to_vec())),
        (b"p cnf 1 1 2 0", Err(refusal(12, 10))),
        (b"p cnf 49 1", Err(refusal(13, 6))),
    ];
    for room in 0..=1_700 {
        for (text, expected) in texts.clone() {
            let expected = if room < DIMACS_ROOM { Err(refusal(8, 0)) } else { expected };
            same(guarded::read_dimacs(text, room), expected, "book", text);
        }
    }
}
