//! Logs broken off at every byte, as by a restart, and carried on. The log is the reckoning's; the test itself breaks it, puts junk behind the break and
//! says how many bytes are as written.
use crate::buffers::long_log;
use crate::compare::{same_at, Counts};
use crate::draw::{self, Draw, Order};
use crate::guarded;
use crate::reckoning::dates::moment;
use crate::reckoning::fillings::Fillings;
use crate::reckoning::reader;
use crate::reckoning::search::Search;
use crate::reckoning::{self, refusal, Reckoning, LOG_ROOM};
use crate::seasons::seasonal;
use why_engine::{Log, Moment, Refusal};

/// How far the search goes in a large book before that book is left out.
const LIMIT: u64 = 50_000;

type Maker = fn(&mut Draw) -> Order;

/// The kinds of books and how many are drawn of each.
const KINDS: [(&str, u64, Maker); 7] = [
    ("plain", 600, draw::plain),
    ("small", 500, draw::small),
    ("combined", 300, draw::combined_small),
    ("spread", 300, draw::spread),
    ("contradictory", 150, draw::contradictory),
    ("large", 25, draw::large),
    ("combined large", 6, draw::combined_large),
];

/// A log in a buffer that is long enough: what is answered about it and its bytes, or 1 to 7, 9 or 14. None where the search goes too far.
fn reckoned(book: &[u8], at: Moment) -> Option<Result<(Log, Vec<u8>), Refusal>> {
    let book = match reader::read(book) {
        Ok(book) => book.in_force(at),
        Err(refusal) => return Some(Err(refusal)),
    };
    let (fillings, search) = (Fillings::of(&book), Search::new(&book, LIMIT));
    let reckoning: &dyn Reckoning = fillings.as_ref().map_or(&search, |fillings| fillings);
    let Some(consequence) = reckoning.forced(book.facts).ok()? else { return Some(Err(refusal(9, 0))) };
    let log = reckoning::log(&book, reckoning, consequence).ok()?;
    Some(Ok((Log { size: log.bytes.len(), steps: log.steps, total: log.total }, log.bytes)))
}

/// One book at one moment with its log, and the log of another book or moment.
struct Restarts<'a> {
    book: &'a [u8],
    at: Moment,
    log: (Log, Vec<u8>),
    other: Vec<u8>,
    draw: Draw,
    counts: &'a mut Counts,
}

/// What stands behind a break, by its name.
const JUNK: [&str; 8] = [
    "all 0",
    "all 255",
    "random",
    "the log one byte too early",
    "the log one byte too late",
    "the log with a wrong byte at the break",
    "another log",
    "the log",
];

impl Restarts<'_> {
    fn bytes(&self) -> &[u8] {
        &self.log.1
    }

    /// A buffer of so many bytes, all of it junk of this kind: its first bytes are still to be put in.
    fn junk(&mut self, kind: usize, room: usize, written: usize) -> Vec<u8> {
        let mut junk = match kind {
            0 => vec![0; room],
            1 => vec![255; room],
            _ => self.draw.bytes(room),
        };
        let log = &self.log.1;
        match kind {
            3 => junk[..log.len() - 1].copy_from_slice(&log[1..]),
            4 => junk[1..=log.len()].copy_from_slice(log),
            5 | 7 => junk[..log.len()].copy_from_slice(log),
            6 => junk[..self.other.len()].copy_from_slice(&self.other),
            _ => {}
        }
        if kind == 5 {
            junk[written] = junk[written].wrapping_add(self.draw.between(1, 255) as u8);
        }
        junk
    }

    /// The buffer that is found after a restart.
    fn found(&mut self, kind: usize, room: usize, written: usize) -> Vec<u8> {
        let mut found = self.junk(kind, room, written);
        found[..written].copy_from_slice(&self.log.1[..written]);
        found
    }

    fn room(&mut self) -> usize {
        LOG_ROOM + self.draw.pick(&[0, 0, 0, 1, 100])
    }

    /// Carries on with what was found, and expects the unbroken call's log where that is right, else 15.
    fn carry_on(&mut self, found: &[u8], written: usize, right: bool, what: &'static str) {
        let expected = if right { Ok(self.log.clone()) } else { Err(refusal(15, 0)) };
        let engine = guarded::resume_log(self.book, self.at, found, written);
        if engine != expected {
            same_at(engine, expected, &format!("log after byte {written} ({what})"), self.book, self.at);
        }
        self.counts.add(what, 1);
        if !right {
            self.counts.add_refusal(refusal(15, 0));
        }
    }

    /// Every break of the log, the first byte and the last included.
    fn every_break(&mut self) {
        self.counts.add("logs", 1);
        let unbroken = guarded::log(self.book, self.at, LOG_ROOM);
        same_at(unbroken, Ok(self.log.clone()), "log", self.book, self.at);
        for written in 0..=self.bytes().len() {
            for (kind, what) in JUNK.into_iter().enumerate() {
                let room = self.room();
                let found = self.found(kind, room, written);
                self.carry_on(&found, written, true, what);
            }
            self.counts.add("breaks", 1);
            self.wrong_beginnings(written);
        }
        self.wrong_numbers();
    }

    /// A byte before the break that is not as it was written, and another log's beginning.
    fn wrong_beginnings(&mut self, written: usize) {
        if written > 0 {
            let drawn = self.draw.between(0, written - 1);
            for place in [0, drawn, written - 1] {
                let (kind, room) = (self.draw.between(0, JUNK.len() - 1), self.room());
                let mut found = self.found(kind, room, written);
                let change = self.draw.between(1, 255) as u8;
                found[place] ^= self.draw.pick(&[1, 0x80, change]);
                self.carry_on(&found, written, false, "a changed byte");
            }
        }
        let mut found = self.draw.bytes(LOG_ROOM);
        found[..self.other.len()].copy_from_slice(&self.other);
        let right = found[..written] == self.bytes()[..written];
        let what = if right { "another log that begins alike" } else { "another log that begins otherwise" };
        self.carry_on(&found, written, right, what);
    }

    /// Numbers over the log's length and over the buffer's, some of them right if they were cut to fewer bits, in a buffer with the whole log.
    fn wrong_numbers(&mut self) {
        let (size, room) = (self.bytes().len(), self.room());
        let drawn = self.draw.between(size + 1, room);
        for written in [size + 1, drawn, room, size + (1 << 8)] {
            let found = self.found(7, room, size);
            self.carry_on(&found, written, false, "more than the log");
        }
        let cut = [16, 32, 63].map(|bits| self.draw.between(0, size) + (1 << bits));
        for written in [room + 1, usize::MAX - size, usize::MAX].into_iter().chain(cut) {
            let found = self.found(7, room, size);
            self.carry_on(&found, written, false, "more than the buffer");
        }
    }

    /// 14 and 8 come before 15, with a good beginning and with a bad one, and with a number over all.
    fn refused_before(&mut self) {
        let never = self.draw.no_moment();
        let short = self.draw.pick(&[0, 1, 7, LOG_ROOM - 2, LOG_ROOM - 1]);
        let long = self.room();
        for (at, room, expected) in [(never, long, 14), (never, short, 14), (self.at, short, 8)] {
            before_15(self.book, at, room, refusal(expected, 0), &self.log.1, &mut self.draw, self.counts);
        }
    }
}

/// A refusal that comes before 15, whatever the buffer begins with and whatever number is handed over.
fn before_15(
    book: &[u8],
    at: Moment,
    room: usize,
    expected: Refusal,
    log: &[u8],
    draw: &mut Draw,
    counts: &mut Counts,
) {
    let mut found = draw.bytes(room);
    let begun = room.min(log.len());
    found[..begun].copy_from_slice(&log[..begun]);
    for written in [0, 1, begun, log.len(), room, room + 1, usize::MAX] {
        same_at(guarded::resume_log(book, at, &found, written), Err(expected), "log carried on", book, at);
        counts.add_refusal(expected);
    }
}

fn drawn_book(draw: &mut Draw, at: Moment, maker: Maker) -> Vec<u8> {
    let order = maker(draw);
    seasonal(draw, order, at).bytes()
}

/// A log that is not the one of the book at the moment: the same book's when other rules are in force, or another book's.
fn other_log(book: &[u8], at: Moment, draw: &mut Draw, maker: Maker) -> Vec<u8> {
    let later = draw.moment();
    let next = drawn_book(draw, at, maker);
    let two = [reckoned(book, later), reckoned(&next, at)];
    let logs: Vec<Vec<u8>> = two.into_iter().flatten().flatten().map(|log| log.1).collect();
    match logs.len() {
        0 => b"OK\0\0\0\0\0".to_vec(),
        count => logs[draw.between(0, count - 1)].clone(),
    }
}

fn restart_kind(kind: &str, count: u64, maker: Maker) -> Counts {
    let mut counts = Counts::default();
    for number in 0..count {
        let mut draw = Draw::new(&format!("restarts, {kind}"), number);
        let at = draw.moment();
        let book = drawn_book(&mut draw, at, maker);
        match reckoned(&book, at) {
            None => counts.add("books over the limit", 1),
            Some(Err(refusal)) => {
                let (room, log) = (LOG_ROOM + draw.between(0, 1), b"ST\x01\0\x01\x01\0\x09");
                before_15(&book, at, room, refusal, log, &mut draw, &mut counts);
            }
            Some(Ok(log)) => {
                let other = other_log(&book, at, &mut draw, maker);
                let mut restarts = Restarts { book: &book, at, log, other, draw, counts: &mut counts };
                restarts.every_break();
                restarts.refused_before();
            }
        }
    }
    counts.print(&format!("restarts, {kind}"));
    counts
}

#[test]
fn every_break_of_drawn_logs() {
    let mut counts = Counts::default();
    for (kind, count, maker) in KINDS {
        counts.merge(restart_kind(kind, count, maker));
    }
    counts.print("restarts, all");
    counts.at_least(&[("logs", 1_000), ("breaks", 20_000), ("a changed byte", 60_000)]);
    counts.at_least(&JUNK.map(|what| (what, 20_000)));
    counts.at_least(&[("another log that begins alike", 2_000), ("another log that begins otherwise", 10_000)]);
    counts.at_least(&[("more than the log", 3_000), ("more than the buffer", 6_000)]);
    for (number, least) in [(8, 7_000), (9, 1_000), (14, 14_000), (15, 80_000)] {
        counts.refused_at_least(number, least);
    }
}

/// A log of twenty steps, with junk of one kind at each break.
#[test]
fn every_break_of_a_long_log() {
    let (book, at) = (long_log().bytes(), moment(2026, 7, 31, 1439));
    let log = reckoned(&book, at).unwrap().unwrap();
    let (mut counts, draw) = (Counts::default(), Draw::new("restarts, long", 0));
    let other = log.1[..log.1.len() / 2].to_vec();
    let mut restarts = Restarts { book: &book, at, log, other, draw, counts: &mut counts };
    for written in 0..=restarts.log.1.len() {
        let kind = written % JUNK.len();
        let found = restarts.found(kind, LOG_ROOM, written);
        restarts.carry_on(&found, written, true, JUNK[kind]);
    }
    counts.print("restarts, long");
}

/// A refused book is refused alike, with a buffer of any length.
#[test]
fn damaged_books_come_before_the_beginning() {
    let mut counts = Counts::default();
    for number in 0..6_000 {
        let mut draw = Draw::new("restarts, damaged", number);
        let at = draw.moment();
        let book = draw::damaged(&mut draw, at);
        if let Err(refusal) = reader::read(&book) {
            let room = draw.pick(&[0, LOG_ROOM - 1, LOG_ROOM]);
            before_15(&book, at, room, refusal, b"OK\0\0\0\0\0", &mut draw, &mut counts);
        }
    }
    counts.print("restarts, damaged");
    for number in [1, 2, 3, 4, 5, 6, 7, 14] {
        counts.refused_at_least(number, 500);
    }
}

/// A log that is carried on, breaks off again a few bytes later and is carried on again, to its end.
#[test]
fn one_restart_after_another() {
    let at = moment(2026, 7, 9, 640);
    for number in 0..200 {
        let mut draw = Draw::new("restarts, in a row", number);
        let book = drawn_book(&mut draw, at, draw::combined_small);
        let Some(Ok(log)) = reckoned(&book, at) else { continue };
        let (mut buffer, mut written) = (draw.bytes(LOG_ROOM), 0);
        let after = buffer[log.1.len()..].to_vec();
        while written < log.1.len() {
            same_at(why_engine::resume_log(&book, at, &mut buffer, written), Ok(log.0), "log", &book, at);
            assert_eq!(buffer, [&log.1[..], &after].concat());
            written = (written + draw.between(1, 5)).min(log.1.len());
            let lost = draw.bytes(log.1.len() - written);
            buffer[written..log.1.len()].copy_from_slice(&lost);
        }
        same_at(guarded::resume_log(&book, at, &buffer, written), Ok(log), "log", &book, at);
    }
}
