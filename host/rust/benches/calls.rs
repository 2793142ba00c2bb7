//! Times of the eight calls on every book of `bench/`: the archive's, and beside them the
//! yardstick's, the same search in plain Rust. All answers are compared first. With the argument
//! `quick` there are fewer rounds: `cargo bench --offline -- quick`. A log is carried on from its
//! half; once more from 0, from its half and from its end, with the archive's unbroken call beside
//! it.
//!
//! A call is timed through the safe wrapper, from the bytes to the answer, in processor time. In a
//! round both are called so often in a row that the archive takes about a millisecond; the first
//! round, of one call each, finds out how often. The rounds of one book and call are spread over
//! the whole run, and the two take turns in going first, so that a change of the machine's speed
//! meets both. The time of a call is that of its best round. Buffers are not cleared between calls;
//! before a round the log is put at the front, so that the calls which carry it on find it there.
mod yardstick;

use std::hint::black_box;
use std::path::Path;
use why_engine::{Date, Literals, Moment, Step, Window, MAX_LOG, MAX_RULES, MAX_WITHOUT_FACTS};

const ROUNDS: usize = 15;
const QUICK_ROUNDS: usize = 2;
/// What the archive takes in a round, in seconds.
const ROUND_TIME: f64 = 1e-3;
/// A call that takes longer is measured in one of so many rounds. An odd number, so that both go
/// first in turn.
const SLOW_ROUNDS: usize = 3;
/// A log that takes longer, in seconds, has a line of its own.
const LONG_LOG: f64 = 5e-3;
/// When the books are asked for. Their rules are in force whenever that is.
const NOW: Moment = Moment { date: date(7, 9), minute: 640 };

const fn date(month: u8, day: u8) -> Date {
    Date { year: 2026, month, day }
}

/// A book, its clauses as a DIMACS text, its V and facts, its log and the steps of it, and the times
/// of each call on it that is timed.
struct Case {
    name: String,
    book: Vec<u8>,
    text: Vec<u8>,
    variables: u64,
    facts: Literals,
    log: Vec<u8>,
    steps: u8,
    times: [Times; CALLS.len()],
}

impl Case {
    fn with_windows(&self) -> Case {
        Case {
            name: self.name.clone(),
            book: with_windows(&self.book),
            text: self.text.clone(),
            log: self.log.clone(),
            times: [Times::NONE; CALLS.len()],
            ..*self
        }
    }
}

/// The best times of a call on one book, in seconds.
#[derive(Clone, Copy)]
struct Times {
    archive: f64,
    yardstick: f64,
}

impl Times {
    const NONE: Times = Times { archive: f64::INFINITY, yardstick: f64::INFINITY };

    fn ratio(self) -> f64 {
        self.archive / self.yardstick
    }
}

/// One call of the archive or of the yardstick.
type Function = fn(&Case, &mut [u8]);

struct Call {
    name: &'static str,
    archive: Function,
    yardstick: Function,
}

/// `black_box` hides the arguments from the compiler and uses the answer: no call is left out.
macro_rules! call {
    ($name:ident, |$case:ident, $buffer:pat_param| $($argument:expr),*) => {
        Call {
            name: stringify!($name),
            archive: |$case, $buffer| {
                black_box(&why_engine::$name($(black_box($argument)),*));
            },
            yardstick: |$case, $buffer| {
                black_box(&yardstick::$name($(black_box($argument)),*));
            },
        }
    };
}

/// A log carried on from here, and beside it the unbroken call instead of the yardstick's.
macro_rules! carried_on {
    ($name:literal, |$case:ident| $written:expr) => {
        Call {
            name: $name,
            archive: |$case, buffer| {
                black_box(&why_engine::resume_log(black_box(&$case.book), NOW, buffer, black_box($written)));
            },
            yardstick: |case, buffer| {
                black_box(&why_engine::log(black_box(&case.book), NOW, buffer));
            },
        }
    };
}

const CALLS: [Call; 11] = [
    call!(read_book, |case, _| &case.book),
    call!(read_costs, |case, _| &case.book),
    call!(read_dimacs, |case, buffer| &case.text, buffer),
    call!(model, |case, _| &case.book, NOW),
    call!(consequence, |case, _| &case.book, NOW),
    call!(next_step, |case, _| &case.book, NOW, case.facts),
    call!(log, |case, buffer| &case.book, NOW, buffer),
    call!(resume_log, |case, buffer| &case.book, NOW, buffer, case.log.len() / 2),
    carried_on!("from 0", |case| 0),
    carried_on!("from the half", |case| case.log.len() / 2),
    carried_on!("from the end", |case| case.log.len()),
];
const ALL_CALLS: &[usize] = &[0, 1, 2, 3, 4, 5, LOG, 7];
const LOG: usize = 6;
/// The calls that are timed beside the unbroken one.
const CARRIED_ON: &[usize] = &[8, 9, 10];
/// What is timed where a window comes after each rule: the readers of a book, the first model and
/// the consequence. The others search as long as they do without windows.
const CALLS_WITH_WINDOWS: &[usize] = &[0, 1, 3, 4];

fn main() {
    let mut cases = read_cases();
    for case in &mut cases {
        (case.log, case.steps) = compare_answers(case);
    }
    println!("All answers of archive and yardstick are equal.");
    let mut windowed: Vec<Case> = cases.iter().map(Case::with_windows).collect();
    let quick = std::env::args().any(|argument| argument == "quick");
    let rounds = if quick { QUICK_ROUNDS } else { ROUNDS };
    for round in 0..rounds {
        measure(&mut cases, ALL_CALLS, round);
        measure(&mut cases, CARRIED_ON, round);
        measure(&mut windowed, CALLS_WITH_WINDOWS, round);
    }
    let (slow, limit) = (rounds.div_ceil(SLOW_ROUNDS), shown(ROUND_TIME));
    println!("Processor time, best of {rounds} rounds, or of {slow} where a call takes over {limit}.");
    let all: Vec<&Case> = cases.iter().collect();
    let (narrow, wide): (Vec<&Case>, Vec<&Case>) = all.iter().partition(|case| case.variables <= 32);
    print_calls("All", &all, ALL_CALLS, "yardstick");
    print_calls("V 32, U 20", &narrow, ALL_CALLS, "yardstick");
    print_calls("V 48, U 32", &wide, ALL_CALLS, "yardstick");
    let windowed: Vec<&Case> = windowed.iter().collect();
    print_calls("All, with a window after each rule", &windowed, CALLS_WITH_WINDOWS, "yardstick");
    print_calls("All, a log carried on beside the unbroken call", &all, CARRIED_ON, "unbroken");
    print_long_logs(&cases);
}

fn read_cases() -> Vec<Case> {
    let folder = Path::new(env!("CARGO_MANIFEST_DIR")).join("../../bench");
    let files = std::fs::read_dir(folder).expect("the folder of the books");
    let mut paths: Vec<_> = files.map(|file| file.unwrap().path()).collect();
    paths.retain(|path| path.extension().is_some_and(|end| end == "book"));
    paths.sort();
    paths.iter().map(|path| read_case(path)).collect()
}

fn read_case(path: &Path) -> Case {
    let bytes = std::fs::read(path).expect("a book");
    let book = why_engine::read_book(&bytes).expect("a book that is not refused");
    Case {
        name: path.file_stem().unwrap().to_string_lossy().into_owned(),
        book: bytes,
        text: dimacs_text(&book),
        variables: book.variables,
        facts: book.facts,
        log: Vec::new(),
        steps: 0,
        times: [Times::NONE; CALLS.len()],
    }
}

fn dimacs_text(book: &why_engine::Book) -> Vec<u8> {
    let mut text = format!("p cnf {} {}\n", book.variables, book.rules);
    for rule in 0..book.rules as usize {
        for v in 0..book.variables {
            if book.rules_yes[rule] >> v & 1 == 1 {
                text += &format!("{} ", v + 1);
            }
            if book.rules_no[rule] >> v & 1 == 1 {
                text += &format!("-{} ", v + 1);
            }
        }
        text += "0\n";
    }
    text.into_bytes()
}

/// Asserts that both give equal answers: each call, each byte of the buffers, each step on the way
/// of the log. Answers the log and the number of its steps.
fn compare_answers(case: &Case) -> (Vec<u8>, u8) {
    compare_readers(&case.book, &case.text);
    compare_refusals(&case.book, &case.text);
    compare_windows(case);
    let (log, steps) = compare_steps(&case.book, case.facts);
    compare_carried_on(&case.book, &log, steps);
    (log, steps)
}

fn compare_steps(book: &[u8], facts: Literals) -> (Vec<u8>, u8) {
    compare_models(book, NOW);
    let (mut one, mut other) = ([0xee; MAX_LOG], [0xee; MAX_LOG]);
    let log = why_engine::log(book, NOW, &mut one);
    assert_eq!(log, yardstick::log(book, NOW, &mut other));
    assert_eq!(one, other);
    let log = log.expect("a log");
    let none = Literals { yes: 0, no: 0 };
    assert_eq!(why_engine::next_step(book, NOW, none), yardstick::next_step(book, NOW, none));
    let mut known = facts;
    loop {
        let step = why_engine::next_step(book, NOW, known);
        assert_eq!(step, yardstick::next_step(book, NOW, known));
        let Ok(Step::Next { new, .. }) = step else {
            return (one[..log.size].to_vec(), log.steps);
        };
        known = Literals { yes: known.yes | new.yes, no: known.no | new.no };
    }
}

/// A log that broke off in the middle, with junk behind; the same with the last byte before the break
/// wrong, and with a number that is too large.
fn compare_carried_on(book: &[u8], log: &[u8], steps: u8) {
    let (size, half) = (log.len(), log.len() / 2);
    let mut whole = [0xee; MAX_LOG];
    whole[..size].copy_from_slice(log);
    let mut broken = whole;
    broken[half..size].fill(0x77);
    let mut wrong = broken;
    wrong[half - 1] ^= 1;
    for (found, written, left) in [(broken, half, whole), (wrong, half, wrong), (whole, size + 1, whole)] {
        let (mut one, mut other) = (found, found);
        let carried_on = why_engine::resume_log(book, NOW, &mut one, written);
        assert_eq!(carried_on, yardstick::resume_log(book, NOW, &mut other, written));
        assert_eq!((one, other), (left, left));
        let about = carried_on.map(|log| (log.size, log.steps)).map_err(|refusal| refusal.number);
        assert_eq!(about, if found == broken { Ok((size, steps)) } else { Err(15) });
    }
}

/// The calls that search for models only.
fn compare_models(book: &[u8], at: Moment) {
    assert_eq!(why_engine::model(book, at), yardstick::model(book, at));
    assert_eq!(why_engine::consequence(book, at), yardstick::consequence(book, at));
    assert_eq!(why_engine::log(book, at, &mut []), yardstick::log(book, at, &mut []));
    assert_eq!(why_engine::resume_log(book, at, &mut [], 1), yardstick::resume_log(book, at, &mut [], 1));
}

/// The same book with a window after each rule: now, when all rules are in force, at moments when
/// some are not, and at such as there are none.
fn compare_windows(case: &Case) {
    let book = with_windows(&case.book);
    compare_readers(&book, &case.text);
    compare_refusals(&book, &case.text);
    compare_steps(&book, case.facts);
    for date in [(6, 10), (7, 8), (7, 10), (7, 12), (8, 6), (8, 9), (13, 9), (6, 31)].map(|(m, d)| date(m, d)) {
        compare_models(&book, Moment { date, ..NOW });
    }
    for minute in [638, 639, 641, 642, 1440] {
        compare_models(&book, Moment { minute, ..NOW });
        compare_models(&book[1..], Moment { minute, ..NOW });
    }
}

/// The window of a rule. Each is open now, a Thursday, and some for a day or a minute only.
fn window(rule: usize) -> Window {
    let of_two = |every| usize::from(rule % every == 0);
    Window {
        first_day: [date(6, 10), date(7, 9)][of_two(2)],
        end_day: [date(8, 9), date(7, 10)][of_two(3)],
        weekdays: [127, 0b1001000][of_two(5)],
        first_minute: [639, 640][of_two(7)],
        end_minute: [642, 641][of_two(11)],
    }
}

fn with_windows(book: &[u8]) -> Vec<u8> {
    let (mut rest, mut wider, mut rules) = (book, Vec::new(), 0);
    while let Some(&letter) = rest.first() {
        let size = match letter {
            b'H' => 5,
            b'C' => 7,
            b'R' => 3 + usize::from(rest[2]),
            b'F' => 3,
            _ => 2,
        };
        wider.extend_from_slice(&rest[..size]);
        rest = &rest[size..];
        if letter == b'R' {
            put_window(&mut wider, window(rules));
            rules += 1;
        }
    }
    wider
}

fn put_window(bytes: &mut Vec<u8>, window: Window) {
    bytes.extend(b"WN");
    for date in [window.first_day, window.end_day] {
        bytes.extend(date.year.to_be_bytes());
        bytes.extend([date.month, date.day]);
    }
    bytes.push(window.weekdays);
    bytes.extend(window.first_minute.to_be_bytes());
    bytes.extend(window.end_minute.to_be_bytes());
}

fn compare_readers(book: &[u8], text: &[u8]) {
    assert_eq!(why_engine::read_book(book), yardstick::read_book(book).map(as_masks));
    assert_eq!(why_engine::read_costs(book), yardstick::read_costs(book));
    let (mut one, mut other) = ([0xee; MAX_WITHOUT_FACTS], [0xee; MAX_WITHOUT_FACTS]);
    let size = why_engine::read_dimacs(text, &mut one);
    assert_eq!(size, yardstick::read_dimacs(text, &mut other));
    assert_eq!(one, other);
}

/// The yardstick must make every check that the archive makes: shorter and changed bytes are
/// refused alike. Every fifth place will do, over so many books.
fn compare_refusals(book: &[u8], text: &[u8]) {
    for i in (0..book.len().min(text.len())).step_by(5) {
        compare_readers(&book[..i], &text[..i]);
        for change in [1, 0x80] {
            let (mut book, mut text) = (book.to_vec(), text.to_vec());
            book[i] = book[i].wrapping_add(change);
            text[i] = text[i].wrapping_add(change);
            compare_readers(&book, &text);
        }
    }
}

/// The yardstick's book in the form of the archive's.
fn as_masks(book: yardstick::Book) -> why_engine::Book {
    let (mut rules_yes, mut rules_no) = ([0; MAX_RULES], [0; MAX_RULES]);
    for (i, clause) in book.clauses.iter().enumerate() {
        (rules_yes[i], rules_no[i]) = (clause.yes, clause.no);
    }
    let mut windows = [None; MAX_RULES];
    windows[..book.windows.len()].copy_from_slice(&book.windows);
    why_engine::Book {
        variables: book.variables.into(),
        choices: book.choices.count_ones().into(),
        rules: book.clauses.len() as u64,
        rules_yes,
        rules_no,
        windows,
        facts: book.facts,
    }
}

/// One round of these calls on every book.
fn measure(cases: &mut [Case], calls: &[usize], round: usize) {
    let mut buffer = [0; MAX_WITHOUT_FACTS];
    for case in cases {
        for &i in calls {
            buffer[..case.log.len()].copy_from_slice(&case.log);
            let slow = case.times[i].archive > ROUND_TIME;
            if !slow || round % SLOW_ROUNDS == 0 {
                case.times[i] = measure_round(&CALLS[i], case, case.times[i], round, &mut buffer);
            }
        }
    }
}

/// The best times after one round more.
fn measure_round(call: &Call, case: &Case, best: Times, round: usize, buffer: &mut [u8]) -> Times {
    let repetitions = (ROUND_TIME / best.archive).ceil().max(1.0) as u32;
    let mut time = |function| seconds_a_call(function, case, buffer, repetitions);
    let (mut archive, mut yardstick) = (best.archive, best.yardstick);
    let yardstick_first = round % 2 == 1;
    if yardstick_first {
        yardstick = yardstick.min(time(call.yardstick));
    }
    archive = archive.min(time(call.archive));
    if !yardstick_first {
        yardstick = yardstick.min(time(call.yardstick));
    }
    Times { archive, yardstick }
}

fn seconds_a_call(function: Function, case: &Case, buffer: &mut [u8], repetitions: u32) -> f64 {
    let start = processor_time();
    for _ in 0..repetitions {
        function(case, buffer);
    }
    (processor_time() - start) / f64::from(repetitions)
}

/// The seconds that this thread has had a processor. `Instant` would also count the time for which
/// other programs interrupt a long call.
fn processor_time() -> f64 {
    extern "C" {
        fn clock_gettime(clock: i32, time: *mut [i64; 2]) -> i32;
    }
    const CLOCK_THREAD_CPUTIME_ID: i32 = 3;
    let mut time = [0; 2];
    // Seconds and nanoseconds, as 64-bit Linux has them. The call writes to nothing else.
    let returned = unsafe { clock_gettime(CLOCK_THREAD_CPUTIME_ID, &mut time) };
    assert_eq!(returned, 0);
    time[0] as f64 + time[1] as f64 * 1e-9
}

/// Microseconds or milliseconds.
fn shown(seconds: f64) -> String {
    if seconds < 1e-3 {
        format!("{:.2} us", seconds * 1e6)
    } else {
        format!("{:.2} ms", seconds * 1e3)
    }
}

/// One line for each call: the sums over the books, the geometric mean of their ratios, and the
/// book on which the archive takes longest.
fn print_calls(title: &str, cases: &[&Case], calls: &[usize], beside: &str) {
    println!("\n{title}: {} books", cases.len());
    println!("call              archive  {beside:>11}  ratio  mean ratio  slowest book");
    for &i in calls {
        let times: Vec<Times> = cases.iter().map(|case| case.times[i]).collect();
        let archive: f64 = times.iter().map(|times| times.archive).sum();
        let yardstick: f64 = times.iter().map(|times| times.yardstick).sum();
        let logarithms: f64 = times.iter().map(|times| times.ratio().ln()).sum();
        let mean = (logarithms / times.len() as f64).exp();
        let longest = |a: &&&Case, b: &&&Case| a.times[i].archive.total_cmp(&b.times[i].archive);
        let slowest = cases.iter().max_by(longest).expect("a book");
        println!(
            "{:13} {:>11}  {:>11}  {:5.2}  {mean:10.2}  {}, {}, ratio {:.2}",
            CALLS[i].name,
            shown(archive),
            shown(yardstick),
            archive / yardstick,
            slowest.name,
            shown(slowest.times[i].archive),
            slowest.times[i].ratio(),
        );
    }
}

fn print_long_logs(cases: &[Case]) {
    println!("\nLogs over {} in the archive", shown(LONG_LOG));
    println!("book  steps      archive    yardstick  ratio");
    for case in cases {
        let log = case.times[LOG];
        if log.archive > LONG_LOG {
            let (archive, yardstick) = (shown(log.archive), shown(log.yardstick));
            let (name, steps, ratio) = (&case.name, case.steps, log.ratio());
            println!("{name:4}  {steps:5}  {archive:>11}  {yardstick:>11}  {ratio:5.2}");
        }
    }
}
