//! Every call on drawn books.
use crate::compare::{Comparison, Counts};
use crate::draw::{self, Draw, Order};
use crate::reckoning::reader;
use crate::seasons::seasonal;
use std::sync::Barrier;
use why_engine::{Moment, Window};

/// Makes the bytes of a book whose windows, if it has any, are close to the moment.
type Maker = fn(&mut Draw, Moment) -> Vec<u8>;

/// The kinds of books and how many are drawn of each.
const KINDS: [(&str, u64, Maker); 10] = [
    ("plain", 24_000, |draw, at| in_season(draw, at, draw::plain)),
    ("small", 30_000, |draw, at| in_season(draw, at, draw::small)),
    ("combined", 30_000, |draw, at| in_season(draw, at, draw::combined_small)),
    ("spread", 24_000, |draw, at| in_season(draw, at, draw::spread)),
    ("contradictory", 3_000, |draw, at| in_season(draw, at, draw::contradictory)),
    ("damaged", 42_000, draw::damaged),
    ("noise", 8_000, draw::noise),
    ("large", 800, |draw, at| in_season(draw, at, draw::large)),
    ("combined large", 400, |draw, at| in_season(draw, at, draw::combined_large)),
    ("at the limits", 400, |draw, at| in_season(draw, at, draw::at_limits)),
];

/// How far the search goes in a large book before that book is left out.
const LIMIT: u64 = 100_000;

fn in_season(draw: &mut Draw, at: Moment, maker: fn(&mut Draw) -> Order) -> Vec<u8> {
    let order = maker(draw);
    seasonal(draw, order, at).bytes()
}

fn compare(bytes: &[u8], at: Moment, draw: &mut Draw, counts: &mut Counts) {
    Comparison { bytes, at, draw, counts, limit: LIMIT }.every_call();
}

/// A moment at an edge of one of the book's windows, if it has any.
fn edge(bytes: &[u8], draw: &mut Draw) -> Option<Moment> {
    let windows: Vec<Window> = reader::read(bytes).ok()?.windows.into_iter().flatten().collect();
    (!windows.is_empty()).then(|| {
        let window = draw.pick(&windows);
        draw.edge(window)
    })
}

/// The counts of two threads, which are told apart by 0 and 1.
fn in_two_threads(run: impl Fn(u64) -> Counts + Sync) -> Counts {
    std::thread::scope(|scope| {
        let other = scope.spawn(|| run(1));
        let mut counts = run(0);
        counts.merge(other.join().expect("the other thread"));
        counts
    })
}

/// The books of one kind.
fn compare_kind(kind: &str, count: u64, maker: Maker) -> Counts {
    let counts = in_two_threads(|half| {
        let mut counts = Counts::default();
        for number in (half..count).step_by(2) {
            let mut draw = Draw::new(kind, number);
            let at = draw.moment();
            let bytes = maker(&mut draw, at);
            compare(&bytes, at, &mut draw, &mut counts);
            if let Some(edge) = edge(&bytes, &mut draw) {
                compare(&bytes, edge, &mut draw, &mut counts);
                counts.add("books at a second moment", 1);
            }
        }
        counts
    });
    counts.print(kind);
    let left_out = counts.get("books over the limit");
    assert!(left_out * 20 <= counts.get("books by search"), "{kind}: {left_out} left out");
    counts
}

#[test]
fn every_call_on_drawn_books() {
    let mut counts = Counts::default();
    for (kind, count, maker) in KINDS {
        counts.merge(compare_kind(kind, count, maker));
    }
    counts.print("all drawn books");
    counts.at_least(&[
        ("books", 150_000),
        ("books by all fillings", 100_000),
        ("books by search", 1_400),
        ("books with several models", 40_000),
        ("first models that another order would change", 9_000),
        ("consequences", 100_000),
        ("logs", 100_000),
        ("logs of three steps or more", 5_000),
        ("logs by both reckonings", 9_000),
        ("nothing left", 250_000),
        ("steps", 200_000),
        ("steps that need a case split", 15_000),
        ("steps not to the lowest goal", 50_000),
        ("steps with two reasons or more", 40_000),
        ("steps with two new or more", 70_000),
        ("steps with some known unused", 150_000),
        ("ties settled by facts", 1_200),
        ("ties settled by goal", 30_000),
        ("ties settled by set", 12_000),
    ]);
    counts.at_least(&[
        ("books with windows", 150_000),
        ("books at a second moment", 80_000),
        ("longest books", 80),
        ("books refused for a window", 6_000),
        ("consequences that rules out of force would change", 45_000),
        ("in force in a window", 400_000),
        ("out of force by the first day alone", 60_000),
        ("out of force by the end day alone", 60_000),
        ("out of force by the weekday alone", 60_000),
        ("out of force by the first minute alone", 60_000),
        ("out of force by the end minute alone", 60_000),
        ("edge: on the day before", 35_000),
        ("edge: on the first day", 200_000),
        ("edge: on the last day", 200_000),
        ("edge: on the end day", 35_000),
        ("edge: in the minute before", 35_000),
        ("edge: in the first minute", 200_000),
        ("edge: in the last minute", 200_000),
        ("edge: in the end minute", 35_000),
    ]);
    let least = [1_500, 9_000, 7_000, 3_000, 2_500, 7_000, 2_500, 100_000, 6_000, 500_000, 0, 0, 0, 200_000];
    for (number, least) in (1..).zip(least) {
        counts.refused_at_least(number, least);
    }
}

/// Books that end at every byte, and with every byte changed, left out or put in.
#[test]
fn every_byte_of_a_book() {
    let mut counts = Counts::default();
    let mut number = 0;
    while counts.get("books") < 60_000 {
        let mut draw = Draw::new("every byte", number);
        let at = draw.moment();
        let maker = draw.pick(&[draw::plain, draw::small, draw::combined_small]);
        let bytes = in_season(&mut draw, at, maker);
        for place in 0..=bytes.len() {
            let (front, back) = bytes.split_at(place);
            let rest = back.get(1..).unwrap_or(&[]);
            let (old, any) = (back.first().copied().unwrap_or(0), draw.next() as u8);
            let byte = [draw.pick(&[any, any % 64, 0, old ^ 1, old.wrapping_neg()])];
            for changed in [&[&[][..], &[]], &[&byte, &[]], &[&[], rest], &[&byte, rest], &[&byte, back]] {
                compare(&[front, changed[0], changed[1]].concat(), at, &mut draw, &mut counts);
            }
        }
        number += 1;
    }
    counts.print("every byte");
    counts.at_least(&[("books with windows", 2_000), ("books refused for a window", 10_000)]);
    for (number, least) in (1..).zip([9_000, 9_000, 300, 2_000, 1_000, 5_000, 200]) {
        counts.refused_at_least(number, least);
    }
}

#[test]
fn two_threads_at_once() {
    let start = Barrier::new(2);
    let counts = in_two_threads(|_| {
        let mut counts = Counts::default();
        start.wait();
        for number in 0..1_000 {
            let mut draw = Draw::new("two threads", number);
            let at = draw.moment();
            let bytes = in_season(&mut draw, at, draw::combined_small);
            compare(&bytes, at, &mut draw, &mut counts);
        }
        counts
    });
    counts.print("two threads");
    counts.at_least(&[("books", 2_000), ("steps", 5_000)]);
}
