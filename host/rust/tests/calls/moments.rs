//! Every day and every minute that there is, and what is close to being one: of the call's moment and in WN records.
use crate::compare::{same_at, Comparison, Counts};
use crate::draw::{Draw, Order};
use crate::guarded;
use crate::reckoning::dates::{self, calendar, date, moment, MINUTES};
use crate::reckoning::{refusal, LOG_ROOM, NO_LITERALS};
use crate::seasons::record;
use why_engine::{Date, Literals, Moment, Window};

const ALWAYS: Window = Window {
    first_day: date(2000, 1, 1),
    end_day: date(2099, 12, 31),
    weekdays: 127,
    first_minute: 0,
    end_minute: MINUTES,
};

/// A book in which rule v asks for choice v, in the window of this place: what is filled in tells which rules are in force.
fn timetable(windows: &[Window]) -> Vec<u8> {
    let count = windows.len();
    let rules = (1..=count as i8).map(|v| vec![v]).collect();
    let windows = windows.iter().copied().map(Some).collect();
    Order { variables: count, choices: count, costs: vec![[5, 9]; count], rules, windows, facts: vec![] }.bytes()
}

/// The rules of a timetable that the engine has in force, by two calls.
fn rules_in_force(book: &[u8], at: Moment) -> u64 {
    let model = guarded::model(book, at).unwrap();
    same_at(guarded::consequence(book, at), Ok(Literals { yes: model, no: 0 }), "consequence", book, at);
    model
}

/// Holds the rules in force against the reckoning, and answers them.
fn compare(windows: &[Window], book: &[u8], at: Moment) -> u64 {
    let bits = windows.iter().enumerate().map(|(i, &window)| u64::from(dates::in_force(Some(window), at)) << i);
    let expected = bits.sum();
    same_at(rules_in_force(book, at), expected, "rules in force", book, at);
    expected
}

/// Each weekday by itself, on every day of the hundred years.
#[test]
fn every_weekday() {
    let windows: Vec<Window> = (0..7).map(|weekday| Window { weekdays: 1 << weekday, ..ALWAYS }).collect();
    let book = timetable(&windows);
    let mut met = [0; 7];
    for day in calendar() {
        let in_force = compare(&windows, &book, Moment { date: day.date, minute: 720 });
        (0..7).for_each(|weekday| met[weekday] += in_force >> weekday & 1);
    }
    // The last day is the end day.
    assert_eq!(met.iter().sum::<u64>(), 36_524);
    assert_eq!(rules_in_force(&book, moment(2000, 1, 1, 0)), 1 << 5);
    assert_eq!(rules_in_force(&book, moment(2024, 2, 29, 0)), 1 << 3);
}

/// Windows that begin or end on the day, the day before or the day after, on every day.
#[test]
fn every_day() {
    let days = calendar();
    let last = days.len() - 1;
    for today in 0..=last {
        let near = [0, today.saturating_sub(1), today, (today + 1).min(last), (today + 2).min(last), last];
        let mut windows = Vec::new();
        for (i, &first) in near.iter().enumerate() {
            let ends = near[i..].iter().filter(|&&end| end > first);
            windows.extend(ends.map(|&end| Window { first_day: days[first].date, end_day: days[end].date, ..ALWAYS }));
        }
        let book = timetable(&windows);
        let in_force = compare(&windows, &book, Moment { date: days[today].date, minute: 0 });
        assert!(in_force != 0 || today == last);
    }
}

/// Windows that begin or end in the minute, the minute before or the minute after, in every minute.
#[test]
fn every_minute() {
    for now in 0..MINUTES {
        let near = [0, now.saturating_sub(1), now, now + 1, (now + 2).min(MINUTES), MINUTES];
        let mut windows = Vec::new();
        for (i, &first_minute) in near.iter().enumerate() {
            let ends = near[i..].iter().filter(|&&end| end > first_minute);
            windows.extend(ends.map(|&end_minute| Window { first_minute, end_minute, ..ALWAYS }));
        }
        let in_force = compare(&windows, &timetable(&windows), moment(2026, 7, 9, now));
        assert!(in_force != 0);
    }
}

/// The call's moment on a good and on a damaged book: 14 comes before what the book is answered.
fn judge(at: Moment) -> bool {
    let possible = dates::is_moment(at);
    let (good, damaged) = (b"HD\0\0\0EN", b"HD\0\0\0FX");
    let expected = if possible { Ok(0) } else { Err(refusal(14, 0)) };
    same_at(guarded::model(good, at), expected, "model", good, at);
    let expected = refusal(if possible { 2 } else { 14 }, if possible { 5 } else { 0 });
    same_at(guarded::consequence(damaged, at), Err(expected), "consequence", damaged, at);
    same_at(guarded::next_step(damaged, at, NO_LITERALS), Err(expected), "step", damaged, at);
    same_at(guarded::log(damaged, at, LOG_ROOM), Err(expected), "log", damaged, at);
    possible
}

#[test]
fn every_field_of_a_moment() {
    let years = (0..=u16::MAX).filter(|&year| judge(moment(year, 12, 31, 1439))).count();
    let leap_years = (0..=u16::MAX).filter(|&year| judge(moment(year, 2, 29, 0))).count();
    let minutes = (0..=u16::MAX).filter(|&minute| judge(moment(2024, 2, 29, minute))).count();
    assert_eq!([years, leap_years, minutes], [100, 25, 1440]);
    for (year, count) in [(1999, 0), (2000, 366), (2001, 365), (2024, 366), (2099, 365), (2100, 0)] {
        let months = (0..=u8::MAX).flat_map(|month| (0..=u8::MAX).map(move |day| (month, day)));
        let days = months.filter(|&(month, day)| judge(moment(year, month, day, 0))).count();
        assert_eq!(days, count, "days of {year}");
    }
}

/// Compares every call on a book with these windows.
fn compare_windows(windows: [Window; 2], at: Moment, draw: &mut Draw, counts: &mut Counts) {
    let rules = vec![vec![1], vec![2]];
    let windows = windows.map(Some).to_vec();
    let order = Order { variables: 2, choices: 2, costs: vec![[5, 9]; 2], rules, windows, facts: vec![] };
    Comparison { bytes: &order.bytes(), at, draw, counts, limit: 0 }.every_call();
}

/// Each byte of two WN records in a row of records, with every value.
#[test]
fn every_byte_of_a_window() {
    let thursday = Window {
        first_day: date(2024, 2, 29),
        end_day: date(2024, 3, 1),
        weekdays: 8,
        first_minute: 540,
        end_minute: 1080,
    };
    // In force, and out of force by each end alone.
    let moments =
        [moment(2024, 2, 29, 540), moment(2024, 2, 22, 540), moment(2024, 3, 7, 540), moment(2024, 2, 29, 1080)];
    let mut draw = Draw::new("every byte of a window", 0);
    let mut counts = Counts::default();
    let front = b"HD\x02\x02\x02CS\x01\0\x05\0\x09CS\x02\0\x05\0\x09";
    let bytes = [front, &b"RL\x01\x01"[..], &record(thursday), b"RL\x01\x02", &record(ALWAYS), b"EN"].concat();
    let (first, second) = (front.len() + 4, front.len() + 4 + 15 + 4);
    for place in (first..first + 15).chain(second..second + 15) {
        for value in 0..=u8::MAX {
            let mut bytes = bytes.clone();
            bytes[place] = value;
            for at in moments {
                Comparison { bytes: &bytes, at, draw: &mut draw, counts: &mut counts, limit: 0 }.every_call();
            }
        }
    }
    counts.print("every byte of a window");
    counts.at_least(&[("books", 30_000), ("books refused for a window", 20_000), ("consequences", 5_000)]);
}

/// Dates of which each is an end of a month or next to one, or no date.
fn dates_at_edges() -> Vec<Date> {
    let mut dates = Vec::new();
    for year in [1999, 2000, 2023, 2024, 2099, 2100] {
        for (month, day) in [(0, 1), (1, 0), (1, 1), (2, 28), (2, 29), (2, 30), (3, 1), (4, 31), (12, 31), (12, 32)] {
            dates.push(date(year, month, day));
        }
    }
    dates.extend([date(2024, 13, 1), date(2024, 255, 1), date(2024, 11, 30), date(2024, 10, 31), date(0, 1, 1)]);
    dates
}

/// All pairs of first day and end day.
#[test]
fn pairs_of_days() {
    let mut draw = Draw::new("pairs of days", 0);
    let mut counts = Counts::default();
    let dates = dates_at_edges();
    for &first_day in &dates {
        for &end_day in &dates {
            let window = Window { first_day, end_day, ..ALWAYS };
            for at in [moment(2000, 1, 1, 0), moment(2024, 2, 29, 720), moment(2099, 12, 31, 1439)] {
                compare_windows([window, ALWAYS], at, &mut draw, &mut counts);
                compare_windows([ALWAYS, window], at, &mut draw, &mut counts);
            }
        }
    }
    counts.print("pairs of days");
    counts.at_least(&[("books refused for a window", 20_000), ("consequences", 1_000), ("edge: on the end day", 50)]);
}

/// All pairs of first minute and end minute around the edges of their bytes and of the day, with all weekdays.
#[test]
fn pairs_of_minutes() {
    let mut draw = Draw::new("pairs of minutes", 0);
    let mut counts = Counts::default();
    let minutes = [0, 1, 2, 254, 255, 256, 257, 511, 512, 719, 720, 721, 1438, 1439, 1440, 1441, 1696, 32768, 65535];
    for first_minute in minutes {
        for end_minute in minutes {
            let window = Window { first_minute, end_minute, ..ALWAYS };
            for minute in minutes.into_iter().filter(|&minute| minute < MINUTES) {
                compare_windows([ALWAYS, window], moment(2024, 2, 29, minute), &mut draw, &mut counts);
            }
        }
    }
    for weekdays in 0..=u8::MAX {
        for day in 1..=7 {
            let window = Window { weekdays, ..ALWAYS };
            compare_windows([window, ALWAYS], moment(2000, 1, day, 0), &mut draw, &mut counts);
        }
    }
    counts.print("pairs of minutes");
    counts.at_least(&[("books refused for a window", 3_000), ("consequences", 1_500)]);
    counts.at_least(&[("out of force by the weekday alone", 440), ("edge: in the end minute", 50)]);
}
