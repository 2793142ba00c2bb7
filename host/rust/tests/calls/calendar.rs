//! The reckoning's own dates, before they are held against the engine's.
use crate::reckoning::dates::{calendar, conditions, date, in_force, is_moment, is_window, moment, place};
use why_engine::{Date, Window};

/// The calendar against what is known of these hundred years without counting.
#[test]
fn days_and_weekdays() {
    let days = calendar();
    assert_eq!(days.len(), 100 * 365 + 25);
    let count = |month, day| days.iter().filter(|d| (d.date.month, d.date.day) == (month, day)).count();
    let lengths = [31, 28, 31, 30, 31, 30, 31, 31, 30, 31, 30, 31];
    for (month, last) in (1..).zip(lengths) {
        assert!((1..=last).all(|day| count(month, day) == 100));
        assert_eq!(count(month, last + 1), if month == 2 { 25 } else { 0 });
        assert_eq!([count(month, 0), count(month, last + 2)], [0, 0]);
    }
    // Monday is 0.
    let known = [
        ((2000, 1, 1), 5),
        ((2000, 2, 28), 0),
        ((2000, 2, 29), 1),
        ((2000, 3, 1), 2),
        ((2000, 12, 31), 6),
        ((2004, 2, 29), 6),
        ((2020, 2, 29), 5),
        ((2024, 2, 29), 3),
        ((2026, 11, 17), 1),
        ((2038, 1, 19), 1),
        ((2099, 2, 28), 5),
        ((2099, 3, 1), 6),
        ((2099, 12, 31), 3),
    ];
    for ((year, month, day), weekday) in known {
        let place = place(date(year, month, day)).expect("a date");
        assert_eq!(days[place].weekday, weekday, "{year}-{month}-{day}");
    }
}

/// Zeller's congruence, which counts no days, on every day.
#[test]
fn weekdays_by_formula() {
    for day in calendar() {
        let Date { year, month, day: d } = day.date;
        // January and February belong to the year before, as its months 13 and 14.
        let (y, m) = if month < 3 { (u32::from(year) - 1, u32::from(month) + 12) } else { (year.into(), month.into()) };
        let from_saturday = (u32::from(d) + 13 * (m + 1) / 5 + y + y / 4 - y / 100 + y / 400) % 7;
        assert_eq!(day.weekday, (from_saturday + 5) % 7, "{:?}", day.date);
    }
}

/// Every year, month and day around the possible ones.
#[test]
fn dates_that_are_none() {
    let mut dates = 0;
    for year in (1990..=2110).chain([0, 1, 208, 255, 256, 2256, 65535]) {
        for month in 0..=255 {
            for day in 0..=255 {
                let length = match month {
                    1 | 3 | 5 | 7 | 8 | 10 | 12 => 31,
                    2 => 28 + u8::from(year % 4 == 0),
                    4 | 6 | 9 | 11 => 30,
                    _ => 0,
                };
                let possible = (2000..2100).contains(&year) && day >= 1 && day <= length;
                assert_eq!(place(date(year, month, day)).is_some(), possible, "{year}-{month}-{day}");
                dates += u32::from(possible);
            }
        }
    }
    assert_eq!(dates, 36_525);
}

/// What a window asks for, on and around a Thursday at its opening hours.
#[test]
fn windows_by_hand() {
    let (first_day, end_day) = (date(2024, 2, 29), date(2024, 3, 1));
    let thursday = Window { first_day, end_day, weekdays: 8, first_minute: 540, end_minute: 1080 };
    assert!(is_window(thursday));
    for (at, expected) in [
        (moment(2024, 2, 29, 540), [true; 5]),
        (moment(2024, 2, 29, 1079), [true; 5]),
        (moment(2024, 2, 29, 539), [true, true, true, false, true]),
        (moment(2024, 2, 29, 1080), [true, true, true, true, false]),
        (moment(2024, 2, 28, 540), [false, true, false, true, true]),
        (moment(2024, 2, 22, 540), [false, true, true, true, true]),
        (moment(2024, 3, 1, 540), [true, false, false, true, true]),
        (moment(2024, 3, 7, 540), [true, false, true, true, true]),
    ] {
        assert_eq!(conditions(thursday, at), expected, "{at:?}");
        assert_eq!(in_force(Some(thursday), at), expected == [true; 5]);
        assert!(in_force(None, at));
    }
    let no_thursday = Window { weekdays: 119, ..thursday };
    assert_eq!(conditions(no_thursday, moment(2024, 2, 29, 540)), [true, true, false, true, true]);
}

#[test]
fn windows_and_moments_that_are_none() {
    let (first_day, end_day) = (date(2024, 2, 29), date(2024, 3, 1));
    let thursday = Window { first_day, end_day, weekdays: 8, first_minute: 540, end_minute: 1080 };
    for wrong in [
        Window { end_day: first_day, ..thursday },
        Window { end_day: date(2024, 2, 28), ..thursday },
        Window { end_day: date(2024, 2, 30), ..thursday },
        Window { end_day: date(2100, 1, 1), ..thursday },
        Window { first_day: date(2023, 2, 29), ..thursday },
        Window { first_day: date(1999, 12, 31), ..thursday },
        Window { weekdays: 0, ..thursday },
        Window { weekdays: 128, ..thursday },
        Window { first_minute: 1080, ..thursday },
        Window { first_minute: 1440, end_minute: 1440, ..thursday },
        Window { first_minute: 1440, end_minute: 1441, ..thursday },
        Window { end_minute: 1441, ..thursday },
    ] {
        assert!(!is_window(wrong), "{wrong:?}");
    }
    assert!(is_window(Window { weekdays: 127, first_minute: 1439, end_minute: 1440, ..thursday }));
    for right in [moment(2000, 1, 1, 0), moment(2000, 2, 29, 1439), moment(2099, 12, 31, 1439)] {
        assert!(is_moment(right), "{right:?}");
    }
    for wrong in [moment(2024, 2, 29, 1440), moment(2024, 2, 30, 0), moment(2023, 2, 29, 0), moment(2100, 1, 1, 0)] {
        assert!(!is_moment(wrong), "{wrong:?}");
    }
}
