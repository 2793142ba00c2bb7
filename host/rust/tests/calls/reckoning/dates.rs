//! Dates, moments and windows, by E7. Every day of the years 2000 to 2099 stands in one list, counted off day by day from Saturday, 1 January 2000: a
//! date that is not in it is impossible, and one that stands before another is earlier.
use std::sync::OnceLock;
use why_engine::{Date, Moment, Window};

/// The minutes of a day.
pub const MINUTES: u16 = 24 * 60;

pub const fn date(year: u16, month: u8, day: u8) -> Date {
    Date { year, month, day }
}

pub const fn moment(year: u16, month: u8, day: u8, minute: u16) -> Moment {
    Moment { date: date(year, month, day), minute }
}

/// A day and its weekday, 0 for Monday.
#[derive(Clone, Copy)]
pub struct Day {
    pub date: Date,
    pub weekday: u32,
}

/// All days, in turn.
pub fn calendar() -> &'static [Day] {
    static DAYS: OnceLock<Vec<Day>> = OnceLock::new();
    DAYS.get_or_init(count_off)
}

fn count_off() -> Vec<Day> {
    let saturday = 5;
    let mut today = Day { date: date(2000, 1, 1), weekday: saturday };
    let mut days = Vec::new();
    while today.date.year < 2100 {
        days.push(today);
        today = tomorrow(today);
    }
    days
}

fn tomorrow(today: Day) -> Day {
    let Date { year, month, day } = today.date;
    let date = match (month, day) {
        (12, 31) => date(year + 1, 1, 1),
        _ if day == last_day(year, month) => date(year, month + 1, 1),
        _ => date(year, month, day + 1),
    };
    let sunday = 6;
    let weekday = if today.weekday == sunday { 0 } else { today.weekday + 1 };
    Day { date, weekday }
}

/// The last day of a month.
fn last_day(year: u16, month: u8) -> u8 {
    let leap = if year % 100 == 0 { year % 400 == 0 } else { year % 4 == 0 };
    match month {
        4 | 6 | 9 | 11 => 30,
        2 if leap => 29,
        2 => 28,
        _ => 31,
    }
}

/// The place of a date in the calendar, if it is there.
pub fn place(date: Date) -> Option<usize> {
    let key = |date: Date| (date.year, date.month, date.day);
    calendar().binary_search_by_key(&key(date), |day| key(day.date)).ok()
}

pub fn is_moment(at: Moment) -> bool {
    place(at.date).is_some() && at.minute < MINUTES
}

pub fn is_window(window: Window) -> bool {
    let (Some(first), Some(end)) = (place(window.first_day), place(window.end_day)) else { return false };
    let days = first < end && (1..=127).contains(&window.weekdays);
    days && window.first_minute < MINUTES && window.first_minute < window.end_minute && window.end_minute <= MINUTES
}

/// What a window asks of a moment: not before the first day, before the end day, one of the weekdays, not before the first minute, before the end
/// minute.
pub fn conditions(window: Window, at: Moment) -> [bool; 5] {
    let [first, end, today] = [window.first_day, window.end_day, at.date].map(|date| place(date).expect("a date"));
    let weekday = calendar()[today].weekday;
    [
        first <= today,
        today < end,
        window.weekdays >> weekday & 1 == 1,
        window.first_minute <= at.minute,
        at.minute < window.end_minute,
    ]
}

/// Whether a rule with this window, or with none, is in force.
pub fn in_force(window: Option<Window>, at: Moment) -> bool {
    window.is_none_or(|window| conditions(window, at) == [true; 5])
}
