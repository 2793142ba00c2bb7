//! Dates, moments and windows: which of them there are, and when a window is open.
use super::refusal;
use why_engine::{Date, Moment, Refusal, Window};

/// The days of the months, of February where the year is no leap year.
const MONTH_LENGTHS: [u8; 12] = [31, 28, 31, 30, 31, 30, 31, 31, 30, 31, 30, 31];
const MINUTES_OF_A_DAY: u16 = 1440;
const ALL_WEEKDAYS: u8 = 127;

fn is_leap(year: u16) -> bool {
    year % 4 == 0 && (year % 100 != 0 || year % 400 == 0)
}

fn month_length(year: u16, month: u8) -> u8 {
    MONTH_LENGTHS[usize::from(month) - 1] + u8::from(month == 2 && is_leap(year))
}

fn is_date(date: Date) -> bool {
    let Date { year, month, day } = date;
    (2000..=2099).contains(&year) && (1..=12).contains(&month) && (1..=month_length(year, month)).contains(&day)
}

/// A date as what is compared.
fn key(date: Date) -> (u16, u8, u8) {
    (date.year, date.month, date.day)
}

/// 0 for Monday. 1 January 2000 was a Saturday.
fn weekday(date: Date) -> u32 {
    let years: u32 = (2000..date.year).map(|year| 365 + u32::from(is_leap(year))).sum();
    let months: u32 = (1..date.month).map(|month| u32::from(month_length(date.year, month))).sum();
    (5 + years + months + u32::from(date.day) - 1) % 7
}

pub fn is_window(window: Window) -> bool {
    let Window { first_day, end_day, weekdays, first_minute, end_minute } = window;
    is_date(first_day)
        && is_date(end_day)
        && key(first_day) < key(end_day)
        && (1..=ALL_WEEKDAYS).contains(&weekdays)
        && first_minute < end_minute
        && end_minute <= MINUTES_OF_A_DAY
}

/// A moment that there is, with its weekday as a bit.
pub struct Now {
    at: Moment,
    weekday: u8,
}

impl Now {
    pub fn of(at: Moment) -> Result<Now, Refusal> {
        if !is_date(at.date) || at.minute >= MINUTES_OF_A_DAY {
            return Err(refusal(14, 0));
        }
        Ok(Now { at, weekday: 1 << weekday(at.date) })
    }

    /// Whether a rule with this window, or with none, is in force.
    pub fn has_in_force(&self, window: Option<Window>) -> bool {
        let Some(window) = window else {
            return true;
        };
        let today = key(self.at.date);
        let days = key(window.first_day)..key(window.end_day);
        let minutes = window.first_minute..window.end_minute;
        days.contains(&today) && window.weekdays & self.weekday != 0 && minutes.contains(&self.at.minute)
    }
}
