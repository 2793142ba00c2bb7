//! Moments and windows drawn at random, many of them at an edge of the calendar, of the day or of each other.
use crate::draw::{self, Draw, Order};
use crate::reckoning::dates::{calendar, place, MINUTES};
use why_engine::{Date, Moment, Window};

impl Draw {
    /// A moment, often at the end of a month, of February, of the calendar or of the day.
    pub fn moment(&mut self) -> Moment {
        let days = calendar();
        let last = days.len() - 1;
        let any = self.between(0, last);
        // From there on the first day that begins a month, or March.
        let begins =
            |march: bool| move |day: &usize| days[*day].date.day == 1 && (!march || days[*day].date.month == 3);
        let day = match self.between(0, 19) {
            0 => self.pick(&[0, 1, last - 1, last]),
            // The first day of all begins a month, and no day is before it.
            1..=4 => (any..last).find(begins(false)).unwrap_or(last).saturating_sub(self.between(0, 1)),
            5..=8 => (any..last).find(begins(true)).unwrap_or(last) - self.between(0, 2),
            _ => any,
        };
        let any = self.between(0, usize::from(MINUTES) - 1) as u16;
        Moment { date: days[day].date, minute: self.pick(&[0, MINUTES - 1, any, any, any, any]) }
    }

    /// A moment that there is not, by its date or its minute.
    pub fn no_moment(&mut self) -> Moment {
        let at = self.moment();
        match self.chance(25) {
            true => Moment { minute: self.pick(&[1440, 1441, 1440 + 256, 32768, 65535]), ..at },
            false => Moment { date: self.no_date(at.date), ..at },
        }
    }

    /// A date that there is not, in one field other than one that there is.
    fn no_date(&mut self, date: Date) -> Date {
        let after_last = (1..).find(|&day| place(Date { day, ..date }).is_none()).unwrap();
        match self.between(0, 2) {
            0 => Date { year: self.pick(&[0, 1999, 2100, 2256, 65535, date.year ^ 0x8000]), ..date },
            1 => Date { month: self.pick(&[0, 13, 14, 128, 255]), ..date },
            _ => Date { day: self.pick(&[0, after_last, 32, 128, 255]), ..date },
        }
    }

    /// A moment at an edge of the window, by its day and by its minute.
    pub fn edge(&mut self, window: Window) -> Moment {
        let [first, end] = [window.first_day, window.end_day].map(|date| place(date).expect("a date"));
        let day = self.pick(&[first.saturating_sub(1), first, end - 1, end]);
        let (first, end) = (window.first_minute, window.end_minute);
        let minute = self.pick(&[first.saturating_sub(1), first, end - 1, end]).min(MINUTES - 1);
        Moment { date: calendar()[day].date, minute }
    }

    /// A number from 0 up to the edge, most often the edge itself or the one before.
    fn up_to(&mut self, edge: usize) -> usize {
        let any = self.between(0, edge);
        self.pick(&[edge, edge, edge, edge.saturating_sub(1), any])
    }

    /// A number from the edge up to the top, most often the edge itself or the next one. None where the edge is over the top.
    fn from(&mut self, edge: usize, top: usize) -> Option<usize> {
        let any = edge + self.between(0, top.checked_sub(edge)?);
        Some(self.pick(&[edge, edge, edge, top.min(edge + 1), any]))
    }

    /// The start and the end of a span up to the top, close to a number: it has the number, or begins after it, or ends before it.
    fn span(&mut self, number: usize, top: usize, side: Side) -> Option<(usize, usize)> {
        match side {
            Side::Within => Some((self.up_to(number), self.from(number + 1, top)?)),
            Side::After => {
                let first = self.from(number + 1, top.checked_sub(1)?)?;
                Some((first, self.from(first + 1, top)?))
            }
            Side::Before => {
                let end = self.up_to(number);
                Some((self.up_to(end.checked_sub(1)?), end))
            }
        }
    }

    /// A window in which the moment misses this one of `dates::conditions`, or none. There may be no such window.
    pub fn window(&mut self, at: Moment, missed: Option<usize>) -> Option<Window> {
        let today = place(at.date)?;
        let side = |first, end| match missed {
            Some(number) if number == first => Side::After,
            Some(number) if number == end => Side::Before,
            _ => Side::Within,
        };
        let (first, end) = self.span(today, calendar().len() - 1, side(0, 1))?;
        let (first_minute, end_minute) = self.span(at.minute.into(), MINUTES.into(), side(3, 4))?;
        let bit = 1 << calendar()[today].weekday;
        let others = self.next() as u8 & 127 & !bit;
        let weekdays = match missed {
            Some(2) => self.pick(&[127 - bit, others.max(if bit == 1 { 2 } else { 1 })]),
            _ => self.pick(&[127, bit, others | bit]),
        };
        Some(Window {
            first_day: calendar()[first].date,
            end_day: calendar()[end].date,
            weekdays,
            first_minute: first_minute as u16,
            end_minute: end_minute as u16,
        })
    }
}

#[derive(Clone, Copy)]
enum Side {
    Within,
    After,
    Before,
}

/// Puts windows that have the moment after some of the rules, and between the rules others that are out of force then, each for one reason; sometimes
/// windows of any kind, sometimes none.
pub fn seasonal(draw: &mut Draw, mut order: Order, at: Moment) -> Order {
    let often = draw.pick(&[0, 30, 60, 100]);
    let any = draw.chance(10);
    let windows = (0..order.rules.len()).map(|_| {
        let missed = if any { draw.pick(&[None, Some(0), Some(1), Some(2), Some(3), Some(4)]) } else { None };
        if draw.chance(often) {
            draw.window(at, missed)
        } else {
            None
        }
    });
    order.windows = windows.collect();
    for _ in 0..draw.pick(&[0, 0, 1, 2, 4]) {
        let missed = draw.between(0, 4);
        let Some(window) = draw.window(at, Some(missed)) else { continue };
        if order.rules.len() < 128 {
            let place = draw.between(0, order.rules.len());
            order.rules.insert(place, draw::any_rule(draw, order.variables));
            order.windows.insert(place, Some(window));
        }
    }
    order
}

/// A window with one thing wrong, as far as that is not allowed by chance.
pub fn wrong_window(draw: &mut Draw) -> Window {
    let at = draw.moment();
    let empty = Window { first_day: at.date, end_day: at.date, weekdays: 1, first_minute: 0, end_minute: 1 };
    let mut window = draw.window(at, None).unwrap_or(empty);
    match draw.between(0, 6) {
        0 => window.first_day = draw.no_date(window.first_day),
        1 => window.end_day = draw.no_date(window.end_day),
        2 => window.end_day = window.first_day,
        3 => std::mem::swap(&mut window.first_day, &mut window.end_day),
        4 => window.weekdays = draw.pick(&[0, 128, 129, 255]),
        5 => window.first_minute = draw.pick(&[window.end_minute, window.end_minute + 1, 1440, 32768, 65535]),
        _ => window.end_minute = draw.pick(&[window.first_minute, 0, 1441, 1440 + 256, 65535]),
    }
    window
}

/// The bytes of a WN record.
pub fn record(window: Window) -> Vec<u8> {
    let mut record = b"WN".to_vec();
    for date in [window.first_day, window.end_day] {
        record.extend(date.year.to_be_bytes());
        record.extend([date.month, date.day]);
    }
    record.push(window.weekdays);
    record.extend(window.first_minute.to_be_bytes());
    record.extend(window.end_minute.to_be_bytes());
    record
}
