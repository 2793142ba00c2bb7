//! The orders at the counter, with answers written out by hand from the paper, at today's limits.
use crate::compare::{same, same_at};
use crate::draw::Order;
use crate::guarded;
use crate::reckoning::dates::{date, moment};
use crate::reckoning::{refusal, LOG_ROOM, NO_LITERALS};
use why_engine::{Literals, Moment, Refusal, Step, Window};

const P: &str = "48 44 05 04 03 43 53 01 00 05 00 09 43 53 02 00 02 00 03 43 53 03 00 04 00 01 43 53 04 00 07 00 06 \
                 52 4C 02 FF 05 52 4C 02 02 FB 52 4C 03 FE FD 04 46 41 01 46 41 03 45 4E";
const E6: &str = "48 44 04 04 02 43 53 01 00 01 00 09 43 53 02 00 02 00 09 43 53 03 00 03 00 09 43 53 04 00 05 00 09 \
                  52 4C 03 FF FE 04 52 4C 02 FD 04 46 41 01 46 41 02 46 41 03 45 4E";

fn hex(text: &str) -> Vec<u8> {
    text.split_whitespace().map(|byte| u8::from_str_radix(byte, 16).unwrap()).collect()
}

fn yes(yes: u64) -> Literals {
    Literals { yes, no: 0 }
}

fn no(no: u64) -> Literals {
    Literals { yes: 0, no }
}

/// When a book without windows is ordered: its answers are the same.
const AT_ANY_TIME: &[Moment] = &[
    moment(2000, 1, 1, 0),
    moment(2000, 2, 29, 1439),
    moment(2024, 2, 29, 720),
    moment(2026, 12, 24, 1),
    moment(2099, 12, 31, 1439),
];

/// An order with a model. Its log's OK record has the steps and their total.
struct Served<'a> {
    book: &'static str,
    /// The moments at which it is answered like this.
    at: &'a [Moment],
    /// V and U, the yes and no of each rule, the facts, the costs.
    read: (u64, u64, &'static [(u64, u64)], Literals, &'static [[u16; 2]]),
    /// The windows of the first rules; the others have none.
    windows: &'a [Option<Window>],
    model: u64,
    consequence: Literals,
    /// From the given facts: the goal, its reasons, the new literals, the cost.
    step: Option<(i8, Literals, Literals, u16)>,
    log: &'static str,
}

fn serve(order: Served) {
    let book = hex(order.book);
    let (variables, choices, rules, facts, costs) = order.read;
    let mut read = why_engine::Book {
        variables,
        choices,
        rules: rules.len() as u64,
        rules_yes: [0; 128],
        rules_no: [0; 128],
        windows: [None; 128],
        facts,
    };
    for (i, &(yes, no)) in rules.iter().enumerate() {
        (read.rules_yes[i], read.rules_no[i]) = (yes, no);
    }
    read.windows[..order.windows.len()].copy_from_slice(order.windows);
    same(guarded::read_book(&book), Ok(read), "book", &book);
    let mut table = [[0; 2]; 32];
    table[..costs.len()].copy_from_slice(costs);
    same(guarded::read_costs(&book), Ok(table), "costs", &book);
    let step =
        order.step.map_or(Step::NothingLeft, |(goal, reasons, new, cost)| Step::Next { goal, reasons, new, cost });
    let log = hex(order.log);
    let (steps, total) = (log[log.len() - 5], u32::from(log[log.len() - 1]));
    let about = why_engine::Log { size: log.len(), steps, total };
    for &at in order.at {
        same_at(guarded::model(&book, at), Ok(order.model), "model", &book, at);
        same_at(guarded::consequence(&book, at), Ok(order.consequence), "consequence", &book, at);
        same_at(guarded::next_step(&book, at, facts), Ok(step), "step", &book, at);
        same_at(guarded::next_step(&book, at, order.consequence), Ok(Step::NothingLeft), "step", &book, at);
        same_at(guarded::log(&book, at, LOG_ROOM), Ok((about, log.clone())), "log", &book, at);
        for written in 0..=log.len() {
            let found = [&log[..written], &[0xee; LOG_ROOM][written..]].concat();
            let carried_on = guarded::resume_log(&book, at, &found, written);
            same_at(carried_on, Ok((about, log.clone())), "log carried on", &book, at);
        }
    }
}

#[test]
fn orders_b_c_d() {
    serve(Served {
        book: "48 44 00 00 00 45 4E",
        at: AT_ANY_TIME,
        read: (0, 0, &[], NO_LITERALS, &[]),
        windows: &[],
        model: 0,
        consequence: NO_LITERALS,
        step: None,
        log: "4F 4B 00 00 00 00 00",
    });
    serve(Served {
        book: P,
        at: AT_ANY_TIME,
        read: (5, 4, &[(0x10, 0x01), (0x02, 0x10), (0x08, 0x06)], yes(0x05), &[[5, 9], [2, 3], [4, 1], [7, 6]]),
        windows: &[],
        model: 0x1f,
        consequence: yes(0x0f),
        step: Some((2, yes(1), yes(2), 8)),
        log: "53 54 02 01 01 01 02 00 08 53 54 04 02 02 03 01 04 00 0C 4F 4B 02 00 00 00 14",
    });
    serve(Served {
        book: "48 44 01 01 01 43 53 01 00 05 00 09 52 4C 01 01 45 4E",
        at: AT_ANY_TIME,
        read: (1, 1, &[(1, 0)], NO_LITERALS, &[[5, 9]]),
        windows: &[],
        model: 1,
        consequence: yes(1),
        step: Some((1, NO_LITERALS, yes(1), 9)),
        log: "53 54 01 00 01 01 00 09 4F 4B 01 00 00 00 09",
    });
}

#[test]
fn orders_g_h_i() {
    serve(Served {
        book: "48 44 02 01 02 43 53 01 00 05 00 09 52 4C 02 FF 02 52 4C 02 FF FE 45 4E",
        at: AT_ANY_TIME,
        read: (2, 1, &[(2, 1), (0, 3)], NO_LITERALS, &[[5, 9]]),
        windows: &[],
        model: 0,
        consequence: no(1),
        step: Some((-1, NO_LITERALS, no(1), 5)),
        log: "53 54 FF 00 01 FF 00 05 4F 4B 01 00 00 00 05",
    });
    serve(Served {
        book: "48 44 01 01 00 43 53 01 00 05 00 09 46 41 01 45 4E",
        at: AT_ANY_TIME,
        read: (1, 1, &[], yes(1), &[[5, 9]]),
        windows: &[],
        model: 1,
        consequence: yes(1),
        step: None,
        log: "4F 4B 00 00 00 00 00",
    });
    serve(Served {
        book: "48 44 03 03 02 43 53 01 00 01 00 01 43 53 02 00 01 00 01 43 53 03 00 01 00 01 \
               52 4C 02 FF 02 52 4C 02 FF 03 46 41 01 45 4E",
        at: AT_ANY_TIME,
        read: (3, 3, &[(2, 1), (4, 1)], yes(1), &[[1, 1], [1, 1], [1, 1]]),
        windows: &[],
        model: 7,
        consequence: yes(7),
        step: Some((2, yes(1), yes(6), 2)),
        log: "53 54 02 01 01 02 02 03 00 02 4F 4B 01 00 00 00 02",
    });
}

/// 3 alone comes before 1 and 2 together, at the same cost.
#[test]
fn order_of_e6() {
    serve(Served {
        book: E6,
        at: AT_ANY_TIME,
        read: (4, 4, &[(0x08, 0x03), (0x08, 0x04)], yes(7), &[[1, 9], [2, 9], [3, 9], [5, 9]]),
        windows: &[],
        model: 0x0f,
        consequence: yes(0x0f),
        step: Some((4, yes(4), yes(8), 12)),
        log: "53 54 04 01 03 01 04 00 0C 4F 4B 01 00 00 00 0C",
    });
}

/// Book P with a season: its third rule in December 2026 only.
const DECEMBER: &str =
    "48 44 05 04 03 43 53 01 00 05 00 09 43 53 02 00 02 00 03 43 53 03 00 04 00 01 43 53 04 00 07 00 06 \
                        52 4C 02 FF 05 52 4C 02 02 FB 52 4C 03 FE FD 04 57 4E 07 EA 0C 01 07 EB 01 01 7F 00 00 05 A0 \
                        46 41 01 46 41 03 45 4E";
/// Book P with set hours: its first rule from Monday to Friday, 9 to 18 hours, from 29 February 2024 to 28 February 2025.
const HOURS: &str =
    "48 44 05 04 03 43 53 01 00 05 00 09 43 53 02 00 02 00 03 43 53 03 00 04 00 01 43 53 04 00 07 00 06 \
                     52 4C 02 FF 05 57 4E 07 E8 02 1D 07 E9 03 01 1F 02 1C 04 38 52 4C 02 02 FB 52 4C 03 FE FD 04 \
                     46 41 01 46 41 03 45 4E";
const RULES_OF_P: &[(u64, u64)] = &[(0x10, 0x01), (0x02, 0x10), (0x08, 0x06)];
const COSTS_OF_P: &[[u16; 2]] = &[[5, 9], [2, 3], [4, 1], [7, 6]];

#[test]
fn orders_with_a_season() {
    let december = Window {
        first_day: date(2026, 12, 1),
        end_day: date(2027, 1, 1),
        weekdays: 127,
        first_minute: 0,
        end_minute: 1440,
    };
    let windows = &[None, None, Some(december)];
    serve(Served {
        book: DECEMBER,
        at: &[moment(2026, 12, 1, 0), moment(2026, 12, 13, 720), moment(2026, 12, 31, 1439)],
        read: (5, 4, RULES_OF_P, yes(0x05), COSTS_OF_P),
        windows,
        model: 0x1f,
        consequence: yes(0x0f),
        step: Some((2, yes(1), yes(2), 8)),
        log: "53 54 02 01 01 01 02 00 08 53 54 04 02 02 03 01 04 00 0C 4F 4B 02 00 00 00 14",
    });
    // Without the rule that asks for 4, it stays open.
    serve(Served {
        book: DECEMBER,
        at: &[moment(2026, 11, 30, 1439), moment(2027, 1, 1, 0), moment(2025, 12, 13, 720), moment(2027, 12, 13, 720)],
        read: (5, 4, RULES_OF_P, yes(0x05), COSTS_OF_P),
        windows,
        model: 0x17,
        consequence: yes(0x07),
        step: Some((2, yes(1), yes(2), 8)),
        log: "53 54 02 01 01 01 02 00 08 4F 4B 01 00 00 00 08",
    });
}

#[test]
fn orders_with_set_hours() {
    let hours = Window {
        first_day: date(2024, 2, 29),
        end_day: date(2025, 3, 1),
        weekdays: 31,
        first_minute: 540,
        end_minute: 1080,
    };
    let windows = &[Some(hours)];
    serve(Served {
        book: HOURS,
        // Thursday, the first day; Friday; Monday; Friday, the last day.
        at: &[
            moment(2024, 2, 29, 540),
            moment(2024, 3, 1, 1079),
            moment(2024, 12, 30, 720),
            moment(2025, 2, 28, 540),
            moment(2025, 2, 28, 1079),
        ],
        read: (5, 4, RULES_OF_P, yes(0x05), COSTS_OF_P),
        windows,
        model: 0x1f,
        consequence: yes(0x0f),
        step: Some((2, yes(1), yes(2), 8)),
        log: "53 54 02 01 01 01 02 00 08 53 54 04 02 02 03 01 04 00 0C 4F 4B 02 00 00 00 14",
    });
    // Without the first rule nothing follows.
    serve(Served {
        book: HOURS,
        // A minute too early and too late; Saturday, Sunday; Wednesday and Thursday before, Saturday and Monday after.
        at: &[
            moment(2024, 2, 29, 539),
            moment(2024, 2, 29, 1080),
            moment(2024, 3, 2, 720),
            moment(2024, 3, 3, 720),
            moment(2024, 2, 28, 720),
            moment(2024, 2, 22, 720),
            moment(2025, 3, 1, 720),
            moment(2025, 3, 3, 720),
        ],
        read: (5, 4, RULES_OF_P, yes(0x05), COSTS_OF_P),
        windows,
        model: 0x05,
        consequence: yes(0x05),
        step: None,
        log: "4F 4B 00 00 00 00 00",
    });
}

/// The refusal of every call on a book; 9 is none of the readers'.
fn refuse(book: &[u8], refusal: Refusal) {
    if refusal.number != 9 {
        same(guarded::read_book(book).err(), Some(refusal), "book", book);
        same(guarded::read_costs(book).err(), Some(refusal), "costs", book);
    }
    for &at in AT_ANY_TIME {
        refuse_at(book, at, refusal);
    }
}

/// The refusal of every call but the readers.
fn refuse_at(book: &[u8], at: Moment, refusal: Refusal) {
    same_at(guarded::model(book, at), Err(refusal), "model", book, at);
    same_at(guarded::consequence(book, at), Err(refusal), "consequence", book, at);
    same_at(guarded::next_step(book, at, NO_LITERALS), Err(refusal), "step", book, at);
    same_at(guarded::log(book, at, LOG_ROOM), Err(refusal), "log", book, at);
    for written in [0, 1, LOG_ROOM + 1] {
        same_at(guarded::resume_log(book, at, &[0; LOG_ROOM], written), Err(refusal), "log carried on", book, at);
    }
}

#[test]
fn orders_that_are_refused() {
    refuse(&[], refusal(1, 0)); // a
    let e = "48 44 01 01 02 43 53 01 00 05 00 09 52 4C 01 01 52 4C 01 FF 45 4E";
    refuse(&hex(e), refusal(9, 0));
    let f = "48 44 01 01 01 43 53 01 00 05 00 09 52 4C 01 FF 46 41 01 45 4E";
    refuse(&hex(f), refusal(9, 0));
    let j = "48 44 01 01 01 43 53 01 00 05 00 09 52 4C 01 80 45 4E";
    refuse(&hex(j), refusal(6, 12));
    let count_0 = "48 44 00 00 01 52 4C 00 45 4E";
    refuse(&hex(count_0), refusal(9, 0));
    let count_9 = "48 44 01 00 01 52 4C 09";
    refuse(&hex(count_9), refusal(5, 5));
    let literal_missing = "48 44 01 00 01 52 4C 02 01";
    refuse(&hex(literal_missing), refusal(1, 5));
    let byte_after_end = "48 44 00 00 00 45 4E 00";
    refuse(&hex(byte_after_end), refusal(7, 7));
    let fact_over_a_helper = "48 44 01 00 00 46 41 01 45 4E";
    refuse(&hex(fact_over_a_helper), refusal(6, 5));
    let no_rule = "48 44 01 00 01 46 41 01 45 4E";
    refuse(&hex(no_rule), refusal(2, 5));
}

/// A book of one rule that has this behind it, and ends. The first byte behind the rule is at 16.
fn behind_a_rule(behind: &str) -> Vec<u8> {
    hex(&format!("48 44 01 01 01 43 53 01 00 05 00 09 52 4C 01 01 {behind} 45 4E"))
}

#[test]
fn windows_that_are_refused() {
    let good = "57 4E 07 E8 02 1D 07 E8 03 01 08 02 1C 04 38";
    assert!(guarded::read_book(&behind_a_rule(good)).is_ok());
    for wrong in [
        "57 4E 07 CF 0C 1F 07 E8 03 01 08 02 1C 04 38", // 31 December 1999
        "57 4E 07 E7 02 1D 07 E8 03 01 08 02 1C 04 38", // 29 February 2023
        "57 4E 07 E8 02 1E 07 E8 03 01 08 02 1C 04 38", // 30 February
        "57 4E 07 E8 00 1D 07 E8 03 01 08 02 1C 04 38", // month 0
        "57 4E 07 E8 02 00 07 E8 03 01 08 02 1C 04 38", // day 0
        "57 4E 07 E8 02 1D 08 34 01 01 08 02 1C 04 38", // until 1 January 2100
        "57 4E 07 E8 02 1D 07 E8 0D 01 08 02 1C 04 38", // until month 13
        "57 4E 07 E8 02 1D 07 E8 04 1F 08 02 1C 04 38", // until 31 April
        "57 4E 07 E8 02 1D 07 E8 02 1D 08 02 1C 04 38", // until the first day
        "57 4E 07 E8 03 01 07 E8 02 1D 08 02 1C 04 38", // until the day before
        "57 4E 07 E8 02 1D 07 E8 03 01 00 02 1C 04 38", // no weekday
        "57 4E 07 E8 02 1D 07 E8 03 01 80 02 1C 04 38", // an eighth weekday
        "57 4E 07 E8 02 1D 07 E8 03 01 08 05 A0 05 A0", // minute 1440
        "57 4E 07 E8 02 1D 07 E8 03 01 08 05 A0 05 A1", // minutes 1440 to 1441
        "57 4E 07 E8 02 1D 07 E8 03 01 08 02 1C 05 A1", // until 1441
        "57 4E 07 E8 02 1D 07 E8 03 01 08 02 1C 02 1C", // until the first minute
        "57 4E 07 E8 02 1D 07 E8 03 01 08 02 1C 02 1B", // until the minute before
    ] {
        refuse(&behind_a_rule(wrong), refusal(14, 16));
        // Presence comes before values.
        let book = behind_a_rule(wrong);
        refuse(&book[..31], refusal(14, 16));
        refuse(&book[..30], refusal(1, 16));
        refuse(&book[..18], refusal(1, 16));
    }
    refuse(&behind_a_rule("57"), refusal(2, 16)); // 57 45 is no mark
    refuse(&behind_a_rule("57 4F 07 E8 02 1D 07 E8 03 01 08 02 1C 04 38"), refusal(2, 16));
    refuse(&behind_a_rule("57 4E 07 E8 02 1D 07 E8 03 01 08 02 1C 04"), refusal(1, 31)); // minute 04 45, and 4E is left
    refuse(&behind_a_rule(&format!("{good} {good}")), refusal(2, 31));
    refuse(&behind_a_rule(&format!("{good} 57 4E")), refusal(2, 31));
    refuse(&behind_a_rule(&format!("46 41 01 {good}")), refusal(2, 19));
    refuse(&behind_a_rule(&format!("{good} 46 41 01 {good}")), refusal(2, 34));
    refuse(&behind_a_rule(&format!("45 4E {good}")), refusal(7, 18));
    let before_the_rule = format!("48 44 01 01 01 43 53 01 00 05 00 09 {good} 52 4C 01 01 45 4E");
    refuse(&hex(&before_the_rule), refusal(2, 12));
    let before_the_costs = format!("48 44 01 01 01 {good} 43 53 01 00 05 00 09 52 4C 01 01 45 4E");
    refuse(&hex(&before_the_costs), refusal(2, 5));
    let without_a_rule = format!("48 44 01 01 00 43 53 01 00 05 00 09 {good} 45 4E");
    refuse(&hex(&without_a_rule), refusal(2, 12));
    let for_a_rule = format!("48 44 01 01 02 43 53 01 00 05 00 09 52 4C 01 01 {good} 45 4E");
    refuse(&hex(&for_a_rule), refusal(2, 31));
}

/// Before the book is read, so also where it is damaged.
#[test]
fn moments_that_are_refused() {
    for at in [
        moment(0, 0, 0, 0),
        moment(1999, 12, 31, 0),
        moment(2100, 1, 1, 0),
        moment(65535, 1, 1, 0),
        moment(2024, 0, 1, 0),
        moment(2024, 13, 1, 0),
        moment(2024, 1, 0, 0),
        moment(2024, 1, 32, 0),
        moment(2024, 2, 30, 0),
        moment(2023, 2, 29, 0),
        moment(2024, 4, 31, 0),
        moment(2024, 6, 31, 0),
        moment(2024, 9, 31, 0),
        moment(2024, 11, 31, 0),
        moment(2024, 12, 32, 0),
        moment(2024, 2, 29, 1440),
        moment(2024, 2, 29, 65535),
    ] {
        for book in [P, E6, DECEMBER, HOURS, "", "48", "48 44 FF FF FF", "48 44 00 00 01 52 4C 00 45 4E"] {
            refuse_at(&hex(book), at, refusal(14, 0));
            same_at(guarded::log(&hex(book), at, 0), Err(refusal(14, 0)), "log", &hex(book), at);
        }
    }
}

/// Rules that contradict each other only while the second is in force: on the first day, a Tuesday, until noon.
#[test]
fn no_model_in_season() {
    let book = hex("48 44 01 01 02 43 53 01 00 05 00 09 52 4C 01 01 52 4C 01 FF 57 4E 07 EA 06 1E 07 EA 07 02 02 00 00 02 D0 45 4E");
    for at in [moment(2026, 6, 30, 0), moment(2026, 6, 30, 719)] {
        refuse_at(&book, at, refusal(9, 0));
    }
    for at in [moment(2026, 6, 30, 720), moment(2026, 7, 1, 0), moment(2026, 6, 29, 719), moment(2026, 7, 7, 0)] {
        same_at(guarded::model(&book, at), Ok(1), "model", &book, at);
        same_at(guarded::consequence(&book, at), Ok(yes(1)), "consequence", &book, at);
        same_at(guarded::next_step(&book, at, no(1)), Err(refusal(10, 0)), "step", &book, at);
    }
}

/// An order of this size with every cost given and the same rule throughout.
fn sized(variables: usize, choices: usize, rules: usize, cost: [u16; 2]) -> Vec<u8> {
    let rule = if variables == 0 { vec![] } else { vec![1] };
    let (costs, rules) = (vec![cost; choices], vec![rule; rules]);
    Order { variables, choices, costs, rules, ..Order::default() }.bytes()
}

const ALL_TIMES: Window = Window {
    first_day: date(2000, 1, 1),
    end_day: date(2099, 12, 31),
    weekdays: 127,
    first_minute: 0,
    end_minute: 1440,
};

/// An order of the most bytes: everything at its limit, a window after each rule, all choices given.
fn longest() -> Vec<u8> {
    let rules = vec![(1..=8).collect(); 128];
    let (costs, windows, facts) = (vec![[999, 999]; 32], vec![Some(ALL_TIMES); 128], (1..=32).collect());
    Order { variables: 48, choices: 32, costs, rules, windows, facts }.bytes()
}

#[test]
fn limits() {
    assert_eq!(guarded::read_book(&sized(48, 0, 0, [5, 9])).unwrap().variables, 48);
    refuse(&sized(49, 0, 0, [5, 9]), refusal(3, 0));
    assert_eq!(guarded::read_book(&sized(48, 32, 0, [5, 9])).unwrap().choices, 32);
    refuse(&sized(48, 33, 0, [5, 9]), refusal(3, 0));
    assert_eq!(guarded::read_book(&sized(1, 1, 128, [5, 9])).unwrap().rules, 128);
    refuse(&sized(1, 1, 129, [5, 9]), refusal(3, 0));
    refuse(&sized(1, 2, 0, [5, 9]), refusal(3, 0));
    assert_eq!(guarded::read_costs(&sized(2, 1, 0, [1, 999])).unwrap()[..2], [[1, 999], [0, 0]]);
    for cost in [[0, 9], [5, 0], [1000, 9], [5, 1000]] {
        refuse(&sized(2, 2, 0, cost), refusal(4, 5));
    }
    let mut longest = longest();
    assert_eq!(guarded::read_book(&longest).unwrap().windows, [Some(ALL_TIMES); 128]);
    assert_eq!(guarded::model(&longest, AT_ANY_TIME[0]), Ok(0xffff_ffff));
    longest.push(0);
    refuse(&longest, refusal(7, 3655));
    use why_engine::*;
    assert_eq!([MAX_VARIABLES, MAX_CHOICES, MAX_RULES, MAX_LITERALS], [48, 32, 128, 8]);
    assert_eq!([MAX_BOOK, MAX_LOG, MAX_WITHOUT_FACTS], [3655, 1255, 1639]);
    assert_eq!((MAX_COST, MAX_PLACE), (999, 0xff_ffff_ffff_ffff));
}

#[test]
fn known_sets_of_p() {
    let p = hex(P);
    for &at in AT_ANY_TIME {
        let step = |known| guarded::next_step(&p, at, known);
        for known in [yes(0x01), yes(0x1f), yes(0x25), Literals { yes: 5, no: 4 }, Literals { yes: 5, no: 2 }, no(5)] {
            same_at(step(known), Err(refusal(10, 0)), "step", &p, at);
        }
        let last = Step::Next { goal: 4, reasons: yes(6), new: yes(8), cost: 12 };
        same_at(step(yes(0x07)), Ok(last), "step", &p, at);
        // With 4 known and 2 not, the goal is 2 from 1 as at first.
        let other = Step::Next { goal: 2, reasons: yes(1), new: yes(2), cost: 8 };
        same_at(step(yes(0x0d)), Ok(other), "step", &p, at);
        same_at(step(yes(0x0f)), Ok(Step::NothingLeft), "step", &p, at);
    }
}

/// What follows in December is more than what follows in January: a known set of the one is none of the other.
#[test]
fn known_sets_of_a_season() {
    let book = hex(DECEMBER);
    let (december, january) = (moment(2026, 12, 31, 1439), moment(2027, 1, 1, 0));
    let all = yes(0x0f);
    same_at(guarded::next_step(&book, december, all), Ok(Step::NothingLeft), "step", &book, december);
    same_at(guarded::next_step(&book, january, all), Err(refusal(10, 0)), "step", &book, january);
    let last = Step::Next { goal: 4, reasons: yes(6), new: yes(8), cost: 12 };
    same_at(guarded::next_step(&book, december, yes(0x07)), Ok(last), "step", &book, december);
    same_at(guarded::next_step(&book, january, yes(0x07)), Ok(Step::NothingLeft), "step", &book, january);
}
