//! Every call on one book against the reckoning, with a count of what was met, so that a test can show that it was not empty.
use crate::draw::Draw;
use crate::guarded;
use crate::reckoning::dates::{self, place};
use crate::reckoning::fillings::Fillings;
use crate::reckoning::reader::{self, Book};
use crate::reckoning::search::{propagated, Search};
use crate::reckoning::{self, bit, opposite, over, refusal, union, variables, without};
use crate::reckoning::{Answer, Candidate, Limited, Log, Reckoning, LOG_ROOM, NO_LITERALS};
use std::collections::BTreeMap;
use std::fmt::Debug;
use why_engine::{Literals, Moment, Refusal, Step, Window};

/// How often each thing was met, and each refusal by its number.
#[derive(Default)]
pub struct Counts {
    named: BTreeMap<&'static str, u64>,
    refusals: [u64; 16],
}

impl Counts {
    pub fn add(&mut self, name: &'static str, count: usize) {
        *self.named.entry(name).or_default() += count as u64;
    }

    pub fn add_refusal(&mut self, refusal: Refusal) {
        self.refusals[usize::from(refusal.number)] += 1;
    }

    pub fn get(&self, name: &str) -> u64 {
        self.named.get(name).copied().unwrap_or(0)
    }

    pub fn merge(&mut self, other: Counts) {
        for (name, count) in other.named {
            *self.named.entry(name).or_default() += count;
        }
        for (number, count) in other.refusals.into_iter().enumerate() {
            self.refusals[number] += count;
        }
    }

    pub fn print(&self, title: &str) {
        let named: Vec<String> = self.named.iter().map(|(name, n)| format!("{name} {n}")).collect();
        println!("{title}: {}; refusals from 1 on {:?}", named.join(", "), &self.refusals[1..]);
    }

    pub fn at_least(&self, wanted: &[(&str, u64)]) {
        for &(name, least) in wanted {
            let count = self.get(name);
            assert!(count >= least, "{name}: met {count} times, should be at least {least}");
        }
    }

    pub fn refused_at_least(&self, number: usize, least: u64) {
        let count = self.refusals[number];
        assert!(count >= least, "refusal {number}: {count} times, should be at least {least}");
    }
}

/// Panics, with the bytes that were handed in, unless the engine's answer is the expected one.
pub fn same<T: PartialEq + Debug>(engine: T, expected: T, what: &str, bytes: &[u8]) {
    assert!(engine == expected, "{what} of {bytes:02X?}\nengine:   {engine:?}\nexpected: {expected:?}");
}

/// The same of a call that was handed a moment.
pub fn same_at<T: PartialEq + Debug>(engine: T, expected: T, what: &str, bytes: &[u8], at: Moment) {
    if engine != expected {
        same(engine, expected, &format!("{what} at {at:?}"), bytes);
    }
}

/// What puts a rule out of force, in the order of `dates::conditions`.
const OUT_OF_FORCE: [&str; 5] = [
    "out of force by the first day alone",
    "out of force by the end day alone",
    "out of force by the weekday alone",
    "out of force by the first minute alone",
    "out of force by the end minute alone",
];

/// One book at one moment that there is, and where its comparison is counted.
pub struct Comparison<'a> {
    pub bytes: &'a [u8],
    pub at: Moment,
    pub draw: &'a mut Draw,
    pub counts: &'a mut Counts,
    /// How far the search may go if the book is too large for all fillings.
    pub limit: u64,
}

impl Comparison<'_> {
    pub fn every_call(&mut self) {
        self.counts.add("books", 1);
        let read = reader::read(self.bytes);
        let expected = read.as_ref().map_err(|&refusal| refusal);
        same(guarded::read_book(self.bytes), expected.map(Book::as_read), "book", self.bytes);
        same(guarded::read_costs(self.bytes), expected.map(Book::cost_table), "costs", self.bytes);
        let never = self.draw.no_moment();
        self.refused(never, refusal(14, 0));
        let all_rules = match read {
            Ok(book) => book,
            Err(refusal) => return self.refused(self.at, refusal),
        };
        self.short_buffer();
        self.count_windows(&all_rules);
        let book = all_rules.in_force(self.at);
        let compared = match Fillings::of(&book) {
            Some(fillings) => {
                self.counts.add("books by all fillings", 1);
                self.count_models(&fillings);
                self.count_changed(&all_rules, &book, &fillings);
                self.search_agrees(&book, &fillings);
                self.accepted(&book, &fillings)
            }
            None => {
                self.counts.add("books by search", 1);
                self.accepted(&book, &Search::new(&book, self.limit))
            }
        };
        if compared.is_err() {
            self.counts.add("books over the limit", 1);
        }
    }

    /// Counts why rules are in force or not, and the moments at the edges of their windows.
    fn count_windows(&mut self, book: &Book) {
        let windows: Vec<Window> = book.windows.iter().copied().flatten().collect();
        self.counts.add("books with windows", (!windows.is_empty()).into());
        self.counts.add("longest books", (self.bytes.len() == 3655).into());
        for window in windows {
            let met = dates::conditions(window, self.at);
            let missed: Vec<usize> = (0..5).filter(|&i| !met[i]).collect();
            match missed[..] {
                [] => self.counts.add("in force in a window", 1),
                [one] => self.counts.add(OUT_OF_FORCE[one], 1),
                _ => {}
            }
            self.count_edges(window, &missed);
        }
    }

    /// Counts moments at which an engine that is one day or one minute off would go wrong.
    fn count_edges(&mut self, window: Window, missed: &[usize]) {
        let [first, end, today] = [window.first_day, window.end_day, self.at.date].map(|date| place(date).unwrap());
        let (first_minute, end_minute, minute) = (window.first_minute, window.end_minute, self.at.minute);
        match missed {
            [] => {
                self.counts.add("edge: on the first day", (today == first).into());
                self.counts.add("edge: on the last day", (today + 1 == end).into());
                self.counts.add("edge: in the first minute", (minute == first_minute).into());
                self.counts.add("edge: in the last minute", (minute + 1 == end_minute).into());
            }
            [0] => self.counts.add("edge: on the day before", (today + 1 == first).into()),
            [1] => self.counts.add("edge: on the end day", (today == end).into()),
            [3] => self.counts.add("edge: in the minute before", (minute + 1 == first_minute).into()),
            [4] => self.counts.add("edge: in the end minute", (minute == end_minute).into()),
            _ => {}
        }
    }

    /// Counts books that would be answered otherwise if all rules were in force.
    fn count_changed(&mut self, all_rules: &Book, book: &Book, in_force: &Fillings) {
        if all_rules.rules.len() > book.rules.len() {
            let Some(all) = Fillings::of(all_rules) else { return };
            let forced = |fillings: &Fillings| fillings.forced(book.facts).unwrap();
            self.counts
                .add("consequences that rules out of force would change", (forced(&all) != forced(in_force)).into());
        }
    }

    /// Counts books whose first model says something about its order.
    fn count_models(&mut self, fillings: &Fillings) {
        let models = fillings.models();
        self.counts.add("books with several models", (models.len() > 1).into());
        // The least number has the last variable weightiest.
        let other = models.iter().min() != models.first();
        self.counts.add("first models that another order would change", other.into());
    }

    /// A refusal that every call but the readers makes, whatever else is handed in.
    fn refused(&mut self, at: Moment, refusal: Refusal) {
        self.counts.add_refusal(refusal);
        self.counts.add("books refused for a window", (refusal.number == 14 && refusal.place > 0).into());
        let bytes = self.bytes;
        same_at(guarded::model(bytes, at), Err(refusal), "model", bytes, at);
        same_at(guarded::consequence(bytes, at), Err(refusal), "consequence", bytes, at);
        for known in [NO_LITERALS, Literals { yes: self.draw.next(), no: self.draw.next() }] {
            same_at(guarded::next_step(bytes, at, known), Err(refusal), "step", bytes, at);
        }
        let short = self.draw.between(0, LOG_ROOM - 1);
        // 9 comes after 8, and only with a buffer that is long enough.
        let rooms = if refusal.number == 9 { &[LOG_ROOM][..] } else { &[LOG_ROOM, short] };
        for &room in rooms {
            same_at(guarded::log(bytes, at, room), Err(refusal), "log", bytes, at);
            let (found, written) = (self.draw.bytes(room), self.draw.number_written(room));
            same_at(guarded::resume_log(bytes, at, &found, written), Err(refusal), "log carried on", bytes, at);
        }
    }

    fn short_buffer(&mut self) {
        let room = self.draw.between(0, LOG_ROOM - 1);
        let expected = refusal(8, 0);
        self.counts.add_refusal(expected);
        same_at(guarded::log(self.bytes, self.at, room), Err(expected), "log", self.bytes, self.at);
        let (found, written) = (self.draw.bytes(room), self.draw.number_written(room));
        let carried_on = guarded::resume_log(self.bytes, self.at, &found, written);
        same_at(carried_on, Err(expected), "log carried on", self.bytes, self.at);
    }

    /// The search is the only reckoning of large books, so it is held against the fillings on some small ones.
    fn search_agrees(&mut self, book: &Book, fillings: &Fillings) {
        if !self.draw.chance(10) {
            return;
        }
        let search = Search::new(book, u64::MAX);
        let model = fillings.first_model().unwrap();
        assert_eq!(search.first_model().unwrap(), model);
        let consequence = fillings.forced(book.facts).unwrap();
        assert_eq!(search.forced(book.facts).unwrap(), consequence);
        if let Some(consequence) = consequence {
            let log = |way| reckoning::log(book, way, consequence).unwrap().bytes;
            assert_eq!(log(&search), log(fillings));
            self.counts.add("logs by both reckonings", 1);
        }
    }

    fn accepted(&mut self, book: &Book, reckoning: &dyn Reckoning) -> Limited<()> {
        let (bytes, at) = (self.bytes, self.at);
        let Some(model) = reckoning.first_model()? else {
            self.refused(at, refusal(9, 0));
            return Ok(());
        };
        same_at(guarded::model(bytes, at), Ok(model), "model", bytes, at);
        let consequence = reckoning.forced(book.facts)?.expect("there is a model");
        same_at(guarded::consequence(bytes, at), Ok(consequence), "consequence", bytes, at);
        self.counts.add("consequences", 1);
        let log = reckoning::log(book, reckoning, consequence)?;
        self.log(&log);
        for answer in &log.way {
            self.step(book, consequence, answer);
        }
        for known in self.known_sets(book, consequence) {
            match reckoning::next_step(book, reckoning, consequence, known)? {
                Ok(answer) => self.step(book, consequence, &answer),
                Err(refusal) => {
                    self.counts.add_refusal(refusal);
                    same_at(guarded::next_step(bytes, at, known), Err(refusal), "step", bytes, at);
                }
            }
        }
        Ok(())
    }

    fn log(&mut self, log: &Log) {
        let about = why_engine::Log { size: log.bytes.len(), steps: log.steps, total: log.total };
        let expected = (about, log.bytes.clone());
        let room = LOG_ROOM + self.draw.pick(&[0, 0, 0, 1, 100]);
        same_at(guarded::log(self.bytes, self.at, room), Ok(expected.clone()), "log", self.bytes, self.at);
        let written = self.draw.between(0, log.bytes.len());
        let mut found = self.draw.bytes(room);
        found[..written].copy_from_slice(&log.bytes[..written]);
        let carried_on = guarded::resume_log(self.bytes, self.at, &found, written);
        same_at(carried_on, Ok(expected), "log carried on", self.bytes, self.at);
        self.counts.add("logs", 1);
        self.counts.add("logs of three steps or more", (log.steps >= 3).into());
    }

    fn step(&mut self, book: &Book, consequence: Literals, answer: &Answer) {
        let Answer { known, step, rivals } = answer;
        same_at(guarded::next_step(self.bytes, self.at, *known), Ok(*step), "step", self.bytes, self.at);
        let Step::Next { reasons, new, .. } = *step else {
            return self.counts.add("nothing left", 1);
        };
        let goals = without(consequence, *known);
        let against = union(reasons, opposite(over(goals, bit(rivals[0].goal))));
        let split = propagated(&book.rules, against).is_some();
        let lowest = variables(goals.yes | goals.no).next() == Some(rivals[0].goal);
        self.counts.add("steps", 1);
        self.counts.add("steps that need a case split", split.into());
        self.counts.add("steps not to the lowest goal", (!lowest).into());
        self.counts.add("steps with two reasons or more", (rivals[0].facts >= 2).into());
        self.counts.add("steps with some known unused", (reasons != *known).into());
        let new = (new.yes | new.no).count_ones();
        self.counts.add("steps with two new or more", (new >= 2).into());
        self.ties(rivals);
    }

    /// Counts what settled a step among the candidates of least cost.
    fn ties(&mut self, rivals: &[Candidate]) {
        let best = rivals[0];
        let without_facts = rivals.iter().min_by_key(|c| (c.goal, c.set));
        let short = rivals.iter().filter(|c| c.facts == best.facts);
        let by_goal = short.clone().any(|c| c.goal != best.goal);
        let by_set = short.clone().any(|c| c.goal == best.goal && c.set != best.set);
        self.counts.add("ties settled by facts", (without_facts != Some(&best)).into());
        self.counts.add("ties settled by goal", by_goal.into());
        self.counts.add("ties settled by set", by_set.into());
    }

    /// Known sets to ask from: two between facts and consequence, the others mostly not.
    fn known_sets(&mut self, book: &Book, consequence: Literals) -> Vec<Literals> {
        let draw = &mut *self.draw;
        let mut sets = Vec::new();
        for _ in 0..2 {
            sets.push(union(book.facts, draw.part(consequence)));
        }
        let between = sets[0];
        sets.push(draw.part(book.facts));
        let one = bit(draw.between(1, 64) as u32);
        sets.push(union(between, Literals { yes: one, no: 0 }));
        sets.push(union(between, Literals { yes: 0, no: one }));
        let helper = bit(draw.between(book.choices as usize + 1, 49) as u32);
        sets.push(union(between, Literals { yes: 0, no: helper }));
        sets.push(union(between, draw.part(opposite(between))));
        sets.push(opposite(between));
        sets.push(Literals { yes: draw.next(), no: draw.next() });
        sets
    }
}
