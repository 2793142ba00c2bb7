//! Books of any size, by a plain search: unit propagation and a try both ways for a model, and for the next step a tree of sets, the least first. A
//! set that leaves a model must get one of the known literals that this model makes false, so each of them begins a branch.
use super::reader::Book;
use super::{bit, made_false, opposite, over, union, variables};
use super::{Candidate, Limited, Literals, OverLimit, Reckoning, NO_LITERALS};
use std::cell::Cell;
use std::cmp::Reverse;
use std::collections::{BinaryHeap, HashSet};

pub struct Search<'a> {
    book: &'a Book,
    /// How many more times a variable may be tried or a set looked at.
    left: Cell<u64>,
}

impl<'a> Search<'a> {
    pub fn new(book: &'a Book, limit: u64) -> Self {
        Search { book, left: Cell::new(limit) }
    }

    fn count(&self) -> Limited<()> {
        let left = self.left.get().checked_sub(1).ok_or(OverLimit)?;
        self.left.set(left);
        Ok(())
    }

    /// A filling that obeys the rules and makes all of the set true, if there is one. What no rule asks for is as wanted, or else no.
    fn model(&self, set: Literals, wanted: Literals) -> Limited<Option<u64>> {
        self.count()?;
        let Some(set) = propagated(&self.book.rules, set) else { return Ok(None) };
        let Some(tried) = self.shortest_open(set) else {
            return Ok(Some(set.yes | wanted.yes & !set.no));
        };
        match self.model(union(set, tried), wanted)? {
            None => self.model(union(set, opposite(tried)), wanted),
            found => Ok(found),
        }
    }

    /// The known literals that are false in a filling which obeys the rules and makes all of the set true, if there is one. None of them can be made
    /// true beside those that are: the fewer are false, the fewer branches begin.
    fn missed(&self, mut set: Literals, known: Literals) -> Limited<Option<u64>> {
        let Some(mut filling) = self.model(set, known)? else { return Ok(None) };
        for variable in variables(made_false(filling, known)) {
            set = union(set, over(known, !made_false(filling, known)));
            let more = union(set, over(known, bit(variable)));
            filling = self.model(more, known)?.unwrap_or(filling);
        }
        Ok(Some(made_false(filling, known)))
    }

    /// A literal of a rule that is not obeyed yet and has the fewest open ones, if there is such a rule.
    fn shortest_open(&self, set: Literals) -> Option<Literals> {
        let open = !(set.yes | set.no);
        let unobeyed = |rule: &&Literals| rule.yes & set.yes == 0 && rule.no & set.no == 0;
        let rules = self.book.rules.iter().filter(unobeyed).map(|&rule| over(rule, open));
        let rule = rules.min_by_key(|rule| (rule.yes | rule.no).count_ones())?;
        let first = variables(rule.yes | rule.no).next()?;
        Some(over(rule, bit(first)))
    }
}

impl Reckoning for Search<'_> {
    fn first_model(&self) -> Limited<Option<u64>> {
        let mut set = self.book.facts;
        if self.model(set, NO_LITERALS)?.is_none() {
            return Ok(None);
        }
        for variable in 1..=self.book.variables {
            let no = union(set, Literals { yes: 0, no: bit(variable) });
            let yes = union(set, Literals { yes: bit(variable), no: 0 });
            let may_be_no = set.yes & bit(variable) == 0 && self.model(no, NO_LITERALS)?.is_some();
            set = if may_be_no { no } else { yes };
        }
        Ok(Some(set.yes))
    }

    fn forced(&self, set: Literals) -> Limited<Option<Literals>> {
        if self.model(set, NO_LITERALS)?.is_none() {
            return Ok(None);
        }
        let mut forced = over(set, self.book.all_choices());
        for variable in variables(self.book.all_choices() & !(set.yes | set.no)) {
            let yes = Literals { yes: bit(variable), no: 0 };
            for literal in [yes, opposite(yes)] {
                if self.model(union(set, opposite(literal)), NO_LITERALS)?.is_none() {
                    forced = union(forced, literal);
                }
            }
        }
        Ok(Some(forced))
    }

    fn cheapest(&self, known: Literals, goals: Literals) -> Limited<Vec<Candidate>> {
        let candidate = |goal, set| Candidate::new(self.book, known, goals, goal, set);
        let empty_sets = variables(goals.yes | goals.no).map(|goal| Reverse(candidate(goal, 0)));
        let mut queue: BinaryHeap<Reverse<Candidate>> = empty_sets.collect();
        let mut seen = HashSet::new();
        // What the fillings found so far make false, each with the goal that it is against.
        let mut found: Vec<(u32, u64)> = Vec::new();
        loop {
            self.count()?;
            let Reverse(least) = queue.pop().expect("all of the known set forces every goal");
            let Candidate { goal, set, .. } = least;
            let missed = match found.iter().find(|f| f.0 == goal && f.1 & set == 0) {
                Some(&(_, missed)) => missed,
                None => {
                    let against = union(over(known, set), opposite(over(goals, bit(goal))));
                    let Some(missed) = self.missed(against, known)? else { return Ok(vec![least]) };
                    found.push((goal, missed));
                    missed
                }
            };
            for variable in variables(missed) {
                let next = candidate(goal, set | bit(variable));
                if seen.insert(next) {
                    queue.push(Reverse(next));
                }
            }
        }
    }
}

/// The set with what it forces by unit propagation; none where a rule has no literal left.
pub fn propagated(rules: &[Literals], mut set: Literals) -> Option<Literals> {
    if set.yes & set.no != 0 {
        return None;
    }
    loop {
        let before = set;
        for &rule in rules {
            if rule.yes & set.yes != 0 || rule.no & set.no != 0 {
                continue;
            }
            let open = over(rule, !(set.yes | set.no));
            match (open.yes | open.no).count_ones() {
                0 => return None,
                1 => set = union(set, open),
                _ => {}
            }
        }
        if set == before {
            return Some(set);
        }
    }
}
