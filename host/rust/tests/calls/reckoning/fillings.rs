//! Books in whose rules and facts few variables occur, by all fillings of these variables, all goals and all sets of known literals. A variable that
//! occurs nowhere is free: it is in no consequence, and no in the first model.
use super::reader::Book;
use super::{bit, made_false, variables, Candidate, Limited, Literals, Reckoning};

/// The most variables that are filled in every way.
const MOST: u32 = 12;

pub struct Fillings<'a> {
    book: &'a Book,
    /// The yes of each filling that obeys the rules, in the order of the first model.
    obeying: Vec<u64>,
}

impl<'a> Fillings<'a> {
    /// None where too many variables occur.
    pub fn of(book: &'a Book) -> Option<Self> {
        let occurring: Vec<u32> = variables(book.occurring()).collect();
        let count = occurring.len() as u32;
        if count > MOST {
            return None;
        }
        let mut obeying = Vec::new();
        for number in 0..1_u64 << count {
            // The number's highest bit is the first variable, which is weightiest.
            let mut filling = 0;
            for (i, &variable) in occurring.iter().rev().enumerate() {
                filling |= (number >> i & 1) << (variable - 1);
            }
            let obeyed = |rule: &Literals| rule.yes & filling != 0 || rule.no & !filling != 0;
            if book.rules.iter().all(obeyed) {
                obeying.push(filling);
            }
        }
        Some(Fillings { book, obeying })
    }

    /// The fillings that obey the rules and make all of the set true.
    fn with(&self, set: Literals) -> impl Iterator<Item = u64> + '_ {
        self.obeying.iter().copied().filter(move |&filling| made_false(filling, set) == 0)
    }

    /// All models, the first one first.
    pub fn models(&self) -> Vec<u64> {
        self.with(self.book.facts).collect()
    }

    /// For each filling against the goal, the known literals that it makes false. A set is a candidate's when it meets each of these masks.
    fn against(&self, known: Literals, goals: Literals, goal: u32) -> Vec<u64> {
        let goal = super::over(goals, bit(goal));
        let mut masks: Vec<u64> = self.with(super::opposite(goal)).map(|filling| made_false(filling, known)).collect();
        masks.sort_unstable();
        masks.dedup();
        masks
    }
}

impl Reckoning for Fillings<'_> {
    fn first_model(&self) -> Limited<Option<u64>> {
        Ok(self.with(self.book.facts).next())
    }

    fn forced(&self, set: Literals) -> Limited<Option<Literals>> {
        let shown = self.book.occurring() & self.book.all_choices();
        let mut forced = Literals { yes: shown, no: shown };
        let mut any = false;
        for filling in self.with(set) {
            forced.yes &= filling;
            forced.no &= !filling;
            any = true;
        }
        Ok(any.then_some(forced))
    }

    fn cheapest(&self, known: Literals, goals: Literals) -> Limited<Vec<Candidate>> {
        let mut cheapest: Vec<Candidate> = Vec::new();
        for goal in variables(goals.yes | goals.no) {
            let against = self.against(known, goals, goal);
            for set in subsets(known.yes | known.no) {
                let candidate = Candidate::new(self.book, known, goals, goal, set);
                let least = cheapest.first().map_or(u32::MAX, |first| first.cost);
                if candidate.cost > least || against.iter().any(|&mask| mask & set == 0) {
                    continue;
                }
                if candidate.cost < least {
                    cheapest.clear();
                }
                cheapest.push(candidate);
            }
        }
        cheapest.sort_unstable();
        Ok(cheapest)
    }
}

/// All sets within a mask.
fn subsets(mask: u64) -> impl Iterator<Item = u64> {
    let mut next = Some(0_u64);
    std::iter::from_fn(move || {
        let set = next?;
        next = (set != mask).then(|| set.wrapping_sub(mask) & mask);
        Some(set)
    })
}
