//! The next step: the cheapest set of known literals that forces a literal still unknown, a goal.
//! It is found by branch and bound over sets of known literals, the items, each named by its
//! variable. A model of the rules that makes the goal false is a witness: every set that forces the
//! goal holds an item that the model denies. Such models are kept in a pool, and their witnesses
//! bound the keys.
use super::models;
use super::{elements, literal_of, literals, over, variables_of, with, without, Book, NO_LITERALS};
use why_engine::{Literals, Step, MAX_CHOICES};

// The order of the candidates as one number, a key: the cost, then the number of facts, then the
// goal's variable, then the set of facts. A key is the sum of what the goal and each fact add to
// it.
const GOAL_UNIT: u64 = 1 << MAX_CHOICES;
const FACT_UNIT: u64 = MAX_CHOICES as u64 * GOAL_UNIT;
const COST_UNIT: u64 = (MAX_CHOICES as u64 + 1) * FACT_UNIT;

/// The models that the pool holds; once it is full, the oldest is replaced.
const POOL_SIZE: usize = 512;
/// The looks from one question that is asked for the pool alone to the next.
const LOOKS_A_QUESTION: u32 = 16;

/// What an item adds to a key, by variable.
type Weights = [u64; MAX_CHOICES];

/// The sets that hold `chosen` and lie within `limit`; `key` is that of `chosen`.
#[derive(Clone, Copy)]
struct Part {
    chosen: u64,
    limit: u64,
    key: u64,
}

/// What a look leaves of a part: the limit of the sets that can be better than the best, the
/// smallest open witness (0 if there is none), and the items chosen or used up by the bound.
struct Look {
    limit: u64,
    witness: u64,
    free: u64,
}

struct Reasons<'a> {
    clauses: &'a [Literals],
    known: Literals,
    weights: Weights,
    pool: Vec<u64>,
    oldest: usize,
    looks: u32,
    /// The least key so far.
    best: u64,
}

/// The methods take a goal as its opposite, a set of one literal.
impl Reasons<'_> {
    /// Lowers the best key to the least one of a part: at each split first the sets with the item,
    /// then those without it.
    fn explore(&mut self, opposite: Literals, mut part: Part) {
        while let Some(look) = self.look_with_pool(opposite, part) {
            let Some(item) = self.split(opposite, part, &look) else {
                return;
            };
            let (chosen, limit) = (part.chosen | 1 << item, look.limit);
            let key = part.key + self.weights[item];
            self.explore(opposite, Part { chosen, limit, key });
            part.limit = limit & !(1 << item);
        }
    }

    /// The item to split at: the cheapest of an open witness. Where none is open, the chosen set is
    /// put to the model search: it forces the goal, or the model that is found is a new witness.
    fn split(&mut self, opposite: Literals, part: Part, look: &Look) -> Option<usize> {
        let mut witness = look.witness;
        if witness == 0 {
            let Some(model) = self.ask(opposite, part.chosen) else {
                self.best = part.key;
                return None;
            };
            self.store(model);
            witness = denied(self.known, model);
        }
        elements(witness & look.limit).min_by_key(|&item| self.weights[item])
    }

    /// A look at a part. Where the last question for the pool alone is sixteen looks ago and
    /// something is left, a model is asked for that makes the free items true: its witness raises
    /// the bound.
    fn look_with_pool(&mut self, opposite: Literals, part: Part) -> Option<Look> {
        let look = self.look(opposite, part);
        self.looks = LOOKS_A_QUESTION.min(self.looks + 1);
        let look = look?;
        if self.looks < LOOKS_A_QUESTION {
            return Some(look);
        }
        self.looks = 0;
        if let Some(model) = self.ask(opposite, look.free) {
            self.store(model);
        }
        self.look(opposite, part)
    }

    /// The residual bound: each open witness adds the least weight left among its items, which is
    /// taken off each of them. Nothing is left of the part where the bound reaches the best key,
    /// nor where a witness has no item in the part. An item that would lift the bound to the best
    /// key is taken off the limit.
    fn look(&self, opposite: Literals, part: Part) -> Option<Look> {
        let question = self.question(opposite, part.chosen);
        let mut left = self.weights;
        let (mut bound, mut spent) = (part.key, 0);
        let (mut witness, mut size) = (0, u32::MAX);
        for &model in &self.pool {
            if self.best <= bound {
                return None;
            }
            if denied(question, model) != 0 {
                continue;
            }
            let items = denied(self.known, model) & part.limit;
            if items == 0 {
                return None;
            }
            if items.count_ones() < size {
                (witness, size) = (items, items.count_ones());
            }
            if items & spent == 0 {
                bound += charge(&mut left, items, &mut spent);
            }
        }
        let room = self.best.checked_sub(bound).filter(|&room| room > 0)?;
        let rest = elements(part.limit & !part.chosen).filter(|&item| left[item] < room);
        let limit = rest.fold(part.chosen, |limit, item| limit | 1 << item);
        let free = part.chosen | spent;
        Some(Look { limit, witness, free })
    }

    /// The known literals over a set, and the goal's opposite.
    fn question(&self, opposite: Literals, set: u64) -> Literals {
        let reasons = over(self.known, set);
        literals(reasons.yes | opposite.yes, reasons.no | opposite.no)
    }

    /// A model of the rules and a question. Known values are preferred, so that it denies few
    /// items.
    fn ask(&self, opposite: Literals, set: u64) -> Option<u64> {
        models::model(self.clauses, self.question(opposite, set), self.known.yes)
    }

    fn store(&mut self, model: u64) {
        if self.pool.len() < POOL_SIZE {
            self.pool.push(model);
        } else {
            self.pool[self.oldest] = model;
            self.oldest = (self.oldest + 1) % POOL_SIZE;
        }
    }
}

/// The variables of the literals that a model makes false.
fn denied(set: Literals, model: u64) -> u64 {
    (set.yes & !model) | (set.no & model)
}

/// Takes the least weight among the items off each of them and answers it; adds the items that then
/// weigh nothing to `spent`.
fn charge(left: &mut Weights, items: u64, spent: &mut u64) -> u64 {
    let amount = elements(items).map(|item| left[item]).min().unwrap_or(0);
    for item in elements(items) {
        left[item] -= amount;
        if left[item] == 0 {
            *spent |= 1 << item;
        }
    }
    amount
}

/// What the cost of a literal adds to a key.
fn cost_key(book: &Book, v: usize, yes: bool) -> u64 {
    u64::from(book.costs[v][usize::from(!yes)]) * COST_UNIT
}

fn weights_of(book: &Book, known: Literals) -> Weights {
    let mut weights = [0; MAX_CHOICES];
    for v in elements(variables_of(known)) {
        weights[v] = cost_key(book, v, known.yes >> v & 1 == 1) + FACT_UNIT + (1 << v);
    }
    weights
}

/// The opposite of the goal over a variable, whose cost the goal has, and the key with no reasons.
fn opposite_of(book: &Book, goals: Literals, v: usize) -> (Literals, u64) {
    let yes = goals.yes >> v & 1 == 0;
    let key = cost_key(book, v, yes) + v as u64 * GOAL_UNIT;
    (with(NO_LITERALS, 1 << v, yes), key)
}

/// The least key of all candidates. What is known forces each goal, so all of it with the lowest
/// goal is a candidate, and the first bound.
fn least_key(book: &Book, goals: Literals, known: Literals) -> u64 {
    let weights = weights_of(book, known);
    let lowest = variables_of(goals).trailing_zeros() as usize;
    let mut reasons = Reasons {
        clauses: &book.clauses,
        known,
        weights,
        pool: Vec::with_capacity(POOL_SIZE),
        oldest: 0,
        looks: 0,
        best: opposite_of(book, goals, lowest).1 + weights.iter().sum::<u64>(),
    };
    for v in elements(variables_of(goals)) {
        let (opposite, key) = opposite_of(book, goals, v);
        let (chosen, limit) = (0, variables_of(known));
        reasons.explore(opposite, Part { chosen, limit, key });
    }
    reasons.best
}

pub fn next_step(book: &Book, consequence: Literals, known: Literals) -> Step {
    let goals = without(consequence, known);
    if variables_of(goals) == 0 {
        return Step::NothingLeft;
    }
    let key = least_key(book, goals, known);
    let reasons = over(known, key % GOAL_UNIT);
    let forced = models::consequence(&book.clauses, book.choices, reasons).unwrap_or(known);
    Step::Next {
        goal: literal_of(goals, (key / GOAL_UNIT) as usize % MAX_CHOICES),
        reasons,
        new: without(forced, known),
        cost: (key / COST_UNIT) as u16,
    }
}
