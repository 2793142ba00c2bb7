//! The model search: unit propagation, and conflict analysis to the first unique implication point,
//! with the calls as its only memory. Above it, the first model and the consequence.
use super::{literals, variables_of, with};
use why_engine::{Literals, MAX_VARIABLES};

/// One search. A partial filling is the set of literals that it makes true.
struct Search<'a> {
    clauses: &'a [Literals],
    /// The variables whose yes is tried first.
    prefer: u64,
}

/// What a branch finds: a model, or a clause that the clauses imply.
type Branch = Result<u64, Literals>;

/// What a pass over the clauses finds.
enum Pass {
    Conflict(Literals),
    /// A clause that forces a variable, and the place after it.
    Unit(Literals, usize),
    /// Neither; whether a clause has no true literal yet.
    Quiet(bool),
}

/// The lowest variable of a mask, as a mask.
fn lowest(mask: u64) -> u64 {
    mask & mask.wrapping_neg()
}

/// The variables of a clause that are not set.
fn unset(clause: Literals, p: Literals) -> u64 {
    variables_of(clause) & !variables_of(p)
}

/// Whether the clause of a failed branch is a conflict here, or would have forced its variable
/// before the last decision: then this frame only hands it up. `base` is what was set before that
/// decision.
fn reaches_above(clause: Literals, p: Literals, base: u64) -> bool {
    let left = unset(clause, p);
    left == 0 || variables_of(clause) & !left & !base == 0
}

fn resolvent(a: Literals, b: Literals, bit: u64) -> Literals {
    literals((a.yes | b.yes) & !bit, (a.no | b.no) & !bit)
}

fn is_true(clause: Literals, p: Literals) -> bool {
    (clause.yes & p.yes) | (clause.no & p.no) != 0
}

/// The variables with which a clause can still be made true.
fn not_false(clause: Literals, p: Literals) -> u64 {
    (clause.yes & !p.no) | (clause.no & !p.yes)
}

impl Search<'_> {
    /// One pass over all clauses, from a place on and round to it again: after a unit clause the
    /// next pass goes on behind it, because the clauses before it were just looked at.
    fn pass(&self, p: Literals, from: usize) -> Pass {
        let length = self.clauses.len();
        let start = if from < length { from } else { 0 };
        let mut open = false;
        for range in [start..length, 0..start] {
            let first = range.start;
            for (i, &clause) in self.clauses[range].iter().enumerate() {
                let satisfied = is_true(clause, p);
                let left = not_false(clause, p);
                // One test for both common cases, so that its branch is easy to predict.
                if satisfied | (left & left.wrapping_sub(1) != 0) {
                    open |= !satisfied;
                } else if left == 0 {
                    return Pass::Conflict(clause);
                } else {
                    return Pass::Unit(clause, first + i + 1);
                }
            }
        }
        Pass::Quiet(open)
    }

    /// The variable to decide: the lowest of the shortest clause that has no true literal.
    fn choose(&self, p: Literals) -> u64 {
        let open = self.clauses.iter().filter(|&&clause| !is_true(clause, p));
        let left = open.map(|&clause| not_false(clause, p));
        lowest(left.min_by_key(|left| left.count_ones()).unwrap_or(0))
    }

    /// Sets what the clauses force; then decides a variable, unless each clause has a true literal.
    /// Where all have, the variables not set take their preferred values.
    fn follow(&self, p: Literals, base: u64, from: usize) -> Branch {
        match self.pass(p, from) {
            Pass::Conflict(clause) => Err(clause),
            Pass::Unit(clause, next) => self.force(p, base, clause, next),
            Pass::Quiet(true) => self.decide(p, base, from),
            Pass::Quiet(false) => Ok(p.yes | (self.prefer & !p.no)),
        }
    }

    /// Sets the variable that `reason` forces.
    fn force(&self, p: Literals, base: u64, reason: Literals, from: usize) -> Branch {
        let bit = lowest(unset(reason, p));
        let forced = with(p, bit, reason.yes & bit != 0);
        self.follow(forced, base, from).map_err(|clause| {
            if reaches_above(clause, p, base) {
                clause
            } else {
                resolvent(clause, reason, bit)
            }
        })
    }

    /// Decides a variable, its preferred value first. The clause of a failure forces a variable
    /// here, the same one or another.
    fn decide(&self, p: Literals, base: u64, from: usize) -> Branch {
        let bit = self.choose(p);
        let decided = with(p, bit, self.prefer & bit != 0);
        self.follow(decided, variables_of(p), from).or_else(|clause| {
            if reaches_above(clause, p, base) {
                Err(clause)
            } else {
                self.force(p, base, clause, 0)
            }
        })
    }
}

/// A model in which the given literals are true; `prefer` has variables of the book only. A clause
/// that comes up to the top forces one variable more, or is false under what is given.
pub fn model(clauses: &[Literals], given: Literals, prefer: u64) -> Option<u64> {
    let search = Search { clauses, prefer };
    let mut p = given;
    loop {
        let clause = match search.follow(p, variables_of(p), 0) {
            Ok(model) => return Some(model),
            Err(clause) => clause,
        };
        let bit = lowest(unset(clause, p));
        if bit == 0 {
            return None;
        }
        p = with(p, bit, clause.yes & bit != 0);
    }
}

/// The first model, variable 1 weightiest and no before yes: from any model on, variable by
/// variable, one is asked for that agrees so far and says no.
pub fn first_model(clauses: &[Literals], given: Literals) -> Option<u64> {
    let mut first = model(clauses, given, 0)?;
    for bit in (0..MAX_VARIABLES).map(|v| 1 << v) {
        if first & !given.yes & bit != 0 {
            let before = bit - 1;
            let yes = given.yes | (first & before);
            let no = given.no | (before & !first) | bit;
            first = model(clauses, literals(yes, no), 0).unwrap_or(first);
        }
    }
    Some(first)
}

/// The literals over choices that the given ones force, by OptimalPropagate: models that deny a
/// literal kept so far are asked for until there is none. The clause that asks for such a model
/// replaces that of the round before, which it implies.
pub fn consequence(clauses: &[Literals], choices: u64, given: Literals) -> Option<Literals> {
    let first = model(clauses, given, 0)?;
    let mut kept = literals(first & choices, choices & !first);
    let mut more = Vec::with_capacity(clauses.len() + 1);
    more.extend_from_slice(clauses);
    more.push(kept);
    loop {
        more[clauses.len()] = literals(kept.no, kept.yes);
        let Some(model) = model(&more, given, kept.no) else {
            return Some(kept);
        };
        kept = literals(kept.yes & model, kept.no & !model);
    }
}
