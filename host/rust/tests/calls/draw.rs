//! Books and texts drawn at random, the same ones on every run.
use crate::seasons;
use why_engine::{Literals, Moment, Window};

/// A generator of pseudo-random numbers (splitmix64).
pub struct Draw(u64);

impl Draw {
    /// The draw of one book: each kind and number has its own.
    pub fn new(kind: &str, number: u64) -> Self {
        let kind = kind.bytes().fold(7_u64, |sum, byte| sum.wrapping_mul(257) ^ u64::from(byte));
        let mut draw = Draw(kind);
        draw.0 = draw.next() ^ number;
        draw
    }

    pub fn next(&mut self) -> u64 {
        self.0 = self.0.wrapping_add(0x9e37_79b9_7f4a_7c15);
        let mut z = self.0;
        z = (z ^ z >> 30).wrapping_mul(0xbf58_476d_1ce4_e5b9);
        z = (z ^ z >> 27).wrapping_mul(0x94d0_49bb_1331_11eb);
        z ^ z >> 31
    }

    /// A number from `least` to `most`.
    pub fn between(&mut self, least: usize, most: usize) -> usize {
        least + (self.next() % (most - least + 1) as u64) as usize
    }

    /// True this often in a hundred.
    pub fn chance(&mut self, percent: usize) -> bool {
        self.between(1, 100) <= percent
    }

    pub fn pick<T: Copy>(&mut self, list: &[T]) -> T {
        list[self.between(0, list.len() - 1)]
    }

    /// So many different numbers from `least` to `most`, rising.
    pub fn rising(&mut self, count: usize, least: usize, most: usize) -> Vec<usize> {
        let mut left: Vec<usize> = (least..=most).collect();
        while left.len() > count {
            let out = self.between(0, left.len() - 1);
            left.remove(out);
        }
        left
    }

    /// So many bytes, each any one.
    pub fn bytes(&mut self, count: usize) -> Vec<u8> {
        let mut bytes: Vec<u8> = (0..count.div_ceil(8)).flat_map(|_| self.next().to_le_bytes()).collect();
        bytes.truncate(count);
        bytes
    }

    /// How many bytes of a buffer are said to be written, where that does not matter: also more than it has.
    pub fn number_written(&mut self, room: usize) -> usize {
        let within = self.between(0, room);
        self.pick(&[0, within, room, room + 1, usize::MAX])
    }

    /// Literals that are a part of the set.
    pub fn part(&mut self, set: Literals) -> Literals {
        Literals { yes: set.yes & self.next(), no: set.no & self.next() }
    }
}

/// A book to be written. It need not be one that is accepted.
#[derive(Clone, Default)]
pub struct Order {
    pub variables: usize,
    pub choices: usize,
    pub costs: Vec<[u16; 2]>,
    pub rules: Vec<Vec<i8>>,
    /// The window of each rule, if it has one; none of the rules after the last.
    pub windows: Vec<Option<Window>>,
    pub facts: Vec<i8>,
}

impl Order {
    pub fn records(&self) -> Vec<Vec<u8>> {
        let [v, u, r] = [self.variables, self.choices, self.rules.len()].map(|n| n as u8);
        let mut records = vec![vec![b'H', b'D', v, u, r]];
        for (i, [yes, no]) in self.costs.iter().enumerate() {
            let mut record = vec![b'C', b'S', i as u8 + 1];
            record.extend(yes.to_be_bytes());
            record.extend(no.to_be_bytes());
            records.push(record);
        }
        for (i, rule) in self.rules.iter().enumerate() {
            let mut record = vec![b'R', b'L', rule.len() as u8];
            record.extend(rule.iter().map(|&literal| literal as u8));
            records.push(record);
            let window = self.windows.get(i).copied().flatten();
            records.extend(window.map(seasons::record));
        }
        records.extend(self.facts.iter().map(|&fact| vec![b'F', b'A', fact as u8]));
        records.push(b"EN".to_vec());
        records
    }

    pub fn bytes(&self) -> Vec<u8> {
        self.records().concat()
    }
}

fn literal(variable: usize, yes: bool) -> i8 {
    variable as i8 * if yes { 1 } else { -1 }
}

fn costs(draw: &mut Draw, choices: usize) -> Vec<[u16; 2]> {
    let most = draw.pick(&[1, 2, 3, 3, 9, 999]);
    (0..choices).map(|_| [(); 2].map(|_| draw.between(1, most) as u16)).collect()
}

fn filling(draw: &mut Draw, variables: usize) -> Vec<bool> {
    (0..variables).map(|_| draw.chance(50)).collect()
}

/// Facts over some of the choices, as the filling has them.
fn facts(draw: &mut Draw, choices: usize, filling: &[bool]) -> Vec<i8> {
    let count = draw.between(0, choices);
    draw.rising(count, 1, choices).into_iter().map(|v| literal(v, filling[v - 1])).collect()
}

/// A rule of so many literals, at least one and at most `most_true` of which are true in the filling.
fn rule(draw: &mut Draw, length: usize, most_true: usize, filling: &[bool]) -> Vec<i8> {
    let length = length.min(filling.len());
    let chosen = draw.rising(length, 1, filling.len());
    let count = draw.between(1, most_true);
    let kept: Vec<usize> = (0..count).map(|_| draw.between(1, length.max(1)) - 1).collect();
    let sign = |(i, &v): (usize, &usize)| literal(v, filling[v - 1] == kept.contains(&i));
    chosen.iter().enumerate().map(sign).collect()
}

/// A rule of any literals.
pub fn any_rule(draw: &mut Draw, variables: usize) -> Vec<i8> {
    let length = if draw.chance(1) { 0 } else { draw.pick(&[1, 2, 2, 3, 3, 3, 4, 5, 8]) };
    let signs = filling(draw, variables);
    rule(draw, length, 8, &signs)
}

/// Few variables, rules and facts without a plan; many have no model.
pub fn plain(draw: &mut Draw) -> Order {
    let variables = draw.between(0, 8);
    let choices = draw.between(0, variables);
    let rules = (0..draw.between(0, 2 * variables)).map(|_| any_rule(draw, variables)).collect();
    let signs = filling(draw, variables);
    let facts = facts(draw, choices, &signs);
    Order { variables, choices, costs: costs(draw, choices), rules, facts, ..Order::default() }
}

/// Rules and facts around a hidden model.
fn around(draw: &mut Draw, variables: usize) -> Order {
    let choices = draw.between(variables / 2, variables.min(32));
    let most_true = draw.between(1, 3);
    let hidden = filling(draw, variables);
    let longest = draw.between(2, 4);
    let mut rules = Vec::new();
    for _ in 0..draw.between(variables / 2, 5 * variables / 2) {
        let length = if draw.chance(3) { 1 } else { draw.between(2, longest) };
        rules.push(rule(draw, length, most_true, &hidden));
    }
    let facts = facts(draw, choices, &hidden);
    Order { variables, choices, costs: costs(draw, choices), rules, facts, ..Order::default() }
}

pub fn small(draw: &mut Draw) -> Order {
    let variables = draw.between(3, 9);
    around(draw, variables)
}

/// Each choice that is no fact is forced in one to three ways by literals before it; some ways need a case split over two helpers.
fn combined(draw: &mut Draw, choices: usize, helpers: usize, given: usize) -> Order {
    let variables = choices + helpers;
    let hidden = filling(draw, variables);
    let mut way: Vec<usize> = (1..=choices).collect();
    for i in 0..choices {
        way.swap(i, draw.between(i, choices - 1));
    }
    let mut rules = Vec::new();
    for (before, &target) in way.iter().enumerate().skip(given) {
        for _ in 0..draw.between(1, 3) {
            let count = draw.between(1, before.min(3));
            let chosen = draw.rising(count, 0, before - 1);
            let mut forcing: Vec<i8> = chosen.iter().map(|&i| literal(way[i], !hidden[way[i] - 1])).collect();
            forcing.push(literal(target, hidden[target - 1]));
            if helpers >= 2 && draw.chance(25) {
                rules.extend(split_over(draw, &forcing, choices + 1, variables));
            } else {
                rules.push(forcing);
            }
        }
    }
    rules.truncate(128);
    rules.iter_mut().for_each(|rule| rule.sort_by_key(|literal| literal.abs()));
    let mut facts: Vec<i8> = way[..given].iter().map(|&v| literal(v, hidden[v - 1])).collect();
    facts.sort_by_key(|literal| literal.abs());
    Order { variables, choices, costs: costs(draw, choices), rules, facts, ..Order::default() }
}

/// Four rules that are together the given one, each with two helpers in other signs.
fn split_over(draw: &mut Draw, rule: &[i8], least: usize, most: usize) -> Vec<Vec<i8>> {
    let two = draw.rising(2, least, most);
    let signs = [(true, true), (true, false), (false, true), (false, false)];
    let with = |(a, b)| [rule, &[literal(two[0], a), literal(two[1], b)]].concat();
    signs.into_iter().map(with).collect()
}

pub fn combined_small(draw: &mut Draw) -> Order {
    let choices = draw.between(4, 9);
    let (helpers, given) = (draw.between(0, 3), draw.between(1, choices - 1));
    combined(draw, choices, helpers, given)
}

pub fn combined_large(draw: &mut Draw) -> Order {
    let choices = draw.between(14, 32);
    let (helpers, given) = (draw.between(0, 16), draw.between(4, 13));
    combined(draw, choices, helpers, given)
}

/// A small book with its variables put anywhere among up to 32 choices and 48 variables, the order kept.
pub fn spread(draw: &mut Draw) -> Order {
    let maker = draw.pick(&[small, combined_small]);
    let order = maker(draw);
    let helpers = order.variables - order.choices;
    let choices = if draw.chance(50) { 32 } else { draw.between(order.choices, 32) };
    let variables = if draw.chance(50) { 48 } else { draw.between(choices + helpers, 48) };
    let mut places = draw.rising(order.choices, 1, choices);
    places.extend(draw.rising(helpers, choices + 1, variables));
    let put = |&old: &i8| literal(places[old.unsigned_abs() as usize - 1], old > 0);
    let mut spread = Order { variables, choices, costs: costs(draw, choices), ..Order::default() };
    spread.rules = order.rules.iter().map(|rule| rule.iter().map(put).collect()).collect();
    spread.facts = order.facts.iter().map(put).collect();
    spread
}

/// Rules that exclude each other are added to a book.
pub fn contradictory(draw: &mut Draw) -> Order {
    let mut order = if draw.chance(50) { small(draw) } else { spread(draw) };
    let (a, b) = (1, draw.between(2, order.variables));
    for signs in 0..4 {
        order.rules.push(vec![literal(a, signs & 1 == 0), literal(b, signs & 2 == 0)]);
    }
    if draw.chance(20) {
        order.rules.push(Vec::new());
    }
    order
}

/// Around a hidden model, with more variables than can be filled in every way.
pub fn large(draw: &mut Draw) -> Order {
    let variables = draw.between(20, 48);
    let mut order = around(draw, variables);
    order.facts.truncate(draw.between(2, 10));
    order
}

/// At the limits or one over one of them.
pub fn at_limits(draw: &mut Draw) -> Order {
    let [v, u, r] = [48, 32, 128].map(|limit| limit + usize::from(draw.chance(15)));
    let hidden = filling(draw, 48);
    let rules = (0..r).map(|_| rule(draw, 8, 8, &hidden)).collect();
    let facts = (1..=32).map(|v| literal(v, hidden[v - 1])).collect();
    Order { variables: v, choices: u, costs: costs(draw, u), rules, facts, ..Order::default() }
}

/// A book with one thing wrong in its bytes or its values, as far as that is not allowed by chance.
pub fn damaged(draw: &mut Draw, at: Moment) -> Vec<u8> {
    let maker = draw.pick(&[plain, small, combined_small, spread]);
    let order = maker(draw);
    let mut order = seasons::seasonal(draw, order, at);
    if draw.chance(60) {
        over_limit(draw, &mut order);
        return order.bytes();
    }
    let mut records = order.records();
    let chosen = draw.between(0, records.len() - 1);
    let other = draw.between(0, records.len() - 1);
    match draw.between(0, 9) {
        0 => drop(records.remove(chosen)),
        1 => records.insert(chosen, records[chosen].clone()),
        2 => records.swap(chosen, 0),
        3 => records.insert(other, records[chosen].clone()),
        4 | 5 => {
            let mark = draw.pick(&[b"HD", b"CS", b"RL", b"FA", b"EN", b"WN", b"hd", b"\0\0"]);
            records[chosen][..2].copy_from_slice(mark);
        }
        _ => return damaged_bytes(draw, order.bytes()),
    }
    records.concat()
}

fn damaged_bytes(draw: &mut Draw, mut bytes: Vec<u8>) -> Vec<u8> {
    let chosen = draw.between(0, bytes.len() - 1);
    let any = draw.next() as u8;
    let byte = draw.pick(&[0, 1, 9, 48, 49, 0x7f, 0x80, 0xff, any]);
    match draw.between(0, 4) {
        0 => bytes.truncate(chosen),
        1 => bytes[chosen] = byte,
        2 => bytes.insert(chosen, byte),
        3 => drop(bytes.remove(chosen)),
        _ => bytes.extend((0..=chosen).map(|_| draw.next() as u8)),
    }
    bytes
}

/// Puts one value of the book over its limit, or a literal or a time where it must not be.
fn over_limit(draw: &mut Draw, order: &mut Order) {
    match draw.between(0, 15) {
        0 => order.variables = draw.between(49, 255),
        1 => order.choices = draw.between(33, 255),
        2 => order.choices = order.variables + 1,
        3 => order.rules.resize(draw.between(128, 140), vec![1]),
        4 | 5 if !order.costs.is_empty() => {
            let chosen = draw.between(0, order.costs.len() - 1);
            order.costs[chosen][draw.between(0, 1)] = draw.pick(&[0, 1000, 1001, 999, 0xffff]);
        }
        6 | 7 => order.rules.push((1..=draw.between(8, 20) as i8).collect()),
        8 | 9 => put_wrong_literal(draw, &mut order.facts, order.choices),
        10..=13 if !order.rules.is_empty() => {
            let chosen = draw.between(0, order.rules.len() - 1);
            order.windows.resize(order.rules.len(), None);
            order.windows[chosen] = Some(seasons::wrong_window(draw));
        }
        _ => {
            let mut list = order.rules.pop().unwrap_or_default();
            put_wrong_literal(draw, &mut list, order.variables);
            order.rules.push(list);
        }
    }
}

/// Puts 0, the byte 80, a variable over the top, or one that is there already, with the same or the opposite sign, into a list of literals.
fn put_wrong_literal(draw: &mut Draw, list: &mut Vec<i8>, top: usize) {
    let over = top as i8 + 1;
    let old = if list.is_empty() { 0 } else { draw.pick(list) };
    let wrong = draw.pick(&[0, i8::MIN, i8::MAX, over, -over, old, -old]);
    list.insert(draw.between(0, list.len()), wrong);
}

/// Bytes without a plan, sometimes behind a good beginning, a few of them very many.
pub fn noise(draw: &mut Draw, at: Moment) -> Vec<u8> {
    let mut bytes = match draw.between(0, 3) {
        0 => Vec::new(),
        1 => b"HD".to_vec(),
        2 => vec![b'H', b'D', draw.between(0, 2) as u8, 0, draw.between(0, 2) as u8],
        _ => {
            let order = plain(draw);
            seasons::seasonal(draw, order, at).bytes()
        }
    };
    let more = match draw.between(0, 199) {
        0 => draw.pick(&[4_000, 100_000]),
        _ => draw.between(0, 40),
    };
    for _ in 0..more {
        let byte = draw.next() as u8;
        bytes.push(draw.pick(&[byte, byte % 9, b"HDCSRLWNFAEN"[usize::from(byte) % 12]]));
    }
    bytes
}
