//! Volumes drawn from a seed: right ones of a few small rules, right ones of many rules, ones at the bounds, and damaged
//! ones.

use crate::atoms::{push_pair, variables, volume_bytes, Atom, Rule, Term};
use crate::random::Random;

/// How rules are drawn.
#[derive(Clone)]
struct Style {
    bodies: (usize, usize),
    heads: (usize, usize),
    arities: (usize, usize),
    predicates: Vec<u16>,
    universals: (usize, usize),
    existentials: (usize, usize),
    /// of a term, the chance in percent that it is a constant
    constants: usize,
    /// of a head's term, the chance in percent that it is an existential variable
    open: usize,
}

/// Predicates that are equal by their low six or eight bits are among them.
const NEAR: [u16; 5] = [1, 65, 257, 2, 65_535];
const CONSTANTS: [u16; 4] = [0, 1, 9, 65_535];

fn small_style(random: &mut Random) -> Style {
    let predicates = random.from(1, 3);
    let low = random.from(1, 2);
    Style {
        bodies: (1, 2),
        heads: (1, 2),
        arities: (low, low + random.below(2)),
        predicates: (0..predicates).map(|_| random.pick(&NEAR)).collect(),
        universals: (1, random.pick(&[1, 2, 2, 2, 3])),
        existentials: (0, random.pick(&[0, 1, 1, 2])),
        constants: random.pick(&[0, 0, 10, 25]),
        open: random.pick(&[30, 50, 70]),
    }
}

/// Wide atoms of few variables.
fn wide_style(random: &mut Random) -> Style {
    Style {
        bodies: (1, 1),
        heads: (1, random.from(1, 3)),
        arities: (2, 4),
        predicates: vec![random.pick(&NEAR), 3],
        universals: (1, 2),
        existentials: (1, random.pick(&[1, 2, 2, 3])),
        constants: random.pick(&[0, 0, 10]),
        open: 65,
    }
}

fn many_style(random: &mut Random) -> Style {
    let predicates = random.from(2, 12);
    Style {
        bodies: (1, random.from(1, 2)),
        heads: (1, 1),
        arities: (1, 2),
        predicates: (0..predicates).map(|_| random.pick(&[0, 1, 2, 3, 4, 5, 64, 65, 66, 128, 256, 257, 40_000, 65_535])).collect(),
        universals: (1, 2),
        existentials: (0, 1),
        constants: random.pick(&[0, 5]),
        open: 40,
    }
}

/// As many atoms, terms or existential variables as a rule may have, and few values besides.
fn bounds_style(random: &mut Random) -> Style {
    Style {
        bodies: random.pick(&[(1, 1), (6, 6)]),
        heads: random.pick(&[(1, 1), (4, 4)]),
        arities: random.pick(&[(1, 1), (4, 4), (1, 4)]),
        predicates: vec![random.pick(&NEAR), 2],
        universals: (1, random.pick(&[1, 1, 2])),
        existentials: random.pick(&[(0, 0), (1, 2), (2, 4), (5, 8)]),
        constants: random.pick(&[0, 20]),
        open: 60,
    }
}

fn atom(style: &Style, random: &mut Random, universals: &[u16], existentials: &[u16]) -> Atom {
    let predicate = random.pick(&style.predicates);
    let arity = random.from(style.arities.0, style.arities.1);
    let mut terms = Vec::new();
    for _ in 0..arity {
        let term = if random.percent(style.constants) || (universals.is_empty() && existentials.is_empty()) {
            Term::Constant(random.pick(&CONSTANTS))
        } else if !existentials.is_empty() && (universals.is_empty() || random.percent(style.open)) {
            Term::Variable(random.pick(existentials))
        } else {
            Term::Variable(random.pick(universals))
        };
        terms.push(term);
    }
    Atom { predicate, terms }
}

/// Numbers of the variables: any of the twelve, in any order.
fn shuffled(random: &mut Random) -> Vec<u16> {
    let mut numbers: Vec<u16> = (0..12).collect();
    for at in (1..numbers.len()).rev() {
        numbers.swap(at, random.below(at + 1));
    }
    numbers
}

fn rule(style: &Style, random: &mut Random, number: u16) -> Rule {
    let numbers = shuffled(random);
    let universals = random.from(style.universals.0, style.universals.1);
    let existentials = random.from(style.existentials.0, style.existentials.1);
    let open = &numbers[4..4 + existentials];
    let mut made = Rule { number, body: Vec::new(), head: Vec::new() };
    for _ in 0..random.from(style.bodies.0, style.bodies.1) {
        made.body.push(atom(style, random, &numbers[..universals], &[]));
    }
    let universals = made.universals();
    for _ in 0..random.from(style.heads.0, style.heads.1) {
        made.head.push(atom(style, random, &universals, open));
    }
    made
}

/// A rule of three to six existential variables, of which four are allowed.
fn open_rule(random: &mut Random, number: u16) -> Rule {
    let numbers = shuffled(random);
    let (x, open) = (numbers[0], random.pick(&[3, 4, 4, 5, 6]));
    let mut terms: Vec<Term> = numbers[1..=open].iter().map(|v| Term::Variable(*v)).collect();
    for _ in 0..random.below(3) {
        terms.insert(random.below(terms.len() + 1), Term::Variable(x));
    }
    let predicate = random.pick(&NEAR);
    let body = vec![Atom { predicate, terms: vec![Term::Variable(x)] }];
    let mut head = Vec::new();
    while !terms.is_empty() {
        let arity = random.from(1, terms.len().min(4)).max(terms.len().min(4) / 2);
        head.push(Atom { predicate: random.pick(&NEAR), terms: terms.drain(..arity).collect() });
    }
    head.truncate(4);
    Rule { number, body, head }
}

/// Rising rule numbers, 0 and 65,535 among them at times.
fn numbers(random: &mut Random, count: usize) -> Vec<u16> {
    let mut number = random.pick(&[0, 1, 1, 200]);
    let mut list = Vec::new();
    for _ in 0..count {
        list.push(number);
        let most = random.pick(&[1, 1, 300]);
        number += random.from(1, most) as u16;
    }
    if count > 0 && random.percent(5) {
        list[count - 1] = 65_535;
    }
    list
}

fn rules(style: &Style, random: &mut Random, count: usize) -> Vec<Rule> {
    numbers(random, count).into_iter().map(|number| rule(style, random, number)).collect()
}

/// A rule with one atom changed: so that pairs are near to each other.
fn vary(rule: &Rule, style: &Style, random: &mut Random) -> Rule {
    let mut made = rule.clone();
    let universals = made.universals();
    let at = random.below(made.head.len());
    made.head[at] = atom(style, random, &universals, &made.existentials());
    made
}

/// A rule that matches on what the given one makes, and makes atoms like its own of the same terms: it meets the nulls.
fn turn(rule: &Rule, random: &mut Random) -> Option<Rule> {
    let body = vec![rule.head[random.below(rule.head.len())].clone()];
    let universals = variables(&body);
    if universals.is_empty() || universals.len() > 3 {
        return None;
    }
    let fresh = (0..12).find(|v| !universals.contains(v))?;
    let mut head = rule.head.clone();
    if random.percent(60) {
        head.truncate(1);
    }
    for term in head.iter_mut().flat_map(|a| &mut a.terms) {
        let stays = matches!(term, Term::Variable(v) if universals.contains(v)) && random.percent(50);
        let constant = matches!(term, Term::Constant(_)) && random.percent(70);
        if !stays && !constant {
            *term = match random.below(10) {
                0 => Term::Variable(fresh),
                1 => *random_term(rule, random),
                _ => Term::Variable(random.pick(&universals)),
            };
        }
    }
    Some(Rule { number: rule.number, body, head })
}

/// Some term of the rule's head.
fn random_term<'a>(rule: &'a Rule, random: &mut Random) -> &'a Term {
    let atom = &rule.head[random.below(rule.head.len())];
    &atom.terms[random.below(atom.terms.len())]
}

fn right(random: &mut Random) -> (&'static str, Vec<Rule>) {
    match random.below(1000) {
        0..=14 => {
            let style = many_style(random);
            let count = if random.percent(10) { random.from(60, 64) } else { random.from(6, 24) };
            ("many rules", rules(&style, random, count))
        }
        15..=24 => {
            let count = random.from(1, 2);
            let list = numbers(random, count).into_iter().map(|number| open_rule(random, number)).collect();
            ("many existential variables", list)
        }
        25..=59 => {
            let style = bounds_style(random);
            let count = random.from(1, 2);
            ("at the bounds", rules(&style, random, count))
        }
        60..=199 => {
            let style = wide_style(random);
            let count = random.from(1, 3);
            ("wide atoms", rules(&style, random, count))
        }
        200..=399 => {
            let style = if random.percent(40) { wide_style(random) } else { small_style(random) };
            let style = Style { existentials: (1, style.existentials.1.max(2)), ..style };
            let count = random.from(2, 3);
            let mut list = rules(&style, random, count);
            let (from, to) = (random.below(count), random.below(count));
            if let Some(turned) = turn(&list[from].clone(), random) {
                list[to] = Rule { number: list[to].number, ..turned };
            }
            ("rules on each other's nulls", list)
        }
        _ => {
            let style = small_style(random);
            let count = random.pick(&[0, 1, 1, 2, 2, 2, 2, 3, 3, 3, 4, 5]);
            let mut list = rules(&style, random, count);
            if count > 1 && random.percent(30) {
                let (from, to) = (random.below(count), random.below(count));
                let number = list[to].number;
                list[to] = Rule { number, ..vary(&list[from].clone(), &style, random) };
            }
            ("small rules", list)
        }
    }
}

/// Two rules that may have to do with each other, for the comparison of calls on facts.
pub fn two_rules(random: &mut Random) -> Vec<Rule> {
    let style = if random.percent(25) { wide_style(random) } else { small_style(random) };
    let bodies = (style.bodies.0, random.pick(&[1, 2, 2, 3]));
    let style = Style { bodies, ..style };
    rules(&style, random, 2)
}

/// Bytes at which something changes.
const BOUNDS: [u8; 16] = [0, 1, 2, 3, 4, 5, 6, 7, 11, 12, 14, 63, 64, 65, 128, 255];

/// One of the fields that a volume's bytes are laid out by: a count, a length, a number, an arity, a kind.
fn field(random: &mut Random, rules: &[Rule]) -> usize {
    let contents = 3 + 4 * rules.len();
    if rules.is_empty() || random.percent(25) {
        return random.below(contents);
    }
    let index = random.below(rules.len());
    let mut at = contents + rules[..index].iter().map(|r| crate::atoms::rule_bytes(r).len()).sum::<usize>();
    if random.percent(25) {
        return at + random.below(2);
    }
    at += 2;
    let atoms: Vec<&Atom> = rules[index].body.iter().chain(&rules[index].head).collect();
    let which = random.below(atoms.len());
    at += atoms[..which].iter().map(|a| 3 + 3 * a.terms.len()).sum::<usize>();
    match random.below(3) {
        0 => at + 2,
        1 => at + 3 + 3 * random.below(atoms[which].terms.len()),
        _ => at + 3 + 3 * random.below(atoms[which].terms.len()) + random.from(1, 2),
    }
}

/// Adds to a two-byte number, as to a rule's length.
fn shift(bytes: &mut [u8], at: usize, by: u16) {
    let n = (bytes[at] as u16 * 256 + bytes[at + 1] as u16).wrapping_add(by);
    bytes[at] = (n >> 8) as u8;
    bytes[at + 1] = n as u8;
}

fn damage(random: &mut Random, rules: &[Rule]) -> (&'static str, Vec<u8>) {
    let mut bytes = volume_bytes(rules);
    let length = bytes.len();
    match random.below(100) {
        0..=34 => {
            let at = field(random, rules);
            bytes[at] = if random.percent(70) { random.pick(&BOUNDS) } else { bytes[at].wrapping_add(random.pick(&[1, 255])) };
            ("a field changed", bytes)
        }
        35..=49 => {
            let at = random.below(length);
            bytes[at] = random.next() as u8;
            ("a byte changed", bytes)
        }
        50..=56 => {
            bytes.remove(random.below(length));
            ("a byte removed", bytes)
        }
        57..=63 => {
            bytes.insert(random.below(length + 1), random.pick(&BOUNDS));
            ("a byte added", bytes)
        }
        64..=72 => {
            bytes.truncate(random.below(length));
            ("cut", bytes)
        }
        73..=90 if !rules.is_empty() => {
            // bytes leave or join the last rule, or move from one rule to the next, and its stated length goes with them
            let index = random.below(rules.len());
            let at = 3 + 4 * index + 2;
            if index + 1 < rules.len() {
                let by = random.from(1, 20) as u16;
                let by = if random.percent(50) { by } else { by.wrapping_neg() };
                shift(&mut bytes, at, by);
                shift(&mut bytes, at + 4, by.wrapping_neg());
            } else if random.percent(70) {
                let most = length - 3 - 4 * rules.len();
                let by = random.from(1, most.min(30));
                bytes.truncate(length - by);
                shift(&mut bytes, at, (by as u16).wrapping_neg());
            } else {
                let by = random.from(1, 4);
                (0..by).for_each(|_| bytes.push(random.pick(&BOUNDS)));
                shift(&mut bytes, at, by as u16);
            }
            ("a length shifted", bytes)
        }
        91..=94 => {
            let more = if random.percent(3) { random.from(65_500, 65_600) } else { random.from(1, 40) };
            (0..more).for_each(|_| bytes.push(random.next() as u8));
            ("bytes after the end", bytes)
        }
        _ => {
            let count = random.below(40);
            let mut bytes: Vec<u8> = (0..count).map(|_| random.pick(&BOUNDS)).collect();
            if random.percent(70) {
                let mut head = vec![1];
                push_pair(&mut head, random.from(0, 3) as u16);
                bytes.splice(0..0, head);
            }
            ("any bytes", bytes)
        }
    }
}

/// The volume of an index under a seed, and of which kind it is.
pub fn volume(seed: u64, index: u64) -> (&'static str, Vec<u8>) {
    let mut random = Random::of(seed, index);
    let broken = random.percent(45);
    let (kind, rules) = right(&mut random);
    if !broken {
        return (kind, volume_bytes(&rules));
    }
    let few = rules.len().min(6);
    damage(&mut random, &rules[..few])
}
