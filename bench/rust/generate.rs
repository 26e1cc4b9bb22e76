//! Random rules of several styles, the same for the same seed.

use crate::draft::{Atom, Draft, Term};

/// splitmix64
pub struct Random(pub u64);

impl Random {
    pub fn next(&mut self) -> u64 {
        self.0 = self.0.wrapping_add(0x9E37_79B9_7F4A_7C15);
        let mut z = self.0;
        z = (z ^ (z >> 30)).wrapping_mul(0xBF58_476D_1CE4_E5B9);
        z = (z ^ (z >> 27)).wrapping_mul(0x94D0_49BB_1331_11EB);
        z ^ (z >> 31)
    }

    /// a number from low to high, both included
    pub fn from(&mut self, low: usize, high: usize) -> usize {
        low + (self.next() % (high - low + 1) as u64) as usize
    }

    fn percent(&mut self, chance: usize) -> bool {
        self.from(0, 99) < chance
    }
}

/// How rules of a style are drawn. Counts are from the first number to the second. A predicate's number settles its
/// arity: from `arity.0` upwards, in turn.
#[derive(Clone, Copy)]
pub struct Style {
    pub bodies: (usize, usize),
    pub heads: (usize, usize),
    pub arity: (usize, usize),
    pub predicates: usize,
    pub universals: (usize, usize),
    pub existentials: (usize, usize),
    /// of a term, the chance in percent that it is one of two constants
    pub constants: usize,
    /// of a head's term, the chance in percent that it is an existential variable
    pub open: usize,
}

pub fn style(name: &str) -> Option<Style> {
    let small = Style {
        bodies: (1, 2),
        heads: (1, 1),
        arity: (1, 3),
        predicates: 3,
        universals: (1, 2),
        existentials: (0, 2),
        constants: 5,
        open: 50,
    };
    let large = Style {
        bodies: (3, 6),
        heads: (2, 4),
        arity: (2, 4),
        predicates: 9,
        universals: (3, 8),
        existentials: (1, 4),
        constants: 5,
        open: 45,
    };
    match name {
        "small" => Some(small),
        "large" => Some(large),
        "hard" => Some(Style {
            // of one predicate with two places: of many styles tried, the one with the slowest pairs
            bodies: (5, 6),
            heads: (3, 4),
            predicates: 1,
            arity: (2, 2),
            universals: (6, 8),
            existentials: (2, 4),
            constants: 2,
            open: 80,
        }),
        "sparse" => Some(Style { predicates: 300, ..large }),
        // as many bytes as a rule can have
        "full" => Some(Style { bodies: (6, 6), heads: (4, 4), arity: (4, 4), ..large }),
        _ => None,
    }
}

/// `large`, or `large:6:4:64`: a style, and behind it how many body atoms and head atoms a rule has and how many rules there
/// are, each 0 for what the style says, or for 64 rules
pub fn sized(name: &str) -> Option<(Style, usize)> {
    let mut words = name.split(':');
    let mut style = style(words.next()?)?;
    let counts: Result<Vec<usize>, _> = words.map(str::parse).collect();
    let counts = counts.ok()?;
    let count = |place: usize| counts.get(place).copied().filter(|&count| count > 0);
    if let Some(bodies) = count(0) {
        style.bodies = (bodies, bodies);
    }
    if let Some(heads) = count(1) {
        style.heads = (heads, heads);
    }
    Some((style, count(2).unwrap_or(64)))
}

pub fn rules(style: &Style, seed: u64, count: usize) -> Vec<Draft> {
    let mut random = Random(seed);
    (0..count).map(|_| rule(style, &mut random)).collect()
}

pub fn rule(style: &Style, random: &mut Random) -> Draft {
    let universals = random.from(style.universals.0, style.universals.1);
    let existentials = random.from(style.existentials.0, style.existentials.1);
    let bodies = random.from(style.bodies.0, style.bodies.1);
    let heads = random.from(style.heads.0, style.heads.1);
    let body: Vec<Atom> = (0..bodies).map(|_| atom(style, random, universals, 0)).collect();
    let mut rule = Draft { body, head: Vec::new() };
    for _ in 0..heads {
        // head variables that do not stand in the body would be existential too, so they are drawn from those that do
        let mut head = atom(style, random, universals, existentials);
        let stand = rule.universals();
        for term in &mut head.terms {
            if let Term::Variable(v) = term {
                if (*v as usize) < universals && !stand.contains(v) {
                    *term = match stand.len() {
                        0 => Term::Constant(0),
                        n => Term::Variable(stand[random.from(0, n - 1)]),
                    };
                }
            }
        }
        rule.head.push(head);
    }
    rule
}

fn atom(style: &Style, random: &mut Random, universals: usize, existentials: usize) -> Atom {
    let predicate = random.from(0, style.predicates - 1);
    let arity = style.arity.0 + predicate % (style.arity.1 - style.arity.0 + 1);
    let terms = (0..arity).map(|_| term(style, random, universals, existentials)).collect();
    Atom { predicate: predicate as u16, terms }
}

fn term(style: &Style, random: &mut Random, universals: usize, existentials: usize) -> Term {
    if random.percent(style.constants) {
        return Term::Constant(random.from(0, 1) as u16);
    }
    if existentials > 0 && random.percent(style.open) {
        return Term::Variable((universals + random.from(0, existentials - 1)) as u16);
    }
    Term::Variable(random.from(0, universals - 1) as u16)
}
