//! What shows a yes, in plain values, and its check against the definitions, word by word. Shares nothing with the search
//! but the rules.

use crate::rule::{Atom, Rule, CONSTANTS, FILLER};

/// constants are their number, nulls their number and this bit
pub const NULL: u32 = 1 << 16;
const NOTHING: u32 = u32::MAX;

#[derive(Clone, Copy, PartialEq, Eq, Default)]
pub struct Fact {
    pub key: u32,
    pub terms: [u32; 4],
}

pub type Assignment = [u32; 12];

/// Of a reliance: the facts before, nothing besides, both rules' assignments. Of a restraint: the facts before the
/// second rule's application, what is there besides its result, both rules' assignments, and the alternative.
#[derive(Clone, Copy, Default)]
pub struct Witness {
    pub before: [Fact; 11],
    pub before_count: usize,
    pub besides: [Fact; 9],
    pub besides_count: usize,
    pub first: Assignment,
    pub second: Assignment,
    pub other: Assignment,
}

/// facts of a fixed room, for the few that a witness has and the results of two applications
struct List {
    facts: [Fact; 28],
    count: usize,
}

impl List {
    fn of(facts: &[Fact]) -> List {
        let mut list = List { facts: [Fact::default(); 28], count: 0 };
        facts.iter().for_each(|f| list.push(*f));
        list
    }

    fn push(&mut self, fact: Fact) {
        self.facts[self.count] = fact;
        self.count += 1;
    }

    fn all(&self) -> &[Fact] {
        &self.facts[..self.count]
    }

    fn with_result(&self, rule: &Rule, h: &Assignment) -> List {
        let mut list = List::of(self.all());
        rule.head[..rule.heads].iter().for_each(|a| list.push(under(rule, a, h)));
        list
    }

    fn stands(&self, value: u32) -> bool {
        self.all().iter().any(|f| f.terms.contains(&value))
    }
}

fn value(rule: &Rule, term: u8, h: &Assignment) -> u32 {
    match term {
        FILLER => NOTHING,
        t if t >= CONSTANTS => rule.constants[(t - CONSTANTS) as usize] as u32,
        v => h[v as usize],
    }
}

fn under(rule: &Rule, atom: &Atom, h: &Assignment) -> Fact {
    Fact { key: atom.key, terms: atom.terms.map(|t| value(rule, t, h)) }
}

fn is_match(rule: &Rule, h: &Assignment, facts: &List) -> bool {
    rule.body[..rule.bodies].iter().all(|a| facts.all().contains(&under(rule, a, h)))
}

/// Are there values of the existential variables with every head atom among the facts, and `wanted` of them?
fn extends(rule: &Rule, at: usize, k: &Assignment, set: u16, facts: &List, wanted: &dyn Fn(&Assignment) -> bool) -> bool {
    if at == rule.heads {
        return wanted(k);
    }
    facts.all().iter().filter(|f| f.key == rule.head[at].key).any(|fact| {
        let (mut k, mut set) = (*k, set);
        for (&term, &have) in rule.head[at].terms.iter().zip(&fact.terms) {
            if term < 12 && set >> term & 1 == 0 {
                k[term as usize] = have;
                set |= 1 << term;
            } else if value(rule, term, &k) != have {
                return false;
            }
        }
        extends(rule, at + 1, &k, set, facts, wanted)
    })
}

fn is_satisfied(rule: &Rule, h: &Assignment, facts: &List) -> bool {
    extends(rule, 0, h, !rule.existentials, facts, &|_| true)
}

fn spares(rule: &Rule, h: &Assignment, k: &Assignment) -> bool {
    let existential = |v: usize| rule.existentials >> v & 1 == 1;
    let stands = |x: u32| rule.head[..rule.heads].iter().any(|a| under(rule, a, k).terms.contains(&x));
    (0..12).any(|v| existential(v) && !stands(h[v]))
}

fn has_alternative(rule: &Rule, h: &Assignment, facts: &List) -> bool {
    extends(rule, 0, h, !rule.existentials, facts, &|k| spares(rule, h, k))
}

fn is_alternative(rule: &Rule, h: &Assignment, facts: &List, k: &Assignment) -> bool {
    let agrees = (0..12).all(|v| rule.existentials >> v & 1 == 1 || k[v] == h[v]);
    let present = rule.head[..rule.heads].iter().all(|a| facts.all().contains(&under(rule, a, k)));
    agrees && present && spares(rule, h, k)
}

fn is_fresh(rule: &Rule, h: &Assignment, facts: &List) -> bool {
    let existential = |v: usize| rule.existentials >> v & 1 == 1;
    (0..12).filter(|&v| existential(v)).all(|v| {
        let own = (0..v).all(|w| !existential(w) || h[w] != h[v]);
        own && (NULL..2 * NULL).contains(&h[v]) && !facts.stands(h[v])
    })
}

fn applies(rule: &Rule, h: &Assignment, facts: &List) -> bool {
    is_match(rule, h, facts) && !is_satisfied(rule, h, facts) && is_fresh(rule, h, facts)
}

pub fn shows_reliance(first: &Rule, second: &Rule, w: &Witness) -> bool {
    let before = List::of(&w.before[..w.before_count]);
    let after = before.with_result(first, &w.first);
    applies(first, &w.first, &before)
        && is_match(second, &w.second, &after)
        && !is_satisfied(second, &w.second, &after)
        && !is_match(second, &w.second, &before)
}

pub fn shows_restraint(first: &Rule, second: &Rule, w: &Witness) -> bool {
    let before = List::of(&w.before[..w.before_count]);
    let mut later = before.with_result(second, &w.second);
    w.besides[..w.besides_count].iter().for_each(|f| later.push(*f));
    let last = later.with_result(first, &w.first);
    applies(second, &w.second, &before)
        && applies(first, &w.first, &later)
        && is_alternative(second, &w.second, &last, &w.other)
        && !has_alternative(second, &w.second, &later)
}
