//! Both relations of two rules, by trying every way to give their variables values.
//!
//! Why few facts are enough. Say that facts F, an application of A by f and a match s of B show a positive reliance. Take
//! away from F whatever is neither an atom of A's body under f nor one of B's body under s that is not in A's head under f.
//! A still matches, and B still matches on what then results. All that is asked besides is that something is *not* there:
//! A's head filled otherwise, B's head filled somehow, B's body before A is applied, A's new nulls. With fewer facts that
//! stays so. So F may be taken to be exactly A's body under f and the atoms of B's body under s that are not in A's head under f.
//!
//! A restraint in the same way: F may be taken to be B's body under h; and H to be that, B's head under h, A's body under f,
//! and the atoms of B's head under k that are not in A's head under f. For that no alternative stands in H is also a no.
//!
//! So only values are left to try. Which value stands for what does not matter, but for the constants of the two rules and
//! the new nulls: each variable is given one of these, or a value that is already used, or one more that is not.

use crate::atoms::{Atom, Rule, Term};

/// A value: a constant of the two rules from 0, a null of A's from 20, one of B's from 40, any other from 60.
type Value = u8;
const NULLS_OF_A: Value = 20;
const NULLS_OF_B: Value = 40;
const OTHERS: Value = 60;
const NOTHING: Value = 255;

/// A predicate with its arity, then the values; past the arity there is nothing.
type Fact = (u32, [Value; 4]);
type Values = [Value; 12];

/// At most six body atoms of each rule, four head atoms of each, and four of an alternative.
#[derive(Clone, Copy)]
struct Facts {
    count: usize,
    all: [Fact; 32],
}

impl Facts {
    fn none() -> Facts {
        Facts { count: 0, all: [(0, [NOTHING; 4]); 32] }
    }

    fn all(&self) -> &[Fact] {
        &self.all[..self.count]
    }

    fn has(&self, fact: &Fact) -> bool {
        self.all().contains(fact)
    }

    fn with(mut self, more: &Facts) -> Facts {
        for fact in more.all() {
            if !self.has(fact) {
                self.all[self.count] = *fact;
                self.count += 1;
            }
        }
        self
    }

    /// Those that are not among the others.
    fn without(&self, others: &Facts) -> Facts {
        let mut left = Facts::none();
        for fact in self.all() {
            if !others.has(fact) {
                left.all[left.count] = *fact;
                left.count += 1;
            }
        }
        left
    }

    fn has_all(&self, others: &Facts) -> bool {
        others.all().iter().all(|fact| self.has(fact))
    }

    fn has_value(&self, value: Value) -> bool {
        self.all().iter().any(|(_, values)| values.contains(&value))
    }
}

/// A term in a rule: a constant's value, or a variable.
#[derive(Clone, Copy)]
enum Place {
    Constant(Value),
    Variable(usize),
}

struct Plain {
    body: Vec<(u32, Vec<Place>)>,
    head: Vec<(u32, Vec<Place>)>,
    universals: Vec<usize>,
    existentials: Vec<usize>,
}

fn plain(rule: &Rule, constants: &[u16]) -> Plain {
    let place = |term: &Term| match term {
        Term::Variable(v) => Place::Variable(*v as usize),
        Term::Constant(n) => Place::Constant(constants.iter().position(|c| c == n).expect("a constant of the two rules") as Value),
        Term::Null(_) => unreachable!("rules have no nulls"),
    };
    let atoms = |atoms: &[Atom]| {
        let key = |a: &Atom| a.predicate as u32 * 8 + a.terms.len() as u32;
        atoms.iter().map(|a| (key(a), a.terms.iter().map(place).collect())).collect()
    };
    Plain {
        body: atoms(&rule.body),
        head: atoms(&rule.head),
        universals: rule.universals().into_iter().map(usize::from).collect(),
        existentials: rule.existentials().into_iter().map(usize::from).collect(),
    }
}

fn filled(atoms: &[(u32, Vec<Place>)], h: &Values) -> Facts {
    let mut facts = Facts::none();
    for (key, places) in atoms {
        let mut values = [NOTHING; 4];
        for (at, place) in places.iter().enumerate() {
            values[at] = match place {
                Place::Constant(value) => *value,
                Place::Variable(v) => h[*v],
            };
        }
        if !facts.has(&(*key, values)) {
            facts.all[facts.count] = (*key, values);
            facts.count += 1;
        }
    }
    facts
}

/// Whether the existential variables can be given values so that every head atom is among the facts and the values pass.
/// Each head atom in turn is laid on each of the facts.
fn head_fits(rule: &Plain, at: usize, k: &Values, facts: &Facts, passes: &dyn Fn(&Values) -> bool) -> bool {
    let Some((key, places)) = rule.head.get(at) else { return passes(k) };
    facts.all().iter().any(|(fact_key, values)| {
        if fact_key != key {
            return false;
        }
        let mut k = *k;
        for (place, value) in places.iter().zip(values) {
            match place {
                Place::Constant(c) if c != value => return false,
                Place::Constant(_) => {}
                Place::Variable(v) if k[*v] == NOTHING => k[*v] = *value,
                Place::Variable(v) if k[*v] != *value => return false,
                Place::Variable(_) => {}
            }
        }
        head_fits(rule, at + 1, &k, facts, passes)
    })
}

/// What h gives the universal variables, and nothing for the existential ones.
fn opened(rule: &Plain, h: &Values) -> Values {
    let mut open = *h;
    for v in &rule.existentials {
        open[*v] = NOTHING;
    }
    open
}

fn is_satisfied(rule: &Plain, h: &Values, facts: &Facts) -> bool {
    head_fits(rule, 0, &opened(rule, h), facts, &|_| true)
}

/// Whether some null that h gave stands in no head atom under k.
fn spares(rule: &Plain, h: &Values, k: &Values) -> bool {
    let head = filled(&rule.head, k);
    rule.existentials.iter().any(|v| !head.has_value(h[*v]))
}

fn has_alternative(rule: &Plain, h: &Values, facts: &Facts) -> bool {
    head_fits(rule, 0, &opened(rule, h), facts, &|k| spares(rule, h, k))
}

fn are_new(rule: &Plain, h: &Values, facts: &Facts) -> bool {
    rule.existentials.iter().all(|v| !facts.has_value(h[*v]))
}

/// Nulls of its own for each existential variable.
fn with_nulls(rule: &Plain, first: Value) -> Values {
    let mut h = [NOTHING; 12];
    for (at, v) in rule.existentials.iter().enumerate() {
        h[*v] = first + at as Value;
    }
    h
}

/// Tries every way to give the variables values: those listed, those of the others that are used (`used` of them), and one
/// more. True where one passes.
fn any_way(
    variables: &[usize],
    listed: &[Value],
    used: Value,
    h: &mut Values,
    passes: &mut dyn FnMut(&Values, Value) -> bool,
) -> bool {
    let Some((v, rest)) = variables.split_first() else { return passes(h, used) };
    for value in listed {
        h[*v] = *value;
        if any_way(rest, listed, used, h, passes) {
            return true;
        }
    }
    for other in 0..=used {
        h[*v] = OTHERS + other;
        if any_way(rest, listed, used.max(other + 1), h, passes) {
            return true;
        }
    }
    false
}

fn nulls(rule: &Plain, first: Value) -> Vec<Value> {
    (0..rule.existentials.len()).map(|at| first + at as Value).collect()
}

/// Whether some atom of the first list has the predicate and arity of one of the second.
fn have_common_key(some: &[(u32, Vec<Place>)], others: &[(u32, Vec<Place>)]) -> bool {
    some.iter().any(|(key, _)| others.iter().any(|(other, _)| key == other))
}

fn relies(a: &Plain, b: &Plain, constants: &[Value]) -> bool {
    if !have_common_key(&a.head, &b.body) {
        return false;
    }
    let with_nulls_of_a = [constants, &nulls(a, NULLS_OF_A)].concat();
    any_way(&a.universals, constants, 0, &mut with_nulls(a, NULLS_OF_A), &mut |f, used| {
        let body = filled(&a.body, f);
        if is_satisfied(a, f, &body) {
            return false;
        }
        let head = filled(&a.head, f);
        any_way(&b.universals, &with_nulls_of_a, used, &mut [NOTHING; 12], &mut |s, _| {
            let wanted = filled(&b.body, s);
            let before = body.with(&wanted.without(&head));
            let after = before.with(&head);
            !before.has_all(&wanted)
                && after.has_all(&wanted)
                && are_new(a, f, &before)
                && !is_satisfied(a, f, &before)
                && !is_satisfied(b, s, &after)
        })
    })
}

fn restrains(a: &Plain, b: &Plain, constants: &[Value]) -> bool {
    if b.existentials.is_empty() || !have_common_key(&a.head, &b.head) {
        return false;
    }
    let with_nulls_of_b = [constants, &nulls(b, NULLS_OF_B)].concat();
    let with_both = [&with_nulls_of_b[..], &nulls(a, NULLS_OF_A)].concat();
    any_way(&b.universals, constants, 0, &mut with_nulls(b, NULLS_OF_B), &mut |h, used| {
        let before = filled(&b.body, h);
        let result = before.with(&filled(&b.head, h));
        if is_satisfied(b, h, &before) || has_alternative(b, h, &result) {
            return false;
        }
        any_way(&a.universals, &with_nulls_of_b, used, &mut with_nulls(a, NULLS_OF_A), &mut |f, used| {
            let least = result.with(&filled(&a.body, f));
            if is_satisfied(a, f, &least) || has_alternative(b, h, &least) {
                return false;
            }
            let head = filled(&a.head, f);
            any_way(&b.existentials, &with_both, used, &mut h.clone(), &mut |k, _| {
                let wanted = filled(&b.head, k);
                let later = least.with(&wanted.without(&head));
                !later.has_all(&wanted)
                    && spares(b, h, k)
                    && are_new(a, f, &later)
                    && !is_satisfied(a, f, &later)
                    && !has_alternative(b, h, &later)
            })
        })
    })
}

fn both(a: &Rule, b: &Rule) -> (Plain, Plain, Vec<Value>) {
    let mut constants = a.constants();
    for n in b.constants() {
        if !constants.contains(&n) {
            constants.push(n);
        }
    }
    assert!(constants.len() < NULLS_OF_A as usize, "too many constants to be tried");
    let values = (0..constants.len() as Value).collect();
    (plain(a, &constants), plain(b, &constants), values)
}

/// Whether b positively relies on a.
pub fn positively_relies(a: &Rule, b: &Rule) -> bool {
    let (a, b, constants) = both(a, b);
    relies(&a, &b, &constants)
}

/// Whether a restrains b.
pub fn is_restrained(a: &Rule, b: &Rule) -> bool {
    let (a, b, constants) = both(a, b);
    restrains(&a, &b, &constants)
}
