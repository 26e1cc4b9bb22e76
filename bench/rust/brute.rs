//! The same relations by trying everything, for very small rules; slow, and as unlike the search as it can be.
//!
//! Values are numbers: constants from 0, then values of no meaning, then the nulls that the two applications give.
//! Every way to give the variables values is tried, up to the names of the values of no meaning, and every choice of
//! which atoms are old. Each is held against the definition. Existential variables range over all values that stand
//! in the facts.

use crate::draft::{draft, volume, Atom, Draft, Term};
use crate::generate::{rule, Random, Style};
use crate::literal::Witness;
use crate::reliance::relies;
use crate::restraint::restrains;
use crate::rule::{read_volume, Rule};

const PLAIN: i32 = 100_000;
const FIRST: i32 = 200_000;
const SECOND: i32 = 300_000;

type Fact = [i32; 5];
type Values = [i32; 12];

struct Small {
    body: Vec<(i32, Vec<Term>)>,
    head: Vec<(i32, Vec<Term>)>,
    universals: Vec<u16>,
    existentials: Vec<u16>,
}

fn small(draft: &Draft) -> Small {
    let rows = |atoms: &[Atom]| {
        atoms.iter().map(|a| (a.predicate as i32 * 8 + a.terms.len() as i32, a.terms.clone())).collect()
    };
    Small {
        body: rows(&draft.body),
        head: rows(&draft.head),
        universals: draft.universals(),
        existentials: draft.existentials(),
    }
}

fn filled(atoms: &[(i32, Vec<Term>)], h: &Values) -> Vec<Fact> {
    let fill = |(key, terms): &(i32, Vec<Term>)| {
        let mut fact = [*key, -1, -1, -1, -1];
        for (at, term) in terms.iter().enumerate() {
            fact[at + 1] = match term {
                Term::Constant(n) => *n as i32,
                Term::Variable(v) => h[*v as usize],
            };
        }
        fact
    };
    atoms.iter().map(fill).collect()
}

fn all_in(some: &[Fact], facts: &[Fact]) -> bool {
    some.iter().all(|f| facts.contains(f))
}

fn values_in(facts: &[Fact]) -> Vec<i32> {
    let mut values: Vec<i32> = facts.iter().flat_map(|f| f[1..].to_vec()).filter(|&x| x >= 0).collect();
    values.sort();
    values.dedup();
    values
}

/// every way to give the variables values of the list
fn any_way(variables: &[u16], values: &[i32], h: &mut Values, test: &mut dyn FnMut(&Values) -> bool) -> bool {
    let Some((v, rest)) = variables.split_first() else { return test(h) };
    values.iter().any(|&x| {
        h[*v as usize] = x;
        any_way(rest, values, h, test)
    })
}

fn is_satisfied(rule: &Small, h: &Values, facts: &[Fact]) -> bool {
    any_way(&rule.existentials, &values_in(facts), &mut h.clone(), &mut |k| all_in(&filled(&rule.head, k), facts))
}

fn is_alternative(rule: &Small, h: &Values, k: &Values, facts: &[Fact]) -> bool {
    let head = filled(&rule.head, k);
    let there = values_in(&head);
    all_in(&head, facts) && rule.existentials.iter().any(|&v| !there.contains(&h[v as usize]))
}

fn has_alternative(rule: &Small, h: &Values, facts: &[Fact]) -> bool {
    any_way(&rule.existentials, &values_in(facts), &mut h.clone(), &mut |k| is_alternative(rule, h, k, facts))
}

fn stands_in(rule: &Small, h: &Values, facts: &[Fact]) -> bool {
    let there = values_in(facts);
    rule.existentials.iter().any(|&v| there.contains(&h[v as usize]))
}

/// Every way to give the variables constants of the list, the nulls of the list, values of no meaning that were given
/// before, or one more such value. `known` is how many there are.
fn each_way(
    variables: &[u16],
    others: &[i32],
    known: i32,
    h: &mut Values,
    test: &mut dyn FnMut(&Values, i32) -> bool,
) -> bool {
    let Some((v, rest)) = variables.split_first() else { return test(h, known) };
    let fixed = others.iter().any(|&x| {
        h[*v as usize] = x;
        each_way(rest, others, known, h, test)
    });
    fixed
        || (0..=known).any(|n| {
            h[*v as usize] = PLAIN + n;
            each_way(rest, others, known.max(n + 1), h, test)
        })
}

fn nulls(rule: &Small, from: i32) -> Values {
    let mut h = [-2; 12];
    rule.existentials.iter().for_each(|&v| h[v as usize] = from + v as i32);
    h
}

fn null_list(rule: &Small, from: i32) -> Vec<i32> {
    rule.existentials.iter().map(|&v| from + v as i32).collect()
}

fn constants(rules: [&Small; 2]) -> Vec<i32> {
    let atoms = rules.into_iter().flat_map(|r| r.body.iter().chain(&r.head));
    let terms = atoms.flat_map(|(_, terms)| terms);
    let mut found: Vec<i32> = terms.filter_map(|t| if let Term::Constant(n) = t { Some(*n as i32) } else { None }).collect();
    found.sort();
    found.dedup();
    found
}

/// every list of some of the facts
fn each_part(facts: &[Fact], test: &mut dyn FnMut(&[Fact]) -> bool) -> bool {
    (0..1usize << facts.len()).any(|set| {
        let part: Vec<Fact> = (0..facts.len()).filter(|at| set >> at & 1 == 1).map(|at| facts[at]).collect();
        test(&part)
    })
}

fn brute_reliance(first: &Small, second: &Small) -> bool {
    let fixed = constants([first, second]);
    let with_nulls = [fixed.clone(), null_list(first, FIRST)].concat();
    each_way(&first.universals, &fixed, 0, &mut nulls(first, FIRST), &mut |f, known| {
        let body = filled(&first.body, f);
        if is_satisfied(first, f, &body) {
            return false;
        }
        each_way(&second.universals, &with_nulls, known, &mut [-2; 12], &mut |s, _| {
            let wanted = filled(&second.body, s);
            each_part(&wanted, &mut |old| {
                let before = [&body[..], old].concat();
                let after = [&before[..], &filled(&first.head, f)].concat();
                !stands_in(first, f, &before)
                    && all_in(&wanted, &after)
                    && !all_in(&wanted, &before)
                    && !is_satisfied(first, f, &before)
                    && !is_satisfied(second, s, &after)
            })
        })
    })
}

fn brute_restraint(first: &Small, second: &Small) -> bool {
    let fixed = constants([first, second]);
    let with_second = [fixed.clone(), null_list(second, SECOND)].concat();
    let with_both = [with_second.clone(), null_list(first, FIRST)].concat();
    each_way(&second.universals, &fixed, 0, &mut nulls(second, SECOND), &mut |h, known| {
        let before = filled(&second.body, h);
        let result = [&before[..], &filled(&second.head, h)].concat();
        if is_satisfied(second, h, &before) || has_alternative(second, h, &result) {
            return false;
        }
        each_way(&first.universals, &with_second, known, &mut nulls(first, FIRST), &mut |f, known| {
            let least = [&result[..], &filled(&first.body, f)].concat();
            if is_satisfied(first, f, &least) || has_alternative(second, h, &least) {
                return false;
            }
            each_way(&second.existentials, &with_both, known, &mut h.clone(), &mut |k, _| {
                let wanted = filled(&second.head, k);
                each_part(&wanted, &mut |old| {
                    let later = [&least[..], old].concat();
                    let last = [&later[..], &filled(&first.head, f)].concat();
                    !stands_in(first, f, &later)
                        && is_alternative(second, h, k, &last)
                        && !is_satisfied(first, f, &later)
                        && !has_alternative(second, h, &later)
                })
            })
        })
    })
}

/// all facts over the values, of the keys that stand in the rules
fn all_facts(rules: [&Small; 2], values: &[i32]) -> Vec<Fact> {
    let mut keys: Vec<i32> = rules.into_iter().flat_map(|r| r.body.iter().chain(&r.head)).map(|a| a.0).collect();
    keys.sort();
    keys.dedup();
    let mut facts = Vec::new();
    for key in keys {
        let places: Vec<u16> = (0..key as u16 % 8).collect();
        any_way(&places, values, &mut [-1; 12], &mut |h| {
            facts.push([key, h[0], h[1], h[2], h[3]]);
            false
        });
    }
    facts
}

fn applies(rule: &Small, h: &Values, facts: &[Fact]) -> bool {
    all_in(&filled(&rule.body, h), facts) && !stands_in(rule, h, facts) && !is_satisfied(rule, h, facts)
}

/// by the definition alone, over every set of facts of two values
fn reliance_over_two(first: &Small, second: &Small, two: &[i32]) -> bool {
    let with_nulls = [two.to_vec(), null_list(first, FIRST)].concat();
    each_part(&all_facts([first, second], two), &mut |before| {
        any_way(&first.universals, two, &mut nulls(first, FIRST), &mut |f| {
            let after = [before, &filled(&first.head, f)].concat();
            applies(first, f, before)
                && any_way(&second.universals, &with_nulls, &mut [-2; 12], &mut |s| {
                    let wanted = filled(&second.body, s);
                    all_in(&wanted, &after) && !all_in(&wanted, before) && !is_satisfied(second, s, &after)
                })
        })
    })
}

/// likewise, where what is there besides is any set of facts of these two values and the nulls that were given
fn restraint_over_two(first: &Small, second: &Small, two: &[i32]) -> bool {
    let with_second = [two.to_vec(), null_list(second, SECOND)].concat();
    let with_both = [with_second.clone(), null_list(first, FIRST)].concat();
    let room = all_facts([first, second], &with_second);
    each_part(&all_facts([first, second], two), &mut |before| {
        any_way(&second.universals, two, &mut nulls(second, SECOND), &mut |h| {
            let result = [before, &filled(&second.head, h)].concat();
            if !applies(second, h, before) || has_alternative(second, h, &result) {
                return false;
            }
            let besides: Vec<Fact> = room.iter().copied().filter(|f| !result.contains(f)).collect();
            each_part(&besides, &mut |more| {
                let later = [&result[..], more].concat();
                !has_alternative(second, h, &later)
                    && any_way(&first.universals, &with_second, &mut nulls(first, FIRST), &mut |f| {
                        let last = [&later[..], &filled(&first.head, f)].concat();
                        applies(first, f, &later)
                            && any_way(&second.existentials, &with_both, &mut h.clone(), &mut |k| {
                                is_alternative(second, h, k, &last)
                            })
                    })
            })
        })
    })
}

/// Holds the search against every set of facts of two values. These show only some yeses: no yes may be missed.
pub fn compare_over_two(count: usize, seed: u64) -> Result<(), String> {
    let mut random = Random(seed);
    let mut witness = Witness::default();
    let (mut pairs, mut missed) = (0, 0);
    let mut counts = [[0; 2]; 2];
    while pairs < count {
        let base = Style { arity: (1, 2), predicates: 2, constants: 0, ..tiny(&mut random) };
        let style = Style { existentials: (0, 1), universals: (1, 2), bodies: (1, 2), heads: (1, 2), ..base };
        let drafts = [rule(&style, &mut random), rule(&style, &mut random)];
        let rules = both(&drafts)?;
        let smalls = [small(&drafts[0]), small(&drafts[1])];
        for (one, two) in [(0, 1), (1, 0), (0, 0)] {
            let values = [PLAIN, PLAIN + 1];
            let (a, b) = (&smalls[one], &smalls[two]);
            let p = [reliance_over_two(a, b, &values), relies(&rules[one], &rules[two], &mut witness)];
            let r = [restraint_over_two(a, b, &values), restrains(&rules[one], &rules[two], &mut witness)];
            for (kind, answers) in [p, r].into_iter().enumerate() {
                (0..2).for_each(|way| counts[kind][way] += answers[way] as usize);
                if answers == [true, false] {
                    println!("missed ({one},{two}) of kind {kind}: {drafts:?}");
                    missed += 1;
                }
            }
            pairs += 1;
        }
    }
    let [[p, all_p], [r, all_r]] = counts;
    println!("{pairs} pairs; reliance: {p} by sets of facts, {all_p} in all; restraint: {r}, {all_r}; {missed} missed");
    if missed == 0 { Ok(()) } else { Err("some were missed".into()) }
}

/// The styles of the pairs that are compared: small in all, few wide atoms with many existential variables, and longer
/// bodies.
fn tiny(random: &mut Random) -> Style {
    let constants = [0, 0, 10, 25][random.from(0, 3)];
    let low = random.from(1, 2);
    let style = Style {
        bodies: (1, 2),
        heads: (1, 2),
        arity: (low, 2),
        predicates: random.from(1, 2),
        universals: (1, 3),
        existentials: (0, 2),
        constants,
        open: 60,
    };
    let wide = random.from(2, 4);
    match random.from(0, 3) {
        0 => style,
        1 => Style { bodies: (1, 1), heads: (1, 3), arity: (wide - 1, wide), existentials: (1, 3), open: 70, ..style },
        2 => Style { bodies: (1, 1), predicates: 2, arity: (2, 3), universals: (1, 2), existentials: (1, 3), open: 70, ..style },
        _ => Style { bodies: (1, 3), predicates: 3, open: 75, ..style },
    }
}

fn both(drafts: &[Draft]) -> Result<Vec<Rule>, String> {
    read_volume(&volume(drafts))
}

/// the rule with a body of one atom and one variable, which stands in the head for all universal ones
fn narrow_body(rule: Draft, predicate: u16) -> Draft {
    let universals = rule.universals();
    let narrow = |term: Term| match term {
        Term::Variable(v) if universals.contains(&v) => Term::Variable(11),
        other => other,
    };
    let atom = |a: Atom| Atom { predicate: a.predicate, terms: a.terms.into_iter().map(narrow).collect() };
    let body = vec![Atom { predicate, terms: vec![Term::Variable(11)] }];
    Draft { body, head: rule.head.into_iter().map(atom).collect() }
}

/// how many variables are given values, and how many constants there are: the work rises steeply with it
fn values_needed(first: &Small, second: &Small) -> usize {
    let variables = first.universals.len() + second.universals.len() + second.existentials.len();
    variables + constants([first, second]).len()
}

/// compares the search with trying everything, on so many random pairs and on each first rule with itself
pub fn compare(count: usize, seed: u64) -> Result<(), String> {
    let mut random = Random(seed);
    let mut witness = Witness::default();
    let (mut pairs, mut reliances, mut restraints, mut differences) = (0, 0, 0, 0);
    while pairs < count {
        let style = tiny(&mut random);
        let mut drafts = [rule(&style, &mut random), rule(&style, &mut random)];
        if random.from(0, 3) == 0 {
            let wide = Style { arity: (3, 3), predicates: 1, existentials: (1, 3), constants: 0, heads: (1, 2), ..style };
            drafts = [0, 1].map(|n| narrow_body(rule(&wide, &mut random), 10 + n));
        }
        let rules = both(&drafts)?;
        let smalls = [small(&drafts[0]), small(&drafts[1])];
        for (one, two) in [(0, 1), (1, 0), (0, 0)] {
            if values_needed(&smalls[one], &smalls[two]) > 6 || pairs >= count {
                continue;
            }
            let p = brute_reliance(&smalls[one], &smalls[two]);
            let r = brute_restraint(&smalls[one], &smalls[two]);
            let same = relies(&rules[one], &rules[two], &mut witness) == p
                && restrains(&rules[one], &rules[two], &mut witness) == r;
            if !same {
                println!("differs ({one},{two}), by trying P {p} R {r}: {drafts:?}");
                differences += 1;
            }
            pairs += 1;
            reliances += p as usize;
            restraints += r as usize;
        }
    }
    println!("{pairs} pairs, {reliances} with reliance, {restraints} with restraint, {differences} differences");
    if differences == 0 { Ok(()) } else { Err("the two differ".into()) }
}

/// small pairs with known answers: first rule, second rule, reliance and restraint where told
const MARKED: [(&str, &str, Option<bool>, Option<bool>); 18] = [
    ("r(a,b) > f(a,b)", "f(a,b) > l(c,a)", Some(true), None),
    ("f(a,b) > l(c,a)", "r(a,b) > f(a,b)", Some(false), None),
    ("f(a) > u(a,b)", "u(a,a) > o(a)", Some(false), None),
    ("f(a) > u(b,b)", "u(a,a) > o(a)", Some(true), None),
    ("p(a) > q(a)", "q(a) > p(a)", Some(false), None),
    ("q(a) > p(a)", "p(a) > q(a)", Some(false), None),
    ("p(a,b) p(b,c) > p(a,c)", "p(a,b) p(b,c) > p(a,c)", Some(true), None),
    ("p(a,b) > p(b,a)", "p(a,b) > p(b,a)", Some(false), None),
    ("m(a,b) > l(a,b)", "f(a) > l(a,b)", None, Some(true)),
    ("f(a) > l(a,b)", "m(a,b) > l(a,b)", None, Some(false)),
    ("l(a,b) > l(a,9)", "f(a) > l(a,b)", None, Some(true)),
    ("f(a) > l(a,b) l(a,c)", "f(a) > l(a,b) l(a,c)", None, Some(false)),
    ("f(a) > l(a,b)", "f(a) > l(a,b)", None, Some(false)),
    // no numbering keeps the two rules of the pair before the last two: a reliance leads back along a restraint
    ("f(a) > l(a,b)", "l(a,b) > l(a,9)", Some(true), None),
    // the two nulls may be exchanged, which spares none
    ("f(a) > m(a,b,c) m(a,c,b)", "f(a) > m(a,b,c) m(a,c,b)", None, Some(false)),
    ("m(a,b) > l(a,b)", "m(a,b) > l(a,c)", None, Some(true)),
    // both atoms of the alternative have to be new: an old one would satisfy the first rule
    ("g(a) > q(a,b,a)", "f(a) > q(c,d,a) q(a,b,c)", None, Some(true)),
    // the same of a reliance
    ("g(a) > q(a,b,a)", "q(c,d,a) q(a,b,c) > f(d)", Some(true), None),
];

pub fn marked() -> Result<(), String> {
    let mut witness = Witness::default();
    let mut wrong = 0;
    for (one, two, p, r) in MARKED {
        let drafts = [draft(one), draft(two)];
        let rules = both(&drafts)?;
        let found = (relies(&rules[0], &rules[1], &mut witness), restrains(&rules[0], &rules[1], &mut witness));
        let tried = (brute_reliance(&small(&drafts[0]), &small(&drafts[1])), brute_restraint(&small(&drafts[0]), &small(&drafts[1])));
        let right = found == tried && p.is_none_or(|p| p == found.0) && r.is_none_or(|r| r == found.1);
        println!("{} {one} | {two}: reliance {}, restraint {}", if right { "right" } else { "WRONG" }, found.0, found.1);
        wrong += !right as usize;
    }
    if wrong == 0 { Ok(()) } else { Err(format!("{wrong} wrong")) }
}
