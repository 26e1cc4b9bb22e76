//! Facts, rules and calls drawn from a seed, and their comparison with the calls of the static library.

use crate::atoms::{variables, volume_bytes, Atom, Rule, Term};
use crate::linked::{self, plain_term, term, Given, Lent, Own, PlainAtom, PlainTerm, Told};
use crate::random::Random;
use crate::sources::{applied, checked, first_unsatisfied, is_match, is_satisfied, matches, Facts, Values};
use crate::tally::Tally;
use crate::volume::read_rules;
use crate::volumes::two_rules;

/// A case: rows, the bytes of a rule volume, calls, and what is lent.
struct Case {
    kind: &'static str,
    rows: Vec<PlainAtom>,
    rules: Vec<u8>,
    calls: Vec<Given>,
    lent: Lent,
    own: Own,
}

fn any_term(random: &mut Random) -> PlainTerm {
    PlainTerm { kind: random.from(0, 3) as u16, number: random.next() as u16 }
}

fn any_given(random: &mut Random) -> Given {
    Given { terms: std::array::from_fn(|_| any_term(random)) }
}

fn row(atom: &Atom, random: &mut Random) -> PlainAtom {
    // What stands past the arity does not matter.
    let mut terms: [PlainTerm; 4] = std::array::from_fn(|_| any_term(random));
    for (place, term) in atom.terms.iter().enumerate() {
        terms[place] = plain_term(*term);
    }
    PlainAtom { predicate: atom.predicate, arity: atom.terms.len() as u8, terms }
}

/// The terms that the facts are made of.
fn pool(random: &mut Random, near: bool) -> Vec<Term> {
    let mut terms = vec![Term::Constant(random.pick(&[0, 1, 9])), Term::Constant(random.pick(&[1, 65_535]))];
    let nulls: &[u16] = if near { &[65_535, 65_534, 65_533, 65_532, 65_531] } else { &[0, 1, 2, 7, 300] };
    for _ in 0..random.from(near as usize, 2) {
        terms.push(Term::Null(random.pick(nulls)));
    }
    if random.percent(30) {
        terms.push(Term::Constant(random.next() as u16));
    }
    terms
}

/// The atoms with each variable given some term: facts that the rule may match, or that satisfy it.
fn made_facts(atoms: &[Atom], terms: &[Term], values: &mut Values, random: &mut Random) -> Vec<Atom> {
    for v in variables(atoms) {
        if values[v as usize] == Term::Variable(0) {
            values[v as usize] = random.pick(terms);
        }
    }
    let value = |t: &Term| if let Term::Variable(v) = t { values[*v as usize] } else { *t };
    atoms.iter().map(|a| Atom { predicate: a.predicate, terms: a.terms.iter().map(value).collect() }).collect()
}

fn facts_for(rules: &[Rule], terms: &[Term], random: &mut Random) -> Vec<Atom> {
    let mut facts = Vec::new();
    for rule in rules {
        for _ in 0..random.from(0, 2) {
            let mut values = [Term::Variable(0); 12];
            facts.extend(made_facts(&rule.body, terms, &mut values, random));
            if random.percent(30) {
                facts.extend(made_facts(&rule.head, terms, &mut values, random));
            }
        }
        if random.percent(30) {
            let mut values = [Term::Variable(0); 12];
            facts.extend(made_facts(&rule.head, terms, &mut values, random));
        }
    }
    for at in (1..facts.len()).rev() {
        facts.swap(at, random.below(at + 1));
    }
    facts
}

/// Facts of another predicate before, between and after them, up to so many.
fn padded(facts: Vec<Atom>, terms: &[Term], count: usize, random: &mut Random) -> Vec<Atom> {
    let mut all = facts;
    while all.len() < count {
        let other = Atom { predicate: 7_000, terms: vec![random.pick(terms), random.pick(terms)] };
        all.push(other);
    }
    for _ in 0..20.min(all.len()) {
        let (from, to) = (random.below(all.len()), random.below(all.len()));
        all.swap(from, to);
    }
    all
}

fn spoil(rows: &mut [PlainAtom], random: &mut Random) {
    if rows.is_empty() {
        return;
    }
    let at = random.below(rows.len());
    let row = &mut rows[at];
    if random.percent(50) {
        row.arity = random.pick(&[0, 4, 5, 255]);
    } else {
        row.terms[random.below(4)].kind = random.pick(&[1, 3, 255, 256]);
    }
}

fn case(seed: u64, index: u64) -> Case {
    let mut random = Random::of(seed, index);
    let near = random.percent(12);
    let large = random.below(150) == 0;
    let rules = two_rules(&mut random);
    let terms = pool(&mut random, near);
    let mut facts = facts_for(&rules, &terms, &mut random);
    if large {
        let count = random.from(4_090, 4_097);
        facts = padded(facts, &terms, count, &mut random);
    }
    let mut rows: Vec<PlainAtom> = facts.iter().map(|fact| row(fact, &mut random)).collect();
    if large && random.percent(5) {
        let more = random.from(1, 20);
        rows.extend_from_within(..more);
    }
    let mut kind = match (large, near) {
        (true, _) => "near 4,096 rows",
        (_, true) => "nulls near 65,535",
        _ => "small",
    };
    if random.percent(4) {
        kind = "a row spoilt";
        spoil(&mut rows, &mut random);
    }
    let mut bytes = volume_bytes(&rules);
    if random.percent(3) {
        kind = "rules missing";
        if random.percent(50) {
            bytes.truncate(random.below(bytes.len()));
        } else {
            bytes = volume_bytes(&rules[..random.below(2)]);
        }
    }
    let facts = Facts::of(checked(&rows).1);
    let found = matches(&rules[0], &facts);
    let mut calls = Vec::new();
    for _ in 0..random.from(0, 5) {
        let mut given = any_given(&mut random);
        if !found.is_empty() && random.percent(70) {
            let values = &found[random.below(found.len())];
            rules[0].universals().iter().for_each(|v| given.terms[*v as usize] = plain_term(values[*v as usize]));
        } else {
            rules[0].universals().iter().for_each(|v| given.terms[*v as usize] = plain_term(random.pick(&terms)));
            if random.percent(10) {
                given.terms[random.below(12)].kind = random.pick(&[1, 3]);
            }
        }
        calls.push(given);
    }
    let lent = Lent { stack: std::array::from_fn(|_| random.next() as u16), found: any_given(&mut random) };
    let blank = PlainAtom { predicate: 1, arity: 2, terms: [PlainTerm { kind: 9, number: 9 }; 4] };
    Case { kind, rows, rules: bytes, calls, lent, own: Own { atoms: [blank; 4], count: 77 } }
}

fn values_of(given: &Given) -> Values {
    std::array::from_fn(|v| term(given.terms[v]))
}

/// What a search has to answer, and what is lent then, by what it means.
fn searched(rule: &Rule, facts: &Facts, before: &Lent) -> (u8, [u16; 6], Values) {
    let (mut stack, mut values) = (before.stack, values_of(&before.found));
    let Some((rows, found)) = first_unsatisfied(rule, facts) else { return (0, stack, values) };
    stack[..rows.len()].copy_from_slice(&rows);
    rule.universals().iter().for_each(|v| values[*v as usize] = found[*v as usize]);
    (1, stack, values)
}

/// Whether what is given is an unsatisfied match, by the definition alone.
fn is_right(rule: &Rule, facts: &Facts, lent: &Lent) -> bool {
    let values = values_of(&lent.found);
    is_match(rule, &values, facts) && !is_satisfied(rule, &values, facts)
}

fn own_facts(own: &Own) -> Vec<Atom> {
    let fact = |a: &PlainAtom| {
        let terms = a.terms.iter().take(a.arity as usize).map(|t| term(*t)).collect();
        Atom { predicate: a.predicate, terms }
    };
    own.atoms.iter().take(own.count as usize).map(fact).collect()
}

/// What differs, in words.
struct Differs(Vec<String>);

impl Differs {
    fn unless(&mut self, same: bool, what: impl FnOnce() -> String) {
        if !same {
            self.0.push(what());
        }
    }
}

fn name(answer: u8) -> &'static str {
    match answer {
        0 => "no",
        1 => "yes",
        2 => "no rule",
        _ => "another answer",
    }
}

fn compare_search(what: &str, rule: Option<&Rule>, facts: &Facts, before: &Lent, answer: u8, after: &Lent, differs: &mut Differs) {
    let Some(rule) = rule else {
        differs.unless(answer == 2 && after == before, || format!("{what}: {answer} where there is no rule"));
        return;
    };
    let expected = searched(rule, facts, before);
    let given = (answer, after.stack, values_of(&after.found));
    differs.unless(expected == given, || format!("{what}: expected {expected:?}, given {given:?}"));
    differs.unless(answer != 1 || is_right(rule, facts, after), || format!("{what}: no unsatisfied match is given"));
}

fn compare_applications(case: &Case, rule: Option<&Rule>, facts: &Facts, tally: &mut Tally, differs: &mut Differs) -> Vec<Atom> {
    let mut own = Vec::new();
    for (at, call) in case.calls.iter().enumerate() {
        let answer = linked::apply(&case.rows, &case.rules, call);
        let expected = match rule.map(|rule| applied(rule, &values_of(call), facts)) {
            None => 14,
            Some(Err(number)) => number,
            Some(Ok(added)) => {
                if at < 4 {
                    own = added;
                }
                0
            }
        };
        tally.add("applications", &if expected == 0 { "done".to_string() } else { format!("refusal {expected}") });
        differs.unless(answer == Told { number: expected, place: 0 }, || format!("apply {at}: expected {expected}, given {answer:?}"));
    }
    own
}

pub fn compare(seed: u64, index: u64, tally: &mut Tally) {
    let case = case(seed, index);
    let mut differs = Differs(Vec::new());
    tally.add("cases", case.kind);
    let (told, below) = checked(&case.rows);
    let given = linked::check(&case.rows);
    tally.add("rows", &if told.number == 0 { "taken up".to_string() } else { format!("refusal {}", told.number) });
    differs.unless(told == given, || format!("rows: expected {told:?}, given {given:?}"));

    let rules = read_rules(&case.rules).unwrap_or_default();
    let facts = Facts::of(below.clone());
    let mut lent = case.lent;
    let answer = linked::find(&case.rows, &case.rules, &mut lent);
    tally.add("finds on rows", name(answer));
    compare_search("find", rules.first(), &facts, &case.lent, answer, &lent, &mut differs);

    let own = compare_applications(&case, rules.first(), &facts, tally, &mut differs);
    let (mut lent, mut added) = (case.lent, case.own);
    let answer = linked::find_after(&case.rows, &case.rules, &case.calls, &mut lent, &mut added);
    tally.add("finds on additions", name(answer));
    let all = Facts::of([below, own.clone()].concat());
    compare_search("find on the addition", rules.get(1), &all, &case.lent, answer, &lent, &mut differs);
    if rules.len() < 2 {
        differs.unless(added == case.own, || "own facts where a rule is missing".to_string());
    } else {
        tally.add("own facts of additions", &own.len().to_string());
        differs.unless(added.count as usize == own.len() && own_facts(&added) == own, || format!("own facts: expected {own:?}, given {added:?}"));
    }
    if !differs.0.is_empty() {
        tally.differences += 1;
        println!("DIFFERENCE in case {index} of seed {seed}, {}: {:?}", case.kind, differs.0);
        println!("rules {}\nrows {:?}\ncalls {:?}", crate::hex(&case.rules), facts.all, case.calls);
    }
}
