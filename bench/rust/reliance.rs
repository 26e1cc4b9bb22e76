//! Positive reliance.
//!
//! Why the search is complete. Take any facts F, application f of the first rule and match s of the second that show a
//! reliance. Of F only f's body and those of s's body atoms that are in F matter: with fewer facts a match stays
//! unsatisfied and a null stays fresh. So what shows a reliance is described by the set of the second rule's body atoms
//! that are new, by the head atom of the first that each of them becomes, and by the equalities that follow. The
//! most general values with these equalities show a reliance too: a map leads from them to the ones given that keeps
//! constants and the new nulls, so a match that is satisfied, a fact that is old among the general ones would be so
//! among the given ones. It is enough to look at each choice of new atoms and head atoms with its most general values.
//!
//! The search begins from one new atom, with all before it kept old and all after it old by default. It makes further
//! ones new only where it must:
//! - an old atom with a new null has to be new;
//! - the first rule's match is satisfied, or a new atom is old after all. This uses some atoms that are old by default,
//!   and holds as long as they are old, whatever becomes equal: one of them has to be new. If it uses none, nothing
//!   helps. The ways are tried one by one, and an atom that was tried as new is then kept old.
//! If the second rule's match is satisfied, nothing helps: all its body atoms are facts, be they old or new.
//! A new atom that is some head atom already need not be tried as another: that would only make more equal. More
//! generally a way is left out if it is a special case of another way (`Classes::way`).
//! Every description is reached, or dropped for a reason that holds of it.

use crate::classes::{Classes, Pair, ANY, NULL_OF_FIRST, SECOND};
use crate::hom::{satisfied, Facts};
use crate::literal::{shows_reliance, Assignment, Fact, Witness, NULL};
use crate::rule::{bits, Atom, Rule, CONSTANTS, FILLER};

/// what is decided of a body atom of the second rule, if it is not which of `Pair::news` it becomes
pub const SOFT: u8 = 8;
pub const FIRM: u8 = 9;

/// of atoms that have to be new, the one that the fewest head atoms can become; an error where one can be none, or is to stay old
pub fn fewest_ways(places: impl Iterator<Item = usize>, choice: &[u8], ways: impl Fn(usize) -> usize) -> Result<Option<usize>, ()> {
    let mut best = None;
    let mut fewest = 5;
    for at in places {
        let count = ways(at);
        if count == 0 || choice[at] == FIRM {
            return Err(());
        }
        if count < fewest {
            fewest = count;
            best = Some(at);
        }
    }
    Ok(best)
}

#[derive(Clone, Copy)]
struct State {
    classes: Classes,
    choice: [u8; 6],
}

struct Search<'a> {
    pair: Pair<'a>,
    witness: &'a mut Witness,
}

/// Does the second rule positively rely on the first? If so, the witness is filled.
pub fn relies(first: &Rule, second: &Rule, witness: &mut Witness) -> bool {
    if first.head_keys & second.body_keys == 0 || !shares_key(first, second) {
        return false;
    }
    let mut pair = Pair::new(first, second);
    pair.kind[SECOND as usize..SECOND as usize + 12].fill(ANY);
    Search { pair, witness }.begin()
}

fn shares_key(first: &Rule, second: &Rule) -> bool {
    let heads = &first.head[..first.heads];
    second.body[..second.bodies].iter().any(|b| heads.iter().any(|a| a.key == b.key))
}

impl Search<'_> {
    fn begin(&mut self) -> bool {
        let can_be_new = |at: usize| self.count_ways(&Classes::new(), at) > 0;
        if !(0..self.pair.second.bodies).any(can_be_new) || self.never_applies() {
            return false;
        }
        let mut state = State { classes: Classes::new(), choice: [SOFT; 6] };
        (0..self.pair.second.bodies).any(|at| {
            let found = self.make_new(&state, at);
            state.choice[at] = FIRM;
            found
        })
    }

    /// one of the rules' matches is always satisfied, since its head is in its body
    fn never_applies(&self) -> bool {
        let Pair { first, second, second_body, second_head, .. } = &self.pair;
        let classes = Classes::new();
        let always = |rule: &Rule, body: &[Atom; 6], head: &[Atom; 4], offset: u8| {
            let mut facts = Facts::new();
            body[..rule.bodies].iter().for_each(|a| facts.push(*a));
            satisfied(rule, head, offset, &classes, &facts, (1 << rule.bodies) - 1, 0).is_some()
        };
        always(first, &first.body, &first.head, 0) || always(second, second_body, second_head, SECOND)
    }

    fn heads(&self) -> &[Atom] {
        &self.pair.news[..self.pair.new_count]
    }

    fn count_ways(&self, classes: &Classes, at: usize) -> usize {
        classes.count_ways(&self.pair.second_body[at], self.heads(), &self.pair.kind)
    }

    /// tries each head atom for the body atom
    fn make_new(&mut self, state: &State, at: usize) -> bool {
        (0..self.pair.new_count).any(|head| {
            let way = state.classes.way(&self.pair.second_body[at], self.heads(), head, &self.pair.kind);
            let Some(classes) = way else { return false };
            let mut choice = state.choice;
            choice[at] = head as u8;
            self.refine(&State { classes, choice })
        })
    }

    /// makes one of the body atoms new, one after the other
    fn make_one_new(&mut self, state: &State, set: u32) -> bool {
        let mut state = *state;
        bits(set).any(|at| {
            let found = self.make_new(&state, at);
            state.choice[at] = FIRM;
            found
        })
    }

    fn refine(&mut self, state: &State) -> bool {
        let Ok(forced) = self.most_forced(state) else { return false };
        let (first, second) = (self.pair.first, self.pair.second);
        let classes = &state.classes;
        // the facts: the second's body, the first's body, the first's head
        let mut facts = Facts::new();
        self.pair.second_body[..second.bodies].iter().for_each(|a| facts.push(classes.atom(a)));
        first.body[..first.bodies].iter().for_each(|a| facts.push(classes.atom(a)));
        let old_count = facts.count;
        first.head[..first.heads].iter().for_each(|a| facts.push(classes.atom(a)));
        let all = (1u32 << facts.count) - 1;
        if satisfied(second, &self.pair.second_head, SECOND, classes, &facts, all, 0).is_some() {
            return false;
        }
        let (new, old, soft) = self.split(state, &facts, old_count);
        for at in bits(new) {
            let same = facts.places(&facts.atoms[at]) & old;
            if same & !soft != 0 {
                return false;
            }
            if same != 0 {
                return self.make_new(state, same.trailing_zeros() as usize);
            }
        }
        match (satisfied(first, &first.head, 0, classes, &facts, old, soft), forced) {
            (Some(0), _) => false,
            (_, Some(at)) => self.make_new(state, at),
            (Some(used), None) => self.make_one_new(state, used),
            (None, None) => self.show(classes, &facts, old),
        }
    }

    /// Of the facts the new atoms, the old facts, and those that are old by default and might be new. An atom that has
    /// to be new and is not yet is none of these.
    fn split(&self, state: &State, facts: &Facts, old_count: usize) -> (u32, u32, u32) {
        let (mut new, mut old, mut soft) = (0, (1u32 << old_count) - 1, 0);
        for at in 0..self.pair.second.bodies {
            if state.choice[at] < SOFT {
                new |= 1 << at;
            } else if state.choice[at] == SOFT && !has_new_null(&self.pair, &state.classes, &facts.atoms[at]) {
                soft |= ((self.count_ways(&state.classes, at) > 0) as u32) << at;
                continue;
            } else if state.choice[at] == FIRM {
                continue;
            }
            old &= !(1 << at);
        }
        (new, old, soft)
    }

    /// the old atom with a new null that the fewest head atoms can become; an error where one can be none
    fn most_forced(&self, state: &State) -> Result<Option<usize>, ()> {
        let forced = |&at: &usize| state.choice[at] >= SOFT && has_new_null(&self.pair, &state.classes, &self.pair.second_body[at]);
        fewest_ways((0..self.pair.second.bodies).filter(forced), &state.choice, |at| self.count_ways(&state.classes, at))
    }

    fn show(&mut self, classes: &Classes, facts: &Facts, old: u32) -> bool {
        let w = &mut *self.witness;
        w.before_count = 0;
        w.besides_count = 0;
        for at in bits(old) {
            w.before[w.before_count] = plain_fact(&self.pair, &facts.atoms[at]);
            w.before_count += 1;
        }
        w.first = plain_values(&self.pair, classes, 0);
        w.second = plain_values(&self.pair, classes, SECOND);
        assert!(shows_reliance(self.pair.first, self.pair.second, w), "a wrong yes");
        true
    }
}

/// does a null that the first rule's application gives stand in the atom?
pub fn has_new_null(pair: &Pair, classes: &Classes, atom: &Atom) -> bool {
    atom.terms.iter().any(|&t| pair.kind[classes.find(t) as usize & 127] == NULL_OF_FIRST)
}

/// Distinct classes get distinct values: constants themselves, all others nulls.
pub fn plain_value(pair: &Pair, class: u8) -> u32 {
    match class {
        FILLER => u32::MAX,
        c if c >= CONSTANTS => pair.constants[(c - CONSTANTS) as usize] as u32,
        c => NULL + c as u32,
    }
}

pub fn plain_fact(pair: &Pair, atom: &Atom) -> Fact {
    Fact { key: atom.key, terms: atom.terms.map(|t| plain_value(pair, t)) }
}

pub fn plain_values(pair: &Pair, classes: &Classes, from: u8) -> Assignment {
    std::array::from_fn(|v| plain_value(pair, classes.find(from + v as u8)))
}
