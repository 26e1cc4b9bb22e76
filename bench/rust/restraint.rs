//! Restraint.
//!
//! Why the search is complete. Take F, H, an application h of the second rule on F, an application f of the first on
//! H and an alternative k that show a restraint.
//! - Of F only h's body matters, and of H only h's body and head, f's body and those of k's head atoms that are in H:
//!   with fewer facts a match stays unsatisfied, a null stays fresh, and no alternative comes up.
//! - Head atoms fall into pieces, connected by existential variables. k spares a null of some piece. Let k be as h
//!   outside of this piece: it still finds every head atom and spares the null. So k need only be looked for on one
//!   piece, and some of that piece's atoms are new: head atoms of the first rule. Likewise there is an alternative on H
//!   exactly if there is one on some piece: a way to find the piece's atoms that does not use all of its nulls.
//! - So what shows a restraint is described by a piece, the set of its atoms that are new under k, the head atom of the
//!   first rule that each becomes, and which values are which of the second rule's nulls. That last part matters: to
//!   make a general value equal to such a null may turn an alternative on H into none. It is the only equality that
//!   may. Take the most general values with these equalities, where all other values differ from those nulls: a map
//!   leads from them to the values given that keeps constants, the first's nulls and the second's, and leads nothing
//!   else to a null of the second. So it takes each alternative to an alternative, each satisfied match to a
//!   satisfied one, old facts to old facts. Hence the general values show a restraint too.
//!
//! The search begins with no new atom and with no value equal to a null, and looks at what of H is there in any case.
//! Where that has no alternative, it chooses a piece and its first new atom. It goes further only where it must:
//! - an old atom of k with a null of the first rule has to be new;
//! - a match that has to be unsatisfied is satisfied, or a new atom is old after all. This holds as long as the old atoms
//!   that it uses are old, whatever becomes equal: one of those that are old by default has to be new;
//! - there is an alternative on H. Either one of the old atoms that it uses has to be new, or the null that it spares
//!   has to be the value of one of the piece's variables: one of the values that are no null, no constant and no value
//!   from F becomes this null.
//! A new atom that is some head atom already need not be tried as another: that would only make more equal.
//! The ways are tried one by one, and each is excluded from those after it. Where there is none, nothing helps.
//! Every description is reached, or dropped for a reason that holds of it; and each step makes an atom new or a value
//! a null, so it ends.

use crate::classes::{Classes, Pair, NULL_OF_SECOND, OF_SECOND, OTHER, SECOND};
use crate::hom::{find_piece, may_become, satisfied, Facts, Found};
use crate::literal::{shows_restraint, Witness};
use crate::reliance::{fewest_ways, has_new_null, plain_fact, plain_value, plain_values, FIRM, SOFT};
use crate::rule::{bits, Atom, Rule};

#[derive(Clone, Copy)]
struct State {
    classes: Classes,
    /// the piece on which the alternative is looked for, none before any atom is chosen to be new
    piece: u8,
    choice: [u8; 4],
}

struct Search<'a> {
    pair: Pair<'a>,
    /// the second rule's head with the alternative's values in place of the nulls
    other_head: [Atom; 4],
    witness: &'a mut Witness,
}

/// The facts H under some classes, in the order: the second's body and head, the first's body, old atoms of k.
struct Later {
    facts: Facts,
    second_body: u32,
    all: u32,
    /// where the old atoms of k begin, and which head atom each is
    olds_from: usize,
    olds: [usize; 4],
}

/// Does the first rule restrain the second? If so, the witness is filled.
pub fn restrains(first: &Rule, second: &Rule, witness: &mut Witness) -> bool {
    if first.head_keys & second.open_keys == 0 || !shares_key(first, second) {
        return false;
    }
    let mut pair = Pair::new(first, second);
    for v in 0..12 {
        let null = second.existentials >> v & 1 == 1;
        pair.kind[SECOND as usize + v] = if null { NULL_OF_SECOND } else { OF_SECOND };
    }
    let other_head = pair.second_head.map(|a| Atom { key: a.key, terms: a.terms.map(|t| other_term(second, t)) });
    let begin = State { classes: Classes::new(), piece: 0, choice: [SOFT; 4] };
    let mut search = Search { pair, other_head, witness };
    let can_be_new = |at: usize| second.open[at] != 0 && search.count_ways(&begin.classes, at) > 0;
    (0..second.heads).any(can_be_new) && search.refine(&begin)
}

fn shares_key(first: &Rule, second: &Rule) -> bool {
    let heads = &first.head[..first.heads];
    (0..second.heads).any(|at| second.open[at] != 0 && heads.iter().any(|a| a.key == second.head[at].key))
}

fn other_term(second: &Rule, term: u8) -> u8 {
    let v = term.wrapping_sub(SECOND);
    if v < 12 && second.existentials >> v & 1 == 1 { OTHER + v } else { term }
}

impl Search<'_> {
    /// chooses a piece and its first new atom
    fn begin(&mut self, state: &State) -> bool {
        let second = self.pair.second;
        second.pieces[..second.piece_count].iter().filter(|&&piece| second.open_of(piece) != 0).any(|&piece| {
            let mut state = State { piece, ..*state };
            bits(piece as u32).any(|at| {
                let found = self.make_new(&state, at);
                state.choice[at] = FIRM;
                found
            })
        })
    }

    fn heads(&self) -> &[Atom] {
        &self.pair.news[..self.pair.new_count]
    }

    fn count_ways(&self, classes: &Classes, at: usize) -> usize {
        classes.count_ways(&self.other_head[at], self.heads(), &self.pair.kind)
    }

    /// tries each head atom of the first rule for the atom of k
    fn make_new(&mut self, state: &State, at: usize) -> bool {
        (0..self.pair.new_count).any(|head| {
            let way = state.classes.way(&self.other_head[at], self.heads(), head, &self.pair.kind);
            let Some(classes) = way else { return false };
            let mut choice = state.choice;
            choice[at] = head as u8;
            self.refine(&State { classes, choice, ..*state })
        })
    }

    fn refine(&mut self, state: &State) -> bool {
        let classes = &state.classes;
        if state.piece != 0 && !self.spares(state) {
            return false;
        }
        let Ok(forced) = self.most_forced(state) else { return false };
        let (first, second) = (self.pair.first, self.pair.second);
        let later = self.later(state);
        let Later { facts, all, .. } = &later;
        if satisfied(second, &self.pair.second_head, SECOND, classes, facts, later.second_body, 0).is_some() {
            return false;
        }
        let may_be_new = |at: usize| {
            state.choice[at] == SOFT && self.count_ways(classes, at) > 0
        };
        let soft = (0..facts.count - later.olds_from)
            .filter(|&i| may_be_new(later.olds[i]))
            .fold(0u32, |set, i| set | 1 << (later.olds_from + i));
        for at in bits(state.piece as u32).filter(|&at| state.choice[at] < SOFT) {
            let same = facts.places(&classes.atom(&self.other_head[at]));
            if same & !soft != 0 {
                return false;
            }
            if same != 0 {
                return self.make_new(state, later.olds[same.trailing_zeros() as usize - later.olds_from]);
            }
        }
        let first_satisfied = satisfied(first, &first.head, 0, classes, facts, *all, soft);
        match (first_satisfied, forced) {
            (Some(0), _) => return false,
            (Some(used), None) => return self.exclude(state, &later, used, None),
            _ => {}
        }
        match (self.cheapest_alternative(classes, &later, soft), forced) {
            (Some((_, found)), _) if found.cost == 0 => false,
            (_, Some(at)) => self.make_new(state, at),
            (Some((nulls, found)), None) => {
                let class_set = may_become(&found.values, nulls, found.spared as usize, &self.pair.kind, classes);
                self.exclude(state, &later, found.used & soft, Some((class_set, found.spared)))
            }
            (None, None) if state.piece == 0 => self.begin(state),
            (None, None) => self.show(state, &later),
        }
    }

    /// the alternative leaves out some null of its piece
    fn spares(&self, state: &State) -> bool {
        let nulls = self.pair.second.open_of(state.piece);
        let hit = bits(nulls as u32).fold(0u16, |set, v| {
            let class = state.classes.find(OTHER + v as u8);
            if self.pair.kind[class as usize & 127] == NULL_OF_SECOND { set | 1 << (class - SECOND) } else { set }
        });
        nulls & !hit != 0
    }

    /// the old atom with a null of the first rule that the fewest head atoms can become; an error where one can be none
    fn most_forced(&self, state: &State) -> Result<Option<usize>, ()> {
        let forced = |&at: &usize| state.choice[at] >= SOFT && has_new_null(&self.pair, &state.classes, &self.other_head[at]);
        fewest_ways(bits(state.piece as u32).filter(forced), &state.choice, |at| self.count_ways(&state.classes, at))
    }

    fn later(&self, state: &State) -> Later {
        let (first, second, classes) = (self.pair.first, self.pair.second, &state.classes);
        let mut facts = Facts::new();
        self.pair.second_body[..second.bodies].iter().for_each(|a| facts.push(classes.atom(a)));
        self.pair.second_head[..second.heads].iter().for_each(|a| facts.push(classes.atom(a)));
        first.body[..first.bodies].iter().for_each(|a| facts.push(classes.atom(a)));
        let olds_from = facts.count;
        let mut olds = [0; 4];
        let old = |at: &usize| {
            state.choice[*at] >= SOFT && !has_new_null(&self.pair, classes, &self.other_head[*at])
        };
        for at in bits(state.piece as u32).filter(old) {
            olds[facts.count - olds_from] = at;
            facts.push(classes.atom(&self.other_head[at]));
        }
        let all = (1u32 << facts.count) - 1;
        Later { facts, second_body: (1 << second.bodies) - 1, all, olds_from, olds }
    }

    /// over all pieces of the second rule
    fn cheapest_alternative(&self, classes: &Classes, later: &Later, soft: u32) -> Option<(u16, Found)> {
        let second = self.pair.second;
        let mut best: Option<(u16, Found)> = None;
        for &piece in second.pieces[..second.piece_count].iter().filter(|&&p| second.open_of(p) != 0) {
            let (head, kind) = (&self.pair.second_head, Some(&self.pair.kind));
            let found = find_piece(second, head, SECOND, piece, classes, &later.facts, later.all, soft, kind);
            if let Some(found) = found {
                if best.is_none_or(|(_, b)| found.cost < b.cost) {
                    best = Some((second.open_of(piece), found));
                }
            }
        }
        best
    }

    /// makes one of the classes the null, or one of the old facts new, one after the other
    fn exclude(&mut self, state: &State, later: &Later, used: u32, become_null: Option<(u64, u8)>) -> bool {
        let mut state = *state;
        if let Some((set, spared)) = become_null {
            for class in bits(set as u32).chain(bits((set >> 32) as u32).map(|c| c + 32)) {
                let mut next = state;
                if next.classes.join(class as u8, SECOND + spared, &self.pair.kind) && self.refine(&next) {
                    return true;
                }
                state.classes.apart[class] |= 1 << spared;
            }
        }
        bits(used).any(|fact| {
            let at = later.olds[fact - later.olds_from];
            let found = self.make_new(&state, at);
            state.choice[at] = FIRM;
            found
        })
    }

    fn show(&mut self, state: &State, later: &Later) -> bool {
        let (pair, classes, w) = (&self.pair, &state.classes, &mut *self.witness);
        let (bodies, heads) = (pair.second.bodies, pair.second.heads);
        w.before_count = bodies;
        w.besides_count = later.facts.count - bodies - heads;
        for at in 0..bodies {
            w.before[at] = plain_fact(pair, &later.facts.atoms[at]);
        }
        for at in 0..w.besides_count {
            w.besides[at] = plain_fact(pair, &later.facts.atoms[bodies + heads + at]);
        }
        w.first = plain_values(pair, classes, 0);
        w.second = plain_values(pair, classes, SECOND);
        w.other = w.second;
        for v in bits(pair.second.open_of(state.piece) as u32) {
            w.other[v] = plain_value(pair, classes.find(OTHER + v as u8));
        }
        assert!(shows_restraint(pair.first, pair.second, w), "a wrong yes");
        true
    }
}
