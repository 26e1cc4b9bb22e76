//! The search for head atoms among facts: is a match satisfied, is there an alternative.

use crate::classes::{Classes, NULL_OF_SECOND, OF_FIRST, SECOND};
use crate::rule::{bits, Atom, Rule};

/// in the atoms searched for, an existential variable v is the byte `OPEN + v`
const OPEN: u8 = 128;
const UNSET: u8 = 255;

/// Facts over the classes. At most 6 + 4 + 6 + 4 are needed.
pub struct Facts {
    pub atoms: [Atom; 20],
    pub count: usize,
}

impl Facts {
    pub fn new() -> Facts {
        Facts { atoms: [Atom::default(); 20], count: 0 }
    }

    pub fn push(&mut self, atom: Atom) {
        self.atoms[self.count] = atom;
        self.count += 1;
    }

    /// the places of the facts equal to the atom, a bit for each
    pub fn places(&self, atom: &Atom) -> u32 {
        let all = self.atoms[..self.count].iter().enumerate();
        all.fold(0, |set, (at, fact)| set | ((fact == atom) as u32) << at)
    }
}

/// Head atoms found among facts: what the existential variables are given, and the facts used.
/// `spared` is, of an alternative, the variable whose null is not used.
#[derive(Clone, Copy)]
pub struct Found {
    pub cost: u32,
    pub values: [u8; 16],
    pub used: u32,
    pub spared: u8,
}

/// One search. Of all ways to find the atoms, one of low cost is wanted, where the cost counts what might yet be
/// undone: uses of soft facts, and values that might yet become one of the second rule's nulls.
struct Search<'a> {
    facts: &'a Facts,
    goals: [Atom; 4],
    /// for each goal the facts of its key
    near: [u32; 4],
    soft: u32,
    /// of an alternative: the nulls of the piece (a bit for each variable), the kinds, the classes
    alternative: Option<(u16, &'a [u8; 128], &'a Classes)>,
    best: Found,
}

/// The value vector once the goal is matched with the fact, if it can be.
#[inline]
fn fit(goal: &Atom, fact: &Atom, mut values: [u8; 16]) -> Option<[u8; 16]> {
    for (&want, &have) in goal.terms.iter().zip(&fact.terms) {
        if want < OPEN {
            if want != have {
                return None;
            }
        } else {
            let value = &mut values[want as usize & 15];
            if *value == UNSET {
                *value = have;
            } else if *value != have {
                return None;
            }
        }
    }
    Some(values)
}

impl Search<'_> {
    fn go(&mut self, left: u32, values: [u8; 16], used: u32) {
        if (used & self.soft).count_ones() >= self.best.cost {
            return;
        }
        if left == 0 {
            return self.take(values, used);
        }
        let Some((goal, fits)) = self.narrowest(left, &values) else { return };
        for at in bits(fits) {
            if let Some(more) = fit(&self.goals[goal], &self.facts.atoms[at], values) {
                self.go(left & !(1 << goal), more, used | 1 << at);
                if self.best.cost == 0 {
                    return;
                }
            }
        }
    }

    /// the goal with the fewest facts that fit, and a set of facts that has them all; none where a goal has no fact
    fn narrowest(&self, left: u32, values: &[u8; 16]) -> Option<(usize, u32)> {
        if left & (left - 1) == 0 {
            let goal = left.trailing_zeros() as usize & 3;
            return Some((goal, self.near[goal]));
        }
        let mut best = None;
        let mut fewest = 33;
        for goal in bits(left) {
            let fits = bits(self.near[goal])
                .filter(|&at| fit(&self.goals[goal], &self.facts.atoms[at], *values).is_some())
                .fold(0, |set, at| set | 1 << at);
            if fits == 0 {
                return None;
            }
            if u32::count_ones(fits) < fewest {
                fewest = fits.count_ones();
                best = Some((goal, fits));
            }
        }
        best
    }

    /// all goals are found: keeps this way if it is the cheapest so far
    fn take(&mut self, values: [u8; 16], used: u32) {
        let soft = (used & self.soft).count_ones();
        let Some((nulls, kind, classes)) = self.alternative else {
            if soft < self.best.cost {
                self.best = Found { cost: soft, values, used, spared: UNSET };
            }
            return;
        };
        let hit = bits(nulls as u32).fold(0u16, |set, v| {
            let value = values[v];
            if kind[value as usize & 127] == NULL_OF_SECOND { set | 1 << (value - SECOND) } else { set }
        });
        // a way that uses every null of the piece spares none: it is no alternative
        for spared in bits((nulls & !hit) as u32) {
            let cost = soft + may_become(&values, nulls, spared, kind, classes).count_ones();
            if cost < self.best.cost {
                self.best = Found { cost, values, used, spared: spared as u8 };
            }
        }
    }
}

/// the classes among the values that might yet become the null of the variable, a bit for each
pub fn may_become(values: &[u8; 16], nulls: u16, null: usize, kind: &[u8; 128], classes: &Classes) -> u64 {
    bits(nulls as u32).fold(0, |set, v| {
        let class = values[v] as usize & 127;
        let open = kind[class] <= OF_FIRST && classes.apart[class] >> null & 1 == 0;
        if open { set | 1 << class } else { set }
    })
}

/// Looks for the head atoms of a piece among the allowed facts. `head` is the rule's head over the pair's symbols, of
/// which existential variables begin at `offset`.
#[allow(clippy::too_many_arguments)]
pub fn find_piece(
    rule: &Rule,
    head: &[Atom; 4],
    offset: u8,
    piece: u8,
    classes: &Classes,
    facts: &Facts,
    allowed: u32,
    soft: u32,
    alternative: Option<&[u8; 128]>,
) -> Option<Found> {
    let nulls = rule.open_of(piece);
    let mut search = Search {
        facts,
        goals: [Atom::default(); 4],
        near: [0; 4],
        soft,
        alternative: alternative.map(|kind| (nulls, kind, classes)),
        best: Found { cost: u32::MAX, values: [UNSET; 16], used: 0, spared: UNSET },
    };
    for goal in bits(piece as u32) {
        search.goals[goal] = open_atom(&head[goal], rule, offset, classes);
        let near = |at: &usize| facts.atoms[*at].key == head[goal].key;
        search.near[goal] = bits(allowed).filter(near).fold(0, |set, at| set | 1 << at);
        if search.near[goal] == 0 {
            return None;
        }
    }
    search.go(piece as u32, [UNSET; 16], 0);
    (search.best.cost != u32::MAX).then_some(search.best)
}

fn open_atom(atom: &Atom, rule: &Rule, offset: u8, classes: &Classes) -> Atom {
    let terms = atom.terms.map(|t| {
        let v = t.wrapping_sub(offset);
        if v < 12 && rule.existentials >> v & 1 == 1 { OPEN + v } else { classes.find(t) }
    });
    Atom { key: atom.key, terms }
}

/// Is the match satisfied on the allowed facts? If so, the soft facts that one way of it uses: while they stay, it stays.
pub fn satisfied(
    rule: &Rule,
    head: &[Atom; 4],
    offset: u8,
    classes: &Classes,
    facts: &Facts,
    allowed: u32,
    soft: u32,
) -> Option<u32> {
    let mut used = 0;
    for &piece in &rule.pieces[..rule.piece_count] {
        used |= find_piece(rule, head, offset, piece, classes, facts, allowed, soft & !used, None)?.used;
    }
    Some(used & soft)
}
