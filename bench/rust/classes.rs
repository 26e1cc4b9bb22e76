//! Which symbolic values are equal: the values of two rules' variables, in classes that only grow together.

use crate::rule::{Atom, Rule, CONSTANTS, FILLER};

/// The symbols of a pair of rules: the first rule's variables from 0, the second's from `SECOND`, the values that an
/// alternative gives the second's existential variables from `OTHER`, then constants.
pub const SECOND: u8 = 12;
pub const OTHER: u8 = 24;

/// What a class may be, from the freest to the most bound; a class is what its most bound member is.
/// `ANY`: any value at all. `OF_FIRST`: any value but the nulls that the first rule's application gives.
/// `OF_SECOND`: stands in the facts before the second rule's application, so it is none of the nulls given.
/// `NULL_OF_SECOND`, `NULL_OF_FIRST`: one of the nulls that the second or the first rule's application gives.
pub const ANY: u8 = 0;
pub const OF_FIRST: u8 = 1;
pub const OF_SECOND: u8 = 2;
pub const NULL_OF_SECOND: u8 = 3;
pub const NULL_OF_FIRST: u8 = 4;
pub const CONSTANT: u8 = 5;

/// with what a class of each kind can be equal, of the kinds that are as free or freer
const JOINS: [u8; 6] = [0b000001, 0b000011, 0b000111, 0b000011, 0b000001, 0b000111];

/// two rules over common symbols
pub struct Pair<'a> {
    pub first: &'a Rule,
    pub second: &'a Rule,
    pub second_body: [Atom; 6],
    pub second_head: [Atom; 4],
    /// the head atoms of the first rule that may be new: not those that stand in its body, and each once
    pub news: [Atom; 4],
    pub new_count: usize,
    pub constants: [u16; 80],
    pub kind: [u8; 128],
}

impl<'a> Pair<'a> {
    pub fn new(first: &'a Rule, second: &'a Rule) -> Pair<'a> {
        let mut pair = Pair {
            first,
            second,
            second_body: second.body,
            second_head: second.head,
            news: [Atom::default(); 4],
            new_count: 0,
            constants: [0; 80],
            kind: [CONSTANT; 128],
        };
        for atom in &first.head[..first.heads] {
            if !first.body[..first.bodies].contains(atom) && !pair.news[..pair.new_count].contains(atom) {
                pair.news[pair.new_count] = *atom;
                pair.new_count += 1;
            }
        }
        let symbols = pair.symbols_of_second();
        for atom in pair.second_body[..second.bodies].iter_mut().chain(&mut pair.second_head[..second.heads]) {
            atom.terms = atom.terms.map(|t| symbols[t as usize & 127]);
        }
        for v in 0..12 {
            pair.kind[v] = if first.existentials >> v & 1 == 1 { NULL_OF_FIRST } else { OF_FIRST };
            pair.kind[OTHER as usize + v] = ANY;
        }
        pair
    }

    fn symbols_of_second(&mut self) -> [u8; 128] {
        let mut symbols = [FILLER; 128];
        for v in 0..12 {
            symbols[v as usize] = SECOND + v;
        }
        let mut count = self.first.constant_count;
        self.constants[..40].copy_from_slice(&self.first.constants);
        for at in 0..self.second.constant_count {
            let number = self.second.constants[at];
            let known = self.constants[..count].iter().position(|&c| c == number);
            let place = known.unwrap_or(count);
            if known.is_none() {
                self.constants[place] = number;
                count += 1;
            }
            symbols[CONSTANTS as usize + at] = CONSTANTS + place as u8;
        }
        symbols
    }
}

/// `of[x]` is the symbol that stands for the class of x, one of its most bound members.
/// `apart[x]` says from which nulls of the second rule that class is to differ, a bit for each variable.
#[derive(Clone, Copy)]
pub struct Classes {
    pub of: [u8; 128],
    pub apart: [u16; 36],
}

impl Classes {
    pub fn new() -> Classes {
        let mut of = [0; 128];
        for (symbol, class) in of.iter_mut().enumerate() {
            *class = symbol as u8;
        }
        Classes { of, apart: [0; 36] }
    }

    pub fn find(&self, symbol: u8) -> u8 {
        self.of[symbol as usize & 127]
    }

    pub fn atom(&self, atom: &Atom) -> Atom {
        Atom { key: atom.key, terms: atom.terms.map(|t| self.find(t)) }
    }

    /// The classes that follow if the atom becomes the head atom `at`, if it can. Left out are those by which it
    /// becomes some other head atom too, if that other one asks for less or comes first: they are a special case of it.
    pub fn way(&self, atom: &Atom, heads: &[Atom], at: usize, kind: &[u8; 128]) -> Option<Classes> {
        if !self.may_join_atoms(atom, &heads[at], kind) {
            return None;
        }
        let joined = |at: usize| {
            let mut classes = *self;
            classes.join_atoms(atom, &heads[at], kind).then_some(classes)
        };
        let classes = joined(at)?;
        let asks_for_less = |one: usize| {
            one < at || joined(one).is_some_and(|other| !other.same_atom(&heads[one], &heads[at]))
        };
        let special = |one: usize| one != at && classes.same_atom(&heads[one], &heads[at]) && asks_for_less(one);
        (!(0..heads.len()).any(special)).then_some(classes)
    }

    /// how many head atoms there are that `may_join_atoms` the atom
    pub fn count_ways(&self, atom: &Atom, heads: &[Atom], kind: &[u8; 128]) -> usize {
        heads.iter().filter(|head| self.may_join_atoms(atom, head, kind)).count()
    }

    pub fn same_atom(&self, a: &Atom, b: &Atom) -> bool {
        a.key == b.key && self.atom(a) == self.atom(b)
    }

    /// makes two symbols equal, or says that they cannot be
    pub fn join(&mut self, x: u8, y: u8, kind: &[u8; 128]) -> bool {
        let (x, y) = (self.find(x), self.find(y));
        if x == y {
            return true;
        }
        let (kx, ky) = (kind[x as usize & 127], kind[y as usize & 127]);
        let (stays, goes, bound, free) = if kx >= ky { (x, y, kx, ky) } else { (y, x, ky, kx) };
        if JOINS[bound as usize % 6] >> free & 1 == 0 {
            return false;
        }
        let apart = self.apart[goes as usize];
        if bound == NULL_OF_SECOND && apart >> (stays - SECOND) & 1 == 1 {
            return false;
        }
        if let Some(set) = self.apart.get_mut(stays as usize) {
            *set |= apart;
        }
        for class in &mut self.of[..36] {
            *class = if *class == goes { stays } else { *class };
        }
        true
    }

    /// whether no two terms of the atoms, taken alone, keep them from being equal
    pub fn may_join_atoms(&self, a: &Atom, b: &Atom, kind: &[u8; 128]) -> bool {
        a.key == b.key
            && a.terms.iter().zip(&b.terms).all(|(&x, &y)| {
                let (x, y) = (self.find(x), self.find(y));
                let (kx, ky) = (kind[x as usize & 127], kind[y as usize & 127]);
                x == y || JOINS[kx.max(ky) as usize % 6] >> kx.min(ky) & 1 == 1
            })
    }

    /// makes two atoms of one key equal, or says that they cannot be
    pub fn join_atoms(&mut self, a: &Atom, b: &Atom, kind: &[u8; 128]) -> bool {
        a.key == b.key && (0..4).all(|at| self.join(a.terms[at], b.terms[at], kind))
    }
}
