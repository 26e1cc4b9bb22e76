//! The calls of the static library `sources_c`, and what crosses to it.

use crate::atoms::Term;

#[repr(C)]
#[derive(Clone, Copy, PartialEq, Eq, Debug)]
pub struct PlainTerm {
    pub kind: u16,
    pub number: u16,
}

#[repr(C)]
#[derive(Clone, Copy, PartialEq, Eq, Debug)]
pub struct PlainAtom {
    pub predicate: u16,
    pub arity: u8,
    pub terms: [PlainTerm; 4],
}

#[repr(C)]
#[derive(Clone, Copy, PartialEq, Eq, Debug)]
pub struct Given {
    pub terms: [PlainTerm; 12],
}

#[repr(C)]
#[derive(Clone, Copy, PartialEq, Eq, Debug)]
pub struct Lent {
    pub stack: [u16; 6],
    pub found: Given,
}

#[repr(C)]
#[derive(Clone, Copy, PartialEq, Eq, Debug)]
pub struct Own {
    pub atoms: [PlainAtom; 4],
    pub count: u8,
}

#[repr(C)]
#[derive(Clone, Copy, PartialEq, Eq, Debug)]
pub struct Told {
    pub number: u8,
    pub place: usize,
}

mod library {
    use super::*;
    extern "C" {
        pub fn pz_check(rows: *const PlainAtom, row_count: usize) -> Told;
        pub fn pz_find(rows: *const PlainAtom, row_count: usize, rules: *const u8, rule_bytes: usize, lent: &mut Lent) -> u8;
        pub fn pz_apply(rows: *const PlainAtom, row_count: usize, rules: *const u8, rule_bytes: usize, found: &Given) -> Told;
        pub fn pz_find_after(
            rows: *const PlainAtom,
            row_count: usize,
            rules: *const u8,
            rule_bytes: usize,
            calls: *const Given,
            call_count: usize,
            lent: &mut Lent,
            own: &mut Own,
        ) -> u8;
    }
}

pub fn check(rows: &[PlainAtom]) -> Told {
    unsafe { library::pz_check(rows.as_ptr(), rows.len()) }
}

pub fn find(rows: &[PlainAtom], rules: &[u8], lent: &mut Lent) -> u8 {
    unsafe { library::pz_find(rows.as_ptr(), rows.len(), rules.as_ptr(), rules.len(), lent) }
}

pub fn apply(rows: &[PlainAtom], rules: &[u8], found: &Given) -> Told {
    unsafe { library::pz_apply(rows.as_ptr(), rows.len(), rules.as_ptr(), rules.len(), found) }
}

pub fn find_after(rows: &[PlainAtom], rules: &[u8], calls: &[Given], lent: &mut Lent, own: &mut Own) -> u8 {
    unsafe {
        library::pz_find_after(rows.as_ptr(), rows.len(), rules.as_ptr(), rules.len(), calls.as_ptr(), calls.len(), lent, own)
    }
}

/// What the fields mean: kind 0 is a constant, 2 a null, any other a variable.
pub fn term(plain: PlainTerm) -> Term {
    match plain.kind {
        0 => Term::Constant(plain.number),
        2 => Term::Null(plain.number),
        _ => Term::Variable(plain.number),
    }
}

pub fn plain_term(term: Term) -> PlainTerm {
    let (kind, number) = match term {
        Term::Constant(n) => (0, n),
        Term::Variable(n) => (1, n),
        Term::Null(n) => (2, n),
    };
    PlainTerm { kind, number }
}
