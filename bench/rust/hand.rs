//! Rules made by hand to be hard for any search. They use few predicates, so most pairs share some, and the groups below
//! are met in all combinations.

use crate::draft::{draft, Draft};

const RULES: [&str; 62] = [
    // heads of new nulls only: cycles, paths, stars and cliques that a body of the same predicate may or may not fit into
    "s(a) > p(a,b) p(b,c) p(c,d) p(d,a)",
    "s(a) > p(b,c) p(c,d) p(d,e) p(e,b)",
    "s(a) > p(b,c) p(c,d) p(d,b) p(b,e)",
    "s(a) > p(a,b) p(a,c) p(a,d) p(a,e)",
    "s(a) > p(a,b) p(b,c) p(c,d) p(d,e)",
    "s(a) > p(b,c) p(c,b) p(b,d) p(d,b)",
    "s(a) > p(b,b) p(b,c) p(c,d) p(d,e)",
    "s(a) > p(a,b) p(b,c) p(c,d) p(d,8)",
    // the same, but satisfied by what other rules take for old
    "p(a,b) > p(b,c) p(c,d) p(d,a)",
    "p(a,b) p(b,c) > p(c,d) p(d,e) p(e,a)",
    "p(a,b) p(a,c) > p(b,d) p(c,d) p(d,e)",
    "p(a,b) p(b,c) p(c,d) p(d,e) p(e,f) p(f,g) > p(g,h) p(h,i) p(i,j) p(j,a)",
    // bodies of six atoms of one predicate: cycles, a clique, stars, chains that fail or end at a constant
    "p(a,b) p(b,c) p(c,a) p(a,d) p(b,d) p(c,d) > t(a)",
    "p(a,b) p(b,c) p(c,d) p(d,e) p(e,a) > t(c)",
    "p(a,b) p(b,c) p(c,d) p(d,e) p(e,f) p(f,a) > t(a)",
    "p(a,b) p(a,c) p(a,d) p(a,e) p(a,f) p(a,g) > p(b,c) p(d,e) p(f,g)",
    "p(a,b) p(a,c) p(a,d) p(a,e) p(a,f) p(g,f) > p(f,h) p(h,g)",
    "p(b,a) p(c,a) p(d,a) p(a,e) p(a,f) p(a,g) > p(h,b) p(e,h) p(h,h)",
    "p(a,b) p(b,c) p(c,d) p(d,e) p(e,f) p(f,7) > t(a)",
    "p(a,b) p(b,c) p(c,d) p(d,e) p(e,f) p(f,8) > p(8,a)",
    "p(a,b) p(a,b) p(a,b) p(b,a) p(b,a) p(a,a) > p(b,b)",
    "p(a,b) p(a,b) p(c,b) p(c,d) p(e,d) p(e,a) > p(a,f) p(f,d) p(f,f)",
    // no existential variable, many free ones: values that may become nulls of the other rule in many ways
    "p(a,b) p(c,d) p(e,f) p(g,h) p(i,j) p(k,l) > p(a,d) p(c,f) p(e,h) p(g,j)",
    "p(a,b) p(c,d) p(e,f) p(g,h) p(i,j) p(k,l) > p(l,a) p(b,c) p(d,e) p(f,g)",
    "p(a,b) p(b,c) p(c,d) p(d,e) p(e,f) p(f,a) > p(a,c) p(b,d) p(c,e) p(d,f)",
    "p(a,b) p(b,c) > p(a,c)",
    "p(a,b) > p(b,a)",
    "s(a) s(b) s(c) s(d) s(e) s(f) > p(a,b) p(c,d) p(e,f) p(b,c)",
    // nulls that are to be replaced: chains, cycles and rotations, some with constants at the far end
    "t(a) > p(a,b) p(b,c) p(c,d) p(d,e)",
    "t(a) > p(b,c) p(c,d) p(d,e) p(e,b)",
    "t(a) > p(a,b) p(b,c) p(c,a)",
    "t(a) > p(a,b) p(b,c) p(a,c) p(c,d)",
    "t(a) > p(1,b) p(b,2) p(b,c) p(c,3)",
    "t(a) > p(b,c) p(c,d) p(d,b) p(d,e)",
    "p(1,a) p(a,2) p(a,b) p(b,c) p(c,3) > p(b,3)",
    "p(1,a) p(a,b) p(b,3) > p(a,2)",
    "p(a,b) p(b,c) p(c,d) p(d,1) > p(1,a) p(a,2)",
    // four terms: permutations
    "s(a) > q(b,c,d,e) q(c,d,e,b) q(d,e,b,c) q(e,b,c,d)",
    "q(a,b,c,d) q(b,a,d,c) q(c,d,a,b) q(d,c,b,a) q(a,c,b,d) q(d,b,c,a) > t(a)",
    "q(a,b,c,d) q(b,c,d,a) q(c,d,a,b) q(d,a,b,c) q(a,b,e,f) q(f,e,d,c) > t(f)",
    "q(a,b,c,d) q(e,f,g,h) q(i,j,k,l) > q(a,e,i,b) q(c,f,j,d) q(k,g,h,l) q(l,a,f,k)",
    "q(a,b,c,d) q(d,e,f,g) q(g,h,i,j) q(j,k,l,a) > q(l,k,j,i) q(h,g,f,e) q(d,c,b,a) q(a,e,h,k)",
    "q(a,b,c,d) q(b,c,d,e) q(c,d,e,f) q(d,e,f,g) q(e,f,g,h) q(f,g,h,a) > q(g,h,a,b) q(h,a,b,c)",
    "q(a,b,c,d) q(e,f,g,h) > q(e,b,c,h) q(a,f,g,d) q(a,b,g,h) q(e,f,c,d)",
    "q(a,b,c,d) > q(b,c,d,a)",
    "q(a,b,c,d) > q(b,a,c,d) q(a,b,d,c)",
    "q(a,b,c,d) q(c,d,e,f) > q(a,b,e,f) q(e,f,a,b)",
    "t(a) > q(b,c,d,e)",
    "t(a) > q(a,b,c,d) q(a,c,d,b) q(a,d,b,c)",
    "t(a) > q(b,c,d,e) q(c,d,e,b) q(d,e,b,c) q(e,b,c,d)",
    "t(a) > q(b,c,d,e) q(c,b,d,e) q(b,c,e,d) q(c,b,e,d)",
    "t(a) > q(a,b,c,d) q(b,c,d,e)",
    "q(a,b,c,d) q(b,c,d,e) > q(c,d,e,f) q(d,e,f,g)",
    "q(a,b,a,b) q(c,d,c,d) q(e,f,e,f) q(a,c,e,g) q(b,d,f,g) q(g,g,g,g) > q(h,a,h,b) q(h,c,h,d) q(h,e,h,f)",
    // a far match that only exists once several values are nulls of the other rule
    "q(a,b,c,d) q(b,c,d,a) p(a,c) p(b,d) > q(c,d,a,b) p(c,a) p(d,b)",
    "t(a) > q(b,c,d,e) q(c,d,e,b) p(b,d) p(c,e)",
    // three pairs not thought up: rules were changed at random, and what took longer was kept
    "p(b,l,l) p(d,b,i) p(c,i,0) p(f,a,d) p(i,d,j) p(e,c,b) > p(h,i,h) p(h,a,h) p(h,b,h) p(h,l,h)",
    "p(b,k,g) p(d,j,i) p(g,e,i) p(i,0,c) p(a,f,b) p(h,j,d) > p(l,k,d) p(l,j,h) p(l,j,h) p(l,j,d)",
    "p(k,l) p(g,b) p(i,g) p(l,k) p(a,g) p(0,g) > p(h,j) p(h,1) p(h,f) p(h,d)",
    "p(b,g) p(d,i) p(c,g) p(b,a) p(j,d) p(c,i) > p(k,e) p(k,h) p(k,g) p(h,f)",
    "q(e,d,g) q(j,e,g) p(d,g,a) p(j,g,h) p(l,g,i) p(k,g,b) > p(b,g,k) p(i,g,l) p(b,g,h)",
    "q(e,d,l) q(c,g,l) q(l,g,l) q(e,g,k) q(c,e,l) > p(f,i,b) q(i,i,g) q(i,i,g) q(i,i,g)",
];

pub fn rules() -> Vec<Draft> {
    RULES.map(draft).to_vec()
}
