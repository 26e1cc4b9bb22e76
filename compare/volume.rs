//! The check of a rule volume, field by field in the order that docs/volumes.md gives, and its rules.

use crate::atoms::{Atom, Rule, Term};

#[derive(Clone, Copy, PartialEq, Eq, Debug)]
pub struct Fault {
    pub number: u64,
    pub layer: u64,
    pub index: u64,
    pub place: u64,
}

/// The layer of a fault, as docs/refusals.md lists them.
fn layer(number: u64) -> u64 {
    match number {
        1 | 2 | 3 | 5 => 1,
        4 => 2,
        6 | 7 | 10 => 3,
        8 => 4,
        _ => 5,
    }
}

fn fault<T>(number: u64, index: usize, place: usize) -> Result<T, Fault> {
    Err(Fault { number, layer: layer(number), index: index as u64, place: place as u64 })
}

fn pair(bytes: &[u8], at: usize) -> u16 {
    (bytes[at] as u16) * 256 + bytes[at + 1] as u16
}

/// Reads inside one rule, which ends at `end`.
struct Reader<'a> {
    bytes: &'a [u8],
    index: usize,
    at: usize,
    end: usize,
}

impl Reader<'_> {
    /// The place of a field of so many bytes, which is then passed.
    fn field(&mut self, size: usize) -> Result<usize, Fault> {
        if self.at + size > self.end {
            return fault(7, self.index, self.end);
        }
        self.at += size;
        Ok(self.at - size)
    }

    fn term(&mut self) -> Result<Term, Fault> {
        let at = self.field(1)?;
        let kind = self.bytes[at];
        if kind > 1 {
            return fault(9, self.index, at);
        }
        let at = self.field(2)?;
        let number = pair(self.bytes, at);
        match kind {
            0 => Ok(Term::Constant(number)),
            _ if number > 11 => fault(9, self.index, at),
            _ => Ok(Term::Variable(number)),
        }
    }

    fn atom(&mut self) -> Result<Atom, Fault> {
        let at = self.field(2)?;
        let predicate = pair(self.bytes, at);
        let at = self.field(1)?;
        let arity = self.bytes[at];
        if !(1..=4).contains(&arity) {
            return fault(8, self.index, at);
        }
        let mut terms = Vec::new();
        for _ in 0..arity {
            terms.push(self.term()?);
        }
        Ok(Atom { predicate, terms })
    }

    fn rule(&mut self, number: u16) -> Result<Rule, Fault> {
        let start = self.at;
        let at = self.field(2)?;
        let (bodies, heads) = (self.bytes[at], self.bytes[at + 1]);
        if bodies < 1 || bodies > 6 {
            return fault(6, self.index, at);
        }
        if heads < 1 || heads > 4 {
            return fault(6, self.index, at + 1);
        }
        let mut rule = Rule { number, body: Vec::new(), head: Vec::new() };
        for _ in 0..bodies {
            rule.body.push(self.atom()?);
        }
        for _ in 0..heads {
            rule.head.push(self.atom()?);
        }
        if self.at != self.end {
            return fault(7, self.index, self.at);
        }
        if rule.existentials().len() > 4 {
            return fault(10, self.index, start);
        }
        Ok(rule)
    }
}

/// The rules of the volume, or its first fault.
pub fn read_rules(bytes: &[u8]) -> Result<Vec<Rule>, Fault> {
    if bytes.len() < 3 {
        return fault(1, 0, bytes.len());
    }
    if bytes[0] != 1 {
        return fault(2, 0, 0);
    }
    let count = pair(bytes, 1) as usize;
    if count > 64 {
        return fault(3, 0, 1);
    }
    let contents = 3 + 4 * count;
    if bytes.len() < contents {
        return fault(1, 0, bytes.len());
    }
    for index in 1..count {
        let place = 3 + 4 * index;
        if pair(bytes, place) <= pair(bytes, place - 4) {
            return fault(4, index, place);
        }
    }
    let length = |index: usize| pair(bytes, 3 + 4 * index + 2) as usize;
    let end = contents + (0..count).map(length).sum::<usize>();
    if end != bytes.len() {
        return fault(5, 0, end);
    }
    let mut at = contents;
    let mut rules = Vec::new();
    for index in 0..count {
        let mut reader = Reader { bytes, index, at, end: at + length(index) };
        rules.push(reader.rule(pair(bytes, 3 + 4 * index))?);
        at = reader.end;
    }
    Ok(rules)
}
