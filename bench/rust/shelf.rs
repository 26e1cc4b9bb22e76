//! A shelf of up to 64 rules: questions by the rules' numbers, the grading of its rules, and the listing of a volume.

use crate::check::check;
use crate::literal::Witness;
use crate::numbering::{least_numbering, Pairs};
use crate::reliance::relies;
use crate::restraint::restrains;
use crate::rule::{read_volume, Rule};
use std::fmt::Write;

#[derive(Clone, Copy, PartialEq, Eq)]
pub enum Kind {
    Positive,
    Restraint,
}

fn holds(kind: Kind, first: &Rule, second: &Rule, witness: &mut Witness) -> bool {
    match kind {
        Kind::Positive => relies(first, second, witness),
        Kind::Restraint => restrains(first, second, witness),
    }
}

pub struct Shelf {
    slots: [Option<Rule>; 64],
}

/// how many pairs have each relation, and the numbers by rising rule number
pub type Grades = (u32, u32, [u8; 64]);

impl Shelf {
    pub fn new() -> Shelf {
        Shelf { slots: std::array::from_fn(|_| None) }
    }

    fn held(&self, number: u16) -> Option<&Rule> {
        self.slots.iter().flatten().find(|rule| rule.number == number)
    }

    /// whether there was room, and no rule of this number
    pub fn admit(&mut self, rule: Rule) -> bool {
        if self.held(rule.number).is_some() {
            return false;
        }
        let Some(free) = self.slots.iter_mut().find(|slot| slot.is_none()) else {
            return false;
        };
        *free = Some(rule);
        true
    }

    pub fn ask(&self, kind: Kind, first: u16, second: u16, witness: &mut Witness) -> Option<bool> {
        Some(holds(kind, self.held(first)?, self.held(second)?, witness))
    }

    fn related(&self, kind: Kind) -> Pairs {
        let mut witness = Witness::default();
        let mut pairs = [0; 64];
        for (i, first) in self.slots.iter().enumerate() {
            for (j, second) in self.slots.iter().enumerate() {
                if let (Some(first), Some(second)) = (first, second) {
                    pairs[i] |= (holds(kind, first, second, &mut witness) as u64) << j;
                }
            }
        }
        pairs
    }

    pub fn grade(&self) -> Option<Grades> {
        let held = (0..64).filter(|&i| self.slots[i].is_some()).fold(0, |held, i| held | 1 << i);
        let (reliances, restraints) = (self.related(Kind::Positive), self.related(Kind::Restraint));
        let numbers = least_numbering(held, &reliances, &restraints)?;
        let mut order: Vec<usize> = (0..64).filter(|&i| self.slots[i].is_some()).collect();
        order.sort_by_key(|&i| self.slots[i].as_ref().map(|rule| rule.number));
        let mut grades = [0; 64];
        for (place, slot) in order.into_iter().enumerate() {
            grades[place] = numbers[slot];
        }
        let count = |pairs: &Pairs| pairs.iter().map(|row| row.count_ones()).sum();
        Some((count(&reliances), count(&restraints), grades))
    }
}

#[derive(Clone, Copy)]
pub enum Call {
    Admit { index: usize },
    Ask { kind: Kind, first: u16, second: u16 },
    Grade,
}

// what a yes is shown by is not read here
#[allow(dead_code)]
pub enum Answer {
    Done,
    Refused,
    Yes(Witness),
    No,
    Graded(Grades),
}

/// the admission of each rule, and then the questions about each two
pub fn calls_for(rules: &[Rule], kinds: &[Kind]) -> Vec<Call> {
    let mut calls: Vec<Call> = (0..rules.len()).map(|index| Call::Admit { index }).collect();
    for first in rules {
        for second in rules {
            for &kind in kinds {
                calls.push(Call::Ask { kind, first: first.number, second: second.number });
            }
        }
    }
    calls
}

/// makes the calls on a new shelf, with rules to admit
pub fn run(rules: &[Rule], calls: &[Call]) -> Vec<Answer> {
    let mut shelf = Shelf::new();
    calls.iter().map(|call| make(rules, &mut shelf, call)).collect()
}

fn make(rules: &[Rule], shelf: &mut Shelf, call: &Call) -> Answer {
    match *call {
        Call::Admit { index } if shelf.admit(rules[index].clone()) => Answer::Done,
        Call::Admit { .. } => Answer::Refused,
        Call::Ask { kind, first, second } => {
            let mut witness = Witness::default();
            match shelf.ask(kind, first, second, &mut witness) {
                Some(true) => Answer::Yes(witness),
                Some(false) => Answer::No,
                None => Answer::Refused,
            }
        }
        Call::Grade => shelf.grade().map_or(Answer::Refused, Answer::Graded),
    }
}

/// what the program listing prints (docs/listing.md)
pub fn listing(bytes: &[u8]) -> Result<String, String> {
    let mut text = String::new();
    if bytes.first() == Some(&2) {
        return Ok("X 2 1 0 0\n".into());
    }
    if let Err(fault) = check(bytes) {
        let _ = writeln!(text, "X {} {} {} {}", fault.number, fault.layer, fault.index, fault.place);
        return Ok(text);
    }
    let rules = read_volume(bytes)?;
    let mut calls = calls_for(&rules, &[Kind::Positive, Kind::Restraint]);
    calls.push(Call::Grade);
    for (call, answer) in calls.iter().zip(run(&rules, &calls)) {
        let _ = match (call, answer) {
            (Call::Ask { kind: Kind::Positive, first, second }, Answer::Yes(_)) => writeln!(text, "P {first} {second}"),
            (Call::Ask { kind: Kind::Restraint, first, second }, Answer::Yes(_)) => writeln!(text, "R {first} {second}"),
            (Call::Grade, Answer::Graded((_, _, grades))) => {
                rules.iter().zip(grades).try_for_each(|(rule, grade)| writeln!(text, "G {} {grade}", rule.number))
            }
            (Call::Grade, _) => writeln!(text, "G -"),
            _ => Ok(()),
        };
    }
    Ok(text)
}
