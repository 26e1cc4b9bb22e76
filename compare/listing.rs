//! What the program `listing` has to print.

use crate::relations::{is_restrained, positively_relies};
use crate::volume::read_rules;

/// The least numbering of so many rules, or none. All numbers begin at 0, and each that is too small for a pair is raised,
/// until none is; where there is a numbering at all, the least one has no number of `count` or more.
pub fn least_numbering(count: usize, at_most: &[(usize, usize)], less: &[(usize, usize)]) -> Option<Vec<usize>> {
    let mut grades = vec![0; count];
    loop {
        let before = grades.clone();
        for &(a, b) in at_most {
            grades[b] = grades[b].max(grades[a]);
        }
        for &(a, b) in less {
            grades[b] = grades[b].max(grades[a] + 1);
        }
        if grades == before {
            return Some(grades);
        }
        if grades.iter().any(|grade| *grade >= count) {
            return None;
        }
    }
}

/// The lines for the bytes, of which 65,536 count.
pub fn listing(bytes: &[u8]) -> String {
    let bytes = &bytes[..bytes.len().min(65_536)];
    let rules = match read_rules(bytes) {
        Ok(rules) => rules,
        Err(f) => return format!("X {} {} {} {}\n", f.number, f.layer, f.index, f.place),
    };
    let mut text = String::new();
    let (mut at_most, mut less) = (Vec::new(), Vec::new());
    for (i, a) in rules.iter().enumerate() {
        for (j, b) in rules.iter().enumerate() {
            if positively_relies(a, b) {
                at_most.push((i, j));
                text += &format!("P {} {}\n", a.number, b.number);
            }
            if is_restrained(a, b) {
                less.push((i, j));
                text += &format!("R {} {}\n", a.number, b.number);
            }
        }
    }
    match least_numbering(rules.len(), &at_most, &less) {
        None => text += "G -\n",
        Some(grades) => {
            for (rule, grade) in rules.iter().zip(grades) {
                text += &format!("G {} {}\n", rule.number, grade);
            }
        }
    }
    text
}
