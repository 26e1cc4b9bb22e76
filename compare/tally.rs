//! What was met, and how often.

use std::collections::BTreeMap;

#[derive(Default)]
pub struct Tally {
    counts: BTreeMap<(String, String), u64>,
    pub differences: u64,
}

impl Tally {
    pub fn add(&mut self, group: &str, name: &str) {
        *self.counts.entry((group.to_string(), name.to_string())).or_insert(0) += 1;
    }

    pub fn join(&mut self, other: Tally) {
        for (name, count) in other.counts {
            *self.counts.entry(name).or_insert(0) += count;
        }
        self.differences += other.differences;
    }

    /// A line for each group, and last how many differences there are.
    pub fn print(&self) {
        let mut groups: BTreeMap<&str, Vec<String>> = BTreeMap::new();
        for ((group, name), count) in &self.counts {
            groups.entry(group).or_default().push(format!("{name} {count}"));
        }
        for (group, counts) in groups {
            println!("{group}: {}", counts.join(", "));
        }
        println!("{} differences", self.differences);
    }
}
