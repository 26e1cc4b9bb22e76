//! Terms, atoms and rules as plain values, and lists of facts.

/// A constant or a null by its number, or a variable of a rule.
#[derive(Clone, Copy, PartialEq, Eq, Hash, PartialOrd, Ord, Debug)]
pub enum Term {
    Constant(u16),
    Variable(u16),
    Null(u16),
}

#[derive(Clone, PartialEq, Eq, Hash, Debug)]
pub struct Atom {
    pub predicate: u16,
    pub terms: Vec<Term>,
}

#[derive(Clone, PartialEq, Eq, Debug)]
pub struct Rule {
    pub number: u16,
    pub body: Vec<Atom>,
    pub head: Vec<Atom>,
}

/// The variables in the atoms, each once, in the order in which they first stand.
pub fn variables(atoms: &[Atom]) -> Vec<u16> {
    let mut found = Vec::new();
    for term in atoms.iter().flat_map(|a| &a.terms) {
        if let Term::Variable(v) = term {
            if !found.contains(v) {
                found.push(*v);
            }
        }
    }
    found
}

impl Rule {
    pub fn universals(&self) -> Vec<u16> {
        variables(&self.body)
    }

    /// In the order in which they first stand in the head.
    pub fn existentials(&self) -> Vec<u16> {
        let universals = self.universals();
        variables(&self.head).into_iter().filter(|v| !universals.contains(v)).collect()
    }

    pub fn constants(&self) -> Vec<u16> {
        let mut found = Vec::new();
        for term in self.body.iter().chain(&self.head).flat_map(|a| &a.terms) {
            if let Term::Constant(n) = term {
                if !found.contains(n) {
                    found.push(*n);
                }
            }
        }
        found
    }
}

/// Two bytes, the high one first.
pub fn push_pair(bytes: &mut Vec<u8>, n: u16) {
    bytes.push((n >> 8) as u8);
    bytes.push((n & 255) as u8);
}

/// A rule's bytes in a volume.
pub fn rule_bytes(rule: &Rule) -> Vec<u8> {
    let mut bytes = vec![rule.body.len() as u8, rule.head.len() as u8];
    for atom in rule.body.iter().chain(&rule.head) {
        push_pair(&mut bytes, atom.predicate);
        bytes.push(atom.terms.len() as u8);
        for term in &atom.terms {
            let (kind, n) = match term {
                Term::Constant(n) => (0, n),
                Term::Variable(n) => (1, n),
                Term::Null(n) => (2, n),
            };
            bytes.push(kind);
            push_pair(&mut bytes, *n);
        }
    }
    bytes
}

/// A rule volume.
pub fn volume_bytes(rules: &[Rule]) -> Vec<u8> {
    let mut bytes = vec![1];
    push_pair(&mut bytes, rules.len() as u16);
    for rule in rules {
        push_pair(&mut bytes, rule.number);
        push_pair(&mut bytes, rule_bytes(rule).len() as u16);
    }
    for rule in rules {
        bytes.extend(rule_bytes(rule));
    }
    bytes
}
