//! Rules as they are made: plain rows, a short text form, and the bytes of a volume.

#[derive(Clone, Copy, PartialEq, Eq, Debug)]
pub enum Term {
    Constant(u16),
    Variable(u16),
}

#[derive(Clone, PartialEq, Eq, Debug)]
pub struct Atom {
    pub predicate: u16,
    pub terms: Vec<Term>,
}

#[derive(Clone, PartialEq, Eq, Debug)]
pub struct Draft {
    pub body: Vec<Atom>,
    pub head: Vec<Atom>,
}

/// `p(a,b) q(b,3) > r(b,c)`: predicates are words (their first letter counts, p is 1), variables are the letters a to l
pub fn draft(text: &str) -> Draft {
    let (body, head) = text.split_once('>').expect("a rule has >");
    Draft { body: atoms(body), head: atoms(head) }
}

fn atoms(text: &str) -> Vec<Atom> {
    let words = text.split(')').map(str::trim).filter(|word| !word.is_empty());
    words.map(atom).collect()
}

fn atom(text: &str) -> Atom {
    let (name, terms) = text.split_once('(').expect("an atom has (");
    let letter = name.bytes().next().expect("a predicate has a name");
    let predicate = (letter as u16 + 27 - b'p' as u16) % 26;
    Atom { predicate, terms: terms.split(',').map(|t| term(t.trim())).collect() }
}

fn term(text: &str) -> Term {
    match text.parse() {
        Ok(number) => Term::Constant(number),
        Err(_) => Term::Variable((text.as_bytes()[0] - b'a') as u16),
    }
}

fn variables(atoms: &[Atom]) -> Vec<u16> {
    let terms = atoms.iter().flat_map(|a| &a.terms);
    let mut found: Vec<u16> = terms.filter_map(|t| if let Term::Variable(v) = t { Some(*v) } else { None }).collect();
    found.sort();
    found.dedup();
    found
}

impl Draft {
    pub fn universals(&self) -> Vec<u16> {
        variables(&self.body)
    }

    pub fn existentials(&self) -> Vec<u16> {
        let universals = self.universals();
        variables(&self.head).into_iter().filter(|v| !universals.contains(v)).collect()
    }

    fn bytes(&self) -> Vec<u8> {
        let mut bytes = vec![self.body.len() as u8, self.head.len() as u8];
        for atom in self.body.iter().chain(&self.head) {
            bytes.extend(atom.predicate.to_be_bytes());
            bytes.push(atom.terms.len() as u8);
            for term in &atom.terms {
                let (kind, number) = match term {
                    Term::Constant(n) => (0, n),
                    Term::Variable(v) => (1, v),
                };
                bytes.push(kind);
                bytes.extend(number.to_be_bytes());
            }
        }
        bytes
    }
}

/// a rule volume of these rules, numbered from 1
pub fn volume(rules: &[Draft]) -> Vec<u8> {
    let bodies: Vec<Vec<u8>> = rules.iter().map(Draft::bytes).collect();
    let mut bytes = vec![1];
    bytes.extend((rules.len() as u16).to_be_bytes());
    for (at, body) in bodies.iter().enumerate() {
        bytes.extend((at as u16 + 1).to_be_bytes());
        bytes.extend((body.len() as u16).to_be_bytes());
    }
    bytes.extend(bodies.concat());
    bytes
}
