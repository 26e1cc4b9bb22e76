//! Rules as plain structs, and the reader of a rule volume.

/// Terms are bytes. A rule's own terms are its variables 0 to 11, its constants by their place in its table, and
/// a filler after the last term, so that an atom's terms can be compared as one array.
pub const CONSTANTS: u8 = 36;
pub const FILLER: u8 = 127;

/// `key` is the predicate and the arity in one number: atoms that differ in it are unrelated.
#[derive(Clone, Copy, PartialEq, Eq, Default)]
pub struct Atom {
    pub key: u32,
    pub terms: [u8; 4],
}

#[derive(Clone)]
pub struct Rule {
    pub number: u16,
    pub bodies: usize,
    pub heads: usize,
    pub body: [Atom; 6],
    pub head: [Atom; 4],
    pub constants: [u16; 40],
    pub constant_count: usize,
    /// a bit for each existential variable, and the same for each head atom
    pub existentials: u16,
    pub open: [u16; 4],
    /// the head atoms in groups, a bit for each atom: atoms that share an existential variable are in one group
    pub pieces: [u8; 4],
    pub piece_count: usize,
    /// one bit for each key, folded to 64: two rules without a common bit have no common key
    pub body_keys: u64,
    pub head_keys: u64,
    pub open_keys: u64,
}

pub fn bits(mut mask: u32) -> impl Iterator<Item = usize> {
    std::iter::from_fn(move || {
        if mask == 0 {
            return None;
        }
        let low = mask.trailing_zeros() as usize;
        mask &= mask - 1;
        Some(low)
    })
}

fn key_bit(key: u32) -> u64 {
    1 << (key.wrapping_mul(0x9E37_79B1) >> 26)
}

fn variables(atom: &Atom) -> u16 {
    atom.terms.iter().filter(|&&t| t < 12).fold(0, |set, &t| set | 1 << t)
}

struct Reader<'a> {
    bytes: &'a [u8],
    place: usize,
}

impl Reader<'_> {
    fn byte(&mut self) -> Result<u8, String> {
        let byte = *self.bytes.get(self.place).ok_or("the volume is cut")?;
        self.place += 1;
        Ok(byte)
    }

    fn number(&mut self) -> Result<u16, String> {
        Ok(u16::from_be_bytes([self.byte()?, self.byte()?]))
    }

    fn atom(&mut self, rule: &mut Rule) -> Result<Atom, String> {
        let predicate = self.number()?;
        let arity = self.byte()?;
        if arity < 1 || arity > 4 {
            return Err("wrong arity".into());
        }
        let mut atom = Atom { key: predicate as u32 * 8 + arity as u32, terms: [FILLER; 4] };
        for place in 0..arity as usize {
            atom.terms[place] = match (self.byte()?, self.number()?) {
                (0, n) => rule.constant(n),
                (1, v) if v < 12 => v as u8,
                _ => return Err("wrong term".into()),
            };
        }
        Ok(atom)
    }
}

impl Rule {
    fn empty(number: u16) -> Rule {
        Rule {
            number,
            bodies: 0,
            heads: 0,
            body: Default::default(),
            head: Default::default(),
            constants: [0; 40],
            constant_count: 0,
            existentials: 0,
            open: [0; 4],
            pieces: [0; 4],
            piece_count: 0,
            body_keys: 0,
            head_keys: 0,
            open_keys: 0,
        }
    }

    fn constant(&mut self, number: u16) -> u8 {
        let known = &self.constants[..self.constant_count];
        let place = known.iter().position(|&c| c == number).unwrap_or(self.constant_count);
        if place == self.constant_count {
            self.constants[place] = number;
            self.constant_count += 1;
        }
        CONSTANTS + place as u8
    }

    /// fills what follows from the atoms
    fn finish(&mut self) -> Result<(), String> {
        let universal = self.body[..self.bodies].iter().fold(0, |set, a| set | variables(a));
        for (at, atom) in self.head[..self.heads].iter().enumerate() {
            self.open[at] = variables(atom) & !universal;
            self.existentials |= self.open[at];
            self.head_keys |= key_bit(atom.key);
            if self.open[at] != 0 {
                self.open_keys |= key_bit(atom.key);
            }
        }
        for atom in &self.body[..self.bodies] {
            self.body_keys |= key_bit(atom.key);
        }
        if self.existentials.count_ones() > 4 {
            return Err("too many existential variables".into());
        }
        self.find_pieces();
        Ok(())
    }

    fn find_pieces(&mut self) {
        let mut left = (1u8 << self.heads) - 1;
        while left != 0 {
            let mut piece = left & left.wrapping_neg();
            loop {
                let shared = self.open_of(piece);
                let grown = (0..self.heads).filter(|&at| self.open[at] & shared != 0).fold(piece, |p, at| p | 1 << at);
                if grown == piece {
                    break;
                }
                piece = grown;
            }
            self.pieces[self.piece_count] = piece;
            self.piece_count += 1;
            left &= !piece;
        }
    }

    /// the existential variables of a group of head atoms
    pub fn open_of(&self, piece: u8) -> u16 {
        bits(piece as u32).fold(0, |set, at| set | self.open[at])
    }
}

/// reads a rule volume (its layout is in docs/volumes.md)
pub fn read_volume(bytes: &[u8]) -> Result<Vec<Rule>, String> {
    let mut reader = Reader { bytes, place: 0 };
    if reader.byte()? != 1 {
        return Err("no rule volume".into());
    }
    let count = reader.number()?;
    let mut rules = Vec::new();
    for _ in 0..count {
        rules.push(Rule::empty(reader.number()?));
        reader.number()?;
    }
    for rule in &mut rules {
        rule.bodies = reader.byte()? as usize;
        rule.heads = reader.byte()? as usize;
        if !(1..=6).contains(&rule.bodies) || !(1..=4).contains(&rule.heads) {
            return Err("wrong counts".into());
        }
        for at in 0..rule.bodies {
            rule.body[at] = reader.atom(rule)?;
        }
        for at in 0..rule.heads {
            rule.head[at] = reader.atom(rule)?;
        }
        rule.finish()?;
    }
    if reader.place != bytes.len() {
        return Err("bytes left over".into());
    }
    Ok(rules)
}
