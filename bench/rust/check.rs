//! The check of a volume of rules or of facts (docs/volumes.md has the layout, docs/refusals.md the faults).

/// The number of a refusal, its layer, the index of a rule or fact, and a place in the bytes.
#[derive(Clone, Copy, PartialEq, Eq)]
pub struct Fault {
    pub number: u8,
    pub layer: u8,
    pub index: usize,
    pub place: usize,
}

fn fault(number: u8, index: usize, place: usize) -> Fault {
    let layer = match number {
        4 => 2,
        6 | 7 | 10 => 3,
        8 => 4,
        9 => 5,
        _ => 1,
    };
    Fault { number, layer, index, place }
}

/// how many rules or facts there are, or the first fault
pub fn check(bytes: &[u8]) -> Result<usize, Fault> {
    match bytes.first() {
        Some(2) => check_facts(bytes),
        _ => check_rules(bytes),
    }
}

fn pair(bytes: &[u8], place: usize) -> usize {
    u16::from_be_bytes([bytes[place], bytes[place + 1]]) as usize
}

/// the count, where the contents are whole
fn head(bytes: &[u8], kind: u8, most: usize, width: usize) -> Result<usize, Fault> {
    if bytes.len() < 3 {
        return Err(fault(1, 0, bytes.len()));
    }
    if bytes[0] != kind {
        return Err(fault(2, 0, 0));
    }
    let count = pair(bytes, 1);
    if count > most {
        return Err(fault(3, 0, 1));
    }
    if bytes.len() < 3 + width * count {
        return Err(fault(1, 0, bytes.len()));
    }
    Ok(count)
}

fn check_rules(bytes: &[u8]) -> Result<usize, Fault> {
    let count = head(bytes, 1, 64, 4)?;
    for index in 1..count {
        if pair(bytes, 3 + 4 * index) <= pair(bytes, 4 * index - 1) {
            return Err(fault(4, index, 3 + 4 * index));
        }
    }
    let mut place = 3 + 4 * count;
    let end = place + (0..count).map(|index| pair(bytes, 5 + 4 * index)).sum::<usize>();
    if end != bytes.len() {
        return Err(fault(5, 0, end));
    }
    for index in 0..count {
        let end = place + pair(bytes, 5 + 4 * index);
        Part { bytes: &bytes[..end], place, index, variable: 1 }.rule()?;
        place = end;
    }
    Ok(count)
}

fn check_facts(bytes: &[u8]) -> Result<usize, Fault> {
    let count = head(bytes, 2, 2048, 2)?;
    let mut place = 3 + 2 * count;
    for index in 0..count {
        if pair(bytes, 3 + 2 * index) != place {
            return Err(fault(4, index, 3 + 2 * index));
        }
        let mut part = Part { bytes, place, index, variable: 2 };
        part.atom()?;
        place = part.place;
    }
    if place != bytes.len() {
        return Err(fault(5, 0, place));
    }
    Ok(count)
}

/// what is left of the bytes of a rule or fact; besides constants, terms of the kind `variable` may stand there
struct Part<'a> {
    bytes: &'a [u8],
    place: usize,
    index: usize,
    variable: u8,
}

impl Part<'_> {
    fn byte(&mut self) -> Result<u8, Fault> {
        let byte = *self.bytes.get(self.place).ok_or(fault(7, self.index, self.bytes.len()))?;
        self.place += 1;
        Ok(byte)
    }

    fn number(&mut self) -> Result<usize, Fault> {
        if self.place + 2 > self.bytes.len() {
            return Err(fault(7, self.index, self.bytes.len()));
        }
        self.place += 2;
        Ok(pair(self.bytes, self.place - 2))
    }

    /// the set of the rule's variables that stand in the atom
    fn atom(&mut self) -> Result<u16, Fault> {
        self.number()?;
        let arity = self.byte()?;
        if !(1..=4).contains(&arity) {
            return Err(fault(8, self.index, self.place - 1));
        }
        let mut variables = 0;
        for _ in 0..arity {
            variables |= self.term()?;
        }
        Ok(variables)
    }

    fn term(&mut self) -> Result<u16, Fault> {
        let kind = self.byte()?;
        if kind != 0 && kind != self.variable {
            return Err(fault(9, self.index, self.place - 1));
        }
        let number = self.number()?;
        if kind != 1 {
            return Ok(0);
        }
        if number > 11 {
            return Err(fault(9, self.index, self.place - 2));
        }
        Ok(1 << number)
    }

    fn atoms(&mut self, count: u8) -> Result<u16, Fault> {
        (0..count).try_fold(0, |variables, _| Ok(variables | self.atom()?))
    }

    fn rule(&mut self) -> Result<(), Fault> {
        let start = self.place;
        let (bodies, heads) = (self.byte()?, self.byte()?);
        if !(1..=6).contains(&bodies) {
            return Err(fault(6, self.index, start));
        }
        if !(1..=4).contains(&heads) {
            return Err(fault(6, self.index, start + 1));
        }
        let universals = self.atoms(bodies)?;
        let existentials = self.atoms(heads)? & !universals;
        if self.place != self.bytes.len() {
            return Err(fault(7, self.index, self.place));
        }
        if existentials.count_ones() > 4 {
            return Err(fault(10, self.index, start));
        }
        Ok(())
    }
}
