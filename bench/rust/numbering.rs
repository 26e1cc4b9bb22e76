//! The least numbering that keeps two relations between 64 slots.

use crate::rule::bits;

/// for each slot a bit for each slot that it is related to
pub type Pairs = [u64; 64];

fn slots(set: u64) -> impl Iterator<Item = usize> {
    bits(set as u32).chain(bits((set >> 32) as u32).map(|slot| slot + 32))
}

/// Numbers begin at 0 and are raised where a pair asks for it, until none does. A number that passes 63 shows that there is no
/// numbering.
pub fn least_numbering(held: u64, at_most: &Pairs, less_than: &Pairs) -> Option<[u8; 64]> {
    let mut numbers = [0u8; 64];
    let mut changed = true;
    while changed {
        changed = false;
        for first in slots(held) {
            let least = numbers[first];
            for (second, least) in slots(at_most[first] & held)
                .map(|second| (second, least))
                .chain(slots(less_than[first] & held).map(|second| (second, least + 1)))
            {
                if numbers[second] < least {
                    if least > 63 {
                        return None;
                    }
                    numbers[second] = least;
                    changed = true;
                }
            }
        }
    }
    Some(numbers)
}

/// so many slots, each less than the one after it, or before it
pub fn chain(count: usize, up: bool) -> (u64, Pairs) {
    let mut less_than = [0; 64];
    for slot in 1..count {
        let (first, second) = if up { (slot - 1, slot) } else { (slot, slot - 1) };
        less_than[first] |= 1 << second;
    }
    ((0..count).fold(0, |held, slot| held | 1 << slot), less_than)
}
