//! Lent buffers between guards, filled with a pattern, so that any alteration shows.

/// An element of a lent buffer.
pub trait Element: Copy + PartialEq + std::fmt::LowerHex {
    fn patterned(number: u64) -> Self;
}

impl Element for u8 {
    fn patterned(number: u64) -> u8 {
        (number >> 24) as u8
    }
}

impl Element for u16 {
    fn patterned(number: u64) -> u16 {
        (number >> 24) as u16
    }
}

/// Elements on each side of what is lent that nobody may touch.
const GUARD: usize = 24;

/// One buffer that is lent for one call.
pub struct Lent<T> {
    all: Vec<T>,
    before: Vec<T>,
}

impl<T: Element> Lent<T> {
    /// Room of this length. The pattern differs from call to call, so that a byte written with what was there by chance in
    /// one call shows in another.
    pub fn room(length: usize, salt: u64) -> Lent<T> {
        let number = |at: usize| {
            (at as u64 + 1).wrapping_mul(0x9E37_79B9).wrapping_add(salt.wrapping_mul(0x85EB_CA6B_27D4_EB4F))
        };
        let all: Vec<T> = (0..length + 2 * GUARD).map(|at| T::patterned(number(at))).collect();
        Lent { before: all.clone(), all }
    }

    /// Room that holds this content.
    pub fn of(content: &[T], salt: u64) -> Lent<T> {
        let mut lent = Lent::room(content.len(), salt);
        lent.all[GUARD..][..content.len()].copy_from_slice(content);
        lent.before = lent.all.clone();
        lent
    }

    /// The part that is lent.
    pub fn part(&mut self) -> &mut [T] {
        let end = self.all.len() - GUARD;
        &mut self.all[GUARD..end]
    }

    /// What differs from the buffer as it came with `given` at the front of the lent part; nothing if all is as it should be.
    pub fn fault(&self, name: &str, given: &[T]) -> Option<String> {
        let mut expected = self.before.clone();
        // Room under what is given is itself a difference; it must not stop the comparison.
        let end = (GUARD + given.len()).min(expected.len());
        expected[GUARD..end].copy_from_slice(&given[..end - GUARD]);
        let at = (0..expected.len()).find(|&at| self.all[at] != expected[at])?;
        let place = at as i64 - GUARD as i64;
        Some(format!("{name} at {place}: {:x} where the model has {:x}", self.all[at], expected[at]))
    }
}
