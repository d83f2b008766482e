//! Bells: twelve letters that are terms of size 1.

/// The letters of bells one to twelve, as ringers write them.
const LETTERS: [u8; 12] = *b"1234567890ET";

/// A bell, by the place of its letter among the twelve.
#[derive(Clone, Copy, Debug, PartialEq, Eq, PartialOrd, Ord)]
pub struct Bell(usize);

impl Bell {
    /// The bell with this letter; none for any other byte.
    pub fn of(letter: u8) -> Option<Bell> {
        LETTERS.iter().position(|&own| own == letter).map(Bell)
    }

    pub fn letter(self) -> u8 {
        LETTERS[self.0]
    }

    /// One to twelve.
    pub fn number(self) -> u8 {
        self.0 as u8 + 1
    }

    /// The twelve bells, bell one first.
    pub fn all() -> [Bell; 12] {
        std::array::from_fn(Bell)
    }
}
