//! A refusal: a number with its place or line (REQUIREMENTS, Replies and areas).

#[derive(Clone, Copy, Debug, PartialEq, Eq)]
pub struct Refusal {
    pub number: u8,
    pub place: usize,
}

pub const AREA_TOO_LARGE: u8 = 1;
/// The work area, the buffer for the counts, or the store of a catalogue or a book.
pub const LENT_TOO_SHORT: u8 = 2;
pub const LENGTH_TOO_LARGE: u8 = 3;
pub const FUEL_TOO_LARGE: u8 = 4;
pub const NOT_A_LETTER: u8 = 5;
pub const NOT_WHOLE: u8 = 6;
pub const ALREADY_WHOLE: u8 = 7;
pub const FILE_TOO_LARGE: u8 = 10;
pub const FILE_EMPTY: u8 = 11;
pub const NO_LAST_LINE_FEED: u8 = 12;
pub const TOO_MANY_LINES: u8 = 13;
pub const NOT_SIX_FIELDS: u8 = 14;
pub const FIELD_NOT_WELL_FORMED: u8 = 15;
pub const UNKNOWN_RULE: u8 = 16;
pub const BAD_PREMISE: u8 = 17;
pub const NOT_AN_INSTANCE: u8 = 18;
pub const BAD_LINE_OF_INPUT: u8 = 19;
/// The term is no chain of bells, or rows have no such number of bells.
pub const NO_CHAIN: u8 = 20;
/// The bells are no whole number of rows, or the rows are too many.
pub const NO_TABLE: u8 = 21;
pub const BAD_ROW: u8 = 22;
/// A line of a book is no name, tab and term with uses, or is one too many.
pub const BAD_BOOK_LINE: u8 = 25;
pub const NAME_TAKEN: u8 = 26;
pub const NAME_UNKNOWN: u8 = 27;
pub const NO_CATALOGUE: u8 = 28;
/// A full stop stands in a term that is to be entered.
pub const NOT_NORMAL: u8 = 29;
pub const CATALOGUE_FULL: u8 = 30;
pub const JOIN_TOO_LARGE: u8 = 31;
/// The input of sweep or dearest has another shape, or there are no small terms of that size.
pub const BAD_SWEEP: u8 = 32;

/// The refusal `number` at `place`.
pub fn at(number: u8, place: usize) -> Refusal {
    Refusal { number, place }
}

/// A refusal without a place of its own answers place 0.
pub fn without_place(number: u8) -> Refusal {
    at(number, 0)
}
