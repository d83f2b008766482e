//! A book of the tests' own that is read and played on bytes, and ways to do so wrongly.

use crate::books::*;
use crate::reply::*;
use crate::subject::Controller;

/// What is lent for a book.
pub struct Playing<'a> {
    pub book: &'a [u8],
    pub area: &'a mut [u8],
    pub work: &'a mut [u8],
    pub store: &'a mut [u8],
    pub fuel: u64,
}

/// What a book comes to.
pub type Play = fn(&dyn Controller, Playing) -> u64;

pub struct Slip {
    pub name: &'static str,
    pub play: Play,
    /// Is it to be seen at sizes past 2^32 alone?
    pub far: bool,
}

pub const fn slip(name: &'static str, play: Play) -> Slip {
    Slip { name, play, far: false }
}

pub const fn far(name: &'static str, play: Play) -> Slip {
    Slip { name, play, far: true }
}

pub const AREA_TOO_LARGE: u64 = 1;
pub const TOO_SHORT: u64 = 2;
pub const FUEL_TOO_LARGE: u64 = 4;
pub const TOO_LARGE: u64 = 10;
pub const EMPTY: u64 = 11;
pub const NO_LINE_FEED: u64 = 12;
pub const BAD_LINE: u64 = 25;
pub const TAKEN: u64 = 26;
pub const UNKNOWN: u64 = 27;

const LARGEST: usize = 16_384;

/// A line: its name, and its term with uses.
#[derive(Clone, Copy)]
pub struct Line<'a> {
    pub name: &'a [u8],
    pub term: &'a [u8],
}

/// What may be wrong with a line.
#[derive(Clone, Copy)]
pub struct Faults {
    pub bad: bool,
    pub over: bool,
    pub taken: bool,
    pub unknown: bool,
}

/// A line that has been played: its term with results in the place of uses, the answer of its run, and its result.
pub struct Ran {
    pub term: Vec<u8>,
    pub reply: u64,
    pub text: Vec<u8>,
}

/// How a book is read and played. A slip is another way in one of these.
#[derive(Clone, Copy)]
pub struct Way {
    pub most_area: usize,
    pub least_store: usize,
    pub most_fuel: u64,
    pub most_bytes: usize,
    pub most_lines: usize,
    pub longest_name: usize,
    pub shortest_use: usize,
    pub most_letters: usize,
    /// The numbers that are tested ahead of the lines, in their order.
    pub whole: &'static [u64],
    /// How many bytes a work area must have.
    pub least_work: fn(usize) -> usize,
    /// The lines of a book.
    pub lines: fn(&[u8]) -> Vec<&[u8]>,
    /// What of a line is looked at.
    pub looked_at: fn(&[u8]) -> Vec<u8>,
    /// Name and term of a line.
    pub cut: fn(&[u8]) -> Option<(&[u8], &[u8])>,
    /// May this byte stand in a name?
    pub small: fn(u8) -> bool,
    /// How many terms does this letter take?
    pub takes: fn(u8) -> Option<usize>,
    /// Is a term whole where so many are owed, and so many bytes are left?
    pub whole_term: fn(usize, usize) -> bool,
    /// Where does a use end that starts these bytes? None of a hundred letters is looked for.
    pub closed: fn(&[u8]) -> Option<usize>,
    /// Have these two names one line?
    pub same: fn(&[u8], &[u8]) -> bool,
    /// How many lines may a line use that has so many before it and so many of all?
    pub usable: fn(usize, usize) -> usize,
    /// The number of a line's first fault.
    pub fault: fn(Faults) -> Option<u64>,
    /// Of all lines with their faults, the one that is told.
    pub first: fn(&[(usize, u64)]) -> Option<(usize, u64)>,
    /// A line's number, from how many are before it.
    pub number: fn(usize) -> usize,
    /// The fuel of a line, of so much, behind so many steps of others.
    pub fuel: fn(u64, u64) -> u64,
    /// What stands for a line where it is used.
    pub stands: fn(&Ran) -> Vec<u8>,
    /// Which result does a use take that stands for this line, of so many?
    pub taken_from: fn(usize, usize) -> usize,
    /// Does a term of so many letters, written in so many bytes, fit an area of so many?
    pub fits: fn(usize, usize, usize) -> bool,
    /// The letters that a line takes of the store: of its own, is it the last?
    pub letters: fn(&Ran, bool) -> usize,
    /// Are lines tested one by one, each when it is played?
    pub late: bool,
    /// Is a line that nobody uses, and that is not the last, left out?
    pub lazy: bool,
    /// Is a book played on behind a line that does not finish?
    pub goes_on: bool,
}

/// As the requirements have it.
pub const RIGHT: Way = Way {
    most_area: LARGEST,
    least_store: STORE,
    most_fuel: MOST_FUEL,
    most_bytes: MOST_BYTES,
    most_lines: MOST_LINES,
    longest_name: LONGEST_NAME,
    shortest_use: 1,
    most_letters: STORE,
    whole: &[AREA_TOO_LARGE, TOO_SHORT, FUEL_TOO_LARGE, TOO_LARGE, EMPTY, NO_LINE_FEED],
    least_work: |area| area,
    lines: |book| book.strip_suffix(b"\n").unwrap_or(book).split(|&byte| byte == b'\n').collect(),
    looked_at: <[u8]>::to_vec,
    cut: |line| {
        let tab = line.iter().position(|&byte| byte == b'\t')?;
        Some((&line[..tab], &line[tab + 1..]))
    },
    small: |byte| byte.is_ascii_lowercase(),
    takes: second::term::arity,
    whole_term: |owed, left| owed == 0 && left == 0,
    closed: |bytes| bytes.iter().take(100).position(|&byte| byte == b')'),
    same: |one, two| one == two,
    usable: |before, _| before,
    fault: |faults| in_order(faults, [BAD_LINE, TAKEN, UNKNOWN]),
    first: |faults| faults.first().copied(),
    number: |before| before + 1,
    fuel: |fuel, _| fuel,
    stands: |ran| ran.text.clone(),
    taken_from: |line, _| line,
    fits: |letters, _, area| letters <= area,
    letters: |ran, _| ran.text.len(),
    late: false,
    lazy: false,
    goes_on: false,
};

/// The first of these numbers that a line earns.
pub fn in_order(faults: Faults, numbers: [u64; 3]) -> Option<u64> {
    let earned = |number: &u64| match *number {
        BAD_LINE => faults.bad || faults.over,
        TAKEN => faults.taken,
        _ => faults.unknown,
    };
    numbers.into_iter().find(earned)
}

/// What a book came to.
pub struct Came {
    pub code: u64,
    pub line: usize,
    pub text: Vec<u8>,
    /// The letters of all results.
    pub held: Vec<u8>,
}

impl Way {
    /// Does one of the numbers ahead of the lines apply?
    fn applies(&self, number: u64, lent: &Playing) -> bool {
        match number {
            AREA_TOO_LARGE => lent.area.len() > self.most_area,
            TOO_SHORT => {
                lent.work.len() < (self.least_work)(lent.area.len()) || lent.store.len() < self.least_store
            }
            FUEL_TOO_LARGE => lent.fuel > self.most_fuel,
            TOO_LARGE => lent.book.len() > self.most_bytes,
            EMPTY => lent.book.is_empty(),
            _ => lent.book.last().is_some_and(|&last| last != b'\n'),
        }
    }

    fn is_name(&self, bytes: &[u8], shortest: usize) -> bool {
        (shortest..=self.longest_name).contains(&bytes.len()) && bytes.iter().all(|&byte| (self.small)(byte))
    }

    /// Where the use ends that starts these bytes.
    fn use_in(&self, bytes: &[u8]) -> Option<usize> {
        let end = (self.closed)(bytes)?;
        self.is_name(&bytes[1..end], self.shortest_use).then_some(end)
    }

    /// Is this one whole term with uses?
    fn is_term(&self, term: &[u8]) -> bool {
        let (mut owed, mut place) = (1, 0);
        while place < term.len() && owed > 0 {
            let used = if term[place] == b'(' { self.use_in(&term[place..]) } else { None };
            let (takes, length) = match (term[place], used) {
                (b'(', None) => return false,
                (_, Some(end)) => (0, end + 1),
                (letter, None) => match (self.takes)(letter) {
                    Some(takes) => (takes, 1),
                    None => return false,
                },
            };
            owed = owed - 1 + takes;
            place += length;
        }
        (self.whole_term)(owed, term.len().saturating_sub(place))
    }

    /// A term with each use exchanged for what this says of it, as far as uses can be made out.
    fn exchanged(&self, term: &[u8], mut by: impl FnMut(&[u8]) -> Vec<u8>) -> Vec<u8> {
        let (mut text, mut place) = (vec![], 0);
        while place < term.len() {
            let used = if term[place] == b'(' { self.use_in(&term[place..]) } else { None };
            match used {
                Some(end) => {
                    text.extend(by(&term[place + 1..(place + end).min(term.len())]));
                    place += end + 1;
                }
                None => {
                    text.push(term[place]);
                    place += 1;
                }
            }
        }
        text
    }

    fn place_of(&self, name: &[u8], lines: &[Line]) -> Option<usize> {
        lines.iter().position(|line| (self.same)(line.name, name))
    }

    /// The number of the first fault of the line in this place.
    fn fault_of(&self, place: usize, lines: &[Line], cut: Option<Line>) -> Option<u64> {
        let own = lines[place];
        let bad = cut.is_none_or(|line| !self.is_name(line.name, 1) || !self.is_term(line.term));
        let usable = &lines[..(self.usable)(place, lines.len())];
        let mut unknown = false;
        self.exchanged(own.term, |name| {
            unknown |= self.place_of(name, usable).is_none();
            vec![]
        });
        let taken = self.is_name(own.name, 1) && self.place_of(own.name, &lines[..place]).is_some();
        (self.fault)(Faults { bad, over: place >= self.most_lines, taken, unknown })
    }

    /// A line run by itself.
    fn ran(&self, subject: &dyn Controller, term: Vec<u8>, written: usize, area: usize, fuel: u64) -> Ran {
        if !(self.fits)(term.len(), written, area) {
            return Ran { term, reply: pack(NO_ROOM, 0, 0), text: vec![] };
        }
        let room = area.max(term.len());
        let (mut bytes, mut work) = (term.clone(), vec![0; room]);
        bytes.resize(room, 0);
        let reply = subject.finish(&mut bytes, term.len(), &mut work, fuel);
        // what is no term, or too large for any area, is let through with nothing for its result
        let reply = if is_refusal(reply) { pack(FINISHED, 0, 0) } else { reply };
        bytes.truncate(size(reply));
        Ran { term, reply, text: bytes }
    }

    /// Plays these lines, with the first fault of each at hand where they are tested late.
    fn came(
        &self,
        subject: &dyn Controller,
        lines: &[Line],
        faults: &[(usize, u64)],
        lent: &Playing,
    ) -> Result<Came, u64> {
        let (mut stand, mut held, mut letters, mut steps) = (vec![], vec![], 0, 0);
        let mut came = Came { code: FINISHED, line: 0, text: vec![], held: vec![] };
        for (place, line) in lines.iter().enumerate() {
            let last = place + 1 == lines.len();
            if let Some(&(_, number)) = faults.iter().find(|fault| fault.0 == place) {
                return Err(placed(number, (self.number)(place)));
            }
            if self.lazy && !last && !used_in(&lines[place + 1..], line.name) {
                stand.push(vec![]);
                continue;
            }
            let term = self.exchanged(line.term, |name| {
                let from = self.place_of(name, lines).unwrap_or(0);
                stand.get((self.taken_from)(from, place)).cloned().unwrap_or(b"J".to_vec())
            });
            let ran = self.ran(subject, term, line.term.len(), lent.area.len(), (self.fuel)(lent.fuel, steps));
            steps += value(ran.reply);
            letters += (self.letters)(&ran, last);
            let code = match code(ran.reply) {
                FINISHED if letters > self.most_letters => NO_ROOM,
                code => code,
            };
            let behind = came.code != FINISHED;
            if !behind {
                came = Came { code, line: (self.number)(place), text: ran.text.clone(), held: vec![] };
            }
            if code != FINISHED && !self.goes_on {
                break;
            }
            held.extend_from_slice(&ran.text);
            stand.push((self.stands)(&ran));
            if self.goes_on && behind {
                came = Came { code, line: (self.number)(place), text: ran.text.clone(), held: vec![] };
            }
        }
        came.held = held;
        Ok(came)
    }

    /// What a book comes to that is read and played so; nothing is written.
    pub fn tried(&self, subject: &dyn Controller, lent: &Playing) -> Result<Came, u64> {
        if let Some(&number) = self.whole.iter().find(|&&number| self.applies(number, lent)) {
            return Err(placed(number, 0));
        }
        let bytes: Vec<Vec<u8>> = (self.lines)(lent.book).into_iter().map(self.looked_at).collect();
        let cut: Vec<Option<Line>> =
            bytes.iter().map(|line| (self.cut)(line).map(|(name, term)| Line { name, term })).collect();
        let lines: Vec<Line> =
            cut.iter().zip(&bytes).map(|(cut, line)| cut.unwrap_or(Line { name: line, term: b"" })).collect();
        let most = lines.len().min(self.most_lines.saturating_add(2));
        let faults: Vec<(usize, u64)> = (0..most)
            .filter_map(|place| self.fault_of(place, &lines, cut[place]).map(|number| (place, number)))
            .collect();
        if let Some((place, number)) = (self.first)(&faults).filter(|_| !self.late) {
            return Err(placed(number, (self.number)(place)));
        }
        self.came(subject, &lines, &faults, lent)
    }

    /// Plays a book so, and leaves what a book leaves.
    pub fn play(&self, subject: &dyn Controller, lent: Playing) -> u64 {
        self.play_and(subject, lent, |_, _| ())
    }

    /// The same, with something else done to what is lent at the end.
    pub fn play_and(&self, subject: &dyn Controller, lent: Playing, also: impl Fn(&Came, &mut Playing)) -> u64 {
        let mut lent = lent;
        let came = match self.tried(subject, &lent) {
            Ok(came) => came,
            Err(refusal) => return refusal,
        };
        let text: &[u8] = if came.code == FINISHED { &came.text } else { b"" };
        lent.work.fill(0);
        let used = STORE.min(lent.store.len());
        lent.store[..used].fill(0);
        lent.area.fill(0);
        lent.area.iter_mut().zip(text).for_each(|(place, letter)| *place = *letter);
        also(&came, &mut lent);
        pack(came.code, came.line as u64, text.len())
    }
}

/// Is this name used in one of these lines?
fn used_in(lines: &[Line], name: &[u8]) -> bool {
    let used = use_of(name);
    lines.iter().any(|line| line.term.windows(used.len()).any(|part| part == used))
}

fn sum(name: &[u8]) -> u32 {
    name.iter().map(|&byte| u32::from(byte)).sum()
}

/// Slips in how a book is read.
pub static READ: &[Slip] = &[
    // the limits
    slip("a book's area of 16,383 bytes the largest", |s, lent| Way { most_area: 16_383, ..RIGHT }.play(s, lent)),
    slip("a book's area of 16,385 bytes", |s, lent| Way { most_area: 16_385, ..RIGHT }.play(s, lent)),
    slip("a store of 65,535 bytes for a book", |s, lent| Way { least_store: 65_535, ..RIGHT }.play(s, lent)),
    slip("a store of 65,537 bytes asked for a book", |s, lent| Way { least_store: 65_537, ..RIGHT }.play(s, lent)),
    slip("a store of 67,584 bytes asked for a book", |s, lent| Way { least_store: 67_584, ..RIGHT }.play(s, lent)),
    slip("a store as long as the area enough for a book", |s, lent| {
        Way { least_store: lent.area.len(), ..RIGHT }.play(s, lent)
    }),
    slip("fuel of 999,999 the most for a book", |s, lent| Way { most_fuel: 999_999, ..RIGHT }.play(s, lent)),
    slip("fuel of 1,000,001 for a book", |s, lent| {
        Way { most_fuel: MOST_FUEL + 1, fuel: |fuel, _| fuel.min(MOST_FUEL), ..RIGHT }.play(s, lent)
    }),
    slip("a book of 65,535 bytes the largest", |s, lent| Way { most_bytes: 65_535, ..RIGHT }.play(s, lent)),
    slip("a book of 65,537 bytes", |s, lent| Way { most_bytes: 65_537, ..RIGHT }.play(s, lent)),
    slip("255 lines in a book", |s, lent| Way { most_lines: 255, ..RIGHT }.play(s, lent)),
    slip("257 lines in a book", |s, lent| Way { most_lines: 257, ..RIGHT }.play(s, lent)),
    slip("1,024 lines in a book", |s, lent| Way { most_lines: 1_024, ..RIGHT }.play(s, lent)),
    slip("names of seven letters", |s, lent| Way { longest_name: 7, ..RIGHT }.play(s, lent)),
    slip("names of nine letters", |s, lent| Way { longest_name: 9, ..RIGHT }.play(s, lent)),
    slip("names of sixteen letters", |s, lent| Way { longest_name: 16, ..RIGHT }.play(s, lent)),
    slip("names of any length", |s, lent| Way { longest_name: usize::MAX, ..RIGHT }.play(s, lent)),
    slip("uses of no letter", |s, lent| Way { shortest_use: 0, ..RIGHT }.play(s, lent)),
    slip("uses of two letters at least", |s, lent| Way { shortest_use: 2, ..RIGHT }.play(s, lent)),
    // which of the numbers ahead of the lines comes first
    slip("2 ahead of 1 for a book", |s, lent| {
        Way { whole: &[TOO_SHORT, AREA_TOO_LARGE, FUEL_TOO_LARGE, TOO_LARGE, EMPTY, NO_LINE_FEED], ..RIGHT }
            .play(s, lent)
    }),
    slip("4 ahead of 2 for a book", |s, lent| {
        Way { whole: &[AREA_TOO_LARGE, FUEL_TOO_LARGE, TOO_SHORT, TOO_LARGE, EMPTY, NO_LINE_FEED], ..RIGHT }
            .play(s, lent)
    }),
    slip("4 ahead of 1 for a book", |s, lent| {
        Way { whole: &[FUEL_TOO_LARGE, AREA_TOO_LARGE, TOO_SHORT, TOO_LARGE, EMPTY, NO_LINE_FEED], ..RIGHT }
            .play(s, lent)
    }),
    slip("10 ahead of 4", |s, lent| {
        Way { whole: &[AREA_TOO_LARGE, TOO_SHORT, TOO_LARGE, FUEL_TOO_LARGE, EMPTY, NO_LINE_FEED], ..RIGHT }
            .play(s, lent)
    }),
    slip("11 ahead of 4", |s, lent| {
        Way { whole: &[AREA_TOO_LARGE, TOO_SHORT, EMPTY, FUEL_TOO_LARGE, TOO_LARGE, NO_LINE_FEED], ..RIGHT }
            .play(s, lent)
    }),
    slip("12 ahead of 4", |s, lent| {
        Way { whole: &[AREA_TOO_LARGE, TOO_SHORT, NO_LINE_FEED, FUEL_TOO_LARGE, TOO_LARGE, EMPTY], ..RIGHT }
            .play(s, lent)
    }),
    slip("12 ahead of 10 for a book", |s, lent| {
        Way { whole: &[AREA_TOO_LARGE, TOO_SHORT, FUEL_TOO_LARGE, NO_LINE_FEED, TOO_LARGE, EMPTY], ..RIGHT }
            .play(s, lent)
    }),
    slip("the book ahead of what is lent", |s, lent| {
        Way { whole: &[TOO_LARGE, EMPTY, NO_LINE_FEED, AREA_TOO_LARGE, TOO_SHORT, FUEL_TOO_LARGE], ..RIGHT }
            .play(s, lent)
    }),
    slip("no last line feed asked of a book", |s, lent| {
        Way { whole: &[AREA_TOO_LARGE, TOO_SHORT, FUEL_TOO_LARGE, TOO_LARGE, EMPTY], ..RIGHT }.play(s, lent)
    }),
    slip("an empty book refused by 12", |s, lent| match RIGHT.play(s, lent) {
        reply if reply == placed(EMPTY, 0) => placed(NO_LINE_FEED, 0),
        reply => reply,
    }),
    slip("an empty book refused by 25", |s, lent| match RIGHT.play(s, lent) {
        reply if reply == placed(EMPTY, 0) => placed(BAD_LINE, 1),
        reply => reply,
    }),
    slip("the work area of a book not tested", |s, lent| Way { least_work: |_| 0, ..RIGHT }.play(s, lent)),
    slip("a longer work area asked for a book", |s, lent| {
        Way { least_work: |area| area + 1, ..RIGHT }.play(s, lent)
    }),
    slip("a work area of 16,384 bytes asked for a book", |s, lent| {
        Way { least_work: |area| area.max(LARGEST), ..RIGHT }.play(s, lent)
    }),
    // which fault of a line, and of which line, is told
    slip("26 ahead of 25", |s, lent| {
        Way { fault: |faults| in_order(faults, [TAKEN, BAD_LINE, UNKNOWN]), ..RIGHT }.play(s, lent)
    }),
    slip("27 ahead of 26", |s, lent| {
        Way { fault: |faults| in_order(faults, [BAD_LINE, UNKNOWN, TAKEN]), ..RIGHT }.play(s, lent)
    }),
    slip("27 ahead of 25", |s, lent| {
        Way { fault: |faults| in_order(faults, [UNKNOWN, BAD_LINE, TAKEN]), ..RIGHT }.play(s, lent)
    }),
    slip("26 not tested", |s, lent| {
        Way { fault: |faults| in_order(Faults { taken: false, ..faults }, [BAD_LINE, TAKEN, UNKNOWN]), ..RIGHT }
            .play(s, lent)
    }),
    slip("27 not tested", |s, lent| {
        Way { fault: |faults| in_order(Faults { unknown: false, ..faults }, [BAD_LINE, TAKEN, UNKNOWN]), ..RIGHT }
            .play(s, lent)
    }),
    slip("line 257 tested for its name first", |s, lent| {
        let fault: fn(Faults) -> Option<u64> = |faults| match faults.over {
            true => in_order(Faults { over: false, ..faults }, [BAD_LINE, TAKEN, UNKNOWN]).or(Some(BAD_LINE)),
            false => in_order(faults, [BAD_LINE, TAKEN, UNKNOWN]),
        };
        Way { fault, ..RIGHT }.play(s, lent)
    }),
    slip("257 lines refused ahead of their faults", |s, lent| {
        Way {
            first: |faults| faults.iter().find(|fault| fault.0 == MOST_LINES).or(faults.first()).copied(),
            ..RIGHT
        }
        .play(s, lent)
    }),
    slip("257 lines refused at line 0", |s, lent| match RIGHT.play(s, lent) {
        reply if reply == placed(BAD_LINE, 257) => placed(BAD_LINE, 0),
        reply => reply,
    }),
    slip("257 lines refused by 13", |s, lent| match RIGHT.play(s, lent) {
        reply if reply == placed(BAD_LINE, 257) => placed(13, 0),
        reply => reply,
    }),
    slip("the last line at fault told", |s, lent| {
        Way { first: |faults| faults.last().copied(), ..RIGHT }.play(s, lent)
    }),
    slip("the smallest number of any line told", |s, lent| {
        Way { first: |faults| faults.iter().min_by_key(|fault| fault.1).copied(), ..RIGHT }.play(s, lent)
    }),
    slip("lines numbered from 0", |s, lent| Way { number: |before| before, ..RIGHT }.play(s, lent)),
    slip("a line tested when it is played", |s, lent| Way { late: true, ..RIGHT }.play(s, lent)),
    // which lines may be used
    slip("a use of a later line let through", |s, lent| Way { usable: |_, all| all, ..RIGHT }.play(s, lent)),
    slip("a use of the line itself let through", |s, lent| {
        Way { usable: |before, _| before + 1, ..RIGHT }.play(s, lent)
    }),
    slip("the line before not known", |s, lent| {
        Way { usable: |before, _| before.saturating_sub(1), ..RIGHT }.play(s, lent)
    }),
    slip("128 lines known", |s, lent| Way { usable: |before, _| before.min(128), ..RIGHT }.play(s, lent)),
    // names
    slip("names compared by seven letters", |s, lent| {
        Way { same: |one, two| one.iter().take(7).eq(two.iter().take(7)), ..RIGHT }.play(s, lent)
    }),
    slip("names compared by four letters", |s, lent| {
        Way { same: |one, two| one.iter().take(4).eq(two.iter().take(4)), ..RIGHT }.play(s, lent)
    }),
    slip("the beginning of a name taken for it", |s, lent| {
        Way { same: |one, two| one.starts_with(two), ..RIGHT }.play(s, lent)
    }),
    slip("a longer name taken for its beginning", |s, lent| {
        Way { same: |one, two| two.starts_with(one), ..RIGHT }.play(s, lent)
    }),
    slip("the end of a name taken for it", |s, lent| {
        Way { same: |one, two| one.ends_with(two), ..RIGHT }.play(s, lent)
    }),
    slip("names compared by their length", |s, lent| {
        Way { same: |one, two| one.len() == two.len(), ..RIGHT }.play(s, lent)
    }),
    slip("names compared by the sum of their letters", |s, lent| {
        Way { same: |one, two| one.len() == two.len() && sum(one) == sum(two), ..RIGHT }.play(s, lent)
    }),
    slip("capitals and digits in names", |s, lent| {
        Way { small: |byte| byte.is_ascii_alphanumeric(), ..RIGHT }.play(s, lent)
    }),
    slip("capitals in names", |s, lent| Way { small: |byte| byte.is_ascii_alphabetic(), ..RIGHT }.play(s, lent)),
    slip("byte 96 in names", |s, lent| Way { small: |byte| (96..=122).contains(&byte), ..RIGHT }.play(s, lent)),
    slip("byte 123 in names", |s, lent| Way { small: |byte| (97..=123).contains(&byte), ..RIGHT }.play(s, lent)),
    slip("no z in names", |s, lent| Way { small: |byte| (97..122).contains(&byte), ..RIGHT }.play(s, lent)),
    slip("no a in names", |s, lent| Way { small: |byte| (98..=122).contains(&byte), ..RIGHT }.play(s, lent)),
    slip("the highest bit of a name not looked at", |s, lent| {
        Way { small: |byte| (byte & 127).is_ascii_lowercase(), ..RIGHT }.play(s, lent)
    }),
    slip("spaces in names", |s, lent| {
        Way { small: |byte| byte.is_ascii_lowercase() || byte == b' ', ..RIGHT }.play(s, lent)
    }),
    slip("every byte in names", |s, lent| Way { small: |_| true, ..RIGHT }.play(s, lent)),
    // what a line is
    slip("letters behind a term let through", |s, lent| {
        Way { whole_term: |owed, _| owed == 0, ..RIGHT }.play(s, lent)
    }),
    slip("a term that is not whole let through", |s, lent| {
        Way { whole_term: |_, left| left == 0, ..RIGHT }.play(s, lent)
    }),
    slip("one letter behind a term let through", |s, lent| {
        Way { whole_term: |owed, left| owed == 0 && left < 2, ..RIGHT }.play(s, lent)
    }),
    slip("a last use that is not closed let through", |s, lent| {
        Way {
            closed: |bytes| bytes.iter().take(100).position(|&byte| byte == b')').or(Some(bytes.len())),
            ..RIGHT
        }
        .play(s, lent)
    }),
    slip("a use closed by any bracket", |s, lent| {
        Way { closed: |bytes| bytes.iter().take(100).position(|&byte| b")]}".contains(&byte)), ..RIGHT }
            .play(s, lent)
    }),
    slip("a use closed by the last bracket of the line", |s, lent| {
        Way { closed: |bytes| bytes.iter().rposition(|&byte| byte == b')'), ..RIGHT }.play(s, lent)
    }),
    slip("a carriage return before the line feed let through", |s, lent| {
        Way { looked_at: |line| line.strip_suffix(b"\r").unwrap_or(line).to_vec(), ..RIGHT }.play(s, lent)
    }),
    slip("spaces passed over", |s, lent| {
        Way { looked_at: |line| line.iter().copied().filter(|&byte| byte != b' ').collect(), ..RIGHT }
            .play(s, lent)
    }),
    slip("zeros passed over", |s, lent| {
        Way { looked_at: |line| line.iter().copied().filter(|&byte| byte != 0).collect(), ..RIGHT }.play(s, lent)
    }),
    slip("zeros behind a line passed over", |s, lent| {
        let looked_at: fn(&[u8]) -> Vec<u8> = |line| {
            let end = line.iter().rposition(|&byte| byte != 0).map_or(0, |place| place + 1);
            line[..end].to_vec()
        };
        Way { looked_at, ..RIGHT }.play(s, lent)
    }),
    slip("a space for a tab", |s, lent| {
        let looked_at: fn(&[u8]) -> Vec<u8> =
            |line| line.iter().map(|&byte| if byte == b' ' { b'\t' } else { byte }).collect();
        Way { looked_at, ..RIGHT }.play(s, lent)
    }),
    slip("tabs in front of a term passed over", |s, lent| {
        let cut: fn(&[u8]) -> Option<(&[u8], &[u8])> = |line| {
            let tab = line.iter().position(|&byte| byte == b'\t')?;
            let term = line[tab..].iter().position(|&byte| byte != b'\t').unwrap_or(line.len() - tab);
            Some((&line[..tab], &line[tab + term..]))
        };
        Way { cut, ..RIGHT }.play(s, lent)
    }),
    slip("a tab behind a term passed over", |s, lent| {
        Way { looked_at: |line| line.strip_suffix(b"\t").unwrap_or(line).to_vec(), ..RIGHT }.play(s, lent)
    }),
    slip("a third field passed over", |s, lent| {
        let cut: fn(&[u8]) -> Option<(&[u8], &[u8])> = |line| {
            let mut fields = line.split(|&byte| byte == b'\t');
            Some((fields.next()?, fields.next()?))
        };
        Way { cut, ..RIGHT }.play(s, lent)
    }),
    slip("the last tab cuts a line", |s, lent| {
        let cut: fn(&[u8]) -> Option<(&[u8], &[u8])> = |line| {
            let tab = line.iter().rposition(|&byte| byte == b'\t')?;
            Some((line[..tab].split(|&byte| byte == b'\t').next()?, &line[tab + 1..]))
        };
        Way { cut, ..RIGHT }.play(s, lent)
    }),
    slip("empty lines passed over", |s, lent| {
        Way { lines: |book| book.split(|&byte| byte == b'\n').filter(|line| !line.is_empty()).collect(), ..RIGHT }
            .play(s, lent)
    }),
    slip("an empty last line passed over", |s, lent| {
        let lines: fn(&[u8]) -> Vec<&[u8]> = |book| {
            let book = book.strip_suffix(b"\n\n").or(book.strip_suffix(b"\n")).unwrap_or(book);
            book.split(|&byte| byte == b'\n').collect()
        };
        Way { lines, ..RIGHT }.play(s, lent)
    }),
    slip("bell eleven no letter in a book", |s, lent| {
        Way { takes: |letter| second::term::arity(letter).filter(|_| letter != b'E'), ..RIGHT }.play(s, lent)
    }),
    slip("no bells in a book", |s, lent| {
        Way { takes: |letter| second::term::arity(letter).filter(|_| b"JRHAIB.".contains(&letter)), ..RIGHT }
            .play(s, lent)
    }),
    slip("no full stops in a book", |s, lent| {
        Way { takes: |letter| second::term::arity(letter).filter(|_| letter != b'.'), ..RIGHT }.play(s, lent)
    }),
    slip("small letters for terms in a book", |s, lent| {
        Way { takes: |letter| second::term::arity(letter.to_ascii_uppercase()), ..RIGHT }.play(s, lent)
    }),
];

/// Slips in how a book is played.
pub static PLAYED: &[Slip] = &[
    // fuel
    slip("one fuel for all lines", |s, lent| {
        Way { fuel: |fuel, steps| fuel.saturating_sub(steps), ..RIGHT }.play(s, lent)
    }),
    slip("fuel one less for a book", |s, lent| {
        Way { fuel: |fuel, _| fuel.saturating_sub(1), ..RIGHT }.play(s, lent)
    }),
    slip("fuel one more for a book", |s, lent| {
        Way { fuel: |fuel, _| (fuel + 1).min(MOST_FUEL), ..RIGHT }.play(s, lent)
    }),
    slip("the most fuel for each line", |s, lent| {
        Way { fuel: |fuel, _| if fuel == 0 { 0 } else { 10_000 }, ..RIGHT }.play(s, lent)
    }),
    slip("no fuel behind a line that took it all", |s, lent| {
        Way { fuel: |fuel, steps| if steps >= fuel && steps > 0 { 0 } else { fuel }, ..RIGHT }.play(s, lent)
    }),
    // what stands for a use
    slip("lines used as they stand, not finished", |s, lent| {
        Way { stands: |ran| ran.term.clone(), ..RIGHT }.play(s, lent)
    }),
    slip("the line before taken for each use", |s, lent| {
        Way { taken_from: |_, place| place.saturating_sub(1), ..RIGHT }.play(s, lent)
    }),
    slip("the first line taken for each use", |s, lent| Way { taken_from: |_, _| 0, ..RIGHT }.play(s, lent)),
    slip("the line behind taken for a use", |s, lent| {
        Way { taken_from: |line, place| (line + 1).min(place.saturating_sub(1)), ..RIGHT }.play(s, lent)
    }),
    slip("line 128 used as line 1", |s, lent| Way { taken_from: |line, _| line % 127, ..RIGHT }.play(s, lent)),
    slip("the last letter of a result lost", |s, lent| {
        let stands: fn(&Ran) -> Vec<u8> =
            |ran| if ran.text.len() > 40 { ran.text[..ran.text.len() - 1].to_vec() } else { ran.text.clone() };
        Way { stands, ..RIGHT }.play(s, lent)
    }),
    slip("bell twelve used as bell eleven", |s, lent| {
        let stands: fn(&Ran) -> Vec<u8> =
            |ran| ran.text.iter().map(|&letter| if letter == b'T' { b'E' } else { letter }).collect();
        Way { stands, ..RIGHT }.play(s, lent)
    }),
    // the area
    slip("room asked for a line as it is written", |s, lent| {
        Way { fits: |letters, written, area| letters <= area && written <= area, ..RIGHT }.play(s, lent)
    }),
    slip("room asked for a line as it is written alone", |s, lent| {
        Way { fits: |_, written, area| written <= area, ..RIGHT }.play(s, lent)
    }),
    slip("room of 16,384 letters for each line", |s, lent| {
        Way { fits: |letters, _, _| letters <= LARGEST, ..RIGHT }.play(s, lent)
    }),
    slip("a line that fills the area refused room", |s, lent| {
        Way { fits: |letters, _, area| letters < area, ..RIGHT }.play(s, lent)
    }),
    slip("a line one larger than the area given room", |s, lent| {
        Way { fits: |letters, _, area| letters <= area + 1, ..RIGHT }.play(s, lent)
    }),
    slip("the size of a line in 16 bits", |s, lent| {
        let fits: fn(usize, usize, usize) -> bool =
            |letters, _, area| letters % 65_536 <= area && (letters <= area || letters > 65_536);
        match lent.area.len() {
            LARGEST => Way { fits, ..RIGHT }.play(s, lent),
            _ => RIGHT.play(s, lent),
        }
    }),
    // the store
    slip("65,535 letters for results", |s, lent| Way { most_letters: 65_535, ..RIGHT }.play(s, lent)),
    slip("65,537 letters for results", |s, lent| Way { most_letters: 65_537, ..RIGHT }.play(s, lent)),
    slip("no bound on the letters of results", |s, lent| Way { most_letters: usize::MAX, ..RIGHT }.play(s, lent)),
    slip("results as large as a longer store is", |s, lent| {
        Way { most_letters: lent.store.len(), ..RIGHT }.play(s, lent)
    }),
    slip("the last result not put into the store", |s, lent| {
        Way { letters: |ran, last| if last { 0 } else { ran.text.len() }, ..RIGHT }.play(s, lent)
    }),
    slip("terms put into the store, not results", |s, lent| {
        Way { letters: |ran, _| ran.term.len(), ..RIGHT }.play(s, lent)
    }),
    slip("room in the store asked for the term", |s, lent| {
        Way { letters: |ran, _| ran.text.len().max(ran.term.len()), ..RIGHT }.play(s, lent)
    }),
    slip("a byte between two results", |s, lent| {
        Way { letters: |ran, last| ran.text.len() + usize::from(!last), ..RIGHT }.play(s, lent)
    }),
    slip("a byte behind each result", |s, lent| {
        Way { letters: |ran, _| ran.text.len() + 1, ..RIGHT }.play(s, lent)
    }),
    // which lines are played
    slip("lines that nobody uses not played", |s, lent| Way { lazy: true, ..RIGHT }.play(s, lent)),
    slip("lines behind one that does not finish played", |s, lent| Way { goes_on: true, ..RIGHT }.play(s, lent)),
];

/// The tests' own book, without a slip.
pub static NONE: Slip = slip("", |s, lent| RIGHT.play(s, lent));
