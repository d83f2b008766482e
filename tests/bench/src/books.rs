//! Books: microseconds of a call beside one that plays them the way a Rust program does, and how the times grow with
//! the lines and the uses of a book.

use crate::playing::{plainly, Mapped, Searched};
use crate::table::{number, Table};
use crate::terms::AREA;
use crate::timing::shortest;
use engine::Linked;
use harness::books::{book_of, name_of, use_of, MOST_BYTES, MOST_FUEL, MOST_LINES, STORE};
use harness::random::Random;
use harness::reply::{in_words, of_book, pack, placed, size, FINISHED};
use harness::subject::Controller;
use harness::terms::{index, joined, repeated, BELLS};
use second::refusal::{BAD_BOOK_LINE, NAME_TAKEN, NAME_UNKNOWN};

type Text = Vec<u8>;
/// A name and the term behind it.
pub type Lines = Vec<(Text, Text)>;
/// A name by its number from 1 on.
pub type Named = fn(usize) -> Text;

/// One or two letters.
pub fn short(number: usize) -> Text {
    name_of(number).into_bytes()
}

/// Two letters by the number, the last of them different from one number to the next.
fn two_letters(number: usize) -> [u8; 2] {
    [number / 26, number % 26].map(|digit| b'a' + digit as u8)
}

/// Eight letters, different in the first two.
fn different(number: usize) -> Text {
    let [one, two] = two_letters(number);
    [&[two, one], &b"qqqqqq"[..]].concat()
}

/// Eight letters, different in the last or in the last two.
fn alike(number: usize) -> Text {
    [b"qqqqqq", &two_letters(number)[..]].concat()
}

/// Lines of a bell each.
fn leaves(named: Named, count: usize) -> Lines {
    (1..=count).map(|number| (named(number), vec![BELLS[number % 12]])).collect()
}

/// A chain of uses.
fn chain_of(names: impl Iterator<Item = Text>) -> Text {
    let mut text: Text = names.flat_map(|name| joined(&[b"B", &use_of(name)])).collect();
    text.push(b'I');
    text
}

/// Uses of so many lines in an order that jumps.
fn spread(named: Named, among: usize, uses: usize, from: usize) -> Text {
    chain_of((from..from + uses).map(|place| named(1 + place * 97 % among)))
}

/// All lines but the last are a bell, and the last has all uses.
pub fn in_the_last(named: Named, lines: usize, uses: usize) -> Lines {
    let mut book = leaves(named, lines - 1);
    book.push((named(lines), spread(named, lines - 1, uses, 0)));
    book
}

/// Half of the lines are a bell, and each of the others uses as many of them.
fn in_half(named: Named, lines: usize, uses: usize) -> Lines {
    let (half, each) = (lines / 2, uses / (lines / 2));
    let mut book = leaves(named, half);
    book.extend((0..half).map(|line| (named(half + 1 + line), spread(named, half, each, line * each))));
    book
}

/// As in the last line, but each use is of the line before it, which a search from the first line finds last.
fn of_the_last_name(named: Named, lines: usize, uses: usize) -> Lines {
    let mut book = leaves(named, lines - 1);
    let last = named(lines - 1);
    book.push((named(lines), chain_of((0..uses).map(|_| last.clone()))));
    book
}

/// As many uses as a book has bytes for: of a name of one letter, the last of 254 lines of a bell, in two lines more.
fn most_uses() -> Lines {
    let mut book: Lines = (1..MOST_LINES - 2).map(|line| (alike(line)[6..].to_vec(), b"1".to_vec())).collect();
    book.push((b"x".to_vec(), b"T".to_vec()));
    let uses = (MOST_BYTES - book_of(&book).len() - 2 * 4) / 4;
    for (name, uses) in [("y", uses / 2), ("z", uses - uses / 2)] {
        book.push((name.into(), chain_of((0..uses).map(|_| b"x".to_vec()))));
    }
    book
}

/// The most uses of such a book that its bytes allow, 8,000 at most.
fn uses_for(shape: fn(Named, usize, usize) -> Lines, named: Named) -> usize {
    let fits = |uses: &usize| book_of(&shape(named, MOST_LINES, *uses)).len() <= MOST_BYTES;
    (0..=8_000).rev().step_by(100).find(fits).expect("a book of few uses fits")
}

/// A book with the sizes of what is lent to it, and its refusal, if it is refused.
struct Case {
    name: String,
    book: Text,
    lines: usize,
    uses: usize,
    area: usize,
    work: usize,
    refusal: Option<u64>,
}

/// The times of one call in nanoseconds: the engine, Rust with a hash map, and Rust that searches names in order.
#[derive(Clone, Copy)]
struct Times {
    engine: f64,
    rust: f64,
    searching: f64,
}

impl Times {
    /// In microseconds, and the engine's divided by those of Rust.
    fn cells(self) -> [String; 5] {
        let Times { engine, rust, searching } = self;
        [engine / 1e3, rust / 1e3, engine / rust, searching / 1e3, engine / searching].map(number)
    }
}

/// How often the shortest of some calls is looked for.
const TURNS: usize = 5;
/// Books with another byte that are tried for each case.
const DAMAGES: usize = 50;

fn rust(book: &[u8], lent: &mut [Vec<u8>; 3], fuel: u64) -> u64 {
    let [area, work, store] = lent;
    of_book(plainly::<Mapped>(book, area, work, store, fuel))
}

fn searching(book: &[u8], lent: &mut [Vec<u8>; 3], fuel: u64) -> u64 {
    let [area, work, store] = lent;
    of_book(plainly::<Searched>(book, area, work, store, fuel))
}

fn engine(book: &[u8], lent: &mut [Vec<u8>; 3], fuel: u64) -> u64 {
    let [area, work, store] = lent;
    Linked.book(book, area, work, store, fuel)
}

/// The one reply of all three, which leave the same bytes.
fn replies_alike(name: &str, book: &[u8], sizes: [usize; 3], fuel: u64) -> u64 {
    let fresh = || sizes.map(|size| vec![b'#'; size]);
    let mut left = fresh();
    let reply = engine(book, &mut left, fuel);
    for play in [rust, searching] {
        let mut lent = fresh();
        assert_eq!(in_words(play(book, &mut lent, fuel)), in_words(reply), "{name}: one reply");
        assert!(lent == left, "{name}: all leave the same bytes");
    }
    reply
}

impl Case {
    /// A book that finishes in the largest area.
    fn new(name: impl Into<String>, lines: &Lines) -> Case {
        let book = book_of(lines);
        assert!(book.len() <= MOST_BYTES && lines.len() <= MOST_LINES, "a book within its limits");
        let uses = book.iter().filter(|&&byte| byte == b'(').count();
        Case { name: name.into(), book, lines: lines.len(), uses, area: AREA, work: AREA, refusal: None }
    }

    /// A book whose last line is refused.
    fn refused(name: &str, lines: &Lines, refusal: u8) -> Case {
        Case { refusal: Some(placed(refusal.into(), lines.len())), ..Case::new(name, lines) }
    }

    fn sizes(&self) -> [usize; 3] {
        [self.area, self.work, STORE]
    }

    /// Nanoseconds of one call.
    fn time(&self, reply: u64, play: impl Fn(&[u8], &mut [Vec<u8>; 3], u64) -> u64) -> f64 {
        shortest(
            || self.sizes().map(|size| vec![b'#'; size]),
            |lent| assert_eq!(play(&self.book, lent, MOST_FUEL), reply, "{}: one reply", self.name),
        )
    }

    /// The engine and Rust are timed in turn.
    fn times(&self) -> Times {
        let reply = self.leave_the_same();
        let mut times = Times { engine: f64::INFINITY, rust: f64::INFINITY, searching: f64::INFINITY };
        for _ in 0..TURNS {
            times.engine = times.engine.min(self.time(reply, engine));
            times.rust = times.rust.min(self.time(reply, rust));
            times.searching = times.searching.min(self.time(reply, searching));
        }
        times
    }

    /// All reply as expected and leave the same bytes; also with less room and fuel, and with a byte damaged.
    fn leave_the_same(&self) -> u64 {
        let [area, work, store] = self.sizes();
        let reply = replies_alike(&self.name, &self.book, [area, work, store + 5], MOST_FUEL);
        match self.refusal {
            Some(refusal) => assert_eq!(in_words(reply), in_words(refusal), "{}: refused", self.name),
            None => {
                let finished = pack(FINISHED, self.lines as u64, size(reply));
                assert_eq!(in_words(reply), in_words(finished), "{}: finished", self.name);
            }
        }
        for (area, fuel) in [(0, 3), (100, 3), (1_000, 30), (area, 300), (area, MOST_FUEL + 1)] {
            replies_alike(&self.name, &self.book, [area, area + 5, store + 5], fuel);
        }
        let mut random = Random::new(self.book.len() as u64);
        for _ in 0..DAMAGES {
            let mut book = self.book.clone();
            book[random.below(self.book.len())] = *random.pick(b"aqbz()BIJ1\t\n");
            replies_alike(&self.name, &book, [area, area + 5, store + 5], 1_000);
        }
        reply
    }

    fn row(&self) -> Vec<String> {
        let sizes = [self.lines, self.uses, self.book.len(), self.area, self.work].map(|size| size.to_string());
        [self.name.clone()].into_iter().chain(sizes).chain(self.times().cells()).collect()
    }
}

const NAMES: [(&str, Named); 3] = [
    ("names of 1 or 2 letters", short),
    ("8 letters, the first two differ", different),
    ("8 letters, the last two differ", alike),
];

type Shape = (&'static str, fn(Named, usize, usize) -> Lines);

const SHAPES: [Shape; 3] = [
    ("all uses in the last line", in_the_last),
    ("uses in half of the lines", in_half),
    ("all uses of line 255", of_the_last_name),
];

/// As many lines as there may be and 8,000 uses, or as many as the bytes allow.
fn at_the_limits() -> Vec<Case> {
    let case = |(shape, make): Shape, (names, named): (&str, Named)| {
        Case::new(format!("{shape}; {names}"), &make(named, MOST_LINES, uses_for(make, named)))
    };
    let all = SHAPES.into_iter().flat_map(|shape| NAMES.map(|names| case(shape, names)));
    all.chain([Case::new("most uses, of line 254; a name of 1 letter", &most_uses())]).collect()
}

/// The fault stands at the end of the last line.
fn found_late() -> Vec<Case> {
    let refused = |(names, named): (&str, Named)| {
        let mut book = in_the_last(named, MOST_LINES, uses_for(in_the_last, named) - 100);
        let (name, piece) = book.pop().expect("a last line");
        let unknown = joined(&[&piece[..piece.len() - 1], &use_of(&name)]);
        let (taken, bad) = (named(MOST_LINES - 1), joined(&[&piece[..piece.len() - 1], b")"]));
        let lasts = [(name.clone(), unknown), (taken, piece), (name, bad)];
        let numbers = [NAME_UNKNOWN, NAME_TAKEN, BAD_BOOK_LINE].into_iter().zip(lasts);
        let case = |(number, last): (u8, (Text, Text))| {
            let lines = [&book[..], &[last]].concat();
            Case::refused(&format!("{number} at line {MOST_LINES}; {names}"), &lines, number)
        };
        numbers.map(case).collect::<Vec<Case>>()
    };
    [NAMES[0], NAMES[2]].into_iter().flat_map(refused).collect()
}

/// The bytes of a work area that is far longer than it need be.
const LARGE_WORK: usize = 64 << 20;

/// Books of one letter a line in small and large areas, which are to be cleared once, and uses in a large one.
fn lent() -> Vec<Case> {
    let bells = leaves(short, MOST_LINES);
    let uses = in_the_last(short, MOST_LINES, 8_000);
    let one = leaves(short, 1);
    let case = |name: &str, lines: &Lines, area: usize, work: usize| Case { area, work, ..Case::new(name, lines) };
    vec![
        case("a bell", &one, 16, 16),
        case("a bell", &one, AREA, AREA),
        case("a bell; work of 64 MB", &one, AREA, LARGE_WORK),
        case("256 bells", &bells, 16, 16),
        case("256 bells", &bells, AREA, AREA),
        case("256 bells; work of 64 MB", &bells, AREA, LARGE_WORK),
        case("8,000 uses; work of 64 MB", &uses, AREA, LARGE_WORK),
    ]
}

/// The join of two lines.
fn join_of(f: &[u8], g: &[u8]) -> Text {
    joined(&[b"AB", &use_of(f), b"B", &use_of(g), b"IHRJHRRJJ"])
}

/// Twelve closures that put a bell in front of a piece, joins of two earlier lines, and each join applied to an earlier
/// piece of bells.
fn joins_applied() -> Lines {
    let mut book: Lines =
        BELLS.iter().map(|&bell| joined(&[b"AIB", &[bell], b"J"])).enumerate().map(named).collect();
    book.push((short(13), b"I".to_vec()));
    while book.len() + 2 <= MOST_LINES {
        let count = book.len();
        let (f, g) = (short(1 + count % 12), short(1 + count * 7 / 12 % 12));
        let piece = short(if count % 24 == 13 { 13 } else { count });
        book.push((short(count + 1), join_of(&f, &g)));
        book.push((short(count + 2), joined(&[b".", &use_of(short(count + 1)), &use_of(piece)])));
    }
    book
}

fn named((place, text): (usize, Text)) -> (Text, Text) {
    (short(place + 1), text)
}

/// A substitution of twelve places that moves each by `shift`.
fn change(shift: usize) -> Text {
    let places = (0..12).flat_map(|place| joined(&[b"B", &index((place + shift) % 12)]));
    places.chain(*b"I").collect()
}

/// Twelve changes, and each further line one of them on another.
fn changes_applied() -> Lines {
    let mut book: Lines = (0..12).map(change).enumerate().map(named).collect();
    while book.len() < MOST_LINES {
        let count = book.len();
        let [f, x] = [1 + count % 12, 1 + count / 12 % 12].map(|line| use_of(short(line)));
        book.push((short(count + 1), joined(&[b".", &f, &x])));
    }
    book
}

/// A closure that uses its argument so many times, and each further line the closure on the line before.
fn closure_applied(times: usize) -> Lines {
    let closure = joined(&[b"AI", &repeated("HJ", times), b"J"]);
    let mut book: Lines = [closure, b"I".to_vec()].into_iter().enumerate().map(named).collect();
    while book.len() < MOST_LINES {
        let count = book.len();
        book.push((short(count + 1), joined(&[b".", &use_of(short(1)), &use_of(short(count))])));
    }
    book
}

/// Books whose lines have steps to make.
fn reducing() -> Vec<Case> {
    vec![
        Case::new("joins of two bells, each applied", &joins_applied()),
        Case::new("changes of twelve places, applied", &changes_applied()),
        Case::new("a closure of 10 uses on each line", &closure_applied(10)),
        Case::new("a closure of 1,000 uses on each line", &closure_applied(1_000)),
    ]
}

pub fn table() -> Table {
    let cases = [at_the_limits(), found_late(), lent(), reducing()].into_iter().flatten();
    Table::new(
        "Microseconds of one book beside Rust that keeps names in a hash map or searches them in order, keeps results in \
         a vector, and finishes a line with a full stop by the fast second reducer",
        &[
            "book",
            "lines",
            "uses",
            "bytes",
            "area",
            "work",
            "engine",
            "Rust",
            "engine/Rust",
            "in order",
            "engine/in order",
        ],
        cases.map(|case| case.row()).collect(),
    )
}

/// Lines and uses of books that grow.
const BOTH: [(usize, usize); 3] = [(64, 2_000), (128, 4_000), (256, 8_000)];
const USES: [(usize, usize); 3] = [(256, 2_000), (256, 4_000), (256, 8_000)];
const LINES: [(usize, usize); 3] = [(64, 8_000), (128, 8_000), (256, 8_000)];

/// One shape of a book, and how the time grows from one size to the next.
fn growing(what: &str, (shape, make): Shape, sizes: [(usize, usize); 3]) -> Vec<Vec<String>> {
    let mut before: Option<Times> = None;
    let row = |(lines, uses): (usize, usize)| {
        let case = Case::new(format!("{what}; {shape}"), &make(short, lines, uses));
        let now = case.times();
        let before = before.replace(now);
        let grown =
            |time: fn(Times) -> f64| before.map_or("-".to_string(), |before| number(time(now) / time(before)));
        let words = [case.name.clone(), lines.to_string(), case.uses.to_string(), case.book.len().to_string()];
        let growth = [grown(|times| times.engine), grown(|times| times.rust), grown(|times| times.searching)];
        words.into_iter().chain(now.cells()).chain(growth).collect()
    };
    sizes.into_iter().map(row).collect()
}

pub fn growth() -> Table {
    let shapes = [SHAPES[0], SHAPES[1]];
    let kinds = [("more lines and uses", BOTH), ("more uses", USES), ("more lines", LINES)];
    let rows = shapes.into_iter().flat_map(|shape| kinds.map(|(what, sizes)| growing(what, shape, sizes)));
    Table::new(
        "Microseconds of one book as books grow, with names of one or two letters; growth is from the row before, which \
         has half as many lines or uses, or both",
        &[
            "book",
            "lines",
            "uses",
            "bytes",
            "engine",
            "Rust",
            "engine/Rust",
            "in order",
            "engine/in order",
            "growth: engine",
            "Rust",
            "in order",
        ],
        rows.flatten().collect(),
    )
}
