//! How much stack the engine uses: a thread's stack is painted first, and looked through afterwards.

use crate::books::{in_the_last, short, Lines};
use crate::reducing::areas_of;
use crate::table::Table;
use crate::terms::AREA;
use engine::Linked;
use harness::books::{book_of, MOST_BYTES, MOST_FUEL, MOST_LINES, STORE};
use harness::chains::{self, piece, row_at, Row};
use harness::check_tests::{dear, doubling};
use harness::deep::{deep_bells, deep_terms};
use harness::end_tests::PLACES;
use harness::machine_runs::OMEGA;
use harness::memory::Pages;
use harness::runs::{all_pending, in_pairs, inert, nested_uses, swings};
use harness::stores::{alike, empty, store_of, MOST_RESULTS};
use harness::subject::Controller;
use harness::terms::{index, joined, repeated, twice_nested};
use second::comparing::Lent;
use second::counting::COUNTS_SIZE;
use second::rows::MOST_ROWS;
use std::ffi::c_void;

extern "C" {
    fn pthread_attr_init(attributes: *mut Attributes) -> i32;
    fn pthread_attr_setstack(attributes: *mut Attributes, start: *mut u8, size: usize) -> i32;
    fn pthread_create(
        thread: *mut usize,
        attributes: *const Attributes,
        body: extern "C" fn(*mut c_void) -> *mut c_void,
        work: *mut c_void,
    ) -> i32;
    fn pthread_join(thread: usize, result: *mut *mut c_void) -> i32;
}

/// Room for glibc's pthread_attr_t.
#[repr(C, align(16))]
struct Attributes([u8; 128]);

type Work = Box<dyn FnMut() + Send>;

const STACK: usize = 32 << 20;
const PAINT: u8 = 0xa5;

extern "C" fn body(work: *mut c_void) -> *mut c_void {
    let work = work.cast::<Work>();
    unsafe { (*work)() };
    std::ptr::null_mut()
}

/// The bytes of stack that were written while the work ran on a thread of its own.
fn used_by(mut work: Work) -> usize {
    let mut pages = Pages::zeroed(STACK).expect("a stack can be had");
    let stack = pages.bytes();
    stack.fill(PAINT);
    unsafe {
        let mut attributes = Attributes([0; 128]);
        let (mut thread, mut result) = (0, std::ptr::null_mut());
        assert_eq!(pthread_attr_init(&mut attributes), 0, "attributes");
        assert_eq!(pthread_attr_setstack(&mut attributes, stack.as_mut_ptr(), STACK), 0, "the stack is taken");
        assert_eq!(
            pthread_create(&mut thread, &attributes, body, std::ptr::addr_of_mut!(work).cast()),
            0,
            "a thread starts"
        );
        assert_eq!(pthread_join(thread, &mut result), 0, "the thread ends");
    }
    let painted = stack.iter().position(|&byte| byte != PAINT).unwrap_or(STACK);
    STACK - painted
}

/// The stack that a call uses beyond a thread that does nothing.
fn used(work: impl FnMut() + Send + 'static) -> String {
    let empty = used_by(Box::new(|| {}));
    used_by(Box::new(work)).saturating_sub(empty).to_string()
}

/// A term with the size of its area and the fuel of its run.
#[derive(Clone)]
struct Lending {
    name: String,
    text: Vec<u8>,
    area: usize,
    fuel: u64,
}

/// Deep terms in areas of their own size: a few steps use as much stack as many.
fn deep((name, text): (&'static str, Vec<u8>)) -> Lending {
    Lending { name: name.to_string(), area: text.len(), text, fuel: 50 }
}

fn reading(lent: Lending) -> String {
    used(move || {
        Linked.read(&lent.text);
    })
}

fn stepping(lent: Lending) -> String {
    let (mut area, mut work) = areas_of(&lent.text, lent.area);
    used(move || {
        Linked.step(&mut area, lent.text.len(), &mut work);
    })
}

fn finishing(lent: Lending) -> String {
    let (mut area, mut work) = areas_of(&lent.text, lent.area);
    used(move || {
        Linked.finish(&mut area, lent.text.len(), &mut work, lent.fuel);
    })
}

fn counting(lent: Lending) -> String {
    let (mut area, mut work) = areas_of(&lent.text, lent.area);
    let mut counts = [0; COUNTS_SIZE];
    used(move || {
        Linked.finish_counted(&mut area, lent.text.len(), &mut work, lent.fuel, &mut counts);
    })
}

fn comparing(lent: Lending) -> String {
    let (mut first, mut work) = areas_of(&lent.text, lent.area);
    let (mut second, length) = (first.clone(), lent.text.len());
    used(move || {
        let (one, two) = (Lent { length, area: &mut first }, Lent { length, area: &mut second });
        Linked.compare(one, two, &mut work, lent.fuel);
    })
}

/// A term joined with itself.
fn joining(lent: Lending) -> String {
    let mut area = vec![0; 2 * lent.text.len() + 12];
    used(move || {
        Linked.join(&lent.text, &lent.text, &mut area);
    })
}

/// A term rung as rows of two bells: nearly all are no chain.
fn ringing(lent: Lending) -> String {
    ringing_of(lent.text, 2)
}

fn ringing_of(text: Vec<u8>, bells: usize) -> String {
    let mut table = vec![0; chains::PLACES * MOST_ROWS];
    used(move || {
        Linked.rows(&text, bells, &mut table);
    })
}

/// A term entered into an empty catalogue: one with full stops is refused.
fn entering(lent: Lending) -> String {
    entering_into(empty(), lent.text)
}

fn entering_into(mut store: Vec<u8>, text: Vec<u8>) -> String {
    used(move || {
        Linked.enter(&text, &mut store);
    })
}

/// A term as a line of a book, and a second line that uses it.
fn playing(lent: Lending) -> String {
    let lines = [(b"a".to_vec(), lent.text), (b"b".to_vec(), b"(a)".to_vec())];
    playing_of(book_of(&lines), lent.area, lent.fuel)
}

fn playing_of(book: Vec<u8>, area: usize, fuel: u64) -> String {
    let (mut area, mut work, mut store) = (vec![0; area], vec![0; area], vec![0; STORE]);
    used(move || {
        Linked.book(&book, &mut area, &mut work, &mut store, fuel);
    })
}

fn book_row(name: &str, lines: &Lines) -> Vec<String> {
    let book = book_of(lines);
    assert!(book.len() <= MOST_BYTES, "{name}: a book within its limits");
    let words = [format!("book: {name}"), book.len().to_string()];
    let none = std::iter::repeat_n("-".to_string(), 8);
    words.into_iter().chain(none).chain([playing_of(book, AREA, MOST_FUEL)]).collect()
}

/// Books of many lines and uses, of the longest line, of deep uses, of a line that runs, and one that is refused.
fn book_rows() -> Vec<Vec<String>> {
    let line = |name: &str, term: Vec<u8>| (name.into(), term);
    let after = |first: &str, term: Vec<u8>| vec![line("a", first.into()), line("b", term)];
    vec![
        book_row("256 lines, 8,000 uses", &in_the_last(short, MOST_LINES, 8_000)),
        book_row("R^65532 J, no room", &vec![line("a", index(65_532))]),
        book_row(
            "H to the left, uses in it",
            &after("J", joined(&[&repeated("H", 8_191), &repeated("(a)", 8_192)])),
        ),
        book_row(
            ". to the left, uses in it",
            &after("I", joined(&[&repeated(".", 8_191), &repeated("(a)", 8_192)])),
        ),
        book_row(". to the right, uses in it", &after("I", joined(&[&repeated(".(a)", 8_191), b"(a)"]))),
        book_row("a closure used twice, 14 times", &after("I", twice_nested(14))),
        book_row("27 at line 2", &after("I", joined(&[&repeated("R", 60_000), b"(c)"]))),
    ]
}

/// A piece of as many rows as there may be, which is longer than a term area.
fn piece_row(name: &str, rows: Vec<Row>) -> Vec<String> {
    let (text, bells) = (piece(&rows), rows[0].len());
    let lent = Lending { name: String::new(), text: text.clone(), area: 0, fuel: 0 };
    let none = || "-".to_string();
    let [letters, reading, entering] = [text.len().to_string(), reading(lent.clone()), entering(lent)];
    vec![
        name.to_string(),
        letters,
        reading,
        none(),
        none(),
        none(),
        none(),
        none(),
        ringing_of(text, bells),
        entering,
        none(),
    ]
}

/// The last of these results, new in a store that holds the others and known in one that holds it too.
fn store_rows(name: &str, results: &[Vec<u8>]) -> Vec<Vec<String>> {
    let (last, others) = results.split_last().expect("a store of results");
    let row = |entry: &str, store: Vec<u8>| {
        let words = [format!("store: {name}, {entry}"), last.len().to_string()];
        let none = std::iter::repeat_n("-".to_string(), 7);
        words.into_iter().chain(none).chain([entering_into(store, last.clone()), "-".to_string()]).collect()
    };
    vec![row("new", store_of(others)), row("known", store_of(results))]
}

fn term_row(lent: Lending) -> Vec<String> {
    let (name, letters) = (lent.name.clone(), lent.text.len().to_string());
    let used = [reading, stepping, finishing, counting, comparing, joining, ringing, entering, playing]
        .map(|operation| operation(lent.clone()));
    [name, letters].into_iter().chain(used).collect()
}

/// Long runs in the largest area: of few letters, of more and more, of many, and deep ones.
fn long_runs() -> Vec<Lending> {
    let long = |name: &str, text: Vec<u8>, fuel| Lending {
        name: format!("{name}, {fuel} steps"),
        text,
        area: AREA,
        fuel,
    };
    let around = PLACES.into_iter().map(|(place, around)| {
        let [before, behind] = around(15_000);
        long(&format!("a run {place}"), joined(&[&before, &nested_uses(8, 4), &behind]), 10_000)
    });
    let few = long("few letters", nested_uses(7, 2), 200);
    let others = [
        few,
        long(".AIHJJAIHJJ", OMEGA.to_vec(), 60_000),
        long("a closure used twice, 14 times", twice_nested(14), 50_000),
        long("4,000 letters copied and dropped", swings(40, &inert(4_000)), 500),
        long("in 2,000 pairs", in_pairs(2_000, &nested_uses(2, 2)), 10_000),
        long("500 pending runs", all_pending(500, &nested_uses(3, 2)), 10_000),
    ];
    others.into_iter().chain(around).collect()
}

fn file_row(name: &str, file: Vec<u8>) -> Vec<String> {
    let (bytes, other) = (file.len().to_string(), file.clone());
    let checking = used(move || {
        Linked.check(&file);
    });
    let matching = used(move || {
        Linked.match_claims(&other, &other);
    });
    let none = || "-".to_string();
    vec![name.to_string(), bytes, none(), none(), checking, none(), matching, none(), none(), none(), none()]
}

pub fn table() -> Table {
    let mut rows: Vec<Vec<String>> = deep_terms().into_iter().map(deep).map(term_row).collect();
    rows.push(file_row("file: terms that double", doubling(14)));
    rows.push(file_row("file: short lines that cite two long ones", dear()));
    rows.push(piece_row(
        "piece: 1,000 rows, all different",
        (0..1_000).map(|number| row_at(12, number)).collect(),
    ));
    rows.push(piece_row("piece: 1,000 rows, all equal", vec![row_at(12, 0); 1_000]));
    rows.extend(store_rows("256 of 254, one fingerprint", &alike(MOST_RESULTS, 254, false)));
    rows.extend(book_rows());
    rows.extend(deep_bells().into_iter().map(deep).chain(long_runs()).map(term_row));
    Table::new(
        "Bytes of stack that a call of the engine uses",
        &[
            "term, file or book",
            "bytes",
            "reading",
            "stepping",
            "finishing or checking",
            "counted",
            "comparing or matching",
            "joining",
            "rows",
            "entering",
            "a book",
        ],
        rows,
    )
}
