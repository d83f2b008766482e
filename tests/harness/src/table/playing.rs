//! The program play_book: a book on standard input, and the line printed.

use super::book;
use super::programs::{named, row, Row};
use crate::books::*;
use crate::terms::{index, joined, repeated};
use second::stepping::MAX_AREA;

/// Books written for the program: its own fuel and its own area.
pub fn play_rows() -> Vec<Row> {
    [outcomes(), refusals(), long_inputs()].into_iter().flatten().collect()
}

fn outcomes() -> Vec<Row> {
    vec![
        row("a\t.II\nb\tB(a)(a)\n", "finished\t2\tBII"),
        row("a\tJ\nb\tR(a)\nc\tR(b)\n", "finished\t3\tRRJ"),
        row("a\tJ\n", "finished\t1\tJ"),
        row("a\t0\n", "finished\t1\t0"),
        row("a\tT\nabcdefgh\t(a)\n", "finished\t2\tT"),
        row("a\t.BII.JRJ\n", "finished\t1\tJ"),
        row("a\t1\nb\t2\nc\tAB(a)B(b)IHRJHRRJJ\nd\t.(c)3\n", "finished\t4\tH1H23"),
        row("a\t1\nb\t2\nc\tB(a)B(b)I\nd\tB3(c)\n", "finished\t4\tB3B1B2I"),
    ]
}

fn refusals() -> Vec<Row> {
    vec![
        row("", "refused\t11\t0"),
        row("x", "refused\t12\t0"),
        row("a\tJ", "refused\t12\t0"),
        row("a\tJ\nb", "refused\t12\t0"),
        row("a\tJ\n\0", "refused\t12\t0"),
        row("\n", "refused\t25\t1"),
        row("\n\n", "refused\t25\t1"),
        row("a\tJ\n\n", "refused\t25\t2"),
        row("a\tJ\r\n", "refused\t25\t1"),
        row("a J\n", "refused\t25\t1"),
        row("a\tJ\nb\tI\nc\tJJ\n", "refused\t25\t3"),
        row("a\tJ\na\tR(b)\n", "refused\t26\t2"),
        row("a\tJ\na\tR(\n", "refused\t25\t2"),
        row("a\tR(a)\n", "refused\t27\t1"),
        row("a\t.II\nb\t(c)\nc\tJ\n", "refused\t27\t2"),
        row("6\t12\tJ\n", "refused\t25\t1"),
    ]
}

/// A first line of so many letters, and others.
fn behind_index(letters: usize, others: &str) -> Vec<u8> {
    joined(&[b"a\t", &index(letters - 1), b"\n", &written(others)])
}

/// A line with a run under so many letters that needs twelve beside them.
fn running(letters: usize) -> Vec<u8> {
    joined(&[b"a\t", &repeated("R", letters), b".BII.JRJ\n"])
}

/// Books about the limits, and input that is longer than a book.
fn long_inputs() -> Vec<Row> {
    let lines = |count: usize| {
        (1..=count).flat_map(|number| written(&format!("{} J/", name_of(number)))).collect::<Vec<u8>>()
    };
    let four = "b (a)/c (a)/d (a)/";
    let full = joined(&[b"finished\t4\t", &index(16_383)]);
    vec![
        named("256 lines", lines(256), "finished\t256\tJ"),
        named("257 lines", lines(257), "refused\t25\t257"),
        named("16,385 letters", behind_index(16_385, ""), "no room\t1"),
        named("16,385 letters by a use", behind_index(16_384, "b R(a)/"), "no room\t2"),
        Row { name: "65,536 letters".to_string(), input: behind_index(16_384, four), printed: full },
        named("65,537 letters", behind_index(16_384, &format!("{four}e J/")), "no room\t5"),
        // the order gets no further than cycle 1,411 with a million steps, for which there is room
        named("a line that goes on for ever", written("a J/b .AIHJJAIHJJ/c J/"), "spent\t2"),
        Row {
            name: "a run that fills the area".to_string(),
            input: running(16_372),
            printed: joined(&[b"finished\t1\t", &index(16_372)]),
        },
        named("a run that needs one byte more", running(16_373), "no room\t1"),
        named("a book of 65,536 bytes", behind_index(65_533, ""), "no room\t1"),
        named("65,537 bytes", behind_index(65_534, ""), "refused\t10\t0"),
        named("65,537 bytes, a good line first", joined(&[b"a\tJ\n", &vec![b'\n'; 65_533]]), "refused\t10\t0"),
        named("65,536 line feeds", vec![b'\n'; 65_536], "refused\t25\t1"),
        named("65,537 line feeds", vec![b'\n'; 65_537], "refused\t10\t0"),
        named("65,536 bytes without a line feed", vec![b'J'; 65_536], "refused\t12\t0"),
        named("65,537 bytes without a line feed", vec![b'J'; 65_537], "refused\t10\t0"),
        named("131,072 bytes, good lines in each half", written("a J/").repeat(32_768), "refused\t10\t0"),
        named("a million zeros", vec![0; 1_000_000], "refused\t10\t0"),
        named("a million letters", joined(&[b"a\t", &index(1_000_000), b"\n"]), "refused\t10\t0"),
    ]
}

/// What the program prints for a call of the table of books, if it is one with the program's fuel and area, or one that
/// is refused whatever these are.
fn printed(played: &book::Played) -> Option<Vec<u8>> {
    let own = played.area == MAX_AREA && played.work == MAX_AREA && played.fuel == MOST_FUEL;
    if let Some((number, line)) = played.reply.split_once('@') {
        let of_the_book = number.parse::<u8>().is_ok_and(|number| number >= 10);
        return of_the_book.then(|| format!("refused\t{number}\t{line}").into_bytes());
    }
    let (outcome, line) = played.reply.rsplit_once(' ')?;
    let start = format!("{outcome}\t{line}");
    own.then(|| match outcome {
        "finished" => [start.as_bytes(), b"\t", &played.result].concat(),
        _ => start.into_bytes(),
    })
}

/// The table of books, one call of each row.
pub fn rows_of_books() -> Vec<Row> {
    let of_row = |own: book::Row| {
        let found = own.played.iter().find_map(|played| Some((played.book.clone(), printed(played)?)))?;
        Some(Row { name: format!("the book of: {}", own.name), input: found.0, printed: found.1 })
    };
    book::rows().into_iter().filter_map(of_row).collect()
}
