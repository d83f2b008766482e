//! Terms and files nested deep, each call on a thread with the stack that docs/FIRMWARE.md advises.

use crate::books::STORE;
use crate::chains::{piece, row_at, table_of, Row};
use crate::lent::*;
use crate::reply::from_words;
use crate::step_tests::padded;
use crate::stores::store_of;
use crate::subject::Controller;
use crate::suite::{Outcome, Suite};
use crate::table::{checking, reading};
use crate::terms::{index, joined, repeated};
use second::machine::Machine;

/// The bytes of stack that the firmware's page advises: 1 MB.
pub const ADVISED_STACK: usize = 1 << 20;

/// Runs a test on a thread with the advised stack.
pub fn on_advised_stack(body: impl FnOnce() -> Outcome + Send) -> Outcome {
    std::thread::scope(|scope| {
        let thread = std::thread::Builder::new().stack_size(ADVISED_STACK).spawn_scoped(scope, body);
        let joined = thread.map_err(|error| error.to_string())?.join();
        joined.unwrap_or_else(|_| Err("the call panicked".to_string()))
    })
}

/// A text's name and the text.
type Named = (&'static str, Vec<u8>);

/// One letter so many times, then another so many times.
fn nested(start: &str, times: usize, end: &str, ends: usize) -> Vec<u8> {
    joined(&[&repeated(start, times), &repeated(end, ends)])
}

/// Terms that are deep under their first full stop, each of 16,000 letters or more.
fn deep_applications() -> Vec<Named> {
    vec![
        (".I R^16381 J", joined(&[b".I", &index(16_381)])),
        (". R^16381 J J", joined(&[b".", &index(16_381), b"J"])),
        (".I H to the left", joined(&[b".I", &nested("H", 8_190, "J", 8_191)])),
        (".I H to the right", joined(&[b".I", &repeated("HJ", 8_190), b"J"])),
        (". H to the left, J", joined(&[b".", &nested("H", 8_190, "J", 8_191), b"J"])),
        (". B to the left, J", joined(&[b".", &nested("B", 8_190, "I", 8_191), b"J"])),
        (". B to the right, RJ", joined(&[b".", &repeated("BI", 8_190), b"IRJ"])),
        (".BII, B to the left", joined(&[b".BII", &nested("B", 8_000, "J", 8_001)])),
        (". A to the left, J", joined(&[b".", &nested("A", 8_190, "I", 8_191), b"J"])),
        (". to the left, BII and J", joined(&[&repeated(".", 8_190), b"BII", &repeated("J", 8_190)])),
        (". to the left, BII", joined(&[&repeated(".", 4_000), &repeated("BII", 4_001)])),
        (".B R^8189 J, B to the right, J", joined(&[b".B", &index(8_189), &repeated("BI", 4_095), b"IJ"])),
    ]
}

/// Terms that are deep in other places, most of them of nearly 16,384 letters.
fn nested_terms() -> Vec<Named> {
    vec![
        ("R^16383 J", index(16_383)),
        ("R^16381 .IJ", joined(&[&repeated("R", 16_381), b".IJ"])),
        (". to the left, I", nested(".", 8_191, "I", 8_192)),
        (". to the left, J", nested(".", 8_191, "J", 8_192)),
        (". to the right, I", joined(&[&repeated(".I", 8_191), b"J"])),
        (". to the right, J", joined(&[&repeated(".J", 8_191), b"J"])),
        ("H to the left", nested("H", 8_191, "J", 8_192)),
        ("H to the right", joined(&[&repeated("HJ", 8_191), b"J"])),
        ("B to the right under .", joined(&[b".", &repeated("BI", 4_000), b"I", &index(3_999)])),
        ("B to the left under .", joined(&[b".", &repeated("B", 4_000), &repeated("I", 4_001), b"J"])),
        ("A to the left under .", joined(&[b".", &repeated("A", 4_000), &repeated("I", 4_001), b"J"])),
        ("R^16379 J in a pair", joined(&[b".B", &index(16_379), b"IJ"])),
        ("H to the left in a pair", joined(&[b".B", &nested("H", 8_188, "J", 8_189), b"IJ"])),
        ("A to the right", joined(&[&repeated("AI", 8_190), b".IJ"])),
        (".BII to the right", joined(&[&repeated(".BII", 4_095), b"J"])),
        (".BII around H", joined(&[&repeated(".BII", 3_000), b"HJJ"])),
        ("B^k I (.IJ)^k", joined(&[&repeated("B", 4_000), b"I", &repeated(".IJ", 4_000)])),
        ("an index into 288 pairs", joined(&[b".", &repeated("BI", 288), b"I", &index(288)])),
    ]
}

/// Deep terms without bells.
pub fn deep_terms() -> Vec<Named> {
    [nested_terms(), deep_applications()].concat()
}

/// Deep terms with bells.
pub fn deep_bells() -> Vec<Named> {
    vec![
        ("R^16383 0", joined(&[&repeated("R", 16_383), b"0"])),
        (". to the left, 1", joined(&[&repeated(".", 8_191), &repeated("1", 8_192)])),
        (". to the right, T", joined(&[&repeated(".T", 8_191), b"T"])),
        ("H to the right, then .EJ", joined(&[&repeated("HE", 8_190), b".EJ"])),
        ("A to the right, then .BJI1", joined(&[&repeated("AI", 8_189), b".BJI1"])),
        (".BJI to the right, 9", joined(&[&repeated(".BJI", 4_095), b"9"])),
        ("R^16379 0 in a pair before T", joined(&[b".B", &repeated("R", 16_379), b"0IT"])),
        (
            "bells in 4,000 pairs, the last by its index",
            joined(&[b".", &repeated("B1", 4_000), b"I", &index(3_999)]),
        ),
        (".BII around H of bells", joined(&[&repeated(".BII", 3_000), b"H1T"])),
        ("a substitution of 288 bells", joined(&[b".BJI", &repeated("B5", 288), b"I"])),
    ]
}

/// Every deep term.
fn all_deep_terms() -> Vec<Named> {
    [deep_terms(), deep_bells()].concat()
}

type PredictCounted = fn(&Counted) -> AfterCounted;

fn one_step(subject: impl Controller + Sync, text: &[u8], area: usize) -> Outcome {
    let call = call(text, area);
    let expected = predict_plain(&call, None);
    on_advised_stack(|| demand(&subject, &call, None, &expected))
}

fn whole_run(subject: impl Controller + Sync, text: &[u8], area: usize, fuel: u64, predict: Predict) -> Outcome {
    let call = call(text, area);
    let expected = predict(&call, Some(fuel));
    on_advised_stack(|| demand(&subject, &call, Some(fuel), &expected))
}

/// Text that is not whole, or that goes on behind its end, at the full depth.
fn refused(subject: impl Controller + Sync + Copy, predict: Predict) -> Outcome {
    for text in [repeated("R", 16_384), repeated(".", 16_384), [b"J", &repeated(".", 16_383)[..]].concat()] {
        one_step(subject, &text, 16_384)?;
        whole_run(subject, &text, 16_384, 9, predict)?;
    }
    Ok(())
}

/// Stepping and finishing on deep terms, with a fuel and a reducer that predicts.
pub fn reductions(
    suite: &mut Suite,
    label: &str,
    subject: impl Controller + Sync + Copy,
    fuel: u64,
    predict: Predict,
) {
    for (name, text) in all_deep_terms() {
        suite.test(&format!("{label} deep step: {name}"), || {
            one_step(subject, &text, text.len())?;
            one_step(subject, &text, 16_384)
        });
        suite.test(&format!("{label} deep run: {name}"), || {
            whole_run(subject, &text, text.len(), fuel, predict)?;
            whole_run(subject, &text, 16_384, 100, predict)
        });
    }
    suite.test(&format!("{label} deep: text that reading refuses"), || refused(subject, predict));
}

/// So many steps of a deep run are counted: the runs to their ends are finishing's.
const COUNTED_STEPS: u64 = 200;

fn counted_run(subject: impl Controller + Sync, text: &[u8], area: usize, predict: PredictCounted) -> Outcome {
    let counted = Counted { call: call(text, area), fuel: COUNTED_STEPS, counts: vec![b'c'; 60] };
    let expected = predict(&counted);
    on_advised_stack(|| demand_counted(&subject, &counted, &expected))
}

/// Finishing with counts on deep terms, with a reducer that predicts.
pub fn counts(suite: &mut Suite, label: &str, subject: impl Controller + Sync + Copy, predict: PredictCounted) {
    for (name, text) in all_deep_terms() {
        suite.test(&format!("{label} deep counting: {name}"), || {
            counted_run(subject, &text, text.len(), predict)?;
            counted_run(subject, &text, 16_384, predict)
        });
    }
}

fn large_files() -> Vec<checking::Row> {
    checking::rows().into_iter().filter(|row| row.file.len() > 10_000).collect()
}

/// Checking of files with deep terms and types.
fn files(suite: &mut Suite, label: &str, subject: impl Controller + Sync + Copy) {
    for row in large_files() {
        suite.test(&format!("{label} deep file: {}", row.name), || {
            let reply = from_words(&row.reply, 0);
            on_advised_stack(|| demand_check(&subject, &row.file, reply))
        });
    }
}

fn compared(subject: impl Controller + Sync, text: &[u8]) -> Outcome {
    let first = padded(text, 16_384);
    let (first_term, work) = (text.len(), vec![1; 16_384]);
    let pair = Pair { second: first.clone(), second_term: first_term, first, first_term, work, fuel: 300 };
    let expected = predict_pair(&pair);
    on_advised_stack(|| demand_pair(&subject, &pair, &expected))
}

/// Comparing of deep terms, each with itself.
fn comparisons(suite: &mut Suite, label: &str, subject: impl Controller + Sync + Copy) {
    for (name, text) in all_deep_terms() {
        suite.test(&format!("{label} deep comparing: {name}"), || compared(subject, &text));
    }
}

/// Reading of millions of letters.
fn readings(suite: &mut Suite, label: &str, subject: impl Controller + Sync + Copy) {
    for row in reading::long_rows() {
        let reply = from_words(&row.reply, 0);
        let name = format!("{label} deep reading: {}", row.name);
        suite.test(&name, || on_advised_stack(|| demand_read(&subject, &row.slice, reply)));
    }
}

/// Texts of a million letters, and of more than 2^24; what is said of each is what reading says.
fn million_letters() -> Vec<(Named, &'static str)> {
    const MILLION: usize = 1_000_000;
    const MORE: usize = 17_000_000;
    vec![
        (("R^1000000 J", index(MILLION)), "whole"),
        (("H^1000000 J^1000001", nested("H", MILLION, "J", MILLION + 1)), "whole"),
        ((".1 a million times, T", joined(&[&repeated(".1", MILLION), b"T"])), "whole"),
        (("R^17000000 J", index(MORE)), "whole"),
        (("R^17000000", repeated("R", MORE)), "6@17000000"),
        (("R^17000000 x", joined(&[&repeated("R", MORE), b"x"])), "5@17000000"),
        (("R^17000000 J J", joined(&[&index(MORE), b"J"])), "7@17000001"),
    ]
}

/// The join, as the requirements spell it, of two texts of so many letters; or what reading says of the first that
/// is no term.
fn joined_deep(subject: impl Controller + Sync, f: &(Named, &str), g: &(Named, &str)) -> Outcome {
    let ((_, f), of_f) = f;
    let ((_, g), of_g) = g;
    let after = joined(&[b"AB", f, b"B", g, b"IHRJHRRJJ"]);
    for (size, whole) in [(after.len() - 1, "31@0"), (after.len(), "joined"), (after.len() + 9, "joined")] {
        let join = Join { f: f.clone(), g: g.clone(), area: vec![b'#'; size] };
        let words = [of_f, of_g].into_iter().find(|words| words.contains('@')).unwrap_or(&whole);
        let area = if words.contains('@') { join.area.clone() } else { padded(&after, size) };
        let expected = (from_words(words, after.len()), area);
        on_advised_stack(|| demand_join(&subject, &join, &expected))?;
    }
    Ok(())
}

/// Joining of a million letters and more.
fn joins(suite: &mut Suite, label: &str, subject: impl Controller + Sync + Copy) {
    let texts = million_letters();
    let (whole, short) = (&texts[0], &(("J", b"J".to_vec()), "whole"));
    for text in &texts {
        let name = format!("{label} deep joining: {}", text.0 .0);
        suite.test(&format!("{name} with a million R"), || joined_deep(subject, text, whole));
        suite.test(&format!("{name} behind J"), || joined_deep(subject, short, text));
    }
}

/// Chains of millions of bells, and texts of as many letters that are none; what is said of each, whatever the table.
fn million_bells() -> Vec<(Named, &'static str)> {
    const MILLION: usize = 1_000_000;
    const MORE: usize = 8_500_000;
    let chain = |bells| joined(&[&repeated("B1B2", bells / 2), b"I"]);
    let mut text = chain(MORE);
    text.pop();
    vec![
        (("a million bells", chain(MILLION)), "21@0"),
        (("a million and a bell", joined(&[b"B1", &chain(MILLION)])), "21@0"),
        (("8,500,000 bells", chain(MORE)), "21@0"),
        (("8,500,000 bells that end in J", joined(&[&text, b"J"])), "20@0"),
        (("8,500,000 bells and no end", text.clone()), "6@17000000"),
        (("8,500,000 bells and x", joined(&[&text, b"x"])), "5@17000000"),
        (("8,500,000 bells and a letter behind the end", joined(&[&text, b"I1"])), "7@17000001"),
        (("J before 8,500,000 bells", joined(&[b"BJ", &text, b"I"])), "20@0"),
        (("8,500,000 bells behind a full stop", joined(&[b".I", &text, b"I"])), "20@0"),
        (("R^17000000 J", index(2 * MORE)), "20@0"),
        (("B^1000000 I^1000001", nested("B", MILLION, "I", MILLION + 1)), "20@0"),
        (("B to the left, bells", nested("B", MILLION, "1", MILLION + 1)), "20@0"),
        (("H1 a million times, I", joined(&[&repeated("H1", MILLION), b"I"])), "20@0"),
    ]
}

/// A text of so many letters is refused, with room for 1,000 rows, for none, and with a wrong number of bells.
fn rung_deep(subject: impl Controller + Sync, term: &[u8], reply: &str) -> Outcome {
    for (bells, size) in [(2, 12_000), (2, 0), (12, 20_000), (13, 12_000)] {
        let reply = if bells > 12 && reply == "21@0" { "20@0" } else { reply };
        let rows = Rows { term: term.to_vec(), bells, table: vec![b'#'; size] };
        let expected = (from_words(reply, 0), rows.table.clone());
        on_advised_stack(|| demand_rows(&subject, &rows, &expected))?;
    }
    Ok(())
}

/// As many rows as there may be, in a table of 17 million bytes.
fn rung_in_millions(subject: impl Controller + Sync) -> Outcome {
    let all: Vec<Row> = (0..1_000).map(|number| row_at(12, number)).collect();
    for size in [12_000, 17_000_000] {
        let rows = Rows { term: piece(&all), bells: 12, table: vec![b'#'; size] };
        let expected = (from_words("rung 1000", 1_000), table_of(&all, size));
        on_advised_stack(|| demand_rows(&subject, &rows, &expected))?;
    }
    Ok(())
}

/// Rows of millions of letters, and tables of as many bytes.
fn rows(suite: &mut Suite, label: &str, subject: impl Controller + Sync + Copy) {
    for ((name, text), reply) in million_bells() {
        suite.test(&format!("{label} deep rows: {name}"), || rung_deep(subject, &text, reply));
    }
    suite.test(&format!("{label} deep rows: 1,000 rows in 17,000,000 bytes"), || rung_in_millions(subject));
}

/// Results of 65,535 or 65,536 letters, deep in every way.
fn deep_results() -> Vec<Named> {
    vec![
        ("R^65535 J", index(65_535)),
        ("R^65534 0", joined(&[&repeated("R", 65_534), b"0"])),
        ("H to the left", nested("H", 32_767, "J", 32_768)),
        ("H to the right", joined(&[&repeated("HJ", 32_767), b"J"])),
        ("A to the left", nested("A", 32_767, "I", 32_768)),
        ("A to the right", joined(&[&repeated("AI", 32_767), b"T"])),
        ("B to the left, bells", nested("B", 32_767, "1", 32_768)),
        ("32,767 bells", joined(&[&repeated("B5", 32_767), b"I"])),
    ]
}

/// A deep result is entered, is known, and leaves no room for another.
fn entered_deep(subject: impl Controller + Sync, text: &[u8]) -> Outcome {
    let held = store_of(&[text]);
    let calls = [
        (text, vec![0; held.len()], "entered 1"),
        (text, held.clone(), "entered 1"),
        (b"RRJ", held.clone(), "30@0"),
    ];
    for (term, store, words) in calls {
        let entry = Entry { term: term.to_vec(), store };
        on_advised_stack(|| demand_entry(&subject, &entry, &(from_words(words, 0), held.clone())))?;
    }
    Ok(())
}

/// A text of so many letters is refused, and no byte is changed.
fn refused_deep(subject: impl Controller + Sync, text: &[u8], words: &str) -> Outcome {
    let words = match words {
        "whole" if text.contains(&b'.') => "29@0",
        "whole" => "30@0",
        _ => words,
    };
    let entry = Entry { term: text.to_vec(), store: store_of(&["J", "A0T"]) };
    let expected = (from_words(words, 0), entry.store.clone());
    on_advised_stack(|| demand_entry(&subject, &entry, &expected))
}

/// Entries of deep results, and of texts of a million letters and more.
fn catalogues(suite: &mut Suite, label: &str, subject: impl Controller + Sync + Copy) {
    for (name, text) in deep_results() {
        suite.test(&format!("{label} deep catalogue: {name}"), || entered_deep(subject, &text));
    }
    for ((name, text), words) in million_letters() {
        suite.test(&format!("{label} deep catalogue: {name}"), || refused_deep(subject, &text, words));
    }
}

/// Terms of 16,383 or 16,384 letters, deep in every way, which are their own results; and the same with `(a)` for each
/// `J`.
fn deep_lines() -> Vec<(Named, Vec<u8>)> {
    let both = |name, text: Vec<u8>| {
        let uses = text.iter().flat_map(|letter| if *letter == b'J' { b"(a)".to_vec() } else { vec![*letter] });
        let uses = uses.collect();
        ((name, text), uses)
    };
    vec![
        both("R^16383 J", index(16_383)),
        both("H to the left", nested("H", 8_191, "J", 8_192)),
        both("H to the right", joined(&[&repeated("HJ", 8_191), b"J"])),
        both("A to the left", nested("A", 8_191, "J", 8_192)),
        both("A to the right", joined(&[&repeated("AJ", 8_191), b"J"])),
        both("B to the left, bells", nested("B", 8_191, "1", 8_192)),
        both("B to the right", joined(&[&repeated("BJ", 8_191), b"J"])),
    ]
}

/// Lines of 65,533 letters, and what they come to: no room, or no line.
fn longest_lines() -> Vec<(Named, &'static str)> {
    vec![
        (("R^65532 J", index(65_532)), "no room 1"),
        (("H to the left", nested("H", 32_766, "J", 32_767)), "no room 1"),
        (("H to the right", joined(&[&repeated("HJ", 32_766), b"J"])), "no room 1"),
        ((". to the left", nested(".", 32_766, "I", 32_767)), "no room 1"),
        (("R^65533", repeated("R", 65_533)), "25@1"),
        (("H^65533", repeated("H", 65_533)), "25@1"),
        ((".^65533", repeated(".", 65_533)), "25@1"),
        (("H to the left, one J too few", nested("H", 32_767, "J", 32_766)), "25@1"),
        (("H to the left, one J too many", nested("H", 32_765, "J", 32_767)), "25@1"),
        (("R^65529 and a use", joined(&[&repeated("R", 65_529), b"(bc)"])), "27@1"),
        (("R^65532 (", joined(&[&repeated("R", 65_532), b"("])), "25@1"),
        (("(^65533", repeated("(", 65_533)), "25@1"),
        (("(a^65532", joined(&[b"(", &repeated("a", 65_532)])), "25@1"),
    ]
}

/// A book in the largest area with the most fuel, on the advised stack.
fn played_deep(subject: impl Controller + Sync, book: Vec<u8>, words: &str, result: &[u8]) -> Outcome {
    let (reply, area) = (from_words(words, result.len()), vec![b'#'; 16_384]);
    let play = Play { book, work: area.clone(), area, store: vec![b'#'; STORE], fuel: 1_000_000 };
    let left = match words.contains('@') {
        true => [play.area.clone(), play.work.clone(), play.store.clone()],
        false => [padded(result, 16_384), vec![0; 16_384], vec![0; STORE]],
    };
    on_advised_stack(|| demand_play(&subject, &play, &(reply, left)))
}

/// Books of deep lines, of deep lines of uses, and of lines that are as long as a book may be.
fn books(suite: &mut Suite, label: &str, subject: impl Controller + Sync + Copy) {
    for ((name, text), uses) in deep_lines() {
        suite.test(&format!("{label} deep book: {name}, used"), || {
            played_deep(subject, joined(&[b"a\t", &text, b"\nb\t(a)\n"]), "finished 2", &text)
        });
        suite.test(&format!("{label} deep book: {name}, uses in it"), || {
            played_deep(subject, joined(&[b"a\tJ\nb\t", &uses, b"\n"]), "finished 2", &text)
        });
    }
    suite.test(&format!("{label} deep book: . to the left, uses in it"), || {
        let book = joined(&[b"a\tI\nb\t", &nested(".", 8_191, "(a)", 8_192), b"\n"]);
        played_deep(subject, book, "finished 2", b"I")
    });
    suite.test(&format!("{label} deep book: . to the right, uses in it"), || {
        let book = joined(&[b"a\tI\nb\t", &repeated(".(a)", 8_191), b"(a)\n"]);
        played_deep(subject, book, "finished 2", b"I")
    });
    for ((name, text), words) in longest_lines() {
        suite.test(&format!("{label} deep book: {name}"), || {
            played_deep(subject, joined(&[b"a\t", &text, b"\n"]), words, b"")
        });
    }
}

/// Matching of a file with deep terms and types with itself.
fn matches(suite: &mut Suite, label: &str, subject: impl Controller + Sync + Copy) {
    for row in large_files() {
        let reply = if row.reply.starts_with("accepted") { "match" } else { &row.reply };
        let reply = from_words(reply, 0);
        let name = format!("{label} deep matching: {}", row.name);
        suite.test(&name, || on_advised_stack(|| demand_match(&subject, [&row.file, &row.file], reply)));
    }
}

pub fn all(suite: &mut Suite, label: &str, subject: impl Controller + Sync + Copy) {
    readings(suite, label, subject);
    reductions(suite, label, subject, 1_000_000, predict_fast);
    counts(suite, label, subject, predict_counted::<Machine>);
    comparisons(suite, label, subject);
    joins(suite, label, subject);
    rows(suite, label, subject);
    catalogues(suite, label, subject);
    books(suite, label, subject);
    files(suite, label, subject);
    matches(suite, label, subject);
}
