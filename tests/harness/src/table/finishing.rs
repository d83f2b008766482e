//! Finishing: a term, the size of its area, a fuel; the reply and the term that stands in the area afterwards.

use crate::terms::{joined, repeated};

pub struct Row {
    pub name: String,
    pub term: Vec<u8>,
    pub area: usize,
    pub fuel: u64,
    /// `number@place`, `finished n`, `spent n` or `no room n`.
    pub reply: String,
    pub after: Vec<u8>,
}

const AMPLE: usize = 200;

pub fn row(term: &str, area: usize, fuel: u64, reply: &str, after: &str) -> Row {
    let name = format!("{term} area {area} fuel {fuel} is {reply}");
    Row { name, term: term.into(), area, fuel, reply: reply.to_string(), after: after.into() }
}

/// The finishing rows among the twelve examples (REQUIREMENTS, Examples).
pub fn examples() -> Vec<Row> {
    vec![
        row("J", AMPLE, 100, "finished 0", "J"),
        row("J", AMPLE, 0, "finished 0", "J"),
        row(".BII.JRJ", AMPLE, 100, "finished 6", "J"),
        row(".BII.JRJ", AMPLE, 6, "finished 6", "J"),
        row(".BII.JRJ", AMPLE, 5, "spent 5", ".IJ"),
        row(".BII.JRJ", 12, 100, "finished 6", "J"),
        row(".BII.JRJ", 11, 100, "no room 1", ".BIIHJRJ"),
        row(".BIIAIRJ", AMPLE, 100, "finished 2", "AIRJ"),
        row(".BIIABJIRJ", AMPLE, 100, "finished 4", "ABIIRJ"),
        row(".B.AIHJJAIHJJI.II", AMPLE, 100, "finished 2", "I"),
        row("JJ", AMPLE, 100, "7@1", ""),
        row("HJ", AMPLE, 100, "6@2", ""),
    ]
}

/// Example 2 step by step: the rule's number and the term after it.
pub const EXAMPLE_2_RULES: [(u8, &str); 6] =
    [(1, ".BIIHJRJ"), (8, "..BIIJ.BIIRJ"), (6, ".I.BIIRJ"), (5, ".BIIRJ"), (7, ".IJ"), (5, "J")];

pub fn rows() -> Vec<Row> {
    [edges(), bells(), ends_of_bells(), joins()].into_iter().flatten().collect()
}

/// Runs at the edges of each outcome, and their neighbours.
fn edges() -> Vec<Row> {
    vec![
        row(".BII.JRJ", 11, 0, "spent 0", ".BII.JRJ"),
        row(".BII.JRJ", 11, 1, "spent 1", ".BIIHJRJ"),
        row(".BII.JRJ", 11, 2, "no room 1", ".BIIHJRJ"),
        row(".BII.JRJ", 8, 2, "no room 1", ".BIIHJRJ"),
        row(".BIIHJJ", 7, 0, "spent 0", ".BIIHJJ"),
        row(".BIIHJJ", 7, 1, "no room 0", ".BIIHJJ"),
        row("J", 1, 1_000_000, "finished 0", "J"),
        row("J", 1, 1_000_001, "4@0", ""),
        row("J", 1, u64::MAX, "4@0", ""),
        row("J", 1, 1 << 32, "4@0", ""),
        row("J", 1, 1 << 63, "4@0", ""),
        row("x", 1, 1_000_001, "4@0", ""),
        row("", 1, 2_000_000, "4@0", ""),
        row("", 1, 1_000_000, "6@0", ""),
        row("", 0, 0, "6@0", ""),
        row("Jx", 2, 0, "7@1", ""),
        row("xJ", 2, 0, "5@0", ""),
        row(".IJ", 3, 1, "finished 1", "J"),
        row(".IJ", 3, 0, "spent 0", ".IJ"),
        row("R.I.IJ", 6, 1, "spent 1", "R.IJ"),
        row("R.I.IJ", 6, 2, "finished 2", "RJ"),
    ]
}

/// Runs with bells in them; rules 12 and 13 are among the steps.
fn bells() -> Vec<Row> {
    vec![
        row("1", 1, 0, "finished 0", "1"),
        row("T", 1, 1_000_000, "finished 0", "T"),
        row(".1J", 3, 1, "finished 1", "H1J"),
        row(".1J", 3, 0, "spent 0", ".1J"),
        row(".BJI1", 5, 1, "finished 1", "1"),
        row(".BJI1", 5, 0, "spent 0", ".BJI1"),
        row(".AI1J", 5, 100, "finished 2", "1"),
        row(".AI1J", 5, 1, "spent 1", ".BJI1"),
        row(".AIJ1", 5, 100, "finished 2", "1"),
        row(".I.BJIE", 7, 100, "finished 2", "E"),
        row(".1.2.3J", 7, 100, "finished 3", "H1H2H3J"),
        row(".1.2.3J", 7, 2, "spent 2", "H1H2.3J"),
        row("...123J", 7, 100, "finished 3", "HHH123J"),
        row("...123J", 7, 1, "spent 1", "..H123J"),
        row("A.1J.BJIT", 9, 100, "finished 2", "AH1JT"),
        row(".B1I.AIHJJAIHJJ", 15, 0, "spent 0", ".B1I.AIHJJAIHJJ"),
        row("J1", 2, 9, "7@1", ""),
        row(".1K", 3, 9, "5@2", ""),
        row("H1", 3, 9, "6@2", ""),
    ]
}

/// Longer runs on bells, at the edges of fuel and room.
fn ends_of_bells() -> Vec<Row> {
    vec![
        // Rules 12, 8, 13, 12, 13.
        row(".BJI.1T", 11, 100, "finished 5", "H1T"),
        row(".BJI.1T", 11, 4, "spent 4", "H1.BJIT"),
        row(".BJI.1T", 11, 3, "spent 3", ".1.BJIT"),
        row(".BJI.1T", 11, 2, "spent 2", "..BJI1.BJIT"),
        row(".BJI.1T", 10, 100, "no room 1", ".BJIH1T"),
        // Rules 4, 8, 7, 6, 12, 6.
        row(".ABTIHRJJ1", 16, 100, "finished 6", "HT1"),
        row(".ABTIHRJJ1", 15, 100, "no room 1", ".B1BTIHRJJ"),
        // Rules 11, 13, 11, 13, 10.
        row(".BJIB1B2I", 13, 100, "finished 5", "B1B2I"),
        row(".BJIB1B2I", 12, 100, "no room 0", ".BJIB1B2I"),
        // Three bells in another order: rules 11, 7, 7, 6, 11, 7, 6, 11, 6, 10.
        row(".B1B2B3IBRRJBRJBJI", AMPLE, 100, "finished 10", "B3B2B1I"),
        row(".B1B2B3IBRRJBRJBJI", AMPLE, 4, "spent 4", "B3.B1B2B3IBRJBJI"),
    ]
}

/// Joins applied to a bell.
fn joins() -> Vec<Row> {
    let join = ".AB1B2IHRJHRRJJ3";
    vec![
        // Rules 4, 8, 7, 6, 12, 8, 7, 7, 6, 12, 6; the second term has 16 letters, the third 24.
        row(join, AMPLE, 100, "finished 11", "H1H23"),
        row(join, 24, 11, "finished 11", "H1H23"),
        row(join, 24, 10, "spent 10", "H1H2.B3B1B2IJ"),
        row(join, 24, 5, "spent 5", "H1.B3B1B2IHRRJJ"),
        row(join, 24, 2, "spent 2", "..B3B1B2IRJ.B3B1B2IHRRJJ"),
        row(join, 23, 100, "no room 1", ".B3B1B2IHRJHRRJJ"),
        row(join, 16, 1, "spent 1", ".B3B1B2IHRJHRRJJ"),
        // Three bells joined from the left, and from the right.
        row(".ABAB1B2IHRJHRRJJB3IHRJHRRJJ4", AMPLE, 100, "finished 21", "H1H2H34"),
        row(".AB1BAB2B3IHRJHRRJJIHRJHRRJJ4", AMPLE, 100, "finished 21", "H1H2H34"),
        // A join that is not applied is normal where its terms are, and else its terms come to their ends in it.
        row("AB1B2IHRJHRRJJ", 14, 100, "finished 0", "AB1B2IHRJHRRJJ"),
        row("AB.IIB.1TIHRJHRRJJ", 18, 100, "finished 2", "ABIBH1TIHRJHRRJJ"),
    ]
}

/// Runs that find a result by the order, where another order takes less or finds none.
pub fn results() -> Vec<Row> {
    [not_the_fewest(), beside_no_end()].into_iter().flatten().collect()
}

/// Rules 8, 6, 5, 5, 6, 5, with room for 15 letters; by rules 5, 8, 6, 5, 6, the `.II` first, eleven are enough.
fn not_the_fewest() -> Vec<Row> {
    let finished = |area, fuel| row(".B.IIIHJJ", area, fuel, "finished 6", "I");
    let no_room = |area, fuel| row(".B.IIIHJJ", area, fuel, "no room 0", ".B.IIIHJJ");
    vec![
        finished(15, 6),
        finished(15, 7),
        finished(16, 6),
        finished(15, 1_000_000),
        finished(16_384, 6),
        finished(16_384, 1_000_000),
        row(".B.IIIHJJ", 15, 5, "spent 5", ".II"),
        row(".B.IIIHJJ", 16, 5, "spent 5", ".II"),
        row(".B.IIIHJJ", 16_384, 5, "spent 5", ".II"),
        row(".B.IIIHJJ", 15, 4, "spent 4", ".B.IIIJ"),
        row(".B.IIIHJJ", 15, 3, "spent 3", ".I.B.IIIJ"),
        row(".B.IIIHJJ", 15, 2, "spent 2", "..II.B.IIIJ"),
        row(".B.IIIHJJ", 15, 1, "spent 1", "..B.IIIJ.B.IIIJ"),
        row(".B.IIIHJJ", 15, 0, "spent 0", ".B.IIIHJJ"),
        row(".B.IIIHJJ", 9, 0, "spent 0", ".B.IIIHJJ"),
        no_room(14, 1),
        no_room(14, 5),
        no_room(14, 6),
        no_room(14, 1_000_000),
        no_room(11, 5),
        no_room(9, 1),
        // What the other order has after its first change: rules 8, 6, 5, 6.
        row(".BIIHJJ", 11, 4, "finished 4", "I"),
        row(".BIIHJJ", 11, 3, "spent 3", ".BIIJ"),
        row(".BIIHJJ", 10, 4, "no room 0", ".BIIHJJ"),
    ]
}

/// Example 8, by rules 5 and 10: a part that has no result is dropped.
fn beside_no_end() -> Vec<Row> {
    let example = ".B.AIHJJAIHJJI.II";
    vec![
        row(example, 17, 2, "finished 2", "I"),
        row(example, 17, 1_000_000, "finished 2", "I"),
        row(example, 16_384, 2, "finished 2", "I"),
        row(example, 16_384, 1_000_000, "finished 2", "I"),
        row(example, 17, 1, "spent 1", ".B.AIHJJAIHJJII"),
        row(example, 16_384, 1, "spent 1", ".B.AIHJJAIHJJII"),
        row(example, 17, 0, "spent 0", example),
        row(example, 16, 2, "3@0", ""),
    ]
}

/// A call that is refused: area, length, size of the work area, fuel and `number@place`.
pub struct RefusedRow {
    pub name: &'static str,
    pub area: Vec<u8>,
    pub term: usize,
    pub work: usize,
    pub fuel: u64,
    pub reply: &'static str,
}

fn refused(
    name: &'static str,
    area: &[u8],
    term: usize,
    work: usize,
    fuel: u64,
    reply: &'static str,
) -> RefusedRow {
    RefusedRow { name, area: area.to_vec(), term, work, fuel, reply }
}

/// The refusals of finishing, each before those that follow it.
pub fn refused_rows() -> Vec<RefusedRow> {
    let over = vec![b'x'; 16_385];
    vec![
        refused("1 before 2, 3, 4 and 5", &over, 16_386, 0, u64::MAX, "1@0"),
        refused("1 before 4", &over, 1, 16_385, 1_000_001, "1@0"),
        refused("2 before 3, 4 and 5", b"xJJ", 4, 2, u64::MAX, "2@0"),
        refused("2 before 4", b"JJJ", 1, 2, 1_000_001, "2@0"),
        refused("3 before 4 and 5", b"xJJ", 4, 3, 1_000_001, "3@0"),
        refused("3 before 4, length at the top of its type", b"JJJ", usize::MAX, 3, u64::MAX, "3@0"),
        refused("3 alone", b"JJJ", 4, 3, 5, "3@0"),
        refused("4 before 5", b"xJJ", 2, 3, 1_000_001, "4@0"),
        refused("4 before 6", b"JJJ", 0, 3, 1_000_001, "4@0"),
        refused("4 before 7", b"JJJ", 2, 3, 1_000_001, "4@0"),
        refused("5", b"RxJ", 3, 3, 1_000_000, "5@1"),
        refused("6", b".IJ", 2, 3, 1_000_000, "6@2"),
        refused("7", b"RJJ", 3, 3, 1_000_000, "7@2"),
    ]
}

/// x_0 is the closure w = `AIHJJ`; x_(k+1) is `.B` x_k `IJ`, which rule 6 turns into x_k.
fn nested_look_up(depth: usize) -> Vec<u8> {
    joined(&[&repeated(".B", depth), b"AIHJJ", &repeated("IJ", depth)])
}

/// `.` w x_k takes rules 4 and 8, then k + 1 times rule 6, to `.` w x_(k+1). So `.ww` is at `.` w x_c
/// after c(c-1)/2 + 3c steps, and no term on the way is larger than 9 + 2(5 + 4(c-1)).
pub fn self_application(cycles: usize) -> Row {
    let steps = cycles * (cycles - 1) / 2 + 3 * cycles;
    Row {
        name: format!(".AIHJJAIHJJ for {cycles} cycles, {steps} steps"),
        term: b".AIHJJAIHJJ".to_vec(),
        area: 9 + 2 * (5 + 4 * (cycles - 1)),
        fuel: steps as u64,
        reply: format!("spent {steps}"),
        after: joined(&[b".AIHJJ", &nested_look_up(cycles)]),
    }
}

/// The same in an area that is one byte short for the last cycle's rule 8.
pub fn self_application_without_room(cycles: usize) -> Row {
    let before = self_application(cycles - 1);
    let steps = before.fuel + 1;
    Row {
        name: format!(".AIHJJAIHJJ without room for cycle {cycles}"),
        area: 9 + 2 * (5 + 4 * (cycles - 1)) - 1,
        fuel: 1_000_000,
        reply: format!("no room {steps}"),
        after: joined(&[b".B", &nested_look_up(cycles - 1), b"IHJJ"]),
        ..before
    }
}

/// The steps after which `.ww` is at `.` w x_c.
fn steps_of_cycles(c: usize) -> usize {
    c * (c + 5) / 2
}

/// `.ww` after these steps. In a cycle `.` w x_c becomes `.B` x_c `IHJJ` by rule 4 and `.` x_(c+1) x_(c+1) by rule 8;
/// each use of rule 6 then takes the first x one back, until it is w.
fn self_application_after(steps: usize) -> Vec<u8> {
    let c = (0..).find(|c| steps < steps_of_cycles(c + 1)).unwrap_or(0);
    match steps - steps_of_cycles(c) {
        0 => joined(&[b".AIHJJ", &nested_look_up(c)]),
        1 => joined(&[b".B", &nested_look_up(c), b"IHJJ"]),
        made => joined(&[b".", &nested_look_up(c + 3 - made), &nested_look_up(c + 1)]),
    }
}

/// `.ww` has no result. Rule 8 of cycle c wants room for 19 + 8(c-1) letters, and the step before it is made in any
/// area.
pub fn no_result(area: usize, fuel: u64) -> Row {
    let with_room = steps_of_cycles((area - 11) / 8) + 1;
    let steps = with_room.min(fuel as usize);
    let outcome = if fuel as usize <= with_room { "spent" } else { "no room" };
    Row {
        after: self_application_after(steps),
        ..row(".AIHJJAIHJJ", area, fuel, &format!("{outcome} {steps}"), "")
    }
}

/// Runs of many steps whose end is worked out by hand.
pub fn long_rows() -> Vec<Row> {
    vec![
        self_application(1),
        self_application(2),
        self_application(10),
        self_application(200),
        self_application(400),
        self_application_without_room(2),
        self_application_without_room(100),
        identities(8_000),
        left_identities(8_000),
        frozen(8_000),
        struck(8_191),
        left_struck(2_000),
        replaced(4_095),
        looked_up(3_999),
        filled(16_373),
        not_filled(16_374),
    ]
}

/// (`.I`)^k `J`: rule 5 k times.
pub fn identities(k: usize) -> Row {
    let term = joined(&[&repeated(".I", k), b"J"]);
    ran(format!("{k} identities on the right"), term, k, b"J".to_vec())
}

/// `.`^k `I`^(k+1): rule 5 k times, in the function first.
pub fn left_identities(k: usize) -> Row {
    let term = joined(&[&repeated(".", k), &repeated("I", k + 1)]);
    ran(format!("{k} identities on the left"), term, k, b"I".to_vec())
}

/// `.`^k `J`^(k+1): rule 1 once, then rule 3.
pub fn frozen(k: usize) -> Row {
    let term = joined(&[&repeated(".", k), &repeated("J", k + 1)]);
    let result = joined(&[&repeated("H", k), &repeated("J", k + 1)]);
    ran(format!("{k} applications frozen"), term, k, result)
}

pub fn ran(name: String, term: Vec<u8>, steps: usize, after: Vec<u8>) -> Row {
    Row { name, area: term.len(), term, fuel: 1_000_000, reply: format!("finished {steps}"), after }
}

/// (`.1`)^k `T`: rule 12 k times.
pub fn struck(k: usize) -> Row {
    let (term, result) = (joined(&[&repeated(".1", k), b"T"]), joined(&[&repeated("H1", k), b"T"]));
    ran(format!("{k} bells on the right"), term, k, result)
}

/// `.`^k `0`^(k+1): rule 12 once, then rule 3.
pub fn left_struck(k: usize) -> Row {
    let (term, result) = (repeated(".", k), repeated("H", k));
    let zeros = repeated("0", k + 1);
    ran(format!("{k} bells on the left"), joined(&[&term, &zeros]), k, joined(&[&result, &zeros]))
}

/// (`.BJI`)^k `E`: rule 13 k times, at the innermost first.
pub fn replaced(k: usize) -> Row {
    ran(format!("{k} pairs before a bell"), joined(&[&repeated(".BJI", k), b"E"]), k, b"E".to_vec())
}

/// The last of k + 1 bells behind one another, by its index: rule 7 k times, then rule 6.
pub fn looked_up(k: usize) -> Row {
    let term = joined(&[b".", &repeated("B1", k), b"BTI", &repeated("R", k), b"J"]);
    ran(format!("the last of {} bells", k + 1), term, k + 1, b"T".to_vec())
}

/// `.BIIH1R`^k`T`, of k + 7 letters, in the largest area: rule 8 makes it larger by 4.
pub fn filled(k: usize) -> Row {
    Row {
        name: format!("rule 8 on bells among {} letters, one step", k + 7),
        term: joined(&[b".BIIH1", &repeated("R", k), b"T"]),
        area: 16_384,
        fuel: 1,
        reply: "spent 1".to_string(),
        after: joined(&[b"..BII1.BII", &repeated("R", k), b"T"]),
    }
}

/// The same with one letter more than there is room for.
pub fn not_filled(k: usize) -> Row {
    let full = filled(k);
    Row { reply: "no room 0".to_string(), after: full.term.clone(), ..full }
}
