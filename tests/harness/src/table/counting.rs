//! Counting: runs of finishing, and how often each rule is used in them.

use super::finishing::{self, self_application, self_application_without_room};
use crate::terms::{joined, repeated};

pub struct Row {
    pub run: finishing::Row,
    /// The rules that are used, each with its count.
    pub used: Vec<(usize, u32)>,
}

impl Row {
    pub fn name(&self) -> String {
        format!("{}, rules and counts {:?}", self.run.name, self.used)
    }
}

fn counted(run: finishing::Row, used: &[(usize, u32)]) -> Row {
    Row { run, used: used.to_vec() }
}

fn row(term: &str, area: usize, fuel: u64, reply: &str, after: &str, used: &[(usize, u32)]) -> Row {
    counted(finishing::row(term, area, fuel, reply, after), used)
}

/// The bytes of counts: four for each rule, rule 1 first, of each the low byte first.
pub fn stored(used: &[(usize, u32)]) -> Vec<u8> {
    let mut bytes = vec![0; 52];
    for &(rule, count) in used {
        let place = 4 * rule - 4;
        for (byte, shift) in [(0, 0), (1, 8), (2, 16), (3, 24)] {
            bytes[place + byte] = (count >> shift) as u8;
        }
    }
    bytes
}

/// Example 2's counts, byte by byte: rules 1, 8, 6, 5, 7, 5.
pub const EXAMPLE_2: [[u8; 4]; 13] = [
    [1, 0, 0, 0],
    [0, 0, 0, 0],
    [0, 0, 0, 0],
    [0, 0, 0, 0],
    [2, 0, 0, 0],
    [1, 0, 0, 0],
    [1, 0, 0, 0],
    [1, 0, 0, 0],
    [0, 0, 0, 0],
    [0, 0, 0, 0],
    [0, 0, 0, 0],
    [0, 0, 0, 0],
    [0, 0, 0, 0],
];

/// Those of `.AIHJJAIHJJ` after 400 cycles: rules 4 and 8 are used 400 times, which is 1 · 256 + 144, and rule
/// 6 is used 80,200 times, which is 1 · 65,536 + 57 · 256 + 72.
pub const CYCLES_400: [[u8; 4]; 13] = [
    [0, 0, 0, 0],
    [0, 0, 0, 0],
    [0, 0, 0, 0],
    [144, 1, 0, 0],
    [0, 0, 0, 0],
    [72, 57, 1, 0],
    [0, 0, 0, 0],
    [144, 1, 0, 0],
    [0, 0, 0, 0],
    [0, 0, 0, 0],
    [0, 0, 0, 0],
    [0, 0, 0, 0],
    [0, 0, 0, 0],
];

const AMPLE: usize = 200;

pub fn rows() -> Vec<Row> {
    [examples(), each_rule(), bells(), joins(), no_steps(), vec![every_rule(), all_different()]]
        .into_iter()
        .flatten()
        .collect()
}

/// The examples of the requirements, with the rules that they name or that follow from their terms.
fn examples() -> Vec<Row> {
    // Rules 1, 8, 6, 5, 7, 5, and as many of them as the fuel or the area allows.
    let two = ".BII.JRJ";
    vec![
        row(two, AMPLE, 100, "finished 6", "J", &[(1, 1), (5, 2), (6, 1), (7, 1), (8, 1)]),
        row(two, 12, 6, "finished 6", "J", &[(1, 1), (5, 2), (6, 1), (7, 1), (8, 1)]),
        row(two, AMPLE, 5, "spent 5", ".IJ", &[(1, 1), (5, 1), (6, 1), (7, 1), (8, 1)]),
        row(two, AMPLE, 4, "spent 4", ".BIIRJ", &[(1, 1), (5, 1), (6, 1), (8, 1)]),
        row(two, AMPLE, 3, "spent 3", ".I.BIIRJ", &[(1, 1), (6, 1), (8, 1)]),
        row(two, AMPLE, 2, "spent 2", "..BIIJ.BIIRJ", &[(1, 1), (8, 1)]),
        row(two, 11, 1, "spent 1", ".BIIHJRJ", &[(1, 1)]),
        row(two, 11, 2, "no room 1", ".BIIHJRJ", &[(1, 1)]),
        row(two, 11, 100, "no room 1", ".BIIHJRJ", &[(1, 1)]),
        // Rules 9, 10.
        row(".BIIAIRJ", AMPLE, 100, "finished 2", "AIRJ", &[(9, 1), (10, 1)]),
        // Rules 9, 11, 6, 10.
        row(".BIIABJIRJ", AMPLE, 100, "finished 4", "ABIIRJ", &[(6, 1), (9, 1), (10, 1), (11, 1)]),
        row(".BIIABJIRJ", AMPLE, 2, "spent 2", "AB.BIIJ.BIIIRJ", &[(9, 1), (11, 1)]),
        // Rules 5, 10.
        row(".B.AIHJJAIHJJI.II", AMPLE, 100, "finished 2", "I", &[(5, 1), (10, 1)]),
    ]
}

/// One step by each rule; where the term after it is not normal the fuel is spent.
fn each_rule() -> Vec<Row> {
    vec![
        row(".JI", 3, 1, "finished 1", "HJI", &[(1, 1)]),
        row(".RJI", 4, 1, "finished 1", "HRJI", &[(2, 1)]),
        row(".HJII", 5, 1, "finished 1", "HHJII", &[(3, 1)]),
        row(".AIJRJ", 6, 1, "spent 1", ".BRJIJ", &[(4, 1)]),
        row(".IRJ", 4, 1, "finished 1", "RJ", &[(5, 1)]),
        row(".BRJIJ", 6, 1, "finished 1", "RJ", &[(6, 1)]),
        row(".BJIRRJ", 7, 1, "spent 1", ".IRJ", &[(7, 1)]),
        row(".BIIHJJ", 11, 1, "spent 1", "..BIIJ.BIIJ", &[(8, 1)]),
        row(".BJIARJHJJ", 10, 1, "spent 1", "A.BJIRJHJJ", &[(9, 1)]),
        row(".BJII", 5, 1, "finished 1", "I", &[(10, 1)]),
        row(".BIIBJJ", 11, 1, "spent 1", "B.BIIJ.BIIJ", &[(11, 1)]),
        row(".1J", 3, 1, "finished 1", "H1J", &[(12, 1)]),
        row(".BJI1", 5, 1, "finished 1", "1", &[(13, 1)]),
    ]
}

/// Runs with bells in them; the rules as in the rows of finishing.
fn bells() -> Vec<Row> {
    vec![
        // Rules 4, 13.
        row(".AITE", 5, 100, "finished 2", "T", &[(4, 1), (13, 1)]),
        row(".1.2.3J", 7, 100, "finished 3", "H1H2H3J", &[(12, 3)]),
        // Rules 12, 3, 3.
        row("...123J", 7, 100, "finished 3", "HHH123J", &[(3, 2), (12, 1)]),
        // Rules 12, 8, 13, 12, 13.
        row(".BJI.1T", 11, 100, "finished 5", "H1T", &[(8, 1), (12, 2), (13, 2)]),
        row(".BJI.1T", 11, 4, "spent 4", "H1.BJIT", &[(8, 1), (12, 2), (13, 1)]),
        row(".BJI.1T", 11, 3, "spent 3", ".1.BJIT", &[(8, 1), (12, 1), (13, 1)]),
        row(".BJI.1T", 10, 100, "no room 1", ".BJIH1T", &[(12, 1)]),
        // Rules 4, 8, 7, 6, 12, 6.
        row(".ABTIHRJJ1", 16, 100, "finished 6", "HT1", &[(4, 1), (6, 2), (7, 1), (8, 1), (12, 1)]),
        row(".ABTIHRJJ1", 15, 100, "no room 1", ".B1BTIHRJJ", &[(4, 1)]),
        // Rules 11, 13, 11, 13, 10.
        row(".BJIB1B2I", 13, 100, "finished 5", "B1B2I", &[(10, 1), (11, 2), (13, 2)]),
        // Rules 11, 7, 7, 6, 11, 7, 6, 11, 6, 10.
        row(".B1B2B3IBRRJBRJBJI", AMPLE, 100, "finished 10", "B3B2B1I", &[(6, 3), (7, 3), (10, 1), (11, 3)]),
        row(".B1B2B3IBRRJBRJBJI", AMPLE, 4, "spent 4", "B3.B1B2B3IBRJBJI", &[(6, 1), (7, 2), (11, 1)]),
    ]
}

/// Joins applied to a bell; the rules as in the rows of joining.
fn joins() -> Vec<Row> {
    let join = ".AB1B2IHRJHRRJJ3";
    let three = [(4, 2), (6, 6), (7, 6), (8, 4), (12, 3)];
    vec![
        row(join, AMPLE, 100, "finished 11", "H1H23", &[(4, 1), (6, 3), (7, 3), (8, 2), (12, 2)]),
        row(join, 24, 10, "spent 10", "H1H2.B3B1B2IJ", &[(4, 1), (6, 2), (7, 3), (8, 2), (12, 2)]),
        row(join, 23, 100, "no room 1", ".B3B1B2IHRJHRRJJ", &[(4, 1)]),
        row(".ABAB1B2IHRJHRRJJB3IHRJHRRJJ4", AMPLE, 100, "finished 21", "H1H2H34", &three),
        row(".AB1BAB2B3IHRJHRRJJIHRJHRRJJ4", AMPLE, 100, "finished 21", "H1H2H34", &three),
    ]
}

/// Runs without a step: normal terms, no fuel, and no room for the first step.
fn no_steps() -> Vec<Row> {
    vec![
        row("J", AMPLE, 100, "finished 0", "J", &[]),
        row("J", 1, 0, "finished 0", "J", &[]),
        row("T", 1, 1_000_000, "finished 0", "T", &[]),
        row("ABIIRJ", 9, 9, "finished 0", "ABIIRJ", &[]),
        row(".BII.JRJ", 11, 0, "spent 0", ".BII.JRJ", &[]),
        row(".1J", 3, 0, "spent 0", ".1J", &[]),
        row(".BIIHJJ", 7, 0, "spent 0", ".BIIHJJ", &[]),
        row(".BIIHJJ", 7, 1, "no room 0", ".BIIHJJ", &[]),
        row(".BJIB1B2I", 12, 100, "no room 0", ".BJIB1B2I", &[]),
    ]
}

/// The counts of all rules, rule 1 first.
fn of_all(counts: [u32; 13]) -> Vec<(usize, u32)> {
    (1..).zip(counts).collect()
}

/// Frozen parts, each a run of its own: rules 1; 2; 3; 4, 6; 5; 7, 5; 8, 6, 1, 13; 9, 10; 11, 10, 10; 12; 13.
fn every_rule() -> Row {
    row(
        "H.JIH.RJIH.HJIIH.AIJ1H.IIH.BJIRJH.BJIHJ1H.BJIAIJH.BJIBIIH.1J.BJIT",
        AMPLE,
        19,
        "finished 19",
        "HHJIHHRJIHHHJIIH1HIHJHHJ1HAIJHBIIHH1JT",
        &of_all([2, 1, 1, 1, 2, 2, 1, 1, 1, 3, 1, 1, 2]),
    )
}

/// Frozen parts like those, each so many times: what a part's run makes of it, and the parts' number.
const PARTS: [(&str, &str, usize); 13] = [
    (".JI", "HJI", 7),     // rule 1
    (".RJI", "HRJI", 6),   // rule 2
    (".HJII", "HHJII", 7), // rule 3
    (".AIJ1", "1", 1),     // rules 4, 6
    (".II", "I", 7),       // rule 5
    (".BJIJ", "J", 8),     // rule 6
    (".BJIRJ", "J", 3),    // rules 7, 5
    (".BJIHJ1", "HJ1", 2), // rules 8, 6, 1, 13
    (".BJIAIJ", "AIJ", 4), // rules 9, 10
    (".BJII", "I", 1),     // rule 10
    (".BJIBII", "BII", 5), // rules 11, 10, 10
    (".1J", "H1J", 8),     // rule 12
    (".BJIT", "T", 10),    // rule 13
];

/// The counts of those parts together: rule 1 7 + 2 times, rule 5 7 + 3, rule 6 8 + 1 + 2, rule 10 1 + 4 + 2 · 5
/// and rule 13 10 + 2 times, the others as often as their own part.
const DIFFERENT: [u32; 13] = [9, 6, 7, 1, 10, 11, 3, 2, 4, 15, 5, 8, 12];

/// A run of 93 steps in which no two rules are used equally often.
pub fn all_different() -> Row {
    let frozen = |part: &str, times: usize| repeated(&format!("H{part}"), times);
    let term = PARTS.map(|(part, _, times)| frozen(part, times)).concat();
    let after = PARTS.map(|(_, result, times)| frozen(result, times)).concat();
    let run = finishing::Row {
        name: "parts in which no two rules are used equally often".to_string(),
        term: joined(&[&term, b"J"]),
        area: 400,
        fuel: 1_000,
        reply: "finished 93".to_string(),
        after: joined(&[&after, b"J"]),
    };
    counted(run, &of_all(DIFFERENT))
}

/// Runs in which each rule is used some hundred times, most of them by that rule alone.
pub fn long_rows() -> Vec<Row> {
    vec![
        counted(self_application(1), &[(4, 1), (6, 1), (8, 1)]),
        counted(self_application(2), &[(4, 2), (6, 3), (8, 2)]),
        counted(self_application(23), &[(4, 23), (6, 276), (8, 23)]),
        counted(self_application_without_room(2), &[(4, 2), (6, 1), (8, 1)]),
        counted(self_application_without_room(100), &[(4, 100), (6, 4_950), (8, 99)]),
        counted(finishing::identities(255), &[(5, 255)]),
        counted(finishing::left_identities(256), &[(5, 256)]),
        counted(finishing::frozen(258), &[(1, 1), (3, 257)]),
        counted(finishing::struck(1_023), &[(12, 1_023)]),
        counted(finishing::left_struck(300), &[(3, 299), (12, 1)]),
        counted(finishing::replaced(1_024), &[(13, 1_024)]),
        counted(finishing::looked_up(700), &[(6, 1), (7, 700)]),
        counted(finishing::filled(16_373), &[(8, 1)]),
        counted(finishing::not_filled(16_374), &[]),
        frozen_on_the_right(510),
        indices_frozen(511),
        closures_entered(512),
        emptied(513),
        distributed(600),
    ]
}

fn ran(name: String, term: Vec<u8>, steps: usize, after: Vec<u8>, used: &[(usize, u32)]) -> Row {
    counted(finishing::ran(name, term, steps, after), used)
}

/// (`.J`)^k `J`: rule 1 k times.
fn frozen_on_the_right(k: usize) -> Row {
    let (term, after) = (joined(&[&repeated(".J", k), b"J"]), joined(&[&repeated("HJ", k), b"J"]));
    ran(format!("{k} applications frozen on the right"), term, k, after, &[(1, k as u32)])
}

/// (`.RJ`)^k `J`: rule 2 k times.
fn indices_frozen(k: usize) -> Row {
    let (term, after) = (joined(&[&repeated(".RJ", k), b"J"]), joined(&[&repeated("HRJ", k), b"J"]));
    ran(format!("{k} indices on the right"), term, k, after, &[(2, k as u32)])
}

/// `.BII` `A`^k `I` `J`^k: rule 9 k times, into the environments alone, then rule 10.
fn closures_entered(k: usize) -> Row {
    let after = joined(&[&repeated("A", k), b"I", &repeated("J", k)]);
    let term = joined(&[b".BII", &after]);
    ran(format!("{k} closures entered"), term, k + 1, after, &[(9, k as u32), (10, 1)])
}

/// (`H.BJII`)^k `J`: rule 10 k times.
fn emptied(k: usize) -> Row {
    let (term, after) = (joined(&[&repeated("H.BJII", k), b"J"]), joined(&[&repeated("HI", k), b"J"]));
    ran(format!("{k} pairs before an identity"), term, k, after, &[(10, k as u32)])
}

/// `.BJI` (`B1`)^k `I`: rules 11 and 13 k times in turn, then rule 10; rule 11 needs room for 4 letters more.
fn distributed(k: usize) -> Row {
    let after = joined(&[&repeated("B1", k), b"I"]);
    let term = joined(&[b".BJI", &after]);
    let used = [(10, 1), (11, k as u32), (13, k as u32)];
    let mut row = ran(format!("{k} pairs of bells"), term, 2 * k + 1, after, &used);
    row.run.area += 4;
    row
}
