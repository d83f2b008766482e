//! Rows for the hammers: a text, the bells of a row and a table; the reply and the rows that the table holds afterwards.

use crate::chains::{self, piece, rounds, row_at, swapped, PLACES};
use crate::terms::repeated;

pub struct Row {
    pub name: String,
    pub term: Vec<u8>,
    pub bells: usize,
    pub table: usize,
    /// `number@place`, or `rung` and the number of rows.
    pub reply: String,
    pub different: usize,
    /// The rows; not looked at after a refusal.
    pub after: Vec<chains::Row>,
}

/// The table holds these rows, so many of them different.
fn rung(term: &str, bells: usize, table: usize, after: &[&[u8]], different: usize) -> Row {
    let name = format!("{term} as rows of {bells} in {table} are {after:?}, {different} different");
    let reply = format!("rung {}", after.len());
    Row {
        name,
        term: term.into(),
        bells,
        table,
        reply,
        different,
        after: after.iter().map(|row| row.to_vec()).collect(),
    }
}

fn refused(term: &str, bells: usize, table: usize, reply: &str) -> Row {
    let name = format!("{} as rows of {bells} in {table} are {reply}", term.escape_debug());
    Row { name, term: term.into(), bells, table, reply: reply.into(), different: 0, after: vec![] }
}

pub fn rows() -> Vec<Row> {
    let short = [edges(), numbers_of_bells(), letters(), tables(), no_chains(), bad_rows(), orders(), repeats()];
    short.into_iter().flatten().chain(many_rows()).chain(too_many_rows()).collect()
}

/// The rows of the requirements.
fn edges() -> Vec<Row> {
    vec![
        rung("I", 2, 0, &[], 0),
        refused("I", 13, 0, "20@0"),
        refused("Jx", 1, 0, "7@1"),
        refused("BJI", 2, 24, "20@0"),
        refused("B1J", 2, 24, "20@0"),
        refused(".II", 2, 24, "20@0"),
        refused("B1I", 2, 24, "21@0"),
        refused("B1B2I", 2, 11, "21@0"),
        refused("B1B1I", 2, 24, "22@1"),
        refused("B1B3I", 2, 24, "22@1"),
        refused("B1B2B2B2I", 2, 24, "22@2"),
        rung("B1B2I", 2, 14, &[&[1, 2]], 1),
        rung("B1B2B2B1I", 2, 24, &[&[1, 2], &[2, 1]], 2),
        rung("B1B2B1B2I", 2, 24, &[&[1, 2], &[1, 2]], 1),
    ]
}

/// Numbers that are 2 by their lowest bits, and the largest there is.
const LARGE: [usize; 7] = [130, 258, 32_770, 65_538, (1 << 32) + 2, (1 << 63) + 2, usize::MAX];

/// Each number of bells from 0 to 14, and large ones, for the empty chain and for one of two bells.
fn numbers_of_bells() -> Vec<Row> {
    let none = (0..=14).map(|bells| match bells {
        2..=12 => rung("I", bells, 24, &[], 0),
        _ => refused("I", bells, 24, "20@0"),
    });
    let two = (0..=14).map(|bells| match bells {
        2 => rung("B1B2I", bells, 24, &[&[1, 2]], 1),
        3..=12 => refused("B1B2I", bells, 24, "21@0"),
        _ => refused("B1B2I", bells, 24, "20@0"),
    });
    let large = LARGE.into_iter().flat_map(|bells| ["I", "B1B2I"].map(|term| refused(term, bells, 24, "20@0")));
    none.chain(two).chain(large).collect()
}

/// Each letter has its number, in rounds and backwards, on any number of bells that has it.
fn letters() -> Vec<Row> {
    vec![
        rung("B1B2B3I", 3, 12, &[&[1, 2, 3]], 1),
        rung("B4B3B2B1I", 4, 12, &[&[4, 3, 2, 1]], 1),
        rung("B1B2B3B4B5I", 5, 12, &[&[1, 2, 3, 4, 5]], 1),
        rung("B6B5B4B3B2B1I", 6, 12, &[&[6, 5, 4, 3, 2, 1]], 1),
        rung("B1B3B5B7B2B4B6I", 7, 12, &[&[1, 3, 5, 7, 2, 4, 6]], 1),
        rung("B8B7B6B5B4B3B2B1I", 8, 12, &[&[8, 7, 6, 5, 4, 3, 2, 1]], 1),
        rung("B1B2B3B4B5B6B7B8B9I", 9, 12, &[&[1, 2, 3, 4, 5, 6, 7, 8, 9]], 1),
        rung("B1B2B3B4B5B6B7B8B9B0I", 10, 12, &[&[1, 2, 3, 4, 5, 6, 7, 8, 9, 10]], 1),
        rung("B0B9B8B7B6B5B4B3B2B1I", 10, 12, &[&[10, 9, 8, 7, 6, 5, 4, 3, 2, 1]], 1),
        rung("B1B2B3B4B5B6B7B8B9B0BEI", 11, 12, &[&[1, 2, 3, 4, 5, 6, 7, 8, 9, 10, 11]], 1),
        rung("BEB0B9B8B7B6B5B4B3B2B1I", 11, 12, &[&[11, 10, 9, 8, 7, 6, 5, 4, 3, 2, 1]], 1),
        rung("B1B2B3B4B5B6B7B8B9B0BEBTI", 12, 12, &[&[1, 2, 3, 4, 5, 6, 7, 8, 9, 10, 11, 12]], 1),
        rung("BTBEB0B9B8B7B6B5B4B3B2B1I", 12, 12, &[&[12, 11, 10, 9, 8, 7, 6, 5, 4, 3, 2, 1]], 1),
        rung("B7BTB1B0B2BEB3B9B4B8B5B6I", 12, 12, &[&[7, 12, 1, 10, 2, 11, 3, 9, 4, 8, 5, 6]], 1),
    ]
}

/// Tables that are too small, just large enough, and larger.
fn tables() -> Vec<Row> {
    let (one, two): (&[&[u8]], &[&[u8]]) = (&[&[2, 3, 1]], &[&[2, 3, 1], &[1, 3, 2]]);
    let (first, both) = ("B2B3B1I", "B2B3B1B1B3B2I");
    vec![
        refused(first, 3, 0, "21@0"),
        refused(first, 3, 1, "21@0"),
        refused(first, 3, 3, "21@0"),
        refused(first, 3, 11, "21@0"),
        rung(first, 3, 12, one, 1),
        rung(first, 3, 13, one, 1),
        rung(first, 3, 23, one, 1),
        rung(first, 3, 24, one, 1),
        rung(first, 3, 16_385, one, 1),
        rung(first, 3, 100_000, one, 1),
        refused(both, 3, 6, "21@0"),
        refused(both, 3, 12, "21@0"),
        refused(both, 3, 23, "21@0"),
        rung(both, 3, 24, two, 2),
        rung(both, 3, 25, two, 2),
        rung(both, 3, 12_000, two, 2),
        rung(both, 3, 12_001, two, 2),
        rung("I", 12, 1, &[], 0),
        rung("I", 12, 11, &[], 0),
        rung("I", 3, 12, &[], 0),
        rung("I", 3, 20_000, &[], 0),
    ]
}

/// Terms that are no chain: the end is another, or what stands in the place of a bell or of a pair.
fn no_chains() -> Vec<Row> {
    let ends = ["J", "1", "T", "RI", "HII", "AII", "BII", "B1J", "B12", "B1B2J", "B1B22", "B1B2T"];
    let bells = ["BJI", "BJB2I", "B1BJI", "BIB2I", "B1BII", "BR1B2I", "BB1IB2I", "BB1II", "BB1B2II", "BB12I"];
    let parts = ["B.I1B2I", "B1B.I2I", "BH12I", "BA1II", "BB1B2IB1B2I", "B1BB2II", "BB1IB1B2I", "B1B2BB1II"];
    let pairs =
        ["H1I", "A1I", ".1I", "H1H2I", "A1A2I", "H1B2I", "A1B2I", ".1B2I", "B1H2I", "B1A2I", "B1.2I", "R1"];
    let others =
        [".II", ".IB1B2I", "B1B2.II", "B1.IB2I", ".B1B2II", ".B1IJ", "RB1B2I", "B1RB2I", "B1B2RI", "AIB1B2I"];
    let whole = ends.into_iter().chain(bells).chain(parts).chain(pairs).chain(others);
    whole.map(|term| refused(term, 2, 36, "20@0")).collect()
}

/// Rows with a bell twice, or with one above their number of bells; the first such has its number told.
fn bad_rows() -> Vec<Row> {
    vec![
        refused("B2B2I", 2, 24, "22@1"),
        refused("B3B1I", 2, 24, "22@1"),
        refused("B2B3I", 2, 24, "22@1"),
        refused("BTB1I", 2, 24, "22@1"),
        refused("B0BEI", 2, 24, "22@1"),
        refused("B1B2B3B4I", 2, 24, "22@2"),
        refused("B1B2B2B1B1B1I", 2, 36, "22@3"),
        refused("B1B1B2B1B1B1I", 2, 36, "22@1"),
        refused("B1B2B1B1B2B2I", 2, 36, "22@2"),
        refused("B1B1B2B2I", 2, 24, "22@1"),
        refused("B1B2B2I", 3, 12, "22@1"),
        refused("B2B1B2I", 3, 12, "22@1"),
        refused("B2B2B1I", 3, 12, "22@1"),
        refused("B1B2B4I", 3, 12, "22@1"),
        refused("B4B2B3I", 3, 12, "22@1"),
        refused("B1B4B3I", 3, 12, "22@1"),
        refused("B2B2B2B2I", 4, 12, "22@1"),
        refused("B1B1B4B4I", 4, 12, "22@1"),
        refused("B1B2B3B4B5B6B7B8B0I", 9, 12, "22@1"),
        refused("B1B2B3B4B5B6B7B8B9BEI", 10, 12, "22@1"),
        refused("B1B2B3B4B5B6B7B8B9B1I", 10, 12, "22@1"),
        refused("B1B2B3B4B5B6B7B8B9B0BTI", 11, 12, "22@1"),
        refused("B1B2B3B4B5B6B7B8B9B0BEBEI", 12, 12, "22@1"),
        refused("BTB2B3B4B5B6B7B8B9B0BEBTI", 12, 12, "22@1"),
        refused("B1B2B3B3B2B1B1B3B3I", 3, 36, "22@3"),
        refused("B1B2B3B2B2B2B1B3B2I", 3, 36, "22@2"),
    ]
}

/// Two refusals or more at once: the first in the order is given.
fn orders() -> Vec<Row> {
    vec![
        // reading's, with 20 by n, 20 by the term, 21 and 22
        refused("", 2, 24, "6@0"),
        refused("", 0, 0, "6@0"),
        refused("xI", 13, 0, "5@0"),
        refused("B1B2", 13, 0, "6@4"),
        refused("B1B2II", 0, 0, "7@5"),
        refused("I\0", 2, 24, "7@1"),
        refused("B1B2B", 2, 24, "6@5"),
        refused("B1BKI", 2, 24, "5@3"),
        refused("BJBx", 2, 24, "5@3"),
        refused("B1J1", 2, 24, "7@3"),
        refused("B1", 2, 0, "6@2"),
        refused("B1Ix", 2, 0, "7@3"),
        refused("B1B1", 2, 24, "6@4"),
        refused("B1B1x", 2, 24, "5@4"),
        refused("B1B1II", 2, 24, "7@5"),
        // 20 by n, with a term that is no chain, with 21 and with 22
        refused("J", 1, 24, "20@0"),
        refused("J", 13, 0, "20@0"),
        refused("B1I", 13, 24, "20@0"),
        refused("B1B2I", 0, 0, "20@0"),
        refused("B1B2I", 1, 0, "20@0"),
        refused("B1B1I", 1, 24, "20@0"),
        refused("B1B1I", 0, 24, "20@0"),
        refused("B1B1I", 13, 24, "20@0"),
        // 20 by the term, with 21 and with 22
        refused("B1J", 2, 0, "20@0"),
        refused("B1B2J", 2, 11, "20@0"),
        refused("B1B2B1J", 2, 24, "20@0"),
        refused("B1B1J", 2, 24, "20@0"),
        refused("B1B3B2BJI", 2, 36, "20@0"),
        // 21, with 22
        refused("B1B1B1I", 2, 24, "21@0"),
        refused("B1B1I", 2, 11, "21@0"),
        refused("B1B1I", 2, 0, "21@0"),
        refused("B3I", 2, 24, "21@0"),
        refused("B1B1B2B1I", 2, 23, "21@0"),
        refused("B1B2B3B3B4I", 4, 24, "21@0"),
    ]
}

/// Rows by their numbers among those of twelve bells, in a table of their own size, so many of them different.
fn numbered(name: &str, numbers: impl IntoIterator<Item = usize>, different: usize) -> Row {
    let after: Vec<chains::Row> = numbers.into_iter().map(|number| row_at(12, number)).collect();
    whole(name, after, PLACES, different)
}

/// A piece of rows in a table of so many bytes for each.
fn whole(name: &str, after: Vec<chains::Row>, bytes: usize, different: usize) -> Row {
    let (term, bells, table) = (piece(&after), after[0].len(), bytes * after.len());
    let name = format!("{name}: {} rows of {bells} in {table}, {different} different", after.len());
    Row { name, term, bells, table, reply: format!("rung {}", after.len()), different, after }
}

/// Rounds on so many bells and the row with two places exchanged, rounds twice.
fn exchanged(bells: usize, one: usize, two: usize) -> Row {
    let (first, other) = (rounds(bells), swapped(&rounds(bells), one, two));
    let name = format!("places {} and {} exchanged", one + 1, two + 1);
    whole(&name, vec![first.clone(), other, first], PLACES, 2)
}

/// Rows that come again, next to each other and apart, and rows that are nearly the same.
fn repeats() -> Vec<Row> {
    let [a, b, c]: [&[u8]; 3] = [&[1, 2, 3], &[1, 3, 2], &[3, 2, 1]];
    vec![
        rung("B1B2B3B1B3B2B1B2B3I", 3, 36, &[a, b, a], 2),
        rung("B1B2B3B1B2B3B1B3B2I", 3, 36, &[a, a, b], 2),
        rung("B1B2B3B1B3B2B1B3B2I", 3, 36, &[a, b, b], 2),
        rung("B1B2B3B1B2B3B1B2B3I", 3, 36, &[a, a, a], 1),
        rung("B1B2B3B1B3B2B3B2B1I", 3, 36, &[a, b, c], 3),
        rung("B1B2B3B1B3B2B3B2B1B1B2B3I", 3, 48, &[a, b, c, a], 3),
        rung("B1B3B2B1B2B3B1B3B2B1B2B3I", 3, 48, &[b, a, b, a], 2),
        rung("B3B2B1B1B3B2B1B3B2B3B2B1I", 3, 48, &[c, b, b, c], 2),
        exchanged(2, 0, 1),
        exchanged(3, 1, 2),
        exchanged(3, 0, 2),
        exchanged(5, 3, 4),
        exchanged(12, 10, 11),
        exchanged(12, 0, 1),
        exchanged(12, 0, 11),
        exchanged(12, 5, 6),
    ]
}

/// As many rows as there may be, or nearly so.
fn many_rows() -> Vec<Row> {
    let two = |number: usize| row_at(2, number % 2);
    vec![
        numbered("all different", 0..1_000, 1_000),
        numbered("all different, far apart", (0..1_000).map(|number| 479_001 * number), 1_000),
        numbered("all equal", [0; 1_000], 1),
        numbered("each twice, apart", (0..500).chain(0..500), 500),
        numbered("each twice, side by side", (0..1_000).map(|number| number / 2), 500),
        numbered("the first again at the end", (0..999).chain([0]), 999),
        numbered("the last two equal", (0..999).chain([998]), 999),
        numbered("all different", 0..256, 256),
        numbered("all different", 0..999, 999),
        whole("two in turn", (0..1_000).map(two).collect(), PLACES, 2),
        whole("two in turn, in a larger table", (0..1_000).map(two).collect(), 20, 2),
        whole("each of four bells once", (0..24).map(|number| row_at(4, number)).collect(), PLACES, 24),
        whole("each of six bells once", (0..720).map(|number| row_at(6, number)).collect(), PLACES, 720),
        whole("rounds alone", vec![rounds(7); 1_000], PLACES, 1),
    ]
}

/// Rounds on so many bells again and again; these of them have their first bell twice.
fn refused_rows(bells: usize, count: usize, bad: &[usize], table: usize, reply: &str) -> Row {
    let mut all = vec![rounds(bells); count];
    bad.iter().for_each(|&number| all[number - 1][1] = 1);
    let name = format!("{count} rows of {bells} in {table}, bad {bad:?}, are {reply}");
    Row { name, term: piece(&all), bells, table, reply: reply.into(), different: 0, after: vec![] }
}

/// More than 1,000 rows, or more than the table has room for; or a bad one among 1,000.
fn too_many_rows() -> Vec<Row> {
    let odd = |pairs| {
        let term = [repeated("B1B2", pairs), b"B1I".to_vec()].concat();
        let name = format!("{} bells as rows of 2 in 30000 are 21@0", 2 * pairs + 1);
        Row { name, term, bells: 2, table: 30_000, reply: "21@0".into(), different: 0, after: vec![] }
    };
    vec![
        refused_rows(2, 1_001, &[], 20_000, "21@0"),
        refused_rows(12, 1_001, &[], 12_012, "21@0"),
        refused_rows(12, 1_001, &[1], 12_012, "21@0"),
        refused_rows(12, 1_001, &[1_001], 12_012, "21@0"),
        refused_rows(3, 1_001, &[500], 100_000, "21@0"),
        refused_rows(2, 1_024, &[], 20_000, "21@0"),
        refused_rows(2, 65_537, &[], 900_000, "21@0"),
        refused_rows(12, 1_000, &[], 11_999, "21@0"),
        refused_rows(12, 1_000, &[], 11_988, "21@0"),
        refused_rows(12, 1_000, &[1], 11_999, "21@0"),
        refused_rows(2, 1_000, &[], 2_000, "21@0"),
        refused_rows(12, 1_000, &[1], 12_000, "22@1"),
        refused_rows(12, 1_000, &[2], 12_000, "22@2"),
        refused_rows(12, 1_000, &[500], 12_000, "22@500"),
        refused_rows(12, 1_000, &[1_000], 12_000, "22@1000"),
        refused_rows(2, 1_000, &[999], 12_005, "22@999"),
        refused_rows(5, 1_000, &[257, 700, 1_000], 12_000, "22@257"),
        refused_rows(5, 1_000, &[1, 500, 1_000], 12_000, "22@1"),
        odd(1_000),
        odd(500),
    ]
}
