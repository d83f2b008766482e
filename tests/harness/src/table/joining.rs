//! Joining: two texts and an area; the reply and the join that stands in the area afterwards.

use crate::terms::{index, joined, repeated};

pub struct Row {
    pub name: String,
    pub f: Vec<u8>,
    pub g: Vec<u8>,
    pub area: usize,
    /// `number@place` or `joined`.
    pub reply: &'static str,
    /// The join; not looked at after a refusal.
    pub after: Vec<u8>,
}

fn row(f: &str, g: &str, area: usize, after: &str) -> Row {
    let name = format!("{f} and {g} in {area} are {after}");
    Row { name, f: f.into(), g: g.into(), area, reply: "joined", after: after.into() }
}

fn refused(f: &str, g: &str, area: usize, reply: &'static str) -> Row {
    let name = format!("{} and {} in {area} are {reply}", f.escape_debug(), g.escape_debug());
    Row { name, f: f.into(), g: g.into(), area, reply, after: vec![] }
}

pub fn rows() -> Vec<Row> {
    [edges(), rooms(), letters(), unreadable(), first_of_two(), large()].into_iter().flatten().collect()
}

/// The rows of the requirements.
fn edges() -> Vec<Row> {
    vec![
        refused("I", "I", 13, "31@0"),
        row("I", "I", 14, "ABIBIIHRJHRRJJ"),
        row("1", "2", 16, "AB1B2IHRJHRRJJ"),
        refused("Jx", "xJ", 0, "7@1"),
        refused("J", "xJ", 0, "5@0"),
        refused("J", "", 64, "6@0"),
        refused("J", "J", 0, "31@0"),
    ]
}

/// Areas that are too small, just large enough, and larger.
fn rooms() -> Vec<Row> {
    let (f, g, both) = ("RJ", "HJI", "ABRJBHJIIHRJHRRJJ");
    vec![
        refused(f, g, 0, "31@0"),
        refused(f, g, 1, "31@0"),
        refused(f, g, 5, "31@0"),
        refused(f, g, 12, "31@0"),
        refused(f, g, 15, "31@0"),
        refused(f, g, 16, "31@0"),
        row(f, g, 17, both),
        row(f, g, 18, both),
        row(f, g, 19, both),
        row(f, g, 64, both),
        row(f, g, 300, both),
        row(f, g, 16_384, both),
        row(f, g, 16_385, both),
        row(f, g, 100_000, both),
        row(g, f, 17, "ABHJIBRJIHRJHRRJJ"),
        refused(g, f, 16, "31@0"),
        refused("1", "2", 13, "31@0"),
        row("1", "2", 14, "AB1B2IHRJHRRJJ"),
        row("1", "2", 15, "AB1B2IHRJHRRJJ"),
        row("2", "1", 14, "AB2B1IHRJHRRJJ"),
        row("J", "I", 14, "ABJBIIHRJHRRJJ"),
        row("I", "J", 14, "ABIBJIHRJHRRJJ"),
    ]
}

/// Terms with every letter, with steps to make, and joins of joins: nothing is reduced.
fn letters() -> Vec<Row> {
    let (bells, others) = ("H1H2H3H4H5H6H7H8H9H0HET", "AIBJR.II");
    vec![
        row(bells, others, 43, "ABH1H2H3H4H5H6H7H8H9H0HETBAIBJR.IIIHRJHRRJJ"),
        row(others, bells, 43, "ABAIBJR.IIBH1H2H3H4H5H6H7H8H9H0HETIHRJHRRJJ"),
        refused(bells, others, 42, "31@0"),
        row(".II", ".BII.JRJ", 25, "AB.IIB.BII.JRJIHRJHRRJJ"),
        row(".BII.JRJ", "I", 21, "AB.BII.JRJBIIHRJHRRJJ"),
        row("AIJ", "AIHJJ", 20, "ABAIJBAIHJJIHRJHRRJJ"),
        row(".AIHJJAIHJJ", ".AIHJJAIHJJ", 40, "AB.AIHJJAIHJJB.AIHJJAIHJJIHRJHRRJJ"),
        row("AB1B2IHRJHRRJJ", "3", 27, "ABAB1B2IHRJHRRJJB3IHRJHRRJJ"),
        row("1", "AB2B3IHRJHRRJJ", 27, "AB1BAB2B3IHRJHRRJJIHRJHRRJJ"),
        row("E", "T", 14, "ABEBTIHRJHRRJJ"),
        row("0", "0", 14, "AB0B0IHRJHRRJJ"),
        row("R9", "RR8", 17, "ABR9BRR8IHRJHRRJJ"),
    ]
}

/// One text that cannot be read, with as much room as there may be, and with none.
fn unreadable() -> Vec<Row> {
    vec![
        refused("Jx", "J", 64, "7@1"),
        refused("xJ", "J", 64, "5@0"),
        refused("HxJJ", "J", 64, "5@1"),
        refused("HJ", "J", 64, "6@2"),
        refused("R.", "J", 64, "6@2"),
        refused("", "J", 64, "6@0"),
        refused("JJ", "J", 64, "7@1"),
        refused("J\0", "J", 64, "7@1"),
        refused("HJJ\0", "J", 64, "7@3"),
        refused("J1", "J", 64, "7@1"),
        refused("K", "J", 64, "5@0"),
        refused("J", "Jx", 64, "7@1"),
        refused("J", "HxJJ", 64, "5@1"),
        refused("J", "HJ", 64, "6@2"),
        refused("J", "R.", 64, "6@2"),
        refused("J", "JJ", 64, "7@1"),
        refused("J", "HJJ\0", 64, "7@3"),
        refused("HHJJJ", "K", 64, "5@0"),
        refused("HHJJJ", "Rx", 64, "5@1"),
        refused("HHJJJ", ".1", 64, "6@2"),
        refused("", "J", 0, "6@0"),
        refused("J", "", 0, "6@0"),
        refused("HJ", "J", 0, "6@2"),
        refused("J", "HJ", 13, "6@2"),
        refused("J", "JJ", 14, "7@1"),
        refused("J", "Rx", 14, "5@1"),
    ]
}

/// Both texts cannot be read: the reply is that of `f`.
fn first_of_two() -> Vec<Row> {
    vec![
        refused("", "", 0, "6@0"),
        refused("", "xJ", 64, "6@0"),
        refused("xJ", "", 64, "5@0"),
        refused("xJ", "JJ", 64, "5@0"),
        refused("JJ", "xJ", 64, "7@1"),
        refused("HJ", "RRx", 64, "6@2"),
        refused("RRx", "HJ", 64, "5@2"),
        refused("RRx", "HJ", 0, "5@2"),
        refused("RRJ1", "R", 1, "7@3"),
        refused("R", "RRJ1", 1, "6@1"),
    ]
}

/// The join of two long texts in an area that is so much larger.
fn long(name: &str, f: Vec<u8>, g: Vec<u8>, more: usize) -> Row {
    let after = joined(&[b"AB", &f, b"B", &g, b"IHRJHRRJJ"]);
    let name = format!("{name}, {} letters, {more} bytes behind them", after.len());
    Row { name, f, g, area: after.len() + more, reply: "joined", after }
}

/// The same in an area that is one byte short.
fn long_refused(name: &str, f: Vec<u8>, g: Vec<u8>) -> Row {
    let area = f.len() + g.len() + 11;
    Row { name: format!("{name}, in {area}"), f, g, area, reply: "31@0", after: vec![] }
}

/// Terms and joins of more letters than a term area may have bytes.
fn large() -> Vec<Row> {
    let right = joined(&[&repeated("HJ", 10_000), b"T"]);
    let left = joined(&[&repeated("B", 9_000), &repeated("1", 9_001)]);
    vec![
        long("R^16370 J and J", index(16_370), b"J".to_vec(), 0),
        long("R^16371 J and J", index(16_371), b"J".to_vec(), 0),
        long("J and R^16371 J", b"J".to_vec(), index(16_371), 3),
        long("R^16383 J and R^16383 J", index(16_383), index(16_383), 1),
        long("R^16384 J and R^20000 J", index(16_384), index(20_000), 0),
        long("(HJ)^10000 T and B^9000 1^9001", right.clone(), left.clone(), 0),
        long("B^9000 1^9001 and (HJ)^10000 T", left.clone(), right.clone(), 2_000),
        long("J and R^70000 J", b"J".to_vec(), index(70_000), 70_000),
        long("R^65523 J and J", index(65_523), b"J".to_vec(), 1),
        long_refused("R^16371 J and J", index(16_371), b"J".to_vec()),
        long_refused("J and R^16371 J", b"J".to_vec(), index(16_371)),
        long_refused("R^16383 J and R^16383 J", index(16_383), index(16_383)),
        long_refused("B^9000 1^9001 and (HJ)^10000 T", left, right),
        long_refused("R^65523 J and J", index(65_523), b"J".to_vec()),
    ]
}

/// Terms that are joined with themselves, with the area's size, the reply and the join.
pub fn one_buffer() -> Vec<Row> {
    let twice = |text: &str, area, after: &str| row(text, text, area, after);
    let refused_twice = |text: &str, area, reply| refused(text, text, area, reply);
    vec![
        twice("I", 14, "ABIBIIHRJHRRJJ"),
        twice("I", 20, "ABIBIIHRJHRRJJ"),
        refused_twice("I", 13, "31@0"),
        twice("RJ", 16, "ABRJBRJIHRJHRRJJ"),
        twice(".BII.JRJ", 28, "AB.BII.JRJB.BII.JRJIHRJHRRJJ"),
        refused_twice(".BII.JRJ", 27, "31@0"),
        refused_twice("", 64, "6@0"),
        refused_twice("Jx", 64, "7@1"),
        refused_twice("xJ", 64, "5@0"),
        refused_twice("HJ", 0, "6@2"),
        long("R^20000 J twice", index(20_000), index(20_000), 5),
        long_refused("R^20000 J twice", index(20_000), index(20_000)),
    ]
}

/// A join applied to a bell: its run by rules, and its result.
pub struct Run {
    pub term: &'static str,
    pub rules: &'static [u8],
    pub after: &'static str,
}

/// The runs of the requirements.
pub const RUNS: [Run; 3] = [
    Run { term: ".AB1B2IHRJHRRJJ3", rules: &[4, 8, 7, 6, 12, 8, 7, 7, 6, 12, 6], after: "H1H23" },
    Run {
        term: ".ABAB1B2IHRJHRRJJB3IHRJHRRJJ4",
        rules: &[4, 8, 7, 6, 4, 8, 7, 6, 12, 8, 7, 7, 6, 12, 6, 8, 7, 7, 6, 12, 6],
        after: "H1H2H34",
    },
    Run {
        term: ".AB1BAB2B3IHRJHRRJJIHRJHRRJJ4",
        rules: &[4, 8, 7, 6, 12, 8, 7, 7, 6, 4, 8, 7, 6, 12, 8, 7, 7, 6, 12, 6, 6],
        after: "H1H2H34",
    },
];
