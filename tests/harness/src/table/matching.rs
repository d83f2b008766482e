//! Matching: two files; `match`, `no match` or `number@line`.

use super::checking::{file, I, J, K};
use crate::terms::repeated;

pub struct Row {
    pub name: &'static str,
    pub files: [Vec<u8>; 2],
    pub reply: &'static str,
}

fn row(name: &'static str, first: &[&str], second: &[&str], reply: &'static str) -> Row {
    Row { name, files: [file(first), file(second)], reply }
}

fn raw(name: &'static str, first: &[u8], second: &[u8], reply: &'static str) -> Row {
    Row { name, files: [first.to_vec(), second.to_vec()], reply }
}

const OPEN_I: &str = "*a1 I 1 I - -";

pub fn rows() -> Vec<Row> {
    [matches(), bells(), refusals()].into_iter().flatten().collect()
}

fn matches() -> Vec<Row> {
    let looked_up = [OPEN_I, J, "*a1 BJI *a1 B 2 1", "*a1 .BJIJ a s 3 2"];
    vec![
        row("the same file", &[I], &[I], "match"),
        row("claims on different terms", &[J], &looked_up, "match"),
        row("claims that differ in the term alone", &[I, "1 .II 1 s 1 1"], &[I], "match"),
        row("different contexts", &[I], &[OPEN_I], "no match"),
        row("different types", &[J], &[OPEN_I], "no match"),
        row("different atoms", &[J], &["*c1 J c J - -"], "no match"),
        row("only the last lines count", &[J, I], &[OPEN_I, I], "match"),
        row("first lines equal, last lines not", &[J, I], &[J], "no match"),
        row("a longer type", &["*>aa1 J >aa J - -"], &["*>ab1 J >ab J - -"], "no match"),
        row("a context one entry longer", &["*a1 J a J - -"], &["*a*a1 J a J - -"], "no match"),
    ]
}

/// Claims of the type that bells have.
fn bells() -> Vec<Row> {
    let (in_b, index) = ("*b1 T b K - -", "*b1 J b J - -");
    let looked_up = [K, I, "1 B1I *b1 B 1 2", in_b, "1 .B1IT b s 3 4"];
    vec![
        row("one bell", &[K], &[K], "match"),
        row("two bells", &[K], &["1 T b K - -"], "match"),
        row("a bell and a term that becomes one", &[K], &looked_up, "match"),
        row("a bell and an index", &[in_b], &[index], "match"),
        row("a bell in two contexts", &[K], &[in_b], "no match"),
        row("a bell and an index of another atom", &["*a1 1 b K - -"], &[J], "no match"),
        row("a bell and an identity", &[K], &[I], "no match"),
        row("first a bell of another atom", &["1 1 a K - -"], &[K], "18@1"),
        row("second a bell with a premise", &[K], &[K, "1 1 b K 1 -"], "17@2"),
    ]
}

fn refusals() -> Vec<Row> {
    let good = file(&[I]);
    let over = repeated("\n", 65_537);
    let lines = repeated("\n", 1_025);
    vec![
        raw("first empty", b"", &good, "11@0"),
        raw("second empty", &good, b"", "11@0"),
        raw("first too large, second empty", &over, b"", "10@0"),
        raw("first empty, second too large", b"", &over, "11@0"),
        raw("second too large", &good, &over, "10@0"),
        raw("first without its last line feed, second empty", b"x", b"", "12@0"),
        raw("second without its last line feed", &good, b"x", "12@0"),
        raw("first of 1,025 lines", &lines, &good, "13@0"),
        raw("second of 1,025 lines", &good, &lines, "13@0"),
        row("first bad on line 2, second on line 1", &[I, "1 J a J - -"], &["x"], "18@2"),
        row("second bad on line 2", &[I], &[I, "1 J a J - -"], "18@2"),
        row("second with an unknown rule", &[I], &["1 I 1 x - -"], "16@1"),
        row("first with a bad premise", &["1 I 1 I 1 -"], &[I], "17@1"),
        row("first with a bad field", &["x I 1 I - -"], &["x"], "15@1"),
        row("second with five fields", &[J], &["x"], "14@1"),
    ]
}
