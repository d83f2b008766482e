//! The program sweep: standard input, and the one line printed.

use super::programs::{row, Row};
use super::small_lines::refused_rows;

/// How many terms there are of each size, from 1 on, without bells: one letter takes a term and four take two.
pub const TERMS: [u64; 7] = [2, 2, 18, 50, 354, 1_442, 9_202];

/// Every row of sweep.
pub fn sweep_rows() -> Vec<Row> {
    let rows = [small(), of_size_5_and_6(), of_size_7(), limits(), refused_rows()];
    rows.into_iter().flatten().collect()
}

/// An application of two letters makes one step, so does one of a letter and an `R` with its letter, and so does an
/// `R` before an application of two letters; all other terms of up to four letters are normal.
fn small() -> Vec<Row> {
    vec![
        row("1\t0\t1\n", "1\t2\t0\t0\t0\t0\t0"),
        row("1\t10\t20\n", "1\t2\t0\t0\t0\t0\t0"),
        row("2\t0\t2\n", "2\t2\t0\t0\t0\t0\t0"),
        row("2\t10\t20\n", "2\t2\t0\t0\t0\t0\t0"),
        row("3\t10\t20\n", "3\t18\t0\t0\t4\t0\t4"),
        row("3\t1\t3\n", "3\t18\t0\t0\t4\t0\t4"),
        row("3\t0\t3\n", "3\t14\t4\t0\t0\t0\t0"),
        row("4\t10\t20\n", "4\t50\t0\t0\t12\t0\t12"),
        row("4\t1\t4\n", "4\t50\t0\t0\t12\t0\t12"),
        row("4\t0\t4\n", "4\t38\t12\t0\t0\t0\t0"),
    ]
}

/// Of size 5 make 112 terms one step and 24 two; of size 6 make 480 one, 112 two, and `.As` before `RJ` or `RI` and a
/// letter, of which there are 8, three. No step makes a term of up to six letters larger.
fn of_size_5_and_6() -> Vec<Row> {
    vec![
        row("5\t0\t5\n", "5\t218\t136\t0\t0\t0\t0"),
        row("5\t1\t5\n", "5\t330\t24\t0\t112\t0\t112"),
        row("5\t2\t5\n", "5\t354\t0\t0\t160\t0\t160"),
        row("6\t0\t6\n", "6\t842\t600\t0\t0\t0\t0"),
        row("6\t1\t6\n", "6\t1322\t120\t0\t480\t0\t480"),
        row("6\t2\t6\n", "6\t1434\t8\t0\t704\t0\t704"),
        row("6\t3\t6\n", "6\t1442\t0\t0\t728\t0\t728"),
    ]
}

/// Of size 7 make 3,284 terms one step, 1,152 two, 200 three, 32 four, 24 five and 8 six. A pair of two letters before
/// an `H` or a `B` of two letters wants 11 bytes for its step: at once in 32 terms (16 of four steps, 16 of three),
/// behind one step in 40 (`.Bus.Jt`, `.AsHrtu`, `.AsBrtu`), and behind two in 8 (`.As.Jtu`).
fn of_size_7() -> Vec<Row> {
    vec![
        row("7\t6\t16384\n", "7\t9202\t0\t0\t6484\t0\t6484"),
        row("7\t5\t16384\n", "7\t9194\t8\t0\t6436\t0\t6436"),
        row("7\t6\t11\n", "7\t9202\t0\t0\t6484\t0\t6484"),
        row("7\t5\t11\n", "7\t9194\t8\t0\t6436\t0\t6436"),
        row("7\t4\t11\n", "7\t9170\t32\t0\t6316\t0\t6316"),
        row("7\t3\t11\n", "7\t9138\t64\t0\t6188\t0\t6188"),
        row("7\t2\t11\n", "7\t8938\t264\t0\t5588\t0\t5588"),
        row("7\t1\t11\n", "7\t7786\t1416\t0\t3284\t0\t3284"),
        row("7\t10\t10\n", "7\t9122\t0\t80\t6140\t0\t6140"),
        row("7\t10\t7\n", "7\t9122\t0\t80\t6140\t0\t6140"),
        row("7\t3\t7\n", "7\t9122\t0\t80\t6140\t0\t6140"),
        row("7\t2\t8\n", "7\t8938\t192\t72\t5588\t0\t5588"),
        row("7\t1\t7\n", "7\t7786\t1384\t32\t3284\t0\t3284"),
        row("7\t0\t7\n", "7\t4502\t4700\t0\t0\t0\t0"),
    ]
}

/// Each size with the most fuel in the largest area, and numbers that are 3 in 8 or 16 bits.
fn limits() -> Vec<Row> {
    let steps = [0, 0, 4, 12, 160, 728, 6_484];
    let of_size = |((n, all), steps): ((usize, u64), u64)| {
        row(&format!("{n}\t1000000\t16384\n"), &format!("{n}\t{all}\t0\t0\t{steps}\t0\t{steps}"))
    };
    let others = ["3\t10\t259\n", "3\t259\t20\n", "3\t65539\t20\n"];
    let others = others.map(|input| row(input, "3\t18\t0\t0\t4\t0\t4"));
    (1..).zip(TERMS).zip(steps).map(of_size).chain(others).collect()
}
