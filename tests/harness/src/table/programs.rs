//! Three of the six programs: standard input, and the one line printed or, by rule_mix, the fourteen.

use super::checking::{file, I, J, K};
use super::counting::all_different;
use crate::terms::{index, repeated};

pub struct Row {
    pub name: String,
    pub input: Vec<u8>,
    /// The printed lines, without the last line feed.
    pub printed: Vec<u8>,
}

pub(super) fn row(input: &str, printed: &str) -> Row {
    let name = format!("{} prints {}", input.escape_debug(), printed.escape_debug());
    Row { name, input: input.as_bytes().to_vec(), printed: printed.into() }
}

pub(super) fn named(name: &str, input: Vec<u8>, printed: &str) -> Row {
    Row { name: name.to_string(), input, printed: printed.into() }
}

const SHAPE: &str = "refused\t19\t0";

/// Every row of the finishing program.
pub fn finish_rows() -> Vec<Row> {
    [outcomes(), bells(), shapes(), numbers(), refusals(), long_inputs()].into_iter().flatten().collect()
}

fn outcomes() -> Vec<Row> {
    vec![
        row("6\t12\t.BII.JRJ\n", "finished\t6\tJ"),
        row("5\t12\t.BII.JRJ\n", "spent\t5\t.IJ"),
        row("6\t11\t.BII.JRJ\n", "no room\t1\t.BIIHJRJ"),
        row("1\t11\t.BII.JRJ\n", "spent\t1\t.BIIHJRJ"),
        row("0\t11\t.BII.JRJ\n", "spent\t0\t.BII.JRJ"),
        row("0\t1\tJ\n", "finished\t0\tJ"),
        row("1000000\t16384\tJ\n", "finished\t0\tJ"),
        row("9\t30\t.BIIABJIRJ\n", "finished\t4\tABIIRJ"),
        row("9\t30\t.B.AIHJJAIHJJI.II\n", "finished\t2\tI"),
        row("11\t24\t.AB1B2IHRJHRRJJ3\n", "finished\t11\tH1H23"),
        row("11\t23\t.AB1B2IHRJHRRJJ3\n", "no room\t1\t.B3B1B2IHRJHRRJJ"),
    ]
}

/// Terms with bells; a bell stands where a number does not, and a number where no bell does.
fn bells() -> Vec<Row> {
    vec![
        row("0\t1\t1\n", "finished\t0\t1"),
        row("1\t1\t1\n", "finished\t0\t1"),
        row("6\t12\t0\n", "finished\t0\t0"),
        row("6\t12\tE\n", "finished\t0\tE"),
        row("6\t12\tT\n", "finished\t0\tT"),
        row("6\t12\t.1J\n", "finished\t1\tH1J"),
        row("0\t12\t.1J\n", "spent\t0\t.1J"),
        row("6\t12\t.BJI1\n", "finished\t1\t1"),
        row("6\t12\t.AI1J\n", "finished\t2\t1"),
        row("1\t12\t.AI1J\n", "spent\t1\t.BJI1"),
        row("6\t11\t.BJI.1T\n", "finished\t5\tH1T"),
        row("6\t10\t.BJI.1T\n", "no room\t1\t.BJIH1T"),
        row("99\t99\t.B1B2B3IBRRJBRJBJI\n", "finished\t10\tB3B2B1I"),
        row("12\t12\t12\n", "refused\t7\t1"),
        row("6\t12\tJ1\n", "refused\t7\t1"),
        row("6\t12\tK\n", "refused\t5\t0"),
        row("6\t12\t.1:\n", "refused\t5\t2"),
        row("6\t12\tH1\n", "refused\t6\t2"),
        row("6\t1\t12\n", "refused\t3\t0"),
        row("E\t12\tJ\n", SHAPE),
        row("6\tT\tJ\n", SHAPE),
        row("6\t12\t1\t1\n", SHAPE),
        row("1\t1\n", SHAPE),
    ]
}

/// 19: exactly one line `fuel TAB size TAB term LF`, and nothing after it.
fn shapes() -> Vec<Row> {
    vec![
        row("", SHAPE),
        row("\n", SHAPE),
        row("6\t12\tJ", SHAPE),
        row("6\t12\tJ\n\n", SHAPE),
        row("6\t12\tJ\nx", SHAPE),
        row("6\t12\tJ\n6\t12\tJ\n", SHAPE),
        row("\n6\t12\tJ\n", SHAPE),
        row("6\t12\tJ\t\n", SHAPE),
        row("6\t12\tJ\tJ\n", SHAPE),
        row("6\t12\n", SHAPE),
        row("6\n", SHAPE),
        row("6\t12\n\tJ\n", SHAPE),
        row("\t\t\n", SHAPE),
        row("\t12\tJ\n", SHAPE),
        row("6\t\tJ\n", SHAPE),
        row("6 12 J\n", SHAPE),
        row("6\t12\tJ\n\0", SHAPE),
        row("\t", SHAPE),
        row("\0", SHAPE),
        row("6", SHAPE),
        row("6\t", SHAPE),
        row("6\t12", SHAPE),
        row("6\t12\t", SHAPE),
        row("6\t12\t\n", "refused\t6\t0"),
    ]
}

fn numbers() -> Vec<Row> {
    vec![
        row("06\t12\tJ\n", SHAPE),
        row("00\t12\tJ\n", SHAPE),
        row("+6\t12\tJ\n", SHAPE),
        row("-6\t12\tJ\n", SHAPE),
        row("6 \t12\tJ\n", SHAPE),
        row(" 6\t12\tJ\n", SHAPE),
        row("6x\t12\tJ\n", SHAPE),
        row("/\t12\tJ\n", SHAPE),
        row(":\t12\tJ\n", SHAPE),
        row("6\0\t12\tJ\n", SHAPE),
        row("6\t012\tJ\n", SHAPE),
        row("6\t+12\tJ\n", SHAPE),
        row("6\t12 \tJ\n", SHAPE),
        row("6\t1x\tJ\n", SHAPE),
        row("6\t0\tJ\n", SHAPE),
        row("6\t0\t\n", SHAPE),
        row("6\t16385\tJ\n", SHAPE),
        row("6\t16384\tJ\n", "finished\t0\tJ"),
        row("6\t1\tJ\n", "finished\t0\tJ"),
        row("6\t65537\tJ\n", SHAPE),
        row("6\t4294967297\tJ\n", SHAPE),
        row("6\t18446744073709551617\tJ\n", SHAPE),
        row("6\t1111111111111111111111111111111111111111\tJ\n", SHAPE),
        row("6\t0000000000000000000000000000000000000001\tJ\n", SHAPE),
        row("1111111111111111111111111111111111111111\t0\tJ\n", SHAPE),
        row("2000000\t16385\tJ\n", SHAPE),
        row("1111111111111111111111111111111111111111\t12\tJ\n", "refused\t4\t0"),
        row("1111111111111111111111111111111111111111\t2\tRRJ\n", "refused\t3\t0"),
        row("1111111111111111111111111111111111111111\t2\tx\n", "refused\t4\t0"),
        row("0111111111111111111111111111111111111111\t12\tJ\n", SHAPE),
        row("4294967297\t12\tJ\n", "refused\t4\t0"),
        row("18446744073709551616\t12\tJ\n", "refused\t4\t0"),
        row("18446744073709551617\t12\tJ\n", "refused\t4\t0"),
        row("1000001\t12\tJ\n", "refused\t4\t0"),
        row("1000000\t12\tJ\n", "finished\t0\tJ"),
        row("2000000\t12\t\n", "refused\t4\t0"),
    ]
}

fn refusals() -> Vec<Row> {
    vec![
        row("6\t12\tJ\r\n", "refused\t7\t1"),
        row("6\t12\t\0\n", "refused\t5\t0"),
        row("6\t12\t\0J\n", "refused\t5\t0"),
        row("6\t12\tJ\0\n", "refused\t7\t1"),
        row("6\t12\tHJ\n", "refused\t6\t2"),
        row("6\t12\tJJ\n", "refused\t7\t1"),
        row("6\t12\tHxJJ\n", "refused\t5\t1"),
        row("6\t12\t J\n", "refused\t5\t0"),
        row("6\t2\tRRJ\n", "refused\t3\t0"),
        row("6\t2\tRxx\n", "refused\t3\t0"),
        row("6\t3\tRRJ\n", "finished\t0\tRRJ"),
        row("1000001\t2\tRRJ\n", "refused\t3\t0"),
    ]
}

fn line(start: &str, term: Vec<u8>, end: &str) -> Vec<u8> {
    [start.as_bytes(), &term, end.as_bytes()].concat()
}

/// Input has no limit.
fn long_inputs() -> Vec<Row> {
    let million = || repeated("J", 1_000_000);
    let near_end = || [repeated("J", 999_990), b"\t".to_vec(), repeated("J", 9)].concat();
    let digits = |digit: &str| repeated(digit, 1_000_000);
    vec![
        named("a million J, size 5", line("6\t5\t", million(), "\n"), "refused\t3\t0"),
        named("a million J without a line feed", line("6\t5\t", million(), ""), SHAPE),
        named("a million J with a tab near its end", line("6\t5\t", near_end(), "\n"), SHAPE),
        named("a million J and a second line", line("6\t5\t", million(), "\n6\t5\tJ\n"), SHAPE),
        named("a million J, fuel too large", line("1000001\t5\t", million(), "\n"), "refused\t3\t0"),
        named("a million J, size out of range", line("6\t16385\t", million(), "\n"), SHAPE),
        named("a million J, fuel with a leading zero", line("06\t5\t", million(), "\n"), SHAPE),
        named("a million NUL", line("6\t5\t", repeated("\0", 1_000_000), "\n"), "refused\t3\t0"),
        named("a fuel of a million digits", line("", digits("7"), "\t12\tJ\n"), "refused\t4\t0"),
        named("a fuel of a million digits, last x", line("", digits("7"), "x\t12\tJ\n"), SHAPE),
        named("a size of a million digits", line("6\t", digits("1"), "\tJ\n"), SHAPE),
        named("a size of a million zeros", line("6\t", digits("0"), "\tJ\n"), SHAPE),
        named("a million line feeds", repeated("\n", 1_000_000), SHAPE),
        named("a million tabs", line("", repeated("\t", 1_000_000), "\n"), SHAPE),
        named("16,385 letters", line("6\t16384\t", index(16_384), "\n"), "refused\t3\t0"),
        whole_area("16,384 letters", index(16_383), 0, index(16_383)),
        whole_area("16,384 letters, an index in a pair", line(".B", index(16_379), "IJ"), 1, index(16_379)),
        whole_area("16,384 letters, an index under a full stop", line(".I", index(16_381), ""), 1, index(16_381)),
        whole_area(
            "16,384 letters, the last a bell",
            line("", repeated("R", 16_383), "0"),
            0,
            line("", repeated("R", 16_383), "0"),
        ),
        whole_area("16,384 letters, a pair before a bell", line(".B", index(16_379), "IT"), 1, b"T".to_vec()),
        whole_area(
            "16,383 letters, 8,191 bells",
            line("", repeated(".1", 8_191), "E"),
            8_191,
            line("", repeated("H1", 8_191), "E"),
        ),
        whole_area("16,383 letters, 8,191 identities", line("", repeated(".I", 8_191), "J"), 8_191, index(0)),
    ]
}

/// A term in the largest area that finishes; the deepest stack is used where an index stands under a full stop.
fn whole_area(name: &str, term: Vec<u8>, steps: usize, result: Vec<u8>) -> Row {
    let input = line("1000000\t16384\t", term, "\n");
    Row { name: name.to_string(), input, printed: line(&format!("finished\t{steps}\t"), result, "") }
}

/// Every row of rule_mix; what the finishing program refuses it refuses too, in the same words.
pub fn mix_rows() -> Vec<Row> {
    let refused = finish_rows().into_iter().filter(|row| row.printed.starts_with(b"refused"));
    [vec![example_2()], mixes(), long_mixes()].into_iter().flatten().chain(refused).collect()
}

/// Example 2, line by line: the largest count is 2, and half of 40 marks are 20.
fn example_2() -> Row {
    row(
        "6\t12\t.BII.JRJ\n",
        "finished\t6\tJ\n\
         1\t1\t####################\n\
         2\t0\t\n\
         3\t0\t\n\
         4\t0\t\n\
         5\t2\t########################################\n\
         6\t1\t####################\n\
         7\t1\t####################\n\
         8\t1\t####################\n\
         9\t0\t\n\
         10\t0\t\n\
         11\t0\t\n\
         12\t0\t\n\
         13\t0\t",
    )
}

/// The line of the finishing program, and those of the rules: (rule, count, marks) where a rule is used.
fn mixed(line: &[u8], used: &[(usize, usize, usize)]) -> Vec<u8> {
    let mut printed = line.to_vec();
    for rule in 1..=13 {
        let (count, marks) = used.iter().find(|own| own.0 == rule).map_or((0, 0), |own| (own.1, own.2));
        printed.extend_from_slice(format!("\n{rule}\t{count}\t{}", "#".repeat(marks)).as_bytes());
    }
    printed
}

fn mix(input: &str, line: &str, used: &[(usize, usize, usize)]) -> Row {
    let name =
        format!("{} prints {} and rules, counts, marks {used:?}", input.escape_debug(), line.escape_debug());
    Row { name, input: input.into(), printed: mixed(line.as_bytes(), used) }
}

/// Runs of each outcome, with the rules of the rows of counting.
fn mixes() -> Vec<Row> {
    let two = [(1, 1, 20), (5, 2, 40), (6, 1, 20), (7, 1, 20), (8, 1, 20)];
    vec![
        mix("1000000\t16384\t.BII.JRJ\n", "finished\t6\tJ", &two),
        mix("5\t12\t.BII.JRJ\n", "spent\t5\t.IJ", &[(1, 1, 40), (5, 1, 40), (6, 1, 40), (7, 1, 40), (8, 1, 40)]),
        mix("1\t11\t.BII.JRJ\n", "spent\t1\t.BIIHJRJ", &[(1, 1, 40)]),
        mix("6\t11\t.BII.JRJ\n", "no room\t1\t.BIIHJRJ", &[(1, 1, 40)]),
        mix("0\t11\t.BII.JRJ\n", "spent\t0\t.BII.JRJ", &[]),
        mix("9\t7\t.BIIHJJ\n", "no room\t0\t.BIIHJJ", &[]),
        mix("0\t1\tJ\n", "finished\t0\tJ", &[]),
        mix("1000000\t16384\tT\n", "finished\t0\tT", &[]),
        mix("9\t30\t.BIIABJIRJ\n", "finished\t4\tABIIRJ", &[(6, 1, 40), (9, 1, 40), (10, 1, 40), (11, 1, 40)]),
        mix("6\t12\t.1J\n", "finished\t1\tH1J", &[(12, 1, 40)]),
        mix("6\t12\t.BJI1\n", "finished\t1\t1", &[(13, 1, 40)]),
        mix("6\t11\t.BJI.1T\n", "finished\t5\tH1T", &[(8, 1, 20), (12, 2, 40), (13, 2, 40)]),
        // A third of 40 marks is 13 and a third: 14.
        mix(
            "99\t99\t.B1B2B3IBRRJBRJBJI\n",
            "finished\t10\tB3B2B1I",
            &[(6, 3, 40), (7, 3, 40), (10, 1, 14), (11, 3, 40)],
        ),
        // Two thirds are 26 and two thirds: 27.
        mix(
            "9\t30\tH.IJH.IIH.I1H.JIH.JI.1J\n",
            "finished\t6\tHJHIH1HHJIHHJIH1J",
            &[(1, 2, 27), (5, 3, 40), (12, 1, 14)],
        ),
    ]
}

/// The marks of the counts in which no two are equal: 40 for 15, the others in proportion and rounded up.
const DIFFERENT: [(usize, usize, usize); 13] = [
    (1, 9, 24),
    (2, 6, 16),
    (3, 7, 19),
    (4, 1, 3),
    (5, 10, 27),
    (6, 11, 30),
    (7, 3, 8),
    (8, 2, 6),
    (9, 4, 11),
    (10, 15, 40),
    (11, 5, 14),
    (12, 8, 22),
    (13, 12, 32),
];

/// A term in the largest area, with all fuel; `end` is how the finishing program's line ends.
fn large_mix(name: &str, term: &[u8], end: &[u8], used: &[(usize, usize, usize)]) -> Row {
    let input = line("1000000\t16384\t", term.to_vec(), "\n");
    Row { name: format!("{name}, mixed"), input, printed: mixed(&line("finished\t", end.to_vec(), ""), used) }
}

/// Rule 1 so many times and rule 5 so many times, and the marks of rule 1; rule 5 is used more often.
fn two_rules(ones: usize, fives: usize, marks: usize) -> Row {
    let term = [repeated("H.JI", ones), repeated("H.II", fives), b"J".to_vec()].concat();
    let after = [repeated("HHJI", ones), repeated("HI", fives), b"J".to_vec()].concat();
    let end = line(&format!("{}\t", ones + fives), after, "");
    large_mix(&format!("{ones} of {fives}"), &term, &end, &[(1, ones, marks), (5, fives, 40)])
}

fn long_mixes() -> Vec<Row> {
    let different = all_different().run;
    let frozen = |letter: &str| line("", repeated(letter, 2_001), &"J".repeat(2_002));
    vec![
        large_mix(&different.name, &different.term, &line("93\t", different.after, ""), &DIFFERENT),
        large_mix(
            "2,001 applications frozen",
            &frozen("."),
            &line("2001\t", frozen("H"), ""),
            &[(1, 1, 1), (3, 2_000, 40)],
        ),
        two_rules(1, 40, 1),
        two_rules(1, 41, 1),
        two_rules(2, 41, 2),
        two_rules(39, 40, 39),
        two_rules(40, 41, 40),
        two_rules(25, 1_000, 1),
        two_rules(26, 1_000, 2),
        two_rules(975, 1_000, 39),
        two_rules(976, 1_000, 40),
        two_rules(1, 3_000, 1),
    ]
}

/// Every row of the checking program.
pub fn check_rows() -> Vec<Row> {
    let example = [J, I, "1 AIJ >aa A 2 1"];
    let damaged = [J, I, "1 AIJ >aa A 1 2"];
    let good = || repeated("1\tI\t1\tI\t-\t-\n", 1_024);
    vec![
        named("example 11", file(&example), "accepted\t3"),
        named("example 12", file(&damaged), "refused\t18\t3"),
        named("empty input", vec![], "refused\t11\t0"),
        named("65,537 bytes", repeated("\n", 65_537), "refused\t10\t0"),
        named("65,536 line feeds", repeated("\n", 65_536), "refused\t13\t0"),
        named("65,536 letters", repeated("x", 65_536), "refused\t12\t0"),
        named("65,537 letters", repeated("x", 65_537), "refused\t10\t0"),
        named("a million bytes", repeated("x", 1_000_000), "refused\t10\t0"),
        named("a million line feeds", repeated("\n", 1_000_000), "refused\t10\t0"),
        named(
            "a good file and then a million bytes",
            [good(), repeated("x", 1_000_000)].concat(),
            "refused\t10\t0",
        ),
        named("x", b"x".to_vec(), "refused\t12\t0"),
        named("1,025 line feeds", repeated("\n", 1_025), "refused\t13\t0"),
        named("1,024 line feeds", repeated("\n", 1_024), "refused\t14\t1"),
        named("1,024 good lines", good(), "accepted\t1024"),
        named("a bell", file(&[K]), "accepted\t1"),
        named("a bell of another type", file(&["1 1 a K - -"]), "refused\t18\t1"),
        named("a bell with a premise", file(&["1 1 b K 1 -"]), "refused\t17\t1"),
        named("two bells in one field", file(&["1 11 b K - -"]), "refused\t15\t1"),
        named("K as a term", file(&["1 K b K - -"]), "refused\t15\t1"),
        named("a small k as the rule", file(&["1 1 b k - -"]), "refused\t16\t1"),
        named(
            "a bell looked up",
            file(&[K, I, "1 B1I *b1 B 1 2", "*b1 J b J - -", "1 .B1IJ b s 3 4"]),
            "accepted\t5",
        ),
        named("a bell applied", file(&["*a1 1 b K - -", J, "*a1 .1J b f 1 2"]), "refused\t18\t3"),
        named("1,024 bells", repeated("1\tT\tb\tK\t-\t-\n", 1_024), "accepted\t1024"),
        named("one good line", b"1\tI\t1\tI\t-\t-\n".to_vec(), "accepted\t1"),
        named("a NUL in a field", b"1\t\0\t1\tI\t-\t-\n".to_vec(), "refused\t15\t1"),
        named("a carriage return", b"1\tI\t1\tI\t-\t-\r\n".to_vec(), "refused\t17\t1"),
    ]
}
