//! Checking: a file and `number@line` or `accepted n`.

use crate::terms::repeated;

pub struct Row {
    pub name: String,
    pub file: Vec<u8>,
    pub reply: String,
}

/// Lines of six fields, each written with spaces between the fields.
pub fn file(lines: &[&str]) -> Vec<u8> {
    lines.iter().flat_map(|line| (line.replace(' ', "\t") + "\n").into_bytes()).collect()
}

fn row(lines: &[&str], reply: &str) -> Row {
    Row { name: format!("{} is {reply}", lines.join(" / ")), file: file(lines), reply: reply.to_string() }
}

fn raw(name: &str, file: Vec<u8>, reply: &str) -> Row {
    Row { name: name.to_string(), file, reply: reply.to_string() }
}

pub const J: &str = "*a1 J a J - -";
pub const I: &str = "1 I 1 I - -";
/// Bell one in the empty context.
pub const K: &str = "1 1 b K - -";

pub fn rows() -> Vec<Row> {
    let groups = [
        examples(),
        shapes(),
        fields(),
        type_fields(),
        rule_fields(),
        premises(),
        reversed_premises(),
        instances_of_leaves(),
        instances_of_r(),
        instances_of_applications(),
        instances_of_a(),
        instances_of_b(),
        instances_of_s(),
        instances_of_k(),
        fields_of_k(),
        derivations_with_bells(),
        bells_applied(),
        orders(),
        large(),
    ];
    groups.into_iter().flatten().collect()
}

/// Examples 11 and 12 (REQUIREMENTS, Examples).
pub fn examples() -> Vec<Row> {
    vec![row(&[J, I, "1 AIJ >aa A 2 1"], "accepted 3"), row(&[J, I, "1 AIJ >aa A 1 2"], "18@3")]
}

/// The numbers 10 to 13, and the first line that is not there.
fn shapes() -> Vec<Row> {
    vec![
        raw("65,537 line feeds", repeated("\n", 65_537), "10@0"),
        raw("65,536 line feeds", repeated("\n", 65_536), "13@0"),
        raw("65,537 letters", repeated("x", 65_537), "10@0"),
        raw("65,536 letters", repeated("x", 65_536), "12@0"),
        raw("empty", vec![], "11@0"),
        raw("x", b"x".to_vec(), "12@0"),
        raw("NUL behind the last line feed", b"1\tI\t1\tI\t-\t-\n\0".to_vec(), "12@0"),
        raw("1,025 line feeds", repeated("\n", 1_025), "13@0"),
        raw("1,025 line feeds and x", [repeated("\n", 1_025), b"x".to_vec()].concat(), "12@0"),
        raw("1,024 line feeds", repeated("\n", 1_024), "14@1"),
        raw("one line feed", b"\n".to_vec(), "14@1"),
        raw("1,024 good lines", repeated("1\tI\t1\tI\t-\t-\n", 1_024), "accepted 1024"),
        raw("1,025 good lines", repeated("1\tI\t1\tI\t-\t-\n", 1_025), "13@0"),
        raw("1,023 good lines and a bad one", last_bad(), "14@1024"),
    ]
}

fn last_bad() -> Vec<u8> {
    [repeated("1\tI\t1\tI\t-\t-\n", 1_023), b"\n".to_vec()].concat()
}

/// Six fields are five tabs; an empty field is a field.
fn fields() -> Vec<Row> {
    vec![
        row(&["1 I 1 I -"], "14@1"),
        row(&["1 I 1 I - - "], "14@1"),
        row(&["1 I 1 I - - -"], "14@1"),
        row(&["1 I 1  I - -"], "14@1"),
        row(&["     "], "15@1"),
        row(&[I, "1 I 1 I -"], "14@2"),
        row(&[I, "", I], "14@2"),
        raw("spaces in place of tabs", b"1 I 1 I - -\n".to_vec(), "14@1"),
        raw("a carriage return before the line feed", b"1\tI\t1\tI\t-\t-\r\n".to_vec(), "17@1"),
    ]
}

/// Context, term and type fields that are not well formed, and some that are.
fn type_fields() -> Vec<Row> {
    vec![
        row(&["a I 1 I - -"], "15@1"),
        row(&[">a1 I 1 I - -"], "15@1"),
        row(&["**a11 I 1 I - -"], "15@1"),
        row(&["*a I 1 I - -"], "15@1"),
        row(&["a1 I 1 I - -"], "15@1"),
        row(&[" I 1 I - -"], "15@1"),
        row(&["11 I 1 I - -"], "15@1"),
        row(&["*a11 I 1 I - -"], "15@1"),
        row(&["*11 I 1 I - -"], "15@1"),
        row(&["*>a1 I 1 I - -"], "15@1"),
        row(&["*A1 I 1 I - -"], "15@1"),
        row(&["*`1 I 1 I - -"], "15@1"),
        row(&["*{1 I 1 I - -"], "15@1"),
        row(&["*a1 I >a1 I - -"], "15@1"),
        row(&["*a1 I **a11 I - -"], "15@1"),
        row(&["*a1 I *a I - -"], "15@1"),
        row(&["*a1 I a1 I - -"], "15@1"),
        row(&["*a1 I  I - -"], "15@1"),
        row(&["*a1 I > I - -"], "15@1"),
        row(&["*a1 I >a I - -"], "15@1"),
        row(&["*a1 I >1a I - -"], "15@1"),
        row(&["*a1 I >*a1a I - -"], "15@1"),
        row(&["*a1 I aa I - -"], "15@1"),
        row(&["1  1 I - -"], "15@1"),
        row(&["1 II 1 I - -"], "15@1"),
        row(&["1 H 1 I - -"], "15@1"),
        row(&["1 i 1 I - -"], "15@1"),
        row(&["*a*>ab*>>abc1 I 1 I - -"], "accepted 1"),
        row(&["*z1 J z J - -"], "accepted 1"),
        row(&["*>>ab>cd1 J >>ab>cd J - -"], "accepted 1"),
    ]
}

/// Rule fields that are no rule letter.
fn rule_fields() -> Vec<Row> {
    vec![
        row(&["1 I 1  - -"], "16@1"),
        row(&["1 I 1 II - -"], "16@1"),
        row(&["1 I 1 i - -"], "16@1"),
        row(&["1 I 1 F - -"], "16@1"),
        row(&["1 I 1 S - -"], "16@1"),
        row(&["1 I 1 . - -"], "16@1"),
        row(&["1 I 1 - - -"], "16@1"),
        row(&["1 I 1 k - -"], "16@1"),
        row(&["1 I 1 1 - -"], "16@1"),
        row(&["1 I 1 E - -"], "16@1"),
        row(&["1 I 1 T - -"], "16@1"),
        row(&["1 I 1 L - -"], "16@1"),
        raw("a NUL as the rule", b"1\tI\t1\t\0\t-\t-\n".to_vec(), "16@1"),
    ]
}

/// A line whose first premise field is the given one, behind a line that it may name.
fn first_premise(field: &str) -> Vec<u8> {
    file(&[I, &format!("1 .II 1 s {field} 1")])
}

fn second_premise(field: &str) -> Vec<u8> {
    file(&[I, &format!("1 .II 1 s 1 {field}")])
}

/// 17: a premise field malformed, or not an earlier line.
fn premises() -> Vec<Row> {
    let bad = [
        ("empty", ""),
        ("0", "0"),
        ("01", "01"),
        ("+1", "+1"),
        ("the line's own number", "2"),
        ("a later line", "3"),
        ("11", "11"),
        ("thirty digits", "111111111111111111111111111111"),
        ("2^64 and 1", "18446744073709551617"),
        ("2^32 and 1", "4294967297"),
        ("65,537", "65537"),
        ("257", "257"),
        ("-", "-"),
        ("--", "--"),
        ("-1", "-1"),
        ("1-", "1-"),
        ("a letter", "a"),
        ("1x", "1x"),
        ("a NUL behind 1", "1\0"),
        ("a carriage return behind 1", "1\r"),
        ("a slash", "/"),
        ("a colon", ":"),
    ];
    let mut rows = vec![];
    for (name, field) in bad {
        rows.push(raw(&format!("first premise {name}"), first_premise(field), "17@2"));
        rows.push(raw(&format!("second premise {name}"), second_premise(field), "17@2"));
    }
    rows
}

/// 17: a number where `-` belongs, or the reverse.
fn reversed_premises() -> Vec<Row> {
    vec![
        row(&[J, "*a1 J a J 1 -"], "17@2"),
        row(&[J, "*a1 J a J - 1"], "17@2"),
        row(&[I, "1 I 1 I 1 -"], "17@2"),
        row(&[I, "1 I 1 I - 1"], "17@2"),
        row(&[J, "*b*a1 RJ a R 1 1"], "17@2"),
        row(&[J, "*b*a1 RJ a R - -"], "17@2"),
        row(&[J, "*b*a1 RJ a R - 1"], "17@2"),
        row(&["1 I 1 I - -\r"], "17@1"),
        row(&["1 I 1 I -\r -"], "17@1"),
        row(&["1 I 1 I  "], "17@1"),
        row(&["1 I 1 I -- -"], "17@1"),
        row(&["*a1 J a J 1 -"], "17@1"),
        row(&["1 I 1 H - -"], "17@1"),
        row(&["1 I 1 f - 1"], "17@1"),
        row(&[I, "1 I 1 A 1 -"], "17@2"),
        row(&[I, "1 I 1 B - 1"], "17@2"),
    ]
}

/// Rules J and I.
fn instances_of_leaves() -> Vec<Row> {
    vec![
        row(&[J], "accepted 1"),
        row(&["*b*a1 J b J - -"], "accepted 1"),
        row(&["*b*a1 J a J - -"], "18@1"),
        row(&["1 J a J - -"], "18@1"),
        row(&["*a1 J b J - -"], "18@1"),
        row(&["*a1 J 1 J - -"], "18@1"),
        row(&["*a1 J *a1 J - -"], "18@1"),
        row(&["*a1 I a J - -"], "18@1"),
        row(&["*a1 RJ a J - -"], "18@1"),
        row(&["*a1 J a I - -"], "18@1"),
        row(&[I], "accepted 1"),
        row(&["*a1 I 1 I - -"], "accepted 1"),
        row(&["1 J 1 I - -"], "18@1"),
        row(&["*a1 I *a1 I - -"], "18@1"),
        row(&["1 I a I - -"], "18@1"),
        row(&["1 I 1 J - -"], "18@1"),
    ]
}

/// Rule R.
fn instances_of_r() -> Vec<Row> {
    vec![
        row(&[J, "*b*a1 RJ a R 1 -"], "accepted 2"),
        row(&[J, "*>ab*a1 RJ a R 1 -"], "accepted 2"),
        row(&[J, "*b*a1 RJ b R 1 -"], "18@2"),
        row(&[J, "*b*b1 RJ a R 1 -"], "18@2"),
        row(&[J, "*a1 RJ a R 1 -"], "18@2"),
        row(&[J, "1 RJ a R 1 -"], "18@2"),
        row(&[J, "*b*a1 RI a R 1 -"], "18@2"),
        row(&[J, "*b*a1 J a R 1 -"], "18@2"),
        row(&[J, "*b*a1 RRJ a R 1 -"], "18@2"),
        row(&[J, "*c*b*a1 RRJ a R 1 -"], "18@2"),
        row(&[I, "*a1 RI 1 R 1 -"], "18@2"),
        row(&[J, "*b*a1 RJ a R 1 -", "*c*b*a1 RRJ a R 2 -"], "accepted 3"),
    ]
}

/// Rules H and f, over: 1 the function, 2 the argument.
fn instances_of_applications() -> Vec<Row> {
    let with = |last: &str, reply: &str| {
        let lines = ["*a1 J a J - -", "*>ab*a1 J >ab J - -", "*>ab*a1 RJ a R 1 -", last];
        row(&lines, reply)
    };
    vec![
        with("*>ab*a1 HJRJ b H 2 3", "accepted 4"),
        with("*>ab*a1 .JRJ b f 2 3", "accepted 4"),
        with("*>ab*a1 HJRJ b f 2 3", "18@4"),
        with("*>ab*a1 .JRJ b H 2 3", "18@4"),
        with("*>ab*a1 AJRJ b H 2 3", "18@4"),
        with("*>ab*a1 HJRJ b H 3 2", "18@4"),
        with("*>ab*a1 HRJJ b H 2 3", "18@4"),
        with("*>ab*a1 HRJJ b H 3 2", "18@4"),
        with("*>ab*a1 HJRJ a H 2 3", "18@4"),
        with("*>ab*a1 HJRJ >ab H 2 3", "18@4"),
        with("*>ab*a1 HJRJ 1 H 2 3", "18@4"),
        with("*a1 HJRJ b H 2 3", "18@4"),
        with("*>ab*a1 HJJ b H 2 1", "18@4"),
        with("*>ab*a1 HJJ b H 2 2", "18@4"),
        with("*>ab*a1 .JRJ b s 2 3", "18@4"),
        with("*>ab*a1 HRJRJ b H 3 3", "18@4"),
    ]
}

/// Rule A.
fn instances_of_a() -> Vec<Row> {
    let with = |last: &str, reply: &str| {
        let lines = [J, I, "*b*a1 J b J - -", "*b1 I 1 I - -", "1 AIJ >aa A 2 1", last];
        row(&lines, reply)
    };
    vec![
        with("1 AIJ >aa A 2 1", "accepted 6"),
        with("*b1 AIJ >aa A 4 1", "accepted 6"),
        with("1 AIJ >ab A 2 1", "18@6"),
        with("1 AIJ >ba A 2 1", "18@6"),
        with("1 AIJ a A 2 1", "18@6"),
        with("1 AIJ *a1 A 2 1", "18@6"),
        with("1 AIJ >bb A 2 3", "18@6"),
        with("*b1 AIJ >aa A 2 1", "18@6"),
        with("1 AII >aa A 2 2", "18@6"),
        with("1 AIJ >aa A 1 2", "18@6"),
        with("1 BIJ >aa A 2 1", "18@6"),
        with("1 HIJ >aa A 2 1", "18@6"),
        with("1 AJJ >aa A 1 1", "18@6"),
        with("1 AJI >aa A 2 1", "18@6"),
        with("1 AI >aa A 2 1", "15@6"),
    ]
}

/// Rule B.
fn instances_of_b() -> Vec<Row> {
    let with = |last: &str, reply: &str| row(&[J, "*a1 I 1 I - -", I, "*a1 BJI *a1 B 1 2", last], reply);
    vec![
        with("*a1 BJBJI *a*a1 B 1 4", "accepted 5"),
        with("*a1 BJI *a1 B 1 2", "accepted 5"),
        with("*a1 BJI *b1 B 1 2", "18@5"),
        with("*a1 BJI 1 B 1 2", "18@5"),
        with("*a1 BJI a B 1 2", "18@5"),
        with("*a1 BJI >aa B 1 2", "18@5"),
        with("*a1 BJI *a*a1 B 1 2", "18@5"),
        with("*a1 BJI *a1 B 1 3", "18@5"),
        with("*a1 BIJ *a1 B 2 1", "18@5"),
        with("*a1 BII *a1 B 2 2", "18@5"),
        with("*a1 BJJ *a1 B 1 1", "18@5"),
        with("*a1 AJI *a1 B 1 2", "18@5"),
        with("1 BJI *a1 B 1 2", "18@5"),
        with("*a1 BBJII *a*a1 B 4 2", "18@5"),
    ]
}

/// Rule s.
fn instances_of_s() -> Vec<Row> {
    vec![
        row(&[I, "1 .II 1 s 1 1"], "accepted 2"),
        row(&[I, J, "*a1 .IJ a s 1 2"], "18@3"),
        row(&["*a1 I 1 I - -", J, "*a1 .IJ a s 1 2"], "18@3"),
        row(&["*a1 I 1 I - -", J, "*a1 BJI *a1 B 2 1", "*a1 .BJIJ a s 3 2"], "accepted 4"),
        row(&["*a1 I 1 I - -", J, "*a1 BJI *a1 B 2 1", "*a1 .BJIBJI *a1 s 3 3"], "accepted 4"),
        row(&["*a1 I 1 I - -", J, "*a1 BJI *a1 B 2 1", "*a1 .BJIJ a f 3 2"], "18@4"),
        row(&["*a1 I 1 I - -", J, "*a1 BJI *a1 B 2 1", "*a1 .BJIJ b s 3 2"], "18@4"),
        row(&["*a1 I 1 I - -", J, "*a1 BJI *a1 B 2 1", "*a1 HBJIJ a s 3 2"], "18@4"),
        row(&["*a1 I 1 I - -", I, "*a1 .II 1 s 1 2"], "accepted 3"),
        row(&["*a1 I 1 I - -", I, "*a1 .II 1 s 2 1"], "18@3"),
        row(&["*a1 I 1 I - -", I, "1 .II 1 s 1 2"], "18@3"),
        row(&[J, "*a1 .JJ a s 1 1"], "18@2"),
    ]
}

/// Rule K.
fn instances_of_k() -> Vec<Row> {
    let mut rows = vec![
        row(&[K], "accepted 1"),
        row(&["*a1 1 b K - -"], "accepted 1"),
        row(&["*b1 1 b K - -"], "accepted 1"),
        row(&["*a*>ab*>>abc1 T b K - -"], "accepted 1"),
        row(&[K, K, K], "accepted 3"),
        row(&["1 1 a K - -"], "18@1"),
        row(&["1 1 c K - -"], "18@1"),
        row(&["1 1 z K - -"], "18@1"),
        row(&["*a1 1 a K - -"], "18@1"),
        row(&["1 1 1 K - -"], "18@1"),
        row(&["1 1 >bb K - -"], "18@1"),
        row(&["1 1 >ab K - -"], "18@1"),
        row(&["1 1 *b1 K - -"], "18@1"),
        row(&["*b1 1 *b1 K - -"], "18@1"),
        row(&["1 J b K - -"], "18@1"),
        row(&["*b1 J b K - -"], "18@1"),
        row(&["1 I b K - -"], "18@1"),
        row(&["1 I 1 K - -"], "18@1"),
        row(&["1 R1 b K - -"], "18@1"),
        row(&["1 H1J b K - -"], "18@1"),
        row(&["1 A11 b K - -"], "18@1"),
        row(&["1 B1I b K - -"], "18@1"),
        row(&["1 .1J b K - -"], "18@1"),
        row(&["1 .BJI1 b K - -"], "18@1"),
        row(&["1 1 b J - -"], "18@1"),
        row(&["*b1 1 b J - -"], "18@1"),
        row(&["1 1 b I - -"], "18@1"),
        row(&["1 1 1 I - -"], "18@1"),
    ];
    for k in "1234567890ET".chars() {
        rows.push(row(&[&format!("1 {k} b K - -")], "accepted 1"));
        rows.push(row(&[&format!("*a*b1 {k} b K - -")], "accepted 1"));
        rows.push(row(&[&format!("1 {k} a K - -")], "18@1"));
    }
    rows
}

/// Lines of rule K at fault before their instance is: fields, rule letters and premises.
fn fields_of_k() -> Vec<Row> {
    let mut rows = vec![
        row(&["1 11 b K - -"], "15@1"),
        row(&["1 10 b K - -"], "15@1"),
        row(&["1 K b K - -"], "15@1"),
        row(&["1 b b K - -"], "15@1"),
        row(&["1 e b K - -"], "15@1"),
        row(&["1 t b K - -"], "15@1"),
        row(&["1 : b K - -"], "15@1"),
        row(&["1 / b K - -"], "15@1"),
        row(&["1  b K - -"], "15@1"),
        row(&["*11 1 b K - -"], "15@1"),
        row(&["*21 1 b K - -"], "15@1"),
        row(&["*b2 1 b K - -"], "15@1"),
        row(&["b 1 b K - -"], "15@1"),
        row(&["1 1 >b1 K - -"], "15@1"),
        row(&["1 1 bb K - -"], "15@1"),
        row(&["1 1 K K - -"], "15@1"),
        row(&["1 1 B K - -"], "15@1"),
        row(&["1 1 b k - -"], "16@1"),
        row(&["1 1 b KK - -"], "16@1"),
        row(&["1 1 b 1 - -"], "16@1"),
        row(&["1 1 b  - -"], "16@1"),
        row(&["1 1 b K 1 -"], "17@1"),
        row(&["1 1 b K - 1"], "17@1"),
        row(&["1 1 b K 1 1"], "17@1"),
        row(&["1 1 b K 0 -"], "17@1"),
        row(&["1 1 b K  -"], "17@1"),
        row(&["1 1 b K - -\r"], "17@1"),
        row(&["1 1 a K 1 -"], "17@1"),
        row(&[K, "1 1 b K 1 -"], "17@2"),
        row(&[K, "1 1 b K - 1"], "17@2"),
        row(&[K, "1 1 b K 1 1"], "17@2"),
        row(&[K, "1 J a K 1 1"], "17@2"),
        row(&["1 1 b K -"], "14@1"),
        row(&["1 1 b K - - -"], "14@1"),
    ];
    for k in "234567890ET".chars() {
        rows.push(row(&[&format!("{k} 1 b K - -")], "15@1"));
        rows.push(row(&[&format!("1 1 {k} K - -")], "15@1"));
    }
    rows
}

/// Bells under each of the other rules, over: 1 and 4 bells, 2 and 5 identities, 3 a pair.
fn derivations_with_bells() -> Vec<Row> {
    let with = |last: &[&str], reply: &str| {
        let lines = [&[K, I, "1 B1I *b1 B 1 2", "*b1 T b K - -", "*b1 I 1 I - -"][..], last].concat();
        row(&lines, reply)
    };
    vec![
        with(&["1 .B1IT b s 3 4"], "accepted 6"),
        with(&["1 .B1IT b s 3 1"], "18@6"),
        with(&["1 .B1IT a s 3 4"], "18@6"),
        with(&["1 .B1I1 b s 3 4"], "18@6"),
        with(&["1 AIT >bb A 2 4"], "accepted 6"),
        with(&["1 AIT >ab A 2 4"], "18@6"),
        with(&["1 AI1 >bb A 2 1"], "18@6"),
        with(&["1 A1T >bb A 1 4"], "18@6"),
        with(&["1 AIT >bb A 2 4", "1 .AIT1 b f 6 1"], "accepted 7"),
        with(&["1 AIT >bb A 2 4", "1 HAIT1 b H 6 1"], "accepted 7"),
        with(&["1 AIT >bb A 2 4", "1 .AIT1 b s 6 1"], "18@7"),
        with(&["1 AIT >bb A 2 4", "1 .AIT1 >bb f 6 1"], "18@7"),
        with(&["*b1 R1 b R 1 -"], "accepted 6"),
        with(&["*>ab1 R1 b R 1 -"], "accepted 6"),
        with(&["1 R1 b R 1 -"], "18@6"),
        with(&["*b1 RT b R 4 -"], "18@6"),
        with(&["*a*b1 RT b R 4 -"], "accepted 6"),
        with(&["1 B1B1I *b*b1 B 1 3"], "accepted 6"),
        with(&["1 B1I *a1 B 1 2"], "18@6"),
        with(&["1 BI1 *b1 B 2 1"], "18@6"),
        with(&["1 .I1 b s 2 1"], "accepted 6"),
        with(&["*b1 .IT b s 5 4"], "18@6"),
        with(&["*b1 .I1 b s 5 1"], "accepted 6"),
        with(&["*b1 J b J - -", "1 .B1IJ b s 3 6"], "accepted 7"),
        with(&["1 AIT >bb A 2 4", "1 .AIT1 b f 6 1", "1 .B1IT b s 3 4", "1 T b K - -"], "accepted 9"),
        with(&["*b1 B1I *b1 B 1 2"], "18@6"),
        with(&["*b1 BTI *b1 B 4 5", "1 .B1IBTI *b1 s 3 6"], "accepted 7"),
    ]
}

/// A bell applied has no type, nor has its frozen application: each claim is 18.
fn bells_applied() -> Vec<Row> {
    let mut rows = vec![];
    for kind in ["a", "b", "1", ">ab", "*b1"] {
        for last in [".1J f", ".1J s", "H1J H", ".1J A", ".1J B", "H1J f", ".1J H"] {
            let (term, rule) = last.split_once(' ').expect("a term and a rule");
            let line = |first, second| format!("*a1 {term} {kind} {rule} {first} {second}");
            rows.push(row(&["*a1 1 b K - -", J, &line(1, 2)], "18@3"));
            rows.push(row(&["*a1 1 b K - -", J, &line(2, 1)], "18@3"));
        }
        rows.push(row(&[&format!("*a1 .1J {kind} K - -")], "18@1"));
    }
    rows.push(row(&["*a1 1 >ab K - -", J, "*a1 .1J b f 1 2"], "18@1"));
    rows.push(row(&["*a1 1 b K - -", J, "*a1 .1J b f 1 -"], "17@3"));
    rows
}

/// The lowest bad line, and in it the first of 14 to 18.
fn orders() -> Vec<Row> {
    vec![
        row(&["x x x x x", "1 J a J - -"], "14@1"),
        row(&["1 J a J - -", "x x x x x"], "18@1"),
        row(&["x I 1 I - - x"], "14@1"),
        row(&["x I 1 x - -"], "15@1"),
        row(&["1 I 1 x 7 7"], "16@1"),
        row(&["1 J a I 7 -"], "17@1"),
        row(&["1 J a s 1 1"], "17@1"),
        row(&["1 J a I - -"], "18@1"),
        row(&[I, "1 I 1 x 7 7", "x"], "16@2"),
        row(&[K, "1 1 a K - -", "1 1 b K 1 -"], "18@2"),
        row(&[K, "1 1 b K 1 -", "1 1 a K - -"], "17@2"),
        row(&[K, "1 K a K 1 -"], "15@2"),
        row(&[K, "1 1 a k 1 -"], "16@2"),
    ]
}

/// `*`T`1`, J has T: one line of 11 bytes and two texts of T and two more bytes.
fn deep_type(simple: Vec<u8>) -> Vec<u8> {
    [b"*", &simple[..], b"1\tJ\t", &simple[..], b"\tJ\t-\t-\n"].concat()
}

/// One line with a context of `types` atoms, of 2 `types` + 12 bytes.
fn wide_context(types: usize) -> Vec<u8> {
    [&repeated("*a", types)[..], b"1\tJ\ta\tJ\t-\t-\n"].concat()
}

/// A bell in a context of `types` atoms, of 2 `types` + 12 bytes.
fn bell_in_wide_context(types: usize) -> Vec<u8> {
    [&repeated("*a", types)[..], b"1\tE\tb\tK\t-\t-\n"].concat()
}

/// Files at the limit of 65,536 bytes, with fields as large as that.
fn large() -> Vec<Row> {
    let left = |k: usize| [repeated(">", k), repeated("a", k + 1)].concat();
    let right = |k: usize| [repeated(">a", k), b"a".to_vec()].concat();
    let over = [wide_context(32_762), b"\n".to_vec()].concat();
    let deep_term = |letters: &[u8]| [b"1\t", letters, b"\t1\tI\t-\t-\n"].concat();
    let r_j = [repeated("R", 65_500), b"J".to_vec()].concat();
    let stops = [repeated(".", 32_000), repeated("I", 32_001)].concat();
    vec![
        raw("a context of 32,762 atoms, 65,536 bytes", wide_context(32_762), "accepted 1"),
        raw("65,537 bytes", over, "10@0"),
        raw("a bell in a context of 32,762 atoms, 65,536 bytes", bell_in_wide_context(32_762), "accepted 1"),
        raw("1,024 bells", repeated("1\t0\tb\tK\t-\t-\n", 1_024), "accepted 1024"),
        raw("a term of 65,501 letters, the last a bell", deep_term(&[&r_j[..65_500], b"T"].concat()), "18@1"),
        raw("a bell and 65,500 letters behind it", deep_term(&[b"T", &r_j[..65_500]].concat()), "15@1"),
        raw("a type nested 16,000 deep to the left", deep_type(left(16_000)), "accepted 1"),
        raw("a type nested 16,000 deep to the right", deep_type(right(16_000)), "accepted 1"),
        raw("a term of 65,501 letters", deep_term(&r_j), "18@1"),
        raw("a term of 64,001 letters nested to the left", deep_term(&stops), "18@1"),
        raw("a term of 65,500 letters that is not whole", deep_term(&r_j[..65_500]), "15@1"),
        raw("a term of 65,500 letters and one more", deep_term(&[b"J", &r_j[..65_499]].concat()), "15@1"),
    ]
}
