//! Books, what is lent for them, and what they come to.

use crate::books::*;
use crate::terms::{index, joined, repeated};

/// One call: a book, the sizes of what is lent, and the fuel.
#[derive(Clone)]
pub struct Played {
    pub book: Vec<u8>,
    pub area: usize,
    pub work: usize,
    pub store: usize,
    pub fuel: u64,
    /// `finished LINE`, `spent LINE`, `no room LINE`, or `number@line`.
    pub reply: String,
    /// The term that the area then holds, where the book finished.
    pub result: Vec<u8>,
}

pub struct Row {
    pub name: String,
    pub played: Vec<Played>,
}

const AMPLE: usize = 64;
const LARGEST: usize = 16_384;

/// A call with a work area as long as the term area, and a store of as many bytes as it needs.
fn call(book: Vec<u8>, area: usize, fuel: u64, reply: &str, result: &[u8]) -> Played {
    Played { book, area, work: area, store: STORE, fuel, reply: reply.to_string(), result: result.to_vec() }
}

/// A book as the requirements write it, in an area of this size with this fuel.
fn limited(text: &str, area: usize, fuel: u64, reply: &str, result: &str) -> Row {
    let name = format!("{text} in {area} bytes with fuel {fuel}: {reply} {result}");
    Row { name, played: vec![call(written(text), area, fuel, reply, result.as_bytes())] }
}

/// The same where there is plenty of both.
fn row(text: &str, reply: &str, result: &str) -> Row {
    let name = format!("{text}: {reply} {result}");
    Row { name, played: vec![call(written(text), AMPLE, 1_000, reply, result.as_bytes())] }
}

/// A book of many bytes, in the largest area with the most fuel.
fn large(name: &str, book: Vec<u8>, reply: &str, result: &[u8]) -> Row {
    Row { name: name.to_string(), played: vec![call(book, LARGEST, MOST_FUEL, reply, result)] }
}

/// Every row: first what is quick, last what has many letters.
pub fn rows() -> Vec<Row> {
    let played = [edges(), uses(), fuels(), rooms(), first_unfinished(), names()];
    let refused = [taken_names(), unknown_names(), first_faults(), lent_sizes(), orders(), bad_lines()];
    let limits = [most_lines(), most_bytes(), most_letters()];
    played.into_iter().chain(refused).chain(limits).flatten().collect()
}

/// The rows of the requirements.
fn edges() -> Vec<Row> {
    let bad =
        ["/", "a/", "a  J/", "a /", "a JJ/", "a ()/", "a (toolongxx)/", "a R(b/", " J/", "A J/", "abcdefghi J/"];
    let answered = [
        row("a .II/b B(a)(a)/", "finished 2", "BII"),
        row("a J/b R(a)/c R(b)/", "finished 3", "RRJ"),
        limited("a J/", 0, 1_000, "no room 1", ""),
        limited("a .II/b I/", AMPLE, 0, "spent 1", ""),
        row("a R(a)/", "27@1", ""),
        row("a J/a R(b)/", "26@2", ""),
        row("a J/a R(/", "25@2", ""),
    ];
    answered.into_iter().chain(bad.map(|text| row(text, "25@1", ""))).collect()
}

/// Uses in every place where a term can stand; what stands there is the result.
fn uses() -> Vec<Row> {
    vec![
        row("a J/", "finished 1", "J"),
        row("a T/", "finished 1", "T"),
        row("a .IJ/", "finished 1", "J"),
        row("a J/b I/", "finished 2", "I"),
        row("a J/b (a)/", "finished 2", "J"),
        row("a J/b (a)/c (b)/d (c)/", "finished 4", "J"),
        row("a RJ/b H(a)J/", "finished 2", "HRJJ"),
        row("a RJ/b HJ(a)/", "finished 2", "HJRJ"),
        row("a RJ/b H(a)(a)/", "finished 2", "HRJRJ"),
        row("a RJ/b A(a)(a)/", "finished 2", "ARJRJ"),
        row("a RJ/b B(a)(a)/", "finished 2", "BRJRJ"),
        row("a I/b .(a)(a)/", "finished 2", "I"),
        row("a 1/b 2/c B(a)B(b)I/", "finished 3", "B1B2I"),
        row("a 1/b 2/c B(b)B(a)I/", "finished 3", "B2B1I"),
        row("a 1/b 2/c 3/d HH(c)(a)H(b)(c)/", "finished 4", "HH31H23"),
        row("a B1I/b .(a)J/", "finished 2", "1"),
        row("a 5/b .B(a)IJ/", "finished 2", "5"),
        row("a E/b .I.I(a)/", "finished 2", "E"),
        row("a .1J/b R(a)/", "finished 2", "RH1J"),
        row("a .BII.JRJ/b RR(a)/", "finished 2", "RRJ"),
        row("a AI.IJ/b (a)/", "finished 2", "AIJ"),
        row("a 1/b 2/c AB(a)B(b)IHRJHRRJJ/d .(c)3/", "finished 4", "H1H23"),
        row("a I/b BJ(a)/c BJ(b)/d BJ(c)/e BJ(d)/", "finished 5", "BJBJBJBJI"),
        row("a J/b B(a)(a)/c B(b)(b)/d B(c)(c)/", "finished 4", "BBBJJBJJBBJJBJJ"),
        row("a J/b I/c B(a)(b)/d B(c)(a)/e B(d)(c)/", "finished 5", "BBBJIJBJI"),
        row("first 1/second 2/third B(second)B(first)I/", "finished 3", "B2B1I"),
        row("a J/b I/c (a)/", "finished 3", "J"),
        row("a J/b I/c (b)/", "finished 3", "I"),
        row("a J/b .II/c 1/d T/e (b)/", "finished 5", "I"),
        row("a 1/b 2/c 3/d 4/e 5/f 6/g 7/h 8/i 9/j 0/k E/l T/m B(l)B(k)B(j)B(a)I/", "finished 13", "BTBEB0B1I"),
    ]
}

/// Each line has the whole fuel, and results cost none again.
fn fuels() -> Vec<Row> {
    vec![
        limited("a J/", AMPLE, 0, "finished 1", "J"),
        limited("a J/b R(a)/", AMPLE, 0, "finished 2", "RJ"),
        limited("a J/b .II/", AMPLE, 0, "spent 2", ""),
        limited("a .II/b .II/c .II/", AMPLE, 1, "finished 3", "I"),
        limited("a .II/b .(a)(a)/", AMPLE, 1, "finished 2", "I"),
        limited("a .II/b ..II(a)/", AMPLE, 1, "spent 2", ""),
        limited("a .II/b ..II(a)/", AMPLE, 2, "finished 2", "I"),
        limited("a .II/b H.IJ.IJ/c J/", AMPLE, 1, "spent 2", ""),
        limited("a .BII.JRJ/", AMPLE, 5, "spent 1", ""),
        limited("a .BII.JRJ/", AMPLE, 6, "finished 1", "J"),
        limited("a .BII.JRJ/b B(a)(a)/", AMPLE, 6, "finished 2", "BJJ"),
        limited("a .BII.JRJ/b .BII.JRJ/c .BII.J.IRJ/", AMPLE, 6, "spent 3", ""),
        limited("a .BII.JRJ/b .BII.JRJ/c .BII.JRJ/d H(a)(c)/", AMPLE, 6, "finished 4", "HJJ"),
        // used as it stands the first line would cost its step once more: the body is finished in its closure
        limited("a AI.IJ/b .(a)T/", AMPLE, 2, "finished 2", "T"),
        limited("a AI.IJ/b .(a)T/", AMPLE, 1, "spent 2", ""),
        limited("a 1/b 2/c AB(a)B(b)IHRJHRRJJ/d .(c)3/", AMPLE, 11, "finished 4", "H1H23"),
        limited("a 1/b 2/c AB(a)B(b)IHRJHRRJJ/d .(c)3/", AMPLE, 10, "spent 4", ""),
        limited("a .AIHJJAIHJJ/", AMPLE, 3, "spent 1", ""),
        limited("a AIHJJ/b .(a)(a)/", AMPLE, 3, "spent 2", ""),
        limited("a .II/b .II/c .II/d .II/", AMPLE, MOST_FUEL, "finished 4", "I"),
        limited("a J/", AMPLE, MOST_FUEL + 1, "4@0", ""),
        limited("a J/", AMPLE, 1 << 32, "4@0", ""),
        limited("a J/", AMPLE, u64::MAX, "4@0", ""),
    ]
}

/// Areas about the size of a line's term, of the text with its uses, and of what the run needs.
fn rooms() -> Vec<Row> {
    let sixteen = "a J/b B(a)(a)/c B(b)(b)/d B(c)(c)/e R(d)/";
    vec![
        limited("a J/", 1, 0, "finished 1", "J"),
        limited("a RJ/", 1, 0, "no room 1", ""),
        limited("a RRRRJ/", 5, 9, "finished 1", "RRRRJ"),
        limited("a RRRRJ/", 4, 9, "no room 1", ""),
        limited("a RRRRJ/", 0, 0, "no room 1", ""),
        limited("a J/b (a)/", 1, 9, "finished 2", "J"),
        limited("a J/b R(a)/", 2, 9, "finished 2", "RJ"),
        limited("a J/b R(a)/", 1, 9, "no room 2", ""),
        limited("abcdefgh J/b B(abcdefgh)(abcdefgh)/", 3, 9, "finished 2", "BJJ"),
        limited("a RJ/b B(a)(a)/", 5, 9, "finished 2", "BRJRJ"),
        limited("a RJ/b B(a)(a)/", 4, 9, "no room 2", ""),
        limited("a RRRRRRRJ/b B(a)(a)/", 17, 9, "finished 2", "BRRRRRRRJRRRRRRRJ"),
        limited("a RRRRRRRJ/b B(a)(a)/", 16, 9, "no room 2", ""),
        limited(sixteen, 16, 9, "finished 5", "RBBBJJBJJBBJJBJJ"),
        limited(sixteen, 15, 9, "no room 5", ""),
        limited(sixteen, 14, 9, "no room 4", ""),
        limited(sixteen, 6, 9, "no room 3", ""),
        // the term must fit before it is run, also where its result would and where there is no fuel
        limited("a .II/", 3, 9, "finished 1", "I"),
        limited("a .II/", 2, 9, "no room 1", ""),
        limited("a .II/", 2, 0, "no room 1", ""),
        limited("a .II/", 3, 0, "spent 1", ""),
        limited("a RJ/b .I(a)/", 4, 9, "finished 2", "RJ"),
        limited("a RJ/b .I(a)/", 3, 9, "no room 2", ""),
        limited("a RJ/b .I(a)/", 3, 0, "no room 2", ""),
        limited("a RJ/b .I(a)/", 4, 0, "spent 2", ""),
        // runs without room
        limited("a .BII.JRJ/", 12, 9, "finished 1", "J"),
        limited("a .BII.JRJ/", 11, 9, "no room 1", ""),
        limited("a .BII.JRJ/", 11, 1, "spent 1", ""),
        limited("a .BII.JRJ/", 11, 2, "no room 1", ""),
        limited("a J/b RJ/c .BII.(a)(b)/", 12, 9, "finished 3", "J"),
        limited("a J/b RJ/c .BII.(a)(b)/", 11, 9, "no room 3", ""),
        limited("a .B.IIIHJJ/", 15, 6, "finished 1", "I"),
        limited("a .B.IIIHJJ/", 15, 5, "spent 1", ""),
        limited("a .B.IIIHJJ/", 14, 6, "no room 1", ""),
        // with the result of `.II` in its place the term takes no more than 11 letters
        limited("a .II/b .B(a)IHJJ/", 11, 6, "finished 2", "I"),
        limited("a .II/b .B(a)IHJJ/", 10, 6, "no room 2", ""),
    ]
}

/// The first line that does not finish ends it, whether it is used or not; no line behind it counts.
fn first_unfinished() -> Vec<Row> {
    let forever = ".AIHJJAIHJJ";
    let text = |text: &str| text.replace('W', forever);
    vec![
        limited(&text("a W/b J/"), AMPLE, 10, "spent 1", ""),
        limited(&text("a J/b W/c (a)/"), AMPLE, 10, "spent 2", ""),
        limited(&text("a J/b (a)/c W/"), AMPLE, 10, "spent 3", ""),
        limited(&text("a W/b W/"), AMPLE, 10, "spent 1", ""),
        limited(&text("a RRRRRRRRRRRRRRRJ/b W/"), 15, 10, "no room 1", ""),
        limited(&text("a W/b RRRRRRRRRRRRRRRRRRRRRRRJ/"), 20, 3, "spent 1", ""),
        limited("a .II/b RRRJ/c J/", 3, 9, "no room 2", ""),
        limited("a J/b RRRRJ/c .II/", 4, 0, "no room 2", ""),
        limited("a J/b .II/c RRRRJ/", 4, 0, "spent 2", ""),
        limited("a J/b I/c 1/d 2/e .II/f .II/", AMPLE, 0, "spent 5", ""),
        // a fault of a later line is told ahead of everything that is played
        limited(&text("a W/b JJ/"), AMPLE, 10, "25@2", ""),
        limited(&text("a W/a J/"), AMPLE, 10, "26@2", ""),
        limited(&text("a W/b (c)/"), AMPLE, 10, "27@2", ""),
        limited("a J/b J/c J/d x/", 0, 0, "25@4", ""),
        limited("a RRRRJ/b I/b I/", 2, 0, "26@3", ""),
        limited("a RRRRJ/b (b)/", 2, 0, "27@2", ""),
    ]
}

/// Names of one letter to eight, each letter, names that begin alike or end alike.
fn names() -> Vec<Row> {
    let letters: Vec<u8> = (b'a'..=b'z').collect();
    let each = letters.iter().map(|&letter| {
        let name = char::from(letter);
        let other = if letter == b'm' { 'n' } else { 'm' };
        row(&format!("{name} RJ/{other} B({name})J/"), "finished 2", "BRJJ")
    });
    let long = (1..=LONGEST_NAME).map(|length| {
        let name = &"abcdefgh"[..length];
        row(&format!("{name} RJ/z B({name})J/"), "finished 2", "BRJJ")
    });
    let others = vec![
        row("a 1/ab 2/abc 3/abcd 4/abcde 5/z B(abc)B(a)B(abcde)B(ab)B(abcd)I/", "finished 6", "B3B1B5B2B4I"),
        row("abcde 5/abcd 4/abc 3/ab 2/a 1/z B(abc)B(a)B(abcde)B(ab)B(abcd)I/", "finished 6", "B3B1B5B2B4I"),
        row("abcdefgh 1/abcdefgi 2/zbcdefgh 3/z B(abcdefgi)B(zbcdefgh)(abcdefgh)/", "finished 4", "B2B31"),
        row("abcdefg 1/abcdefgh 2/z B(abcdefg)(abcdefgh)/", "finished 3", "B12"),
        row("a 1/aa 2/aaa 3/aaaaaaaa 4/z B(aaaaaaaa)B(aa)B(aaa)(a)/", "finished 5", "B4B2B31"),
        row("ab 1/ba 2/z B(ba)(ab)/", "finished 3", "B21"),
        row("zzzzzzzz T/z (zzzzzzzz)/", "finished 2", "T"),
        row("aaaaaaaa T/a (aaaaaaaa)/", "finished 2", "T"),
    ];
    each.chain(long).chain(others).collect()
}

/// Lines that are none, in the requirements' writing and with `|` between them; each has the name `a` where it has one.
const BAD_LINES: [&str; 8] = [
    // no name, no tab, or no term
    "|a| |a | J|J|aJ|  |a  |RJ|(a)|abcdefgh|(a) J|() J",
    // more tabs than one
    "a  J|a J | a J|a J J|a R J|a J b|a B J J|a b J",
    // terms that are none
    "a JJ|a RJJ|a R|a RR|a H|a HJ|a .|a .J|a BII.|a AI|a HRJ|a ..II|a BHJJ|a II|a 12|a 10|a EE|a .IJ.|a JR",
    "a x|a Rx|a b|a K|a C|a Q|a RK|a Jx|a xJ|a Ja|a aJ|a j|a e|a HJx|a -",
    // uses that are none
    "a ()|a R()|a ()J|a H()()|a (toolongxx)|a (abcdefghi)|a R(aaaaaaaaa)|a (aaaaaaaaaaaaaaaaaaaaaaaa)|a (b|a R(b\
     |a (abcdefgh|a H(a)(abcdefgh|a (abcdefghi|a (|a R(|a )|a R)|a b)|a Rb)|a )(|a (a|a H(a)(a|a H(a(a)|a )a(|a ((a))\
     |a ((a)|a (a))|a (())|a ((|a R((a))|a (a(b))|a H((a)(a))|a (R(a))|a (A)|a (J)|a (aB)\
     |a (Ba)|a (1)|a (a1)|a (.)|a (a.)|a (.II)|a (a,b)|a (a-b)|a ( a)|a (a )|a (a b)|a ( )|a (a )J",
    // uses and letters too many or too few
    "a (a)(a)|a (a)J|a J(a)|a R(a)J|a R(a)(a)|a H(a)|a .(a)|a B(a)(a)(a)|a (a)x|a (a)R|a R(a)b|a H(a)R",
    // names that are none
    "A J|B J|R J|I J|1 J|0 J|. J|aB J|Ba J|a1 J|1a J|a. J|a- J|a_ J|aJ J|aE J|a( J|a) J",
    "abcdefghi J|aaaaaaaaaaaaaaaa J|abcdefghijklmnopqrstuvwxyz J|abcdefghi (a)",
];

/// The same with bytes that the writing does not have, and not in the writing.
const BAD_BYTES: [&[u8]; 6] = [
    // spaces
    b"a J|a  J| a\tJ|a \tJ|a\t J|a\tJ |a\tR J| \tJ|a\t |a\t( a)|a\t(a )|a\t( )|a\tH(a) (a)",
    // carriage returns, zeros
    b"a\tJ\r|\ra\tJ|a\r\tJ|a\t\rJ|a\tR\rJ|a\t\r|\r|a\t(a\r)",
    b"a\tJ\0|\0a\tJ|a\0\tJ|a\t\0J|a\t\0|a\tR\0J|a\t(\0a)|a\t(a\0)|a\t(\0)|\0|\0\tJ|a\0J",
    // neighbours of small letters, of brackets, of tab and line feed; letters and brackets with the highest bit
    b"`\tJ|{\tJ|a`\tJ|a{\tJ|@\tJ|[\tJ|a\t(`)|a\t({)|a\t(a`)|a\t(a{)|a\t(@)|a\t([)|a\t'a'|a\t*a*|a\t(a*|a\t'a)|a\t(')",
    b"\xe1\tJ|a\xe1\tJ|a\t(\xe1)|a\t(a\xe1)|a\t\xca|a\tR\xca|a\xc9J|a\x89J|a\t\xa8a\xa9|a\t(a\xa9|a\t\xa8a)",
    b"a\x08J|a\x0bJ|a\x0cJ|a\tJ\x0b|a\tJ\x0c|a\tJ\x1a|a\t/|a\t:|a\t;|a\t\x7f|a\t\xff|\xff\tJ|\x80|\xef\xbb\xbfa\tJ\
      |a\t[a]|a\t{a}|a\t<a>|a\t(a]|a\t[a)|a\t+a)",
];

/// A bad line alone, first, last, in the middle, with a name that is taken, and in front of other faults.
fn bad_lines() -> Vec<Row> {
    let in_writing = BAD_LINES.iter().flat_map(|lines| lines.split('|')).map(written);
    let in_bytes = BAD_BYTES.iter().flat_map(|lines| lines.split(|&byte| byte == b'|')).map(<[u8]>::to_vec);
    let row = |line: Vec<u8>| {
        let around = [
            ("", "", 1),
            ("", "b J/", 1),
            ("", "b J/b J/c (d)/", 1),
            ("", "/", 1),
            ("b J/", "", 2),
            ("a J/", "", 2),
            ("a J/b R(a)/", "c B(a)(b)/", 3),
            ("b .AIHJJAIHJJ/c .II/", "d J/e x/", 3),
        ];
        let book = |before: &str, behind: &str| joined(&[&written(before), &line, b"\n", &written(behind)]);
        let played =
            around.map(|(before, behind, at)| call(book(before, behind), AMPLE, 0, &format!("25@{at}"), b""));
        Row { name: format!("25 for the line {}", line.escape_ascii()), played: played.into() }
    };
    in_writing.chain(in_bytes).map(row).collect()
}

/// Names that an earlier line has.
fn taken_names() -> Vec<Row> {
    vec![
        row("a J/a J/", "26@2", ""),
        row("a J/a I/", "26@2", ""),
        row("a J/a (a)/", "26@2", ""),
        row("a J/a R(a)/", "26@2", ""),
        row("a J/b I/a T/", "26@3", ""),
        row("a J/b I/b T/", "26@3", ""),
        row("a J/b I/c 1/b (a)/", "26@4", ""),
        row("a J/b I/c 1/d (a)/a (d)/", "26@5", ""),
        row("abcdefgh J/abcdefgh J/", "26@2", ""),
        row("abcdefgh J/abcdefgi J/abcdefgh J/", "26@3", ""),
        row("a J/aa J/aaa J/aa J/", "26@4", ""),
        row("ab J/a J/b J/ba J/ab J/", "26@5", ""),
        row("a J/a R(b)/", "26@2", ""),
        row("a J/a B(b)(c)/", "26@2", ""),
        row("a J/b I/a B(a)(z)/", "26@3", ""),
    ]
}

/// Uses of names that no earlier line has.
fn unknown_names() -> Vec<Row> {
    vec![
        row("a (a)/", "27@1", ""),
        row("a H(a)J/", "27@1", ""),
        row("a (b)/", "27@1", ""),
        row("a (b)/b J/", "27@1", ""),
        row("a (b)/b (a)/", "27@1", ""),
        row("a J/b (b)/", "27@2", ""),
        row("a J/b (c)/c J/", "27@2", ""),
        row("a J/b R(c)/c (a)/", "27@2", ""),
        row("a J/b B(a)(c)/", "27@2", ""),
        row("a J/b B(c)(a)/", "27@2", ""),
        row("a J/b B(a)(b)/", "27@2", ""),
        row("a J/b B(a)B(a)B(a)B(c)(a)/", "27@2", ""),
        row("a J/b I/c (a)/d B(a)B(b)B(c)(d)/", "27@4", ""),
        row("a J/b (ab)/", "27@2", ""),
        row("a J/b (aa)/", "27@2", ""),
        row("ab J/b (a)/", "27@2", ""),
        row("ab J/c (b)/", "27@2", ""),
        row("ab J/c (ba)/", "27@2", ""),
        row("abcdefgh J/b (abcdefg)/", "27@2", ""),
        row("abcdefg J/b (abcdefgh)/", "27@2", ""),
        row("abcdefgh J/b (abcdefgx)/", "27@2", ""),
        row("abcdefgh J/b (xbcdefgh)/", "27@2", ""),
        row("abcdefgh J/b (abcdxfgh)/", "27@2", ""),
        row("abcdefgh (abcdefgh)/", "27@1", ""),
        row("a J/b I/z (y)/", "27@3", ""),
    ]
}

/// Faults of two lines: the first of them is told. Faults of one line: the first number is.
fn first_faults() -> Vec<Row> {
    vec![
        row("a (b)//", "27@1", ""),
        row("a (b)/a J/", "27@1", ""),
        row("a J/a J//", "26@2", ""),
        row("a J/a J/b (c)/", "26@2", ""),
        row("a J/b (c)/a J/", "27@2", ""),
        row("a J/b (c)/d JJ/", "27@2", ""),
        row("a J//a J/", "25@2", ""),
        row("a J//b (c)/", "25@2", ""),
        row("a J/b JJ/b (c)/", "25@2", ""),
        row("a J/a (b)J/", "25@2", ""),
        row("a J/a JJ/", "25@2", ""),
        row("a J/a (b)(c)/", "25@2", ""),
        row("a (b)J/", "25@1", ""),
        row("a (a)J/", "25@1", ""),
        row("a H(b)/", "25@1", ""),
        row("a H(b)x/", "25@1", ""),
        row("a J/a R(a/", "25@2", ""),
        row("a J/a /", "25@2", ""),
        row("a J/a/", "25@2", ""),
        row("a J/a (abcdefghi)/", "25@2", ""),
        row("a J/abcdefghi (a)/", "25@2", ""),
        row("a J/a B(b)(abcdefghi)/", "25@2", ""),
        row("a J/b I/a R(c)/d (e)/x/", "26@3", ""),
    ]
}

/// A first line of so many letters, and further lines.
fn behind_index(letters: usize, others: &str) -> Vec<u8> {
    joined(&[b"a\t", &index(letters - 1), b"\n", &written(others)])
}

/// Results of 65,535 letters together, of 65,536, and of more.
fn most_letters() -> Vec<Row> {
    let four = "b (a)/c (a)/d (a)/";
    let full = index(16_383);
    // three times 16,384 letters, and one of these
    let three = |letters: usize, others: &str| {
        joined(&[&behind_index(16_384, "b (a)/c (a)/d "), &index(letters - 1), b"\n", &written(others)])
    };
    let of_256 = |last: &str| {
        let lines: String = (2..=255).map(|number| format!("{} (a)/", name_of(number))).collect();
        behind_index(256, &format!("{lines}{} {last}/", name_of(256)))
    };
    vec![
        large("65,536 letters in four results", behind_index(16_384, four), "finished 4", &full),
        large("65,536 letters, and one more", behind_index(16_384, &format!("{four}e J/")), "no room 5", b""),
        large("65,536 letters, and a last use", behind_index(16_384, &format!("{four}e (a)/")), "no room 5", b""),
        large(
            "65,536 letters, and one by a step",
            behind_index(16_384, &format!("{four}e .II/")),
            "no room 5",
            b"",
        ),
        large(
            "65,536 letters, and two more lines",
            behind_index(16_384, &format!("{four}e J/f I/")),
            "no room 5",
            b"",
        ),
        large(
            "65,536 letters and a last line that is refused",
            behind_index(16_384, &format!("{four}e JJ/")),
            "25@5",
            b"",
        ),
        large("65,535 letters", three(16_383, ""), "finished 4", &index(16_382)),
        large("65,535 letters, and one", three(16_383, "e T/"), "finished 5", b"T"),
        large("65,535 letters, and one by a use", three(16_382, "e J/f (e)/"), "finished 6", b"J"),
        large("65,535 letters, and two", three(16_383, "e RJ/"), "no room 5", b""),
        large("65,535 letters, and one, and one", three(16_383, "e J/f J/"), "no room 6", b""),
        large("65,535 letters, and a result of one letter", three(16_383, "e .BII.JRJ/"), "finished 5", b"J"),
        large("65,535 letters, and a result of two letters", three(16_383, "e .IRJ/"), "no room 5", b""),
        large("65,535 letters, and 16,384", three(16_383, "e (a)/"), "no room 5", b""),
        large("65,534 letters, and two", three(16_382, "e RJ/"), "finished 5", b"RJ"),
        large("65,534 letters, and three", three(16_382, "e RRJ/"), "no room 5", b""),
        large("65,534 letters, and one, and two", three(16_382, "e J/f RJ/"), "no room 6", b""),
        large(
            "65,537 letters, of which the last line has 16,384",
            joined(&[b"z\tJ\n", &behind_index(16_384, four)]),
            "no room 5",
            b"",
        ),
        large("65,536 letters in 256 results", of_256("(a)"), "finished 256", &index(255)),
        large(
            "65,535 letters in 256 results",
            of_256(&String::from_utf8_lossy(&index(254))),
            "finished 256",
            &index(254),
        ),
        large("65,537 letters in 256 results", of_256("R(a)"), "no room 256", b""),
        Row {
            name: "65,536 letters, and a run that is spent or has no room".to_string(),
            played: vec![
                call(behind_index(16_384, &format!("{four}e .AIHJJAIHJJ/")), LARGEST, 10, "spent 5", b""),
                call(behind_index(16_384, &format!("{four}e .II/")), LARGEST, 0, "spent 5", b""),
                call(behind_index(16_384, &format!("{four}e R(a)/")), LARGEST, 0, "no room 5", b""),
            ],
        },
        large("a line of 16,385 letters", behind_index(16_385, ""), "no room 1", b""),
        large("a line of 16,385 letters by a use", behind_index(16_384, "b R(a)/"), "no room 2", b""),
        large("a use of 16,384 letters", behind_index(16_384, "b (a)/"), "finished 2", &full),
        large("a line of 16,384 letters by a use", behind_index(16_383, "b R(a)/"), "finished 2", &full),
        // 4 * (1 + 16,383) + 1 = 65,537 letters, and 4 * (1 + 16,383) + 65
        large("a line of 65,537 letters by uses", behind_index(16_383, "b B(a)B(a)B(a)B(a)J/"), "no room 2", b""),
        large(
            "a line of 65,601 letters by uses",
            joined(&[&behind_index(16_383, "b B(a)B(a)B(a)B(a)"), &index(64), b"\n"]),
            "no room 2",
            b"",
        ),
        Row {
            name: "pairs of pairs, 14 times".to_string(),
            played: vec![
                call(pairs_of_pairs(14), LARGEST, 0, "finished 14", &pair_of_pairs(14)),
                call(pairs_of_pairs(15), LARGEST, 0, "no room 15", b""),
                call(pairs_of_pairs(14), LARGEST - 1, 0, "finished 14", &pair_of_pairs(14)),
                call(pairs_of_pairs(14), LARGEST - 2, 0, "no room 14", b""),
            ],
        },
    ]
}

/// Each line is the pair of the line before it with itself, so that line n has 2^n - 1 letters.
fn pairs_of_pairs(lines: usize) -> Vec<u8> {
    let pair = |number: usize| format!("{} B({before})({before})/", name_of(number), before = name_of(number - 1));
    written(&format!("a J/{}", (2..=lines).map(pair).collect::<String>()))
}

fn pair_of_pairs(lines: usize) -> Vec<u8> {
    (2..=lines).fold(b"J".to_vec(), |below, _| joined(&[b"B", &below, &below]))
}

/// So many lines with the term `J`, and further ones.
fn lines_and(count: usize, others: &str) -> Vec<u8> {
    written(&((1..=count).map(|number| format!("{} J/", name_of(number))).collect::<String>() + others))
}

/// 255 lines, 256 lines, and more.
fn most_lines() -> Vec<Row> {
    let chain = |count: usize| {
        let next = |number: usize| format!("{} R({})/", name_of(number), name_of(number - 1));
        written(&format!("a J/{}", (2..=count).map(next).collect::<String>()))
    };
    let (last, before) = (name_of(256), name_of(255));
    let at_257 = ["new J/", "a J/", "new (unknown)/", "new JJ/", "/", "x/", "new (a)/", "new .AIHJJAIHJJ/"];
    let over = at_257.map(|line| call(lines_and(256, line), AMPLE, 9, "25@257", b""));
    let more = ["new J/newer J/", "//", "new J/new J/", "new J/newer x/"];
    let far_over = more.map(|lines| call(lines_and(256, lines), AMPLE, 9, "25@257", b""));
    let at = |count: usize, line: &str, reply: &str, result: &str| {
        call(lines_and(count, line), AMPLE, 9, reply, result.as_bytes())
    };
    vec![
        large("255 lines", lines_and(255, ""), "finished 255", b"J"),
        large("256 lines", lines_and(256, ""), "finished 256", b"J"),
        large("256 lines, each used by the next", chain(256), "finished 256", &index(255)),
        Row { name: "257 lines".to_string(), played: over.into() },
        Row { name: "258 lines".to_string(), played: far_over.into() },
        Row {
            name: "what line 256 holds".to_string(),
            played: vec![
                at(255, "new T/", "finished 256", "T"),
                at(255, &format!("new B(a)({before})/"), "finished 256", "BJJ"),
                at(255, &format!("new ({last})/"), "27@256", ""),
                at(255, "new (new)/", "27@256", ""),
                at(255, "a J/", "26@256", ""),
                at(255, &format!("{before} J/"), "26@256", ""),
                at(255, "new JJ/", "25@256", ""),
                at(255, "new .AIHJJAIHJJ/", "spent 256", ""),
                at(255, &format!("new R{}/", "R".repeat(64)), "25@256", ""),
                at(255, &format!("new R{}J/", "R".repeat(64)), "no room 256", ""),
            ],
        },
        Row {
            name: "257 lines, and an earlier fault".to_string(),
            played: vec![
                at(255, "a J/new J/", "26@256", ""),
                at(255, "new (new)/newer J/", "27@256", ""),
                at(255, "new JJ/newer J/", "25@256", ""),
                call(joined(&[b"one\t(two)\n", &lines_and(256, "")]), AMPLE, 9, "27@1", b""),
                call(joined(&[b"a\tT\n", &lines_and(256, "")]), AMPLE, 9, "26@2", b""),
                call(joined(&[b"\n", &lines_and(256, "")]), AMPLE, 9, "25@1", b""),
            ],
        },
        Row {
            name: "a line in the middle of 256".to_string(),
            played: vec![
                at(127, "new JJ/newer J/", "25@128", ""),
                at(128, "a J/newer J/", "26@129", ""),
                at(200, "new (newer)/newer J/", "27@201", ""),
                at(99, "new .AIHJJAIHJJ/newer J/", "spent 100", ""),
            ],
        },
        large("a thousand lines of one name", written("a J/").repeat(1_000), "26@2", b""),
        large("a thousand lines", lines_and(1_000, ""), "25@257", b""),
        large("a thousand empty lines", vec![b'\n'; 1_000], "25@1", b""),
        large("16,384 lines of one name", written("a J/").repeat(16_384), "26@2", b""),
    ]
}

/// Books of 65,535 bytes, of 65,536, and of more.
fn most_bytes() -> Vec<Row> {
    // four lines; the last has so many bytes more than the 16,384 of each of the others
    let four = |more: isize| {
        let line =
            |name: &str, more: isize| joined(&[name.as_bytes(), b"\t", &index((16_380 + more) as usize), b"\n"]);
        [line("a", 0), line("b", 0), line("c", 0), line("d", more)].concat()
    };
    let one = |letters: usize| behind_index(letters, "");
    let used = {
        let uses = "B(abcdefgh)".repeat(5_956);
        written(&format!("abcdefgh J/b RRRRR{uses}J/"))
    };
    let used_result = joined(&[b"RRRRR", &repeated("BJ", 5_956), b"J"]);
    let refused = |name: &str, book: Vec<u8>, reply: &str| large(name, book, reply, b"");
    assert_eq!([four(0).len(), one(65_533).len(), used.len()], [MOST_BYTES; 3], "so many bytes are the most");
    vec![
        large("a book of 65,535 bytes", four(-1), "finished 4", &index(16_379)),
        large("a book of 65,536 bytes", four(0), "finished 4", &index(16_380)),
        refused("a book of 65,537 bytes", four(1), "10@0"),
        refused("a book of 65,538 bytes", four(2), "10@0"),
        large("65,536 bytes, most of them uses", used.clone(), "finished 2", &used_result),
        refused("65,537 bytes, most of them uses", joined(&[&used, b"\n"]), "10@0"),
        refused("one line of 65,536 bytes", one(65_533), "no room 1"),
        refused("one line of 65,537 bytes", one(65_534), "10@0"),
        refused(
            "one line of 65,536 bytes that ends in R",
            joined(&[b"a\t", &repeated("R", 65_533), b"\n"]),
            "25@1",
        ),
        refused(
            "one line of 65,536 bytes that opens uses",
            joined(&[b"a\t", &repeated("(", 65_533), b"\n"]),
            "25@1",
        ),
        refused("one line of 65,536 bytes with no tab", joined(&[&repeated("a", 65_535), b"\n"]), "25@1"),
        refused("one line of 65,536 tabs", joined(&[&repeated("\t", 65_535), b"\n"]), "25@1"),
        refused("16,381 uses", written(&format!("a J/b {}J/", "B(a)".repeat(16_381))), "no room 2"),
        refused("65,536 line feeds", vec![b'\n'; 65_536], "25@1"),
        refused("65,537 line feeds", vec![b'\n'; 65_537], "10@0"),
        refused("65,536 bytes that do not end in a line feed", vec![b'J'; 65_536], "12@0"),
        refused("65,537 bytes that do not end in a line feed", vec![b'J'; 65_537], "10@0"),
        refused("65,536 zeros", vec![0; 65_536], "12@0"),
        refused("65,537 zeros", vec![0; 65_537], "10@0"),
        refused("a million bytes", lines_and(100_000, ""), "10@0"),
        refused("no bytes", vec![], "11@0"),
        refused("one line feed", b"\n".to_vec(), "25@1"),
        refused("no last line feed", b"a\tJ".to_vec(), "12@0"),
        refused("no last line feed behind a line", b"a\tJ\nb\tJ".to_vec(), "12@0"),
        refused("no last line feed behind a fault", b"\nb".to_vec(), "12@0"),
        refused("a carriage return behind the last line feed", b"a\tJ\n\r".to_vec(), "12@0"),
        refused("a zero behind the last line feed", b"a\tJ\n\0".to_vec(), "12@0"),
        refused("a tab behind the last line feed", b"a\tJ\n\t".to_vec(), "12@0"),
        refused("a carriage return in the place of the line feed", b"a\tJ\r".to_vec(), "12@0"),
        refused("carriage returns before line feeds", b"a\tJ\r\nb\tI\r\n".to_vec(), "25@1"),
        refused("byte 11", b"a\tJ\x0b".to_vec(), "12@0"),
        refused("one byte", b"x".to_vec(), "12@0"),
    ]
}

/// Work areas and stores of any size, with bytes behind what is needed.
fn lent_sizes() -> Vec<Row> {
    let of = |book: &str, area: usize, work: usize, store: usize, reply: &str, result: &str| {
        let book = written(book);
        Played { book, area, work, store, fuel: 9, reply: reply.to_string(), result: result.as_bytes().to_vec() }
    };
    let (good, forever) = ("a .II/b B(a)(a)/", "a J/b .AIHJJAIHJJ/");
    let named = |name: &str, played: Vec<Played>| Row { name: name.to_string(), played };
    let works = [0, 1, 2, 63, 64, 1_000, 70_000];
    let stores = [0, 1, 2, 64, 4_096, 65_536, 100_000];
    vec![
        named("longer work areas", works.map(|more| of(good, 9, 9 + more, STORE, "finished 2", "BII")).into()),
        named(
            "longer work areas, spent",
            works.map(|more| of(forever, AMPLE, AMPLE + more, STORE, "spent 2", "")).into(),
        ),
        named(
            "longer work areas, no room",
            works.map(|more| of(good, 2, 2 + more, STORE, "no room 1", "")).into(),
        ),
        named("work areas beside no area", works.map(|work| of("a J/", 0, work, STORE, "no room 1", "")).into()),
        named("longer stores", stores.map(|more| of(good, 9, 9, STORE + more, "finished 2", "BII")).into()),
        named(
            "longer stores, spent",
            stores.map(|more| of(forever, AMPLE, AMPLE, STORE + more, "spent 2", "")).into(),
        ),
        named("longer stores, no room", stores.map(|more| of(good, 2, 2, STORE + more, "no room 1", "")).into()),
        named("longer stores, refused", stores.map(|more| of("a J/b JJ/", 9, 9, STORE + more, "25@2", "")).into()),
        named("longer stores, full", {
            let book = |others: &str| behind_index(16_384, &format!("b (a)/c (a)/d (a)/{others}"));
            let at = |book, more, reply: &str, result: &[u8]| Played {
                store: STORE + more,
                ..call(book, LARGEST, 0, reply, result)
            };
            vec![
                at(book(""), 1, "finished 4", &index(16_383)),
                at(book("e J/"), 1, "no room 5", b""),
                at(book("e J/"), 100_000, "no room 5", b""),
            ]
        }),
        named(
            "stores that are too short",
            [0, 1, 4, 1_024, 32_768, 65_534, 65_535].map(|store| of(good, 9, 9, store, "2@0", "")).into(),
        ),
        named(
            "work areas that are too short",
            [0, 1, 7, 8].map(|work| of(good, 9, work, STORE, "2@0", "")).into(),
        ),
        named(
            "the largest area",
            vec![
                of(good, 16_383, 16_383, STORE, "finished 2", "BII"),
                of(good, 16_384, 16_384, STORE, "finished 2", "BII"),
                of(good, 16_384, 16_385, STORE, "finished 2", "BII"),
                of(good, 16_384, 16_383, STORE, "2@0", ""),
                of(good, 16_385, 16_385, STORE, "1@0", ""),
                of(good, 16_385, 70_000, 70_000, "1@0", ""),
                of(good, 65_536, 65_536, STORE, "1@0", ""),
                of(good, 81_920, 81_920, STORE, "1@0", ""),
            ],
        ),
        named(
            "every area from none on",
            (0..40)
                .map(|area| match area {
                    0..3 => of(good, area, area, STORE, "no room 1", ""),
                    _ => of(good, area, area, STORE, "finished 2", "BII"),
                })
                .collect(),
        ),
    ]
}

/// Faults of what is lent and of the book, any of them at once: the first in the order is told.
fn orders() -> Vec<Row> {
    let books: [(&str, Vec<u8>, &str); 12] = [
        ("a good book", written("a .II/b B(a)(a)/"), ""),
        ("a book that is spent", written("a .AIHJJAIHJJ/"), ""),
        ("a book without room", written(&format!("a {}J/", "R".repeat(100))), ""),
        ("65,537 bytes", [&vec![b'J'; 65_536][..], b"\n"].concat(), "10@0"),
        ("65,537 bytes and no last line feed", vec![b'J'; 65_537], "10@0"),
        ("65,537 line feeds", vec![b'\n'; 65_537], "10@0"),
        ("no bytes", vec![], "11@0"),
        ("no last line feed", b"a\tJ\nb\tJ".to_vec(), "12@0"),
        ("no last line feed behind a bad line", b"\nx".to_vec(), "12@0"),
        ("a bad line", written("a J/b JJ/"), "25@2"),
        ("a name that is taken", written("a J/a J/"), "26@2"),
        ("a name that is unknown", written("a J/b (c)/"), "27@2"),
    ];
    let answers = ["finished 2", "spent 1", "no room 1"];
    let mut rows = vec![];
    for (number, (name, book, fault)) in books.into_iter().enumerate() {
        let mut played = vec![];
        for faults in 0..16 {
            let [area, work, store, fuel] = [1, 2, 4, 8].map(|bit| faults & bit != 0);
            let size = if area { LARGEST + 1 } else { AMPLE };
            let reply = match (area, work || store, fuel) {
                (true, _, _) => "1@0",
                (_, true, _) => "2@0",
                (_, _, true) => "4@0",
                _ if fault.is_empty() => answers[number],
                _ => fault,
            };
            let result: &[u8] = if reply == "finished 2" { b"BII" } else { b"" };
            played.push(Played {
                book: book.clone(),
                area: size,
                work: if work { size - 1 } else { size },
                store: if store { STORE - 1 } else { STORE },
                fuel: if fuel { MOST_FUEL + 1 } else { 20 },
                reply: reply.to_string(),
                result: result.to_vec(),
            });
        }
        rows.push(Row { name: format!("{name}, and faults of what is lent"), played });
    }
    rows
}
