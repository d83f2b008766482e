//! Entries into a catalogue: what the store holds, the texts that are entered one after the other, and their replies.

use crate::stores::*;
use crate::terms::{index, joined, repeated};

pub struct Row {
    pub name: String,
    /// The results in the store; not looked at where every entry is refused.
    pub held: Vec<Vec<u8>>,
    pub store: Vec<u8>,
    /// Each text with its reply: `number@place`, or the number in the catalogue. Where that is the next one the text is
    /// then the last of the results.
    pub entries: Vec<(Vec<u8>, String)>,
}

fn entries(entries: &[(&str, &str)]) -> Vec<(Vec<u8>, String)> {
    entries.iter().map(|(text, reply)| (text.as_bytes().to_vec(), reply.to_string())).collect()
}

/// Entries into the catalogue of these results.
fn row(held: &[&str], given: &[(&str, &str)]) -> Row {
    let replies: Vec<String> = given.iter().map(|(text, reply)| format!("{text:?} {reply}")).collect();
    let name = format!("into {held:?}: {}", replies.join(", "));
    named(&name, held.iter().map(|text| text.as_bytes().to_vec()).collect(), entries(given))
}

fn named(name: &str, held: Vec<Vec<u8>>, entries: Vec<(Vec<u8>, String)>) -> Row {
    Row { name: name.to_string(), store: store_of(&held), held, entries }
}

/// A store that is none: every entry is refused by 28, also where the text has a fault of its own.
fn no_catalogue(name: &str, store: Vec<u8>) -> Row {
    let texts = ["J", "I", "T", "RJ", ".II", "Jx", "xJ", ""].map(|text| (text, "28@0"));
    Row { name: format!("28 where {name}"), held: vec![], store, entries: entries(&texts) }
}

pub fn rows() -> Vec<Row> {
    let good = [edges(), letters(), repeats(), fingerprints(), unreadable(), full_stops(), large_terms()];
    let bad = [
        bad_fronts(),
        gaps(),
        no_results(),
        bad_fingerprints(),
        stray_bytes(),
        bad_sizes(),
        bad_texts(),
        rubbish(),
    ];
    let full = [most_results(), most_letters(), orders()];
    good.into_iter().chain(bad).chain(full).flatten().collect()
}

/// The rows of the requirements.
fn edges() -> Vec<Row> {
    vec![
        row(&[], &[("J", "1")]),
        row(&[], &[("J", "1"), ("I", "2"), ("J", "1")]),
        row(&[], &[("A0T", "1"), ("A15", "2")]),
        row(&[], &[("BARJIAJJ", "1"), ("ARJRRRHII", "2")]),
        row(&[], &[(".II", "29@0")]),
        row(&[], &[("Jx", "7@1")]),
    ]
}

/// The bytes of a new store behind these entries, as the requirements lay them down: the first ones, and the texts.
pub const BYTES: [(&[&str], &[u8], &[u8]); 6] = [
    (&["J"], &[0x4a, 0, 0, 0, 1, 0, 0, 0, 0], b"J\0"),
    (&["J", "I"], &[0x4a, 0, 0, 0, 1, 0, 0, 0, 0x49, 0, 0, 0, 1, 0, 0, 0, 0], b"JI\0"),
    // 82 * 31 + 74 = 2616
    (&["RJ"], &[0x38, 0x0a, 0, 0, 2, 0, 0, 0, 0], b"RJ\0"),
    // 64037 = 0xfa25
    (&["A0T", "A15"], &[0x25, 0xfa, 0, 0, 3, 0, 0, 0, 0x25, 0xfa, 0, 0, 3, 0, 0, 0, 0], b"A0TA15\0"),
    // 72 * 961 + 49 * 31 + 84 = 70795 = 0x1148b
    (&["H1T", "T"], &[0x8b, 0x14, 1, 0, 3, 0, 0, 0, 0x54, 0, 0, 0, 1, 0, 0, 0, 0], b"H1TT\0"),
    // 3332700047 = 0xc6a4f78f
    (
        &["BARJIAJJ", "ARJRRRHII"],
        &[0x8f, 0xf7, 0xa4, 0xc6, 8, 0, 0, 0, 0x8f, 0xf7, 0xa4, 0xc6, 9, 0, 0, 0, 0],
        b"BARJIAJJARJRRRHII\0",
    ),
];

/// Every letter, alone or in front of others; each bell is a result of its own.
fn letters() -> Vec<Row> {
    let alone = ["J", "I", "1", "2", "3", "4", "5", "6", "7", "8", "9", "0", "E", "T"];
    let numbered: Vec<(&str, String)> =
        alone.into_iter().zip((1..).map(|number: u8| number.to_string())).collect();
    let twice: Vec<(&str, &str)> =
        numbered.iter().chain(&numbered).map(|(text, number)| (*text, number.as_str())).collect();
    vec![
        row(&[], &twice),
        row(&[], &[("RJ", "1"), ("RI", "2"), ("R0", "3"), ("RRJ", "4"), ("RI", "2")]),
        row(&[], &[("HJJ", "1"), ("AJJ", "2"), ("BJJ", "3"), ("HJJ", "1"), ("AJJ", "2"), ("BJJ", "3")]),
        row(&[], &[("B1B2I", "1"), ("B2B1I", "2"), ("BTBEB0I", "3"), ("B1B2I", "1")]),
        row(&["AB1B2IHRJHRRJJ"], &[("AB2B1IHRJHRRJJ", "2"), ("AB1B2IHRJHRRJJ", "1")]),
    ]
}

/// Results that come again, and those of which one is the beginning, the end or a part of another.
fn repeats() -> Vec<Row> {
    vec![
        row(&["J"], &[("J", "1"), ("J", "1")]),
        row(&["J", "I"], &[("I", "2"), ("J", "1"), ("I", "2"), ("T", "3"), ("J", "1"), ("T", "3"), ("I", "2")]),
        row(&["RJ"], &[("J", "2"), ("RRJ", "3"), ("RRRJ", "4"), ("RRJ", "3"), ("J", "2"), ("RJ", "1")]),
        row(&["HJI"], &[("HIJ", "2"), ("HJJ", "3"), ("HII", "4"), ("AJI", "5"), ("BJI", "6"), ("HJI", "1")]),
        row(&["HJHJI"], &[("HJI", "2"), ("HHJII", "3"), ("HHJIJ", "4"), ("HJI", "2"), ("HJHJI", "1")]),
        row(&["BEI", "BTI"], &[("BEJ", "3"), ("BTI", "2"), ("BEI", "1"), ("BTJ", "4")]),
        // the letters of both together, cut elsewhere
        row(&["J", "RJ"], &[("RRJ", "3"), ("J", "1"), ("RJ", "2")]),
        row(&["J", "HJJ", "I"], &[("HJJ", "2"), ("I", "3"), ("J", "1"), ("HJI", "4")]),
        row(
            &["I", "J", "1", "T", "RJ"],
            &[("RJ", "5"), ("T", "4"), ("1", "3"), ("J", "2"), ("I", "1"), ("E", "6")],
        ),
    ]
}

/// Results with one fingerprint: a pair of letters `0T` counts as `15`, `IT` as `J5`, `8T` as `95`.
fn fingerprints() -> Vec<Row> {
    let four = ["BA0TA0T", "BA0TA15", "BA15A0T", "BA15A15"];
    let [a, b, c, d] = four;
    vec![
        row(&[], &[("A0T", "1"), ("A15", "2"), ("A0T", "1"), ("A15", "2")]),
        row(&["A15"], &[("A0T", "2"), ("A15", "1")]),
        row(&["J", "A0T", "I"], &[("A15", "4"), ("A0T", "2"), ("A15", "4")]),
        row(&["HIT"], &[("HJ5", "2"), ("HIT", "1")]),
        row(&["B8T", "B95"], &[("B8T", "1"), ("B95", "2")]),
        row(&[], &[(a, "1"), (b, "2"), (c, "3"), (d, "4"), (a, "1"), (b, "2"), (c, "3"), (d, "4")]),
        row(&[d, c, b], &[(a, "4"), (b, "3"), (c, "2"), (d, "1")]),
        row(&["BARJIAJJ"], &[("ARJRRRHII", "2"), ("BARJIAJJ", "1")]),
        row(&["ARJRRRHII"], &[("BARJIAJJ", "2"), ("ARJRRRHII", "1"), ("BARJIAJJ", "2")]),
    ]
}

/// Texts that reading refuses, whatever is in the catalogue.
fn unreadable() -> Vec<Row> {
    let texts = [
        ("", "6@0"),
        ("R", "6@1"),
        ("HJ", "6@2"),
        ("R.", "6@2"),
        (".", "6@1"),
        (".I", "6@2"),
        ("H.IJ", "6@4"),
        ("xJ", "5@0"),
        ("K", "5@0"),
        ("HxJJ", "5@1"),
        (".xI", "5@1"),
        ("R\0", "5@1"),
        ("JJ", "7@1"),
        ("Jx", "7@1"),
        ("J.", "7@1"),
        ("J\0", "7@1"),
        (".II.", "7@3"),
        (".JJJ", "7@3"),
        ("HJJ1", "7@3"),
    ];
    vec![row(&[], &texts), row(&["J"], &texts), row(&["I", "HJJ", "A0T"], &texts)]
}

/// Terms with a full stop, in every place.
fn full_stops() -> Vec<Row> {
    let texts = [
        ".II",
        ".JJ",
        ".1T",
        "R.II",
        "RR.II",
        "H.IIJ",
        "HJ.II",
        "A.III",
        "AI.II",
        "B.1TI",
        "B1.II",
        "..III",
        ".I.II",
        "HHJ.IIJ",
        "BIBIB1.JT",
        "RRRRRRRR.JJ",
    ];
    let refused: Vec<(&str, &str)> = texts.into_iter().map(|text| (text, "29@0")).collect();
    vec![row(&[], &refused), row(&["I"], &refused), row(&["J", "I", "A0T", "H1T"], &refused)]
}

/// A text of so many letters that differs from others in its last one.
fn ending(size: usize, last: &str) -> Vec<u8> {
    joined(&[&repeated("R", size - 1), last.as_bytes()])
}

fn entry(text: Vec<u8>, reply: &str) -> (Vec<u8>, String) {
    (text, reply.to_string())
}

/// Results that are larger than any term area.
fn large_terms() -> Vec<Row> {
    [255, 256, 257, 16_383, 16_384, 16_385, 20_000, 32_000]
        .map(|size| {
            let [one, two] = ["J", "T"].map(|last| ending(size, last));
            let given = vec![entry(one.clone(), "1"), entry(two.clone(), "2"), entry(one, "1"), entry(two, "2")];
            named(&format!("results of {size} letters"), vec![], given)
        })
        .into()
}

const J: u32 = 74;
const I: u32 = 73;

/// Fingerprint, size and text that do not go together.
fn bad_fronts() -> Vec<Row> {
    vec![
        no_catalogue("a fingerprint has no size", store_with(&[(J, 0)], b"")),
        no_catalogue("a fingerprint and a text have no size", store_with(&[(J, 0)], b"J")),
        no_catalogue("a size and a text have no fingerprint", store_with(&[(0, 1)], b"J")),
        no_catalogue("a result has no text", store_with(&[(J, 1)], b"")),
        no_catalogue("a result has a zero for its text", store_with(&[(0, 1)], b"")),
        no_catalogue("a text has neither fingerprint nor size", store_with(&[], b"J")),
        no_catalogue("a text begins one byte late", store_with(&[(J, 1)], b"\0J")),
        no_catalogue("the second text begins one byte late", store_with(&[(J, 1), (I, 1)], b"J\0I")),
        no_catalogue("the texts are exchanged", store_with(&[(J, 1), (I, 1)], b"IJ")),
        no_catalogue("size and fingerprint are exchanged", store_with(&[(1, J)], b"J")),
        no_catalogue("the fingerprint's high byte is first", store_with(&[(J << 24, 1)], b"J")),
        no_catalogue("the size's high byte is first", store_with(&[(J, 1 << 24)], b"J")),
        no_catalogue("a fingerprint has no size behind a result", store_with(&[(J, 1), (I, 0)], b"J")),
        no_catalogue("a text has no size behind a result", store_with(&[(J, 1), (I, 0)], b"JI")),
        no_catalogue("a second text is told by nothing", store_with(&[(J, 1)], b"JI")),
    ]
}

/// A result behind one that there is not.
fn gaps() -> Vec<Row> {
    let last = |front| [vec![(0, 0); MOST_RESULTS - 1], vec![front]].concat();
    vec![
        no_catalogue("the first result is left out", store_with(&[(0, 0), (J, 1)], b"J")),
        no_catalogue("the second of three is left out", store_with(&[(J, 1), (0, 0), (I, 1)], b"JI")),
        no_catalogue("the second of three has no size", store_with(&[(J, 1), (7, 0), (I, 1)], b"JI")),
        no_catalogue("the last result stands alone", store_with(&last((J, 1)), b"J")),
        no_catalogue("the last result has a fingerprint alone", store_with(&last((J, 0)), b"")),
        no_catalogue("the last result has a size alone", store_with(&last((0, 1)), b"")),
    ]
}

/// Results that are none, or are there twice.
fn no_results() -> Vec<Row> {
    vec![
        no_catalogue("a result is there twice", store_with(&[(J, 1), (J, 1)], b"JJ")),
        no_catalogue("a result comes again", store_with(&[(J, 1), (I, 1), (J, 1)], b"JIJ")),
        no_catalogue("the last two are one", store_with(&[(J, 1), (I, 1), (I, 1)], b"JII")),
        no_catalogue("of two with one fingerprint one is there twice", store_of(&["A0T", "A15", "A0T"])),
        no_catalogue("a result of 300 letters is there twice", store_of(&[ending(300, "J"), ending(300, "J")])),
        // 46 * 961 + 73 * 31 + 73 = 46542, and 82 * 29791 more
        no_catalogue("a full stop stands first", store_with(&[(46_542, 3)], b".II")),
        no_catalogue("a full stop stands in the second", store_with(&[(J, 1), (46_542, 3)], b"J.II")),
        no_catalogue("a full stop stands behind R", store_with(&[(2_489_404, 4)], b"R.II")),
        no_catalogue("a full stop stands in the middle", store_of(&["J", "HJ.IT", "I"])),
        no_catalogue("a full stop stands last of all", store_of(&["J", "I", "BIBI.JT"])),
    ]
}

/// The fingerprint is that of another text.
fn bad_fingerprints() -> Vec<Row> {
    let wrong = |name: &str, fronts: &[(u32, u32)], letters: &[u8]| {
        no_catalogue(&format!("a fingerprint is {name}"), store_with(fronts, letters))
    };
    vec![
        wrong("one too large", &[(J + 1, 1)], b"J"),
        wrong("one too small", &[(J - 1, 1)], b"J"),
        wrong("wrong in its second byte", &[(J + (1 << 8), 1)], b"J"),
        wrong("wrong in its third byte", &[(J + (1 << 16), 1)], b"J"),
        wrong("wrong in its fourth byte", &[(J + (1 << 24), 1)], b"J"),
        wrong("wrong in its highest bit", &[(J | 1 << 31, 1)], b"J"),
        wrong("that of the other", &[(I, 1), (J, 1)], b"JI"),
        wrong("wrong in the second", &[(J, 1), (J, 1)], b"JI"),
        wrong("wrong in the last of three", &[(J, 1), (I, 1), (0, 1)], b"JIT"),
        // 82 + 74 * 31 = 2376
        wrong("made from behind", &[(2_376, 2)], b"RJ"),
        wrong("made by 33", &[(82 * 33 + 74, 2)], b"RJ"),
        wrong("made from 1 on", &[(31 + J, 1)], b"J"),
        wrong("without the last letter", &[(82, 2)], b"RJ"),
        wrong("without the first letter", &[(J, 2)], b"RJ"),
        wrong("cut to 31 bits", &[(3_332_700_047 & 0x7fff_ffff, 8)], b"BARJIAJJ"),
        wrong("cut to 24 bits", &[(3_332_700_047 & 0xff_ffff, 8)], b"BARJIAJJ"),
        wrong("the largest number", &[(u32::MAX, 8)], b"BARJIAJJ"),
    ]
}

/// One byte that is not zero where zeros must stand.
fn stray_bytes() -> Vec<Row> {
    let put = |held: &[&str], place: usize, byte: u8| {
        let mut store = store_of(held);
        store[place] = byte;
        no_catalogue(&format!("byte {place} of the store of {held:?} is {byte}"), store)
    };
    let in_new = [0, 3, 4, 7, 8, 1_000, 2_040, 2_043, 2_044, 2_047, 2_048, 2_049, 40_000, 67_582, 67_583];
    let behind =
        [8, 11, 12, 13, 15, 16, 20, 1_023, 2_040, 2_044, 2_047, 2_049, 2_050, 16_384, 65_535, 65_536, 67_583];
    let new = in_new.into_iter().flat_map(|place| [1, b'J'].map(|byte| put(&[], place, byte)));
    let used = behind.into_iter().flat_map(|place| [1, b'J', 255].map(|byte| put(&["J"], place, byte)));
    new.chain(used).collect()
}

/// Sizes that cut a term or join two, or that are more than there can be.
fn bad_sizes() -> Vec<Row> {
    let wrong =
        |name: &str, fronts: &[(u32, u32)], letters: &[u8]| no_catalogue(name, store_with(fronts, letters));
    let long = ending(MOST_LETTERS, "J");
    let print = fingerprint(&long);
    vec![
        wrong("a term is cut into no term and one", &[(2_306, 2), (J, 1)], b"HJJ"),
        wrong("a term is cut behind its first letter", &[(72, 1), (2_368, 2)], b"HJJ"),
        wrong("a term is cut into two", &[(82, 1), (J, 1)], b"RJ"),
        wrong("two terms are joined", &[(2_367, 2)], b"JI"),
        wrong("two terms are joined behind one", &[(49, 1), (2_367, 2)], b"1JI"),
        wrong("the sizes of two results are exchanged", &[(J, 2), (2_616, 1)], b"JRJ"),
        wrong("the sizes of three results are others", &[(J, 2), (2_616, 2), (I, 1)], b"JRJI"),
        wrong("a size is one too small", &[(2_616, 1)], b"RJ"),
        wrong("a size is one too large", &[(J * 31, 2)], b"J"),
        wrong("a size is wrong in its second byte", &[(J, 257)], b"J"),
        wrong("a size is wrong in its third byte", &[(J, 65_537)], b"J"),
        wrong("a size is wrong in its fourth byte", &[(J, (1 << 24) + 1)], b"J"),
        wrong("a size is wrong in its highest bit", &[(J, (1 << 31) + 1)], b"J"),
        wrong("a size is the largest number", &[(J, u32::MAX)], b"J"),
        wrong("a size takes all letters, and they are not there", &[(J, 65_536)], b"J"),
        wrong("two sizes wrap 32 bits", &[(J, u32::MAX), (I, 2)], b"J"),
        wrong("three sizes wrap 32 bits", &[(J, 1), (I, u32::MAX), (84, 2)], b"JIT"),
        wrong("two sizes wrap 32 bits to none", &[(J, 1 << 31), (I, 1 << 31)], b""),
        wrong("two sizes wrap 32 bits to none, with texts", &[(J, 1 << 31), (I, 1 << 31)], b"JI"),
        wrong("a size of one wraps back to it", &[(J, 1), (I, u32::MAX), (J, 1), (0, 1)], b"J"),
        wrong("a size is one more than all letters", &[(print, 65_537)], &long),
        wrong("a result of one letter is behind all letters", &[(print, 65_536), (J, 1)], &long),
        wrong("a result of no letter is behind all letters", &[(print, 65_536), (J, 0)], &long),
        wrong("all letters and a size of 2^32 less one", &[(print, 65_536), (J, u32::MAX), (I, 1)], &long),
    ]
}

/// Texts that are no terms, each with its own fingerprint and size.
fn bad_texts() -> Vec<Row> {
    let texts: [&[u8]; 18] = [
        b"x", b"K", b"j", b"#", b" ", b"\n", b"\xca", b"\xff", b"\x01", b"R", b"H", b"HJ", b"JJ", b"R\0J", b"HxJ",
        b"RRR", b"JIJ", b"BJx",
    ];
    let alone = texts.map(|text| no_catalogue(&format!("the text is {}", text.escape_ascii()), store_of(&[text])));
    let behind = texts.map(|text| {
        let store = store_of(&[&b"J"[..], b"H1T", text, b"I"]);
        no_catalogue(&format!("the third of four texts is {}", text.escape_ascii()), store)
    });
    alone.into_iter().chain(behind).collect()
}

/// Stores in which nothing was kept.
fn rubbish() -> Vec<Row> {
    let all = [1, b'#', b'J', b'R', 128, 255];
    let whole = all.map(|byte| no_catalogue(&format!("every byte is {byte}"), vec![byte; STORE]));
    let mut behind = store_of(&["J"]);
    behind[TEXTS + 1..].fill(b'J');
    let mut fronts = store_of(&["J"]);
    fronts[FRONT..TEXTS].fill(1);
    let others = [
        no_catalogue("every byte behind the texts is a letter", behind),
        no_catalogue("every byte behind the fronts is 1", fronts),
    ];
    whole.into_iter().chain(others).collect()
}

/// As many results as there may be: a known one has its number, and no other gets one.
fn most_results() -> Vec<Row> {
    let some = small_results(MOST_RESULTS + 2);
    let held = |count: usize| some[..count].to_vec();
    let at = |number: usize| entry(some[number - 1].clone(), &number.to_string());
    let full = |number: usize| entry(some[number - 1].clone(), "30@0");
    let known = [1, 2, 3, 128, 254, 255].map(at);
    let again = [&known[..], &[at(256)]].concat();
    vec![
        named(
            "254 results, and two more",
            held(254),
            [&[at(255), at(256), full(257), at(256), at(255)], &again[..]].concat(),
        ),
        named(
            "255 results, and one more",
            held(255),
            [&known[..], &[at(256), full(257), full(258)], &again].concat(),
        ),
        named("256 results, each again", held(256), (1..=256).map(at).collect()),
        named("256 results, and another", held(256), [&[full(257), full(258)], &again[..], &[full(257)]].concat()),
        named(
            "256 results, and large ones",
            held(256),
            [ending(60_000, "J"), ending(70_000, "T")].map(|text| entry(text, "30@0")).into(),
        ),
        named(
            "256 results in another order",
            some[..256].iter().rev().cloned().collect(),
            (1..=256).map(|number| entry(some[256 - number].clone(), &number.to_string())).collect(),
        ),
    ]
}

/// As many letters as there may be: what they leave room for is entered, and what needs one more is not.
fn most_letters() -> Vec<Row> {
    let whole = |size, last, reply: &str| entry(ending(size, last), reply);
    let short = |text: &str, reply: &str| entry(text.as_bytes().to_vec(), reply);
    let four: Vec<Vec<u8>> = ["J", "I", "1", "T"].map(|last| ending(16_384, last)).into();
    let again = |reply: &str| entry(four[reply.parse::<usize>().unwrap_or(1) - 1].clone(), reply);
    vec![
        named(
            "65,536 letters in one",
            vec![],
            vec![
                whole(65_536, "J", "1"),
                short("J", "30@0"),
                whole(65_536, "J", "1"),
                whole(65_536, "I", "30@0"),
                short("I", "30@0"),
            ],
        ),
        named(
            "65,537 letters",
            vec![],
            vec![whole(65_537, "J", "30@0"), short("J", "1"), whole(65_537, "J", "30@0")],
        ),
        named(
            "65,535 letters, and one more",
            vec![],
            vec![
                whole(65_535, "T", "1"),
                short("RJ", "30@0"),
                short("J", "2"),
                short("I", "30@0"),
                short("J", "2"),
                whole(65_535, "T", "1"),
            ],
        ),
        named(
            "65,536 letters beside one of one",
            vec![b"J".to_vec()],
            vec![
                whole(65_536, "T", "30@0"),
                whole(65_535, "T", "2"),
                short("I", "30@0"),
                short("J", "1"),
                whole(65_535, "T", "2"),
            ],
        ),
        named(
            "four times 16,384 letters",
            four.clone(),
            vec![
                short("J", "30@0"),
                again("1"),
                again("2"),
                again("3"),
                again("4"),
                whole(16_384, "E", "30@0"),
                whole(16_383, "J", "30@0"),
            ],
        ),
        named(
            "three times 16,384 letters, and as many again",
            four[..3].to_vec(),
            vec![whole(16_385, "T", "30@0"), whole(16_384, "T", "4"), short("T", "30@0"), again("3"), again("4")],
        ),
        named(
            "six letters left: seven are refused, and six are not",
            vec![ending(65_530, "J")],
            vec![
                whole(7, "T", "30@0"),
                whole(6, "T", "2"),
                short("I", "30@0"),
                whole(6, "T", "2"),
                whole(65_530, "J", "1"),
            ],
        ),
        named(
            "six letters left for one, two and three",
            vec![ending(65_530, "J")],
            vec![
                short("HJHJJHJJ", "7@5"),
                short("HJHJHJJ", "30@0"),
                short("J", "2"),
                short("RJ", "3"),
                short("RRRJ", "30@0"),
                short("RRJ", "4"),
                short("I", "30@0"),
                short("RJ", "3"),
            ],
        ),
        named(
            "a result of 65,536 letters with full stops",
            vec![],
            vec![
                entry(joined(&[&repeated("R", 65_533), b".II"]), "29@0"),
                entry(joined(&[&repeated("R", 65_534), b".II"]), "29@0"),
            ],
        ),
        named(
            "a result of a million letters",
            vec![b"J".to_vec()],
            vec![
                entry(index(999_999), "30@0"),
                entry(joined(&[&repeated("R", 999_999), b".II"]), "29@0"),
                entry(repeated("R", 1_000_000), "6@1000000"),
            ],
        ),
        named(
            "256 results of 256 letters",
            alike(256, 256, false),
            vec![short("J", "30@0"), short(".II", "29@0"), short("Jx", "7@1")],
        ),
        named(
            "255 results of 256 letters, and a last one of 257 or 256",
            alike(255, 256, false),
            vec![whole(257, "J", "30@0"), whole(256, "J", "256"), short("J", "30@0"), whole(256, "J", "256")],
        ),
    ]
}

/// Two refusals or more at once: the first in the order is given.
fn orders() -> Vec<Row> {
    let refused = [
        ("", "6@0"),
        (".", "6@1"),
        ("R.I", "6@3"),
        (".Ix", "5@2"),
        ("x.II", "5@0"),
        (".II.", "7@3"),
        ("J.II", "7@1"),
        (".II", "29@0"),
        ("H.IJ.JJ", "29@0"),
        ("J", "30@0"),
    ];
    let results: Vec<Vec<u8>> = small_results(MOST_RESULTS + 1).into_iter().filter(|text| text != b"J").collect();
    vec![
        named("256 results, and faults of the term", results, entries(&refused)),
        named("65,536 letters, and faults of the term", vec![ending(MOST_LETTERS, "I")], entries(&refused)),
        named(
            "65,535 letters, and faults of the term",
            vec![ending(MOST_LETTERS - 1, "I")],
            entries(&refused[..9]),
        ),
    ]
}
