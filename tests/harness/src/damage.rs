//! Damage to bytes and to the lines and fields of a derivation file.

use crate::random::Random;
use crate::terms::LETTERS;

/// One random change to the bytes, with letters out of `alphabet` where one is put in.
pub fn damaged(random: &mut Random, bytes: &[u8], alphabet: &[u8]) -> Vec<u8> {
    let mut bytes = bytes.to_vec();
    let place = random.below(bytes.len() + 1);
    let letter = if random.once_in(6) { random.byte() } else { *random.pick(alphabet) };
    match random.below(5) {
        0 if place < bytes.len() => bytes[place] = letter,
        1 if place < bytes.len() => drop(bytes.remove(place)),
        2 => bytes.truncate(place),
        3 if place < bytes.len() => {
            let other = random.below(bytes.len());
            bytes.swap(place, other);
        }
        _ => bytes.insert(place, letter),
    }
    bytes
}

/// A file as lines of fields.
pub type Lines = Vec<Vec<Vec<u8>>>;

pub fn split(file: &[u8]) -> Lines {
    let whole = file.strip_suffix(b"\n").unwrap_or(file);
    let line = |line: &[u8]| line.split(|&byte| byte == b'\t').map(<[u8]>::to_vec).collect();
    whole.split(|&byte| byte == b'\n').map(line).collect()
}

pub fn join(lines: &Lines) -> Vec<u8> {
    lines.iter().flat_map(|line| [line.join(&b'\t'), b"\n".to_vec()].concat()).collect()
}

/// Texts to put in place of a field, whichever it is.
const FIELDS: &[&[u8]] = &[
    b"",
    b"-",
    b"0",
    b"1",
    b"2",
    b"01",
    b"3",
    b"1024",
    b"99999999999999999999",
    b"J",
    b"R",
    b"H",
    b"f",
    b"A",
    b"I",
    b"B",
    b"s",
    b"K",
    b"E",
    b"T",
    b"a",
    b"b",
    b">aa",
    b">ab",
    b"*a1",
    b"*b1",
    b"*a*b1",
    b"**a11",
    b">a1",
    b"AIJ",
    b".II",
    b"BJI",
    b"RJ",
    b"H1J",
    b".B1IT",
    b"--",
    b"- ",
    b"\r",
];

/// Every file that has one field exchanged for another text.
pub fn with_fields_exchanged(file: &[u8]) -> Vec<Vec<u8>> {
    let lines = split(file);
    let mut found = vec![];
    for line in 0..lines.len() {
        for field in 0..lines[line].len() {
            for text in FIELDS {
                let mut damaged = lines.clone();
                damaged[line][field] = text.to_vec();
                found.push(join(&damaged));
            }
        }
    }
    found
}

/// Every file whose premise numbers are one more, one less, or in the other order.
pub fn with_premises_moved(file: &[u8]) -> Vec<Vec<u8>> {
    let lines = split(file);
    let mut found = vec![];
    for line in 0..lines.len() {
        for field in [4, 5] {
            let Some(number) = number_in(&lines, line, field) else { continue };
            for other in [number + 1, number - 1, line as i64 + 1, line as i64 + 2] {
                let mut damaged = lines.clone();
                damaged[line][field] = other.to_string().into_bytes();
                found.push(join(&damaged));
            }
        }
        let mut exchanged = lines.clone();
        exchanged[line].swap(4, 5);
        found.push(join(&exchanged));
    }
    found
}

fn number_in(lines: &Lines, line: usize, field: usize) -> Option<i64> {
    std::str::from_utf8(&lines[line][field]).ok()?.parse().ok()
}

/// Every file whose line structure is damaged at one line.
pub fn with_lines_damaged(file: &[u8]) -> Vec<Vec<u8>> {
    let lines = split(file);
    let mut found = vec![];
    for line in 0..lines.len() {
        let mut edit = |change: &dyn Fn(&mut Lines)| {
            let mut damaged = lines.clone();
            change(&mut damaged);
            found.push(join(&damaged));
        };
        edit(&|lines| drop(lines.remove(line)));
        edit(&|lines| lines.insert(line, lines[line].clone()));
        edit(&|lines| lines.insert(line, vec![]));
        edit(&|lines| lines.swap(line, 0));
        edit(&|lines| lines[line].push(vec![]));
        edit(&|lines| drop(lines[line].pop()));
        edit(&|lines| lines[line].insert(0, vec![]));
        edit(&|lines| lines[line][5].push(b'\r'));
        edit(&|lines| lines[line][5] = b"-\n-".to_vec());
    }
    found
}

/// One letter of one field exchanged, put in or left out, at a random place.
pub fn with_field_damaged(random: &mut Random, file: &[u8], field: usize) -> Vec<u8> {
    let mut lines = split(file);
    let line = random.below(lines.len());
    let alphabets: [&[u8]; 6] = [b"ab>*1", LETTERS, b"ab>*1", b"JRHfAIBsK", b"-0123456789", b"-0123456789"];
    lines[line][field] = damaged(random, &lines[line][field].clone(), alphabets[field]);
    join(&lines)
}

/// One field of one line exchanged for the same field of another line.
pub fn with_field_of_other_line(random: &mut Random, file: &[u8], field: usize) -> Vec<u8> {
    let mut lines = split(file);
    let (line, other) = (random.below(lines.len()), random.below(lines.len()));
    lines[line][field] = lines[other][field].clone();
    join(&lines)
}
