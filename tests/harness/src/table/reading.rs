//! Reading: a slice and `number@place`, or `whole` and the size.

use crate::terms::{index, joined, repeated};

pub struct Row {
    pub name: String,
    pub slice: Vec<u8>,
    pub reply: String,
}

fn row(slice: &[u8], reply: &str) -> Row {
    named(&format!("{} is {reply}", slice.escape_ascii()), slice.to_vec(), reply)
}

fn named(name: &str, slice: Vec<u8>, reply: &str) -> Row {
    Row { name: name.to_string(), slice, reply: reply.to_string() }
}

pub fn rows() -> Vec<Row> {
    [edges(), bells()].into_iter().flatten().collect()
}

/// Slices at the edges of each reply.
fn edges() -> Vec<Row> {
    vec![
        row(b"Jx", "7@1"),
        row(b"J\0", "7@1"),
        row(b"HJJ\0", "7@3"),
        row(b"xJ", "5@0"),
        row(b"HxJJ", "5@1"),
        row(b"", "6@0"),
        row(b"R.", "6@2"),
        row(b"JJ", "7@1"),
        row(b"HJ", "6@2"),
        row(b"J", "whole 1"),
        row(b"I", "whole 1"),
        row(b"RJ", "whole 2"),
        row(b"HJI", "whole 3"),
        row(b"AIJ", "whole 3"),
        row(b"BJI", "whole 3"),
        row(b".IJ", "whole 3"),
        row(b".BII.JRJ", "whole 8"),
        row(b"j", "5@0"),
        row(b"\xca", "5@0"),
        row(b"R\xff", "5@1"),
        row(b"..", "6@2"),
        row(b".J", "6@2"),
        row(b"J\n", "7@1"),
        row(b"RJ ", "7@2"),
        row(b".IJ.IJ", "7@3"),
        row(b"HHHJJJ", "6@6"),
        row(b"HHHJJJJ", "whole 7"),
        row(b"HHHJJJJJ", "7@7"),
    ]
}

/// The twelve bells, terms around them, and bytes that are near their letters.
fn bells() -> Vec<Row> {
    vec![
        row(b"1", "whole 1"),
        row(b"2", "whole 1"),
        row(b"3", "whole 1"),
        row(b"4", "whole 1"),
        row(b"5", "whole 1"),
        row(b"6", "whole 1"),
        row(b"7", "whole 1"),
        row(b"8", "whole 1"),
        row(b"9", "whole 1"),
        row(b"0", "whole 1"),
        row(b"E", "whole 1"),
        row(b"T", "whole 1"),
        row(b"R0", "whole 2"),
        row(b"H1T", "whole 3"),
        row(b"A1E", "whole 3"),
        row(b"B12", "whole 3"),
        row(b".1J", "whole 3"),
        row(b".BJI1", "whole 5"),
        row(b"..BJI1T", "whole 7"),
        row(b"J1", "7@1"),
        row(b"1J", "7@1"),
        row(b"11", "7@1"),
        row(b"10", "7@1"),
        row(b"1\0", "7@1"),
        row(b"1K", "7@1"),
        row(b"H1T0", "7@3"),
        row(b"H1", "6@2"),
        row(b".1", "6@2"),
        row(b"B1B2", "6@4"),
        row(b"/", "5@0"),
        row(b":", "5@0"),
        row(b"D", "5@0"),
        row(b"F", "5@0"),
        row(b"K", "5@0"),
        row(b"O", "5@0"),
        row(b"S", "5@0"),
        row(b"U", "5@0"),
        row(b"e", "5@0"),
        row(b"t", "5@0"),
        row(b"k", "5@0"),
        row(b"b", "5@0"),
        row(b"\x01", "5@0"),
        row(b"\x0c", "5@0"),
        row(b"\xb1", "5@0"),
        row(b"HK1", "5@1"),
        row(b"H1K", "5@2"),
        row(b".1:", "5@2"),
    ]
}

/// Slices whose places and sizes pass 2^24: a reader that calls itself runs out of stack here.
pub fn long_rows() -> Vec<Row> {
    let (many, half) = (17_000_000, 8_500_000);
    let stops = |ends: usize| joined(&[&repeated(".", half), &repeated("J", ends)]);
    vec![
        named("17 million R", repeated("R", many), "6@17000000"),
        named("17 million R and J", index(many), "whole 17000001"),
        named("17 million R and x", joined(&[&repeated("R", many), b"x"]), "5@17000000"),
        named("17 million R, J and J", joined(&[&index(many), b"J"]), "7@17000001"),
        named("one letter less than 2^24", index((1 << 24) - 2), "whole 16777215"),
        named("2^24 letters", index((1 << 24) - 1), "whole 16777216"),
        named("2^24 letters and a NUL", joined(&[&index((1 << 24) - 1), b"\0"]), "7@16777216"),
        named("8,500,000 full stops", stops(0), "6@8500000"),
        named("8,500,000 times .I, and J", joined(&[&repeated(".I", half), b"J"]), "whole 17000001"),
        named("8,500,000 full stops and one J too few", stops(half), "6@17000000"),
        named("8,500,000 full stops and their J", stops(half + 1), "whole 17000001"),
        named("17 million R and bell ten", joined(&[&repeated("R", many), b"0"]), "whole 17000001"),
        named("17 million R, bell ten and bell one", joined(&[&repeated("R", many), b"01"]), "7@17000001"),
        named("8,500,000 times .E, and T", joined(&[&repeated(".E", half), b"T"]), "whole 17000001"),
        named("8,500,000 times .1, and K", joined(&[&repeated(".1", half), b"K"]), "5@17000000"),
    ]
}
