//! Bugs in what sweep and dearest read, refuse and print alike: each, planted in either, must turn its tests red.

/// Size, fuel and area.
pub type Asked = [u128; 3];

/// Where the bug is.
enum Planted {
    /// Another input is answered.
    Input(fn(&[u8]) -> Vec<u8>),
    /// The numbers of a line are taken as others.
    Numbers(fn(Asked) -> Asked),
    /// A line of three numbers is refused with this number, ahead of all else.
    Refused(fn(Asked) -> Option<u8>),
    /// Something else is printed.
    Printed(fn(Vec<u8>) -> Vec<u8>),
}

pub struct Bug {
    /// Without the name of the program.
    pub what: &'static str,
    planted: Planted,
}

/// The numbers of a line of the right shape; none where one of them does not fit.
pub fn numbers(input: &[u8]) -> Option<Asked> {
    let line = std::str::from_utf8(input).ok()?.strip_suffix('\n')?;
    let number =
        |field: &str| Some(field).filter(|field| !field.starts_with(['0', '+']) || *field == "0")?.parse().ok();
    let numbers: Option<Vec<u128>> = line.split('\t').map(number).collect();
    numbers?.try_into().ok()
}

/// The line of these fields.
pub fn line<T: ToString>(fields: &[T]) -> Vec<u8> {
    let fields: Vec<String> = fields.iter().map(T::to_string).collect();
    format!("{}\n", fields.join("\t")).into_bytes()
}

fn no_size(n: u128) -> bool {
    !(1..=7).contains(&n)
}

/// Each field without the zeros in front of it.
fn zeros_left_out(input: &[u8]) -> Vec<u8> {
    let field = |field: &[u8]| {
        let zeros = field.iter().take_while(|&&byte| byte == b'0').count();
        let digit = field.get(zeros).is_some_and(u8::is_ascii_digit);
        field[if digit { zeros } else { zeros.saturating_sub(1) }..].to_vec()
    };
    input.split(|&byte| byte == b'\t').map(field).collect::<Vec<_>>().join(&b'\t')
}

/// The first line alone.
fn first_line(input: &[u8]) -> Vec<u8> {
    input.split_inclusive(|&byte| byte == b'\n').next().unwrap_or(&[]).to_vec()
}

/// The first three fields alone.
fn three_fields(input: &[u8]) -> Vec<u8> {
    let Some(line) = input.strip_suffix(b"\n") else { return input.to_vec() };
    let fields: Vec<&[u8]> = line.split(|&byte| byte == b'\t').take(3).collect();
    [&fields.join(&b'\t')[..], b"\n"].concat()
}

fn with_line_feed(input: &[u8]) -> Vec<u8> {
    if input.ends_with(b"\n") {
        return input.to_vec();
    }
    [input, b"\n"].concat()
}

/// Only so many bytes are read.
fn first_bytes(input: &[u8], most: usize) -> Vec<u8> {
    input[..input.len().min(most)].to_vec()
}

/// The line ends behind so many bytes.
fn short_line(input: &[u8]) -> Vec<u8> {
    input.get(..10_000).map_or(input.to_vec(), with_line_feed)
}

fn bytes_exchanged(bytes: &[u8], from: &str, to: &str) -> Vec<u8> {
    String::from_utf8_lossy(bytes).replace(from, to).into_bytes()
}

/// A refusal with place 1; anything else as it is.
fn refused_at_1(printed: &[u8]) -> Vec<u8> {
    match printed.strip_suffix(b"\t0\n") {
        Some(refusal) if refusal.starts_with(b"refused\t") => [refusal, b"\t1\n"].concat(),
        _ => printed.to_vec(),
    }
}

use Planted::*;

const fn bug(what: &'static str, planted: Planted) -> Bug {
    Bug { what, planted }
}

const FUEL: u128 = 1_000_000;
const AREA: u128 = 16_384;

/// Bugs in what is printed.
static PRINTED: [Bug; 4] = [
    bug("no line feed printed", Printed(|printed| bytes_exchanged(&printed, "\n", ""))),
    bug("a carriage return printed", Printed(|printed| bytes_exchanged(&printed, "\n", "\r\n"))),
    bug("spaces printed for tabs", Printed(|printed| bytes_exchanged(&printed, "\t", " "))),
    bug("refusals at place 1", Printed(|printed| refused_at_1(&printed))),
];

/// Bugs in what is refused.
static REFUSALS: [Bug; 13] = [
    bug("19 for 32", Printed(|printed| bytes_exchanged(&printed, "refused\t32", "refused\t19"))),
    bug("1 for 3", Printed(|printed| bytes_exchanged(&printed, "refused\t3\t", "refused\t1\t"))),
    bug("3 for 1", Printed(|printed| bytes_exchanged(&printed, "refused\t1\t", "refused\t3\t"))),
    bug("32 behind 4", Refused(|[_, fuel, _]| (fuel > FUEL).then_some(4))),
    bug("32 behind 1", Refused(|[n, _, area]| (no_size(n) && area > AREA).then_some(1))),
    bug("32 behind 3", Refused(|[n, _, area]| (no_size(n) && area < n).then_some(3))),
    bug("4 behind 1", Refused(|[n, _, area]| (!no_size(n) && area > AREA).then_some(1))),
    bug("4 behind 3", Refused(|[n, _, area]| (!no_size(n) && area < n).then_some(3))),
    bug("32 for an area of 0", Refused(|[_, _, area]| (area == 0).then_some(32))),
    bug("the most fuel refused", Refused(|[_, fuel, _]| (fuel == FUEL).then_some(4))),
    bug("the largest area refused", Refused(|[_, _, area]| (area == AREA).then_some(1))),
    bug("an area of n bytes refused", Refused(|[n, _, area]| (area == n).then_some(3))),
    bug("size 7 refused", Refused(|[n, _, _]| (n == 7).then_some(32))),
];

/// Bugs in what is read.
static INPUTS: [Bug; 16] = [
    bug("size 8 let through", Numbers(|[n, fuel, area]| [if n == 8 { 7 } else { n }, fuel, area])),
    bug("size 0 let through", Numbers(|[n, fuel, area]| [n.max(1), fuel, area])),
    bug(
        "one more than the most fuel let through",
        Numbers(|[n, fuel, area]| [n, if fuel == FUEL + 1 { FUEL } else { fuel }, area]),
    ),
    bug(
        "one more than the largest area let through",
        Numbers(|[n, fuel, area]| [n, fuel, if area == AREA + 1 { AREA } else { area }]),
    ),
    bug("fuel one less", Numbers(|[n, fuel, area]| [n, fuel.saturating_sub(1), area])),
    bug(
        "an area one byte larger",
        Numbers(|[n, fuel, area]| [n, fuel, if n <= area && area < AREA { area + 1 } else { area }]),
    ),
    bug(
        "every area the largest",
        Numbers(|[n, fuel, area]| [n, fuel, if n <= area && area < AREA { AREA } else { area }]),
    ),
    bug("numbers of 32 bits", Numbers(|asked| asked.map(|number| number % (1 << 32)))),
    bug("numbers of 64 bits", Numbers(|asked| asked.map(|number| number % (1 << 64)))),
    bug("leading zeros let through", Input(zeros_left_out)),
    bug("what stands behind the line not looked at", Input(first_line)),
    bug("a fourth field not looked at", Input(three_fields)),
    bug("no line feed asked for", Input(with_line_feed)),
    bug("input cut off at 16,384 bytes", Input(|input| first_bytes(input, 16_384))),
    bug("input cut off at 65,536 bytes", Input(|input| first_bytes(input, 65_536))),
    bug("what stands behind 10,000 bytes not looked at", Input(short_line)),
];

pub fn bugs() -> impl Iterator<Item = &'static Bug> {
    PRINTED.iter().chain(&REFUSALS).chain(&INPUTS)
}

impl Bug {
    /// What the program prints with this bug.
    pub fn in_program(
        &self,
        program: impl Fn(&[u8]) -> Result<Vec<u8>, String>,
        input: &[u8],
    ) -> Result<Vec<u8>, String> {
        match (&self.planted, numbers(input)) {
            (Input(other), _) => program(&other(input)),
            (Printed(other), _) => program(input).map(other),
            (Numbers(other), Some(asked)) => program(&line(&other(asked))),
            (Refused(by), Some(asked)) => match by(asked) {
                Some(number) => Ok(format!("refused\t{number}\t0\n").into_bytes()),
                None => program(input),
            },
            (_, None) => program(input),
        }
    }
}
