//! Lines of size, fuel and area size, as sweep and dearest read them: those that are refused, by either program alike.

use super::programs::{named, row, Row};
use crate::terms::repeated;

const SHAPE: &str = "refused\t32\t0";
const FUEL: &str = "refused\t4\t0";
const AREA: &str = "refused\t1\t0";
const ROOM: &str = "refused\t3\t0";

/// Every row that is refused.
pub fn refused_rows() -> Vec<Row> {
    [past_limits(), orders(), shapes(), fields(), wrapped(), long_inputs()].into_iter().flatten().collect()
}

/// Each of the three one past its limits, for each size.
fn past_limits() -> Vec<Row> {
    let of_size = |n: usize| {
        [
            row(&format!("{n}\t1000001\t16384\n"), FUEL),
            row(&format!("{n}\t1000000\t16385\n"), AREA),
            row(&format!("{n}\t0\t{}\n", n - 1), ROOM),
            row(&format!("{n}\t1000000\t0\n"), ROOM),
        ]
    };
    let sizes = ["0", "8", "9", "10", "17", "70", "77", "100"].map(|n| row(&format!("{n}\t10\t20\n"), SHAPE));
    (1..=7).flat_map(of_size).chain(sizes).collect()
}

/// Each refusal beside each other that may strike with it: 32, then 4, then 1 or 3, which never strike together.
fn orders() -> Vec<Row> {
    vec![
        row("8\t1000001\t20\n", SHAPE),
        row("8\t10\t16385\n", SHAPE),
        row("8\t10\t7\n", SHAPE),
        row("8\t1000001\t16385\n", SHAPE),
        row("8\t1000001\t7\n", SHAPE),
        row("0\t1000001\t0\n", SHAPE),
        row("0\t10\t0\n", SHAPE),
        row("03\t1000001\t20\n", SHAPE),
        row("03\t10\t16385\n", SHAPE),
        row("03\t10\t2\n", SHAPE),
        row("3\tx\t16385\n", SHAPE),
        row("3\tx\t2\n", SHAPE),
        row("3\t1000001\tx\n", SHAPE),
        row("3\t1000001\t02\n", SHAPE),
        row("3\t1000001\t20", SHAPE),
        row("3\t10\t16385", SHAPE),
        row("3\t10\t2", SHAPE),
        row("3\t1000001\t20\n\n", SHAPE),
        row("3\t10\t16385\n\n", SHAPE),
        row("3\t10\t2\n\n", SHAPE),
        row("3\t1000001\n", SHAPE),
        row("3\t1000001\t20\t1\n", SHAPE),
        row("3\t10\t16385\t1\n", SHAPE),
        row("3\t10\t2\t1\n", SHAPE),
        row("3\t1000001\t16385\n", FUEL),
        row("3\t1000001\t2\n", FUEL),
        row("3\t1000001\t0\n", FUEL),
        row("7\t1000001\t6\n", FUEL),
    ]
}

/// 32: exactly one line with three fields, and nothing after it.
fn shapes() -> Vec<Row> {
    let inputs = [
        "",
        "\n",
        "\n\n",
        "\t\n",
        "\t\t\n",
        "\t",
        "\0",
        "3",
        "3\t",
        "3\t10",
        "3\t10\t",
        "3\t10\t20",
        "3\t10\t20\t",
        "3\t10\t20\r",
        "3\t10\t20\0",
        "3\n",
        "3\t10\n",
        "3\t10\t20\t\n",
        "3\t10\t20\t20\n",
        "\t3\t10\t20\n",
        "3\t\t10\t20\n",
        "3\t10\t\t20\n",
        "3\t10\t20\n\n",
        "3\t10\t20\nx",
        "3\t10\t20\n\0",
        "3\t10\t20\n ",
        "3\t10\t20\n\t",
        "3\t10\t20\n3\t10\t20\n",
        "3\t10\t20\n3\t10\t20",
        "\n3\t10\t20\n",
        "3\n10\t20\n",
        "3\t10\n20\n",
        "3\t10\n\t20\n",
        "3\n\t10\t20\n",
        "3\t10\t20\r\n",
        "3\t10\t20\t\r\n",
        "3\r\n10\r\n20\r\n",
        "3 10 20\n",
        "3,10,20\n",
        "3\t10 20\n",
        "10\t20\t.II\n",
        "3\t10\t20\t.II\n",
        "\u{feff}3\t10\t20\n",
        "n\tfuel\tarea\n3\t10\t20\n",
    ];
    inputs.into_iter().map(|input| row(input, SHAPE)).collect()
}

/// Texts that are no number.
const NO_NUMBERS: [&str; 27] = [
    "", " ", " 3", "3 ", "+3", "-3", "-0", "03", "00", "000", "3x", "x3", "x", "E", "T", "J", "0x3", "3.", "3.0",
    "3,0", "3e0", "3_0", "\r", "3\r", "3\0", "/", ":",
];

/// 32: a field that is no number, in each place.
fn fields() -> Vec<Row> {
    let with = |place: usize, text: &'static str| {
        let mut fields = ["3", "10", "20"];
        fields[place] = text;
        row(&format!("{}\n", fields.join("\t")), SHAPE)
    };
    (0..3).flat_map(|place| NO_NUMBERS.map(|text| with(place, text))).collect()
}

/// Numbers that are 3 in 8, 16, 32, 64 and 128 bits, and one of forty digits that is below none of these limits.
const WRAPPED: [&str; 7] = [
    "259",
    "65539",
    "4294967299",
    "9223372036854775811",
    "18446744073709551619",
    "340282366920938463463374607431768211459",
    "1111111111111111111111111111111111111111",
];

/// Large numbers are numbers, whatever they are in so many bits.
fn wrapped() -> Vec<Row> {
    let large = || WRAPPED.into_iter().filter(|number| number.len() > 7);
    let sizes = WRAPPED.into_iter().map(|number| row(&format!("{number}\t10\t20\n"), SHAPE));
    let fuels = large().map(|number| row(&format!("3\t{number}\t20\n"), FUEL));
    let areas = WRAPPED[1..].iter().map(|number| row(&format!("3\t10\t{number}\n"), AREA));
    let three = large().map(|number| row(&format!("{number}\t{number}\t{number}\n"), SHAPE));
    let two = large().map(|number| row(&format!("3\t{number}\t{number}\n"), FUEL));
    let others = [
        row("3\t10\t16387\n", AREA),
        row("3\t10\t32771\n", AREA),
        row("3\t4294967296\t20\n", FUEL),
        row("3\t18446744073709551616\t20\n", FUEL),
        row("3\t10\t4294967296\n", AREA),
        row("3\t10\t18446744073709551616\n", AREA),
        row("8\t1111111111111111111111111111111111111111\t20\n", SHAPE),
        row("3\t0111111111111111111111111111111111111111\t20\n", SHAPE),
        row("3\t0000000000000000000000000000000000000010\t20\n", SHAPE),
        row("3\t10\t0000000000000000000000000000000000000020\n", SHAPE),
        row("3\t111111111111111111111111111111111111111x\t20\n", SHAPE),
        row("3\t10\t111111111111111111111111111111111111111x\n", SHAPE),
    ];
    sizes.chain(fuels).chain(areas).chain(three).chain(two).chain(others).collect()
}

/// Input has no limit.
fn long_inputs() -> Vec<Row> {
    let digits = |count| repeated("1", count);
    let zeros = |count| repeated("0", count);
    let around = |start: &str, middle: Vec<u8>, end: &str| [start.as_bytes(), &middle, end.as_bytes()].concat();
    let behind = |bytes: Vec<u8>| around("3\t10\t20\n", bytes, "");
    vec![
        named("an area of 20,000 digits", around("3\t10\t", digits(20_000), "\n"), AREA),
        named("an area of 100,000 digits", around("3\t10\t", digits(100_000), "\n"), AREA),
        named("an area of 20,000 digits, last x", around("3\t10\t", digits(20_000), "x\n"), SHAPE),
        named("an area of 100,000 digits, last x", around("3\t10\t", digits(100_000), "x\n"), SHAPE),
        named("an area of 20,000 digits without a line feed", around("3\t10\t", digits(20_000), ""), SHAPE),
        named("an area of 20,000 digits and a line behind", around("3\t10\t", digits(20_000), "\n3\n"), SHAPE),
        named("an area of 20,000 digits and a field behind", around("3\t10\t", digits(20_000), "\t3\n"), SHAPE),
        named("an area of 20,000 zeros and 20", around("3\t10\t", zeros(20_000), "20\n"), SHAPE),
        named("an area of 1 and 20,000 zeros", around("3\t10\t1", zeros(20_000), "\n"), AREA),
        named("a fuel of 20,000 digits", around("3\t", digits(20_000), "\t20\n"), FUEL),
        named("a fuel of 100,000 digits", around("3\t", digits(100_000), "\t20\n"), FUEL),
        named("a fuel of 100,000 digits and no room", around("3\t", digits(100_000), "\t2\n"), FUEL),
        named("a fuel of 100,000 digits, n 8", around("8\t", digits(100_000), "\t20\n"), SHAPE),
        named("a fuel of 100,000 digits, an area of x", around("3\t", digits(100_000), "\tx\n"), SHAPE),
        named("a fuel of 100,000 zeros", around("3\t", zeros(100_000), "\t20\n"), SHAPE),
        named("n of 20,000 digits", around("", digits(20_000), "\t10\t20\n"), SHAPE),
        named("n of 100,000 digits", around("", digits(100_000), "\t10\t20\n"), SHAPE),
        named("n of 100,000 zeros and 3", around("", zeros(100_000), "3\t10\t20\n"), SHAPE),
        named("a good line and a million line feeds", behind(repeated("\n", 1_000_000)), SHAPE),
        named("a good line and four million NUL", behind(repeated("\0", 4_000_000)), SHAPE),
        named("a good line half a million times", repeated("3\t10\t20\n", 500_000), SHAPE),
        named("a good line of size 7 and a million x", around("7\t10\t20\n", repeated("x", 1_000_000), ""), SHAPE),
        named("a million digits", digits(1_000_000), SHAPE),
        named("a million tabs", around("", repeated("\t", 1_000_000), "\n"), SHAPE),
        named("a million fields", around("", repeated("3\t", 1_000_000), "3\n"), SHAPE),
    ]
}
