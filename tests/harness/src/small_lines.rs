//! Lines of size, fuel and area size, which sweep and dearest read.

use crate::damage::damaged;
use crate::random::Random;
use crate::subject::Programs;
use crate::suite::{shown, Outcome};
use second::finishing::Outcome as End;

/// A line of that shape.
pub fn line(n: impl ToString, fuel: impl ToString, area: impl ToString) -> Vec<u8> {
    format!("{}\t{}\t{}\n", n.to_string(), fuel.to_string(), area.to_string()).into_bytes()
}

/// More steps than any small term makes, and more room than it takes.
const FUELS: u64 = 8;
const ROOMS: usize = 6;

/// Every small fuel, each with every area that is not much larger than the terms.
pub fn small_runs(n: usize) -> impl Iterator<Item = (u64, usize)> {
    (0..FUELS).flat_map(move |fuel| (n..n + ROOMS).map(move |area| (fuel, area)))
}

/// Fuels and areas about every limit.
const FUEL_LIMITS: [&str; 8] = ["9", "10", "1000", "999999", "1000000", "1000001", "4294967296", "01"];
const AREA_LIMITS: [&str; 8] = ["0", "1000", "16383", "16384", "16385", "65536", "18446744073709551626", "07"];

fn random_line(random: &mut Random) -> Vec<u8> {
    let n = if random.once_in(12) { *random.pick(&[0, 8, 9, 10]) } else { random.between(1, 7) };
    let fuel = match random.once_in(3) {
        true => random.pick(&FUEL_LIMITS).to_string(),
        false => random.below(FUELS as usize).to_string(),
    };
    let area = match random.once_in(3) {
        true => random.pick(&AREA_LIMITS).to_string(),
        false => (n + random.below(ROOMS)).saturating_sub(random.below(2)).to_string(),
    };
    line(n, fuel, area)
}

/// Tries random lines, and as many damaged ones.
pub fn random_lines(seed: u64, trial: impl Fn(&[u8]) -> Outcome) -> Outcome {
    let mut random = Random::new(seed);
    for _ in 0..150 {
        let line = random_line(&mut random);
        trial(&line)?;
        trial(&damaged(&mut random, &line, b"\t\n01357 +-\rJ"))?;
    }
    Ok(())
}

/// Tries short inputs of the bytes that lines are made of.
pub fn short_inputs(seed: u64, trial: impl Fn(&[u8]) -> Outcome) -> Outcome {
    let mut random = Random::new(seed);
    for _ in 0..300 {
        let length = random.below(8);
        let mut input: Vec<u8> = (0..length).map(|_| *random.pick(b"\t\t\n01234567")).collect();
        input.extend_from_slice(*random.pick(&[&b"\n"[..], b"", b"\t9\n"]));
        trial(&input)?;
    }
    Ok(())
}

/// The outcome and the count in the finishing program's line.
fn outcome_and_count(printed: &[u8]) -> Option<(End, u64)> {
    let mut fields = std::str::from_utf8(printed).ok()?.split('\t');
    let outcome = match fields.next()? {
        "finished" => End::Finished,
        "spent" => End::Spent,
        "no room" => End::NoRoom,
        _ => return None,
    };
    Some((outcome, fields.next()?.parse().ok()?))
}

/// How the finishing program says that the run of a term ends, and with how many steps.
pub fn by_finish(subject: &dyn Programs, fuel: u64, area: usize, text: &[u8]) -> Result<(End, u64), String> {
    let input = [format!("{fuel}\t{area}\t").as_bytes(), text, b"\n"].concat();
    let printed = subject.finish(&input)?;
    outcome_and_count(&printed).ok_or(format!("{} prints {}", shown(&input), shown(&printed)))
}
