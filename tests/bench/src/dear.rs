//! The calls that cost most, of those that were found.

use crate::dear_runs;
use crate::reducing::{areas, Areas};
use crate::table::{number, Table};
use crate::timing::times;
use engine::Linked;
use harness::check_tests::dear;
use harness::deep::deep_terms;
use harness::reply::{code, value, FINISHED, NO_ROOM, SPENT};
use harness::subject::Controller;
use harness::terms::index;
use std::time::Instant;

/// The most steps of a call.
pub const MOST_STEPS: u64 = 1_000_000;
/// Every run is first made with this fuel, and then with all if that takes no more than so many nanoseconds, by what
/// the first steps took; the dearest ones may take more.
const PROBE: u64 = 10_000;
const LONG: f64 = 3e8;
const TOO_LONG: f64 = 1e10;
/// How many of the dearest runs stand in the last table.
const DEAREST: usize = 3;

/// A run of finishing that was timed once, in nanoseconds.
struct Found {
    name: String,
    text: Vec<u8>,
    fuel: u64,
    reply: u64,
    time: f64,
}

fn finish(text: &[u8], lent: &mut Areas, fuel: u64) -> u64 {
    Linked.finish(&mut lent.0, text.len(), &mut lent.1, fuel)
}

fn found(name: &str, text: &[u8], fuel: u64) -> Found {
    let mut lent = areas(text);
    let start = Instant::now();
    let reply = finish(text, &mut lent, fuel);
    let time = start.elapsed().as_secs_f64() * 1e9;
    Found { name: name.to_string(), text: text.to_vec(), fuel, reply, time }
}

/// The run with the whole fuel, or with little where it would take too long.
fn found_in_time(name: &str, text: &[u8]) -> Found {
    let probed = found(name, text, PROBE);
    match cost(&probed) > LONG {
        true => probed,
        false => found(name, text, MOST_STEPS),
    }
}

/// What the run takes, or would take if it were not cut and went on as it began.
fn cost(found: &Found) -> f64 {
    match found.fuel == PROBE && code(found.reply) == SPENT {
        true => found.time * (MOST_STEPS / PROBE) as f64,
        false => found.time,
    }
}

/// Every run that is tried, the dearest first by this measure.
fn search(try_one: impl Fn(&str, &[u8]) -> Found, measure: fn(&Found) -> f64) -> Vec<Found> {
    let mut tried: Vec<Found> = dear_runs::all().iter().map(|(name, text)| try_one(name, text)).collect();
    tried.sort_by(|one, two| measure(two).total_cmp(&measure(one)));
    tried
}

fn end_of(reply: u64) -> &'static str {
    match code(reply) {
        FINISHED => "finished",
        NO_ROOM => "no room",
        _ => "spent",
    }
}

fn found_row(found: &Found) -> Vec<String> {
    let steps = value(found.reply);
    vec![
        found.name.clone(),
        found.text.len().to_string(),
        steps.to_string(),
        end_of(found.reply).to_string(),
        number(found.time / 1e6),
        number(found.time / steps.max(1) as f64),
    ]
}

/// Every run that is tried with this fuel, each made once.
pub fn search_table(fuel: u64) -> Table {
    let tried = search(|name, text| found(name, text, fuel), |found| found.time);
    Table::new(
        "Finishing, where it may cost most: milliseconds of one call and nanoseconds a step, the dearest call first",
        &["term", "letters", "steps", "end", "call", "step"],
        tried.iter().map(found_row).collect(),
    )
}

fn row(call: &str, bytes: usize, times: &[f64]) -> Vec<String> {
    let milliseconds = |time: f64| number(time / 1e6);
    vec![
        call.to_string(),
        bytes.to_string(),
        times.len().to_string(),
        milliseconds(times.iter().copied().fold(f64::INFINITY, f64::min)),
        milliseconds(times.iter().copied().fold(0.0, f64::max)),
    ]
}

fn step_times(text: &[u8]) -> Vec<f64> {
    let call = |areas: &mut Areas| {
        Linked.step(&mut areas.0, text.len(), &mut areas.1);
    };
    times(|| areas(text), call)
}

/// The deep term whose step takes longest.
fn step_row() -> Vec<String> {
    let timed = deep_terms().into_iter().map(|(name, text)| (name, text.len(), step_times(&text)));
    let shortest = |times: &[f64]| times.iter().copied().fold(f64::INFINITY, f64::min);
    let (name, size, times) =
        timed.max_by(|one, two| shortest(&one.2).total_cmp(&shortest(&two.2))).expect("there are deep terms");
    row(&format!("one step: {name}"), size, &times)
}

/// A run that was found to be dear, timed again with the whole fuel where that does not take too long.
fn run_row(found: &Found) -> Vec<String> {
    let fuel = if cost(found) > TOO_LONG { found.fuel } else { MOST_STEPS };
    let mut steps = 0;
    let call = |lent: &mut Areas| steps = value(finish(&found.text, lent, fuel));
    let times = times(|| areas(&found.text), call);
    row(&format!("{steps} steps: {}", found.name), found.text.len(), &times)
}

/// The dearest runs of those that are tried.
fn run_rows() -> Vec<Vec<String>> {
    search(found_in_time, cost).iter().take(DEAREST).map(run_row).collect()
}

fn read_row() -> Vec<String> {
    let text = index(9_999_999);
    let read = |_: &mut ()| {
        Linked.read(&text);
    };
    row("reading ten million letters", text.len(), &times(|| (), read))
}

fn check_row() -> Vec<String> {
    let file = dear();
    let check = |_: &mut ()| {
        Linked.check(&file);
    };
    row("checking short lines that cite two long ones", file.len(), &times(|| (), check))
}

pub fn table() -> Table {
    let rows = [read_row(), step_row()].into_iter().chain(run_rows()).chain([check_row()]);
    Table::new(
        "Milliseconds a call, where calls cost most",
        &["call", "bytes", "calls", "shortest", "longest"],
        rows.collect(),
    )
}
