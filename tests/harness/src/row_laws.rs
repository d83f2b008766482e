//! What rows are: the bells of the piece that was rung, in their places, and as many different ones as there are.

use crate::chains::*;
use crate::lent::{demand_rows, Rows};
use crate::random::Random;
use crate::reply::*;
use crate::row_tests::Test;
use crate::step_tests::padded;
use crate::subject::Controller;
use crate::suite::{equal, equal_bytes, Outcome, Suite};
use crate::terms::joined;
use second::finishing::MAX_FUEL;
use second::stepping::MAX_AREA;
use std::collections::HashSet;

/// The rows that the subject itself leaves of a text, and how many of them it calls different.
fn rung_by(subject: &dyn Controller, term: &[u8], bells: usize, size: usize) -> Result<(Vec<Row>, usize), String> {
    let mut table = vec![b'#'; size];
    let reply = subject.rows(term, bells, &mut table);
    equal("code", code(reply), RUNG)?;
    let (held, behind) = table.split_at(PLACES * value(reply) as usize);
    equal("zeros behind the rows", behind.iter().all(|&byte| byte == 0), true)?;
    let unused = held.chunks(PLACES).all(|places| places[bells..].iter().all(|&byte| byte == 0));
    equal("zeros in unused places", unused, true)?;
    Ok((held.chunks(PLACES).map(|places| places[..bells].to_vec()).collect(), self::size(reply)))
}

/// The bells in the table are those of the chain, and the different rows as many as a set of them has.
fn demand_read_back(subject: &dyn Controller, rows: &[Row], bells: usize, more: usize) -> Outcome {
    let (held, different) = rung_by(subject, &piece(rows), bells, PLACES * rows.len() + more)?;
    equal("rows", held.len(), rows.len())?;
    equal_bytes("bells", &held.concat(), &rows.concat())?;
    let set: HashSet<&Row> = rows.iter().collect();
    equal("different rows", different, set.len())
}

/// Pieces of some rows out of a few.
fn read_back(subject: &dyn Controller) -> Outcome {
    let mut random = Random::new(141);
    for _ in 0..4_000 {
        let (bells, count) = (random.between(2, 12), random.below(40));
        let few: Vec<Row> = (0..random.between(1, 30)).map(|_| random_row(&mut random, bells)).collect();
        let rows: Vec<Row> = (0..count).map(|_| random.pick(&few).clone()).collect();
        let more = random.below(40);
        demand_read_back(subject, &rows, bells, more)?;
    }
    Ok(())
}

/// Pieces of 1,000 rows on every number of bells: of all there are, and of one and what little differs from it.
fn read_back_long(subject: &dyn Controller) -> Outcome {
    let mut random = Random::new(142);
    for bells in 2..=12 {
        let any: Vec<Row> = (0..1_000).map(|_| random_row(&mut random, bells)).collect();
        demand_read_back(subject, &any, bells, 0)?;
        let one = random_row(&mut random, bells);
        let near = |random: &mut Random| swapped(&one, random.below(bells), random.below(bells));
        let near: Vec<Row> = (0..1_000).map(|_| near(&mut random)).collect();
        demand_read_back(subject, &near, bells, 7)?;
    }
    Ok(())
}

/// The number of different rows does not change with the order of the rows, nor where each comes twice.
fn in_any_order(subject: &dyn Controller) -> Outcome {
    let mut random = Random::new(143);
    for _ in 0..1_000 {
        let (bells, count) = (random.between(2, 5), random.between(1, 30));
        let mut rows: Vec<Row> = (0..count).map(|_| random_row(&mut random, bells)).collect();
        let (_, before) = rung_by(subject, &piece(&rows), bells, PLACES * count)?;
        random.shuffle(&mut rows);
        let (_, shuffled) = rung_by(subject, &piece(&rows), bells, PLACES * count)?;
        equal("different rows in another order", shuffled, before)?;
        let (_, twice) = rung_by(subject, &piece(&[&rows[..], &rows].concat()), bells, 2 * PLACES * count)?;
        equal("different rows where each comes twice", twice, before)?;
    }
    Ok(())
}

/// A row with one bell exchanged for another is none, and is the one that is told.
fn one_bell_wrong(subject: &dyn Controller) -> Outcome {
    let mut random = Random::new(144);
    for _ in 0..4_000 {
        let (bells, count) = (random.between(2, 12), random.between(1, 40));
        let mut rows: Vec<Row> = (0..count).map(|_| random_row(&mut random, bells)).collect();
        let (bad, place) = (random.below(count), random.below(bells));
        let other = random.between(1, 11) as u8;
        rows[bad][place] = (rows[bad][place] + other - 1) % 12 + 1;
        let call = Rows { term: piece(&rows), bells, table: random.rubbish(PLACES * count) };
        demand_rows(subject, &call, &(placed(22, bad + 1), call.table.clone()))?;
    }
    Ok(())
}

/// The closure that puts a row in front of its argument.
fn in_front(row: &[u8]) -> Vec<u8> {
    let chain = chain(row);
    joined(&[b"AI", &chain[..chain.len() - 1], b"J"])
}

/// The join of two texts as the subject itself makes it.
fn join(subject: &dyn Controller, f: &[u8], g: &[u8]) -> Result<Vec<u8>, String> {
    let mut area = vec![b'#'; f.len() + g.len() + 12];
    let reply = subject.join(f, g, &mut area);
    equal("code", code(reply), JOINED)?;
    Ok(area)
}

/// Rows put in front of each other by joins, grouped at random, on the empty chain: finished, they are the piece.
fn of_a_join(subject: &dyn Controller) -> Outcome {
    let mut random = Random::new(145);
    for _ in 0..300 {
        let (bells, count) = (random.between(2, 12), random.between(1, 8));
        let rows: Vec<Row> = (0..count).map(|_| random_row(&mut random, bells)).collect();
        let mut parts: Vec<Vec<u8>> = rows.iter().map(|row| in_front(row)).collect();
        while parts.len() > 1 {
            let place = random.below(parts.len() - 1);
            let behind = parts.remove(place + 1);
            parts[place] = join(subject, &parts[place], &behind)?;
        }
        finished_and_rung(subject, &joined(&[b".", &parts[0], b"I"]), &rows, bells)?;
    }
    Ok(())
}

/// A term that is refused by 20, and finished is the piece of these rows.
fn finished_and_rung(subject: &dyn Controller, term: &[u8], rows: &[Row], bells: usize) -> Outcome {
    let call = Rows { term: term.to_vec(), bells, table: vec![b'#'; 100] };
    demand_rows(subject, &call, &(placed(20, 0), call.table.clone()))?;
    let (mut area, mut work) = (padded(term, MAX_AREA), vec![0; MAX_AREA]);
    let reply = subject.finish(&mut area, term.len(), &mut work, MAX_FUEL);
    equal("code", code(reply), FINISHED)?;
    let (held, different) = rung_by(subject, &area[..size(reply)], bells, PLACES * rows.len() + 5)?;
    equal_bytes("bells", &held.concat(), &rows.concat())?;
    equal("different rows", different, rows.iter().collect::<HashSet<_>>().len())
}

/// What follows from what rows are, of tables that the subject itself leaves.
pub fn made(suite: &mut Suite, label: &str, subject: impl Controller) {
    let tests: [Test; 5] = [
        ("read back, and counted by a set", read_back),
        ("1,000 read back, and counted by a set", read_back_long),
        ("as many different in any order, and twice", in_any_order),
        ("one bell wrong", one_bell_wrong),
        ("of joins, finished", of_a_join),
    ];
    for (name, test) in tests {
        suite.test(&format!("{label} rows: {name}"), || test(&subject));
    }
}
