//! Rows for the hammers: the table, every length of a table, every small piece, random and damaged chains.

use crate::chains::*;
use crate::damage::damaged;
use crate::lent::*;
use crate::random::Random;
use crate::reply::from_words;
use crate::result_tests::random_of_sizes;
use crate::subject::Controller;
use crate::suite::{equal, Outcome, Suite};
use crate::table::reading;
use crate::table::rows::rows;
use crate::terms::{joined, texts_of_size, BELLS, LETTERS};

/// A test with its name.
pub type Test = (&'static str, fn(&dyn Controller) -> Outcome);

/// What a table may hold before: no letter, no byte of ASCII, a bell's number, zeros.
const FILLINGS: [u8; 4] = [b'#', 255, 1, 0];

/// Demands these rows, so many of them different, in a table of this size, whatever it holds before.
fn demand_rung(subject: &dyn Controller, all: &[Row], bells: usize, size: usize, different: usize) -> Outcome {
    let expected = (from_words(&format!("rung {}", all.len()), different), table_of(all, size));
    FILLINGS.iter().try_for_each(|&filling| {
        demand_rows(subject, &Rows { term: piece(all), bells, table: vec![filling; size] }, &expected)
    })
}

/// Demands a refusal that leaves every byte, whatever the table holds.
fn demand_refused(subject: &dyn Controller, term: &[u8], bells: usize, size: usize, reply: &str) -> Outcome {
    FILLINGS.iter().try_for_each(|&filling| {
        let rows = Rows { term: term.to_vec(), bells, table: vec![filling; size] };
        demand_rows(subject, &rows, &(from_words(reply, 0), rows.table.clone()))
    })
}

/// A row written by hand.
fn by_hand(subject: &dyn Controller, row: &crate::table::rows::Row) -> Outcome {
    match row.reply.contains('@') {
        true => demand_refused(subject, &row.term, row.bells, row.table, &row.reply),
        false => {
            equal("the text of the rows", piece(&row.after), row.term.clone())?;
            demand_rung(subject, &row.after, row.bells, row.table, row.different)
        }
    }
}

/// The rows of reading that are refused: each is refused so, whatever the bells of a row and the table.
fn unreadable(subject: &dyn Controller) -> Outcome {
    for row in reading::rows().into_iter().filter(|row| row.reply.contains('@')) {
        for bells in [0, 1, 2, 12, 13, usize::MAX] {
            for size in [0, 11, 12, 100] {
                demand_refused(subject, &row.slice, bells, size, &row.reply)?;
            }
        }
    }
    Ok(())
}

/// Tables of every size up to two rows more than there are: 21 as long as one row has no twelve bytes.
fn sizes_of_tables(subject: &dyn Controller) -> Outcome {
    for bells in [2, 3, 7, 11, 12] {
        for count in 0..=3 {
            let all: Vec<Row> = (0..count).map(|number| row_at(bells, number % 2)).collect();
            for size in 0..PLACES * (count + 2) + 2 {
                match size < PLACES * count {
                    true => demand_refused(subject, &piece(&all), bells, size, "21@0")?,
                    false => demand_rung(subject, &all, bells, size, count.min(2))?,
                }
            }
        }
    }
    Ok(())
}

/// Rounds turned so that each bell stands in each place, on each number of bells.
fn bells_in_places(subject: &dyn Controller) -> Outcome {
    for bells in 2..=12 {
        let mut all = vec![rounds(bells); bells];
        all.iter_mut().enumerate().for_each(|(place, row)| row.rotate_left(place));
        demand_rung(subject, &all, bells, PLACES * bells + 5, bells)?;
        all.iter().try_for_each(|row| demand_rung(subject, std::slice::from_ref(row), bells, PLACES, 1))?;
    }
    Ok(())
}

/// Rounds on each number of bells, read as rows of each number of bells.
fn other_numbers(subject: &dyn Controller) -> Outcome {
    for bells in 2..=12 {
        for asked in (0..=14).chain([bells + 256, bells + (1 << 32), usize::MAX]) {
            let term = chain(&rounds(bells));
            match asked {
                _ if asked == bells => demand_rung(subject, &[rounds(bells)], bells, 40, 1)?,
                2..=12 if bells % asked > 0 => demand_refused(subject, &term, asked, 200, "21@0")?,
                2..=12 => demand_refused(subject, &term, asked, 200, "22@2")?,
                _ => demand_refused(subject, &term, asked, 200, "20@0")?,
            }
        }
    }
    Ok(())
}

/// Every so many bells out of one more than there are: a row exactly where each bell is one of them, else 22.
fn every_few_bells(subject: &dyn Controller) -> Outcome {
    for bells in 2..=4 {
        let rows = every_row(bells);
        let choices = bells + 1;
        for number in 0..choices.pow(bells as u32) {
            let row: Row =
                (0..bells).map(|place| (number / choices.pow(place as u32) % choices) as u8 + 1).collect();
            match rows.contains(&row) {
                true => demand_rung(subject, &[row], bells, 12, 1)?,
                false => demand_refused(subject, &chain(&row), bells, 12, "22@1")?,
            }
        }
    }
    Ok(())
}

/// Each two rows on two, three and four bells, and the six on three bells in all orders.
fn every_few_rows(subject: &dyn Controller) -> Outcome {
    for bells in 2..=4 {
        for one in every_row(bells) {
            for two in every_row(bells) {
                let different = if one == two { 1 } else { 2 };
                demand_rung(subject, &[one.clone(), two], bells, 30, different)?;
            }
        }
    }
    let rows = every_row(3);
    every_row(6).into_iter().try_for_each(|order| {
        let all: Vec<Row> = order.iter().map(|&number| rows[usize::from(number) - 1].clone()).collect();
        demand_rung(subject, &all, 3, 80, 6)
    })
}

/// The ways in which four bells are no row.
const BAD: [[u8; 4]; 6] = [[1, 1, 3, 4], [1, 2, 3, 3], [4, 2, 3, 4], [5, 2, 3, 4], [1, 2, 3, 5], [12, 12, 12, 12]];

/// Seven rows of which one is bad, or two: the first of them is told, and no byte is changed.
fn first_bad_row(subject: &dyn Controller) -> Outcome {
    let good: Vec<Row> = (0..7).map(|number| row_at(4, number)).collect();
    for bad in BAD {
        for one in 0..7 {
            for two in one..7 {
                let mut all = good.clone();
                all[one] = bad.to_vec();
                all[two] = bad.to_vec();
                demand_refused(subject, &piece(&all), 4, 90, &format!("22@{}", one + 1))?;
            }
        }
    }
    Ok(())
}

/// Terms that are neither a bell nor a chain.
const OTHERS: [&str; 10] = ["J", "RJ", "RI", "R1", "HJJ", "H1I", "AIJ", ".II", ".1I", "BJI"];

/// A chain of four bells, with one part of it another: no chain, whatever part that is.
fn broken_chains(subject: &dyn Controller) -> Outcome {
    let text = b"B1B2B2B1I";
    let put = |place: usize, other: &[u8]| joined(&[&text[..place], other, &text[place + 1..]]);
    let mut broken: Vec<Vec<u8>> = OTHERS.iter().map(|other| put(8, other.as_bytes())).collect();
    broken.extend(BELLS.iter().map(|&bell| put(8, &[bell])));
    for place in [1, 3, 5, 7] {
        broken.extend(OTHERS.iter().map(|other| put(place, other.as_bytes())));
        broken.extend(["I", "B1I", "B1B2I", "BB1II"].map(|other| put(place, other.as_bytes())));
        broken.extend([b"H", b"A", b"."].map(|letter| put(place - 1, letter)));
    }
    for term in &broken {
        for size in [0, 23, 24, 60] {
            demand_refused(subject, term, 2, size, "20@0")?;
        }
    }
    equal("terms that are no chain", broken.len(), 90)
}

/// Pieces whose replies are written by hand.
pub fn known(suite: &mut Suite, label: &str, subject: impl Controller) {
    for row in rows() {
        suite.test(&format!("{label} rows: {}", row.name), || by_hand(&subject, &row));
    }
    let tests: [Test; 8] = [
        ("every text that reading refuses", unreadable),
        ("tables of every size, whatever they hold", sizes_of_tables),
        ("each bell in each place", bells_in_places),
        ("a row on each number of bells, asked for on every other", other_numbers),
        ("every two to four bells out of one more", every_few_bells),
        ("each two rows, and six in all orders", every_few_rows),
        ("one row or two of seven bad, in each place", first_bad_row),
        ("a chain with one part another", broken_chains),
    ];
    for (name, test) in tests {
        suite.test(&format!("{label} rows: {name}"), || test(&subject));
    }
}

/// Demands agreement on a text for rows of these numbers of bells, in tables of these sizes.
fn agree_on(
    subject: &dyn Controller,
    random: &mut Random,
    term: &[u8],
    bells: &[usize],
    sizes: &[usize],
) -> Outcome {
    for &bells in bells {
        for &size in sizes {
            agree_rows(subject, &Rows { term: term.to_vec(), bells, table: random.rubbish(size) })?;
        }
    }
    Ok(())
}

/// Every term of up to five letters, bells one and two among them.
fn small_terms(subject: &dyn Controller) -> Outcome {
    let mut random = Random::new(131);
    for term in (1..=5).flat_map(|size| texts_of_size(size, "JI12")) {
        agree_on(subject, &mut random, &term, &[0, 1, 2, 3, 13], &[0, 11, 12, 25])?;
    }
    Ok(())
}

/// Every slice of up to seven of the letters of which chains of two bells are made, most of which are no chain.
fn short_slices(subject: &dyn Controller) -> Outcome {
    let mut random = Random::new(132);
    let mut slices = vec![vec![]];
    for _ in 0..=7 {
        for slice in &slices {
            agree_on(subject, &mut random, slice, &[1, 2, 3], &[11, 12, 30])?;
        }
        slices = slices.iter().flat_map(|slice| b"B12I".map(|letter| [&slice[..], &[letter]].concat())).collect();
    }
    Ok(())
}

/// Rows out of a few, so that some come again.
fn some_rows(random: &mut Random, bells: usize, count: usize) -> Vec<Row> {
    let few: Vec<Row> = (0..random.between(1, 8)).map(|_| random_row(random, bells)).collect();
    (0..count)
        .map(|_| match random.below(3) {
            0 => random_row(random, bells),
            _ => random.pick(&few).clone(),
        })
        .collect()
}

/// A table's size about that of so many rows.
fn about(random: &mut Random, count: usize) -> usize {
    let size = PLACES * count;
    *random.pick(&[size, size, size + 1, size + 11, size + 40, size.saturating_sub(1), size / 2, 0])
}

fn random_chains(subject: &dyn Controller) -> Outcome {
    let mut random = Random::new(133);
    for _ in 0..6_000 {
        let (bells, count) = (random.between(2, 12), random.below(30));
        let term = piece(&some_rows(&mut random, bells, count));
        let size = about(&mut random, count);
        let other = random.below(15);
        agree_on(subject, &mut random, &term, &[bells, other], &[size])?;
    }
    Ok(())
}

/// Chains of up to 1,100 rows.
fn long_chains(subject: &dyn Controller) -> Outcome {
    let mut random = Random::new(134);
    for _ in 0..40 {
        let (bells, count) = (random.between(2, 12), random.between(800, 1_100));
        let mut all = some_rows(&mut random, bells, count);
        if random.once_in(3) {
            let bad = random.below(count);
            all[bad][0] = all[bad][1];
        }
        let size = about(&mut random, count);
        agree_on(subject, &mut random, &piece(&all), &[bells], &[PLACES * 1_000, size])?;
    }
    Ok(())
}

/// A bell exchanged for another, two bells exchanged, one left out or one more, so that the chain stays one.
fn other_bells(random: &mut Random, bells: &mut Row) {
    let place = random.below(bells.len());
    match random.below(4) {
        0 => bells[place] = random.between(1, 12) as u8,
        1 => bells.swap(place, 0),
        2 => drop(bells.remove(place)),
        _ => bells.insert(place, random.between(1, 12) as u8),
    }
}

/// Chains that are damaged in their bells, and some in their letters too.
fn damaged_chains(subject: &dyn Controller) -> Outcome {
    let mut random = Random::new(135);
    for _ in 0..10_000 {
        let (bells, count) = (random.between(2, 12), random.between(1, 9));
        let mut numbers = some_rows(&mut random, bells, count).concat();
        if random.once_in(2) {
            other_bells(&mut random, &mut numbers);
        }
        let mut term = chain(&numbers);
        if random.once_in(2) {
            term = damaged(&mut random, &term, LETTERS);
        }
        let size = about(&mut random, count);
        agree_on(subject, &mut random, &term, &[bells], &[size])?;
    }
    Ok(())
}

/// Terms of every kind, and chains with such a term in the place of a bell or of the end.
fn random_terms(subject: &dyn Controller) -> Outcome {
    let mut random = Random::new(136);
    for _ in 0..4_000 {
        let other = random_of_sizes(&mut random, 1, 40).text();
        let bells = random.between(2, 12);
        let text = piece(&some_rows(&mut random, bells, 3));
        let place = random.below(text.len() / 2 + 1);
        let place = (2 * place + 1).min(text.len() - 1);
        let put = joined(&[&text[..place], &other, &text[place + 1..]]);
        agree_on(subject, &mut random, &other, &[2, bells], &[40])?;
        agree_on(subject, &mut random, &put, &[bells], &[12, 60])?;
    }
    Ok(())
}

/// Pieces whose replies the second implementation predicts.
pub fn predicted(suite: &mut Suite, label: &str, subject: impl Controller) {
    let tests: [Test; 6] = [
        ("every term of up to 5 letters, bells 1 and 2 among them", small_terms),
        ("every slice of up to 7 letters of a chain", short_slices),
        ("random chains", random_chains),
        ("random chains of up to 1,100 rows", long_chains),
        ("damaged chains", damaged_chains),
        ("random terms, alone and in chains", random_terms),
    ];
    for (name, test) in tests {
        suite.test(&format!("{label} rows: {name}"), || test(&subject));
    }
}
