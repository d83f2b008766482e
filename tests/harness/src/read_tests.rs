//! Reading: the table, every short slice, random and damaged ones.

use crate::damage::damaged;
use crate::lent::demand_read;
use crate::random::Random;
use crate::reply::from_words;
use crate::subject::{Controller, Second};
use crate::suite::{equal, Outcome, Suite};
use crate::table::reading::{long_rows, rows, Row};
use crate::terms::{random_of_size, LETTERS};
use second::plain::Plain;

fn agree(subject: &dyn Controller, slice: &[u8]) -> Outcome {
    demand_read(subject, slice, Second::<Plain>::new().read(slice))
}

/// Every slice of up to so many of these bytes.
fn short_slices(subject: &dyn Controller, bytes: &[u8], most: usize) -> Outcome {
    let mut slices = vec![vec![]];
    for _ in 0..most {
        let longer =
            |slice: &Vec<u8>| bytes.iter().map(|&byte| [&slice[..], &[byte]].concat()).collect::<Vec<_>>();
        let next: Vec<Vec<u8>> = slices.iter().flat_map(longer).collect();
        for slice in &next {
            agree(subject, slice)?;
        }
        slices = next;
    }
    Ok(())
}

/// Each of the 256 bytes alone, behind `R`, and behind a whole term.
fn each_byte(subject: &dyn Controller) -> Outcome {
    for byte in 0..=255 {
        agree(subject, &[byte])?;
        agree(subject, &[b'R', byte])?;
        agree(subject, &[b'J', byte])?;
    }
    Ok(())
}

fn random_slices(subject: &dyn Controller) -> Outcome {
    let mut random = Random::new(101);
    for _ in 0..20_000 {
        let size = random.between(1, 80);
        let text = random_of_size(&mut random, size).text();
        agree(subject, &text)?;
        agree(subject, &damaged(&mut random, &text, LETTERS))?;
        let length = random.below(30);
        let letters: Vec<u8> = (0..length).map(|_| *random.pick(b"JRHAIB.JI0E")).collect();
        agree(subject, &letters)?;
        agree(subject, &random.rubbish(length))?;
    }
    Ok(())
}

fn by_hand(suite: &mut Suite, label: &str, subject: impl Controller, rows: Vec<Row>) {
    for row in rows {
        let name = format!("{label} reading: {}", row.name);
        suite.test(&name, || demand_read(&subject, &row.slice, from_words(&row.reply, 0)));
    }
}

/// Each of the 256 bytes, alone and with up to three `J` behind it: 19 of them are letters.
fn letters(subject: &dyn Controller) -> Outcome {
    let mut letters = 0;
    for byte in 0..=255 {
        let takes = match byte {
            b'J' | b'I' | b'1' | b'2' | b'3' | b'4' | b'5' | b'6' | b'7' | b'8' | b'9' | b'0' | b'E' | b'T' => {
                Some(0)
            }
            b'R' => Some(1),
            b'H' | b'A' | b'B' | b'.' => Some(2),
            _ => None,
        };
        letters += usize::from(takes.is_some());
        for behind in 0..=3 {
            let reply = match takes {
                None => "5@0".to_string(),
                Some(takes) if behind < takes => format!("6@{}", 1 + behind),
                Some(takes) if behind == takes => format!("whole {}", 1 + takes),
                Some(takes) => format!("7@{}", 1 + takes),
            };
            let slice = [&[byte], &b"JJJ"[..behind]].concat();
            demand_read(subject, &slice, from_words(&reply, 0))?;
        }
    }
    equal("letters", letters, 19)
}

/// Slices whose replies are written by hand.
pub fn known(suite: &mut Suite, label: &str, subject: impl Controller + Copy) {
    by_hand(suite, label, subject, rows());
    suite.test(&format!("{label} reading: each byte with its terms, 19 letters"), || letters(&subject));
}

/// The same, of millions of bytes.
pub fn made(suite: &mut Suite, label: &str, subject: impl Controller) {
    by_hand(suite, label, subject, long_rows());
}

/// Slices whose replies the second reader predicts.
pub fn predicted(suite: &mut Suite, label: &str, subject: impl Controller) {
    suite.test(&format!("{label} reading: each byte"), || each_byte(&subject));
    suite.test(&format!("{label} reading: every slice of up to five bytes, two bells among them"), || {
        short_slices(&subject, b"JRHAIB.1Tx\0", 5)
    });
    suite.test(&format!("{label} reading: every slice of up to four bytes, all letters among them"), || {
        short_slices(&subject, &[LETTERS, &b"K\0"[..]].concat(), 4)
    });
    suite.test(&format!("{label} reading: random and damaged slices"), || random_slices(&subject));
}
