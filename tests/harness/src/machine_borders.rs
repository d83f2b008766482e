//! Finishing where an arena of cells would end: terms that are, or become, of just so many letters.

use crate::deep::on_advised_stack;
use crate::end_tests::{Around, PLACES, REDEX};
use crate::lent::{call, demand, predict_fast};
use crate::reply::{code, NO_ROOM};
use crate::runs::{inert, nested_uses, room_for, swings, uses};
use crate::subject::Controller;
use crate::suite::{equal, Outcome, Suite};
use crate::terms::{joined, repeated};
use second::stepping::MAX_AREA;

/// The letters of each arena, and half as many: a term gets an arena by twice its size.
const BORDERS: [usize; 9] = [32, 64, 128, 256, 512, 1_024, 2_048, 4_096, 8_192];

/// The steps of a run at most: what stands around a redex is left unfinished where that is larger.
const FUEL: u64 = 120;

fn sizes() -> Vec<usize> {
    let about = BORDERS.into_iter().flat_map(|border| border - 1..=border + 2);
    about.chain([MAX_AREA - 1, MAX_AREA]).collect()
}

/// Demands a run in an area that has just room for it, in one that lacks a byte, and in the largest.
fn in_areas(subject: &dyn Controller, text: &[u8]) -> Outcome {
    let needed = room_for(text, FUEL);
    for area in [needed - 1, needed, MAX_AREA].map(|area| area.clamp(text.len(), MAX_AREA)) {
        let call = call(text, area);
        let expected = predict_fast(&call, Some(FUEL));
        equal("there is no room", code(expected.reply) == NO_ROOM, area < needed)?;
        demand(subject, &call, Some(FUEL), &expected)?;
    }
    Ok(())
}

/// Short runs: with a few letters, with some steps, and with a part that is copied and dropped.
fn runs(size: usize) -> [Vec<u8>; 3] {
    [uses(1, b"I"), nested_uses(3, 2), swings(3, &inert(size / 8))]
}

/// Runs in one place, of so many letters at first, and of so many at most.
fn in_place(subject: &dyn Controller, around: Around) -> Outcome {
    for size in sizes() {
        for text in runs(size) {
            let most = room_for(&text, FUEL);
            for own in [text.len(), most].into_iter().filter(|own| own + REDEX < size) {
                let [before, behind] = around(size - own);
                let whole = joined(&[&before, &text, &behind]);
                equal("letters at most", room_for(&whole, FUEL), (size - own + most).min(MAX_AREA + 1))?;
                in_areas(subject, &whole)?;
            }
        }
    }
    Ok(())
}

/// The text of a run by the letters of its part that does nothing.
type Alone = fn(usize) -> Vec<u8>;

/// Runs with nothing around them.
const ALONE: [(&str, Alone); 3] = [
    ("copied twice", |p| uses(3, &inert(p))),
    ("copied three times", |p| swings(2, &inert(p))),
    ("copied in a copy", |p| uses(1, &uses(2, &inert(p)))),
];

/// The longest of these texts for which `letters` gives no more than the size, behind letters that make up the rest.
fn made_up(text: Alone, size: usize, letters: fn(&[u8]) -> usize) -> Option<Vec<u8>> {
    let fits = |p: &usize| letters(&text(*p)) <= size;
    let (mut least, mut past) = (0, size);
    fits(&least).then_some(())?;
    while past - least > 1 {
        let middle = least + (past - least) / 2;
        match fits(&middle) {
            true => least = middle,
            false => past = middle,
        }
    }
    let text = text(least);
    Some(joined(&[&repeated("R", size - letters(&text)), &text]))
}

/// A run that is the whole text, of so many letters at first, and of so many at most.
fn alone(subject: &dyn Controller, text: Alone) -> Outcome {
    let measures: [fn(&[u8]) -> usize; 2] = [<[u8]>::len, |text| room_for(text, FUEL)];
    for size in sizes() {
        for letters in measures {
            let Some(whole) = made_up(text, size, letters) else { continue };
            equal("letters", letters(&whole), size)?;
            in_areas(subject, &whole)?;
        }
    }
    Ok(())
}

/// Runs in areas of the term's own size and of a few bytes more, where only a few steps have room.
fn in_its_own_size(subject: &dyn Controller) -> Outcome {
    for size in sizes() {
        let text = made_up(|p| uses(1, &inert(p)), size, <[u8]>::len).ok_or("a term of that size")?;
        for area in text.len()..text.len() + 5 {
            let call = call(&text, area.min(MAX_AREA));
            demand(subject, &call, Some(FUEL), &predict_fast(&call, Some(FUEL)))?;
        }
    }
    Ok(())
}

/// Calls whose replies the fast reducer predicts, on the stack that docs/FIRMWARE.md advises.
pub fn predicted(suite: &mut Suite, label: &str, subject: impl Controller + Sync) {
    for (place, around) in PLACES {
        let name = format!("{label} finishing: a run {place}, about the borders of arenas");
        suite.test(&name, || on_advised_stack(|| in_place(&subject, around)));
    }
    for (how, text) in ALONE {
        let name = format!("{label} finishing: a part {how}, about the borders of arenas");
        suite.test(&name, || on_advised_stack(|| alone(&subject, text)));
    }
    suite.test(&format!("{label} finishing: areas of a term's own size, about the borders of arenas"), || {
        on_advised_stack(|| in_its_own_size(&subject))
    });
}
