//! What follows from what a book is: each line is finished by itself with results in the place of its uses, names and
//! order mean nothing else, and the last result is that of the last line written out in full.

use crate::book_tests::{random_lines, with_uses};
use crate::books::*;
use crate::join_laws::result_of;
use crate::random::Random;
use crate::reply::*;
use crate::row_tests::Test;
use crate::step_tests::padded;
use crate::subject::Controller;
use crate::suite::{equal, shown, Outcome, Suite};
use second::finishing::MAX_FUEL;
use second::stepping::MAX_AREA;
use second::term::parse;
use std::collections::HashMap;

type Lines = Vec<(String, Vec<u8>)>;

/// What a book comes to, and the result that it leaves, if any.
type Came = (String, Vec<u8>);

fn came(subject: &dyn Controller, lines: &Lines, area: usize, fuel: u64) -> Came {
    let (mut bytes, mut work, mut store) = (vec![b'#'; area], vec![b'w'; area], vec![b's'; STORE]);
    let reply = subject.book(&book_of(lines), &mut bytes, &mut work, &mut store, fuel);
    bytes.truncate(if is_refusal(reply) { 0 } else { size(reply) });
    (in_words(reply), bytes)
}

fn answered(code: u64, line: usize, result: &[u8]) -> Came {
    (in_words(pack(code, line as u64, result.len())), result.to_vec())
}

fn told(what: String, lines: &Lines) -> String {
    format!("{what}; on {}", shown(&book_of(lines)))
}

/// A line finished by itself: its outcome, its steps, and its result.
struct Finished {
    code: u64,
    steps: u64,
    result: Vec<u8>,
}

/// Each line by a call of finishing, with results in the place of its uses, up to the first that does not finish or
/// whose result does not fit.
fn line_by_line(subject: &dyn Controller, lines: &Lines, area: usize, fuel: u64) -> Vec<Finished> {
    let (mut results, mut letters, mut all) = (HashMap::new(), 0, vec![]);
    for (name, term) in lines {
        let text = with_uses_replaced(term, &results);
        if text.len() > area {
            all.push(Finished { code: NO_ROOM, steps: 0, result: vec![] });
            return all;
        }
        let (mut bytes, mut work) = (padded(&text, area), vec![0; area]);
        let reply = subject.finish(&mut bytes, text.len(), &mut work, fuel);
        bytes.truncate(size(reply));
        letters += bytes.len();
        let fits = letters <= STORE;
        let code = if code(reply) == FINISHED && !fits { NO_ROOM } else { code(reply) };
        all.push(Finished { code, steps: value(reply), result: bytes.clone() });
        if code != FINISHED {
            return all;
        }
        results.insert(name.as_bytes().to_vec(), bytes);
    }
    all
}

/// What a book comes to by that.
fn came_by(all: &[Finished]) -> Came {
    let last = all.last().expect("a book has a line");
    let result: &[u8] = if last.code == FINISHED { &last.result } else { &[] };
    answered(last.code, all.len(), result)
}

/// A book is its lines finished one after the other, in any area and with any fuel.
fn each_line_finished(subject: &dyn Controller) -> Outcome {
    let mut random = Random::new(171);
    let mut ended: HashMap<u64, usize> = HashMap::new();
    for _ in 0..1_500 {
        let lines = random_lines(&mut random, 10);
        let (area, fuel) = (random.between(10, 90), random.below(6) as u64);
        let all = line_by_line(subject, &lines, area, fuel);
        *ended.entry(all.last().map_or(0, |last| last.code)).or_default() += 1;
        equal("book", came(subject, &lines, area, fuel), came_by(&all)).map_err(|what| told(what, &lines))?;
    }
    let often = [FINISHED, SPENT, NO_ROOM].map(|code| ended.get(&code).is_some_and(|&times| times > 100));
    equal("each outcome more than 100 times", often, [true; 3])
}

/// Every area from none on, until the book is finished in as few bytes as it can be, and one more.
fn every_area(subject: &dyn Controller) -> Outcome {
    let mut random = Random::new(172);
    for _ in 0..40 {
        let lines = random_lines(&mut random, 6);
        for area in 0..=80 {
            let all = line_by_line(subject, &lines, area, 50);
            equal("book", came(subject, &lines, area, 50), came_by(&all)).map_err(|what| told(what, &lines))?;
        }
    }
    Ok(())
}

/// The whole fuel is for each line: as many steps as the longest run makes are enough for all of them together, and with
/// one less the first of the longest is spent.
fn fuel_of_the_longest(subject: &dyn Controller) -> Outcome {
    let mut random = Random::new(173);
    let mut tried = 0;
    for _ in 0..400 {
        let lines = random_lines(&mut random, 10);
        let all = line_by_line(subject, &lines, 2_000, 500);
        let most = all.iter().map(|line| line.steps).max().unwrap_or(0);
        if came_by(&all).0 == answered(FINISHED, lines.len(), &all[all.len() - 1].result).0 && most > 0 {
            tried += 1;
            let first = all.iter().take_while(|line| line.steps < most).count() + 1;
            let with = |fuel| came(subject, &lines, 2_000, fuel);
            equal("with as much fuel", with(most), came_by(&all))
                .and_then(|()| equal("with one less", with(most - 1), answered(SPENT, first, b"")))
                .map_err(|what| told(what, &lines))?;
        }
    }
    equal("more than 200 were tried", tried > 200, true)
}

/// A last line written out in full: each use by its line, itself written out in full.
fn in_full(lines: &Lines) -> Vec<u8> {
    let mut texts = HashMap::new();
    for (name, term) in lines {
        let text = with_uses_replaced(term, &texts);
        texts.insert(name.as_bytes().to_vec(), text);
    }
    texts[lines[lines.len() - 1].0.as_bytes()].clone()
}

/// A finished book's result is that of the last line written out in full.
fn written_out(subject: &dyn Controller) -> Outcome {
    let mut random = Random::new(174);
    let mut decided = 0;
    for _ in 0..1_000 {
        let lines = random_lines(&mut random, 7);
        let (words, result) = came(subject, &lines, MAX_AREA, 2_000);
        let whole = in_full(&lines);
        if words != answered(FINISHED, lines.len(), &result).0 || whole.len() > MAX_AREA {
            continue;
        }
        let (mut area, mut work) = (padded(&whole, MAX_AREA), vec![0; MAX_AREA]);
        let reply = subject.finish(&mut area, whole.len(), &mut work, MAX_FUEL.min(20_000));
        if code(reply) == FINISHED {
            decided += 1;
            equal("in full", shown(&area[..size(reply)]), shown(&result)).map_err(|what| told(what, &lines))?;
        }
    }
    equal("more than 700 were decided", decided > 700, true)
}

/// It is also the normal term that a search in every order finds from there.
fn searched(subject: &dyn Controller) -> Outcome {
    let mut random = Random::new(175);
    let mut decided = 0;
    for _ in 0..150 {
        let lines = random_lines(&mut random, 4);
        let whole = in_full(&lines);
        if whole.len() > 14 {
            continue;
        }
        let (words, result) = came(subject, &lines, MAX_AREA, 500);
        let Some(normal) = result_of(&[&parse(&whole).expect("the text of a term")]) else { continue };
        if words == answered(FINISHED, lines.len(), &result).0 {
            decided += 1;
            equal("searched", shown(&normal.text()), shown(&result)).map_err(|what| told(what, &lines))?;
        }
    }
    equal("more than 50 were decided", decided > 50, true)
}

/// Does a line use this name?
fn uses(term: &[u8], name: &str) -> bool {
    term.windows(name.len() + 2).any(|part| part == use_of(name))
}

/// The lines in another order, each behind those that it uses, with the last one last.
fn permuted(random: &mut Random, lines: &Lines) -> Lines {
    let (last, mut left) = (lines[lines.len() - 1].clone(), lines[..lines.len() - 1].to_vec());
    let mut taken: Lines = vec![];
    while !left.is_empty() {
        let ready: Vec<usize> =
            (0..left.len()).filter(|&place| left.iter().all(|(name, _)| !uses(&left[place].1, name))).collect();
        taken.push(left.remove(*random.pick(&ready)));
    }
    taken.push(last);
    taken
}

/// The order of lines does not matter to what a book comes to where it finishes.
fn in_another_order(subject: &dyn Controller) -> Outcome {
    let mut random = Random::new(176);
    let mut finished = 0;
    for _ in 0..600 {
        let lines = random_lines(&mut random, 10);
        let other = permuted(&mut random, &lines);
        let [one, two] = [&lines, &other].map(|lines| came(subject, lines, 200, 60));
        if one.0 == answered(FINISHED, lines.len(), &one.1).0 {
            finished += 1;
            equal("in another order", two, one).map_err(|what| told(what, &other))?;
        } else {
            let all = answered(FINISHED, lines.len(), &two.1).0;
            equal("finished in another order", two.0 == all, false).map_err(|what| told(what, &other))?;
        }
    }
    equal("more than 200 finished", finished > 200, true)
}

/// Names mean nothing: others, one for one, change no reply, also where a line is refused.
fn renamed(subject: &dyn Controller) -> Outcome {
    let mut random = Random::new(177);
    for _ in 0..600 {
        let mut lines = random_lines(&mut random, 10);
        if random.once_in(3) {
            let (one, two) = (random.below(lines.len()), random.below(lines.len()));
            lines[one].1 = use_of(&lines[two].0);
        }
        let mut names: Vec<String> =
            (0..lines.len()).map(|number| name_of(random.between(1, 700) + 701 * number)).collect();
        for name in names.iter_mut().filter(|_| random.once_in(3)) {
            *name = format!("qqqqqqqq{name}")[name.len()..].to_string();
        }
        let by_use: HashMap<Vec<u8>, Vec<u8>> =
            lines.iter().zip(&names).map(|((old, _), new)| (old.as_bytes().to_vec(), use_of(new))).collect();
        let other: Lines = lines
            .iter()
            .zip(&names)
            .map(|((_, term), new)| (new.clone(), with_uses_replaced(term, &by_use)))
            .collect();
        let [one, two] = [&lines, &other].map(|lines| came(subject, lines, 100, 30));
        equal("renamed", two, one).map_err(|what| told(what, &other))?;
    }
    Ok(())
}

/// A line behind the last that uses it and is nothing else leaves the same; lines that nobody uses change the number of
/// the last line alone.
fn more_lines(subject: &dyn Controller) -> Outcome {
    let mut random = Random::new(178);
    let mut finished = 0;
    for _ in 0..600 {
        let lines = random_lines(&mut random, 8);
        let (words, result) = came(subject, &lines, 300, 60);
        let longer = [&lines[..], &[("unused".to_string(), use_of(&lines[lines.len() - 1].0))]].concat();
        let mut wider = lines.clone();
        wider.insert(random.below(lines.len()), ("unused".to_string(), b".I.IJ".to_vec()));
        if words == answered(FINISHED, lines.len(), &result).0 {
            finished += 1;
            let wanted = answered(FINISHED, lines.len() + 1, &result);
            for other in [longer, wider] {
                equal("with one more", came(subject, &other, 300, 60), wanted.clone())
                    .map_err(|what| told(what, &other))?;
            }
        } else {
            equal("with one more", came(subject, &longer, 300, 60), (words, result))
                .map_err(|what| told(what, &longer))?;
        }
    }
    equal("more than 200 finished", finished > 200, true)
}

/// A use written out by the result that it stands for changes nothing; nor does one more line of that result.
fn results_in_place(subject: &dyn Controller) -> Outcome {
    let mut random = Random::new(179);
    for _ in 0..600 {
        let lines = random_lines(&mut random, 8);
        let all = line_by_line(subject, &lines, 300, 60);
        let results: HashMap<Vec<u8>, Vec<u8>> = lines
            .iter()
            .zip(&all)
            .map(|((name, _), line)| (name.as_bytes().to_vec(), line.result.clone()))
            .collect();
        let mut other = lines.clone();
        for (_, term) in other.iter_mut().take(all.len()) {
            *term = with_uses_replaced(term, &results);
        }
        let [one, two] = [&lines, &other].map(|lines| came(subject, lines, 300, 60));
        // lines behind the first that does not finish may use it
        if all.len() == lines.len() {
            equal("with results in place", two, one).map_err(|what| told(what, &other))?;
        }
    }
    Ok(())
}

/// Lines that use what came long before, in books of 256 lines: the result is made of the lines that are used.
fn far_uses(subject: &dyn Controller) -> Outcome {
    let mut random = Random::new(180);
    for _ in 0..20 {
        let names: Vec<String> = (1..=MOST_LINES).map(name_of).collect();
        let mut lines: Lines = vec![];
        for number in 0..MOST_LINES {
            let from = number.saturating_sub(random.below(MOST_LINES));
            lines.push((names[number].clone(), with_uses(&mut random, 3, &names[from..number])));
        }
        let all = line_by_line(subject, &lines, 900, 40);
        equal("book", came(subject, &lines, 900, 40), came_by(&all)).map_err(|what| told(what, &lines))?;
    }
    Ok(())
}

/// What follows from how a book is made, by what the subject itself replies to other calls.
pub fn made(suite: &mut Suite, label: &str, subject: impl Controller) {
    let tests: [Test; 10] = [
        ("each line finished by itself, results in the place of uses", each_line_finished),
        ("every area, line by line", every_area),
        ("as much fuel as the longest run makes steps, and one less", fuel_of_the_longest),
        ("the last line written out in full, finished", written_out),
        ("the last line written out in full, searched in every order", searched),
        ("lines in another order", in_another_order),
        ("names for names", renamed),
        ("one more line", more_lines),
        ("results in the place of uses", results_in_place),
        ("256 lines that use earlier ones", far_uses),
    ];
    for (name, test) in tests {
        suite.test(&format!("{label} book: {name}"), || test(&subject));
    }
}
