//! The second implementation alone: the hand-written rows, and facts that must hold of it.

use crate::changes::{backwards, forwards};
use crate::derivations::{after_step, file_of, some, Layout};
use crate::lent::{predict_counted, predict_plain};
use crate::random::Random;
use crate::subject::Second;
use crate::suite::{equal, equal_bytes, shown, Outcome, Suite};
use crate::table::sweeping::TERMS;
use crate::terms::{all_of_size, random_of_size, texts_of_size, ALL_BELLS, BELLS, NO_BELLS, TWO_BELLS};
use crate::wrong_batch::Slip;
use crate::wrong_batches::Batches;
use crate::{
    book_laws, book_tests, catalogue_laws, catalogue_tests, check_tests, compare_tests, count_tests,
    dearest_tests, deep, end_tests, finish_tests, huge, join_laws, join_tests, machine_rules, machine_tests,
    match_tests, program_tests, read_tests, result_tests, row_laws, row_tests, small_tests, step_tests,
    sweep_tests,
};
use crate::{wrong_book, wrong_entries, wrong_plays};
use second::anywhere::{nearest_normal, successors, Nearest};
use second::checking::check;
use second::finishing::{run, Outcome as End};
use second::machine::Machine;
use second::order::{next_place, part_at};
use second::plain::{rewrite_at, Plain};
use second::rules::growth;
use second::small_terms;
use second::stepping::{Next, Reducer};
use second::term::{parse, Term};

/// How many terms there are of each size, reckoned by hand: one letter takes a term, four letters take two.
fn numbers_of_terms() -> Outcome {
    let of_sizes: [(&str, &[usize]); 3] = [
        (NO_BELLS, &[2, 2, 18, 50, 354, 1_442, 9_202]),
        (TWO_BELLS, &[4, 4, 68, 196, 2_436, 10_884, 113_604]),
        (ALL_BELLS, &[14, 14, 798, 2_366, 92_526]),
    ];
    for (ends, numbers) in of_sizes {
        for (size, &number) in (1..).zip(numbers) {
            let mut texts: Vec<Vec<u8>> = all_of_size(size, ends).iter().map(Term::text).collect();
            texts.sort();
            texts.dedup();
            equal(&format!("terms of size {size} over {ends}"), texts.len(), number)?;
        }
    }
    Ok(())
}

/// The terms of size 3 without bells, in byte order.
const OF_SIZE_3: &str = ".II .IJ .JI .JJ AII AIJ AJI AJJ BII BIJ BJI BJJ HII HIJ HJI HJJ RRI RRJ";

/// The terms that sweep and dearest run come in byte order, as many as there are, and are those that letters before
/// texts make.
fn small_terms_in_order() -> Outcome {
    let of_size_3: Vec<Vec<u8>> = OF_SIZE_3.split(' ').map(|text| text.as_bytes().to_vec()).collect();
    equal("of size 3", small_terms::texts_of_size(3), of_size_3)?;
    for (size, number) in (1..).zip(TERMS) {
        let texts = small_terms::texts_of_size(size);
        equal(&format!("terms of size {size}"), texts.len() as u64, number)?;
        equal(&format!("size {size} is in byte order"), texts.windows(2).all(|two| two[0] < two[1]), true)?;
        let mut others = texts_of_size(size, NO_BELLS);
        others.sort();
        equal(&format!("size {size} made of letters before texts"), texts == others, true)?;
    }
    Ok(())
}

/// All terms of size 3 finish; the applications among them, of any two terms of size 1, take one step each.
fn runs_of_size_3() -> Outcome {
    for (ends, applications) in [(NO_BELLS, 4), (TWO_BELLS, 16), (ALL_BELLS, 196)] {
        let mut steps = 0;
        for term in all_of_size(3, ends) {
            let (outcome, count) = run(&mut Plain { term }, 20, 10, |_| ());
            equal("outcome", outcome, End::Finished)?;
            steps += count;
        }
        equal(&format!("steps over {ends}"), steps, applications)?;
    }
    Ok(())
}

/// A term has a next step exactly when it is not normal; the step's size is the one foreseen.
fn every_small_step() -> Outcome {
    for term in (1..=7).flat_map(|size| all_of_size(size, TWO_BELLS)) {
        let place = next_place(&term);
        equal(&shown(&term.text()), place.is_none(), term.is_normal())?;
        let Some(way) = place else { continue };
        let mut after = term.clone();
        let Term::Apply(f, x) = part_at(&mut after, &way) else { return Err(shown(&term.text())) };
        let more = growth(f, x);
        equal("a rule fits", rewrite_at(&mut after, &way).is_some(), true)?;
        let foreseen = if more > 0 { after.size() == term.size() + more } else { after.size() <= term.size() };
        equal(&format!("{} has the size foreseen", shown(&term.text())), foreseen, true)?;
    }
    Ok(())
}

/// The text of a finished run's result.
fn result(term: &Term) -> Option<Vec<u8>> {
    let mut machine = Machine::start(&term.text());
    let (outcome, _) = run(&mut machine, 4_000, 2_000, |_| ());
    (outcome == End::Finished).then(|| machine.text())
}

/// Terms joined by changes, forwards and backwards, have one result.
fn joined_terms() -> Outcome {
    let mut random = Random::new(61);
    let mut decided = 0;
    for _ in 0..4_000 {
        let size = random.between(3, 16);
        let start = random_of_size(&mut random, size);
        let mut other = start.clone();
        for _ in 0..random.between(1, 8) {
            match random.below(2) {
                0 if other.size() < 300 => backwards(&mut random, &mut other),
                _ => drop(forwards(&mut random, &mut other)),
            }
        }
        let (Some(one), Some(two)) = (result(&start), result(&other)) else { continue };
        decided += 1;
        equal_bytes(&format!("{} and {}", shown(&start.text()), shown(&other.text())), &two, &one)?;
    }
    equal("more than 2,000 pairs were decided", decided > 2_000, true)
}

/// The term of this text.
fn term(text: &[u8]) -> Term {
    parse(text).expect("the text of a term")
}

/// The order takes neither the fewest uses of rules nor the least room.
fn not_the_fewest() -> Outcome {
    let start = term(b".B.IIIHJJ");
    let nearest = || Some(Nearest { term: Term::I, changes: 5 });
    equal("over terms of any size", nearest_normal(&start, 100, 1_000), nearest())?;
    equal("over terms of up to 11 letters", nearest_normal(&start, 11, 1_000), nearest())?;
    equal("over terms of up to 10 letters", nearest_normal(&start, 10, 1_000), None)?;
    equal("by the order", run(&mut Plain { term: start.clone() }, 15, 100, |_| ()), (End::Finished, 6))?;
    equal("by the order in 14 letters", run(&mut Plain { term: start }, 14, 100, |_| ()), (End::NoRoom, 0))
}

/// Example 8 has a result that changes at the leftmost full stop that a rule fits never come to.
fn leftmost_never_ends() -> Outcome {
    let start = term(b".B.AIHJJAIHJJI.II");
    let leftmost = |term: &Term| successors(term).into_iter().next();
    let changed = std::iter::successors(Some(start.clone()), leftmost).take(1_001);
    equal("terms that are not normal", changed.filter(|term| !term.is_normal()).count(), 1_001)?;
    equal("by the order", run(&mut Plain { term: start.clone() }, 17, 100, |_| ()), (End::Finished, 2))?;
    equal("in any order", nearest_normal(&start, 100, 1_000), Some(Nearest { term: Term::I, changes: 2 }))
}

/// The search makes a term of each full stop that a rule fits, and of no other.
fn every_use_of_a_rule() -> Outcome {
    let start = term(b"HA.IJ.IRJB.BJI1R.1.JT");
    let texts = ["HAJ.IRJB.BJI1R.1.JT", "HA.IJRJB.BJI1R.1.JT", "HA.IJ.IRJB1R.1.JT"];
    let texts = [&texts[..], &["HA.IJ.IRJB.BJI1RH1.JT", "HA.IJ.IRJB.BJI1R.1HJT"]].concat();
    let wanted: Vec<Term> = texts.into_iter().map(|text| term(text.as_bytes())).collect();
    equal("made by one use of a rule", successors(&start), wanted)
}

/// Every step keeps what the claim says: its context and its type.
fn types_are_kept() -> Outcome {
    let mut random = Random::new(63);
    let layout = Layout { shared: true, second_first: false };
    let (mut steps, mut bells) = (0, 0);
    for derivation in some(&mut random, 250) {
        let mut plain = Plain { term: derivation.term() };
        let mut now = derivation;
        while let Some(next) = after_step(&now).filter(|next| next.term().size() < 400) {
            let lines = check(&file_of(&next, layout)).map_err(|refusal| format!("{refusal:?}"))?;
            let claim = lines.last().ok_or("a derivation has a line")?;
            bells += usize::from(plain.next(false, usize::MAX) == Next::Stepped(13));
            equal("the claim is on the next term", &claim.term, &plain.term)?;
            equal("context", &claim.context, &now.context)?;
            equal("type", &claim.kind, &now.kind)?;
            now = next;
            steps += 1;
        }
    }
    equal("more than 1,000 steps were made", steps > 1_000, true)?;
    equal("more than 20 of them by rule 13", bells > 20, true)
}

/// The generated derivations use each of the nine rules, and each bell.
fn rules_of_derivations() -> Outcome {
    let mut random = Random::new(64);
    let mut lines = String::new();
    for derivation in some(&mut random, 300) {
        let file = file_of(&derivation, Layout { shared: true, second_first: false });
        lines += std::str::from_utf8(&file).map_err(|error| error.to_string())?;
    }
    for rule in ["J", "R", "H", "f", "A", "I", "B", "s", "K"] {
        equal(&format!("rule {rule} is used"), lines.contains(&format!("\t{rule}\t")), true)?;
    }
    for bell in BELLS.map(char::from) {
        let line = format!("\t{bell}\tb\tK\t-\t-\n");
        equal(&format!("bell {bell} is used"), lines.contains(&line), true)?;
    }
    Ok(())
}

/// Everything whose reply is known without the second implementation: first what is quick.
fn known(suite: &mut Suite) {
    let (plain, fast) = (Second::<Plain>::new(), Second::<Machine>::new());
    read_tests::known(suite, "second", plain);
    step_tests::known(suite, "plain", plain);
    step_tests::known(suite, "fast", fast);
    finish_tests::known(suite, "plain", plain);
    finish_tests::known(suite, "fast", fast);
    result_tests::known(suite, "plain", plain);
    result_tests::known(suite, "fast", fast);
    count_tests::known(suite, "plain", plain);
    count_tests::known(suite, "fast", fast);
    compare_tests::known(suite, "plain", plain);
    compare_tests::known(suite, "fast", fast);
    join_tests::known(suite, "plain", plain);
    row_tests::known(suite, "second", plain);
    catalogue_tests::known(suite, "second", plain);
    book_tests::known(suite, "second", plain);
    check_tests::known(suite, "second", plain);
    match_tests::known(suite, "second", plain);
    program_tests::known_finishing(suite, "second", plain);
    program_tests::known_mixing(suite, "second", plain);
    program_tests::known_checking(suite, "second", plain);
    program_tests::known_playing(suite, "second", fast);
    huge::all(suite, "second", plain);
}

/// Replies that follow from how the input is made.
fn made(suite: &mut Suite) {
    let (plain, fast) = (Second::<Plain>::new(), Second::<Machine>::new());
    count_tests::made(suite, "plain", plain);
    count_tests::made(suite, "fast", fast);
    read_tests::made(suite, "second", plain);
    check_tests::made(suite, "second", plain);
    match_tests::made(suite, "second", plain);
    join_laws::made(suite, "plain", plain);
    join_laws::made(suite, "fast", fast);
    row_laws::made(suite, "plain", plain);
    row_laws::made(suite, "fast", fast);
    catalogue_laws::made(suite, "second", fast);
    book_laws::made(suite, "second", fast);
    finish_tests::made(suite, "plain", plain);
    finish_tests::made(suite, "fast", fast);
    result_tests::made(suite, "plain", plain);
    result_tests::made(suite, "fast", fast);
}

/// The fast reducer against the plain one.
fn two_reducers(suite: &mut Suite) {
    let fast = Second::<Machine>::new();
    step_tests::predicted(suite, "fast", fast);
    end_tests::predicted(suite, "fast", fast, 1, predict_plain);
    finish_tests::predicted(suite, "fast", fast);
    result_tests::predicted(suite, "fast", fast);
    count_tests::predicted(suite, "fast", fast);
    small_tests::predicted(suite, "fast", fast);
    finish_tests::long(suite, "plain", Second::<Plain>::new(), finish_tests::THOUSANDS_OF_STEPS);
    count_tests::long(suite, "plain", Second::<Plain>::new(), 8, 1_000_000);
    deep::reductions(suite, "fast", fast, 300, predict_plain);
    deep::counts(suite, "fast", fast, predict_counted::<Plain>);
    compare_tests::predicted(suite, "fast", fast);
    program_tests::predicted_finishing(suite, "fast", fast);
    program_tests::predicted_mixing(suite, "fast", fast);
}

/// The engine of the tests' own that steps in batches: without a slip it replies as the fast reducer does.
fn batches(suite: &mut Suite) {
    machine_tests::all(suite, "batches", Batches { slip: Slip::Nothing });
    machine_rules::made(suite);
}

/// The catalogue of the tests' own on bytes: without a slip it replies as the one on trees does.
fn on_bytes(suite: &mut Suite) {
    let subject = wrong_entries::Wrong { subject: Second::<Machine>::new(), slip: &wrong_entries::NONE };
    catalogue_tests::known(suite, "on bytes", subject);
    catalogue_tests::predicted(suite, "on bytes", subject);
}

/// The tests' own book on bytes: without a slip it is played as the one on trees is.
fn books_on_bytes(suite: &mut Suite) {
    let subject = wrong_plays::Wrong { subject: Second::<Machine>::new(), slip: &wrong_book::NONE };
    book_tests::known(suite, "on bytes", subject);
    book_tests::predicted(suite, "on bytes", subject);
}

/// What the search in every order finds for the terms that tell the order from others.
fn other_orders(suite: &mut Suite) {
    suite.test("self: one use of a rule, at each full stop that one fits", every_use_of_a_rule);
    suite.test("self: .B.IIIHJJ has a shorter way than the order's", not_the_fewest);
    suite.test("self: .B.AIHJJAIHJJI.II has no result at the leftmost full stop", leftmost_never_ends);
}

/// What runs all small terms comes last: bugs in anything else are seen before, and those in sweep and dearest by the
/// tests of either alone.
fn sweeps(suite: &mut Suite) {
    let (plain, fast) = (Second::<Plain>::new(), Second::<Machine>::new());
    suite.test("self: the small terms that sweep runs, in byte order", small_terms_in_order);
    sweep_tests::known(suite, "plain", plain);
    sweep_tests::known(suite, "fast", fast);
    sweep_tests::made(suite, "plain", plain, TERMS.len());
    sweep_tests::made(suite, "fast", fast, TERMS.len());
    sweep_tests::predicted(suite, "fast", fast);
    dearest_tests::known(suite, "plain", plain);
    dearest_tests::known(suite, "fast", fast);
    dearest_tests::made(suite, "plain", plain, TERMS.len());
    dearest_tests::made(suite, "fast", fast, TERMS.len());
    dearest_tests::predicted(suite, "fast", fast);
}

pub fn all(suite: &mut Suite) {
    known(suite);
    other_orders(suite);
    made(suite);
    two_reducers(suite);
    batches(suite);
    on_bytes(suite);
    books_on_bytes(suite);
    suite.test("self: the numbers of terms of each size", numbers_of_terms);
    suite.test("self: the runs of the terms of size 3", runs_of_size_3);
    suite.test("self: every step of every term of up to 7 letters", every_small_step);
    suite.test("self: terms joined by changes have one result", joined_terms);
    suite.test("self: typed terms keep their type", types_are_kept);
    suite.test("self: generated derivations use every rule and every bell", rules_of_derivations);
    sweeps(suite);
}
