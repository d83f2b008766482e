//! Checking a derivation: every line follows by its rule from the earlier lines it names.

use crate::refusal::*;
use crate::term::{self, Term};
use crate::types::{arrow, parse_context, parse_type, Context, Simple, Type, BELL};

pub const MAX_FILE: usize = 65_536;
pub const MAX_LINES: usize = 1_024;

/// A term has a type in a context.
#[derive(Clone, Debug, PartialEq, Eq)]
pub struct Judgement {
    pub context: Context,
    pub term: Term,
    pub kind: Type,
}

/// The refusals 10 to 13.
fn refuse_file(file: &[u8]) -> Result<(), Refusal> {
    if file.len() > MAX_FILE {
        return Err(without_place(FILE_TOO_LARGE));
    }
    let Some(&last) = file.last() else { return Err(without_place(FILE_EMPTY)) };
    if last != b'\n' {
        return Err(without_place(NO_LAST_LINE_FEED));
    }
    if file.iter().filter(|&&byte| byte == b'\n').count() > MAX_LINES {
        return Err(without_place(TOO_MANY_LINES));
    }
    Ok(())
}

/// The lines of a file that ends with a line feed, without their line feeds.
fn lines(file: &[u8]) -> impl Iterator<Item = &[u8]> {
    file[..file.len() - 1].split(|&byte| byte == b'\n')
}

fn fields(line: &[u8]) -> Option<[&[u8]; 6]> {
    let fields: Vec<&[u8]> = line.split(|&byte| byte == b'\t').collect();
    fields.try_into().ok()
}

fn judgement(context: &[u8], term: &[u8], kind: &[u8]) -> Option<Judgement> {
    let context = parse_context(context)?;
    let term = term::parse(term).ok()?;
    let kind = parse_type(kind)?;
    Some(Judgement { context, term, kind })
}

/// How many premises the rule takes; none for an unknown rule.
fn premises_of(rule: &[u8]) -> Option<usize> {
    match rule {
        b"J" | b"I" | b"K" => Some(0),
        b"R" => Some(1),
        b"H" | b"f" | b"A" | b"B" | b"s" => Some(2),
        _ => None,
    }
}

/// The earlier line that a premise field names, for a line with `earlier` lines before it.
fn line_number(field: &[u8], earlier: usize) -> Option<usize> {
    if field.is_empty() || field[0] == b'0' || !field.iter().all(u8::is_ascii_digit) {
        return None;
    }
    let mut number = 0usize;
    for digit in field {
        number = number * 10 + usize::from(digit - b'0');
        if number > earlier {
            return None;
        }
    }
    Some(number)
}

/// The two premises, where the first `wanted` fields hold numbers and the others `-`.
fn premises<'a>(
    fields: [&[u8]; 2],
    wanted: usize,
    earlier: &'a [Judgement],
) -> Option<[Option<&'a Judgement>; 2]> {
    let mut found = [None, None];
    for (place, field) in fields.into_iter().enumerate() {
        if place < wanted {
            found[place] = Some(&earlier[line_number(field, earlier.len())? - 1]);
        } else if field != b"-" {
            return None;
        }
    }
    Some(found)
}

fn simple(kind: &Type) -> Option<&Simple> {
    match kind {
        Type::Simple(simple) => Some(simple),
        Type::Context(_) => None,
    }
}

fn context(kind: &Type) -> Option<&Context> {
    match kind {
        Type::Context(context) => Some(context),
        Type::Simple(_) => None,
    }
}

/// The context `*` U D.
fn extended(u: &Simple, d: &[Simple]) -> Context {
    let mut whole = vec![u.clone()];
    whole.extend_from_slice(d);
    whole
}

/// Does the judgement say that this term has this type in this context?
fn says(premise: &Judgement, context: &[Simple], term: &Term, kind: &Type) -> bool {
    premise.context == context && premise.term == *term && premise.kind == *kind
}

/// Rule J.
fn follows_j(own: &Judgement) -> bool {
    let Some(u) = own.context.first() else { return false };
    own.term == Term::J && simple(&own.kind) == Some(u)
}

/// Rule R.
fn follows_r(own: &Judgement, premise: &Judgement) -> bool {
    let (Term::R(u), Some((_, d))) = (&own.term, own.context.split_first()) else { return false };
    simple(&own.kind).is_some() && says(premise, d, u, &own.kind)
}

/// Rules H and f, of a term with the parts t and u.
fn follows_application(own: &Judgement, t: &Term, u: &Term, first: &Judgement, second: &Judgement) -> bool {
    let (Some(to), Some(from)) = (simple(&own.kind), simple(&second.kind)) else { return false };
    let function = Type::Simple(arrow(from.clone(), to.clone()));
    says(first, &own.context, t, &function) && says(second, &own.context, u, &second.kind)
}

/// Rule A.
fn follows_a(own: &Judgement, first: &Judgement, second: &Judgement) -> bool {
    let (Term::A(s, t), Some(d)) = (&own.term, context(&first.kind)) else { return false };
    let Type::Simple(Simple::Arrow(from, to)) = &own.kind else { return false };
    says(first, &own.context, s, &first.kind) && says(second, &extended(from, d), t, &Type::Simple((**to).clone()))
}

/// Rule I.
fn follows_i(own: &Judgement) -> bool {
    own.term == Term::I && own.kind == Type::Context(Vec::new())
}

/// Rule B.
fn follows_b(own: &Judgement, first: &Judgement, second: &Judgement) -> bool {
    let Term::B(u, s) = &own.term else { return false };
    let (Some(head), Some(rest)) = (simple(&first.kind), context(&second.kind)) else { return false };
    says(first, &own.context, u, &first.kind)
        && says(second, &own.context, s, &second.kind)
        && own.kind == Type::Context(extended(head, rest))
}

/// Rule s.
fn follows_s(own: &Judgement, first: &Judgement, second: &Judgement) -> bool {
    let (Term::Apply(s, t), Some(d)) = (&own.term, context(&first.kind)) else { return false };
    says(first, &own.context, s, &first.kind) && says(second, d, t, &own.kind)
}

/// Rule K.
fn follows_k(own: &Judgement) -> bool {
    matches!(own.term, Term::K(_)) && own.kind == Type::Simple(BELL)
}

/// Is the judgement an instance of the rule with these premises?
fn follows(own: &Judgement, rule: &[u8], premises: [Option<&Judgement>; 2]) -> bool {
    match (rule, premises, &own.term) {
        (b"J", [None, None], _) => follows_j(own),
        (b"R", [Some(premise), None], _) => follows_r(own, premise),
        (b"H", [Some(x), Some(y)], Term::H(t, u)) => follows_application(own, t, u, x, y),
        (b"f", [Some(x), Some(y)], Term::Apply(t, u)) => follows_application(own, t, u, x, y),
        (b"A", [Some(x), Some(y)], _) => follows_a(own, x, y),
        (b"I", [None, None], _) => follows_i(own),
        (b"B", [Some(x), Some(y)], _) => follows_b(own, x, y),
        (b"s", [Some(x), Some(y)], _) => follows_s(own, x, y),
        (b"K", [None, None], _) => follows_k(own),
        _ => false,
    }
}

/// The judgement of a line, or the number of its first fault.
fn check_line(line: &[u8], earlier: &[Judgement]) -> Result<Judgement, u8> {
    let [context, term, kind, rule, first, second] = fields(line).ok_or(NOT_SIX_FIELDS)?;
    let own = judgement(context, term, kind).ok_or(FIELD_NOT_WELL_FORMED)?;
    let wanted = premises_of(rule).ok_or(UNKNOWN_RULE)?;
    let premises = premises([first, second], wanted, earlier).ok_or(BAD_PREMISE)?;
    if !follows(&own, rule, premises) {
        return Err(NOT_AN_INSTANCE);
    }
    Ok(own)
}

/// The judgements of an accepted file; the last is its claim.
pub fn check(file: &[u8]) -> Result<Vec<Judgement>, Refusal> {
    refuse_file(file)?;
    let mut judgements = Vec::new();
    for line in lines(file) {
        let own = check_line(line, &judgements).map_err(|number| at(number, judgements.len() + 1))?;
        judgements.push(own);
    }
    Ok(judgements)
}

/// Matching claims: are the contexts and the types of the two claims equal?
pub fn match_claims(first: &[u8], second: &[u8]) -> Result<bool, Refusal> {
    let (one, two) = (check(first)?, check(second)?);
    let (Some(one), Some(two)) = (one.last(), two.last()) else { return Ok(false) };
    Ok(one.context == two.context && one.kind == two.kind)
}
