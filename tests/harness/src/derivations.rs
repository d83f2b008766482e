//! Typed terms made together with their derivations, and the files that hold them.

use crate::random::Random;
use second::bell::Bell;
use second::order::next_place;
use second::term::{a, apply, b, h, r, Term};
use second::types::{arrow, write_context, write_type, Context, Simple, Type, BELL};
use std::collections::HashMap;

/// A use of a typing rule; the term is the one that the rules build.
#[derive(Clone, Debug)]
pub struct Derivation {
    pub rule: u8,
    /// The bell of a use of rule K, which alone has one.
    pub bell: Option<Bell>,
    pub context: Context,
    pub kind: Type,
    pub premises: Vec<Derivation>,
}

impl Derivation {
    pub fn term(&self) -> Term {
        let part = |place: usize| self.premises[place].term();
        match self.rule {
            b'J' => Term::J,
            b'R' => r(part(0)),
            b'H' => h(part(0), part(1)),
            b'A' => a(part(0), part(1)),
            b'I' => Term::I,
            b'B' => b(part(0), part(1)),
            b'K' => Term::K(self.bell.expect("rule K has a bell")),
            _ => apply(part(0), part(1)),
        }
    }
}

fn use_of(rule: u8, context: &[Simple], kind: Type, premises: Vec<Derivation>) -> Derivation {
    Derivation { rule, bell: None, context: context.to_vec(), kind, premises }
}

/// A use of rule K.
fn bell_in(context: &[Simple], bell: Bell) -> Derivation {
    Derivation { bell: Some(bell), ..use_of(b'K', context, Type::Simple(BELL), vec![]) }
}

/// The context `*` U D.
fn extended(u: &Simple, d: &[Simple]) -> Context {
    [std::slice::from_ref(u), d].concat()
}

/// Makes derivations at random; gives up a goal when its allowance is used.
pub struct Maker<'a> {
    pub random: &'a mut Random,
    allowance: usize,
    /// Whether rule K is used.
    bells: bool,
}

impl<'a> Maker<'a> {
    pub fn new(random: &'a mut Random, bells: bool) -> Self {
        Maker { random, allowance: 3_000, bells }
    }

    fn atom(&mut self) -> Simple {
        Simple::Atom(*self.random.pick(b"aabbcz"))
    }

    fn simple(&mut self, depth: usize) -> Simple {
        if depth == 0 || self.random.once_in(2) {
            return self.atom();
        }
        arrow(self.simple(depth - 1), self.simple(depth - 1))
    }

    /// A context of up to four simple types.
    fn context(&mut self) -> Context {
        (0..self.random.below(5)).map(|_| self.simple(2)).collect()
    }

    /// A simple type that often has a term in the context.
    fn likely(&mut self, context: &[Simple]) -> Simple {
        let known = |maker: &mut Self| match context.is_empty() {
            true if maker.bells => BELL,
            true => Simple::Atom(b'a'),
            false => maker.random.pick(context).clone(),
        };
        match self.random.below(4) {
            0 => {
                let simple = self.simple(1);
                arrow(simple.clone(), simple)
            }
            1 => arrow(self.simple(1), known(self)),
            _ => known(self),
        }
    }

    fn likely_context(&mut self, context: &[Simple]) -> Context {
        (0..self.random.below(4)).map(|_| self.likely(context)).collect()
    }

    /// A context to pass through on the way to a simple type; it often holds that type.
    fn between(&mut self, context: &[Simple], goal: &Simple) -> Context {
        let mut middle = self.likely_context(context);
        if self.random.below(3) > 0 {
            let place = self.random.below(middle.len() + 1);
            middle.insert(place, goal.clone());
        }
        middle
    }

    /// A derivation of some judgement. The depth bounds how often a goal is split; indices and contexts go deeper.
    pub fn any(&mut self, depth: usize) -> Option<Derivation> {
        let context = self.context();
        let kind = match self.random.below(3) {
            0 => Type::Context(self.likely_context(&context)),
            _ => Type::Simple(self.likely(&context)),
        };
        self.derive(&context, &kind, depth)
    }

    pub fn derive(&mut self, context: &[Simple], kind: &Type, depth: usize) -> Option<Derivation> {
        match kind {
            Type::Simple(simple) => self.derive_simple(context, simple, depth),
            Type::Context(goal) => self.derive_context(context, goal, depth),
        }
    }

    fn derive_simple(&mut self, context: &[Simple], goal: &Simple, depth: usize) -> Option<Derivation> {
        self.allowance = self.allowance.checked_sub(1)?;
        if depth == 0 {
            let leaf = if self.bells && self.random.once_in(2) { self.bell(context, goal) } else { None };
            let leaf = leaf.or_else(|| self.index(context, goal)).or_else(|| self.bell(context, goal));
            return leaf.or_else(|| self.closure(context, goal, 0));
        }
        let mut ways = if self.bells { b"JRHHffAAssKK".to_vec() } else { b"JRHHffAAss".to_vec() };
        self.random.shuffle(&mut ways);
        ways.iter().find_map(|&rule| self.derive_by(rule, context, goal, depth - 1))
    }

    fn derive_by(&mut self, rule: u8, context: &[Simple], goal: &Simple, depth: usize) -> Option<Derivation> {
        match rule {
            b'J' => self.index(context, goal),
            b'K' => self.bell(context, goal),
            b'R' => {
                let inner = self.derive_simple(context.get(1..)?, goal, depth)?;
                Some(use_of(b'R', context, inner.kind.clone(), vec![inner]))
            }
            b'A' => self.closure(context, goal, depth),
            b's' => {
                let middle = self.between(context, goal);
                self.substitution(context, middle, &Type::Simple(goal.clone()), depth)
            }
            _ => self.application(rule, context, goal, depth),
        }
    }

    /// The first index of the context that has the type.
    fn index(&mut self, context: &[Simple], goal: &Simple) -> Option<Derivation> {
        let place = context.iter().position(|simple| simple == goal)?;
        let kind = Type::Simple(goal.clone());
        let last = use_of(b'J', &context[place..], kind.clone(), vec![]);
        let around = |inner, start: usize| use_of(b'R', &context[start..], kind.clone(), vec![inner]);
        Some((0..place).rev().fold(last, around))
    }

    /// Some bell, for the type that bells have.
    fn bell(&mut self, context: &[Simple], goal: &Simple) -> Option<Derivation> {
        if !self.bells || *goal != BELL {
            return None;
        }
        Some(bell_in(context, *self.random.pick(&Bell::all())))
    }

    fn application(&mut self, rule: u8, context: &[Simple], goal: &Simple, depth: usize) -> Option<Derivation> {
        let from = self.likely(context);
        let function = self.derive_simple(context, &arrow(from.clone(), goal.clone()), depth)?;
        let argument = self.derive_simple(context, &from, depth)?;
        Some(use_of(rule, context, Type::Simple(goal.clone()), vec![function, argument]))
    }

    fn closure(&mut self, context: &[Simple], goal: &Simple, depth: usize) -> Option<Derivation> {
        let Simple::Arrow(from, to) = goal else { return None };
        let held = if depth == 0 { context.to_vec() } else { self.between(context, to) };
        let body = self.derive_simple(&extended(from, &held), to, depth)?;
        let environment = self.derive_context(context, &held, depth)?;
        Some(use_of(b'A', context, Type::Simple(goal.clone()), vec![environment, body]))
    }

    fn substitution(
        &mut self,
        context: &[Simple],
        middle: Context,
        goal: &Type,
        depth: usize,
    ) -> Option<Derivation> {
        let inner = self.derive(&middle, goal, depth)?;
        let outer = self.derive_context(context, &middle, depth)?;
        Some(use_of(b's', context, goal.clone(), vec![outer, inner]))
    }

    fn derive_context(&mut self, context: &[Simple], goal: &[Simple], depth: usize) -> Option<Derivation> {
        self.allowance = self.allowance.checked_sub(1)?;
        let kind = Type::Context(goal.to_vec());
        if depth > 0 && self.random.once_in(4) {
            let middle = self.likely_context(context);
            return self.substitution(context, middle, &kind, depth - 1);
        }
        let Some((head, rest)) = goal.split_first() else { return Some(use_of(b'I', context, kind, vec![])) };
        let first = self.derive_simple(context, head, depth.saturating_sub(1))?;
        let second = self.derive_context(context, rest, depth)?;
        Some(use_of(b'B', context, kind, vec![first, second]))
    }
}

/// How a derivation is laid out as lines.
#[derive(Clone, Copy)]
pub struct Layout {
    /// One line serves every use of the same judgement by the same rule.
    pub shared: bool,
    /// The second premise's lines stand before the first's.
    pub second_first: bool,
}

struct Writer {
    layout: Layout,
    file: Vec<u8>,
    lines: usize,
    known: HashMap<Vec<u8>, usize>,
}

/// The file of a derivation, premises first.
pub fn file_of(derivation: &Derivation, layout: Layout) -> Vec<u8> {
    file_of_all(std::slice::from_ref(derivation), layout)
}

/// The file of several derivations, one behind the other; the claim is the last one's.
pub fn file_of_all(derivations: &[Derivation], layout: Layout) -> Vec<u8> {
    let mut writer = Writer { layout, file: vec![], lines: 0, known: HashMap::new() };
    for derivation in derivations {
        writer.write(derivation);
    }
    writer.file
}

impl Writer {
    /// Writes the derivation's lines, and answers the number of its last.
    fn write(&mut self, derivation: &Derivation) -> usize {
        let mut numbers = [b"-".to_vec(), b"-".to_vec()];
        let mut places: Vec<usize> = (0..derivation.premises.len()).collect();
        if self.layout.second_first {
            places.reverse();
        }
        for place in places {
            numbers[place] = self.write(&derivation.premises[place]).to_string().into_bytes();
        }
        self.add(line(derivation, numbers))
    }

    fn add(&mut self, line: Vec<u8>) -> usize {
        if let (true, Some(&number)) = (self.layout.shared, self.known.get(&line)) {
            return number;
        }
        self.file.extend_from_slice(&line);
        self.lines += 1;
        self.known.insert(line, self.lines);
        self.lines
    }
}

fn line(derivation: &Derivation, numbers: [Vec<u8>; 2]) -> Vec<u8> {
    let mut line = vec![];
    write_context(&derivation.context, &mut line);
    line.push(b'\t');
    derivation.term().write(&mut line);
    line.push(b'\t');
    write_type(&derivation.kind, &mut line);
    line.extend_from_slice(&[b'\t', derivation.rule, b'\t']);
    line.extend_from_slice(&numbers[0]);
    line.push(b'\t');
    line.extend_from_slice(&numbers[1]);
    line.push(b'\n');
    line
}

/// A derivation of a term of fewer than 400 letters, if one is found.
fn one(random: &mut Random, bells: bool) -> Option<Derivation> {
    let depth = random.between(1, 5);
    let made = Maker::new(random, bells).any(depth);
    made.filter(|derivation| derivation.term().size() < 400)
}

/// So many derivations, of which two in three may use rule K. Their files may still be over the limits.
pub fn some(random: &mut Random, count: usize) -> Vec<Derivation> {
    let mut found = vec![];
    while found.len() < count {
        let bells = !random.once_in(3);
        found.extend(one(random, bells));
    }
    found
}

/// So many derivations without bells.
pub fn some_without_bells(random: &mut Random, count: usize) -> Vec<Derivation> {
    let mut found = vec![];
    while found.len() < count {
        found.extend(one(random, false));
    }
    found
}

/// The derivation of the term after the next step of the order, for a term that is not normal.
pub fn after_step(derivation: &Derivation) -> Option<Derivation> {
    let way = next_place(&derivation.term())?;
    let mut after = derivation.clone();
    let mut part = &mut after;
    for second in way {
        part = &mut part.premises[usize::from(second)];
    }
    *part = contracted(part);
    Some(after)
}

/// What subject reduction makes of a derivation whose term is a rule's left side.
fn contracted(redex: &Derivation) -> Derivation {
    let [function, argument] = &redex.premises[..] else { panic!("an application has two premises") };
    let again = |rule, premises| use_of(rule, &redex.context, redex.kind.clone(), premises);
    match (function.rule, argument.rule) {
        (b'J' | b'R' | b'H', _) => again(b'H', redex.premises.clone()),
        (b'A', _) => {
            let pair = pair_of(argument, &function.premises[0]);
            again(b's', vec![pair, function.premises[1].clone()])
        }
        (b'I', _) => weakened(argument, &redex.context),
        (b'B', b'J') => function.premises[0].clone(),
        (b'B', b'R') => again(b's', vec![function.premises[1].clone(), argument.premises[0].clone()]),
        (b'B', b'H') => again(b'f', argument.premises.iter().map(|part| applied(function, part)).collect()),
        (b'B', b'A') => {
            let environment = applied(function, &argument.premises[0]);
            again(b'A', vec![environment, argument.premises[1].clone()])
        }
        (b'B', b'I') => again(b'I', vec![]),
        (b'B', b'K') => bell_in(&redex.context, argument.bell.expect("rule K has a bell")),
        (b'B', b'B') => again(b'B', argument.premises.iter().map(|part| applied(function, part)).collect()),
        (x, y) => panic!("no rule fits derivations by {} and {}", x as char, y as char),
    }
}

/// `B` u s, for u of a simple type and s of a context type in one context.
fn pair_of(u: &Derivation, s: &Derivation) -> Derivation {
    let (Type::Simple(head), Type::Context(rest)) = (&u.kind, &s.kind) else { panic!("a pair's types") };
    use_of(b'B', &u.context, Type::Context(extended(head, rest)), vec![u.clone(), s.clone()])
}

/// `.` s t by rule s.
fn applied(substitution: &Derivation, part: &Derivation) -> Derivation {
    use_of(b's', &substitution.context, part.kind.clone(), vec![substitution.clone(), part.clone()])
}

/// A derivation in the empty context holds in every context.
fn weakened(derivation: &Derivation, context: &[Simple]) -> Derivation {
    let mut premises = derivation.premises.clone();
    let in_same_context = match derivation.rule {
        b'A' | b's' => 1,
        _ => premises.len(),
    };
    for premise in &mut premises[..in_same_context] {
        *premise = weakened(premise, context);
    }
    Derivation { bell: derivation.bell, ..use_of(derivation.rule, context, derivation.kind.clone(), premises) }
}
