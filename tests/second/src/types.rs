//! Simple types, contexts and types as trees, and their texts.

#[derive(Clone, Debug, PartialEq, Eq, Hash)]
pub enum Simple {
    Atom(u8),
    Arrow(Box<Simple>, Box<Simple>),
}

/// The simple types of the indices, that of index 0 first.
pub type Context = Vec<Simple>;

#[derive(Clone, Debug, PartialEq, Eq, Hash)]
pub enum Type {
    Simple(Simple),
    Context(Context),
}

/// The type of every bell: the atom `b`.
pub const BELL: Simple = Simple::Atom(b'b');

pub fn arrow(from: Simple, to: Simple) -> Simple {
    Simple::Arrow(Box::new(from), Box::new(to))
}

/// The length of the simple type at the start of the text, if there is one.
fn simple_length(text: &[u8]) -> Option<usize> {
    let mut owed = 1;
    for (place, &byte) in text.iter().enumerate() {
        match byte {
            b'a'..=b'z' => owed -= 1,
            b'>' => owed += 1,
            _ => return None,
        }
        if owed == 0 {
            return Some(place + 1);
        }
    }
    None
}

/// The simple type at the start of the text, and the text behind it.
fn take_simple(text: &[u8]) -> Option<(Simple, &[u8])> {
    let (own, rest) = text.split_at(simple_length(text)?);
    let mut types = Vec::new();
    for &byte in own.iter().rev() {
        let whole = match byte {
            b'>' => arrow(types.pop()?, types.pop()?),
            atom => Simple::Atom(atom),
        };
        types.push(whole);
    }
    Some((types.pop()?, rest))
}

pub fn parse_simple(text: &[u8]) -> Option<Simple> {
    let (simple, rest) = take_simple(text)?;
    rest.is_empty().then_some(simple)
}

pub fn parse_context(text: &[u8]) -> Option<Context> {
    let mut context = Vec::new();
    let mut left = text;
    while let Some(rest) = left.strip_prefix(b"*") {
        let (simple, behind) = take_simple(rest)?;
        context.push(simple);
        left = behind;
    }
    (left == b"1").then_some(context)
}

/// No text is both a simple type and a context.
pub fn parse_type(text: &[u8]) -> Option<Type> {
    match parse_simple(text) {
        Some(simple) => Some(Type::Simple(simple)),
        None => parse_context(text).map(Type::Context),
    }
}

pub fn write_simple(simple: &Simple, text: &mut Vec<u8>) {
    match simple {
        Simple::Atom(atom) => text.push(*atom),
        Simple::Arrow(from, to) => {
            text.push(b'>');
            write_simple(from, text);
            write_simple(to, text);
        }
    }
}

pub fn write_context(context: &[Simple], text: &mut Vec<u8>) {
    for simple in context {
        text.push(b'*');
        write_simple(simple, text);
    }
    text.push(b'1');
}

pub fn write_type(kind: &Type, text: &mut Vec<u8>) {
    match kind {
        Type::Simple(simple) => write_simple(simple, text),
        Type::Context(context) => write_context(context, text),
    }
}
