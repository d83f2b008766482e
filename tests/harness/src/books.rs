//! Books to test with, and how their lines are written.

use std::collections::HashMap;

/// The bytes of a book's store.
pub const STORE: usize = 65_536;
pub const MOST_BYTES: usize = 65_536;
pub const MOST_LINES: usize = 256;
pub const MOST_FUEL: u64 = 1_000_000;
pub const LONGEST_NAME: usize = 8;

/// A book as the requirements write one: `/` for byte 10, a space for a tab.
pub fn written(text: &str) -> Vec<u8> {
    text.replace('/', "\n").replace(' ', "\t").into_bytes()
}

/// The book of these lines, each a name and its term.
pub fn book_of<N: AsRef<[u8]>, T: AsRef<[u8]>>(lines: &[(N, T)]) -> Vec<u8> {
    lines.iter().flat_map(|(name, term)| [name.as_ref(), b"\t", term.as_ref(), b"\n"].concat()).collect()
}

/// A name for each number from 1: `a` to `z`, then `aa` to `az`, and so on.
pub fn name_of(number: usize) -> String {
    let last = char::from(b'a' + ((number - 1) % 26) as u8);
    match (number - 1) / 26 {
        0 => last.to_string(),
        more => format!("{}{last}", name_of(more)),
    }
}

/// The use of a name.
pub fn use_of(name: impl AsRef<[u8]>) -> Vec<u8> {
    [b"(", name.as_ref(), b")"].concat()
}

/// A line's term with a text in the place of each use, whatever the texts are.
pub fn with_uses_replaced(term: &[u8], texts: &HashMap<Vec<u8>, Vec<u8>>) -> Vec<u8> {
    let (mut whole, mut left) = (vec![], term);
    while let Some(open) = left.iter().position(|&byte| byte == b'(') {
        let close = left.iter().position(|&byte| byte == b')').expect("a use is closed");
        whole.extend_from_slice(&left[..open]);
        whole.extend_from_slice(&texts[&left[open + 1..close]]);
        left = &left[close + 1..];
    }
    whole.extend_from_slice(left);
    whole
}
