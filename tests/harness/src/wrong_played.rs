//! Programs with one bug planted in what play_book prints: each must turn the tests red.

use crate::subject::Programs;

pub struct Bug {
    pub name: &'static str,
    /// What is printed, from what should be; asked with the input.
    printed: fn(&[u8], Vec<u8>) -> Vec<u8>,
}

/// The fields of the printed line, each changed with its place.
fn with_fields(printed: Vec<u8>, change: impl Fn(usize, &str) -> String) -> Vec<u8> {
    let line = String::from_utf8_lossy(&printed).trim_end_matches('\n').to_string();
    let fields: Vec<String> = line.split('\t').enumerate().map(|(place, field)| change(place, field)).collect();
    format!("{}\n", fields.join("\t")).into_bytes()
}

fn starts(printed: &[u8], word: &str) -> bool {
    printed.starts_with(word.as_bytes())
}

fn number_less(field: &str) -> String {
    field.parse::<usize>().map_or(field.to_string(), |number| number.saturating_sub(1).to_string())
}

static BUGS: [Bug; 12] = [
    Bug {
        name: "no term printed by play_book",
        printed: |_, printed| {
            let kept = printed.split(|&byte| byte == b'\t').take(2).collect::<Vec<_>>().join(&b'\t');
            if starts(&printed, "finished") {
                [kept, b"\n".to_vec()].concat()
            } else {
                printed
            }
        },
    },
    Bug {
        name: "the size printed for the term",
        printed: |_, printed| match starts(&printed, "finished") {
            true => with_fields(
                printed,
                |place, field| if place == 2 { field.len().to_string() } else { field.to_string() },
            ),
            false => printed,
        },
    },
    Bug {
        name: "a tab behind the line of a book that did not finish",
        printed: |_, printed| match starts(&printed, "spent") || starts(&printed, "no room") {
            true => [&printed[..printed.len() - 1], b"\t\n"].concat(),
            false => printed,
        },
    },
    Bug {
        name: "lines printed from 0 by play_book",
        printed: |_, printed| {
            with_fields(printed, |place, field| {
                if place == 1 && field.len() < 5 {
                    number_less(field)
                } else {
                    field.to_string()
                }
            })
        },
    },
    Bug {
        name: "spaces printed for tabs by play_book",
        printed: |_, printed| printed.iter().map(|&byte| if byte == b'\t' { b' ' } else { byte }).collect(),
    },
    Bug { name: "no line feed printed by play_book", printed: |_, printed| printed[..printed.len() - 1].to_vec() },
    Bug { name: "two line feeds printed by play_book", printed: |_, printed| [&printed[..], b"\n"].concat() },
    Bug {
        name: "a zero printed behind the term",
        printed: |_, printed| match starts(&printed, "finished") {
            true => [&printed[..printed.len() - 1], b"\0\n"].concat(),
            false => printed,
        },
    },
    Bug {
        name: "no room printed as spent",
        printed: |_, printed| {
            with_fields(
                printed,
                |_, field| if field == "no room" { "spent".to_string() } else { field.to_string() },
            )
        },
    },
    Bug {
        name: "more than 65,536 bytes cut by play_book",
        printed: |input, printed| match input.len() > 65_536 {
            true => b"refused\t12\t0\n".to_vec(),
            false => printed,
        },
    },
    Bug {
        name: "65,536 bytes refused by play_book",
        printed: |input, printed| match input.len() == 65_536 {
            true => b"refused\t10\t0\n".to_vec(),
            false => printed,
        },
    },
    Bug {
        name: "an empty book played without a line",
        printed: |input, printed| match input.is_empty() {
            true => b"finished\t0\t\n".to_vec(),
            false => printed,
        },
    },
];

pub fn bugs() -> &'static [Bug] {
    &BUGS
}

/// The programs with the bug.
pub struct Wrong<P> {
    pub programs: P,
    pub bug: &'static Bug,
}

impl<P: Programs> Programs for Wrong<P> {
    fn finish(&self, input: &[u8]) -> Result<Vec<u8>, String> {
        self.programs.finish(input)
    }

    fn rule_mix(&self, input: &[u8]) -> Result<Vec<u8>, String> {
        self.programs.rule_mix(input)
    }

    fn check_file(&self, input: &[u8]) -> Result<Vec<u8>, String> {
        self.programs.check_file(input)
    }

    fn sweep(&self, input: &[u8]) -> Result<Vec<u8>, String> {
        self.programs.sweep(input)
    }

    fn dearest(&self, input: &[u8]) -> Result<Vec<u8>, String> {
        self.programs.dearest(input)
    }

    fn play_book(&self, input: &[u8]) -> Result<Vec<u8>, String> {
        self.programs.play_book(input).map(|printed| (self.bug.printed)(input, printed))
    }
}
