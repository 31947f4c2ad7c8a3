//! The words of a line of text: names, numbers and signs, each with its line and column, counted from 1.
use std::fmt;

#[derive(Clone, Copy, Debug, PartialEq, Eq)]
pub struct At {
    pub line: usize,
    pub column: usize,
}

/// What is wrong with a text, and where.
#[derive(Clone, Debug, PartialEq, Eq)]
pub struct TextError {
    pub at: At,
    pub what: String,
}

impl fmt::Display for TextError {
    fn fmt(&self, f: &mut fmt::Formatter) -> fmt::Result {
        write!(f, "line {}, column {}: {}", self.at.line, self.at.column, self.what)
    }
}

pub fn wrong<T>(at: At, what: impl Into<String>) -> Result<T, TextError> {
    Err(TextError { at, what: what.into() })
}

#[derive(Clone, Debug, PartialEq, Eq)]
enum Kind {
    Name(String),
    Number(u32),
    Sign(&'static str),
}

#[derive(Clone, Debug)]
struct Word {
    at: At,
    kind: Kind,
}

/// A name where it stands.
#[derive(Clone, Debug, PartialEq, Eq)]
pub struct Named {
    pub name: String,
    pub at: At,
}

/// The words of the language. Nothing else may be called so.
const OWN: [&str; 16] = [
    "horizon",
    "variables",
    "events",
    "ports",
    "segment",
    "thread",
    "notify",
    "wait",
    "end",
    "for",
    "then",
    "if",
    "else",
    "starts",
    "at",
    "with",
];
const SIGNS: [&str; 5] = ["+=", "-=", "=", "<", ","];

/// The words of a line that are still to be read.
pub struct Line {
    words: std::iter::Peekable<std::vec::IntoIter<Word>>,
    end: At,
}

// How many bytes of the text belong to its first word, and its kind.
fn first_word(text: &str, at: At) -> Result<(usize, Kind), TextError> {
    let run = |fits: &dyn Fn(char) -> bool| text.find(|c| !fits(c)).unwrap_or(text.len());
    let letters = run(&|c| c.is_ascii_alphanumeric() || c == '_');
    if text.starts_with(|c: char| c.is_ascii_digit()) {
        if text[..letters].contains(|c: char| !c.is_ascii_digit()) {
            return wrong(at, format!("{} is neither a number nor a name", &text[..letters]));
        }
        return match text[..letters].parse() {
            Ok(number) => Ok((letters, Kind::Number(number))),
            Err(_) => wrong(at, format!("{} is above 4,294,967,295", &text[..letters])),
        };
    }
    if letters > 0 {
        return Ok((letters, Kind::Name(text[..letters].into())));
    }
    match SIGNS.iter().find(|sign| text.starts_with(**sign)) {
        Some(sign) => Ok((sign.len(), Kind::Sign(sign))),
        None => wrong(at, format!("{:?} is no sign of the language", text.chars().next().unwrap_or(' '))),
    }
}

impl Line {
    /// Of a line by its number; what follows a # is passed over.
    pub fn of(number: usize, text: &str) -> Result<Line, TextError> {
        let text = text.split('#').next().unwrap_or("").trim_end();
        let (mut words, mut left) = (Vec::new(), text);
        let place = |left: &str| At { line: number, column: text[..text.len() - left.len()].chars().count() + 1 };
        loop {
            left = left.trim_start();
            let at = place(left);
            if left.is_empty() {
                return Ok(Line { words: words.into_iter().peekable(), end: at });
            }
            let (length, kind) = first_word(left, at)?;
            words.push(Word { at, kind });
            left = &left[length..];
        }
    }

    /// Where the next word stands, or the end of the line.
    pub fn at(&mut self) -> At {
        self.words.peek().map_or(self.end, |word| word.at)
    }

    pub fn is_done(&mut self) -> bool {
        self.words.peek().is_none()
    }

    /// Takes the next word if it is this word of the language, or this sign.
    pub fn takes(&mut self, expected: &str) -> bool {
        self.words
            .next_if(|word| {
                matches!(&word.kind, Kind::Name(text) if text == expected)
                    || matches!(word.kind, Kind::Sign(text) if text == expected)
            })
            .is_some()
    }

    pub fn must(&mut self, expected: &str) -> Result<(), TextError> {
        if self.takes(expected) {
            return Ok(());
        }
        let at = self.at();
        wrong(at, format!("'{expected}' is missing"))
    }

    pub fn name(&mut self, what: &str) -> Result<Named, TextError> {
        let at = self.at();
        match self.words.next() {
            Some(Word { kind: Kind::Name(name), .. }) if OWN.contains(&name.as_str()) => {
                wrong(at, format!("'{name}' is a word of the language, and here {what} is named"))
            }
            Some(Word { kind: Kind::Name(name), .. }) => Ok(Named { name, at }),
            _ => wrong(at, format!("the name of {what} is missing")),
        }
    }

    pub fn number(&mut self, what: &str) -> Result<u32, TextError> {
        let at = self.at();
        match self.words.next() {
            Some(Word { kind: Kind::Number(number), .. }) => Ok(number),
            _ => wrong(at, format!("{what} is missing, a number")),
        }
    }

    /// Whether the next word is a number.
    pub fn has_number(&mut self) -> bool {
        matches!(self.words.peek(), Some(Word { kind: Kind::Number(_), .. }))
    }

    pub fn done(&mut self) -> Result<(), TextError> {
        match self.words.peek() {
            None => Ok(()),
            Some(word) => wrong(word.at, "the line should end here"),
        }
    }
}
