//! Reading requests line by line and answering each of them.
//!
//! A line may be of any length, so none is ever kept as a whole: its bytes are taken one by one
//! into a few words of a fixed size. A number of a million zeros and a comment of a gigabyte need
//! no more memory than any other line.

use std::fmt::{self, Display};
use std::io::{self, BufWriter, ErrorKind, Read, Write};

/// No request has more words than this.
const MAX_WORDS: usize = 5;

/// No word that a request may begin with, or hold, is longer than this; of longer words the rest is
/// not kept.
const MAX_NAME: usize = 6;

/// One word of a line, as text and as a number.
#[derive(Clone, Copy, Debug)]
pub struct Word {
    text: [u8; MAX_NAME],
    /// How many bytes of `text` are used; one more than it holds where the word is longer.
    length: usize,
    /// None from the first byte that is no digit, or that takes the number above the highest one.
    number: Option<u64>,
}

impl Word {
    const EMPTY: Word = Word {
        text: [0; MAX_NAME],
        length: 0,
        number: None,
    };

    fn starting_with(byte: u8) -> Word {
        let mut word = Word {
            number: Some(0),
            ..Word::EMPTY
        };
        word.push(byte);
        word
    }

    fn push(&mut self, byte: u8) {
        if let Some(place) = self.text.get_mut(self.length) {
            *place = byte;
        }
        self.length = (self.length + 1).min(MAX_NAME + 1);
        self.number = self.number.and_then(|number| with_digit(number, byte));
    }

    /// Whether the word is exactly `name`.
    pub fn is(&self, name: &str) -> bool {
        self.text.get(..self.length) == Some(name.as_bytes())
    }

    /// The word as a number, where it is one.
    pub fn number(&self) -> Option<u64> {
        self.number
    }
}

/// `number` with one more digit at its end.
fn with_digit(number: u64, byte: u8) -> Option<u64> {
    if !byte.is_ascii_digit() {
        return None;
    }
    number.checked_mul(10)?.checked_add(u64::from(byte - b'0'))
}

/// The number that `bytes` stand for. Unlike `str::parse` this takes no plus sign.
pub fn parse_number(bytes: &[u8]) -> Option<u64> {
    if bytes.is_empty() {
        return None;
    }
    bytes
        .iter()
        .try_fold(0, |number, &byte| with_digit(number, byte))
}

/// What a whole line turned out to be.
#[derive(Debug)]
pub enum Content<'a> {
    /// An empty line or a comment: it is answered by nothing.
    Nothing,
    /// Too many words, two spaces in a row or a space at either end.
    Unreadable,
    /// One word or more.
    Words(&'a [Word]),
}

#[derive(Clone, Copy, Debug)]
enum State {
    Start,
    Comment,
    InWord,
    AfterSpace,
    Unreadable,
}

/// A line whose bytes come one by one.
#[derive(Clone, Debug)]
pub struct Line {
    words: [Word; MAX_WORDS],
    count: usize,
    state: State,
}

impl Line {
    pub fn new() -> Line {
        Line {
            words: [Word::EMPTY; MAX_WORDS],
            count: 0,
            state: State::Start,
        }
    }

    /// Takes the next byte of the line, which is no newline.
    pub fn push(&mut self, byte: u8) {
        self.state = match (self.state, byte) {
            (State::Comment, _) | (State::Start, b'#') => State::Comment,
            (State::Unreadable, _) | (State::Start | State::AfterSpace, b' ') => State::Unreadable,
            (State::InWord, b' ') => State::AfterSpace,
            (State::InWord, _) => {
                if let Some(word) = self.words[..self.count].last_mut() {
                    word.push(byte);
                }
                State::InWord
            }
            (State::Start | State::AfterSpace, _) => match self.words.get_mut(self.count) {
                Some(word) => {
                    *word = Word::starting_with(byte);
                    self.count += 1;
                    State::InWord
                }
                None => State::Unreadable,
            },
        }
    }

    /// What the line is, once its last byte has come.
    pub fn content(&self) -> Content<'_> {
        match self.state {
            State::Start | State::Comment => Content::Nothing,
            State::AfterSpace | State::Unreadable => Content::Unreadable,
            State::InWord => Content::Words(&self.words[..self.count]),
        }
    }

    fn is_begun(&self) -> bool {
        !matches!(self.state, State::Start)
    }
}

impl From<&[u8]> for Line {
    fn from(bytes: &[u8]) -> Line {
        let mut line = Line::new();
        for &byte in bytes {
            line.push(byte);
        }
        line
    }
}

/// Why a program could not go on.
#[derive(Debug)]
pub enum Failure {
    Input(io::Error),
    Output(io::Error),
}

impl Display for Failure {
    fn fmt(&self, f: &mut fmt::Formatter<'_>) -> fmt::Result {
        match self {
            Failure::Input(error) => write!(f, "The input cannot be read: {error}."),
            Failure::Output(error) => write!(f, "The output cannot be written: {error}."),
        }
    }
}

/// Reads `input` to its end and writes what `reply` says of each line, where it says anything.
pub fn answer_all<R: Display>(
    mut input: impl Read,
    output: impl Write,
    mut reply: impl FnMut(Content<'_>) -> Option<R>,
) -> Result<(), Failure> {
    let mut output = BufWriter::new(output);
    let mut answer = |line: &Line, output: &mut BufWriter<_>| match reply(line.content()) {
        Some(reply) => writeln!(output, "{reply}").map_err(Failure::Output),
        None => Ok(()),
    };

    let mut buffer = [0; 1 << 15];
    let mut line = Line::new();
    loop {
        let length = match input.read(&mut buffer) {
            Ok(0) => break,
            Ok(length) => length,
            Err(error) if error.kind() == ErrorKind::Interrupted => continue,
            Err(error) => return Err(Failure::Input(error)),
        };
        for &byte in &buffer[..length] {
            if byte == b'\n' {
                answer(&line, &mut output)?;
                line = Line::new();
            } else {
                line.push(byte);
            }
        }
        // Whoever writes the input may wait for these answers before going on.
        output.flush().map_err(Failure::Output)?;
    }
    if line.is_begun() {
        answer(&line, &mut output)?;
    }
    output.flush().map_err(Failure::Output)
}

#[cfg(test)]
mod tests {
    use super::*;

    /// The line's words as numbers, or None where it cannot be read.
    fn numbers(bytes: &[u8]) -> Option<Vec<Option<u64>>> {
        match Line::from(bytes).content() {
            Content::Nothing => Some(Vec::new()),
            Content::Unreadable => None,
            Content::Words(words) => Some(words.iter().map(Word::number).collect()),
        }
    }

    #[test]
    fn a_number_is_digits_only_and_no_higher_than_the_highest() {
        assert_eq!(parse_number(b"0"), Some(0));
        assert_eq!(parse_number(b"18446744073709551615"), Some(u64::MAX));
        assert_eq!(parse_number(b"00018446744073709551615"), Some(u64::MAX));
        for wrong in [
            "",
            "18446744073709551616",
            "-1",
            "+1",
            "1.0",
            "1e3",
            "0x10",
            "1_000",
            "1\r",
        ] {
            assert_eq!(parse_number(wrong.as_bytes()), None, "{wrong:?}");
        }
    }

    #[test]
    fn the_words_of_a_line_are_parsed_like_numbers_by_themselves() {
        let words = numbers(b"x 0007 18446744073709551615 18446744073709551616 -1");
        assert_eq!(words, Some(vec![None, Some(7), Some(u64::MAX), None, None]));
        let mut long = vec![b'0'; 1_000_000];
        long.push(b'9');
        assert_eq!(numbers(&long), Some(vec![Some(9)]));
    }

    #[test]
    fn spaces_part_words_only_one_at_a_time() {
        for wrong in [" ", " a", "a ", "a  b", "a b ", "  ", " #", "a b c d e f"] {
            assert_eq!(numbers(wrong.as_bytes()), None, "{wrong:?}");
        }
        assert_eq!(numbers(b"a b c d e").map(|words| words.len()), Some(5));
        assert_eq!(numbers(b"a\tb\xff\0").map(|words| words.len()), Some(1));
    }

    #[test]
    fn comments_and_empty_lines_are_nothing() {
        for nothing in ["", "#", "# a  b ", "#\u{fffd}"] {
            assert!(matches!(
                Line::from(nothing.as_bytes()).content(),
                Content::Nothing
            ));
        }
    }

    #[test]
    fn names_are_compared_as_a_whole() {
        let is = |word: &str, name| match Line::from(word.as_bytes()).content() {
            Content::Words([word]) => word.is(name),
            _ => false,
        };
        assert!(is("answer", "answer") && is("now", "now"));
        assert!(!is("answers", "answer") && !is("answe", "answer") && !is("Now", "now"));
    }

    fn answers(input: &[u8]) -> String {
        let mut output = Vec::new();
        let result = answer_all(input, &mut output, |content| match content {
            Content::Nothing => None,
            Content::Unreadable => Some("unreadable".to_string()),
            Content::Words(words) => Some(words.len().to_string()),
        });
        assert!(result.is_ok());
        String::from_utf8_lossy(&output).into_owned()
    }

    #[test]
    fn the_last_line_needs_no_newline() {
        assert_eq!(answers(b""), "");
        assert_eq!(answers(b"\n\n"), "");
        assert_eq!(answers(b"a b\n\n# c\nd"), "2\n1\n");
        assert_eq!(answers(b"a b\nd "), "2\nunreadable\n");
        assert_eq!(answers(b"a b\nd\n"), "2\n1\n");
    }

    #[test]
    fn a_line_may_be_longer_than_the_buffer() {
        let mut input = vec![b'x'; 100_000];
        input.extend(b" y\nz");
        assert_eq!(answers(&input), "2\n1\n");
    }
}
