//! Changes to a request: some that make it wrong, and one that does not.

use crate::random::Random;

/// Words that are no numbers, most of them close to one.
const NO_NUMBERS: [&str; 18] = [
    "-1",
    "-0",
    "+1",
    "18446744073709551616",
    "18446744073709551620",
    "99999999999999999999",
    "000018446744073709551616",
    "340282366920938463463374607431768211456",
    "1.5",
    "1e3",
    "0x10",
    "1_000",
    "1,000",
    "ten",
    "1a",
    "a1",
    "\u{661}",
    "#1",
];

/// Words that no request of either program begins with.
const NO_NAMES: [&str; 12] = [
    "World", "SPAN", "asks", "answered", "answerr", "spans", "passes", "clocks", "honestly",
    "help", "0", "a#",
];

/// Bytes that make any word another one, and no number.
const NO_TEXT: [&[u8]; 7] = [
    b"\xff\xfe",
    b"\xff",
    b"\0",
    b"\r",
    b"\x80",
    b"\xc3\x28",
    b"\xef\xbb\xbf",
];

/// `line`, a request of two words or more, changed so that it cannot be read.
pub fn with_mistake(random: &mut Random, line: &[u8]) -> Vec<u8> {
    let mut words: Vec<Vec<u8>> = line
        .split(|&byte| byte == b' ')
        .map(<[u8]>::to_vec)
        .collect();
    let last = words.len() - 1;
    match random.up_to(9) {
        0 => {
            words.remove(random.index_up_to(last));
        }
        1 => {
            let extra = random
                .pick(&["0", "7", "x", "#", "ok"])
                .copied()
                .unwrap_or_default();
            words.push(extra.into());
        }
        // An empty word at the start, between two words or at the end gives one space too many.
        2 => words.insert(0, Vec::new()),
        3 => words.push(Vec::new()),
        4 => words.insert(random.index_up_to(last).max(1), Vec::new()),
        5 | 6 => {
            let word = random.pick(&NO_NUMBERS).copied().unwrap_or_default();
            words[random.index_up_to(last).max(1)] = word.into();
        }
        7 => {
            let word = random.pick(&NO_NAMES).copied().unwrap_or_default();
            words[0] = word.into();
        }
        8 => {
            let word = &mut words[random.index_up_to(last)];
            let place = random.index_up_to(word.len());
            let bytes = random.pick(&NO_TEXT).copied().unwrap_or_default();
            word.splice(place..place, bytes.iter().copied());
        }
        _ => {
            // A tab makes one word of the last two.
            let end = words.split_off(last - 1).join(&b'\t');
            words.push(end);
        }
    }
    words.join(&b' ')
}

/// `line` with zeros in front of one of its numbers, if the word that is picked is one.
pub fn with_zeros(random: &mut Random, line: &[u8]) -> Vec<u8> {
    let mut words: Vec<Vec<u8>> = line
        .split(|&byte| byte == b' ')
        .map(<[u8]>::to_vec)
        .collect();
    let last = words.len() - 1;
    let word = &mut words[random.index_up_to(last)];
    if word.first().is_some_and(u8::is_ascii_digit) {
        let zeros = random.index_up_to(30);
        word.splice(0..0, std::iter::repeat_n(b'0', zeros));
    }
    words.join(&b' ')
}

/// A line of any bytes.
pub fn any_bytes(random: &mut Random) -> Vec<u8> {
    // Now and then one that is far longer than the others.
    let longest = if random.once_in(20) { 3000 } else { 40 };
    let length = random.up_to(longest);
    let bytes = (0..length).map(|_| random.next() as u8);
    bytes
        .map(|byte| if byte == b'\n' { b' ' } else { byte })
        .collect()
}

/// A line that is answered by nothing.
pub fn comment(random: &mut Random) -> Vec<u8> {
    let comments: [&[u8]; 7] = [
        b"",
        b"#",
        b"# some remark",
        b"#pass 1",
        b"# two  spaces and one at the end ",
        b"#\xff\xfe",
        b"##",
    ];
    random.pick(&comments).copied().unwrap_or_default().to_vec()
}

#[cfg(test)]
mod tests {
    use super::*;
    use crate::lines::Line;
    use crate::machine::Refusal;
    use crate::rehearse::{Rehearsal, Reply};

    fn reply(line: &[u8]) -> Option<Reply> {
        let mut rehearsal = Rehearsal::default();
        rehearsal.reply(Line::from(&b"world 4 16 7 1000"[..]).content());
        rehearsal
            .reply(Line::from(line).content())
            .map(|timed| timed.reply)
    }

    #[test]
    fn a_line_with_a_mistake_is_refused() {
        let mut random = Random::new(3);
        let lines: [&[u8]; 5] = [
            b"span 1",
            b"pass 10",
            b"ask 1 15",
            b"clock 2 fast 1000",
            b"world 1 1 0 0",
        ];
        for line in lines {
            assert_ne!(reply(line), Some(Reply::Refused(Refusal::OutOfRange)));
            for _ in 0..2000 {
                let wrong = with_mistake(&mut random, line);
                let expected = Some(Reply::Refused(Refusal::OutOfRange));
                assert_eq!(reply(&wrong), expected, "{}", wrong.escape_ascii());
            }
        }
    }

    #[test]
    fn zeros_in_front_change_nothing() {
        let mut random = Random::new(4);
        for _ in 0..1000 {
            let line = with_zeros(&mut random, b"ask 3 0");
            assert_eq!(reply(&line), Some(Reply::MachineOk { machine: 3 }));
        }
    }

    #[test]
    fn no_line_holds_a_newline() {
        let mut random = Random::new(5);
        for _ in 0..1000 {
            let (bytes, comment) = (any_bytes(&mut random), comment(&mut random));
            assert!(!bytes.contains(&b'\n'));
            assert_eq!(reply(&comment), None);
        }
    }
}
