//! The program `span`: one machine, told its clock readings and its time servers' answers.

use std::fmt::{self, Display};

use crate::lines::{Content, Word};
use crate::machine::{Machine, Refusal, Terms};
use crate::overlap::Span;

#[derive(Clone, Copy, Debug)]
enum Request {
    Asked { server: u64, clock: u64 },
    Answer { server: u64, clock: u64, span: Span },
    Now { clock: u64 },
}

impl Request {
    fn parse(words: &[Word]) -> Option<Request> {
        match words {
            [name, server, clock] if name.is("asked") => Some(Request::Asked {
                server: server.number()?,
                clock: clock.number()?,
            }),
            [name, server, clock, lower, upper] if name.is("answer") => Some(Request::Answer {
                server: server.number()?,
                clock: clock.number()?,
                span: Span {
                    lower: lower.number()?,
                    upper: upper.number()?,
                },
            }),
            [name, clock] if name.is("now") => Some(Request::Now {
                clock: clock.number()?,
            }),
            _ => None,
        }
    }

    fn clock(&self) -> u64 {
        match *self {
            Request::Asked { clock, .. }
            | Request::Answer { clock, .. }
            | Request::Now { clock } => clock,
        }
    }
}

/// What is said of one request.
#[derive(Clone, Copy, Debug, PartialEq, Eq)]
pub enum Reply {
    Ok,
    Span(Span),
    Refused(Refusal),
}

impl Display for Reply {
    fn fmt(&self, f: &mut fmt::Formatter<'_>) -> fmt::Result {
        match self {
            Reply::Ok => write!(f, "ok"),
            Reply::Span(Span { lower, upper }) => write!(f, "span {lower} {upper}"),
            Reply::Refused(refusal) => write!(f, "{refusal}"),
        }
    }
}

/// The machine with the highest clock reading that it has taken so far.
#[derive(Clone, Debug)]
pub struct Session {
    machine: Machine,
    last_reading: u64,
}

impl Session {
    pub fn new(terms: Terms) -> Session {
        Session {
            machine: Machine::new(terms),
            last_reading: 0,
        }
    }

    /// What is said of a line; nothing of an empty line or a comment.
    pub fn reply(&mut self, content: Content<'_>) -> Option<Reply> {
        let request = match content {
            Content::Nothing => return None,
            Content::Unreadable => None,
            Content::Words(words) => Request::parse(words),
        };
        let reply = request
            .ok_or(Refusal::OutOfRange)
            .and_then(|request| self.carry_out(request));
        Some(reply.unwrap_or_else(Reply::Refused))
    }

    fn carry_out(&mut self, request: Request) -> Result<Reply, Refusal> {
        if request.clock() < self.last_reading {
            return Err(Refusal::OutOfRange);
        }
        let reply = match request {
            Request::Asked { server, clock } => {
                self.machine.ask(server, clock)?;
                Reply::Ok
            }
            Request::Answer {
                server,
                clock,
                span,
            } => {
                self.machine.answer(server, clock, span)?;
                Reply::Ok
            }
            Request::Now { clock } => Reply::Span(self.machine.span(clock)?),
        };
        // Only here, since the reading of a request that is refused does not count.
        self.last_reading = request.clock();
        Ok(reply)
    }
}

#[cfg(test)]
mod tests {
    use super::*;
    use crate::lines::answer_all;

    fn play(servers: u64, faulty: u64, rate: u64, input: &[u8]) -> Vec<String> {
        let Some(terms) = Terms::new(servers, faulty, rate) else {
            return Vec::new();
        };
        let mut session = Session::new(terms);
        let mut output = Vec::new();
        let result = answer_all(input, &mut output, |content| session.reply(content));
        assert!(result.is_ok());
        let text = String::from_utf8_lossy(&output).into_owned();
        text.lines().map(str::to_string).collect()
    }

    #[test]
    fn one_server() {
        let input = b"asked 0 100\nanswer 0 140 5000 5010\nnow 200\nnow 199\n";
        let expected = ["ok", "ok", "span 5059 5112", "number 1"];
        assert_eq!(play(1, 0, 0, input), expected);
    }

    #[test]
    fn two_of_three_servers() {
        let input = b"asked 0 0\nasked 1 0\nasked 2 0\nanswer 0 0 10 18\nanswer 1 0 15 28\n\
            answer 2 0 90 93\nnow 0";
        let replies = play(3, 1, 0, input);
        assert_eq!(replies.last().map(String::as_str), Some("span 15 20"));
    }

    #[test]
    fn a_refused_reading_does_not_count() {
        let input = b"now 900\nasked 1 800\nanswer 0 700 1 2\nasked 0 100\nanswer 0 600 2 1\n\
            answer 0 150 1 2\nasked 0 149\nnow 150\n";
        let expected = [
            "number 3",
            "number 1",
            "number 2",
            "ok",
            "number 1",
            "ok",
            "number 1",
            "span 1 54",
        ];
        assert_eq!(play(1, 0, 0, input), expected);
    }

    #[test]
    fn lines_that_cannot_be_read() {
        for line in [
            "now",
            "now 1 2",
            "now  1",
            " now 1",
            "now 1 ",
            "now -1",
            "now 1\r",
            "Now 1",
            "now x",
            "asked 0",
            "answer 0 1 2",
            "answer 0 1 2 3 4",
            "span 0",
            "5",
            " ",
        ] {
            assert_eq!(play(1, 0, 0, line.as_bytes()), ["number 1"], "{line:?}");
        }
        assert_eq!(play(1, 0, 0, b"\xff\xfe 1\n\n#\xff\n"), ["number 1"]);
    }
}
