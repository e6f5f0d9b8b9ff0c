//! Works out spans and plays scripts as docs/PROGRAMS.md says, and writes random input for both.

mod clock;
mod generate;
mod lines;
mod machine;
mod mistakes;
mod overlap;
mod random;
mod rehearse;
mod span;

use std::env;
use std::ffi::OsString;
use std::fs::File;
use std::io::{self, Write};
use std::os::fd::AsFd;
use std::os::unix::ffi::OsStrExt;
use std::process::ExitCode;

use lines::{answer_all, parse_number, Failure};
use machine::Terms;
use rehearse::Rehearsal;
use span::Session;

const USAGE: &str = "\
usage: oracle span M F RATE        work out the span of a machine that goes by M time servers
                                   (1 to 16), of which at most F are faulty (2F below M), with a
                                   clock that is off by at most RATE parts in a million (at most
                                   1000)
       oracle rehearse             play a script with up to four machines
       oracle script SEED LINES    write a random script for `rehearse`
       oracle readings SEED LINES  write random lines for `span 5 2 200`

`span` and `rehearse` read requests from standard input and answer on standard output.
example: printf 'asked 0 100\\nanswer 0 140 5000 5010\\nnow 200\\n' | oracle span 1 0 0
";

enum Command {
    Help,
    Span(Terms),
    Rehearse,
    Script { seed: u64, lines: u64 },
    Readings { seed: u64, lines: u64 },
}

impl Command {
    fn parse(arguments: &[OsString]) -> Result<Command, &'static str> {
        let arguments: Vec<&[u8]> = arguments
            .iter()
            .map(|argument| argument.as_bytes())
            .collect();
        if arguments.contains(&&b"--help"[..]) {
            return Ok(Command::Help);
        }
        match arguments.as_slice() {
            [b"span", servers, faulty, rate] => {
                parse_terms(servers, faulty, rate).map(Command::Span).ok_or(
                    "The arguments M F RATE must be numbers with M from 1 to 16, 2F below M and \
                    RATE at most 1000.",
                )
            }
            [b"rehearse"] => Ok(Command::Rehearse),
            [name @ (b"script" | b"readings"), seed, lines] => {
                let numbers = parse_number(seed).zip(parse_number(lines));
                let (seed, lines) =
                    numbers.ok_or("The arguments SEED and LINES must be numbers.")?;
                Ok(match *name {
                    b"script" => Command::Script { seed, lines },
                    _ => Command::Readings { seed, lines },
                })
            }
            [b"span" | b"rehearse" | b"script" | b"readings", ..] => {
                Err("There are too few or too many arguments, see `oracle --help`.")
            }
            [] => Err("A command is missing, see `oracle --help`."),
            _ => Err("The command is not known, see `oracle --help`."),
        }
    }

    fn run(self) -> Result<(), Failure> {
        // The descriptors are used directly: the handles of the standard library take one that
        // cannot be read for an empty input and one that cannot be written for a good output.
        let output = File::from(
            io::stdout()
                .as_fd()
                .try_clone_to_owned()
                .map_err(Failure::Output)?,
        );
        let input = || {
            io::stdin()
                .as_fd()
                .try_clone_to_owned()
                .map(File::from)
                .map_err(Failure::Input)
        };
        match self {
            Command::Help => (&output)
                .write_all(USAGE.as_bytes())
                .map_err(Failure::Output),
            Command::Span(terms) => {
                let mut session = Session::new(terms);
                answer_all(input()?, output, |content| session.reply(content))
            }
            Command::Rehearse => {
                let mut rehearsal = Rehearsal::default();
                answer_all(input()?, output, |content| rehearsal.reply(content))
            }
            Command::Script { seed, lines } => {
                generate::write_script(seed, lines, output).map_err(Failure::Output)
            }
            Command::Readings { seed, lines } => {
                generate::write_readings(seed, lines, output).map_err(Failure::Output)
            }
        }
    }
}

fn parse_terms(servers: &[u8], faulty: &[u8], rate: &[u8]) -> Option<Terms> {
    Terms::new(
        parse_number(servers)?,
        parse_number(faulty)?,
        parse_number(rate)?,
    )
}

fn main() -> ExitCode {
    let arguments: Vec<OsString> = env::args_os().skip(1).collect();
    let result = Command::parse(&arguments)
        .map_err(str::to_string)
        .and_then(|command| command.run().map_err(|failure| failure.to_string()));
    match result {
        Ok(()) => ExitCode::SUCCESS,
        Err(sentence) => {
            // Where this cannot be written either, the status still tells.
            let _ = writeln!(io::stderr(), "{sentence}");
            ExitCode::FAILURE
        }
    }
}
