//! The program `rehearse`: a script with up to four machines, their clocks and their time servers.

use std::fmt::{self, Display};

use crate::clock::{Clock, Drift};
use crate::lines::{Content, Word};
use crate::machine::{Machine, Refusal, Terms};
use crate::overlap::Span;

#[derive(Clone, Copy, Debug)]
enum Request {
    World {
        machines: u64,
        servers: u64,
        faulty: u64,
        rate: u64,
    },
    Pass {
        duration: u64,
    },
    OfMachine {
        machine: u64,
        request: MachineRequest,
    },
}

/// The requests that name one machine.
#[derive(Clone, Copy, Debug)]
enum MachineRequest {
    Clock { drift: Drift, parts: u64 },
    Ask { server: u64 },
    Answer { server: u64, span: Span },
    Honest { server: u64, below: u64, above: u64 },
    Span,
}

impl Request {
    fn parse(words: &[Word]) -> Option<Request> {
        let (name, rest) = words.split_first()?;
        if name.is("world") {
            let [machines, servers, faulty, rate] = numbers(rest)?;
            Some(Request::World {
                machines,
                servers,
                faulty,
                rate,
            })
        } else if name.is("pass") {
            let [duration] = numbers(rest)?;
            Some(Request::Pass { duration })
        } else {
            let (machine, rest) = rest.split_first()?;
            Some(Request::OfMachine {
                machine: machine.number()?,
                request: MachineRequest::parse(name, rest)?,
            })
        }
    }
}

impl MachineRequest {
    /// `rest` is what comes after the machine's number.
    fn parse(name: &Word, rest: &[Word]) -> Option<MachineRequest> {
        if name.is("clock") {
            let (drift, parts) = rest.split_first()?;
            let drift = match drift {
                drift if drift.is("fast") => Drift::Fast,
                drift if drift.is("slow") => Drift::Slow,
                _ => return None,
            };
            let [parts] = numbers(parts)?;
            Some(MachineRequest::Clock { drift, parts })
        } else if name.is("ask") {
            let [server] = numbers(rest)?;
            Some(MachineRequest::Ask { server })
        } else if name.is("answer") {
            let [server, lower, upper] = numbers(rest)?;
            Some(MachineRequest::Answer {
                server,
                span: Span { lower, upper },
            })
        } else if name.is("honest") {
            let [server, below, above] = numbers(rest)?;
            Some(MachineRequest::Honest {
                server,
                below,
                above,
            })
        } else if name.is("span") {
            let [] = numbers(rest)?;
            Some(MachineRequest::Span)
        } else {
            None
        }
    }
}

/// Exactly `COUNT` words, all of them numbers.
fn numbers<const COUNT: usize>(words: &[Word]) -> Option<[u64; COUNT]> {
    let words: &[Word; COUNT] = words.try_into().ok()?;
    let mut numbers = [0; COUNT];
    for (number, word) in numbers.iter_mut().zip(words) {
        *number = word.number()?;
    }
    Some(numbers)
}

/// What is said of one request.
#[derive(Clone, Copy, Debug, PartialEq, Eq)]
pub enum Reply {
    Ok,
    MachineOk { machine: u64 },
    MachineSpan { machine: u64, span: Span },
    Refused(Refusal),
}

impl Display for Reply {
    fn fmt(&self, f: &mut fmt::Formatter<'_>) -> fmt::Result {
        match self {
            Reply::Ok => write!(f, "ok"),
            Reply::MachineOk { machine } => write!(f, "{machine} ok"),
            Reply::MachineSpan { machine, span } => {
                write!(f, "{machine} span {} {}", span.lower, span.upper)
            }
            Reply::Refused(refusal) => write!(f, "{refusal}"),
        }
    }
}

/// A reply with the true time after the request.
#[derive(Clone, Copy, Debug, PartialEq, Eq)]
pub struct TimedReply {
    pub time: u64,
    pub reply: Reply,
}

impl Display for TimedReply {
    fn fmt(&self, f: &mut fmt::Formatter<'_>) -> fmt::Result {
        write!(f, "{}: {}", self.time, self.reply)
    }
}

/// A machine and its clock.
#[derive(Clone, Debug)]
struct Node {
    clock: Clock,
    machine: Machine,
}

#[derive(Clone, Debug)]
struct World {
    time: u64,
    terms: Terms,
    nodes: Vec<Node>,
}

impl World {
    fn new(machines: u64, terms: Terms) -> Option<World> {
        let count = usize::try_from(machines)
            .ok()
            .filter(|count| (1..=4).contains(count))?;
        let node = Node {
            clock: Clock::new(),
            machine: Machine::new(terms),
        };
        Some(World {
            time: 0,
            terms,
            nodes: vec![node; count],
        })
    }

    fn pass(&mut self, duration: u64) -> Option<()> {
        let time = self.time.checked_add(duration)?;
        // All clocks are worked out before any is set, so that a refused request leaves them all as
        // they were.
        let clocks = self.nodes.iter().map(|node| node.clock.after(duration));
        let clocks = clocks.collect::<Option<Vec<Clock>>>()?;
        for (node, clock) in self.nodes.iter_mut().zip(clocks) {
            node.clock = clock;
        }
        self.time = time;
        Some(())
    }

    fn carry_out(&mut self, machine: u64, request: MachineRequest) -> Result<Reply, Refusal> {
        let index = usize::try_from(machine).map_err(|_| Refusal::OutOfRange)?;
        let node = self.nodes.get_mut(index).ok_or(Refusal::OutOfRange)?;
        let now = node.clock.reading();
        match request {
            MachineRequest::Clock { drift, parts } => {
                let parts = u32::try_from(parts)
                    .ok()
                    .filter(|&parts| parts <= self.terms.rate());
                node.clock
                    .set_drift(drift, parts.ok_or(Refusal::OutOfRange)?);
            }
            MachineRequest::Ask { server } => node.machine.ask(server, now)?,
            MachineRequest::Answer { server, span } => node.machine.answer(server, now, span)?,
            MachineRequest::Honest {
                server,
                below,
                above,
            } => {
                let span = Span {
                    lower: self.time.saturating_sub(below),
                    upper: self.time.saturating_add(above),
                };
                node.machine.answer(server, now, span)?;
            }
            MachineRequest::Span => {
                let span = node.machine.span(now)?;
                return Ok(Reply::MachineSpan { machine, span });
            }
        }
        Ok(Reply::MachineOk { machine })
    }
}

/// Plays a script line by line.
#[derive(Clone, Debug, Default)]
pub struct Rehearsal {
    world: Option<World>,
}

impl Rehearsal {
    /// The true time, which is 0 before the first world.
    pub fn time(&self) -> u64 {
        self.world.as_ref().map_or(0, |world| world.time)
    }

    /// What is said of a line; nothing of an empty line or a comment.
    pub fn reply(&mut self, content: Content<'_>) -> Option<TimedReply> {
        let request = match content {
            Content::Nothing => return None,
            Content::Unreadable => None,
            Content::Words(words) => Request::parse(words),
        };
        let reply = request
            .ok_or(Refusal::OutOfRange)
            .and_then(|request| self.carry_out(request))
            .unwrap_or_else(Reply::Refused);
        Some(TimedReply {
            time: self.time(),
            reply,
        })
    }

    fn carry_out(&mut self, request: Request) -> Result<Reply, Refusal> {
        match request {
            Request::World {
                machines,
                servers,
                faulty,
                rate,
            } => {
                let terms = Terms::new(servers, faulty, rate).ok_or(Refusal::OutOfRange)?;
                let world = World::new(machines, terms).ok_or(Refusal::OutOfRange)?;
                self.world = Some(world);
                Ok(Reply::Ok)
            }
            Request::Pass { duration } => {
                let passed = self.world.as_mut().and_then(|world| world.pass(duration));
                passed.map(|()| Reply::Ok).ok_or(Refusal::OutOfRange)
            }
            Request::OfMachine { machine, request } => {
                let world = self.world.as_mut().ok_or(Refusal::OutOfRange)?;
                world.carry_out(machine, request)
            }
        }
    }
}

#[cfg(test)]
mod tests {
    use super::*;
    use crate::lines::Line;

    /// Plays lines that stand before `=>`, and compares what is said of them with what stands
    /// behind it.
    fn check(script: &str) {
        let mut rehearsal = Rehearsal::default();
        for line in script.lines() {
            let Some((request, expected)) = line.trim().split_once(" => ") else {
                continue;
            };
            let reply = rehearsal.reply(Line::from(request.as_bytes()).content());
            let reply = reply.map(|reply| reply.to_string());
            assert_eq!(reply.as_deref(), Some(expected), "{request}");
        }
    }

    #[test]
    fn the_beginning_of_the_example() {
        check(
            "world 2 3 1 100 => 0: ok
            pass 5000 => 5000: ok
            ask 0 0 => 5000: 0 ok
            honest 0 0 10 10 => 5000: 0 ok
            ask 0 1 => 5000: 0 ok
            honest 0 1 3 20 => 5000: 0 ok
            span 0 => 5000: 0 span 4997 5012",
        );
    }

    #[test]
    fn all_is_refused_before_the_first_world() {
        check(
            "pass 1 => 0: number 1
            span 0 => 0: number 1
            answer 0 0 1 2 => 0: number 1
            world 0 3 1 0 => 0: number 1
            world 5 3 1 0 => 0: number 1
            span 0 => 0: number 1
            world 4 1 0 0 => 0: ok
            span 3 => 0: number 3
            span 4 => 0: number 1",
        );
    }

    #[test]
    fn a_refused_world_leaves_the_old_one() {
        check(
            "world 1 1 0 0 => 0: ok
            pass 7 => 7: ok
            ask 0 0 => 7: 0 ok
            world 1 2 1 0 => 7: number 1
            world 1 17 1 0 => 7: number 1
            world 1 1 0 1001 => 7: number 1
            honest 0 0 1 1 => 7: 0 ok
            span 00 => 7: 0 span 6 10
            world 1 1 0 0 => 0: ok
            honest 0 0 1 1 => 0: number 2",
        );
    }

    #[test]
    fn no_clock_goes_above_the_highest_number() {
        check(
            "world 2 1 0 1000 => 0: ok
            clock 1 fast 1000 => 0: 1 ok
            clock 1 fast 1001 => 0: number 1
            pass 18446744073709551615 => 0: number 1
            ask 0 0 => 0: 0 ok
            answer 0 0 5 5 => 0: 0 ok
            span 0 => 0: 0 span 5 7
            clock 1 slow 1000 => 0: 1 ok
            pass 18446744073709551615 => 18446744073709551615: ok
            pass 1 => 18446744073709551615: number 1
            pass 0 => 18446744073709551615: ok",
        );
    }

    #[test]
    fn an_honest_answer_is_kept_within_the_numbers() {
        check(
            "world 1 1 0 0 => 0: ok
            pass 100 => 100: ok
            ask 0 0 => 100: 0 ok
            honest 0 0 101 18446744073709551615 => 100: 0 ok
            span 0 => 100: 0 span 0 18446744073709551615",
        );
    }

    #[test]
    fn a_machine_goes_by_its_own_clock() {
        // The clock of machine 1 counts 999.999 microseconds, shown as 999, and then exactly 1001.
        check(
            "world 2 1 0 1000 => 0: ok
            clock 1 fast 1000 => 0: 1 ok
            ask 1 0 => 0: 1 ok
            honest 1 0 0 0 => 0: 1 ok
            pass 999 => 999: ok
            span 1 => 999: 1 span 997 1002
            pass 1 => 1000: ok
            span 1 => 1000: 1 span 999 1004",
        );
    }

    #[test]
    fn lines_that_cannot_be_read() {
        check(
            "world 1 1 0 0 => 0: ok
            world 1 1 0 => 0: number 1
            world 1 1 0 0 0 => 0: number 1
            pass => 0: number 1
            pass 1 2 => 0: number 1
            clock 0 fast => 0: number 1
            clock 0 exact 0 => 0: number 1
            clock 0 0 fast => 0: number 1
            ask 0 => 0: number 1
            span => 0: number 1
            span 0 0 => 0: number 1
            asked 0 0 => 0: number 1
            now 0 => 0: number 1
            pass -1 => 0: number 1
            ask 0 1 => 0: number 1",
        );
    }
}
