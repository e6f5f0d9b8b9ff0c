//! Random input for both programs, always the same from the same seed.

use std::collections::VecDeque;
use std::io::{self, BufWriter, Write};

use crate::lines::Line;
use crate::mistakes::{any_bytes, comment, with_mistake, with_zeros};
use crate::overlap::Span;
use crate::random::Random;
use crate::rehearse::Rehearsal;

/// Writes a script of `lines` lines for `rehearse`.
pub fn write_script(seed: u64, lines: u64, output: impl Write) -> io::Result<()> {
    let mut script = Script::new(seed);
    write_lines(lines, output, || script.next_line())
}

/// Writes `lines` lines for `span 5 2 200`.
pub fn write_readings(seed: u64, lines: u64, output: impl Write) -> io::Result<()> {
    let mut readings = Readings::new(seed, lines);
    write_lines(lines, output, || readings.next_line())
}

fn write_lines(
    lines: u64,
    output: impl Write,
    mut next_line: impl FnMut() -> Vec<u8>,
) -> io::Result<()> {
    let mut output = BufWriter::new(output);
    for _ in 0..lines {
        output.write_all(&next_line())?;
        output.write_all(b"\n")?;
    }
    output.flush()
}

/// The numbers from 0 to `count` - 1 in a random order.
fn shuffled(random: &mut Random, count: u64) -> Vec<u64> {
    let mut numbers: Vec<u64> = (0..count).collect();
    for last in (1..numbers.len()).rev() {
        numbers.swap(last, random.index_up_to(last));
    }
    numbers
}

/// Mostly a number below `count`, now and then one that is not.
fn mostly_below(random: &mut Random, count: u64) -> u64 {
    match random.up_to(59) {
        0 => count,
        1 => random.of_any_size(),
        _ => random.up_to(count.saturating_sub(1)),
    }
}

/// The answer of a time server that is not faulty.
fn true_answer(random: &mut Random, time: u64) -> Span {
    let furthest = if random.once_in(30) {
        random.of_any_size()
    } else {
        60
    };
    Span {
        lower: time.saturating_sub(random.up_to(furthest)),
        upper: time.saturating_add(random.up_to(furthest)),
    }
}

/// The answer of a faulty time server: anything, also a lower end above the upper one.
fn faulty_answer(random: &mut Random, time: u64) -> Span {
    let near = |random: &mut Random| time.saturating_add(random.up_to(4000)).saturating_sub(2000);
    let (lower, upper) = match random.up_to(9) {
        0 => (random.of_any_size(), random.of_any_size()),
        1 => (0, u64::MAX),
        2 => (u64::MAX, u64::MAX),
        3 => (0, random.up_to(100)),
        4 => (u64::MAX - random.up_to(100), u64::MAX),
        _ => (near(random), near(random)),
    };
    if random.once_in(12) {
        Span { lower, upper }
    } else {
        Span {
            lower: lower.min(upper),
            upper: lower.max(upper),
        }
    }
}

/// One line of a script that is still to be written. Its numbers are chosen only then, since they
/// go by the true time.
#[derive(Clone, Copy, Debug)]
enum Step {
    World,
    WrongWorld,
    Pass,
    ShortPass,
    PassToEnd,
    Clock { machine: u64 },
    Ask { machine: u64, server: u64 },
    Answer { machine: u64, server: u64 },
    Span { machine: u64 },
    Comment,
    AnyBytes,
}

/// Makes up a script, a few lines that belong together at a time.
struct Script {
    random: Random,
    /// Plays every line, which tells the true time.
    rehearsal: Rehearsal,
    machines: u64,
    servers: u64,
    faulty: u64,
    rate: u64,
    /// Which of 16 time servers are faulty in this world; there may be more than the machines allow
    /// for.
    is_faulty: [bool; 16],
    steps: VecDeque<Step>,
}

impl Script {
    fn new(seed: u64) -> Script {
        Script {
            random: Random::new(seed),
            rehearsal: Rehearsal::default(),
            machines: 1,
            servers: 1,
            faulty: 0,
            rate: 0,
            is_faulty: [false; 16],
            // A few lines before the first world, all of which are refused.
            steps: VecDeque::from([
                Step::Comment,
                Step::Pass,
                Step::Span { machine: 0 },
                Step::WrongWorld,
                Step::Ask {
                    machine: 0,
                    server: 0,
                },
                Step::World,
            ]),
        }
    }

    fn next_line(&mut self) -> Vec<u8> {
        if self.steps.is_empty() {
            self.plan();
        }
        let step = self.steps.pop_front().unwrap_or(Step::Comment);
        let mut line = self.write(step);
        let is_request = !matches!(step, Step::Comment | Step::AnyBytes);
        // A world gets no mistake, since the lines behind it go by its numbers.
        if is_request && !matches!(step, Step::World) && self.random.once_in(14) {
            line = with_mistake(&mut self.random, &line);
        } else if is_request && self.random.once_in(30) {
            line = with_zeros(&mut self.random, &line);
        }
        self.rehearsal.reply(Line::from(line.as_slice()).content());
        line
    }

    /// Chooses the next lines.
    fn plan(&mut self) {
        let machine = mostly_below(&mut self.random, self.machines);
        let server = mostly_below(&mut self.random, self.servers);
        let is_near_end = self.rehearsal.time() > u64::MAX - (1 << 50);
        if is_near_end && self.random.once_in(5) {
            self.steps.push_back(Step::World);
            return;
        }
        match self.random.up_to(99) {
            0..=5 => self.steps.push_back(Step::World),
            6..=8 => self.steps.push_back(Step::WrongWorld),
            9..=38 => self.plan_exchanges(machine),
            39..=48 => self.steps.push_back(Step::Pass),
            49..=50 => self.steps.push_back(Step::PassToEnd),
            51..=62 => self.steps.push_back(Step::Clock { machine }),
            63..=69 => self.steps.push_back(Step::Ask { machine, server }),
            70..=78 => self.steps.push_back(Step::Answer { machine, server }),
            79..=92 => self.steps.push_back(Step::Span { machine }),
            93..=97 => self.steps.push_back(Step::Comment),
            _ => self.steps.push_back(Step::AnyBytes),
        }
    }

    /// A machine asks some of its time servers, mostly as many as it needs, and gives its span.
    fn plan_exchanges(&mut self, machine: u64) {
        let (servers, faulty) = (self.servers, self.faulty);
        let fewest = if self.random.once_in(4) {
            0
        } else {
            servers - faulty
        };
        let count = self.random.between(fewest, servers) as usize;
        let mut servers = shuffled(&mut self.random, servers);
        servers.truncate(count);
        // Either all are asked before the first answer comes, or each one after the last answer.
        let all_at_once = self.random.once_in(2);
        if all_at_once {
            let asks = servers.iter().map(|&server| Step::Ask { machine, server });
            self.steps.extend(asks);
        }
        for server in servers {
            if !all_at_once {
                self.steps.push_back(Step::Ask { machine, server });
            }
            if self.random.once_in(2) {
                self.steps.push_back(Step::ShortPass);
            }
            if !self.random.once_in(25) {
                self.steps.push_back(Step::Answer { machine, server });
            }
        }
        if self.random.once_in(3) {
            self.steps.push_back(Step::Span { machine });
            self.steps.push_back(Step::Pass);
        }
        self.steps.push_back(Step::Span { machine });
    }

    fn write(&mut self, step: Step) -> Vec<u8> {
        let time = self.rehearsal.time();
        let random = &mut self.random;
        match step {
            Step::World => self.write_world(),
            Step::WrongWorld => self.write_wrong_world(),
            Step::Pass => {
                let duration = match random.up_to(15) {
                    0..=7 => random.up_to(1000),
                    8..=13 => random.up_to(10_000_000),
                    14 => random.up_to(1 << 50),
                    _ => random.of_any_size(),
                };
                format!("pass {duration}").into_bytes()
            }
            Step::ShortPass => format!("pass {}", random.up_to(50)).into_bytes(),
            Step::PassToEnd => {
                let rest = u64::MAX - time;
                let duration = match random.up_to(4) {
                    0 => rest,
                    1 => rest.saturating_add(1),
                    2 => rest.saturating_sub(random.up_to(5000)),
                    // Where a clock is fast from the start, about the most that can pass.
                    3 => {
                        let fast = 1_000_000 + u128::from(self.rate);
                        let most = u128::from(rest) * 1_000_000 / fast;
                        (most as u64).saturating_add(random.up_to(2))
                    }
                    _ => rest - rest / 1000,
                };
                format!("pass {duration}").into_bytes()
            }
            Step::Clock { machine } => {
                let rate = self.rate;
                let parts = match random.up_to(19) {
                    0 => random.of_any_size(),
                    1 => rate + 1,
                    2..=9 => rate,
                    _ => random.up_to(rate),
                };
                let drift = if random.once_in(2) { "fast" } else { "slow" };
                format!("clock {machine} {drift} {parts}").into_bytes()
            }
            Step::Ask { machine, server } => format!("ask {machine} {server}").into_bytes(),
            Step::Answer { machine, server } => self.write_answer(machine, server),
            Step::Span { machine } => format!("span {machine}").into_bytes(),
            Step::Comment => comment(random),
            Step::AnyBytes => any_bytes(random),
        }
    }

    fn write_world(&mut self) -> Vec<u8> {
        let random = &mut self.random;
        // Small worlds are the more likely ones: their spans need fewer lines.
        let most_servers = if random.once_in(3) { 16 } else { 5 };
        let servers = random.between(1, most_servers);
        let most_faulty = (servers - 1) / 2;
        let faulty = if random.once_in(3) {
            random.up_to(most_faulty)
        } else {
            most_faulty
        };
        let rate = match random.up_to(4) {
            0 => 0,
            1 => 1000,
            _ => random.up_to(1000),
        };
        self.machines = random.between(1, 4);
        self.servers = servers;
        self.faulty = faulty;
        self.rate = rate;

        let too_many = u64::from(random.once_in(3));
        let count = random.up_to(faulty) + too_many;
        self.is_faulty = [false; 16];
        for server in shuffled(random, servers).into_iter().take(count as usize) {
            if let Some(is_faulty) = self.is_faulty.get_mut(server as usize) {
                *is_faulty = true;
            }
        }
        format!("world {} {servers} {faulty} {rate}", self.machines).into_bytes()
    }

    fn write_wrong_world(&mut self) -> Vec<u8> {
        let random = &mut self.random;
        let mut machines = random.between(1, 4);
        let mut servers = random.between(1, 16);
        let mut faulty = random.up_to((servers - 1) / 2);
        let mut rate = random.up_to(1000);
        match random.up_to(6) {
            0 => machines = 0,
            1 => machines = 5 + random.of_any_size() / 2,
            2 => servers = 0,
            3 => servers = 17 + random.of_any_size() / 2,
            4 => faulty = servers.div_ceil(2),
            5 => faulty = random.of_any_size() | 8,
            _ => rate = 1001 + random.of_any_size() / 2,
        }
        format!("world {machines} {servers} {faulty} {rate}").into_bytes()
    }

    fn write_answer(&mut self, machine: u64, server: u64) -> Vec<u8> {
        let time = self.rehearsal.time();
        let random = &mut self.random;
        let is_faulty = self
            .is_faulty
            .get(server as usize)
            .is_some_and(|&is_faulty| is_faulty);
        let span = if is_faulty {
            faulty_answer(random, time)
        } else {
            true_answer(random, time)
        };
        if is_faulty || random.once_in(3) {
            return format!("answer {machine} {server} {} {}", span.lower, span.upper).into_bytes();
        }
        let (mut below, mut above) = (time - span.lower.min(time), span.upper.max(time) - time);
        // Also more than there is of the time behind and ahead.
        if random.once_in(15) {
            below = below.saturating_add(random.of_any_size());
            above = above.saturating_add(random.of_any_size());
        }
        format!("honest {machine} {server} {below} {above}").into_bytes()
    }
}

/// The random readings are made for `span 5 2 200`.
const READING_SERVERS: u64 = 5;
const READING_FAULTY: u64 = 2;

/// One line for `span` that is still to be written.
#[derive(Clone, Copy, Debug)]
enum ReadingStep {
    Asked { server: u64 },
    Answer { server: u64, is_faulty: bool },
    Now,
    Comment,
    AnyBytes,
}

/// Makes up lines for `span`.
struct Readings {
    random: Random,
    reading: u64,
    /// How many lines are still to come before the last time server is asked too.
    lines_without_last: u64,
    steps: VecDeque<ReadingStep>,
}

impl Readings {
    fn new(seed: u64, lines: u64) -> Readings {
        Readings {
            random: Random::new(seed),
            reading: 1_000_000,
            lines_without_last: lines / 2,
            steps: VecDeque::new(),
        }
    }

    fn next_line(&mut self) -> Vec<u8> {
        self.lines_without_last = self.lines_without_last.saturating_sub(1);
        if self.steps.is_empty() {
            self.plan();
        }
        let step = self.steps.pop_front().unwrap_or(ReadingStep::Comment);
        let line = self.write(step);
        let random = &mut self.random;
        if matches!(step, ReadingStep::Comment | ReadingStep::AnyBytes) {
            line
        } else if random.once_in(14) {
            with_mistake(random, &line)
        } else if random.once_in(30) {
            with_zeros(random, &line)
        } else {
            line
        }
    }

    fn plan(&mut self) {
        let random = &mut self.random;
        let server = mostly_below(random, READING_SERVERS);
        let is_faulty = random.once_in(3);
        let step = match random.up_to(19) {
            0..=5 => return self.plan_exchanges(),
            6..=7 if server + 1 != READING_SERVERS || self.lines_without_last == 0 => {
                ReadingStep::Asked { server }
            }
            6..=10 => ReadingStep::Answer { server, is_faulty },
            11..=17 => ReadingStep::Now,
            18 => ReadingStep::Comment,
            _ => ReadingStep::AnyBytes,
        };
        self.steps.push_back(step);
    }

    /// The machine asks some of its time servers, mostly as many as it needs, and gives its span.
    fn plan_exchanges(&mut self) {
        let random = &mut self.random;
        let servers = READING_SERVERS - u64::from(self.lines_without_last > 0);
        let count = random.between(READING_SERVERS - READING_FAULTY, servers) as usize;
        // Now and then one more than the machine allows for.
        let faulty = random.index_up_to(READING_FAULTY as usize + 1);
        for (place, server) in shuffled(random, servers)
            .into_iter()
            .take(count)
            .enumerate()
        {
            self.steps.push_back(ReadingStep::Asked { server });
            if !random.once_in(10) {
                let is_faulty = place < faulty;
                self.steps
                    .push_back(ReadingStep::Answer { server, is_faulty });
            }
        }
        self.steps.push_back(ReadingStep::Now);
    }

    fn write(&mut self, step: ReadingStep) -> Vec<u8> {
        let clock = self.next_reading();
        let random = &mut self.random;
        match step {
            ReadingStep::Asked { server } => format!("asked {server} {clock}").into_bytes(),
            ReadingStep::Answer { server, is_faulty } => {
                let time = clock.saturating_add(1_000_000_000_000);
                let span = if is_faulty {
                    faulty_answer(random, time)
                } else {
                    true_answer(random, time)
                };
                format!("answer {server} {clock} {} {}", span.lower, span.upper).into_bytes()
            }
            ReadingStep::Now => format!("now {clock}").into_bytes(),
            ReadingStep::Comment => comment(random),
            ReadingStep::AnyBytes => any_bytes(random),
        }
    }

    /// Mostly a little more than the last one, at times the same, and now and then less.
    fn next_reading(&mut self) -> u64 {
        let random = &mut self.random;
        match random.up_to(29) {
            0 => return self.reading.saturating_sub(1 + random.up_to(200)),
            1 => self.reading = self.reading.saturating_add(random.up_to(20_000)),
            2..=6 => {}
            _ => self.reading = self.reading.saturating_add(random.up_to(20)),
        }
        self.reading
    }
}

#[cfg(test)]
mod tests {
    use super::*;
    use crate::lines::answer_all;
    use crate::machine::Terms;
    use crate::span::Session;

    fn count(text: &str, what: &str) -> usize {
        text.lines().filter(|line| line.contains(what)).count()
    }

    #[test]
    fn a_script_has_its_lines_and_reaches_every_reply() {
        let mut script = Vec::new();
        assert!(write_script(1, 20_000, &mut script).is_ok());
        assert_eq!(script.iter().filter(|&&byte| byte == b'\n').count(), 20_000);
        let mut rehearsal = Rehearsal::default();
        let mut output = Vec::new();
        let result = answer_all(script.as_slice(), &mut output, |content| {
            rehearsal.reply(content)
        });
        assert!(result.is_ok());
        let output = String::from_utf8_lossy(&output);
        for what in ["number 1", "number 2", "number 3", "span", "3 ok"] {
            assert!(
                count(&output, what) > 100,
                "{what}: {}",
                count(&output, what)
            );
        }
        assert!(count(&output, "18446744073709551615: ok") > 0);
    }

    #[test]
    fn readings_have_their_lines_and_reach_every_reply() {
        let mut readings = Vec::new();
        assert!(write_readings(1, 20_000, &mut readings).is_ok());
        assert_eq!(
            readings.iter().filter(|&&byte| byte == b'\n').count(),
            20_000
        );
        let terms = Terms::new(READING_SERVERS, READING_FAULTY, 200);
        let mut session = Session::new(terms.expect("the terms are in range"));
        let mut output = Vec::new();
        let result = answer_all(readings.as_slice(), &mut output, |content| {
            session.reply(content)
        });
        assert!(result.is_ok());
        let output = String::from_utf8_lossy(&output);
        for what in ["number 1", "number 2", "number 3", "span", "ok"] {
            assert!(
                count(&output, what) > 100,
                "{what}: {}",
                count(&output, what)
            );
        }
    }
}
