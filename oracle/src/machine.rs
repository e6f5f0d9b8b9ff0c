//! A machine, the time servers it goes by, and what it can say of the time.

use std::fmt::{self, Display};

use crate::overlap::{overlap, Span};

const MILLION: u128 = 1_000_000;

/// Why a request is refused, in the order in which one goes before another.
#[derive(Clone, Copy, Debug, PartialEq, Eq)]
pub enum Refusal {
    /// The line cannot be read, or something in it is out of range.
    OutOfRange,
    /// An answer of a time server that was never asked.
    NeverAsked,
    /// No time lies in enough of the spans.
    NoSpan,
}

impl Display for Refusal {
    fn fmt(&self, f: &mut fmt::Formatter<'_>) -> fmt::Result {
        let number = match self {
            Refusal::OutOfRange => 1,
            Refusal::NeverAsked => 2,
            Refusal::NoSpan => 3,
        };
        write!(f, "number {number}")
    }
}

/// What a machine is told about its time servers and its clock.
#[derive(Clone, Copy, Debug, PartialEq, Eq)]
pub struct Terms {
    servers: usize,
    faulty: usize,
    /// The parts in a million by which the clock is off at most.
    rate: u32,
}

impl Terms {
    /// None where one of the numbers is out of range.
    pub fn new(servers: u64, faulty: u64, rate: u64) -> Option<Terms> {
        let in_range = (1..=16).contains(&servers)
            && u128::from(faulty) * 2 < u128::from(servers)
            && rate <= 1000;
        // In range all three are small, so no conversion cuts anything off.
        in_range.then_some(Terms {
            servers: servers as usize,
            faulty: faulty as usize,
            rate: rate as u32,
        })
    }

    pub fn rate(&self) -> u32 {
        self.rate
    }
}

/// A time server's answer, with the clock readings at which it was asked for and at which it came.
#[derive(Clone, Copy, Debug)]
struct Exchange {
    asked: u64,
    answered: u64,
    span: Span,
}

impl Exchange {
    /// The answer as it has grown by the time the clock shows `now`, which is not below the
    /// readings of the exchange.
    fn grown(&self, now: u64, rate: u32) -> Span {
        let since_asked = u128::from(now.saturating_sub(self.asked));
        let since_answered = u128::from(now.saturating_sub(self.answered));
        let rate = u128::from(rate);
        let lower_growth = match since_answered.checked_sub(1) {
            Some(whole) => whole_quotient(whole * MILLION, MILLION + rate),
            None => 0,
        };
        let upper_growth = whole_quotient((since_asked + 1) * MILLION, MILLION - rate) + 1;
        Span {
            lower: at_most_highest(u128::from(self.span.lower) + lower_growth),
            upper: at_most_highest(u128::from(self.span.upper) + upper_growth),
        }
    }
}

/// `dividend` without its remainder, divided by `divisor`, which is not 0.
fn whole_quotient(dividend: u128, divisor: u128) -> u128 {
    (dividend - dividend % divisor) / divisor
}

fn at_most_highest(number: u128) -> u64 {
    u64::try_from(number).unwrap_or(u64::MAX)
}

/// What a machine knows of one time server.
#[derive(Clone, Copy, Debug, Default)]
struct Server {
    last_asked: Option<u64>,
    last_exchange: Option<Exchange>,
}

/// A machine without its clock: whoever uses it hands it readings, of which none may be below an
/// earlier one.
#[derive(Clone, Debug)]
pub struct Machine {
    terms: Terms,
    servers: Vec<Server>,
}

impl Machine {
    pub fn new(terms: Terms) -> Machine {
        Machine {
            terms,
            servers: vec![Server::default(); terms.servers],
        }
    }

    /// Time server `server` is asked when the clock shows `now`.
    pub fn ask(&mut self, server: u64, now: u64) -> Result<(), Refusal> {
        self.server(server)?.last_asked = Some(now);
        Ok(())
    }

    /// The answer of `server` to its last ask comes when the clock shows `now`.
    pub fn answer(&mut self, server: u64, now: u64, span: Span) -> Result<(), Refusal> {
        let server = self.server(server)?;
        if span.lower > span.upper {
            return Err(Refusal::OutOfRange);
        }
        let asked = server.last_asked.ok_or(Refusal::NeverAsked)?;
        server.last_exchange = Some(Exchange {
            asked,
            answered: now,
            span,
        });
        Ok(())
    }

    /// The machine's span when the clock shows `now`.
    pub fn span(&self, now: u64) -> Result<Span, Refusal> {
        let exchanges = self
            .servers
            .iter()
            .filter_map(|server| server.last_exchange);
        let grown = exchanges.map(|exchange| exchange.grown(now, self.terms.rate));
        // Of 2F < M it follows that at least one span is needed.
        let needed = self.terms.servers - self.terms.faulty;
        overlap(grown, needed).ok_or(Refusal::NoSpan)
    }

    fn server(&mut self, server: u64) -> Result<&mut Server, Refusal> {
        let index = usize::try_from(server).map_err(|_| Refusal::OutOfRange)?;
        self.servers.get_mut(index).ok_or(Refusal::OutOfRange)
    }
}

#[cfg(test)]
mod tests {
    use super::*;

    fn grown(
        asked: u64,
        answered: u64,
        (lower, upper): (u64, u64),
        now: u64,
        rate: u32,
    ) -> (u64, u64) {
        let span = Exchange {
            asked,
            answered,
            span: Span { lower, upper },
        }
        .grown(now, rate);
        (span.lower, span.upper)
    }

    #[test]
    fn terms_have_bounds() {
        for (servers, faulty, rate) in [(1, 0, 0), (2, 0, 5), (3, 1, 1000), (16, 7, 0)] {
            assert!(
                Terms::new(servers, faulty, rate).is_some(),
                "{servers} {faulty} {rate}"
            );
        }
        for (servers, faulty, rate) in [
            (0, 0, 0),
            (17, 0, 0),
            (2, 1, 0),
            (16, 8, 0),
            (5, 3, 0),
            (3, 1, 1001),
            (3, 1 << 63, 0),
            (u64::MAX, 0, 0),
            (1, 0, u64::MAX),
        ] {
            assert!(
                Terms::new(servers, faulty, rate).is_none(),
                "{servers} {faulty} {rate}"
            );
        }
    }

    #[test]
    fn an_answer_grows_at_both_ends() {
        assert_eq!(grown(100, 140, (5000, 5010), 200, 0), (5059, 5112));
        assert_eq!(grown(0, 0, (10, 18), 0, 0), (10, 20));
        assert_eq!(grown(0, 0, (10, 18), 1, 0), (10, 21));
        assert_eq!(grown(0, 0, (10, 18), 2, 0), (11, 22));
    }

    #[test]
    fn divisions_are_rounded_down() {
        // 1000 * 1000000 / 1001000 = 999.0009.. and 1002 * 1000000 / 999000 = 1003.003..
        assert_eq!(grown(0, 0, (0, 0), 1001, 1000), (999, 1004));
        // 1001 * 1000000 / 1001000 = 1000 exactly and 1003 * 1000000 / 999000 = 1004.004..
        assert_eq!(grown(0, 0, (0, 0), 1002, 1000), (1000, 1005));
        // 997 * 1000000 / 1001000 = 996.003.. and 999 * 1000000 / 999000 = 1000 exactly
        assert_eq!(grown(0, 0, (0, 0), 998, 1000), (996, 1001));
    }

    #[test]
    fn ends_stay_at_the_highest_number() {
        let highest = u64::MAX;
        assert_eq!(grown(0, 0, (highest, highest), 0, 1000), (highest, highest));
        assert_eq!(
            grown(0, 0, (highest, highest), highest, 1000),
            (highest, highest)
        );
        assert_eq!(grown(0, 0, (0, 0), highest, 0), (highest - 1, highest));
        assert_eq!(grown(0, 0, (1, 1), highest, 0), (highest, highest));
        assert_eq!(
            grown(highest, highest, (0, highest - 2), highest, 0),
            (0, highest)
        );
        assert_eq!(
            grown(highest, highest, (0, highest - 3), highest, 0),
            (0, highest - 1)
        );
    }

    fn machine(servers: u64, faulty: u64, rate: u64) -> Machine {
        let terms = Terms::new(servers, faulty, rate);
        Machine::new(terms.unwrap_or(Terms {
            servers: 0,
            faulty: 0,
            rate: 0,
        }))
    }

    #[test]
    fn one_faulty_server_of_three_does_no_harm() {
        let mut machine = machine(3, 1, 0);
        for (server, lower, upper) in [(0, 10, 18), (1, 15, 28), (2, 90, 93)] {
            assert_eq!(machine.ask(server, 0), Ok(()));
            assert_eq!(machine.answer(server, 0, Span { lower, upper }), Ok(()));
        }
        assert_eq!(
            machine.span(0),
            Ok(Span {
                lower: 15,
                upper: 20
            })
        );
    }

    #[test]
    fn an_answer_goes_by_the_ask_that_it_answered() {
        let mut machine = machine(1, 0, 0);
        let answer = Span {
            lower: 500,
            upper: 510,
        };
        assert_eq!(machine.span(0), Err(Refusal::NoSpan));
        assert_eq!(machine.answer(0, 0, answer), Err(Refusal::NeverAsked));
        assert_eq!(machine.ask(0, 10), Ok(()));
        assert_eq!(machine.span(10), Err(Refusal::NoSpan));
        assert_eq!(machine.answer(0, 20, answer), Ok(()));
        assert_eq!(machine.ask(0, 25), Ok(()));
        // d = 20 and e = 10, although it was asked again at 25.
        assert_eq!(
            machine.span(30),
            Ok(Span {
                lower: 509,
                upper: 532
            })
        );
        assert_eq!(machine.answer(0, 28, answer), Ok(()));
        // d = 5 and e = 2.
        assert_eq!(
            machine.span(30),
            Ok(Span {
                lower: 501,
                upper: 517
            })
        );
    }

    #[test]
    fn of_several_refusals_the_lowest_is_given() {
        let mut machine = machine(2, 0, 0);
        assert_eq!(
            machine.answer(0, 0, Span { lower: 2, upper: 1 }),
            Err(Refusal::OutOfRange)
        );
        assert_eq!(
            machine.answer(2, 0, Span { lower: 1, upper: 2 }),
            Err(Refusal::OutOfRange)
        );
        assert_eq!(machine.ask(u64::MAX, 0), Err(Refusal::OutOfRange));
    }
}
