//! Spans of time and where enough of them overlap.

/// The numbers from `lower` to `upper`, both included.
#[derive(Clone, Copy, Debug, PartialEq, Eq)]
pub struct Span {
    pub lower: u64,
    pub upper: u64,
}

/// One end of a span. The order of the variants matters: of ends at the same number the lower ones
/// are sorted first, so that two spans that share only that number overlap there.
#[derive(Clone, Copy, PartialEq, Eq, PartialOrd, Ord)]
enum End {
    Lower,
    Upper,
}

/// From the lowest lower end that lies in at least `needed` of the spans to the highest upper end
/// that does.
///
/// All ends are visited in rising order, with a count of the spans that are open. A lower end lies
/// in enough spans where the count, with its own span, has come to `needed`; an upper end where the
/// count, still with its own span, is that high.
pub fn overlap(spans: impl IntoIterator<Item = Span>, needed: usize) -> Option<Span> {
    let mut ends: Vec<(u64, End)> = spans
        .into_iter()
        .flat_map(|span| [(span.lower, End::Lower), (span.upper, End::Upper)])
        .collect();
    ends.sort_unstable();

    let mut open = 0_usize;
    let mut lowest = None;
    let mut highest = None;
    for (number, end) in ends {
        match end {
            End::Lower => {
                open += 1;
                if open >= needed && lowest.is_none() {
                    lowest = Some(number);
                }
            }
            End::Upper => {
                if open >= needed {
                    highest = Some(number);
                }
                open = open.saturating_sub(1);
            }
        }
    }
    Some(Span {
        lower: lowest?,
        upper: highest?,
    })
}

#[cfg(test)]
mod tests {
    use super::*;
    use crate::random::Random;

    fn span(lower: u64, upper: u64) -> Span {
        Span { lower, upper }
    }

    /// Takes every end by itself and counts the spans that it lies in.
    fn overlap_by_counting(spans: &[Span], needed: usize) -> Option<Span> {
        let enough = |number: &u64| {
            let holds = |span: &&Span| span.lower <= *number && *number <= span.upper;
            spans.iter().filter(holds).count() >= needed
        };
        let lower = spans.iter().map(|span| span.lower).filter(enough).min()?;
        let upper = spans.iter().map(|span| span.upper).filter(enough).max()?;
        Some(Span { lower, upper })
    }

    #[test]
    fn two_of_three_overlap() {
        let spans = [span(10, 20), span(15, 30), span(90, 95)];
        assert_eq!(overlap(spans, 2), Some(span(15, 20)));
        assert_eq!(overlap(spans, 1), Some(span(10, 95)));
        assert_eq!(overlap(spans, 3), None);
    }

    #[test]
    fn spans_overlap_in_a_single_number() {
        assert_eq!(overlap([span(1, 5), span(5, 9)], 2), Some(span(5, 5)));
        assert_eq!(overlap([span(1, 5), span(6, 9)], 2), None);
        assert_eq!(overlap([span(7, 7), span(7, 7)], 2), Some(span(7, 7)));
        let end = span(u64::MAX, u64::MAX);
        assert_eq!(overlap([end, span(0, u64::MAX)], 2), Some(end));
    }

    #[test]
    fn the_overlap_may_have_gaps() {
        let spans = [span(0, 3), span(2, 12), span(10, 14)];
        assert_eq!(overlap(spans, 2), Some(span(2, 12)));
    }

    #[test]
    fn no_spans_have_no_overlap() {
        assert_eq!(overlap([], 1), None);
    }

    #[test]
    fn agrees_with_counting_for_every_end() {
        let mut random = Random::new(1);
        let mut found = 0;
        for round in 0..40_000 {
            let highest = 4 + round % 40;
            let spans: Vec<Span> = (0..random.up_to(16))
                .map(|_| {
                    let (a, b) = (random.up_to(highest), random.up_to(highest));
                    span(a.min(b), a.max(b))
                })
                .collect();
            for needed in 1..=spans.len() + 1 {
                let expected = overlap_by_counting(&spans, needed);
                found += u32::from(expected.is_some());
                assert_eq!(
                    overlap(spans.iter().copied(), needed),
                    expected,
                    "{needed} of {spans:?}"
                );
            }
        }
        assert!(found > 40_000);
    }
}
