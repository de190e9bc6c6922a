//! Legs: every leg of a service lies in exactly one record of each kind.

use crate::refusals::Fault;
use crate::store::{Record, Span, MOST_STOPS};

const FIRST_STOP: u16 = 0;
const LAST_STOP: u16 = 999;

/// Puts stop numbers in the place of 000 and 999 and tests every span: those
/// of `%`, `-` and `&` cover each leg once, those of `*` are within the stops.
pub fn settle(records: &mut [Record], stops: u16) -> Result<(), Fault> {
    let mut numbers = Coverage::of(stops);
    let mut validities = Coverage::of(stops);
    let mut modes = Coverage::of(stops);
    for record in records {
        match record {
            Record::Number { span, .. } => numbers.add(replace(span, stops))?,
            Record::Validity { span, .. } => validities.add(replace(span, stops))?,
            Record::Mode { span, .. } => modes.add(replace(span, stops))?,
            Record::Attribute { span, .. } => within(replace(span, stops), stops)?,
            // Attributes are the last records with a span.
            _ => break,
        }
    }
    numbers.complete()?;
    validities.complete()?;
    modes.complete()
}

fn replace(span: &mut Span, stops: u16) -> Span {
    for stop in [&mut span.first, &mut span.last] {
        match *stop {
            FIRST_STOP => *stop = 1,
            LAST_STOP => *stop = stops,
            _ => (),
        }
    }
    *span
}

/// 1 ≤ first ≤ last ≤ n; 000 has been replaced, so first is 1 or more.
fn within(span: Span, stops: u16) -> Result<(), Fault> {
    (span.first <= span.last && span.last <= stops).then_some(()).ok_or(Fault::Legs)
}

const WORDS: usize = (MOST_STOPS as usize).div_ceil(64);

/// The legs covered so far by the records of one kind. A second mark on a leg
/// ends the test, so marking takes no more steps than there are legs.
struct Coverage {
    stops: u16,
    /// Legs covered, counted over all records.
    covered: u16,
    marks: [u64; WORDS],
}

impl Coverage {
    fn of(stops: u16) -> Self {
        Coverage { stops, covered: 0, marks: [0; WORDS] }
    }

    fn add(&mut self, span: Span) -> Result<(), Fault> {
        within(span, self.stops)?;
        if span.first == span.last {
            return Err(Fault::Legs);
        }
        for leg in span.first..span.last {
            let (word, bit) = (usize::from(leg) / 64, leg % 64);
            if self.marks[word] >> bit & 1 == 1 {
                return Err(Fault::Legs);
            }
            self.marks[word] |= 1 << bit;
        }
        self.covered += span.last - span.first;
        Ok(())
    }

    /// No leg was marked twice, so the count tells whether each was once.
    fn complete(&self) -> Result<(), Fault> {
        (self.covered == self.stops - 1).then_some(()).ok_or(Fault::Legs)
    }
}

#[cfg(test)]
mod tests {
    use super::*;

    fn covers(stops: u16, spans: &[(u16, u16)]) -> bool {
        let record = |kind: u8, (first, last): (u16, u16)| {
            let span = Span { first, last };
            match kind {
                b'%' => Record::Number { company: 1, number: 1, span },
                b'-' => Record::Validity { footnote: 0, span },
                _ => Record::Mode { mode: 0, span },
            }
        };
        let outcome = |tested: u8| {
            let kinds = b"%-&".iter().flat_map(|&kind| {
                let spans = if kind == tested { spans } else { &[(0, 999)][..] };
                spans.iter().map(move |&span| record(kind, span))
            });
            settle(&mut kinds.collect::<Vec<_>>(), stops).is_ok()
        };
        let outcomes = [b'%', b'-', b'&'].map(outcome);
        assert!(outcomes.iter().all(|&each| each == outcomes[0]), "one rule for the three kinds");
        outcomes[0]
    }

    #[test]
    fn p9_five_stops() {
        assert!(covers(5, &[(1, 4), (4, 5)]));
        assert!(!covers(5, &[(1, 3), (4, 5)]));
        assert!(!covers(5, &[(1, 4), (3, 5)]));
    }

    #[test]
    fn spans_in_any_order_cover() {
        assert!(covers(5, &[(4, 5), (1, 2), (2, 4)]));
        assert!(covers(5, &[(3, 999), (0, 3)]));
        assert!(covers(2, &[(1, 2)]));
        assert!(covers(998, &[(500, 998), (1, 500)]));
    }

    #[test]
    fn first_is_before_last_and_last_is_a_stop() {
        assert!(!covers(5, &[(1, 5), (3, 3)]));
        assert!(!covers(5, &[(1, 4), (5, 4)]));
        assert!(!covers(5, &[(1, 6)]));
        assert!(!covers(5, &[(1, 5), (999, 999)]));
        assert!(!covers(5, &[(999, 0)]));
        assert!(!covers(998, &[(1, 997)]));
    }

    #[test]
    fn attributes_may_stand_at_one_stop() {
        let outcome = |first, last| {
            let whole = Span { first: 1, last: 4 };
            let mut records = [
                Record::Number { company: 1, number: 1, span: whole },
                Record::Validity { footnote: 0, span: whole },
                Record::Mode { mode: 0, span: whole },
                Record::Attribute { code: 0, span: Span { first, last }, footnote: 0 },
            ];
            settle(&mut records, 4).map(|()| match records[3] {
                Record::Attribute { span, .. } => (span.first, span.last),
                _ => unreachable!("settling keeps the kinds"),
            })
        };
        assert_eq!(outcome(0, 0), Ok((1, 1)));
        assert_eq!(outcome(999, 999), Ok((4, 4)));
        assert_eq!(outcome(2, 2), Ok((2, 2)));
        assert_eq!(outcome(0, 999), Ok((1, 4)));
        assert_eq!(outcome(2, 1), Err(Fault::Legs));
        assert_eq!(outcome(4, 5), Err(Fault::Legs));
        assert_eq!(outcome(5, 5), Err(Fault::Legs));
        assert_eq!(outcome(999, 0), Err(Fault::Legs));
    }
}
