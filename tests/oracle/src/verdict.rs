//! What a check answers: where a price lies, and the span of prices that are allowed.

use crate::prices::LARGEST_PRICE;
use crate::refusal::Refusal;

/// The lowest and the highest price allowed.
#[derive(Clone, Copy, Debug, PartialEq, Eq)]
pub struct Span {
    pub lowest: u32,
    pub highest: u32,
}

#[derive(Clone, Copy, Debug, PartialEq, Eq)]
pub enum Verdict {
    Free,
    Within(Span),
    Below(Span),
    Above(Span),
}

/// A check's answer in C: its number, and the ends of its span, both 0 where it is free or refused.
#[derive(Clone, Copy, Debug, Default, PartialEq, Eq)]
#[repr(C)]
pub struct SpanWords {
    pub answer: u32,
    pub lowest: u32,
    pub highest: u32,
}

impl Span {
    /// The limit to either side of the settlement, but not under the size's tick nor over the largest price.
    pub fn around(settlement: u32, limit: u32, tick: u32) -> Span {
        Span {
            lowest: settlement.saturating_sub(limit).max(tick),
            highest: (settlement + limit).min(LARGEST_PRICE),
        }
    }
}

impl Verdict {
    /// On a price that has a limit: a distance of at most the limit is within.
    pub fn limited(price: u32, settlement: u32, limit: u32, tick: u32) -> Verdict {
        let span = Span::around(settlement, limit, tick);
        if price.abs_diff(settlement) <= limit {
            return Verdict::Within(span);
        }
        if price < settlement {
            return Verdict::Below(span);
        }
        Verdict::Above(span)
    }

    /// The number of its kind.
    pub fn number(self) -> u32 {
        match self {
            Verdict::Free => 100,
            Verdict::Within(_) => 101,
            Verdict::Below(_) => 102,
            Verdict::Above(_) => 103,
        }
    }

    /// None where there is no limit.
    pub fn span(self) -> Option<Span> {
        match self {
            Verdict::Free => None,
            Verdict::Within(span) | Verdict::Below(span) | Verdict::Above(span) => Some(span),
        }
    }
}

impl From<Result<Verdict, Refusal>> for SpanWords {
    fn from(outcome: Result<Verdict, Refusal>) -> SpanWords {
        let answer = outcome.map_or_else(Refusal::number, Verdict::number);
        match outcome.ok().and_then(Verdict::span) {
            Some(Span { lowest, highest }) => SpanWords {
                answer,
                lowest,
                highest,
            },
            None => SpanWords {
                answer,
                ..SpanWords::default()
            },
        }
    }
}

#[cfg(test)]
mod tests {
    use super::*;

    /// Settlement, limit and tick.
    fn ends(settlement: u32, limit: u32, tick: u32) -> (u32, u32) {
        let Span { lowest, highest } = Span::around(settlement, limit, tick);
        (lowest, highest)
    }

    #[test]
    fn the_limit_lies_to_either_side() {
        assert_eq!(ends(6_000, 200, 2), (5_800, 6_200));
        assert_eq!(ends(5_001, 250, 1), (4_751, 5_251));
    }

    #[test]
    fn the_lowest_is_not_under_the_tick() {
        assert_eq!(ends(202, 200, 2), (2, 402));
        assert_eq!(ends(200, 200, 2), (2, 400));
        assert_eq!(ends(200, 200, 1), (1, 400));
        assert_eq!(ends(2, 160, 2), (2, 162));
        assert_eq!(ends(2, 160, 1), (1, 162));
        assert_eq!(ends(1, 100, 1), (1, 101));
    }

    #[test]
    fn the_highest_is_not_over_the_largest_price() {
        assert_eq!(ends(999_800, 200, 2), (999_600, 1_000_000));
        assert_eq!(ends(999_802, 200, 2), (999_602, 1_000_000));
        assert_eq!(ends(1_000_000, 160, 1), (999_840, 1_000_000));
        assert_eq!(ends(500_000, 2_000_000, 2), (2, 1_000_000));
    }

    #[test]
    fn a_verdict_in_c_has_its_number_and_its_ends() {
        let words = |verdict| {
            let words = SpanWords::from(verdict);
            [words.answer, words.lowest, words.highest]
        };
        let at = |price| Ok(Verdict::limited(price, 6_000, 200, 2));
        assert_eq!(words(at(6_200)), [101, 5_800, 6_200]);
        assert_eq!(words(at(5_798)), [102, 5_800, 6_200]);
        assert_eq!(words(at(6_202)), [103, 5_800, 6_200]);
        assert_eq!(words(Ok(Verdict::Free)), [100, 0, 0]);
        assert_eq!(words(Err(Refusal::Price)), [8, 0, 0]);
    }
}
