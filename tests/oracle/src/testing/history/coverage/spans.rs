//! What the spans of checks and bare checks reached: ends inside the range of prices, and ends clamped to it.

use super::Coverage;
use crate::prices::LARGEST_PRICE;

/// The calls that carry a span.
const CALLS: [&str; 2] = ["check", "bare"];

const VERDICTS: [&str; 3] = ["within", "below", "above"];

/// Of each call.
const WANTED: [&str; 20] = [
    "lowest clamped to a standard tick of 2",
    "lowest clamped to a standard tick of 1",
    "lowest clamped to a mini's tick of 1",
    "both ends clamped",
    "lowest clamped from 0",
    "lowest at the tick, not clamped",
    "highest at the largest price, not clamped",
    "within, lowest clamped",
    "above, lowest clamped",
    "within, highest clamped",
    "below, highest clamped",
    "within at the lowest",
    "within at the highest",
    "within at a clamped lowest",
    "within at a clamped lowest of a mini",
    "within at a clamped highest",
    "one tick below the lowest",
    "one tick above the highest",
    "refused 8, one tick below a clamped lowest",
    "refused 8, one tick above a clamped highest",
];

pub fn wanted() -> Vec<String> {
    let of_verdicts = VERDICTS
        .iter()
        .flat_map(|verdict| [unclamped(verdict), off_standard_tick(verdict)]);
    let fixed = WANTED.iter().map(|what| what.to_string());
    let whats: Vec<String> = fixed.chain(of_verdicts).collect();
    CALLS
        .iter()
        .flat_map(|call| whats.iter().map(move |what| format!("{call}: {what}")))
        .collect()
}

fn unclamped(verdict: &str) -> String {
    format!("{verdict}, neither end clamped")
}

fn off_standard_tick(verdict: &str) -> String {
    format!("{verdict}, a mini off the standard tick")
}

/// An order that is not spot, with all that its span is made of.
pub struct Limited {
    /// One of `CALLS`.
    pub call: &'static str,
    pub is_mini: bool,
    pub tick: u32,
    pub settlement: u32,
    pub limit: u32,
    pub price: u32,
}

/// Which ends of a span are not the limit away from the settlement.
pub struct Clamped {
    pub lowest: bool,
    pub highest: bool,
}

impl Limited {
    pub fn clamped(&self) -> Clamped {
        Clamped {
            lowest: self.settlement < self.limit + self.tick,
            highest: self.settlement + self.limit > LARGEST_PRICE,
        }
    }

    fn count(&self, coverage: &mut Coverage, facts: &[(bool, &str)]) {
        for (_, what) in facts.iter().filter(|(happened, _)| *happened) {
            coverage.count(format!("{}: {what}", self.call));
        }
    }

    /// Takes note of an order that was found within, below or above.
    pub fn observe(&self, coverage: &mut Coverage, verdict: &str) {
        self.observe_clamps(coverage, verdict);
        self.observe_price(coverage);
        let is_odd = self.is_mini && self.price % 2 == 1;
        self.count(coverage, &[(is_odd, &off_standard_tick(verdict))]);
    }

    fn observe_clamps(&self, coverage: &mut Coverage, verdict: &str) {
        let Clamped { lowest, highest } = self.clamped();
        let is_standard = |tick| lowest && !self.is_mini && self.tick == tick;
        let is_mini = lowest && self.is_mini;
        let facts = [
            (!lowest && !highest, &*unclamped(verdict)),
            (is_standard(2), "lowest clamped to a standard tick of 2"),
            (is_standard(1), "lowest clamped to a standard tick of 1"),
            (is_mini, "lowest clamped to a mini's tick of 1"),
            (lowest, &format!("{verdict}, lowest clamped")),
            (highest, &format!("{verdict}, highest clamped")),
            (lowest && highest, "both ends clamped"),
            (self.settlement == self.limit, "lowest clamped from 0"),
            (
                self.settlement == self.limit + self.tick,
                "lowest at the tick, not clamped",
            ),
            (
                self.settlement + self.limit == LARGEST_PRICE,
                "highest at the largest price, not clamped",
            ),
        ];
        self.count(coverage, &facts);
    }

    fn observe_price(&self, coverage: &mut Coverage) {
        let Limited {
            tick,
            settlement,
            limit,
            price,
            ..
        } = *self;
        let clamped = self.clamped();
        let at_tick = clamped.lowest && price == tick;
        let at_largest = clamped.highest && price == LARGEST_PRICE;
        let one_below = price + limit + tick == settlement;
        let one_above = price == settlement + limit + tick;
        let facts = [
            (price + limit == settlement, "within at the lowest"),
            (price == settlement + limit, "within at the highest"),
            (at_tick, "within at a clamped lowest"),
            (
                at_tick && self.is_mini,
                "within at a clamped lowest of a mini",
            ),
            (at_largest, "within at a clamped highest"),
            (one_below, "one tick below the lowest"),
            (one_above, "one tick above the highest"),
        ];
        self.count(coverage, &facts);
    }

    /// Takes note of an order that was refused for its price alone.
    pub fn observe_refused(&self, coverage: &mut Coverage) {
        let clamped = self.clamped();
        let is_below = clamped.lowest && self.price == 0;
        let is_above = clamped.highest && self.price == LARGEST_PRICE + self.tick;
        let facts = [
            (is_below, "refused 8, one tick below a clamped lowest"),
            (is_above, "refused 8, one tick above a clamped highest"),
        ];
        self.count(coverage, &facts);
    }
}
