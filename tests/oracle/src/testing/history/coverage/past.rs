//! What a book went through so far, by which conversions and the days after them are judged.

use std::collections::BTreeSet;

use super::Seen;
use crate::book::window::{collected_contract, LARGEST_WINDOW};
use crate::book::{GROUP_COUNT, PRODUCT_COUNT};
use crate::history::call::Call;

/// Since the founding.
#[derive(Clone, Default)]
pub struct Past {
    /// A season gave a product new limits.
    pub has_season_limits: bool,
    /// Groups that reverted at the last end.
    pub reverted: [bool; GROUP_COUNT],
    /// The refusals that conversions got.
    pub refused: BTreeSet<u32>,
    /// What came after the conversion that carried the book from 2014 to 2023, if one did.
    pub carried: Option<Since>,
    /// A conversion was accepted, whether it changed the book or not, and no day has ended since.
    pub is_converted: bool,
}

/// Since a conversion.
#[derive(Clone, Copy, Default)]
pub struct Since {
    pub openings: usize,
    pub ends: usize,
    /// How many settlements each window collected; at least as many as it has places, where it was emptied.
    pub collected: [usize; PRODUCT_COUNT],
}

impl Past {
    /// Takes note of a call, after all others have.
    pub fn note(&mut self, call: &Call, seen: &Seen) {
        match (call, seen.refusal()) {
            (Call::Convert, Some(refusal)) => {
                self.refused.insert(refusal);
            }
            (_, Some(_)) => {}
            (Call::Found(_), None) => *self = Past::default(),
            (Call::Open(_), None) => self.note_opening(seen),
            (Call::End, None) => self.note_end(seen),
            (Call::Convert, None) => self.note_conversion(seen),
            _ => {}
        }
    }

    fn note_conversion(&mut self, seen: &Seen) {
        self.is_converted = true;
        if seen.before.edition == 2014 {
            self.carried = Some(Since::default());
        }
    }

    fn note_opening(&mut self, seen: &Seen) {
        self.has_season_limits |= seen.answer.contains('1');
        if let Some(since) = &mut self.carried {
            since.openings += 1;
            since.note_windows(seen, |_| false);
        }
    }

    fn note_end(&mut self, seen: &Seen) {
        let mut words = seen.answer.split(' ').skip(1);
        self.reverted = std::array::from_fn(|_| words.next() == Some("reverted"));
        self.is_converted = false;
        if let Some(since) = &mut self.carried {
            let (date, _) = seen.after.last_opened().expect("the day ended");
            since.ends += 1;
            since.note_windows(seen, |product| collected_contract(product, date).is_some());
        }
    }
}

impl Since {
    fn note_windows(&mut self, seen: &Seen, has_collected: impl Fn(usize) -> bool) {
        for (product, collected) in self.collected.iter_mut().enumerate() {
            if seen.after.windows[product].is_empty() {
                *collected = LARGEST_WINDOW;
            } else if has_collected(product) {
                *collected += 1;
            }
        }
    }
}
