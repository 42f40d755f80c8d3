//! Soundness: every field in the ranges of the rule, tested at every call.

use super::edition::Edition;
use super::sheet::is_sheet;
use super::window::LARGEST_WINDOW;
use super::{Book, Level, Limits, PRODUCT_COUNT};
use crate::amounts;
use crate::prices;
use crate::products::PRODUCTS;

impl Book {
    pub fn is_sound(&self) -> bool {
        self.has_sound_date()
            && self.has_sound_edition_and_marks()
            && (0..PRODUCT_COUNT).all(|product| self.has_sound_limits(product))
            && (0..PRODUCT_COUNT).all(|product| self.has_sound_window(product))
            && self.has_sound_sheets()
    }

    /// A true date and a left within its month; without a date no day is open or ended.
    fn has_sound_date(&self) -> bool {
        if self.date.is_none() {
            return !self.is_open && self.left == 0 && !self.has_ended_sheets();
        }
        let last = self.last_opened();
        last.is_some_and(|(date, left)| left <= date.days_remaining())
    }

    fn has_ended_sheets(&self) -> bool {
        self.last_ended.iter().any(Option::is_some)
    }

    /// A true edition, and a mark only under one that has them, on an expanded group.
    fn has_sound_edition_and_marks(&self) -> bool {
        let Some(edition) = Edition::of(self.edition) else {
            return false;
        };
        let can_be_marked = |level| edition.has_marks() && level == Level::Expanded;
        let mut standings = self.standings.iter();
        standings.all(|standing| !standing.marked || can_be_marked(standing.level))
    }

    /// I fits, and E is what belongs to it.
    fn has_sound_limits(&self, product: usize) -> bool {
        let limits = self.limits[product];
        amounts::fits(&PRODUCTS[product], limits.initial)
            && limits == Limits::from_initial(product, limits.initial)
    }

    fn has_sound_window(&self, product: usize) -> bool {
        let window = &self.windows[product];
        let tick = PRODUCTS[product].standard_tick;
        window.len() <= LARGEST_WINDOW
            && window
                .iter()
                .all(|&settlement| prices::is_price(settlement, tick))
    }

    /// Last ended sheets are all eight or none, and none is in while no day is open.
    fn has_sound_sheets(&self) -> bool {
        let ended = self.last_ended.iter().flatten().count();
        if ended != 0 && ended != PRODUCT_COUNT {
            return false;
        }
        if !self.is_open && self.sheets_in.iter().any(Option::is_some) {
            return false;
        }
        let is_fit = |product: usize| {
            let mut kept = self.sheets_in[product]
                .iter()
                .chain(&self.last_ended[product]);
            kept.all(|sheet| is_sheet(product, sheet))
        };
        (0..PRODUCT_COUNT).all(is_fit)
    }
}
