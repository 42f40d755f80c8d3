//! A whole history from a seed.

mod conversions;
mod strays;

use super::calendar::calendar;
use super::coverage::Coverage;
use super::pace::{self, Phase};
use super::temper::{self, Temper};
use super::writer::Writer;
use super::{false_openings, faults, stray};
use crate::book::groups::group_of;
use crate::book::{GROUPS, GROUP_COUNT};
use crate::history::call::{Call, SheetCall};
use crate::testing::random::Random;

/// How many lines a history has, about.
pub const LINES: usize = 2_000;

pub struct History {
    pub text: Vec<u8>,
    pub coverage: Coverage,
}

struct Scenario {
    random: Random,
    writer: Writer,
    temper: Temper,
    /// The place of the next day in the calendar.
    today: usize,
    /// Days ended so far.
    ended: usize,
    /// Groups that today's opening brought back.
    brought_back: [bool; GROUP_COUNT],
}

/// Draws a history of about 2,000 lines.
pub fn history(seed: u64) -> History {
    history_of(seed, LINES)
}

pub fn history_of(seed: u64, lines: usize) -> History {
    let mut random = Random::new(seed.wrapping_mul(0x5851_F42D_4C95_7F2D) + 1);
    let temper = temper::draw(&mut random, seed);
    let mut scenario = Scenario {
        today: temper.first_day,
        writer: Writer::new(seed),
        random,
        temper,
        ended: 0,
        brought_back: [false; GROUP_COUNT],
    };
    scenario.before_founding();
    while scenario.writer.lines < lines {
        scenario.day();
    }
    scenario.close();
    History {
        text: scenario.writer.text,
        coverage: scenario.writer.coverage,
    }
}

impl Scenario {
    fn call(&mut self, call: Call) -> String {
        self.writer.call(&call)
    }

    fn before_founding(&mut self) {
        if self.random.one_in(2) {
            let calls = [
                Call::End,
                Call::Book,
                Call::Open([2024, 6, 27, 1]),
                Call::Check([0; 4]),
                Call::Convert,
            ];
            let drawn = self.random.below(calls.len());
            self.call(calls[drawn].clone());
            let bare = stray::bare(&mut self.random);
            self.call(bare);
            let call = stray::false_founding(&mut self.random);
            self.call(call);
        }
        self.found();
    }

    fn found(&mut self) {
        self.call(self.temper.founding());
        if self.random.one_in(4) {
            self.call(Call::Book);
        }
    }

    /// Starts afresh with another temper.
    fn found_afresh(&mut self) {
        let turn = self.random.bits();
        self.temper = temper::draw(&mut self.random, turn);
        self.today = self.temper.first_day;
        self.ended = 0;
        self.found();
    }

    fn day(&mut self) {
        self.stray_while_closed();
        let next = self.next_opening();
        self.convert_between_days(next);
        if self.takes_chance() {
            let book = self.writer.book();
            let call = false_openings::draw(&mut self.random, book, next);
            self.call(call);
        }
        self.open(next);
        if self.takes_chance() {
            self.call(Call::End);
        }
        self.wide_orders();
        self.set_phase();
        self.sheets();
        self.stray_while_open();
        self.call(Call::End);
        self.ended += 1;
        if self.random.one_in(12) {
            self.call(Call::Book);
        }
        self.turn_day(next[3]);
    }

    fn open(&mut self, next: [u32; 4]) {
        let was = self.writer.book().standings;
        let answer = self.call(Call::Open(next));
        assert!(answer.starts_with("opened"), "{next:?}: {answer}");
        let is = self.writer.book().standings;
        let is_back = |group: usize| is[group].level != was[group].level;
        self.brought_back = std::array::from_fn(is_back);
    }

    /// Orders that the expanded level would have found within, and the book, where groups were brought back.
    fn wide_orders(&mut self) {
        let groups = (0..GROUP_COUNT).filter(|&group| self.brought_back[group]);
        let products: Vec<usize> = groups.flat_map(|group| GROUPS[group]).copied().collect();
        for &product in &products {
            let book = self.writer.book();
            let order = stray::wide_order(&mut self.random, book, product);
            self.call(Call::Check(order));
        }
        if !products.is_empty() {
            self.call(Call::Book);
        }
    }

    /// One day in six goes its own way, but not the last one before a conversion.
    fn set_phase(&mut self) {
        let day = self.ended + 1;
        self.temper.market.phase = match self.random.one_in(6) {
            _ if self.temper.converts_after == Some(day) => Phase::Calm,
            true => Phase::Middle,
            false => self.temper.pace.phase(day),
        };
    }

    fn next_opening(&mut self) -> [u32; 4] {
        let date = calendar().days[self.today];
        let left = pace::left_of(
            &mut self.random,
            self.today,
            self.temper.has_strange_left,
            self.writer.book().last_opened(),
        );
        [date.year(), date.month(), date.day(), left]
    }

    /// On to the next day, or to another book.
    fn turn_day(&mut self, left: u32) {
        let today = (self.today, left);
        match pace::next_day(&mut self.random, self.temper.pace, today, self.ended) {
            Some(next) if !self.random.one_in(300) => self.today = next,
            _ => self.found_afresh(),
        }
    }

    fn takes_chance(&mut self) -> bool {
        self.random.one_in(self.temper.quiet)
    }

    /// Files eight sheets in any order, with strays between them.
    fn sheets(&mut self) {
        let book = self.writer.book();
        let mut sheets = self.temper.market.draft_all(&mut self.random, book);
        self.random.shuffle(&mut sheets);
        for sheet in sheets {
            if self.takes_chance() {
                self.spoiled(&sheet);
            }
            if self.brought_back[group_of(sheet.product as usize)] {
                self.widened(&sheet);
            }
            self.call(Call::Sheet(sheet.clone()));
            if self.takes_chance() {
                self.stray_while_open();
            }
            if self.takes_chance() && self.random.one_in(3) {
                self.call(Call::Sheet(sheet.clone()));
                self.spoiled(&sheet);
            }
        }
    }

    fn spoiled(&mut self, good: &SheetCall) {
        let book = self.writer.book();
        let call = faults::spoil(&mut self.random, book, good);
        // What a fault did not reach stays good, and is filed in its turn.
        if call != *good {
            self.call_refused(Call::Sheet(call));
        }
    }

    fn widened(&mut self, good: &SheetCall) {
        let book = self.writer.book();
        let call = faults::widen(&mut self.random, book, good);
        self.call_refused(Call::Sheet(call));
    }

    /// Writes a call only if the book refuses it.
    fn call_refused(&mut self, call: Call) {
        if stray::is_refused(&self.writer.model, &call) {
            self.call(call);
        }
    }

    fn close(&mut self) {
        self.call(Call::Book);
        if self.random.one_in(5) {
            self.writer.drop_last_newline();
        }
    }
}
