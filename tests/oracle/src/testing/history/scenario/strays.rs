//! Calls beside the course of a history: orders, calls that the book refuses, and lines that are no call.

use super::Scenario;
use crate::history::call::Call;
use crate::testing::history::{false_openings, stray};

impl Scenario {
    pub fn stray_while_open(&mut self) {
        let random = &mut self.random;
        let book = self.writer.book();
        let lively = stray::lively_product(random, book);
        match random.below(13) {
            0 => drop(self.call(Call::Book)),
            1 => self.call_refused(Call::End),
            2 => {
                let call = false_openings::draw(random, book, [2050, 6, 1, 3]);
                self.call(call);
            }
            3 | 4 => {
                let order = stray::false_order(random, book);
                self.call(Call::Check(order));
            }
            5 => self.stray_anytime(),
            6 => {
                let order = stray::order_of(random, book, lively);
                self.call(Call::Check(order));
            }
            7 => self.convert_in_vain(),
            _ => {
                let order = stray::order(random, book);
                self.call(Call::Check(order));
            }
        }
    }

    fn stray_anytime(&mut self) {
        match self.random.below(6) {
            0 => {
                let call = stray::false_founding(&mut self.random);
                self.call(call);
            }
            1 | 2 => {
                let call = stray::bare(&mut self.random);
                self.call(call);
            }
            _ => {
                let line = stray::no_call(&mut self.random);
                self.writer.line(&line);
            }
        }
    }

    pub fn stray_while_closed(&mut self) {
        if !self.takes_chance() {
            return;
        }
        let random = &mut self.random;
        let book = self.writer.book();
        match random.below(7) {
            0 => drop(self.call(Call::End)),
            1 => {
                let order = stray::order(random, book);
                self.call(Call::Check(order));
            }
            2 => {
                let order = stray::false_order(random, book);
                self.call(Call::Check(order));
            }
            3 => self.stray_sheet_while_closed(),
            4 => self.convert_in_vain(),
            _ => self.stray_anytime(),
        }
    }

    /// The last ended sheet again, at times with faults.
    fn stray_sheet_while_closed(&mut self) {
        let product = self.random.below(8);
        let book = self.writer.book();
        let mut sheet = stray::last_sheet(&mut self.random, book, product);
        match self.random.below(4) {
            0 => sheet.months.reverse(),
            1 => sheet.settlements.iter_mut().for_each(|one| *one = 0),
            2 => drop(sheet.settlements.pop()),
            _ => {}
        }
        self.call(Call::Sheet(sheet));
    }
}
