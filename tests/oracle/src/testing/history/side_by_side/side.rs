//! One of the two histories of a pair.

use crate::book::{Book, GROUP_COUNT};
use crate::history::answer;
use crate::history::call::{Call, SheetCall};
use crate::testing::history::temper::{self, Temper};
use crate::testing::history::view::Kind;
use crate::testing::history::{false_openings, faults, stray, text};
use crate::testing::random::Random;

pub struct Side {
    pub text: Vec<u8>,
    /// The places among the answers that both sides have to agree on.
    pub probes: Vec<(usize, Kind)>,
    pub temper: Temper,
    pub book: Option<Book>,
    random: Random,
    answered: usize,
}

/// What both sides do on a day: a conversion before it or none, the opening, the group's sheets, and checks of the group.
pub struct Agreed {
    pub converts: bool,
    pub opening: [u32; 4],
    pub sheets: Vec<SheetCall>,
    pub checks: Vec<Call>,
}

/// A step of an open day.
#[derive(Clone)]
enum Step {
    Sheet(SheetCall),
    Agreed(Call),
}

impl Side {
    pub fn new(random: &mut Random, seed: u64, side: u64) -> Side {
        let mut own = Random::new(random.bits() ^ side);
        let temper = temper::draw(&mut own, seed);
        Side {
            text: Vec::new(),
            probes: Vec::new(),
            temper,
            book: None,
            random: own,
            answered: 0,
        }
    }

    pub fn found(&mut self) {
        self.call(&self.temper.founding());
    }

    fn call(&mut self, call: &Call) {
        answer::answer(&mut self.book, call);
        self.text.extend_from_slice(text::line(call).as_bytes());
        self.text.push(b'\n');
        self.answered += 1;
    }

    fn probe(&mut self, call: &Call, kind: Kind) {
        self.probes.push((self.answered, kind));
        self.call(call);
    }

    /// Writes a call only if the book refuses it.
    fn call_refused(&mut self, call: &Call) {
        if stray::is_refused(&self.book, call) {
            self.call(call);
        }
    }

    pub fn day(&mut self, group: usize, agreed: &Agreed, ends: bool) {
        self.refused_while_closed(agreed.opening);
        if agreed.converts {
            self.probe(&Call::Convert, Kind::Converted);
            self.probe(&Call::Book, Kind::Book);
        }
        self.probe(&Call::Open(agreed.opening), Kind::Opened);
        for step in self.steps(group, agreed) {
            self.stray(&step);
            match step {
                Step::Sheet(sheet) => self.call(&Call::Sheet(sheet)),
                Step::Agreed(check) => self.probe(&check, Kind::Check),
            }
        }
        self.probe(&Call::Book, Kind::Book);
        if ends {
            self.probe(&Call::End, Kind::Ended);
            self.probe(&Call::Book, Kind::Book);
        }
    }

    /// The group's sheets and this side's own, in any order; agreed checks keep theirs.
    fn steps(&mut self, group: usize, agreed: &Agreed) -> Vec<Step> {
        let mut sheets = agreed.sheets.clone();
        for other in (0..GROUP_COUNT).filter(|&other| other != group) {
            let book = self.book.as_ref().expect("a book was founded");
            sheets.extend(self.temper.market.draft(&mut self.random, book, other));
        }
        self.random.shuffle(&mut sheets);
        let mut steps: Vec<Step> = sheets.into_iter().map(Step::Sheet).collect();
        let mut from = 0;
        for check in &agreed.checks {
            let place = from + self.random.below(steps.len() + 1 - from);
            steps.insert(place, Step::Agreed(check.clone()));
            from = place + 1;
        }
        steps
    }

    fn refused_while_closed(&mut self, opening: [u32; 4]) {
        let book = self.book.as_ref().expect("a book was founded");
        let cannot_be_carried = book.edition == 2014 && book.has_expanded_group();
        let calls = [
            Call::End,
            Call::Check(stray::order(&mut self.random, book)),
            false_openings::draw(&mut self.random, book, opening),
            stray::false_founding(&mut self.random),
        ];
        for call in calls {
            if self.random.one_in(4) {
                self.call_refused(&call);
            }
        }
        if cannot_be_carried && self.random.one_in(4) {
            self.call(&Call::Convert);
        }
    }

    /// Refused calls, checks and lines that are no call, drawn by this side alone.
    fn stray(&mut self, step: &Step) {
        if self.random.one_in(2) {
            return;
        }
        let book = self.book.as_ref().expect("a book was founded");
        let call = match (self.random.below(7), step) {
            (0 | 1, Step::Sheet(sheet)) => {
                let sheet = faults::spoil(&mut self.random, book, sheet);
                return self.call_refused(&Call::Sheet(sheet));
            }
            (2, _) => return self.call_refused(&Call::End),
            (3, _) => Call::Convert,
            (4, _) => stray::bare(&mut self.random),
            (5, _) => Call::Check(stray::false_order(&mut self.random, book)),
            _ => Call::Check(stray::order(&mut self.random, book)),
        };
        self.call(&call);
    }
}
