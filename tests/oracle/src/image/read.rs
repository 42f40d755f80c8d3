//! From an image to the book that it holds, and to what the last calls answered.

use super::{ContractWords, EventWords, Image, SheetWords, StandingWords, FORMAT};
use crate::book::end::Event;
use crate::book::moves::Contract;
use crate::book::opening::NewLimits;
use crate::book::{Book, Entry, Level, Limits, Sheet, Standing, GROUP_COUNT, PRODUCT_COUNT};

impl Image {
    /// The book, sound or not; none where the format is another or a flag is neither 0 nor 1.
    pub fn book(&self) -> Option<Book> {
        if self.format != FORMAT {
            return None;
        }
        let standings = self.standings.each_ref().map(StandingWords::standing);
        Some(Book {
            edition: self.edition,
            is_open: flag(self.is_open)?,
            date: self.date(),
            left: self.left,
            standings: all(standings)?,
            limits: self.limits.map(|words| Limits {
                initial: words.initial,
                expanded: words.expanded,
            }),
            windows: std::array::from_fn(|product| self.window(product)),
            sheets_in: self.today.each_ref().map(SheetWords::sheet),
            last_ended: self.last.each_ref().map(SheetWords::sheet),
        })
    }

    /// Zeros stand for no date; where only some of the three are 0, it is a false one.
    fn date(&self) -> Option<[u32; 3]> {
        let date = [self.year, self.month, self.day];
        (date != [0; 3]).then_some(date)
    }

    fn window(&self, product: usize) -> Vec<u32> {
        counted(
            &self.windows.settlements[product],
            self.windows.counts[product],
        )
    }

    /// What the last opening answered; none where a word is neither 0 nor 1.
    pub fn new_limits(&self) -> Option<NewLimits> {
        let flags: [Option<bool>; PRODUCT_COUNT] = self.renewed.map(flag);
        all(flags)
    }

    /// What the last end answered; none where a group's words are no event.
    pub fn last_events(&self) -> Option<[Event; GROUP_COUNT]> {
        all(self.events.each_ref().map(EventWords::event))
    }
}

impl StandingWords {
    fn standing(&self) -> Option<Standing> {
        let level = match flag(self.expanded)? {
            true => Level::Expanded,
            false => Level::Initial,
        };
        let marked = flag(self.marked)?;
        Some(Standing { level, marked })
    }
}

impl SheetWords {
    fn sheet(&self) -> Option<Sheet> {
        let entry = |words: ContractWords| Entry {
            month: words.month,
            settlement: words.settlement,
        };
        let contracts = counted(&self.contracts, self.count);
        (self.count != 0).then(|| contracts.into_iter().map(entry).collect())
    }
}

impl EventWords {
    fn event(&self) -> Option<Event> {
        let lead = Contract {
            month: self.month,
            product: self.product as usize,
        };
        let leads_none = self.month == 0 && self.product == 0;
        match self.kind {
            0 if leads_none => Some(Event::Quiet),
            1 => Some(Event::Triggered(lead)),
            2 => Some(Event::Held(lead)),
            3 if leads_none => Some(Event::Reverted),
            4 => Some(Event::Raised(lead)),
            _ => None,
        }
    }
}

fn flag(word: u32) -> Option<bool> {
    match word {
        0 => Some(false),
        1 => Some(true),
        _ => None,
    }
}

/// The places below a count. A count beyond them all gives one more than there are, which no sound book has.
fn counted<T: Copy + Default>(places: &[T], count: u32) -> Vec<T> {
    let count = count as usize;
    if count <= places.len() {
        return places[..count].to_vec();
    }
    let mut beyond = places.to_vec();
    beyond.push(T::default());
    beyond
}

/// All of them, or none where one is missing.
fn all<T, const COUNT: usize>(parts: [Option<T>; COUNT]) -> Option<[T; COUNT]> {
    let parts: Option<Vec<T>> = parts.into_iter().collect();
    parts?.try_into().ok()
}
