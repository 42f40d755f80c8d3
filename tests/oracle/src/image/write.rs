//! From a book, and from what a call answered, to the words of an image.

use super::{ContractWords, EventWords, Image, LimitWords, SheetWords, StandingWords, WindowWords};
use super::{FORMAT, WORDS};
use crate::book::end::Event;
use crate::book::moves::Contract;
use crate::book::opening::NewLimits;
use crate::book::sheet::LARGEST_SHEET;
use crate::book::window::LARGEST_WINDOW;
use crate::book::{Book, Level, Sheet, GROUP_COUNT};

impl Image {
    /// A book that no call has answered on yet, with zeros in unused places.
    ///
    /// # Panics
    /// Where a sheet or a window has more entries than places.
    pub fn of(book: &Book) -> Image {
        let mut image = Image::from_words([0; WORDS]);
        image.put_book(book);
        image
    }

    /// Puts a book in, with zeros in unused places; what the last calls answered stays.
    pub fn put_book(&mut self, book: &Book) {
        let [year, month, day] = book.date.unwrap_or_default();
        *self = Image {
            format: FORMAT,
            edition: book.edition,
            is_open: u32::from(book.is_open),
            year,
            month,
            day,
            left: book.left,
            limits: book.limits.map(|limits| LimitWords {
                initial: limits.initial,
                expanded: limits.expanded,
            }),
            standings: book.standings.map(|standing| StandingWords {
                expanded: u32::from(standing.level == Level::Expanded),
                marked: u32::from(standing.marked),
            }),
            windows: windows(book),
            today: book.sheets_in.each_ref().map(sheet),
            last: book.last_ended.each_ref().map(sheet),
            renewed: self.renewed,
            events: self.events,
        };
    }

    pub fn put_renewed(&mut self, renewed: NewLimits) {
        self.renewed = renewed.map(u32::from);
    }

    pub fn put_events(&mut self, events: [Event; GROUP_COUNT]) {
        self.events = events.map(event);
    }
}

fn windows(book: &Book) -> WindowWords {
    WindowWords {
        counts: book.windows.each_ref().map(|window| window.len() as u32),
        settlements: book.windows.each_ref().map(|window| {
            let mut places = [0; LARGEST_WINDOW];
            places[..window.len()].copy_from_slice(window);
            places
        }),
    }
}

fn sheet(sheet: &Option<Sheet>) -> SheetWords {
    let entries = sheet.as_deref().unwrap_or_default();
    let mut contracts = [ContractWords::default(); LARGEST_SHEET];
    for (place, entry) in entries.iter().enumerate() {
        contracts[place] = ContractWords {
            month: entry.month,
            settlement: entry.settlement,
        };
    }
    SheetWords {
        count: entries.len() as u32,
        contracts,
    }
}

/// Quiet and reverted have no leading contract, and zeros in its place.
fn event(event: Event) -> EventWords {
    let (kind, lead) = match event {
        Event::Quiet => (0, None),
        Event::Triggered(lead) => (1, Some(lead)),
        Event::Held(lead) => (2, Some(lead)),
        Event::Reverted => (3, None),
        Event::Raised(lead) => (4, Some(lead)),
    };
    let lead = lead.unwrap_or(Contract {
        month: 0,
        product: 0,
    });
    EventWords {
        kind,
        month: lead.month,
        product: lead.product as u32,
    }
}
