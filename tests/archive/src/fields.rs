//! What each word of an image is.

use std::mem::offset_of;

use oracle::book::groups::group_of;
use oracle::book::window::LARGEST_WINDOW;
use oracle::image::{words, Image, SheetWords, BOOK_WORDS, WORDS};

#[derive(Clone, Copy, Debug, PartialEq, Eq)]
pub enum Field {
    Format,
    Edition,
    IsOpen,
    Year,
    Month,
    Day,
    Left,
    Initial(usize),
    Expanded(usize),
    /// Of a group.
    IsExpanded(usize),
    IsMarked(usize),
    WindowCount(usize),
    /// A product and a place.
    WindowSettlement(usize, usize),
    SheetCount(Sheets, usize),
    ContractMonth(Sheets, usize, usize),
    ContractSettlement(Sheets, usize, usize),
    Renewed(usize),
    /// A group and one of its three words.
    Event(usize, usize),
}

#[derive(Clone, Copy, Debug, PartialEq, Eq)]
pub enum Sheets {
    Today,
    Last,
}

pub const LIMITS: usize = words(offset_of!(Image, limits));
const STANDINGS: usize = words(offset_of!(Image, standings));
const COUNTS: usize = words(offset_of!(Image, windows.counts));
pub const SETTLEMENTS: usize = words(offset_of!(Image, windows.settlements));
const TODAY: usize = words(offset_of!(Image, today));
const LAST: usize = words(offset_of!(Image, last));
const EVENTS: usize = words(offset_of!(Image, events));
const SHEET: usize = words(size_of::<SheetWords>());

/// The parts of an image that hold the book, by their first words.
pub const PARTS: [usize; 7] = [0, LIMITS, STANDINGS, COUNTS, SETTLEMENTS, TODAY, LAST];

impl Field {
    pub fn of(word: usize) -> Field {
        match word {
            0 => Field::Format,
            1 => Field::Edition,
            2 => Field::IsOpen,
            3 => Field::Year,
            4 => Field::Month,
            5 => Field::Day,
            6 => Field::Left,
            LIMITS..STANDINGS => either(word - LIMITS, Field::Initial, Field::Expanded),
            STANDINGS..COUNTS => either(word - STANDINGS, Field::IsExpanded, Field::IsMarked),
            COUNTS..SETTLEMENTS => Field::WindowCount(word - COUNTS),
            SETTLEMENTS..TODAY => {
                let place = word - SETTLEMENTS;
                Field::WindowSettlement(place / LARGEST_WINDOW, place % LARGEST_WINDOW)
            }
            TODAY..LAST => of_sheet(Sheets::Today, word - TODAY),
            LAST..BOOK_WORDS => of_sheet(Sheets::Last, word - LAST),
            BOOK_WORDS..EVENTS => Field::Renewed(word - BOOK_WORDS),
            EVENTS..WORDS => Field::Event((word - EVENTS) / 3, (word - EVENTS) % 3),
            _ => panic!("an image has no word {word}"),
        }
    }

    /// The product, where the field is one product's.
    pub fn product(self) -> Option<usize> {
        match self {
            Field::Initial(product)
            | Field::Expanded(product)
            | Field::WindowCount(product)
            | Field::WindowSettlement(product, _)
            | Field::SheetCount(_, product)
            | Field::ContractMonth(_, product, _)
            | Field::ContractSettlement(_, product, _) => Some(product),
            Field::IsExpanded(group) | Field::IsMarked(group) => {
                (0..8).find(|&product| group_of(product) == group)
            }
            _ => None,
        }
    }
}

/// The words of a pair.
fn either(place: usize, first: fn(usize) -> Field, second: fn(usize) -> Field) -> Field {
    match place % 2 {
        0 => first(place / 2),
        _ => second(place / 2),
    }
}

fn of_sheet(sheets: Sheets, place: usize) -> Field {
    let (product, place) = (place / SHEET, place % SHEET);
    match place {
        0 => Field::SheetCount(sheets, product),
        odd if odd % 2 == 1 => Field::ContractMonth(sheets, product, place / 2),
        _ => Field::ContractSettlement(sheets, product, place / 2 - 1),
    }
}

#[cfg(test)]
mod tests {
    use super::*;

    /// An image in which each word is its own number.
    fn numbered() -> Image {
        Image::from_words(std::array::from_fn(|word| word as u32))
    }

    /// The word of a field, by the names of the struct.
    fn named(image: &Image, field: Field) -> u32 {
        let sheets = |which| match which {
            Sheets::Today => &image.today,
            Sheets::Last => &image.last,
        };
        match field {
            Field::Format => image.format,
            Field::Edition => image.edition,
            Field::IsOpen => image.is_open,
            Field::Year => image.year,
            Field::Month => image.month,
            Field::Day => image.day,
            Field::Left => image.left,
            Field::Initial(product) => image.limits[product].initial,
            Field::Expanded(product) => image.limits[product].expanded,
            Field::IsExpanded(group) => image.standings[group].expanded,
            Field::IsMarked(group) => image.standings[group].marked,
            Field::WindowCount(product) => image.windows.counts[product],
            Field::WindowSettlement(product, place) => image.windows.settlements[product][place],
            Field::SheetCount(which, product) => sheets(which)[product].count,
            Field::ContractMonth(which, product, place) => {
                sheets(which)[product].contracts[place].month
            }
            Field::ContractSettlement(which, product, place) => {
                sheets(which)[product].contracts[place].settlement
            }
            Field::Renewed(product) => image.renewed[product],
            Field::Event(group, 0) => image.events[group].kind,
            Field::Event(group, 1) => image.events[group].month,
            Field::Event(group, _) => image.events[group].product,
        }
    }

    #[test]
    fn every_word_is_the_field_of_its_name() {
        let image = numbered();
        for word in 0..WORDS {
            assert_eq!(
                named(&image, Field::of(word)),
                word as u32,
                "{:?}",
                Field::of(word)
            );
        }
    }
}
