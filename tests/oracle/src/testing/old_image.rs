//! Images of the formats before today's, which had no edition.

use crate::image::{Image, SheetWords, WORDS};

pub struct OldFormat {
    pub number: u32,
    /// How many words its images had.
    pub words: usize,
    /// Its groups, each by the one that its products are in now.
    groups: &'static [usize],
}

/// In format 1 each wheat had a level, a mark and an event of its own.
pub const OLD_FORMATS: [OldFormat; 2] = [
    OldFormat {
        number: 1,
        words: 956,
        groups: &[0, 1, 2, 2, 3, 4],
    },
    OldFormat {
        number: 2,
        words: 951,
        groups: &[0, 1, 2, 3, 4],
    },
];

impl OldFormat {
    /// What an image holds, laid out word by word as the format had it. Zeros fill it up to today's length.
    pub fn lay_out(&self, image: &Image) -> Vec<u32> {
        let mut words = vec![self.number, image.is_open];
        words.extend([image.year, image.month, image.day, image.left]);
        for limit in image.limits {
            words.extend([limit.initial, limit.expanded]);
        }
        for standing in self.groups.iter().map(|&group| image.standings[group]) {
            words.extend([standing.expanded, standing.marked]);
        }
        words.extend(image.windows.counts);
        words.extend(image.windows.settlements.as_flattened());
        for sheet in image.today.iter().chain(&image.last) {
            push_sheet(&mut words, sheet);
        }
        words.extend(image.renewed);
        for event in self.groups.iter().map(|&group| image.events[group]) {
            words.extend([event.kind, event.month, event.product]);
        }
        assert_eq!(words.len(), self.words, "format {}", self.number);
        words.resize(self.words.max(WORDS), 0);
        words
    }
}

fn push_sheet(words: &mut Vec<u32>, sheet: &SheetWords) {
    words.push(sheet.count);
    for contract in sheet.contracts {
        words.extend([contract.month, contract.settlement]);
    }
}

#[cfg(test)]
mod tests {
    use super::*;

    /// An image in which each word is its own number, so that a word of an old format tells which it is now.
    fn numbered(format: &OldFormat) -> Vec<u32> {
        format.lay_out(&Image::from_words(std::array::from_fn(|word| word as u32)))
    }

    /// Whether the words of a stretch stood so many places after where they stand now.
    fn is_moved_by(old: &[u32], from: usize, to: usize, by: i64) -> bool {
        (from..to).all(|word| i64::from(old[word]) + by == word as i64)
    }

    #[test]
    fn fields_lie_where_format_1_had_them() {
        let old = numbered(&OLD_FORMATS[0]);
        assert_eq!((old[0], old.len(), WORDS), (1, 956, 952));
        assert!(
            is_moved_by(&old, 1, 28, -1),
            "up to Chicago Wheat's standing"
        );
        assert_eq!(old[28..30], [27, 28], "KC Wheat's is the wheats' too");
        assert!(is_moved_by(&old, 30, 947, 1), "up to Chicago Wheat's event");
        let kc = &old[947..950];
        assert_eq!(kc, [943, 944, 945], "KC Wheat's is the wheats' too");
        assert!(
            is_moved_by(&old, 950, 956, 4),
            "Oats' and Rough Rice's events"
        );
    }

    #[test]
    fn fields_lie_where_format_2_had_them() {
        let old = numbered(&OLD_FORMATS[1]);
        assert_eq!((old[0], old.len()), (2, WORDS));
        assert!(is_moved_by(&old, 1, 951, -1), "there was no edition");
        assert_eq!(old[951], 0);
    }
}
