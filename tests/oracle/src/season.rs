//! The season file: 45 dates and settlements of a product, and the line that answers it.

use crate::amounts::{self, SEASON_DAYS};
use crate::dates::Date;
use crate::prices;
use crate::products::{self, Product};
use crate::refusal::Refusal;

const WORD_BYTES: usize = 4;
const HEADER_BYTES: usize = 2 * WORD_BYTES;

/// What the file says, in 32-bit little-endian words.
struct SeasonFile {
    product: u32,
    dates: Vec<u32>,
    settlements: Vec<u32>,
}

/// The line for a season file, newline included.
pub fn answer(file: &[u8]) -> String {
    match limits(file) {
        Ok((product, initial, expanded)) => format!("{product} {initial} {expanded}\n"),
        Err(refusal) => format!("refused {}\n", refusal.number()),
    }
}

/// Product, I and E, or the first refusal in the order 6, 5, 3, 8.
fn limits(file: &[u8]) -> Result<(u32, u32, u32), Refusal> {
    let season = take_apart(file).ok_or(Refusal::Shape)?;
    let product = products::product(season.product).ok_or(Refusal::Product)?;
    if !are_ascending_dates(&season.dates) {
        return Err(Refusal::Date);
    }
    if !are_settlements(product, &season.settlements) {
        return Err(Refusal::Price);
    }
    let sum = season
        .settlements
        .iter()
        .map(|&settlement| u64::from(settlement))
        .sum();
    let initial = amounts::season_limit(product, sum);
    Ok((season.product, initial, amounts::expanded(product, initial)))
}

/// None where the file is not the two header words, 45 dates and 45 settlements.
fn take_apart(file: &[u8]) -> Option<SeasonFile> {
    if file.len() < HEADER_BYTES {
        return None;
    }
    let (header, entries) = file.split_at(HEADER_BYTES);
    let header = words(header);
    let (product, count) = (header[0], header[1]);
    // In 64 bits: 8 × count can pass 32 of them.
    if entries.len() as u64 != 8 * u64::from(count) || count != SEASON_DAYS {
        return None;
    }
    let (dates, settlements) = entries.split_at(entries.len() / 2);
    Some(SeasonFile {
        product,
        dates: words(dates),
        settlements: words(settlements),
    })
}

fn words(bytes: &[u8]) -> Vec<u32> {
    let word = |four: &[u8]| u32::from_le_bytes([four[0], four[1], four[2], four[3]]);
    bytes.chunks_exact(WORD_BYTES).map(word).collect()
}

fn are_ascending_dates(words: &[u32]) -> bool {
    let dates: Option<Vec<Date>> = words.iter().map(|&word| Date::from_word(word)).collect();
    dates.is_some_and(|dates| dates.windows(2).all(|pair| pair[0] < pair[1]))
}

/// Settlements are on the standard tick.
fn are_settlements(product: &Product, settlements: &[u32]) -> bool {
    settlements
        .iter()
        .all(|&settlement| prices::is_price(settlement, product.standard_tick))
}

#[cfg(test)]
mod tests {
    use super::*;

    /// A Corn file of 45 days from 1 March 2024 with settlements of 6,000.
    fn corn() -> Vec<u32> {
        let first = Date::from_word(20240301);
        let dates = std::iter::successors(first, |day| day.next())
            .take(45)
            .map(Date::word);
        let mut file = vec![0, 45];
        file.extend(dates);
        file.extend([6_000; 45]);
        file
    }

    fn answer_to(words: &[u32]) -> String {
        let bytes: Vec<u8> = words.iter().flat_map(|word| word.to_le_bytes()).collect();
        answer(&bytes)
    }

    /// The answer to the Corn file with one word changed.
    fn answer_with(place: usize, word: u32) -> String {
        let mut file = corn();
        file[place] = word;
        answer_to(&file)
    }

    #[test]
    fn corn_at_6000() {
        assert_eq!(answer_to(&corn()), "0 440 680\n");
    }

    #[test]
    fn shapes() {
        assert_eq!(answer(&[]), "refused 6\n");
        assert_eq!(answer(&[0; 7]), "refused 6\n");
        assert_eq!(answer_to(&[0, 45]), "refused 6\n");
        assert_eq!(answer_with(1, 44), "refused 6\n");
        assert_eq!(answer_with(1, (1 << 29) + 45), "refused 6\n");
        assert_eq!(answer_to(&[0, 0]), "refused 6\n");
    }

    #[test]
    fn products_dates_and_settlements() {
        assert_eq!(answer_with(0, 8), "refused 5\n");
        assert_eq!(answer_with(2, 20240230), "refused 3\n");
        assert_eq!(answer_with(3, 20240301), "refused 3\n");
        assert_eq!(answer_with(47, 6_001), "refused 8\n");
        assert_eq!(answer_with(91, 0), "refused 8\n");
    }
}
