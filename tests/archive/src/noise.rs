//! Images of random bytes: through and through, or in a part of a good one.

use oracle::book::edition::EDITIONS;
use oracle::book::Book;
use oracle::image::{Image, Words, FORMAT, WORDS};
use oracle::testing::random::Random;

use crate::bases::{self, Base};
use crate::fields::{Field, PARTS};

/// The image, and the book of the base that it is made of, or of any.
pub fn image(random: &mut Random, bases: &[Base]) -> (Image, Book) {
    let base = bases::draw(random, bases);
    let other = bases::draw(random, bases);
    let words = match random.below(8) {
        0 => random_words(random),
        1 => with_format(random_words(random)),
        2 => with_flags(random),
        3 => plausible_words(random),
        4 => one_pattern(random),
        5 => spliced(random, &base.image, &other.image),
        6 => stretch(random, &base.image),
        _ => few_bytes(random, &base.image),
    };
    (Image::from_words(words), base.book.clone())
}

fn random_words(random: &mut Random) -> Words {
    std::array::from_fn(|_| random.word())
}

fn with_format(mut words: Words) -> Words {
    words[0] = FORMAT;
    words
}

/// Random but for the format and the flags, so that it holds a book.
fn with_flags(random: &mut Random) -> Words {
    let mut words = with_format(random_words(random));
    for (word, value) in words.iter_mut().enumerate() {
        if let Field::IsOpen | Field::IsExpanded(_) | Field::IsMarked(_) = Field::of(word) {
            *value = random.below(2) as u32;
        }
    }
    words
}

/// Each word a likely one of its field, whatever the others are.
fn plausible_words(random: &mut Random) -> Words {
    std::array::from_fn(|word| match Field::of(word) {
        Field::Format => FORMAT,
        Field::Edition => random.pick(&EDITIONS),
        Field::IsOpen | Field::IsExpanded(_) | Field::Renewed(_) => random.below(2) as u32,
        Field::IsMarked(_) => 0,
        Field::Year => random.between(2000, 2098),
        Field::Month => random.between(1, 12),
        Field::Day => random.between(1, 28),
        Field::Left => random.between(0, 3),
        Field::Initial(_) => 200 * random.between(2, 5),
        Field::Expanded(_) => 300 * random.between(2, 5),
        Field::WindowCount(_) => random.between(0, 45),
        Field::WindowSettlement(..) => 2 * random.between(1, 500_000),
        Field::SheetCount(..) => random.between(0, 16),
        Field::ContractMonth(_, _, place) => 24_294 + 12 * place as u32,
        Field::ContractSettlement(..) => 2 * random.between(1, 500_000),
        Field::Event(..) => random.between(0, 4),
    })
}

/// One byte or one word, all over.
fn one_pattern(random: &mut Random) -> Words {
    let byte = random.word() & 0xFF;
    let drawn = random.word();
    let pattern = random.pick(&[0, 1, 2, byte * 0x0101_0101, drawn, u32::MAX]);
    [pattern; WORDS]
}

/// The first words of one image and the rest of another, mostly cut between two parts.
fn spliced(random: &mut Random, first: &Image, second: &Image) -> Words {
    let anywhere = random.below(WORDS);
    let between_parts = random.pick(&PARTS);
    let cut = random.pick(&[between_parts, between_parts, anywhere]);
    let mut words = *first.words();
    words[cut..].copy_from_slice(&second.words()[cut..]);
    words
}

/// A good image in which a stretch of bytes is random.
fn stretch(random: &mut Random, image: &Image) -> Words {
    let from = random.below(4 * WORDS);
    let most = (4 * WORDS - from).min(400);
    let length = 1 + random.below(most);
    with_bytes(image, |bytes| {
        bytes[from..from + length].fill_with(|| random.bits() as u8);
    })
}

/// A good image in which one to four bytes are random.
fn few_bytes(random: &mut Random, image: &Image) -> Words {
    with_bytes(image, |bytes| {
        for _ in 0..random.between(1, 4) {
            bytes[random.below(4 * WORDS)] = random.bits() as u8;
        }
    })
}

/// The words of an image whose bytes were changed.
fn with_bytes(image: &Image, change: impl FnOnce(&mut [u8])) -> Words {
    let mut bytes: Vec<u8> = bytes_of(image);
    change(&mut bytes);
    words_of(&bytes)
}

/// An image as a program would write it to a file.
pub fn bytes_of(image: &Image) -> Vec<u8> {
    let bytes = image.words().map(u32::to_ne_bytes);
    bytes.as_flattened().to_vec()
}

/// Words as a program would read them from a file.
pub fn words_of(bytes: &[u8]) -> Words {
    let mut words = bytes.chunks_exact(4).map(|word| {
        let word = word.try_into().expect("a word has four bytes");
        u32::from_ne_bytes(word)
    });
    std::array::from_fn(|_| words.next().expect("the bytes are an image's"))
}
