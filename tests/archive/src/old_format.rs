//! Images of the old formats: every call but a founding refuses them with 1 and leaves every byte.

use oracle::history::call::{Call, FoundCall};
use oracle::image::{Image, WORDS};
use oracle::testing::old_image::{OldFormat, OLD_FORMATS};
use oracle::testing::random::Random;
use oracle::testing::score::Score;

use crate::archive::{self, Archive};
use crate::bases::Base;
use crate::compare::{Compared, Comparer};
use crate::draw;
use crate::memory::{image_in, Edge};
use crate::reached::UNSOUND;

const SEED: u64 = 20_260_105;

/// For each base, calls are drawn so often; many of them it would accept.
const TURNS: usize = 100;

type Failures = Vec<Option<String>>;

pub fn compare(comparer: &mut Comparer, bases: &[Base], score: &mut Score) {
    for format in &OLD_FORMATS {
        let mut random = Random::new(SEED);
        let mut old = OldImage::new(format);
        let (mut renumbered, mut laid_out) = (Failures::new(), Failures::new());
        for base in bases {
            for _ in 0..TURNS {
                let image = Image {
                    format: format.number,
                    ..base.image
                };
                renumbered.extend(calls_on(comparer, &mut random, base, &image));
                laid_out.extend(old.calls(&mut random, base));
            }
        }
        let number = format.number;
        score.all(
            &format!("calls on images with the number of format {number}"),
            &renumbered,
        );
        score.all(&format!("calls on images of format {number}"), &laid_out);
    }
}

/// Where a call returned something else than 1.
fn not_refused(number: u32) -> Option<String> {
    (number != UNSOUND).then(|| format!("returns {number}"))
}

fn named(base: &Base, call: &str, failure: Option<String>) -> Option<String> {
    Some(format!("{call} on {}: {}", base.name, failure?))
}

/// Calls that the base would often accept, on an image that every call but a founding refuses.
fn calls_on(comparer: &mut Comparer, random: &mut Random, base: &Base, image: &Image) -> Failures {
    let refused = |compared: Compared| compared.difference.or(not_refused(compared.number));
    let change = |call: Call| {
        let (compared, _) = comparer.change(image, &call);
        let failure = match call {
            Call::Found(_) => compared.difference,
            _ => refused(compared),
        };
        named(base, &format!("{call:?}"), failure)
    };
    let changes = draw::changes(random, &base.book);
    let mut failures: Failures = changes.into_iter().map(change).collect();
    let order = draw::order(random, &base.book);
    let (checked, _) = comparer.check(image, order);
    let mut tally = draw::sound_tally(random);
    let tallied = comparer.tallied(&mut tally, image, order);
    let checks = [("check", checked), ("tallied check", tallied)];
    failures.extend(checks.map(|(call, compared)| named(base, call, refused(compared))));
    failures
}

/// Where the image of an old program lies, at the end of its memory.
struct OldImage<'a> {
    format: &'a OldFormat,
    archive: Archive,
    edge: Edge,
}

impl OldImage<'_> {
    fn new(format: &OldFormat) -> OldImage<'_> {
        OldImage {
            format,
            archive: Archive::new(),
            edge: Edge::new(format.words.max(WORDS)),
        }
    }

    fn calls(&mut self, random: &mut Random, base: &Base) -> Failures {
        let words = self.format.lay_out(&base.image);
        let change = |call: Call| {
            let failure = match call {
                Call::Found(founding) => self.found(&words, founding),
                _ => self.refused(&words, |archive, image| archive.call(image, &call)),
            };
            named(base, &format!("{call:?}"), failure)
        };
        let changes = draw::changes(random, &base.book);
        let mut failures: Failures = changes.into_iter().map(change).collect();
        let order = draw::order(random, &base.book);
        let mut tally = draw::sound_tally(random);
        let checks = [
            self.refused(&words, |_, image| archive::checks(image, order).0),
            self.refused(&words, |_, image| archive::checks(image, order).1.answer),
            self.refused(&words, |_, image| {
                archive::tallied_check(&mut tally, image, order)
            }),
        ];
        failures.extend(checks.map(|failure| named(base, "a check", failure)));
        failures
    }

    /// The number that a call on the words returns, and the words after it.
    fn after(
        &mut self,
        words: &[u32],
        call: impl FnOnce(&mut Archive, &mut Image) -> u32,
    ) -> (u32, Vec<u32>) {
        let lent = self.edge.last(words);
        let number = call(&mut self.archive, image_in(&mut lent[..WORDS]));
        (number, lent.to_vec())
    }

    fn refused(
        &mut self,
        words: &[u32],
        call: impl FnOnce(&mut Archive, &mut Image) -> u32,
    ) -> Option<String> {
        let (number, after) = self.after(words, call);
        let changed = (after != words).then(|| "words have changed".to_string());
        not_refused(number).or(changed)
    }

    /// An accepted founding writes today's image and nothing behind it; a refused one writes nothing.
    fn found(&mut self, words: &[u32], founding: FoundCall) -> Option<String> {
        let call = Call::Found(founding);
        let after = self.after(words, |archive, image| archive.call(image, &call));
        let mut expected = words.to_vec();
        let image = image_in(&mut expected[..WORDS]);
        let number = image.found(founding.edition, founding.limits);
        (after != (number, expected)).then(|| format!("not {number}, or other words"))
    }
}
