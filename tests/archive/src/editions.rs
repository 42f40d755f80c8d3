//! Images of each edition and of none, without a mark and with one on each group.

use oracle::book::edition::EDITIONS;
use oracle::book::GROUP_COUNT;
use oracle::history::call::Call;
use oracle::image::calls::ACCEPTED;
use oracle::image::{Image, StandingWords};
use oracle::testing::history::stray::FALSE_EDITIONS;
use oracle::testing::random::Random;
use oracle::testing::score::Score;

use crate::bases::Base;
use crate::compare::{Compared, Comparer};
use crate::draw;
use crate::reached::{Reached, EVENTS, UNSOUND};

const SEED: u64 = 20_142_023;

const MARKED: StandingWords = StandingWords {
    expanded: 1,
    marked: 1,
};

pub fn compare(comparer: &mut Comparer, bases: &[Base], score: &mut Score) {
    let mut random = Random::new(SEED);
    let mut reached = Reached::default();
    let mut failures = Vec::new();
    for base in bases {
        for edition in EDITIONS.into_iter().chain(FALSE_EDITIONS) {
            for marked in [None].into_iter().chain((0..GROUP_COUNT).map(Some)) {
                let image = changed(&base.image, edition, marked);
                let is_sound = edition == 2023 || edition == 2014 && marked.is_none();
                let calls = calls(comparer, &mut random, base, &image, is_sound, &mut reached);
                let named = |failure| format!("{edition}, marked {marked:?}, {failure}");
                failures.extend(calls.into_iter().map(|failure| failure.map(named)));
            }
        }
    }
    score.all("calls on images of each edition and of none", &failures);
    let rare = reached.judge(&EVENTS, |_, times| times > 0);
    score.one("images reach every event under the edition in them", rare);
}

/// The image with another edition, and marked in this group alone.
fn changed(image: &Image, edition: u32, marked: Option<usize>) -> Image {
    let mut image = *image;
    image.edition = edition;
    (image.standings.iter_mut()).for_each(|standing| standing.marked = 0);
    if let Some(group) = marked {
        image.standings[group] = MARKED;
    }
    image
}

/// Every call that may change an image, and a check.
fn calls(
    comparer: &mut Comparer,
    random: &mut Random,
    base: &Base,
    image: &Image,
    is_sound: bool,
    reached: &mut Reached,
) -> Vec<Option<String>> {
    let named = |call: String, failure: Option<String>| {
        let failure = failure?;
        Some(format!("{call} on {}: {failure}", base.name))
    };
    let order = draw::order(random, &base.book);
    let (checked, _) = comparer.check(image, order);
    let mut failures = vec![named(
        format!("check {order:?}"),
        failure(checked, is_sound),
    )];
    for call in draw::changes(random, &base.book) {
        let (compared, after) = comparer.change(image, &call);
        if call == Call::End && compared.number == ACCEPTED {
            reached.count_events(&after);
        }
        let failure = match call {
            Call::Found(_) => compared.difference,
            _ => failure(compared, is_sound),
        };
        failures.push(named(format!("{call:?}"), failure));
    }
    failures
}

/// A call that looks at the book is refused with 1 where the image is unsound, and nowhere else.
fn failure(compared: Compared, is_sound: bool) -> Option<String> {
    let is_right = (compared.number == UNSOUND) != is_sound;
    let wrong = (!is_right).then(|| format!("returns {}", compared.number));
    compared.difference.or(wrong)
}
