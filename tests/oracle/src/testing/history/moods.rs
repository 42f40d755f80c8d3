//! Moods of a day that bring a group to each of its events.

use super::pace::Phase;
use super::plots::{self, Plot};
use crate::book::edition::Edition;
use crate::book::Level;
use crate::testing::random::Random;

/// How far contracts move that the mood does not single out.
#[derive(Clone, Copy)]
pub enum Background {
    Still,
    Small,
    /// Up to today's limit.
    Full,
}

/// Which contract the mood singles out.
#[derive(Clone, Copy, PartialEq)]
pub enum Which {
    Any,
    InFirst,
    PastFirst,
    LastOfFirst,
    NextPastFirst,
    /// Among the first N, of the last crop-year month.
    CropMonth,
    /// Among the first N, of another month.
    OtherMonth,
    CropMonthPastFirst,
}

/// By how much the singled-out contract moves.
#[derive(Clone, Copy)]
pub enum Size {
    Initial,
    Expanded,
    BelowInitial,
    BelowExpanded,
    Between,
    /// By today's limit of another product of the group, if that is lower.
    OfAnother,
}

/// What the mood singles out.
#[derive(Clone, Copy)]
pub enum Feature {
    Nothing,
    /// One to four contracts of the group.
    Scattered(Which, Size),
    /// Contracts of each product.
    Plotted(Plot),
}

pub type Mood = (Background, Feature);

const fn scattered(background: Background, which: Which, size: Size) -> Mood {
    (background, Feature::Scattered(which, size))
}

/// Contracts hardly move.
pub const CALM: Mood = (Background::Small, Feature::Nothing);

const BY_I: Mood = scattered(Background::Small, Which::InFirst, Size::Initial);
const HELD: Mood = scattered(Background::Small, Which::Any, Size::Initial);
const BY_E: Mood = scattered(Background::Small, Which::Any, Size::Expanded);

const AT_INITIAL: [Mood; 11] = [
    CALM,
    CALM,
    (Background::Still, Feature::Nothing),
    (Background::Full, Feature::Nothing),
    BY_I,
    scattered(Background::Still, Which::InFirst, Size::Initial),
    scattered(Background::Full, Which::InFirst, Size::Initial),
    scattered(Background::Small, Which::PastFirst, Size::Initial),
    scattered(Background::Still, Which::PastFirst, Size::Initial),
    scattered(Background::Small, Which::Any, Size::BelowInitial),
    scattered(Background::Small, Which::InFirst, Size::OfAnother),
];

const AT_EXPANDED: [Mood; 13] = [
    BY_E,
    scattered(Background::Still, Which::Any, Size::Expanded),
    scattered(Background::Small, Which::PastFirst, Size::Expanded),
    scattered(Background::Full, Which::Any, Size::Expanded),
    BY_E,
    HELD,
    scattered(Background::Small, Which::Any, Size::BelowExpanded),
    scattered(Background::Small, Which::PastFirst, Size::Between),
    scattered(Background::Small, Which::Any, Size::Between),
    scattered(Background::Small, Which::Any, Size::BelowInitial),
    scattered(Background::Small, Which::Any, Size::OfAnother),
    (Background::Still, Feature::Nothing),
    (Background::Full, Feature::Nothing),
];

/// A mood that a level can have.
pub fn any(random: &mut Random, edition: Edition, level: Level) -> Mood {
    match (edition, level) {
        (Edition::Of2014, Level::Initial) => plotted(random),
        (Edition::Of2023, Level::Initial) => random.pick(&AT_INITIAL),
        (_, Level::Expanded) => random.pick(&AT_EXPANDED),
    }
}

/// Under the edition of 2014 it matters which contracts of one product move together.
fn plotted(random: &mut Random) -> Mood {
    let background = random.pick(&[Background::Still, Background::Small, Background::Small]);
    match random.below(8) {
        0 => CALM,
        1 => (Background::Full, Feature::Nothing),
        _ => (background, Feature::Plotted(random.pick(&plots::ALL))),
    }
}

/// The mood that leads from a level to wider limits, or keeps them wide where nothing is raised.
pub fn on(random: &mut Random, edition: Edition, level: Level) -> Mood {
    match (edition, level) {
        (Edition::Of2014, Level::Initial) => {
            let plot = random.pick(&plots::TRIGGERS);
            (Background::Small, Feature::Plotted(plot))
        }
        (Edition::Of2023, Level::Initial) => BY_I,
        (_, Level::Expanded) => BY_E,
    }
}

/// Expanded, marked or not, into another season, and there on; to the initial level before a conversion.
pub fn led(random: &mut Random, phase: Phase, edition: Edition, level: Level) -> Option<Mood> {
    let held = match edition {
        Edition::Of2014 => BY_E,
        Edition::Of2023 => HELD,
    };
    match (phase, level) {
        (Phase::Middle, _) => None,
        (Phase::Calm, _) => Some(CALM),
        (Phase::Closing, Level::Expanded) => Some(held),
        (Phase::Last, Level::Expanded) => Some(random.pick(&[held, BY_E])),
        _ => Some(on(random, edition, level)),
    }
}
