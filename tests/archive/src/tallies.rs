//! The check through a tally, for tallies of every kind on books of every kind.

use oracle::tally::Tally;
use oracle::testing::random::Random;
use oracle::testing::score::Score;

use crate::bases::{self, Base};
use crate::compare::Comparer;
use crate::draw::{order, sound_tally, tally_of};
use crate::fields::LIMITS;
use crate::reached::{Range, Reached, CHECK, UNSOUND};
use crate::values::wrong_values;

const SEED: u64 = 20_240_627;

/// Of each kind.
const TALLIES: usize = 20_000;

/// Each answer that a kind can give has to be reached so often.
const LEAST: u64 = 100;

const FULL: u32 = 15;

/// What tallies are, how one is drawn, and what the first and the second check through it can give.
struct Kind {
    name: &'static str,
    draw: fn(&mut Random) -> Tally,
    ranges: [Range; 2],
}

const FIRST: &str = "first check";
const SECOND: &str = "second check";

const KINDS: [Kind; 5] = [
    Kind {
        name: "sound tallies",
        draw: sound_tally,
        ranges: [(FIRST, CHECK), (SECOND, CHECK)],
    },
    Kind {
        name: "damaged tallies",
        draw: damaged,
        ranges: [(FIRST, &[UNSOUND]), (SECOND, &[UNSOUND])],
    },
    Kind {
        name: "full tallies",
        draw: |random| summing_to(random, u32::MAX),
        ranges: [(FIRST, &[FULL]), (SECOND, &[FULL])],
    },
    Kind {
        name: "full and damaged tallies",
        draw: full_and_damaged,
        ranges: [(FIRST, &[UNSOUND]), (SECOND, &[UNSOUND])],
    },
    Kind {
        name: "tallies one below full",
        draw: |random| summing_to(random, u32::MAX - 1),
        ranges: [(FIRST, CHECK), (SECOND, &[FULL])],
    },
];

pub fn compare(comparer: &mut Comparer, bases: &[Base], score: &mut Score) {
    for kind in KINDS {
        let mut random = Random::new(SEED);
        let mut reached = Reached::default();
        let checks = (0..TALLIES).flat_map(|_| {
            let tally = (kind.draw)(&mut random);
            checks(comparer, &mut random, bases, tally, &mut reached)
        });
        let failures: Vec<Option<String>> = checks.collect();
        score.all(&format!("checks through {}", kind.name), &failures);
        let wrong = unlikely(&kind, &reached);
        score.one(&format!("{} give their answers", kind.name), wrong);
    }
}

/// Two checks through a tally, each on a book of its own, one time in six an unsound one.
fn checks(
    comparer: &mut Comparer,
    random: &mut Random,
    bases: &[Base],
    mut tally: Tally,
    reached: &mut Reached,
) -> [Option<String>; 2] {
    [FIRST, SECOND].map(|which| {
        let base = bases::draw(random, bases);
        let mut image = base.image;
        if random.one_in(6) {
            let word = random.below(LIMITS);
            image.words_mut()[word] = random.pick(&wrong_values(&base.image, word));
        }
        let order = order(random, &base.book);
        let before = tally;
        let compared = comparer.tallied(&mut tally, &image, order);
        reached.count(which, compared.number);
        let difference = compared.difference?;
        Some(format!(
            "{order:?} on {} by {before:?}: {difference}",
            base.name
        ))
    })
}

/// Answers that are too rare, or that no tally of the kind can give.
fn unlikely(kind: &Kind, reached: &Reached) -> Option<String> {
    let rare = reached.judge(&kind.ranges, |_, times| times >= LEAST);
    let numbers = kind
        .ranges
        .iter()
        .flat_map(|(which, numbers)| numbers.iter().map(|&number| (*which, number)));
    let possible: u64 = numbers
        .map(|(which, number)| reached.times(which, number))
        .sum();
    let others = 2 * TALLIES as u64 - possible;
    rare.or((others > 0).then(|| format!("{others} other answers")))
}

/// One count too large or too small, or counts that add up in 32 bits alone.
fn damaged(random: &mut Random) -> Tally {
    let mut tally = sound_tally(random);
    let by = random.pick(&[1, u32::MAX, 1 << 31]);
    match random.below(7) {
        0 => tally.asked = tally.asked.wrapping_add(by),
        1 => tally.free = tally.free.wrapping_add(by),
        2 => tally.within = tally.within.wrapping_add(by),
        3 => tally.below = tally.below.wrapping_add(by),
        4 => tally.above = tally.above.wrapping_add(by),
        5 => tally.refused = tally.refused.wrapping_add(by),
        _ => tally = tally_of([u32::MAX, random.word() | 1, 0, random.word(), 0]),
    }
    tally
}

/// Asked as often as can be, but counted otherwise.
fn full_and_damaged(random: &mut Random) -> Tally {
    let mut tally = summing_to(random, u32::MAX);
    let by = random.pick(&[1, 2, u32::MAX]);
    match random.one_in(2) {
        true => tally.free = tally.free.wrapping_add(by),
        false => tally.refused = tally.refused.wrapping_add(by),
    }
    tally
}

/// A sound tally that was asked so often.
fn summing_to(random: &mut Random, asked: u32) -> Tally {
    let mut counts = [(); 5].map(|()| random.between(0, 800_000_000));
    let rest = random.below(5);
    counts[rest] = 0;
    counts[rest] = asked - counts.iter().sum::<u32>();
    if random.one_in(3) {
        counts = [0; 5];
        counts[rest] = asked;
    }
    tally_of(counts)
}
