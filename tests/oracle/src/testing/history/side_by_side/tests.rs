//! What this implementation makes of the pairs, and what they reach.

use std::sync::OnceLock;

use super::*;
use crate::book::edition::EDITIONS;
use crate::book::groups::COUPLED;
use crate::book::{Level, Standing, GROUP_COUNT};
use crate::history::answer::CONVERTED;
use crate::history::replay::answers;
use crate::refusal::Refusal;

/// A pair, and what this implementation answers to its sides.
pub struct Answered {
    pub pair: Pair,
    outputs: [Vec<u8>; 2],
}

/// All pairs of a group, which are drawn and answered once for all tests.
pub fn pairs(group: usize) -> &'static [Answered] {
    static PAIRS: [OnceLock<Vec<Answered>>; GROUP_COUNT] = [const { OnceLock::new() }; GROUP_COUNT];
    PAIRS[group].get_or_init(|| {
        let pairs = (0..PAIRS_A_GROUP).map(|seed| pair(group, seed));
        pairs.map(Answered::new).collect()
    })
}

impl Answered {
    fn new(pair: Pair) -> Answered {
        let outputs = pair.sides.each_ref().map(|side| answers(&side.text));
        Answered { pair, outputs }
    }

    /// The answers to the two sides.
    fn texts(&self) -> [&str; 2] {
        let outputs = self.outputs.each_ref();
        outputs.map(|output| std::str::from_utf8(output).expect("answers are text"))
    }
}

#[test]
fn this_implementation_keeps_groups_apart() {
    for group in 0..GROUP_COUNT {
        for answered in pairs(group) {
            let [first, second] = answered.texts();
            assert_ne!(first, second);
            let outputs = [first, second].map(str::as_bytes);
            assert_eq!(answered.pair.difference(outputs), None);
            assert!(first.contains("refused"), "refused calls are among them");
        }
    }
}

/// In so many pairs of each group a thing is reached, so that no single draw decides whether it is.
const SEVERAL: usize = 3;

/// The first word of an accepted opening.
const OPENED: &str = "opened";

/// Under either edition.
const WANTED: [(Kind, &str); 8] = [
    (Kind::Ended, "quiet"),
    (Kind::Ended, "triggered"),
    (Kind::Ended, "held"),
    (Kind::Ended, "reverted"),
    (Kind::Check, "free"),
    (Kind::Check, "within"),
    (Kind::Check, "below"),
    (Kind::Check, "above"),
];

/// The group's parts of the answers on the first side.
fn parts(answered: &Answered) -> Vec<(Kind, String)> {
    let answers = lines(&answered.outputs[0]);
    let part_of = |probe: &(usize, Kind)| {
        let part = answered.pair.part(&answers, probe);
        (probe.1, part.expect("nothing agreed is refused"))
    };
    let probes = &answered.pair.sides[0].probes;
    probes.iter().map(part_of).collect()
}

/// The kinds of answers that the group got on the first side, without contracts and spans.
fn reached(answered: &Answered) -> Vec<(Kind, String)> {
    let word_of = |(kind, part): (Kind, String)| {
        let word = part.split(':').next().unwrap_or_default();
        (kind, word.to_string())
    };
    parts(answered).into_iter().map(word_of).collect()
}

/// The products that led an event of the group.
fn leads(answered: &Answered) -> Vec<usize> {
    let ended = parts(answered)
        .into_iter()
        .filter(|(kind, _)| *kind == Kind::Ended);
    let lead = |(_, part): (Kind, String)| part.rsplit_once(':')?.1.parse().ok();
    ended.filter_map(lead).collect()
}

#[test]
fn several_pairs_of_each_coupled_group_are_led_by_each_of_its_products() {
    for group in COUPLED {
        let leads: Vec<Vec<usize>> = pairs(group).iter().map(leads).collect();
        for &product in GROUPS[group] {
            let times = leads
                .iter()
                .filter(|leads| leads.contains(&product))
                .count();
            assert!(times >= SEVERAL, "product {product}: {times}");
        }
    }
}

const RAISED: (Kind, &str) = (Kind::Ended, "raised");

fn assert_reached(group: usize, year: u32, wanted: &[(Kind, &str)]) {
    let is_under_it = |answered: &&Answered| {
        let pair = &answered.pair;
        pair.edition == year && pair.converts_after.is_none()
    };
    let pairs = pairs(group).iter().filter(is_under_it).map(reached);
    let pairs: Vec<Vec<(Kind, String)>> = pairs.collect();
    for (kind, word) in wanted {
        let wanted = (*kind, word.to_string());
        let times = pairs.iter().filter(|pair| pair.contains(&wanted)).count();
        assert!(
            times >= SEVERAL,
            "group {group}, {year}: {wanted:?} in {times}"
        );
    }
}

#[test]
fn several_pairs_of_each_group_and_edition_reach_each_event_verdict_and_season() {
    for (group, products) in GROUPS.iter().enumerate() {
        let all_renewed = vec!["1"; products.len()].join(" ");
        let of_both = [&WANTED[..], &[(Kind::Opened, &*all_renewed)]].concat();
        assert_reached(group, 2014, &of_both);
        assert_reached(group, 2023, &[&of_both[..], &[RAISED]].concat());
    }
}

/// The editions of a side's books, each once while it stays.
fn editions(answers: &str) -> Vec<u32> {
    let endings = answers
        .lines()
        .filter_map(|line| line.split_once(" edition="));
    let editions = endings.map(|(_, edition)| edition.parse().expect("an edition is a number"));
    let mut editions: Vec<u32> = editions.collect();
    editions.dedup();
    editions
}

#[test]
fn both_sides_are_under_the_pairs_edition_and_several_are_carried() {
    for group in 0..GROUP_COUNT {
        let mut carried = 0;
        for answered in pairs(group) {
            let pair = &answered.pair;
            let founding = format!("found {} ", pair.edition);
            let [first, second] = answered.texts().map(editions);
            assert!(pair.sides[0].text.starts_with(founding.as_bytes()));
            assert_eq!(first, second);
            match pair.converts_after {
                None => assert_eq!(first, [pair.edition]),
                // A life that reaches the end of the calendar may be too short.
                Some(_) => carried += usize::from(first == EDITIONS),
            }
        }
        assert!(carried >= SEVERAL, "group {group}: {carried}");
    }
}

/// The openings, ends and conversions that a side accepted, in their order.
fn milestones(answers: &str) -> Vec<&str> {
    let words = answers.lines().filter_map(|line| line.split(' ').next());
    let accepted = words.filter(|word| [OPENED, "ended", CONVERTED].contains(word));
    accepted.collect()
}

#[test]
fn both_sides_accept_conversions_at_the_same_places() {
    for group in 0..GROUP_COUNT {
        let mut converted = 0;
        for answered in pairs(group) {
            let [first, second] = answered.texts().map(milestones);
            assert_eq!(first, second);
            let is_under_2023 = answered.pair.edition == 2023;
            converted += usize::from(is_under_2023 && first.contains(&CONVERTED));
        }
        assert!(converted >= SEVERAL, "group {group}: {converted}");
    }
}

#[test]
fn several_pairs_of_each_group_are_raised_after_they_are_carried() {
    let raised = (RAISED.0, RAISED.1.to_string());
    for group in 0..GROUP_COUNT {
        let is_carried = |answered: &&Answered| answered.pair.converts_after.is_some();
        let carried = pairs(group).iter().filter(is_carried);
        let is_raised = |answered: &&Answered| reached(answered).contains(&raised);
        let times = carried.filter(is_raised).count();
        assert!(times >= SEVERAL, "group {group}: {times}");
    }
}

/// The part of a group in each book that a side shows.
fn books(side: &str, group: usize) -> Vec<Option<String>> {
    let books = side.lines().filter(|line| line.starts_with("book "));
    books
        .map(|line| view::part(Kind::Book, group, line))
        .collect()
}

#[test]
fn several_pairs_of_each_group_are_founded_alike_and_differ_in_every_other_group() {
    for group in 0..GROUP_COUNT {
        let is_wanted = |answered: &&Answered| {
            let sides = answered.pair.sides.each_ref();
            let [founding, other] = sides.map(|side| lines(&side.text)[0]);
            let [first, second] = answered.texts();
            let differs = |other| books(first, other) != books(second, other);
            founding == other
                && first.contains(CONVERTED)
                && (0..GROUP_COUNT).all(|other| differs(other) == (other != group))
        };
        let times = pairs(group).iter().filter(is_wanted).count();
        assert!(times >= SEVERAL, "group {group}: {times}");
    }
}

/// An accepted call, and where the groups stood before and after it.
struct Accepted {
    answer: String,
    before: [Standing; GROUP_COUNT],
    after: [Standing; GROUP_COUNT],
}

impl Accepted {
    fn renews(&self, group: usize) -> bool {
        let renewed = view::part(Kind::Opened, group, &self.answer);
        renewed.is_some_and(|renewed| renewed.contains('1'))
    }

    fn brings_back(&self, group: usize) -> bool {
        let levels = [self.before, self.after].map(|standings| standings[group].level);
        levels == [Level::Expanded, Level::Initial]
    }

    fn keeps_expanded(&self, group: usize) -> bool {
        let standings = [self.before, self.after].map(|standings| standings[group]);
        standings[0].level == Level::Expanded && standings[0] == standings[1]
    }
}

/// The calls of a side that were answered with a word.
fn accepted(side: &Side, word: &str) -> Vec<Accepted> {
    let mut book: Option<Book> = None;
    let mut accepted = Vec::new();
    for line in lines(&side.text) {
        let before = book.as_ref().map(|book| book.standings);
        let answer = answer::answer_line(&mut book, line).expect("every line is a call");
        if answer.starts_with(word) {
            accepted.push(Accepted {
                answer,
                before: before.expect("a book was founded"),
                after: book.as_ref().expect("a book was founded").standings,
            });
        }
    }
    accepted
}

/// Whether some call that was answered with a word is wanted as the two sides made it.
fn has_accepted(pair: &Pair, word: &str, is_wanted: impl Fn(&Accepted, &Accepted) -> bool) -> bool {
    let [first, second] = pair.sides.each_ref().map(|side| accepted(side, word));
    assert_eq!(first.len(), second.len(), "the sides agree on {word}");
    let mut both = first.iter().zip(&second);
    both.any(|(first, second)| is_wanted(first, second))
}

fn assert_several(group: usize, word: &str, is_wanted: impl Fn(&Accepted, &Accepted) -> bool) {
    let mut times = 0;
    for answered in pairs(group) {
        times += usize::from(has_accepted(&answered.pair, word, &is_wanted));
    }
    assert!(times >= SEVERAL, "group {group}: {times}");
}

#[test]
fn several_pairs_of_each_group_bring_it_back() {
    for group in 0..GROUP_COUNT {
        assert_several(group, OPENED, |first, second| {
            first.brings_back(group) && second.brings_back(group)
        });
    }
}

#[test]
fn several_pairs_of_each_group_keep_it_expanded_while_one_side_renews_others() {
    for group in 0..GROUP_COUNT {
        let others = || (0..GROUP_COUNT).filter(|&other| other != group);
        let renews_others = |side: &Accepted| others().any(|other| side.renews(other));
        assert_several(group, OPENED, |first, second| {
            let is_kept = first.keeps_expanded(group) && second.keeps_expanded(group);
            is_kept && renews_others(first) != renews_others(second)
        });
    }
}

#[test]
fn several_pairs_of_each_group_are_converted_while_others_stand_apart() {
    for group in 0..GROUP_COUNT {
        assert_several(group, CONVERTED, |first, second| {
            let apart = |other: usize| first.before[other].level != second.before[other].level;
            let is_expanded = first.before[group].level == Level::Expanded;
            is_expanded && !apart(group) && (0..GROUP_COUNT).any(apart)
        });
    }
}

/// In several pairs of each group the one side is refused so more often than the other.
fn assert_refused_on_one_side(refusal: Refusal) {
    let refused = answer::refused(refusal.number());
    let times = |answers: &str| answers.lines().filter(|line| *line == refused).count();
    for group in 0..GROUP_COUNT {
        let is_on_one = |answered: &&Answered| {
            let [first, second] = answered.texts().map(times);
            first != second
        };
        let pairs = pairs(group).iter().filter(is_on_one).count();
        assert!(pairs >= SEVERAL, "group {group}: {pairs}");
    }
}

#[test]
fn several_pairs_of_each_group_have_a_stale_left_on_one_side_alone() {
    assert_refused_on_one_side(Refusal::NotSmaller);
}

#[test]
fn several_pairs_of_each_group_cannot_be_carried_on_one_side_alone() {
    assert_refused_on_one_side(Refusal::Expanded);
}

#[test]
fn a_difference_in_the_group_is_seen() {
    let answered = &pairs(0)[3];
    let [first, second] = answered.texts();
    let other = second.replacen(" level=0", " level=1", 1);
    assert_ne!(second, other);
    let is_seen = |other: &str| {
        let outputs = [first, other].map(str::as_bytes);
        answered.pair.difference(outputs).is_some()
    };
    assert!(!is_seen(second) && is_seen(&other) && is_seen(""));
}

#[test]
fn a_conversion_on_one_side_alone_is_seen() {
    let mut carried = pairs(0).iter();
    let carried = carried.find(|answered| answered.texts()[0].contains("\nconverted\n"));
    let answered = carried.expect("a pair is converted");
    let [first, second] = answered.texts();
    for (told, other) in [
        ("\nconverted\n", "\nrefused 18\n"),
        (" edition=2023", " edition=2014"),
    ] {
        let second = second.replacen(told, other, 1);
        let outputs = [first, &second].map(str::as_bytes);
        assert!(answered.pair.difference(outputs).is_some(), "{told}");
    }
}
