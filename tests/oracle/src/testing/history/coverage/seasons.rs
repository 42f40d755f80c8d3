//! What changes of season reached: new limits, the groups that they brought back, and the groups that were kept.

use super::coupled::{coupled_products, name};
use super::{Coverage, Seen};
use crate::book::groups::{group_of, COUPLED};
use crate::book::window::LARGEST_WINDOW;
use crate::book::{Book, Level, Standing, GROUPS, GROUP_COUNT, PRODUCT_COUNT};
use crate::dates::Date;
use crate::products::PRODUCTS;

const WANTED: [&str; 14] = [
    "season: next, in May",
    "season: next, in November",
    "season: next, with 1 to 44 in a window",
    "season: next, with an empty window",
    "season: next, some products renewed and some not",
    "season: next, limits changed",
    "season: next, limits equal",
    "season: next, limit at the floor",
    "season: skipped, with a full window",
    "season: change empties a window",
    "season: new limits at the initial level",
    "season: brought back by equal limits alone",
    "season: one group brought back, another kept expanded",
    "season: one group brought back, another kept marked",
];

/// The standings that a change of season can bring back or keep.
const CAME: [&str; 3] = ["expanded", "marked", "2014's expanded"];

/// Why a group got no new limits.
const KEPT: [&str; 4] = [
    "next, 44 in a window",
    "next, 1 to 43 in a window",
    "next, windows empty",
    "skipped, a window full",
];

/// What an opening made of a group.
#[derive(Clone, Copy, Debug, Default, PartialEq, Eq)]
pub enum Turn {
    /// Nothing that has to be reached.
    #[default]
    Nothing,
    /// Expanded before, and brought back by new limits.
    BroughtBack,
    /// Kept expanded in the next season, which gave none of its products new limits.
    KeptNext,
    /// Kept expanded over a skipped season, although a window of its own was full.
    KeptSkipped,
}

pub fn wanted() -> Vec<String> {
    let fixed = WANTED.iter().map(|what| what.to_string());
    let renewed = (0..PRODUCT_COUNT).map(renewed_key);
    let alone = coupled_products().flat_map(|product| CAME.map(|came| alone_key(product, came)));
    let together = COUPLED.iter().flat_map(|&group| {
        let counts = 2..=GROUPS[group].len();
        counts.map(move |count| together_key(group, count))
    });
    let back = (0..GROUP_COUNT).flat_map(|group| CAME.map(|came| back_key(group, came)));
    let kept = CAME
        .iter()
        .flat_map(|came| KEPT.map(|why| kept_key(came, why)));
    fixed
        .chain(renewed)
        .chain(alone)
        .chain(together)
        .chain(back)
        .chain(kept)
        .collect()
}

fn renewed_key(product: usize) -> String {
    format!("season: product {product} renewed")
}

fn alone_key(product: usize, came: &str) -> String {
    let group = name(group_of(product));
    format!("season: {came} {group} brought back by product {product} alone")
}

fn together_key(group: usize, count: usize) -> String {
    format!("season: {} brought back by {count} products", name(group))
}

fn back_key(group: usize, came: &str) -> String {
    format!("season: {came} group {group} brought back")
}

fn kept_key(came: &str, why: &str) -> String {
    format!("season: {came} group kept, {why}")
}

/// Takes note of an opening so many seasons after the last; one at least.
pub fn observe(coverage: &mut Coverage, seen: &Seen, seasons: u32, date: Date) {
    let emptied = seen.before.windows.iter().any(|window| !window.is_empty());
    coverage.count_if(emptied, "season: change empties a window");
    match seasons {
        1 => observe_next(coverage, seen, date),
        _ => {
            let is_full = (0..PRODUCT_COUNT).any(|product| is_full(seen.before, product));
            coverage.count_if(is_full, "season: skipped, with a full window");
        }
    }
    for group in 0..GROUP_COUNT {
        coverage.turns[group] = observe_group(coverage, seen, group, seasons);
    }
    observe_together(coverage, seen.after);
}

fn is_full(book: &Book, product: usize) -> bool {
    book.windows[product].len() == LARGEST_WINDOW
}

fn observe_next(coverage: &mut Coverage, seen: &Seen, date: Date) {
    let is_summer = (5..=10).contains(&date.month());
    coverage.renewed = std::array::from_fn(|product| is_full(seen.before, product));
    let renewed = coverage.renewed.iter().filter(|&&renewed| renewed).count();
    if renewed > 0 {
        coverage.count(match is_summer {
            true => "season: next, in May",
            false => "season: next, in November",
        });
    }
    let is_mixed = renewed > 0 && renewed < PRODUCT_COUNT;
    coverage.count_if(is_mixed, "season: next, some products renewed and some not");
    for product in 0..PRODUCT_COUNT {
        match seen.before.windows[product].len() {
            0 => coverage.count("season: next, with an empty window"),
            LARGEST_WINDOW => observe_renewed(coverage, seen, product),
            _ => coverage.count("season: next, with 1 to 44 in a window"),
        }
    }
}

fn observe_renewed(coverage: &mut Coverage, seen: &Seen, product: usize) {
    coverage.count(renewed_key(product));
    let limits = seen.after.limits[product];
    let floor = PRODUCTS[product].floor;
    coverage.count_if(limits.initial == floor, "season: next, limit at the floor");
    coverage.count(match limits == seen.before.limits[product] {
        true => "season: next, limits equal",
        false => "season: next, limits changed",
    });
}

fn observe_group(coverage: &mut Coverage, seen: &Seen, group: usize, seasons: u32) -> Turn {
    let products = GROUPS[group].iter().copied();
    let full: Vec<usize> = products.filter(|&one| is_full(seen.before, one)).collect();
    let is_renewed = seasons == 1 && !full.is_empty();
    let Some(came) = came(seen.before, group) else {
        coverage.count_if(is_renewed, "season: new limits at the initial level");
        return Turn::Nothing;
    };
    if is_renewed {
        coverage.count(back_key(group, came));
        observe_back(coverage, seen, group, came, &full);
        return Turn::BroughtBack;
    }
    let Some((turn, why)) = kept(seen.before, group, seasons) else {
        return Turn::Nothing;
    };
    coverage.count(kept_key(came, why));
    turn
}

/// How a group that is not at the initial level came into the season.
fn came(before: &Book, group: usize) -> Option<&'static str> {
    let Standing { level, marked } = before.standings[group];
    match (level, marked, before.edition) {
        (Level::Initial, ..) => None,
        (_, true, _) => Some("marked"),
        (_, _, 2014) => Some("2014's expanded"),
        _ => Some("expanded"),
    }
}

/// How a group was kept by its windows, if that has to be reached.
fn kept(before: &Book, group: usize, seasons: u32) -> Option<(Turn, &'static str)> {
    let windows = GROUPS[group]
        .iter()
        .map(|&product| &before.windows[product]);
    let longest = windows.map(Vec::len).max()?;
    match (seasons, longest) {
        (1, 44) => Some((Turn::KeptNext, KEPT[0])),
        (1, 1..) => Some((Turn::KeptNext, KEPT[1])),
        (1, 0) => Some((Turn::KeptNext, KEPT[2])),
        (_, LARGEST_WINDOW) => Some((Turn::KeptSkipped, KEPT[3])),
        _ => None,
    }
}

/// By which products a group was brought back, and whether it lost a mark.
fn observe_back(coverage: &mut Coverage, seen: &Seen, group: usize, came: &str, renewed: &[usize]) {
    coverage.dropped_marks[group] = seen.before.standings[group].marked;
    let is_equal = |&product: &usize| seen.before.limits[product] == seen.after.limits[product];
    coverage.count_if(
        renewed.iter().all(is_equal),
        "season: brought back by equal limits alone",
    );
    if !COUPLED.contains(&group) {
        return;
    }
    coverage.count(match renewed {
        [alone] => alone_key(*alone, came),
        several => together_key(group, several.len()),
    });
}

/// One opening may bring some groups back and keep others.
fn observe_together(coverage: &mut Coverage, after: &Book) {
    if !coverage.turns.contains(&Turn::BroughtBack) {
        return;
    }
    let kept = (0..GROUP_COUNT).filter(|&group| coverage.turns[group] == Turn::KeptNext);
    let (marked, expanded): (Vec<usize>, Vec<usize>) =
        kept.partition(|&group| after.standings[group].marked);
    coverage.count_if(
        !expanded.is_empty(),
        "season: one group brought back, another kept expanded",
    );
    coverage.count_if(
        !marked.is_empty(),
        "season: one group brought back, another kept marked",
    );
}
