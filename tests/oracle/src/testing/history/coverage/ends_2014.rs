//! What ends under the edition of 2014 reached: each event, and either side of what triggers and holds.

use super::ends::changed_before;
use super::event::{prefix, Event};
use super::Coverage;
use crate::book::edition::Edition;
use crate::book::groups::{group_of, COUPLED};
use crate::book::moves::Move;
use crate::book::{edition_2014, Book, GROUPS, GROUP_COUNT, PRODUCT_COUNT};
use crate::products::{calendar_month, PRODUCTS};

const EVENTS: [&str; 4] = ["quiet", "triggered", "held", "reverted"];

const HELD: [&str; 3] = [
    "held past the first N alone",
    "held on the day after it was held",
    "held with a nearer move of I or more, below E",
];

const REVERTED: [&str; 2] = [
    "reverted with a move of exactly I",
    "reverted with a move one tick below E",
];

/// What contracts without a change make of a quiet group.
const NEW: [&str; 2] = [
    "quiet with a new contract nearer than the only one at I",
    "quiet with a second move of I that a new contract pushed past the first N",
];

/// By two contracts of a product that triggers alone in its group, neither of them of its crop month.
const BY_TWO: [&str; 4] = [
    "triggered by two, both up",
    "triggered by two, both down",
    "triggered by two, one up and one down",
    "triggered by two, one of them the last of the first N",
];

/// By the crop month of a product that triggers alone in its group.
const BY_CROP_MONTH: [&str; 3] = [
    "triggered by its crop month alone",
    "triggered by its crop month alone, the last of the first N",
    "triggered by its crop month and another",
];

/// Beside one contract of a product at I, which is among the first N and not of its crop month.
const BESIDE_ONE: [&str; 3] = [
    "quiet with one of the first N and the next past them",
    "quiet with one of the first N and its crop month past them",
    "quiet with one at I and one a tick below",
];

const WITHOUT_ONE: [&str; 3] = [
    "quiet with two past the first N",
    "quiet with its crop month past the first N alone",
    "quiet with its crop month a tick below I",
];

/// Of each product that shares its group with another.
const OF_COUPLED: [&str; 3] = [
    "leads, a nearer one of a product that does not trigger does not",
    "quiet with two moves by another's I",
    "reverted with a move by another's E",
];

/// Products that each have one contract at I, and do not trigger.
const ONE_EACH: [&[usize]; 5] = [&[1, 2], &[1, 3], &[2, 3], &[1, 2, 3], &[4, 5]];

/// Products that lead in a month of a lower one that does not trigger.
const HIGHER: [usize; 3] = [2, 3, 5];

pub fn wanted() -> Vec<String> {
    let of_group = [&EVENTS[..], &HELD, &REVERTED, &NEW].concat();
    let of_product = [&BY_TWO[..], &BY_CROP_MONTH, &BESIDE_ONE, &WITHOUT_ONE].concat();
    let groups = of_group
        .iter()
        .flat_map(|what| (0..GROUP_COUNT).map(|group| group_key(group, what)));
    let products = of_product
        .iter()
        .flat_map(|what| (0..PRODUCT_COUNT).map(|product| product_key(product, what)));
    let months = (0..PRODUCT_COUNT).flat_map(|product| {
        let months = PRODUCTS[product].months.iter();
        let others = months.filter(move |&&month| month != PRODUCTS[product].last_crop_month);
        others.map(move |&month| month_key(product, month))
    });
    let coupled = COUPLED.iter().flat_map(|&group| GROUPS[group]);
    let coupled = coupled.flat_map(|&product| OF_COUPLED.map(|what| product_key(product, what)));
    groups
        .chain(products)
        .chain(months)
        .chain(coupled)
        .chain(ONE_EACH.map(one_each_key))
        .chain(HIGHER.map(higher_key))
        .collect()
}

fn key(what: &str) -> String {
    format!("{}: {what}", prefix(Edition::Of2014))
}

fn group_key(group: usize, what: &str) -> String {
    key(&format!("group {group} {what}"))
}

fn product_key(product: usize, what: &str) -> String {
    key(&format!("product {product} {what}"))
}

fn month_key(product: usize, month: u32) -> String {
    product_key(product, &format!("quiet with month {month} alone at I"))
}

fn one_each_key(products: &[usize]) -> String {
    key(&format!("quiet with one at I of each of {products:?}"))
}

fn higher_key(product: usize) -> String {
    product_key(
        product,
        "leads in a month of a lower one that does not trigger",
    )
}

pub fn observe(coverage: &mut Coverage, book: &Book, event: &Event) {
    coverage.count(group_key(event.group, event.name()));
    let owns = GROUPS[event.group]
        .iter()
        .map(|&product| Own::new(product, &event.moves));
    let owns: Vec<Own> = owns.collect();
    match event.name() {
        "quiet" => {
            owns.iter()
                .for_each(|own| own.observe_quiet(coverage, book));
            observe_one_each(coverage, &owns);
        }
        "triggered" => observe_triggered(coverage, book, event, &owns),
        "held" => observe_held(coverage, event),
        _ => observe_reverted(coverage, event, &owns),
    }
}

/// The moves of one product.
struct Own {
    product: usize,
    all: Vec<Move>,
    /// Those by exactly I among the first N, and past them.
    first: Vec<Move>,
    past: Vec<Move>,
}

fn tick(one: &Move) -> u32 {
    PRODUCTS[one.contract.product].standard_tick
}

impl Own {
    fn new(product: usize, moves: &[Move]) -> Own {
        let is_own = |one: &Move| one.contract.product == product;
        let all: Vec<Move> = moves.iter().copied().filter(is_own).collect();
        let by_i = all.iter().copied().filter(Move::is_by_initial);
        let (first, past) = by_i.partition(Move::is_first);
        Own {
            product,
            all,
            first,
            past,
        }
    }

    fn count(&self, coverage: &mut Coverage, happened: bool, what: &str) {
        coverage.count_if(happened, &product_key(self.product, what));
    }

    fn observe_quiet(&self, coverage: &mut Coverage, book: &Book) {
        if let [one] = self.first.as_slice() {
            return self.observe_one(coverage, one);
        }
        self.count(coverage, self.past.len() > 1, WITHOUT_ONE[0]);
        let is_crop_month = matches!(self.past.as_slice(), [one] if one.ends_crop_year());
        self.count(coverage, is_crop_month, WITHOUT_ONE[1]);
        let is_below = self.below_i().any(Move::ends_crop_year);
        self.count(coverage, is_below, WITHOUT_ONE[2]);
        self.observe_anothers_i(coverage, book);
    }

    /// Those of the first N that moved by one tick less than I.
    fn below_i(&self) -> impl Iterator<Item = &Move> {
        let first = self.all.iter().filter(|one| one.is_first());
        first.filter(|one| one.size + tick(one) == one.limits.initial)
    }

    /// One contract of the first N at I, which does not trigger.
    fn observe_one(&self, coverage: &mut Coverage, one: &Move) {
        let is_next = |one: &Move| one.place == PRODUCTS[self.product].first;
        let facts = [
            self.past.iter().any(is_next),
            self.past.iter().any(Move::ends_crop_year),
            self.below_i().next().is_some(),
        ];
        for (happened, what) in facts.into_iter().zip(BESIDE_ONE) {
            self.count(coverage, happened, what);
        }
        if self.past.is_empty() {
            let month = calendar_month(one.contract.month);
            coverage.count(month_key(self.product, month));
        }
        self.observe_new(coverage, one);
    }

    /// Contracts without a change take places.
    fn observe_new(&self, coverage: &mut Coverage, one: &Move) {
        let nearer = |one: &Move| changed_before(&self.all, one);
        let is_pushed = |one: &Move| nearer(one) < PRODUCTS[self.product].first;
        let facts = [
            self.past.is_empty() && nearer(one) < one.place,
            self.past.iter().any(is_pushed),
        ];
        for (happened, what) in facts.into_iter().zip(NEW) {
            coverage.count_if(happened, &group_key(group_of(self.product), what));
        }
    }

    fn observe_anothers_i(&self, coverage: &mut Coverage, book: &Book) {
        let is_anothers = |one: &&Move| {
            let mut others = others(self.product);
            one.is_first() && others.any(|other| one.size == book.limits[other].initial)
        };
        let count = self.all.iter().filter(is_anothers).count();
        self.count(coverage, count > 1, OF_COUPLED[1]);
    }
}

/// The other products of a product's group.
fn others(product: usize) -> impl Iterator<Item = usize> {
    let group = GROUPS[group_of(product)].iter().copied();
    group.filter(move |&other| other != product)
}

fn observe_one_each(coverage: &mut Coverage, owns: &[Own]) {
    let have_one = owns.iter().filter(|own| own.first.len() == 1);
    let products: Vec<usize> = have_one.map(|own| own.product).collect();
    if products.len() > 1 {
        coverage.count(one_each_key(&products));
    }
}

fn observe_triggered(coverage: &mut Coverage, book: &Book, event: &Event, owns: &[Own]) {
    let triggers = |own: &&Own| {
        own.first
            .iter()
            .any(|one| edition_2014::triggers(&event.moves, one))
    };
    let mut triggering = owns.iter().filter(triggers);
    if let (Some(own), None) = (triggering.next(), triggering.next()) {
        observe_alone(coverage, book, own);
    }
    let lead = event.lead().expect("a trigger has a lead");
    for own in owns.iter().filter(|own| !triggers(own)) {
        for one in own.first.iter().map(|one| one.contract) {
            let is_nearer = one.month < lead.month;
            let is_lower = one.month == lead.month && one.product < lead.product;
            coverage.count_if(is_nearer, &product_key(lead.product, OF_COUPLED[0]));
            coverage.count_if(is_lower, &higher_key(lead.product));
        }
    }
}

/// The only product of its group that triggers.
fn observe_alone(coverage: &mut Coverage, book: &Book, own: &Own) {
    let is_last = |one: &Move| one.place + 1 == PRODUCTS[own.product].first;
    let is_up = |one: &Move| {
        let last = book.last_settlement(own.product, one.contract.month);
        let sheet = book.sheets_in[own.product].iter().flatten();
        let mut today = sheet.filter(|entry| entry.month == one.contract.month);
        today.any(|entry| Some(entry.settlement) > last)
    };
    match own.first.as_slice() {
        [one] => {
            own.count(coverage, true, BY_CROP_MONTH[0]);
            own.count(coverage, is_last(one), BY_CROP_MONTH[1]);
        }
        [one, two] if !one.ends_crop_year() && !two.ends_crop_year() => {
            let way = match (is_up(one), is_up(two)) {
                (true, true) => 0,
                (false, false) => 1,
                _ => 2,
            };
            own.count(coverage, true, BY_TWO[way]);
            own.count(coverage, is_last(two), BY_TWO[3]);
        }
        several => {
            let ends_crop_year = several.iter().any(Move::ends_crop_year);
            own.count(coverage, ends_crop_year, BY_CROP_MONTH[2]);
        }
    }
}

fn observe_held(coverage: &mut Coverage, event: &Event) {
    let lead = event.lead().expect("a held group has a lead");
    let mut by_e = event.moves.iter().filter(|one| one.is_by_expanded());
    let was_held = GROUPS[event.group]
        .iter()
        .any(|&product| coverage.last_end.at_e[product]);
    let is_nearer = |one: &Move| {
        let is_between = one.size >= one.limits.initial && !one.is_by_expanded();
        is_between && one.contract.month < lead.month
    };
    let facts = [
        !by_e.any(Move::is_first),
        was_held,
        event.moves.iter().any(is_nearer),
    ];
    for (happened, what) in facts.into_iter().zip(HELD) {
        coverage.count_if(happened, &group_key(event.group, what));
    }
}

fn observe_reverted(coverage: &mut Coverage, event: &Event, owns: &[Own]) {
    let is_below_e = |one: &Move| one.size + tick(one) == one.limits.expanded;
    let facts = [
        event.moves.iter().any(Move::is_by_initial),
        event.moves.iter().any(is_below_e),
    ];
    for (happened, what) in facts.into_iter().zip(REVERTED) {
        coverage.count_if(happened, &group_key(event.group, what));
    }
    for own in owns {
        let is_anothers_e = |one: &Move| {
            let mut limits = owns.iter().flat_map(|other| other.all.first());
            limits.any(|other| other.limits.expanded == one.size)
        };
        own.count(coverage, own.all.iter().any(is_anothers_e), OF_COUPLED[2]);
    }
}
