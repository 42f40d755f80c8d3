//! Sheets whose two arrays overlap, and sheets of more contracts than 32 bits can count.

use oracle::book::PRODUCT_COUNT;
use oracle::image::calls::ACCEPTED;
use oracle::products::PRODUCTS;
use oracle::testing::score::Score;

use crate::bases::Base;
use crate::compare::Comparer;
use crate::memory::many;
use crate::reached::Reached;

/// Cut to 32 bits, this length is 1.
const MANY: usize = (1 << 32) + 1;

const LONGEST: usize = 17;

const MISSHAPEN: u32 = 6;
const BAD_PRICE: u32 = 8;

pub fn compare(comparer: &mut Comparer, bases: &[Base], score: &mut Score) {
    overlapping(comparer, bases, score);
    too_many(comparer, bases, score);
}

/// A day on which no sheet is in yet, and no day has ended before.
fn first_day(bases: &[Base]) -> &Base {
    let is_first = |base: &&Base| {
        base.book.is_open && base.image.today[0].count == 0 && base.image.last[0].count == 0
    };
    bases.iter().find(is_first).expect("a base is a first day")
}

/// The product's months from the open day's on; they are settlements of Oil, Meal and Rice, too.
fn months(base: &Base, product: usize) -> impl Iterator<Item = u32> {
    let (date, _) = base.book.last_opened().expect("the base has a date");
    (date.contract_month()..).filter(move |&month| PRODUCTS[product].trades(month))
}

/// The settlements begin at any of the months.
fn overlapping(comparer: &mut Comparer, bases: &[Base], score: &mut Score) {
    let base = first_day(bases);
    let mut reached = Reached::default();
    let mut failures = Vec::new();
    for product in 0..PRODUCT_COUNT {
        let numbers: Vec<u32> = months(base, product).take(2 * LONGEST).collect();
        for (length, shift) in
            (0..=LONGEST).flat_map(|length| (0..=length).map(move |shift| (length, shift)))
        {
            let settlements = &numbers[shift..shift + length];
            let compared =
                comparer.sheet(&base.image, product as u32, &numbers[..length], settlements);
            reached.count("sheet", compared.number);
            let named =
                |difference| format!("{length} of product {product}, {shift} apart: {difference}");
            failures.push(compared.difference.map(named));
        }
    }
    score.all("sheets of overlapping arrays", &failures);
    let wanted = [("sheet", [ACCEPTED, MISSHAPEN, BAD_PRICE].as_slice())];
    let rare = reached.judge(&wanted, |_, times| times > 10);
    score.one("overlapping arrays are accepted and refused", rare);
}

/// Lengths that are small where they are cut to 32 bits.
fn too_many(comparer: &mut Comparer, bases: &[Base], score: &mut Score) {
    let base = first_day(bases);
    let month = months(base, 2).next().expect("a month is traded");
    let Some(numbers) = many(month, MANY) else {
        println!("passed over: there is no room for {MANY} contracts");
        return;
    };
    let pairs = [(MANY, MANY), (MANY, 1), (1, MANY), (MANY - 1, MANY - 1)];
    let failures = pairs.map(|(n_months, n_settlements)| {
        let (months, settlements) = (&numbers[..n_months], &numbers[..n_settlements]);
        let compared = comparer.sheet(&base.image, 2, months, settlements);
        let is_misshapen = compared.number == MISSHAPEN;
        compared
            .difference
            .or((!is_misshapen).then(|| "not misshapen".to_string()))
    });
    score.all("sheets of more contracts than 32 bits count", &failures);
}
