//! The calls on an image for C, which the benchmark measures beside the proved ones.
//!
//! Each takes what the call of the same name in include/botskhela.h takes, and asks the same of its pointers.

use super::Image;
use crate::tally::Tally;
use crate::verdict::SpanWords;

/// # Safety
/// As botskhela_found.
#[no_mangle]
#[allow(clippy::too_many_arguments)]
pub unsafe extern "C" fn oracle_found(
    book: *mut Image,
    edition: u32,
    corn: u32,
    soybeans: u32,
    soybean_oil: u32,
    soybean_meal: u32,
    chicago_wheat: u32,
    kc_wheat: u32,
    oats: u32,
    rough_rice: u32,
) -> u32 {
    let limits = [
        corn,
        soybeans,
        soybean_oil,
        soybean_meal,
        chicago_wheat,
        kc_wheat,
        oats,
        rough_rice,
    ];
    unsafe { (*book).found(edition, limits) }
}

/// # Safety
/// As botskhela_open.
#[no_mangle]
pub unsafe extern "C" fn oracle_open(
    book: *mut Image,
    year: u32,
    month: u32,
    day: u32,
    left: u32,
) -> u32 {
    unsafe { (*book).open([year, month, day, left]) }
}

/// # Safety
/// As botskhela_sheet.
#[no_mangle]
pub unsafe extern "C" fn oracle_sheet(
    book: *mut Image,
    product: u32,
    months: *const u32,
    n_months: usize,
    settlements: *const u32,
    n_settlements: usize,
) -> u32 {
    let months = unsafe { std::slice::from_raw_parts(months, n_months) };
    let settlements = unsafe { std::slice::from_raw_parts(settlements, n_settlements) };
    unsafe { (*book).sheet(product, months, settlements) }
}

/// # Safety
/// As botskhela_end.
#[no_mangle]
pub unsafe extern "C" fn oracle_end(book: *mut Image) -> u32 {
    unsafe { (*book).end() }
}

/// # Safety
/// As botskhela_convert.
#[no_mangle]
pub unsafe extern "C" fn oracle_convert(book: *mut Image) -> u32 {
    unsafe { (*book).convert() }
}

/// # Safety
/// As botskhela_check.
#[no_mangle]
pub unsafe extern "C" fn oracle_check(
    book: *const Image,
    product: u32,
    size: u32,
    month: u32,
    price: u32,
) -> u32 {
    unsafe { (*book).check([product, size, month, price]) }
}

/// # Safety
/// As botskhela_check_span.
#[no_mangle]
pub unsafe extern "C" fn oracle_check_span(
    book: *const Image,
    product: u32,
    size: u32,
    month: u32,
    price: u32,
) -> SpanWords {
    unsafe { (*book).check_span([product, size, month, price]) }
}

/// # Safety
/// As botskhela_tallied_book_check.
#[no_mangle]
pub unsafe extern "C" fn oracle_tallied_book_check(
    tally: *mut Tally,
    book: *const Image,
    product: u32,
    size: u32,
    month: u32,
    price: u32,
) -> u32 {
    unsafe { (*book).tallied_check(&mut *tally, [product, size, month, price]) }
}
