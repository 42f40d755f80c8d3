//! A gateway's tally of the checks through it.

use crate::bare::{self, Order};

const UNSOUND: u32 = 1;
const FULL: u32 = 15;

#[derive(Clone, Copy, Debug, Default, PartialEq, Eq)]
#[repr(C)]
pub struct Tally {
    pub asked: u32,
    pub free: u32,
    pub within: u32,
    pub below: u32,
    pub above: u32,
    pub refused: u32,
}

impl Tally {
    /// The counts of the five kinds, added in 64 bits.
    fn counted(&self) -> u64 {
        [self.free, self.within, self.below, self.above, self.refused]
            .into_iter()
            .map(u64::from)
            .sum()
    }

    /// 1 before 15.
    fn refusal(&self) -> Option<u32> {
        if u64::from(self.asked) != self.counted() {
            return Some(UNSOUND);
        }
        (self.asked == u32::MAX).then_some(FULL)
    }

    fn count(&mut self, answer: u32) {
        self.asked += 1;
        match answer {
            100 => self.free += 1,
            101 => self.within += 1,
            102 => self.below += 1,
            103 => self.above += 1,
            _ => self.refused += 1,
        }
    }

    /// Any check through the tally: its own refusals come first and change nothing.
    pub fn through(&mut self, check: impl FnOnce() -> u32) -> u32 {
        if let Some(number) = self.refusal() {
            return number;
        }
        let answer = check();
        self.count(answer);
        answer
    }

    /// A bare check through the tally.
    pub fn check(&mut self, order: &Order) -> u32 {
        self.through(|| bare::span(order).answer)
    }
}

/// For the C test that compares it with the proved one.
///
/// # Safety
/// The pointer is that of a tally which nothing else uses meanwhile.
#[no_mangle]
pub unsafe extern "C" fn oracle_tallied_check(
    tally: *mut Tally,
    product: u32,
    size: u32,
    settlement: u32,
    amount: u32,
    spot: u32,
    price: u32,
) -> u32 {
    let order = Order::from([product, size, settlement, amount, spot, price]);
    unsafe { (*tally).check(&order) }
}

#[cfg(test)]
mod tests {
    use super::*;

    const WITHIN: [u32; 6] = [0, 0, 6_000, 200, 0, 6_200];
    const REFUSED: [u32; 6] = [8, 0, 6_000, 200, 0, 6_200];

    #[test]
    fn each_answer_is_counted_as_its_kind() {
        let mut tally = Tally::default();
        assert_eq!(tally.check(&Order::from(WITHIN)), 101);
        assert_eq!(tally.check(&Order::from(REFUSED)), 5);
        assert_eq!((tally.asked, tally.within, tally.refused), (2, 1, 1));
    }

    #[test]
    fn a_tally_that_does_not_add_up_is_left_alone() {
        let damaged = Tally {
            asked: 1,
            ..Tally::default()
        };
        let mut tally = damaged;
        assert_eq!(tally.check(&Order::from(WITHIN)), 1);
        assert_eq!(tally, damaged);
    }

    #[test]
    fn a_full_tally_refuses_and_unsound_comes_first() {
        let full = Tally {
            asked: u32::MAX,
            free: u32::MAX,
            ..Tally::default()
        };
        let mut tally = full;
        assert_eq!(tally.check(&Order::from(WITHIN)), 15);
        assert_eq!(tally, full);
        tally.free -= 1;
        assert_eq!(tally.check(&Order::from(WITHIN)), 1);
    }

    #[test]
    fn a_sum_that_wraps_in_32_bits_is_unsound() {
        let mut tally = Tally {
            asked: 1,
            free: u32::MAX,
            above: 2,
            ..Tally::default()
        };
        assert_eq!(tally.check(&Order::from(WITHIN)), 1);
    }
}
