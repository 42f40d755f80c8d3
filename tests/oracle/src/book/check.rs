//! The check of an order's price on the open day.

use super::Book;
use crate::dates::is_spot;
use crate::prices;
use crate::products;
use crate::refusal::Refusal;
use crate::verdict::Verdict;

impl Book {
    /// The verdict, or the first refusal in the order 1, 2, 5, 14, 8.
    pub fn check(
        &self,
        product: u32,
        size: u32,
        month: u32,
        price: u32,
    ) -> Result<Verdict, Refusal> {
        if !self.is_sound() {
            return Err(Refusal::Unsound);
        }
        let (date, left) = self.open_day()?;
        let row = products::product(product).ok_or(Refusal::Product)?;
        let tick = row.tick(size).ok_or(Refusal::Product)?;
        let product = product as usize;
        if month < date.contract_month() {
            return Err(Refusal::NotListed);
        }
        let last = self
            .last_settlement(product, month)
            .ok_or(Refusal::NotListed)?;
        if !prices::is_price(price, tick) {
            return Err(Refusal::Price);
        }
        if is_spot(month, date, left) {
            return Ok(Verdict::Free);
        }
        let limit = self.limit_today(product);
        Ok(Verdict::limited(price, last, limit, tick))
    }
}
