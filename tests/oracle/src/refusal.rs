//! Why a call is refused, with the number that the rule returns for it.

#[derive(Clone, Copy, Debug, PartialEq, Eq, PartialOrd, Ord)]
pub enum Refusal {
    /// The book is unsound.
    Unsound = 1,
    /// Opening or conversion with a day open, or sheet, end or check with none.
    Day = 2,
    /// A date is false, the dates of a file do not strictly ascend, or left is too large.
    Date = 3,
    /// The date is not later than the last opened.
    NotLater = 4,
    /// No such product, or a size that is not offered for it.
    Product = 5,
    /// The arrays of a sheet, or the season file, are misshapen.
    Shape = 6,
    /// A month of a sheet is not traded, not ascending, or before the date's month.
    Month = 7,
    /// A price or settlement is out of range or off its tick.
    Price = 8,
    /// A contract of the last ended sheet, non-spot today, is absent.
    Absent = 9,
    /// A non-spot change is beyond today's limit.
    Beyond = 10,
    /// The product's sheet is already in.
    AlreadyIn = 11,
    /// A sheet is outstanding at the end.
    Outstanding = 12,
    /// A founding limit, or the amount of a bare check, is unfit.
    Amount = 13,
    /// The month is not on the last ended sheet, or before the open day's month.
    NotListed = 14,
    /// Left is not smaller than at the previous opening of that month.
    NotSmaller = 16,
    /// There is no such edition.
    Edition = 17,
    /// A book under the edition of 2014 has an expanded group, and cannot be converted.
    Expanded = 18,
}

impl Refusal {
    pub fn number(self) -> u32 {
        self as u32
    }
}
