//! The editions of the rule, by year. Days of the two differ at their ends alone.

#[derive(Clone, Copy, Debug, PartialEq, Eq)]
pub enum Edition {
    Of2014,
    Of2023,
}

/// The years of both.
pub const EDITIONS: [u32; 2] = [2014, 2023];

impl Edition {
    /// The edition of a year, if there is one.
    pub fn of(year: u32) -> Option<Edition> {
        match year {
            2014 => Some(Edition::Of2014),
            2023 => Some(Edition::Of2023),
            _ => None,
        }
    }

    pub fn year(self) -> u32 {
        match self {
            Edition::Of2014 => 2014,
            Edition::Of2023 => 2023,
        }
    }

    /// Whether a group can be marked, and so raised.
    pub fn has_marks(self) -> bool {
        self == Edition::Of2023
    }
}

#[cfg(test)]
mod tests {
    use super::*;

    #[test]
    fn there_are_two_editions() {
        assert_eq!(
            EDITIONS.map(Edition::of),
            [Some(Edition::Of2014), Some(Edition::Of2023)]
        );
        assert_eq!(
            [Edition::Of2014, Edition::Of2023].map(Edition::year),
            EDITIONS
        );
        for year in [0, 1, 2013, 2015, 2022, 2024, 2014 << 16, u32::MAX] {
            assert_eq!(Edition::of(year), None, "{year}");
        }
    }
}
