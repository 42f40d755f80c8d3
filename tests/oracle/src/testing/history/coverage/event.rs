//! A group's event at an end, read from the answer.

use super::Seen;
use crate::book::edition::Edition;
use crate::book::edition_2014;
use crate::book::moves::{Contract, Move};

/// An event of an edition, by its name.
pub type Kind<'a> = (Edition, &'a str);

/// What the keys of an edition's ends begin with.
pub fn prefix(edition: Edition) -> &'static str {
    match edition {
        Edition::Of2014 => "end under 2014",
        Edition::Of2023 => "end",
    }
}

/// A group's event by its word, with the moves that it was made of.
pub struct Event<'a> {
    pub edition: Edition,
    pub group: usize,
    pub word: &'a str,
    pub moves: Vec<Move>,
}

/// The events of an accepted end, group by group.
pub fn of<'a>(seen: &Seen<'a>) -> Vec<Event<'a>> {
    let (date, left) = seen.after.last_opened().expect("the day ended");
    let edition = Edition::of(seen.before.edition).expect("the day ended");
    let words = seen.answer.split(' ').skip(1).enumerate();
    let event = |(group, word)| Event {
        edition,
        group,
        word,
        moves: seen.before.moves(group, date, left),
    };
    words.map(event).collect()
}

impl Event<'_> {
    /// The word without its leading contract.
    pub fn name(&self) -> &str {
        self.word.split(':').next().unwrap_or_default()
    }

    /// The edition and the name.
    pub fn kind(&self) -> Kind<'_> {
        (self.edition, self.name())
    }

    pub fn lead(&self) -> Option<Contract> {
        let (_, lead) = self.word.split_once(':')?;
        let (month, product) = lead.split_once(':')?;
        Some(Contract {
            month: month.parse().expect("a month"),
            product: product.parse().expect("a product"),
        })
    }

    /// The contracts that meet the event's condition.
    pub fn met(&self) -> Vec<Contract> {
        let meets = |one: &&Move| match (self.edition, self.name()) {
            (Edition::Of2014, "triggered") => edition_2014::triggers(&self.moves, one),
            (Edition::Of2023, "triggered") => one.can_trigger(),
            (Edition::Of2023, "held") => one.size >= one.limits.initial,
            (_, "held" | "raised") => one.is_by_expanded(),
            _ => false,
        };
        let met = self.moves.iter().filter(meets);
        met.map(|one| one.contract).collect()
    }
}
