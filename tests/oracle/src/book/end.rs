//! The end of a day: each group's event, its level, mark and limits, and the new last sheets.

use super::edition::Edition;
use super::moves::{Contract, Move};
use super::{edition_2014, edition_2023};
use super::{Book, Level, Limits, Standing, GROUPS, GROUP_COUNT};
use crate::refusal::Refusal;

/// What a day made of a group; the contract is the leading one.
#[derive(Clone, Copy, Debug, PartialEq, Eq)]
pub enum Event {
    Quiet,
    Triggered(Contract),
    Held(Contract),
    Reverted,
    Raised(Contract),
}

/// An event and the mark that the group has after it.
pub type Outcome = (Event, bool);

impl Book {
    /// Ends the open day, or gives the first refusal in the order 1, 2, 12.
    pub fn end(&mut self) -> Result<[Event; GROUP_COUNT], Refusal> {
        if !self.is_sound() {
            return Err(Refusal::Unsound);
        }
        let (date, left) = self.open_day()?;
        if self.sheets_in.iter().any(Option::is_none) {
            return Err(Refusal::Outstanding);
        }
        let edition = Edition::of(self.edition).ok_or(Refusal::Unsound)?;
        let outcomes: [Outcome; GROUP_COUNT] = std::array::from_fn(|group| {
            outcome(
                edition,
                self.standings[group],
                &self.moves(group, date, left),
            )
        });
        for (group, outcome) in outcomes.iter().enumerate() {
            self.settle_group(group, *outcome);
        }
        self.collect(date);
        self.last_ended = std::mem::take(&mut self.sheets_in);
        self.is_open = false;
        Ok(outcomes.map(|(event, _)| event))
    }

    /// Level, mark and limits of a group after its event.
    fn settle_group(&mut self, group: usize, (event, marked): Outcome) {
        let level = match event {
            Event::Triggered(_) | Event::Held(_) => Level::Expanded,
            Event::Quiet | Event::Reverted | Event::Raised(_) => Level::Initial,
        };
        self.standings[group] = Standing { level, marked };
        if let Event::Raised(_) = event {
            for &product in GROUPS[group] {
                let raised = self.limits[product].expanded;
                self.limits[product] = Limits::from_initial(product, raised);
            }
        }
    }
}

fn outcome(edition: Edition, standing: Standing, moves: &[Move]) -> Outcome {
    match edition {
        Edition::Of2014 => (edition_2014::event(standing.level, moves), false),
        Edition::Of2023 => edition_2023::outcome(standing, moves),
    }
}
