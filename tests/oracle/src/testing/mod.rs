//! What the test programs share; no part of the rule.

pub mod case;
pub mod damage;
pub mod draw;
pub mod files;
pub mod history;
pub mod old_image;
pub mod program;
pub mod random;
pub mod score;
pub mod workers;
