//! Histories: a book's calls as text, and the line that answers each.

pub mod answer;
pub mod call;
pub mod replay;
pub mod show;
