//! Sheets to try, written from the paper alone.
//!
//! This crate knows how a sheet is laid out and which channels meet. Of boxes it
//! knows the rows that name them, of tickets and searches nothing: the expected
//! answers it holds were worked out by hand.

pub mod boxes;
pub mod case;
pub mod damage;
pub mod dead;
pub mod design;
pub mod extremes;
pub mod forms;
pub mod grid;
pub mod listing;
pub mod mark;
pub mod marks;
pub mod numbers;
pub mod paper;
pub mod random;
pub mod raw;
pub mod refusals;
pub mod rim;
pub mod rng;
pub mod row_forms;
pub mod rows;

pub use case::{Answer, Ask, Case, Told};
pub use design::{Design, Net};
pub use grid::Grid;
pub use listing::{ticket_of, tracks_of, Tracks};
pub use mark::Mark;
pub use numbers::Spread;
pub use raw::{Raw, Record};
pub use rng::Rng;
pub use rows::{Row, Rows};
