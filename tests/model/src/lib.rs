//! The independent track router, written from the paper alone, and from requests
//! M-100 for taking a net out, M-101 for sheets in standard form, M-102 for boxes
//! by parameters, M-104 for rim boxes that run straight, M-105 for dead wires and
//! M-106 for longer net numbers.
//!
//! It is meant to be read beside the paper and has its own way where there is
//! one: the box table is the paper's six columns, each read from its other end
//! by inverting, a box is on the rim by the channels that end at it, and
//! assignments are judged by pairs of nets and the wires both would hold. `brute`
//! settles small sheets without any search, `brute_standard` their standard form,
//! `brute_table` the refusals of lists and tickets;
//! `near_forms` and `near_rows` have wrong ways to the standard form for tests,
//! `near_rims` wrong rims and `near_marks` wrong ways to read M-106. `widen` writes
//! a sheet of short numbers with long ones.

pub mod brute;
mod brute_dead;
mod brute_remove;
pub mod brute_standard;
pub mod brute_table;
mod brute_ways;
pub mod calls;
pub mod chip;
pub mod dead;
pub mod lay;
pub mod lines;
pub mod mark;
pub mod near_forms;
mod near_mark_forms;
pub mod near_marks;
pub mod near_rims;
pub mod near_rows;
pub mod relisting;
pub mod rivals;
pub mod rows;
mod runs;
pub mod search;
pub mod sheet;
pub mod standard;
pub mod switch;
pub mod ticket;
pub mod widen;
pub mod word;

pub use calls::{check, least, read, record, refit, remove, route, standard, Answer, Counts, Part};
