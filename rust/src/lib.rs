//! The proved track router (`include/trackrouter.h`) for Rust.
//!
//! `check`, `route`, `least` and `refit` take a list of dead wires, in bytes: for each an item of `DEAD_ITEM` bytes (`chip::Wire::bytes`), in
//! any order. With `&[]` no wire is dead.
//!
//! The calls need no system and no heap. With the feature `alloc`, on by default, come sheets by name: a builder and a reader
//! (`sheet`), their text form (`text`), tickets as lines (`lines`), lists of dead wires (`dead`), where a sheet, list or ticket breaks its
//! rule (`explain`) and its picture (`draw`). None of these is proved.
#![no_std]

#[cfg(feature = "alloc")]
extern crate alloc;

mod calls;
pub mod chip;
mod constants;
mod refusal;

#[cfg(feature = "alloc")]
pub mod dead;
#[cfg(feature = "alloc")]
pub mod draw;
#[cfg(feature = "alloc")]
pub mod explain;
#[cfg(feature = "alloc")]
mod layout;
#[cfg(feature = "alloc")]
pub mod lines;
#[cfg(feature = "alloc")]
pub mod sheet;
#[cfg(feature = "alloc")]
pub mod text;

pub use calls::{
    check, check_dead, check_old, least, read, record, refit, remove, route, standard, version,
    Counts, Routed,
};
pub use constants::*;
pub use refusal::Refusal;
