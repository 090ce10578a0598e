//! The judge of the Rattle: document 01's rules written apart from it, the source's Rust over those rules, and the proved library
//! behind safe wrappers.
pub mod antennas;
pub mod bandbook;
pub mod board;
pub mod books;
pub mod broken;
pub mod calendar;
pub mod calls;
pub mod card_examples;
pub mod card_text;
pub mod cards;
pub mod examples;
#[cfg(source)]
pub mod expected;
#[cfg(source)]
pub mod impostor;
pub mod impostors;
pub mod leaf;
pub mod levels;
#[cfg(source)]
pub mod lists;
#[cfg(source)]
pub mod masts;
#[cfg(source)]
pub mod pictures;
pub mod plain;
#[cfg(source)]
pub mod planet;
#[cfg(source)]
pub mod planets;
#[cfg(source)]
pub mod plate;
pub mod preview;
pub mod random;
pub mod record;
pub mod records;
#[cfg(source)]
pub mod reference;
#[cfg(source)]
pub mod remarks;
pub mod report;
pub mod rules;
pub mod service;
#[cfg(source)]
pub mod shown;
#[cfg(source)]
pub mod shows;
#[cfg(source)]
pub mod source;
pub mod stations;
pub mod stored;
pub mod typing;
pub mod why;
