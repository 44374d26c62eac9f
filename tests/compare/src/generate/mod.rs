//! Seeded inputs: key books, lists of ids, server rows, messages, pairs of them, cards, their pieces,
//! frames and captures, sound and spoiled, and rooms.

pub mod books;
pub mod captures;
pub mod cards;
pub mod drafts;
pub mod forcerenew;
pub mod frames;
pub mod lists;
pub mod messages;
pub mod pairs;
pub mod pieces;
pub mod relays;
pub mod rooms;
pub mod servers;
#[cfg(test)]
mod situations;
