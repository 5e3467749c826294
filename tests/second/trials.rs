//! Trials of the simulator by itself: texts made from a seed, legal, broken
//! or at a ceiling, and what must hold of them.

pub mod bnf;
mod by_hand;
pub mod check;
mod deeds;
pub mod edges;
pub mod faults;
pub mod forge;
pub mod generate;
mod images;
pub mod layout;
pub mod mutate;
mod phrases;
mod piece;
pub mod random;
pub mod running;
pub mod supply;
