//! Comparing the library with the model, and both with document 01's book.

pub mod blocks;
pub mod book;
mod call;
pub mod cuts;
pub mod damage;
pub mod edition;
pub mod fault;
pub mod forged;
pub mod generate;
pub mod mend;
pub mod nor;
pub mod pending;
pub mod places;
pub mod raise;
pub mod rng;
pub mod rounds;
pub mod runs;
mod script;
pub mod side;
pub mod tally;
pub mod twin;
