//! An independent implementation of the rules, written from the papers and not from the proved
//! code, and what the tests need to hold the two against each other.

pub mod column;
pub mod field;
pub mod job;
pub mod judge;
pub mod program;
pub mod random;
pub mod roster;
pub mod rosters;
pub mod shapes;
pub mod stripe;
pub mod table;
