//! An implementation of document 01 for speed, to be timed: one pass over the bytes, sets as 64-bit numbers, dense tables, nodes in
//! the room. It has the same calls as the plain one and is compared with it.
pub mod check;
pub mod conditions;
pub mod forest;
pub mod grammar;
pub mod judge;
pub mod ranges;
pub mod reader;
pub mod table;

pub use check::check;
pub use judge::judge;
pub use reader::read_into;
