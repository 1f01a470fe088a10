//! The pictures. Every figure in them is asked of the second program's sender and receiver, or read in crates.txt and the folders of the crates.

mod both_ends;
pub mod house;
pub mod loss;
pub mod ring;
pub mod session;
mod sheet;
mod strip;
mod track;
