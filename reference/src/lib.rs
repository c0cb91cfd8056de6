//! The reference: paper 01 written a second time, in another language and with its standard
//! library alone, and the stored test vectors that come from it.
//!
//! Identifiers use the field's terms, and the comment at a definition names the paper's word.

#[cfg(test)]
mod agree;
pub mod arrivals;
pub mod bound;
pub mod cuttings;
pub mod digest;
pub mod family;
pub mod instants;
pub mod listing;
pub mod listings;
#[cfg(test)]
mod parts;
pub mod planned;
pub mod random;
pub mod rows;
pub mod samples;
pub mod sheet;
pub mod sweep;
pub mod sweeps;
pub mod tool;
pub mod valuations;
pub mod vectors;
pub mod weight;
pub mod windows;
pub mod writer;
