//! Images, field lists, vendor writes and room files, generated from a seed: good ones, damaged ones,
//! and the largest that there are.
//!
//! This is written from the scope document and the change requests, and shares no code with the
//! library or the second reader.

pub mod checks;
pub mod damage;
pub mod dates;
pub mod fboss;
pub mod fields;
pub mod generate;
pub mod image;
pub mod onie;
pub mod random;
pub mod room;
pub mod tiny;
pub mod vendor;
pub mod vpd;
