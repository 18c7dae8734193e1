//! Every rule of the concentrator once more, in Rust, written from the rules on paper and from nothing else, to compare the
//! library with. It is meant to be read beside the rules and to be right, and is slow where that is simpler.
//!
//! - `answers`: the answers in flat numbers, as the C interface lays them out, and the limits
//! - `integers`: whole numbers of any size
//! - `learning`: the smallest pair of a burst, by lattice reduction and by trying every pair
//! - `fractions`: the bits of a fraction by long division; the output word
//! - `registers`: taps, step, load, read back, the storage sheet
//! - `periods`: the order of two, by counting and by factors; the table
//! - `walking`: lead-in and period, by the states seen, by two walkers, and by the order of two (which the library takes too)
//! - `whitening`: bit by bit
//! - `store`: records, blocks, the store, learning by meter
//! - `antennas`: one record out of two antennas' blocks
//! - `listing`: what the listing program prints
//!
//! and `inputs`: what the library and the programs are compared with it on.

pub mod answers;
pub mod antennas;
pub mod fractions;
pub mod inputs;
pub mod integers;
pub mod learning;
pub mod listing;
pub mod periods;
pub mod registers;
pub mod store;
pub mod walking;
pub mod whitening;
