//! Generators of inputs for two implementations of document 01: books, sheets, damaged texts, histories of calls, and the paper's boundaries.
//! Nothing here knows the paper's answers; a generator only knows how its texts are written and what is likely to be accepted.

pub mod books;
pub mod boundaries;
pub mod breaches;
pub mod clock;
pub mod damage;
pub mod fields;
pub mod full;
pub mod histories;
pub mod holdings;
pub mod inputs;
pub mod limits;
pub mod paper;
pub mod rng;
pub mod sheets;
