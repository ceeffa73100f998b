//! Document 01, and the inflation indices, the windows of a history and the hindsight runs of document 02 in plain Rust, and the records, rates, histories and
//! settings on which the proved engine is held against them.

pub mod generate;
pub mod hindsight;
pub mod hindsights;
pub mod histories;
pub mod history;
pub mod inflation;
pub mod paper;
pub mod random;
pub mod rates;
pub mod records;
