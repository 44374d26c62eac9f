//! Holds the proved library against the second implementation: seeded inputs, lent buffers that
//! show any stray write, counts of the numbers that came up, and whole runs of checks, seals and
//! judgements by nonce.
//!
//! Environment variables, all optional:
//!   RIMEMAGPIE_CASES             cases for each entry (100,000)
//!   RIMEMAGPIE_SEED              what the cases are drawn from (1)
//!   RIMEMAGPIE_LIB_DIR           the folder of the static libraries (target/staticlib)
//!   RIMEMAGPIE_JUDGE             the program judge (target/bin/judge)
//!   RIMEMAGPIE_JUDGE_CAPTURE     the program judge_capture (target/bin/judge_capture)
//!   RIMEMAGPIE_KNOWN             the program known (target/bin/known)
//!   RIMEMAGPIE_COMPARE_MESSAGES  the program compare_messages (target/bin/compare_messages)
//! Relative paths are taken from the top of the repository.

#![forbid(unsafe_code)]

pub mod comparisons;
pub mod generate;
pub mod harness;
pub mod lent;
pub mod met;
pub mod met_comparison;
pub mod met_forcerenew;
pub mod met_known;
pub mod met_pieces;
pub mod outside;
pub mod pieces;
pub mod programs;
pub mod random;
pub mod recordings;
pub mod runs;
pub mod searches;
