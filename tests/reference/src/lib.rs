//! A second implementation of what the library does, to compare it with: plain, slow and obvious.
//!
//! It follows docs/RULES.md and the RFCs, never the proved code: RFC 1321 (MD5), RFC 2104 (HMAC),
//! RFC 2131 and 2132 (the message and its options), RFC 3046 (option 82), RFC 3118 (option 90) and
//! RFC 6704 (FORCERENEW by nonce), and for a recording RFC 791 (IPv4) and RFC 768 (UDP). It shares
//! no line with the proved library, copies freely and looks at everything from the start again,
//! since nobody waits for it.

#![forbid(unsafe_code)]

pub mod auth;
pub mod book;
pub mod capture;
pub mod card;
pub mod card_pieces;
pub mod comparison;
pub mod comparison_examples;
pub mod examples;
pub mod forcerenew;
pub mod hmac;
pub mod known;
pub mod md5;
pub mod message;
pub mod nonce_examples;
pub mod program;
pub mod refusal;
pub mod relay;

pub use auth::{check, key_of_message, seal, Accepted};
pub use book::Book;
pub use card::{card_move, card_read, card_write, Form};
pub use card_pieces::CardReader;
pub use comparison::compare;
pub use forcerenew::{forcerenew, Judged, Servers};
pub use hmac::hmac;
pub use known::{known, Sought};
pub use md5::digest;
pub use refusal::Refusal;
