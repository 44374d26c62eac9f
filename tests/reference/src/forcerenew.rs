//! FORCERENEW by nonce (docs/RULES.md, 'FORCERENEW by nonce'; RFC 6704): the ACK in which a server
//! gives its nonce, and the FORCERENEW with which it orders a renewal, whose MAC is made under that
//! nonce.
//!
//! Option 90 here (RFC 6704, section 3.1.2), by offset from its code: code 0, length 1, protocol 2,
//! algorithm 3, replay method 4, counter 5..13, type 13, nonce or MAC 14..30. The counter is
//! big-endian.

use crate::hmac::hmac_md5;
use crate::message::{message_type, number, shape, OptionAt};
use crate::refusal::Refusal;
use std::ops::Range;

/// The bytes of a nonce, which are as many as a MAC has.
pub const NONCE_SIZE: usize = 16;

/// A server row's mark. The numbers are not those of a book's row.
pub const NONE_YET: u8 = 0;
pub const NOT_HEARD: u8 = 1;
pub const HEARD: u8 = 2;

/// The body length of option 90.
pub const BY_NONCE_LENGTH: usize = 28;

/// What option 90's body begins with: protocol 3, algorithm 1, replay method 0.
pub const BY_NONCE: [u8; 3] = [3, 1, 0];

/// The types: option 90 holds a nonce, or a MAC.
pub const TYPE_NONCE: u8 = 1;
pub const TYPE_MAC: u8 = 2;

/// What option 53 holds in an ACK (RFC 2132, section 9.6) and in a FORCERENEW (RFC 3203).
pub const ACK: u8 = 5;
pub const FORCERENEW: u8 = 9;

/// The server rows as a caller lends them, of any sizes. All of them are in use.
#[derive(Clone, Debug, PartialEq, Eq, Default)]
pub struct Servers {
    pub nonces: Vec<u8>,
    pub counters: Vec<u64>,
    pub marks: Vec<u8>,
}

impl Servers {
    /// So many rows that have no nonce yet, all bytes and numbers 0.
    pub fn with_rows(n: usize) -> Self {
        Servers {
            nonces: vec![0; NONCE_SIZE * n],
            counters: vec![0; n],
            marks: vec![NONE_YET; n],
        }
    }

    pub fn rows(&self) -> usize {
        self.marks.len()
    }

    /// Whether all parts have the same number of rows.
    pub fn sizes_agree(&self) -> bool {
        let n = self.rows();
        n.checked_mul(NONCE_SIZE) == Some(self.nonces.len()) && self.counters.len() == n
    }

    /// Whether the sizes agree and every row has a mark.
    pub fn are_sound(&self) -> bool {
        self.sizes_agree() && self.marks.iter().all(|mark| *mark <= HEARD)
    }

    fn nonce_place(row: usize) -> Range<usize> {
        NONCE_SIZE * row..NONCE_SIZE * (row + 1)
    }

    /// The bytes that a row has for its nonce.
    pub fn nonce(&self, row: usize) -> &[u8] {
        &self.nonces[Self::nonce_place(row)]
    }

    /// Whether an ACK with this nonce brings the row a new one: it has none yet, or another.
    pub fn is_new_nonce(&self, row: usize, nonce: &[u8]) -> bool {
        self.marks[row] == NONE_YET || self.nonce(row) != nonce
    }

    /// Gives a row a nonce, under which nothing was heard.
    pub fn set_nonce(&mut self, row: usize, nonce: &[u8]) {
        self.nonces[Self::nonce_place(row)].copy_from_slice(nonce);
        self.counters[row] = 0;
        self.marks[row] = NOT_HEARD;
    }
}

/// What a judgement returns with 0.
#[derive(Clone, Copy, Debug, PartialEq, Eq)]
pub struct Judged {
    /// The type: 1 in an ACK, 2 in a FORCERENEW.
    pub kind: u8,
    pub counter: u64,
}

/// Option 90 of a message, by nonce.
#[derive(Clone, Copy, Debug, PartialEq, Eq)]
pub struct ByNonce {
    /// The offset of its code.
    pub at: usize,
}

impl ByNonce {
    pub fn counter(self) -> Range<usize> {
        self.at + 5..self.at + 13
    }

    /// Where the type is.
    pub fn kind(self) -> usize {
        self.at + 13
    }

    /// The nonce of an ACK, the MAC of a FORCERENEW.
    pub fn value(self) -> Range<usize> {
        self.at + 14..self.at + 30
    }
}

/// Number 19: whether option 90 has the length of these and begins as they do.
pub fn by_nonce(message: &[u8], option: OptionAt) -> Result<ByNonce, Refusal> {
    let body = &message[option.body()];
    if body.len() != BY_NONCE_LENGTH || body[..3] != BY_NONCE {
        return Err(Refusal::NotByNonce);
    }
    Ok(ByNonce { at: option.at })
}

/// Judges a message by the row of the server that it came from. The first that applies is given, in
/// this order: 1, 2 to 7, 10, 19, 20, 21, 11, 12.
pub fn forcerenew(servers: &mut Servers, row: usize, message: &[u8]) -> Result<Judged, Refusal> {
    if !servers.are_sound() {
        return Err(Refusal::UnsoundBook);
    }
    let shape = shape(message)?;
    if row >= servers.rows() {
        return Err(Refusal::UnknownSecret);
    }
    let found = by_nonce(message, shape.authentication)?;
    let kind = message[found.kind()];
    match (kind, message_type(message)) {
        (TYPE_NONCE, Some(ACK)) => take_nonce(servers, row, &message[found.value()]),
        (TYPE_MAC, Some(FORCERENEW)) => take_order(servers, row, message, found)?,
        _ => return Err(Refusal::WrongType),
    }
    let counter = number(&message[found.counter()]);
    Ok(Judged { kind, counter })
}

/// An ACK's nonce: one that is new to the row is stored, and the same again changes nothing. Its
/// counter is not judged.
fn take_nonce(servers: &mut Servers, row: usize, nonce: &[u8]) {
    if servers.is_new_nonce(row, nonce) {
        servers.set_nonce(row, nonce);
    }
}

/// A FORCERENEW: numbers 21, 11 and 12. Accepted, its counter is stored and the row is heard. A row
/// not heard takes any counter.
fn take_order(
    servers: &mut Servers,
    row: usize,
    message: &[u8],
    found: ByNonce,
) -> Result<(), Refusal> {
    let counter = number(&message[found.counter()]);
    if servers.marks[row] == NONE_YET {
        return Err(Refusal::NoNonce);
    }
    if servers.marks[row] == HEARD && counter <= servers.counters[row] {
        return Err(Refusal::Replay);
    }
    if message[found.value()] != mac(message, found, servers.nonce(row)) {
        return Err(Refusal::WrongMac);
    }
    servers.counters[row] = counter;
    servers.marks[row] = HEARD;
    Ok(())
}

/// The MAC under a nonce: over the whole message, in which its own bytes are zero and nothing else is
/// altered (RFC 6704, sections 3.1.3 and 3.1.4).
pub fn mac(message: &[u8], found: ByNonce, nonce: &[u8]) -> [u8; 16] {
    let mut image = message.to_vec();
    image[found.value()].fill(0);
    hmac_md5(nonce, &image)
}

/// Writes the counter and the MAC under a nonce into a message.
pub fn sign(message: &mut [u8], found: ByNonce, nonce: &[u8], counter: u64) {
    message[found.counter()].copy_from_slice(&counter.to_be_bytes());
    let mac = mac(message, found, nonce);
    message[found.value()].copy_from_slice(&mac);
}
