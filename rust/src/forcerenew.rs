//! FORCERENEW by nonce (RFC 6704): a server gives its nonce in an ACK, and a FORCERENEW, its order to
//! renew at once, is believed under that nonce, once.
//!
//! ```
//! use rimemagpie::forcerenew::{Judged, Kind, Servers, HEARD, NONCE_SIZE, NONE_YET};
//! use rimemagpie::{hmac, Refusal};
//!
//! // One server row, which has no nonce yet.
//! let (mut nonces, mut counters, mut marks) = ([0; NONCE_SIZE], [0], [NONE_YET]);
//! let mut servers = Servers {
//!     nonces: &mut nonces,
//!     counters: &mut counters,
//!     marks: &mut marks,
//! };
//!
//! // An ACK with an empty header, the cookie, option 53, option 90 with the nonce and End.
//! let nonce = [7; NONCE_SIZE];
//! let mut ack = [0; 274];
//! ack[236..248].copy_from_slice(&[99, 130, 83, 99, 53, 1, 5, 90, 28, 3, 1, 0]);
//! ack[256] = 1;
//! ack[257..273].copy_from_slice(&nonce);
//! ack[273] = 255;
//!
//! // A FORCERENEW with counter 3. The MAC covers all of it, with zeros in the MAC's own place.
//! let mut order = ack;
//! (order[242], order[255], order[256]) = (9, 3, 2);
//! order[257..273].fill(0);
//! let mac = hmac(&nonce, &order)?;
//! order[257..273].copy_from_slice(&mac);
//!
//! assert_eq!(servers.forcerenew(0, &order), Err(Refusal::NoNonce));
//! let given = Judged { kind: Kind::Ack, counter: 0 };
//! assert_eq!(servers.forcerenew(0, &ack), Ok(given));
//! let ordered = Judged { kind: Kind::Forcerenew, counter: 3 };
//! assert_eq!(servers.forcerenew(0, &order), Ok(ordered));
//!
//! // Nonce, counter and mark are now to be stored: they keep the order out when it comes again.
//! assert_eq!((servers.counters[0], servers.marks[0]), (3, HEARD));
//! assert_eq!(servers.forcerenew(0, &order), Err(Refusal::Replay));
//! # Ok::<(), Refusal>(())
//! ```

use crate::{c, Refusal};
use std::fmt;

/// The bytes of a nonce.
pub const NONCE_SIZE: usize = 16;

/// The mark of a server row that has no nonce yet: no FORCERENEW is taken.
pub const NONE_YET: u8 = 0;

/// The mark of a server row that has a nonce, under which no FORCERENEW was accepted yet: any
/// counter is taken. It is not the number of [`crate::NOT_HEARD`], a book's mark.
pub const NOT_HEARD: u8 = 1;

/// The mark of a server row that takes only a counter above its own. It is not the number of
/// [`crate::HEARD`], a book's mark.
pub const HEARD: u8 = 2;

/// What a judged message is.
#[derive(Clone, Copy, Debug, PartialEq, Eq)]
pub enum Kind {
    /// Type 1, in an ACK: it gives the server's nonce, which is now the row's.
    Ack,
    /// Type 2, in a FORCERENEW: the server orders a renewal.
    Forcerenew,
}

/// A message that was judged to be good.
#[derive(Clone, Copy, Debug, PartialEq, Eq)]
pub struct Judged {
    /// What it is.
    pub kind: Kind,
    /// The message's counter. That of a FORCERENEW is now the row's; that of an ACK is not judged.
    pub counter: u64,
}

/// Server rows in the caller's buffers, a row for each server that may order a renewal: the same n
/// rows in each buffer. n may be any, 0 and above 1,024 too, and all rows are in use.
///
/// A new row's mark is [`NONE_YET`], and its nonce and its counter may hold anything. An ACK gives
/// it a nonce: the mark is then [`NOT_HEARD`] and the counter 0. The first FORCERENEW under that
/// nonce is taken whatever its counter is, and makes the row [`HEARD`]: from then on only a higher
/// counter is taken. The marks are numbered otherwise than those of a [`Book`](crate::Book).
///
/// Store all three after every judgement that accepts. A mark that is set back from [`HEARD`] to
/// [`NOT_HEARD`] lets all earlier FORCERENEWs under that nonce in once more.
///
/// Rows of which the sizes disagree, or any has another mark, are refused with
/// [`Refusal::UnsoundBook`].
///
/// Printed by `{:?}` they show how many bytes of nonces there are, and no nonce.
pub struct Servers<'a> {
    /// [`NONCE_SIZE`] bytes for each server: its nonce.
    pub nonces: &'a mut [u8],
    /// The counter last accepted from each server under its nonce.
    pub counters: &'a mut [u64],
    /// [`NONE_YET`], [`NOT_HEARD`] or [`HEARD`] for each server.
    pub marks: &'a mut [u8],
}

/// Written by hand, since a derived one would print the nonces, which are keys.
impl fmt::Debug for Servers<'_> {
    fn fmt(&self, f: &mut fmt::Formatter<'_>) -> fmt::Result {
        f.debug_struct("Servers")
            .field("nonces", &format_args!("{} bytes", self.nonces.len()))
            .field("counters", &self.counters)
            .field("marks", &self.marks)
            .finish()
    }
}

impl Servers<'_> {
    /// Judges a message that came from the server of a row, counted from 0.
    ///
    /// An ACK's nonce is stored where the row has none yet or another one; the same again changes
    /// nothing. A FORCERENEW is accepted where its MAC is right under the row's nonce and its counter
    /// is above the row's, or the row is not heard; its counter is then stored and the row is heard.
    /// The MAC covers the whole message as it stands, hops, giaddr and option 82 too.
    ///
    /// Of several things that are wrong the first in this order is given:
    /// [`UnsoundBook`](Refusal::UnsoundBook), then what is wrong with the message's form
    /// ([`MessageSize`](Refusal::MessageSize) to [`RelayInformation`](Refusal::RelayInformation)),
    /// [`UnknownSecret`](Refusal::UnknownSecret) where there is no such row,
    /// [`NotByNonce`](Refusal::NotByNonce), [`WrongType`](Refusal::WrongType),
    /// [`NoNonce`](Refusal::NoNonce), [`Replay`](Refusal::Replay), [`WrongMac`](Refusal::WrongMac).
    ///
    /// Nothing in an ACK with a nonce shows who sent it, since it can't carry RFC 3118's
    /// authentication too: show one only where its sender is known otherwise. An old ACK that is
    /// shown again after a newer nonce puts the old nonce back, and the FORCERENEWs under it are
    /// taken once more.
    pub fn forcerenew(&mut self, row: usize, message: &[u8]) -> Result<Judged, Refusal> {
        let (mut kind, mut counter) = (0, 0);
        Refusal::from_number(c::forcerenew(
            self.nonces,
            self.counters,
            self.marks,
            row,
            message,
            &mut kind,
            &mut counter,
        ))?;
        let kind = Kind::of_type(kind);
        Ok(Judged { kind, counter })
    }
}

impl Kind {
    /// The kind that a type stands for. A type that the interface doesn't have is a broken library.
    fn of_type(number: u8) -> Self {
        match number {
            1 => Kind::Ack,
            2 => Kind::Forcerenew,
            _ => panic!("the library accepted the type {number}"),
        }
    }
}
