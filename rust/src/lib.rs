//! RFC 3118 delayed authentication for DHCPv4 messages: the proved library, as a Rust program uses
//! it. FORCERENEW by nonce (RFC 6704) is in [`forcerenew`], and reading a card in pieces, as it
//! arrives, in [`card_pieces`]. Whether an id has a row is asked of [`known`], and what differs in a
//! message that was recorded in two places of [`comparison`] or [`compare`].
//!
//! ```
//! use rimemagpie::{card_move, Accepted, Book, Form, Refusal, CARD_MOST, HEARD, NOT_HEARD};
//!
//! // A book with room for two rows, one of them in use: id 7 with a key of four bytes. The row is
//! // new, so it is not heard, and its received counter is 0.
//! let (mut ids, mut lengths, mut store) = ([7, 0], [4, 0], [0; 128]);
//! let (mut marks, mut received, mut sent) = ([NOT_HEARD; 2], [0; 2], [0; 2]);
//! store[..4].copy_from_slice(&[1, 2, 3, 4]);
//! let mut book = Book {
//!     ids: &mut ids,
//!     lengths: &mut lengths,
//!     store: &mut store,
//!     marks: &mut marks,
//!     received: &mut received,
//!     sent: &mut sent,
//!     rows: 1,
//! };
//!
//! // A message with an empty header, the cookie, option 90 in full form and End.
//! let mut message = [0; 274];
//! message[236..245].copy_from_slice(&[99, 130, 83, 99, 90, 31, 1, 1, 0]);
//! message[273] = 255;
//!
//! assert_eq!(book.seal(7, &mut message), Ok(1));
//! assert_eq!(book.key(&message), Ok(&[1, 2, 3, 4][..]));
//! let (mut card, mut old) = ([0; CARD_MOST], [0; CARD_MOST]);
//! let size = book.card_write(&mut card)?;
//! assert_eq!(card_move(&card[..size], Form::Old, &mut old), Err(Refusal::RowNotHeard));
//!
//! // Under a row that is not heard any counter is taken, and then only higher ones. Mark and received
//! // counter are now to be stored.
//! assert_eq!(book.check(&message), Ok(Accepted { row: 0, counter: 1 }));
//! assert_eq!((book.marks[0], book.received[0]), (HEARD, 1));
//! assert_eq!(book.check(&message), Err(Refusal::Replay));
//!
//! // Now that the row is heard its card has an old form, without the mark: a byte less.
//! let size = book.card_write(&mut card)?;
//! assert_eq!(card_move(&card[..size], Form::Old, &mut old), Ok(size - 1));
//! # Ok::<(), Refusal>(())
//! ```

#![deny(unsafe_code)]
#![warn(missing_docs)]

pub mod c;
pub mod card_pieces;
mod comparison;
pub mod forcerenew;
mod refusal;

use std::fmt;

pub use comparison::{compare, comparison, COMPARISON_MOST};
pub use refusal::Refusal;

/// The size of the largest card, which is enough room to write or move any.
pub const CARD_MOST: usize = 22_790;

/// The mark of a row under which nothing was accepted yet: any counter is taken.
pub const NOT_HEARD: u8 = 0;

/// The mark of a row that takes only a counter above its received one.
pub const HEARD: u8 = 1;

/// The MD5 digest (RFC 1321) of up to 65,535 bytes.
pub fn digest(message: &[u8]) -> Result<[u8; 16], Refusal> {
    let mut digest = [0; 16];
    Refusal::from_number(c::digest(message, &mut digest))?;
    Ok(digest)
}

/// The HMAC-MD5 (RFC 2104) of up to 65,471 bytes under a key of up to 64.
pub fn hmac(key: &[u8], message: &[u8]) -> Result<[u8; 16], Refusal> {
    let mut mac = [0; 16];
    Refusal::from_number(c::hmac(key, message, &mut mac))?;
    Ok(mac)
}

/// The two forms of a card.
#[derive(Clone, Copy, Debug, PartialEq, Eq)]
pub enum Form {
    /// Without marks: every row on it is heard.
    Old,
    /// With a mark for each row. It is the form that is written.
    New,
}

/// Writes a card's rows, as a card of the wanted form, into the first bytes of the room and returns
/// its size, [`CARD_MOST`] at the most; later bytes of the room stay as they were. A card that is in
/// that form already is copied. The new form has a byte a row more than the old one. A card with a row
/// that is not heard has no old form: [`Refusal::RowNotHeard`], or [`Refusal::NoRoomForCard`] where
/// the room is below the size that the card would have.
pub fn card_move(card: &[u8], wanted: Form, room: &mut [u8]) -> Result<usize, Refusal> {
    let mut size = 0;
    Refusal::from_number(match wanted {
        Form::Old => c::card_to_old(card, room, &mut size),
        Form::New => c::card_to_new(card, room, &mut size),
    })?;
    Ok(index(size))
}

/// What a search by halving came to.
#[derive(Clone, Copy, Debug, PartialEq, Eq)]
pub struct Sought {
    /// The row of the id, below the count, or `None` where it was not found.
    pub row: Option<usize>,
    /// How many ids were looked at: 0 where the count is 0, and at most as many as the count has
    /// binary digits, 11 for 1,024.
    pub looks: usize,
}

/// Looks for an id by halving among the first `count` ids of a list, which may be a [`Book`]'s or any
/// other.
///
/// ```
/// use rimemagpie::{known, Refusal, Sought};
///
/// let ids = [3, 5, 7, 9];
/// assert_eq!(known(&ids, 4, 5), Ok(Sought { row: Some(1), looks: 2 }));
/// assert_eq!(known(&ids, 4, 4), Ok(Sought { row: None, looks: 3 }));
/// assert_eq!(known(&ids, 5, 5), Err(Refusal::UnsoundBook));
/// ```
///
/// Where these ids ascend strictly, as a sound book's do, the row is that of a search over all of
/// them. Where they don't, an id that is there may be missed; a row that is given holds the id on any
/// list. Ids behind the first `count` affect nothing.
///
/// An id that isn't found is no error here, since its looks are told: the C interface's number 10 is
/// `row: None`. The only refusal is [`Refusal::UnsoundBook`], where the list has more than 1,024 ids
/// or `count` is above its length.
pub fn known(ids: &[u32], count: usize, id: u32) -> Result<Sought, Refusal> {
    let (mut row, mut looks) = (0, 0);
    let found = Refusal::from_number(c::known(ids, count, id, &mut row, &mut looks));
    let row = match found {
        Ok(()) => Some(index(row)),
        Err(Refusal::UnknownSecret) => None,
        Err(refusal) => return Err(refusal),
    };
    let looks = index(looks);
    Ok(Sought { row, looks })
}

/// An accepted message: the row of its secret, which is now heard, and its counter, which is now
/// that row's received one.
#[derive(Clone, Copy, Debug, PartialEq, Eq)]
pub struct Accepted {
    /// The row in the book.
    pub row: usize,
    /// The message's counter.
    pub counter: u64,
}

/// A key book in the caller's buffers, each with room for the same n rows (n at most 1,024).
///
/// A row whose mark is [`HEARD`] takes only a counter above the received one. Under one whose mark is
/// [`NOT_HEARD`] nothing was accepted yet: it takes any counter, 0 and 2^64 - 1 too, where the MAC is
/// right, and is then heard. A new row begins not heard, and its received counter is 0. A row read
/// from a card of the old form is heard, also where nothing ever came under it.
///
/// Store the marks with the received counters after every check that accepts: where counter 0 was
/// accepted, the mark is all that changed. With counters that were kept without marks, lend the mark
/// [`HEARD`]. A mark that is set back to [`NOT_HEARD`] together with its received counter (where that
/// is 0 already, the mark alone) lets all earlier messages under that secret in once more.
///
/// The book is sound when the sizes are so, `rows` is at most n and at most 256, the ids in use
/// ascend strictly, their key lengths are 1 to 64, their marks are [`NOT_HEARD`] or [`HEARD`], and the
/// received counter of each row in use that is not heard is 0. Any other book is refused with
/// [`Refusal::UnsoundBook`].
///
/// Printed by `{:?}` it shows how large the key store is, and no key.
pub struct Book<'a> {
    /// Secret ids, n of them.
    pub ids: &'a mut [u32],
    /// Bytes of each key.
    pub lengths: &'a mut [u8],
    /// A slot of 64 bytes for each key.
    pub store: &'a mut [u8],
    /// [`HEARD`] or [`NOT_HEARD`] for each secret.
    pub marks: &'a mut [u8],
    /// The counter last accepted under each secret, 0 where it is not heard.
    pub received: &'a mut [u64],
    /// The counter last sealed under each secret.
    pub sent: &'a mut [u64],
    /// How many rows are in use.
    pub rows: usize,
}

/// Written by hand, since a derived one would print the key store.
impl fmt::Debug for Book<'_> {
    fn fmt(&self, f: &mut fmt::Formatter<'_>) -> fmt::Result {
        f.debug_struct("Book")
            .field("ids", &self.ids)
            .field("lengths", &self.lengths)
            .field("store", &format_args!("{} bytes", self.store.len()))
            .field("marks", &self.marks)
            .field("received", &self.received)
            .field("sent", &self.sent)
            .field("rows", &self.rows)
            .finish()
    }
}

impl Book<'_> {
    /// Checks a message that came from the network. Accepted, its counter is the book's received one
    /// and its row is marked heard: store both. Hops, giaddr and the option 82, wherever that stands,
    /// are left out of what the MAC covers: a relay may alter them.
    pub fn check(&mut self, message: &[u8]) -> Result<Accepted, Refusal> {
        let (mut row, mut counter) = (0, 0);
        Refusal::from_number(c::check(
            self.ids,
            self.lengths,
            self.store,
            self.marks,
            self.received,
            self.sent,
            self.rows,
            message,
            &mut row,
            &mut counter,
        ))?;
        let row = index(row);
        Ok(Accepted { row, counter })
    }

    /// The key of the secret that a message names. Neither its counter nor its MAC is judged.
    pub fn key(&self, message: &[u8]) -> Result<&[u8], Refusal> {
        let (mut offset, mut size) = (0, 0);
        Refusal::from_number(c::key(
            self.ids,
            self.lengths,
            self.store,
            self.marks,
            self.received,
            self.sent,
            self.rows,
            message,
            &mut offset,
            &mut size,
        ))?;
        Ok(&self.store[index(offset)..][..index(size)])
    }

    /// Seals a message that has an option 90 in full form: writes the next counter, the id and the
    /// MAC, stores the counter as sent and returns it. An option 82, before option 90 or behind it, is
    /// left as it is.
    pub fn seal(&mut self, id: u32, message: &mut [u8]) -> Result<u64, Refusal> {
        let mut counter = 0;
        Refusal::from_number(c::seal(
            self.ids,
            self.lengths,
            self.store,
            self.marks,
            self.received,
            self.sent,
            self.rows,
            id,
            message,
            &mut counter,
        ))?;
        Ok(counter)
    }

    /// Reads a card of either form: its rows, with marks and counters, replace those in use. A card
    /// of an earlier day brings the marks and counters of that day back: a row that was not heard then
    /// takes any counter once more.
    pub fn card_read(&mut self, card: &[u8]) -> Result<(), Refusal> {
        let mut rows = 0;
        Refusal::from_number(c::card_read(
            card,
            self.ids,
            self.lengths,
            self.store,
            self.marks,
            self.received,
            self.sent,
            &mut rows,
        ))?;
        self.rows = index(rows);
        Ok(())
    }

    /// Writes the book's card, in the new form, into the first bytes of the room and returns its size,
    /// [`CARD_MOST`] at the most; later bytes of the room stay as they were.
    pub fn card_write(&self, room: &mut [u8]) -> Result<usize, Refusal> {
        let mut size = 0;
        Refusal::from_number(c::card_write(
            self.ids,
            self.lengths,
            self.store,
            self.marks,
            self.received,
            self.sent,
            self.rows,
            room,
            &mut size,
        ))?;
        Ok(index(size))
    }
}

/// A number from the C interface that says a place in a slice.
fn index(number: u64) -> usize {
    usize::try_from(number).expect("a place in a slice fits usize")
}
