//! Reading a card in pieces, as it arrives: a reader, each piece in its order, and the end.
//!
//! ```
//! use rimemagpie::card_pieces::{CardReader, Phase};
//! use rimemagpie::{Book, Form, Refusal, HEARD};
//!
//! // The book, and spare rows beside it with room for as many: here for one.
//! let (mut ids, mut lengths, mut store) = ([0], [0], [0; 64]);
//! let (mut marks, mut received, mut sent) = ([0], [0], [0]);
//! let mut book = Book {
//!     ids: &mut ids,
//!     lengths: &mut lengths,
//!     store: &mut store,
//!     marks: &mut marks,
//!     received: &mut received,
//!     sent: &mut sent,
//!     rows: 0,
//! };
//! let (mut ids, mut lengths, mut store) = ([0], [0], [0; 64]);
//! let (mut marks, mut received, mut sent) = ([0], [0], [0]);
//! let mut spare = Book {
//!     ids: &mut ids,
//!     lengths: &mut lengths,
//!     store: &mut store,
//!     marks: &mut marks,
//!     received: &mut received,
//!     sent: &mut sent,
//!     rows: 0,
//! };
//!
//! // A card of one row, of the old form: id 7, received 10, sent 3, a key of four bytes; and the close.
//! let card = [
//!     &[26, 0, 1, 0, 7, 0, 0, 0][..],
//!     &[10, 0, 0, 0, 0, 0, 0, 0],
//!     &[3, 0, 0, 0, 0, 0, 0, 0],
//!     &[1, 2, 3, 4],
//!     &[4, 0, 2, 0, 1, 0],
//! ]
//! .concat();
//!
//! // Ten bytes at a time. The book stays as it is until the end.
//! let mut reader = CardReader::begin();
//! for piece in card.chunks(10) {
//!     reader.feed(piece, &mut spare)?;
//! }
//! assert_eq!((reader.rows(), reader.form()), (1, Some(Form::Old)));
//! assert_eq!((reader.phase(), book.rows), (Phase::Closed, 0));
//! reader.finish(&spare, &mut book)?;
//! assert_eq!((book.rows, book.ids[0], book.marks[0]), (1, 7, HEARD));
//!
//! // What is wrong with a card is told at the end.
//! let mut reader = CardReader::begin();
//! reader.feed(&card[1..], &mut spare)?;
//! assert_eq!(reader.phase(), Phase::Fault);
//! assert_eq!(reader.finish(&spare, &mut book), Err(Refusal::MalformedCard));
//! # Ok::<(), Refusal>(())
//! ```

use crate::{c, index, Book, Form, Refusal};
use std::fmt;

/// The most bytes that are left of a cut record: one less than the largest record has.
pub const TAIL_MOST: usize = 88;

/// Where reading stands.
#[derive(Clone, Copy, Debug, PartialEq, Eq)]
pub enum Phase {
    /// Records may follow.
    Reading,
    /// The close was read, and nothing may follow.
    Closed,
    /// There was a fault: the end will give [`Refusal::MalformedCard`].
    Fault,
}

/// The state of reading a card in pieces: what is left of a cut record, and what is known so far.
///
/// Pieces are read into spare rows: a [`Book`] of its own beside the one that the card is for, with
/// room for the same number of rows. Lend the same one to every call, and write nothing into it
/// between the calls: what it holds is what the end copies. What it holds before the first piece
/// may be anything, and its `rows` is neither looked at nor set. The book is lent at the end alone,
/// and until then may be used as ever.
///
/// Any cutting of a card, into single bytes too and with empty pieces among them, gives the answer
/// and the book that [`Book::card_read`] gives on the whole card.
///
/// Printed by `{:?}` it shows how many bytes are left, and none of them, since they may be a key's.
#[derive(Clone, PartialEq, Eq)]
pub struct CardReader {
    tail: [u8; TAIL_MOST],
    kept: u64,
    read: u64,
    low: u64,
    form: u8,
    phase: u8,
}

/// Written by hand, since a derived one would print the tail.
impl fmt::Debug for CardReader {
    fn fmt(&self, f: &mut fmt::Formatter<'_>) -> fmt::Result {
        f.debug_struct("CardReader")
            .field("tail", &format_args!("{} bytes", self.kept))
            .field("rows", &self.read)
            .field("low", &self.low)
            .field("form", &self.form())
            .field("phase", &self.phase())
            .finish()
    }
}

/// A fresh state.
impl Default for CardReader {
    fn default() -> Self {
        Self::begin()
    }
}

impl CardReader {
    /// A fresh state, for the first piece of a card.
    pub fn begin() -> Self {
        let mut reader = CardReader {
            tail: [0; TAIL_MOST],
            kept: 0,
            read: 0,
            low: 0,
            form: 0,
            phase: 0,
        };
        c::card_begin(
            &mut reader.tail,
            &mut reader.kept,
            &mut reader.read,
            &mut reader.low,
            &mut reader.form,
            &mut reader.phase,
        );
        reader
    }

    /// Reads the next piece of a card, of any length, 0 too, into the spare rows: each row whose
    /// record got whole, if there is room for it. [`Refusal::UnsoundBook`] where the sizes of the
    /// spare rows disagree or there is room for more than 1,024; then nothing is changed.
    ///
    /// `Ok` says nothing about the card: a fault shows in the [`phase`](Self::phase) and is told at
    /// the end.
    pub fn feed(&mut self, piece: &[u8], spare: &mut Book<'_>) -> Result<(), Refusal> {
        Refusal::from_number(c::card_feed(
            &mut self.tail,
            &mut self.kept,
            &mut self.read,
            &mut self.low,
            &mut self.form,
            &mut self.phase,
            piece,
            spare.ids,
            spare.lengths,
            spare.store,
            spare.marks,
            spare.received,
            spare.sent,
        ))
    }

    /// The end: the card's rows, with marks and counters, are copied from the spare rows over to
    /// the book and replace those in use. A card of an earlier day brings the marks and counters of
    /// that day back.
    ///
    /// Refused, nothing is changed: [`Refusal::UnsoundBook`] where sizes disagree, those of the spare
    /// rows with those of the book too, [`Refusal::MalformedCard`] also where not all of the card was
    /// fed, [`Refusal::NoRoomForRows`]. After the last two the spare rows hold the good rows before
    /// the fault, as many as fit.
    pub fn finish(self, spare: &Book<'_>, book: &mut Book<'_>) -> Result<(), Refusal> {
        let mut rows = 0;
        Refusal::from_number(c::card_finish(
            &self.tail,
            self.kept,
            self.read,
            self.low,
            self.form,
            self.phase,
            spare.ids,
            spare.lengths,
            spare.store,
            spare.marks,
            spare.received,
            spare.sent,
            book.ids,
            book.lengths,
            book.store,
            book.marks,
            book.received,
            book.sent,
            &mut rows,
        ))?;
        book.rows = index(rows);
        Ok(())
    }

    /// The rows read so far, also those for which there was no room.
    pub fn rows(&self) -> usize {
        index(self.read)
    }

    /// The form of the rows read so far, if there was one.
    pub fn form(&self) -> Option<Form> {
        match self.form {
            0 => None,
            1 => Some(Form::Old),
            3 => Some(Form::New),
            number => panic!("the library set the form {number}"),
        }
    }

    /// Where reading stands. At a fault there is nothing more to be had of the card but the refusal.
    pub fn phase(&self) -> Phase {
        match self.phase {
            0 => Phase::Reading,
            1 => Phase::Closed,
            2 => Phase::Fault,
            number => panic!("the library set the phase {number}"),
        }
    }
}
