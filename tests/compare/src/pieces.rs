//! A card read in pieces by both implementations side by side: after every call the state, the spare
//! rows and the book are compared whole, with what stands beside them.

use crate::generate::books;
use crate::harness::{same, same_items, Difference};
use crate::lent::{Lent, LentBook};
use crate::random::Random;
use reference::card_pieces::{good_rows, with_rows};
use reference::refusal::number_of;
use reference::{Book, CardReader};
use rimemagpie::c;

/// A state in parts, each between guards.
pub struct LentReader {
    tail: Lent<u8>,
    kept: Lent<u64>,
    read: Lent<u64>,
    low: Lent<u64>,
    form: Lent<u8>,
    phase: Lent<u8>,
}

/// The tail's size is the entry's.
const TAIL_SIZE: &str = "a tail has its size";

impl LentReader {
    pub fn new(reader: &CardReader, random: &mut Random) -> Self {
        LentReader {
            tail: Lent::new(&reader.tail, random),
            kept: Lent::new(&[reader.kept], random),
            read: Lent::new(&[reader.read], random),
            low: Lent::new(&[reader.low], random),
            form: Lent::new(&[reader.form], random),
            phase: Lent::new(&[reader.phase], random),
        }
    }

    /// Whether all parts hold what the state has.
    pub fn holds(&self, expected: &CardReader) -> Result<(), Difference> {
        self.phase.holds("phase", &[expected.phase])?;
        self.form.holds("form", &[expected.form])?;
        self.read.holds("read", &[expected.read])?;
        self.low.holds("low", &[expected.low])?;
        self.kept.holds("kept", &[expected.kept])?;
        self.tail.holds("tail", &expected.tail)
    }

    /// `rimemagpie_card_begin`.
    pub fn begin(&mut self) {
        c::card_begin(
            self.tail.items_mut().try_into().expect(TAIL_SIZE),
            &mut self.kept.items_mut()[0],
            &mut self.read.items_mut()[0],
            &mut self.low.items_mut()[0],
            &mut self.form.items_mut()[0],
            &mut self.phase.items_mut()[0],
        );
    }

    /// `rimemagpie_card_feed`.
    pub fn feed(&mut self, piece: &[u8], spare: &mut LentBook) -> u8 {
        c::card_feed(
            self.tail.items_mut().try_into().expect(TAIL_SIZE),
            &mut self.kept.items_mut()[0],
            &mut self.read.items_mut()[0],
            &mut self.low.items_mut()[0],
            &mut self.form.items_mut()[0],
            &mut self.phase.items_mut()[0],
            piece,
            spare.ids.items_mut(),
            spare.lengths.items_mut(),
            spare.store.items_mut(),
            spare.marks.items_mut(),
            spare.received.items_mut(),
            spare.sent.items_mut(),
        )
    }

    /// `rimemagpie_card_finish`.
    pub fn finish(&self, spare: &LentBook, book: &mut LentBook, rows: &mut u64) -> u8 {
        c::card_finish(
            self.tail.items().try_into().expect(TAIL_SIZE),
            self.kept.items()[0],
            self.read.items()[0],
            self.low.items()[0],
            self.form.items()[0],
            self.phase.items()[0],
            spare.ids.items(),
            spare.lengths.items(),
            spare.store.items(),
            spare.marks.items(),
            spare.received.items(),
            spare.sent.items(),
            book.ids.items_mut(),
            book.lengths.items_mut(),
            book.store.items_mut(),
            book.marks.items_mut(),
            book.received.items_mut(),
            book.sent.items_mut(),
            rows,
        )
    }
}

/// Both implementations in the middle of a card: what the second one has, and what the library was
/// lent.
pub struct Reading {
    pub state: CardReader,
    pub spare: Book,
    pub book: Book,
    lent_state: LentReader,
    lent_spare: LentBook,
    lent_book: LentBook,
}

impl Reading {
    /// From any state, with any spare rows and any book.
    pub fn from(random: &mut Random, state: &CardReader, spare: &Book, book: &Book) -> Self {
        Reading {
            state: state.clone(),
            spare: spare.clone(),
            book: book.clone(),
            lent_state: LentReader::new(state, random),
            lent_spare: LentBook::new(spare, random),
            lent_book: LentBook::new(book, random),
        }
    }

    /// From a fresh state, which the library makes of whatever stands there.
    pub fn begin(random: &mut Random, spare: &Book, book: &Book) -> Result<Self, Difference> {
        let mut before = CardReader::begin();
        before.tail.fill_with(|| random.u8());
        (before.kept, before.read, before.low) = (random.u64(), random.u64(), random.u64());
        (before.form, before.phase) = (random.u8(), random.u8());
        let mut reading = Reading::from(random, &before, spare, book);
        reading.lent_state.begin();
        reading.state = CardReader::begin();
        reading.holds()?;
        Ok(reading)
    }

    /// Whether the library's state, spare rows and book are the second implementation's, all of them.
    fn holds(&self) -> Result<(), Difference> {
        self.lent_state.holds(&self.state)?;
        let spare = self.lent_spare.holds(&self.spare);
        spare.map_err(|difference| format!("of the spare rows, {difference}"))?;
        self.lent_book.holds(&self.book)
    }

    /// Feeds a piece to both, and gives the number.
    pub fn feed(&mut self, random: &mut Random, piece: &[u8]) -> Result<u8, Difference> {
        let lent_piece = Lent::new(piece, random);
        let expected = number_of(&self.state.feed(piece, &mut self.spare));
        let number = self
            .lent_state
            .feed(lent_piece.items(), &mut self.lent_spare);
        same("the number of a piece", &expected, &number)?;
        self.holds()?;
        lent_piece.holds("piece", piece)?;
        Ok(number)
    }

    /// Feeds pieces to both, each of which must be taken.
    pub fn feed_all(&mut self, random: &mut Random, pieces: &[&[u8]]) -> Result<(), Difference> {
        for piece in pieces {
            let number = self.feed(random, piece)?;
            same("the number of a piece", &0, &number)?;
        }
        Ok(())
    }

    /// The end of both: the number, and the rows with 0.
    pub fn finish(&mut self, random: &mut Random) -> Result<Result<usize, u8>, Difference> {
        let before = random.u64();
        let mut rows = before;
        let expected = self.state.finish(&self.spare, &mut self.book);
        let number = self
            .lent_state
            .finish(&self.lent_spare, &mut self.lent_book, &mut rows);
        same("the number of the end", &number_of(&expected), &number)?;
        let place = expected.map_or(before, |rows| rows as u64);
        same("rows", &place, &rows)?;
        self.holds()?;
        Ok(expected.map_err(|refusal| refusal.number()))
    }
}

/// Room for so many rows, all of it any bytes and numbers.
pub fn room(random: &mut Random, rows: usize) -> Book {
    books::with_rows(random, rows, 0)
}

/// Both read pieces from a fresh state into this room. The answer and the book must be those of the
/// whole card, and the spare rows hold the good rows. Gives the number.
pub fn read_in_pieces(
    random: &mut Random,
    pieces: &[&[u8]],
    rows: usize,
) -> Result<u8, Difference> {
    let (spare, book) = (room(random, rows), room(random, rows));
    let mut reading = Reading::begin(random, &spare, &book)?;
    reading.feed_all(random, pieces)?;
    let answer = reading.finish(random)?;
    let card = pieces.concat();
    let (whole, book_after) = read_by_library(&card, &book);
    same("the answer", &whole, &answer.map(|rows| rows as u64))?;
    same_rows("the book", &book_after, &reading.book)?;
    let spare_after = with_rows(&spare, &good_rows(&card));
    same_rows("the spare rows", &spare_after, &reading.spare)?;
    Ok(answer.err().unwrap_or(0))
}

/// Whether two books hold the same; if not, where they first differ.
pub fn same_rows(what: &str, expected: &Book, found: &Book) -> Result<(), Difference> {
    let in_part = |part: &str| format!("{part} of {what}");
    same_items(&in_part("ids"), &expected.ids, &found.ids)?;
    same_items(&in_part("lengths"), &expected.lengths, &found.lengths)?;
    same_items(&in_part("store"), &expected.store, &found.store)?;
    same_items(&in_part("marks"), &expected.marks, &found.marks)?;
    same_items(&in_part("received"), &expected.received, &found.received)?;
    same_items(&in_part("sent"), &expected.sent, &found.sent)?;
    same(&in_part("rows"), &expected.rows, &found.rows)
}

/// What the library alone makes of pieces, from a state and spare rows: the last number, the state and
/// the spare rows.
pub fn fed_by_library(
    state: &CardReader,
    spare: &Book,
    pieces: &[&[u8]],
) -> (u8, CardReader, Book) {
    let (mut state, mut spare) = (state.clone(), spare.clone());
    let mut number = 0;
    for piece in pieces {
        number = c::card_feed(
            &mut state.tail,
            &mut state.kept,
            &mut state.read,
            &mut state.low,
            &mut state.form,
            &mut state.phase,
            piece,
            &mut spare.ids,
            &mut spare.lengths,
            &mut spare.store,
            &mut spare.marks,
            &mut spare.received,
            &mut spare.sent,
        );
    }
    (number, state, spare)
}

/// The library's end: the number, with 0 the rows, and the book.
pub fn finished_by_library(
    state: &CardReader,
    spare: &Book,
    book: &Book,
) -> (Result<u64, u8>, Book) {
    let mut book = book.clone();
    let mut rows = 0;
    let number = c::card_finish(
        &state.tail,
        state.kept,
        state.read,
        state.low,
        state.form,
        state.phase,
        &spare.ids,
        &spare.lengths,
        &spare.store,
        &spare.marks,
        &spare.received,
        &spare.sent,
        &mut book.ids,
        &mut book.lengths,
        &mut book.store,
        &mut book.marks,
        &mut book.received,
        &mut book.sent,
        &mut rows,
    );
    (answer(number, rows), book)
}

/// The library reads a whole card: the number, with 0 the rows, and the book.
pub fn read_by_library(card: &[u8], book: &Book) -> (Result<u64, u8>, Book) {
    let mut book = book.clone();
    let mut rows = 0;
    let number = c::card_read(
        card,
        &mut book.ids,
        &mut book.lengths,
        &mut book.store,
        &mut book.marks,
        &mut book.received,
        &mut book.sent,
        &mut rows,
    );
    (answer(number, rows), book)
}

fn answer(number: u8, rows: u64) -> Result<u64, u8> {
    match number {
        0 => Ok(rows),
        _ => Err(number),
    }
}
