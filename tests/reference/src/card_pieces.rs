//! Reading a card in pieces, as it arrives (docs/RULES.md, 'The card in pieces').
//!
//! It takes one byte after the other, whatever the pieces are: what is left of a cut record is read
//! once more with each piece. A record is judged by what makes it one on a card of its own, so that
//! this file knows nothing of its fields but the length.

use crate::book::{Book, ROWS_MOST, SLOT};
use crate::card::{record, rows_of_card, Form, Row, KIND_CLOSE};
use crate::refusal::Refusal;

/// The largest record, a row of the new form with the longest key: length (2), kind (2), id (4), mark
/// (1), received (8), sent (8), key.
pub const RECORD_MOST: usize = 2 + 2 + 4 + 1 + 8 + 8 + SLOT;

/// The most bytes that are left of a cut record: one less than the largest has.
pub const TAIL_MOST: usize = RECORD_MOST - 1;

/// What is known of the rows' form: no row was read yet, or the kind of the rows.
pub const NO_ROW: u8 = 0;
pub const OLD: u8 = 1;
pub const NEW: u8 = 3;

/// Where reading stands: records may follow, the close was read, or there was a fault.
pub const READING: u8 = 0;
pub const CLOSED: u8 = 1;
pub const FAULT: u8 = 2;

/// The least id that may follow the last there is.
pub const NO_ID: u64 = 1 << 32;

/// The reader's state as a caller lends it, of any numbers. Of the tail the first `kept` bytes count.
#[derive(Clone, Debug, PartialEq, Eq)]
pub struct CardReader {
    /// What is left of a cut record.
    pub tail: [u8; TAIL_MOST],
    pub kept: u64,
    /// The rows read so far.
    pub read: u64,
    /// The least id that may follow.
    pub low: u64,
    pub form: u8,
    pub phase: u8,
}

impl CardReader {
    /// A fresh state.
    pub fn begin() -> Self {
        CardReader {
            tail: [0; TAIL_MOST],
            kept: 0,
            read: 0,
            low: 0,
            form: NO_ROW,
            phase: READING,
        }
    }

    /// Whether no count is past its limit, and the form and the phase are some.
    pub fn is_within(&self) -> bool {
        self.kept <= TAIL_MOST as u64
            && self.read <= ROWS_MOST as u64
            && [NO_ROW, OLD, NEW].contains(&self.form)
            && [READING, CLOSED, FAULT].contains(&self.phase)
    }

    /// The bytes of the tail that count, of a state within its limits.
    pub fn held(&self) -> &[u8] {
        &self.tail[..self.kept as usize]
    }

    fn keep(&mut self, bytes: &[u8]) {
        self.tail = [0; TAIL_MOST];
        self.tail[..bytes.len()].copy_from_slice(bytes);
        self.kept = bytes.len() as u64;
    }

    /// Reads a piece into the spare rows: number 1. Their `rows` is not looked at.
    pub fn feed(&mut self, piece: &[u8], spare: &mut Book) -> Result<(), Refusal> {
        if !spare.sizes_agree() || !self.is_within() {
            return Err(Refusal::UnsoundBook);
        }
        let mut cut = vec![];
        for byte in [self.held(), piece].concat() {
            self.take(byte, &mut cut, spare);
        }
        match self.phase {
            READING => self.keep(&cut),
            _ => self.keep(&[]),
        }
        Ok(())
    }

    /// Takes a byte behind those that are there of a record.
    fn take(&mut self, byte: u8, cut: &mut Vec<u8>, spare: &mut Book) {
        match self.phase {
            READING => cut.push(byte),
            _ => return self.phase = FAULT,
        }
        let [low, high, ..] = cut[..] else {
            return;
        };
        let length = u16::from_le_bytes([low, high]);
        if !is_length(length) {
            self.phase = FAULT;
        } else if cut.len() == 2 + usize::from(length) {
            self.judge(cut, spare);
            cut.clear();
        }
    }

    /// A record that is whole: a row that may follow, the close, or a fault.
    fn judge(&mut self, whole: &[u8], spare: &mut Book) {
        let close = record(KIND_CLOSE, &(self.read as u16).to_le_bytes());
        if whole == close {
            self.phase = CLOSED;
            return;
        }
        match row_of_record(whole) {
            Some((form, row)) if self.may_follow(form, &row) => {
                put(spare, self.read as usize, &row);
                self.read += 1;
                self.low = u64::from(row.id) + 1;
                self.form = form.kind() as u8;
            }
            _ => self.phase = FAULT,
        }
    }

    /// Whether a row is in order, of the others' form, and not one too many.
    fn may_follow(&self, form: Form, row: &Row) -> bool {
        self.read < ROWS_MOST as u64
            && u64::from(row.id) >= self.low
            && (self.form == NO_ROW || u16::from(self.form) == form.kind())
    }

    /// The end: numbers 1, 15, 17. Copies the spare rows over to the book and returns how many there
    /// are; `book.rows` stays as it was.
    pub fn finish(&self, spare: &Book, book: &mut Book) -> Result<usize, Refusal> {
        let same_room = spare.ids.len() == book.ids.len();
        if !spare.sizes_agree() || !book.sizes_agree() || !same_room || !self.is_within() {
            return Err(Refusal::UnsoundBook);
        }
        if self.phase != CLOSED || self.kept != 0 {
            return Err(Refusal::MalformedCard);
        }
        let rows = self.read as usize;
        if rows > book.ids.len() {
            return Err(Refusal::NoRoomForRows);
        }
        book.ids[..rows].copy_from_slice(&spare.ids[..rows]);
        book.lengths[..rows].copy_from_slice(&spare.lengths[..rows]);
        book.store[..SLOT * rows].copy_from_slice(&spare.store[..SLOT * rows]);
        book.marks[..rows].copy_from_slice(&spare.marks[..rows]);
        book.received[..rows].copy_from_slice(&spare.received[..rows]);
        book.sent[..rows].copy_from_slice(&spare.sent[..rows]);
        Ok(rows)
    }
}

/// Whether some record has this length: the close, or a row of either form.
pub fn is_length(length: u16) -> bool {
    matches!(length, 4 | 23..=86 | 24..=87)
}

/// The row of a whole record, and its form: such that the record and the close are a card. None where
/// it is no good row.
fn row_of_record(whole: &[u8]) -> Option<(Form, Row)> {
    let kind = u16::from_le_bytes([whole[2], whole[3]]);
    let form = Form::BOTH.into_iter().find(|form| form.kind() == kind)?;
    let card = [whole, &record(KIND_CLOSE, &[1, 0])].concat();
    Some((form, rows_of_card(&card)?.pop()?))
}

/// Sets a row of a book that has one there; where there is no room for it nothing is changed.
fn put(book: &mut Book, at: usize, row: &Row) {
    if at >= book.ids.len() {
        return;
    }
    let mut slot = row.key.clone();
    slot.resize(SLOT, 0);
    book.ids[at] = row.id;
    book.lengths[at] = row.key.len() as u8;
    book.store[SLOT * at..SLOT * (at + 1)].copy_from_slice(&slot);
    book.marks[at] = row.mark;
    book.received[at] = row.received;
    book.sent[at] = row.sent;
}

/// The good rows before the fault, in the rules' words: the longest front of the bytes that are
/// records of rows in order, of one kind, at most as many as a card may have. The fronts are tried
/// from the longest on, so that nothing of the reader above is used.
pub fn good_rows(bytes: &[u8]) -> Vec<Row> {
    let mut ends = vec![0];
    let mut end = 0;
    while let Some([low, high]) = bytes.get(end..end + 2) {
        end += 2 + usize::from(u16::from_le_bytes([*low, *high]));
        ends.push(end);
    }
    let rows_up_to = |(count, end): (usize, &usize)| {
        let front = bytes.get(..*end)?;
        let close = record(KIND_CLOSE, &u16::try_from(count).ok()?.to_le_bytes());
        rows_of_card(&[front, &close].concat())
    };
    let fronts = ends.iter().enumerate().rev();
    fronts
        .map(rows_up_to)
        .find_map(|rows| rows)
        .unwrap_or_default()
}

/// A book whose first rows are these, as many as fit; all else is as it was.
pub fn with_rows(book: &Book, rows: &[Row]) -> Book {
    let mut book = book.clone();
    for (at, row) in rows.iter().enumerate() {
        put(&mut book, at, row);
    }
    book
}

#[cfg(test)]
mod tests {
    use super::*;
    use crate::card::{card_of_rows, card_read, row_record};
    use crate::examples::{book_b, book_b_not_heard, CARDS_B, CARD_B_NOT_HEARD, CARD_EMPTY};

    /// A book of so much room, every byte and number 9.
    fn nines(room: usize) -> Book {
        Book {
            ids: vec![9; room],
            lengths: vec![9; room],
            store: vec![9; SLOT * room],
            marks: vec![9; room],
            received: vec![9; room],
            sent: vec![9; room],
            rows: 0,
        }
    }

    /// Heard rows with ids 10, 20 and so on, and keys of each size.
    fn rows(count: usize) -> Vec<Row> {
        let row = |k: usize| Row {
            sent: k as u64,
            ..Row::heard(10 * (k as u32 + 1), &vec![k as u8; 1 + k % SLOT], 5)
        };
        (0..count).map(row).collect()
    }

    /// The state and the spare rows after pieces, each of which is taken.
    fn fed(pieces: &[&[u8]], room: usize) -> (CardReader, Book) {
        let (mut reader, mut spare) = (CardReader::begin(), nines(room));
        for piece in pieces {
            assert_eq!(reader.feed(piece, &mut spare), Ok(()));
        }
        (reader, spare)
    }

    /// How reading pieces ends, in spare rows and a book of this room, which is left as reading the
    /// whole leaves it.
    fn ended(pieces: &[&[u8]], room: usize) -> Result<usize, Refusal> {
        let (reader, spare) = fed(pieces, room);
        let (mut book, mut whole) = (nines(room), nines(room));
        let answer = reader.finish(&spare, &mut book);
        let bytes = pieces.concat();
        assert_eq!(answer, card_read(&bytes, &mut whole));
        assert_eq!(book, whole);
        assert_eq!(spare, with_rows(&nines(room), &good_rows(&bytes)));
        answer
    }

    #[test]
    fn limits() {
        assert_eq!((RECORD_MOST, TAIL_MOST), (89, 88));
        let largest = row_record(Form::New, &Row::new(0, &[0; SLOT]));
        assert_eq!(largest.len(), RECORD_MOST);
        let lengths: Vec<u16> = (0..=u16::MAX).filter(|length| is_length(*length)).collect();
        let expected: Vec<u16> = [4].into_iter().chain(23..=87).collect();
        assert_eq!(lengths, expected);
        assert_eq!(u16::from(OLD), Form::Old.kind());
        assert_eq!(u16::from(NEW), Form::New.kind());
    }

    #[test]
    fn bench_examples() {
        let read = |card: &[u8]| {
            let mut book = Book::with_room(1);
            let mut spare = Book::with_room(1);
            let mut reader = CardReader::begin();
            for byte in card {
                reader.feed(&[*byte], &mut spare).unwrap();
            }
            book.rows = reader.finish(&spare, &mut book).unwrap();
            book
        };
        for card in CARDS_B {
            assert_eq!(read(card), book_b());
        }
        assert_eq!(read(&CARD_B_NOT_HEARD), book_b_not_heard());
        assert_eq!(read(&CARD_EMPTY), Book::with_room(1));
    }

    #[test]
    fn any_two_cuts() {
        for form in Form::BOTH {
            let card = card_of_rows(form, &rows(3));
            for first in 0..=card.len() {
                for second in first..=card.len() {
                    let pieces = [&card[..first], &card[first..second], &card[second..]];
                    assert_eq!(ended(&pieces, 4), Ok(3), "{first}, {second}");
                }
            }
        }
    }

    #[test]
    fn single_bytes() {
        for form in Form::BOTH {
            for count in [0, 1, ROWS_MOST - 1, ROWS_MOST] {
                let card = card_of_rows(form, &rows(count));
                let bytes: Vec<&[u8]> = card.chunks(1).collect();
                assert_eq!(ended(&bytes, ROWS_MOST), Ok(count));
                if count > 0 {
                    assert_eq!(ended(&bytes, count - 1), Err(Refusal::NoRoomForRows));
                }
                assert_eq!(
                    ended(&bytes[..card.len() - 1], ROWS_MOST),
                    Err(Refusal::MalformedCard)
                );
            }
            let card = card_of_rows(form, &rows(ROWS_MOST + 1));
            let bytes: Vec<&[u8]> = card.chunks(1).collect();
            assert_eq!(ended(&bytes, ROWS_MOST + 1), Err(Refusal::MalformedCard));
        }
    }

    /// A cut card, and a byte behind a whole one: 15, with the good rows in the spare ones.
    #[test]
    fn cards_cut_and_followed() {
        for form in Form::BOTH {
            let card = card_of_rows(form, &rows(3));
            for cut in 0..card.len() {
                let refused = ended(&[&card[..cut]], 4);
                assert_eq!(refused, Err(Refusal::MalformedCard), "cut to {cut}");
            }
            for pieces in [[&card[..], &[0]], [&card[..], &card]] {
                assert_eq!(ended(&pieces, 4), Err(Refusal::MalformedCard));
                assert_eq!(fed(&pieces, 4).0.phase, FAULT);
                let as_one = pieces.concat();
                assert_eq!(fed(&[&as_one], 4), fed(&pieces, 4));
            }
            assert_eq!(ended(&[&card, &[], &[]], 4), Ok(3));
        }
    }

    /// The state behind the rows and inside a record.
    #[test]
    fn what_is_known() {
        let card = card_of_rows(Form::New, &rows(2));
        let first = row_record(Form::New, &rows(1)[0]).len();
        let (reader, _) = fed(&[&card[..first]], 2);
        let expected = CardReader {
            read: 1,
            low: 11,
            form: NEW,
            ..CardReader::begin()
        };
        assert_eq!(reader, expected);
        let (reader, _) = fed(&[&card[..first + 3]], 2);
        let mut inside = expected.clone();
        inside.keep(&card[first..first + 3]);
        assert_eq!(reader, inside);
        assert_eq!(reader.kept, 3);
        let (reader, _) = fed(&[&card], 2);
        let closed = CardReader {
            read: 2,
            low: 21,
            phase: CLOSED,
            ..expected
        };
        assert_eq!(reader, closed);
    }

    /// A length that no record has is a fault with its second byte, another fault with the last byte
    /// of its record.
    #[test]
    fn when_a_fault_is_one() {
        for length in [0_u16, 1, 3, 5, 22, 88, 256, 65_535] {
            let bytes = length.to_le_bytes();
            assert_eq!(fed(&[&bytes[..1]], 1).0.phase, READING);
            assert_eq!(fed(&[&bytes], 1).0.phase, FAULT, "{length}");
        }
        let wrong = [
            record(4, &[0; 30]),
            record(KIND_CLOSE, &[1, 0]),
            record(KIND_CLOSE, &[0; 30]),
            record(Form::Old.kind(), &[0, 0]),
            record(Form::Old.kind(), &[0; 85]),
            record(Form::New.kind(), &[0; 21]),
            row_record(
                Form::New,
                &Row {
                    mark: 2,
                    ..Row::new(1, &[1])
                },
            ),
            row_record(
                Form::New,
                &Row {
                    received: 1,
                    ..Row::new(1, &[1])
                },
            ),
        ];
        for whole in wrong {
            let cut = &whole[..whole.len() - 1];
            let (reader, _) = fed(&[cut], 1);
            assert_eq!((reader.phase, reader.held()), (READING, cut));
            assert_eq!(fed(&[&whole], 1), fed(&[cut, &whole[cut.len()..]], 1));
            let fault = CardReader {
                phase: FAULT,
                ..CardReader::begin()
            };
            assert_eq!(fed(&[&whole], 1), (fault, nines(1)), "{whole:?}");
        }
    }

    /// A row of the other kind, an id that is not above, and a row behind the last id there is.
    #[test]
    fn rows_that_may_not_follow() {
        let first = Row::heard(7, &[1], 0);
        let last = Row::heard(u32::MAX, &[1], 0);
        for form in Form::BOTH {
            let other = Form::BOTH.into_iter().find(|other| *other != form).unwrap();
            let after = |row: &Row, form_next, next: &Row| {
                let pieces = [row_record(form, row), row_record(form_next, next)];
                fed(&[&pieces[0], &pieces[1]], 2).0
            };
            assert_eq!(after(&first, form, &last).phase, READING);
            assert_eq!(after(&first, form, &last).low, NO_ID);
            assert_eq!(after(&first, other, &last).phase, FAULT);
            assert_eq!(after(&first, form, &first).phase, FAULT);
            assert_eq!(after(&last, form, &first).phase, FAULT);
            assert_eq!(after(&last, form, &last).low, NO_ID);
            let after_fault = after(&first, other, &last);
            assert_eq!((after_fault.read, after_fault.low), (1, 8));
        }
    }

    /// 1 comes at any call: sizes that disagree, counts past their limits, unknown numbers.
    #[test]
    fn refused_with_1() {
        let within = CardReader {
            kept: TAIL_MOST as u64,
            read: ROWS_MOST as u64,
            low: u64::MAX,
            form: NEW,
            phase: FAULT,
            ..CardReader::begin()
        };
        assert!(within.is_within());
        let with = |change: fn(&mut CardReader)| {
            let mut reader = within.clone();
            change(&mut reader);
            reader
        };
        let refused = [
            with(|r| r.kept += 1),
            with(|r| r.kept = u64::MAX),
            with(|r| r.read += 1),
            with(|r| r.read = u64::MAX),
            with(|r| r.form = 2),
            with(|r| r.form = 4),
            with(|r| r.phase = 3),
        ];
        for reader in refused {
            let (mut after, mut spare) = (reader.clone(), nines(2));
            assert_eq!(after.feed(&[4], &mut spare), Err(Refusal::UnsoundBook));
            assert_eq!((after, &spare), (reader.clone(), &nines(2)));
            let mut book = nines(2);
            let answer = reader.finish(&spare, &mut book);
            assert_eq!((answer, book), (Err(Refusal::UnsoundBook), nines(2)));
        }
        let mut uneven = nines(2);
        uneven.marks.pop();
        let mut reader = CardReader::begin();
        for mut spare in [uneven.clone(), nines(1_025)] {
            let answer = reader.feed(&[4], &mut spare);
            assert_eq!(answer, Err(Refusal::UnsoundBook));
            assert_eq!(reader, CardReader::begin());
        }
        for (spare, mut book) in [
            (uneven.clone(), nines(2)),
            (nines(2), uneven),
            (nines(2), nines(3)),
            (nines(1_025), nines(1_025)),
        ] {
            let answer = reader.finish(&spare, &mut book);
            assert_eq!(answer, Err(Refusal::UnsoundBook));
        }
        assert_eq!(reader.feed(&[], &mut nines(1_024)), Ok(()));
    }

    /// A made-up tail: an empty piece reads the whole records in it, the end reads none.
    #[test]
    fn made_up_tails() {
        let mut reader = CardReader::begin();
        reader.keep(&card_of_rows(Form::Old, &rows(2)));
        reader.tail[87] = 1;
        let (mut spare, mut book) = (nines(2), nines(2));
        let early = reader.finish(&spare, &mut book);
        assert_eq!((early, &book), (Err(Refusal::MalformedCard), &nines(2)));
        reader.feed(&[], &mut spare).unwrap();
        assert_eq!(spare, with_rows(&nines(2), &rows(2)));
        assert_eq!((reader.read, reader.phase, reader.kept), (2, CLOSED, 0));
        assert_eq!(reader.tail, [0; TAIL_MOST]);
        assert_eq!(reader.finish(&spare, &mut book), Ok(2));
        assert_eq!(book, spare);
    }

    /// Behind the close and behind a fault, with bytes kept or without.
    #[test]
    fn made_up_phases() {
        let stopped = |phase, kept: &[u8], piece: &[u8]| {
            let mut reader = CardReader {
                read: 1,
                phase,
                ..CardReader::begin()
            };
            reader.keep(kept);
            let end = reader.finish(&nines(1), &mut nines(1));
            reader.feed(piece, &mut nines(1)).unwrap();
            assert_eq!((reader.kept, reader.read), (0, 1));
            (end, reader.phase)
        };
        let malformed = Err(Refusal::MalformedCard);
        assert_eq!(stopped(CLOSED, &[], &[]), (Ok(1), CLOSED));
        assert_eq!(stopped(CLOSED, &[], &[4]), (Ok(1), FAULT));
        assert_eq!(stopped(CLOSED, &[4], &[]), (malformed, FAULT));
        assert_eq!(stopped(FAULT, &[], &[]), (malformed, FAULT));
        assert_eq!(stopped(FAULT, &[4], &[0, 2]), (malformed, FAULT));
    }
}
