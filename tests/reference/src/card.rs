//! The card on which a book is stored (docs/RULES.md, 'The card').
//!
//! Records follow one another without gap: length (2 bytes, counting kind and body), kind (2),
//! body. All numbers are little-endian. The rows come first, and all of them have one form. Kind 1,
//! a row of the old form: id (4), received (8), sent (8), key (1 to 64). Kind 3, a row of the new
//! form: id (4), mark (1), received (8), sent (8), key (1 to 64). Kind 2, the close: the number of
//! rows (2); it is the last record and nothing follows.

use crate::book::{ascend_strictly, goes_with, Book, HEARD, NOT_HEARD, ROWS_MOST, SLOT};
use crate::refusal::Refusal;

pub const KIND_OLD_ROW: u16 = 1;
pub const KIND_CLOSE: u16 = 2;
pub const KIND_NEW_ROW: u16 = 3;

/// The two forms of a card. In the old one every row is heard.
#[derive(Clone, Copy, Debug, PartialEq, Eq)]
pub enum Form {
    Old,
    New,
}

impl Form {
    pub const BOTH: [Form; 2] = [Form::Old, Form::New];

    /// The kind of its rows.
    pub fn kind(self) -> u16 {
        match self {
            Form::Old => KIND_OLD_ROW,
            Form::New => KIND_NEW_ROW,
        }
    }
}

/// A row as a card holds it.
#[derive(Clone, Debug, PartialEq, Eq)]
pub struct Row {
    pub id: u32,
    pub mark: u8,
    pub received: u64,
    pub sent: u64,
    pub key: Vec<u8>,
}

impl Row {
    /// A row as it begins: not heard, and both counters 0.
    pub fn new(id: u32, key: &[u8]) -> Self {
        Row {
            id,
            mark: NOT_HEARD,
            received: 0,
            sent: 0,
            key: key.to_vec(),
        }
    }

    /// A row that was heard, with its received counter.
    pub fn heard(id: u32, key: &[u8], received: u64) -> Self {
        Row {
            mark: HEARD,
            received,
            ..Row::new(id, key)
        }
    }
}

/// Reads a card of either form into the lent parts: numbers 1, 15, 17. Returns the number of rows;
/// `book.rows` stays as it was.
pub fn card_read(card: &[u8], book: &mut Book) -> Result<usize, Refusal> {
    if !book.sizes_agree() {
        return Err(Refusal::UnsoundBook);
    }
    let rows = rows_of_card(card).ok_or(Refusal::MalformedCard)?;
    if rows.len() > book.ids.len() {
        return Err(Refusal::NoRoomForRows);
    }
    for (k, row) in rows.iter().enumerate() {
        book.ids[k] = row.id;
        book.marks[k] = row.mark;
        book.received[k] = row.received;
        book.sent[k] = row.sent;
        book.lengths[k] = row.key.len() as u8;
        let slot = &mut book.store[SLOT * k..SLOT * (k + 1)];
        slot.fill(0);
        slot[..row.key.len()].copy_from_slice(&row.key);
    }
    Ok(rows.len())
}

/// Writes a book's card, in the new form, into the first bytes of the room: numbers 1, 16. Returns
/// the card's size.
pub fn card_write(book: &Book, room: &mut [u8]) -> Result<usize, Refusal> {
    if !book.is_sound() {
        return Err(Refusal::UnsoundBook);
    }
    let card = card_of_rows(Form::New, &rows_of_book(book));
    if room.len() < card.len() {
        return Err(Refusal::NoRoomForCard);
    }
    room[..card.len()].copy_from_slice(&card);
    Ok(card.len())
}

/// Writes a card's rows, as a card of the wanted form, into the first bytes of the room: numbers 15,
/// 16, 18. Returns the size.
pub fn card_move(card: &[u8], wanted: Form, room: &mut [u8]) -> Result<usize, Refusal> {
    let rows = rows_of_card(card).ok_or(Refusal::MalformedCard)?;
    let moved = card_of_rows(wanted, &rows);
    if room.len() < moved.len() {
        return Err(Refusal::NoRoomForCard);
    }
    if wanted == Form::Old && rows.iter().any(|row| row.mark != HEARD) {
        return Err(Refusal::RowNotHeard);
    }
    room[..moved.len()].copy_from_slice(&moved);
    Ok(moved.len())
}

/// The rows in use of a sound book.
pub fn rows_of_book(book: &Book) -> Vec<Row> {
    let row = |k: usize| Row {
        id: book.ids[k],
        mark: book.marks[k],
        received: book.received[k],
        sent: book.sent[k],
        key: book.key(k).to_vec(),
    };
    (0..book.rows).map(row).collect()
}

/// The card of some rows in a form. (The old one has no place for their marks.)
pub fn card_of_rows(form: Form, rows: &[Row]) -> Vec<u8> {
    let mut card = Vec::new();
    for row in rows {
        card.extend(row_record(form, row));
    }
    let count = rows.len() as u16;
    card.extend(record(KIND_CLOSE, &count.to_le_bytes()));
    card
}

/// A row's record in a form.
pub fn row_record(form: Form, row: &Row) -> Vec<u8> {
    let mark: &[u8] = match form {
        Form::Old => &[],
        Form::New => &[row.mark],
    };
    let body = [
        &row.id.to_le_bytes()[..],
        mark,
        &row.received.to_le_bytes(),
        &row.sent.to_le_bytes(),
        &row.key,
    ];
    record(form.kind(), &body.concat())
}

/// One record: its length, kind and body.
pub fn record(kind: u16, body: &[u8]) -> Vec<u8> {
    let length = (2 + body.len()) as u16;
    [&length.to_le_bytes()[..], &kind.to_le_bytes(), body].concat()
}

/// The rows of a well-formed card; None for a malformed one.
pub fn rows_of_card(card: &[u8]) -> Option<Vec<Row>> {
    let records = records_of_card(card)?;
    let (close, row_records) = records.split_last()?;
    let in_form = |form| rows_in_form(form, row_records);
    let rows = Form::BOTH.into_iter().find_map(in_form)?;
    let ids: Vec<u32> = rows.iter().map(|row| row.id).collect();
    let count = u16::try_from(rows.len()).ok()?;
    let well_formed = *close == (KIND_CLOSE, &count.to_le_bytes()[..])
        && rows.len() <= ROWS_MOST
        && ascend_strictly(&ids);
    well_formed.then_some(rows)
}

/// The card cut into records of kind and body; None where it doesn't end with the end of a record.
fn records_of_card(card: &[u8]) -> Option<Vec<(u16, &[u8])>> {
    let mut records = Vec::new();
    let mut left = card;
    while !left.is_empty() {
        let length = usize::from(u16::from_le_bytes(left.get(..2)?.try_into().ok()?));
        let counted = left.get(2..2 + length)?;
        let kind = u16::from_le_bytes(counted.get(..2)?.try_into().ok()?);
        records.push((kind, &counted[2..]));
        left = &left[2 + length..];
    }
    Some(records)
}

/// The rows of these records, all of which must be rows of one form.
fn rows_in_form(form: Form, records: &[(u16, &[u8])]) -> Option<Vec<Row>> {
    let row = |(kind, body): &(u16, &[u8])| match *kind == form.kind() {
        true => row_of_body(form, body),
        false => None,
    };
    records.iter().map(row).collect()
}

/// The row of a body; None where its key isn't 1 to 64 bytes, its mark is none, or it is not heard
/// and has a received counter.
fn row_of_body(form: Form, body: &[u8]) -> Option<Row> {
    let (id, behind_id) = body.split_first_chunk()?;
    let (mark, behind_mark) = match form {
        Form::Old => (HEARD, behind_id),
        Form::New => (*behind_id.first()?, &behind_id[1..]),
    };
    let (received, behind_received) = behind_mark.split_first_chunk()?;
    let (sent, key) = behind_received.split_first_chunk()?;
    let row = Row {
        id: u32::from_le_bytes(*id),
        mark,
        received: u64::from_le_bytes(*received),
        sent: u64::from_le_bytes(*sent),
        key: key.to_vec(),
    };
    let well_formed = (1..=SLOT).contains(&key.len()) && goes_with(mark, row.received);
    well_formed.then_some(row)
}

#[cfg(test)]
mod tests {
    use super::*;

    /// Heard rows with keys of one length.
    fn rows(count: u32, key_length: usize) -> Vec<Row> {
        let row = |id| Row {
            sent: u64::MAX - u64::from(id),
            ..Row::heard(id, &vec![id as u8; key_length], 1 << id.min(63))
        };
        (0..count).map(row).collect()
    }

    /// The same, of which every other one is not heard.
    fn some_not_heard(count: u32, key_length: usize) -> Vec<Row> {
        let mut rows = rows(count, key_length);
        for row in rows.iter_mut().step_by(2) {
            (row.mark, row.received) = (NOT_HEARD, 0);
        }
        rows
    }

    #[test]
    fn rows_come_back() {
        for (count, key_length) in [(0, 1), (1, 1), (3, 64), (64, 64), (256, 64)] {
            for form in Form::BOTH {
                let rows = rows(count, key_length);
                assert_eq!(rows_of_card(&card_of_rows(form, &rows)), Some(rows));
            }
            let rows = some_not_heard(count, key_length);
            assert_eq!(rows_of_card(&card_of_rows(Form::New, &rows)), Some(rows));
        }
        assert_eq!(card_of_rows(Form::Old, &rows(256, 64)).len(), 22_534);
        assert_eq!(card_of_rows(Form::New, &rows(256, 64)).len(), 22_790);
    }

    /// What a record's length counts, at its least and its most.
    #[test]
    fn lengths_of_a_row() {
        for (form, least, most) in [(Form::Old, 23, 86), (Form::New, 24, 87)] {
            for (key_length, length) in [(1, least), (64, most)] {
                let record = row_record(form, &rows(1, key_length)[0]);
                assert_eq!(record[..2], [length, 0]);
                assert_eq!(record.len(), 2 + usize::from(length));
            }
        }
    }

    #[test]
    fn malformed_cards() {
        for form in Form::BOTH {
            let card_of_rows = |rows: &[Row]| card_of_rows(form, rows);
            assert_eq!(rows_of_card(&card_of_rows(&rows(257, 1))), None);
            assert_eq!(rows_of_card(&card_of_rows(&rows(2, 0))), None);
            assert_eq!(rows_of_card(&card_of_rows(&rows(2, 65))), None);
            let mut same_id = rows(2, 3);
            same_id[1].id = same_id[0].id;
            assert_eq!(rows_of_card(&card_of_rows(&same_id)), None);
            let good = card_of_rows(&rows(2, 3));
            for cut in 0..good.len() {
                assert_eq!(rows_of_card(&good[..cut]), None, "cut to {cut}");
            }
            assert_eq!(rows_of_card(&[&good[..], &good].concat()), None);
            assert_eq!(rows_of_card(&[&good[..], &[0]].concat()), None);
        }
        assert_eq!(rows_of_card(&record(KIND_CLOSE, &[0, 0, 0])), None);
        assert_eq!(rows_of_card(&record(KIND_NEW_ROW, &[0, 0])), None);
        assert_eq!(rows_of_card(&record(4, &[0, 0])), None);
    }

    #[test]
    fn marks_on_a_card() {
        for received in [0, 1, u64::MAX] {
            for mark in 0..=255 {
                let mut rows = rows(2, 3);
                (rows[1].mark, rows[1].received) = (mark, received);
                let fits = mark == HEARD || (mark == NOT_HEARD && received == 0);
                let read = rows_of_card(&card_of_rows(Form::New, &rows));
                assert_eq!(read, fits.then_some(rows), "{mark}, {received}");
            }
        }
    }

    /// Rows of both kinds on one card, in each order.
    #[test]
    fn mixed_cards() {
        let rows = rows(3, 5);
        let close = record(KIND_CLOSE, &[3, 0]);
        for kinds in 0..8 {
            let form = |k: usize| Form::BOTH[kinds >> k & 1];
            let records = (0..3).map(|k| row_record(form(k), &rows[k]));
            let card: Vec<u8> = records.chain([close.clone()]).flatten().collect();
            let one_form = [0, 7].contains(&kinds);
            assert_eq!(rows_of_card(&card), one_form.then(|| rows.clone()));
        }
    }

    #[test]
    fn reading_leaves_further_rows() {
        let before = Book {
            ids: vec![9; 3],
            lengths: vec![9; 3],
            store: vec![9; 192],
            marks: vec![9; 3],
            received: vec![9; 3],
            sent: vec![9; 3],
            rows: 0,
        };
        let cards = [
            (card_of_rows(Form::Old, &rows(2, 5)), [1, 1, 9], [1, 2, 9]),
            (card_of_rows(Form::New, &rows(2, 5)), [1, 1, 9], [1, 2, 9]),
            (
                card_of_rows(Form::New, &some_not_heard(2, 5)),
                [0, 1, 9],
                [0, 2, 9],
            ),
        ];
        for (card, marks, received) in cards {
            let mut book = before.clone();
            assert_eq!(card_read(&card, &mut book), Ok(2));
            assert_eq!(book.ids, [0, 1, 9]);
            assert_eq!(book.lengths, [5, 5, 9]);
            assert_eq!(book.store[64..69], [1; 5]);
            assert_eq!(book.store[69..128], [0; 59]);
            assert_eq!(book.store[128..], [9; 64]);
            assert_eq!(book.marks, marks);
            assert_eq!(book.received, received);
        }
    }

    /// The card in a room of so many bytes, each 9 before.
    fn moved(card: &[u8], wanted: Form, room: usize) -> (Result<usize, Refusal>, Vec<u8>) {
        let mut bytes = vec![9; room];
        let answer = card_move(card, wanted, &mut bytes);
        (answer, bytes)
    }

    /// Moves rows from one form to another in room that is just enough, in more, and in a byte too
    /// little; and back.
    fn move_and_back(rows: &[Row], from: Form, to: Form) {
        let (card, expected) = (card_of_rows(from, rows), card_of_rows(to, rows));
        let size = expected.len();
        assert_eq!(moved(&card, to, size), (Ok(size), expected.clone()));
        let longer = [&expected[..], &[9; 7]].concat();
        assert_eq!(moved(&card, to, size + 7), (Ok(size), longer));
        let refused = (Err(Refusal::NoRoomForCard), vec![9; size - 1]);
        assert_eq!(moved(&card, to, size - 1), refused);
        assert_eq!(moved(&expected, from, card.len()), (Ok(card.len()), card));
    }

    #[test]
    fn cards_are_moved() {
        for count in [0, 1, 3, 64, 256] {
            let rows = rows(count, 5);
            for from in Form::BOTH {
                move_and_back(&rows, from, Form::Old);
                move_and_back(&rows, from, Form::New);
            }
        }
    }

    /// 15 comes before 16, and 16 before 18.
    #[test]
    fn a_row_not_heard_is_not_moved_to_the_old_form() {
        let rows = some_not_heard(3, 5);
        let card = card_of_rows(Form::New, &rows);
        let size = card_of_rows(Form::Old, &rows).len();
        assert_eq!(size, card.len() - 3);
        let refused = |refusal, room| (Err(refusal), vec![9; room]);
        let answer = moved(&card, Form::Old, size);
        assert_eq!(answer, refused(Refusal::RowNotHeard, size));
        let answer = moved(&card, Form::Old, size - 1);
        assert_eq!(answer, refused(Refusal::NoRoomForCard, size - 1));
        let answer = moved(&card[1..], Form::Old, 0);
        assert_eq!(answer, refused(Refusal::MalformedCard, 0));
        let answer = moved(&card, Form::New, card.len());
        assert_eq!(answer, (Ok(card.len()), card));
    }

    /// A card that is read and then written is that card in the new form.
    #[test]
    fn read_and_written() {
        let rows = rows(3, 5);
        let new = card_of_rows(Form::New, &rows);
        for form in Form::BOTH {
            let mut book = Book::with_room(4);
            book.rows = card_read(&card_of_rows(form, &rows), &mut book).unwrap();
            let mut room = vec![0; new.len()];
            assert_eq!(card_write(&book, &mut room), Ok(new.len()));
            assert_eq!(room, new);
        }
    }
}
