//! Cards to be read in pieces: cuttings, cards with a fault at a given record, and readers' states
//! that no card makes.

use super::{books, cards};
use crate::random::Random;
use reference::book::{NOT_HEARD, ROWS_MOST, SLOT};
use reference::card::{record, row_record, Form, Row, KIND_CLOSE, KIND_NEW_ROW, KIND_OLD_ROW};
use reference::card_pieces::{
    CardReader, CLOSED, FAULT, NEW, NO_ID, NO_ROW, OLD, READING, RECORD_MOST, TAIL_MOST,
};
use reference::Book;

/// How bytes are cut into pieces.
#[derive(Clone, Copy, Debug, PartialEq, Eq)]
pub enum Cutting {
    /// One piece.
    Whole,
    /// Two pieces.
    InTwo,
    /// A byte at a time.
    SingleBytes,
    /// As a file is read: 512 bytes at a time.
    Blocks,
    /// A record at a time, or a byte more or less.
    NearRecords,
    /// Pieces of any sizes, empty ones among them.
    Any,
}

impl Cutting {
    pub const ALL: [Cutting; 6] = [
        Cutting::Whole,
        Cutting::InTwo,
        Cutting::SingleBytes,
        Cutting::Blocks,
        Cutting::NearRecords,
        Cutting::Any,
    ];

    /// The bytes cut so.
    pub fn of<'a>(self, random: &mut Random, bytes: &'a [u8]) -> Vec<&'a [u8]> {
        let places = match self {
            Cutting::Whole => vec![],
            Cutting::InTwo => vec![random.within(0..=bytes.len())],
            Cutting::SingleBytes => (1..bytes.len()).collect(),
            Cutting::Blocks => (0..bytes.len()).step_by(512).skip(1).collect(),
            Cutting::NearRecords => near_records(random, bytes),
            Cutting::Any => any_places(random, bytes.len()),
        };
        at_places(bytes, &places)
    }
}

/// The bytes cut at these places, which ascend.
pub fn at_places<'a>(bytes: &'a [u8], places: &[usize]) -> Vec<&'a [u8]> {
    let ends = places.iter().copied().chain([bytes.len()]);
    let mut start = 0;
    let piece = |end| {
        let piece = &bytes[start..end];
        start = end;
        piece
    };
    ends.map(piece).collect()
}

/// Where the records end, as far as the bytes are any, each place moved by a byte or not.
fn near_records(random: &mut Random, bytes: &[u8]) -> Vec<usize> {
    let ends = record_ends(bytes).into_iter();
    let moved = ends.map(|end| (end + random.pick(&[0, 0, 1, 2])).saturating_sub(1));
    let mut places: Vec<usize> = moved.filter(|place| *place <= bytes.len()).collect();
    places.sort_unstable();
    places
}

/// Where the records end, as far as they are whole.
pub fn record_ends(bytes: &[u8]) -> Vec<usize> {
    let mut ends = vec![];
    let mut end = 0;
    while let Some([low, high]) = bytes.get(end..end + 2) {
        end += 2 + usize::from(u16::from_le_bytes([*low, *high]));
        ends.push(end);
    }
    ends.retain(|end| *end <= bytes.len());
    ends
}

/// Places that ascend, often the same one twice: more of them in more bytes, but not many.
fn any_places(random: &mut Random, length: usize) -> Vec<usize> {
    let count = random.within(0..=12.min(2 + length / 4));
    let mut places: Vec<usize> = (0..count).map(|_| random.within(0..=length)).collect();
    for at in 1..count {
        if random.one_in(4) {
            places[at] = places[at - 1];
        }
    }
    places.sort_unstable();
    places
}

/// What is wrong at one record of a card. The rows before it are good, and it is no row that may
/// follow them.
#[derive(Clone, Copy, Debug, PartialEq, Eq)]
pub enum Fault {
    /// The length field holds this, which no record has.
    Length(u16),
    /// A record of this kind whose body has so many bytes.
    Record {
        kind: u16,
        body: usize,
    },
    /// A row with this mark.
    Mark(u8),
    /// A row not heard with this received counter.
    CounterNotHeard(u64),
    /// The id of the row before, or one below it.
    IdRepeated,
    IdBelow,
    /// A row of the form that the others haven't.
    OtherForm,
    /// The close numbers so many rows more.
    CloseNumber(i16),
    /// A close that numbers the rows before stands here, and the record behind it.
    CloseBefore,
    /// So many bytes follow the close.
    BytesBehind(usize),
    /// The card ends behind so many bytes of the record.
    Cut(usize),
}

impl Fault {
    pub const ALL: [Fault; 51] = [
        Fault::Length(0),
        Fault::Length(1),
        Fault::Length(2),
        Fault::Length(3),
        Fault::Length(5),
        Fault::Length(22),
        Fault::Length(88),
        Fault::Length(89),
        Fault::Length(256 + 4),
        Fault::Length(256 + 24),
        Fault::Length(65_535),
        Fault::Record { kind: 0, body: 2 },
        Fault::Record { kind: 0, body: 30 },
        Fault::Record { kind: 4, body: 2 },
        Fault::Record { kind: 4, body: 30 },
        Fault::Record { kind: 4, body: 85 },
        Fault::Record {
            kind: 257,
            body: 30,
        },
        Fault::Record { kind: 258, body: 2 },
        Fault::Record {
            kind: 259,
            body: 30,
        },
        Fault::Record {
            kind: KIND_CLOSE,
            body: 21,
        },
        Fault::Record {
            kind: KIND_CLOSE,
            body: 85,
        },
        Fault::Record {
            kind: KIND_OLD_ROW,
            body: 2,
        },
        Fault::Record {
            kind: KIND_OLD_ROW,
            body: 85,
        },
        Fault::Record {
            kind: KIND_NEW_ROW,
            body: 2,
        },
        Fault::Record {
            kind: KIND_NEW_ROW,
            body: 21,
        },
        Fault::Mark(2),
        Fault::Mark(3),
        Fault::Mark(255),
        Fault::CounterNotHeard(1),
        Fault::CounterNotHeard(256),
        Fault::CounterNotHeard(1 << 63),
        Fault::IdRepeated,
        Fault::IdBelow,
        Fault::OtherForm,
        Fault::CloseNumber(1),
        Fault::CloseNumber(-1),
        Fault::CloseNumber(256),
        Fault::CloseBefore,
        Fault::BytesBehind(1),
        Fault::BytesBehind(2),
        Fault::BytesBehind(6),
        Fault::BytesBehind(RECORD_MOST),
        Fault::Cut(0),
        Fault::Cut(1),
        Fault::Cut(2),
        Fault::Cut(3),
        Fault::Cut(4),
        Fault::Cut(5),
        Fault::Cut(24),
        Fault::Cut(TAIL_MOST - 1),
        Fault::Cut(TAIL_MOST),
    ];
}

/// What a record stands behind: so many rows, whether these have a form, and the least id that may
/// follow them.
#[derive(Clone, Copy, Debug)]
pub struct Behind {
    pub read: usize,
    pub low: u64,
    pub has_form: bool,
}

impl Behind {
    /// The start of a card.
    pub const NOTHING: Behind = Behind {
        read: 0,
        low: 0,
        has_form: false,
    };

    /// Behind these rows too.
    fn and(self, rows: &[Row]) -> Self {
        let Some(last) = rows.last() else {
            return self;
        };
        Behind {
            read: self.read + rows.len(),
            low: u64::from(last.id) + 1,
            has_form: true,
        }
    }
}

/// The rows' records and the close, with this fault at a record; None where it can't be made there.
pub fn with_fault(
    rows: &[Row],
    form: Form,
    behind: Behind,
    at: usize,
    fault: Fault,
) -> Option<Vec<u8>> {
    let mut records: Vec<Vec<u8>> = rows.iter().map(|row| row_record(form, row)).collect();
    records.push(close(behind.read + rows.len()));
    if let Fault::Cut(size) = fault {
        let whole = records.drain(at..).next()?;
        return (size < whole.len()).then(|| [&records.concat(), &whole[..size]].concat());
    }
    let here = behind.and(&rows[..at]);
    let of_its_own = match rows.get(at) {
        Some(row) => spoiled_row(row, form, here, fault),
        None => spoiled_close(here, fault),
    };
    records[at] = of_its_own.or_else(|| spoiled_record(&records[at], here, fault))?;
    Some(records.concat())
}

/// What can be wrong at any record.
fn spoiled_record(whole: &[u8], behind: Behind, fault: Fault) -> Option<Vec<u8>> {
    Some(match fault {
        Fault::Length(length) => [&length.to_le_bytes()[..], &whole[2..]].concat(),
        Fault::Record { kind, body } => record(kind, &vec![0; body]),
        Fault::CloseBefore => [&close(behind.read)[..], whole].concat(),
        _ => return None,
    })
}

/// What can be wrong with a row.
fn spoiled_row(row: &Row, form: Form, behind: Behind, fault: Fault) -> Option<Vec<u8>> {
    let (mut row, mut row_form) = (row.clone(), form);
    match fault {
        Fault::Mark(mark) if form == Form::New => row.mark = mark,
        Fault::CounterNotHeard(counter) if form == Form::New => {
            (row.mark, row.received) = (NOT_HEARD, counter)
        }
        Fault::IdRepeated => row.id = behind.low.checked_sub(1)? as u32,
        Fault::IdBelow => row.id = behind.low.checked_sub(2)? as u32,
        Fault::OtherForm if behind.has_form => row_form = other(form),
        _ => return None,
    }
    Some(row_record(row_form, &row))
}

/// What can be wrong with the close.
fn spoiled_close(behind: Behind, fault: Fault) -> Option<Vec<u8>> {
    Some(match fault {
        Fault::CloseNumber(more) => close(behind.read.checked_add_signed(isize::from(more))?),
        Fault::BytesBehind(count) => [close(behind.read), vec![4; count]].concat(),
        _ => return None,
    })
}

fn other(form: Form) -> Form {
    match form {
        Form::Old => Form::New,
        Form::New => Form::Old,
    }
}

pub fn close(count: usize) -> Vec<u8> {
    record(KIND_CLOSE, &(count as u16).to_le_bytes())
}

/// A card for a whole reading, or what is to be one: well-formed, with a fault at some record, or any.
pub fn any_card(random: &mut Random) -> Vec<u8> {
    match random.below(4) {
        0 => cards::well_formed(random),
        1 => cards::any(random),
        _ => {
            let form = random.pick(&Form::BOTH);
            let rows = cards::some_rows(random);
            spoiled(random, &rows, form, Behind::NOTHING)
        }
    }
}

/// Records and the close with some fault at some record that it can be made at.
fn spoiled(random: &mut Random, rows: &[Row], form: Form, behind: Behind) -> Vec<u8> {
    loop {
        let at = books::some_row(random, rows.len() + 1);
        let fault = random.pick(&Fault::ALL);
        if let Some(bytes) = with_fault(rows, form, behind, at, fault) {
            return bytes;
        }
    }
}

/// Room to read a card of so many rows into: too little, just enough, or more.
pub fn room_for(random: &mut Random, rows: usize) -> usize {
    match random.below(20) {
        0..=3 => rows.saturating_sub(random.within(1..=3)),
        4..=9 => rows,
        10..=17 => rows + random.within(0..=5),
        18 => ROWS_MOST,
        _ => random.within(0..=rows),
    }
}

/// Makes the sizes of a book's room disagree, or the room too large.
pub fn spoil_sizes(random: &mut Random, book: &mut Book) {
    let fault = random.pick(&books::Fault::SIZES);
    books::spoil_by(random, book, fault);
}

/// Any state and a piece for it. Mostly what it keeps and the piece are records that go with it, cut
/// anywhere, so that a tail may hold whole records; mostly its numbers are within their limits.
pub fn state_and_piece(random: &mut Random) -> (CardReader, Vec<u8>) {
    let mut reader = within(random);
    let mut bytes = match random.below(8) {
        0 => any_bytes(random),
        _ => onward(random, &reader),
    };
    let kept = match random.below(4) {
        0 => 0,
        1 => TAIL_MOST.min(bytes.len()),
        _ => random.within(0..=TAIL_MOST.min(bytes.len())),
    };
    let piece = bytes.split_off(kept);
    bytes.resize(TAIL_MOST, 0);
    if random.one_in(2) {
        let unused = random.bytes(TAIL_MOST - kept);
        bytes[kept..].copy_from_slice(&unused);
    }
    reader.tail.copy_from_slice(&bytes);
    reader.kept = kept as u64;
    if random.one_in(8) {
        past_a_limit(random, &mut reader);
    }
    let piece = match random.below(6) {
        0 => vec![],
        _ => piece,
    };
    (reader, piece)
}

/// A state whose numbers are within their limits, with nothing kept.
fn within(random: &mut Random) -> CardReader {
    let any_rows = random.within(0..=ROWS_MOST);
    let (any_low, any_id) = (random.u64(), u64::from(random.u32()));
    let ids = [0, 1, 7, any_id, any_id, NO_ID - 2, NO_ID - 1, NO_ID];
    let far = [NO_ID + 1, 1 << 63, u64::MAX, any_low];
    let low = match random.below(8) {
        0 => random.pick(&far),
        _ => random.pick(&ids),
    };
    CardReader {
        read: random.pick(&[0, 0, 1, 2, any_rows, ROWS_MOST - 1, ROWS_MOST]) as u64,
        low,
        form: random.pick(&[NO_ROW, OLD, NEW]),
        phase: random.pick(&[READING, READING, READING, READING, READING, CLOSED, FAULT]),
        ..CardReader::begin()
    }
}

/// Gives one number of a state a value that it can't have.
fn past_a_limit(random: &mut Random, reader: &mut CardReader) {
    // Some of these are within the limit but for their high bits.
    let near = random.below(4) as u64;
    let far = random.pick(&[1 << 16, 1 << 32, 1 << 63, u64::MAX - 3]) + near;
    let above = random.pick(&[1, 1, 2]);
    match random.below(4) {
        0 => reader.kept = random.pick(&[TAIL_MOST as u64 + above, 256 + near, far]),
        1 => reader.read = random.pick(&[ROWS_MOST as u64 + above, far]),
        2 => reader.form = random.pick(&[2, 4, 5, 128 + OLD, 255]),
        _ => reader.phase = random.pick(&[3, 4, 128, 255]),
    }
}

/// Records that go with a state: rows from its least id on, of its form, and often the close; as they
/// are, or with a fault at one of them.
fn onward(random: &mut Random, reader: &CardReader) -> Vec<u8> {
    let form = match reader.form {
        OLD => Form::Old,
        NEW => Form::New,
        _ => random.pick(&Form::BOTH),
    };
    let count = random.within(0..=4);
    let rows = rows_from(random, reader.low, count);
    let read = reader.read as usize;
    let behind = Behind {
        read,
        low: reader.low.min(NO_ID),
        has_form: reader.form != NO_ROW,
    };
    if random.one_in(2) {
        return spoiled(random, &rows, form, behind);
    }
    let records = rows.iter().flat_map(|row| row_record(form, row));
    let close = match random.below(3) {
        0 => vec![],
        _ => close(read + rows.len()),
    };
    records.chain(close).collect()
}

/// So many rows in order, with ids from this on, close by or far off; where there are none such, the
/// last ids there are.
fn rows_from(random: &mut Random, low: u64, count: usize) -> Vec<Row> {
    let first = low.min(NO_ID - count as u64) as u32;
    let mut ids = books::ascending_ids(random, count);
    if random.one_in(2) || ids.first().is_some_and(|id| *id < first) {
        ids = (0..count as u32).map(|k| first + k).collect();
    }
    let marks = books::marks(random, count);
    let row = |(id, mark): (u32, u8)| {
        let length = random.pick(&[1, 1, 2, 4, 40, SLOT - 1, SLOT]);
        Row {
            id,
            mark,
            received: books::received(random, mark),
            sent: books::counter(random),
            key: random.bytes(length),
        }
    };
    ids.into_iter().zip(marks).map(row).collect()
}

fn any_bytes(random: &mut Random) -> Vec<u8> {
    let length = random.within(0..=200);
    random.bytes(length)
}

#[cfg(test)]
mod tests {
    use super::*;
    use reference::card::rows_of_card;
    use reference::card_pieces::good_rows;

    /// A fault at a record leaves the rows before it, and no card.
    #[test]
    fn a_fault_is_one_at_its_record() {
        let mut random = Random::new(51);
        let mut made = vec![];
        for _ in 0..200 {
            let form = random.pick(&Form::BOTH);
            let count = random.within(0..=5);
            let rows: Vec<Row> = rows_from(&mut random, 0, count)
                .into_iter()
                .map(|row| Row { mark: 1, ..row })
                .collect();
            for fault in Fault::ALL {
                let at = random.within(0..=count);
                let Some(bytes) = with_fault(&rows, form, Behind::NOTHING, at, fault) else {
                    continue;
                };
                let what = format!("{fault:?} at {at} of {count}, {form:?}");
                assert_eq!(rows_of_card(&bytes), None, "{what}");
                assert_eq!(good_rows(&bytes), rows[..at], "{what}");
                made.push(fault);
            }
        }
        assert!(Fault::ALL.iter().all(|fault| made.contains(fault)));
    }

    /// Pieces are the bytes, whatever the cutting; each size comes up, and none.
    #[test]
    fn pieces_are_the_bytes() {
        let mut random = Random::new(52);
        for _ in 0..2_000 {
            let card = any_card(&mut random);
            for cutting in Cutting::ALL {
                let pieces = cutting.of(&mut random, &card);
                assert_eq!(pieces.concat(), card, "{cutting:?}");
            }
        }
        let bytes = [7; 40];
        let mut sizes = [0; 41];
        for _ in 0..1_000 {
            for piece in Cutting::Any.of(&mut random, &bytes) {
                sizes[piece.len()] += 1;
            }
        }
        assert!(sizes.iter().all(|count| *count > 0), "{sizes:?}");
        let single = Cutting::SingleBytes.of(&mut random, &bytes);
        assert_eq!(single, [&[7][..]; 40]);
        assert_eq!(Cutting::Blocks.of(&mut random, &[7; 1_025])[2], [7]);
    }

    /// Cuts near a record's end come up before it, at it and behind it.
    #[test]
    fn cuts_near_records() {
        let mut random = Random::new(53);
        let rows = rows_from(&mut random, 0, 2);
        let first = row_record(Form::New, &rows[0]);
        let card = [&first[..], &row_record(Form::New, &rows[1]), &close(2)].concat();
        let mut sizes = vec![];
        for _ in 0..200 {
            sizes.push(Cutting::NearRecords.of(&mut random, &card)[0].len());
        }
        for size in [first.len() - 1, first.len(), first.len() + 1] {
            assert!(sizes.contains(&size), "{size}");
        }
    }

    /// The lengths that a book's room disagrees by, in each list and in all.
    #[test]
    fn sizes_disagree() {
        let mut random = Random::new(54);
        for _ in 0..500 {
            let mut book = books::with_rows(&mut random, 3, 0);
            spoil_sizes(&mut random, &mut book);
            assert!(!book.sizes_agree());
        }
    }

    type Situation = (&'static str, fn(&CardReader) -> bool);

    /// How states that are handed in may be; what comes of each is counted where they are fed.
    const STATES: [Situation; 22] = [
        ("fresh", |s| *s == CardReader::begin()),
        ("nothing kept, bytes in the tail", |s| {
            s.kept == 0 && s.tail != [0; TAIL_MOST]
        }),
        ("kept at its limit", |s| s.kept == TAIL_MOST as u64),
        ("kept above its limit", |s| s.kept == TAIL_MOST as u64 + 1),
        ("kept far above it", |s| s.kept == u64::MAX),
        ("kept within it but for a bit", |s| s.kept == (1 << 32) + 1),
        ("read at its limit", |s| s.read == ROWS_MOST as u64),
        ("read above its limit", |s| s.read == ROWS_MOST as u64 + 1),
        ("read far above it", |s| s.read == u64::MAX),
        ("read within it but for a bit", |s| s.read == (1 << 32) + 1),
        ("low 0", |s| s.low == 0),
        ("low the last id", |s| s.low == NO_ID - 1),
        ("low 2^32", |s| s.low == NO_ID),
        ("low 2^32 + 1", |s| s.low == NO_ID + 1),
        ("low 2^64 - 1", |s| s.low == u64::MAX),
        ("no row, but rows read", |s| s.form == NO_ROW && s.read > 0),
        ("form 2", |s| s.form == 2),
        ("form 255", |s| s.form == 255),
        ("closed, bytes kept", |s| s.phase == CLOSED && s.kept > 0),
        ("fault, bytes kept", |s| s.phase == FAULT && s.kept > 0),
        ("phase 3", |s| s.phase == 3),
        ("phase 255", |s| s.phase == 255),
    ];

    #[test]
    fn states_come_up_in_each_way() {
        let mut random = Random::new(55);
        let mut missing = STATES.to_vec();
        for _ in 0..20_000 {
            let (state, _) = state_and_piece(&mut random);
            missing.retain(|(_, holds)| !holds(&state));
        }
        let names: Vec<&str> = missing.iter().map(|(name, _)| *name).collect();
        assert!(names.is_empty(), "states never came up: {names:?}");
    }
}
