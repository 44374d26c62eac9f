//! Reading a card in pieces, every value of one thing at a time where there are few enough to try them
//! all: each byte that a card is cut at, each fault at each record, each length and kind of a record,
//! each size and room, each form and phase, and counts about their limits. Little is drawn here: what
//! lies in the rooms before, and for counts about their limits the room and the piece.

use compare::generate::cards;
use compare::generate::pieces::{at_places, close, with_fault, Behind, Fault};
use compare::harness::Tally;
use compare::pieces::{fed_by_library, read_in_pieces, room, Reading};
use compare::random::Random;
use reference::book::{ROOM_MOST, ROWS_MOST, SLOT};
use reference::card::{card_of_rows, row_record, rows_of_card, Form, Row};
use reference::card_pieces::{
    with_rows, CLOSED, FAULT, NEW, NO_ID, NO_ROW, OLD, READING, RECORD_MOST, TAIL_MOST,
};
use reference::examples::{CARDS_B, CARD_B_NOT_HEARD, CARD_EMPTY};
use reference::{Book, CardReader};

/// Heard rows with ids from 3 on by threes and keys of many sizes, some of them the longest.
fn rows_in_order(count: usize) -> Vec<Row> {
    let row = |k: usize| {
        let size = 1 + (k * 21) % SLOT;
        Row {
            sent: u64::MAX - k as u64,
            ..Row::heard(3 * k as u32 + 3, &vec![0x40 + k as u8 % 64; size], k as u64)
        }
    };
    (0..count).map(row).collect()
}

/// As many rows as there may be, all with the longest key.
fn most_rows() -> Vec<Row> {
    let row = |k: usize| Row::heard(k as u32, &[k as u8; SLOT], 1);
    (0..ROWS_MOST).map(row).collect()
}

/// Both read pieces from a fresh state into this room, as the whole card is read, and nothing may
/// differ. Gives the number.
fn number(random: &mut Random, pieces: &[&[u8]], rows: usize) -> u8 {
    match read_in_pieces(random, pieces, rows) {
        Ok(number) => number,
        Err(difference) => panic!("{difference}\npieces: {pieces:?}"),
    }
}

// ---- cuttings

/// Cards of a few rows: the bench examples', and of both forms with keys of many sizes.
fn small_cards() -> Vec<Vec<u8>> {
    let mut cards = [&CARDS_B[..], &[&CARD_B_NOT_HEARD, &CARD_EMPTY]].concat();
    let made: Vec<Vec<u8>> = Form::BOTH
        .into_iter()
        .flat_map(|form| [1, 2, 5].map(|count| card_of_rows(form, &rows_in_order(count))))
        .collect();
    cards.extend(made.iter().map(|card| &card[..]));
    cards.into_iter().map(<[u8]>::to_vec).collect()
}

/// Each card cut at every byte, and at every two of the smaller ones; and in single bytes, with empty
/// pieces between them.
#[test]
fn cut_at_every_byte() {
    let random = &mut Random::new(31);
    for card in small_cards() {
        let rows = rows_of_card(&card).unwrap().len();
        for first in 0..=card.len() {
            let pieces = at_places(&card, &[first]);
            assert_eq!(number(random, &pieces, rows), 0, "cut at {first}");
            let seconds = match card.len() {
                0..=150 => first..=card.len(),
                _ => first..=first,
            };
            for second in seconds {
                let pieces = at_places(&card, &[first, second]);
                assert_eq!(number(random, &pieces, rows), 0, "cut at {first}, {second}");
            }
        }
        let single: Vec<&[u8]> = card.chunks(1).collect();
        assert_eq!(number(random, &single, rows), 0);
        let with_empty: Vec<&[u8]> = single.iter().flat_map(|byte| [&[], *byte, &[]]).collect();
        assert_eq!(number(random, &with_empty, rows), 0);
    }
}

/// The largest card of each form: in single bytes, cut near the end of each record, in pieces of each
/// size up to a few records, and 512 bytes at a time.
#[test]
fn the_largest_cards() {
    let random = &mut Random::new(32);
    for form in Form::BOTH {
        let card = card_of_rows(form, &most_rows());
        let record = row_record(form, &most_rows()[0]).len();
        let mut sizes: Vec<usize> = (50..=3 * record).step_by(7).collect();
        sizes.extend([1, record - 1, record, record + 1, 512, card.len()]);
        for size in sizes {
            let pieces: Vec<&[u8]> = card.chunks(size).collect();
            assert_eq!(number(random, &pieces, ROWS_MOST), 0, "{size} at a time");
        }
        for at in [0, 1, 2, ROWS_MOST / 2, ROWS_MOST - 1, ROWS_MOST] {
            for near in 0..=6 {
                let place = (at * record + near).saturating_sub(3);
                let pieces = at_places(&card, &[place]);
                assert_eq!(number(random, &pieces, ROWS_MOST), 0, "cut at {place}");
            }
        }
    }
}

/// The state inside and between records, by hand: it is the same however the card is cut.
#[test]
fn the_state_at_every_byte() {
    let random = &mut Random::new(33);
    for form in Form::BOTH {
        let rows = rows_in_order(3);
        let card = card_of_rows(form, &rows);
        let records: Vec<Vec<u8>> = rows.iter().map(|row| row_record(form, row)).collect();
        let spare = room(random, 3);
        for end in 0..=card.len() {
            let whole_before = |count: usize| records[..count].concat().len() <= end;
            let read = (0..=3).filter(|count| whole_before(*count)).count() - 1;
            let kept = match end == card.len() {
                true => &[],
                false => &card[records[..read].concat().len()..end],
            };
            let mut expected = CardReader {
                kept: kept.len() as u64,
                read: read as u64,
                low: 3 * read as u64 + u64::from(read > 0),
                form: if read > 0 { form.kind() as u8 } else { NO_ROW },
                phase: if end == card.len() { CLOSED } else { READING },
                ..CardReader::begin()
            };
            expected.tail[..kept.len()].copy_from_slice(kept);
            let single: Vec<&[u8]> = card[..end].chunks(1).collect();
            for pieces in [&[&card[..end]][..], &single] {
                let fed = fed_by_library(&CardReader::begin(), &spare, pieces);
                let rows_set = with_rows(&spare, &rows[..read]);
                assert_eq!(fed, (0, expected.clone(), rows_set), "{end} bytes");
            }
        }
    }
}

// ---- faults

/// What both say of bytes with a fault behind these good rows: 15, with just these in the spare rows.
/// However the bytes are cut near the fault, the state is the same.
fn faulty(random: &mut Random, bytes: &[u8], good: &[Row], form: Form, what: &str) {
    let expected_read = good.len() as u64;
    let start = good.iter().map(|row| row_record(form, row).len()).sum();
    let spare = room(random, good.len() + 1);
    let states: Vec<(u8, CardReader, Book)> = cuttings_near(bytes, start)
        .into_iter()
        .map(|pieces| {
            assert_eq!(number(random, &pieces, good.len() + 1), 15, "{what}");
            fed_by_library(&CardReader::begin(), &spare, &pieces)
        })
        .collect();
    let (taken, state, rows) = &states[0];
    assert_eq!((*taken, state.read), (0, expected_read), "{what}");
    assert_eq!(*rows, with_rows(&spare, good), "{what}");
    assert!(states.iter().all(|s| *s == states[0]), "{what}");
}

/// One piece; two pieces, cut at each byte of the record that begins at a place, and near it; and
/// single bytes there.
fn cuttings_near(bytes: &[u8], place: usize) -> Vec<Vec<&[u8]>> {
    let last = bytes.len();
    let near = place.saturating_sub(2)..=(place + RECORD_MOST + 8).min(last);
    let mut all = vec![vec![bytes]];
    all.extend(near.clone().map(|cut| at_places(bytes, &[cut])));
    let single: Vec<usize> = near.collect();
    all.push(at_places(bytes, &single));
    all
}

/// Every fault at every record of cards of no rows to four.
#[test]
fn faults_at_every_record() {
    let random = &mut Random::new(34);
    let mut tally = Tally::new("faults at every record");
    for form in Form::BOTH {
        for count in 0..=4 {
            let rows = rows_in_order(count);
            for at in 0..=count {
                for fault in Fault::ALL {
                    let Some(bytes) = with_fault(&rows, form, Behind::NOTHING, at, fault) else {
                        continue;
                    };
                    let what = format!("{fault:?} at {at} of {count}, {form:?}");
                    faulty(random, &bytes, &rows[..at], form, &what);
                    tally.count(format!("{fault:?}"));
                }
            }
        }
    }
    tally.require(&Fault::ALL.map(|fault| format!("{fault:?}")));
}

/// The same at the last records of the largest cards; and a row too many.
#[test]
fn faults_in_the_largest_cards() {
    let random = &mut Random::new(35);
    let rows = most_rows();
    for form in Form::BOTH {
        for at in [ROWS_MOST - 1, ROWS_MOST] {
            for fault in Fault::ALL {
                if let Some(bytes) = with_fault(&rows, form, Behind::NOTHING, at, fault) {
                    let pieces: [Vec<&[u8]>; 2] = [vec![&bytes], bytes.chunks(512).collect()];
                    for pieces in pieces {
                        let number = number(random, &pieces, ROWS_MOST);
                        assert_eq!(number, 15, "{fault:?} at {at}, {form:?}");
                    }
                }
            }
        }
        let mut too_many = rows_in_order(ROWS_MOST + 1);
        too_many.iter_mut().for_each(|row| row.key.truncate(1));
        for closed in [ROWS_MOST, ROWS_MOST + 1] {
            let records = too_many.iter().flat_map(|row| row_record(form, row));
            let bytes: Vec<u8> = records.chain(close(closed)).collect();
            faulty(
                random,
                &bytes,
                &too_many[..ROWS_MOST],
                form,
                "a row too many",
            );
        }
    }
}

/// Each length and each kind of a first record, given as far as they are there.
#[test]
fn each_length_and_kind() {
    let random = &mut Random::new(36);
    let spare = room(random, 1);
    for length in 0..=u16::MAX {
        let bytes = length.to_le_bytes();
        let (_, state, _) = fed_by_library(&CardReader::begin(), &spare, &[&bytes]);
        let is_length = length == 4 || (23..=87).contains(&length);
        let expected = if is_length { READING } else { FAULT };
        assert_eq!(state.phase, expected, "{length}");
    }
    for kind in 0..=u16::MAX {
        for length in [4_u16, 23, 24, 86, 87] {
            let mut bytes = [&length.to_le_bytes()[..], &kind.to_le_bytes()].concat();
            bytes.resize(usize::from(length) + 2, 0);
            let before = fed_by_library(&CardReader::begin(), &spare, &[&bytes[..bytes.len() - 1]]);
            assert_eq!((before.0, before.1.phase), (0, READING), "{kind}, {length}");
            let (_, state, _) = fed_by_library(&CardReader::begin(), &spare, &[&bytes]);
            let expected = match (kind, length) {
                (1, 23..=86) | (3, 24..=87) => READING,
                (2, 4) => CLOSED,
                _ => FAULT,
            };
            assert_eq!(state.phase, expected, "{kind}, {length}");
        }
    }
}

/// Rows of both kinds, and marks that are wrong, cut at every byte.
#[test]
fn wrongly_marked_cards() {
    let random = &mut Random::new(43);
    for card in cards::wrongly_marked() {
        for first in 0..=card.len() {
            assert_eq!(number(random, &at_places(&card, &[first]), 2), 15);
        }
    }
}

// ---- rooms and sizes

/// Room for each number of rows beside a card of six: 17 where there are fewer, and the spare rows
/// hold the first of them.
#[test]
fn room_for_fewer_rows() {
    let random = &mut Random::new(37);
    for form in Form::BOTH {
        let rows = rows_in_order(6);
        let card = card_of_rows(form, &rows);
        for n in 0..=8 {
            for size in [1, 7, 40, 89, card.len()] {
                let pieces: Vec<&[u8]> = card.chunks(size).collect();
                let expected = if n < 6 { 17 } else { 0 };
                assert_eq!(number(random, &pieces, n), expected, "room for {n}");
                let spare = room(random, n);
                let (_, state, after) = fed_by_library(&CardReader::begin(), &spare, &pieces);
                assert_eq!((state.read, state.phase), (6, CLOSED));
                assert_eq!(after, with_rows(&spare, &rows[..n.min(6)]));
            }
            // 15 comes before 17.
            let cut = &card[..card.len() - 1];
            assert_eq!(number(random, &[cut], n), 15, "room for {n}");
        }
        let most = card_of_rows(form, &most_rows());
        let pieces: Vec<&[u8]> = most.chunks(512).collect();
        assert_eq!(number(random, &pieces, ROWS_MOST - 1), 17);
        assert_eq!(number(random, &pieces, ROOM_MOST), 0);
    }
}

/// A change of the size of one list.
type Resize = fn(&mut Book, usize);

/// Each list of a book's room, given another size.
const LISTS: [Resize; 6] = [
    |book, size| book.ids.resize(size, 7),
    |book, size| book.lengths.resize(size, 7),
    |book, size| book.store.resize(size, 7),
    |book, size| book.marks.resize(size, 7),
    |book, size| book.received.resize(size, 7),
    |book, size| book.sent.resize(size, 7),
];

/// Each size of each list, of the spare rows and of the book, beside the others'; at each phase.
#[test]
fn each_size() {
    let random = &mut Random::new(38);
    let n = 2;
    for (list, resize) in LISTS.iter().enumerate() {
        let right = if list == 2 { SLOT * n } else { n };
        for size in (0..=5).chain(right - 1..=right + 1).chain([SLOT, 3 * SLOT]) {
            for phase in [READING, CLOSED, FAULT] {
                let state = CardReader {
                    read: 1,
                    phase,
                    ..CardReader::begin()
                };
                let (good, mut uneven) = (room(random, n), room(random, n));
                resize(&mut uneven, size);
                let agree = size == right;
                let at_end = if phase == CLOSED { 0 } else { 15 };
                let what = format!("list {list} of {size}, phase {phase}");
                let mut fed = Reading::from(random, &state, &uneven, &good);
                let expected = if agree { 0 } else { 1 };
                assert_eq!(fed.feed(random, &[4]), Ok(expected), "{what}");
                let expected = if agree { at_end } else { 1 };
                for (spare, book) in [(&uneven, &good), (&good, &uneven), (&uneven, &uneven)] {
                    let mut reading = Reading::from(random, &state, spare, book);
                    let answer = reading.finish(random).unwrap();
                    assert_eq!(answer.err().unwrap_or(0), expected, "{what}");
                }
            }
        }
    }
}

/// Each room of the spare rows beside each of the book, and the largest there may be.
#[test]
fn each_room() {
    let random = &mut Random::new(39);
    let closed = CardReader {
        read: 2,
        phase: CLOSED,
        ..CardReader::begin()
    };
    let rooms = [0, 1, 2, 3, ROOM_MOST - 1, ROOM_MOST, ROOM_MOST + 1];
    for n in rooms {
        for m in rooms {
            let (spare, book) = (room(random, n), room(random, m));
            let mut reading = Reading::from(random, &closed, &spare, &book);
            let fed = reading.feed(random, &[]).unwrap();
            assert_eq!(fed, u8::from(n > ROOM_MOST), "room for {n}");
            let answer = reading.finish(random).unwrap();
            let expected = match n {
                _ if n != m || n > ROOM_MOST => Err(1),
                0 | 1 => Err(17),
                _ => Ok(2),
            };
            assert_eq!(answer, expected, "room for {n} and {m}");
        }
    }
}

// ---- states that no card makes

/// Each number that the form and the phase may be given.
#[test]
fn each_form_and_phase() {
    let random = &mut Random::new(40);
    let (spare, book) = (room(random, 2), room(random, 2));
    let first = row_record(Form::New, &Row::new(7, &[1]));
    for form in 0..=255 {
        for phase in 0..=255 {
            if phase > 4 && ![NO_ROW, 2, NEW, 255].contains(&form) {
                continue;
            }
            let state = CardReader {
                form,
                phase,
                ..CardReader::begin()
            };
            let known = [NO_ROW, OLD, NEW].contains(&form) && phase <= FAULT;
            let what = format!("form {form}, phase {phase}");
            let mut reading = Reading::from(random, &state, &spare, &book);
            let end = reading.finish(random).unwrap();
            let expected = match (known, phase) {
                (false, _) => Err(1),
                (true, CLOSED) => Ok(0),
                _ => Err(15),
            };
            assert_eq!(end, expected, "{what}");
            let fed = reading.feed(random, &first).unwrap();
            assert_eq!(fed, u8::from(!known), "{what}");
            let expected = match (known, phase) {
                (false, _) => (form, phase),
                (true, READING) if form != OLD => (NEW, READING),
                _ => (form, FAULT),
            };
            let after = (reading.state.form, reading.state.phase);
            assert_eq!(after, expected, "{what}");
        }
    }
}

/// Numbers at, above and far above a limit.
fn about(limit: u64) -> Vec<u64> {
    let far = [256, 257, 1 << 16, 1 << 32, (1 << 32) + 1, 1 << 63, u64::MAX];
    let near = [0, 1, 2, limit - 1, limit, limit + 1, limit + 2];
    near.into_iter().chain(far).collect()
}

/// Each count about its limit, each least id, each form and phase, with whole records in the tail and
/// behind it: one call and the end.
#[test]
fn counts_about_their_limits() {
    let random = &mut Random::new(41);
    let lows = [0, 7, 8, 9, NO_ID - 1, NO_ID, NO_ID + 1, u64::MAX];
    let mut numbers = Tally::new("counts about their limits");
    for kept in about(TAIL_MOST as u64) {
        for read in about(ROWS_MOST as u64) {
            for low in lows {
                for form in [NO_ROW, OLD, NEW] {
                    for phase in [READING, CLOSED, FAULT] {
                        let mut state = CardReader {
                            kept,
                            read,
                            low,
                            form,
                            phase,
                            ..CardReader::begin()
                        };
                        let forms = if form == NEW { Form::New } else { Form::Old };
                        let mut bytes = row_record(forms, &Row::heard(8, &[1, 2], 3));
                        bytes.extend(close(read as usize % ROWS_MOST + 1));
                        bytes.resize(TAIL_MOST, 4);
                        state.tail.copy_from_slice(&bytes);
                        let rows = random.pick(&[0, 2, ROWS_MOST]);
                        let (spare, book) = (room(random, rows), room(random, rows));
                        let mut reading = Reading::from(random, &state, &spare, &book);
                        let end = reading.finish(random).unwrap();
                        numbers.count(format!("end {}", end.err().unwrap_or(0)));
                        let piece = &bytes[..random.pick(&[0, 1, 30])];
                        let fed = reading.feed(random, piece).unwrap();
                        numbers.count(format!("piece {fed}"));
                        let past = kept > TAIL_MOST as u64 || read > ROWS_MOST as u64;
                        assert_eq!(fed == 1, past, "kept {kept}, read {read}");
                        assert_eq!(end == Err(1), past, "kept {kept}, read {read}");
                    }
                }
            }
        }
    }
    numbers.print();
    let all = ["end 0", "end 1", "end 15", "end 17", "piece 0", "piece 1"];
    numbers.require(&all.map(String::from));
}

/// Tails of each size that hold whole records, which an empty piece reads and the end doesn't.
#[test]
fn whole_records_in_a_tail() {
    let random = &mut Random::new(42);
    for form in Form::BOTH {
        let rows: Vec<Row> = (1..=3).map(|id| Row::heard(id, &[1], 0)).collect();
        let card = card_of_rows(form, &rows);
        for kept in 0..=TAIL_MOST.min(card.len()) {
            let mut state = CardReader {
                kept: kept as u64,
                ..CardReader::begin()
            };
            state.tail[..kept].copy_from_slice(&card[..kept]);
            let (spare, book) = (room(random, 3), room(random, 3));
            let mut reading = Reading::from(random, &state, &spare, &book);
            assert_eq!(reading.finish(random), Ok(Err(15)), "{kept} kept");
            assert_eq!(reading.feed(random, &[]), Ok(0));
            let expected = fed_by_library(&CardReader::begin(), &spare, &[&card[..kept]]);
            let found = (0, reading.state.clone(), reading.spare.clone());
            assert_eq!(found, expected, "{kept} kept");
            assert_eq!(reading.feed(random, &card[kept..]), Ok(0));
            assert_eq!(reading.finish(random), Ok(Ok(3)), "{kept} kept");
        }
    }
}
