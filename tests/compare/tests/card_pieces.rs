//! Reading a card in pieces, beside the second implementation: the number, the state, the spare rows
//! and the book whole after every call, on drawn states and cards. And the laws of it on the library
//! alone: two pieces are as good as the two in one, and any cutting as the whole card. The sweeps are
//! in card_pieces_sweeps.rs.

use compare::generate::pieces::{any_card, room_for, spoil_sizes, state_and_piece, Cutting};
use compare::harness::{cases, compare, for_each_case, on_bytes, same, Difference, Tally};
use compare::met_pieces;
use compare::pieces::{
    fed_by_library, finished_by_library, read_by_library, read_in_pieces, room, same_rows, Reading,
};
use compare::random::Random;
use compare::runs::lend;
use reference::book::{ROOM_MOST, ROWS_MOST, SLOT};
use reference::card::{card_of_rows, rows_of_card, Form, Row};
use reference::card_pieces::{CLOSED, NEW, NO_ROW, OLD, READING, TAIL_MOST};
use reference::{Book, CardReader};
use rimemagpie::card_pieces::{CardReader as Wrapped, Phase};

/// A whole reading is many calls: here a part of the cases is enough.
fn some_cases() -> u64 {
    cases() / 10
}

#[test]
fn card_begin() {
    for_each_case("card_begin", 1_000, |random| {
        let (spare, book) = (room(random, 2), room(random, 2));
        Reading::begin(random, &spare, &book).map(|_| ())
    });
}

#[test]
fn card_feed() {
    let mut tally = Tally::new("card_feed, by state and piece");
    compare("card_feed", &[0, 1], |random| {
        let (state, piece) = state_and_piece(random);
        let mut spare = room_about(random, &state);
        if random.one_in(16) {
            spoil_sizes(random, &mut spare);
        }
        let book = room(random, 0);
        let mut reading = Reading::from(random, &state, &spare, &book);
        let number = on_bytes(reading.feed(random, &piece), "piece", &piece)?;
        for what in met_pieces::by_feed(&state, &spare, &piece, &reading.state) {
            tally.count(what);
        }
        Ok(number)
    });
    tally.print();
    tally.require(&met_pieces::fed());
}

/// Spare rows for a state: as many as it has read, a few more or fewer, or few.
fn room_about(random: &mut Random, state: &CardReader) -> Book {
    let read = state.read.min(ROWS_MOST as u64) as usize;
    let few = random.within(0..=3);
    let rows = random.pick(&[read, read + few, read.saturating_sub(few), few, read + 5]);
    room(random, rows)
}

#[test]
fn card_finish() {
    let mut tally = Tally::new("card_finish, by state and room");
    compare("card_finish", &[0, 1, 15, 17], |random| {
        let mut state = state_and_piece(random).0;
        state.phase = match random.below(2) {
            0 => CLOSED,
            _ => state.phase,
        };
        if state.kept <= TAIL_MOST as u64 && random.one_in(2) {
            state.kept = 0;
        }
        let (mut spare, mut book) = two_rooms(random, &state);
        if random.one_in(16) {
            spoil_sizes(random, &mut spare);
        } else if random.one_in(16) {
            spoil_sizes(random, &mut book);
        }
        let mut reading = Reading::from(random, &state, &spare, &book);
        let number = reading.finish(random)?.err().unwrap_or(0);
        tally.count(met_pieces::by_finish(&state, &spare, &book, number));
        Ok(number)
    });
    tally.print();
    tally.require(&met_pieces::finished());
}

/// Spare rows and a book of the same room, or now and then of another.
fn two_rooms(random: &mut Random, state: &CardReader) -> (Book, Book) {
    let spare = room_about(random, state);
    let rows = match random.below(16) {
        0 => spare.ids.len() + 1,
        1 => spare.ids.len().saturating_sub(1),
        2 if random.one_in(16) => ROOM_MOST + 1,
        _ => spare.ids.len(),
    };
    let book = room(random, rows);
    (spare, book)
}

/// Any card in any cutting.
#[test]
fn whole_readings() {
    let mut tally = Tally::new("reading in pieces, by cutting and number");
    for_each_case("reading in pieces", some_cases(), |random| {
        let card = any_card(random);
        let cutting = match random.pick(&Cutting::ALL) {
            Cutting::SingleBytes if card.len() > 1_000 => Cutting::Any,
            cutting => cutting,
        };
        let rows = rows_of_card(&card).map_or(3, |rows| rows.len());
        let room = room_for(random, rows);
        let pieces = cutting.of(random, &card);
        let number = on_bytes(read_in_pieces(random, &pieces, room), "card", &card)?;
        let empty = match pieces.iter().any(|piece| piece.is_empty()) {
            true => ", empty pieces",
            false => "",
        };
        tally.count(format!("{cutting:?}{empty}: {number}"));
        Ok(())
    });
    tally.print();
    let mut all = vec![];
    for cutting in Cutting::ALL {
        all.extend([0, 15, 17].map(|number| format!("{cutting:?}: {number}")));
    }
    all.extend([0, 15, 17].map(|number| format!("Any, empty pieces: {number}")));
    tally.require(&all);
}

/// From a made-up closed state the end copies whatever stands in the spare rows.
#[test]
fn a_made_up_close() {
    for_each_case("made-up close", 1_000, |random| {
        let rows = random.within(0..=5);
        let state = CardReader {
            read: rows as u64,
            low: random.u64(),
            form: random.pick(&[NO_ROW, OLD, NEW]),
            phase: CLOSED,
            ..CardReader::begin()
        };
        let (spare, book) = (room(random, rows), room(random, rows));
        let mut reading = Reading::from(random, &state, &spare, &book);
        same("the rows", &Ok(rows), &reading.finish(random)?)?;
        same_rows("the book", &spare, &reading.book)
    });
}

// ---- laws, on the library alone

/// From any state, refused ones too: two pieces leave the number, the state and the spare rows that
/// the two in one leave.
#[test]
fn two_pieces_or_one() {
    let mut tally = Tally::new("two pieces or one");
    for_each_case("two pieces or one", cases() / 2, |random| {
        let (state, piece) = state_and_piece(random);
        let mut spare = room_about(random, &state);
        if random.one_in(16) {
            spoil_sizes(random, &mut spare);
        }
        let cut = random.within(0..=piece.len());
        let (a, b) = piece.split_at(cut);
        let two = fed_by_library(&state, &spare, &[a, b]);
        let one = fed_by_library(&state, &spare, &[&piece]);
        tally.count(format!("{}, phase {}", one.0, one.1.phase));
        same("the number", &one.0, &two.0)?;
        same("the state", &one.1, &two.1)?;
        same_rows("the spare rows", &one.2, &two.2)?;
        if one.0 == 1 {
            same("a refused state", &state, &one.1)?;
            same_rows("refused spare rows", &spare, &one.2)?;
        }
        Ok(())
    });
    tally.print();
    tally.require(
        &["0, phase 0", "0, phase 1", "0, phase 2", "1, phase 0", "1, phase 1", "1, phase 2"]
            .map(String::from),
    );
}

/// From a fresh state any cutting gives the answer and the book of the whole card.
#[test]
fn any_cutting_or_the_whole() {
    let mut tally = Tally::new("any cutting or the whole");
    for_each_case("any cutting or the whole", cases() / 2, |random| {
        let card = any_card(random);
        let rows = rows_of_card(&card).map_or(2, |rows| rows.len());
        let n = room_for(random, rows);
        let (spare, book) = (room(random, n), room(random, n));
        let pieces = Cutting::Any.of(random, &card);
        let (taken, state, spare) = fed_by_library(&CardReader::begin(), &spare, &pieces);
        same("the number of a piece", &0, &taken)?;
        let (answer, book_read) = finished_by_library(&state, &spare, &book);
        let (whole, book_after) = read_by_library(&card, &book);
        tally.count(whole.err().unwrap_or(0));
        same("the answer", &whole, &answer)?;
        same_rows("the book", &book_after, &book_read)
    });
    tally.print();
    tally.require(&[0, 15, 17]);
}

// ---- the wrapper

/// The Rust wrapper beside the second implementation: what it makes of the state and the numbers.
#[test]
fn wrapper() {
    let mut tally = Tally::new("wrapper in pieces");
    for_each_case("wrapper in pieces", some_cases(), |random| {
        let card = any_card(random);
        let rows = rows_of_card(&card).map_or(3, |rows| rows.len());
        let n = room_for(random, rows);
        let (mut spare, mut book) = (room(random, n), room(random, n));
        if random.one_in(16) {
            spoil_sizes(random, &mut spare);
        }
        let (mut spare_after, mut book_after) = (spare.clone(), book.clone());
        let mut expected = CardReader::begin();
        let mut reader = Wrapped::begin();
        for piece in Cutting::Any.of(random, &card) {
            let answer = expected
                .feed(piece, &mut spare_after)
                .map_err(|r| r.number());
            let found = reader.feed(piece, &mut lend(&mut spare));
            same("a piece", &answer, &found.map_err(|r| r.number()))?;
            same_state(&expected, &reader)?;
            same_rows("the spare rows", &spare_after, &spare)?;
        }
        let rows_before = random.below(3);
        (book.rows, book_after.rows) = (rows_before, rows_before);
        let answer = expected.finish(&spare_after, &mut book_after);
        book_after.rows = answer.unwrap_or(rows_before);
        let mut lent = lend(&mut book);
        let found = reader.finish(&lend(&mut spare), &mut lent);
        let rows = lent.rows;
        book.rows = rows;
        let number = found.err().map_or(0, |refusal| refusal.number());
        let expected = answer.err().map_or(0, |refusal| refusal.number());
        same("the end", &expected, &number)?;
        same_rows("the book", &book_after, &book)?;
        same_rows("the spare rows", &spare_after, &spare)?;
        tally.count(number);
        Ok(())
    });
    tally.print();
    tally.require(&[0, 1, 15, 17]);
}

/// Whether the wrapper's reader says what the state has.
fn same_state(expected: &CardReader, reader: &Wrapped) -> Result<(), Difference> {
    let form = match expected.form {
        OLD => Some(rimemagpie::Form::Old),
        NEW => Some(rimemagpie::Form::New),
        _ => None,
    };
    let phase = match expected.phase {
        READING => Phase::Reading,
        CLOSED => Phase::Closed,
        _ => Phase::Fault,
    };
    same("rows", &(expected.read as usize), &reader.rows())?;
    same("form", &form, &reader.form())?;
    same("phase", &phase, &reader.phase())
}

/// Readers that differ in what is left of a key print the same text.
#[test]
fn a_printed_reader_shows_no_key() {
    let printed = |key: u8| {
        let card = card_of_rows(Form::New, &[Row::new(7, &[key; SLOT])]);
        let mut spare = Book::with_room(1);
        let mut reader = Wrapped::default();
        reader.feed(&card[..80], &mut lend(&mut spare)).unwrap();
        (format!("{reader:?}"), format!("{reader:#?}"))
    };
    assert_eq!(printed(1), printed(200));
    assert!(printed(1).0.contains("tail: 80 bytes"));
}
