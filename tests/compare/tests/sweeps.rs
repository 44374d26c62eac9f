//! Every value of one thing at a time, where there are few enough to try them all: each bit of a
//! message and of a card, each length of a digest, of a message, of option 90 and of option 82, each
//! place of option 82, each mark, each row of a book, each kind of a row and each room for a card. No
//! number is drawn here.

use compare::generate::{books, messages};
use compare::runs::{lend, Implementation, Library, Reference};
use reference::auth::sign;
use reference::book::{goes_with, HEARD, NOT_HEARD};
use reference::card::{card_of_rows, row_record, rows_of_card, Form, Row};
use reference::examples::{
    book_b, book_b_not_heard, full_option_90, message_with, CARDS_B, CARD_B_NOT_HEARD, CARD_EMPTY,
    NEW_CARD_B, OLD_CARD_B,
};
use reference::message::{full_form, places};
use reference::refusal::number_of;
use reference::relay::{relayed, Option82, RelayChange};
use reference::{Accepted, Book};

/// Both implementations check a message on a book.
fn answer(book: &Book, message: &[u8]) -> Result<Accepted, u8> {
    let (mut expected_book, mut found_book) = (book.clone(), book.clone());
    let expected = Reference::check(&mut expected_book, message);
    let found = Library::check(&mut found_book, message);
    assert_eq!(found, expected, "{message:?}");
    assert_eq!(found_book, expected_book, "{message:?}");
    found
}

/// Both check it on book B; gives the number.
fn checked(message: &[u8]) -> u8 {
    answer(&book_b(), message).err().unwrap_or(0)
}

/// Where option 90 begins in the message below.
const AUTHENTICATION_AT: usize = 249;

/// A message that B accepts, with other options and pads around option 90, and bytes after End.
fn accepted() -> Vec<u8> {
    let options = [
        &[53, 1, 5, 0, 12, 3, 90, 82, 255][..],
        &full_option_90(0, 0),
        &[0, 51, 4, 0, 0, 14, 16, 0, 255, 90, 82, 0],
    ];
    let message = signed(message_with(&options.concat()));
    assert_eq!(checked(&message), 0);
    message
}

fn signed(mut message: Vec<u8>) -> Vec<u8> {
    let shape = full_form(&message).unwrap();
    sign(&mut message, &shape, &[1, 2, 3, 4], 7, 11);
    message
}

/// The body lengths of option 82 that are tried at each place.
const LENGTHS: [usize; 3] = [0, 1, 255];

/// The message relayed with an option 82, whose body looks like options 90, at a place.
fn with_82(message: &[u8], at: usize, length: usize) -> Vec<u8> {
    let change = RelayChange {
        hops: 1,
        giaddr: [192, 168, 1, 1],
        option_82: Option82::Add {
            at,
            body: vec![90; length],
        },
    };
    relayed(message, &change).unwrap()
}

/// The message with such an option 82 put in, whatever it has already.
fn with_another_82(message: &[u8], at: usize, length: usize) -> Vec<u8> {
    let (before, behind) = message.split_at(at);
    [before, &[82, length as u8], &vec![90; length], behind].concat()
}

/// A changed bit is refused unless it is in hops, giaddr or option 82's body.
#[test]
fn each_bit_of_a_message() {
    let plain = accepted();
    assert_eq!(bits_that_are_free(&plain), 8 + 32);
    for at in places(&plain).unwrap() {
        let relayed = with_82(&plain, at, 9);
        assert_eq!(bits_that_are_free(&relayed), 8 + 32 + 72, "82 at {at}");
    }
}

/// How many bits of a message can be changed, one at a time, and it is still accepted.
fn bits_that_are_free(message: &[u8]) -> usize {
    let accepted_without = |bit: &usize| {
        let mut changed = message.to_vec();
        changed[bit / 8] ^= 1 << (bit % 8);
        checked(&changed) == 0
    };
    (0..8 * message.len()).filter(accepted_without).count()
}

/// The message cut to each length, and filled up to each length past the largest.
#[test]
fn each_length_of_a_message() {
    let message = accepted();
    for length in 0..=1_500 {
        let mut changed = message.clone();
        changed.resize(length, 0);
        let number = checked(&changed);
        let outside = !(241..=1_472).contains(&length);
        assert_eq!(number == 2, outside, "{length} bytes");
    }
}

/// Option 90 with each length, its body beginning with 1, 1, 0 as far as it reaches.
#[test]
fn each_length_of_option_90() {
    for length in 0..=255 {
        let mut body = vec![0; length];
        body.iter_mut().zip([1, 1, 0]).for_each(|(b, v)| *b = v);
        let options = [&[90, length as u8][..], &body, &[255]];
        let number = checked(&message_with(&options.concat()));
        let expected = match length {
            11 => 9,
            31 => 10,
            _ => 8,
        };
        assert_eq!(number, expected, "length {length}");
    }
}

/// Each protocol, algorithm and replay method, in the full form and the request form.
#[test]
fn each_protocol_number() {
    let request = |mut body: Vec<u8>| {
        body.truncate(13);
        body[1] = 11;
        body
    };
    for (at, right) in [(2, 1), (3, 1), (4, 0)] {
        for value in 0..=255 {
            let mut full = full_option_90(7, 11);
            full[at] = value;
            let short = request(full.clone());
            let numbers = [full, short].map(|o| checked(&message_with(&[&o[..], &[255]].concat())));
            let expected = if value == right { [12, 9] } else { [8, 8] };
            assert_eq!(numbers, expected, "byte {at} is {value}");
        }
    }
}

/// Option 82 with each body length that fits, at each place, is taken out of the image.
#[test]
fn each_length_of_option_82() {
    let message = accepted();
    for at in places(&message).unwrap() {
        for length in 0..=255 {
            let number = checked(&with_82(&message, at, length));
            assert_eq!(number, 0, "{length} bytes at {at}");
        }
    }
}

/// The message above, and one like it for each number that looks at more than which options there
/// are.
fn of_each_number() -> Vec<(u8, Vec<u8>)> {
    let o = AUTHENTICATION_AT;
    let changed = |at: usize, value: u8| {
        let mut message = accepted();
        message[at] = value;
        message
    };
    let mut request = changed(o + 1, 11);
    request.drain(o + 13..o + 33);
    let wrong_mac = changed(o + 32, !accepted()[o + 32]);
    vec![
        (0, accepted()),
        (8, changed(o + 2, 0)),
        (9, request),
        (10, changed(o + 16, 8)),
        (11, changed(o + 12, 10)),
        (12, wrong_mac),
    ]
}

/// An option 82 before each option, pad and End: the answer is the one that is given without it.
#[test]
fn option_82_at_each_place() {
    for (number, message) in of_each_number() {
        assert_eq!(checked(&message), number);
        let expected = answer(&book_b(), &message);
        for at in places(&message).unwrap() {
            for length in LENGTHS {
                let found = answer(&book_b(), &with_82(&message, at, length));
                assert_eq!(found, expected, "{length} bytes at {at}");
            }
        }
    }
}

/// A second option 82 at each place, with the first at each place: 7, and nothing is sealed.
#[test]
fn a_second_option_82_at_each_place() {
    let message = accepted();
    for first in places(&message).unwrap() {
        let one = with_82(&message, first, 9);
        for second in places(&one).unwrap() {
            for length in LENGTHS {
                let two = with_another_82(&one, second, length);
                assert_eq!(checked(&two), 7, "82 at {first} and {second}");
                let mut kept = two.clone();
                assert_eq!(Library::seal(&mut book_b(), 7, &mut kept), Err(7));
                assert_eq!(kept, two);
            }
        }
    }
}

/// An option 82 at each place that makes 1,472 bytes is taken out; with one byte more the number is
/// 2.
#[test]
fn option_82_up_to_the_largest_size() {
    for length in [0, 1, 254] {
        let mut message = accepted();
        message.resize(1_470 - length, 0xAB);
        let message = signed(message);
        for at in places(&message).unwrap() {
            let full = with_82(&message, at, length);
            assert_eq!(full.len(), 1_472);
            assert_eq!(checked(&full), 0, "{length} bytes at {at}");
            let above = with_another_82(&message, at, length + 1);
            assert_eq!(checked(&above), 2, "{length} bytes and one at {at}");
        }
    }
}

/// Both implementations seal a message under id 7 on book B, which gives counter 4.
fn sealed(message: &[u8]) -> Vec<u8> {
    let (mut expected, mut found) = (message.to_vec(), message.to_vec());
    let (mut expected_book, mut found_book) = (book_b(), book_b());
    assert_eq!(Library::seal(&mut found_book, 7, &mut found), Ok(4));
    assert_eq!(Reference::seal(&mut expected_book, 7, &mut expected), Ok(4));
    assert_eq!(found_book.sent, [4]);
    assert_eq!(found_book, expected_book);
    assert_eq!(found, expected, "{message:?}");
    found
}

/// A seal with option 82 at each place writes bytes o+5 to o+32, o being where option 90 stands in
/// the message: the same bytes as without option 82. The receiver accepts the message.
#[test]
fn sealed_with_option_82_at_each_place() {
    let plain = accepted();
    let written = sealed(&plain)[AUTHENTICATION_AT..][5..33].to_vec();
    let mut receiver = book_b();
    receiver.received[0] = 3;
    for at in places(&plain).unwrap() {
        for length in LENGTHS {
            let message = with_82(&plain, at, length);
            let before_90 = at <= AUTHENTICATION_AT;
            let o = AUTHENTICATION_AT + if before_90 { 2 + length } else { 0 };
            let mut expected = message.clone();
            expected[o + 5..o + 33].copy_from_slice(&written);
            assert_eq!(sealed(&message), expected, "{length} bytes at {at}");
            let counter = answer(&receiver, &expected).map(|accepted| accepted.counter);
            assert_eq!(counter, Ok(4), "{length} bytes at {at}");
        }
    }
}

/// A message sealed by the library, at each length that a message may have, without an option 82
/// and with one before option 90.
#[test]
fn each_length_sealed() {
    for front in [&[][..], &[82, 3, 90, 31, 1]] {
        let shortest = message_with(&[front, &full_option_90(0, 0), &[255]].concat());
        for length in shortest.len()..=1_472 {
            let mut message = shortest.clone();
            message.resize(length, 0xAB);
            sealed(&message);
        }
    }
}

/// Digests and MACs of each length over several blocks and at the limit.
#[test]
fn each_length_of_a_digest() {
    let bytes: Vec<u8> = (0..65_600_u32).map(|i| (i * 7 % 251) as u8).collect();
    for length in (0..=700).chain(65_460..=65_545) {
        let message = &bytes[..length];
        let digest = rimemagpie::digest(message).map_err(|r| r.number());
        assert_eq!(digest, reference::digest(message).map_err(|r| r.number()));
        let mac = rimemagpie::hmac(b"Jefe", message).map_err(|r| r.number());
        let expected = reference::hmac(b"Jefe", message);
        assert_eq!(mac, expected.map_err(|r| r.number()), "{length} bytes");
    }
    for length in 0..=255 {
        let key = &bytes[..length];
        let mac = rimemagpie::hmac(key, b"data").map_err(|r| r.number());
        let expected = reference::hmac(key, b"data");
        assert_eq!(mac, expected.map_err(|r| r.number()), "key of {length}");
    }
}

/// Both implementations read a card into the same room.
fn read(card: &[u8]) -> u8 {
    let room = Book {
        ids: vec![5; 3],
        lengths: vec![5; 3],
        store: vec![5; 192],
        marks: vec![5; 3],
        received: vec![5; 3],
        sent: vec![5; 3],
        rows: 0,
    };
    let (mut expected_book, mut found_book) = (room.clone(), room);
    let expected = reference::card_read(card, &mut expected_book);
    let answer = lend(&mut found_book).card_read(card);
    let number = answer.map_or_else(|refusal| refusal.number(), |()| 0);
    assert_eq!(number, number_of(&expected), "{card:?}");
    assert_eq!(found_book, expected_book, "{card:?}");
    number
}

/// How many bits of a card can be changed, one at a time, and it is still read.
fn bits_still_read(card: &[u8]) -> usize {
    let read_without = |bit: &usize| {
        let mut changed = card.to_vec();
        changed[bit / 8] ^= 1 << (bit % 8);
        read(&changed) == 0
    };
    (0..8 * card.len()).filter(read_without).count()
}

/// Book B's cards with each bit changed.
#[test]
fn each_bit_of_a_card() {
    // The bits of id, both counters and the key.
    assert_eq!(bits_still_read(&OLD_CARD_B), 8 * (4 + 8 + 8 + 4));
    // The same, and the bit that makes kind 3 to 1: an old row whose key has a byte more.
    assert_eq!(bits_still_read(&NEW_CARD_B), 8 * (4 + 8 + 8 + 4) + 1);
    // The same without the received counter, and the lowest bit of the mark.
    let not_heard = bits_still_read(&CARD_B_NOT_HEARD);
    assert_eq!(not_heard, 8 * (4 + 8 + 4) + 1 + 1);
}

/// Book B's cards cut to each length, and with each byte after them.
#[test]
fn each_length_of_a_card() {
    for card in [&OLD_CARD_B[..], &NEW_CARD_B, &CARD_B_NOT_HEARD] {
        for length in 0..card.len() {
            assert_eq!(read(&card[..length]), 15);
        }
        for byte in 0..=255 {
            assert_eq!(read(&[card, &[byte]].concat()), 15);
        }
    }
}

/// The received counters that are tried with each mark.
const COUNTERS: [u64; 5] = [0, 1, 10, 1 << 63, u64::MAX];

/// A card of two rows with each mark in either of them, and the old card of these rows.
#[test]
fn each_mark_on_a_card() {
    for (mark, received) in (0..=255).flat_map(|mark| COUNTERS.map(|c| (mark, c))) {
        for row in 0..2 {
            let mut rows = [Row::new(3, &[1]), Row::heard(9, &[2; 64], 5)];
            (rows[row].mark, rows[row].received) = (mark, received);
            let expected = if goes_with(mark, received) { 0 } else { 15 };
            let number = read(&card_of_rows(Form::New, &rows));
            assert_eq!(number, expected, "mark {mark}, counter {received}");
            assert_eq!(read(&card_of_rows(Form::Old, &rows)), 0);
        }
    }
}

/// A row with each kind in place of its own, the first and the second of a card.
#[test]
fn each_kind_of_a_row() {
    let rows = [Row::heard(3, &[4; 4], 10), Row::heard(7, &[4; 4], 10)];
    for form in Form::BOTH {
        let good = card_of_rows(form, &rows);
        let second = row_record(form, &rows[0]).len();
        for kind in 0..=65_535_u16 {
            let expected = if kind == form.kind() { 0 } else { 15 };
            for at in [0, second] {
                let mut card = good.clone();
                card[at + 2..at + 4].copy_from_slice(&kind.to_le_bytes());
                assert_eq!(read(&card), expected, "{form:?}, kind {kind}");
            }
        }
    }
}

/// The numbers of check, key, seal under id 7 and writing on a book. Both implementations give them,
/// and leave the same.
fn numbers_on(book: &Book, message: &[u8]) -> [u8; 4] {
    let check = answer(book, message).err().unwrap_or(0);
    [
        check,
        keyed(book, message),
        sealed_on(book, message),
        written(book),
    ]
}

fn keyed(book: &Book, message: &[u8]) -> u8 {
    let place = reference::key_of_message(book, message).map_err(|r| r.number());
    let expected = place.map(|place| book.store[place].to_vec());
    let mut lent = book.clone();
    let found = lend(&mut lent).key(message).map(<[u8]>::to_vec);
    assert_eq!(found.map_err(|r| r.number()), expected);
    assert_eq!(lent, *book);
    expected.err().unwrap_or(0)
}

fn sealed_on(book: &Book, message: &[u8]) -> u8 {
    let (mut expected_book, mut found_book) = (book.clone(), book.clone());
    let (mut expected, mut found) = (message.to_vec(), message.to_vec());
    let counter = Reference::seal(&mut expected_book, 7, &mut expected);
    assert_eq!(Library::seal(&mut found_book, 7, &mut found), counter);
    assert_eq!((found_book, found), (expected_book, expected));
    counter.err().unwrap_or(0)
}

fn written(book: &Book) -> u8 {
    let (mut expected, mut found) = ([9; 300], [9; 300]);
    let size = reference::card_write(book, &mut expected).map_err(|r| r.number());
    let mut lent = book.clone();
    let found_size = lend(&mut lent).card_write(&mut found);
    assert_eq!(found_size.map_err(|r| r.number()), size);
    assert_eq!((&lent, found), (book, expected));
    size.err().unwrap_or(0)
}

/// Each mark in each row of a book, of which the last is not in use: a byte there may be anything.
#[test]
fn each_mark_of_a_row() {
    let mut book = book_of_three();
    book.rows = 2;
    let message = signed_with(11);
    assert_eq!(numbers_on(&book, &message), [0; 4]);
    for (mark, received) in (0..=255).flat_map(|mark| COUNTERS.map(|c| (mark, c))) {
        for row in 0..3 {
            let mut book = book.clone();
            (book.marks[row], book.received[row]) = (mark, received);
            let what = format!("mark {mark}, counter {received}, row {row}");
            let numbers = numbers_on(&book, &message);
            let expected = match row {
                2 => [0; 4],
                _ if !goes_with(mark, received) => [1; 4],
                0 => [0; 4],
                _ if mark == HEARD && received >= 11 => [11, 0, 0, 0],
                _ => [0; 4],
            };
            assert_eq!(numbers, expected, "{what}");
        }
    }
}

/// Rows 5, 7 and 9; row 7 has book B's key.
fn book_of_three() -> Book {
    let mut book = Book::with_room(3);
    book.ids = vec![5, 7, 9];
    book.lengths.fill(4);
    book.store[64..68].copy_from_slice(&[1, 2, 3, 4]);
    book.rows = 3;
    book
}

/// So many rows in use and nine more, all with book B's key; row k has the id 2k + 1.
fn book_of_odd_ids(rows: usize) -> Book {
    let mut book = Book::with_room(rows + 9);
    for (row, id) in book.ids.iter_mut().enumerate() {
        *id = 2 * row as u32 + 1;
    }
    book.lengths.fill(4);
    for slot in book.store.chunks_mut(64) {
        slot[..4].copy_from_slice(&[1, 2, 3, 4]);
    }
    book.rows = rows;
    book
}

/// Each id of a book is found at its row, and none that lies between two, before the first or behind
/// the last, those of rows that are not in use among them.
#[test]
fn each_row_of_a_book() {
    for rows in (0..=20).chain([63, 64, 65, 255, 256]) {
        let book = book_of_odd_ids(rows);
        for id in 0..2 * (rows + 9) {
            let expected = match id % 2 == 1 && id / 2 < rows {
                true => Ok(Accepted {
                    row: id / 2,
                    counter: 1,
                }),
                false => Err(10),
            };
            let message = messages::signed(&[1, 2, 3, 4], id as u32, 1);
            assert_eq!(answer(&book, &message), expected, "{id} of {rows} rows");
        }
    }
}

/// A message with this counter that book B's key signs.
fn signed_with(counter: u64) -> Vec<u8> {
    messages::signed(&[1, 2, 3, 4], 7, counter)
}

/// A row not heard takes each counter that has the right MAC. It is then heard, and takes just the
/// counters above that one.
#[test]
fn each_counter_on_a_row_not_heard() {
    for first in books::edge_counters() {
        let message = signed_with(first);
        let accepted = Accepted {
            row: 0,
            counter: first,
        };
        assert_eq!(answer(&book_b_not_heard(), &message), Ok(accepted));
        let mut wrong = message.clone();
        wrong[240 + 32] ^= 1;
        assert_eq!(answer(&book_b_not_heard(), &wrong), Err(12));
        let mut heard = book_b_not_heard();
        assert_eq!(Library::check(&mut heard, &message), Ok(accepted));
        assert_eq!((heard.marks[0], heard.received[0]), (HEARD, first));
        for second in books::edge_counters() {
            let number = answer(&heard, &signed_with(second)).err().unwrap_or(0);
            let expected = if second > first { 0 } else { 11 };
            assert_eq!(number, expected, "{second} behind {first}");
        }
    }
}

/// The first message under a secret, with counter 0, is accepted with option 82 at each place and
/// without; shown again with it at any place, or without, it gets 11.
#[test]
fn the_counter_0_relayed_and_shown_again() {
    let plain = signed_with(0);
    let relayed = places(&plain).unwrap().into_iter().flat_map(|at| {
        let plain = plain.clone();
        LENGTHS.map(move |length| with_82(&plain, at, length))
    });
    let all: Vec<Vec<u8>> = relayed.chain([plain.clone()]).collect();
    for first in &all {
        let mut book = book_b_not_heard();
        let counter = Library::check(&mut book, first).map(|accepted| accepted.counter);
        assert_eq!(counter, Ok(0));
        for again in &all {
            assert_eq!(answer(&book, again), Err(11));
        }
    }
}

/// Both implementations move a card into the same room, a byte 9 in each of its places. Gives the
/// number and the size.
fn moved(card: &[u8], wanted: Form, room: usize) -> (u8, Option<usize>) {
    let (mut expected_room, mut found_room) = (vec![9; room], vec![9; room]);
    let expected = reference::card_move(card, wanted, &mut expected_room);
    let wanted = match wanted {
        Form::Old => rimemagpie::Form::Old,
        Form::New => rimemagpie::Form::New,
    };
    let found = rimemagpie::card_move(card, wanted, &mut found_room);
    let number = found.map_or_else(|refusal| refusal.number(), |_| 0);
    assert_eq!(number, number_of(&expected), "{card:?}");
    assert_eq!(found.ok(), expected.ok(), "{card:?}");
    assert_eq!(found_room, expected_room, "{card:?}");
    (number, found.ok())
}

/// Cards of no rows, of one and of two, in both forms, heard and not.
fn cards_to_move() -> Vec<Vec<u8>> {
    let (heard, not_heard) = (Row::heard(3, &[1; 5], 0), Row::new(9, &[2; 64]));
    let both = [heard.clone(), not_heard.clone()];
    vec![
        CARD_EMPTY.to_vec(),
        OLD_CARD_B.to_vec(),
        NEW_CARD_B.to_vec(),
        CARD_B_NOT_HEARD.to_vec(),
        card_of_rows(Form::Old, &both),
        card_of_rows(Form::New, &both),
        card_of_rows(Form::New, &[not_heard, Row { id: 10, ..heard }]),
    ]
}

/// Each room from none to more than enough: below the size 16, and then 18 where the old form is
/// wanted of a row that is not heard.
#[test]
fn each_room_for_a_move() {
    for card in cards_to_move() {
        let rows = rows_of_card(&card).unwrap();
        let not_heard = rows.iter().any(|row| row.mark == NOT_HEARD);
        for wanted in Form::BOTH {
            let size = card_of_rows(wanted, &rows).len();
            for room in 0..=size + 90 {
                let expected = match room {
                    _ if room < size => (16, None),
                    _ if not_heard && wanted == Form::Old => (18, None),
                    _ => (0, Some(size)),
                };
                assert_eq!(moved(&card, wanted, room), expected, "{room} bytes");
            }
        }
    }
}

/// A card cut to each length and with each bit changed, moved to both forms, in room enough and in
/// none: 15 comes first.
#[test]
fn each_bit_and_length_of_a_card_that_is_moved() {
    for card in cards_to_move() {
        for wanted in Form::BOTH {
            for length in 0..card.len() {
                assert_eq!(moved(&card[..length], wanted, 300), (15, None));
                assert_eq!(moved(&card[..length], wanted, 0), (15, None));
            }
            for bit in 0..8 * card.len() {
                let mut changed = card.clone();
                changed[bit / 8] ^= 1 << (bit % 8);
                let is_card = rows_of_card(&changed).is_some();
                assert_eq!(moved(&changed, wanted, 300).0 != 15, is_card, "bit {bit}");
                assert_eq!(moved(&changed, wanted, 0).0 != 15, is_card, "bit {bit}");
            }
        }
    }
}

/// An old card that is read and then written is the new card, and so is the new one.
#[test]
fn written_in_the_new_form() {
    for card in CARDS_B {
        let mut book = Book::with_room(1);
        let mut lent = lend(&mut book);
        assert_eq!(lent.card_read(card), Ok(()));
        let mut room = [0; 40];
        assert_eq!(lent.card_write(&mut room), Ok(35));
        assert_eq!(room[..35], NEW_CARD_B);
        assert_eq!(room[35..], [0; 5]);
    }
}
