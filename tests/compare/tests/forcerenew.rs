//! FORCERENEW by nonce, every value of one thing at a time where there are few enough to try them
//! all: each bit of a message, each byte of option 90, each type beside each option 53, each mark
//! of each row, each pair of counters, each size, and each set of faults. And the examples with
//! MACs from outside. No number is drawn here.

use compare::generate::books;
use compare::runs::{Implementation, Library, Reference};
use reference::examples::{accepted_by_b, book_b, message_with};
use reference::forcerenew::{by_nonce, sign, HEARD, NONE_YET, NOT_HEARD};
use reference::message::{option_at, places, shape, AUTHENTICATION, COOKIE_AT, GIADDR, HOPS_AT};
use reference::nonce_examples::{
    accepted_by_nonce, ack_with, one_row, option_by_nonce, order_0, order_11, refused_by_nonce,
    NONCE, ORDER_AT, OTHER_NONCE,
};
use reference::{Judged, Servers};

/// Both implementations judge a message by a row; gives what they answer and leave.
fn judged(servers: &Servers, row: usize, message: &[u8]) -> (Result<Judged, u8>, Servers) {
    let (mut expected_rows, mut found_rows) = (servers.clone(), servers.clone());
    let expected = Reference::forcerenew(&mut expected_rows, row, message);
    let found = Library::forcerenew(&mut found_rows, row, message);
    assert_eq!(found, expected, "row {row}, {message:?}");
    assert_eq!(found_rows, expected_rows, "row {row}, {message:?}");
    (found, found_rows)
}

/// The number that both give.
fn number(servers: &Servers, row: usize, message: &[u8]) -> u8 {
    judged(servers, row, message).0.err().unwrap_or(0)
}

/// The number on one row with the nonce, not heard.
fn number_given(message: &[u8]) -> u8 {
    number(&one_row(&NONCE, 0, NOT_HEARD), 0, message)
}

#[test]
fn examples() {
    for example in accepted_by_nonce().into_iter().chain(refused_by_nonce()) {
        let (answer, after) = judged(&example.before, example.row, &example.message);
        let number = answer.err().unwrap_or(0);
        assert_eq!(number, example.number, "{}", example.name);
        assert_eq!(after, example.after, "{}", example.name);
    }
}

/// A FORCERENEW with this counter, among other options and pads, signed under the nonce.
fn order_with(counter: u64) -> Vec<u8> {
    let options = [
        &[12, 3, 90, 82, 53][..],
        &[0, 53, 1, 9],
        &option_by_nonce(counter, 2, &[0; 16]),
        &[0, 0, 51, 4, 0, 0, 14, 16, 255, 53, 1, 5],
    ];
    signed(message_with(&options.concat()))
}

/// The message with the right MAC under the nonce.
fn signed(mut message: Vec<u8>) -> Vec<u8> {
    let option = by_nonce(&message, shape(&message).unwrap().authentication).unwrap();
    let counter = message[option.counter()].try_into().unwrap();
    sign(&mut message, option, &NONCE, u64::from_be_bytes(counter));
    message
}

/// How many bits of a message can be changed, one at a time, and it is still accepted.
fn bits_that_are_free(message: &[u8]) -> usize {
    let accepted_without = |bit: &usize| {
        let mut changed = message.to_vec();
        changed[bit / 8] ^= 1 << (bit % 8);
        number_given(&changed) == 0
    };
    (0..8 * message.len()).filter(accepted_without).count()
}

/// Every bit of a FORCERENEW counts, in hops, giaddr and option 82 too. Of an ACK the header, its
/// counter and its nonce are free.
#[test]
fn each_bit_of_a_message() {
    assert_eq!(bits_that_are_free(&order_11()), 0);
    assert_eq!(bits_that_are_free(&order_with(7)), 0);
    let ack = ack_with(&NONCE, 7);
    assert_eq!(bits_that_are_free(&ack), 8 * (236 + 8 + 16));
}

/// Each value of each byte of option 90, in a FORCERENEW and in an ACK.
#[test]
fn each_byte_of_option_90() {
    for (message, at) in [(order_11(), ORDER_AT), (ack_with(&NONCE, 7), 243)] {
        for offset in 2..30 {
            for value in 0..=255 {
                let mut changed = message.clone();
                changed[at + offset] = value;
                let is_order = at == ORDER_AT;
                let expected = match offset {
                    _ if changed == message => 0,
                    2..=4 => 19,
                    13 => 20,
                    _ if is_order => 12,
                    _ => 0,
                };
                assert_eq!(number_given(&changed), expected, "{offset} is {value}");
            }
        }
    }
}

/// Option 90 of each length, its body beginning as it should as far as it reaches.
#[test]
fn each_length_of_option_90() {
    for length in 0..=255 {
        let mut option = option_by_nonce(0, 1, &NONCE);
        option.resize(2 + length, 0);
        option[1] = length as u8;
        let message = message_with(&[&[53, 1, 5][..], &option, &[255]].concat());
        let expected = if length == 28 { 0 } else { 19 };
        assert_eq!(number_given(&message), expected, "length {length}");
    }
}

/// Each type beside each byte that option 53 may hold.
#[test]
fn each_type_and_message_type() {
    for kind in 0..=255 {
        for holds in 0..=255 {
            let option = option_by_nonce(7, kind, &[0; 16]);
            let message = message_with(&[&[53, 1, holds][..], &option, &[255]].concat());
            let expected = match (kind, holds) {
                (1, 5) => 0,
                (2, 9) => 12,
                _ => 20,
            };
            assert_eq!(number_given(&message), expected, "{kind} and {holds}");
        }
    }
}

/// A message of type 1 or 2 with these options 53 around option 90, signed.
fn with_53(kind: u8, before: &[u8], behind: &[u8]) -> Vec<u8> {
    let option = option_by_nonce(7, kind, &NONCE);
    let message = message_with(&[before, &option, behind, &[255]].concat());
    match kind {
        2 => signed(message),
        _ => message,
    }
}

/// The type and what option 53 holds beside it.
const TYPES: [(u8, u8); 2] = [(1, 5), (2, 9)];

/// Option 53 of each length, which begins with the right byte; and two of them.
#[test]
fn each_length_of_option_53() {
    for (kind, holds) in TYPES {
        assert_eq!(number_given(&with_53(kind, &[], &[])), 20);
        let one = [53, 1, holds];
        for length in 0..=255 {
            let mut option = vec![holds; 2 + length];
            option[..2].copy_from_slice(&[53, length as u8]);
            let expected = if length == 1 { 0 } else { 20 };
            assert_eq!(number_given(&with_53(kind, &option, &[])), expected);
            assert_eq!(number_given(&with_53(kind, &[], &option)), expected);
            assert_eq!(number_given(&with_53(kind, &one, &option)), 20);
            assert_eq!(number_given(&with_53(kind, &option, &one)), 20);
        }
    }
}

/// What follows an option 53 of length 0, or of length 1 with another byte, is not read as its body.
#[test]
fn what_follows_option_53() {
    for (kind, holds) in TYPES {
        for option in [
            &[53, 0, holds, 0][..],
            &[53, 0, holds, 1, holds],
            &[53, 1, 0, holds, 0],
        ] {
            assert_eq!(number_given(&with_53(kind, option, &[])), 20, "{option:?}");
            assert_eq!(number_given(&with_53(kind, &[], option)), 20, "{option:?}");
        }
    }
}

/// A second option 53 at each place of a message is one too many; in the body of another option, or
/// after End, it is none.
#[test]
fn a_second_option_53_at_each_place() {
    let message = order_with(7);
    for at in places(&message).unwrap() {
        for second in [&[53, 1, 9][..], &[53, 1, 5], &[53, 0], &[53, 2, 9, 9]] {
            let mut two = message.clone();
            two.splice(at..at, second.iter().copied());
            assert_eq!(number_given(&signed(two)), 20, "{second:?} at {at}");
            let hidden = [&[43, second.len() as u8], second].concat();
            let mut one = message.clone();
            one.splice(at..at, hidden);
            assert_eq!(number_given(&signed(one)), 0, "{second:?} in 43 at {at}");
        }
    }
}

/// An option 82 at each place is covered where it stands: put in before the message is signed it is
/// accepted, and put in or taken out on the way the MAC differs.
#[test]
fn option_82_at_each_place() {
    let message = order_with(7);
    for at in places(&message).unwrap() {
        for length in [0, 1, 60, 255] {
            let option = [&[82, length as u8][..], &vec![90; length]].concat();
            let mut put_in = message.clone();
            put_in.splice(at..at, option);
            assert_eq!(number_given(&put_in), 12, "{length} bytes at {at}");
            let with_82 = signed(put_in);
            assert_eq!(number_given(&with_82), 0, "{length} bytes at {at}");
            let mut taken_out = with_82.clone();
            taken_out.drain(option_at(&with_82, at).unwrap().whole());
            assert_eq!(number_given(&taken_out), 12, "{length} bytes at {at}");
            let mut second = with_82.clone();
            second.splice(at..at, [82, 0]);
            assert_eq!(number_given(&second), 7, "two at {at}");
        }
    }
}

/// Hops and giaddr are covered: set before the message is signed they are accepted, and altered on
/// the way the MAC differs.
#[test]
fn hops_and_giaddr() {
    let message = order_with(7);
    for at in [HOPS_AT].into_iter().chain(GIADDR) {
        for value in 1..=255 {
            let mut changed = message.clone();
            changed[at] = value;
            assert_eq!(number_given(&changed), 12, "byte {at} is {value}");
            assert_eq!(number_given(&signed(changed)), 0, "byte {at} is {value}");
        }
    }
}

/// A message cut to each length, and a FORCERENEW signed at each length that it may have.
#[test]
fn each_length_of_a_message() {
    let message = order_with(7);
    for length in 0..=1_500 {
        let mut changed = message.clone();
        changed.resize(length, 0xAB);
        let number = number_given(&changed);
        let outside = !(241..=1_472).contains(&length);
        assert_eq!(number == 2, outside, "{length} bytes");
        if !outside && length >= message.len() {
            assert_eq!(number_given(&signed(changed)), 0, "{length} bytes");
        }
    }
}

/// Each mark in each of three rows, for each row and one past the last.
#[test]
fn each_mark_of_each_row() {
    let order = order_with(7);
    for (at, mark) in (0..3).flat_map(|at| (0..=255).map(move |mark| (at, mark))) {
        let mut servers = Servers {
            nonces: NONCE.repeat(3),
            counters: vec![6, 7, 8],
            marks: vec![HEARD; 3],
        };
        servers.marks[at] = mark;
        for row in 0..=3 {
            let what = format!("mark {mark} in row {at}, for row {row}");
            let expected = match row {
                _ if mark > HEARD => 1,
                3 => 10,
                _ if row == at && mark == NONE_YET => 21,
                _ if row == at && mark == NOT_HEARD => 0,
                0 => 0,
                _ => 11,
            };
            assert_eq!(number(&servers, row, &order), expected, "{what}");
            let expected = match row {
                _ if mark > HEARD => 1,
                3 => 10,
                _ => 0,
            };
            let ack = ack_with(&NONCE, 7);
            assert_eq!(number(&servers, row, &ack), expected, "{what}");
        }
    }
}

/// Each counter of a FORCERENEW beside each stored one, under each mark.
#[test]
fn each_counter_of_an_order() {
    for counter in books::edge_counters() {
        let order = order_with(counter);
        let accepted = (
            Ok(Judged { kind: 2, counter }),
            one_row(&NONCE, counter, HEARD),
        );
        for stored in books::edge_counters() {
            let with = |mark| one_row(&NONCE, stored, mark);
            let none_yet = (Err(21), with(NONE_YET));
            assert_eq!(judged(&with(NONE_YET), 0, &order), none_yet);
            assert_eq!(judged(&with(NOT_HEARD), 0, &order), accepted);
            let heard = match counter > stored {
                true => accepted.clone(),
                false => (Err(11), with(HEARD)),
            };
            assert_eq!(judged(&with(HEARD), 0, &order), heard);
        }
    }
}

/// Each counter of an ACK beside each stored one, under each mark: none is judged.
#[test]
fn each_counter_of_an_ack() {
    for counter in books::edge_counters() {
        let ack = ack_with(&NONCE, counter);
        for stored in books::edge_counters() {
            for mark in [NONE_YET, NOT_HEARD, HEARD] {
                let row = one_row(&NONCE, stored, mark);
                let left = match mark {
                    NONE_YET => one_row(&NONCE, 0, NOT_HEARD),
                    _ => row.clone(),
                };
                let expected = (Ok(Judged { kind: 1, counter }), left);
                assert_eq!(judged(&row, 0, &ack), expected);
            }
        }
    }
}

/// A nonce that differs from the row's in each bit is another one; the row takes it, and an order
/// under the old one is no longer good.
#[test]
fn each_bit_of_a_nonce() {
    for bit in 0..128 {
        let mut nonce = NONCE;
        nonce[bit / 8] ^= 1 << (bit % 8);
        for mark in [NONE_YET, NOT_HEARD, HEARD] {
            let (_, after) = judged(&one_row(&NONCE, 5, mark), 0, &ack_with(&nonce, 7));
            assert_eq!(after, one_row(&nonce, 0, NOT_HEARD));
            assert_eq!(number(&after, 0, &order_11()), 12, "bit {bit}");
        }
    }
}

/// Each size of each list beside the others'. A message of no bytes shows that 1 comes before 2.
#[test]
fn each_size() {
    let ack = ack_with(&NONCE, 0);
    for nonces in 0..=81 {
        for (counters, marks) in (0..=4).flat_map(|c| (0..=4).map(move |m| (c, m))) {
            let servers = Servers {
                nonces: vec![0; nonces],
                counters: vec![0; counters],
                marks: vec![0; marks],
            };
            let agree = nonces == 16 * marks && counters == marks;
            let expected = match (agree, marks) {
                (false, _) => [1, 1],
                (true, 0) => [10, 2],
                (true, _) => [0, 2],
            };
            let numbers = [&ack[..], &[]].map(|message| number(&servers, 0, message));
            assert_eq!(numbers, expected, "{nonces}, {counters}, {marks}");
        }
    }
}

/// As many rows as a book may have and more, the first of them, the last, and ones past the last.
#[test]
fn many_rows() {
    for rows in [1_023, 1_024, 1_025, 65_536, 70_000] {
        let servers = Servers::with_rows(rows);
        for row in [0, 1_023, 1_024, rows - 1, rows, rows + 1] {
            let (answer, after) = judged(&servers, row, &ack_with(&NONCE, 7));
            if row >= rows {
                assert_eq!((answer, &after), (Err(10), &servers));
                continue;
            }
            let mut expected = servers.clone();
            expected.set_nonce(row, &NONCE);
            assert!(answer.is_ok() && after == expected);
            assert_eq!(number(&after, row, &order_0()), 0);
            let mut spoiled = after;
            spoiled.marks[rows - 1] = 3;
            assert_eq!(number(&spoiled, row, &order_0()), 1);
        }
    }
}

/// Row numbers far past the last, also those that 16 times goes round to a row that is there.
#[test]
fn rows_far_past_the_last() {
    let servers = Servers {
        nonces: NONCE.repeat(3),
        counters: vec![0; 3],
        marks: vec![HEARD; 3],
    };
    for bit in 2..usize::BITS {
        for row in [0, 1, 2].map(|row| (1_usize << bit) + row) {
            assert_eq!(number(&servers, row, &order_11()), 10, "row {row}");
        }
    }
    assert_eq!(number(&servers, usize::MAX, &order_11()), 10);
}

/// The numbers in the order in which they are judged.
const ORDER: [u8; 13] = [1, 2, 3, 4, 5, 6, 7, 10, 19, 20, 21, 11, 12];

/// A FORCERENEW that is accepted, and what it finds, to be spoiled.
struct Spoiled {
    servers: Servers,
    row: usize,
    message: Vec<u8>,
}

impl Spoiled {
    /// Makes a number apply, and leaves those that were made to apply before, but that where there
    /// is no option 90 there are not two. Numbers are taken from the order's end on: those that go
    /// by offsets in the message come before those that move them.
    fn by(&mut self, number: u8) {
        let message = &mut self.message;
        match number {
            1 => self.servers.marks[1] = 3,
            2 => message.resize(1_473, 0),
            3 => message[COOKIE_AT] = 0,
            4 => take_end(message),
            5 => rename_90(message),
            6 => drop(message.splice(240..240, [90, 0])),
            7 => drop(message.splice(240..240, [82, 0])),
            10 => self.row = 2,
            19 => message[ORDER_AT + 2] = 1,
            20 => message[ORDER_AT - 1] = 5,
            21 => self.servers.marks[0] = NONE_YET,
            11 => self.servers.counters[0] = 11,
            _ => message[ORDER_AT + 29] ^= 1,
        }
    }
}

/// Gives every option 90 another code.
fn rename_90(message: &mut [u8]) {
    for at in places(message).unwrap() {
        if message[at] == AUTHENTICATION {
            message[at] = 91;
        }
    }
}

/// Takes End off, and what is behind it.
fn take_end(message: &mut Vec<u8>) {
    let places = places(message).unwrap();
    message.truncate(places[places.len() - 1]);
}

/// Whichever faults a judgement has, the first of them in the order is given.
#[test]
fn each_set_of_faults() {
    for set in 0..1_u32 << ORDER.len() {
        let has = |k: usize| set & (1 << k) != 0;
        let mut spoiled = Spoiled {
            servers: Servers {
                nonces: [NONCE, OTHER_NONCE].concat(),
                counters: vec![10, 10],
                marks: vec![HEARD, HEARD],
            },
            row: 0,
            message: order_11(),
        };
        for k in (0..ORDER.len()).rev().filter(|k| has(*k)) {
            spoiled.by(ORDER[k]);
        }
        let first = (0..ORDER.len()).find(|k| has(*k)).map_or(0, |k| ORDER[k]);
        let Spoiled {
            servers,
            row,
            message,
        } = spoiled;
        assert_eq!(number(&servers, row, &message), first, "set {set:b}");
    }
}

/// The ordinary check says 8 to each of these messages, and this entry 19 to RFC 3118's.
#[test]
fn each_entry_has_its_own_option_90() {
    for message in [order_11(), order_0(), ack_with(&NONCE, 11)] {
        let mut book = book_b();
        assert_eq!(Library::check(&mut book, &message), Err(8));
        assert_eq!(Library::seal(&mut book, 7, &mut message.clone()), Err(8));
        assert_eq!(book, book_b());
    }
    assert_eq!(number_given(&accepted_by_b()), 19);
}
