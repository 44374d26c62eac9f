//! Check, key of a message and seal (docs/RULES.md, 'Check', 'Key of a message' and 'Seal';
//! RFC 3118, section 5).

use crate::book::{Book, HEARD};
use crate::hmac::hmac_md5;
use crate::message::{covered_image, full_form, number, Shape};
use crate::refusal::Refusal;
use std::ops::Range;

/// What a check returns with 0.
#[derive(Clone, Copy, Debug, PartialEq, Eq)]
pub struct Accepted {
    pub row: usize,
    pub counter: u64,
}

/// Checks a message: numbers 1 to 12, the replay field before the MAC. Accepted, its counter is
/// stored and its row is heard. A row not heard takes any counter.
pub fn check(book: &mut Book, message: &[u8]) -> Result<Accepted, Refusal> {
    let (shape, row) = named_row(book, message)?;
    let counter = number(&message[shape.counter()]);
    if book.is_heard(row) && counter <= book.received[row] {
        return Err(Refusal::Replay);
    }
    let mac = hmac_md5(book.key(row), &covered_image(message, &shape));
    if message[shape.mac()] != mac {
        return Err(Refusal::WrongMac);
    }
    book.received[row] = counter;
    book.marks[row] = HEARD;
    Ok(Accepted { row, counter })
}

/// Where in the key store the key is that a message names: numbers 1 to 10.
pub fn key_of_message(book: &Book, message: &[u8]) -> Result<Range<usize>, Refusal> {
    let (_, row) = named_row(book, message)?;
    Ok(book.key_place(row))
}

/// Seals a message under an id: numbers 1 to 9, then 10 for that id, then 13. Returns the counter
/// written.
pub fn seal(book: &mut Book, id: u32, message: &mut [u8]) -> Result<u64, Refusal> {
    if !book.is_sound() {
        return Err(Refusal::UnsoundBook);
    }
    let shape = full_form(message)?;
    let row = book.row_of(id).ok_or(Refusal::UnknownSecret)?;
    let counter = book.sent[row].checked_add(1).ok_or(Refusal::CounterSpent)?;
    sign(message, &shape, book.key(row), id, counter);
    book.sent[row] = counter;
    Ok(counter)
}

/// Writes counter, id and the MAC of the resulting image into a message in full form.
pub fn sign(message: &mut [u8], shape: &Shape, key: &[u8], id: u32, counter: u64) {
    message[shape.counter()].copy_from_slice(&counter.to_be_bytes());
    message[shape.secret_id()].copy_from_slice(&id.to_be_bytes());
    let mac = hmac_md5(key, &covered_image(message, shape));
    message[shape.mac()].copy_from_slice(&mac);
}

/// The id that a message in full form names.
pub fn named_id(message: &[u8], shape: &Shape) -> u32 {
    number(&message[shape.secret_id()]) as u32
}

/// Numbers 1 to 10 for the id that the message names.
fn named_row(book: &Book, message: &[u8]) -> Result<(Shape, usize), Refusal> {
    if !book.is_sound() {
        return Err(Refusal::UnsoundBook);
    }
    let shape = full_form(message)?;
    let row = book
        .row_of(named_id(message, &shape))
        .ok_or(Refusal::UnknownSecret)?;
    Ok((shape, row))
}

#[cfg(test)]
mod tests {
    use super::*;
    use crate::book::NOT_HEARD;
    use crate::examples::{book_b, book_b_not_heard, full_option_90, message_with};

    fn plain() -> Vec<u8> {
        message_with(&[&full_option_90(0, 0)[..], &[255]].concat())
    }

    /// A message with this counter and the right MAC under book B's key.
    fn signed(counter: u64) -> Vec<u8> {
        let mut message = plain();
        let shape = full_form(&message).unwrap();
        sign(&mut message, &shape, &[1, 2, 3, 4], 7, counter);
        message
    }

    #[test]
    fn a_sealed_message_passes_once() {
        let mut book = book_b();
        book.sent[0] = 41;
        let mut message = plain();
        let before = message.clone();
        assert_eq!(seal(&mut book, 7, &mut message), Ok(42));
        assert_eq!(book.sent, [42]);
        let o = 240;
        assert_eq!(message[..o + 5], before[..o + 5]);
        assert_eq!(message[o + 33..], before[o + 33..]);

        let accepted = Accepted {
            row: 0,
            counter: 42,
        };
        assert_eq!(check(&mut book, &message), Ok(accepted));
        assert_eq!(book.received, [42]);
        assert_eq!(check(&mut book, &message), Err(Refusal::Replay));
    }

    /// The 28 bytes are those of option 90 where it stands in the message, with option 82 before it
    /// or behind it, and are the same with both.
    #[test]
    fn a_seal_goes_by_the_place_of_90_in_the_message() {
        let bare = plain();
        let mut sealed_bare = bare.clone();
        assert_eq!(seal(&mut book_b(), 7, &mut sealed_bare), Ok(4));
        for (at, o) in [(240, 245), (273, 240)] {
            let mut message = bare.clone();
            message.splice(at..at, [82, 3, 90, 31, 1]);
            let before = message.clone();
            assert_eq!(seal(&mut book_b(), 7, &mut message), Ok(4));
            assert_eq!(message[..o + 5], before[..o + 5]);
            assert_eq!(message[o + 5..o + 33], sealed_bare[245..273]);
            assert_eq!(message[o + 33..], before[o + 33..]);
        }
    }

    #[test]
    fn seal_refuses_an_unknown_id_and_a_spent_counter() {
        let mut book = book_b();
        book.sent[0] = u64::MAX;
        let before = book.clone();
        let mut message = plain();
        assert_eq!(
            seal(&mut book, 8, &mut message),
            Err(Refusal::UnknownSecret)
        );
        assert_eq!(seal(&mut book, 7, &mut message), Err(Refusal::CounterSpent));
        assert_eq!((book, message), (before, plain()));
    }

    #[test]
    fn the_last_counter_is_accepted_and_then_no_other() {
        for mut book in [book_b(), book_b_not_heard()] {
            let last = signed(u64::MAX);
            assert!(check(&mut book, &last).is_ok());
            for counter in [0, 1, u64::MAX - 1, u64::MAX] {
                let answer = check(&mut book, &signed(counter));
                assert_eq!(answer, Err(Refusal::Replay));
            }
        }
    }

    /// A row not heard takes any counter once; then only higher ones.
    #[test]
    fn a_row_not_heard_takes_any_counter() {
        for counter in [0, 1, 2, 1 << 32, u64::MAX - 1, u64::MAX] {
            let mut book = book_b_not_heard();
            let message = signed(counter);
            let accepted = Accepted { row: 0, counter };
            assert_eq!(check(&mut book, &message), Ok(accepted));
            let mut expected = book_b();
            expected.received[0] = counter;
            assert_eq!(book, expected);
            assert_eq!(check(&mut book, &message), Err(Refusal::Replay));
            assert_eq!(book, expected);
            if let Some(next) = counter.checked_add(1) {
                assert!(check(&mut book, &signed(next)).is_ok());
            }
        }
    }

    /// Where the received counter is 0 the mark decides on a message with counter 0.
    #[test]
    fn a_heard_row_refuses_the_counter_0() {
        let mut book = book_b();
        book.received[0] = 0;
        assert_eq!(check(&mut book, &signed(0)), Err(Refusal::Replay));
        book.marks[0] = NOT_HEARD;
        assert!(check(&mut book, &signed(0)).is_ok());
    }

    /// A wrong MAC is refused with 12 where the row is not heard, whatever the counter, and leaves it
    /// not heard.
    #[test]
    fn the_mac_decides_where_the_row_is_not_heard() {
        for counter in [0, 5, u64::MAX] {
            let mut book = book_b_not_heard();
            let mut message = signed(counter);
            message[240 + 32] ^= 1;
            assert_eq!(check(&mut book, &message), Err(Refusal::WrongMac));
            assert_eq!(book, book_b_not_heard());
        }
    }

    /// A seal and the key of a message don't look at the mark, and leave it.
    #[test]
    fn a_seal_and_a_key_leave_the_mark() {
        for mut book in [book_b(), book_b_not_heard()] {
            let mut expected = book.clone();
            expected.sent[0] = 4;
            let mut message = plain();
            assert_eq!(seal(&mut book, 7, &mut message), Ok(4));
            assert_eq!(key_of_message(&book, &message), Ok(0..4));
            assert_eq!(book, expected);
        }
    }

    #[test]
    fn key_of_a_message_is_a_part_of_the_store() {
        let book = book_b();
        let named = message_with(&[&full_option_90(7, 0)[..], &[255]].concat());
        assert_eq!(key_of_message(&book, &named), Ok(0..4));
        assert_eq!(key_of_message(&book, &plain()), Err(Refusal::UnknownSecret));
    }
}
