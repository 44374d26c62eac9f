//! Messages: random bytes, well-formed ones signed for a row of a book, relay-changed ones, and
//! ones with one or two things wrong.

use super::drafts::{self, Draft};
use super::{books, relays};
use crate::random::Random;
use reference::auth::sign;
use reference::examples::accepted_by_b;
use reference::forcerenew::{BY_NONCE, BY_NONCE_LENGTH};
use reference::message::{full_form, AUTHENTICATION, REQUEST_LENGTH};
use reference::Book;

/// Any message for a sound book: some that it accepts, some that fail at each number.
pub fn any(random: &mut Random, book: &Book) -> Vec<u8> {
    match random.below(100) {
        0..=7 => drafts::random_bytes(random),
        8..=39 => well_formed(random, book),
        40..=49 => {
            let message = well_formed(random, book);
            relays::changed(random, &message)
        }
        50..=91 => {
            let fault = random.pick(&Fault::all());
            with_faults(random, book, &[fault])
        }
        _ => {
            let all = Fault::all();
            let faults = [random.pick(&all), random.pick(&all)];
            with_faults(random, book, &faults)
        }
    }
}

/// A well-formed message that names a row of the book, if it has one, with a counter that is new to
/// it, if there is such a counter, and the right MAC.
pub fn well_formed(random: &mut Random, book: &Book) -> Vec<u8> {
    with_faults(random, book, &[])
}

/// A well-formed message that names this row of the book, with this counter and the right MAC.
pub fn well_formed_with(random: &mut Random, book: &Book, row: usize, counter: u64) -> Vec<u8> {
    let mut message = draft(random).bytes();
    let found = full_form(&message).expect("in full form");
    sign(&mut message, &found, book.key(row), book.ids[row], counter);
    message
}

/// Bench example 9's message signed anew.
pub fn signed(key: &[u8], id: u32, counter: u64) -> Vec<u8> {
    let mut message = accepted_by_b();
    let found = full_form(&message).expect("in full form");
    sign(&mut message, &found, key, id, counter);
    message
}

/// A well-formed draft with option 90 in full form and often option 53.
fn draft(random: &mut Random) -> Draft {
    let mut options = vec![drafts::full_form(random)];
    if random.one_in(2) {
        options.push(drafts::message_type(&[random.u8()]));
    }
    Draft::with(random, &options)
}

/// One thing wrong with a message.
#[derive(Clone, Copy, Debug, PartialEq, Eq)]
pub enum Fault {
    /// Numbers 2 to 7.
    Form(drafts::Fault),
    AuthenticationLength,
    ProtocolNumbers,
    /// Option 90 as RFC 6704 has it.
    ByNonce,
    RequestForm,
    UnknownId,
    OldCounter,
    MacBit,
    AnyBit,
    OtherKey,
}

impl Fault {
    /// The faults that are not of the form.
    const OTHERS: [Fault; 9] = [
        Fault::AuthenticationLength,
        Fault::ProtocolNumbers,
        Fault::ByNonce,
        Fault::RequestForm,
        Fault::UnknownId,
        Fault::OldCounter,
        Fault::MacBit,
        Fault::AnyBit,
        Fault::OtherKey,
    ];

    pub fn all() -> Vec<Fault> {
        let of_form = drafts::Fault::ALL.map(Fault::Form);
        of_form.into_iter().chain(Fault::OTHERS).collect()
    }
}

/// What a message is signed with.
struct Signing {
    id: u32,
    counter: u64,
    key: Vec<u8>,
}

/// A message for the book with these things wrong: in its parts, in what it is signed with, or in
/// its bytes after it was signed. It is signed if it is in full form by then.
pub fn with_faults(random: &mut Random, book: &Book, faults: &[Fault]) -> Vec<u8> {
    let mut draft = draft(random);
    let mut signing = signing_for(random, book);
    for fault in faults {
        spoil_parts(random, &mut draft, *fault);
        spoil_signing(random, &mut signing, book, *fault);
    }
    let mut message = draft.bytes();
    if let Ok(found) = full_form(&message) {
        sign(
            &mut message,
            &found,
            &signing.key,
            signing.id,
            signing.counter,
        );
    }
    for fault in faults {
        spoil_bytes(random, &mut message, *fault);
    }
    message
}

/// A row of the book with its key and a counter that is new to it, as far as there are such.
fn signing_for(random: &mut Random, book: &Book) -> Signing {
    if book.rows == 0 {
        return Signing {
            id: random.u32(),
            counter: random.u64(),
            key: vec![1],
        };
    }
    let row = random.below(book.rows);
    Signing {
        id: book.ids[row],
        counter: new_counter(random, book, row),
        key: book.key(row).to_vec(),
    }
}

/// A counter that is new to a row, where there is one: one above the received where the row is heard,
/// and else any, often 0 or the last there is.
fn new_counter(random: &mut Random, book: &Book, row: usize) -> u64 {
    if book.is_heard(row) {
        return counter_above(random, book.received[row]);
    }
    match random.below(8) {
        0 => u64::MAX,
        _ => books::counter(random),
    }
}

/// A counter above the given one: the next, the last there is, or any between. Above the last there
/// is none.
pub fn counter_above(random: &mut Random, received: u64) -> u64 {
    let left = u64::MAX - received;
    if left == 0 {
        return received;
    }
    match random.below(8) {
        0..=2 => received + 1,
        3 => u64::MAX,
        4 => received + 1 + random.u64() % left,
        _ => received + 1 + random.u64() % left.min(1_000),
    }
}

fn spoil_parts(random: &mut Random, draft: &mut Draft, fault: Fault) {
    match fault {
        Fault::Form(fault) => fault.spoil_parts(random, draft),
        _ => {
            if let Some(body) = draft.body(AUTHENTICATION) {
                spoil_authentication(random, body, fault);
            }
        }
    }
}

fn spoil_authentication(random: &mut Random, body: &mut Vec<u8>, fault: Fault) {
    match fault {
        Fault::AuthenticationLength => {
            let length = match random.below(2) {
                0 => random.pick(&[0, 1, 2, 3, 10, 12, 30, 32, 255]),
                _ => random.within(0..=255),
            };
            body.resize(length, 0);
        }
        Fault::ProtocolNumbers => {
            let at = random.below(3);
            if let Some(byte) = body.get_mut(at) {
                *byte ^= 1 << random.below(8);
            }
        }
        Fault::ByNonce => {
            *body = random.bytes(BY_NONCE_LENGTH);
            body[..3].copy_from_slice(&BY_NONCE);
        }
        Fault::RequestForm => body.truncate(REQUEST_LENGTH),
        _ => {}
    }
}

fn spoil_signing(random: &mut Random, signing: &mut Signing, book: &Book, fault: Fault) {
    match fault {
        Fault::UnknownId => signing.id = unknown_id(random, book, signing.id),
        Fault::OldCounter => {
            move_to_heard_row(random, signing, book);
            let row = book.row_of(signing.id);
            let received = row.map_or(0, |row| book.received[row]);
            signing.counter = old_counter(random, received);
        }
        Fault::OtherKey => signing.key = other_key(random, book, &signing.key),
        _ => {}
    }
}

/// Goes on to a heard row, if the book has one: no counter is old to one that is not heard.
fn move_to_heard_row(random: &mut Random, signing: &mut Signing, book: &Book) {
    let heard: Vec<usize> = (0..book.rows).filter(|row| book.is_heard(*row)).collect();
    let not_heard = book
        .row_of(signing.id)
        .is_some_and(|row| !book.is_heard(row));
    if not_heard && !heard.is_empty() {
        let row = random.pick(&heard);
        signing.id = book.ids[row];
        signing.key = book.key(row).to_vec();
    }
}

/// An id with no row, as far as one of these isn't: a neighbour, the bytes turned round, an id
/// beyond the rows in use.
pub fn unknown_id(random: &mut Random, book: &Book, id: u32) -> u32 {
    match random.below(5) {
        0 => id.wrapping_add(1),
        1 => id.wrapping_sub(1),
        2 => id.swap_bytes(),
        3 => book.ids.get(book.rows).copied().unwrap_or(id ^ 1),
        _ => random.u32(),
    }
}

/// A counter that is not above the received one.
pub fn old_counter(random: &mut Random, received: u64) -> u64 {
    match random.below(4) {
        0..=1 => received,
        2 => received.saturating_sub(1),
        _ => match received {
            u64::MAX => random.u64(),
            _ => random.u64() % (received + 1),
        },
    }
}

/// Another row's key, a key one byte shorter or longer, or any.
fn other_key(random: &mut Random, book: &Book, key: &[u8]) -> Vec<u8> {
    match random.below(4) {
        0 if book.rows > 0 => book.key(random.below(book.rows)).to_vec(),
        1 => key[..key.len().saturating_sub(1)].to_vec(),
        2 => [key, &[random.u8()]].concat(),
        _ => random.bytes(16),
    }
}

fn spoil_bytes(random: &mut Random, message: &mut Vec<u8>, fault: Fault) {
    match fault {
        Fault::Form(fault) => fault.spoil_bytes(random, message),
        Fault::MacBit => {
            if let Ok(found) = full_form(message) {
                let at = found.mac().start + random.below(16);
                message[at] ^= 1 << random.below(8);
            }
        }
        Fault::AnyBit => flip_any_bit(random, message),
        _ => {}
    }
}

/// Turns any bit of a message round, if it has one.
pub fn flip_any_bit(random: &mut Random, message: &mut [u8]) {
    if !message.is_empty() {
        let at = random.below(message.len());
        message[at] ^= 1 << random.below(8);
    }
}

#[cfg(test)]
mod tests {
    use super::*;
    use reference::{check, Refusal};

    /// A sound book whose rows can all accept: they are heard with counter 5, or not heard.
    fn accepting(random: &mut Random) -> Book {
        let mut book = books::sound_with_a_row(random);
        for row in 0..book.rows {
            book.received[row] = if book.is_heard(row) { 5 } else { 0 };
        }
        book
    }

    /// Where every row can still accept, a well-formed message is accepted.
    #[test]
    fn well_formed_messages_are_accepted() {
        let mut random = Random::new(3);
        for _ in 0..2_000 {
            let book = accepting(&mut random);
            let message = well_formed(&mut random, &book);
            assert!(check(&mut book.clone(), &message).is_ok());
            let relayed = relays::changed(&mut random, &message);
            assert!(check(&mut book.clone(), &relayed).is_ok());
        }
    }

    /// A message for this row and with this counter is accepted by it where the counter is new.
    #[test]
    fn messages_for_a_row_and_with_a_counter() {
        let mut random = Random::new(18);
        for counter in [0, 5, 6, u64::MAX] {
            for _ in 0..200 {
                let mut book = accepting(&mut random);
                let row = random.below(book.rows);
                let message = well_formed_with(&mut random, &book, row, counter);
                let is_new = !book.is_heard(row) || counter > 5;
                let answer = check(&mut book, &message).map(|accepted| accepted.row);
                let expected = if is_new {
                    Ok(row)
                } else {
                    Err(Refusal::Replay)
                };
                assert_eq!(answer, expected);
            }
        }
    }

    /// Each fault makes the numbers it is for.
    #[test]
    fn faults_are_refused() {
        let mut random = Random::new(4);
        for fault in Fault::all() {
            let mut refused = 0;
            for _ in 0..500 {
                let mut book = accepting(&mut random);
                let message = with_faults(&mut random, &book, &[fault]);
                refused += usize::from(check(&mut book, &message).is_err());
            }
            assert!(refused > 200, "{fault:?}: {refused} of 500 refused");
        }
    }
}
