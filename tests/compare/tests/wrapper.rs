//! The Rust wrapper beside the second implementation: what it makes of the numbers and places of
//! the C interface.

use compare::generate::{books, cards, forcerenew, lists, messages, servers};
use compare::harness::{cases, for_each_case, same, Difference};
use compare::random::Random;
use compare::runs::{any_id, lend, lend_servers, Implementation, Library, Reference};
use reference::refusal::number_of;
use reference::{Book, Servers};
use rimemagpie::{Form, Refusal};

/// The C interface has the whole number of cases; here a tenth is enough.
fn some_cases() -> u64 {
    cases() / 10
}

#[test]
fn a_printed_refusal_says_number_and_fault() {
    let words = Refusal::Replay.to_string();
    assert_eq!(
        words,
        "refused 11: the row is heard and the counter is not above the one that it has"
    );
}

#[test]
fn digest_and_hmac() {
    for_each_case("wrapper digest", some_cases(), |random| {
        let (key_length, length) = (random.within(0..=70), random.within(0..=300));
        let (key, message) = (random.bytes(key_length), random.bytes(length));
        let digest = numbered(rimemagpie::digest(&message));
        same(
            "the digest",
            &numbered_reference(reference::digest(&message)),
            &digest,
        )?;
        let mac = numbered(rimemagpie::hmac(&key, &message));
        same(
            "the MAC",
            &numbered_reference(reference::hmac(&key, &message)),
            &mac,
        )
    });
    let long = vec![0; 65_536];
    assert_eq!(rimemagpie::digest(&long), Err(Refusal::TooLong));
}

#[test]
fn check_key_and_seal() {
    for_each_case("wrapper check", some_cases(), |random| {
        let mut book = books::sound(random);
        let message = messages::any(random, &book);
        let id = any_id(random, &book);
        maybe_spoil(random, &mut book);
        same_key(&book, &message)?;
        same_check(&book, &message)?;
        same_seal(&book, id, &message)
    });
}

/// An id that isn't found is an answer with its looks, and the only refusal is 1.
#[test]
fn known() {
    for_each_case("wrapper known", some_cases(), |random| {
        let (ids, count, id) = lists::any(random);
        let expected = numbered_reference(reference::known(&ids, count, id));
        let found = numbered(rimemagpie::known(&ids, count, id));
        let expected = expected.map(|sought| (sought.row, sought.looks));
        let found = found.map(|sought| (sought.row, sought.looks));
        same("row and looks", &expected, &found)
    });
    let long = vec![0; 1_025];
    assert_eq!(rimemagpie::known(&long, 0, 0), Err(Refusal::UnsoundBook));
}

/// Two books that differ in every byte of their key stores print the same text.
#[test]
fn a_printed_book_shows_no_key() {
    for_each_case("wrapper print", some_cases(), |random| {
        let mut book = books::sound(random);
        let mut other = book.clone();
        other.store.iter_mut().for_each(|byte| *byte ^= 0xff);
        let store = format!("store: {} bytes", book.store.len());
        let (book, other) = (lend(&mut book), lend(&mut other));
        same("`{:?}`", &format!("{book:?}"), &format!("{other:?}"))?;
        same("`{:#?}`", &format!("{book:#?}"), &format!("{other:#?}"))?;
        same("the store", &true, &format!("{book:?}").contains(&store))
    });
}

/// Server rows that differ in every byte of their nonces print the same text.
#[test]
fn printed_server_rows_show_no_nonce() {
    for_each_case("wrapper print rows", some_cases(), |random| {
        let rows = random.within(0..=5);
        let mut servers = servers::with_rows(random, rows);
        let mut other = servers.clone();
        other.nonces.iter_mut().for_each(|byte| *byte ^= 0xff);
        let nonces = format!("nonces: {} bytes", servers.nonces.len());
        let (one, other) = (lend_servers(&mut servers), lend_servers(&mut other));
        same("`{:?}`", &format!("{one:?}"), &format!("{other:?}"))?;
        same("`{:#?}`", &format!("{one:#?}"), &format!("{other:#?}"))?;
        same("the nonces", &true, &format!("{one:?}").contains(&nonces))
    });
}

#[test]
fn judgements_by_nonce() {
    for_each_case("wrapper forcerenew", some_cases(), |random| {
        let mut servers = servers::sound(random);
        let row = servers::any_row(random, servers.rows());
        let message = forcerenew::any(random, &servers, row);
        if random.one_in(8) {
            servers::spoil(random, &mut servers);
        }
        same_judgement(&servers, row, &message)
    });
}

fn same_judgement(servers: &Servers, row: usize, message: &[u8]) -> Result<(), Difference> {
    let mut servers_after = servers.clone();
    let expected = Reference::forcerenew(&mut servers_after, row, message);
    let mut lent = servers.clone();
    let found = Library::forcerenew(&mut lent, row, message);
    same("the judgement", &expected, &found)?;
    same("the set of server rows", &servers_after, &lent)
}

fn same_key(book: &Book, message: &[u8]) -> Result<(), Difference> {
    let place = reference::key_of_message(book, message);
    let expected = numbered_reference(place).map(|place| book.store[place].to_vec());
    let mut lent = book.clone();
    let found = numbered(lend(&mut lent).key(message).map(<[u8]>::to_vec));
    same("the key", &expected, &found)
}

fn same_check(book: &Book, message: &[u8]) -> Result<(), Difference> {
    let mut book_after = book.clone();
    let expected = numbered_reference(reference::check(&mut book_after, message));
    let mut lent = book.clone();
    let found = numbered(lend(&mut lent).check(message));
    let expected = expected.map(|a| (a.row, a.counter));
    same("the check", &expected, &found.map(|a| (a.row, a.counter)))?;
    same("the book", &book_after, &lent)
}

fn same_seal(book: &Book, id: u32, message: &[u8]) -> Result<(), Difference> {
    let (mut book_after, mut message_after) = (book.clone(), message.to_vec());
    let expected = reference::seal(&mut book_after, id, &mut message_after);
    let (mut lent, mut sealed) = (book.clone(), message.to_vec());
    let found = lend(&mut lent).seal(id, &mut sealed);
    same("the seal", &numbered_reference(expected), &numbered(found))?;
    same("the book", &book_after, &lent)?;
    same("the message", &message_after, &sealed)
}

#[test]
fn cards_read_and_written() {
    for_each_case("wrapper card", some_cases(), |random| {
        let mut book = books::sound(random);
        maybe_spoil(random, &mut book);
        same_written(&book)?;
        same_read(&book, &cards::any(random))
    });
}

#[test]
fn cards_moved() {
    for_each_case("wrapper move", some_cases(), |random| {
        let card = cards::any(random);
        same_moved(&card, reference::Form::Old, Form::Old)?;
        same_moved(&card, reference::Form::New, Form::New)
    });
}

fn same_moved(card: &[u8], expected: reference::Form, wanted: Form) -> Result<(), Difference> {
    let (mut room_after, mut room) = ([7; 1_000], [7; 1_000]);
    let expected = reference::card_move(card, expected, &mut room_after);
    let found = rimemagpie::card_move(card, wanted, &mut room);
    same("the size", &numbered_reference(expected), &numbered(found))?;
    same("the card", &room_after, &room)
}

/// The room that the wrapper names as enough for any card is just enough for the largest.
#[test]
fn the_largest_card() {
    let mut book = Book::with_room(256);
    book.ids = (0..256).collect();
    book.lengths.fill(64);
    book.rows = 256;
    let mut room = [0; rimemagpie::CARD_MOST];
    let lent = lend(&mut book);
    assert_eq!(lent.card_write(&mut room), Ok(room.len()));
    let short = room.len() - 1;
    let refused = lent.card_write(&mut room[..short]);
    assert_eq!(refused, Err(Refusal::NoRoomForCard));
}

fn same_written(book: &Book) -> Result<(), Difference> {
    let (mut room_after, mut room) = ([7; 1_000], [7; 1_000]);
    let expected = reference::card_write(book, &mut room_after);
    let found = lend(&mut book.clone()).card_write(&mut room);
    same("the size", &numbered_reference(expected), &numbered(found))?;
    same("the card", &room_after, &room)
}

/// The row count becomes the card's on 0 and stays on a refusal.
fn same_read(book: &Book, card: &[u8]) -> Result<(), Difference> {
    let mut book_after = book.clone();
    let expected = reference::card_read(card, &mut book_after);
    book_after.rows = expected.unwrap_or(book.rows);
    let mut found = book.clone();
    let mut lent = lend(&mut found);
    let answer = lent.card_read(card);
    let rows = lent.rows;
    found.rows = rows;
    let number = answer.map_or_else(|refusal| refusal.number(), |()| 0);
    same("the number", &number_of(&expected), &number)?;
    same("the book", &book_after, &found)
}

fn maybe_spoil(random: &mut Random, book: &mut Book) {
    if random.one_in(8) {
        books::spoil(random, book);
    }
}

fn numbered<T>(answer: Result<T, Refusal>) -> Result<T, u8> {
    answer.map_err(|refusal| refusal.number())
}

fn numbered_reference<T>(answer: Result<T, reference::Refusal>) -> Result<T, u8> {
    answer.map_err(|refusal| refusal.number())
}
