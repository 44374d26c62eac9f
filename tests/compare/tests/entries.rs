//! Each entry of the C interface beside the second implementation: the number returned, the places
//! of results, and all lent buffers whole after every call, refused ones too.

use compare::generate::{books, cards, forcerenew as by_nonce, lists, messages, rooms, servers};
use compare::harness::{compare, on_bytes, same, same_items, Difference, Tally};
use compare::lent::{Lent, LentBook, LentServers};
use compare::random::Random;
use compare::runs::any_id;
use compare::searches::{asked, Places, Question};
use compare::{met, met_forcerenew, met_known};
use reference::book::SLOT;
use reference::card::{card_of_rows, rows_of_card};
use reference::refusal::number_of;
use reference::{Accepted, Book, Form, Judged, Servers};
use rimemagpie::c;

#[test]
fn digest() {
    compare("digest", &[0, 14], |random| {
        let message = digest_message(random);
        let expected = reference::digest(&message);
        let lent = Lent::new(&message, random);
        let mut digest = random_16(random);
        let number = c::digest(lent.items(), &mut digest);
        same("the number", &number_of(&expected), &number)?;
        same("the digest", &expected.unwrap_or([0; 16]), &digest)?;
        lent.holds("message", &message)?;
        Ok(number)
    });
}

#[test]
fn hmac() {
    compare("hmac", &[0, 14], |random| {
        let message = digest_message(random);
        let key_length = match random.below(10) {
            0 => random.within(65..=300),
            1 => random.pick(&[0, 1, 63, 64]),
            _ => random.within(0..=64),
        };
        let key = random.bytes(key_length);
        let expected = reference::hmac(&key, &message);
        let lent_key = Lent::new(&key, random);
        let lent = Lent::new(&message, random);
        let mut mac = random_16(random);
        let number = c::hmac(lent_key.items(), lent.items(), &mut mac);
        same("the number", &number_of(&expected), &number)?;
        same("the MAC", &expected.unwrap_or([0; 16]), &mac)?;
        lent_key.holds("key", &key)?;
        lent.holds("message", &message)?;
        Ok(number)
    });
}

/// Bytes to digest: mostly short, each length around a block often, now and then around a limit.
fn digest_message(random: &mut Random) -> Vec<u8> {
    let length = match random.below(1_000) {
        0..=599 => random.within(0..=200),
        600..=979 => random.within(0..=1_600),
        980..=989 => random.within(65_400..=65_600),
        990..=993 => random.pick(&[65_535, 65_536]),
        994..=997 => random.pick(&[65_471, 65_472]),
        998 => random.within(65_537..=200_000),
        _ => random.within(0..=65_535),
    };
    random.bytes(length)
}

fn random_16(random: &mut Random) -> [u8; 16] {
    (u128::from(random.u64()) << 64 | u128::from(random.u64())).to_le_bytes()
}

#[test]
fn check() {
    let reachable = [0, 1, 2, 3, 4, 5, 6, 7, 8, 9, 10, 11, 12];
    let mut tally = Tally::new("check, by row and counter");
    compare("check", &reachable, |random| {
        let (book, message) = book_and_message(random);
        let number = on_bytes(check_case(random, &book, &message), "message", &message)?;
        let met = met::by_check(&book, &message, number);
        met.into_iter().for_each(|what| tally.count(what));
        Ok(number)
    });
    tally.print();
    tally.require(&met::CHECKED.map(String::from));
    tally.forbid(&met::NOT_CHECKED.map(String::from));
}

fn check_case(random: &mut Random, book: &Book, message: &[u8]) -> Result<u8, Difference> {
    let mut book_after = book.clone();
    let expected = reference::check(&mut book_after, message);

    let mut lent = LentBook::new(book, random);
    let lent_message = Lent::new(message, random);
    let before = (random.u64(), random.u64());
    let (mut row, mut counter) = before;
    let number = c::check(
        lent.ids.items(),
        lent.lengths.items(),
        lent.store.items(),
        lent.marks.items_mut(),
        lent.received.items_mut(),
        lent.sent.items(),
        lent.rows,
        lent_message.items(),
        &mut row,
        &mut counter,
    );

    same("the number", &number_of(&expected), &number)?;
    let results = match expected {
        Ok(Accepted { row, counter }) => (row as u64, counter),
        Err(_) => before,
    };
    same("row and counter", &results, &(row, counter))?;
    lent.holds(&book_after)?;
    lent_message.holds("message", message)?;
    Ok(number)
}

#[test]
fn key() {
    let reachable = [0, 1, 2, 3, 4, 5, 6, 7, 8, 9, 10];
    compare("key", &reachable, |random| {
        let (book, message) = book_and_message(random);
        on_bytes(key_case(random, &book, &message), "message", &message)
    });
}

fn key_case(random: &mut Random, book: &Book, message: &[u8]) -> Result<u8, Difference> {
    let expected = reference::key_of_message(book, message);

    let lent = LentBook::new(book, random);
    let lent_message = Lent::new(message, random);
    let before = (random.u64(), random.u64());
    let (mut offset, mut length) = before;
    let number = c::key(
        lent.ids.items(),
        lent.lengths.items(),
        lent.store.items(),
        lent.marks.items(),
        lent.received.items(),
        lent.sent.items(),
        lent.rows,
        lent_message.items(),
        &mut offset,
        &mut length,
    );

    same("the number", &number_of(&expected), &number)?;
    let results = match &expected {
        Ok(place) => (place.start as u64, place.len() as u64),
        Err(_) => before,
    };
    same("offset and length", &results, &(offset, length))?;
    lent.holds(book)?;
    lent_message.holds("message", message)?;
    Ok(number)
}

#[test]
fn seal() {
    let reachable = [0, 1, 2, 3, 4, 5, 6, 7, 8, 9, 10, 13];
    compare("seal", &reachable, |random| {
        let (book, message) = book_and_message(random);
        on_bytes(seal_case(random, &book, &message), "message", &message)
    });
}

fn seal_case(random: &mut Random, book: &Book, message: &[u8]) -> Result<u8, Difference> {
    let id = match book.is_sound() {
        true => any_id(random, book),
        false => book.ids.first().copied().unwrap_or(7),
    };
    let mut book_after = book.clone();
    let mut message_after = message.to_vec();
    let expected = reference::seal(&mut book_after, id, &mut message_after);

    let mut lent = LentBook::new(book, random);
    let mut lent_message = Lent::new(message, random);
    let before = random.u64();
    let mut counter = before;
    let number = c::seal(
        lent.ids.items(),
        lent.lengths.items(),
        lent.store.items(),
        lent.marks.items(),
        lent.received.items(),
        lent.sent.items_mut(),
        lent.rows,
        id,
        lent_message.items_mut(),
        &mut counter,
    );

    same("the number", &number_of(&expected), &number)?;
    same("counter", &expected.unwrap_or(before), &counter)?;
    lent.holds(&book_after)?;
    lent_message.holds("message", &message_after)?;
    Ok(number)
}

/// A book and a message for it; one book in eight is then spoiled.
fn book_and_message(random: &mut Random) -> (Book, Vec<u8>) {
    let mut book = match random.below(8) {
        0 => books::sound(random),
        _ => books::sound_with_a_row(random),
    };
    let message = messages::any(random, &book);
    if random.one_in(8) {
        books::spoil(random, &mut book);
    }
    (book, message)
}

#[test]
fn known() {
    let mut tally = Tally::new("known, by ids and count");
    let mut looks = Tally::new("known, by looks");
    compare("known", &[0, 1, 10], |random| {
        let (ids, count, id) = lists::any(random);
        let lent = Lent::new(&ids, random);
        let question = Question {
            ids: lent.items(),
            count,
            id,
        };
        let before = Places {
            row: random.u64(),
            looks: random.u64(),
        };
        let (number, after) = asked(&question, before)?;
        tally.count(met_known::by_search(&question, number));
        if number != 1 {
            looks.count(after.looks);
        }
        lent.holds("ids", &ids)?;
        Ok(number)
    });
    tally.print();
    tally.require(&met_known::SOUGHT.map(String::from));
    tally.forbid(&met_known::NOT_SOUGHT.map(String::from));
    looks.print();
    looks.require(&[0, 1, 2, 3, 4, 5, 6, 7, 8, 9, 10, 11]);
}

#[test]
fn card_read() {
    let mut tally = Tally::new("card_read, by card");
    compare("card_read", &[0, 1, 15, 17], |random| {
        let card = cards::any(random);
        let book = room_for_card(random, &card);
        let number = on_bytes(card_read_case(random, &book, &card), "card", &card)?;
        tally.count(met::by_reading(&card, number));
        Ok(number)
    });
    tally.print();
    tally.require(&met::READ.map(String::from));
}

fn card_read_case(random: &mut Random, book: &Book, card: &[u8]) -> Result<u8, Difference> {
    let mut book_after = book.clone();
    let expected = reference::card_read(card, &mut book_after);

    let mut lent = LentBook::new(book, random);
    let lent_card = Lent::new(card, random);
    let before = random.u64();
    let mut rows = before;
    let number = c::card_read(
        lent_card.items(),
        lent.ids.items_mut(),
        lent.lengths.items_mut(),
        lent.store.items_mut(),
        lent.marks.items_mut(),
        lent.received.items_mut(),
        lent.sent.items_mut(),
        &mut rows,
    );

    same("the number", &number_of(&expected), &number)?;
    let result = expected.map_or(before, |rows| rows as u64);
    same("rows", &result, &rows)?;
    lent.holds(&book_after)?;
    lent_card.holds("card", card)?;
    if number == 0 {
        written_again(&book_after, rows as usize, card)?;
    }
    Ok(number)
}

/// A card just read is written as the card that moving it to the new form gives: with the same bytes
/// where it is in that form.
fn written_again(book: &Book, rows: usize, card: &[u8]) -> Result<(), Difference> {
    let new = moved_by_library(Form::New, card)?;
    let mut room = vec![0; new.len()];
    let mut size = 0;
    let number = c::card_write(
        &book.ids,
        &book.lengths,
        &book.store,
        &book.marks,
        &book.received,
        &book.sent,
        rows,
        &mut room,
        &mut size,
    );
    same("the number on writing it again", &0, &number)?;
    same("its size", &(new.len() as u64), &size)?;
    same_items("the card written again", &new, &room)?;
    match met::kind_of_card(card) {
        "old" => Ok(()),
        _ => same_items("the card itself", card, &room),
    }
}

/// A card that the library moves to a form, which it must.
fn moved_by_library(wanted: Form, card: &[u8]) -> Result<Vec<u8>, Difference> {
    let mut room = vec![0; 22_790];
    let mut size = 0;
    let number = move_to(wanted, card, &mut room, &mut size);
    same("the number on moving it", &0, &number)?;
    room.truncate(size as usize);
    Ok(room)
}

/// The entry that moves to a form.
fn move_to(wanted: Form, card: &[u8], room: &mut [u8], size: &mut u64) -> u8 {
    match wanted {
        Form::Old => c::card_to_old(card, room, size),
        Form::New => c::card_to_new(card, room, size),
    }
}

/// Room to read a card into: too little, just enough, more, as much as there may be, or of sizes
/// that disagree. What it holds before is a book's.
fn room_for_card(random: &mut Random, card: &[u8]) -> Book {
    let rows = rows_of_card(card).map_or(3, |rows| rows.len());
    let room = match random.below(20) {
        0..=3 => rows.saturating_sub(random.within(1..=3)),
        4..=9 => rows,
        10..=17 => rows + random.within(0..=5),
        18 => random.pick(&[64, 256]),
        _ => random.pick(&[1_024, 1_025]),
    };
    let mut book = books::with_rows(random, room, 0);
    if random.one_in(8) {
        let size_fault = random.pick(&books::Fault::SIZES);
        books::spoil_by(random, &mut book, size_fault);
    }
    book
}

#[test]
fn card_write() {
    compare("card_write", &[0, 1, 16], |random| {
        let mut book = books::sound(random);
        if random.one_in(8) {
            books::spoil(random, &mut book);
        }
        card_write_case(random, &book)
    });
}

fn card_write_case(random: &mut Random, book: &Book) -> Result<u8, Difference> {
    let room = room_to_write(random, book);
    let mut room_after = room.clone();
    let expected = reference::card_write(book, &mut room_after);

    let lent = LentBook::new(book, random);
    let mut lent_room = Lent::new(&room, random);
    let before = random.u64();
    let mut size = before;
    let number = c::card_write(
        lent.ids.items(),
        lent.lengths.items(),
        lent.store.items(),
        lent.marks.items(),
        lent.received.items(),
        lent.sent.items(),
        lent.rows,
        lent_room.items_mut(),
        &mut size,
    );

    same("the number", &number_of(&expected), &number)?;
    let result = expected.map_or(before, |size| size as u64);
    same("size", &result, &size)?;
    lent.holds(book)?;
    lent_room.holds("card", &room_after)?;
    round_trip(random, book, &room_after[..expected.unwrap_or(0)])?;
    Ok(number)
}

/// The sizes of the largest cards, in the old form and in the new one.
const CARD_ROOMS: [usize; 2] = [22_534, 22_790];

/// Room for the book's card.
fn room_to_write(random: &mut Random, book: &Book) -> Vec<u8> {
    let keys = book.lengths.iter().take(book.rows);
    let size = 6 + keys.map(|length| 25 + usize::from(*length)).sum::<usize>();
    rooms::about(random, size, &CARD_ROOMS)
}

/// A card just written reads back into the same rows, with zeros after each key.
fn round_trip(random: &mut Random, book: &Book, card: &[u8]) -> Result<(), Difference> {
    if card.is_empty() {
        return Ok(());
    }
    let mut read = books::with_rows(random, book.rows, 0);
    let mut rows = 0;
    let number = c::card_read(
        card,
        &mut read.ids,
        &mut read.lengths,
        &mut read.store,
        &mut read.marks,
        &mut read.received,
        &mut read.sent,
        &mut rows,
    );
    same("the number on reading it back", &0, &number)?;
    same("rows read back", &(book.rows as u64), &rows)?;
    same_items("ids read back", &book.ids[..book.rows], &read.ids)?;
    same_items("marks read back", &book.marks[..book.rows], &read.marks)?;
    same_items(
        "received read back",
        &book.received[..book.rows],
        &read.received,
    )?;
    same_items("sent read back", &book.sent[..book.rows], &read.sent)?;
    for row in 0..book.rows {
        let mut slot = book.key(row).to_vec();
        slot.resize(SLOT, 0);
        let found = &read.store[SLOT * row..SLOT * (row + 1)];
        same_items("a slot read back", &slot, found)?;
    }
    Ok(())
}

#[test]
fn card_to_old() {
    compare_moves("card_to_old", Form::Old, &[0, 15, 16, 18]);
}

#[test]
fn card_to_new() {
    compare_moves("card_to_new", Form::New, &[0, 15, 16]);
}

/// Compares the entry that moves to a form.
fn compare_moves(entry: &str, wanted: Form, reachable: &[u8]) {
    let mut tally = Tally::new(&format!("{entry}, by card and room"));
    compare(entry, reachable, |random| {
        let card = cards::any(random);
        let room = room_to_move(random, wanted, &card);
        let number = on_bytes(move_case(random, wanted, &card, &room), "card", &card)?;
        tally.count(met::by_move(&card, wanted, room.len(), number));
        Ok(number)
    });
    tally.print();
    tally.require(&met::moved(wanted));
}

/// Room for a card in a form, or now and then as much as the card itself has.
fn room_to_move(random: &mut Random, wanted: Form, card: &[u8]) -> Vec<u8> {
    let rows = rows_of_card(card).unwrap_or_default();
    match random.below(8) {
        0 => random.bytes(card.len()),
        _ => rooms::about(random, card_of_rows(wanted, &rows).len(), &CARD_ROOMS),
    }
}

fn move_case(
    random: &mut Random,
    wanted: Form,
    card: &[u8],
    room: &[u8],
) -> Result<u8, Difference> {
    let mut room_after = room.to_vec();
    let expected = reference::card_move(card, wanted, &mut room_after);

    let lent_card = Lent::new(card, random);
    let mut lent_room = Lent::new(room, random);
    let before = random.u64();
    let mut size = before;
    let number = move_to(wanted, lent_card.items(), lent_room.items_mut(), &mut size);

    same("the number", &number_of(&expected), &number)?;
    let result = expected.map_or(before, |size| size as u64);
    same("size", &result, &size)?;
    lent_card.holds("card", card)?;
    lent_room.holds("room", &room_after)?;
    if let Ok(size) = expected {
        moved_back(&room_after[..size], card)?;
    }
    Ok(number)
}

/// A card that was moved comes back, with the same bytes, when it is moved to the form that it had.
fn moved_back(moved: &[u8], card: &[u8]) -> Result<(), Difference> {
    let form = match met::kind_of_card(card) {
        "old" => Form::Old,
        _ => Form::New,
    };
    let back = moved_by_library(form, moved)?;
    same_items("the card moved back", card, &back)
}

#[test]
fn forcerenew() {
    let reachable = [0, 1, 2, 3, 4, 5, 6, 7, 10, 11, 12, 19, 20, 21];
    let mut tally = Tally::new("forcerenew, by row and message");
    let mut sizes = Tally::new("forcerenew, by number of rows");
    let mut macs = Tally::new("forcerenew, by MAC");
    compare("forcerenew", &reachable, |random| {
        let (servers, row, message) = servers_row_and_message(random);
        let answer = forcerenew_case(random, &servers, row, &message);
        let number = on_bytes(answer, "message", &message)?;
        tally.count(met_forcerenew::by_judgement(
            &servers, row, &message, number,
        ));
        sizes.count(met_forcerenew::by_size(&servers, number));
        let met = met_forcerenew::by_mac(&servers, row, &message, number);
        met.into_iter().for_each(|what| macs.count(what));
        Ok(number)
    });
    tally.print();
    tally.require(&met_forcerenew::judged());
    sizes.print();
    sizes.require(&met_forcerenew::SIZES.map(String::from));
    macs.print();
    macs.require(&met_forcerenew::MACS.map(String::from));
}

/// Server rows, the number of one and a message for it; one set of rows in eight is then spoiled.
fn servers_row_and_message(random: &mut Random) -> (Servers, usize, Vec<u8>) {
    let mut servers = servers::sound(random);
    let row = servers::any_row(random, servers.rows());
    let message = by_nonce::any(random, &servers, row);
    if random.one_in(8) {
        servers::spoil(random, &mut servers);
    }
    (servers, row, message)
}

fn forcerenew_case(
    random: &mut Random,
    servers: &Servers,
    row: usize,
    message: &[u8],
) -> Result<u8, Difference> {
    let mut servers_after = servers.clone();
    let expected = reference::forcerenew(&mut servers_after, row, message);

    let mut lent = LentServers::new(servers, random);
    let lent_message = Lent::new(message, random);
    let before = (random.u8(), random.u64());
    let (mut kind, mut counter) = before;
    let number = c::forcerenew(
        lent.nonces.items_mut(),
        lent.counters.items_mut(),
        lent.marks.items_mut(),
        row,
        lent_message.items(),
        &mut kind,
        &mut counter,
    );

    same("the number", &number_of(&expected), &number)?;
    let results = match expected {
        Ok(Judged { kind, counter }) => (kind, counter),
        Err(_) => before,
    };
    same("kind and counter", &results, &(kind, counter))?;
    lent.holds(&servers_after)?;
    lent_message.holds("message", message)?;
    Ok(number)
}
