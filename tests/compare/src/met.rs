//! What a check, a reading and a move met, in words, and what they answered: so that a test sees that
//! each case that the rules name came up (docs/RULES.md, 'Check' and 'The card').

use reference::auth::named_id;
use reference::book::HEARD;
use reference::card::{card_of_rows, rows_of_card, Form, KIND_OLD_ROW};
use reference::message::{full_form, number};
use reference::Book;

/// How a check met the row that its message names, by the row's mark and the message's counter, and
/// what it answered. None where the book is not sound or the message names no row of it.
pub fn by_check(book: &Book, message: &[u8], answer: u8) -> Option<String> {
    if !book.is_sound() {
        return None;
    }
    let shape = full_form(message).ok()?;
    let row = book.row_of(named_id(message, &shape))?;
    let counter = number(&message[shape.counter()]);
    let how = match book.is_heard(row) {
        true => ("heard", beside(counter, book.received[row])),
        false => ("not heard", among_all(counter)),
    };
    Some(format!("{}, {}: {answer}", how.0, how.1))
}

/// Where a counter stands beside a received one.
fn beside(counter: u64, received: u64) -> &'static str {
    match received {
        0 if counter == 0 => "0 again",
        0 => "above 0",
        _ if counter < received => "below",
        _ if counter == received => "the same",
        _ if counter == u64::MAX => "2^64 - 1",
        _ => "above",
    }
}

/// Where a counter stands among all there are.
fn among_all(counter: u64) -> &'static str {
    match counter {
        0 => "0",
        u64::MAX => "2^64 - 1",
        _ => "another",
    }
}

/// What must come up among checks: a row not heard takes any counter that has the right MAC, and 11 is
/// given on a heard row alone.
pub const CHECKED: [&str; 14] = [
    "not heard, 0: 0",
    "not heard, 0: 12",
    "not heard, 2^64 - 1: 0",
    "not heard, 2^64 - 1: 12",
    "not heard, another: 0",
    "not heard, another: 12",
    "heard, 0 again: 11",
    "heard, the same: 11",
    "heard, below: 11",
    "heard, above 0: 0",
    "heard, above: 0",
    "heard, 2^64 - 1: 0",
    "heard, above 0: 12",
    "heard, above: 12",
];

/// What must not come up among checks: 11 on a row not heard, to which every counter is new.
pub const NOT_CHECKED: [&str; 3] = [
    "not heard, 0: 11",
    "not heard, 2^64 - 1: 11",
    "not heard, another: 11",
];

/// What a card is.
pub fn kind_of_card(card: &[u8]) -> &'static str {
    let Some(rows) = rows_of_card(card) else {
        return "no card";
    };
    match card[2..4] {
        _ if rows.is_empty() => "no rows",
        _ if rows.iter().any(|row| row.mark != HEARD) => "not heard",
        [low, 0] if u16::from(low) == KIND_OLD_ROW => "old",
        _ => "new",
    }
}

/// What a reading met, and what it answered.
pub fn by_reading(card: &[u8], answer: u8) -> String {
    format!("{}: {answer}", kind_of_card(card))
}

/// What must come up among readings.
pub const READ: [&str; 8] = [
    "no card: 15",
    "no rows: 0",
    "old: 0",
    "old: 17",
    "new: 0",
    "new: 17",
    "not heard: 0",
    "not heard: 17",
];

/// What a move to a form met, by the card and the room for it, and what it answered.
pub fn by_move(card: &[u8], wanted: Form, room: usize, answer: u8) -> String {
    let Some(rows) = rows_of_card(card) else {
        return by_reading(card, answer);
    };
    let fit = fit(room, card_of_rows(wanted, &rows).len());
    format!("{}, {fit}: {answer}", kind_of_card(card))
}

/// How a room is beside the size that is needed.
pub fn fit(room: usize, size: usize) -> &'static str {
    match room {
        _ if room + 1 == size => "a byte short",
        _ if room < size => "short",
        _ if room == size => "exact",
        _ => "larger",
    }
}

/// What must come up among moves to either form.
const MOVED: [&str; 10] = [
    "no card: 15",
    "no rows, a byte short: 16",
    "no rows, exact: 0",
    "no rows, larger: 0",
    "old, a byte short: 16",
    "old, exact: 0",
    "old, larger: 0",
    "new, a byte short: 16",
    "new, exact: 0",
    "new, larger: 0",
];

/// What must come up among moves to a form. A row not heard has no place on an old card.
pub fn moved(wanted: Form) -> Vec<String> {
    let not_heard = match wanted {
        Form::Old => 18,
        Form::New => 0,
    };
    let mut moved = MOVED.map(String::from).to_vec();
    moved.push("not heard, a byte short: 16".to_string());
    moved.push(format!("not heard, exact: {not_heard}"));
    moved.push(format!("not heard, larger: {not_heard}"));
    moved
}
