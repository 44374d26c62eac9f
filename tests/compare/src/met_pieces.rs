//! What a piece and the end of a card met, in words, and what came of it: so that a test sees that
//! each case that the rules name came up (docs/RULES.md, 'The card in pieces').

use reference::book::{goes_with, ROOM_MOST, ROWS_MOST, SLOT};
use reference::card::{KIND_CLOSE, KIND_NEW_ROW, KIND_OLD_ROW};
use reference::card_pieces::{
    CardReader, CLOSED, FAULT, NEW, NO_ID, NO_ROW, OLD, READING, TAIL_MOST,
};
use reference::Book;

/// Why a piece or the end gets 1, in the order of the parts; None where it doesn't.
fn refused(state: &CardReader, spare: &Book, book: Option<&Book>) -> Option<String> {
    let sizes = |rows: &Book, which: &str| Some(format!("{which}, {}", size_fault(rows)?));
    let of_book = |book: &Book| {
        sizes(book, "the book").or_else(|| {
            (book.ids.len() != spare.ids.len()).then(|| "the book, another room".to_string())
        })
    };
    sizes(spare, "spare rows")
        .or_else(|| of_book(book?))
        .or_else(|| Some(number_fault(state)?.to_string()))
}

/// Which list of a room has not the others' size: the one that differs from the ids, or the ids where
/// more than one does. Or the room is too large.
fn size_fault(rows: &Book) -> Option<&'static str> {
    let n = rows.ids.len();
    let others = [
        ("lengths", rows.lengths.len() == n),
        ("store", rows.store.len() == SLOT * n),
        ("marks", rows.marks.len() == n),
        ("received", rows.received.len() == n),
        ("sent", rows.sent.len() == n),
    ];
    let mut wrong = others.iter().filter(|(_, agrees)| !agrees);
    match (wrong.clone().count(), wrong.next()) {
        (0, _) if n > ROOM_MOST => Some("room above 1,024"),
        (0, _) => None,
        (1, Some((name, _))) => Some(name),
        _ => Some("ids"),
    }
}

/// Which number of a state is past its limit or unknown.
fn number_fault(state: &CardReader) -> Option<&'static str> {
    let (tail, rows) = (TAIL_MOST as u64, ROWS_MOST as u64);
    Some(match state {
        s if s.kept == tail + 1 => "kept one above",
        s if s.kept > tail => "kept far above",
        s if s.read == rows + 1 => "read one above",
        s if s.read > rows => "read far above",
        s if s.form == 2 => "form 2",
        s if ![NO_ROW, OLD, NEW].contains(&s.form) => "form above 3",
        s if s.phase == 3 => "phase 3",
        s if ![READING, CLOSED, FAULT].contains(&s.phase) => "phase above 3",
        _ => return None,
    })
}

/// What a piece met, and how reading then stands: all of these, since one piece shows several things.
pub fn by_feed(before: &CardReader, spare: &Book, piece: &[u8], after: &CardReader) -> Vec<String> {
    if let Some(why) = refused(before, spare, None) {
        return vec![format!("{why}: 1")];
    }
    let mut met = vec![format!(
        "{}, {}, {}: {}",
        phase_name(before.phase),
        kept_name(before),
        piece_name(before, piece),
        phase_name(after.phase)
    )];
    if before.phase == READING {
        met.push(format!(
            "low {}: {}",
            low_name(before.low),
            phase_name(after.phase)
        ));
        met.extend(fault_of(before, piece));
        met.extend(rows_met(before, spare, after));
    }
    met
}

fn phase_name(phase: u8) -> &'static str {
    match phase {
        READING => "reading",
        CLOSED => "closed",
        _ => "fault",
    }
}

/// What a tail keeps, which may be whole records.
fn kept_name(state: &CardReader) -> &'static str {
    match state.held() {
        [] => "nothing kept",
        [_] => "a byte kept",
        held if held.len() == TAIL_MOST => "a full tail",
        [low, high, behind @ ..]
            if behind.len() >= usize::from(u16::from_le_bytes([*low, *high])) =>
        {
            "whole records kept"
        }
        _ => "a cut record kept",
    }
}

/// How far a piece goes beside the record that it begins in.
fn piece_name(state: &CardReader, piece: &[u8]) -> &'static str {
    let held = state.held();
    let bytes = [held, piece].concat();
    let first = match bytes[..] {
        [low, high, ..] => 2 + usize::from(u16::from_le_bytes([low, high])),
        _ => usize::MAX,
    };
    match piece.len() {
        0 => "empty",
        _ if bytes.len() < first => "a part",
        _ if bytes.len() == first => "to a record's end",
        _ => "past a record's end",
    }
}

/// The last id there is.
const LAST_ID: u64 = NO_ID - 1;

fn low_name(low: u64) -> &'static str {
    match low {
        0 => "0",
        LAST_ID => "2^32 - 1",
        1..LAST_ID => "an id",
        NO_ID => "2^32",
        u64::MAX => "2^64 - 1",
        _ => "above 2^32",
    }
}

/// Rows that got whole, beside the room for them.
fn rows_met(before: &CardReader, spare: &Book, after: &CardReader) -> Vec<String> {
    let room = spare.ids.len() as u64;
    if after.read == before.read {
        return vec![];
    }
    let fit = match room {
        _ if after.read <= room => "all rows fit",
        _ if before.read >= room => "no row fits",
        _ => "some rows fit",
    };
    let full = match after.read {
        read if read == ROWS_MOST as u64 => "as many rows as there may be",
        _ => "fewer rows than there may be",
    };
    let form = format!("form {} to {}", before.form, after.form);
    vec![fit.to_string(), full.to_string(), form]
}

/// Why a piece is a fault, and whether the record that is one was cut by it; None where it is none.
fn fault_of(before: &CardReader, piece: &[u8]) -> Option<String> {
    let mut spare = Book::default();
    let mut state = CardReader {
        kept: 0,
        ..before.clone()
    };
    let bytes = [before.held(), piece].concat();
    for (at, byte) in bytes.iter().enumerate() {
        let last = state.clone();
        state.feed(&[*byte], &mut spare).ok()?;
        if state.phase == FAULT {
            let start = at - last.held().len();
            let kept = before.held().len();
            let place = match start {
                _ if at < kept => "in the tail",
                _ if start < kept => "across",
                _ => "in the piece",
            };
            return Some(format!("{}, {place}", why(&last, *byte)));
        }
    }
    None
}

/// Why the byte that makes a record whole, or its length, is a fault.
fn why(state: &CardReader, byte: u8) -> &'static str {
    if state.phase == CLOSED {
        return "bytes behind the close";
    }
    let record = [state.held(), &[byte]].concat();
    let length = u16::from_le_bytes([record[0], record[1]]);
    if record.len() == 2 {
        return match length {
            0 | 1 => "a length below the kind's",
            _ => "a length that no record has",
        };
    }
    let kind = u16::from_le_bytes([record[2], record[3]]);
    match kind {
        KIND_CLOSE => close_fault(state, &record),
        KIND_OLD_ROW | KIND_NEW_ROW => row_fault(state, kind, &record),
        _ => "an unknown kind",
    }
}

fn close_fault(state: &CardReader, record: &[u8]) -> &'static str {
    match record[4..] {
        [low, high] if u64::from(u16::from_le_bytes([low, high])) > state.read => {
            "a close with a number too high"
        }
        [_, _] => "a close with a number too low",
        _ => "a close of a row's length",
    }
}

fn row_fault(state: &CardReader, kind: u16, record: &[u8]) -> &'static str {
    let number = |at: usize, size: usize| {
        let bytes = record[at..at + size].iter().rev();
        bytes.fold(0, |number, byte| number << 8 | u64::from(*byte))
    };
    let is_new = kind == KIND_NEW_ROW;
    let key_at = if is_new { 25 } else { 24 };
    match record.len() {
        6 => return "a row of the close's length",
        size if size <= key_at => return "a new row without a key",
        size if size > key_at + SLOT => return "an old row with a key too long",
        _ => {}
    }
    let (id, mark) = (number(4, 4), record[8]);
    match state.form {
        OLD if is_new => "a new row behind old ones",
        NEW if !is_new => "an old row behind new ones",
        _ if is_new && mark > 1 => "a mark above 1",
        _ if is_new && !goes_with(mark, number(9, 8)) => "a counter on a row not heard",
        _ if state.read >= ROWS_MOST as u64 => "a row too many",
        _ if state.low >= NO_ID => "a row where no id may follow",
        _ if id + 1 == state.low => "an id repeated",
        _ => "an id below",
    }
}

/// Each way to be a fault.
const FAULTS: [&str; 18] = [
    "bytes behind the close",
    "a length below the kind's",
    "a length that no record has",
    "an unknown kind",
    "a close with a number too high",
    "a close with a number too low",
    "a close of a row's length",
    "a row of the close's length",
    "a new row without a key",
    "an old row with a key too long",
    "a new row behind old ones",
    "an old row behind new ones",
    "a mark above 1",
    "a counter on a row not heard",
    "a row too many",
    "a row where no id may follow",
    "an id repeated",
    "an id below",
];

/// What must come up of sizes and numbers that get 1, at a piece and at the end.
const REFUSED: [&str; 15] = [
    "spare rows, ids: 1",
    "spare rows, lengths: 1",
    "spare rows, store: 1",
    "spare rows, marks: 1",
    "spare rows, received: 1",
    "spare rows, sent: 1",
    "spare rows, room above 1,024: 1",
    "kept one above: 1",
    "kept far above: 1",
    "read one above: 1",
    "read far above: 1",
    "form 2: 1",
    "form above 3: 1",
    "phase 3: 1",
    "phase above 3: 1",
];

/// What must come up of pieces that are taken, beside the faults.
const TAKEN: [&str; 52] = [
    "reading, nothing kept, empty: reading",
    "reading, nothing kept, a part: reading",
    "reading, nothing kept, a part: fault",
    "reading, nothing kept, to a record's end: reading",
    "reading, nothing kept, to a record's end: closed",
    "reading, nothing kept, to a record's end: fault",
    "reading, nothing kept, past a record's end: reading",
    "reading, nothing kept, past a record's end: closed",
    "reading, nothing kept, past a record's end: fault",
    "reading, a byte kept, empty: reading",
    "reading, a byte kept, a part: reading",
    "reading, a byte kept, a part: fault",
    "reading, a byte kept, past a record's end: closed",
    "reading, a cut record kept, empty: reading",
    "reading, a cut record kept, a part: reading",
    "reading, a cut record kept, to a record's end: reading",
    "reading, a cut record kept, to a record's end: closed",
    "reading, a cut record kept, to a record's end: fault",
    "reading, a cut record kept, past a record's end: reading",
    "reading, a cut record kept, past a record's end: closed",
    "reading, a cut record kept, past a record's end: fault",
    "reading, whole records kept, empty: reading",
    "reading, whole records kept, empty: closed",
    "reading, whole records kept, empty: fault",
    "reading, whole records kept, past a record's end: reading",
    "reading, whole records kept, past a record's end: closed",
    "reading, whole records kept, past a record's end: fault",
    "reading, a full tail, empty: reading",
    "reading, a full tail, empty: fault",
    "reading, a full tail, past a record's end: closed",
    "closed, nothing kept, empty: closed",
    "closed, nothing kept, a part: fault",
    "closed, a byte kept, empty: fault",
    "closed, whole records kept, empty: fault",
    "fault, nothing kept, empty: fault",
    "fault, whole records kept, past a record's end: fault",
    "low 0: reading",
    "low an id: reading",
    "low 2^32 - 1: reading",
    "low 2^32 - 1: closed",
    "low 2^32 - 1: fault",
    "low 2^32: closed",
    "low 2^32: fault",
    "low above 2^32: closed",
    "low above 2^32: fault",
    "low 2^64 - 1: closed",
    "low 2^64 - 1: fault",
    "all rows fit",
    "some rows fit",
    "no row fits",
    "as many rows as there may be",
    "fewer rows than there may be",
];

/// All that must come up among pieces.
pub fn fed() -> Vec<String> {
    let mut all: Vec<String> = REFUSED
        .iter()
        .chain(&TAKEN)
        .map(|w| w.to_string())
        .collect();
    for (before, after) in [(0, 1), (0, 3), (1, 1), (3, 3)] {
        all.push(format!("form {before} to {after}"));
    }
    for fault in FAULTS {
        let places = ["in the tail", "across", "in the piece"];
        all.extend(places.map(|place| format!("{fault}, {place}")));
    }
    // A byte behind the close is a fault by itself, and a record that is larger than a tail is not in
    // one.
    let none = [
        "bytes behind the close, across",
        "an old row with a key too long, in the tail",
    ];
    all.retain(|what| !none.contains(&what.as_str()));
    all
}

/// What the end met, and the answer.
pub fn by_finish(state: &CardReader, spare: &Book, book: &Book, answer: u8) -> String {
    if let Some(why) = refused(state, spare, Some(book)) {
        return format!("{why}: {answer}");
    }
    let room = spare.ids.len() as u64;
    let fit = match state.read {
        0 => "no rows",
        read if read > room + 1 => "room for far fewer",
        read if read > room => "room for one less",
        read if read == room => "just enough room",
        _ => "more room",
    };
    let kept = match state.kept {
        0 => "nothing kept",
        _ => "bytes kept",
    };
    format!("{}, {kept}, {fit}: {answer}", phase_name(state.phase))
}

/// All that must come up at the end.
pub fn finished() -> Vec<String> {
    let mut all: Vec<String> = REFUSED.map(String::from).to_vec();
    let parts = [
        "ids",
        "lengths",
        "store",
        "marks",
        "received",
        "sent",
        "room above 1,024",
        "another room",
    ];
    all.extend(parts.map(|part| format!("the book, {part}: 1")));
    let fits = [
        "no rows",
        "room for far fewer",
        "room for one less",
        "just enough room",
        "more room",
    ];
    for fit in fits {
        let closed = match fit {
            "room for far fewer" | "room for one less" => 17,
            _ => 0,
        };
        all.push(format!("closed, nothing kept, {fit}: {closed}"));
        all.push(format!("closed, bytes kept, {fit}: 15"));
        for phase in ["reading", "fault"] {
            all.push(format!("{phase}, nothing kept, {fit}: 15"));
            all.push(format!("{phase}, bytes kept, {fit}: 15"));
        }
    }
    all
}
