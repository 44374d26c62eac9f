//! The program `judge_capture` beside the second implementation, on files in a folder of its own.

use crate::generate::captures::{of_records, Record};
use crate::generate::frames::Draft;
use crate::generate::messages;
use crate::harness::{same_items, Difference};
use crate::outside::{judge_capture, Folder};
use crate::programs::{judged_by, put, At, CARD};
use reference::capture::Order;
use reference::examples::NEW_CARD_B;
use std::iter;
use std::process::Command;

/// The capture's name.
pub const CAPTURE: &str = "church.pcap";

/// What the program says of book B's recording.
pub const ACCEPTED: &str = "1 accepted row 0 counter 11\n";

/// A folder with these two in it.
pub fn folder_with(card: At, capture: At) -> Folder {
    let folder = Folder::new();
    put(&folder, CARD, card);
    put(&folder, CAPTURE, capture);
    folder
}

/// The text that the program writes on these two.
pub fn judged(card: At, capture: At) -> String {
    let folder = folder_with(card, capture);
    judged_by(&mut Command::new(judge_capture()), &folder)
}

/// What both write on two files: the text, or where they differ.
pub fn both(card: &[u8], capture: &[u8]) -> Result<String, Difference> {
    both_by(&mut Command::new(judge_capture()), card, capture)
}

/// The same, with a command that runs the program in some way.
pub fn both_by(command: &mut Command, card: &[u8], capture: &[u8]) -> Result<String, Difference> {
    let expected = reference::capture::judged(Some(card), Some(capture));
    let folder = folder_with(At::File(card), At::File(capture));
    let found = judged_by(command, &folder);
    same_lines(&expected, &found)?;
    Ok(found)
}

/// Whether two texts are the same, line by line.
pub fn same_lines(expected: &str, found: &str) -> Result<(), Difference> {
    let [expected, found] = [expected, found].map(|text| {
        let lines = text.split_inclusive('\n');
        lines.collect::<Vec<_>>()
    });
    same_items("lines", &expected, &found)
}

/// The text that both write on a capture and book B.
pub fn agreed(capture: &[u8]) -> String {
    both(&NEW_CARD_B, capture).unwrap_or_else(|difference| panic!("{difference}"))
}

/// Frames that book B accepts one after another, right in every field.
pub fn right_frames() -> impl Iterator<Item = Draft> {
    (11..).map(|counter| Draft::around(&messages::signed(&[1, 2, 3, 4], 7, counter)))
}

/// The capture of all of these frames, which has no end: its header, and then a record to a piece.
pub fn endless_capture(order: Order) -> impl Iterator<Item = Vec<u8>> {
    let records = right_frames().map(move |draft| Record::of(draft.bytes()).bytes(order));
    iter::once(of_records(order, &[])).chain(records)
}

/// The capture of some of these frames.
pub fn right_capture(order: Order, count: usize) -> Vec<u8> {
    endless_capture(order).take(1 + count).flatten().collect()
}

/// What a line says, without the record's number, the row and the counter.
pub fn kind(line: &str) -> String {
    let words: Vec<&str> = line.split(' ').collect();
    match words[..] {
        [_, "accepted", "row", _, "counter", _] => "accepted".to_string(),
        [_, "refused", number] => format!("refused {number}"),
        [_, "skipped"] => "skipped".to_string(),
        _ => line.to_string(),
    }
}
