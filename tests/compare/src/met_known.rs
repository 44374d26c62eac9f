//! What a search for an id met, in words, and what it answered: so that a test sees that each case
//! that the rules name came up (docs/RULES.md, 'Is an id known?').

use crate::searches::Question;
use reference::book::{ascend_strictly, ROOM_MOST};

/// What a search met, and the number that it got.
pub fn by_search(question: &Question, number: u8) -> String {
    let met = match question.in_use() {
        None => not_taken(question).to_string(),
        Some([]) => "none in use".to_string(),
        Some(in_use) => {
            let order = match ascend_strictly(in_use) {
                true => "ascending",
                false => "not ascending",
            };
            format!("{order}, {}", place(question, in_use))
        }
    };
    format!("{met}: {number}")
}

/// Why a list or a count is not taken.
fn not_taken(question: &Question) -> &'static str {
    let above = question.count > question.ids.len();
    match question.ids.len() > ROOM_MOST {
        true if above => "too many ids, and a count above",
        true => "too many ids",
        false if question.count > ROOM_MOST => "a count above, past 1,024",
        false => "a count above",
    }
}

/// Where the id stands that is looked for.
fn place(question: &Question, in_use: &[u32]) -> &'static str {
    let id = &question.id;
    match in_use.iter().filter(|held| *held == id).count() {
        0 if question.ids.contains(id) => "behind the count alone",
        0 if in_use.iter().all(|held| held > id) => "below all",
        0 if in_use.iter().all(|held| held < id) => "above all",
        0 => "between",
        1 => "there once",
        _ => "there more than once",
    }
}

/// What must come up among searches. On ids that don't ascend an id may be missed that is there.
pub const SOUGHT: [&str; 18] = [
    "too many ids: 1",
    "too many ids, and a count above: 1",
    "a count above: 1",
    "a count above, past 1,024: 1",
    "none in use: 10",
    "ascending, there once: 0",
    "ascending, behind the count alone: 10",
    "ascending, below all: 10",
    "ascending, above all: 10",
    "ascending, between: 10",
    "not ascending, there once: 0",
    "not ascending, there once: 10",
    "not ascending, there more than once: 0",
    "not ascending, there more than once: 10",
    "not ascending, behind the count alone: 10",
    "not ascending, below all: 10",
    "not ascending, above all: 10",
    "not ascending, between: 10",
];

/// What must not come up among searches: an id missed among ids that ascend, or met where it is not.
pub const NOT_SOUGHT: [&str; 10] = [
    "none in use: 0",
    "ascending, there once: 10",
    "ascending, behind the count alone: 0",
    "ascending, below all: 0",
    "ascending, above all: 0",
    "ascending, between: 0",
    "not ascending, behind the count alone: 0",
    "not ascending, below all: 0",
    "not ascending, above all: 0",
    "not ascending, between: 0",
];
