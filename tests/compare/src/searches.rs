//! A search for an id by both implementations: the number, and what the places of row and looks hold
//! afterwards, also where they are not written.

use crate::harness::{same, Difference};
use reference::book::{ascend_strictly, ROOM_MOST};
use reference::known::{among_all, looks_most, number_of};
use reference::{known, Sought};
use rimemagpie::c;

/// A list of ids, the count of those in use, and the id that is looked for.
#[derive(Clone, Copy, Debug, PartialEq, Eq)]
pub struct Question<'a> {
    pub ids: &'a [u32],
    pub count: usize,
    pub id: u32,
}

impl Question<'_> {
    /// The ids in use; none where the list or the count is not taken.
    pub fn in_use(&self) -> Option<&[u32]> {
        match self.ids.len() > ROOM_MOST {
            true => None,
            false => self.ids.get(..self.count),
        }
    }
}

/// What the places of row and looks hold.
#[derive(Clone, Copy, Debug, PartialEq, Eq)]
pub struct Places {
    pub row: u64,
    pub looks: u64,
}

/// A row and a number of looks that no search gives: where they stand afterwards, nothing was written.
pub const UNWRITTEN: Places = Places {
    row: 0xA5A5_A5A5_A5A5_A5A5,
    looks: 0x5A5A_5A5A_5A5A_5A5A,
};

/// The number that the library returns, and the places afterwards.
pub fn by_library(question: &Question, before: Places) -> (u8, Places) {
    let Question { ids, count, id } = *question;
    let Places { mut row, mut looks } = before;
    let number = c::known(ids, count, id, &mut row, &mut looks);
    (number, Places { row, looks })
}

/// The same by the second implementation: with 10 the row's place is not written, with 1 neither.
pub fn by_reference(question: &Question, before: Places) -> (u8, Places) {
    let answer = known(question.ids, question.count, question.id);
    let after = match answer {
        Ok(Sought { row, looks }) => Places {
            row: row.map_or(before.row, |row| row as u64),
            looks: looks as u64,
        },
        Err(_) => before,
    };
    (number_of(&answer), after)
}

/// Both answer a question alike, and so that it holds of every list; gives the answer of both.
pub fn asked(question: &Question, before: Places) -> Result<(u8, Places), Difference> {
    let expected = by_reference(question, before);
    let found = by_library(question, before);
    same("number, row and looks", &expected, &found)?;
    holds_of_every_list(question, before, found)?;
    Ok(found)
}

/// What the rules say of every list, whatever the steps are. A row that is given lies below the
/// count and holds the id; there are no more looks than the count has binary digits; what is not
/// given is not written; and on ids that ascend strictly the row is that of a search over all of them.
fn holds_of_every_list(
    question: &Question,
    before: Places,
    (number, after): (u8, Places),
) -> Result<(), Difference> {
    let Some(in_use) = question.in_use() else {
        let found = (number, after);
        return same("an answer where nothing is looked at", &(1, before), &found);
    };
    let row = match number {
        0 => Some(after.row as usize),
        _ => None,
    };
    match row {
        Some(row) => same("the id in the row", &Some(&question.id), &in_use.get(row))?,
        None => {
            let found = (number, after.row);
            same("number and row", &(10, before.row), &found)?;
        }
    }
    let few = after.looks <= looks_most(question.count) as u64;
    same("'no more looks than binary digits'", &true, &few)?;
    match ascend_strictly(in_use) {
        true => same("the row", &among_all(in_use, question.id), &row),
        false => Ok(()),
    }
}
