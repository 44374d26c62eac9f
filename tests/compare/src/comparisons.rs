//! A comparison of two messages by both implementations: the number, the whole room and the size's
//! place afterwards, also where nothing is written; and what holds of any two messages.

use crate::harness::{same, same_items, Difference};
use crate::lent::Lent;
use crate::random::Random;
use reference::comparison::COMPARISON_MOST;
use reference::refusal::number_of;
use reference::relay::comes_of;
use rimemagpie::c;

/// What a comparison leaves.
#[derive(Clone, Debug, PartialEq, Eq)]
pub struct Left {
    pub number: u8,
    pub room: Vec<u8>,
    pub size: u64,
}

impl Left {
    /// The lines, where there are some.
    pub fn lines(&self) -> Option<&str> {
        let size = usize::try_from(self.size).ok()?;
        let lines = self.room.get(..size).filter(|_| self.number == 0)?;
        std::str::from_utf8(lines).ok()
    }
}

/// A size that no comparison gives: where it stands afterwards, nothing was written.
pub const UNWRITTEN: u64 = 0xA5A5_A5A5_A5A5_A5A5;

/// What the second implementation leaves of a room and of the size's place.
fn by_reference(first: &[u8], second: &[u8], room: &[u8], size: u64) -> Left {
    let mut room = room.to_vec();
    let answer = reference::compare(first, second, &mut room);
    Left {
        number: number_of(&answer),
        room,
        size: answer.map_or(size, |size| size as u64),
    }
}

/// What the library leaves.
pub fn by_library(first: &[u8], second: &[u8], room: &[u8], size: u64) -> Left {
    let (mut room, mut size) = (room.to_vec(), size);
    let number = c::compare(first, second, &mut room, &mut size);
    Left { number, room, size }
}

/// Both leave the same.
fn same_left(expected: &Left, found: &Left) -> Result<(), Difference> {
    same("the number", &expected.number, &found.number)?;
    same("size", &expected.size, &found.size)?;
    same_items("room", &expected.room, &found.room)
}

/// Both compare two messages in a room; gives what both leave.
pub fn compared(first: &[u8], second: &[u8], room: &[u8]) -> Result<Left, Difference> {
    let found = by_library(first, second, room, UNWRITTEN);
    same_left(&by_reference(first, second, room, UNWRITTEN), &found)?;
    holds_of_any_two(first, second, &found)?;
    Ok(found)
}

/// The same with buffers that show any stray write, and any size before.
pub fn compared_lent(
    random: &mut Random,
    [first, second]: &[Vec<u8>; 2],
    room: &[u8],
) -> Result<Left, Difference> {
    let lent = [first, second].map(|message| Lent::new(message, random));
    let mut lent_room = Lent::new(room, random);
    let before = random.u64();
    let mut size = before;
    let [lent_first, lent_second] = &lent;
    let number = c::compare(
        lent_first.items(),
        lent_second.items(),
        lent_room.items_mut(),
        &mut size,
    );
    let found = Left {
        number,
        room: lent_room.items().to_vec(),
        size,
    };
    let expected = by_reference(first, second, room, before);
    same_left(&expected, &found)?;
    lent_first.holds("first", first)?;
    lent_second.holds("second", second)?;
    lent_room.holds("room", &expected.room)?;
    holds_of_any_two(first, second, &found)?;
    Ok(found)
}

/// The lines of both for two messages that pass 2 to 7, in a room that is always enough.
pub fn lines_of(first: &[u8], second: &[u8]) -> Result<String, Difference> {
    let left = compared(first, second, &[b'.'; COMPARISON_MOST])?;
    let lines = left.lines().map(String::from);
    lines.ok_or(format!("no lines, but the number {}", left.number))
}

/// What the rules say of the lines of any two messages. With no line but the last the two are equal,
/// and only then; the last is `relay only` exactly where the second comes of the first by permitted
/// relay changes, and the lines before it then name hops, giaddr, option 82 and layout alone.
fn holds_of_any_two(first: &[u8], second: &[u8], left: &Left) -> Result<(), Difference> {
    let Some(text) = left.lines() else {
        return Ok(());
    };
    let few = text.len() <= COMPARISON_MOST;
    same("'no more bytes than the bound'", &true, &few)?;
    same("'a newline at the end'", &true, &text.ends_with('\n'))?;
    let mut lines: Vec<&str> = text.lines().collect();
    let last = lines.pop().unwrap_or_default();
    same("'no other line'", &(first == second), &lines.is_empty())?;
    let relay_only = comes_of(first, second);
    let expected = if relay_only {
        "relay only"
    } else {
        "covered bytes differ"
    };
    same("the last line", &expected, &last)?;
    let others = lines.iter().filter(|line| !is_of_a_relay(line)).count();
    let named = relay_only && others > 0;
    same("'a relay's changes and another'", &false, &named)
}

/// Whether a line names what a relay may change.
fn is_of_a_relay(line: &str) -> bool {
    let whole = ["hops", "giaddr", "layout"].contains(&line);
    whole || ["altered 82 1", "missing 82 1", "added 82 1"].contains(&line)
}

/// The lines with first and second exchanged: the same but that what is missing is added, and the
/// other way round, as far as their order doesn't matter.
pub fn exchanged(first: &[u8], second: &[u8], text: &str) -> Result<(), Difference> {
    let turned = |line: &str| match line.split_once(' ') {
        Some(("missing", option)) => format!("added {option}"),
        Some(("added", option)) => format!("missing {option}"),
        _ => line.to_string(),
    };
    let sorted = |mut lines: Vec<String>| {
        lines.sort();
        lines
    };
    let expected = sorted(text.lines().map(turned).collect());
    let found = lines_of(second, first)?;
    let found = sorted(found.lines().map(String::from).collect());
    same_items("the lines exchanged", &expected, &found)
}
