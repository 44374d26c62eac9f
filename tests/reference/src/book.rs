//! The key book as a caller lends it (docs/RULES.md, 'The key book').

use std::ops::Range;

/// The most rows in use, the bytes of a key slot, and the most rows there may be room for.
pub const ROWS_MOST: usize = 256;
pub const SLOT: usize = 64;
pub const ROOM_MOST: usize = 1_024;

/// A row's mark: whether a message was accepted under its secret.
pub const NOT_HEARD: u8 = 0;
pub const HEARD: u8 = 1;

/// The lent parts, of any sizes. Of each, the rows from `rows` on affect no answer, nor do slot
/// bytes past a key.
#[derive(Clone, Debug, PartialEq, Eq, Default)]
pub struct Book {
    pub ids: Vec<u32>,
    pub lengths: Vec<u8>,
    pub store: Vec<u8>,
    pub marks: Vec<u8>,
    pub received: Vec<u64>,
    pub sent: Vec<u64>,
    pub rows: usize,
}

impl Book {
    /// Room for some rows, none of them in use, all bytes and numbers 0.
    pub fn with_room(n: usize) -> Self {
        Book {
            ids: vec![0; n],
            lengths: vec![0; n],
            store: vec![0; SLOT * n],
            marks: vec![NOT_HEARD; n],
            received: vec![0; n],
            sent: vec![0; n],
            rows: 0,
        }
    }

    /// Whether all parts have room for the same number of rows, 1,024 at the most.
    pub fn sizes_agree(&self) -> bool {
        let n = self.ids.len();
        n <= ROOM_MOST
            && self.lengths.len() == n
            && self.store.len() == SLOT * n
            && self.marks.len() == n
            && self.received.len() == n
            && self.sent.len() == n
    }

    /// Whether the book is sound.
    pub fn is_sound(&self) -> bool {
        self.sizes_agree()
            && self.rows <= self.ids.len()
            && self.rows <= ROWS_MOST
            && ascend_strictly(&self.ids[..self.rows])
            && self.lengths[..self.rows]
                .iter()
                .all(|length| (1..=SLOT).contains(&usize::from(*length)))
            && (0..self.rows).all(|row| goes_with(self.marks[row], self.received[row]))
    }

    /// The row of an id, among those in use.
    pub fn row_of(&self, id: u32) -> Option<usize> {
        (0..self.rows).find(|row| self.ids[*row] == id)
    }

    /// Whether a message was accepted under a row's secret, in a sound book.
    pub fn is_heard(&self, row: usize) -> bool {
        self.marks[row] == HEARD
    }

    /// Where in the key store a row's key is.
    pub fn key_place(&self, row: usize) -> Range<usize> {
        SLOT * row..SLOT * row + usize::from(self.lengths[row])
    }

    /// A row's key.
    pub fn key(&self, row: usize) -> &[u8] {
        &self.store[self.key_place(row)]
    }
}

/// Whether a mark is one, and goes with the received counter: that of a row not heard is 0.
pub fn goes_with(mark: u8, received: u64) -> bool {
    match mark {
        NOT_HEARD => received == 0,
        HEARD => true,
        _ => false,
    }
}

/// Whether each id is above the one before it.
pub fn ascend_strictly(ids: &[u32]) -> bool {
    ids.windows(2).all(|pair| pair[0] < pair[1])
}

#[cfg(test)]
mod tests {
    use super::*;
    use crate::examples::book_b;

    /// Book B changed in one place.
    fn sound_after(change: impl Fn(&mut Book)) -> bool {
        let mut book = book_b();
        change(&mut book);
        book.is_sound()
    }

    #[test]
    fn sizes_must_agree() {
        assert!(sound_after(|_| {}));
        assert!(!sound_after(|b| b.ids.push(9)));
        assert!(!sound_after(|b| b.lengths.push(9)));
        assert!(!sound_after(|b| b.store.push(9)));
        assert!(!sound_after(|b| b.marks.push(1)));
        assert!(!sound_after(|b| b.marks.clear()));
        assert!(!sound_after(|b| b.received.push(9)));
        assert!(!sound_after(|b| b.sent.push(9)));
    }

    #[test]
    fn rows_ids_and_key_lengths() {
        assert!(sound_after(|b| b.rows = 0));
        assert!(!sound_after(|b| b.rows = 2));
        assert!(!sound_after(|b| b.rows = usize::MAX));
        assert!(!sound_after(|b| b.lengths[0] = 0));
        assert!(sound_after(|b| b.lengths[0] = 64));
        assert!(!sound_after(|b| b.lengths[0] = 65));
        assert!(ascend_strictly(&[]) && ascend_strictly(&[0, u32::MAX]));
        assert!(!ascend_strictly(&[3, 3]) && !ascend_strictly(&[1, 3, 2]));
    }

    #[test]
    fn marks_and_the_counters_that_go_with_them() {
        let with = |mark: u8, received: u64| {
            sound_after(|b| (b.marks[0], b.received[0]) = (mark, received))
        };
        for received in [0, 1, 10, u64::MAX] {
            assert!(with(HEARD, received));
            assert_eq!(with(NOT_HEARD, received), received == 0);
            for mark in 2..=255 {
                assert!(!with(mark, received));
            }
        }
    }

    /// Marks and received counters of rows that are not in use hold anything.
    #[test]
    fn rows_not_in_use_may_hold_anything() {
        for (mark, received) in [(0, 0), (0, 5), (1, 5), (2, 0), (255, u64::MAX)] {
            let mut book = room_for(3, 2);
            (book.marks[2], book.received[2]) = (mark, received);
            assert!(book.is_sound());
            book.rows = 3;
            assert_eq!(book.is_sound(), goes_with(mark, received));
        }
    }

    fn room_for(n: usize, rows: usize) -> Book {
        Book {
            ids: (0..n as u32).collect(),
            lengths: vec![1; n],
            store: vec![0; SLOT * n],
            marks: vec![NOT_HEARD; n],
            received: vec![0; n],
            sent: vec![0; n],
            rows,
        }
    }

    #[test]
    fn at_most_1024_rows_of_room_and_256_in_use() {
        assert!(room_for(1_024, 256).is_sound());
        assert!(!room_for(1_025, 256).is_sound());
        assert!(!room_for(1_024, 257).is_sound());
    }
}
