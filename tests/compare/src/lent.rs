//! Buffers as they are lent to the library: each stands between guard items, at any alignment its
//! type allows, and is compared whole with what it should hold, guards included.

use crate::harness::{same, same_items, Difference};
use crate::random::Random;
use reference::{Book, Servers};
use std::fmt::Debug;
use std::ops::Range;

/// What the guard items hold.
const GUARD: u8 = 0xA5;

/// A buffer between guards.
pub struct Lent<T> {
    all: Vec<T>,
    place: Range<usize>,
}

impl<T: Copy + PartialEq + Debug + From<u8>> Lent<T> {
    pub fn new(items: &[T], random: &mut Random) -> Self {
        let before = random.within(1..=16);
        let mut all = vec![T::from(GUARD); before];
        all.extend_from_slice(items);
        all.extend_from_slice(&[T::from(GUARD); 16]);
        Lent {
            all,
            place: before..before + items.len(),
        }
    }

    pub fn items(&self) -> &[T] {
        &self.all[self.place.clone()]
    }

    pub fn items_mut(&mut self) -> &mut [T] {
        &mut self.all[self.place.clone()]
    }

    /// Whether the buffer holds this and nothing was written beside it.
    pub fn holds(&self, what: &str, expected: &[T]) -> Result<(), Difference> {
        same_items(what, expected, self.items())?;
        let (before, rest) = self.all.split_at(self.place.start);
        let after = &rest[self.place.len()..];
        let intact = before.iter().chain(after).all(|g| *g == T::from(GUARD));
        same(&format!("'nothing written beside {what}'"), &true, &intact)
    }
}

/// The six buffers of a book, and its row count.
pub struct LentBook {
    pub ids: Lent<u32>,
    pub lengths: Lent<u8>,
    pub store: Lent<u8>,
    pub marks: Lent<u8>,
    pub received: Lent<u64>,
    pub sent: Lent<u64>,
    pub rows: usize,
}

impl LentBook {
    pub fn new(book: &Book, random: &mut Random) -> Self {
        LentBook {
            ids: Lent::new(&book.ids, random),
            lengths: Lent::new(&book.lengths, random),
            store: Lent::new(&book.store, random),
            marks: Lent::new(&book.marks, random),
            received: Lent::new(&book.received, random),
            sent: Lent::new(&book.sent, random),
            rows: book.rows,
        }
    }

    /// Whether all six buffers hold what the book has.
    pub fn holds(&self, expected: &Book) -> Result<(), Difference> {
        self.ids.holds("ids", &expected.ids)?;
        self.lengths.holds("lengths", &expected.lengths)?;
        self.store.holds("store", &expected.store)?;
        self.marks.holds("marks", &expected.marks)?;
        self.received.holds("received", &expected.received)?;
        self.sent.holds("sent", &expected.sent)
    }
}

/// The three buffers of server rows.
pub struct LentServers {
    pub nonces: Lent<u8>,
    pub counters: Lent<u64>,
    pub marks: Lent<u8>,
}

impl LentServers {
    pub fn new(servers: &Servers, random: &mut Random) -> Self {
        LentServers {
            nonces: Lent::new(&servers.nonces, random),
            counters: Lent::new(&servers.counters, random),
            marks: Lent::new(&servers.marks, random),
        }
    }

    /// Whether all three buffers hold what the server rows have.
    pub fn holds(&self, expected: &Servers) -> Result<(), Difference> {
        self.nonces.holds("nonces", &expected.nonces)?;
        self.counters.holds("counters", &expected.counters)?;
        self.marks.holds("marks", &expected.marks)
    }
}
