//! Key books: sound ones of every size, and ones with a single thing wrong.

use crate::random::Random;
use reference::book::{HEARD, NOT_HEARD, ROOM_MOST, ROWS_MOST, SLOT};
use reference::Book;

/// A sound book. Slot bytes past a key and rows not in use hold anything, their marks any byte.
pub fn sound(random: &mut Random) -> Book {
    let room = match random.below(100) {
        0..=59 => random.within(0..=8),
        60..=91 => random.within(9..=80),
        92..=93 => random.pick(&[64, ROWS_MOST]),
        94..=95 => ROWS_MOST,
        96..=97 => random.within(81..=ROOM_MOST),
        _ => ROOM_MOST,
    };
    let most = room.min(ROWS_MOST);
    let rows = match random.below(4) {
        0 => most,
        _ => random.within(0..=most),
    };
    with_rows(random, room, rows)
}

/// A sound book with at least one row.
pub fn sound_with_a_row(random: &mut Random) -> Book {
    loop {
        let book = sound(random);
        if book.rows > 0 {
            return book;
        }
    }
}

/// A book with this room and that many rows in use, all of them in order. It is sound if the sizes
/// allow it.
pub fn with_rows(random: &mut Random, room: usize, rows: usize) -> Book {
    let mut ids = ascending_ids(random, rows);
    let mut lengths: Vec<u8> = (0..rows).map(|_| key_length(random)).collect();
    let mut marks = marks(random, rows);
    let mut received: Vec<u64> = marks.iter().map(|mark| received(random, *mark)).collect();
    for _ in rows..room {
        ids.push(random.u32());
        lengths.push(random.u8());
        marks.push(any_mark(random));
        received.push(counter(random));
    }
    Book {
        ids,
        lengths,
        store: random.bytes(SLOT * room),
        marks,
        received,
        sent: (0..room).map(|_| counter(random)).collect(),
        rows,
    }
}

/// A sound book none of whose rows is heard.
pub fn not_heard(random: &mut Random, room: usize, rows: usize) -> Book {
    let mut book = with_rows(random, room, rows);
    book.marks[..rows].fill(NOT_HEARD);
    book.received[..rows].fill(0);
    book
}

/// The marks of some rows: all are heard, none, half of them or most.
pub fn marks(random: &mut Random, rows: usize) -> Vec<u8> {
    let of_rows: [&[u8]; 4] = [
        &[HEARD],
        &[NOT_HEARD],
        &[NOT_HEARD, HEARD],
        &[NOT_HEARD, HEARD, HEARD, HEARD],
    ];
    let marks = random.pick(&of_rows);
    (0..rows).map(|_| random.pick(marks)).collect()
}

/// A received counter that goes with a mark.
pub fn received(random: &mut Random, mark: u8) -> u64 {
    match mark {
        NOT_HEARD => 0,
        _ => counter(random),
    }
}

/// A byte in place of a mark.
fn any_mark(random: &mut Random) -> u8 {
    let any = random.u8();
    random.pick(&[NOT_HEARD, HEARD, 2, 255, any])
}

/// A byte that is no mark.
pub fn wrong_mark(random: &mut Random) -> u8 {
    let any = random.within(2..=255) as u8;
    random.pick(&[2, 3, 128, 255, any])
}

/// A counter that a row not heard can't have: a single bit of it is set, or others too.
pub fn wrong_counter(random: &mut Random) -> u64 {
    match random.below(3) {
        0 => counter(random).max(1),
        1 => random.pick(&[1, 256, 1 << 63]),
        _ => 1 << random.below(64),
    }
}

/// Ids that ascend strictly: close together or over the whole range, 0 and the largest among them.
pub fn ascending_ids(random: &mut Random, count: usize) -> Vec<u32> {
    let span = random.pick(&[2 * count as u64 + 1, 1_000, 1 << 32]);
    let start = random.pick(&[0, (1 << 32) - span]);
    let mut ids = Vec::new();
    while ids.len() < count {
        let id = (start + random.u64() % span) as u32;
        if !ids.contains(&id) {
            ids.push(id);
        }
    }
    ids.sort_unstable();
    ids
}

fn key_length(random: &mut Random) -> u8 {
    match random.below(4) {
        0 => random.pick(&[1, 4, 16, 63, 64]),
        _ => random.within(1..=SLOT) as u8,
    }
}

/// A counter: small, anywhere, or at an edge.
pub fn counter(random: &mut Random) -> u64 {
    match random.below(10) {
        0..=2 => 0,
        3..=5 => random.below(300) as u64,
        6..=7 => random.u64(),
        8 => random.pick(&[255, 256, 65_535, (1 << 32) - 1, 1 << 32, 1 << 63]),
        _ => random.pick(&[u64::MAX - 1, u64::MAX]),
    }
}

/// 0, each power of two and the counter below it, and the last.
pub fn edge_counters() -> impl Iterator<Item = u64> {
    let about = |bit: u32| [(1_u64 << bit) - 1, 1 << bit];
    (0..64).flat_map(about).chain([u64::MAX - 1, u64::MAX])
}

/// Each way in which a book is not sound.
#[derive(Clone, Copy, Debug, PartialEq, Eq)]
pub enum Fault {
    IdsSize,
    KeyLengthsSize,
    KeyStoreSize,
    MarksSize,
    ReceivedSize,
    SentSize,
    RoomAbove1024,
    RowsAboveRoom,
    RowsAbove256,
    RowsHuge,
    IdRepeated,
    IdsOutOfOrder,
    KeyEmpty,
    KeyTooLong,
    MarkAbove1,
    CounterNotHeard,
}

impl Fault {
    pub const ALL: [Fault; 16] = [
        Fault::IdsSize,
        Fault::KeyLengthsSize,
        Fault::KeyStoreSize,
        Fault::MarksSize,
        Fault::ReceivedSize,
        Fault::SentSize,
        Fault::RoomAbove1024,
        Fault::RowsAboveRoom,
        Fault::RowsAbove256,
        Fault::RowsHuge,
        Fault::IdRepeated,
        Fault::IdsOutOfOrder,
        Fault::KeyEmpty,
        Fault::KeyTooLong,
        Fault::MarkAbove1,
        Fault::CounterNotHeard,
    ];

    /// The faults in the sizes alone, which reading a card looks at too.
    pub const SIZES: [Fault; 7] = [
        Fault::IdsSize,
        Fault::KeyLengthsSize,
        Fault::KeyStoreSize,
        Fault::MarksSize,
        Fault::ReceivedSize,
        Fault::SentSize,
        Fault::RoomAbove1024,
    ];

    /// How many rows in use the fault needs to be made.
    fn rows_needed(self) -> usize {
        match self {
            Fault::IdRepeated | Fault::IdsOutOfOrder => 2,
            Fault::KeyEmpty | Fault::KeyTooLong => 1,
            Fault::MarkAbove1 | Fault::CounterNotHeard => 1,
            _ => 0,
        }
    }
}

/// Makes a sound book unsound by one fault, any of those that it has the rows for, and says by which.
pub fn spoil(random: &mut Random, book: &mut Book) -> Fault {
    let possible: Vec<Fault> = Fault::ALL
        .into_iter()
        .filter(|fault| fault.rows_needed() <= book.rows)
        .collect();
    let fault = random.pick(&possible);
    spoil_by(random, book, fault);
    fault
}

/// Makes a sound book unsound by this fault, which it has the rows for.
pub fn spoil_by(random: &mut Random, book: &mut Book, fault: Fault) {
    match fault {
        Fault::IdsSize => resize(random, &mut book.ids),
        Fault::KeyLengthsSize => resize(random, &mut book.lengths),
        Fault::KeyStoreSize => resize_slots(random, &mut book.store, SLOT),
        Fault::MarksSize => resize(random, &mut book.marks),
        Fault::ReceivedSize => resize(random, &mut book.received),
        Fault::SentSize => resize(random, &mut book.sent),
        Fault::RoomAbove1024 => {
            let room = random.pick(&[ROOM_MOST + 1, ROOM_MOST + 64]);
            *book = with_rows(random, room, book.rows);
        }
        Fault::RowsAboveRoom => {
            // The room is below 256 rows, so that nothing else is wrong.
            let room = random.within(0..=ROWS_MOST - 1);
            *book = with_rows(random, room, room);
            book.rows = random.within(room + 1..=ROWS_MOST);
        }
        Fault::RowsAbove256 => {
            let room = random.within(ROWS_MOST + 1..=ROWS_MOST + 40);
            let rows = random.within(ROWS_MOST + 1..=room);
            *book = with_rows(random, room, rows);
        }
        Fault::RowsHuge => {
            book.rows = random.pick(&[usize::MAX, 1 << 63, 1 << 58, 1 << 32, 1 << 16]);
        }
        Fault::IdRepeated => {
            let row = random.within(1..=book.rows - 1);
            book.ids[row] = book.ids[row - 1];
        }
        Fault::IdsOutOfOrder => {
            let row = random.within(1..=book.rows - 1);
            book.ids.swap(row - 1, row);
        }
        Fault::KeyEmpty => {
            let row = random.below(book.rows);
            book.lengths[row] = 0;
        }
        Fault::KeyTooLong => {
            let row = random.below(book.rows);
            book.lengths[row] = random.pick(&[65, 66, 128, 255]);
        }
        Fault::MarkAbove1 => {
            let row = some_row(random, book.rows);
            book.marks[row] = wrong_mark(random);
        }
        Fault::CounterNotHeard => {
            let row = some_row(random, book.rows);
            book.marks[row] = NOT_HEARD;
            book.received[row] = wrong_counter(random);
        }
    }
}

/// One of so many rows, often the first or the last.
pub fn some_row(random: &mut Random, rows: usize) -> usize {
    let any = random.below(rows);
    random.pick(&[0, rows - 1, any, any])
}

/// Gives a part another size, mostly by one row.
pub fn resize<T: Copy + Default>(random: &mut Random, part: &mut Vec<T>) {
    let n = part.len();
    let sizes = [n + 1, n + 1, n.saturating_sub(1), 0, n + 64];
    let size = pick_other(random, &sizes, n);
    part.resize(size, T::default());
}

/// Gives a part with a slot of bytes for each row another size: a byte or a slot more or less, or a
/// byte for each row.
pub fn resize_slots(random: &mut Random, slots: &mut Vec<u8>, slot: usize) {
    let n = slots.len();
    let less = [n.saturating_sub(1), n.saturating_sub(slot)];
    let sizes = [n + 1, n + slot, less[0], less[1], n / slot, 0];
    let size = pick_other(random, &sizes, n);
    slots.resize(size, 0);
}

fn pick_other(random: &mut Random, sizes: &[usize], not: usize) -> usize {
    let others: Vec<usize> = sizes.iter().copied().filter(|s| *s != not).collect();
    random.pick(&others)
}

#[cfg(test)]
mod tests {
    use super::*;

    type Situation = (&'static str, fn(&Book) -> bool);

    fn in_use(book: &Book) -> &[u8] {
        &book.marks[..book.rows]
    }

    /// Whether some row of these has such a mark and such a counter.
    fn has(book: &Book, rows: std::ops::Range<usize>, is: fn(u8, u64) -> bool) -> bool {
        rows.into_iter()
            .any(|row| is(book.marks[row], book.received[row]))
    }

    /// How marks stand in a sound book.
    const MARKED: [Situation; 11] = [
        ("two rows, both heard", |b| in_use(b) == [HEARD, HEARD]),
        ("two rows, none heard", |b| {
            in_use(b) == [NOT_HEARD, NOT_HEARD]
        }),
        ("the first heard alone", |b| in_use(b) == [HEARD, NOT_HEARD]),
        ("the last heard alone", |b| in_use(b) == [NOT_HEARD, HEARD]),
        ("256 rows, all heard", |b| in_use(b) == [HEARD; 256]),
        ("256 rows, none heard", |b| in_use(b) == [NOT_HEARD; 256]),
        ("a heard row with counter 0", |b| {
            has(b, 0..b.rows, |mark, counter| mark == HEARD && counter == 0)
        }),
        ("a heard row with the last counter", |b| {
            has(b, 0..b.rows, |_, counter| counter == u64::MAX)
        }),
        ("a byte above 1 beyond the rows in use", |b| {
            has(b, b.rows..b.ids.len(), |mark, _| mark > HEARD)
        }),
        ("0 and a counter beyond the rows in use", |b| {
            has(b, b.rows..b.ids.len(), |mark, counter| {
                mark == NOT_HEARD && counter != 0
            })
        }),
        ("a byte above 1 right behind the rows in use", |b| {
            b.rows > 0 && b.marks.get(b.rows).is_some_and(|mark| *mark > HEARD)
        }),
    ];

    /// How a mark or its counter is wrong in a book that has nothing else wrong.
    const MARKED_WRONG: [Situation; 9] = [
        ("2 in the first row", |b| b.marks[0] == 2 && b.rows > 1),
        ("2 in the last row", |b| {
            b.marks[b.rows - 1] == 2 && b.rows > 1
        }),
        ("255", |b| in_use(b).contains(&255)),
        ("128", |b| in_use(b).contains(&128)),
        ("a byte above 1 in the last of 256 rows", |b| {
            b.rows == 256 && b.marks[255] > HEARD
        }),
        ("counter 1 in the first row, not heard", |b| {
            has(b, 0..1, |mark, counter| mark == NOT_HEARD && counter == 1)
        }),
        ("counter 1 in the last row, not heard", |b| {
            has(b, b.rows - 1..b.rows, |mark, counter| {
                mark == NOT_HEARD && counter == 1
            })
        }),
        ("the highest bit alone, not heard", |b| {
            has(b, 0..b.rows, |mark, counter| {
                mark == NOT_HEARD && counter == 1 << 63
            })
        }),
        ("a wrong counter in the last of 256 rows", |b| {
            b.rows == 256 && b.marks[255] == NOT_HEARD && b.received[255] != 0
        }),
    ];

    fn require_each(books: &[Book], situations: &[Situation]) {
        for (name, holds) in situations {
            assert!(books.iter().any(holds), "marks never came up: {name}");
        }
    }

    #[test]
    fn marks_come_up_in_each_way() {
        let mut random = Random::new(11);
        let books: Vec<Book> = (0..5_000).map(|_| sound(&mut random)).collect();
        require_each(&books, &MARKED);
    }

    #[test]
    fn wrong_marks_and_counters_come_up_in_each_way() {
        let mut random = Random::new(12);
        let mut spoiled = |fault| {
            let mut book = sound_with_a_row(&mut random);
            spoil_by(&mut random, &mut book, fault);
            book
        };
        let faults = [Fault::MarkAbove1, Fault::CounterNotHeard];
        let books: Vec<Book> = (0..5_000).map(|k| spoiled(faults[k % 2])).collect();
        require_each(&books, &MARKED_WRONG);
    }

    /// The list of marks is a byte too short, a byte too long, 64 too long and empty, and the others
    /// agree.
    #[test]
    fn a_list_of_marks_of_another_size() {
        let mut random = Random::new(13);
        let (mut differences, mut empty) = (vec![], 0);
        for _ in 0..500 {
            let mut book = sound_with_a_row(&mut random);
            spoil_by(&mut random, &mut book, Fault::MarksSize);
            assert_eq!(book.ids.len(), book.received.len());
            differences.push(book.marks.len() as isize - book.ids.len() as isize);
            // Of a room for one row the empty list is the one that is a byte too short.
            empty += usize::from(book.marks.is_empty() && book.ids.len() > 1);
        }
        for difference in [-1, 1, 64] {
            assert!(differences.contains(&difference), "{difference}");
        }
        assert!(!differences.contains(&0));
        assert!(empty > 0, "no list of marks was empty");
    }

    /// Whichever fault is made, each comes up.
    #[test]
    fn each_fault_is_drawn() {
        let mut random = Random::new(14);
        let mut drawn = vec![];
        for _ in 0..1_000 {
            let mut book = sound(&mut random);
            drawn.push(spoil(&mut random, &mut book));
        }
        assert!(Fault::ALL.iter().all(|fault| drawn.contains(fault)));
    }

    #[test]
    fn sound_books_are_sound_and_each_fault_spoils() {
        let mut random = Random::new(7);
        for _ in 0..200 {
            for fault in Fault::ALL {
                let mut book = sound(&mut random);
                assert!(book.is_sound());
                if book.rows < fault.rows_needed() {
                    continue;
                }
                spoil_by(&mut random, &mut book, fault);
                assert!(!book.is_sound(), "{fault:?}");
            }
        }
    }
}
