//! Server rows: sound ones of any number, and ones with a single thing wrong.

use super::books;
use crate::random::Random;
use reference::forcerenew::{HEARD, NONCE_SIZE, NONE_YET, NOT_HEARD};
use reference::Servers;

/// Sound server rows: mostly few, now and then none, or more than a book may have.
pub fn sound(random: &mut Random) -> Servers {
    let rows = match random.below(1_000) {
        0..=29 => 0,
        30..=899 => random.within(1..=5),
        900..=989 => random.within(6..=80),
        990..=998 => random.within(1_023..=1_100),
        _ => random.pick(&[1_024, 1_025, 4_096, 65_537]),
    };
    with_rows(random, rows)
}

/// So many rows, which are sound. What a row holds beside its mark may be anything.
pub fn with_rows(random: &mut Random, rows: usize) -> Servers {
    Servers {
        nonces: nonces(random, rows),
        counters: (0..rows).map(|_| books::counter(random)).collect(),
        marks: marks(random, rows),
    }
}

/// Nonces: any, all of them zero, or the same in every row.
fn nonces(random: &mut Random, rows: usize) -> Vec<u8> {
    match random.below(10) {
        0 => vec![0; NONCE_SIZE * rows],
        1 => random.bytes(NONCE_SIZE).repeat(rows),
        _ => random.bytes(NONCE_SIZE * rows),
    }
}

/// The marks of some rows: the same in all of them, or mixed.
fn marks(random: &mut Random, rows: usize) -> Vec<u8> {
    let of_rows: [&[u8]; 5] = [
        &[NONE_YET],
        &[NOT_HEARD],
        &[HEARD],
        &[NOT_HEARD, HEARD],
        &[NONE_YET, NOT_HEARD, HEARD, HEARD],
    ];
    let marks = random.pick(&of_rows);
    (0..rows).map(|_| random.pick(marks)).collect()
}

/// The number of a row, mostly one that is there, often the first or the last. Others are right
/// behind the last, far behind, and such that 16 times their number goes round to a row that is
/// there.
pub fn any_row(random: &mut Random, rows: usize) -> usize {
    if rows > 0 && !random.one_in(10) {
        return books::some_row(random, rows);
    }
    let round = usize::MAX / NONCE_SIZE + 1;
    let like_one = round + random.below(rows.max(1));
    random.pick(&[rows, rows + 1, rows + 64, like_one, usize::MAX])
}

/// Each way in which server rows are not sound.
#[derive(Clone, Copy, Debug, PartialEq, Eq)]
pub enum Fault {
    NoncesSize,
    CountersSize,
    MarksSize,
    MarkAbove2,
}

impl Fault {
    pub const ALL: [Fault; 4] = [
        Fault::NoncesSize,
        Fault::CountersSize,
        Fault::MarksSize,
        Fault::MarkAbove2,
    ];
}

/// Makes sound server rows unsound by one fault, any that they have the rows for, and says by which.
pub fn spoil(random: &mut Random, servers: &mut Servers) -> Fault {
    let fault = loop {
        let fault = random.pick(&Fault::ALL);
        if fault != Fault::MarkAbove2 || servers.rows() > 0 {
            break fault;
        }
    };
    match fault {
        Fault::NoncesSize => books::resize_slots(random, &mut servers.nonces, NONCE_SIZE),
        Fault::CountersSize => books::resize(random, &mut servers.counters),
        Fault::MarksSize => books::resize(random, &mut servers.marks),
        Fault::MarkAbove2 => {
            let row = books::some_row(random, servers.rows());
            servers.marks[row] = wrong_mark(random);
        }
    }
    fault
}

/// A byte that is no mark.
fn wrong_mark(random: &mut Random) -> u8 {
    let any = random.within(3..=255) as u8;
    random.pick(&[3, 3, 4, 128, 255, any])
}

#[cfg(test)]
mod tests {
    use super::*;

    #[test]
    fn sound_rows_are_sound_and_each_fault_spoils() {
        let mut random = Random::new(21);
        let mut drawn = vec![];
        for _ in 0..2_000 {
            let mut servers = sound(&mut random);
            assert!(servers.are_sound());
            let rows = servers.rows();
            drawn.push(spoil(&mut random, &mut servers));
            assert!(!servers.are_sound(), "{:?} of {rows} rows", drawn.last());
        }
        assert!(Fault::ALL.iter().all(|fault| drawn.contains(fault)));
    }

    type Situation = (&'static str, fn(&Servers) -> bool);

    /// How sound rows may be.
    const SITUATIONS: [Situation; 10] = [
        ("none", |s| s.rows() == 0),
        ("one", |s| s.rows() == 1),
        ("as many as a book may have", |s| s.rows() == 1_024),
        ("more than a book may have", |s| s.rows() == 1_025),
        ("as many as two bytes don't count", |s| s.rows() == 65_537),
        ("bytes on a row with no nonce yet", |s| {
            has(s, |s, row| s.marks[row] == NONE_YET && s.nonce(row)[0] != 0)
        }),
        ("a counter on a row with no nonce yet", |s| {
            has(s, |s, row| s.marks[row] == NONE_YET && s.counters[row] != 0)
        }),
        ("a counter on a row not heard", |s| {
            has(s, |s, row| {
                s.marks[row] == NOT_HEARD && s.counters[row] != 0
            })
        }),
        ("a heard row with the last counter", |s| {
            has(s, |s, row| {
                s.marks[row] == HEARD && s.counters[row] == u64::MAX
            })
        }),
        ("two rows with one nonce", |s| {
            has(s, |s, row| row > 0 && s.nonce(row) == s.nonce(row - 1))
        }),
    ];

    fn has(servers: &Servers, is: fn(&Servers, usize) -> bool) -> bool {
        (0..servers.rows()).any(|row| is(servers, row))
    }

    #[test]
    fn rows_come_up_in_each_way() {
        let mut random = Random::new(22);
        let mut missing = SITUATIONS.to_vec();
        for _ in 0..20_000 {
            let servers = sound(&mut random);
            missing.retain(|(_, holds)| !holds(&servers));
        }
        let names: Vec<&str> = missing.iter().map(|(name, _)| *name).collect();
        assert!(names.is_empty(), "rows never came up: {names:?}");
    }

    /// Sizes disagree by a byte and by a row, more and less, and in each list alone.
    #[test]
    fn sizes_disagree_in_each_way() {
        let mut random = Random::new(23);
        let mut differences = vec![];
        for _ in 0..2_000 {
            let mut servers = with_rows(&mut random, 3);
            spoil(&mut random, &mut servers);
            let lengths = [
                servers.nonces.len(),
                servers.counters.len(),
                servers.marks.len(),
            ];
            differences.push(lengths);
        }
        let nonces = [47, 49, 32, 64, 3, 0].map(|length| [length, 3, 3]);
        let counters = [2, 4, 0, 67].map(|length| [48, length, 3]);
        let marks = [2, 4, 0, 67].map(|length| [48, 3, length]);
        for lengths in nonces.iter().chain(&counters).chain(&marks) {
            assert!(differences.contains(lengths), "{lengths:?}");
        }
    }

    /// Rows that aren't there come up right behind the last, and with 16 times their number round,
    /// also where there are none.
    #[test]
    fn rows_past_the_last_come_up() {
        let mut random = Random::new(24);
        let rows: Vec<usize> = (0..5_000).map(|_| any_row(&mut random, 3)).collect();
        for row in [0, 1, 2, 3, 4, 1 << 60, (1 << 60) + 2, usize::MAX] {
            assert!(rows.contains(&row), "row {row}");
        }
        let of_none: Vec<usize> = (0..5_000).map(|_| any_row(&mut random, 0)).collect();
        for row in [0, 1, 64, 1 << 60, usize::MAX] {
            assert!(of_none.contains(&row), "row {row} of none");
        }
    }
}
