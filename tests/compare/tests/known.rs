//! Searches for an id, every value of one thing at a time where there are few enough to try them all:
//! every list of up to eight ids over a few, with every count and every id about them; every row of
//! ascending lists, every count of a long one, and what stands behind the count; and lists and counts
//! past their limits. (Random searches are among the entries.)

use compare::generate::lists;
use compare::harness::{for_each_case, same, say};
use compare::searches::{asked, by_library, Places, Question, UNWRITTEN};
use reference::known::looks_most;

/// What both answer: the number, and the places of row and looks.
fn answer(ids: &[u32], count: usize, id: u32) -> (u8, Places) {
    let question = Question { ids, count, id };
    asked(&question, UNWRITTEN).unwrap_or_else(|difference| panic!("{question:?}: {difference}"))
}

/// An id found: its row and the looks.
fn found(row: usize, looks: usize) -> (u8, Places) {
    let (row, looks) = (row as u64, looks as u64);
    (0, Places { row, looks })
}

/// An id not found: the looks, and the row's place as it was.
fn not_found(looks: usize) -> (u8, Places) {
    let (row, looks) = (UNWRITTEN.row, looks as u64);
    (10, Places { row, looks })
}

/// A list or a count that is not taken: both places as they were.
const NOT_TAKEN: (u8, Places) = (1, UNWRITTEN);

/// Moves on to the next list of these letters, as one counts, and says whether there is one.
fn next_list(list: &mut [u32], letters: &[u32]) -> bool {
    for place in list {
        let at = letters.iter().position(|letter| letter == place);
        match letters.get(at.expect("it is a letter") + 1) {
            Some(letter) => {
                *place = *letter;
                return true;
            }
            None => *place = letters[0],
        }
    }
    false
}

/// Every list of so many letters and fewer, with every count and one too many, and every one of these
/// ids: gives how many lists there were, and how many searches got 0, 10 and 1.
fn each_list(length_most: usize, letters: &[u32], ids_asked: &[u32]) -> [usize; 4] {
    let mut counted = [0; 4];
    for length in 0..=length_most {
        let mut list = vec![letters[0]; length];
        loop {
            counted[0] += 1;
            for count in 0..=length + 1 {
                for id in ids_asked {
                    let which = match answer(&list, count, *id).0 {
                        0 => 1,
                        10 => 2,
                        _ => 3,
                    };
                    counted[which] += 1;
                }
            }
            if !next_list(&mut list, letters) {
                break;
            }
        }
    }
    let [lists, met, missed, refused] = counted;
    say(&format!(
        "known, {lists} lists: 0: {met}, 1: {refused}, 10: {missed}"
    ));
    counted
}

/// Lists of up to eight ids over four: these, the ones between, one below and one above.
#[test]
fn each_short_list() {
    let [lists, _, _, refused] = each_list(8, &[2, 4, 6, 8], &[1, 2, 3, 4, 5, 6, 7, 8, 9]);
    assert_eq!(lists, (0..=8).map(|length| 4_usize.pow(length)).sum());
    assert_eq!(refused, 9 * lists);
}

/// Lists of up to eight ids over the least, the largest and the one in the middle.
#[test]
fn each_short_list_of_edges() {
    let middle = 1 << 31;
    let letters = [0, middle, u32::MAX];
    let beside = [1, middle - 1, middle + 1, u32::MAX - 1];
    let [lists, _, _, refused] = each_list(8, &letters, &[&letters[..], &beside].concat());
    assert_eq!(lists, (0..=8).map(|length| 3_usize.pow(length)).sum());
    assert_eq!(refused, 7 * lists);
}

/// How many ids the ascending lists have of which every row is tried.
fn sizes() -> impl Iterator<Item = usize> {
    let about = |bit: u32| [(1 << bit) - 1, 1 << bit, (1 << bit) + 1];
    (0..=66)
        .chain((7..10).flat_map(about))
        .chain([1_000, 1_023, 1_024])
}

/// Every row of ascending lists is found, and the ids before, between and behind are not.
#[test]
fn each_row_of_ascending_lists() {
    for size in sizes() {
        for (start, step) in [(1, 2), (u32::MAX - 2 * size as u32, 2), (500, 4_000_000)] {
            let ids: Vec<u32> = (0..size as u32).map(|k| start + step * k).collect();
            for (row, id) in ids.iter().enumerate() {
                let (number, places) = answer(&ids, size, *id);
                assert_eq!((number, places.row), (0, row as u64), "{id} of {size}");
                assert_eq!(answer(&ids, size, id - 1).0, 10, "{} of {size}", id - 1);
            }
            let behind = ids.last().map_or(0, |last| last + 1);
            assert_eq!(answer(&ids, size, behind).0, 10, "{behind} of {size}");
        }
    }
}

/// An id below all that are in use takes as many looks as the count has binary digits: eleven for
/// 1,024. One above all takes no more.
#[test]
fn the_most_looks() {
    let ids: Vec<u32> = (1..=1_024).collect();
    for count in 0..=1_024_usize {
        let digits = (usize::BITS - count.leading_zeros()) as usize;
        assert_eq!(answer(&ids, count, 0), not_found(digits), "{count}");
        assert!(answer(&ids, count, u32::MAX).1.looks <= digits as u64);
    }
    assert_eq!(answer(&ids, 1_024, 0), not_found(11));
    assert_eq!(looks_most(1_024), 11);
}

/// Of 1,024 ids: those looked at first, second and last, and what 1,023 of them leave out.
#[test]
fn rows_of_the_longest_list() {
    let ids: Vec<u32> = (1..=1_024).collect();
    assert_eq!(answer(&ids, 1_024, 513), found(512, 1));
    assert_eq!(answer(&ids, 1_024, 257), found(256, 2));
    assert_eq!(answer(&ids, 1_024, 1), found(0, 11));
    assert_eq!(answer(&ids, 1_024, 1_024), found(1_023, 10));
    assert_eq!(answer(&ids, 1_023, 1_024), not_found(10));
}

/// Ids that don't ascend: one that is there may be missed, and one that is there twice is met where
/// the steps come first.
#[test]
fn ids_that_do_not_ascend() {
    assert_eq!(answer(&[9, 7, 5], 3, 9), not_found(2));
    assert_eq!(answer(&[9, 7, 5], 3, 7), found(1, 1));
    assert_eq!(answer(&[9, 7, 5], 3, 5), not_found(2));
    for count in 1..=1_024 {
        let ids = vec![7; count];
        assert_eq!(answer(&ids, count, 7), found(count / 2, 1));
    }
}

/// What stands behind the count, and whether anything does, affects no answer.
#[test]
fn ids_behind_the_count() {
    let mut taken = [0; 2];
    for_each_case("known, behind the count", 20_000, |random| {
        let (mut ids, count, id) = lists::any(random);
        let answer = |ids: &[u32]| by_library(&Question { ids, count, id }, UNWRITTEN);
        let first = answer(&ids);
        if first == NOT_TAKEN {
            return Ok(());
        }
        taken[usize::from(first.0 == 0)] += 1;
        let others = lists::behind_the_count(random, ids.len() - count);
        ids[count..].copy_from_slice(&others);
        same("the answer with others behind", &first, &answer(&ids))?;
        ids[count..].fill(id);
        same("the answer with the id behind", &first, &answer(&ids))?;
        let alone = answer(&ids[..count]);
        same("the answer with none behind", &first, &alone)
    });
    assert!(taken.iter().all(|count| *count > 2_000), "{taken:?}");
}

/// A list above 1,024 ids is not taken, whatever the count, and nothing is written.
#[test]
fn lists_too_long() {
    for length in [1_025, 1_026, 1_088, 2_048, 65_536, 65_537, 70_000] {
        let ids: Vec<u32> = (0..length as u32).collect();
        for count in [0, 1, 2, 512, 1_023, 1_024, 1_025, length, length + 1] {
            for id in [0, 1, 512, 1_024, u32::MAX] {
                assert_eq!(answer(&ids, count, id), NOT_TAKEN, "{count} of {length}");
            }
        }
    }
}

/// A count above the list's length is not taken, by one or by far, and nothing is written: also one
/// that fewer bits, or a sum that goes round, would make a good one.
#[test]
fn counts_too_high() {
    for length in (0..=9).chain([255, 256, 1_023, 1_024]) {
        let ids: Vec<u32> = (0..length as u32).collect();
        let past = |bit: u32| (1_usize << bit) + length;
        let above = [
            length + 1,
            length + 2,
            1_025,
            2_048,
            usize::MAX - 1,
            usize::MAX,
        ];
        let by_far = (11..usize::BITS).flat_map(|bit| [1 << bit, past(bit)]);
        for count in above.into_iter().chain(by_far) {
            for id in [0, 4, 1_023, u32::MAX] {
                assert_eq!(answer(&ids, count, id), NOT_TAKEN, "{count} of {length}");
            }
        }
        let number = answer(&ids, length, 0).0;
        assert_eq!(number, if length == 0 { 10 } else { 0 });
    }
}

/// Where no id is in use nothing is looked at, and the row's place stays.
#[test]
fn none_in_use() {
    for length in [0, 1, 2, 3, 1_024] {
        let ids = vec![7; length];
        for id in [0, 7, u32::MAX] {
            assert_eq!(answer(&ids, 0, id), not_found(0));
        }
    }
}

/// Places that hold anything before are written on 0, both of them, and on 10 that of the looks alone.
#[test]
fn what_the_places_held_before() {
    let ids = [3, 5, 7, 9];
    for before in [0, 1, 2, 3, u64::MAX] {
        let (row, looks) = (before, before);
        let before = Places { row, looks };
        let asked = |count, id| {
            let ids = &ids;
            by_library(&Question { ids, count, id }, before)
        };
        assert_eq!(asked(4, 7), (0, Places { row: 2, looks: 1 }));
        assert_eq!(asked(4, 4), (10, Places { row, looks: 3 }));
        assert_eq!(asked(0, 7), (10, Places { row, looks: 0 }));
        assert_eq!(asked(5, 7), (1, before));
    }
}
