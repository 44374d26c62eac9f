//! Whether an id is known (docs/RULES.md, 'Is an id known?'): the search by halving, step by step,
//! and beside it a plain search over all ids, to hold it against.

use crate::book::ROOM_MOST;
use crate::refusal::Refusal;
use std::cmp::Ordering;

/// What a search by halving came to: a row where the id was met, and the number of looks.
#[derive(Clone, Copy, Debug, PartialEq, Eq)]
pub struct Sought {
    pub row: Option<usize>,
    pub looks: usize,
}

impl Sought {
    /// The number that goes with it: 10 where the id was not met.
    pub fn number(self) -> u8 {
        match self.row {
            Some(_) => 0,
            None => Refusal::UnknownSecret.number(),
        }
    }
}

/// Looks for an id by halving among the first `count` of a list. Number 10 is an answer with looks
/// and without a row; 1 alone has neither.
pub fn known(ids: &[u32], count: usize, id: u32) -> Result<Sought, Refusal> {
    if ids.len() > ROOM_MOST || count > ids.len() {
        return Err(Refusal::UnsoundBook);
    }
    let (mut low, mut high, mut looks) = (0, count, 0);
    while low < high {
        let middle = (low + high) / 2;
        looks += 1;
        match ids[middle].cmp(&id) {
            Ordering::Equal => {
                let row = Some(middle);
                return Ok(Sought { row, looks });
            }
            Ordering::Greater => high = middle,
            Ordering::Less => low = middle + 1,
        }
    }
    Ok(Sought { row: None, looks })
}

/// The number of an answer.
pub fn number_of(answer: &Result<Sought, Refusal>) -> u8 {
    match answer {
        Ok(sought) => sought.number(),
        Err(refusal) => refusal.number(),
    }
}

/// The first row that holds an id, by a look at each in turn.
pub fn among_all(ids: &[u32], id: u32) -> Option<usize> {
    ids.iter().position(|held| *held == id)
}

/// The most looks that there are for a count: as many as it has binary digits.
pub fn looks_most(count: usize) -> usize {
    let mut digits = 0;
    let mut left = count;
    while left > 0 {
        digits += 1;
        left /= 2;
    }
    digits
}

#[cfg(test)]
mod tests {
    use super::*;

    fn ids_of(count: usize) -> Vec<u32> {
        (0..count as u32).map(|k| 2 * k + 1).collect()
    }

    /// On ids that ascend strictly the row is that of the plain search, and the looks are few enough.
    #[test]
    fn as_the_plain_search_on_ascending_ids() {
        for count in (0..=130).chain([255, 256, 1_023, 1_024]) {
            let ids = ids_of(count);
            for id in 0..=2 * count as u32 + 1 {
                let sought = known(&ids, count, id).unwrap();
                assert_eq!(sought.row, among_all(&ids, id), "{id} of {count}");
                assert!(sought.looks <= looks_most(count), "{id} of {count}");
            }
        }
    }

    /// An id below all others takes as many looks as there may be.
    #[test]
    fn the_most_looks() {
        let ids = ids_of(1_024);
        for count in 0..=1_024 {
            let sought = known(&ids, count, 0).unwrap();
            assert_eq!(sought.looks, (usize::BITS - count.leading_zeros()) as usize);
            assert_eq!(sought.looks, looks_most(count));
        }
        assert_eq!(looks_most(1_024), 11);
    }

    #[test]
    fn lists_and_counts_that_are_not_taken() {
        let refused = Err(Refusal::UnsoundBook);
        assert_eq!(known(&[], 1, 0), refused);
        assert_eq!(known(&[0], usize::MAX, 0), refused);
        assert_eq!(known(&ids_of(1_024), 1_025, 1), refused);
        assert_eq!(known(&ids_of(1_025), 1, 1), refused);
        assert_eq!(known(&ids_of(1_025), 0, 1), refused);
        assert_eq!(number_of(&refused), 1);
    }
}
