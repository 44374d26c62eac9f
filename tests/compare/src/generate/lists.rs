//! Lists of ids with a count and an id to look for: ids that ascend and ids that don't, and lists and
//! counts past their limits.

use crate::random::Random;
use reference::book::ROOM_MOST;

/// Any list, the count of its ids in use and an id to look for: list and count are mostly taken.
pub fn any(random: &mut Random) -> (Vec<u32>, usize, u32) {
    let length = length(random);
    let count = count(random, length);
    let mut ids = in_some_order(random, count.min(length));
    let behind = length - ids.len();
    ids.extend(behind_the_count(random, behind));
    let id = id_to_ask(random, &ids, count);
    (ids, count, id)
}

/// How many ids a list has: mostly few, now and then as many as are taken or more.
fn length(random: &mut Random) -> usize {
    match random.below(100) {
        0..=49 => random.within(0..=8),
        50..=79 => random.within(9..=80),
        80..=89 => random.within(81..=ROOM_MOST),
        90..=92 => random.pick(&[255, 256, 257, ROOM_MOST - 1]),
        93..=95 => ROOM_MOST,
        96..=98 => ROOM_MOST + 1,
        _ => ROOM_MOST + random.pick(&[1, 2, 64, 1_024, 64_512]),
    }
}

/// The count of those in use: mostly all of them, or fewer; now and then above the list's length, by
/// one, by more, or by far.
fn count(random: &mut Random, length: usize) -> usize {
    match random.below(20) {
        0 => 0,
        1 => length.saturating_sub(1),
        2..=8 => random.within(0..=length),
        9..=17 => length,
        _ => {
            let huge = [1 << 16, 1 << 32, (1 << 32) + length, 1 << 63, usize::MAX];
            let huge = random.pick(&huge);
            random.pick(&[length + 1, length + 1, length + 7, ROOM_MOST + 1, huge])
        }
    }
}

/// How the ids in use stand.
#[derive(Clone, Copy, Debug, PartialEq, Eq)]
enum Order {
    Ascending,
    /// Ascending but for two neighbours.
    Swapped,
    /// Ascending but for one that is there twice.
    Repeated,
    Descending,
    AllTheSame,
    /// Few different ones, in any order.
    Few,
    Any,
}

impl Order {
    const ALL: [Order; 7] = [
        Order::Ascending,
        Order::Swapped,
        Order::Repeated,
        Order::Descending,
        Order::AllTheSame,
        Order::Few,
        Order::Any,
    ];
}

/// So many ids: half of the lists ascend strictly.
fn in_some_order(random: &mut Random, count: usize) -> Vec<u32> {
    let order = match random.below(2) {
        0 => Order::Ascending,
        _ => random.pick(&Order::ALL),
    };
    let mut ids = ascending(random, count);
    match order {
        Order::Ascending => {}
        Order::Swapped if count > 1 => {
            let at = random.within(1..=count - 1);
            ids.swap(at - 1, at);
        }
        Order::Repeated if count > 1 => {
            let at = random.within(1..=count - 1);
            ids[at] = ids[at - 1];
        }
        Order::Descending => ids.reverse(),
        Order::AllTheSame => {
            let id = edge_id(random);
            ids.fill(id);
        }
        Order::Few => {
            let (start, span) = (edge_id(random), random.within(2..=9));
            ids.fill_with(|| start.wrapping_add(random.below(span) as u32));
        }
        _ => ids.fill_with(|| random.u32()),
    }
    ids
}

/// Ids that ascend strictly: close together or far apart, from 0 on, up to the largest, or between.
pub fn ascending(random: &mut Random, count: usize) -> Vec<u32> {
    let widest = u32::MAX as usize / count.max(1);
    let step = random.pick(&[1, 2, 3, 1_000, widest]);
    let mut ids = Vec::with_capacity(count);
    let mut next = 0;
    for _ in 0..count {
        ids.push(next);
        next += random.within(1..=step.min(widest)) as u32;
    }
    let left = u32::MAX - ids.last().copied().unwrap_or(0);
    let anywhere = random.below(left as usize + 1) as u32;
    let start = random.pick(&[0, left, anywhere]);
    ids.iter_mut().for_each(|id| *id += start);
    ids
}

/// What stands behind the count: anything, ids that would go on, or some that the ids in use have.
pub fn behind_the_count(random: &mut Random, behind: usize) -> Vec<u32> {
    match random.below(3) {
        0 => ascending(random, behind),
        1 => (0..behind).map(|_| edge_id(random)).collect(),
        _ => (0..behind).map(|_| random.u32()).collect(),
    }
}

/// An id: the least, the largest, about the middle of all there are, small, or any.
fn edge_id(random: &mut Random) -> u32 {
    let (small, any) = (random.below(20) as u32, random.u32());
    random.pick(&[
        0,
        1,
        1 << 31,
        (1 << 31) - 1,
        u32::MAX - 1,
        u32::MAX,
        small,
        any,
    ])
}

/// The id to look for: one that is in use, the first or the last of these, one right beside one that
/// is there, the one right behind the count, an edge, or any.
fn id_to_ask(random: &mut Random, ids: &[u32], count: usize) -> u32 {
    let in_use = &ids[..count.min(ids.len())];
    match (random.below(10), in_use, ids.get(in_use.len())) {
        (0..=3, [_, ..], _) => random.pick(in_use),
        (4, [first, .., last], _) => random.pick(&[*first, *last]),
        (5..=6, [_, ..], _) => {
            let id = random.pick(in_use);
            random.pick(&[id.wrapping_sub(1), id.wrapping_add(1)])
        }
        (7, _, Some(behind)) => *behind,
        (8, ..) => random.u32(),
        _ => edge_id(random),
    }
}

#[cfg(test)]
mod tests {
    use super::*;
    use crate::searches::Question;
    use reference::book::ascend_strictly;

    /// Ids said to ascend do, at every size and to either edge.
    #[test]
    fn ascending_ids_ascend() {
        let mut random = Random::new(31);
        let (mut from_0, mut to_largest) = (0, 0);
        for count in (0..=300).chain([1_023, 1_024, 1_025]) {
            for _ in 0..10 {
                let ids = ascending(&mut random, count);
                assert_eq!(ids.len(), count);
                assert!(ascend_strictly(&ids), "{ids:?}");
                from_0 += usize::from(ids.first() == Some(&0));
                to_largest += usize::from(ids.last() == Some(&u32::MAX));
            }
        }
        assert!(from_0 > 500 && to_largest > 500);
    }

    type Situation = (&'static str, fn(&Question) -> bool);

    /// How a question may be.
    const SITUATIONS: [Situation; 16] = [
        ("no ids", |q| q.ids.is_empty() && q.count == 0),
        ("one id", |q| q.ids.len() == 1 && q.count == 1),
        ("1,024 ids in use", |q| {
            q.ids.len() == 1_024 && q.count == 1_024
        }),
        ("1,024 ids, none in use", |q| {
            q.ids.len() == 1_024 && q.count == 0
        }),
        ("1,023 of 1,024 in use", |q| {
            q.ids.len() == 1_024 && q.count == 1_023
        }),
        ("1,025 ids", |q| q.ids.len() == 1_025),
        ("1,025 ids, none in use", |q| {
            q.ids.len() == 1_025 && q.count == 0
        }),
        ("65,536 ids", |q| q.ids.len() == 65_536),
        ("one more than there are", |q| q.count == q.ids.len() + 1),
        ("1,025 of 1,024", |q| {
            q.ids.len() == 1_024 && q.count == 1_025
        }),
        ("the highest bit of a count", |q| q.count == 1 << 63),
        ("the largest count", |q| q.count == usize::MAX),
        ("a count that 32 bits cut to a good one", |q| {
            q.count > 1 << 32 && q.count - (1 << 32) == q.ids.len()
        }),
        ("the id 0, which is there", |q| {
            q.id == 0 && q.in_use().is_some_and(|ids| ids.contains(&0))
        }),
        ("the largest id, which is there", |q| {
            q.id == u32::MAX && q.in_use().is_some_and(|ids| ids.contains(&q.id))
        }),
        ("ids on both sides of 2^31", |q| {
            q.in_use().is_some_and(|ids| {
                ids.len() > 2 && ascend_strictly(ids) && ids[0] < 1 << 31 && ids[2] >= 1 << 31
            })
        }),
    ];

    #[test]
    fn questions_come_up_in_each_way() {
        let mut random = Random::new(32);
        let mut missing = SITUATIONS.to_vec();
        for _ in 0..20_000 {
            let (ids, count, id) = any(&mut random);
            let ids = &ids;
            let question = Question { ids, count, id };
            missing.retain(|(_, holds)| !holds(&question));
        }
        let names: Vec<&str> = missing.iter().map(|(name, _)| *name).collect();
        assert!(names.is_empty(), "questions never came up: {names:?}");
    }
}
