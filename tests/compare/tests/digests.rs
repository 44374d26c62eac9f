//! The digest in progress (crates/digest_steps) beside the second implementation: the number and
//! the whole state after every call, refused ones too. Pieces of every size, empty ones, states
//! that no run of pieces makes, and totals around the limit and far above it.

use compare::harness::{cases, for_each_case, same, Difference, Tally};
use compare::lent::Lent;
use compare::random::Random;
use reference::md5::{Progress, DIGEST_MOST};
use reference::refusal::number_of;
use rimemagpie::c;

/// The entries of crates/digest_steps, a safe function for each: `&mut` never overlaps anything
/// else and is valid for what is read and written through it.
mod steps {
    #![allow(unsafe_code)]

    #[link(name = "digest_steps", kind = "static")]
    extern "C" {
        fn digest_begin(words: *mut u32, tail: *mut u8, total: *mut u64);
        fn digest_feed(
            words: *mut u32,
            tail: *mut u8,
            total: *mut u64,
            piece: *const u8,
            piece_len: usize,
        ) -> u8;
        fn digest_finish(words: *const u32, tail: *const u8, total: u64, digest: *mut u8) -> u8;
    }

    pub fn begin(words: &mut [u32; 4], tail: &mut [u8; 64], total: &mut u64) {
        unsafe { digest_begin(words.as_mut_ptr(), tail.as_mut_ptr(), total) }
    }

    pub fn feed(words: &mut [u32; 4], tail: &mut [u8; 64], total: &mut u64, piece: &[u8]) -> u8 {
        let (words, tail) = (words.as_mut_ptr(), tail.as_mut_ptr());
        unsafe { digest_feed(words, tail, total, piece.as_ptr(), piece.len()) }
    }

    pub fn finish(words: &[u32; 4], tail: &[u8; 64], total: u64, digest: &mut [u8; 16]) -> u8 {
        unsafe { digest_finish(words.as_ptr(), tail.as_ptr(), total, digest.as_mut_ptr()) }
    }
}

/// A state as it is lent, each part between guards.
struct LentState {
    words: Lent<u32>,
    tail: Lent<u8>,
    total: Lent<u64>,
}

impl LentState {
    fn new(state: &Progress, random: &mut Random) -> Self {
        LentState {
            words: Lent::new(&state.words, random),
            tail: Lent::new(&state.tail, random),
            total: Lent::new(&[state.total], random),
        }
    }

    /// The three parts, in the sizes that the entries take.
    fn parts(&mut self) -> (&mut [u32; 4], &mut [u8; 64], &mut u64) {
        let words = self.words.items_mut().try_into().unwrap();
        let tail = self.tail.items_mut().try_into().unwrap();
        (words, tail, &mut self.total.items_mut()[0])
    }

    fn holds(&self, expected: &Progress) -> Result<(), Difference> {
        self.words.holds("words", &expected.words)?;
        self.tail.holds("tail", &expected.tail)?;
        self.total.holds("total", &[expected.total])
    }
}

/// Both implementations begin, over whatever the lent state held.
fn begun(random: &mut Random) -> Result<(LentState, Progress), Difference> {
    let mut lent = LentState::new(&junk_state(random), random);
    let (words, tail, total) = lent.parts();
    steps::begin(words, tail, total);
    let state = Progress::begin();
    lent.holds(&state)?;
    Ok((lent, state))
}

/// Both take a piece; gives the number. A refused piece leaves the state as given.
fn fed(
    lent: &mut LentState,
    state: &mut Progress,
    piece: &[u8],
    random: &mut Random,
) -> Result<u8, Difference> {
    let expected = state.feed(piece);
    let lent_piece = Lent::new(piece, random);
    let (words, tail, total) = lent.parts();
    let number = steps::feed(words, tail, total, lent_piece.items());
    same("the number of feed", &number_of(&expected), &number)?;
    *state = expected.unwrap_or(*state);
    lent.holds(state)?;
    lent_piece.holds("piece", piece)?;
    Ok(number)
}

/// Both finish; gives the number and the digest, which is 16 zero bytes where it is refused.
fn finished(
    lent: &mut LentState,
    state: &Progress,
    random: &mut Random,
) -> Result<(u8, [u8; 16]), Difference> {
    let expected = state.finish();
    let mut digest = [random.u8(); 16];
    let (words, tail, total) = lent.parts();
    let number = steps::finish(words, tail, *total, &mut digest);
    same("the number of finish", &number_of(&expected), &number)?;
    same("the digest", &expected.unwrap_or([0; 16]), &digest)?;
    lent.holds(state)?;
    Ok((number, digest))
}

/// A state that holds anything, its total often around the limit.
fn junk_state(random: &mut Random) -> Progress {
    let total = match random.below(8) {
        0..=2 => random.within(0..=DIGEST_MOST) as u64,
        3 | 4 => random.within(65_300..=65_600) as u64,
        5 => random.pick(&[65_534, 65_535, 65_536, 65_599, 65_600, 131_071, 131_072]),
        6 => random.pick(&[(1 << 32) - 1, 1 << 32, (1 << 32) + 1, 1 << 63, u64::MAX]),
        _ => random.u64(),
    };
    Progress {
        words: [random.u32(), random.u32(), random.u32(), random.u32()],
        tail: random.bytes(64).try_into().unwrap(),
        total,
    }
}

/// A piece's size: mostly up to 200, often none, now and then what is left up to the limit, a byte
/// more or less, or anything up to past the limit.
fn piece_size(random: &mut Random, total: u64) -> usize {
    let left = DIGEST_MOST.saturating_sub(total as usize);
    match random.below(200) {
        0..=29 => 0,
        30..=39 => random.pick(&[63, 64, 65, 128]),
        40 => left,
        41 => left + 1,
        42 => left.saturating_sub(1),
        43 => random.within(0..=70_000),
        _ => random.within(0..=200),
    }
}

/// From a fresh state any cutting gives the digest of the joined pieces: those that were taken.
#[test]
fn cuttings() {
    let (mut feeds, mut ends) = (Tally::new("feed"), Tally::new("finish"));
    for_each_case("cuttings", cases(), |random| {
        let (mut lent, mut state) = begun(random)?;
        let mut joined = Vec::new();
        for _ in 0..random.within(0..=8) {
            let size = piece_size(random, state.total);
            let piece = random.bytes(size);
            let number = fed(&mut lent, &mut state, &piece, random)?;
            if number == 0 {
                joined.extend_from_slice(&piece);
            }
            feeds.count(number);
        }
        let (number, digest) = finished(&mut lent, &state, random)?;
        ends.count(number);
        let mut whole = [0; 16];
        let answer = c::digest(&joined, &mut whole);
        same("the joined pieces' digest", &(0, whole), &(answer, digest))
    });
    feeds.print();
    feeds.require(&[0, 14]);
    ends.print();
    ends.require(&[0]);
}

/// Any state: fed a piece, then finished.
#[test]
fn junk_states() {
    let (mut feeds, mut ends) = (
        Tally::new("feed, any state"),
        Tally::new("finish, any state"),
    );
    for_each_case("junk states", cases(), |random| {
        let mut state = junk_state(random);
        let mut lent = LentState::new(&state, random);
        ends.count(finished(&mut lent, &state, random)?.0);
        let size = piece_size(random, state.total);
        let piece = random.bytes(size);
        feeds.count(fed(&mut lent, &mut state, &piece, random)?);
        ends.count(finished(&mut lent, &state, random)?.0);
        Ok(())
    });
    for tally in [feeds, ends] {
        tally.print();
        tally.require(&[0, 14]);
    }
}

/// Each size of a piece from 0 to 200 behind each number of bytes that the tail holds.
#[test]
fn each_size_behind_each_tail() {
    let random = &mut Random::new(1);
    for used in 0..64 {
        for size in 0..=200 {
            let mut state = junk_state(random);
            state.total = 640 + used;
            let mut lent = LentState::new(&state, random);
            let piece = random.bytes(size);
            let number = fed(&mut lent, &mut state, &piece, random);
            assert_eq!(number, Ok(0), "{size} bytes behind {used}");
            let end = finished(&mut lent, &state, random).map(|(number, _)| number);
            assert_eq!(end, Ok(0), "{size} bytes behind {used}");
        }
    }
}

/// Each total around the limit, with each size of a piece up to past what is left, and two large
/// ones.
#[test]
fn each_total_around_the_limit() {
    let random = &mut Random::new(2);
    for total in 65_470..=65_600 {
        for size in (0..=66).chain([65_535, 65_536]) {
            let mut state = junk_state(random);
            state.total = total;
            let mut lent = LentState::new(&state, random);
            let piece = random.bytes(size);
            let number = fed(&mut lent, &mut state, &piece, random);
            let expected = if total + size as u64 > 65_535 { 14 } else { 0 };
            assert_eq!(number, Ok(expected), "{size} bytes after {total}");
        }
    }
}
