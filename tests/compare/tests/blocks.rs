//! MD5's work on one block (crates/timed_blocks), written out and by tables, beside the second
//! implementation: the four words after it, for any state and any block, and extremes of both.

use compare::harness::{cases, for_each_case, Difference};
use compare::lent::Lent;
use compare::random::Random;
use reference::md5::after_block;

/// The entries of crates/timed_blocks, a safe function for each: `&mut` never overlaps anything
/// else and is valid for what is read and written through it.
mod timed {
    #![allow(unsafe_code)]

    #[link(name = "timed_blocks", kind = "static")]
    extern "C" {
        fn block_written_out(words: *mut u32, block: *const u32);
        fn block_by_table(words: *mut u32, block: *const u32);
    }

    pub fn written_out(words: &mut [u32; 4], block: &[u32; 16]) {
        unsafe { block_written_out(words.as_mut_ptr(), block.as_ptr()) }
    }

    pub fn by_table(words: &mut [u32; 4], block: &[u32; 16]) {
        unsafe { block_by_table(words.as_mut_ptr(), block.as_ptr()) }
    }
}

/// A way to change the lent words to those after the lent block.
type Way = fn(&mut [u32; 4], &[u32; 16]);

const WAYS: [(&str, Way); 2] = [
    ("the words, written out", timed::written_out),
    ("the words, by tables", timed::by_table),
];

/// Words at the ends of their range and around its middle.
const EXTREMES: [u32; 5] = [0, 1, 0x7fff_ffff, 0x8000_0000, 0xffff_ffff];

/// Both ways give the second implementation's words, and leave the block as it was.
fn compared(words: [u32; 4], block: [u32; 16], random: &mut Random) -> Result<(), Difference> {
    let bytes: Vec<u8> = block.iter().flat_map(|word| word.to_le_bytes()).collect();
    let expected = after_block(words, &bytes);
    for (name, way) in WAYS {
        let mut lent_words = Lent::new(&words, random);
        let lent_block = Lent::new(&block, random);
        let four = lent_words.items_mut().try_into().unwrap();
        way(four, lent_block.items().try_into().unwrap());
        lent_words.holds(name, &expected)?;
        lent_block.holds("the block", &block)?;
    }
    Ok(())
}

/// Any words, now and then an extreme among them.
fn any_words<const COUNT: usize>(random: &mut Random) -> [u32; COUNT] {
    std::array::from_fn(|_| match random.one_in(16) {
        true => random.pick(&EXTREMES),
        false => random.u32(),
    })
}

#[test]
fn any_state_and_any_block() {
    for_each_case("blocks", cases(), |random| {
        let words = any_words(random);
        let block = any_words(random);
        compared(words, block, random)
    });
}

/// Every state of extremes, with the block of all 0 bytes, that of all 0xff and any block.
#[test]
fn states_of_extremes() {
    let random = &mut Random::new(3);
    let count = EXTREMES.len();
    for number in 0..count.pow(4) {
        let words = std::array::from_fn(|i| EXTREMES[number / count.pow(i as u32) % count]);
        for block in [[0; 16], [0xffff_ffff; 16], any_words(random)] {
            assert_eq!(compared(words, block, random), Ok(()), "{words:x?}");
        }
    }
}

/// Every block with one bit set and every block with one bit not set, each behind any state: no
/// word and no bit of a block is lost.
#[test]
fn each_bit_of_a_block() {
    let random = &mut Random::new(4);
    for bit in 0..512 {
        let one: [u32; 16] = std::array::from_fn(|i| u32::from(i == bit / 32) << (bit % 32));
        for block in [one, one.map(|word| !word)] {
            let words = any_words(random);
            assert_eq!(compared(words, block, random), Ok(()), "bit {bit}");
        }
    }
}
