//! Permitted relay changes (docs/RULES.md, 'Relay changes'; RFC 3118, section 3, and RFC 3046).

use crate::message::{places, shape, GIADDR, HOPS_AT, MESSAGE_MOST, RELAY_AGENT};

/// What a relay does to a message: it sets hops and giaddr, and may do one thing to option 82. To
/// move option 82 takes two changes: one takes it out, the next adds it elsewhere.
#[derive(Clone, Debug, PartialEq, Eq)]
pub struct RelayChange {
    pub hops: u8,
    pub giaddr: [u8; 4],
    pub option_82: Option82,
}

#[derive(Clone, Debug, PartialEq, Eq)]
pub enum Option82 {
    Leave,
    /// Right before the option, pad or End that begins at an offset, where there is no 82 yet.
    Add {
        at: usize,
        body: Vec<u8>,
    },
    /// Another body for the one there, which stays where it is.
    Replace(Vec<u8>),
    TakeOut,
}

/// The message after a relay change. None where the change is not permitted: the message fails one
/// of numbers 2 to 7, option 82 is not as the change wants it, nothing begins at the offset where it
/// is to be added, its body is too long, or the result is above 1,472 bytes.
pub fn relayed(message: &[u8], change: &RelayChange) -> Option<Vec<u8>> {
    let found = shape(message).ok()?;
    let mut result = message.to_vec();
    result[HOPS_AT] = change.hops;
    result[GIADDR].copy_from_slice(&change.giaddr);
    match (&change.option_82, found.relay_agent) {
        (Option82::Leave, _) => {}
        (Option82::Add { at, body }, None) if places(message)?.contains(at) => {
            result.splice(*at..*at, option_82(body)?);
        }
        (Option82::Replace(body), Some(there)) => {
            result.splice(there.whole(), option_82(body)?);
        }
        (Option82::TakeOut, Some(there)) => {
            result.drain(there.whole());
        }
        _ => return None,
    }
    (result.len() <= MESSAGE_MOST).then_some(result)
}

/// Whether a message comes of another by permitted relay changes, any number of them: by one that
/// takes option 82 out, where there is one, and one that adds it as the message has it.
pub fn comes_of(first: &[u8], second: &[u8]) -> bool {
    let (Ok(before), Ok(after)) = (shape(first), shape(second)) else {
        return false;
    };
    let giaddr = &second[GIADDR];
    let change = |option_82| RelayChange {
        hops: second[HOPS_AT],
        giaddr: [giaddr[0], giaddr[1], giaddr[2], giaddr[3]],
        option_82,
    };
    let taking_out = match before.relay_agent {
        Some(_) => Option82::TakeOut,
        None => Option82::Leave,
    };
    let adding = match after.relay_agent {
        Some(there) => Option82::Add {
            at: there.at,
            body: second[there.body()].to_vec(),
        },
        None => Option82::Leave,
    };
    let bare = relayed(first, &change(taking_out));
    let came = bare.and_then(|bare| relayed(&bare, &change(adding)));
    came.as_deref() == Some(second)
}

/// Code, length and body; None where the body doesn't fit a length byte.
fn option_82(body: &[u8]) -> Option<Vec<u8>> {
    let length = u8::try_from(body.len()).ok()?;
    Some([&[RELAY_AGENT, length][..], body].concat())
}

#[cfg(test)]
mod tests {
    use super::*;
    use crate::examples::{full_option_90, message_with};
    use crate::message::covered_image;

    fn change(option_82: Option82) -> RelayChange {
        RelayChange {
            hops: 9,
            giaddr: [10, 0, 0, 1],
            option_82,
        }
    }

    fn add(at: usize, body: &[u8]) -> RelayChange {
        let body = body.to_vec();
        change(Option82::Add { at, body })
    }

    /// Options 12, 90 (at 244) and 53, pads between them, End at 282, and bytes after it.
    fn without_82() -> Vec<u8> {
        let auth = full_option_90(7, 11);
        message_with(&[&[12, 1, 90, 0][..], &auth, &[0, 0, 53, 1, 5, 255, 0, 255]].concat())
    }

    /// Adding option 82 at any place, replacing its body, moving it and taking it out leave the
    /// covered image as it was.
    #[test]
    fn image_stays() {
        let bare = without_82();
        let image = |message: &[u8]| covered_image(message, &shape(message).unwrap());
        for at in places(&bare).unwrap() {
            let added = relayed(&bare, &add(at, &[1, 2, 3])).unwrap();
            assert_eq!(added.len(), bare.len() + 5);
            assert_eq!(added[at..at + 5], [82, 3, 1, 2, 3]);
            let replaced = relayed(&added, &change(Option82::Replace(vec![]))).unwrap();
            assert_eq!(replaced.len(), bare.len() + 2);
            assert_eq!(replaced[at..at + 2], [82, 0]);
            let taken_out = relayed(&replaced, &change(Option82::TakeOut)).unwrap();
            let moved = relayed(&taken_out, &add(244, &[1, 2, 3])).unwrap();
            for message in [&added, &replaced, &taken_out, &moved] {
                assert_eq!(image(message), image(&bare));
                assert_eq!(message[HOPS_AT], 9);
                assert_eq!(message[GIADDR], [10, 0, 0, 1]);
            }
        }
    }

    #[test]
    fn option_82_is_added_where_an_option_a_pad_or_end_begins() {
        let bare = without_82();
        let permitted: Vec<usize> = (0..=bare.len() + 1)
            .filter(|at| relayed(&bare, &add(*at, &[7])).is_some())
            .collect();
        assert_eq!(permitted, [240, 243, 244, 277, 278, 279, 282]);
    }

    #[test]
    fn changes_that_are_not_permitted() {
        let bare = without_82();
        assert_eq!(relayed(&bare, &change(Option82::TakeOut)), None);
        assert_eq!(relayed(&bare, &change(Option82::Replace(vec![]))), None);
        assert_eq!(relayed(&bare, &add(240, &[0; 256])), None);
        assert_eq!(relayed(&bare[..240], &change(Option82::Leave)), None);
        let with_82 = relayed(&bare, &add(244, &[])).unwrap();
        for at in places(&with_82).unwrap() {
            assert_eq!(relayed(&with_82, &add(at, &[])), None);
        }
        let mut with_two = with_82.clone();
        with_two.splice(240..240, [82, 0]);
        assert_eq!(relayed(&with_two, &change(Option82::TakeOut)), None);
    }

    /// At every place, an option 82 that makes 1,472 bytes is permitted and one byte more isn't.
    #[test]
    fn the_result_has_at_most_1472_bytes() {
        let mut long = without_82();
        long.resize(1_470 - 9, 0);
        for at in places(&long).unwrap() {
            let full = relayed(&long, &add(at, &[5; 9])).unwrap();
            assert_eq!(full.len(), 1_472);
            assert_eq!(relayed(&long, &add(at, &[5; 10])), None);
            let replaced = |length| relayed(&full, &change(Option82::Replace(vec![5; length])));
            assert!(replaced(9).is_some());
            assert_eq!(replaced(10), None);
        }
    }
}
