//! Permitted relay changes, drawn at random.

use crate::random::Random;
use reference::message::{places, shape, MESSAGE_MOST};
use reference::relay::{relayed, Option82, RelayChange};

/// The message after one to six permitted relay changes, one after another. Option 82 is added at
/// any place, replaced, taken out and moved. A message that fails one of numbers 2 to 7 stays as it
/// is, since no relay change applies to it.
pub fn changed(random: &mut Random, message: &[u8]) -> Vec<u8> {
    let mut now = message.to_vec();
    for _ in 0..random.within(1..=3) {
        if random.one_in(3) {
            // What follows mostly adds it again, at another place.
            now = after(random, now, Option82::TakeOut);
        }
        let option_82 = any(random, &now);
        now = after(random, now, option_82);
    }
    now
}

/// The message as it was, or after such changes.
pub fn maybe_changed(random: &mut Random, message: &[u8]) -> Vec<u8> {
    match random.below(2) {
        0 => message.to_vec(),
        _ => changed(random, message),
    }
}

/// The message after a change with any hops and giaddr, or as it was where that isn't permitted.
fn after(random: &mut Random, message: Vec<u8>, option_82: Option82) -> Vec<u8> {
    let giaddr = random.u32().to_be_bytes();
    let change = RelayChange {
        hops: random.u8(),
        giaddr: if random.one_in(4) { [0; 4] } else { giaddr },
        option_82,
    };
    relayed(&message, &change).unwrap_or(message)
}

/// A change that goes with the option 82 the message has or doesn't have. Its body may be too long.
fn any(random: &mut Random, message: &[u8]) -> Option82 {
    let (Ok(found), Some(places)) = (shape(message), places(message)) else {
        return Option82::Leave;
    };
    let whole = found.relay_agent.map_or(0, |there| there.whole().len());
    let room = MESSAGE_MOST.saturating_sub(message.len() - whole + 2);
    match (random.below(6), found.relay_agent) {
        (0, _) => Option82::Leave,
        (_, None) => Option82::Add {
            at: random.pick(&places),
            body: body(random, room),
        },
        (1..=2, Some(_)) => Option82::TakeOut,
        (_, Some(_)) => Option82::Replace(body(random, room)),
    }
}

/// A body. One that takes all the room there is brings the message to 1,472 bytes; one of a byte more
/// makes a change that is not permitted.
fn body(random: &mut Random, room: usize) -> Vec<u8> {
    let length = match random.below(10) {
        0 => 0,
        1 => 255,
        2 => room.min(255),
        3 => (room + 1).min(255),
        4 => random.within(0..=255),
        _ => random.within(1..=40),
    };
    random.bytes(length)
}

#[cfg(test)]
mod tests {
    use super::*;
    use crate::generate::{books, messages, situations};

    /// Messages, and what relays make of them.
    fn sample() -> Vec<(Vec<u8>, Vec<u8>)> {
        let mut random = Random::new(8);
        let mut pair = || {
            let book = books::with_rows(&mut random, 1, 1);
            let message = messages::well_formed(&mut random, &book);
            let after = changed(&mut random, &message);
            (message, after)
        };
        (0..5_000).map(|_| pair()).collect()
    }

    #[test]
    fn option_82_is_added_at_every_place() {
        let has_82 = |message: &[u8]| situations::place_and_body(message).is_some();
        let mut sample = sample();
        sample.retain(|(before, _)| !has_82(before));
        let relayed: Vec<Vec<u8>> = sample.into_iter().map(|(_, after)| after).collect();
        situations::require_each(&relayed);
        situations::require_every_place(&relayed);
    }

    /// Each kind of change comes up, moves often: in one message of ten.
    #[test]
    fn option_82_is_added_replaced_moved_and_taken_out() {
        let [mut added, mut replaced, mut moved, mut taken_out] = [0; 4];
        let sample = sample();
        for (before, after) in &sample {
            let now = situations::place_and_body(after);
            match (situations::place_and_body(before), now) {
                (None, Some(_)) => added += 1,
                (Some(_), None) => taken_out += 1,
                (Some((from, _)), Some((to, _))) if from != to => moved += 1,
                (Some((_, old)), Some((_, new))) if old != new => replaced += 1,
                _ => {}
            }
        }
        let counts = [added, replaced, moved, taken_out];
        assert!(counts.iter().all(|count| *count > 100), "{counts:?}");
        assert!(moved > sample.len() / 10, "{moved} moved");
    }

    /// The length of a message after a change that brings a body, permitted or not.
    fn length_after(message: &[u8], option_82: &Option82) -> Option<usize> {
        let body_there = situations::place_and_body(message).map_or(0, |(_, body)| body.len());
        match option_82 {
            Option82::Add { body, .. } => Some(message.len() + 2 + body.len()),
            Option82::Replace(body) => Some(message.len() - body_there + body.len()),
            _ => None,
        }
    }

    /// Changes that make just 1,472 bytes are often drawn, and are permitted; so are changes that
    /// make one byte more, and are not.
    #[test]
    fn changes_up_to_1472_bytes_and_a_byte_above() {
        let mut random = Random::new(9);
        let [mut full, mut above] = [0; 2];
        for (message, _) in sample() {
            let option_82 = any(&mut random, &message);
            let Some(length) = length_after(&message, &option_82) else {
                continue;
            };
            let change = RelayChange {
                hops: 1,
                giaddr: [0; 4],
                option_82,
            };
            let permitted = relayed(&message, &change).is_some();
            assert_eq!(permitted, length <= MESSAGE_MOST, "{length} bytes");
            full += usize::from(length == MESSAGE_MOST);
            above += usize::from(length == MESSAGE_MOST + 1);
        }
        assert!(full > 40 && above > 40, "{full} and {above}");
    }
}
