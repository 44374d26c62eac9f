//! Two messages side by side: what differs, and whether it is only what a relay may change.

use crate::{c, index, Refusal};
use std::str;

/// Room for the lines of any two messages: with this much [`compare`] never gives
/// [`Refusal::NoRoomForReport`].
pub const COMPARISON_MOST: usize = 18_573;

/// Compares two messages and gives lines that say what differs, each ended by a newline.
///
/// ```
/// use rimemagpie::{comparison, Refusal};
///
/// // A message with an empty header, the cookie, option 90 and End.
/// let mut sent = [0; 274];
/// sent[236..245].copy_from_slice(&[99, 130, 83, 99, 90, 31, 1, 1, 0]);
/// sent[273] = 255;
///
/// // What a relay made of it: hops is 1, and an option 82 stands before End.
/// let mut arrived = sent.to_vec();
/// arrived[3] = 1;
/// arrived.splice(273..273, [82, 2, 5, 6]);
///
/// assert_eq!(comparison(&sent, &sent)?, "relay only\n");
/// let lines = "hops\nadded 82 1\nlayout\nrelay only\n";
/// assert_eq!(comparison(&sent, &arrived)?, lines);
///
/// // Nobody but the sender may alter option 90.
/// arrived[272] ^= 1;
/// let lines = "hops\naltered 90 1\nadded 82 1\nlayout\ncovered bytes differ\n";
/// assert_eq!(comparison(&sent, &arrived)?, lines);
/// assert_eq!(comparison(&sent, &arrived[..273]), Err(Refusal::BrokenOptions));
/// # Ok::<(), Refusal>(())
/// ```
///
/// The lines stand in this order:
///
/// - the name of each field of the header that differs: `op`, `htype`, `hlen`, `hops`, `xid`, `secs`,
///   `flags`, `ciaddr`, `yiaddr`, `siaddr`, `giaddr`, `chaddr`, `sname`, `file`;
/// - in the order of the first message's options, `altered C N` where the second has the option with
///   another body and `missing C N` where it has none;
/// - in the order of the second message's options, `added C N` where the first has none;
/// - `layout` where the codes differ, in their order and with pads and End among them, or the bytes
///   after End;
/// - last, and always, `relay only` where the two are equal with hops and giaddr zero and option 82
///   taken out, MACs as they stand, and else `covered bytes differ`.
///
/// C is an option's code, and N counts the options of that code from 1 on. With no line but the last
/// the messages are equal. No MAC is computed: `relay only` doesn't say that a message is genuine.
///
/// A message is refused that isn't well-formed, whatever its option 90 holds:
/// [`MessageSize`](Refusal::MessageSize) to [`RelayInformation`](Refusal::RelayInformation). The first
/// message's fault is given before any of the second's.
pub fn comparison(first: &[u8], second: &[u8]) -> Result<String, Refusal> {
    let mut room = [0; COMPARISON_MOST];
    compare(first, second, &mut room).map(str::to_string)
}

/// Writes the lines of [`comparison`] into the first bytes of the room and gives them back; later
/// bytes of the room stay as they were.
///
/// Where both messages are well-formed and the lines are longer than the room, it is
/// [`Refusal::NoRoomForReport`]; a room of [`COMPARISON_MOST`] bytes is always enough.
///
/// ```
/// use rimemagpie::{compare, Refusal};
///
/// let mut message = [0; 243];
/// message[236..].copy_from_slice(&[99, 130, 83, 99, 90, 0, 255]);
/// let mut room = [b'.'; 16];
/// assert_eq!(compare(&message, &message, &mut room), Ok("relay only\n"));
/// assert_eq!(&room, b"relay only\n.....");
/// let refused = compare(&message, &message, &mut room[..10]);
/// assert_eq!(refused, Err(Refusal::NoRoomForReport));
/// ```
pub fn compare<'a>(first: &[u8], second: &[u8], room: &'a mut [u8]) -> Result<&'a str, Refusal> {
    let mut size = 0;
    Refusal::from_number(c::compare(first, second, room, &mut size))?;
    let lines = &room[..index(size)];
    Ok(str::from_utf8(lines).expect("the lines are ASCII"))
}
