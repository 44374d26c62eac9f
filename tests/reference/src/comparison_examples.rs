//! Examples of two messages side by side, their lines written out by hand. They are data only, so
//! that every implementation can be held against them.

use crate::examples::{full_option_90, message_with};
use crate::message::{AUTHENTICATION, GIADDR, HOPS_AT, MESSAGE_MOST};
use std::ops::Range;

/// Two messages and their lines.
pub struct ComparedExample {
    pub name: &'static str,
    pub first: Vec<u8>,
    pub second: Vec<u8>,
    pub lines: &'static str,
}

/// Where option 90 and End are in the message below.
pub const EXAMPLE_90_AT: usize = 249;
pub const EXAMPLE_END_AT: usize = 286;

/// Options 53, 12 and 12 again, a pad, option 90, option 12 once more, a pad, End and three bytes.
pub fn recorded() -> Vec<u8> {
    let options = [
        &[53, 1, 5, 12, 1, 7, 12, 0, 0][..],
        &full_option_90(7, 11),
        &[12, 1, 9, 0, 255, 82, 0, 255],
    ];
    message_with(&options.concat())
}

/// The message above with some bytes in place of others.
fn with(place: Range<usize>, bytes: &[u8]) -> Vec<u8> {
    let mut message = recorded();
    message.splice(place, bytes.iter().copied());
    message
}

/// The message above, handed on by a relay: hops, giaddr, and an option 82 at a place.
pub fn handed_on(at: usize, body: &[u8]) -> Vec<u8> {
    let mut message = with(at..at, &[&[82, body.len() as u8], body].concat());
    message[HOPS_AT] = 1;
    message[GIADDR].copy_from_slice(&[10, 0, 0, 1]);
    message
}

/// What a relay may change, alone.
pub fn compared_relay_only() -> Vec<ComparedExample> {
    let example = |name, first, second, lines| ComparedExample {
        name,
        first,
        second,
        lines,
    };
    vec![
        example("equal", recorded(), recorded(), "relay only\n"),
        example(
            "hops alone",
            recorded(),
            with(3..4, &[9]),
            "hops\nrelay only\n",
        ),
        example(
            "giaddr alone",
            with(27..28, &[9]),
            recorded(),
            "giaddr\nrelay only\n",
        ),
        example(
            "82 added before End",
            recorded(),
            handed_on(EXAMPLE_END_AT, &[1, 2]),
            "hops\ngiaddr\nadded 82 1\nlayout\nrelay only\n",
        ),
        example(
            "82 taken out",
            handed_on(240, &[1, 2]),
            recorded(),
            "hops\ngiaddr\nmissing 82 1\nlayout\nrelay only\n",
        ),
        example(
            "82 with another body",
            handed_on(243, &[1, 2]),
            handed_on(243, &[1, 3]),
            "altered 82 1\nrelay only\n",
        ),
        example(
            "82 with another length",
            handed_on(243, &[1, 2]),
            handed_on(243, &[]),
            "altered 82 1\nrelay only\n",
        ),
        example(
            "82 moved",
            handed_on(243, &[1, 2]),
            handed_on(EXAMPLE_90_AT, &[1, 2]),
            "layout\nrelay only\n",
        ),
        example(
            "82 moved and altered",
            handed_on(243, &[1, 2]),
            handed_on(EXAMPLE_90_AT, &[2]),
            "altered 82 1\nlayout\nrelay only\n",
        ),
    ]
}

/// More than a relay may change.
pub fn compared_covered() -> Vec<ComparedExample> {
    let from_recorded = |name, second, lines| ComparedExample {
        name,
        first: recorded(),
        second,
        lines,
    };
    vec![
        from_recorded(
            "a bit of the MAC",
            with(281..282, &[0xEF]),
            "altered 90 1\ncovered bytes differ\n",
        ),
        from_recorded(
            "the first of three taken out",
            with(243..246, &[]),
            "altered 12 1\naltered 12 2\nmissing 12 3\nlayout\ncovered bytes differ\n",
        ),
        from_recorded(
            "the last of three taken out",
            with(282..285, &[]),
            "missing 12 3\nlayout\ncovered bytes differ\n",
        ),
        from_recorded(
            "one more of a code in front",
            with(240..240, &[12, 0]),
            "altered 12 1\naltered 12 2\naltered 12 3\nadded 12 4\nlayout\ncovered bytes differ\n",
        ),
        from_recorded(
            "another code",
            with(240..241, &[54]),
            "missing 53 1\nadded 54 1\nlayout\ncovered bytes differ\n",
        ),
        from_recorded(
            "two options exchanged",
            with(240..246, &[12, 1, 7, 53, 1, 5]),
            "layout\ncovered bytes differ\n",
        ),
        from_recorded(
            "two options of a code exchanged",
            with(243..248, &[12, 0, 12, 1, 7]),
            "altered 12 1\naltered 12 2\ncovered bytes differ\n",
        ),
        from_recorded(
            "a pad more",
            with(240..240, &[0]),
            "layout\ncovered bytes differ\n",
        ),
        from_recorded(
            "a pad moved",
            with(246..249, &[0, 12, 0]),
            "layout\ncovered bytes differ\n",
        ),
        from_recorded(
            "a byte after End",
            with(288..289, &[1]),
            "layout\ncovered bytes differ\n",
        ),
        from_recorded(
            "no bytes after End",
            with(287..290, &[]),
            "layout\ncovered bytes differ\n",
        ),
        from_recorded(
            "a pad for an empty tail",
            with(286..290, &[0, 255]),
            "layout\ncovered bytes differ\n",
        ),
        from_recorded("op", with(0..1, &[2]), "op\ncovered bytes differ\n"),
        from_recorded(
            "sname and file, at their border",
            with(107..109, &[1, 1]),
            "sname\nfile\ncovered bytes differ\n",
        ),
    ]
}

/// The two messages with the longest lines known, of 18,325 bytes: every field differs, option 90
/// has another body, and each message has 614 empty options more, of a code of its own with three
/// digits. The first has 1,472 bytes and the second one less.
pub fn longest_known() -> [Vec<u8>; 2] {
    let message = |fill: u8, code: u8, authentication: &[u8]| {
        let others = [code, 0].repeat(614);
        let mut message = message_with(&[authentication, &others, &[255]].concat());
        message[..236].fill(fill);
        assert!(message.len() <= MESSAGE_MOST);
        message
    };
    [
        message(0, 200, &[AUTHENTICATION, 1, 0]),
        message(1, 201, &[AUTHENTICATION, 0]),
    ]
}

/// The bytes of their lines.
pub const LONGEST_KNOWN: usize = 18_325;
