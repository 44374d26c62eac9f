//! What a comparison met, in words, and what it answered: so that a test sees that each case that the
//! rules name came up (docs/RULES.md, 'Two messages side by side').

use crate::met::fit;
use reference::comparison::{lines, text, Line, Named, COMPARISON_MOST, FIELDS};
use reference::message::{places, shape, AUTHENTICATION, PAD, RELAY_AGENT};
use reference::refusal::number_of;

/// The numbers that a message may have here.
pub const OF_A_MESSAGE: [u8; 7] = [0, 2, 3, 4, 5, 6, 7];

/// The number of each message, and the answer.
pub fn by_numbers(first: &[u8], second: &[u8], answer: u8) -> String {
    let [first, second] = [first, second].map(|message| number_of(&shape(message)));
    format!("first {first}, second {second}: {answer}")
}

/// Each pair of numbers with its answer: the first message's is given before the second's, whichever
/// is lower, and both before 22.
pub fn numbers() -> Vec<String> {
    let mut all = vec!["first 0, second 0: 22".to_string()];
    for first in OF_A_MESSAGE {
        for second in OF_A_MESSAGE {
            let answer = if first == 0 { second } else { first };
            all.push(format!("first {first}, second {second}: {answer}"));
        }
    }
    all
}

/// How the room was beside the lines, and the answer. None where a message is refused.
pub fn by_room(first: &[u8], second: &[u8], room: usize, answer: u8) -> Option<String> {
    let size = text(&lines(first, second).ok()?).len();
    let room = match room {
        0 => "empty",
        COMPARISON_MOST => "the bound",
        _ => fit(room, size),
    };
    Some(format!("{room}: {answer}"))
}

/// What must come up of rooms.
pub const ROOMS: [&str; 6] = [
    "empty: 22",
    "short: 22",
    "a byte short: 22",
    "exact: 0",
    "larger: 0",
    "the bound: 0",
];

/// What must not come up of rooms.
pub const NO_ROOMS: [&str; 6] = [
    "empty: 0",
    "short: 0",
    "a byte short: 0",
    "exact: 22",
    "larger: 22",
    "the bound: 22",
];

/// What kind of line this is: of an option by its code, where that is 82 or 90, and else by its
/// occurrence.
pub fn kind(line: &Line) -> String {
    match line {
        Line::Altered(option) => format!("altered {}", kind_of_option(option)),
        Line::Missing(option) => format!("missing {}", kind_of_option(option)),
        Line::Added(option) => format!("added {}", kind_of_option(option)),
        _ => line.to_string(),
    }
}

fn kind_of_option(option: &Named) -> &'static str {
    match (option.code, option.occurrence) {
        (RELAY_AGENT, _) => "82",
        (AUTHENTICATION, _) => "90",
        (_, 1) => "1st",
        (_, 2..=9) => "2nd to 9th",
        (_, 10..=99) => "10th to 99th",
        _ => "100th on",
    }
}

/// Each kind of line that must come up.
pub fn kinds() -> Vec<String> {
    let fields = FIELDS.map(|(name, _)| name.to_string());
    let options = ["82", "1st", "2nd to 9th", "10th to 99th", "100th on"];
    let of_options = ["altered", "missing", "added"]
        .into_iter()
        .flat_map(|what| options.map(|option| format!("{what} {option}")));
    let others = ["altered 90", "layout", "relay only", "covered bytes differ"];
    fields
        .into_iter()
        .chain(of_options)
        .chain(others.map(String::from))
        .collect()
}

/// Kinds of line that there can't be: both messages have just one option 90.
pub const NO_KINDS: [&str; 2] = ["missing 90", "added 90"];

/// All that differs, where it is only what a relay may change, and where it is one thing alone. None
/// where a message is refused, and where more differs.
pub fn by_difference(first: &[u8], second: &[u8]) -> Option<String> {
    let mut lines = lines(first, second).ok()?;
    let last = lines.pop()?;
    let mut kinds: Vec<String> = lines.iter().map(kind).collect();
    if last == Line::RelayOnly {
        return Some(format!("{}: {last}", together(&kinds)));
    }
    kinds.dedup();
    let alone = match &kinds[..] {
        [one] if one == "layout" => layout(first, second)?.to_string(),
        [one] => one.clone(),
        [one, layout] if layout == "layout" => format!("{one} and layout"),
        _ => return None,
    };
    Some(format!("{alone}: {last}"))
}

fn together(kinds: &[String]) -> String {
    match kinds {
        [] => "nothing".to_string(),
        _ => kinds.join(", "),
    }
}

/// What the layout differs in, where the options don't: the bytes after End, the number or places of
/// pads, or the order of options.
fn layout(first: &[u8], second: &[u8]) -> Option<&'static str> {
    let codes = |message: &[u8]| -> Option<Vec<u8>> {
        let places = places(message)?;
        Some(places.into_iter().map(|at| message[at]).collect())
    };
    let without_pads = |codes: &[u8]| -> Vec<u8> {
        let options = codes.iter().filter(|code| **code != PAD);
        options.copied().collect()
    };
    let (first, second) = (codes(first)?, codes(second)?);
    Some(match first.len().cmp(&second.len()) {
        _ if first == second => "bytes after End",
        _ if without_pads(&first) != without_pads(&second) => "the order of options",
        std::cmp::Ordering::Equal => "the places of pads",
        _ => "the number of pads",
    })
}

/// What must come up of differences.
pub fn differences() -> Vec<String> {
    let covered = [
        "the order of options",
        "the places of pads",
        "the number of pads",
        "bytes after End",
        "altered 90",
        "altered 1st",
        "altered 2nd to 9th",
        "missing 1st and layout",
        "missing 2nd to 9th and layout",
        "missing 10th to 99th and layout",
        "missing 100th on and layout",
        "added 1st and layout",
        "added 2nd to 9th and layout",
        "added 100th on and layout",
    ];
    let fields = FIELDS.map(|(name, _)| name);
    let fields = fields.iter().filter(|name| !OF_A_RELAY.contains(name));
    let covered = covered.iter().chain(fields);
    covered
        .map(|what| format!("{what}: covered bytes differ"))
        .chain(by_a_relay())
        .collect()
}

/// The fields that a relay may change.
const OF_A_RELAY: [&str; 2] = ["hops", "giaddr"];

/// All that a relay's changes may come to: each of hops and giaddr or not, and option 82 left alone,
/// added, altered in its place, moved, both, or taken out.
fn by_a_relay() -> Vec<String> {
    let of_82: [&[&str]; 6] = [
        &[],
        &["added 82", "layout"],
        &["altered 82"],
        &["layout"],
        &["altered 82", "layout"],
        &["missing 82", "layout"],
    ];
    let of_header: [&[&str]; 4] = [&[], &["hops"], &["giaddr"], &OF_A_RELAY];
    let mut all = vec![];
    for header in of_header {
        for option in of_82 {
            let kinds: Vec<String> = header.iter().chain(option).map(|s| s.to_string()).collect();
            all.push(format!("{}: relay only", together(&kinds)));
        }
    }
    all
}
