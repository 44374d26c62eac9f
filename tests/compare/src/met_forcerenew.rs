//! What a judgement by nonce met, in words, and what it answered: so that a test sees that each case
//! that the rules name came up (docs/RULES.md, 'FORCERENEW by nonce').

use crate::generate::forcerenew::{found_by_nonce, Image};
use reference::forcerenew::{
    ByNonce, ACK, BY_NONCE_LENGTH, FORCERENEW, HEARD, NONCE_SIZE, NONE_YET, NOT_HEARD, TYPE_MAC,
    TYPE_NONCE,
};
use reference::hmac::hmac_md5;
use reference::message::{
    message_type, number, option_at, places, shape, Shape, GIADDR, HOPS_AT, MESSAGE_TYPE,
};
use reference::Servers;

/// What a judgement met, up to what decided, and what it answered.
pub fn by_judgement(servers: &Servers, row: usize, message: &[u8], answer: u8) -> String {
    let met = unsound(servers, row)
        .or_else(|| shape(message).err().map(|_| "the form".to_string()))
        .or_else(|| no_row(servers, row))
        .or_else(|| not_by_nonce(message))
        .or_else(|| wrong_type(message))
        .unwrap_or_else(|| by_row(servers, row, message));
    format!("{met}: {answer}")
}

/// What is wrong with server rows.
fn unsound(servers: &Servers, row: usize) -> Option<String> {
    let n = servers.rows();
    let agree = (
        servers.nonces.len() == NONCE_SIZE * n,
        servers.counters.len() == n,
    );
    let wrong = match agree {
        (false, true) => "the size of nonces",
        (true, false) => "the size of counters",
        (false, false) => "the size of marks",
        (true, true) => wrong_mark(servers, row)?,
    };
    Some(wrong.to_string())
}

/// Where a byte stands that is no mark.
fn wrong_mark(servers: &Servers, row: usize) -> Option<&'static str> {
    let at = servers.marks.iter().position(|mark| *mark > HEARD)?;
    Some(match at {
        _ if at == row => "a mark above 2 in this row",
        _ if at == servers.rows() - 1 => "a mark above 2 in the last row, another",
        _ => "a mark above 2 in another row",
    })
}

/// Which row isn't there.
fn no_row(servers: &Servers, row: usize) -> Option<String> {
    let rows = servers.rows();
    let which = match row {
        _ if row < rows => return None,
        _ if rows == 0 => "a row of none",
        _ if row == rows => "the row behind the last",
        _ if row.checked_mul(NONCE_SIZE).is_none() => "a row 16 times which goes round",
        _ => "a row past the last",
    };
    Some(which.to_string())
}

/// How option 90 is not by nonce.
fn not_by_nonce(message: &[u8]) -> Option<String> {
    if found_by_nonce(message).is_some() {
        return None;
    }
    let option = shape(message).ok()?.authentication;
    let body = &message[option.body()];
    Some(match body {
        _ if body.len() != BY_NONCE_LENGTH => match body.len() {
            length @ (11 | 27 | 29 | 31) => format!("length {length}"),
            _ => "another length".to_string(),
        },
        [1, 1, 0, ..] => "1, 1, 0".to_string(),
        [3, 1, _, ..] => "another method".to_string(),
        [3, _, 0, ..] => "another algorithm".to_string(),
        [_, 1, 0, ..] => "another protocol".to_string(),
        _ => "other numbers".to_string(),
    })
}

/// How the type doesn't go with option 53.
fn wrong_type(message: &[u8]) -> Option<String> {
    let (_, option) = found_by_nonce(message)?;
    let kind = message[option.kind()];
    match (kind, message_type(message)) {
        (TYPE_NONCE, Some(ACK)) | (TYPE_MAC, Some(FORCERENEW)) => None,
        _ => Some(format!("type {}, {}", kind_of(kind), option_53(message))),
    }
}

fn kind_of(kind: u8) -> String {
    match kind {
        0..=3 => kind.to_string(),
        _ => "above 3".to_string(),
    }
}

/// Which option 53 a message has.
fn option_53(message: &[u8]) -> String {
    let places = places(message).unwrap_or_default();
    let lengths: Vec<usize> = places
        .iter()
        .filter(|at| message[**at] == MESSAGE_TYPE)
        .filter_map(|at| Some(option_at(message, *at)?.length))
        .collect();
    match (&lengths[..], message_type(message)) {
        ([], _) => "no 53".to_string(),
        (_, Some(holds @ (ACK | FORCERENEW))) => format!("53 holds {holds}"),
        (_, Some(_)) => "53 holds another".to_string(),
        ([length @ (0 | 2)], _) => format!("53 of length {length}"),
        ([_], _) => "53 of another length".to_string(),
        _ => "two 53".to_string(),
    }
}

/// How a message that goes with its type met its row.
fn by_row(servers: &Servers, row: usize, message: &[u8]) -> String {
    let (_, option) = found_by_nonce(message).expect("option 90 is by nonce");
    let mark = match servers.marks[row] {
        NONE_YET => "none yet",
        NOT_HEARD => "not heard",
        _ => "heard",
    };
    if message[option.kind()] == TYPE_NONCE {
        let same = &message[option.value()] == servers.nonce(row);
        let nonce = if same { "the same" } else { "another" };
        return format!("ACK, {mark}, {nonce} nonce");
    }
    let counter = number(&message[option.counter()]);
    format!("order, {mark}, {}", beside(counter, servers.counters[row]))
}

/// Where a counter stands beside the row's.
fn beside(counter: u64, stored: u64) -> &'static str {
    match counter {
        0 if stored == 0 => "0 again",
        0 => "0 below",
        u64::MAX if stored == u64::MAX => "2^64 - 1 again",
        u64::MAX => "2^64 - 1 above",
        _ if counter < stored => "below",
        _ if counter == stored => "the same",
        _ => "above",
    }
}

/// What must come up among judgements, beside `of_rows` and `of_types`.
const JUDGED: [&str; 19] = [
    "the size of nonces: 1",
    "the size of counters: 1",
    "the size of marks: 1",
    "a mark above 2 in this row: 1",
    "a mark above 2 in the last row, another: 1",
    "a mark above 2 in another row: 1",
    "a row of none: 10",
    "the row behind the last: 10",
    "a row past the last: 10",
    "a row 16 times which goes round: 10",
    "length 11: 19",
    "length 27: 19",
    "length 29: 19",
    "length 31: 19",
    "another length: 19",
    "1, 1, 0: 19",
    "another protocol: 19",
    "another algorithm: 19",
    "another method: 19",
];

/// All that must come up among judgements.
pub fn judged() -> Vec<String> {
    let mut all = JUDGED.map(String::from).to_vec();
    all.extend(of_types());
    all.extend(of_rows());
    all
}

/// Each way in which a type doesn't go with option 53.
fn of_types() -> Vec<String> {
    let options = [
        "no 53",
        "two 53",
        "53 of length 0",
        "53 of length 2",
        "53 of another length",
        "53 holds another",
    ];
    let mut all = vec![
        "type 1, 53 holds 9: 20".to_string(),
        "type 2, 53 holds 5: 20".to_string(),
    ];
    for kind in [1, 2] {
        all.extend(options.map(|option| format!("type {kind}, {option}: 20")));
    }
    for kind in ["0", "3", "above 3"] {
        all.extend([ACK, FORCERENEW].map(|holds| format!("type {kind}, 53 holds {holds}: 20")));
    }
    all
}

/// Each mark with the nonce and the counters that meet it, and what they get.
fn of_rows() -> Vec<String> {
    let mut all = vec![];
    for mark in ["none yet", "not heard", "heard"] {
        for nonce in ["the same", "another"] {
            all.push(format!("ACK, {mark}, {nonce} nonce: 0"));
        }
        for (counter, is_above) in COUNTERS {
            let answers: &[u8] = match (mark, is_above) {
                ("none yet", _) => &[21],
                ("heard", false) => &[11],
                _ => &[0, 12],
            };
            for answer in answers {
                all.push(format!("order, {mark}, {counter}: {answer}"));
            }
        }
    }
    all
}

/// Where a counter may stand beside the row's, and whether that is above.
const COUNTERS: [(&str, bool); 7] = [
    ("0 again", false),
    ("0 below", false),
    ("2^64 - 1 again", false),
    ("2^64 - 1 above", true),
    ("below", false),
    ("the same", false),
    ("above", true),
];

/// How many rows there were, and the answer.
pub fn by_size(servers: &Servers, answer: u8) -> String {
    let rows = match servers.rows() {
        0 => "no rows",
        1..=1_024 => "up to 1,024 rows",
        _ => "more rows",
    };
    format!("{rows}: {answer}")
}

/// What must come up of sizes: more rows than a book may have are no fault.
pub const SIZES: [&str; 7] = [
    "no rows: 1",
    "no rows: 10",
    "more rows: 0",
    "more rows: 1",
    "more rows: 10",
    "more rows: 12",
    "more rows: 21",
];

/// What a FORCERENEW's MAC was made over and under, where the MAC decided, and the answer.
pub fn by_mac(servers: &Servers, row: usize, message: &[u8], answer: u8) -> Option<String> {
    if ![0, 12].contains(&answer) {
        return None;
    }
    let (found, option) = found_by_nonce(message)?;
    if message[option.kind()] != TYPE_MAC {
        return None;
    }
    let made = made_over(servers.nonce(row), message, &found, option)
        .or_else(|| made_under(servers, message, option))
        .unwrap_or("another MAC");
    Some(match made {
        RIGHT => format!("{made}, {}: {answer}", relayed(message, &found)),
        _ => format!("{made}: {answer}"),
    })
}

const RIGHT: &str = "the right MAC";

/// What a relay did to a message before it was signed.
fn relayed(message: &[u8], found: &Shape) -> String {
    let is_set = message[HOPS_AT] != 0 && message[GIADDR] != [0; 4];
    let header = if is_set { "set" } else { "zero" };
    let relay_agent = match found.relay_agent {
        None => "no 82",
        Some(option) if option.at < found.authentication.at => "82 before 90",
        Some(_) => "82 behind 90",
    };
    format!("hops and giaddr {header}, {relay_agent}")
}

/// What the MAC was made over, if it was made under this nonce, or whether it is nearly right.
fn made_over(nonce: &[u8], message: &[u8], found: &Shape, option: ByNonce) -> Option<&'static str> {
    let mac = |image: Image| hmac_md5(nonce, &image.of(message, found, option));
    let bits_off = |mac: [u8; 16]| {
        let pairs = mac.into_iter().zip(&message[option.value()]);
        pairs.map(|(a, b)| (a ^ b).count_ones()).sum::<u32>()
    };
    match bits_off(mac(Image::Whole)) {
        0 => return Some(RIGHT),
        1 => return Some("a bit of the MAC off"),
        _ => {}
    }
    let over = Image::WRONG.into_iter().find(|i| bits_off(mac(*i)) == 0)?;
    Some(match over {
        Image::WithoutHops => "over hops and giaddr zero",
        Image::Without82 => "over 82 taken out",
        _ => "over hops and giaddr zero and 82 taken out",
    })
}

/// Whether the MAC was made under another row's nonce, of the first rows.
fn made_under(servers: &Servers, message: &[u8], option: ByNonce) -> Option<&'static str> {
    let mut image = message.to_vec();
    image[option.value()].fill(0);
    let mut nonces = servers.nonces.chunks(NONCE_SIZE).take(8);
    let is_it = |nonce| hmac_md5(nonce, &image) == message[option.value()];
    nonces.any(is_it).then_some("under another row's nonce")
}

/// What must come up of MACs.
pub const MACS: [&str; 12] = [
    "the right MAC, hops and giaddr zero, no 82: 0",
    "the right MAC, hops and giaddr zero, 82 before 90: 0",
    "the right MAC, hops and giaddr zero, 82 behind 90: 0",
    "the right MAC, hops and giaddr set, no 82: 0",
    "the right MAC, hops and giaddr set, 82 before 90: 0",
    "the right MAC, hops and giaddr set, 82 behind 90: 0",
    "a bit of the MAC off: 12",
    "over hops and giaddr zero: 12",
    "over 82 taken out: 12",
    "over hops and giaddr zero and 82 taken out: 12",
    "under another row's nonce: 12",
    "another MAC: 12",
];
