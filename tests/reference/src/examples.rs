//! Examples with outside answers: RFC 1321's digests, RFC 2202's HMAC-MD5 cases, and the bench
//! examples of docs/RULES.md; and a recording of one of these, written by hand. They are data only,
//! so that every implementation can be held against them.

use crate::book::Book;
use crate::known::Sought;
use crate::message::{AUTHENTICATION, COOKIE, COOKIE_AT, RELAY_AGENT};

/// RFC 1321's test suite (appendix A.5): message and digest.
pub const RFC_1321: [(&str, &str); 7] = [
    ("", "d41d8cd98f00b204e9800998ecf8427e"),
    ("a", "0cc175b9c0f1b6a831c399e269772661"),
    ("abc", "900150983cd24fb0d6963f7d28e17f72"),
    ("message digest", "f96b697d7cb7938d525a2f31aaf161d0"),
    (
        "abcdefghijklmnopqrstuvwxyz",
        "c3fcd3d76192e4007dfb496cca67e13b",
    ),
    (
        "ABCDEFGHIJKLMNOPQRSTUVWXYZabcdefghijklmnopqrstuvwxyz0123456789",
        "d174ab98d277d9f5a5611c2c9f419d9f",
    ),
    (
        "12345678901234567890123456789012345678901234567890123456789012345678901234567890",
        "57edf4a22be3c955ac49da2e2107b67a",
    ),
];

/// A case of RFC 2202, section 2.
pub struct HmacCase {
    pub number: usize,
    pub key: Vec<u8>,
    pub message: Vec<u8>,
    pub mac: &'static str,
}

/// RFC 2202's HMAC-MD5 cases. The keys of 6 and 7 have 80 bytes, which the library refuses.
pub fn rfc_2202() -> Vec<HmacCase> {
    let case = |number, key: &[u8], message: &[u8], mac| HmacCase {
        number,
        key: key.to_vec(),
        message: message.to_vec(),
        mac,
    };
    let one_to_25: Vec<u8> = (1..=25).collect();
    vec![
        case(
            1,
            &[0x0b; 16],
            b"Hi There",
            "9294727a3638bb1c13f48ef8158bfc9d",
        ),
        case(
            2,
            b"Jefe",
            b"what do ya want for nothing?",
            "750c783e6ab0b503eaa86e310a5db738",
        ),
        case(
            3,
            &[0xaa; 16],
            &[0xdd; 50],
            "56be34521d144c88dbb8c733f0e8b3f6",
        ),
        case(
            4,
            &one_to_25,
            &[0xcd; 50],
            "697eaf0aca3a3aea3a75164746ffaa79",
        ),
        case(
            5,
            &[0x0c; 16],
            b"Test With Truncation",
            "56461ef2342edc00f9bab995690efd4c",
        ),
        case(
            6,
            &[0xaa; 80],
            b"Test Using Larger Than Block-Size Key - Hash Key First",
            "6b1ab7fe4bd7bf8f0b62e6ce61b9d0cd",
        ),
        case(
            7,
            &[0xaa; 80],
            b"Test Using Larger Than Block-Size Key and Larger Than One Block-Size Data",
            "6f630fad67cda0ee1fb1f562db3aa53e",
        ),
    ]
}

/// Lower-case hexadecimal, as the RFCs print digests.
pub fn hex(bytes: &[u8]) -> String {
    bytes.iter().map(|byte| format!("{byte:02x}")).collect()
}

/// Book B: one row, id 7, heard, received 10, sent 3, key 1, 2, 3, 4.
pub fn book_b() -> Book {
    let mut store = vec![1, 2, 3, 4];
    store.resize(64, 0);
    Book {
        ids: vec![7],
        lengths: vec![4],
        store,
        marks: vec![1],
        received: vec![10],
        sent: vec![3],
        rows: 1,
    }
}

/// Book B before anything was accepted: its row is not heard, and its received counter is 0.
pub fn book_b_not_heard() -> Book {
    Book {
        marks: vec![0],
        received: vec![0],
        ..book_b()
    }
}

/// Bench example 1: B's old card.
pub const OLD_CARD_B: [u8; 34] = [
    0x1A, 0x00, 0x01, 0x00, 0x07, 0x00, 0x00, 0x00, 0x0A, 0x00, 0x00, 0x00, 0x00, 0x00, 0x00, 0x00,
    0x03, 0x00, 0x00, 0x00, 0x00, 0x00, 0x00, 0x00, 0x01, 0x02, 0x03, 0x04, 0x04, 0x00, 0x02, 0x00,
    0x01, 0x00,
];

/// Bench example 1: B's new card.
pub const NEW_CARD_B: [u8; 35] = [
    0x1B, 0x00, 0x03, 0x00, 0x07, 0x00, 0x00, 0x00, 0x01, 0x0A, 0x00, 0x00, 0x00, 0x00, 0x00, 0x00,
    0x00, 0x03, 0x00, 0x00, 0x00, 0x00, 0x00, 0x00, 0x00, 0x01, 0x02, 0x03, 0x04, 0x04, 0x00, 0x02,
    0x00, 0x01, 0x00,
];

/// Both of B's cards.
pub const CARDS_B: [&[u8]; 2] = [&OLD_CARD_B, &NEW_CARD_B];

/// The card of book B before anything was accepted, written by hand: the mark and the received
/// counter are 0.
pub const CARD_B_NOT_HEARD: [u8; 35] = [
    0x1B, 0x00, 0x03, 0x00, 0x07, 0x00, 0x00, 0x00, 0x00, 0x00, 0x00, 0x00, 0x00, 0x00, 0x00, 0x00,
    0x00, 0x03, 0x00, 0x00, 0x00, 0x00, 0x00, 0x00, 0x00, 0x01, 0x02, 0x03, 0x04, 0x04, 0x00, 0x02,
    0x00, 0x01, 0x00,
];

/// Bench example 2: the card of no rows.
pub const CARD_EMPTY: [u8; 6] = [0x04, 0x00, 0x02, 0x00, 0x00, 0x00];

/// 236 zeros, the cookie and the given options.
pub fn message_with(options: &[u8]) -> Vec<u8> {
    let mut message = vec![0; COOKIE_AT];
    message.extend_from_slice(&COOKIE);
    message.extend_from_slice(options);
    message
}

/// An option 90 in full form, its MAC sixteen bytes 0xEE.
pub fn full_option_90(id: u32, counter: u64) -> Vec<u8> {
    let mut option = vec![AUTHENTICATION, 31, 1, 1, 0];
    option.extend_from_slice(&counter.to_be_bytes());
    option.extend_from_slice(&id.to_be_bytes());
    option.extend_from_slice(&[0xEE; 16]);
    option
}

/// A message that B judges, and the number it gets.
pub struct CheckExample {
    pub name: &'static str,
    pub message: Vec<u8>,
    pub number: u8,
}

/// Bench examples 3 to 9, but for the message put right. (Of example 3, 1,472 bytes pass number 2:
/// they are zeros here, so that the cookie is what differs. Example 6 passes number 7: it has id 7,
/// counter 11 and a wrong MAC here, so that the MAC is what differs.)
pub fn refused_by_b() -> Vec<CheckExample> {
    let example = |name, number, message| CheckExample {
        name,
        message,
        number,
    };
    let with = |options: &[&[u8]]| message_with(&options.concat());
    let auth = full_option_90(7, 11);
    let mut protocol_0 = auth.clone();
    protocol_0[2] = 0;
    let request = [&[AUTHENTICATION, 11, 1, 1, 0][..], &[0; 8]].concat();
    let mut one_bit_off = accepted_by_b();
    one_bit_off[240 + 32] ^= 1;
    vec![
        example("3: 240 bytes", 2, message_with(&[])),
        example("3: 1,473 bytes", 2, vec![0; 1_473]),
        example("3: 1,472 bytes", 3, vec![0; 1_472]),
        example("4: no option 90", 5, with(&[&[53, 1, 5, 255]])),
        example(
            "5: 90, 31 and 30 bytes",
            4,
            with(&[&[AUTHENTICATION, 31], &[0; 30]]),
        ),
        example(
            "6: 90, 82, 53, End",
            12,
            with(&[&auth, &[RELAY_AGENT, 1, 9, 53, 1, 5, 255]]),
        ),
        example("7: request form", 9, with(&[&request, &[255]])),
        example("7: protocol 0", 8, with(&[&protocol_0, &[255]])),
        example("8: id 8", 10, with(&[&full_option_90(8, 11), &[255]])),
        example(
            "8: counter 10, wrong MAC",
            11,
            with(&[&full_option_90(7, 10), &[255]]),
        ),
        example("9: one MAC bit off", 12, one_bit_off),
    ]
}

/// Bench example 9, put right: id 7, counter 11, with the MAC that OpenSSL's command line gives
/// (openssl dgst -md5 -mac HMAC -macopt hexkey:01020304).
pub fn accepted_by_b() -> Vec<u8> {
    let mut message = message_with(&[&full_option_90(7, 11)[..], &[255]].concat());
    message[240 + 17..240 + 33].copy_from_slice(&ACCEPTED_MAC);
    message
}

/// HMAC-MD5 under the key 1, 2, 3, 4 of 236 zeros, the cookie, 90, 31, 1, 1, 0, the counter 11, the
/// id 7, sixteen zeros and End.
const ACCEPTED_MAC: [u8; 16] = [
    0xee, 0x98, 0xf4, 0xdb, 0xee, 0x5b, 0xeb, 0x3f, 0x0c, 0x40, 0x06, 0xa8, 0x69, 0x30, 0x26, 0x69,
];

/// Options 90, 53 and End, id 7 and counter 11, with an option 82 before each of the three in turn:
/// B accepts them all. The second is bench example 6 with the right MAC.
pub fn accepted_by_b_with_82() -> Vec<Vec<u8>> {
    let mut message = message_with(&[&full_option_90(7, 11)[..], &[53, 1, 5, 255]].concat());
    message[240 + 17..240 + 33].copy_from_slice(&ACCEPTED_MAC_WITH_53);
    let with_82 = |at| {
        let mut message = message.clone();
        message.splice(at..at, [RELAY_AGENT, 1, 9]);
        message
    };
    [240, 273, 276].map(with_82).to_vec()
}

/// As above, of the same bytes with option 53 of body 5 before End, by the same command.
const ACCEPTED_MAC_WITH_53: [u8; 16] = [
    0xf0, 0x39, 0x05, 0x27, 0xd7, 0x64, 0x60, 0x18, 0xea, 0xc3, 0x38, 0xd7, 0xb6, 0xd5, 0x9b, 0x6b,
];

/// A search for an id among the first `count` of a list, and what it comes to: row and looks, or the
/// number 1.
pub struct SearchExample {
    pub ids: Vec<u32>,
    pub count: usize,
    pub id: u32,
    pub answer: Result<Sought, u8>,
}

/// Bench example 12.
pub fn searches() -> Vec<SearchExample> {
    let found = |row, looks| {
        let row = Some(row);
        Ok(Sought { row, looks })
    };
    let not_found = |looks| Ok(Sought { row: None, looks });
    let of_four = [
        (4, 7, found(2, 1)),
        (4, 5, found(1, 2)),
        (4, 3, found(0, 3)),
        (4, 9, found(3, 2)),
        (4, 4, not_found(3)),
        (4, 1, not_found(3)),
        (4, 8, not_found(2)),
        (4, 10, not_found(2)),
        (2, 7, not_found(1)),
        (0, 3, not_found(0)),
        (0, 7, not_found(0)),
        (5, 7, Err(1)),
    ];
    let example = |ids: &[u32], (count, id, answer)| SearchExample {
        ids: ids.to_vec(),
        count,
        id,
        answer,
    };
    let mut searches: Vec<SearchExample> = of_four
        .into_iter()
        .map(|question| example(&[3, 5, 7, 9], question))
        .collect();
    searches.push(example(&[9, 7, 5], (3, 9, not_found(2))));
    let above_0: Vec<u32> = (1..=1_025).collect();
    searches.push(example(&above_0[..1_024], (1_024, 0, not_found(11))));
    searches.push(example(&above_0, (1_025, 0, Err(1))));
    searches
}

/// The recording of bench example 9's message, put right, little-endian and big-endian: a file's
/// header, and one record of 316 bytes.
pub fn recordings_of_b() -> [Vec<u8>; 2] {
    let frame = frame_of_b();
    [RECORDED_LITTLE, RECORDED_BIG].map(|headers| [&headers[..], &frame].concat())
}

/// The frame in these recordings.
pub fn frame_of_b() -> Vec<u8> {
    [&FRAME_HEADERS[..], &accepted_by_b()].concat()
}

/// Magic number, version 2.4, 8 zeros, at most 65,535 bytes of a frame, Ethernet; and the record's
/// seconds and microseconds, and 316 twice.
const RECORDED_LITTLE: [u8; 40] = [
    0xd4, 0xc3, 0xb2, 0xa1, 0x02, 0x00, 0x04, 0x00, 0x00, 0x00, 0x00, 0x00, 0x00, 0x00, 0x00, 0x00,
    0xff, 0xff, 0x00, 0x00, 0x01, 0x00, 0x00, 0x00, 0x78, 0x56, 0x34, 0x12, 0x40, 0xe2, 0x01, 0x00,
    0x3c, 0x01, 0x00, 0x00, 0x3c, 0x01, 0x00, 0x00,
];

/// The same words with their bytes turned round.
const RECORDED_BIG: [u8; 40] = [
    0xa1, 0xb2, 0xc3, 0xd4, 0x00, 0x02, 0x00, 0x04, 0x00, 0x00, 0x00, 0x00, 0x00, 0x00, 0x00, 0x00,
    0x00, 0x00, 0xff, 0xff, 0x00, 0x00, 0x00, 0x01, 0x12, 0x34, 0x56, 0x78, 0x00, 0x01, 0xe2, 0x40,
    0x00, 0x00, 0x01, 0x3c, 0x00, 0x00, 0x01, 0x3c,
];

/// Ethernet: to all, from 02:00:00:00:00:07, type 0800. IPv4 from 14 on: version 4, 20 bytes of
/// header, 302 in all, Don't Fragment, protocol 17, from 0.0.0.0 to 255.255.255.255. UDP from 34
/// on: from port 68 to port 67, 282 bytes, no checksum.
const FRAME_HEADERS: [u8; 42] = [
    0xff, 0xff, 0xff, 0xff, 0xff, 0xff, 0x02, 0x00, 0x00, 0x00, 0x00, 0x07, 0x08, 0x00, 0x45, 0x00,
    0x01, 0x2e, 0x00, 0x00, 0x40, 0x00, 0x40, 0x11, 0x39, 0xc0, 0x00, 0x00, 0x00, 0x00, 0xff, 0xff,
    0xff, 0xff, 0x00, 0x44, 0x00, 0x43, 0x01, 0x1a, 0x00, 0x00,
];
