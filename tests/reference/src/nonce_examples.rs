//! Examples of FORCERENEW by nonce, with MACs from outside: Python's `hmac.new(nonce, message,
//! "md5")` over the message with zeros in the MAC's place. They are data only, so that every
//! implementation can be held against them.

use crate::examples::message_with;
use crate::forcerenew::{Servers, HEARD, NONE_YET, NOT_HEARD};
use crate::message::{AUTHENTICATION, GIADDR, HOPS_AT, RELAY_AGENT};

/// A nonce, the bytes from 10 to 1f, and another, from 20 to 2f.
pub const NONCE: [u8; 16] = *b"\x10\x11\x12\x13\x14\x15\x16\x17\x18\x19\x1a\x1b\x1c\x1d\x1e\x1f";
pub const OTHER_NONCE: [u8; 16] = *b" !\"#$%&'()*+,-./";

/// An option 90 by nonce.
pub fn option_by_nonce(counter: u64, kind: u8, value: &[u8; 16]) -> Vec<u8> {
    let mut option = vec![AUTHENTICATION, 28, 3, 1, 0];
    option.extend_from_slice(&counter.to_be_bytes());
    option.push(kind);
    option.extend_from_slice(value);
    option
}

/// An ACK that gives a nonce: 236 zeros, the cookie, option 53, option 90 and End.
pub fn ack_with(nonce: &[u8; 16], counter: u64) -> Vec<u8> {
    message_with(&[&[53, 1, 5][..], &option_by_nonce(counter, 1, nonce), &[255]].concat())
}

/// Where option 90 is in the FORCERENEWs below.
pub const ORDER_AT: usize = 249;

/// A FORCERENEW that a relay handed on: op 2, hops 3, giaddr 10.0.0.1 and an option 82 before options
/// 53 and 90; and behind these a pad, End and a byte 7.
pub fn order_with(counter: u64, mac: &[u8; 16]) -> Vec<u8> {
    let options = [
        &[RELAY_AGENT, 4, 1, 2, 9, 8][..],
        &[53, 1, 9],
        &option_by_nonce(counter, 2, mac),
        &[0, 255, 7],
    ];
    let mut message = message_with(&options.concat());
    message[0] = 2;
    message[HOPS_AT] = 3;
    message[GIADDR].copy_from_slice(&[10, 0, 0, 1]);
    message
}

/// The MACs under the nonce with counter 11 and with counter 0, and under the other with counter 11.
const MAC_OF_11: [u8; 16] = [
    0xc6, 0x27, 0x20, 0xe5, 0x3b, 0x36, 0xce, 0xbb, 0xab, 0xda, 0xef, 0x7f, 0x3e, 0x24, 0x71, 0x26,
];
const MAC_OF_0: [u8; 16] = [
    0x07, 0x52, 0x8b, 0xa9, 0x37, 0x84, 0x6a, 0xb6, 0xa6, 0xf9, 0xfc, 0x84, 0xca, 0x63, 0x85, 0x20,
];
const MAC_UNDER_OTHER: [u8; 16] = [
    0x9a, 0x3b, 0xf6, 0xe3, 0x12, 0x2d, 0x9b, 0x29, 0x86, 0x0f, 0xd7, 0x55, 0x53, 0x5a, 0x58, 0xed,
];

/// The FORCERENEW with counter 11, under the nonce.
pub fn order_11() -> Vec<u8> {
    order_with(11, &MAC_OF_11)
}

/// The FORCERENEW with counter 0, under the nonce.
pub fn order_0() -> Vec<u8> {
    order_with(0, &MAC_OF_0)
}

/// The FORCERENEW with counter 11, under the other nonce.
pub fn order_under_other() -> Vec<u8> {
    order_with(11, &MAC_UNDER_OTHER)
}

/// One server row.
pub fn one_row(nonce: &[u8; 16], counter: u64, mark: u8) -> Servers {
    Servers {
        nonces: nonce.to_vec(),
        counters: vec![counter],
        marks: vec![mark],
    }
}

/// A message shown for a server row: what it finds, the number it gets, and what it leaves.
pub struct JudgedExample {
    pub name: &'static str,
    pub before: Servers,
    pub row: usize,
    pub message: Vec<u8>,
    pub number: u8,
    pub after: Servers,
}

/// An example that is accepted.
fn accepted(
    name: &'static str,
    before: Servers,
    message: Vec<u8>,
    after: Servers,
) -> JudgedExample {
    JudgedExample {
        name,
        before,
        row: 0,
        message,
        number: 0,
        after,
    }
}

/// What each type does to a row of each mark.
pub fn accepted_by_nonce() -> Vec<JudgedExample> {
    let fresh = || one_row(&NONCE, 0, NOT_HEARD);
    let heard = |counter| one_row(&NONCE, counter, HEARD);
    let ack = || ack_with(&NONCE, 5);
    vec![
        accepted(
            "a first nonce",
            one_row(&OTHER_NONCE, 9, NONE_YET),
            ack(),
            fresh(),
        ),
        accepted(
            "a first nonce that the row's bytes are already",
            one_row(&NONCE, 9, NONE_YET),
            ack(),
            fresh(),
        ),
        accepted(
            "another nonce on a row not heard",
            one_row(&OTHER_NONCE, 9, NOT_HEARD),
            ack(),
            fresh(),
        ),
        accepted(
            "another nonce on a heard row",
            one_row(&OTHER_NONCE, 9, HEARD),
            ack(),
            fresh(),
        ),
        accepted(
            "the same nonce on a row not heard, with a counter",
            one_row(&NONCE, 9, NOT_HEARD),
            ack(),
            one_row(&NONCE, 9, NOT_HEARD),
        ),
        accepted("the same nonce on a heard row", heard(9), ack(), heard(9)),
        accepted("counter 11 above 10", heard(10), order_11(), heard(11)),
        accepted("counter 11 not heard", fresh(), order_11(), heard(11)),
        accepted("counter 0 not heard", fresh(), order_0(), heard(0)),
        accepted(
            "counter 0 on a row not heard, with a counter",
            one_row(&NONCE, 9, NOT_HEARD),
            order_0(),
            heard(0),
        ),
    ]
}

/// Refused messages, one or more for each number from 10 on, in the order in which these are judged.
/// They leave the row as it was.
pub fn refused_by_nonce() -> Vec<JudgedExample> {
    let example = |name, before: Servers, number, message| JudgedExample {
        name,
        row: 0,
        message,
        number,
        after: before.clone(),
        before,
    };
    let heard = || one_row(&NONCE, 10, HEARD);
    let changed = |at: usize, value: u8| {
        let mut message = order_11();
        message[at] = value;
        message
    };
    let no_row = JudgedExample {
        row: 1,
        ..example("no such row", heard(), 10, changed(ORDER_AT + 2, 1))
    };
    vec![
        no_row,
        example("protocol 1", heard(), 19, changed(ORDER_AT + 2, 1)),
        example("algorithm 0", heard(), 19, changed(ORDER_AT + 3, 0)),
        example("method 1", heard(), 19, changed(ORDER_AT + 4, 1)),
        example("type 0", heard(), 20, changed(ORDER_AT + 13, 0)),
        example(
            "type 1 in a FORCERENEW",
            heard(),
            20,
            changed(ORDER_AT + 13, 1),
        ),
        example("type 2 in an ACK", heard(), 20, changed(ORDER_AT - 1, 5)),
        example("no nonce yet", one_row(&NONCE, 0, NONE_YET), 21, order_11()),
        example(
            "the counter again",
            one_row(&NONCE, 11, HEARD),
            11,
            order_11(),
        ),
        example(
            "counter 0 on a heard row",
            one_row(&NONCE, 0, HEARD),
            11,
            order_0(),
        ),
        example(
            "an old counter, wrong MAC",
            heard(),
            11,
            order_with(10, &MAC_OF_11),
        ),
        example("under the other nonce", heard(), 12, order_under_other()),
        example(
            "one MAC bit off",
            heard(),
            12,
            changed(ORDER_AT + 29, MAC_OF_11[15] ^ 1),
        ),
        example("hops altered on the way", heard(), 12, changed(HOPS_AT, 4)),
        example(
            "giaddr altered on the way",
            heard(),
            12,
            changed(GIADDR.start, 11),
        ),
        example("option 82 altered on the way", heard(), 12, changed(242, 9)),
    ]
}
