//! A recording: from the bytes of a card and of a capture to the whole text that `judge_capture`
//! writes (docs/RULES.md, 'A recording').
//!
//! The file's header has 24 bytes, by offset: magic number 0..4, link type 20..24. A record is a
//! header of 16, captured length 8..12 and original length 12..16, and the captured bytes of the
//! frame. All of these are 32-bit words, in the order of bytes that the magic number shows.
//!
//! A frame is an Ethernet header of 14 bytes, an IPv4 packet and padding. Its numbers are
//! big-endian.

use crate::auth::check;
use crate::book::Book;
use crate::message::number;
use crate::program::{book_of_card, in_words};

/// The file's first word, and the link type of Ethernet.
pub const MAGIC: u32 = 0xa1b2_c3d4;
pub const ETHERNET: u32 = 1;

pub const FILE_HEADER: usize = 24;
pub const RECORD_HEADER: usize = 16;
pub const ETHERNET_HEADER: usize = 14;
pub const IP_HEADER_LEAST: usize = 20;
pub const UDP_HEADER: usize = 8;

/// The most bytes of a card file, and of a frame.
pub const CARD_MOST: usize = 65_535;
pub const FRAME_MOST: usize = 65_535;

/// What a judged frame has in its headers: the type of IPv4, the protocol UDP, and a port of DHCP.
pub const TYPE_IPV4: u16 = 0x0800;
pub const PROTOCOL_UDP: u8 = 17;
pub const PORTS: [u16; 2] = [67, 68];

/// More Fragments and the fragment offset, in the two bytes that they share with Don't Fragment and
/// the reserved flag.
const FRAGMENTS: u64 = 0x3fff;

/// The order of the bytes in a capture's words.
#[derive(Clone, Copy, Debug, PartialEq, Eq)]
pub enum Order {
    Little,
    Big,
}

impl Order {
    pub const BOTH: [Order; 2] = [Order::Little, Order::Big];

    /// A word as four bytes.
    pub fn bytes(self, word: u32) -> [u8; 4] {
        match self {
            Order::Little => word.to_le_bytes(),
            Order::Big => word.to_be_bytes(),
        }
    }

    /// The word in four bytes.
    fn word(self, bytes: &[u8]) -> u32 {
        let bytes = bytes.iter().map(|byte| u32::from(*byte));
        let add = |word, byte| word << 8 | byte;
        match self {
            Order::Little => bytes.rev().fold(0, add),
            Order::Big => bytes.fold(0, add),
        }
    }
}

/// A whole record: the captured bytes of a frame, and how many the frame had.
struct Record<'a> {
    frame: &'a [u8],
    original: u32,
}

/// The whole text for two files. None is a file that is missing or can't be read.
pub fn judged(card: Option<&[u8]>, capture: Option<&[u8]>) -> String {
    text(lines(card, capture, false))
}

/// The whole text where a read of the capture fails behind these bytes.
pub fn judged_where_a_read_fails(card: &[u8], capture: &[u8]) -> String {
    text(lines(Some(card), Some(capture), true))
}

/// The lines with their ends. None is for files that are unreadable.
fn text(lines: Option<Vec<String>>) -> String {
    let lines = lines.unwrap_or(vec!["unreadable".to_string()]);
    lines.iter().map(|line| format!("{line}\n")).collect()
}

/// A line for each whole record, and the last one where the capture is cut or a read of it fails.
/// None where a file is unreadable.
fn lines(card: Option<&[u8]>, capture: Option<&[u8]>, read_fails: bool) -> Option<Vec<String>> {
    let mut book = book_of(card?)?;
    let (order, behind_header) = opened(capture?)?;
    let (records, is_cut) = records(order, behind_header);
    let mut lines = Vec::new();
    for (k, record) in records.iter().enumerate() {
        lines.push(format!("{} {}", k + 1, said_of(&mut book, record)));
    }
    if is_cut || read_fails {
        lines.push("cut".to_string());
    }
    Some(lines)
}

/// The book of a card file; None where that is too large or refused.
fn book_of(card: &[u8]) -> Option<Book> {
    if card.len() > CARD_MOST {
        return None;
    }
    book_of_card(card).ok()
}

/// The order of a capture's bytes, and what stands behind the file's header. None where that is
/// shorter or has another first word or link type.
fn opened(capture: &[u8]) -> Option<(Order, &[u8])> {
    let header = capture.get(..FILE_HEADER)?;
    let has_magic = |order: &Order| order.word(&header[..4]) == MAGIC;
    let order = Order::BOTH.into_iter().find(has_magic)?;
    let is_ethernet = order.word(&header[20..]) == ETHERNET;
    is_ethernet.then_some((order, &capture[FILE_HEADER..]))
}

/// The whole records, and whether something else stands behind them.
fn records(order: Order, bytes: &[u8]) -> (Vec<Record<'_>>, bool) {
    let mut records = Vec::new();
    let mut left = bytes;
    while let Some((record, behind)) = first_record(order, left) {
        records.push(record);
        left = behind;
    }
    (records, !left.is_empty())
}

/// The record at the front of these bytes, and what stands behind it. None where there is no whole
/// one, or its captured length is too large.
fn first_record(order: Order, bytes: &[u8]) -> Option<(Record<'_>, &[u8])> {
    let header = bytes.get(..RECORD_HEADER)?;
    let captured = order.word(&header[8..12]) as usize;
    if captured > FRAME_MOST {
        return None;
    }
    let record = Record {
        frame: bytes.get(RECORD_HEADER..RECORD_HEADER + captured)?,
        original: order.word(&header[12..]),
    };
    Some((record, &bytes[RECORD_HEADER + captured..]))
}

/// What is said of a record: a check's answer on its payload, where it was captured whole and has
/// one that is judged.
fn said_of(book: &mut Book, record: &Record) -> String {
    let is_whole = record.frame.len() == record.original as usize;
    match payload(record.frame) {
        Some(message) if is_whole => in_words(&check(book, message)),
        _ => "skipped".to_string(),
    }
}

/// The payload of a whole frame, where it has one that is judged.
pub fn payload(frame: &[u8]) -> Option<&[u8]> {
    in_udp(in_ip(in_ethernet(frame)?)?)
}

/// What an Ethernet frame of IPv4's type carries, padding included.
fn in_ethernet(frame: &[u8]) -> Option<&[u8]> {
    let (header, behind) = (frame.get(..ETHERNET_HEADER)?, &frame[ETHERNET_HEADER..]);
    (header[12..] == TYPE_IPV4.to_be_bytes()).then_some(behind)
}

/// What an IPv4 packet carries, which is UDP and no fragment (RFC 791, section 3.1). What stands
/// behind its total length is not part of it.
fn in_ip(packet: &[u8]) -> Option<&[u8]> {
    let fixed = packet.get(..IP_HEADER_LEAST)?;
    let (version, words) = (fixed[0] / 16, fixed[0] % 16);
    let header = 4 * usize::from(words);
    let total = number(&fixed[2..4]) as usize;
    let fragments = number(&fixed[6..8]) & FRAGMENTS;
    let is_judged = version == 4
        && header >= IP_HEADER_LEAST
        && header <= total
        && total <= packet.len()
        && fragments == 0
        && fixed[9] == PROTOCOL_UDP;
    is_judged.then(|| &packet[header..total])
}

/// What a UDP datagram from or to a port of DHCP carries (RFC 768). What stands behind its length
/// is not part of it.
fn in_udp(datagram: &[u8]) -> Option<&[u8]> {
    let header = datagram.get(..UDP_HEADER)?;
    let is_dhcp = |port: &[u8]| PORTS.map(u64::from).contains(&number(port));
    let length = number(&header[4..6]) as usize;
    let is_judged = (is_dhcp(&header[..2]) || is_dhcp(&header[2..4]))
        && length >= UDP_HEADER
        && length <= datagram.len();
    is_judged.then(|| &datagram[UDP_HEADER..length])
}
