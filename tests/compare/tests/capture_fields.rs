//! The program `judge_capture` beside the second implementation on each field of a file, a record and
//! a frame, at its limits and beside them or with every value, and on files cut at each byte. No
//! number is drawn here.

use compare::generate::captures::{of_records, Header, Record};
use compare::generate::captures::{MAGIC_NANOSECONDS, MAGIC_PCAPNG};
use compare::generate::frames::{Draft, DONT_FRAGMENT, PAYLOAD_MOST, TYPE_VLAN};
use compare::harness::same_items;
use compare::recordings::{agreed, kind, right_capture, right_frames, ACCEPTED};
use reference::capture::{Order, FRAME_MOST, MAGIC, TYPE_IPV4};
use reference::examples::{frame_of_b, recordings_of_b};

/// Two records and the file's header cut to each length.
#[test]
fn cut_at_each_byte() {
    for order in Order::BOTH {
        let capture = right_capture(order, 2);
        let (first, second) = (24 + 16 + 316, 24 + 2 * (16 + 316));
        for length in 0..=capture.len() {
            let text = agreed(&capture[..length]);
            let last = match length {
                0..=23 => Some("unreadable"),
                24 => None,
                _ if length == first => Some("1 accepted row 0 counter 11"),
                _ if length == second => Some("2 accepted row 0 counter 12"),
                _ => Some("cut"),
            };
            assert_eq!(text.lines().last(), last, "{length} bytes");
        }
    }
}

/// The recording with each bit of the file's header changed: those of the magic number and the link
/// type count, and no others.
#[test]
fn each_bit_of_the_header() {
    for capture in recordings_of_b() {
        for bit in 0..8 * 24 {
            let mut changed = capture.clone();
            changed[bit / 8] ^= 1 << (bit % 8);
            let expected = match bit / 8 {
                0..=3 | 20..=23 => "unreadable\n",
                _ => ACCEPTED,
            };
            assert_eq!(agreed(&changed), expected, "bit {bit}");
        }
    }
}

#[test]
fn other_first_words_and_link_types() {
    let magics = [MAGIC_NANOSECONDS, MAGIC_PCAPNG, MAGIC.rotate_left(16), 0];
    let types = [0, 2, 101, 113, 257, 65_537, 1 << 24, 0x1000_0001];
    let record = Record::of(frame_of_b());
    for order in Order::BOTH {
        let judged_with = |magic, link_type| {
            let header = Header {
                magic,
                link_type,
                ..Header::right(order)
            };
            agreed(&[header.bytes(order), record.bytes(order)].concat())
        };
        assert_eq!(judged_with(MAGIC, 1), ACCEPTED);
        for magic in magics {
            assert_eq!(judged_with(magic, 1), "unreadable\n", "{magic:x}");
        }
        for link_type in types {
            assert_eq!(judged_with(MAGIC, link_type), "unreadable\n", "{link_type}");
        }
    }
}

/// What is said first of a record with bytes enough behind it.
fn said_first(order: Order, record: Record) -> String {
    let mut capture = of_records(order, &[record]);
    capture.resize(70_000, 0);
    let text = agreed(&capture);
    text.lines().next().map(kind).unwrap_or_default()
}

/// The recording with each bit of the record's header changed: the time is free, another captured
/// length cuts the file or moves the next record, and another length of either skips the frame.
#[test]
fn each_bit_of_a_record() {
    let right = Record::of(frame_of_b());
    for order in Order::BOTH {
        for bit in 0..8 * 8 {
            let mut record = right.clone();
            record.time[bit / 8] ^= 1 << (bit % 8);
            assert_eq!(said_first(order, record), "accepted", "time, bit {bit}");
        }
        for bit in 0..32 {
            let mut record = right.clone();
            record.original ^= 1 << bit;
            assert_eq!(said_first(order, record), "skipped", "original, bit {bit}");
            let mut record = right.clone();
            record.captured ^= 1 << bit;
            let expected = if bit < 16 { "skipped" } else { "cut" };
            assert_eq!(said_first(order, record), expected, "captured, bit {bit}");
        }
    }
}

/// A captured length of 65,535 is the largest; above it the file is cut, though the bytes are there
/// and the last bytes of the length are like a smaller one.
#[test]
fn captured_lengths_at_the_limit() {
    let mut frame = frame_of_b();
    frame.resize(200_000, 0);
    let lengths = [65_536, 65_537, 65_536 + 316, 131_071, 1 << 24, 1 << 31];
    for order in Order::BOTH {
        let with_length = |length: u32| Record {
            captured: length,
            original: length,
            ..Record::of(frame.clone())
        };
        let largest = Record::of(frame[..FRAME_MOST].to_vec());
        assert_eq!(agreed(&of_records(order, &[largest])), ACCEPTED);
        for length in lengths.into_iter().chain([u32::MAX]) {
            let cut = of_records(order, &[Record::of(frame_of_b()), with_length(length)]);
            assert_eq!(agreed(&cut), format!("{ACCEPTED}cut\n"), "{length}");
        }
    }
}

/// Both judge records on book B, in one file of each order. With each record comes whether it is
/// judged; the others are skipped.
fn sweep(records: impl Iterator<Item = (Record, bool)>) {
    let (records, judged): (Vec<Record>, Vec<bool>) = records.unzip();
    for order in Order::BOTH {
        let text = agreed(&of_records(order, &records));
        let found: Vec<bool> = text.lines().map(|line| kind(line) != "skipped").collect();
        let same = same_items("'is judged'", &judged, &found);
        same.unwrap_or_else(|difference| panic!("{difference}"));
    }
}

fn sweep_frames(frames: impl Iterator<Item = (Draft, bool)>) {
    sweep(frames.map(|(draft, judged)| (Record::of(draft.bytes()), judged)));
}

/// A right frame with each value in a field, and whether it is judged.
fn sweep_field(
    values: impl Iterator<Item = u16>,
    set: impl Fn(&mut Draft, u16),
    is_judged: impl Fn(u16) -> bool,
) {
    sweep_frames(right_frames().zip(values).map(|(mut draft, value)| {
        set(&mut draft, value);
        (draft, is_judged(value))
    }));
}

/// Each value of one byte of the Ethernet type, and a VLAN tag before the right one.
#[test]
fn each_ethernet_type() {
    let low = (0..=255).map(|byte| TYPE_IPV4 & 0xff00 | byte);
    let high = (0..=255).map(|byte| byte << 8 | TYPE_IPV4 & 0xff);
    let values = low.chain(high).chain([0x0806, 0x86dd, TYPE_VLAN, 0xffff]);
    sweep_field(
        values,
        |draft, value| draft.ethernet_type = value,
        |value| value == TYPE_IPV4,
    );
    let mut tagged = frame_of_b();
    tagged.splice(12..12, [0x81, 0x00, 0x00, 0x01]);
    sweep([(Record::of(tagged), false)].into_iter());
}

#[test]
fn each_protocol() {
    sweep_field(
        0..=255,
        |draft, value| draft.protocol = value as u8,
        |value| value == 17,
    );
}

/// Each value of one byte of the flags and the fragment offset.
#[test]
fn each_flag_and_fragment_offset() {
    let high = (0..=255).map(|byte| byte << 8);
    let low = (0..=255).flat_map(|byte| [byte, DONT_FRAGMENT | byte]);
    sweep_field(
        high.chain(low),
        |draft, value| draft.flags_and_offset = value,
        |value| value & 0x3fff == 0,
    );
}

/// Ports about those of DHCP, and ones that have the same bytes, in either place.
#[test]
fn each_port() {
    let ports = [0, 66, 67, 68, 69, 323, 67 << 8, 68 << 8, 65_535];
    let pairs = ports.iter().flat_map(|a| ports.map(|b| [*a, b]));
    let is_dhcp = |port: &u16| [67, 68].contains(port);
    sweep_frames(right_frames().zip(pairs).map(|(mut draft, ports)| {
        draft.ports = ports;
        (draft, ports.iter().any(is_dhcp))
    }));
}

/// A frame in which, wherever an IP header may be said to end, something stands that can be read as
/// UDP's: a port is 67, and the length is 67 or 17.
fn frame_of_67s() -> Draft {
    let mut draft = Draft::around(&[]);
    let numbers = [[0, 67]; 66].concat();
    draft.free[13..16].copy_from_slice(&[0, 67, 0]);
    draft.free[16..].copy_from_slice(&numbers[..12]);
    draft.ports = [67, 67];
    draft.udp_length = 67;
    draft.behind = numbers;
    draft
}

/// Each version and each header length.
#[test]
fn each_version_and_header_length() {
    sweep_frames((0..=255).map(|byte: u8| {
        let mut draft = frame_of_67s();
        (draft.version, draft.header_words) = (byte >> 4, byte & 15);
        draft.total = draft.carried() as u16;
        (draft, byte >> 4 == 4 && byte & 15 >= 5)
    }));
}

/// Each header length with each total length.
#[test]
fn each_header_length_and_total_length() {
    let pairs = (0..=15).flat_map(|words| (0..=170).map(move |total| (words, total)));
    sweep_frames(pairs.map(|(words, total)| {
        let mut draft = frame_of_67s();
        (draft.header_words, draft.total) = (words as u8, total);
        let fits = (4 * words + 67..=draft.carried() as u16).contains(&total);
        (draft, words >= 5 && fits)
    }));
}

/// Each length of IP options, with each number of bytes behind UDP's in the packet and of padding.
#[test]
fn options_and_padding() {
    let sizes = (0..=10).flat_map(|words| (0..=20).map(move |rest| (words, rest)));
    sweep_frames(right_frames().zip(sizes).map(|(mut draft, (words, rest))| {
        draft.options = vec![7; 4 * words];
        draft.behind = vec![8; 20];
        draft.set_lengths(rest);
        (draft, true)
    }));
}

/// Each total length of a packet with options, and with bytes behind UDP's and padding.
#[test]
fn each_total_length() {
    let values = (0..=350).chain([511, 512, 65_534, 65_535]);
    let set = |draft: &mut Draft, value| {
        draft.options = vec![7; 12];
        draft.behind = vec![8; 9];
        draft.set_lengths(0);
        draft.total = value;
    };
    let whole = 20 + 12 + 8 + 274;
    sweep_field(values, set, |value| (whole..=whole + 9).contains(&value));
}

/// Each length of UDP, with bytes behind it in the packet.
#[test]
fn each_udp_length() {
    let values = (0..=300).chain([511, 512, 65_534, 65_535]);
    let set = |draft: &mut Draft, value| {
        draft.behind = vec![8; 9];
        draft.set_lengths(5);
        draft.udp_length = value;
    };
    sweep_field(values, set, |value| (8..=8 + 274 + 5).contains(&value));
}

/// Each length of a payload over a stretch, and the largest.
#[test]
fn each_length_of_a_payload() {
    let lengths = (0..=1_500).chain([PAYLOAD_MOST]);
    sweep_frames(lengths.map(|length| (Draft::around(&vec![0; length]), true)));
}

/// A frame that ends at each byte, and one with each number of bytes behind its packet, captured
/// whole.
#[test]
fn each_length_of_a_frame() {
    let lengths = 0..=400;
    sweep(right_frames().zip(lengths).map(|(draft, length)| {
        let mut frame = draft.bytes();
        let whole = frame.len();
        frame.resize(length, 0);
        (Record::of(frame), length >= whole)
    }));
}
