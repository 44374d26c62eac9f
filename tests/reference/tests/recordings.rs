//! Recordings written by hand, on the second implementation (docs/RULES.md, 'A recording').

use reference::capture::{judged, judged_where_a_read_fails};
use reference::examples::{
    frame_of_b, recordings_of_b, CARDS_B, CARD_B_NOT_HEARD, CARD_EMPTY, NEW_CARD_B, OLD_CARD_B,
};

const ACCEPTED: &str = "1 accepted row 0 counter 11\n";

/// The text for a capture on book B, the same with either of its cards.
fn judged_on_b(capture: &[u8]) -> String {
    let [old, new] = CARDS_B.map(|card| judged(Some(card), Some(capture)));
    assert_eq!(old, new);
    new
}

#[test]
fn one_record_in_both_orders() {
    for capture in recordings_of_b() {
        assert_eq!(judged_on_b(&capture), ACCEPTED);
        assert_eq!(judged(Some(&CARD_EMPTY), Some(&capture)), "1 refused 10\n");
    }
}

#[test]
fn the_counter_of_an_accepted_message_counts_for_the_records_behind() {
    for capture in recordings_of_b() {
        let twice = [&capture[..], &capture[24..]].concat();
        let expected = format!("{ACCEPTED}2 refused 11\n");
        assert_eq!(judged_on_b(&twice), expected);
        let not_heard = judged(Some(&CARD_B_NOT_HEARD), Some(&twice));
        assert_eq!(not_heard, expected);
    }
}

/// A capture of one record cut to each length, as the end of the file and as the place where a read
/// fails.
#[test]
fn each_length() {
    for capture in recordings_of_b() {
        for length in 0..=capture.len() {
            let front = &capture[..length];
            let (at_end, failing) = match length {
                0..=23 => ("unreadable\n".to_string(), "unreadable\n".to_string()),
                24 => (String::new(), "cut\n".to_string()),
                356 => (ACCEPTED.to_string(), format!("{ACCEPTED}cut\n")),
                _ => ("cut\n".to_string(), "cut\n".to_string()),
            };
            assert_eq!(judged_on_b(front), at_end, "{length} bytes");
            let found = judged_where_a_read_fails(&NEW_CARD_B, front);
            assert_eq!(found, failing, "a read fails behind {length} bytes");
        }
    }
}

#[test]
fn unreadable_files() {
    let [capture, _] = recordings_of_b();
    let [longer, longer_old] = [&NEW_CARD_B[..], &OLD_CARD_B].map(|card| [card, &[0]].concat());
    let above = vec![0; 65_536];
    let cards = [
        None,
        Some(&[][..]),
        Some(&longer),
        Some(&longer_old),
        Some(&above),
    ];
    for card in cards {
        assert_eq!(judged(card, Some(&capture)), "unreadable\n");
        assert_eq!(judged(card, None), "unreadable\n");
    }
    assert_eq!(judged(Some(&NEW_CARD_B), None), "unreadable\n");
}

/// The capture with each byte of the file's header turned round: of the magic number and the link
/// type each counts, and no other.
#[test]
fn each_byte_of_the_header() {
    for capture in recordings_of_b() {
        for at in 0..24 {
            let mut changed = capture.clone();
            changed[at] ^= 0xff;
            let expected = match at {
                0..=3 | 20..=23 => "unreadable\n",
                _ => ACCEPTED,
            };
            assert_eq!(judged_on_b(&changed), expected, "byte {at}");
        }
    }
}

/// A frame on book B, its record big-endian, with these two lengths.
fn judged_frame(frame: &[u8], captured: u32, original: u32) -> String {
    let [_, capture] = recordings_of_b();
    let lengths = [captured, original].map(u32::to_be_bytes);
    judged_on_b(&[&capture[..32], &lengths.concat(), frame].concat())
}

#[test]
fn lengths_of_a_record() {
    let frame = frame_of_b();
    assert_eq!(judged_frame(&frame, 316, 316), ACCEPTED);
    for original in [0, 315, 317, 65_536 + 316, u32::MAX] {
        assert_eq!(judged_frame(&frame, 316, original), "1 skipped\n");
    }
    let mut largest = frame.clone();
    largest.resize(65_536, 0);
    assert_eq!(judged_frame(&largest[..65_535], 65_535, 65_535), ACCEPTED);
    for captured in [65_536, 65_536 + 316, u32::MAX] {
        assert_eq!(judged_frame(&largest, captured, captured), "cut\n");
    }
    assert_eq!(judged_frame(&[], 0, 0), "1 skipped\n");
}

/// What is said of book B's frame with some bytes changed from an offset on.
fn judged_changed(at: usize, bytes: &[u8]) -> String {
    let mut frame = frame_of_b();
    frame[at..at + bytes.len()].copy_from_slice(bytes);
    judged_frame(&frame, 316, 316)
}

#[test]
fn frames_that_are_skipped() {
    let changes: [(&str, usize, &[u8]); 22] = [
        ("a VLAN tag", 12, &[0x81, 0x00]),
        ("IPv6's type", 12, &[0x86, 0xdd]),
        ("the type turned round", 12, &[0x00, 0x08]),
        ("version 5", 14, &[0x55]),
        ("version 0", 14, &[0x05]),
        ("a header of 16 bytes", 14, &[0x44]),
        ("a header of 0 bytes", 14, &[0x40]),
        ("a header above the total length", 14, &[0x4f, 0, 0, 59]),
        ("a total length above what was captured", 16, &[0x01, 0x2f]),
        ("a total length below UDP's", 16, &[0x01, 0x2d]),
        ("a total length of an empty packet", 16, &[0, 20]),
        ("a total length of 7 bytes of UDP", 16, &[0, 27]),
        ("More Fragments", 20, &[0x20, 0x00]),
        ("fragment offset 1", 20, &[0x00, 0x01]),
        ("fragment offset 4096", 20, &[0x10, 0x00]),
        ("protocol 16", 23, &[16]),
        ("protocol 6", 23, &[6]),
        ("ports 66 and 69", 34, &[0, 66, 0, 69]),
        ("ports turned round", 34, &[67, 0, 68, 0]),
        ("ports 323 and 324", 34, &[1, 67, 1, 68]),
        ("UDP length 7", 38, &[0, 7]),
        ("UDP length 283", 38, &[0x01, 0x1b]),
    ];
    for (name, at, bytes) in changes {
        assert_eq!(judged_changed(at, bytes), "1 skipped\n", "{name}");
    }
}

#[test]
fn frames_that_are_judged() {
    let changes: [(&str, usize, &[u8]); 8] = [
        ("other Ethernet addresses", 0, &[9; 12]),
        ("no flag", 20, &[0x00]),
        ("the reserved flag and Don't Fragment", 20, &[0xc0]),
        ("another IP checksum", 24, &[0, 0]),
        ("ports 67 and 9", 34, &[0, 67, 0, 9]),
        ("ports 68 and 9", 34, &[0, 68, 0, 9]),
        ("ports 9 and 67", 34, &[0, 9, 0, 67]),
        ("ports 9 and 68", 34, &[0, 9, 0, 68]),
    ];
    for (name, at, bytes) in changes {
        assert_eq!(judged_changed(at, bytes), ACCEPTED, "{name}");
    }
    assert_eq!(judged_changed(38, &[0, 8]), "1 refused 2\n");
    assert_eq!(judged_changed(38, &[0x01, 0x19]), "1 refused 4\n");
}

/// 40 bytes of IP options, 3 bytes between UDP's end and the packet's, and 2 of padding.
#[test]
fn options_and_padding() {
    let mut frame = frame_of_b();
    frame[14] = 0x4f;
    frame[16..18].copy_from_slice(&[0x01, 0x2e + 40 + 3]);
    frame.splice(34..34, [1; 40]);
    frame.extend([9; 5]);
    assert_eq!(judged_frame(&frame, 361, 361), ACCEPTED);
    for cut in 359..361 {
        assert_eq!(judged_frame(&frame[..cut], 361, 361), "cut\n");
        assert_eq!(
            judged_frame(&frame[..cut], cut as u32, cut as u32),
            ACCEPTED
        );
    }
    assert_eq!(judged_frame(&frame[..358], 358, 358), "1 skipped\n");
}
