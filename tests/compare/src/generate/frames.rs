//! Frames: a message carried by UDP, IPv4 and Ethernet, right in every field or with one or two of
//! them at a limit or beside it, and bytes that carry nothing.

use crate::random::Random;
use reference::capture::{
    ETHERNET_HEADER, FRAME_MOST, IP_HEADER_LEAST, PORTS, PROTOCOL_UDP, TYPE_IPV4, UDP_HEADER,
};

/// The flags of an IP header, in the two bytes that they share with the fragment offset.
pub const RESERVED: u16 = 0x8000;
pub const DONT_FRAGMENT: u16 = 0x4000;
pub const MORE_FRAGMENTS: u16 = 0x2000;

/// The type of a frame with a VLAN tag.
pub const TYPE_VLAN: u16 = 0x8100;

/// The most bytes that a frame carries in UDP.
pub const PAYLOAD_MOST: usize = FRAME_MOST - ETHERNET_HEADER - IP_HEADER_LEAST - UDP_HEADER;

/// A frame in parts, to be changed before its bytes are put together.
#[derive(Clone)]
pub struct Draft {
    /// What no rule looks at: Ethernet's addresses (12 bytes), IP's type of service (1),
    /// identification (2), time to live (1), checksum (2) and addresses (8), UDP's checksum (2).
    pub free: [u8; 28],
    pub ethernet_type: u16,
    pub version: u8,
    /// The header's length, counted in four bytes.
    pub header_words: u8,
    pub total: u16,
    pub flags_and_offset: u16,
    pub protocol: u8,
    pub options: Vec<u8>,
    pub ports: [u16; 2],
    pub udp_length: u16,
    pub payload: Vec<u8>,
    /// What stands behind the payload: the rest of the packet, and padding.
    pub behind: Vec<u8>,
}

impl Draft {
    /// A frame that carries a payload, right in every field and with nothing more than it needs.
    pub fn around(payload: &[u8]) -> Self {
        let mut draft = Draft {
            free: [0; 28],
            ethernet_type: TYPE_IPV4,
            version: 4,
            header_words: 0,
            total: 0,
            flags_and_offset: 0,
            protocol: PROTOCOL_UDP,
            options: vec![],
            ports: [68, 67],
            udp_length: 0,
            payload: payload.to_vec(),
            behind: vec![],
        };
        draft.set_lengths(0);
        draft
    }

    /// Makes the lengths right, with some of what stands behind the payload in the packet.
    pub fn set_lengths(&mut self, rest: usize) {
        let udp_length = UDP_HEADER + self.payload.len();
        self.udp_length = udp_length as u16;
        self.header_words = (self.header_length() / 4) as u8;
        self.total = (self.header_length() + udp_length + rest) as u16;
    }

    /// The bytes of the IP header as it is written, whatever length it names.
    pub fn header_length(&self) -> usize {
        IP_HEADER_LEAST + self.options.len()
    }

    /// The bytes behind the Ethernet header.
    pub fn carried(&self) -> usize {
        self.header_length() + UDP_HEADER + self.payload.len() + self.behind.len()
    }

    /// The frame.
    pub fn bytes(&self) -> Vec<u8> {
        [
            &self.free[..12],
            &self.ethernet_type.to_be_bytes(),
            &[self.version << 4 | self.header_words, self.free[12]],
            &self.total.to_be_bytes(),
            &self.free[13..15],
            &self.flags_and_offset.to_be_bytes(),
            &[self.free[15], self.protocol],
            &self.free[16..26],
            &self.options,
            &self.ports[0].to_be_bytes(),
            &self.ports[1].to_be_bytes(),
            &self.udp_length.to_be_bytes(),
            &self.free[26..],
            &self.payload,
            &self.behind,
        ]
        .concat()
    }
}

/// Any frame for a message: most carry it, some carry something else or nothing.
pub fn any(random: &mut Random, message: &[u8]) -> Vec<u8> {
    match random.below(400) {
        0..=19 => random_bytes(random),
        20..=21 => largest(random, message),
        22 => {
            let any = random.within(0..=PAYLOAD_MOST);
            let length = random.pick(&[any, PAYLOAD_MOST]);
            Draft::around(&random.bytes(length)).bytes()
        }
        23..=122 => {
            let change = random.pick(&Change::ALL);
            changed(random, message, &[change])
        }
        123..=142 => {
            let changes = [random.pick(&Change::ALL), random.pick(&Change::ALL)];
            changed(random, message, &changes)
        }
        _ => well_formed(random, message).bytes(),
    }
}

/// Bytes of any length, most of them few, some with the type of IPv4.
fn random_bytes(random: &mut Random) -> Vec<u8> {
    let length = match random.below(40) {
        0 => random.within(0..=FRAME_MOST),
        1..=10 => 0,
        _ => random.within(0..=100),
    };
    let mut frame = random.bytes(length);
    if length >= ETHERNET_HEADER && random.one_in(2) {
        frame[12..14].copy_from_slice(&TYPE_IPV4.to_be_bytes());
    }
    frame
}

/// A frame that carries the message, with so much padding that it has 65,535 bytes.
pub fn largest(random: &mut Random, message: &[u8]) -> Vec<u8> {
    let mut frame = well_formed(random, message).bytes();
    let left = FRAME_MOST - frame.len();
    frame.extend(random.bytes(left));
    frame
}

/// A frame that carries the message: with any IP options, with bytes behind it in the packet and
/// behind the packet, and with either flag that is not looked at.
pub fn well_formed(random: &mut Random, message: &[u8]) -> Draft {
    let mut draft = Draft::around(message);
    let free = random.bytes(draft.free.len());
    draft.free.copy_from_slice(&free);
    if random.one_in(3) {
        let words = random.within(0..=10);
        draft.options = random.bytes(4 * words);
    }
    if random.one_in(3) {
        let length = random.within(0..=60);
        draft.behind = random.bytes(length);
    }
    let any = random.within(0..=draft.behind.len());
    draft.set_lengths(random.pick(&[0, any]));
    draft.flags_and_offset = random.pick(&[0, DONT_FRAGMENT, RESERVED, RESERVED | DONT_FRAGMENT]);
    draft.ports = ports(random);
    draft
}

/// Two ports, at least one of which is a port of DHCP.
fn ports(random: &mut Random) -> [u16; 2] {
    let port = random.pick(&PORTS);
    match random.below(4) {
        0 => [port, random.u32() as u16],
        1 => [random.u32() as u16, port],
        _ => [port, random.pick(&PORTS)],
    }
}

/// One field of a frame at a limit or beside it. Some of these values are right ones.
#[derive(Clone, Copy, Debug, PartialEq, Eq)]
enum Change {
    EthernetType,
    VlanTag,
    Version,
    HeaderLength,
    HeadersAlone,
    Total,
    Fragments,
    Protocol,
    UdpLength,
    Ports,
    Cut,
}

impl Change {
    const ALL: [Change; 11] = [
        Change::EthernetType,
        Change::VlanTag,
        Change::Version,
        Change::HeaderLength,
        Change::HeadersAlone,
        Change::Total,
        Change::Fragments,
        Change::Protocol,
        Change::UdpLength,
        Change::Ports,
        Change::Cut,
    ];
}

/// A frame for the message with these changes: to its fields, then to its bytes.
fn changed(random: &mut Random, message: &[u8], changes: &[Change]) -> Vec<u8> {
    let mut draft = well_formed(random, message);
    for change in changes {
        change_field(random, &mut draft, *change);
        change_length(random, &mut draft, *change);
    }
    let mut frame = draft.bytes();
    for change in changes {
        change_bytes(random, &mut frame, *change);
    }
    frame
}

fn change_field(random: &mut Random, draft: &mut Draft, change: Change) {
    match change {
        Change::EthernetType => {
            let bit = TYPE_IPV4 ^ (1 << random.below(16));
            let others = [bit, 0x0008, 0x0806, 0x86dd, TYPE_VLAN, TYPE_IPV4];
            draft.ethernet_type = random.pick(&others);
        }
        Change::Version => draft.version = random.below(16) as u8,
        Change::Fragments => {
            let (any, bit) = (random.u32() as u16, 1 << random.below(16));
            let edges = [MORE_FRAGMENTS, 0x1fff, 1, 0, bit, any];
            draft.flags_and_offset ^= random.pick(&edges);
        }
        Change::Protocol => {
            let any = random.u8();
            draft.protocol = random.pick(&[0, 1, 6, 16, 17, 18, 255, any]);
        }
        Change::Ports => {
            let any = random.u32() as u16;
            let edges = [66, 67, 68, 69, 67 << 8, 68 << 8, 256 + 67, any];
            draft.ports = [random.pick(&edges), random.pick(&edges)];
        }
        _ => {}
    }
}

fn change_length(random: &mut Random, draft: &mut Draft, change: Change) {
    let (header, carried) = (draft.header_length(), draft.carried());
    let any = random.within(0..=carried);
    match change {
        Change::HeaderLength => draft.header_words = random.below(16) as u8,
        Change::HeadersAlone => {
            draft.total = random.pick(&[header - 1, header, header + 7, header + 8]) as u16;
            draft.udp_length = UDP_HEADER as u16;
        }
        Change::Total => {
            let needed = header + usize::from(draft.udp_length);
            let small = random.pick(&[0, header - 1, header, header + 7, header + 8]);
            let edges = [needed - 1, needed, carried, carried + 1, small, any, 65_535];
            draft.total = random.pick(&edges) as u16;
        }
        Change::UdpLength => {
            let left = usize::from(draft.total).saturating_sub(header);
            let less = left.saturating_sub(1);
            let small = random.pick(&[0, 7, 8, 9]);
            let edges = [less, left, left + 1, small, any, 65_535];
            draft.udp_length = random.pick(&edges) as u16;
        }
        _ => {}
    }
}

fn change_bytes(random: &mut Random, frame: &mut Vec<u8>, change: Change) {
    match change {
        Change::VlanTag if frame.len() >= 12 => {
            let [high, low] = TYPE_VLAN.to_be_bytes();
            let tag = [high, low, random.u8(), random.u8()];
            frame.splice(12..12, tag);
        }
        Change::Cut => {
            let near = frame.len().saturating_sub(random.within(0..=3));
            let headers = random.within(0..=ETHERNET_HEADER + IP_HEADER_LEAST + UDP_HEADER);
            let any = random.within(0..=frame.len());
            frame.truncate(random.pick(&[near, headers, any]));
        }
        _ => {}
    }
}

#[cfg(test)]
mod tests {
    use super::*;
    use reference::capture::payload;
    use std::collections::BTreeSet;

    /// A message, and well-formed frames that carry it.
    fn sample() -> (Vec<u8>, Vec<Draft>) {
        let mut random = Random::new(11);
        let message = random.bytes(300);
        let drafts = (0..2_000).map(|_| well_formed(&mut random, &message));
        (message.clone(), drafts.collect())
    }

    #[test]
    fn well_formed_frames_carry_the_message() {
        let (message, drafts) = sample();
        for draft in drafts {
            assert_eq!(payload(&draft.bytes()), Some(&message[..]));
        }
        let largest = largest(&mut Random::new(12), &message);
        assert_eq!(largest.len(), FRAME_MOST);
        assert_eq!(payload(&largest), Some(&message[..]));
    }

    /// How many bytes of a frame's packet stand behind UDP's.
    fn rest(draft: &Draft) -> usize {
        usize::from(draft.total - draft.udp_length) - draft.header_length()
    }

    type Way = (&'static str, fn(&Draft) -> bool);

    #[test]
    fn well_formed_frames_come_up_in_each_way() {
        let (_, drafts) = sample();
        let words: BTreeSet<u8> = drafts.iter().map(|draft| draft.header_words).collect();
        assert!(words.into_iter().eq(5..=15));
        let ways: [Way; 9] = [
            ("no padding", |d| d.behind.is_empty()),
            ("padding", |d| rest(d) < d.behind.len()),
            ("a rest of the packet", |d| rest(d) > 0),
            ("Don't Fragment", |d| d.flags_and_offset == DONT_FRAGMENT),
            ("the reserved flag", |d| d.flags_and_offset == RESERVED),
            ("port 67 first", |d| d.ports[0] == 67 && d.ports[1] > 68),
            ("port 68 first", |d| d.ports[0] == 68 && d.ports[1] > 68),
            ("port 67 last", |d| d.ports[0] > 68 && d.ports[1] == 67),
            ("port 68 last", |d| d.ports[0] > 68 && d.ports[1] == 68),
        ];
        for (name, holds) in ways {
            let count = drafts.iter().filter(|draft| holds(draft)).count();
            assert!(count > 100, "{name} came up {count} times");
        }
    }

    /// Each change makes frames that are skipped and, but for the VLAN tag, ones that are judged.
    #[test]
    fn each_change_skips_and_spares() {
        let mut random = Random::new(13);
        let message = random.bytes(300);
        for change in Change::ALL {
            let judged = (0..1_000)
                .filter(|_| payload(&changed(&mut random, &message, &[change])).is_some())
                .count();
            let fits = match change {
                Change::VlanTag => judged == 0,
                _ => (10..=700).contains(&judged),
            };
            assert!(fits, "{change:?}: {judged} of 1,000 judged");
        }
    }

    /// Any two changes go together, and frames of every size come up.
    #[test]
    fn any_frames() {
        let mut random = Random::new(14);
        let message = random.bytes(300);
        for first in Change::ALL {
            for second in Change::ALL {
                changed(&mut random, &message, &[first, second]);
            }
        }
        let lengths: BTreeSet<usize> = (0..20_000)
            .map(|_| any(&mut random, &message).len())
            .collect();
        assert!((0..=100).all(|length| lengths.contains(&length)));
        assert!(lengths.range(2_000..FRAME_MOST).count() > 5);
        assert_eq!(lengths.last(), Some(&FRAME_MOST));
    }
}
