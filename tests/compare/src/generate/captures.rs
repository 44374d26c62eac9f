//! Captures: records around messages for a book, in both orders of bytes, and files with one thing
//! wrong.

use super::{frames, messages, relays};
use crate::random::Random;
use reference::capture::{Order, ETHERNET, FILE_HEADER, FRAME_MOST, MAGIC};
use reference::examples::recordings_of_b;
use reference::{check, Book};

/// The first word of a capture whose times are in nanoseconds, and of another format.
pub const MAGIC_NANOSECONDS: u32 = 0xa1b2_3c4d;
pub const MAGIC_PCAPNG: u32 = 0x0a0d_0d0a;

/// A file's header in parts.
pub struct Header {
    pub magic: u32,
    /// What no rule looks at: version, time zone, accuracy, and the most bytes of a frame.
    pub free: [u8; 16],
    pub link_type: u32,
}

impl Header {
    /// The header of the recording that was written by hand.
    pub fn right(order: Order) -> Self {
        let [little, big] = recordings_of_b();
        let recording = match order {
            Order::Little => little,
            Order::Big => big,
        };
        let mut free = [0; 16];
        free.copy_from_slice(&recording[4..20]);
        Header {
            magic: MAGIC,
            free,
            link_type: ETHERNET,
        }
    }

    pub fn bytes(&self, order: Order) -> Vec<u8> {
        let words = [self.magic, self.link_type].map(|word| order.bytes(word));
        [&words[0], &self.free[..], &words[1]].concat()
    }
}

/// A record in parts.
#[derive(Clone)]
pub struct Record {
    /// What no rule looks at.
    pub time: [u8; 8],
    pub captured: u32,
    pub original: u32,
    pub frame: Vec<u8>,
}

impl Record {
    /// The record of a frame that was captured whole.
    pub fn of(frame: Vec<u8>) -> Self {
        let length = frame.len() as u32;
        Record {
            time: [0; 8],
            captured: length,
            original: length,
            frame,
        }
    }

    pub fn bytes(&self, order: Order) -> Vec<u8> {
        let [captured, original] = [self.captured, self.original].map(|word| order.bytes(word));
        [&self.time[..], &captured, &original, &self.frame].concat()
    }
}

/// The capture of some records, right in every field of its header.
pub fn of_records(order: Order, records: &[Record]) -> Vec<u8> {
    file(order, &Header::right(order), records)
}

fn file(order: Order, header: &Header, records: &[Record]) -> Vec<u8> {
    let records = records.iter().flat_map(|record| record.bytes(order));
    header.bytes(order).into_iter().chain(records).collect()
}

/// Any capture for a sound book: most are whole, some damaged.
pub fn any(random: &mut Random, book: &Book) -> Vec<u8> {
    match random.below(3) {
        0 => {
            let damage = random.pick(&Damage::ALL);
            with_damages(random, book, &[damage])
        }
        _ => with_damages(random, book, &[]),
    }
}

/// Records for a book, mostly of a few frames, in the order in which it judges their messages.
fn records(random: &mut Random, book: &Book) -> Vec<Record> {
    let count = match random.below(100) {
        0..=1 => 0,
        2..=79 => random.within(1..=8),
        80..=97 => random.within(9..=40),
        _ => random.within(100..=300),
    };
    in_turn(random, book, count)
        .iter()
        .map(|message| record(random, message))
        .collect()
}

/// Messages for a book: mostly ones with counters that rise as the book takes them, some that were
/// there before, as they were or relayed, and any others.
fn in_turn(random: &mut Random, book: &Book, count: usize) -> Vec<Vec<u8>> {
    let mut book = book.clone();
    let mut seen: Vec<Vec<u8>> = Vec::new();
    for _ in 0..count {
        let message = match random.below(10) {
            0..=1 if !seen.is_empty() => {
                let again = random.below(seen.len());
                relays::maybe_changed(random, &seen[again])
            }
            0..=6 => messages::well_formed(random, &book),
            _ => messages::any(random, &book),
        };
        // Refused, it leaves the book as it was.
        let _ = check(&mut book, &message);
        seen.push(message);
    }
    seen
}

/// A record for a message. In one of twenty the frame had more bytes than were captured, or fewer.
fn record(random: &mut Random, message: &[u8]) -> Record {
    let mut record = Record::of(frames::any(random, message));
    let time = random.bytes(record.time.len());
    record.time.copy_from_slice(&time);
    if random.one_in(20) {
        record.original = other_length(random, record.original);
    }
    record
}

/// A length beside the given one, one that is like it in some of its bytes, or the least or the most
/// there is.
fn other_length(random: &mut Random, length: u32) -> u32 {
    match random.below(6) {
        0 => length.wrapping_add(1),
        1 => length.wrapping_sub(1),
        2 => length ^ (1 << random.below(32)),
        3 => length.swap_bytes(),
        4 => random.pick(&[0, u32::MAX]),
        _ => random.u32(),
    }
}

/// One thing that is wrong with a file, or may be.
#[derive(Clone, Copy, Debug, PartialEq, Eq)]
enum Damage {
    Magic,
    LinkType,
    ShortHeader,
    HeaderAlone,
    Cut,
    LastRecordCut,
    BytesBehind,
    CapturedLength,
    CapturedLengthAbove,
    AnyBytes,
}

impl Damage {
    const ALL: [Damage; 10] = [
        Damage::Magic,
        Damage::LinkType,
        Damage::ShortHeader,
        Damage::HeaderAlone,
        Damage::Cut,
        Damage::LastRecordCut,
        Damage::BytesBehind,
        Damage::CapturedLength,
        Damage::CapturedLengthAbove,
        Damage::AnyBytes,
    ];
}

/// A capture for the book with these things wrong: in its header's words, in a record's, or in its
/// bytes.
fn with_damages(random: &mut Random, book: &Book, damages: &[Damage]) -> Vec<u8> {
    let order = random.pick(&Order::BOTH);
    let mut header = Header::right(order);
    if random.one_in(2) {
        let free = random.bytes(header.free.len());
        header.free.copy_from_slice(&free);
    }
    let mut records = records(random, book);
    for damage in damages {
        spoil_header(random, &mut header, *damage);
        spoil_records(random, &mut records, *damage);
    }
    let mut bytes = file(order, &header, &records);
    let last = records.last().map_or(0, |record| record.bytes(order).len());
    for damage in damages {
        spoil_bytes(random, &mut bytes, last, *damage);
    }
    bytes
}

fn spoil_header(random: &mut Random, header: &mut Header, damage: Damage) {
    match damage {
        Damage::Magic => {
            let bit = MAGIC ^ (1 << random.below(32));
            let others = [MAGIC_NANOSECONDS, MAGIC_PCAPNG, MAGIC.rotate_left(16), bit];
            header.magic = random.pick(&others);
        }
        Damage::LinkType => {
            let bit = ETHERNET ^ (1 << random.below(32));
            let others = [0, 2, 101, 113, 0x0100_0000, 0x1000_0001, bit];
            header.link_type = random.pick(&others);
        }
        _ => {}
    }
}

fn spoil_records(random: &mut Random, records: &mut [Record], damage: Damage) {
    if records.is_empty() {
        return;
    }
    let any = random.below(records.len());
    let record = &mut records[any];
    match damage {
        Damage::CapturedLength => record.captured = other_length(random, record.captured),
        Damage::CapturedLengthAbove => {
            let above = FRAME_MOST as u32 + 1;
            let any = above + random.u32() % above;
            record.captured = random.pick(&[above, above | record.captured, any, u32::MAX]);
            record.original = record.captured;
        }
        _ => {}
    }
}

/// Spoils the bytes of a file whose last record has so many.
fn spoil_bytes(random: &mut Random, bytes: &mut Vec<u8>, last: usize, damage: Damage) {
    let length = bytes.len();
    match damage {
        Damage::ShortHeader => bytes.truncate(random.below(FILE_HEADER)),
        Damage::HeaderAlone => bytes.truncate(FILE_HEADER),
        Damage::Cut => bytes.truncate(random.within(0..=length)),
        Damage::LastRecordCut if last > 0 => bytes.truncate(length - random.within(1..=last)),
        Damage::BytesBehind => {
            let more = random.within(1..=40);
            bytes.extend(random.bytes(more));
        }
        Damage::AnyBytes => {
            for _ in 0..random.within(1..=6) {
                let at = random.below(length);
                let any = random.u8();
                bytes[at] = random.pick(&[0, 1, 255, any, bytes[at] ^ 1]);
            }
        }
        _ => {}
    }
}

#[cfg(test)]
mod tests {
    use super::*;
    use crate::generate::books;
    use reference::capture::judged;
    use reference::card::{card_of_rows, rows_of_book, Form};

    /// The texts for a number of captures with these things wrong.
    fn texts(damages: &[Damage], count: usize) -> Vec<String> {
        let mut random = Random::new(15);
        let mut text = || {
            let book = books::sound_with_a_row(&mut random);
            let capture = with_damages(&mut random, &book, damages);
            let card = card_of_rows(Form::New, &rows_of_book(&book));
            judged(Some(&card), Some(&capture))
        };
        (0..count).map(|_| text()).collect()
    }

    /// How many of the texts hold a line that ends so.
    fn count(texts: &[String], end: &str) -> usize {
        let holds = |text: &&String| text.lines().any(|line| line.ends_with(end));
        texts.iter().filter(holds).count()
    }

    #[test]
    fn whole_captures_are_whole() {
        let texts = texts(&[], 1_000);
        assert_eq!(count(&texts, "unreadable") + count(&texts, "cut"), 0);
        assert!(texts.iter().any(|text| text.is_empty()));
        assert!(texts.iter().any(|text| text.lines().count() > 99));
        assert!(count(&texts, "skipped") > 400);
        for end in ["refused 10", "refused 11", "refused 12"] {
            assert!(count(&texts, end) > 20, "{end}");
        }
        let rising = |text: &&String| text.matches("accepted").count() > 1;
        assert!(texts.iter().filter(rising).count() > 400);
    }

    /// Each damage makes the files it is for.
    #[test]
    fn damage_is_damage() {
        for damage in Damage::ALL {
            let texts = texts(&[damage], 200);
            let [unreadable, cut] = ["unreadable", "cut"].map(|end| count(&texts, end));
            let fits = match damage {
                Damage::Magic | Damage::LinkType | Damage::ShortHeader => unreadable == 200,
                Damage::HeaderAlone => texts.iter().all(|text| text.is_empty()),
                Damage::Cut => unreadable > 0 && cut > 150,
                Damage::AnyBytes => unreadable > 0 && cut > 0 && unreadable + cut < 150,
                // A file may have no record, and what is read in place of one may be records again.
                _ => unreadable == 0 && cut > 100,
            };
            assert!(fits, "{damage:?}: {unreadable} unreadable, {cut} cut");
        }
    }
}
