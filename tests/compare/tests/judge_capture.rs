//! The program `judge_capture` on files in a folder of its own, line by line beside the second
//! implementation: random captures, large ones, the largest frame at places about 65,536 bytes, files
//! that are missing, come in pieces or break off, an output that takes little or nothing, and that
//! the program leaves both files as they were.

use compare::generate::captures::{of_records, Record};
use compare::generate::frames::Draft;
use compare::generate::{books, captures, cards, frames, messages};
use compare::harness::{cases, for_each_case, on_bytes, Difference, Tally};
use compare::met;
use compare::outside::{
    ended_within, judge_capture, output_within, repository_file, run_within, started, Folder,
};
use compare::programs::{
    by_shell, contents, fed, full_disk, judged_by, judged_in_pieces, pipe, stopped_by, unwritten,
    written_in_part, At, Disk, CARD, LIMIT,
};
use compare::random::Random;
use compare::recordings::{
    agreed, both, both_by, endless_capture, folder_with, judged, kind, right_capture, right_frames,
    same_lines, ACCEPTED, CAPTURE,
};
use reference::capture::{judged_where_a_read_fails, Order, FRAME_MOST, MAGIC};
use reference::card::{card_of_rows, Form, Row};
use reference::examples::{
    frame_of_b, recordings_of_b, refused_by_b, CARDS_B, CARD_B_NOT_HEARD, CARD_EMPTY, NEW_CARD_B,
};
use std::fs;
use std::io::{ErrorKind, Read};
use std::process::{Command, Stdio};
use std::thread;

/// Book B's recording, on either of its cards and on the one from before anything was accepted.
/// Judged again it is accepted again, since nothing is written back; recorded twice it is a replay.
#[test]
fn recordings_written_by_hand() {
    for capture in recordings_of_b() {
        for card in CARDS_B.into_iter().chain([&CARD_B_NOT_HEARD[..]]) {
            let folder = folder_with(At::File(card), At::File(&capture));
            for _ in 0..2 {
                let text = judged_by(&mut Command::new(judge_capture()), &folder);
                assert_eq!(text, ACCEPTED);
            }
            let twice = [&capture[..], &capture[24..]].concat();
            let text = both(card, &twice).expect("both judge it alike");
            assert_eq!(text, format!("{ACCEPTED}2 refused 11\n"));
        }
    }
}

/// What is said of messages that book B's key signed with these counters, of which some have a wrong
/// MAC, on a card.
fn judged_counters(card: &[u8], counters: &[(u64, bool)]) -> Vec<String> {
    let record = |(counter, right): &(u64, bool)| {
        let mut message = messages::signed(&[1, 2, 3, 4], 7, *counter);
        message[240 + 32] ^= u8::from(!right);
        Record::of(Draft::around(&message).bytes())
    };
    let records: Vec<Record> = counters.iter().map(record).collect();
    let text = both(card, &of_records(Order::Little, &records)).expect("both judge it alike");
    let said = |line: &str| line.split_once(' ').map(|(_, said)| said.to_string());
    text.lines().filter_map(said).collect()
}

/// A row that is not heard takes the first counter that has a right MAC, 0 too; it is then heard for
/// the records behind. On an old card every row is heard.
#[test]
fn a_row_not_heard() {
    let counters = [(9, false), (0, true), (0, true), (0, false), (1, true)];
    let said = judged_counters(&CARD_B_NOT_HEARD, &counters);
    let first = "accepted row 0 counter 0";
    let second = "accepted row 0 counter 1";
    assert_eq!(
        said,
        ["refused 12", first, "refused 11", "refused 11", second]
    );

    let last = "accepted row 0 counter 18446744073709551615";
    let said = judged_counters(&CARD_B_NOT_HEARD, &[(u64::MAX, true), (0, true)]);
    assert_eq!(said, [last, "refused 11"]);

    let rows = [Row::heard(7, &[1, 2, 3, 4], 0)];
    for form in Form::BOTH {
        let said = judged_counters(&card_of_rows(form, &rows), &[(0, true), (1, true)]);
        assert_eq!(said, ["refused 11", second]);
    }
}

/// The recording that tcpdump made of a real exchange, which the toolchain's own run judges too, gets
/// the same lines from the second implementation.
#[test]
fn recording_of_an_exchange() {
    let data = |name: &str| fs::read(repository_file(&format!("crates/judge_capture/{name}")));
    let [card, capture, expected] = ["data/book.card", "data/church.pcap", "stdout"]
        .map(|name| data(name).expect("the program's own example can be read"));
    let text = both(&card, &capture).expect("both judge it alike");
    assert_eq!(text.as_bytes(), expected);
}

/// Refusals 2, 3, 4, 5, 8, 9, 10, 11 and 12, bench examples 3 to 9, in one file.
#[test]
fn refused_bench_examples() {
    let examples = refused_by_b();
    let record = |message: &Vec<u8>| Record::of(Draft::around(message).bytes());
    let records: Vec<Record> = examples.iter().map(|e| record(&e.message)).collect();
    let lines = (1..).zip(&examples);
    let expected: String = lines
        .map(|(k, example)| format!("{k} refused {}\n", example.number))
        .collect();
    for order in Order::BOTH {
        assert_eq!(agreed(&of_records(order, &records)), expected);
    }
}

/// Random captures get the lines that the second implementation gives, and each kind of line and
/// both orders of bytes come up often.
#[test]
fn as_the_second_implementation_judges() {
    let captures = (cases() / 25).max(3_000);
    let mut tally = Tally::new("judge_capture, lines");
    let mut orders = Tally::new("judge_capture, orders");
    let mut kinds = Tally::new("judge_capture, cards");
    for_each_case("judge_capture", captures, |random| {
        let (card, capture) = card_and_capture(random);
        let text = on_bytes(both(&card, &capture), "capture", &capture);
        for line in on_bytes(text, "card", &card)?.lines() {
            tally.count(kind(line));
        }
        orders.count(order_of(&capture));
        kinds.count(met::kind_of_card(&card).to_string());
        Ok(())
    });
    kinds.print();
    kinds.require_often(
        &["old", "new", "not heard"].map(String::from),
        captures / 20,
    );
    kinds.require(&["no rows", "no card"].map(String::from));
    orders.print();
    orders.require_often(&Order::BOTH.map(|order| format!("{order:?}")), captures / 3);
    tally.print();
    tally.require_often(&["accepted", "skipped"].map(String::from), captures);
    tally.require_often(&["cut", "unreadable"].map(String::from), captures / 20);
    let refusals: Vec<String> = (2..=12).map(|number| format!("refused {number}")).collect();
    tally.require_often(&refusals, captures / 40);
}

/// The order of a capture's bytes, by its first word.
fn order_of(capture: &[u8]) -> String {
    let has_magic = |order: &Order| capture.starts_with(&order.bytes(MAGIC));
    let order = Order::BOTH.into_iter().find(has_magic);
    order.map_or("neither".to_string(), |order| format!("{order:?}"))
}

/// A sound book's card, in either form, and a capture for it; one card in twenty is any card.
fn card_and_capture(random: &mut Random) -> (Vec<u8>, Vec<u8>) {
    let book = books::sound_with_a_row(random);
    let card = match random.below(20) {
        0 => cards::any(random),
        _ => cards::of_book(random, &book),
    };
    (card, captures::any(random, &book))
}

/// A frame of 65,535 bytes between others. The one before it has each of these lengths, so that the
/// headers and the ends of both fall on either side of 65,536 bytes, and of twice as many.
#[test]
fn the_largest_frame_at_each_place() {
    let frames: Vec<Vec<u8>> = right_frames().take(4).map(|draft| draft.bytes()).collect();
    let with_length = |frame: &[u8], length: usize| {
        let mut frame = frame.to_vec();
        frame.resize(length, 9);
        Record::of(frame)
    };
    for length in (300..=340).chain(65_440..=65_535) {
        let records = [
            with_length(&frames[0], length),
            with_length(&frames[1], FRAME_MOST),
            with_length(&frames[2], FRAME_MOST),
            Record::of(frames[3].clone()),
        ];
        for order in Order::BOTH {
            let text = agreed(&of_records(order, &records));
            let accepted = text.lines().filter(|line| kind(line) == "accepted");
            let expected = if length < 316 { 3 } else { 4 };
            assert_eq!(accepted.count(), expected, "behind {length} bytes");
        }
    }
}

/// Random frames of a few lengths up to the largest, in captures of some hundred thousand bytes.
#[test]
fn large_frames() {
    for_each_case("large frames", 40, |random| {
        let records: Vec<Record> = right_frames()
            .take(12)
            .map(|draft| match random.below(3) {
                0 => draft.bytes(),
                1 => frames::largest(random, &draft.payload),
                _ => {
                    let mut frame = frames::largest(random, &draft.payload);
                    frame.truncate(random.within(400..=FRAME_MOST));
                    frame
                }
            })
            .map(Record::of)
            .collect();
        let order = random.pick(&Order::BOTH);
        both(&NEW_CARD_B, &of_records(order, &records)).map(|_| ())
    });
}

/// 20,000 records, with more lines than one write takes: ones that are accepted, with padding and
/// without, replays, skipped ones and ones with a wrong MAC.
#[test]
fn many_records() {
    let mut frames: Vec<Vec<u8>> = right_frames()
        .take(20_000)
        .map(|draft| draft.bytes())
        .collect();
    for k in 0..frames.len() {
        match k % 5 {
            0 => frames[k].extend([0; 40]),
            1 => frames[k] = frames[k - 1].clone(),
            2 => frames[k][12] = 9,
            3 => frames[k][300] ^= 1,
            _ => {}
        }
    }
    let records: Vec<Record> = frames.into_iter().map(Record::of).collect();
    for order in Order::BOTH {
        let text = agreed(&of_records(order, &records));
        assert!(text.len() > 4 * 65_536);
        let mut tally = Tally::new(&format!("judge_capture, many records, {order:?}"));
        text.lines().for_each(|line| tally.count(kind(line)));
        tally.print();
        let kinds = ["accepted", "refused 11", "refused 12", "skipped"];
        tally.require_often(&kinds.map(String::from), 4_000);
    }
}

#[test]
fn very_many_records_of_empty_frames() {
    let records = vec![Record::of(vec![]); 100_000];
    let text = agreed(&of_records(Order::Little, &records));
    assert!(text.ends_with("\n99999 skipped\n100000 skipped\n"));
}

/// Lines as long as there are, over more than 65,536 bytes, behind each number of short ones, so that
/// the lines end at other places each time.
#[test]
fn rows_and_counters_are_written_in_full() {
    let rows: Vec<Row> = (0..256).map(|id| Row::new(id, &[9; 64])).collect();
    let card = card_of_rows(Form::New, &rows);
    let counters = u64::MAX - 5..=u64::MAX;
    let frames = counters.flat_map(|counter| {
        let message = move |id| messages::signed(&[9; 64], id, counter);
        (0..256).map(move |id| Draft::around(&message(id)).bytes())
    });
    let long: Vec<Record> = frames.map(Record::of).collect();
    for short in 0..=60 {
        let mut records = vec![Record::of(vec![]); short];
        records.extend_from_slice(&long);
        let text = both(&card, &of_records(Order::Big, &records));
        let text = text.unwrap_or_else(|difference| panic!("{difference}"));
        assert!(text.len() > 65_536);
        let last = records.len();
        let end = format!("\n{last} accepted row 255 counter 18446744073709551615\n");
        assert!(text.ends_with(&end), "{short} short lines");
    }
}

#[test]
fn captures_without_a_record() {
    for order in Order::BOTH {
        assert_eq!(agreed(&of_records(order, &[])), "");
    }
}

#[test]
fn unreadable_card() {
    let [capture, _] = recordings_of_b();
    let longer = [&NEW_CARD_B[..], &[0]].concat();
    let rows_257 = Form::BOTH.map(cards::of_257_rows);
    let wrongly_marked = cards::wrongly_marked();
    let refused = rows_257.iter().chain(&wrongly_marked);
    let (largest, above) = (vec![0; 65_535], vec![0; 65_536]);
    let cards = [
        At::Nothing,
        At::LooseLink,
        At::Folder,
        At::File(&[]),
        At::File(&longer),
        At::Link(&longer),
        At::File(&largest),
        At::File(&above),
    ];
    let refused = refused.map(|card| At::File(card));
    for card in cards.into_iter().chain(refused) {
        for capture in [At::File(&capture), At::Nothing, At::Folder] {
            assert_eq!(judged(card, capture), "unreadable\n");
        }
    }
}

#[test]
fn unreadable_capture() {
    for capture in [At::Nothing, At::LooseLink, At::Folder, At::File(&[])] {
        assert_eq!(judged(At::File(&NEW_CARD_B), capture), "unreadable\n");
    }
}

#[test]
fn a_card_without_rows() {
    for capture in recordings_of_b() {
        let text = judged(At::File(&CARD_EMPTY), At::File(&capture));
        assert_eq!(text, "1 refused 10\n");
    }
}

#[test]
fn links_are_followed() {
    for capture in recordings_of_b() {
        let text = judged(At::Link(&NEW_CARD_B), At::Link(&capture));
        assert_eq!(text, ACCEPTED);
    }
}

/// What the program writes in a folder that can't be looked at whole before and after.
fn judged_within(folder: &Folder) -> String {
    let mut command = Command::new(judge_capture());
    run_within(LIMIT, command.current_dir(folder.path()))
}

/// Zeros without end are above 65,535 bytes as a card, and have another first word as a capture.
#[test]
fn files_without_end() {
    let [capture, _] = recordings_of_b();
    let endless_card = folder_with(At::Endless, At::File(&capture));
    assert_eq!(judged_within(&endless_card), "unreadable\n");
    let endless_capture = folder_with(At::File(&NEW_CARD_B), At::Endless);
    assert_eq!(judged_within(&endless_capture), "unreadable\n");
}

/// The capture is not even opened where the card is unreadable: in its place stands a pipe without a
/// writer, whose opening would never end.
#[test]
fn the_capture_is_opened_behind_the_card() {
    let longer = [&NEW_CARD_B[..], &[0]].concat();
    let above = vec![0; 65_536];
    let cards = [
        At::Nothing,
        At::Folder,
        At::File(&[]),
        At::File(&longer),
        At::File(&above),
    ];
    for card in cards {
        let folder = folder_with(card, At::Nothing);
        pipe(&folder, CAPTURE);
        assert_eq!(judged_within(&folder), "unreadable\n");
    }
}

/// Both on two files, where a read of the capture fails behind so many bytes.
fn both_failing(disk: &Disk, card: &[u8], capture: &[u8], behind: usize) -> Result<(), Difference> {
    let folder = folder_with(At::File(card), At::File(capture));
    let mut command = disk.failing(&judge_capture(), CAPTURE, behind);
    let expected = judged_where_a_read_fails(card, &capture[..behind]);
    same_lines(&expected, &judged_by(&mut command, &folder))
}

/// A read that fails behind each number of bytes of a capture, from none to all: the records that are
/// whole by then have their lines.
#[test]
fn a_read_of_the_capture_that_fails() {
    let disk = Disk::new();
    let fails_behind = |capture: &[u8], behind: usize| {
        let same = both_failing(&disk, &NEW_CARD_B, capture, behind);
        same.unwrap_or_else(|difference| panic!("behind {behind} bytes: {difference}"));
    };
    for order in Order::BOTH {
        let capture = right_capture(order, 2);
        (0..=capture.len()).for_each(|behind| fails_behind(&capture, behind));
    }
    let longer = right_capture(Order::Little, 500);
    for behind in [65_535, 65_536, 65_537, 131_072, longer.len()] {
        fails_behind(&longer, behind);
    }
}

/// A folder with book B's recording.
fn folder_of_b() -> Folder {
    let [capture, _] = recordings_of_b();
    folder_with(At::File(&NEW_CARD_B), At::File(&capture))
}

/// A read that fails makes the card unreadable, though the bytes read before are the whole of it.
#[test]
fn a_read_of_the_card_that_fails() {
    let disk = Disk::new();
    let folder = folder_of_b();
    let judged_failing = |name: &str, behind: usize| {
        judged_by(&mut disk.failing(&judge_capture(), name, behind), &folder)
    };
    assert_eq!(judged_failing("another file", 0), ACCEPTED);
    for behind in 0..=NEW_CARD_B.len() {
        assert_eq!(judged_failing(CARD, behind), "unreadable\n");
    }
}

/// Reads that give few bytes are followed by others, which go on where they stopped. One that gives
/// none is the file's end.
#[test]
fn reads_that_give_few_bytes() {
    let disk = Disk::new();
    let slow = |piece: usize| disk.slow(&judge_capture(), CAPTURE, piece);
    assert_eq!(judged_by(&mut slow(0), &folder_of_b()), "unreadable\n");
    let read_in = |capture: &[u8], piece: usize| {
        let text = both_by(&mut slow(piece), &NEW_CARD_B, capture);
        text.unwrap_or_else(|difference| panic!("{piece} bytes to a read: {difference}"));
    };
    let mut frame = frame_of_b();
    frame.resize(FRAME_MOST, 0);
    let largest = [Record::of(frame.clone()), Record::of(frame)];
    for order in Order::BOTH {
        let capture = right_capture(order, 5);
        (1..=60).for_each(|piece| read_in(&capture, piece));
        read_in(&capture[..capture.len() - 1], 1);
        let capture = of_records(order, &largest);
        for piece in [1, 2, 17, 1_000, 32_768, 65_535] {
            read_in(&capture, piece);
        }
    }
}

/// Random captures, read in pieces of a random size, or with a read that fails at a random place.
#[test]
fn random_captures_from_a_slow_or_broken_disk() {
    let disk = Disk::new();
    for_each_case("slow or broken", 400, |random| {
        let (card, capture) = card_and_capture(random);
        let piece = random.within(1..=2_000);
        both_by(
            &mut disk.slow(&judge_capture(), CAPTURE, piece),
            &card,
            &capture,
        )?;
        let behind = random.within(0..=capture.len());
        both_failing(&disk, &card, &capture, behind)
    });
}

/// The text on book B, with a pipe in place of the capture.
fn judged_from_pipe(pieces: &[&[u8]]) -> String {
    let folder = folder_with(At::File(&NEW_CARD_B), At::Nothing);
    judged_in_pieces(&judge_capture(), &folder, CAPTURE, pieces)
}

/// A capture that comes through a pipe: cut in both kinds of header and in a frame, a byte at a time,
/// ended inside a record, and in large pieces.
#[test]
fn a_capture_in_pieces() {
    for capture in recordings_of_b() {
        let cuts = [0, 3, 20, 24, 30, 40, 41, 200, 356];
        let pieces: Vec<&[u8]> = cuts.windows(2).map(|w| &capture[w[0]..w[1]]).collect();
        assert_eq!(judged_from_pipe(&pieces), ACCEPTED);
        assert_eq!(judged_from_pipe(&pieces[..7]), "cut\n");
        assert_eq!(judged_from_pipe(&pieces[..3]), "");
        assert_eq!(judged_from_pipe(&pieces[..2]), "unreadable\n");
        let bytes: Vec<&[u8]> = capture.chunks(1).collect();
        assert_eq!(judged_from_pipe(&bytes), ACCEPTED);
    }
    let mut random = Random::new(1);
    let frames = right_frames().take(3);
    let records: Vec<Record> = frames
        .map(|draft| Record::of(frames::largest(&mut random, &draft.payload)))
        .collect();
    let capture = of_records(Order::Big, &records);
    let pieces: Vec<&[u8]> = capture.chunks(40_000).collect();
    let expected = reference::capture::judged(Some(&NEW_CARD_B), Some(&capture));
    assert_eq!(judged_from_pipe(&pieces), expected);
}

#[test]
fn a_card_in_pieces() {
    let [capture, _] = recordings_of_b();
    let folder = folder_with(At::Nothing, At::File(&capture));
    let pieces = [&NEW_CARD_B[..3], &NEW_CARD_B[3..]];
    let text = judged_in_pieces(&judge_capture(), &folder, CARD, &pieces);
    assert_eq!(text, ACCEPTED);
}

/// Writes that take few bytes are followed by others, which go on where they stopped. One that takes
/// none is the last.
#[test]
fn writes_that_take_few_bytes() {
    let disk = Disk::new();
    let taking = |piece: usize| disk.taking(&judge_capture(), piece);
    let folder = folder_of_b();
    let output = output_within(LIMIT, taking(0).current_dir(folder.path()));
    assert_eq!(written_in_part(&taking(0), output), "");
    for (count, piece) in [(300, 1), (300, 7), (6_000, 4_096), (6_000, 65_535)] {
        let capture = right_capture(Order::Little, count);
        let text = both_by(&mut taking(piece), &NEW_CARD_B, &capture);
        text.unwrap_or_else(|difference| panic!("{piece} bytes to a write: {difference}"));
    }
}

/// A folder with right records, whose lines are more than two writes take and a pipe has room for,
/// and these lines.
fn many_right_records() -> (Folder, String) {
    let capture = right_capture(Order::Little, 6_000);
    let folder = folder_with(At::File(&NEW_CARD_B), At::File(&capture));
    let lines = reference::capture::judged(Some(&NEW_CARD_B), Some(&capture));
    (folder, lines)
}

/// A disk that fills behind some bytes has taken the front of the lines, and the program says so and
/// ends.
#[test]
fn a_disk_that_fills() {
    let disk = Disk::new();
    let (folder, lines) = many_right_records();
    let (first, all) = (ACCEPTED.len(), lines.len());
    let in_lines = [0, 1, first, first + 10, 65_535, 65_536, 65_537, 131_072];
    let filling = |behind: usize| disk.filling(&judge_capture(), behind);
    for behind in in_lines.into_iter().chain([all - 1]) {
        let text = stopped_by(&mut filling(behind), &folder);
        let same = same_lines(&lines[..behind], &text);
        same.unwrap_or_else(|difference| panic!("behind {behind} bytes: {difference}"));
    }
    assert!(judged_by(&mut filling(all), &folder) == lines);
}

/// Reads as many bytes as these, which they must be, and goes.
fn reads_alone(front: &str, output: impl Read) {
    let mut text = String::new();
    let read = output.take(front.len() as u64).read_to_string(&mut text);
    read.expect("a program writes text");
    same_lines(front, &text).unwrap_or_else(|difference| panic!("{difference}"));
}

/// Runs a program of whose lines only the front is read. It must end, as one whose lines can't be
/// written.
fn ends_in(folder: &Folder, command: &mut Command, front: &str) {
    let mut child = started(command.current_dir(folder.path()));
    let status = thread::scope(|scope| {
        if let Some(output) = child.stdout.take() {
            scope.spawn(|| reads_alone(front, output));
        }
        ended_within(LIMIT, command, &mut child)
    });
    assert_eq!(status, unwritten(), "{command:?}");
}

/// Runs a program on many records in a file, which it must leave as it was, and on records without
/// end. So many bytes of its lines are read and no more.
fn ends_unread(mut command: Command, output: Stdio, read: usize) {
    command.stdout(output).stderr(Stdio::null());
    let (folder, lines) = many_right_records();
    let before = contents(&folder);
    ends_in(&folder, &mut command, &lines[..read]);
    assert!(contents(&folder) == before, "{command:?} changed a file");

    let endless = folder_with(At::File(&NEW_CARD_B), At::Nothing);
    let failed = fed(pipe(&endless, CAPTURE), endless_capture(Order::Little));
    ends_in(&endless, &mut command, &lines[..read]);
    let broken = Ok(Some(ErrorKind::BrokenPipe));
    assert_eq!(failed.recv_timeout(LIMIT), broken, "{command:?}");
}

/// Where its lines can't be written the program ends, though its records don't: the reader is gone,
/// with the signal that tells so and without it, the disk is full or fills, or there is no standard
/// output.
#[test]
fn an_output_that_takes_nothing() {
    let (program, disk) = (judge_capture(), Disk::new());
    for read in [0, 1, 70_000] {
        ends_unread(Command::new(&program), Stdio::piped(), read);
        let ignoring = by_shell(&program, "trap '' PIPE; exec \"$1\"");
        ends_unread(ignoring, Stdio::piped(), read);
        ends_unread(disk.filling(&program, read), Stdio::piped(), read);
    }
    let full = full_disk().into();
    ends_unread(Command::new(&program), full, 0);
    let closed = by_shell(&program, "exec \"$1\" >&-");
    ends_unread(closed, Stdio::null(), 0);
}
