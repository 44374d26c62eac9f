//! The program `known` on a card in a folder of its own and with arguments: every row of cards of both
//! forms, ids that no row has, cards that are refused or can't be read, arguments that are no id, that
//! the card is not opened before the argument is judged, cards that come in pieces or break off, an
//! output that takes little or nothing, and that known leaves the card as it was.

use compare::generate::{books, cards};
use compare::harness::{for_each_case, same, Tally};
use compare::outside::{
    ended_within, known, output_within, repository_file, run_within, started, Folder,
};
use compare::programs::{
    by_shell, contents, ends_unread, full_disk, judged_by, pipe, put, run_on_pieces, stopped_by,
    unwritten, written_in_part, At, Disk, CARD, LIMIT,
};
use compare::random::Random;
use reference::card::{card_of_rows, rows_of_card, Form, Row};
use reference::examples::{CARDS_B, CARD_B_NOT_HEARD, CARD_EMPTY, NEW_CARD_B};
use reference::program::{id_of_argument, known_in_words};
use std::ffi::OsStr;
use std::fs;
use std::os::unix::ffi::OsStrExt;
use std::process::{Command, Stdio};

/// The command with these arguments.
fn with(mut command: Command, arguments: &[&[u8]]) -> Command {
    command.args(arguments.iter().map(|bytes| OsStr::from_bytes(bytes)));
    command
}

/// Runs known in a folder, which it must leave as it was, and gives what it wrote.
fn said_in(folder: &Folder, arguments: &[&[u8]]) -> String {
    judged_by(&mut with(Command::new(known()), arguments), folder)
}

/// What known writes where this stands in place of the card.
fn said(card: At, arguments: &[&[u8]]) -> String {
    let folder = Folder::new();
    put(&folder, CARD, card);
    said_in(&folder, arguments)
}

/// What known writes of a card and an id.
fn said_of(card: &[u8], id: u32) -> String {
    said(At::File(card), &[id.to_string().as_bytes()])
}

/// The line of the second implementation for a card that can be read.
fn expected(arguments: &[&[u8]], card: &[u8]) -> String {
    format!("{}\n", known_in_words(arguments, Some(card)))
}

/// A card of heard rows with these ids.
fn card_with(form: Form, ids: &[u32]) -> Vec<u8> {
    let rows: Vec<Row> = ids.iter().map(|id| Row::heard(*id, &[9; 64], 5)).collect();
    card_of_rows(form, &rows)
}

/// Book B's cards, and the one from before anything was accepted. Asked again it is the same, since
/// nothing is written back.
#[test]
fn the_cards_of_b() {
    for card in CARDS_B.into_iter().chain([&CARD_B_NOT_HEARD[..]]) {
        let folder = Folder::new();
        folder.write(CARD, card);
        for _ in 0..2 {
            assert_eq!(said_in(&folder, &[b"7"]), "known row 0\n");
            assert_eq!(said_in(&folder, &[b"8"]), "unknown\n");
        }
    }
}

/// The card and the argument of the toolchain's own run get the same line from the second
/// implementation.
#[test]
fn the_example_of_the_program() {
    let data = |name: &str| fs::read(repository_file(&format!("crates/known/{name}")));
    let [card, arguments, stdout] = ["data/book.card", "args", "stdout"]
        .map(|name| data(name).expect("the program's own example can be read"));
    let words = arguments.split(|byte| *byte == b'\n');
    let words: Vec<&[u8]> = words.filter(|word| !word.is_empty()).collect();
    let line = expected(&words, &card);
    assert_eq!(line.as_bytes(), stdout);
    assert_eq!(said(At::File(&card), &words), line);
}

/// Every row of cards of several sizes, in either form, and the ids beside: below all, between any
/// two, and above all.
#[test]
fn each_row_of_a_card() {
    for size in [1, 2, 3, 8, 100, 255, 256] {
        for form in Form::BOTH {
            let ids: Vec<u32> = (0..size).map(|k| 2 * k + 9).collect();
            let folder = Folder::new();
            folder.write(CARD, &card_with(form, &ids));
            let said = |id: u32| said_in(&folder, &[id.to_string().as_bytes()]);
            for (row, id) in ids.iter().enumerate() {
                assert_eq!(said(*id), format!("known row {row}\n"), "{id} of {size}");
                assert_eq!(said(id - 1), "unknown\n", "{} of {size}", id - 1);
            }
            for id in [0, ids[ids.len() - 1] + 1, u32::MAX] {
                assert_eq!(said(id), "unknown\n", "{id} of {size}");
            }
        }
    }
}

/// Ids at both ends of those that there are, and in the middle.
#[test]
fn ids_at_the_edges() {
    let ids = [0, 1, (1 << 31) - 1, 1 << 31, u32::MAX - 1, u32::MAX];
    for form in Form::BOTH {
        let card = card_with(form, &ids);
        for (row, id) in ids.iter().enumerate() {
            assert_eq!(said_of(&card, *id), format!("known row {row}\n"));
        }
        for id in [2, (1 << 31) - 2, (1 << 31) + 1, u32::MAX - 2] {
            assert_eq!(said_of(&card, id), "unknown\n");
        }
        let without = card_with(form, &ids[1..5]);
        for id in [0, u32::MAX] {
            assert_eq!(said_of(&without, id), "unknown\n");
        }
    }
}

/// Rows that are not heard are rows like the others.
#[test]
fn rows_not_heard() {
    let rows: Vec<Row> = (0..256).map(|id| Row::new(id, &[9])).collect();
    let card = card_of_rows(Form::New, &rows);
    for id in [0, 1, 127, 128, 254, 255] {
        assert_eq!(said_of(&card, id), format!("known row {id}\n"));
    }
    assert_eq!(said_of(&card, 256), "unknown\n");
}

#[test]
fn a_card_without_rows() {
    for id in [0, 7, u32::MAX] {
        assert_eq!(said_of(&CARD_EMPTY, id), "unknown\n");
    }
}

/// Cards that reading refuses, though a row before the fault may have the id.
fn refused_cards() -> Vec<Vec<u8>> {
    let mut refused = vec![
        vec![],
        NEW_CARD_B[1..].to_vec(),
        NEW_CARD_B[..NEW_CARD_B.len() - 1].to_vec(),
        [&NEW_CARD_B[..], &[0]].concat(),
        card_with(Form::Old, &[7, 7]),
        card_with(Form::New, &[8, 7]),
        vec![0; 65_535],
    ];
    refused.extend(Form::BOTH.map(cards::of_257_rows));
    refused.extend(cards::wrongly_marked());
    refused
}

#[test]
fn refused() {
    for card in refused_cards() {
        for id in [0, 7, 8] {
            assert_eq!(said_of(&card, id), "refused 15\n");
        }
    }
}

#[test]
fn unreadable_card() {
    let above = [&NEW_CARD_B[..], &[0; 65_536]].concat();
    let just_above = vec![0; 65_536];
    for card in [
        At::Nothing,
        At::LooseLink,
        At::Folder,
        At::File(&just_above),
        At::File(&above),
    ] {
        assert_eq!(said(card, &[b"7"]), "unreadable\n");
    }
}

#[test]
fn a_link_is_followed() {
    assert_eq!(said(At::Link(&NEW_CARD_B), &[b"7"]), "known row 0\n");
}

/// Zeros without end are above 65,535 bytes.
#[test]
fn a_card_without_end() {
    let folder = Folder::new();
    put(&folder, CARD, At::Endless);
    let mut command = with(Command::new(known()), &[b"7"]);
    let line = run_within(LIMIT, command.current_dir(folder.path()));
    assert_eq!(line, "unreadable\n");
}

/// Zeros and these digits behind them.
fn behind_zeros(zeros: usize, digits: &str) -> Vec<u8> {
    [vec![b'0'; zeros], digits.into()].concat()
}

/// Arguments that are an id, and the id.
fn ids_in_decimal() -> Vec<(Vec<u8>, u32)> {
    vec![
        (b"0".to_vec(), 0),
        (b"00".to_vec(), 0),
        (b"7".to_vec(), 7),
        (b"007".to_vec(), 7),
        (b"10".to_vec(), 10),
        (b"070".to_vec(), 70),
        (b"1234567890".to_vec(), 1_234_567_890),
        (b"2147483648".to_vec(), 1 << 31),
        (b"4294967295".to_vec(), u32::MAX),
        (b"04294967295".to_vec(), u32::MAX),
        (b"00000000000000000000000000007".to_vec(), 7),
        (behind_zeros(4_096, "7"), 7),
        (behind_zeros(65_534, "7"), 7),
        (behind_zeros(65_535, "7"), 7),
        (behind_zeros(65_536, ""), 0),
        (behind_zeros(65_526, "4294967295"), u32::MAX),
    ]
}

/// Each id in decimal is found in its row, however many zeros stand in front, up to 65,536 bytes in
/// all; on the card of the others it is unknown.
#[test]
fn arguments_that_are_an_id() {
    let mut ids: Vec<u32> = ids_in_decimal().iter().map(|(_, id)| *id).collect();
    ids.sort_unstable();
    ids.dedup();
    for (argument, id) in ids_in_decimal() {
        let (start, length) = (&argument[..argument.len().min(30)], argument.len());
        assert_eq!(id_of_argument(&argument), Some(id));
        let row = ids.binary_search(&id).expect("it is one of them");
        let line = said(At::File(&card_with(Form::New, &ids)), &[&argument]);
        let what = format!("{start:?} of {length} bytes");
        assert_eq!(line, format!("known row {row}\n"), "{what}");
        let mut others = ids.clone();
        others.remove(row);
        let line = said(At::File(&card_with(Form::Old, &others)), &[&argument]);
        assert_eq!(line, "unknown\n", "{what}");
    }
}

/// Arguments that are no id. Of those numbers that are too large, some would be 0 or 7 if they went
/// round.
fn no_ids() -> Vec<Vec<u8>> {
    let texts = [
        "", "-1", "-0", "-7", "+7", "+", "-", " 7", "7 ", " ", "\t7", "7\t", "7\n", "\n7", "\n",
        "7\r\n", "7x", "x7", "x", "0x7", "7.0", "7.", ".7", "7,0", "7e0", "1_0", "1 0", "7/", "7:",
        "/", ":", "٧", "７", "seven", "7٧", "--", "--7", "\"7\"", "'7'",
    ];
    let too_large = [
        "4294967296",
        "4294967297",
        "4294967303",
        "04294967296",
        "4294967300",
        "4300000000",
        "5000000000",
        "9999999999",
        "10000000000",
        "42949672950",
        "42949672960",
        "9223372036854775808",
        "18446744073709551615",
        "18446744073709551616",
        "18446744073709551623",
        "99999999999999999999",
        "340282366920938463463374607431768211456",
        "340282366920938463463374607431768211463",
    ];
    let mut arguments: Vec<Vec<u8>> = texts.into_iter().chain(too_large).map(Vec::from).collect();
    arguments.extend([
        b"\xff".to_vec(),
        b"7\xff".to_vec(),
        b"\xff7".to_vec(),
        b"\xb7".to_vec(),
        b"7\xc2".to_vec(),
        b"\x7f7".to_vec(),
        b"7\x01".to_vec(),
        behind_zeros(65_536, "7"),
        behind_zeros(65_537, ""),
        behind_zeros(65_526, "4294967296"),
        behind_zeros(100_000, "7"),
        behind_zeros(131_070, "7"),
        behind_zeros(20, "x"),
        behind_zeros(65_535, "x"),
        vec![b'7'; 20],
        vec![b'9'; 65_536],
        vec![b'9'; 65_537],
        vec![b'1'; 131_071],
    ]);
    arguments
}

/// Arguments that are no id, and those that are not one: none, and more than one, each of which would
/// be an id.
fn wrong_arguments() -> Vec<Vec<Vec<u8>>> {
    let words = |words: &[&str]| words.iter().map(|word| Vec::from(*word)).collect();
    let mut wrong: Vec<Vec<Vec<u8>>> = no_ids().into_iter().map(|word| vec![word]).collect();
    wrong.extend([
        vec![],
        words(&["7", "7"]),
        words(&["7", ""]),
        words(&["", "7"]),
        words(&["", ""]),
        words(&["7", "8"]),
        words(&["7", "x"]),
        words(&["--", "7"]),
        words(&["7", "7", "7"]),
        words(&["7"; 100]),
    ]);
    wrong
}

/// Arguments as they are lent to a command, and in words.
fn lent(arguments: &[Vec<u8>]) -> (Vec<&[u8]>, String) {
    let first = arguments.first().map_or(&[][..], |word| word);
    let start = String::from_utf8_lossy(&first[..first.len().min(40)]);
    let words = format!(
        "{} arguments, first {start:?} of {}",
        arguments.len(),
        first.len()
    );
    (arguments.iter().map(Vec::as_slice).collect(), words)
}

/// Wrong arguments are unreadable on a card that has every id that they might be taken for.
#[test]
fn wrong_arguments_are_unreadable() {
    let card = card_with(Form::New, &[0, 1, 4, 7, 8, 10, 70, 77, u32::MAX]);
    for arguments in wrong_arguments() {
        let (arguments, words) = lent(&arguments);
        assert_eq!(expected(&arguments, &card), "unreadable\n", "{words}");
        assert_eq!(said(At::File(&card), &arguments), "unreadable\n", "{words}");
    }
}

/// The argument is judged before the card: with a wrong one the line is the same whatever the card is.
#[test]
fn the_argument_is_judged_first() {
    let above = vec![0; 65_536];
    let refused = refused_cards();
    let few: [&[&[u8]]; 5] = [&[], &[b""], &[b"x"], &[b"4294967296"], &[b"7", b"7"]];
    let cards = [At::Nothing, At::LooseLink, At::Folder, At::File(&above)];
    for card in cards
        .into_iter()
        .chain(refused.iter().map(|card| At::File(card)))
    {
        for arguments in few {
            assert_eq!(said(card, arguments), "unreadable\n", "{arguments:?}");
        }
    }
}

/// The card is not even opened where the argument is wrong: in its place stands a pipe without a
/// writer, whose opening would never end.
#[test]
fn the_card_is_opened_behind_the_argument() {
    let folder = Folder::new();
    pipe(&folder, CARD);
    for arguments in wrong_arguments() {
        let (arguments, words) = lent(&arguments);
        let mut command = with(Command::new(known()), &arguments);
        let line = run_within(LIMIT, command.current_dir(folder.path()));
        assert_eq!(line, "unreadable\n", "{words}");
    }
}

/// A read that gives fewer bytes than there is room for is followed by another, which goes on where
/// it stopped; with a right argument the card is opened.
#[test]
fn a_card_in_pieces() {
    let said_of_pieces = |pieces: &[&[u8]]| {
        let mut command = with(Command::new(known()), &[b"7"]);
        run_on_pieces(&mut command, &Folder::new(), CARD, pieces)
    };
    let card = &NEW_CARD_B[..];
    assert_eq!(said_of_pieces(&[&card[..3], &card[3..]]), "known row 0\n");
    let bytes: Vec<&[u8]> = card.chunks(1).collect();
    assert_eq!(said_of_pieces(&bytes), "known row 0\n");
    assert_eq!(said_of_pieces(&bytes[..34]), "refused 15\n");
    assert_eq!(said_of_pieces(&[]), "refused 15\n");
    let largest = vec![0; 65_535];
    let pieces = [&largest[..40_000], &largest[40_000..]];
    assert_eq!(said_of_pieces(&pieces), "refused 15\n");
    let above = vec![0; 65_536];
    let pieces = [&above[..40_000], &above[40_000..]];
    assert_eq!(said_of_pieces(&pieces), "unreadable\n");
}

/// Reads of the card that give few bytes; one that gives none is the file's end.
#[test]
fn reads_that_give_few_bytes() {
    let disk = Disk::new();
    let ids: Vec<u32> = (0..256).collect();
    let folder = Folder::new();
    folder.write(CARD, &card_with(Form::New, &ids));
    let slow = |piece: usize| {
        let command = disk.slow(&known(), CARD, piece);
        judged_by(&mut with(command, &[b"255"]), &folder)
    };
    for piece in [1, 2, 3, 89, 1_000, 22_789, 22_790, 65_536] {
        assert_eq!(slow(piece), "known row 255\n", "{piece} bytes to a read");
    }
    assert_eq!(slow(0), "refused 15\n");
}

/// A read that fails makes the card unreadable, though the bytes read before are the whole of it.
#[test]
fn a_read_that_fails() {
    let disk = Disk::new();
    for card in [&NEW_CARD_B[..], &NEW_CARD_B[1..]] {
        let folder = Folder::new();
        folder.write(CARD, card);
        let failing = |name: &str, behind: usize| {
            let command = disk.failing(&known(), name, behind);
            judged_by(&mut with(command, &[b"7"]), &folder)
        };
        assert_eq!(failing("another file", 0), expected(&[b"7"], card));
        for behind in 0..=card.len() {
            assert_eq!(failing(CARD, behind), "unreadable\n", "behind {behind}");
        }
    }
}

/// A folder with book B's card, in which known is asked for the id 7.
fn folder_of_b() -> Folder {
    let folder = Folder::new();
    folder.write(CARD, &NEW_CARD_B);
    folder
}

/// Writes that take few bytes are followed by others, which go on where they stopped. One that takes
/// none is the last.
#[test]
fn writes_that_take_few_bytes() {
    let (disk, folder) = (Disk::new(), folder_of_b());
    let taking = |piece: usize| {
        let mut command = with(disk.taking(&known(), piece), &[b"7"]);
        command.current_dir(folder.path());
        command
    };
    let output = output_within(LIMIT, &mut taking(0));
    assert_eq!(written_in_part(&taking(0), output), "");
    for piece in 1..=13 {
        let text = run_within(LIMIT, &mut taking(piece));
        assert_eq!(text, "known row 0\n", "{piece} bytes to a write");
    }
}

/// A disk that fills behind some bytes has taken the front of the line, and the program says so and
/// ends.
#[test]
fn a_disk_that_fills() {
    let (disk, folder) = (Disk::new(), folder_of_b());
    let line = "known row 0\n";
    let filling = |behind: usize| with(disk.filling(&known(), behind), &[b"7"]);
    for behind in 0..line.len() {
        let text = stopped_by(&mut filling(behind), &folder);
        assert_eq!(text, line[..behind]);
    }
    assert_eq!(judged_by(&mut filling(line.len()), &folder), line);
}

/// Where its line can't be written the program ends: the reader is gone, with the signal that tells so
/// and without it, the disk is full, or there is no standard output.
#[test]
fn an_output_that_takes_nothing() {
    let asked = || with(Command::new(known()), &[b"7"]);
    let unread = |command| ends_unread(command, &Folder::new(), CARD, &NEW_CARD_B);
    assert_eq!(unread(asked()), unwritten());
    let ignoring = by_shell(&known(), "trap '' PIPE; exec \"$1\" 7");
    assert_eq!(unread(ignoring), unwritten());
    let folder = folder_of_b();
    let before = contents(&folder);
    let mut on_full = asked();
    on_full.stdout(full_disk());
    for mut command in [on_full, by_shell(&known(), "exec \"$1\" 7 >&-")] {
        command.current_dir(folder.path()).stderr(Stdio::null());
        let mut child = started(&mut command);
        assert_eq!(ended_within(LIMIT, &command, &mut child), unwritten());
    }
    assert!(contents(&folder) == before, "known changed a file");
}

/// Random cards and arguments get the line that the second implementation gives.
#[test]
fn as_the_second_implementation_says() {
    let mut tally = Tally::new("known, lines");
    for_each_case("known, lines", 2_000, |random| {
        let card = any_card(random);
        let arguments = any_arguments(random, &card);
        let (arguments, words) = lent(&arguments);
        let line = expected(&arguments, &card);
        same(&words, &line, &said(At::File(&card), &arguments))?;
        let kind = line.trim_end().split(" row ").next().unwrap_or_default();
        tally.count(kind.to_string());
        Ok(())
    });
    tally.print();
    let kinds = ["known", "unknown", "refused 15", "unreadable"];
    tally.require_often(&kinds.map(String::from), 100);
}

/// A sound book's card, in either form; one card in five is any card.
fn any_card(random: &mut Random) -> Vec<u8> {
    let book = books::sound_with_a_row(random);
    match random.below(5) {
        0 => cards::any(random),
        _ => cards::of_book(random, &book),
    }
}

/// The arguments: mostly one id in decimal, often one of the card's or right beside one, now and then
/// with zeros in front or spoiled; or another number of arguments.
fn any_arguments(random: &mut Random, card: &[u8]) -> Vec<Vec<u8>> {
    let count = match random.below(20) {
        0 => random.pick(&[0, 2, 3]),
        _ => 1,
    };
    (0..count).map(|_| any_argument(random, card)).collect()
}

fn any_argument(random: &mut Random, card: &[u8]) -> Vec<u8> {
    let rows = rows_of_card(card).unwrap_or_default();
    let id = match rows.len() {
        0 => random.u32(),
        count => {
            let id = rows[random.below(count)].id;
            let any = random.u32();
            random.pick(&[id, id, id, id.wrapping_add(1), id.wrapping_sub(1), any])
        }
    };
    let mut text = match random.below(12) {
        0 => (u64::from(id) + (1 << 32)).to_string(),
        1 => (u128::from(id) + (1 << 64)).to_string(),
        _ => id.to_string(),
    }
    .into_bytes();
    if random.one_in(4) {
        let zeros = random.within(1..=30);
        text.splice(0..0, vec![b'0'; zeros]);
    }
    if random.one_in(8) {
        // Any byte but 0, which would end the argument.
        let byte = random.within(1..=255) as u8;
        let spoiling = random.pick(&[b' ', b'-', b'+', b'/', b':', b'\n', byte]);
        let at = random.within(0..=text.len());
        text.insert(at, spoiling);
    }
    text
}
