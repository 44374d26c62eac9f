//! The program `judge` on files in a folder of its own: every answer that files can bring about,
//! files that are missing, empty, at the limit and above it, a folder in place of a file (its read
//! fails), a read that fails behind one that passed, files that come in pieces, that the message is
//! not opened before the card is judged, and that judge leaves all of them as they were.

use compare::generate::{books, cards, messages};
use compare::harness::{for_each_case, same, Tally};
use compare::met;
use compare::outside::{judge, repository_file, run_within, Folder};
use compare::programs::{judged_by, judged_in_pieces, pipe, put, At, Disk, CARD};
use compare::random::Random;
use reference::card::{card_of_rows, Form, Row};
use reference::check;
use reference::examples::{
    accepted_by_b, accepted_by_b_with_82, message_with, refused_by_b, CARDS_B, CARD_B_NOT_HEARD,
    CARD_EMPTY, NEW_CARD_B, OLD_CARD_B,
};
use reference::program::{book_of_card, in_words};
use reference::refusal::number_of;
use std::fs;
use std::process::Command;
use std::time::Duration;

const MESSAGE: &str = "message.bin";

/// The line that judge writes on these two.
fn judged(card: At, message: At) -> String {
    let folder = Folder::new();
    put(&folder, CARD, card);
    put(&folder, MESSAGE, message);
    judged_in(&folder)
}

/// Runs judge in a folder, which it must leave as it was, and gives what it wrote.
fn judged_in(folder: &Folder) -> String {
    judged_by(&mut Command::new(judge()), folder)
}

fn judged_files(card: &[u8], message: &[u8]) -> String {
    judged(At::File(card), At::File(message))
}

/// Bench example 9, put right, on either of book B's cards and on the one from before anything was
/// accepted. Judged again it is accepted again, since the card is not written back.
#[test]
fn accepted() {
    for card in [&OLD_CARD_B[..], &NEW_CARD_B, &CARD_B_NOT_HEARD] {
        let folder = Folder::new();
        folder.write(CARD, card);
        folder.write(MESSAGE, &accepted_by_b());
        assert_eq!(judged_in(&folder), "accepted row 0 counter 11\n");
        assert_eq!(judged_in(&folder), "accepted row 0 counter 11\n");
    }
}

/// The message and the card that the toolchain's own run judges get the same line from the second
/// implementation.
#[test]
fn the_example_of_the_program() {
    let data = |name: &str| fs::read(repository_file(&format!("crates/judge/{name}")));
    let [card, message, expected] = ["data/book.card", "data/message.bin", "stdout"]
        .map(|name| data(name).expect("the program's own example can be read"));
    let (_, line) = expected_line(&card, &message);
    assert_eq!(line.as_bytes(), expected);
    assert_eq!(judged_files(&card, &message), line);
}

/// Where the row is not heard, each counter is accepted that has the right MAC.
#[test]
fn a_row_not_heard() {
    for counter in [0, 1, 10, u64::MAX] {
        let mut message = messages::signed(&[1, 2, 3, 4], 7, counter);
        let line = format!("accepted row 0 counter {counter}\n");
        assert_eq!(judged_files(&CARD_B_NOT_HEARD, &message), line);
        message[240 + 32] ^= 1;
        let line = judged_files(&CARD_B_NOT_HEARD, &message);
        assert_eq!(line, "refused 12\n");
    }
}

/// Where the row is heard, counter 0 is refused, though the received counter is 0. On an old card
/// every row is heard.
#[test]
fn a_heard_row_with_counter_0() {
    let rows = [Row::heard(7, &[1, 2, 3, 4], 0)];
    for form in Form::BOTH {
        let card = card_of_rows(form, &rows);
        let judged = |counter| judged_files(&card, &messages::signed(&[1, 2, 3, 4], 7, counter));
        assert_eq!(judged(0), "refused 11\n");
        assert_eq!(judged(1), "accepted row 0 counter 1\n");
    }
}

/// Bench example 6 with the right MAC, and its option 82 at other places.
#[test]
fn accepted_with_option_82() {
    for message in accepted_by_b_with_82() {
        let line = judged_files(&NEW_CARD_B, &message);
        assert_eq!(line, "accepted row 0 counter 11\n");
    }
}

/// Refusals 2, 3, 4, 5, 8, 9, 10, 11 and 12: bench examples 3 to 9, on either of book B's cards.
#[test]
fn refused_bench_examples() {
    for example in refused_by_b() {
        for card in CARDS_B {
            let line = judged_files(card, &example.message);
            let expected = format!("refused {}\n", example.number);
            assert_eq!(line, expected, "{}", example.name);
        }
    }
}

/// Refusal 6, and the rest of a message that has no fault but that.
#[test]
fn refused_6() {
    let message = accepted_by_b();
    let option_90 = &message[240..273];
    let twice = message_with(&[option_90, option_90, &[255]].concat());
    assert_eq!(judged_files(&NEW_CARD_B, &twice), "refused 6\n");
}

/// Refusal 7, of messages that have no fault but a second option 82.
#[test]
fn refused_7() {
    for mut message in accepted_by_b_with_82() {
        message.splice(240..240, [82, 0]);
        assert_eq!(judged_files(&NEW_CARD_B, &message), "refused 7\n");
    }
}

/// The largest card in either form, of which all rows are heard.
#[test]
fn rows_and_counters_are_written_in_full() {
    let mut rows: Vec<Row> = (0..256).map(|id| Row::heard(id, &[9; 64], 0)).collect();
    rows[255].received = u64::MAX - 1;
    for (form, size) in [(Form::Old, 22_534), (Form::New, 22_790)] {
        let card = card_of_rows(form, &rows);
        assert_eq!(card.len(), size);
        judged_in_full(&card);
        let zero = messages::signed(&[9; 64], 5, 0);
        assert_eq!(judged_files(&card, &zero), "refused 11\n");
    }
}

/// The largest card with rows that are not heard.
#[test]
fn the_largest_card_not_heard() {
    let rows: Vec<Row> = (0..256).map(|id| Row::new(id, &[9; 64])).collect();
    let card = card_of_rows(Form::New, &rows);
    assert_eq!(card.len(), 22_790);
    judged_in_full(&card);
    let zero = messages::signed(&[9; 64], 5, 0);
    assert_eq!(judged_files(&card, &zero), "accepted row 5 counter 0\n");
}

/// Messages that a card of 256 rows accepts, with the longest line among them.
fn judged_in_full(card: &[u8]) {
    let last = messages::signed(&[9; 64], 255, u64::MAX);
    let line = "accepted row 255 counter 18446744073709551615\n";
    assert_eq!(judged_files(card, &last), line);
    let first = messages::signed(&[9; 64], 0, 1);
    assert_eq!(judged_files(card, &first), "accepted row 0 counter 1\n");
    let tenth = messages::signed(&[9; 64], 10, 1_000_000);
    let line = "accepted row 10 counter 1000000\n";
    assert_eq!(judged_files(card, &tenth), line);
}

#[test]
fn a_card_without_rows() {
    let message = accepted_by_b();
    assert_eq!(judged_files(&CARD_EMPTY, &message), "refused 10\n");
}

/// A card that reading refuses is refused with 15, whatever stands in place of the message.
#[test]
fn the_card_is_judged_first() {
    let longer = [&NEW_CARD_B[..], &[0]].concat();
    let above = vec![0; 65_536];
    let messages = [
        At::Nothing,
        At::Folder,
        At::File(&[]),
        At::File(&above),
        At::File(&accepted_by_b()),
    ];
    for message in messages {
        assert_eq!(judged(At::File(&longer), message), "refused 15\n");
    }
    let with_257_rows = Form::BOTH.map(cards::of_257_rows);
    for card in with_257_rows.into_iter().chain(cards::wrongly_marked()) {
        assert_eq!(judged_files(&card, &accepted_by_b()), "refused 15\n");
    }
}

/// The message is not even opened before the card is judged: in its place stands a pipe without a
/// writer, whose opening would never end.
#[test]
fn the_message_is_opened_behind_the_card() {
    let longer = [&NEW_CARD_B[..], &[0]].concat();
    let above = vec![0; 65_536];
    let cards = [
        (At::File(&longer), "refused 15\n"),
        (At::File(&[]), "refused 15\n"),
        (At::Nothing, "unreadable\n"),
        (At::Folder, "unreadable\n"),
        (At::File(&above), "unreadable\n"),
    ];
    for (card, line) in cards {
        let folder = Folder::new();
        put(&folder, CARD, card);
        pipe(&folder, MESSAGE);
        let mut command = Command::new(judge());
        let limit = Duration::from_secs(10);
        assert_eq!(run_within(limit, command.current_dir(folder.path())), line);
    }
}

/// A read that fails makes a file unreadable, though the bytes read before are the whole of it and
/// would be judged.
#[test]
fn a_read_that_fails_behind_one_that_passed() {
    let disk = Disk::new();
    let judged_failing = |card: &[u8], message: &[u8], (name, behind): (&str, usize)| {
        let folder = Folder::new();
        folder.write(CARD, card);
        folder.write(MESSAGE, message);
        judged_by(&mut disk.failing(&judge(), name, behind), &folder)
    };
    let message = accepted_by_b();
    let line = judged_failing(&NEW_CARD_B, &message, ("another file", 0));
    assert_eq!(line, "accepted row 0 counter 11\n");
    for failing in [(CARD, NEW_CARD_B.len()), (MESSAGE, message.len())] {
        let line = judged_failing(&NEW_CARD_B, &message, failing);
        assert_eq!(line, "unreadable\n", "{failing:?}");
    }
    let refused = &NEW_CARD_B[1..];
    let line = judged_failing(refused, &message, (CARD, refused.len()));
    assert_eq!(line, "unreadable\n", "a card that is refused");
    let refused = &message[1..];
    let line = judged_failing(&NEW_CARD_B, refused, (MESSAGE, refused.len()));
    assert_eq!(line, "unreadable\n", "a message that is refused");
}

#[test]
fn unreadable_card() {
    let message = accepted_by_b();
    let above = vec![0; 65_536];
    for card in [At::Nothing, At::Folder, At::File(&above)] {
        assert_eq!(judged(card, At::File(&message)), "unreadable\n");
    }
    for message in [At::Nothing, At::Folder, At::File(&above)] {
        assert_eq!(judged(At::Folder, message), "unreadable\n");
    }
    assert_eq!(judged(At::Nothing, At::Nothing), "unreadable\n");
}

#[test]
fn unreadable_message() {
    let above = vec![0; 65_536];
    let far_above = vec![0; 200_000];
    let messages = [
        At::Nothing,
        At::Folder,
        At::File(&above),
        At::File(&far_above),
    ];
    for message in messages {
        assert_eq!(judged(At::File(&NEW_CARD_B), message), "unreadable\n");
    }
}

#[test]
fn empty_files_are_read() {
    assert_eq!(judged_files(&[], &accepted_by_b()), "refused 15\n");
    assert_eq!(judged_files(&NEW_CARD_B, &[]), "refused 2\n");
    assert_eq!(judged_files(&[], &[]), "refused 15\n");
}

#[test]
fn files_of_65535_bytes_are_read() {
    let largest = vec![0; 65_535];
    assert_eq!(judged_files(&largest, &accepted_by_b()), "refused 15\n");
    assert_eq!(judged_files(&NEW_CARD_B, &largest), "refused 2\n");
}

/// A read that gives fewer bytes than there is room for is followed by another, which goes on where
/// it stopped.
#[test]
fn a_message_in_pieces() {
    let message = accepted_by_b();
    let judged_pieces = |pieces: &[&[u8]]| {
        let folder = Folder::new();
        folder.write(CARD, &NEW_CARD_B);
        judged_in_pieces(&judge(), &folder, MESSAGE, pieces)
    };
    let line = judged_pieces(&[&message[..1], &message[1..200], &message[200..]]);
    assert_eq!(line, "accepted row 0 counter 11\n");
    let largest = vec![0; 65_535];
    let line = judged_pieces(&[&largest[..40_000], &largest[40_000..]]);
    assert_eq!(line, "refused 2\n");
    let above = vec![0; 65_536];
    let line = judged_pieces(&[&above[..40_000], &above[40_000..]]);
    assert_eq!(line, "unreadable\n");
}

#[test]
fn a_card_in_pieces() {
    let folder = Folder::new();
    folder.write(MESSAGE, &accepted_by_b());
    let line = judged_in_pieces(
        &judge(),
        &folder,
        CARD,
        &[&NEW_CARD_B[..3], &NEW_CARD_B[3..]],
    );
    assert_eq!(line, "accepted row 0 counter 11\n");
}

/// Random cards and messages get the line that the second implementation's answers make.
#[test]
fn as_the_second_implementation_judges() {
    let mut tally = Tally::new("judge");
    let mut by_card = Tally::new("judge, by card");
    for_each_case("judge", 1_000, |random| {
        let (card, message) = card_and_message(random);
        let (number, line) = expected_line(&card, &message);
        same("the line", &line, &judged_files(&card, &message))?;
        tally.count(number);
        by_card.count(met::by_reading(&card, number));
        Ok(())
    });
    tally.print();
    tally.require(&[0, 2, 3, 4, 5, 6, 7, 8, 9, 10, 11, 12, 15]);
    by_card.print();
    let kinds = ["old: 0", "new: 0", "not heard: 0", "old: 11", "new: 11"];
    by_card.require(&kinds.map(String::from));
}

/// A sound book's card, in either form, and a message for it; one card in ten is any card.
fn card_and_message(random: &mut Random) -> (Vec<u8>, Vec<u8>) {
    let book = books::sound_with_a_row(random);
    let card = match random.below(10) {
        0 => cards::any(random),
        _ => cards::of_book(random, &book),
    };
    (card, messages::any(random, &book))
}

/// The number and the line for two files that can be read.
fn expected_line(card: &[u8], message: &[u8]) -> (u8, String) {
    let answer = book_of_card(card).and_then(|mut book| check(&mut book, message));
    (number_of(&answer), format!("{}\n", in_words(&answer)))
}
