//! The program `compare_messages` on two files in a folder of its own: the lines beside the second
//! implementation, files that are refused, missing, empty, at the limit and above it, a folder or a
//! link in place of a file, files that come in pieces or break off, an output that takes little or
//! nothing, and that the program leaves both files as they were.

use compare::generate::pairs;
use compare::harness::{for_each_case, on_bytes, Tally};
use compare::met_comparison::{self as met, OF_A_MESSAGE};
use compare::outside::{
    compare_messages, ended_within, output_within, repository_file, run_within, started, Folder,
};
use compare::programs::{
    by_shell, contents, ends_unread, full_disk, judged_by, judged_in_pieces, put, stopped_by,
    unwritten, written_in_part, At, Disk, LIMIT,
};
use compare::recordings::same_lines;
use reference::comparison::lines;
use reference::comparison_examples::{
    compared_covered, compared_relay_only, handed_on, longest_known, recorded, LONGEST_KNOWN,
};
use reference::examples::message_with;
use reference::program::compared_in_words;
use std::fs;
use std::process::{Command, Stdio};

const FIRST: &str = "first.bin";
const SECOND: &str = "second.bin";

/// A folder with these two in it.
fn folder_with(first: At, second: At) -> Folder {
    let folder = Folder::new();
    put(&folder, FIRST, first);
    put(&folder, SECOND, second);
    folder
}

/// What the program writes on these two, which it must leave as they were.
fn said(first: At, second: At) -> String {
    let folder = folder_with(first, second);
    judged_by(&mut Command::new(compare_messages()), &folder)
}

fn said_of(first: &[u8], second: &[u8]) -> String {
    said(At::File(first), At::File(second))
}

/// The text of the second implementation for two files that can be read.
fn expected(first: &[u8], second: &[u8]) -> String {
    compared_in_words(Some(first), Some(second))
}

/// Pairs with lines written out by hand. Compared again they get the same lines.
#[test]
fn examples() {
    for example in compared_relay_only().into_iter().chain(compared_covered()) {
        let folder = folder_with(At::File(&example.first), At::File(&example.second));
        for _ in 0..2 {
            let text = judged_by(&mut Command::new(compare_messages()), &folder);
            assert_eq!(text, example.lines, "{}", example.name);
        }
    }
}

/// The files of the toolchain's own run get the same lines from the second implementation.
#[test]
fn the_example_of_the_program() {
    let data = |name: &str| fs::read(repository_file(&format!("crates/compare_messages/{name}")));
    let [first, second, stdout] = ["data/first.bin", "data/second.bin", "stdout"]
        .map(|name| data(name).expect("the program's own example can be read"));
    let text = expected(&first, &second);
    assert_eq!(text.as_bytes(), stdout);
    assert_eq!(said_of(&first, &second), text);
}

/// The longest lines known are written in full.
#[test]
fn the_longest_lines() {
    let [first, second] = longest_known();
    let text = said_of(&first, &second);
    assert_eq!(text.len(), LONGEST_KNOWN);
    assert_eq!(text, expected(&first, &second));
}

/// A message for each number, 0 for one that passes.
fn of_number(number: u8) -> Vec<u8> {
    match number {
        0 => recorded(),
        2 => vec![],
        3 => vec![0; 300],
        4 => message_with(&[90, 0]),
        5 => message_with(&[255]),
        6 => message_with(&[90, 0, 90, 0, 255]),
        _ => message_with(&[90, 0, 82, 0, 82, 0, 255]),
    }
}

/// Each number of the first file beside each of the second: the first's comes first.
#[test]
fn each_two_numbers() {
    for first in OF_A_MESSAGE {
        for second in OF_A_MESSAGE {
            let text = said_of(&of_number(first), &of_number(second));
            let line = match (first, second) {
                (0, 0) => "relay only\n".to_string(),
                (0, number) | (number, _) => format!("refused {number}\n"),
            };
            assert_eq!(text, line);
        }
    }
}

/// A file that can't be read makes the line `unreadable`, also where the other is refused, can't be
/// read either, or is empty.
#[test]
fn unreadable() {
    let (message, refused) = (recorded(), of_number(7));
    let (above, far_above) = (vec![0; 65_536], [&recorded()[..], &[0; 200_000]].concat());
    let wrong = || {
        [
            At::Nothing,
            At::LooseLink,
            At::Folder,
            At::File(&above),
            At::File(&far_above),
        ]
    };
    for bad in wrong() {
        for file in [At::File(&message), At::File(&refused), At::File(&[])] {
            assert_eq!(said(bad, file), "unreadable\n");
            assert_eq!(said(file, bad), "unreadable\n");
        }
        for other in wrong() {
            assert_eq!(said(bad, other), "unreadable\n");
        }
    }
}

/// Zeros without end are above 65,535 bytes.
#[test]
fn files_without_end() {
    let message = recorded();
    for (first, second) in [
        (At::Endless, At::File(&message[..])),
        (At::File(&message), At::Endless),
        (At::Endless, At::Endless),
    ] {
        let folder = folder_with(first, second);
        let mut command = Command::new(compare_messages());
        let text = run_within(LIMIT, command.current_dir(folder.path()));
        assert_eq!(text, "unreadable\n");
    }
}

/// Files of up to 65,535 bytes are read, and refused as messages.
#[test]
fn large_files_are_read() {
    let message = recorded();
    for size in [1_473, 65_535] {
        let mut large = message.clone();
        large.resize(size, 0);
        assert_eq!(said_of(&large, &message), "refused 2\n");
        assert_eq!(said_of(&message, &large), "refused 2\n");
        assert_eq!(said_of(&of_number(7), &large), "refused 7\n");
    }
    let mut largest = message.clone();
    largest.resize(1_472, 0);
    let lines = "layout\ncovered bytes differ\n";
    assert_eq!(said_of(&message, &largest), lines);
    assert_eq!(said_of(&largest, &largest), "relay only\n");
}

#[test]
fn links_are_followed() {
    let (first, second) = (recorded(), handed_on(240, &[1]));
    let text = said(At::Link(&first), At::Link(&second));
    assert_eq!(text, expected(&first, &second));
}

/// Files that come through a pipe: a read that gives fewer bytes than there is room for is followed
/// by another, which goes on where it stopped.
#[test]
fn files_in_pieces() {
    let (first, second) = (recorded(), handed_on(249, &[1, 2]));
    let largest = vec![0; 65_535];
    let above = vec![0; 65_536];
    for (name, other, file, there) in [
        (FIRST, SECOND, &first, &second),
        (SECOND, FIRST, &second, &first),
    ] {
        let in_pieces = |pieces: &[&[u8]]| {
            let folder = Folder::new();
            folder.write(other, there);
            judged_in_pieces(&compare_messages(), &folder, name, pieces)
        };
        let text = expected(&first, &second);
        assert_eq!(in_pieces(&[&file[..1], &file[1..250], &file[250..]]), text);
        let bytes: Vec<&[u8]> = file.chunks(1).collect();
        assert_eq!(in_pieces(&bytes), text);
        assert_eq!(in_pieces(&[&file[..240]]), "refused 2\n");
        assert_eq!(in_pieces(&[]), "refused 2\n");
        let pieces = [&largest[..40_000], &largest[40_000..]];
        assert_eq!(in_pieces(&pieces), "refused 2\n");
        let pieces = [&above[..40_000], &above[40_000..]];
        assert_eq!(in_pieces(&pieces), "unreadable\n");
    }
}

/// The second file is read to its end before the first is judged: one that gets too large in pieces
/// makes the line `unreadable`, though the first is refused.
#[test]
fn both_are_read_before_anything_is_judged() {
    let above = vec![0; 65_536];
    let folder = Folder::new();
    folder.write(FIRST, &of_number(7));
    let pieces = [&above[..65_535], &above[65_535..]];
    let text = judged_in_pieces(&compare_messages(), &folder, SECOND, &pieces);
    assert_eq!(text, "unreadable\n");
}

/// Reads that give few bytes; one that gives none is the file's end.
#[test]
fn reads_that_give_few_bytes() {
    let disk = Disk::new();
    let (first, second) = (recorded(), handed_on(249, &[1, 2]));
    let folder = folder_with(At::File(&first), At::File(&second));
    for name in [FIRST, SECOND] {
        let slow = |piece: usize| {
            let mut command = disk.slow(&compare_messages(), name, piece);
            judged_by(&mut command, &folder)
        };
        for piece in [1, 2, 3, 100, 240, 289, 290, 65_536] {
            assert_eq!(slow(piece), expected(&first, &second), "{piece} to a read");
        }
        assert_eq!(slow(0), "refused 2\n");
    }
}

/// A read that fails makes a file unreadable, though the bytes read before are the whole of it, and
/// though one of the two is refused.
#[test]
fn a_read_that_fails() {
    let disk = Disk::new();
    for (first, second) in [
        (recorded(), recorded()),
        (recorded(), of_number(7)),
        (of_number(6), recorded()),
    ] {
        let folder = folder_with(At::File(&first), At::File(&second));
        let failing = |name: &str, behind: usize| {
            let mut command = disk.failing(&compare_messages(), name, behind);
            judged_by(&mut command, &folder)
        };
        assert_eq!(failing("another file", 0), expected(&first, &second));
        for (name, file) in [(FIRST, &first), (SECOND, &second)] {
            for behind in [0, 1, 100, 240, file.len() - 1, file.len()] {
                assert_eq!(failing(name, behind), "unreadable\n", "{name}, {behind}");
            }
        }
    }
}

/// Two files with these lines.
fn folder_of_lines() -> (Folder, String) {
    let (first, second) = (recorded(), handed_on(249, &[1, 2]));
    let folder = folder_with(At::File(&first), At::File(&second));
    let text = expected(&first, &second);
    assert_eq!(text.lines().count(), 5);
    (folder, text)
}

/// Writes that take few bytes are followed by others, which go on where they stopped. One that takes
/// none is the last.
#[test]
fn writes_that_take_few_bytes() {
    let (disk, (folder, text)) = (Disk::new(), folder_of_lines());
    let in_folder = |piece: usize, folder: &Folder| {
        let mut command = disk.taking(&compare_messages(), piece);
        command.current_dir(folder.path());
        command
    };
    let taking = |piece, folder: &Folder| run_within(LIMIT, &mut in_folder(piece, folder));
    let output = output_within(LIMIT, &mut in_folder(0, &folder));
    assert_eq!(written_in_part(&in_folder(0, &folder), output), "");
    for piece in 1..=text.len() + 1 {
        assert_eq!(taking(piece, &folder), text, "{piece} bytes to a write");
    }
    let [first, second] = longest_known();
    let folder = folder_with(At::File(&first), At::File(&second));
    for piece in [7, 1_000, 18_324] {
        assert_eq!(taking(piece, &folder), expected(&first, &second));
    }
}

/// A disk that fills behind some bytes has taken the front of the lines, and the program says so and
/// ends.
#[test]
fn a_disk_that_fills() {
    let (disk, (folder, text)) = (Disk::new(), folder_of_lines());
    let filling = |behind: usize| disk.filling(&compare_messages(), behind);
    for behind in 0..text.len() {
        assert_eq!(stopped_by(&mut filling(behind), &folder), text[..behind]);
    }
    assert_eq!(judged_by(&mut filling(text.len()), &folder), text);
}

/// Where its lines can't be written the program ends: the reader is gone, with the signal that tells
/// so and without it, the disk is full, or there is no standard output.
#[test]
fn an_output_that_takes_nothing() {
    let program = compare_messages();
    for name in [FIRST, SECOND] {
        let unread = |command| {
            let folder = Folder::new();
            let other = if name == FIRST { SECOND } else { FIRST };
            folder.write(other, &recorded());
            ends_unread(command, &folder, name, &recorded())
        };
        assert_eq!(unread(Command::new(&program)), unwritten());
        let ignoring = by_shell(&program, "trap '' PIPE; exec \"$1\"");
        assert_eq!(unread(ignoring), unwritten());
    }
    let (folder, _) = folder_of_lines();
    let before = contents(&folder);
    let mut on_full = Command::new(&program);
    on_full.stdout(full_disk());
    for mut command in [on_full, by_shell(&program, "exec \"$1\" >&-")] {
        command.current_dir(folder.path()).stderr(Stdio::null());
        let mut child = started(&mut command);
        assert_eq!(ended_within(LIMIT, &command, &mut child), unwritten());
    }
    assert!(contents(&folder) == before, "the program changed a file");
}

/// Random pairs get the lines that the second implementation gives.
#[test]
fn as_the_second_implementation_says() {
    let mut tally = Tally::new("compare_messages, lines");
    for_each_case("compare_messages", 2_000, |random| {
        let [first, second] = pairs::any(random);
        let text = expected(&first, &second);
        let same = same_lines(&text, &said_of(&first, &second));
        on_bytes(on_bytes(same, "first", &first), "second", &second)?;
        match lines(&first, &second) {
            Ok(lines) => lines.iter().for_each(|line| tally.count(met::kind(line))),
            Err(_) => tally.count(text.trim_end().to_string()),
        }
        Ok(())
    });
    tally.print();
    let refused = OF_A_MESSAGE[1..].iter().map(|n| format!("refused {n}"));
    tally.require(&refused.collect::<Vec<_>>());
    // Some kinds of line are too rare for so few pairs.
    let mut kinds = met::kinds();
    kinds.retain(|kind| !kind.contains("100th"));
    tally.require(&kinds);
}
