//! The header and the example as C and C++ programs take them: built without a warning, run, and run
//! under valgrind, which finds any byte read or written that isn't lent, or used before it was set.

use compare::outside::{repository_file, run, run_well, static_library, Folder};
use reference::card::{card_of_rows, Form, Row};
use reference::examples::{CARD_B_NOT_HEARD, CARD_EMPTY, NEW_CARD_B, OLD_CARD_B};
use std::fs::File;
use std::path::{Path, PathBuf};
use std::process::Command;

/// What the example prints.
const EXAMPLE_PRINTS: &str = "\
server seals: 0
  under id 7 with counter 1
client checks: 0
  accepted, row 0 counter 1, and its mark is now 1
client checks it again: 11
  refused as a replay
";

/// Builds a program of the repository against the header and the library, and gives its path.
fn build(compiler: &[&str], source: &str, folder: &Folder) -> PathBuf {
    let program = folder.path().join("program");
    run_well(
        Command::new(compiler[0])
            .args(&compiler[1..])
            .args(["-g", "-Wall", "-Wextra", "-Wpedantic", "-Werror", "-I"])
            .arg(repository_file("include"))
            .arg(repository_file(source))
            .args(["-x", "none"])
            .arg(static_library())
            .arg("-o")
            .arg(&program),
    );
    program
}

/// Builds a program, runs it, runs it under valgrind, and compares what it prints.
fn build_and_run(compiler: &[&str], source: &str, prints: &str) {
    let folder = Folder::new();
    let program = build(compiler, source, &folder);
    assert_eq!(run_well(&mut Command::new(&program)), prints);
    let under_valgrind = run_well(
        Command::new("valgrind")
            .args(["--quiet", "--error-exitcode=99", "--leak-check=full"])
            .arg(&program),
    );
    assert_eq!(under_valgrind, prints);
}

#[test]
fn example() {
    let source = "examples/seal_and_check.c";
    build_and_run(&["cc", "-std=c11"], source, EXAMPLE_PRINTS);
}

/// The programs that call every entry between them.
const EVERY_ENTRY: [&str; 2] = [
    "tests/compare/c/every_entry.c",
    "tests/compare/c/comparison.c",
];

#[test]
fn every_entry_from_c() {
    for source in EVERY_ENTRY {
        build_and_run(&["cc", "-std=c11"], source, "");
    }
}

#[test]
fn every_entry_from_cpp() {
    for source in EVERY_ENTRY {
        build_and_run(&["g++", "-std=c++17", "-x", "c++"], source, "");
    }
}

/// The header by itself, as the least version of each language takes it, with every conversion looked
/// at.
#[test]
fn the_header_alone() {
    let folder = Folder::new();
    folder.write("alone.c", b"#include \"rimemagpie.h\"\nint alone;\n");
    for compiler in [["cc", "-std=c99", "c"], ["g++", "-std=c++11", "c++"]] {
        run_well(
            Command::new(compiler[0])
                .args([compiler[1], "-x", compiler[2], "-fsyntax-only"])
                .args(["-Wall", "-Wextra", "-Wpedantic", "-Wconversion", "-Werror"])
                .arg("-I")
                .arg(repository_file("include"))
                .arg(folder.path().join("alone.c")),
        );
    }
}

/// The example that reads a card in pieces, and a folder for its cards.
struct ReadInPieces {
    folder: Folder,
    program: PathBuf,
}

/// What a run of it left: the exit status, what it printed, and what it said of an error.
type Ran = (Option<i32>, String, String);

impl ReadInPieces {
    fn build() -> Self {
        let folder = Folder::new();
        let program = build(&["cc", "-std=c99"], "examples/read_in_pieces.c", &folder);
        ReadInPieces { folder, program }
    }

    fn ran(command: &mut Command) -> Ran {
        let output = run(command);
        let text = |bytes: &[u8]| String::from_utf8_lossy(bytes).into_owned();
        let status = output.status.code();
        (status, text(&output.stdout), text(&output.stderr))
    }

    /// Runs it on a file of the folder, by itself and under valgrind, to the same effect.
    fn on(&self, name: &str) -> Ran {
        let mut alone = Command::new(&self.program);
        let ran = Self::ran(alone.arg(name).current_dir(self.folder.path()));
        let mut watched = Command::new("valgrind");
        watched.args(["--quiet", "--error-exitcode=99", "--leak-check=full"]);
        let watched = watched.arg(&self.program).arg(name);
        assert_eq!(Self::ran(watched.current_dir(self.folder.path())), ran);
        ran
    }

    /// Runs it on a card.
    fn on_card(&self, card: &[u8]) -> Ran {
        self.folder.write("book.card", card);
        self.on("book.card")
    }
}

/// The rows that it has room for, and the bytes that it reads at a time.
const ROOM: usize = 256;
const PIECE: usize = 512;

/// So many rows, of which the last is not heard.
fn rows(count: usize) -> Vec<Row> {
    let row = |id: usize| Row::heard(id as u32, &[7; 64], 3);
    let mut rows: Vec<Row> = (1..count).map(row).collect();
    rows.push(Row::new(count as u32, &[7]));
    rows
}

#[test]
fn example_that_reads_in_pieces() {
    let example = ReadInPieces::build();
    let heard = "rows 1\nid 7, key size 4, heard, received 10, sent 3\n";
    let printed = |text: &str| (Some(0), text.to_string(), String::new());
    assert_eq!(example.on_card(&OLD_CARD_B), printed(heard));
    assert_eq!(example.on_card(&NEW_CARD_B), printed(heard));
    let not_heard = "rows 1\nid 7, key size 4, not heard, received 0, sent 3\n";
    assert_eq!(example.on_card(&CARD_B_NOT_HEARD), printed(not_heard));
    assert_eq!(example.on_card(&CARD_EMPTY), printed("rows 0\n"));

    // More than two pieces, and just one.
    let card = card_of_rows(Form::New, &rows(ROOM));
    assert!(card.len() > 2 * PIECE);
    let (status, text, _) = example.on_card(&card);
    assert_eq!((status, text.lines().count()), (Some(0), 1 + ROOM));
    assert!(text.ends_with("id 256, key size 1, not heard, received 0, sent 0\n"));
    let mut one = rows(6);
    one[5].key.resize(36, 7);
    let one = card_of_rows(Form::New, &one);
    assert_eq!(one.len(), PIECE);
    let (status, text, _) = example.on_card(&one);
    assert_eq!((status, text.lines().count()), (Some(0), 1 + 6));

    let refused = |words: &str| {
        (
            Some(1),
            String::new(),
            format!("book.card: refused {words}\n"),
        )
    };
    let malformed = refused("15: the card is malformed");
    assert_eq!(example.on_card(&[]), malformed);
    assert_eq!(example.on_card(&card[..2 * PIECE]), malformed);
    for card in [card, one] {
        assert_eq!(example.on_card(&[&card[..], &[0]].concat()), malformed);
    }
    assert_eq!(example.on_card(&[0; 5_000]), malformed);
    let card = card_of_rows(Form::New, &rows(ROOM + 1));
    assert_eq!(example.on_card(&card), malformed);
}

/// A missing file, a folder in its place, no file named, and nowhere to print.
#[test]
fn example_that_reads_in_pieces_without_a_card() {
    let example = ReadInPieces::build();
    let failed = |words: &str| (Some(2), String::new(), words.to_string());
    let missing = failed("missing: No such file or directory\n");
    assert_eq!(example.on("missing"), missing);
    assert_eq!(example.on("."), failed(".: Is a directory\n"));
    let usage = failed("usage: read_in_pieces CARD\n");
    assert_eq!(
        ReadInPieces::ran(&mut Command::new(&example.program)),
        usage
    );
    example.folder.write("book.card", &CARD_EMPTY);
    let full = Path::new("/dev/full");
    if full.exists() {
        let full = File::options().write(true).open(full).unwrap();
        let mut command = Command::new(&example.program);
        command.arg("book.card").current_dir(example.folder.path());
        let output = command.stdout(full).output().unwrap();
        assert_eq!(output.status.code(), Some(2));
        assert!(String::from_utf8_lossy(&output.stderr).starts_with("the rows can't be printed"));
    }
}
