//! The programs on files in a folder of their own: what stands in place of a file, calls that fail
//! or do less than they were asked to, files that come in pieces, and that a program leaves all of
//! them as they were.

use crate::outside::{ended_within, repository_file, run, run_well, started_unread, Folder};
use std::fs::{self, File};
use std::io::{ErrorKind, Write};
use std::os::unix::fs::{symlink, OpenOptionsExt};
use std::os::unix::process::ExitStatusExt;
use std::path::{Path, PathBuf};
use std::process::{Command, ExitStatus, Output, Stdio};
use std::sync::mpsc::{self, Receiver};
use std::thread;
use std::time::{Duration, SystemTime};

/// The card's name, in every program.
pub const CARD: &str = "book.card";

/// Far more time than a program needs.
pub const LIMIT: Duration = Duration::from_secs(30);

/// What stands at a name.
#[derive(Clone, Copy)]
pub enum At<'a> {
    Nothing,
    File(&'a [u8]),
    /// A link to a file.
    Link(&'a [u8]),
    /// A link to nothing.
    LooseLink,
    /// Zeros without end.
    Endless,
    Folder,
}

pub fn put(folder: &Folder, name: &str, what: At) {
    let path = folder.path().join(name);
    let linked = format!("{name}.linked");
    let link_to = |file: &str| symlink(file, &path).expect("a link can be made");
    match what {
        At::Nothing => {}
        At::File(bytes) => folder.write(name, bytes),
        At::Link(bytes) => {
            folder.write(&linked, bytes);
            link_to(&linked);
        }
        At::LooseLink => link_to(&linked),
        At::Endless => link_to("/dev/zero"),
        At::Folder => fs::create_dir(&path).expect("a folder can be made"),
    }
}

/// Runs a program in a folder, which it must leave as it was, and gives what it wrote.
pub fn judged_by(command: &mut Command, folder: &Folder) -> String {
    let before = contents(folder);
    let output = run(command.current_dir(folder.path()));
    assert!(contents(folder) == before, "{command:?} changed a file");
    let status = output.status;
    assert!(status.success(), "{command:?} ended with {status}");
    assert_eq!(output.stderr, b"", "{command:?} wrote to standard error");
    String::from_utf8(output.stdout).expect("a program writes text")
}

/// How a program ends whose lines can't be written: with the status 1, in place of 0.
pub fn unwritten() -> ExitStatus {
    ExitStatus::from_raw(1 << 8)
}

/// What a program wrote of its lines, of which its output took no more: it says why and ends.
pub fn written_in_part(command: &Command, output: Output) -> String {
    assert_eq!(output.status, unwritten(), "{command:?}");
    let error = String::from_utf8_lossy(&output.stderr);
    assert!(error.starts_with("Error: "), "{command:?} wrote {error:?}");
    String::from_utf8(output.stdout).expect("a program writes text")
}

/// Runs a program in a folder, which it must leave as it was, and gives what it wrote of its lines
/// before its output took no more.
pub fn stopped_by(command: &mut Command, folder: &Folder) -> String {
    let before = contents(folder);
    let output = run(command.current_dir(folder.path()));
    assert!(contents(folder) == before, "{command:?} changed a file");
    written_in_part(command, output)
}

/// Name, bytes (of a file) and time of the last change of all that a folder holds.
pub fn contents(folder: &Folder) -> Vec<(String, Option<Vec<u8>>, SystemTime)> {
    let mut all: Vec<_> = fs::read_dir(folder.path())
        .expect("the folder can be read")
        .map(|entry| {
            let entry = entry.expect("the folder can be read");
            let changed = entry.metadata().and_then(|data| data.modified());
            let name = entry.file_name().to_string_lossy().into_owned();
            let changed = changed.expect("a file has a time");
            (name, fs::read(entry.path()).ok(), changed)
        })
        .collect();
    all.sort();
    all
}

/// Makes a pipe in place of a file. Opening it doesn't end before it is opened for writing.
pub fn pipe(folder: &Folder, name: &str) -> PathBuf {
    let path = folder.path().join(name);
    run_well(Command::new("mkfifo").arg(&path));
    path
}

/// Linux's flag for opening a pipe without waiting for the other end.
const O_NONBLOCK: i32 = 0o4000;

/// Waits until a pipe is opened for reading, and opens it for writing.
fn writing_end(pipe: &Path) -> File {
    let end = File::options().write(true).open(pipe);
    end.expect("a pipe can be opened")
}

/// Feeds a pipe with pieces, mostly without end, until a write fails, and then says how.
pub fn fed(
    pipe: PathBuf,
    mut pieces: impl Iterator<Item = Vec<u8>> + Send + 'static,
) -> Receiver<Option<ErrorKind>> {
    let (say, said) = mpsc::channel();
    thread::spawn(move || {
        let mut end = writing_end(&pipe);
        let failed = pieces.find_map(|piece| end.write_all(&piece).err());
        // A test that has failed no longer asks.
        let _ = say.send(failed.map(|error| error.kind()));
    });
    said
}

/// What a program writes in a folder in which a pipe, which gives its bytes a piece to a read,
/// stands in place of a file.
pub fn judged_in_pieces(program: &Path, folder: &Folder, name: &str, pieces: &[&[u8]]) -> String {
    run_on_pieces(&mut Command::new(program), folder, name, pieces)
}

/// The same of a program with its arguments.
pub fn run_on_pieces(
    command: &mut Command,
    folder: &Folder,
    name: &str,
    pieces: &[&[u8]],
) -> String {
    // Long enough for a read between two pieces; less where there are many.
    let pause = if pieces.len() > 20 { 2 } else { 20 };
    let pipe = pipe(folder, name);
    thread::scope(|scope| {
        scope.spawn(|| {
            let mut end = writing_end(&pipe);
            for piece in pieces {
                end.write_all(piece).expect("the program reads the pipe");
                thread::sleep(Duration::from_millis(pause));
            }
        });
        let written = run_well(command.current_dir(folder.path()));
        // A program that never opened the pipe leaves its writer waiting: it must not wait forever.
        drop(File::options().read(true).custom_flags(O_NONBLOCK).open(&pipe));
        written
    })
}

/// The program, run by a shell that does this to it.
pub fn by_shell(program: &Path, script: &str) -> Command {
    let mut command = Command::new("sh");
    command.args(["-c", script, "sh"]).arg(program);
    command
}

/// A disk that takes no byte.
pub fn full_disk() -> File {
    let full = File::options().write(true).open("/dev/full");
    full.expect("there is a full disk")
}

/// How a command ends whose reader is gone before it has anything to write: in place of a file of the
/// folder stands a pipe, which gives its bytes behind that.
pub fn ends_unread(mut command: Command, folder: &Folder, name: &str, bytes: &[u8]) -> ExitStatus {
    let pipe = pipe(folder, name);
    command.current_dir(folder.path()).stderr(Stdio::null());
    let mut child = started_unread(&mut command);
    fed(pipe, [bytes.to_vec()].into_iter());
    ended_within(LIMIT, &command, &mut child)
}

/// A disk that is slow, breaks or fills, and a reader that is slow. It takes a program that calls
/// the C library's `read` and `write`.
pub struct Disk {
    built: Folder,
}

impl Disk {
    /// Builds what stands between a program and its files, to be loaded in front of the C library.
    pub fn new() -> Self {
        let built = Folder::new();
        for source in ["failing_read", "short_write"] {
            let library = built.path().join(source);
            run_well(
                Command::new("cc")
                    .args(["-std=c11", "-shared", "-fPIC"])
                    .args(["-Wall", "-Wextra", "-Wpedantic", "-Werror"])
                    .arg(repository_file(&format!("tests/compare/c/{source}.c")))
                    .arg("-o")
                    .arg(library),
            );
        }
        Disk { built }
    }

    fn before(&self, program: &Path, source: &str) -> Command {
        let mut command = Command::new(program);
        command.env("LD_PRELOAD", self.built.path().join(source));
        command
    }

    /// The program, whose reads of a file fail behind so many bytes.
    pub fn failing(&self, program: &Path, name: &str, behind: usize) -> Command {
        let mut command = self.before(program, "failing_read");
        command
            .env("FAILING_READ", name)
            .env("FAILING_READ_BEHIND", behind.to_string());
        command
    }

    /// The program, whose reads of a file give no more than so many bytes.
    pub fn slow(&self, program: &Path, name: &str, piece: usize) -> Command {
        let mut command = self.before(program, "failing_read");
        command
            .env("FAILING_READ", name)
            .env("FAILING_READ_PIECE", piece.to_string());
        command
    }

    /// The program, whose writes take no more than so many bytes.
    pub fn taking(&self, program: &Path, piece: usize) -> Command {
        let mut command = self.before(program, "short_write");
        command.env("SHORT_WRITE", piece.to_string());
        command
    }

    /// The program, whose writes fail behind so many bytes.
    pub fn filling(&self, program: &Path, behind: usize) -> Command {
        let mut command = self.before(program, "short_write");
        command.env("SHORT_WRITE_BEHIND", behind.to_string());
        command
    }
}

impl Default for Disk {
    fn default() -> Self {
        Self::new()
    }
}
