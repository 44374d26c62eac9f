//! What stands outside Rust: the repository's files, the built library and programs, temporary
//! folders, and commands.

use std::env;
use std::fs;
use std::path::{Path, PathBuf};
use std::process::{Child, Command, ExitStatus, Output, Stdio};
use std::sync::atomic::{AtomicUsize, Ordering};
use std::sync::{Mutex, MutexGuard, PoisonError};
use std::thread;
use std::time::{Duration, Instant};

/// A file of the repository, by its path from the top.
pub fn repository_file(path: &str) -> PathBuf {
    Path::new(env!("CARGO_MANIFEST_DIR"))
        .join("../..")
        .join(path)
}

/// The static library.
pub fn static_library() -> PathBuf {
    built(
        "RIMEMAGPIE_LIB_DIR",
        "target/staticlib",
        Some("librimemagpie.a"),
    )
}

/// The program judge.
pub fn judge() -> PathBuf {
    built("RIMEMAGPIE_JUDGE", "target/bin/judge", None)
}

/// The program judge_capture.
pub fn judge_capture() -> PathBuf {
    built("RIMEMAGPIE_JUDGE_CAPTURE", "target/bin/judge_capture", None)
}

/// The program known.
pub fn known() -> PathBuf {
    built("RIMEMAGPIE_KNOWN", "target/bin/known", None)
}

/// The program compare_messages.
pub fn compare_messages() -> PathBuf {
    built(
        "RIMEMAGPIE_COMPARE_MESSAGES",
        "target/bin/compare_messages",
        None,
    )
}

/// Something that must have been built first, where the variable says or else at its usual place.
fn built(variable: &str, usual: &str, file: Option<&str>) -> PathBuf {
    let named = env::var(variable).unwrap_or(usual.to_string());
    let mut path = repository_file(&named);
    path.extend(file);
    assert!(
        path.is_file(),
        "{} is not there: build it first (tools/build), or set {variable}",
        path.display()
    );
    path
}

/// A folder of its own for one test, taken away at the end.
pub struct Folder {
    path: PathBuf,
}

impl Folder {
    pub fn new() -> Self {
        static COUNT: AtomicUsize = AtomicUsize::new(0);
        let number = COUNT.fetch_add(1, Ordering::Relaxed);
        let name = format!("rimemagpie-{}-{number}", std::process::id());
        let path = env::temp_dir().join(name);
        fs::create_dir(&path).expect("a temporary folder can be made");
        Folder { path }
    }

    pub fn path(&self) -> &Path {
        &self.path
    }

    pub fn write(&self, name: &str, bytes: &[u8]) {
        fs::write(self.path.join(name), bytes).expect("a temporary file can be written");
    }
}

impl Default for Folder {
    fn default() -> Self {
        Self::new()
    }
}

impl Drop for Folder {
    fn drop(&mut self) {
        // What is left behind in a temporary folder does no harm.
        let _ = fs::remove_dir_all(&self.path);
    }
}

/// Runs a command to its end; a command that can't be started is named.
pub fn run(command: &mut Command) -> Output {
    output(captured(command))
}

/// Runs a command that must succeed, and gives what it wrote.
pub fn run_well(command: &mut Command) -> String {
    let output = run(command);
    written(command, output)
}

/// Runs a command that must succeed within a time, at the end of which it is stopped, and gives
/// what it wrote: a few lines, which a pipe has room for.
pub fn run_within(limit: Duration, command: &mut Command) -> String {
    let output = output_within(limit, command);
    written(command, output)
}

/// Runs a command that must end within a time, at the end of which it is stopped. What it writes a
/// pipe has room for.
pub fn output_within(limit: Duration, command: &mut Command) -> Output {
    let mut child = captured(command);
    ended_within(limit, command, &mut child);
    output(child)
}

/// Starts a command whose output is kept.
fn captured(command: &mut Command) -> Child {
    let command = command.stdin(Stdio::null());
    started(command.stdout(Stdio::piped()).stderr(Stdio::piped()))
}

/// What a started command writes, up to its end.
fn output(child: Child) -> Output {
    let output = child.wait_with_output();
    output.expect("a child's pipes can be read")
}

/// Held while a process is started. Until it is, it has a copy of each pipe's end that any thread
/// has open.
static STARTING: Mutex<()> = Mutex::new(());

/// Waits until no other process is being started. A test that failed meanwhile doesn't matter.
fn starting() -> MutexGuard<'static, ()> {
    STARTING.lock().unwrap_or_else(PoisonError::into_inner)
}

/// Starts a command; one that can't be started is named.
pub fn started(command: &mut Command) -> Child {
    let _alone = starting();
    spawned(command)
}

/// Starts a command whose output nobody reads: the reader is gone before another process could get
/// a copy of its end.
pub fn started_unread(command: &mut Command) -> Child {
    let _alone = starting();
    let mut child = spawned(command.stdout(Stdio::piped()));
    drop(child.stdout.take());
    child
}

fn spawned(command: &mut Command) -> Child {
    command
        .spawn()
        .unwrap_or_else(|error| panic!("{command:?} can't be started: {error}"))
}

/// How a started command ends, which it must within a time, at the end of which it is stopped.
pub fn ended_within(limit: Duration, command: &Command, child: &mut Child) -> ExitStatus {
    let started = Instant::now();
    loop {
        if let Some(status) = child.try_wait().expect("a child has a state") {
            return status;
        }
        if started.elapsed() > limit {
            child.kill().expect("a child can be stopped");
            child.wait().expect("a stopped child ends");
            panic!("{command:?} has not ended after {limit:?}");
        }
        thread::sleep(Duration::from_millis(5));
    }
}

/// What a command wrote, which must have succeeded.
fn written(command: &Command, output: Output) -> String {
    let out = String::from_utf8_lossy(&output.stdout).into_owned();
    let errors = String::from_utf8_lossy(&output.stderr);
    assert!(
        output.status.success(),
        "{command:?}: {}\n{out}{errors}",
        output.status
    );
    out
}
