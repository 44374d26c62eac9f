//! Runs of checks, seals and judgements by nonce, and second runs as the network may make them
//! (docs/RULES.md, 'The demands' and 'Runs').
//!
//! A run goes over one book and one set of server rows. How runs are made is in `making`, how second
//! runs are made of them in `second`, and what is shown again in a run in `again`.

mod again;
mod making;
mod second;

use reference::{Accepted, Book, Judged, Servers};

pub use again::{checked_again, judged_again, CheckedAgain, JudgedAgain, Shown};
pub use making::{any_id, first_run, run_from, run_of_nonces, ScriptedStep};
pub use second::{second_run, SecondRun};

/// What a step finds and leaves.
#[derive(Clone, Debug, PartialEq, Eq)]
pub struct State {
    pub book: Book,
    pub servers: Servers,
}

/// One step of a run, with a buffer of its own.
#[derive(Clone, Debug)]
pub enum Step {
    Check {
        message: Vec<u8>,
        /// Which message this is: the same for its copies and relay-changed copies.
        origin: usize,
    },
    Seal {
        id: u32,
        message: Vec<u8>,
    },
    /// A judgement by nonce.
    Judge {
        row: usize,
        message: Vec<u8>,
    },
}

impl Step {
    pub fn message(&self) -> &[u8] {
        match self {
            Step::Check { message, .. }
            | Step::Seal { message, .. }
            | Step::Judge { message, .. } => message,
        }
    }
}

/// All that a step returns, and for a seal its whole buffer.
#[derive(Clone, Debug, PartialEq, Eq)]
pub enum Answer {
    Check(Result<Accepted, u8>),
    Seal(Result<u64, u8>, Vec<u8>),
    Judge(Result<Judged, u8>),
}

impl Answer {
    /// The number that the step got.
    pub fn number(&self) -> u8 {
        match self {
            Answer::Check(answer) => answer.err(),
            Answer::Seal(answer, _) => answer.err(),
            Answer::Judge(answer) => answer.err(),
        }
        .unwrap_or(0)
    }
}

/// What a run gives: each step's answer, and the book and the server rows at the end.
#[derive(Clone, Debug, PartialEq, Eq)]
pub struct Outcome {
    pub answers: Vec<Answer>,
    pub end: State,
}

/// Something that checks, seals and judges by nonce.
pub trait Implementation {
    fn check(book: &mut Book, message: &[u8]) -> Result<Accepted, u8>;
    fn seal(book: &mut Book, id: u32, message: &mut [u8]) -> Result<u64, u8>;
    fn forcerenew(servers: &mut Servers, row: usize, message: &[u8]) -> Result<Judged, u8>;
}

/// The second implementation.
pub struct Reference;

impl Implementation for Reference {
    fn check(book: &mut Book, message: &[u8]) -> Result<Accepted, u8> {
        reference::check(book, message).map_err(|refusal| refusal.number())
    }

    fn seal(book: &mut Book, id: u32, message: &mut [u8]) -> Result<u64, u8> {
        reference::seal(book, id, message).map_err(|refusal| refusal.number())
    }

    fn forcerenew(servers: &mut Servers, row: usize, message: &[u8]) -> Result<Judged, u8> {
        reference::forcerenew(servers, row, message).map_err(|refusal| refusal.number())
    }
}

/// The proved library.
pub struct Library;

impl Implementation for Library {
    fn check(book: &mut Book, message: &[u8]) -> Result<Accepted, u8> {
        match lend(book).check(message) {
            Ok(rimemagpie::Accepted { row, counter }) => Ok(Accepted { row, counter }),
            Err(refusal) => Err(refusal.number()),
        }
    }

    fn seal(book: &mut Book, id: u32, message: &mut [u8]) -> Result<u64, u8> {
        lend(book)
            .seal(id, message)
            .map_err(|refusal| refusal.number())
    }

    fn forcerenew(servers: &mut Servers, row: usize, message: &[u8]) -> Result<Judged, u8> {
        match lend_servers(servers).forcerenew(row, message) {
            Ok(judged) => Ok(Judged {
                kind: type_of(judged.kind),
                counter: judged.counter,
            }),
            Err(refusal) => Err(refusal.number()),
        }
    }
}

/// The type that the wrapper's kind stands for.
fn type_of(kind: rimemagpie::forcerenew::Kind) -> u8 {
    match kind {
        rimemagpie::forcerenew::Kind::Ack => 1,
        rimemagpie::forcerenew::Kind::Forcerenew => 2,
    }
}

/// A book's parts, lent to the library.
pub fn lend(book: &mut Book) -> rimemagpie::Book<'_> {
    rimemagpie::Book {
        ids: &mut book.ids,
        lengths: &mut book.lengths,
        store: &mut book.store,
        marks: &mut book.marks,
        received: &mut book.received,
        sent: &mut book.sent,
        rows: book.rows,
    }
}

/// The parts of server rows, lent to the library.
pub fn lend_servers(servers: &mut Servers) -> rimemagpie::forcerenew::Servers<'_> {
    rimemagpie::forcerenew::Servers {
        nonces: &mut servers.nonces,
        counters: &mut servers.counters,
        marks: &mut servers.marks,
    }
}

/// Does one step.
pub fn take_step<I: Implementation>(state: &mut State, step: &Step) -> Answer {
    match step {
        Step::Check { message, .. } => Answer::Check(I::check(&mut state.book, message)),
        Step::Seal { id, message } => {
            let mut buffer = message.clone();
            let result = I::seal(&mut state.book, *id, &mut buffer);
            Answer::Seal(result, buffer)
        }
        Step::Judge { row, message } => {
            Answer::Judge(I::forcerenew(&mut state.servers, *row, message))
        }
    }
}

/// Does a whole run.
pub fn run<I: Implementation>(start: &State, steps: &[Step]) -> Outcome {
    let mut end = start.clone();
    let answers = steps
        .iter()
        .map(|step| take_step::<I>(&mut end, step))
        .collect();
    Outcome { answers, end }
}
