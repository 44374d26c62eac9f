//! Runs in the making: messages that the book or the server rows accept, messages sealed in the run,
//! messages seen before, and any others.

use super::{take_step, Answer, Reference, State, Step};
use crate::generate::{books, forcerenew, messages, relays, servers};
use crate::random::Random;
use reference::forcerenew::NONCE_SIZE;
use reference::Book;

/// A random run.
pub fn first_run(random: &mut Random, start: &State) -> Vec<Step> {
    let mut making = Making::from(start);
    let count = random.within(1..=32);
    making.take_any(random, count);
    making.steps
}

/// A run that begins with the first message under a row that is not heard, with this counter. The
/// message is checked again, as it was and relay-changed, and other steps stand between.
pub fn run_from(random: &mut Random, start: &State, row: usize, counter: u64) -> Vec<Step> {
    let mut making = Making::from(start);
    let message = messages::well_formed_with(random, &start.book, row, counter);
    let relayed = relays::changed(random, &message);
    making.seen.push(message.clone());
    for message in [message.clone(), message, relayed] {
        making.take(Step::Check { message, origin: 0 });
        let count = random.within(0..=8);
        making.take_any(random, count);
    }
    making.steps
}

/// A step of which it is known what it gets.
#[derive(Clone, Copy, Debug)]
pub struct ScriptedStep {
    pub place: usize,
    pub number: u8,
}

/// A run in which nonces are given to a row that has none yet, and one FORCERENEW is shown for it
/// again and again. Steps for other rows and of other kinds stand between.
pub fn run_of_nonces(
    random: &mut Random,
    start: &State,
    row: usize,
) -> (Vec<Step>, Vec<ScriptedStep>) {
    let mut making = Making::from(start);
    making.spared = Some(row);
    let mut scripted = vec![];
    for (message, number) in script(random) {
        let count = random.within(0..=4);
        making.take_any(random, count);
        let place = making.steps.len();
        scripted.push(ScriptedStep { place, number });
        making.take(Step::Judge { row, message });
    }
    (making.steps, scripted)
}

/// What is shown for the row, and the number that each message gets: a FORCERENEW under nonce A, ACKs
/// that give A, two of them, and one that gives B.
fn script(random: &mut Random) -> Vec<(Vec<u8>, u8)> {
    let (a, b) = (random.bytes(NONCE_SIZE), random.bytes(NONCE_SIZE));
    let counters = [(); 4].map(|()| books::counter(random));
    let order = forcerenew::order(random, &a, counters[0]);
    let give_a = forcerenew::ack(random, &a, counters[1]);
    let give_a_too = forcerenew::ack(random, &a, counters[2]);
    let give_b = forcerenew::ack(random, &b, counters[3]);
    [
        (&order, 21),
        (&give_a, 0),
        (&order, 0),
        (&order, 11),
        (&give_a, 0),
        (&give_a_too, 0),
        (&order, 11),
        (&give_b, 0),
        (&order, 12),
        (&give_a, 0),
        (&order, 0),
        (&order, 11),
    ]
    .map(|(message, number)| (message.clone(), number))
    .to_vec()
}

/// A run in the making: what the next step meets, the steps so far, and the messages that were made
/// in it.
struct Making {
    state: State,
    steps: Vec<Step>,
    /// The messages that were checked or sealed.
    seen: Vec<Vec<u8>>,
    /// The messages that were judged by nonce, each with the row for which it was.
    judged: Vec<(usize, Vec<u8>)>,
    /// A row that no judgement drawn at random is for.
    spared: Option<usize>,
}

impl Making {
    fn from(start: &State) -> Self {
        Making {
            state: start.clone(),
            steps: Vec::new(),
            seen: Vec::new(),
            judged: Vec::new(),
            spared: None,
        }
    }

    fn take(&mut self, step: Step) {
        let answer = take_step::<Reference>(&mut self.state, &step);
        if let Answer::Seal(Ok(_), buffer) = answer {
            self.seen.push(buffer);
        }
        if let Step::Judge { row, message } = &step {
            self.judged.push((*row, message.clone()));
        }
        self.steps.push(step);
    }

    fn take_any(&mut self, random: &mut Random, count: usize) {
        for _ in 0..count {
            let step = match random.below(16) {
                0..=3 => self.new_check(random),
                4..=5 if !self.seen.is_empty() => check_again(random, &self.seen),
                6..=8 => self.new_judgement(random),
                9..=11 if !self.judged.is_empty() => self.judge_again(random),
                _ => new_seal(random, &self.state.book),
            };
            self.take(step);
        }
    }

    /// A check of a message not checked before, mostly one that is accepted; now and then one that
    /// was judged by nonce.
    fn new_check(&mut self, random: &mut Random) -> Step {
        let book = &self.state.book;
        let message = match random.below(12) {
            0 if !self.judged.is_empty() => self.any_judged(random).1,
            0..=3 => messages::any(random, book),
            _ => messages::well_formed(random, book),
        };
        self.seen.push(message.clone());
        Step::Check {
            message,
            origin: self.seen.len() - 1,
        }
    }

    /// A judgement of a message not judged before, mostly one that is accepted; now and then one that
    /// was checked or sealed.
    fn new_judgement(&self, random: &mut Random) -> Step {
        let row = self.row(random);
        let servers = &self.state.servers;
        let message = match random.below(12) {
            0 if !self.seen.is_empty() => self.seen[random.below(self.seen.len())].clone(),
            _ if !servers.are_sound() => forcerenew::ack(random, &[7; NONCE_SIZE], 7),
            0..=3 => forcerenew::any(random, servers, row),
            _ => forcerenew::well_formed(random, servers, row),
        };
        Step::Judge { row, message }
    }

    /// A judgement of a message that was judged before, for the row for which it was or for any.
    fn judge_again(&self, random: &mut Random) -> Step {
        let (row, message) = self.any_judged(random);
        let row = match random.below(3) {
            0 => self.row(random),
            _ if Some(row) == self.spared => self.row(random),
            _ => row,
        };
        Step::Judge { row, message }
    }

    fn any_judged(&self, random: &mut Random) -> (usize, Vec<u8>) {
        self.judged[random.below(self.judged.len())].clone()
    }

    /// The number of a server row, of one that isn't there too, but not of the one that is spared.
    fn row(&self, random: &mut Random) -> usize {
        loop {
            let row = servers::any_row(random, self.state.servers.rows());
            if Some(row) != self.spared {
                return row;
            }
        }
    }
}

/// A check of a message that was made before, as it was or relay-changed.
fn check_again(random: &mut Random, seen: &[Vec<u8>]) -> Step {
    let origin = random.below(seen.len());
    Step::Check {
        message: relays::maybe_changed(random, &seen[origin]),
        origin,
    }
}

fn new_seal(random: &mut Random, book: &Book) -> Step {
    let message = messages::any(random, book);
    let id = any_id(random, book);
    Step::Seal { id, message }
}

/// Mostly the id of a row.
pub fn any_id(random: &mut Random, book: &Book) -> u32 {
    let id = match book.rows {
        0 => random.u32(),
        rows => book.ids[random.below(rows)],
    };
    match random.below(10) {
        0 => messages::unknown_id(random, book, id),
        _ => id,
    }
}
