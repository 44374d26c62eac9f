//! What is shown again in a run, and what it must get.

use super::{Answer, Implementation, Reference, Step};
use crate::generate::forcerenew::found_by_nonce;
use reference::forcerenew::TYPE_NONCE;
use reference::{Accepted, Judged, Servers};

/// A check of a message that was accepted before.
pub struct CheckedAgain<'a> {
    /// What was accepted then.
    pub accepted: Accepted,
    /// Whether it has other bytes now, which relays changed.
    pub relayed: bool,
    /// What the check got, which must be 11.
    pub answer: &'a Answer,
}

/// The checks of a run that check an accepted message again.
pub fn checked_again<'a>(steps: &[Step], answers: &'a [Answer]) -> Vec<CheckedAgain<'a>> {
    let mut taken: Vec<(&usize, &Vec<u8>, Accepted)> = Vec::new();
    let mut again = Vec::new();
    for (step, answer) in steps.iter().zip(answers) {
        let Step::Check { message, origin } = step else {
            continue;
        };
        let before = taken.iter().find(|(taken, ..)| *taken == origin);
        if let Some((_, first, accepted)) = before {
            again.push(CheckedAgain {
                accepted: *accepted,
                relayed: *first != message,
                answer,
            });
        }
        if let Answer::Check(Ok(accepted)) = answer {
            taken.push((origin, message, *accepted));
        }
    }
    again
}

/// A judgement of a message that was accepted before.
pub struct JudgedAgain<'a> {
    pub shown: Shown,
    pub answer: &'a Answer,
}

/// What is shown again.
pub enum Shown {
    /// A FORCERENEW, for its row, where no new nonce was taken since. It must get 11.
    Order,
    /// A FORCERENEW, for its row, where a new nonce was taken since. It may get anything.
    OrderAfterNonce,
    /// An ACK, for a row that is there. It must be accepted, and this returned.
    Ack { judged: Judged, for_same_row: bool },
}

/// An accepted message.
struct Taken<'a> {
    row: usize,
    message: &'a [u8],
    judged: Judged,
    /// Whether its row took a new nonce since.
    has_new_nonce: bool,
}

impl Taken<'_> {
    /// What a judgement for a row, of so many, shows again of it.
    fn shown_in(&self, row: usize, message: &[u8], rows: usize) -> Option<Shown> {
        let for_same_row = self.row == row;
        match self.judged {
            _ if self.message != message => None,
            judged if judged.kind == TYPE_NONCE => (row < rows).then_some(Shown::Ack {
                judged,
                for_same_row,
            }),
            _ if !for_same_row => None,
            _ if self.has_new_nonce => Some(Shown::OrderAfterNonce),
            _ => Some(Shown::Order),
        }
    }
}

/// The judgements of a run from these server rows that show an accepted message again.
pub fn judged_again<'a>(
    start: &Servers,
    steps: &'a [Step],
    answers: &'a [Answer],
) -> Vec<JudgedAgain<'a>> {
    let mut servers = start.clone();
    let mut taken: Vec<Taken> = Vec::new();
    let mut again = Vec::new();
    for (step, answer) in steps.iter().zip(answers) {
        let (Step::Judge { row, message }, Answer::Judge(result)) = (step, answer) else {
            continue;
        };
        let shown = |taken: &Taken| taken.shown_in(*row, message, servers.rows());
        let shown = taken.iter().filter_map(shown);
        again.extend(shown.map(|shown| JudgedAgain { shown, answer }));
        if let Ok(judged) = *result {
            if brings_new_nonce(&servers, *row, message, judged) {
                let of_row = taken.iter_mut().filter(|taken| taken.row == *row);
                of_row.for_each(|taken| taken.has_new_nonce = true);
            }
            taken.push(Taken {
                row: *row,
                message,
                judged,
                has_new_nonce: false,
            });
        }
        let _ = Reference::forcerenew(&mut servers, *row, message);
    }
    again
}

/// Whether an accepted message is an ACK with a nonce other than the one that its row has.
fn brings_new_nonce(servers: &Servers, row: usize, message: &[u8], judged: Judged) -> bool {
    let (_, option) = found_by_nonce(message).expect("an accepted message is by nonce");
    judged.kind == TYPE_NONCE && servers.is_new_nonce(row, &message[option.value()])
}
