//! Second runs. Checks that name one secret keep their order, and so do seals under one secret and
//! judgements for one server row; all else is shuffled, checked messages are relay-changed, and
//! checks and judgements that are refused where they stand are put in.

use super::{take_step, Reference, State, Step};
use crate::generate::{forcerenew, messages, relays, servers};
use crate::random::Random;
use reference::auth::named_id;
use reference::message::full_form;

/// A second run of the same steps, with checks and judgements put in.
pub struct SecondRun {
    pub steps: Vec<Step>,
    /// Where each step of the first run stands.
    pub places: Vec<usize>,
    /// How many checked messages are not as they were in the first run, and how many of these are in
    /// full form with option 82 before option 90.
    pub relayed: usize,
    pub with_82_first: usize,
}

impl SecondRun {
    /// The steps that were put in, with their places.
    pub fn put_in(&self) -> impl Iterator<Item = (usize, &Step)> {
        let steps = self.steps.iter().enumerate();
        steps.filter(|(place, _)| !self.places.contains(place))
    }
}

/// A random second run. What is put in must be refused where it stands, so the run is made along
/// what it meets.
pub fn second_run(random: &mut Random, start: &State, first: &[Step]) -> SecondRun {
    let mut state = start.clone();
    let mut second = SecondRun {
        steps: Vec::new(),
        places: vec![0; first.len()],
        relayed: 0,
        with_82_first: 0,
    };
    for i in shuffled(random, first) {
        put_in_refused(random, &mut second, &state);
        let step = relayed_step(random, &first[i]);
        if step.message() != first[i].message() {
            second.relayed += 1;
            second.with_82_first += usize::from(has_82_first(step.message()));
        }
        take_step::<Reference>(&mut state, &step);
        second.places[i] = second.steps.len();
        second.steps.push(step);
    }
    put_in_refused(random, &mut second, &state);
    second
}

/// What binds a step to an order: the secret that a check names or a seal is under, or the number of
/// the row that a judgement is for, whether there is such a row or not.
#[derive(PartialEq, Eq)]
enum Channel {
    Check(u32),
    Seal(u32),
    Judge(usize),
    Free,
}

fn channel(step: &Step) -> Channel {
    match step {
        Step::Seal { id, .. } => Channel::Seal(*id),
        Step::Judge { row, .. } => Channel::Judge(*row),
        Step::Check { message, .. } => match full_form(message) {
            Ok(shape) => Channel::Check(named_id(message, &shape)),
            Err(_) => Channel::Free,
        },
    }
}

/// The steps' numbers in a random order that keeps each channel's: all are shuffled, and then each
/// channel's steps take the places that its steps got, in their first order.
fn shuffled(random: &mut Random, steps: &[Step]) -> Vec<usize> {
    let channels: Vec<Channel> = steps.iter().map(channel).collect();
    let mut order: Vec<usize> = (0..steps.len()).collect();
    random.shuffle(&mut order);
    let mut taken = vec![false; steps.len()];
    for step in &mut order {
        if channels[*step] != Channel::Free {
            *step = (0..steps.len())
                .find(|i| !taken[*i] && channels[*i] == channels[*step])
                .expect("a channel has as many places as steps");
        }
        taken[*step] = true;
    }
    order
}

/// A step as the network hands it on: a checked message may be relay-changed, and no other.
fn relayed_step(random: &mut Random, step: &Step) -> Step {
    match step {
        Step::Check { message, origin } => Step::Check {
            message: relays::maybe_changed(random, message),
            origin: *origin,
        },
        other => other.clone(),
    }
}

/// Whether a message is in full form with option 82 before option 90.
fn has_82_first(message: &[u8]) -> bool {
    full_form(message).is_ok_and(|shape| {
        shape
            .relay_agent
            .is_some_and(|relay_agent| relay_agent.at < shape.authentication.at)
    })
}

/// Puts in no, one or more checks and judgements that are refused as things are: messages of this run
/// again, or any others.
fn put_in_refused(random: &mut Random, second: &mut SecondRun, state: &State) {
    for _ in 0..random.pick(&[0, 0, 1, 2]) {
        let candidate = match random.below(2) {
            0 => earlier_step(random, second, state),
            _ => None,
        };
        let step = candidate.unwrap_or_else(|| foreign_step(random, state));
        let answer = take_step::<Reference>(&mut state.clone(), &step);
        if answer.number() != 0 {
            second.steps.push(step);
        }
    }
}

/// A check that stands earlier in the run, relay-changed or not, or a judgement that does, for its
/// row or for any.
fn earlier_step(random: &mut Random, second: &SecondRun, state: &State) -> Option<Step> {
    if second.steps.is_empty() {
        return None;
    }
    match &second.steps[random.below(second.steps.len())] {
        Step::Seal { .. } => None,
        Step::Judge { message, .. } if random.one_in(2) => Some(Step::Judge {
            row: servers::any_row(random, state.servers.rows()),
            message: message.clone(),
        }),
        step => Some(relayed_step(random, step)),
    }
}

/// A check or a judgement of a message that is in neither run otherwise.
fn foreign_step(random: &mut Random, state: &State) -> Step {
    let servers = &state.servers;
    if !servers.are_sound() || random.one_in(2) {
        return Step::Check {
            message: messages::any(random, &state.book),
            origin: usize::MAX,
        };
    }
    let row = servers::any_row(random, servers.rows());
    Step::Judge {
        row,
        message: forcerenew::any(random, servers, row),
    }
}

#[cfg(test)]
mod tests {
    use super::*;
    use crate::generate::books;
    use crate::runs::first_run;
    use reference::message::covered_image;

    fn start(random: &mut Random) -> State {
        let rows = random.within(0..=3);
        State {
            book: books::sound_with_a_row(random),
            servers: servers::with_rows(random, rows),
        }
    }

    /// A second run has every step once, in its channel's order, and relayed messages keep what the
    /// MAC covers. A judged message is as it was.
    #[test]
    fn second_runs_are_as_demand_3_allows() {
        let mut random = Random::new(6);
        for _ in 0..500 {
            let start = start(&mut random);
            let first = first_run(&mut random, &start);
            let second = second_run(&mut random, &start, &first);
            for (i, step) in first.iter().enumerate() {
                let there = &second.steps[second.places[i]];
                assert_eq!(covered(there), covered(step));
                assert!(channel(there) == channel(step));
                for (j, later) in first.iter().enumerate().skip(i + 1) {
                    assert_ne!(second.places[i], second.places[j]);
                    let bound = channel(step) != Channel::Free && channel(step) == channel(later);
                    assert!(!bound || second.places[i] < second.places[j]);
                }
            }
        }
    }

    /// What may not be altered on the way: of a checked message in full form what the MAC covers, and
    /// all of a judged one.
    fn covered(step: &Step) -> Option<Vec<u8>> {
        let message = step.message();
        if let Step::Judge { .. } = step {
            return Some(message.to_vec());
        }
        let shape = full_form(message).ok()?;
        Some(covered_image(message, &shape))
    }
}
