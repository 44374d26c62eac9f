//! Demand 3 on random runs: every step of the first run gets the same answer in a second run that
//! the network can make of it, sealed messages have the same bytes, and counters, marks and nonces
//! end the same. In every run an accepted message that is checked again is refused with 11, and so
//! is an accepted FORCERENEW that is shown for its row again where no new nonce was taken there
//! since; an accepted ACK is accepted again. Both implementations do both runs. They begin with
//! rows of every mark.

use compare::generate::{books, servers};
use compare::harness::{cases, for_each_case, same, Difference, Tally};
use compare::random::Random;
use compare::runs::{
    checked_again, first_run, judged_again, run, run_from, run_of_nonces, second_run, Answer,
    Library, Outcome, Reference, SecondRun, Shown, State, Step,
};
use reference::book::HEARD;
use reference::forcerenew::{NONE_YET, TYPE_NONCE};
use reference::{Accepted, Book, Judged, Servers};

/// Runs are longer than single calls: this many cases make one run.
const CASES_PER_RUN: u64 = 10;

#[test]
fn second_runs_give_the_same() {
    let mut seen = Seen::new("runs");
    for_each_case("runs", cases() / CASES_PER_RUN, |random| {
        let start = State {
            book: book(random),
            servers: server_rows(random),
        };
        let first = first_run(random, &start);
        first_and_second(random, &start, &first, &mut seen).map(|_| ())
    });
    seen.tally.print();
    seen.tally.require(&EACH);
    seen.tally.require(&OF_ANY_ROWS);
}

/// Does a run and a second run of it on both implementations, and counts what came up. Gives what the
/// first run gave.
fn first_and_second(
    random: &mut Random,
    start: &State,
    first: &[Step],
    seen: &mut Seen,
) -> Result<Outcome, Difference> {
    let second = second_run(random, start, first);
    let outcome = both(start, first)?;
    let second_outcome = both(start, &second.steps)?;
    agree(&outcome, &second, &second_outcome)?;
    for (steps, outcome) in [(first, &outcome), (&second.steps, &second_outcome)] {
        seen.all_checked_again(steps, outcome)?;
        seen.all_judged_again(&start.servers, steps, outcome)?;
    }
    seen.count(start, &outcome, &second);
    Ok(outcome)
}

/// The first message under a row that is not heard is accepted, whatever its counter, and the row is
/// heard. Shown again, as it was or relayed, behind other steps or at once, it gets 11. All of that
/// is so in a second run.
#[test]
fn runs_that_begin_with_a_row_not_heard() {
    let mut seen = Seen::new("runs from a row not heard");
    for_each_case("first runs", cases() / CASES_PER_RUN / 10, |random| {
        let room = random.within(1..=4);
        let rows = random.within(1..=room);
        let start = State {
            book: books::not_heard(random, room, rows),
            servers: server_rows(random),
        };
        let any = books::counter(random);
        let (row, counter) = (random.below(rows), random.pick(&[0, 0, u64::MAX, any]));
        let first = run_from(random, &start, row, counter);
        let outcome = first_and_second(random, &start, &first, &mut seen)?;
        let accepted = Answer::Check(Ok(Accepted { row, counter }));
        same("the first answer", &accepted, &outcome.answers[0])?;
        same("the mark at the end", &HEARD, &outcome.end.book.marks[row])
    });
    seen.tally.print();
    seen.tally.require(&EACH);
    let least = 4 * cases() / CASES_PER_RUN / 10;
    seen.tally.require_often(&["checked again"], least);
}

/// A FORCERENEW that was accepted gets 11, the nonce that the row has makes no difference, another
/// nonce makes it 12, and the first nonce given back lets it in once more. All of that is so in a
/// second run.
#[test]
fn runs_in_which_nonces_come_and_go() {
    let mut seen = Seen::new("runs of nonces");
    let runs = cases() / CASES_PER_RUN / 10;
    for_each_case("runs of nonces", runs, |random| {
        let rows = random.within(1..=3);
        let mut start = State {
            book: book(random),
            servers: servers::with_rows(random, rows),
        };
        let row = random.below(rows);
        start.servers.marks[row] = NONE_YET;
        let (first, scripted) = run_of_nonces(random, &start, row);
        let outcome = first_and_second(random, &start, &first, &mut seen)?;
        for (step, scripted) in scripted.iter().enumerate() {
            let number = outcome.answers[scripted.place].number();
            same(
                &format!("step {step} of the script"),
                &scripted.number,
                &number,
            )?;
        }
        Ok(())
    });
    seen.tally.print();
    seen.tally.require(&EACH);
    let often = ["FORCERENEW let in once more", "FORCERENEW shown again"];
    seen.tally.require_often(&often, 2 * runs);
}

/// Mostly few rows, so that many steps meet at one.
fn book(random: &mut Random) -> Book {
    match random.below(10) {
        0 => books::sound(random),
        _ => {
            let room = random.within(1..=4);
            let rows = random.within(1..=room);
            books::with_rows(random, room, rows)
        }
    }
}

/// Mostly few server rows. Now and then they are not sound, which no step changes.
fn server_rows(random: &mut Random) -> Servers {
    let mut rows = match random.below(20) {
        0 => servers::sound(random),
        _ => {
            let rows = random.within(0..=3);
            servers::with_rows(random, rows)
        }
    };
    if random.one_in(20) {
        servers::spoil(random, &mut rows);
    }
    rows
}

/// A run on both implementations, which must agree in every answer, and in the whole book and all
/// server rows at the end.
fn both(start: &State, steps: &[Step]) -> Result<Outcome, Difference> {
    let expected = run::<Reference>(start, steps);
    let found = run::<Library>(start, steps);
    for (i, (expected, found)) in expected.answers.iter().zip(&found.answers).enumerate() {
        same(&format!("the answer of step {i}"), expected, found)?;
    }
    same_state("at the end", &expected.end, &found.end)?;
    Ok(found)
}

fn same_state(when: &str, expected: &State, found: &State) -> Result<(), Difference> {
    same(&format!("the book {when}"), &expected.book, &found.book)?;
    let what = format!("the set of server rows {when}");
    same(&what, &expected.servers, &found.servers)
}

/// Every step of the first run has the same answer in the second, what was put in is refused, and
/// all ends the same.
fn agree(first: &Outcome, second: &SecondRun, outcome: &Outcome) -> Result<(), Difference> {
    for (i, place) in second.places.iter().enumerate() {
        let what = format!("the answer of step {i}, at {place} in the second run");
        same(&what, &first.answers[i], &outcome.answers[*place])?;
    }
    for (place, step) in second.put_in() {
        let answer = &outcome.answers[place];
        if matches!(step, Step::Seal { .. }) || answer.number() == 0 {
            return Err(format!("the step put in at {place} got {answer:?}"));
        }
    }
    same_state("after the second run", &first.end, &outcome.end)
}

/// What came up among the runs.
struct Seen {
    tally: Tally<&'static str>,
}

/// What must have come up for a test to say something.
const EACH: [&str; 20] = [
    "message accepted",
    "message refused",
    "message accepted with counter 0",
    "row heard for the first time",
    "message sealed",
    "seal refused",
    "nonce given",
    "FORCERENEW accepted",
    "judgement refused",
    "step moved",
    "judgement moved",
    "message relayed",
    "message relayed with 82 before 90",
    "check put in",
    "judgement put in",
    "checked again",
    "checked again, relayed",
    "ACK shown again",
    "ACK shown again for another row",
    "FORCERENEW shown again",
];

/// What must have come up where there are many runs, on server rows of any kind.
const OF_ANY_ROWS: [&str; 5] = [
    "FORCERENEW let in once more",
    "counter 0 checked again",
    "counter 0 checked again, relayed",
    "judgement for a row that isn't there",
    "judgement on rows that are not sound",
];

impl Seen {
    fn new(name: &str) -> Self {
        Seen {
            tally: Tally::new(name),
        }
    }

    fn count_if(&mut self, holds: bool, what: &'static str) {
        if holds {
            self.tally.count(what);
        }
    }

    /// Counts the checks that showed an accepted message again; all of them got 11.
    fn all_checked_again(&mut self, steps: &[Step], outcome: &Outcome) -> Result<(), Difference> {
        for again in checked_again(steps, &outcome.answers) {
            let refused = Answer::Check(Err(11));
            same("the answer to a replay", &refused, again.answer)?;
            self.tally.count("checked again");
            self.count_if(again.relayed, "checked again, relayed");
            let is_0 = again.accepted.counter == 0;
            self.count_if(is_0, "counter 0 checked again");
            self.count_if(is_0 && again.relayed, "counter 0 checked again, relayed");
        }
        Ok(())
    }

    /// Counts the judgements that showed an accepted message again; all of them got what they must.
    fn all_judged_again(
        &mut self,
        start: &Servers,
        steps: &[Step],
        outcome: &Outcome,
    ) -> Result<(), Difference> {
        for again in judged_again(start, steps, &outcome.answers) {
            match again.shown {
                Shown::Order => {
                    let refused = Answer::Judge(Err(11));
                    same("the answer to an old FORCERENEW", &refused, again.answer)?;
                    self.tally.count("FORCERENEW shown again");
                }
                Shown::OrderAfterNonce => {
                    let let_in = again.answer.number() == 0;
                    self.count_if(let_in, "FORCERENEW let in once more");
                }
                Shown::Ack {
                    judged,
                    for_same_row,
                } => {
                    let accepted = Answer::Judge(Ok(judged));
                    same("the answer to an ACK shown again", &accepted, again.answer)?;
                    self.tally.count(match for_same_row {
                        true => "ACK shown again",
                        false => "ACK shown again for another row",
                    });
                }
            }
        }
        Ok(())
    }

    fn count(&mut self, start: &State, outcome: &Outcome, second: &SecondRun) {
        self.tally.count("run");
        let marks = start.book.marks.iter().zip(&outcome.end.book.marks);
        for (before, after) in marks {
            self.count_if(before != after, "row heard for the first time");
        }
        for answer in &outcome.answers {
            self.count_answer(answer);
        }
        for (_, step) in second.put_in() {
            self.tally.count(match step {
                Step::Judge { .. } => "judgement put in",
                _ => "check put in",
            });
        }
        self.count_moved(outcome, second);
        for _ in 0..second.relayed {
            self.tally.count("message relayed");
        }
        for _ in 0..second.with_82_first {
            self.tally.count("message relayed with 82 before 90");
        }
    }

    fn count_answer(&mut self, answer: &Answer) {
        self.tally.count(match answer {
            Answer::Check(Ok(_)) => "message accepted",
            Answer::Check(Err(_)) => "message refused",
            Answer::Seal(Ok(_), _) => "message sealed",
            Answer::Seal(Err(_), _) => "seal refused",
            Answer::Judge(Ok(Judged { kind, .. })) if *kind == TYPE_NONCE => "nonce given",
            Answer::Judge(Ok(_)) => "FORCERENEW accepted",
            Answer::Judge(Err(_)) => "judgement refused",
        });
        match answer {
            Answer::Check(Ok(Accepted { counter: 0, .. })) => {
                self.tally.count("message accepted with counter 0");
            }
            Answer::Judge(Err(1)) => self.tally.count("judgement on rows that are not sound"),
            Answer::Judge(Err(10)) => self.tally.count("judgement for a row that isn't there"),
            _ => {}
        }
    }

    /// Counts the steps that stand before one that they stood behind.
    fn count_moved(&mut self, outcome: &Outcome, second: &SecondRun) {
        for (answers, places) in outcome.answers.windows(2).zip(second.places.windows(2)) {
            let moved = places[1] < places[0];
            self.count_if(moved, "step moved");
            let is_judgement = matches!(answers[1], Answer::Judge(_));
            self.count_if(moved && is_judgement, "judgement moved");
        }
    }
}
