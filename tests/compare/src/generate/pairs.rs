//! Pairs of messages to be compared: equal ones, ones that a relay changed, ones with one to three
//! things altered, ones that have nothing to do with each other, crowded ones, and refused ones.

use super::drafts::{self, Draft, Part};
use super::{relays, rooms};
use crate::random::Random;
use reference::comparison::{lines, text, COMPARISON_MOST, FIELDS};
use reference::comparison_examples::longest_known;
use reference::message::{
    AUTHENTICATION, END, GIADDR, HOPS_AT, MESSAGE_MOST, OPTIONS_AT, PAD, RELAY_AGENT,
};

/// Any two messages, in either order.
pub fn any(random: &mut Random) -> [Vec<u8>; 2] {
    let [first, second] = match random.below(100) {
        0..=4 => equal(random),
        5..=24 => relayed(random),
        25..=59 => edited(random),
        60..=64 => edited_and_relayed(random),
        65..=69 => with_a_byte_changed(random),
        70..=84 => refused(random),
        85..=89 => [drafts::random_bytes(random), maybe_random_bytes(random)],
        90..=97 => [0, 1].map(|_| draft(random).bytes()),
        _ => crowded(random),
    };
    match random.below(2) {
        0 => [first, second],
        _ => [second, first],
    }
}

/// Room for the lines of two messages.
pub fn room(random: &mut Random, [first, second]: &[Vec<u8>; 2]) -> Vec<u8> {
    let size = match lines(first, second) {
        Ok(lines) => text(&lines).len(),
        Err(_) => random.within(1..=200),
    };
    match random.below(16) {
        0 => vec![],
        _ => rooms::about(random, size, &[COMPARISON_MOST, COMPARISON_MOST - 1]),
    }
}

fn equal(random: &mut Random) -> [Vec<u8>; 2] {
    let message = draft(random).bytes();
    [message.clone(), message]
}

/// A message, and what relays make of it: each of hops and giaddr is mostly set, and option 82 added,
/// altered, taken out or moved.
fn relayed(random: &mut Random) -> [Vec<u8>; 2] {
    let draft = draft(random);
    let first = draft.bytes();
    let mut second = match random.below(4) {
        0 => with_82_moved(random, draft),
        _ => relays::changed(random, &first),
    };
    for (name, place) in FIELDS {
        if ["hops", "giaddr"].contains(&name) && random.one_in(3) {
            second[place.clone()].copy_from_slice(&first[place]);
        }
    }
    [first, second]
}

/// The message with its option 82, if it has one, at any place, and with any hops and giaddr.
fn with_82_moved(random: &mut Random, mut draft: Draft) -> Vec<u8> {
    if let Some(relay_agent) = draft.take(RELAY_AGENT) {
        draft.insert_anywhere(random, relay_agent);
    }
    draft.header[HOPS_AT] = random.u8();
    draft.header[GIADDR].copy_from_slice(&random.u32().to_be_bytes());
    draft.bytes()
}

/// A message, and the same with one to three things altered.
fn edited(random: &mut Random) -> [Vec<u8>; 2] {
    let draft = draft(random);
    let mut other = draft.clone();
    for _ in 0..random.pick(&[1, 1, 2, 3]) {
        random.pick(&Edit::ALL).make(random, &mut other);
    }
    [draft.bytes(), other.bytes()]
}

fn edited_and_relayed(random: &mut Random) -> [Vec<u8>; 2] {
    let [first, second] = edited(random);
    let second = relays::changed(random, &second);
    [first, second]
}

/// A message, and the same with a byte changed at any place.
fn with_a_byte_changed(random: &mut Random) -> [Vec<u8>; 2] {
    let first = draft(random).bytes();
    let mut second = first.clone();
    let at = random.below(second.len());
    second[at] ^= random.within(1..=255) as u8;
    [first, second]
}

/// Two messages of which the first, the second or both have a fault of form.
fn refused(random: &mut Random) -> [Vec<u8>; 2] {
    let draft = draft(random);
    let first = spoiled(random, draft.clone());
    let second = match random.below(4) {
        0 => draft.bytes(),
        1 => first.clone(),
        _ => spoiled(random, draft),
    };
    [first, second]
}

fn spoiled(random: &mut Random, mut draft: Draft) -> Vec<u8> {
    let fault = random.pick(&drafts::Fault::ALL);
    fault.spoil_parts(random, &mut draft);
    let mut message = draft.bytes();
    fault.spoil_bytes(random, &mut message);
    message
}

fn maybe_random_bytes(random: &mut Random) -> Vec<u8> {
    match random.below(2) {
        0 => drafts::random_bytes(random),
        _ => draft(random).bytes(),
    }
}

/// Two messages of hundreds of empty options, or the two with the longest lines known.
fn crowded(random: &mut Random) -> [Vec<u8>; 2] {
    if random.one_in(20) {
        return longest_known();
    }
    let draft = crowd(random);
    let mut other = match random.below(4) {
        0 => crowd(random),
        _ => draft.clone(),
    };
    match random.below(5) {
        0 => random.shuffle(&mut other.parts),
        1 => drop(other.parts.remove(0)),
        2 => {
            let body = body_of(random, &mut other, is_other);
            body.into_iter().for_each(|body| body.push(0));
        }
        _ => random.pick(&Edit::ALL).make(random, &mut other),
    }
    [draft.bytes(), other.bytes()]
}

/// The most options that a message has room for, option 90 among them: all of them empty.
const OPTIONS_MOST: usize = (MESSAGE_MOST - OPTIONS_AT - 1) / 2;

/// A message of empty options of one to three codes, with up to as many as there is room for.
fn crowd(random: &mut Random) -> Draft {
    let empty = |code| Part::Option { code, body: vec![] };
    let mut draft = Draft::with(random, &[empty(AUTHENTICATION)]);
    let codes = [0, 1, 2].map(|_| random.pick(&[1, 9, 10, 12, 99, 100, 200, 254]));
    let some = random.within(150..=OPTIONS_MOST - 1);
    let count = random.pick(&[some, OPTIONS_MOST - 2, OPTIONS_MOST - 1]);
    draft.parts = (0..count).map(|_| empty(random.pick(&codes))).collect();
    draft.after_end.clear();
    draft.insert_anywhere(random, empty(AUTHENTICATION));
    draft
}

/// A well-formed draft, of which some codes are there more than once. Option 90 may have any length.
fn draft(random: &mut Random) -> Draft {
    let authentication = match random.below(4) {
        0 => Part::Option {
            code: AUTHENTICATION,
            body: body(random),
        },
        _ => drafts::full_form(random),
    };
    let mut draft = Draft::with(random, &[authentication]);
    for _ in 0..random.pick(&[0, 0, 1, 3, 12]) {
        repeat_option(random, &mut draft);
    }
    fit(&mut draft);
    draft
}

/// A body of any length, mostly a short one.
fn body(random: &mut Random) -> Vec<u8> {
    let any = random.within(0..=255);
    let short = random.within(0..=12);
    let length = random.pick(&[0, 1, short, short, any]);
    random.bytes(length)
}

/// Cuts the bytes after End where the message is above 1,472 bytes, as far as there are such.
fn fit(draft: &mut Draft) {
    let above = draft.bytes().len().saturating_sub(MESSAGE_MOST);
    let left = draft.after_end.len().saturating_sub(above);
    draft.after_end.truncate(left);
}

/// One thing altered in a message.
#[derive(Clone, Copy, Debug, PartialEq, Eq)]
pub enum Edit {
    /// A byte of one field of the header.
    Field,
    TakeOption,
    AddOption,
    /// One more option of a code that is there.
    RepeatOption,
    /// Two options or pads change places.
    Exchange,
    /// Two options of one code change places.
    ExchangeOfACode,
    /// An option gets another code.
    Recode,
    /// A byte of an option's body.
    Body,
    /// An option's body gets longer or shorter.
    Length,
    Authentication,
    RelayAgent,
    AddPad,
    TakePad,
    MovePad,
    /// A byte after End.
    Tail,
    /// The number of bytes after End.
    TailLength,
    /// End moves in front of a pad, which then stands behind it, or back.
    EndAmongPads,
}

impl Edit {
    pub const ALL: [Edit; 17] = [
        Edit::Field,
        Edit::TakeOption,
        Edit::AddOption,
        Edit::RepeatOption,
        Edit::Exchange,
        Edit::ExchangeOfACode,
        Edit::Recode,
        Edit::Body,
        Edit::Length,
        Edit::Authentication,
        Edit::RelayAgent,
        Edit::AddPad,
        Edit::TakePad,
        Edit::MovePad,
        Edit::Tail,
        Edit::TailLength,
        Edit::EndAmongPads,
    ];

    /// Makes the change, where there is what it takes.
    pub fn make(self, random: &mut Random, draft: &mut Draft) {
        match self {
            Edit::Field => change_field(random, draft),
            Edit::TakeOption => drop(take(random, draft, is_other)),
            Edit::AddOption => {
                let part = drafts::other_option(random, 20);
                draft.insert_anywhere(random, part);
            }
            Edit::RepeatOption => repeat_option(random, draft),
            Edit::Exchange => exchange(random, draft),
            Edit::ExchangeOfACode => exchange_of_a_code(random, draft),
            Edit::Recode => recode(random, draft),
            Edit::Body => change_body(random, draft, is_other),
            Edit::Length => change_length(random, draft, is_other),
            Edit::Authentication => match random.below(2) {
                0 => change_body(random, draft, |part| part.has_code(AUTHENTICATION)),
                _ => change_length(random, draft, |part| part.has_code(AUTHENTICATION)),
            },
            Edit::RelayAgent => change_relay_agent(random, draft),
            Edit::AddPad => draft.insert_anywhere(random, Part::Pad),
            Edit::TakePad => drop(take(random, draft, is_pad)),
            Edit::MovePad => {
                if let Some(pad) = take(random, draft, is_pad) {
                    draft.insert_anywhere(random, pad);
                }
            }
            Edit::Tail => change_byte(random, &mut draft.after_end),
            Edit::TailLength => resize(random, &mut draft.after_end, 40),
            Edit::EndAmongPads => move_end(draft),
        }
    }
}

fn is_pad(part: &Part) -> bool {
    matches!(part, Part::Pad)
}

/// Whether it is an option of which there may be any number.
fn is_other(part: &Part) -> bool {
    let code = part.code();
    code.is_some_and(|code| ![AUTHENTICATION, RELAY_AGENT].contains(&code))
}

/// Where a part of this kind is, if there is one.
fn place(random: &mut Random, draft: &Draft, kind: fn(&Part) -> bool) -> Option<usize> {
    let places: Vec<usize> = (0..draft.parts.len())
        .filter(|at| kind(&draft.parts[*at]))
        .collect();
    (!places.is_empty()).then(|| random.pick(&places))
}

/// The body of an option of this kind, if there is one.
fn body_of<'a>(
    random: &mut Random,
    draft: &'a mut Draft,
    kind: fn(&Part) -> bool,
) -> Option<&'a mut Vec<u8>> {
    let at = place(random, draft, kind)?;
    match &mut draft.parts[at] {
        Part::Option { body, .. } => Some(body),
        Part::Pad => None,
    }
}

/// Takes a part of this kind out and gives it back.
fn take(random: &mut Random, draft: &mut Draft, kind: fn(&Part) -> bool) -> Option<Part> {
    let at = place(random, draft, kind)?;
    Some(draft.parts.remove(at))
}

fn change_field(random: &mut Random, draft: &mut Draft) {
    let (_, place) = &FIELDS[random.below(FIELDS.len())];
    change_byte(random, &mut draft.header[place.clone()]);
}

/// Changes any byte, if there is one.
fn change_byte(random: &mut Random, bytes: &mut [u8]) {
    if !bytes.is_empty() {
        let at = random.below(bytes.len());
        bytes[at] ^= random.within(1..=255) as u8;
    }
}

/// Gives bytes another length, up to so many more.
fn resize(random: &mut Random, bytes: &mut Vec<u8>, more: usize) {
    let longer = bytes.len() + random.within(1..=more);
    let shorter = random.within(0..=bytes.len());
    bytes.resize(random.pick(&[longer, shorter]), random.u8());
}

fn change_body(random: &mut Random, draft: &mut Draft, kind: fn(&Part) -> bool) {
    if let Some(body) = body_of(random, draft, kind) {
        change_byte(random, body);
    }
}

fn change_length(random: &mut Random, draft: &mut Draft, kind: fn(&Part) -> bool) {
    if let Some(body) = body_of(random, draft, kind) {
        resize(random, body, 10);
        body.truncate(255);
    }
}

/// One more option of a code that is there, with the same body or another.
fn repeat_option(random: &mut Random, draft: &mut Draft) {
    let Some(at) = place(random, draft, is_other) else {
        return;
    };
    let mut again = draft.parts[at].clone();
    if let (Part::Option { body: held, .. }, true) = (&mut again, random.one_in(2)) {
        *held = body(random);
    }
    draft.insert_anywhere(random, again);
}

/// Two parts change places, if there are two.
fn exchange(random: &mut Random, draft: &mut Draft) {
    let (one, other) = (
        random.below(draft.parts.len()),
        random.below(draft.parts.len()),
    );
    draft.parts.swap(one, other);
}

/// Two options of one code change places, if there are two.
fn exchange_of_a_code(random: &mut Random, draft: &mut Draft) {
    let parts = &draft.parts;
    let behind = |one: usize| (one + 1..parts.len()).map(move |other| (one, other));
    let alike = |(one, other): &(usize, usize)| {
        is_other(&parts[*one]) && parts[*one].code() == parts[*other].code()
    };
    let pairs: Vec<(usize, usize)> = (0..parts.len()).flat_map(behind).filter(alike).collect();
    if !pairs.is_empty() {
        let (one, other) = random.pick(&pairs);
        draft.parts.swap(one, other);
    }
}

/// Gives an option another code, of one that is there or any.
fn recode(random: &mut Random, draft: &mut Draft) {
    let there = place(random, draft, is_other).and_then(|at| draft.parts[at].code());
    let part = match there {
        Some(code) if random.one_in(2) => Part::Option { code, body: vec![] },
        _ => drafts::other_option(random, 0),
    };
    let place = place(random, draft, is_other).map(|at| &mut draft.parts[at]);
    if let (Some(Part::Option { code, .. }), Part::Option { code: wanted, .. }) = (place, part) {
        *code = wanted;
    }
}

/// Adds option 82, alters its body, moves it or takes it out.
fn change_relay_agent(random: &mut Random, draft: &mut Draft) {
    match draft.take(RELAY_AGENT) {
        None => {
            let part = drafts::relay_agent(random);
            draft.insert_anywhere(random, part);
        }
        Some(part) => match random.below(3) {
            0 => {}
            1 => draft.insert_anywhere(random, part),
            _ => {
                let part = drafts::relay_agent(random);
                draft.insert_anywhere(random, part);
            }
        },
    }
}

/// The last part, if it is a pad, goes behind End, or the first byte there becomes a pad before it.
fn move_end(draft: &mut Draft) {
    match draft.parts.last() {
        Some(Part::Pad) => {
            draft.parts.pop();
            draft.after_end.insert(0, PAD);
        }
        _ => {
            draft.parts.push(Part::Pad);
            if let Some(first) = draft.after_end.first_mut() {
                *first = END;
            }
        }
    }
}

#[cfg(test)]
mod tests {
    use super::*;
    use reference::message::shape;

    /// Each edit mostly leaves a message that passes 2 to 7, and mostly makes another of it.
    #[test]
    fn edits_alter_messages() {
        let mut random = Random::new(41);
        for edit in Edit::ALL {
            let [mut passed, mut altered] = [0; 2];
            for _ in 0..500 {
                let draft = draft(&mut random);
                let mut other = draft.clone();
                edit.make(&mut random, &mut other);
                passed += usize::from(shape(&other.bytes()).is_ok());
                altered += usize::from(other.bytes() != draft.bytes());
            }
            assert!(passed > 300, "{edit:?}: {passed} of 500 passed");
            assert!(altered > 100, "{edit:?}: {altered} of 500 altered");
        }
    }

    /// A message before any edit passes 2 to 7, but for a few that got too long.
    #[test]
    fn drafts_pass() {
        let mut random = Random::new(42);
        let passed = |message: Vec<u8>| usize::from(shape(&message).is_ok());
        let passing: usize = (0..1_000).map(|_| passed(draft(&mut random).bytes())).sum();
        assert!(passing > 950, "{passing} of 1,000 pass");
        for _ in 0..100 {
            let crowd = crowd(&mut random).bytes();
            assert!(shape(&crowd).is_ok() && crowd.len() <= MESSAGE_MOST);
        }
        assert_eq!(OPTIONS_MOST, 615);
    }

    /// Relayed pairs differ in hops, in giaddr, and in neither.
    #[test]
    fn relays_set_each_of_hops_and_giaddr() {
        let mut random = Random::new(43);
        let mut seen = vec![];
        for _ in 0..500 {
            let [first, second] = relayed(&mut random);
            seen.push((first[3] != second[3], first[24..28] != second[24..28]));
        }
        for hops in [false, true] {
            for giaddr in [false, true] {
                assert!(seen.contains(&(hops, giaddr)), "{hops} and {giaddr}");
            }
        }
    }
}
