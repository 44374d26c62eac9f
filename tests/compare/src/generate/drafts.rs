//! Messages in parts, to be changed before their bytes are put together, and what can be wrong with
//! their form (numbers 2 to 7), whatever option 90 holds.

use crate::random::Random;
use reference::message::{
    places, shape, AUTHENTICATION, COOKIE, COOKIE_AT, DELAYED_HMAC_MD5, END, FULL_LENGTH,
    MESSAGE_LEAST, MESSAGE_MOST, MESSAGE_TYPE, OPTIONS_AT, PAD, RELAY_AGENT,
};

/// Random bytes of random length. Most have the cookie, and option bytes that are often codes and
/// short lengths, so that reading gets into them.
pub fn random_bytes(random: &mut Random) -> Vec<u8> {
    let length = match random.below(4) {
        0 => random.within(0..=MESSAGE_LEAST),
        _ => random.within(MESSAGE_LEAST..=1_600),
    };
    let mut message = random.bytes(length);
    if length < OPTIONS_AT || random.one_in(4) {
        return message;
    }
    message[COOKIE_AT..OPTIONS_AT].copy_from_slice(&COOKIE);
    for byte in &mut message[OPTIONS_AT..] {
        *byte = match random.below(8) {
            0..=1 => random.pick(&[PAD, MESSAGE_TYPE, RELAY_AGENT, AUTHENTICATION, END]),
            2..=4 => random.pick(&[0, 1, 2, 3, 11, 28, 31]),
            _ => random.u8(),
        };
    }
    message
}

/// A message in parts.
#[derive(Clone)]
pub struct Draft {
    pub header: Vec<u8>,
    pub parts: Vec<Part>,
    pub has_end: bool,
    pub after_end: Vec<u8>,
}

#[derive(Clone)]
pub enum Part {
    Pad,
    Option { code: u8, body: Vec<u8> },
}

impl Part {
    /// An option's code.
    pub fn code(&self) -> Option<u8> {
        match self {
            Part::Pad => None,
            Part::Option { code, .. } => Some(*code),
        }
    }

    pub fn has_code(&self, wanted: u8) -> bool {
        self.code() == Some(wanted)
    }

    pub fn write(&self, bytes: &mut Vec<u8>) {
        match self {
            Part::Pad => bytes.push(PAD),
            Part::Option { code, body } => {
                bytes.extend_from_slice(&[*code, body.len() as u8]);
                bytes.extend_from_slice(body);
            }
        }
    }
}

impl Draft {
    /// A well-formed draft with these options somewhere among other options and pads, perhaps
    /// option 82 somewhere too, End, and bytes after End.
    pub fn with(random: &mut Random, options: &[Part]) -> Self {
        loop {
            let mut draft = Draft {
                header: header(random),
                parts: parts(random, options),
                has_end: true,
                after_end: vec![],
            };
            if let Some(left) = MESSAGE_MOST.checked_sub(draft.bytes().len()) {
                draft.after_end = after_end(random, left);
                return draft;
            }
        }
    }

    pub fn bytes(&self) -> Vec<u8> {
        let mut bytes = self.header.clone();
        for part in &self.parts {
            part.write(&mut bytes);
        }
        if self.has_end {
            bytes.push(END);
        }
        bytes.extend_from_slice(&self.after_end);
        bytes
    }

    /// Where the first option of a code is among the parts.
    pub fn position(&self, code: u8) -> Option<usize> {
        self.parts.iter().position(|part| part.has_code(code))
    }

    /// The body of the first option of a code.
    pub fn body(&mut self, code: u8) -> Option<&mut Vec<u8>> {
        let at = self.position(code)?;
        match &mut self.parts[at] {
            Part::Option { body, .. } => Some(body),
            Part::Pad => None,
        }
    }

    /// Takes the first option of a code out and gives it back.
    pub fn take(&mut self, code: u8) -> Option<Part> {
        let at = self.position(code)?;
        Some(self.parts.remove(at))
    }

    pub fn insert_anywhere(&mut self, random: &mut Random, part: Part) {
        let at = random.within(0..=self.parts.len());
        self.parts.insert(at, part);
    }
}

fn header(random: &mut Random) -> Vec<u8> {
    let mut header = match random.below(3) {
        0 => vec![0; OPTIONS_AT],
        _ => random.bytes(OPTIONS_AT),
    };
    header[COOKIE_AT..].copy_from_slice(&COOKIE);
    header
}

/// These options, in any order, among other options and pads.
fn parts(random: &mut Random, options: &[Part]) -> Vec<Part> {
    let mut parts: Vec<Part> = (0..random.within(0..=6))
        .map(|_| pad_or_other(random))
        .collect();
    if random.one_in(8) {
        parts.extend((0..random.within(1..=3)).map(|_| other_option(random, 255)));
    }
    for option in options {
        let at = random.within(0..=parts.len());
        parts.insert(at, option.clone());
    }
    if random.one_in(2) {
        add_relay_agent(random, &mut parts);
    }
    parts
}

/// Puts option 82 among the parts: anywhere, between two pads of its own, or right before or behind
/// option 90.
fn add_relay_agent(random: &mut Random, parts: &mut Vec<Part>) {
    let authentication = parts.iter().position(|part| part.has_code(AUTHENTICATION));
    let anywhere = random.within(0..=parts.len());
    let at = match (random.below(8), authentication) {
        (0, Some(authentication)) => authentication,
        (1, Some(authentication)) => authentication + 1,
        (2, _) => {
            parts.splice(anywhere..anywhere, [Part::Pad, Part::Pad]);
            anywhere + 1
        }
        _ => anywhere,
    };
    parts.insert(at, relay_agent(random));
}

fn pad_or_other(random: &mut Random) -> Part {
    match random.below(3) {
        0 => Part::Pad,
        _ => other_option(random, 40),
    }
}

/// The codes that rules look at.
const LOOKED_AT: [u8; 3] = [MESSAGE_TYPE, RELAY_AGENT, AUTHENTICATION];

/// An option of another code. Its body often holds the codes that reading must not find there.
pub fn other_option(random: &mut Random, most: usize) -> Part {
    let code = loop {
        let code = random.within(1..=254) as u8;
        if !LOOKED_AT.contains(&code) {
            break code;
        }
    };
    let length = random.within(0..=most);
    let mut body = random.bytes(length);
    if random.one_in(3) {
        for byte in &mut body {
            *byte = random.pick(&[PAD, MESSAGE_TYPE, RELAY_AGENT, AUTHENTICATION, END, 31, 1]);
        }
    }
    Part::Option { code, body }
}

/// Option 90 in full form with any counter, id and MAC.
pub fn full_form(random: &mut Random) -> Part {
    let mut body = random.bytes(FULL_LENGTH);
    body[..3].copy_from_slice(&DELAYED_HMAC_MD5);
    Part::Option {
        code: AUTHENTICATION,
        body,
    }
}

/// Option 53 with this body.
pub fn message_type(body: &[u8]) -> Part {
    Part::Option {
        code: MESSAGE_TYPE,
        body: body.to_vec(),
    }
}

/// Option 82 with any body.
pub fn relay_agent(random: &mut Random) -> Part {
    let length = match random.below(8) {
        0 => 0,
        1 => 255,
        _ => random.within(1..=60),
    };
    Part::Option {
        code: RELAY_AGENT,
        body: random.bytes(length),
    }
}

/// Bytes after End: often none, sometimes as many as there is room for, or so many that an option 82
/// brings the message to its largest size.
fn after_end(random: &mut Random, left: usize) -> Vec<u8> {
    let length = match random.below(9) {
        0..=2 => 0,
        3 => left,
        4 => random.within(0..=left),
        5 => left.saturating_sub(random.within(2..=257)),
        _ => random.within(0..=left.min(40)),
    };
    let mut bytes = random.bytes(length);
    if random.one_in(4) {
        bytes.fill(random.pick(&[PAD, MESSAGE_TYPE, RELAY_AGENT, AUTHENTICATION, END]));
    }
    bytes
}

/// One thing wrong with a message's form.
#[derive(Clone, Copy, Debug, PartialEq, Eq)]
pub enum Fault {
    TooShort,
    TooLong,
    Cookie,
    Cut,
    LengthPastEnd,
    NoEnd,
    NoAuthentication,
    AuthenticationInBody,
    AuthenticationAfterEnd,
    TwoAuthentications,
    TwoRelayAgents,
    RelayAgentAbove1472,
}

impl Fault {
    pub const ALL: [Fault; 12] = [
        Fault::TooShort,
        Fault::TooLong,
        Fault::Cookie,
        Fault::Cut,
        Fault::LengthPastEnd,
        Fault::NoEnd,
        Fault::NoAuthentication,
        Fault::AuthenticationInBody,
        Fault::AuthenticationAfterEnd,
        Fault::TwoAuthentications,
        Fault::TwoRelayAgents,
        Fault::RelayAgentAbove1472,
    ];

    /// Makes the fault in a draft, where it is one of the parts.
    pub fn spoil_parts(self, random: &mut Random, draft: &mut Draft) {
        match self {
            Fault::Cookie => {
                let at = COOKIE_AT + random.below(4);
                draft.header[at] ^= 1 << random.below(8);
            }
            Fault::NoEnd => {
                draft.has_end = false;
                draft.after_end.fill(PAD);
            }
            Fault::NoAuthentication => drop(draft.take(AUTHENTICATION)),
            Fault::AuthenticationInBody => hide_in_body(draft, AUTHENTICATION),
            Fault::AuthenticationAfterEnd => hide_after_end(draft, AUTHENTICATION),
            Fault::TwoAuthentications => {
                let second = second_authentication(random);
                draft.insert_anywhere(random, second);
            }
            Fault::TwoRelayAgents => {
                for _ in 0..2 {
                    let part = relay_agent(random);
                    draft.insert_anywhere(random, part);
                }
            }
            Fault::RelayAgentAbove1472 => fill_up(random, draft),
            _ => {}
        }
    }

    /// Makes the fault in a message, where it is one of the bytes.
    pub fn spoil_bytes(self, random: &mut Random, message: &mut Vec<u8>) {
        match self {
            Fault::TooShort => {
                let any = random.within(0..=MESSAGE_LEAST - 1);
                message.truncate(random.pick(&[MESSAGE_LEAST - 1, any]));
            }
            Fault::TooLong => {
                let any = random.within(MESSAGE_MOST + 1..=2_000);
                message.resize(random.pick(&[MESSAGE_MOST + 1, any]), PAD);
            }
            Fault::Cut => {
                if let Ok(found) = shape(message) {
                    let most = found.end_at.max(MESSAGE_LEAST);
                    message.truncate(random.within(MESSAGE_LEAST..=most));
                }
            }
            Fault::LengthPastEnd => lengthen_last_option(random, message),
            Fault::RelayAgentAbove1472 => add_relay_agent_above_1472(random, message),
            _ => {}
        }
    }
}

/// Takes an option out and puts its bytes into the body of another, where reading must not find them.
pub fn hide_in_body(draft: &mut Draft, code: u8) {
    if let Some(part) = draft.take(code) {
        let mut body = vec![];
        part.write(&mut body);
        draft.parts.insert(0, Part::Option { code: 43, body });
    }
}

/// Takes an option out and puts its bytes after End, where reading must not find them.
pub fn hide_after_end(draft: &mut Draft, code: u8) {
    if let Some(part) = draft.take(code) {
        draft.after_end.clear();
        part.write(&mut draft.after_end);
    }
}

/// One option 90 more: in full form, or empty.
fn second_authentication(random: &mut Random) -> Part {
    match random.below(2) {
        0 => full_form(random),
        _ => Part::Option {
            code: AUTHENTICATION,
            body: vec![],
        },
    }
}

/// Takes option 82 out and puts so many bytes after End that an option 82 can bring the message to
/// one byte above its largest size.
fn fill_up(random: &mut Random, draft: &mut Draft) {
    draft.parts.retain(|part| !part.has_code(RELAY_AGENT));
    draft.after_end.clear();
    let most = MESSAGE_MOST + 1 - random.within(2..=257);
    let left = most.saturating_sub(draft.bytes().len());
    draft.after_end = random.bytes(left);
}

/// Lets the last option reach to the message's very end, so that there is no End, or past it.
fn lengthen_last_option(random: &mut Random, message: &mut Vec<u8>) {
    let Ok(found) = shape(message) else { return };
    let last = last_option(message);
    message.truncate(found.end_at + 1);
    let to_the_end = message.len() - last - 2;
    if to_the_end <= 255 {
        let any = random.within(to_the_end..=255);
        message[last + 1] = random.pick(&[to_the_end, any]) as u8;
    }
}

/// Where the last option begins, of a message that has one and an End.
fn last_option(message: &[u8]) -> usize {
    let places = places(message).expect("there is an End");
    let is_option = |at: &usize| ![PAD, END].contains(&message[*at]);
    let last = places.into_iter().rev().find(is_option);
    last.expect("there is an option")
}

/// Adds an option 82, before any option, pad or End, that brings the message to one byte above its
/// largest size, where an option 82 can be so long.
fn add_relay_agent_above_1472(random: &mut Random, message: &mut Vec<u8>) {
    let length = (MESSAGE_MOST + 1).checked_sub(message.len() + 2);
    if let (Some(places), Some(length @ 0..=255)) = (places(message), length) {
        let at = random.pick(&places);
        let mut option = vec![RELAY_AGENT, length as u8];
        option.extend(random.bytes(length));
        message.splice(at..at, option);
    }
}

#[cfg(test)]
mod tests {
    use super::*;
    use crate::generate::situations;
    use reference::refusal::number_of;

    /// Messages with these things wrong.
    fn sample(faults: &[Fault]) -> Vec<Vec<u8>> {
        let mut random = Random::new(7);
        (0..5_000)
            .map(|_| with_faults(&mut random, faults))
            .collect()
    }

    fn with_faults(random: &mut Random, faults: &[Fault]) -> Vec<u8> {
        let authentication = full_form(random);
        let mut draft = Draft::with(random, &[authentication]);
        for fault in faults {
            fault.spoil_parts(random, &mut draft);
        }
        let mut message = draft.bytes();
        for fault in faults {
            fault.spoil_bytes(random, &mut message);
        }
        message
    }

    #[test]
    fn option_82_comes_up_at_every_place() {
        let messages = sample(&[]);
        situations::require_each(&messages);
        situations::require_every_place(&messages);
    }

    /// The given options stand in either order, side by side and apart.
    #[test]
    fn options_come_up_in_either_order() {
        let mut random = Random::new(19);
        let options = [
            message_type(&[5]),
            Part::Option {
                code: AUTHENTICATION,
                body: vec![0; 28],
            },
        ];
        let mut distances = vec![];
        for _ in 0..1_000 {
            let draft = Draft::with(&mut random, &options);
            let place = |code| draft.position(code).expect("the option is there") as isize;
            distances.push(place(AUTHENTICATION) - place(MESSAGE_TYPE));
        }
        assert!((1..=6).all(|apart| distances.contains(&apart) && distances.contains(&-apart)));
    }

    /// With more than one option 82, wherever they stand, the number is 7.
    #[test]
    fn repeated_options_82_come_up_in_each_way() {
        let messages = sample(&[Fault::TwoRelayAgents]);
        let (fit, too_long): (Vec<_>, Vec<_>) = messages
            .into_iter()
            .partition(|message| message.len() <= MESSAGE_MOST);
        assert!(fit.len() > too_long.len());
        assert!(fit.iter().all(|message| number_of(&shape(message)) == 7));
        situations::require_each_repeated(&fit);
        assert!(too_long
            .iter()
            .all(|message| number_of(&shape(message)) == 2));
    }

    /// One option 82 that makes 1,473 bytes comes up at every place, and the number is 2.
    #[test]
    fn option_82_a_byte_above_1472_comes_up_at_every_place() {
        let mut messages = sample(&[Fault::RelayAgentAbove1472]);
        messages.retain(|message| message.len() == MESSAGE_MOST + 1);
        assert!(messages
            .iter()
            .all(|message| number_of(&shape(message)) == 2));
        situations::require_every_place(&messages);
    }

    /// Whichever option is the last, lengthening it breaks the options, where it can be so long.
    #[test]
    fn the_last_option_is_lengthened() {
        let mut random = Random::new(10);
        let [mut relay_agents, mut authentications, mut others] = [0; 3];
        for message in sample(&[]) {
            let mut longer = message.clone();
            lengthen_last_option(&mut random, &mut longer);
            if places(&longer).is_some() {
                continue;
            }
            assert_eq!(number_of(&shape(&longer)), 4);
            match message[last_option(&message)] {
                RELAY_AGENT => relay_agents += 1,
                AUTHENTICATION => authentications += 1,
                _ => others += 1,
            }
        }
        let counts = [relay_agents, authentications, others];
        assert!(counts.iter().all(|count| *count > 100), "{counts:?}");
    }
}
