//! Messages for server rows: ACKs that give a nonce, FORCERENEWs signed under a row's nonce, and ones
//! with one or two things wrong.

use super::drafts::{self, Draft, Part};
use super::{books, messages, relays};
use crate::random::Random;
use reference::forcerenew::{
    by_nonce, ByNonce, ACK, BY_NONCE, FORCERENEW, HEARD, NONCE_SIZE, TYPE_MAC, TYPE_NONCE,
};
use reference::hmac::hmac_md5;
use reference::message::{
    shape, Shape, AUTHENTICATION, DELAYED_HMAC_MD5, FULL_LENGTH, GIADDR, HOPS_AT, MESSAGE_TYPE,
    REQUEST_LENGTH,
};
use reference::Servers;

/// Any message for a row of sound server rows, also where there is no such row: some that it accepts,
/// some that fail at each number.
pub fn any(random: &mut Random, servers: &Servers, row: usize) -> Vec<u8> {
    match random.below(100) {
        0..=5 => drafts::random_bytes(random),
        6..=49 => well_formed(random, servers, row),
        50..=57 => {
            let message = well_formed(random, servers, row);
            relays::changed(random, &message)
        }
        58..=91 => {
            let fault = Fault::any(random);
            with_faults(random, servers, row, &[fault])
        }
        _ => {
            let faults = [Fault::any(random), Fault::any(random)];
            with_faults(random, servers, row, &faults)
        }
    }
}

/// A well-formed message for a row: an ACK, or a FORCERENEW with the right MAC and mostly with a
/// counter that is new to it.
pub fn well_formed(random: &mut Random, servers: &Servers, row: usize) -> Vec<u8> {
    with_faults(random, servers, row, &[])
}

/// An ACK that gives this nonce.
pub fn ack(random: &mut Random, nonce: &[u8], counter: u64) -> Vec<u8> {
    Made::ack(nonce.to_vec(), counter).draft(random).bytes()
}

/// A FORCERENEW with this counter and the right MAC under this nonce.
pub fn order(random: &mut Random, nonce: &[u8], counter: u64) -> Vec<u8> {
    let made = Made::order(nonce.to_vec(), counter);
    let mut message = made.draft(random).bytes();
    made.sign(&mut message);
    message
}

/// One thing wrong with a message.
#[derive(Clone, Copy, Debug, PartialEq, Eq)]
pub enum Fault {
    /// Numbers 2 to 7.
    Form(drafts::Fault),
    AuthenticationLength,
    ProtocolNumbers,
    /// Option 90 as RFC 3118 has it.
    Delayed,
    OtherType,
    OtherMessageType,
    MessageTypeLength,
    TwoMessageTypes,
    NoMessageType,
    OldCounter,
    MacBit,
    AnyBit,
    OtherNonce,
    /// The MAC is made over what a check of delayed authentication would cover.
    OtherImage,
}

impl Fault {
    /// The faults that are not of the form.
    const OTHERS: [Fault; 13] = [
        Fault::AuthenticationLength,
        Fault::ProtocolNumbers,
        Fault::Delayed,
        Fault::OtherType,
        Fault::OtherMessageType,
        Fault::MessageTypeLength,
        Fault::TwoMessageTypes,
        Fault::NoMessageType,
        Fault::OldCounter,
        Fault::MacBit,
        Fault::AnyBit,
        Fault::OtherNonce,
        Fault::OtherImage,
    ];

    /// One in four is of the form.
    fn any(random: &mut Random) -> Fault {
        match random.below(4) {
            0 => Fault::Form(random.pick(&drafts::Fault::ALL)),
            _ => random.pick(&Fault::OTHERS),
        }
    }

    /// Whether a FORCERENEW alone can have the fault.
    fn is_of_order(self) -> bool {
        [
            Fault::OldCounter,
            Fault::MacBit,
            Fault::OtherNonce,
            Fault::OtherImage,
        ]
        .contains(&self)
    }
}

/// What the MAC is made over, its own bytes being zero.
#[derive(Clone, Copy, Debug, PartialEq, Eq)]
pub enum Image {
    /// The message as it stands. That is the right one.
    Whole,
    /// Hops and giaddr are zero.
    WithoutHops,
    /// Option 82 is taken out.
    Without82,
    /// Both.
    WithoutBoth,
}

impl Image {
    pub const WRONG: [Image; 3] = [Image::WithoutHops, Image::Without82, Image::WithoutBoth];

    pub fn of(self, message: &[u8], found: &Shape, option: ByNonce) -> Vec<u8> {
        let mut image = message.to_vec();
        image[option.value()].fill(0);
        if [Image::WithoutHops, Image::WithoutBoth].contains(&self) {
            image[HOPS_AT] = 0;
            image[GIADDR].fill(0);
        }
        if [Image::Without82, Image::WithoutBoth].contains(&self) {
            image.drain(found.relay_agent.map_or(0..0, |option| option.whole()));
        }
        image
    }
}

/// What a message is made of.
struct Made {
    kind: u8,
    message_type: u8,
    counter: u64,
    /// What an ACK gives, and what a FORCERENEW is signed under.
    nonce: Vec<u8>,
    image: Image,
}

/// A message for the row with these things wrong: in what it is made of, in its parts, or in its
/// bytes after it was signed. It is signed if its option 90 is by nonce then.
pub fn with_faults(
    random: &mut Random,
    servers: &Servers,
    row: usize,
    faults: &[Fault],
) -> Vec<u8> {
    let is_order = faults.iter().any(|fault| fault.is_of_order()) || random.one_in(2);
    let mut made = match is_order {
        true => Made::order_for(random, servers, row),
        false => Made::ack_for(random, servers, row),
    };
    for fault in faults {
        made.spoil(random, servers, row, *fault);
    }
    let mut draft = made.draft(random);
    for fault in faults {
        spoil_parts(random, &mut draft, *fault);
    }
    let mut message = draft.bytes();
    made.sign(&mut message);
    for fault in faults {
        spoil_bytes(random, &mut message, *fault);
    }
    message
}

/// Where option 90 of a message is, if it is by nonce, and what else numbers 2 to 7 find out.
pub fn found_by_nonce(message: &[u8]) -> Option<(Shape, ByNonce)> {
    let found = shape(message).ok()?;
    let option = by_nonce(message, found.authentication).ok()?;
    Some((found, option))
}

impl Made {
    fn ack(nonce: Vec<u8>, counter: u64) -> Self {
        Made {
            kind: TYPE_NONCE,
            message_type: ACK,
            counter,
            nonce,
            image: Image::Whole,
        }
    }

    fn order(nonce: Vec<u8>, counter: u64) -> Self {
        Made {
            kind: TYPE_MAC,
            message_type: FORCERENEW,
            ..Made::ack(nonce, counter)
        }
    }

    /// An ACK for a row: it gives the nonce that the row has, one that differs in a bit, another
    /// row's, or any. Its counter may be any.
    fn ack_for(random: &mut Random, servers: &Servers, row: usize) -> Self {
        let mut nonce = nonce_for(random, servers, row);
        match random.below(5) {
            0..=1 => {}
            2 => messages::flip_any_bit(random, &mut nonce),
            _ => nonce = other_nonce(random, servers),
        }
        Made::ack(nonce, books::counter(random))
    }

    /// A FORCERENEW for a row: the MAC is right, and where the row is heard the counter is above its
    /// own, if there is such a counter.
    fn order_for(random: &mut Random, servers: &Servers, row: usize) -> Self {
        let counter = counter_for(random, servers, row);
        Made::order(nonce_for(random, servers, row), counter)
    }

    fn spoil(&mut self, random: &mut Random, servers: &Servers, row: usize, fault: Fault) {
        match fault {
            Fault::OtherType => {
                let any = random.u8();
                self.kind = random.pick(&[0, 0, 3, 3, TYPE_NONCE, TYPE_MAC, 255, any]);
            }
            Fault::OtherMessageType => {
                let any = random.u8();
                self.message_type = random.pick(&[ACK, FORCERENEW, 0, 4, 6, 8, 10, any]);
            }
            Fault::OldCounter => {
                let stored = servers.counters.get(row).copied();
                let old = messages::old_counter(random, stored.unwrap_or(0));
                self.counter = random.pick(&[0, old, old, old]);
            }
            Fault::OtherNonce => match random.below(3) {
                0 => messages::flip_any_bit(random, &mut self.nonce),
                1 => drop(self.nonce.pop()),
                _ => self.nonce = other_nonce(random, servers),
            },
            Fault::OtherImage => self.image = random.pick(&Image::WRONG),
            _ => {}
        }
    }

    /// Options 53 and 90 among others. The MAC is yet to be made.
    fn draft(&self, random: &mut Random) -> Draft {
        let mut body = BY_NONCE.to_vec();
        body.extend_from_slice(&self.counter.to_be_bytes());
        body.push(self.kind);
        body.extend_from_slice(&self.nonce);
        body.resize(BY_NONCE.len() + 8 + 1 + NONCE_SIZE, 0);
        let authentication = Part::Option {
            code: AUTHENTICATION,
            body,
        };
        let message_type = drafts::message_type(&[self.message_type]);
        Draft::with(random, &[message_type, authentication])
    }

    /// Writes the MAC, unless a nonce is in its place.
    fn sign(&self, message: &mut [u8]) {
        if self.kind == TYPE_NONCE {
            return;
        }
        if let Some((found, option)) = found_by_nonce(message) {
            let mac = hmac_md5(&self.nonce, &self.image.of(message, &found, option));
            message[option.value()].copy_from_slice(&mac);
        }
    }
}

/// The row's nonce, or any where there is no such row.
fn nonce_for(random: &mut Random, servers: &Servers, row: usize) -> Vec<u8> {
    match row < servers.rows() {
        true => servers.nonce(row).to_vec(),
        false => other_nonce(random, servers),
    }
}

/// A row's nonce, or any.
fn other_nonce(random: &mut Random, servers: &Servers) -> Vec<u8> {
    match servers.rows() {
        rows if rows > 0 && random.one_in(2) => servers.nonce(random.below(rows)).to_vec(),
        _ => random.bytes(NONCE_SIZE),
    }
}

/// A counter that the row takes, where there is one: one above its own where it is heard, and else
/// any, above its own or not.
fn counter_for(random: &mut Random, servers: &Servers, row: usize) -> u64 {
    let Some(stored) = servers.counters.get(row).copied() else {
        return books::counter(random);
    };
    match random.below(4) {
        _ if servers.marks[row] == HEARD => messages::counter_above(random, stored),
        0 => messages::counter_above(random, stored),
        1 => messages::old_counter(random, stored),
        2 => u64::MAX,
        _ => books::counter(random),
    }
}

fn spoil_parts(random: &mut Random, draft: &mut Draft, fault: Fault) {
    match fault {
        Fault::Form(fault) => fault.spoil_parts(random, draft),
        Fault::MessageTypeLength => resize_message_type(random, draft),
        Fault::TwoMessageTypes => {
            let bodies: [&[u8]; 5] = [&[ACK], &[FORCERENEW], &[0], &[], &[ACK, FORCERENEW]];
            let second = drafts::message_type(random.pick(&bodies));
            draft.insert_anywhere(random, second);
        }
        Fault::NoMessageType => match random.below(3) {
            0 => drop(draft.take(MESSAGE_TYPE)),
            1 => drafts::hide_in_body(draft, MESSAGE_TYPE),
            _ => drafts::hide_after_end(draft, MESSAGE_TYPE),
        },
        _ => {
            if let Some(body) = draft.body(AUTHENTICATION) {
                spoil_authentication(random, body, fault);
            }
        }
    }
}

/// Gives option 53 another length. Behind one of length 0 there is often an option whose code is the
/// byte that it held.
fn resize_message_type(random: &mut Random, draft: &mut Draft) {
    let length = random.pick(&[0, 0, 0, 2, 2, 3, 255]);
    let (Some(at), Some(body)) = (draft.position(MESSAGE_TYPE), draft.body(MESSAGE_TYPE)) else {
        return;
    };
    let held = body.first().copied().unwrap_or(ACK);
    body.resize(length, held);
    if length == 0 && !random.one_in(3) {
        let behind = Part::Option {
            code: held,
            body: vec![],
        };
        draft.parts.insert(at + 1, behind);
    }
}

fn spoil_authentication(random: &mut Random, body: &mut Vec<u8>, fault: Fault) {
    match fault {
        Fault::AuthenticationLength => {
            let length = match random.below(2) {
                0 => random.pick(&[0, 1, 2, 3, 11, 12, 27, 29, 31, 255]),
                _ => random.within(0..=255),
            };
            body.resize(length, 0);
        }
        Fault::ProtocolNumbers => match random.below(2) {
            0 => body
                .splice(..body.len().min(3), DELAYED_HMAC_MD5)
                .for_each(drop),
            _ => {
                let at = random.below(3);
                if let Some(byte) = body.get_mut(at) {
                    *byte ^= 1 << random.below(8);
                }
            }
        },
        Fault::Delayed => {
            *body = random.bytes(FULL_LENGTH);
            body[..3].copy_from_slice(&DELAYED_HMAC_MD5);
            body.truncate(random.pick(&[FULL_LENGTH, REQUEST_LENGTH]));
        }
        _ => {}
    }
}

fn spoil_bytes(random: &mut Random, message: &mut Vec<u8>, fault: Fault) {
    match fault {
        Fault::Form(fault) => fault.spoil_bytes(random, message),
        Fault::MacBit => {
            if let Some((_, option)) = found_by_nonce(message) {
                messages::flip_any_bit(random, &mut message[option.value()]);
            }
        }
        Fault::AnyBit => messages::flip_any_bit(random, message),
        _ => {}
    }
}

#[cfg(test)]
mod tests {
    use super::*;
    use crate::generate::servers;
    use reference::forcerenew::{forcerenew, NONE_YET, NOT_HEARD};
    use reference::refusal::number_of;

    /// Rows of every mark that can all accept: those that are heard have counter 5.
    fn accepting(random: &mut Random) -> Servers {
        let mut servers = servers::with_rows(random, 3);
        servers.marks = vec![NONE_YET, NOT_HEARD, HEARD];
        servers.counters = vec![5; 3];
        servers
    }

    fn number(servers: &Servers, row: usize, message: &[u8]) -> u8 {
        number_of(&forcerenew(&mut servers.clone(), row, message))
    }

    /// A well-formed message is accepted, but for a FORCERENEW where there is no nonce yet.
    #[test]
    fn well_formed_messages_are_accepted() {
        let mut random = Random::new(31);
        for _ in 0..2_000 {
            let servers = accepting(&mut random);
            for row in 0..3 {
                let message = well_formed(&mut random, &servers, row);
                let (_, option) = found_by_nonce(&message).expect("by nonce");
                let no_nonce = row == 0 && message[option.kind()] == TYPE_MAC;
                let expected = if no_nonce { 21 } else { 0 };
                assert_eq!(number(&servers, row, &message), expected);
            }
        }
    }

    #[test]
    fn acks_and_orders_under_a_nonce() {
        let mut random = Random::new(32);
        for counter in [0, 6, u64::MAX] {
            let servers = accepting(&mut random);
            let ack = ack(&mut random, servers.nonce(2), counter);
            assert_eq!(number(&servers, 0, &ack), 0);
            let order = order(&mut random, servers.nonce(2), counter);
            let expected = if counter == 0 { 11 } else { 0 };
            assert_eq!(number(&servers, 2, &order), expected);
        }
    }

    /// The number that a fault is for. A bit anywhere is for 12: nothing but the MAC minds most bits.
    fn number_for(fault: Fault) -> u8 {
        match fault {
            Fault::Form(fault) => number_for_form(fault),
            Fault::AuthenticationLength | Fault::ProtocolNumbers | Fault::Delayed => 19,
            Fault::OtherType
            | Fault::OtherMessageType
            | Fault::MessageTypeLength
            | Fault::TwoMessageTypes
            | Fault::NoMessageType => 20,
            Fault::OldCounter => 11,
            Fault::MacBit | Fault::AnyBit | Fault::OtherNonce | Fault::OtherImage => 12,
        }
    }

    fn number_for_form(fault: drafts::Fault) -> u8 {
        use drafts::Fault;
        match fault {
            Fault::TooShort | Fault::TooLong | Fault::RelayAgentAbove1472 => 2,
            Fault::Cookie => 3,
            Fault::Cut | Fault::LengthPastEnd | Fault::NoEnd => 4,
            Fault::NoAuthentication
            | Fault::AuthenticationInBody
            | Fault::AuthenticationAfterEnd => 5,
            Fault::TwoAuthentications => 6,
            Fault::TwoRelayAgents => 7,
        }
    }

    /// Each fault often makes the number it is for. Else it mostly changes no answer, or makes the
    /// message too long.
    #[test]
    fn faults_make_their_numbers() {
        let mut random = Random::new(33);
        let of_form = drafts::Fault::ALL.map(Fault::Form);
        for fault in of_form.into_iter().chain(Fault::OTHERS) {
            let mut made = 0;
            for _ in 0..500 {
                let servers = accepting(&mut random);
                let message = with_faults(&mut random, &servers, 2, &[fault]);
                made += usize::from(number(&servers, 2, &message) == number_for(fault));
            }
            assert!(made > 200, "{fault:?}: {made} of 500 made its number");
        }
    }
}
