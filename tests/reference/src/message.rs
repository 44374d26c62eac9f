//! The DHCPv4 message: its fixed part, its options, its type, numbers 2 to 9, and the image that the
//! MAC covers (docs/RULES.md, 'The message' and 'The covered image').
//!
//! Fixed part (RFC 2131), by offset: hops 3; giaddr 24..28; cookie 236..240; options from 240.
//!
//! Option 90 in full form (RFC 3118, section 5.2), by offset from its code: code 0, length 1,
//! protocol 2, algorithm 3, replay method 4, counter 5..13, secret id 13..17, MAC 17..33. Numbers
//! are big-endian.

use crate::refusal::Refusal;
use std::ops::Range;

pub const MESSAGE_LEAST: usize = 241;
pub const MESSAGE_MOST: usize = 1_472;

pub const HOPS_AT: usize = 3;
pub const GIADDR: Range<usize> = 24..28;
pub const COOKIE_AT: usize = 236;
pub const COOKIE: [u8; 4] = [99, 130, 83, 99];
pub const OPTIONS_AT: usize = 240;

pub const PAD: u8 = 0;
pub const MESSAGE_TYPE: u8 = 53;
pub const RELAY_AGENT: u8 = 82;
pub const AUTHENTICATION: u8 = 90;
pub const END: u8 = 255;

/// Body lengths of option 90: the full form, and the request form without id and MAC.
pub const FULL_LENGTH: usize = 31;
pub const REQUEST_LENGTH: usize = 11;

/// What option 90's body begins with: protocol 1, algorithm 1, replay method 0.
pub const DELAYED_HMAC_MD5: [u8; 3] = [1, 1, 0];

/// An option as it stands in a message.
#[derive(Clone, Copy, Debug, PartialEq, Eq)]
pub struct OptionAt {
    pub code: u8,
    /// The offset of its code.
    pub at: usize,
    /// The length of its body.
    pub length: usize,
}

impl OptionAt {
    /// Code, length and body.
    pub fn whole(self) -> Range<usize> {
        self.at..self.at + 2 + self.length
    }

    pub fn body(self) -> Range<usize> {
        self.at + 2..self.at + 2 + self.length
    }
}

/// What numbers 2 to 7 find out about a message that passes them.
#[derive(Clone, Copy, Debug, PartialEq, Eq)]
pub struct Shape {
    /// The one option 90.
    pub authentication: OptionAt,
    /// The option 82, where there is one.
    pub relay_agent: Option<OptionAt>,
    /// The offset of the first End.
    pub end_at: usize,
}

impl Shape {
    pub fn counter(&self) -> Range<usize> {
        let o = self.authentication.at;
        o + 5..o + 13
    }

    pub fn secret_id(&self) -> Range<usize> {
        let o = self.authentication.at;
        o + 13..o + 17
    }

    pub fn mac(&self) -> Range<usize> {
        let o = self.authentication.at;
        o + 17..o + 33
    }
}

/// Numbers 2 to 7: size, cookie, options, and which of them there are.
pub fn shape(message: &[u8]) -> Result<Shape, Refusal> {
    if message.len() < MESSAGE_LEAST || message.len() > MESSAGE_MOST {
        return Err(Refusal::MessageSize);
    }
    if message[COOKIE_AT..COOKIE_AT + 4] != COOKIE {
        return Err(Refusal::WrongCookie);
    }
    let places = places(message).ok_or(Refusal::BrokenOptions)?;
    let authentications = of_code(message, &places, AUTHENTICATION);
    if authentications.is_empty() {
        return Err(Refusal::NoAuthentication);
    }
    if authentications.len() > 1 {
        return Err(Refusal::RepeatedAuthentication);
    }
    let relay_agents = of_code(message, &places, RELAY_AGENT);
    if relay_agents.len() > 1 {
        return Err(Refusal::RelayInformation);
    }
    Ok(Shape {
        authentication: authentications[0],
        relay_agent: relay_agents.first().copied(),
        end_at: places[places.len() - 1],
    })
}

/// Numbers 2 to 9: on top of the above, option 90 is delayed authentication in full form.
pub fn full_form(message: &[u8]) -> Result<Shape, Refusal> {
    let shape = shape(message)?;
    let body = &message[shape.authentication.body()];
    let length = body.len();
    if length != FULL_LENGTH && length != REQUEST_LENGTH {
        return Err(Refusal::OtherAuthentication);
    }
    if body[..3] != DELAYED_HMAC_MD5 {
        return Err(Refusal::OtherAuthentication);
    }
    if length == REQUEST_LENGTH {
        return Err(Refusal::RequestForm);
    }
    Ok(shape)
}

/// Where the options and pads before the first End begin, in their order, and behind them where that
/// End stands. None where an option passes the message's end or there is no End.
pub fn places(message: &[u8]) -> Option<Vec<usize>> {
    let mut places = Vec::new();
    let mut at = OPTIONS_AT;
    loop {
        places.push(at);
        at = match *message.get(at)? {
            END => return Some(places),
            PAD => at + 1,
            _ => option_at(message, at)?.whole().end,
        };
    }
}

/// The option whose code is at an offset. None where it passes the message's end.
pub fn option_at(message: &[u8], at: usize) -> Option<OptionAt> {
    let code = *message.get(at)?;
    let length = usize::from(*message.get(at + 1)?);
    let option = OptionAt { code, at, length };
    message.get(option.whole())?;
    Some(option)
}

/// What the message's type is, by RFC 2132, section 9.6: the byte in its one option 53. None where
/// there is no option 53, more than one, or one of another length than 1.
pub fn message_type(message: &[u8]) -> Option<u8> {
    let [only] = of_code(message, &places(message)?, MESSAGE_TYPE)[..] else {
        return None;
    };
    match message[only.body()] {
        [kind] => Some(kind),
        _ => None,
    }
}

/// The options of a code among what stands at these places.
fn of_code(message: &[u8], places: &[usize], code: u8) -> Vec<OptionAt> {
    places
        .iter()
        .filter(|at| message[**at] == code)
        .filter_map(|at| option_at(message, *at))
        .collect()
}

/// The covered image of a message in full form: hops, giaddr and the MAC zero, the whole of option
/// 82 taken out wherever it stands, the rest in its order (RFC 3118, sections 3 and 5.3). The MAC is
/// found by its place in the message, so it is zeroed before anything in front of it is taken out.
pub fn covered_image(message: &[u8], shape: &Shape) -> Vec<u8> {
    let mut image = message.to_vec();
    image[HOPS_AT] = 0;
    image[GIADDR].fill(0);
    image[shape.mac()].fill(0);
    if let Some(relay_agent) = shape.relay_agent {
        image.drain(relay_agent.whole());
    }
    image
}

/// A big-endian number of up to eight bytes.
pub fn number(bytes: &[u8]) -> u64 {
    bytes.iter().fold(0, |n, byte| (n << 8) | u64::from(*byte))
}

#[cfg(test)]
mod tests {
    use super::*;
    use crate::examples::{full_option_90, message_with};

    fn number_given(options: &[u8]) -> u8 {
        crate::refusal::number_of(&full_form(&message_with(options)))
    }

    #[test]
    fn a_byte_90_in_a_body_is_no_option() {
        assert_eq!(number_given(&[53, 2, 90, 31, 255]), 5);
    }

    #[test]
    fn nothing_after_end_is_read() {
        let after_end = [&[53, 1, 5, 255][..], &full_option_90(7, 11)].concat();
        assert_eq!(number_given(&after_end), 5);
        let twice = [&full_option_90(7, 11)[..], &[255], &full_option_90(7, 11)].concat();
        assert_eq!(number_given(&twice), 0);
    }

    #[test]
    fn one_82_passes_at_any_place_and_two_are_refused() {
        let auth = full_option_90(7, 11);
        let relay_agent = [82, 1, 9];
        let parts = [&[0][..], &auth, &[53, 1, 5], &[0]];
        for first in 0..=parts.len() {
            let mut one = parts.to_vec();
            one.insert(first, &relay_agent);
            assert_eq!(number_given(&[&one.concat()[..], &[255]].concat()), 0);
            for second in 0..=one.len() {
                let mut two = one.clone();
                two.insert(second, &[82, 0]);
                assert_eq!(number_given(&[&two.concat()[..], &[255]].concat()), 7);
            }
        }
        let second_after_end = [&auth[..], &relay_agent, &[255], &relay_agent].concat();
        assert_eq!(number_given(&second_after_end), 0);
        let second_in_a_body = [&auth[..], &relay_agent, &[43, 3], &relay_agent, &[255]].concat();
        assert_eq!(number_given(&second_in_a_body), 0);
    }

    #[test]
    fn the_lowest_number_is_given() {
        let no_90_and_two_82 = [82, 0, 53, 0, 82, 0, 255];
        assert_eq!(number_given(&no_90_and_two_82), 5);
        let two_90_and_two_82 = [90, 0, 82, 0, 90, 0, 82, 0, 255];
        assert_eq!(number_given(&two_90_and_two_82), 6);
        let length_3_between_two_82 = [82, 0, 90, 3, 1, 1, 0, 82, 0, 255];
        assert_eq!(number_given(&length_3_between_two_82), 7);
        let length_3_behind_one_82 = [82, 0, 90, 3, 1, 1, 0, 255];
        assert_eq!(number_given(&length_3_behind_one_82), 8);
    }

    #[test]
    fn places_are_where_options_pads_and_end_begin() {
        let message = message_with(&[0, 82, 2, 255, 0, 53, 0, 0, 255, 53, 0, 255]);
        assert_eq!(places(&message), Some(vec![240, 241, 245, 247, 248]));
        assert_eq!(places(&message_with(&[255])), Some(vec![240]));
        assert_eq!(places(&message_with(&[53, 1, 255])), None);
        assert_eq!(places(&message_with(&[53, 2, 255])), None);
        assert_eq!(places(&message_with(&[0, 53])), None);
    }

    /// The type is that of the one option 53 before End, which has a body of one byte.
    #[test]
    fn message_types() {
        let given = |options: &[u8]| message_type(&message_with(options));
        assert_eq!(given(&[53, 1, 5, 255]), Some(5));
        assert_eq!(given(&[0, 82, 3, 53, 1, 5, 53, 1, 9, 255]), Some(9));
        assert_eq!(given(&[53, 1, 0, 255, 53, 1, 5]), Some(0));
        assert_eq!(given(&[255, 53, 1, 5]), None);
        assert_eq!(given(&[12, 3, 53, 1, 5, 255]), None);
        assert_eq!(given(&[53, 0, 255]), None);
        assert_eq!(given(&[53, 2, 5, 5, 255]), None);
        assert_eq!(given(&[53, 1, 5, 53, 1, 5, 255]), None);
        assert_eq!(given(&[53, 1, 5, 53, 0, 255]), None);
        assert_eq!(given(&[53, 1, 5]), None);
    }

    /// Option 82 is taken out before option 90, behind it, and between pads, and of option 90 only
    /// the MAC is zero.
    #[test]
    fn image_has_82_taken_out_at_its_place_and_only_the_mac_of_90_zero() {
        let auth = full_option_90(7, 11);
        let after = [0, 0, 53, 1, 5, 255, 4];
        let mut expected = message_with(&[&[12, 1, 82][..], &auth, &after].concat());
        expected[243 + 17..243 + 33].fill(0);
        let relay_agent = [82, 2, 8, 9];
        for at in [240, 243, 276, 277, 278, 281] {
            let mut message = message_with(&[&[12, 1, 82][..], &auth, &after].concat());
            message[HOPS_AT] = 3;
            message[GIADDR].copy_from_slice(&[1, 2, 3, 4]);
            message.splice(at..at, relay_agent);
            let shape = full_form(&message).unwrap();
            let image = covered_image(&message, &shape);
            assert_eq!(image, expected, "82 at {at}");
            assert_eq!(image.len(), message.len() - (2 + 2));
        }
    }
}
