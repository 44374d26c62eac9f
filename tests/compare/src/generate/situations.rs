//! What must come up of option 82 among the messages that a generator draws. A generator that loses
//! one of these situations fails its test.

use reference::message::{option_at, places, AUTHENTICATION, END, MESSAGE_MOST, PAD, RELAY_AGENT};

/// A message with one option 82.
struct Seen<'a> {
    message: &'a [u8],
    codes: Vec<u8>,
    /// Which of the codes is option 82's.
    place: usize,
    body: &'a [u8],
}

impl<'a> Seen<'a> {
    /// None where there is no option 82, or more than one.
    fn new(message: &'a [u8]) -> Option<Self> {
        let codes = codes(message)?;
        let [place] = places_of(RELAY_AGENT, &codes)[..] else {
            return None;
        };
        let option = option_at(message, places(message)?[place])?;
        Some(Seen {
            message,
            codes,
            place,
            body: &message[option.body()],
        })
    }

    fn before(&self) -> Option<u8> {
        let place = self.place.checked_sub(1)?;
        Some(self.codes[place])
    }

    fn behind(&self) -> u8 {
        self.codes[self.place + 1]
    }

    fn authentication_is_behind(&self) -> bool {
        self.codes[self.place..].contains(&AUTHENTICATION)
    }
}

/// What the options, pads and End begin with, in their order.
fn codes(message: &[u8]) -> Option<Vec<u8>> {
    let places = places(message)?;
    Some(places.iter().map(|at| message[*at]).collect())
}

/// Which of them have this code.
fn places_of(code: u8, codes: &[u8]) -> Vec<usize> {
    (0..codes.len()).filter(|k| codes[*k] == code).collect()
}

type Situation = (&'static str, fn(&Seen) -> bool);

/// How the one option 82 stands in a message.
const SITUATIONS: [Situation; 15] = [
    ("first of all", |seen| seen.place == 0),
    ("right before option 90", |seen| {
        seen.behind() == AUTHENTICATION
    }),
    ("right behind option 90", |seen| {
        seen.before() == Some(AUTHENTICATION)
    }),
    ("before option 90", |seen| seen.authentication_is_behind()),
    ("behind option 90", |seen| !seen.authentication_is_behind()),
    ("before option 90 and apart from it", |seen| {
        seen.authentication_is_behind() && seen.behind() != AUTHENTICATION
    }),
    ("behind option 90, apart from it and not last", |seen| {
        let apart = seen.before() != Some(AUTHENTICATION) && seen.behind() != END;
        apart && !seen.authentication_is_behind()
    }),
    ("between pads", |seen| {
        seen.before() == Some(PAD) && seen.behind() == PAD
    }),
    ("before another option", |seen| {
        ![PAD, END, AUTHENTICATION].contains(&seen.behind())
    }),
    ("right before End", |seen| seen.behind() == END),
    ("with an empty body", |seen| seen.body.is_empty()),
    ("with 255 bytes", |seen| seen.body.len() == 255),
    ("with an empty body, before option 90", |seen| {
        seen.body.is_empty() && seen.authentication_is_behind()
    }),
    ("with 255 bytes, before option 90", |seen| {
        seen.body.len() == 255 && seen.authentication_is_behind()
    }),
    ("in 1,472 bytes", |seen| seen.message.len() == MESSAGE_MOST),
];

/// Each situation comes up in one of these messages at least.
pub fn require_each(messages: &[Vec<u8>]) {
    let seen: Vec<Seen> = messages.iter().filter_map(|m| Seen::new(m)).collect();
    for (name, holds) in SITUATIONS {
        assert!(seen.iter().any(holds), "option 82 never came up {name}");
    }
}

/// In these messages option 82 comes before each of the others, whether there are two of them, which
/// option 90 and End make, or up to eight.
pub fn require_every_place(messages: &[Vec<u8>]) {
    let seen: Vec<Seen> = messages.iter().filter_map(|m| Seen::new(m)).collect();
    for others in 2..=8 {
        for place in 0..others {
            let at_it = |s: &Seen| s.codes.len() == others + 1 && s.place == place;
            assert!(
                seen.iter().any(at_it),
                "option 82 never came up at {place} of {others}"
            );
        }
    }
}

/// How many options and pads stand before the one option 82, and its body.
pub fn place_and_body(message: &[u8]) -> Option<(usize, &[u8])> {
    Seen::new(message).map(|seen| (seen.place, seen.body))
}

type Repeated = (&'static str, fn(&[usize], usize) -> bool);

/// How several options 82 stand in a message: by their places, and that of the one option 90, among
/// the codes.
const REPEATED: [Repeated; 7] = [
    ("two", |relay_agents, _| relay_agents.len() == 2),
    ("three", |relay_agents, _| relay_agents.len() == 3),
    ("all before option 90", |relay_agents, authentication| {
        relay_agents.iter().all(|place| *place < authentication)
    }),
    ("all behind option 90", |relay_agents, authentication| {
        relay_agents.iter().all(|place| *place > authentication)
    }),
    ("around option 90", |relay_agents, authentication| {
        let beside = |place: &usize| place.abs_diff(authentication) == 1;
        relay_agents.iter().filter(|place| beside(place)).count() == 2
    }),
    ("side by side", |relay_agents, _| {
        relay_agents.windows(2).any(|pair| pair[1] == pair[0] + 1)
    }),
    ("first of all and apart", |relay_agents, _| {
        relay_agents[0] == 0 && relay_agents.windows(2).all(|pair| pair[1] > pair[0] + 1)
    }),
];

/// Each way in which several options 82 may stand comes up in one of these messages at least, which
/// have more than one.
pub fn require_each_repeated(messages: &[Vec<u8>]) {
    for (name, holds) in REPEATED {
        let seen = messages.iter().filter_map(|m| codes(m)).any(|codes| {
            let authentication = places_of(AUTHENTICATION, &codes)[0];
            holds(&places_of(RELAY_AGENT, &codes), authentication)
        });
        assert!(seen, "options 82 never came up: {name}");
    }
}
