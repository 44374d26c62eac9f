//! Two messages side by side (docs/RULES.md, 'Two messages side by side'): what the way between two
//! places changed, line by line, and whether it is only what a relay may change.

use crate::message::{option_at, places, shape, Shape, END, GIADDR, HOPS_AT, PAD};
use crate::refusal::Refusal;
use std::fmt;
use std::ops::Range;

/// A bound for the bytes of any two messages' lines.
pub const COMPARISON_MOST: usize = 18_573;

/// The header's fields in its order (RFC 2131, section 2), by name and place.
pub const FIELDS: [(&str, Range<usize>); 14] = [
    ("op", 0..1),
    ("htype", 1..2),
    ("hlen", 2..3),
    ("hops", 3..4),
    ("xid", 4..8),
    ("secs", 8..10),
    ("flags", 10..12),
    ("ciaddr", 12..16),
    ("yiaddr", 16..20),
    ("siaddr", 20..24),
    ("giaddr", 24..28),
    ("chaddr", 28..44),
    ("sname", 44..108),
    ("file", 108..236),
];

/// Which option is meant: its code, and its occurrence within that code, from 1 on.
#[derive(Clone, Copy, Debug, PartialEq, Eq)]
pub struct Named {
    pub code: u8,
    pub occurrence: usize,
}

/// A line. Displayed, it has no newline.
#[derive(Clone, Copy, Debug, PartialEq, Eq)]
pub enum Line {
    /// A field of the header differs.
    Field(&'static str),
    /// The second message has this option of the first with another body.
    Altered(Named),
    /// The second message has no such option.
    Missing(Named),
    /// The first message has no such option.
    Added(Named),
    /// The codes differ, in their order, or the bytes after End.
    Layout,
    /// The last line where the way changed no more than a relay may.
    RelayOnly,
    /// The last line otherwise.
    CoveredBytesDiffer,
}

impl fmt::Display for Named {
    fn fmt(&self, f: &mut fmt::Formatter<'_>) -> fmt::Result {
        write!(f, "{} {}", self.code, self.occurrence)
    }
}

impl fmt::Display for Line {
    fn fmt(&self, f: &mut fmt::Formatter<'_>) -> fmt::Result {
        match self {
            Line::Field(name) => write!(f, "{name}"),
            Line::Altered(option) => write!(f, "altered {option}"),
            Line::Missing(option) => write!(f, "missing {option}"),
            Line::Added(option) => write!(f, "added {option}"),
            Line::Layout => write!(f, "layout"),
            Line::RelayOnly => write!(f, "relay only"),
            Line::CoveredBytesDiffer => write!(f, "covered bytes differ"),
        }
    }
}

/// A message that passes 2 to 7, taken apart.
struct Taken<'a> {
    message: &'a [u8],
    shape: Shape,
    /// The codes in their order, those of pads and End among them.
    codes: Vec<u8>,
    /// The options in their order, each with its body.
    options: Vec<(Named, &'a [u8])>,
    after_end: &'a [u8],
}

impl<'a> Taken<'a> {
    fn new(message: &'a [u8]) -> Result<Self, Refusal> {
        let shape = shape(message)?;
        let places = places(message).ok_or(Refusal::BrokenOptions)?;
        Ok(Taken {
            message,
            shape,
            codes: places.iter().map(|at| message[*at]).collect(),
            options: options(message, &places),
            after_end: &message[shape.end_at + 1..],
        })
    }

    /// The body of an option, where there is such a one.
    fn body(&self, wanted: Named) -> Option<&'a [u8]> {
        let mut options = self.options.iter();
        let found = options.find(|(named, _)| *named == wanted);
        found.map(|(_, body)| *body)
    }
}

/// The options of a message, whose options, pads and End begin at these places.
fn options<'a>(message: &'a [u8], places: &[usize]) -> Vec<(Named, &'a [u8])> {
    let mut options: Vec<(Named, &[u8])> = vec![];
    for at in places {
        if [PAD, END].contains(&message[*at]) {
            continue;
        }
        if let Some(option) = option_at(message, *at) {
            let code = option.code;
            let before = options.iter().filter(|(named, _)| named.code == code);
            let occurrence = before.count() + 1;
            options.push((Named { code, occurrence }, &message[option.body()]));
        }
    }
    options
}

/// The lines for two messages: numbers 2 to 7 of the first, then of the second.
pub fn lines(first: &[u8], second: &[u8]) -> Result<Vec<Line>, Refusal> {
    let first = Taken::new(first)?;
    let second = Taken::new(second)?;
    let mut lines = fields_that_differ(&first, &second);
    lines.extend(altered_and_missing(&first, &second));
    lines.extend(added(&first, &second));
    if first.codes != second.codes || first.after_end != second.after_end {
        lines.push(Line::Layout);
    }
    let covered = [&first, &second].map(|taken| without_relays(taken.message, &taken.shape));
    lines.push(match covered[0] == covered[1] {
        true => Line::RelayOnly,
        false => Line::CoveredBytesDiffer,
    });
    Ok(lines)
}

fn fields_that_differ(first: &Taken, second: &Taken) -> Vec<Line> {
    let differs = |place: &Range<usize>| {
        let [one, other] = [first, second].map(|taken| &taken.message[place.clone()]);
        one != other
    };
    let fields = FIELDS.into_iter();
    let differing = fields.filter(|(_, place)| differs(place));
    differing.map(|(name, _)| Line::Field(name)).collect()
}

/// What became of the first message's options.
fn altered_and_missing(first: &Taken, second: &Taken) -> Vec<Line> {
    let line = |(named, body): &(Named, &[u8])| match second.body(*named) {
        Some(other) if other == *body => None,
        Some(_) => Some(Line::Altered(*named)),
        None => Some(Line::Missing(*named)),
    };
    first.options.iter().filter_map(line).collect()
}

/// The second message's options that the first doesn't have.
fn added(first: &Taken, second: &Taken) -> Vec<Line> {
    let options = second.options.iter().map(|(named, _)| *named);
    let added = options.filter(|named| first.body(*named).is_none());
    added.map(Line::Added).collect()
}

/// A message without what a relay may change: hops and giaddr zero, and option 82 taken out. Option
/// 90 stays as it is, MAC included, and may have any length.
pub fn without_relays(message: &[u8], shape: &Shape) -> Vec<u8> {
    let mut rest = message.to_vec();
    rest[HOPS_AT] = 0;
    rest[GIADDR].fill(0);
    if let Some(relay_agent) = shape.relay_agent {
        rest.drain(relay_agent.whole());
    }
    rest
}

/// Lines as text, each ended by a newline.
pub fn text(lines: &[Line]) -> String {
    lines.iter().map(|line| format!("{line}\n")).collect()
}

/// Compares two messages: numbers 2 to 7 of the first, then of the second, then 22. Returns the size
/// of the lines, with which the room then begins.
pub fn compare(first: &[u8], second: &[u8], room: &mut [u8]) -> Result<usize, Refusal> {
    let text = text(&lines(first, second)?);
    let place = room.get_mut(..text.len());
    place
        .ok_or(Refusal::NoRoomForReport)?
        .copy_from_slice(text.as_bytes());
    Ok(text.len())
}

#[cfg(test)]
mod tests {
    use super::*;
    use crate::examples::message_with;
    use crate::message::COOKIE_AT;

    /// The fields follow one another without gap, up to the cookie.
    #[test]
    fn fields_fill_the_header() {
        let mut at = 0;
        for (_, place) in FIELDS {
            assert_eq!(place.start, at);
            at = place.end;
        }
        assert_eq!(at, COOKIE_AT);
    }

    #[test]
    fn occurrences_count_within_a_code() {
        let message = message_with(&[0, 12, 0, 90, 1, 12, 12, 1, 255, 0, 0, 12, 0, 255, 12, 0]);
        let taken = Taken::new(&message).unwrap();
        let named = |code, occurrence| Named { code, occurrence };
        let expected: [(Named, &[u8]); 4] = [
            (named(12, 1), &[]),
            (named(90, 1), &[12]),
            (named(12, 2), &[255]),
            (named(12, 3), &[]),
        ];
        assert_eq!(taken.options, expected);
        assert_eq!(taken.codes, [0, 12, 90, 12, 0, 0, 12, 255]);
        assert_eq!(taken.after_end, [12, 0]);
    }

    #[test]
    fn lines_in_words() {
        let option = Named {
            code: 9,
            occurrence: 10,
        };
        let all = [
            Line::Field("op"),
            Line::Altered(option),
            Line::Missing(option),
            Line::Added(option),
            Line::Layout,
            Line::RelayOnly,
            Line::CoveredBytesDiffer,
        ];
        let expected = "op\naltered 9 10\nmissing 9 10\nadded 9 10\nlayout\nrelay only\n\
            covered bytes differ\n";
        assert_eq!(text(&all), expected);
    }
}
