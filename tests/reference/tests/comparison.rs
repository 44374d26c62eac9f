//! Two messages side by side, on the second implementation: pairs with lines written out by hand,
//! the order of the numbers, the room, and what holds of the lines of any two messages.

use reference::comparison::{compare, lines, text, without_relays, Line, COMPARISON_MOST};
use reference::comparison_examples::{
    compared_covered, compared_relay_only, handed_on, longest_known, recorded, LONGEST_KNOWN,
};
use reference::examples::message_with;
use reference::message::{places, shape};
use reference::refusal::number_of;
use reference::relay::comes_of;
use reference::Refusal;

/// The text for two messages that pass 2 to 7.
fn compared(first: &[u8], second: &[u8]) -> String {
    let lines = lines(first, second).expect("both pass");
    holds_of_any_two(first, second, &lines);
    text(&lines)
}

/// With no line but the last the two are equal, and only then. The last is `relay only` exactly
/// where the second comes of the first by relay changes, and where the two are equal without what a
/// relay may change; the lines before it then name that alone.
fn holds_of_any_two(first: &[u8], second: &[u8], lines: &[Line]) {
    assert_eq!(lines.len() == 1, first == second);
    let relay_only = lines.last() == Some(&Line::RelayOnly);
    assert_eq!(relay_only, comes_of(first, second));
    let rest = |message: &[u8]| without_relays(message, &shape(message).unwrap());
    assert_eq!(relay_only, rest(first) == rest(second));
    let of_a_relay = |line: &Line| match line {
        Line::Field(name) => ["hops", "giaddr"].contains(name),
        Line::Altered(option) | Line::Missing(option) | Line::Added(option) => option.code == 82,
        _ => true,
    };
    assert!(!relay_only || lines.iter().all(of_a_relay));
    assert!(text(lines).len() <= COMPARISON_MOST);
}

#[test]
fn examples() {
    for example in compared_relay_only().into_iter().chain(compared_covered()) {
        let found = compared(&example.first, &example.second);
        assert_eq!(found, example.lines, "{}", example.name);
    }
}

/// Exchanged, the two have the same fields, layout and last line, and for each option missing one
/// that was added.
#[test]
fn exchanged() {
    for example in compared_relay_only().into_iter().chain(compared_covered()) {
        let exchanged = compared(&example.second, &example.first);
        let turned = |line: &str| match line.split_once(' ') {
            Some(("missing", option)) => format!("added {option}"),
            Some(("added", option)) => format!("missing {option}"),
            _ => line.to_string(),
        };
        let sorted = |lines: Vec<String>| {
            let mut lines = lines;
            lines.sort();
            lines
        };
        let expected = sorted(example.lines.lines().map(turned).collect());
        let found = sorted(exchanged.lines().map(String::from).collect());
        assert_eq!(found, expected, "{}", example.name);
    }
}

#[test]
fn the_longest_known() {
    let [first, second] = longest_known();
    assert_eq!((first.len(), second.len()), (1_472, 1_471));
    let text = compared(&first, &second);
    assert_eq!(text.len(), LONGEST_KNOWN);
    let start = "op\nhtype\nhlen\nhops\nxid\nsecs\nflags\nciaddr\nyiaddr\nsiaddr\ngiaddr\nchaddr\n\
        sname\nfile\naltered 90 1\nmissing 200 1\n";
    assert!(text.starts_with(start));
    assert!(text.contains("\nmissing 200 614\nadded 201 1\n"));
    assert!(text.ends_with("\nadded 201 614\nlayout\ncovered bytes differ\n"));
}

/// The room's bytes behind the lines stay. A byte too little is 22, and nothing is written.
#[test]
fn rooms() {
    let pairs = [
        [recorded(), recorded()],
        [recorded(), handed_on(240, &[1])],
        longest_known(),
    ];
    for [first, second] in pairs {
        let text = compared(&first, &second);
        let mut room = vec![7; COMPARISON_MOST];
        assert_eq!(compare(&first, &second, &mut room), Ok(text.len()));
        assert_eq!(room[..text.len()], *text.as_bytes());
        assert!(room[text.len()..].iter().all(|byte| *byte == 7));
        let mut exact = vec![7; text.len()];
        assert_eq!(compare(&first, &second, &mut exact), Ok(text.len()));
        assert_eq!(exact, text.as_bytes());
        for size in [0, 1, text.len() - 1] {
            let mut little = vec![7; size];
            let answer = compare(&first, &second, &mut little);
            assert_eq!(answer, Err(Refusal::NoRoomForReport));
            assert!(little.iter().all(|byte| *byte == 7));
        }
    }
}

/// A message for each number from 2 to 7, and one that passes.
fn of_each_number() -> Vec<(u8, Vec<u8>)> {
    let mut other_cookie = recorded();
    other_cookie[239] = 98;
    vec![
        (0, recorded()),
        (2, vec![]),
        (3, other_cookie),
        (4, message_with(&[90, 0])),
        (5, message_with(&[255, 90, 0])),
        (6, message_with(&[90, 0, 90, 0, 255])),
        (7, message_with(&[90, 0, 82, 0, 82, 0, 255])),
    ]
}

/// The first message's number is given before the second's, whatever they are, and both before 22.
#[test]
fn each_pair_of_numbers() {
    for (first_number, first) in of_each_number() {
        for (second_number, second) in of_each_number() {
            for room in [0, 10, 11, COMPARISON_MOST] {
                let expected = match (first_number, second_number) {
                    (0, 0) if room < 11 => 22,
                    (0, number) | (number, _) => number,
                };
                let answer = compare(&first, &second, &mut vec![0; room]);
                let what = format!("{first_number} and {second_number}, room {room}");
                assert_eq!(number_of(&answer), expected, "{what}");
            }
        }
    }
}

/// Each byte of a message, changed to each value, wherever the message still passes.
#[test]
fn each_byte() {
    let message = handed_on(243, &[82, 255]);
    let mut passed = 0;
    for at in 0..message.len() {
        for value in 0..=255 {
            let mut changed = message.clone();
            changed[at] = value;
            if shape(&changed).is_ok() {
                compared(&message, &changed);
                compared(&changed, &message);
                passed += 1;
            }
        }
    }
    assert!(passed > 236 * 256);
}

/// Option 82 moved from each place to each other.
#[test]
fn option_82_at_each_two_places() {
    for from in places(&recorded()).unwrap() {
        for to in places(&recorded()).unwrap() {
            let found = compared(&handed_on(from, &[1]), &handed_on(to, &[1]));
            let expected = match from == to {
                true => "relay only\n",
                false => "layout\nrelay only\n",
            };
            assert_eq!(found, expected, "from {from} to {to}");
        }
    }
}
