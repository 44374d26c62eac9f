//! Comparisons of two messages, every value of one thing at a time where there are few enough to try
//! them all: each byte of a message, each room, each two numbers, each option taken out, repeated,
//! exchanged and altered, each length of options 82 and 90 and each place of 82, each place of a pad,
//! each tail, and as many options as a message has room for. No number is drawn here.

use compare::comparisons::{compared, exchanged, lines_of, UNWRITTEN};
use compare::met_comparison::OF_A_MESSAGE;
use reference::comparison::{COMPARISON_MOST, FIELDS};
use reference::comparison_examples::{
    compared_covered, compared_relay_only, handed_on, longest_known, recorded, EXAMPLE_90_AT,
    EXAMPLE_END_AT, LONGEST_KNOWN,
};
use reference::examples::message_with;
use reference::message::{option_at, places, shape, AUTHENTICATION, END, PAD};
use reference::refusal::number_of;

/// What both say of two messages that pass 2 to 7, in either order.
fn said(first: &[u8], second: &[u8]) -> String {
    let lines =
        lines_of(first, second).and_then(|lines| exchanged(first, second, &lines).map(|()| lines));
    lines.unwrap_or_else(|difference| panic!("{difference}\n{first:?}\n{second:?}"))
}

/// The number that both give in a room of this size, in which nothing is written with a refusal.
fn number(first: &[u8], second: &[u8], room: usize) -> u8 {
    let before = vec![7; room];
    let left = compared(first, second, &before).unwrap_or_else(|difference| panic!("{difference}"));
    let unwritten = left.room == before && left.size == UNWRITTEN;
    assert_eq!(unwritten, left.number != 0);
    left.number
}

/// A message of 1,472 bytes: the recorded one with an option 82 and a long tail.
fn largest() -> Vec<u8> {
    let mut message = handed_on(EXAMPLE_END_AT, &[82; 40]);
    message.resize(1_472, 9);
    message
}

/// Each byte of some messages, changed in one bit, in another and in all.
#[test]
fn each_byte_of_a_message() {
    let [longest, _] = longest_known();
    for message in [recorded(), handed_on(243, &[82, 255]), largest(), longest] {
        let mut refused = 0;
        for at in 0..message.len() {
            for change in [1, 0x80, 0xff] {
                let mut changed = message.clone();
                changed[at] ^= change;
                match number_of(&shape(&changed)) {
                    0 => drop(said(&message, &changed)),
                    expected => {
                        assert_eq!(number(&message, &changed, 99), expected);
                        assert_eq!(number(&changed, &message, 99), expected);
                        refused += 1;
                    }
                }
            }
        }
        assert!(refused >= 3 * 4, "{refused} were refused");
    }
}

/// Each byte of the header is one of just one field.
#[test]
fn each_byte_of_the_header() {
    let message = recorded();
    for (name, place) in FIELDS {
        for at in place {
            let mut changed = message.clone();
            changed[at] ^= 0x10;
            let last = match name {
                "hops" | "giaddr" => "relay only",
                _ => "covered bytes differ",
            };
            assert_eq!(said(&message, &changed), format!("{name}\n{last}\n"));
        }
    }
}

/// Each set of fields that differ: they stand in the header's order.
#[test]
fn each_set_of_fields() {
    let message = recorded();
    for set in 1..1_u32 << FIELDS.len() {
        let mut changed = message.clone();
        let mut expected = String::new();
        let mut last = "relay only\n";
        for (k, (name, place)) in FIELDS.into_iter().enumerate() {
            if set & (1 << k) != 0 {
                changed[place.end - 1] ^= 1;
                expected += &format!("{name}\n");
                if !["hops", "giaddr"].contains(&name) {
                    last = "covered bytes differ\n";
                }
            }
        }
        let found = lines_of(&message, &changed);
        assert_eq!(found, Ok(expected + last), "set {set:b}");
    }
}

/// Each room up to a few bytes more than the lines have.
#[test]
fn each_room() {
    for example in compared_relay_only().into_iter().chain(compared_covered()) {
        let (first, second) = (&example.first, &example.second);
        let size = example.lines.len();
        for room in 0..size + 4 {
            let expected = if room < size { 22 } else { 0 };
            assert_eq!(number(first, second, room), expected, "room {room}");
        }
    }
    let [first, second] = longest_known();
    for room in (0..LONGEST_KNOWN + 40).step_by(37) {
        let expected = if room < LONGEST_KNOWN { 22 } else { 0 };
        assert_eq!(number(&first, &second, room), expected, "room {room}");
    }
}

/// Messages for a number, with as many faults of the higher ones as there can be.
fn of_number(number: u8) -> Vec<Vec<u8>> {
    let mut other_cookie = recorded();
    other_cookie[236] ^= 1;
    let above = |mut message: Vec<u8>| {
        message.resize(1_473, 0);
        message
    };
    match number {
        0 => vec![recorded(), handed_on(240, &[1]), largest()],
        2 => vec![vec![], recorded()[..240].to_vec(), above(recorded())],
        3 => vec![other_cookie, vec![0; 241], vec![0xff; 1_472]],
        4 => vec![
            message_with(&[90, 0]),
            message_with(&[90, 0, 90, 0, 82, 0, 82, 1]),
            message_with(&[82, 0, 82, 0, 255])[..244].to_vec(),
        ],
        5 => vec![
            message_with(&[END]),
            message_with(&[82, 0, 82, 0, END, 90, 0]),
        ],
        6 => vec![
            message_with(&[90, 0, 90, 0, END]),
            message_with(&[82, 0, 90, 0, 82, 0, 90, 0, END]),
        ],
        _ => vec![
            message_with(&[90, 0, 82, 0, 82, 0, END]),
            message_with(&[82, 0, 82, 1, 90, 90, 0, 82, 0, END]),
        ],
    }
}

/// Each number of the first message beside each of the second, in rooms of all sizes.
#[test]
fn each_two_numbers() {
    for (first_number, second_number) in OF_A_MESSAGE
        .iter()
        .flat_map(|first| OF_A_MESSAGE.map(move |second| (*first, second)))
    {
        for first in of_number(first_number) {
            for second in of_number(second_number) {
                assert_eq!(number_of(&shape(&first)), first_number);
                let refused = if first_number == 0 {
                    second_number
                } else {
                    first_number
                };
                let in_no_room = if refused == 0 { 22 } else { refused };
                assert_eq!(number(&first, &second, 0), in_no_room);
                assert_eq!(number(&first, &second, 10), in_no_room);
                assert_eq!(number(&first, &second, COMPARISON_MOST), refused);
            }
        }
    }
}

/// The first message has 7 and the second 2: that is 7. The other way round it is 2.
#[test]
fn not_the_lowest_number() {
    let two_82 = message_with(&[90, 0, 82, 0, 82, 0, END]);
    for room in [0, COMPARISON_MOST] {
        assert_eq!(number(&two_82, &[], room), 7);
        assert_eq!(number(&[], &two_82, room), 2);
    }
}

/// Each length of a message, beside itself whole and beside itself.
#[test]
fn each_length_of_a_message() {
    let message = recorded();
    for length in 0..=1_500 {
        let mut changed = message.clone();
        changed.resize(length, 0xAB);
        let expected = number_of(&shape(&changed));
        assert_eq!(number(&message, &changed, 99), expected, "{length} bytes");
        assert_eq!(number(&changed, &message, 99), expected, "{length} bytes");
        assert_eq!(number(&changed, &changed, 99), expected, "{length} bytes");
    }
}

/// The message with the bytes of an option, pad or End at each place handed to a change.
fn at_each_place(message: &[u8], change: impl Fn(&mut Vec<u8>, usize, usize)) -> Vec<Vec<u8>> {
    let places = places(message).expect("there is an End");
    let ends = places.iter().skip(1).copied().chain([message.len()]);
    let changed = |(at, end): (&usize, usize)| {
        let mut changed = message.to_vec();
        change(&mut changed, *at, end);
        changed
    };
    places.iter().zip(ends).map(changed).collect()
}

/// Compares a message with those of others that pass 2 to 7, and gives how many these are.
fn said_of_each(message: &[u8], others: Vec<Vec<u8>>) -> usize {
    let mut passing = others;
    passing.retain(|other| shape(other).is_ok());
    for other in &passing {
        said(message, other);
    }
    passing.len()
}

/// Each option and pad taken out, doubled, renamed, lengthened, shortened, and with another pad, an
/// option and an End in front. To a message of the largest size nothing can be added.
#[test]
fn each_option_changed() {
    for message in [recorded(), handed_on(246, &[7, 8, 9]), largest()] {
        let without = at_each_place(&message, |m, at, end| drop(m.drain(at..end)));
        assert!(said_of_each(&message, without) >= 6);
        let doubled = at_each_place(&message, |m, at, end| {
            let part = m[at..end].to_vec();
            drop(m.splice(at..at, part));
        });
        assert_eq!(said_of_each(&message, doubled) > 0, message.len() < 1_472);
        for code in [1, 12, 53, 99, 254] {
            let renamed = at_each_place(&message, |m, at, _| {
                if ![PAD, END, AUTHENTICATION].contains(&m[at]) {
                    m[at] = code;
                }
            });
            assert!(said_of_each(&message, renamed) >= 7);
        }
        for front in [&[PAD][..], &[END], &[12, 0], &[200, 1, 255], &[PAD, PAD]] {
            let with = at_each_place(&message, |m, at, _| drop(m.splice(at..at, front.to_vec())));
            assert_eq!(said_of_each(&message, with) > 0, message.len() < 1_472);
        }
        lengthened_and_shortened(&message);
    }
}

/// Each option's body, a byte longer and a byte shorter.
fn lengthened_and_shortened(message: &[u8]) {
    let is_option = |m: &[u8], at: usize| ![PAD, END].contains(&m[at]);
    let longer = at_each_place(message, |m, at, end| {
        if is_option(m, at) && m.len() < 1_472 {
            m[at + 1] += 1;
            m.insert(end, 5);
        }
    });
    assert!(said_of_each(message, longer) >= 7);
    let shorter = at_each_place(message, |m, at, end| {
        if is_option(m, at) && end > at + 2 {
            m[at + 1] -= 1;
            m.remove(end - 1);
        }
    });
    assert!(said_of_each(message, shorter) >= 7);
}

/// Each two options and pads of a message exchanged.
#[test]
fn each_two_options_exchanged() {
    for message in [recorded(), handed_on(246, &[7, 8, 9])] {
        let places = places(&message).unwrap();
        let part = |ends: &[usize]| message[ends[0]..ends[1]].to_vec();
        let parts: Vec<Vec<u8>> = places.windows(2).map(part).collect();
        let end = &message[places[places.len() - 1]..];
        for one in 0..parts.len() {
            for other in one + 1..parts.len() {
                let mut exchanged = parts.clone();
                exchanged.swap(one, other);
                let all = [&message[..240], &exchanged.concat(), end].concat();
                said(&message, &all);
            }
        }
    }
}

/// A pad put in at each place, beside one at each other: among pads it makes no difference.
#[test]
fn a_pad_at_each_two_places() {
    let message = recorded();
    let with_pad = at_each_place(&message, |m, at, _| m.insert(at, PAD));
    for first in &with_pad {
        for second in &with_pad {
            let expected = match first == second {
                true => "relay only\n",
                false => "layout\ncovered bytes differ\n",
            };
            assert_eq!(said(first, second), expected);
        }
    }
}

/// Each two tails of up to three bytes over a few.
#[test]
fn each_two_tails() {
    let letters = [0, 82, 255];
    let mut tails = vec![vec![]];
    for length in 1..=3 {
        let shorter: Vec<Vec<u8>> = tails
            .iter()
            .filter(|t| t.len() + 1 == length)
            .cloned()
            .collect();
        for tail in shorter {
            tails.extend(letters.map(|letter| [&tail[..], &[letter]].concat()));
        }
    }
    assert_eq!(tails.len(), 1 + 3 + 9 + 27);
    for first in &tails {
        for second in &tails {
            let message = |tail: &[u8]| [&recorded()[..=EXAMPLE_END_AT], tail].concat();
            let expected = match first == second {
                true => "relay only\n",
                false => "layout\ncovered bytes differ\n",
            };
            assert_eq!(said(&message(first), &message(second)), expected);
        }
    }
}

/// Option 90 of each length beside each other length, in a message of nothing else.
#[test]
fn each_two_lengths_of_option_90() {
    let message = |length: usize| {
        let option = [&[AUTHENTICATION, length as u8][..], &vec![7; length]].concat();
        message_with(&[&option[..], &[END]].concat())
    };
    for first in 0..=255 {
        for second in 0..=255 {
            let expected = match first == second {
                true => "relay only\n",
                false => "altered 90 1\ncovered bytes differ\n",
            };
            let found = lines_of(&message(first), &message(second));
            assert_eq!(found.as_deref(), Ok(expected), "{first} and {second}");
        }
    }
}

/// Option 82 of each length at each place, added, taken out, and beside one of another length and
/// one of another place.
#[test]
fn each_length_and_place_of_option_82() {
    let bare = recorded();
    let beside = handed_on(EXAMPLE_90_AT, &[1, 2, 3]);
    for at in places(&bare).unwrap() {
        for length in 0..=255 {
            let message = handed_on(at, &vec![1; length]);
            let lines = said(&bare, &message);
            assert_eq!(lines, "hops\ngiaddr\nadded 82 1\nlayout\nrelay only\n");
            let lines = said(&message, &beside);
            let layout = if at == EXAMPLE_90_AT { "" } else { "layout\n" };
            assert_eq!(lines, format!("altered 82 1\n{layout}relay only\n"));
        }
    }
}

/// The same bytes after the code 82 are no option 82 where they stand in a body or after End.
#[test]
fn option_82_in_a_body_and_after_end() {
    let message = |body: &[u8], tail: &[u8]| {
        let option = [&[43, body.len() as u8][..], body, &[90, 0, END], tail];
        message_with(&option.concat())
    };
    let [one, other] = [[82, 1, 7], [82, 1, 8]];
    let lines = said(&message(&one, &[]), &message(&other, &[]));
    assert_eq!(lines, "altered 43 1\ncovered bytes differ\n");
    let lines = said(&message(&[], &one), &message(&[], &other));
    assert_eq!(lines, "layout\ncovered bytes differ\n");
    let lines = said(&message(&[], &one), &message(&[], &[]));
    assert_eq!(lines, "layout\ncovered bytes differ\n");
}

/// A message of so many empty options of a code, with option 90, empty too, behind some of them.
fn crowd(count: usize, code: u8, before: usize) -> Vec<u8> {
    let options = |count: usize| [code, 0].repeat(count);
    message_with(
        &[
            options(before),
            vec![90, 0],
            options(count - before),
            vec![END],
        ]
        .concat(),
    )
}

/// The most options besides option 90, all of them empty.
const OTHERS: usize = 614;

/// As many options as there is room for, 615 in all, of codes of one, two and three digits: beside
/// themselves, with option 90 elsewhere, with one less, with fewer by far, and of another code.
#[test]
fn as_many_options_as_there_is_room_for() {
    for code in [1, 9, 10, 99, 100, 254] {
        let message = crowd(OTHERS, code, 0);
        assert_eq!(message.len(), 1_471);
        assert_eq!(said(&message, &message), "relay only\n");
        let lines = said(&message, &crowd(OTHERS, code, OTHERS));
        assert_eq!(lines, "layout\ncovered bytes differ\n");
        let lines = said(&message, &crowd(OTHERS - 1, code, 0));
        let expected = format!("missing {code} 614\nlayout\ncovered bytes differ\n");
        assert_eq!(lines, expected);
        for count in [0, 1, 9, 10, 99, 100, 300] {
            let lines = said(&message, &crowd(count, code, 0));
            let missing = (count + 1..=OTHERS).map(|n| format!("missing {code} {n}\n"));
            let expected = missing.collect::<String>() + "layout\ncovered bytes differ\n";
            assert_eq!(lines, expected);
        }
        said(&message, &crowd(OTHERS, 53, 0));
    }
}

/// Each occurrence of a code altered, one at a time, and all of them.
#[test]
fn each_occurrence_altered() {
    let message = crowd(300, 77, 150);
    let altered = |which: &dyn Fn(usize) -> bool| {
        let mut changed = message.clone();
        let places = places(&message).unwrap();
        let of_code = places.iter().filter(|at| message[**at] == 77);
        let of_code: Vec<usize> = of_code.copied().collect();
        for (k, at) in of_code.into_iter().enumerate().rev() {
            if which(k + 1) {
                assert_eq!(option_at(&changed, at).map(|option| option.length), Some(0));
                changed.splice(at + 1..at + 2, [1, 0]);
            }
        }
        changed
    };
    for occurrence in 1..=300 {
        let lines = said(&message, &altered(&|k| k == occurrence));
        assert_eq!(
            lines,
            format!("altered 77 {occurrence}\ncovered bytes differ\n")
        );
    }
    let lines = said(&message, &altered(&|_| true));
    let all: String = (1..=300).map(|k| format!("altered 77 {k}\n")).collect();
    assert_eq!(lines, all + "covered bytes differ\n");
}

/// An option of each code, alone and twice.
#[test]
fn each_code() {
    for code in (1..=254).filter(|code| ![82, 90].contains(code)) {
        let bare = message_with(&[90, 0, END]);
        let message = message_with(&[code, 0, 90, 0, code, 1, 5, END]);
        let lines = said(&message, &bare);
        let missing = format!("missing {code} 1\nmissing {code} 2\n");
        assert_eq!(lines, missing + "layout\ncovered bytes differ\n");
        let other = message_with(&[code, 1, 5, 90, 0, code, 0, END]);
        let lines = said(&message, &other);
        let altered = format!("altered {code} 1\naltered {code} 2\n");
        assert_eq!(lines, altered + "covered bytes differ\n");
    }
}

/// Pairs about the longest: with other counts of options, lengths of option 90, codes and order. None
/// has longer lines.
#[test]
fn none_about_the_longest_is_longer() {
    let message = |fill: u8, code: u8, count: usize, authentication: usize| {
        let mut message = crowd(count, code, count / 2);
        let at = 240 + 2 * (count / 2);
        message[at + 1] = authentication as u8;
        message.splice(at + 2..at + 2, vec![0; authentication]);
        message[..236].fill(fill);
        message
    };
    let mut longest = 0;
    for (count, authentication) in [(614, 1), (614, 0), (613, 3), (612, 5), (600, 29)] {
        for code in [200, 99, 9] {
            let first = message(0, code, count, authentication);
            for second in [
                message(1, 201, 614, 0),
                message(1, 201, 614, 1),
                message(1, code, 614, 0),
                message(1, 82, 1, 0),
            ] {
                longest = longest.max(said(&first, &second).len());
                longest = longest.max(said(&second, &first).len());
            }
        }
    }
    assert_eq!(longest, LONGEST_KNOWN);
}
