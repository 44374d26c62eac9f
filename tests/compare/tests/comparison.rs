//! Comparisons of two messages beside the second implementation: the number, the size's place and all
//! lent buffers whole after every call, refused ones too, on pairs drawn at random; and pairs with
//! lines written out by hand.

use compare::comparisons::{compared, compared_lent, exchanged, lines_of};
use compare::generate::pairs;
use compare::harness::{cases, compare, for_each_case, on_bytes, same, say, Difference, Tally};
use compare::met_comparison as met;
use compare::random::Random;
use reference::comparison::{lines, text, COMPARISON_MOST};
use reference::comparison_examples::{
    compared_covered, compared_relay_only, longest_known, LONGEST_KNOWN,
};
use rimemagpie::Refusal;

#[test]
fn pairs_drawn_at_random() {
    let mut numbers = Tally::new("compare, by number of each message");
    let mut rooms = Tally::new("compare, by room");
    let mut kinds = Tally::new("compare, by line");
    let mut differences = Tally::new("compare, by difference");
    let mut longest = 0;
    compare("compare", &[0, 2, 3, 4, 5, 6, 7, 22], |random| {
        let pair = pairs::any(random);
        let room = pairs::room(random, &pair);
        let number = on_pair(case(random, &pair, &room), &pair)?;
        let [first, second] = &pair;
        numbers.count(met::by_numbers(first, second, number));
        let by_room = met::by_room(first, second, room.len(), number);
        by_room.into_iter().for_each(|what| rooms.count(what));
        if number == 0 {
            let lines = lines(first, second).unwrap_or_default();
            lines.iter().for_each(|line| kinds.count(met::kind(line)));
            let difference = met::by_difference(first, second);
            difference
                .into_iter()
                .for_each(|what| differences.count(what));
            longest = longest.max(text(&lines).len());
        }
        Ok(number)
    });
    numbers.print();
    numbers.require(&met::numbers());
    rooms.print();
    rooms.require(&met::ROOMS.map(String::from));
    rooms.forbid(&met::NO_ROOMS.map(String::from));
    kinds.print();
    kinds.require(&met::kinds());
    kinds.forbid(&met::NO_KINDS.map(String::from));
    differences.print();
    differences.require(&met::differences());
    say(&format!("compare, the longest lines: {longest} bytes"));
}

/// Both compare the two alike, and, where there are lines, alike with first and second exchanged.
fn case(random: &mut Random, pair: &[Vec<u8>; 2], room: &[u8]) -> Result<u8, Difference> {
    let left = compared_lent(random, pair, room)?;
    if let Some(text) = left.lines() {
        exchanged(&pair[0], &pair[1], text)?;
    }
    Ok(left.number)
}

/// A difference with the two messages it was found on.
fn on_pair<T>(
    result: Result<T, Difference>,
    [first, second]: &[Vec<u8>; 2],
) -> Result<T, Difference> {
    on_bytes(on_bytes(result, "first", first), "second", second)
}

/// Pairs with lines written out by hand.
#[test]
fn examples() {
    for example in compared_relay_only().into_iter().chain(compared_covered()) {
        let found = lines_of(&example.first, &example.second);
        assert_eq!(found.as_deref(), Ok(example.lines), "{}", example.name);
        let turned = exchanged(&example.first, &example.second, example.lines);
        assert_eq!(turned, Ok(()), "{}", example.name);
    }
}

/// The two with the longest lines known fill a room of 18,325 bytes to the last, and a byte less is
/// too little.
#[test]
fn the_longest_known() {
    let [first, second] = longest_known();
    let lines = lines_of(&first, &second).unwrap_or_else(|difference| panic!("{difference}"));
    assert_eq!(lines.len(), LONGEST_KNOWN);
    assert_eq!(LONGEST_KNOWN, 18_325);
    for (size, number) in [
        (0, 22),
        (LONGEST_KNOWN - 1, 22),
        (LONGEST_KNOWN, 0),
        (LONGEST_KNOWN + 1, 0),
        (COMPARISON_MOST, 0),
        (65_536, 0),
    ] {
        let left = compared(&first, &second, &vec![7; size]);
        assert_eq!(left.map(|left| left.number), Ok(number), "room {size}");
    }
}

/// The Rust wrapper: the lines as text, in a lent room and as a string of its own, and the refusals.
#[test]
fn wrapper() {
    for_each_case("wrapper compare", cases() / 10, |random| {
        let pair = pairs::any(random);
        let room = pairs::room(random, &pair);
        let [first, second] = &pair;
        let (mut room_after, mut lent) = (room.clone(), room.clone());
        let expected = reference::compare(first, second, &mut room_after);
        let expected = match expected {
            Ok(size) => Ok(String::from_utf8_lossy(&room_after[..size]).into_owned()),
            Err(refusal) => Err(refusal.number()),
        };
        let found = rimemagpie::compare(first, second, &mut lent);
        let found = found.map(String::from).map_err(Refusal::number);
        same("the lines", &expected, &found)?;
        same("the room", &room_after, &lent)?;
        let own = rimemagpie::comparison(first, second).map_err(Refusal::number);
        match expected {
            Err(22) => same("'it has room'", &true, &own.is_ok()),
            _ => same("the lines of its own", &expected, &own),
        }
    });
    assert_eq!(rimemagpie::COMPARISON_MOST, COMPARISON_MOST);
}
