//! The bench examples of docs/RULES.md, by number, on the second implementation. (Example 9's
//! program is run by the tests beside the library.)

use reference::examples::{
    accepted_by_b, accepted_by_b_with_82, book_b, book_b_not_heard, refused_by_b, searches,
    SearchExample, CARDS_B, CARD_B_NOT_HEARD, CARD_EMPTY, NEW_CARD_B, OLD_CARD_B,
};
use reference::refusal::number_of;
use reference::{card_move, card_read, card_write, check, known, Accepted, Book, Form, Refusal};

#[test]
fn example_1_cards_of_b() {
    let mut room = [0; 35];
    assert_eq!(card_write(&book_b(), &mut room), Ok(35));
    assert_eq!(room, NEW_CARD_B);
    for card in CARDS_B {
        assert_eq!(read(card), book_b());
    }
}

/// The book on a card of one row.
fn read(card: &[u8]) -> Book {
    let mut book = Book::with_room(1);
    assert_eq!(card_read(card, &mut book), Ok(1));
    book.rows = 1;
    book
}

#[test]
fn example_1_moved() {
    for card in CARDS_B {
        let (mut old, mut new) = ([0; 34], [0; 35]);
        assert_eq!(card_move(card, Form::Old, &mut old), Ok(34));
        assert_eq!(old, OLD_CARD_B);
        assert_eq!(card_move(card, Form::New, &mut new), Ok(35));
        assert_eq!(new, NEW_CARD_B);
    }
}

/// A move that is refused, which leaves a room of so many bytes as it was.
fn move_refused(card: &[u8], wanted: Form, room: usize) -> Refusal {
    let mut lent = vec![9; room];
    let answer = card_move(card, wanted, &mut lent);
    assert_eq!(lent, vec![9; room]);
    answer.expect_err("the move is refused")
}

/// Book B before anything was accepted: its card is read, and has no old form.
#[test]
fn example_1_not_heard() {
    let mut room = [0; 35];
    assert_eq!(card_write(&book_b_not_heard(), &mut room), Ok(35));
    assert_eq!(room, CARD_B_NOT_HEARD);
    assert_eq!(read(&CARD_B_NOT_HEARD), book_b_not_heard());
    for (room, expected) in [
        (33, Refusal::NoRoomForCard),
        (34, Refusal::RowNotHeard),
        (35, Refusal::RowNotHeard),
    ] {
        let refused = move_refused(&CARD_B_NOT_HEARD, Form::Old, room);
        assert_eq!(refused, expected);
    }
}

#[test]
fn example_2_empty_card() {
    assert_eq!(card_read(&CARD_EMPTY, &mut Book::with_room(0)), Ok(0));
    let longer = [&CARD_EMPTY[..], &[0]].concat();
    let answer = card_read(&longer, &mut Book::with_room(0));
    assert_eq!(answer, Err(Refusal::MalformedCard));
    for form in Form::BOTH {
        let mut room = [0; 6];
        assert_eq!(card_move(&CARD_EMPTY, form, &mut room), Ok(6));
        assert_eq!(room, CARD_EMPTY);
        assert_eq!(move_refused(&longer, form, 7), Refusal::MalformedCard);
    }
}

#[test]
fn examples_3_to_9_refused() {
    for example in refused_by_b() {
        let mut book = book_b();
        let answer = check(&mut book, &example.message);
        assert_eq!(number_of(&answer), example.number, "{}", example.name);
        assert_eq!(book, book_b(), "{}", example.name);
    }
}

/// Example 6 with the right MAC is accepted, and so it is with option 82 at its other places.
#[test]
fn example_6_put_right() {
    let accepted = Accepted {
        row: 0,
        counter: 11,
    };
    for message in accepted_by_b_with_82() {
        assert_eq!(check(&mut book_b(), &message), Ok(accepted));
    }
}

#[test]
fn example_9_put_right() {
    let mut book = book_b();
    let accepted = Accepted {
        row: 0,
        counter: 11,
    };
    assert_eq!(check(&mut book, &accepted_by_b()), Ok(accepted));
    assert_eq!(book.received, [11]);
    assert_eq!(book.marks, [1]);
}

#[test]
fn example_10_key_lengths() {
    let mut book = book_b();
    book.lengths[0] = 64;
    assert!(book.is_sound());
    book.lengths[0] = 65;
    assert!(!book.is_sound());
}

#[test]
fn example_12_searches() {
    for SearchExample {
        ids,
        count,
        id,
        answer,
    } in searches()
    {
        let found = known(&ids, count, id).map_err(Refusal::number);
        assert_eq!(found, answer, "{id} among {count} of {} ids", ids.len());
    }
}
