//! Outside answers through the interface: RFC 1321's digests, RFC 2202's HMAC-MD5 cases, and the
//! bench examples of docs/RULES.md by number.

use compare::runs::lend;
use reference::examples::{
    accepted_by_b, accepted_by_b_with_82, book_b, book_b_not_heard, hex, refused_by_b, rfc_2202,
    searches, SearchExample, CARDS_B, CARD_B_NOT_HEARD, CARD_EMPTY, NEW_CARD_B, OLD_CARD_B,
    RFC_1321,
};
use reference::Book;
use rimemagpie::{c, card_move, Accepted, Form, Refusal, Sought};

#[test]
fn rfc_1321_test_suite() {
    for (message, expected) in RFC_1321 {
        let digest = rimemagpie::digest(message.as_bytes());
        assert_eq!(digest.map(|d| hex(&d)), Ok(expected.to_string()));
    }
}

/// The cases with keys to 64 bytes; a longer key is refused, with a MAC of zeros.
#[test]
fn rfc_2202_test_cases() {
    for case in rfc_2202() {
        let mut mac = [9; 16];
        let number = c::hmac(&case.key, &case.message, &mut mac);
        if case.key.len() <= 64 {
            let answer = (number, hex(&mac));
            assert_eq!(answer, (0, case.mac.to_string()), "case {}", case.number);
        } else {
            assert_eq!((number, mac), (14, [0; 16]), "case {}", case.number);
        }
    }
}

/// The book on a card of one row.
fn read(card: &[u8]) -> Book {
    let mut book = Book::with_room(1);
    let mut lent = lend(&mut book);
    assert_eq!(lent.card_read(card), Ok(()));
    book.rows = lent.rows;
    book
}

#[test]
fn example_1_cards_of_b() {
    let mut room = [0; 35];
    assert_eq!(lend(&mut book_b()).card_write(&mut room), Ok(35));
    assert_eq!(room, NEW_CARD_B);
    for card in CARDS_B {
        assert_eq!(read(card), book_b());
    }
}

#[test]
fn example_1_moved() {
    for card in CARDS_B {
        let (mut old, mut new) = ([0; 34], [0; 35]);
        assert_eq!(card_move(card, Form::Old, &mut old), Ok(34));
        assert_eq!(old, OLD_CARD_B);
        assert_eq!(card_move(card, Form::New, &mut new), Ok(35));
        assert_eq!(new, NEW_CARD_B);
    }
}

/// A move that is refused, which leaves a room of so many bytes as it was.
fn move_refused(card: &[u8], wanted: Form, room: usize) -> Refusal {
    let mut lent = vec![9; room];
    let answer = card_move(card, wanted, &mut lent);
    assert_eq!(lent, vec![9; room]);
    answer.expect_err("the move is refused")
}

/// Book B before anything was accepted: its card is read, and has no old form.
#[test]
fn example_1_not_heard() {
    let mut room = [0; 35];
    let size = lend(&mut book_b_not_heard()).card_write(&mut room);
    assert_eq!((size, room), (Ok(35), CARD_B_NOT_HEARD));
    assert_eq!(read(&CARD_B_NOT_HEARD), book_b_not_heard());
    for (room, expected) in [
        (33, Refusal::NoRoomForCard),
        (34, Refusal::RowNotHeard),
        (35, Refusal::RowNotHeard),
    ] {
        let refused = move_refused(&CARD_B_NOT_HEARD, Form::Old, room);
        assert_eq!(refused, expected);
    }
}

#[test]
fn example_2_empty_card() {
    let mut book = Book::with_room(1);
    book.rows = 1;
    let mut lent = lend(&mut book);
    let longer = [&CARD_EMPTY[..], &[0]].concat();
    assert_eq!(lent.card_read(&longer), Err(Refusal::MalformedCard));
    assert_eq!(lent.rows, 1);
    assert_eq!(lent.card_read(&CARD_EMPTY), Ok(()));
    assert_eq!(lent.rows, 0);
    for form in [Form::Old, Form::New] {
        let mut room = [0; 6];
        assert_eq!(card_move(&CARD_EMPTY, form, &mut room), Ok(6));
        assert_eq!(room, CARD_EMPTY);
        assert_eq!(move_refused(&longer, form, 7), Refusal::MalformedCard);
    }
}

#[test]
fn examples_3_to_9_refused() {
    for example in refused_by_b() {
        let mut book = book_b();
        let answer = lend(&mut book).check(&example.message);
        let number = answer.map_err(|refusal| refusal.number());
        assert_eq!(number, Err(example.number), "{}", example.name);
        assert_eq!(book, book_b(), "{}", example.name);
    }
}

/// Example 6 with the right MAC is accepted, and so it is with option 82 at its other places.
#[test]
fn example_6_put_right() {
    let accepted = Accepted {
        row: 0,
        counter: 11,
    };
    for message in accepted_by_b_with_82() {
        assert_eq!(lend(&mut book_b()).check(&message), Ok(accepted));
    }
}

#[test]
fn example_9_put_right() {
    let mut book = book_b();
    let accepted = Accepted {
        row: 0,
        counter: 11,
    };
    assert_eq!(lend(&mut book).check(&accepted_by_b()), Ok(accepted));
    assert_eq!(book.received, [11]);
    assert_eq!(book.marks, [1]);
}

#[test]
fn example_10_key_lengths() {
    for (length, expected) in [(64, Ok(35 + 60)), (65, Err(Refusal::UnsoundBook))] {
        let mut book = book_b();
        book.lengths[0] = length;
        let answer = lend(&mut book).card_write(&mut [0; 200]);
        assert_eq!(answer, expected);
    }
}

#[test]
fn example_12_searches() {
    for SearchExample {
        ids,
        count,
        id,
        answer,
    } in searches()
    {
        let expected = answer.map(|sought| Sought {
            row: sought.row,
            looks: sought.looks,
        });
        let found = rimemagpie::known(&ids, count, id).map_err(Refusal::number);
        assert_eq!(found, expected, "{id} among {count} of {} ids", ids.len());
    }
}
