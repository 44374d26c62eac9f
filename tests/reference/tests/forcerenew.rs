//! FORCERENEW by nonce on the second implementation: the examples, and what they leave out.

use reference::examples::{accepted_by_b, book_b, message_with};
use reference::forcerenew::{HEARD, NONE_YET, NOT_HEARD};
use reference::message::{AUTHENTICATION, RELAY_AGENT};
use reference::nonce_examples::{
    accepted_by_nonce, ack_with, one_row, option_by_nonce, order_0, order_11, refused_by_nonce,
    JudgedExample, NONCE, ORDER_AT, OTHER_NONCE,
};
use reference::refusal::number_of;
use reference::{check, forcerenew, Judged, Refusal, Servers};

/// Judges an example; the number and the rows afterwards are the expected ones.
fn judged(example: &JudgedExample) -> Result<Judged, Refusal> {
    let mut servers = example.before.clone();
    let answer = forcerenew(&mut servers, example.row, &example.message);
    assert_eq!(number_of(&answer), example.number, "{}", example.name);
    assert_eq!(servers, example.after, "{}", example.name);
    answer
}

#[test]
fn accepted() {
    for example in accepted_by_nonce() {
        let Judged { kind, counter } = judged(&example).unwrap();
        let option = if kind == 1 { 243 } else { ORDER_AT };
        assert_eq!(kind, example.message[option + 13], "{}", example.name);
        let counter = counter.to_be_bytes();
        assert_eq!(counter, example.message[option + 5..option + 13]);
    }
}

#[test]
fn refused() {
    for example in refused_by_nonce() {
        assert!(judged(&example).is_err());
    }
}

/// What a message gets on a row with the nonce, not heard.
fn number_given(message: &[u8]) -> u8 {
    number_of(&forcerenew(&mut one_row(&NONCE, 0, NOT_HEARD), 0, message))
}

/// Each server has its own row: a message for one leaves the others.
#[test]
fn rows_are_apart() {
    let start = Servers {
        nonces: [OTHER_NONCE, NONCE, NONCE].concat(),
        counters: vec![4, 10, 6],
        marks: vec![HEARD, HEARD, NONE_YET],
    };
    let mut servers = start.clone();
    assert_eq!(
        forcerenew(&mut servers, 0, &order_11()),
        Err(Refusal::WrongMac)
    );
    assert_eq!(
        forcerenew(&mut servers, 2, &order_11()),
        Err(Refusal::NoNonce)
    );
    assert_eq!(
        forcerenew(&mut servers, 3, &order_11()),
        Err(Refusal::UnknownSecret)
    );
    assert_eq!(servers, start);
    let answer = forcerenew(&mut servers, 1, &order_11());
    let counter = 11;
    assert_eq!(answer, Ok(Judged { kind: 2, counter }));
    assert_eq!(
        (&servers.nonces, &servers.marks),
        (&start.nonces, &start.marks)
    );
    assert_eq!(servers.counters, [4, 11, 6]);
    let answer = forcerenew(&mut servers, 2, &ack_with(&OTHER_NONCE, u64::MAX));
    let counter = u64::MAX;
    assert_eq!(answer, Ok(Judged { kind: 1, counter }));
    assert_eq!(servers.nonces, [OTHER_NONCE, NONCE, OTHER_NONCE].concat());
    assert_eq!(servers.counters, [4, 11, 0]);
    assert_eq!(servers.marks, [HEARD, HEARD, NOT_HEARD]);
}

/// A FORCERENEW passes once under a nonce; the nonce again doesn't let it in, and another nonce
/// between does, since it begins anew.
#[test]
fn shown_again() {
    let (ack, other) = (ack_with(&NONCE, 7), ack_with(&OTHER_NONCE, 7));
    let mut servers = Servers::with_rows(1);
    let shown = [
        (&order_11(), 21),
        (&ack, 0),
        (&order_11(), 0),
        (&order_11(), 11),
        (&order_0(), 11),
        (&ack, 0),
        (&order_11(), 11),
        (&other, 0),
        (&order_11(), 12),
        (&ack, 0),
        (&order_0(), 0),
        (&order_11(), 0),
        (&order_11(), 11),
    ];
    for (step, (message, number)) in shown.into_iter().enumerate() {
        let answer = forcerenew(&mut servers, 0, message);
        assert_eq!(number_of(&answer), number, "step {step}");
    }
}

#[test]
fn sizes_and_marks_of_all_rows() {
    let number_after = |change: fn(&mut Servers)| {
        let mut servers = Servers::with_rows(3);
        change(&mut servers);
        let before = servers.clone();
        let answer = forcerenew(&mut servers, 0, &ack_with(&[0; 16], 0));
        assert!(answer.is_ok() || servers == before);
        number_of(&answer)
    };
    assert_eq!(number_after(|_| {}), 0);
    assert_eq!(number_after(|s| s.nonces.push(0)), 1);
    assert_eq!(number_after(|s| s.nonces.truncate(32)), 1);
    assert_eq!(number_after(|s| s.nonces.truncate(3)), 1);
    assert_eq!(number_after(|s| s.counters.push(0)), 1);
    assert_eq!(number_after(|s| s.counters.clear()), 1);
    assert_eq!(number_after(|s| s.marks.push(0)), 1);
    assert_eq!(number_after(|s| s.marks.truncate(1)), 1);
    assert_eq!(number_after(|s| s.marks.fill(HEARD)), 0);
    assert_eq!(number_after(|s| s.marks[0] = 3), 1);
    assert_eq!(number_after(|s| s.marks[2] = 255), 1);
    assert_eq!(number_after(|s| *s = Servers::with_rows(0)), 10);
    assert_eq!(number_after(|s| *s = Servers::with_rows(70_000)), 0);
}

/// A row's number may be any.
#[test]
fn rows_past_the_last() {
    let mut servers = Servers::with_rows(2);
    for row in [2, 3, 1 << 32, 1 << 60, usize::MAX] {
        let answer = forcerenew(&mut servers, row, &ack_with(&NONCE, 0));
        assert_eq!(answer, Err(Refusal::UnknownSecret));
        assert_eq!(servers, Servers::with_rows(2));
    }
}

/// The ordinary check says 8 to these options, and this entry 19 to RFC 3118's.
#[test]
fn each_entry_has_its_own_option_90() {
    for message in [order_11(), order_0(), ack_with(&NONCE, 11)] {
        assert_eq!(number_given(&message), 0);
        let answer = check(&mut book_b(), &message);
        assert_eq!(answer, Err(Refusal::OtherAuthentication));
    }
    assert_eq!(number_given(&accepted_by_b()), 19);
    let request = [&[AUTHENTICATION, 11, 1, 1, 0][..], &[0; 8], &[255]].concat();
    assert_eq!(number_given(&message_with(&request)), 19);
    let both = [
        &[53, 1, 5][..],
        &option_by_nonce(0, 1, &NONCE),
        &accepted_by_b()[240..],
    ]
    .concat();
    assert_eq!(number_given(&message_with(&both)), 6);
}

/// Option 53 stands once, with one byte, somewhere before End.
#[test]
fn the_type_goes_with_option_53() {
    let auth = option_by_nonce(0, 1, &NONCE);
    let number = |options: &[&[u8]]| number_given(&message_with(&options.concat()));
    assert_eq!(number(&[&auth, &[53, 1, 5, 255]]), 0);
    assert_eq!(number(&[&[0, 53, 1, 5, 0], &auth, &[255, 53, 1, 5]]), 0);
    assert_eq!(number(&[&auth, &[12, 3, 53, 1, 9, 53, 1, 5, 255]]), 0);
    assert_eq!(number(&[&auth, &[255]]), 20);
    assert_eq!(number(&[&auth, &[255, 53, 1, 5]]), 20);
    assert_eq!(number(&[&[53, 1, 5], &auth, &[53, 1, 5, 255]]), 20);
    assert_eq!(number(&[&[53, 1, 5], &auth, &[53, 0, 255]]), 20);
    assert_eq!(number(&[&auth, &[53, 0, 255]]), 20);
    assert_eq!(number(&[&auth, &[53, 0, 5, 0, 255]]), 20);
    assert_eq!(number(&[&auth, &[53, 2, 5, 5, 255]]), 20);
    assert_eq!(number(&[&auth, &[53, 2, 5, 0, 255]]), 20);
    assert_eq!(number(&[&auth, &[53, 1, 9, 255]]), 20);
    for kind in 0..=255 {
        let auth = option_by_nonce(0, kind, &NONCE);
        let expected = if kind == 1 { 0 } else { 20 };
        assert_eq!(number(&[&auth, &[53, 1, 5, 255]]), expected);
    }
}

/// The counter of an ACK is not judged, and two options 82 are still 7.
#[test]
fn what_an_ack_is_judged_by() {
    for counter in [0, 9, 10, u64::MAX] {
        let mut servers = one_row(&NONCE, 10, HEARD);
        let answer = forcerenew(&mut servers, 0, &ack_with(&NONCE, counter));
        assert_eq!(answer, Ok(Judged { kind: 1, counter }));
        assert_eq!(servers, one_row(&NONCE, 10, HEARD));
    }
    let mut relayed = ack_with(&NONCE, 0);
    relayed.splice(240..240, [RELAY_AGENT, 0]);
    assert_eq!(number_given(&relayed), 0);
    relayed.splice(240..240, [RELAY_AGENT, 0]);
    assert_eq!(number_given(&relayed), 7);
}
