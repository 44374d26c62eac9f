//! What the programs do with a card and say of a check (docs/RULES.md, 'The program'), the line of
//! `known` ('A known id'), and what `compare_messages` writes ('Two files side by side').

use crate::auth::Accepted;
use crate::book::{Book, ROWS_MOST};
use crate::card::card_read;
use crate::comparison::{lines, text};
use crate::refusal::Refusal;

/// The book on a card, read into room for 256 rows.
pub fn book_of_card(card: &[u8]) -> Result<Book, Refusal> {
    let mut book = Book::with_room(ROWS_MOST);
    book.rows = card_read(card, &mut book)?;
    Ok(book)
}

/// A check's answer in words.
pub fn in_words(answer: &Result<Accepted, Refusal>) -> String {
    match answer {
        Ok(Accepted { row, counter }) => format!("accepted row {row} counter {counter}"),
        Err(refusal) => format!("refused {}", refusal.number()),
    }
}

/// The most bytes of an argument that are read.
pub const ARGUMENT_MOST: usize = 65_536;

/// What `known` says of its arguments and a card, which is None where it can't be read: a line
/// without its newline. The arguments come first, whatever the card is.
pub fn known_in_words(arguments: &[&[u8]], card: Option<&[u8]>) -> String {
    let &[argument] = arguments else {
        return "unreadable".to_string();
    };
    let (Some(id), Some(card)) = (id_of_argument(argument), card) else {
        return "unreadable".to_string();
    };
    match book_of_card(card).map(|book| book.row_of(id)) {
        Ok(Some(row)) => format!("known row {row}"),
        Ok(None) => "unknown".to_string(),
        Err(refusal) => format!("refused {}", refusal.number()),
    }
}

/// The id that an argument is in decimal: digits and nothing else, of a number below 2^32. Zeros in
/// front are digits like the others.
pub fn id_of_argument(argument: &[u8]) -> Option<u32> {
    if argument.is_empty() || argument.len() > ARGUMENT_MOST {
        return None;
    }
    let digit = |byte: &u8| byte.is_ascii_digit().then(|| u32::from(byte - b'0'));
    let more = |number: u32, byte: &u8| number.checked_mul(10)?.checked_add(digit(byte)?);
    argument.iter().try_fold(0, more)
}

/// The most bytes of a message file.
pub const MESSAGE_FILE_MOST: usize = 65_535;

/// What `compare_messages` writes of its two files, each None where it is missing or can't be read:
/// lines with their newlines. Both are read before either message is judged.
pub fn compared_in_words(first: Option<&[u8]>, second: Option<&[u8]>) -> String {
    let [first, second] =
        [first, second].map(|file| file.filter(|bytes| bytes.len() <= MESSAGE_FILE_MOST));
    let (Some(first), Some(second)) = (first, second) else {
        return "unreadable\n".to_string();
    };
    match lines(first, second) {
        Ok(lines) => text(&lines),
        Err(refusal) => format!("refused {}\n", refusal.number()),
    }
}

#[cfg(test)]
mod tests {
    use super::*;
    use crate::comparison_examples::recorded;
    use crate::examples::{CARDS_B, CARD_EMPTY};

    #[test]
    fn arguments() {
        let zeros = |count: usize, end: &str| [vec![b'0'; count], end.into()].concat();
        for (argument, id) in [
            (b"0".to_vec(), Some(0)),
            (b"7".to_vec(), Some(7)),
            (b"007".to_vec(), Some(7)),
            (b"4294967295".to_vec(), Some(u32::MAX)),
            (b"4294967296".to_vec(), None),
            (b"18446744073709551623".to_vec(), None),
            (zeros(65_535, "7"), Some(7)),
            (zeros(65_536, "7"), None),
            (vec![], None),
            (b"+7".to_vec(), None),
            (b"7 ".to_vec(), None),
            (vec![b'7', 0xff], None),
        ] {
            assert_eq!(id_of_argument(&argument), id, "{argument:?}");
        }
    }

    #[test]
    fn lines_of_known() {
        for card in CARDS_B {
            assert_eq!(known_in_words(&[b"7"], Some(card)), "known row 0");
            assert_eq!(known_in_words(&[b"8"], Some(card)), "unknown");
            assert_eq!(known_in_words(&[b"7"], Some(&card[1..])), "refused 15");
            assert_eq!(known_in_words(&[b"x"], Some(&card[1..])), "unreadable");
            assert_eq!(known_in_words(&[], Some(card)), "unreadable");
            assert_eq!(known_in_words(&[b"7", b"7"], Some(card)), "unreadable");
        }
        assert_eq!(known_in_words(&[b"7"], Some(&CARD_EMPTY)), "unknown");
        assert_eq!(known_in_words(&[b"7"], None), "unreadable");
    }

    /// A file that can't be read comes before a message that is refused, whichever it is.
    #[test]
    fn lines_of_compare_messages() {
        let (message, largest, above) = (recorded(), vec![0; 65_535], vec![0; 65_536]);
        let of = |first, second| compared_in_words(Some(first), Some(second));
        assert_eq!(of(&message, &message), "relay only\n");
        let cut = &message[..270];
        for (first, second, line) in [
            (cut, &message[..], "refused 4\n"),
            (&message, cut, "refused 4\n"),
            (cut, &[], "refused 4\n"),
            (&[], cut, "refused 2\n"),
            (&largest, &message, "refused 2\n"),
            (cut, &largest, "refused 4\n"),
            (cut, &above, "unreadable\n"),
            (&above, &message, "unreadable\n"),
        ] {
            assert_eq!(of(first, second), line);
        }
        for file in [None, Some(&message[..]), Some(cut)] {
            assert_eq!(compared_in_words(None, file), "unreadable\n");
            assert_eq!(compared_in_words(file, None), "unreadable\n");
        }
    }
}
