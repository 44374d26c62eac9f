//! Cards of both forms: random bytes, well-formed ones, and ones with one thing wrong.

use super::books;
use crate::random::Random;
use reference::book::{HEARD, NOT_HEARD, ROWS_MOST, SLOT};
use reference::card::{card_of_rows, record, row_record, rows_of_book, Form, Row, KIND_CLOSE};
use reference::Book;

/// Any card: some well-formed, some damaged, some no card at all.
pub fn any(random: &mut Random) -> Vec<u8> {
    match random.below(20) {
        0 => {
            let length = random.within(0..=200);
            random.bytes(length)
        }
        1..=10 => well_formed(random),
        _ => {
            let fault = random.pick(&Fault::ALL);
            damaged(random, fault)
        }
    }
}

/// A well-formed card of either form.
pub fn well_formed(random: &mut Random) -> Vec<u8> {
    let form = random.pick(&Form::BOTH);
    let rows = some_rows(random);
    card_of_rows(form, &rows)
}

/// A sound book's card: its new one, or, where every row is heard, one of both.
pub fn of_book(random: &mut Random, book: &Book) -> Vec<u8> {
    let all_heard = book.marks[..book.rows].iter().all(|mark| *mark == HEARD);
    let form = match all_heard {
        true => random.pick(&Form::BOTH),
        false => Form::New,
    };
    card_of_rows(form, &rows_of_book(book))
}

/// Cards of two rows with nothing wrong but what marks and kinds bring: rows of both kinds, in either
/// order, a mark above 1, and a received counter on a row that is not heard.
pub fn wrongly_marked() -> [Vec<u8>; 4] {
    let (heard, new) = (Row::heard(7, &[1, 2, 3, 4], 10), Row::new(8, &[1, 2, 3, 4]));
    let mixed = |forms: [Form; 2]| {
        let records = [row_record(forms[0], &heard), row_record(forms[1], &new)];
        [records.concat(), close(2)].concat()
    };
    let marked = |mark, received| {
        let row = Row {
            mark,
            received,
            ..new.clone()
        };
        card_of_rows(Form::New, &[heard.clone(), row])
    };
    [
        mixed([Form::Old, Form::New]),
        mixed([Form::New, Form::Old]),
        marked(2, 0),
        marked(NOT_HEARD, 1),
    ]
}

/// A card with a row too many and nothing else wrong.
pub fn of_257_rows(form: Form) -> Vec<u8> {
    let rows: Vec<Row> = (0..257).map(|id| Row::new(id, &[1])).collect();
    card_of_rows(form, &rows)
}

/// Rows in order, none to 256 of them.
pub fn some_rows(random: &mut Random) -> Vec<Row> {
    let count = row_count(random, 0);
    rows(random, count)
}

/// How many rows a card has, at least so many: mostly few, now and then up to 256.
fn row_count(random: &mut Random, least: usize) -> usize {
    match random.below(10) {
        0 => ROWS_MOST,
        1 => random.within(least..=ROWS_MOST),
        2 => random.within(least..=64),
        _ => random.within(least..=6),
    }
}

fn rows(random: &mut Random, count: usize) -> Vec<Row> {
    let marks = books::marks(random, count);
    books::ascending_ids(random, count)
        .into_iter()
        .zip(marks)
        .map(|(id, mark)| row(random, id, mark))
        .collect()
}

fn row(random: &mut Random, id: u32, mark: u8) -> Row {
    let length = match random.below(4) {
        0 => random.pick(&[1, SLOT]),
        _ => random.within(1..=SLOT),
    };
    Row {
        id,
        mark,
        received: books::received(random, mark),
        sent: books::counter(random),
        key: random.bytes(length),
    }
}

/// One thing wrong with a card.
#[derive(Clone, Copy, Debug, PartialEq, Eq)]
pub enum Fault {
    Cut,
    BytesAfter,
    AnyBit,
    LengthField,
    KindField,
    IdRepeated,
    IdsOutOfOrder,
    KeyEmpty,
    KeyTooLong,
    RowCut,
    RowTooMany,
    CloseNumber,
    CloseLength,
    CloseMissing,
    CloseTwice,
    RowAfterClose,
    MixedForms,
    MarkAbove1,
    CounterNotHeard,
}

impl Fault {
    pub const ALL: [Fault; 19] = [
        Fault::Cut,
        Fault::BytesAfter,
        Fault::AnyBit,
        Fault::LengthField,
        Fault::KindField,
        Fault::IdRepeated,
        Fault::IdsOutOfOrder,
        Fault::KeyEmpty,
        Fault::KeyTooLong,
        Fault::RowCut,
        Fault::RowTooMany,
        Fault::CloseNumber,
        Fault::CloseLength,
        Fault::CloseMissing,
        Fault::CloseTwice,
        Fault::RowAfterClose,
        Fault::MixedForms,
        Fault::MarkAbove1,
        Fault::CounterNotHeard,
    ];

    /// How many rows the fault needs to be made.
    fn rows_needed(self) -> usize {
        match self {
            Fault::IdRepeated | Fault::IdsOutOfOrder | Fault::MixedForms => 2,
            Fault::MarkAbove1 | Fault::CounterNotHeard => 1,
            Fault::KeyEmpty | Fault::KeyTooLong | Fault::RowCut | Fault::RowAfterClose => 1,
            _ => 0,
        }
    }

    /// The forms in which it can be made: the old one has no marks.
    fn forms(self) -> &'static [Form] {
        match self {
            Fault::MarkAbove1 | Fault::CounterNotHeard => &[Form::New],
            _ => &Form::BOTH,
        }
    }
}

/// A card with this wrong. (A changed bit may fall into a counter or a key, and then the card is
/// still one.)
pub fn damaged(random: &mut Random, fault: Fault) -> Vec<u8> {
    let form = random.pick(fault.forms());
    damaged_in_form(random, fault, form)
}

/// A card of this form with this wrong.
fn damaged_in_form(random: &mut Random, fault: Fault, form: Form) -> Vec<u8> {
    let count = row_count(random, fault.rows_needed());
    let mut rows = rows(random, count);
    spoil_rows(random, &mut rows, fault);
    let forms = match fault {
        Fault::MixedForms => mixed_forms(random, rows.len()),
        _ => vec![form; rows.len()],
    };
    let records = rows.iter().zip(forms);
    let mut records: Vec<Vec<u8>> = records.map(|(row, form)| row_record(form, row)).collect();
    records.push(close(rows.len()));
    spoil_records(random, &mut records, fault, form);
    let mut card = records.concat();
    spoil_bytes(random, &mut card, fault);
    card
}

/// Forms of so many rows, both among them: all orders come up, and half the time a single row is not
/// of the others' form.
fn mixed_forms(random: &mut Random, count: usize) -> Vec<Form> {
    if random.one_in(2) {
        let [others, single] = random.pick(&[Form::BOTH, [Form::New, Form::Old]]);
        let mut forms = vec![others; count];
        forms[books::some_row(random, count)] = single;
        return forms;
    }
    let old = random.within(1..=count - 1);
    let mut forms = vec![Form::Old; old];
    forms.resize(count, Form::New);
    random.shuffle(&mut forms);
    forms
}

fn close(count: usize) -> Vec<u8> {
    record(KIND_CLOSE, &(count as u16).to_le_bytes())
}

fn spoil_rows(random: &mut Random, rows: &mut Vec<Row>, fault: Fault) {
    match fault {
        Fault::IdRepeated => {
            let at = random.within(1..=rows.len() - 1);
            rows[at].id = rows[at - 1].id;
        }
        Fault::IdsOutOfOrder => {
            let at = random.within(1..=rows.len() - 1);
            rows.swap(at - 1, at);
        }
        Fault::KeyEmpty => {
            let at = random.below(rows.len());
            rows[at].key.clear();
        }
        Fault::KeyTooLong => {
            let at = random.below(rows.len());
            let length = random.pick(&[SLOT + 1, SLOT + 2, 255, 300]);
            rows[at].key.resize(length, 9);
        }
        Fault::RowTooMany => {
            let count = random.pick(&[ROWS_MOST + 1, ROWS_MOST + 1, 300]);
            *rows = self::rows(random, count);
        }
        Fault::MarkAbove1 => {
            let at = books::some_row(random, rows.len());
            rows[at].mark = books::wrong_mark(random);
        }
        Fault::CounterNotHeard => {
            let at = books::some_row(random, rows.len());
            rows[at].mark = NOT_HEARD;
            rows[at].received = books::wrong_counter(random);
        }
        _ => {}
    }
}

/// Spoils the records of a card of this form.
fn spoil_records(random: &mut Random, records: &mut Vec<Vec<u8>>, fault: Fault, form: Form) {
    let last = records.len() - 1;
    let any = random.within(0..=last);
    match fault {
        Fault::LengthField => {
            let length = u16::from_le_bytes([records[any][0], records[any][1]]);
            let other =
                random.pick(&[length + 1, length - 1, length + 2, length - 2, 0, 1, 65_535]);
            records[any][..2].copy_from_slice(&other.to_le_bytes());
        }
        Fault::KindField => {
            let kind: u16 = random.pick(&[0, 1, 2, 3, 4, 256, 257, 259, 512, 768]);
            records[any][2..4].copy_from_slice(&kind.to_le_bytes());
        }
        Fault::RowCut => {
            // A row whose record is whole but too short to hold a key, or its numbers.
            let body = random.within(0..=key_at(form));
            records[0] = record(form.kind(), &vec![0; body]);
        }
        Fault::CloseNumber => {
            let count = last as u16;
            let less = count.wrapping_sub(1);
            let other = random.pick(&[count + 1, less, 0, count + 256, count << 8]);
            records[last] = record(KIND_CLOSE, &other.to_le_bytes());
        }
        Fault::CloseLength => {
            let [low, high] = (last as u16).to_le_bytes();
            let body = [low, high, 0];
            let length = random.pick(&[0, 1, 3]);
            records[last] = record(KIND_CLOSE, &body[..length]);
        }
        Fault::CloseMissing => {
            records.pop();
        }
        Fault::CloseTwice => {
            let place = random.pick(&[any, last]);
            records.insert(place, close(place));
        }
        Fault::RowAfterClose => {
            // The close still numbers all rows, or those before it.
            let number = random.pick(&[last, last - 1]);
            records[last] = close(number);
            records.swap(last - 1, last);
        }
        _ => {}
    }
}

/// Where the key begins in a row's body.
fn key_at(form: Form) -> usize {
    match form {
        Form::Old => 20,
        Form::New => 21,
    }
}

fn spoil_bytes(random: &mut Random, card: &mut Vec<u8>, fault: Fault) {
    match fault {
        Fault::Cut => card.truncate(random.below(card.len())),
        Fault::BytesAfter => {
            let length = random.pick(&[1, 2, 6]);
            card.extend(random.bytes(length));
        }
        Fault::AnyBit => {
            let at = random.below(card.len());
            card[at] ^= 1 << random.below(8);
        }
        _ => {}
    }
}

#[cfg(test)]
mod tests {
    use super::*;
    use reference::card::{rows_of_card, KIND_NEW_ROW, KIND_OLD_ROW};

    #[test]
    fn damage_is_damage() {
        let mut random = Random::new(5);
        for fault in Fault::ALL {
            for form in fault.forms() {
                let malformed = (0..200)
                    .map(|_| damaged_in_form(&mut random, fault, *form))
                    .filter(|card| rows_of_card(card).is_none())
                    .count();
                // A field may be given the value it has, and a bit may fall into a counter or a key.
                let least = match fault {
                    Fault::AnyBit | Fault::KindField | Fault::CloseNumber => 20,
                    _ => 200,
                };
                assert!(
                    malformed >= least,
                    "{fault:?}, {form:?}: {malformed} of 200 malformed"
                );
            }
        }
    }

    /// The kinds of a card's records and their bodies, as far as the records are whole.
    fn records(card: &[u8]) -> Vec<(u16, &[u8])> {
        let mut records = vec![];
        let mut left = card;
        while let [l0, l1, k0, k1, behind @ ..] = left {
            let length = usize::from(u16::from_le_bytes([*l0, *l1]));
            let Some(body) = length.checked_sub(2).and_then(|size| behind.get(..size)) else {
                break;
            };
            records.push((u16::from_le_bytes([*k0, *k1]), body));
            left = &behind[body.len()..];
        }
        records
    }

    /// The kinds of a card's rows.
    fn kinds(card: &[u8]) -> Vec<u16> {
        let kinds = records(card).into_iter().map(|(kind, _)| kind);
        kinds.filter(|kind| *kind != KIND_CLOSE).collect()
    }

    /// The marks of a card that is one.
    fn marks(card: &[u8]) -> Option<Vec<u8>> {
        Some(rows_of_card(card)?.iter().map(|row| row.mark).collect())
    }

    /// The marks of the new rows, with what stands in them for the received counter.
    fn marked(card: &[u8]) -> Vec<(u8, u64)> {
        let new_rows = records(card).into_iter().filter_map(|(kind, body)| {
            let counter = body.get(5..13)?.try_into().ok()?;
            (kind == KIND_NEW_ROW).then_some((body[4], u64::from_le_bytes(counter)))
        });
        new_rows.collect()
    }

    /// Whether 256 rows have these kinds: all but the last, and the last.
    fn ends_in_another_kind(card: &[u8], others: u16, last: u16) -> bool {
        kinds(card) == [[others; 255].as_slice(), &[last]].concat()
    }

    /// The last of 256 new rows: its mark and its received counter.
    fn last_of_256(card: &[u8]) -> Option<(u8, u64)> {
        let marked = marked(card);
        (marked.len() == 256).then(|| marked[255])
    }

    type Situation = (&'static str, fn(&[u8]) -> bool);

    /// What must come up among cards.
    const CARDS: [Situation; 21] = [
        ("no rows", |card| marks(card).is_some_and(|m| m.is_empty())),
        ("an old card", |card| {
            marks(card).is_some() && kinds(card).contains(&KIND_OLD_ROW)
        }),
        ("an old card of 256 rows", |card| {
            marks(card).is_some() && kinds(card) == [KIND_OLD_ROW; 256]
        }),
        ("an old card with a received counter 0", |card| {
            let rows = rows_of_card(card).unwrap_or_default();
            kinds(card).contains(&KIND_OLD_ROW) && rows.iter().any(|row| row.received == 0)
        }),
        ("a new card, all heard", |card| {
            kinds(card) == [KIND_NEW_ROW; 3] && marks(card) == Some(vec![HEARD; 3])
        }),
        ("a new card, none heard", |card| {
            kinds(card) == [KIND_NEW_ROW; 3] && marks(card) == Some(vec![NOT_HEARD; 3])
        }),
        ("a new card, one heard", |card| {
            marks(card) == Some(vec![NOT_HEARD, HEARD])
        }),
        ("a new card, the last row not heard", |card| {
            marks(card) == Some(vec![HEARD, NOT_HEARD])
        }),
        ("a new card of 256 rows, all heard", |card| {
            kinds(card) == [KIND_NEW_ROW; 256] && marks(card) == Some(vec![HEARD; 256])
        }),
        ("a new card of 256 rows, some not heard", |card| {
            marks(card).is_some_and(|m| m.len() == 256 && m.contains(&NOT_HEARD))
        }),
        ("a heard row with counter 0 on a new card", |card| {
            marks(card).is_some() && marked(card).contains(&(HEARD, 0))
        }),
        ("an old row before a new one", |card| {
            kinds(card) == [KIND_OLD_ROW, KIND_NEW_ROW]
        }),
        ("a new row before an old one", |card| {
            kinds(card) == [KIND_NEW_ROW, KIND_OLD_ROW]
        }),
        ("an old row between new ones", |card| {
            kinds(card) == [KIND_NEW_ROW, KIND_OLD_ROW, KIND_NEW_ROW]
        }),
        ("a mark of 2", |card| marked(card).iter().any(|m| m.0 == 2)),
        ("a mark of 255", |card| {
            marked(card).iter().any(|m| m.0 == 255)
        }),
        ("counter 1 on a row not heard", |card| {
            marked(card).contains(&(NOT_HEARD, 1))
        }),
        ("the last of 256 rows old, the others new", |card| {
            ends_in_another_kind(card, KIND_NEW_ROW, KIND_OLD_ROW)
        }),
        ("the last of 256 rows new, the others old", |card| {
            ends_in_another_kind(card, KIND_OLD_ROW, KIND_NEW_ROW)
        }),
        ("a mark of 2 in the last of 256 rows", |card| {
            last_of_256(card).is_some_and(|(mark, _)| mark == 2)
        }),
        ("a counter in the last of 256 rows, not heard", |card| {
            last_of_256(card).is_some_and(|(mark, counter)| mark == NOT_HEARD && counter != 0)
        }),
    ];

    #[test]
    fn marks_and_forms_come_up_in_each_way() {
        let mut random = Random::new(16);
        let cards: Vec<Vec<u8>> = (0..40_000).map(|_| any(&mut random)).collect();
        for (name, holds) in CARDS {
            let seen = cards.iter().any(|card| holds(card));
            assert!(seen, "cards never came up: {name}");
        }
    }

    #[test]
    fn wrongly_marked_cards_are_malformed() {
        for card in wrongly_marked() {
            assert_eq!(rows_of_card(&card), None);
        }
    }

    /// A book's card has its rows, in each form that it may have.
    #[test]
    fn cards_of_a_book() {
        let mut random = Random::new(17);
        let [mut old, mut new] = [0; 2];
        for _ in 0..500 {
            let book = books::sound_with_a_row(&mut random);
            let card = of_book(&mut random, &book);
            assert_eq!(rows_of_card(&card), Some(rows_of_book(&book)));
            match kinds(&card)[0] {
                KIND_OLD_ROW => old += 1,
                _ => new += 1,
            }
        }
        assert!(old > 50 && new > 200, "{old} old, {new} new");
    }
}
