//! The C interface (include/rimemagpie.h), a safe function for each entry: slices for pointer and
//! length, places of results by `&mut`, and the number as it is returned. Nothing is added to it
//! and nothing hidden.
//!
//! This is the only file with `unsafe`. Slices are valid for their lengths, aligned and not null,
//! also when empty; `&mut` never overlaps anything else, and nobody else writes what is borrowed: all
//! that the header asks for holds by the types.

#![allow(unsafe_code)]

use crate::card_pieces::TAIL_MOST;

/// The declarations of include/rimemagpie.h.
mod header {
    extern "C" {
        pub fn rimemagpie_digest(message: *const u8, message_len: usize, digest: *mut u8) -> u8;

        pub fn rimemagpie_hmac(
            key: *const u8,
            key_len: usize,
            message: *const u8,
            message_len: usize,
            mac: *mut u8,
        ) -> u8;

        pub fn rimemagpie_check(
            ids: *const u32,
            ids_len: usize,
            lengths: *const u8,
            lengths_len: usize,
            store: *const u8,
            store_len: usize,
            marks: *mut u8,
            marks_len: usize,
            received: *mut u64,
            received_len: usize,
            sent: *const u64,
            sent_len: usize,
            rows: usize,
            message: *const u8,
            message_len: usize,
            row: *mut u64,
            counter: *mut u64,
        ) -> u8;

        pub fn rimemagpie_key(
            ids: *const u32,
            ids_len: usize,
            lengths: *const u8,
            lengths_len: usize,
            store: *const u8,
            store_len: usize,
            marks: *const u8,
            marks_len: usize,
            received: *const u64,
            received_len: usize,
            sent: *const u64,
            sent_len: usize,
            rows: usize,
            message: *const u8,
            message_len: usize,
            offset: *mut u64,
            size: *mut u64,
        ) -> u8;

        pub fn rimemagpie_seal(
            ids: *const u32,
            ids_len: usize,
            lengths: *const u8,
            lengths_len: usize,
            store: *const u8,
            store_len: usize,
            marks: *const u8,
            marks_len: usize,
            received: *const u64,
            received_len: usize,
            sent: *mut u64,
            sent_len: usize,
            rows: usize,
            id: u32,
            message: *mut u8,
            message_len: usize,
            counter: *mut u64,
        ) -> u8;

        pub fn rimemagpie_known(
            ids: *const u32,
            ids_len: usize,
            count: usize,
            id: u32,
            row: *mut u64,
            looks: *mut u64,
        ) -> u8;

        pub fn rimemagpie_card_read(
            card: *const u8,
            card_len: usize,
            ids: *mut u32,
            ids_len: usize,
            lengths: *mut u8,
            lengths_len: usize,
            store: *mut u8,
            store_len: usize,
            marks: *mut u8,
            marks_len: usize,
            received: *mut u64,
            received_len: usize,
            sent: *mut u64,
            sent_len: usize,
            rows: *mut u64,
        ) -> u8;

        pub fn rimemagpie_card_write(
            ids: *const u32,
            ids_len: usize,
            lengths: *const u8,
            lengths_len: usize,
            store: *const u8,
            store_len: usize,
            marks: *const u8,
            marks_len: usize,
            received: *const u64,
            received_len: usize,
            sent: *const u64,
            sent_len: usize,
            rows: usize,
            card: *mut u8,
            card_len: usize,
            size: *mut u64,
        ) -> u8;

        pub fn rimemagpie_card_to_old(
            card: *const u8,
            card_len: usize,
            room: *mut u8,
            room_len: usize,
            size: *mut u64,
        ) -> u8;

        pub fn rimemagpie_card_to_new(
            card: *const u8,
            card_len: usize,
            room: *mut u8,
            room_len: usize,
            size: *mut u64,
        ) -> u8;

        pub fn rimemagpie_forcerenew(
            nonces: *mut u8,
            nonces_len: usize,
            counters: *mut u64,
            counters_len: usize,
            marks: *mut u8,
            marks_len: usize,
            row: usize,
            message: *const u8,
            message_len: usize,
            kind: *mut u8,
            counter: *mut u64,
        ) -> u8;

        pub fn rimemagpie_compare(
            first: *const u8,
            first_len: usize,
            second: *const u8,
            second_len: usize,
            room: *mut u8,
            room_len: usize,
            size: *mut u64,
        ) -> u8;

        pub fn rimemagpie_card_begin(
            tail: *mut u8,
            kept: *mut u64,
            read: *mut u64,
            low: *mut u64,
            form: *mut u8,
            phase: *mut u8,
        );

        pub fn rimemagpie_card_feed(
            tail: *mut u8,
            kept: *mut u64,
            read: *mut u64,
            low: *mut u64,
            form: *mut u8,
            phase: *mut u8,
            piece: *const u8,
            piece_len: usize,
            ids: *mut u32,
            ids_len: usize,
            lengths: *mut u8,
            lengths_len: usize,
            store: *mut u8,
            store_len: usize,
            marks: *mut u8,
            marks_len: usize,
            received: *mut u64,
            received_len: usize,
            sent: *mut u64,
            sent_len: usize,
        ) -> u8;

        pub fn rimemagpie_card_finish(
            tail: *const u8,
            kept: u64,
            read: u64,
            low: u64,
            form: u8,
            phase: u8,
            spare_ids: *const u32,
            spare_ids_len: usize,
            spare_lengths: *const u8,
            spare_lengths_len: usize,
            spare_store: *const u8,
            spare_store_len: usize,
            spare_marks: *const u8,
            spare_marks_len: usize,
            spare_received: *const u64,
            spare_received_len: usize,
            spare_sent: *const u64,
            spare_sent_len: usize,
            ids: *mut u32,
            ids_len: usize,
            lengths: *mut u8,
            lengths_len: usize,
            store: *mut u8,
            store_len: usize,
            marks: *mut u8,
            marks_len: usize,
            received: *mut u64,
            received_len: usize,
            sent: *mut u64,
            sent_len: usize,
            rows: *mut u64,
        ) -> u8;
    }
}

/// `rimemagpie_digest`.
pub fn digest(message: &[u8], digest: &mut [u8; 16]) -> u8 {
    unsafe { header::rimemagpie_digest(message.as_ptr(), message.len(), digest.as_mut_ptr()) }
}

/// `rimemagpie_hmac`.
pub fn hmac(key: &[u8], message: &[u8], mac: &mut [u8; 16]) -> u8 {
    unsafe {
        header::rimemagpie_hmac(
            key.as_ptr(),
            key.len(),
            message.as_ptr(),
            message.len(),
            mac.as_mut_ptr(),
        )
    }
}

/// `rimemagpie_check`.
#[allow(clippy::too_many_arguments)]
pub fn check(
    ids: &[u32],
    lengths: &[u8],
    store: &[u8],
    marks: &mut [u8],
    received: &mut [u64],
    sent: &[u64],
    rows: usize,
    message: &[u8],
    row: &mut u64,
    counter: &mut u64,
) -> u8 {
    unsafe {
        header::rimemagpie_check(
            ids.as_ptr(),
            ids.len(),
            lengths.as_ptr(),
            lengths.len(),
            store.as_ptr(),
            store.len(),
            marks.as_mut_ptr(),
            marks.len(),
            received.as_mut_ptr(),
            received.len(),
            sent.as_ptr(),
            sent.len(),
            rows,
            message.as_ptr(),
            message.len(),
            row,
            counter,
        )
    }
}

/// `rimemagpie_key`.
#[allow(clippy::too_many_arguments)]
pub fn key(
    ids: &[u32],
    lengths: &[u8],
    store: &[u8],
    marks: &[u8],
    received: &[u64],
    sent: &[u64],
    rows: usize,
    message: &[u8],
    offset: &mut u64,
    size: &mut u64,
) -> u8 {
    unsafe {
        header::rimemagpie_key(
            ids.as_ptr(),
            ids.len(),
            lengths.as_ptr(),
            lengths.len(),
            store.as_ptr(),
            store.len(),
            marks.as_ptr(),
            marks.len(),
            received.as_ptr(),
            received.len(),
            sent.as_ptr(),
            sent.len(),
            rows,
            message.as_ptr(),
            message.len(),
            offset,
            size,
        )
    }
}

/// `rimemagpie_seal`.
#[allow(clippy::too_many_arguments)]
pub fn seal(
    ids: &[u32],
    lengths: &[u8],
    store: &[u8],
    marks: &[u8],
    received: &[u64],
    sent: &mut [u64],
    rows: usize,
    id: u32,
    message: &mut [u8],
    counter: &mut u64,
) -> u8 {
    unsafe {
        header::rimemagpie_seal(
            ids.as_ptr(),
            ids.len(),
            lengths.as_ptr(),
            lengths.len(),
            store.as_ptr(),
            store.len(),
            marks.as_ptr(),
            marks.len(),
            received.as_ptr(),
            received.len(),
            sent.as_mut_ptr(),
            sent.len(),
            rows,
            id,
            message.as_mut_ptr(),
            message.len(),
            counter,
        )
    }
}

/// `rimemagpie_known`.
pub fn known(ids: &[u32], count: usize, id: u32, row: &mut u64, looks: &mut u64) -> u8 {
    unsafe { header::rimemagpie_known(ids.as_ptr(), ids.len(), count, id, row, looks) }
}

/// `rimemagpie_card_read`.
#[allow(clippy::too_many_arguments)]
pub fn card_read(
    card: &[u8],
    ids: &mut [u32],
    lengths: &mut [u8],
    store: &mut [u8],
    marks: &mut [u8],
    received: &mut [u64],
    sent: &mut [u64],
    rows: &mut u64,
) -> u8 {
    unsafe {
        header::rimemagpie_card_read(
            card.as_ptr(),
            card.len(),
            ids.as_mut_ptr(),
            ids.len(),
            lengths.as_mut_ptr(),
            lengths.len(),
            store.as_mut_ptr(),
            store.len(),
            marks.as_mut_ptr(),
            marks.len(),
            received.as_mut_ptr(),
            received.len(),
            sent.as_mut_ptr(),
            sent.len(),
            rows,
        )
    }
}

/// `rimemagpie_card_write`.
#[allow(clippy::too_many_arguments)]
pub fn card_write(
    ids: &[u32],
    lengths: &[u8],
    store: &[u8],
    marks: &[u8],
    received: &[u64],
    sent: &[u64],
    rows: usize,
    card: &mut [u8],
    size: &mut u64,
) -> u8 {
    unsafe {
        header::rimemagpie_card_write(
            ids.as_ptr(),
            ids.len(),
            lengths.as_ptr(),
            lengths.len(),
            store.as_ptr(),
            store.len(),
            marks.as_ptr(),
            marks.len(),
            received.as_ptr(),
            received.len(),
            sent.as_ptr(),
            sent.len(),
            rows,
            card.as_mut_ptr(),
            card.len(),
            size,
        )
    }
}

/// `rimemagpie_card_to_old`.
pub fn card_to_old(card: &[u8], room: &mut [u8], size: &mut u64) -> u8 {
    unsafe {
        header::rimemagpie_card_to_old(
            card.as_ptr(),
            card.len(),
            room.as_mut_ptr(),
            room.len(),
            size,
        )
    }
}

/// `rimemagpie_card_to_new`.
pub fn card_to_new(card: &[u8], room: &mut [u8], size: &mut u64) -> u8 {
    unsafe {
        header::rimemagpie_card_to_new(
            card.as_ptr(),
            card.len(),
            room.as_mut_ptr(),
            room.len(),
            size,
        )
    }
}

/// `rimemagpie_forcerenew`.
pub fn forcerenew(
    nonces: &mut [u8],
    counters: &mut [u64],
    marks: &mut [u8],
    row: usize,
    message: &[u8],
    kind: &mut u8,
    counter: &mut u64,
) -> u8 {
    unsafe {
        header::rimemagpie_forcerenew(
            nonces.as_mut_ptr(),
            nonces.len(),
            counters.as_mut_ptr(),
            counters.len(),
            marks.as_mut_ptr(),
            marks.len(),
            row,
            message.as_ptr(),
            message.len(),
            kind,
            counter,
        )
    }
}

/// `rimemagpie_compare`.
pub fn compare(first: &[u8], second: &[u8], room: &mut [u8], size: &mut u64) -> u8 {
    unsafe {
        header::rimemagpie_compare(
            first.as_ptr(),
            first.len(),
            second.as_ptr(),
            second.len(),
            room.as_mut_ptr(),
            room.len(),
            size,
        )
    }
}

/// `rimemagpie_card_begin`.
pub fn card_begin(
    tail: &mut [u8; TAIL_MOST],
    kept: &mut u64,
    read: &mut u64,
    low: &mut u64,
    form: &mut u8,
    phase: &mut u8,
) {
    unsafe { header::rimemagpie_card_begin(tail.as_mut_ptr(), kept, read, low, form, phase) }
}

/// `rimemagpie_card_feed`.
#[allow(clippy::too_many_arguments)]
pub fn card_feed(
    tail: &mut [u8; TAIL_MOST],
    kept: &mut u64,
    read: &mut u64,
    low: &mut u64,
    form: &mut u8,
    phase: &mut u8,
    piece: &[u8],
    ids: &mut [u32],
    lengths: &mut [u8],
    store: &mut [u8],
    marks: &mut [u8],
    received: &mut [u64],
    sent: &mut [u64],
) -> u8 {
    unsafe {
        header::rimemagpie_card_feed(
            tail.as_mut_ptr(),
            kept,
            read,
            low,
            form,
            phase,
            piece.as_ptr(),
            piece.len(),
            ids.as_mut_ptr(),
            ids.len(),
            lengths.as_mut_ptr(),
            lengths.len(),
            store.as_mut_ptr(),
            store.len(),
            marks.as_mut_ptr(),
            marks.len(),
            received.as_mut_ptr(),
            received.len(),
            sent.as_mut_ptr(),
            sent.len(),
        )
    }
}

/// `rimemagpie_card_finish`.
#[allow(clippy::too_many_arguments)]
pub fn card_finish(
    tail: &[u8; TAIL_MOST],
    kept: u64,
    read: u64,
    low: u64,
    form: u8,
    phase: u8,
    spare_ids: &[u32],
    spare_lengths: &[u8],
    spare_store: &[u8],
    spare_marks: &[u8],
    spare_received: &[u64],
    spare_sent: &[u64],
    ids: &mut [u32],
    lengths: &mut [u8],
    store: &mut [u8],
    marks: &mut [u8],
    received: &mut [u64],
    sent: &mut [u64],
    rows: &mut u64,
) -> u8 {
    unsafe {
        header::rimemagpie_card_finish(
            tail.as_ptr(),
            kept,
            read,
            low,
            form,
            phase,
            spare_ids.as_ptr(),
            spare_ids.len(),
            spare_lengths.as_ptr(),
            spare_lengths.len(),
            spare_store.as_ptr(),
            spare_store.len(),
            spare_marks.as_ptr(),
            spare_marks.len(),
            spare_received.as_ptr(),
            spare_received.len(),
            spare_sent.as_ptr(),
            spare_sent.len(),
            ids.as_mut_ptr(),
            ids.len(),
            lengths.as_mut_ptr(),
            lengths.len(),
            store.as_mut_ptr(),
            store.len(),
            marks.as_mut_ptr(),
            marks.len(),
            received.as_mut_ptr(),
            received.len(),
            sent.as_mut_ptr(),
            sent.len(),
            rows,
        )
    }
}
