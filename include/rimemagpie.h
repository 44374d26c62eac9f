/*
 * Rimemagpie: judges and seals DHCPv4 messages under RFC 3118 delayed authentication (protocol 1, algorithm 1, which is
 * HMAC-MD5, replay detection method 0), judges FORCERENEW by nonce (RFC 6704, protocol 3), reads, writes and moves the card
 * on which a key book is stored, and tells what differs in a message that was recorded in two places. docs/RULES.md has the
 * rules.
 *
 * Link with librimemagpie.a. No function allocates, keeps anything between calls, or reads or writes anything but what it
 * is lent.
 *
 * What is lent. A pointer and the length after it name a buffer of that many items (bytes, 32-bit or 64-bit numbers, not
 * the size in bytes); a pointer without a length is the place of a result, or a part of a card reader's state, of which
 * `tail` is 88 bytes. The caller sees to it that
 *
 *   - every pointer is valid for its whole buffer and aligned for its type;
 *   - no pointer is null, also where the length is 0. An empty C++ vector's data() may be null: lend the address of any
 *     variable of that type in its place, with the length 0;
 *   - in one call nothing overlaps what is lent for writing: no two places of results or parts of a state, no
 *     place and a buffer, no two buffers of which one is not `const`;
 *   - nobody else (another thread, a signal handler) writes the book, the server rows or anything else that is lent
 *     during the call, or reads what the call writes.
 *
 * The key book. Six buffers, each with room for the same n rows (n at most 1,024), and the number of rows in use:
 *
 *   ids       n numbers     secret ids
 *   lengths   n bytes       bytes of each key
 *   store     64 * n bytes  row k's key from 64 * k on
 *   marks     n bytes       1 where the secret is heard, 0 where it is not heard
 *   received  n numbers     the counter last accepted from the network under each secret, 0 where it is not heard
 *   sent      n numbers     the counter last sealed under each secret
 *   rows                    rows in use
 *
 * Heard (1, RIMEMAGPIE_HEARD) means: only a counter above the received one is taken. Not heard (0, RIMEMAGPIE_NOT_HEARD)
 * means: nothing was accepted yet, and any counter is taken, 0 and 2^64 - 1 too, if the MAC is right; the row is then
 * heard. A new row begins not heard: its mark is 0, and so is its received counter. A row read from a card of the old form
 * is heard, also where nothing ever came under it.
 *
 * Store the marks with the received counters after every check that returns 0: where counter 0 was accepted, the mark is
 * all that changed. With counters that were kept without marks, lend the mark 1. A mark that is set back to 0 together
 * with its received counter (where that is 0 already, the mark alone) lets all earlier messages under that secret in once
 * more.
 *
 * The book is sound when the sizes are so, rows is at most n and at most 256, the first `rows` ids ascend strictly, their
 * key lengths are 1 to 64, their marks are 0 or 1, and the received counter of each of them that is not heard is 0. Any
 * other book may be lent too: it is refused with 1. Slot bytes past a key affect no answer. Nor does any row from `rows`
 * on: such a row's mark may be any byte.
 *
 * The card has two forms. The old one has no marks, and every row on it counts as heard; the new one has a mark for each
 * row. A card of either form is read, and the new one is written. rimemagpie_card_to_old and rimemagpie_card_to_new make
 * one of the other. A card that isn't in memory whole is read in pieces: see struct rimemagpie_card_reader.
 *
 * The server rows, which rimemagpie_forcerenew alone is lent. They are no part of the book or of its card. Three buffers,
 * each for the same n rows, a row for each server that may order a renewal. n may be any, 0 and above 1,024 too, and all n
 * rows are in use:
 *
 *   nonces    16 * n bytes  row k's nonce from 16 * k on
 *   counters  n numbers     the counter last accepted from each server under its nonce
 *   marks     n bytes       0 where the row has no nonce yet, 1 where it has one and is not heard, 2 where it is heard
 *
 * These marks are numbered otherwise than a book's: there 0 is not heard and 1 is heard, here 1 is not heard and 2 is
 * heard. RIMEMAGPIE_NOT_HEARD and RIMEMAGPIE_HEARD are a book's; RIMEMAGPIE_SERVER_NONE_YET, RIMEMAGPIE_SERVER_NOT_HEARD
 * and RIMEMAGPIE_SERVER_HEARD are a server row's. A new row has the mark 0; its nonce and its counter may hold anything.
 * Unlike in a book, a row that is not heard may have any counter: the next one is taken, whatever it is.
 *
 * Store all three after every judgement that returns 0: they are what keeps an old FORCERENEW out. A mark that is set back
 * from 2 to 1 lets every earlier FORCERENEW under that nonce in once more.
 *
 * What is given back. Each function but rimemagpie_card_begin, which refuses nothing, returns one of the numbers below:
 * rimemagpie_forcerenew and rimemagpie_compare the first that applies in the order that their comments list, every other
 * function the lowest that applies. Any bytes may be lent as a message or a card.
 * A refusal (any number but 0) changes nothing that was lent and no place of a result, with two exceptions:
 * rimemagpie_digest and rimemagpie_hmac write 16 zero bytes with 14, and rimemagpie_known writes `*looks` with 10.
 */
#ifndef RIMEMAGPIE_H
#define RIMEMAGPIE_H

#include <stddef.h>
#include <stdint.h>

#ifdef __cplusplus
extern "C" {
#endif

/* The numbers given back, by the names of crates/refusal. */
enum rimemagpie_number {
    RIMEMAGPIE_DONE = 0,                    /* accepted or done */
    RIMEMAGPIE_UNSOUND_BOOK = 1,            /* the book is not sound (card: sizes, reader; by nonce: server rows;
                                               known: the list's size, the count) */
    RIMEMAGPIE_MESSAGE_SIZE = 2,            /* the message is below 241 or above 1,472 bytes */
    RIMEMAGPIE_WRONG_COOKIE = 3,            /* the cookie differs */
    RIMEMAGPIE_BROKEN_OPTIONS = 4,          /* an option passes the message's end, or there is no End */
    RIMEMAGPIE_NO_AUTHENTICATION = 5,       /* no option 90 */
    RIMEMAGPIE_REPEATED_AUTHENTICATION = 6, /* more than one option 90 */
    RIMEMAGPIE_RELAY_INFORMATION = 7,       /* more than one option 82 */
    RIMEMAGPIE_OTHER_AUTHENTICATION = 8,    /* option 90's length is neither 11 nor 31, or its body doesn't begin 1, 1, 0 */
    RIMEMAGPIE_REQUEST_FORM = 9,            /* option 90 is a request (length 11): it has no id and no MAC */
    RIMEMAGPIE_UNKNOWN_SECRET = 10,         /* the secret id has no row (by nonce: there is no such server row) */
    RIMEMAGPIE_REPLAY = 11,                 /* the row is heard and the counter is not above the one that it has */
    RIMEMAGPIE_WRONG_MAC = 12,              /* the MAC differs */
    RIMEMAGPIE_COUNTER_SPENT = 13,          /* the sent counter is 2^64 - 1 */
    RIMEMAGPIE_TOO_LONG = 14,               /* a digest's total would pass 65,535 bytes, or an HMAC key 64 */
    RIMEMAGPIE_MALFORMED_CARD = 15,         /* the card is malformed */
    RIMEMAGPIE_NO_ROOM_FOR_CARD = 16,       /* the room for the card is too small */
    RIMEMAGPIE_NO_ROOM_FOR_ROWS = 17,       /* the card has more rows than the lent room */
    RIMEMAGPIE_ROW_NOT_HEARD = 18,          /* the old form of a card is wanted and a row is not heard */
    RIMEMAGPIE_NOT_BY_NONCE = 19,           /* by nonce: option 90's length is not 28, or its body doesn't begin 3, 1, 0 */
    RIMEMAGPIE_WRONG_TYPE = 20,             /* by nonce: option 90's type doesn't go with option 53 */
    RIMEMAGPIE_NO_NONCE = 21,               /* by nonce: a FORCERENEW, and the server row has no nonce yet */
    RIMEMAGPIE_NO_ROOM_FOR_REPORT = 22      /* the lines of a comparison are longer than the room */
};

/* The two marks of a book's row, by the names of crates/key_book. */
enum rimemagpie_mark {
    RIMEMAGPIE_NOT_HEARD = 0, /* nothing was accepted yet: any counter is taken */
    RIMEMAGPIE_HEARD = 1      /* only a counter above the received one is taken */
};

/* The three marks of a server row, by the names of crates/forcerenew. They are not those of a book's row. */
enum rimemagpie_server_mark {
    RIMEMAGPIE_SERVER_NONE_YET = 0,  /* the server gave no nonce yet: no FORCERENEW is taken */
    RIMEMAGPIE_SERVER_NOT_HEARD = 1, /* no FORCERENEW was accepted under the nonce yet: any counter is taken */
    RIMEMAGPIE_SERVER_HEARD = 2      /* only a counter above the stored one is taken */
};

/*
 * The MD5 digest (RFC 1321) of a message of up to 65,535 bytes.
 *
 *   0   `digest` holds the digest
 *   14  the message is longer; `digest` holds 16 zero bytes
 */
uint8_t rimemagpie_digest(const uint8_t *message, size_t message_len, uint8_t digest[16]);

/*
 * The HMAC-MD5 (RFC 2104) of a message of up to 65,471 bytes under a key of up to 64. (The inner digest counts 64 bytes
 * for the key.)
 *
 *   0   `mac` holds the MAC
 *   14  the message or the key is longer; `mac` holds 16 zero bytes
 */
uint8_t rimemagpie_hmac(const uint8_t *key, size_t key_len,
                        const uint8_t *message, size_t message_len,
                        uint8_t mac[16]);

/*
 * Checks a message that came from the network. Hops, giaddr and the option 82, wherever that stands, are left out of what
 * the MAC covers: a relay may alter them.
 *
 *   0        accepted: `*row` is the row of its secret, `*counter` its counter, received[*row] is now that counter, and
 *            marks[*row] is 1, heard; nothing else changed. Store both: with counter 0 the mark alone is new
 *   1 to 12  refused, as the table says; nothing changed, not `*row` and `*counter` either
 */
uint8_t rimemagpie_check(const uint32_t *ids, size_t ids_len,
                         const uint8_t *lengths, size_t lengths_len,
                         const uint8_t *store, size_t store_len,
                         uint8_t *marks, size_t marks_len,
                         uint64_t *received, size_t received_len,
                         const uint64_t *sent, size_t sent_len,
                         size_t rows,
                         const uint8_t *message, size_t message_len,
                         uint64_t *row, uint64_t *counter);

/*
 * Where in the key store the key is that a message names. Neither the message's counter nor its MAC is judged.
 *
 *   0        the key is the `*size` bytes from store + *offset on
 *   1 to 10  refused, as the table says; nothing changed, not `*offset` and `*size` either
 */
uint8_t rimemagpie_key(const uint32_t *ids, size_t ids_len,
                       const uint8_t *lengths, size_t lengths_len,
                       const uint8_t *store, size_t store_len,
                       const uint8_t *marks, size_t marks_len,
                       const uint64_t *received, size_t received_len,
                       const uint64_t *sent, size_t sent_len,
                       size_t rows,
                       const uint8_t *message, size_t message_len,
                       uint64_t *offset, uint64_t *size);

/*
 * Seals a message under the secret of an id. The message has an option 90 in full form, whose counter, id and MAC may hold
 * anything: they are what is written. An option 82, before option 90 or behind it, is left as it is.
 *
 *   0        sealed: counter, id and MAC stand in the message (28 bytes in a row), and the counter, which is the row's
 *            sent one plus 1, is now that row's sent counter and `*counter`; nothing else changed
 *   1 to 9   refused, as the table says; nothing changed, not `*counter` either
 *   10       the given id has no row; nothing changed
 *   13       the row's sent counter is 2^64 - 1; nothing changed
 */
uint8_t rimemagpie_seal(const uint32_t *ids, size_t ids_len,
                        const uint8_t *lengths, size_t lengths_len,
                        const uint8_t *store, size_t store_len,
                        const uint8_t *marks, size_t marks_len,
                        const uint64_t *received, size_t received_len,
                        uint64_t *sent, size_t sent_len,
                        size_t rows,
                        uint32_t id,
                        uint8_t *message, size_t message_len,
                        uint64_t *counter);

/*
 * Whether an id is known: looks for it by halving among the first `count` ids of a list, a book's or any other. It needs
 * no book. At first low is 0 and high is `count`. While low is below high, the id in the middle, at (low + high) / 2, is
 * looked at: if it is the one asked for, this is its row; if it is larger, high becomes the middle; if it is smaller, low
 * becomes the middle plus 1.
 *
 *   0   found: `*row` is its row, which is below `count` and holds the id, and `*looks` the number of ids looked at
 *   1   the list has more than 1,024 ids, or `count` is above `ids_len`; nothing changed, neither `*row` nor `*looks`
 *   10  not found: `*looks` is the number of ids looked at, 0 where `count` is 0, and `*row` is as it was. This is an
 *       exception: no other refusal but 14 writes a result
 *
 * Where the first `count` ids ascend strictly, as a sound book's do, number and row are those of a search over all of
 * them. Where they don't, an id that is there may be missed. There are at most as many looks as `count` has binary digits:
 * 11 for 1,024. Ids behind the first `count` affect nothing.
 */
uint8_t rimemagpie_known(const uint32_t *ids, size_t ids_len,
                         size_t count,
                         uint32_t id,
                         uint64_t *row, uint64_t *looks);

/*
 * Reads a card of either form into a book. Marks and counters become the card's. A card of an earlier day brings the marks
 * and counters of that day back: a row that was not heard then takes any counter once more.
 *
 *   0   the first `*rows` rows of all six buffers are the card's, each slot filled with zeros after its key; on a card of
 *       the old form every row is heard; further rows are unchanged
 *   1   the sizes don't belong together, or there is room for more than 1,024 rows; nothing changed, not `*rows` either
 *   15  the card is malformed; nothing changed
 *   17  the card has more rows than there is room for; nothing changed
 */
uint8_t rimemagpie_card_read(const uint8_t *card, size_t card_len,
                             uint32_t *ids, size_t ids_len,
                             uint8_t *lengths, size_t lengths_len,
                             uint8_t *store, size_t store_len,
                             uint8_t *marks, size_t marks_len,
                             uint64_t *received, size_t received_len,
                             uint64_t *sent, size_t sent_len,
                             uint64_t *rows);

/*
 * Writes a book's card, in the new form. Its size is 6 bytes and, for each row, 25 and the key's; 22,790 bytes are
 * always enough.
 *
 *   0   the first `*size` bytes of `card` are the card; later ones are unchanged
 *   1   the book is not sound; nothing changed, not `*size` either
 *   16  the room is below the card's size; nothing changed
 */
uint8_t rimemagpie_card_write(const uint32_t *ids, size_t ids_len,
                              const uint8_t *lengths, size_t lengths_len,
                              const uint8_t *store, size_t store_len,
                              const uint8_t *marks, size_t marks_len,
                              const uint64_t *received, size_t received_len,
                              const uint64_t *sent, size_t sent_len,
                              size_t rows,
                              uint8_t *card, size_t card_len,
                              uint64_t *size);

/*
 * Writes a card's rows as a card of the old form. A card that is in the old form already is copied; a card of no rows is
 * in both. The old form's size is 6 bytes and, for each row, 24 and the key's; 22,534 bytes are always enough. It has no
 * place for a mark, so a row that is not heard can't be on it.
 *
 *   0   the first `*size` bytes of `room` are the card in the old form; later ones are unchanged
 *   15  the card is malformed; nothing changed, not `*size` either
 *   16  the room is below the size that the card would have in the old form; nothing changed
 *   18  a row is not heard; nothing changed. 16 comes before 18: in too little room it is 16, heard or not
 */
uint8_t rimemagpie_card_to_old(const uint8_t *card, size_t card_len,
                               uint8_t *room, size_t room_len,
                               uint64_t *size);

/*
 * Writes a card's rows as a card of the new form, in which each row has its mark. From the old form all of them are heard;
 * a card that is in the new form already is copied. The new form's size is 6 bytes and, for each row, 25 and the key's: a
 * byte a row more than in the old form; 22,790 bytes are always enough.
 *
 *   0   the first `*size` bytes of `room` are the card in the new form; later ones are unchanged
 *   15  the card is malformed; nothing changed, not `*size` either
 *   16  the room is below the size that the card would have in the new form; nothing changed
 */
uint8_t rimemagpie_card_to_new(const uint8_t *card, size_t card_len,
                               uint8_t *room, size_t room_len,
                               uint64_t *size);

/*
 * Judges a message that came from the server of a row, counted from 0, by that server's nonce (RFC 6704): an ACK that gives
 * the nonce (type 1), or a FORCERENEW, the server's order to renew at once (type 2). rimemagpie_check says 8 to both.
 *
 * Option 90 of these, by offset from its code: length 1 (28), protocol 2 (3), algorithm 3 (1), replay method 4 (0), counter
 * 5 to 12, type 13, nonce or MAC 14 to 29. The MAC is the HMAC-MD5 under the row's nonce of the whole message with just the
 * MAC's 16 bytes zero: hops, giaddr and option 82 are covered as they stand, and a relay that alters them spoils it.
 *
 *   0   `*kind` is the type, 1 or 2, and `*counter` the message's counter.
 *       1: the ACK's nonce is the row's. Where the row had none yet, or another, the nonce is stored, the row's counter is
 *       now 0 and its mark 1, not heard. Where it is the nonce that the row has, nothing changed. The ACK's counter is
 *       neither judged nor stored
 *       2: the FORCERENEW is good. The row's counter is now `*counter` and its mark is 2, heard; nothing else changed
 *
 * Refused, it changes nothing, not `*kind` and `*counter` either. The lowest number doesn't come first here. The order is
 *
 *   1        the sizes don't belong together, or the mark of any row, whichever is named, is above 2
 *   2 to 7   as the table says, in their order
 *   10       there is no such row: `row` is n or above
 *   19       option 90's length is not 28, or its body doesn't begin 3, 1, 0
 *   20       option 90's type doesn't go with option 53. Type 1 goes with just one option 53 in the message, of length 1,
 *            that holds 5 (an ACK), type 2 with one that holds 9 (a FORCERENEW), and any other type with nothing
 *   21       type 2, and the row has no nonce yet (its mark is 0)
 *   11       type 2, the row is heard (its mark is 2), and the counter is not above the row's
 *   12       type 2, and the MAC differs
 *
 * What this doesn't stop. An ACK that gives a nonce can't be authenticated by RFC 3118 too, since two options 90 are 6, so
 * nothing in it shows who sent it; and whoever had an ACK taken can order renewals from then on. Show one only where its
 * sender is known otherwise, and for that sender's row. The nonce stands in it in the clear: whoever sees the ACK has it.
 * And it can be shown again: an old ACK that comes after a newer nonce puts the old nonce back, with counter 0 and not
 * heard, and the FORCERENEWs under it are taken once more.
 */
uint8_t rimemagpie_forcerenew(uint8_t *nonces, size_t nonces_len,
                              uint64_t *counters, size_t counters_len,
                              uint8_t *marks, size_t marks_len,
                              size_t row,
                              const uint8_t *message, size_t message_len,
                              uint8_t *kind, uint64_t *counter);

/* Room for the lines of any two messages: with this much, or more, rimemagpie_compare never returns 22. */
enum rimemagpie_comparison {
    RIMEMAGPIE_COMPARISON_MOST = 18573
};

/*
 * Compares two messages, or one message that was recorded in two places: what differs, and is it only what a relay may
 * change? The answer is lines of ASCII, each ended by a newline (10). There is no 0 behind them.
 *
 * The lines, in this order:
 *
 *   op, htype, hlen, hops, xid, secs, flags, ciaddr, yiaddr, siaddr, giaddr, chaddr, sname, file
 *                          those fields of the header that differ, a line each
 *   altered C N            the second message has the first's option with another body
 *   missing C N            the second message has no such option. Lines of these two kinds stand in the order of the
 *                          first message's options
 *   added C N              the first message has no such option; in the order of the second message's
 *   layout                 the codes differ, in their order and with pads and End among them, or the bytes after End do
 *   relay only, or         the last line, which is always there: the two messages are equal with hops and giaddr zero and
 *   covered bytes differ   option 82 taken out, MACs as they stand; or they are not
 *
 * C is an option's code, and N counts the options of that code from 1 on, both in decimal. Options 82 and 90 are options
 * like the others here; pads and End are none. Where there is no line but the last, the messages are equal byte for byte.
 * No MAC is computed: that nothing but a relay's changes was made doesn't say that a message is genuine.
 *
 *   0   the first `*size` bytes of `room` are the lines; later ones are unchanged
 *
 * Refused, it changes nothing, not `*size` either. The lowest number doesn't come first here: where the first message has 7
 * and the second 2, it is 7. The order is
 *
 *   2 to 7   of the first message, as the table says. Option 90 may have any length
 *   2 to 7   of the second message
 *   22       the lines are longer than the room. RIMEMAGPIE_COMPARISON_MOST bytes are always enough
 *
 * It takes some 25 KB of stack. The worst pair of messages, of 615 options each, takes under 2 ms on a machine of today.
 */
uint8_t rimemagpie_compare(const uint8_t *first, size_t first_len,
                           const uint8_t *second, size_t second_len,
                           uint8_t *room, size_t room_len,
                           uint64_t *size);

/*
 * Reading a card in pieces, as it arrives: a fresh state, then each piece of the card in its order, then the end. Any
 * cutting of a card, into single bytes too and with empty pieces among them, gives the answer and the book that
 * rimemagpie_card_read gives on the whole card.
 *
 * The state. It is the caller's, in parts; struct rimemagpie_card_reader has them all, and three inline functions pass them
 * on. rimemagpie_card_begin sets it, rimemagpie_card_feed reads and changes it, rimemagpie_card_finish reads it:
 *
 *   tail   88 bytes  what is left of a record that a piece cut: the first `kept` bytes. After each call that returns 0 the
 *                    others are 0. The bytes may be a key's: treat the state as you treat the book
 *   kept   a number  bytes left, at most 88
 *   read   a number  rows read so far, at most 256
 *   low    a number  the least id that the next row may have; from 2^32 on none may
 *   form   a byte    0 no row was read yet, 1 rows of the old form, 3 rows of the new one: the kind of their records
 *   phase  a byte    0 records may follow, 1 the close was read, 2 there was a fault. After 1 and 2 no bytes are kept
 *
 * The spare rows. Six buffers like a book's, beside the book and of the same sizes as the book's, into which the pieces are
 * read. From the first piece to the end they serve this reading alone: lend the same ones to every call, and let nobody
 * write them in between, or what is copied to the book at the end is not the card. What they hold before the first piece
 * may be anything. The book is lent at the end alone, and until then may be used as ever.
 *
 * Any state may be lent, also one that was made up. One whose `kept` or `read` is past its limit, or whose `form` or
 * `phase` is another number, is refused with 1. Any other one is believed: a tail that holds whole records has them read
 * with the next piece, an empty one too, and rows are set behind the first `read`. So the end can't tell whether the rows
 * before were read from a card: from a made-up state of phase 1 rimemagpie_card_finish returns 0 and copies whatever stands
 * in the spare rows, and the book need then not be sound. The same comes of spare rows that were written in between.
 */

/* What is known of the form of the rows: the kind of their records. */
enum rimemagpie_card_form {
    RIMEMAGPIE_CARD_NO_ROW = 0, /* no row was read yet */
    RIMEMAGPIE_CARD_OLD = 1,    /* rows of the old form */
    RIMEMAGPIE_CARD_NEW = 3     /* rows of the new form */
};

/* Where reading stands, by the names of crates/card_pieces. */
enum rimemagpie_card_phase {
    RIMEMAGPIE_CARD_READING = 0, /* records may follow */
    RIMEMAGPIE_CARD_CLOSED = 1,  /* the close was read, and nothing may follow */
    RIMEMAGPIE_CARD_FAULT = 2    /* there was a fault: rimemagpie_card_finish will return 15 */
};

/* The most bytes that are left of a record: one less than the largest record has. */
enum rimemagpie_card_tail {
    RIMEMAGPIE_CARD_TAIL_MOST = 88
};

/*
 * A fresh state: nothing kept, nothing read, any id may follow, phase 0.
 */
void rimemagpie_card_begin(uint8_t tail[RIMEMAGPIE_CARD_TAIL_MOST],
                           uint64_t *kept, uint64_t *read, uint64_t *low,
                           uint8_t *form, uint8_t *phase);

/*
 * Reads a piece of a card, of any length, 0 too, into the spare rows.
 *
 *   0   the piece was taken. The state is the one behind it, and each row that got whole, while records may follow, stands
 *       in the spare rows as rimemagpie_card_read would have set it, if there is room for it; every other spare byte and
 *       number is unchanged. 0 says nothing about the card: a fault makes the phase 2 and is told at the end. From then on
 *       no piece sets a row
 *   1   the spare rows' sizes don't belong together, there is room for more than 1,024 rows, a count of the state is past
 *       its limit, or its form or phase is none; nothing changed, neither state nor spare rows
 *
 * A length field that no record has is a fault as soon as both its bytes are there, and any other fault when its record is
 * whole; so the state, too, is the same however the card is cut.
 */
uint8_t rimemagpie_card_feed(uint8_t tail[RIMEMAGPIE_CARD_TAIL_MOST],
                             uint64_t *kept, uint64_t *read, uint64_t *low,
                             uint8_t *form, uint8_t *phase,
                             const uint8_t *piece, size_t piece_len,
                             uint32_t *ids, size_t ids_len,
                             uint8_t *lengths, size_t lengths_len,
                             uint8_t *store, size_t store_len,
                             uint8_t *marks, size_t marks_len,
                             uint64_t *received, size_t received_len,
                             uint64_t *sent, size_t sent_len);

/*
 * The end of a card read in pieces: copies the rows over to the book. It reads nothing more, writes no spare row, and takes
 * the state's numbers as they are: bytes that are still kept are 15, whatever they hold.
 *
 *   0   the first `*rows` rows of all six buffers of the book are now the spare ones: those of the card, marks and counters
 *       too, each slot filled with zeros after its key; further rows of the book are unchanged
 *   1   the sizes of the spare rows or of the book don't belong together, the two have not room for the same number of
 *       rows, or for more than 1,024, a count of the state is past its limit, or its form or phase is none
 *   15  the card is malformed, or not all of it was fed
 *   17  the card has more rows than there is room for
 *
 * Refused, it changes nothing, not `*rows` either, and the book is as it was. After 15 and 17 the spare rows hold the good
 * rows before the fault, as many as fit.
 */
uint8_t rimemagpie_card_finish(const uint8_t tail[RIMEMAGPIE_CARD_TAIL_MOST],
                               uint64_t kept, uint64_t read, uint64_t low,
                               uint8_t form, uint8_t phase,
                               const uint32_t *spare_ids, size_t spare_ids_len,
                               const uint8_t *spare_lengths, size_t spare_lengths_len,
                               const uint8_t *spare_store, size_t spare_store_len,
                               const uint8_t *spare_marks, size_t spare_marks_len,
                               const uint64_t *spare_received, size_t spare_received_len,
                               const uint64_t *spare_sent, size_t spare_sent_len,
                               uint32_t *ids, size_t ids_len,
                               uint8_t *lengths, size_t lengths_len,
                               uint8_t *store, size_t store_len,
                               uint8_t *marks, size_t marks_len,
                               uint64_t *received, size_t received_len,
                               uint64_t *sent, size_t sent_len,
                               uint64_t *rows);

/* The state of a reader, for the three functions below, each of which is the one above with the state's parts. */
struct rimemagpie_card_reader {
    uint8_t tail[RIMEMAGPIE_CARD_TAIL_MOST];
    uint64_t kept;
    uint64_t read;
    uint64_t low;
    uint8_t form;
    uint8_t phase;
};

/* rimemagpie_card_begin. */
static inline void rimemagpie_card_reader_begin(struct rimemagpie_card_reader *reader)
{
    rimemagpie_card_begin(reader->tail, &reader->kept, &reader->read, &reader->low, &reader->form, &reader->phase);
}

/* rimemagpie_card_feed. */
static inline uint8_t rimemagpie_card_reader_feed(struct rimemagpie_card_reader *reader,
                                                  const uint8_t *piece, size_t piece_len,
                                                  uint32_t *ids, size_t ids_len,
                                                  uint8_t *lengths, size_t lengths_len,
                                                  uint8_t *store, size_t store_len,
                                                  uint8_t *marks, size_t marks_len,
                                                  uint64_t *received, size_t received_len,
                                                  uint64_t *sent, size_t sent_len)
{
    return rimemagpie_card_feed(reader->tail, &reader->kept, &reader->read, &reader->low, &reader->form, &reader->phase,
                                piece, piece_len, ids, ids_len, lengths, lengths_len, store, store_len, marks, marks_len,
                                received, received_len, sent, sent_len);
}

/* rimemagpie_card_finish. */
static inline uint8_t rimemagpie_card_reader_finish(const struct rimemagpie_card_reader *reader,
                                                    const uint32_t *spare_ids, size_t spare_ids_len,
                                                    const uint8_t *spare_lengths, size_t spare_lengths_len,
                                                    const uint8_t *spare_store, size_t spare_store_len,
                                                    const uint8_t *spare_marks, size_t spare_marks_len,
                                                    const uint64_t *spare_received, size_t spare_received_len,
                                                    const uint64_t *spare_sent, size_t spare_sent_len,
                                                    uint32_t *ids, size_t ids_len,
                                                    uint8_t *lengths, size_t lengths_len,
                                                    uint8_t *store, size_t store_len,
                                                    uint8_t *marks, size_t marks_len,
                                                    uint64_t *received, size_t received_len,
                                                    uint64_t *sent, size_t sent_len,
                                                    uint64_t *rows)
{
    return rimemagpie_card_finish(reader->tail, reader->kept, reader->read, reader->low, reader->form, reader->phase,
                                  spare_ids, spare_ids_len, spare_lengths, spare_lengths_len, spare_store, spare_store_len,
                                  spare_marks, spare_marks_len, spare_received, spare_received_len, spare_sent,
                                  spare_sent_len, ids, ids_len, lengths, lengths_len, store, store_len, marks, marks_len,
                                  received, received_len, sent, sent_len, rows);
}

#ifdef __cplusplus
}
#endif

#endif
