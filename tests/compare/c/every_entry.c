/*
 * Calls every function of rimemagpie.h as the header declares it, but rimemagpie_compare, which comparison.c calls. It is
 * C and C++ alike, and each buffer is a block of its own of just the right size, so that valgrind sees any byte read or
 * written beside it.
 *
 * It prints the line of the first answer that is not as expected and exits with 1; else it prints nothing.
 */
#include "rimemagpie.h"
#include "blocks.h"

/* A book with room for two rows. */
struct book {
    uint32_t *ids;
    uint8_t *lengths;
    uint8_t *store;
    uint8_t *marks;
    uint64_t *received;
    uint64_t *sent;
};

static struct book empty_book(void)
{
    struct book book;

    book.ids = (uint32_t *)calloc(2, sizeof *book.ids);
    book.lengths = (uint8_t *)calloc(2, 1);
    book.store = (uint8_t *)calloc(2, 64);
    book.marks = (uint8_t *)calloc(2, 1);
    book.received = (uint64_t *)calloc(2, sizeof *book.received);
    book.sent = (uint64_t *)calloc(2, sizeof *book.sent);
    EXPECT(book.ids && book.lengths && book.store && book.marks && book.received && book.sent);
    return book;
}

static void free_book(struct book book)
{
    free(book.ids);
    free(book.lengths);
    free(book.store);
    free(book.marks);
    free(book.received);
    free(book.sent);
}

#define LENT(book) \
    (book).ids, 2, (book).lengths, 2, (book).store, 128, (book).marks, 2, (book).received, 2, (book).sent, 2

/* 236 zeros, the cookie, option 90 in full form and option 82 with four bytes, at these two places, and End. */
static void make_message(uint8_t message[280], size_t authentication_at, size_t relay_agent_at)
{
    static const uint8_t cookie[] = {99, 130, 83, 99};
    static const uint8_t authentication[] = {90, 31, 1, 1, 0};
    static const uint8_t relay_agent[] = {82, 4, 1, 2, 3, 4};

    memset(message, 0, 280);
    memcpy(message + 236, cookie, sizeof cookie);
    memcpy(message + authentication_at, authentication, sizeof authentication);
    memcpy(message + relay_agent_at, relay_agent, sizeof relay_agent);
    message[279] = 255;
}

static void digests(void)
{
    static const uint8_t of_nothing[] = {0xd4, 0x1d, 0x8c, 0xd9, 0x8f, 0x00, 0xb2, 0x04,
                                         0xe9, 0x80, 0x09, 0x98, 0xec, 0xf8, 0x42, 0x7e};
    static const uint8_t of_jefe[] = {0x75, 0x0c, 0x78, 0x3e, 0x6a, 0xb0, 0xb5, 0x03,
                                      0xea, 0xa8, 0x6e, 0x31, 0x0a, 0x5d, 0xb7, 0x38};
    static const uint8_t zeros[16] = {0};
    static const uint8_t long_message[65536] = {0};
    const uint8_t *jefe = (const uint8_t *)"Jefe";
    const uint8_t *want = (const uint8_t *)"what do ya want for nothing?";
    uint8_t out[16];

    EXPECT(rimemagpie_digest(want, 0, out) == RIMEMAGPIE_DONE && memcmp(out, of_nothing, 16) == 0);
    EXPECT(rimemagpie_hmac(jefe, 4, want, 28, out) == RIMEMAGPIE_DONE && memcmp(out, of_jefe, 16) == 0);
    EXPECT(rimemagpie_digest(long_message, 65536, out) == RIMEMAGPIE_TOO_LONG && memcmp(out, zeros, 16) == 0);
    memset(out, 9, 16);
    EXPECT(rimemagpie_hmac(long_message, 65, want, 28, out) == RIMEMAGPIE_TOO_LONG && memcmp(out, zeros, 16) == 0);
}

/* Row 1 has the id 7 and a key of four bytes, and is heard; row 0 is there to be passed over, and is not. */
static struct book book_of_two(void)
{
    struct book book = empty_book();

    book.ids[0] = 5;
    book.ids[1] = 7;
    book.lengths[0] = 64;
    book.lengths[1] = 4;
    memcpy(book.store + 64, "\1\2\3\4", 4);
    book.marks[1] = RIMEMAGPIE_HEARD;
    book.received[1] = 10;
    book.sent[1] = 10;
    return book;
}

static void seal_key_and_check(struct book book, uint8_t *message)
{
    uint64_t counter = 0, row = 0, offset = 0, size = 0;

    EXPECT(rimemagpie_seal(LENT(book), 2, 8, message, 280, &counter) == RIMEMAGPIE_UNKNOWN_SECRET && counter == 0);
    EXPECT(rimemagpie_seal(LENT(book), 2, 7, message, 280, &counter) == RIMEMAGPIE_DONE && counter == 11);
    EXPECT(book.sent[0] == 0 && book.sent[1] == 11);
    EXPECT(rimemagpie_key(LENT(book), 2, message, 280, &offset, &size) == RIMEMAGPIE_DONE);
    EXPECT(offset == 64 && size == 4);
    EXPECT(rimemagpie_check(LENT(book), 3, message, 280, &row, &counter) == RIMEMAGPIE_UNSOUND_BOOK);
    EXPECT(rimemagpie_check(LENT(book), 2, message, 280, &row, &counter) == RIMEMAGPIE_DONE);
    EXPECT(row == 1 && counter == 11 && book.received[0] == 0 && book.received[1] == 11);
    EXPECT(book.marks[0] == RIMEMAGPIE_NOT_HEARD && book.marks[1] == RIMEMAGPIE_HEARD);
    EXPECT(rimemagpie_check(LENT(book), 2, message, 280, &row, &counter) == RIMEMAGPIE_REPLAY);
}

/* Gives the message counter 0, id 7 and the right MAC, which covers it without its option 82. */
static void sign_with_0(uint8_t *message, size_t authentication_at, size_t relay_agent_at)
{
    static const uint8_t id[] = {0, 0, 0, 7};
    uint8_t image[274], mac[16];

    memset(message + authentication_at + 5, 0, 28);
    memcpy(message + authentication_at + 13, id, sizeof id);
    memcpy(image, message, relay_agent_at);
    memcpy(image + relay_agent_at, message + relay_agent_at + 6, sizeof image - relay_agent_at);
    EXPECT(rimemagpie_hmac((const uint8_t *)"\1\2\3\4", 4, image, sizeof image, mac) == RIMEMAGPIE_DONE);
    memcpy(message + authentication_at + 17, mac, sizeof mac);
}

/* A message with counter 0 is refused by a heard row, and accepted once by one that is not heard. */
static void check_with_0(struct book book, uint8_t *message)
{
    uint64_t row = 9, counter = 9;

    EXPECT(rimemagpie_check(LENT(book), 2, message, 280, &row, &counter) == RIMEMAGPIE_REPLAY);
    book.marks[1] = RIMEMAGPIE_NOT_HEARD;
    EXPECT(rimemagpie_check(LENT(book), 2, message, 280, &row, &counter) == RIMEMAGPIE_UNSOUND_BOOK);
    book.received[1] = 0;
    message[100] ^= 1;
    EXPECT(rimemagpie_check(LENT(book), 2, message, 280, &row, &counter) == RIMEMAGPIE_WRONG_MAC);
    message[100] ^= 1;
    EXPECT(row == 9 && counter == 9 && book.marks[1] == RIMEMAGPIE_NOT_HEARD);
    EXPECT(rimemagpie_check(LENT(book), 2, message, 280, &row, &counter) == RIMEMAGPIE_DONE);
    EXPECT(row == 1 && counter == 0 && book.received[1] == 0);
    EXPECT(book.marks[0] == RIMEMAGPIE_NOT_HEARD && book.marks[1] == RIMEMAGPIE_HEARD);
    EXPECT(rimemagpie_check(LENT(book), 2, message, 280, &row, &counter) == RIMEMAGPIE_REPLAY);
    book.marks[0] = 2;
    EXPECT(rimemagpie_check(LENT(book), 2, message, 280, &row, &counter) == RIMEMAGPIE_UNSOUND_BOOK);
    EXPECT(rimemagpie_check(LENT(book), 0, message, 280, &row, &counter) == RIMEMAGPIE_UNKNOWN_SECRET);
}

/* The message cut to each length is refused by all three. */
static void cut_messages(struct book book, const uint8_t *message)
{
    uint64_t one = 0, two = 0;

    for (size_t size = 0; size < 280; size++) {
        uint8_t expected = size < 241 ? RIMEMAGPIE_MESSAGE_SIZE : RIMEMAGPIE_BROKEN_OPTIONS;
        uint8_t *cut = block_of(message, size);

        EXPECT(rimemagpie_check(LENT(book), 2, cut, size, &one, &two) == expected);
        EXPECT(rimemagpie_key(LENT(book), 2, cut, size, &one, &two) == expected);
        EXPECT(rimemagpie_seal(LENT(book), 2, 7, cut, size, &one) == expected);
        free(cut);
    }
    EXPECT(one == 0 && two == 0);
}

/* The sizes of the book's card in the old form and in the new one. */
#define OLD_SIZE (24 + 64 + 24 + 4 + 6)
#define NEW_SIZE (25 + 64 + 25 + 4 + 6)

/* Both rows of two books are the same. */
static void expect_same(struct book one, struct book other)
{
    EXPECT(memcmp(one.ids, other.ids, 2 * sizeof *one.ids) == 0);
    EXPECT(memcmp(one.lengths, other.lengths, 2) == 0);
    EXPECT(memcmp(one.store, other.store, 128) == 0);
    EXPECT(memcmp(one.marks, other.marks, 2) == 0);
    EXPECT(memcmp(one.received, other.received, 2 * sizeof *one.received) == 0);
    EXPECT(memcmp(one.sent, other.sent, 2 * sizeof *one.sent) == 0);
}

/* The card written, read back, and refused at each length it is cut to. */
static void cards(struct book book)
{
    size_t size = NEW_SIZE;
    uint8_t *card = (uint8_t *)calloc(size, 1);
    struct book read = empty_book();
    uint64_t written = 0, rows = 0;

    EXPECT(card != NULL);
    EXPECT(rimemagpie_card_write(LENT(book), 2, card, size - 1, &written) == RIMEMAGPIE_NO_ROOM_FOR_CARD);
    EXPECT(written == 0);
    EXPECT(rimemagpie_card_write(LENT(book), 2, card, size, &written) == RIMEMAGPIE_DONE && written == size);
    for (size_t cut = 0; cut < size; cut++) {
        uint8_t *part = block_of(card, cut);

        EXPECT(rimemagpie_card_read(part, cut, LENT(read), &rows) == RIMEMAGPIE_MALFORMED_CARD && rows == 0);
        free(part);
    }
    EXPECT(rimemagpie_card_read(card, size, read.ids, 1, read.lengths, 1, read.store, 64, read.marks, 1, read.received, 1,
                                read.sent, 1, &rows) == RIMEMAGPIE_NO_ROOM_FOR_ROWS);
    EXPECT(rimemagpie_card_read(card, size, LENT(read), &rows) == RIMEMAGPIE_DONE && rows == 2);
    expect_same(read, book);
    free_book(read);
    free(card);
}

typedef uint8_t (*mover)(const uint8_t *, size_t, uint8_t *, size_t, uint64_t *);

/* Moves a card into a block of that size, which holds nines before and is handed back. */
static uint8_t *moved(mover move, const uint8_t *card, size_t size, size_t room_size, uint8_t number, uint64_t *moved_size)
{
    uint8_t nines[NEW_SIZE + 3];
    uint8_t *room;

    memset(nines, 9, sizeof nines);
    room = block_of(nines, room_size);
    EXPECT(move(card, size, room, room_size, moved_size) == number);
    return room;
}

/* A move into a room of that size is refused with this number and changes nothing: no byte of the room, nor the size. */
static void move_refused(mover move, const uint8_t *card, size_t size, size_t room_size, uint8_t number)
{
    uint64_t moved_size = 7;
    uint8_t *room = moved(move, card, size, room_size, number, &moved_size);

    EXPECT(moved_size == 7);
    for (size_t i = 0; i < room_size; i++)
        EXPECT(room[i] == 9);
    free(room);
}

/* A move into a byte too little is refused; into just enough and into more it gives the expected card, and no more. */
static void move_to(mover move, const uint8_t *card, size_t size, const uint8_t *expected, size_t expected_size)
{
    move_refused(move, card, size, expected_size - 1, RIMEMAGPIE_NO_ROOM_FOR_CARD);
    for (size_t room_size = expected_size; room_size <= expected_size + 3; room_size++) {
        uint64_t moved_size = 7;
        uint8_t *room = moved(move, card, size, room_size, RIMEMAGPIE_DONE, &moved_size);

        EXPECT(moved_size == expected_size && memcmp(room, expected, expected_size) == 0);
        for (size_t i = expected_size; i < room_size; i++)
            EXPECT(room[i] == 9);
        free(room);
    }
}

/* The card cut to each length is refused, in whatever room. */
static void move_cut(mover move, const uint8_t *card, size_t size)
{
    for (size_t cut = 0; cut < size; cut++) {
        uint8_t *part = block_of(card, cut);

        move_refused(move, part, cut, NEW_SIZE, RIMEMAGPIE_MALFORMED_CARD);
        move_refused(move, part, cut, 0, RIMEMAGPIE_MALFORMED_CARD);
        free(part);
    }
}

/* The old card of a book whose rows are both heard gives that book, marks too, whatever marks were there before. */
static void read_old(const uint8_t *old, struct book book)
{
    struct book read = empty_book();
    uint64_t rows = 7;

    memset(read.marks, 9, 2);
    EXPECT(rimemagpie_card_read(old, OLD_SIZE, LENT(read), &rows) == RIMEMAGPIE_DONE && rows == 2);
    EXPECT(read.marks[0] == RIMEMAGPIE_HEARD && read.marks[1] == RIMEMAGPIE_HEARD);
    expect_same(read, book);
    free_book(read);
}

/* The book's card in both forms. The old one is there once both rows are heard. */
static void moves(struct book book)
{
    uint8_t *card = (uint8_t *)calloc(NEW_SIZE, 1);
    uint64_t size = 7;
    uint8_t *old;

    EXPECT(card != NULL);
    EXPECT(rimemagpie_card_write(LENT(book), 2, card, NEW_SIZE, &size) == RIMEMAGPIE_DONE && size == NEW_SIZE);
    move_refused(rimemagpie_card_to_old, card, NEW_SIZE, OLD_SIZE - 1, RIMEMAGPIE_NO_ROOM_FOR_CARD);
    move_refused(rimemagpie_card_to_old, card, NEW_SIZE, OLD_SIZE, RIMEMAGPIE_ROW_NOT_HEARD);
    move_refused(rimemagpie_card_to_old, card, NEW_SIZE, NEW_SIZE, RIMEMAGPIE_ROW_NOT_HEARD);
    move_to(rimemagpie_card_to_new, card, NEW_SIZE, card, NEW_SIZE);

    book.marks[0] = RIMEMAGPIE_HEARD;
    EXPECT(rimemagpie_card_write(LENT(book), 2, card, NEW_SIZE, &size) == RIMEMAGPIE_DONE);
    old = moved(rimemagpie_card_to_old, card, NEW_SIZE, OLD_SIZE, RIMEMAGPIE_DONE, &size);
    EXPECT(size == OLD_SIZE && old[0] == 86 && old[2] == 1 && card[0] == 87 && card[2] == 3);
    move_to(rimemagpie_card_to_old, card, NEW_SIZE, old, OLD_SIZE);
    move_to(rimemagpie_card_to_old, old, OLD_SIZE, old, OLD_SIZE);
    move_to(rimemagpie_card_to_new, card, NEW_SIZE, card, NEW_SIZE);
    move_to(rimemagpie_card_to_new, old, OLD_SIZE, card, NEW_SIZE);
    move_cut(rimemagpie_card_to_old, card, NEW_SIZE);
    move_cut(rimemagpie_card_to_new, old, OLD_SIZE);
    read_old(old, book);
    free(old);
    free(card);
}

/* A reader's state, each part a block of its own. */
struct parts {
    uint8_t *tail;
    uint64_t *kept;
    uint64_t *read;
    uint64_t *low;
    uint8_t *form;
    uint8_t *phase;
};

/* A fresh state. */
static struct parts begun(void)
{
    struct parts parts;

    parts.tail = (uint8_t *)malloc(RIMEMAGPIE_CARD_TAIL_MOST);
    parts.kept = (uint64_t *)malloc(sizeof *parts.kept);
    parts.read = (uint64_t *)malloc(sizeof *parts.read);
    parts.low = (uint64_t *)malloc(sizeof *parts.low);
    parts.form = (uint8_t *)malloc(1);
    parts.phase = (uint8_t *)malloc(1);
    EXPECT(parts.tail && parts.kept && parts.read && parts.low && parts.form && parts.phase);
    rimemagpie_card_begin(parts.tail, parts.kept, parts.read, parts.low, parts.form, parts.phase);
    return parts;
}

static void free_parts(struct parts parts)
{
    free(parts.tail);
    free(parts.kept);
    free(parts.read);
    free(parts.low);
    free(parts.form);
    free(parts.phase);
}

/* Feeds a piece, which is a block of its own, to the state in parts and to the struct: they stay the same. */
static void feed_both(struct parts parts, struct rimemagpie_card_reader *reader, struct book spares[2],
                      const uint8_t *bytes, size_t size, uint8_t number)
{
    uint8_t *piece = block_of(bytes, size);

    EXPECT(rimemagpie_card_feed(parts.tail, parts.kept, parts.read, parts.low, parts.form, parts.phase, piece, size,
                                LENT(spares[0])) == number);
    EXPECT(rimemagpie_card_reader_feed(reader, piece, size, LENT(spares[1])) == number);
    free(piece);
    EXPECT(memcmp(parts.tail, reader->tail, sizeof reader->tail) == 0 && *parts.kept == reader->kept);
    EXPECT(*parts.read == reader->read && *parts.low == reader->low);
    EXPECT(*parts.form == reader->form && *parts.phase == reader->phase);
    expect_same(spares[0], spares[1]);
}

/* The end of both, with this number; the book and the number of rows are as a whole reading of the card leaves them. */
static void finish_both(struct parts parts, const struct rimemagpie_card_reader *reader, struct book spares[2],
                        const uint8_t *card, size_t size, uint8_t number)
{
    struct book read = empty_book(), in_parts = empty_book(), whole = empty_book();
    uint64_t rows = 7, rows_in_parts = 7, rows_whole = 7;

    EXPECT(rimemagpie_card_finish(parts.tail, *parts.kept, *parts.read, *parts.low, *parts.form, *parts.phase,
                                  LENT(spares[0]), LENT(in_parts), &rows_in_parts) == number);
    EXPECT(rimemagpie_card_reader_finish(reader, LENT(spares[1]), LENT(read), &rows) == number);
    EXPECT(rimemagpie_card_read(card, size, LENT(whole), &rows_whole) == number);
    EXPECT(rows == rows_whole && rows_in_parts == rows_whole);
    expect_same(read, whole);
    expect_same(in_parts, whole);
    free_book(read);
    free_book(in_parts);
    free_book(whole);
}

/* Reads a card in two pieces, cut at this place. */
static void read_cut_at(const uint8_t *card, size_t size, size_t cut, uint8_t number)
{
    struct book spares[2] = {empty_book(), empty_book()};
    struct parts parts = begun();
    struct rimemagpie_card_reader reader;

    memset(&reader, 9, sizeof reader);
    rimemagpie_card_reader_begin(&reader);
    feed_both(parts, &reader, spares, card, cut, RIMEMAGPIE_DONE);
    feed_both(parts, &reader, spares, card, 0, RIMEMAGPIE_DONE);
    feed_both(parts, &reader, spares, card + cut, size - cut, RIMEMAGPIE_DONE);
    finish_both(parts, &reader, spares, card, size, number);
    free_parts(parts);
    free_book(spares[0]);
    free_book(spares[1]);
}

/* A state with something past its limit is refused at a piece and at the end, and nothing is changed. */
static void state_refused(const struct rimemagpie_card_reader *reader, const uint8_t *card)
{
    struct rimemagpie_card_reader lent = *reader;
    struct book spare = empty_book(), book = empty_book(), empty = empty_book();
    uint64_t rows = 7;

    EXPECT(rimemagpie_card_reader_feed(&lent, card, NEW_SIZE, LENT(spare)) == RIMEMAGPIE_UNSOUND_BOOK);
    EXPECT(rimemagpie_card_reader_finish(&lent, LENT(spare), LENT(book), &rows) == RIMEMAGPIE_UNSOUND_BOOK);
    EXPECT(memcmp(lent.tail, reader->tail, sizeof lent.tail) == 0 && lent.kept == reader->kept);
    EXPECT(lent.read == reader->read && lent.low == reader->low && lent.form == reader->form);
    EXPECT(lent.phase == reader->phase && rows == 7);
    expect_same(spare, empty);
    expect_same(book, empty);
    free_book(spare);
    free_book(book);
    free_book(empty);
}

static void states_refused(const uint8_t *card)
{
    struct rimemagpie_card_reader fresh, reader;

    rimemagpie_card_reader_begin(&fresh);
    reader = fresh;
    reader.kept = RIMEMAGPIE_CARD_TAIL_MOST + 1;
    state_refused(&reader, card);
    reader = fresh;
    reader.kept = UINT64_MAX;
    state_refused(&reader, card);
    reader = fresh;
    reader.read = UINT64_MAX;
    state_refused(&reader, card);
    reader = fresh;
    reader.form = 2;
    state_refused(&reader, card);
    reader = fresh;
    reader.phase = RIMEMAGPIE_CARD_FAULT + 1;
    state_refused(&reader, card);
}

/* Spare rows with room for one row hold the first; sizes that disagree are refused. */
static void little_room(const uint8_t *card, struct book book)
{
    struct book spare = empty_book(), read = empty_book(), empty = empty_book();
    struct rimemagpie_card_reader reader;
    uint64_t rows = 7;

    rimemagpie_card_reader_begin(&reader);
    EXPECT(rimemagpie_card_reader_feed(&reader, card, NEW_SIZE, spare.ids, 1, spare.lengths, 1, spare.store, 128,
                                       spare.marks, 1, spare.received, 1, spare.sent, 1) == RIMEMAGPIE_UNSOUND_BOOK);
    EXPECT(reader.phase == RIMEMAGPIE_CARD_READING && reader.read == 0);
    EXPECT(rimemagpie_card_reader_feed(&reader, card, NEW_SIZE, spare.ids, 1, spare.lengths, 1, spare.store, 64,
                                       spare.marks, 1, spare.received, 1, spare.sent, 1) == RIMEMAGPIE_DONE);
    EXPECT(reader.phase == RIMEMAGPIE_CARD_CLOSED && reader.form == RIMEMAGPIE_CARD_NEW && reader.read == 2);
    EXPECT(rimemagpie_card_reader_finish(&reader, spare.ids, 1, spare.lengths, 1, spare.store, 64, spare.marks, 1,
                                         spare.received, 1, spare.sent, 1, LENT(read), &rows) == RIMEMAGPIE_UNSOUND_BOOK);
    EXPECT(rimemagpie_card_reader_finish(&reader, spare.ids, 1, spare.lengths, 1, spare.store, 64, spare.marks, 1,
                                         spare.received, 1, spare.sent, 1, read.ids, 1, read.lengths, 1, read.store, 64,
                                         read.marks, 1, read.received, 1, read.sent, 1,
                                         &rows) == RIMEMAGPIE_NO_ROOM_FOR_ROWS);
    EXPECT(rows == 7 && spare.ids[0] == book.ids[0] && spare.lengths[0] == book.lengths[0]);
    EXPECT(memcmp(spare.store, book.store, 64) == 0 && spare.marks[0] == book.marks[0]);
    spare.ids[0] = 0;
    spare.lengths[0] = 0;
    memset(spare.store, 0, 64);
    spare.marks[0] = 0;
    expect_same(spare, empty);
    expect_same(read, empty);
    free_book(spare);
    free_book(read);
    free_book(empty);
}

/* The book's card in pieces: cut at each byte, and cut short and then in two; and what is refused. */
static void pieces(struct book book)
{
    uint8_t *card = (uint8_t *)calloc(NEW_SIZE, 1);
    uint64_t size = 7;

    EXPECT(card != NULL);
    EXPECT(rimemagpie_card_write(LENT(book), 2, card, NEW_SIZE, &size) == RIMEMAGPIE_DONE && size == NEW_SIZE);
    for (size_t cut = 0; cut <= NEW_SIZE; cut++)
        read_cut_at(card, NEW_SIZE, cut, RIMEMAGPIE_DONE);
    for (size_t end = 0; end < NEW_SIZE; end++)
        read_cut_at(card, end, end / 2, RIMEMAGPIE_MALFORMED_CARD);
    states_refused(card);
    little_room(card, book);
    free(card);
}

/* Every function that takes a message, with options 90 and 82 at these two places of it. */
static void messages(size_t authentication_at, size_t relay_agent_at)
{
    uint8_t plain[280];
    size_t behind = authentication_at + 33;
    struct book book = book_of_two();
    uint8_t *message;

    make_message(plain, authentication_at, relay_agent_at);
    message = block_of(plain, 280);
    seal_key_and_check(book, message);
    EXPECT(memcmp(message, plain, authentication_at + 5) == 0);
    EXPECT(memcmp(message + behind, plain + behind, 280 - behind) == 0);
    cut_messages(book, message);
    sign_with_0(message, authentication_at, relay_agent_at);
    check_with_0(book, message);
    free(message);
    free_book(book);
}

/* Two server rows. */
struct servers {
    uint8_t *nonces;
    uint64_t *counters;
    uint8_t *marks;
};

/* Row 0 is heard, with counter 20, and row 1 has no nonce yet. */
static struct servers two_servers(void)
{
    struct servers servers;

    servers.nonces = (uint8_t *)calloc(2, 16);
    servers.counters = (uint64_t *)calloc(2, sizeof *servers.counters);
    servers.marks = (uint8_t *)calloc(2, 1);
    EXPECT(servers.nonces && servers.counters && servers.marks);
    memset(servers.nonces, 5, 16);
    servers.counters[0] = 20;
    servers.marks[0] = RIMEMAGPIE_SERVER_HEARD;
    return servers;
}

static void free_servers(struct servers servers)
{
    free(servers.nonces);
    free(servers.counters);
    free(servers.marks);
}

#define LENT_SERVERS(servers) (servers).nonces, 32, (servers).counters, 2, (servers).marks, 2

/* The bytes of the messages below, and where option 90 stands in them. */
#define BY_NONCE_SIZE 281
#define BY_NONCE_AT 249

/* 236 zeros but for hops and giaddr, the cookie, an option 82, option 53, option 90 by nonce, a pad and End. */
static uint8_t *by_nonce(uint8_t message_type, uint8_t kind, uint8_t counter, const uint8_t value[16])
{
    static const uint8_t options[] = {99, 130, 83, 99, 82, 4, 1, 2, 3, 4, 53, 1, 0, 90, 28, 3, 1, 0};
    uint8_t message[BY_NONCE_SIZE];

    memset(message, 0, sizeof message);
    message[3] = 1;
    message[24] = 10;
    memcpy(message + 236, options, sizeof options);
    message[BY_NONCE_AT - 1] = message_type;
    message[BY_NONCE_AT + 12] = counter;
    message[BY_NONCE_AT + 13] = kind;
    memcpy(message + BY_NONCE_AT + 14, value, 16);
    message[BY_NONCE_SIZE - 1] = 255;
    return block_of(message, sizeof message);
}

/* A FORCERENEW with the right MAC under a nonce, which covers all of it with zeros in the MAC's place. */
static uint8_t *order_under(const uint8_t nonce[16], uint8_t counter)
{
    static const uint8_t zeros[16] = {0};
    uint8_t *message = by_nonce(9, 2, counter, zeros);
    uint8_t mac[16];

    EXPECT(rimemagpie_hmac(nonce, 16, message, BY_NONCE_SIZE, mac) == RIMEMAGPIE_DONE);
    memcpy(message + BY_NONCE_AT + 14, mac, sizeof mac);
    return message;
}

/* A judgement that is refused with this number changes nothing: no row, nor type and counter. */
static void judgement_refused(struct servers servers, size_t row, const uint8_t *message, size_t size, uint8_t number)
{
    uint8_t *nonces = block_of(servers.nonces, 32), *marks = block_of(servers.marks, 2);
    uint64_t counters[2] = {servers.counters[0], servers.counters[1]}, counter = 7;
    uint8_t kind = 7;

    EXPECT(rimemagpie_forcerenew(LENT_SERVERS(servers), row, message, size, &kind, &counter) == number);
    EXPECT(kind == 7 && counter == 7);
    EXPECT(memcmp(servers.nonces, nonces, 32) == 0 && memcmp(servers.marks, marks, 2) == 0);
    EXPECT(servers.counters[0] == counters[0] && servers.counters[1] == counters[1]);
    free(nonces);
    free(marks);
}

/* A message with a byte changed is refused with this number. */
static void refused_with(struct servers servers, uint8_t *message, size_t at, uint8_t value, uint8_t number)
{
    uint8_t kept = message[at];

    message[at] = value;
    judgement_refused(servers, 1, message, BY_NONCE_SIZE, number);
    message[at] = kept;
}

/* Row 1 gets its nonce, and then an order, which is believed once. Row 0 stays as it is. */
static void nonce_and_order(struct servers servers, const uint8_t *ack, const uint8_t *order, uint8_t nonce)
{
    uint64_t counter = 7;
    uint8_t kind = 7;

    judgement_refused(servers, 1, order, BY_NONCE_SIZE, RIMEMAGPIE_NO_NONCE);
    EXPECT(rimemagpie_forcerenew(LENT_SERVERS(servers), 1, ack, BY_NONCE_SIZE, &kind, &counter) == RIMEMAGPIE_DONE);
    EXPECT(kind == 1 && counter == 3 && servers.counters[1] == 0 && servers.marks[1] == RIMEMAGPIE_SERVER_NOT_HEARD);
    for (size_t i = 0; i < 32; i++)
        EXPECT(servers.nonces[i] == (i < 16 ? 5 : nonce));
    EXPECT(rimemagpie_forcerenew(LENT_SERVERS(servers), 1, order, BY_NONCE_SIZE, &kind, &counter) == RIMEMAGPIE_DONE);
    EXPECT(kind == 2 && counter == 9 && servers.counters[1] == 9 && servers.marks[1] == RIMEMAGPIE_SERVER_HEARD);
    judgement_refused(servers, 1, order, BY_NONCE_SIZE, RIMEMAGPIE_REPLAY);
    EXPECT(rimemagpie_forcerenew(LENT_SERVERS(servers), 1, ack, BY_NONCE_SIZE, &kind, &counter) == RIMEMAGPIE_DONE);
    EXPECT(kind == 1 && counter == 3 && servers.counters[1] == 9 && servers.marks[1] == RIMEMAGPIE_SERVER_HEARD);
    EXPECT(servers.counters[0] == 20 && servers.marks[0] == RIMEMAGPIE_SERVER_HEARD);
}

/* Sizes that disagree, and those that agree, for a row that is not there. */
static void sizes_of_servers(struct servers servers, const uint8_t *ack)
{
    uint64_t counter = 7;
    uint8_t kind = 7;

    for (size_t nonces = 0; nonces <= 32; nonces++)
        for (size_t counters = 0; counters <= 2; counters++)
            for (size_t marks = 0; marks <= 1; marks++) {
                uint8_t number = rimemagpie_forcerenew(servers.nonces, nonces, servers.counters, counters, servers.marks,
                                                       marks, 5, ack, BY_NONCE_SIZE, &kind, &counter);
                int agree = nonces == 16 * marks && counters == marks;

                EXPECT(number == (agree ? RIMEMAGPIE_UNKNOWN_SECRET : RIMEMAGPIE_UNSOUND_BOOK));
            }
    EXPECT(kind == 7 && counter == 7);
}

/* What is wrong with a FORCERENEW for row 1, which is heard, in the order in which it is judged. */
static void orders_refused(struct servers servers, uint8_t *order)
{
    servers.marks[0] = 3;
    judgement_refused(servers, 1, order, 0, RIMEMAGPIE_UNSOUND_BOOK);
    servers.marks[0] = RIMEMAGPIE_SERVER_HEARD;
    for (size_t size = 0; size < BY_NONCE_SIZE; size++) {
        uint8_t expected = size < 241 ? RIMEMAGPIE_MESSAGE_SIZE : RIMEMAGPIE_BROKEN_OPTIONS;
        uint8_t *cut = block_of(order, size);

        judgement_refused(servers, 2, cut, size, expected);
        free(cut);
    }
    judgement_refused(servers, 2, order, BY_NONCE_SIZE, RIMEMAGPIE_UNKNOWN_SECRET);
    judgement_refused(servers, SIZE_MAX, order, BY_NONCE_SIZE, RIMEMAGPIE_UNKNOWN_SECRET);
    refused_with(servers, order, BY_NONCE_AT + 2, 1, RIMEMAGPIE_NOT_BY_NONCE);
    refused_with(servers, order, BY_NONCE_AT + 13, 3, RIMEMAGPIE_WRONG_TYPE);
    refused_with(servers, order, BY_NONCE_AT - 1, 5, RIMEMAGPIE_WRONG_TYPE);
    refused_with(servers, order, BY_NONCE_AT + 12, 9, RIMEMAGPIE_REPLAY);
    refused_with(servers, order, 3, 2, RIMEMAGPIE_WRONG_MAC);
    refused_with(servers, order, 242, 9, RIMEMAGPIE_WRONG_MAC);
    judgement_refused(servers, 0, order, BY_NONCE_SIZE, RIMEMAGPIE_REPLAY);
}

/* Judgements by nonce. */
static void judgements(void)
{
    uint8_t nonce[16];
    struct servers servers = two_servers();
    uint8_t *ack, *order, *next;

    memset(nonce, 8, sizeof nonce);
    ack = by_nonce(5, 1, 3, nonce);
    order = order_under(nonce, 9);
    next = order_under(nonce, 10);
    sizes_of_servers(servers, ack);
    nonce_and_order(servers, ack, order, nonce[0]);
    orders_refused(servers, next);
    free(ack);
    free(order);
    free(next);
    free_servers(servers);
}

/* Places of row and looks, each a block of its own, which hold 70 and 80 before. */
struct places {
    uint64_t *row;
    uint64_t *looks;
};

static struct places fresh_places(void)
{
    struct places places;

    places.row = (uint64_t *)malloc(sizeof *places.row);
    places.looks = (uint64_t *)malloc(sizeof *places.looks);
    EXPECT(places.row && places.looks);
    *places.row = 70;
    *places.looks = 80;
    return places;
}

/*
 * A search among the first `count` of so many ids gets this number, and leaves these in the places. The list is a block of
 * its own that is left unset from `count` on, so that valgrind sees it if an answer depends on more. It stays as it was.
 */
static void sought(const uint32_t *ids, size_t size, size_t count, uint32_t id, uint8_t number, uint64_t row,
                   uint64_t looks)
{
    size_t set = (count < size ? count : size) * sizeof *ids;
    uint32_t *list = (uint32_t *)malloc(size > 0 ? size * sizeof *ids : 1);
    struct places places = fresh_places();

    EXPECT(list != NULL);
    memcpy(list, ids, set);
    EXPECT(rimemagpie_known(list, size, count, id, places.row, places.looks) == number);
    EXPECT(*places.row == row && *places.looks == looks);
    EXPECT(memcmp(list, ids, set) == 0);
    free(list);
    free(places.row);
    free(places.looks);
}

/* Searches for an id: found, both places are written; not found, that of the looks alone; and else neither. */
static void searches(void)
{
    static const uint32_t four[] = {3, 5, 7, 9};
    static const uint32_t descending[] = {9, 7, 5};
    static uint32_t many[1026];

    sought(four, 4, 4, 7, RIMEMAGPIE_DONE, 2, 1);
    sought(four, 4, 4, 5, RIMEMAGPIE_DONE, 1, 2);
    sought(four, 4, 4, 3, RIMEMAGPIE_DONE, 0, 3);
    sought(four, 4, 4, 9, RIMEMAGPIE_DONE, 3, 2);
    sought(four, 4, 4, 4, RIMEMAGPIE_UNKNOWN_SECRET, 70, 3);
    sought(four, 4, 4, UINT32_MAX, RIMEMAGPIE_UNKNOWN_SECRET, 70, 2);
    sought(four, 4, 2, 7, RIMEMAGPIE_UNKNOWN_SECRET, 70, 1);
    sought(four, 4, 0, 3, RIMEMAGPIE_UNKNOWN_SECRET, 70, 0);
    sought(four, 0, 0, 3, RIMEMAGPIE_UNKNOWN_SECRET, 70, 0);
    sought(four, 4, 5, 7, RIMEMAGPIE_UNSOUND_BOOK, 70, 80);
    sought(four, 0, 1, 7, RIMEMAGPIE_UNSOUND_BOOK, 70, 80);
    sought(four, 4, SIZE_MAX, 7, RIMEMAGPIE_UNSOUND_BOOK, 70, 80);
    sought(descending, 3, 3, 9, RIMEMAGPIE_UNKNOWN_SECRET, 70, 2);
    for (uint32_t i = 0; i < 1026; i++)
        many[i] = i + 1;
    sought(many, 1024, 1024, 0, RIMEMAGPIE_UNKNOWN_SECRET, 70, 11);
    sought(many, 1024, 1024, 1, RIMEMAGPIE_DONE, 0, 11);
    for (size_t count = 1; count <= 1024; count++)
        sought(many, 1024, count, (uint32_t)(count / 2 + 1), RIMEMAGPIE_DONE, count / 2, 1);
    for (size_t count = 0; count <= 1026; count++)
        sought(many, 1025, count, 1, RIMEMAGPIE_UNSOUND_BOOK, 70, 80);
}

int main(void)
{
    struct book book = book_of_two();

    digests();
    searches();
    messages(240, 273);
    messages(246, 240);
    cards(book);
    pieces(book);
    moves(book);
    judgements();
    free_book(book);
    return 0;
}
