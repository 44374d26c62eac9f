/*
 * Reads a card from a file, 512 bytes at a time, into a book, and prints its rows but for their keys.
 *
 * Build it with:  cc -std=c11 -Iinclude examples/read_in_pieces.c target/staticlib/librimemagpie.a -o target/read_in_pieces
 * and run it on a card:  target/read_in_pieces book.card
 *
 * It exits with 0 if the card was read and its rows were printed, with 1 if the card was refused, and with 2 if the file is
 * missing or can't be read, or the rows can't be printed.
 */
#include "rimemagpie.h"

#include <errno.h>
#include <inttypes.h>
#include <stdio.h>
#include <string.h>

/* There is room for so many rows: as many as a card may have. */
#define ROOM 256
#define SLOT 64

/* A file is read by so many bytes. */
#define PIECE 512

/* The six buffers of a key book, or of spare rows. */
struct rows {
    uint32_t ids[ROOM];
    uint8_t lengths[ROOM];
    uint8_t store[ROOM * SLOT];
    uint8_t marks[ROOM];
    uint64_t received[ROOM];
    uint64_t sent[ROOM];
};

/* A book, and the spare rows that pieces are read into. Nobody else writes these while a card is read. */
static struct rows book, spare;

static uint8_t feed(struct rimemagpie_card_reader *reader, const uint8_t *piece, size_t size)
{
    return rimemagpie_card_reader_feed(reader, piece, size, spare.ids, ROOM, spare.lengths, ROOM, spare.store,
                                       sizeof spare.store, spare.marks, ROOM, spare.received, ROOM, spare.sent, ROOM);
}

static uint8_t finish(const struct rimemagpie_card_reader *reader, uint64_t *rows)
{
    return rimemagpie_card_reader_finish(reader, spare.ids, ROOM, spare.lengths, ROOM, spare.store, sizeof spare.store,
                                         spare.marks, ROOM, spare.received, ROOM, spare.sent, ROOM, book.ids, ROOM,
                                         book.lengths, ROOM, book.store, sizeof book.store, book.marks, ROOM,
                                         book.received, ROOM, book.sent, ROOM, rows);
}

/* Feeds all of a file to the reader. Gives 0 where it could be read to its end. */
static int feed_file(struct rimemagpie_card_reader *reader, FILE *file, uint8_t *number)
{
    uint8_t piece[PIECE];

    *number = RIMEMAGPIE_DONE;
    /* Behind a fault there is nothing to be had of the card but the refusal: the rest of the file needn't be read. */
    while (*number == RIMEMAGPIE_DONE && reader->phase != RIMEMAGPIE_CARD_FAULT) {
        size_t size = fread(piece, 1, sizeof piece, file);

        *number = feed(reader, piece, size);
        if (size < sizeof piece)
            return ferror(file);
    }
    return 0;
}

/* Reads the card of a file into the book. Gives the number, or -1 with errno set where the file can't be read. */
static int read_card(const char *name, uint64_t *rows)
{
    struct rimemagpie_card_reader reader;
    uint8_t number;
    int failed, error;
    FILE *file = fopen(name, "rb");

    if (file == NULL)
        return -1;
    rimemagpie_card_reader_begin(&reader);
    failed = feed_file(&reader, file, &number);
    error = errno;
    fclose(file);
    errno = error;
    if (failed)
        return -1;
    /* Not before here is the book written, and only if the whole card is good and its rows have room. */
    return number != RIMEMAGPIE_DONE ? number : finish(&reader, rows);
}

/* What a number says about the card. */
static const char *words(int number)
{
    switch (number) {
    case RIMEMAGPIE_UNSOUND_BOOK:
        return "the lent sizes disagree";
    case RIMEMAGPIE_MALFORMED_CARD:
        return "the card is malformed";
    case RIMEMAGPIE_NO_ROOM_FOR_ROWS:
        return "the card has more rows than there is room for";
    default:
        return "a number that reading a card doesn't give";
    }
}

static void print_rows(uint64_t rows)
{
    printf("rows %" PRIu64 "\n", rows);
    for (uint64_t row = 0; row < rows; row++)
        printf("id %" PRIu32 ", key size %u, %s, received %" PRIu64 ", sent %" PRIu64 "\n", book.ids[row],
               (unsigned)book.lengths[row], book.marks[row] == RIMEMAGPIE_HEARD ? "heard" : "not heard",
               book.received[row], book.sent[row]);
}

int main(int count, char **arguments)
{
    uint64_t rows = 0;
    int number;

    if (count != 2) {
        fprintf(stderr, "usage: read_in_pieces CARD\n");
        return 2;
    }
    number = read_card(arguments[1], &rows);
    if (number < 0) {
        fprintf(stderr, "%s: %s\n", arguments[1], strerror(errno));
        return 2;
    }
    if (number != RIMEMAGPIE_DONE) {
        fprintf(stderr, "%s: refused %d: %s\n", arguments[1], number, words(number));
        return 1;
    }
    print_rows(rows);
    if (fflush(stdout) != 0 || ferror(stdout)) {
        fprintf(stderr, "the rows can't be printed: %s\n", strerror(errno));
        return 2;
    }
    return 0;
}
