/*
 * Seals a DHCPv4 message and checks it, as a server and a client that share a secret would, with a relay between them.
 *
 * Build it with:  cc -std=c11 -Iinclude examples/seal_and_check.c target/staticlib/librimemagpie.a -o target/seal_and_check
 *
 * It exits with 0 if the sealed message is accepted, by a row that was not heard before, and refused as a replay when it is
 * shown again.
 */
#include "rimemagpie.h"

#include <inttypes.h>
#include <stdio.h>
#include <string.h>

#define ROWS 1
#define SLOT 64
#define SECRET_ID 7

/* A key book with room for one row: the six buffers that every call is lent. */
struct book {
    uint32_t ids[ROWS];
    uint8_t lengths[ROWS];
    uint8_t store[ROWS * SLOT];
    uint8_t marks[ROWS];
    uint64_t received[ROWS];
    uint64_t sent[ROWS];
};

/* A new book. Its row is not heard, and both counters are 0. */
static struct book make_book(void)
{
    static const uint8_t key[] = {0x6b, 0x65, 0x79, 0x2d, 0x6f, 0x66, 0x2d, 0x37};
    struct book book = {.ids = {SECRET_ID}, .lengths = {sizeof key}, .marks = {RIMEMAGPIE_NOT_HEARD}};

    memcpy(book.store, key, sizeof key);
    return book;
}

static uint8_t seal(struct book *book, uint8_t *message, size_t length, uint64_t *counter)
{
    return rimemagpie_seal(book->ids, ROWS, book->lengths, ROWS, book->store, sizeof book->store,
                           book->marks, ROWS, book->received, ROWS, book->sent, ROWS, ROWS, SECRET_ID, message, length,
                           counter);
}

static uint8_t check(struct book *book, const uint8_t *message, size_t length, uint64_t *row, uint64_t *counter)
{
    return rimemagpie_check(book->ids, ROWS, book->lengths, ROWS, book->store, sizeof book->store,
                            book->marks, ROWS, book->received, ROWS, book->sent, ROWS, ROWS, message, length, row,
                            counter);
}

/* A DHCPACK with an empty option 90 in full form: the header, the cookie, two options and End. */
static size_t make_message(uint8_t *message)
{
    static const uint8_t cookie_and_type[] = {99, 130, 83, 99, 53, 1, 5};
    static const uint8_t authentication[] = {90, 31, 1, 1, 0};
    size_t end = 240 + 3 + 2 + 31;

    memset(message, 0, end);
    message[0] = 2; /* op: a reply */
    memcpy(message + 236, cookie_and_type, sizeof cookie_and_type);
    memcpy(message + 243, authentication, sizeof authentication);
    message[end] = 255;
    return end + 1;
}

/* What a relay may do on the way: it counts itself in hops and puts an option 82 before the other options. */
static size_t relay(uint8_t *message, size_t length)
{
    static const uint8_t relay_information[] = {82, 3, 1, 1, 9};

    message[3] += 1;
    memmove(message + 240 + sizeof relay_information, message + 240, length - 240);
    memcpy(message + 240, relay_information, sizeof relay_information);
    return length + sizeof relay_information;
}

/* Prints what a call returned and whether that was expected. */
static int expect(const char *what, uint8_t number, uint8_t expected)
{
    printf("%s: %u%s\n", what, (unsigned)number, number == expected ? "" : ", which was not expected");
    return number == expected;
}

int main(void)
{
    struct book server = make_book();
    struct book client = make_book();
    uint8_t message[300];
    size_t length = make_message(message);
    uint64_t sealed_counter = 0, row = 0, counter = 0;
    int good = 1;

    good &= expect("server seals", seal(&server, message, length, &sealed_counter), RIMEMAGPIE_DONE);
    printf("  under id %u with counter %" PRIu64 "\n", (unsigned)SECRET_ID, sealed_counter);

    length = relay(message, length);
    good &= expect("client checks", check(&client, message, length, &row, &counter), RIMEMAGPIE_DONE);
    printf("  accepted, row %" PRIu64 " counter %" PRIu64 ", and its mark is now %u\n", row, counter,
           (unsigned)client.marks[0]);
    good &= row == 0 && counter == sealed_counter;
    /* These two the client stores: they are what keeps the message out when it comes again. */
    good &= client.marks[0] == RIMEMAGPIE_HEARD && client.received[0] == counter;

    good &= expect("client checks it again", check(&client, message, length, &row, &counter), RIMEMAGPIE_REPLAY);
    printf("  refused as a replay\n");

    return good ? 0 : 1;
}
