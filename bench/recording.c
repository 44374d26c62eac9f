/*
 * Writes a recording for the benchmark: RECORDS frames with a DHCP message each, sealed with rising counters, so that the
 * program judge_capture accepts every one and computes every MAC. The files are `book.card` and `church.pcap` in the
 * current folder.
 */
#include "rimemagpie.h"

#include <stdio.h>
#include <stdlib.h>
#include <string.h>

#define RECORDS 200000
#define SLOT 64
#define ID 7
#define MESSAGE_SIZE 300
#define HEADERS_SIZE 42 /* Ethernet, IPv4 without options, UDP */
#define FRAME_SIZE (HEADERS_SIZE + MESSAGE_SIZE)

struct book {
    uint32_t ids[1];
    uint8_t lengths[1];
    uint8_t store[SLOT];
    uint8_t marks[1];
    uint64_t received[1];
    uint64_t sent[1];
};

static void fail(const char *what)
{
    fprintf(stderr, "recording: %s\n", what);
    exit(1);
}

static FILE *create(const char *name)
{
    FILE *file = fopen(name, "wb");

    if (!file)
        fail(name);
    return file;
}

static void put(FILE *file, const void *bytes, size_t size)
{
    if (fwrite(bytes, 1, size, file) != size)
        fail("a file can't be written");
}

static void close_written(FILE *file)
{
    if (fclose(file))
        fail("a file can't be written");
}

/* A capture's numbers have the lowest byte first here, a frame's fields the highest. */
static void put_number(FILE *file, uint32_t x)
{
    const uint8_t bytes[4] = {(uint8_t)x, (uint8_t)(x >> 8), (uint8_t)(x >> 16), (uint8_t)(x >> 24)};

    put(file, bytes, sizeof bytes);
}

static void set_field(uint8_t *at, unsigned x)
{
    at[0] = (uint8_t)(x >> 8);
    at[1] = (uint8_t)x;
}

static void write_card(const struct book *b)
{
    FILE *file = create("book.card");
    uint8_t card[128];
    uint64_t size;

    if (rimemagpie_card_write(b->ids, 1, b->lengths, 1, b->store, SLOT, b->marks, 1, b->received, 1, b->sent, 1, 1, card,
                              sizeof card, &size))
        fail("the card is refused");
    put(file, card, (size_t)size);
    close_written(file);
}

/* The headers, and an ACK with a lease, a table's name, option 90 in full form, End and zeros. */
static void make_frame(uint8_t *frame)
{
    static const uint8_t ip[] = {0x45, 0, 0, 0, 0, 0, 0, 0, 64, 17, 0, 0, 10, 9, 0, 1, 10, 9, 0, 2};
    static const uint8_t options[] = {99, 130, 83, 99, 53, 1, 5, 54, 4, 10, 9, 0, 1, 51, 4, 0, 0, 14, 16,
                                      67, 4, 's', 'o', 'f', 't', 90, 31, 1, 1, 0};
    uint8_t *message = frame + HEADERS_SIZE;

    memset(frame, 0, FRAME_SIZE);
    memset(frame, 0xff, 6);
    set_field(frame + 12, 0x0800);
    memcpy(frame + 14, ip, sizeof ip);
    set_field(frame + 16, FRAME_SIZE - 14);
    set_field(frame + 34, 67);
    set_field(frame + 36, 68);
    set_field(frame + 38, 8 + MESSAGE_SIZE);
    message[0] = 2;
    memcpy(message + 236, options, sizeof options);
    message[236 + sizeof options + 28] = 255;
}

static void write_recording(struct book *b)
{
    FILE *file = create("church.pcap");
    uint8_t frame[FRAME_SIZE];
    uint64_t counter;

    put_number(file, 0xa1b2c3d4);
    put_number(file, 0x00040002); /* version 2.4 */
    put_number(file, 0);
    put_number(file, 0);
    put_number(file, 262144);
    put_number(file, 1);
    make_frame(frame);
    for (uint32_t i = 0; i < RECORDS; i++) {
        if (rimemagpie_seal(b->ids, 1, b->lengths, 1, b->store, SLOT, b->marks, 1, b->received, 1, b->sent, 1, 1, ID,
                            frame + HEADERS_SIZE, MESSAGE_SIZE, &counter))
            fail("a message is refused");
        put_number(file, 1700000000 + i / 100);
        put_number(file, i % 100 * 10000);
        put_number(file, FRAME_SIZE);
        put_number(file, FRAME_SIZE);
        put(file, frame, FRAME_SIZE);
    }
    close_written(file);
}

int main(void)
{
    struct book book = {{ID}, {16}, "sixteen key byte", {RIMEMAGPIE_HEARD}, {0}, {0}};

    write_card(&book);
    write_recording(&book);
    return 0;
}
