/*
 * Calls rimemagpie_compare as rimemagpie.h declares it. It is C and C++ alike, and each buffer is a block of its own of
 * just the right size, so that valgrind sees any byte read or written beside it.
 *
 * It prints the line of the first answer that is not as expected and exits with 1; else it prints nothing.
 */
#include "rimemagpie.h"
#include "blocks.h"

/* A message in a block of its own. */
struct message {
    uint8_t *bytes;
    size_t size;
};

/* 236 bytes that hold this, the cookie and these options. */
static struct message made(uint8_t fill, const uint8_t *options, size_t size)
{
    static const uint8_t cookie[] = {99, 130, 83, 99};
    struct message message;

    message.size = 240 + size;
    message.bytes = (uint8_t *)malloc(message.size);
    EXPECT(message.bytes != NULL);
    memset(message.bytes, fill, 236);
    memcpy(message.bytes + 236, cookie, sizeof cookie);
    memcpy(message.bytes + 240, options, size);
    return message;
}

/* Options 53, 12, 90 of two bytes and 12 again, End, and a byte behind it. */
static const uint8_t PLAIN[] = {53, 1, 5, 12, 0, 90, 2, 8, 9, 12, 1, 7, 255, 3};

/* The same behind a relay: with an option 82 in front, an empty one or one of two bytes. */
static const uint8_t RELAYED[] = {82, 0, 53, 1, 5, 12, 0, 90, 2, 8, 9, 12, 1, 7, 255, 3};
static const uint8_t RELAYED_ALIKE[] = {82, 2, 1, 2, 53, 1, 5, 12, 0, 90, 2, 8, 9, 12, 1, 7, 255, 3};

/* Option 90 altered, the second 12 taken out and one of another code put in, and another byte behind End. */
static const uint8_t OTHER[] = {53, 1, 5, 12, 0, 90, 2, 8, 8, 200, 0, 255, 4};

/* Two options 82. */
static const uint8_t TWO_82[] = {82, 0, 90, 0, 82, 0, 255};

#define MADE(fill, options) made(fill, options, sizeof options)

/* A comparison in a room of that size gets this number and writes nothing: no byte of the room, nor the size. */
static void compare_refused(struct message first, struct message second, size_t room_size, uint8_t number)
{
    uint8_t nines[RIMEMAGPIE_COMPARISON_MOST];
    uint8_t *room;
    uint64_t *size = (uint64_t *)malloc(sizeof *size);

    EXPECT(size != NULL);
    *size = 70;
    memset(nines, 9, sizeof nines);
    room = block_of(nines, room_size);
    EXPECT(rimemagpie_compare(first.bytes, first.size, second.bytes, second.size, room, room_size, size) == number);
    EXPECT(*size == 70 && memcmp(room, nines, room_size) == 0);
    free(room);
    free(size);
}

/* A comparison in a room of that size, which is not set before, gives these lines and leaves what is behind them. */
static void compare_in(struct message first, struct message second, size_t room_size, const char *lines, size_t lines_size)
{
    uint8_t *room = (uint8_t *)malloc(room_size);
    uint64_t size = 70;

    EXPECT(room != NULL);
    for (size_t i = lines_size; i < room_size; i++)
        room[i] = 9;
    EXPECT(rimemagpie_compare(first.bytes, first.size, second.bytes, second.size, room, room_size, &size)
           == RIMEMAGPIE_DONE);
    EXPECT(size == lines_size && memcmp(room, lines, lines_size) == 0);
    for (size_t i = lines_size; i < room_size; i++)
        EXPECT(room[i] == 9);
    free(room);
}

/* The lines of two messages: in just enough room, in more, and refused in a byte too little and in none. */
static void compared(struct message first, struct message second, const char *lines)
{
    size_t size = strlen(lines);

    compare_in(first, second, size, lines, size);
    compare_in(first, second, size + 1, lines, size);
    compare_in(first, second, RIMEMAGPIE_COMPARISON_MOST, lines, size);
    compare_refused(first, second, size - 1, RIMEMAGPIE_NO_ROOM_FOR_REPORT);
    compare_refused(first, second, 0, RIMEMAGPIE_NO_ROOM_FOR_REPORT);
}

static void some_lines(struct message plain)
{
    struct message same = MADE(0, PLAIN), relayed = MADE(0, RELAYED), alike = MADE(0, RELAYED_ALIKE);
    struct message other = MADE(1, OTHER);

    relayed.bytes[3] = 1;
    alike.bytes[27] = 10;
    /* Both are lent for reading, and may be the same block. */
    compared(plain, plain, "relay only\n");
    compared(plain, same, "relay only\n");
    compared(plain, relayed, "hops\nadded 82 1\nlayout\nrelay only\n");
    compared(relayed, plain, "hops\nmissing 82 1\nlayout\nrelay only\n");
    compared(relayed, alike, "hops\ngiaddr\naltered 82 1\nrelay only\n");
    same.bytes[248] ^= 1;
    compared(plain, same, "altered 90 1\ncovered bytes differ\n");
    compared(plain, other,
             "op\nhtype\nhlen\nhops\nxid\nsecs\nflags\nciaddr\nyiaddr\nsiaddr\ngiaddr\nchaddr\nsname\nfile\n"
             "altered 90 1\nmissing 12 2\nadded 200 1\nlayout\ncovered bytes differ\n");
    free(same.bytes);
    free(relayed.bytes);
    free(alike.bytes);
    free(other.bytes);
}

/* A message cut to each length, as the first and as the second, in whatever room. */
static void cut_messages(struct message plain)
{
    for (size_t size = 0; size < plain.size - 1; size++) {
        uint8_t expected = size < 241 ? RIMEMAGPIE_MESSAGE_SIZE : RIMEMAGPIE_BROKEN_OPTIONS;
        struct message cut;

        cut.bytes = block_of(plain.bytes, size);
        cut.size = size;
        compare_refused(cut, plain, 0, expected);
        compare_refused(plain, cut, 0, expected);
        compare_refused(cut, cut, 99, expected);
        free(cut.bytes);
    }
}

/* The first message's number comes first, whatever the second's is. */
static void order_of_numbers(struct message plain)
{
    struct message two = MADE(0, TWO_82), none;

    none.bytes = block_of(plain.bytes, 0);
    none.size = 0;
    compare_refused(two, none, 0, RIMEMAGPIE_RELAY_INFORMATION);
    compare_refused(none, two, 0, RIMEMAGPIE_MESSAGE_SIZE);
    compare_refused(plain, two, 0, RIMEMAGPIE_RELAY_INFORMATION);
    compare_refused(two, plain, RIMEMAGPIE_COMPARISON_MOST, RIMEMAGPIE_RELAY_INFORMATION);
    free(two.bytes);
    free(none.bytes);
}

/* Option 90, 614 empty options of a code, and End. */
static struct message crowd(uint8_t fill, uint8_t code, size_t authentication)
{
    uint8_t options[1232] = {0};
    size_t at = 2 + authentication;

    options[0] = 90;
    options[1] = (uint8_t)authentication;
    for (size_t i = 0; i < 614; i++, at += 2)
        options[at] = code;
    options[at] = 255;
    return made(fill, options, at + 1);
}

/* The longest lines that are known: 18,325 bytes. */
static void longest_lines(void)
{
    struct message first = crowd(0, 200, 1), second = crowd(1, 201, 0);
    static uint8_t room[RIMEMAGPIE_COMPARISON_MOST];
    uint64_t size = 70;

    EXPECT(first.size == 1472 && second.size == 1471);
    EXPECT(rimemagpie_compare(first.bytes, first.size, second.bytes, second.size, room, sizeof room, &size)
           == RIMEMAGPIE_DONE);
    EXPECT(size == 18325 && room[size - 1] == '\n' && room[size] == 0);
    compare_in(first, second, 18325, (const char *)room, 18325);
    compare_refused(first, second, 18324, RIMEMAGPIE_NO_ROOM_FOR_REPORT);
    free(first.bytes);
    free(second.bytes);
}

int main(void)
{
    struct message plain = MADE(0, PLAIN);

    some_lines(plain);
    cut_messages(plain);
    order_of_numbers(plain);
    longest_lines();
    free(plain.bytes);
    return 0;
}
