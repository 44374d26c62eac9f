/*
 * Times the library beside OpenSSL: MD5, HMAC-MD5, a whole check, a whole seal and a whole judgement of a FORCERENEW, and
 * MD5's work on one block, written out and by tables. Then a check and a seal beside the HMAC-MD5 that they contain, how a
 * check's time grows, whether an id is known, beside the C library's bsearch, and two messages side by side, beside nothing.
 *
 * How it measures. What is compared stands in one table and takes turns: each round times one batch of each, in another
 * order every round, so that whatever slows the machine meets all of them alike. A time is the median over all rounds,
 * for one call. Only the calls are timed: messages are sealed and counters reset between batches. A batch takes about
 * 20,000 bytes, or one longer message, which is 20 microseconds or more, so that reading the clock doesn't show; its messages fit the cache.
 *
 * A check stores its counter, and the same message would be refused the second time. So a batch checks a lot of messages
 * sealed with rising counters, and the stored counter is set back before the next batch. Every call must return 0.
 */
#define _POSIX_C_SOURCE 200809L
#define OPENSSL_SUPPRESS_DEPRECATED /* the low-level MD5 calls */

#include "rimemagpie.h"

#include <openssl/crypto.h>
#include <openssl/evp.h>
#include <openssl/hmac.h>
#include <openssl/md5.h>
#include <stdio.h>
#include <stdlib.h>
#include <string.h>
#include <time.h>

#define ROUNDS 4001 /* odd, so that there is a middle one */
#define BATCH_BYTES 20000
#define MOST_WORKS 8

#define ROWS_MOST 256
#define SLOT 64
#define MESSAGE_LEAST 277
#define MESSAGE_MOST 1472
#define LOT_MOST (1 + BATCH_BYTES / MESSAGE_LEAST)
#define DIGEST_MOST 65535
#define KEY_SIZE 16

static void fail(const char *what)
{
    fprintf(stderr, "bench: %s\n", what);
    exit(1);
}

/* ---- measuring ---- */

/* Something to time: `calls` calls in a batch, made by `run`; `prepare` (or null) comes before each and isn't timed. */
struct work {
    void (*prepare)(void *with);
    void (*run)(void *with);
    void *with;
    size_t calls;
};

/* How many calls make a batch, of so many bytes each. */
static size_t batch_calls(size_t bytes)
{
    return 1 + BATCH_BYTES / bytes;
}

static double now_ns(void)
{
    struct timespec t;

    clock_gettime(CLOCK_MONOTONIC, &t);
    return 1e9 * (double)t.tv_sec + (double)t.tv_nsec;
}

static int by_size(const void *a, const void *b)
{
    double x = *(const double *)a, y = *(const double *)b;

    return (x > y) - (x < y);
}

static double time_batch(const struct work *work)
{
    double start;

    if (work->prepare)
        work->prepare(work->with);
    start = now_ns();
    work->run(work->with);
    return (now_ns() - start) / (double)work->calls;
}

/* The median time of one call of each work, in nanoseconds, taken turn by turn. */
static void measure(const struct work *works, size_t count, double *medians)
{
    static double times[MOST_WORKS][ROUNDS];

    for (size_t i = 0; i < count; i++)
        time_batch(&works[i]); /* warms up */
    for (size_t round = 0; round < ROUNDS; round++)
        for (size_t turn = 0; turn < count; turn++) {
            size_t i = (round + turn) % count;
            times[i][round] = time_batch(&works[i]);
        }
    for (size_t i = 0; i < count; i++) {
        qsort(times[i], ROUNDS, sizeof times[i][0], by_size);
        medians[i] = times[i][ROUNDS / 2];
    }
}

/* The names over the columns of times, and a column for each ratio: of the first to each of the others. */
static void print_head(const char *const *names, size_t count)
{
    printf("%-15s %12s", "", "");
    for (size_t i = 0; i < count; i++)
        printf("  %13s", names[i]);
    for (size_t i = 1; i < count; i++)
        printf("  %6s", "ratio");
    printf("\n");
}

/* One line: the first beside each of the others, all measured in the same rounds. */
static void compare(const char *what, size_t bytes, const struct work *works, size_t count)
{
    double ns[MOST_WORKS];

    measure(works, count, ns);
    printf("%-15s %6zu bytes", what, bytes);
    for (size_t i = 0; i < count; i++)
        printf("  %10.1f ns", ns[i]);
    for (size_t i = 1; i < count; i++)
        printf("  %6.3f", ns[0] / ns[i]);
    printf("\n");
}

/* ---- digests and MACs ---- */

static const uint8_t key[KEY_SIZE] = "sixteen key byte";

struct input {
    uint8_t bytes[DIGEST_MOST];
    size_t size;
    size_t calls;
    uint8_t out[16];
};

static void our_digests(void *with)
{
    struct input *in = with;

    for (size_t i = 0; i < in->calls; i++)
        if (rimemagpie_digest(in->bytes, in->size, in->out) != 0)
            fail("a digest was refused");
}

static void their_digests(void *with)
{
    struct input *in = with;

    for (size_t i = 0; i < in->calls; i++) {
        MD5_CTX context;
        MD5_Init(&context);
        MD5_Update(&context, in->bytes, in->size);
        MD5_Final(in->out, &context);
    }
}

static void our_macs(void *with)
{
    struct input *in = with;

    for (size_t i = 0; i < in->calls; i++)
        if (rimemagpie_hmac(key, KEY_SIZE, in->bytes, in->size, in->out) != 0)
            fail("a MAC was refused");
}

/* HMAC-MD5 (RFC 2104) by hand, from OpenSSL's low-level MD5 calls over the key pads: `pad` has the
   inner one, and is changed to the outer. */
static void mac_over(uint8_t pad[64], const uint8_t *text, size_t size, uint8_t mac[16])
{
    MD5_CTX context;
    uint8_t inner[16];

    MD5_Init(&context);
    MD5_Update(&context, pad, 64);
    MD5_Update(&context, text, size);
    MD5_Final(inner, &context);
    for (size_t i = 0; i < 64; i++)
        pad[i] ^= 0x36 ^ 0x5c;
    MD5_Init(&context);
    MD5_Update(&context, pad, 64);
    MD5_Update(&context, inner, 16);
    MD5_Final(mac, &context);
}

/* The inner pad made quickly: the compiler takes 16 bytes at a time. */
static void low_level_mac(const uint8_t *text, size_t size, uint8_t mac[16])
{
    uint8_t pad[64];

    memset(pad, 0x36, 64);
    for (size_t i = 0; i < KEY_SIZE; i++)
        pad[i] ^= key[i];
    mac_over(pad, text, size, mac);
}

/* The inner pad made with a test for each byte, which the compiler leaves so: a plain loop for a key of any length. */
static void plain_mac(const uint8_t *text, size_t size, uint8_t mac[16])
{
    uint8_t pad[64];

    for (size_t i = 0; i < 64; i++)
        pad[i] = (i < KEY_SIZE ? key[i] : 0) ^ 0x36;
    mac_over(pad, text, size, mac);
}

static void one_shot_mac(const uint8_t *text, size_t size, uint8_t mac[16])
{
    unsigned length;

    HMAC(EVP_md5(), key, KEY_SIZE, text, size, mac, &length);
}

static void low_level_macs(void *with)
{
    struct input *in = with;

    for (size_t i = 0; i < in->calls; i++)
        low_level_mac(in->bytes, in->size, in->out);
}

static void plain_macs(void *with)
{
    struct input *in = with;

    for (size_t i = 0; i < in->calls; i++)
        plain_mac(in->bytes, in->size, in->out);
}

static void one_shot_macs(void *with)
{
    struct input *in = with;

    for (size_t i = 0; i < in->calls; i++)
        one_shot_mac(in->bytes, in->size, in->out);
}

/* Times ways to compute the same 16 bytes, once they are seen to agree. */
static void compare_digests(const char *what, size_t size, void (*const *ways)(void *), size_t count)
{
    static struct input in;
    struct work works[MOST_WORKS];
    uint8_t first[16];

    in.size = size;
    in.calls = batch_calls(size);
    for (size_t i = 0; i < size; i++)
        in.bytes[i] = (uint8_t)(i * 7 + i / 251);
    for (size_t i = 0; i < count; i++) {
        works[i] = (struct work){NULL, ways[i], &in, in.calls};
        memset(in.out, 0, 16);
        ways[i](&in);
        if (i == 0)
            memcpy(first, in.out, 16);
        else if (memcmp(first, in.out, 16) != 0)
            fail("the library and OpenSSL differ");
    }
    compare(what, size, works, count);
}

/* ---- one block ---- */

/* crates/timed_blocks: the four words, A first, become those after the block. Only this bench and a test call them. */
void block_written_out(uint32_t words[4], const uint32_t block[16]);
void block_by_table(uint32_t words[4], const uint32_t block[16]);

#define CHAIN 16
#define BLOCK_SIZE 64

/* Blocks that come one after another, and the words so far. */
struct chain {
    uint32_t blocks[CHAIN][16];
    uint32_t words[4];
    MD5_CTX context; /* has the words of OpenSSL's side */
};

static void written_out(void *with)
{
    struct chain *chain = with;

    for (size_t i = 0; i < batch_calls(BLOCK_SIZE); i++)
        block_written_out(chain->words, chain->blocks[i % CHAIN]);
}

static void by_table(void *with)
{
    struct chain *chain = with;

    for (size_t i = 0; i < batch_calls(BLOCK_SIZE); i++)
        block_by_table(chain->words, chain->blocks[i % CHAIN]);
}

/* OpenSSL takes a block's bytes: those of its words as they lie here, with the lowest byte first. */
static void their_blocks(void *with)
{
    struct chain *chain = with;

    for (size_t i = 0; i < batch_calls(BLOCK_SIZE); i++)
        MD5_Transform(&chain->context, (const unsigned char *)chain->blocks[i % CHAIN]);
}

/* Both sides have the words that MD5 starts with. */
static void start_words(struct chain *chain)
{
    MD5_Init(&chain->context);
    chain->words[0] = chain->context.A;
    chain->words[1] = chain->context.B;
    chain->words[2] = chain->context.C;
    chain->words[3] = chain->context.D;
}

/* Sees that a way goes from the start to the words that OpenSSL comes to. */
static void see_same_words(struct chain *chain, void (*way)(void *))
{
    const MD5_CTX *theirs = &chain->context;
    const uint32_t *ours = chain->words;

    start_words(chain);
    way(chain);
    their_blocks(chain);
    if (ours[0] != theirs->A || ours[1] != theirs->B || ours[2] != theirs->C || ours[3] != theirs->D)
        fail("the library's block and OpenSSL's differ");
}

static void compare_blocks(void)
{
    static const char *const names[] = {"written out", "by tables", "MD5_Transform"};
    static struct chain chain;
    size_t calls = batch_calls(BLOCK_SIZE);
    struct work works[3] = {
        {NULL, written_out, &chain, calls}, {NULL, by_table, &chain, calls}, {NULL, their_blocks, &chain, calls}};

    for (size_t i = 0; i < CHAIN * 16; i++)
        chain.blocks[i / 16][i % 16] = (uint32_t)(i * 2654435761u);
    see_same_words(&chain, written_out);
    see_same_words(&chain, by_table);
    printf("\nMD5's work on one block, %zu in a row over %d different ones, each beginning with the words that the last one\n"
           "left:\n", calls, CHAIN);
    print_head(names, 3);
    compare("one block", BLOCK_SIZE, works, 3);
}

/* ---- checks and seals ---- */

struct book {
    uint32_t ids[ROWS_MOST];
    uint8_t lengths[ROWS_MOST];
    uint8_t store[ROWS_MOST * SLOT];
    uint8_t marks[ROWS_MOST];
    uint64_t received[ROWS_MOST];
    uint64_t sent[ROWS_MOST];
    size_t rows;
};

/* Messages under the last row of a book, sealed with the counters from 1 on. All rows are heard, as it is made. */
struct lot {
    struct book book;
    uint8_t messages[LOT_MOST][MESSAGE_MOST];
    uint8_t images[LOT_MOST][MESSAGE_MOST]; /* what each message's MAC covers */
    size_t size;
    size_t count;
    uint8_t out[16];
};

static uint8_t seal(struct lot *lot, size_t i)
{
    struct book *b = &lot->book;
    uint64_t counter;

    return rimemagpie_seal(b->ids, b->rows, b->lengths, b->rows, b->store, b->rows * SLOT, b->marks, b->rows,
                           b->received, b->rows, b->sent, b->rows, b->rows, b->ids[b->rows - 1], lot->messages[i],
                           lot->size, &counter);
}

static uint8_t check(struct lot *lot, size_t i)
{
    struct book *b = &lot->book;
    uint64_t row, counter;

    return rimemagpie_check(b->ids, b->rows, b->lengths, b->rows, b->store, b->rows * SLOT, b->marks, b->rows,
                            b->received, b->rows, b->sent, b->rows, b->rows, lot->messages[i], lot->size, &row, &counter);
}

static void our_seals(void *with)
{
    struct lot *lot = with;

    for (size_t i = 0; i < lot->count; i++)
        if (seal(lot, i) != 0)
            fail("a seal was refused");
}

static void our_checks(void *with)
{
    struct lot *lot = with;

    for (size_t i = 0; i < lot->count; i++)
        if (check(lot, i) != 0)
            fail("a check was refused");
}

/* OpenSSL's MACs of the same bytes. */
static void low_level_lot(void *with)
{
    struct lot *lot = with;

    for (size_t i = 0; i < lot->count; i++)
        low_level_mac(lot->messages[i], lot->size, lot->out);
}

static void plain_lot(void *with)
{
    struct lot *lot = with;

    for (size_t i = 0; i < lot->count; i++)
        plain_mac(lot->messages[i], lot->size, lot->out);
}

static void one_shot_lot(void *with)
{
    struct lot *lot = with;

    for (size_t i = 0; i < lot->count; i++)
        one_shot_mac(lot->messages[i], lot->size, lot->out);
}

/* The library's own MAC of what each message's covers. */
static void our_lot(void *with)
{
    struct lot *lot = with;

    for (size_t i = 0; i < lot->count; i++)
        if (rimemagpie_hmac(key, KEY_SIZE, lot->images[i], lot->size, lot->out) != 0)
            fail("a MAC was refused");
}

/* Sets the stored counter back, so that the next batch is accepted too. */
static void forget_received(void *with)
{
    struct lot *lot = with;

    lot->book.received[lot->book.rows - 1] = 0;
}

static void forget_sent(void *with)
{
    struct lot *lot = with;

    lot->book.sent[lot->book.rows - 1] = 0;
}

/* What fills a message up to its size: pads before option 90, which are read one by one, or bytes after End. */
enum filling { PADS_FIRST, BYTES_AFTER_END };

/* Where option 90 stands. */
static size_t authentication_at(size_t size, enum filling filling)
{
    return filling == PADS_FIRST ? size - 34 : 243;
}

static void make_message(uint8_t *message, size_t size, enum filling filling)
{
    static const uint8_t cookie_and_type[] = {99, 130, 83, 99, 53, 1, 5};
    static const uint8_t authentication[] = {90, 31, 1, 1, 0};
    size_t at = authentication_at(size, filling);

    memset(message, 0, size);
    memcpy(message + 236, cookie_and_type, sizeof cookie_and_type);
    memcpy(message + at, authentication, sizeof authentication);
    message[at + 33] = 255;
}

/* What the MAC of a sealed message covers: its own place is zero. (So are hops and giaddr, and there's no option 82.)
   The library's HMAC-MD5 and all of OpenSSL's are seen to give that MAC. */
static void make_image(uint8_t *image, const uint8_t *message, size_t size, enum filling filling)
{
    size_t at = authentication_at(size, filling) + 17;
    uint8_t found[4][16];

    memcpy(image, message, size);
    memset(image + at, 0, 16);
    if (rimemagpie_hmac(key, KEY_SIZE, image, size, found[0]) != 0)
        fail("a MAC was refused");
    low_level_mac(image, size, found[1]);
    plain_mac(image, size, found[2]);
    one_shot_mac(image, size, found[3]);
    for (size_t i = 0; i < 4; i++)
        if (memcmp(found[i], message + at, 16) != 0)
            fail("a message's MAC is not that of its image");
}

static void make_lot(struct lot *lot, size_t rows, size_t size, enum filling filling)
{
    memset(lot, 0, sizeof *lot);
    lot->size = size;
    lot->count = batch_calls(size);
    lot->book.rows = rows;
    for (size_t k = 0; k < rows; k++) {
        lot->book.ids[k] = (uint32_t)(100 + k);
        lot->book.lengths[k] = KEY_SIZE;
        lot->book.marks[k] = RIMEMAGPIE_HEARD;
        memcpy(lot->book.store + k * SLOT, key, KEY_SIZE);
    }
    for (size_t i = 0; i < lot->count; i++)
        make_message(lot->messages[i], size, filling);
    our_seals(lot);
    for (size_t i = 0; i < lot->count; i++)
        make_image(lot->images[i], lot->messages[i], size, filling);
}

static struct work checks_of(struct lot *lot)
{
    return (struct work){forget_received, our_checks, lot, lot->count};
}

static struct work seals_of(struct lot *lot)
{
    return (struct work){forget_sent, our_seals, lot, lot->count};
}

/* A check, a seal or a judgement beside OpenSSL's MACs of the same bytes. */
static void compare_with_openssl(const char *what, struct lot *lot, struct work ours)
{
    struct work works[4] = {ours,
                            {NULL, low_level_lot, lot, lot->count},
                            {NULL, plain_lot, lot, lot->count},
                            {NULL, one_shot_lot, lot, lot->count}};

    compare(what, lot->size, works, 4);
}

static void compare_checks_and_seals(size_t size)
{
    static struct lot lot;

    make_lot(&lot, 1, size, BYTES_AFTER_END);
    compare_with_openssl("check", &lot, checks_of(&lot));
    compare_with_openssl("seal", &lot, seals_of(&lot));
}

static void compare_many_rows(void)
{
    static struct lot lot;

    make_lot(&lot, 64, 300, BYTES_AFTER_END);
    compare_with_openssl("check, 64 rows", &lot, checks_of(&lot));
    compare_with_openssl("seal, 64 rows", &lot, seals_of(&lot));
    make_lot(&lot, ROWS_MOST, 300, BYTES_AFTER_END);
    compare_with_openssl("check, 256 rows", &lot, checks_of(&lot));
    compare_with_openssl("seal, 256 rows", &lot, seals_of(&lot));
    lot.book.marks[0] = RIMEMAGPIE_NOT_HEARD; /* so that soundness looks at the received counters too */
    compare_with_openssl("one not heard", &lot, checks_of(&lot));
}

/* ---- orders to renew ---- */

/* FORCERENEWs under the nonce `key`, with the counters from 1 on, and the one server row that they are judged by. */
struct orders {
    struct lot lot; /* the messages alone: there is no book */
    uint8_t nonce[16];
    uint64_t counter;
    uint8_t mark;
};

static void our_orders(void *with)
{
    struct orders *orders = with;
    struct lot *lot = &orders->lot;
    uint64_t counter;
    uint8_t kind;

    for (size_t i = 0; i < lot->count; i++)
        if (rimemagpie_forcerenew(orders->nonce, 16, &orders->counter, 1, &orders->mark, 1, 0, lot->messages[i], lot->size,
                                  &kind, &counter) != 0)
            fail("a FORCERENEW was refused");
}

static void forget_order(void *with)
{
    struct orders *orders = with;

    orders->counter = 0;
}

/* Option 90 is followed by End, and that by bytes up to the size. */
static void make_order(uint8_t *message, size_t size, size_t number)
{
    static const uint8_t options[] = {99, 130, 83, 99, 53, 1, 9, 90, 28, 3, 1, 0};
    uint8_t *value = message + 257;

    memset(message, 0, size);
    memcpy(message + 236, options, sizeof options);
    message[254] = (uint8_t)(number >> 8);
    message[255] = (uint8_t)number;
    message[256] = 2;
    message[273] = 255;
    if (rimemagpie_hmac(key, KEY_SIZE, message, size, value) != 0)
        fail("a MAC was refused");
}

static void compare_orders(size_t size)
{
    static struct orders orders;
    struct lot *lot = &orders.lot;

    memset(&orders, 0, sizeof orders);
    lot->size = size;
    lot->count = batch_calls(size);
    memcpy(orders.nonce, key, KEY_SIZE);
    orders.mark = RIMEMAGPIE_SERVER_HEARD;
    for (size_t i = 0; i < lot->count; i++)
        make_order(lot->messages[i], size, i + 1);
    compare_with_openssl("FORCERENEW", lot, (struct work){forget_order, our_orders, &orders, lot->count});
}

/* A check, or a seal, beside the library's own MAC of what the message's covers. */
static void compare_with_own_mac(size_t size)
{
    static struct lot lot;

    make_lot(&lot, 1, size, BYTES_AFTER_END);
    compare("check", size, (struct work[]){checks_of(&lot), {NULL, our_lot, &lot, lot.count}}, 2);
    compare("seal", size, (struct work[]){seals_of(&lot), {NULL, our_lot, &lot, lot.count}}, 2);
}

static void growth_with_length(const char *what, enum filling filling)
{
    static const size_t sizes[] = {MESSAGE_LEAST, 300, 500, 700, 900, 1100, 1300, 1472};
    enum { COUNT = sizeof sizes / sizeof sizes[0] };
    static struct lot lots[COUNT];
    struct work works[COUNT];
    double ns[COUNT];

    for (size_t i = 0; i < COUNT; i++) {
        make_lot(&lots[i], 1, sizes[i], filling);
        works[i] = checks_of(&lots[i]);
    }
    measure(works, COUNT, ns);
    printf("\nA check by message length (one row, %s):\n", what);
    for (size_t i = 0; i < COUNT; i++)
        printf("  %5zu bytes  %8.0f ns  %6.3f times the first\n", sizes[i], ns[i], ns[i] / ns[0]);
}

static void growth_with_rows(void)
{
    static const size_t rows[] = {1, 4, 16, 32, 64, 128, ROWS_MOST};
    enum { COUNT = sizeof rows / sizeof rows[0] };
    static struct lot lots[COUNT];
    struct work works[COUNT];
    double ns[COUNT];

    for (size_t i = 0; i < COUNT; i++) {
        make_lot(&lots[i], rows[i], 300, BYTES_AFTER_END);
        works[i] = checks_of(&lots[i]);
    }
    measure(works, COUNT, ns);
    printf("\nA check by rows in use (300 bytes, the last row named):\n");
    for (size_t i = 0; i < COUNT; i++)
        printf("  %5zu rows   %8.0f ns  %6.3f times the first\n", rows[i], ns[i], ns[i] / ns[0]);
}

/* Puts an option 82 with a body of 30 bytes at an offset of each message, as a relay does: what the MAC covers stays. */
static void relay(struct lot *lot, size_t at)
{
    for (size_t i = 0; i < lot->count; i++) {
        uint8_t *there = lot->messages[i] + at;

        memmove(there + 32, there, lot->size - at);
        memset(there, 9, 32);
        there[0] = 82;
        there[1] = 30;
    }
    lot->size += 32;
}

static void relayed_or_not(void)
{
    static const char *const what[] = {"without option 82", "before option 90", "behind option 90"};
    enum { COUNT = sizeof what / sizeof what[0] };
    static struct lot lots[COUNT];
    struct work works[COUNT];
    double ns[COUNT];

    for (size_t i = 0; i < COUNT; i++) {
        make_lot(&lots[i], 1, 300, BYTES_AFTER_END);
        works[i] = checks_of(&lots[i]);
    }
    relay(&lots[1], authentication_at(300, BYTES_AFTER_END));
    relay(&lots[2], authentication_at(300, BYTES_AFTER_END) + 33);
    measure(works, COUNT, ns);
    printf("\nA check by option 82 (300 bytes and an option 82 of 32, one row):\n");
    for (size_t i = 0; i < COUNT; i++)
        printf("  %-18s %8.0f ns  %6.3f times the first\n", what[i], ns[i], ns[i] / ns[0]);
}

/* ---- a known id ---- */

#define IDS_MOST 1024
#define ASKED 5000

/* A list of ids that ascend, and ids to ask it for, in no order; every second one is in the list. They are so many that the
 * processor can hardly learn from one round which way the next one goes. */
struct list {
    uint32_t ids[IDS_MOST];
    uint32_t asked[ASKED];
    size_t count;
    size_t found;
};

static void our_searches(void *with)
{
    struct list *list = with;
    uint64_t row, looks;

    list->found = 0;
    for (size_t i = 0; i < ASKED; i++)
        list->found += rimemagpie_known(list->ids, list->count, list->count, list->asked[i], &row, &looks) == 0;
}

static int by_id(const void *a, const void *b)
{
    uint32_t x = *(const uint32_t *)a, y = *(const uint32_t *)b;

    return (x > y) - (x < y);
}

static void their_searches(void *with)
{
    struct list *list = with;

    list->found = 0;
    for (size_t i = 0; i < ASKED; i++)
        list->found += bsearch(&list->asked[i], list->ids, list->count, sizeof list->ids[0], by_id) != NULL;
}

static void make_list(struct list *list, size_t count)
{
    uint32_t drawn = 1;

    list->count = count;
    for (size_t i = 0; i < count; i++)
        list->ids[i] = (uint32_t)(2 * i);
    for (size_t i = 0; i < ASKED; i++) {
        drawn = drawn * 1664525 + 1013904223;
        list->asked[i] = (uint32_t)(2 * ((drawn >> 8) % count) + i % 2);
    }
}

static void compare_searches(void)
{
    static const char *const names[] = {"Rimemagpie", "bsearch"};
    static const size_t counts[] = {16, 64, 256, IDS_MOST};
    static struct list list;
    struct work works[] = {{NULL, our_searches, &list, ASKED}, {NULL, their_searches, &list, ASKED}};

    printf("\nWhether an id is known, beside the C library's bsearch in the same list of 32-bit ids:\n");
    print_head(names, 2);
    for (size_t i = 0; i < sizeof counts / sizeof counts[0]; i++) {
        make_list(&list, counts[i]);
        for (size_t way = 0; way < 2; way++) {
            works[way].run(&list);
            if (list.found != ASKED / 2)
                fail("a search found another number of ids");
        }
        compare("known", counts[i] * sizeof list.ids[0], works, 2);
    }
}

static void compare_all_digests(void)
{
    static void (*const ways[])(void *) = {our_digests, their_digests};
    static const char *const names[] = {"Rimemagpie", "OpenSSL"};
    static const size_t sizes[] = {64, 300, 1472, DIGEST_MOST};

    printf("\nMD5 beside OpenSSL's MD5_Init, MD5_Update, MD5_Final:\n");
    print_head(names, 2);
    for (size_t i = 0; i < sizeof sizes / sizeof sizes[0]; i++)
        compare_digests("MD5", sizes[i], ways, 2);
}

static void compare_all_macs(void)
{
    static void (*const ways[])(void *) = {our_macs, low_level_macs, plain_macs, one_shot_macs};
    static const char *const names[] = {"Rimemagpie", "low-level", "plain pad", "one-shot"};
    /* The last is the largest message that HMAC takes: 64 bytes of the inner digest's total are the key's. */
    static const size_t sizes[] = {64, 300, 1472, DIGEST_MOST - 64};

    printf("\nHMAC-MD5, a whole check, a whole seal and a whole judgement of a FORCERENEW beside OpenSSL's HMAC-MD5 of the same\n"
           "bytes, which judges and stores nothing: low-level, by hand from its MD5 calls over the key pads; the same with a\n"
           "plain loop over the inner pad's bytes; and its one-shot HMAC(). One row is in use, where no other number is given;\n"
           "'one not heard' has 256 rows, one of them not heard:\n");
    print_head(names, 4);
    for (size_t i = 0; i < sizeof sizes / sizeof sizes[0]; i++)
        compare_digests("HMAC-MD5", sizes[i], ways, 4);
    compare_checks_and_seals(300);
    compare_checks_and_seals(1472);
    compare_many_rows();
    compare_orders(300);
    compare_orders(1472);
}

static void compare_all_with_own_mac(void)
{
    static const char *const names[] = {"whole", "HMAC-MD5"};

    printf("\nA whole check and a whole seal beside the HMAC-MD5 in them, Rimemagpie's own of the covered image:\n");
    print_head(names, 2);
    compare_with_own_mac(300);
    compare_with_own_mac(1472);
}

/* ---- two messages side by side ---- */

#define OPTIONS_MOST 614 /* empty options besides option 90 */
#define EQUAL_SIZE 300
#define COMPARED 50

struct pair {
    uint8_t first[MESSAGE_MOST], second[MESSAGE_MOST], room[RIMEMAGPIE_COMPARISON_MOST];
    size_t first_size, second_size;
    uint64_t size;
    size_t calls;
};

static void our_comparisons(void *with)
{
    struct pair *pair = with;

    for (size_t i = 0; i < pair->calls; i++)
        if (rimemagpie_compare(pair->first, pair->first_size, pair->second, pair->second_size, pair->room, sizeof pair->room,
                               &pair->size) != 0)
            fail("a comparison was refused");
}

/* A message with this byte in its whole header, an option 90 of so many zero bytes, and one code many times. Returns its size. */
static size_t make_options(uint8_t *message, uint8_t header, uint8_t auth_length, uint8_t code, size_t count)
{
    static const uint8_t cookie[] = {99, 130, 83, 99};
    size_t at = 240;

    memset(message, 0, MESSAGE_MOST);
    memset(message, header, 236);
    memcpy(message + 236, cookie, sizeof cookie);
    message[at++] = 90;
    message[at++] = auth_length;
    at += auth_length;
    for (size_t i = 0; i < count; i++) {
        message[at++] = code;
        message[at++] = 0;
    }
    message[at++] = 255;
    return at;
}

/* The pair with the longest lines, each option looked for in vain in the other message; and two equal messages. */
static void time_comparisons(void)
{
    static struct pair pair;
    struct work work = {NULL, our_comparisons, &pair, 1};
    double ns;

    printf("\nTwo messages side by side:\n");
    pair.first_size = make_options(pair.first, 0, 1, 200, OPTIONS_MOST);
    pair.second_size = make_options(pair.second, 1, 0, 201, OPTIONS_MOST);
    pair.calls = work.calls;
    measure(&work, 1, &ns);
    printf("the longest lines, %zu bytes: %.0f ns\n", (size_t)pair.size, ns);
    make_options(pair.first, 0, 31, 54, 3);
    make_options(pair.second, 0, 31, 54, 3);
    pair.first_size = pair.second_size = EQUAL_SIZE;
    pair.calls = work.calls = COMPARED;
    measure(&work, 1, &ns);
    printf("two equal messages of %d bytes: %.0f ns\n", EQUAL_SIZE, ns);
}

int main(void)
{
    printf("Beside:  %s\n", OpenSSL_version(OPENSSL_VERSION));
    printf("Medians of %d rounds, taken in turns. Buffers: no result buffer is cleared before a call, on either side;\n"
           "inputs are in the cache. What a side clears inside its own calls is in its time. Ratios are those of the\n"
           "first time in a line to each of the others: below 1 says that the first is faster.\n", ROUNDS);
    compare_all_digests();
    compare_all_macs();
    compare_blocks();
    compare_all_with_own_mac();
    growth_with_length("bytes after End", BYTES_AFTER_END);
    growth_with_length("pads before option 90", PADS_FIRST);
    growth_with_rows();
    relayed_or_not();
    compare_searches();
    time_comparisons();
    return 0;
}
