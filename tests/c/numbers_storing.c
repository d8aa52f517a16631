/* The numbers 8 to 14, each by cases made by hand. That a refusal changes nothing is checked with every call. */
#include "check.h"
#include "groups.h"
#include "packs.h"

static const uint8_t *const ROOT = SEVEN_NODES[SEVEN_ROOT];

/* The peaks of the pack of seven, to our channel. */
static struct packet peaks(void)
{
    struct packet p = packet_to(OURS);
    put_node(&p, 3);
    put_node(&p, 9);
    put_node(&p, 12);
    return p;
}

/* 8: "chunk length not the one its number has". Chunk 6 has 1,018 bytes, the others 1,024. */
static void number_8(struct guarded *g)
{
    static const size_t sizes[] = {0, 1, 1017, 1019, 1023, 1024};
    for (size_t i = 0; i < sizeof sizes / sizeof sizes[0]; i++) {
        struct packet p = peaks();
        put_data(&p, 6, 0, content() + 6144, sizes[i]);
        CHECK(take(g, &p) == PPSPP_CHUNK_SIZE_WRONG);
    }
    struct packet p = packet_to(OURS);
    put_data(&p, 0, 0, content(), 1018);
    CHECK(take(g, &p) == PPSPP_CHUNK_SIZE_WRONG);
    p = packet_to(OURS);
    put_data(&p, 0, 0, content(), 1025);
    CHECK(take(g, &p) == PPSPP_CHUNK_SIZE_WRONG);
}

/* 9: "a needed hash isn't there": each of the five that chunk 0 needs left out, and also all of them. */
static void number_9(struct guarded *g)
{
    static const uint32_t needed[] = {3, 5, 9, 2, 12};
    struct packet p = packet_to(OURS);
    put_chunk(&p, 0, 0);
    CHECK(take(g, &p) == PPSPP_HASH_MISSING);
    for (size_t left_out = 0; left_out < 5; left_out++) {
        p = packet_to(OURS);
        for (size_t i = 0; i < 5; i++) {
            if (i != left_out) {
                put_node(&p, needed[i]);
            }
        }
        put_chunk(&p, 0, 0);
        CHECK(take(g, &p) == PPSPP_HASH_MISSING);
    }
}

/* 10: one bit of a needed hash or of the chunk is another. INTEGRITY i has its hash from byte 4 + 41 i + 9 on. */
static void number_10(struct guarded *g)
{
    const struct packet good = seven_sent(OURS, 0, 0);
    for (size_t i = 0; i < 5; i++) {
        for (size_t byte = 0; byte < 32; byte += 31) {
            struct packet p = good;
            p.bytes[4 + 41 * i + 9 + byte] ^= 0x80;
            CHECK(take(g, &p) == PPSPP_HASH_MISMATCH);
        }
    }
    for (size_t byte = 0; byte < 1024; byte += 341) {
        struct packet p = good;
        p.bytes[good.n - 1024 + byte] ^= 0x01;
        CHECK(take(g, &p) == PPSPP_HASH_MISMATCH);
    }
    CHECK(held_of(g) == 0);
    CHECK(take(g, &good) == PPSPP_DONE && held_of(g) == 1);
}

/* 11: each room one element short, for every call that is lent it. */
static void number_11(struct guarded *g)
{
    uint32_t held;
    uint32_t whole;
    const struct packet p = packet_to(OURS);
    for (int i = STATE; i < ROOMS; i++) {
        const enum room room = (enum room)i;
        guarded_shorten(g, room);
        CHECK(guarded_start(g, ROOT, SEVEN_LENGTH) == PPSPP_ROOM);
        CHECK(guarded_build(g, SEVEN_LENGTH, content(), SEVEN_LENGTH) == PPSPP_ROOM);
        CHECK(guarded_open(g, 50) == PPSPP_ROOM);
        CHECK(take(g, &p) == PPSPP_ROOM);
        CHECK(guarded_write(g, OURS, 0, 0) == PPSPP_ROOM);
        CHECK(guarded_ask(g, &held, &whole) == (room == STATE || room == MAP ? PPSPP_ROOM : PPSPP_DONE));
        guarded_lengthen(g, room);
    }
    guarded_shorten(g, REPLY);
    CHECK(guarded_begin(g, PEERS) == PPSPP_ROOM);
    CHECK(guarded_add(g, 4, PPSPP_CHOKE, 0, 0, 0, ROOT, 0) == PPSPP_ROOM);
    guarded_lengthen(g, REPLY);
}

/* 12: "order's length 0 or over the limit, or content of another length"; it stands before 11. */
static void number_12(struct guarded *g)
{
    static const uint32_t lengths[] = {0, 524289, 0x80000000u, 0xffffffffu};
    for (size_t i = 0; i < sizeof lengths / sizeof lengths[0]; i++) {
        CHECK(guarded_start(g, ROOT, lengths[i]) == PPSPP_LENGTH);
    }
    CHECK(guarded_build(g, 0, content(), 0) == PPSPP_LENGTH);
    CHECK(guarded_build(g, 524289, content(), 524289) == PPSPP_LENGTH);
    CHECK(guarded_build(g, SEVEN_LENGTH, content(), SEVEN_LENGTH - 1) == PPSPP_LENGTH);
    CHECK(guarded_build(g, SEVEN_LENGTH, content(), SEVEN_LENGTH + 1) == PPSPP_LENGTH);
    guarded_shorten(g, MAP);
    CHECK(guarded_start(g, ROOT, 0) == PPSPP_LENGTH);
    CHECK(guarded_build(g, SEVEN_LENGTH, content(), 0) == PPSPP_LENGTH);
    guarded_lengthen(g, MAP);
}

/* 13: "chunk to be written isn't held". Of this store chunk 0 is. */
static void number_13(struct guarded *g)
{
    CHECK(guarded_write(g, OURS, 0, 0) == PPSPP_DONE);
    for (uint32_t chunk = 1; chunk < SEVEN_CHUNKS; chunk++) {
        CHECK(guarded_write(g, OURS, chunk, 0) == PPSPP_NOT_HELD);
    }
}

/* 14: "a channel is to be opened under ID 0 or one in use", by us or by a peer. */
static void number_14(struct guarded *g)
{
    CHECK(guarded_open(g, 0) == PPSPP_ID);
    CHECK(guarded_open(g, OURS) == PPSPP_ID);
    CHECK(open_from(g, 0, 1, ROOT) == PPSPP_ID);
    CHECK(open_from(g, OURS, 1, ROOT) == PPSPP_ID);
    CHECK(guarded_open(g, 60) == PPSPP_DONE);
    CHECK(guarded_open(g, 60) == PPSPP_ID);
    CHECK(open_from(g, 60, 1, ROOT) == PPSPP_ID);
}

void group_numbers_storing(void)
{
    struct guarded g;
    seven_fresh(&g);
    number_8(&g);
    number_9(&g);
    number_10(&g);
    number_11(&g);
    number_12(&g);
    number_13(&g);
    number_14(&g);
    guarded_end(&g);
}
