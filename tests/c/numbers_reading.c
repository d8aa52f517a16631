/* The numbers 1 to 7, each by cases made by hand. That a refusal changes nothing is checked with every call. */
#include "check.h"
#include "groups.h"
#include "packs.h"

static const uint8_t *const ROOT = SEVEN_NODES[SEVEN_ROOT];

/* A datagram to our channel with one message of a range. */
static struct packet ranged(uint32_t type, uint32_t first, uint32_t last)
{
    struct packet p = packet_to(OURS);
    put_range(&p, type, first, last);
    return p;
}

/* 1: "datagram under 4 or over 2,048 bytes". */
static void number_1(struct guarded *g)
{
    struct packet p = packet_to(OURS);
    while (p.n < 2049) {
        put8(&p, 10);
    }
    for (size_t n = 0; n < 4; n++) {
        CHECK(guarded_take(g, 0, 0, p.bytes, n) == PPSPP_SIZE);
        CHECK(guarded_add(g, n, PPSPP_CHOKE, 0, 0, 0, p.bytes, 0) == PPSPP_SIZE);
    }
    CHECK(guarded_take(g, 0, 0, p.bytes, 4) == PPSPP_DONE);
    CHECK(guarded_take(g, 0, 0, p.bytes, 2048) == PPSPP_DONE);
    CHECK(guarded_take(g, 0, 0, p.bytes, 2049) == PPSPP_SIZE);
    CHECK(guarded_add(g, 2049, PPSPP_CHOKE, 0, 0, 0, p.bytes, 0) == PPSPP_SIZE);
    CHECK(guarded_begin(g, PEERS) == PPSPP_DONE);
    CHECK(guarded_add(g, 4, PPSPP_DATA, 0, 0, 0, content(), 2027) == PPSPP_DONE && g->len == 2048);
    CHECK(guarded_add(g, 4, PPSPP_DATA, 0, 0, 0, content(), 2028) == PPSPP_SIZE);
}

/* 2: "refused type, cut short, first above last, INTEGRITY range no node or twice, DATA range not one chunk". */
static void number_2_taken(struct guarded *g)
{
    static const uint32_t types[] = {1, 2, 3, 4, 8, 9};
    static const size_t behind[] = {8, 8, 0, 32, 0, 0};
    struct packet p = packet_to(OURS);
    for (uint32_t type = 5; type < 256; type++) {
        if (type <= 7 || type >= 12) {
            p = ranged(type, 0, 0);
            CHECK(take(g, &p) == PPSPP_MALFORMED);
        }
    }
    for (size_t i = 0; i < sizeof types / sizeof types[0]; i++) {
        p = ranged(types[i], 1, 0);
        put_bytes(&p, content(), behind[i]);
        CHECK(take(g, &p) == PPSPP_MALFORMED);
        p = ranged(types[i], 0, 0);
        put_bytes(&p, content(), behind[i]);
        const uint32_t whole = take(g, &p);
        CHECK(whole == PPSPP_DONE || whole == PPSPP_CHUNK_SIZE_WRONG);
        p.n--;
        CHECK(take(g, &p) == PPSPP_MALFORMED);
    }
    p = ranged(1, 0, 1);
    put64(&p, 0);
    put_bytes(&p, content(), 1024);
    CHECK(take(g, &p) == PPSPP_MALFORMED);
    p = packet_to(OURS);
    put_integrity(&p, 0, 2, ROOT);
    CHECK(take(g, &p) == PPSPP_MALFORMED);
    p = packet_to(OURS);
    put_node(&p, 9);
    put_node(&p, 9);
    CHECK(take(g, &p) == PPSPP_MALFORMED);
}

/* 2: "option unknown, out of order or without End". The options begin at byte 9. */
static void number_2_options(struct guarded *g)
{
    struct packet good = packet_to(0);
    put_handshake(&good, 17, ROOT);
    struct packet p = good;
    p.n--;
    CHECK(take(g, &p) == PPSPP_MALFORMED);
    p = good;
    p.bytes[59] = 10;
    CHECK(take(g, &p) == PPSPP_MALFORMED);
    p = good;
    p.bytes[9] = 1;
    CHECK(take(g, &p) == PPSPP_MALFORMED);
    p = packet_to(0);
    put8(&p, 0);
    put32(&p, 17);
    CHECK(take(g, &p) == PPSPP_MALFORMED);
}

/* 2: "a message to be added that would be refused so, or comes after DATA", or one that cannot be written. */
static void number_2_added(struct guarded *g)
{
    CHECK(guarded_begin(g, PEERS) == PPSPP_DONE);
    CHECK(guarded_add(g, 4, PPSPP_HAVE, 1, 0, 0, ROOT, 0) == PPSPP_MALFORMED);
    CHECK(guarded_add(g, 4, PPSPP_INTEGRITY, 0, 2, 0, ROOT, 32) == PPSPP_MALFORMED);
    CHECK(guarded_add(g, 4, PPSPP_INTEGRITY, 0, 1, 0, ROOT, 31) == PPSPP_MALFORMED);
    CHECK(guarded_add(g, 4, PPSPP_HANDSHAKE, 17, PPSPP_OPTIONS_OTHER, 0, ROOT, 32) == PPSPP_MALFORMED);
    CHECK(guarded_add(g, 4, PPSPP_HANDSHAKE, 17, PPSPP_OPTIONS_FIXED, 0, ROOT, 31) == PPSPP_MALFORMED);
    CHECK(guarded_add(g, 4, 5, 0, 0, 0, ROOT, 32) == PPSPP_MALFORMED);
    CHECK(guarded_add(g, 4, 256, 0, 0, 0, ROOT, 32) == PPSPP_MALFORMED);
    CHECK(guarded_add(g, 4, PPSPP_EMPTY_HAVE, 0, 0, 0, ROOT, 32) == PPSPP_MALFORMED);
    CHECK(guarded_add(g, 4, PPSPP_DATA, 0, 0, 0, content(), 3) == PPSPP_DONE);
    CHECK(guarded_add(g, g->len, PPSPP_CHOKE, 0, 0, 0, ROOT, 0) == PPSPP_MALFORMED);
}

/*
 * 2: "DATA range not one chunk", to be added. The size of the lengthened datagram, 1, comes before its layout, and in
 * that a HANDSHAKE is judged at its place, 3, before the range behind it. Behind DATA all is 2.
 */
static void number_2_range(struct guarded *g, uint32_t first, uint32_t last)
{
    CHECK(guarded_begin(g, PEERS) == PPSPP_DONE);
    CHECK(guarded_add(g, 4, PPSPP_DATA, first, last, 0, content(), 0) == PPSPP_MALFORMED);
    CHECK(guarded_add(g, 4, PPSPP_DATA, first, last, 0, content(), 2027) == PPSPP_MALFORMED);
    CHECK(guarded_add(g, 4, PPSPP_DATA, first, last, 0, content(), 2028) == PPSPP_SIZE);
    CHECK(guarded_add(g, 3, PPSPP_DATA, first, last, 0, content(), 3) == PPSPP_SIZE);
    CHECK(guarded_add(g, 4, PPSPP_HANDSHAKE, 17, PPSPP_OPTIONS_FIXED, 0, ROOT, 32) == PPSPP_DONE && g->len == 60);
    CHECK(guarded_add(g, 60, PPSPP_DATA, first, last, 0, content(), 3) == PPSPP_UNEXPECTED);
    CHECK(guarded_add(g, 60, PPSPP_DATA, first, last, 0, content(), 2028) == PPSPP_SIZE);
    CHECK(guarded_begin(g, PEERS) == PPSPP_DONE);
    CHECK(guarded_add(g, 4, PPSPP_DATA, 5, 5, 0, content(), 3) == PPSPP_DONE && g->len == 24);
    CHECK(guarded_add(g, 24, PPSPP_DATA, first, last, 0, content(), 3) == PPSPP_MALFORMED);
    CHECK(guarded_add(g, 24, PPSPP_DATA, first, last, 0, content(), 2028) == PPSPP_SIZE);
}

static void number_2_ranges(struct guarded *g)
{
    number_2_range(g, 5, 6);
    number_2_range(g, 6, 5);
    number_2_range(g, 0, 0xffffffffu);
    number_2_range(g, 0xffffffffu, 0);
}

/* 3: a HANDSHAKE that is not alone or not sound; what a calling channel, an open one and a closed one may not get. */
static void number_3(struct guarded *g)
{
    struct packet p = ranged(3, 0, 0);
    put_handshake(&p, PEERS, ROOT);
    CHECK(take(g, &p) == PPSPP_UNEXPECTED);
    p = packet_to(OURS);
    put_handshake(&p, PEERS, ROOT);
    CHECK(take(g, &p) == PPSPP_DONE);
    put8(&p, 10);
    CHECK(take(g, &p) == PPSPP_UNEXPECTED);
    p = packet_to(0);
    put_closing(&p);
    CHECK(take(g, &p) == PPSPP_UNEXPECTED);
    p = packet_to(OURS);
    put_handshake(&p, 0, ROOT);
    CHECK(take(g, &p) == PPSPP_UNEXPECTED);
    p = packet_to(OURS);
    put_handshake(&p, PEERS + 1, ROOT);
    CHECK(take(g, &p) == PPSPP_UNEXPECTED);
    CHECK(guarded_open(g, 40) == PPSPP_DONE);
    p = packet_to(40);
    CHECK(take(g, &p) == PPSPP_DONE);
    put_range(&p, 3, 0, 0);
    CHECK(take(g, &p) == PPSPP_UNEXPECTED);
    p = packet_to(40);
    put_closing(&p);
    CHECK(take(g, &p) == PPSPP_UNEXPECTED);
    CHECK(guarded_write(g, 40, 0, 0) == PPSPP_UNEXPECTED);
    CHECK(guarded_write(g, 41, 0, 0) == PPSPP_UNEXPECTED);
    CHECK(guarded_begin(g, PEERS) == PPSPP_DONE);
    CHECK(guarded_add(g, 4, PPSPP_CHOKE, 0, 0, 0, ROOT, 0) == PPSPP_DONE);
    CHECK(guarded_add(g, 5, PPSPP_HANDSHAKE, OURS, PPSPP_OPTIONS_FIXED, 0, ROOT, 32) == PPSPP_UNEXPECTED);
}

/* 4: "option missing or other than above"; the root, version 2, another chunk size, and End alone. */
static void number_4(struct guarded *g)
{
    static const size_t places[] = {16, 47, 10, 12, 49, 51, 53, 58};
    for (size_t i = 0; i < sizeof places / sizeof places[0]; i++) {
        struct packet p = packet_to(0);
        put_handshake(&p, 17, ROOT);
        p.bytes[places[i]] ^= 0x40;
        CHECK(guarded_take(g, 0, 30, p.bytes, p.n) == PPSPP_OPTIONS_WRONG);
    }
    struct packet p = packet_to(0);
    put8(&p, 0);
    put32(&p, 17);
    put8(&p, 255);
    CHECK(guarded_take(g, 0, 30, p.bytes, p.n) == PPSPP_OPTIONS_WRONG);
}

/* 5: "datagram's destination matches no row (0 without HANDSHAKE too)". */
static void number_5(struct guarded *g)
{
    struct packet p = packet_to(0);
    CHECK(take(g, &p) == PPSPP_NO_CHANNEL);
    p = packet_to(OURS + 1);
    CHECK(take(g, &p) == PPSPP_NO_CHANNEL);
    put_closing(&p);
    CHECK(take(g, &p) == PPSPP_NO_CHANNEL);
    p = packet_to(PEERS);
    put_range(&p, 3, 0, 7);
    CHECK(take(g, &p) == PPSPP_NO_CHANNEL);
}

/* 7: "a range past N-1", INTEGRITY and DATA included, and the number of a chunk to be written. */
static void number_7(struct guarded *g)
{
    static const uint32_t types[] = {3, 8, 9};
    for (size_t i = 0; i < sizeof types / sizeof types[0]; i++) {
        struct packet p = ranged(types[i], 6, 6);
        CHECK(take(g, &p) == PPSPP_DONE);
        p = ranged(types[i], 7, 7);
        CHECK(take(g, &p) == PPSPP_RANGE);
        p = ranged(types[i], 0, 0xffffffffu);
        CHECK(take(g, &p) == PPSPP_RANGE);
    }
    struct packet p = packet_to(OURS);
    put_ack(&p, 6, 7, 0);
    CHECK(take(g, &p) == PPSPP_RANGE);
    p = packet_to(OURS);
    put_integrity(&p, 0, 7, ROOT);
    CHECK(take(g, &p) == PPSPP_RANGE);
    p = packet_to(OURS);
    put_data(&p, 7, 0, content(), 0);
    CHECK(take(g, &p) == PPSPP_RANGE);
    CHECK(guarded_write(g, OURS, 7, 0) == PPSPP_RANGE);
    CHECK(guarded_write(g, OURS, 0xffffffffu, 0) == PPSPP_RANGE);
}

/* 6: "all 16 rows in use", for opening and for a peer's HANDSHAKE; 14 stands before it. */
static void number_6(struct guarded *g)
{
    uint32_t id = 100;
    while (guarded_open(g, id) == PPSPP_DONE && id < 200) {
        id++;
    }
    for (uint32_t i = 0; i < PPSPP_CHANNELS; i++) {
        CHECK(ppspp_store_row(&g->store, i).phase != PPSPP_FREE);
    }
    CHECK(guarded_open(g, id) == PPSPP_CHANNELS_FULL);
    CHECK(open_from(g, id, 1, ROOT) == PPSPP_CHANNELS_FULL);
    CHECK(guarded_open(g, OURS) == PPSPP_ID);
}

void group_numbers_reading(void)
{
    struct guarded g;
    seven_fresh(&g);
    number_1(&g);
    number_2_taken(&g);
    number_2_options(&g);
    number_2_added(&g);
    number_2_ranges(&g);
    number_3(&g);
    number_4(&g);
    number_5(&g);
    number_7(&g);
    number_6(&g);
    guarded_end(&g);
}
