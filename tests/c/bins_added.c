/* Messages by bins, added and read: a bin is first + last of its chunks, where these are a node's. */
#include <string.h>

#include "check.h"
#include "groups.h"
#include "packs.h"

#define HIGHEST 0x7fffffffu /* the highest chunk that a bin names */

static const uint32_t TYPES[] = {PPSPP_DATA, PPSPP_ACK, PPSPP_HAVE, PPSPP_INTEGRITY, PPSPP_REQUEST, PPSPP_CANCEL};
#define TYPES_N (sizeof TYPES / sizeof TYPES[0])

/* Adds a message behind the first `len` bytes, with three bytes of a chunk or a hash. */
static uint32_t add(struct guarded *g, size_t len, uint32_t type, uint32_t first, uint32_t last)
{
    return guarded_add(g, len, type, first, last, 0x0102u, content(), type == PPSPP_DATA ? 3 : 32);
}

/* The same message by hand, over a bin. */
static void put_one(struct packet *p, uint32_t type, uint32_t bin)
{
    put_bin(p, type, bin);
    if (type == PPSPP_DATA || type == PPSPP_ACK) {
        put64(p, 0x0102u);
    }
    put_bytes(p, content(), type == PPSPP_DATA ? 3 : type == PPSPP_INTEGRITY ? 32 : 0);
}

/* Each message over chunks that a bin names, and the datagram that it is then. */
static void check_named(struct guarded *g, uint32_t first, uint32_t last, uint32_t bin)
{
    for (size_t i = 0; i < TYPES_N; i++) {
        const uint32_t type = TYPES[i];
        const bool all = bin == 0x7fffffffu && (type == PPSPP_DATA || type == PPSPP_ACK || type == PPSPP_INTEGRITY);
        struct packet p = packet_to(PEERS);
        put_one(&p, type, bin);
        CHECK(guarded_begin(g, PEERS) == PPSPP_DONE);
        if (all || (type == PPSPP_DATA && first != last)) {
            CHECK(add(g, 4, type, first, last) == PPSPP_MALFORMED);
        } else {
            CHECK(add(g, 4, type, first, last) == PPSPP_DONE && replied(g, &p));
        }
    }
}

/* Chunks that no bin names: 2, but 1 where the lengthened datagram is too long, and 3 behind a HANDSHAKE. */
static void check_nameless(struct guarded *g, uint32_t first, uint32_t last)
{
    static const size_t sizes[TYPES_N] = {16, 13, 5, 37, 5, 5};
    for (size_t i = 0; i < TYPES_N; i++) {
        const uint32_t type = TYPES[i];
        CHECK(guarded_begin(g, PEERS) == PPSPP_DONE);
        CHECK(add(g, 4, type, first, last) == PPSPP_MALFORMED);
        CHECK(add(g, 4, PPSPP_HANDSHAKE, 0, PPSPP_OPTIONS_END) == PPSPP_DONE && g->len == 10);
        CHECK(add(g, 10, type, first, last) == PPSPP_UNEXPECTED);
        CHECK(guarded_begin(g, PEERS) == PPSPP_DONE && add(g, 4, PPSPP_DATA, 0, 0) == PPSPP_DONE && g->len == 20);
        CHECK(add(g, 20, type, first, last) == PPSPP_MALFORMED);
        CHECK(guarded_begin(g, PEERS) == PPSPP_DONE);
        memset(g->store.reply + 4, PPSPP_CHOKE, 2044);
        CHECK(add(g, 2048 - sizes[i], type, first, last) == PPSPP_MALFORMED);
        CHECK(add(g, 2049 - sizes[i], type, first, last) == PPSPP_SIZE);
        CHECK(add(g, 2048 - sizes[i], type, 6, 6) == PPSPP_DONE && g->len == 2048);
    }
}

void group_bins_added(void)
{
    struct guarded g;
    seven_fresh_under(&g, PPSPP_BINS);
    check_named(&g, 0, 0, 0);
    check_named(&g, 6, 6, 12);
    check_named(&g, 4, 7, 11);
    check_named(&g, 0, 511, 511);
    check_named(&g, HIGHEST, HIGHEST, 0xfffffffeu);
    check_named(&g, HIGHEST - 1, HIGHEST, 0xfffffffdu);
    check_named(&g, 0, HIGHEST / 2, 0x3fffffffu);
    check_named(&g, 0, HIGHEST, 0x7fffffffu);
    check_nameless(&g, 0, 2);
    check_nameless(&g, 1, 2);
    check_nameless(&g, 5, 3);
    check_nameless(&g, 2, 5);
    check_nameless(&g, 0, 0xffffffffu);
    check_nameless(&g, HIGHEST + 1, HIGHEST + 1);
    check_nameless(&g, HIGHEST + 1, 0xffffffffu);
    check_nameless(&g, 0xffffffffu, 0xffffffffu);
    guarded_end(&g);
}

/* The empty messages, which only bins can name: under ranges they cannot be written, which is found before 1 and 3. */
void group_empty_added(void)
{
    static const uint32_t types[] = {PPSPP_EMPTY_HAVE, PPSPP_EMPTY_REQUEST, PPSPP_EMPTY_CANCEL};
    struct guarded g;
    size_t len = 0;
    seven_fresh_under(&g, PPSPP_BINS);
    CHECK(ppspp_store_begin(&g.store, PEERS, &len) == PPSPP_DONE);
    struct packet p = packet_to(PEERS);
    for (size_t i = 0; i < 3; i++) {
        put_bin(&p, types[i] - 256, 0xffffffffu);
        CHECK(ppspp_store_add_empty(&g.store, &len, types[i]) == PPSPP_DONE && len == p.n);
        CHECK(memcmp(g.store.reply, p.bytes, p.n) == 0);
    }
    for (size_t i = 0; i < 3; i++) {
        CHECK(guarded_begin(&g, PEERS) == PPSPP_DONE);
        CHECK(guarded_add_under(&g, 2, 4, types[i], 0, 0, 0, content(), 0) == PPSPP_MALFORMED);
        CHECK(guarded_add(&g, 4, types[i], 7, 5, 9, content(), 9) == PPSPP_DONE && g.len == 9);
        CHECK(add(&g, 4, PPSPP_HANDSHAKE, 0, PPSPP_OPTIONS_END) == PPSPP_DONE);
        CHECK(add(&g, 10, types[i], 0, 0) == PPSPP_UNEXPECTED);
        CHECK(guarded_add_under(&g, 2, 10, types[i], 0, 0, 0, content(), 0) == PPSPP_MALFORMED);
        memset(g.store.reply + 4, PPSPP_CHOKE, 2044);
        CHECK(add(&g, 2048, types[i], 0, 0) == PPSPP_SIZE && add(&g, 2043, types[i], 0, 0) == PPSPP_DONE);
        memset(g.store.reply + 4, PPSPP_CHOKE, 2044);
        CHECK(guarded_add_under(&g, 2, 2048, types[i], 0, 0, 0, content(), 0) == PPSPP_MALFORMED);
    }
    for (uint32_t type = 256; type < 600; type++) {
        const bool empty = type == 259 || type == 264 || type == 265;
        CHECK(guarded_begin(&g, PEERS) == PPSPP_DONE);
        CHECK(add(&g, 4, type, 0, 0) == (empty ? PPSPP_DONE : PPSPP_MALFORMED));
    }
    guarded_end(&g);
}

/* 12 for a number that is no addressing's, before 11; then the datagram so far, which is read under the addressing. */
void group_add_order(void)
{
    static const uint32_t methods[] = {1, 3, 4, 0x102u, 0xffffffffu};
    struct guarded g;
    seven_fresh(&g);
    for (size_t i = 0; i < sizeof methods / sizeof methods[0]; i++) {
        CHECK(guarded_begin(&g, PEERS) == PPSPP_DONE);
        CHECK(guarded_add_under(&g, methods[i], 4, PPSPP_CHOKE, 0, 0, 0, content(), 0) == PPSPP_LENGTH);
        CHECK(guarded_add_under(&g, methods[i], 3, PPSPP_CHOKE, 0, 0, 0, content(), 0) == PPSPP_LENGTH);
        guarded_shorten(&g, REPLY);
        CHECK(guarded_add_under(&g, methods[i], 3, PPSPP_CHOKE, 0, 0, 0, content(), 0) == PPSPP_LENGTH);
        CHECK(guarded_add_under(&g, 0, 3, PPSPP_HAVE, 0, 2, 0, content(), 0) == PPSPP_ROOM);
        guarded_lengthen(&g, REPLY);
        CHECK(guarded_add_under(&g, 0, 3, PPSPP_HAVE, 0, 2, 0, content(), 0) == PPSPP_SIZE);
        CHECK(guarded_add_under(&g, 0, 2049, PPSPP_HAVE, 0, 2, 0, content(), 0) == PPSPP_SIZE);
    }
    struct packet p = packet_to(PEERS);
    put_range(&p, 3, 0, 1);
    memcpy(g.store.reply, p.bytes, p.n);
    CHECK(guarded_add_under(&g, 0, p.n, PPSPP_CHOKE, 0, 0, 0, content(), 0) == PPSPP_MALFORMED);
    CHECK(guarded_add_under(&g, 2, p.n, PPSPP_CHOKE, 0, 0, 0, content(), 0) == PPSPP_DONE);
    p = packet_to(PEERS);
    put_bin(&p, 3, 3);
    memcpy(g.store.reply, p.bytes, p.n);
    CHECK(guarded_add_under(&g, 2, p.n, PPSPP_CHOKE, 0, 0, 0, content(), 0) == PPSPP_MALFORMED);
    CHECK(guarded_add_under(&g, 0, p.n, PPSPP_CHOKE, 0, 0, 0, content(), 0) == PPSPP_DONE);
    guarded_end(&g);
}
