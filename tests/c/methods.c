/* The addressing of an order: its number, option 6, reading under it, and downloads under each. */
#include <string.h>

#include "check.h"
#include "groups.h"
#include "packs.h"

static const uint8_t *const ROOT = SEVEN_NODES[SEVEN_ROOT];
static const uint32_t METHODS[] = {PPSPP_BINS, PPSPP_RANGES};
static const uint32_t NO_METHODS[] = {1, 3, 4, 0x102u, 0x80000000u, 0xffffffffu};
#define NO_METHODS_N (sizeof NO_METHODS / sizeof NO_METHODS[0])

/* The 40 bytes that the library reads, the numbers with their low byte first; and 12 for any other addressing. */
void group_orders(void)
{
    struct guarded g;
    struct ppspp_order order = ppspp_order_of(ROOT, 0x01020304u, 0x05060708u);
    static const uint8_t numbers[] = {4, 3, 2, 1, 8, 7, 6, 5};
    uint8_t bytes[40];
    CHECK(sizeof order == 40);
    memcpy(bytes, &order, sizeof bytes);
    CHECK(memcmp(bytes, ROOT, 32) == 0 && memcmp(bytes + 32, numbers, sizeof numbers) == 0);
    order = ppspp_order_to_build(9, PPSPP_RANGES);
    CHECK(order.length == 9 && order.addressing == 2);

    seven_fresh_under(&g, PPSPP_BINS);
    for (size_t i = 0; i < NO_METHODS_N; i++) {
        order = ppspp_order_of(ROOT, SEVEN_LENGTH, NO_METHODS[i]);
        CHECK(guarded_start_under(&g, &order) == PPSPP_LENGTH);
        CHECK(guarded_build_under(&g, &order, content(), SEVEN_LENGTH) == PPSPP_LENGTH);
        guarded_shorten(&g, MAP);
        CHECK(guarded_start_under(&g, &order) == PPSPP_LENGTH);
        CHECK(guarded_build_under(&g, &order, content(), SEVEN_LENGTH) == PPSPP_LENGTH);
        guarded_lengthen(&g, MAP);
    }
    CHECK(ppspp_store_order(&g.store, &order) && memcmp(order.root, ROOT, 32) == 0);
    CHECK(order.length == SEVEN_LENGTH && order.addressing == PPSPP_BINS && g.store.state[10] == 0);
    CHECK(ppspp_store_addressing(&g.store) == PPSPP_BINS && held_of(&g) == 0);
    memset(order.root, 0xee, sizeof order.root);
    CHECK(guarded_build_under(&g, &order, content(), SEVEN_LENGTH) == PPSPP_DONE && held_of(&g) == 7);
    CHECK(ppspp_store_order(&g.store, &order) && memcmp(order.root, ROOT, 32) == 0);
    g.store.state[PPSPP_WORD_ADDRESSING] = 1;
    CHECK(!ppspp_store_order(&g.store, &order) && order.length == 0);
    guarded_end(&g);
}

/* Our HANDSHAKE has the order's number as option 6; a peer's with another is 4, a closing one with options 3. */
void group_option_6(void)
{
    static const uint32_t others[] = {0, 1, 2, 3, 255};
    for (size_t i = 0; i < 2; i++) {
        struct guarded g;
        seven_fresh_under(&g, METHODS[i]);
        struct packet p = packet_to(0);
        put_handshake_under(&p, METHODS[i], 40, ROOT);
        CHECK(guarded_open(&g, 40) == PPSPP_DONE && replied(&g, &p) && g.len == 60);
        CHECK(p.bytes[52] == 6 && p.bytes[53] == METHODS[i]);
        for (size_t j = 0; j < sizeof others / sizeof others[0]; j++) {
            const bool own = others[j] == METHODS[i];
            p = packet_to(OURS);
            put_handshake_under(&p, others[j], 0, ROOT);
            CHECK(take(&g, &p) == PPSPP_UNEXPECTED);
            p = packet_to(OURS);
            put_handshake_under(&p, others[j], PEERS, ROOT);
            CHECK(take(&g, &p) == (own ? PPSPP_DONE : PPSPP_OPTIONS_WRONG));
            p = packet_to(0);
            put_handshake_under(&p, others[j], 17, ROOT);
            CHECK(guarded_take(&g, 0, 50, p.bytes, p.n) == (own ? PPSPP_DONE : PPSPP_OPTIONS_WRONG));
        }
        p = packet_to(17);
        put_handshake_under(&p, METHODS[i], 50, ROOT);
        CHECK(ppspp_store_row_of(&g.store, 50) == 2 && memcmp(g.store.reply, p.bytes, p.n) == 0);
        p = packet_to(40);
        put_handshake_under(&p, 2 - METHODS[i], 18, ROOT);
        CHECK(take(&g, &p) == PPSPP_OPTIONS_WRONG);
        guarded_end(&g);
    }
}

/* What ppspp_read finds at a place by bins. */
static size_t check_found(const struct packet *p, size_t at, uint32_t type, uint32_t first, uint32_t last,
                          uint64_t number, size_t bytes, size_t bytes_n)
{
    uint64_t found[PPSPP_FOUND_WORDS] = {99, 99, 99, 99, 99, 99, 99};
    CHECK(ppspp_read(p->bytes, p->n, PPSPP_BINS, at, found) == PPSPP_STEP_MESSAGE);
    CHECK(found[PPSPP_FOUND_TYPE] == type);
    CHECK(found[PPSPP_FOUND_FIRST] == first && found[PPSPP_FOUND_LAST] == last);
    CHECK(found[PPSPP_FOUND_NUMBER] == number);
    CHECK(found[PPSPP_FOUND_BYTES_N] == bytes_n && (bytes_n == 0 || found[PPSPP_FOUND_BYTES] == bytes));
    return (size_t)found[PPSPP_FOUND_NEXT];
}

void group_read_bins(void)
{
    struct packet p = packet_to(OURS);
    put_bin(&p, 3, 11);
    put_bin(&p, 8, 0x7fffffffu);
    put_bin(&p, 9, 0xffffffffu);
    put_bin(&p, 3, 0xfffffffeu);
    put_bin_ack(&p, 6, 0xfedcba9876543210u);
    put_bin_integrity(&p, 9, SEVEN_NODES[9]);
    put8(&p, 10);
    put_bin_data(&p, 12, 7, content(), 100);
    size_t at = check_found(&p, 4, PPSPP_HAVE, 4, 7, 0, 0, 0);
    CHECK(at == 9);
    at = check_found(&p, at, PPSPP_REQUEST, 0, 2147483647u, 0, 0, 0);
    at = check_found(&p, at, PPSPP_EMPTY_CANCEL, 0, 0, 0, 0, 0);
    CHECK(at == 19);
    at = check_found(&p, at, PPSPP_HAVE, 2147483647u, 2147483647u, 0, 0, 0);
    at = check_found(&p, at, PPSPP_ACK, 3, 3, 0xfedcba9876543210u, 0, 0);
    CHECK(at == 37);
    at = check_found(&p, at, PPSPP_INTEGRITY, 4, 5, 0, 42, 32);
    at = check_found(&p, at, PPSPP_CHOKE, 0, 0, 0, 0, 0);
    CHECK(at == 75);
    at = check_found(&p, at, PPSPP_DATA, 6, 6, 7, 88, 100);
    CHECK(at == 188 && at == p.n);
    p = packet_to(OURS);
    put_handshake_under(&p, 0, PEERS, ROOT);
    CHECK(check_found(&p, 4, PPSPP_HANDSHAKE, PEERS, PPSPP_OPTIONS_FIXED, 0, 16, 32) == 60);
    p.bytes[53] = 2;
    CHECK(check_found(&p, 4, PPSPP_HANDSHAKE, PEERS, PPSPP_OPTIONS_OTHER, 0, 0, 0) == 60);
}

/* A number that is no addressing's is 12 at any place, and leaves `found`. */
void group_read_no_method(void)
{
    static const uint8_t bytes[] = {0, 0, 0, 9, 10, 7};
    static const uint64_t before[PPSPP_FOUND_WORDS] = {1, 2, 3, 4, 5, 6, 7};
    static const size_t places[] = {0, 4, 5, 6, 7, SIZE_MAX};
    uint64_t found[PPSPP_FOUND_WORDS];
    memcpy(found, before, sizeof found);
    for (size_t i = 0; i < NO_METHODS_N; i++) {
        for (size_t j = 0; j < sizeof places / sizeof places[0]; j++) {
            CHECK(ppspp_read(bytes, sizeof bytes, NO_METHODS[i], places[j], found) == PPSPP_STEP_NO_METHOD);
            CHECK(ppspp_read(bytes, 0, NO_METHODS[i], places[j], found) == PPSPP_STEP_NO_METHOD);
        }
    }
    CHECK(memcmp(found, before, sizeof found) == 0);
    struct guarded g;
    seven_fresh_under(&g, PPSPP_BINS);
    struct packet p = packet_to(OURS);
    put_bin(&p, 3, 11);
    CHECK(ppspp_store_read(&g.store, p.bytes, p.n, 4, found) == PPSPP_STEP_MESSAGE && found[PPSPP_FOUND_LAST] == 7);
    guarded_end(&g);
}

/* A chunk of seven, and what its ACK names as they come in this order: a subtree by bins, a run by ranges. */
struct coming {
    uint32_t chunk;
    uint32_t bin;
    uint32_t first;
    uint32_t last;
};

static const struct coming COMING[SEVEN_CHUNKS] = {{6, 12, 6, 6}, {0, 0, 0, 0}, {3, 6, 3, 3}, {5, 10, 5, 6},
                                                   {1, 1, 0, 1},  {4, 9, 3, 6}, {2, 3, 0, 6}};

/* Whether a van has answered a chunk, sent at 5 and taken at 0, by that ACK. */
static bool acknowledged(const struct guarded *van, uint32_t addressing, const struct coming *c)
{
    struct packet ack = packet_to(PEERS);
    if (addressing == PPSPP_BINS) {
        put_bin_ack(&ack, c->bin, 0xfffffffffffffffbu);
    } else {
        put_ack(&ack, c->first, c->last, 0xfffffffffffffffbu);
    }
    return replied(van, &ack) && van->len == (addressing == PPSPP_BINS ? 17u : 21u);
}

/* One pack, a van under each addressing, chunks in any order: both are whole, with the same bytes and hashes. */
void group_two_vans(void)
{
    struct guarded servers[2];
    struct guarded vans[2];
    for (size_t i = 0; i < 2; i++) {
        seven_built_under(&servers[i], METHODS[i]);
        seven_fresh_under(&vans[i], METHODS[i]);
    }
    for (size_t j = 0; j < SEVEN_CHUNKS; j++) {
        for (size_t i = 0; i < 2; i++) {
            const uint32_t chunk = COMING[j].chunk;
            const struct packet by_bins = seven_sent_by_bins(PEERS, chunk, 5);
            const struct packet by_ranges = seven_sent(PEERS, chunk, 5);
            struct packet p = METHODS[i] == PPSPP_BINS ? by_bins : by_ranges;
            CHECK(guarded_write(&servers[i], OURS, chunk, 5) == PPSPP_DONE && replied(&servers[i], &p));
            CHECK(chunk != 0 || p.n == (METHODS[i] == PPSPP_BINS ? 1226u : 1250u));
            p.bytes[3] = OURS;
            CHECK(take(&vans[1 - i], &p) != PPSPP_DONE);
            CHECK(take(&vans[i], &p) == PPSPP_DONE && acknowledged(&vans[i], METHODS[i], &COMING[j]));
        }
    }
    for (size_t i = 0; i < 2; i++) {
        CHECK(held_of(&vans[i]) == 7 && memcmp(vans[i].store.chunks, content(), SEVEN_LENGTH) == 0);
    }
    CHECK(memcmp(vans[0].store.hashes, vans[1].store.hashes, 4 * 8 * 13) == 0);
    CHECK(vans[0].store.trusted[0] == vans[1].store.trusted[0]);
    for (size_t i = 0; i < 2; i++) {
        guarded_end(&servers[i]);
        guarded_end(&vans[i]);
    }
}
