/*
 * Messages by bins, taken in: 02, No. 1, for seven chunks. By hand: bin 2i is chunk i; 1, 5 and 9 are over 0..1, 2..3
 * and 4..5, 3 over 0..3, 11 over 4..7, 7 over 0..7 and 13 over 6..7; 14 is chunk 7, and 23 over 8..15.
 */
#include "check.h"
#include "groups.h"
#include "packs.h"

#define EMPTY 0xffffffffu
#define EVERYTHING 0x7fffffffu

static const uint32_t TYPES[] = {1, 2, 3, 4, 8, 9};
#define TYPES_N (sizeof TYPES / sizeof TYPES[0])

/* A bin, and the bits of the chunks of seven that it is over. */
struct over {
    uint32_t bin;
    uint32_t bits;
};

static const struct over OVER[] = {
    {0, 0x01},  {2, 0x02},  {12, 0x40}, {1, 0x03},  {9, 0x30},  {3, 0x0f},   {7, 0x7f},
    {11, 0x70}, {13, 0x40}, {15, 0x7f}, {511, 0x7f}, {0x3fffffffu, 0x7f}, {EVERYTHING, 0x7f},
    {EMPTY, 0}, {14, 0},    {19, 0},    {23, 0},    {0x80000000u, 0}, {0xfffffffdu, 0}, {0xfffffffeu, 0},
};

/* A datagram to our channel with one message, and what must stand behind its bin; DATA has no chunk byte. */
static struct packet one(uint32_t type, uint32_t bin)
{
    struct packet p = packet_to(OURS);
    put_bin(&p, type, bin);
    put_bytes(&p, content(), type == 4 ? 32 : type == 1 || type == 2 ? 8 : 0);
    return p;
}

static uint32_t take_one(struct guarded *g, uint32_t type, uint32_t bin)
{
    const struct packet p = one(type, bin);
    return take(g, &p);
}

/* Whether the peer has and wants chunks of these bits. */
static bool told(const struct guarded *g, uint32_t has, uint32_t wants)
{
    return g->store.has[0] == has && g->store.wants[0] == wants;
}

/* "A bin that runs past the last chunk means its part inside the pack; wholly past is 7." */
void group_bins(void)
{
    struct guarded g;
    seven_fresh_under(&g, PPSPP_BINS);
    for (size_t i = 0; i < sizeof OVER / sizeof OVER[0]; i++) {
        const uint32_t bin = OVER[i].bin;
        const uint32_t bits = OVER[i].bits;
        const uint32_t answer = bits != 0 || bin == EMPTY ? PPSPP_DONE : PPSPP_RANGE;
        const uint32_t acked = bin == EMPTY || bin == EVERYTHING ? (uint32_t)PPSPP_MALFORMED : answer;
        g.store.has[0] = 0;
        g.store.wants[0] = 0;
        CHECK(take_one(&g, 8, bin) == answer && told(&g, 0, bits));
        g.store.wants[0] = 0x7f;
        CHECK(take_one(&g, 9, bin) == answer && told(&g, 0, 0x7f & ~bits));
        g.store.wants[0] = 0x7f;
        CHECK(take_one(&g, 3, bin) == answer && told(&g, bits, 0x7f & ~bits));
        g.store.has[0] = 0;
        g.store.wants[0] = 0x7f;
        CHECK(take_one(&g, 2, bin) == acked);
        CHECK(acked == PPSPP_DONE ? told(&g, bits, 0x7f & ~bits) : told(&g, 0, 0x7f));
    }
    guarded_end(&g);
}

/* An empty message is one all the same: 3 on a calling row, 5 without a row, and 3 before a HANDSHAKE. */
static void check_elsewhere(struct guarded *g, uint32_t type, bool named)
{
    struct packet p = one(type, EMPTY);
    p.bytes[3] = 40;
    CHECK(take(g, &p) == (named ? PPSPP_UNEXPECTED : PPSPP_MALFORMED));
    p.bytes[3] = 41;
    CHECK(take(g, &p) == (named ? PPSPP_NO_CHANNEL : PPSPP_MALFORMED));
    p.bytes[3] = 0;
    CHECK(take(g, &p) == (named ? PPSPP_NO_CHANNEL : PPSPP_MALFORMED));
    p.bytes[3] = OURS;
    put_closing(&p);
    CHECK(take(g, &p) == (named ? PPSPP_UNEXPECTED : PPSPP_MALFORMED));
}

/*
 * "FFFFFFFF is empty and does nothing in HAVE, REQUEST and CANCEL; 7FFFFFFF is everything. Either in DATA, ACK or
 * INTEGRITY is 2."
 */
void group_special_bins(void)
{
    static const uint32_t has_after[TYPES_N] = {0x15, 0x15, 0x7f, 0x15, 0x15, 0x15};
    static const uint32_t wants_after[TYPES_N] = {0x2a, 0x2a, 0, 0x2a, 0x7f, 0};
    struct guarded g;
    seven_fresh_under(&g, PPSPP_BINS);
    CHECK(guarded_open(&g, 40) == PPSPP_DONE);
    for (size_t i = 0; i < TYPES_N; i++) {
        const bool named = TYPES[i] == 3 || TYPES[i] == 8 || TYPES[i] == 9;
        g.store.has[0] = 0x15;
        g.store.wants[0] = 0x2a;
        CHECK(take_one(&g, TYPES[i], EMPTY) == (named ? PPSPP_DONE : PPSPP_MALFORMED) && told(&g, 0x15, 0x2a));
        CHECK(take_one(&g, TYPES[i], EVERYTHING) == (named ? PPSPP_DONE : PPSPP_MALFORMED));
        CHECK(told(&g, has_after[i], wants_after[i]));
        check_elsewhere(&g, TYPES[i], named);
    }
    guarded_end(&g);
}

/* "So is any INTEGRITY that reaches past"; a node twice is 2, and 55 different ones fit. */
void group_bin_hashes(void)
{
    static const uint32_t past[] = {7, 11, 13, 14, 15, 23, 0x3fffffffu, 0xfffffffeu};
    struct guarded g;
    seven_fresh_under(&g, PPSPP_BINS);
    for (size_t i = 0; i < sizeof past / sizeof past[0]; i++) {
        CHECK(take_one(&g, 4, past[i]) == PPSPP_RANGE);
    }
    CHECK(take_one(&g, 4, 3) == PPSPP_DONE && take_one(&g, 4, 9) == PPSPP_DONE && take_one(&g, 4, 12) == PPSPP_DONE);
    struct packet p = one(4, 3);
    put_bin_node(&p, 9);
    CHECK(take(&g, &p) == PPSPP_DONE);
    put_bin_node(&p, 3);
    CHECK(take(&g, &p) == PPSPP_MALFORMED);
    guarded_end(&g);

    const struct ppspp_order order = ppspp_order_of(SEVEN_NODES[SEVEN_ROOT], 64 * 1024, PPSPP_BINS);
    guarded_new(&g, 64 * 1024);
    CHECK(guarded_start_under(&g, &order) == PPSPP_DONE);
    CHECK(open_from(&g, OURS, PEERS, SEVEN_NODES[SEVEN_ROOT]) == PPSPP_DONE);
    p = packet_to(OURS);
    for (uint32_t leaf = 0; leaf < 54; leaf++) {
        put_bin_integrity(&p, 2 * leaf, SEVEN_NODES[0]);
    }
    struct packet again = p;
    put_bin_integrity(&again, 0, SEVEN_NODES[0]);
    CHECK(take(&g, &again) == PPSPP_MALFORMED);
    put_bin_integrity(&p, 2 * 54, SEVEN_NODES[0]);
    CHECK(p.n == 2039 && take(&g, &p) == PPSPP_DONE);
    put_bin_integrity(&p, 2 * 55, SEVEN_NODES[0]);
    CHECK(p.n == 2076 && take(&g, &p) == PPSPP_SIZE);
    guarded_end(&g);
}

/* DATA over an odd bin is 2, past the pack 7; that of chunk 6, bin 12, is taken, and its ACK has 17 bytes. */
void group_bin_data(void)
{
    struct guarded g;
    seven_fresh_under(&g, PPSPP_BINS);
    CHECK(take_one(&g, 1, 1) == PPSPP_MALFORMED && take_one(&g, 1, 13) == PPSPP_MALFORMED);
    CHECK(take_one(&g, 1, 14) == PPSPP_RANGE && take_one(&g, 1, 0xfffffffeu) == PPSPP_RANGE);
    CHECK(take_one(&g, 1, 12) == PPSPP_CHUNK_SIZE_WRONG);
    struct packet p = packet_to(OURS);
    put_bin_chunk(&p, 6, 3);
    CHECK(take(&g, &p) == PPSPP_HASH_MISSING);
    p = seven_sent_by_bins(OURS, 6, 3);
    struct packet ack = packet_to(PEERS);
    put_bin_ack(&ack, 12, 7);
    CHECK(guarded_take(&g, 10, 0, p.bytes, p.n) == PPSPP_DONE && replied(&g, &ack) && g.len == 17);
    CHECK(held_of(&g) == 1 && ppspp_store_holds(&g.store, 6));
    p.bytes[p.n - 1] ^= 1;
    CHECK(take(&g, &p) == PPSPP_HASH_MISMATCH);
    guarded_end(&g);
}

/* Each message one byte short is 2; a range in a bin's place is bin and more. */
void group_bins_cut(void)
{
    struct guarded g;
    seven_fresh_under(&g, PPSPP_BINS);
    for (size_t i = 0; i < TYPES_N; i++) {
        struct packet p = one(TYPES[i], 0);
        CHECK(p.n == (TYPES[i] == 4 ? 41u : TYPES[i] < 3 ? 17u : 9u));
        CHECK(take(&g, &p) == (TYPES[i] == 1 ? PPSPP_CHUNK_SIZE_WRONG : PPSPP_DONE));
        while (p.n > 5) {
            p.n--;
            CHECK(take(&g, &p) == PPSPP_MALFORMED);
        }
    }
    struct packet p = packet_to(OURS);
    put_range(&p, 3, 0, 6);
    CHECK(take(&g, &p) == PPSPP_MALFORMED);
    guarded_end(&g);
}
