#include "packs.h"

#include <string.h>

#include "check.h"

#define NO_NODE 99u

/* 01's sending order for N=7, by hand: peaks 3, 9, 12 and the siblings below the chunk's peak, highest first. */
static const uint32_t SENT[SEVEN_CHUNKS][5] = {
    {3, 5, 9, 2, 12}, {3, 5, 9, 0, 12},      {3, 1, 9, 6, 12},           {3, 1, 9, 4, 12},
    {3, 9, 10, 12, NO_NODE}, {3, 9, 8, 12, NO_NODE}, {3, 9, 12, NO_NODE, NO_NODE},
};

const uint8_t *content(void)
{
    static uint8_t bytes[PPSPP_MAX_LENGTH + 1u];
    static bool filled;
    if (!filled) {
        for (uint32_t i = 0; i < sizeof bytes; i++) {
            bytes[i] = (uint8_t)((i * 2654435761u) >> 24);
        }
        filled = true;
    }
    return bytes;
}

size_t seven_size(uint32_t chunk)
{
    return chunk == 6 ? 1018 : 1024;
}

uint32_t open_from(struct guarded *g, uint32_t id, uint32_t source, const uint8_t *root)
{
    struct packet p = packet_to(0);
    put_handshake_under(&p, ppspp_store_addressing(&g->store), source, root);
    return guarded_take(g, 0, id, p.bytes, p.n);
}

uint32_t take(struct guarded *g, const struct packet *p)
{
    return guarded_take(g, 0, 0, p->bytes, p->n);
}

bool replied(const struct guarded *g, const struct packet *p)
{
    return g->len == p->n && memcmp(g->store.reply, p->bytes, p->n) == 0;
}

void seven_fresh(struct guarded *g)
{
    seven_fresh_under(g, PPSPP_RANGES);
}

void seven_fresh_under(struct guarded *g, uint32_t addressing)
{
    const struct ppspp_order order = ppspp_order_of(SEVEN_NODES[SEVEN_ROOT], SEVEN_LENGTH, addressing);
    guarded_new(g, SEVEN_LENGTH);
    CHECK(guarded_start_under(g, &order) == PPSPP_DONE);
    CHECK(open_from(g, OURS, PEERS, SEVEN_NODES[SEVEN_ROOT]) == PPSPP_DONE);
}

void seven_built(struct guarded *g)
{
    seven_built_under(g, PPSPP_RANGES);
}

void seven_built_under(struct guarded *g, uint32_t addressing)
{
    const struct ppspp_order order = ppspp_order_to_build(SEVEN_LENGTH, addressing);
    guarded_new(g, SEVEN_LENGTH);
    CHECK(guarded_build_under(g, &order, content(), SEVEN_LENGTH) == PPSPP_DONE);
    CHECK(open_from(g, OURS, PEERS, SEVEN_NODES[SEVEN_ROOT]) == PPSPP_DONE);
}

void put_node(struct packet *p, uint32_t node)
{
    uint32_t covered = 1;
    while ((node & covered) != 0) {
        covered *= 2;
    }
    const uint32_t first = (node - covered + 1) / 2;
    put_integrity(p, first, first + covered - 1, SEVEN_NODES[node]);
}

void put_chunk(struct packet *p, uint32_t chunk, uint64_t timestamp)
{
    put_data(p, chunk, timestamp, content() + 1024 * chunk, seven_size(chunk));
}

void put_bin_node(struct packet *p, uint32_t node)
{
    put_bin_integrity(p, node, SEVEN_NODES[node]);
}

void put_bin_chunk(struct packet *p, uint32_t chunk, uint64_t timestamp)
{
    put_bin_data(p, 2 * chunk, timestamp, content() + 1024 * chunk, seven_size(chunk));
}

/* The hashes of a chunk, each put by a function. */
static struct packet hashes_of(uint32_t destination, uint32_t chunk, void (*put)(struct packet *p, uint32_t node))
{
    struct packet p = packet_to(destination);
    for (int i = 0; i < 5; i++) {
        if (SENT[chunk][i] != NO_NODE) {
            put(&p, SENT[chunk][i]);
        }
    }
    return p;
}

struct packet seven_sent(uint32_t destination, uint32_t chunk, uint64_t timestamp)
{
    struct packet p = hashes_of(destination, chunk, put_node);
    put_chunk(&p, chunk, timestamp);
    return p;
}

struct packet seven_sent_by_bins(uint32_t destination, uint32_t chunk, uint64_t timestamp)
{
    struct packet p = hashes_of(destination, chunk, put_bin_node);
    put_bin_chunk(&p, chunk, timestamp);
    return p;
}

uint32_t held_of(struct guarded *g)
{
    uint32_t held;
    uint32_t whole;
    CHECK(guarded_ask(g, &held, &whole) == PPSPP_DONE);
    CHECK(whole == (held == ppspp_store_chunk_count(&g->store) ? 1u : 0u));
    return held;
}
