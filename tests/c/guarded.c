#include "guarded.h"

#include <stdio.h>
#include <stdlib.h>
#include <string.h>

#include "check.h"

#define GUARD_BYTES 32u
#define UNSET 12345u

/* What a call may write to, as bits of enum room. */
#define ONLY(room) (1u << (room))
#define NOTHING 0u
#define ALL ((1u << ROOMS) - 1u)

/* What stands at a place of a new block. */
static uint8_t filling(size_t i)
{
    return (uint8_t)(0xa5u ^ (i * 151u) ^ (i >> 8));
}

static uint8_t *bytes_or_exit(size_t n)
{
    uint8_t *bytes = (uint8_t *)malloc(n);
    if (bytes == NULL) {
        fputs("out of memory\n", stderr);
        exit(2);
    }
    return bytes;
}

static uint32_t *words(struct guarded *g, enum room room)
{
    return (uint32_t *)(void *)(g->block + g->at[room]);
}

static void lend(struct guarded *g)
{
    const struct ppspp_store store = {
        words(g, STATE),           g->bytes[STATE] / 4,   g->block + g->at[CHUNKS], g->bytes[CHUNKS],
        words(g, MAP),             g->bytes[MAP] / 4,     words(g, HASHES),         g->bytes[HASHES] / 4,
        words(g, TRUSTED),         g->bytes[TRUSTED] / 4, words(g, HAS),            g->bytes[HAS] / 4,
        words(g, WANTS),           g->bytes[WANTS] / 4,   g->block + g->at[REPLY],  g->bytes[REPLY]};
    g->store = store;
}

void guarded_new(struct guarded *g, uint32_t length)
{
    const uint32_t n = PPSPP_CHUNK_COUNT(length);
    const size_t bytes[ROOMS] = {4 * PPSPP_STATE_WORDS,     length,
                                 4 * PPSPP_MAP_WORDS(n),    4 * PPSPP_HASH_WORDS(n),
                                 4 * PPSPP_TRUSTED_WORDS(n), 4 * PPSPP_PEER_WORDS(n),
                                 4 * PPSPP_PEER_WORDS(n),   PPSPP_REPLY_BYTES};
    size_t size = GUARD_BYTES;
    for (int room = 0; room < ROOMS; room++) {
        g->at[room] = size;
        g->bytes[room] = bytes[room];
        size = (size + bytes[room] + GUARD_BYTES + 7) / 8 * 8;
    }
    g->size = size;
    g->len = 0;
    g->node = UNSET;
    g->block = bytes_or_exit(size);
    g->before = bytes_or_exit(size);
    for (size_t i = 0; i < size; i++) {
        g->block[i] = filling(i);
    }
    lend(g);
}

void guarded_end(struct guarded *g)
{
    free(g->block);
    free(g->before);
}

static size_t element(enum room room)
{
    return room == CHUNKS || room == REPLY ? 1 : 4;
}

void guarded_shorten(struct guarded *g, enum room room)
{
    g->bytes[room] -= element(room);
    lend(g);
}

void guarded_lengthen(struct guarded *g, enum room room)
{
    g->bytes[room] += element(room);
    lend(g);
}

/* ---- what holds of every call */

static void keep(struct guarded *g)
{
    memcpy(g->before, g->block, g->size);
}

static bool same(const struct guarded *g, size_t from, size_t end)
{
    return memcmp(g->block + from, g->before + from, end - from) == 0;
}

static void check_guards(const struct guarded *g)
{
    size_t end = 0;
    for (int room = 0; room < ROOMS; room++) {
        CHECK(same(g, end, g->at[room]));
        end = g->at[room] + g->bytes[room];
    }
    CHECK(same(g, end, g->size));
}

static uint32_t settle(struct guarded *g, uint32_t answer, size_t len, unsigned writable)
{
    CHECK(answer <= PPSPP_ID);
    CHECK(len <= g->bytes[REPLY]);
    CHECK(answer == PPSPP_DONE || len == 0);
    if (answer != PPSPP_DONE) {
        writable = NOTHING;
    }
    for (int room = 0; room < ROOMS; room++) {
        const size_t from = g->at[room] + (room == REPLY && writable != NOTHING ? len : 0);
        if (room == REPLY || (writable & ONLY(room)) == 0) {
            CHECK(same(g, from, g->at[room] + g->bytes[room]));
        }
    }
    check_guards(g);
    g->len = len;
    return answer;
}

/* ---- the calls */

uint32_t guarded_start(struct guarded *g, const uint8_t *root, uint32_t length)
{
    const struct ppspp_order order = ppspp_order_of(root, length, PPSPP_RANGES);
    return guarded_start_under(g, &order);
}

uint32_t guarded_start_under(struct guarded *g, const struct ppspp_order *order)
{
    keep(g);
    const uint32_t answer = ppspp_store_start(&g->store, order);
    return settle(g, answer, 0, ALL & ~ONLY(CHUNKS) & ~ONLY(REPLY));
}

uint32_t guarded_build(struct guarded *g, uint32_t length, const uint8_t *content, size_t content_n)
{
    const struct ppspp_order order = ppspp_order_to_build(length, PPSPP_RANGES);
    return guarded_build_under(g, &order, content, content_n);
}

uint32_t guarded_build_under(struct guarded *g, const struct ppspp_order *order, const uint8_t *content,
                             size_t content_n)
{
    keep(g);
    const uint32_t answer = ppspp_store_build(&g->store, order, content, content_n);
    return settle(g, answer, 0, ALL & ~ONLY(REPLY));
}

uint32_t guarded_open(struct guarded *g, uint32_t id)
{
    size_t len = UNSET;
    keep(g);
    const uint32_t answer = ppspp_store_open(&g->store, id, &len);
    return settle(g, answer, len, ONLY(STATE) | ONLY(HAS) | ONLY(WANTS) | ONLY(REPLY));
}

uint32_t guarded_take(struct guarded *g, uint64_t clock, uint32_t id, const uint8_t *datagram, size_t datagram_n)
{
    size_t len = UNSET;
    g->node = UNSET;
    keep(g);
    const uint32_t answer = ppspp_store_take(&g->store, clock, id, datagram, datagram_n, &len, &g->node);
    const uint32_t places = PPSPP_LEAF_PLACES(ppspp_store_chunk_count(&g->store));
    const bool named = answer == PPSPP_HASH_MISSING || answer == PPSPP_HASH_MISMATCH;
    CHECK(named ? g->node < 2 * places - 1 : g->node == PPSPP_NO_NODE);
    return settle(g, answer, len, ALL);
}

uint32_t guarded_write(struct guarded *g, uint32_t id, uint32_t chunk, uint64_t clock)
{
    size_t len = UNSET;
    keep(g);
    const uint32_t answer = ppspp_store_write(&g->store, id, chunk, clock, &len);
    return settle(g, answer, len, ONLY(REPLY));
}

uint32_t guarded_close(struct guarded *g, uint32_t id)
{
    keep(g);
    const uint32_t answer = ppspp_store_close(&g->store, id);
    return settle(g, answer, 0, ONLY(STATE));
}

uint32_t guarded_ask(struct guarded *g, uint32_t *held, uint32_t *whole)
{
    *held = UNSET;
    *whole = UNSET;
    keep(g);
    const uint32_t answer = ppspp_store_ask(&g->store, held, whole);
    CHECK(answer == PPSPP_DONE || (*held == 0 && *whole == 0));
    return settle(g, answer, 0, NOTHING);
}

uint32_t guarded_begin(struct guarded *g, uint32_t destination)
{
    size_t len = UNSET;
    keep(g);
    const uint32_t answer = ppspp_store_begin(&g->store, destination, &len);
    return settle(g, answer, len, ONLY(REPLY));
}

uint32_t guarded_add(struct guarded *g, size_t len, uint32_t type, uint32_t first, uint32_t last, uint64_t number,
                     const uint8_t *bytes, size_t bytes_n)
{
    const uint32_t addressing = ppspp_store_addressing(&g->store);
    return guarded_add_under(g, addressing, len, type, first, last, number, bytes, bytes_n);
}

uint32_t guarded_add_under(struct guarded *g, uint32_t addressing, size_t len, uint32_t type, uint32_t first,
                           uint32_t last, uint64_t number, const uint8_t *bytes, size_t bytes_n)
{
    size_t longer = UNSET;
    keep(g);
    const uint32_t answer = ppspp_add(g->store.reply, g->store.reply_n, addressing, len, type, first, last, number,
                                      bytes, bytes_n, &longer);
    return settle(g, answer, longer, ONLY(REPLY));
}
