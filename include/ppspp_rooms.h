/*
 * The eight rooms of a store in one struct, and readers of what stands in them. The calls over it are in ppspp_store.h.
 * The readers answer for any row, chunk and node, and look at no element that a room has not.
 */
#ifndef PPSPP_ROOMS_H
#define PPSPP_ROOMS_H

#include <assert.h>
#include <stdbool.h>

#include "ppspp.h"

/* The rooms of a store, each a pointer and how many elements it has. */
struct ppspp_store {
    uint32_t *state;
    size_t state_n;
    uint8_t *chunks;
    size_t chunks_n;
    uint32_t *map;
    size_t map_n;
    uint32_t *hashes;
    size_t hashes_n;
    uint32_t *trusted;
    size_t trusted_n;
    uint32_t *has;
    size_t has_n;
    uint32_t *wants;
    size_t wants_n;
    uint8_t *reply;
    size_t reply_n;
};

/* An array and how many elements it has. */
#define PPSPP_ARRAY(array) (array), sizeof(array) / sizeof((array)[0])

/* Defines a store `name` and its static rooms, for packs of up to n chunks, n a constant. In a file or function. */
#define PPSPP_DEFINE_STORE(name, n)                                                       \
    static_assert((n) >= 1u && (n) <= PPSPP_MAX_CHUNKS, "a pack has 1 to 512 chunks");    \
    static uint32_t name##_state[PPSPP_STATE_WORDS];                                      \
    static uint8_t name##_chunks[PPSPP_CHUNK_SIZE * (n)];                                 \
    static uint32_t name##_map[PPSPP_MAP_WORDS(n)];                                       \
    static uint32_t name##_hashes[PPSPP_HASH_WORDS(n)];                                   \
    static uint32_t name##_trusted[PPSPP_TRUSTED_WORDS(n)];                               \
    static uint32_t name##_has[PPSPP_PEER_WORDS(n)];                                      \
    static uint32_t name##_wants[PPSPP_PEER_WORDS(n)];                                    \
    static uint8_t name##_reply[PPSPP_REPLY_BYTES];                                       \
    static const struct ppspp_store name = {                                              \
        PPSPP_ARRAY(name##_state),  PPSPP_ARRAY(name##_chunks),  PPSPP_ARRAY(name##_map), \
        PPSPP_ARRAY(name##_hashes), PPSPP_ARRAY(name##_trusted), PPSPP_ARRAY(name##_has), \
        PPSPP_ARRAY(name##_wants),  PPSPP_ARRAY(name##_reply)}

/* ---- the state: without an order all is 0 but the addressing, and every row is free */

/* Whether the state has an order: else calls are answered with 12, or with 11 where it is too short. */
static inline bool ppspp_store_has_order(const struct ppspp_store *store)
{
    if (store->state_n < PPSPP_STATE_WORDS || store->state[PPSPP_WORD_VERSION] != PPSPP_LAYOUT_VERSION) {
        return false;
    }
    const uint32_t length = store->state[PPSPP_WORD_LENGTH];
    const uint32_t addressing = store->state[PPSPP_WORD_ADDRESSING];
    return length >= 1u && length <= PPSPP_MAX_LENGTH && (addressing == PPSPP_BINS || addressing == PPSPP_RANGES);
}

/* The order's root as bytes; false, and 32 zeros, without an order. */
static inline bool ppspp_store_root(const struct ppspp_store *store, uint8_t root[PPSPP_ROOT_BYTES])
{
    const bool ordered = ppspp_store_has_order(store);
    for (size_t i = 0; i < PPSPP_ROOT_BYTES; i++) {
        const uint32_t word = ordered ? store->state[PPSPP_WORD_ROOT + i / 4u] : 0u;
        root[i] = (word >> (24u - 8u * (i % 4u))) & 0xffu;
    }
    return ordered;
}

/* The order's length. */
static inline uint32_t ppspp_store_length(const struct ppspp_store *store)
{
    return ppspp_store_has_order(store) ? store->state[PPSPP_WORD_LENGTH] : 0u;
}

/* The order's addressing; ranges without an order, since a datagram may be made in the reply room even then. */
static inline uint32_t ppspp_store_addressing(const struct ppspp_store *store)
{
    const uint32_t unordered = PPSPP_RANGES;
    return ppspp_store_has_order(store) ? store->state[PPSPP_WORD_ADDRESSING] : unordered;
}

/* The order, as another store may be started under it; false without one, and then its length is 0. */
static inline bool ppspp_store_order(const struct ppspp_store *store, struct ppspp_order *order)
{
    order->length = ppspp_store_length(store);
    order->addressing = ppspp_store_addressing(store);
    return ppspp_store_root(store, order->root);
}

/* How many chunks the order's pack has. */
static inline uint32_t ppspp_store_chunk_count(const struct ppspp_store *store)
{
    return PPSPP_CHUNK_COUNT(ppspp_store_length(store));
}

/* A row of the channel table. */
struct ppspp_row {
    enum ppspp_phase phase;
    uint32_t id;   /* our channel's ID */
    uint32_t peer; /* the peer's, where datagrams to it go; 0 while we call */
    bool choked;   /* whether the peer has choked us */
};

/* Row i of the channel table; a free one past its end. */
static inline struct ppspp_row ppspp_store_row(const struct ppspp_store *store, uint32_t i)
{
    struct ppspp_row row = {PPSPP_FREE, 0u, 0u, false};
    if (i < PPSPP_CHANNELS && ppspp_store_has_order(store)) {
        const uint32_t *words = store->state + PPSPP_WORD_ROWS + PPSPP_ROW_WORDS * i;
        const uint32_t phase = words[PPSPP_ROW_PHASE];
        row.phase = phase == PPSPP_OPEN ? PPSPP_OPEN : phase == PPSPP_CALLING ? PPSPP_CALLING : PPSPP_FREE;
        row.id = words[PPSPP_ROW_ID];
        row.peer = words[PPSPP_ROW_PEER];
        row.choked = words[PPSPP_ROW_CHOKED] == 1u;
    }
    return row;
}

/* The row that is in use under an ID of ours, or PPSPP_CHANNELS. */
static inline uint32_t ppspp_store_row_of(const struct ppspp_store *store, uint32_t id)
{
    uint32_t i = 0;
    while (i < PPSPP_CHANNELS) {
        const struct ppspp_row row = ppspp_store_row(store, i);
        if (row.phase != PPSPP_FREE && row.id == id) {
            break;
        }
        i++;
    }
    return i;
}

/* ---- nodes of the tree */

/*
 * The first chunk under the node of any number: adding 1 turns the ones at its low end, as many as the node's height,
 * to 0, and the 0 above them to 1. PPSPP_NO_NODE has no chunks, so what these two give of it means nothing.
 */
static inline uint64_t ppspp_node_first(uint64_t node)
{
    return (node & (node + 1u)) / 2u;
}

/* The last chunk under the node of any number. */
static inline uint64_t ppspp_node_last(uint64_t node)
{
    return (node | (node + 1u)) / 2u;
}

/* ---- the bit rows */

/* Bit i of a row of words; the row must have it. */
static inline bool ppspp_bit(const uint32_t *words, size_t i)
{
    return ((words[i / 32u] >> (i % 32u)) & 1u) != 0u;
}

/* Whether a chunk is held. */
static inline bool ppspp_store_holds(const struct ppspp_store *store, uint32_t chunk)
{
    return chunk < ppspp_store_chunk_count(store) && chunk / 32u < store->map_n && ppspp_bit(store->map, chunk);
}

/* A chunk's bit in a row's part of the room has or wants; 0 unless the row is open, so that it has a peer. */
static inline bool ppspp_store_peer_bit(const struct ppspp_store *store, const uint32_t *room, size_t room_n,
                                        uint32_t row, uint32_t chunk)
{
    const uint32_t count = ppspp_store_chunk_count(store);
    const size_t row_words = PPSPP_MAP_WORDS(count);
    if (chunk >= count || ppspp_store_row(store, row).phase != PPSPP_OPEN || room_n < row_words * (row + 1u)) {
        return false;
    }
    return ppspp_bit(room + row_words * row, chunk);
}

/* Whether the peer of a row has said that it has a chunk. */
static inline bool ppspp_store_peer_has(const struct ppspp_store *store, uint32_t row, uint32_t chunk)
{
    return ppspp_store_peer_bit(store, store->has, store->has_n, row, chunk);
}

/*
 * Whether the peer of a row has asked for a chunk, and not acknowledged or cancelled it since, by ACK, HAVE or CANCEL.
 * That we write the chunk changes nothing.
 */
static inline bool ppspp_store_peer_wants(const struct ppspp_store *store, uint32_t row, uint32_t chunk)
{
    return ppspp_store_peer_bit(store, store->wants, store->wants_n, row, chunk);
}

#endif
