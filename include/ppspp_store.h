/*
 * The calls of ppspp.h over the rooms of one struct, and a call for each message. All of it is inline over ppspp.h:
 * what you read here is what runs. What you own, and what you must never do, is written there.
 *
 *     PPSPP_DEFINE_STORE(pack, 512);
 *     ...
 *     answer = ppspp_store_take(&pack, clock, id, datagram, datagram_n, &len, &node);
 *     if (len > 0) { send the first len bytes of pack.reply }
 *     if (node != PPSPP_NO_NODE) { log it with the answer: chunks ppspp_node_first(node) to ppspp_node_last(node) }
 *
 * Each call answers with a number of enum ppspp_answer, and ppspp_answer_text() has its sentence.
 */
#ifndef PPSPP_STORE_H
#define PPSPP_STORE_H

#include "ppspp_rooms.h"

/* ---- the library */

/* Whether the linked library has the layout that these headers were written for. Ask once, before all else. */
static inline bool ppspp_header_matches(void)
{
    return ppspp_layout_version() == PPSPP_LAYOUT_VERSION && ppspp_state_words() == PPSPP_STATE_WORDS;
}

/* The sentence of a number given back, for a log. */
static inline const char *ppspp_answer_text(uint32_t answer)
{
    static const char *const texts[] = {
        "done",
        "the datagram has under 4 or over 2,048 bytes",
        "a message is malformed (type, length, range, node, options), or added behind DATA",
        "the channel is not open, or a HANDSHAKE is not alone, not sound or not due",
        "the HANDSHAKE has other options than the yard profile's, or another root",
        "no channel of ours has the datagram's destination",
        "all 16 rows of the channel table are in use",
        "a range or a chunk's number runs past the last chunk",
        "the chunk's size is not the one that its number has",
        "a hash that is needed to check the chunk did not come with it",
        "the peaks do not give the root, or the chunk does not lead to a trusted hash",
        "a room is too small",
        "no order, its length 0, over 524,288 or not the content's, or no such addressing",
        "the chunk to be written is not held",
        "a channel is to be opened under ID 0 or one in use",
    };
    return answer < sizeof(texts) / sizeof(texts[0]) ? texts[answer] : "no number of the library";
}

/* ---- orders */

static_assert(sizeof(struct ppspp_order) == 40u && offsetof(struct ppspp_order, length) == 32u &&
                  offsetof(struct ppspp_order, addressing) == 36u,
              "the library reads an order as a root and two numbers, 40 bytes");

/* An order to start under; the addressing is one of enum ppspp_addressing. */
static inline struct ppspp_order ppspp_order_of(const uint8_t root[PPSPP_ROOT_BYTES], uint32_t length,
                                                uint32_t addressing)
{
    struct ppspp_order order;
    for (size_t i = 0; i < PPSPP_ROOT_BYTES; i++) {
        order.root[i] = root[i];
    }
    order.length = length;
    order.addressing = addressing;
    return order;
}

/* An order to build under: building finds the root. */
static inline struct ppspp_order ppspp_order_to_build(uint32_t length, uint32_t addressing)
{
    static const uint8_t unknown[PPSPP_ROOT_BYTES] = {0};
    return ppspp_order_of(unknown, length, addressing);
}

/* ---- the calls; *len gets the length of the reply, which stands in the reply room */

/* The rooms as the calls of ppspp.h take them. */
#define PPSPP_ROOMS(store)                                                                                       \
    (store)->state, (store)->state_n, (store)->chunks, (store)->chunks_n, (store)->map, (store)->map_n,          \
        (store)->hashes, (store)->hashes_n, (store)->trusted, (store)->trusted_n, (store)->has, (store)->has_n,  \
        (store)->wants, (store)->wants_n, (store)->reply, (store)->reply_n

/* Starts an empty store under an order. */
static inline uint32_t ppspp_store_start(const struct ppspp_store *store, const struct ppspp_order *order)
{
    return ppspp_start(PPSPP_ROOMS(store), order);
}

/* Builds a whole store from its content. The order's root is not looked at: ppspp_store_order() has the one found. */
static inline uint32_t ppspp_store_build(const struct ppspp_store *store, const struct ppspp_order *order,
                                         const uint8_t *content, size_t content_n)
{
    return ppspp_build(PPSPP_ROOMS(store), order, content, content_n);
}

/* Opens a channel under an ID of ours; the reply is our HANDSHAKE. */
static inline uint32_t ppspp_store_open(const struct ppspp_store *store, uint32_t id, size_t *len)
{
    return ppspp_open(PPSPP_ROOMS(store), id, len);
}

/*
 * Takes in a datagram at a clock; the ID is for a channel that it may open. The reply to a chunk is an ACK of the
 * longest range of held chunks around it, or of the largest bin around it inside the pack whose chunks are all held.
 * *node gets the node whose hash is missing with 9, the trusted one that was missed with 10, else PPSPP_NO_NODE.
 */
static inline uint32_t ppspp_store_take(const struct ppspp_store *store, uint64_t clock, uint32_t id,
                                        const uint8_t *datagram, size_t datagram_n, size_t *len, uint64_t *node)
{
    return ppspp_take(PPSPP_ROOMS(store), clock, id, datagram, datagram_n, len, node);
}

/* Writes the datagram of one chunk, with its hashes, for the channel that is open under an ID of ours. */
static inline uint32_t ppspp_store_write(const struct ppspp_store *store, uint32_t id, uint32_t chunk, uint64_t clock,
                                         size_t *len)
{
    return ppspp_write(PPSPP_ROOMS(store), id, chunk, clock, len);
}

/* How many chunks are held, and 1 where that is all of them. */
static inline uint32_t ppspp_store_ask(const struct ppspp_store *store, uint32_t *held, uint32_t *whole)
{
    return ppspp_ask(store->state, store->state_n, store->map, store->map_n, held, whole);
}

/*
 * Frees the row of an ID of ours, open or calling; an ID without a row is PPSPP_NO_CHANNEL. The peer is not told: if it
 * is to know, send it a closing HANDSHAKE first. What is taken in here, in this order, is a keepalive, which finds out
 * whether there is a row; for a calling row a HANDSHAKE under the order, as its peer would send it, which opens it; and
 * a closing HANDSHAKE. None has a reply or names a node, and the reply room stays as it was. The datagrams are made on
 * the stack.
 */
static inline uint32_t ppspp_store_close(const struct ppspp_store *store, uint32_t id)
{
    const struct ppspp_row row = ppspp_store_row(store, ppspp_store_row_of(store, id));
    const uint32_t addressing = ppspp_store_addressing(store);
    uint8_t datagram[PPSPP_MAX_DATAGRAM];
    uint8_t root[PPSPP_ROOT_BYTES];
    size_t begun = 0;
    size_t len = 0;
    uint64_t node = PPSPP_NO_NODE;
    ppspp_store_root(store, root);
    ppspp_begin(datagram, sizeof datagram, id, &begun);
    uint32_t answer = ppspp_store_take(store, 0, 0, datagram, begun, &len, &node);
    if (answer == PPSPP_DONE && row.phase == PPSPP_CALLING) {
        ppspp_add(datagram, sizeof datagram, addressing, begun, PPSPP_HANDSHAKE, 1, PPSPP_OPTIONS_FIXED, 0, root,
                  sizeof root, &len);
        answer = ppspp_store_take(store, 0, 0, datagram, len, &len, &node);
    }
    if (answer == PPSPP_DONE) {
        ppspp_add(datagram, sizeof datagram, addressing, begun, PPSPP_HANDSHAKE, 0, PPSPP_OPTIONS_END, 0, root, 0,
                  &len);
        answer = ppspp_store_take(store, 0, 0, datagram, len, &len, &node);
    }
    return answer;
}

/* ---- a datagram of any messages, in the reply room, under the store's addressing: begin it, then add */

/* Begins a datagram to the peer's channel. */
static inline uint32_t ppspp_store_begin(const struct ppspp_store *store, uint32_t destination, size_t *len)
{
    return ppspp_begin(store->reply, store->reply_n, destination, len);
}

/* Adds a message; *len is the length so far and gets the new one. A refusal leaves it: what is there can go out. */
static inline uint32_t ppspp_store_add(const struct ppspp_store *store, size_t *len, uint32_t type, uint32_t first,
                                       uint32_t last, uint64_t number, const uint8_t *bytes, size_t bytes_n)
{
    size_t longer = 0;
    const uint32_t answer = ppspp_add(store->reply, store->reply_n, ppspp_store_addressing(store), *len, type, first,
                                      last, number, bytes, bytes_n, &longer);
    if (answer == PPSPP_DONE) {
        *len = longer;
    }
    return answer;
}

/* A message without bytes. */
static inline uint32_t ppspp_store_add_plain(const struct ppspp_store *store, size_t *len, uint32_t type,
                                             uint32_t first, uint32_t last, uint64_t number)
{
    const uint8_t none = 0;
    return ppspp_store_add(store, len, type, first, last, number, &none, 0);
}

/* We have these chunks. */
static inline uint32_t ppspp_store_add_have(const struct ppspp_store *store, size_t *len, uint32_t first, uint32_t last)
{
    return ppspp_store_add_plain(store, len, PPSPP_HAVE, first, last, 0);
}

/* We ask for these chunks. */
static inline uint32_t ppspp_store_add_request(const struct ppspp_store *store, size_t *len, uint32_t first,
                                               uint32_t last)
{
    return ppspp_store_add_plain(store, len, PPSPP_REQUEST, first, last, 0);
}

/* We no longer ask for these chunks. */
static inline uint32_t ppspp_store_add_cancel(const struct ppspp_store *store, size_t *len, uint32_t first,
                                              uint32_t last)
{
    return ppspp_store_add_plain(store, len, PPSPP_CANCEL, first, last, 0);
}

/* A HAVE, REQUEST or CANCEL over no chunk, by its type PPSPP_EMPTY_HAVE, .._REQUEST or .._CANCEL; under bins alone. */
static inline uint32_t ppspp_store_add_empty(const struct ppspp_store *store, size_t *len, uint32_t type)
{
    return ppspp_store_add_plain(store, len, type, 0, 0, 0);
}

/* We got these chunks, after this delay. Taking a chunk in writes one by itself. */
static inline uint32_t ppspp_store_add_ack(const struct ppspp_store *store, size_t *len, uint32_t first, uint32_t last,
                                           uint64_t delay)
{
    return ppspp_store_add_plain(store, len, PPSPP_ACK, first, last, delay);
}

/* The hash of the node over these chunks. */
static inline uint32_t ppspp_store_add_integrity(const struct ppspp_store *store, size_t *len, uint32_t first,
                                                 uint32_t last, const uint8_t hash[PPSPP_ROOT_BYTES])
{
    return ppspp_store_add(store, len, PPSPP_INTEGRITY, first, last, 0, hash, PPSPP_ROOT_BYTES);
}

/* A chunk's bytes. Nothing can be added behind it. ppspp_store_write() writes it with its hashes. */
static inline uint32_t ppspp_store_add_data(const struct ppspp_store *store, size_t *len, uint32_t chunk,
                                            uint64_t timestamp, const uint8_t *bytes, size_t bytes_n)
{
    return ppspp_store_add(store, len, PPSPP_DATA, chunk, chunk, timestamp, bytes, bytes_n);
}

/* The peer is to ask for nothing. */
static inline uint32_t ppspp_store_add_choke(const struct ppspp_store *store, size_t *len)
{
    return ppspp_store_add_plain(store, len, PPSPP_CHOKE, 0, 0, 0);
}

/* The peer may ask again. */
static inline uint32_t ppspp_store_add_unchoke(const struct ppspp_store *store, size_t *len)
{
    return ppspp_store_add_plain(store, len, PPSPP_UNCHOKE, 0, 0, 0);
}

/* A HANDSHAKE from our channel `source` under a root. Opening a channel writes one by itself. */
static inline uint32_t ppspp_store_add_handshake(const struct ppspp_store *store, size_t *len, uint32_t source,
                                                 const uint8_t root[PPSPP_ROOT_BYTES])
{
    return ppspp_store_add(store, len, PPSPP_HANDSHAKE, source, PPSPP_OPTIONS_FIXED, 0, root, PPSPP_ROOT_BYTES);
}

/* A closing HANDSHAKE: it frees the peer's row of the channel. ppspp_store_close() frees ours. */
static inline uint32_t ppspp_store_add_close(const struct ppspp_store *store, size_t *len)
{
    return ppspp_store_add_plain(store, len, PPSPP_HANDSHAKE, 0, PPSPP_OPTIONS_END, 0);
}

/* ---- a datagram that came */

/* What stands at a place of it, a number of enum ppspp_step, read under the store's addressing. */
static inline uint32_t ppspp_store_read(const struct ppspp_store *store, const uint8_t *datagram, size_t datagram_n,
                                        size_t at, uint64_t found[PPSPP_FOUND_WORDS])
{
    return ppspp_read(datagram, datagram_n, ppspp_store_addressing(store), at, found);
}

#endif
