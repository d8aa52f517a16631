/*
 * A store in rooms of exactly the sizes that the header names, in one block with guard bytes before, between and behind
 * them. Each call here is one of the header's, and checks of it what holds of every call: the number is one of 01's; a
 * refusal gives the length 0 and leaves every byte; a room that the call takes as const, what stands behind the reply,
 * and every guard stay; taking names a node, one of the order's tree, with 9 and 10, and with no other number.
 */
#ifndef GUARDED_H
#define GUARDED_H

#include "ppspp_store.h"

enum room { STATE, CHUNKS, MAP, HASHES, TRUSTED, HAS, WANTS, REPLY, ROOMS };

struct guarded {
    struct ppspp_store store;
    uint8_t *block;      /* guards and rooms */
    uint8_t *before;     /* the block as it was before the last call */
    size_t size;         /* bytes of the block */
    size_t at[ROOMS];    /* where each room begins */
    size_t bytes[ROOMS]; /* how many bytes it has */
    size_t len;          /* the length that the last call gave */
    uint64_t node;       /* the node that the last take gave */
};

/* Rooms for a length of 1 to 524,288, with anything in them; the chunk room has exactly that length. */
void guarded_new(struct guarded *g, uint32_t length);
void guarded_end(struct guarded *g);

/* Takes the last element from a room, or gives it back. */
void guarded_shorten(struct guarded *g, enum room room);
void guarded_lengthen(struct guarded *g, enum room room);

/* Under ranges, or under an order. */
uint32_t guarded_start(struct guarded *g, const uint8_t *root, uint32_t length);
uint32_t guarded_start_under(struct guarded *g, const struct ppspp_order *order);
uint32_t guarded_build(struct guarded *g, uint32_t length, const uint8_t *content, size_t content_n);
uint32_t guarded_build_under(struct guarded *g, const struct ppspp_order *order, const uint8_t *content,
                             size_t content_n);
uint32_t guarded_open(struct guarded *g, uint32_t id);
uint32_t guarded_take(struct guarded *g, uint64_t clock, uint32_t id, const uint8_t *datagram, size_t datagram_n);
uint32_t guarded_write(struct guarded *g, uint32_t id, uint32_t chunk, uint64_t clock);
uint32_t guarded_close(struct guarded *g, uint32_t id);
uint32_t guarded_ask(struct guarded *g, uint32_t *held, uint32_t *whole);
uint32_t guarded_begin(struct guarded *g, uint32_t destination);

/* Under the store's addressing, or under another number. */
uint32_t guarded_add(struct guarded *g, size_t len, uint32_t type, uint32_t first, uint32_t last, uint64_t number,
                     const uint8_t *bytes, size_t bytes_n);
uint32_t guarded_add_under(struct guarded *g, uint32_t addressing, size_t len, uint32_t type, uint32_t first,
                           uint32_t last, uint64_t number, const uint8_t *bytes, size_t bytes_n);

#endif
