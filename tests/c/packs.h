/* Packs of known content, stores of them, and the pack of seven chunks whose hashes are known from elsewhere. */
#ifndef PACKS_H
#define PACKS_H

#include "guarded.h"
#include "hashes.h"
#include "packets.h"

/* The channel of a store that has one: our ID and the peer's. */
#define OURS 5u
#define PEERS 9u

/* 524,289 bytes, one more than the longest pack has; byte i is the high byte of i times 2654435761 modulo 2^32. */
const uint8_t *content(void);

/* How many bytes a chunk of the pack of seven has. */
size_t seven_size(uint32_t chunk);

/* A store under the order of the pack of seven, fresh or built; with a channel that is open, its peer PEERS. */
void seven_fresh(struct guarded *g);
void seven_fresh_under(struct guarded *g, uint32_t addressing);
void seven_built(struct guarded *g);
void seven_built_under(struct guarded *g, uint32_t addressing);

/* A peer's HANDSHAKE, with the store's addressing, that opens a channel under an ID; the number given back. */
uint32_t open_from(struct guarded *g, uint32_t id, uint32_t source, const uint8_t *root);

/* Takes a packet in at clock 0, with no ID for a channel to be opened. */
uint32_t take(struct guarded *g, const struct packet *p);

/* Whether the last call's reply is this datagram, byte for byte. */
bool replied(const struct guarded *g, const struct packet *p);

/* The INTEGRITY of a node of the pack of seven, and DATA of one of its chunks, by ranges and by bins. */
void put_node(struct packet *p, uint32_t node);
void put_chunk(struct packet *p, uint32_t chunk, uint64_t timestamp);
void put_bin_node(struct packet *p, uint32_t node);
void put_bin_chunk(struct packet *p, uint32_t chunk, uint64_t timestamp);

/* The hashes of 01's sending order for a chunk of the pack of seven, and its DATA. */
struct packet seven_sent(uint32_t destination, uint32_t chunk, uint64_t timestamp);
struct packet seven_sent_by_bins(uint32_t destination, uint32_t chunk, uint64_t timestamp);

/* How many chunks a store holds; that it is called whole exactly with all of them is checked. */
uint32_t held_of(struct guarded *g);

#endif
