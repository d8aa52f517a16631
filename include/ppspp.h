/*
 * Route packs by RFC 7574 (PPSPP), yard profile: the calls of the proved library libloader.a.
 *
 * A store is a pack under an order: a root hash, a length, and how messages name chunks. It lives in eight rooms that
 * you lend with every call: its state, and seven rooms more. Nothing is kept between calls but what stands in them, so
 * as many stores may exist as you have rooms. No call allocates, blocks, keeps a pointer, or uses a global; one store
 * is for one thread at a time, two stores are for any two.
 *
 *   1. Link libloader.a and compare the header with it once: ppspp_header_matches() of ppspp_store.h.
 *   2. Lend rooms of the sizes below. In ppspp_store.h, struct ppspp_store has them all, PPSPP_DEFINE_STORE() defines
 *      them, and ppspp_store_...() are the calls over it, with a handful of arguments each.
 *   3. ppspp_start() or ppspp_build(); then any calls in any order, with any numbers and bytes: examples/download.c.
 *
 * Each call on rooms answers with a number of enum ppspp_answer. With any other than PPSPP_DONE the reply has length 0,
 * and every room is as it was.
 *
 * What you own: all rooms, always. The library writes to them only during a call, and only to those that the call
 * takes without const.
 *
 * What you must never do:
 *   - let a pointer that a call writes through overlap any other pointer of that call: rooms, reply_len, node, held,
 *     whole, found, datagram, content, order, bytes. So a pack is not built in place, its content being the chunk room,
 *     and what stands in a store's own reply room is copied before the store takes it in;
 *   - give NULL, even with a length of 0: any valid address will do then;
 *   - give a length that is more than the room has, or an address that is not aligned for its type;
 *   - change a room between two calls on one store, but for the reply room, whose bytes are yours then. The library
 *     answers even so, and every room stays in its bounds; but the pack is no longer what the theorems speak of;
 *   - lend one store's rooms to two calls at a time.
 *
 * No room needs clearing before a start or a build. Before any other call on a store the state's first word must be
 * set: 0 will do.
 *
 * Two numbers are yours to choose:
 *   - a clock is any number, by the protocol in microseconds; it goes into an ACK's delay or DATA's timestamp alone.
 *   - an ID of a channel of ours is not 0 and not in use, or else is answered with 14. It is looked at only where a
 *     channel is opened. If it had no row before a take, ppspp_store_row_of() of ppspp_rooms.h tells afterwards whether
 *     it was used; one in use has a row in any case. IDs that are hard to guess keep strangers from naming them.
 *
 * The library is for Linux on x86-64, where size_t has 64 bits. It needs memcpy and memset of the C library, nothing
 * else, and leaves errno alone. A call touches under 8 KiB of stack (measured, tests/c/stack/). This header needs C99
 * or C++11, the other two C11 or C++11.
 */
#ifndef PPSPP_H
#define PPSPP_H

#include <stddef.h>
#include <stdint.h>

#ifdef __cplusplus
extern "C" {
#endif

/* ---- limits */

#define PPSPP_CHUNK_SIZE 1024u    /* bytes of a chunk; the last one has 1 to 1,024 */
#define PPSPP_MAX_LENGTH 524288u  /* bytes of a pack, at most */
#define PPSPP_MAX_CHUNKS 512u     /* chunks of a pack, at most */
#define PPSPP_CHANNELS 16u        /* rows of the channel table */
#define PPSPP_ROOT_BYTES 32u      /* bytes of a root hash */
#define PPSPP_MIN_DATAGRAM 4u     /* bytes of a datagram, at least */
#define PPSPP_MAX_DATAGRAM 2048u  /* bytes of a datagram, at most */

/* ---- sizes of the rooms, for a pack of n chunks */

/* The chunks of a pack of this length, and the leaf places of the least tree over n chunks, n from 1 to 512. */
#define PPSPP_CHUNK_COUNT(length) (((length) / PPSPP_CHUNK_SIZE) + ((length) % PPSPP_CHUNK_SIZE != 0u ? 1u : 0u))
#define PPSPP_LEAF_PLACES(n) \
    ((n) <= 1u ? 1u : (n) <= 2u ? 2u : (n) <= 4u ? 4u : (n) <= 8u ? 8u : (n) <= 16u ? 16u : (n) <= 32u ? 32u : \
     (n) <= 64u ? 64u : (n) <= 128u ? 128u : (n) <= 256u ? 256u : 512u)

#define PPSPP_STATE_WORDS 75u                                             /* uint32_t, the store's state */
#define PPSPP_MAP_WORDS(n) (((n) + 31u) / 32u)                            /* uint32_t, a bit for each chunk held */
#define PPSPP_HASH_WORDS(n) (16u * PPSPP_LEAF_PLACES(n))                  /* uint32_t, eight for each node */
#define PPSPP_TRUSTED_WORDS(n) ((2u * PPSPP_LEAF_PLACES(n) + 31u) / 32u)  /* uint32_t, a bit for each node */
#define PPSPP_PEER_WORDS(n) (PPSPP_CHANNELS * PPSPP_MAP_WORDS(n))         /* uint32_t, what peers have, or want */
#define PPSPP_REPLY_BYTES PPSPP_MAX_DATAGRAM                              /* uint8_t, the reply */

/*
 * The same, proved, for any number. The chunk room has at least as many bytes as the pack. It is also proved that a
 * start or a build under a length of 1 to 524,288, in rooms of at least these sizes, 75 words of state among them, is
 * not answered with 11. Larger rooms will do, and so will those for a pack do for a shorter one.
 */
uint32_t ppspp_chunk_count(uint32_t length);
size_t ppspp_map_words(uint32_t n);
size_t ppspp_hash_words(uint32_t n);
size_t ppspp_trusted_words(uint32_t n);
size_t ppspp_peer_words(uint32_t n);

/* ---- the order */

/* How messages name chunks: the number in the order, and in option 6 of a HANDSHAKE. */
enum ppspp_addressing {
    PPSPP_BINS = 0,  /* by one 32-bit bin, the number of the node over them */
    PPSPP_RANGES = 2 /* by the first and the last of them, 32 bits each */
};

/*
 * What a store works under. Later versions add fields: make it with ppspp_order_of() of ppspp_store.h, or with
 * designated initialisers, so that the fields you do not know are 0. The library reads it as 40 bytes.
 */
struct ppspp_order {
    uint8_t root[PPSPP_ROOT_BYTES];
    uint32_t length;     /* bytes of the pack */
    uint32_t addressing; /* of enum ppspp_addressing; any other number is answered with 12, and 0 is bins */
};

/* ---- the state's words, layout version 2 */

#define PPSPP_LAYOUT_VERSION 2u

/*
 *   word 0            the layout's version. A room with another version in it has no order: calls on it are answered
 *                     with 12, until it is started or built.
 *   words 1 to 8      the root, its bytes in groups of four, the first of them in the high bits
 *   word 9            the length
 *   word 10           the addressing; with any but 0 and 2 there is no order either
 *   words 11 to 74    16 rows of four: phase, our channel's ID, the peer's, and 1 where the peer has choked us, any
 *                     other number being read as 0
 *
 * A start or a build writes all of these words. Any other call writes at most the four words of one row, and those only
 * if the row is another one then; it leaves the rest, also words that no call writes.
 *
 * In every bit row, bit i is bit i % 32 of word i / 32, the low bit first. The rooms has and wants are 16 rows of
 * PPSPP_MAP_WORDS(n) words each, one for each row of the table.
 *
 * A node of the tree has the number first + last of its chunks, as their bin has: chunk i is node 2i. The hash of node
 * b stands in words 8b to 8b + 7 of the hash room, its bytes in groups of four, the first of them in the high bits; b
 * is trusted if bit b of the trusted bits is set, and else its words may be anything.
 */
#define PPSPP_WORD_VERSION 0u
#define PPSPP_WORD_ROOT 1u
#define PPSPP_WORD_LENGTH 9u
#define PPSPP_WORD_ADDRESSING 10u
#define PPSPP_WORD_ROWS 11u
#define PPSPP_ROW_WORDS 4u
#define PPSPP_ROW_PHASE 0u
#define PPSPP_ROW_ID 1u
#define PPSPP_ROW_PEER 2u
#define PPSPP_ROW_CHOKED 3u

enum ppspp_phase {
    PPSPP_FREE = 0,    /* the row is free; any number but 1 and 2 is read so */
    PPSPP_CALLING = 1, /* we have sent a HANDSHAKE and wait for the peer's */
    PPSPP_OPEN = 2     /* the channel is open */
};

uint32_t ppspp_layout_version(void);
size_t ppspp_state_words(void);

/* ---- the numbers given back */

/* The order in which they are looked for is 12, 11, 1, 2 and 3 message by message, 5, 3, 4, 14, 6, 7, 8, 9, 10, 13. */
enum ppspp_answer {
    PPSPP_DONE = 0,              /* done */
    PPSPP_SIZE = 1,              /* the datagram has under 4 or over 2,048 bytes */
    PPSPP_MALFORMED = 2,         /* a message is malformed (type, length, range, node, options), or added behind DATA */
    PPSPP_UNEXPECTED = 3,        /* the channel is not open, or a HANDSHAKE is not alone, not sound or not due */
    PPSPP_OPTIONS_WRONG = 4,     /* the HANDSHAKE has other options than the yard profile's, or another root */
    PPSPP_NO_CHANNEL = 5,        /* no channel of ours has the datagram's destination */
    PPSPP_CHANNELS_FULL = 6,     /* all 16 rows of the channel table are in use */
    PPSPP_RANGE = 7,             /* a range or a chunk's number runs past the last chunk */
    PPSPP_CHUNK_SIZE_WRONG = 8,  /* the chunk's size is not the one that its number has */
    PPSPP_HASH_MISSING = 9,      /* a hash that is needed to check the chunk did not come with it */
    PPSPP_HASH_MISMATCH = 10,    /* the peaks do not give the root, or the chunk does not lead to a trusted hash */
    PPSPP_ROOM = 11,             /* a room is too small */
    PPSPP_LENGTH = 12,           /* no order, its length 0, over 524,288 or not the content's, or no such addressing */
    PPSPP_NOT_HELD = 13,         /* the chunk to be written is not held */
    PPSPP_ID = 14                /* a channel is to be opened under ID 0 or one in use */
};

/* ---- the calls, on pointers and lengths */

/*
 * The rooms stand in one order in every call: state, chunks, map, hashes, trusted, has, wants, reply, each a pointer
 * and how many elements of its type it has. *reply_len gets the reply's length, 0 after a refusal.
 */

/* Starts an empty store under an order. What stood in the rooms before counts for nothing. */
uint32_t ppspp_start(uint32_t *state, size_t state_n, const uint8_t *chunks, size_t chunks_n, uint32_t *map,
                     size_t map_n, uint32_t *hashes, size_t hashes_n, uint32_t *trusted, size_t trusted_n,
                     uint32_t *has, size_t has_n, uint32_t *wants, size_t wants_n, const uint8_t *reply,
                     size_t reply_n, const struct ppspp_order *order);

/* Builds a whole store from its content. The order's root is not looked at; the one found is in words 1 to 8. */
uint32_t ppspp_build(uint32_t *state, size_t state_n, uint8_t *chunks, size_t chunks_n, uint32_t *map, size_t map_n,
                     uint32_t *hashes, size_t hashes_n, uint32_t *trusted, size_t trusted_n, uint32_t *has,
                     size_t has_n, uint32_t *wants, size_t wants_n, const uint8_t *reply, size_t reply_n,
                     const struct ppspp_order *order, const uint8_t *content, size_t content_n);

/* Opens a channel under an ID of ours: it calls until the peer answers. The reply is our HANDSHAKE, to channel 0. */
uint32_t ppspp_open(uint32_t *state, size_t state_n, const uint8_t *chunks, size_t chunks_n, const uint32_t *map,
                    size_t map_n, const uint32_t *hashes, size_t hashes_n, const uint32_t *trusted, size_t trusted_n,
                    uint32_t *has, size_t has_n, uint32_t *wants, size_t wants_n, uint8_t *reply, size_t reply_n,
                    uint32_t id, size_t *reply_len);

/*
 * Takes in a datagram at a clock; the ID is for a channel that the datagram may open. A chunk that is stored, or was
 * held and is the same, is answered by an ACK, a HANDSHAKE to channel 0 by ours; no other has a reply. The ACK names
 * the biggest complete interval that covers the chunk, once it is stored: under ranges the longest run of held chunks
 * around it, under bins the largest whole subtree inside the pack all of whose chunks are held.
 *
 * With 9 and 10 *node gets the number of a node, under either addressing: with 9 of the first that is needed and did
 * not come, by height falling, then by first chunk rising; with 10 of the trusted one that was missed (peaks that came
 * and give the root count as trusted), or of the root if the peaks do not give it. Else it gets PPSPP_NO_NODE.
 */
#define PPSPP_NO_NODE UINT64_MAX
uint32_t ppspp_take(uint32_t *state, size_t state_n, uint8_t *chunks, size_t chunks_n, uint32_t *map, size_t map_n,
                    uint32_t *hashes, size_t hashes_n, uint32_t *trusted, size_t trusted_n, uint32_t *has, size_t has_n,
                    uint32_t *wants, size_t wants_n, uint8_t *reply, size_t reply_n, uint64_t clock, uint32_t id,
                    const uint8_t *datagram, size_t datagram_n, size_t *reply_len, uint64_t *node);

/* Writes a chunk's datagram for an open channel: all hashes that a new peer needs, the clock as its timestamp. */
uint32_t ppspp_write(const uint32_t *state, size_t state_n, const uint8_t *chunks, size_t chunks_n, const uint32_t *map,
                     size_t map_n, const uint32_t *hashes, size_t hashes_n, const uint32_t *trusted,
                     size_t trusted_n, const uint32_t *has, size_t has_n, const uint32_t *wants, size_t wants_n,
                     uint8_t *reply, size_t reply_n, uint32_t id, uint32_t chunk, uint64_t clock, size_t *reply_len);

/* How many chunks are held, and 1 where that is all of them, else 0; after a refusal both are 0. */
uint32_t ppspp_ask(const uint32_t *state, size_t state_n, const uint32_t *map, size_t map_n, uint32_t *held,
                   uint32_t *whole);

/* ---- a datagram of any messages */

enum ppspp_type {
    PPSPP_HANDSHAKE = 0,
    PPSPP_DATA = 1,
    PPSPP_ACK = 2,
    PPSPP_HAVE = 3,
    PPSPP_INTEGRITY = 4,
    PPSPP_REQUEST = 8,
    PPSPP_CANCEL = 9,
    PPSPP_CHOKE = 10,
    PPSPP_UNCHOKE = 11,
    PPSPP_EMPTY_HAVE = 259, /* 256 and the type: over no chunk, bin FFFFFFFF */
    PPSPP_EMPTY_REQUEST = 264,
    PPSPP_EMPTY_CANCEL = 265
};

/*
 * A message in numbers: its type; first and last chunk; one more number; and bytes.
 *
 *   type                  first  last                number     bytes
 *   HANDSHAKE             source options (below)     0          a root, with fixed options
 *   DATA                  first  last: the same      timestamp  the chunk
 *   ACK                   first  last                delay      none
 *   HAVE, REQUEST, CANCEL first  last                0          none
 *   INTEGRITY             first  last                0          the hash
 *   CHOKE, UNCHOKE, EMPTY 0      0                   0          none
 *
 * The first chunk is not above the last, and for INTEGRITY they are those of a node; DATA has one chunk. Under bins all
 * are a node's, and its number, first + last, is their bin: bin 11 is read as 4..7, though the pack may end before 7.
 * Bin 7FFFFFFF, 0..2147483647, is everything, in HAVE, REQUEST and CANCEL alone. EMPTY is for bins alone. Any other
 * numbers are refused with 2 when they are added, unless 12, 11, 1 or 3 comes before it, and are never read.
 */
enum ppspp_options {
    PPSPP_OPTIONS_END = 0,   /* End alone, as a closing HANDSHAKE has */
    PPSPP_OPTIONS_FIXED = 1, /* those of the yard profile under the addressing, around a root */
    PPSPP_OPTIONS_OTHER = 2  /* others: they are read, and never written */
};

/* Begins a datagram in the reply room: its destination is the peer's channel. So far it is a keepalive, of 4 bytes. */
uint32_t ppspp_begin(uint8_t *reply, size_t reply_n, uint32_t destination, size_t *reply_len);

/*
 * Adds a message to the datagram in the first `len` bytes of the reply room, under an addressing; *reply_len gets its
 * new length, or 0 after a refusal, which leaves the datagram so far as it was. Of the bytes the first 32 count for a
 * root or a hash, and fewer are answered with 2; all count for a chunk. Numbers that the type has no use for are not
 * looked at. DATA comes last, a HANDSHAKE alone.
 */
uint32_t ppspp_add(uint8_t *reply, size_t reply_n, uint32_t addressing, size_t len, uint32_t type, uint32_t first,
                   uint32_t last, uint64_t number, const uint8_t *bytes, size_t bytes_n, size_t *reply_len);

/*
 * What stands at a place of a datagram, under an addressing; messages begin at place 4. It is read alone, as if one
 * began there, and nothing else is checked: all places are alike, 0 to 3 and those of a datagram under 4 bytes too.
 */
enum ppspp_step {
    PPSPP_STEP_END = 0,       /* its end: the place is at or past it */
    PPSPP_STEP_MESSAGE = 1,   /* a message */
    PPSPP_STEP_REFUSED = 2,   /* what is refused with 2 */
    PPSPP_STEP_NO_METHOD = 12 /* no such addressing */
};

/*
 * Of a message, `found` gets its type and numbers as in the table, and where its bytes and the next message stand.
 * Unless there is one, it stays as it was.
 */
#define PPSPP_FOUND_WORDS 7u
#define PPSPP_FOUND_TYPE 0u
#define PPSPP_FOUND_FIRST 1u
#define PPSPP_FOUND_LAST 2u
#define PPSPP_FOUND_NUMBER 3u
#define PPSPP_FOUND_BYTES 4u   /* the place of its first byte */
#define PPSPP_FOUND_BYTES_N 5u /* 0 where it has none */
#define PPSPP_FOUND_NEXT 6u    /* the place behind the message */
uint32_t ppspp_read(const uint8_t *datagram, size_t datagram_n, uint32_t addressing, size_t at,
                    uint64_t found[PPSPP_FOUND_WORDS]);

#ifdef __cplusplus
}
#endif

#endif
