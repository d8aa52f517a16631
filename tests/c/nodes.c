/*
 * The node that a refusal names (02, No. 3): with 9 the first needed and missing one in 01's sending order, with 10 the
 * trusted one that was missed, the root if the peaks fail. By hand, under each addressing. That any other number names
 * none is checked with every call.
 */
#include "check.h"
#include "groups.h"
#include "packs.h"

/* A set of nodes. */
#define NODE(b) (1u << (b))
#define PEAKS (NODE(3) | NODE(9) | NODE(12))

/* What chunk 0 of seven goes out with: 0..3, 2..3, 4..5, 1, 6. */
#define WITH_0 (PEAKS | NODE(5) | NODE(2))

static const uint32_t METHODS[] = {PPSPP_BINS, PPSPP_RANGES};

/* 01: node b of height h, the number of ones at the low end of b, covers 2^h chunks from (b - 2^h + 1) / 2. */
void group_node_chunks(void)
{
    static const uint64_t tried[][3] = {
        {3, 0, 3},  {9, 4, 5},  {12, 6, 6},         {11, 4, 7},
        {7, 0, 7},  {0, 0, 0},  {511, 0, 511},      {1022, 511, 511},
        {0x7fffffffu, 0, 0x7fffffffu},              {0xffffffffu, 0, 0xffffffffu},
        {0x1fffffffeu, 0xffffffffu, 0xffffffffu},   {0x1fffffffdu, 0xfffffffeu, 0xffffffffu},
        {0x7fffffffffffffffu, 0, 0x7fffffffffffffffu},
        {0xfffffffffffffffeu, 0x7fffffffffffffffu, 0x7fffffffffffffffu},
    };
    for (size_t i = 0; i < sizeof tried / sizeof tried[0]; i++) {
        CHECK(ppspp_node_first(tried[i][0]) == tried[i][1] && ppspp_node_last(tried[i][0]) == tried[i][2]);
    }
    for (uint64_t node = 0; node < 5000; node++) {
        uint64_t covered = 1;
        while ((node & covered) != 0) {
            covered *= 2;
        }
        CHECK(ppspp_node_first(node) == (node - covered + 1) / 2);
        CHECK(ppspp_node_last(node) == ppspp_node_first(node) + covered - 1);
    }
    CHECK(PPSPP_NO_NODE == 0xffffffffffffffffu);
    CHECK(ppspp_node_first(PPSPP_NO_NODE) <= ppspp_node_last(PPSPP_NO_NODE));
}

/* A datagram with the hashes of nodes of the pack of seven, by rising number, some of them wrong, and a chunk of it. */
static struct packet carrying(const struct guarded *g, uint32_t nodes, uint32_t wrong, uint32_t chunk)
{
    const bool bins = ppspp_store_addressing(&g->store) == PPSPP_BINS;
    struct packet p = packet_to(OURS);
    for (uint32_t node = 0; node < 15; node++) {
        if ((nodes & NODE(node)) != 0) {
            (bins ? put_bin_node : put_node)(&p, node);
        }
        if ((nodes & wrong & NODE(node)) != 0) {
            p.bytes[p.n - 1] ^= 1;
        }
    }
    (bins ? put_bin_chunk : put_chunk)(&p, chunk, 0);
    return p;
}

/* With these hashes alone a chunk is refused with 9 and the node, also if the chunk and the hashes are wrong. */
static void missing(struct guarded *g, uint32_t nodes, uint32_t chunk, uint64_t node)
{
    struct packet p = carrying(g, nodes, 0, chunk);
    CHECK(take(g, &p) == PPSPP_HASH_MISSING && g->node == node);
    p = carrying(g, nodes, nodes, chunk);
    p.bytes[p.n - 1] ^= 1;
    CHECK(take(g, &p) == PPSPP_HASH_MISSING && g->node == node);
}

/* With these hashes, of which some are wrong, a chunk is refused with 10 and the node. */
static void missed(struct guarded *g, uint32_t nodes, uint32_t wrong, uint32_t chunk, uint64_t node)
{
    const struct packet p = carrying(g, nodes, wrong, chunk);
    CHECK(take(g, &p) == PPSPP_HASH_MISMATCH && g->node == node);
}

/* The same with a wrong chunk. */
static void chunk_missed(struct guarded *g, uint32_t nodes, uint32_t chunk, uint64_t node)
{
    struct packet p = carrying(g, nodes, 0, chunk);
    p.bytes[p.n - 1] ^= 1;
    CHECK(take(g, &p) == PPSPP_HASH_MISMATCH && g->node == node);
}

/* A chunk that is taken with these hashes. */
static void stored(struct guarded *g, uint32_t nodes, uint32_t chunk)
{
    const struct packet p = carrying(g, nodes, 0, chunk);
    CHECK(take(g, &p) == PPSPP_DONE && ppspp_store_holds(&g->store, chunk));
}

/* Each that chunk 0 needs left out alone, two of one height, and more. */
static void missing_of_0(struct guarded *g)
{
    static const uint32_t needed[] = {3, 9, 12, 2, 5};
    for (size_t i = 0; i < sizeof needed / sizeof needed[0]; i++) {
        missing(g, WITH_0 & ~NODE(needed[i]), 0, needed[i]);
    }
    missing(g, WITH_0 & ~(NODE(9) | NODE(5)), 0, 5);
    missing(g, WITH_0 & ~(NODE(2) | NODE(12)), 0, 2);
    missing(g, WITH_0 & ~(NODE(5) | NODE(2)), 0, 5);
    missing(g, WITH_0 & ~(NODE(9) | NODE(2)), 0, 9);
    missing(g, WITH_0 & ~(NODE(3) | NODE(5)), 0, 3);
    missing(g, 0, 0, 3);
    /* What is not needed: the leaf itself, a node above it, one elsewhere. */
    missing(g, NODE(0) | NODE(1) | NODE(4) | NODE(8), 0, 3);
}

void group_nodes_missing(void)
{
    for (size_t i = 0; i < 2; i++) {
        struct guarded g;
        seven_fresh_under(&g, METHODS[i]);
        missing_of_0(&g);
        /* Chunk 4 needs leaf 10, chunk 5, before the peak 12, and chunk 6, its own peak, the peaks alone. */
        missing(&g, NODE(3) | NODE(9), 4, 10);
        missing(&g, PEAKS, 5, 8);
        missing(&g, NODE(3) | NODE(12), 6, 9);
        missing(&g, NODE(3) | NODE(9), 6, 12);
        /* Behind chunk 0 the peaks, 1, 5 and 2 are trusted. */
        stored(&g, WITH_0, 0);
        missing(&g, 0, 2, 6);
        missing(&g, PEAKS | NODE(1), 3, 4);
        missing(&g, PEAKS, 4, 10);
        stored(&g, 0, 1);
        stored(&g, 0, 6);
        stored(&g, NODE(6), 2);
        stored(&g, 0, 3);
        missing(&g, 0, 5, 8);
        guarded_end(&g);
    }
}

void group_nodes_missed(void)
{
    for (size_t i = 0; i < 2; i++) {
        struct guarded g;
        seven_fresh_under(&g, METHODS[i]);
        /* Peaks that do not give the root: the root, whatever else is wrong. */
        missed(&g, WITH_0, NODE(3), 0, 7);
        missed(&g, WITH_0, NODE(9), 0, 7);
        missed(&g, WITH_0, NODE(12), 0, 7);
        missed(&g, WITH_0, WITH_0, 0, 7);
        missed(&g, PEAKS, NODE(12), 6, 7);
        /* Right peaks count as trusted: a wrong chunk or sibling misses its peak. */
        chunk_missed(&g, WITH_0, 0, 3);
        missed(&g, WITH_0, NODE(2), 0, 3);
        missed(&g, WITH_0, NODE(5), 0, 3);
        chunk_missed(&g, PEAKS | NODE(10), 4, 9);
        chunk_missed(&g, PEAKS, 6, 12);
        /* Behind chunk 0 the first trusted node is nearer: a leaf, a sibling, a peak; a repeated chunk has its own. */
        stored(&g, WITH_0, 0);
        chunk_missed(&g, 0, 1, 2);
        chunk_missed(&g, 0, 0, 0);
        chunk_missed(&g, WITH_0, 0, 0);
        chunk_missed(&g, NODE(6), 2, 5);
        missed(&g, NODE(6), NODE(6), 2, 5);
        missed(&g, NODE(10), NODE(10), 4, 9);
        missed(&g, PEAKS | NODE(10), PEAKS | NODE(10), 4, 9);
        chunk_missed(&g, 0, 6, 12);
        CHECK(held_of(&g) == 1);
        guarded_end(&g);
    }
}

/* A started store with a channel, under a root that no chunk leads to; of one chunk or two it is the only peak. */
static void started(struct guarded *g, uint32_t addressing, uint32_t length)
{
    static const uint8_t root[PPSPP_ROOT_BYTES] = {7};
    const struct ppspp_order order = ppspp_order_of(root, length, addressing);
    guarded_new(g, length);
    CHECK(guarded_start_under(g, &order) == PPSPP_DONE);
    CHECK(open_from(g, OURS, PEERS, root) == PPSPP_DONE);
}

void group_nodes_small(void)
{
    for (size_t i = 0; i < 2; i++) {
        struct guarded g;
        started(&g, METHODS[i], 1024);
        chunk_missed(&g, 0, 0, 0);
        chunk_missed(&g, NODE(0), 0, 0);
        guarded_end(&g);
        started(&g, METHODS[i], 2048);
        missing(&g, 0, 0, 2);
        missing(&g, 0, 1, 0);
        missing(&g, NODE(0) | NODE(1), 0, 2);
        missed(&g, NODE(2), 0, 0, 1);
        missed(&g, NODE(0), 0, 1, 1);
        guarded_end(&g);
    }
}
