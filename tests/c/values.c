/* 01's tried values and its errors that someone is expected to make, as far as the calls show them. */
#include <string.h>

#include "check.h"
#include "groups.h"
#include "packs.h"

static const uint8_t *const ROOT = SEVEN_NODES[SEVEN_ROOT];

/* Building gives the roots that Python's SHA-256 gives; N = 5 and 9 have fillers over fillers. "abc" is NIST's. */
void group_roots(void)
{
    static const uint8_t abc[PPSPP_ROOT_BYTES] = {0xba, 0x78, 0x16, 0xbf, 0x8f, 0x01, 0xcf, 0xea, 0x41, 0x41, 0x40,
                                                  0xde, 0x5d, 0xae, 0x22, 0x23, 0xb0, 0x03, 0x61, 0xa3, 0x96, 0x17,
                                                  0x7a, 0x9c, 0xb4, 0x10, 0xff, 0x61, 0xf2, 0x00, 0x15, 0xad};
    struct guarded g;
    uint8_t root[PPSPP_ROOT_BYTES];
    for (size_t i = 0; i < sizeof KNOWN_ROOTS / sizeof KNOWN_ROOTS[0]; i++) {
        const uint32_t length = KNOWN_ROOTS[i].length;
        guarded_new(&g, length);
        CHECK(guarded_build(&g, length, content(), length) == PPSPP_DONE);
        CHECK(ppspp_store_root(&g.store, root) && memcmp(root, KNOWN_ROOTS[i].root, sizeof root) == 0);
        guarded_end(&g);
    }
    guarded_new(&g, 3);
    CHECK(guarded_build(&g, 3, (const uint8_t *)"abc", 3) == PPSPP_DONE);
    CHECK(ppspp_store_root(&g.store, root) && memcmp(root, abc, sizeof root) == 0);
    guarded_end(&g);
}

/* "For N=7, chunk 0 goes out with 0..3, 2..3, 4..5, 1..1, 6..6"; "the chunk 0 datagram has 1,250 bytes". */
void group_sending(void)
{
    struct guarded g;
    seven_built(&g);
    CHECK(guarded_write(&g, OURS, 0, 0) == PPSPP_DONE && g.len == 1250);
    for (uint32_t chunk = 0; chunk < SEVEN_CHUNKS; chunk++) {
        const struct packet p = seven_sent(PEERS, chunk, 0x0102030405060708u);
        CHECK(guarded_write(&g, OURS, chunk, 0x0102030405060708u) == PPSPP_DONE && replied(&g, &p));
    }
    guarded_end(&g);
}

/*
 * "N=7 taken in order, least hashes: chunk 0 the five; 2 needs leaf 6; 4 needs leaf 10; 1, 3, 5, 6 none." Each ACK
 * names the run so far (02, No. 2).
 */
void group_download(void)
{
    struct guarded g;
    seven_fresh(&g);
    for (uint32_t chunk = 0; chunk < SEVEN_CHUNKS; chunk++) {
        struct packet bare = packet_to(OURS);
        put_chunk(&bare, chunk, 1000);
        struct packet p = chunk == 0 ? seven_sent(OURS, 0, 1000) : bare;
        if (chunk == 0 || chunk == 2 || chunk == 4) {
            CHECK(take(&g, &bare) == PPSPP_HASH_MISSING);
        }
        if (chunk == 2 || chunk == 4) {
            p = packet_to(OURS);
            put_node(&p, chunk == 2 ? 6 : 10);
            put_chunk(&p, chunk, 1000);
        }
        struct packet ack = packet_to(PEERS);
        put_ack(&ack, 0, chunk, 0xffffffffffffffffu);
        CHECK(guarded_take(&g, 999, 0, p.bytes, p.n) == PPSPP_DONE && replied(&g, &ack));
        CHECK(held_of(&g) == chunk + 1 && ppspp_store_holds(&g.store, chunk));
    }
    CHECK(memcmp(g.store.chunks, content(), SEVEN_LENGTH) == 0);
    guarded_end(&g);
}

/* "16 open: 6; one closed: its row is used." */
static void sixteen_open(void)
{
    struct guarded g;
    guarded_new(&g, SEVEN_LENGTH);
    CHECK(guarded_start(&g, ROOT, SEVEN_LENGTH) == PPSPP_DONE);
    for (uint32_t id = 1; id <= 16; id++) {
        CHECK(open_from(&g, id, 100 + id, ROOT) == PPSPP_DONE && ppspp_store_row_of(&g.store, id) == id - 1);
    }
    CHECK(open_from(&g, 17, 117, ROOT) == PPSPP_CHANNELS_FULL);
    struct packet p = packet_to(7);
    put_closing(&p);
    CHECK(take(&g, &p) == PPSPP_DONE);
    CHECK(open_from(&g, 17, 117, ROOT) == PPSPP_DONE && ppspp_store_row_of(&g.store, 17) == 6);
    struct packet ours = packet_to(117);
    put_handshake(&ours, 17, ROOT);
    CHECK(replied(&g, &ours) && g.len == 60);
    CHECK(open_from(&g, 18, 118, ROOT) == PPSPP_CHANNELS_FULL);
    guarded_end(&g);
}

/* "L=0: 12; 524,288: taken; 524,289: 12." Then the replay program's example. */
void group_limits(void)
{
    struct guarded g;
    guarded_new(&g, PPSPP_MAX_LENGTH);
    CHECK(guarded_start(&g, ROOT, 0) == PPSPP_LENGTH && guarded_build(&g, 0, content(), 0) == PPSPP_LENGTH);
    CHECK(guarded_start(&g, ROOT, 524289) == PPSPP_LENGTH);
    CHECK(guarded_build(&g, 524289, content(), 524289) == PPSPP_LENGTH);
    CHECK(guarded_start(&g, ROOT, 524288) == PPSPP_DONE && held_of(&g) == 0);
    CHECK(guarded_build(&g, 524288, content(), 524288) == PPSPP_DONE && held_of(&g) == 512);
    guarded_end(&g);
    sixteen_open();

    static const uint8_t zeros[PPSPP_ROOT_BYTES] = {0};
    guarded_new(&g, 1);
    CHECK(guarded_start(&g, zeros, 1) == PPSPP_DONE && open_from(&g, 1, 0x11, zeros) == PPSPP_DONE);
    struct packet p = packet_to(0x11);
    put_handshake(&p, 1, zeros);
    CHECK(replied(&g, &p));
    p = packet_to(0x22);
    CHECK(take(&g, &p) == PPSPP_NO_CHANNEL && held_of(&g) == 0);
    guarded_end(&g);
}

/* "Errors we expect someone to make"; hashing two fillers shows in group_roots. */
void group_expected_errors(void)
{
    struct guarded g;
    seven_fresh(&g);
    struct packet p = packet_to(OURS);
    put_integrity(&p, 0, 7, ROOT);
    put_data(&p, 7, 0, content(), 1024);
    CHECK(take(&g, &p) == PPSPP_RANGE);

    p = seven_sent(OURS, 6, 0);
    p.bytes[p.n - 1] ^= 1;
    CHECK(take(&g, &p) == PPSPP_HASH_MISMATCH);
    p = packet_to(OURS);
    put_chunk(&p, 6, 0);
    CHECK(take(&g, &p) == PPSPP_HASH_MISSING);

    p = seven_sent(OURS, 6, 0);
    CHECK(take(&g, &p) == PPSPP_DONE && held_of(&g) == 1);
    p.bytes[p.n - 1] ^= 1;
    CHECK(take(&g, &p) == PPSPP_HASH_MISMATCH);
    p.bytes[p.n - 1] ^= 1;
    struct packet ack = packet_to(PEERS);
    put_ack(&ack, 6, 6, 0);
    CHECK(take(&g, &p) == PPSPP_DONE && replied(&g, &ack) && held_of(&g) == 1);
    guarded_end(&g);
}
