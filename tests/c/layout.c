/* The state's words: what stands in them after calls, and what a room gets that has no order. */
#include <string.h>

#include "check.h"
#include "groups.h"
#include "packs.h"

void group_layout(void)
{
    struct guarded g;
    uint8_t root[PPSPP_ROOT_BYTES];
    CHECK(ppspp_header_matches());
    CHECK(ppspp_layout_version() == 2);
    CHECK(ppspp_state_words() == 1 + 8 + 1 + 1 + 16 * 4);
    seven_fresh(&g);
    CHECK(g.store.state[0] == 2);
    CHECK(g.store.state[1] == 0x62b74b86u && g.store.state[8] == 0x673e32eau);
    CHECK(g.store.state[9] == 7162 && g.store.state[10] == 2);
    CHECK(ppspp_store_has_order(&g.store));
    CHECK(ppspp_store_root(&g.store, root) && memcmp(root, SEVEN_NODES[SEVEN_ROOT], sizeof root) == 0);
    CHECK(ppspp_store_length(&g.store) == 7162 && ppspp_store_chunk_count(&g.store) == 7);
    CHECK(g.store.state[11] == 2 && g.store.state[12] == OURS && g.store.state[13] == PEERS && g.store.state[14] == 0);
    for (size_t i = 15; i < 75; i++) {
        CHECK(g.store.state[i] == 0);
    }
    guarded_end(&g);
}

/*
 * The hash of node b is in words 8b to 8b + 7, and its trusted bit is bit b. Of seven chunks the root, node 7, and all
 * nodes wholly inside the pack are trusted: not 11, which is over chunks 4 to 7, nor 13 and 14.
 */
void group_nodes(void)
{
    struct guarded g;
    seven_built(&g);
    for (size_t node = 0; node < 16; node++) {
        const bool trusted = node != 11 && node < 13;
        CHECK(ppspp_bit(g.store.trusted, node) == trusted);
        for (size_t i = 0; trusted && i < PPSPP_ROOT_BYTES; i++) {
            const uint32_t word = g.store.hashes[8 * node + i / 4];
            CHECK(((word >> (24 - 8 * (i % 4))) & 0xffu) == SEVEN_NODES[node][i]);
        }
    }
    CHECK(guarded_start(&g, SEVEN_NODES[SEVEN_ROOT], SEVEN_LENGTH) == PPSPP_DONE);
    for (size_t node = 0; node < 16; node++) {
        CHECK(ppspp_bit(g.store.trusted, node) == (node == SEVEN_ROOT));
    }
    guarded_end(&g);
}

/* A row as the readers show it. */
static bool row_is(const struct guarded *g, uint32_t i, enum ppspp_phase phase, uint32_t id, uint32_t peer, bool choked)
{
    const struct ppspp_row row = ppspp_store_row(&g->store, i);
    return row.phase == phase && row.id == id && row.peer == peer && row.choked == choked;
}

/* A row is free, calls, is open, is choked, and is freed by a closing HANDSHAKE; other rows stay. */
void group_rows(void)
{
    struct guarded g;
    seven_fresh(&g);
    CHECK(row_is(&g, 0, PPSPP_OPEN, OURS, PEERS, false) && row_is(&g, 1, PPSPP_FREE, 0, 0, false));
    CHECK(guarded_open(&g, 6) == PPSPP_DONE);
    CHECK(row_is(&g, 1, PPSPP_CALLING, 6, 0, false));
    CHECK(ppspp_store_row_of(&g.store, OURS) == 0 && ppspp_store_row_of(&g.store, 6) == 1);
    CHECK(ppspp_store_row_of(&g.store, 0) == PPSPP_CHANNELS && ppspp_store_row_of(&g.store, 7) == PPSPP_CHANNELS);

    struct packet p = packet_to(6);
    put_handshake(&p, 0xfffffffeu, SEVEN_NODES[SEVEN_ROOT]);
    CHECK(take(&g, &p) == PPSPP_DONE && g.len == 0);
    CHECK(row_is(&g, 1, PPSPP_OPEN, 6, 0xfffffffeu, false));

    p = packet_to(6);
    put8(&p, 10);
    CHECK(take(&g, &p) == PPSPP_DONE && row_is(&g, 1, PPSPP_OPEN, 6, 0xfffffffeu, true));
    put8(&p, 11);
    CHECK(take(&g, &p) == PPSPP_DONE && row_is(&g, 1, PPSPP_OPEN, 6, 0xfffffffeu, false));

    p = packet_to(6);
    put_closing(&p);
    CHECK(take(&g, &p) == PPSPP_DONE && g.len == 0);
    CHECK(row_is(&g, 1, PPSPP_FREE, 0, 0, false) && row_is(&g, 0, PPSPP_OPEN, OURS, PEERS, false));
    CHECK(row_is(&g, 16, PPSPP_FREE, 0, 0, false) && row_is(&g, 4294967295u, PPSPP_FREE, 0, 0, false));
    g.store.state[PPSPP_WORD_ROWS] = 3;
    CHECK(row_is(&g, 0, PPSPP_FREE, OURS, PEERS, false) && ppspp_store_row_of(&g.store, OURS) == PPSPP_CHANNELS);
    guarded_end(&g);
}

/* What the calls that need an order answer, and the readers say, of a state that has none. */
static void check_refused(struct guarded *g, uint32_t number)
{
    uint32_t held;
    uint32_t whole;
    uint8_t root[PPSPP_ROOT_BYTES];
    static const uint8_t zeros[PPSPP_ROOT_BYTES] = {0};
    const struct packet p = packet_to(OURS);
    CHECK(guarded_open(g, 1) == number);
    CHECK(take(g, &p) == number);
    CHECK(guarded_take(g, 0, 0, p.bytes, 3) == number);
    CHECK(guarded_write(g, OURS, 0, 0) == number);
    CHECK(guarded_ask(g, &held, &whole) == number);
    CHECK(!ppspp_store_has_order(&g->store) && ppspp_store_length(&g->store) == 0);
    CHECK(ppspp_store_addressing(&g->store) == PPSPP_RANGES);
    CHECK(!ppspp_store_root(&g->store, root) && memcmp(root, zeros, sizeof root) == 0);
    CHECK(row_is(g, 0, PPSPP_FREE, 0, 0, false) && !ppspp_store_holds(&g->store, 0));
    CHECK(!ppspp_store_peer_has(&g->store, 0, 0) && !ppspp_store_peer_wants(&g->store, 0, 0));
}

/*
 * A zeroed state, one of another version and one of no sound length or addressing are 12 until they are started or
 * built; one of 74 words is always 11.
 */
void group_no_order(void)
{
    static const uint32_t versions[] = {0, 1, 3, 0x02000000u, 0x80000002u, 0xffffffffu};
    static const uint32_t lengths[] = {0, 524289, 0xffffffffu};
    static const uint32_t methods[] = {1, 3, 4, 0x102u, 0x02000000u, 0xffffffffu};
    struct guarded g;
    seven_built(&g);
    for (size_t i = 0; i < sizeof lengths / sizeof lengths[0]; i++) {
        g.store.state[PPSPP_WORD_LENGTH] = lengths[i];
        check_refused(&g, PPSPP_LENGTH);
    }
    g.store.state[PPSPP_WORD_LENGTH] = SEVEN_LENGTH;
    for (size_t i = 0; i < sizeof methods / sizeof methods[0]; i++) {
        g.store.state[PPSPP_WORD_ADDRESSING] = methods[i];
        check_refused(&g, PPSPP_LENGTH);
    }
    g.store.state[PPSPP_WORD_ADDRESSING] = PPSPP_RANGES;
    CHECK(ppspp_store_has_order(&g.store) && held_of(&g) == 7);
    for (size_t i = 0; i < sizeof versions / sizeof versions[0]; i++) {
        g.store.state[PPSPP_WORD_VERSION] = versions[i];
        check_refused(&g, PPSPP_LENGTH);
    }
    memset(g.store.state, 0, 4 * PPSPP_STATE_WORDS);
    check_refused(&g, PPSPP_LENGTH);
    CHECK(guarded_start(&g, SEVEN_NODES[SEVEN_ROOT], SEVEN_LENGTH) == PPSPP_DONE && held_of(&g) == 0);
    memset(g.store.state, 0, 4 * PPSPP_STATE_WORDS);
    CHECK(guarded_build(&g, SEVEN_LENGTH, content(), SEVEN_LENGTH) == PPSPP_DONE && held_of(&g) == 7);
    guarded_shorten(&g, STATE);
    check_refused(&g, PPSPP_ROOM);
    CHECK(guarded_start(&g, SEVEN_NODES[SEVEN_ROOT], SEVEN_LENGTH) == PPSPP_ROOM);
    CHECK(guarded_build(&g, SEVEN_LENGTH, content(), SEVEN_LENGTH) == PPSPP_ROOM);
    guarded_lengthen(&g, STATE);
    CHECK(held_of(&g) == 7);
    guarded_end(&g);
}
