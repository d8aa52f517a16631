/*
 * Rooms with anything in them, which no calls of ours have left: every call still answers, and stays in its rooms. What
 * the map then says is not looked at.
 */
#include <string.h>

#include "chance.h"
#include "check.h"
#include "groups.h"
#include "packs.h"

#define ROUNDS 400u
#define CALLS 50u

/* Anything in all rooms; the state has the version, mostly an addressing and a length that fit, and rows in use. */
static void garble(struct guarded *g, uint32_t length)
{
    for (int room = 0; room < ROOMS; room++) {
        for (size_t i = 0; i < g->bytes[room]; i++) {
            g->block[g->at[room] + i] = (uint8_t)chance();
        }
    }
    uint32_t *state = g->store.state;
    state[PPSPP_WORD_VERSION] = PPSPP_LAYOUT_VERSION;
    state[PPSPP_WORD_LENGTH] = one_in(8) ? (uint32_t)chance() >> below(32) : 1 + below(length);
    state[PPSPP_WORD_ADDRESSING] = one_in(8) ? below(5) : 2 * below(2);
    for (uint32_t i = 0; i < PPSPP_CHANNELS; i++) {
        uint32_t *row = state + PPSPP_WORD_ROWS + PPSPP_ROW_WORDS * i;
        row[PPSPP_ROW_PHASE] = below(4);
        row[PPSPP_ROW_ID] = below(8);
        row[PPSPP_ROW_CHOKED] = below(3);
    }
}

/* DATA of a chunk under the garbled length, with hashes that the garbled room has, or none. */
static struct packet any_data(const struct guarded *g, uint32_t count)
{
    const uint32_t addressing = ppspp_store_addressing(&g->store);
    struct packet p = any_messages(below(8), addressing, count);
    const uint32_t chunk = any_chunk(count);
    const size_t left = ppspp_store_length(&g->store) - 1024 * (size_t)chunk;
    const size_t size = chunk + 1 == count && left <= 1024 ? left : 1024;
    if (addressing == PPSPP_BINS) {
        put_bin_data(&p, 2 * chunk, chance(), content(), size);
    } else {
        put_data(&p, chunk, chance(), content(), size);
    }
    return p;
}

static uint32_t any_call(struct guarded *g)
{
    uint32_t held;
    uint32_t whole;
    const uint32_t count = 1 + ppspp_store_chunk_count(&g->store) % PPSPP_MAX_CHUNKS;
    struct packet p;
    switch (below(7)) {
    case 0:
        return guarded_open(g, below(24));
    case 1:
        return guarded_write(g, below(8), any_chunk(count), chance());
    case 2:
        return guarded_ask(g, &held, &whole);
    case 3:
        return guarded_close(g, below(8));
    case 4:
        p = any_data(g, count);
        break;
    case 5:
        p = any_bytes(below(8));
        break;
    default:
        p = any_messages(below(8), ppspp_store_addressing(&g->store), count);
        break;
    }
    return guarded_take(g, chance(), below(24), p.bytes, p.n);
}

/* 12 for a length or an addressing that no order has, 11 where the rooms are too small for the length, else neither. */
static void check_call(struct guarded *g, uint32_t room_length)
{
    const uint32_t length = g->store.state[PPSPP_WORD_LENGTH];
    const uint32_t addressing = g->store.state[PPSPP_WORD_ADDRESSING];
    const uint32_t answer = any_call(g);
    if (length == 0 || length > PPSPP_MAX_LENGTH || (addressing != 0 && addressing != 2)) {
        CHECK(answer == PPSPP_LENGTH);
    } else if (length <= room_length) {
        CHECK(answer != PPSPP_LENGTH && answer != PPSPP_ROOM);
    }
}

void group_garbled(void)
{
    static const uint32_t lengths[] = {1, 1025, 7162, 40000};
    chance_seed(20);
    for (uint32_t i = 0; i < ROUNDS; i++) {
        struct guarded g;
        const uint32_t length = lengths[i % 4];
        guarded_new(&g, length);
        garble(&g, length);
        for (uint32_t turn = 0; turn < CALLS; turn++) {
            check_call(&g, length);
        }
        guarded_end(&g);
    }
}
