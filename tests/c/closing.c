/* Closing a channel of ours, open or calling. What stands in its row then is 01's: "its record as after starting". */
#include "check.h"
#include "groups.h"
#include "packs.h"

/* Whether a row is free and its four words are 0. */
static bool freed(const struct guarded *g, uint32_t row)
{
    const uint32_t *words = g->store.state + 11 + 4 * row;
    return words[0] == 0 && words[1] == 0 && words[2] == 0 && words[3] == 0;
}

/* 16 calls that nobody answers fill the table; each of them can be closed, and its row is used again. */
static void close_calling(struct guarded *g)
{
    CHECK(guarded_close(g, OURS) == PPSPP_DONE && freed(g, 0));
    for (uint32_t i = 0; i < 16; i++) {
        CHECK(guarded_open(g, 100 + i) == PPSPP_DONE);
    }
    CHECK(guarded_open(g, 200) == PPSPP_CHANNELS_FULL);
    for (uint32_t i = 0; i < 16; i++) {
        struct packet p = packet_to(100 + i);
        put_closing(&p);
        CHECK(take(g, &p) == PPSPP_UNEXPECTED);
        CHECK(guarded_close(g, 100 + i) == PPSPP_DONE && freed(g, i));
        CHECK(guarded_close(g, 100 + i) == PPSPP_NO_CHANNEL);
        CHECK(guarded_open(g, 200 + i) == PPSPP_DONE && ppspp_store_row_of(&g->store, 200 + i) == i);
    }
    for (uint32_t i = 0; i < 16; i++) {
        CHECK(guarded_close(g, 215 - i) == PPSPP_DONE && freed(g, 15 - i));
    }
}

/* Open rows, one whose peer has the source that the HANDSHAKE to a calling row is given, and one that is choked. */
static void close_open(struct guarded *g)
{
    CHECK(open_from(g, 30, 1, SEVEN_NODES[SEVEN_ROOT]) == PPSPP_DONE);
    CHECK(open_from(g, 31, 0xffffffffu, SEVEN_NODES[SEVEN_ROOT]) == PPSPP_DONE);
    struct packet p = packet_to(31);
    put8(&p, 10);
    CHECK(take(g, &p) == PPSPP_DONE && g->store.state[18] == 1);
    CHECK(guarded_close(g, 30) == PPSPP_DONE && freed(g, 0));
    CHECK(g->store.state[15] == 2 && g->store.state[16] == 31);
    CHECK(guarded_close(g, 31) == PPSPP_DONE && freed(g, 1));
}

/* The number of a keepalive where there is no row, no order, or a room is too small. */
static void close_refused(struct guarded *g)
{
    CHECK(guarded_close(g, 0) == PPSPP_NO_CHANNEL);
    CHECK(guarded_close(g, 30) == PPSPP_NO_CHANNEL);
    CHECK(guarded_open(g, 30) == PPSPP_DONE);
    for (int room = 0; room < ROOMS; room++) {
        guarded_shorten(g, (enum room)room);
        CHECK(guarded_close(g, 30) == PPSPP_ROOM);
        guarded_lengthen(g, (enum room)room);
    }
    g->store.state[PPSPP_WORD_VERSION] = 0;
    CHECK(guarded_close(g, 0) == PPSPP_LENGTH && guarded_close(g, 30) == PPSPP_LENGTH);
    g->store.state[PPSPP_WORD_VERSION] = 2;
    CHECK(guarded_close(g, 30) == PPSPP_DONE);
}

void group_closing(void)
{
    static const uint32_t methods[] = {PPSPP_BINS, PPSPP_RANGES};
    for (size_t i = 0; i < 2; i++) {
        struct guarded g;
        seven_fresh_under(&g, methods[i]);
        close_calling(&g);
        close_open(&g);
        close_refused(&g);
        guarded_end(&g);
    }
}
