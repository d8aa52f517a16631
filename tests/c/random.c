/*
 * 100,000 turns from a fixed seed under each addressing: genuine, damaged and made-up datagrams and calls with any
 * numbers, on a store that is built and one that downloads from it, both in rooms of exactly the sizes needed.
 */
#include <string.h>

#include "chance.h"
#include "check.h"
#include "groups.h"
#include "packs.h"

#define TURNS 12500u

/* Two stores of one pack, each with a channel OURS whose peer is OURS: what one writes, both can take in. */
struct yard {
    struct guarded built;
    struct guarded fresh;
    struct ppspp_order order;
    uint32_t count;
};

/* How often each number was given. */
static unsigned long seen[PPSPP_ID + 1];

static void saw(uint32_t answer)
{
    if (answer <= PPSPP_ID) {
        seen[answer]++;
    }
}

static void begin_built(struct yard *yard)
{
    CHECK(guarded_build_under(&yard->built, &yard->order, content(), yard->order.length) == PPSPP_DONE);
    CHECK(ppspp_store_order(&yard->built.store, &yard->order));
    CHECK(open_from(&yard->built, OURS, OURS, yard->order.root) == PPSPP_DONE);
}

static void begin_fresh(struct yard *yard)
{
    CHECK(guarded_start_under(&yard->fresh, &yard->order) == PPSPP_DONE);
    CHECK(open_from(&yard->fresh, OURS, OURS, yard->order.root) == PPSPP_DONE);
}

/* Whether a store still has its channel OURS. */
static bool connected(const struct guarded *g)
{
    const struct ppspp_row row = ppspp_store_row(&g->store, ppspp_store_row_of(&g->store, OURS));
    return row.phase == PPSPP_OPEN && row.peer == OURS;
}

/* Every chunk in the map has the pack's bytes, asking counts the map's bits, and the built store is whole. */
static void check_held(struct yard *yard, struct guarded *g)
{
    uint32_t bits = 0;
    for (uint32_t chunk = 0; chunk < yard->count; chunk++) {
        const size_t from = 1024 * (size_t)chunk;
        const size_t left = yard->order.length - from;
        if (ppspp_store_holds(&g->store, chunk)) {
            bits++;
            CHECK(memcmp(g->store.chunks + from, content() + from, left < 1024 ? left : 1024) == 0);
        }
    }
    CHECK(held_of(g) == bits);
    CHECK(g != &yard->built || bits == yard->count);
}

/* Whether all chunks of a range are held; none past the last one is. */
static bool all_held(const struct guarded *g, uint32_t first, uint32_t last)
{
    uint32_t chunk = first;
    while (chunk <= last && ppspp_store_holds(&g->store, chunk)) {
        chunk++;
    }
    return chunk > last;
}

/* What an ACK names is held and has the chunk in it, and nothing bigger is so: 02, No. 2. */
static void check_ack(const struct guarded *g, uint32_t chunk)
{
    uint64_t found[PPSPP_FOUND_WORDS] = {0};
    CHECK(ppspp_store_read(&g->store, g->store.reply, g->len, 4, found) == PPSPP_STEP_MESSAGE);
    CHECK(found[PPSPP_FOUND_TYPE] == PPSPP_ACK && found[PPSPP_FOUND_NEXT] == g->len);
    const uint32_t first = (uint32_t)found[PPSPP_FOUND_FIRST];
    const uint32_t last = (uint32_t)found[PPSPP_FOUND_LAST];
    CHECK(first <= chunk && chunk <= last && all_held(g, first, last));
    if (ppspp_store_addressing(&g->store) == PPSPP_BINS) {
        const uint32_t twice = 2 * (last - first + 1);
        const uint32_t above = first / twice * twice;
        CHECK(!all_held(g, above, above + twice - 1));
    } else {
        CHECK((first == 0 || !all_held(g, first - 1, last)) && !all_held(g, first, last + 1));
    }
}

/* A datagram that was taken: its DATA, if it has one, is answered by such an ACK, and nothing else is. */
static void check_reply(const struct guarded *g, const struct packet *p)
{
    uint64_t found[PPSPP_FOUND_WORDS] = {0};
    size_t at = 4;
    while (ppspp_store_read(&g->store, p->bytes, p->n, at, found) == PPSPP_STEP_MESSAGE) {
        at = (size_t)found[PPSPP_FOUND_NEXT];
        if (found[PPSPP_FOUND_TYPE] == PPSPP_DATA) {
            check_ack(g, (uint32_t)found[PPSPP_FOUND_FIRST]);
            return;
        }
    }
    CHECK(g->len == 0 || g->store.reply[4] == PPSPP_HANDSHAKE);
}

/* Whether a datagram has the hash of a node. */
static bool came(const struct guarded *g, const struct packet *p, uint64_t node)
{
    uint64_t found[PPSPP_FOUND_WORDS] = {0};
    size_t at = 4;
    while (ppspp_store_read(&g->store, p->bytes, p->n, at, found) == PPSPP_STEP_MESSAGE) {
        at = (size_t)found[PPSPP_FOUND_NEXT];
        if (found[PPSPP_FOUND_TYPE] == PPSPP_INTEGRITY && found[PPSPP_FOUND_FIRST] + found[PPSPP_FOUND_LAST] == node) {
            return true;
        }
    }
    return false;
}

/* A missing hash neither came nor is held; a node that was missed is trusted, as the root is, or a peak that came. */
static void check_node(const struct guarded *g, const struct packet *p, uint32_t answer)
{
    const bool trusted = g->node != PPSPP_NO_NODE && ppspp_bit(g->store.trusted, (size_t)g->node);
    CHECK(answer != PPSPP_HASH_MISSING || (!trusted && !came(g, p, g->node)));
    CHECK(answer != PPSPP_HASH_MISMATCH || trusted || came(g, p, g->node));
}

/* A datagram as a peer would send it, to channel OURS. */
static struct packet genuine(struct yard *yard)
{
    struct packet p = packet_to(OURS);
    switch (below(8)) {
    case 0:
        put_handshake_under(&p, yard->order.addressing, OURS, yard->order.root);
        break;
    case 1:
        p = packet_to(below(24));
        put_closing(&p);
        break;
    case 2:
        p = packet_to(0);
        put_handshake_under(&p, yard->order.addressing, 1 + below(40), yard->order.root);
        break;
    case 3:
        return any_messages(OURS, yard->order.addressing, yard->count);
    default:
        CHECK(guarded_write(&yard->built, OURS, below(yard->count), chance()) == PPSPP_DONE);
        p.n = 0;
        put_bytes(&p, yard->built.store.reply, yard->built.len);
        break;
    }
    return p;
}

static struct packet any_datagram(struct yard *yard)
{
    if (one_in(6)) {
        return any_bytes(one_in(4) ? below(20) : OURS);
    }
    struct packet p = genuine(yard);
    if (!one_in(3)) {
        damage(&p, yard->order.addressing, yard->count);
    }
    return p;
}

/* Any other call, with numbers near those that count. */
static uint32_t any_call(struct yard *yard, struct guarded *g)
{
    uint32_t held;
    uint32_t whole;
    struct ppspp_order other = yard->order;
    switch (below(8)) {
    case 0:
        return guarded_open(g, below(24));
    case 1:
        return guarded_write(g, one_in(4) ? below(24) : OURS, any_chunk(yard->count), chance());
    case 2:
        return guarded_ask(g, &held, &whole);
    case 3:
        other.length = one_in(2) ? 0 : PPSPP_MAX_LENGTH + 1 + below(1000);
        return guarded_start_under(g, &other);
    case 4:
        other.addressing = 3 + below(1000);
        return guarded_start_under(g, &other);
    case 5:
        return guarded_build_under(g, &yard->order, content(), below(yard->order.length));
    case 6:
        return guarded_close(g, below(24));
    default:
        saw(guarded_begin(g, below(24)));
        return guarded_add(g, one_in(8) ? below(2100) : g->len, below(14) + (one_in(4) ? 256 : 0),
                           any_chunk(yard->count), any_chunk(yard->count), chance(), content(), below(2100));
    }
}

/* With one element less of any room the same is 11 at once. */
static void check_short(struct yard *yard, struct guarded *g)
{
    const enum room room = (enum room)below(ROOMS);
    const struct packet p = any_datagram(yard);
    guarded_shorten(g, room);
    CHECK(guarded_take(g, chance(), below(24), p.bytes, p.n) == PPSPP_ROOM);
    CHECK(guarded_open(g, below(24)) == PPSPP_ROOM);
    guarded_lengthen(g, room);
    saw(PPSPP_ROOM);
}

static void turn(struct yard *yard)
{
    struct guarded *g = one_in(4) ? &yard->built : &yard->fresh;
    if (one_in(8)) {
        saw(any_call(yard, g));
    } else if (one_in(50)) {
        check_short(yard, g);
    } else {
        const struct packet p = any_datagram(yard);
        const uint32_t answer = guarded_take(g, chance(), below(24), p.bytes, p.n);
        saw(answer);
        check_node(g, &p, answer);
        if (answer == PPSPP_DONE) {
            check_reply(g, &p);
            check_held(yard, g);
        }
    }
}

/* A store without its channel begins again; how often the download became whole. */
static uint32_t play(uint32_t length, uint32_t addressing)
{
    struct yard yard;
    uint32_t wholes = 0;
    yard.order = ppspp_order_to_build(length, addressing);
    yard.count = PPSPP_CHUNK_COUNT(length);
    guarded_new(&yard.built, length);
    guarded_new(&yard.fresh, length);
    begin_built(&yard);
    begin_fresh(&yard);
    for (uint32_t i = 0; i < TURNS; i++) {
        turn(&yard);
        if (!connected(&yard.built)) {
            begin_built(&yard);
        }
        const bool whole = held_of(&yard.fresh) == yard.count;
        wholes += whole ? 1 : 0;
        if (!connected(&yard.fresh) || (whole && one_in(20))) {
            begin_fresh(&yard);
        }
    }
    guarded_end(&yard.built);
    guarded_end(&yard.fresh);
    return wholes;
}

/* Each pack becomes whole at times, and each number is given at times: so the turns reach all of the library. */
static void play_all(uint32_t addressing)
{
    static const uint32_t lengths[] = {1, 1024, 1025, 3000, 7162, 8192, 17000, 40000};
    chance_seed(7574);
    memset(seen, 0, sizeof seen);
    for (size_t i = 0; i < sizeof lengths / sizeof lengths[0]; i++) {
        CHECK(play(lengths[i], addressing) > 0);
    }
    for (uint32_t number = 0; number <= PPSPP_ID; number++) {
        CHECK(seen[number] > 0);
    }
}

void group_random(void)
{
    play_all(PPSPP_BINS);
    play_all(PPSPP_RANGES);
}
