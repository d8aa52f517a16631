/*
 * What the ACK of a chunk names: 02, No. 2, the biggest complete interval that covers it. By ranges that is the longest
 * run of held chunks around it; by bins, the largest whole subtree inside the pack all of whose chunks are held. By
 * hand: bin 2i is chunk i, and any bin is first + last of its chunks.
 */
#include "check.h"
#include "groups.h"
#include "packs.h"

/* A store of n chunks that is built, and one that is to take them; each has a channel OURS whose peer is OURS. */
struct pair {
    struct guarded built;
    struct guarded fresh;
    uint32_t n;
};

/* The rooms of the fresh one are those for so many chunks more. */
static void pair_with_room(struct pair *pair, uint32_t addressing, uint32_t n, uint32_t more)
{
    struct ppspp_order order = ppspp_order_to_build(1024 * n, addressing);
    pair->n = n;
    guarded_new(&pair->built, order.length);
    guarded_new(&pair->fresh, 1024 * (n + more));
    CHECK(guarded_build_under(&pair->built, &order, content(), order.length) == PPSPP_DONE);
    CHECK(ppspp_store_order(&pair->built.store, &order));
    CHECK(guarded_start_under(&pair->fresh, &order) == PPSPP_DONE);
    CHECK(open_from(&pair->built, OURS, OURS, order.root) == PPSPP_DONE);
    CHECK(open_from(&pair->fresh, OURS, OURS, order.root) == PPSPP_DONE);
}

static void pair_new(struct pair *pair, uint32_t addressing, uint32_t n)
{
    pair_with_room(pair, addressing, n, 0);
}

static void pair_end(struct pair *pair)
{
    guarded_end(&pair->built);
    guarded_end(&pair->fresh);
}

/* The fresh store takes a chunk, for the first time or again, 5 microseconds after it was written. */
static void take_chunk(struct pair *pair, uint32_t chunk)
{
    CHECK(guarded_write(&pair->built, OURS, chunk, 2) == PPSPP_DONE);
    CHECK(guarded_take(&pair->fresh, 7, 0, pair->built.store.reply, pair->built.len) == PPSPP_DONE);
    CHECK(ppspp_store_holds(&pair->fresh.store, chunk));
}

/* It takes all chunks but one; n is none of them. */
static void take_but(struct pair *pair, uint32_t but)
{
    for (uint32_t chunk = 0; chunk < pair->n; chunk++) {
        if (chunk != but) {
            take_chunk(pair, chunk);
        }
    }
}

/* It takes a chunk, and its ACK is of this range. */
static void check_run(struct pair *pair, uint32_t chunk, uint32_t first, uint32_t last)
{
    struct packet ack = packet_to(OURS);
    put_ack(&ack, first, last, 5);
    take_chunk(pair, chunk);
    CHECK(replied(&pair->fresh, &ack));
}

/* It takes a chunk, and its ACK is of this bin. */
static void check_bin(struct pair *pair, uint32_t chunk, uint32_t bin)
{
    struct packet ack = packet_to(OURS);
    put_bin_ack(&ack, bin, 5);
    take_chunk(pair, chunk);
    CHECK(replied(&pair->fresh, &ack));
}

/* A gap that is filled, repeats, a gap that stays, the last chunk, and the pack whole. */
void group_ack_runs(void)
{
    struct pair pair;
    pair_new(&pair, PPSPP_RANGES, 7);
    check_run(&pair, 0, 0, 0);
    check_run(&pair, 2, 2, 2);
    check_run(&pair, 1, 0, 2);
    check_run(&pair, 0, 0, 2);
    check_run(&pair, 1, 0, 2);
    check_run(&pair, 2, 0, 2);
    CHECK(held_of(&pair.fresh) == 3);
    check_run(&pair, 6, 6, 6);
    check_run(&pair, 4, 4, 4);
    check_run(&pair, 5, 4, 6);
    check_run(&pair, 2, 0, 2);
    check_run(&pair, 6, 4, 6);
    check_run(&pair, 3, 0, 6);
    check_run(&pair, 6, 0, 6);
    CHECK(held_of(&pair.fresh) == 7);
    pair_end(&pair);
}

/* Runs that go on from word to word of the map: packs that end with a word, and one chunk behind it. */
void group_ack_words(void)
{
    static const uint32_t counts[] = {1, 31, 32, 33, 64, 65, 512};
    struct pair pair;
    for (size_t i = 0; i < sizeof counts / sizeof counts[0]; i++) {
        const uint32_t n = counts[i];
        pair_new(&pair, PPSPP_RANGES, n);
        take_but(&pair, n);
        check_run(&pair, 0, 0, n - 1);
        check_run(&pair, n / 2, 0, n - 1);
        check_run(&pair, n - 1, 0, n - 1);
        pair_end(&pair);
    }
    /* Without the first chunk of a word, and without the last one. */
    for (uint32_t gap = 31; gap <= 32; gap++) {
        pair_new(&pair, PPSPP_RANGES, 65);
        take_but(&pair, gap);
        check_run(&pair, 0, 0, gap - 1);
        check_run(&pair, gap - 1, 0, gap - 1);
        check_run(&pair, gap + 1, gap + 1, 64);
        check_run(&pair, 64, gap + 1, 64);
        check_run(&pair, gap, 0, 64);
        pair_end(&pair);
    }
}

/* Of four: 1 and 2 stand side by side under no node of their own; bin 1 is over 0..1, and 3 over 0..3. */
static void check_four(void)
{
    struct pair pair;
    pair_new(&pair, PPSPP_BINS, 4);
    check_bin(&pair, 1, 2);
    check_bin(&pair, 2, 4);
    check_bin(&pair, 1, 2);
    check_bin(&pair, 0, 1);
    check_bin(&pair, 1, 1);
    check_bin(&pair, 2, 4);
    check_bin(&pair, 3, 3);
    check_bin(&pair, 0, 3);
    pair_end(&pair);
}

/* A chunk of a whole pack, and the bin of its ACK. */
struct whole {
    uint32_t n;
    uint32_t chunk;
    uint32_t bin;
};

/* The peaks of 5 are bins 3 and 8, those of 7 are 3, 9 and 12; 13, 11 and 7 are over an eighth chunk too. */
static const struct whole WHOLE[] = {
    {1, 0, 0},     {2, 0, 1},     {2, 1, 1},      {3, 1, 1},   {3, 2, 4},   {5, 0, 3},   {5, 4, 8},
    {7, 0, 3},     {7, 3, 3},     {7, 4, 9},      {7, 5, 9},   {7, 6, 12},  {8, 0, 7},   {8, 4, 7},
    {8, 6, 7},     {8, 7, 7},     {32, 0, 31},    {32, 31, 31}, {33, 0, 31}, {33, 32, 64}, {64, 32, 63},
    {65, 31, 63},  {65, 63, 63},  {65, 64, 128},  {512, 0, 511}, {512, 511, 511},
};

void group_ack_bins(void)
{
    check_four();
    for (size_t i = 0; i < sizeof WHOLE / sizeof WHOLE[0]; i++) {
        struct pair pair;
        pair_new(&pair, PPSPP_BINS, WHOLE[i].n);
        take_but(&pair, WHOLE[i].n);
        check_bin(&pair, WHOLE[i].chunk, WHOLE[i].bin);
        pair_end(&pair);
    }
}

/* Sets every bit of the map room past the last chunk, as no call of ours leaves it. */
static void spoil(struct pair *pair)
{
    for (uint32_t i = pair->n; i < 32 * pair->fresh.store.map_n; i++) {
        pair->fresh.store.map[i / 32] |= 1u << (i % 32);
    }
}

/* Bits past the last chunk do not show, in its word and in one word more. */
void group_ack_past(void)
{
    static const struct {
        uint32_t n;
        uint32_t alone; /* the bin of the last chunk alone */
        uint32_t first; /* those of the first and the last one of the whole pack */
        uint32_t last;
    } cases[] = {{7, 12, 3, 12}, {32, 62, 31, 31}, {33, 64, 31, 64}, {65, 128, 63, 128}};
    struct pair pair;
    for (size_t i = 0; i < sizeof cases / sizeof cases[0]; i++) {
        const uint32_t n = cases[i].n;
        pair_with_room(&pair, PPSPP_RANGES, n, 32);
        spoil(&pair);
        check_run(&pair, n - 1, n - 1, n - 1);
        take_but(&pair, n - 1);
        check_run(&pair, 0, 0, n - 1);
        check_run(&pair, n - 1, 0, n - 1);
        pair_end(&pair);

        pair_with_room(&pair, PPSPP_BINS, n, 32);
        spoil(&pair);
        check_bin(&pair, n - 1, cases[i].alone);
        take_but(&pair, n - 1);
        check_bin(&pair, 0, cases[i].first);
        check_bin(&pair, n - 1, cases[i].last);
        pair_end(&pair);
    }
}
