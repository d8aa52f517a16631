/* The sizes of rooms: the header's macros, the library's functions, and 01's words. */
#include <string.h>

#include "check.h"
#include "groups.h"
#include "packs.h"

/* "The tree is the least one with at least N leaves." */
static uint32_t least_places(uint32_t n)
{
    uint32_t places = 1;
    while (places < n) {
        places *= 2;
    }
    return places;
}

/* A bit each, "every row in whole words". */
static uint32_t words_of(uint32_t bits)
{
    return bits / 32 + (bits % 32 != 0 ? 1 : 0);
}

static void check_count(uint32_t length, uint32_t n)
{
    CHECK(PPSPP_CHUNK_COUNT(length) == n);
    CHECK(ppspp_chunk_count(length) == n);
}

/* "The number of chunks N is L divided by 1,024, rounded up." */
void group_counts(void)
{
    check_count(0, 0);
    check_count(7162, 7);
    check_count(4294967295u, 4194304);
    for (uint32_t n = 1; n <= PPSPP_MAX_CHUNKS; n++) {
        check_count(1024 * n - 1023, n);
        check_count(1024 * n - 1, n);
        check_count(1024 * n, n);
        check_count(1024 * n + 1, n + 1);
    }
}

static void check_sizes(uint32_t n, uint32_t map, uint32_t hashes, uint32_t trusted, uint32_t peers)
{
    CHECK(PPSPP_MAP_WORDS(n) == map && ppspp_map_words(n) == map);
    CHECK(PPSPP_HASH_WORDS(n) == hashes && ppspp_hash_words(n) == hashes);
    CHECK(PPSPP_TRUSTED_WORDS(n) == trusted && ppspp_trusted_words(n) == trusted);
    CHECK(PPSPP_PEER_WORDS(n) == peers && ppspp_peer_words(n) == peers);
}

void group_room_sizes(void)
{
    check_sizes(1, 1, 16, 1, 16);
    check_sizes(7, 1, 128, 1, 16);
    check_sizes(16, 1, 256, 1, 16);
    check_sizes(17, 1, 512, 2, 16);
    check_sizes(33, 2, 1024, 4, 32);
    check_sizes(512, 16, 8192, 32, 256);
    for (uint32_t n = 1; n <= PPSPP_MAX_CHUNKS; n++) {
        const uint32_t places = least_places(n);
        CHECK(PPSPP_LEAF_PLACES(n) == places);
        check_sizes(n, words_of(n), 16 * places, words_of(2 * places), 16 * words_of(n));
    }
}

/* Each room but the state's one element short is 11, for starting and for building; without that both are done. */
static void check_exact(uint32_t length)
{
    struct guarded g;
    guarded_new(&g, length);
    for (int i = CHUNKS; i < ROOMS; i++) {
        const enum room room = (enum room)i;
        guarded_shorten(&g, room);
        CHECK(guarded_start(&g, content(), length) == PPSPP_ROOM);
        CHECK(guarded_build(&g, length, content(), length) == PPSPP_ROOM);
        guarded_lengthen(&g, room);
    }
    CHECK(guarded_start(&g, content(), length) == PPSPP_DONE);
    CHECK(held_of(&g) == 0);
    CHECK(guarded_build(&g, length, content(), length) == PPSPP_DONE);
    CHECK(held_of(&g) == PPSPP_CHUNK_COUNT(length));
    CHECK(memcmp(g.store.chunks, content(), length) == 0);
    guarded_end(&g);
}

void group_exact_rooms(void)
{
    static const uint32_t counts[] = {1, 2, 3, 4, 5, 8, 9, 16, 17, 31, 32, 33, 64, 65, 128, 129, 256, 257, 511, 512};
    for (size_t i = 0; i < sizeof counts / sizeof counts[0]; i++) {
        check_exact(1024 * counts[i]);
        check_exact(1024 * counts[i] - 1023);
    }
}
