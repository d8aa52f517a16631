/*
 * The calls for single messages by ranges: the bytes they write, what is read back, and what they do to a channel. The
 * desk has no order, so that its addressing is ranges.
 */
#include <string.h>

#include "check.h"
#include "groups.h"
#include "packs.h"

PPSPP_DEFINE_STORE(desk, 7);

/* Whether the first bytes of the desk's reply room are this datagram. */
static bool written(size_t len, const struct packet *p)
{
    return len == p->n && memcmp(desk.reply, p->bytes, p->n) == 0;
}

static void check_alone(void)
{
    const uint8_t *root = SEVEN_NODES[SEVEN_ROOT];
    struct packet p = packet_to(PEERS);
    size_t len = 0;
    CHECK(ppspp_store_begin(&desk, PEERS, &len) == PPSPP_DONE && written(len, &p));
    put_handshake(&p, OURS, root);
    CHECK(ppspp_store_add_handshake(&desk, &len, OURS, root) == PPSPP_DONE && written(len, &p) && len == 60);
    CHECK(ppspp_store_add_choke(&desk, &len) == PPSPP_UNEXPECTED && written(len, &p));
    p = packet_to(PEERS);
    put_closing(&p);
    CHECK(ppspp_store_begin(&desk, PEERS, &len) == PPSPP_DONE);
    CHECK(ppspp_store_add_close(&desk, &len) == PPSPP_DONE && written(len, &p) && len == 10);
}

/* DATA has one chunk: with a range of others it is refused, and the datagram so far stays; then that of one chunk fits. */
static void check_data(void)
{
    static const uint32_t others[] = {0, 4, 6, 0x105u, 0x1000005u, 0xffffffffu};
    struct packet p = packet_to(PEERS);
    size_t len = 0;
    CHECK(ppspp_store_begin(&desk, PEERS, &len) == PPSPP_DONE);
    for (size_t i = 0; i < sizeof others / sizeof others[0]; i++) {
        CHECK(ppspp_store_add(&desk, &len, PPSPP_DATA, 5, others[i], 7, content(), 10) == PPSPP_MALFORMED);
        CHECK(ppspp_store_add(&desk, &len, PPSPP_DATA, others[i], 5, 7, content(), 10) == PPSPP_MALFORMED);
        CHECK(written(len, &p));
    }
    put_data(&p, 5, 7, content(), 10);
    CHECK(ppspp_store_add(&desk, &len, PPSPP_DATA, 5, 5, 7, content(), 10) == PPSPP_DONE && written(len, &p));
}

/* One of each other message, DATA last. A refused one leaves the datagram so far and its length. */
void group_messages(void)
{
    struct packet p = packet_to(0xfedcba98u);
    size_t len = 0;
    check_alone();
    check_data();
    CHECK(ppspp_store_begin(&desk, 0xfedcba98u, &len) == PPSPP_DONE && written(len, &p));
    put_range(&p, 3, 0, 0xffffffffu);
    CHECK(ppspp_store_add_have(&desk, &len, 0, 0xffffffffu) == PPSPP_DONE && written(len, &p));
    CHECK(ppspp_store_add_have(&desk, &len, 1, 0) == PPSPP_MALFORMED && written(len, &p));
    put_range(&p, 8, 1, 0x01020304u);
    CHECK(ppspp_store_add_request(&desk, &len, 1, 0x01020304u) == PPSPP_DONE && written(len, &p));
    put_range(&p, 9, 2, 2);
    CHECK(ppspp_store_add_cancel(&desk, &len, 2, 2) == PPSPP_DONE && written(len, &p));
    put_ack(&p, 3, 4, 0x0123456789abcdefu);
    CHECK(ppspp_store_add_ack(&desk, &len, 3, 4, 0x0123456789abcdefu) == PPSPP_DONE && written(len, &p));
    put_integrity(&p, 4, 7, SEVEN_NODES[11]);
    CHECK(ppspp_store_add_integrity(&desk, &len, 4, 7, SEVEN_NODES[11]) == PPSPP_DONE && written(len, &p));
    CHECK(ppspp_store_add_integrity(&desk, &len, 4, 7, SEVEN_NODES[11]) == PPSPP_MALFORMED && written(len, &p));
    put8(&p, 10);
    CHECK(ppspp_store_add_choke(&desk, &len) == PPSPP_DONE && written(len, &p));
    put8(&p, 11);
    CHECK(ppspp_store_add_unchoke(&desk, &len) == PPSPP_DONE && written(len, &p));
    put_data(&p, 5, 0xfedcba9876543210u, content(), 1000);
    CHECK(ppspp_store_add_data(&desk, &len, 5, 0xfedcba9876543210u, content(), 1000) == PPSPP_DONE);
    CHECK(written(len, &p));
    CHECK(ppspp_store_add_choke(&desk, &len) == PPSPP_MALFORMED && written(len, &p));
}

/* HAVE and ACK set what the peer has and clear what it wants, REQUEST sets that, CANCEL clears it, in their order. */
void group_effects(void)
{
    struct guarded g;
    seven_fresh(&g);
    struct packet p = packet_to(OURS);
    put_range(&p, 8, 0, 6);
    put_range(&p, 3, 1, 2);
    put_ack(&p, 4, 4, 0);
    put_range(&p, 9, 6, 6);
    put_range(&p, 8, 2, 2);
    CHECK(take(&g, &p) == PPSPP_DONE && g.len == 0);
    static const bool has[8] = {false, true, true, false, true, false, false, false};
    static const bool wants[8] = {true, false, true, true, false, true, false, false};
    for (uint32_t chunk = 0; chunk < 8; chunk++) {
        CHECK(ppspp_store_peer_has(&g.store, 0, chunk) == has[chunk]);
        CHECK(ppspp_store_peer_wants(&g.store, 0, chunk) == wants[chunk]);
        CHECK(!ppspp_store_peer_has(&g.store, 1, chunk) && !ppspp_store_peer_wants(&g.store, 1, chunk));
        CHECK(!ppspp_store_holds(&g.store, chunk));
    }
    CHECK(g.store.has[0] == 0x16u && g.store.wants[0] == 0x2du);
    CHECK(ppspp_bit(g.store.has, 1) && !ppspp_bit(g.store.has, 3));
    p = packet_to(OURS);
    put_closing(&p);
    CHECK(take(&g, &p) == PPSPP_DONE && !ppspp_store_peer_has(&g.store, 0, 1));
    CHECK(open_from(&g, OURS, PEERS, SEVEN_NODES[SEVEN_ROOT]) == PPSPP_DONE);
    CHECK(!ppspp_store_peer_has(&g.store, 0, 1) && !ppspp_store_peer_wants(&g.store, 0, 0));
    guarded_end(&g);
}

/* What ppspp_read finds at a place, and where the next message stands. */
static size_t check_found(const struct packet *p, size_t at, uint32_t type, uint32_t first, uint32_t last,
                          uint64_t number, size_t bytes, size_t bytes_n)
{
    uint64_t found[PPSPP_FOUND_WORDS] = {99, 99, 99, 99, 99, 99, 99};
    CHECK(ppspp_read(p->bytes, p->n, PPSPP_RANGES, at, found) == PPSPP_STEP_MESSAGE);
    CHECK(found[PPSPP_FOUND_TYPE] == type);
    CHECK(found[PPSPP_FOUND_FIRST] == first && found[PPSPP_FOUND_LAST] == last);
    CHECK(found[PPSPP_FOUND_NUMBER] == number);
    CHECK(found[PPSPP_FOUND_BYTES_N] == bytes_n && (bytes_n == 0 || found[PPSPP_FOUND_BYTES] == bytes));
    return (size_t)found[PPSPP_FOUND_NEXT];
}

/* Whether ppspp_read gives a step that is no message, and leaves `found`. */
static bool finds_none(const uint8_t *bytes, size_t n, size_t at, uint32_t step)
{
    static const uint64_t before[PPSPP_FOUND_WORDS] = {1, 2, 3, 4, 5, 6, 7};
    uint64_t found[PPSPP_FOUND_WORDS];
    memcpy(found, before, sizeof found);
    return ppspp_read(bytes, n, PPSPP_RANGES, at, found) == step && memcmp(found, before, sizeof found) == 0;
}

/* Places 0 to 3 are read like any other, also in a datagram under 4 bytes: 10 and 11 are messages of one byte. */
void group_read_anywhere(void)
{
    struct packet p = packet_to(0x0a0b0a0bu);
    for (size_t n = 1; n <= 4; n++) {
        p.n = n;
        for (size_t at = 0; at < n; at++) {
            CHECK(check_found(&p, at, at % 2 == 0 ? PPSPP_CHOKE : PPSPP_UNCHOKE, 0, 0, 0, 0, 0) == at + 1);
        }
    }
}

/* A place at or past the end is the end, also in a datagram under 4 bytes; before it, 7 is no type. */
void group_read_none(void)
{
    static const uint8_t bytes[] = {7, 7, 7, 7, 7, 7};
    for (size_t n = 0; n <= sizeof bytes; n++) {
        for (size_t at = 0; at < 10; at++) {
            CHECK(finds_none(bytes, n, at, at < n ? PPSPP_STEP_REFUSED : PPSPP_STEP_END));
        }
        CHECK(finds_none(bytes, n, SIZE_MAX, PPSPP_STEP_END));
    }
}

void group_read_back(void)
{
    uint64_t found[PPSPP_FOUND_WORDS];
    struct packet p = packet_to(OURS);
    CHECK(ppspp_read(p.bytes, p.n, PPSPP_RANGES, 4, found) == PPSPP_STEP_END);
    put_range(&p, 3, 1, 0xffffffffu);
    put_ack(&p, 2, 3, 0xfedcba9876543210u);
    put_integrity(&p, 4, 5, SEVEN_NODES[9]);
    put8(&p, 10);
    put_data(&p, 6, 7, content(), 100);
    size_t at = check_found(&p, 4, PPSPP_HAVE, 1, 0xffffffffu, 0, 0, 0);
    CHECK(at == 13);
    at = check_found(&p, at, PPSPP_ACK, 2, 3, 0xfedcba9876543210u, 0, 0);
    CHECK(at == 30);
    at = check_found(&p, at, PPSPP_INTEGRITY, 4, 5, 0, 39, 32);
    CHECK(at == 71);
    at = check_found(&p, at, PPSPP_CHOKE, 0, 0, 0, 0, 0);
    CHECK(at == 72);
    at = check_found(&p, at, PPSPP_DATA, 6, 6, 7, 89, 100);
    CHECK(at == 189 && ppspp_read(p.bytes, p.n, PPSPP_RANGES, at, found) == PPSPP_STEP_END);

    p = packet_to(OURS);
    put_handshake(&p, PEERS, SEVEN_NODES[SEVEN_ROOT]);
    CHECK(check_found(&p, 4, PPSPP_HANDSHAKE, PEERS, PPSPP_OPTIONS_FIXED, 0, 16, 32) == 60);
    p.bytes[10] = 2;
    CHECK(check_found(&p, 4, PPSPP_HANDSHAKE, PEERS, PPSPP_OPTIONS_OTHER, 0, 0, 0) == 60);
    CHECK(ppspp_read(p.bytes, 59, PPSPP_RANGES, 4, found) == PPSPP_STEP_REFUSED);
    p = packet_to(OURS);
    put_closing(&p);
    CHECK(check_found(&p, 4, PPSPP_HANDSHAKE, 0, PPSPP_OPTIONS_END, 0, 0, 0) == 10);
    p.bytes[4] = 7;
    CHECK(ppspp_read(p.bytes, p.n, PPSPP_RANGES, 4, found) == PPSPP_STEP_REFUSED);
}
