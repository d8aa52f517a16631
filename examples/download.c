/*
 * A van downloads a pack from the server over a link in memory, and a liar on the link sends what he likes; then
 * another van downloads it from a server that names chunks by bins. Every line printed is one datagram: who sent it to
 * whom, what it is, and what the receiving store answered.
 *
 *     cc -std=c11 -I include examples/download.c libloader.a -o download
 *
 * Nothing is allocated. The program checks what it shows, and its status is 1 if anything is not as it says.
 */
#include <stdio.h>
#include <string.h>

#include "ppspp_store.h"

#define LENGTH 7162u
#define CHUNKS PPSPP_CHUNK_COUNT(LENGTH)

/* Channels have an ID at each end, which its owner chooses. */
#define SERVER_ID 7u
#define VAN_ID 5u

PPSPP_DEFINE_STORE(ranges_server, CHUNKS);
PPSPP_DEFINE_STORE(ranges_van, CHUNKS);
PPSPP_DEFINE_STORE(bins_server, CHUNKS);
PPSPP_DEFINE_STORE(bins_van, CHUNKS);
PPSPP_DEFINE_STORE(liar, 1); /* he has no pack, only a room to make datagrams in */

/* What is on the link. A reply is copied out of its store's room before another store takes it in. */
struct datagram {
    uint8_t bytes[PPSPP_MAX_DATAGRAM];
    size_t n;
};

static const struct ppspp_store *server; /* of the running download */
static const struct ppspp_store *van;
static uint8_t content[LENGTH];
static uint64_t now;  /* microseconds; a loader reads its clock here */
static uint64_t node; /* the one that the last answer names */
static int differences;

/* Everything that the program shows, it also checks. */
static void expect(bool holds, const char *what)
{
    if (!holds) {
        differences++;
        printf("NOT SO: %s\n", what);
    }
}

/* The first len bytes of a store's reply room, as a datagram on the link. */
static struct datagram sent(const struct ppspp_store *from, size_t len)
{
    struct datagram d;
    memcpy(d.bytes, from->reply, len);
    d.n = len;
    return d;
}

/* Brings a datagram to a store, with an ID for a channel that it may open. Gives the reply, which may have 0 bytes. */
static struct datagram deliver(const struct datagram *d, const struct ppspp_store *to, uint32_t id, const char *way,
                               const char *what, uint32_t wanted)
{
    size_t len = 0;
    now += 1000;
    const uint32_t answer = ppspp_store_take(to, now, id, d->bytes, d->n, &len, &node);
    printf("%-14s %-44s %2u: %s\n", way, what, (unsigned)answer, ppspp_answer_text(answer));
    if (node != PPSPP_NO_NODE) {
        printf("%64snode %u, chunks %u..%u\n", "", (unsigned)node, (unsigned)ppspp_node_first(node),
               (unsigned)ppspp_node_last(node));
    }
    expect(answer == wanted, "the answer");
    return sent(to, len);
}

static uint32_t held(const struct ppspp_store *store)
{
    uint32_t count = 0;
    uint32_t whole = 0;
    expect(ppspp_store_ask(store, &count, &whole) == PPSPP_DONE, "a store that was started can be asked");
    return count;
}

/* ---- the liar, who sees what the server sends; each lie gets the number, and the node, that tell what is wrong */

static void lie(const struct datagram *d, const char *what, uint32_t wanted, uint64_t wanted_node)
{
    const uint32_t before = held(van);
    const struct datagram reply = deliver(d, van, 0, "liar -> van", what, wanted);
    expect(node == wanted_node, "the node");
    expect(reply.n == 0, "a refusal has no reply");
    expect(held(van) == before, "a refusal stores nothing");
}

/* The chunk does not lead to the node: at first its peak, which came with it, later its own. */
static void flip(const struct datagram *genuine, const char *what, uint64_t missed)
{
    struct datagram d = *genuine;
    d.bytes[d.n - 1] ^= 1;
    lie(&d, what, PPSPP_HASH_MISMATCH, missed);
}

/*
 * Lies made of the server's datagram: from byte 4 on it has hashes, each behind its type and a bin or a range, and at
 * its end the chunk. The first is that of the peak over 0..3, node 3; the root is node 7.
 */
static void alter(const struct datagram *genuine)
{
    const size_t name = ppspp_store_addressing(van) == PPSPP_BINS ? 1 + 4 : 1 + 8;
    const size_t hash = name + 32;
    struct datagram d = *genuine;
    memset(d.bytes + 4 + name, 0xee, 32);
    lie(&d, "the chunk with a forged peak", PPSPP_HASH_MISMATCH, 7);

    d = *genuine;
    memmove(d.bytes + 4, d.bytes + 4 + hash, d.n - 4 - hash);
    d.n -= hash;
    lie(&d, "the chunk without its first hash", PPSPP_HASH_MISSING, 3);

    d = *genuine;
    d.n = 60;
    lie(&d, "the datagram cut off in its second hash", PPSPP_MALFORMED, PPSPP_NO_NODE);

    d = *genuine;
    d.bytes[d.n] = 0;
    d.n++;
    lie(&d, "the chunk with a byte too many", PPSPP_CHUNK_SIZE_WRONG, PPSPP_NO_NODE);
}

/* Lies of his own. */
static void invent(void)
{
    struct datagram d;
    struct ppspp_order order;
    size_t len = 0;
    for (size_t i = 0; i < 200; i++) {
        d.bytes[i] = (uint8_t)(i * i * 37u + 201u);
    }
    d.n = 200;
    lie(&d, "garbage of 200 bytes", PPSPP_MALFORMED, PPSPP_NO_NODE);
    d.n = 3;
    lie(&d, "garbage of 3 bytes", PPSPP_SIZE, PPSPP_NO_NODE);

    /* The root as the one peak of eight chunks: it would prove a chunk that the order has not. */
    expect(ppspp_store_order(van, &order), "the van has an order");
    const struct ppspp_order his = ppspp_order_of(order.root, 1, order.addressing);
    expect(ppspp_store_start(&liar, &his) == PPSPP_DONE, "the liar names chunks as the van does");
    expect(ppspp_store_begin(&liar, VAN_ID, &len) == PPSPP_DONE, "a datagram can be begun");
    expect(ppspp_store_add_integrity(&liar, &len, 0, CHUNKS, order.root) == PPSPP_DONE, "INTEGRITY can be added");
    expect(ppspp_store_add_data(&liar, &len, CHUNKS, now, content, PPSPP_CHUNK_SIZE) == PPSPP_DONE, "so can DATA");
    d = sent(&liar, len);
    lie(&d, "an eighth chunk, the root as its peak", PPSPP_RANGE, PPSPP_NO_NODE);
}

/* ---- the download */

/* The server builds its pack; the van gets the order, with the root that was found, from someone it trusts. */
static void begin(uint32_t addressing)
{
    struct ppspp_order order = ppspp_order_to_build(LENGTH, addressing);
    for (uint32_t i = 0; i < LENGTH; i++) {
        content[i] = (uint8_t)(i * 2654435761u >> 24);
    }
    expect(ppspp_store_build(server, &order, content, sizeof content) == PPSPP_DONE, "the server builds its pack");
    expect(ppspp_store_order(server, &order), "the server's pack has a root");
    expect(ppspp_store_start(van, &order) == PPSPP_DONE, "the van starts under the order");
    printf("a pack of %u bytes, %u chunks named by %s, root ", (unsigned)LENGTH, (unsigned)CHUNKS,
           addressing == PPSPP_BINS ? "bins" : "ranges");
    for (size_t i = 0; i < sizeof order.root; i++) {
        printf("%02x", (unsigned)order.root[i]);
    }
    printf("\n");
}

/* The van calls, the server answers, and both ends are open. */
static void connect_both(void)
{
    size_t len = 0;
    expect(ppspp_store_open(van, VAN_ID, &len) == PPSPP_DONE, "the van opens a channel");
    const struct datagram call = sent(van, len);
    const uint32_t addressing = ppspp_store_addressing(van);
    const char *what =
        addressing == PPSPP_BINS ? "HANDSHAKE to channel 0, with 06 00" : "HANDSHAKE to channel 0, with 06 02";
    expect(call.bytes[52] == 6 && call.bytes[53] == addressing, "behind the root, option 6 is the addressing");
    const struct datagram answer = deliver(&call, server, SERVER_ID, "van -> server", what, PPSPP_DONE);
    deliver(&answer, van, 0, "server -> van", "HANDSHAKE that answers", PPSPP_DONE);
    expect(ppspp_store_row(van, 0).phase == PPSPP_OPEN, "the van's channel is open");
    expect(ppspp_store_row(server, 0).phase == PPSPP_OPEN, "the server's channel is open");
}

/* The server tells what it has, and the van asks for what it lacks. The channel is in row 0 of both. */
static void ask_for_all(void)
{
    size_t len = 0;
    uint32_t last = CHUNKS - 1;
    expect(ppspp_store_begin(server, ppspp_store_row(server, 0).peer, &len) == PPSPP_DONE, "the server begins");
    if (ppspp_store_addressing(server) == PPSPP_BINS) {
        expect(ppspp_store_add_have(server, &len, 0, last) == PPSPP_MALFORMED, "no bin is over 0..6 alone");
        last = PPSPP_LEAF_PLACES(CHUNKS) - 1; /* that over 0..7 means its part inside the pack */
    }
    expect(ppspp_store_add_have(server, &len, 0, last) == PPSPP_DONE, "HAVE is added");
    const struct datagram have = sent(server, len);
    deliver(&have, van, 0, "server -> van", "HAVE of all chunks", PPSPP_DONE);

    expect(ppspp_store_begin(van, ppspp_store_row(van, 0).peer, &len) == PPSPP_DONE, "the van begins");
    for (uint32_t chunk = 0; chunk < CHUNKS; chunk++) {
        if (ppspp_store_peer_has(van, 0, chunk) && !ppspp_store_holds(van, chunk)) {
            expect(ppspp_store_add_request(van, &len, chunk, chunk) == PPSPP_DONE, "REQUEST is added");
        }
    }
    const struct datagram requests = sent(van, len);
    deliver(&requests, server, 0, "van -> server", "REQUEST of each chunk not held", PPSPP_DONE);
}

/*
 * Reads which chunks an ACK names: the longest range of held chunks around the one that came, or the largest bin of
 * them. They come here in their order, so it ends with that one.
 */
static void read_ack(const struct datagram *ack, uint32_t chunk, char *what, size_t what_n)
{
    static const uint32_t first_by_bins[CHUNKS] = {0, 0, 2, 0, 4, 4, 6}; /* bins 0, 1, 4, 3, 8, 9, 12 */
    const uint32_t wanted = ppspp_store_addressing(van) == PPSPP_BINS ? first_by_bins[chunk] : 0;
    uint64_t found[PPSPP_FOUND_WORDS] = {0};
    expect(ppspp_store_read(van, ack->bytes, ack->n, 4, found) == PPSPP_STEP_MESSAGE, "the van replies");
    expect(found[PPSPP_FOUND_TYPE] == PPSPP_ACK, "the reply is an ACK");
    expect(found[PPSPP_FOUND_FIRST] == wanted && found[PPSPP_FOUND_LAST] == chunk, "it names what is held");
    snprintf(what, what_n, "ACK of chunks %u..%u", (unsigned)found[PPSPP_FOUND_FIRST],
             (unsigned)found[PPSPP_FOUND_LAST]);
}

/* A chunk and its ACK; with the first one, lies before and after it. */
static void send_chunk(uint32_t chunk)
{
    size_t len = 0;
    char what[44];
    expect(ppspp_store_peer_wants(server, 0, chunk), "the van wants the chunk");
    expect(ppspp_store_write(server, SERVER_ID, chunk, now, &len) == PPSPP_DONE, "the server writes the chunk");
    const struct datagram genuine = sent(server, len);
    if (chunk == 0) {
        expect(len == (ppspp_store_addressing(server) == PPSPP_BINS ? 1226 : 1250), "a bin has 4 bytes, a range 8");
        flip(&genuine, "the chunk with its last byte flipped", 3);
        alter(&genuine);
        invent();
    }
    snprintf(what, sizeof what, "chunk %u", (unsigned)chunk);
    const struct datagram ack = deliver(&genuine, van, 0, "server -> van", what, PPSPP_DONE);
    expect(held(van) == chunk + 1, "the chunk is held");
    if (chunk == 0) {
        flip(&genuine, "the same chunk again, its last byte flipped", 0);
    }
    read_ack(&ack, chunk, what, sizeof what);
    deliver(&ack, server, 0, "van -> server", what, PPSPP_DONE);
    expect(!ppspp_store_peer_wants(server, 0, chunk), "the van wants it no longer");
}

/* The van closes: a closing HANDSHAKE frees the server's row; the van frees its own by a call. */
static void close_both(void)
{
    size_t len = 0;
    expect(ppspp_store_begin(van, ppspp_store_row(van, 0).peer, &len) == PPSPP_DONE, "the van begins");
    expect(ppspp_store_add_close(van, &len) == PPSPP_DONE, "closing is added");
    const struct datagram closing = sent(van, len);
    deliver(&closing, server, 0, "van -> server", "HANDSHAKE that closes", PPSPP_DONE);
    expect(ppspp_store_close(van, VAN_ID) == PPSPP_DONE, "the van closes its own channel");
    expect(ppspp_store_row(server, 0).phase == PPSPP_FREE, "the server's row is free");
    expect(ppspp_store_row(van, 0).phase == PPSPP_FREE, "the van's row is free");
}

/* A download, from the first call to the last. */
static void download(uint32_t addressing, const struct ppspp_store *from, const struct ppspp_store *to)
{
    uint32_t count = 0;
    uint32_t whole = 0;
    server = from;
    van = to;
    begin(addressing);
    connect_both();
    ask_for_all();
    for (uint32_t chunk = 0; chunk < CHUNKS; chunk++) {
        send_chunk(chunk);
    }
    close_both();
    expect(ppspp_store_ask(van, &count, &whole) == PPSPP_DONE, "the van can be asked");
    const bool equal = memcmp(van->chunks, content, LENGTH) == 0;
    printf("the van holds %u of %u chunks, the pack is %s, its bytes are %s\n", (unsigned)count, (unsigned)CHUNKS,
           whole == 1 ? "whole" : "not whole", equal ? "the server's" : "others");
    expect(count == CHUNKS && whole == 1 && equal, "the van has the whole pack");
}

int main(void)
{
    if (!ppspp_header_matches()) {
        printf("the library has another layout than the header\n");
        return 1;
    }
    download(PPSPP_RANGES, &ranges_server, &ranges_van);
    printf("\n");
    download(PPSPP_BINS, &bins_server, &bins_van);
    expect(memcmp(ranges_van.chunks, bins_van.chunks, LENGTH) == 0, "both vans have the same bytes");
    return differences == 0 ? 0 : 1;
}
