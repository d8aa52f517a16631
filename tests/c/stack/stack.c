/*
 * How much stack the calls touch: each runs on a thread whose stack was filled with one byte before. Under each
 * addressing a pack of 512 chunks is built, and one of its chunks goes from a whole store to an empty one. Prints how
 * many bytes each call touched, those of the thread that stand above it included, and how many of them stand below the
 * frame that made the call; the status is 1 if these are more than the limit.
 */
#define _POSIX_C_SOURCE 200809L

#include <pthread.h>
#include <stdio.h>
#include <string.h>

#include "ppspp_store.h"

#define LIMIT (8u * 1024u)
#define STACK_BYTES (1024u * 1024u)
#define FILL 0xA5u
#define CHUNKS 512u

PPSPP_DEFINE_STORE(server, CHUNKS);
PPSPP_DEFINE_STORE(van, CHUNKS);

static uint8_t content[PPSPP_MAX_LENGTH];
static uint8_t datagram[PPSPP_MAX_DATAGRAM];
static size_t datagram_n;
static _Alignas(4096) uint8_t stack[STACK_BYTES];
static uint32_t addressing;
static uint32_t answer;
static uint64_t node;
static size_t frame; /* the place in the stack from which the call was made */

/* Keeps the reply of a store as the next datagram. */
static void keep(const struct ppspp_store *store, size_t n)
{
    memcpy(datagram, store->reply, n);
    datagram_n = n;
}

static void nothing(void)
{
    answer = PPSPP_DONE;
}

static void build(void)
{
    const struct ppspp_order order = ppspp_order_to_build(PPSPP_MAX_LENGTH, addressing);
    answer = ppspp_store_build(&server, &order, content, PPSPP_MAX_LENGTH);
}

static void start(void)
{
    struct ppspp_order order;
    ppspp_store_order(&server, &order);
    answer = ppspp_store_start(&van, &order);
}

static void open_channel(void)
{
    size_t n;
    answer = ppspp_store_open(&van, 1, &n);
    keep(&van, n);
}

static void take_handshake(void)
{
    size_t n;
    answer = ppspp_store_take(&server, 0, 2, datagram, datagram_n, &n, &node);
    keep(&server, n);
}

static void take_answer(void)
{
    size_t n;
    answer = ppspp_store_take(&van, 0, 0, datagram, datagram_n, &n, &node);
}

static void write_chunk(void)
{
    size_t n;
    answer = ppspp_store_write(&server, 2, 300, 0, &n);
    keep(&server, n);
}

static void take_chunk(void)
{
    size_t n;
    answer = ppspp_store_take(&van, 0, 0, datagram, datagram_n, &n, &node);
}

static void compose(void)
{
    size_t n;
    answer = ppspp_store_begin(&van, 2, &n);
    if (answer == PPSPP_DONE) {
        answer = ppspp_store_add_request(&van, &n, 0, CHUNKS - 1u);
    }
}

static void close_channel(void)
{
    answer = ppspp_store_close(&van, 1);
}

static void ask(void)
{
    uint32_t held = 0;
    uint32_t whole = 0;
    answer = ppspp_store_ask(&van, &held, &whole);
}

/* A call, and its name. */
struct call {
    const char *name;
    void (*run)(void);
};

/* Makes a call on the thread's stack. */
static void *on_thread(void *given)
{
    const struct call *call = (const struct call *)given;
    const volatile uint8_t here = 0;
    frame = (size_t)((uintptr_t)&here - (uintptr_t)stack);
    call->run();
    return NULL;
}

/* The lowest place of the stack that a call on it touched. */
static size_t lowest(struct call *call)
{
    pthread_attr_t attributes;
    pthread_t thread;
    size_t clean = 0;
    answer = PPSPP_ROOM;
    memset(stack, FILL, sizeof stack);
    if (pthread_attr_init(&attributes) != 0 || pthread_attr_setstack(&attributes, stack, sizeof stack) != 0 ||
        pthread_create(&thread, &attributes, on_thread, call) != 0 || pthread_join(thread, NULL) != 0) {
        return 0;
    }
    while (clean < sizeof stack && stack[clean] == FILL) {
        clean++;
    }
    return clean;
}

/* Makes all calls under the addressing; 1 if one touched more than the limit. */
static int make_all(void)
{
    static struct call calls[] = {
        {"nothing", nothing}, {"build", build}, {"start", start}, {"open", open_channel},
        {"take a HANDSHAKE", take_handshake}, {"take its answer", take_answer}, {"write a chunk", write_chunk},
        {"take a chunk", take_chunk}, {"begin and add", compose}, {"ask", ask}, {"close", close_channel},
    };
    int status = 0;
    for (size_t i = 0; i < sizeof calls / sizeof calls[0]; i++) {
        const size_t place = lowest(&calls[i]);
        const size_t below = frame - place;
        printf("%-17s %6zu bytes of stack, %6zu below its frame, answer %u\n", calls[i].name, sizeof stack - place,
               below, (unsigned)answer);
        if (below > LIMIT || answer != PPSPP_DONE) {
            status = 1;
        }
    }
    return status;
}

int main(void)
{
    printf("under bins\n");
    addressing = PPSPP_BINS;
    const int by_bins = make_all();
    printf("under ranges\n");
    addressing = PPSPP_RANGES;
    const int by_ranges = make_all();
    return by_bins | by_ranges;
}
