#include "chance.h"

#include <string.h>

static uint64_t state;

void chance_seed(uint64_t seed)
{
    state = seed;
}

/* SplitMix64. */
uint64_t chance(void)
{
    state += 0x9e3779b97f4a7c15u;
    uint64_t z = state;
    z = (z ^ (z >> 30)) * 0xbf58476d1ce4e5b9u;
    z = (z ^ (z >> 27)) * 0x94d049bb133111ebu;
    return z ^ (z >> 31);
}

uint32_t below(uint32_t n)
{
    return (uint32_t)(chance() % n);
}

int one_in(uint32_t n)
{
    return below(n) == 0;
}

uint32_t any_chunk(uint32_t n)
{
    switch (below(8)) {
    case 0:
        return n;
    case 1:
        return n - 1;
    case 2:
        return (uint32_t)chance();
    default:
        return below(n);
    }
}

uint32_t any_bin(uint32_t n)
{
    switch (below(8)) {
    case 0:
        return 0xffffffffu;
    case 1:
        return 0x7fffffffu;
    case 2:
        return (uint32_t)chance();
    default:
        return below(2 * n + 2);
    }
}

struct packet any_bytes(uint32_t destination)
{
    struct packet p = packet_to(destination);
    const uint32_t n = one_in(8) ? below(2200) : below(80);
    while (p.n < 4 + n) {
        put8(&p, (uint32_t)chance() & (one_in(2) ? 0x0fu : 0xffu));
    }
    return p;
}

/* One message, its type any of 01's but HANDSHAKE and DATA. */
static void put_any(struct packet *p, uint32_t addressing, uint32_t n)
{
    static const uint32_t types[] = {2, 3, 4, 8, 9, 10, 11};
    const uint32_t type = types[below(7)];
    const uint32_t first = any_chunk(n);
    const uint32_t last = one_in(2) ? first : any_chunk(n);
    if (type >= 10) {
        put8(p, type);
        return;
    }
    if (addressing == PPSPP_BINS) {
        put_bin(p, type, any_bin(n));
    } else {
        put_range(p, type, first, last);
    }
    for (uint32_t behind = type == 2 ? 8 : type == 4 ? 32 : 0; behind > 0; behind--) {
        put8(p, (uint32_t)chance());
    }
}

struct packet any_messages(uint32_t destination, uint32_t addressing, uint32_t n)
{
    struct packet p = packet_to(destination);
    for (uint32_t left = below(6); left > 0; left--) {
        put_any(&p, addressing, n);
    }
    return p;
}

/* Leaves out some bytes from a place on. */
static void leave_out(struct packet *p, size_t at, size_t count)
{
    if (at + count <= p->n) {
        memmove(p->bytes + at, p->bytes + at + count, p->n - at - count);
        p->n -= count;
    }
}

/* Puts a 32-bit number over what stands at a place. */
static void overwrite(struct packet *p, size_t at, uint32_t value)
{
    struct packet number = packet_to(value);
    if (at + 4 <= p->n) {
        memcpy(p->bytes + at, number.bytes, 4);
    }
}

void damage(struct packet *p, uint32_t addressing, uint32_t n)
{
    const uint32_t size = (uint32_t)p->n;
    const uint32_t hash = addressing == PPSPP_BINS ? 37 : 41;
    if (size == 0) {
        return;
    }
    switch (below(7)) {
    case 0:
        for (uint32_t left = 1 + below(3); left > 0; left--) {
            p->bytes[below(size)] ^= (uint8_t)(1u << below(8));
        }
        break;
    case 1:
        p->n = below(size);
        break;
    case 2:
        for (uint32_t left = 1 + below(40); left > 0; left--) {
            put8(p, (uint32_t)chance());
        }
        break;
    case 3:
        overwrite(p, below(size), addressing == PPSPP_BINS ? any_bin(n) : any_chunk(n));
        break;
    case 4:
        leave_out(p, below(size), 1 + below(4));
        break;
    case 5:
        leave_out(p, 4 + hash * below(6), hash);
        break;
    default:
        overwrite(p, 0, one_in(2) ? below(20) : (uint32_t)chance());
        break;
    }
}
