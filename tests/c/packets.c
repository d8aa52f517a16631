#include "packets.h"

static const uint8_t OPTIONS_HEAD[] = {0x00, 0x01, 0x01, 0x01, 0x02, 0x00, 0x20};
static const uint8_t OPTIONS_METHODS[] = {0x03, 0x01, 0x04, 0x02, 0x06};
static const uint8_t OPTIONS_TAIL[] = {0x09, 0x00, 0x00, 0x04, 0x00, 0xff};

struct packet packet_to(uint32_t destination)
{
    struct packet p;
    p.n = 0;
    put32(&p, destination);
    return p;
}

void put8(struct packet *p, uint32_t value)
{
    if (p->n < PACKET_ROOM) {
        p->bytes[p->n] = (uint8_t)value;
        p->n++;
    }
}

void put32(struct packet *p, uint32_t value)
{
    for (int shift = 24; shift >= 0; shift -= 8) {
        put8(p, (value >> shift) & 0xffu);
    }
}

void put64(struct packet *p, uint64_t value)
{
    put32(p, (uint32_t)(value >> 32));
    put32(p, (uint32_t)value);
}

void put_bytes(struct packet *p, const uint8_t *bytes, size_t n)
{
    for (size_t i = 0; i < n; i++) {
        put8(p, bytes[i]);
    }
}

void put_range(struct packet *p, uint32_t type, uint32_t first, uint32_t last)
{
    put8(p, type);
    put32(p, first);
    put32(p, last);
}

void put_ack(struct packet *p, uint32_t first, uint32_t last, uint64_t delay)
{
    put_range(p, 2, first, last);
    put64(p, delay);
}

void put_integrity(struct packet *p, uint32_t first, uint32_t last, const uint8_t *hash)
{
    put_range(p, 4, first, last);
    put_bytes(p, hash, 32);
}

void put_data(struct packet *p, uint32_t chunk, uint64_t timestamp, const uint8_t *bytes, size_t n)
{
    put_range(p, 1, chunk, chunk);
    put64(p, timestamp);
    put_bytes(p, bytes, n);
}

void put_bin(struct packet *p, uint32_t type, uint32_t bin)
{
    put8(p, type);
    put32(p, bin);
}

void put_bin_ack(struct packet *p, uint32_t bin, uint64_t delay)
{
    put_bin(p, 2, bin);
    put64(p, delay);
}

void put_bin_integrity(struct packet *p, uint32_t bin, const uint8_t *hash)
{
    put_bin(p, 4, bin);
    put_bytes(p, hash, 32);
}

void put_bin_data(struct packet *p, uint32_t bin, uint64_t timestamp, const uint8_t *bytes, size_t n)
{
    put_bin(p, 1, bin);
    put64(p, timestamp);
    put_bytes(p, bytes, n);
}

void put_handshake(struct packet *p, uint32_t source, const uint8_t *root)
{
    put_handshake_under(p, 2, source, root);
}

void put_handshake_under(struct packet *p, uint32_t addressing, uint32_t source, const uint8_t *root)
{
    put8(p, 0);
    put32(p, source);
    put_bytes(p, OPTIONS_HEAD, sizeof OPTIONS_HEAD);
    put_bytes(p, root, 32);
    put_bytes(p, OPTIONS_METHODS, sizeof OPTIONS_METHODS);
    put8(p, addressing);
    put_bytes(p, OPTIONS_TAIL, sizeof OPTIONS_TAIL);
}

void put_closing(struct packet *p)
{
    put8(p, 0);
    put32(p, 0);
    put8(p, 255);
}
