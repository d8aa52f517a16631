/* Datagrams laid out by hand after 01's table, without the library. Longer ones than 01 allows fit too. */
#ifndef PACKETS_H
#define PACKETS_H

#include "ppspp.h"

#define PACKET_ROOM 2304u

struct packet {
    uint8_t bytes[PACKET_ROOM];
    size_t n;
};

/* A datagram to a channel; so far a keepalive. */
struct packet packet_to(uint32_t destination);

/* Behind what is there. What does not fit is left out. */
void put8(struct packet *p, uint32_t value);
void put32(struct packet *p, uint32_t value);
void put64(struct packet *p, uint64_t value);
void put_bytes(struct packet *p, const uint8_t *bytes, size_t n);

void put_range(struct packet *p, uint32_t type, uint32_t first, uint32_t last);
void put_ack(struct packet *p, uint32_t first, uint32_t last, uint64_t delay);
void put_integrity(struct packet *p, uint32_t first, uint32_t last, const uint8_t *hash);
void put_data(struct packet *p, uint32_t chunk, uint64_t timestamp, const uint8_t *bytes, size_t n);

/* The same with a bin in place of the range (02, No. 1). */
void put_bin(struct packet *p, uint32_t type, uint32_t bin);
void put_bin_ack(struct packet *p, uint32_t bin, uint64_t delay);
void put_bin_integrity(struct packet *p, uint32_t bin, const uint8_t *hash);
void put_bin_data(struct packet *p, uint32_t bin, uint64_t timestamp, const uint8_t *bytes, size_t n);

/* The fixed options have 2 as option 6, or another number. */
void put_handshake(struct packet *p, uint32_t source, const uint8_t *root);
void put_handshake_under(struct packet *p, uint32_t addressing, uint32_t source, const uint8_t *root);
void put_closing(struct packet *p);

#endif
