/* Numbers from a fixed seed, so that every run makes the same calls. */
#ifndef CHANCE_H
#define CHANCE_H

#include "packets.h"

/* Begins the row of numbers again, from a seed. */
void chance_seed(uint64_t seed);

/* The next number: any of 64 bits, or one below n, which is not 0. */
uint64_t chance(void);
uint32_t below(uint32_t n);

/* True once in n times. */
int one_in(uint32_t n);

/* A number near what a pack of n chunks has, or any. */
uint32_t any_chunk(uint32_t n);

/* A bin near those of a pack of n chunks, the empty one, everything, or any. */
uint32_t any_bin(uint32_t n);

/* A datagram to a channel: any bytes, or some messages by ranges or bins with any numbers for a pack of n chunks. */
struct packet any_bytes(uint32_t destination);
struct packet any_messages(uint32_t destination, uint32_t addressing, uint32_t n);

/* Damages a datagram: bits, bytes or numbers in it, its end, its destination, a piece missing, or a hash. */
void damage(struct packet *p, uint32_t addressing, uint32_t n);

#endif
