#!/usr/bin/env python3
"""Writes hashes.h: roots and nodes by Python's own SHA-256 and 01's tree rule, for the tests to compare with."""

from hashlib import sha256

CHUNK = 1024
FILLER = bytes(32)
SEVEN = 7162
LENGTHS = [1, 1024, 1025, 2049, 4097, SEVEN, 8192, 8193, 17000, 33000, 524287, 524288]

HEAD = """\
/*
 * Written by hashes.py: the roots of packs of content(), by length, and the nodes of the tree over seven chunks, each
 * at its number. They come from Python's SHA-256 and not from the library. Node 14 is the filler at the last place.
 */
#ifndef HASHES_H
#define HASHES_H

#include "ppspp.h"

struct known_root {
    uint32_t length;
    uint8_t root[PPSPP_ROOT_BYTES];
};
"""


def content(length):
    """The first bytes of content(): byte i is the high byte of i times 2654435761 modulo 2^32."""
    return bytes((i * 2654435761 % 2**32) >> 24 for i in range(length))


def nodes(pack):
    """The hash of every node by its number: chunk i is leaf 2i, and a parent stands midway between its children."""
    chunks = [pack[i : i + CHUNK] for i in range(0, len(pack), CHUNK)]
    places = 1
    while places < len(chunks):
        places *= 2
    found = {2 * i: FILLER for i in range(places)}
    found.update({2 * i: sha256(chunk).digest() for i, chunk in enumerate(chunks)})
    step = 1
    while step < places:
        for left in range(step - 1, 2 * places - 1, 4 * step):
            pair = found[left] + found[left + 2 * step]
            all_filler = left - step + 1 >= 2 * len(chunks)
            found[left + step] = FILLER if all_filler else sha256(pair).digest()
        step *= 2
    return [found[number] for number in range(2 * places - 1)]


def root(pack):
    """The node in the middle."""
    found = nodes(pack)
    return found[len(found) // 2]


def braced(digest):
    """A hash as C."""
    octets = [f"0x{octet:02x}" for octet in digest]
    return "{" + ",\n     ".join(", ".join(octets[i : i + 16]) for i in (0, 16)) + "}"


def main():
    print(HEAD)
    print("static const struct known_root KNOWN_ROOTS[] = {")
    for length in LENGTHS:
        print(f"    {{{length}u,\n     {braced(root(content(length)))}}},")
    print("};\n\n#define SEVEN_LENGTH 7162u\n#define SEVEN_CHUNKS 7u\n#define SEVEN_ROOT 7u\n")
    print("static const uint8_t SEVEN_NODES[15][PPSPP_ROOT_BYTES] = {")
    for digest in nodes(content(SEVEN)):
        print(f"    {braced(digest)},")
    print("};\n\n#endif")


main()
