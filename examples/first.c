#include <stdio.h>
#include <string.h>

#include "ppspp_store.h"

PPSPP_DEFINE_STORE(server, 512); /* all eight rooms, static, for packs of up to 512 chunks */
PPSPP_DEFINE_STORE(van, 512);

/* In place of sockets: a reply goes to the other store, with an ID for a channel it may open. Gives its reply's length. */
static size_t bring(const struct ppspp_store *from, size_t len, const struct ppspp_store *to, uint32_t id)
{
    uint8_t datagram[PPSPP_MAX_DATAGRAM];
    uint64_t node; /* the one that 9 or 10 names, for a log */
    memcpy(datagram, from->reply, len);
    puts(ppspp_answer_text(ppspp_store_take(to, 0, id, datagram, len, &len, &node))); /* any bytes, here at clock 0 */
    return len;
}

int main(void)
{
    static const uint8_t content[3000] = "stops, charge windows, maps";
    struct ppspp_order order = ppspp_order_to_build(sizeof content, PPSPP_RANGES);
    uint32_t held = 0, whole = 0, refused = 0; /* each call answers with a number; 0 is done */
    size_t len = 0;
    if (!ppspp_header_matches()) { /* once: header and library have one layout */
        return 1;
    }
    refused |= ppspp_store_build(&server, &order, content, sizeof content);
    ppspp_store_order(&server, &order);                           /* the same, with the root that was found */
    refused |= ppspp_store_start(&van, &order);                   /* a root, a length, and chunks named by ranges */
    refused |= ppspp_store_open(&van, 17, &len);                  /* our channel 17; the reply is our HANDSHAKE */
    len = bring(&van, len, &server, 5);                           /* the server opens 5; the reply is its HANDSHAKE */
    bring(&server, len, &van, 0);                                 /* 0: no one may open a channel */
    const uint32_t peer = ppspp_store_row(&van, ppspp_store_row_of(&van, 17)).peer;
    const uint32_t last = ppspp_store_chunk_count(&van) - 1;
    refused |= ppspp_store_begin(&van, peer, &len);               /* a datagram of any messages: */
    refused |= ppspp_store_add_request(&van, &len, 0, last);      /* .. ask for all */
    bring(&van, len, &server, 0);
    for (uint32_t chunk = 0; chunk <= last; chunk++) {
        refused |= ppspp_store_write(&server, 5, chunk, 0, &len); /* the chunk with its hashes */
        len = bring(&server, len, &van, 0);                       /* stored if it leads to the root; an ACK */
        bring(&van, len, &server, 0);
    }
    refused |= ppspp_store_ask(&van, &held, &whole);              /* whole: 1 exactly when every chunk is there */
    printf("%u chunks held, %s\n", (unsigned)held, whole == 1 ? "whole" : "not whole");
    return refused == 0 && whole == 1 ? 0 : 1;
}
