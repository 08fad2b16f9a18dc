/* A datum goes down a line of five routers, each of which has only its neighbours near. */
#include "aodv.h"

#include <stdio.h>
#include <stdlib.h>
#include <string.h>

enum { NODES = 5 };

static struct aodv_router routers[NODES];
static struct aodv_outcome out;
static struct aodv_addrs list;
static uint32_t addrs[NODES]; /* 10.0.0.1 and on */

static void must(uint32_t code) {
    if (code != AODV_DONE) {
        fprintf(stderr, "refused: %u\n", code);
        exit(1);
    }
}

/* The addresses near router i, and how many. */
static size_t near_of(size_t i, uint32_t near_addrs[2]) {
    size_t n = 0;
    if (i > 0) near_addrs[n++] = addrs[i - 1];
    if (i + 1 < NODES) near_addrs[n++] = addrs[i + 1];
    return n;
}

static bool goes_to(uint32_t addr) {
    for (uint32_t k = 0; k < out.to_len; k++)
        if (out.to[k] == addr) return true;
    return out.cast == AODV_CAST_ALL;
}

/* Tells what router i has done, and hands its packet to those near that it goes to. */
static void cast_from(size_t i) {
    uint32_t near_addrs[2];
    size_t n = near_of(i, near_addrs);
    if (out.delivered)
        printf("10.0.0.%zu has \"%.*s\"\n", i + 1, (int)out.body_len, (const char *)out.body);
    for (size_t k = 0; k < n; k++) {
        struct aodv_router *to = &routers[near_addrs[k] - addrs[0]];
        if (goes_to(near_addrs[k])) must(aodv_hear(to, addrs[i], out.packet, out.packet_len));
    }
}

/* All that router i may do now. False where that is nothing. */
static bool act(size_t i) {
    uint32_t near_addrs[2];
    size_t n = near_of(i, near_addrs), items;
    bool acted = false;
    for (must(aodv_items(&routers[i], &items)); items > 0; items--) {
        must(aodv_turn(&routers[i], near_addrs, n, &out));
        cast_from(i);
        acted = true;
    }
    must(aodv_sendable(&routers[i], &list));
    for (uint32_t k = 0; k < list.len; k++) {
        must(aodv_send(&routers[i], near_addrs, n, list.addrs[k], &out));
        cast_from(i);
        acted = true;
    }
    must(aodv_askable(&routers[i], &list));
    for (uint32_t k = 0; k < list.len; k++) {
        must(aodv_ask(&routers[i], list.addrs[k], &out));
        cast_from(i);
        acted = true;
    }
    return acted;
}

int main(void) {
    static const char hello[] = "hello";
    bool acted = true;
    for (size_t i = 0; i < NODES; i++) addrs[i] = 0x0A000001u + (uint32_t)i;
    for (size_t i = 0; i < NODES; i++)
        must(aodv_new(&routers[i], addrs, NODES, addrs[i], 1, AODV_BASE));
    must(aodv_give(&routers[0], addrs[NODES - 1], (const uint8_t *)hello, strlen(hello)));
    while (acted) {
        acted = false;
        for (size_t i = 0; i < NODES; i++) acted |= act(i);
    }
    for (size_t i = 0; i < NODES; i++) aodv_free(&routers[i]);
    return 0;
}
