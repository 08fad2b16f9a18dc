/* aodv.h: one proved AODV router for a program that brings its own radio.
 *
 * The program hands the router the packets that neighbours have cast (aodv_hear) and data to send
 * (aodv_give), lets it act (aodv_turn, aodv_send, aodv_ask), and casts the packets that it then
 * finds in the outcome. docs/EMBEDDING.md says more: what is proved, and what the program owes.
 *
 * Addresses are numbers in the machine's own order: 10.0.0.1 is 0x0A000001.
 *
 * Ownership. A `struct aodv_router`, the handle, is the program's memory: zeros at first, which
 * hold nothing. aodv_new puts a router into it, and aodv_free takes it out. Only these functions
 * write to it. Its bytes may be moved to another place, and must never be used at both. Bytes and
 * addresses that are handed over are copied, and outcomes, lists and rows are the program's own:
 * nothing that a call leaves points into the library.
 *
 * Lengths. Each pointer to an array is followed by its length, in elements. It is never NULL, even
 * if the length is 0. In an outcome, a list and a row the first `.._len` elements count, and those
 * after them are 0.
 *
 * Threads. The library has no state of its own and starts no thread. Different handles may be used
 * by different threads at the same time; one handle, outcome, list or row by one call at a time.
 *
 * Answers. Each call but aodv_version and aodv_free answers one of the codes below, and is done
 * if it answers AODV_DONE. After every other code the router, the outcome, the list, the row and
 * the number are as they were, with one exception: after AODV_MALFORMED and AODV_NAMES_STRANGER
 * the packet has been taken from the inbox. Memory is asked for in aodv_new, aodv_hear, aodv_give,
 * aodv_turn and aodv_ask alone. */
#ifndef AODV_H
#define AODV_H

#include <stdbool.h>
#include <stddef.h>
#include <stdint.h>

#ifdef __cplusplus
extern "C" {
#endif

/* The number of this interface, which changes whenever a call, a struct or a code does.
 * aodv_version() returns the library's. */
#define AODV_VERSION 1

/* The most addresses of a mesh, bytes of a packet that is cast, and bytes of a datum. */
#define AODV_MOST_NODES 200
#define AODV_LONGEST_PACKET 1604
#define AODV_LONGEST_DATUM 512

/* What a call answers. */
enum {
    AODV_DONE = 0,
    AODV_IDLE = 1,           /* the inbox is empty, or nothing is to be sent or asked for */
    AODV_STRANGER = 2,       /* the mesh has no such address */
    AODV_OWN = 3,            /* the address is the router's own */
    AODV_MALFORMED = 4,      /* the packet can't be read; it is taken */
    AODV_NAMES_STRANGER = 5, /* the packet names an address outside the mesh; it is taken */
    AODV_NO_MEMORY = 6,      /* memory was asked for and not found */
    AODV_HOLDS_NOTHING = 7,  /* the handle holds no router */
    AODV_HOLDS_ONE = 8,      /* the handle holds a router already */
    AODV_LENGTH = 9,         /* the datum has no bytes, or more than 512 */
    AODV_ZERO_NUMBER = 10,   /* the first sequence number is 0 */
    AODV_NO_VARIANT = 11,    /* there is no variant of this number */
    AODV_TWICE = 12,         /* an address is there twice */
    AODV_TOO_MANY = 13,      /* there are more than 200 addresses */
    AODV_NOT_THERE = 14,     /* the router's own address isn't among them */
    AODV_FULL_HOPS = 15,     /* a hop count would go past 255 */
    AODV_FULL_NUMBER = 16,   /* a sequence number would go past 4294967295 */
    AODV_FULL_ID = 17,       /* a request id would go past 4294967295 */
    AODV_NO_ENTRY = 18       /* the table has no entry for the address */
};

/* the old name of AODV_MALFORMED */
#define AODV_UNREADABLE AODV_MALFORMED

/* Variants of the protocol. */
enum {
    AODV_BASE = 0,   /* as the process algebra AWN has AODV */
    AODV_NUMBER = 1, /* requests are told apart by their originator's number, not by their id */
    AODV_REPLY = 2,  /* a reply is passed on wherever the router has valid routes to both ends */
    AODV_ERROR = 3   /* route errors are broadcast */
};

/* What a turn took from the inbox (`took`). */
enum {
    AODV_TOOK_NOTHING = 0, /* nothing: a datum that waited was sent, or a request made */
    AODV_TOOK_OWN = 1,     /* a datum that was given for the router itself */
    AODV_TOOK_STORED = 2,  /* a datum that was given and now waits for a route to `dest` */
    AODV_TOOK_DATA = 3,    /* a data packet from the neighbour `from` */
    AODV_TOOK_REQUEST = 4, /* a route request from it */
    AODV_TOOK_REPLY = 5,   /* a route reply from it */
    AODV_TOOK_ERROR = 6    /* a route error from it */
};

/* To whom a packet goes (`cast`). */
enum {
    AODV_CAST_NOTHING = 0, /* there is no packet */
    AODV_CAST_ONE = 1,     /* to the neighbour to[0] */
    AODV_CAST_MANY = 2,    /* to the neighbours in `to`; perhaps none of them is near */
    AODV_CAST_ALL = 3      /* to all neighbours; `to` is empty */
};

/* A router, or none. */
struct aodv_router {
    void *at;
    bool live;
};

/* What a turn, a send or a request has done. The packet is to be cast unchanged. */
struct aodv_outcome {
    uint32_t took;
    uint32_t from;  /* the neighbour that the packet came from, or 0 */
    uint32_t dest;  /* the destination of a datum that now waits, or 0 */
    bool delivered; /* the datum in `body` has come to its destination, which is this router */
    bool lost;      /* a datum was dropped; if a turn took it, it is the one in `body` */
    bool broken;    /* the next hop `broke` wasn't near, and the routes over it are invalid */
    uint32_t broke; /* or 0 */
    uint32_t cast;
    uint32_t to_len;
    uint32_t to[AODV_MOST_NODES];
    uint32_t packet_len;
    uint8_t packet[AODV_LONGEST_PACKET];
    uint32_t body_len; /* the datum that was taken, unless it waits now */
    uint8_t body[AODV_LONGEST_DATUM];
};

/* Some addresses, in rising order. */
struct aodv_addrs {
    uint32_t len;
    uint32_t addrs[AODV_MOST_NODES];
};

/* An entry of the routing table. */
struct aodv_row {
    uint32_t dsn; /* the destination's sequence number; 0 is unknown */
    bool known;   /* whether that number is known */
    bool valid;   /* whether the route is valid */
    uint32_t hops;
    uint32_t next; /* the next hop towards the destination */
    uint32_t pre_len;
    uint32_t pre[AODV_MOST_NODES]; /* neighbours that were told of this route and may use it */
};

/* The number of the library's interface. */
uint32_t aodv_version(void);

/* Makes a router in a handle that holds nothing. The mesh has exactly the n addresses, each of them
 * once and at most 200; `me` is the router's own; `first` is its first sequence number, which has
 * to be above the last that it had if the router was in the mesh before. All routers of a mesh have
 * the same addresses and the same variant.
 * Refused, by the first that applies: AODV_HOLDS_ONE, AODV_NO_VARIANT, AODV_ZERO_NUMBER; AODV_TWICE
 * or AODV_TOO_MANY, at the first address that can't join those before it; AODV_NOT_THERE. Or
 * AODV_NO_MEMORY. */
uint32_t aodv_new(struct aodv_router *handle, const uint32_t *addrs, size_t n, uint32_t me,
                  uint32_t first, uint32_t variant);

/* Frees the router. The handle then holds nothing; one that held nothing stays so. */
void aodv_free(struct aodv_router *handle);

/* A packet that the neighbour `from` has cast joins the inbox, whatever its bytes are.
 * Refused: AODV_HOLDS_NOTHING, AODV_STRANGER, AODV_OWN, AODV_NO_MEMORY. */
uint32_t aodv_hear(struct aodv_router *handle, uint32_t from, const uint8_t *bytes, size_t n);

/* A datum of 1 to 512 bytes for `dest` joins the inbox.
 * Refused: AODV_HOLDS_NOTHING, AODV_STRANGER, AODV_LENGTH, AODV_NO_MEMORY. */
uint32_t aodv_give(struct aodv_router *handle, uint32_t dest, const uint8_t *body, size_t n);

/* Takes the front item of the inbox, and does with it what AODV does. `near_addrs` are the n
 * addresses that a unicast would reach now; those that the mesh doesn't have are passed over.
 * Refused: AODV_HOLDS_NOTHING, AODV_IDLE (the inbox is empty), AODV_MALFORMED,
 * AODV_NAMES_STRANGER, AODV_FULL_.., AODV_NO_MEMORY. After the last two the item stays in front. */
uint32_t aodv_turn(struct aodv_router *handle, const uint32_t *near_addrs, size_t n,
                   struct aodv_outcome *out);

/* Sends the first datum that waits for `dest` to the next hop, if there is a valid route. If the
 * next hop isn't near the datum stays, and the routes over that hop become invalid.
 * Refused: AODV_HOLDS_NOTHING, AODV_STRANGER, AODV_IDLE, AODV_FULL_NUMBER. */
uint32_t aodv_send(struct aodv_router *handle, const uint32_t *near_addrs, size_t n, uint32_t dest,
                   struct aodv_outcome *out);

/* Asks all neighbours for a route to `dest`, if data wait for it, there is no valid route, and no
 * request was made since the first of them came, the route broke or a route error told of it.
 * Refused: AODV_HOLDS_NOTHING, AODV_STRANGER, AODV_IDLE, AODV_FULL_.., AODV_NO_MEMORY. */
uint32_t aodv_ask(struct aodv_router *handle, uint32_t dest, struct aodv_outcome *out);

/* What may be done next. aodv_items: how many items wait in the inbox; while any do, aodv_turn.
 * aodv_sendable, aodv_askable: the addresses for which aodv_send, or aodv_ask, isn't idle.
 * Refused: AODV_HOLDS_NOTHING. */
uint32_t aodv_items(struct aodv_router *handle, size_t *count);
uint32_t aodv_sendable(struct aodv_router *handle, struct aodv_addrs *list);
uint32_t aodv_askable(struct aodv_router *handle, struct aodv_addrs *list);

/* The router's own sequence number: keep it for a router that is to begin again.
 * Refused: AODV_HOLDS_NOTHING. */
uint32_t aodv_number(struct aodv_router *handle, uint32_t *number);

/* The table's entry for `dest`. Refused: AODV_HOLDS_NOTHING, AODV_STRANGER, AODV_NO_ENTRY. */
uint32_t aodv_entry(struct aodv_router *handle, uint32_t dest, struct aodv_row *row);

/* How many data wait for `dest`. Refused: AODV_HOLDS_NOTHING, AODV_STRANGER. */
uint32_t aodv_waiting(struct aodv_router *handle, uint32_t dest, size_t *count);

/* Whether the request of `originator` with this id was seen. In the variant AODV_NUMBER the
 * originator's number takes the place of the id. Refused: AODV_HOLDS_NOTHING, AODV_STRANGER. */
uint32_t aodv_seen(struct aodv_router *handle, uint32_t originator, uint32_t id, bool *seen);

#ifdef __cplusplus
}
#endif
#endif
