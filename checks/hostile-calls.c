/* Random calls of random routers with random arguments, some of them packets that a router has cast, changed or not.
 * Each answer must be one that aodv.h names for the call; what a refusal leaves must be as it was; lists are within
 * their bounds and name addresses of the mesh; and a second count of each inbox must agree.
 * usage: hostile-calls CALLS SEED */
#include "aodv.h"

#include <stdio.h>
#include <stdlib.h>
#include <string.h>

enum { ROUTERS = 4, CALLS = 14, CODES = 19 };
enum { NEW, FREE, HEAR, GIVE, TURN, SEND, ASK, ITEMS, SENDABLE, ASKABLE, NUMBER, ENTRY, WAITING, SEEN };

/* A handle, and what is known of it from outside: its mesh, and how many items wait. */
struct known {
    struct aodv_router handle;
    bool live;
    uint32_t addrs[AODV_MOST_NODES];
    size_t nodes, items;
};

static const char *const names[CALLS] = {"new",   "free",     "hear",    "give",   "turn",  "send",    "ask",
                                         "items", "sendable", "askable", "number", "entry", "waiting", "seen"};
/* The answers of each call, as bits. */
#define BIT(code) (1u << (code))
static const uint32_t full = BIT(AODV_FULL_HOPS) | BIT(AODV_FULL_NUMBER) | BIT(AODV_FULL_ID);
static struct known routers[ROUTERS];
static struct aodv_outcome out, before;
static uint8_t last[AODV_LONGEST_PACKET];
static size_t last_len;
static long counts[CALLS][CODES], calls;
static uint64_t state;

static uint32_t chance(uint32_t below) {
    state ^= state << 13;
    state ^= state >> 7;
    state ^= state << 17;
    return (uint32_t)(state >> 20) % below;
}

static void wrong(const char *what) {
    printf("wrong: call %ld: %s\n", calls, what);
    exit(1);
}

static void must(bool holds, const char *what) {
    if (!holds) wrong(what);
}

static void answers(int call, const struct known *it, uint32_t code, uint32_t may) {
    must(code < CODES, "an unknown code");
    counts[call][code]++;
    must((code == AODV_HOLDS_NOTHING) == !it->live, "a handle that holds nothing");
    must(!it->live || (may & BIT(code)), names[call]);
}

static bool has(const struct known *it, uint32_t addr) {
    for (size_t i = 0; i < it->nodes; i++)
        if (it->addrs[i] == addr) return true;
    return false;
}

/* The addresses rise, are of the mesh, and nothing stands behind them. */
static void are_rising(const struct known *it, const uint32_t *addrs, uint32_t len) {
    must(len <= AODV_MOST_NODES, "the length of a list");
    for (uint32_t i = 0; i < AODV_MOST_NODES; i++) {
        must(i < len || addrs[i] == 0, "the rest of a list");
        must(i >= len || has(it, addrs[i]), "an address of the mesh");
        must(i == 0 || i >= len || addrs[i - 1] < addrs[i], "a rising list");
    }
}

static void is_outcome(const struct known *it, bool turned) {
    must(out.took <= AODV_TOOK_ERROR && (out.took != AODV_TOOK_NOTHING) == turned, "what was taken");
    must((out.took >= AODV_TOOK_DATA) == has(it, out.from) || out.from == 0, "the sender");
    must(out.took == AODV_TOOK_STORED ? has(it, out.dest) : out.dest == 0, "the destination");
    must(!out.broken || has(it, out.broke), "the broken link");
    must(!out.delivered || out.body_len > 0, "a delivered datum");
    must(out.cast <= AODV_CAST_ALL && out.packet_len <= AODV_LONGEST_PACKET, "the packet");
    must((out.cast == AODV_CAST_NOTHING) == (out.packet_len == 0), "a packet where one is cast");
    must(out.body_len <= AODV_LONGEST_DATUM, "the body");
    must(out.cast != AODV_CAST_ONE || out.to_len == 1, "one neighbour");
    must(out.cast == AODV_CAST_ONE || out.cast == AODV_CAST_MANY || out.to_len == 0, "no neighbours");
    are_rising(it, out.to, out.to_len);
    if (out.packet_len > 0) memcpy(last, out.packet, last_len = out.packet_len);
}

/* The outcome of a call that was done, or that of before. */
static void look(const struct known *it, uint32_t code, bool turned) {
    if (code == AODV_DONE)
        is_outcome(it, turned);
    else
        must(memcmp(&out, &before, sizeof out) == 0, "a refusal leaves the outcome");
}

static uint32_t any_addr(void) {
    return chance(8) ? chance(12) : (chance(2) ? chance(300) : UINT32_MAX - chance(2));
}

static size_t some_addrs(uint32_t *addrs, size_t most) {
    size_t n = chance((uint32_t)most + 1);
    for (size_t i = 0; i < n; i++) addrs[i] = any_addr();
    return n;
}

static void make(struct known *it) {
    static uint32_t addrs[AODV_MOST_NODES + 10];
    size_t n = chance(6) ? 4 + chance(8) : chance(AODV_MOST_NODES + 10);
    uint32_t me, first = chance(12) ? 1 + chance(5) : (chance(2) ? 0 : UINT32_MAX), variant = chance(20) ? chance(4) : chance(9);
    for (size_t i = 0; i < n; i++) addrs[i] = chance(200) ? (uint32_t)i : any_addr();
    me = n > 0 && chance(12) ? addrs[chance((uint32_t)n)] : any_addr();
    uint32_t may = BIT(AODV_DONE) | BIT(AODV_ZERO_NUMBER) | BIT(AODV_NO_VARIANT) | BIT(AODV_TWICE) | BIT(AODV_TOO_MANY) | BIT(AODV_NOT_THERE);
    uint32_t code = aodv_new(&it->handle, addrs, n, me, first, variant);
    must(code < CODES, "an unknown code");
    counts[NEW][code]++;
    must((code == AODV_HOLDS_ONE) == it->live, "a handle that holds one");
    must(it->live || (may & BIT(code)), "new");
    if (code != AODV_DONE) return;
    it->live = true;
    it->items = 0;
    memcpy(it->addrs, addrs, (it->nodes = n) * sizeof *addrs);
}

static void hear(struct known *it) {
    static uint8_t bytes[4000];
    size_t n = chance(4) ? chance(60) : chance(sizeof bytes);
    for (size_t i = 0; i < n; i++) bytes[i] = (uint8_t)chance(256);
    if (n > 0 && chance(3)) bytes[0] = chance(8) ? (uint8_t)(1 + chance(4)) : 16;
    const uint8_t *packet = bytes;
    if (last_len > 0 && chance(3)) {
        packet = last, n = last_len;
        if (chance(3) == 0) last[chance((uint32_t)last_len)] = (uint8_t)chance(256);
    }
    uint32_t code = aodv_hear(&it->handle, any_addr(), packet, n);
    answers(HEAR, it, code, BIT(AODV_DONE) | BIT(AODV_STRANGER) | BIT(AODV_OWN));
    it->items += code == AODV_DONE;
}

static void give(struct known *it) {
    static uint8_t body[700];
    uint32_t dest = any_addr(), n = chance(4) ? 1 + chance(40) : chance(sizeof body);
    for (size_t i = 0; i < n; i++) body[i] = (uint8_t)chance(256);
    uint32_t code = aodv_give(&it->handle, dest, body, n);
    bool there = it->live && has(it, dest), fits = n >= 1 && n <= AODV_LONGEST_DATUM;
    answers(GIVE, it, code, there ? (fits ? BIT(AODV_DONE) : BIT(AODV_LENGTH)) : BIT(AODV_STRANGER));
    it->items += code == AODV_DONE;
}

static void turn(struct known *it) {
    uint32_t near_addrs[8];
    size_t n = some_addrs(near_addrs, 8);
    uint32_t code = aodv_turn(&it->handle, near_addrs, n, &out);
    uint32_t taken = BIT(AODV_DONE) | BIT(AODV_MALFORMED) | BIT(AODV_NAMES_STRANGER);
    answers(TURN, it, code, it->items > 0 ? taken | full : BIT(AODV_IDLE));
    it->items -= (taken & BIT(code)) != 0;
    look(it, code, true);
}

static void act(struct known *it, bool asks) {
    uint32_t near_addrs[8], dest = any_addr();
    size_t n = some_addrs(near_addrs, 8);
    static struct aodv_addrs list;
    uint32_t found = asks ? aodv_askable(&it->handle, &list) : aodv_sendable(&it->handle, &list);
    answers(asks ? ASKABLE : SENDABLE, it, found, BIT(AODV_DONE));
    if (it->live) are_rising(it, list.addrs, list.len);
    if (it->live && list.len > 0 && chance(3)) dest = list.addrs[chance(list.len)];
    bool may = false;
    for (uint32_t i = 0; it->live && i < list.len; i++) may |= list.addrs[i] == dest;
    uint32_t code = asks ? aodv_ask(&it->handle, dest, &out) : aodv_send(&it->handle, near_addrs, n, dest, &out);
    bool there = it->live && has(it, dest);
    answers(asks ? ASK : SEND, it, code, !there ? BIT(AODV_STRANGER) : may ? BIT(AODV_DONE) | full : BIT(AODV_IDLE));
    look(it, code, false);
}

static void read_it(struct known *it) {
    size_t items = 77, waiting = 77;
    uint32_t number = 0, dest = any_addr();
    bool seen = false, there = it->live && has(it, dest);
    static struct aodv_row row;
    uint32_t at = there ? BIT(AODV_DONE) : BIT(AODV_STRANGER);
    answers(ITEMS, it, aodv_items(&it->handle, &items), BIT(AODV_DONE));
    must(items == (it->live ? it->items : 77), "the items of the inbox");
    answers(NUMBER, it, aodv_number(&it->handle, &number), BIT(AODV_DONE));
    must((number > 0) == it->live, "the router's own number");
    answers(WAITING, it, aodv_waiting(&it->handle, dest, &waiting), at);
    must(there || waiting == 77, "a refusal leaves the count");
    answers(SEEN, it, aodv_seen(&it->handle, dest, chance(5), &seen), at);
    uint32_t code = aodv_entry(&it->handle, dest, &row);
    answers(ENTRY, it, code, there ? BIT(AODV_DONE) | BIT(AODV_NO_ENTRY) : BIT(AODV_STRANGER));
    if (code != AODV_DONE) return;
    must(row.hops >= 1 && row.hops <= 255 && has(it, row.next), "an entry");
    are_rising(it, row.pre, row.pre_len);
}

static void call_any(struct known *it) {
    uint32_t kind = chance(32);
    memcpy(&before, &out, sizeof out);
    if (kind < 2 || (!it->live && chance(3) == 0)) make(it);
    if (kind == 2 && chance(12) == 0) {
        aodv_free(&it->handle);
        it->live = false;
        it->items = 0;
        counts[FREE][AODV_DONE]++;
    } else if (kind < 12) {
        hear(it);
    } else if (kind < 15) {
        give(it);
    } else if (kind < 26) {
        turn(it);
    } else if (kind < 30) {
        act(it, kind < 28);
    } else {
        read_it(it);
    }
}

int main(int argc, char **argv) {
    long most = argc > 1 ? atol(argv[1]) : 1000000;
    state = argc > 2 ? strtoull(argv[2], NULL, 10) : 88172645463325252u;
    must(aodv_version() == AODV_VERSION, "the version");
    for (calls = 0; calls < most; calls++) call_any(&routers[chance(ROUTERS)]);
    for (int i = 0; i < ROUTERS; i++) aodv_free(&routers[i].handle);
    for (int call = 0; call < CALLS; call++) {
        printf("%-9s", names[call]);
        for (int code = 0; code < CODES; code++)
            if (counts[call][code] > 0) printf(" %d:%ld", code, counts[call][code]);
        printf("\n");
    }
    return 0;
}
