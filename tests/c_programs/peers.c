/* A packet gateway for each of two peers under one address: each datagram goes to the gateway of the peer that it comes from. And the
 * places of addresses: of both IP versions, repeated, unknown, taken away, a thousand; handles that are empty, open and moved. */
#include "check.h"

/* It stands at this place; all the other octets of an IPv4 address say nothing. */
static void stands(gtp_places *p, struct gtp_address address, uint64_t wanted) {
    uint64_t place = 99;
    CHECK(gtp_places_find(p, &address, &place) == GTP_DONE && place == wanted);
    if (address.version == 4) memset(address.octets + 4, 0xa5, 12);
    CHECK(gtp_places_find(p, &address, &place) == GTP_DONE && place == wanted);
}

static void is_unknown(gtp_places *p, struct gtp_address address) {
    uint64_t place = 99;
    CHECK(gtp_places_find(p, &address, &place) == GTP_NONE && place == 99);
}

static void add(gtp_places *p, struct gtp_address address) { CHECK(gtp_places_add(p, &address) == GTP_DONE); }

/* Every call on a handle that is empty says so, before it looks at the address, and changes nothing. */
static void empty(gtp_places *p) {
    struct gtp_address good = v4(1), bad = { 5, { 0 } };
    uint64_t place = 99;
    CHECK(gtp_places_add(p, &good) == GTP_EMPTY && gtp_places_add(p, &bad) == GTP_EMPTY && gtp_places_pop(p) == GTP_EMPTY);
    CHECK(gtp_places_find(p, &good, &place) == GTP_EMPTY && gtp_places_find(p, &bad, &place) == GTP_EMPTY && place == 99);
    CHECK(gtp_places_free(p) == GTP_EMPTY && !p->hidden && !p->count);
}

static void bad(gtp_places *p) {
    uint64_t place = 99;
    for (int version = 0; version < 256; version++) {
        struct gtp_address address = { (uint8_t)version, { 10, 0, 0, 1 } };
        if (version == 4 || version == 6) continue;
        CHECK(gtp_places_add(p, &address) == GTP_BAD_VALUE);
        CHECK(gtp_places_find(p, &address, &place) == GTP_BAD_VALUE && place == 99);
    }
}

static void handles(void) {
    gtp_places p = {0}, moved;
    empty(&p);
    CHECK(gtp_places_new(&p) == GTP_DONE && gtp_places_new(&p) == GTP_NOT_EMPTY);
    CHECK(gtp_places_pop(&p) == GTP_NONE);
    is_unknown(&p, v4(1));
    bad(&p);
    add(&p, v4(1));
    CHECK(gtp_places_new(&p) == GTP_NOT_EMPTY);
    moved = p; memset(&p, 0, sizeof p);
    empty(&p);
    stands(&moved, v4(1), 0);
    CHECK(gtp_places_free(&moved) == GTP_DONE);
    empty(&moved);
    CHECK(gtp_places_new(&moved) == GTP_DONE);
    is_unknown(&moved, v4(1));
    CHECK(gtp_places_free(&moved) == GTP_DONE);
}

/* An address that comes again keeps its first place, also once the later one is taken away. */
static void repeated(void) {
    gtp_places p = {0};
    struct gtp_address same_octets = v4(1);
    same_octets.version = 6;
    CHECK(gtp_places_new(&p) == GTP_DONE);
    add(&p, v4(1)); add(&p, v6(1)); add(&p, v4(1)); add(&p, v4(2)); add(&p, v6(1));
    stands(&p, v4(1), 0); stands(&p, v6(1), 1); stands(&p, v4(2), 3);
    is_unknown(&p, v4(3)); is_unknown(&p, v6(2)); is_unknown(&p, same_octets);
    bad(&p);
    CHECK(gtp_places_pop(&p) == GTP_DONE);
    stands(&p, v6(1), 1);
    CHECK(gtp_places_pop(&p) == GTP_DONE);
    is_unknown(&p, v4(2));
    add(&p, v6(2));
    stands(&p, v6(2), 3);
    for (int left = 4; left > 0; left--) CHECK(gtp_places_pop(&p) == GTP_DONE);
    is_unknown(&p, v4(1)); is_unknown(&p, v6(1));
    CHECK(gtp_places_pop(&p) == GTP_NONE && gtp_places_free(&p) == GTP_DONE);
}

/* The address of the peer at this place of many: every third has one of version 6. */
static struct gtp_address numbered(unsigned place) {
    struct gtp_address a = place % 3 ? v4(1) : v6(1);
    a.octets[1] = (uint8_t)(place * 7 % 256); a.octets[3] = (uint8_t)(place % 256); a.octets[2] = (uint8_t)(place / 256);
    return a;
}

static void many(void) {
    enum { ALL = 1000 };
    gtp_places p = {0};
    CHECK(gtp_places_new(&p) == GTP_DONE);
    for (unsigned place = 0; place < ALL; place++) { is_unknown(&p, numbered(place)); add(&p, numbered(place)); }
    for (unsigned place = 0; place < ALL; place++) stands(&p, numbered(place), place);
    for (unsigned place = ALL; place < 2 * ALL; place++) is_unknown(&p, numbered(place));
    for (unsigned left = ALL; left > ALL / 2; left--) CHECK(gtp_places_pop(&p) == GTP_DONE);
    for (unsigned place = 0; place < ALL; place++)
        if (place < ALL / 2) stands(&p, numbered(place), place);
        else is_unknown(&p, numbered(place));
    CHECK(gtp_places_free(&p) == GTP_DONE);
}

enum { PEERS = 2 };
struct node { gtp_gateway gateways[PEERS]; gtp_places planes[2]; };

/* A datagram comes to the node: it goes to the gateway of the peer that has the address of its source on this plane. */
static uint8_t came(struct node *n, const struct gtp_end *source, uint8_t plane, const uint8_t *octets, size_t len, uint64_t *peer,
                    struct gtp_told *told) {
    uint8_t status = gtp_places_find(&n->planes[plane], &source->address, peer);
    return status == GTP_DONE ? gtp_gateway_receive(&n->gateways[*peer], source, plane, octets, len, told) : status;
}

/* All that waits at a serving gateway goes to the node, and all that waits at its gateway there back. */
static void exchange(gtp_gateway *serving, struct node *n, uint64_t peer, struct gtp_told *told) {
    uint8_t buffer[2048] = {0};
    struct gtp_datagram d;
    memset(&d, 0, sizeof d);
    while (gtp_gateway_take(serving, buffer, sizeof buffer, &d) == GTP_DONE) {
        uint64_t place = 99;
        CHECK(came(n, &d.from, d.plane, buffer, d.len, &place, told) == GTP_DONE && place == peer);
    }
    while (gtp_gateway_take(&n->gateways[peer], buffer, sizeof buffer, &d) == GTP_DONE)
        CHECK(gtp_gateway_receive(serving, &d.from, d.plane, buffer, d.len, told) == GTP_DONE);
}

static void node(void) {
    struct node n;
    gtp_gateway serving[PEERS];
    struct gtp_told told; struct gtp_session_row session; struct gtp_bearer_row bearer;
    memset(&n, 0, sizeof n); memset(serving, 0, sizeof serving);
    memset(&told, 0, sizeof told); memset(&session, 0, sizeof session); memset(&bearer, 0, sizeof bearer);
    for (int plane = 0; plane < 2; plane++) CHECK(gtp_places_new(&n.planes[plane]) == GTP_DONE);
    for (uint8_t k = 0; k < PEERS; k++) {
        struct gtp_setup s = setup_of(GTP_SERVING, false), p = setup_of(GTP_PACKET, false);
        /* The peers have addresses of their own on the control plane, and one for both on the user plane with the planes swapped. */
        s.own_control = p.peer_control = v4((uint8_t)(11 + k));
        s.own_user = p.peer_user = k ? v4(11) : v6(12);
        p.pool += 1000u * k;
        CHECK(gtp_gateway_new(&serving[k], &s, text(""), 0) == GTP_DONE);
        CHECK(gtp_gateway_new(&n.gateways[k], &p, text("internet"), 8) == GTP_DONE);
        add(&n.planes[GTP_CONTROL], p.peer_control);
        add(&n.planes[GTP_USER], p.peer_user);
    }
    for (uint64_t k = 0; k < PEERS; k++) {
        CHECK(create(&serving[k], "001010123456789", 1, &told) == GTP_DONE);
        exchange(&serving[k], &n, k, &told);
        CHECK(told.outcome.kind == GTP_OPENED && gtp_gateway_bearer_at(&serving[k], 0, &bearer) == GTP_DONE);
        CHECK(gtp_gateway_session_at(&serving[k], 0, &session) == GTP_DONE && session.v4[2] == (k ? 3 : 0));
        CHECK(gtp_gateway_send_user(&serving[k], bearer.teid, text("p"), 1, &told) == GTP_DONE);
        exchange(&serving[k], &n, k, &told);
        CHECK(told.outcome.kind == GTP_ACCEPTED && told.teid == bearer.remote);
        for (uint64_t other = 0; other < PEERS; other++)
            CHECK(gtp_gateway_session_at(&n.gateways[other], 0, &session) == (other <= k ? GTP_DONE : GTP_NONE));
    }
    struct gtp_end stranger = { v4(9), 2123 }, control_alone = { v4(12), 2152 };
    uint8_t echo[13] = { 0x40, 1, 0, 9, 0, 0, 1, 0, 3, 0, 1, 0, 1 };
    uint64_t place = 99;
    CHECK(came(&n, &stranger, GTP_CONTROL, echo, sizeof echo, &place, &told) == GTP_NONE && place == 99);
    CHECK(came(&n, &control_alone, GTP_USER, echo, sizeof echo, &place, &told) == GTP_NONE && place == 99);
    for (int k = 0; k < PEERS; k++) CHECK(gtp_gateway_free(&serving[k]) == GTP_DONE && gtp_gateway_free(&n.gateways[k]) == GTP_DONE);
    for (int plane = 0; plane < 2; plane++) CHECK(gtp_places_free(&n.planes[plane]) == GTP_DONE);
}

int main(void) {
    handles();
    repeated();
    many();
    node();
    return 0;
}
