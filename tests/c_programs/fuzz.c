/* For libFuzzer: an input is a datagram, or a conversation with one gateway. The library is not instrumented, so what is new is told
 * by counters over what the calls answer: statuses, faults, types, outcomes and causes, and pairs of outcomes one after the other.
 *
 * The first octet says what it is: 0 a datagram of the control plane, 1 of the user plane, 2 a conversation with a serving gateway,
 * 3 with a packet gateway. A conversation is a list of steps, each an octet and what belongs to it (`step`).
 *
 * With SEEDS defined it is a program that plays two gateways and prints what each was handed, as inputs in hexadecimal digits. */
#include "reading.h"

#define COUNTERS 65536
#ifdef SEEDS
static uint8_t counters[COUNTERS];
#else
__attribute__((section("__libfuzzer_extra_counters"))) static uint8_t counters[COUNTERS];
#endif

/* This answer was seen. */
static void seen(uint32_t kind, uint32_t a, uint32_t b, uint32_t c) {
    uint32_t h = kind * 2654435761u ^ a * 40503u ^ b * 2246822519u ^ c * 3266489917u;
    counters[(h ^ h >> 15) % COUNTERS] = 1;
}

static void read_datagram(bool user, const uint8_t *octets, size_t len) {
    struct gtp_head head = {0};
    struct gtp_user_head user_head;
    struct gtp_fault fault = {0};
    struct gtp_element e = {0};
    memset(&user_head, 0, sizeof user_head);
    if (user) {
        uint8_t status = gtp_user_read(octets, len, &user_head, &fault);
        seen(1, status, fault.number, user_head.kind + 256u * user_head.extension);
        seen(2, user_head.has_seq, user_head.has_npdu, user_head.peer.version);
        read_user(octets, len, len < 200);
        return;
    }
    uint8_t status = gtp_control_read(octets, len, &head, &fault);
    seen(3, status, fault.number + 16u * fault.detail, fault.element + 256u * fault.message);
    seen(4, head.kind, head.has_teid + 2u * head.has_priority, head.second_len != 0);
    for (uint64_t at = 12; gtp_element_next(octets, len, at, &e) == GTP_DONE; at = e.body_at + e.len) seen(5, head.kind, e.kind, e.instance);
    read_control(octets, len, len < 200);
}

struct talk {
    gtp_gateway gateway;
    uint8_t role;
    uint32_t last;
    const uint8_t *at, *end;
};

static uint8_t octet(struct talk *t) { return t->at < t->end ? *t->at++ : 0; }

static uint32_t number(struct talk *t) { uint32_t a = octet(t), b = octet(t); return a << 8 | b; }

/* An answer of the gateway: its status is one that the call has. */
static void answered(struct talk *t, uint8_t call, uint8_t status, const struct gtp_told *told) {
    bool command = call >= 4;
    CHECK(status <= 3 || (command && status == GTP_REFUSED));
    CHECK(status != GTP_REFUSED || (told->outcome.kind == GTP_NOT_BEGUN && told->outcome.cause >= 1 && told->outcome.cause <= 8));
    CHECK(told->outcome.kind <= GTP_TICKED && told->second.kind < GTP_TICKED && told->waiting <= 4352);
    uint32_t now = told->outcome.kind + 16u * told->second.kind;
    seen(6, call + 32u * t->role, status + 16u * now, told->outcome.cause + 256u * told->outcome.fault);
    seen(7, t->last, now, told->restarted + 2u * told->made);
    t->last = now;
}

/* 0 a tick; 1 a datagram of the peer, 2 of any end: plane, length and octets; 3 takes one datagram; 4 to 11 the commands. */
static void step(struct talk *t) {
    struct gtp_told told;
    struct gtp_datagram d;
    memset(&told, 0, sizeof told); memset(&d, 0, sizeof d);
    uint8_t call = octet(t) % 12, status = 0;
    if (call == 1 || call == 2) {
        uint8_t plane = octet(t) % 2;
        struct gtp_end source = { v4(t->role == GTP_SERVING ? 2 : 1), plane ? 2152 : 2123 };
        if (call == 2) source = (struct gtp_end){ v4(octet(t)), (uint16_t)number(t) };
        size_t len = number(t), left = (size_t)(t->end - t->at);
        if (len > left) len = left;
        uint8_t *octets = block(t->at, len);
        t->at += len;
        status = gtp_gateway_receive(&t->gateway, &source, plane, octets, len, &told);
        CHECK(status != GTP_DONE || told.payload_len <= len);
        free(octets);
    } else if (call == 3) {
        uint8_t room[2048] = {0};
        status = gtp_gateway_take(&t->gateway, room, sizeof room, &d);
        CHECK(status == GTP_DONE || status == GTP_NONE || status == GTP_TOO_SMALL);
        if (status == GTP_DONE) seen(8, d.plane, room[1], t->role);
        if (status == GTP_DONE) read_datagram(d.plane == GTP_USER, room, d.len);
        return;
    } else if (call == 0) {
        status = gtp_gateway_tick(&t->gateway, &told);
    } else {
        uint32_t teid = octet(t);
        struct gtp_session s = wish((uint8_t)(1 + teid % 3));
        struct gtp_quality q = s.quality;
        struct gtp_imsi imsi = gtp_imsi_of("001010123456780");
        imsi.digits[14] = (uint8_t)(teid % 10);
        switch (call) {
            case 4: status = gtp_gateway_create_session(&t->gateway, &s, &imsi, text("internet"), 8, &told); break;
            case 5: status = gtp_gateway_delete_session(&t->gateway, teid, &told); break;
            case 6: status = gtp_gateway_create_bearer(&t->gateway, teid, &q, text("\x21\x10"), 2, &told); break;
            case 7: status = gtp_gateway_delete_bearer(&t->gateway, teid, octet(t) % 16, &told); break;
            case 8: status = gtp_gateway_release_session(&t->gateway, teid, &told); break;
            case 9: status = gtp_gateway_end_marker(&t->gateway, teid, &told); break;
            case 10: status = gtp_gateway_send_user(&t->gateway, teid, text("packet"), 6, &told); break;
            default: status = gtp_gateway_echo(&t->gateway, &told); break;
        }
    }
    answered(t, call, status, &told);
}

static void converse(uint8_t role, uint8_t switches, const uint8_t *octets, size_t len) {
    struct talk t = { .role = role, .at = octets, .end = octets + len };
    struct gtp_setup s = setup_of(role, false);
    s.switches = switches;
    CHECK(gtp_gateway_new(&t.gateway, &s, text("internet"), 8) == GTP_DONE);
    while (t.at < t.end) step(&t);
    CHECK(gtp_gateway_free(&t.gateway) == GTP_DONE);
}

int LLVMFuzzerTestOneInput(const uint8_t *data, size_t size);
int LLVMFuzzerTestOneInput(const uint8_t *data, size_t size) {
    if (!size) return 0;
    uint8_t *octets = block(data + 1, size - 1);
    if (data[0] < 2) read_datagram(data[0], octets, size - 1);
    else if (data[0] < 4) converse(data[0] - 2, 0, octets, size - 1);
    else if (data[0] < 6) converse(data[0] - 4, GTP_SWITCH_NETWORK_IDENTIFIERS | GTP_SWITCH_VERSION_NOT_SUPPORTED, octets, size - 1);
    free(octets);
    return 0;
}

#ifdef SEEDS
/* What each gateway was handed, as a conversation. */
static uint8_t handed[2][65536];
static size_t lengths[2];

static void hand(int role, const void *octets, size_t len) { memcpy(handed[role] + lengths[role], octets, len); lengths[role] += len; }

static void command(gtp_gateway *g, int role, uint8_t call, uint8_t teid, uint8_t more) {
    uint8_t octets[3] = { call, teid, more };
    hand(role, octets, call == 7 ? 3 : call == 0 ? 1 : 2);
    struct talk t = { .gateway = *g, .role = (uint8_t)role, .at = octets, .end = octets + 3 };
    step(&t);
    *g = t.gateway;
}

static void carry(gtp_gateway *from, gtp_gateway *to, int role) {
    uint8_t room[2048] = {0}, took = 3;
    struct gtp_datagram d;
    struct gtp_told told;
    memset(&d, 0, sizeof d); memset(&told, 0, sizeof told);
    while (gtp_gateway_take(from, room, sizeof room, &d) == GTP_DONE) {
        uint8_t head[4] = { 1, d.plane, (uint8_t)(d.len >> 8), (uint8_t)d.len };
        hand(1 - role, &took, 1);
        hand(role, head, 4);
        hand(role, room, d.len);
        CHECK(gtp_gateway_receive(to, &d.from, d.plane, room, d.len, &told) == GTP_DONE);
    }
}

int main(void) {
    gtp_gateway g[2] = {0};
    for (int role = 0; role < 2; role++) {
        struct gtp_setup s = setup_of((uint8_t)role, false);
        CHECK(gtp_gateway_new(&g[role], &s, text("internet"), 8) == GTP_DONE);
    }
    /* role, call, the first operand by kind of context, and what else: the TEIDs are drawn from 1 on. */
    static const uint8_t calls[][4] = { { 0, 4, 0, 0 }, { 0, 10, 2, 0 }, { 1, 10, 2, 0 }, { 1, 6, 1, 0 }, { 1, 9, 3, 0 }, { 1, 7, 1, 6 },
        { 0, 11, 0, 0 }, { 1, 11, 0, 0 }, { 0, 4, 1, 0 }, { 0, 5, 1, 0 }, { 1, 8, 4, 0 }, { 0, 0, 0, 0 }, { 0, 4, 2, 0 } };
    for (size_t i = 0; i < sizeof calls / sizeof *calls; i++) {
        command(&g[calls[i][0]], calls[i][0], calls[i][1], calls[i][2], calls[i][3]);
        for (int n = 0; n < 3; n++) { carry(&g[0], &g[1], 1); carry(&g[1], &g[0], 0); }
        for (int role = 0; role < 2; role++) {
            printf("%02x", role + 2);
            for (size_t k = 0; k < lengths[role]; k++) printf("%02x", handed[role][k]);
            putchar('\n');
        }
    }
    for (int role = 0; role < 2; role++) CHECK(gtp_gateway_free(&g[role]) == GTP_DONE);
    return 0;
}
#endif
