/* Two gateways in one process, with addresses of both IP versions: sessions and bearers open, also by a template, packets go both
 * ways, bearers and sessions end, ticks pass, buffers are too small, and handles are empty, filled, emptied and filled again. What
 * is no message and no value of an element is not written. */
#include "check.h"

/* Each datagram that waits at `from` goes to `to`, in a block of its own length; every smaller room is too small. */
static unsigned carry(gtp_gateway *from, gtp_gateway *to, struct gtp_told *told) {
    for (unsigned count = 0;; count++) {
        struct gtp_datagram d = {0}, again = {0};
        uint8_t none[1] = {0};
        uint8_t status = gtp_gateway_take(from, none, 0, &d);
        if (status == GTP_NONE) return count;
        CHECK(status == GTP_TOO_SMALL && d.len > 0);
        uint8_t *octets = malloc(d.len), *wide = malloc(d.len + 8);
        memset(wide, 0xa5, d.len + 8);
        for (uint64_t room = 1; room < d.len; room++) {
            uint8_t *small = malloc(room);
            memset(small, 0xa5, room);
            CHECK(gtp_gateway_take(from, small, room, &again) == GTP_TOO_SMALL && again.len == d.len);
            for (uint64_t i = 0; i < room; i++) CHECK(small[i] == 0xa5);
            free(small);
        }
        CHECK(gtp_gateway_take(from, wide, d.len + 8, &again) == GTP_DONE && !memcmp(&d.to, &again.to, sizeof d.to));
        for (int i = 0; i < 8; i++) CHECK(wide[d.len + i] == 0xa5);
        memcpy(octets, wide, d.len);
        free(wide);
        CHECK(d.to.port == (d.plane == GTP_CONTROL ? 2123 : 2152) && d.from.port == d.to.port);
        CHECK(gtp_gateway_receive(to, &d.from, d.plane, octets, d.len, told) == GTP_DONE);
        if (told->outcome.kind == GTP_ACCEPTED) CHECK(told->payload_len <= d.len && octets[d.len - told->payload_len] == 'p');
        free(octets);
    }
}

static unsigned sessions(gtp_gateway *g, struct gtp_session_row *last) {
    unsigned n = 0;
    uint32_t before = 0;
    struct gtp_session_row row, same;
    memset(&row, 0, sizeof row); memset(&same, 0, sizeof same);
    while (gtp_gateway_session_at(g, n, &row) == GTP_DONE) {
        CHECK(row.teid > before && gtp_gateway_session(g, row.teid, &same) == GTP_DONE && same.imsi.count == row.imsi.count);
        before = row.teid; *last = row; n++;
    }
    CHECK(gtp_gateway_session_at(g, UINT64_MAX, &row) == GTP_NONE);
    return n;
}

static unsigned bearers(gtp_gateway *g, struct gtp_bearer_row *last) {
    unsigned n = 0;
    struct gtp_bearer_row row, same;
    memset(&row, 0, sizeof row); memset(&same, 0, sizeof same);
    while (gtp_gateway_bearer_at(g, n, &row) == GTP_DONE) {
        CHECK(gtp_gateway_bearer(g, row.teid, &same) == GTP_DONE && same.session == row.session);
        *last = row; n++;
    }
    return n;
}

static void exchange(bool six) {
    gtp_gateway serving = {0}, packet = {0};
    struct gtp_setup s = setup_of(GTP_SERVING, six), p = setup_of(GTP_PACKET, six);
    struct gtp_told told;
    struct gtp_session_row session; struct gtp_bearer_row bearer;
    memset(&told, 0, sizeof told); memset(&session, 0, sizeof session); memset(&bearer, 0, sizeof bearer);
    CHECK(gtp_gateway_new(&serving, &s, text(""), 0) == GTP_DONE);
    CHECK(gtp_gateway_new(&packet, &p, text("internet,ims"), 12) == GTP_DONE);

    CHECK(create(&serving, "001010123456789", six ? 2 : 1, &told) == GTP_DONE);
    CHECK(told.outcome.kind == GTP_BEGUN && told.waiting == 1 && sessions(&serving, &session) == 1 && session.teid == told.teid);
    CHECK(session.state == 0 && !session.has_remote && session.imsi.digits[14] == 9 && session.access_point.len == 9);
    CHECK(carry(&serving, &packet, &told) == 1 && told.outcome.kind == GTP_ANSWERED && told.outcome.cause == 16 && told.made);
    CHECK(told.counted && told.counter == 1 && told.restarted == 0);
    CHECK(carry(&packet, &serving, &told) == 1 && told.outcome.kind == GTP_OPENED);
    CHECK(sessions(&serving, &session) == 1 && session.state == 1 && session.has_remote);
    CHECK(six ? session.has_v6 && !session.has_v4 : session.has_v4 && !session.has_v6 && session.v4[0] == 10);
    uint32_t serving_session = session.teid, packet_session = session.remote;

    CHECK(bearers(&serving, &bearer) == 1 && bearer.state == 1 && bearer.identity == 5 && !bearer.dedicated);
    uint32_t up = bearer.teid, down = bearer.remote;
    static uint8_t long_packet[65001];
    CHECK(gtp_gateway_send_user(&serving, up, long_packet, sizeof long_packet, &told) == GTP_REFUSED && told.outcome.cause == 8);
    CHECK(gtp_gateway_send_user(&serving, up, text("p1"), 2, &told) == GTP_DONE && told.outcome.kind == GTP_GONE_OUT && told.teid == 0);
    CHECK(carry(&serving, &packet, &told) == 1 && told.outcome.kind == GTP_ACCEPTED && told.teid == down && told.payload_len == 2);
    CHECK(gtp_gateway_send_user(&packet, down, text("p"), 1, &told) == GTP_DONE);
    CHECK(carry(&packet, &serving, &told) == 1 && told.outcome.kind == GTP_ACCEPTED && told.teid == up);

    struct gtp_quality quality = wish(1).quality;
    quality.qci = 1;
    CHECK(gtp_gateway_create_bearer(&packet, packet_session, &quality, text("\x21\x10\x00"), 3, &told) == GTP_DONE);
    CHECK(carry(&packet, &serving, &told) == 1 && told.outcome.kind == GTP_ANSWERED && told.made);
    CHECK(carry(&serving, &packet, &told) == 1 && told.outcome.kind == GTP_OPENED);
    CHECK(bearers(&packet, &bearer) == 2 && bearer.dedicated && bearer.session == packet_session && bearer.identity >= 5);
    CHECK(gtp_gateway_end_marker(&packet, bearer.teid, &told) == GTP_DONE && told.outcome.kind == GTP_GONE_OUT && told.teid == 0);
    CHECK(carry(&packet, &serving, &told) == 1 && told.outcome.kind == GTP_ENDED);
    CHECK(gtp_gateway_end_marker(&packet, bearer.teid, &told) == GTP_REFUSED && told.outcome.cause == 7 && told.waiting == 0);
    CHECK(gtp_gateway_delete_bearer(&packet, packet_session, bearer.identity, &told) == GTP_DONE);
    CHECK(carry(&packet, &serving, &told) == 1 && told.outcome.kind == GTP_ANSWERED);
    CHECK(carry(&serving, &packet, &told) == 1 && told.outcome.kind == GTP_CLOSED && bearers(&packet, &bearer) == 1);

    CHECK(gtp_gateway_echo(&serving, &told) == GTP_DONE && told.teid == 0);
    CHECK(carry(&serving, &packet, &told) == 1 && told.outcome.kind == GTP_ECHOED);
    CHECK(carry(&packet, &serving, &told) == 1 && told.outcome.kind == GTP_ALIVE);

    /* A request that is lost comes again after three ticks. */
    CHECK(create(&serving, "001010123456780", 1, &told) == GTP_DONE);
    { uint8_t lost[2048] = {0}; struct gtp_datagram d = {0}; CHECK(gtp_gateway_take(&serving, lost, sizeof lost, &d) == GTP_DONE); }
    for (int tick = 1; tick <= 3; tick++)
        CHECK(gtp_gateway_tick(&serving, &told) == GTP_DONE && told.outcome.kind == GTP_TICKED && told.waiting == (tick == 3));
    CHECK(carry(&serving, &packet, &told) == 1 && carry(&packet, &serving, &told) == 1 && told.outcome.kind == GTP_OPENED);
    CHECK(sessions(&packet, &session) == 2);

    CHECK(gtp_gateway_delete_session(&serving, serving_session, &told) == GTP_DONE);
    CHECK(carry(&serving, &packet, &told) == 1 && carry(&packet, &serving, &told) == 1 && told.outcome.kind == GTP_CLOSED);
    CHECK(sessions(&packet, &session) == 1);
    CHECK(gtp_gateway_release_session(&packet, session.teid, &told) == GTP_DONE);
    CHECK(carry(&packet, &serving, &told) == 1 && carry(&serving, &packet, &told) == 1 && sessions(&packet, &session) == 0);
    CHECK(gtp_gateway_session(&packet, 1, &session) == GTP_NONE && gtp_gateway_bearer(&packet, 1, &bearer) == GTP_NONE);

    CHECK(gtp_gateway_free(&serving) == GTP_DONE && gtp_gateway_free(&packet) == GTP_DONE);
}

/* The datagram that waits at `from`, and only it, goes to `to`: its message has the first type, and the second message the other. */
static void hand_pair(gtp_gateway *from, gtp_gateway *to, uint8_t first, uint8_t second, struct gtp_told *told) {
    uint8_t octets[2048] = {0}, none[1] = {0};
    struct gtp_datagram d; struct gtp_head head; struct gtp_fault fault;
    memset(&d, 0, sizeof d); memset(&head, 0, sizeof head); memset(&fault, 0, sizeof fault);
    CHECK(gtp_gateway_take(from, octets, sizeof octets, &d) == GTP_DONE && d.plane == GTP_CONTROL);
    CHECK(gtp_gateway_take(from, none, 0, &d) == GTP_NONE);
    CHECK(gtp_control_read(octets, d.len, &head, &fault) == GTP_DONE && head.kind == first && head.second_len);
    uint64_t len = head.second_len;
    CHECK(gtp_control_read(octets + d.len - len, len, &head, &fault) == GTP_DONE && head.kind == second && !head.second_len);
    CHECK(gtp_gateway_receive(to, &d.from, d.plane, octets, d.len, told) == GTP_DONE);
}

static struct gtp_template template_of(uint8_t access_point, uint8_t qci, const char *tft, uint8_t len) {
    struct gtp_template t;
    memset(&t, 0, sizeof t);
    t.access_point = access_point;
    t.quality.pl = 2; t.quality.qci = qci;
    t.tft_len = len; memcpy(t.tft, tft, len);
    return t;
}

/* A packet gateway with templates: a session of their access point is answered with a second message in the same datagram, and the
 * bearer stands at both gateways then. A session of another access point has its default bearer alone. */
static void templates(void) {
    gtp_gateway serving = {0}, packet = {0};
    struct gtp_setup s = setup_of(GTP_SERVING, false), p = setup_of(GTP_PACKET, false);
    struct gtp_told told; struct gtp_bearer_row here, there;
    memset(&told, 0, sizeof told); memset(&here, 0, sizeof here); memset(&there, 0, sizeof there);
    p.template_count = 2;
    p.templates[0] = template_of(1, 1, "\x21\x10\x00", 3);
    p.templates[1] = template_of(1, 2, "\x21\x10\x01", 3);
    CHECK(gtp_gateway_new(&serving, &s, text(""), 0) == GTP_DONE && gtp_gateway_new(&packet, &p, text("ims,internet"), 12) == GTP_DONE);
    CHECK(create(&serving, "001010123456789", 1, &told) == GTP_DONE && carry(&serving, &packet, &told) == 1);
    CHECK(told.outcome.kind == GTP_ANSWERED && told.outcome.cause == 16 && told.waiting == 1 && bearers(&packet, &there) == 2);
    hand_pair(&packet, &serving, GTP_CREATE_SESSION_RESPONSE, GTP_CREATE_BEARER_REQUEST, &told);
    CHECK(told.outcome.kind == GTP_OPENED && told.second.kind == GTP_ANSWERED && told.second.cause == 16 && told.made);
    CHECK(carry(&serving, &packet, &told) == 1 && told.outcome.kind == GTP_OPENED);
    CHECK(bearers(&serving, &here) == 2 && bearers(&packet, &there) == 2 && here.state == 1 && there.state == 1);
    CHECK(here.dedicated && there.dedicated && here.remote == there.teid && there.remote == here.teid && here.identity == there.identity);
    struct gtp_session wanted = wish(1);
    struct gtp_imsi subscriber = gtp_imsi_of("001010123456780");
    CHECK(gtp_gateway_create_session(&serving, &wanted, &subscriber, text("ims"), 3, &told) == GTP_DONE);
    CHECK(carry(&serving, &packet, &told) == 1 && carry(&packet, &serving, &told) == 1 && told.outcome.kind == GTP_OPENED);
    CHECK(told.second.kind == 0 && told.waiting == 0 && bearers(&serving, &here) == 3);
    CHECK(gtp_gateway_free(&serving) == GTP_DONE && gtp_gateway_free(&packet) == GTP_DONE);
}

/* A session is asked for by a name in capitals and with an operator identifier, and is made only where the packet gateway compares
 * network identifiers. */
static void network_identifiers(void) {
    const char name[] = "INTERNET.mnc901.mcc070.gprs";
    for (uint8_t switches = 0; switches <= GTP_SWITCH_NETWORK_IDENTIFIERS; switches++) {
        gtp_gateway serving = {0}, packet = {0};
        struct gtp_setup s = setup_of(GTP_SERVING, false), p = setup_of(GTP_PACKET, false);
        struct gtp_session wanted = wish(1);
        struct gtp_imsi subscriber = gtp_imsi_of("001010123456789");
        struct gtp_told told;
        memset(&told, 0, sizeof told);
        p.switches = switches;
        CHECK(gtp_gateway_new(&serving, &s, text(""), 0) == GTP_DONE && gtp_gateway_new(&packet, &p, text("ims,internet"), 12) == GTP_DONE);
        CHECK(gtp_gateway_create_session(&serving, &wanted, &subscriber, text(name), sizeof name - 1, &told) == GTP_DONE);
        CHECK(carry(&serving, &packet, &told) == 1 && told.outcome.kind == GTP_ANSWERED && told.outcome.cause == (switches ? 16 : 78));
        CHECK(gtp_gateway_free(&serving) == GTP_DONE && gtp_gateway_free(&packet) == GTP_DONE);
    }
}

/* A datagram of GTPv1 is answered with the version that is supported only where the gateway does so. */
static void versions(void) {
    const uint8_t echo[] = { 0x32, 1, 0, 4, 0, 0, 0, 0, 0, 1, 0, 0 }, version[] = { 0x40, 3, 0, 4, 0, 0, 0, 0 };
    for (uint8_t switches = 0; switches <= GTP_SWITCH_VERSION_NOT_SUPPORTED; switches += GTP_SWITCH_VERSION_NOT_SUPPORTED) {
        gtp_gateway packet = {0};
        struct gtp_setup p = setup_of(GTP_PACKET, false);
        struct gtp_end source = { p.peer_control, 40000 };
        struct gtp_datagram d = {0};
        struct gtp_told told;
        uint8_t room[8] = {0};
        memset(&told, 0, sizeof told);
        p.switches = switches;
        CHECK(gtp_gateway_new(&packet, &p, text("internet"), 8) == GTP_DONE);
        CHECK(gtp_gateway_receive(&packet, &source, GTP_CONTROL, echo, sizeof echo, &told) == GTP_DONE && told.outcome.kind == GTP_DROPPED);
        CHECK(told.outcome.cause == (switches ? 12 : 1) && told.outcome.fault == (switches ? 0 : 2));
        CHECK(told.waiting == (switches ? 1 : 0));
        if (switches) {
            CHECK(gtp_gateway_take(&packet, room, sizeof room, &d) == GTP_DONE && d.len == sizeof version);
            CHECK(!memcmp(room, version, sizeof version) && !memcmp(&d.to, &source, sizeof source));
        }
        CHECK(gtp_gateway_take(&packet, room, sizeof room, &d) == GTP_NONE);
        CHECK(gtp_gateway_free(&packet) == GTP_DONE);
    }
}

/* Every call on a handle that is empty says so and changes nothing. */
static void empty(gtp_gateway *g) {
    struct gtp_told told; struct gtp_datagram d; struct gtp_session_row sr; struct gtp_bearer_row br;
    struct gtp_end end = { v4(1), 2123 };
    struct gtp_quality q = wish(1).quality;
    uint8_t octets[4] = {0};
    memset(&told, 0, sizeof told); memset(&d, 0, sizeof d); memset(&sr, 0, sizeof sr); memset(&br, 0, sizeof br);
    CHECK(gtp_gateway_free(g) == GTP_EMPTY && gtp_gateway_tick(g, &told) == GTP_EMPTY && gtp_gateway_echo(g, &told) == GTP_EMPTY);
    CHECK(gtp_gateway_receive(g, &end, 0, octets, 4, &told) == GTP_EMPTY && gtp_gateway_take(g, octets, 4, &d) == GTP_EMPTY);
    CHECK(create(g, "001010123456789", 1, &told) == GTP_EMPTY && gtp_gateway_delete_session(g, 1, &told) == GTP_EMPTY);
    CHECK(gtp_gateway_create_bearer(g, 1, &q, octets, 1, &told) == GTP_EMPTY);
    CHECK(gtp_gateway_delete_bearer(g, 1, 6, &told) == GTP_EMPTY && gtp_gateway_release_session(g, 1, &told) == GTP_EMPTY);
    CHECK(gtp_gateway_end_marker(g, 1, &told) == GTP_EMPTY && gtp_gateway_send_user(g, 1, octets, 1, &told) == GTP_EMPTY);
    CHECK(gtp_gateway_session(g, 1, &sr) == GTP_EMPTY && gtp_gateway_session_at(g, 0, &sr) == GTP_EMPTY);
    CHECK(gtp_gateway_bearer(g, 1, &br) == GTP_EMPTY && gtp_gateway_bearer_at(g, 0, &br) == GTP_EMPTY);
    CHECK(!g->hidden && !g->count);
}

/* Which value of a setup is bad, of several the first. */
static void bad_setups(const struct gtp_setup *s) {
    struct gtp_setup bad;
    char many[17 * 2];
    for (int i = 0; i < 34; i++) many[i] = i % 2 ? ',' : 'a';
#define NAMES(value, change) bad = *s; change; CHECK(gtp_setup_bad_value(&bad, text("internet"), 8) == value)
    NAMES(GTP_SETUP_GOOD, bad.counter = 255);
    NAMES(GTP_SETUP_ROLE, bad.role = 2);
    NAMES(GTP_SETUP_OWN_CONTROL, bad.own_control.version = 5);
    NAMES(GTP_SETUP_OWN_USER, bad.own_user.version = 0; bad.t3 = 0);
    NAMES(GTP_SETUP_PEER_CONTROL, bad.peer_control.version = 255);
    NAMES(GTP_SETUP_PEER_USER, bad.peer_user.version = 7);
    NAMES(GTP_SETUP_T3, bad.t3 = 0);
    NAMES(GTP_SETUP_T3, bad.t3 = 1001);
    NAMES(GTP_SETUP_N3, bad.n3 = 101);
    NAMES(GTP_SETUP_HOLD, bad.hold = 0);
    NAMES(GTP_SETUP_HOLD, bad.hold = 100001);
    NAMES(GTP_SETUP_POOL, bad.pool_count = 65537);
    NAMES(GTP_SETUP_POOL, bad.pool = 0xffffffff; bad.pool_count = 2);
    NAMES(GTP_SETUP_POOL6, bad.pool6_count = 65537);
    NAMES(GTP_SETUP_TEMPLATE_COUNT, bad.template_count = 17);
    NAMES(GTP_SETUP_TEMPLATES, bad.template_count = 1; bad.templates[0].access_point = 1);
    NAMES(GTP_SETUP_TEMPLATES, bad.template_count = 1; bad.templates[0].access_point = 0; bad.templates[0].quality.pl = 16);
    NAMES(GTP_SETUP_GOOD, bad.switches = GTP_SWITCH_NETWORK_IDENTIFIERS);
    NAMES(GTP_SETUP_GOOD, bad.switches = GTP_SWITCH_NETWORK_IDENTIFIERS + GTP_SWITCH_VERSION_NOT_SUPPORTED);
    NAMES(GTP_SETUP_SWITCHES, bad.switches = 4);
#undef NAMES
    CHECK(gtp_setup_bad_value(s, text("inter..net"), 10) == GTP_SETUP_ACCESS_POINTS);
    CHECK(gtp_setup_bad_value(s, text(many), 31) == GTP_SETUP_GOOD && gtp_setup_bad_value(s, text(many), 33) == GTP_SETUP_ACCESS_POINTS);
}

/* And which one of what a session is asked for with. */
static void bad_sessions(void) {
    struct gtp_session bad;
    struct gtp_imsi imsi = gtp_imsi_of("001010123456789"), none = gtp_imsi_of("00101x");
#define NAMES(value, change) bad = wish(1); change; CHECK(gtp_session_bad_value(&bad, &imsi, text("internet"), 8) == value)
    NAMES(GTP_SESSION_GOOD, bad.rat = 255);
    NAMES(GTP_SESSION_IDENTITY, bad.identity = 4);
    NAMES(GTP_SESSION_NETWORK, bad.network[0] = 10; bad.pdn = 8);
    NAMES(GTP_SESSION_QUALITY, bad.quality.pl = 16);
    NAMES(GTP_SESSION_QUALITY, bad.quality.mbr_down = 1ull << 40);
    NAMES(GTP_SESSION_SELECTION, bad.selection = 4);
    NAMES(GTP_SESSION_PDN, bad.pdn = 8);
#undef NAMES
    bad = wish(1);
    CHECK(gtp_session_bad_value(&bad, &none, text(""), 0) == GTP_SESSION_IMSI);
    CHECK(gtp_session_bad_value(&bad, &imsi, text(""), 0) == GTP_SESSION_ACCESS_POINT);
}

static void handles(void) {
    gtp_gateway g = {0}, moved;
    struct gtp_setup s = setup_of(GTP_PACKET, false), bad;
    struct gtp_told told;
    memset(&told, 0, sizeof told);
    empty(&g);
    bad = s; bad.t3 = 0; CHECK(gtp_gateway_new(&g, &bad, text("internet"), 8) == GTP_BAD_VALUE);
    bad = s; bad.role = 2; CHECK(gtp_gateway_new(&g, &bad, text("internet"), 8) == GTP_BAD_VALUE);
    bad = s; bad.own_user.version = 5; CHECK(gtp_gateway_new(&g, &bad, text("internet"), 8) == GTP_BAD_VALUE);
    bad = s; bad.pool_count = 65537; CHECK(gtp_gateway_new(&g, &bad, text("internet"), 8) == GTP_BAD_VALUE);
    bad = s; bad.pool6_count = 65537; CHECK(gtp_gateway_new(&g, &bad, text("internet"), 8) == GTP_BAD_VALUE);
    CHECK(gtp_gateway_new(&g, &s, text("inter..net"), 10) == GTP_BAD_VALUE);
    bad = s; bad.template_count = 17; CHECK(gtp_gateway_new(&g, &bad, text("internet"), 8) == GTP_BAD_VALUE);
    bad = s; bad.template_count = 1; CHECK(gtp_gateway_new(&g, &bad, text(""), 0) == GTP_BAD_VALUE);
    bad.templates[0].access_point = 1; CHECK(gtp_gateway_new(&g, &bad, text("internet"), 8) == GTP_BAD_VALUE);
    bad.templates[0].access_point = 0; bad.templates[0].quality.pl = 16;
    CHECK(gtp_gateway_new(&g, &bad, text("internet"), 8) == GTP_BAD_VALUE);
    CHECK(gtp_gateway_new(&g, &s, text("a\xff"), 2) == GTP_BAD_VALUE);
    bad_setups(&s);
    empty(&g);
    CHECK(gtp_gateway_new(&g, &s, text("internet"), 8) == GTP_DONE && gtp_gateway_new(&g, &s, text("internet"), 8) == GTP_NOT_EMPTY);
    moved = g; memset(&g, 0, sizeof g);
    empty(&g);
    CHECK(gtp_gateway_tick(&moved, &told) == GTP_DONE && gtp_gateway_free(&moved) == GTP_DONE);
    empty(&moved);
    CHECK(gtp_gateway_new(&moved, &s, text("ims"), 3) == GTP_DONE && gtp_gateway_free(&moved) == GTP_DONE);
    empty(&moved);
}

static void refusals(void) {
    gtp_gateway packet = {0};
    struct gtp_setup s = setup_of(GTP_PACKET, false);
    struct gtp_told told;
    struct gtp_end peer = { v4(1), 2123 }, stranger = { v4(9), 2123 }, nowhere = { { 7, {0} }, 2123 };
    struct gtp_quality q = wish(1).quality;
    uint8_t echo[13] = { 0x40, 1, 0, 9, 0, 0, 1, 0, 3, 0, 1, 0, 1 };
    memset(&told, 0, sizeof told);
    CHECK(gtp_gateway_new(&packet, &s, text("internet"), 8) == GTP_DONE);
    CHECK(create(&packet, "001010123456789", 1, &told) == GTP_REFUSED && told.outcome.kind == GTP_NOT_BEGUN && told.outcome.cause == 3);
    bad_sessions();
    CHECK(create(&packet, "00101x", 1, &told) == GTP_BAD_VALUE && create(&packet, "001010123456789", 8, &told) == GTP_BAD_VALUE);
    CHECK(gtp_gateway_release_session(&packet, 1, &told) == GTP_REFUSED && told.outcome.cause == 1);
    CHECK(gtp_gateway_delete_bearer(&packet, 1, 4, &told) == GTP_BAD_VALUE && gtp_gateway_delete_bearer(&packet, 1, 6, &told) == GTP_REFUSED);
    q.pl = 16; CHECK(gtp_gateway_create_bearer(&packet, 1, &q, echo, 1, &told) == GTP_BAD_VALUE);
    q.pl = 1; q.gbr_up = 1ull << 40; CHECK(gtp_gateway_create_bearer(&packet, 1, &q, echo, 1, &told) == GTP_BAD_VALUE);
    CHECK(gtp_gateway_receive(&packet, &stranger, GTP_CONTROL, echo, 13, &told) == GTP_DONE && told.outcome.kind == GTP_DROPPED && told.outcome.cause == 11);
    CHECK(gtp_gateway_receive(&packet, &nowhere, GTP_CONTROL, echo, 13, &told) == GTP_BAD_VALUE);
    CHECK(gtp_gateway_receive(&packet, &peer, 7, echo, 13, &told) == GTP_BAD_VALUE);
    for (size_t n = 0; n < 13; n++) {
        uint8_t *cut = malloc(n ? n : 1);
        memcpy(cut, echo, n);
        CHECK(gtp_gateway_receive(&packet, &peer, GTP_CONTROL, cut, n, &told) == GTP_DONE && told.outcome.cause == 1 && told.outcome.fault);
        free(cut);
    }
    static uint8_t more[70000];
    more[0] = 0x30; more[1] = 255;
    peer.port = 2152;
    CHECK(gtp_gateway_receive(&packet, &peer, GTP_USER, more, sizeof more, &told) == GTP_DONE && told.outcome.kind == GTP_DROPPED
          && told.outcome.cause == 1 && told.outcome.fault == 4);
    peer.port = 2123;
    q.gbr_up = 0;
    CHECK(gtp_gateway_create_bearer(&packet, 1, &q, more, 256, &told) == GTP_BAD_VALUE);
    CHECK(create(&packet, "", 1, &told) == GTP_BAD_VALUE);
    /* Nobody takes: it fills, says so, and goes on once one is taken. */
    uint8_t status;
    unsigned long steps = 0;
    while ((status = gtp_gateway_receive(&packet, &peer, GTP_CONTROL, echo, 13, &told)) == GTP_DONE) {
        steps++;
        unsigned long number = steps > 4000 ? 1 : steps;
        echo[5] = (uint8_t)(number >> 8); echo[6] = (uint8_t)number;
    }
    CHECK(status == GTP_FULL && told.waiting == 4097);
    { uint8_t one[64] = {0}; struct gtp_datagram d; memset(&d, 0, sizeof d); CHECK(gtp_gateway_take(&packet, one, sizeof one, &d) == GTP_DONE); }
    CHECK(gtp_gateway_receive(&packet, &peer, GTP_CONTROL, echo, 13, &told) == GTP_DONE);
    CHECK(gtp_gateway_free(&packet) == GTP_DONE);
}

/* What is not written: messages that there are not. */
static void not_written(void) {
    uint8_t room[64] = {0}, types[256] = {0};
    uint64_t size = 7;
    struct gtp_user_head head;
    memset(&head, 0, sizeof head);
    head.kind = 26;
    CHECK(gtp_user_write(room, sizeof room, &head, types, 0, &size) == GTP_BAD_VALUE);
    head.has_seq = 1;
    CHECK(gtp_user_write(room, sizeof room, &head, types, 0, &size) == GTP_BAD_VALUE);
    head.kind = 31;
    CHECK(gtp_user_write(room, sizeof room, &head, types, 256, &size) == GTP_BAD_VALUE && size == 7 && room[0] == 0);
    head.kind = 1; head.has_seq = 0;
    CHECK(gtp_user_write(room, sizeof room, &head, types, 0, &size) == GTP_BAD_VALUE);
    head.has_seq = 1; head.seq = 0x0102;
    CHECK(gtp_user_write(room, sizeof room, &head, types, 0, &size) == GTP_DONE && size == 12 && room[0] == 0x32 && room[9] == 2);
    CHECK(gtp_version(room, sizeof room, &size) == GTP_DONE && size == strlen(GTP_VERSION) && !memcmp(room, GTP_VERSION, size));
    CHECK(gtp_version(room, 2, &size) == GTP_TOO_SMALL);
}

/* The longest whose length two octets state, and one octet more. */
static void longest(void) {
    static uint8_t octets[65536], room[65543], more[70000];
    uint64_t size = 0;
    struct gtp_head head; struct gtp_user_head user; struct gtp_fault fault;
    memset(&head, 0, sizeof head); memset(&user, 0, sizeof user); memset(&fault, 0, sizeof fault);
    more[0] = 0x48; more[1] = 34;
    CHECK(gtp_control_read(more, sizeof more, &head, &fault) == GTP_FAULTY && fault.number == 3 && fault.held == 69996);
    more[0] = 0x30; more[1] = 255;
    CHECK(gtp_user_read(more, sizeof more, &user, &fault) == GTP_FAULTY && fault.number == 4 && fault.held == 69992);
    head.kind = 34; head.has_teid = 1; user.kind = 255;
    CHECK(gtp_control_write(room, sizeof room, &head, octets, 65527, &size) == GTP_DONE && size == 65539);
    CHECK(gtp_control_write(room, sizeof room, &head, octets, 65528, &size) == GTP_BAD_VALUE);
    CHECK(gtp_packet_write(room, sizeof room, 1, octets, 65535, &size) == GTP_DONE && size == 65543);
    CHECK(gtp_packet_write(room, sizeof room, 1, octets, 65536, &size) == GTP_BAD_VALUE);
    CHECK(gtp_user_write(room, sizeof room, &user, octets, 65535, &size) == GTP_DONE && size == 65543);
    CHECK(gtp_user_write(room, sizeof room, &user, octets, 65536, &size) == GTP_BAD_VALUE);
    CHECK(gtp_element_write(room, sizeof room, 4, 1, 0, octets, 65535, &size) == GTP_DONE && size == 65539);
    CHECK(gtp_element_write(room, sizeof room, 4, 1, 0, octets, 65536, &size) == GTP_BAD_VALUE);
}

/* Bodies of elements that there are not, and the worked ones of TS 29.274 clause 8: what is written for their values. */
static void bodies(void) {
    uint8_t room[100] = {0};
    uint64_t size = 7;
    struct gtp_imsi imsi = { 15, { 0, 0, 1, 0, 1, 0, 1, 2, 3, 4, 5, 6, 7, 8, 9 } };
    struct gtp_apn apn = { 9, "\x08internet" };
    struct gtp_network network = { { 0, 0, 1, 0, 1, 15 } };
    struct gtp_paa paa = { 2, 64, { 0 }, { 0x20, 0x01 } };
    struct gtp_cause cause; struct gtp_fteid end; struct gtp_quality quality = wish(1).quality;
    memset(&cause, 0, sizeof cause); memset(&end, 0, sizeof end);
    CHECK(gtp_imsi_write(room, sizeof room, &imsi, &size) == GTP_DONE && size == 8);
    CHECK(!memcmp(room, "\x00\x01\x01\x21\x43\x65\x87\xf9", 8));
    CHECK(gtp_network_write(room, sizeof room, &network, &size) == GTP_DONE && size == 3 && !memcmp(room, "\x00\xf1\x10", 3));
    CHECK(gtp_apn_write(room, sizeof room, &apn, &size) == GTP_DONE && size == 9 && !memcmp(room, "\x08internet", 9));
    CHECK(gtp_paa_write(room, sizeof room, &paa, &size) == GTP_DONE && size == 18 && !memcmp(room, "\x02\x40\x20\x01", 4));
    CHECK(gtp_charging_id_write(room, sizeof room, 0x01020304, &size) == GTP_DONE && size == 4 && !memcmp(room, "\1\2\3\4", 4));
    memset(room, 0xa5, sizeof room);
    CHECK(gtp_element_write(room, sizeof room, 4, 3, 0, text("\7"), 1, &size) == GTP_DONE && size == 5);
    for (size_t i = 0; i < sizeof room; i++) if (i < 4 || i > 8) CHECK(room[i] == 0xa5);
    memcpy(room, "\1\2\3\4", 4);
    size = 7;
    imsi.count = 16; CHECK(gtp_imsi_write(room, sizeof room, &imsi, &size) == GTP_BAD_VALUE);
    imsi.count = 5; CHECK(gtp_imsi_write(room, sizeof room, &imsi, &size) == GTP_BAD_VALUE);
    imsi.count = 6; imsi.digits[5] = 10; CHECK(gtp_imsi_write(room, sizeof room, &imsi, &size) == GTP_BAD_VALUE);
    uint8_t written[8];
    imsi = gtp_imsi_of("001010123456789"); CHECK(gtp_imsi_write(written, sizeof written, &imsi, &(uint64_t){0}) == GTP_DONE);
    const char *none[] = { "", "00101", "0010101234567890", "00101x", "-00101", "001 01" };
    for (int k = 0; k < 6; k++) {
        imsi = gtp_imsi_of(none[k]); CHECK(gtp_imsi_write(room, sizeof room, &imsi, &size) == GTP_BAD_VALUE);
    }
    apn.len = 101; CHECK(gtp_apn_write(room, sizeof room, &apn, &size) == GTP_BAD_VALUE);
    apn.len = 8; CHECK(gtp_apn_write(room, sizeof room, &apn, &size) == GTP_BAD_VALUE);
    network.digits[0] = 10; CHECK(gtp_network_write(room, sizeof room, &network, &size) == GTP_BAD_VALUE);
    paa.pdn = 8; CHECK(gtp_paa_write(room, sizeof room, &paa, &size) == GTP_BAD_VALUE);
    CHECK(gtp_fteid_write(room, sizeof room, &end, &size) == GTP_BAD_VALUE);
    end.has_v4 = 1; end.interface = 64; CHECK(gtp_fteid_write(room, sizeof room, &end, &size) == GTP_BAD_VALUE);
    quality.pl = 16; CHECK(gtp_qos_write(room, sizeof room, &quality, &size) == GTP_BAD_VALUE);
    cause.instance = 16; cause.has_offending = 1; CHECK(gtp_cause_write(room, sizeof room, &cause, &size) == GTP_BAD_VALUE);
    CHECK(gtp_recovery_write(room, sizeof room, 256, &size) == GTP_BAD_VALUE && gtp_ebi_write(room, sizeof room, 16, &size) == GTP_BAD_VALUE);
    CHECK(gtp_rat_write(room, sizeof room, 256, &size) == GTP_BAD_VALUE && gtp_pti_write(room, sizeof room, 256, &size) == GTP_BAD_VALUE);
    CHECK(gtp_pdn_type_write(room, sizeof room, 8, &size) == GTP_BAD_VALUE);
    CHECK(gtp_selection_write(room, sizeof room, 4, &size) == GTP_BAD_VALUE && size == 7 && !memcmp(room, "\1\2\3\4", 4));
}

int main(void) {
    not_written();
    longest();
    exchange(false);
    exchange(true);
    templates();
    network_identifiers();
    versions();
    bodies();
    handles();
    refusals();
    return 0;
}
