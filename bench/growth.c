/* Times each call of both gateways through the library for C programs (include/gtp.h), by how many sessions and bearers stand. Two
 * gateways hold so many sessions, each with its default bearer and so many dedicated ones; then, of sessions chosen at random, bearers
 * are deleted and asked for again, and sessions are deleted, released or ended by an Error Indication, and made again. Each gateway is
 * handed what the other one sends. Prints a line a call, its fields parted by '|': the call, the sessions, the bearers of each, and
 * nanoseconds, of all times of the call the median.
 *
 *   growth SESSIONS BEARERS TURNS     as often as TURNS for each of the three ends of a session */
#include "gtp.h"
#include <stdio.h>
#include <stdlib.h>
#include <string.h>
#include <time.h>

enum { ROOM = 2048, MOST_SESSIONS = 1000, IDENTITY = 5 };
enum gateway { SERVING, PACKET };
enum call {
    CREATE_SESSION, CREATE_SESSION_REQUEST, CREATE_SESSION_RESPONSE, CREATE_BEARER, CREATE_BEARER_REQUEST, CREATE_BEARER_RESPONSE,
    DELETE_BEARER, DELETE_BEARER_REQUEST, DELETE_BEARER_RESPONSE, DELETE_SESSION, DELETE_SESSION_REQUEST, DELETE_SESSION_RESPONSE,
    RELEASE_SESSION, DELETE_BEARER_REQUEST_OF_ALL, DELETE_BEARER_RESPONSE_OF_ALL, SEND_USER, USER_PACKET, ERROR_INDICATION, TICK,
    UNTIMED, CALLS = UNTIMED
};
static const char *const names[CALLS] = {
    "create_session", "Create Session Request", "Create Session Response", "create_bearer", "Create Bearer Request",
    "Create Bearer Response", "delete_bearer", "Delete Bearer Request", "Delete Bearer Response", "delete_session",
    "Delete Session Request", "Delete Session Response", "release_session", "Delete Bearer Request, linked",
    "Delete Bearer Response, linked", "send_user", "G-PDU", "Error Indication", "tick with nothing due"
};

struct session { uint32_t own[2]; };                /* the TEIDs under which each gateway has it */
struct times { double *taken; size_t count, room; };

static gtp_gateway gateways[2];
static struct session sessions[MOST_SESSIONS];
static struct times times_of[CALLS];

static void fail(const char *what, unsigned kind, unsigned cause) {
    fprintf(stderr, "%s: outcome %u, cause %u\n", what, kind, cause);
    exit(1);
}

static double now(void) {
    struct timespec t;
    clock_gettime(CLOCK_MONOTONIC, &t);
    return (double)t.tv_sec * 1e9 + (double)t.tv_nsec;
}

static void note(enum call call, double taken) {
    if (call == UNTIMED) return;
    struct times *times = &times_of[call];
    if (times->count == times->room) {
        times->room = times->room ? 2 * times->room : 64;
        times->taken = realloc(times->taken, times->room * sizeof *times->taken);
        if (!times->taken) exit(1);
    }
    times->taken[times->count++] = taken;
}

/* Numbers in no order, the same in each run. */
static uint32_t drawn(uint32_t below) {
    static uint64_t state = 88172645463325252u;
    state ^= state << 13; state ^= state >> 7; state ^= state << 17;
    return (uint32_t)((state >> 16) % below);
}

/* What the gateway sent is handed to the other one: one datagram, to which it comes to an outcome of this kind. */
static struct gtp_told pass(enum gateway from, enum call call, uint8_t kind) {
    static uint8_t room[ROOM];
    struct gtp_datagram d;
    struct gtp_told told = {0};
    if (gtp_gateway_take(&gateways[from], room, ROOM, &d) != GTP_DONE) fail("a datagram was to be sent", 0, 0);
    double began = now();
    gtp_gateway_receive(&gateways[!from], &d.from, d.plane, room, d.len, &told);
    double taken = now() - began;
    if (told.outcome.kind != kind) fail(call == UNTIMED ? "a datagram" : names[call], told.outcome.kind, told.outcome.cause);
    note(call, taken);
    return told;
}

static void timed(enum call call, double began, const struct gtp_told *told) {
    double taken = now() - began;
    if (told->outcome.kind != GTP_BEGUN && told->outcome.kind != GTP_GONE_OUT && told->outcome.kind != GTP_TICKED)
        fail(call == UNTIMED ? "a command" : names[call], told->outcome.kind, told->outcome.cause);
    note(call, taken);
}

/* A call is timed, or not: what is made before measuring is not. */
static enum call if_timed(int timed, enum call call) { return timed ? call : UNTIMED; }

static void create_bearer(const struct session *s, int is_timed) {
    static const struct gtp_quality quality = { .pl = 8, .qci = 9 };
    static const uint8_t tft[] = { 0x21 };
    struct gtp_told told;
    double began = now();
    gtp_gateway_create_bearer(&gateways[PACKET], s->own[PACKET], &quality, tft, sizeof tft, &told);
    timed(if_timed(is_timed, CREATE_BEARER), began, &told);
    pass(PACKET, if_timed(is_timed, CREATE_BEARER_REQUEST), GTP_ANSWERED);
    pass(SERVING, if_timed(is_timed, CREATE_BEARER_RESPONSE), GTP_OPENED);
}

static void delete_bearer(const struct session *s, uint8_t identity) {
    struct gtp_told told;
    double began = now();
    gtp_gateway_delete_bearer(&gateways[PACKET], s->own[PACKET], identity, &told);
    timed(DELETE_BEARER, began, &told);
    pass(PACKET, DELETE_BEARER_REQUEST, GTP_ANSWERED);
    pass(SERVING, DELETE_BEARER_RESPONSE, GTP_CLOSED);
}

/* A session with so many bearers is made. */
static void create_session(struct session *s, uint32_t bearers, int is_timed) {
    static const struct gtp_session wish = {
        .quality = { .pl = 8, .qci = 9 }, .network = { 0, 0, 1, 0, 1, 15 }, .identity = IDENTITY, .rat = 6, .pdn = 1
    };
    struct gtp_imsi subscriber = gtp_imsi_of("001010123456789");
    struct gtp_session_row row;
    struct gtp_told told;
    double began = now();
    gtp_gateway_create_session(&gateways[SERVING], &wish, &subscriber, (const uint8_t *)"internet", 8, &told);
    timed(if_timed(is_timed, CREATE_SESSION), began, &told);
    s->own[SERVING] = told.teid;
    pass(SERVING, if_timed(is_timed, CREATE_SESSION_REQUEST), GTP_ANSWERED);
    pass(PACKET, if_timed(is_timed, CREATE_SESSION_RESPONSE), GTP_OPENED);
    if (gtp_gateway_session(&gateways[SERVING], s->own[SERVING], &row) != GTP_DONE) fail("the session", 0, 0);
    s->own[PACKET] = row.remote;
    for (uint32_t k = 1; k < bearers; k++) create_bearer(s, 0);
}

static void delete_session(const struct session *s, int is_timed) {
    struct gtp_told told;
    double began = now();
    gtp_gateway_delete_session(&gateways[SERVING], s->own[SERVING], &told);
    timed(if_timed(is_timed, DELETE_SESSION), began, &told);
    pass(SERVING, if_timed(is_timed, DELETE_SESSION_REQUEST), GTP_ANSWERED);
    pass(PACKET, if_timed(is_timed, DELETE_SESSION_RESPONSE), GTP_CLOSED);
}

static void release_session(const struct session *s) {
    struct gtp_told told;
    double began = now();
    gtp_gateway_release_session(&gateways[PACKET], s->own[PACKET], &told);
    timed(RELEASE_SESSION, began, &told);
    pass(PACKET, DELETE_BEARER_REQUEST_OF_ALL, GTP_ANSWERED);
    pass(SERVING, DELETE_BEARER_RESPONSE_OF_ALL, GTP_CLOSED);
}

/* The bearer of a gateway at a place in the order of TEIDs. */
static struct gtp_bearer_row bearer_at(enum gateway gateway, uint64_t place) {
    struct gtp_bearer_row row;
    if (gtp_gateway_bearer_at(&gateways[gateway], place, &row) != GTP_DONE) fail("a bearer", 0, 0);
    return row;
}

static void send_packet(uint32_t bearers_of_all) {
    struct gtp_told told;
    uint32_t teid = bearer_at(SERVING, drawn(bearers_of_all)).teid;
    double began = now();
    gtp_gateway_send_user(&gateways[SERVING], teid, (const uint8_t *)"abc", 3, &told);
    timed(SEND_USER, began, &told);
    pass(SERVING, USER_PACKET, GTP_ACCEPTED);
}

/* The peer does not know the default bearer of a session: at the packet gateway the session goes, and then at the serving one. */
static void break_session(const struct session *s, uint32_t bearers_of_all) {
    static const struct gtp_end source = { { 4, { 10, 0, 0, 1 } }, 2152 };
    struct gtp_user_head head = { .kind = 26, .has_seq = 1, .peer = source.address };
    uint8_t octets[64];
    uint64_t len = 0, low = 0, high = bearers_of_all;
    struct gtp_told told;
    while (low < high) {        /* the default bearer has the first TEID after that of its session */
        uint64_t middle = low + (high - low) / 2;
        if (bearer_at(PACKET, middle).teid > s->own[PACKET]) high = middle; else low = middle + 1;
    }
    struct gtp_bearer_row bearer = bearer_at(PACKET, low);
    if (bearer.session != s->own[PACKET] || bearer.dedicated) fail("the default bearer", 0, 0);
    head.teid = bearer.remote;
    if (gtp_user_write(octets, sizeof octets, &head, NULL, 0, &len) != GTP_DONE) fail("an Error Indication", 0, 0);
    double began = now();
    gtp_gateway_receive(&gateways[PACKET], &source, GTP_USER, octets, len, &told);
    double taken = now() - began;
    if (told.outcome.kind != GTP_BROKEN) fail(names[ERROR_INDICATION], told.outcome.kind, told.outcome.cause);
    note(ERROR_INDICATION, taken);
    delete_session(s, 0);
}

/* A tick of both, in which the answers that are held are forgotten, and one with nothing due. */
static void rest(void) {
    struct gtp_told told;
    for (int k = 0; k < 2; k++) for (int gateway = 0; gateway < 2; gateway++) gtp_gateway_tick(&gateways[gateway], &told);
    double began = now();
    gtp_gateway_tick(&gateways[PACKET], &told);
    timed(TICK, began, &told);
}

static void open_gateways(void) {
    static const struct gtp_address ends[2] = { { 4, { 10, 0, 0, 1 } }, { 4, { 10, 0, 0, 2 } } };
    for (int role = 0; role < 2; role++) {
        struct gtp_setup s = { .pool = 0x0a010001, .pool_count = 65536, .t3 = 1000, .n3 = 0, .hold = 1, .role = (uint8_t)role };
        s.own_control = s.own_user = ends[role];
        s.peer_control = s.peer_user = ends[1 - role];
        if (gtp_gateway_new(&gateways[role], &s, (const uint8_t *)"internet", 8) != GTP_DONE) fail("a gateway", 0, 0);
    }
}

static int by_time(const void *a, const void *b) {
    double x = *(const double *)a, y = *(const double *)b;
    return (x > y) - (x < y);
}

static void print_medians(uint32_t count, uint32_t bearers) {
    for (int call = 0; call < CALLS; call++) {
        struct times *times = &times_of[call];
        if (!times->count) continue;
        qsort(times->taken, times->count, sizeof *times->taken, by_time);
        printf("%s|%u|%u|%.0f\n", names[call], count, bearers, times->taken[times->count / 2]);
    }
}

int main(int argc, char **argv) {
    if (argc != 4) { fprintf(stderr, "growth SESSIONS BEARERS TURNS\n"); return 2; }
    uint32_t count = (uint32_t)atoi(argv[1]), bearers = (uint32_t)atoi(argv[2]);
    int turns = atoi(argv[3]);
    open_gateways();
    for (uint32_t k = 0; k < count; k++) { create_session(&sessions[k], bearers, 0); if (k % 50 == 49) rest(); }
    rest();
    for (int turn = 0; turn < turns; turn++) {
        for (int end = 0; end < 3; end++) {
            struct session *s = &sessions[drawn(count)];
            if (bearers == 1) create_bearer(s, 1);
            delete_bearer(s, (uint8_t)(IDENTITY + 1 + (bearers > 2 ? drawn(bearers - 1) : 0)));
            if (bearers > 1) create_bearer(s, 1);
            send_packet(count * bearers);
            s = &sessions[drawn(count)];
            if (end == 0) delete_session(s, 1);
            else if (end == 1) release_session(s);
            else break_session(s, count * bearers);
            create_session(s, bearers, 1);
            rest();
        }
    }
    print_medians(count, bearers);
    return 0;
}
