/* Times calls of the library for C programs (include/gtp.h): datagrams of either plane read in place, and a user packet received by a
 * gateway. Each call is repeated for about a millisecond, and the best of so many turns counts; the allocations of a call are counted
 * too. Prints a line a measurement, its fields parted by '|': the call, its octets, nanoseconds, allocations.
 *
 *   calls TURNS HEX..    the first five are datagrams of the control plane, the others of the user plane */
#include "gtp.h"
#include <stdio.h>
#include <stdlib.h>
#include <string.h>
#include <time.h>

static uint64_t allocations;
void *__real_malloc(size_t size);
void *__wrap_malloc(size_t size);
void *__wrap_malloc(size_t size) { allocations++; return __real_malloc(size); }

static double now(void) {
    struct timespec t;
    clock_gettime(CLOCK_MONOTONIC, &t);
    return (double)t.tv_sec * 1e9 + (double)t.tv_nsec;
}

struct input { const uint8_t *octets; size_t len; gtp_gateway *gateway; struct gtp_end source; };

static uint8_t read_control(struct input *in) {
    static struct gtp_head head;
    static struct gtp_fault fault;
    return gtp_control_read(in->octets, in->len, &head, &fault);
}

static uint8_t read_user(struct input *in) {
    static struct gtp_user_head head;
    static struct gtp_fault fault;
    return gtp_user_read(in->octets, in->len, &head, &fault);
}

static uint8_t receive(struct input *in) {
    static struct gtp_told told;
    return gtp_gateway_receive(in->gateway, &in->source, GTP_USER, in->octets, in->len, &told) | (told.outcome.kind != GTP_ACCEPTED);
}

static void measure(const char *name, uint8_t (*call)(struct input *), struct input *in, int turns) {
    double best = 1e18;
    uint64_t before = allocations;
    if (call(in)) { fprintf(stderr, "%s: another status than GTP_DONE\n", name); exit(1); }
    uint64_t taken = allocations - before;
    for (int turn = 0; turn < turns; turn++) {
        long times = 20000;
        double began = now();
        for (long i = 0; i < times; i++) call(in);
        double each = (now() - began) / (double)times;
        if (each < best) best = each;
    }
    printf("%s|%zu|%.1f|%llu\n", name, in->len, best, (unsigned long long)taken);
}

/* A serving and a packet gateway with one session, and a packet on its way to the packet gateway. */
static struct input on_the_way(gtp_gateway gateways[2], uint8_t *room) {
    static const struct gtp_address ends[2] = { { 4, { 10, 0, 0, 1 } }, { 4, { 10, 0, 0, 2 } } };
    struct gtp_told told = {0};
    struct gtp_datagram d = {0};
    struct gtp_session wish = { .quality = { .pl = 8, .qci = 9 }, .network = { 0, 0, 1, 0, 1, 15 }, .identity = 5, .rat = 6, .pdn = 1 };
    struct gtp_bearer_row bearer = {0};
    for (int role = 0; role < 2; role++) {
        struct gtp_setup s = { .pool = 0x0a010001, .pool_count = 10, .t3 = 3, .n3 = 3, .hold = 60, .role = (uint8_t)role };
        s.own_control = s.own_user = ends[role];
        s.peer_control = s.peer_user = ends[1 - role];
        gtp_gateway_new(&gateways[role], &s, (const uint8_t *)"internet", 8);
    }
    struct gtp_imsi subscriber = gtp_imsi_of("001010123456789");
    gtp_gateway_create_session(&gateways[0], &wish, &subscriber, (const uint8_t *)"internet", 8, &told);
    for (int from = 0; from < 2; from++)
        while (gtp_gateway_take(&gateways[from], room, 2048, &d) == GTP_DONE) gtp_gateway_receive(&gateways[1 - from], &d.from, d.plane, room, d.len, &told);
    gtp_gateway_bearer_at(&gateways[0], 0, &bearer);
    gtp_gateway_send_user(&gateways[0], bearer.teid, (const uint8_t *)"abc", 3, &told);
    gtp_gateway_take(&gateways[0], room, 2048, &d);
    struct input in = { room, d.len, &gateways[1], d.from };
    return in;
}

int main(int argc, char **argv) {
    int turns = argc > 1 ? atoi(argv[1]) : 15;
    for (int i = 2; i < argc; i++) {
        size_t len = strlen(argv[i]) / 2;
        uint8_t *octets = malloc(len);
        for (size_t k = 0; k < len; k++) { unsigned octet = 0; sscanf(argv[i] + 2 * k, "%2x", &octet); octets[k] = (uint8_t)octet; }
        struct input in = { .octets = octets, .len = len };
        if (i < 7) measure("gtp_control_read", read_control, &in, turns); else measure("gtp_user_read", read_user, &in, turns);
        free(octets);
    }
    static uint8_t room[2048];
    gtp_gateway gateways[2] = {0};
    struct input in = on_the_way(gateways, room);
    measure("gtp_gateway_receive, a user packet", receive, &in, turns);
    gtp_gateway_free(&gateways[0]);
    gtp_gateway_free(&gateways[1]);
    return 0;
}
