/* A gateway on UDP: gateway serving|packet OWN PEER [COUNTER], with IPv4 addresses; ports 2123 and 2152 of OWN are its own.
 * It moves octets between its sockets and the gateway, lets a tick pass each second, and reads commands, a line each:
 *   create IMSI NAME    asks for a session (serving)       delete    ends all active sessions
 *   send TEXT           sends a packet on all bearers      list      shows sessions and bearers
 * The restart counter has to be one more at each start (TS 23.007 18); here it is a word of the command line. */
#include "gtp.h"
#include <arpa/inet.h>
#include <poll.h>
#include <stdio.h>
#include <stdlib.h>
#include <string.h>
#include <time.h>
#include <unistd.h>

static int sockets[2];                  /* by enum gtp_plane */
static const uint16_t PORTS[2] = { 2123, 2152 };

static struct gtp_address address_of(uint32_t number) {
    struct gtp_address a = { 4, { (uint8_t)(number >> 24), (uint8_t)(number >> 16), (uint8_t)(number >> 8), (uint8_t)number } };
    return a;
}

static void open_socket(int plane, const char *own) {
    struct sockaddr_in at = { .sin_family = AF_INET, .sin_port = htons(PORTS[plane]) };
    sockets[plane] = socket(AF_INET, SOCK_DGRAM, 0);
    if (sockets[plane] < 0 || inet_pton(AF_INET, own, &at.sin_addr) != 1 || bind(sockets[plane], (struct sockaddr *)&at, sizeof at)) {
        perror(own);
        exit(3);
    }
}

/* Sends all that waits. */
static void flush(gtp_gateway *gateway) {
    static uint8_t octets[65536];
    struct gtp_datagram d;
    memset(&d, 0, sizeof d);
    while (gtp_gateway_take(gateway, octets, sizeof octets, &d) == GTP_DONE) {
        struct sockaddr_in to = { .sin_family = AF_INET, .sin_port = htons(d.to.port) };
        if (d.to.address.version != 4) continue;
        memcpy(&to.sin_addr, d.to.address.octets, 4);
        if (sendto(sockets[d.plane], octets, d.len, 0, (struct sockaddr *)&to, sizeof to) < 0) perror("sendto");
    }
}

static void say(const char *what, uint8_t status, const struct gtp_told *told) {
    printf("%s status %u outcome %u cause %u teid %08x\n", what, status, told->outcome.kind, told->outcome.cause, told->teid);
    fflush(stdout);
}

/* One datagram that came. */
static void receive(gtp_gateway *gateway, int plane) {
    static uint8_t octets[65536];
    struct gtp_told told;
    struct sockaddr_in from;
    socklen_t size = sizeof from;
    ssize_t len = recvfrom(sockets[plane], octets, sizeof octets, 0, (struct sockaddr *)&from, &size);
    if (len < 0) return;
    struct gtp_end source = { address_of(ntohl(from.sin_addr.s_addr)), ntohs(from.sin_port) };
    memset(&told, 0, sizeof told);
    uint8_t status = gtp_gateway_receive(gateway, &source, (uint8_t)plane, octets, (size_t)len, &told);
    say("received", status, &told);
    if (status == GTP_DONE && told.outcome.kind == GTP_ACCEPTED) {
        printf("packet %.*s\n", (int)told.payload_len, (const char *)octets + len - told.payload_len);
        fflush(stdout);
    }
    flush(gateway);
}

static void create(gtp_gateway *gateway, const char *imsi, const char *name) {
    struct gtp_told told;
    struct gtp_session wish = { .quality = { .pl = 8, .qci = 9 }, .ambr_up = 1000, .ambr_down = 1000,
        .network = { 0, 0, 1, 0, 1, 15 }, .identity = 5, .rat = 6, .pdn = 1 };
    memset(&told, 0, sizeof told);
    struct gtp_imsi subscriber = gtp_imsi_of(imsi);
    say("create", gtp_gateway_create_session(gateway, &wish, &subscriber, (const uint8_t *)name, strlen(name), &told), &told);
}

static void each_session(gtp_gateway *gateway, bool ends) {
    struct gtp_session_row row;
    struct gtp_told told;
    memset(&row, 0, sizeof row); memset(&told, 0, sizeof told);
    for (uint64_t i = 0; gtp_gateway_session_at(gateway, i, &row) == GTP_DONE; i++)
        if (!ends) printf("session %08x state %u address %u.%u.%u.%u\n", row.teid, row.state, row.v4[0], row.v4[1], row.v4[2], row.v4[3]);
        else if (row.state == 1) say("delete", gtp_gateway_delete_session(gateway, row.teid, &told), &told);
}

static void each_bearer(gtp_gateway *gateway, const char *text) {
    struct gtp_bearer_row row;
    struct gtp_told told;
    memset(&row, 0, sizeof row); memset(&told, 0, sizeof told);
    for (uint64_t i = 0; gtp_gateway_bearer_at(gateway, i, &row) == GTP_DONE; i++)
        if (!text) printf("bearer %08x state %u identity %u\n", row.teid, row.state, row.identity);
        else if (row.state == 1) say("send", gtp_gateway_send_user(gateway, row.teid, (const uint8_t *)text, strlen(text), &told), &told);
}

/* False at the end of the commands. */
static bool command(gtp_gateway *gateway) {
    char line[256], imsi[64], name[128];
    if (!fgets(line, sizeof line, stdin)) return false;
    line[strcspn(line, "\n")] = 0;
    if (sscanf(line, "create %63s %127s", imsi, name) == 2) create(gateway, imsi, name);
    else if (!strncmp(line, "send ", 5)) each_bearer(gateway, line + 5);
    else if (!strcmp(line, "delete")) each_session(gateway, true);
    else if (!strcmp(line, "list")) { each_session(gateway, false); each_bearer(gateway, NULL); }
    else printf("bad command\n");
    fflush(stdout);
    flush(gateway);
    return true;
}

int main(int argc, char **argv) {
    struct in_addr own, peer;
    if (argc < 4 || inet_pton(AF_INET, argv[2], &own) != 1 || inet_pton(AF_INET, argv[3], &peer) != 1) {
        fputs("usage: gateway serving|packet OWN PEER [COUNTER]\n", stderr);
        return 2;
    }
    struct gtp_setup setup = { .pool = 0x0a010001, .pool_count = 1000, .t3 = 3, .n3 = 3, .hold = 60,
        .role = strcmp(argv[1], "packet") ? GTP_SERVING : GTP_PACKET, .counter = (uint8_t)(argc > 4 ? atoi(argv[4]) : 0) };
    setup.own_control = setup.own_user = address_of(ntohl(own.s_addr));
    setup.peer_control = setup.peer_user = address_of(ntohl(peer.s_addr));
    gtp_gateway gateway = {0};
    if (gtp_gateway_new(&gateway, &setup, (const uint8_t *)"internet", 8) != GTP_DONE) return 3;
    setvbuf(stdin, NULL, _IONBF, 0);    /* so that poll sees each line */
    open_socket(GTP_CONTROL, argv[2]);
    open_socket(GTP_USER, argv[2]);
    struct pollfd ready[3] = { { .fd = sockets[0], .events = POLLIN }, { .fd = sockets[1], .events = POLLIN }, { .fd = 0, .events = POLLIN } };
    for (time_t next = time(NULL) + 1;;) {
        if (poll(ready, 3, 100) < 0) break;
        for (int plane = 0; plane < 2; plane++) if (ready[plane].revents & POLLIN) receive(&gateway, plane);
        if (ready[2].revents && !command(&gateway)) break;
        struct gtp_told told;
        memset(&told, 0, sizeof told);
        for (; time(NULL) >= next; next++) { gtp_gateway_tick(&gateway, &told); flush(&gateway); }
    }
    gtp_gateway_free(&gateway);
    return 0;
}
