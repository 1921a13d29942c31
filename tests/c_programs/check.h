/* What the test programs share. */
#ifndef CHECK_H
#define CHECK_H
#include "gtp.h"
#include <stdio.h>
#include <stdlib.h>
#include <string.h>

#define CHECK(x) do { if (!(x)) { printf("%s:%d: %s\n", __FILE__, __LINE__, #x); exit(1); } } while (0)

static inline const uint8_t *text(const char *s) { return (const uint8_t *)s; }

static inline struct gtp_address v4(uint8_t last) {
    struct gtp_address a = { 4, { 10, 0, 0, last } };
    return a;
}

static inline struct gtp_address v6(uint8_t last) {
    struct gtp_address a = { 6, { 0x20, 0x01, 0x0d, 0xb8 } };
    a.octets[15] = last;
    return a;
}

/* The serving gateway has 1, the packet gateway 2, as the last octet of its addresses. */
static inline struct gtp_setup setup_of(uint8_t role, bool six) {
    struct gtp_setup s = {0};
    uint8_t own = role == GTP_SERVING ? 1 : 2, peer = (uint8_t)(3 - own);
    s.own_control = s.own_user = six ? v6(own) : v4(own);
    s.peer_control = s.peer_user = six ? v6(peer) : v4(peer);
    s.pool = 0x0a010001; s.pool_count = 1000;
    s.pool6[0] = 0x20; s.pool6[1] = 0x01; s.pool6[15] = 1; s.pool6_count = 1000;
    s.t3 = 3; s.n3 = 3; s.hold = 60;
    s.role = role; s.counter = 1;
    return s;
}

static inline struct gtp_session wish(uint8_t pdn) {
    struct gtp_session s = {0};
    s.quality.pl = 8; s.quality.qci = 9;
    s.ambr_up = s.ambr_down = 1000;
    memcpy(s.network, "\0\0\1\0\1\17", 6);
    s.identity = 5; s.rat = 6; s.pdn = pdn;
    return s;
}

static inline uint8_t create(gtp_gateway *g, const char *imsi, uint8_t pdn, struct gtp_told *told) {
    struct gtp_session s = wish(pdn);
    struct gtp_imsi subscriber = gtp_imsi_of(imsi);
    return gtp_gateway_create_session(g, &s, &subscriber, text("internet"), 8, told);
}
#endif
