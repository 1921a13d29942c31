/* Pairs of gateways, and places of addresses, that are opened by one thread, used by others and closed by the first, under -fsanitize=thread. */
#include "check.h"
#include <pthread.h>

enum { PAIRS = 4 };
struct pair { gtp_gateway serving, packet; gtp_places places; };

static void pass(gtp_gateway *from, gtp_gateway *to, struct gtp_told *told) {
    uint8_t buffer[2048] = {0};
    struct gtp_datagram d;
    memset(&d, 0, sizeof d);
    while (gtp_gateway_take(from, buffer, sizeof buffer, &d) == GTP_DONE)
        CHECK(gtp_gateway_receive(to, &d.from, d.plane, buffer, d.len, told) == GTP_DONE);
}

static void *play(void *word) {
    struct pair *p = word;
    struct gtp_told told;
    memset(&told, 0, sizeof told);
    for (int k = 0; k < 200; k++) {
        struct gtp_address address = v4((uint8_t)k);
        uint64_t place = 0;
        CHECK(gtp_places_add(&p->places, &address) == GTP_DONE);
        CHECK(gtp_places_find(&p->places, &address, &place) == GTP_DONE && place == (uint64_t)k);
        CHECK(create(&p->serving, "001010123456789", 1, &told) == GTP_DONE);
        pass(&p->serving, &p->packet, &told);
        pass(&p->packet, &p->serving, &told);
        CHECK(told.outcome.kind == GTP_OPENED);
    }
    return NULL;
}

int main(void) {
    static struct pair pairs[PAIRS];
    pthread_t threads[PAIRS];
    struct gtp_setup s = setup_of(GTP_SERVING, false), p = setup_of(GTP_PACKET, false);
    for (int i = 0; i < PAIRS; i++) {
        CHECK(gtp_gateway_new(&pairs[i].serving, &s, text(""), 0) == GTP_DONE);
        CHECK(gtp_gateway_new(&pairs[i].packet, &p, text("internet"), 8) == GTP_DONE);
        CHECK(gtp_places_new(&pairs[i].places) == GTP_DONE);
        CHECK(!pthread_create(&threads[i], NULL, play, &pairs[i]));
    }
    for (int i = 0; i < PAIRS; i++) {
        struct gtp_session_row row;
        memset(&row, 0, sizeof row);
        CHECK(!pthread_join(threads[i], NULL));
        CHECK(gtp_gateway_session_at(&pairs[i].packet, 199, &row) == GTP_DONE);
        CHECK(gtp_places_pop(&pairs[i].places) == GTP_DONE && gtp_places_free(&pairs[i].places) == GTP_DONE);
        CHECK(gtp_gateway_free(&pairs[i].serving) == GTP_DONE && gtp_gateway_free(&pairs[i].packet) == GTP_DONE);
    }
    return 0;
}
